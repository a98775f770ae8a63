"""The exceptions of the client."""

from __future__ import annotations

from typing import Any


class MltxError(Exception):
    """What goes wrong between a client and its server."""


class Refused(MltxError):
    """The server answered `error N NAME`. The session goes on, and a transaction that is open stays open.

    `number` is N, `name` is NAME, which is the name of the subclass too, and `meaning` says what that means."""

    meaning = "the server refused it"

    def __init__(self, number: int, name: str) -> None:
        super().__init__(number, name)
        self.number = number
        self.name = name

    def __str__(self) -> str:
        return f"error {self.number} {self.name}: {self.meaning}"


class OutOfMemory(Refused):
    meaning = "the server had no memory for it, or its trace is slow: try again later"


class NoRoom(Refused):
    meaning = "the pages of the server have no room for it: remove objects, or number them densely"


class NoSuchTx(Refused):
    meaning = "no transaction is open: begin one"


class Running(Refused):
    meaning = "a transaction is open already on this connection: end it first, since transactions don't nest"


class TooManyOpen(Refused):
    meaning = "as many transactions are open as may be: try again later, or raise `--sessions` of the server"


class LogFull(Refused):
    meaning = "the transaction has 1,024 operations, and may have no more: split it"


class IdsSpent(Refused):
    meaning = "all numbers of transactions were given out: restart the server"


class ScriptFault(Refused):
    meaning = "the server does not know this line"


class GaveUp(Refused):
    """The operation had to wait for other transactions and used up its tries, or was the youngest of a deadlock.

    What helps is to abort, which lets the others go on, and to begin again. `Client.run` does so."""

    meaning = "other transactions are in the way: abort, and begin again"


class ConnectionLost(MltxError):
    """The connection ended. The server rolls back a transaction that was open, so it may be run again."""


class ServerAway(ConnectionLost):
    """No connection could be made."""


class TimedOut(ConnectionLost):
    """No answer came in time. The client has closed the connection, so the server rolls the transaction back. If an
    operation still waits there, it does so once the wait has ended."""


class SessionsTaken(TimedOut):
    """The first line of a connection got no answer in time, or the server refused the connection, and the client has closed
    it. A server that holds as many sessions as it may (`--sessions`) lets a client connect, and hears it once a session has
    ended; with `--full refuse` it refuses the connection."""


class CommitUnknown(MltxError):
    """The connection ended after a commit was sent and before its answer came: it may have been done or not.

    `transaction` is the transaction's number, or 0 if even that is not known. To run it again could do it twice, so
    `Client.run` doesn't, and this is no `ConnectionLost`. To know, put a mark into each transaction, such as an element of a
    set, look for it, and take it away again: it takes room."""

    def __init__(self, transaction: int) -> None:
        super().__init__(transaction)
        self.transaction = transaction

    def __str__(self) -> str:
        transaction = f"transaction {self.transaction}" if self.transaction else "the transaction"
        return f"the connection ended, and it is not known whether {transaction} was committed"


class PartlyDone(MltxError):
    """Of a `run_all` with `partly` the server refused some operations, and committed the others.

    `commit_number` is the number of the commit, and `outcomes` has for each operation its result, or the `Refused`."""

    def __init__(self, commit_number: int, outcomes: list[Any]) -> None:
        super().__init__(commit_number, outcomes)
        self.commit_number = commit_number
        self.outcomes = outcomes

    def __str__(self) -> str:
        refused = sum(isinstance(it, Refused) for it in self.outcomes)
        return f"commit {self.commit_number} lacks {refused} of {len(self.outcomes)} operations, which the server refused"


class TransactionOver(MltxError):
    """The transaction was committed or aborted before, so nothing was sent."""


class ServerRestarted(MltxError):
    """The server was restarted, and has only what it loaded: its number, of which `admin` tells, is another one, or it gave out
    a number of a transaction that is not above all that the client, or its pool, had seen before it asked. Nothing was done;
    the client has closed the connection, and goes on with the new server when it is used again."""


class WrongThread(MltxError):
    """A client was called while another thread had a call or a transaction of it under way, or with asyncio another task a
    call. Nothing was sent, and the other one goes on."""


class Nested(MltxError):
    """A thread, or a task, that has a transaction of a pool open asked the pool to run another one. Nothing was sent."""


class PoolTimeout(MltxError):
    """No client of the pool was free in time. Nothing was sent."""


class UnexpectedAnswer(MltxError):
    """What answers is no such server. The client has closed the connection."""


class NoSuchClient(MltxError):
    """The server serves no client of this number: it has left, or none came."""


_REFUSALS = {
    kind.__name__: kind
    for kind in (OutOfMemory, NoRoom, NoSuchTx, Running, TooManyOpen, LogFull, IdsSpent, ScriptFault, GaveUp)
}


def refusal(answer: str) -> MltxError:
    """What to raise for an answer that is no reply."""
    word, *rest = answer.split(" ")
    if word == "error" and len(rest) == 2 and rest[0].isdecimal():
        return _REFUSALS.get(rest[1], Refused)(int(rest[0]), rest[1])
    return UnexpectedAnswer(f"the server answered {answer!r}")
