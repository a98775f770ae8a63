"""The parts that the blocking client and the one for asyncio share.

What waits is a coroutine here, and stands once. `mltx.aio` awaits it. The blocking client runs it by `now`: whatever it awaits
there blocks the thread, so that it ends without a pause."""

from __future__ import annotations

import inspect
import logging
import os
import random
import socket
import threading
import time
import warnings
import weakref
from collections.abc import Awaitable, Callable, Coroutine, Iterable, Iterator
from contextlib import contextmanager, suppress
from dataclasses import dataclass
from typing import TYPE_CHECKING, Any, Generic, Optional, Protocol, TypeVar, Union

from .errors import CommitUnknown, ConnectionLost, GaveUp, MltxError, Nested, PartlyDone, PoolTimeout, Refused, ServerAway
from .errors import ServerRestarted, SessionsTaken, TimedOut, TransactionOver, UnexpectedAnswer, WrongThread, refusal
from .operations import FORMS, Operation, Result, number_behind

# How many bytes a session may send: the server ends it there without a word.
MOST_SESSION_BYTES = 16_777_216
# A transaction is begun on a new connection if fewer bytes are left than its lines may take.
TRANSACTION_BYTES = 65_536
# How many lines go out before their answers are read. More could fill the buffers both ways, and both sides would wait.
MOST_UNANSWERED = 256
# A server's answers are shorter, with their line feed.
MOST_ANSWER_BYTES = 200
# The first answer of a connection beyond those that a server holds, if it refuses them.
FULL = b"error 7 TooManyOpen\n"

LOG = logging.getLogger("mltx")
LOG.addHandler(logging.NullHandler())

# Seconds after which a connection that is silent is probed, and between two probes; so many unanswered ones end it.
PROBES = {"TCP_KEEPIDLE": 60, "TCP_KEEPINTVL": 10, "TCP_KEEPCNT": 3}

# A function that hears of each try that failed: its number, why it failed, and the pause before the next one.
OnRetry = Callable[[int, MltxError, float], object]
Method = TypeVar("Method", bound=Callable[..., object])


def named_as(make: Callable[..., object], method: Method) -> Method:
    """Gives a method that asks for what a function of `Operation` makes the name, the text and the arguments of that."""
    signature = inspect.signature(make)
    this = inspect.Parameter("self", inspect.Parameter.POSITIONAL_ONLY)
    result = signature.return_annotation[len("Operation[") : -1]
    given = signature.replace(parameters=[this, *signature.parameters.values()], return_annotation=result)
    method.__name__, method.__doc__ = make.__name__, make.__doc__
    method.__signature__ = given  # type: ignore[attr-defined]
    return method


def set_up(connected: socket.socket) -> None:
    """Has a socket send at once, and find a peer that has vanished."""
    connected.setsockopt(socket.IPPROTO_TCP, socket.TCP_NODELAY, 1)
    connected.setsockopt(socket.SOL_SOCKET, socket.SO_KEEPALIVE, 1)
    for name, value in PROBES.items():
        if hasattr(socket, name):
            connected.setsockopt(socket.IPPROTO_TCP, getattr(socket, name), value)


def now(coroutine: Coroutine[Any, Any, Result]) -> Result:
    """Runs a coroutine to its end, which never pauses."""
    try:
        coroutine.send(None)
    except StopIteration as end:
        # The value of a coroutine has no type here.
        return end.value  # type: ignore[no-any-return]
    raise RuntimeError("a coroutine of asyncio was given to the blocking client")


def parse_address(text: str) -> tuple[str, int]:
    """The host and the port of an address as `127.0.0.1:7000`, `localhost:7000` or `[::1]:7000`. Raises a
    ValueError."""
    host, colon, port = text.rpartition(":")
    if not colon or not host or not (port.isascii() and port.isdecimal()) or not 1 <= int(port) <= 65_535:
        raise ValueError(f"an address is HOST:PORT, as 127.0.0.1:7000, and not {text!r}")
    return host.strip("[]"), int(port)


def find_address(address: Optional[str], port: Optional[int]) -> tuple[str, int]:
    """The host and the port: of a `HOST:PORT`, or of a host before its port, or of the environment variable MLTX_ADDR."""
    if address is not None and port is not None:
        if not 1 <= port <= 65_535:
            raise ValueError(f"port has to be 1 to 65535, and is {port}")
        return address, port
    if address is not None and not isinstance(address, str):
        raise TypeError(f"an address is a text HOST:PORT, as 127.0.0.1:7000, and not {address!r}")
    text = address or os.environ.get("MLTX_ADDR")
    if not text or port is not None:
        raise ValueError("there is no address: give HOST:PORT, or set MLTX_ADDR")
    return parse_address(text)


# Forks


class PerProcess:
    """An object that a forked process can't share with its parent."""

    all: weakref.WeakSet[PerProcess] = weakref.WeakSet()

    def __init__(self) -> None:
        PerProcess.all.add(self)

    def after_fork(self) -> None:
        """Makes it anew in a forked process, whose only thread is the one that forked."""
        raise NotImplementedError


def _after_fork() -> None:
    for it in list(PerProcess.all):
        it.after_fork()


if hasattr(os, "register_at_fork"):
    os.register_at_fork(after_in_child=_after_fork)


# Connections


class Wire(Protocol):
    """The bytes of a connection. A call raises `socket.timeout` after so many seconds, and an OSError if it fails. If `write`
    fails, not all bytes were sent."""

    async def write(self, data: bytes, timeout: Optional[float]) -> None:
        ...

    async def read_line(self, timeout: Optional[float]) -> bytes:
        """The next line with its line feed, or less at the end of the connection."""

    async def has_ended(self) -> bool:
        ...

    def close(self) -> None:
        ...

    def forget(self) -> None:
        """Closes it in a forked process, and leaves it to the parent."""


class Turns(PerProcess):
    """Lets one thread at a time into a client, and raises `WrongThread` in another one. A thread that began a transaction is
    the only one until the transaction ends, or the thread."""

    remedy = "connect a client for each thread, or use a Pool"

    def __init__(self) -> None:
        super().__init__()
        self._lock = threading.Lock()
        self._inside: Any = None
        self._calls = 0
        # The transaction that was begun last, if it still exists.
        self.last: Callable[[], Optional[TransactionCore]] = lambda: None

    def __enter__(self) -> None:
        user = self.user()
        with self._lock:
            if user is not self._inside and (self._calls or self.is_kept()):
                raise WrongThread(f"the client is in use by {self._inside!r}: {self.remedy}")
            self._inside = user
            self._calls += 1

    def __exit__(self, *_: object) -> None:
        with self._lock:
            self._calls -= 1

    def after_fork(self) -> None:
        self._lock = threading.Lock()
        if self._inside is not self.user():
            self._calls = 0

    def has_open(self) -> bool:
        """Whether a transaction is open."""
        last = self.last()
        return last is not None and last.is_open

    def user(self) -> object:
        """The caller."""
        return threading.current_thread()

    def is_kept(self) -> bool:
        """Whether the last caller stays the only one between two calls."""
        return self.has_open() and bool(self._inside.is_alive())


class SessionCore(PerProcess):
    """One connection. Lines go out, and each has one line as its answer, in order.

    If a call fails, or is interrupted, the connection is closed: an answer that is still to come can't be taken for that of a
    later line."""

    def __init__(
        self, wire: Wire, answer_timeout: Optional[float], session_timeout: Optional[float], turns: Optional[Turns]
    ) -> None:
        super().__init__()
        self._wire = wire
        self.turns = turns or Turns()
        self.bytes_left = MOST_SESSION_BYTES
        self.is_open = True
        # Whether the connection is the parent's of this process.
        self.is_inherited = False
        # A `begin` that goes out with the next lines, and the function that is called with its answer.
        self._begin = ""
        self._begun: Optional[Callable[[str], None]] = None
        # Whether an answer came: then it is one of the sessions that the server holds.
        self.is_held = False
        self._answer_timeout = answer_timeout
        # How long the next answer is waited for.
        self._timeout = min((it for it in (answer_timeout, session_timeout) if it is not None), default=None)

    def close(self) -> None:
        """Ends the connection. The server rolls back a transaction that is open."""
        with self.turns:
            self.cut()

    def cut(self) -> None:
        """Ends the connection, from any thread."""
        self.is_open = False
        self._wire.close()

    def after_fork(self) -> None:
        if self.is_open:
            self.is_open, self.is_inherited = False, True
            self._wire.forget()

    def begin_later(self, begun: Callable[[str], None]) -> None:
        """Has `begin` go out with the next lines. Its answer is given to a function."""
        self._begin, self._begun = "begin\n", begun

    def begin_never(self) -> bool:
        """Takes that back if it has not gone out, and returns whether it had not."""
        is_taken_back = bool(self._begin)
        if is_taken_back:
            self._begin, self._begun = "", None
        return is_taken_back

    @contextmanager
    def understood(self) -> Iterator[None]:
        """Closes the connection if an answer is none of this server's."""
        try:
            yield
        except UnexpectedAnswer:
            self.cut()
            raise

    async def _has_ended(self) -> bool:
        with self.turns:
            return not self.is_open or await self._wire.has_ended()

    async def _send(self, *lines: str) -> None:
        with self._call():
            await self._write(lines)

    async def _receive(self, count: int = 1) -> list[str]:
        with self._call():
            await self._read_begun()
            return [await self._read() for _ in range(count)]

    async def _begin_now(self) -> None:
        """Sends a `begin` that was to go out later, and reads its answer."""
        if self._begin:
            with self._call():
                await self._write(())
                await self._read_begun()

    async def _ask(self, *lines: str) -> list[str]:
        answers: list[str] = []
        with self._call():
            for start in range(0, len(lines), MOST_UNANSWERED):
                part = lines[start : start + MOST_UNANSWERED]
                await self._write(part)
                await self._read_begun()
                answers += [await self._read() for _ in part]
        return answers

    async def _write(self, lines: Iterable[str]) -> None:
        text = (self._begin + "".join(line + "\n" for line in lines)).encode("ascii")
        if len(text) > self.bytes_left:
            raise ConnectionLost(f"a session can't send more than {MOST_SESSION_BYTES} bytes")
        self._begin = ""
        await self._wire.write(text, self._timeout)
        self.bytes_left -= len(text)

    async def _read_begun(self) -> None:
        """Reads the answer to a `begin` that went out with other lines."""
        if self._begun:
            begun, self._begun = self._begun, None
            begun(await self._read())

    async def _read(self) -> str:
        answer = await self._wire.read_line(self._timeout)
        if len(answer) >= MOST_ANSWER_BYTES:
            raise UnexpectedAnswer("what answers is no such server: the answer is too long")
        if not answer.endswith(b"\n"):
            # Nothing more is known here: a server ends a connection without a word.
            raise ConnectionLost(
                "the server ended the connection: it was stopped, or the connection was idle or its transaction open for too"
                " long, or an operator ended it"
            )
        if not self.is_held and answer == FULL:
            raise SessionsTaken("all sessions of the server are taken, and it refused the client: give it more --sessions")
        self.is_held, self._timeout = True, self._answer_timeout
        return answer[:-1].decode("ascii", "replace")

    @contextmanager
    def _call(self) -> Iterator[None]:
        """A call, which closes the connection if it fails."""
        with self.turns:
            if not self.is_open:
                raise ConnectionLost("the connection is closed")
            try:
                yield
            except socket.timeout as fault:
                self.cut()
                raise self._too_late() from fault
            except OSError as fault:
                self.cut()
                raise ConnectionLost(f"the connection ended ({fault})") from fault
            except BaseException:
                self.cut()
                raise

    def _too_late(self) -> TimedOut:
        """What to raise if no answer came in time."""
        if self.is_held:
            return TimedOut(f"no answer came within {self._timeout} seconds, and the connection was closed")
        return SessionsTaken(
            f"all sessions of the server are taken, or it has stopped: it connected, and did not answer within {self._timeout}"
            " seconds; give it more --sessions"
        )


# Transactions


class TransactionCore:
    """A transaction of a session."""

    def __init__(self, session: SessionCore, attempt: int = 1) -> None:
        self.session = session
        self._number = 0
        # Which try it is, of `Client.run` or `Client.attempts`.
        self.attempt = attempt
        # The number of its commit, once it is committed.
        self.commit_number: Optional[int] = None
        self._is_over = False

    def __del__(self, warn: Callable[..., None] = warnings.warn) -> None:
        if self.is_open and not self.session.begin_never():
            self.session.cut()
            warn(f"transaction {self._number} was left open, and is rolled back", ResourceWarning, source=self)

    @property
    def number(self) -> int:
        """Its number, which no other transaction of the server has; 0 until the first answer, with which `begin` goes out in
        `run` and `attempts`."""
        return self._number

    @property
    def is_open(self) -> bool:
        """Whether it can be asked for more: it was neither committed nor aborted, and its connection was not closed."""
        return self.session.is_open and not self._is_over

    async def _ask_all(self, operations: Iterable[Operation[Result]]) -> list[Result]:
        self._must_not_be_over()
        asked = all_of(operations)
        answers = await self.session._ask(*[operation.line for operation in asked])
        with self.session.understood():
            return [operation.result(answer) for operation, answer in zip(asked, answers)]

    async def _ask_all_and_commit(self, asked: list[Operation[Result]]) -> list[Result]:
        """Sends the commit with the operations. If some were refused, but not all, it raises `PartlyDone`."""
        with self.session.turns:
            await self.session._send(*[operation.line for operation in asked], "commit")
            try:
                *answers, committed = await self.session._receive(len(asked) + 1)
            except ConnectionLost as lost:
                raise self._unknown(lost) from lost
            with self.session.understood():
                outcomes = [outcome_of(operation, answer) for operation, answer in zip(asked, answers)]
                self.commit_number = number_behind("committed", committed)
            self._is_over = True
        refused = [it for it in outcomes if isinstance(it, Refused)]
        if not refused:
            return outcomes  # type: ignore[return-value]
        if len(refused) < len(outcomes):
            raise PartlyDone(self.commit_number, outcomes)
        # Nothing was done, so it may be run again.
        self.commit_number = None
        raise refused[0]

    def _unknown(self, lost: ConnectionLost) -> CommitUnknown:
        self._is_over = True
        LOG.warning("it is not known whether transaction %d was committed: %s", self._number, lost)
        return CommitUnknown(self._number)

    async def _commit(self) -> int:
        self._must_not_be_over()
        with self.session.turns:
            await self.session._begin_now()
            if await self.session._has_ended():
                self.session.cut()
                raise ConnectionLost("the connection ended before the commit")
            await self.session._send("commit")
            try:
                (answer,) = await self.session._receive()
            except ConnectionLost as lost:
                raise self._unknown(lost) from lost
            with self.session.understood():
                self.commit_number = number_behind("committed", answer)
            self._is_over = True
            return self.commit_number

    async def _abort(self) -> None:
        self._must_not_be_over()
        with self.session.turns:
            self._is_over = True
            if self.session.begin_never():
                return
            answer = (await self.session._ask("abort"))[0]
            if answer != "aborted":
                with self.session.understood():
                    raise refusal(answer)

    async def _leave(self, is_well: bool) -> None:
        """Commits at a good end of a block, and aborts at another one. If the connection ends meanwhile, the server rolls the
        transaction back."""
        try:
            if is_well and not self._is_over:
                await self._commit()
        finally:
            if self.is_open:
                try:
                    await self._abort()
                except ConnectionLost:
                    pass

    def _must_not_be_over(self) -> None:
        if self.session.is_inherited:
            raise TransactionOver(f"transaction {self._number} is that of the process that forked this one")
        if self._is_over:
            ended = f"committed as number {self.commit_number}" if self.commit_number else "ended"
            raise TransactionOver(f"transaction {self._number} was {ended} before")


def all_of(operations: Iterable[Operation[Result]]) -> list[Operation[Result]]:
    """The operations as a list. Raises a TypeError where one is none."""
    asked = list(operations)
    for operation in asked:
        if not isinstance(operation, Operation):
            raise TypeError(f"an operation is made by mltx.Operation, as Operation.up(7, 1), and {operation!r} is none")
    return asked


def outcome_of(operation: Operation[Result], answer: str) -> Union[Result, Refused]:
    """The result of an operation, or the refusal."""
    try:
        return operation.result(answer)
    except Refused as refused:
        return refused


@dataclass(frozen=True)
class Retries:
    """How often a transaction is tried, and how long is the pause between two tries, in seconds.

    There are at most `attempts` tries, by default 20, and at most `connects` in a row, by default 3, at a server that is away or
    whose sessions are all taken. If `seconds` is given, no try begins later than that after the first one; then the two numbers
    only count if they are given too. An operation that waits is not cut short: that is for `answer_timeout`.

    The pause before try n + 1 is drawn from 0 up to `first_pause * 2**(n - 1)`, or up to `longest_pause` if that is less. So
    clients that were in each other's way come back at different times."""

    attempts: Optional[int] = None
    first_pause: float = 0.01
    longest_pause: float = 1.0
    connects: Optional[int] = None
    seconds: Optional[float] = None

    def __post_init__(self) -> None:
        for name, count in (("attempts", self.attempts), ("connects", self.connects)):
            if count is not None and count < 1:
                raise ValueError(f"{name} has to be at least 1, and is {count}")
        if self.seconds is not None and self.seconds < 0:
            raise ValueError(f"seconds has to be at least 0, and is {self.seconds}")

    def most(self, given: Optional[int], default: int) -> float:
        """How many tries there may be, of all or in a row."""
        return given if given is not None else default if self.seconds is None else float("inf")

    def pauses(self) -> Iterator[float]:
        """The pauses between the tries, one fewer than these."""
        most, number = self.first_pause, 1
        while number < self.most(self.attempts, 20):
            yield random.uniform(0, min(most, self.longest_pause))
            most, number = min(2 * most, self.longest_pause), number + 1


# What leaves nothing of a transaction, so that it may be tried again.
AGAIN = (GaveUp, ConnectionLost)


class Tries:
    """The tries of one transaction."""

    def __init__(self, retries: Retries, on_retry: Optional[OnRetry]) -> None:
        self._retries, self._on_retry = retries, on_retry
        self._pauses = retries.pauses()
        self._until = time.monotonic() + (float("inf") if retries.seconds is None else retries.seconds)
        self._in_vain = 0
        # The number of the next try, and the pause before it.
        self.number = 1
        self.pause = 0.0

    def go_on(self, failure: MltxError, tx: Optional[TransactionCore] = None) -> bool:
        """Whether there is another try after this failure."""
        self._in_vain = self._in_vain + 1 if isinstance(failure, (ServerAway, SessionsTaken)) else 0
        pause, left = next(self._pauses, None), self._until - time.monotonic()
        is_committed = tx is not None and tx.commit_number is not None
        most = self._retries.most(self._retries.connects, 3)
        if is_committed or pause is None or left <= 0 or self._in_vain >= most:
            return False
        self.pause = min(pause, left)
        LOG.info("try %d failed, and the next one is in %.3f seconds: %s", self.number, self.pause, failure)
        if self._on_retry:
            self._on_retry(self.number, failure, self.pause)
        self.number += 1
        return True


# Clients


class Numbers(PerProcess):
    """The numbers that the clients of a server have seen: those of transactions, which only rise within a server, and that of
    the server, if its operator is asked."""

    def __init__(self, expects_restart: bool = False) -> None:
        super().__init__()
        self._lock = threading.Lock()
        self._expects_restart = expects_restart
        # How often the server was another one, and the greatest number of a transaction of the last.
        self._seen = (0, 0)
        self._server: Optional[int] = None

    def after_fork(self) -> None:
        self._lock = threading.Lock()

    def seen(self) -> tuple[int, int]:
        """What is seen now, before a transaction is begun."""
        return self._seen

    def note(self, number: int, seen: tuple[int, int]) -> None:
        """Notes the number of a transaction that was begun after this was seen. Raises `ServerRestarted`."""
        is_other = number <= seen[1]
        with self._lock:
            servers, greatest = self._seen
            if seen[0] == servers and is_other:
                self._seen = (servers + 1, number)
            elif seen[0] == servers or is_other:
                self._seen = (servers, max(greatest, number))
        if is_other:
            self._tell(f"it began transaction {number} after {seen[1]}")

    def note_server(self, number: int) -> None:
        """Notes the number of the server behind a new connection. Raises `ServerRestarted`."""
        with self._lock:
            before, self._server = self._server, number
            is_other = before not in (None, number)
            if is_other:
                self._seen = (self._seen[0] + 1, 0)
        if is_other:
            self._tell(f"its number is {number}, after {before}")

    def _tell(self, why: str) -> None:
        if self._expects_restart:
            LOG.info("the server was restarted: %s", why)
            return
        LOG.warning("the server is another one than before")
        raise ServerRestarted(f"the server is another one than before: {why}; only what it has loaded is there")


Session = TypeVar("Session", bound=SessionCore)
Tx = TypeVar("Tx", bound=TransactionCore)


class ClientCore(Generic[Session, Tx]):
    """A client of the server at an address. It connects when it has to, and again if its connection has ended."""

    def __init__(
        self,
        address: Optional[str] = None,
        port: Optional[int] = None,
        *,
        connect_timeout: Optional[float] = 5.0,
        answer_timeout: Optional[float] = None,
        session_timeout: Optional[float] = 5.0,
        retries: Retries = Retries(),
        on_retry: Optional[OnRetry] = None,
        admin: Optional[str] = None,
        expects_restart: bool = False,
    ) -> None:
        """The address is a `HOST:PORT`, or a host before its port, and by default that of the environment variable MLTX_ADDR.

        The timeouts are in seconds, and None waits for ever. `session_timeout` is for the first answer on a connection, which
        comes as soon as the server holds the session, and `answer_timeout` for the others: an operation may wait as long as
        another transaction stays open. `on_retry(attempt, failure, pause)` is called for each try that failed, before the pause
        that precedes the next one.

        With `admin`, the `HOST:PORT` of the server's `--admin`, each new connection asks for the server's number, so that a
        restart is seen where numbers of transactions don't show it. With `expects_restart` none raises `ServerRestarted`."""
        self.host, self.port = find_address(address, port)
        self.connect_timeout = connect_timeout
        self.answer_timeout = answer_timeout
        self.session_timeout = session_timeout
        self.retries = retries
        self.on_retry = on_retry
        self._turns = self._new_turns()
        self.admin = admin
        self._numbers = Numbers(expects_restart)
        self._last: Optional[Session] = None

    # What differs between the two clients.

    def _new_turns(self) -> Turns:
        return Turns()

    async def _connect(self) -> Session:
        raise NotImplementedError

    def _transaction(self, session: Session, attempt: int) -> Tx:
        raise NotImplementedError

    async def _server_number(self, admin: str) -> int:
        """The number of the server, from its operator."""
        raise NotImplementedError

    async def _sleep(self, seconds: float) -> None:
        raise NotImplementedError

    # What they share.

    def close(self) -> None:
        """Ends the connection, if there is one. The server rolls back a transaction that is open."""
        with self._turns:
            if self._last:
                self._last.cut()
                self._last = None

    async def _session(self) -> Session:
        with self._turns:
            if self._last is None or await self._last._has_ended():
                self.close()
                self._last = await self._connect()
                LOG.debug("connected to %s:%d", self.host, self.port)
                if self.admin:
                    # Behind the connection: so the number is not that of an earlier server.
                    try:
                        self._numbers.note_server(await self._server_number(self.admin))
                    except BaseException:
                        self.close()
                        raise
            return self._last

    async def _begin(self, attempt: int = 1, *, later: bool = False) -> Tx:
        """Begins a transaction. With `later` its `begin` may go out with its first operations: on a connection that the server
        holds, where no server is met anew."""
        with self._turns:
            session = await self._session()
            if session.bytes_left < TRANSACTION_BYTES and not self._turns.has_open():
                self.close()
                session = await self._session()
            seen = self._numbers.seen()
            if later and session.is_held and not self._turns.has_open():
                tx = self._transaction(session, attempt)
                there = weakref.ref(tx)
                session.begin_later(lambda answer: self._note_begun(there(), answer, seen))
            else:
                answer = (await session._ask("begin"))[0]
                with session.understood():
                    number = self._begun_number(answer, seen)
                tx = self._transaction(session, attempt)
                tx._number = number
            self._turns.last = weakref.ref(tx)
            return tx

    def _begun_number(self, answer: str, seen: tuple[int, int]) -> int:
        """The number of the transaction that was begun with this answer. Raises a refusal, and `ServerRestarted`."""
        number = number_behind("begun", answer)
        try:
            self._numbers.note(number, seen)
        except ServerRestarted:
            self.close()
            raise
        return number

    def _note_begun(self, tx: Optional[Tx], answer: str, seen: tuple[int, int]) -> None:
        number = self._begun_number(answer, seen)
        if tx:
            tx._number = number

    def _tries(self, retries: Optional[Retries]) -> Tries:
        return Tries(retries or self.retries, self.on_retry)

    async def _try(self, tries: Tries) -> Tx:
        """Begins the next try, after its pause."""
        while True:
            if tries.pause:
                await self._sleep(tries.pause)
            try:
                return await self._begin(tries.number, later=True)
            except AGAIN as failure:
                if not tries.go_on(failure):
                    raise

    async def _run(self, function: Callable[[Tx], Awaitable[Result]], retries: Optional[Retries]) -> Result:
        tries = self._tries(retries)
        while True:
            tx = await self._try(tries)
            try:
                try:
                    result = await function(tx)
                except BaseException:
                    await tx._leave(False)
                    raise
                await tx._leave(True)
                return result
            except AGAIN as failure:
                if not tries.go_on(failure, tx):
                    raise

    async def _run_all(
        self, operations: Iterable[Operation[Result]], is_partly: bool, retries: Optional[Retries]
    ) -> list[Result]:
        asked = all_of(operations)

        async def ask(tx: Tx) -> list[Result]:
            if len(asked) == 1 or is_partly and 0 < len(asked) <= MOST_UNANSWERED - 2:
                return await tx._ask_all_and_commit(asked)
            return await tx._ask_all(asked)

        return await self._run(ask, retries)

    if not TYPE_CHECKING:

        def __getattr__(self, name: str) -> Any:
            hint = ": a transaction has it, as in client.run(lambda tx: ..)" if name in FORMS else ""
            raise AttributeError(f"{type(self).__name__!r} has no attribute {name!r}{hint}")


class AttemptCore(Generic[Tx]):
    """A try of a transaction, which is a block."""

    def __init__(self, client: ClientCore[Any, Tx], tries: Tries) -> None:
        self._client, self._tries = client, tries
        self._tx: Optional[Tx] = None
        self.is_last = True

    async def _enter(self) -> Tx:
        self._tx = await self._client._try(self._tries)
        return self._tx

    async def _leave(self, failure: Optional[BaseException]) -> bool:
        """Commits, or aborts at a failure. Answers whether there is another try, in which case the failure is not raised."""
        if self._tx:
            await self._tx._leave(failure is None)
        self.is_last = not (isinstance(failure, AGAIN) and self._tries.go_on(failure, self._tx))
        return not self.is_last


AttemptOf = TypeVar("AttemptOf", bound=AttemptCore[Any])


def until_last(make: Callable[[], AttemptOf]) -> Iterator[AttemptOf]:
    """Attempts, up to the last one."""
    while True:
        attempt = make()
        yield attempt
        if attempt.is_last:
            return


ClientOf = TypeVar("ClientOf", bound=ClientCore[Any, Any])


class PoolCore(PerProcess, Generic[ClientOf]):
    """A bounded number of clients of one server. Each connects when it is first used, and again if its connection has ended.
    They share what they know of the server: the first that finds another one raises `ServerRestarted`, with those that were just
    beginning a transaction, and the others don't. Of those that are free one with a connection is taken before others. Whenever
    one is given back, the connections end that were free for `idle` seconds, if that is not None."""

    # The class of its clients.
    _client_of: Callable[..., ClientOf]

    def __init__(
        self,
        address: Optional[str] = None,
        port: Optional[int] = None,
        *,
        size: int = 10,
        timeout: Optional[float] = 5.0,
        idle: Optional[float] = 60.0,
        connect_timeout: Optional[float] = 5.0,
        answer_timeout: Optional[float] = None,
        session_timeout: Optional[float] = 5.0,
        retries: Retries = Retries(),
        on_retry: Optional[OnRetry] = None,
        admin: Optional[str] = None,
        expects_restart: bool = False,
    ) -> None:
        """The address and the options from `connect_timeout` on are those of `Client`."""
        super().__init__()
        if size < 1:
            raise ValueError(f"size has to be at least 1, and is {size}")
        clients = [
            self._client_of(
                address,
                port,
                connect_timeout=connect_timeout,
                answer_timeout=answer_timeout,
                session_timeout=session_timeout,
                retries=retries,
                on_retry=on_retry,
                admin=admin,
                expects_restart=expects_restart,
            )
            for _ in range(size)
        ]
        self.timeout, self.idle = timeout, idle
        self.is_closed = False
        self._lock = threading.Lock()
        # All clients, those that are free, and the futures of those that wait for one, the longest first.
        self._clients, self._free, self._waiting = clients, list(clients), list[Any]()
        # The thread or the task that has each client which is in use.
        self._users: dict[ClientOf, object] = {}
        # When each client was given back last.
        self._given_back = {client: time.monotonic() for client in clients}
        for client in clients:
            client._numbers = clients[0]._numbers

    def _future(self) -> Any:
        raise NotImplementedError

    async def _wait(self, future: Any) -> None:
        """Returns once the future is done, or after the timeout."""
        raise NotImplementedError

    async def _take(self) -> ClientOf:
        future, was_waited_for = self._future(), False
        with self._lock:
            self._waiting.append(future)
        self._hand_over()
        try:
            await self._wait(future)
            was_waited_for = True
        finally:
            with self._lock:
                if future in self._waiting:
                    self._waiting.remove(future)
            if future.done() and (self.is_closed or not was_waited_for):
                self._put(future.result())
        if self.is_closed:
            raise RuntimeError("the pool is closed")
        if not future.done():
            clients = f"all {len(self._clients)} clients of the pool"
            raise PoolTimeout(f"{clients} were in use for {self.timeout} seconds: raise its size")
        client: ClientOf = future.result()
        self._users[client] = client._turns.user()
        return client

    def _must_not_nest(self) -> None:
        """Raises `Nested` if the caller has a transaction of the pool open, for which another one could wait for ever."""
        user = self._clients[0]._turns.user()
        if any(it is user and client._turns.has_open() for client, it in list(self._users.items())):
            raise Nested("a transaction of this pool is open here, and another one could wait for it for ever: use its `tx`")

    def after_fork(self) -> None:
        """The clients that other threads have in use are free: these threads are not in this process."""
        self._lock, self._waiting = threading.Lock(), []
        user = self._clients[0]._turns.user()
        self._users = {client: it for client, it in self._users.items() if it is user}
        self._free = [client for client in self._clients if client not in self._users]

    def _hand_over(self) -> None:
        """Gives the clients that are free to those that wait."""
        with self._lock:
            while self._free and self._waiting:
                client = next((client for client in reversed(self._free) if client._last), self._free[-1])
                self._free.remove(client)
                self._waiting.pop(0).set_result(client)

    def _put(self, client: ClientOf) -> None:
        with self._lock:
            self._users.pop(client, None)
            self._given_back[client] = time.monotonic()
            self._free.append(client)
        self._hand_over()

    def _end_idle(self) -> None:
        """Ends the connections of clients that were free for too long."""
        if self.idle is None:
            return
        least = time.monotonic() - self.idle
        with self._lock:
            idle = [client for client in self._free if client._last and self._given_back[client] <= least]
            self._free = [client for client in self._free if client not in idle]
        for client in idle:
            with suppress(WrongThread):
                client.close()
        with self._lock:
            self._free = idle + self._free
        self._hand_over()

    def _give_back(self, client: ClientOf) -> None:
        try:
            if self.is_closed or client._turns.has_open():
                client.close()
        finally:
            self._put(client)
            self._end_idle()

    def close(self) -> None:
        """Ends the connections. One that is in use ends when it is given back."""
        self.is_closed = True
        for client in self._clients:
            if not client._turns.has_open():
                with suppress(WrongThread):
                    client.close()
