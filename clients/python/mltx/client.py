"""The blocking client: a connection by a socket, transactions, clients and pools."""

from __future__ import annotations

import inspect
import select
import socket
import time
from collections import deque
from collections.abc import Callable, Iterable, Iterator
from concurrent import futures
from contextlib import contextmanager
from typing import TYPE_CHECKING, Any, Optional

from .admin import Operator
from .core import MOST_ANSWER_BYTES, AttemptCore, ClientCore, PoolCore, Retries, SessionCore, TransactionCore, Turns, named_as
from .core import now, set_up, until_last
from .errors import ServerAway
from .operations import Operation, Result

if TYPE_CHECKING:
    from typing_extensions import Concatenate, ParamSpec

    Arguments = ParamSpec("Arguments")

# How many bytes of answers are read at once, at most.
MOST_READ_BYTES = 65_536
# A call with it does not wait, where a system has that.
AT_ONCE = getattr(socket, "MSG_DONTWAIT", 0)


def is_ready(connected: socket.socket, is_to_write: bool, until: Optional[float]) -> bool:
    """Whether a socket can be read or written at that time, or before."""
    seconds = None if until is None else max(0.0, until - time.monotonic())
    if hasattr(select, "poll"):
        poll = select.poll()
        poll.register(connected, select.POLLOUT if is_to_write else select.POLLIN)
        return bool(poll.poll(None if seconds is None else seconds * 1_000))
    return any(select.select([] if is_to_write else [connected], [connected] if is_to_write else [], [], seconds))


class SocketWire:
    """The bytes of a connection, by a socket that blocks the thread."""

    def __init__(self, host: str, port: int, timeout: Optional[float]) -> None:
        try:
            self._socket = socket.create_connection((host, port), timeout)
        except OSError as fault:
            raise ServerAway(f"no server answers at {host}:{port} ({fault})") from fault
        set_up(self._socket)
        self._socket.settimeout(None)
        # Lines that came and were not asked for, and what came behind them.
        self._lines, self._rest = deque[bytes](), b""

    async def write(self, data: bytes, timeout: Optional[float]) -> None:
        if timeout is None:
            self._socket.sendall(data)
            return
        until, rest = time.monotonic() + timeout, memoryview(data)
        while rest:
            try:
                rest = rest[self._socket.send(rest, AT_ONCE) :]
            except BlockingIOError:
                self._wait(True, until)

    async def read_line(self, timeout: Optional[float]) -> bytes:
        until = None if timeout is None else time.monotonic() + timeout
        while not self._lines:
            if until is not None:
                self._wait(False, until)
            piece = self._socket.recv(MOST_READ_BYTES)
            *whole, self._rest = (self._rest + piece).split(b"\n")
            self._lines.extend([line + b"\n" for line in whole])
            if not piece or len(self._rest) >= MOST_ANSWER_BYTES:
                self._lines.append(self._rest)
                self._rest = b""
        return self._lines.popleft()

    async def has_ended(self) -> bool:
        try:
            return (bool(AT_ONCE) or is_ready(self._socket, False, 0)) and not self._socket.recv(1, socket.MSG_PEEK | AT_ONCE)
        except BlockingIOError:
            return False
        except OSError:
            return True

    def close(self) -> None:
        self._socket.close()

    # A connection that a process has closed goes on in another one.
    forget = close

    def _wait(self, is_to_write: bool, until: float) -> None:
        if not is_ready(self._socket, is_to_write, until):
            raise socket.timeout("timed out")


class Session(SessionCore):
    """One connection. Lines go out, and each has one line as its answer, in order.

    If a call fails, or is interrupted, the connection is closed: an answer that is still to come can't be taken for that of a
    later line."""

    def __init__(
        self,
        host: str,
        port: int,
        connect_timeout: Optional[float] = None,
        answer_timeout: Optional[float] = None,
        session_timeout: Optional[float] = None,
        turns: Optional[Turns] = None,
    ) -> None:
        """Connects. Raises `ServerAway` if that fails, or takes longer than `connect_timeout` seconds. The first answer is
        waited for `session_timeout` seconds, and each other one `answer_timeout`; None is for ever."""
        super().__init__(SocketWire(host, port, connect_timeout), answer_timeout, session_timeout, turns)

    def has_ended(self) -> bool:
        """Whether the connection is closed, or the server has ended it and this was heard. It takes no time."""
        return now(self._has_ended())

    def send(self, *lines: str) -> None:
        """Sends lines in one write. Raises `ConnectionLost`; then the last of them was not heard."""
        now(self._send(*lines))

    def receive(self) -> str:
        """The next answer, without its line feed. Raises `ConnectionLost`."""
        return now(self._receive())[0]

    def ask(self, *lines: str) -> list[str]:
        """The answers to these lines, of which none is blank. Up to `MOST_UNANSWERED` go out in one write."""
        return now(self._ask(*lines))

    def wait_until_held(self) -> None:
        """Returns once the server holds the session, which a line shows that does nothing if no transaction is open. Raises
        `SessionsTaken`, and what `ask` raises."""
        if not self.is_held:
            self.ask("abort")


def _asking(make: Callable[Arguments, Operation[Result]]) -> Callable[Concatenate[Transaction, Arguments], Result]:
    """The method that asks for an operation of this kind."""

    def method(tx: Transaction, /, *numbers: Arguments.args, **named: Arguments.kwargs) -> Result:
        return tx.ask(make(*numbers, **named))

    return named_as(make, method)


class Transaction(TransactionCore):
    """A transaction of a session, which `Client.begin`, `Client.run` and `Client.attempts` make.

    As a `with` block it commits at the end of the block, and aborts if an exception leaves the block. In the block it may be
    committed or aborted before; then the end of the block does nothing more.

    Each operation raises `Refused` if the server refuses it, as `GaveUp`; it has then changed nothing, and the transaction stays
    open. It raises `ConnectionLost` if the connection ends, and `TransactionOver` after a commit or an abort."""

    session: Session

    @property
    def number(self) -> int:
        """Its number, which no other transaction of the server has."""
        if self.is_open:
            now(self.session._begin_now())
        return self._number

    def __enter__(self) -> Transaction:
        return self

    def __exit__(self, kind: Any, error: Any, trace: Any) -> None:
        now(self._leave(kind is None))

    # The operations, each with the arguments and the result of the one of `Operation`.

    open = _asking(Operation.open)
    close = _asking(Operation.close)
    deposit = _asking(Operation.deposit)
    withdraw = _asking(Operation.withdraw)
    balance = _asking(Operation.balance)
    add = _asking(Operation.add)
    remove = _asking(Operation.remove)
    has = _asking(Operation.has)
    size = _asking(Operation.size)
    up = _asking(Operation.up)
    down = _asking(Operation.down)
    read = _asking(Operation.read)

    # What all operations go through, and the ends.

    def ask(self, operation: Operation[Result]) -> Result:
        """The result of an operation, as the method of its name has it."""
        return self.ask_all([operation])[0]

    def ask_all(self, operations: Iterable[Operation[Result]]) -> list[Result]:
        """The results of operations that go out together, in order; so they take one round trip instead of one each.

            taken, given = tx.ask_all([Operation.withdraw(101, 30), Operation.deposit(102, 30)])

        If some are refused the first refusal is raised, but the others were executed all the same. If you go on after
        that, and commit, you keep what they did."""
        return now(self._ask_all(operations))

    def commit(self) -> int:
        """Commits, and returns the number of the commit, which counts the commits of the server.

        Raises `ConnectionLost` if the connection ended before the commit was sent; then the transaction is rolled back. Raises
        `CommitUnknown` if it ended between that and the answer. Raises `Refused` if the server refused the commit; then the
        transaction is open still."""
        return now(self._commit())

    def abort(self) -> None:
        """Takes back all that it did. Raises `ConnectionLost`; then the server takes it back."""
        now(self._abort())


class Attempt(AttemptCore[Transaction]):
    """A try of a transaction, of `Client.attempts`."""

    def __enter__(self) -> Transaction:
        return now(self._enter())

    def __exit__(self, kind: Any, error: Any, trace: Any) -> bool:
        return now(self._leave(error))


class Client(ClientCore[Session, Transaction]):
    """A client of the server at an address. It connects when it has to, and again if its connection has ended.

    It runs one transaction at a time, and lets in one thread at a time: another one gets `WrongThread` while a call, or a
    transaction that the first one began, is under way. As a `with` block it is closed at the end of the block."""

    def __enter__(self) -> Client:
        return self

    def __exit__(self, kind: Any, error: Any, trace: Any) -> None:
        self.close()

    def session(self) -> Session:
        """The connection: the one that is there, or a new one if that has ended. Raises `ServerAway`."""
        return now(self._session())

    def begin(self) -> Transaction:
        """Begins a transaction, on a new connection if the last one has ended or is nearly used up.

        Raises `Running` if one is open on this connection, `Refused` if the server refuses it otherwise, `ConnectionLost`, and
        `ServerRestarted` if the server is another one than before.

            with client.begin() as tx:
                tx.up(7, 1)
        """
        return now(self._begin())

    def run(self, function: Callable[[Transaction], Result], *, retries: Optional[Retries] = None) -> Result:
        """Runs a function in a transaction, commits, and returns the result of the function.

        After `GaveUp` or `ConnectionLost` nothing of it is left, and it is run again in a new transaction, as often as
        `retries` says; then the last one of these is raised. So the function may be called several times, and should do nothing
        else that lasts. It may call `abort`, which is no failure; its result is then returned.

        Raises `CommitUnknown` if the answer to the commit was lost, and `ServerRestarted` if the server is another one than
        before, and does not run it again. Any other exception aborts the transaction and is raised.

        `begin` goes out with the first operations of the function, so a transaction takes one round trip for each call, and
        one for the commit.

            total = client.run(lambda tx: tx.balance(1) + tx.balance(2))
        """

        async def call(tx: Transaction) -> Result:
            result = function(tx)
            if inspect.isawaitable(result):
                if inspect.iscoroutine(result):
                    result.close()
                raise TypeError("an async function was given to the blocking client: use mltx.aio")
            return result

        return now(self._run(call, retries))

    def run_all(
        self, operations: Iterable[Operation[Result]], *, partly: bool = False, retries: Optional[Retries] = None
    ) -> list[Result]:
        """Runs a transaction of these operations, as `run` does, and returns their results.

        A single operation takes one round trip, with `begin` and the commit. Several take two: they are committed once none of
        them was refused. With `partly` they take one too, and if some are refused the others are committed all the same, and
        `PartlyDone` is raised. If the connection ends in the one round trip, `CommitUnknown` is raised.

            client.run_all([Operation.up(7, 1)])
        """
        return now(self._run_all(operations, partly, retries))

    def attempts(self, *, retries: Optional[Retries] = None) -> Iterator[Attempt]:
        """The tries of a transaction, for code that is no function. A try that `run` would run again ends its block, and the
        loop goes on with the next one; the loop ends after the first that went well.

            for attempt in client.attempts():
                with attempt as tx:
                    tx.up(7, 1)

        There is one difference to `run`: `ConnectionLost` is raised if the connection is found to have ended only at the end of
        the block, since the block may have left the loop, by `return` or `break`."""
        tries = self._tries(retries)
        return until_last(lambda: Attempt(self, tries))

    def _transaction(self, session: Session, attempt: int) -> Transaction:
        return Transaction(session, attempt)

    async def _server_number(self, admin: str) -> int:
        return Operator(admin, timeout=self.connect_timeout).status()["server"]

    async def _connect(self) -> Session:
        return Session(self.host, self.port, self.connect_timeout, self.answer_timeout, self.session_timeout, self._turns)

    async def _sleep(self, seconds: float) -> None:
        time.sleep(seconds)


def _connecting(make: Callable[Arguments, Client]) -> Callable[Arguments, Client]:
    def connect(*given: Arguments.args, **options: Arguments.kwargs) -> Client:
        """A client that has connected, with the arguments of `Client`. Raises `ServerAway`.

        with mltx.connect("127.0.0.1:7000", connect_timeout=2.0) as client:
            ...
        """
        client = make(*given, **options)
        client.session()
        return client

    connect.__signature__ = inspect.signature(make)  # type: ignore[attr-defined]
    return connect


connect = _connecting(Client)


class Pool(PoolCore[Client]):
    """Clients of one server for threads, at most `size` of them. A thread takes one, and waits up to `timeout` seconds for it;
    then `PoolTimeout` is raised.

    A client connects when it is first used, and again if its connection has ended. Connections that nobody has used for `idle`
    seconds end when another one is given back. The first that finds another server raises
    `ServerRestarted`, with those that were just beginning a transaction, and the others don't. As a `with` block the pool is
    closed at the end of the block."""

    _client_of = Client

    def __enter__(self) -> Pool:
        return self

    def __exit__(self, kind: Any, error: Any, trace: Any) -> None:
        self.close()

    @contextmanager
    def client(self) -> Iterator[Client]:
        """A client of the pool, for this thread until the end of the block. A transaction that is open then is rolled back."""
        client = now(self._take())
        try:
            yield client
        finally:
            self._give_back(client)

    def run(self, function: Callable[[Transaction], Result], *, retries: Optional[Retries] = None) -> Result:
        """Takes a client, and runs the function by its `run`. Raises `Nested` inside another transaction of this thread."""
        self._must_not_nest()
        with self.client() as client:
            return client.run(function, retries=retries)

    def run_all(
        self, operations: Iterable[Operation[Result]], *, partly: bool = False, retries: Optional[Retries] = None
    ) -> list[Result]:
        """As `Client.run_all`."""
        self._must_not_nest()
        with self.client() as client:
            return client.run_all(operations, partly=partly, retries=retries)

    def _future(self) -> Any:
        return futures.Future[Client]()

    async def _wait(self, future: Any) -> None:
        futures.wait([future], self.timeout)
