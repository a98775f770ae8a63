"""The client for asyncio. Names and arguments are those of `mltx`; what waits is awaited, and blocks are `async with`.

    from mltx import Reply, aio

    async def move(tx):
        if await tx.withdraw(1, 30) is Reply.DONE and await tx.deposit(2, 30) is Reply.DONE:
            return True
        await tx.abort()
        return False

    async with await aio.connect("127.0.0.1:7000") as client:
        moved = await client.run(move)

A client lets in one call at a time: a second one meanwhile, from another task, gets `WrongThread`. A call that is cancelled
closes the connection, so the server rolls the transaction back; a commit that was sent may have been done."""

from __future__ import annotations

import asyncio
import inspect
import os
import socket
from collections.abc import AsyncIterator, Awaitable, Callable, Coroutine, Iterable, Iterator
from contextlib import asynccontextmanager, suppress
from typing import TYPE_CHECKING, Any, Optional

from .admin import Operator
from .core import AttemptCore, ClientCore, PoolCore, Retries, SessionCore, TransactionCore, Turns, named_as, set_up, until_last
from .errors import ServerAway, UnexpectedAnswer
from .operations import Operation, Result

if TYPE_CHECKING:
    from typing_extensions import Concatenate, ParamSpec

    Arguments = ParamSpec("Arguments")

__all__ = ["connect", "Client", "Pool", "Session", "Transaction", "Attempt"]


async def _within(seconds: Optional[float], waited: Awaitable[Result]) -> Result:
    """What is waited for, or `socket.timeout` after so many seconds."""
    try:
        return await asyncio.wait_for(waited, seconds)
    except asyncio.TimeoutError as fault:
        raise socket.timeout("timed out") from fault


class StreamWire:
    """The bytes of a connection, by streams."""

    def __init__(self, reader: asyncio.StreamReader, writer: asyncio.StreamWriter) -> None:
        self._reader, self._writer = reader, writer
        self._loop = asyncio.get_running_loop()
        set_up(writer.get_extra_info("socket"))

    async def write(self, data: bytes, timeout: Optional[float]) -> None:
        if self._is_of_another_loop():
            raise ConnectionResetError("it belongs to another event loop")
        # It does not wait, so that what fails later is found as the answer is read: then it was sent. There is never much of it.
        self._writer.write(data)
        if self._writer.is_closing():
            raise ConnectionResetError("it could not be written")

    async def read_line(self, timeout: Optional[float]) -> bytes:
        try:
            return await _within(timeout, self._reader.readline())
        except ValueError as fault:
            raise UnexpectedAnswer("what answers is no such server: the answer is too long") from fault

    async def has_ended(self) -> bool:
        if self._is_of_another_loop():
            return True
        # The loop hears of an end in its next round, behind this task.
        for _ in range(2):
            await asyncio.sleep(0)
        return self._reader.at_eof() or self._writer.is_closing()

    def close(self) -> None:
        if self._is_of_another_loop():
            # That loop may have ended, and would close nothing.
            with suppress(OSError):
                self._writer.get_extra_info("socket").shutdown(socket.SHUT_RDWR)
        else:
            self._writer.close()

    def forget(self) -> None:
        # Loops of both processes share a list of the files that they listen to. The one here may still close this file, by its
        # number, which must not be that of the parent's connection then.
        number = self._writer.get_extra_info("socket").fileno()
        if number >= 0:
            with open(os.devnull, "rb") as nothing:
                os.dup2(nothing.fileno(), number, inheritable=False)

    def _is_of_another_loop(self) -> bool:
        return asyncio._get_running_loop() is not self._loop


class TaskTurns(Turns):
    """Lets in one task at a time, for a call."""

    remedy = "connect a client for each task, or use an aio.Pool"

    def user(self) -> object:
        try:
            return asyncio.current_task()
        except RuntimeError:
            return None

    def is_kept(self) -> bool:
        return False


class Session(SessionCore):
    """As `mltx.Session`."""

    @classmethod
    async def connect(
        cls,
        host: str,
        port: int,
        connect_timeout: Optional[float] = None,
        answer_timeout: Optional[float] = None,
        session_timeout: Optional[float] = None,
        turns: Optional[Turns] = None,
    ) -> Session:
        try:
            wire = StreamWire(*await _within(connect_timeout, asyncio.open_connection(host, port)))
        except OSError as fault:
            raise ServerAway(f"no server answers at {host}:{port} ({fault})") from fault
        return cls(wire, answer_timeout, session_timeout, turns or TaskTurns())

    async def ask(self, *lines: str) -> list[str]:
        return await self._ask(*lines)


def _asking(
    make: Callable[Arguments, Operation[Result]]
) -> Callable[Concatenate[Transaction, Arguments], Coroutine[Any, Any, Result]]:
    """The method that asks for an operation of this kind."""

    async def method(tx: Transaction, /, *numbers: Arguments.args, **named: Arguments.kwargs) -> Result:
        return await tx.ask(make(*numbers, **named))

    return named_as(make, method)


class Transaction(TransactionCore):
    """As `mltx.Transaction`."""

    async def __aenter__(self) -> Transaction:
        return self

    async def __aexit__(self, kind: Any, error: Any, trace: Any) -> None:
        await self._leave(kind is None)

    open = _asking(Operation.open)
    close = _asking(Operation.close)
    deposit = _asking(Operation.deposit)
    withdraw = _asking(Operation.withdraw)
    balance = _asking(Operation.balance)
    add = _asking(Operation.add)
    remove = _asking(Operation.remove)
    has = _asking(Operation.has)
    size = _asking(Operation.size)
    up = _asking(Operation.up)
    down = _asking(Operation.down)
    read = _asking(Operation.read)

    async def ask(self, operation: Operation[Result]) -> Result:
        return (await self._ask_all([operation]))[0]

    async def ask_all(self, operations: Iterable[Operation[Result]]) -> list[Result]:
        return await self._ask_all(operations)

    async def commit(self) -> int:
        return await self._commit()

    async def abort(self) -> None:
        await self._abort()


class Attempt(AttemptCore[Transaction]):
    """As `mltx.client.Attempt`."""

    async def __aenter__(self) -> Transaction:
        return await self._enter()

    async def __aexit__(self, kind: Any, error: Any, trace: Any) -> bool:
        return await self._leave(error)


class Client(ClientCore[Session, Transaction]):
    """As `mltx.Client`, with one call at a time in place of one thread."""

    async def __aenter__(self) -> Client:
        return self

    async def __aexit__(self, kind: Any, error: Any, trace: Any) -> None:
        self.close()

    async def session(self) -> Session:
        return await self._session()

    async def begin(self) -> Transaction:
        return await self._begin()

    async def run(
        self, function: Callable[[Transaction], Awaitable[Result]], *, retries: Optional[Retries] = None
    ) -> Result:
        return await self._run(function, retries)

    async def run_all(
        self, operations: Iterable[Operation[Result]], *, partly: bool = False, retries: Optional[Retries] = None
    ) -> list[Result]:
        return await self._run_all(operations, partly, retries)

    def attempts(self, *, retries: Optional[Retries] = None) -> Iterator[Attempt]:
        """The tries of a transaction, for a loop that is no `async for`.

            for attempt in client.attempts():
                async with attempt as tx:
                    await tx.up(7, 1)
        """
        tries = self._tries(retries)
        return until_last(lambda: Attempt(self, tries))

    def _new_turns(self) -> Turns:
        return TaskTurns()

    def _transaction(self, session: Session, attempt: int) -> Transaction:
        return Transaction(session, attempt)

    async def _server_number(self, admin: str) -> int:
        status = await asyncio.to_thread(Operator(admin, timeout=self.connect_timeout).status)
        return status["server"]

    async def _connect(self) -> Session:
        timeouts = self.connect_timeout, self.answer_timeout, self.session_timeout
        return await Session.connect(self.host, self.port, *timeouts, self._turns)

    async def _sleep(self, seconds: float) -> None:
        await asyncio.sleep(seconds)


def _connecting(make: Callable[Arguments, Client]) -> Callable[Arguments, Coroutine[Any, Any, Client]]:
    async def connect(*given: Arguments.args, **options: Arguments.kwargs) -> Client:
        """A client that has connected, with the arguments of `Client`. Raises `ServerAway`."""
        client = make(*given, **options)
        await client.session()
        return client

    connect.__signature__ = inspect.signature(make)  # type: ignore[attr-defined]
    return connect


connect = _connecting(Client)


class Pool(PoolCore[Client]):
    """As `mltx.Pool`, for tasks."""

    _client_of = Client

    async def __aenter__(self) -> Pool:
        return self

    async def __aexit__(self, kind: Any, error: Any, trace: Any) -> None:
        self.close()

    @asynccontextmanager
    async def client(self) -> AsyncIterator[Client]:
        client = await self._take()
        try:
            yield client
        finally:
            self._give_back(client)

    async def run(
        self, function: Callable[[Transaction], Awaitable[Result]], *, retries: Optional[Retries] = None
    ) -> Result:
        self._must_not_nest()
        async with self.client() as client:
            return await client.run(function, retries=retries)

    async def run_all(
        self, operations: Iterable[Operation[Result]], *, partly: bool = False, retries: Optional[Retries] = None
    ) -> list[Result]:
        self._must_not_nest()
        async with self.client() as client:
            return await client.run_all(operations, partly=partly, retries=retries)

    def _future(self) -> Any:
        return asyncio.get_running_loop().create_future()

    async def _wait(self, future: Any) -> None:
        await asyncio.wait([future], timeout=self.timeout)

