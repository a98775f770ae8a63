"""What all systems share: a session of a client, and one of a system that keeps values, in which clients execute operations
themselves, as applications do: what a transaction has read it writes back changed."""
import time
from collections.abc import Callable, Sequence
from dataclasses import dataclass
from typing import Protocol, TypeVar

from ..model import Cell, answer, effect

# How long a client waits for an answer, in seconds.
PATIENCE = 60
# How long a server may take to come up, and how long a client waits before it connects again, in seconds.
START, PAUSE = 60, 0.02
# The operations of objects that change nothing, each with a reply.
READING = {"balance": "is 0", "has": "yes", "size": "is 0", "read": "is 0"}
# What a cell has: a number, or the elements of a list.
Value = int | list[int]


class Failed(Exception):
    """Something can't be run, for this reason."""


class Unknown(Failed):
    """A system is too old for a level."""


class RolledBack(Exception):
    """The system has taken the transaction back, or refused what can't be done beside others."""


class Lost(Exception):
    """The connection has ended, so that an answer is lost."""


@dataclass(frozen=True)
class Address:
    """Where a system is reached: a host with a port, or the path of a socket, and who reaches it."""

    host: str = "127.0.0.1"
    port: int = 0
    path: str = ""
    user: str = ""
    password: str = ""
    database: str = ""

    def __str__(self) -> str:
        return self.path or f"{self.host}:{self.port}"


class Session(Protocol):
    """A connection of a client. `data` is what `read` reads: `objects`, `registers` or `lists`; `late` has the operations with
    replies that were told at the commit alone, and `sent` those that go with a commit."""

    data: str = "objects"
    late: Sequence[tuple[str, str]] = ()
    sent: Sequence[str] = ()

    def begin(self) -> None: ...
    def ask(self, asked: str) -> str: ...
    def commit(self) -> int | None: ...
    def abort(self) -> None: ...
    def close(self) -> None: ...

    def clear(self) -> None:
        """Takes away what earlier recordings have left."""
        return None


Connect = Callable[[], Session]
Kind = TypeVar("Kind", bound=Session)


def patiently(connect: Callable[[], Kind], seconds: float) -> Kind:
    """A session of a system that may come up in so many seconds."""
    until = time.monotonic() + seconds
    while True:
        try:
            return connect()
        except Lost as fault:
            if time.monotonic() >= until:
                raise Failed(f"the system has not answered in {seconds:g} seconds: {fault}" if seconds else str(fault)) from fault
            time.sleep(PAUSE)


class Values(Session, Protocol):
    """One of a system that keeps values. `seen` has the numbers that the transaction has read and written."""

    seen: dict[Cell, int]

    def load(self, cell: Cell) -> int: ...
    def store(self, cell: Cell, value: int) -> None: ...
    def register(self, number: int) -> int | None: ...
    def elements(self, number: int) -> list[int]: ...
    def append(self, number: int, element: int) -> None: ...

    def value(self, cell: Cell) -> int:
        if cell not in self.seen:
            self.seen[cell] = self.load(cell)
        return self.seen[cell]

    def ask(self, asked: str) -> str:
        """What is asked for is read anew, and what is changed only where the transaction has not read it."""
        verb, *words = asked.split()
        if self.data != "objects":
            return self._execute(verb, *map(int, words))
        for need in effect(asked, READING[verb]).needs if verb in READING else ():
            self.seen.pop(need.cell, None)
        reply, changed = answer(asked, self.value)
        # A size goes with its elements.
        for cell in (it for it in changed.changes if it[0] != "size"):
            self.seen[cell] = self.value(cell) + changed.changes[cell]
            self.store(cell, self.seen[cell])
        return reply

    def _execute(self, verb: str, number: int, value: int = 0) -> str:
        """Executes an operation on a register or a list."""
        if verb == "read" and self.data == "lists":
            return f"is [{' '.join(map(str, self.elements(number)))}]"
        if verb == "read":
            found = self.register(number)
            return f"is {'nil' if found is None else found}"
        if verb == "append":
            self.append(number, value)
        else:
            self.store(("register", number), value)
        return "done"
