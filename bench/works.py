"""What a benchmark is: works with their sides, what all measurements share, and what one of them comes to."""
import random
from collections.abc import Callable, Iterator
from dataclasses import dataclass, field
from pathlib import Path
from typing import NamedTuple, TypeVar

from machine import PATIENCE
from texts import Scripts
from tools import Tools

# How long a load lasts where that is not given.
SECONDS = 2.0

Size = TypeVar("Size")


class Limit(NamedTuple):
    """Where a load ends: after so many seconds, or after so many transactions."""

    seconds: float
    transactions: int | None = None


@dataclass
class Bench:
    """What all measurements share: a folder of their own, the tools, how large a work is, where chance begins, and how many
    seconds a load lasts."""

    folder: Path
    tools: Tools
    quick: bool
    seed: int
    seconds: float = SECONDS
    files: dict[str, tuple[Path, int]] = field(default_factory=dict)

    def pick(self, full: Size, quick: Size) -> Size:
        """A size: the full one, or one that is quick to try."""
        return quick if self.quick else full

    def limit(self, few: int = 200) -> Limit:
        """Where a load ends: after so many seconds, or where it is quick after a few transactions, however long they take."""
        return self.pick(Limit(self.seconds), Limit(PATIENCE, few))

    def file(self, name: str, make: Callable[[random.Random], Scripts]) -> tuple[Path, int]:
        """A file with scripts that are made once, and how many operations they ask."""
        if name not in self.files:
            text, operations = make(random.Random(self.seed))
            path = self.folder / name
            path.write_text(text)
            self.files[name] = path, operations
        return self.files[name]


@dataclass(frozen=True)
class Sample:
    """What was measured once: a value, how long a transaction took in microseconds, and what else is told by its name."""

    value: float
    median: float | None = None
    ninety_ninth: float | None = None
    more: dict[str, float] = field(default_factory=dict)


# What measures a program once.
Measure = Callable[[Bench, Path], Sample]


@dataclass(frozen=True)
class Side:
    """One side of a comparison: it measures a program once, and needs these tools."""

    name: str
    measure: Measure
    needs: tuple[str, ...] = ()


@dataclass(frozen=True)
class Work:
    """A line of the table, or one for each side behind the first."""

    group: str
    what: str
    unit: str
    sides: tuple[Side, ...]
    most_runs: int = 1_000
    # Where it belongs to the plot of its group: how many clients it has, and what stands before the names of its curves.
    plotted_at: int | None = None
    plotted_as: str = ""
    # What is put into the crates first, where it is not the program that is measured.
    patch: str = ""


class Group(NamedTuple):
    """What a group measures, and its works."""

    what: str
    works: Callable[[], Iterator[Work]]
