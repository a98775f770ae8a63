"""What an operation costs as something grows: how many objects there are, how many operations its transaction has, how long the
history is, and how many transactions are open. Instructions are counted, so other work on the machine changes nothing, and each
figure is the difference of two runs, so that what both do is in none."""
import itertools
import sys
from collections.abc import Callable, Iterator
from functools import partial
from pathlib import Path
from random import Random
from typing import NamedTuple

import tools
from hotspots import Curves
from machine import ROOT
from texts import Scripts, script
from tools import instructions_of
from works import Bench, Group, Sample, Side, Work

sys.path.insert(0, str(ROOT / "histories"))
from mltx_histories.pictures.plot import Curve, picture  # noqa: E402

# Times as much, as each curve has it from left to right.
FACTORS = (1, 8, 32, 63)
# How many operations a transaction has where that does not grow, and how many counters are made at once.
EACH, AT_ONCE = 4, 100


class Size(NamedTuple):
    """From how many counters, or transactions before, on these grow, and how many operations the longer of two runs has more."""

    first: int
    more: int


FULL, QUICK = Size(1_000, 8_064), Size(8, 252)


def spread(dice: Random, operations: int, each: int, counters: int) -> str:
    """Transactions that add to counters that are drawn."""
    starts = range(0, counters, AT_ONCE)
    made = (script(f"up {number} 1" for number in range(start, min(start + AT_ONCE, counters))) for start in starts)
    drawn = (f"up {dice.randrange(counters)} 1" for _ in range(operations))
    return "".join([*made, *(script(itertools.islice(drawn, each)) for _ in range(operations // each))])


def objects(factor: int, size: Size, more: int, dice: Random) -> str:
    return spread(dice, size.more + more, EACH, size.first * factor)


def operations(factor: int, size: Size, more: int, dice: Random) -> str:
    return spread(dice, size.more + more, EACH * factor, size.first)


def history(factor: int, size: Size, more: int, dice: Random) -> str:
    return spread(dice, EACH * size.first * factor + more, EACH, size.first)


def beside(counter_of: Callable[[int], int], factor: int, _size: Size, more: int, _dice: Random) -> str:
    """A schedule: so many transactions are open, each with an operation on its counter, and the last one adds to its own."""
    numbers = range(2, factor + 2)
    made = ["begin", *(f"whole 1 up {counter_of(tx)} 1" for tx in numbers), "commit 1"]
    held = (line for tx in numbers for line in ("begin", f"whole {tx} up {counter_of(tx)} 1"))
    added = [f"call {factor + 1} up {counter_of(factor + 1)} 1", f"step {factor + 1} 4"] * (100 + more)
    return "\n".join([*made, *held, *added, ""])


class Growth(NamedTuple):
    """What grows, as the curve and a row of the table name it, the command and its text. A text of steps is a part as long."""

    curve: str
    row: str
    command: str
    text: Callable[[int, Size, int, Random], str]
    part: int = 1

    def first(self, size: Size) -> int:
        """From what it grows."""
        return {"objects": size.first, "history": size.first, "operations": EACH}.get(self.curve, 1)


GROWTHS = (
    Growth("objects", "{:,} counters", "solo", objects),
    Growth("operations", "{:,} operations a transaction", "solo", operations),
    Growth("history", "{:,} transactions before", "solo", history),
    Growth("open", "{:,} open, each on a counter of its own", "steps", partial(beside, lambda tx: tx), 16),
    Growth("open, one counter", "{:,} open, all on one counter", "steps", partial(beside, lambda _tx: 7), 16),
)


def cost(growth: Growth, factor: int, bench: Bench, program: Path) -> Sample:
    """How many instructions an operation takes more."""
    size = bench.pick(FULL, QUICK)
    more = size.more // growth.part

    def counted(more: int) -> int:
        name = f"{growth.curve} {factor} {more}"
        file, _ = bench.file(name, lambda dice: Scripts(growth.text(factor, size, more, dice), more))
        return instructions_of(bench.tools, [program, growth.command, file])

    return Sample((counted(more) - counted(0)) / more)


def works() -> Iterator[Work]:
    for growth in GROWTHS:
        for factor in FACTORS:
            side = Side(growth.curve, partial(cost, growth, factor), ("instructions",))
            what = f"an operation, {growth.row.format(growth.first(FULL) * factor)}"
            yield Work("growth", what, "instructions", (side,), most_runs=1, plotted_at=factor)


TITLE = "What an operation costs as something grows"


ABOUT = (
    f"Instructions of an operation: of solo, over {FULL.first:,} counters and more, in transactions of {EACH} operations and"
    f" more, behind {FULL.first:,} transactions and more; and of steps, where an operation is a call and four steps, with"
    " their lines read and their answers written, beside 1 open transaction and more, each on a counter of its own, or all"
    " on one."
)


def plot(curves: Curves, bench: Bench, _runs: int) -> str:
    """The cost by the factor, as an SVG."""
    drawn = [Curve(growth.curve, sorted(curves[growth.curve].items())) for growth in GROWTHS if growth.curve in curves]
    words = [ABOUT, f"On {tools.description()}.", *["Quick: the figures mean nothing."] * bench.quick]
    return picture(TITLE, " ".join(words), "times as many", "instructions", drawn)


GROUPS = {"growth": Group("the instructions of an operation as objects, operations, history or open transactions grow", works)}
