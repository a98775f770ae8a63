"""What was measured as lines of a table, or as rows of a CSV file: medians over the runs, ratios of runs that followed each
other, and their spread."""
import re
import statistics
from collections.abc import Callable, Sequence
from dataclasses import dataclass

from works import Sample, Work

HEADS = ["work", "unit", "against", "this", "other", "ratio", "spread", "median", "99th", "besides"]
WIDTHS = [64, 22, 16, 9, 9, 6, 13, 15, 15, 0]
NONE = "-"
# The columns of a CSV file.
COLUMNS = ["group", "workload", "unit", "compared with", "value", "other value", "ratio", "spread",
           "p50", "other p50", "p99", "other p99", "notes", "build", "rounds", "load", "date", "machine", "versions"]


@dataclass(frozen=True)
class Line:
    """A work with the samples of this program, and of what it is compared with, if there is something."""

    work: Work
    this: list[Sample]
    other_name: str = ""
    other: list[Sample] | None = None

    def cells(self) -> list[str]:
        """What stands in its columns."""
        values, others = values_of(self.this), values_of(self.other)
        ratios = [one / two for one, two in zip(values, others) if two]
        return [
            f"{self.work.group}: {self.work.what}",
            self.work.unit,
            self.other_name or NONE,
            number(statistics.median(values)),
            number(statistics.median(others)) if others else NONE,
            f"{statistics.median(ratios):.2f}" if ratios else NONE,
            spread(ratios) if ratios else own_spread(values),
            self.pair(lambda it: it.median),
            self.pair(lambda it: it.ninety_ninth),
            self.besides(),
        ]

    def pair(self, microseconds: Callable[[Sample], float | None]) -> str:
        """These microseconds of this side and of the other."""
        shown = []
        for side in (self.this, self.other or []):
            known = [it for it in map(microseconds, side) if it is not None]
            if side and len(known) == len(side):
                shown.append(number(statistics.median(known)))
        return " / ".join(shown) or NONE

    def besides(self) -> str:
        """What else was measured, of both sides where both have it."""
        told = []
        for name in self.this[0].more:
            sides = [[it.more[name] for it in side if name in it.more] for side in (self.this, self.other or [])]
            told.append(f"{name} " + " / ".join(number(statistics.median(side)) for side in sides if side))
        return ", ".join(told)


def csv_row(cells: Sequence[str], *about: object) -> list[str]:
    """The cells of a line as a row of a CSV file, with numbers that have no commas, and then what is known about the line."""
    work, *rest = cells
    unit, *figures, median, ninety_ninth, besides = (re.sub(r"(?<=\d),(?=\d)", "", cell) for cell in rest)
    times = [time for pair in (median, ninety_ninth) for time in [*pair.split(" / "), NONE][:2]]
    row = [*work.split(": ", 1), unit, *figures, *times, besides, *map(str, about)]
    return ["" if cell == NONE else cell for cell in row]


def values_of(samples: list[Sample] | None) -> list[float]:
    return [it.value for it in samples or []]


def own_spread(values: list[float]) -> str:
    """From the least to the greatest, as parts of the median."""
    middle = statistics.median(values)
    return spread([value / middle for value in values]) if middle else NONE


def spread(parts: list[float]) -> str:
    """From the least to the greatest, where there are several."""
    return f"{min(parts):.2f} to {max(parts):.2f}" if len(parts) > 1 else NONE


def number(value: float) -> str:
    """A number with three digits that count."""
    if value == int(value) or abs(value) >= 1_000:
        return f"{value:,.0f}"
    return f"{value:.0f}" if abs(value) >= 100 else f"{value:.1f}" if abs(value) >= 10 else f"{value:.2f}"


def plain(cells: Sequence[str]) -> str:
    """A line of the table, with columns of fixed width."""
    return "  ".join(cell.ljust(width) for cell, width in zip(cells, WIDTHS)).rstrip()


def markdown(cells: Sequence[str]) -> str:
    return "| " + " | ".join(cells) + " |"


def head(as_markdown: bool) -> list[str]:
    """The first lines of the table."""
    return [markdown(HEADS), markdown(["---"] * len(HEADS))] if as_markdown else [plain(HEADS)]
