"""Histories as text: docs/HISTORIES.md has the format."""
import re
from collections import defaultdict
from collections.abc import Iterable, Iterator, Sequence
from math import inf

from .model import BIG, Cell, Done, Faulty, Transaction, done, settled
from .unswept import unswept

LINE = re.compile(
    r"begin (?P<begin>\d+)(?: by (?P<client>\S+))?(?: at (?P<start>\d+))?"
    r"|op (?P<op>\d+) (?P<asked>[a-z]+ [^ \[\]]+(?: (?!is )[^ \[\]]+)?) (?P<reply>is \[[^\[\]]*\]|is [^ \[\]]+|[a-z]+)"
    r"|(?P<ending>commit|abort) (?P<ended>\d+)(?: (?P<order>\d+))?(?: at (?P<end>\d+))?"
)


def _lines(text: str) -> Iterator[tuple[int, str]]:
    """The lines that are no comments, with their numbers, and with one space between words."""
    lines = ((at, " ".join(line.split())) for at, line in enumerate(text.splitlines(), 1))
    return ((at, line) for at, line in lines if line and not line.startswith("#"))


@unswept()
def read(text: str) -> list[Transaction]:
    """The transactions of a history."""
    found: dict[int, Transaction] = {}
    for at, line in _lines(text):
        parts = LINE.fullmatch(line)
        try:
            if not parts:
                raise Faulty(f"`{line}` is no line of a history")
            _take(found, parts, at)
        except Faulty as fault:
            raise Faulty(f"line {at}: {fault}") from None
    return settled([*found.values()])


def _take(found: dict[int, Transaction], parts: re.Match[str], line: int) -> None:
    """Takes a line, whose parts are these."""
    number = int(parts["begin"] or parts["op"] or parts["ended"] or 0)
    if parts["begin"]:
        if number in found:
            raise Faulty(f"transaction {number} began before")
        found[number] = Transaction(number, float(parts["start"] or -inf), client=parts["client"] or "", begun=line)
        return
    one = found.get(number)
    if one is None or one.ending:
        raise Faulty(f"transaction {number} is not open")
    if parts["asked"] and parts["reply"]:
        one.done.append(done(parts["asked"], parts["reply"]))
        one.lines.append(line)
    else:
        one.ending, one.line = parts["ending"] or "", line
        one.order, one.end = float(parts["order"] or inf), float(parts["end"] or inf)
        if one.end < one.start:
            raise Faulty(f"transaction {number} ended before it began")


def steps(transactions: Sequence[Transaction]) -> list[tuple[Transaction, Done | str]]:
    """The operations of these transactions, with `begin` before them and their endings, if any, behind: by the lines of the
    history in which they stood."""
    told: list[tuple[float, int, Transaction, Done | str]] = []
    for at, one in enumerate(transactions):
        told.append((one.begun, at, one, "begin"))
        lines = one.lines or [one.line] * len(one.done)
        told += [(max(line, one.begun), at, one, it) for line, it in zip(lines, one.done)]
        told += [(max(one.line, one.begun), at, one, one.ending)] if one.ending else []
    return [(one, it) for _, _, one, it in sorted(told, key=lambda it: it[:2])]


def written(transactions: Sequence[Transaction]) -> str:
    """The history of these transactions, by the lines of the history in which they stood."""
    lines: list[str] = []
    for one, it in steps(transactions):
        if isinstance(it, Done):
            lines.append(f"op {one.number} {it.asked} {it.reply}")
        elif it == "begin":
            by, starts = f" by {one.client}" * bool(one.client), f" at {one.start:.0f}" * (one.start > -inf)
            lines.append(f"begin {one.number}{by}{starts}")
        else:
            ends, order = f" at {one.end:.0f}" * (one.end < inf), f" {one.order:.0f}" * (one.order < inf)
            lines.append(f"{it} {one.number}{order}{ends}")
    return "".join(line + "\n" for line in lines)


def trace(transactions: Iterable[Transaction]) -> str:
    """A trace in which these transactions commit one after another, numbered from 1."""
    lines: list[str] = []
    for number, one in enumerate(transactions, 1):
        ops = [f"op {number} {it.asked} {it.reply}" for it in one.done]
        lines += [f"begin {number}", *ops, f"commit {number} {number}"]
    return "".join(line + "\n" for line in lines)


def base(transactions: Iterable[Transaction]) -> str:
    """The text of the base that committed transactions leave."""
    values: dict[Cell, int] = defaultdict(int)
    for cell, change in (pair for one in transactions for it in one.done for pair in it.effect.changes.items()):
        values[cell] = (values[cell] + change) % BIG
    left = sorted(cell for cell, value in values.items() if value)
    rows = [(*cell, values["balance", cell[1]]) for cell in left if cell[0] == "account"]
    rows += [cell for cell in left if cell[0] == "element"] + [(*cell, values[cell]) for cell in left if cell[0] == "counter"]
    return "".join(" ".join(map(str, row)) + "\n" for row in rows)
