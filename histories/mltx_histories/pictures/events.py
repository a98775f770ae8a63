"""Reads schedules with their answers, and traces, by docs/SCHEDULES.md: what comes out is a list of moments."""
import re
from collections.abc import Iterator
from dataclasses import dataclass
from typing import NamedTuple

from .progress import shown

# The most bytes of a line, and of a comment that follows an answer.
MOST_BYTES, MOST_BYTES_OF_REASON = 200, 4_000
MOST_STEPS = 1_000
BIG, CELL, SET = 2**64, 2**32, 2**16
# Of each operation the ends of its numbers' ranges: those that name its cell, and that of its amount.
Ends = tuple[int, ...]
ACCOUNT, ELEMENT, COUNTER = (CELL,), (SET, CELL), (CELL,)
OPERATIONS: dict[str, tuple[Ends, Ends]] = {
    **dict.fromkeys(("open", "close", "balance"), (ACCOUNT, ())),
    **dict.fromkeys(("deposit", "withdraw"), (ACCOUNT, (BIG,))),
    **dict.fromkeys(("add", "remove", "has"), (ELEMENT, ())),
    **dict.fromkeys(("up", "down"), (COUNTER, (BIG,))),
    "read": (COUNTER, ()),
    "size": ((SET,), ()),
}
KINDS = {
    **dict.fromkeys(("open", "close", "balance", "deposit", "withdraw"), "account"),
    **dict.fromkeys(("add", "remove", "has"), "element"),
    **dict.fromkeys(("up", "down", "read"), "counter"),
    "size": "size",
}
REPLY = r"(?:opened|exists|closed|notempty|done|over|short|missing|added|present|removed|absent|yes|no|is \d{1,20})"
REFUSED = r"refused \d{1,2} [A-Za-z]+"
_STILL = r"waiting by \d{1,20}|blocked by \d{1,20}"
# What each event may be told.
ANSWERS = {
    "begin": r"begun \d{1,20}",
    "call": "called",
    "step": rf"going|{_STILL}|done {REPLY}|undone|aborted",
    "cancel": "cancelled",
    "commit": r"committed \d{1,20}",
    "abort": "aborting|aborted",
    "whole": rf"done {REPLY}|{_STILL}",
    "undo": rf"aborted|{_STILL}",
}
BASE = r"account \d{1,20} \d{1,20}|element \d{1,20} \d{1,20}|counter \d{1,20} \d{1,20}"


class Faulty(Exception):
    """A text is none that can be drawn."""

    def __init__(self, name: str, line: int, why: str) -> None:
        super().__init__(f"{name} line {line}: {why}")


class Event(NamedTuple):
    """An event of a schedule: its kind, its transaction, its operation, and how many times it is asked for."""

    kind: str
    number: int | None
    operation: str
    times: int


class Item(NamedTuple):
    """A line of a trace: its kind, its transaction, its operation, and what would be told of it."""

    kind: str
    number: int
    operation: str
    answer: str


@dataclass(frozen=True)
class Moment:
    """An event of a schedule with its answer, or a line of a trace. `note` counts the comments before it, from 1;
    `place` says where it was told, as an error names it; `reason` has the comments that follow its answer."""

    kind: str
    number: int | None
    operation: str
    answer: str
    note: int
    place: tuple[str, int]
    reason: str = ""

    def event(self) -> str:
        """The event as a line of a schedule."""
        return " ".join([self.kind, *([] if self.number is None else [str(self.number)]), self.operation]).rstrip()


@dataclass(frozen=True)
class Story:
    """All moments, the comments by their numbers, and the lines that tell of the end. In a part of a trace, commits may lack.
    A history has `reads`: by their names what is read of it, where that is no counter; its transactions have any numbers."""

    moments: list[Moment]
    notes: list[str]
    end: list[str]
    is_part: bool = False
    reads: dict[str, str] | None = None


def _lines(name: str, data: bytes, most: int = MOST_BYTES) -> Iterator[tuple[int, bytes]]:
    """The lines of a text with their numbers, each of at most so many bytes."""
    parts = data.split(b"\n")
    for number, line in enumerate(parts if parts[-1] else parts[:-1], 1):
        if len(line) > most:
            raise Faulty(name, number, f"more than {most} bytes")
        yield number, (line[:-1] if line.endswith(b"\r") else line)


def _words(name: str, number: int, line: bytes) -> list[str]:
    """The words of a line that is no comment."""
    if any(not (byte == 9 or 0x20 <= byte <= 0x7E) for byte in line):
        raise Faulty(name, number, "a byte that is not allowed")
    return line.decode("ascii").split()


def _number(word: str, end: int, least: int = 0) -> int | None:
    """The number that a word is, or None."""
    if not re.fullmatch(r"[0-9]{1,20}", word):
        return None
    return int(word) if least <= int(word) < end else None


def _operation(words: list[str]) -> str | None:
    """The operation that these words are, as it is printed, or None."""
    if not words or words[0] not in OPERATIONS:
        return None
    of_cell, of_amount = OPERATIONS[words[0]]
    ends = of_cell + of_amount
    numbers = [_number(word, end) for word, end in zip(words[1:], ends)]
    if len(words) - 1 != len(ends) or None in numbers:
        return None
    return " ".join([words[0], *map(str, numbers)])


def cell(operation: str) -> tuple[str, ...]:
    """The cell of an operation: its kind and the numbers that name it."""
    name, *numbers = operation.split()
    return (KINDS[name], *numbers[:len(OPERATIONS[name][0])])


def meet(one: str, other: str) -> bool:
    """Whether two operations are on one cell, or one of them is on the size of a set, and the other puts an element into
    that set or takes one out."""
    words = [operation.split() for operation in (one, other)]
    sizes = {("size", numbers[0]) for name, *numbers in words if name in ("add", "remove")}
    return cell(one) == cell(other) or cell(one) in sizes or cell(other) in sizes


def _event(words: list[str]) -> Event | None:
    """The event that these words are, or None."""
    kind, rest = words[0], words[1:]
    if kind == "begin":
        return Event(kind, None, "", 1) if not rest else None
    number = _number(rest[0], BIG) if rest else None
    if kind not in ANSWERS or number is None:
        return None
    if kind in ("call", "whole"):
        operation = _operation(rest[1:])
        return Event(kind, number, operation, 1) if operation else None
    if kind == "step" and len(rest) == 2:
        times = _number(rest[1], MOST_STEPS + 1, 1)
        return Event(kind, number, "", times) if times else None
    return Event(kind, number, "", 1) if len(rest) == 1 else None


def printable(text: str) -> str:
    """The text with a space for each character that a picture can't have."""
    return re.sub(r"[^\x20-\x7e\u00a1-\ud7ff\ue000-\ufffd]", " ", text)


class _Notes:
    """Comments, put together where they follow one another."""

    def __init__(self) -> None:
        self.texts: list[str] = []
        self.inside = False

    def say(self, line: bytes) -> None:
        """Takes a comment."""
        text = printable(line.decode(errors="replace")).strip().lstrip("#").strip()
        if self.inside and text:
            self.texts[-1] = f"{self.texts[-1]} {text}".strip()
        elif text:
            self.texts.append(text)
        self.inside = self.inside or bool(text)


def _events(name: str, data: bytes, notes: _Notes) -> Iterator[tuple[int, Event, int]]:
    """Each event of a schedule: its line, what it is, and the number of its note."""
    for number, line in _lines(name, data):
        if line.lstrip(b" \t").startswith(b"#"):
            notes.say(line)
            continue
        words = _words(name, number, line)
        if not words:
            continue
        notes.inside = False
        event = _event(words)
        if event is None:
            raise Faulty(name, number, f"`{' '.join(words)}` is no event")
        yield number, event, len(notes.texts)


def check_schedule(name: str, data: bytes) -> None:
    """Nothing, where the text is a schedule."""
    for _ in _events(name, data, _Notes()):
        pass


def _told(name: str, answers: bytes) -> tuple[list[tuple[int, str]], dict[int, str]]:
    """The answers with the numbers of their lines, and the comments behind each, by that number."""
    told: list[tuple[int, str]] = []
    reasons: dict[int, str] = {}
    for number, line in _lines(name, answers, MOST_BYTES_OF_REASON):
        words = line.decode(errors="replace")
        if told and words.startswith("#"):
            place = told[-1][0]
            reasons[place] = f"{reasons.get(place, '')}\n{printable(words).lstrip('#').strip()}".strip()
        else:
            told.append((number, words))
    return told, reasons


def schedule(name: str, data: bytes, answers_name: str, answers: bytes) -> Story:
    """The story of a schedule and what `steps` wrote of it."""
    notes = _Notes()
    moments: list[Moment] = []
    told, reasons = _told(answers_name, answers)
    events = list(_events(name, data, notes))
    for line, (kind, number, operation, times), note in events:
        for _ in range(times):
            if len(moments) == len(told):
                raise Faulty(answers_name, len(told) + 1, f"no answer to `{kind}` of line {line} of {name}")
            place, answer = told[len(moments)]
            if not re.fullmatch(f"{ANSWERS[kind]}|{REFUSED}", answer):
                raise Faulty(answers_name, place, f"`{answer}` is no answer to `{kind}` of line {line} of {name}")
            moments.append(Moment(kind, number, operation, answer, note, (answers_name, place), reasons.get(place, "")))
    end = told[len(moments):]
    for at, (place, words) in enumerate(end):
        if not re.fullmatch(r"depth \d{1,2}" if at == len(end) - 1 else BASE, words):
            why = f"`{words}` is no line of the base or of the depth, or is not in its place"
            raise Faulty(answers_name, place, why)
    if not end:
        raise Faulty(answers_name, len(told) + 1, "the base and the depth are missing")
    return Story(moments, notes.texts, [words for _, words in end])


def _item(words: list[str]) -> Item | None:
    """The item that these words are, or None."""
    kind, number = words[0], _number(words[1], BIG, 1) if len(words) > 1 else None
    if number is None:
        return None
    if kind == "op":
        split = len(words) - (2 if words[-2] == "is" else 1)
        operation, reply = _operation(words[2:split]), " ".join(words[split:])
        return Item("whole", number, operation, f"done {reply}") if operation and re.fullmatch(REPLY, reply) else None
    if kind == "commit":
        commit = _number(words[2], BIG, 1) if len(words) == 3 else None
        return Item("commit", number, "", f"committed {commit}") if commit else None
    answer = {"begin": f"begun {number}", "back": "undone", "abort": "aborted"}.get(kind)
    return Item(kind, number, "", answer) if answer and len(words) == 2 else None


def trace(name: str, data: bytes) -> Story:
    """The story of a trace."""
    moments = []
    for number, line in shown("reading", list(_lines(name, data))):
        words = _words(name, number, line)
        item = _item(words) if words else None
        if item is None:
            raise Faulty(name, number, f"`{' '.join(words)}` is no line of a trace")
        moments.append(Moment(*item, 0, (name, number)))
    if data and not data.endswith(b"\n"):
        raise Faulty(name, number, "the input ends inside the line")
    return Story(moments, [], [])
