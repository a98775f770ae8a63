"""A small model of the tables, of scripts and of traces, for expected values. It is written from docs/LANGUAGE.md and
docs/SCHEDULES.md alone.

An operation is a tuple, as `("open", 1)`, `("deposit", 1, 50)` or `("has", 4, 9)`. A reply is its text, as `done` or
`is 5`. A cell is `("account", a)`, `("element", s, e)`, `("counter", c)` or `("size", s)`. What a cell holds is None
where it is absent, else its number, which is 0 for an element. The size of a set is the number of its elements."""
from __future__ import annotations

import re
from collections.abc import Iterable, Iterator
from dataclasses import dataclass, field
from typing import Any, NamedTuple

# An operation and a cell: a name and as many numbers as it wants, which hints can't say. In a script the last of an
# operation may be a letter.
Op = tuple[Any, ...]
Cell = tuple[Any, ...]
# An operation and its reply.
Done = tuple[Op, str]
# A kind and what a statement of it has, as `Script` lists them; and a name and what an event of it has.
Statement = tuple[Any, ...]
Event = tuple[Any, ...]

MOST_BALANCE = 10**18
MOST_LINE, MOST_OPERATIONS, MOST_NESTING = 200, 256, 16

# How many numbers each operation takes: those that name its cell, and its amount.
NAMES = {"open": 1, "close": 1, "deposit": 1, "withdraw": 1, "balance": 1}
NAMES |= {"add": 2, "remove": 2, "has": 2, "size": 1, "up": 1, "down": 1, "read": 1}
KINDS = {"add": "element", "remove": "element", "has": "element", "size": "size"}
KINDS |= {"up": "counter", "down": "counter", "read": "counter"}
# The ends of the ranges of the numbers that name a cell.
RANGES = {"account": [2**32], "element": [2**16, 2**32], "size": [2**16], "counter": [2**32]}
WITH_AMOUNT = ("deposit", "withdraw", "up", "down")
REPLIES = "opened exists closed notempty done over short missing added present removed absent yes no".split()


def kind_of(name: str) -> str:
    """The kind of the cells that an operation of this name is on."""
    return KINDS.get(name, "account")


def cell_of(op: Op) -> Cell:
    """The cell of an operation."""
    return (kind_of(op[0]), *op[1 : 1 + NAMES[op[0]]])


def text_of(op: Op) -> str:
    return " ".join(map(str, op))


def apply(held: int | None, op: Op) -> tuple[str, int | None]:
    """What an operation is told where its cell holds this, and what the cell holds then."""
    by_kind = {"account": _account, "element": _element, "size": _size, "counter": _counter}
    return by_kind[kind_of(op[0])](held, op[0], op[-1])


def _account(held: int | None, name: str, n: int) -> tuple[str, int | None]:
    if name == "open":
        return ("opened", 0) if held is None else ("exists", held)
    if held is None:
        return "missing", None
    if name == "close":
        return ("closed", None) if held == 0 else ("notempty", held)
    if name == "deposit":
        return ("done", held + n) if held + n <= MOST_BALANCE else ("over", held)
    if name == "withdraw":
        return ("done", held - n) if held >= n else ("short", held)
    return f"is {held}", held


def _element(held: int | None, name: str, _: int) -> tuple[str, int | None]:
    there = held is not None
    if name == "add":
        return ("present" if there else "added"), 0
    if name == "remove":
        return ("removed" if there else "absent"), None
    return ("yes" if there else "no"), held


def _size(held: int | None, _name: str, _set: int) -> tuple[str, int | None]:
    return f"is {held}", held


def _counter(held: int | None, name: str, n: int) -> tuple[str, int | None]:
    value = held or 0
    if name == "read":
        return f"is {value}", held
    return "done", (value + n if name == "up" else value - n) % 2**64


def take_back(held: int | None, op: Op, reply: str) -> int | None:
    """What a cell holds once an operation that was told this reply is taken back."""
    if reply in ("opened", "added"):
        return None
    if reply in ("closed", "removed"):
        return 0
    if reply == "done":
        assert held is not None, "something was done to what is absent"
        n: int = op[-1] if op[0] in ("withdraw", "down") else -op[-1]
        return (held + n) % 2**64
    return held


# The letter of each class, by operation and reply, and which classes conflict: held first, then those requested later.
CLASSES = {"opened": "O", "exists": "E", "closed": "C", "notempty": "N", "over": "V", "short": "S", "missing": "X"}
CLASSES |= {"added": "A", "present": "P", "removed": "R", "absent": "Z", "yes": "Y", "no": "Q"}
BY_OPERATION = {"deposit": "D", "withdraw": "W", "up": "K", "down": "K", "balance": "B", "read": "G", "size": "G"}
CONFLICTS = {"O": "ECDVWSB", "E": "C", "C": "OX", "N": "W", "D": "CNVWB", "V": "CW", "W": "CDSB", "S": "CD", "B": "CDW"}
CONFLICTS |= {"X": "O", "A": "PRY", "P": "R", "Y": "R", "R": "AZQ", "Z": "A", "Q": "A", "K": "G", "G": "K"}


def locks(op: Op, reply: str) -> dict[Cell, str]:
    """The cells that an operation with this reply is locked on, each with its class there: what puts an element in or
    takes it out counts on the size of its set."""
    there = {cell_of(op): CLASSES.get(reply) or BY_OPERATION[op[0]]}
    return {**there, ("size", op[1]): "K"} if reply in ("added", "removed") else there


def clash(held: tuple[Op, str], requested: tuple[Op, str]) -> bool:
    """Whether a pair of operation and reply may not pass one that another transaction holds."""
    first, second = locks(*held), locks(*requested)
    return any(second[cell] in CONFLICTS[first[cell]] for cell in first.keys() & second.keys())


class Base:
    """What all cells hold."""

    def __init__(self) -> None:
        self.cells: dict[Cell, int] = {}
        # What cells held before they were changed.
        self.changed: list[tuple[Cell, int | None]] = []

    def held(self, op: Op) -> int | None:
        if op[0] == "size":
            return sum(cell[:2] == ("element", op[1]) for cell in self.cells)
        return self.cells.get(cell_of(op))

    def put(self, op: Op, value: int | None) -> None:
        """Puts a value into the cell of an operation. A set's size goes with its elements, and is not put."""
        if op[0] != "size":
            self.changed.append((cell_of(op), self.held(op)))
            self._set(cell_of(op), value)

    def _set(self, cell: Cell, value: int | None) -> None:
        if value is None:
            self.cells.pop(cell, None)
        else:
            self.cells[cell] = value

    def ask(self, op: Op) -> str:
        """Does an operation, and returns its reply."""
        reply, value = apply(self.held(op), op)
        self.put(op, value)
        return reply

    def keep(self) -> None:
        self.changed.clear()

    def undo(self) -> None:
        """Takes back all since the last `keep`."""
        while self.changed:
            self._set(*self.changed.pop())

    def text(self) -> str:
        """The text of a base: accounts, elements and counters, each by rising number."""
        by_kind: dict[str, list[str]] = {kind: [] for kind in ("account", "element", "counter")}
        for (kind, *names), value in sorted(self.cells.items()):
            shown = [kind, *names] if kind == "element" else [kind, *names, value]
            if kind != "counter" or value:
                by_kind[kind].append(" ".join(map(str, shown)) + "\n")
        return "".join(sum(by_kind.values(), []))


class Fault(Exception):
    """A text is faulty: in this line, for this cause."""

    def __init__(self, line: int, cause: str) -> None:
        super().__init__(f"line {line} {cause}")


@dataclass
class Script:
    """A client, statements, and whether it ends in `commit`. A statement is ("op", op), ("need", op, reply),
    ("let", variable, op) or ("if", op, reply, then, otherwise). An amount may be a letter, which is a variable."""

    client: int
    statements: list[Statement] = field(default_factory=list)
    commits: bool = True


def run_script(script: Script, base: Base) -> tuple[list[str], bool]:
    """The replies of a script that is run alone, and whether it committed. One that aborts leaves no change."""
    replies: list[str] = []
    variables: dict[str, int] = {}
    kept = _run(script.statements, base, replies, variables) and script.commits
    if kept:
        base.keep()
    else:
        base.undo()
    return replies, kept


def _run(statements: list[Statement], base: Base, replies: list[str], variables: dict[str, int]) -> bool:
    """Runs statements; False where a `need` was not met."""
    for kind, *rest in statements:
        op = rest[1] if kind == "let" else rest[0]
        if op[0] in WITH_AMOUNT:
            op = (*op[:-1], _value(op[-1], variables))
        reply = base.ask(op)
        replies.append(reply)
        if kind == "let":
            variables[rest[0]] = int(reply[3:]) if reply.startswith("is ") else 0
        elif kind in ("need", "if"):
            met = reply == (rest[1] if rest[1] in REPLIES else f"is {_value(rest[1], variables)}")
            if kind == "need" and not met:
                return False
            if kind == "if" and not _run(rest[2] if met else rest[3], base, replies, variables):
                return False
    return True


def _value(amount: int | str, variables: dict[str, int]) -> int:
    return variables.get(amount, 0) if isinstance(amount, str) else amount


def solo(scripts: Iterable[Script], base: Base) -> str:
    """What `solo` writes of scripts."""
    written: list[str] = []
    commits = 0
    for script in scripts:
        replies, kept = run_script(script, base)
        commits += kept
        written += [*replies, f"committed {commits}" if kept else "aborted"]
    return "".join(line + "\n" for line in written)


def numbered_lines(text: bytes, comments: bool) -> Iterator[tuple[int, bool, list[str]]]:
    """The lines of a text with their numbers, whether each ends in a line feed, and its words."""
    pieces = text.split(b"\n")
    for number, piece in enumerate(pieces, 1):
        ended = number < len(pieces)
        if not ended and not piece:
            return
        line = piece.removesuffix(b"\r") if ended else piece
        comment = comments and line.lstrip(b" \t").startswith(b"#")
        if len(piece) > MOST_LINE or not comment and re.search(rb"[^\t\x20-\x7e]", line):
            raise Fault(number, "Line")
        yield number, ended, [] if comment else line.decode("latin-1").split()


def number(word: str, below: int) -> int | None:
    """The number that a word spells, or None."""
    if word and re.fullmatch("[0-9]{1,20}", word) and int(word) < below:
        return int(word)
    return None


def read_op(words: list[str], variables: bool = False) -> Op | None:
    """The operation that these words spell, or None."""
    name, *rest = words or [""]
    places = NAMES.get(name, -1)
    if len(rest) != places + (name in WITH_AMOUNT):
        return None
    numbers: list[int | str | None] = [number(word, end) for word, end in zip(rest, RANGES[kind_of(name)])]
    if name in WITH_AMOUNT:
        numbers.append(_amount(rest[-1], variables))
    return None if None in numbers else (name, *numbers)


def _amount(word: str, variables: bool = True) -> int | str | None:
    return word if variables and re.fullmatch("[a-z]", word) else number(word, 2**64)


def _statement(words: list[str]) -> Statement | None:
    """The statement that these words spell, with no other statements in it, or None."""
    first, rest = words[0], words[1:]
    if first in ("need", "if") and len(rest) >= 3 and rest[-2] == "is":
        op, reply = read_op(rest[:-2], True), rest[-1] if rest[-1] in REPLIES else _amount(rest[-1])
        if op is not None and reply is not None:
            return (first, op, reply, [], []) if first == "if" else (first, op, reply)
    elif first == "let" and len(rest) == 4 and re.fullmatch("[a-z]", rest[0]) and rest[1] == "=":
        op = read_op(rest[2:])
        if op and op[0] in ("balance", "read", "size"):
            return "let", rest[0], op
    op = read_op(words, True)
    return None if op is None else ("op", op)


@dataclass
class OpenIf:
    """An `if` whose `end` has not come: its statement, and how many operations the longest path had at it and at its `else`,
    which is None where none stood yet."""

    statement: Statement
    at_if: int
    at_else: int | None = None


class Parser:
    """Reads scripts line by line. `longest` is how many operations the longest path has so far."""

    def __init__(self) -> None:
        self.scripts: list[Script] = []
        self.script: Script | None = None
        self.open_ifs: list[OpenIf] = []
        self.longest = 0

    def parse(self, text: bytes) -> list[Script]:
        """The scripts of a text; raises its first fault."""
        last = 0
        for last, _, words in numbered_lines(text, comments=True):
            cause = self._line(words) if words else None
            if cause:
                raise Fault(last, cause)
        if self.script:
            raise Fault(last, "Unfinished")
        return self.scripts

    def _line(self, words: list[str]) -> str | None:
        """Takes a line; the cause, where it is faulty."""
        if words[0] == "begin" and len(words) <= 2:
            client = number(words[1], 1000) if len(words) == 2 else 0
            return "Words" if client is None else self._begin(client)
        if words in (["commit"], ["abort"]):
            return self._ending(words[0] == "commit")
        if words in (["else"], ["end"]):
            return self._else() if words == ["else"] else self._end()
        statement = _statement(words)
        if statement is None:
            return "Words"
        return self._add(self.script, statement) if self.script else "Place"

    def _begin(self, client: int) -> str | None:
        if self.script:
            return "Place"
        self.script, self.longest = Script(client), 0
        return None

    def _ending(self, commits: bool) -> str | None:
        if not self.script or self.open_ifs:
            return "Place"
        self.script.commits = commits
        self.scripts.append(self.script)
        self.script = None
        return None

    def _add(self, script: Script, statement: Statement) -> str | None:
        if statement[0] == "if" and len(self.open_ifs) == MOST_NESTING:
            return "Deep"
        if self.longest == MOST_OPERATIONS:
            return "Long"
        self.longest += 1
        self._place(script).append(statement)
        if statement[0] == "if":
            self.open_ifs.append(OpenIf(statement, self.longest))
        return None

    def _place(self, script: Script) -> list[Statement]:
        if not self.open_ifs:
            return script.statements
        inner = self.open_ifs[-1]
        place: list[Statement] = inner.statement[3 if inner.at_else is None else 4]
        return place

    def _else(self) -> str | None:
        if not self.open_ifs or self.open_ifs[-1].at_else is not None:
            return "Place"
        inner = self.open_ifs[-1]
        inner.at_else, self.longest = self.longest, inner.at_if
        return None

    def _end(self) -> str | None:
        if not self.open_ifs:
            return "Place"
        self.longest = max(self.longest, self.open_ifs.pop().at_else or 0)
        return None


def parse(text: bytes) -> list[Script]:
    """The scripts of a text; raises its first fault."""
    return Parser().parse(text)


def read_events(text: bytes) -> list[Event]:
    """The events of a text, each as its words with numbers read; raises its first fault."""
    events = []
    for line, _, words in numbered_lines(text, comments=True):
        if words:
            event = _event(words)
            if event is None:
                raise Fault(line, "Words")
            events.append(event)
    return events


def _event(words: list[str]) -> Event | None:
    """("begin",), ("step", t, n), ("call" or "whole", t, op), or another name with its t; None where it is none."""
    name, rest = words[0], words[1:]
    if name == "begin":
        return ("begin",) if not rest else None
    t = number(rest[0], 2**64) if rest else None
    if t is None:
        return None
    if name in ("call", "whole"):
        op = read_op(rest[1:])
        return (name, t, op) if op else None
    if name == "step" and len(rest) <= 2:
        times = number(rest[1], 1001) if len(rest) == 2 else 1
        return (name, t, times) if times else None
    return (name, t) if name in ("cancel", "commit", "abort", "undo") and len(rest) == 1 else None


class Traced(NamedTuple):
    """The operations of a transaction that stand, each with its line and reply, and those that were taken back."""

    ops: list[tuple[int, Op, str]]
    backs: list[tuple[int, Op, str]]


def check(text: bytes) -> str:
    """What `check` writes of a trace; raises its first fault."""
    base, begun = Base(), 0
    order: list[int] = []
    transactions: dict[int, Traced] = {}
    for line, ended, words in numbered_lines(text, comments=False):
        if not ended:
            raise Fault(line, "Cut")
        item = _item(words)
        if item is None:
            raise Fault(line, "Words")
        name, t, rest = item
        if name == "begin":
            if t <= begun:
                raise Fault(line, "Place")
            begun, transactions[t] = t, Traced([], [])
            continue
        if t not in transactions or not _follows(name, transactions[t], rest, len(order)):
            raise Fault(line, "Place")
        ops, backs = transactions[t]
        if name == "op":
            op, reply = rest
            ops.append((line, op, reply))
        elif name == "back":
            backs.append(ops.pop())
        else:
            del transactions[t]
            if name == "commit":
                _replay(base, ops)
                order.append(t)
    return "".join(f"serial {t}\n" for t in order) + base.text()


def _item(words: list[str]) -> tuple[str, int, Any] | None:
    """A line of a trace as its name, its transaction and the rest; None where it is none."""
    t = number(words[1], 2**64) if len(words) > 1 else None
    if not t:
        return None
    if words[0] in ("begin", "back", "abort") and len(words) == 2:
        return words[0], t, None
    if words[0] == "commit" and len(words) == 3 and number(words[2], 2**64):
        return "commit", t, number(words[2], 2**64)
    if words[0] == "op" and len(words) > 3:
        asked = words[2:-1]
        reply: str | None = words[-1]
        if asked[-1] == "is":
            value = number(words[-1], 2**64)
            asked, reply = asked[:-1], None if value is None else f"is {value}"
        elif reply not in REPLIES:
            reply = None
        op = read_op(asked)
        return ("op", t, (op, reply)) if op and reply else None
    return None


def _follows(name: str, transaction: Traced, number_of_commit: object, commits: int) -> bool:
    """Whether a line of this name may follow those of its transaction."""
    ops, backs = transaction
    if name == "op":
        return not backs
    if name == "commit":
        return not backs and number_of_commit == commits + 1
    return bool(ops) if name == "back" else not ops


def _replay(base: Base, ops: list[tuple[int, Op, str]]) -> None:
    for line, op, reply in ops:
        if base.ask(op) != reply:
            raise Fault(line, "Reply")
    base.keep()
