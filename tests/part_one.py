"""Part one of docs/HEADLINE.md as a program: which answers, and which base after them, the main theorem allows.

It is read off that page alone, by its names. `account`, `element` and `counter` are its functions. A relation is a function that
finds all that stand in it, so `Does b item d` is `d in does(b, item)`. An object is an account, a set or a counter: operations on
two of them have nothing to do with each other, so bases are compared object by object. Of the pages `steps` prints the base."""
from collections.abc import Iterator, Mapping, Sequence
from functools import lru_cache
from typing import Any, NamedTuple

# An operation is its words, as ("deposit", 101, 50), an item an operation with its reply as it is printed.
Op = tuple[Any, ...]
Item = tuple[Op, str]
Ops = tuple[Item, ...]
# What an object holds: an account its balance, a set its elements, a counter its value.
Held = int | None | frozenset[int]
Object = tuple[str, int]
Base = Mapping[Object, Held]
# An event, an answer and a life are a case and its fields.
Event = tuple[Any, ...]
Told = tuple[Any, ...]
Life = tuple[Any, ...]

MAX_BALANCE = 10**18
REASONS = (
    "OutOfMemory NoRoom NoSuchTx Undoing Running NotRunning TooManyOpen LogFull IdsSpent ScriptFault TraceFault Io Audit GaveUp"
).split()

# Bases and steps.


def account(op: str, n: int, b: int | None) -> tuple[str, int | None]:
    if b is None:
        return ("opened", 0) if op == "open" else ("missing", None)
    if op == "open":
        return "exists", b
    if op == "close":
        return ("closed", None) if b == 0 else ("notempty", b)
    if op == "deposit":
        return ("done", b + n) if b + n <= MAX_BALANCE else ("over", b)
    if op == "withdraw":
        return ("done", b - n) if n <= b else ("short", b)
    return f"is {b}", b


def element(op: str, e: bool) -> tuple[str, bool]:
    if op == "add":
        return "present" if e else "added", True
    if op == "remove":
        return "removed" if e else "absent", False
    return "yes" if e else "no", e


def counter(op: str, n: int, c: int) -> tuple[str, int]:
    if op == "read":
        return f"is {c}", c
    return "done", (c + n if op == "up" else c + (2**64 - n)) % 2**64


def object_of(op: Op) -> Object:
    kinds = {"add": "set", "remove": "set", "has": "set", "size": "set", "up": "counter", "down": "counter", "read": "counter"}
    return kinds.get(op[0], "account"), op[1]


def empty(it: Object) -> Held:
    return {"account": None, "set": frozenset[int](), "counter": 0}[it[0]]


def does(held: Held, item: Item) -> list[Held]:
    (word, _, *rest), reply = item
    n, after = rest[0] if rest else 0, held
    if isinstance(held, frozenset) and word == "size":
        told = f"is {len(held)}"
    elif isinstance(held, frozenset):
        told, is_there = element(word, n in held)
        after = held | {n} if is_there else held - {n}
    elif object_of(item[0])[0] == "counter":
        told, after = counter(word, n, held or 0)
    else:
        told, after = account(word, n, held)
    return [after] if told == reply else []


@lru_cache(maxsize=100_000)
def ends(held: Held, lists: tuple[Ops, ...]) -> frozenset[Held]:
    """Where the interleavings of these lists lead; nowhere where one of them leads nowhere."""
    if len(lists) < 2:
        values = [held]
        for item in lists[0] if lists else ():
            values = [after for value in values for after in does(value, item)]
        return frozenset(values)
    found = set[Held]()
    for place, items in enumerate(lists):
        others = lists[:place] + lists[place + 1 :]
        before = ends(held, tuple(sorted((*others, items[:-1]))) if items[1:] else others)
        after = [does(value, items[-1]) for value in before]
        if not after or [] in after:
            return frozenset()
        found.update(value for values in after for value in values)
    return frozenset(found)


# The course of transactions.

NOT_OPEN: Life = ("NotOpen",)
IDLE: Life = ("Idle",)
UNDOING: Life = ("Undoing",)


class Course(NamedTuple):
    begun: int = 0
    committed: tuple[Ops, ...] = ()
    lives: Mapping[int, Life] = {}
    of_open: Mapping[int, Ops] = {}

    def life(self, tx: int) -> Life:
        return self.lives.get(tx, NOT_OPEN)

    def ops(self, tx: int) -> Ops:
        return self.of_open.get(tx, ())

    def pending(self, tx: int) -> list[Op]:
        return [*self.life(tx)[1:]]

    def is_busy(self, tx: int) -> bool:
        return self.life(tx) not in (NOT_OPEN, IDLE)


def turns(c: Course, tx: int, before: Life, after: Life, ops: Ops) -> list[Course]:
    lives, of_open = {**c.lives, tx: after}, {**c.of_open, tx: ops}
    return [c._replace(lives=lives, of_open=of_open)] if c.life(tx) == before else []


def stays(c: Course, is_so: bool) -> list[Course]:
    return [c] if is_so else []


def tells(c: Course, event: Event, told: Told) -> list[Course]:
    """Each course that the event makes of this one where it is told so."""
    match event, told:
        case ("begin",), ("Begun", tx):
            return turns(c._replace(begun=tx), tx, NOT_OPEN, IDLE, ()) if tx == c.begun + 1 else []
        case ("call", tx, op), ("Called",):
            return turns(c, tx, IDLE, ("Pending", op), c.ops(tx))
        case ("step", tx), ("Going" | "Waiting", *_):
            return stays(c, c.is_busy(tx))
        case ("step", tx), ("Blocked", _):
            return stays(c, c.pending(tx) != [])
        case ("step", tx), ("Done", reply):
            return [d for op in c.pending(tx) for d in turns(c, tx, ("Pending", op), IDLE, (*c.ops(tx), (op, reply)))]
        case ("step", tx), ("Dropped", "NoRoom" | "OutOfMemory"):
            return [d for op in c.pending(tx) for d in turns(c, tx, ("Pending", op), IDLE, c.ops(tx))]
        case ("step", tx), ("Undone",):
            return turns(c, tx, UNDOING, UNDOING, c.ops(tx)[:-1]) if len(c.ops(tx)) > 1 else []
        case ("step", tx), ("Aborted",):
            return turns(c, tx, UNDOING, NOT_OPEN, ()) if len(c.ops(tx)) == 1 else []
        case ("cancel", tx), ("Cancelled",):
            return [d for op in c.pending(tx) for d in turns(c, tx, ("Pending", op), IDLE, c.ops(tx))]
        case ("commit", tx), ("Committed", number):
            d = c._replace(committed=(*c.committed, c.ops(tx)))
            return turns(d, tx, IDLE, NOT_OPEN, ()) if number == len(c.committed) + 1 else []
        case ("abort", tx), ("Aborting", True):
            return turns(c, tx, IDLE, NOT_OPEN, ()) if not c.ops(tx) else []
        case ("abort", tx), ("Aborting", False):
            return turns(c, tx, IDLE, UNDOING, c.ops(tx)) if c.ops(tx) else []
        case ("whole", tx, op), ("Done", reply):
            return turns(c, tx, IDLE, IDLE, (*c.ops(tx), (op, reply)))
        case ("whole", tx, _), ("Waiting" | "Blocked", _) | ("Dropped", "NoRoom" | "OutOfMemory"):
            return stays(c, c.life(tx) == IDLE)
        case ("undo", tx), ("Waiting", _):
            return [d for left in range(1, len(c.ops(tx)) + 1) for d in turns(c, tx, UNDOING, UNDOING, c.ops(tx)[:left])]
        case ("undo", tx), ("Aborted",):
            return turns(c, tx, UNDOING, NOT_OPEN, ())
        case _, ("Refused", reason):
            return stays(c, may_refuse(c, event, reason))
    return []


def may_refuse(c: Course, event: Event, reason: str) -> bool:
    if event[0] == "begin":
        return reason in ("TooManyOpen", "IdsSpent", "OutOfMemory")
    tx = event[1]
    if event[0] in ("call", "whole") and c.life(tx) == IDLE:
        return reason in ("LogFull", "OutOfMemory")
    is_for_it = {"step": c.is_busy(tx), "cancel": c.pending(tx) != [], "undo": c.life(tx) == UNDOING}
    return not is_for_it.get(event[0], c.life(tx) == IDLE) and reason == reason_at(c.life(tx), event)


def reason_at(life: Life, event: Event) -> str:
    if life[0] == "Pending":
        return "NotRunning" if event[0] == "undo" else "Running"
    return {NOT_OPEN: "NoSuchTx", IDLE: "NotRunning", UNDOING: "Undoing"}[life]


# The promise.


@lru_cache(maxsize=10_000)
def alone(committed: tuple[Ops, ...]) -> Base | None:
    """The base that the committed transactions lead to, one after another, from the empty base."""
    before = alone(committed[:-1]) if committed else {}
    if before is None:
        return None
    base = dict(before)
    for item in committed[-1] if committed else ():
        it = object_of(item[0])
        found = does(base.get(it, empty(it)), item)
        if not found:
            return None
        base[it] = found[0]
    return base


def is_taken_back(base: Base, c: Course) -> bool:
    """Whether every interleaving of what open transactions did leads from the base to one state."""
    lists = dict[Object, list[Ops]]()
    for ops in c.of_open.values():
        for it in {object_of(op) for op, _ in ops}:
            lists.setdefault(it, []).append(tuple(item for item in ops if object_of(item[0]) == it))
    return all(len(ends(base.get(it, empty(it)), tuple(sorted(those)))) == 1 for it, those in lists.items())


# What `steps` prints.


def meanings(event: Event, line: str) -> Iterator[Told]:
    """What a printed answer may stand for."""
    match line.split(" "):
        case ["begun", number]:
            yield "Begun", _number(number)
        case ["committed", number]:
            yield "Committed", _number(number)
        case ["waiting", "by", by]:
            yield "Waiting", _number(by)
        case ["blocked", "by", by]:
            yield "Blocked", _number(by)
        case ["done", *reply]:
            yield "Done", " ".join(reply)
        case ["called" | "going" | "undone" | "cancelled" as word]:
            yield (word.capitalize(),)
        case ["aborting"]:
            yield "Aborting", False
        case ["aborted"]:
            yield ("Aborting", True) if event[0] == "abort" else ("Aborted",)
        case ["refused", number, reason] if reason in REASONS and _number(number) == REASONS.index(reason) + 1:
            yield "Refused", reason
            yield "Dropped", reason


def _number(word: str) -> int:
    return int(word) if word.isdecimal() and str(int(word)) == word else -1


def text_of(base: Base) -> list[str]:
    """The lines of a base: accounts, elements and counters, each by rising numbers."""
    accounts = [f"account {it[1]} {held}" for it, held in sorted(base.items()) if it[0] == "account" and held is not None]
    elements = [f"element {it[1]} {e}" for it, held in sorted(base.items()) if isinstance(held, frozenset) for e in sorted(held)]
    return accounts + elements + [f"counter {it[1]} {held}" for it, held in sorted(base.items()) if it[0] == "counter" and held]


def refused_by(events: Sequence[Event], lines: Sequence[str]) -> str | None:
    """The line of part one that refuses what `steps` printed to these events; None where it is allowed."""
    courses = [Course()]
    for event, line in zip(events, lines):
        told = [d for c in courses for meant in meanings(event, line) for d in tells(c, event, meant)]
        if not told:
            return _refusing(courses, event, line)
        bases = [(d, alone(d.committed)) for d in told]
        if not any(base is not None for _, base in bases):
            return "alone"
        courses = [d for d, base in bases if base is not None and is_taken_back(base, d)]
        if not courses:
            return "taken_back"
    ending = lines[len(events) : -1]
    if not all(line.startswith(("account ", "element ", "counter ")) for line in ending) or len(lines) <= len(events):
        return "TellsAll"
    return None if any(text_of(alone(c.committed) or {}) == list(ending) for c in courses) else "means"


def _refusing(courses: list[Course], event: Event, line: str) -> str:
    """What refuses an answer. A refusal is wrong as such, or by its reason: where another one is right."""
    if not line.startswith("refused "):
        return "Tells"
    others = (tells(c, event, ("Refused", reason_at(c.life(tx), event))) for c in courses for tx in event[1:2])
    return "reason_at" if any(others) else "MayRefuse"
