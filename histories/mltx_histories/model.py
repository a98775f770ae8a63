"""A history in memory: transactions, their operations with replies, and what each operation needs and changes.

Accounts, sets and counters are numbers of cells, by the tables of docs/LANGUAGE.md: an operation needs them in a range and adds
to them. A register has the value that was written last, and a list what was appended, in order; servers of this project have
neither, so that they are kinds of a history alone."""
from collections import defaultdict
from collections.abc import Callable, Iterable, Sequence
from dataclasses import dataclass, field, replace
from functools import cache
from math import inf
from sys import intern

MOST, BIG = 10**18, 2**64
# What has a number that operations change: ("account", a) is 1 where the account is there, ("balance", a) is its balance,
# ("element", s, e) is 1 where the element is in the set, ("size", s) and ("counter", c). Each is 0 at first. ("register", r) and
# ("list", l) have values in place of numbers.
Cell = tuple[str | int, ...]
# What is read of a register, None where nothing was written, or of a list.
Seen = str | None | tuple[str, ...]
# The replies of each operation. That of `is` has a value behind it.
REPLIES = {
    "open": "opened exists", "close": "closed notempty missing", "deposit": "done over missing",
    "withdraw": "done short missing", "balance": "is missing", "add": "added present", "remove": "removed absent",
    "has": "yes no", "size": "is", "up": "done", "down": "done", "read": "is", "write": "done", "append": "done",
}
WITH_TWO = {"deposit", "withdraw", "add", "remove", "has", "up", "down", "write", "append"}


class Faulty(Exception):
    """A text is no history, for this reason."""


@dataclass(frozen=True)
class Need:
    """A cell has a value in this range, modulo 2^64."""

    cell: Cell
    low: int
    high: int

    def holds(self, value: int) -> bool:
        return self.low <= value % BIG <= self.high


@dataclass(frozen=True)
class Effect:
    """Where an operation gets its reply, and by how much it raises cells. `seen` is a register or a list with what was read of
    it, `left` with what was written or appended."""

    needs: tuple[Need, ...] = ()
    changes: dict[Cell, int] = field(default_factory=dict)
    seen: tuple[Cell, Seen] | None = None
    left: tuple[Cell, str] | None = None

    def written(self) -> set[Cell]:
        """The objects that are changed: an account is one with its balance, and a size goes with its elements."""
        if not self.changes:
            return {self.left[0]} if self.left else set()
        found = {("account", cell[1]) if cell[0] == "balance" else cell for cell, change in self.changes.items() if change}
        return {cell for cell in found if cell[0] != "size"} | ({self.left[0]} if self.left else set())


@cache
def effect(asked: str, reply: str, kind: str = "") -> Effect:
    """That of an operation with this reply, where what `read` names is of this kind. Raises `Faulty` where there is none."""
    verb, *names = asked.split()
    word, _, told = reply.partition(" ")
    if word not in REPLIES.get(verb, "").split() or len(names) != 1 + (verb in WITH_TWO) or (word == "is") != bool(told):
        raise Faulty(f"`{asked} {reply}` has no such reply")
    if verb in ("write", "append"):
        return Effect(left=(("register" if verb == "write" else "list", names[0]), intern(names[1])))
    if verb == "read" and (kind == "list" or told.startswith("[")):
        return Effect(seen=(("list", names[0]), () if told == "nil" else tuple(map(intern, told.strip("[]").split()))))
    if verb == "read" and (kind == "register" or told == "nil"):
        return Effect(seen=(("register", names[0]), None if told == "nil" else told))
    if not all(it.isdecimal() for it in (*names, told or "0")):
        raise Faulty(f"`{asked} {reply}` has no such reply")
    return _counted(verb, word, int(names[0]), int(names[-1]), int(told or 0))


def _counted(verb: str, word: str, first: int, last: int, value: int) -> Effect:
    account, balance, counter = ("account", first), ("balance", first), ("counter", first)
    if verb == "read":
        return Effect((Need(counter, value, value),))
    if verb in ("up", "down"):
        return Effect((), {counter: last if verb == "up" else -last})
    element, size = ("element", first, last), ("size", first)

    def held(low: int, high: int = MOST) -> tuple[Need, ...]:
        return Need(account, 1, 1), Need(balance, low, high)

    there, inside, outside = (Need(account, 1, 1),), (Need(element, 1, 1),), (Need(element, 0, 0),)
    if word == "missing":
        return Effect((Need(account, 0, 0),))
    return {
        "open opened": Effect((Need(account, 0, 0),), {account: 1}),
        "open exists": Effect(there),
        "close closed": Effect(held(0, 0), {account: -1}),
        "close notempty": Effect(held(1)),
        "deposit done": Effect(held(0, MOST - last), {balance: last}),
        "deposit over": Effect(held(MOST - last + 1)),
        "withdraw done": Effect(held(last), {balance: -last}),
        "withdraw short": Effect(held(0, last - 1)),
        "balance is": Effect(held(value, value)),
        "add added": Effect(outside, {element: 1, size: 1}),
        "add present": Effect(inside),
        "remove removed": Effect(inside, {element: -1, size: -1}),
        "remove absent": Effect(outside),
        "has yes": Effect(inside),
        "has no": Effect(outside),
        "size is": Effect((Need(size, value, value),)),
    }[f"{verb} {word}"]


def answer(asked: str, value_of: Callable[[Cell], int]) -> tuple[str, Effect]:
    """The reply of an operation on numbers where cells have these values, and its effect."""
    for word in REPLIES[asked.split()[0]].split():
        reply = f"is {value_of(effect(asked, 'is 0').needs[-1].cell)}" if word == "is" else word
        found = effect(asked, reply)
        if all(need.holds(value_of(need.cell)) for need in found.needs):
            return reply, found
    raise AssertionError(f"`{asked}` has no reply")


@dataclass(frozen=True)
class Done:
    """An operation, its reply and its effect."""

    asked: str
    reply: str
    effect: Effect

    def __str__(self) -> str:
        return f"`{self.asked} {self.reply}`"


def done(asked: str, reply: str) -> Done:
    """An operation; that of a `read` is settled once all of the history is known."""
    is_value = asked.startswith("read ") and not (asked[5:] + reply[3:]).isdecimal()
    return Done(asked, reply, effect(asked, reply, "register" if is_value else ""))


@dataclass
class Transaction:
    """A transaction with the times at which it began and ended. `ending` is "" where nothing tells how it ended, which may be by
    a commit; `order` is the number of its commit, where the system told one, and `line` the line of its end, `begun` that of
    its beginning, and `lines` those of its operations, where it is known."""

    number: int
    start: float = -inf
    end: float = inf
    ending: str = ""
    order: float = inf
    line: float = inf
    done: list[Done] = field(default_factory=list)
    client: str = ""
    begun: float = 0
    lines: list[float] = field(default_factory=list)


def settled(transactions: Sequence[Transaction], kind: str = "counter") -> list[Transaction]:
    """The same, where each `read` is one of a register, of a list or of a counter, by what else names it; and where nothing does,
    of this kind. Raises `Faulty` where one name is of two kinds."""
    kinds: dict[str, str] = {}
    for verb, *names in {tuple(it.asked.split()[:2]) for one in transactions for it in one.done}:
        found = {"write": "register", "append": "list", "up": "counter", "down": "counter"}.get(verb)
        if found and kinds.setdefault(names[0], found) != found:
            raise Faulty(f"{names[0]} is both a {found} and a {kinds[names[0]]}")

    def of_kind(it: Done) -> Done:
        if not it.asked.startswith("read "):
            return it
        mine = str(it.effect.seen[0][0]) if it.effect.seen else "counter"
        known = kinds.get(it.asked[5:]) or (mine if it.effect.seen else kind)
        return it if known == mine else Done(it.asked, it.reply, effect(it.asked, it.reply, known))

    return [replace(one, done=[of_kind(it) for it in one.done]) for one in transactions]


class Node:
    """A transaction, what it needs at its start with what it has added itself by then, and what it adds to cells in all."""

    def __init__(self, one: Transaction) -> None:
        self.one, self.number = one, one.number
        self.needs: list[tuple[Need, int, Done]] = []
        self.changes: defaultdict[Cell, int] = defaultdict(int)
        # By cell the operations that change it, each with what was added up to then.
        self.steps: defaultdict[Cell, list[tuple[Done, int]]] = defaultdict(list)
        # What it read of registers and lists, with the number of its own writes before; and by cell what it wrote.
        self.views: list[tuple[Cell, Seen, int, Done]] = []
        self.left: defaultdict[Cell, list[tuple[str, Done]]] = defaultdict(list)
        self.written: set[Cell] = set()
        for it in one.done:
            self.needs += [(need, self.changes[need.cell], it) for need in it.effect.needs]
            for cell, change in it.effect.changes.items():
                self.changes[cell] += change
                self.steps[cell].append((it, self.changes[cell]))
            if it.effect.seen:
                cell, seen = it.effect.seen
                self.views.append((cell, seen, len(self.left[cell]) if cell in self.left else 0, it))
            if it.effect.left:
                self.left[it.effect.left[0]].append((it.effect.left[1], it))
            if it.effect.changes or it.effect.left:
                self.written |= it.effect.written()

    def step_on(self, cell: Cell) -> Done:
        """Its last operation that changes a cell."""
        return self.left[cell][-1][1] if cell in self.left else self.steps[cell][-1][0]


def by_hint(node: Node) -> tuple[float, ...]:
    """Where a transaction stands if nothing else is known: by the numbers of commits, by the ends, by the lines."""
    return node.one.order, node.one.end, node.one.line


def hinted(transactions: Iterable[Transaction]) -> tuple[list[Node], list[Node]]:
    """The transactions that may have committed, by their hints, and those that were aborted."""
    nodes = [Node(one) for one in transactions]
    kept = sorted((node for node in nodes if node.one.ending != "abort"), key=by_hint)
    return kept, [node for node in nodes if node.one.ending == "abort"]
