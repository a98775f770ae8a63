"""Small random histories, and whether they keep each level, by trying all orders: nothing of the package is used here.

Operations are tuples as ("up", 7, 1), ("read", 7) of a counter, ("write", "x", 3), ("get", "x"), ("append", "l", 4), ("all", "l")
and those on accounts and sets; replies are words, numbers, None or tuples."""
import json
import os
import random
from collections.abc import Callable, Iterator, Sequence
from copy import deepcopy
from dataclasses import dataclass, field
from itertools import combinations, permutations
from math import inf
from typing import Any

Op = tuple[Any, ...]
Reply = Any
MOST = 10**18
# So many times as many cases are tried as usual.
CASES = int(os.environ.get("MLTX_CASES", 1))


@dataclass
class Made:
    """A transaction that was made up."""

    number: int
    start: int
    end: float
    ending: str
    ops: list[Op]
    replies: list[Reply] = field(default_factory=list)


class State:
    """What objects have: an account is (is there, coins), elements and counters numbers, a register a value, a list a tuple."""

    def __init__(self) -> None:
        self.values: dict[tuple[Any, ...], Any] = {}

    def get(self, kind: str, *names: Any) -> Any:
        return self.values.get((kind, *names), {"account": (0, 0), "register": None, "list": ()}.get(kind, 0))

    def ask(self, op: Op) -> Reply:
        verb, name, last = op[0], op[1], op[-1]
        if verb in ("open", "close", "deposit", "withdraw", "balance"):
            is_there, coins = self.get("account", name)
            reply, now = account(verb, is_there, coins, last)
            if now != (is_there, coins):
                self.values["account", name] = now
            return reply
        if verb in ("add", "remove", "has"):
            is_in = self.get("element", name, last)
            if verb != "has":
                self.values["element", name, last] = int(verb == "add")
            return {"add": ("added", "present"), "remove": ("absent", "removed"), "has": ("no", "yes")}[verb][is_in]
        if verb == "size":
            return sum(it for key, it in self.values.items() if key[:2] == ("element", name))
        kind = {"write": "register", "get": "register", "append": "list", "all": "list"}.get(verb, "counter")
        found = self.get(kind, name)
        if verb in ("read", "get", "all"):
            return found
        if verb in ("up", "down"):
            self.values[kind, name] = (found + (last if verb == "up" else -last)) % 2**64
        else:
            self.values[kind, name] = last if verb == "write" else found + (last,)
        return "done"


def account(verb: str, is_there: int, coins: int, amount: int) -> tuple[Reply, tuple[int, int]]:
    if verb == "open":
        return ("exists", (1, coins)) if is_there else ("opened", (1, 0))
    if not is_there:
        return "missing", (0, coins)
    if verb == "balance":
        return coins, (1, coins)
    if verb == "close":
        return ("notempty", (1, coins)) if coins else ("closed", (0, 0))
    if verb == "deposit":
        return ("over", (1, coins)) if coins + amount > MOST else ("done", (1, coins + amount))
    return ("short", (1, coins)) if coins < amount else ("done", (1, coins - amount))


def objects(op: Op, reply: Reply) -> set[tuple[Any, ...]]:
    """What an operation with this reply changes."""
    verb, name, last = op[0], op[1], op[-1]
    if reply in ("opened", "closed") or reply == "done" and verb in ("deposit", "withdraw") and last:
        return {("account", name)}
    if reply in ("added", "removed"):
        return {("element", name, last)}
    kind = {"write": "register", "append": "list", "up": "counter", "down": "counter"}.get(verb)
    return {(kind, name)} if kind and (last or verb in ("write", "append")) else set()


def writes(one: Made) -> set[tuple[Any, ...]]:
    return set().union(*(objects(op, reply) for op, reply in zip(one.ops, one.replies)))


def chosen(made: Sequence[Made]) -> Iterator[list[Made]]:
    """The transactions that may be the committed ones."""
    sure, unsure = ([one for one in made if one.ending == ending] for ending in ("commit", ""))
    for count in range(len(unsure) + 1):
        for some in combinations(unsure, count):
            yield [*sure, *some]


def some_order(made: Sequence[Made], fits: Callable[[Sequence[Made]], bool]) -> bool:
    return any(fits(order) for some in chosen(made) for order in permutations(some))


def is_serial(order: Sequence[Made]) -> bool:
    state = State()
    return all(state.ask(op) == reply for one in order for op, reply in zip(one.ops, one.replies))


def keeps_time(order: Sequence[Made]) -> bool:
    return not any(later.end < one.start for one, later in combinations(order, 2))


def has_snapshots(order: Sequence[Made]) -> bool:
    """Whether, if they commit in this order, each has a snapshot behind some of those before it which explains its replies, and
    none of the others before it changes what it changes."""
    states = [State()]
    for at, one in enumerate(order):
        for first in range(at, -1, -1):
            if any(writes(it) & writes(one) for it in order[first:at]):
                return False
            mine = deepcopy(states[first])
            if [mine.ask(op) for op in one.ops] == one.replies:
                break
        else:
            return False
        after = deepcopy(states[-1])
        after.values |= {key: mine.values[key] for key in writes(one)}
        states.append(after)
    return True


def is_committed(order: Sequence[Made]) -> bool:
    """Whether each operation sees whole transactions of those before it in this order: of a register a last value, of a list the
    first ones of this order, and of what adds up any of them, and of its own transaction what it did before."""
    return all(_sees_committed(order[:at], one, place) for at, one in enumerate(order) for place in range(len(one.ops)))


def _sees_committed(before: Sequence[Made], one: Made, place: int) -> bool:
    op, reply = one.ops[place], one.replies[place]
    verb, name = op[0], op[1]
    if verb in ("write", "append", "up", "down"):
        return True
    own = list(zip(one.ops, one.replies))[:place]
    if verb == "get":
        wrote = [it[2] for it, _ in own if it[:2] == ("write", name)]
        lasts = [[it[2] for it in other.ops if it[:2] == ("write", name)][-1:] for other in before]
        return bool(reply == wrote[-1]) if wrote else reply is None or [reply] in lasts
    if verb == "all":
        mine = tuple(it[2] for it, _ in own if it[:2] == ("append", name))
        found: tuple[Any, ...] = ()
        steps = [found]
        for other in before:
            found += tuple(it[2] for it in other.ops if it[:2] == ("append", name))
            steps.append(found)
        return bool(reply == found + mine) if mine else reply in steps
    sums = [_added(list(zip(it.ops, it.replies)), op) for it in before]
    start = _added(own, op)
    return any(_fits(op, reply, [sum(it) for it in zip(start, *some)])
               for count in range(len(sums) + 1) for some in combinations(sums, count))


def _added(done: Sequence[tuple[Op, Reply]], asked: Op) -> tuple[int, int]:
    """By how much operations change what another one asks for: an account and its coins, or a number."""
    first = second = 0
    for op, reply in done:
        if op[1] != asked[1]:
            continue
        if asked[0] in ("open", "close", "deposit", "withdraw", "balance"):
            first += (reply == "opened") - (reply == "closed")
            second += (op[-1] if op[0] == "deposit" else -op[-1]) if reply == "done" and op[0] in ("deposit", "withdraw") else 0
        elif asked[0] == "size" or asked[0] in ("add", "remove", "has") and op[0] in ("add", "remove") and op[2] == asked[2]:
            first += (reply == "added") - (reply == "removed")
        elif asked[0] == "read":
            first += op[2] if op[0] == "up" else -op[2] if op[0] == "down" else 0
    return first, second


def _fits(op: Op, reply: Reply, found: Sequence[int]) -> bool:
    first, second = found
    if op[0] in ("size", "read"):
        return bool(first % 2**64 == reply)
    if op[0] in ("add", "remove", "has"):
        replies = {"add": ("added", "present"), "remove": ("absent", "removed"), "has": ("no", "yes")}[op[0]]
        return first in (0, 1) and bool(reply == replies[first])
    if first not in (0, 1):
        return False
    if op[0] == "open" or not first:
        return bool(account(op[0], first, 0, 0)[0] == reply)
    return 0 <= second <= MOST and bool(account(op[0], 1, second, op[-1])[0] == reply)


LEVELS: dict[str, Callable[[Sequence[Made]], bool]] = {
    "read committed": is_committed, "snapshot isolation": has_snapshots, "serializable": is_serial,
    "strict serializable": lambda order: keeps_time(order) and is_serial(order),
}


def verdicts(made: Sequence[Made]) -> dict[str, bool]:
    return {level: some_order(made, fits) for level, fits in LEVELS.items()}


# Random histories.

def drawn(source: random.Random, kinds: Sequence[str], fresh: Iterator[int], is_clear: bool) -> Op:
    """An operation; where it is to be clear, no other changes a thing alike."""
    kind, name, value = source.choice(kinds), source.choice((1, 1, 2)), next(fresh)
    amount = 1 << value if is_clear else source.choice((0, 1, 1, 2))
    if kind == "counter":
        return source.choice([("up", name, amount), ("down", name, amount), ("read", name), ("read", name)])
    if kind == "register":
        return source.choice([("write", f"r{name}", value if is_clear else amount), ("get", f"r{name}"), ("get", f"r{name}")])
    if kind == "list":
        return source.choice([("append", f"l{name}", value), ("all", f"l{name}"), ("all", f"l{name}")])
    if kind == "set":
        element = value if is_clear else source.randrange(1, 3)
        other = source.randrange(1, 4)
        removes = [("remove", name, other)] if not is_clear or source.random() < 0.1 else []
        return source.choice([("add", name, element), *removes, ("has", name, other), ("size", name)])
    return source.choice([("open", name), ("close", name), ("balance", name), ("balance", name), ("deposit", name, amount),
                          ("withdraw", name, amount)])


def made_up(source: random.Random, is_clear: bool) -> list[Made]:
    """Three to five transactions of a system with more or less isolation."""
    alone = ["counter", "register", "list", "set", "account"]
    kinds = source.choice([*([it] for it in alone), alone])
    fresh, count = iter(range(60)), source.randrange(3, 6)
    made = []
    for number in range(1, count + 1):
        start = source.randrange(20)
        ending = source.choice(["commit"] * 6 + ["abort", ""])
        ops = [drawn(source, kinds, fresh, is_clear) for _ in range(source.randrange(1, 4))]
        made.append(Made(number, start, start + source.randrange(12) if ending else inf, ending, ops))
    how = source.choice(["serial", "snapshots", "snapshots", "dirty", "mixed", "mixed", "mixed"])
    order = source.sample(made, count)
    states = [State()]
    if how == "dirty":
        for one in source.sample([one for one in made for _ in one.ops], sum(len(one.ops) for one in made)):
            one.replies.append(states[0].ask(one.ops[len(one.replies)]))
        return made
    for one in order:
        mine = deepcopy(states[-1] if how == "serial" else source.choice(states[-3:]))
        for op in one.ops:
            if how == "mixed" and source.random() < 0.5:
                own = {key: mine.values[key] for key in writes(one) if key in mine.values}
                mine.values = {**source.choice(states).values, **own}
            one.replies.append(mine.ask(op))
        if one.ending == "commit" or not one.ending and source.random() < 0.5:
            after = deepcopy(states[-1])
            after.values |= {key: mine.values[key] for key in writes(one) if key in mine.values}
            if how == "mixed" and source.random() < 0.5:
                after = deepcopy(states[-1])
                for op in one.ops:
                    after.ask(op)
            states.append(after)
    return made


def as_text(made: Sequence[Made], has_times: bool = True) -> str:
    """The history in the format of docs/HISTORIES.md."""
    lines = []
    for one in made:
        lines.append(f"begin {one.number}" + f" at {one.start}" * has_times)
        lines += [f"op {one.number} {_words(op)} {_reply(op, reply)}" for op, reply in zip(one.ops, one.replies)]
        lines += [f"{one.ending} {one.number}" + f" at {one.end}" * has_times] * bool(one.ending)
    return "".join(line + "\n" for line in lines)


def _words(op: Op) -> str:
    return " ".join(map(str, ({"get": "read", "all": "read"}.get(op[0], op[0]), *op[1:])))


def _reply(op: Op, reply: Reply) -> str:
    if op[0] == "all":
        return f"is [{' '.join(map(str, reply))}]"
    if op[0] == "get":
        return f"is {'nil' if reply is None else reply}"
    return f"is {reply}" if isinstance(reply, int) else str(reply)


def _micro(op: Op, reply: Reply, is_known: bool = True) -> list[Any]:
    """An operation as Elle writes it, or by its name in this project where Elle has none."""
    if op[0] in ("get", "all"):
        return ["r", op[1], (list(reply) if isinstance(reply, tuple) else reply) if is_known else None]
    if op[0] in ("write", "append"):
        return [{"write": "w"}.get(op[0], "append"), op[1], op[2]]
    return [*op, *([reply] if reply != "done" else [])]


def _events(made: Sequence[Made], has_times: bool) -> list[dict[str, Any]]:
    """The events of Jepsen, by time. Without times each has the place that it has there."""
    events: list[tuple[float, int, int, dict[str, Any]]] = []
    for one in made:
        end = {"commit": "ok", "abort": "fail", "": "info"}[one.ending]
        asked = [_micro(op, reply, False) for op, reply in zip(one.ops, one.replies)]
        told = [_micro(op, reply) for op, reply in zip(one.ops, one.replies)] if end == "ok" else asked
        late = one.end if one.ending else 10**6
        first = {"type": "invoke", "process": one.number, "f": "txn", "value": asked, "time": one.start * 1000}
        events.append((one.start, 0, one.number, first))
        events.append((late, 1, one.number, {**first, "type": end, "value": told, "time": late * 1000}))
    found = [it for *_, it in sorted(events, key=lambda it: it[:3])]
    # Who begins when another one ends begins beside it.
    return [{**it, "index": at} for at, it in enumerate(found)] if has_times else found


def as_json_lines(made: Sequence[Made]) -> str:
    return "".join(json.dumps(it) + "\n" for it in _events(made, True))


def _edn(value: Any) -> str:
    if isinstance(value, dict):
        return "{" + ", ".join(f":{key} {_edn(it) if key != 'f' else ':txn'}" for key, it in value.items()) + "}"
    if isinstance(value, list):
        return "[" + " ".join(f":{it}" if not at and isinstance(it, str) else _edn(it) for at, it in enumerate(value)) + "]"
    words = ("ok", "fail", "info", "invoke", "added", "present", "removed", "absent", "yes", "no")
    return "nil" if value is None else f":{value}" if value in words else json.dumps(value)


def as_edn(made: Sequence[Made]) -> str:
    return "".join(_edn(it) + "\n" for it in _events(made, True))


def as_json(made: Sequence[Made]) -> str:
    """In JSON of this project."""
    found = []
    for one in made:
        ops = [[*_words(op).split(" ")[:1], *op[1:], list(reply) if isinstance(reply, tuple) else reply]
               for op, reply in zip(one.ops, one.replies)]
        times: dict[str, float] = {"begin": one.start, **({"end": one.end} if one.ending else {})}
        found.append({"transaction": one.number, "ending": one.ending or "unknown", "operations": ops, **times})
    return json.dumps(found, indent=1)


FORMATS: dict[str, Callable[[Sequence[Made]], str]] = {
    "text": as_text, "EDN": as_edn, "JSON lines": as_json_lines, "JSON": as_json,
}
