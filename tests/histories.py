"""Histories: tools/histories finds the anomaly that was planted in a history, and tells the cycle worked out by hand; of clean
histories it finds an order that the program's check accepts."""
import importlib
import random
import subprocess
import sys
from collections import Counter
from collections.abc import Callable, Sequence
from dataclasses import dataclass
from itertools import combinations, permutations
from pathlib import Path

import harness
import model
from harness import ROOT, Program, Ran, each, expect, holds, lines, same, test

sys.path[:0] = [str(ROOT / "histories"), str(ROOT / "histories/tests")]
from mltx_histories import text  # noqa: E402
from mltx_histories.order import find  # noqa: E402
from mltx_histories.program import NOT_PROVED, accepted, version  # noqa: E402

TOOL = ROOT / "tools/histories"
CYCLE = "no order: a cycle of {} transactions"
SECONDS = 60
# The end of a transaction that is not known to have ended.
NEVER = 10**9
# By its name a history with what is told of it. Transaction 1 makes what the others find.
PLANTED = {
    "history-with-a-lost-update": (
        "begin 1|op 1 up 7 10 done|commit 1|begin 2|op 2 read 7 is 10|begin 3|op 3 read 7 is 10|op 2 up 7 1 done|commit 2"
        "|op 3 up 7 1 done|commit 3|begin 4|op 4 read 7 is 11|commit 4",
        f"{CYCLE.format(2)}|  2 before 3: `read 7 is 10` of 2 does not see `up 7 1 done` of 3"
        "|  3 before 2: `read 7 is 10` of 3 does not see `up 7 1 done` of 2",
    ),
    "history-with-a-dirty-read": (
        "begin 1|op 1 up 7 10 done|commit 1|begin 2|op 2 up 7 5 done|begin 3|op 3 read 7 is 15|commit 3|abort 2",
        "no order: `read 7 is 15` of 3 sees `up 7 5 done` of 2, which was aborted",
    ),
    "history-with-a-read-of-a-part": (
        "begin 1|op 1 open 3 opened|op 1 deposit 3 7 done|begin 2|op 2 balance 3 is 7|op 1 deposit 3 4 done|commit 1|commit 2",
        "no order: `balance 3 is 7` of 2 sees `deposit 3 7 done` of 1, which did more",
    ),
    "history-with-a-write-skew": (
        "begin 1|op 1 open 1 opened|op 1 deposit 1 50 done|op 1 open 2 opened|op 1 deposit 2 50 done|commit 1|begin 2|begin 3"
        "|op 2 balance 1 is 50|op 2 balance 2 is 50|op 3 balance 1 is 50|op 3 balance 2 is 50|op 2 withdraw 1 50 done"
        "|op 3 withdraw 2 50 done|commit 2|commit 3",
        f"{CYCLE.format(2)}|  2 before 3: `balance 2 is 50` of 2 does not see `withdraw 2 50 done` of 3"
        "|  3 before 2: `balance 1 is 50` of 3 does not see `withdraw 1 50 done` of 2",
    ),
    "history-with-a-phantom": (
        "begin 2|op 2 size 4 is 0|begin 3|op 3 add 4 9 added|commit 3|op 2 size 4 is 1|commit 2",
        f"{CYCLE.format(2)}|  3 before 2: `size 4 is 1` of 2 sees `add 4 9 added` of 3"
        "|  2 before 3: `size 4 is 0` of 2 does not see `add 4 9 added` of 3",
    ),
    "history-with-an-element-that-goes-unseen": (
        "begin 1|op 1 size 4 is 0|begin 2|op 2 size 4 is 0|op 1 add 4 1 added|op 2 add 4 2 added|commit 1|commit 2",
        f"{CYCLE.format(2)}|  1 before 2: `size 4 is 0` of 1 does not see `add 4 2 added` of 2"
        "|  2 before 1: `size 4 is 0` of 2 does not see `add 4 1 added` of 1",
    ),
    "history-with-two-readers-at-odds": (
        "begin 1|op 1 up 1 1 done|commit 1|begin 2|op 2 up 2 1 done|commit 2|begin 3|op 3 read 1 is 1|op 3 read 2 is 0|commit 3"
        "|begin 4|op 4 read 1 is 0|op 4 read 2 is 1|commit 4",
        f"{CYCLE.format(4)}|  1 before 3: `read 1 is 1` of 3 sees `up 1 1 done` of 1"
        "|  3 before 2: `read 2 is 0` of 3 does not see `up 2 1 done` of 2"
        "|  2 before 4: `read 2 is 1` of 4 sees `up 2 1 done` of 2"
        "|  4 before 1: `read 1 is 0` of 4 does not see `up 1 1 done` of 1",
    ),
    "history-with-an-invented-reply": (
        "begin 1|op 1 up 7 1 done|commit 1|begin 2|op 2 up 7 2 done|commit 2|begin 3|op 3 read 7 is 9|commit 3",
        "no order: `read 7 is 9` of 3 is a reply that no order gives: counter 7 can only be 0, 1, 2, 3",
    ),
    # Each sum alone has its transactions, the two together have none.
    "history-without-a-cycle-and-without-an-order": (
        "begin 1|op 1 up 1 1 done|op 1 up 2 1 done|commit 1|begin 2|op 2 up 1 1 done|op 2 up 2 1 done|commit 2"
        "|begin 3|op 3 up 1 1 done|op 3 up 2 1 done|commit 3|begin 4|op 4 read 1 is 1|op 4 read 2 is 2|commit 4",
        "no order: 3 transactions can be put in one, and behind them|  `read 1 is 1` of 4 would be `is 3`",
    ),
}
STALE = lines("begin 1 by 1 at 0|op 1 up 7 1 done|commit 1 at 10|begin 2 by 2 at 20|op 2 read 7 is 0|commit 2 at 30")
STALE_CYCLE = lines(
    f"{CYCLE.format(2)}|  1 before 2: 1 ended before 2 began|  2 before 1: `read 7 is 0` of 2 does not see `up 7 1 done` of 1"
)
# Transaction 1 may have committed. By a history how many transactions the order has.
UNSURE = {
    "begin 1|op 1 up 7 1 done|begin 2|op 2 read 7 is 0|commit 2": 1,
    "begin 1|op 1 up 7 1 done|begin 2|op 2 read 7 is 1|commit 2": 2,
    "begin 1|op 1 read 7 is 5|op 1 up 7 1 done|begin 2|op 2 read 7 is 0|commit 2": 1,
}
FAULTY = {
    "history-with-a-strange-word": ("begin 1\nstart 2\n", "line 2: `start 2` is no line of a history"),
    "history-that-begins-twice": ("begin 1\nbegin 1\n", "line 2: transaction 1 began before"),
    "history-of-what-never-began": ("# one\nop 1 up 7 1 done\n", "line 2: transaction 1 is not open"),
    "history-that-goes-on-behind-its-end": ("begin 1\ncommit 1\nabort 1\n", "line 3: transaction 1 is not open"),
    "history-with-a-reply-of-another": ("begin 1\nop 1 up 7 1 is 5\n", "line 2: `up 7 1 is 5` has no such reply"),
    "history-that-ends-early": ("begin 1 at 9\ncommit 1 at 8\n", "line 2: transaction 1 ended before it began"),
}


def run(*words: object, given: str = "") -> Ran:
    """What a run of the tool came to."""
    ran = subprocess.run([TOOL, *map(str, words)], input=given.encode(), capture_output=True, cwd=ROOT)
    return Ran(ran.returncode, ran.stdout, ran.stderr)


def order(mltx: Program, history: str, *options: str) -> Ran:
    return run("order", *options, "--program", mltx.path, "-", given=history)


def found(mltx: Program, count: int) -> str:
    """What is told of an order that the program accepts."""
    unproved = NOT_PROVED if "not proved" in version(Path(mltx.path)) else ""
    return f"serializable: an order of {count} transactions, which mltx check accepts{unproved}\n"


@each(PLANTED, seconds=0.5)
def planted(mltx: Program, case: tuple[str, str]) -> None:
    expect(order(mltx, lines(case[0])), status=1, out=lines(case[1]))


@test(seconds=1)
def history_in_real_time(mltx: Program) -> None:
    """A reply that was out of date has an order, but none that keeps real time."""
    expect(order(mltx, STALE, "--strict"), status=1, out=STALE_CYCLE)
    expect(order(mltx, STALE), out=found(mltx, 2))


@test(seconds=2)
def history_with_an_unknown_end(mltx: Program) -> None:
    """A transaction of which the end is not known may have committed: it is in the order where another one saw it."""
    for history, count in UNSURE.items():
        expect(order(mltx, lines(history)), out=found(mltx, count), what=history)


@each(FAULTY, seconds=0.5)
def faulty(mltx: Program, case: tuple[str, str]) -> None:
    expect(order(mltx, case[0]), status=2, err=f"mltx-histories: {case[1]}\n")


@dataclass
class Made:
    """A transaction of a history that was made up: when it began and ended, its operations with replies, and how it ended."""

    start: int
    end: int
    done: list[model.Done]
    ending: str


def drawn(source: random.Random, objects: int) -> model.Op:
    """An operation on one of so many objects of each kind."""
    name = source.choice(list(model.NAMES))
    amount = (source.randrange(3),) if name in model.WITH_AMOUNT else ()
    return (name, *(source.randrange(objects) for _ in range(model.NAMES[name])), *amount)


def made_up(source: random.Random, count: int, objects: int, missed: float, endings: Sequence[str]) -> list[Made]:
    """Transactions one after another, each at an instant of the time that it takes, which find what those before them that are
    committed leave. They miss this part of them."""
    made = list[Made]()
    for at in range(50, 50 + 10 * count, 10):
        base = model.Base()
        for op in (op for one in made if one.ending == "commit" and source.random() >= missed for op, _ in one.done):
            base.ask(op)
        done = [(op, base.ask(op)) for op in (drawn(source, objects) for _ in range(source.randrange(1, 5)))]
        ending = source.choice(endings)
        made.append(Made(at - source.randrange(40), at + source.randrange(40) if ending else NEVER, done, ending))
    return made


def is_explained(order: Sequence[Made], is_strict: bool) -> bool:
    """Whether an order gives all replies."""
    base = model.Base()
    in_time = not any(later.end < one.start for one, later in combinations(order, 2))
    return (in_time or not is_strict) and all(base.ask(op) == reply for one in order for op, reply in one.done)


def written(made: list[Made]) -> str:
    """The history, its transactions numbered by their beginnings, and its lines by time."""
    told: list[tuple[int, int, str]] = []
    for number, one in enumerate(sorted(made, key=lambda it: it.start), 1):
        told.append((one.start, number, f"begin {number} at {one.start}\n"))
        ops = "".join(f"op {number} {model.text_of(op)} {reply}\n" for op, reply in one.done)
        told.append((one.end, number, f"{ops}{one.ending} {number} at {one.end}\n" if one.ending else ops))
    return "".join(line for _, _, line in sorted(told))


@test(seconds=5)
def clean_histories(mltx: Program) -> None:
    """Of serial histories whose transactions overlap in real time an order is found that keeps it, with the base of the model; of
    the same with a changed value none is."""
    for number in range(12 * harness.CASES):
        source, is_strict, base = random.Random(f"{number} of histories"), number % 2 == 0, model.Base()
        made = made_up(source, 60, 3, 0, ["commit"] * 7 + ["abort"])
        outcome = find(text.read(written(made)), is_strict, SECONDS)
        holds(outcome.is_found, f"history {number}: {outcome.told}")
        accepted(Path(mltx.path), outcome.order, is_strict)
        for op in (op for one in made if one.ending == "commit" for op, _ in one.done):
            base.ask(op)
        told = mltx.accepted(text.trace(outcome.order))
        found = "".join(line for line in told.splitlines(True) if not line.startswith("serial"))
        same(found, base.text(), f"the base of history {number}")
        committed = [(one, at) for one in made if one.ending == "commit" for at in range(len(one.done))]
        one, at = source.choice([(one, at) for one, at in committed if one.done[at][1].startswith("is ")])
        one.done[at] = (one.done[at][0], one.done[at][1] + "999")
        same(find(text.read(written(made)), is_strict, SECONDS).is_found, False, f"history {number} with {one.done[at]}")


@test(seconds=3)
def small_histories(_mltx: Program) -> None:
    """Of histories in which transactions miss what others did, an order is found just where one of all orders explains them,
    with or without transactions of which the end is not known."""
    counts = Counter[bool]()
    for number in range(400 * harness.CASES):
        source, is_strict = random.Random(f"{number} of small histories"), number % 2 == 0
        made = made_up(source, source.randrange(3, 6), 1, 0.3, ["commit"] * 6 + ["abort", ""])
        known, unsure = ([one for one in made if one.ending == ending] for ending in ("commit", ""))
        chosen = (it for count in range(len(unsure) + 1) for it in combinations(unsure, count))
        wanted = any(is_explained(order, is_strict) for some in chosen for order in permutations([*known, *some]))
        for tries in (0, 10):
            same(find(text.read(written(made)), is_strict, SECONDS, tries).is_found, wanted, written(made))
        counts[wanted] += 1
    holds(min(counts.values()) > 20, f"both happen: {counts}")


def of_package() -> dict[str, Callable[[], object]]:
    """The tests of the package, which pytest runs too: by their names the functions of its files."""
    modules = [importlib.import_module(file.stem) for file in sorted((ROOT / "histories/tests").glob("test_*.py"))]
    return {name[5:].replace("_", "-"): call for it in modules for name, call in vars(it).items() if name.startswith("test_")}


@each(of_package(), seconds=3)
def package(_mltx: Program, call: Callable[[], object]) -> None:
    """A test without arguments, with as many random cases as are asked for."""
    setattr(importlib.import_module("small"), "CASES", harness.CASES)
    call()
