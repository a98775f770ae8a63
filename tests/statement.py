"""The main theorem, tried: `steps` beside part one of HEADLINE read as a program (part_one.py).

What the program answers to random schedules, cut off anywhere, is allowed, and so is the base that it prints then. Of outputs
made wrong at one place, by classes, at most one in a hundred is allowed. OPEN are the classes that the theorem does not speak
of: THEOREM names them, and what of them is allowed is not counted. A wrong program is refused by the first test that sees it:
its message names the line of part one."""
import re
from collections import Counter
from collections.abc import Callable, Iterator
from random import Random

import harness
import model
import part_one
from harness import Failed, Program, each, expect, holds, same, test
from model import Event
from random_work import CROWD, FEW, ONE, SETS, WIDE, dice_of, random_schedule, show, told_in

# A wrong output that is made of the events, the lines that are right, and the place of one of them; None where there is none.
Wrong = Callable[[Random, list[Event], list[str], int], list[str] | None]

REFUSED = [f"refused {number} {name}" for number, name in enumerate(part_one.REASONS, 1)]
# What stands for the answers to an event that is not refused, without `done`.
PLAIN = {
    "begin": ["begun 1", "begun 2", "begun 3"], "call": ["called"], "cancel": ["cancelled"], "abort": ["aborting", "aborted"],
    "commit": ["committed 1", "committed 2", "committed 3"], "undo": ["aborted"], "step": ["going", "undone", "aborted"],
}


def singles(events: list[Event]) -> list[Event]:
    """The events, each step one of its own, without how many it was one of."""
    return [single for event in events for single in ([event[:2]] * event[2] if event[0] == "step" else [event])]


def text_of(events: list[Event]) -> str:
    """The text of single events."""
    return "".join(show((*event, 1) if event[0] == "step" else event) + "\n" for event in events)


def contended(dice: Random) -> list[Event]:
    """Up to four transactions that fight for an account, a set of two elements and a counter, with small amounts. Two of three
    operations are whole ones, and the others may be dropped."""
    events: list[Event] = [("begin",), ("whole", 1, ("open", 1)), ("whole", 1, ("deposit", 1, 2)), ("commit", 1)]
    open_ones, begun = list[int](), 1
    for _ in range(dice.randint(5, 40)):
        if len(open_ones) < 2 or len(open_ones) < 4 and dice.random() < 0.1:
            begun += 1
            events.append(("begin",))
            open_ones.append(begun)
            continue
        t, roll = dice.choice(open_ones), dice.random()
        if roll < 0.15:
            events += [("commit", t)] if roll < 0.07 else [("abort", t), ("step", t, dice.randint(1, 6)), ("undo", t)]
            open_ones.remove(t)
        elif roll < 0.7:
            events.append(("whole", t, small_op(dice)))
        else:
            events += [("call", t, small_op(dice)), ("step", t, dice.randint(1, 4))]
            other = dice.choice(open_ones)
            events += [("whole", other, small_op(dice))] if other != t else []
            events += [dice.choice((("cancel", t), ("step", t, 4)))]
    return events


def small_op(dice: Random) -> model.Op:
    word = dice.choice("deposit deposit withdraw withdraw balance close open add remove has size up down read".split())
    number = {"account": (1,), "element": (4, dice.choice((9, 10))), "size": (4,), "counter": (7,)}[model.kind_of(word)]
    return (word, *number, *[dice.randint(0, 3)] * (word in model.WITH_AMOUNT))


# The schedules by name: the hash function, and what makes one.
SCHEDULES: dict[str, tuple[str, Callable[[Random], list[Event]]]] = {
    "part-one-allows-contended-cells": ("mult", contended),
    "part-one-allows-one-of-each-cell": ("mult", lambda dice: random_schedule(dice, ONE, 20, dice.randint(1, 60))),
    "part-one-allows-few-cells": ("mult", lambda dice: random_schedule(dice, FEW, 40, dice.randint(1, 60))),
    "part-one-allows-three-sets": ("mult", lambda dice: random_schedule(dice, SETS, 40, dice.randint(1, 60))),
    "part-one-allows-splits": ("low", lambda dice: random_schedule(dice, WIDE, 40, dice.randint(1, 60))),
    "part-one-allows-full-buckets": ("low", lambda dice: random_schedule(dice, CROWD, 40, dice.randint(1, 60))),
}


def outputs(mltx: Program, name: str, many: int) -> Iterator[tuple[int, list[Event], list[str]]]:
    """Random schedules, each cut off anywhere, and what `steps` prints."""
    hash_name, schedule = SCHEDULES[name]
    for case in range(many * harness.CASES):
        dice = dice_of(name, case)
        events = singles(schedule(dice))
        events = events[: dice.randint(1, len(events))]
        text = text_of(events)
        with told_in(name, case, text):
            ran = mltx.run("steps", "--hash", hash_name, "-", given=text)
            expect(ran, out=ran.out)
            lines = ran.out.decode().splitlines()
            if line := part_one.refused_by(events, lines):
                raise Failed(f"{line} of part one refuses what steps prints:\n" + "\n".join(lines))
            yield case, events, lines


@each({name: name for name in SCHEDULES}, seconds=4)
def part_one_allows(mltx: Program, name: str) -> None:
    """Part one allows what `steps` prints. All kinds of answers come."""
    seen = {line.split()[0] for _, _, lines in outputs(mltx, name, 400) for line in lines}
    wanted = "begun called going waiting blocked done undone aborted cancelled committed aborting refused depth".split()
    same([word for word in wanted if word not in seen], [], "the answers that never came")


@test
def part_one_allows_limits(mltx: Program) -> None:
    """A begin is refused beside 64 open transactions, and an operation beside 1,024."""
    most: list[Event] = [("begin",), *[("whole", 1, ("up", 7, 1))] * 1_024, ("whole", 1, ("read", 7)), ("call", 1, ("read", 7))]
    begins: list[Event] = [("begin",)] * 65
    for events, refusal in ((begins, "7 TooManyOpen"), (most, "8 LogFull")):
        out = mltx.run("steps", "-", given=text_of(events)).out.decode().splitlines()
        same(out[len(events) - 1], f"refused {refusal}", "the last answer")
        same(part_one.refused_by(events, out), None, "what refuses it")


def other(dice: Random, line: str, those: list[str]) -> str | None:
    left = [it for it in those if it != line]
    return dice.choice(left) if left else None


def replies_near(line: str) -> list[str]:
    """Replies, and numbers near that of a line."""
    value = int(line.split()[-1]) if line.startswith("done is ") else 0
    return [f"done {reply}" for reply in model.REPLIES] + [f"done is {value + d}" for d in (-1, 1, 2) if value + d >= 0]


def numbers_near(line: str) -> list[str]:
    word, _, number = line.rpartition(" ")
    return [f"{word} {n}" for n in range(max(0, int(number) - 3), int(number) + 3)]


def changed(before: str, those: Callable[[Event, str], list[str]]) -> Wrong:
    """Another answer in the place of one that the pattern finds, drawn from those."""

    def make(dice: Random, events: list[Event], lines: list[str], at: int) -> list[str] | None:
        if at >= len(events) or not re.match(before, lines[at]):
            return None
        line = other(dice, lines[at], those(events[at], lines[at]))
        return [*lines[:at], line, *lines[at + 1 :]] if line else None

    return make


def exchanged(_dice: Random, events: list[Event], lines: list[str], at: int) -> list[str] | None:
    """The answers of two events one after another, of two transactions."""
    if at + 1 >= len(events) or lines[at] == lines[at + 1] or events[at][1:2] == events[at + 1][1:2]:
        return None
    return [*lines[:at], lines[at + 1], lines[at], *lines[at + 2 :]]


def left_out(_dice: Random, events: list[Event], lines: list[str], at: int) -> list[str] | None:
    return lines[:at] + lines[at + 1 :] if at < len(events) else None


def doubled(_dice: Random, events: list[Event], lines: list[str], at: int) -> list[str] | None:
    return lines[: at + 1] + lines[at:] if at < len(events) else None


def another_base(dice: Random, events: list[Event], lines: list[str], at: int) -> list[str] | None:
    """A line of the base with another number, left out, or one more."""
    if at < len(events):
        return None
    if at == len(lines) - 1:
        return [*lines[:at], "account 99 0", *lines[at:]]
    line = other(dice, lines[at], ["", *numbers_near(lines[at])])
    return [*lines[:at], *([line] if line else []), *lines[at + 1 :]]


def another_depth(_dice: Random, events: list[Event], lines: list[str], at: int) -> list[str] | None:
    return [*lines[:-1], f"depth {int(lines[-1].split()[1]) + 1}"] if at == len(lines) - 1 else None


def waits_of(event: Event, _line: str) -> list[str]:
    going = ["going"] if event[0] == "step" else []
    return going + [f"{word} by {by}" for word in ("waiting", "blocked") for by in (1, 2, 3)]


def done_of(event: Event, _line: str) -> list[str]:
    return replies_near("") if event[0] in ("step", "whole") else []


def not_refused(event: Event, line: str) -> list[str]:
    return PLAIN.get(event[0], []) + done_of(event, line)


def undone_of(_event: Event, line: str) -> list[str]:
    return {"undone": ["going", "aborted"], "aborted": ["undone", "aborting", "going"], "aborting": ["aborted"]}[line]


# By its class what makes a wrong answer.
CLASSES: dict[str, Wrong] = {
    "another reply": changed("done", lambda _, line: replies_near(line)),
    "another number of a begin or commit": changed("begun|committed", lambda _, line: numbers_near(line)),
    "another reason": changed("refused", lambda *_: REFUSED),
    "refused in place of another answer": changed("(?!refused|done)", lambda *_: REFUSED),
    "another answer in place of a refusal": changed("refused", not_refused),
    "done in place of going, waiting or blocked": changed("going|waiting|blocked", done_of),
    "an undoing more, or less": changed("undone|aborted|aborting", undone_of),
    "the answers of two transactions exchanged": exchanged,
    "an answer left out": left_out,
    "an answer twice": doubled,
    "another base": another_base,
    "not done in place of done": changed("done", lambda *it: [*waits_of(*it), "refused 1 OutOfMemory", "refused 2 NoRoom"]),
    "going, waiting and blocked exchanged": changed("going|waiting|blocked", waits_of),
    "another depth": another_depth,
}
# Those of which the theorem does not speak, or not of all.
OPEN = ("not done in place of done", "going, waiting and blocked exchanged", "another depth")


def tried(mltx: Program, many: int) -> dict[str, Counter[str | None]]:
    """By class what refuses wrong answers, and how often; None is for those that are allowed."""
    counts = {name: Counter[str | None]() for name in CLASSES}
    for schedules in SCHEDULES:
        for case, events, lines in outputs(mltx, schedules, many):
            dice = dice_of(f"wrong {schedules}", case)
            for name, make in CLASSES.items():
                for at in dice.sample(range(len(lines)), min(4, len(lines))) + [len(lines) - 1] * (name == "another depth"):
                    wrong = make(dice, events, lines, at)
                    if wrong is not None and wrong != lines:
                        counts[name][part_one.refused_by(events, wrong)] += 1
    return counts


def table(counts: dict[str, Counter[str | None]]) -> Iterator[str]:
    for name, count in counts.items():
        lines = ", ".join(f"{line} {many}" for line, many in count.most_common() if line)
        yield f"| {name} | {count.total():,} | {lines} | {count[None]:,} |"


# Account 1 has five coins, and transactions 2 and 3 are open.
TWO = """begin > begun 1
whole 1 open 1 > done opened
whole 1 deposit 1 5 > done done
commit 1 > committed 1
begin > begun 2
begin > begun 3"""

# What wrong bodies print, by their names: events with their answers, the base that is printed then, and what refuses it. Those
# with None break nothing of which the theorem speaks.
BODIES: dict[str, tuple[str, list[str], str | None]] = {
    "passes-withdraw-short": (f"""{TWO}
whole 2 withdraw 1 9 > done short
whole 3 deposit 1 5 > done done""", ["account 1 5"], "taken_back"),
    "balance-without-lock": (f"""{TWO}
whole 2 deposit 1 2 > done done
whole 3 balance 1 > done is 7""", ["account 1 5"], "taken_back"),
    "size-without-lock": (f"""{TWO}
whole 2 add 4 9 > done added
whole 3 size 4 > done is 1""", ["account 1 5"], "taken_back"),
    "locks-before-reply": (f"""{TWO}
whole 2 withdraw 1 3 > done done
whole 3 withdraw 1 4 > done short""", ["account 1 5"], "taken_back"),
    "locks-end-as-an-abort-begins": (f"""{TWO}
whole 2 withdraw 1 5 > done done
abort 2 > aborting
whole 3 balance 1 > done is 0""", ["account 1 5"], "taken_back"),
    "exclusive-goes-with-shared": (f"""{TWO}
call 2 deposit 1 2 > called
step 2 3 > going, going, going
whole 3 balance 1 > done is 7""", ["account 1 5"], "taken_back"),
    "inverse-leaves-size": (f"""{TWO}
whole 2 add 4 9 > done added
abort 2 > aborting
undo 2 > aborted
whole 3 size 4 > done is 1""", ["account 1 5"], "taken_back"),
    "cancel-leaves-write": (f"""{TWO}
call 2 deposit 1 2 > called
step 2 3 > going, going, going
cancel 2 > cancelled""", ["account 1 7"], "means"),
    "inverses-forward": (f"""{TWO}
whole 2 balance 1 > done is 5
whole 2 deposit 1 2 > done done
abort 2 > aborting
undo 2 > aborted""", ["account 1 7"], "means"),
    "undo-removes-counter": (f"""{TWO}
whole 2 up 7 3 > done done
whole 3 up 7 4 > done done
commit 2 > committed 2
abort 3 > aborting
undo 3 > aborted""", ["account 1 5"], "means"),
    "commit-drops-transcript": (f"""{TWO}
whole 2 deposit 1 2 > done done
commit 2 > committed 2""", ["account 1 5"], "means"),
    "sets-share-keys": (f"""{TWO}
whole 2 add 4 9 > done added
commit 2 > committed 2""", ["account 1 5", "element 2 9"], "means"),
    "number-used-again": (f"""{TWO}
commit 3 > committed 2
begin > begun 3""", ["account 1 5"], "Tells"),
    "commits-while-undoing": (f"""{TWO}
whole 2 up 7 1 > done done
abort 2 > aborting
commit 2 > committed 2""", ["account 1 5", "counter 7 1"], "Tells"),
    "abort-ends-at-the-first-inverse": (f"""{TWO}
whole 2 balance 1 > done is 5
whole 2 balance 1 > done is 5
abort 2 > aborting
step 2 > aborted""", ["account 1 5"], "Tells"),
    "last-inverse-leaves-it-open": (f"""{TWO}
whole 2 balance 1 > done is 5
abort 2 > aborting
step 2 > undone""", ["account 1 5"], "Tells"),
    "last-event-is-not-played": (f"{TWO}\ncommit 2 > ", ["account 1 5"], "Tells"),
    "commit-always-refused": (f"{TWO}\ncommit 2 > refused 1 OutOfMemory", ["account 1 5"], "MayRefuse"),
    "pending-is-told-as-undoing": (f"""{TWO}
call 2 balance 1 > called
commit 2 > refused 4 Undoing""", ["account 1 5"], "reason_at"),
    "step-runs-all": (f"{TWO}\ncall 2 balance 1 > called\nstep 2 > done is 5", ["account 1 5"], None),
    "marks-every-write": (f"""{TWO}
whole 2 deposit 1 2 > done done
whole 3 deposit 1 2 > blocked by 2""", ["account 1 5"], None),
    "tells-the-highest-holder": (f"""{TWO}
begin > begun 4
whole 2 balance 1 > done is 5
whole 3 balance 1 > done is 5
whole 4 deposit 1 2 > blocked by 3""", ["account 1 5"], None),
}


# Wrong answers behind these events, by what refuses them: to an idle transaction, to one that is called, and to one that aborts.
ANSWERS: dict[str, dict[str, list[str]]] = {
    TWO: {
        "Tells": ["call 2 balance 1 > done is 5", "whole 2 balance 1 > going", "step 2 > going", "step 2 > waiting by 3",
                  "step 2 > blocked by 3", "step 2 > done is 5", "step 2 > undone", "step 2 > aborted", "cancel 2 > cancelled",
                  "abort 2 > aborting", "undo 2 > aborted", "undo 2 > waiting by 3", "commit 2 > aborted", "begin > begun 3",
                  "begin > called", "commit 4 > committed 2", "begin > begun 04"],
        "MayRefuse": ["begin > refused 14 GaveUp", "begin > refused 8 LogFull", "call 2 balance 1 > refused 14 GaveUp",
                      "whole 2 balance 1 > refused 6 NotRunning", "call 2 balance 1 > refused 2 NoRoom",
                      "abort 2 > refused 1 OutOfMemory"],
        "reason_at": ["step 2 > refused 3 NoSuchTx", "cancel 2 > refused 1 OutOfMemory", "undo 2 > refused 4 Undoing",
                      "commit 4 > refused 6 NotRunning"],
        "taken_back": ["whole 2 balance 1 > done is 6", "whole 2 withdraw 1 6 > done done", "whole 2 has 4 9 > done yes",
                       "whole 2 balance 1 > done is 5 6"],
        "means": ["commit 2 > committed 2\naccount 1 6"],
    },
    f"{TWO}\ncall 2 deposit 1 2 > called": {
        "Tells": ["step 2 > undone", "step 2 > aborted", "abort 2 > aborted", "commit 2 > committed 2",
                  "call 2 balance 1 > called", "whole 2 balance 1 > done is 5", "undo 2 > aborted"],
        "MayRefuse": ["step 2 > refused 14 GaveUp", "step 2 > refused 9 IdsSpent", "cancel 2 > refused 1 OutOfMemory"],
        "reason_at": ["undo 2 > refused 5 Running", "commit 2 > refused 6 NotRunning",
                      "call 2 balance 1 > refused 8 LogFull"],
    },
    f"{TWO}\nwhole 2 deposit 1 2 > done done\nwhole 2 deposit 1 2 > done done\nabort 2 > aborting": {
        "Tells": ["step 2 > aborted", "step 2 > done done", "step 2 > blocked by 3", "abort 2 > aborting",
                  "commit 2 > committed 2", "cancel 2 > cancelled", "undo 2 > undone", "undo 2 > going"],
        "MayRefuse": ["step 2 > refused 2 NoRoom", "undo 2 > refused 1 OutOfMemory"],
        "reason_at": ["commit 2 > refused 5 Running", "call 2 balance 1 > refused 6 NotRunning"],
        "taken_back": ["whole 3 balance 1 > done is 9"],
    },
}


def refusing(rows: str, base: list[str]) -> tuple[list[Event], list[str], str | None]:
    """The events of these rows, the whole output with this base, and what refuses it."""
    told = [row.split(" > ") for row in rows.splitlines()]
    events = singles(model.read_events("".join(f"{event}\n" for event, _ in told).encode()))
    lines = [answer for _, answers in told for answer in answers.split(", ") if answer] + [*base, "depth 0"]
    return events, lines, part_one.refused_by(events, lines)


@test
def wrong_answers_are_refused(_mltx: Program) -> None:
    for before, by_line in ANSWERS.items():
        for line, rows in by_line.items():
            for row in rows:
                row, _, base = row.partition("\n")
                same(refusing(f"{before}\n{row}", [base or "account 1 5"])[2], line, f"what refuses {row} behind\n{before}")


@each(BODIES)
def wrong_body_is_refused(mltx: Program, body: tuple[str, list[str], str | None]) -> None:
    """By the line of part one that is named, and the program answers otherwise, which is allowed."""
    rows, base, line = body
    events, wrong, found = refusing(rows, base)
    same(found, line, "what refuses it")
    right = mltx.run("steps", "-", given=text_of(events)).out.decode().splitlines()
    same((right != wrong, part_one.refused_by(events, right)), (True, None), f"the program, which prints {right}")


@test
def theorem_has_these_bodies(_mltx: Program) -> None:
    """The table in THEOREM names each body beside what refuses it."""
    rows = re.findall(r"(?m)^\| (`\w+`|nothing) \| (`[a-z-]+`.*) \|$", (harness.ROOT / "docs/THEOREM.md").read_text())
    told = {body: line.strip("`") for line, bodies in rows for body in re.findall(r"`([a-z-]+)`", bodies)}
    same(told, {name: line or "nothing" for name, (_, _, line) in BODIES.items()}, "the bodies")


@test(seconds=6)
def part_one_refuses_wrong_answers(mltx: Program) -> None:
    """But for the open classes at most one in a hundred is allowed, and of each class three and one in twenty."""
    counts = tried(mltx, 50)
    closed = [count for name, count in counts.items() if name not in OPEN]
    total, allowed = sum(count.total() for count in closed), sum(count[None] for count in closed)
    shown = "\n".join(table(counts))
    holds(allowed * 100 <= total, f"{allowed} of {total} wrong answers are allowed:\n{shown}")
    holds(all(count[None] <= 3 + count.total() // 20 for count in closed), f"too many of one class are allowed:\n{shown}")
    # `alone` refuses nothing: what is committed was open before, and `taken_back` has looked at the order in which it is first.
    lines = {line for count in closed for line in count if line}
    same(sorted(lines), sorted("Tells TellsAll MayRefuse reason_at taken_back means".split()), "the lines that refuse")
    same([name for name, count in counts.items() if not count], [], "the classes that were never tried")
