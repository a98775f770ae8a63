"""Seeded random work: scripts one after another, schedules of single steps, scripts side by side, and sessions at once.

What the program says is compared with a small model of the tables. The main test is the promise of the program, seen
from outside: the committed transactions, run alone in the order of their commits, give exactly the replies that they
were told, and lead to the base that is printed. `tests/run --seed N NAME` repeats a test that failed; its message shows
the text. Where hypothesis is installed, that is the smallest script or schedule which it found to fail."""
import importlib
import random
import re
from collections.abc import Callable, Iterable, Iterator
from concurrent.futures import ThreadPoolExecutor
from contextlib import contextmanager
from dataclasses import dataclass, field
from random import Random
from typing import Any

import harness
import model
from harness import Failed, Peer, Program, Server, Text, each, expect, holds, same
from model import Base, Cell, Done, Event, Op

# Cells: accounts, elements, whose sets are asked for their sizes, and counters. ONE of each, and FEW, are fought for.
# Of WIDE buckets split, now and then thirteen times, but no pseudokey of `low` has nine. CROWD are eleven accounts, two
# elements and the size of their set, all of one pseudokey, for which a bucket has eight slots.
Cells = tuple[tuple[int, ...], tuple[tuple[int, int], ...], tuple[int, ...]]
ONE: Cells = ((1,), ((4, 9),), (7,))
FEW: Cells = ((1, 2, 3), ((4, 9), (4, 10)), (7, 8))
WIDE: Cells = ((*range(0, 65_536, 4_096), *range(9), 65_536), ((1, 0), (2, 0), (2, 20_000)), (0, 1, 50_000))
CROWD: Cells = (tuple(65_536 * place for place in range(11)), ((0, 0), (0, 65_536), (4, 1)), (2,))
# SETS are three sets, of which each has elements with the low pseudokeys of its size or of another's.
SETS: Cells = ((1, 2), tuple((s, e) for s in (0, 4, 32_768) for e in (0, 1, 4, 20_000, 32_768, 40_000, 65_536)), (7,))
AMOUNTS = (0, 0, 1, 1, 2, 3, 5, 10**18 - 3, 10**18, 2**64 - 1)


def dice_of(name: str, case: int) -> Random:
    """The dice of a case. They fall alike for the same seed."""
    return random.Random(f"{harness.SEED} {name} {case}")


def each_case(name: str, count: int, check: Callable[[Random, object], None]) -> None:
    """Checks so many cases of this name. In place of one that fails a smaller one is told, if hypothesis finds one."""
    for case in range(count):
        try:
            check(dice_of(name, case), case)
        except Failed as failure:
            raise smallest(check) or failure from None


def smallest(check: Callable[[Random, object], None]) -> Failed | None:
    """How the smallest case fails of those that hypothesis draws, if it is installed and one fails."""
    try:
        hypothesis: Any = importlib.import_module("hypothesis")
    except ImportError:
        return None

    def checked(dice: Random) -> None:
        check(dice, "hypothesis")

    checks = [*hypothesis.HealthCheck]
    settings = hypothesis.settings(max_examples=500, deadline=None, database=None, suppress_health_check=checks)
    try:
        settings(hypothesis.given(hypothesis.strategies.randoms(use_true_random=False))(checked))()
    except Failed as failure:
        return failure
    return None


@contextmanager
def told_in(name: str, case: object, text: Text) -> Iterator[None]:
    """Adds to what failed how it is repeated: the seed, the case and its text."""
    try:
        yield
    except Failed as failure:
        shown = text if isinstance(text, str) else repr(text)
        shown = shown if len(shown) < 6_000 else shown[:6_000] + ".."
        raise Failed(f"seed {harness.SEED}, case {case} of {name}: {failure}\nthe text was\n{shown}") from None


def random_op(dice: Random, cells: Cells, amount: int | str | None = None) -> Op:
    """An operation on one of the cells. An account is often opened first."""
    accounts, elements, counters = cells
    kind = dice.choice(("account", "account", "account", "element", "element", "counter"))
    if kind == "account":
        names = "open open close close close deposit deposit deposit withdraw withdraw withdraw balance"
        op: Op = (dice.choice(names.split()), dice.choice(accounts))
    elif kind == "element":
        op = (dice.choice(("add", "add", "remove", "has", "size")), *dice.choice(elements))
        op = op[:2] if op[0] == "size" else op
    else:
        op = (dice.choice(("up", "up", "down", "read")), dice.choice(counters))
    if op[0] in model.WITH_AMOUNT:
        op = (*op, dice.choice(AMOUNTS) if amount is None else amount)
    return op


def likely_reply(dice: Random, op: Op) -> str:
    """A reply that the operation may have, the more usual ones more often, and rarely one that it can't have."""
    usual = {"open": "opened exists", "close": "closed notempty missing", "deposit": "done done over missing"}
    usual |= {"withdraw": "done done short missing", "add": "added present", "remove": "removed absent"}
    usual |= {"has": "yes no", "up": "done", "down": "done", "balance": "0 1 5 a b missing", "read": "0 1 5 a b"}
    usual |= {"size": "0 1 1 2 a b"}
    if dice.random() < 0.04:
        return dice.choice(model.REPLIES)
    return dice.choice(usual[op[0]].split())


def random_statements(dice: Random, cells: Cells, most: int, nesting: int = 0) -> list[str]:
    """The lines of some statements."""
    lines = []
    for _ in range(dice.randint(0 if nesting else 1, most)):
        op = random_op(dice, cells, dice.choice("abc") if dice.random() < 0.2 else None)
        form = dice.choices(("op", "need", "let", "if"), (60, 12, 15, 13 if nesting < 3 else 0))[0]
        if form == "op":
            lines.append(model.text_of(op))
        elif form == "let":
            account, (set_number, _), counter = dice.choice(cells[0]), dice.choice(cells[1]), dice.choice(cells[2])
            asked: Op = dice.choice((("balance", account), ("size", set_number), ("read", counter)))
            lines.append(f"let {dice.choice('abc')} = {model.text_of(asked)}")
        else:
            lines.append(f"{form} {model.text_of(op)} is {likely_reply(dice, op)}")
        if form == "if":
            lines += random_statements(dice, cells, 3, nesting + 1)
            if dice.random() < 0.6:
                lines += ["else", *random_statements(dice, cells, 3, nesting + 1)]
            lines.append("end")
    return lines


def dressed(dice: Random, line: str) -> str:
    """A line in another lawful dress: more blanks, zeros that lead, a CR, a comment or a blank line before it."""
    roll = dice.random()
    if roll < 0.03:
        line = "\t" + line.replace(" ", dice.choice(("  ", "\t", " \t "))) + " "
    elif roll < 0.05:
        line = re.sub(r"\b(\d{1,6})\b", r"00\1", line)
    elif roll < 0.07:
        line += "\r"
    elif roll < 0.09:
        line = dice.choice(("# open 1\n", "\n", "  #\n", " \t\n")) + line
    return line + "\n"


def random_script(dice: Random, cells: Cells, clients: int) -> str:
    """The text of a script of one of so many clients."""
    client = dice.randrange(clients)
    begin = f"begin {client}" if client or dice.random() < 0.1 else "begin"
    ending = "commit" if dice.random() < 0.9 else "abort"
    return "".join(dressed(dice, line) for line in (begin, *random_statements(dice, cells, 6), ending))


def random_scripts(dice: Random, cells: Cells, clients: int) -> list[str]:
    """The texts of up to sixty scripts."""
    return [random_script(dice, cells, clients) for _ in range(dice.randint(1, 60))]


SCRIPTS = {
    "random-scripts-over-few-cells": ("mult", FEW),
    "random-scripts-over-many-cells": ("mult", WIDE),
    "random-scripts-that-split-buckets": ("low", WIDE),
}


@each(SCRIPTS, seconds=4)
def random_scripts_one_after_another(mltx: Program, case: tuple[str, Cells]) -> None:
    """All replies, commit numbers and aborts of `solo` are those of the model."""
    hash_name, cells = case

    def check(dice: Random, number: object) -> None:
        text = "".join(random_scripts(dice, cells, 3))
        with told_in("scripts", number, text):
            base, scripts = model.Base(), model.parse(text.encode())
            written = model.solo(scripts, base)
            expect(mltx.run("solo", "--hash", hash_name, "--trace", "trace", "-", given=text), out=written)
            checked_trace(mltx, base, written.count("committed "))

    each_case(f"scripts {case}", 20 * harness.CASES, check)


def checked_trace(mltx: Program, base: Base, commits: int) -> list[int]:
    """Fails where the file `trace` isn't accepted with so many commits and this base. Returns the order it has."""
    ran = mltx.run("check", "trace")
    printed = ran.out.decode().splitlines(keepends=True)
    order = [line for line in printed if line.startswith("serial ")]
    expect(ran, out="".join(order) + base.text(), what="the check of the trace")
    same(len(order), commits, "serial lines in the check of the trace")
    return [int(line.split()[1]) for line in order]


@dataclass
class Transaction:
    """What is known of an open transaction: its pending operation, whether it may hold page locks, whether it is being
    undone, whether it may have taken back more than is known, what it did and did not take back, and all that it did,
    for which it holds locks."""

    pending: Op | None = None
    inside: bool = False
    undoing: bool = False
    vague: bool = False
    done: list[Done] = field(default_factory=list)
    held: list[Done] = field(default_factory=list)


class Watch:
    """Follows a schedule event by event, and fails where one is told what the texts don't allow.

    `base` is what the pages mean: the operations of open transactions are in it. Replies are predicted as long as it is
    sure: an `undo` that waits doesn't say how much it took back."""

    def __init__(self, low: bool) -> None:
        self.base, self.begun, self.committed = model.Base(), 0, list[tuple[int, list[Done]]]()
        self.open: dict[int, Transaction] = {}
        self.low, self.ghosts, self.records = low, set[tuple[Cell, int]](), set[Cell]()
        self.sure, self.trace = True, list[str]()

    def tell(self, event: Event, told: str) -> None:
        """Takes one event and the line that it was told."""
        name, t = event[0], event[1] if len(event) > 1 else None
        refusal = self.refusal(name, t)
        if refusal:
            same(told, f"refused {refusal}", f"told to {show(event)}")
        else:
            getattr(self, "_" + name)(told, *event[1:])

    def refusal(self, name: str, t: int) -> str | None:
        """The refusal that this event meets before anything else, or None."""
        if name == "begin":
            return "7 TooManyOpen" if len(self.open) == 64 else None
        if t not in self.open:
            return "3 NoSuchTx"
        it = self.open[t]
        if it.undoing and name not in ("step", "undo"):
            return "4 Undoing"
        if it.pending and name in ("call", "whole", "commit", "abort"):
            return "5 Running"
        idle = {"step": not it.pending and not it.undoing, "cancel": not it.pending, "undo": not it.undoing}
        return "6 NotRunning" if idle.get(name) else None

    def _begin(self, told: str) -> None:
        self.begun += 1
        same(told, f"begun {self.begun}", "told to begin")
        self.open[self.begun] = Transaction()
        self.trace.append(f"begin {self.begun}")

    def _call(self, told: str, t: int, op: Op) -> None:
        same(told, "called", f"told to call {t} {op}")
        self.open[t].pending = op

    def _cancel(self, told: str, t: int) -> None:
        same(told, "cancelled", f"told to cancel {t}")
        self._idle(t)

    def _commit(self, told: str, t: int) -> None:
        same(told, f"committed {len(self.committed) + 1}", f"told to commit {t}")
        self.committed.append((t, self.open[t].done))
        self.trace.append(f"commit {t} {len(self.committed)}")
        self._close(t)

    def _abort(self, told: str, t: int) -> None:
        if self.open[t].done:
            same(told, "aborting", f"told to abort {t}, which did something")
            self.open[t].undoing = True
        else:
            same(told, "aborted", f"told to abort {t}, which did nothing")
            self._closed_by_abort(t)

    def _step(self, told: str, t: int, _: int) -> None:
        it = self.open[t]
        if told == "going":
            it.inside = True
        elif told.startswith("waiting by "):
            self._waits(told, t)
        elif it.pending:
            self._ended(told, t, it.pending)
        else:
            self._step_back(told, t)

    def _whole(self, told: str, t: int, op: Op) -> None:
        if told.startswith("waiting by "):
            self._waits(told, t)
        else:
            self._ended(told, t, op)

    def _undo(self, told: str, t: int) -> None:
        if told.startswith("waiting by "):
            self._waits(told, t)
            self.open[t].inside, self.open[t].vague, self.sure = True, True, False
            return
        same(told, "aborted", f"told to undo {t}")
        self._all_taken_back(t)

    def _step_back(self, told: str, t: int) -> None:
        """A pass of an inverse came to its end."""
        it = self.open[t]
        last = len(it.done) == 1
        lawful = told == ("aborted" if last else "undone") or it.vague and told == "aborted"
        holds(lawful, f"{t}, which is being undone with {len(it.done)} left, was told {told!r}")
        if told == "aborted":
            self._all_taken_back(t)
        else:
            self._taken_back(t)

    def _all_taken_back(self, t: int) -> None:
        while t in self.open:
            self._taken_back(t)

    def _waits(self, told: str, t: int) -> None:
        by = int(told.split()[2])
        inside = by in self.open and self.open[by].inside
        holds(by != t and inside, f"{t} was told {told!r}, but {by} has no page lock")

    def _ended(self, told: str, t: int, op: Op) -> None:
        """A pass of an operation came to its end, which is Done, Blocked or Refused."""
        if self.sure:
            wanted = self._end_of(t, op)
            same(told, wanted, f"the end of {op} of {t}")
        forms = "refused 2 NoRoom|blocked by [1-9][0-9]*|done (is [0-9]+|%s)" % "|".join(model.REPLIES)
        holds(re.fullmatch(forms, told), f"{op} of {t} was told {told!r}")
        if told.startswith("blocked"):
            self.open[t].inside = False
            return
        self._idle(t)
        if told.startswith("done "):
            self._done(t, op, told.removeprefix("done "))

    def _end_of(self, t: int, op: Op) -> str:
        """What the tables say is the end of a pass that ends now."""
        reply, _ = model.apply(self.base.held(op), op)
        if not self._has_room(self._wants_room(t, op, reply)):
            return "refused 2 NoRoom"
        held_by_others = ((by, held) for by, it in self.open.items() if by != t for held in it.held)
        blocks = [by for by, held in held_by_others if model.clash(held, (op, reply))]
        return f"blocked by {min(blocks)}" if blocks else f"done {reply}"

    def _wants_room(self, t: int, op: Op, reply: str) -> list[Cell]:
        """The cells whose records are added: not one that revives a ghost of its own, and of counters and of sizes
        those that have none. A set's size has its record from the first element on that was ever put into it."""
        cells = [model.cell_of(op)] if reply in ("opened", "added") or op[0] in ("up", "down") else []
        cells += [("size", op[1])] if reply == "added" else []
        return [cell for cell in cells if cell not in self.records and (cell, t) not in self.ghosts]

    def _has_room(self, cells: list[Cell]) -> bool:
        """Whether these cells can be added. At the greatest depth `low` has a bucket for each pseudokey, and it has
        eight slots: for live records, and for ghosts whose owners are open."""
        there = {*(it for it in self.base.cells if it[0] != "counter"), *self.records}
        taken = [*there, *(ghost for ghost, _ in self.ghosts), *cells]
        return not self.low or all(sum(it[-1] % 2**16 == cell[-1] % 2**16 for it in taken) <= 8 for cell in cells)

    def _done(self, t: int, op: Op, reply: str) -> None:
        it, cell = self.open[t], model.cell_of(op)
        it.done.append((op, reply))
        it.held.append((op, reply))
        self.trace.append(f"op {t} {model.text_of(op)} {reply}")
        self.base.ask(op)
        if op[0] in ("up", "down"):
            self.records.add(cell)
        if reply == "added":
            self.records.add(("size", op[1]))
        if reply in ("opened", "added"):
            self.ghosts.discard((cell, t))
        elif reply in ("closed", "removed"):
            self.ghosts.add((cell, t))

    def _taken_back(self, t: int) -> None:
        """The last operation of a transaction is taken back; after the last of all it is closed."""
        op, reply = self.open[t].done.pop()
        self.open[t].inside = False
        self.base.put(op, model.take_back(self.base.held(op), op, reply))
        self.trace.append(f"back {t}")
        if reply in ("opened", "added"):
            self.ghosts.add((model.cell_of(op), t))
        elif reply in ("closed", "removed"):
            self.ghosts.discard((model.cell_of(op), t))
        if not self.open[t].done:
            self._closed_by_abort(t)

    def _idle(self, t: int) -> None:
        self.open[t].pending, self.open[t].inside = None, False

    def _closed_by_abort(self, t: int) -> None:
        self.trace.append(f"abort {t}")
        self._close(t)

    def _close(self, t: int) -> None:
        del self.open[t]
        self.ghosts = {ghost for ghost in self.ghosts if ghost[1] != t}


def show(event: Event) -> str:
    """The line of an event."""
    name, *rest = event
    words = [model.text_of(word) if isinstance(word, tuple) else str(word) for word in rest]
    return " ".join([name, *words]) if name != "step" or rest[1] > 1 else f"step {rest[0]}"


def random_schedule(dice: Random, cells: Cells, calls: int, length: int) -> list[Event]:
    """Events over up to six open transactions; `calls` of 75 operations are by single steps. It goes by guesses of how
    far each transaction is, so that some events are wrong. The first one makes some accounts. At the end all are
    closed: what is pending is cancelled, and who is open is taken back."""
    accounts = dice.sample(cells[0], dice.randint(0, min(len(cells[0]), 12)))
    events = [("begin",), *(("whole", 1, ("open", a)) for a in accounts)]
    rich = [account for account in accounts if dice.random() < 0.5]
    events += [*(("whole", 1, ("deposit", a, dice.choice(AMOUNTS))) for a in rich), ("commit", 1)]
    guesses, begun = dict[int, str](), 1
    for _ in range(length):
        if not guesses or len(guesses) < 6 and dice.random() < 0.15:
            begun += 1
            events.append(("begin",))
            guesses[begun] = "idle"
        elif dice.random() < 0.04:
            events.append(random_event(dice, cells, dice.randint(0, begun + 1)))
        else:
            t = dice.choice(list(guesses))
            more, guesses[t] = next_events(dice, cells, calls, t, guesses[t])
            events += more
            if guesses[t] == "closed":
                del guesses[t]
    return events + [(closing, t) for closing in ("cancel", "abort", "undo", "undo") for t in range(1, begun + 1)]


def random_event(dice: Random, cells: Cells, t: int) -> Event:
    """Any event of a transaction, which may be wrong."""
    name = dice.choice("call step cancel commit abort whole undo".split())
    if name in ("call", "whole"):
        return (name, t, random_op(dice, cells))
    return (name, t, dice.randint(1, 4)) if name == "step" else (name, t)


def next_events(dice: Random, cells: Cells, calls: int, t: int, guess: str) -> tuple[list[Event], str]:
    """What a transaction does next, and how far it is then, as far as can be guessed."""
    times = dice.choice((1, 1, 2, 2, 3, 4, 4, 9))
    if guess == "pending":
        if dice.random() < 0.04:
            return [("cancel", t)], "idle"
        return [("step", t, times)], "idle" if dice.random() < 0.3 or times > 3 else "pending"
    if guess == "undoing":
        if dice.random() < 0.1:
            return [("undo", t)], "ended"
        return [("step", t, times)], "ended" if dice.random() < 0.15 else "undoing"
    if guess == "ended":
        return [("cancel", t), ("abort", t), ("step", t, 4)], "closed"
    what = dice.choices(("call", "whole", "abort", "commit"), (calls, 75 - calls, 8, 17))[0]
    if what in ("call", "whole"):
        return [(what, t, random_op(dice, cells))], "pending" if what == "call" else "idle"
    if what == "abort":
        return [("abort", t)], "undoing"
    before: list[list[Event]] = [[], [("step", t, 9)], [("cancel", t)]]
    return [*dice.choice(before), ("commit", t)], "ended"


# The hash function, the cells, how many of 75 operations are by single steps, and how many schedules.
SCHEDULES = {
    "random-schedules-of-whole-operations": ("mult", ONE, 2, 200),
    "random-schedules-over-few-cells": ("mult", FEW, 40, 200),
    "random-schedules-that-split-buckets": ("low", WIDE, 40, 200),
    "random-schedules-with-full-buckets": ("low", CROWD, 40, 200),
    "random-schedules-over-three-sets": ("mult", SETS, 40, 1_000),
    "random-schedules-over-three-sets-that-split-buckets": ("low", SETS, 40, 1_000),
}


@each(SCHEDULES, seconds=6)
def random_schedules(mltx: Program, case: tuple[str, Cells, int, int]) -> None:
    """Each event is told what the tables and the locks allow, and what committed is serial in commit order."""
    hash_name, cells, calls, many = case

    def check(dice: Random, number: object) -> None:
        events = random_schedule(dice, cells, calls, dice.randint(1, 120))
        text = "".join(show(event) + "\n" for event in events)
        with told_in("schedules", number, text):
            ran = mltx.run("steps", "--hash", hash_name, "--trace", "trace", "-", given=text)
            expect(ran, out=ran.out)
            watch = watched_schedule(mltx, events, ran.out.decode().splitlines(), hash_name == "low")
            holds(not watch.open, f"still open at the end: {list(watch.open)}")

    each_case(f"schedules {case}", many * harness.CASES, check)


def watched_schedule(mltx: Program, events: list[Event], told: list[str], low: bool) -> Watch:
    """Watches what the events of a schedule were told, and what is printed after it, and checks its trace."""
    watch = Watch(low)
    singles = [event for event in events for _ in range(event[2] if event[0] == "step" else 1)]
    holds(len(told) > len(singles), f"{len(singles)} events and steps were told {len(told)} lines")
    for event, line in zip(singles, told):
        watch.tell(event, line)
    base = serial_base([done for _, done in watch.committed])
    *ending, depth = told[len(singles) :]
    same("".join(line + "\n" for line in ending), base.text(), "the base at the end")
    holds(re.fullmatch("depth ([0-9]|1[0-6])", depth), f"the last line is {depth!r}")
    order = checked_trace(mltx, base, len(watch.committed))
    same(order, [t for t, _ in watch.committed], "the serial order")
    if watch.sure:
        same((mltx.folder / "trace").read_text().splitlines(), watch.trace, "the trace")
    return watch


def serial_base(transcripts: Iterable[list[Done]]) -> Base:
    """The base to which transcripts lead, one after another. Fails where one was told what the tables don't give."""
    base = model.Base()
    for number, done in enumerate(transcripts, 1):
        for op, told in done:
            same(told, base.ask(op), f"told to {op} of the one that committed as {number}, beside the serial run")
    return base


SIDE_BY_SIDE = ((1, "mult", FEW), (2, "low", WIDE), (4, "mult", FEW), (8, "low", FEW))


@each({f"random-scripts-of-{case[0]}-workers": case for case in SIDE_BY_SIDE}, seconds=4)
def random_scripts_side_by_side(mltx: Program, case: tuple[int, str, Cells]) -> None:
    """Scripts of several clients: what committed is what `solo` says of these scripts in the order of their commits. There are
    many of them, so that workers meet."""
    workers, hash_name, cells = case
    for number in range(10 * harness.CASES):
        dice = dice_of(f"side by side {case}", number)
        clients = dice.randint(1, 10)
        scripts = [script for _ in range(4) for script in random_scripts(dice, cells, clients)]
        text = "".join(scripts)
        options = ["--workers", workers, "--hash", hash_name, "--tries", dice.choice((3, 100, 10_000))]
        with told_in("side by side", number, text):
            ran = mltx.run("run", *options, "--trace", "trace", "-", given=text, env=mltx.shim(NO_NAPS="1"))
            expect(ran, out=ran.out)
            compared_with_solo(mltx, scripts, ran.out.decode())


@dataclass
class Outcome:
    """What became of a script: its text, its client, its number, its lines but the last, and its last one."""

    text: str
    client: int
    number: int
    replies: list[str]
    end: str

    def commit(self) -> int:
        """The number of its commit, or 0."""
        return int(self.end.split()[1]) if self.end.startswith("committed ") else 0

    def __str__(self) -> str:
        return f"client {self.client} script {self.number}"


def outcomes_of(printed: str, scripts: list[str]) -> tuple[list[Outcome], str]:
    """The outcome of each script, clients by rising number, and the text of the base that follows them."""
    lines, found = printed.splitlines(), list[Outcome]()
    by_client: dict[int, list[str]] = {}
    for text in scripts:
        by_client.setdefault(model.parse(text.encode())[0].client, []).append(text)
    for client in sorted(by_client):
        for number, text in enumerate(by_client[client], 1):
            head = f"client {client} script {number}"
            same(lines[:1], [head], f"the head after {len(found)} outcomes of {printed!r}")
            ends = [at for at, line in enumerate(lines) if re.fullmatch("committed [1-9][0-9]*|aborted", line)]
            holds(ends, f"{head} has no end in {printed!r}")
            found.append(Outcome(text, client, number, lines[1 : ends[0]], lines[ends[0]]))
            del lines[: ends[0] + 1]
    return found, "".join(line + "\n" for line in lines)


def compared_with_solo(mltx: Program, scripts: list[str], printed: str) -> None:
    """What `run` printed of scripts beside `solo` and the model, which run the committed ones by commit number."""
    outcomes, base_text = outcomes_of(printed, scripts)
    committed = sorted((it for it in outcomes if it.commit()), key=Outcome.commit)
    same([it.commit() for it in committed], list(range(1, len(committed) + 1)), "the numbers of the commits")
    told = "".join(line + "\n" for it in committed for line in (*it.replies, it.end))
    in_order, base = "".join(it.text for it in committed), model.Base()
    same(told, model.solo(model.parse(in_order.encode()), base), "the replies, beside the model in commit order")
    expect(mltx.run("solo", "-", given=in_order), out=told, what="`solo` of the committed scripts in commit order")
    same(base_text, base.text(), "the base")
    for client in {it.client for it in committed}:
        own = [it.number for it in committed if it.client == client]
        same(own, sorted(own), f"the order in which client {client} committed")
    checked_outcomes(outcomes)
    checked_trace(mltx, base, len(committed))


def checked_outcomes(outcomes: list[Outcome]) -> None:
    """A script that asks for its abort never commits, and one that was refused gave up: there is room for all."""
    for it in outcomes:
        asks_to_commit = model.parse(it.text.encode())[0].commits
        holds(asks_to_commit or not it.commit(), f"{it} ends in `abort`, and was told {it.end}")
        refused = [reply for reply in it.replies if reply.startswith("refused")]
        holds(refused in ([], ["refused 14 GaveUp"]), f"{it} was told {refused}")


SESSIONS = ((2, "low", FEW), (5, "mult", FEW), (8, "low", WIDE))


@each({f"random-sessions-{case[0]}-at-once": case for case in SESSIONS}, seconds=4)
def random_sessions_at_once(mltx: Program, case: tuple[int, str, Cells]) -> None:
    """Clients at once over sockets: what each was told of what it committed is serial in the order of the commits."""
    sessions, hash_name, cells = case
    for number in range(8 * harness.CASES):
        options = ["--sessions", sessions, "--hash", hash_name, "--trace", "trace", "--tries", 200]
        with told_in(f"sessions {case}", number, "(sessions are made by threads; they need not fall alike)"):
            with mltx.serve(*options, limit=sessions) as server, ThreadPoolExecutor(sessions) as threads:
                dice = [dice_of(f"sessions {case} client {client}", number) for client in range(sessions)]
                talks = [threads.submit(random_session, server, it, cells) for it in dice]
                committed = dict(pair for talk in talks for pair in talk.result())
                expect(server.end(), out=f"served {sessions}\n")
            same(sorted(committed), list(range(1, len(committed) + 1)), "the numbers of the commits")
            base = serial_base([done for _, done in sorted(committed.items())])
            checked_trace(mltx, base, len(committed))


def random_session(server: Server, dice: Random, cells: Cells) -> list[tuple[int, list[Done]]]:
    """Talks to the server for some transactions. For each that committed its number and what it was told."""
    committed = []
    with server.connect() as peer:
        for _ in range(dice.randint(1, 20)):
            holds(re.fullmatch("begun [1-9][0-9]*", begun := peer.ask("begin")), f"begin was told {begun!r}")
            done = random_transaction(dice, cells, peer)
            if done is None or dice.random() < 0.1:
                same(peer.ask("abort"), "aborted", "told to abort")
            else:
                told = peer.ask("commit")
                holds(re.fullmatch("committed [1-9][0-9]*", told), f"commit was told {told!r}")
                committed.append((int(told.split()[1]), done))
    return committed


def random_transaction(dice: Random, cells: Cells, peer: Peer) -> list[Done] | None:
    """Asks some operations and returns them with their replies; None once one gave up."""
    done = []
    for _ in range(dice.randint(0, 5)):
        op = random_op(dice, cells)
        told = peer.ask(model.text_of(op))
        if told == "error 14 GaveUp":
            return None
        holds(told in model.REPLIES or re.fullmatch("is (0|[1-9][0-9]*)", told), f"{op} was told {told!r}")
        done.append((op, told))
    return done
