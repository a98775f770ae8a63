"""What `steps --explain` says of each block, of each wait for a page, and of deadlocks. The rows are worked out by hand from
docs/SCHEDULES.md; of random schedules the model says which lines are wanted.

A row is written as in schedules.py. The lines that begin with `#` are the reasons of the answer before them, and
`# example Held, Asked` stands for the example of two classes, as `mltx tables` prints it (tables.py tests that)."""
import re
from random import Random

import harness
from harness import ROOT, Program, each, expect, holds, match, same, test
from model import Event, Op, apply as applied, clash, text_of
from pages import example as page_of_example
from random_work import SCHEDULES, Cells, Watch, dice_of, random_schedule, show, told_in
from rows import EXAMPLES
from schedules import EIGHT, LOW, MOST, PARTED, ROWS, Schedule, begun, called, empty, going, made, undone

Examples = dict[tuple[str, ...], list[str]]
# The forms of the reasons: the first line of a block, the line of a wait, and the line of a deadlock.
OP, REPLY = r"[a-z]+(?: [0-9]+)+", r"(?:[a-z]+|is [0-9]+)"
IN_THE_WAY = re.compile(
    rf"# T([0-9]+) wants `({OP})`; now it would get `({REPLY})`\. "
    rf"T([0-9]+) (?:holds `({OP})` \(({REPLY})\), uncommitted|has undone `({OP})` \(({REPLY})\))\."
)
OF_PAGE = re.compile(
    rf"# T([0-9]+) needs page ([0-9]+), which T([0-9]+) has locked (for `{OP}`|to undo `{OP}` \({REPLY}\))\."
)
OF_DEADLOCK = re.compile(r"# Deadlock: T([0-9]+) waits for T[0-9]+(, T[0-9]+ waits for T[0-9]+)+\.")

# Why the two operations of a block conflict: the reply of the one that is asked for is at risk, or the reply of the one that
# is held; or the held one is undone, and the locks of its transaction last to the end of the abort.
ASKED, HELD, UNDONE = "asked", "held", "undone"
# The classes of operations that change something. What others ask for after one of these can get another reply without it.
CHANGING = ("Opened", "Closed", "Deposited", "Withdrawn", "Added", "Removed", "Counted")


def at_risk(held: str, asked: str) -> str:
    """The reply that is at risk where two classes conflict. An account that can be closed had a deposit of nothing, which
    would be told `missing` after the close."""
    return ASKED if held in CHANGING and (held, asked) != ("Deposited", "Closed") else HELD


def in_the_way(t: int, asked: str, now: str, by: int, held: str, told: str, risk: str) -> list[str]:
    """The two lines of `t`, which asks for an operation and would get a reply now, and of `by`, which did another one."""
    does = f"has undone `{held}` ({told})" if risk == UNDONE else f"holds `{held}` ({told}), uncommitted"
    why = {
        ASKED: f"If T{by} aborts, `{now}` could be wrong",
        HELD: f"If T{t} commits first, T{by}'s `{told}` could be wrong",
        UNDONE: f"T{by} holds it until its abort ends",
    }
    wish = f"# T{t} wants `{asked}`; now it would get `{now}`."
    return [f"{wish} T{by} {does}.", f"# {why[risk]}, so T{t} must wait for T{by}."]


def block(t: int, asked: str, now: str, by: int, held: str, told: str, classes: str, risk: str) -> str:
    """The lines of a block, of a row."""
    return "\n".join([*in_the_way(t, asked, now, by, held, told, risk), f"# example {classes}"])


def counters(*changed: int) -> str:
    """Transactions 1, 2 and so on are open, each of which has counted on the counter of its own number."""
    return "\n".join([begun(*changed), *(f"whole {t} up {t} {t} > done done" for t in changed)])


def blocked_read(t: int, by: int) -> str:
    """Transaction `t` reads the counter of another one, up to its block, with the reason."""
    reason = block(t, f"read {by}", f"is {by}", by, f"up {by} {by}", "done", "Counted, Read", ASKED)
    return called(t, f"read {by}", 3, f"blocked by {by}") + f"\n{reason}"


EXPLAINED = {
    "deposit-in-the-way-of-balance": Schedule(f"""
{made(1, holding=10)}
begin > begun 2
whole 2 deposit 1 5 > done done
begin > begun 3
whole 3 balance 1 > blocked by 2
{block(3, "balance 1", "is 15", 2, "deposit 1 5", "done", "Deposited, Balance", ASKED)}
account 1 10"""),
    "withdrawal-in-the-way-of-one-told-short": Schedule(f"""
{made(1, holding=5)}
begin > begun 2
whole 2 withdraw 1 3 > done done
begin > begun 3
whole 3 withdraw 1 2 > done done
whole 3 withdraw 1 1 > blocked by 2
{block(3, "withdraw 1 1", "short", 2, "withdraw 1 3", "done", "Withdrawn, Short", ASKED)}
account 1 5"""),
    "over-in-the-way-of-withdrawal": Schedule(f"""
{made(1, holding=MOST - 10)}
begin > begun 2
whole 2 deposit 1 11 > done over
begin > begun 3
whole 3 withdraw 1 1 > blocked by 2
{block(3, "withdraw 1 1", "done", 2, "deposit 1 11", "over", "Over, Withdrawn", HELD)}
account 1 {MOST - 10}"""),
    "missing-in-the-way-of-open": Schedule(f"""
{begun(1, 2)}
whole 1 deposit 1 5 > done missing
whole 2 open 1 > blocked by 1
{block(2, "open 1", "opened", 1, "deposit 1 5", "missing", "Missing, Opened", HELD)}"""),
    "add-in-the-way-of-size": Schedule(f"""
{begun(1, 2)}
whole 1 has 4 8 > done no
whole 1 add 4 9 > done added
whole 2 size 4 > blocked by 1
{block(2, "size 4", "is 1", 1, "add 4 9", "added", "Added, size", ASKED)}"""),
    "remove-in-the-way-of-size": Schedule(f"""
begin > begun 1
whole 1 add 4 9 > done added
whole 1 add 4 8 > done added
commit 1 > committed 1
{begun(2, 3)}
whole 2 remove 4 9 > done removed
whole 3 size 4 > blocked by 2
{block(3, "size 4", "is 1", 2, "remove 4 9", "removed", "Removed, size", ASKED)}
element 4 8
element 4 9"""),
    "size-in-the-way-of-add": Schedule(f"""
{begun(1, 2)}
whole 1 size 4 > done is 0
whole 2 add 4 9 > blocked by 1
{block(2, "add 4 9", "added", 1, "size 4", "is 0", "size, Added", HELD)}"""),
    "size-in-the-way-of-remove": Schedule(f"""
begin > begun 1
whole 1 add 4 9 > done added
commit 1 > committed 1
{begun(2, 3)}
whole 2 size 4 > done is 1
whole 3 add 4 9 > done present
whole 3 remove 4 9 > blocked by 2
{block(3, "remove 4 9", "removed", 2, "size 4", "is 1", "size, Removed", HELD)}
element 4 9"""),
    "present-in-the-way-of-remove": Schedule(f"""
begin > begun 1
whole 1 add 4 9 > done added
commit 1 > committed 1
{begun(2, 3)}
whole 2 add 4 9 > done present
whole 3 remove 4 9 > blocked by 2
{block(3, "remove 4 9", "removed", 2, "add 4 9", "present", "Present, Removed", HELD)}
element 4 9"""),
    "first-that-conflicts-is-named": Schedule(f"""
{made(1, 2, holding=10)}
begin > begun 2
whole 2 withdraw 2 9 > done done
whole 2 deposit 1 2 > done done
whole 2 withdraw 1 1 > done done
whole 2 withdraw 1 3 > done done
begin > begun 3
whole 3 deposit 1 5 > blocked by 2
{block(3, "deposit 1 5", "done", 2, "withdraw 1 1", "done", "Withdrawn, Deposited", ASKED)}
account 1 10
account 2 10"""),
    "operation-of-the-lowest-is-named": Schedule(f"""
{made(1, holding=10)}
{begun(2, 3, 4)}
whole 4 deposit 1 4 > done done
whole 3 deposit 1 3 > done done
whole 2 balance 1 > blocked by 3
{block(2, "balance 1", "is 17", 3, "deposit 1 3", "done", "Deposited, Balance", ASKED)}
account 1 10"""),
    "one-that-was-undone-is-in-the-way": Schedule(f"""
{begun(1, 2)}
whole 1 up 8 4 > done done
whole 1 up 7 1 > done done
abort 1 > aborting
step 1 > {going(3)}, undone
whole 2 read 7 > blocked by 1
{block(2, "read 7", "is 0", 1, "up 7 1", "done", "Counted, Read", UNDONE)}
whole 2 read 8 > blocked by 1
{block(2, "read 8", "is 4", 1, "up 8 4", "done", "Counted, Read", ASKED)}
step 1 > {going(3)}, aborted
whole 2 read 7 > done is 0"""),
    "one-of-an-earlier-transaction-is-not": Schedule(f"""
begin > begun 1
whole 1 up 7 1 > done done
commit 1 > committed 1
{begun(2, 3)}
whole 2 up 7 2 > done done
whole 3 read 7 > blocked by 2
{block(3, "read 7", "is 3", 2, "up 7 2", "done", "Counted, Read", ASKED)}
counter 7 1"""),
    "undone-by-an-undo-that-waits": Schedule(f"""
{made(*PARTED)}
begin > begun 2
whole 2 deposit 0 5 > done done
whole 2 deposit 32768 7 > done done
begin > begun 3
{called(3, "open 1", 3)}
abort 2 > aborting
undo 2 > waiting by 3
# T2 needs page 0, which T3 has locked for `open 1`.
begin > begun 4
whole 4 balance 32768 > blocked by 2
{block(4, "balance 32768", "is 0", 2, "deposit 32768 7", "done", "Deposited, Balance", UNDONE)}
{empty(*PARTED)}
depth 1""", LOW),
    "reader-has-the-header-of-a-split": Schedule(f"""
{made(*EIGHT)}
begin > begun 2
{called(2, "balance 3", 1)}
begin > begun 3
{called(3, "open 32768", 3, "waiting by 2")}
# T3 needs page 2, which T2 has locked for `balance 3`.
{empty(*EIGHT)}""", LOW),
    "split-has-the-header": Schedule(f"""
{made(*EIGHT)}
begin > begun 2
{called(2, "open 32768", 6)}
begin > begun 3
{called(3, "balance 3", 0, "waiting by 2")}
# T3 needs page 2, which T2 has locked for `open 32768`.
whole 1 balance 3 > refused 3 NoSuchTx
{empty(*EIGHT)}""", LOW),
    # A pass that is dropped gives its pages back, the last one first, so that the next one makes them under the same numbers:
    # the first of two splits makes page 3, and the second page 4.
    "pages-made-again": Schedule(f"""
{made(*EIGHT)}
begin > begun 2
{called(2, "open 16384", 13)}
cancel 2 > cancelled
whole 2 open 16384 > done opened
commit 2 > committed 2
{begun(3, 4)}
{called(3, "deposit 16384 5", 3)}
{called(4, "deposit 16384 7", 2, "waiting by 3")}
# T4 needs page 4, which T3 has locked for `deposit 16384 5`.
{empty(*EIGHT, 16384)}
depth 2""", LOW),
    "wait-for-one-that-undoes": Schedule(f"""
{made(1)}
{begun(2, 3)}
whole 2 deposit 1 5 > done done
abort 2 > aborting
step 2 > {going(3)}
{called(3, "deposit 1 7", 2, "waiting by 2")}
# T3 needs page 0, which T2 has locked to undo `deposit 1 5` (done).
step 2 > aborted
step 3 > going, done done
account 1 0"""),
    "wait-of-a-whole-operation": Schedule(f"""
{made(1)}
{begun(2, 3)}
whole 2 up 7 1 > done done
{called(2, "deposit 1 5", 3)}
whole 3 deposit 1 7 > waiting by 2
# T3 needs page 0, which T2 has locked for `deposit 1 5`.
account 1 0"""),
    "deadlock-of-two": Schedule(f"""
{counters(1, 2)}
{blocked_read(1, 2)}
{blocked_read(2, 1)}
# Deadlock: T2 waits for T1, T1 waits for T2."""),
    "deadlock-of-three": Schedule(f"""
{counters(1, 2, 3)}
{blocked_read(1, 2)}
{blocked_read(2, 3)}
{blocked_read(3, 1)}
# Deadlock: T3 waits for T1, T1 waits for T2, T2 waits for T3."""),
    "one-beside-a-deadlock": Schedule(f"""
{counters(1, 2, 3)}
{blocked_read(1, 2)}
{blocked_read(2, 1)}
# Deadlock: T2 waits for T1, T1 waits for T2.
{blocked_read(3, 1)}"""),
    "deadlock-that-closes-again": Schedule(f"""
{counters(1, 2)}
{blocked_read(1, 2)}
{blocked_read(2, 1)}
# Deadlock: T2 waits for T1, T1 waits for T2.
step 1 > {going(3)}, blocked by 2
{block(1, "read 2", "is 2", 2, "up 2 2", "done", "Counted, Read", ASKED)}
# Deadlock: T1 waits for T2, T2 waits for T1."""),
    "no-deadlock-while-one-goes": Schedule(f"""
{counters(1, 2)}
{blocked_read(1, 2)}
step 1 > going
{blocked_read(2, 1)}"""),
    "no-deadlock-of-a-whole-operation": Schedule(f"""
{counters(1, 2)}
whole 1 read 2 > blocked by 2
{block(1, "read 2", "is 2", 2, "up 2 2", "done", "Counted, Read", ASKED)}
{blocked_read(2, 1)}"""),
    "no-deadlock-closed-by-a-whole-operation": Schedule(f"""
{counters(1, 2)}
{blocked_read(1, 2)}
whole 2 read 1 > blocked by 1
{block(2, "read 1", "is 1", 1, "up 1 1", "done", "Counted, Read", ASKED)}"""),
    "no-deadlock-after-cancel": Schedule(f"""
{counters(1, 2)}
{blocked_read(1, 2)}
cancel 1 > cancelled
{blocked_read(2, 1)}"""),
    "no-deadlock-with-another-operation": Schedule(f"""
{counters(1, 2)}
{blocked_read(1, 2)}
cancel 1 > cancelled
call 1 read 5 > called
{blocked_read(2, 1)}"""),
    "deadlock-beside-a-refused-commit": Schedule(f"""
{counters(1, 2)}
{blocked_read(1, 2)}
commit 1 > refused 5 Running
{blocked_read(2, 1)}
# Deadlock: T2 waits for T1, T1 waits for T2."""),
    "deadlock-that-an-abort-ends": Schedule(f"""
{counters(1, 2)}
{blocked_read(1, 2)}
{blocked_read(2, 1)}
# Deadlock: T2 waits for T1, T1 waits for T2.
cancel 1 > cancelled
{undone(1)}
step 2 > {going(3)}, done is 0
commit 2 > committed 1
counter 2 2"""),
}


def without_reasons(text: str) -> str:
    """A text without the lines that begin with `#`."""
    return "".join(line for line in text.splitlines(keepends=True) if not line.startswith("#"))


def printed_examples(mltx: Program) -> Examples:
    """The three lines of the example of each pair of classes, as reasons, from the printed tables."""
    ran = mltx.run("tables")
    expect(ran, out=ran.out)
    found = re.findall(r"(?m)^((\w+), then (\w+), from .*:)\n  (.*)\n  (.*)\n", ran.out.decode())
    return {
        (held, asked): [f"# Example of the conflict: {head}", f"#   {first}", f"#   {second}"]
        for head, held, asked, first, second in found
    }


def output(lines: list[str], examples: Examples) -> str:
    """What is written of the lines of a row, with its reasons."""
    told = []
    for line in lines:
        short = re.fullmatch(r"# example (\w+), (\w+)", line)
        if short:
            told += examples[short.groups()]
        elif " > " in line:
            told += line.split(" > ")[1].split(", ")
        else:
            told.append(line)
    return "".join(line + "\n" for line in told)


@each({f"reasons-{name}": row for name, row in EXPLAINED.items()})
def reasons(mltx: Program, row: Schedule) -> None:
    """The whole text with `--explain`; without it the same but for the reasons; and the trace is the same."""
    wanted = output(row.lines(), printed_examples(mltx))
    events = Schedule(without_reasons(row.text)).events()
    for options in row.options:
        plain = mltx.run("steps", *options, "--trace", "plain", "-", given=events)
        explained = mltx.run("steps", *options, "--trace", "explained", "--explain", "-", given=events)
        expect(explained, out=wanted, what="with reasons")
        expect(plain, out=without_reasons(wanted), what="without them")
        same((mltx.folder / "explained").read_text(), (mltx.folder / "plain").read_text(), "the traces")


def parted(text: str) -> list[tuple[str, list[str]]]:
    """Each line of a text that is no reason, with the reasons behind it."""
    found: list[tuple[str, list[str]]] = []
    for line in text.splitlines():
        if line.startswith("#"):
            holds(found, f"the text begins with {line!r}")
            found[-1][1].append(line)
        else:
            found.append((line, []))
    return found


def checked_form(line: str, reasons: list[str], examples: Examples) -> None:
    """Fails where what stands behind a line is none of the forms in SCHEDULES."""
    if line.startswith("waiting by "):
        found = OF_PAGE.fullmatch(reasons[0]) if len(reasons) == 1 else None
        holds(found and found[3] == line.split()[2], f"{line!r} has the reasons {reasons}")
    elif line.startswith("blocked by "):
        found = match(IN_THE_WAY, reasons[0])
        t, asked, now, by, held, told = (group for group in found.groups() if group)
        same(by, line.split()[2], f"the holder in {reasons}")
        forms = [in_the_way(int(t), asked, now, int(by), held, told, risk) for risk in (ASKED, HELD, UNDONE)]
        holds(reasons[:2] in forms, f"{line!r} has the reasons {reasons}")
        holds(reasons[2:5] in examples.values(), f"no example of the tables: {reasons[2:5]}")
        holds(len(reasons) < 6 or len(reasons) == 6 and OF_DEADLOCK.fullmatch(reasons[5]), f"{reasons}")
    else:
        same(reasons, [], f"behind {line!r}")


@each({f"{name}-with-reasons": row for name, row in ROWS.items()})
def schedule_with_reasons(mltx: Program, row: Schedule) -> None:
    """Without the reasons it is the text of the row, and each line `blocked by` or `waiting by` has its own."""
    for options in row.options:
        ran = mltx.run("steps", *options, "--explain", "-", given=row.events())
        expect(ran, out=ran.out)
        same(without_reasons(ran.out.decode()), row.output())
        for line, reasons in parted(ran.out.decode()):
            checked_form(line, reasons, printed_examples(mltx))


# The reasons in the schedules of the examples, each with the line that it stands behind.
OF_EXAMPLES = {
    "abort-under-later-deposit.txt": "",
    "block-by-reply.txt": f"""
blocked by 2
{block(3, "withdraw 101 40", "short", 2, "withdraw 101 30", "done", "Withdrawn, Short", ASKED)}""",
    "size-of-a-set.txt": f"""
blocked by 3
{block(2, "add 201 22", "added", 3, "size 201", "is 1", "size, Added", HELD)}
blocked by 2
{block(4, "size 201", "is 2", 2, "add 201 22", "added", "Added, size", ASKED)}""",
    "split-beside-a-reader.txt": "",
    "wait-for-a-page.txt": """
waiting by 2
# T3 needs page 0, which T2 has locked for `deposit 101 50`.""",
}


@each({f"{name.split('.')[0]}-explained": name for name in OF_EXAMPLES})
def example_with_reasons(mltx: Program, name: str) -> None:
    """Each block and each wait of the examples has its reason, and nothing else has one."""
    words, file = EXAMPLES[name], ROOT / "examples" / name
    plain, explained = mltx.run(*words, file), mltx.run(*words, "--explain", file)
    expect(explained, out=explained.out)
    expect(plain, out=without_reasons(explained.out.decode()))
    told = [(line, *reasons) for line, reasons in parted(explained.out.decode()) if reasons or " by " in line]
    wanted = output(OF_EXAMPLES[name].strip().splitlines(), printed_examples(mltx))
    same("".join(line + "\n" for part in told for line in part), wanted)


@test
def each_schedule_of_the_examples_is_explained(_mltx: Program) -> None:
    same(set(OF_EXAMPLES), {name for name, words in EXAMPLES.items() if words[0] == "steps"}, "the schedules of the examples")


@test
def reasons_of_schedules(mltx: Program) -> None:
    """The reason that SCHEDULES shows is the one of its example, and the page of that example shows it."""
    page = (ROOT / "docs/SCHEDULES.md").read_text()
    text = page.partition("(../examples/block-by-reply.txt), where")[2].partition("\n\n")[2]
    shown = [line.removeprefix("    ") for line in text.partition("\n\n")[0].splitlines()]
    same(shown[1:3], in_the_way(3, "withdraw 101 40", "short", 2, "withdraw 101 30", "done", ASKED))
    ran = mltx.run("steps", "--explain", ROOT / "examples/block-by-reply.txt")
    same([(line, *reasons) for line, reasons in parted(ran.out.decode()) if reasons], [tuple(shown)])
    section = page_of_example(mltx, "block-by-reply.txt").sections[12]
    words = "".join(line.removeprefix("#") for line in shown[1:]).replace(" ", "").replace("`", "")
    holds(words in section.of("reason")[0].replace(" ", ""), f"{section.of('reason')} wanted {words}")


class ReasonWatch(Watch):
    """Follows a schedule, and also says which reasons are wanted. Who waits for whom is what it notes beside."""

    def __init__(self, low: bool, examples: Examples) -> None:
        super().__init__(low)
        self.examples, self.blocked, self.deadlocks = examples, dict[int, int](), 0

    def explained(self, event: Event, told: str, reasons: list[str]) -> None:
        """Takes one event, the line that it was told, and the reasons behind that."""
        word, t = told.split()[0], event[1] if len(event) > 1 else None
        by = int(told.split()[-1]) if word in ("blocked", "waiting") else 0
        op = event[2] if event[0] == "whole" else self.open[t].pending if word == "blocked" else None
        wanted = self._in_the_way(t, by, op or (), reasons) if word == "blocked" else self._of_page(t, by, reasons) if by else []
        self._note(event, word, t, by)
        if word == "blocked" and event[0] == "step":
            wanted = [*wanted, *self._deadlock(t)]
        same(reasons, wanted, f"the reasons of {told!r}, told to {show(event)}")
        self.tell(event, told)

    def _in_the_way(self, t: int, by: int, op: Op, reasons: list[str]) -> list[str]:
        """The operation that was done first of those that conflict, and the example of both classes. What is asked for
        would be told what the model tells of the base, as long as it is sure of that."""
        reply = applied(self.base.held(op), op)[0] if self.sure else match(IN_THE_WAY, reasons[0])[3]
        it = self.open[by]
        place, held = next(done for done in enumerate(it.held) if clash(done[1], (op, reply)))
        classes = tuple(class_of(*done) for done in (held, (op, reply)))
        undone = place >= len(it.done) or it.vague and " has undone " in reasons[0]
        risk = UNDONE if undone else at_risk(*classes)
        return [*in_the_way(t, text_of(op), reply, by, text_of(held[0]), held[1], risk), *self.examples[classes]]

    def _of_page(self, t: int, by: int, reasons: list[str]) -> list[str]:
        """The page is any; what has it is in its operation, or undoes its last one."""
        found = match(OF_PAGE, reasons[0]) if reasons else None
        it = self.open[by]
        if it.pending:
            why = f"for `{text_of(it.pending)}`"
        elif it.vague:
            why = found[4] if found else ""
            holds(why in {f"to undo `{text_of(op)}` ({reply})" for op, reply in it.done}, f"{by} {why}")
        else:
            why = f"to undo `{text_of(it.done[-1][0])}` ({it.done[-1][1]})"
        return [f"# T{t} needs page {found[2] if found else 0}, which T{by} has locked {why}."]

    def _note(self, event: Event, word: str, t: int, by: int) -> None:
        """A step that was told anything else than a block waits for none, and so does what was cancelled."""
        if event[0] == "step" or event[0] == "cancel" and word == "cancelled":
            self.blocked.pop(t, None)
        if event[0] == "step" and word == "blocked":
            self.blocked[t] = by

    def _deadlock(self, first: int) -> list[str]:
        """The line of the deadlock that a transaction is in, if it is in one."""
        links, t = list[str](), first
        while t in self.blocked and len(links) <= len(self.open):
            links.append(f"T{t} waits for T{self.blocked[t]}")
            t = self.blocked[t]
            if t == first:
                self.deadlocks += 1
                return [f"# Deadlock: {', '.join(links)}."]
        return []


# The classes of operations that tell a number or only `done`; all others are named like their replies.
BY_OPERATION = {"deposit": "Deposited", "withdraw": "Withdrawn", "up": "Counted", "down": "Counted"}


def class_of(op: Op, reply: str) -> str:
    """The name of a class: the word of `tables`."""
    if reply == "done":
        return BY_OPERATION[op[0]]
    if reply.startswith("is "):
        return "size" if op[0] == "size" else str(op[0]).capitalize()
    return {"notempty": "NotEmpty"}.get(reply, reply.capitalize())


def checked_reasons(mltx: Program, hash_name: str, events: list[Event]) -> ReasonWatch:
    """Each event has the reasons that the model wants, and without them the text is the one without the option."""
    text = "".join(show(event) + "\n" for event in events)
    told = mltx.run("steps", "--hash", hash_name, "--explain", "-", given=text)
    expect(told, out=told.out)
    expect(mltx.run("steps", "--hash", hash_name, "-", given=text), out=without_reasons(told.out.decode()))
    watch = ReasonWatch(hash_name == "low", printed_examples(mltx))
    singles = [event for event in events for _ in range(event[2] if event[0] == "step" else 1)]
    for event, (line, reasons) in zip(singles, parted(told.out.decode())):
        watch.explained(event, line, reasons)
    return watch


@each({f"{name}-with-reasons": case for name, case in SCHEDULES.items()}, seconds=3)
def random_schedules_with_reasons(mltx: Program, case: tuple[str, Cells, int, int]) -> None:
    hash_name, cells, calls, many = case
    for number in range(many // 4 * harness.CASES):
        dice = dice_of(f"schedules {case}", number)
        events = random_schedule(dice, cells, calls, dice.randint(1, 120))
        with told_in("schedules", number, "".join(show(event) + "\n" for event in events)):
            checked_reasons(mltx, hash_name, events)


def crossing_reads(dice: Random, most: int) -> list[Event]:
    """Up to so many transactions count, each on the counter of its number, and read each other's again and again."""
    everyone = range(1, most + 1)
    events: list[Event] = [*[("begin",)] * most, *(("whole", t, ("up", t, t)) for t in everyone)]
    for _ in range(dice.randint(10, 60)):
        t, other = dice.sample(everyone, 2)
        read, closing = ("call", t, ("read", other)), dice.choice((("commit", t), ("abort", t), ("cancel", t)))
        more: list[list[Event]] = [[read, ("step", t, 4)], [("step", t, 4)], [("step", t, 1)], [closing]]
        events += dice.choices(more, (8, 4, 2, 1))[0]
    return events


@test(seconds=4)
def random_deadlocks(mltx: Program) -> None:
    """Deadlocks of two and more, which most of these schedules have."""
    deadlocks = 0
    for number in range(100 * harness.CASES):
        dice = dice_of("deadlocks", number)
        events = crossing_reads(dice, dice.randint(2, 6))
        with told_in("deadlocks", number, "".join(show(event) + "\n" for event in events)):
            deadlocks += checked_reasons(mltx, "mult", events).deadlocks
    holds(deadlocks > 100, f"{deadlocks} deadlocks came about")
