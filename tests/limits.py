"""Each limit, and one past it: what docs/OPERATING.md and the pages on formats say comes on each side.

Many of these refuse a program that gives up early for no good reason: it would be within its contracts, since no
contract can say that memory really ran out, and only a test sees it."""
import fcntl
import os
import random
import termios
import time
from collections.abc import Callable, Sequence
from contextlib import suppress
from typing import IO

import harness
import model
from harness import MANY_BYTES, MOST_BYTES, Piped, Program, Ran, cut_for, each, expect, fault_of, holds, same, test
from random_work import FEW, random_script

PSEUDOKEYS = 2**16
# The greatest balance, and the greatest amount.
MOST, LAST = 10**18, 2**64 - 1

# A line, or a list of parts.
Part = str | Sequence["Part"]


def text(*parts: Part) -> str:
    """The text of these lines."""
    return "".join(part + "\n" if isinstance(part, str) else text(*part) for part in parts)


def comes_to(ran: Ran, told: Part | None, fault: str, what: str = "") -> None:
    """Fails where a run comes to anything but these lines, or where there are none to this fault."""
    if told is None:
        expect(ran, status=1, err=fault, what=what)
    else:
        expect(ran, out=text(told), what=what)


# Transactions that are open at once.


@test
def sixty_four_are_open_and_the_next_is_refused(mltx: Program) -> None:
    """A program that refuses the seventeenth, the 64th or none fails; so does one in which an end makes no room."""
    numbers = range(1, 65)
    work = [f"whole {t} up 1 {t}" for t in numbers]
    ends = ["commit 17", "begin", "begin", "abort 65", "begin", "begin", [f"commit {t}" for t in numbers if t != 17]]
    given = text(["begin"] * 65, work, *ends)
    begun = [f"begun {t}" for t in numbers]
    full = "refused 7 TooManyOpen"
    told = [begun, full, ["done done"] * 64, "committed 1", "begun 65", full, "aborted", "begun 66", full]
    told += [[f"committed {n}" for n in range(2, 65)], f"counter 1 {sum(numbers)}", "depth 0"]
    expect(mltx.run("steps", "-", given=given), out=text(told))


@test
def sixty_three_operations_wait_for_one(mltx: Program) -> None:
    """Each keeps its reservation while it waits, and is done once the one that all wait for has committed. A program
    that refuses the seventeenth reservation fails, or the 63rd."""
    others = range(2, 65)
    steps = [[f"step {t}"] * 4 for t in others]
    given = text(["begin"] * 64, "whole 1 open 1", "whole 1 deposit 1 5", [f"call {t} balance 1" for t in others])
    told = text([f"begun {t}" for t in range(1, 65)], "done opened", "done done", ["called"] * 63)
    given += text(steps, "commit 1", steps)
    told += text([["going"] * 3, "blocked by 1"] * 63, "committed 1", [["going"] * 3, "done is 5"] * 63)
    expect(mltx.run("steps", "-", given=given), out=told + text("account 1 5", "depth 0"))


@test(seconds=1)
def sixty_four_sessions_at_once_and_the_next_waits(mltx: Program) -> None:
    """The 65th connection is served once a session ends. Served earlier, its `begin` would be refused."""
    with mltx.serve("--sessions", 64, limit=65) as server:
        peers = [server.connect() for _ in range(64)]
        for t, peer in enumerate(peers, 1):
            same(peer.ask("begin"), f"begun {t}", f"begin in session {t}")
            same(peer.ask("up 7 1"), "done", f"up in session {t}")
        late = server.connect()
        late.send("begin\n")
        same(peers[20].ask("quit"), "bye", "quit in one of 64 sessions")
        same(late.line(), "begun 65", "begin in the session that waited")
        same(late.ask("up 7 1"), "done", "up in the session that waited")
        committed = [peer.ask("commit") for peer in (late, *peers[:20], *peers[21:])]
        same(committed, [f"committed {n}" for n in range(1, 65)], "the commits of all")
        for peer in (late, *peers):
            peer.socket.close()
        expect(server.end(), out="served 65\n")


@test
def connections_that_wait_are_served_later(mltx: Program) -> None:
    """Six connections, two sessions: each is served, whatever its place."""
    with mltx.serve("--sessions", 2, limit=6) as server:
        peers = [server.connect() for _ in range(6)]
        for peer in peers:
            peer.send("begin\nup 7 1\ncommit\n")
            peer.end()
        heard = [peer.rest().decode().splitlines() for peer in peers]
        same(sorted(number for _, _, number in heard), [f"committed {n}" for n in range(1, 7)], "the commits")
        expect(server.end(), out="served 6\n")


# Pages.


def every_bucket() -> list[range]:
    """Lists of 1,024 accounts each, in all five of each pseudokey of `low`. Account a has the pseudokey a mod 2^16.

    With five of each all 65,536 buckets are made, and with four they need not be. A bucket has eight slots, so one of
    depth 15 holds four of each of its two pseudokeys: 32,768 buckets are enough. Ten go into no bucket, so each of
    depth 15 is split, and each pseudokey has a bucket of its own. With 256 pages of directory and the header these are
    65,793 pages, so a program whose page numbers have 16 bits is out of numbers before the last accounts."""
    return [range(first, first + 1_024) for first in range(0, 5 * PSEUDOKEYS, 1_024)]


# Three more accounts of one pseudokey, and the ninth of it.
MORE, NINTH = [77 + place * PSEUDOKEYS for place in (5, 6, 7)], 77 + 8 * PSEUDOKEYS


@test(seconds=4)
def all_pages_that_can_be_made_are_made_by_steps(mltx: Program) -> None:
    """327,680 accounts are opened, none of which is refused; then three of one pseudokey; and the ninth has no room."""
    given, told = [], []
    for t, accounts in enumerate(every_bucket(), 1):
        given += ["begin", *(f"whole {t} open {account}" for account in accounts), f"commit {t}"]
        told += [f"begun {t}", *["done opened"] * 1_024, f"committed {t}"]
    given += ["begin", *(f"whole 321 open {account}" for account in (*MORE, NINTH)), "commit 321"]
    told += ["begun 321", *["done opened"] * 3, "refused 2 NoRoom", "committed 321"]
    base = [f"account {account} 0" for account in (*range(5 * PSEUDOKEYS), *MORE)]
    expect(mltx.run("steps", "--hash", "low", "-", given=text(given)), out=text(told, base, "depth 16"))


@test(seconds=3)
def all_pages_that_can_be_made_are_made_by_scripts(mltx: Program) -> None:
    """The same by `solo`: the script that opens the ninth account of a pseudokey is refused and aborted."""
    scripts = [accounts[place : place + 256] for accounts in every_bucket() for place in range(0, 1_024, 256)] + [MORE]
    given = [line for part in scripts for line in ("begin", *(f"open {account}" for account in part), "commit")]
    told = [line for n, part in enumerate(scripts, 1) for line in (*["opened"] * len(part), f"committed {n}")]
    given += ["begin", "open 1", f"open {NINTH}", "commit", "begin", f"balance {NINTH}", f"open {MORE[2]}", "commit"]
    told += ["exists", "refused 2 NoRoom", "aborted", "missing", "exists", f"committed {len(scripts) + 1}"]
    expect(mltx.run("solo", "--hash", "low", "-", given=text(given)), out=text(told))


# Operations of a transaction.

MOST_OPERATIONS = 1_024
MIX = ["open 1", "deposit 1 5", "withdraw 1 3", "add 4 9", "balance 1", "remove 4 9", "up 7 11", "down 2 1"]
MIX += ["withdraw 1 2", "close 1", "read 7", "has 4 9", "add 4 8", "size 4"]
OPERATIONS = {
    "a-transaction-has-1024-operations": ["up 2 3"] * MOST_OPERATIONS,
    "a-transaction-has-1024-operations-of-all-kinds": (MIX * 100)[:MOST_OPERATIONS],
}


@each(OPERATIONS, seconds=0.5)
def operations_of_a_transaction(mltx: Program, ops: list[str]) -> None:
    """1,024 operations, and no more. Taken back they leave the base as before; done again and committed they stay."""
    base, read = model.Base(), [model.read_op(op.split()) for op in ops]
    given = ["begin", "whole 1 up 2 40", "whole 1 add 4 9", "commit 1"]
    told = ["begun 1", *(f"done {base.ask(op)}" for op in (("up", 2, 40), ("add", 4, 9))), "committed 1"]
    endings = {2: (["abort 2", "undo 2"], ["aborting", "aborted"]), 3: (["commit 3"], ["committed 2"])}
    for t, (ends, told_at_end) in endings.items():
        base.keep()
        given += ["begin", *(f"whole {t} {op}" for op in ops), f"whole {t} up 2 1", f"call {t} read 2", *ends]
        told += [f"begun {t}", *(f"done {base.ask(op)}" for op in read if op)]
        told += [*["refused 8 LogFull"] * 2, *told_at_end]
        if t == 2:
            base.undo()
    expect(mltx.run("steps", "-", given=text(given)), out=text(told) + base.text() + "depth 0\n")


@test(seconds=1)
def sixty_four_transactions_have_1024_operations_each(mltx: Program) -> None:
    """65,536 operations are done and may still be taken back, so the history has as many lines reserved. None of them
    waits; each second transaction is taken back, and the others stay."""
    everybody = range(1, 65)
    ups = [f"whole {t} up 2 1" for _ in range(MOST_OPERATIONS) for t in everybody]
    ends = [line for t in everybody for line in ([f"abort {t}", f"undo {t}"] if t % 2 else [f"commit {t}"])]
    told = [*(f"begun {t}" for t in everybody), *["done done"] * len(ups)]
    told += [line for n in range(1, 33) for line in ("aborting", "aborted", f"committed {n}")]
    given = text(["begin"] * 64, ups, ends)
    expect(mltx.run("steps", "-", given=given), out=text(told, f"counter 2 {32 * MOST_OPERATIONS}", "depth 0"))


@test
def taking_back_1024_operations_takes_four_steps_each(mltx: Program) -> None:
    """A program that takes back other than all of them, one by one, or in other steps, fails."""
    ups = [f"whole 1 up 2 {n}" for n in range(1, 1_025)]
    given = text("begin", ups, "whole 1 up 2 1", "abort 1", ["step 1 1000"] * 4, "step 1 96", "step 1")
    going = ["going"] * 3
    backs = [line for _ in range(1_023) for line in (*going, "undone")]
    told = ["begun 1", ["done done"] * 1_024, "refused 8 LogFull", "aborting", backs, going, "aborted"]
    expect(mltx.run("steps", "-", given=given), out=text(told, "refused 3 NoSuchTx", "depth 0"))


@test
def a_session_has_1024_operations_in_a_transaction(mltx: Program) -> None:
    """The 1,025th is `error 8 LogFull`, and the session goes on. What committed stays, and what was aborted doesn't."""
    ups = ["up 7 1"] * 1_024
    given = text("begin", ups, "up 7 1", "read 7", "commit", "begin", ups, "up 7 1", "abort", "begin", "read 7", "quit")
    full = "error 8 LogFull"
    told = text("begun 1", ["done"] * 1_024, full, full, "committed 1", "begun 2", ["done"] * 1_024, full, "aborted")
    with mltx.serve() as server:
        same(server.talk(given).decode(), told + text("begun 3", "is 1024", "bye"))
        expect(server.end(), out="served 1\n")


# Scripts.


def script_of(*statements: Part) -> str:
    return text("begin", *statements, "commit")


def longest_path(else_part: int) -> list[Part]:
    """Statements whose longest path has 256 operations with an `else` of 253: one before, the `if`, and one after."""
    first_part = ["up 1 1"] * 20
    return ["up 1 1", "if up 1 1 is done", first_part, "else", ["up 1 1"] * else_part, "end", "up 1 1"]


def nested(depth: int) -> tuple[list[str], str, list[str]]:
    return ["if read 1 is 0"] * depth, "up 1 1", ["end"] * depth


LETTERS = "abcdefghijklmnopqrstuvwxyz"
LETS = [f"let {v} = read {n}" for n, v in enumerate(LETTERS)]
UPS = ["up 1 1"] * 256
LONG_ELSE = ["if up 1 1 is over", "else", ["up 1 1"] * 255, "end"]
# By name a script, and what `solo` writes of it; or the line and the cause of its fault.
SCRIPTS: dict[str, tuple[str, str | tuple[int, str]]] = {
    "a-path-of-256-operations": (script_of(UPS), text(["done"] * 256, "committed 1")),
    "a-path-of-257-operations": (script_of(UPS, "up 1 1"), (258, "Long")),
    "a-path-of-256-operations-through-an-if": (script_of(longest_path(253)), text(["done"] * 23, "committed 1")),
    "a-path-of-257-operations-through-an-else": (script_of(longest_path(254)), (280, "Long")),
    "an-else-of-255-operations": (script_of(LONG_ELSE), text(["done"] * 256, "committed 1")),
    "an-else-of-255-operations-and-one-after-it": (script_of(LONG_ELSE, "up 1 1"), (260, "Long")),
    "an-if-is-the-257th-operation": (script_of(UPS, "if up 1 1 is done", "end"), (258, "Long")),
    "a-let-is-the-257th-operation": (script_of(UPS, "let a = read 1"), (258, "Long")),
    "both-parts-of-an-if-have-255-operations": (
        script_of("if up 1 1 is done", UPS[1:], "else", UPS[1:], "end"),
        text(["done"] * 256, "committed 1"),
    ),
    "each-script-has-256-operations": (
        script_of(UPS) + script_of(UPS),
        text(["done"] * 256, "committed 1", ["done"] * 256, "committed 2"),
    ),
    "sixteen-ifs-in-each-other": (script_of(nested(16)), text(["is 0"] * 16, "done", "committed 1")),
    "seventeen-ifs-in-each-other": (script_of(nested(17)), (18, "Deep")),
    "the-seventeenth-if-is-the-257th-operation": (script_of(UPS[:240], nested(17)), (258, "Deep")),
    "seventeen-ifs-one-after-another": (script_of(["if read 1 is 0", "end"] * 17), text(["is 0"] * 17, "committed 1")),
    "twenty-six-variables": (
        script_of([f"up {n} {n + 100}" for n in range(26)], LETS)
        + script_of("open 1", [f"deposit 1 {v}" for v in LETTERS], "balance 1")
        + script_of(LETS, [f"up 99 {v}" for v in LETTERS], "read 99"),
        text(["done"] * 26, [f"is {n + 100}" for n in range(26)], "committed 1")
        + text("opened", ["done"] * 26, "is 0", "committed 2")
        + text([f"is {n + 100}" for n in range(26)], ["done"] * 26, f"is {sum(range(100, 126))}", "committed 3"),
    ),
    "client-999": ("begin 999\nup 1 1\ncommit\n", text("done", "committed 1")),
    "client-1000": ("begin 1000\nup 1 1\ncommit\n", (1, "Words")),
    "a-balance-of-10^18": (
        script_of("open 1", f"deposit 1 {MOST}", "balance 1", "deposit 1 1", "deposit 1 0", f"withdraw 1 {MOST + 1}")
        + script_of("withdraw 1 1", "deposit 1 2", "deposit 1 1", f"need balance 1 is {MOST}", f"withdraw 1 {MOST}")
        + script_of("withdraw 1 1", f"deposit 1 {MOST + 1}", f"deposit 1 {LAST}", "close 1"),
        text("opened", "done", f"is {MOST}", "over", "done", "short", "committed 1")
        + text("done", "over", "done", f"is {MOST}", "done", "committed 2")
        + text("short", "over", "over", "closed", "committed 3"),
    ),
    "a-counter-goes-round-at-2^64": (
        script_of(f"up 1 {LAST}", "read 1", "up 1 1", "read 1", "down 1 1", "read 1", f"down 1 {LAST}", "read 1"),
        text("done", f"is {LAST}", "done", "is 0", "done", f"is {LAST}", "done", "is 0", "committed 1"),
    ),
}


@each(SCRIPTS)
def limits_of_scripts(mltx: Program, case: tuple[str, str | tuple[int, str]]) -> None:
    """What `solo` says of a script at a limit or one past it; `run` says the same of a faulty one."""
    script, wanted = case
    if isinstance(wanted, str):
        expect(mltx.run("solo", "-", given=script), out=wanted)
        return
    for command in ("solo", "run"):
        comes_to(mltx.run(command, "-", given=script), None, fault_of(command, *wanted), command)


# Numbers and lines, in each kind of text.


def in_each_text(
    mltx: Program, line_of: Callable[[str, str], str], reply: str | None, base: list[str], cause: str, told_in_session: str
) -> None:
    """Puts an operation into a script, a schedule, a trace and a session. `line_of` makes its line of the words before
    it, as `op 1`, and of its reply where that stands there. Where `reply` is None the line is faulty."""
    script, schedule = ["begin", line_of("", ""), "commit"], ["begin", line_of("whole 1 ", ""), "commit 1"]
    trace = ["begin 1", line_of("op 1 ", f" {reply or 'done'}"), "commit 1 1"]
    told = {
        "solo": (script, [reply or "", "committed 1"]),
        "run": (script, ["client 0 script 1", reply or "", "committed 1", *base]),
        "steps": (schedule, ["begun 1", f"done {reply}", "committed 1", *base, "depth 0"]),
        "check": (trace, ["serial 1", *base]),
    }
    for command, (given, wanted) in told.items():
        ran = mltx.run(command, "-", given=text(given))
        comes_to(ran, wanted if reply else None, fault_of(command, 2, cause), f"{command} of {given}")
    with mltx.serve() as server:
        heard = server.talk(text("begin", line_of("", ""))).decode()
        same(heard, text("begun 1", reply or told_in_session), f"a session of {line_of('', '')!r}")


# By name an operation, its reply, and the base that it leaves. Where there is no reply the operation is faulty.
NUMBERS: dict[str, tuple[str, str | None, list[str]]] = {
    "the-last-account": ("open 4294967295", "opened", ["account 4294967295 0"]),
    "an-account-too-many": ("open 4294967296", None, []),
    "the-last-set": ("add 65535 0", "added", ["element 65535 0"]),
    "a-set-too-many": ("add 65536 0", None, []),
    "the-size-of-the-last-set": ("size 65535", "is 0", []),
    "the-size-of-a-set-too-many": ("size 65536", None, []),
    "the-last-element": ("add 65535 4294967295", "added", ["element 65535 4294967295"]),
    "an-element-too-many": ("add 0 4294967296", None, []),
    "the-last-counter": ("up 4294967295 1", "done", ["counter 4294967295 1"]),
    "a-counter-too-many": ("up 4294967296 1", None, []),
    "the-greatest-amount": ("up 1 18446744073709551615", "done", ["counter 1 18446744073709551615"]),
    "an-amount-of-2^64": ("up 1 18446744073709551616", None, []),
    "an-amount-of-20-nines": ("down 1 99999999999999999999", None, []),
    "a-number-of-20-digits": ("open 00000000000000000017", "opened", ["account 17 0"]),
    "a-number-of-21-digits": ("open 000000000000000000017", None, []),
    "an-amount-of-20-digits": ("down 1 00000000000000000000", "done", []),
    "an-amount-of-21-digits": ("down 1 000000000000000000000", None, []),
    "a-set-of-20-digits": ("has 00000000000000000001 00000000000000000002", "no", []),
    "a-set-of-21-digits": ("has 000000000000000000001 2", None, []),
}


@each(NUMBERS, seconds=0.2)
def limits_of_numbers(mltx: Program, case: tuple[str, str | None, list[str]]) -> None:
    """A number at its limit is read as it stands, and one past it is a fault, in each kind of text."""
    op, reply, base = case
    in_each_text(mltx, lambda before, after: before + op + after, reply, base, "Words", "error 10 ScriptFault")


# By name how long a line is with its CR, whether it has one, and whether it is too long.
LINES = {
    "a-line-of-200-bytes": (200, "", True),
    "a-line-of-201-bytes": (201, "", False),
    "a-line-of-200-bytes-with-its-cr": (200, "\r", True),
    "a-line-of-201-bytes-with-its-cr": (201, "\r", False),
    "a-line-of-1000-bytes": (1_000, "", False),
}


@each(LINES, seconds=0.2)
def limits_of_lines(mltx: Program, case: tuple[int, str, bool]) -> None:
    """A session whose line is too long ends, and its transaction is taken back."""
    length, ending, lawful = case

    def line_of(before: str, after: str) -> str:
        return f"{before}up 7 1{after}".ljust(length - len(ending)) + ending

    in_each_text(mltx, line_of, "done" if lawful else None, ["counter 7 1"], "Line", "error 12 LineTooLong")


# By name a comment or a blank line, and whether it is lawful.
SKIPPED = {
    "a-comment-of-200-bytes": ("#" * 200, True),
    "a-comment-of-201-bytes": ("#" * 201, False),
    "a-comment-of-200-bytes-and-a-cr": ("#" * 200 + "\r", False),
    "a-blank-line-of-200-bytes": (" " * 200, True),
    "a-blank-line-of-201-bytes": ("\t" * 201, False),
}


@each(SKIPPED)
def limits_of_lines_that_are_skipped(mltx: Program, case: tuple[str, bool]) -> None:
    """The rule of 200 bytes holds for comments and blank lines too."""
    line, lawful = case
    told = ["begun 1", "done done", "committed 1", "counter 1 1", "depth 0"]
    texts = {
        "solo": (["begin", "up 1 1", "commit", line], ["done", "committed 1"]),
        "steps": (["begin", "whole 1 up 1 1", "commit 1", line], told),
    }
    for command, (given, told) in texts.items():
        comes_to(mltx.run(command, "-", given=text(given)), told if lawful else None, fault_of(command, 4, "Line"), command)


# By name an event, and what it is told after one `begin`, or None where it is faulty.
EVENTS = {
    "one-thousand-steps": ("step 1 1000", ["refused 6 NotRunning"] * 1_000),
    "one-thousand-and-one-steps": ("step 1 1001", None),
    "no-step": ("step 1 0", None),
    "an-event-of-the-last-transaction": ("commit 18446744073709551615", ["refused 3 NoSuchTx"]),
    "an-event-of-a-transaction-too-many": ("commit 18446744073709551616", None),
    "an-event-of-transaction-0": ("whole 0 up 1 1", ["refused 3 NoSuchTx"]),
}


@each(EVENTS)
def limits_of_events(mltx: Program, case: tuple[str, list[str] | None]) -> None:
    """What `steps` says of an event at a limit or one past it."""
    event, told = case
    wanted = None if told is None else ["begun 1", told, "depth 0"]
    comes_to(mltx.run("steps", "-", given=text("begin", event)), wanted, fault_of("steps", 2, "Words"))


# By name a trace, and what `check` says of it: lines, or the line and the cause of its fault.
TRACES: dict[str, tuple[list[str], list[str] | tuple[int, str]]] = {
    "the-last-transaction-of-a-trace": (
        [f"begin {LAST}", f"op {LAST} up 1 1 done", f"commit {LAST} 1"],
        [f"serial {LAST}", "counter 1 1"],
    ),
    "a-transaction-too-many-in-a-trace": ([f"begin {LAST + 1}"], (1, "Words")),
    "transaction-0-in-a-trace": (["begin 0"], (1, "Words")),
    "a-commit-of-the-last-number": (["begin 1", f"commit 1 {LAST}"], (2, "Place")),
    "a-commit-of-a-number-too-many": (["begin 1", f"commit 1 {LAST + 1}"], (2, "Words")),
    "a-reply-of-the-last-number": (["begin 1", f"op 1 read 1 is {LAST}"], []),
    "a-reply-of-a-number-too-many": (["begin 1", f"op 1 read 1 is {LAST + 1}"], (2, "Words")),
    "a-trace-may-have-65-open": ([f"begin {t}" for t in range(1, 66)], []),
    "a-trace-may-have-1025-operations": (
        ["begin 1", *["op 1 up 1 1 done"] * 1_025, "commit 1 1"],
        ["serial 1", "counter 1 1025"],
    ),
}


@each(TRACES)
def limits_of_traces(mltx: Program, case: tuple[list[str], list[str] | tuple[int, str]]) -> None:
    """What `check` says of a trace at a limit or one past it; for what is open and how much it does, it has none."""
    trace, said = case
    told, fault = (None, said) if isinstance(said, tuple) else (said, (0, ""))
    comes_to(mltx.check(text(trace)), told, fault_of("check", *fault))


# Inputs of 16,777,216 bytes.


def of_all_bytes(head: str, filler: str, tail: str = "") -> str:
    """A text of 16,777,216 bytes: its head, a line over and over, the last one cut, and its tail."""
    room = MOST_BYTES - len(head) - len(tail)
    lines = filler * (room // len(filler))
    return head + lines + filler[: max(room - len(lines) - 1, 0)] + "\n" * (room > len(lines)) + tail


COMMENT = "#" + "x" * 198 + "\n"


def trace_of_all_bytes() -> str:
    """A trace has no comments, so its lines begin transactions, with blanks up to 200 bytes. The last one commits."""
    lines = "".join(f"begin {t}".ljust(199) + "\n" for t in range(1, MOST_BYTES // 200))
    last = text("begin 90000", "op 90000 up 1 1 done", "commit 90000 1")
    return lines + last.replace("\n", " " * (MOST_BYTES - len(lines) - len(last)) + "\n", 1)


# By the command what makes a text of all bytes, and what is written of it.
WHOLE = {
    "solo": (lambda: of_all_bytes("begin\nup 1 1\n", COMMENT, "commit\n"), ["done", "committed 1"]),
    "run": (
        lambda: of_all_bytes("begin\nup 1 1\n", "\n", "commit\n"),
        ["client 0 script 1", "done", "committed 1", "counter 1 1"],
    ),
    "steps": (
        lambda: of_all_bytes("begin\nwhole 1 up 1 1\n", COMMENT, "commit 1\n"),
        ["begun 1", "done done", "committed 1", "counter 1 1", "depth 0"],
    ),
    "check": (trace_of_all_bytes, ["serial 90000", "counter 1 1"]),
}


@each({f"{command}-reads-16777216-bytes": (command, *case) for command, case in WHOLE.items()}, seconds=2)
def greatest_input(mltx: Program, case: tuple[str, Callable[[], str], list[str]]) -> None:
    """It is read whole, from a file and from standard input, and its last line counts. One byte more is a fault."""
    command, made, told = case
    given = made()
    same(len(given), MOST_BYTES, "the length of the input that the test made")
    expect(mltx.run(command, "-", given=given), out=text(told), what="all bytes from standard input")
    expect(mltx.run(command, mltx.file("whole", given)), out=text(told), what="all bytes from a file")
    comes_to(mltx.run(command, "-", given=given + "\n"), None, "mltx: 13 Io\n", "one more from standard input")
    comes_to(mltx.run(command, mltx.file("more", given + "\n")), None, "mltx: 13 Io\n", "one more from a file")
    comes_to(mltx.run(command, "-", given=given * 2), None, "mltx: 13 Io\n", "twice as many")


BLANKS = " " * 199 + "\n"
# By name the end of all bytes that a session is given, what comes after them, and what is told at the end.
SESSIONS: dict[str, tuple[str, str, list[str]]] = {
    "a-session-reads-16777216-bytes": ("commit\n", "", ["committed 1"]),
    "a-session-ends-after-one-byte-more": ("commit\n", "\n", ["committed 1"]),
    "a-session-reads-no-line-that-ends-too-late": ("commit", "\n", []),
    "a-session-that-reads-too-much-is-taken-back": ("", "\n", []),
}


@each(SESSIONS, seconds=2)
def greatest_session(mltx: Program, case: tuple[str, str, list[str]]) -> None:
    """What was complete is answered. Of one byte more the session ends by itself, and what is open is taken back."""
    tail, more, told = case
    with mltx.serve("--sessions", 1, limit=2) as server:
        with server.connect() as peer:
            peer.send(of_all_bytes("begin\nup 7 1\n", BLANKS, tail) + more)
            if not more:
                peer.end()
            same(peer.rest().decode(), text("begun 1", "done", told), "the answers")
        same(server.talk("begin\nread 7\n").decode(), text("begun 2", f"is {len(told)}"), "the session after it")
        expect(server.end(), out="served 2\n", notes=[cut_for(1, MANY_BYTES)] if more else [])


# Large texts, and texts that come and go slowly.


def large_scripts() -> str:
    """More than 1.5 MB of random scripts: some hundreds, over and over, which find another base each time."""
    dice = random.Random(harness.SEED)
    once = "".join(random_script(dice, FEW, 1) for _ in range(500))
    return once * (1_500_000 // len(once) + 1)


def read_slowly(mltx: Program, *words: str, most: int) -> Ran:
    """Runs the program, and takes its output in small pieces, the first of them after a moment each."""
    with mltx.started(*words) as process:
        pieces: list[bytes] = []
        while piece := os.read(process.stdout.fileno(), most):
            pieces.append(piece)
            if len(pieces) <= 20:
                time.sleep(0.005)
        return Ran(process.wait(), b"".join(pieces), process.stderr.read())


@test(seconds=3)
def scripts_of_more_than_a_megabyte(mltx: Program) -> None:
    """Their report is compared whole, read slowly and at once, and so is the check of their trace of over 1 MB."""
    given, base = large_scripts(), model.Base()
    told = model.solo(model.parse(given.encode()), base)
    file = mltx.file("scripts", given)
    expect(read_slowly(mltx, "solo", file, most=1_000), out=told, what="read slowly")
    expect(mltx.run("solo", "--trace", "trace", file), out=told)
    size = (mltx.folder / "trace").stat().st_size
    holds(size > 1_000_000 and len(told) > 65_536, f"the trace has {size} bytes, and the report {len(told)}")
    ends = [line for line in told.splitlines() if line == "aborted" or line.startswith("committed")]
    serial = [f"serial {t}" for t, end in enumerate(ends, 1) if end != "aborted"]
    expect(mltx.run("check", "trace"), out=text(serial) + base.text(), what="the check of the trace")


@test(seconds=1)
def reports_and_traces_around_65536_bytes(mltx: Program) -> None:
    """A script of 250 operations more at a time: reports and traces grow past 65,536 bytes."""
    for count in range(40, 60):
        given = script_of(["up 1 1"] * 250) * count
        told = text(*(line for n in range(1, count + 1) for line in (["done"] * 250, f"committed {n}")))
        expect(mltx.run("solo", "--trace", "trace", "-", given=given), out=told)
        counted = text([f"serial {t}" for t in range(1, count + 1)], f"counter 1 {250 * count}")
        expect(mltx.check(mltx.folder / "trace"), out=counted, what="the check of the trace")


def write_in_pieces(process: Piped, given: bytes, size: int) -> None:
    """Writes pieces into the program, each once the one before was read, so that each comes by a read of its own. It
    ends where the program does."""
    with suppress(BrokenPipeError):
        for place in range(0, len(given), size):
            process.stdin.write(given[place : place + size])
            while is_unread(process.stdin) and process.poll() is None:
                os.sched_yield()


def is_unread(pipe: IO[bytes]) -> bool:
    return any(fcntl.ioctl(pipe, termios.FIONREAD, bytes(4)))


COUNTED = 250
COMMITTED: list[Part] = [["done"] * COUNTED, "committed 1"]
# By name a command, what it is given, what it writes of it, and the size of the pieces.
PIECES: dict[str, tuple[str, str, list[Part], int]] = {
    "solo-reads-pieces-of-7-bytes": (
        "solo",
        script_of(["up 1 1"] * COUNTED) * 8,
        [[["done"] * COUNTED, f"committed {n}"] for n in range(1, 9)],
        7,
    ),
    "solo-reads-single-bytes": ("solo", script_of(["up 1 1"] * COUNTED), COMMITTED, 1),
    "run-reads-single-bytes": (
        "run",
        script_of(["up 1 1"] * COUNTED),
        ["client 0 script 1", COMMITTED, f"counter 1 {COUNTED}"],
        1,
    ),
    "steps-reads-single-bytes": (
        "steps",
        text("begin", ["whole 1 up 1 1"] * COUNTED, "commit 1"),
        ["begun 1", ["done done"] * COUNTED, "committed 1", f"counter 1 {COUNTED}", "depth 0"],
        1,
    ),
    "check-reads-single-bytes": (
        "check",
        text("begin 1", ["op 1 up 1 1 done"] * COUNTED, "commit 1 1"),
        ["serial 1", f"counter 1 {COUNTED}"],
        1,
    ),
}


@each(PIECES, seconds=0.5)
def input_in_small_pieces(mltx: Program, case: tuple[str, str, list[Part], int]) -> None:
    """More than 1,000 reads, each of which gives little."""
    command, given, told, size = case
    with mltx.started(command, "-", bufsize=0) as process:
        write_in_pieces(process, given.encode(), size)
        expect(process.end(), out=text(told), what=f"{len(given) // size} pieces")


@test(seconds=1)
def a_session_of_five_thousand_lines_one_at_a_time(mltx: Program) -> None:
    """Each line is sent once the one before was answered, so that the session reads so many times."""
    with mltx.serve() as server, server.connect() as peer:
        same(peer.ask("begin"), "begun 1", "begin")
        for t in range(1, 11):
            for n in range(500):
                same(peer.ask("up 7 1"), "done", f"up {n} of transaction {t}")
            same(peer.ask("commit"), f"committed {t}", "commit")
            same(peer.ask("begin"), f"begun {t + 1}", "begin")
        same(peer.ask("read 7"), "is 5000", "read")


@test(seconds=1)
def three_thousand_transactions_of_sessions(mltx: Program) -> None:
    """Each transaction has its outcome: thousands in one session, and hundreds in one session after the other."""
    many, sessions, trace = 3000, 200, mltx.folder / "trace"
    said = "begin\nup 7 1\ncommit\n"
    with mltx.serve("--sessions", 1, "--trace", trace, limit=1 + sessions) as server:
        told = [f"begun {t}\ndone\ncommitted {t}\n" for t in range(1, many + sessions + 1)]
        same(server.talk(said * many).decode(), "".join(told[:many]), f"{many} transactions of a session")
        for t in range(many, many + sessions):
            same(server.talk(said).decode(), told[t], f"session {t - many + 2}")
        expect(server.end(), out=f"served {1 + sessions}\n")
    serial = "".join(f"serial {t}\n" for t in range(1, many + sessions + 1))
    expect(mltx.check(trace), out=f"{serial}counter 7 {many + sessions}\n", what="the check of the trace")


# A long life.


@test(seconds=8)
def a_million_items_of_history(mltx: Program) -> None:
    """A million operations of one manager, each with a lock and an item of history; its trace is compared whole."""
    scripts, ops = 3_900, 255
    ups = ["up 1 1"] * ops
    told = text(*(line for t in range(1, scripts + 1) for line in (["done"] * ops, f"committed {t}")))
    expect(mltx.run("solo", "--trace", "trace", "-", given=text("begin", ups, "commit") * scripts), out=told)
    items = ((f"begin {t}", [f"op {t} up 1 1 done"] * ops, f"commit {t} {t}") for t in range(1, scripts + 1))
    wanted = "".join(text(*parts) for parts in items).encode()
    found = (mltx.folder / "trace").read_bytes()
    holds(found == wanted, f"the trace has {len(found)} bytes, and {len(wanted)} are wanted, of a million lines")


@test(seconds=4)
def three_hundred_thousand_transactions(mltx: Program) -> None:
    """As many begin and end, most with nothing done, and the last one works as the first did."""
    count = 300_000
    given = text("begin", "abort") * (count - 1) + script_of("up 1 1")
    told = text(["aborted"] * (count - 1), "done", "committed 1")
    expect(mltx.run("solo", "--trace", "trace", "-", given=given), out=told)
    expect(mltx.run("check", "trace"), out=text(f"serial {count}", "counter 1 1"))
