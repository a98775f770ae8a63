"""The worked rows of `solo`, `run` and `check`: scripts and traces, with all that is written of them."""
import dataclasses
import re

from harness import ROOT, Program, Text, each, expect, lines, same, test

HASHES = ((), ("--hash", "mult"), ("--hash", "low"))

# Accounts whose low pseudokeys agree in all of their bits, and one that does so in all but the 16th.
APART = (*range(0, 8 * 65536, 65536), 1)


@dataclasses.dataclass(frozen=True)
class Solo:
    """Scripts as `solo` runs them: what is written, the trace, and what `check` says of it."""

    text: Text
    output: str
    trace: str = ""
    checked: str = ""


SOLO = {
    "first-run": Solo(
        lines("begin|open 1|deposit 1 50|balance 1|commit"),
        lines("opened|done|is 50|committed 1"),
        lines("begin 1|op 1 open 1 opened|op 1 deposit 1 50 done|op 1 balance 1 is 50|commit 1 1"),
        lines("serial 1|account 1 50"),
    ),
    "empty-script": Solo("", ""),
    "amount-over-limit": Solo(
        lines("begin|open 1|deposit 1 18446744073709551615|commit"),
        lines("opened|over|committed 1"),
        lines("begin 1|op 1 open 1 opened|op 1 deposit 1 18446744073709551615 over|commit 1 1"),
        lines("serial 1|account 1 0"),
    ),
    "if-else-script": Solo(
        lines("begin|open 1|deposit 1 9|let v = balance 1|if withdraw 1 v is done|close 1|else|balance 1|end|commit"),
        lines("opened|done|is 9|done|closed|committed 1"),
        lines(
            "begin 1|op 1 open 1 opened|op 1 deposit 1 9 done|op 1 balance 1 is 9|op 1 withdraw 1 9 done"
            "|op 1 close 1 closed|commit 1 1"
        ),
        lines("serial 1"),
    ),
    "nine-accounts": Solo(
        lines("begin|" + "|".join(f"open {number}" for number in range(9)) + "|commit|begin|balance 0|commit"),
        lines("opened|" * 9 + "committed 1|is 0|committed 2"),
        lines(
            "begin 1|" + "|".join(f"op 1 open {number} opened" for number in range(9))
            + "|commit 1 1|begin 2|op 2 balance 0 is 0|commit 2 2"
        ),
        lines("serial 1|serial 2|" + "|".join(f"account {number} 0" for number in range(9))),
    ),
    # By `low` eight of the keys are one, and the ninth is apart from them at the 16th bit alone.
    "sixteen-splits-in-a-script": Solo(
        lines("begin|" + "|".join(f"open {account}" for account in APART) + "|commit"),
        lines("opened|" * 9 + "committed 1"),
        lines("begin 1|" + "|".join(f"op 1 open {account} opened" for account in APART) + "|commit 1 1"),
        lines("serial 1|" + "|".join(f"account {account} 0" for account in sorted(APART))),
    ),
    "aborted-open": Solo(
        lines("begin|open 1|abort|begin|open 1|commit"),
        lines("opened|aborted|opened|committed 1"),
        lines("begin 1|op 1 open 1 opened|back 1|abort 1|begin 2|op 2 open 1 opened|commit 2 1"),
        lines("serial 2|account 1 0"),
    ),
    "need-without-last-line-feed": Solo(
        "begin\nneed read 7 is 1\ncommit",
        lines("is 0|aborted"),
        lines("begin 1|op 1 read 7 is 0|back 1|abort 1"),
    ),
    "any-byte-in-a-comment": Solo(
        b"begin\n#\xff\x00\r\x1f\n \t# \xfe\nup 7 1\ncommit\n",
        lines("done|committed 1"),
        lines("begin 1|op 1 up 7 1 done|commit 1 1"),
        lines("serial 1|counter 7 1"),
    ),
    # A script that commits without an operation has its number, and one that aborts leaves two lines.
    "scripts-without-operations": Solo(
        lines("begin|commit|begin 999|abort|begin 0|commit"),
        lines("committed 1|aborted|committed 2"),
        lines("begin 1|commit 1 1|begin 2|abort 2|begin 3|commit 3 2"),
        lines("serial 1|serial 3"),
    ),
    # The text's order counts here, whatever the clients.
    "solo-keeps-the-order-of-the-text": Solo(
        lines("begin 2|up 7 1|commit|begin 1|read 7|commit|begin 2|read 7|abort"),
        lines("done|committed 1|is 1|committed 2|is 1|aborted"),
        lines(
            "begin 1|op 1 up 7 1 done|commit 1 1|begin 2|op 2 read 7 is 1|commit 2 2|begin 3|op 3 read 7 is 1|back 3"
            "|abort 3"
        ),
        lines("serial 1|serial 2|counter 7 1"),
    ),
    # Spaces, tabs, leading zeros and a CR before the LF may stand; what is written has none of them.
    "words-parted-anyhow": Solo(
        "\r\n \t\r\nbegin \t 007\r\n\t open  00000000000000000001\r\n deposit\t1 \t 0050 \n\n# done\r\ncommit\t\r\n",
        lines("opened|done|committed 1"),
        lines("begin 1|op 1 open 1 opened|op 1 deposit 1 50 done|commit 1 1"),
        lines("serial 1|account 1 50"),
    ),
    # The same of each word of a line that else is as it is printed.
    "words-just-off-the-plain-form": Solo(
        lines(
            "begin|deposit  1 2|deposit 1  2|deposit\t1 2|deposit 1\t2| deposit 1 2|deposit 1 2 |deposit 1 2\t|deposit 1 2\r"
            "|deposit 01 002|has 00003 00000000000000000004|up 1 0000000000000000019|up 1 00000000000000000019"
            "|up 1 10000000000000000000|size  007|let v = size 00000000000000000007|commit"
        ),
        lines("missing|" * 9 + "no|" + "done|" * 3 + "is 0|is 0|committed 1"),
        lines(
            "begin 1|" + "op 1 deposit 1 2 missing|" * 9 + "op 1 has 3 4 no|op 1 up 1 19 done|op 1 up 1 19 done"
            "|op 1 up 1 10000000000000000000 done|op 1 size 7 is 0|op 1 size 7 is 0|commit 1 1"
        ),
        lines("serial 1|counter 1 10000000000000000038"),
    ),
    # The greatest numbers of each place.
    "greatest-numbers": Solo(
        lines("begin 999|open 4294967295|add 65535 4294967295|up 4294967295 18446744073709551615|read 4294967295|commit"),
        lines("opened|added|done|is 18446744073709551615|committed 1"),
        lines(
            "begin 1|op 1 open 4294967295 opened|op 1 add 65535 4294967295 added"
            "|op 1 up 4294967295 18446744073709551615 done|op 1 read 4294967295 is 18446744073709551615|commit 1 1"
        ),
        lines("serial 1|account 4294967295 0|element 65535 4294967295|counter 4294967295 18446744073709551615"),
    ),
    # A variable is 0 until it is set, is 0 where the account is missing, and is of its script alone.
    "variables-of-a-script": Solo(
        lines(
            "begin|open 1|deposit 1 v|let v = balance 2|need balance 1 is v|deposit 1 7|let v = balance 1|up 3 v"
            "|let z = read 3|down 3 z|need balance 1 is z|commit|begin|withdraw 1 v|need balance 1 is 7|abort"
        ),
        lines("opened|done|missing|is 0|done|is 7|done|is 7|done|is 7|committed 1|done|is 7|aborted"),
        lines(
            "begin 1|op 1 open 1 opened|op 1 deposit 1 0 done|op 1 balance 2 missing|op 1 balance 1 is 0"
            "|op 1 deposit 1 7 done|op 1 balance 1 is 7|op 1 up 3 7 done|op 1 read 3 is 7|op 1 down 3 7 done"
            "|op 1 balance 1 is 7|commit 1 1|begin 2|op 2 withdraw 1 0 done|op 2 balance 1 is 7|back 2|back 2|abort 2"
        ),
        lines("serial 1|account 1 7"),
    ),
    # Each operation with each of its replies.
    "each-reply": Solo(
        lines(
            "begin|close 1|deposit 1 1|withdraw 1 1|balance 1|open 1|open 1|withdraw 1 1|deposit 1 1000000000000000000"
            "|deposit 1 1|close 1|withdraw 1 1000000000000000000|close 1|remove 2 3|has 2 3|add 2 3|add 2 3|has 2 3"
            "|remove 2 3|down 4 1|up 4 2|read 4|commit"
        ),
        lines(
            "missing|missing|missing|missing|opened|exists|short|done|over|notempty|done|closed|absent|no|added|present"
            "|yes|removed|done|done|is 1|committed 1"
        ),
        lines(
            "begin 1|op 1 close 1 missing|op 1 deposit 1 1 missing|op 1 withdraw 1 1 missing|op 1 balance 1 missing"
            "|op 1 open 1 opened|op 1 open 1 exists|op 1 withdraw 1 1 short|op 1 deposit 1 1000000000000000000 done"
            "|op 1 deposit 1 1 over|op 1 close 1 notempty|op 1 withdraw 1 1000000000000000000 done|op 1 close 1 closed"
            "|op 1 remove 2 3 absent|op 1 has 2 3 no|op 1 add 2 3 added|op 1 add 2 3 present|op 1 has 2 3 yes"
            "|op 1 remove 2 3 removed|op 1 down 4 1 done|op 1 up 4 2 done|op 1 read 4 is 1|commit 1 1"
        ),
        lines("serial 1|counter 4 1"),
    ),
    "if-takes-the-second-part": Solo(
        lines("begin|let v = balance 1|if withdraw 1 v is done|close 1|else|balance 1|end|need up 7 v is done|abort"),
        lines("missing|missing|missing|done|aborted"),
        lines(
            "begin 1|op 1 balance 1 missing|op 1 withdraw 1 0 missing|op 1 balance 1 missing|op 1 up 7 0 done"
            "|back 1|back 1|back 1|back 1|abort 1"
        ),
    ),
    "scripts-run-in-order": Solo(
        lines(
            "begin|open 1|need deposit 1 5 is done|commit|begin|need withdraw 1 9 is done|close 1|commit"
            "|begin|balance 1|abort"
        ),
        lines("opened|done|committed 1|short|aborted|is 5|aborted"),
        lines(
            "begin 1|op 1 open 1 opened|op 1 deposit 1 5 done|commit 1 1|begin 2|op 2 withdraw 1 9 short|back 2|abort 2"
            "|begin 3|op 3 balance 1 is 5|back 3|abort 3"
        ),
        lines("serial 1|account 1 5"),
    ),
    "aborted-script-leaves-nothing": Solo(
        lines("begin|open 1|open 2|abort|begin|open 2|commit"),
        lines("opened|opened|aborted|opened|committed 1"),
        lines("begin 1|op 1 open 1 opened|op 1 open 2 opened|back 1|back 1|abort 1|begin 2|op 2 open 2 opened|commit 2 1"),
        lines("serial 2|account 2 0"),
    ),
    # A reply that the operation can't give is never met.
    "reply-that-never-comes": Solo(
        lines("begin|if open 1 is yes|up 7 1|else|up 7 2|end|commit|begin|need read 7 is absent|commit"),
        lines("opened|done|committed 1|is 2|aborted"),
        lines("begin 1|op 1 open 1 opened|op 1 up 7 2 done|commit 1 1|begin 2|op 2 read 7 is 2|back 2|abort 2"),
        lines("serial 1|account 1 0|counter 7 2"),
    ),
}


@each(SOLO)
def solo(mltx: Program, row: Solo) -> None:
    """All that is written is as the row says, from a file and from standard input, by each hash function."""
    file, trace = mltx.file("scripts.txt", row.text), mltx.folder / "solo.trace"
    for options in HASHES:
        what = f"solo {' '.join(options)}"
        expect(mltx.run("solo", *options, file), out=row.output, what=f"{what} FILE")
        expect(mltx.run("solo", *options, "-", given=row.text), out=row.output, what=f"{what} -")
        expect(mltx.run("solo", "--trace", trace, *options, file), out=row.output, what=f"{what} --trace TRACE FILE")
        same(trace.read_text(), row.trace, f"the trace of {what}")
    expect(mltx.run(given=row.text), out=row.output, what="no words")
    expect(mltx.check(trace), out=row.checked, what="check")


# Texts, each with the line and the cause of its fault.
FAULTY: dict[str, list[tuple[Text, int, str]]] = {
    "script-faults": [
        ("open 1\n", 1, "Place"),
        ("begin\ndeposit 1\ncommit\n", 2, "Words"),
        ("begin\nif has 4 9 is yes\n", 2, "Unfinished"),
    ],
    "line-limits": [
        ("begin" + " " * 195 + "\n", 1, "Unfinished"),
        ("begin" + " " * 196 + "\n", 1, "Line"),
        (b"open \xff\n", 1, "Line"),
    ],
}


@each(FAULTY)
def faulty(mltx: Program, row: list[tuple[Text, int, str]]) -> None:
    """What `solo` says of the rows' faulty texts. The lawful ones are in `SOLO`."""
    for text, line, cause in row:
        fault = f"mltx: 10 ScriptFault line {line} {cause}\n"
        expect(mltx.run("solo", "-", given=text), status=1, err=fault, what=f"solo of {text[-20:]!r}")


@dataclasses.dataclass(frozen=True)
class Run:
    """Scripts as `run` runs them, by any number of workers, where one client alone has scripts that meet."""

    text: Text
    output: str
    trace: str | None = ""
    workers: tuple[int, ...] = (1, 2, 8)


RUN = {
    "later-script-sees-commit": Run(
        lines("begin|up 7 1|commit|begin|need read 7 is 1|commit"),
        lines("client 0 script 1|done|committed 1|client 0 script 2|is 1|committed 2|counter 7 1"),
        lines("begin 1|op 1 up 7 1 done|commit 1 1|begin 2|op 2 read 7 is 1|commit 2 2"),
    ),
    "sixteen-splits-in-a-run": Run(
        SOLO["sixteen-splits-in-a-script"].text,
        lines(
            "client 0 script 1|" + "opened|" * 9 + "committed 1|"
            + "|".join(f"account {account} 0" for account in sorted(APART))
        ),
        SOLO["sixteen-splits-in-a-script"].trace,
    ),
    "run-of-no-scripts": Run("", ""),
    "run-of-a-script-that-aborts": Run(
        lines("begin 5|open 1|need balance 1 is 1|deposit 1 1|commit|begin 5|has 4 9|abort"),
        lines("client 5 script 1|opened|is 0|aborted|client 5 script 2|no|aborted"),
        lines(
            "begin 1|op 1 open 1 opened|op 1 balance 1 is 0|back 1|back 1|abort 1|begin 2|op 2 has 4 9 no|back 2"
            "|abort 2"
        ),
    ),
    # A script of another client that aborts at once takes no number of a commit.
    "clients-by-rising-number": Run(
        lines("begin 30|abort|begin 4|up 7 1|commit|begin 30|abort|begin 4|read 7|commit|begin|abort"),
        lines(
            "client 0 script 1|aborted|client 4 script 1|done|committed 1|client 4 script 2|is 1|committed 2"
            "|client 30 script 1|aborted|client 30 script 2|aborted|counter 7 1"
        ),
        None,
    ),
    # By one worker the clients run in turn, by rising number.
    "one-worker-runs-the-clients-in-turn": Run(
        lines("begin 2|up 7 2|commit|begin 1|read 7|commit|begin 2|read 7|commit"),
        lines(
            "client 1 script 1|is 0|committed 1|client 2 script 1|done|committed 2|client 2 script 2|is 2|committed 3"
            "|counter 7 2"
        ),
        lines(
            "begin 1|op 1 read 7 is 0|commit 1 1|begin 2|op 2 up 7 2 done|commit 2 2|begin 3|op 3 read 7 is 2"
            "|commit 3 3"
        ),
        (1,),
    ),
}


@each(RUN)
def run(mltx: Program, row: Run) -> None:
    """All that is written is as the row says, whatever the workers and the hash function, and so is the trace."""
    file, trace = mltx.file("scripts.txt", row.text), mltx.folder / "run.trace"
    for workers in row.workers:
        for options in (*HASHES, ("--tries", "1")):
            words = ["run", "--workers", workers, *options]
            expect(mltx.run(*words, "--trace", trace, file), out=row.output, what=f"{words} FILE")
            if row.trace is not None:
                same(trace.read_text(), row.trace, f"the trace of {words}")
            expect(mltx.run(*words, "-", given=row.text), out=row.output, what=f"{words} -")
    if 8 in row.workers:
        expect(mltx.run("run", file), out=row.output, what="run FILE")


@test
def two_clients_commit_in_either_order(mltx: Program) -> None:
    """Which of two clients commits first is free, and the trace tells the same as the output."""
    text, trace = lines("begin 1|open 1|commit|begin 2|up 7 1|commit"), mltx.folder / "run.trace"
    for workers in (1, 2, 8):
        ran = mltx.run("run", "--workers", workers, "--trace", trace, "-", given=text)
        first = 1 if b"opened\ncommitted 1\n" in ran.out else 2
        told = f"client 1 script 1|opened|committed {first}|client 2 script 1|done|committed {3 - first}"
        expect(ran, out=lines(f"{told}|account 1 0|counter 7 1"), what=f"{workers} workers")
        opened = "opened" in trace.read_text().split("commit")[0]
        same(opened, first == 1, f"whether client 1 is first in {trace.read_text()!r}")
        same(mltx.check(trace).out.splitlines()[2:], [b"account 1 0", b"counter 7 1"], "the base that check writes")


CHECK = {
    "check-two-serials": (
        "begin 1|begin 2|op 2 open 1 opened|op 2 deposit 1 7 done|commit 2 1|op 1 balance 1 is 7|commit 1 2",
        "serial 2|serial 1|account 1 7",
    ),
    "check-of-an-empty-trace": ("", ""),
    # Who is open at the end is left out, with all that it did.
    "check-leaves-out-who-is-open": (
        "begin 1|op 1 open 1 opened|begin 2|op 2 up 7 1 done|commit 2 1|op 1 deposit 1 5 done|back 1",
        "serial 2|counter 7 1",
    ),
    # Numbers rise, and need not follow each other.
    "check-of-numbers-with-gaps": (
        "begin 3|begin 18446744073709551615|commit 18446744073709551615 1|abort 3",
        "serial 18446744073709551615",
    ),
    "check-of-words-parted-anyhow": (
        " begin\t1 \r|op 01  open 00000000001  opened\t|\top 1 deposit 1 07 done\r|op 1 balance 1 is  07|commit 1 01\r",
        "serial 1|account 1 7",
    ),
    # A reply that the operation can't give is lawful in a line, where the transaction does not commit.
    "check-of-an-odd-reply-that-is-taken-back": (
        "begin 1|op 1 open 1 yes|op 1 read 7 closed|back 1|back 1|abort 1|begin 2|op 2 up 7 1 short",
        "",
    ),
    "check-of-a-reply-that-is-true-at-the-commit": (
        "begin 1|begin 2|op 1 read 1 is 1|op 2 up 1 1 done|commit 2 1|commit 1 2", "serial 2|serial 1|counter 1 1",
    ),
    "check-of-each-kind": (
        "begin 4|op 4 up 9 2 done|op 4 add 3 8 added|op 4 open 5 opened|commit 4 1|begin 6|op 6 up 9 1 done",
        "serial 4|account 5 0|element 3 8|counter 9 2",
    ),
    # What was told side by side is judged in the order of the commits.
    "check-goes-by-the-order-of-commits": (
        "begin 1|begin 2|op 1 read 7 is 0|op 2 up 7 1 done|commit 1 1|commit 2 2|begin 3|op 3 read 7 is 1|commit 3 3",
        "serial 1|serial 2|serial 3|counter 7 1",
    ),
    "check-of-more-transactions-than-may-be-open": (
        "|".join(
            [f"begin {number}" for number in range(1, 101)]
            + [f"commit {number} {101 - number}" for number in range(100, 0, -1)]
        ),
        "|".join(f"serial {number}" for number in range(100, 0, -1)),
    ),
    "check-of-each-reply": (SOLO["each-reply"].trace.strip().replace("\n", "|"), "serial 1|counter 4 1"),
}


@each(CHECK)
def check(mltx: Program, row: tuple[str, str]) -> None:
    """The serial order and the base, of a file and of standard input."""
    text, wanted = map(lines, row)
    expect(mltx.run("check", mltx.file("some.trace", text)), out=wanted, what="check FILE")
    expect(mltx.run("check", "-", given=text), out=wanted, what="check -")


@test
def check_of_a_trace_cut_at_any_byte(mltx: Program) -> None:
    """At the end of a line it is a shorter trace, and else the line is cut, wherever the cut is."""
    text = lines(CHECK["check-two-serials"][0])
    wanted = [""] * 5 + [lines("serial 2|account 1 7")] * 2 + [lines("serial 2|serial 1|account 1 7")]
    for end in range(len(text) + 1):
        begun = text[:end]
        whole = begun.count("\n")
        if begun.endswith("\n") or not begun:
            expect(mltx.check(begun), out=wanted[whole], what=f"{begun!r}")
        else:
            expect(mltx.check(begun), status=1, err=f"mltx: 11 TraceFault line {whole + 1} Cut\n", what=f"{begun!r}")


# How each example is run that is no list of scripts for `solo`.
EXAMPLES = {
    "two-clients.txt": ("run", "--workers", "1"),
    "side-by-side.txt": ("run", "--workers", "1"),
    "wait-for-a-page.txt": ("steps",),
    "block-by-reply.txt": ("steps",),
    "size-of-a-set.txt": ("steps",),
    "abort-under-later-deposit.txt": ("steps",),
    "split-beside-a-reader.txt": ("steps", "--hash", "low"),
    "abort-under-deposit.trace": ("check",),
}
# What they print.
OUTPUTS = {
    "two-clients.txt": "client 4 script 1|done|committed 1|client 7 script 1|done|committed 2|counter 301 70",
    "side-by-side.txt": (
        "client 4 script 1|opened|done|done|committed 1|client 4 script 2|done|opened|done|done|committed 2|"
        "client 5 script 1|opened|done|done|committed 3|client 5 script 2|done|exists|done|done|committed 4|"
        "client 6 script 1|opened|done|done|committed 5|client 6 script 2|done|exists|done|done|committed 6|"
        "account 101 70|account 102 70|account 103 70|account 109 90|counter 301 6"
    ),
    "wait-for-a-page.txt": (
        "begun 1|done opened|committed 1|begun 2|called|going|going|going|begun 3|called|going|going|waiting by 2|done done|"
        "going|done done|committed 2|committed 3|account 101 120|depth 0"
    ),
    "block-by-reply.txt": (
        "begun 1|done opened|done done|committed 1|begun 2|done done|begun 3|called|going|going|going|blocked by 2|cancelled|"
        "done done|aborting|aborted|called|going|going|going|done done|committed 2|account 101 0|depth 0"
    ),
    "size-of-a-set.txt": (
        "begun 1|done added|committed 1|begun 2|done yes|begun 3|done is 1|blocked by 3|committed 2|done added|begun 4|called|"
        "going|going|going|blocked by 2|committed 3|going|going|going|done is 2|committed 4|element 201 21|element 201 22|depth 0"
    ),
    "abort-under-later-deposit.txt": (
        "begun 1|done opened|committed 1|begun 2|done done|begun 3|done done|aborting|going|going|going|aborted|committed 2|"
        "account 101 70|depth 0"
    ),
    "split-beside-a-reader.txt": (
        "begun 1|" + "done opened|" * 17 + "committed 1|begun 2|called|going|going|begun 3|called|" + "going|" * 10
        + "done opened|going|done missing|committed 2|committed 3|"
        + "".join(f"account {it} 0|" for it in (*range(9), *range(1024, 1032)))
        + "account 1536 0|depth 13"
    ),
    "abort-under-deposit.trace": "serial 3|serial 5|account 101 70",
}
# Scripts of the examples, with their output: by the tables of replies.
SCRIPTS = {
    "first-run.txt": "opened|done|is 500|committed 1",
    "transfer.txt": "opened|opened|done|committed 1|done|done|committed 2|short|aborted|is 70|is 30|aborted",
    "conditional-close.txt": "opened|done|committed 1|is 70|done|closed|committed 2",
    "sets-and-counters.txt": "added|done|added|done|committed 1|present|aborted|yes|removed|done|is 1|is 1|committed 2",
}


@each({f"example-{name.split('.')[0]}": name for name in EXAMPLES})
def example(mltx: Program, name: str) -> None:
    expect(mltx.run(*EXAMPLES[name], ROOT / "examples" / name), out=lines(OUTPUTS[name]))


@each({f"example-{name.split('.')[0]}": name for name in SCRIPTS})
def example_script(mltx: Program, name: str) -> None:
    expect(mltx.run("solo", ROOT / "examples" / name), out=lines(SCRIPTS[name]))


@test
def example_of_a_false_reply(mltx: Program) -> None:
    """The line is that of the operation, and not that of the commit at which the check finds it."""
    fault = "mltx: 11 TraceFault line 4 Reply\n"
    expect(mltx.run("check", ROOT / "examples" / "false-reply.trace"), status=1, err=fault)


@test
def each_example_is_run(mltx: Program) -> None:
    """Each file of the examples is run by a test, and their page says what it shows."""
    run_here = {*EXAMPLES, *SCRIPTS, "false-reply.trace", "move_money.py"}
    same({path.name for path in (ROOT / "examples").iterdir()}, {*run_here, "README.md"}, "the files of examples")
    told = re.findall(r"(?m)^(?:\| )?`([\w.-]+)`", (ROOT / "examples/README.md").read_text())
    same(sorted(told), sorted(run_here), "the files of the page")


@test
def example_of_side_by_side_by_more_workers(mltx: Program) -> None:
    """By more workers the numbers of commits may differ, and the base is the same."""
    base = "".join(lines(OUTPUTS["side-by-side.txt"]).splitlines(keepends=True)[-5:])
    for workers in (2, 4, 8):
        trace = mltx.folder / "side-by-side.trace"
        ran = mltx.run("run", "--workers", workers, "--trace", trace, ROOT / "examples" / "side-by-side.txt")
        same((ran.status, ran.err), (0, b""), f"{workers} workers")
        same(ran.out.decode()[-len(base) :], base, f"the base by {workers} workers")
        checked = mltx.accepted(trace).splitlines()
        same(sorted(checked[:6]), [f"serial {number}" for number in range(1, 7)], "the commits")
        same(checked[6:], base.splitlines(), "the base of the trace")
