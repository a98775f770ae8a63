"""Traces of any length: `check --long` says of each trace what `check` says, and goes on past 16,777,216 bytes.

The texts are cut at each place between two writes into a pipe, and given a byte at a time. A program that loses a line that
two reads share, takes it twice, takes its part for a line, or keeps what was written back until the end, fails here."""
import fcntl
import os
import time
from collections.abc import Iterable, Iterator
from contextlib import suppress

import model
from harness import Program, Ran, each, expect, holds, lines, same, test

# A trace in which each form stands, with a CR before an LF, and its lines in another order of commits.
ALL_FORMS = lines(
    "begin 1|begin 2|op 2 open 1 opened|op 2 deposit 1 7 done|commit 2 1|op 1 balance 1 is 7|op 1 up 7 3 done|back 1|back 1"
    "|abort 1"
    "|begin 4|  op 4 add 1 5 added\r|commit 4 2|begin 9|op 9 deposit 1 1 done"
).encode()
FAULTY = {
    "a-word-behind-commits": (ALL_FORMS + b"start 10\nbegin 11\n", "line 16 Words", "serial 2|serial 4"),
    "a-place-before-a-commit": (b"begin 2\nbegin 1\ncommit 2 1\n", "line 2 Place", ""),
    "words-before-a-false-reply": (b"begin 1\ncommit 1 1\nbegin 2\nop 2 size 1 is 1\nup 1\n", "line 5 Words", "serial 1"),
    "a-false-reply": (b"begin 1\ncommit 1 1\nbegin 2\nop 2 size 1 is 1\ncommit 2 2\nup\n", "line 4 Reply", "serial 1"),
    "a-last-line-that-is-cut": (b"begin 1\ncommit 1 1\nbegin 2", "line 3 Cut", "serial 1"),
    "a-cr-that-is-cut": (b"begin 1\ncommit 1 1\nbegin 2\r", "line 3 Line", "serial 1"),
    "201-bytes-that-are-cut": (b"begin 1\ncommit 1 1\n" + b" " * 201, "line 3 Line", "serial 1"),
    "200-bytes-that-are-cut": (b"begin 1\ncommit 1 1\n" + b" " * 200, "line 3 Cut", "serial 1"),
    "a-line-of-many-bytes": (b"begin 1\ncommit 1 1\n" + b"x" * 1_000_000, "line 3 Line", "serial 1"),
    "a-byte-that-is-not-allowed": (b"begin 1\ncommit 1 1\nbe\0gin 2\n", "line 3 Line", "serial 1"),
    "an-empty-line": (b"begin 1\n\n", "line 2 Words", ""),
}


def fed(mltx: Program, parts: Iterable[bytes], pause: float) -> Ran:
    """What `check --long -` comes to, where each part is a write of its own into a pipe."""
    with mltx.started("check", "--long", "-", bufsize=0) as process:
        with suppress(BrokenPipeError):
            for part in parts:
                process.stdin.write(part)
                time.sleep(pause)
        return process.end()


@test
def long_and_short_say_the_same(mltx: Program) -> None:
    for trace in (b"", ALL_FORMS, lines("begin 1|op 1 up 7 2 done|commit 1 1").encode()):
        expect(mltx.run("check", "--long", "-", given=trace), out=model.check(trace), what="check --long")
        same(mltx.run("check", "--long", mltx.file("a.trace", trace)), mltx.run("check", "-", given=trace), "both")


@each(FAULTY)
def faults_of_long_traces(mltx: Program, case: tuple[bytes, str, str]) -> None:
    """The fault is that of `check`; the commits before it were written."""
    trace, fault, said = case
    err = f"mltx: 11 TraceFault {fault}\n"
    expect(mltx.run("check", "-", given=trace), status=1, err=err, what="check")
    expect(mltx.run("check", "--long", "-", given=trace), status=1, out=lines(said), err=err, what="check --long")


@test(seconds=4)
def long_traces_that_are_cut_at_each_place(mltx: Program) -> None:
    """Two writes, of which the first ends anywhere."""
    for at in range(len(ALL_FORMS) + 1):
        ran = fed(mltx, [ALL_FORMS[:at], ALL_FORMS[at:]], pause=0.005)
        expect(ran, out=model.check(ALL_FORMS), what=f"cut behind {at} bytes")


@test(seconds=2)
def long_traces_byte_by_byte(mltx: Program) -> None:
    expect(fed(mltx, [bytes([byte]) for byte in ALL_FORMS], pause=0.001), out=model.check(ALL_FORMS))
    trace, fault, said = FAULTY["a-false-reply"]
    ran = fed(mltx, [bytes([byte]) for byte in trace], pause=0.001)
    expect(ran, status=1, out=lines(said), err=f"mltx: 11 TraceFault {fault}\n")


@test(seconds=1)
def a_trace_of_80_000_reads(mltx: Program) -> None:
    """Each byte is a packet of the pipe, so that a read brings one byte. No contract says that reads may be as many."""
    trace = b"".join(b"begin %d\ncommit %d %d\n" % (t, t, t) for t in range(1, 3_001))
    with mltx.started("check", "--long", "-", bufsize=0) as process:
        fcntl.fcntl(process.stdin, fcntl.F_SETFL, os.O_DIRECT)
        for byte in trace:
            process.stdin.write(bytes([byte]))
        expect(process.end(), out=model.check(trace))


@test
def commits_are_told_while_the_trace_goes_on(mltx: Program) -> None:
    """The line of a commit comes before the input ends."""
    with mltx.started("check", "--long", "-", bufsize=0) as process:
        process.stdin.write(b"begin 3\ncommit 3 1\nbegi")
        same(process.stdout.read(100), b"serial 3\n")
        process.stdin.write(b"n 4\nop 4 up 7 2 done\ncommit 4 2\n")
        same(process.stdout.read(100), b"serial 4\n")
        expect(process.end(), out="counter 7 2\n")


def long_trace(count: int) -> Iterator[bytes]:
    """A trace of so many transactions on a few objects, in order."""
    yield b"begin 1\nop 1 open 1 opened\ncommit 1 1\n"
    for t in range(2, count + 1):
        yield b"begin %d\nop %d deposit 1 1 done\nop %d up %d 3 done\ncommit %d %d\n" % (t, t, t, t % 7, t, t)


@test(seconds=8)
def traces_above_the_limit(mltx: Program) -> None:
    """Refused without `--long`, with no text, and accepted with it; a fault behind the limit has its line."""
    count = 260_000
    trace = b"".join(long_trace(count))
    holds(len(trace) > 16_777_216, "the trace is too short for the test")
    file = mltx.file("long.trace", trace)
    expect(mltx.run("check", file), status=1, err="mltx: 13 Io\n")
    ran = mltx.run("check", "--long", file)
    counters = "".join(f"counter {c} {3 * len([t for t in range(2, count + 1) if t % 7 == c])}\n" for c in range(7))
    base = f"account 1 {count - 1}\n{counters}".encode()
    same((ran.status, ran.err), (0, b""))
    same(ran.out, b"".join(b"serial %d\n" % t for t in range(1, count + 1)) + base)
    faulty = mltx.file("faulty.trace", trace + b"commit 1 1\n")
    ran = mltx.run("check", "--long", faulty)
    same((ran.status, ran.err), (1, f"mltx: 11 TraceFault line {4 * count} Place\n".encode()))
    same(ran.out, b"".join(b"serial %d\n" % t for t in range(1, count + 1)))
