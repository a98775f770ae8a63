"""Files, streams and statuses: what cannot be opened, read or written, and in which order faults are found."""
import errno
import os
import socket
from collections.abc import Iterator, Mapping
from contextlib import contextmanager

from harness import Program, each, expect, holds, lines, of_system, same, test

IO = "mltx: 13 Io\n"
SCRIPTS = lines("begin|open 1|deposit 1 50|commit")
TRACE = lines("begin 1|op 1 open 1 opened|op 1 deposit 1 50 done|commit 1 1")
# For each subcommand that runs transactions and ends by itself: a text, and all that is written. All leave one trace.
RUNS = {
    "solo": (SCRIPTS, lines("opened|done|committed 1")),
    "steps": (
        lines("begin|whole 1 open 1|whole 1 deposit 1 50|commit 1"),
        lines("begun 1|done opened|done done|committed 1|account 1 50|depth 0"),
    ),
    "run": (SCRIPTS, lines("client 0 script 1|opened|done|committed 1|account 1 50")),
}
CHECKED = lines("serial 1|account 1 50")
SUBCOMMANDS = RUNS | {"check": (TRACE, CHECKED)}
FAULTY = {
    "solo": ("begin\nopn\n", "mltx: 10 ScriptFault line 2 Words\n"),
    "steps": ("begin\nopn\n", "mltx: 10 ScriptFault line 2 Words\n"),
    "run": ("begin\nopn\n", "mltx: 10 ScriptFault line 2 Words\n"),
    "check": ("begin 1\nopn\n", "mltx: 11 TraceFault line 2 Words\n"),
}
SESSION = lines("begin|open 1|deposit 1 50|commit")
SESSION_TOLD = lines("begun 1|opened|done|committed 1").encode()


def named(prefix: str, table: Mapping[str, tuple[str, ...]]) -> dict[str, tuple[str, ...]]:
    return {f"{prefix}-{name}": (name, *case) for name, case in table.items()}


@contextmanager
def closed_pipe() -> Iterator[int]:
    """The end to write to of a pipe that nobody reads."""
    reader, writer = os.pipe()
    os.close(reader)
    try:
        yield writer
    finally:
        os.close(writer)


def bad_traces(mltx: Program) -> list[str]:
    """Names under which no trace can be written."""
    return ["missing/some.trace", str(mltx.folder), mltx.file("plain", "") + "/some.trace", "", "/dev/full"]


@each(named("trace-is-made-anew", RUNS))
def trace_is_made_anew(mltx: Program, case: tuple[str, ...]) -> None:
    """What stood in the file is gone, and what stands in it is the whole trace."""
    subcommand, text, told = case
    trace = mltx.file("some.trace", "x" * 100_000)
    for words in ((subcommand, mltx.file("text", text), "--trace", trace), (subcommand, "--trace", trace, "-")):
        expect(mltx.run(*words, given=text), out=told, what=f"{words}")
        with open(trace) as written:
            same(written.read(), TRACE, f"the trace of {words}")
        expect(mltx.run("check", trace), out=CHECKED, what="check")


@each(named("trace-that-cannot-be-written", RUNS))
def trace_that_cannot_be_written(mltx: Program, case: tuple[str, ...]) -> None:
    """All goes to standard output, and then the fault is told."""
    subcommand, text, told = case
    for trace in bad_traces(mltx):
        ran = mltx.run(subcommand, "--trace", trace, "-", given=text)
        expect(ran, status=1, out=told, err=IO, what=f"{subcommand} --trace {trace!r}")


@test
def trace_of_a_server_that_cannot_be_written(mltx: Program) -> None:
    """A file that can't be made is told before it listens; one that can't be written to is noted, and told at the end."""
    for trace in bad_traces(mltx):
        with mltx.serve("--trace", trace) as server:
            if trace != "/dev/full":
                expect(server.end(said=""), status=1, err=IO, what=f"serve --trace {trace!r}")
                continue
            same(server.talk(SESSION), SESSION_TOLD, f"serve --trace {trace!r}")
            note = f"could not write the trace, which ends here: {of_system(errno.ENOSPC)}"
            expect(server.end(), status=1, out="served 1\n", err=IO, notes=[note], what=f"serve --trace {trace!r}")


@test
def trace_of_a_server_is_made_anew(mltx: Program) -> None:
    trace = mltx.file("some.trace", "x" * 100_000)
    with mltx.serve("--trace", trace) as server:
        same(server.talk(SESSION), SESSION_TOLD)
        expect(server.end(), out="served 1\n")
    with open(trace) as written:
        same(written.read(), TRACE, "the trace of serve")


@each(named("output-that-cannot-be-written", SUBCOMMANDS))
def output_that_cannot_be_written(mltx: Program, case: tuple[str, ...]) -> None:
    """A full device and a pipe that nobody reads are faults, and no signal ends the program."""
    subcommand, text, _ = case
    file = mltx.file("text", text)
    expect(mltx.run(subcommand, file, redirect=">/dev/full"), status=1, err=IO, what=f"{subcommand} >/dev/full")
    with closed_pipe() as pipe:
        expect(mltx.run(subcommand, file, stdout=pipe), status=1, err=IO, what=f"{subcommand} into a closed pipe")


@test
def help_that_cannot_be_written(mltx: Program) -> None:
    for words in (("--help",), ("--version",), ("help",), ("help", "run"), ("solo", "--help"), ("serve", "-h")):
        expect(mltx.run(*words, redirect=">/dev/full"), status=1, err=IO, what=f"{words} >/dev/full")
        with closed_pipe() as pipe:
            expect(mltx.run(*words, stdout=pipe), status=1, err=IO, what=f"{words} into a closed pipe")


@test
def served_that_cannot_be_written(mltx: Program) -> None:
    with mltx.serve(redirect=">/dev/full") as server:
        same(server.talk(SESSION), SESSION_TOLD)
        expect(server.end(), status=1, err=IO, what="serve >/dev/full")


@test
def output_that_breaks_off(mltx: Program) -> None:
    """A reader that stops in the middle has got the first bytes of the text."""
    scripts = lines("begin 1|up 7 1|read 7|commit") * 20_000
    told = "".join(f"done\nis {number}\ncommitted {number}\n" for number in range(1, 20_001))
    with mltx.started("solo", mltx.file("scripts.txt", scripts)) as process:
        heard = process.stdout.read(10_000)
        process.stdout.close()
        ended = process.wait(), process.stderr.read()
    same(ended, (1, IO.encode()), "solo into a pipe that is closed after 10,000 bytes")
    same(heard, told.encode()[:10_000], "what was read before")


@each(named("file-that-cannot-be-read", SUBCOMMANDS))
def file_that_cannot_be_read(mltx: Program, case: tuple[str, ...]) -> None:
    """One that is not there, a folder, a name without letters; nothing is written, and no trace is made."""
    subcommand, text, _ = case
    plain, trace = mltx.file("plain", text), mltx.folder / "some.trace"
    for file in ("missing", mltx.folder, "", f"{plain}/text", "."):
        expect(mltx.run(subcommand, file, given=text), status=1, err=IO, what=f"{subcommand} {file!r}")
        if subcommand != "check":
            ran = mltx.run(subcommand, "--trace", trace, file, given=text)
            expect(ran, status=1, err=IO, what=f"{subcommand} --trace TRACE {file!r}")
            holds(not trace.exists(), f"{subcommand} {file!r} made a trace")


@each(named("standard-input-that-cannot-be-read", SUBCOMMANDS))
def standard_input_that_cannot_be_read(mltx: Program, case: tuple[str, ...]) -> None:
    subcommand = case[0]
    expect(mltx.run(subcommand, "-", redirect="<."), status=1, err=IO, what=f"{subcommand} - <.")


@test
def standard_input_without_words_that_cannot_be_read(mltx: Program) -> None:
    expect(mltx.run(redirect="<."), status=1, err=IO, what="no words <.")


@each(named("file-and-not-standard-input", SUBCOMMANDS))
def file_and_not_standard_input(mltx: Program, case: tuple[str, ...]) -> None:
    """FILE is read and standard input is not; with `-` it is the other way round, also where a file has that name."""
    subcommand, text, told = case
    faulty, fault = FAULTY[subcommand]
    file, other = mltx.file("text", text), mltx.file("-", text)
    expect(mltx.run(subcommand, file, given=faulty), out=told, what=f"{subcommand} FILE, with a faulty standard input")
    expect(mltx.run(subcommand, file, redirect="<&-"), out=told, what=f"{subcommand} FILE, without standard input")
    expect(mltx.run(subcommand, "-", given=faulty), status=1, err=fault, what=f"{subcommand} - of a faulty text")
    expect(mltx.run(subcommand, other, given=faulty), out=told, what=f"{subcommand} {other}")


EMPTY = {"solo": ("",), "steps": ("depth 0\n",), "run": ("",), "check": ("",)}


@each(named("empty-input-of", EMPTY))
def empty_input(mltx: Program, case: tuple[str, ...]) -> None:
    subcommand, told = case
    file, trace = mltx.file("empty", ""), mltx.folder / "some.trace"
    for words in ((subcommand, file), (subcommand, "-"), (subcommand, "/dev/null")):
        expect(mltx.run(*words), out=told, what=f"{words}")
        if subcommand != "check":
            expect(mltx.run(*words, "--trace", trace), out=told, what=f"{words} --trace")
            same(trace.read_bytes(), b"", "the trace")


NO_ADDRESSES = ["no address", "", "-", "127.0.0.1", "127.0.0.1:", "127.0.0.1:65536", "127.0.0.1:-1", ":0x50"]


@test
def address_that_cannot_be_listened_on(mltx: Program) -> None:
    """What is no address, and one in use; no trace is made."""
    trace = mltx.folder / "some.trace"
    with socket.socket() as used:
        used.bind(("127.0.0.1", 0))
        used.listen()
        in_use = "%s:%d" % used.getsockname()
        for address in (in_use, *NO_ADDRESSES):
            for options in ((), ("--trace", trace), ("--hash", "low")):
                expect(mltx.run("serve", *options, address), status=1, err=IO, what=f"serve {options} {address!r}")
    holds(not trace.exists(), "serve made a trace")


@each(named("fault-of-the-text-first", FAULTY))
def fault_of_the_text_first(mltx: Program, case: tuple[str, ...]) -> None:
    """The text's fault comes before those of standard output and of the trace, and the trace is left as it was."""
    subcommand, text, fault = case
    file, trace = mltx.file("faulty", text), mltx.file("some.trace", "as it was")
    expect(mltx.run(subcommand, file, redirect=">/dev/full"), status=1, err=fault, what=f"{subcommand} >/dev/full")
    if subcommand == "check":
        return
    for name in (trace, *bad_traces(mltx)):
        ran = mltx.run(subcommand, file, "--trace", name)
        expect(ran, status=1, err=fault, what=f"{subcommand} of a faulty text --trace {name!r}")
    with open(trace) as left:
        same(left.read(), "as it was", "the file for the trace")


@each(named("one-fault-is-told", RUNS))
def one_fault_is_told(mltx: Program, case: tuple[str, ...]) -> None:
    """Where standard output and the trace both can't be written, and where the input can't be read besides."""
    subcommand, text, _ = case
    for file in (mltx.file("text", text), "missing"):
        for trace in bad_traces(mltx):
            ran = mltx.run(subcommand, file, "--trace", trace, redirect=">/dev/full")
            expect(ran, status=1, err=IO, what=f"{subcommand} {file} --trace {trace!r} >/dev/full")


@test
def refused_script_is_no_fault(mltx: Program) -> None:
    """A script that finds no room is told so, and the status is 0, as for one that aborts."""
    opens = "".join(f"open {number * 65536}\n" for number in range(9))
    text = f"begin\n{opens}commit\nbegin\nbalance 0\nabort\n"
    told = "opened\n" * 8 + "refused 2 NoRoom\naborted\nmissing\naborted\n"
    by_client = "client 0 script 1\n" + told.replace("missing", "client 0 script 2\nmissing")
    for subcommand, wanted in (("solo", told), ("run", by_client)):
        trace = mltx.folder / "some.trace"
        ran = mltx.run(subcommand, "--hash", "low", "--trace", trace, "-", given=text)
        expect(ran, out=wanted, what=subcommand)
        items = "begin 1\n" + "".join(f"op 1 open {number * 65536} opened\n" for number in range(8)) + "back 1\n" * 8
        same(trace.read_text(), items + lines("abort 1|begin 2|op 2 balance 0 missing|back 2|abort 2"), "the trace")
