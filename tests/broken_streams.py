"""Files, pipes, sockets and standard streams that end early, fail at any call, or take and give little."""
import errno
import os
import re
import signal
import subprocess
import threading
import time
from collections.abc import Iterator
from contextlib import ExitStack, contextmanager, suppress
from pathlib import Path

from harness import BROKEN, IDLE, Address, Program, Ran, Server, all_threads_are, comes_to_be, cut_for, each, expect
from harness import free_address, holds, lines, listening, of_system, readable, same, state_of, takes, test

FAULT = b"mltx: 13 Io\n"

TEXTS = {
    "solo": (lines("begin|open 1|commit"), lines("opened|committed 1")),
    "steps": (lines("begin|whole 1 open 1|commit 1"), lines("begun 1|done opened|committed 1|account 1 0|depth 0")),
    "run": (lines("begin|open 1|commit"), lines("client 0 script 1|opened|committed 1|account 1 0")),
    "check": (lines("begin 1|op 1 open 1 opened|commit 1 1"), lines("serial 1|account 1 0")),
}


def write_once(path: Path, text: str) -> None:
    with suppress(BrokenPipeError):
        path.write_text(text)


def through_fifo(mltx: Program, job: str, text: str) -> Ran:
    """What a run comes to whose FILE is a pipe with a name, into which this text is written and no more."""
    path = mltx.folder / "fifo"
    os.mkfifo(path)
    writer = threading.Thread(target=write_once, args=(path, text))
    writer.start()
    try:
        return mltx.run(job, path)
    finally:
        # The writer goes on where the program has never opened it.
        os.close(os.open(path, os.O_RDONLY | os.O_NONBLOCK))
        writer.join()


@each({f"{job}-reads-a-fifo": (job, *texts) for job, texts in TEXTS.items()})
def fifo(mltx: Program, case: tuple[str, str, str]) -> None:
    """A pipe with a name is read to its end as a file is."""
    job, text, wanted = case
    expect(through_fifo(mltx, job, text), out=wanted)


CUT = {
    "solo-of-a-fifo-that-ends-in-a-script": ("solo", "begin\nopen 1\n", "10 ScriptFault line 2 Unfinished"),
    "solo-of-a-fifo-that-ends-in-a-line": ("solo", "begin\nopen 1\ncomm", "10 ScriptFault line 3 Words"),
    "run-of-a-fifo-that-ends-in-a-script": ("run", "begin\nopen 1\n", "10 ScriptFault line 2 Unfinished"),
    "steps-of-a-fifo-that-ends-in-a-line": ("steps", "begin\nwhole 1 op", "10 ScriptFault line 2 Words"),
    "check-of-a-fifo-that-ends-in-a-line": ("check", "begin 1\nop 1 op", "11 TraceFault line 2 Cut"),
}


@each(CUT)
def cut(mltx: Program, case: tuple[str, str, str]) -> None:
    """A pipe whose writer ends early is a text that ends there."""
    job, text, fault = case
    expect(through_fifo(mltx, job, text), status=1, err=f"mltx: {fault}\n")


@each({f"{job}-of-a-file-that-fails-to-be-read": job for job in TEXTS})
def read_fails(mltx: Program, job: str) -> None:
    """FILE opens and its first read fails: that is 13, and nothing is written."""
    expect(mltx.run(job, "/proc/self/mem"), status=1, err=FAULT)


@each({f"{job or 'no-words'}-without-standard-input": job for job in (*TEXTS, "")})
def no_input(mltx: Program, job: str) -> None:
    """Where standard input is closed its read fails."""
    expect(mltx.run(*([job, "-"] if job else []), redirect="<&-"), status=1, err=FAULT)


@each({f"{job}-without-standard-output": (job, *texts) for job, texts in TEXTS.items()})
def no_output(mltx: Program, case: tuple[str, str, str]) -> None:
    """Where standard output is closed its write fails, and no trace is made."""
    job, text, _wanted = case
    trace = mltx.folder / "trace"
    options = [] if job == "check" else ["--trace", trace]
    expect(mltx.run(job, *options, mltx.file("text", text), redirect=">&-"), status=1, err=FAULT)
    holds(not trace.exists(), f"{job} without standard output has made the file of the trace")


@test
def a_fault_without_standard_error(mltx: Program) -> None:
    """The status tells of a fault where its line can't be written."""
    expect(mltx.run("solo", mltx.file("text", "begin\n"), redirect="2>&-"), status=1)


@each({f"{job}-to-a-reader-that-goes": job for job in TEXTS})
def reader_goes(mltx: Program, job: str) -> None:
    """The reader of a pipe goes before all is written: that is 13, and a prefix went out."""
    text, wanted = large(job)
    with mltx.started(job, mltx.file("text", text)) as running:
        heard = running.stdout.read(1000)
        running.stdout.close()
        ended = running.wait(), running.stderr.read()
    holds(heard and wanted.encode().startswith(heard), f"{job} wrote {heard!r}")
    same(ended, (1, FAULT), f"{job} to a reader that goes")



def large(job: str) -> tuple[str, str]:
    """A text whose output is larger than a pipe holds, and the start of that output."""
    if job == "steps":
        return "step 1\n" * 10_000, "refused 3 NoSuchTx\n" * 10_000
    if job == "check":
        opened = "".join(f"op 1 open {n} opened\n" for n in range(10_000))
        return f"begin 1\n{opened}commit 1 1\n", "serial 1\n" + "".join(f"account {n} 0\n" for n in range(10_000))
    scripts = "begin\n" + "balance 1\n" * 250 + "abort\n"
    told = "missing\n" * 250 + "aborted\n"
    if job == "solo":
        return scripts * 50, told * 50
    return scripts * 50, "".join(f"client 0 script {n}\n{told}" for n in range(1, 51))


TRACES = {
    "solo": lines("begin 1|op 1 open 1 opened|commit 1 1"),
    "steps": lines("begin 1|op 1 open 1 opened|commit 1 1"),
    "run": lines("begin 1|op 1 open 1 opened|commit 1 1"),
    "check": "",
}
# A device that fails, a call that is interrupted, and one that takes nothing.
WRITE_FAULTS = {"fails": errno.EIO, "is-interrupted": errno.EINTR, "takes-nothing": 0}
READ_FAULTS = {"fails": errno.EIO, "is-interrupted": errno.EINTR}


def one_fails(mltx: Program, job: str, call: str, fault: int, most: int) -> Iterator[tuple[int, Ran, str | None]]:
    """What comes where call 1, 2, 3, .. fails, until a run has none such. The others take or give so many bytes."""
    trace, text = mltx.folder / "trace", mltx.file("text", TEXTS[job][0])
    options = [] if job == "check" else ["--trace", trace]
    number = 1
    while True:
        trace.unlink(missing_ok=True)
        ran = mltx.run(job, *options, text, env=mltx.shim(FAIL=f"{call} {number} {fault} {most}"))
        if mltx.counted()[1] < number:
            return
        yield number, ran, trace.read_text() if trace.exists() else None
        number += 1


@each({f"each-read-of-{job}-{name}": (job, fault) for job in TEXTS for name, fault in READ_FAULTS.items()}, seconds=0.5)
def reads_fail(mltx: Program, case: tuple[str, int]) -> None:
    """Whichever read fails, that is 13, nothing is written, and no trace is made."""
    job, fault = case
    reads = 0
    for number, ran, trace in one_fails(mltx, job, "read", fault, 1):
        expect(ran, status=1, err=FAULT, what=f"{job}, whose read {number} fails by {errno.errorcode[fault]}")
        same(trace, None, f"{job}, whose read {number} fails: the trace")
        reads = number
    same(reads, len(TEXTS[job][0]) + 1, f"{job}: reads that fail, of a byte each, and one at the end of the input")


WRITES = {f"each-write-of-{job}-{name}": (job, fault) for job in TEXTS for name, fault in WRITE_FAULTS.items()}


@each(WRITES, seconds=0.5)
def writes_fail(mltx: Program, case: tuple[str, int]) -> None:
    """Whichever write fails, that is 13, and what went out before is a front of the text, and then of the trace."""
    job, fault = case
    text, trace = TEXTS[job][1], TRACES[job]
    writes = 0
    for number, ran, left in one_fails(mltx, job, "write", fault, 1):
        what = f"{job}, whose write {number} fails by {errno.errorcode.get(fault, 'taking nothing')}"
        expect(ran, status=1, out=text[: number - 1], err=FAULT, what=what)
        same(left, None if number <= len(text) else trace[: number - 1 - len(text)], f"{what}: the trace")
        writes = number
    same(writes, len(text + trace), f"{job}: writes that fail, of a byte each")


# Transactions of an operation that is written with the longest words and numbers, and their trace, of many pieces.
MANY, LONGEST = 1_000, f"withdraw {2**32 - 1} {2**64 - 1}"
LONG_TEXT = f"begin\n{LONGEST}\ncommit\n" * MANY
LONG_TOLD = "".join(f"missing\ncommitted {n}\n" for n in range(1, MANY + 1))
LONG_TRACE = "".join(f"begin {n}\nop {n} {LONGEST} missing\ncommit {n} {n}\n" for n in range(1, MANY + 1))


@each({f"each-write-of-a-long-trace-{name}": fault for name, fault in WRITE_FAULTS.items()})
def long_trace_fails(mltx: Program, fault: int) -> None:
    """A trace of many pieces is whole, and where a write fails that is 13, and what went out before is a front of it."""
    trace, text, lefts = mltx.folder / "trace", mltx.file("text", LONG_TEXT), list[str]()
    expect(mltx.run("solo", "--trace", trace, text), out=LONG_TOLD)
    same(trace.read_text(), LONG_TRACE, "a long trace")
    number = len(LONG_TOLD) // 5_000 + 2
    while True:
        ran = mltx.run("solo", "--trace", trace, text, env=mltx.shim(FAIL=f"write {number} {fault} 5000"))
        if mltx.counted()[1] < number:
            break
        what = f"a long trace, whose write {number} fails by {errno.errorcode.get(fault, 'taking nothing')}"
        expect(ran, status=1, out=LONG_TOLD, err=FAULT, what=what)
        lefts.append(trace.read_text())
        holds(LONG_TRACE.startswith(lefts[-1]), f"{what}: what is left is no front of it")
        number += 1
    holds(len(lefts) > len(LONG_TRACE) // 5_000, f"only {len(lefts)} writes of a long trace")
    same(sorted(set(lefts), key=len), lefts, "what is left of a long trace, which grows with each write")


@test
def one_byte_writer(mltx: Program) -> None:
    """A writer of one byte per write that fails at its sixth."""
    text = mltx.file("text", lines("begin|open 1|deposit 1 50|balance 1|commit"))
    ran = mltx.run("solo", text, env=mltx.shim(FAIL=f"write 6 {errno.EIO} 1"))
    expect(ran, status=1, out="opene", err=FAULT)


SAID = lines("begin|open 1|deposit 1 5|commit|begin|up 7 1|quit")
TOLD = lines("begun 1|opened|done|committed 1|begun 2|done|bye")


def served(
    mltx: Program, fail: str, limit: int = 1, address: Address | None = None, said: str | None = None
) -> tuple[str, Ran, str]:
    """What the first client hears that sends all of SAID, what the server comes to, without what it first `said`, and its
    trace."""
    trace = mltx.folder / "trace"
    with mltx.serve("--trace", trace, limit=limit, address=address, env=mltx.shim(FAIL=fail)) as server:
        with server.connect() as peer:
            heard = peer.say_all(SAID)
        return heard.decode(), server.end(said), trace.read_text()


def has_ended_all(trace: str, what: str) -> None:
    """Each transaction that began has ended."""
    begun, ended = (len(re.findall(f"(?m)^(?:{words}) ", trace)) for words in ("begin", "commit|abort"))
    same(ended, begun, f"{what}: how many of the transactions have ended in {trace!r}")


@test(seconds=2)
def each_receipt_of_a_session_fails(mltx: Program) -> None:
    """Whichever byte does not come, the lines before it are answered, and an open transaction is taken back."""
    for number in range(1, len(SAID) + 1):
        what = f"a session whose byte {number} fails to come"
        heard, ended, trace = served(mltx, f"recv {number} {errno.EIO} 1")
        same(heard, "".join(TOLD.splitlines(keepends=True)[: SAID[: number - 1].count("\n")]), what)
        expect(ended, out="served 1\n", notes=[cut_for(1, BROKEN)], what=what)
        has_ended_all(trace, what)
        same("commit 1 1" in trace, "committed 1" in heard, f"{what}: whether it has committed in {trace!r}")


SEND_FAULTS = {"fails": errno.EIO, "takes-nothing": 0}


@each({f"each-sending-of-a-session-{name}": fault for name, fault in SEND_FAULTS.items()}, seconds=2)
def sendings_fail(mltx: Program, fault: int) -> None:
    """Whichever byte of an answer is not taken, those before it went out, and an open transaction is taken back."""
    for number in range(1, len(TOLD) + 1):
        what = f"a session whose answers' byte {number} fails to go by {errno.errorcode.get(fault, 'taking nothing')}"
        heard, ended, trace = served(mltx, f"send {number} {fault} 1")
        same(heard, TOLD[: number - 1], what)
        expect(ended, out="served 1\n", notes=[cut_for(1, BROKEN)], what=what)
        has_ended_all(trace, what)


# What a server writes at its end, and then into the trace, once a client has said all of SAID.
SERVED = "served 1\n"
SERVED_TRACE = lines("begin 1|op 1 open 1 opened|op 1 deposit 1 5 done|commit 1 1|begin 2|op 2 up 7 1 done|back 2|abort 2")

INTERRUPTED = {"receipt": ("recv", SAID), "sending": ("send", TOLD)}


@each({f"each-{name}-of-a-session-is-interrupted": case for name, case in INTERRUPTED.items()}, seconds=2)
def calls_of_sockets_are_interrupted(mltx: Program, case: tuple[str, str]) -> None:
    """Whichever byte's call is interrupted, be it thrice, the call is made again and the client hears all."""
    call, text = case
    for number in range(1, len(text) + 1):
        what = f"a session whose {call} {number} is interrupted"
        heard, ended, trace = served(mltx, f"{call} {number} {errno.EINTR} 1 3")
        same((heard, trace), (TOLD, SERVED_TRACE), what)
        expect(ended, out=SERVED, what=what)


@test(seconds=3)
def each_write_of_serve_fails(mltx: Program) -> None:
    """Whichever write of the line at the end of a server fails, that is 13, and what went out is a prefix of it. The sessions are
    not touched."""
    for number in range(1, len(SERVED) + 1):
        what = f"a server whose write {number} at its end fails"
        heard, ended, _ = served(mltx, f"write-out {number} {errno.EIO} 1")
        same(heard, TOLD, what)
        expect(ended, status=1, out=SERVED[: number - 1], err=FAULT, what=what)


@each({f"each-write-of-the-trace-of-serve-{name}": fault for name, fault in WRITE_FAULTS.items()}, seconds=3)
def writes_of_the_trace_of_serve_fail(mltx: Program, fault: int) -> None:
    """Whichever fails, that is noted, and is 13 at the end. Whole lines of what went out are left. The sessions are not
    touched."""
    for number in range(1, len(SERVED_TRACE) + 1):
        what = f"a server whose write {number} of the trace fails by {errno.errorcode.get(fault, 'taking nothing')}"
        heard, ended, left = served(mltx, f"write-file {number} {fault} 1 1000000")
        same(heard, TOLD, what)
        said = [note.partition(": ")[0] for note in ended.notes]
        same(said, ["could not write the trace, which ends here"], what)
        expect(ended, status=1, out=SERVED, err=FAULT, notes=ended.notes, what=what)
        holds(SERVED_TRACE[: number - 1].startswith(left) and left[-1:] in ("", "\n"), f"{what}: the trace is {left!r}")
        if fault:
            same(ended.notes[0].partition(": ")[2], of_system(fault), what)


@each({f"each-write-of-where-a-server-listens-{name}": fault for name, fault in WRITE_FAULTS.items()}, seconds=1)
def writes_of_where_a_server_listens_fail(mltx: Program, fault: int) -> None:
    """Whichever byte of that line is not taken, those before it went out, and the server goes on as if all had."""
    address = free_address()
    line = listening(address)
    for number in range(1, len(line) + 1):
        what = f"a server whose write {number} fails by {errno.errorcode.get(fault, 'taking nothing')}"
        heard, ended, trace = served(mltx, f"write-error {number} {fault} 1", address=address, said=line[: number - 1])
        same((heard, trace), (TOLD, SERVED_TRACE), what)
        expect(ended, out=SERVED, what=what)


@each({f"accept-{number}-fails": number for number in (1, 2)})
def accepts_fail(mltx: Program, number: int) -> None:
    """An accept that fails for good ends the server by 13, once the connections that were taken are served."""
    fail = f"accept {number} {errno.EINVAL} 0"
    notes = [f"accepting no more connections: could not accept a connection: {of_system(errno.EINVAL)}"]
    if number == 1:
        with mltx.serve(env=mltx.shim(FAIL=fail)) as server:
            expect(server.end(), status=1, err=FAULT, notes=notes, what="a server that accepts nobody")
        return
    heard, ended, trace = served(mltx, fail, limit=2)
    same((heard, trace), (TOLD, SERVED_TRACE), "a server that accepts one")
    expect(ended, status=1, err=FAULT, notes=notes, what="a server that accepts one")


GONE = {f"connection-{number}-is-gone-{times}-times": (number, times) for number in (1, 2) for times in (1, 3)}


@each(GONE)
def connections_gone_before_they_are_accepted(mltx: Program, case: tuple[int, int]) -> None:
    """An accept whose connection was gone is tried again, and counts for nothing."""
    number, times = case
    with mltx.serve(limit=2, env=mltx.shim(FAIL=f"accept {number} {errno.ECONNABORTED} 0 {times}")) as server:
        same(server.talk("begin\nquit\n"), b"begun 1\nbye\n", "the first client")
        same(server.talk("begin\nquit\n"), b"begun 2\nbye\n", "the second client")
        note = f"could not accept a connection, trying again: {of_system(errno.ECONNABORTED)}"
        expect(server.end(), out="served 2\n", notes=[note])
    same(mltx.counted()[1], 2 + times, "how often the server accepted")


def stop_and_go_on(process: subprocess.Popen[bytes]) -> None:
    """Stops a process that waits for its input, as Ctrl-Z does, and has it go on."""
    for states, number in (("S", signal.SIGSTOP), ("T", signal.SIGCONT), ("SR", 0)):
        comes_to_be(lambda: state_of(f"/proc/{process.pid}") in states, f"the process is in one of {states}", 0.01)
        process.send_signal(number)


@test
def solo_that_was_stopped_goes_on(mltx: Program) -> None:
    """A read that a stop would interrupt were a fault: no call on a file or a pipe is interrupted by one."""
    with mltx.started() as running:
        running.stdin.write(b"begin\nopen 1\n")
        running.stdin.flush()
        stop_and_go_on(running)
        expect(running.end(b"commit\n"), out="opened\ncommitted 1\n", what="solo that was stopped")


@test
def server_that_was_stopped_goes_on(mltx: Program) -> None:
    """The same of a read from a connection, and of accepting the next one."""
    with mltx.serve(limit=2) as server:
        with server.connect() as peer:
            same(peer.ask("begin"), "begun 1", "begin")
            stop_and_go_on(server.process)
            same(peer.say_all("open 1\ncommit\n"), b"opened\ncommitted 1\n", "lines after the stop")
        same(server.talk("begin\nbalance 1\n"), b"begun 2\nis 0\n", "a connection after the stop")
        expect(server.end(), out="served 2\n")


# A stop interrupts what waits at a socket with a time-out, as each has where there is an idle time.


@contextmanager
def stopped(server: Server) -> Iterator[None]:
    """The server is stopped while the block lasts, once all of it was asleep."""
    comes_to_be(lambda: all_threads_are(server.process, "S"), "the server sleeps", 0.001)
    server.stop()
    yield
    server.process.send_signal(signal.SIGCONT)


STOPS, CLIENTS = 5, 6


@test
def server_with_an_idle_time_that_was_stopped_goes_on(mltx: Program) -> None:
    """Clients in transactions, some of which send a line during each stop and some behind it, hear all."""
    with ExitStack() as all_of_it:
        server = all_of_it.enter_context(mltx.serve("--idle", 600, "--sessions", CLIENTS, limit=CLIENTS))
        peers = [all_of_it.enter_context(server.connect()) for _ in range(CLIENTS)]
        for number, peer in enumerate(peers, 1):
            same(peer.ask("begin"), f"begun {number}", "begin")
        for _ in range(STOPS):
            with stopped(server):
                for number, peer in enumerate(peers[::2]):
                    peer.send(f"up {number} 1\n")
            same([peer.line() for peer in peers[::2]], ["done"] * (CLIENTS // 2), "lines that came during a stop")
            same([peer.ask("up 99 1") for peer in peers[1::2]], ["done"] * (CLIENTS // 2), "lines behind a stop")
        for number, peer in enumerate(peers, 1):
            same(peer.ask("commit"), f"committed {number}", "commit")
            peer.end()
        expect(server.end(), out=f"served {CLIENTS}\n")


@test(seconds=3)
def line_that_comes_during_a_long_stop(mltx: Program) -> None:
    """What a client sent while the server was stopped is read, though the stop was longer than the idle time."""
    with mltx.serve("--idle", 2) as server, server.connect() as peer:
        same(peer.ask("begin"), "begun 1", "begin")
        with stopped(server):
            peer.send("up 1 1\n")
            time.sleep(3)
        same(peer.line(), "done", "a line that came during the stop")
        same(peer.say_all("commit\n"), b"committed 1\n", "a line behind it")
        expect(server.end(), out="served 1\n")


@test(seconds=3)
def answers_that_wait_while_the_server_is_stopped(mltx: Program) -> None:
    """A client that reads late hears all, though its session was stopped in the middle of a write."""
    count = 600_000
    with mltx.serve("--idle", 600) as server, server.connect() as peer:

        def says() -> None:
            peer.send("up 1 1\n" * count)
            peer.end()

        said = threading.Thread(target=says)
        said.start()
        for _ in range(3):
            time.sleep(0.3)
            with stopped(server):
                pass
        heard = peer.rest()
        said.join()
        same((len(heard), set(heard.splitlines())), (len(b"error 3 NoSuchTx\n") * count, {b"error 3 NoSuchTx"}), "the answers")
        expect(server.end(), out="served 1\n")


@test(seconds=3)
def silent_client_of_a_server_that_is_stopped_again_and_again(mltx: Program) -> None:
    """It is cut once its idle time is spent: a stop gives it no more."""
    with mltx.serve("--idle", 1) as server, server.connect() as peer:
        with takes(1, 10, "the client was cut"):
            same(peer.ask("begin"), "begun 1", "begin")
            while not readable([peer], 0.2):
                server.stop()
                server.process.send_signal(signal.SIGCONT)
        same(peer.rest(), b"", "what it hears")
        expect(server.end(), out="served 1\n", notes=[cut_for(1, IDLE)])
