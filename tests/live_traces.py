"""The trace of a server, which is written while it serves: it is there from the start on, has whole lines at each moment, also
where the server is killed, and goes on without what can't be written."""
import calendar
import errno
import os
import random
import re
import signal
import subprocess
import threading
import time
from collections.abc import Iterator
from concurrent.futures import ThreadPoolExecutor
from contextlib import contextmanager
from pathlib import Path

from harness import PATIENCE, Failed, Program, Server, comes_to_be, each, expect, holds, lines, listening, may_break_off
from harness import match, of_system, same, takes, test
from serving import IO, says


@test
def trace_is_there_before_clients_are(mltx: Program) -> None:
    """Its file is made, and empty, as soon as the server says that it listens."""
    for _ in range(5):
        trace = mltx.folder / "trace"
        trace.unlink(missing_ok=True)
        with mltx.serve("--trace", trace) as server:
            same(server.first_line(), listening(server.address))
            same(trace.read_bytes(), b"", "the trace of a server without clients")
            server.talk("quit\n")
            expect(server.end(), out="served 1\n")


def trace_of_counter(number: int, first: int = 1) -> str:
    """The trace of so many transactions, each of which adds 1 to counter 7."""
    items = [f"begin {tx}\nop {tx} up 7 1 done\ncommit {tx} {tx}\n" for tx in range(first, first + number)]
    return "".join(items)


DATED = r"\d{4}-\d\d-\d\dT\d\d-\d\d-\d\dZ"


def beside(file: Path) -> dict[str, str]:
    """What stands in the files beside this one that have its name, a dot and a date, by the rest of their names."""
    found = {path.name.removeprefix(file.name + "."): path.read_text() for path in file.parent.glob(file.name + ".*")}
    same([name for name in found if not re.fullmatch(DATED + r"(-\d+)?", name)], [], "names that are no date")
    return found


@test(seconds=2)
def restart_keeps_earlier_traces(mltx: Program) -> None:
    """A file that holds something gets the time as its name, on each start; an empty one does not."""
    trace, began = mltx.folder / "trace", int(time.time())
    for number in (1, 2, 3):
        with mltx.serve("--trace", trace) as server:
            server.talk(lines("begin|up 7 1|commit") * number + "quit\n")
            expect(server.end(), out="served 1\n")
        same(trace.read_text(), trace_of_counter(number), f"the trace of server {number}")
        same(sorted(beside(trace).values()), sorted(trace_of_counter(one) for one in range(1, number)), "earlier traces")
    for name in beside(trace):
        at = calendar.timegm(time.strptime(match(DATED, name)[0], "%Y-%m-%dT%H-%M-%SZ"))
        holds(began <= at <= time.time(), f"the date of {name} is not that of its time")
    trace.write_text("")
    with mltx.serve("--trace", trace) as server:
        server.talk("quit\n")
        expect(server.end(), out="served 1\n")
    same(len(beside(trace)), 2, "the earlier traces, after an empty one")


@test(seconds=3)
def traces_of_one_second(mltx: Program) -> None:
    """The name of that second is taken, and so are some with a number: the first free number is taken, and no file is changed."""
    trace = mltx.folder / "trace"
    trace.write_text(trace_of_counter(1))
    now = int(time.time())
    taken = {f"{trace}.{time.strftime('%Y-%m-%dT%H-%M-%SZ', time.gmtime(at))}" for at in range(now, now + PATIENCE)}
    for name in taken:
        Path(name).write_text("another file\n")
        Path(name + "-2").symlink_to("nowhere")
    with mltx.serve("--trace", trace) as server:
        server.talk("quit\n")
        expect(server.end(), out="served 1\n")
    moved = [path for path in mltx.folder.glob("trace.*Z-*") if not path.is_symlink()]
    same([(path.name[-2:], path.read_text()) for path in moved], [("-3", trace_of_counter(1))], "the trace that was moved")
    same({Path(name).read_text() for name in taken}, {"another file\n"}, "files that stood there")


@test
def trace_behind_a_link(mltx: Program) -> None:
    """The file that a symlink leads to is moved and made anew; the symlink stays."""
    trace, file = mltx.folder / "trace", mltx.folder / "file"
    trace.symlink_to(file)
    file.write_text(trace_of_counter(1))
    with mltx.serve("--trace", trace) as server:
        server.talk(lines("begin|up 7 1|commit") * 2 + "quit\n")
        expect(server.end(), out="served 1\n")
    holds(trace.is_symlink() and not beside(trace), "the symlink was moved")
    same(file.read_text(), trace_of_counter(2), "the trace")
    same(list(beside(file).values()), [trace_of_counter(1)], "the trace of before")


@test(seconds=2)
def trace_into_a_pipe(mltx: Program) -> None:
    """A FIFO is neither moved nor locked: its reader gets the traces of two servers, one after the other."""
    pipe = mltx.folder / "pipe"
    os.mkfifo(pipe)
    with subprocess.Popen(["cat", pipe], stdout=subprocess.PIPE) as reader:
        with open(pipe, "wb"):
            for number in (1, 2):
                with mltx.serve("--trace", pipe) as server:
                    server.talk(lines("begin|up 7 1|commit") * number + "quit\n")
                    expect(server.end(), out="served 1\n")
        told = reader.communicate(timeout=PATIENCE)[0].decode()
    same(told, trace_of_counter(1) + trace_of_counter(2), "what came out of the pipe")


@test
def trace_into_a_pipe_that_nobody_reads(mltx: Program) -> None:
    """The server does not start, and says why: it waits for no reader while its port is taken."""
    pipe = mltx.folder / "pipe"
    os.mkfifo(pipe)
    ran = mltx.run("serve", "-v", "127.0.0.1:0", "--trace", pipe, timeout=10)
    expect(ran, status=1, err=f"{IO}mltx: {pipe}: no process reads it\n")


@test(seconds=7)
def trace_into_a_pipe_that_is_full(mltx: Program) -> None:
    """Its reader has stopped: clients are served, and once the server ends it waits for the reader for 5 seconds, and no more."""
    pipe, count = mltx.folder / "pipe", 2_000
    os.mkfifo(pipe)
    with open(pipe, "r+b", buffering=0), mltx.serve("--trace", pipe) as server:
        told = server.talk(lines("begin|up 7 1|commit") * count + "quit\n")
        same(told.count(b"committed"), count, "the commits of a client")
        note = "could not write the trace, which ends here: timed out"
        with takes(4, 9, "the server ended"):
            expect(server.end(), status=1, out="served 1\n", err=IO, notes=[note])


@test(seconds=7)
def trace_into_a_file_that_hangs(mltx: Program) -> None:
    """Its second write never returns, as on a disk that is gone: clients are served, and the server ends 5 seconds later."""
    trace = mltx.folder / "trace"
    with mltx.serve("--trace", trace, env=mltx.shim(FAIL="write-file 2 -1 1000000")) as server, server.connect() as peer:
        says(peer, "begin", "begun 1", "up 7 1", "done", "commit", "committed 1")
        comes_to_be(lambda: trace.read_text() == trace_of_counter(1), "the first transaction is written")
        says(peer, "begin", "begun 2", "up 7 1", "done", "commit", "committed 2", "quit", "bye")
        note = "could not write the trace, which ends here: timed out"
        with takes(4, 9, "the server ended"):
            expect(server.end(), status=1, out="served 1\n", err=IO, notes=[note])
    same(trace.read_text(), trace_of_counter(1), "the trace")


@test(seconds=8)
def trace_that_stands_still_for_a_while(mltx: Program) -> None:
    """A pipe without a reader for 6 seconds: a message tells after 5 seconds, another once it is read, and it is whole."""
    pipe, count = mltx.folder / "pipe", 2_000
    notes = ["the trace has taken nothing for 5 seconds", "writing the trace again"]
    os.mkfifo(pipe)
    with open(os.open(pipe, os.O_RDONLY | os.O_NONBLOCK), "rb", buffering=0) as reader:
        with mltx.serve("--trace", pipe, limit=2) as server, ThreadPoolExecutor(1) as threads:
            same(server.first_line(), listening(server.address))
            same(server.talk(lines("begin|up 7 1|commit") * count).count(b"committed"), count, "the commits of a client")
            with takes(3, 9, "the message came"):
                same(server.next_note(), notes[0])
            os.set_blocking(reader.fileno(), True)
            text = threads.submit(reader.readall)
            same(server.next_note(), notes[1])
            tx = count + 1
            same(server.talk(lines("begin|up 7 1|commit")).decode(), f"begun {tx}\ndone\ncommitted {tx}\n", "a later client")
            expect(server.end(said=""), out="served 2\n", notes=notes)
    same([line.rstrip(" ") for line in text.result().decode().splitlines()], trace_of_counter(tx).splitlines(), "the trace")


@test(seconds=3)
def trace_into_a_pipe_that_is_slow(mltx: Program) -> None:
    """Its reader begins two seconds late: it gets all of the trace."""
    pipe, count = mltx.folder / "pipe", 2_000
    os.mkfifo(pipe)
    with open(os.open(pipe, os.O_RDONLY | os.O_NONBLOCK), "rb", buffering=0) as reader, mltx.serve("--trace", pipe) as server:
        told = server.talk(lines("begin|up 7 1|commit") * count + "quit\n")
        same(told.count(b"committed"), count, "the commits of a client")
        time.sleep(2)
        os.set_blocking(reader.fileno(), True)
        text = reader.readall().decode()
        expect(server.end(), out="served 1\n")
    same([line.rstrip(" ") for line in text.splitlines()], trace_of_counter(count).splitlines(), "what came out of the pipe")


@test
def two_servers_with_one_trace(mltx: Program) -> None:
    """The second does not start, whether the file holds something or not, and the first goes on. /dev/null both may have."""
    trace = mltx.folder / "trace"
    second = f"{IO}mltx: {trace}: another server writes its trace there\n"
    with mltx.serve("--trace", trace) as server, server.connect() as peer:
        same(server.first_line(), listening(server.address))
        for tx in (1, 2):
            expect(mltx.run("serve", "-v", "127.0.0.1:0", "--trace", trace), status=1, err=second)
            peer.send(lines("begin|up 7 1|commit"))
            same([peer.line() for _ in range(3)], [f"begun {tx}", "done", f"committed {tx}"], "the answers of the first server")
            comes_to_be(lambda: trace.read_text() == trace_of_counter(tx), "the trace is written")
        says(peer, "quit", "bye")
        expect(server.end(), out="served 1\n")
    same(beside(trace), {}, "traces that were moved")
    with mltx.serve("--trace", "/dev/null") as one, mltx.serve("--trace", "/dev/null") as other:
        for server in (one, other):
            server.talk("quit\n")
            expect(server.end(), out="served 1\n")


@test(seconds=2)
def trace_that_another_program_cuts(mltx: Program) -> None:
    """It goes on at its new end, without a hole; and where a write fails then, what it has stays."""
    trace = mltx.folder / "trace"
    for fails in (False, True):
        trace.unlink(missing_ok=True)
        most = len(trace_of_counter(30)) + len(trace_of_counter(5, 31)) + 3
        env = mltx.shim(FAIL=f"write-file {most} {errno.ENOSPC} 1 1000000") if fails else {}
        with mltx.serve("--trace", trace, env=env) as server, server.connect() as peer:
            for first, count in ((1, 30), (31, 5), (36, 5)):
                peer.send(lines("begin|up 7 1|commit") * count)
                same([peer.line() for _ in range(3 * count)][-1], f"committed {first + count - 1}", "the last answer")
                if first == 1:
                    comes_to_be(lambda: trace.read_text() == trace_of_counter(30), "the trace of thirty transactions is written")
                    os.truncate(trace, 0)
                elif first == 31:
                    comes_to_be(lambda: trace.read_text() == trace_of_counter(5, 31), "the trace goes on")
            says(peer, "quit", "bye")
            notes = [f"could not write the trace, which ends here: {of_system(errno.ENOSPC)}"] if fails else []
            expect(server.end(), status=int(fails), out="served 1\n", err=IO if fails else "", notes=notes)
        same(trace.read_text(), trace_of_counter(5 if fails else 10, 31), "the trace after it was cut")


def counts_up(server: Server, ended: threading.Event, seed: int, told: list[tuple[float, int]]) -> None:
    """Transactions of some operations over few objects, until the server is gone. It adds each commit's number, and when it was
    told of it."""
    source = random.Random(seed)
    with may_break_off(), server.connect() as peer:
        while not ended.is_set():
            asked = [f"{source.choice(('up', 'down'))} {source.randrange(4)} 1" for _ in range(source.randrange(1, 5))]
            peer.send("".join(line + "\n" for line in ("begin", *asked, source.choice(("commit", "commit", "abort")))))
            try:
                answers = [peer.line() for _ in range(len(asked) + 2)]
            except Failed:
                return
            if answers[-1].startswith("committed "):
                told.append((time.monotonic(), int(answers[-1].split()[1])))


@contextmanager
def under_load(server: Server, clients: int = 8) -> Iterator[list[tuple[float, int]]]:
    """Clients that work as long as the block lasts. It yields what they were told of commits."""
    ended, told = threading.Event(), list[tuple[float, int]]()
    with ThreadPoolExecutor(clients) as threads:
        working = [threads.submit(counts_up, server, ended, seed, told) for seed in range(clients)]
        try:
            yield told
        finally:
            ended.set()
        for one in working:
            one.result()


def commits_of(text: str) -> list[int]:
    """The numbers of the commits in a trace, in order."""
    return [int(line.split()[2]) for line in text.splitlines() if line.startswith("commit ")]


@each({f"trace-of-a-server-that-is-killed-{number}": number for number in range(10)}, seconds=3)
def trace_of_a_server_that_is_killed(mltx: Program, number: int) -> None:
    """At any moment under load: what stands in it is right, and has all that a client was told a second before."""
    trace, after = mltx.folder / "trace", random.Random(number).uniform(1.9, 2.9)
    with mltx.serve("--trace", trace, "--sessions", 8, limit=9) as server, under_load(server) as told:
        time.sleep(after)
        server.process.send_signal(signal.SIGKILL)
        killed = time.monotonic()
        server.process.wait()
    text = trace.read_text()
    holds(text.endswith("\n"), f"the trace of {len(text)} bytes ends in {text[-40:]!r}")
    mltx.accepted(trace)
    found = commits_of(text)
    same(found, list(range(1, len(found) + 1)), "the commits of the trace")
    early = [commit for at, commit in told if at < killed - 1.5]
    holds(early and max(early) <= len(found), f"{max(early, default=0)} were told in time, and {len(found)} are in the trace")


@test(seconds=2)
def trace_has_whole_lines_at_each_moment(mltx: Program) -> None:
    """Read again and again under load: each time it is a front of what it is at the end, of whole lines, and it grows."""
    trace, seen = mltx.folder / "trace", []
    with mltx.serve("--trace", trace, "--sessions", 4, limit=4) as server:
        with under_load(server, clients=4):
            deadline = time.monotonic() + 2.5
            while time.monotonic() < deadline:
                seen.append(trace.read_bytes() if trace.exists() else b"")
                time.sleep(0.01)
        expect(server.end(), out="served 4\n")
    whole = trace.read_bytes()
    are_fronts = all(whole.startswith(text) and text[-1:] in (b"", b"\n") for text in seen)
    holds(are_fronts, "a trace that was read is no front of whole lines")
    holds(len({len(text) for text in seen}) >= 3, f"the trace had {sorted({len(text) for text in seen})} bytes")


BLOCK = 4_096


@test(seconds=2)
def lines_of_a_trace_end_with_their_blocks(mltx: Program) -> None:
    """Under load: no line goes over the end of a block, where a write of a killed process may be cut. Spaces stand before such an
    end alone, and the trace is right."""
    trace = mltx.folder / "trace"
    with mltx.serve("--trace", trace, "--sessions", 4, limit=4) as server:
        with under_load(server, clients=4):
            time.sleep(2)
        expect(server.end(), out="served 4\n")
    text = trace.read_bytes()
    holds(len(text) > 10 * BLOCK, f"the trace has {len(text)} bytes alone")
    over = [end for end in range(BLOCK, len(text), BLOCK) if text[end - 1 : end] != b"\n"]
    same(over, [], "the ends of blocks at which no line ends")
    inside = [found.end() for found in re.finditer(rb" \n", text) if found.end() % BLOCK != 0]
    same(inside, [], "the ends of lines with spaces inside of blocks")
    mltx.accepted(trace)


@test(seconds=2)
def trace_into_a_full_device(mltx: Program) -> None:
    """It is noted while clients are served, who go on, and is a fault at the end."""
    with mltx.serve("--trace", "/dev/full", limit=3) as server:
        same(server.first_line(), listening(server.address))
        same(server.talk(lines("begin|up 7 1|commit")), lines("begun 1|done|committed 1").encode(), "the first client")
        note = f"could not write the trace, which ends here: {of_system(errno.ENOSPC)}"
        same(server.next_note(), note)
        for number in (2, 3):
            told = lines(f"begun {number}|is 1|committed {number}").encode()
            same(server.talk(lines("begin|read 7|commit")), told, "a later client")
        expect(server.end(said=""), status=1, out="served 3\n", err=IO, notes=[note])


@each({f"trace-that-fails-{number}-bytes-after-a-while": number for number in (0, 1, 9, 10, 500)}, seconds=2)
def trace_that_fails(mltx: Program, number: int) -> None:
    """What was written before stays, and of what fails at this byte at most whole lines. What clients are told is not changed."""
    trace = mltx.folder / "trace"
    items = [f"begin {tx}\nop {tx} up 7 1 done\ncommit {tx} {tx}\n" for tx in range(1, 61)]
    first, second = "".join(items[:30]), "".join(items[30:])
    env = mltx.shim(FAIL=f"write-file {len(first) + number + 1} {errno.ENOSPC} 1 1000000")
    with mltx.serve("--trace", trace, env=env) as server, server.connect() as peer:
        for begin in (1, 31):
            peer.send(lines("begin|up 7 1|commit") * 30)
            for tx in range(begin, begin + 30):
                same([peer.line() for _ in range(3)], [f"begun {tx}", "done", f"committed {tx}"], "the answers")
            if begin == 1:
                comes_to_be(lambda: trace.read_text() == first, "the trace of thirty transactions is written")
        says(peer, "quit", "bye")
        note = f"could not write the trace, which ends here: {of_system(errno.ENOSPC)}"
        expect(server.end(), status=1, out="served 1\n", err=IO, notes=[note])
    left = trace.read_text()
    is_front = left.startswith(first) and (first + second[:number]).startswith(left)
    holds(is_front, f"{len(left)} bytes are left, and {len(first)} were written")
    same(left[-1:], "\n", "the end of the trace")


@contextmanager
def small_disk(mltx: Program, size: int) -> Iterator[Path | None]:
    """A folder on a disk of so many bytes, or None where none can be had."""
    place = mltx.folder / "disk"
    place.mkdir()
    words = ["mount", "-t", "tmpfs", "-o", f"size={size}", "none", str(place)]
    try:
        is_mounted = subprocess.run(words, capture_output=True).returncode == 0
    except FileNotFoundError:
        is_mounted = False
    try:
        yield place if is_mounted else None
    finally:
        if is_mounted:
            subprocess.run(["umount", str(place)], check=True)


@test(seconds=3)
def trace_on_a_disk_that_is_full(mltx: Program) -> None:
    """Where a small disk can be had: the file has whole lines, which are right, and all clients are served."""
    with small_disk(mltx, 65_536) as disk:
        if disk is None:
            print("    no disk can be mounted here: a trace on one that is full is not looked at", flush=True)
            return
        trace = disk / "trace"
        with mltx.serve("--trace", trace, limit=2) as server:
            count = 5_000
            told = server.talk(lines("begin|up 7 1|commit") * count)
            same(told.count(b"committed"), count, "the commits of a client")
            time.sleep(1.2)
            told = lines(f"begun {count + 1}|is {count}|committed {count + 1}").encode()
            same(server.talk(lines("begin|read 7|commit")), told, "a later client")
            note = f"could not write the trace, which ends here: {of_system(errno.ENOSPC)}"
            expect(server.end(), status=1, out="served 2\n", err=IO, notes=[note])
        text = trace.read_text()
        holds(40_000 < len(text) <= 65_536 and text.endswith("\n"), f"{len(text)} bytes, which end in {text[-40:]!r}")
        mltx.accepted(trace)


CLOSED = ["<&-", ">&-", "2>&-", "<&- >&-", "<&- 2>&-", ">&- 2>&-", "<&- >&- 2>&-"]


@each({f"closed-streams-{'-'.join(str('<>2'.index(one[0])) for one in streams.split())}": streams for streams in CLOSED})
def closed_streams(mltx: Program, streams: str) -> None:
    """Whichever standard streams are closed at the start, with a trace and without: clients hear their answers and nothing else,
    and the trace has its items and nothing else."""
    trace, count, short = mltx.folder / "trace", 9, b"error 12 LineTooLong\n"
    for options in (("--trace", trace), ()):
        with mltx.serve(*options, limit=count + 2, redirect=streams) as server:
            with server.connect() as first:
                same(first.ask("foo"), "error 10 ScriptFault", f"the first client of a server {streams}")
                for tx in range(1, count + 1):
                    told = f"begun {tx}\ndone\ncommitted {tx}\n"
                    same(server.talk(lines("begin|up 7 1|commit")).decode(), told, f"a client of a server {streams}")
                same(server.talk("x" * 201), short, f"a client of a server {streams} whose line is too long")
                same(first.say_all("quit\n"), b"bye\n", f"the last answer of the first client of a server {streams}")
            server.process.communicate(timeout=PATIENCE)
            same(server.process.returncode, int(">&-" in streams.replace("2>&-", "")), f"the status of a server {streams}")
    items = "".join(f"begin {tx}\nop {tx} up 7 1 done\ncommit {tx} {tx}\n" for tx in range(1, count + 1))
    same(trace.read_text(), items, f"the trace of a server {streams}")
