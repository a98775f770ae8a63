"""A server without end: on the same objects what it holds does not grow, with a trace, without one, and with one that can't be
written; its trace is whole; and it ends as any server does."""
import errno
import os
import subprocess
import threading
import time
from collections.abc import Callable, Iterator
from concurrent.futures import ThreadPoolExecutor
from contextlib import closing, contextmanager
from pathlib import Path

from harness import PATIENCE, Program, Server, each, expect, free_address, holds, lines, listening, match, of_system, same, test
from live_traces import commits_of, small_disk, under_load
from operating import asked, posted
from serving import IO, STOPPING, says

# How many transactions are in what a client sends at once, and how many of these a connection sends: 2 MB of lines.
BATCH, BATCHES = 500, 100
MOST_CONNECTIONS = 2**63 - 1


@contextmanager
def endless(mltx: Program, *options: object) -> Iterator[Server]:
    """A server without end, which ends with its standard input."""
    with mltx.serve("--endless", "--until-eof", *options, limit=None, stdin=subprocess.PIPE) as server:
        server.limit = MOST_CONNECTIONS
        yield server


def ends(server: Server, connections: int, *notes: str, status: int = 0, err: str = "") -> None:
    """It ends as its input does, and tells how many it has served."""
    server.end_input()
    expect(server.end(), status=status, out=f"served {connections}\n", err=err, notes=notes)


def works(server: Server, number: int, batches: int) -> None:
    """A client that counts up an object of its own in batches of transactions, and looks at the last answer of each."""
    text = lines(f"begin|up {number} 1|commit") * BATCH
    with server.connect() as peer:
        for _ in range(batches):
            peer.send(text)
            for left in range(BATCH * 3, 0, -1):
                told = peer.line()
            holds(left == 1 and told.startswith("committed "), f"client {number} was told {told}")


def runs(server: Server, transactions: int, clients: int = 4) -> int:
    """So many transactions, of some clients at a time. It returns how many connections there were."""
    connections = transactions // (BATCH * BATCHES)
    with ThreadPoolExecutor(clients) as threads:
        for told in [threads.submit(works, server, number, BATCHES) for number in range(connections)]:
            told.result()
    return connections


def resident(server: Server) -> int:
    """How many bytes of the server's lie in memory."""
    with open(f"/proc/{server.process.pid}/status") as told:
        return next(int(line.split()[1]) * 1024 for line in told if line.startswith("VmRSS:"))


def settled(server: Server) -> int:
    """The same, once what was done has been taken out."""
    time.sleep(0.6)
    return resident(server)


def stays_flat(server: Server, first: int, more: int) -> int:
    """After so many transactions it holds what it holds after four times as many, but for a twentieth and 2 MB: items and
    outcomes of the others would take 60 MB. It returns how many connections there were."""
    connections = runs(server, first)
    before = settled(server)
    connections += runs(server, more)
    after = settled(server)
    holds(after <= before * 1.05 + 2_000_000, f"{before} bytes after {first} transactions, and {after} after {first + more}")
    return connections


@each({"memory-stays-flat-without-a-trace": False, "memory-stays-flat-with-a-trace": True}, seconds=12)
def memory_stays_flat(mltx: Program, has_trace: bool) -> None:
    trace = mltx.folder / "trace"
    with endless(mltx, "--sessions", 4, *(["--trace", trace] if has_trace else [])) as server:
        connections = stays_flat(server, 100_000, 300_000)
        ends(server, connections, STOPPING)
    if has_trace:
        with open(trace) as text:
            commits = [int(line.split()[2]) for line in text if line.startswith("commit ")]
        same(commits, list(range(1, 400_001)), "the commits of the trace")
    same(trace.exists(), has_trace, "the file of the trace")


@test(seconds=8)
def memory_stays_flat_on_a_full_disk(mltx: Program) -> None:
    """Where a small disk can be had, the trace on it is full soon: all clients are served, that is noted, and nothing is held for
    it. What is there is right."""
    with small_disk(mltx, 262_144) as disk:
        trace = disk / "trace" if disk else Path("/dev/full")
        with endless(mltx, "--sessions", 4, "--trace", trace) as server:
            connections = stays_flat(server, 100_000, 200_000)
            note = f"could not write the trace, which ends here: {of_system(errno.ENOSPC)}"
            ends(server, connections, note, STOPPING, status=1, err=IO)
        if disk:
            mltx.accepted(trace)


def writable(pid: int) -> Iterator[tuple[int, int]]:
    """Where the memory of a process begins and ends that it may write."""
    with open(f"/proc/{pid}/maps") as told:
        for line in told:
            place, rights = line.split()[:2]
            if rights.startswith("rw"):
                begin, _, end = place.partition("-")
                yield int(begin, 16), int(end, 16)


def places_of(memory: int, pid: int, number: int) -> list[int]:
    """Where a process has this number, as one of 64 bits."""
    bits, found = number.to_bytes(8, "little"), []
    for begin, end in writable(pid):
        held = os.pread(memory, end - begin, begin)
        at = held.find(bits)
        while at >= 0:
            found += [begin + at] if at % 8 == 0 else []
            at = held.find(bits, at + 1)
    return found


class Counter64:
    """A count of 64 bits in the memory of a server that waits: it is found by its rise, and can be changed there."""

    def __init__(self, server: Server, rise: Callable[[int], int]) -> None:
        """`rise` has the server count so many more, and returns the count."""
        pid = server.process.pid
        self.memory = os.open(f"/proc/{pid}/mem", os.O_RDWR)
        self.places = places_of(self.memory, pid, rise(4_099))
        for more in (1, 3, 5):
            bits = rise(more).to_bytes(8, "little")
            self.places = [place for place in self.places if os.pread(self.memory, 8, place) == bits]
        holds(len(self.places) > 0, "the count is found nowhere")

    def put(self, count: int) -> None:
        for place in self.places:
            os.pwrite(self.memory, count.to_bytes(8, "little"), place)

    def close(self) -> None:
        os.close(self.memory)


@test(seconds=1)
def numbers_of_transactions_have_63_bits(mltx: Program) -> None:
    """None is refused before the last. So many can't begin in a test, so the count of those that began is changed."""
    with endless(mltx, "--sessions", 1) as server, server.connect() as peer:
        def begun(times: int = 1) -> str:
            """The answer to the last of so many begins, each with an abort behind it."""
            peer.send(lines("begin|abort") * times)
            told = [peer.line() for _ in range(2 * times)]
            return told[-2]

        same(server.first_line(), listening(server.address))
        with closing(Counter64(server, lambda times: int(begun(times).removeprefix("begun ")))) as number:
            for last in (2**31 - 1, 2**32 - 1, 2**63 - 3):
                # The client is parked by then, so that no session writes what it has counted over the count that is put there.
                time.sleep(0.2)
                number.put(last)
                same([begun(), begun()], [f"begun {last + 1}", f"begun {last + 2}"], f"behind number {last}")
            same(begun(), "error 9 IdsSpent", "behind the greatest number")
            match(rf"92233720368547758\d\d of {2**63 - 1} transaction numbers are used", server.next_note())
            same(server.next_note(), "all transaction numbers are used, no transaction begins (IdsSpent)")


@test(seconds=3)
def trace_has_64_bits_of_bytes(mltx: Program) -> None:
    """It goes on behind 4 GiB. So much can't be written in a test, so the count of its bytes is changed, to one at the same place
    in a block."""
    trace, commits = mltx.folder / "trace", 0
    with endless(mltx, "--trace", trace) as server:
        def written(times: int) -> int:
            """The bytes of the trace, once it has so many more transactions."""
            nonlocal commits
            server.talk(lines("begin|up 7 1|commit") * times)
            commits += times
            end = time.monotonic() + PATIENCE
            while not trace.read_text().endswith(f"commit {commits} {commits}\n"):
                holds(time.monotonic() < end, f"commit {commits} does not come into the trace")
                time.sleep(0.05)
            return trace.stat().st_size

        with closing(Counter64(server, written)) as bytes_written:
            for least in (2**32, 2**63):
                bytes_written.put(least + trace.stat().st_size % 4_096)
                written(300)
    same(commits_of(trace.read_text()), list(range(1, commits + 1)), "the commits of the trace")
    mltx.accepted(trace)


def refused(server: Server, begins: int) -> int:
    """How many of so many begins of a client, each with an abort behind it, were refused."""
    told = server.talk(lines("begin|abort") * begins).decode().splitlines()
    first = [line for line in told[::2] if not line.startswith("begun ")]
    same((len(told), set(first) - {"error 1 OutOfMemory"}), (2 * begins, set()), "the answers")
    return len(first)


@test(seconds=20)
def memory_stays_flat_while_a_trace_stands_still(mltx: Program) -> None:
    """Nobody reads its pipe. What waits for it grows until begins are refused; a transaction that is open goes on, and commits.
    Once the pipe is read transactions begin again, and the trace has all that was told."""
    pipe, count, connections = mltx.folder / "pipe", 100_000, 7
    os.mkfifo(pipe)
    with open(os.open(pipe, os.O_RDONLY | os.O_NONBLOCK), "rb", buffering=0) as reader:
        with endless(mltx, "--sessions", 4, "--trace", pipe) as server, server.connect() as peer:
            same(server.first_line(), listening(server.address))
            says(peer, "begin", "begun 1", "up 7 1", "done")
            while refused(server, count) < count:
                connections += 1
                holds(connections < 30, "transactions begin again and again")
            before = resident(server)
            same([refused(server, count) for _ in range(5)], [count] * 5, "the begins that were refused")
            after = resident(server)
            holds(after <= before + 2_000_000 and after < 150_000_000, f"{before} bytes, and {after} after more begins")
            says(peer, "up 7 1", "done", "commit", "committed 1")
            notes = [server.next_note(), server.next_note()]
            wanted = [" items wait for the trace, no transaction begins", "the trace has taken nothing for 5 seconds"]
            same(sorted(note.lstrip("0123456789") for note in notes), wanted, "the notes")
            os.set_blocking(reader.fileno(), True)
            with ThreadPoolExecutor(1) as threads:
                text = threads.submit(reader.readall)
                same(server.next_note(), "writing the trace again")
                holds(peer.ask("begin").startswith("begun "), "a transaction begins")
                says(peer, "read 7", "is 2", "commit", "committed 2")
                ends(server, connections, *notes, "writing the trace again", STOPPING)
    same(commits_of(text.result().decode()), [1, 2], "the commits of the trace")


@test(seconds=3)
def trace_has_all_that_was_told(mltx: Program) -> None:
    """Under load, where clients commit and abort: the trace is accepted, and has each commit that a client was told."""
    trace = mltx.folder / "trace"
    with endless(mltx, "--sessions", 8, "--trace", trace) as server:
        with under_load(server) as told:
            time.sleep(2)
        ends(server, 8, STOPPING)
    mltx.accepted(trace)
    found = commits_of(trace.read_text())
    same(found, list(range(1, len(found) + 1)), "the commits of the trace")
    same(sorted(commit for _, commit in told), found, "the commits that clients were told")


@test(seconds=2)
def trace_is_there_while_it_goes(mltx: Program) -> None:
    """What was done stands in the trace some time later, and a transaction that is open at the end is taken back in it."""
    trace = mltx.folder / "trace"
    with endless(mltx, "--trace", trace) as server, server.connect() as peer:
        calls = ("begin", "begun 1"), ("up 7 1", "done"), ("commit", "committed 1"), ("begin", "begun 2"), ("up 7 2", "done")
        for line, told in calls:
            same(peer.ask(line), told, line)
        time.sleep(0.8)
        first = "begin 1\nop 1 up 7 1 done\ncommit 1 1\nbegin 2\nop 2 up 7 2 done\n"
        same(trace.read_text(), first, "the trace while it goes")
        peer.end()
        same(peer.rest(), b"", "what the client hears then")
        ends(server, 1, STOPPING)
    same(trace.read_text(), first + "back 2\nabort 2\n", "the trace at the end")


@test(seconds=2)
def operator_sees_what_is_kept(mltx: Program) -> None:
    """Nothing, some time after it was done, and the limit is one that nobody reaches. It ends by `/stop`."""
    with mltx.serve("--endless", limit=None, admin=free_address()) as server:
        server.limit = MOST_CONNECTIONS
        same(server.first_line(), listening(server.address))
        server.first_line()
        for number in range(1, 4):
            same(server.talk(lines("begin|up 7 1|commit")), lines(f"begun {number}|done|committed {number}").encode(), "a client")
        time.sleep(0.8)
        told = asked(server, "/status")
        names = ("connections", "limit", "begun", "operations", "commits", "items", "bytes")
        same({name: told[name] for name in names}, dict(zip(names, (3, MOST_CONNECTIONS, 3, 3, 3, 0, 0))), "the numbers")
        same(posted(server, "/stop"), (200, {"stopping": True}), "the command")
        expect(server.end(said=""), out="served 3\n", notes=[STOPPING])


@test(seconds=1)
def server_without_clients_ends(mltx: Program) -> None:
    with endless(mltx) as server:
        ends(server, 0, STOPPING)


@test(seconds=2)
def many_connections_are_served(mltx: Program) -> None:
    """More than one, which is the limit of a server that is told none, one after another and some at a time."""
    with endless(mltx, "--sessions", 2) as server:
        threads = [threading.Thread(target=server.talk, args=("begin\nup 1 1\ncommit\n",)) for _ in range(50)]
        for one in threads:
            one.start()
        for one in threads:
            one.join()
        same(server.talk("begin\nread 1\ncommit\n"), b"begun 51\nis 50\ncommitted 51\n", "the last client")
        ends(server, 51, STOPPING)
