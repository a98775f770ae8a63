"""A server that keeps its data in a folder, `--data`, also where it is killed; and runs that begin with a trace."""
import signal
from collections.abc import Iterator
from contextlib import contextmanager
from pathlib import Path

from harness import Program, Server, comes_to_be, each, expect, free_address, holds, lines, listening, same, test
from operating import posted
from serving import IO, STOPPING, held, says

# A trace that leads to a base, and transactions that have not committed.
TRACE = lines("begin 1|op 1 open 3 opened|op 1 deposit 3 50 done|begin 2|op 2 up 7 5 done|commit 1 1|begin 3|op 3 add 4 1 added")
TRACE += lines("commit 3 2")
TRACED = lines("account 3 50|element 4 1")


@contextmanager
def kept(mltx: Program, *options: object, told: str = "") -> Iterator[Server]:
    """A server whose data are in the folder `data`, and which tells this before it listens."""
    with held(mltx).serve("--endless", "--data", mltx.folder / "data", *options, limit=None, admin=free_address()) as server:
        first = server.first_line()
        if told:
            same(first, told)
            first = server.first_line()
        same(first, listening(server.address))
        same(server.first_line(), "mltx: admin on %s:%d\n" % server.admin)
        yield server


def stopped(server: Server, served: int) -> None:
    """Ends it in order."""
    posted(server, "/stop")
    expect(server.end(said="", is_all_noted=False), out=f"served {served}\n", notes=[STOPPING])


def killed(server: Server, trace: Path, last: str) -> None:
    """Kills it, once its trace has this line."""
    comes_to_be(lambda: last in trace.read_text(), f"the trace has {last}")
    server.process.send_signal(signal.SIGKILL)
    server.process.wait()


def data_of(mltx: Program) -> dict[str, str]:
    """The files of the folder, but for that which is locked."""
    return {path.name: path.read_text() for path in (mltx.folder / "data").iterdir() if not path.name.endswith(".lock")}


@test(seconds=2)
def data_after_orderly_ends(mltx: Program) -> None:
    """The base of the first is that of the second, and the files of before are kept."""
    with kept(mltx) as server, server.connect() as peer:
        says(peer, "begin", "begun 1", "up 7 5", "done", "open 3", "opened", "commit", "committed 1")
        says(peer, "begin", "begun 2", "up 7 1", "done")
        stopped(server, 1)
    first = "begin 1\nop 1 up 7 5 done\nop 1 open 3 opened\ncommit 1 1\nbegin 2\nop 2 up 7 1 done\nback 2\nabort 2\n"
    same(data_of(mltx), {"base": "account 3 0\ncounter 7 5\n# commits 1\n", "trace.before": first}, "the folder")
    with kept(mltx) as server, server.connect() as peer:
        says(peer, "begin", "begun 2", "read 7", "is 5", "up 7 1", "done", "commit", "committed 2", "quit", "bye")
        stopped(server, 1)
    found = data_of(mltx)
    same(found["base"], "account 3 0\ncounter 7 6\n# commits 1\n", "the base")
    same(found["base.before"], "account 3 0\ncounter 7 5\n# commits 1\n", "the base of before")
    before = mltx.accepted(mltx.folder / "data/trace.before")
    same(before, "serial 1\nserial 2\naccount 3 0\ncounter 7 6\n", "the trace of before")
    same(sorted(found), ["base", "base.before", "trace.before"], "the files")


@test(seconds=3)
def data_after_kills(mltx: Program) -> None:
    """A server that was killed comes back with all that its trace has, each time."""
    trace = mltx.folder / "data/trace"
    with kept(mltx) as server, server.connect() as peer:
        says(peer, "begin", "begun 1", "up 7 1", "done", "commit", "committed 1", "begin", "begun 2", "up 7 100", "done")
        killed(server, trace, "op 2 up 7 100 done")
    for before in (1, 2, 3):
        commits = before if before == 1 else 2
        with kept(mltx, told=f"mltx: recovered {commits} transactions from {trace}\n") as server, server.connect() as peer:
            says(peer, "begin", "begun 2", "read 7", f"is {before}", "up 7 1", "done", "commit", "committed 2")
            says(peer, "begin", "begun 3")
            killed(server, trace, "begin 3")
        # What was not written whole is left out.
        with trace.open("a") as file:
            file.write("op 3 up 7 1")
    same(data_of(mltx)["base"], "counter 7 3\n# commits 1\n", "the base that the last one began with")


def begins_with(mltx: Program, told: str, *asked: str) -> None:
    """A server over the folder tells this, and its first transaction is answered so. Then it ends in order."""
    with kept(mltx, told=told) as server, server.connect() as peer:
        says(peer, *asked, "abort", "aborted", "quit", "bye")
        stopped(server, 1)


@each(
    {
        # A base of 101 counters takes two transactions, which the trace does not have all.
        "data-of-a-load-that-was-killed": "begin 1\nop 1 up 1 9 done\ncommit 1 1\n",
        "data-of-a-trace-that-is-cut": "begin 1\nop 1 up 1 9 do",
        "data-of-an-empty-trace": "",
    }
)
def base_is_newer(mltx: Program, trace: str) -> None:
    """Where the trace is behind the base, that is what the server begins with."""
    data = mltx.folder / "data"
    data.mkdir()
    base = "".join(f"counter {number} {number}\n" for number in range(1, 102))
    (data / "base").write_text(base + "# commits 2\n")
    (data / "trace").write_text(trace)
    told = f"mltx: {data}/base is newer than {data}/trace\n"
    begins_with(mltx, told, "begin", "begun 3", "read 1", "is 1", "read 101", "is 101")
    same(data_of(mltx)["base"], base + "# commits 2\n", "the base")


@each({"data-put-there-by-hand": "", "data-put-there-by-hand-beside-a-trace": TRACE})
def base_that_is_put_there(mltx: Program, trace: str) -> None:
    """A base without a mark is what a server begins with, also beside a trace, and gets a mark."""
    data = mltx.folder / "data"
    data.mkdir()
    (data / "base").write_text("# By hand.\n\ncounter 7 5")
    if trace:
        (data / "trace").write_text(trace)
    told = f"mltx: {data}/base is newer than {data}/trace\n" if trace else ""
    begins_with(mltx, told, "begin", "begun 2", "read 7", "is 5")
    same(data_of(mltx)["base"], "counter 7 5\n# commits 1\n", "the base")


@test
def trace_that_is_faulty(mltx: Program) -> None:
    """It is kept under another name, and the base is what the server begins with; without one it does not begin."""
    data = mltx.folder / "data"
    data.mkdir()
    (data / "trace").write_text("begin 1\nop 1 up 7 1 over\ncommit 1 1\n")
    told = mltx.run("-v", "serve", "127.0.0.1:0", "--data", data)
    same((told.status, told.err.decode().splitlines()[0]), (1, "mltx: 11 TraceFault line 2 Reply"), "a faulty trace alone")
    (data / "base").write_text("counter 7 5\n")
    with held(mltx).serve("--data", data) as server:
        first = server.first_line()
        holds(first.startswith(f"mltx: {data}/trace is faulty (") and first.endswith(f"; recovered {data}/base\n"), first)
        same(server.first_line(), listening(server.address))
        with server.connect() as peer:
            says(peer, "begin", "begun 2", "read 7", "is 5", "quit", "bye")
        same(server.end(said="").status, 0)
    same([path.read_text().count("over") for path in data.glob("trace.2*")], [1], "the faulty trace")


@test
def two_servers_with_one_folder(mltx: Program) -> None:
    """The second is refused, and the first goes on."""
    with kept(mltx) as server:
        data = mltx.folder / "data"
        told = mltx.run("-v", "serve", "127.0.0.1:0", "--data", data)
        expect(told, status=1, err=f"{IO}mltx: {data}: another server saves its base there\n", what="the second")
        stopped(server, 0)


@each({"solo-begins-with-a-trace": "solo", "run-begins-with-a-trace": "run", "serve-begins-with-a-trace": "serve"})
def begins_with_a_trace(mltx: Program, command: str) -> None:
    """It is read up to its last whole line, and what it has committed is the base."""
    trace = mltx.file("trace", TRACE + "commit 2")
    scripts = mltx.file("scripts", lines("begin|balance 3|read 7|size 4|commit"))
    if command == "serve":
        saved = mltx.folder / "saved"
        with held(mltx).serve("--load", trace, "--save", saved) as server:
            server.first_line()
            with server.connect() as peer:
                says(peer, "begin", "begun 2", "balance 3", "is 50", "read 7", "is 0", "size 4", "is 1", "quit", "bye")
            same(server.end(said="").status, 0)
        same(saved.read_text(), TRACED, "what is saved")
        return
    told = "is 50|is 0|is 1|committed 2"
    shown = lines(told) if command == "solo" else lines("client 0 script 1|" + told) + TRACED
    expect(mltx.run(command, scripts, "--load", trace), out=shown)


@test
def faulty_trace_to_begin_with(mltx: Program) -> None:
    """Its first faulty line is named."""
    trace, scripts = mltx.file("trace", TRACE.replace("opened", "exists")), mltx.file("scripts", "")
    for words in (["solo", scripts], ["run", scripts], ["serve", "%s:%d" % free_address()]):
        told = mltx.run("-v", *words, "--load", trace)
        same(told.status, 1, str(words[0]))
        first, second = told.err.decode().splitlines()
        same(first, "mltx: 11 TraceFault line 2 Reply", str(words[0]))
        holds(second.startswith(f"mltx: {trace}"), second)
