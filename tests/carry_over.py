"""A base that is carried over: `--load` of `solo`, `run` and `serve`, `serve --save`, and `/base` and `/save` of the operator."""
import errno
import os
import random
import resource
import signal
import socket
import threading
import time
from collections.abc import Callable
from concurrent.futures import ThreadPoolExecutor
from dataclasses import replace
from pathlib import Path

from client import raised
from harness import PATIENCE, Failed, Program, Server, each, expect, fault_of, free_address, holds, lines, listening, of_system
from harness import same, takes, test
from operating import DEEPEST, MARK, TEXT, answer, asked, comes, operated, posted
from serving import IO, STOPPING, held, says

from mltx import Operator, UnexpectedAnswer

BASE = lines("account 101 70|account 102 0|account 4294967295 1000000000000000000|element 1 5|element 65535 0|counter 301 50")
SCRIPTS = lines("begin|balance 101|size 1|withdraw 101 20|commit|begin 7|read 301|has 1 5|open 102|abort")


@test
def solo_begins_with_a_base(mltx: Program) -> None:
    """Its transactions have the first numbers and commits, and are not printed. They stand in the trace."""
    trace = mltx.file("trace", "")
    ran = mltx.run("solo", mltx.file("scripts", SCRIPTS), "--load", mltx.file("base", BASE), "--trace", trace)
    expect(ran, out=lines("is 70|is 1|done|committed 2|is 50|yes|exists|aborted"))
    same(mltx.accepted(Path(trace)), lines("serial 1|serial 2") + BASE.replace("101 70", "101 50"), "the trace")


@each({f"loaded-by-{workers}-workers": workers for workers in (1, 2, 8)})
def run_begins_with_a_base(mltx: Program, workers: int) -> None:
    """All clients come after it, and have the numbers that they have without it."""
    ran = mltx.run("run", mltx.file("scripts", SCRIPTS), "--load", mltx.file("base", BASE), "--workers", workers)
    told = lines("client 0 script 1|is 70|is 1|done|committed 2|client 7 script 1|is 50|yes|exists|aborted")
    expect(ran, out=told + BASE.replace("101 70", "101 50"))


@test
def echo_shows_what_was_loaded_nowhere(mltx: Program) -> None:
    scripts, base = mltx.file("scripts", "begin\nbalance 101\ncommit\n"), mltx.file("base", BASE)
    ran = mltx.run("solo", scripts, "--load", base, "--echo")
    expect(ran, out=lines("begin|balance 101    is 70|commit         committed 2"))


@test
def many_objects(mltx: Program) -> None:
    """A transaction has few operations, so that a base takes many. What `run` prints is loaded again, comments and all."""
    base = "# All of them.\n\n" + "".join(f"account {number} {number % 3}\n" for number in range(1_000))
    base += "".join(f"element {number % 2} {number}\n" for number in range(0, 1_000, 2)) + "counter 9 18446744073709551615\n"
    empty = mltx.file("scripts", "")
    printed = base.removeprefix("# All of them.\n\n")
    expect(mltx.run("run", empty, "--load", mltx.file("base", base)), out=printed)
    expect(mltx.run("run", empty, "--load", mltx.file("base", printed)), out=printed)


A_LINE = "a line that begins with account, element or counter"
ACCOUNT = "`account A b`, A below 2^32, b at most 10^18"
ELEMENT = "`element S e`, S below 2^16, e below 2^32"
COUNTER = "`counter C v`, C below 2^32, v at least 1 and below 2^64"
IN_ORDER = "expected: accounts first, then elements, then counters, each by rising numbers and once"


@each(
    {
        "base-word": ("account 1 2|acount 2 3", 2, "Words", f"did you mean `account`? expected: {A_LINE}"),
        "base-number": ("account 4294967296 2", 1, "Words", f"expected: {ACCOUNT}"),
        "base-coins": (
            f"account 1 {10**18 + 1}",
            *(1, "Words", f"`{10**18 + 1}` is too large: an account has at most 10^18 coins; expected: {ACCOUNT}"),
        ),
        "base-set": ("element 65536 1", 1, "Words", f"expected: {ELEMENT}"),
        "base-counter-at-0": ("counter 1 0", 1, "Words", f"`0` is left out: a counter at 0 has no line; expected: {COUNTER}"),
        "base-sign": ("counter 1 -3", 1, "Words", f"`-3` has a sign: numbers have none; expected: {COUNTER}"),
        "base-more-words": ("account 1 2 3", 1, "Words", f"expected: {ACCOUNT}"),
        "base-depth": ("counter 1 2|depth 0", 2, "Words", f"`depth` begins no line here; expected: {A_LINE}"),
        "base-script": ("begin", 1, "Words", f"this is a line of a script for `solo` and `run`; expected: {A_LINE}"),
        "base-twice": ("account 1 2|# one|account 1 3", 3, "Place", IN_ORDER),
        "base-falling": ("account 2 2|account 1 3", 2, "Place", IN_ORDER),
        "base-kinds": ("element 1 2|account 1 2", 2, "Place", IN_ORDER),
        "base-long-line": ("account 1 " + 200 * "0", 1, "Line", "expected: at most 200 bytes"),
        "base-bytes": ("account 1 2|\x07", 2, "Line", "expected: only tabs and bytes from 0x20 to 0x7e, except in comment lines"),
    }
)
def faults_of_a_base(mltx: Program, case: tuple[str, int, str, str]) -> None:
    """The line of the base is named. Nothing is printed, served or saved."""
    rows, line, cause, reason = case
    base, scripts, saved = mltx.file("base", lines(rows)), mltx.file("scripts", SCRIPTS), mltx.file("saved", "as before\n")
    fault = fault_of("mltx", line, cause)
    for words in (["solo", scripts], ["run", scripts]):
        expect(mltx.run(*words, "--load", base), status=1, err=fault, what=str(words[0]))
    address = free_address()
    told = held(mltx).run("serve", "%s:%d" % address, "--save", saved, "--load", base)
    expect(told, status=1, err=listening(address) + fault, what="serve")
    same(Path(saved).read_text(), "as before\n", "the file")
    told = mltx.run("-v", "solo", scripts, "--load", base)
    holds(told.err.decode().startswith(f"{fault}mltx: {base}, line {line}: `"), f"{told}")
    holds(told.err.decode().endswith(f"`: {reason}\n"), f"{told}")


@test
def base_of_another_system(mltx: Program) -> None:
    """A CR before the LF of a line counts for nothing, as in scripts."""
    base = mltx.file("base", BASE.replace("\n", "\r\n"))
    expect(mltx.run("run", mltx.file("scripts", ""), "--load", base), out=BASE)


@test
def fault_behind_a_base(mltx: Program) -> None:
    """The line of a fault is that of the scripts themselves."""
    scripts, base = mltx.file("scripts", "begin\nfoo\ncommit\n"), mltx.file("base", BASE)
    for command in ("solo", "run"):
        expect(mltx.run(command, scripts, "--load", base), status=1, err=fault_of("mltx", 2, "Words"), what=command)


@test
def base_that_has_no_room(mltx: Program) -> None:
    """Nine counters of one pseudokey, of which a bucket takes eight: the ninth is refused, and nothing is printed or served."""
    counters = [f"counter {number << 16} 1" for number in range(1, 10)]
    base, scripts = mltx.file("base", lines("|".join(["counter 1 1", *counters]))), mltx.file("scripts", "begin\ncommit\n")
    reason = f"mltx: 2 NoRoom\nmltx: {base}, line 10: there is no room for this object\n"
    for words in (["solo", scripts], ["run", scripts]):
        expect(mltx.run("-v", *words, "--hash", "low", "--load", base), status=1, err=reason, what=str(words[0]))
    address = free_address()
    told = mltx.run("-v", "serve", "%s:%d" % address, "--hash", "low", "--load", base)
    same((told.status, told.out), (1, b""), "serve")
    holds(told.err.decode().startswith(listening(address)) and told.err.decode().endswith(reason), f"{told}")


@test
def files_of_a_base(mltx: Program) -> None:
    """One that can't be there."""
    scripts, nowhere = mltx.file("scripts", ""), mltx.file("file", "") + "/base"
    for words in (["solo", scripts], ["run", scripts], ["serve", "%s:%d" % free_address()]):
        told = mltx.run("-v", *words, "--load", nowhere)
        expect(told, status=1, err=f"mltx: 13 Io\nmltx: {nowhere}: {os.strerror(20)} (os error 20)\n", what=str(words[0]))


@each({"carried-over": False, "carried-over-endless": True})
def server_carries_its_base_over(mltx: Program, is_endless: bool) -> None:
    """What is saved at the end is what the next one begins with. The one that loads is connection 1, and is not counted."""
    base, saved, trace = mltx.file("base", BASE), mltx.file("base", BASE), mltx.file("trace", "")
    words = ["--load", base, "--save", saved, "--trace", trace, *["--endless"] * is_endless]
    with operated(held(mltx), *words, limit=None if is_endless else 2) as server:
        with server.connect() as peer:
            comes(server, "/sessions", lambda told: [row["client"] for row in told["sessions"]] == [2], "the first client")
            says(peer, "begin", "begun 2", "withdraw 101 20", "done", "add 1 4", "added", "commit", "committed 2", "quit", "bye")
        with server.connect() as peer:
            says(peer, "begin", "begun 3", "deposit 101 5", "done", "quit", "bye")
        if is_endless:
            posted(server, "/stop")
        ended = server.end(said="", is_all_noted=not is_endless)
        expect(ended, out="served 2\n", notes=[STOPPING] * is_endless, what="the server")
    after = BASE.replace("101 70", "101 50").replace("element 1 5", "element 1 4\nelement 1 5")
    same(Path(saved).read_text(), after, "what was saved")
    same(mltx.accepted(Path(trace)), lines("serial 1|serial 2") + after, "the trace")
    expect(mltx.run("run", mltx.file("scripts", ""), "--load", saved), out=after)


# More than a mebibyte of a session's lines, so that these are two pieces of a load.
MANY = 20_000
MANY_OBJECTS = "".join(f"account {number} 50\n" for number in range(MANY))
MANY_OBJECTS += "".join(f"element {number % 4} {number // 4}\n" for number in sorted(range(MANY), key=lambda number: number % 4))
MANY_OBJECTS += "".join(f"counter {number} {2**64 - 1}\n" for number in range(MANY))


@test(seconds=5)
def base_in_pieces(mltx: Program) -> None:
    """What a server has saved, the next one, `solo` and `run` load: first, under the first numbers, and as it was. Clients come
    behind the connections of the load, which no limit counts."""
    base, saved, trace = mltx.file("base", MANY_OBJECTS), mltx.file("saved", ""), mltx.file("trace", "")
    begun = 3 * MANY // 100 + 1
    with operated(held(mltx), "--load", base, "--save", saved, "--trace", trace, limit=1) as server:
        with server.connect() as peer:
            comes(server, "/sessions", lambda told: bool(told["sessions"]), "the first client")
            client = asked(server, "/sessions")["sessions"][0]["client"]
            holds(client > 2, f"the first client is {client}")
            same(asked(server, "/status")["connections"], 1, "connections")
            says(peer, "begin", f"begun {begun}", "balance 7", "is 50", f"read {MANY - 1}", f"is {2**64 - 1}")
            says(peer, "commit", f"committed {begun}", "quit", "bye")
        expect(server.end(said=""), out="served 1\n")
    same(Path(saved).read_text(), MANY_OBJECTS, "what was saved")
    serial = lines("|".join(f"serial {number}" for number in range(1, begun + 1)))
    same(mltx.run("check", "--long", trace).out.decode(), serial + MANY_OBJECTS, "the trace")
    script = mltx.file("script", "begin\nbalance 7\ncommit\n")
    expect(mltx.run("solo", script, "--load", saved), out=f"is 50\ncommitted {begun}\n")
    told = f"client 0 script 1\nis 50\ncommitted {begun}\n"
    expect(mltx.run("run", script, "--load", saved), out=told + MANY_OBJECTS)


@test
def base_of_a_full_server(mltx: Program) -> None:
    """A server that was filled up to the first `NoRoom` is saved, and that is loaded and saved again: both are the same."""
    full, again = mltx.file("full", ""), mltx.file("again", "")
    with operated(held(mltx), "--hash", "low", "--save", full) as server:
        with server.connect() as peer:
            says(peer, "begin", "begun 1")
            for number in range(1, 9):
                says(peer, f"up {number << 16} {2**64 - 1}", "done")
            says(peer, f"up {9 << 16} 1", "error 2 NoRoom", "commit", "committed 1", "quit", "bye")
        posted(server, "/stop")
        same(server.end(said="", is_all_noted=False).status, 0, "the first server")
    with operated(held(mltx), "--hash", "low", "--load", full, "--save", again) as server:
        comes(server, "/status", lambda told: told["commits"] == 1, "the base is loaded")
        posted(server, "/stop")
        expect(server.end(said="", is_all_noted=False), out="served 0\n", notes=[STOPPING], what="the second server")
    same(Path(again).read_text(), Path(full).read_text(), "what was saved again")
    counters = "".join(f"counter {number << 16} {2**64 - 1}\n" for number in range(1, 9))
    same(Path(again).read_text(), counters, "what was saved")


@each({"stopped-while-it-loads": False, "signalled-while-it-loads": True}, seconds=2)
def server_that_loads(mltx: Program, is_signalled: bool) -> None:
    """It answers its operator meanwhile, and ends at once where it is to end. Nothing is saved, and FILE stays as it was."""
    text = "".join(f"account {number} 50\n" for number in range(400_000))
    base = mltx.file("base", text)
    with operated(held(mltx), "--endless", "--load", base, "--save", base, limit=None) as server:
        told = asked(server, "/status")
        same((told["connections"], told["loading"], told["stopping"]), (0, 1, 0), "the server while it loads")
        told = answer(server, "/save", "POST", MARK)
        same(told, (503, TEXT, b"The base is still being loaded.\n"), "a base that is not loaded yet")
        same(answer(server, "/ready"), told, "whether it is ready")
        same(answer(server, "/live"), (200, TEXT, b"live\n"), "whether it answers")
        if is_signalled:
            server.process.send_signal(signal.SIGTERM)
        else:
            posted(server, "/stop")
        with takes(0, 1.5, "the end of a server that loads"):
            ended = server.end(said="", is_all_noted=False)
        said = f"mltx: stopped while loading {base}; nothing was saved\n"
        # On a fast machine the directory is as deep as it may be before the load ends.
        holds(ended.notes in ((), (DEEPEST,)), f"the notes of a server that loads: {ended.notes}")
        expect(replace(ended, notes=()), out="", err=said, what="a server that loads")
    same(Path(base).read_text(), text, "the base")


# Saving.


def files_beside(file: Path) -> list[str]:
    """What stands in the folder of a file beside it, but for what the tests put there."""
    return sorted(it.name for it in file.parent.iterdir() if it != file and it.name not in ("held", "scripts", "shim.so"))


def saves(mltx: Program, saved: object, base: str = "counter 1 1\n") -> None:
    """A server saves this base there."""
    with held(mltx).serve("--save", saved) as server:
        server.talk("".join(f"begin\nup {row.split()[1]} {row.split()[2]}\ncommit\n" for row in base.splitlines()))
        expect(server.end(), out="served 1\n", what=f"--save {saved}")


@test
def save_makes_and_replaces_a_file(mltx: Program) -> None:
    """Its rights stay, and only what locks it is left beside it. A file that could be the new one keeps its data."""
    saved, new, other = mltx.folder / "saved", mltx.folder / "saved.new", Path(mltx.file("other", "another file\n"))
    saves(mltx, saved)
    same((saved.read_text(), files_beside(saved)), ("counter 1 1\n", ["other", "saved.lock"]), "what is made")
    saved.chmod(0o640)
    new.write_text("data\n")
    now = int(time.time())
    for at in range(now, now + PATIENCE):
        Path(f"{new}.{time.strftime('%Y-%m-%dT%H-%M-%SZ', time.gmtime(at))}").symlink_to(other)
    before = files_beside(saved)
    saves(mltx, "saved", "counter 2 7\n")
    same((saved.read_text(), saved.stat().st_mode & 0o777), ("counter 2 7\n", 0o640), "what replaces it")
    same((files_beside(saved), new.read_text(), other.read_text()), (before, "data\n", "another file\n"), "what is beside it")


@test
def save_follows_a_link(mltx: Program) -> None:
    """The file that it leads to is replaced, and the link stays."""
    (mltx.folder / "data").mkdir()
    file, link = mltx.folder / "data/file", mltx.folder / "link"
    file.write_text("counter 9 9\n")
    link.symlink_to("data/file")
    saves(mltx, link)
    same((file.read_text(), os.readlink(link)), ("counter 1 1\n", "data/file"), "the file and the link")
    same(files_beside(file), ["file.lock"], "what is left beside the file")


def bad_places(mltx: Program) -> list[tuple[object, str]]:
    """Where nothing can be saved, and why."""
    folder, fifo, plain = mltx.folder / "folder", mltx.folder / "fifo", mltx.file("plain", "")
    folder.mkdir()
    os.mkfifo(fifo)
    named = socket.socket(socket.AF_UNIX)
    named.bind(str(mltx.folder / "socket"))
    named.close()
    (mltx.folder / "link").symlink_to("nothing")
    (mltx.folder / "to-folder").symlink_to("folder")
    missing, no_folder = of_system(errno.ENOENT), of_system(errno.ENOTDIR)
    return [
        *((place, "it is a folder") for place in (folder, "to-folder", ".", "folder/", "/")),
        *((place, "it is no regular file") for place in (fifo, "socket")),
        *((place, missing) for place in ("missing/file", "missing/", "")),
        *(("link", "it is a symlink that leads to no file"), (plain + "/file", no_folder)),
        ("x" * 255, of_system(errno.ENAMETOOLONG)),
    ]


@test
def save_is_refused_at_the_start(mltx: Program) -> None:
    """Where the file can't be replaced, nothing is served, and nothing is made."""
    places = bad_places(mltx)
    before = files_beside(mltx.folder / "plain")
    for place, reason in places:
        told = mltx.run("-v", "serve", "%s:%d" % free_address(), "--save", place)
        expect(told, status=1, err=f"{IO}mltx: {place}: {reason}\n", what=f"--save {place}")
    same(files_beside(mltx.folder / "plain"), before, "what stands there")


@test
def two_servers_that_save_in_one_file(mltx: Program) -> None:
    """The second does not start, whether the file is there or not, nor by a link to it. One that is killed is in nobody's way."""
    saved, link = mltx.folder / "saved", mltx.folder / "link"
    for base in ("", "counter 1 1\n"):
        with held(mltx).serve("--save", saved) as server, server.connect() as peer:
            same(server.first_line(), listening(server.address))
            link.unlink(missing_ok=True)
            link.symlink_to(saved)
            for place in (saved, link) if base else (saved,):
                reason = f"{IO}mltx: {place}: another server saves its base there\n"
                expect(mltx.run("-v", "serve", "127.0.0.1:0", "--save", place), status=1, err=reason)
            says(peer, "begin", "begun 1", "up 1 1", "done", "commit", "committed 1", "quit", "bye")
            expect(server.end(said=""), out="served 1\n")
        same(saved.read_text(), "counter 1 1\n", "what is saved")
    with held(mltx).serve("--save", saved) as server:
        server.connect()
        server.kill()
    saves(mltx, saved, "counter 2 7\n")
    same(saved.read_text(), "counter 2 7\n", "what is saved after a kill")


ONES = "".join(f"counter {number} 1\n" for number in range(1_000))


def fails_to_save(mltx: Program, does: Callable[[Path, Server], None], fault: int) -> str | None:
    """A server does not save where this is done before it ends: it has not `served`. What the file holds that has its base, if
    one does."""
    (mltx.folder / "data").mkdir()
    saved = Path(mltx.file("data/saved", "counter 9 9\n"))
    with held(mltx).serve("--save", saved) as server, server.connect() as peer:
        same(server.first_line(), listening(server.address))
        ups = [word for number in range(1_000) for word in (f"up {number} 1", "done")]
        says(peer, "begin", "begun 1", *ups, "commit", "committed 1")
        does(saved, server)
        says(peer, "quit", "bye")
        ended = server.end(said="", is_all_noted=False)
    left = [*saved.parent.glob("saved.new*"), *mltx.folder.glob("mltx-unsaved.*")]
    name = left and str(left[0]).removeprefix(f"{mltx.folder}/" if left[0].parent == mltx.folder else "")
    where = f"what was to be saved is in {name}" if left else "the file is as it was"
    expect(ended, status=1, err=f"{IO}mltx: {saved}: {of_system(fault)}; {where}\n")
    return left[0].read_text() if left else None


@test
def save_beyond_the_limit_of_a_file(mltx: Program) -> None:
    """As on a full disk: the file is as it was, and nothing is left beside it."""
    def limit(_: Path, server: Server) -> None:
        resource.prlimit(server.process.pid, resource.RLIMIT_FSIZE, (5_000, 5_000))

    same(fails_to_save(mltx, limit, errno.EFBIG), None, "the file that has it")
    same((mltx.folder / "data/saved").read_text(), "counter 9 9\n", "the file")


@test
def save_that_finds_a_folder(mltx: Program) -> None:
    """What can't take the place of a file stays beside it, whole."""
    def make_folder(saved: Path, _: Server) -> None:
        saved.unlink()
        saved.mkdir()

    same(fails_to_save(mltx, make_folder, errno.EISDIR), ONES, "the file that has it")


@test
def save_whose_folder_is_gone(mltx: Program) -> None:
    """The base stands in the current folder, for nobody else to read."""
    def move(saved: Path, _: Server) -> None:
        saved.parent.rename(mltx.folder / "moved")

    same(fails_to_save(mltx, move, errno.ENOENT), ONES, "the file that has it")
    same([path.stat().st_mode & 0o777 for path in mltx.folder.glob("mltx-unsaved.*")], [0o600], "its rights")
    same((mltx.folder / "moved/saved").read_text(), "counter 9 9\n", "the file")


@each({f"save-at-{it.name.lower()}": it for it in (signal.SIGTERM, signal.SIGINT, signal.SIGHUP)})
def save_at_a_signal(mltx: Program, number: signal.Signals) -> None:
    """It is done where the server is started as it is installed; if not, that is told at the start."""
    saved = Path(mltx.file("saved", "counter 9 9\n"))
    told = "mltx: a signal ends this server at once, and saves nothing: `mltx serve --help` says how to start it\n"
    for program, base, status in ((mltx, "counter 9 9\n", -number), (held(mltx), "counter 1 1\n", 0)):
        with program.serve("--save", saved, limit=9) as server, server.connect() as peer:
            says(peer, "begin", "begun 1", "up 1 1", "done", "commit", "committed 1", "begin", "begun 2", "up 2 1", "done")
            server.process.send_signal(number)
            ended = server.end(is_all_noted=False)
        same((ended.status, ended.err), (status, told.encode() if status else b""), f"the end by {number.name}")
        same(saved.read_text(), base, "the file")


def objects(server: Server, query: str) -> tuple[list[tuple[int, int | None]], int | None]:
    """What `/base` lists in one answer, by rising numbers, and the place behind it."""
    told = asked(server, "/base?" + query)
    same(list(told), ["objects", "next"], query)
    listed = [(row["number"], row.get("value")) for row in told["objects"]]
    same(listed, sorted(listed), query)
    return listed, told["next"]


def all_objects(server: Server, query: str) -> list[list[tuple[int, int | None]]]:
    """What all answers list, up to the last place."""
    answers: list[list[tuple[int, int | None]]] = []
    place: int | None = 0
    while place is not None:
        listed, following = objects(server, f"{query}&from={place}")
        holds(following is None or place < following < 2**32, f"{following} behind {place}")
        answers.append(listed)
        place = following
    return answers


NO_LISTS = [
    *("", "kind=size", "kind=set", "kind=set&of=65536", "kind=account&from=-1", "kind=account&from=4294967296", "of=7", "kind"),
    *("kind=account&of=7", "kind=set&of=7&of=8", "kind=account&kind=account", "kind=account&x=1", "kind=account&from=1&from=1"),
    *("kind=account&", "kind=%61ccount"),
]


@test(seconds=1)
def objects_place_by_place(mltx: Program) -> None:
    """Each object once, with what transactions have done that are open; some thousand at a time."""
    base = BASE + "".join(f"counter {number} {number}\n" for number in range(1_000, 3_500))
    with operated(mltx, "--load", mltx.file("base", base)) as server, server.connect() as peer:
        comes(server, "/status", lambda told: told["loading"] == 0, "the base is loaded")
        accounts = [(101, 70), (102, 0), (2**32 - 1, 10**18)]
        counters = [(301, 50), *((number, number) for number in range(1_000, 3_500))]
        same(objects(server, "kind=account"), (accounts, None), "accounts")
        same(objects(server, "from=0&kind=account"), (accounts, None), "accounts from place 0 on")
        same(objects(server, "kind=set&of=1"), ([(5, None)], None), "the elements of a set")
        same(objects(server, "kind=set&of=2"), ([], None), "the elements of an empty set")
        answers = all_objects(server, "kind=counter")
        same(sorted(sum(answers, [])), counters, "all counters")
        holds(all(1_000 <= len(listed) < 1_100 for listed in answers[:-1]), f"{[len(listed) for listed in answers]}")
        operator = Operator(*server.admin)
        same(sorted(operator.objects("counter")), counters, "all counters, by the client")
        same(list(operator.objects("set", 65_535)), [(0, None)], "the elements of a set, by the client")
        raised(UnexpectedAnswer, lambda: list(operator.objects("size")))
        says(peer, "begin", "begun 27", "close 102", "closed", "deposit 101 1", "done", "add 1 0", "added")
        same(objects(server, "kind=account"), ([(101, 71), accounts[2]], None), "accounts, before the commit")
        same(objects(server, "kind=set&of=1"), ([(0, None), (5, None)], None), "elements, before the commit")
        says(peer, "abort", "aborted")
        same(objects(server, "kind=account"), (accounts, None), "accounts, behind the abort")
        for query in NO_LISTS:
            status, kind, body = answer(server, "/base?" + query)
            same((status, kind), (400, TEXT), query)
            holds(body.startswith(b"Expected /base?kind=account, "), f"{body!r}")


@test
def objects_from_a_place_on(mltx: Program) -> None:
    """A place is the first 32 bits of a pseudokey: with `low` those of account a are a mod 2^16, and 16 zeros. A list has just
    the objects from its place on, also where others of their buckets are before it."""
    numbers = [*range(300), 65_536 + 7]
    base = "".join(f"account {number} 1\n" for number in numbers)
    with operated(mltx, "--hash", "low", "--load", mltx.file("base", base)) as server:
        comes(server, "/status", lambda told: told["loading"] == 0, "the base is loaded")
        for first in (0, 1, 7, 8, 150, 299):
            for place, least in ((first << 16, first), ((first << 16) + 1, first + 1), ((first << 16) + 65_535, first + 1)):
                there = [(number, 1) for number in numbers if number % 65_536 >= least]
                same(objects(server, f"kind=account&from={place}"), (there, None), f"accounts from place {place} on")
        same(objects(server, f"kind=account&from={2**32 - 1}"), ([], None), "accounts from the last place on")


@test(seconds=2)
def objects_beside_splits(mltx: Program) -> None:
    """Whoever goes on from place to place gets each object once that is there all the time, however many come meanwhile."""
    base = "".join(f"account {number} 1\n" for number in range(0, 20_000, 10))
    with operated(mltx, "--load", mltx.file("base", base)) as server, server.connect() as peer:
        comes(server, "/status", lambda told: told["loading"] == 0, "the base is loaded")
        first, place = objects(server, "kind=account")
        listed = list(first)
        for start in range(1, 20_000, 2_000):
            peer.send("begin\n" + "".join(f"open {number}\n" for number in range(start, start + 2_000, 10)) + "commit\n")
            told = [peer.line() for _ in range(202)]
            holds(told[-1].startswith("committed "), f"{told[-1]!r}")
        while place is not None:
            more, place = objects(server, f"kind=account&from={place}")
            listed += more
        same(len(listed), len(set(listed)), "objects that are listed, and different ones")
        there = [(number, 1) for number in range(0, 20_000, 10)]
        same(sorted(row for row in listed if row[1] == 1), there, "the objects that are there all the time")


def saved_now(server: Server) -> int:
    """Saves the base, and tells how many commits it has."""
    status, told = posted(server, "/save")
    if status != 200 or not isinstance(told, dict) or list(told) != ["saved", "commits"] or told["saved"] is not True:
        raise Failed(f"{status} {told}")
    return int(told["commits"])


@each({"saved-in-between": False, "saved-in-between-endless": True})
def server_saves_while_it_runs(mltx: Program, is_endless: bool) -> None:
    """Just what has committed, with what open transactions have done taken back; and again at the end."""
    saved = Path(mltx.file("base", ""))
    words = ["--load", mltx.file("base", BASE), "--save", saved, *["--endless"] * is_endless]
    with operated(held(mltx), *words, limit=None if is_endless else 2) as server:
        comes(server, "/status", lambda told: told["loading"] == 0, "the base is loaded")
        same(asked(server, "/status")["saves"], 1, "whether it saves")
        with server.connect() as peer, server.connect() as other:
            same((saved_now(server), saved.read_text()), (1, BASE), "before anything is done")
            says(peer, "begin", "begun 2", "withdraw 101 20", "done", "add 1 4", "added", "close 102", "closed")
            says(other, "begin", "begun 3", "up 301 5", "done", "remove 1 5", "removed")
            same((saved_now(server), saved.read_text()), (1, BASE), "beside two open transactions")
            says(peer, "commit", "committed 2")
            after = BASE.replace("101 70", "101 50").replace("account 102 0\n", "")
            after = after.replace("element 1 5", "element 1 4\nelement 1 5")
            same((saved_now(server), saved.read_text()), (2, after), "beside one")
            says(other, "abort", "aborted", "quit", "bye")
            says(peer, "begin", "begun 4", "up 301 1", "done", "commit", "committed 3", "quit", "bye")
        if is_endless:
            posted(server, "/stop")
        ended = server.end(said="", is_all_noted=not is_endless)
        expect(ended, out="served 2\n", notes=[STOPPING] * is_endless, what="the server")
    same(saved.read_text(), after.replace("counter 301 50", "counter 301 51"), "at the end")


def moves_coins(server: Server, seed: int, ended: threading.Event) -> None:
    """Moves a coin from one of 64 accounts to another one by one transaction after another, and commits or aborts it."""
    chance = random.Random(seed)
    with server.connect() as peer:
        while not ended.is_set():
            poor, rich = chance.sample(range(64), 2)
            end = chance.choice(["commit", "abort"])
            peer.send(f"begin\nwithdraw {poor} 1\ndeposit {rich} 1\n{end}\n")
            told = [peer.line() for _ in range(4)]
            same(told[1:3], ["done", "done"], "a withdrawal and a deposit")


@test(seconds=3)
def sums_of_saved_bases(mltx: Program) -> None:
    """While transactions move coins all the time, each saved base has all coins: it is that of one moment between two events."""
    base = "".join(f"account {number} 1000000\n" for number in range(64))
    saved = Path(mltx.file("base", ""))
    with operated(held(mltx), "--load", mltx.file("base", base), "--save", saved, "--sessions", 6) as server:
        ended = threading.Event()
        with ThreadPoolExecutor(4) as pool:
            moving = [pool.submit(moves_coins, server, seed, ended) for seed in range(4)]
            commits = [1]
            for _ in range(20):
                commits.append(saved_now(server))
                rows = [row.split() for row in saved.read_text().splitlines()]
                same([int(number) for _, number, _ in rows], list(range(64)), "the accounts")
                same(sum(int(coins) for _, _, coins in rows), 64_000_000, "all coins")
            ended.set()
            for one in moving:
                one.result()
        holds(commits == sorted(commits) and commits[-1] > commits[1], f"{commits}")


@test
def base_that_cannot_be_saved(mltx: Program) -> None:
    """The server says why, and goes on; the file stays as it was."""
    folder = mltx.folder / "gone"
    folder.mkdir()
    with operated(held(mltx), "--save", folder / "base") as server, server.connect() as peer:
        says(peer, "begin", "begun 1", "up 7 1", "done", "commit", "committed 1")
        same((saved_now(server), Operator(*server.admin).save()), (1, 1), "commits")
        folder.rename(mltx.folder / "moved")
        status, kind, body = answer(server, "/save", "POST", MARK)
        same((status, kind), (500, TEXT), "a save into no folder")
        holds(body.startswith(b"The base was not saved: " + os.strerror(2).encode()), f"{body!r}")
        raised(UnexpectedAnswer, Operator(*server.admin).save)
        same((mltx.folder / "moved" / "base").read_text(), "counter 7 1\n", "the file")
        says(peer, "begin", "begun 2", "up 7 1", "done", "commit", "committed 2")
        (mltx.folder / "moved").rename(folder)
        same((saved_now(server), (folder / "base").read_text()), (2, "counter 7 2\n"), "a save once there is a folder again")
