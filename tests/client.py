"""The client in Python: each call and its replies, what it raises, transactions that are run again, connections that
end anywhere, and pipelines. All that was done stands in the server's trace, which `check` accepts."""
from __future__ import annotations

import ast
import base64
import contextlib
import csv
import enum
import hashlib
import importlib.util
import os
import re
import shutil
import socket
import subprocess
import sys
import threading
import time
import zipfile
from collections import defaultdict
from collections.abc import Callable, Iterable
from concurrent.futures import Future, ThreadPoolExecutor
from email.parser import BytesParser
from pathlib import Path
from typing import TypeVar
from unittest import mock

from harness import BROKEN, BY_OPERATOR, PATIENCE, ROOT, Address, Program, Server, comes_to_be, cut_for, each, expect
from harness import free_address, holds, lines, match, same, test
from serving import NO_SESSION

FOLDER = ROOT / "clients/python"
sys.path.insert(0, str(FOLDER))
import mltx as client_module  # noqa: E402
from mltx import core, errors  # noqa: E402
from mltx import FORMS, Client, CommitUnknown, ConnectionLost, GaveUp, LogFull, NoRoom, NoSuchClient, NoSuchTx  # noqa: E402
from mltx import OpenTransaction, Operation, Operator, OutOfMemory, PartlyDone, Refused, Reply, Retries, Running  # noqa: E402
from mltx import ScriptFault, ServedSession, ServerAway, ServerRestarted, SessionsTaken, TimedOut, Transaction  # noqa: E402
from mltx import TransactionOver, UnexpectedAnswer, Wait  # noqa: E402

# How long to listen for a line that must not come, in seconds.
SILENCE = 0.2
Raised = TypeVar("Raised", bound=Exception)
# Retries that do not stop before a test does.
PATIENT = Retries(attempts=10_000, first_pause=0.001, longest_pause=0.05, connects=10_000)


def connected(server: Server | Relay, retries: Retries = Retries(), answer_timeout: float | None = None) -> Client:
    """A client that has connected, as soon as the server is there."""
    client, until = Client(*server.address, retries=retries, answer_timeout=answer_timeout), time.monotonic() + server.timeout
    while True:
        try:
            client.session()
            return client
        except ServerAway:
            holds(server.process.poll() is None and time.monotonic() < until, "the server is not there")
            time.sleep(0.01)


def raised(kind: type[Raised], call: Callable[..., object], *arguments: object) -> Raised:
    """What the call raises, which is just of this kind."""
    try:
        answer = call(*arguments)
    except kind as error:
        same(type(error), kind, f"what is raised: {error!r}")
        return error
    raise AssertionError(f"{kind.__name__} is not raised, but {answer!r} is answered")


def ends_well(mltx: Program, server: Server, trace: Path, *, served: int, checked: str) -> None:
    """Fails where the server ends otherwise, or `check` says anything else of its trace."""
    expect(server.end(), out=f"served {served}\n", what="the server")
    expect(mltx.check(trace), out=lines(checked), what="the check of the trace")


# Operations of one transaction, and the result of each.
RESULTS = [
    ("close", (1,), Reply.MISSING),
    ("deposit", (1, 1), Reply.MISSING),
    ("withdraw", (1, 1), Reply.MISSING),
    ("balance", (1,), None),
    ("open", (1,), Reply.OPENED),
    ("open", (1,), Reply.EXISTS),
    ("balance", (1,), 0),
    ("withdraw", (1, 1), Reply.SHORT),
    ("deposit", (1, 10**18), Reply.DONE),
    ("deposit", (1, 2**64 - 1), Reply.OVER),
    ("close", (1,), Reply.NOT_EMPTY),
    ("balance", (1,), 10**18),
    ("withdraw", (1, 10**18), Reply.DONE),
    ("close", (1,), Reply.CLOSED),
    ("remove", (2, 3), Reply.ABSENT),
    ("has", (2, 3), False),
    ("size", (2,), 0),
    ("add", (2, 3), Reply.ADDED),
    ("add", (2, 3), Reply.PRESENT),
    ("has", (2, 3), True),
    ("size", (2,), 1),
    ("remove", (2, 3), Reply.REMOVED),
    ("down", (4, 1), Reply.DONE),
    ("read", (4,), 2**64 - 1),
    ("up", (4, 3), Reply.DONE),
    ("read", (4,), 2),
    ("open", (2**32 - 1,), Reply.OPENED),
    ("add", (2**16 - 1, 2**32 - 1), Reply.ADDED),
    ("size", (2**16 - 1,), 1),
    ("up", (2**32 - 1, 2**64 - 1), Reply.DONE),
]


@test
def each_call_has_each_reply(mltx: Program) -> None:
    """Each call one by one, and all in one pipeline after that was taken back: the same results."""
    trace = mltx.folder / "trace"
    with mltx.serve("--trace", trace) as server, connected(server) as client:
        with client.begin() as tx:
            for word, numbers, result in RESULTS:
                same(getattr(tx, word)(*numbers), result, f"{word} {numbers}")
            tx.abort()
        with client.begin() as tx:
            told = tx.ask_all([getattr(Operation, word)(*numbers) for word, numbers, _ in RESULTS])
            same(told, [result for _, _, result in RESULTS], "the pipeline")
        same((tx.number, tx.commit_number, tx.is_open), (2, 1, False), "the transaction")
        client.close()
        base = "account 4294967295 0|element 65535 4294967295|counter 4 2|counter 4294967295 18446744073709551615"
        ends_well(mltx, server, trace, served=1, checked=f"serial 2|{base}")


def replies_of_language() -> dict[str, set[str]]:
    """The replies of each operation, as the tables of docs/LANGUAGE.md have them."""
    text, found = (ROOT / "docs/LANGUAGE.md").read_text(), defaultdict[str, set[str]](set)
    for title in ("Accounts", "Elements", "Sizes", "Counters"):
        table = text.partition(f"\n## {title}\n")[2].partition("\n## ")[0]
        for words, reply in re.findall(r"(?m)^\| ([a-z, ]+?)(?: n)? / (\w+)", table):
            for word in words.split(", "):
                found[word].add(reply)
    return found


@test
def client_knows_the_replies_of_language(_mltx: Program) -> None:
    """Each operation has the replies that LANGUAGE lists, and no others; each of them comes in the test above."""
    known = {word: {reply.value for reply in form.results} for word, form in FORMS.items()}
    known = {word: replies | ({"is"} if FORMS[word].tells_number else set()) for word, replies in known.items()}
    wanted_replies = replies_of_language()
    wanted_replies["up"] = wanted_replies["down"] = {"done"}
    same(known, wanted_replies, "the replies of each operation")
    tried = {(word, "is" if FORMS[word].tells_number and result is not None else result) for word, _, result in RESULTS}
    wanted = {(word, result) for word, form in FORMS.items() for result in form.results.values()}
    same(tried, wanted | {(word, "is") for word, form in FORMS.items() if form.tells_number}, "what is tried")


def installed(folder: Path) -> Path:
    """The folder of what pip installs, from a copy of the sources and without network. Where there is no pip, it is the wheel
    itself, from which Python imports too."""
    source, target = folder / "source", folder / "target"
    shutil.copytree(FOLDER, source, ignore=shutil.ignore_patterns("__pycache__"))
    build = "import build_wheel; print(build_wheel.build_wheel('..'))"
    has_pip = importlib.util.find_spec("pip")
    words: list[str | Path] = ["-m", "pip", "install", "--no-index", "--target", target, source]
    words = words if has_pip else ["-c", build]
    made = subprocess.run([sys.executable, "-B", *words], cwd=source, capture_output=True, text=True, timeout=PATIENCE)
    same(made.returncode, 0, f"the installation: {made.stderr}")
    return target if has_pip else folder / made.stdout.strip()


@test(seconds=4)
def client_can_be_installed(mltx: Program) -> None:
    """The package is there, away from the sources; the prompt is a command; the version is the program's."""
    target = installed(mltx.folder)
    env = {**os.environ, "PYTHONPATH": str(target), "PYTHONDONTWRITEBYTECODE": "1"}
    code = "import importlib.metadata as told, mltx.aio as it, mltx; "
    code += "print(mltx.__file__, mltx.__version__, it.__name__, told.version('mltx-client'))"
    found = subprocess.run([sys.executable, "-c", code], cwd=mltx.folder, capture_output=True, text=True, env=env)
    version = mltx.run("--version").out.decode().split()[1]
    wanted = f"{target}/mltx/__init__.py {version} mltx.aio {version}\n"
    same(found.stdout, wanted, f"the package and its version: {found.stderr}")
    code = "import mltx, importlib.resources as told; print((told.files(mltx) / 'py.typed').is_file())"
    found = subprocess.run([sys.executable, "-c", code], cwd=mltx.folder, capture_output=True, text=True, env=env)
    same(found.stdout, "True\n", f"whether it says that it has types: {found.stderr}")
    command: list[str | Path] = [target / "bin/mltx-shell"] if target.is_dir() else [sys.executable, "-m", "mltx.shell"]
    with mltx.serve(limit=2) as server:
        connected(server).close()
        words = [*command, "%s:%d" % server.address]
        given = "begin\nup 7 1\ncommit\n"
        ran = subprocess.run(words, input=given, capture_output=True, text=True, env=env, timeout=PATIENCE)
        same((ran.returncode, ran.stdout, ran.stderr), (0, "begun 1\ndone\ncommitted 1\n", ""), "the command")


def built(source: Path, kind: str, folder: Path) -> Path:
    """What the sources of the client build there, in a folder."""
    folder.mkdir()
    code = f"import build_wheel; print(build_wheel.build_{kind}({str(folder)!r}))"
    made = subprocess.run([sys.executable, "-B", "-c", code], cwd=source, capture_output=True, text=True, timeout=PATIENCE)
    same(made.returncode, 0, f"the build: {made.stderr}")
    return folder / made.stdout.strip()


@test
def client_is_built_to_the_same_bytes(mltx: Program) -> None:
    """By each clone, at any time; from a package of sources comes the same wheel, whose files and digests are all there."""
    other, sources = mltx.folder / "other/clients/python", mltx.folder / "sources"
    shutil.copytree(FOLDER, other, ignore=shutil.ignore_patterns("__pycache__"))
    for name in ("LICENSE-MIT", "LICENSE-APACHE"):
        shutil.copy(ROOT / name, mltx.folder / "other")
    for path in other.rglob("*"):
        os.utime(path, (10**9, 10**9))
        path.chmod(0o700)
    wheels = [built(source, "wheel", mltx.folder / name) for name, source in (("a", FOLDER), ("b", other))]
    packages = [built(source, "sdist", mltx.folder / name) for name, source in (("c", FOLDER), ("d", other))]
    shutil.unpack_archive(packages[0], sources)
    wheels.append(built(next(sources.iterdir()), "wheel", mltx.folder / "e"))
    same([it.name for it in packages + wheels], [packages[0].name] * 2 + [wheels[0].name] * 3, "the names")
    same(len({it.read_bytes() for it in packages}), 1, "the packages of sources")
    same(len({it.read_bytes() for it in wheels}), 1, "the wheels")
    with zipfile.ZipFile(wheels[0]) as wheel:
        names = {name for name in wheel.namelist() if name.startswith("mltx/")}
        same(names, {it.relative_to(FOLDER).as_posix() for it in FOLDER.glob("mltx/*") if it.is_file()}, "the modules")
        (info,) = {name.partition("/")[0] for name in wheel.namelist()} - {"mltx"}
        metadata = BytesParser().parsebytes(wheel.read(f"{info}/METADATA"))
        same(metadata["License-Expression"], "MIT OR Apache-2.0")
        holds(metadata["Author"] in (ROOT / "LICENSE-MIT").read_text(), "the author is the licence's")
        for name in metadata.get_all("License-File", []):
            same(wheel.read(f"{info}/licenses/{name}"), (ROOT / name).read_bytes(), name)
        for name, digest, length in csv.reader(wheel.read(f"{info}/RECORD").decode().splitlines()):
            found = hashlib.sha256(wheel.read(name)).digest()
            wanted = ("sha256=" + base64.urlsafe_b64encode(found).decode().rstrip("="), str(wheel.getinfo(name).file_size))
            holds(name.endswith("/RECORD") or (digest, length) == wanted, f"the digest of {name}")


@test
def client_is_installed_as_it_is_edited(mltx: Program) -> None:
    """An editable installation imports from the sources."""
    with zipfile.ZipFile(built(FOLDER, "editable", mltx.folder / "wheel")) as wheel:
        wheel.extractall(mltx.folder / "site")
    code = f"import site; site.addsitedir({str(mltx.folder / 'site')!r}); import mltx, importlib.metadata as told; "
    code += "print(mltx.__file__, told.version('mltx-client') == mltx.__version__)"
    found = subprocess.run([sys.executable, "-B", "-c", code], cwd=mltx.folder, capture_output=True, text=True)
    same(found.stdout, f"{FOLDER / 'mltx/__init__.py'} True\n", f"the package: {found.stderr}")


# How the prompt is started, and the name of its usage line.
PROMPTS = {
    "usage-of-the-prompt": ([sys.executable, "-B", "-m", "mltx"], "python3 -m mltx"),
    "usage-of-the-installed-prompt": ([sys.executable, "-B", "-c", "import mltx.shell as it; it.main()"], "mltx-shell"),
    "usage-of-mltx-shell": ([str(ROOT / "mltx"), "shell"], "mltx shell"),
}


@each(PROMPTS)
def usage_of_a_prompt(_mltx: Program, case: tuple[list[str], str]) -> None:
    words, name = case
    env = {**os.environ, "PYTHONPATH": str(FOLDER), "PYTHONDONTWRITEBYTECODE": "1"}
    ran = subprocess.run([*words, "--help"], capture_output=True, text=True, env=env, timeout=PATIENCE)
    same((ran.stdout.partition(" [")[0], ran.returncode), (f"usage: {name}", 0), ran.stderr)


@test
def client_is_python_3_9(_mltx: Program) -> None:
    files = [*FOLDER.glob("*.py"), *FOLDER.glob("mltx/*.py")]
    holds(len(files) > 5, "there are files")
    for file in files:
        ast.parse(file.read_text(), feature_version=(3, 9))


# Calls with a number that is none of their range, and what is said of it.
OUT_OF_RANGE = [
    (ValueError, "open", (-1,), "account has to be 0 to 4294967295, and is -1"),
    (ValueError, "balance", (2**32,), "account has to be 0 to 4294967295, and is 4294967296"),
    (ValueError, "deposit", (1, -1), "amount has to be 0 to 18446744073709551615, and is -1"),
    (ValueError, "withdraw", (1, 2**64), "amount has to be 0 to 18446744073709551615, and is 18446744073709551616"),
    (ValueError, "add", (2**16, 0), "set has to be 0 to 65535, and is 65536"),
    (ValueError, "has", (0, 2**32), "element has to be 0 to 4294967295, and is 4294967296"),
    (ValueError, "size", (2**16,), "set has to be 0 to 65535, and is 65536"),
    (ValueError, "read", (2**32,), "counter has to be 0 to 4294967295, and is 4294967296"),
    (TypeError, "up", (7, 1.0), "amount has to be a whole number, and is 1.0"),
    (TypeError, "up", ("7", 1), "counter has to be a whole number, and is '7'"),
    (TypeError, "close", (True,), "account has to be a whole number, and is True"),
    (TypeError, "close", (None,), "account has to be a whole number, and is None"),
]


@test
def numbers_out_of_range_are_not_sent(mltx: Program) -> None:
    """The transaction goes on as if nothing had been asked, also where they stand in a pipeline."""
    with mltx.serve() as server, connected(server) as client, client.begin() as tx:
        left = tx.session.bytes_left
        for kind, word, numbers, said in OUT_OF_RANGE:
            same(str(raised(kind, getattr(tx, word), *numbers)), said, f"{word} {numbers}")
        raised(ValueError, lambda: tx.ask_all([Operation.up(7, 1), Operation.up(7, -1)]))
        same(tx.session.bytes_left, left, "the bytes that may be sent still")
        same(tx.read(7), 0)
        named = enum.IntEnum("Named", {"COUNTER": 7, "AMOUNT": 5})
        same((tx.up(named.COUNTER, named.AMOUNT), tx.read(7)), (Reply.DONE, 5), "numbers that have names")
    for address in (("127.0.0.1", 0), ("127.0.0.1", 65_536)):
        raised(ValueError, lambda address=address: Client(*address))
    raised(ValueError, lambda: Retries(attempts=0))
    raised(ValueError, lambda: Retries(connects=0))


@test
def addresses_are_parsed(_mltx: Program) -> None:
    good = {"127.0.0.1:7000": ("127.0.0.1", 7000), "localhost:1": ("localhost", 1), "[::1]:65535": ("::1", 65_535)}
    for text, address in good.items():
        same(client_module.parse_address(text), address, text)
    for text in ("", "7000", ":7000", "host", "host:", "host:x", "host:0", "host:65536", "host:-1"):
        raised(ValueError, client_module.parse_address, text)


@test
def refusals_are_raised(mltx: Program) -> None:
    """Each has its number and its name, and the transaction goes on."""
    with mltx.serve("--hash", "low") as server, connected(server) as client:
        session = client.session()
        same(session.ask("up 7 1", "commit", "foo"), ["error 3 NoSuchTx"] * 2 + ["error 10 ScriptFault"])
        with client.begin() as tx:
            error: Refused = raised(Running, client.begin)
            same((error.number, error.name), (5, "Running"), "begin in a transaction")
            for number in range(8):
                same(tx.open(number * 65_536), Reply.OPENED)
            error = raised(NoRoom, tx.open, 8 * 65_536)
            same((error.number, error.name), (2, "NoRoom"), "a ninth account")
            for _ in range(1_024 - 8):
                tx.balance(0)
            error = raised(LogFull, tx.balance, 0)
            same((error.number, error.name), (8, "LogFull"), "one more than 1,024 operations")
        same(tx.commit_number, 1, "the commit")
    # What this server can't be brought to answer is read the same way.
    read = Operation.read(7)
    for answer, kind in (("error 3 NoSuchTx", NoSuchTx), ("error 10 ScriptFault", ScriptFault), ("error 6 X", Refused)):
        error = raised(kind, read.result, answer)
        same(f"error {error.number} {error.name}", answer)
    for answer in ("", "is", "is x", "done", "missing", "error", "error 14", "error x GaveUp", "HTTP/1.1 400 Bad"):
        raised(UnexpectedAnswer, read.result, answer)
    # Words of what each says to do.
    todo = {"OutOfMemory": "try again later", "NoRoom": "remove objects", "NoSuchTx": "begin one", "Running": "end it first"}
    todo |= {"TooManyOpen": "`--sessions`", "LogFull": "split it", "IdsSpent": "restart the server", "GaveUp": "begin again"}
    for name, words in todo.items():
        refusal = errors.refusal(f"error 1 {name}")
        same(type(refusal).__name__, name, "the kind of the refusal")
        holds(words in str(refusal), f"{refusal} says to do: {words}")


@test
def transaction_is_a_block(mltx: Program) -> None:
    """It commits at the end of the block, and aborts where an exception leaves it; it may end before."""
    trace = mltx.folder / "trace"
    with mltx.serve("--trace", trace) as server, connected(server) as client:
        with client.begin() as tx:
            tx.up(1, 1)
            holds(tx.is_open, "a transaction in its block is open")
        with contextlib.suppress(KeyError), client.begin() as tx:
            tx.up(2, 1)
            raise KeyError
        same((tx.is_open, tx.commit_number), (False, None), "a block that an exception leaves")
        with client.begin() as tx:
            tx.up(3, 1)
            same(tx.commit(), 2)
            calls: list[Callable[[], object]] = [tx.commit, tx.abort, lambda: tx.up(3, 1), lambda: tx.ask_all([])]
            for call in calls:
                raised(TransactionOver, call)
        with client.begin() as tx:
            tx.up(4, 1)
            tx.abort()
            raised(TransactionOver, tx.commit)
        same(client.run(aborts), "answer", "a function that aborts")
        raised(ZeroDivisionError, client.run, lambda tx: (tx.up(6, 1), 1 // 0))
        same(client.run(lambda tx: tx.up(7, 1)), Reply.DONE, "a function that is run")
        client.close()
        checked = "serial 1|serial 3|serial 7|counter 1 1|counter 3 1|counter 7 1"
        ends_well(mltx, server, trace, served=1, checked=checked)


def aborts(tx: Transaction) -> str:
    tx.up(5, 1)
    tx.abort()
    return "answer"


def noted(tries: list[int], tx: Transaction) -> Transaction:
    """The transaction, whose number is noted."""
    tries.append(tx.number)
    return tx


@test
def transaction_is_run_again_after_a_deadlock(mltx: Program) -> None:
    """Of two that wait for each other one gives up, and both are committed at last."""
    trace, both, tries = mltx.folder / "trace", threading.Barrier(2), {1: 0, 2: 0}

    def cross(tx: Transaction, own: int, other: int) -> int:
        tries[own] += 1
        tx.up(own, 1)
        if tries[own] == 1:
            both.wait(PATIENCE)
        return tx.read(other)

    def work(own: int) -> int:
        with connected(server, retries=PATIENT) as client:
            return client.run(lambda tx: cross(tx, own, 3 - own))

    with mltx.serve("--trace", trace, limit=2) as server, ThreadPoolExecutor(2) as pool:
        same(sorted(pool.map(work, (1, 2))), [0, 1], "what the first and the second to commit read")
        holds(sum(tries.values()) > 2, f"one was run again: {tries}")
        expect(server.end(), out="served 2\n")
    same(mltx.accepted(trace).splitlines()[2:], ["counter 1 1", "counter 2 1"], "the base")


@test
def gives_up_at_last(mltx: Program) -> None:
    """By one try an operation that waits gives up; it is run as often as is said, and then GaveUp is raised."""
    trace, tries = mltx.folder / "trace", list[int]()
    with mltx.serve("--tries", 1, "--trace", trace, limit=2) as server:
        with connected(server) as holder, connected(server) as client, holder.begin() as held:
            held.up(7, 1)
            few = Retries(attempts=3, first_pause=0.001, longest_pause=0.002)
            error = raised(GaveUp, lambda: client.run(lambda tx: noted(tries, tx).read(7), retries=few))
            same((error.number, error.name, tries), (14, "GaveUp", [2, 3, 4]), "the transactions that gave up")
            with client.begin() as tx:
                tx.up(8, 1)
                raised(GaveUp, tx.read, 7)
                same(tx.read(8), 1, "a transaction goes on after it was refused an operation")
        ends_well(mltx, server, trace, served=2, checked="serial 5|serial 1|counter 7 1|counter 8 1")


@test
def pauses_are_bounded(_mltx: Program) -> None:
    for attempts in (1, 2, 30):
        pauses = list(Retries(attempts=attempts, first_pause=0.01, longest_pause=0.5).pauses())
        same(len(pauses), attempts - 1, "the pauses between the tries")
        for number, pause in enumerate(pauses):
            holds(0 <= pause <= min(0.5, 0.01 * 2**number), f"pause {number} is {pause}")
    holds(len(set(Retries(attempts=20).pauses())) > 1, "pauses differ")


@test
def pipelines(mltx: Program) -> None:
    """Results are in the order of the operations, however many these are. Where one is refused the others are asked."""
    trace = mltx.folder / "trace"
    with mltx.serve("--tries", 1, "--trace", trace, limit=2) as server:
        with connected(server) as holder, connected(server) as client:
            with client.begin() as tx:
                same(tx.ask_all([]), [])
                # The types of operations that differ fit, which mypy checks here.
                counts = [operation for number in range(512) for operation in (Operation.up(7, number), Operation.read(7))]
                sums = [number * (number + 1) // 2 for number in range(512)]
                same(tx.ask_all(counts)[1::2], sums, "1,024 operations in one pipeline")
                raised(LogFull, tx.ask_all, [Operation.read(7)] * 5_000)
            with holder.begin() as held:
                held.up(1, 1)
                tx = client.begin()
                raised(GaveUp, tx.ask_all, [Operation.up(8, 1), Operation.read(1), Operation.up(8, 2)])
                same(tx.read(8), 3, "both others were done")
                tx.abort()
        ends_well(mltx, server, trace, served=2, checked=f"serial 1|serial 2|counter 1 1|counter 7 {511 * 256}")


def heard_at_once(connection: socket.socket) -> int:
    """How many lines come, from the first on, before it is silent."""
    connection.settimeout(PATIENCE)
    heard = connection.recv(65_536)
    connection.settimeout(SILENCE)
    with contextlib.suppress(socket.timeout):
        for piece in iter(lambda: connection.recv(65_536), b""):
            heard += piece
    return heard.count(b"\n")


@test(seconds=1)
def lines_that_wait_for_their_answers(_mltx: Program) -> None:
    """No more go out than are said, so that a server that writes all its answers first does not wait for ever."""
    with socket.create_server(("127.0.0.1", 0)) as listener, ThreadPoolExecutor(1) as pool:
        session = client_module.Session(*listener.getsockname())
        connection, _ = listener.accept()
        asked = pool.submit(session.ask, *[f"up 7 {number}" for number in range(300)])
        for count in (core.MOST_UNANSWERED, 300 - core.MOST_UNANSWERED):
            same(heard_at_once(connection), count, "the lines that came")
            connection.sendall(b"done\n" * count)
        same(asked.result(PATIENCE), ["done"] * 300)
        session.close()
        connection.close()


# What goes out in one write.


class Scripted:
    """Is a server on one connection: it answers each write in turn. Then it waits for one more, or cuts the connection."""

    def __init__(self, *pieces: tuple[str, str], is_cut: bool = False) -> None:
        self.listener = socket.create_server(("127.0.0.1", 0))
        self.address: Address = self.listener.getsockname()
        self.heard: Future[list[str]] = ThreadPoolExecutor(1).submit(self._serve, pieces, is_cut)

    def _serve(self, pieces: Iterable[tuple[str, str]], is_cut: bool) -> list[str]:
        heard = []
        with self.listener, self.listener.accept()[0] as client:
            client.settimeout(PATIENCE)
            for _, answers in pieces:
                heard.append(client.recv(65_536).decode().replace("\n", "|"))
                client.sendall(lines(answers).encode())
            heard.append("" if is_cut else client.recv(65_536).decode())
        return heard


# Who runs two transactions at a server, and what that server hears in each write, and answers.
FIRST = [("begin|", "begun 1"), ("up 7 1|", "done"), ("commit|", "committed 1")]
ONE_WRITE: dict[str, tuple[Callable[[Client], object], list[tuple[str, str]]]] = {
    "run": (lambda client: client.run(lambda tx: tx.up(7, 1)), [("begin|up 7 1|", "begun 2|done"), ("commit|", "committed 2")]),
    "run-of-two-calls": (
        lambda client: client.run(lambda tx: (tx.up(7, 1), tx.up(8, 1))),
        [("begin|up 7 1|", "begun 2|done"), ("up 8 1|", "done"), ("commit|", "committed 2")],
    ),
    "run-that-takes-the-number": (
        lambda client: same(client.run(lambda tx: tx.number), 2), [("begin|", "begun 2"), ("commit|", "committed 2")],
    ),
    "run-of-nothing": (lambda client: client.run(lambda tx: None), [("begin|", "begun 2"), ("commit|", "committed 2")]),
    "run-of-an-abort": (lambda client: client.run(lambda tx: tx.abort()), []),
    "attempts": (lambda client: count_by_attempts(client), [("begin|up 7 1|", "begun 2|done"), ("commit|", "committed 2")]),
    "begin": (
        lambda client: count_by_begin(client), [("begin|", "begun 2"), ("up 7 1|", "done"), ("commit|", "committed 2")],
    ),
    "run-all-of-one": (
        lambda client: same(client.run_all([Operation.read(7)]), [5]), [("begin|read 7|commit|", "begun 2|is 5|committed 2")],
    ),
    "run-all-of-two": (
        lambda client: same(client.run_all([Operation.read(7), Operation.has(1, 2)]), [5, False]),
        [("begin|read 7|has 1 2|", "begun 2|is 5|no"), ("commit|", "committed 2")],
    ),
    "run-all-of-two-partly": (
        lambda client: same(client.run_all([Operation.read(7), Operation.has(1, 2)], partly=True), [5, False]),
        [("begin|read 7|has 1 2|commit|", "begun 2|is 5|no|committed 2")],
    ),
    "run-all-of-none": (lambda client: client.run_all([]), [("begin|", "begun 2"), ("commit|", "committed 2")]),
    "begin-that-is-refused": (
        lambda client: raised(OutOfMemory, client.run, lambda tx: tx.up(7, 1)),
        [("begin|up 7 1|", "error 1 OutOfMemory|error 3 NoSuchTx")],
    ),
    "begin-that-another-server-answers": (
        lambda client: raised(ServerRestarted, client.run, lambda tx: tx.up(7, 1)), [("begin|up 7 1|", "begun 1|done")],
    ),
    "run-all-that-is-refused": (
        lambda client: raised(NoRoom, client.run_all, [Operation.open(7)]),
        [("begin|open 7|commit|", "begun 2|error 2 NoRoom|committed 2")],
    ),
}


def count_by_attempts(client: Client) -> None:
    for attempt in client.attempts():
        with attempt as tx:
            tx.up(7, 1)


def count_by_begin(client: Client) -> None:
    with client.begin() as tx:
        tx.up(7, 1)


@each({f"one-write-of-{name}": case for name, case in ONE_WRITE.items()})
def in_one_write(_mltx: Program, case: tuple[Callable[[Client], object], list[tuple[str, str]]]) -> None:
    """On a connection that was used before `begin` goes out with the first operations, and so may the commit."""
    call, second = case
    server = Scripted(*FIRST, *second)
    with Client(*server.address, answer_timeout=PATIENCE) as client:
        client.run(lambda tx: tx.up(7, 1))
        call(client)
    same(server.heard.result(PATIENCE), [asked for asked, _ in FIRST + second] + [""], "what the server hears in each write")


@test
def transactions_of_one_write(mltx: Program) -> None:
    """Where some of its operations are refused the others are committed, which is told; where all are, it is run again."""
    trace, both = mltx.folder / "trace", [Operation.up(8, 1), Operation.read(7)]
    with mltx.serve("--tries", 1, "--trace", trace, limit=2) as server:
        with connected(server) as holder, connected(server, retries=PATIENT) as client:
            mixed = [Operation.up(8, 1), Operation.size(1), Operation.balance(1)]
            same(client.run_all(mixed, partly=True), [Reply.DONE, 0, None])
            with holder.begin() as held:
                held.up(7, 1)
                error = raised(PartlyDone, lambda: client.run_all(both, partly=True, retries=Retries(attempts=2)))
                same([str(it)[:16] for it in error.outcomes], ["done", "error 14 GaveUp:"], "the outcomes")
                same((error.commit_number, str(error)), (2, "commit 2 lacks 1 of 2 operations, which the server refused"))
                raised(GaveUp, lambda: client.run_all(both, retries=Retries(attempts=2)))
                with ThreadPoolExecutor(1) as threads:
                    reading = threads.submit(lambda: client.run_all([Operation.read(7)]))
                    time.sleep(SILENCE)
                    held.commit()
                    same(reading.result(PATIENCE), [1], "what it reads once it is free")
            same(client.run_all([Operation.up(9, 1)] * 1_024, partly=True), [Reply.DONE] * 1_024, "more than go out at once")
            raised(LogFull, lambda: client.run_all([Operation.up(9, 1)] * 1_025))
            raised(TypeError, lambda: client.run_all(["up 9 1"]))  # type: ignore[arg-type]
            same(client.run_all([Operation.read(8), Operation.read(9)]), [2, 1_024], "the counters")
        expect(server.end(), out="served 2\n")
    checked = mltx.accepted(trace).splitlines()
    same(checked[-3:], ["counter 7 1", "counter 8 2", "counter 9 1024"], "the base")


# What the server answers to a single write before the connection ends, and what is said then of the transaction.
CUT_WRITES = {"one-write-that-is-cut": ("", "the transaction"), "one-write-that-is-cut-later": ("begun 2|done", "transaction 2")}


@each(CUT_WRITES)
def one_write_that_is_cut(_mltx: Program, case: tuple[str, str]) -> None:
    """Its commit is out, so it is not known of. Without the commit nothing is done, and it may be run again."""
    answers, said = case
    server = Scripted(*FIRST, ("begin|up 7 1|commit|", answers), is_cut=True)
    with Client(*server.address) as client:
        client.run(lambda tx: tx.up(7, 1))
        error = raised(CommitUnknown, client.run_all, [Operation.up(7, 1)])
        same(str(error), f"the connection ended, and it is not known whether {said} was committed")
    server = Scripted(*FIRST, ("begin|up 7 1|", answers), is_cut=True)
    with Client(*server.address, retries=Retries(attempts=1)) as client:
        client.run(lambda tx: tx.up(7, 1))
        raised(ConnectionLost, client.run, lambda tx: (tx.up(7, 1), tx.up(7, 1)))


class Relay:
    """Stands between clients and a server, and passes on one line and its answer after the other. In its connection
    number i it breaks off at the line that `cuts[i]` names: `before` it is passed on, or `after` it was answered."""

    def __init__(self, server: Server, cuts: Iterable[tuple[str, str] | None]) -> None:
        self.server, self.cuts = server, cuts
        self.listener = socket.create_server(("127.0.0.1", 0))
        self.address, self.timeout, self.process = self.listener.getsockname(), server.timeout, server.process
        threading.Thread(target=self.serve, daemon=True).start()

    def serve(self) -> None:
        with self.listener:
            for cut in self.cuts:
                self.pass_on(self.listener.accept()[0], cut)

    def pass_on(self, client: socket.socket, cut: tuple[str, str] | None) -> None:
        with client, client.makefile("rb") as asked, self.server.connect() as peer:
            for line in (it.decode().rstrip("\n") for it in asked):
                if cut == ("before", line):
                    return
                answer = peer.ask(line)
                if cut == ("after", line):
                    return
                client.sendall((answer + "\n").encode())


# Where the connection is broken off; how often a function that counts up is run then, up to a commit or an error;
# whether the answer to the commit is lost; and what the counter is at the end.
BREAKS = {
    "client-is-cut-before-begin": (("before", "begin"), 1, False, 1),
    "client-is-cut-after-begin": (("after", "begin"), 1, False, 1),
    "client-is-cut-before-an-operation": (("before", "up 7 1"), 2, False, 1),
    "client-is-cut-after-an-operation": (("after", "up 7 1"), 2, False, 1),
    "client-is-cut-before-the-commit": (("before", "commit"), 1, True, 0),
    "client-is-cut-after-the-commit": (("after", "commit"), 1, True, 1),
}


@each(BREAKS)
def client_is_cut(mltx: Program, case: tuple[tuple[str, str], int, bool, int]) -> None:
    """It runs a transaction again of which nothing is left, and never one whose commit may have been done."""
    cut, runs, is_unknown, count = case
    trace, tries = mltx.folder / "trace", list[int]()
    with mltx.serve("--trace", trace, limit=3 - is_unknown) as server:
        relay = Relay(server, [cut, None])
        with Client(*relay.address, retries=PATIENT) as client:

            def count_up() -> Reply:
                return client.run(lambda tx: noted(tries, tx).up(7, 1))

            if is_unknown:
                same(raised(CommitUnknown, count_up).transaction, tries[-1], "the transaction that is not known of")
            else:
                count_up()
        same(len(tries), runs, "how often it was run")
        with connected(server) as client:
            same(client.run(lambda tx: tx.read(7)), count, "the counter")
        expect(server.end(), out=f"served {3 - is_unknown}\n")
    mltx.accepted(trace)


@test
def server_that_is_not_there(mltx: Program) -> None:
    """It is told at once, or after so many tries; a server that comes meanwhile is found."""
    with mltx.serve() as server:
        connected(server).close()
        expect(server.end(), out="served 1\n")
        few = Retries(attempts=3, first_pause=0.001)
        said = str(raised(ServerAway, client_module.connect, *server.address))
        holds(said.startswith("no server answers at 127."), said)
        raised(ServerAway, lambda: Client(*server.address, retries=few).run(lambda tx: 1 // 0))
    with mltx.serve() as server, Client(*server.address, retries=PATIENT) as client:
        same(client.run(lambda tx: tx.read(7)), 0, "a client that comes before the server")


@test
def server_that_is_not_there_is_tried_a_few_times(_mltx: Program) -> None:
    """So is a host without an address. Each other failure begins a new row of tries."""
    quick, away = Retries(first_pause=0.001), ConnectionRefusedError("nobody listens")
    with socket.create_server(("127.0.0.1", 0)) as listener:
        ended = socket.create_connection(listener.getsockname())
        listener.accept()[0].close()
    rows: list[list[object]] = [[away] * 20, [socket.gaierror("no such host")] * 20, [away, away, ended, *[away] * 4]]
    for turns in rows:
        with mock.patch.object(socket, "create_connection", side_effect=turns) as tried:
            raised(ServerAway, lambda: Client("127.0.0.1", 9, retries=quick).run(lambda tx: 1 // 0))
        same(tried.call_count, 6 if ended in turns else 3, f"the tries at {turns}")


@test(seconds=1)
def sessions_that_are_all_taken(mltx: Program) -> None:
    """A client beyond them is told so in time, also by `run`, and is served once another one has left."""
    with mltx.serve("--sessions", 1, limit=6) as server, connected(server) as holder:
        holder.run(lambda tx: tx.up(7, 1))
        with Client(*server.address, session_timeout=SILENCE) as client:
            said = str(raised(SessionsTaken, client.begin))
            match("^all sessions of the server are taken, or it has stopped: .*; give it more --sessions$", said)
            few = Retries(first_pause=0.001, connects=2)
            raised(SessionsTaken, lambda: client.run(lambda tx: 1 // 0, retries=few))
        with Client(*server.address, session_timeout=None, answer_timeout=SILENCE) as client:
            raised(SessionsTaken, client.begin)
        holder.close()
        with Client(*server.address, session_timeout=None) as client:
            same(client.run(lambda tx: tx.read(7)), 1, "the counter")
        ended = server.end()
        expect(ended, out="served 6\n", notes=ended.notes)
        holds(set(ended.notes) <= {cut_for(number, BROKEN) for number in range(2, 6)}, f"{ended.notes}")


@test(seconds=3)
def first_answer_alone_has_its_timeout(mltx: Program) -> None:
    """An operation that waits behind the first answer waits on, for longer than that one may."""
    with mltx.serve(limit=2) as server, server.connect() as holder:
        same((holder.ask("begin"), holder.ask("up 7 1")), ("begun 1", "done"))
        with Client(*server.address, session_timeout=2) as client, client.begin() as tx:
            committing = threading.Timer(3, holder.ask, ["commit"])
            committing.start()
            same(tx.read(7), 1, "what it is told once the other one has committed")
            committing.join()


@test
def server_that_ends_in_a_transaction(mltx: Program) -> None:
    """It is killed while the client computes, or while an operation waits. Nothing was committed, and nothing says
    so."""
    with mltx.serve(limit=2) as server, connected(server) as client:
        tx = client.begin()
        tx.up(7, 1)
        server.kill()
        for call in (tx.commit, lambda: tx.up(7, 1), tx.commit, tx.abort):
            raised(ConnectionLost, call)
        raised(ServerAway, client.begin)
    with mltx.serve(limit=2) as server, connected(server) as holder, connected(server) as client:
        held, tx = holder.begin(), client.begin()
        held.up(7, 1)
        killer = threading.Timer(0.2, server.kill)
        killer.start()
        raised(ConnectionLost, tx.read, 7)
        killer.join()


@test
def server_that_was_restarted(mltx: Program) -> None:
    """A new server at the address of a killed one begins with number 1 again: the client raises once, and then goes on."""
    with mltx.serve() as server, connected(server) as client:
        for number in (1, 2):
            with client.begin() as tx:
                same(tx.number, number, "the number of a transaction")
                tx.up(301, 1)
        server.kill()
        with mltx.serve(limit=3, address=server.address) as again, connected(again):
            raised(ServerRestarted, client.run, lambda tx: tx.up(301, 1))
            same(client.run(lambda tx: (tx.number, tx.read(301))), (2, 0), "the transaction behind it, and what it reads")


@test
def server_that_ends_at_the_commit(mltx: Program) -> None:
    """It is stopped before the commit is sent, and killed then. Whether it was done is not known."""
    with mltx.serve() as server, connected(server) as client:
        tx = client.begin()
        tx.up(7, 1)
        server.stop()
        receive = tx.session._receive
        with mock.patch.object(tx.session, "_receive", lambda: (server.kill(), receive())[1]):
            same(raised(CommitUnknown, tx.commit).transaction, 1)
        raised(TransactionOver, tx.commit)


@test
def connection_that_ended_is_seen_at_the_block(mltx: Program) -> None:
    """Where a block goes on behind a lost connection, as if nothing were, its end raises."""

    def swallow() -> None:
        with client.begin() as tx:
            tx.up(7, 1)
            server.kill()
            with contextlib.suppress(ConnectionLost):
                tx.up(7, 1)

    with mltx.serve() as server, connected(server) as client:
        raised(ConnectionLost, swallow)


@test(seconds=2)
def answer_that_does_not_come_in_time(mltx: Program) -> None:
    """The client closes the connection, and the server takes the transaction back once its operation has ended."""
    trace = mltx.folder / "trace"
    with mltx.serve("--trace", trace, limit=3) as server:
        with connected(server) as holder, connected(server, answer_timeout=1.5) as client, holder.begin() as held:
            held.up(7, 1)
            tx = client.begin()
            tx.up(8, 1)
            raised(TimedOut, tx.read, 7)
            same(tx.is_open, False, "the transaction whose connection was closed")
            with client.begin() as tx:
                tx.up(9, 1)
        ended = server.end()
        expect(ended, out="served 3\n", notes=ended.notes)
        holds(set(ended.notes) <= {cut_for(2, BROKEN)}, f"{ended.notes}")
    expect(mltx.check(trace), out=lines("serial 3|serial 1|counter 7 1|counter 9 1"), what="the check of the trace")


def dribbles(listener: socket.socket) -> None:
    """Answers the first line by a byte each tenth of a second, for some seconds."""
    with listener, listener.accept()[0] as client, contextlib.suppress(OSError):
        client.recv(1_000)
        for byte in b"begun 1" * 5:
            client.sendall(bytes([byte]))
            time.sleep(0.1)


@test(seconds=1)
def answer_that_comes_byte_by_byte(_mltx: Program) -> None:
    """A line has one limit of time, however it comes. So has what is written, which a server does not read here."""
    listener = socket.create_server(("127.0.0.1", 0))
    threading.Thread(target=dribbles, args=(listener,), daemon=True).start()
    began = time.monotonic()
    with Client(*listener.getsockname(), answer_timeout=0.5) as client:
        raised(SessionsTaken, client.begin)
        took = time.monotonic() - began
        holds(0.5 <= took < 2, f"it took {took} seconds")
    with socket.create_server(("127.0.0.1", 0)) as listener:
        session, began = client_module.Session("127.0.0.1", listener.getsockname()[1], answer_timeout=0.5), time.monotonic()
        raised(SessionsTaken, session.send, *["x" * 100] * 160_000)
        took = time.monotonic() - began
        holds(0.5 <= took < 5, f"it took {took} seconds")


@each({"look-without-a-limit-of-time": None, "look-with-a-limit-of-time": PATIENCE})
def looks_take_no_time(mltx: Program, answer_timeout: float | None) -> None:
    """Whether a connection has ended is seen without a wait, and an answer that has come stays to be read."""
    with mltx.serve() as server, connected(server, answer_timeout=answer_timeout) as client:
        session, began = client.session(), time.monotonic()
        same([session.has_ended() for _ in range(100)], [False] * 100)
        session.send("begin", "up 7 1")
        same((session.has_ended(), session.receive()), (False, "begun 1"))
        time.sleep(SILENCE)
        same((session.has_ended(), session.receive()), (False, "done"))
        holds(time.monotonic() - began < PATIENCE / 4, "it waits for an answer")
        server.kill()
        comes_to_be(session.has_ended, "the end is seen")


@test
def connections_are_probed(mltx: Program) -> None:
    """A host that vanishes is found within two minutes, as no answer has to come."""
    with mltx.serve() as server, connected(server) as client:
        wire = client.session()._wire
        assert isinstance(wire, client_module.client.SocketWire)
        probed = wire._socket
        same(probed.getsockopt(socket.SOL_SOCKET, socket.SO_KEEPALIVE), 1)
        names = socket.TCP_KEEPIDLE, socket.TCP_KEEPINTVL, socket.TCP_KEEPCNT
        found = [probed.getsockopt(socket.IPPROTO_TCP, name) for name in names]
        holds(found[0] + found[1] * found[2] <= 120, f"the times {found}")


# What is wrong in a program, what is raised, and words of that which say what to do.
MISTAKES: dict[str, tuple[Callable[[Client], object], type[Exception], str]] = {
    "async-function": (lambda client: client.run(waits_for_nothing), TypeError, "use mltx.aio"),
    "transaction-in-a-transaction": (lambda client: client.run(lambda tx: client.begin()), Running, "transactions don't nest"),
    "text-for-an-operation": (
        lambda client: client.run(lambda tx: tx.ask_all(["up 7 1"])),  # type: ignore[arg-type]
        *(TypeError, "as Operation.up(7, 1)"),
    ),
    "operation-of-a-client": (lambda client: client.up(7, 1), AttributeError, "client.run("),  # type: ignore[attr-defined]
    "number-for-an-address": (lambda _: Client(7000), TypeError, "HOST:PORT"),  # type: ignore[arg-type]
    "operator-at-the-port-of-clients": (
        lambda client: Operator(client.host, client.port).status(), ConnectionLost, "is it the server's --admin?",
    ),
    "too-many-operations": (lambda client: client.run_all([Operation.read(7)] * 1_025), LogFull, "split it"),
}


async def waits_for_nothing(tx: Transaction) -> None:
    tx.up(7, 1)


@each({f"mistake-of-{name}": case for name, case in MISTAKES.items()})
def mistakes(mltx: Program, case: tuple[Callable[[Client], object], type[Exception], str]) -> None:
    """The exception says what to do, and nothing is done."""
    call, kind, said = case
    with mltx.serve(limit=2) as server, connected(server) as client:
        error = raised(kind, call, client)
        holds(said in str(error), f"{error} has {said}")
        same(client.run(lambda tx: tx.read(7)), 0, "the counter")


@test
def session_that_is_used_up(mltx: Program) -> None:
    """A transaction begins on a new connection where the last one has sent nearly all that it may; in a transaction it
    is told, and run again on a new one."""
    trace = mltx.folder / "trace"
    with mltx.serve("--trace", trace, limit=3) as server, connected(server) as client:
        client.run(lambda tx: tx.up(7, 1))
        client.session().bytes_left = core.TRANSACTION_BYTES - 1
        tries: list[int] = []

        def use_up(tx: Transaction) -> Reply:
            if len(tries) == 0:
                tx.session.bytes_left = 6
            return noted(tries, tx).up(7, 1)

        same(client.run(use_up), Reply.DONE)
        same(tries, [2, 3], "the transactions")
        client.close()
        ends_well(mltx, server, trace, served=3, checked="serial 1|serial 3|counter 7 2")


@test(seconds=2)
def session_sends_all_that_it_may(mltx: Program) -> None:
    """A server hears the last byte that the client counts, and none behind it."""
    with mltx.serve() as server, connected(server) as client:
        session = client.session()
        same(session.ask("begin"), ["begun 1"])
        blanks, rest = divmod(session.bytes_left - len("commit\n"), 200)
        for start in range(0, blanks, 1_000):
            session.send(*[" " * 199] * min(1_000, blanks - start))
        session.send(" " * (rest - 1))
        same((session.ask("commit"), session.bytes_left), (["committed 1"], 0), "the last byte that it may send")
        raised(ConnectionLost, session.ask, "begin")
        expect(server.end(), out="served 1\n")


@test
def client_that_is_refused_while_all_sessions_are_taken(mltx: Program) -> None:
    """With `--full refuse` it is told at once, closes the connection, and is tried again by `run`."""
    with mltx.serve("--sessions", 1, "--full", "refuse", limit=2) as server, connected(server) as holder:
        held = holder.begin()
        began = time.monotonic()
        with Client(*server.address, session_timeout=PATIENCE) as client:
            match("--sessions$", str(raised(SessionsTaken, client.begin)))
            raised(SessionsTaken, client.run, lambda tx: tx.up(7, 1))
            holds(time.monotonic() - began < PATIENCE / 4, "it waits for a session")
            held.commit()
            holder.close()
            same(client.run(lambda tx: tx.up(7, 1), retries=PATIENT), Reply.DONE, "once the session is free")
        expect(server.end(), out="served 2\n", notes=[NO_SESSION])


# What an operator sees and does.


def seen_by(operator: Operator) -> tuple[list[tuple[object, ...]], list[tuple[int, object]]]:
    """What an operator sees of waits and sessions, without times, each of which is one."""
    waits, sessions = operator.waits(), operator.sessions()
    times = [it.seconds for it in waits] + [it.seconds for it in sessions]
    times += [row.transaction.seconds for row in sessions if row.transaction]
    holds(all(type(it) is float and 0 <= it < PATIENCE for it in times), f"times {times}")
    rows = [(row.client, (it := row.transaction) and (it.number, it.operations, it.did, it.calls)) for row in sessions]
    return [(it.waiter, it.client, it.holder, it.reason, it.operation) for it in waits], sorted(rows, key=lambda row: row[0])


@test(seconds=1)
def operator_sees_and_ends(mltx: Program) -> None:
    """What a server tells is told; a session is ended, of which its client hears; and the server ends."""
    with mltx.serve(limit=9, admin=free_address()) as server, connected(server) as holder, connected(server) as waiter:
        operator = Operator(*server.admin)
        comes_to_be(lambda: len(operator.sessions()) == 2, "two sessions are served")
        same(seen_by(operator), ([], [(1, None), (2, None)]), "without transactions")
        held = holder.begin()
        held.up(7, 5)
        with ThreadPoolExecutor(1) as threads:
            tx = threads.submit(waiter.begin).result(PATIENCE)
            threads.submit(tx.add, 4, 9).result(PATIENCE)
            reading = threads.submit(tx.read, 7)
            comes_to_be(operator.waits, "somebody waits")
            rows = [(1, (1, 1, ("up 7 5 done",), None)), (2, (2, 1, ("add 4 9 added",), "read 7"))]
            same(seen_by(operator), ([(2, 2, 1, "object", "read 7")], rows), "what is seen")
            served = operator.sessions()
            kinds = {type(it) for it in (*operator.waits(), *served, *(row.transaction for row in served))}
            same(kinds, {Wait, ServedSession, OpenTransaction}, "the kinds of what is seen")
            told = operator.status()
            same({name: told[name] for name in ("sessions", "open", "begun", "operations", "commits", "limit")},
                 {"sessions": 2, "open": 2, "begun": 2, "operations": 2, "commits": 0, "limit": 9}, "the numbers")
            for number in (0, 3, 10**9):
                raised(NoSuchClient, operator.end_session, number)
            operator.end_session(1)
            same(reading.result(PATIENCE), 0, "what the other one reads")
            raised(ConnectionLost, held.up, 7, 1)
            threads.submit(tx.commit).result(PATIENCE)
        operator.stop()
        ended = server.end()
        same((ended.status, ended.out, ended.err), (0, b"served 2\n", b""), "the server")
        holds(cut_for(1, BY_OPERATOR) in ended.notes, f"{ended.notes}")
        raised(ServerAway, operator.status)
        raised(ServerAway, operator.stop)


def answers_once(told: bytes | None) -> Operator:
    """An operator of a server that answers one request so: as bytes, or not at all where there are none."""
    listener = socket.create_server(("127.0.0.1", 0))

    def answer() -> None:
        with listener, listener.accept()[0] as asked:
            asked.recv(65_536)
            if told is None:
                time.sleep(1)
            elif told:
                asked.sendall(told)

    threading.Thread(target=answer, daemon=True).start()
    return Operator(*listener.getsockname(), timeout=0.3)


OK = b"HTTP/1.1 200 OK\r\nconnection: close\r\n\r\n"
NO_OPERATORS = {
    "no-answer": (None, TimedOut), "an-early-end": (b"", ConnectionLost),
    "lines": (b"error 10 ScriptFault\n" * 3, UnexpectedAnswer), "no-json": (OK + b"<html>", UnexpectedAnswer),
    "other-json": (OK + b"[1]", UnexpectedAnswer), "other-parts": (OK + b'{"waits":[{"a":1}]}', UnexpectedAnswer),
    "another-status": (b"HTTP/1.1 404 Not Found\r\nconnection: close\r\n\r\n{}", UnexpectedAnswer),
}


@each({f"operator-that-meets-{name}": case for name, case in NO_OPERATORS.items()})
def operator_of_another_server(_mltx: Program, case: tuple[bytes | None, type[Exception]]) -> None:
    told, kind = case
    for ask in (Operator.status, Operator.waits, Operator.sessions):
        if told != OK + b'{"waits":[{"a":1}]}' or ask is not Operator.sessions:
            raised(kind, ask, answers_once(told))
    raised(ValueError, Operator, "127.0.0.1", 0)


def shown_in(page: str, before: str) -> str:
    """The indented block that follows these words on a page, without its indents."""
    block = match(r"(?s)\A.*?\n\n((?:    [^\n]*\n|\n)+)", page.partition(before)[2])
    return re.sub(r"(?m)^    ", "", block[1]).strip("\n") + "\n"


def writes(mltx: Program, server: Server, program: str, wanted: str) -> None:
    """Fails where a program of a page, which is given the server's address, writes anything else."""
    connected(server).close()
    path = mltx.file("program.py", program.replace("127.0.0.1:7000", "%s:%d" % server.address))
    env = {"PYTHONPATH": str(FOLDER), "PYTHONDONTWRITEBYTECODE": "1"}
    ran = subprocess.run([sys.executable, path], capture_output=True, env=env, timeout=PATIENCE)
    same((ran.stdout.decode(), ran.stderr), (wanted, b""), "what the program writes")


# A page, the words before its program, and those before what that writes.
PROGRAMS = {
    "readme-of-the-client-runs": ("clients/python/README.md", "## A program", "it writes"),
    "program-of-the-tutorial-runs": ("docs/TUTORIAL.md", "`move.py`:", "`python3 move.py` prints"),
}


@each(PROGRAMS)
def program_of_a_page_runs(mltx: Program, case: tuple[str, str, str]) -> None:
    """The program on a page writes what the page shows."""
    page = (ROOT / case[0]).read_text()
    with mltx.serve(limit=2) as server:
        writes(mltx, server, shown_in(page, case[1]), shown_in(page, case[2]))
        expect(server.end(), out="served 2\n")


@test
def recipes_of_the_client_run(mltx: Program) -> None:
    """The recipes on the client's page are one program, which writes what the page shows."""
    page = (FOLDER / "README.md").read_text().partition("## Recipes")[2].partition("\n## ")[0]
    *parts, wanted = [re.sub(r"(?m)^    ", "", part) for part in re.findall(r"(?m)(?:^    .*\n(?:\n(?=    ))?)+", page)]
    holds(len(parts) > 3, "the page has its recipes")
    with mltx.serve("--endless", "--sessions", 64, limit=None) as server:
        writes(mltx, server, "\n".join(parts), wanted)
