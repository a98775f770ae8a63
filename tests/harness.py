"""What all tests share: the program under test, its runs and servers, and the list of tests.

A test is a function under `@test` that takes the program and raises where something else comes than is wanted. Its name
on the command line is the function's, with `-` for `_`. A table of cases is `@each(TABLE)`: each case is a test of its
own."""
from __future__ import annotations

import calendar
import dataclasses
import difflib
import errno
import os
import re
import select
import shutil
import signal
import socket
import subprocess
import tempfile
import threading
import time
from collections.abc import Callable, Iterable, Iterator, Mapping
from contextlib import contextmanager
from pathlib import Path
from subprocess import PIPE
from typing import IO, TypeVar, cast, overload

ROOT = Path(__file__).resolve().parent.parent
# The version of the program and of the client, which is changed there first: tests fail where another text has the old one.
VERSION = re.findall(r'(?m)^__version__ = "(.*)"$', (ROOT / "clients/python/mltx/__init__.py").read_text())[0]
# The greatest number of bytes of an input.
MOST_BYTES = 16_777_216
# How long one run may take, in seconds, on a slow machine.
PATIENCE = 120

# A line by which a server notes what happens, and how it writes the time of that.
NOTE = re.compile(r"mltx: note ([^:]*:[^:]*:[^:]*): (.*)\n")
# What stands in the place of notes that nobody read in time.
LOST = re.compile(r"mltx: note ([1-9]\d* messages were lost)\n")
DATE = "%a, %d %b %Y %H:%M:%S GMT"

# What a client is told of a connection that the server has broken off.
BROKEN_OFF = (errno.ECONNRESET, errno.EPIPE, errno.ENOTCONN)

# What is given and compared: a text stands for its bytes.
Text = str | bytes
Address = tuple[str, int]
# Where an operator connects that a server does not have.
NOWHERE: Address = ("", 0)
Case = TypeVar("Case")
# A function that is listed as a test and stays as it is, and one that is so for each case of a table.
Listed = TypeVar("Listed", bound=Callable[..., object])
OfCase = Callable[["Program", Case], object]

# Each test by its name.
TESTS: dict[str, Test] = {}
# The seed of random tests, and how many times as many cases they try as in a usual run. `tests/run` sets both.
SEED, CASES = 1, 1


class Failed(Exception):
    """Something else came than is wanted."""


class TooSlow(Failed):
    """Something took too long, or too little was done in some time. Other programs may be why, so the test is run once more.
    Shares and numbers of tries are no such thing."""


@dataclasses.dataclass(frozen=True)
class Test:
    """A test, the group that it is in (its file), about how many seconds it takes, and what runs it."""

    name: str
    group: str
    seconds: float
    call: Callable[[Program], object]


@overload
def test(function: Listed) -> Listed:
    ...


@overload
def test(*, seconds: float = 0.1) -> Callable[[Listed], Listed]:
    ...


def test(function: Listed | None = None, *, seconds: float = 0.1) -> Listed | Callable[[Listed], Listed]:
    """Lists a function as a test. Where it takes some time, `seconds` says how much, so that it begins early."""

    def enlist(function: Listed) -> Listed:
        _enlist(function.__name__.replace("_", "-"), function, seconds, function)
        return function

    return enlist(function) if function else enlist


def each(table: Mapping[str, Case], *, seconds: float = 0.1) -> Callable[[OfCase[Case]], OfCase[Case]]:
    """Lists a test for each case of a table, a dictionary by name. The function takes the program and the case."""

    def enlist(function: OfCase[Case]) -> OfCase[Case]:
        for name, case in table.items():
            _enlist(name, function, seconds, _with_case(function, case))
        return function

    return enlist


def _with_case(function: OfCase[Case], case: Case) -> Callable[[Program], object]:
    return lambda mltx: function(mltx, case)


def _enlist(name: str, function: Callable[..., object], seconds: float, call: Callable[[Program], object]) -> None:
    if name in TESTS:
        raise ValueError(f"two tests have the name {name}")
    TESTS[name] = Test(name, function.__module__.replace("_", "-"), seconds, call)


@dataclasses.dataclass(frozen=True)
class Ran:
    """What a run came to: its status, and all bytes of its two outputs. The notes of a server stand apart, without their
    dates, and those on its limit are left out."""

    status: int
    out: bytes
    err: bytes
    notes: tuple[str, ...] = ()

    def __str__(self) -> str:
        noted = f", notes {_short(self.notes)}" if self.notes else ""
        return f"status {self.status}, standard output {_short(self.out)}, standard error {_short(self.err)}{noted}"


def _short(value: object, most: int = 600) -> str:
    shown = repr(value)
    return shown if len(shown) <= most else f"{shown[:most]}.. ({len(shown)} characters)"


def as_bytes(text: Text) -> bytes:
    return text.encode() if isinstance(text, str) else text


def fault_of(command: str, line: int, cause: str) -> str:
    """The line by which a command tells the fault of a text."""
    return f"mltx: {'11 TraceFault' if command == 'check' else '10 ScriptFault'} line {line} {cause}\n"


def lines(row: str) -> str:
    """The text of a worked row: its lines stand between bars, and each ends in a line feed."""
    return "".join(line + "\n" for line in row.split("|")) if row else ""


def expect(
    ran: Ran, *, status: int = 0, out: Text = b"", err: Text = b"", notes: Iterable[str] = (), what: str = ""
) -> None:
    """Fails where a run came to anything else: its status, both outputs and all notes are compared whole."""
    wanted = Ran(status, as_bytes(out), as_bytes(err), tuple(notes))
    if ran != wanted:
        raise Failed(f"{what + ': ' if what else ''}{ran}\nwanted {wanted}\n{_difference(wanted.out, ran.out)}")


def cut_for(client: int, why: str) -> str:
    """The note on a client whose session the server has ended."""
    return f"client {client} disconnected: {why}"


# Why a session is ended by the server.
IDLE, LONG_LINE, MANY_BYTES = "idle for too long", "line too long", "too many bytes received"
IS_HTTP = "HTTP request received"
NO_MEMORY, BROKEN, OPEN_LONG = "out of memory", "connection lost", "transaction open for too long"
BY_OPERATOR, STOPS = "ended by the operator", "the server is shutting down"


def in_any_order(ran: Ran) -> Ran:
    """The run with its notes sorted: those on several clients may come in any order."""
    return dataclasses.replace(ran, notes=tuple(sorted(ran.notes)))


def of_system(number: int) -> str:
    """The system's own words for an error, as a Rust program writes them."""
    return f"{os.strerror(number)} (os error {number})"


def same(found: object, wanted: object, what: str = "") -> None:
    """Fails where two values differ."""
    if found != wanted:
        raise Failed(f"{what + ': ' if what else ''}{_short(found)}\nwanted {_short(wanted)}")


def holds(is_so: object, what: str) -> None:
    """Fails where something is not so."""
    if not is_so:
        raise Failed(what)


def in_time(is_so: object, what: str) -> None:
    """Fails where something is not so that depends on how fast the machine is."""
    if not is_so:
        raise TooSlow(what)


def comes_to_be(is_so: Callable[[], object], what: str, pause: float = 0.02) -> None:
    """Waits until something is so, and looks again after each pause, in seconds."""
    deadline = time.monotonic() + PATIENCE
    while not is_so():
        holds(time.monotonic() < deadline, f"it never came that {what}")
        time.sleep(pause)


@contextmanager
def takes(least: float, most: float, what: str) -> Iterator[None]:
    """Fails where what stands here takes less or more than so many seconds."""
    began = time.monotonic()
    yield
    took = time.monotonic() - began
    holds(least <= took, f"{what} after {took} seconds")
    in_time(took <= most, f"{what} after {took} seconds")


def readable(those: Iterable[Case], seconds: float = 0) -> list[Case]:
    """Those of peers and of streams from which something can be read, waited for so many seconds."""
    return select.select(those, [], [], seconds)[0]


def match(pattern: str | re.Pattern[str], text: str) -> re.Match[str]:
    """Where a pattern stands first in a text. Fails where it stands nowhere."""
    found = re.search(pattern, text)
    if found is None:
        raise Failed(f"{pattern} does not stand in {_short(text)}")
    return found


def _difference(wanted: bytes, found: bytes, most: int = 20) -> str:
    before, after = (text.decode(errors="replace").splitlines() for text in (wanted, found))
    return "\n".join(list(difflib.unified_diff(before, after, "wanted", "found", lineterm="", n=1))[:most])


@contextmanager
def may_break_off() -> Iterator[None]:
    """What stands here may find that the server has broken the connection off."""
    try:
        yield
    except OSError as fault:
        if fault.errno not in BROKEN_OFF:
            raise


def _compile(source: Path, library: Path) -> None:
    try:
        words = ["cc", "-O1", "-shared", "-fPIC", "-o", str(library), str(source), "-ldl"]
        made = subprocess.run(words, capture_output=True, text=True)
    except FileNotFoundError:
        raise Failed("there is no C compiler `cc`: this test needs one") from None
    holds(made.returncode == 0, f"cc does not compile {source}: {made.stderr}")


def state_of(folder: Path | str) -> str:
    """The state of the process or thread with this folder of /proc: S is asleep, T is stopped."""
    return Path(folder, "stat").read_text(encoding="ascii").rpartition(") ")[2][0]


def all_threads_are(process: subprocess.Popen[bytes], state: str) -> bool:
    """Whether each thread of a process is in this state. A thread may end as it is looked at: then not yet."""
    try:
        return all(state_of(thread) == state for thread in Path(f"/proc/{process.pid}/task").iterdir())
    except (FileNotFoundError, ProcessLookupError):
        return False


class Piped(subprocess.Popen[bytes]):
    """A process whose streams are pipes, but for the input of a server that is given none."""

    stdin: IO[bytes]
    stdout: IO[bytes]
    stderr: IO[bytes]

    def end(self, given: bytes = b"") -> Ran:
        """What it comes to, once it is given this and the end of its input."""
        out, err = self.communicate(given)
        return Ran(self.returncode, out, err)


class Program:
    """The program under test, run in a folder of its own that is removed afterwards."""

    def __init__(self, path: Path | str, folder: Path | str) -> None:
        self.path, self.folder = str(path), Path(folder)

    def file(self, name: str, text: Text) -> str:
        """Writes a file into the folder and returns its path."""
        path = self.folder / name
        path.write_bytes(as_bytes(text))
        return str(path)

    def run(
        self,
        *words: object,
        given: Text = b"",
        env: Mapping[str, str] | None = None,
        stdout: int | IO[bytes] = PIPE,
        redirect: str = "",
        timeout: float = PATIENCE,
    ) -> Ran:
        """Runs the program with these words and this standard input, to its end. `redirect` is what a shell is to do
        with its streams before, as `>/dev/full`."""
        try:
            ran = subprocess.run(
                command([self.path, *words], redirect),
                input=as_bytes(given),
                stdout=stdout,
                stderr=PIPE,
                cwd=self.folder,
                env={**os.environ, **(env or {})},
                timeout=timeout,
            )
        except subprocess.TimeoutExpired:
            raise Failed(f"{' '.join(map(str, words))} had not ended after {timeout} seconds") from None
        return Ran(ran.returncode, ran.stdout or b"", ran.stderr)

    @contextmanager
    def started(self, *words: object, bufsize: int = -1) -> Iterator[Piped]:
        """The program, started with pipes. It is killed where it takes too long."""
        with Piped(command([self.path, *words]), bufsize, None, PIPE, PIPE, PIPE, cwd=self.folder) as process:
            timer = threading.Timer(PATIENCE, process.kill)
            timer.start()
            try:
                yield process
            finally:
                timer.cancel()
                process.kill()

    def shim(self, **told: str) -> dict[str, str]:
        """The environment in which tests/shim.c is loaded into the program, and told these things."""
        library, counted = self.folder / "shim.so", self.folder / "counted"
        if not library.exists():
            _compile(ROOT / "tests/shim.c", library)
        counted.unlink(missing_ok=True)
        return {"LD_PRELOAD": str(library), "COUNTED": str(counted), **told}

    def counted(self) -> tuple[int, ...]:
        """How many requests for memory, and how many calls, the shim counted in the last run."""
        counted = self.folder / "counted"
        holds(counted.exists(), "the run did not end by itself")
        return tuple(map(int, counted.read_text().split()))

    def check(self, trace: Path | Text) -> Ran:
        """What `check` says of a trace: the text of one, or the path of its file."""
        if isinstance(trace, Path):
            return self.run("check", trace)
        return self.run("check", "-", given=trace)

    def accepted(self, trace: Path | Text) -> str:
        """What `check` says of a trace, which it accepts."""
        ran = self.check(trace)
        same((ran.status, ran.err), (0, b""), f"the check of the trace, {ran}")
        return ran.out.decode()

    @contextmanager
    def serve(
        self,
        *options: object,
        limit: int | None = 1,
        address: Address | None = None,
        admin: Address | None = None,
        env: Mapping[str, str] | None = None,
        redirect: str = "",
        stdin: int = subprocess.DEVNULL,
        timeout: float = PATIENCE,
    ) -> Iterator[Server]:
        """A server on a port of its own, or at this address, as long as the block lasts. It ends by itself once `limit`
        connections have ended; where the block ends earlier, it is killed. With `limit` None the option is left out, and
        with `admin` that address is its operator's."""
        words = [*options, *(["--limit", limit] if limit is not None else [])]
        words += ["--admin", "%s:%d" % admin] if admin else []
        server = Server(self, address or free_address(), words, env, redirect, stdin, timeout)
        server.limit, server.admin = limit or 1, admin or NOWHERE
        try:
            yield server
        finally:
            server.kill()


class Server:
    """A running `mltx serve`."""

    def __init__(
        self,
        mltx: Program,
        address: Address,
        options: Iterable[object],
        env: Mapping[str, str] | None,
        redirect: str,
        stdin: int,
        timeout: float,
    ) -> None:
        self.address, self.redirect, self.timeout = address, redirect, timeout
        # How many connections it takes in all, and where its operator connects.
        self.limit, self.admin = 1, NOWHERE
        self.began = time.time()
        # What `next_note` has read.
        self.noted: list[str] = []
        self.process = Piped(
            command([mltx.path, "serve", "%s:%d" % address, *options], redirect),
            *(0, None, stdin, PIPE, PIPE),
            cwd=mltx.folder,
            env={**os.environ, **(env or {})},
        )

    def connect(self) -> Peer:
        """A new connection, as soon as the server is there."""
        for _ in range(int(self.timeout / 0.01)):
            try:
                return Peer(socket.create_connection(self.address, self.timeout))
            except ConnectionError:
                # It does not listen yet, or ends just now.
                if self.process.poll() is not None:
                    break
                time.sleep(0.01)
        raise Failed(f"the server does not answer at {self.address}; its status is {self.process.poll()}")

    def talk(self, sent: Text) -> bytes:
        """All that is answered to these bytes, sent at once, with the end of the input after them."""
        with self.connect() as peer:
            return peer.say_all(sent)

    def first_line(self) -> str:
        """The next line that it writes on standard error, which `end` then leaves out."""
        return self.process.stderr.readline().decode()

    def end(self, said: str | None = None, is_all_noted: bool = True) -> Ran:
        """What the server came to, once it ended by itself. What it first wrote on standard error is left out, which is where
        it listens unless that is `said`. Its input ends, if it has one. It has to note its limit, unless not all is noted."""
        try:
            out, err = self.process.communicate(timeout=self.timeout)
        except subprocess.TimeoutExpired:
            raise Failed(f"the server had not ended after {self.timeout} seconds") from None
        where = listening(self.address) + ("mltx: admin on %s:%d\n" % self.admin if self.admin != NOWHERE else "")
        rest, notes = notes_apart(err.removeprefix((where if said is None else said).encode()), self.began)
        notes = self.noted + notes
        has_served_all = is_all_noted and out == b"served %d\n" % self.limit
        return Ran(self.process.returncode, out, rest, self._but_limit(notes, has_served_all))

    def _but_limit(self, notes: list[str], has_served_all: bool) -> tuple[str, ...]:
        """The notes without those on the limit, which come once each and in this order, where the limit is reached."""
        most = self.limit - self.limit // 10
        nearly = [f"{most} of {self.limit} connections are used"] if self.limit >= 10 else []
        wanted = [*nearly, f"accepting no more connections: the limit of {self.limit} is reached"]
        found = [note for note in notes if note in wanted]
        if has_served_all and "2>" not in self.redirect:
            same(found, wanted, f"the notes on the limit among {notes}")
        holds(len(set(found)) == len(found), f"a note on the limit came twice: {notes}")
        return tuple(note for note in notes if note not in wanted)

    def next_note(self) -> str:
        """The next line on standard error, which has to be a note, without its date."""
        line = self.first_line()
        rest, notes = notes_apart(line.encode(), self.began)
        holds(not rest, f"{line!r} is no note")
        self.noted += notes
        return notes[0]

    def end_input(self) -> None:
        """Closes its standard input, which is a pipe."""
        self.process.stdin.close()
        self.process.stdin = cast(IO[bytes], None)

    def stop(self) -> None:
        """Stops it, and returns once each of its threads has stopped: a signal reaches them one after another."""
        self.process.send_signal(signal.SIGSTOP)
        comes_to_be(lambda: all_threads_are(self.process, "T"), "the server stops", 0.001)

    def kill(self) -> int:
        """Kills it, and returns its status."""
        self.process.kill()
        self.process.communicate()
        return self.process.returncode


class Peer:
    """One connection of a client."""

    def __init__(self, connected: socket.socket) -> None:
        self.socket, self.heard = connected, b""
        connected.setsockopt(socket.IPPROTO_TCP, socket.TCP_NODELAY, 1)

    def __enter__(self) -> Peer:
        return self

    def __exit__(self, *_: object) -> None:
        self.socket.close()

    def fileno(self) -> int:
        return self.socket.fileno()

    def send(self, text: Text) -> None:
        self.socket.sendall(as_bytes(text))

    def end(self) -> None:
        """Says that nothing more will be sent."""
        self.socket.shutdown(socket.SHUT_WR)

    def line(self) -> str:
        """The next line that the server answers, without its line feed."""
        while b"\n" not in self.heard:
            piece = self.socket.recv(65_536)
            if not piece:
                raise Failed(f"the server closed the connection after {self.heard!r}")
            self.heard += piece
        line, _, self.heard = self.heard.partition(b"\n")
        return line.decode()

    def ask(self, line: str) -> str:
        """Sends one line and returns the line that answers it."""
        self.send(line + "\n")
        return self.line()

    def say_all(self, text: Text) -> bytes:
        """All that is answered to this text, until the connection ends or the server breaks it off, be it early."""
        with may_break_off():
            self.send(text)
            self.end()
        self.hear()
        return self.heard

    def hear(self) -> None:
        """Reads what is answered, until the connection ends or the server breaks it off."""
        with may_break_off():
            for piece in iter(lambda: self.socket.recv(65_536), b""):
                self.heard += piece

    def rest(self) -> bytes:
        """All that is answered to the end of the connection."""
        heard = [self.heard, *iter(lambda: self.socket.recv(65_536), b"")]
        self.heard = b""
        return b"".join(heard)


def command(words: Iterable[object], redirect: str = "") -> list[str]:
    """The words of a command, or of a shell that redirects its streams and then becomes it."""
    shell = ["/bin/sh", "-c", f'exec "$0" "$@" {redirect}'] if redirect else []
    return [*shell, *map(str, words)]


def notes_apart(err: bytes, began: float) -> tuple[bytes, list[str]]:
    """What stands on standard error without the notes, and these in order, without their dates, each of which is a time since
    the server began."""
    rest, notes = "", []
    for line in err.decode(errors="replace").splitlines(keepends=True):
        if lost := LOST.fullmatch(line):
            notes.append(lost[1])
            continue
        note = NOTE.fullmatch(line)
        if note is None or note[2] == "":
            rest += line
            continue
        with _no_date(line):
            at = time.strptime(note[1], DATE)
        holds(time.strftime(DATE, at) == note[1], f"the date of {line!r} is not written as HTTP writes it")
        holds(began - 2 <= calendar.timegm(at) <= time.time() + 1, f"the date of {line!r} is not that of its time")
        notes.append(note[2])
    return rest.encode(), notes


@contextmanager
def _no_date(line: str) -> Iterator[None]:
    try:
        yield
    except ValueError:
        raise Failed(f"there is no date in {line!r}") from None


def listening(address: Address) -> str:
    """The line by which a server says on standard error that it listens at this address."""
    return "mltx: listening on %s:%d\n" % address


def free_address() -> Address:
    """An address that nobody else takes before a server does: that of this process, by its number, and a free port."""
    process = os.getpid()
    with socket.socket() as free:
        free.bind(("127.%d.%d.%d" % (64 + (process >> 16 & 63), process >> 8 & 255, process & 255), 0))
        address: Address = free.getsockname()
    return address


@contextmanager
def folder() -> Iterator[Path]:
    """A folder that is removed afterwards."""
    path = tempfile.mkdtemp(prefix="mltx-test-")
    try:
        yield Path(path)
    finally:
        shutil.rmtree(path, ignore_errors=True)
