"""The processes that the benchmarks start.

A process that is started here lasts as long as a block, and is ended with it, also where the block is interrupted. Each
wait has a limit of time."""
import ctypes
import os
import re
import resource
import select
import signal
import socket
import subprocess
import sys
import time
from collections.abc import Iterator, Sequence
from contextlib import contextmanager
from dataclasses import dataclass
from pathlib import Path
from typing import Any, cast

HERE = Path(__file__).resolve().parent
ROOT = HERE.parent
LOCAL = "127.0.0.1"
# How long anything that has an end may take, in seconds.
PATIENCE = 600
# How long a server may take to come up, in seconds.
START = 20

# A command. Its words may be numbers and paths, which are written as text.
Words = Sequence[object]
Process = subprocess.Popen[bytes]
# Both outputs of a process are kept.
PIPES = {"stdout": subprocess.PIPE, "stderr": subprocess.PIPE}


# The C library, and the call of it by which a process asks for a signal at the end of its parent.
LIBRARY, SIGNAL_AT_PARENTS_END = ctypes.CDLL(None), 1


class Failed(Exception):
    """A benchmark can't be measured, for this reason."""


@contextmanager
def started(words: Words, **how: Any) -> Iterator[Process]:
    """A process, as long as the block lasts. Where it has not ended by then it is killed, with what it started itself; and it
    ends where this process does. The options are those of `Popen`."""
    how = {"stdin": subprocess.DEVNULL, "start_new_session": True, "preexec_fn": _end_with_parent, **how}
    process: Process = subprocess.Popen([*map(str, words)], **how)
    try:
        yield process
    finally:
        if process.poll() is None:
            os.killpg(process.pid, signal.SIGKILL)
        process.communicate()


def _end_with_parent() -> None:
    LIBRARY.prctl(SIGNAL_AT_PARENTS_END, signal.SIGKILL)


def name_of(process: Process) -> str:
    """The name of the program that it runs, which is the first of the words that it was started with."""
    return Path(cast(list[str], process.args)[0]).name


def ended(process: Process) -> tuple[bytes, bytes]:
    """What a process wrote, once it ended well."""
    name = name_of(process)
    try:
        out, err = process.communicate(timeout=PATIENCE)
    except subprocess.TimeoutExpired:
        raise Failed(f"{name} had not ended after {PATIENCE} seconds") from None
    if process.returncode != 0:
        raise Failed(f"{name} ended with status {process.returncode}: {(err or b'').decode(errors='replace').strip()}")
    return out, err


def run(words: Words, **how: Any) -> tuple[bytes, bytes]:
    """Runs a command to its end: both outputs."""
    with started(words, **{**PIPES, **how}) as process:
        return ended(process)


def seconds_of(words: Words, out: Path | None = None) -> float:
    """How long a command takes. Its standard output goes into a file, or nowhere."""
    with open(out or os.devnull, "wb") as file:
        began = time.monotonic()
        run(words, stdout=file)
        return time.monotonic() - began


@dataclass(frozen=True)
class Server:
    """A server that runs: its port, and the number of its process."""

    port: int
    process: int

    def resident_bytes(self) -> int:
        """How much of its memory is in use."""
        pages = int(Path(f"/proc/{self.process}/statm").read_text().split()[1])
        return pages * os.sysconf("SC_PAGE_SIZE")

    def processor_seconds(self) -> float:
        """For how long it has had processors, with the system's work for it. The number of this clock is made of its own."""
        return time.clock_gettime(~self.process << 3 | 2)


@contextmanager
def listening(words: Words) -> Iterator[Server]:
    """A server that listens at port 0 and says on standard error which port it had."""
    with started(words, stdout=subprocess.DEVNULL, stderr=subprocess.PIPE) as process:
        heard = process.stderr
        came, _, _ = select.select([heard], [], [], START)
        line = heard.readline().decode() if heard and came else ""
        said = re.search(r"listening on [\d.]+:(\d+)$", line.strip())
        if not said:
            raise Failed(f"{Path(str(words[0])).name} does not say where it listens, but {line!r}")
        yield Server(int(said[1]), process.pid)


def free_port() -> int:
    """A port that nobody listens at just now."""
    with socket.socket() as free:
        free.bind((LOCAL, 0))
        port: int = free.getsockname()[1]
    return port


def wait_for(port: int, process: Process) -> None:
    """Waits until a process listens at a port."""
    until = time.monotonic() + START
    while time.monotonic() < until and process.poll() is None:
        try:
            socket.create_connection((LOCAL, port), START).close()
            return
        except OSError:
            time.sleep(0.01)
    raise Failed(f"{name_of(process)} does not listen at port {port}")


@contextmanager
def redis(folder: Path, *options: object) -> Iterator[Server]:
    """A Redis that keeps nothing on disk."""
    port = free_port()
    words = ["redis-server", "--bind", LOCAL, "--port", port, "--dir", folder, "--save", "", "--appendonly", "no", *options]
    with started(words, stdout=subprocess.DEVNULL, stderr=subprocess.DEVNULL) as process:
        wait_for(port, process)
        yield Server(port, process.pid)


def allow_descriptors(count: int) -> None:
    """From now on what is started may have so many files and connections open."""
    soft, hard = resource.getrlimit(resource.RLIMIT_NOFILE)
    if hard not in (resource.RLIM_INFINITY, max(hard, count)):
        raise Failed(f"{count} descriptors are wanted, and {hard} allowed (ulimit -Hn)")
    if soft not in (resource.RLIM_INFINITY, max(soft, count)):
        resource.setrlimit(resource.RLIMIT_NOFILE, (count, hard))


@contextmanager
def busy(count: int) -> Iterator[None]:
    """So many processes beside that do nothing but compute."""
    if count == 0:
        yield
        return
    with started([sys.executable, "-c", "while True: pass"]), busy(count - 1):
        yield
