"""What an operator costs who looks on, and a trace that is written meanwhile."""
import threading
import time
from collections.abc import Callable, Iterator
from contextlib import contextmanager
from functools import partial
from pathlib import Path
from random import Random

from machine import LOCAL, PATIENCE, Failed, free_port
from sessions import (
    BEGIN, CLIENT_THREADS, COMMIT, SESSIONS, THREE, WAYS, Load, MltxError, figures_of, load_on_mltx, mltx_server, must_answer,
    named, rate, session, transaction,
)
from texts import Scripts
from works import Bench, Group, Sample, Side, Work

# The module that sessions.py has found.
from mltx import Operator

# How often a second an operator asks, as the page does.
LOOKS = 2
HOT = transaction("up 0 1", "up 1 1", "up 2 1")
# How many counters there are where all are listed.
LISTED = 100_000


def look(operator: Operator) -> Iterator[object]:
    """All that a server tells on its page."""
    yield operator.status()
    yield operator.sessions()
    yield operator.waits()


def list_counters(operator: Operator) -> Iterator[object]:
    """All counters of a server."""
    yield list(operator.objects("counter"))


class Onlooker:
    """Asks a server, again and again with a pause: how long each answer took, in seconds, and what went wrong."""

    def __init__(self, port: int, ask: Callable[[Operator], Iterator[object]], pause: float) -> None:
        self.operator = Operator(LOCAL, port, timeout=PATIENCE)
        self.ask, self.pause = ask, pause
        self.took: list[float] = []
        self.failure: MltxError | None = None
        self.ended = threading.Event()

    def go_on(self) -> None:
        try:
            while not self.ended.wait(self.pause):
                began = time.monotonic()
                for _ in self.ask(self.operator):
                    ended = time.monotonic()
                    self.took.append(ended - began)
                    began = ended
        except MltxError as failure:
            self.failure = failure

    def told(self) -> dict[str, float]:
        """How many answers came, and how long the last of them took."""
        if self.failure:
            raise Failed(f"an operator was told nothing: {self.failure}")
        more = {"looks": float(len(self.took))}
        if self.took:
            more["longest look, ms"] = 1_000 * max(self.took)
        return more


@contextmanager
def looking_on(onlooker: Onlooker) -> Iterator[None]:
    """An operator who looks on as long as the block lasts."""
    thread = threading.Thread(target=onlooker.go_on)
    thread.start()
    try:
        yield
    finally:
        onlooker.ended.set()
        thread.join()


def looked_at(load: Load, bench: Bench, program: Path) -> Sample:
    """A load on a server with an operator who looks on, and with a trace."""
    port, trace = free_port(), bench.folder / "looked.trace"
    onlooker = Onlooker(port, look, 1 / LOOKS)
    with mltx_server(program, "--admin", f"{LOCAL}:{port}", "--trace", trace) as server, looking_on(onlooker):
        told = figures_of(bench, server.port, load)
    trace.unlink()
    return rate(told, **onlooker.told())


def counters(random: Random) -> Scripts:
    """A base of so many counters."""
    return Scripts("".join(f"counter {number} {random.randrange(1 << 32)}\n" for number in range(LISTED)), LISTED)


def listed(load: Load, is_listed: bool, bench: Bench, program: Path) -> Sample:
    """A load on a server with so many counters, and with an operator who lists them again and again, or without."""
    port, base = free_port(), bench.file("looked.base", counters)[0]
    onlooker = Onlooker(port, list_counters, 0)
    with mltx_server(program, "--admin", f"{LOCAL}:{port}", "--load", base) as server:
        with session(server) as first:
            # It is answered once the server has loaded its base.
            must_answer(first, BEGIN, COMMIT)
        if not is_listed:
            return rate(figures_of(bench, server.port, load))
        with looking_on(onlooker):
            told = figures_of(bench, server.port, load)
    return rate(told, **onlooker.told())


def looked_works() -> Iterator[Work]:
    for connections in (8, SESSIONS):
        for whole, way in WAYS.items():
            threads = min(connections, CLIENT_THREADS)
            load = Load(HOT, connections, whole, threads=threads)
            sides = (
                Side("mltx", partial(looked_at, load), ("load",)),
                Side("not looked at", partial(load_on_mltx, load), ("load",)),
            )
            yield Work("looked", f"{named(connections, threads)}, {way}", "transactions/s", sides)
    load = Load(THREE, 4, counters=50_000, threads=2)
    sides = (Side("mltx", partial(listed, load, True), ("load",)), Side("not listed", partial(listed, load, False), ("load",)))
    yield Work("looked", f"{LISTED:,} counters are listed again and again, {named(4, 2)}", "transactions/s", sides)


# By its name what the group measures, and its works.
GROUPS = {"looked": Group("sessions with an operator who looks on and a trace, or lists counters, against without", looked_works)}
