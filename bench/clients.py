"""What is measured of many clients of a server without end: more than it has session threads, idle ones beside them, many that
come at once, and those that stand in each other's way."""
import time
from collections.abc import Callable, Iterator
from contextlib import AbstractContextManager, contextmanager, nullcontext
from dataclasses import dataclass, replace
from functools import partial
from pathlib import Path

from machine import LOCAL, PIPES, Failed, Process, Server, allow_descriptors, busy, listening, redis, started
from retries import ACCOUNTS, transfers, tries
from sessions import CLIENT_THREADS, SESSIONS, THREE, WAYS, Load, beside, figures, loading, open_accounts, rate
from works import Bench, Group, Limit, Sample, Side, Work

COUNTERS = 50_000
# How many clients are idle, how many come at once, how many connections a server has room for, and how many more descriptors.
IDLE, BURST, ROOM, SPARE = 10_000, 5_000, 11_000, 200
# Clients that stream, each with so many transactions in one write.
STREAM = Load(THREE * 16, 4, whole=True, counters=COUNTERS, threads=2)
# How many seconds pass until idle clients are looked at, and for how long that is done.
SETTLE, WATCHED = 1.0, 5.0


@dataclass(frozen=True)
class Crowd:
    """Clients that commit: how many, whether each sends a transaction in one write, how many milliseconds it pauses between two,
    on average, and how often it commits where that is how all end."""

    count: int
    whole: bool = False
    pause: int = 0
    each: int = 0


@dataclass(frozen=True)
class System:
    """A server that clients talk to: its name, the options by which the load generator speaks to it, and what starts it."""

    name: str
    options: tuple[str, ...]
    start: Callable[[Bench, Path], AbstractContextManager[Server]]


def room(bench: Bench) -> int:
    """How many connections a server has room for, with some more descriptors."""
    count = bench.pick(ROOM, 400)
    allow_descriptors(count + SPARE)
    return count


def mltx_server(bench: Bench, program: Path) -> AbstractContextManager[Server]:
    return listening([program, "serve", f"{LOCAL}:0", "--endless", "--sessions", SESSIONS, "--clients", room(bench)])


def redis_server(bench: Bench, _program: Path) -> AbstractContextManager[Server]:
    return redis(bench.folder, "--maxclients", room(bench), "--tcp-backlog", 4_096)


MLTX, REDIS = System("mltx", (), mltx_server), System("Redis", ("--redis",), redis_server)
NEEDS = {"mltx": ("clients",), "Redis": ("clients", "redis-server")}


def committing(bench: Bench, system: System, server: Server, crowd: Crowd, *more: object) -> AbstractContextManager[Process]:
    """The load generator with these clients, as long as a block lasts."""
    words: list[object] = [bench.tools.paths["clients"], "--port", server.port, "--clients", crowd.count]
    words += ["--threads", min(crowd.count, CLIENT_THREADS), "--counters", COUNTERS, "--seed", bench.seed]
    words += ["--each", crowd.each] if crowd.each else ["--seconds", bench.seconds]
    words += [*["--whole"] * crowd.whole, "--pause", 1_000 * crowd.pause, *system.options, *more]
    return started(words, **PIPES)


def told_of(bench: Bench, system: System, server: Server, crowd: Crowd) -> tuple[dict[str, float], float]:
    """What the load generator tells of these clients, and how long the server had processors meanwhile."""
    crowd = bench.pick(crowd, replace(crowd, count=min(crowd.count, 200), each=2))
    before = server.processor_seconds()
    with committing(bench, system, server, crowd) as process:
        told = figures(process)
    if told["transactions"] == 0:
        raise Failed("no transaction ended")
    return told, server.processor_seconds() - before


@contextmanager
def idle_beside(bench: Bench, system: System, server: Server, count: int) -> Iterator[None]:
    """So many clients that have committed once, and are silent while the block lasts."""
    with committing(bench, system, server, Crowd(count, whole=True, each=1), "--stay") as process:
        if not process.stdout or not process.stdout.readline():
            raise Failed(f"{count} clients did not get through")
        yield


def sample(told: dict[str, float], seconds: float) -> Sample:
    return rate(told, **{
        "processor, microseconds": 1e6 * seconds / told["transactions"],
        "99th of a round trip, ms": told["round_trip"] / 1_000,
        "fewest/median": told["fewest"] / max(told["middle"], 1),
    })


def crowd_on(system: System, crowd: Crowd, idle: int, processes: int, bench: Bench, program: Path) -> Sample:
    """The rate of these clients beside so many that are idle, and so many busy processes."""
    idle = bench.pick(idle, min(idle, 100))
    with system.start(bench, program) as server, busy(processes):
        with idle_beside(bench, system, server, idle) if idle else nullcontext():
            time.sleep(bench.pick(SETTLE, 0) if idle else 0)
            return sample(*told_of(bench, system, server, crowd))


def idle_on(system: System, bench: Bench, program: Path) -> Sample:
    """How much memory of a server an idle client takes, and how much of a processor all of them, once each has committed. The
    counters and the memory of threads are there before, so that they are not counted."""
    count = bench.pick(IDLE, 100)
    with system.start(bench, program) as server:
        told_of(bench, system, server, Crowd(200, whole=True))
        before = server.resident_bytes()
        with idle_beside(bench, system, server, count):
            time.sleep(bench.pick(SETTLE, 0.1))
            kibibytes, began = (server.resident_bytes() - before) / count / 1_024, server.processor_seconds()
            time.sleep(bench.pick(WATCHED, 0.1))
            part = (server.processor_seconds() - began) / bench.pick(WATCHED, 0.1)
            threads = len(list(Path(f"/proc/{server.process}/task").iterdir()))
    return Sample(kibibytes, more={"processor while idle, %": 100 * part, "threads": float(threads)})


def burst_on(system: System, bench: Bench, program: Path) -> Sample:
    """How long it takes until so many clients that come at once are connected, and each has committed."""
    crowd = Crowd(bench.pick(BURST, 50), whole=True, each=1)
    with system.start(bench, program) as server, committing(bench, system, server, crowd) as process:
        told = figures(process)
    return Sample(told["connected"] + told["seconds"], more={"connected, s": told["connected"]})


def beside_streams(streams: tuple[Load, ...], bench: Bench, program: Path) -> Sample:
    """The rate of a client that sends a line a round trip, beside these."""
    with mltx_server(bench, program) as server:
        return rate(beside(streams, bench, server)[0])


def deadlocks_of(clients: int, bench: Bench, program: Path) -> Sample:
    """How often clients that deadlock begin a transaction for each that commits."""
    load, limit = transfers(bench.pick(clients, 16)), Limit(bench.pick(2 * bench.seconds, 0.2))
    with mltx_server(bench, program) as server:
        open_accounts(server, ACCOUNTS)
        with loading(bench, server.port, load, limit) as process:
            told = figures(process)
    more = tries(told)
    return Sample(1 + more["GaveUp/commit"], told["median"], told["ninety_ninth"], {"commits/s": rate(told).value, **more})


def sides(measure: Callable[[System], Callable[[Bench, Path], Sample]]) -> tuple[Side, ...]:
    """A measurement of this program, and of Redis."""
    return tuple(Side(it.name, measure(it), NEEDS[it.name]) for it in (MLTX, REDIS))


def crowds(crowd: Crowd, idle: int = 0, processes: int = 0) -> tuple[Side, ...]:
    return sides(lambda system: partial(crowd_on, system, crowd, idle, processes))


def works() -> Iterator[Work]:
    for whole, way in WAYS.items():
        for pause, what in {0: "no pause", 10: "10 ms between transactions"}.items():
            for count in (SESSIONS, 200, 1_000):
                crowd = Crowd(count, whole, pause)
                yield Work("clients", f"{count:,} clients, {way}, {what}", "transactions/s", crowds(crowd))
    for whole, way in WAYS.items():
        crowd = Crowd(SESSIONS, whole)
        alone = Side("without them", partial(crowd_on, MLTX, crowd, 0, 0), NEEDS["mltx"])
        both = (*crowds(crowd, idle=IDLE), alone)
        yield Work("clients", f"{SESSIONS} clients beside {IDLE:,} idle ones, {way}", "transactions/s", both)
        both = crowds(crowd, processes=2)
        yield Work("clients", f"{SESSIONS} clients, {way}, 2 busy processes beside", "transactions/s", both)
    both = (
        Side("mltx", partial(beside_streams, (STREAM,)), ("load",)),
        Side("without them", partial(beside_streams, ()), ("load",)),
    )
    yield Work("clients", f"a client, a line a round trip, beside {STREAM.connections} that stream", "transactions/s", both)
    yield Work("clients", f"{IDLE:,} idle clients take, each", "KiB", sides(lambda system: partial(idle_on, system)))
    what = f"{BURST:,} clients come at once, and each commits"
    yield Work("clients", what, "s", sides(lambda system: partial(burst_on, system)))
    for count in (60, 200):
        side = Side("mltx", partial(deadlocks_of, count), ("load",))
        yield Work("clients", f"{count} clients that deadlock, {len(ACCOUNTS)} accounts", "tries", (side,))


# By its name what the group measures, and its works.
GROUPS = {"clients": Group("64 to 10,000 clients of a server without end, against Redis", works)}
