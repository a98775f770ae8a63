"""What is measured over sessions: loads of many clients, and sessions that hold something."""
import math
import os
import statistics
import sys
import time
from collections.abc import Iterable, Iterator, Sequence
from contextlib import AbstractContextManager, ExitStack, closing
from dataclasses import dataclass, replace
from functools import partial
from pathlib import Path

import postgres
from machine import LOCAL, PATIENCE, PIPES, ROOT, Failed, Process, Server, busy, ended, listening, redis, started
from postgres import RICH
from works import Bench, Group, Limit, Sample, Side, Work

sys.path.insert(0, str(ROOT / "clients/python"))
from mltx import MltxError as MltxError, Session, TimedOut  # noqa: E402

__all__ = ["GROUPS", "MltxError", "Session"]

BEGIN, COMMIT, GAVE_UP = "begin", "commit", "error 14 GaveUp"
# How many sessions a server holds at once.
SESSIONS = 64
# In how many threads clients are where one can't keep a server busy: as many as there are processors, at most eight.
CLIENT_THREADS = max(2, min(8, os.cpu_count() or 1))

# Loads.


@dataclass(frozen=True)
class Load:
    """What clients send: the lines of a transaction, from how many connections, whether in one write, and in how many threads;
    the least microseconds that they wait after a refusal, which some wait for twice as long, that one of so many transactions is
    aborted, and the line by which, where it is not the usual one."""

    lines: tuple[str, ...]
    connections: int = 1
    whole: bool = False
    counters: int = 1
    threads: int = 1
    redis: bool = False
    rest: int = 0
    aborts: int = 0
    undo: str = ""

    def for_redis(self) -> "Load":
        words = {BEGIN: "MULTI", COMMIT: "EXEC", "up": "INCRBY", "add": "SADD", "remove": "SREM", "has": "SISMEMBER"}
        lines = tuple(" ".join(words.get(word, word) for word in line.split()) for line in self.lines)
        return replace(self, lines=lines, redis=True)


def transaction(*operations: str) -> tuple[str, ...]:
    return (BEGIN, *operations, COMMIT)


def loading(bench: Bench, port: int, load: Load, limit: Limit) -> AbstractContextManager[Process]:
    """The load generator, as long as a block lasts. It ends by itself at the limit."""
    words: list[object] = [bench.tools.paths["load"], "--port", port]
    words += ["--connections", load.connections, "--counters", load.counters]
    words += ["--seed", bench.seed, "--seconds", limit.seconds, "--threads", load.threads]
    words += ["--transactions", limit.transactions] if limit.transactions else []
    words += ["--rest", load.rest, "--aborts", load.aborts, *["--undo", load.undo] * bool(load.undo)]
    words += [*["--whole"] * load.whole, *["--redis"] * load.redis, "--", *load.lines]
    return started(words, **PIPES)


def figures(process: Process) -> dict[str, float]:
    """What the load generator tells at its end, by name."""
    words = ended(process)[0].decode().split()
    return dict(zip(words[::2], map(float, words[1::2])))


def figures_of(bench: Bench, port: int, load: Load, limit: Limit | None = None) -> dict[str, float]:
    """What it tells of a load by which some transactions ended."""
    with loading(bench, port, load, limit or bench.limit()) as process:
        told = figures(process)
    if told["transactions"] == 0:
        raise Failed("no transaction ended")
    return told


def rate(told: dict[str, float], **more: float) -> Sample:
    """How many transactions ended in a second, and how long each took."""
    return Sample(told["transactions"] / told["seconds"], told["median"], told["ninety_ninth"], more)


def mltx_server(program: Path, *options: object) -> AbstractContextManager[Server]:
    return listening([program, "serve", f"{LOCAL}:0", "--limit", 1_000_000, "--sessions", SESSIONS, *options])


def echo_server(bench: Bench) -> AbstractContextManager[Server]:
    return listening([bench.tools.paths["echo"]])


def load_on_mltx(load: Load, bench: Bench, program: Path) -> Sample:
    with mltx_server(program) as server:
        return rate(figures_of(bench, server.port, load))


def load_on_redis(load: Load, bench: Bench, _program: Path) -> Sample:
    with redis(bench.folder) as server:
        return rate(figures_of(bench, server.port, load.for_redis()))


def load_on_echo(load: Load, bench: Bench, _program: Path) -> Sample:
    with echo_server(bench) as server:
        return rate(figures_of(bench, server.port, load))


def load_on_postgres(load: Load, bench: Bench, _program: Path) -> Sample:
    limit = bench.pick(["--time", math.ceil(bench.seconds)], ["--transactions", 20])
    scripts = [postgres.Weighed(postgres.script(len(load.lines) - 2, load.counters))]
    told = postgres.load(
        bench.tools.paths["postgres"], bench.folder, scripts, load.connections, load.threads, load.counters, limit
    )
    return Sample(told.per_second, *postgres.percentiles(told.times))


def sides_of(load: Load, *others: str) -> tuple[Side, ...]:
    """A load on this program, and on these others."""
    known = {
        "Redis": Side("Redis", partial(load_on_redis, load), ("load", "redis-server")),
        "echo": Side("echo", partial(load_on_echo, load), ("load", "echo")),
        "PostgreSQL": Side("PostgreSQL", partial(load_on_postgres, load), ("postgres",)),
    }
    return (Side("mltx", partial(load_on_mltx, load), ("load",)), *(known[name] for name in others))


WAYS = {False: "a line a round trip", True: "a transaction a write"}
THREE = transaction(*["up ? 1"] * 3)
# The same of elements of one set.
SET = transaction("add 1 ?", "has 1 ?", "remove 1 ?")


def named(connections: int, threads: int) -> str:
    """The words for so many connections, in so many threads where these are several."""
    words = f"{connections} connection{'s' * (connections > 1)}"
    return f"{words} of {threads} threads" if threads > 1 else words


def serve_works() -> Iterator[Work]:
    for connections, threads in ((8, 1), (8, CLIENT_THREADS), (1, 1)):
        for whole, way in WAYS.items():
            load = Load(THREE, connections, whole, counters=50_000, threads=threads)
            others = ("Redis", "echo") if whole or threads > 1 else ("Redis", "echo", "PostgreSQL")
            yield Work("serve", f"{named(connections, threads)}, {way}", "transactions/s", sides_of(load, *others))


def connections_works() -> Iterator[Work]:
    for connections in (1, 2, 4, 8, 16, 32, SESSIONS):
        threads = min(connections, CLIENT_THREADS)
        for whole, way in WAYS.items():
            if not whole or connections == SESSIONS:
                load = Load(THREE, connections, whole, counters=50_000, threads=threads)
                yield Work("connections", f"{named(connections, threads)}, {way}", "transactions/s", sides_of(load, "Redis"))


def sets_works() -> Iterator[Work]:
    for connections in (8, SESSIONS):
        for whole, way in WAYS.items():
            load = Load(SET, connections, whole, counters=50_000, threads=min(connections, CLIENT_THREADS))
            yield Work("sets", f"{named(connections, load.threads)}, {way}", "transactions/s", sides_of(load, "Redis"))


def with_tail(side: Side, beside: int) -> Side:
    """The same with so many busy processes beside, and how many times the median the 99th percentile is."""

    def measure(bench: Bench, program: Path) -> Sample:
        with busy(beside):
            sample = side.measure(bench, program)
        if sample.median is None or sample.ninety_ninth is None:
            raise Failed(f"{side.name} tells no times")
        return replace(sample, more={"99th/median": sample.ninety_ninth / sample.median})

    return replace(side, measure=measure)


def hot_works() -> Iterator[Work]:
    for whole, way in WAYS.items():
        for beside, what in {0: "quiet", 2: "2 busy processes beside"}.items():
            sides = sides_of(Load(transaction("up 0 1", "up 1 1", "up 2 1"), 8, whole), "Redis")
            yield Work("hot", f"{way}, {what}", "transactions/s", tuple(with_tail(side, beside) for side in sides))


# Sessions that hold something.


def session(server: Server, patience: float = PATIENCE) -> AbstractContextManager[Session]:
    """A session of a server, as long as a block lasts. It waits so many seconds for an answer."""
    return closing(Session(LOCAL, server.port, PATIENCE, patience))


def must_answer(asked: Session, *lines: str) -> list[str]:
    """The answers of a session to these lines, none of which may be refused."""
    answers = asked.ask(*lines)
    if refused := [answer for answer in answers if answer.startswith("error ")]:
        raise Failed(f"a session was told {refused[0]}")
    return answers


def open_accounts(server: Server, accounts: Iterable[int]) -> None:
    """Opens accounts, and gives each so much that it is never spent."""
    with session(server) as first:
        must_answer(first, BEGIN, *(line for it in accounts for line in (f"open {it}", f"deposit {it} {RICH}")), COMMIT)


# How many operations a transaction holds where many are held, and how many are asked beside them.
HELD_BY_ONE, ASKED = 1_000, 100
HELD, ANOTHER = 0, 1


def up_beside_held(counter: int, held: int, bench: Bench, program: Path) -> Sample:
    """How long an `up` of a counter takes while so many operations of counter `HELD` are held."""
    load = Load(transaction(*[f"up {counter} 1"] * ASKED), whole=True)
    with mltx_server(program) as server, ExitStack() as stack:
        for _ in range(held // HELD_BY_ONE):
            holder = stack.enter_context(session(server))
            must_answer(holder, BEGIN, *[f"up {HELD} 1"] * HELD_BY_ONE)
        told = figures_of(bench, server.port, load, bench.limit(few=10))
    return Sample(told["median"] / ASKED)


def held_works() -> Iterator[Work]:
    for held in (0, 1_000, 4_000, 16_000):
        sides = (
            Side("mltx", partial(up_beside_held, HELD, held), ("load",)),
            Side("another counter", partial(up_beside_held, ANOTHER, held), ("load",)),
        )
        yield Work("held", f"an up of a counter of which {held:,} are held", "microseconds", sides)


def up_beside_open(count: int, bench: Bench, program: Path) -> Sample:
    """How long an `up` takes while so many transactions are open, each of which holds a counter of its own."""
    load = Load(transaction(*[f"up {ANOTHER} 1"] * ASKED), whole=True)
    with mltx_server(program) as server, ExitStack() as stack:
        for place in range(count):
            holder = stack.enter_context(session(server))
            must_answer(holder, BEGIN, f"up {100 + place} 1")
        told = figures_of(bench, server.port, load, bench.limit(few=10))
    return Sample(told["median"] / ASKED)


def open_works() -> Iterator[Work]:
    for count in (0, 15, 63):
        side = Side("mltx", partial(up_beside_open, count), ("load",))
        yield Work("open", f"an up beside {count} open transactions", "microseconds", (side,))


OTHERS = Load(transaction("up 11 1", "up 12 1", "up 13 1"))
CROSSED = [Load(transaction("up 1 1", "read 2")), Load(transaction("up 2 1", "read 1"))]


def beside(loads: Sequence[Load], bench: Bench, server: Server) -> tuple[dict[str, float], list[dict[str, float]]]:
    """What is told of a client while there are these loads in which it has no part, and of these."""
    limit = Limit(bench.pick(bench.seconds, 0.1) + 0.2)
    with ExitStack() as stack:
        processes = [stack.enter_context(loading(bench, server.port, load, limit)) for load in loads]
        told = figures_of(bench, server.port, OTHERS)
        ends = [figures(process) for process in processes]
    return told, ends


def beside_deadlock(bench: Bench, program: Path) -> Sample:
    """The rate of a client while two others stand in each other's way, and what became of those two."""
    with mltx_server(program) as server:
        told, ends = beside(CROSSED, bench, server)
    more: dict[str, float] = {}
    for place, end in zip(("first", "second"), ends):
        more |= {f"{place} GaveUp": end["refused"], f"{place} commits": end["transactions"]}
    return rate(told, **more)


def told_gave_up(reader: Session) -> tuple[float, bool]:
    """How long a session waits for the answer to a `read`, and whether it is GaveUp."""
    began = time.monotonic()
    try:
        (answer,) = reader.ask("read 1")
    except TimedOut:
        answer = ""
    return time.monotonic() - began, answer == GAVE_UP


def blocked_by_silent_holder(bench: Bench, program: Path) -> Sample:
    """How long a `read` that a silent session blocks waits for its answer, while two clients commit."""
    seconds = bench.pick(5.0, 0.3)
    load = Load(OTHERS.lines, connections=2)
    with mltx_server(program) as server, session(server) as holder, session(server, seconds) as reader:
        must_answer(holder, BEGIN, "up 1 1")
        must_answer(reader, BEGIN)
        with loading(bench, server.port, load, Limit(seconds + 0.1)) as process:
            waited, gave_up = told_gave_up(reader)
            told = figures(process)
    return Sample(waited, more={"GaveUp": float(gave_up), "commits beside": told["transactions"]})


ALONE = Side("without them", partial(load_on_mltx, OTHERS), ("load",))


def bystander_works() -> Iterator[Work]:
    deadlock = (Side("mltx", beside_deadlock, ("load",)), ALONE)
    yield Work("bystander", "a client beside two that deadlock", "transactions/s", deadlock)
    blocked = (Side("mltx", blocked_by_silent_holder, ("load",)),)
    yield Work("bystander", "a read that a silent session blocks waits", "s", blocked)


# A directory that doubles. With `low` the first bits of account a are those of a as a number of 16 bits. The first eight
# accounts fill a bucket of depth 10, and the next one has no room in it: the directory comes to have depth 11.
CROWD = [*range(4), *range(64, 69), *range(4, 8)]
NEXT = 32
READERS = 14
# After how many seconds all of them read.
START_OF_READERS = 0.1
READS = Load(transaction(*["balance ?"] * 50), connections=READERS, whole=True, counters=8)


def time_doubling(server: Server) -> tuple[float, str]:
    """How long the account that doubles the directory takes to be opened, in milliseconds, and the answer."""
    with session(server) as inserter:
        must_answer(inserter, BEGIN)
        began = time.monotonic()
        (answer,) = inserter.ask(f"open {NEXT}")
        milliseconds = (time.monotonic() - began) * 1_000
    if answer not in ("opened", GAVE_UP):
        raise Failed(f"the account that doubles the directory was answered {answer}")
    return milliseconds, answer


def one_doubling(with_readers: bool, bench: Bench, program: Path) -> tuple[float, str]:
    """The same on a server of its own, with or without readers that go on all the while."""
    with mltx_server(program, "--hash", "low", "--tries", 100) as server:
        with session(server) as first:
            must_answer(first, BEGIN, *(f"open {account}" for account in CROWD), COMMIT)
        if not with_readers:
            return time_doubling(server)
        with loading(bench, server.port, READS, Limit(PATIENCE)) as readers:
            time.sleep(START_OF_READERS)
            timed = time_doubling(server)
            if readers.poll() is not None:
                raise Failed("the readers ended before the insert did")
            return timed


def doublings(with_readers: bool, bench: Bench, program: Path) -> Sample:
    found = [one_doubling(with_readers, bench, program) for _ in range(bench.pick(20, 2))]
    times = [milliseconds for milliseconds, _ in found]
    refused = sum(answer == GAVE_UP for _, answer in found)
    more = {"longest": max(times), "GaveUp": float(refused), "inserts": float(len(found))}
    return Sample(statistics.median(times), more=more)


def readers_works() -> Iterator[Work]:
    sides = (Side("mltx", partial(doublings, True), ("load",)), Side("without them", partial(doublings, False), ("load",)))
    yield Work("readers", f"an insert that doubles the directory beside {READERS} readers", "ms", sides)


def memory(bench: Bench, program: Path) -> Sample:
    """By how many bytes a server grows for a transaction that committed."""
    count = bench.pick(200_000, 5_000)
    load = Load(transaction("up 0 1", "up 1 1", "up 2 1"), 8, whole=True)
    with mltx_server(program) as server:
        figures_of(bench, server.port, load, Limit(PATIENCE, count // 10))
        before = server.resident_bytes()
        told = figures_of(bench, server.port, load, Limit(PATIENCE, count))
        return Sample((server.resident_bytes() - before) / told["transactions"])


def memory_works() -> Iterator[Work]:
    yield Work("memory", "kept for a transaction of three operations", "bytes", (Side("mltx", memory, ("load",)),))


# By its name what a group measures, and its works.
GROUPS = {
    "serve": Group("sessions that add to 3 of 50,000 counters, against Redis, PostgreSQL and a bare echo", serve_works),
    "connections": Group("1 to 64 sessions that add to 3 of 50,000 counters, against Redis", connections_works),
    "sets": Group("8 and 64 sessions that add, look up and remove one of 50,000 elements of a set, against Redis", sets_works),
    "hot": Group("8 sessions on 3 counters, quiet and beside busy processes, against Redis", hot_works),
    "held": Group("an up of a counter of which many operations are held, against one of another counter", held_works),
    "open": Group("an up beside up to 63 open transactions", open_works),
    "bystander": Group("who has no part in a deadlock, and who waits for a silent session", bystander_works),
    "readers": Group("an insert that doubles the directory, beside readers that never pause", readers_works),
    "memory": Group("bytes that a server keeps for a transaction", memory_works),
}
