"""What a server without end holds in memory, after a million and after ten million transactions, how fast it is, and how fast its
trace is checked."""
import time
from collections.abc import Iterator
from functools import partial
from pathlib import Path

from files import speed
from machine import LOCAL, listening
from sessions import Load, figures_of, transaction
from works import Bench, Group, Limit, Sample, Side, Work

# One session: a session thread that serves for the first time takes some more memory, and a client connects again now and then.
SESSIONS = 1
# How long a load may take at most.
MOST_SECONDS = 600
# How many seconds a trace may be behind, and some more.
BEHIND = 1.5
# How many transactions a client sends in one write.
BATCH = 80
SPREAD = Load(transaction("up ? 1") * BATCH, whole=True, counters=50_000)
ENDLESS, LIMITED = ("--endless",), ("--limit", 1_000_000)


def after(transactions: int, options: tuple[object, ...], has_trace: bool, bench: Bench, program: Path) -> Sample:
    """So many transactions on one server, how many a second, and what it holds at their end."""
    trace = bench.folder / "endless.trace"
    words = [program, "serve", f"{LOCAL}:0", "--sessions", SESSIONS, *options, *(["--trace", trace] if has_trace else [])]
    limit = Limit(MOST_SECONDS, bench.pick(transactions, 1_000) // BATCH)
    with listening(words) as server:
        told = figures_of(bench, server.port, SPREAD, limit)
        held = server.resident_bytes() / 1_048_576
    trace.unlink(missing_ok=True)
    return Sample(told["transactions"] * BATCH / told["seconds"], more={"MB at the end": held})


def trace_of(clients: int, bench: Bench, program: Path) -> Path:
    """The trace of a server on which so many clients each add to three counters of 50,000 in a transaction. It is made once."""
    trace = bench.folder / f"clients-{clients}.trace"
    if not trace.exists():
        load = Load(transaction(*["up ? 1"] * 3), clients, whole=True, counters=50_000)
        words = [program, "serve", f"{LOCAL}:0", "--sessions", clients, *ENDLESS, "--trace", trace]
        with listening(words) as server:
            figures_of(bench, server.port, load, Limit(MOST_SECONDS, bench.pick(600_000, 300)))
            time.sleep(BEHIND)
    return trace


def speed_of_long_check(clients: int, bench: Bench, program: Path) -> Sample:
    return speed([program, "check", "--long"], trace_of(clients, bench, program))


def endless_works() -> Iterator[Work]:
    for transactions, what in ((1_000_000, "a million"), (10_000_000, "ten million")):
        sides = [
            Side("mltx", partial(after, transactions, ENDLESS, False), ("load",)),
            Side("with a trace", partial(after, transactions, ENDLESS, True), ("load",)),
        ]
        if transactions == 1_000_000:
            sides.append(Side("with a limit", partial(after, transactions, LIMITED, False), ("load",)))
        yield Work("endless", f"{what} transactions, {BATCH} a write", "transactions/s", tuple(sides), most_runs=3)
    for clients, whose in ((1, "one client"), (8, "8 clients")):
        side = Side("mltx", partial(speed_of_long_check, clients), ("load",))
        yield Work("endless", f"check --long of the trace of {whose} over 50,000 counters", "MB/s", (side,))


# By its name what the group measures, and its works.
GROUPS = {
    "endless": Group("what a server without end holds, its rate, and how fast its trace is checked", endless_works)
}
