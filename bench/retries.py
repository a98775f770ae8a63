"""What is measured of clients that run a transaction again once it gave up."""
import statistics
import time
from collections.abc import Iterator
from concurrent.futures import ThreadPoolExecutor
from contextlib import ExitStack
from dataclasses import replace
from functools import partial
from pathlib import Path

from machine import PATIENCE, Failed, Server
from sessions import (
    ALONE, BEGIN, CLIENT_THREADS, GAVE_UP, Load, Session, beside, figures, loading, mltx_server, must_answer, open_accounts,
    rate, session, transaction,
)
from works import Bench, Group, Limit, Sample, Side, Work

ACCOUNTS = range(4)


def transfer(source: int, target: int) -> tuple[str, ...]:
    """The operations that move money between two of the accounts that were drawn."""
    return (f"balance @{source}", f"balance @{target}", f"withdraw @{source} 1", f"deposit @{target} 1")


# The least microseconds of a pause; others last up to twice as long.
PAUSE = 1_000
# After how many seconds an operation that was sent is surely blocked, and for how long the answer that ends a deadlock is
# waited for.
BLOCKED, DEADLOCKED = 0.005, 20.0


def transfers(clients: int, rest: int = 0) -> Load:
    """So many clients that move money between the accounts, and wait so long before they try again."""
    return Load(transaction(*transfer(1, 2)), clients, counters=len(ACCOUNTS), threads=min(clients, CLIENT_THREADS), rest=rest)


def tries(told: dict[str, float]) -> dict[str, float]:
    """How many tries gave up for one that committed, or in all where none did, and the most that one transaction took."""
    return {"GaveUp/commit": told["refused"] / max(told["transactions"], 1), "most tries": told["most_tries"]}


def limit(bench: Bench, more: float = 0.0) -> Limit:
    """Where a load ends of which perhaps no transaction ever does."""
    return Limit(bench.pick(bench.seconds, 0.2) + more)


def commits(load: Load, bench: Bench, program: Path) -> Sample:
    """How many transactions commit in a second, which may be none."""
    with mltx_server(program) as server:
        open_accounts(server, ACCOUNTS)
        with loading(bench, server.port, load, limit(bench)) as process:
            told = figures(process)
    return rate(told, **tries(told))


def bystander(load: Load, bench: Bench, program: Path) -> Sample:
    """The rate of a client that has other cells, beside these."""
    with mltx_server(program) as server:
        open_accounts(server, ACCOUNTS)
        told, _ = beside([load], bench, server)
    return rate(told)


# Transfers that are long, beside short ones; and what waits for those who hold something all the time.

# How many transfers a long transaction has, of which two clients run one each, beside six with short ones over as many accounts.
LONG = transaction(*transfer(1, 2), *transfer(3, 4), *transfer(2, 3), *transfer(4, 1))
TRANSFERS, SIX = 4, range(6)


def long_beside_short(bench: Bench, program: Path) -> Sample:
    """How many long transactions commit in a second beside short ones, and how much they do by what those do."""
    loads = [replace(transfers(2), lines=LONG, counters=len(SIX)), replace(transfers(6), counters=len(SIX))]
    with mltx_server(program) as server, ExitStack() as stack:
        open_accounts(server, SIX)
        processes = [stack.enter_context(loading(bench, server.port, load, limit(bench))) for load in loads]
        told, short = [figures(process) for process in processes]
    work = TRANSFERS * told["transactions"] / max(short["transactions"], 1)
    return rate(told, **{"short": short["transactions"] / short["seconds"], "work long/short": work, **tries(told)})


# How many hold what others wait for, and for how many microseconds each time.
HOLDERS, HELD = 12, 20_000
# By what holds it all the time, what waits: for an account, a counter and a set.
WAITS = {"balance 0": "withdraw 0 1", "up 0 1": "read 0", "add 0 ?": "size 0"}


def beside_holders(held: str, waits: str, bench: Bench, program: Path) -> Sample:
    """How often one gets through that waits for those who hold something."""
    holders = Load(transaction(held, f"think {HELD}"), HOLDERS, counters=1_000, threads=CLIENT_THREADS)
    with mltx_server(program) as server:
        open_accounts(server, ACCOUNTS)
        with loading(bench, server.port, holders, limit(bench, 0.5)):
            time.sleep(0.2)
            with loading(bench, server.port, Load(transaction(waits)), limit(bench)) as process:
                told = figures(process)
    return rate(told, **tries(told))


# A deadlock.


def answer_of(blocked: Session) -> tuple[float, str]:
    """When a session that is blocked is answered, and what. Then it takes back its transaction, for those whom this blocks."""
    answer, at = blocked.receive(), time.monotonic()
    must_answer(blocked, "abort")
    return at, answer


def time_to_gave_up(server: Server, count: int, turn: int) -> float:
    """How long so many sessions are in a deadlock until the first is told GaveUp, in milliseconds: each holds a counter and
    reads that of the next one. The turn gives them counters of their own."""
    counters = range(turn * count, (turn + 1) * count)
    with ExitStack() as stack:
        circle = [stack.enter_context(session(server, DEADLOCKED)) for _ in counters]
        for it, counter in zip(circle, counters):
            must_answer(it, BEGIN, f"up {counter} 1")
        for it, counter in zip(circle[1:], [*counters[2:], counters[0]]):
            it.send(f"read {counter}")
        pool = stack.enter_context(ThreadPoolExecutor(count))
        answers = [pool.submit(answer_of, it) for it in circle[1:]]
        time.sleep(BLOCKED)
        began = time.monotonic()
        circle[0].send(f"read {counters[1]}")
        told = [answer_of(circle[0]), *(answer.result(PATIENCE) for answer in answers)]
    gave_up = [at for at, answer in told if answer == GAVE_UP]
    if not gave_up:
        raise Failed(f"{count} that deadlock were told {[answer for _, answer in told]}")
    return (min(gave_up) - began) * 1_000


def deadlocks(count: int, bench: Bench, program: Path) -> Sample:
    with mltx_server(program) as server:
        times = [time_to_gave_up(server, count, turn) for turn in range(bench.pick(50, 2))]
    return Sample(statistics.median(times), more={"longest": max(times)})


def works() -> Iterator[Work]:
    for clients in (2, 8, 63):
        sides = (
            Side("mltx", partial(commits, transfers(clients)), ("load",)),
            Side("with pauses", partial(commits, transfers(clients, PAUSE)), ("load",)),
        )
        yield Work("retries", f"{clients} clients that try again at once, 4 accounts", "commits/s", sides)
    yield Work("retries", "a client beside 8 that try again at once", "transactions/s", (
        Side("mltx", partial(bystander, transfers(8)), ("load",)),
        Side("with pauses", partial(bystander, transfers(8, PAUSE)), ("load",)),
        ALONE,
    ))
    side = Side("mltx", long_beside_short, ("load",))
    yield Work("retries", "2 with long transactions beside 6 with short ones", "commits/s", (side,))
    for held, waits in WAITS.items():
        side = Side("mltx", partial(beside_holders, held, waits), ("load",))
        what = f"`{waits}` beside {HOLDERS} that hold `{held.replace('?', '..')}` in turn"
        yield Work("retries", what, "commits/s", (side,))
    for count in (2, 3, 8):
        side = Side("mltx", partial(deadlocks, count))
        yield Work("retries", f"a deadlock of {count} until one is told GaveUp", "ms", (side,))


GROUPS = {"retries": Group("clients that try again at once after GaveUp, against those that pause, and deadlocks", works)}
