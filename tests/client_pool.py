"""The client in Python as programs are built on it: threads that share one, pools, asyncio, tries by time, and servers that are
killed and started again under a pool."""
from __future__ import annotations

import asyncio
import contextlib
import functools
import gc
import inspect
import itertools
import logging
import os
import random
import re
import select
import signal
import socket
import threading
import time
import warnings
from collections import Counter, defaultdict
from collections.abc import Callable, Coroutine, Iterator
from concurrent.futures import Future, ThreadPoolExecutor
from contextlib import contextmanager
from dataclasses import dataclass, field
from pathlib import Path
from typing import Any, TypeVar
from unittest import mock

from client import BREAKS, FIRST, PATIENT, RESULTS, Relay, Scripted, connected, dribbles, raised
from harness import PATIENCE, Address, Program, comes_to_be, each, expect, free_address, holds, lines, match, same, test

import mltx as client_module
from mltx import Client, CommitUnknown, ConnectionLost, GaveUp, LogFull, MltxError, Nested, Operation, Operator, Pool, PoolTimeout
from mltx import Reply, Retries, Running, ServerAway, ServerRestarted, SessionsTaken, TimedOut, Transaction, TransactionOver
from mltx import UnexpectedAnswer, WrongThread, aio
from mltx.core import Numbers

Result = TypeVar("Result")
# Tries that are over soon.
FEW = Retries(attempts=3, first_pause=0.001, longest_pause=0.002)


# Threads


def in_a_thread(call: Callable[..., Result], *arguments: object) -> Result:
    """What a call comes to in a thread of its own, which has ended then."""
    with ThreadPoolExecutor(1) as threads:
        return threads.submit(call, *arguments).result(PATIENCE)


@test
def client_of_another_thread(mltx: Program) -> None:
    """While a transaction is open no other thread gets in, and nothing is sent; behind it one may, and after a thread's end."""
    with mltx.serve(limit=2) as server, connected(server) as client:
        with client.begin() as tx:
            left = tx.session.bytes_left
            calls: list[Callable[[], object]] = [client.begin, client.session, client.close, lambda: tx.up(7, 1), tx.commit]
            calls += [tx.abort, tx.session.close, tx.session.has_ended, lambda: tx.session.ask("up 7 1")]
            for call in calls:
                said = str(in_a_thread(raised, WrongThread, call))
                match("MainThread.*: connect a client for each thread, or use a Pool$", said)
            same((tx.session.bytes_left, tx.is_open), (left, True), "the transaction of the first thread")
            tx.up(7, 1)
        same(in_a_thread(lambda: client.run(lambda tx: tx.read(7))), 1, "what another thread reads behind it")
        left_open = in_a_thread(client.begin)
        raised(Running, client.begin)
        client.close()
        same(client.run(lambda tx: tx.read(7)), 1, "what is read on a new connection")
        same(left_open.is_open, False, "the transaction of a thread that has ended")
        client.close()
        expect(server.end(), out="served 2\n")


@test
def client_in_a_call_of_another_thread(mltx: Program) -> None:
    """Without a transaction, too, no two threads are in a call."""
    with mltx.serve("--sessions", 1, limit=2) as server, connected(server) as holder:
        holder.run(lambda tx: tx.up(7, 1))
        with Client(*server.address, session_timeout=PATIENCE) as client, ThreadPoolExecutor(1) as threads:
            reading = threads.submit(lambda: client.run(lambda tx: tx.read(7)))
            comes_to_be(lambda: client._turns._calls, "the other thread is in a call")
            raised(WrongThread, client.begin)
            holder.close()
            same(reading.result(PATIENCE), 1, "what the other thread reads")


def transfer(tx: Transaction, source: int, target: int, amount: int) -> None:
    """Moves an amount where the source has it, which is looked at first: two of them may be in a deadlock."""
    if (tx.balance(source) or 0) < amount:
        return
    same(tx.ask_all([Operation.withdraw(source, amount), Operation.deposit(target, amount)]), [Reply.DONE] * 2)


@test(seconds=3)
def transfers_of_sixteen_threads(mltx: Program) -> None:
    """The sum of all accounts is kept, while transfers give up and are run again."""
    threads, accounts, trace = 16, range(6), mltx.folder / "trace"

    def work(seed: int) -> None:
        source = random.Random(seed)
        with Client(*server.address, retries=PATIENT) as client:
            for _ in range(20):
                one, other = source.sample(accounts, 2)
                client.run(lambda tx: transfer(tx, one, other, source.randrange(1, 100)))

    with mltx.serve("--sessions", threads, "--tries", 20, "--trace", trace, limit=threads + 2) as server:
        with connected(server) as client:
            client.run(lambda tx: tx.ask_all([Operation.open(account) for account in accounts]))
            client.run(lambda tx: tx.ask_all([Operation.deposit(account, 1_000) for account in accounts]))
        with ThreadPoolExecutor(threads) as pool:
            list(pool.map(work, range(threads)))
        with connected(server) as client:
            balances = client.run(lambda tx: tx.ask_all([Operation.balance(account) for account in accounts]))
        same(sum(it or 0 for it in balances), 6_000, f"the sum of {balances}")
        expect(server.end(), out=f"served {threads + 2}\n")
    base = [f"account {account} {balance}" for account, balance in enumerate(balances)]
    same(mltx.accepted(trace).splitlines()[-6:], base, "the base")


@test
def transaction_that_is_left_open(mltx: Program) -> None:
    """Once it is collected a warning says so, and it is rolled back; the client goes on. Others are not warned of."""
    trace = mltx.folder / "trace"
    served, caught = mltx.serve("--trace", trace, limit=3), warnings.catch_warnings(record=True)
    with served as server, caught as told, connected(server) as client:
        warnings.simplefilter("always")
        client.run(lambda tx: tx.up(7, 1))
        with contextlib.suppress(KeyError), client.begin():
            raise KeyError
        client.begin().up(8, 1)
        gc.collect()
        same([(it.category, str(it.message)) for it in told],
             [(ResourceWarning, "transaction 3 was left open, and is rolled back")], "the warnings")
        same(client.run(lambda tx: tx.read(8)), 0, "what the next one reads")

        async def leave_open() -> None:
            async with await aio.connect(*server.address) as client:
                await (await client.begin()).up(8, 1)
                gc.collect()
                same(str(told[-1].message), "transaction 5 was left open, and is rolled back", "the warning with asyncio")

        asyncio.run(leave_open())
        same(len(told), 2, "the warnings")


# Tries


@dataclass
class Heard:
    """What `on_retry` and the logger `mltx` are told."""

    retries: list[tuple[int, str]] = field(default_factory=list)
    pauses: list[float] = field(default_factory=list)
    logged: list[str] = field(default_factory=list)

    def on_retry(self, attempt: int, failure: MltxError, pause: float) -> None:
        self.retries.append((attempt, type(failure).__name__))
        self.pauses.append(pause)


@contextmanager
def logging_to(heard: Heard) -> Iterator[None]:
    """Notes what is logged, without its numbers, as long as the block lasts."""
    class Noting(logging.Handler):
        def emit(self, record: logging.LogRecord) -> None:
            heard.logged.append(f"{record.levelname} {re.sub(r'[0-9.]+ seconds', 'T', record.getMessage())}")

    handler, log = Noting(), logging.getLogger("mltx")
    log.addHandler(handler)
    log.setLevel(logging.DEBUG)
    try:
        yield
    finally:
        log.removeHandler(handler)
        log.setLevel(logging.NOTSET)


@test
def tries_are_told_of(mltx: Program) -> None:
    """Each that failed has its number, its reason and the pause; the last failure is raised. `attempts` does as `run`."""
    heard = Heard()
    with mltx.serve("--tries", 1, limit=2) as server, connected(server) as holder, holder.begin() as held:
        held.up(7, 1)
        with logging_to(heard), Client(*server.address, retries=FEW, on_retry=heard.on_retry) as client:
            attempts: list[int] = []

            def read(tx: Transaction) -> int:
                attempts.append(tx.attempt)
                if attempts[3:] == [1, 2]:
                    held.commit()
                return tx.read(7)

            raised(GaveUp, client.run, read)
            same((attempts, heard.retries), ([1, 2, 3], [(1, "GaveUp"), (2, "GaveUp")]), "the tries of run")
            holds(all(0 <= pause <= 0.002 for pause in heard.pauses), f"the pauses {heard.pauses}")
            number, attempts[3:] = 0, []
            for attempt in client.attempts():
                with attempt as tx:
                    number = read(tx)
            same((number, attempts[3:], heard.retries[2:]), (1, [1, 2], [(1, "GaveUp")]), "the tries of attempts")
    refused = "error 14 GaveUp: other transactions are in the way: abort, and begin again"
    wanted = ["DEBUG connected to %s:%d" % server.address]
    wanted += [f"INFO try {attempt} failed, and the next one is in T: {refused}" for attempt in (1, 2, 1)]
    same(heard.logged, wanted, "what is logged")


@test
def attempts_end(mltx: Program) -> None:
    """By a commit, by an abort in the block, by an exception of its own, and by the last failure."""
    trace = mltx.folder / "trace"
    with mltx.serve("--trace", trace, limit=2) as server, connected(server) as client:

        def first() -> int:
            for attempt in client.attempts():
                with attempt as tx:
                    tx.up(1, 1)
                    return tx.number
            return 0

        same(first(), 1, "a block that returns")
        blocks = 0
        for attempt in client.attempts():
            with attempt as tx:
                blocks += 1
                tx.up(2, 1)
                tx.abort()
        with contextlib.suppress(ZeroDivisionError):
            for attempt in client.attempts():
                with attempt as tx:
                    blocks += 1
                    tx.up(3, blocks // 0)
        for attempt in client.attempts():
            with attempt as tx:
                blocks += 1
                tx.up(4, 1)
                if tx.attempt == 1:
                    server_cuts(tx)
                    tx.up(4, 1)
        same((blocks, tx.attempt), (4, 2), "the blocks")
        with contextlib.suppress(ConnectionLost):
            for attempt in client.attempts():
                with attempt as tx:
                    tx.up(5, 1)
                    server_cuts(tx)
            raise AssertionError("a block whose connection has ended may have returned, and is not repeated in silence")
        client.close()
        ended = server.end()
        expect(ended, out="served 2\n", notes=ended.notes)
    expect(mltx.check(trace), out=lines("serial 1|serial 4|counter 1 1|counter 4 1"), what="the check of the trace")


def server_cuts(tx: Transaction) -> None:
    """Has the connection end, as if the server had ended it."""
    tx.session._wire._socket.shutdown(2)  # type: ignore[attr-defined]


@test(seconds=2)
def tries_by_time(mltx: Program) -> None:
    """A server that is away is tried until the time is over, or as often as is said; one that comes meanwhile is found."""
    address, tries = free_address(), list[int]()
    cases = [(Retries(seconds=0.5, longest_pause=0.02), 0.5, 8), (Retries(seconds=0), 0, 1)]
    cases += [(Retries(seconds=9, attempts=2), 0, 2), (Retries(seconds=9, connects=2), 0, 2)]
    for retries, least, count in cases:
        tries.clear()
        client = Client(*address, retries=retries, on_retry=lambda attempt, _, pause: tries.append(attempt))
        began = time.monotonic()
        raised(ServerAway, lambda: client.run(lambda tx: 1 // 0))
        took = time.monotonic() - began
        holds(least <= took < 9, f"{retries} took {took} seconds")
        holds(len(tries) + 1 >= count if least else len(tries) + 1 == count, f"{retries}: tries {tries}")
    raised(ValueError, lambda: Retries(seconds=-1))
    with ThreadPoolExecutor(1) as threads, Client(*address, retries=Retries(seconds=PATIENCE)) as client:
        reading = threads.submit(lambda: client.run(lambda tx: tx.read(7)))
        time.sleep(0.2)
        with mltx.serve(address=address):
            same(reading.result(PATIENCE), 0, "what it reads once the server is there")
            in_a_thread(client.close)


@test
def address_of_the_environment(mltx: Program) -> None:
    with mltx.serve(limit=5) as server:
        text = "%s:%d" % server.address
        connected(server).close()
        with mock.patch.dict(os.environ, {"MLTX_ADDR": text}):
            makes: list[Callable[[], Client]] = [client_module.connect, lambda: client_module.connect(text)]
            makes += [lambda: client_module.connect(*server.address), Client]
            for make in makes:
                with make() as client:
                    same((client.host, client.port), server.address, "the address")
                    client.run(lambda tx: tx.up(7, 1))
            same(Operator(text).port, server.address[1], "the port of an operator")
        expect(server.end(), out="served 5\n")
    with mock.patch.dict(os.environ):
        os.environ.pop("MLTX_ADDR", None)
        calls: list[Callable[[], object]] = [Client, client_module.connect, Pool, lambda: Client("nowhere"), lambda: Pool(size=0)]
        for call in [*calls, lambda: Client(None, 7000), lambda: Pool("127.0.0.1:7000", size=0)]:
            raised(ValueError, call)
    unknown: dict[str, Any] = {"answer": 5}
    raised(TypeError, lambda: Pool("127.0.0.1:7000", **unknown))


# Pools


@test(seconds=1)
def pool_is_bounded(mltx: Program) -> None:
    """It has no more connections than clients. Who comes first is first served, or gets PoolTimeout in time."""
    options: dict[str, Any] = {"limit": None, "admin": free_address()}
    with mltx.serve("--endless", **options) as server, Pool(*server.address, size=2) as pool, ThreadPoolExecutor(9) as threads:
        connected(server).close()
        served: list[int] = []

        def serve(number: int) -> None:
            with pool.client():
                served.append(number)

        with pool.client() as one:
            with pool.client() as other:
                holds(one is not other, "two clients")
                pool.timeout = 0.05
                began = time.monotonic()
                match("raise its size$", str(raised(PoolTimeout, pool.run, lambda tx: tx.up(7, 1))))
                holds(0.05 <= time.monotonic() - began < PATIENCE, "how long it waits")
                pool.timeout, waiting = None, list[Future[None]]()
                for number in range(6):
                    waiting.append(threads.submit(serve, number))
                    comes_to_be(lambda: len(pool._waiting) == len(waiting), "it waits")
            # The other client alone is free from here on, so one is served after the other.
            for it in waiting:
                it.result(PATIENCE)
        same(served, list(range(6)), "in which order they are served")
        same(set(threads.map(lambda _: pool.run(lambda tx: tx.up(7, 1)), range(50))), {Reply.DONE}, "what all are told")
        same(len(pool._free), 2, "the clients that are free")
        same(Operator(*server.admin).status()["connections"], 3, "the connections, with the first one of this test")


@test(seconds=1)
def pool_keeps_few_connections(mltx: Program) -> None:
    """One thread uses one connection of a pool, again and again. Others that were free for the idle time end as it does."""
    with mltx.serve("--endless", limit=None, admin=free_address()) as server, ThreadPoolExecutor(5) as threads:
        def connections() -> tuple[int, int]:
            told = Operator("%s:%d" % server.admin).status()
            return told["sessions"], told["connections"]

        with Pool(*server.address, size=5, idle=0.5) as pool:
            for number in range(1, 11):
                same(pool.run(lambda tx: tx.up(7, 1)), Reply.DONE, f"transaction {number}")
            same(connections(), (1, 1), "who has connected for one thread")
            together = threading.Barrier(5)

            def meets(tx: Transaction) -> None:
                tx.up(7, 1)
                together.wait(PATIENCE)

            list(threads.map(lambda _: pool.run(meets), range(5)))
            same(connections(), (5, 5), "who has connected for five")
            time.sleep(0.6)
            pool.run(lambda tx: tx.up(7, 1))
            comes_to_be(lambda: connections() == (1, 5), "connections that nobody has used end")
            same(pool.run(lambda tx: tx.read(7)), 16, "the counter")


@test(seconds=1)
def pool_replaces_what_broke(mltx: Program) -> None:
    """A connection that an operator ended, or in which a transaction was left open, is replaced; a closed pool gives none."""
    with mltx.serve("--endless", limit=None, admin=free_address()) as server, Pool(*server.address, size=1) as pool:
        connected(server).close()
        operator = Operator(*server.admin)
        for count in range(1, 4):
            same(pool.run(lambda tx: (tx.up(7, 1), tx.read(7))[1]), count, "the counter")
            for it in operator.sessions():
                operator.end_session(it.client)
            comes_to_be(lambda: not operator.sessions(), "the session has ended")
        with pool.client() as client:
            tx = client.begin()
            tx.up(7, 1)
        raised(ConnectionLost, tx.commit)
        same(pool.run(lambda tx: tx.read(7)), 3, "what it reads behind a transaction that was left open")
        with pool.client() as client:
            pool.close()
            same(client.run(lambda tx: tx.read(7)), 3, "what a client reads that is in use")
        raised(RuntimeError, pool.run, lambda tx: tx.read(7))
        comes_to_be(lambda: not operator.sessions(), "all connections are closed")


@test
def transaction_inside_another_one(mltx: Program) -> None:
    """A thread that has one open in a pool gets no other one by `run`, which could wait for the first; another thread does."""
    with mltx.serve("--endless", limit=None) as server, Pool(*server.address, size=3) as pool, pool.client() as one:
        connected(server).close()
        one.run(lambda tx: tx.up(6, 1))
        same(pool.run_all([Operation.up(7, 1)]), [Reply.DONE], "beside a client without a transaction")
        calls: list[Callable[[], object]] = [lambda: pool.run(lambda tx: tx.up(7, 1)), lambda: pool.run_all([Operation.up(7, 1)])]
        for call in calls:
            raised(Nested, pool.run, lambda tx, call=call: (tx.up(7, 1), call()))
            raised(Nested, one.run, lambda tx, call=call: call())
            with pool.client() as other, one.begin() as tx:
                tx.up(8, 1)
                same(other.run(lambda tx: tx.up(7, 1)), Reply.DONE, "a client that was taken before")
                in_a_thread(call)
        same(pool.run(lambda tx: (tx.read(7), tx.read(8))), (5, 2), "the counters")


# Forks


def in_a_fork(call: Callable[[], object]) -> str:
    """What a call comes to in a forked process, of which nothing else is left."""
    read, write = os.pipe()
    child = os.fork()
    if not child:
        said = "nothing"
        try:
            signal.alarm(20)
            said = repr(call())
        except BaseException as error:
            said = repr(error)
        finally:
            os.write(write, said.encode())
            os._exit(0)
    os.close(write)
    with open(read, "rb") as told:
        said = told.read().decode()
    os.waitpid(child, 0)
    return said or "it hangs"


@test(seconds=2)
def pool_in_forked_processes(mltx: Program) -> None:
    """Each connects for itself, also where threads were using the pool; the parent goes on, and no answer is another's."""
    with mltx.serve("--endless", limit=None) as server, Pool(*server.address, size=3, timeout=5) as pool:
        connected(server).close()
        stop = threading.Event()

        def count(counter: int) -> int:
            times = 0
            while not stop.is_set() and times < 20_000:
                times += 1
                same(pool.run(lambda tx: (tx.up(counter, 1), tx.read(counter))), (Reply.DONE, times), "what the counter is")
            return times

        def count_in_child(counter: int) -> int:
            for times in range(1, 101):
                same(pool.run(lambda tx: (tx.up(counter, 1), tx.read(counter))), (Reply.DONE, times), "what the counter is")
            with pool.client() as one, pool.client() as two, pool.client() as three:
                return len({one, two, three})

        with ThreadPoolExecutor(2) as threads:
            counting = [threads.submit(count, counter) for counter in (1, 2)]
            comes_to_be(lambda: len(pool._users) == 2, "both use the pool")
            told = [in_a_fork(functools.partial(count_in_child, counter)) for counter in range(10, 16)]
            same(told, ["3"] * 6, "the clients that a forked process may use")
            stop.set()
            times = [it.result(PATIENCE) for it in counting]
        same(pool.run(lambda tx: [tx.read(1), tx.read(2), tx.read(10), tx.read(15)]), [*times, 100, 100], "the counters")


@test
def transaction_over_a_fork(mltx: Program) -> None:
    """It stays the parent's, whose connection the child neither uses nor ends. The child's own client connects anew."""
    with mltx.serve("--endless", limit=None) as server, connected(server) as client, connected(server) as other:
        holds(client.session() and other.session(), "both have connected")

        def use() -> object:
            calls: list[Callable[[], object]] = [lambda: tx.up(7, 1), tx.commit, tx.abort]
            for call in calls:
                raised(TransactionOver, call)
            raised(ConnectionLost, tx.session.ask, "up 7 1")
            other.close()
            return client.run(lambda tx: tx.up(8, 1)), in_a_thread(lambda: other.run(lambda tx: tx.up(8, 1)))

        with client.begin() as tx:
            tx.up(7, 1)
            same(in_a_fork(use), repr((Reply.DONE, Reply.DONE)), "the child")
            same(tx.read(7), 1, "what the parent reads then")
        same(other.run(lambda tx: (tx.read(7), tx.read(8))), (1, 2), "the counters")


@test
def fork_under_a_lock(mltx: Program) -> None:
    """A lock that another thread holds as the process forks is not taken over."""
    with mltx.serve("--endless", limit=None) as server, Pool(*server.address, size=1) as pool:
        connected(server).close()
        pool.run(lambda tx: tx.up(7, 1))
        client = pool._clients[0]
        with pool._lock, client._turns._lock, client._numbers._lock, mock.patch.object(client._turns, "_calls", 1):
            with mock.patch.object(client._turns, "_inside", threading.Thread()):
                same(in_a_fork(lambda: pool.run(lambda tx: tx.read(7))), "1", "what the child reads")


@test
def asyncio_over_a_fork(mltx: Program) -> None:
    """The child has a loop of its own, and the parent's goes on to listen to its connections, which the child doesn't end."""

    async def counted(tx: aio.Transaction, counter: int) -> int:
        await tx.up(counter, 1)
        return await tx.read(counter)

    async def use() -> None:
        async with aio.Pool(*server.address, size=2) as pool:
            same(await pool.run(lambda tx: counted(tx, 7)), 1)
            async with pool.client() as client, await client.begin() as tx:
                same(await counted(tx, 7), 2)
                child = in_a_fork(lambda: asyncio.run(pool.run(lambda tx: counted(tx, 8))))
                same(child, "1", "what the child counts")
                same(await asyncio.wait_for(counted(tx, 7), PATIENCE), 3, "what the parent counts then")
            same(await pool.run(lambda tx: counted(tx, 8)), 2, "what it counts where the child did")

    with mltx.serve("--endless", limit=None) as server:
        connected(server).close()
        asyncio.run(use())


@test
def asyncio_of_two_loops(mltx: Program) -> None:
    """A pool and a client of a loop that has ended connect anew in the next one, and the server hears of the end of the first."""
    with mltx.serve("--endless", limit=None, admin=free_address()) as server:
        connected(server).close()
        pool, client = aio.Pool(*server.address, size=2), aio.Client(*server.address)
        for count in (1, 3, 5):
            same(asyncio.run(pool.run(lambda tx: tx.up(7, 1))), Reply.DONE)
            same(asyncio.run(client.run_all([Operation.up(7, 1), Operation.read(7)])), [Reply.DONE, count + 1], "the counter")
        comes_to_be(lambda: len(Operator(*server.admin).sessions()) == 2, "the connections of ended loops have ended")
        left: list[aio.Transaction] = []

        async def leave() -> None:
            left.append(await client.begin())

        async def go_on() -> None:
            await left[0].up(7, 1)

        asyncio.run(leave())
        raised(ConnectionLost, asyncio.run, go_on())


# Restarts


@each({"restart-is-seen-by-a-client": Client, "restart-is-seen-by-a-pool": Pool})
def restart_is_seen_by_an_idle_client(mltx: Program, kind: type[Client] | type[Pool]) -> None:
    """A server that has begun more transactions than the client had seen of the last one is known by its number."""
    for before in (1, 30):
        restart_is_seen_after(mltx, kind, before)


def restart_is_seen_after(mltx: Program, kind: type[Client] | type[Pool], before: int) -> None:
    """It is raised once, if the client had seen so many transactions before."""
    admin = free_address()
    options: dict[str, Any] = {"admin": "%s:%d" % admin, "retries": PATIENT}
    with mltx.serve("--endless", limit=None, admin=admin) as server, kind(*server.address, **options) as idle:
        for _ in range(before):
            idle.run(lambda tx: tx.up(7, 1))
        server.kill()
        with mltx.serve("--endless", limit=None, address=server.address, admin=admin) as again, connected(again) as busy:
            for _ in range(20):
                busy.run(lambda tx: tx.up(8, 1))
            raised(ServerRestarted, idle.run, lambda tx: tx.read(7))
            same(idle.run(lambda tx: (tx.read(7), tx.number)), (0, 21), "what it reads then")
            busy.run(lambda tx: tx.up(8, 1))
            same(idle.run(lambda tx: tx.number), 23, "the next one, of a number that the new server gave out")


@test
def restart_is_seen_by_asyncio(mltx: Program) -> None:
    admin = free_address()

    async def use() -> None:
        async with aio.Client(*server.address, admin="%s:%d" % admin, retries=PATIENT) as idle:
            await idle.run_all([Operation.up(7, 1)])
            server.kill()
            with mltx.serve("--endless", limit=None, address=server.address, admin=admin) as again, connected(again) as busy:
                for _ in range(20):
                    busy.run(lambda tx: tx.up(8, 1))
                with contextlib.suppress(ServerRestarted):
                    await idle.run_all([Operation.up(7, 1)])
                    raise AssertionError("no ServerRestarted is raised")
                same(await idle.run_all([Operation.read(7)]), [0])

    with mltx.serve("--endless", limit=None, admin=admin) as server:
        connected(server).close()
        asyncio.run(use())


@each({"restart-that-is-expected": False, "restart-that-is-expected-and-seen-by-number": True})
def restart_that_is_expected(mltx: Program, has_admin: bool) -> None:
    """With `--data` nothing is lost, so a restart is no reason to fail."""
    admin, data = free_address(), mltx.folder / "data"
    options: dict[str, Any] = {"admin": "%s:%d" % admin if has_admin else None, "expects_restart": True, "retries": PATIENT}
    with mltx.serve("--endless", "--data", data, limit=None, admin=admin) as server, Pool(*server.address, **options) as pool:
        connected(server).close()
        for count in range(1, 6):
            same(pool.run(lambda tx: (tx.up(7, 1), tx.read(7))), (Reply.DONE, count))
        Operator(*admin).stop()
        same(server.end(is_all_noted=False).status, 0, "the first server")
        heard = Heard()
        with logging_to(heard), mltx.serve("--endless", "--data", data, limit=None, address=server.address, admin=admin):
            same(pool.run(lambda tx: (tx.up(7, 1), tx.read(7), tx.number < 6)), (Reply.DONE, 6, True), "what it counts on")
            restarts = [it for it in heard.logged if it.startswith("INFO the server was restarted")]
            same(len(restarts), 1, "the restarts that are logged")


@test
def operator_that_is_not_there_is_tried_again(mltx: Program) -> None:
    """A client that has to know its server doesn't use one of which it can't."""
    with mltx.serve(limit=1) as server:
        admin = "%s:%d" % free_address()
        raised(ServerAway, Client(*server.address, admin=admin, retries=FEW).run, lambda tx: 1 // 0)


@test
def pool_of_a_server_that_was_restarted(mltx: Program) -> None:
    """One of its clients raises, the others go on with the new server."""
    with mltx.serve("--endless", limit=None) as server, Pool(*server.address, size=3) as pool:
        connected(server).close()
        with pool.client() as one, pool.client() as two, pool.client() as three:
            clients = [one, two, three]
            numbers = [client.run(lambda tx: tx.number) for client in clients * 3]
            same(numbers, list(range(1, 10)), "their transactions")
            server.kill()
            with mltx.serve("--endless", limit=None, address=server.address) as again:
                connected(again).close()
                raised(ServerRestarted, two.run, lambda tx: tx.number)
                same([client.run(lambda tx: tx.number) for client in clients], [2, 3, 4], "their transactions at the new server")


@test
def numbers_of_a_pool(_mltx: Program) -> None:
    """Answers may be read in another order than they came; those of an earlier server say nothing of a later one."""
    numbers = Numbers()
    first = numbers.seen()
    for number in (6, 5, 7):
        numbers.note(number, first)
    old = numbers.seen()
    raised(ServerRestarted, numbers.note, 7, old)
    numbers.note(8, numbers.seen())
    raised(ServerRestarted, numbers.note, 3, old)
    numbers.note(900, old)
    numbers.note(9, numbers.seen())
    raised(ServerRestarted, numbers.note, 9, numbers.seen())


# asyncio


def writer_of(tx: aio.Transaction) -> asyncio.StreamWriter:
    wire = tx.session._wire
    assert isinstance(wire, aio.StreamWire)
    return wire._writer


def shape(kind: type) -> dict[str, list[str]]:
    """The public methods of a class, with the names of their arguments, and its properties."""
    found = {name: getattr(kind, name) for name in dir(kind) if name[0] != "_" or name == "__init__"}
    return {name: list(inspect.signature(it).parameters) if callable(it) else [] for name, it in found.items()}


@test
def names_of_asyncio(_mltx: Program) -> None:
    for name in ("Client", "Transaction", "Pool", "Attempt"):
        same(shape(getattr(aio, name)), shape(getattr(client_module, name)), name)
    options = inspect.signature(Client).parameters
    for connect in (client_module.connect, aio.connect):
        same(inspect.signature(connect).parameters, options, f"the options of {connect}")


@test
def asyncio_has_each_reply(mltx: Program) -> None:
    async def ask() -> None:
        async with await aio.connect(*server.address) as client:
            async with await client.begin() as tx:
                for word, numbers, result in RESULTS:
                    same(await getattr(tx, word)(*numbers), result, f"{word} {numbers}")
                await tx.abort()
            async with await client.begin() as tx:
                told = await tx.ask_all([getattr(Operation, word)(*numbers) for word, numbers, _ in RESULTS])
                same(told, [result for _, _, result in RESULTS], "the pipeline")
                raised(ValueError, lambda: Operation.up(7, -1))
            same((tx.number, tx.commit_number, tx.is_open), (2, 1, False), "the transaction")
            try:
                await client.run(lambda tx: tx.ask_all([Operation.read(7)] * 5_000))
                raise AssertionError("no LogFull is raised")
            except LogFull:
                pass

    with mltx.serve() as server:
        asyncio.run(coming(server.address, ask))
        expect(server.end(), out="served 1\n")


async def coming(address: Address, call: Callable[[], Coroutine[Any, Any, None]]) -> None:
    """Calls once a server is there, at a client that tries by time."""
    until = time.monotonic() + PATIENCE
    while True:
        try:
            return await call()
        except ServerAway:
            holds(time.monotonic() < until, f"no server is at {address}")
            await asyncio.sleep(0.01)


@each({f"asyncio-{name}": case for name, case in BREAKS.items()})
def asyncio_is_cut(mltx: Program, case: tuple[tuple[str, str], int, bool, int]) -> None:
    """It runs a transaction again as the blocking client does, and never one whose commit may have been done."""
    cut, runs, is_unknown, count = case
    tries: list[int] = []

    async def count_up(tx: aio.Transaction) -> Reply:
        tries.append(tx.number)
        return await tx.up(7, 1)

    async def run() -> None:
        async with aio.Client(*relay.address, retries=PATIENT) as client:
            try:
                await client.run(count_up)
                holds(not is_unknown, "the commit is known of")
            except CommitUnknown as unknown:
                same((is_unknown, unknown.transaction), (True, tries[-1]), "the transaction that is not known of")

    with mltx.serve(limit=3 - is_unknown) as server:
        relay = Relay(server, [cut, None])
        asyncio.run(run())
        same(len(tries), runs, "how often it was run")
        with connected(server) as client:
            same(client.run(lambda tx: tx.read(7)), count, "the counter")
        expect(server.end(), out=f"served {3 - is_unknown}\n")


@test(seconds=2)
def asyncio_of_many_tasks(mltx: Program) -> None:
    """A pool serves more tasks than it has clients, also while calls are cancelled. A client lets in one call at a time."""

    async def use() -> None:
        async with aio.Pool(*server.address, size=2, retries=PATIENT) as pool:
            told = await asyncio.gather(*[pool.run(lambda tx: tx.up(7, 1)) for _ in range(40)])
            same(set(told), {Reply.DONE}, "what all are told")
            async with pool.client() as one, pool.client() as other, await one.begin() as held:
                await held.up(8, 1)
                tx = await other.begin()
                both = await asyncio.gather(tx.read(8), one_more(tx), held.up(8, 1), return_exceptions=True, *[ended(held)])
                same([type(it) for it in both], [int, WrongThread, Reply, int], "what two calls at a time come to")
                match("Task.*: connect a client for each task, or use an aio.Pool$", str(both[1]))
                await tx.commit()
                held = await one.begin()
                await held.up(8, 1)
                waiting = asyncio.ensure_future(other.run(lambda tx: tx.read(8)))
                await asyncio.sleep(0.05)
                waiting.cancel()
                await asyncio.wait([waiting])
                holds(waiting.cancelled(), "the call is cancelled")
                for timeout, kind in ((0.05, PoolTimeout), (PATIENCE, Nested)):
                    pool.timeout = timeout
                    runs = pool.run(lambda tx: tx.read(8))
                    try:
                        await (runs if kind is Nested else asyncio.ensure_future(runs))
                        raise AssertionError(f"no {kind} is raised")
                    except kind:
                        pass
                waiting = asyncio.ensure_future(pool.run(lambda tx: tx.read(7)))
                await asyncio.sleep(0.05)
                waiting.cancel()
                await asyncio.wait([waiting])
                await held.commit()
            same(await asyncio.gather(*[pool.run(lambda tx: tx.read(8)) for _ in range(9)]), [3] * 9, "the counter at last")
            same((len(pool._free), len(pool._waiting)), (2, 0), "the clients that are free")
            async with aio.Client(*server.address, answer_timeout=0.2) as client, pool.client() as one:
                held = await one.begin()
                await held.up(8, 1)
                try:
                    await client.run(lambda tx: tx.read(8), retries=Retries(attempts=1))
                    raise AssertionError("no TimedOut is raised")
                except TimedOut:
                    await held.abort()
        numbers = await asyncio.to_thread(Operator(*server.admin).status)
        same(numbers["commits"], 40 + 2 + 1 + 9, "the commits that an operator sees")

    async def one_more(tx: aio.Transaction) -> int:
        return await tx.read(7)

    async def ended(tx: aio.Transaction) -> int:
        await asyncio.sleep(0.05)
        return await tx.commit()

    with mltx.serve("--endless", limit=None, admin=free_address()) as server:
        connected(server).close()
        asyncio.run(use())


@test
def asyncio_hears_of_the_end_before_a_commit(mltx: Program) -> None:
    """A session that is ended in the block, while the loop does not run, is found before the commit is sent: it is run again."""
    tries: list[int] = []

    async def count_up(tx: aio.Transaction) -> None:
        tries.append(tx.attempt)
        await tx.up(7, 1)
        if len(tries) == 1:
            operator = Operator(*server.admin)
            operator.end_session(operator.sessions()[0].client)
            holds(select.select([writer_of(tx).get_extra_info("socket")], [], [], PATIENCE)[0], "the end comes")

    async def run() -> None:
        async with aio.Client(*server.address) as client:
            await client.run(count_up)
            same(await client.run(lambda tx: tx.read(7)), 1, "the counter")

    with mltx.serve("--endless", limit=None, admin=free_address()) as server:
        with connected(server) as client:
            client.run(lambda tx: tx.number)
        comes_to_be(lambda: not Operator(*server.admin).sessions(), "the first session has ended")
        asyncio.run(run())
    same(tries, [1, 2], "the tries")


@test
def asyncio_sends_begin_with_the_first_operations(_mltx: Program) -> None:
    """As `mltx` does, and a commit with a transaction that is known beforehand. A dribbling server is found in time."""
    second = [("begin|up 7 1|", "begun 2|done"), ("commit|", "committed 2"), ("begin|read 7|commit|", "begun 3|is 5|committed 3")]
    server = Scripted(*FIRST, *second)

    async def run() -> None:
        async with aio.Client(*server.address) as client:
            for number in (1, 2):
                same(await client.run(lambda tx: counted(tx, number)), Reply.DONE)
            same(await client.run_all([Operation.read(7)]), [5])
            probed = client._last._wire._writer.get_extra_info("socket")  # type: ignore[union-attr]
            same(probed.getsockopt(socket.SOL_SOCKET, socket.SO_KEEPALIVE), 1, "whether it is probed")

    async def counted(tx: aio.Transaction, number: int) -> Reply:
        same(tx.number, 1 if number == 1 else 0, "the number before the first answer")
        reply = await tx.up(7, 1)
        same(tx.number, number, "the number behind it")
        return reply

    asyncio.run(run())
    same(server.heard.result(PATIENCE), [asked for asked, _ in FIRST + second] + [""], "what the server hears in each write")
    listener = socket.create_server(("127.0.0.1", 0))
    threading.Thread(target=dribbles, args=(listener,), daemon=True).start()

    async def meet() -> None:
        async with aio.Client("127.0.0.1", listener.getsockname()[1], answer_timeout=0.5, retries=Retries(attempts=1)) as client:
            await client.run_all([])

    began = time.monotonic()
    raised(SessionsTaken, asyncio.run, meet())
    holds(time.monotonic() - began < 2, "it waits for each byte")


@test
def asyncio_meets_another_server(_mltx: Program) -> None:
    """What answers too much, or anything else, is none."""

    def serve(listener: socket.socket, answer: bytes) -> None:
        with listener, listener.accept()[0] as asked, contextlib.suppress(OSError):
            asked.sendall(answer)
            asked.recv(1_000)
            asked.recv(1_000)

    async def meet(answer: bytes) -> None:
        listener = socket.create_server(("127.0.0.1", 0))
        address = listener.getsockname()
        threading.Thread(target=serve, args=(listener, answer), daemon=True).start()
        async with aio.Client(*address) as client:
            try:
                await client.begin()
                raise AssertionError("no UnexpectedAnswer is raised")
            except UnexpectedAnswer:
                pass

    for answer in (b"HTTP/1.1 400 Bad Request\r\n", b"x" * 300 + b"\n", b"x" * 100_000):
        asyncio.run(meet(answer))


# Servers that are killed under a pool.


@dataclass
class Work:
    """What became of requests, each of which is asked for once: the server, by how many were killed before it, and the number
    of the commit of those that were acknowledged, and those of which it is not known."""

    address: Address
    kills: list[float] = field(default_factory=list)
    done: list[tuple[int, int, int]] = field(default_factory=list)
    unknown: list[int] = field(default_factory=list)
    restarts: list[int] = field(default_factory=list)
    requests: Iterator[int] = field(default_factory=lambda: itertools.count(1))
    ended: threading.Event = field(default_factory=threading.Event)

    def note(self, request: int, began: float, commit: int | None) -> None:
        """Notes a request. Its last try began at this time, at a server that then was there: the first one that was killed
        later, or the last one."""
        self.done.append((sum(kill <= began for kill in self.kills), request, commit or 0))


def request_by_threads(pool: Pool, work: Work) -> None:
    """Makes requests until all are to end. One is made again only behind `ServerRestarted`, when nothing of it was done."""
    tried: list[tuple[float, Transaction]] = []

    def mark(tx: Transaction) -> None:
        tried.append((time.monotonic(), tx))
        same((tx.add(202, request), tx.up(301, 1)), (Reply.ADDED, Reply.DONE), "a request that was not made before")

    request = next(work.requests)
    while not work.ended.is_set():
        try:
            pool.run(mark)
            work.note(request, tried[-1][0], tried[-1][1].commit_number)
        except CommitUnknown:
            work.unknown.append(request)
        except ServerRestarted:
            work.restarts.append(request)
            continue
        request = next(work.requests)


async def request_by_tasks(pool: aio.Pool, work: Work) -> None:
    tried: list[tuple[float, aio.Transaction]] = []

    async def mark(tx: aio.Transaction) -> None:
        tried.append((time.monotonic(), tx))
        same((await tx.add(202, request), await tx.up(301, 1)), (Reply.ADDED, Reply.DONE), "a request that was not made before")

    request = next(work.requests)
    while not work.ended.is_set():
        try:
            await pool.run(mark)
            work.note(request, tried[-1][0], tried[-1][1].commit_number)
        except CommitUnknown:
            work.unknown.append(request)
        except ServerRestarted:
            work.restarts.append(request)
            continue
        request = next(work.requests)


# How many threads or tasks make requests, by a pool of how many clients, and how many servers are killed under them.
WORKERS, CLIENTS, KILLED = 20, 8, 2


def by_threads(work: Work) -> None:
    with Pool(*work.address, size=CLIENTS, timeout=None, retries=Retries(seconds=PATIENCE)) as pool:
        with ThreadPoolExecutor(WORKERS) as threads:
            for it in [threads.submit(request_by_threads, pool, work) for _ in range(WORKERS)]:
                it.result(PATIENCE)


def by_tasks(work: Work) -> None:
    async def use() -> None:
        async with aio.Pool(*work.address, size=CLIENTS, timeout=None, retries=Retries(seconds=PATIENCE)) as pool:
            await asyncio.wait_for(asyncio.gather(*[request_by_tasks(pool, work) for _ in range(WORKERS)]), PATIENCE)

    asyncio.run(use())


def committed_in(trace: Path) -> dict[int, int]:
    """The requests that a server committed, by the number of the commit. One that stands there twice fails."""
    marks, found = dict[str, int](), dict[int, int]()
    for words in map(str.split, trace.read_text().splitlines()):
        if words[0] == "op" and words[2:4] == ["add", "202"]:
            marks[words[1]] = int(words[4])
        elif words[0] == "commit":
            found[int(words[2])] = marks[words[1]]
    same(max(Counter(found.values()).values(), default=0) <= 1, True, "a request is committed once at most")
    return found


@each({"server-is-killed-under-a-pool-of-threads": by_threads, "server-is-killed-under-a-pool-of-asyncio": by_tasks}, seconds=8)
def server_is_killed_under_a_pool(mltx: Program, requests: Callable[[Work], None]) -> None:
    """Each server is killed and the next one started at its address. Nothing hangs, each request is acknowledged once at most, by
    the server that committed it, and all that the last one committed was acknowledged or is not known of."""
    work, admin = Work(free_address()), free_address()
    traces = [mltx.folder / f"trace{number}" for number in range(KILLED + 1)]
    with ThreadPoolExecutor(1) as threads:
        requested = threads.submit(requests, work)
        try:
            for number, trace in enumerate(traces):
                with mltx.serve("--endless", "--trace", trace, limit=None, address=work.address, admin=admin) as server:
                    comes_to_be(lambda: requested.done() or work.done[-1:] and work.done[-1][0] == number, "it does requests")
                    time.sleep(1)
                    if number < KILLED:
                        server.kill()
                        work.kills.append(time.monotonic())
                        # Clients try in vain meanwhile.
                        time.sleep(0.2)
                    else:
                        work.ended.set()
                        requested.result(PATIENCE)
                        Operator(*admin).stop()
                        same(server.end(is_all_noted=False).status, 0, "the last server")
        finally:
            work.ended.set()
    acknowledged = defaultdict[int, dict[int, int]](dict)
    for instance, request, commit in work.done:
        holds(commit not in acknowledged[instance], f"commit {commit} of server {instance} is acknowledged twice")
        acknowledged[instance][commit] = request
    all_requests = [request for _, request, _ in work.done] + work.unknown
    same(len(all_requests), len(set(all_requests)), "each request comes to one end")
    same(sorted(acknowledged), list(range(KILLED + 1)), "the servers that acknowledged some")
    holds(KILLED <= len(work.restarts) <= KILLED * CLIENTS, f"{len(work.restarts)} times another server was found")
    for number, trace in enumerate(traces):
        mltx.accepted(trace)
        committed, answered = committed_in(trace), acknowledged[number]
        differ = {commit for commit in {*committed} & {*answered} if committed[commit] != answered[commit]}
        same(differ, set(), f"the commits of server {number} that were acknowledged to others")
        silent = {request for commit, request in committed.items() if commit not in answered}
        holds(silent <= set(work.unknown), f"server {number} committed {silent - set(work.unknown)}, and nobody was told")
    lost = {*acknowledged[KILLED]} - {*committed_in(traces[KILLED])}
    same(lost, set(), "the commits that the last server acknowledged, and that its trace does not have")
