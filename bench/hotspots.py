"""What is measured of transactions that all change the same counter or account, with and without time to think, of which some
are aborted."""
import hashlib
import math
import socket
import sys
import tempfile
from collections.abc import Iterator
from dataclasses import dataclass, replace
from functools import partial
from pathlib import Path

import postgres
import tools
from machine import LOCAL, ROOT, START, Failed, Server, Words, redis, run
from postgres import RICH
from sessions import CLIENT_THREADS, Load, figures_of, mltx_server, open_accounts, transaction
from works import Bench, Group, Limit, Sample, Side, Work

sys.path.insert(0, str(ROOT / "histories"))
from mltx_histories.pictures.plot import Curve, picture  # noqa: E402

# By its name what each system does, by the number of clients.
Curves = dict[str, dict[int, float]]
# The name of what no lock would hold up.
LIMIT = "no lock"

# The cells: some of which each transaction draws one, and the hot one behind them.
DRAWN, HOT = 4, 4
# How long a client thinks after each change, in microseconds.
THINK = 2_000
# That one of so many transactions is aborted: usually, and beside that; 0 is none.
ABORTS, OTHER_ABORTS = 10, (0, 2)
# How many transactions there are where it is to be quick.
FEW = 40
READ_COMMITTED = "BEGIN;"
BEGINS = {"PostgreSQL": READ_COMMITTED, "PostgreSQL SSI": "BEGIN ISOLATION LEVEL SERIALIZABLE;"}
# In which order PostgreSQL changes the drawn row and the hot one, and thinks: it holds the hot one once it has changed it.
ORDERS = {"PostgreSQL hot second": ("drawn", "think", "hot", "think"), "PostgreSQL hot last": ("drawn", "think", "think", "hot")}
FIRST = ("hot", "think", "drawn", "think")
UPDATE = "UPDATE counter SET value = value"
# The table of SQLite. Readers go on beside a writer, and nothing waits for a disk.
SQLITE_TABLE = (
    "PRAGMA journal_mode = WAL; PRAGMA synchronous = OFF;"
    "CREATE TABLE counter (id INTEGER PRIMARY KEY, value INTEGER NOT NULL);"
    f"INSERT INTO counter VALUES {', '.join(f'({cell}, {RICH})' for cell in range(HOT + 1))}"
)


@dataclass(frozen=True)
class Changes:
    """What a transaction changes, and the two changes in the words of each system; the hot cell is changed first. A script of
    Redis makes both at once."""

    cell: str
    mltx: tuple[str, str]
    redis: tuple[str, str]
    sql: tuple[str, str]
    lua: str


DEPOSIT = f"{UPDATE} + 1 WHERE id = :drawn"
BOTH = "redis.call('{}', KEYS[1], 1) redis.call('INCRBY', KEYS[2], 1) return 1"
COUNTERS = Changes(
    "counter",
    (f"up {HOT} 1", "up @1 1"),
    (f"INCRBY {HOT} 1", "INCRBY @1 1"),
    (f"{UPDATE} + 1 WHERE id = {HOT}", DEPOSIT),
    BOTH.format("INCRBY"),
)
ACCOUNTS = Changes(
    "account",
    (f"withdraw {HOT} 1", "deposit @1 1"),
    (f"DECRBY {HOT} 1", "INCRBY @1 1"),
    (f"{UPDATE} - 1 WHERE id = {HOT} AND value >= 1", DEPOSIT),
    "if tonumber(redis.call('GET', KEYS[1])) < 1 then return 0 end " + BOTH.format("DECRBY"),
)


@dataclass(frozen=True)
class Case:
    """So many clients that make these changes, and think for so many microseconds after each; one of so many transactions is
    aborted, and none where that is 0."""

    changes: Changes
    clients: int
    think: int
    aborts: int = ABORTS

    def with_thought(self, steps: tuple[str, str], pause: str) -> list[str]:
        """Two steps, each with a pause behind it where the clients think."""
        return [line for step in steps for line in (step, *[pause] * (self.think > 0))]

    def load(self, *lines: str, is_redis: bool = False) -> Load:
        return Load(lines, self.clients, counters=DRAWN, threads=self.threads(), aborts=self.aborts, redis=is_redis)

    def threads(self) -> int:
        return min(self.clients, CLIENT_THREADS)

    def on_mltx(self) -> Load:
        return self.load(*transaction(*self.with_thought(self.changes.mltx, f"think {self.think}")))

    def on_redis(self) -> Load:
        """With MULTI alone, which can't be where a client thinks about what it read."""
        return self.load("MULTI", *self.changes.redis, "EXEC", is_redis=True)

    def on_redis_that_watches(self) -> Load:
        """What is read is watched, and changed in one write."""
        reads = self.with_thought((f"GET {HOT}", "GET @1"), f"think {self.think}")
        changes = [f"+{change}" for change in self.changes.redis]
        return self.load(f"WATCH {HOT} @1", *reads, "MULTI", *changes, "+EXEC", is_redis=True)

    def on_redis_by_a_script(self) -> Load:
        """A client thinks, and then has a script do all; it can't look at a reply before. One that aborts has it do nothing."""
        thinks = [f"think {self.think}"] * (2 * (self.think > 0))
        called = f"EVALSHA {hashlib.sha1(self.changes.lua.encode()).hexdigest()} 2 {HOT} @1"
        return replace(self.load(*thinks, called, is_redis=True), undo="PING")

    def on_postgres(self, begin: str, order: tuple[str, ...] = FIRST) -> list[postgres.Weighed]:
        """A script that commits, and where some are aborted one that is."""
        hot, drawn = self.changes.sql
        steps = {"hot": [f"{hot};"], "drawn": [f"{drawn};"], "think": [f"\\sleep {self.think} us"] * (self.think > 0)}
        lines = [f"\\set drawn random(0, {DRAWN - 1})", begin, *(line for step in order for line in steps[step])]
        ends = {"COMMIT;": self.aborts - 1, "ROLLBACK;": 1} if self.aborts else {"COMMIT;": 1}
        return [postgres.Weighed("\n".join([*lines, end, ""]), weight) for end, weight in ends.items()]

    def on_sqlite(self, seed: int, limit: Limit) -> Words:
        """The options of the threads that write, and what they do."""
        words: list[object] = ["--clients", self.clients, "--think", self.think, "--aborts", self.aborts, "--drawn", DRAWN]
        words += ["--seed", seed, "--seconds", limit.seconds]
        return words + (["--transactions", limit.transactions] if limit.transactions else [])

    def committed(self) -> float:
        """How many of the transactions commit."""
        return 1 - 1 / self.aborts if self.aborts else 1

    def limit(self) -> dict[str, float]:
        """How many would commit in a second if they only thought; nothing where they don't."""
        return {LIMIT: self.clients * self.committed() * 1e6 / (2 * self.think)} if self.think else {}

    def what(self) -> str:
        clients = f"{self.clients} client{'s' * (self.clients > 1)}"
        think = f"{self.think // 1_000} ms to think" if self.think else "no time to think"
        return f"{clients}, a hot {self.changes.cell}, {think}, {100 - 100 * self.committed():.0f} % aborted"


def commits(told: dict[str, float], **more: float) -> Sample:
    """How many commit in a second, and how many tries are lost for each of these."""
    committed = told["transactions"] - told["aborted"]
    more = {"lost/commit": told["refused"] / max(committed, 1), **more}
    return Sample(committed / told["seconds"], told["median"], told["ninety_ninth"], more)


def on_mltx(case: Case, bench: Bench, program: Path) -> Sample:
    with mltx_server(program) as server:
        open_accounts(server, range(HOT + 1))
        return commits(figures_of(bench, server.port, case.on_mltx(), bench.limit(FEW)), **case.limit())


def ask_redis(server: Server, *words: str) -> None:
    """Has a Redis do a command, which it must not refuse."""
    with socket.create_connection((LOCAL, server.port), START) as client:
        client.sendall("".join([f"*{len(words)}\r\n", *(f"${len(word)}\r\n{word}\r\n" for word in words)]).encode())
        if (answer := client.recv(100))[:1] not in (b"+", b"$"):
            raise Failed(f"redis-server answers {answer!r}")


def on_redis(load: Load, changes: Changes, bench: Bench, _program: Path) -> Sample:
    """All cells have so much that it is never spent, and the script is known."""
    with redis(bench.folder) as server:
        ask_redis(server, "MSET", *(word for cell in range(HOT + 1) for word in (str(cell), str(RICH))))
        ask_redis(server, "SCRIPT", "LOAD", changes.lua)
        return commits(figures_of(bench, server.port, load, bench.limit(FEW)))


def on_postgres(case: Case, begin: str, order: tuple[str, ...], bench: Bench, _program: Path) -> Sample:
    limit = bench.pick(["--time", math.ceil(bench.seconds)], ["--transactions", max(1, FEW // case.clients)])
    programs = bench.tools.paths["postgres"]
    told = postgres.load(programs, bench.folder, case.on_postgres(begin, order), case.clients, case.threads(), HOT + 1, limit)
    lost = told.lost / max(told.ended, 1)
    return Sample(told.per_second, *postgres.percentiles(told.times), {"lost/commit": lost})


def on_sqlite(case: Case, bench: Bench, _program: Path) -> Sample:
    """A file, since a database in memory is not shared by connections that write side by side."""
    with tempfile.TemporaryDirectory(dir=bench.folder) as folder:
        words = [bench.tools.paths["writers"], *case.on_sqlite(bench.seed, bench.limit(FEW))]
        told = run([*words, Path(folder) / "counters", SQLITE_TABLE, *case.changes.sql])[0].decode().split()
    figures = dict(zip(told[::2], map(float, told[1::2])))
    # None is tried again: a transaction that begins while another one writes waits.
    return commits({**figures, "refused": 0})


def sides_of(case: Case) -> Iterator[Side]:
    yield Side("mltx", partial(on_mltx, case), ("load",))
    for name, begin in BEGINS.items():
        yield Side(name, partial(on_postgres, case, begin, FIRST), ("postgres",))
    for name, order in ORDERS.items():
        if case.think:
            yield Side(name, partial(on_postgres, case, READ_COMMITTED, order), ("postgres",))
    yield Side("SQLite", partial(on_sqlite, case), ("writers",))
    needs = ("load", "redis-server")
    loads = {"Redis WATCH": case.on_redis_that_watches(), "Redis Lua": case.on_redis_by_a_script()}
    for name, load in (loads if case.think else {**loads, "Redis MULTI": case.on_redis()}).items():
        yield Side(name, partial(on_redis, load, case.changes), needs)


def works() -> Iterator[Work]:
    """Those of the plot, the same without thought, and accounts; then all of 32 clients with none and half of the transactions
    aborted."""
    for think in (THINK, 0):
        for clients in (1, 8, 32, 64):
            case = Case(COUNTERS, clients, think)
            work = Work("hotspots", case.what(), "commits/s", tuple(sides_of(case)))
            yield replace(work, plotted_at=clients) if think else work
    cases = [Case(ACCOUNTS, 32, think) for think in (THINK, 0)]
    cases += [
        Case(changes, 32, think, aborts)
        for changes in (COUNTERS, ACCOUNTS)
        for think in (THINK, 0)
        for aborts in OTHER_ABORTS
    ]
    for case in cases:
        yield Work("hotspots", case.what(), "commits/s", tuple(sides_of(case)))


TITLE = "Transactions that all change one counter"
ABOUT = (
    f"Each adds to a counter that all share, thinks {THINK // 1_000} ms, adds to one of four others, thinks {THINK // 1_000} ms,"
    " and commits, or is aborted in one case of ten. Dashed is what clients would do that no lock held up."
    " PostgreSQL locks rows (read committed), the shared one first, second or last, or is serializable (SSI) and tries again, as"
    " Redis does, which watches keys; or a client thinks first, and then sends Redis a script in Lua, without looking at a reply."
    " SQLite lets one transaction write at a time (BEGIN IMMEDIATE)."
)


def plot(curves: Curves, bench: Bench, runs: int) -> str:
    """The medians of each system by clients as an SVG, and on what they were measured. The limit is drawn last."""
    drawn = [Curve(name, sorted(curves[name].items()), name == LIMIT) for name in sorted(curves, key=LIMIT.__eq__)]
    versions = [version for version in tools.versions(bench.tools) if version.split()[0] in ("PostgreSQL", "SQLite", "Redis")]
    where = f"Medians of {runs} run{'s' * (runs > 1)} on {', '.join([tools.description(), *versions])}."
    about = [ABOUT, where, *["Quick: the figures mean nothing."] * bench.quick]
    return picture(TITLE, " ".join(about), "clients", "commits a second", drawn)


GROUPS = {
    "hotspots": Group("1 to 64 sessions that all change one counter or account, against PostgreSQL, SQLite and Redis", works)
}
