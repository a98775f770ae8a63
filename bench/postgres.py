"""A PostgreSQL that has a table of counters, and the load of its own generator, pgbench. It does not wait for any disk."""
import os
import pwd
import re
import shutil
import signal
import statistics
import time
from collections.abc import Iterator, Sequence
from contextlib import contextmanager, suppress
from pathlib import Path
from typing import NamedTuple

from machine import LOCAL, START, Failed, Process, Words, free_port, run, started, wait_for

PROGRAMS = ("initdb", "postgres", "pg_isready", "psql", "pgbench")
# The server refuses to run for the superuser of the machine, who runs it for this user.
USER = "postgres"
SETTINGS = {"fsync": "off", "synchronous_commit": "off", "full_page_writes": "off", "unix_socket_directories": ""}
# What each counter, and each account, has at first: more than is ever taken from it.
RICH = 1_000_000
TABLE = (
    "DROP TABLE IF EXISTS counter; CREATE UNLOGGED TABLE counter (id INTEGER PRIMARY KEY, value BIGINT NOT NULL);"
    f"INSERT INTO counter SELECT id, {RICH} FROM generate_series(0, {{last}}) AS id; VACUUM ANALYZE counter"
)
# How often a transaction is tried that deadlocks, or can't be put in a serial order.
TRIES = 1_000


def find(folder: Path) -> Path | None:
    """The folder with its programs; None where there is none, or no user who can run it in this folder."""
    if os.geteuid() == 0 and not (has_user() and all(above.stat().st_mode & 1 for above in folder.parents)):
        return None
    found = shutil.which("initdb")
    folders = [Path(found).resolve().parent] if found else []
    folders += sorted(Path("/usr/lib/postgresql").glob("*/bin"), reverse=True)
    return next((folder for folder in folders if all((folder / name).exists() for name in PROGRAMS)), None)


def has_user() -> bool:
    return any(entry.pw_name == USER for entry in pwd.getpwall())


def owner() -> dict[str, object]:
    """By whom the server and its files are owned, as options of `started`."""
    return {"user": USER, "group": USER, "extra_groups": []} if os.geteuid() == 0 else {}


def home(programs: Path, folder: Path) -> Path:
    """A folder with a cluster, which is made once."""
    path = folder / "postgres"
    if not path.exists():
        path.mkdir()
        if owner():
            folder.chmod(0o711)
            shutil.chown(path, USER, USER)
        words: Words = ["--pgdata", path / "data", "--username", USER, "--auth", "trust", "--no-sync", "--no-locale"]
        run([programs / "initdb", *words], cwd=path, **owner())
    return path


@contextmanager
def server(programs: Path, folder: Path, counters: int) -> Iterator[int]:
    """A server with so many counters, as long as a block lasts: its port."""
    port, place = free_port(), home(programs, folder)
    settings = [word for name, value in SETTINGS.items() for word in ("-c", f"{name}={value}")]
    words = [programs / "postgres", "-D", place / "data", "-h", LOCAL, "-p", port, *settings]
    with open(place / "log", "wb") as log, started(words, stdout=log, stderr=log, cwd=place, **owner()) as process:
        try:
            wait_until_ready(programs, port, process)
            ask(programs, port, TABLE.format(last=counters - 1))
            yield port
        finally:
            process.send_signal(signal.SIGINT)
            process.wait(START)


def wait_until_ready(programs: Path, port: int, process: Process) -> None:
    """It listens before it is ready."""
    wait_for(port, process)
    until = time.monotonic() + START
    while time.monotonic() < until:
        with suppress(Failed):
            run([programs / "pg_isready", "--host", LOCAL, "--port", port])
            return
        time.sleep(0.01)
    raise Failed("PostgreSQL does not get ready")


def ask(programs: Path, port: int, text: str) -> None:
    """Has the server do these statements."""
    statements = [word for statement in text.split(";") for word in ("--command", statement)]
    run([programs / "psql", "--host", LOCAL, "--port", port, "--username", USER, "--dbname", USER, "--quiet", *statements])


def script(count: int, counters: int) -> str:
    """What pgbench sends over and over: a transaction that adds to so many counters, a statement a round trip."""
    drawn = [f"\\set drawn{place} random(0, {counters - 1})" for place in range(count)]
    updates = [f"UPDATE counter SET value = value + 1 WHERE id = :drawn{place};" for place in range(count)]
    return "\n".join([*drawn, "BEGIN;", *updates, "END;", ""])


class Weighed(NamedTuple):
    """A script, and how often it is sent beside others."""

    text: str
    weight: int = 1


class Told(NamedTuple):
    """What pgbench tells: how many transactions of the first script ended, and in a second; the sorted microseconds of all
    transactions, and how many tries of them failed."""

    ended: int
    per_second: float
    times: list[float]
    lost: int


def load(
    programs: Path, folder: Path, scripts: Sequence[Weighed], connections: int, threads: int, counters: int, limit: Words
) -> Told:
    """What comes of so many connections that send these scripts. The limit is one of pgbench's own options."""
    place = home(programs, folder)
    for log in place.glob("transactions.*"):
        log.unlink()
    with server(programs, folder, counters) as port:
        words = ["--host", LOCAL, "--port", port, "--username", USER, "--no-vacuum", *limit]
        words += ["--client", connections, "--jobs", threads]
        words += ["--protocol", "prepared", "--max-tries", TRIES, "--log", "--log-prefix", place / "transactions"]
        for number, (text, weight) in enumerate(scripts):
            file = folder / f"script-{number}.sql"
            file.write_text(text)
            words += ["--file", f"{file}@{weight}"]
        told, _ = run([programs / "pgbench", *words, USER], cwd=place)
    return understood(told, [line for log in place.glob("transactions.*") for line in log.read_text().splitlines()])


def understood(told: bytes, log: list[str]) -> Told:
    """What pgbench has told, and written of each transaction: after its client and its number how long it took, or that it
    failed, and the number of its script."""
    rate, lost = re.search(rb"tps = ([\d.]+)", told), re.search(rb"total number of retries: (\d+)", told)
    ended = [words for words in map(str.split, log) if words[2] != "failed"]
    if not rate or not lost or not ended:
        raise Failed(f"pgbench does not tell what it did: {told.decode(errors='replace')}")
    first = sum(words[3] == "0" for words in ended)
    return Told(first, float(rate[1]) * first / len(ended), sorted(float(words[2]) for words in ended), int(lost[1]))


def percentiles(times: list[float]) -> tuple[float, float]:
    """The median and the 99th percentile of sorted times."""
    return statistics.median(times), times[(len(times) - 1) * 99 // 100]
