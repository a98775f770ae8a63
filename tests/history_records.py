"""Records of histories: what tools/histories records of each system has the order or the anomaly that its level allows, also of a
system that runs already, is killed meanwhile, or is a program that answers lines; and docs/HISTORIES.md shows what is so."""
import os
import re
import shlex
import signal
import subprocess
import sys
import time
import zipfile
from collections import defaultdict
from collections.abc import Iterator
from contextlib import contextmanager
from dataclasses import replace
from pathlib import Path

from documents import blocks_of, commands_of
from harness import ROOT, Program, each, expect, holds, same, test
from histories import found, order, run

sys.path.insert(0, str(ROOT / "histories"))
from mltx_histories import cli, model, plan, text  # noqa: E402
from mltx_histories.program import CHECKED, NOT_PROVED, REPLAYED  # noqa: E402
from mltx_histories.systems import SYSTEMS, Address, Connect, Failed, address_of, mysql, postgres, redis, servers  # noqa: E402
from mltx_histories.systems.base import START, patiently  # noqa: E402

PAGE, ANOMALIES = ROOT / "docs/HISTORIES.md", ROOT / "docs/ANOMALIES.md"
EXAMPLE = ROOT / "histories/examples/sqlite_lines.py"
SMALL = ("--clients", 4, "--transactions", 80)
# Those without anomalies, and one of the others of each kind.
CLEAN = ("mltx", "sqlite", "redis:watch", "redis:script", "postgres:serializable", "mariadb:serializable")
WEAK = ("redis:multi", "postgres:read-committed", "mariadb:read-committed")
KEPT = ("objects", "registers", "lists")


def is_there(system: str, folder: Path) -> bool:
    """Whether a system is installed; else that is told."""
    if lacks := servers.lacks(system.partition(":")[0], folder):
        print(f"{system} is left out: {lacks}")
    return not lacks


def recorded_by(mltx: Program, *words: object) -> str:
    """What is recorded, with nothing told but the counts."""
    file = mltx.folder / "history.txt"
    ran = run("record", "--program", mltx.path, "-o", file, *words)
    told, wanted = ran.err.decode(), r"mltx-histories: \d+ committed, .* not known\n"
    same((ran.status, bool(re.fullmatch(wanted, told))), (0, True), f"the record: {told}")
    return file.read_text()


def commits_of(history: str) -> int:
    return len(re.findall(r"(?m)^commit ", history))


@each({f"history-of-{system}": system for system in CLEAN}, seconds=3)
def recorded(mltx: Program, system: str) -> None:
    """What is recorded of a system without anomalies has an order, in which all stands that was committed."""
    if is_there(system, mltx.folder):
        history = recorded_by(mltx, *SMALL, system)
        began = [one for one in text.read(history) if len(one.done) != 2 * plan.IN_USE]
        holds(len(began) >= 80 and commits_of(history) > 20, f"{len(began)} transactions, {commits_of(history)} committed")
        expect(order(mltx, history, "--strict"), out=found(mltx, commits_of(history)))


@each({f"anomaly-of-{system}": system for system in WEAK}, seconds=4)
def shown(mltx: Program, system: str) -> None:
    """At a weak level some transactions have no order, and a cycle of few tells so."""
    if is_there(system, mltx.folder):
        ran = order(mltx, recorded_by(mltx, "--transactions", 400, system), "--strict")
        same(ran.status, 1, f"the status after {ran.out.decode()}")
        holds(ran.out.startswith(b"no order: "), ran.out.decode())


@each({f"history-of-{data}": data for data in KEPT}, seconds=3)
def values_tell_what_was_seen(_mltx: Program, data: str) -> None:
    """No two sets of the changes of a cell come to one value; no register gets a value twice, and no list an element."""
    before, drawn = plan.planned(data, 1, 3000)
    totals, given = defaultdict[model.Cell, list[int]](list), defaultdict[str, list[str]](list)
    for one in [*before, *drawn]:
        changes = defaultdict[model.Cell, int](int)
        for asked in one.asked:
            verb, *words = asked.split()
            if verb in ("write", "append"):
                given[words[0]].append(words[1])
            elif data == "objects":
                reply = {"open": "opened", "add": "added", "has": "no"}.get(verb, "is 0" if len(words) == 1 else "done")
                for cell, change in model.effect(asked, reply).changes.items():
                    changes[cell] += change
        for cell, change in changes.items():
            totals[cell].append(change)
    for cell, found_changes in totals.items():
        least = 0
        for size in sorted(abs(change) for change in found_changes):
            holds(size > least, f"the changes of {cell}: {found_changes}")
            least += size
        holds(least < model.BIG, f"the changes of {cell}")
    holds(all(len(set(values)) == len(values) for values in given.values()), "a value is given twice")
    holds(sum(it.ending == "abort" for it in drawn) > 200, "some are aborted")


@contextmanager
def running(mltx: Program, kind: str) -> Iterator[str]:
    """The address of a server that was started by somebody else."""
    with servers.running(kind, Path(mltx.path), mltx.folder) as server:
        yield f"{kind}://{server.address.user}@{server.address}/{server.address.database or server.address.user}"


@each({f"address-of-{kind}": kind for kind in ("redis", "postgres", "mariadb", "mltx")}, seconds=4)
def running_system(mltx: Program, kind: str) -> None:
    """A system that runs already is recorded too."""
    if is_there(kind, mltx.folder):
        with running(mltx, kind) as address:
            history = recorded_by(mltx, *SMALL, "--address", address.replace("redis://@", "").removesuffix("/"), kind)
            expect(order(mltx, history, "--strict"), out=found(mltx, commits_of(history)))


@test(seconds=4)
def password_of_postgres(mltx: Program) -> None:
    """Each way in which PostgreSQL asks for a password is answered, and a wrong one is told."""
    if is_there("postgres", mltx.folder):
        with servers.running("postgres", Path(mltx.path), mltx.folder) as server:
            session = patiently(lambda: postgres.Postgres(server.address, "serializable"), START)
            for way, user in (("scram-sha-256", "sue"), ("md5", "old"), ("password", "plain")):
                session.query(f"SET password_encryption = '{'md5' if way == 'md5' else 'scram-sha-256'}'")
                session.query(f"CREATE USER {user} PASSWORD 'a:{user}'")
                with open(mltx.folder / "postgres/data/pg_hba.conf", "r+") as rules:
                    before = rules.read()
                    rules.seek(0)
                    rules.write(f"host all {user} 127.0.0.1/32 {way}\n{before}")
            session.query("SELECT pg_reload_conf()")
            until_asked(lambda: postgres.Postgres(replace(server.address, user="plain", database="postgres"), "serializable"))
            for user in ("sue", "old", "plain"):
                url = f"postgres://{user}:a%3A{user}@{server.address}/postgres"
                asked = postgres.Postgres(address_of("postgres", url), "serializable")
                same(asked.query("SELECT current_user"), user, "the user")
                with raised(Failed, f'password authentication failed for user "{user}"'):
                    postgres.Postgres(address_of("postgres", url.replace("%3A", "")), "serializable")
            path = Address(path=f"{mltx.folder}/postgres/.s.PGSQL.{server.address.port}")
            same(postgres.Postgres(path, "serializable").query("SHOW transaction_isolation"), "serializable", "by its socket")


@test(seconds=4)
def password_of_mariadb(mltx: Program) -> None:
    if is_there("mariadb", mltx.folder):
        with servers.running("mariadb", Path(mltx.path), mltx.folder) as server:
            session = patiently(lambda: mysql.MySql(server.address, "serializable"), START)
            session.query("CREATE USER sue@'127.0.0.1' IDENTIFIED BY 'a:b'")
            url = f"mysql://sue:a%3Ab@{server.address}"
            asked = mysql.MySql(address_of("mariadb", url), "repeatable-read")
            same(asked.query("SELECT current_user()"), "sue@127.0.0.1", "the user")
            same((asked.query("SELECT REPEAT('ab', 40000)"), asked.query("SELECT NULL")), ("ab" * 40000, None), "values")
            with raised(Failed, "Access denied"):
                mysql.MySql(address_of("mariadb", url.replace("%3A", "")), "serializable")
            path = Address(path=str(mltx.folder / "mariadb/socket"), user="root")
            same(mysql.MySql(path, "serializable").query("SELECT @@tx_isolation"), "SERIALIZABLE", "by its socket")


@contextmanager
def raised(kind: type[Exception], why: str) -> Iterator[None]:
    """The block fails in this way."""
    try:
        yield
    except kind as fault:
        holds(why in str(fault), f"{why} is not in {fault}")
    else:
        raise AssertionError(f"nothing was raised: {why}")


def until_asked(connect: Connect) -> None:
    """Waits until a password is wanted."""
    until = time.monotonic() + START
    while time.monotonic() < until:
        try:
            connect().close()
        except Failed:
            return
        time.sleep(0.01)


@test(seconds=4)
def keys_of_others_stay(mltx: Program) -> None:
    """A recording of a Redis with a password deletes its own keys alone."""
    if is_there("redis", mltx.folder):
        with servers.running("redis", Path(mltx.path), mltx.folder) as server:
            session = redis.Redis(server.address, "multi")
            session.call("MSET", "mine", "1", "mltx:counter:99999", "5")
            session.call("CONFIG", "SET", "requirepass", "a:b")
            recorded_by(mltx, *SMALL, "--address", f"redis://:a%3Ab@{server.address}", "redis")
            same(session.call("MGET", "mine", "mltx:counter:99999"), ["1", None], "the keys")


@test(seconds=4)
def given_process_is_killed(mltx: Program) -> None:
    """A Redis that somebody else has started is killed by its number, and started again by a command."""
    if is_there("redis", mltx.folder):
        port, pid = servers.free_port(), mltx.folder / "pid"
        words = ["redis-server", "--bind", "127.0.0.1", "--port", port, "--dir", mltx.folder, "--appendonly", "yes"]
        words += ["--pidfile", pid]
        command = shlex.join(map(str, words))
        process = subprocess.Popen(shlex.split(command), stdout=subprocess.DEVNULL)
        try:
            patiently(lambda: redis.Redis(Address(port=port), "watch"), START).close()
            kill = ("--kills", 2, "--kill", pid, "--restart", command)
            history = recorded_by(mltx, *SMALL, "--address", f":{port}", *kill, "redis:watch")
            same(process.wait(START), -signal.SIGKILL, "how it ended")
            told = order(mltx, history, "--strict").out.decode()
            holds(told.startswith("serializable: an order of "), f"after kills: {told}")
        finally:
            process.kill()
            process.wait()
            if pid.exists() and int(pid.read_text()) != process.pid:
                os.kill(int(pid.read_text()), signal.SIGKILL)


@test(seconds=4)
def killed_system(mltx: Program) -> None:
    """A Redis that is killed twice while clients run keeps what it has answered. What it did not answer may have happened."""
    if is_there("redis", mltx.folder):
        history = recorded_by(mltx, "--transactions", 600, "--kills", 2, "redis:script")
        told = order(mltx, history, "--strict").out.decode()
        holds(told.startswith("serializable: an order of "), f"after kills: {told}")
        holds(int(re.findall(r"\d+", told)[0]) >= commits_of(history), "all committed ones are in the order")


@each({f"client-of-{data}": data for data in ("registers", "lists")}, seconds=3)
def values(mltx: Program, data: str) -> None:
    """Registers and lists have an order, which a replay accepts."""
    history = recorded_by(mltx, *SMALL, "--data", data, "sqlite")
    told = found(mltx, commits_of(history)).replace(CHECKED, REPLAYED).replace(NOT_PROVED, "")
    ran = order(mltx, history, "--strict")
    same(ran.out.decode().partition(REPLAYED)[0], told.partition(REPLAYED)[0], "the order")


@test(seconds=3)
def program_that_answers_lines(mltx: Program) -> None:
    """The example answers lines from registers of SQLite."""
    command = shlex.join([sys.executable, str(EXAMPLE), str(mltx.folder / "registers.db")])
    history = recorded_by(mltx, *SMALL, "--data", "registers", "--run", command, "lines")
    holds(commits_of(history) > 20, f"{commits_of(history)} committed")
    told = order(mltx, history, "--strict").out.decode()
    holds(told.startswith(f"serializable: an order of {commits_of(history)} transactions, {REPLAYED}"), told)


@test(seconds=2)
def checker_that_is_not_there(mltx: Program) -> None:
    """Without the program a replay accepts an order, and that is told."""
    ran = run("order", "--mltx", mltx.folder / "nowhere", "-", given="begin 1\nop 1 up 7 1 done\ncommit 1\n")
    expect(ran, out=f"serializable: an order of 1 transactions, {REPLAYED}, as there is no mltx: give it by --mltx\n")


@each({
    "system-that-is-unknown": (["oracle"], "there is no system oracle: choose one of "),
    "level-that-is-unknown": (["--isolation", "eventual", "postgres"], "postgres has no level eventual: it has read-committed, "),
    "lists-of-mltx": (["--data", "lists", "mltx"], "mltx has no lists\n"),
    "address-of-nobody": (["--address", "127.0.0.1:1", "redis"], "nobody answers at 127.0.0.1:1: "),
    "kill-without-restart": (["--kill", "1", "redis"], "--kill and --restart go together\n"),
    "program-of-no-lines": (["lines"], "--run has the program of `lines`, and of nothing else\n"),
}, seconds=0.5)
def refused(mltx: Program, case: tuple[list[str], str]) -> None:
    ran = run("record", "--mltx", mltx.path, *case[0])
    same((ran.status, ran.out), (2, b""), "the record")
    holds(ran.err.decode().startswith(f"mltx-histories: {case[1]}"), ran.err.decode())


@test(seconds=12)
def systems_show_what_the_page_says(mltx: Program) -> None:
    """The rows of the page are those of the report, with a picture of each anomaly. What is not installed is told."""
    ran = run("report", "--pictures", mltx.folder / "pictures", "--program", mltx.path)
    same((ran.status, ran.err), (0, b""), "the report")
    rows = re.findall(r"(?m)^\| .*\|$", ran.out.decode())
    left = re.findall(r"(?m)^(\S+) is left out: .*$", ran.out.decode())
    print(*(f"{system} is left out" for system in left))
    section = ANOMALIES.read_text().partition("## Four scenarios")[2].partition("\n## ")[0]
    page = re.findall(r"(?m)^\| .*\|$", re.sub(r"\[(shown)\]\([^)]*\)", r"\1", section))
    same(rows, [row for row in page if row.split()[1] not in left], "the rows")
    same([row.split()[1] for row in page[1:]], list(SYSTEMS), "the systems")
    shown = sum(row.count("shown") for row in rows)
    drawn = sorted((mltx.folder / "pictures").glob("*.svg"))
    same(len(drawn), shown, "the pictures")
    for picture in drawn:
        same(picture.read_bytes(), (ROOT / "docs/histories" / picture.name).read_bytes(), picture.name)


@test(seconds=1)
def histories_page_shows_what_is_written(mltx: Program) -> None:
    """Each command of the page has the form that the tool wants, and each that reads a file of the page writes what it shows."""
    count, page = 0, PAGE.read_text()
    for words in (shlex.split(line)[1:] for line in re.findall(r"(?m)^    (?:\$ )?(mltx-histories .*)$", page)):
        cli.arguments(words)
    for paragraph, block in blocks_of(page):
        if name := re.search(r"`([\w-]+\.\w+)`:$", paragraph):
            mltx.file(name[1], block)
        for words, wanted in commands_of(block):
            ran = run(*words[1:-1], "--mltx", mltx.path, mltx.folder / words[-1])
            same(ran.out.decode().replace(NOT_PROVED, ""), wanted, " ".join(words))
            count += 1
    same(count, 2, "the commands")
    holds(len(page.split()) <= 900, f"the page has {len(page.split())} words")


@test(seconds=1)
def anomalies_page_shows_what_was_measured(_mltx: Program) -> None:
    """ANOMALIES has the tables that histories/survey.py makes of histories/results."""
    ran = subprocess.run([ROOT / "histories/survey.py", "page"], capture_output=True, text=True)
    same((ran.returncode, ran.stdout), (0, ANOMALIES.read_text()), "the page")


@test(seconds=2)
def package_has_all_of_it(mltx: Program) -> None:
    """The wheel has each module of the package with its styles, and both commands."""
    words = [sys.executable, "-c", f"import build_wheel; print(build_wheel.build_wheel({str(mltx.folder)!r}))"]
    ran = subprocess.run(words, cwd=ROOT / "histories", capture_output=True, text=True, check=True)
    with zipfile.ZipFile(mltx.folder / ran.stdout.strip()) as wheel:
        names = {name for name in wheel.namelist() if ".dist-info/" not in name}
        started = wheel.read(next(name for name in wheel.namelist() if name.endswith("entry_points.txt"))).decode()
    package = ROOT / "histories/mltx_histories"
    kept = {path.relative_to(ROOT / "histories").as_posix() for path in package.rglob("*") if path.is_file()}
    same(names, {name for name in kept if "__pycache__" not in name}, "the files")
    same(re.findall(r"(?m)^(\S+) = ", started), ["mltx-histories", "mltx-picture"], "the commands")
