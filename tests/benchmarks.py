"""Benchmarks: each runs through, small, and prints its lines; an interrupt leaves no process and no file behind. What is not
there to build or to compare with is left out, and told. The load generator tells what the server has seen of it."""
import csv
import os
import re
import shutil
import signal
import socketserver
import subprocess
import threading
import time
from contextlib import closing
from pathlib import Path

from harness import PATIENCE, ROOT, Program, command, holds, match, may_break_off, same, test
from pictures import Picture

RUN = ROOT / "bench/run"
# A signal, a group that is interrupted by it, and the words with which the group runs the program.
INTERRUPTED = (
    (signal.SIGINT, "workers", "run --workers"),
    (signal.SIGTERM, "serve", "serve 127.0.0.1"),
    (signal.SIGINT, "held", "serve 127.0.0.1"),
)
# Groups that need more than a C compiler and this program.
NEED_MORE = {"instructions", "growth", "ablation"}
# Where the load generator looks for a server.
LOCAL = "127.0.0.1"
# The cells of each line of a table.
Rows = list[list[str]]


def in_folder(mltx: Program) -> dict[str, str]:
    """The environment in which all that a benchmark makes stands in the folder of the test."""
    return {**os.environ, "TMPDIR": str(mltx.folder)}


def groups() -> list[str]:
    """The names that are listed, in their order."""
    listed = subprocess.run([RUN, "--list"], capture_output=True, text=True, check=True).stdout
    return [line.split()[0] for line in listed.splitlines()]


def rows(out: str) -> Rows:
    """The lines of a table in Markdown, as lists of cells."""
    return [line.strip("| ").split(" | ") for line in out.splitlines() if line.startswith("| ")][2:]


def check_plot(plot: Picture, rows: Rows) -> None:
    """Each system that was measured with 64 clients has its line with four points, its name and its figure; and so has the limit
    of these: 9 of 10 commit, and each thinks 4 milliseconds."""
    plot.check_places()
    said = dict(it.text.split(": ") for it in plot.labels if ": " in it.text and it.role != "about")
    figures = {"mltx": rows[0][3], **{cells[2]: cells[4] for cells in rows if cells[2] != "-"}}
    same(sorted(said), sorted([*figures, "no lock"]), "the names beside the lines")
    same(said["no lock"], f"{64 * 900 // 4:,}", "the limit")
    for name, figure in figures.items():
        told = [float(it.replace(",", "")) for it in (said[name], figure)]
        holds(abs(told[0] - told[1]) <= 1, f"{name}: the plot says {told[0]}, the table {told[1]}")
    same(len(list(plot.time.iter("circle"))), 4 * len(figures), "the points")


def check_hotspots(rows: Rows, left_out: set[str]) -> None:
    """Each work is told with the part that is aborted, which the limit of those that think goes by: a client that thinks 4
    milliseconds in each transaction. Each system that was not left out is told of in each of them."""
    if not shutil.which("cc"):
        return
    works = {cells[0] for cells in rows}
    aborted = {work: int(match(r", (\d+) % aborted$", work)[1]) for work in works}
    for cell in ("counter", "account"):
        for think in ("2 ms to think", "no time to think"):
            of_32 = {part for work, part in aborted.items() if f": 32 clients, a hot {cell}, {think}," in work}
            same(of_32, {0, 10, 50}, f"what is aborted of a hot {cell} with {think}")
    for work in works:
        told = [cells for cells in rows if cells[0] == work]
        systems = {cells[2] for cells in told if cells[2] != "-"}
        orders = ("PostgreSQL hot second", "PostgreSQL hot last") if "2 ms" in work else ()
        for name in ("SQLite", "PostgreSQL", "PostgreSQL SSI", "Redis WATCH", "Redis Lua", *orders):
            holds((name in systems) != (f"{name} in hotspots" in left_out), f"{name} in {work}: it is told of, or left out")
        if "2 ms" in work:
            clients = int(match(r"(\d+) client", work)[1])
            limit = f"no lock {clients * (100 - aborted[work]) * 10 // 4:,}"
            holds(all(limit in " ".join(cells) for cells in told), f"{work}: {limit} in {told}")


def check_csv(folder: Path, rows: Rows) -> None:
    """Each group has a file with its lines, which say of what build and of how many rounds they are."""
    files = {file.stem: list(csv.DictReader(file.read_text().splitlines())) for file in folder.iterdir()}
    told = [[f"{group}: {row['workload']}", row["value"]] for group, lines in files.items() for row in lines]
    same(sorted(told), sorted([cells[0], cells[3].replace(",", "")] for cells in rows), "the rows of the files")
    for row in (row for lines in files.values() for row in lines):
        holds(row["build"].endswith("(quick)") and row["rounds"] == "1" and row["load"] and row["date"], f"{row}")
        holds("cores" in row["machine"] and row["versions"] is not None, f"{row}")


@test(seconds=40)
def each_benchmark_runs_through(mltx: Program) -> None:
    """Each group has lines with a figure, or is told to be left out, which nothing is that needs a C compiler alone."""
    plot = mltx.folder / "plot.svg"
    words = command([RUN, "--quick", "--markdown", "--plot", plot, "--csv", mltx.folder / "results", "--program", mltx.path])
    ran = subprocess.run(words, capture_output=True, text=True, env=in_folder(mltx), timeout=PATIENCE)
    same((ran.returncode, ran.stderr), (0, ""), f"the status and standard error; standard output was {ran.stdout}")
    measured = {cells[0].partition(":")[0] for cells in rows(ran.stdout)}
    left_out = set(re.findall(r"(?m)^left out: (.*), which needs", ran.stdout))
    groups_left_out = left_out & set(groups())
    same(sorted(measured | groups_left_out), sorted(groups()), "the groups that are told of")
    holds(not shutil.which("cc") or groups_left_out <= NEED_MORE, f"these are left out: {left_out}")
    for cells in rows(ran.stdout):
        holds(re.fullmatch(r"-?[\d,.]+", cells[3]), f"this line has no figure: {cells}")
    check_csv(mltx.folder / "results", rows(ran.stdout))
    check_hotspots([cells for cells in rows(ran.stdout) if cells[0].startswith("hotspots: ")], left_out)
    if shutil.which("cc"):
        drawn = [cells for cells in rows(ran.stdout) if cells[0].startswith("hotspots: 64 clients, a hot counter, 2 ms")]
        check_plot(Picture(plot.read_text()), drawn)
    same(list(mltx.folder.glob("mltx-bench-*")), [], "the folders that are left behind")


@test
def plot_of_what_is_not_measured(mltx: Program) -> None:
    """It is refused before anything is measured."""
    words = command([RUN, "--plot", mltx.folder / "plot.svg", "--program", mltx.path, "texts"])
    ran = subprocess.run(words, capture_output=True, text=True, timeout=PATIENCE)
    holds(ran.returncode == 2 and not ran.stdout and "--plot" in ran.stderr, f"{ran}")


def generator(mltx: Program, name: str) -> Path:
    """A load generator, which is built once."""
    program = mltx.folder / name
    if not program.exists():
        subprocess.run(["cc", "-pthread", "-o", program, ROOT / f"bench/{name}.c"], check=True)
    return program


def figures(told: str) -> dict[str, float]:
    """What a load generator tells, by name."""
    words = told.split()
    return {name: float(figure) for name, figure in zip(words[::2], words[1::2])}


def load(mltx: Program, port: int, *words: str, name: str = "load") -> dict[str, float]:
    """What a load generator tells of a server, by name."""
    asked = command([generator(mltx, name), "--port", str(port), *words])
    return figures(subprocess.run(asked, capture_output=True, text=True, check=True, timeout=PATIENCE).stdout)


@test(seconds=1)
def load_generator_tells_what_the_server_keeps(mltx: Program) -> None:
    """Of 200 transactions those that it says were not aborted have added to two counters that differ and to a third one, and it
    has thought in each."""
    if not shutil.which("cc"):
        return
    with mltx.serve(limit=2, address=(LOCAL, 0)) as server:
        server.address = LOCAL, int(server.first_line().rpartition(":")[2])
        words = ["--transactions", "200", "--seconds", str(PATIENCE), "--aborts", "3", "--counters", "2", "--"]
        lines = ["begin", "up @1 1", "think 500", "up @2 1", "+up 7 1", "commit"]
        told = load(mltx, server.address[1], *words, *lines)
        kept = server.talk("begin\nread 0\nread 1\nread 7\n").decode().split()
    commits = told["transactions"] - told["aborted"]
    same((told["transactions"], told["refused"], told["most_tries"]), (200, 0, 1), "what it tells")
    same([int(word) for word in kept if word.isdigit()][1:], [commits] * 3, "the counters")
    holds(0 < told["aborted"] < 200, "nothing, or all, is aborted")
    holds(told["seconds"] >= 0.1 and told["median"] >= 500, f"it does not think: {told}")


def writers(mltx: Program, *words: str | Path) -> dict[str, float] | None:
    """What the threads that write to a file of SQLite tell, by name; None where there is nothing to build them with."""
    program = mltx.folder / "writers"
    built = command(["cc", "-o", program, ROOT / "bench/writers.c", "-lsqlite3", "-pthread"])
    if not shutil.which("cc") or subprocess.run(built, capture_output=True).returncode:
        return None
    ran = subprocess.run([program, *words], capture_output=True, text=True, check=True, timeout=PATIENCE)
    told = ran.stdout.split()
    return {name: float(figure) for name, figure in zip(told[::2], told[1::2])}


@test(seconds=1)
def writers_tell_what_the_file_keeps(mltx: Program) -> None:
    """Of 100 transactions of four threads those that were not aborted have changed both rows, and each has thought twice."""
    file = mltx.folder / "counters"
    setup = "PRAGMA journal_mode = WAL; CREATE TABLE counter (id INTEGER PRIMARY KEY, value INTEGER);"
    setup += "INSERT INTO counter VALUES (0, 0), (1, 0), (2, 0)"
    options = ["--clients", "4", "--transactions", "100", "--seconds", str(PATIENCE), "--think", "1000"]
    add = "UPDATE counter SET value = value + 1 WHERE id ="
    told = writers(mltx, *options, "--aborts", "3", "--drawn", "2", file, setup, f"{add} 2", f"{add} :drawn")
    if told is None:
        return
    # Where SQLite can be built with, Python has it too.
    import sqlite3

    with closing(sqlite3.connect(file)) as database:
        kept = [value for (value,) in database.execute("SELECT value FROM counter ORDER BY id")]
    commits = told["transactions"] - told["aborted"]
    same((told["transactions"], kept[2], sum(kept[:2])), (100, commits, commits), f"{told}, {kept}")
    holds(0 < told["aborted"] < 100 and min(kept) > 0, f"nothing, or all, is aborted, or one row is never drawn: {told}, {kept}")
    # One transaction writes at a time, also while it thinks.
    holds(told["seconds"] >= 0.2 and told["median"] >= 2_000, f"{told}")


@test(seconds=1)
def smallbank_tells_what_the_server_keeps(mltx: Program) -> None:
    """Of 200 transactions of four clients those commit of which it does not say that they were aborted. Accounts hold so little
    that some are."""
    if not shutil.which("cc"):
        return
    with mltx.serve(limit=6, address=(LOCAL, 0)) as server:
        server.address = LOCAL, int(server.first_line().rpartition(":")[2])
        server.talk("begin\n" + "".join(f"open {it}\ndeposit {it} 60\n" for it in range(20)) + "commit\n")
        words = ["--clients", "4", "--customers", "10", "--hot", "2", "--transactions", "200", "--seconds", str(PATIENCE)]
        told = load(mltx, server.address[1], *words, name="smallbank")
        number = server.talk("begin\ncommit\n").decode().split()[-1]
    same((told["transactions"], int(number)), (200, 2 + 200 - told["aborted"]), f"what it tells, {told}, and the last commit")
    holds(0 < told["aborted"] < 200, "nothing, or all, is aborted")


@test
def the_patch_of_the_ablation_fits(_mltx: Program) -> None:
    """It can be put into the crates as they are."""
    if shutil.which("git"):
        ran = subprocess.run(["git", "apply", "--check", "bench/ablation.diff"], cwd=ROOT, capture_output=True, text=True)
        same((ran.returncode, ran.stderr), (0, ""), "git apply --check")


class GivesUp(socketserver.StreamRequestHandler):
    """A server that answers two tries of each transaction with GaveUp, and keeps what it heard, each with the time."""

    heard: list[tuple[float, str]] = []

    def handle(self) -> None:
        tries = 0
        with may_break_off():
            for line in self.rfile:
                words = line.decode().strip()
                self.heard.append((time.monotonic(), words))
                tries += words == "begin"
                answer = "error 14 GaveUp" if words.startswith("up") and tries % 3 else "done"
                self.wfile.write(f"{answer}\n".encode())


class Watches(socketserver.BaseRequestHandler):
    """A Redis that does every second EXEC, and none of the others; it keeps the commands of each write."""

    heard: list[list[str]] = []

    def handle(self) -> None:
        answers = {"GET": "$1\r\n5", "MULTI": "+OK", "INCRBY": "+QUEUED", "WATCH": "+OK"}
        with may_break_off():
            while write := self.request.recv(4096):
                words = re.findall(r"(?m)^[A-Z]+", write.decode())
                self.heard.append(words)
                tries = sum("EXEC" in it for it in self.heard)
                answers["EXEC"] = "*-1" if tries % 2 else "*1\r\n:6"
                self.request.sendall("".join(f"{answers[word]}\r\n" for word in words).encode())


def load_on(handler: type[socketserver.BaseRequestHandler], mltx: Program, *words: str, name: str = "load") -> dict[str, float]:
    """What a load generator tells of a server that answers one connection in this way."""
    with socketserver.TCPServer((LOCAL, 0), handler) as server:
        answering = threading.Thread(target=server.handle_request)
        answering.start()
        told = load(mltx, server.server_address[1], *words, name=name)
        answering.join(PATIENCE)
    return told


@test
def load_generator_runs_again_what_redis_did_not_do(mltx: Program) -> None:
    """An EXEC that does nothing, as a key that is watched was changed, has the transaction run again; lines go out together that
    say so."""
    if not shutil.which("cc"):
        return
    words = ["--redis", "--transactions", "10", "--seconds", "10", "--", "WATCH 0", "GET 0", "MULTI", "+INCRBY 0 1", "+EXEC"]
    told = load_on(Watches, mltx, *words)
    same((told["transactions"], told["refused"], told["most_tries"]), (10, 10, 2), "what it tells")
    same(Watches.heard[:60], [["WATCH"], ["GET"], ["MULTI", "INCRBY", "EXEC"]] * 20, "what it sends")


@test
def load_generator_runs_again_what_gave_up(mltx: Program) -> None:
    """Each transaction is begun three times, with the counters that it had, and each time but the first after a pause."""
    if not shutil.which("cc"):
        return
    options = ["--transactions", "20", "--seconds", "10", "--counters", "9", "--rest", "2000", "--"]
    told = load_on(GivesUp, mltx, *options, "begin", "up @1 1", "commit")
    same((told["transactions"], told["refused"], told["most_tries"]), (20, 40, 3), "what it tells")
    asked = [words for _, words in GivesUp.heard]
    ups = [words for words in asked if words.startswith("up")]
    same(ups, [words for words in ups[::3] for _ in range(3)], "the tries")
    holds(len(set(ups)) > 1, "each transaction has the same counter")
    aborted = ["begin", ups[0], "abort"]
    same(asked[:9], [*aborted, *aborted, "begin", ups[0], "commit"], "what it sends")
    for (before, words), (after, _) in zip(GivesUp.heard, GivesUp.heard[1:]):
        holds(words != "abort" or after - before >= 0.002, f"it begins again after {after - before} seconds")
    holds(told["median"] >= 4_000, f"a transaction is not timed from its first try: {told}")


@test(seconds=1)
def clients_tell_what_the_server_keeps(mltx: Program) -> None:
    """Each of eight clients commits three times, with a line a round trip or in one write, and adds to three counters each time.
    Those that pause take longer. They stay connected until they are killed, where that is asked for."""
    if not shutil.which("cc"):
        return
    words = ["--clients", "8", "--each", "3", "--counters", "2", "--threads", "2"]
    with mltx.serve(limit=25, address=(LOCAL, 0)) as server:
        server.address = LOCAL, int(server.first_line().rpartition(":")[2])
        port = server.address[1]
        for way in (["--pause", "2000"], ["--whole"]):
            told = load(mltx, port, *words, *way, name="clients")
            same([told[name] for name in ("transactions", "fewest", "middle", "most")], [24, 3, 3, 3], "what they tell")
            holds(told["seconds"] >= 0.004 or "--whole" in way, f"they don't pause: {told}")
            holds(0 < told["round_trip"] <= told["ninety_ninth"] + 0.01 and told["connected"] > 0, f"{told}")
        stay = command([generator(mltx, "clients"), "--port", str(port), *words, "--stay"])
        with subprocess.Popen(stay, stdout=subprocess.PIPE, text=True) as staying:
            try:
                same(figures(next(iter(staying.stdout or ()), ""))["transactions"], 24, "the commits of those that stay")
                same(staying.poll(), None, "the status of those that stay")
            finally:
                staying.kill()
        kept = server.talk("begin\nread 0\nread 1\n").decode().split()
    same(sum(int(word) for word in kept[2:] if word.isdigit()), 3 * 3 * 24, f"the sum of both counters: {kept}")


class Counts(Watches):
    """A Redis that does every EXEC of three commands, and keeps the commands of each write."""

    heard: list[list[str]] = []

    def handle(self) -> None:
        answers = {"MULTI": "+OK", "INCRBY": "+QUEUED", "EXEC": "*3\r\n:1\r\n:-1\r\n:1"}
        with may_break_off():
            while write := self.request.recv(4096):
                words = re.findall(r"(?m)^[A-Z]+", write.decode())
                self.heard.append(words)
                self.request.sendall("".join(f"{answers[word]}\r\n" for word in words).encode())


@test
def clients_talk_to_redis(mltx: Program) -> None:
    """A command a round trip, or all in one write. The answer to EXEC has a line for each of its commands."""
    if not shutil.which("cc"):
        return
    transaction = ["MULTI", *["INCRBY"] * 3, "EXEC"]
    ways: dict[str, list[list[str]]] = {"--redis": [[word] for word in transaction], "--whole": [transaction]}
    for way, heard in ways.items():
        Counts.heard.clear()
        told = load_on(Counts, mltx, "--redis", "--each", "2", way, name="clients")
        same((told["transactions"], Counts.heard), (2, 2 * heard), "what they tell, and what they send")


@test
def clients_end_where_they_are_refused(mltx: Program) -> None:
    """No figure is told of a load that a server refuses something."""
    if not shutil.which("cc"):
        return
    with socketserver.TCPServer((LOCAL, 0), GivesUp) as server:
        answering = threading.Thread(target=server.handle_request)
        answering.start()
        words = command([generator(mltx, "clients"), "--port", str(server.server_address[1]), "--each", "1"])
        ran = subprocess.run(words, capture_output=True, text=True, timeout=PATIENCE)
        answering.join(PATIENCE)
    same((ran.returncode, ran.stdout, ran.stderr.split("\n")[0]), (1, "", "clients: refused: error 14 GaveUp"), "how they end")


def commands_with(text: str) -> list[str]:
    """The command lines of all processes that have this text."""
    found = []
    for file in Path("/proc").glob("[0-9]*/cmdline"):
        try:
            found.append(file.read_bytes().replace(b"\0", b" ").decode(errors="replace"))
        except OSError:
            # It has just ended.
            continue
    return [words for words in found if text in words]


@test(seconds=8)
def an_interrupted_benchmark_leaves_nothing_behind(mltx: Program) -> None:
    """While scripts run, and while a server has a load, where there is a compiler."""
    program = mltx.folder / "program"
    shutil.copy(mltx.path, program)
    for number, name, ran in INTERRUPTED:
        words = command([RUN, "--runs", "1000", "--program", program, name])
        with subprocess.Popen(words, stdout=subprocess.DEVNULL, env=in_folder(mltx)) as process:
            while process.poll() is None and not commands_with(f"{program} {ran}"):
                time.sleep(0.01)
            time.sleep(0.3)
            process.send_signal(number)
            status = process.wait(PATIENCE)
        holds(status in (0, 128 + number), f"{name}: the status is {status}")
        same([it for it in commands_with(str(mltx.folder)) if "mltx-bench-" in it], [], f"{name}: processes left behind")
        same(list(mltx.folder.glob("mltx-bench-*")), [], f"{name}: folders left behind")
