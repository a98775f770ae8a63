#!/usr/bin/env python3
"""Measures what docs/ANOMALIES.md shows, and puts it there.

    histories/survey.py levels [--runs N] [--transactions N] [--data D] [--kills N] [--mltx PROGRAM] [SYSTEM ..]
    histories/survey.py sizes [--runs N] [--most N] [--mltx PROGRAM] [SYSTEM ..]
    histories/survey.py page [--write]

`levels` records each system so often and counts which levels were broken by what; `sizes` records systems at several sizes. Both
replace their rows in histories/results/*.csv. `page` makes the tables of the page from these files. Seconds are those of the
processor that the judgement took, without the record, in the median."""
import argparse
import csv
import fcntl
import gc
import os
import re
import statistics
import sys
import time
from collections import Counter
from collections.abc import Iterable, Sequence
from contextlib import ExitStack
from pathlib import Path
from typing import NamedTuple

sys.dont_write_bytecode = True
HERE = Path(__file__).resolve().parent
sys.path.insert(0, str(HERE))
from mltx_histories import text  # noqa: E402
from mltx_histories.finding import found_program  # noqa: E402
from mltx_histories.levels import judge  # noqa: E402
from mltx_histories.model import effect  # noqa: E402
from mltx_histories.program import CHECKED, accepted  # noqa: E402
from mltx_histories.record import Wanted, recorded_at  # noqa: E402
from mltx_histories.systems import SYSTEMS, Failed, Place, servers  # noqa: E402

PAGE, RESULTS = HERE.parent / "docs/ANOMALIES.md", HERE / "results"
LEVELS = ("read committed", "snapshot isolation", "serializable", "strict serializable")
SECONDS = 60
SIZES = (100, 1_000, 10_000, 100_000)
SIZED = (
    ("mltx", "objects"), ("redis:script", "objects"), ("redis:script", "registers"), ("redis:script", "lists"),
    ("redis:multi", "objects"))
# The headings of tables of levels: of which data, and whether servers were killed.
RUNS = (
    ("A hundred runs", "objects", False), ("Registers", "registers", False), ("Lists", "lists", False),
    ("Killed servers", "objects", True))
Row = dict[str, str]


def rows_of(name: str) -> list[Row]:
    path = RESULTS / f"{name}.csv"
    return list(csv.DictReader(path.read_text().splitlines())) if path.exists() else []


def put(name: str, row: Row, keys: Iterable[str]) -> None:
    """Replaces the row with the same keys, also where two surveys run side by side."""
    RESULTS.mkdir(exist_ok=True)
    with open(RESULTS / f"{name}.csv", "a", newline="") as file:
        fcntl.flock(file, fcntl.LOCK_EX)
        kept = [it for it in rows_of(name) if any(it[key] != row[key] for key in keys)]
        file.truncate(0)
        writer = csv.DictWriter(file, list(row), lineterminator="\n")
        writer.writeheader()
        writer.writerows([*kept, row])
    print(row, flush=True)


def kept(place: Place, given: argparse.Namespace, wanted: Wanted) -> str:
    """The history of a run, which is recorded where it is not kept."""
    if not given.histories:
        return recorded_at(place, wanted)
    killed = f"-{wanted.kills}-kills" if wanted.kills else ""
    name = f"{wanted.system.replace(':', '-')}-{wanted.data}-{wanted.transactions}{killed}-{wanted.seed}.txt"
    path: Path = given.histories / name
    if not path.exists():
        given.histories.mkdir(exist_ok=True)
        path.write_text(recorded_at(place, wanted))
    return path.read_text()


def levels(given: argparse.Namespace) -> None:
    for system in given.systems or SYSTEMS:
        with ExitStack() as stack:
            place = Place(given.program, stack)
            if lacks := place.lacks(system):
                print(f"{system} is left out: {lacks}")
                continue
            broken, named, undecided, seconds, commits = Counter[str](), Counter[str](), 0, list[float](), list[int]()
            for run in range(given.runs):
                wanted = Wanted(system, data=given.data, transactions=given.transactions, seed=run + 1, kills=given.kills)
                history = kept(place, given, wanted)
                began = time.process_time()
                judged = judge(text.read(history), SECONDS)
                seconds.append(time.process_time() - began)
                broken.update(level for level, verdict in judged.verdicts.items() if verdict is False)
                named.update({anomaly.name for anomaly in judged.anomalies.values()})
                undecided += None in judged.verdicts.values()
                commits.append(len(re.findall(r"(?m)^commit ", history)))
            told = "; ".join(f"{name} {count}" for name, count in named.most_common())
            put("levels", {
                "system": system, "version": servers.version(system.partition(":")[0], given.program), "data": given.data,
                "kills": str(given.kills), "transactions": str(given.transactions), "runs": str(given.runs),
                "committed": f"{statistics.median(commits):.0f}", **{level: str(broken[level]) for level in LEVELS},
                "not decided": str(undecided), "anomalies": told, "seconds": f"{statistics.median(seconds):.2f}",
            }, ("system", "data", "kills"))


class Sized(NamedTuple):
    """Of a run the strongest level that holds, whether one is not decided, and the seconds of the judgement and of the check of
    the order, where one was found and checked."""

    holds: str
    is_undecided: bool
    judging: float
    checking: float | None


def sizes(given: argparse.Namespace) -> None:
    for system, data in (it for it in SIZED if it[0] in (given.systems or it)):
        for size in (it for it in SIZES if it <= given.most):
            with ExitStack() as stack:
                place = Place(given.program, stack)
                wanted = [Wanted(system, data=data, transactions=size, seed=run + 1) for run in range(given.runs)]
                runs = [of_size(place, given, it) for it in wanted]
            checks = [it.checking for it in runs if it.checking is not None]
            put("sizes", {
                "system": system, "data": data, "transactions": str(size), "runs": str(given.runs),
                "holds": " or ".join(dict.fromkeys(it.holds for it in runs)),
                "not decided": str(sum(it.is_undecided for it in runs)),
                "judge seconds": f"{statistics.median(it.judging for it in runs):.2f}",
                "check seconds": f"{statistics.median(checks):.2f}" if checks else "",
            }, ("system", "data", "transactions"))


def of_size(place: Place, given: argparse.Namespace, wanted: Wanted) -> Sized:
    history = kept(place, given, wanted)
    # What an earlier run has left would be swept in the time of this one.
    effect.cache_clear()
    gc.collect()
    began = time.process_time()
    judged = judge(text.read(history), 10 * SECONDS)
    seconds, children = time.process_time() - began, sum(time_of_children())
    holds = next((level for level in reversed(LEVELS) if judged.verdicts[level]), "none")
    is_checked = bool(judged.order) and CHECKED in accepted(given.program, judged.order or (), False)
    checking = sum(time_of_children()) - children if is_checked else None
    return Sized(holds, None in judged.verdicts.values(), seconds, checking)


def time_of_children() -> tuple[float, float]:
    """The seconds of the processor of programs that were run and have ended."""
    told = os.times()
    return told.children_user, told.children_system


def table(columns: Sequence[str], rows: Iterable[Sequence[str]]) -> str:
    lines = [columns, ["---"] * len(columns), *rows]
    return "".join(f"| {' | '.join(cells)} |\n" for cells in lines).replace("| --- |", "|---|").replace(" --- |", "---|")


def of_levels(row: Row) -> Sequence[str]:
    """A row of the first table: how often each level was broken, and by what."""
    broken = [row[level] if row[level] != "0" else "-" for level in LEVELS]
    undecided = row["not decided"] if row["not decided"] != "0" else "-"
    return [row["system"], *broken, undecided, row["anomalies"] or "-", row["seconds"]]


def of_sizes(row: Row) -> Sequence[str]:
    size = f"{int(row['transactions']):,}"
    return [row["system"], row["data"], size, row["holds"], row["judge seconds"], row["check seconds"] or "-"]


def filled(text_of_page: str) -> str:
    """The page with what was measured, each table below its heading, and the versions."""
    order = {system: at for at, system in enumerate(SYSTEMS)}
    told = sorted(rows_of("levels"), key=lambda row: order[row["system"]])
    made = dict[str, str]()
    for heading, data, is_killed in RUNS:
        rows = [row for row in told if (row["data"], row["kills"] != "0") == (data, is_killed)]
        made[heading] = table(["system", *LEVELS, "not decided", "anomalies", "seconds"], map(of_levels, rows))
    sized = sorted(rows_of("sizes"), key=lambda row: (SIZED.index((row["system"], row["data"])), int(row["transactions"])))
    made["Sizes"] = table(["system", "data", "transactions", "strongest level", "judge", "check"], map(of_sizes, sized))
    for heading, lines in made.items():
        pattern = rf"(?m)(^## {heading}\n\n(?:[^|#\n].*\n)+\n)(?:\|.*\n)*\n?"
        before, text_of_page = text_of_page, re.sub(pattern, rf"\g<1>{lines}\n", text_of_page)
        if before == text_of_page and lines not in before:
            raise Failed(f"the page has no table of {heading}")
    versions = ", ".join(dict.fromkeys(row["version"] for row in told))
    return re.sub(r"(?m)^Versions: .*$", f"Versions: {versions}.", text_of_page)


def page(given: argparse.Namespace) -> None:
    made = filled(PAGE.read_text())
    if given.write:
        PAGE.write_text(made)
    else:
        print(made, end="")


def main() -> None:
    parser = argparse.ArgumentParser("histories/survey.py", description=(__doc__ or "").splitlines()[0])
    commands = parser.add_subparsers(dest="command", required=True)
    runs = commands.add_parser("levels", help="records each system so often, and counts what breaks which level")
    runs.add_argument("--runs", type=int, default=100)
    runs.add_argument("--transactions", type=int, default=200)
    runs.add_argument("--data", default="objects")
    runs.add_argument("--kills", type=int, default=0)
    sized = commands.add_parser("sizes", help="judges histories of several sizes")
    sized.add_argument("--most", type=int, default=SIZES[-1])
    sized.add_argument("--runs", type=int, default=3)
    for command in (runs, sized):
        command.add_argument("systems", metavar="SYSTEM", nargs="*")
        command.add_argument("--histories", metavar="DIR", type=Path, help="where histories are kept, and not recorded anew")
        command.add_argument("--mltx", dest="program", type=Path, default=found_program())
    commands.add_parser("page", help="prints the page with what was measured").add_argument("--write", action="store_true")
    given = parser.parse_args()
    try:
        {"levels": levels, "sizes": sizes, "page": page}[given.command](given)
    except (Failed, OSError) as fault:
        sys.exit(f"histories/survey.py: {fault}")


if __name__ == "__main__":
    main()
