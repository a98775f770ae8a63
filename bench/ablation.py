"""What replies buy: one program, in which operations on an object conflict by their replies, whatever their replies are, or by
whether they read or change it.

The program is built without proof for this, from the crates with ablation.diff applied: the variable MLTX_CONFLICTS of its
environment chooses. Where it is to be quick, the program is measured that is given."""
import os
import shutil
import sys
from collections.abc import Iterator
from contextlib import contextmanager
from dataclasses import replace
from functools import partial
from pathlib import Path

import hotspots
import smallbank
import tools
from hotspots import ACCOUNTS, COUNTERS, THINK, Case, Curves
from machine import HERE, ROOT, run
from smallbank import Bank
from works import Bench, Group, Measure, Sample, Side, Work

sys.path.insert(0, str(ROOT / "histories"))
from mltx_histories.pictures.plot import Curve, picture  # noqa: E402

# The patch of the crates, and the variable that it reads.
PATCH, VARIABLE = HERE / "ablation.diff", "MLTX_CONFLICTS"
# By its name how operations conflict, and how the variable says it. The first is that of mltx.
RULES = {"replies": "replies", "operations": "operations", "read/write": "locks"}
HOT_CUSTOMERS = 10


def measuring_build(bench: Bench, program: Path) -> Path:
    """The program with the patch, which is built once."""
    if bench.quick:
        return program
    built = bench.folder / "ablation"
    if not built.exists():
        tree = bench.folder / "ablation-tree"
        for part in ("crates", "tools"):
            shutil.copytree(ROOT / part, tree / part, symlinks=True, ignore=shutil.ignore_patterns("out", "proofs"))
        shutil.copy(ROOT / "crates.txt", tree)
        run(["git", "apply", PATCH], cwd=tree)
        run([tree / "tools/quick-build", built])
    return built


@contextmanager
def chosen(rule: str) -> Iterator[None]:
    """What is started in this block has operations conflict so."""
    os.environ[VARIABLE] = rule
    try:
        yield
    finally:
        del os.environ[VARIABLE]


def by_rule(measure: Measure, rule: str, bench: Bench, program: Path) -> Sample:
    built = measuring_build(bench, program)
    with chosen(rule):
        return measure(bench, built)


def work_of(what: str, measure: Measure, needs: tuple[str, ...]) -> Work:
    sides = (Side(name, partial(by_rule, measure, rule), (*needs, "rt")) for name, rule in RULES.items())
    return Work("ablation", what, "commits/s", tuple(sides), patch=PATCH.name)


def works() -> Iterator[Work]:
    """A counter that all add to, an account that all withdraw from, and SmallBank; the last two are drawn."""
    for clients in (1, 8, 32, 64):
        for changes in (COUNTERS, ACCOUNTS):
            case = Case(changes, clients, THINK)
            work = work_of(case.what(), partial(hotspots.on_mltx, case), ("load",))
            yield replace(work, plotted_at=clients, plotted_as="account, ") if changes is ACCOUNTS else work
        bank = Bank(clients, HOT_CUSTOMERS, THINK)
        work = work_of(bank.what(), partial(smallbank.on_mltx, bank), ("smallbank",))
        yield replace(work, plotted_at=clients, plotted_as="SmallBank, ")
    for changes in (COUNTERS, ACCOUNTS):
        case = Case(changes, 32, 0)
        yield work_of(case.what(), partial(hotspots.on_mltx, case), ("load",))
    bank = Bank(32, HOT_CUSTOMERS, 0)
    yield work_of(bank.what(), partial(smallbank.on_mltx, bank), ("smallbank",))


TITLE = "What replies buy"
ABOUT = (
    f"Each transaction withdraws from one account that all share, thinks {THINK // 1_000} ms, adds to one of four others, thinks,"
    f" and commits, or is aborted in one case of ten; or it is one of SmallBank, over {HOT_CUSTOMERS} hot customers of"
    f" {smallbank.CUSTOMERS:,}, and thinks after each operation. In one build without proof operations conflict by their replies,"
    " whatever their replies are, or unless both only read (read/write)."
)


def plot(curves: Curves, bench: Bench, runs: int) -> str:
    """The medians by rule and clients, as an SVG. What goes by replies is drawn first and last, so that it has one colour."""
    first, *others = RULES
    names = [f"account, {name}" for name in RULES] + [f"SmallBank, {name}" for name in (*others, first)]
    drawn = [Curve(name, sorted(curves[name].items())) for name in names if name in curves]
    where = f"Medians of {runs} run{'s' * (runs > 1)} on {tools.description()}."
    about = [ABOUT, where, *["Quick: the figures mean nothing."] * bench.quick]
    return picture(TITLE, " ".join(about), "clients", "commits a second", drawn)


GROUPS = {"ablation": Group("the same with conflicts by replies, by operations alone, and by reads and writes", works)}
