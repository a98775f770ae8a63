"""How a test is run: in a process and a folder of its own, over the built program. `tests/run` and pytest both use it."""
from __future__ import annotations

import importlib
import resource
import signal
import subprocess
import sys
import time
import traceback
from concurrent.futures import ProcessPoolExecutor
from pathlib import Path
from typing import NamedTuple, NoReturn

HERE = Path(__file__).resolve().parent
sys.path.insert(0, str(HERE))
import harness  # noqa: E402

# How many seconds a test may take, on a slow machine with other work beside.
MOST_SECONDS = 300
# Files that have no tests.
NO_GROUPS = ("conftest", "harness", "model", "part_one", "runner")
# The files of tests, which are the groups.
GROUPS = sorted(file.stem for file in HERE.glob("*.py") if file.stem not in NO_GROUPS)
PROVED, UNPROVED = (HERE.parent / name for name in ("crates/mltx/out/mltx", "out/unproved/mltx"))


def seed_of_commit() -> int:
    """A seed that every clone of a commit has, so that another commit tries other cases."""
    ran = subprocess.run(["git", "-C", HERE, "rev-parse", "HEAD"], capture_output=True, text=True)
    return int(ran.stdout[:8], 16) if ran.returncode == 0 else 1


def built_program() -> Path:
    """The proved program, or else the other one if it is there."""
    return UNPROVED if UNPROVED.exists() and not PROVED.exists() else PROVED


def prepare(seed: int | None, cases: int) -> None:
    """Lists all tests, with the seed of random ones, and gives this process what tests rely on."""
    harness.SEED, harness.CASES = seed_of_commit() if seed is None else seed, cases
    for group in GROUPS:
        importlib.import_module(group)
    # A server that may have few descriptors says so, and some tests have a thousand clients.
    _, most_descriptors = resource.getrlimit(resource.RLIMIT_NOFILE)
    resource.setrlimit(resource.RLIMIT_NOFILE, (most_descriptors, most_descriptors))
    # A shell may have started this with SIGINT ignored, or nohup with SIGHUP. Programs under test inherit that, but no handler.
    signal.signal(signal.SIGINT, signal.default_int_handler)
    if signal.getsignal(signal.SIGHUP) is signal.SIG_IGN:
        signal.signal(signal.SIGHUP, lambda *_: None)


def give_up(*_: object) -> NoReturn:
    raise harness.Failed(f"it had not ended after {MOST_SECONDS} seconds")


class Ended(NamedTuple):
    """How a test ended: in how many seconds, why it failed, if it did, and whether that is only since it was too slow."""

    seconds: float
    why: str | None
    is_slow: bool = False

    def lines(self, test: harness.Test) -> str:
        reason = "\n    " + self.why.rstrip().replace("\n", "\n    ") if self.why else ""
        return f"{test.group} {test.name}: {'FAILED' if self.why else 'passed'} ({self.seconds:.1f} s){reason}"


def run_one(name: str, program: Path) -> Ended:
    """Runs a test, in this process."""
    began, why, is_slow = time.monotonic(), None, False
    signal.signal(signal.SIGALRM, give_up)
    signal.alarm(MOST_SECONDS)
    try:
        with harness.folder() as folder:
            harness.TESTS[name].call(harness.Program(program, folder))
    except harness.Failed as failure:
        why, is_slow = str(failure), isinstance(failure, harness.TooSlow)
    except Exception:
        why = traceback.format_exc()
    finally:
        signal.alarm(0)
    return Ended(time.monotonic() - began, why, is_slow)


def run_alone(name: str, program: Path) -> Ended:
    """Runs a test in a process of its own."""
    with ProcessPoolExecutor(1) as alone:
        return alone.submit(run_one, name, program).result()
