"""Has the program `mltx` check an order."""
import subprocess
from collections.abc import Sequence
from functools import cache
from math import inf
from pathlib import Path

from . import replay
from .model import Transaction
from .systems.base import Failed
from .text import base, trace

# Who accepts an order.
CHECKED, NOT_PROVED, REPLAYED = "which mltx check accepts", "; this mltx is not proved", "which a replay accepts"


@cache
def version(program: Path) -> str:
    """What the program says that it is, as `mltx 0.2.0 (not proved)`; nothing where it is not there."""
    try:
        ran = subprocess.run([program, "--version"], stdout=subprocess.PIPE, text=True)
    except OSError:
        return ""
    return ran.stdout.strip().partition("\n")[0] if ran.returncode == 0 else ""


def accepted(program: Path, order: Sequence[Transaction], is_strict: bool) -> str:
    """Who accepts an order, which somebody must: the program, for what it knows, where it is there; else a replay. It is checked
    here too that the order keeps real time, where it is strict."""
    latest = -inf
    for one in order:
        if is_strict and one.end < latest:
            raise Failed(f"the order that was found has {one.number} behind one that began after its end")
        latest = max(latest, one.start)
    if replay.has_values(order):
        replay.replay(order)
        return f"{REPLAYED}, as mltx knows no registers and no lists"
    told = version(program)
    if not told:
        replay.replay(order)
        return f"{REPLAYED}, as there is no mltx: give it by --mltx"
    _check(program, order)
    return CHECKED + NOT_PROVED * ("not proved" in told)


def _check(program: Path, order: Sequence[Transaction]) -> None:
    """Has the program check the trace of an order, which it must accept, with the same order and base."""
    ran = subprocess.run([program, "check", "--long", "-"], input=trace(order), capture_output=True, text=True)
    wanted = "".join(f"serial {number}\n" for number in range(1, len(order) + 1)) + base(order)
    if ran.returncode or ran.stdout != wanted:
        raise Failed(f"mltx check does not accept the order that was found: {ran.stderr or 'another base'}")
