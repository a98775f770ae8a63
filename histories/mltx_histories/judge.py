"""The commands that judge a history: `order`, and `levels`."""
import argparse
import sys
from collections.abc import Sequence
from pathlib import Path

from . import formats, text
from .levels import LEVELS, SERIALIZABLE, STRICT, Judged, judge
from .model import Faulty, Transaction
from .order import find
from .pictures.history import picture_of_history
from .program import accepted
from .systems import Failed

# From how many transactions of a cycle they are not shown.
MOST_SHOWN = 20


def add_arguments(commands: "argparse._SubParsersAction[argparse.ArgumentParser]") -> list[argparse.ArgumentParser]:
    """The commands, each of which wants `--program` too."""
    order = commands.add_parser("order", help="looks for an order that explains all replies")
    order.add_argument("--strict", action="store_true", help="one that ended before another began stands before it")
    order.add_argument("--trace", metavar="FILE", help="where the trace in that order is written")
    levels = commands.add_parser("levels", help="tells which isolation levels hold, and which anomaly breaks the others")
    told = f"the status is 0 where this level holds, and 1 where it is broken: {', '.join(LEVELS)} [default: {SERIALIZABLE}]"
    levels.add_argument("--level", choices=LEVELS, default=SERIALIZABLE, metavar="LEVEL", help=told)
    levels.add_argument("--picture", metavar="FILE", help="where a picture of the transactions of the anomaly is written")
    for command in (order, levels):
        command.add_argument("--seconds", type=float, default=60, help="for how long it looks")
        command.add_argument("file", metavar="FILE", help="a history; `-` is standard input")
    return [order, levels]


def run(given: argparse.Namespace) -> int:
    """The status: 0 where there is an order, or the level holds, 1 where not, and 2 where that is not decided."""
    transactions = _read(given.file)
    return _levels(given, transactions) if given.command == "levels" else _order(given, transactions)


def _read(file: str) -> list[Transaction]:
    name, data = ("standard input", sys.stdin.buffer.read()) if file == "-" else (file, Path(file).read_bytes())
    try:
        return formats.read(data.decode())
    except UnicodeDecodeError:
        raise Faulty(f"{name} is no history, as it is no text in UTF-8") from None
    except RecursionError:
        raise Faulty(f"{name} has lists in lists without end") from None
    except (ValueError, OverflowError):
        raise Faulty(f"{name} has a number with too many digits") from None


def _order(given: argparse.Namespace, transactions: Sequence[Transaction]) -> int:
    """Looks for an order, has it checked, and tells the outcome."""
    outcome = find(transactions, given.strict, given.seconds)
    if not outcome.is_found:
        print(outcome.told)
        return 2 if outcome.is_found is None else 1
    told = accepted(given.program, outcome.order, given.strict)
    if given.trace:
        Path(given.trace).write_text(text.trace(outcome.order))
    print(f"serializable: an order of {len(outcome.order)} transactions, {told}")
    return 0


def _levels(given: argparse.Namespace, transactions: Sequence[Transaction]) -> int:
    judged = judge(transactions, given.seconds)
    print(judged.told())
    if judged.order is not None:
        told = accepted(given.program, judged.order, bool(judged.verdicts[STRICT]))
        print(f"An order of {len(judged.order)} transactions shows that, {told}.")
    members = next((it.transactions for it in judged.anomalies.values()), ())
    if 0 < len(members) <= MOST_SHOWN:
        print("The transactions of the anomaly:", text.written(members), sep="\n", end="")
    if given.picture:
        _draw(judged, Path(given.picture))
    return {True: 0, False: 1, None: 2}[judged.verdicts[given.level]]


def _draw(judged: Judged, file: Path) -> None:
    """Writes a picture of the transactions of the anomaly, if there is one."""
    anomaly = next(iter(judged.anomalies.values()), None)
    if anomaly is None:
        print("mltx-histories: no anomaly is found, so that no picture is written", file=sys.stderr)
    elif anomaly.transactions:
        file.write_bytes(picture_of_history(anomaly.transactions, anomaly.name, anomaly.told).encode())
    else:
        raise Failed(f"no picture is written, as it is not known which transactions make this anomaly: {anomaly.name}")
