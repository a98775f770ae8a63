"""Scenarios in which systems show anomalies, or don't."""
from collections.abc import Iterable
from contextlib import ExitStack
from dataclasses import dataclass
from pathlib import Path

from . import text
from .order import find
from .pictures.history import picture_of_history
from .program import accepted
from .record import acted
from .systems import Failed, Place, Unknown

SECONDS = 20


@dataclass(frozen=True)
class Scenario:
    """An anomaly, what is done before, and the steps of two clients that may show it."""

    name: str
    setup: tuple[str, ...]
    steps: tuple[str, ...]


SCENARIOS = (
    Scenario("lost update", ("up 7 10",), (
        "1 begin", "1 read 7", "2 begin", "2 read 7", "1 up 7 1", "1 commit", "2 up 7 1", "2 commit",
    )),
    Scenario("dirty read", ("up 7 10",), (
        "1 begin", "1 up 7 5", "2 begin", "2 read 7", "1 abort", "2 commit",
    )),
    Scenario("write skew", ("open 1", "deposit 1 50", "open 2", "deposit 2 50"), (
        "1 begin", "1 balance 1", "1 balance 2", "2 begin", "2 balance 1", "2 balance 2",
        "1 withdraw 1 50", "1 commit", "2 withdraw 2 50", "2 commit",
    )),
    Scenario("phantom", ("add 4 1",), (
        "1 begin", "1 size 4", "2 begin", "2 add 4 2", "2 commit", "1 size 4", "1 commit",
    )),
)


def report(systems: Iterable[str], program: Path, pictures: Path | None) -> str:
    """A table of systems by anomalies, what is left out, and the cycles that were found."""
    names = [it.name for it in SCENARIOS]
    rows, told = [f"| system | {' | '.join(names)} |", "|---|" + "---|" * len(names)], list[str]()
    with ExitStack() as stack:
        place = Place(program, stack)
        for system in systems:
            if lacks := place.lacks(system):
                told.append(f"{system} is left out: {lacks}")
                continue
            try:
                found = [_shown(place, system, scenario, pictures) for scenario in SCENARIOS]
            except Unknown as fault:
                told.append(f"{system} is left out: {fault}")
                continue
            rows.append(f"| {system} | {' | '.join('shown' if it else 'none' for it in found)} |")
            told += [f"{system}, {name}: {it}" for name, it in zip(names, found) if it]
    return "".join(line + "\n" for line in [*rows, *([""] if told else []), *told])


def _shown(place: Place, system: str, scenario: Scenario, pictures: Path | None) -> str:
    """Why there is no order of what a system answers in a scenario; nothing where there is one."""
    with place.emptied(system) as connect:
        history = acted(connect, scenario.setup, scenario.steps)
    transactions = text.read(history)
    outcome = find(transactions, False, SECONDS)
    if outcome.is_found:
        accepted(place.program, outcome.order, False)
        return ""
    if outcome.is_found is None:
        raise Failed(f"{system}, {scenario.name}: {outcome.told}")
    if pictures:
        pictures.mkdir(parents=True, exist_ok=True)
        name, title = f"{system}-{scenario.name}".replace(":", "-").replace(" ", "-"), f"{system}: {scenario.name}"
        (pictures / f"{name}.svg").write_text(picture_of_history(transactions, title))
    return outcome.told
