"""Shows at a terminal how far a long picture is."""
import sys
from collections.abc import Iterator, Sequence
from typing import TypeVar

Thing = TypeVar("Thing")


def shown(doing: str, things: Sequence[Thing]) -> Iterator[Thing]:
    """All of these. Where standard error is a terminal, a line on it says what part of them is taken."""
    every = max(1, len(things) // 100)
    for at, thing in enumerate(things):
        if at % every == 0:
            _write(f"mltx-picture: {doing}, {100 * at // len(things)} %")
        yield thing
    clear()


def clear() -> None:
    """Takes the line away."""
    _write("")


def _write(words: str) -> None:
    if sys.stderr.isatty():
        print(f"\r{words}\x1b[K", end="", file=sys.stderr, flush=True)
