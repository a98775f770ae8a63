"""Cases of random tests: hypothesis draws them where it is installed, and else they are the first numbers."""
import importlib
from collections.abc import Callable
from functools import partial
from typing import Any

try:
    hypothesis: Any = importlib.import_module("hypothesis")
except ImportError:
    hypothesis = None

OfSeed = Callable[[int], None]


def cases(count: int) -> Callable[[OfSeed], Callable[[], None]]:
    """Makes a test without arguments of one that takes a seed."""

    def made(test: OfSeed) -> Callable[[], None]:
        if hypothesis:
            of_case = hypothesis.given(hypothesis.strategies.integers(0, 2**32))(test)
            drawn: Callable[[], None] = hypothesis.settings(max_examples=count, deadline=None, database=None)(of_case)
            return drawn
        return _named(test, partial(_each, test, count))

    return made


def _each(test: OfSeed, count: int) -> None:
    for seed in range(count):
        test(seed)


def _named(test: OfSeed, run: Callable[[], None]) -> Callable[[], None]:
    """A plain function with the name of the test, by which pytest finds it."""

    def named() -> None:
        run()

    named.__name__, named.__doc__ = test.__name__, test.__doc__
    return named
