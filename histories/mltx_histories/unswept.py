"""Spares the time that Python takes to look for rubbish in large histories."""
import gc
from collections.abc import Iterator
from contextlib import contextmanager


@contextmanager
def unswept() -> Iterator[None]:
    """Nothing of a history refers to itself, so that what isn't used any more is freed at once. The sweeps for what does refer
    to itself would go through all of it again and again, and take a third of the time."""
    was_enabled = gc.isenabled()
    gc.disable()
    try:
        yield
    finally:
        if was_enabled:
            gc.enable()
