"""Tells of the links of a cycle which two operations make them."""
from collections.abc import Callable, Mapping, Sequence
from typing import NamedTuple

from .cycles import Links, components, shortest
from .infer import Read, Web
from .model import Cell, Done


class Hop(NamedTuple):
    """A link of a cycle: its kind, its transactions by their places, the cell of what was read, if any, and the reason."""

    kind: str
    first: int
    second: int
    cell: Cell
    told: str


def cycle_in(web: Web, links: Links, kinds: Sequence[str], more: Mapping[tuple[int, int], Hop] | None = None) -> list[Hop]:
    """A short cycle of a graph of these kinds of links and of some more links with reasons, if there is one."""
    whose = web.whose()[:len(links)]
    path = shortest(links, components(links), whose)
    points = [at for at, it in enumerate(path) if whose[it] >= 0]
    hops = []
    for here, there in zip(points, [*points[1:], *(it + len(path) for it in points[:1])]):
        first, second = path[here], path[there % len(path)]
        if whose[first] != whose[second]:
            middle = path[(here + 1) % len(path)] if there - here > 1 else -1
            hops.append(_hop(web, kinds, more or {}, first, middle, second))
    return hops


def _hop(web: Web, kinds: Sequence[str], more: Mapping[tuple[int, int], Hop], first: int, middle: int, second: int) -> Hop:
    one, other = (it if it < web.size else it - web.size for it in (first, second))
    if middle >= 0:
        kind, cell = web.between[middle]
        return _told(web, kind, one, other, cell)
    # Of a graph of snapshots `rw` goes from a snapshot to a commit, and the others the other way.
    fit = ("rw",) if second >= web.size else tuple(it for it in kinds if it != "rw") if first >= web.size else kinds
    for kind in fit:
        if other in web.links[kind].get(one, ()):
            return _told(web, kind, one, other, web.cells.get((kind, one, other), ()))
    return more[first, second]


def told_of(web: Web, hops: Sequence[Hop]) -> list[str]:
    """A line for each link of a cycle."""
    return [f"  {web.nodes[it.first].number} before {web.nodes[it.second].number}: {it.told}" for it in hops]


def _told(web: Web, kind: str, one: int, other: int, cell: Cell) -> Hop:
    a, b = web.nodes[one].number, web.nodes[other].number
    if kind == "time":
        return Hop(kind, one, other, (), f"{a} ended before {b} began")
    if kind == "ww":
        return Hop(kind, one, other, cell, _versions(web, one, other, cell))
    if kind == "wr":
        read = _read(web, other, cell, lambda it: one in it.seen)
        return Hop(kind, one, other, read.cell, f"{read.done} of {b} sees {_step(web, one, read, True)} of {a}")
    read = _read(web, one, cell, lambda it: other in web.writers[it.cell] and _misses(web, it, other))
    more = ", and both change it" * (kind == "conflict")
    return Hop(kind, one, other, read.cell, f"{read.done} of {a} does not see {_step(web, other, read, False)} of {b}{more}")


def _read(web: Web, at: int, cell: Cell, fits: Callable[[Read], bool]) -> Read:
    return next(it for it in web.by_node[at] if cell in ((), it.cell) and fits(it))


def _misses(web: Web, read: Read, other: int) -> bool:
    """Whether a read has not seen a transaction, or of a list not all that it appended."""
    left = web.nodes[other].left[read.cell] if read.cell[0] == "list" else ()
    return other not in read.seen or any(value not in read.value for value, _ in left)


def _step(web: Web, at: int, read: Read, sees: bool) -> Done:
    """The operation of a transaction that a read has seen, or has not."""
    if read.cell[0] == "list":
        return next(step for value, step in web.nodes[at].left[read.cell][::-1 if sees else 1] if (value in read.value) == sees)
    return web.nodes[at].step_on(read.cell)


def _versions(web: Web, one: int, other: int, cell: Cell) -> str:
    longest = max((it for it in web.reads[cell] if it.at in web.counts), key=lambda it: len(it.value))
    mine, theirs = (dict(web.nodes[at].left[cell]) for at in (one, other))
    a, b, by = web.nodes[one].number, web.nodes[other].number, f"{longest.done} of {web.nodes[longest.at].number}"
    for value, after in zip(longest.value, longest.value[1:]):
        if value in mine and after in theirs:
            return f"{by} has {mine[value]} of {a} before {theirs[after]} of {b}"
    step = next(step for value, step in theirs.items() if value not in longest.value)
    return f"{by} sees {mine[longest.value[-1]]} of {a} and not {step} of {b}"
