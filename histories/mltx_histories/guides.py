"""Links that need not hold, but most often do, so that a search along them finds an order soon if there is one."""
from bisect import bisect_left
from collections.abc import Sequence
from math import inf

from .cycles import Links, components
from .infer import Web


def guided(web: Web, links: Links, commit: int) -> list[list[int]]:
    """A graph without cycles with links from ends to later beginnings, by lines where there are no times. Commits stand so many
    nodes behind. Transactions that these links bring into a cycle are left where they are."""
    spans = [(node.one.start, node.one.end) if web.has_times else (node.one.begun, node.one.line) for node in web.nodes]
    found = _chained(links, spans, commit, set())
    whose = web.whose()[:len(links)]
    free = {whose[it] for part in components(found) for it in part if it < len(links)}
    return _chained(links, spans, commit, free) if free else found


def _chained(links: Links, spans: Sequence[tuple[float, float]], commit: int, free: set[int]) -> list[list[int]]:
    found, size = [[*behind] for behind in links], len(links)
    ends = sorted((end, at) for at, (_, end) in enumerate(spans) if end < inf and at not in free)
    for place, (_, at) in enumerate(ends, size):
        found.append([place + 1] if place + 1 < size + len(ends) else [])
        found[commit + at].append(place)
    for at, (start, _) in enumerate(spans):
        before = bisect_left(ends, (start, -1))
        if before and at not in free:
            found[size + before - 1].append(at)
    return found
