"""Cycles of a graph, of which each node is a number, and `links[n]` has the nodes behind n.

Strongly connected components are Tarjan's (Depth-first search and linear graph algorithms, 1972), so that whether there is a
cycle is known in linear time. A short cycle is then found in breadth."""
from collections import deque
from collections.abc import Iterable, Sequence

Links = Sequence[Sequence[int]]
# So many links are followed at most for a shorter cycle than the first one, for each component and in all.
MOST_FOLLOWED = 400_000


def components(links: Links) -> list[list[int]]:
    """Those of more than one node: each has a cycle, and each cycle is in one."""
    found: list[list[int]] = []
    index, low, stack = [0] * len(links), [0] * len(links), list[int]()
    count = 0
    for root in range(len(links)):
        if index[root]:
            continue
        count += 1
        index[root] = low[root] = count
        stack.append(root)
        calls = [(root, iter(links[root]))]
        while calls:
            at, rest = calls[-1]
            for other in rest:
                if not index[other]:
                    count += 1
                    index[other] = low[other] = count
                    stack.append(other)
                    calls.append((other, iter(links[other])))
                    break
                if low[other] > 0 and index[other] < low[at]:
                    low[at] = index[other]
            else:
                calls.pop()
                if calls and low[at] < low[calls[-1][0]]:
                    low[calls[-1][0]] = low[at]
                if low[at] == index[at]:
                    part = [stack.pop()]
                    while part[-1] != at:
                        part.append(stack.pop())
                    for it in part:
                        # It is in no later component.
                        low[it] = 0
                    if len(part) > 1:
                        found.append(part)
    return found


def shortest(links: Links, parts: Iterable[Sequence[int]], whose: Sequence[int]) -> list[int]:
    """A cycle with few transactions in these components, where `whose` has the transaction of each node, or -1. It may not be the
    shortest of all if the graph is large."""
    best: list[int] = []
    size, left = len(links), MOST_FOLLOWED
    for part in sorted(parts, key=len):
        inside = set(part)
        for start in sorted(it for it in part if whose[it] >= 0):
            path, most, followed = _around(links, inside, whose, start, size)
            left -= followed
            if path and (most < size or not best):
                best, size = path, most
            if left < 0 and best:
                return best
    return best


def _around(links: Links, inside: set[int], whose: Sequence[int], start: int, most: int) -> tuple[list[int], int, int]:
    """The shortest way from a node to itself of fewer than so many transactions, their number, and how many links were
    followed."""
    last, far, queue, followed = {start: start}, {start: 0}, deque([start]), 0
    done = set[int]()
    while queue:
        at = queue.popleft()
        if at in done:
            continue
        done.add(at)
        if far[at] + 1 >= most:
            break
        for other in links[at]:
            followed += 1
            if other == start:
                path = [at]
                while path[-1] != start:
                    path.append(last[path[-1]])
                return path[::-1], far[at] + 1, followed
            if other not in inside or other in done:
                continue
            cost = whose[other] >= 0 and whose[other] != whose[at]
            if other not in far or far[at] + cost < far[other]:
                far[other], last[other] = far[at] + cost, at
                if cost:
                    queue.append(other)
                else:
                    queue.appendleft(other)
    return [], most, followed


def sorted_out(links: Links) -> list[int]:
    """The nodes, each before those behind it; those in cycles and behind them are left out."""
    waits = [0] * len(links)
    for behind in links:
        for other in behind:
            waits[other] += 1
    order = [at for at, count in enumerate(waits) if not count]
    for at in order:
        for other in links[at]:
            waits[other] -= 1
            if not waits[other]:
                order.append(other)
    return order


def reached(links: Links, bits: Sequence[int]) -> list[int]:
    """For each node of a graph without cycles the bits of all that are behind it."""
    found = [0] * len(links)
    for at in reversed(sorted_out(links)):
        mask = 0
        for other in links[at]:
            mask |= found[other] | bits[other]
        found[at] = mask
    return found


def turned(links: Links) -> list[list[int]]:
    """The graph with each link the other way."""
    found: list[list[int]] = [[] for _ in links]
    for at, behind in enumerate(links):
        for other in behind:
            found[other].append(at)
    return found
