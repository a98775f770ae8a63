"""A search that places one step after another, each where all it needs holds.

What steps leave depends on which are placed, and only for registers and lists on their order too, so that no state is tried
twice."""
import heapq
import time
from bisect import bisect_left, insort
from collections import Counter, defaultdict
from collections.abc import Iterator, Sequence
from itertools import chain
from math import inf

from .cycles import Links
from .model import BIG, Cell, Need, Node, Seen


# What registers and lists have at first.
NOTHING: dict[str | int, Seen] = {"register": None, "list": ()}


class Step:
    """What is placed: a transaction, its snapshot or its commit. `at` is its node in the graph."""

    def __init__(self, at: int, node: Node, needs: Sequence[tuple[Need, int]], changes: dict[Cell, int], is_wanted: bool) -> None:
        self.at, self.node, self.needs, self.changes, self.is_wanted = at, node, needs, changes, is_wanted
        # What registers and lists have at first, and what is written to them; whether nothing can explain the replies.
        self.views: dict[Cell, Seen] = {}
        self.left: dict[Cell, Seen] = {}
        self.is_broken = False

    def look(self) -> None:
        """Takes what the transaction needs of registers and lists."""
        for cell, seen, own, _ in self.node.views:
            mine = [value for value, _ in self.node.left[cell]][:own] if own else []
            if isinstance(seen, tuple):
                self.is_broken |= list(seen[len(seen) - own:]) != mine
                self.is_broken |= self.views.setdefault(cell, seen[:len(seen) - own]) != seen[:len(seen) - own]
            elif own:
                self.is_broken |= seen != mine[-1]
            else:
                self.is_broken |= self.views.setdefault(cell, seen) != seen

    def leave(self) -> None:
        """Takes what the transaction leaves in them."""
        for cell, left in self.node.left.items():
            self.left[cell] = left[-1][0] if cell[0] == "register" else tuple(value for value, _ in left)


def whole(at: int, node: Node) -> Step:
    """All of a transaction at once."""
    step = Step(at, node, [(need, own) for need, own, _ in node.needs], node.changes, node.one.ending == "commit")
    step.look()
    step.leave()
    return step


def parts(at: int, node: Node, size: int) -> list[Step]:
    """A snapshot and a commit. Between these no other has an object that both change, since a lock is held."""
    locks: dict[Cell, int] = {("lock", *cell): 1 for cell in node.written}
    needs = [(need, own) for need, own, _ in node.needs] + [(Need(lock, 0, 0), 0) for lock in locks]
    first = Step(at, node, needs, locks, node.one.ending == "commit")
    first.look()
    if not locks:
        return [first]
    last = Step(size + at, node, (), {**node.changes, **{lock: -1 for lock in locks}}, first.is_wanted)
    last.leave()
    return [first, last]


def ranked(links: Links, rank: Sequence[float]) -> list[int]:
    """The nodes of a graph without cycles, each before those behind it, and by their ranks where that is free."""
    waits = [0] * len(links)
    for other in chain.from_iterable(links):
        waits[other] += 1
    heap = [(rank[at], at) for at, count in enumerate(waits) if not count]
    heapq.heapify(heap)
    found = []
    while heap:
        _, at = heapq.heappop(heap)
        found.append(at)
        for other in links[at]:
            waits[other] -= 1
            if not waits[other]:
                heapq.heappush(heap, (rank[other], other))
    return found


class Search:
    """Looks for an order of all wanted steps that keeps the links, in which steps stand as they are given where that is free. A
    state is the first step that is not placed, bits of those placed from it on, and a mark of what registers and lists have."""

    def __init__(self, steps: Sequence[Step], links: Links, until: float) -> None:
        self.steps, self.links, self.until = steps, links, until
        self.values: defaultdict[Cell, int] = defaultdict(int)
        self.kept: dict[Cell, Seen] = {}
        self.mark, self.place = 0, {step.at: at for at, step in enumerate(steps)}
        # The longest order that was found.
        self.order: list[int] = []
        # By register and value how many steps that are not placed have to read it, and how many may write it.
        self.readers, self.sources = Counter[tuple[Cell, Seen]](), Counter[tuple[Cell, Seen]]()
        for step in steps:
            self._count(step, 1)
        self.waits = [0] * len(links)
        for other in chain.from_iterable(links):
            self.waits[other] += 1
        nobody = [at for at, count in enumerate(self.waits) if not count]
        # The places of those that wait for nothing.
        self.ready = sorted(self.place[at] for at in nobody if at in self.place)
        self.undone: list[list[tuple[Cell, Seen]]] = []
        for at in nobody:
            if at not in self.place:
                self._free(at)

    def run(self, tries: float = inf) -> bool | None:
        """Whether there is one; None where time is over, or so many states were tried, before that is known."""
        missing = sum(step.is_wanted for step in self.steps)
        if any(step.is_wanted and step.is_broken for step in self.steps):
            return False
        order: list[int] = []
        states, seen = [(0, 0)], set[tuple[int, int, int]]()
        choices = [self._choices()]
        while missing:
            if len(seen) > tries or time.monotonic() > self.until:
                return None
            at = next((at for at in choices[-1] if self._may_run(self.steps[at])), None)
            if at is None:
                self.order = order.copy() if len(order) > len(self.order) else self.order
                if not order:
                    return False
                last = order.pop()
                self._take_back(last)
                missing += self.steps[last].is_wanted
                states.pop()
                choices.pop()
                continue
            self._put(at)
            state = placed(at, *states[-1])
            if (*state, self.mark) in seen:
                self._take_back(at)
                continue
            seen.add((*state, self.mark))
            order.append(at)
            missing -= self.steps[at].is_wanted
            states.append(state)
            choices.append(self._choices())
        self.order = order
        return True

    def _choices(self) -> Iterator[int]:
        """Those that wait for nothing. The list is the same again whenever this goes on."""
        at = 0
        while at < len(self.ready):
            yield self.ready[at]
            at += 1

    def _count(self, step: Step, times: int) -> None:
        for counter, pairs in (self.readers, step.views if step.is_wanted else {}), (self.sources, step.left):
            for cell, value in pairs.items():
                if cell[0] == "register":
                    counter[cell, value] += times

    def _buries(self, step: Step) -> bool:
        """Whether it overwrites what another one has still to read, and nobody writes again."""
        for cell in step.left if self.readers else ():
            now = (cell, self.kept.get(cell))
            if cell[0] == "register" and self.readers[now] > (step.views.get(cell, 0) == now[1]) and not self.sources[now]:
                return True
        return False

    def _may_run(self, step: Step) -> bool:
        return (not step.is_broken and not self._buries(step)
                and all(need.low <= (self.values[need.cell] + own) % BIG <= need.high for need, own in step.needs)
                and all((self.kept.get(cell) or NOTHING[cell[0]]) == seen for cell, seen in step.views.items()))

    def _put(self, at: int) -> None:
        step, before = self.steps[at], list[tuple[Cell, Seen]]()
        self._count(step, -1)
        del self.ready[bisect_left(self.ready, at)]
        for cell, change in step.changes.items():
            self.values[cell] += change
        for cell, left in step.left.items():
            old = self.kept.get(cell)
            before.append((cell, old))
            self._keep(cell, (old or ()) + left if isinstance(left, tuple) and not isinstance(old, str) else left)
        self.undone.append(before)
        self._free(step.at)

    def _take_back(self, at: int) -> None:
        step = self.steps[at]
        self._bind(step.at)
        for cell, old in self.undone.pop():
            self._keep(cell, old)
        for cell, change in step.changes.items():
            self.values[cell] -= change
        insort(self.ready, at)
        self._count(step, 1)

    def _keep(self, cell: Cell, value: Seen) -> None:
        for it in (self.kept.get(cell), value):
            if it:
                self.mark ^= hash((cell, it)) << 64 ^ hash((it, cell))
        self.kept[cell] = value

    def _free(self, first: int) -> None:
        """A node is placed: those that waited for it alone are ready, or placed too where they are no steps."""
        todo = [first]
        for at in todo:
            for other in self.links[at]:
                self.waits[other] -= 1
                if not self.waits[other]:
                    if other in self.place:
                        insort(self.ready, self.place[other])
                    else:
                        todo.append(other)

    def _bind(self, first: int) -> None:
        todo = [first]
        for at in todo:
            for other in self.links[at]:
                if not self.waits[other]:
                    if other in self.place:
                        del self.ready[bisect_left(self.ready, self.place[other])]
                    else:
                        todo.append(other)
                self.waits[other] += 1


def placed(at: int, first: int, mask: int) -> tuple[int, int]:
    """The state once this one is placed too."""
    mask |= 1 << (at - first)
    ones = (~mask & (mask + 1)).bit_length() - 1
    return first + ones, mask >> ones
