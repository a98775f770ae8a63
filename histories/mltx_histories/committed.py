"""Whether a history without cycles of `ww` and `wr` is read committed.

What replies don't decide must be what some whole transactions that come before make. The more are before, the more can be made,
so that transactions are placed one after another wherever they can be, until all are, or none can."""
from collections.abc import Iterable, Iterator, Sequence
from itertools import chain, groupby

from .infer import Web
from .model import BIG, Done, Need, Node
from .search import ranked

# So many different sums are tried.
MOST_SUMS = 5_000


class Placing:
    """Places transactions behind those that they have seen for certain. `why` has what can't be placed, if anything."""

    def __init__(self, web: Web) -> None:
        self.web, self.nodes, self.placed = web, web.nodes, set[int]()
        self.why: list[str] = []
        # Whether it is for certain that what isn't found can't be.
        self.is_sure = not any(cell[0] == "list" for cell in web.unclear)

    def run(self) -> bool | None:
        links = self.web.whole("ww", "wr")
        rank = ranked(links, [at if at < len(self.nodes) else -1 for at in range(self.web.size)])
        waits = [0] * len(links)
        for other in chain.from_iterable(links):
            waits[other] += 1
        known = 0
        while rank and known != len(rank):
            known, left = len(rank), list[int]()
            for at in rank:
                if waits[at] or at < len(self.nodes) and self._lacks(at):
                    left.append(at)
                    continue
                self.placed.add(at)
                for other in links[at]:
                    waits[other] -= 1
            rank = left
        stuck = [at for at in rank if at < len(self.nodes) and at in self.web.counts and not waits[at]]
        self.why = [f"  {self._lacks(at)} of {self.nodes[at].number} is made by no committed transactions" for at in stuck[:1]]
        return True if not stuck else False if self.is_sure else None

    def _lacks(self, at: int) -> Done | None:
        """An operation that the placed transactions don't explain, if there is one."""
        node, known = self.nodes[at], self.web.known if at in self.web.counts else ()
        for _, group in groupby(node.needs, key=lambda it: id(it[2])):
            needs = [*group]
            if all(need.low == need.high and (at, need.cell, need.low - own) in known for need, own, _ in needs):
                continue
            others = dict.fromkeys(it for need, _, _ in needs for it in self.web.writers[need.cell] if it in self.placed)
            changes = [tuple(self.nodes[it].changes.get(need.cell, 0) for need, _, _ in needs) for it in others]
            if not self._is_made([(need, own) for need, own, _ in needs], changes):
                return needs[-1][2]
        return next(iter(self._unread(node, at in self.web.counts)), None)

    def _unread(self, node: Node, counts: bool) -> Iterator[Done]:
        """What it reads of registers and nobody left. Of lists it is not known for what doesn't count."""
        for cell, seen, own, done in node.views:
            if cell[0] == "list":
                if not counts:
                    self.is_sure = False
                    yield done
            elif own:
                if seen != node.left[cell][own - 1][0]:
                    yield done
            elif seen is not None:
                writers = (self.nodes[it] for it in self.web.writers[cell] if it in self.placed)
                if not any(it.left[cell][-1][0] == seen for it in writers):
                    yield done

    def _is_made(self, needs: Sequence[tuple[Need, int]], changes: Sequence[tuple[int, ...]]) -> bool:
        """Whether some of these changes lead to values that are all needed."""

        def is_fit(sums: Iterable[int]) -> bool:
            return all(need.holds(own + it) for (need, own), it in zip(needs, sums))

        several = [[it for it in changes if it[-1] >= 0], [it for it in changes if it[-1] <= 0], changes, ()]
        if any(is_fit(map(sum, zip(*some)) if some else [0] * len(needs)) for some in several):
            return True
        found = {(0,) * len(needs)}
        for change in sorted(changes, key=lambda it: abs(it[-1]), reverse=True):
            found |= {tuple(map(int.__add__, it, change)) for it in found}
            if len(found) > MOST_SUMS:
                is_made = all(_is_taken(need, own, [it[at] for it in changes]) for at, (need, own) in enumerate(needs))
                self.is_sure &= is_made
                return is_made
        return any(map(is_fit, found))


def _is_taken(need: Need, own: int, changes: Sequence[int]) -> bool:
    """The same for one need by taking the greatest first, which finds sums of powers of two and others like these."""
    rest = (need.low - own - sum(it for it in changes if it < 0)) % BIG
    for size in sorted((abs(it) for it in changes), reverse=True):
        rest -= size if size <= rest else 0
    return rest == 0
