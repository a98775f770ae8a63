"""Finds links that replies alone don't make, from those that are known already.

If a transaction has read what one writer of a register left, each other writer comes before that one or behind the reader, and if
a known link excludes one of these, the other holds (Tan et al., Cobra, OSDI 2020; Huang et al., PolySI, VLDB 2023). Under
snapshot isolation, of two that change one object one ends before the other begins."""
import time
from collections import defaultdict
from collections.abc import Iterator

from .cycles import reached, sorted_out, turned
from .infer import Read, Web
from .model import Cell
from .reasons import Hop

# Of more nodes the sets of all that are behind each one would take too much memory.
MOST_NODES = 100_000


class Saturation:
    """A graph of a web, to which links are added until no more follow, or there is a cycle. In the graph of snapshots `commit` is
    how many nodes behind its snapshot a commit stands, else it is 0."""

    def __init__(self, web: Web, links: list[list[int]], is_parted: bool) -> None:
        self.web, self.links, self.commit = web, links, web.size if is_parted else 0
        self.more: dict[tuple[int, int], Hop] = {}
        count = len(web.nodes)
        # The bit of a transaction, and that of its commit, which are so many apart.
        self.apart = count if is_parted else 0
        self.bits = [1 << at if at < count else 0 for at in range(web.size)]
        self.bits += [1 << (count + at) for at in range(count)] if is_parted else []
        self.objects: defaultdict[Cell, list[int]] = defaultdict(list)
        for at in web.counts if is_parted else ():
            for cell in web.nodes[at].written:
                self.objects[cell].append(at)
        self.registers: defaultdict[Cell, list[tuple[int, Read]]] = defaultdict(list)
        for reads in web.by_node.values():
            for it in reads:
                if it.cell[0] == "register" and it.seen:
                    self.registers[it.cell].append((min(it.seen), it))

    def run(self, until: float) -> None:
        """Adds links until this time at most."""
        is_needed = any(len(it) > 1 for it in self.objects.values()) or self.registers
        while is_needed and len(self.links) <= MOST_NODES and len(sorted_out(self.links)) == len(self.links):
            if time.monotonic() > until:
                return
            after, before = reached(self.links, self.bits), list[int]()
            if self.registers:
                before = reached(turned(self.links), self.bits)
            known = len(self.more)
            for cell, reads in self.registers.items():
                if time.monotonic() < until:
                    self._order(cell, reads, after, before)
            for cell, writers in self.objects.items():
                if time.monotonic() < until:
                    self._exclude(cell, writers, after)
            if len(self.more) == known:
                return

    def _writers(self, cell: Cell) -> int:
        return sum(1 << at for at in self.web.writers[cell] if at in self.web.counts)

    def _order(self, cell: Cell, reads: list[tuple[int, Read]], after: list[int], before: list[int]) -> None:
        writers, nodes = self._writers(cell), self.web.nodes
        for source, read in reads:
            told = f"{read.done} of {nodes[read.at].number} sees {nodes[source].step_on(cell)} of {nodes[source].number}, and"
            others = writers & ~(1 << source | 1 << read.at)
            later = after[source] >> self.apart & others & ~(after[read.at] >> self.apart)
            for it in bits_of(later):
                what = f"{told} {nodes[it].step_on(cell)} of {nodes[it].number} comes later"
                self._add(Hop("rw", read.at, it, cell, what), read.at, self.commit + it)
            for it in bits_of(before[read.at] >> self.apart & others):
                if not after[self.commit + it] >> source & 1:
                    what = f"{told} {nodes[it].step_on(cell)} of {nodes[it].number} came before"
                    self._add(Hop("must", it, source, cell, what), self.commit + it, source)

    def _exclude(self, cell: Cell, writers: list[int], after: list[int]) -> None:
        nodes, all_of_them = self.web.nodes, sum(1 << at for at in writers)
        inner = ("balance", *cell[1:]) if cell[0] == "account" else cell
        for one in writers if len(writers) > 1 else ():
            later = after[one] >> self.apart & all_of_them & ~(1 << one) & ~after[self.commit + one]
            for it in bits_of(later):
                members = [nodes[one], nodes[it]]
                steps = [f"{at.step_on(inner if inner in at.steps else cell)} of {at.number}" for at in members]
                what = f"{steps[0]} and {steps[1]} change one object, and {nodes[it].number} is not first"
                self._add(Hop("conflict", one, it, cell, what), self.commit + one, it)

    def _add(self, hop: Hop, first: int, second: int) -> None:
        if (first, second) not in self.more:
            self.more[first, second] = hop
            self.links[first].append(second)


def bits_of(mask: int) -> Iterator[int]:
    """The bits that are set, the highest first."""
    while mask:
        yield mask.bit_length() - 1
        mask ^= 1 << (mask.bit_length() - 1)
