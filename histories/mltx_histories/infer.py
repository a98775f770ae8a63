"""Reads from replies which transactions must come before which, without a search.

Where a value tells which writes it has seen, it makes the dependencies of Adya, Liskov and O'Neil (Generalized Isolation Level
Definitions, ICDE 2000): `wr` from who wrote to who read it, `rw` from who read to who wrote what it did not see, and `ww`
between writers where versions have a known order. Such values are sums of amounts of which each set has another sum, elements
that are added once, values of a register with one writer, and lists (Kingsbury and Alvaro, Elle: Inferring Isolation Anomalies
from Experimental Observations, VLDB 2020). Real time makes `time`. `conflict` is between two that change one object, where
the first did not see the second: under snapshot isolation it must end before the second begins.

A transaction without a known end counts where one that counts has seen it. Sets of links go through nodes of their own, so
that there are about as many as replies: of the reads of a cell each sees what the one before it saw, or two contradict."""
from bisect import bisect_left
from collections import Counter, defaultdict
from collections.abc import Iterable, Mapping, Sequence
from dataclasses import dataclass
from functools import cached_property
from math import inf
from typing import NamedTuple

from .model import BIG, Cell, Done, Node, Transaction, hinted

KINDS = ("ww", "wr", "rw", "time", "conflict")
# Amounts that are no powers of two or alike are told apart where they have at most so many sums; and of so many it is told what
# values there could have been.
MOST_SUMS, MOST_TOLD = 2_000, 8


class Read(NamedTuple):
    """What a transaction read of a cell, the transactions that it saw, and of a list its value."""

    at: int
    cell: Cell
    done: Done
    seen: frozenset[int]
    value: tuple[str, ...] = ()


@dataclass(frozen=True)
class Fault:
    """A reply that no committed transactions explain: the name of the anomaly, what is told, and whose it is."""

    name: str
    told: str
    transactions: tuple[int, ...]


class Amounts:
    """What transactions add to a cell, and which of them a sum has seen."""

    def __init__(self, writers: Sequence[tuple[int, int]]) -> None:
        self.writers = sorted(writers, key=lambda it: -abs(it[1]))
        self.low = sum(change for _, change in writers if change < 0)
        self.span = sum(abs(change) for _, change in writers)
        self.found: dict[tuple[int, int], frozenset[int] | None] = {}
        below = self.span
        self.is_clear = self.span < BIG
        for _, change in self.writers:
            below -= abs(change)
            self.is_clear = self.is_clear and abs(change) > below

    @cached_property
    def sums(self) -> dict[int, frozenset[int] | None]:
        """Each sum with its transactions, or with None where there are several such sets; nothing where that is too much."""
        found: dict[int, frozenset[int] | None] = {0: frozenset()}
        for at, change in self.writers if self.span < BIG else ():
            for value, one in [*found.items()]:
                several = value + change in found and None
                found[value + change] = None if several is None or one is None else one | {at}
            if len(found) > MOST_SUMS:
                return {}
        return found if self.span < BIG else {}

    def sets_of(self, value: int, without: int) -> list[frozenset[int]] | None:
        """The sets of transactions, but for this one, that add up to a value modulo 2^64: one, none, or None if unknown."""
        key = (value, without)
        if key not in self.found:
            self.found[key] = self._seen(value, without)
        found = self.found[key]
        return None if found is None else [] if -1 in found else [found]

    def _seen(self, value: int, without: int) -> frozenset[int] | None:
        nobody = frozenset((-1,))
        rest = (value - self.low) % BIG
        if rest > self.span:
            return nobody
        if not self.is_clear:
            if not self.sums:
                return None
            found = self.sums.get(rest + self.low, nobody)
            return found if found is None or without not in found else nobody
        seen = []
        for at, change in self.writers:
            # What is taken away and not seen counts as if it was there.
            is_taken = rest >= abs(change)
            rest -= abs(change) * is_taken
            if is_taken == (change > 0):
                seen.append(at)
        return nobody if rest or without in seen else frozenset(seen)


class Web:
    """The transactions that may have committed, by their hints, and the links between them, by kind. Numbers from that of the
    transactions on are nodes that stand between others; `between` has their kind and cell."""

    def __init__(self, transactions: Iterable[Transaction]) -> None:
        self.nodes, self.lost = hinted(transactions)
        self.size = len(self.nodes)
        self.links: dict[str, defaultdict[int, list[int]]] = {kind: defaultdict(list) for kind in KINDS}
        self.between: dict[int, tuple[str, Cell]] = {}
        self.cells: dict[tuple[str, int, int], Cell] = {}
        self.faults: list[Fault] = []
        # What was not read from replies, with the reason; and the registers of which the order of writes is not known.
        self.unclear: dict[Cell, str] = {}
        self.reads: defaultdict[Cell, list[Read]] = defaultdict(list)
        self.strange: list[tuple[int, Fault]] = []
        # By transaction and cell the values of which it is known what they saw, without the own part.
        self.known: set[tuple[int, Cell, int]] = set()
        self.writers: defaultdict[Cell, list[int]] = defaultdict(list)
        for at, node in enumerate(self.nodes):
            for cell in (*(cell for cell, change in node.changes.items() if change), *node.left):
                self.writers[cell].append(at)
        self._numbers()
        self._values()
        self.counts = self._counting()
        self.faults += [fault for at, fault in self.strange if at in self.counts]
        self.by_node: defaultdict[int, list[Read]] = defaultdict(list)
        for cell, reads in self.reads.items():
            kept = [it for it in reads if it.at in self.counts]
            for it in kept:
                self.by_node[it.at].append(it)
            writers = [at for at in self.writers[cell] if at in self.counts]
            {"register": self._register, "list": self._list}.get(str(cell[0]), self._number)(cell, kept, writers)
        self._keep_time()

    def _counting(self) -> set[int]:
        """The transactions that are committed, and those that they have seen."""
        seen_by: defaultdict[int, list[frozenset[int]]] = defaultdict(list)
        for it in (it for reads in self.reads.values() for it in reads):
            seen_by[it.at].append(it.seen)
        found = {at for at, node in enumerate(self.nodes) if node.one.ending == "commit"}
        todo = [*found]
        for at in todo if len(found) < len(self.nodes) else ():
            for other in set().union(*seen_by[at]) - found:
                found.add(other)
                todo.append(other)
        return found

    # What replies have seen.

    def _numbers(self) -> None:
        """Those on accounts, sets and counters, of which a reply tells a sum."""
        wanted: defaultdict[Cell, dict[tuple[int, int], tuple[int, Done]]] = defaultdict(dict)
        for at, node in enumerate(self.nodes):
            for need, own, done in node.needs:
                if need.low == need.high:
                    wanted[need.cell].setdefault((at, need.low - own), (own, done))
        sums = {cell: Amounts([(at, self.nodes[at].changes[cell]) for at in self.writers[cell]]) for cell in wanted}
        for cell, asked in wanted.items():
            amounts = sums[cell]
            for (at, value), (own, done) in asked.items():
                sets = amounts.sets_of(value, at)
                if sets is None:
                    self.unclear.setdefault(cell, "amounts of which two sets have one sum")
                elif sets:
                    self.reads[cell].append(Read(at, cell, done, sets[0]))
                    self.known.add((at, cell, value))
                    if cell[0] == "balance":
                        self._look_for_half(self.reads[cell][-1], sums)
                else:
                    self.strange.append((at, self._strange_sum(at, cell, value, own, done, amounts)))

    def _look_for_half(self, read: Read, sums: dict[Cell, Amounts]) -> None:
        """Who sees that another has opened or closed an account sees its balance too."""
        node, cell = self.nodes[read.at], ("account", *read.cell[1:])
        need, own = next((need, own) for need, own, done in node.needs if done is read.done and need.cell == cell)
        sets = sums[cell].sets_of(need.low - own, read.at)
        for it in sets[0] ^ read.seen if sets else ():
            other = self.nodes[it]
            if it in self.writers[cell] and it in self.writers[read.cell]:
                step = other.step_on(cell if it in sets[0] else read.cell) if sets else ""
                told = f"{read.done} of {node.number} sees {step} of {other.number}, which did more"
                self.strange.append((read.at, Fault("G1b (intermediate read)", told, (node.number, other.number))))

    def _strange_sum(self, at: int, cell: Cell, value: int, own: int, done: Done, amounts: Amounts) -> Fault:
        """What is told of a sum that nothing leads to: what was seen may be aborted, or the part of a transaction."""
        node, told = self.nodes[at], f"{done} of {self.nodes[at].number}"
        parts = [("G1a (aborted read)", it, "was aborted", 0) for it in self.lost]
        parts += [("G1b (intermediate read)", self.nodes[it], "did more", self.nodes[it].changes[cell])
                  for it in self.writers[cell] if it != at]
        for name, other, what, counted in parts:
            for step, change in other.steps[cell] if cell in other.steps and other.one.start <= node.one.end else ():
                if amounts.sets_of(value - change + counted, at) != []:
                    return Fault(name, f"{told} sees {step} of {other.number}, which {what}", (node.number, other.number))
        if own and amounts.sets_of(value + own, at) != []:
            return Fault("own write not seen", f"{told} does not see its own {node.steps[cell][0][0]}", (node.number,))
        values = sorted({(own + it) % BIG for it in amounts.sums})
        shown = ", ".join(map(str, values[:MOST_TOLD])) + (", .." if values[MOST_TOLD:] else "")
        can = f": {' '.join(map(str, cell))} can only be {shown}" * bool(values)
        return Fault("impossible read", f"{told} is a reply that no order gives{can}", (node.number,))

    def _values(self) -> None:
        """Those on registers and lists, of which a reply tells values."""
        wrote: defaultdict[Cell, defaultdict[str, list[tuple[int, int]]]] = defaultdict(lambda: defaultdict(list))
        for at, node in enumerate(self.nodes):
            for cell, left in node.left.items():
                for place, (value, _) in enumerate(left):
                    wrote[cell][value].append((at, place))
        # By cell and value its transaction, or -1 where it is not written once. Most reads are of what is.
        once: defaultdict[Cell, defaultdict[str, int]] = defaultdict(lambda: defaultdict(lambda: -1))
        for cell, known in wrote.items():
            once[cell].update((value, found[0][0]) for value, found in known.items() if len(found) == 1)
        lost = {(cell, value): node for node in self.lost for cell, left in node.left.items() for value, _ in left}
        for at, node in enumerate(self.nodes):
            for cell, seen, own, done in node.views:
                mine = {value for value, _ in node.left[cell][:own]} if own else set[str]()
                values = seen if isinstance(seen, tuple) else () if seen is None else (seen,)
                if mine and (cell[0] == "register" or not mine.issubset(values)):
                    value, step = node.left[cell][own - 1]
                    if cell[0] == "list" or seen != value:
                        told = f"{done} of {node.number} does not see its own {step}"
                        self.strange.append((at, Fault("own write not seen", told, (node.number,))))
                    continue
                others = [value for value in values if value not in mine] if mine else values
                found = frozenset(map(once[cell].__getitem__, others))
                is_clear = found.isdisjoint((-1, at)) and len(set(others)) == len(others)
                seen_by = found if is_clear else self._sources(at, cell, done, others, wrote[cell], lost)
                if seen_by is not None:
                    self.reads[cell].append(Read(at, cell, done, seen_by, values))
                    self._look_for_part(self.reads[cell][-1], others, wrote[cell])

    def _sources(self, at: int, cell: Cell, done: Done, values: Iterable[str], wrote: Mapping[str, Sequence[tuple[int, int]]],
                 lost: Mapping[tuple[Cell, str], Node]) -> frozenset[int] | None:
        """The others that wrote what a transaction read, or None where they are not known, or a value has none."""
        counts, told, number = Counter(values), f"{done} of {self.nodes[at].number}", self.nodes[at].number
        sources = {value: [it for it, _ in wrote.get(value, ()) if it != at] for value in counts}
        for value, count in counts.items():
            if not sources[value] and (cell, value) in lost:
                other = lost[cell, value].number
                what = f"{told} sees {value} of {other}, which was aborted"
                self.strange.append((at, Fault("G1a (aborted read)", what, (number, other))))
                return None
            if len(sources[value]) < count:
                self.strange.append((at, Fault("impossible read", f"{told} has {value}, which nobody wrote before", (number,))))
                return None
        if any(len(it if cell[0] == "list" else {*it}) > 1 for it in sources.values()):
            what = "a value that is written twice" if cell[0] == "register" else "an element that is appended twice"
            self.unclear.setdefault(cell, what)
            return None
        return frozenset(found[0] for found in sources.values())

    def _look_for_part(self, read: Read, values: Sequence[str], wrote: Mapping[str, Sequence[tuple[int, int]]]) -> None:
        """The last value that was seen is the last that its transaction wrote."""
        for source, place in [it for it in wrote[values[-1]] if it[0] != read.at][-1:] if values else ():
            left = self.nodes[source].left[read.cell]
            if any(value not in values for value, _ in left[place + 1:]):
                one, other = self.nodes[read.at].number, self.nodes[source].number
                told = f"{read.done} of {one} sees {left[place][1]} of {other}, which did more"
                self.strange.append((read.at, Fault("G1b (intermediate read)", told, (one, other))))

    # Links.

    def link(self, kind: str, first: int, second: int, cell: Cell | None = None) -> None:
        if first != second:
            self.links[kind][first].append(second)
            if cell:
                self.cells.setdefault((kind, first, second), cell)

    def _middle(self, kind: str, cell: Cell, firsts: Iterable[int] = (), seconds: Iterable[int] = ()) -> int:
        """A new node behind some nodes and before others."""
        at, self.size = self.size, self.size + 1
        self.between[at] = (kind, cell)
        for it in firsts:
            self.links[kind][it].append(at)
        self.links[kind][at] += seconds
        return at

    def _unseen(self, read: Read, others: Iterable[int]) -> None:
        """The reader must come before others that it has not seen."""
        changes = (("account", *read.cell[1:]) if read.cell[0] == "balance" else read.cell) in self.nodes[read.at].written
        cell = read.cell if read.cell[0] in ("register", "list") else None
        for other in others:
            self.link("rw", read.at, other, cell)
            if changes:
                self.link("conflict", read.at, other, cell)

    def _number(self, cell: Cell, reads: Sequence[Read], writers: Sequence[int]) -> None:
        sets = sorted({it.seen for it in reads}, key=len)
        own = set(writers)
        if any(not one <= other for one, other in zip(sets, sets[1:])):
            for it in reads:
                for other in it.seen:
                    self.link("wr", other, it.at)
                self._unseen(it, own - it.seen - {it.at})
            return
        place = {seen: at for at, seen in enumerate(sets)}
        # By the first set that has seen them; those that none has seen are the last.
        steps = [seen - before for seen, before in zip(sets, [frozenset(), *sets])] + [frozenset(own.difference(*sets[-1:]))]
        step_of = {it: at for at, step in enumerate(steps) for it in step}
        seen_at, unseen_at = list[int](), list[int]()
        for step in steps[:-1]:
            seen_at.append(self._middle("wr", cell, [*step, *seen_at[-1:]]))
        for step in reversed(steps[1:]):
            unseen_at.append(self._middle("rw", cell, (), [*step, *unseen_at[-1:]]))
        unseen_at.reverse()
        for it in reads:
            at = place[it.seen]
            if it.seen:
                self.links["wr"][seen_at[at]].append(it.at)
            mine = step_of.get(it.at, at)
            self._unseen(it, (other for step in steps[at + 1:mine + 1] for other in step if other != it.at))
            if mine < len(unseen_at):
                self.links["rw"][it.at].append(unseen_at[mine])

    def _register(self, cell: Cell, reads: Sequence[Read], writers: Sequence[int]) -> None:
        """A writer that read the value of another one comes next behind it, or beside others that did so."""
        is_writer, behind = set(writers), defaultdict[frozenset[int], list[int]](list)
        behind[frozenset()] = [*writers]
        for it in reads:
            if it.at in is_writer and it.seen:
                behind[it.seen].append(it.at)
        later = {seen: self._middle("rw", cell, (), dict.fromkeys(found)) for seen, found in behind.items()}
        first: dict[int, Read] = {}
        for it in reads:
            for other in it.seen:
                self.link("wr", other, it.at, cell)
            # Another value than before is a later one: the other way there is a cycle too.
            if first.setdefault(it.at, it).seen != it.seen:
                for other in it.seen:
                    self.link("rw", it.at, other, cell)
            if it.at in is_writer:
                self._unseen(it, dict.fromkeys(behind[it.seen]))
            elif it.seen in later:
                self.links["rw"][it.at].append(later[it.seen])

    def _list(self, cell: Cell, reads: Sequence[Read], writers: Sequence[int]) -> None:
        """All reads are beginnings of the longest. What is in none stands behind it."""
        if not reads:
            return
        longest = max(reads, key=lambda it: len(it.value))
        for it in reads:
            if it.value != longest.value[:len(it.value)]:
                one, other = self.nodes[it.at].number, self.nodes[longest.at].number
                told = f"{it.done} of {one} and {longest.done} of {other} have no common order"
                self.faults.append(Fault("incompatible orders", told, (one, other)))
                return
        whose = {value: at for at in writers for value, _ in self.nodes[at].left[cell]}
        order = [whose[value] for value in longest.value]
        rest = list(dict.fromkeys(whose[value] for value in whose.keys() - set(longest.value)))
        for one, other in zip(order, order[1:]):
            self.link("ww", one, other, cell)
        for other in rest if order else ():
            self.link("ww", order[-1], other, cell)
        end = self._middle("rw", cell, (), rest)
        for it in reads:
            source = next((whose[value] for value in reversed(it.value) if whose[value] != it.at), it.at)
            self.link("wr", source, it.at, cell)
            if len(it.value) < len(order):
                self._unseen(it, [order[len(it.value)]])
            elif it.at in rest:
                self._unseen(it, rest)
            elif rest:
                self.links["rw"][it.at].append(end)

    def _keep_time(self) -> None:
        """Who ended before another began comes before it: by a chain of the ends."""
        ends = sorted((node.one.end, at) for at, node in enumerate(self.nodes) if node.one.end < inf)
        chain: list[int] = []
        for _, at in ends:
            chain.append(self._middle("time", (), [at, *chain[-1:]]))
        for at, node in enumerate(self.nodes):
            before = bisect_left(ends, (node.one.start, -1))
            if before:
                self.links["time"][chain[before - 1]].append(at)

    # Graphs.

    def whole(self, *kinds: str) -> list[list[int]]:
        """The links of these kinds."""
        found: list[list[int]] = [[] for _ in range(self.size)]
        for kind in kinds:
            for at, behind in self.links[kind].items():
                found[at] += behind
        return found

    def parted(self) -> list[list[int]]:
        """The graph of snapshots: a transaction is its snapshot, and so many nodes further its commit. It is seen by who has a
        snapshot behind its commit, and by no other; and of two that change one object, one ends before the other begins
        (Cerone and Gotsman, Analysing Snapshot Isolation, PODC 2016)."""
        count, size = len(self.nodes), self.size
        found: list[list[int]] = [[size + at] if at < count else [] for at in range(size)] + [[] for _ in range(count)]
        for kind in ("ww", "wr", "conflict"):
            for at, behind in self.links[kind].items():
                found[size + at if at < count else at] += behind
        for at, behind in self.links["rw"].items():
            found[at] += [size + it if it < count else it for it in behind]
        return found

    def whose(self) -> list[int]:
        """The transactions of the nodes of both graphs."""
        count = len(self.nodes)
        return [*range(count), *[-1] * (self.size - count), *range(count)]

    @cached_property
    def has_times(self) -> bool:
        """Whether it is known when transactions began and ended."""
        return any(node.one.start > -inf or node.one.end < inf for node in [*self.nodes, *self.lost])
