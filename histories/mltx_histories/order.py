"""Looks for an order of committed transactions in which each would be answered what it was answered.

What replies tell of themselves is read first, and has a cycle if it contradicts itself. A search then places one transaction
after another. Where it fails soon, sums whose transactions are not known give more links: they have a cycle, or there is a
reply that no order gives, or they help a second search."""
import time
from collections import defaultdict
from collections.abc import Iterable, Iterator, Sequence
from dataclasses import dataclass, replace
from itertools import islice
from math import inf

from .cycles import reached, sorted_out, turned
from .guides import guided
from .infer import MOST_TOLD, Web
from .model import BIG, Cell, Done, Need, Transaction, answer
from .reasons import Hop, cycle_in, told_of
from .search import Search, placed, ranked, whole
from .unswept import unswept
from .versions import MOST_NODES, Saturation, bits_of

# A need is not looked at where more transactions than this may come before or after it, or lead to more values.
MOST_UNDECIDED, MOST_SUMS = 24, 5_000
# How many states are tried for each transaction before sums are looked at.
FIRST_TRIES = 3
# So many of the nearest transactions are tried on the other side of a need.
MOST_MOVED = 200
SERIAL, TIMED = ("ww", "wr", "rw"), ("ww", "wr", "rw", "time")


def _sums(changes: Iterable[int]) -> set[int]:
    """What any of these come to together."""
    found = {0}
    for change in changes:
        found |= {it + change for it in found}
        if len(found) > MOST_SUMS:
            break
    return found


@dataclass(frozen=True)
class Want:
    """What an operation of a transaction needs of a cell, what those before it add there, and what the undecided ones may add."""

    at: int
    need: Need
    done: Done
    start: int
    sums: set[int]

    def is_met(self, more: int = 0) -> bool:
        return any(self.need.holds(self.start + more + it) for it in self.sums)


class Graph:
    """The links of a web, and those that sums make: each is needed where all others hold. `before` has of each node, as bits, the
    transactions that must come before it, and `after` those behind it."""

    def __init__(self, web: Web, links: list[list[int]], more: dict[tuple[int, int], Hop], kinds: Sequence[str]) -> None:
        self.web, self.nodes, self.links, self.more, self.kinds = web, web.nodes, links, more, kinds
        self.bits = [1 << at if at < len(web.nodes) else 0 for at in range(web.size)]
        self.before, self.after = list[int](), list[int]()
        # By cell the transactions that change it, and those of which the changes were last summed up, with the sum.
        self.writers: defaultdict[Cell, int] = defaultdict(int)
        self.summed: dict[Cell, tuple[int, int]] = {}
        for cell, writers in web.writers.items():
            self.writers[cell] = sum(1 << at for at in writers)

    def fault(self, until: float) -> "Outcome | None":
        """Why there is no order, if that is found; else the graph has all links that were found."""
        while time.monotonic() < until and self.web.size <= MOST_NODES:
            if hops := self._cycle():
                return cyclic(self.web, hops)
            self.before, self.after = reached(turned(self.links), self.bits), reached(self.links, self.bits)
            known = len(self.more)
            sure = [at for at, node in enumerate(self.nodes) if node.one.ending == "commit"]
            unmet = [want for at in sure for want in self._unmet(at)]
            if unmet:
                hops = self._cycle()
                return cyclic(self.web, hops) if hops else Outcome(False, told=self._strange(unmet[0]))
            if len(self.more) == known:
                break
        return None

    def _cycle(self) -> list[Hop]:
        return cycle_in(self.web, self.links, self.kinds, self.more) if len(sorted_out(self.links)) < len(self.links) else []

    def _unmet(self, at: int) -> Iterator[Want]:
        """Adds the links that the replies of a transaction make. What can't be met comes back, where no link tells why."""
        for need, own, done in self.nodes[at].needs:
            writers = self.writers[need.cell] & ~(1 << at)
            free = writers & ~self.before[at] & ~self.after[at]
            if free.bit_count() > MOST_UNDECIDED:
                continue
            start = own + self._sum(need.cell, writers & self.before[at])
            changes = {other: self.nodes[other].changes[need.cell] for other in bits_of(free)}
            least, most = (start + sum(it for it in changes.values() if (it < 0) == less) for less in (True, False))
            if need.low <= least and most <= need.high or len(sums := _sums(changes.values())) > MOST_SUMS:
                continue
            want = Want(at, need, done, start, sums)
            if not want.is_met():
                yield from () if self._moves(want) else (want,)
                return
            for other, change in changes.items():
                rest = replace(want, sums=_sums(it for number, it in changes.items() if number != other))
                if not rest.is_met():
                    self._add(want, other, True)
                elif not rest.is_met(change):
                    self._add(want, other, False)

    def _sum(self, cell: Cell, mask: int) -> int:
        """What transactions add to a cell, got from the last sum."""
        last, total = self.summed.get(cell, (0, 0))
        for at in bits_of(last ^ mask):
            total += self.nodes[at].changes[cell] * (1 if mask >> at & 1 else -1)
        self.summed[cell] = mask, total
        return total

    def _add(self, want: Want, other: int, sees: bool) -> None:
        """Adds that an operation sees what another transaction does to the cell, or does not see it."""
        edge, how = ((other, want.at), "sees") if sees else ((want.at, other), "does not see")
        step, node = self.nodes[other].step_on(want.need.cell), self.nodes[other]
        if edge not in self.more:
            told = f"{want.done} of {self.nodes[want.at].number} {how} {step} of {node.number}"
            self.more[edge] = Hop("wr" if sees else "rw", *edge, want.need.cell, told)
            self.links[edge[0]].append(edge[1])

    def _moves(self, want: Want) -> bool:
        """Whether what can't be met would be if another transaction, one of the nearest, stood on the other side. That link then
        makes a cycle."""
        cell, writers = want.need.cell, self.writers[want.need.cell]
        for sees, others in (False, bits_of(self.before[want.at] & writers)), (True, bits_of(self.after[want.at] & writers)):
            for other in islice(reversed([*others]) if sees else others, MOST_MOVED):
                if want.is_met(self.nodes[other].changes[cell] * (1 if sees else -1)):
                    self._add(want, other, sees)
                    return True
        return False

    def _strange(self, want: Want) -> str:
        """What is told of a reply that nothing leads to: what was seen may be aborted, or the part of a transaction."""
        node, cell = self.nodes[want.at], want.need.cell
        told = f"no order: {want.done} of {node.number}"
        parts = [(it, "was aborted", 0) for it in self.web.lost]
        parts += [(it, "did more", it.changes[cell]) for it in self.nodes if it is not node]
        for other, what, counted in parts:
            for step, change in other.steps[cell] if other.one.start <= node.one.end else ():
                if want.is_met(change - counted):
                    return f"{told} sees {step} of {other.number}, which {what}"
        found = sorted({(want.start + it) % BIG for it in want.sums})
        shown = ", ".join(map(str, found[:MOST_TOLD])) + (", .." if found[MOST_TOLD:] else "")
        return f"{told} is a reply that no order gives: {' '.join(map(str, cell))} can only be {shown}"


@dataclass(frozen=True)
class Outcome:
    """Whether an order was found, None where that is not decided; the order, what is told where there is none, and the links of
    the cycle that shows it, if one does."""

    is_found: bool | None
    order: Sequence[Transaction] = ()
    told: str = ""
    hops: Sequence[Hop] = ()


def cyclic(web: Web, hops: Sequence[Hop]) -> Outcome:
    return Outcome(False, told="\n".join([f"no order: a cycle of {len(hops)} transactions", *told_of(web, hops)]), hops=hops)


@unswept()
def find(transactions: Iterable[Transaction], is_strict: bool, seconds: float, tries: int = FIRST_TRIES) -> Outcome:
    """An order of the committed transactions, within so many seconds. One that keeps real time is looked for first, and before
    sums are looked at, so many states are tried for each transaction."""
    return find_in(Web(transactions), is_strict, seconds, tries)


def find_in(web: Web, is_strict: bool, seconds: float, tries: int = FIRST_TRIES) -> Outcome:
    until = time.monotonic() + seconds
    if web.faults:
        return Outcome(False, told=f"no order: {web.faults[0].told}")
    if not is_strict and (hops := cycle_in(web, web.whole(*SERIAL), SERIAL)):
        return cyclic(web, hops)
    told, has_times = "", any(node.one.end < inf for node in web.nodes)
    outcome = Outcome(None)
    for keeps_time in [True] * has_times + [False] * (not has_times or not is_strict):
        ends = until - seconds / 2 * (keeps_time and not is_strict)
        outcome = _look(web, TIMED if keeps_time else SERIAL, ends, tries)
        if outcome.is_found:
            return outcome
        told = told if outcome.is_found is None else f", and no order keeps real time:\n{outcome.told}"
    return outcome if outcome.told else Outcome(None, told=f"not decided in {seconds:g} seconds{told}{lacking(web)}")


def _look(web: Web, kinds: Sequence[str], until: float, tries: int) -> Outcome:
    """An order that keeps links of these kinds: by a short search, else with the links that sums make."""
    if hops := cycle_in(web, web.whole(*kinds), kinds):
        return cyclic(web, hops)
    saturation = Saturation(web, web.whole(*kinds), False)
    links, more = saturation.links, saturation.more
    search, fault = _search(web, links if "time" in kinds else guided(web, links, 0), until), None
    is_found = search.run(tries * len(web.nodes))
    if not is_found and "time" not in kinds:
        search = _search(web, links, until)
        is_found = search.run(tries * len(web.nodes))
    if not is_found:
        saturation.run(until - (until - time.monotonic()) / 2)
        if hops := cycle_in(web, links, kinds, more):
            return cyclic(web, hops)
        graph = Graph(web, links, more, kinds)
        fault = graph.fault(until)
        if not fault and is_found is None:
            search = _search(web, links, until)
            is_found = search.run()
    if is_found:
        return Outcome(True, [search.steps[at].node.one for at in search.order])
    return fault or (Outcome(None) if is_found is None else Outcome(False, told=why_none(search)))


def _search(web: Web, links: list[list[int]], until: float) -> Search:
    order = ranked(links, [at if at < len(web.nodes) else -1 for at in range(len(links))])
    return Search([whole(at, web.nodes[at]) for at in order if at < len(web.nodes)], links, until)


def why_none(search: Search) -> str:
    """What the transactions that may come behind the longest order would be answered."""
    values, kept, state = defaultdict[Cell, int](int), dict[Cell, list[str]](), (0, 0)
    told = [f"no order: {len(search.order)} transactions can be put in one, and behind them"]
    for at in search.order:
        state = placed(at, *state)
        for cell, change in search.steps[at].changes.items():
            values[cell] += change
        for cell, left in search.steps[at].node.left.items():
            kept[cell] = (kept.get(cell, []) if cell[0] == "list" else []) + [value for value, _ in left]
    for step in islice((it for at, it in enumerate(search.steps) if not _is_placed(at, *state)), MOST_TOLD):
        mine, own = values.copy(), {cell: [*value] for cell, value in kept.items()}
        for it in step.node.one.done:
            reply = it.reply
            if it.effect.seen:
                cell, seen = it.effect.seen
                now = own.get(cell, [])
                reply = f"is [{' '.join(now)}]" if isinstance(seen, tuple) else f"is {now[-1] if now else 'nil'}"
            elif it.effect.left:
                own[it.effect.left[0]] = own.get(it.effect.left[0], []) + [it.effect.left[1]]
            else:
                reply, found = answer(it.asked, lambda cell: mine[cell] % BIG)
                for cell, change in found.changes.items():
                    mine[cell] += change
            if reply != it.reply:
                told.append(f"  {it} of {step.node.number} would be `{reply}`")
                break
    return "\n".join(told)


def _is_placed(at: int, first: int, mask: int) -> bool:
    return at < first or bool(mask >> (at - first) & 1)


def lacking(web: Web) -> str:
    """What would help to decide it."""
    more = "so that its replies don't tell what they saw"
    told = sorted({f"\n  {cell[0]} {cell[1]} has {why}, {more}" for cell, why in web.unclear.items()})
    told = [*told[:3], *["\n  .."] * (len(told) > 3)]
    return "".join(told) + ("" if web.has_times else "\n  it has no times; with them it can be looked for by --strict")
