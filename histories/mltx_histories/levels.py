"""Which isolation levels a history keeps, and which anomaly breaks the others.

Read committed is PL-2 of Adya, Liskov and O'Neil (Generalized Isolation Level Definitions, ICDE 2000): no G0, G1a, G1b or G1c.
Additions to one number have no order, as they commute. Snapshot isolation is that of Cerone and Gotsman (Analysing Snapshot
Isolation, PODC 2016): each transaction sees those that committed before its snapshot, and of two that change one object one
commits before the snapshot of the other; real time does not count. An account is one object with its balance, and sizes of
sets are read as predicates. Serializable is an order that explains all replies, strict serializable one that keeps real
time (Herlihy and Wing 1990). Lost update, write skew, read skew and phantom are named as by Berenson et al. (A Critique of ANSI
SQL Isolation Levels, SIGMOD 1995), and the others as in Elle (Kingsbury and Alvaro, VLDB 2020)."""
import time
from collections.abc import Iterable, Sequence
from dataclasses import dataclass, field
from math import inf

from .committed import Placing
from .guides import guided
from .infer import Web
from .model import Transaction
from .order import FIRST_TRIES, Outcome, find_in, lacking
from .reasons import Hop, cycle_in, told_of
from .replay import replay, replay_snapshots
from .search import Search, Step, parts, ranked
from .unswept import unswept
from .versions import Saturation

LEVELS = ("read committed", "snapshot isolation", "serializable", "strict serializable")
COMMITTED, SNAPSHOT, SERIALIZABLE, STRICT = LEVELS
# The links that each level excludes in a cycle.
KINDS = {
    COMMITTED: ("ww", "wr"), SNAPSHOT: ("ww", "wr", "rw", "conflict"), SERIALIZABLE: ("ww", "wr", "rw"),
    STRICT: ("ww", "wr", "rw", "time"),
}


@dataclass(frozen=True)
class Anomaly:
    """What breaks a level: its name, what is told of it, line by line, and the transactions in it."""

    name: str
    told: Sequence[str]
    transactions: Sequence[Transaction]


@dataclass
class Judged:
    """By level whether it holds, None where that is not decided, and the anomaly that breaks it; an order, where one
    was found; and what would help to decide the others."""

    verdicts: dict[str, bool | None] = field(default_factory=lambda: dict.fromkeys(LEVELS))
    anomalies: dict[str, Anomaly] = field(default_factory=dict)
    order: Sequence[Transaction] | None = None
    lacks: str = ""

    def holds(self, level: str) -> None:
        """It holds, and those that are weaker do."""
        for it in LEVELS[:LEVELS.index(level) + 1]:
            self.verdicts[it] = True

    def is_broken(self, level: str, anomaly: Anomaly) -> None:
        """It does not, and those that are stronger don't either."""
        for it in LEVELS[LEVELS.index(level):]:
            self.verdicts[it] = False
            self.anomalies.setdefault(it, anomaly)

    def told(self) -> str:
        lines, last = list[str](), None
        for level, verdict in self.verdicts.items():
            anomaly = self.anomalies.get(level)
            if verdict is None:
                lines.append(f"{level}: not decided")
            elif not anomaly or verdict:
                lines.append(f"{level}: holds")
            elif anomaly is last:
                lines.append(f"{level}: broken by the same")
            else:
                lines += [f"{level}: broken by {anomaly.name}", *anomaly.told]
                last = anomaly
        return "\n".join(lines) + self.lacks * (None in self.verdicts.values())


@unswept()
def judge(transactions: Iterable[Transaction], seconds: float) -> Judged:
    """Judges all levels within so many seconds, of which each level that is left has its share."""
    web, judged, until = Web(transactions), Judged(), time.monotonic() + seconds
    judged.lacks = lacking(web)
    if web.faults:
        fault = web.faults[0]
        members = [it.one for it in [*web.nodes, *web.lost] if it.number in fault.transactions]
        judged.is_broken(COMMITTED, Anomaly(fault.name, [f"  {fault.told}"], members))
        return judged
    for level in LEVELS:
        links = web.parted() if level == SNAPSHOT else web.whole(*KINDS[level])
        if hops := cycle_in(web, links, KINDS[level]):
            judged.is_broken(level, _anomaly(web, hops))
            break
    for level, is_strict in ((STRICT, True), (SERIALIZABLE, False)):
        if judged.verdicts[level] is None and (web.has_times or not is_strict):
            outcome = find_in(web, is_strict, (until - time.monotonic()) / 3)
            if outcome.is_found:
                replay(outcome.order)
                judged.order = outcome.order
                judged.holds(level if web.has_times and _keeps_time(outcome.order) or not is_strict else SERIALIZABLE)
            elif outcome.is_found is False:
                judged.is_broken(level, _of_outcome(web, outcome))
    if judged.verdicts[SNAPSHOT] is None:
        _snapshots(web, judged, until)
    if judged.verdicts[COMMITTED] is None:
        placing = Placing(web)
        judged.verdicts[COMMITTED] = placing.run()
        if judged.verdicts[COMMITTED] is False:
            judged.anomalies = {}
            judged.is_broken(COMMITTED, Anomaly("impossible read", placing.why, []))
    return judged


def _keeps_time(order: Sequence[Transaction]) -> bool:
    latest = -inf
    for one in order:
        if one.end < latest:
            return False
        latest = max(latest, one.start)
    return True


def _snapshots(web: Web, judged: Judged, until: float) -> None:
    """Looks for snapshots and commits that explain all replies: by short searches, else with links that follow from
    others."""
    parted, tries = Saturation(web, web.parted(), True), FIRST_TRIES * len(web.nodes)
    steps, is_found = _searched(web, guided(web, parted.links, web.size), until, tries)
    if not is_found:
        steps, is_found = _searched(web, parted.links, until, tries)
    if not is_found:
        parted.run(until - (until - time.monotonic()) / 2)
        if hops := cycle_in(web, parted.links, KINDS[SNAPSHOT], parted.more):
            judged.anomalies = {}
            judged.is_broken(SNAPSHOT, _anomaly(web, hops))
            return
        if is_found is None:
            steps, is_found = _searched(web, parted.links, until)
    if is_found:
        replay_snapshots([(step.node.one, step.at >= web.size) for step in steps])
        judged.holds(SNAPSHOT)
    elif is_found is False:
        judged.anomalies = {}
        judged.is_broken(SNAPSHOT, Anomaly("replies that no snapshots give", [], []))


def _searched(web: Web, links: list[list[int]], until: float, tries: float = inf) -> tuple[list[Step], bool | None]:
    """An order of snapshots and commits, if there is one."""
    nodes = web.nodes
    rank = [-1.0] * len(links)
    for at, node in enumerate(nodes):
        rank[at] = node.one.start if web.has_times and node.one.start > -inf else node.one.begun
        rank[web.size + at] = node.one.end if web.has_times else node.one.line
    place = {at: rank for rank, at in enumerate(ranked(links, rank))}
    steps = sorted((step for at, node in enumerate(nodes) for step in parts(at, node, web.size)), key=lambda it: place[it.at])
    search = Search(steps, links, until)
    is_found = search.run(tries)
    return [steps[at] for at in search.order], is_found


def _anomaly(web: Web, hops: Sequence[Hop]) -> Anomaly:
    members = list(dict.fromkeys(at for it in hops for at in (it.first, it.second)))
    told = [f"  a cycle of {len(members)} transactions", *told_of(web, hops)]
    return Anomaly(name_of(web, hops), told, [web.nodes[at].one for at in members])


def _of_outcome(web: Web, outcome: Outcome) -> Anomaly:
    if outcome.hops:
        return _anomaly(web, outcome.hops)
    return Anomaly("replies that no order gives", [f"  {line}" for line in outcome.told.splitlines()], [])


def name_of(web: Web, hops: Sequence[Hop]) -> str:
    """The name of a cycle, by its links."""
    kinds = [it.kind for it in hops]
    unseen = [it for it in hops if it.kind in ("rw", "conflict")]
    if "time" in kinds:
        return "stale read" if unseen else "a reply ahead of time"
    if set(kinds) == {"ww"}:
        return "G0 (dirty write)"
    if not unseen:
        return "G1c (circular information flow)"
    if any(it.cell[:1] == ("size",) for it in unseen):
        return "phantom"
    cells = {it.cell for it in hops}
    changing = sum(bool(next(iter(cells)) in web.nodes[at].changes or next(iter(cells)) in web.nodes[at].left)
                   for at in {it.first for it in hops}) if len(cells) == 1 else 0
    if "conflict" in kinds or changing > 1 and (len(unseen) > 1 or "wr" not in kinds):
        return "lost update"
    if len(unseen) == 1:
        return "read skew (G-single)"
    is_beside = any(one == other == "rw" for one, other in zip(kinds, [*kinds[1:], kinds[0]]))
    return "write skew (G2-item)" if is_beside else "long fork"
