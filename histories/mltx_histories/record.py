"""Runs clients against a system, and records what they are answered."""
import time
from collections import Counter
from collections.abc import Iterable, Iterator, Sequence
from concurrent.futures import ThreadPoolExecutor, wait
from contextlib import ExitStack, closing
from dataclasses import dataclass
from itertools import count
from pathlib import Path

from .faults import Faults, Given
from .plan import IN_USE, Planned, planned
from .systems import Address, Connect, Failed, Lost, Place, RolledBack, Session, named, patiently
from .systems.base import START

# How long a step of a scenario is waited for, in seconds.
STEP = 0.5
# What the operations of a plan that write are answered, each of them always.
WRITING = {"up": "done", "deposit": "done", "withdraw": "done", "add": "added", "write": "done", "append": "done"}


def now() -> int:
    """The time in microseconds, by a clock that is never set."""
    return time.monotonic_ns() // 1_000


class Client:
    """A client that runs transactions step by step, and records them. The number is 0 where none is open."""

    def __init__(self, name: int, connect: Connect, lines: list[str], numbers: Iterator[int]) -> None:
        self.name, self.connect, self.lines, self.numbers, self.number = name, connect, lines, numbers, 0
        self.session: Session | None = connect()

    def step(self, line: str) -> None:
        """Does `begin`, an operation, `commit` or `abort`. What follows a transaction that the system took back is left out.
        If the connection ends, the transaction is aborted, or has no end if its commit was asked for."""
        if line == "begin":
            session = self._connected()
            self.number = next(self.numbers)
            self.lines.append(f"begin {self.number} by {self.name} at {now()}")
        elif not self.number or not self.session:
            return
        else:
            session = self.session
        try:
            order = self._do(session, line)
        except RolledBack:
            line, order = "abort", None
        except Lost:
            self._lose(session, line)
            line, order = ("" if line == "commit" else "abort"), None
        if line in ("commit", "abort"):
            self.lines.append(f"{line} {self.number}{'' if order is None else f' {order}'} at {now()}")
        if line in ("commit", "abort", ""):
            self.number = 0

    def _do(self, session: Session, line: str) -> int | None:
        """The number of the commit, where it is one and the system tells it."""
        if line == "begin":
            session.begin()
        elif line == "abort":
            session.abort()
        elif line == "commit":
            order = session.commit()
            self.lines += [f"op {self.number} {asked} {reply}" for asked, reply in session.late]
            return order
        elif reply := session.ask(line):
            self.lines.append(f"op {self.number} {line} {reply}")
        return None

    def _lose(self, session: Session, line: str) -> None:
        """Drops the connection. Of a transaction that is sent with its commit it is known what it writes, if it has committed."""
        if line == "commit":
            asked = [it for it in session.sent if it.split()[0] in WRITING]
            self.lines += [f"op {self.number} {it} {WRITING[it.split()[0]]}" for it in asked]
        session.close()
        self.session = None

    def _connected(self) -> Session:
        """The session, which is connected again if it was lost."""
        if not self.session:
            self.session = patiently(self.connect, START)
        return self.session

    def run(self, one: Planned) -> None:
        for line in ("begin", *one.asked, one.ending):
            self.step(line)

    def close(self) -> None:
        if self.session:
            self.session.close()


def clients_of(connect: Connect, names: Iterable[int], stack: ExitStack) -> tuple[list[Client], list[str]]:
    """Clients that are connected until the block ends, and the lines that they will record."""
    lines, numbers, clients = list[str](), count(1), list[Client]()
    for name in names:
        clients.append(Client(name, connect, lines, numbers))
        stack.callback(clients[-1].close)
    return clients, lines


@dataclass(frozen=True)
class Wanted:
    """What is recorded: a system with its level and, if it runs already, its address, or the command of a program; what `read`
    reads; how many clients run how many transactions on how many objects at a time; and how often the system is killed."""

    system: str
    level: str = ""
    address: Address | None = None
    command: str = ""
    data: str = "objects"
    clients: int = 8
    transactions: int = 1000
    in_use: int = IN_USE
    seed: int = 1
    kills: int = 0
    killed: Given | None = None

    def head(self) -> str:
        """The comment at the head of the history."""
        kind, level = named(self.system, self.level)
        words = [f"# {kind}", *([f"level {level}"] if level else []), *([f"at {self.address}"] if self.address else []),
                 self.data, f"{self.clients} clients", f"seed {self.seed}", *([f"{self.kills} kills"] if self.kills else [])]
        return ", ".join(words)


def recorded(wanted: Wanted, program: Path) -> str:
    """The history of clients that run the plan, of which a client before them runs the part that fills the system."""
    stack = ExitStack()
    place = Place(program, stack)
    with closing(stack):
        if not wanted.address and (lacks := place.lacks(wanted.system)):
            raise Failed(lacks)
        history = recorded_at(place, wanted)
    return history


def recorded_at(place: Place, wanted: Wanted) -> str:
    """The same, in a place where its servers may run already."""
    before, drawn = planned(wanted.data, wanted.seed, wanted.transactions, wanted.in_use)
    left, done = iter(drawn), count(1)

    def work(client: Client) -> None:
        try:
            for one in left:
                client.run(one)
                faults.progress = next(done)
        except Exception:
            # What fails for one client ends the work of all.
            all(left)
            raise

    with ExitStack() as stack:
        connect = stack.enter_context(
            place.emptied(wanted.system, wanted.address, wanted.command, wanted.level, wanted.data))
        (first, *others), lines = clients_of(connect, range(wanted.clients + 1), stack)
        for one in before:
            first.run(one)
        own = place.servers.get(named(wanted.system, wanted.level)[0])
        faults = stack.enter_context(Faults(wanted.kills, len(drawn), wanted.killed or own))
        with ThreadPoolExecutor(wanted.clients) as pool:
            list(pool.map(work, others))
    return "".join(line + "\n" for line in [wanted.head(), *lines])


def counted(history: str) -> str:
    """How many transactions of a recorded history ended how."""
    ends = Counter(line.partition(" ")[0] for line in history.splitlines())
    unknown = ends["begin"] - ends["commit"] - ends["abort"]
    return f"{ends['commit']} committed, {ends['abort']} rolled back, {unknown} with an end that is not known"


def acted(connect: Connect, setup: Sequence[str], steps: Iterable[str]) -> str:
    """The history of a scenario, before which client 0 runs the setup. Each step has its client before it, and begins once the
    step before has ended, or waits for another client."""
    with ExitStack() as stack:
        clients, lines = clients_of(connect, range(3), stack)
        clients[0].run(Planned(setup))
        pools, asked = [stack.enter_context(ThreadPoolExecutor(1)) for _ in clients], []
        for name, _, line in (step.partition(" ") for step in steps):
            asked.append(pools[int(name)].submit(clients[int(name)].step, line))
            wait(asked[-1:], STEP)
        for it in asked:
            it.result()
    return "".join(line + "\n" for line in lines)
