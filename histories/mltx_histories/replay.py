"""Executes operations, and compares their replies with those of a history. It knows nothing of the search whose orders it judges:
operations have their meaning from docs/LANGUAGE.md here once more."""
from collections import defaultdict
from collections.abc import Iterable, Sequence

from .model import BIG, MOST, Done, Faulty, Transaction


class Database:
    """Accounts, sets, counters, registers and lists, by their names."""

    def __init__(self) -> None:
        self.accounts: dict[str, int] = {}
        self.sets: defaultdict[str, set[str]] = defaultdict(set)
        self.counters: defaultdict[str, int] = defaultdict(int)
        self.registers: dict[str, str] = {}
        self.lists: defaultdict[str, list[str]] = defaultdict(list)

    def of(self, names: Iterable[str]) -> "Database":
        """A copy of the objects of these names."""
        found = Database()
        for name in names:
            if name in self.accounts:
                found.accounts[name] = self.accounts[name]
            if name in self.registers:
                found.registers[name] = self.registers[name]
            if name in self.sets:
                found.sets[name] = set(self.sets[name])
            if name in self.lists:
                found.lists[name] = [*self.lists[name]]
            found.counters[name] = self.counters[name]
        return found

    def reply(self, done: Done) -> str:
        """Executes an operation again."""
        verb, name, *more = done.asked.split()
        value, held = (more or [""])[0], self.accounts.get(name, -1)
        if verb == "open":
            self.accounts.setdefault(name, 0)
            return "opened" if held < 0 else "exists"
        if verb in ("close", "deposit", "withdraw", "balance"):
            return "missing" if held < 0 else self._account(verb, name, held, int(value or 0))
        if verb in ("add", "remove", "has"):
            return self._member(verb, self.sets[name], value)
        if verb == "size":
            return f"is {len(self.sets[name])}"
        if verb in ("up", "down"):
            self.counters[name] = (self.counters[name] + (int(value) if verb == "up" else -int(value))) % BIG
        elif verb == "write":
            self.registers[name] = value
        elif verb == "append":
            self.lists[name].append(value)
        else:
            return self._read(name, done)
        return "done"

    def _account(self, verb: str, name: str, held: int, coins: int) -> str:
        if verb == "balance":
            return f"is {held}"
        if verb == "close":
            if held:
                return "notempty"
            del self.accounts[name]
            return "closed"
        if verb == "deposit" and held + coins > MOST:
            return "over"
        if verb == "withdraw" and held < coins:
            return "short"
        self.accounts[name] = held + coins if verb == "deposit" else held - coins
        return "done"

    def _member(self, verb: str, members: set[str], element: str) -> str:
        is_in = element in members
        if verb == "add":
            members.add(element)
            return "present" if is_in else "added"
        if verb == "remove":
            members.discard(element)
            return "removed" if is_in else "absent"
        return "yes" if is_in else "no"

    def _read(self, name: str, done: Done) -> str:
        kind = done.effect.seen[0][0] if done.effect.seen else "counter"
        if kind == "register":
            return f"is {self.registers.get(name, 'nil')}"
        if kind == "list":
            found = self.lists[name]
            return done.reply if done.reply == "is nil" and not found else f"is [{' '.join(found)}]"
        return f"is {self.counters[name]}"

    def execute(self, one: Transaction) -> None:
        """Raises `Faulty` where a transaction would be answered something else."""
        for it in one.done:
            reply = self.reply(it)
            if reply != it.reply:
                raise Faulty(f"the order that was found is wrong: {it} of {one.number} would be `{reply}`")


def has_values(transactions: Iterable[Transaction]) -> bool:
    """Whether there are registers or lists, of which servers of this project know nothing."""
    return any(it.effect.seen or it.effect.left for one in transactions for it in one.done)


def replay(order: Sequence[Transaction]) -> None:
    """Executes transactions one after another."""
    database = Database()
    for one in order:
        database.execute(one)


def replay_snapshots(events: Sequence[tuple[Transaction, bool]]) -> None:
    """Executes transactions under snapshot isolation. An event takes a snapshot, or commits. Raises `Faulty` where a reply is
    another one, or two transactions change one object beside each other."""
    database, began, changed = Database(), dict[int, int](), dict[tuple[str | int, ...], int]()
    for now, (one, is_commit) in enumerate(events, 1):
        if not is_commit:
            began[one.number] = now
            database.of({it.asked.split()[1] for it in one.done}).execute(one)
            continue
        for it in one.done:
            for written in it.effect.written():
                if began[one.number] < changed.get(written, 0) < now:
                    raise Faulty(f"the snapshots that were found are wrong: {it} of {one.number} overwrites another")
                changed[written] = now
            if it.effect.written():
                database.reply(it)
