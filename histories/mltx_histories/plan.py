"""Draws what clients do, so that a value tells which writes were seen.

Each write of an account or of a counter has a decimal digit of its own: a counter has 1 in the digits of those that were seen,
and an account, which has 5 in each at first, 6 where a deposit was seen and 4 where a withdrawal was. The writers of a set add
1, 2 and 4 elements, each element once, so that its size tells which. A register gets each value once, and so does a list each
element. An object has so many writes and no more; then a fresh one takes its place."""
import random
from collections.abc import Iterator, Sequence
from dataclasses import dataclass

# One of so many transactions is aborted by its client.
ABORTS = 10
# How many objects of a kind are in use at a time, and how many writes each takes.
IN_USE = 8
COUNTER_DIGITS, ACCOUNT_DIGITS, SET_WRITERS, VALUE_WRITES = 19, 18, 3, 32
# What is put into an account first: more than all that is withdrawn.
COINS = int("5" * ACCOUNT_DIGITS)
# How many operations a register's or list's transaction has at most, and how many accounts one transaction opens.
MOST_OPERATIONS, OPENED = 4, 16
KINDS = ("objects", "registers", "lists")


@dataclass(frozen=True)
class Planned:
    """A transaction to run: its operations, and `commit` or `abort`."""

    asked: Sequence[str]
    ending: str = "commit"


class Pool:
    """The objects of a kind that are in use, each with the number of its next write. One without a further write is replaced."""

    def __init__(self, source: random.Random, writes: int, in_use: int) -> None:
        self.source, self.writes = source, writes
        self.next = {number: 0 for number in range(in_use)}
        self.count = in_use

    def some(self, count: int) -> list[int]:
        """Different ones of those in use."""
        return self.source.sample(sorted(self.next), min(count, len(self.next)))

    def write(self, number: int, at: int = 0) -> int:
        """The number of the next write of this one, which is at least the given one."""
        found = max(at, self.next[number])
        self.next[number] = found + 1
        if found + 1 >= self.writes:
            del self.next[number]
            self.next[self.count] = 0
            self.count += 1
        return found


class Objects:
    """Transfers, bookings, sums, sizes and counts: what `mltx check` knows."""

    def __init__(self, source: random.Random, in_use: int) -> None:
        self.source = source
        self.accounts, half = Pool(source, ACCOUNT_DIGITS, in_use), max(4, in_use // 2)
        self.counters, self.sets = Pool(source, COUNTER_DIGITS, half), Pool(source, SET_WRITERS, half)

    def drawn(self) -> list[str]:
        return self.source.choice([self._transfer, self._booking, self._sum, self._sizes, self._count, self._two_counts])()

    def _transfer(self) -> list[str]:
        one, other = self.accounts.some(2)
        digit = self.accounts.write(one, self.accounts.next[other])
        coins = 10 ** self.accounts.write(other, digit)
        return [f"balance {one}", f"withdraw {one} {coins}", f"deposit {other} {coins}"]

    def _booking(self) -> list[str]:
        one, other = self.sets.some(2)
        writer = self.sets.write(one)
        added = [f"add {one} {element}" for element in range((1 << writer) - 1, (2 << writer) - 1)]
        return [f"size {other}", f"has {one} {self._element()}", *added]

    def _sum(self) -> list[str]:
        return [f"balance {account}" for account in sorted(self.accounts.next)]

    def _sizes(self) -> list[str]:
        (one, other), (counter,) = self.sets.some(2), self.counters.some(1)
        return [f"size {one}", f"has {other} {self._element()}", f"read {counter}"]

    def _count(self) -> list[str]:
        (counter,) = self.counters.some(1)
        return [f"read {counter}", f"up {counter} {10 ** self.counters.write(counter)}"]

    def _two_counts(self) -> list[str]:
        one, other = self.counters.some(2)
        return [f"read {one}", f"read {other}", f"up {other} {10 ** self.counters.write(other)}"]

    def _element(self) -> int:
        return self.source.randrange((1 << SET_WRITERS) - 1)

    def before(self) -> Iterator[list[str]]:
        """The transactions that fill the accounts that all others use."""
        for first in range(0, self.accounts.count, OPENED):
            some = range(first, min(first + OPENED, self.accounts.count))
            yield [line for it in some for line in (f"open {it}", f"deposit {it} {COINS}")]


class Written:
    """Reads and writes of registers, or reads of lists and appends."""

    def __init__(self, source: random.Random, in_use: int, verb: str) -> None:
        self.source, self.verb, self.pool, self.value = source, verb, Pool(source, VALUE_WRITES, in_use), 0

    def drawn(self) -> list[str]:
        lines: list[str] = []
        for _ in range(self.source.randrange(1, MOST_OPERATIONS + 1)):
            (number,) = self.pool.some(1)
            if self.source.random() < 0.5:
                lines.append(f"read {number}")
                continue
            self.value += 1
            # A register is read before it is written, so that it is known what was overwritten.
            lines += [f"read {number}"] * (self.verb == "write")
            lines.append(f"{self.verb} {number} {self.value}")
            self.pool.write(number)
        return lines

    def before(self) -> Iterator[list[str]]:
        yield from ()


def planned(data: str, seed: int, count: int, in_use: int = IN_USE) -> tuple[list[Planned], list[Planned]]:
    """The transactions that fill the system, and so many that clients take one after another."""
    source = random.Random(f"{seed} of {data}")
    verb = {"registers": "write", "lists": "append"}.get(data, "")
    drawer: Objects | Written = Written(source, in_use, verb) if verb else Objects(source, in_use)
    drawn = [Planned(drawer.drawn(), "commit" if source.randrange(ABORTS) else "abort") for _ in range(count)]
    return [Planned(lines) for lines in drawer.before()], drawn
