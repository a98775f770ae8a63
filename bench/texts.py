"""The texts that benchmarks read: each is a function of its sizes and of random numbers, so that a seed gives it again."""
import itertools
from collections.abc import Iterable
from random import Random
from typing import NamedTuple

# The least power of ten that is more than each amount of a transfer.
MOST_AMOUNT = 10
# How many accounts a script opens, so that it has at most 256 operations.
OPENED_AT_ONCE = 128
CLIENTS = 96


class Scripts(NamedTuple):
    """A text of scripts, and how many operations they ask."""

    text: str
    operations: int


def script(operations: Iterable[str], client: int | str = "") -> str:
    """The text of a script."""
    return "\n".join([f"begin {client}".rstrip(), *operations, "commit\n"])


def opened(accounts: int) -> Scripts:
    """Scripts that open accounts."""
    texts = []
    for first in range(0, accounts, OPENED_AT_ONCE):
        numbers = range(first, min(first + OPENED_AT_ONCE, accounts))
        texts.append(script(line for number in numbers for line in (f"open {number}", f"deposit {number} 99")))
    return Scripts("".join(texts), 2 * accounts)


def transfers(dice: Random, count: int, accounts: int) -> Scripts:
    """Scripts that open accounts, and then move an amount from one to another and look at the balance, so many times."""
    text, operations = opened(accounts)
    moves = []
    for _ in range(count):
        source, target, amount = dice.randrange(accounts), dice.randrange(accounts), dice.randrange(1, MOST_AMOUNT)
        moves.append(script([f"withdraw {source} {amount}", f"deposit {target} {amount}", f"balance {source}"]))
    return Scripts(text + "".join(moves), operations + 3 * count)


def counted(dice: Random, count: int, counters: int) -> Scripts:
    """Scripts of several clients, each of which adds to three counters of so many."""
    clients = itertools.cycle(range(CLIENTS))
    text = "".join(
        script([f"up {dice.randrange(counters)} 1" for _ in range(3)], client) for client in itertools.islice(clients, count)
    )
    return Scripts(text, 3 * count)


def unmet(size: int) -> Scripts:
    """Scripts of about so many bytes, each of which asks one operation. All others stand where they are not met."""
    lines = ["if has 1 1 is yes", *(f"deposit {10_000 + number} 100" for number in range(255)), "end"]
    once = script(lines)
    count = max(size // len(once), 1)
    return Scripts(once * count, count)
