"""The operations of a transaction, their numbers and their replies."""

from __future__ import annotations

import enum
from collections.abc import Mapping
from dataclasses import dataclass
from typing import Any, Generic, Optional, TypeVar

from .errors import refusal

Result = TypeVar("Result")
# An operation whose result is of a narrower type can stand for one of a wider type.
Result_co = TypeVar("Result_co", covariant=True)


class Reply(enum.Enum):
    """The reply to an operation: a word, as `Reply("done")`, and what it means where the word does not say it all."""

    OPENED = "opened"
    EXISTS = "exists", "the account was there before"
    CLOSED = "closed"
    NOT_EMPTY = "notempty", "the balance is not 0"
    DONE = "done"
    OVER = "over", "the balance would be above 10^18"
    SHORT = "short", "the balance is too low"
    MISSING = "missing", "there is no such account"
    ADDED = "added"
    PRESENT = "present", "the element was in the set before"
    REMOVED = "removed"
    ABSENT = "absent", "the element is not in the set"
    YES = "yes", "the element is in the set"
    NO = "no", "the element is not in the set"

    meaning: str

    def __new__(cls, word: str, meaning: str = "") -> Reply:
        reply = object.__new__(cls)
        reply._value_ = word
        reply.meaning = meaning
        return reply

    def __str__(self) -> str:
        return str(self.value)


@dataclass(frozen=True)
class Argument:
    """A number of an operation: its name, and the greatest that it may be."""

    name: str
    most: int

    def check(self, value: int) -> None:
        """Raises a TypeError where the value is no whole number, and a ValueError where it is out of its range."""
        if not isinstance(value, int) or isinstance(value, bool):
            raise TypeError(f"{self.name} has to be a whole number, and is {value!r}")
        if not 0 <= value <= self.most:
            raise ValueError(f"{self.name} has to be 0 to {self.most}, and is {value}")


ACCOUNT = Argument("account", 2**32 - 1)
COUNTER = Argument("counter", 2**32 - 1)
SET = Argument("set", 2**16 - 1)
ELEMENT = Argument("element", 2**32 - 1)
AMOUNT = Argument("amount", 2**64 - 1)


@dataclass(frozen=True, eq=False)
class Form(Generic[Result_co]):
    """An operation without its numbers: its word, its arguments, what it does, and the result that each reply means."""

    word: str
    arguments: tuple[Argument, ...]
    does: str
    results: Mapping[Reply, Result_co]
    # Whether its reply can be `is` and a number, which then is the result.
    tells_number: bool = False

    def of(self, *values: int) -> Operation[Result_co]:
        """The operation with these numbers. Raises a TypeError or a ValueError where one is none that it may be."""
        if len(values) != len(self.arguments):
            wanted = ", ".join(argument.name for argument in self.arguments)
            given = "1 number" if len(values) == 1 else f"{len(values)} numbers"
            raise TypeError(f"{self.word} takes {wanted}, and was given {given}")
        for argument, value in zip(self.arguments, values):
            argument.check(value)
        # An integer of some kinds, as an IntEnum, would not be written in digits.
        return Operation(self, " ".join([self.word, *(str(int(value)) for value in values)]))


def _words(*replies: Reply) -> dict[Reply, Reply]:
    return {reply: reply for reply in replies}


_OPEN = Form("open", (ACCOUNT,), "opens an account, with balance 0", _words(Reply.OPENED, Reply.EXISTS))
_CLOSE = Form("close", (ACCOUNT,), "closes an account of balance 0", _words(Reply.CLOSED, Reply.NOT_EMPTY, Reply.MISSING))
_DEPOSIT = Form("deposit", (ACCOUNT, AMOUNT), "puts AMOUNT into the account", _words(Reply.DONE, Reply.OVER, Reply.MISSING))
_WITHDRAW = Form("withdraw", (ACCOUNT, AMOUNT), "takes AMOUNT out of the account", _words(Reply.DONE, Reply.SHORT, Reply.MISSING))
_BALANCE: Form[Optional[int]] = Form("balance", (ACCOUNT,), "tells the balance", {Reply.MISSING: None}, tells_number=True)
_ADD = Form("add", (SET, ELEMENT), "puts the element into the set", _words(Reply.ADDED, Reply.PRESENT))
_REMOVE = Form("remove", (SET, ELEMENT), "takes the element out of the set", _words(Reply.REMOVED, Reply.ABSENT))
_HAS = Form("has", (SET, ELEMENT), "tells whether the element is in the set", {Reply.YES: True, Reply.NO: False})
_SIZE: Form[int] = Form("size", (SET,), "tells how many elements the set has", {}, tells_number=True)
_UP = Form("up", (COUNTER, AMOUNT), "raises the counter by AMOUNT, modulo 2^64", _words(Reply.DONE))
_DOWN = Form("down", (COUNTER, AMOUNT), "lowers the counter by AMOUNT, modulo 2^64", _words(Reply.DONE))
_READ: Form[int] = Form("read", (COUNTER,), "tells the value of the counter", {}, tells_number=True)

_ALL: tuple[Form[Any], ...] = (
    *(_OPEN, _CLOSE, _DEPOSIT, _WITHDRAW, _BALANCE),
    *(_ADD, _REMOVE, _HAS, _SIZE),
    *(_UP, _DOWN, _READ),
)
# The form of each operation by its word.
FORMS: dict[str, Form[Any]] = {form.word: form for form in _ALL}


@dataclass(frozen=True)
class Operation(Generic[Result_co]):
    """An operation that a transaction can be asked for, and its line. Each function below makes one, and raises what
    `Argument.check` raises. The methods of these names, of `Transaction`, ask for it and return its result."""

    form: Form[Result_co]
    line: str

    # Accounts: each is absent, or has a balance of 0 to 10^18.

    @staticmethod
    def open(account: int) -> Operation[Reply]:
        """Opens an account with balance 0: `OPENED`, or `EXISTS` if it is there."""
        return _OPEN.of(account)

    @staticmethod
    def close(account: int) -> Operation[Reply]:
        """Closes an account: `CLOSED`, or `NOT_EMPTY` if its balance is not 0, or `MISSING`."""
        return _CLOSE.of(account)

    @staticmethod
    def deposit(account: int, amount: int) -> Operation[Reply]:
        """Puts an amount into an account: `DONE`, or `OVER` if the balance would be above 10^18, or `MISSING`."""
        return _DEPOSIT.of(account, amount)

    @staticmethod
    def withdraw(account: int, amount: int) -> Operation[Reply]:
        """Takes an amount out of an account: `DONE`, or `SHORT` if the balance is less, or `MISSING`."""
        return _WITHDRAW.of(account, amount)

    @staticmethod
    def balance(account: int) -> Operation[Optional[int]]:
        """The balance of an account, or None if there is none."""
        return _BALANCE.of(account)

    # Sets of elements.

    @staticmethod
    def add(set_number: int, element: int) -> Operation[Reply]:
        """Puts an element into a set: `ADDED`, or `PRESENT` if it is there."""
        return _ADD.of(set_number, element)

    @staticmethod
    def remove(set_number: int, element: int) -> Operation[Reply]:
        """Takes an element out of a set: `REMOVED`, or `ABSENT` if it is not there."""
        return _REMOVE.of(set_number, element)

    @staticmethod
    def has(set_number: int, element: int) -> Operation[bool]:
        """Whether an element is in a set."""
        return _HAS.of(set_number, element)

    @staticmethod
    def size(set_number: int) -> Operation[int]:
        """How many elements a set has. While another transaction adds an element to the set, or removes one, the call waits
        until that transaction has ended."""
        return _SIZE.of(set_number)

    # Counters: each is there, and has a value of 0 to 2^64 - 1, which is 0 at the start.

    @staticmethod
    def up(counter: int, amount: int) -> Operation[Reply]:
        """Raises a counter by an amount, modulo 2^64: `DONE`."""
        return _UP.of(counter, amount)

    @staticmethod
    def down(counter: int, amount: int) -> Operation[Reply]:
        """Lowers a counter by an amount, modulo 2^64: `DONE`."""
        return _DOWN.of(counter, amount)

    @staticmethod
    def read(counter: int) -> Operation[int]:
        """The value of a counter."""
        return _READ.of(counter)

    def result(self, answer: str) -> Result_co:
        """The result that the answer means. Raises `Refused` if it is an error, and `UnexpectedAnswer` if it is no reply."""
        if self.form.tells_number and answer.startswith("is "):
            # A form that tells a number has a `Result` that may be one, which no type says.
            return number_behind("is", answer)  # type: ignore[return-value]
        for reply, result in self.form.results.items():
            if reply.value == answer:
                return result
        raise refusal(answer)


def number_behind(word: str, answer: str) -> int:
    """The number of an answer of this word and a number. Raises what the answer is else."""
    first, _, number = answer.partition(" ")
    if first == word and number.isdecimal():
        return int(number)
    raise refusal(answer)
