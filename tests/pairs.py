"""All pairs of operations on one account, counter or set in all small states, and what each second one is told beside
the first.

A transaction holds the first operation, and another asks for the second: it is done or blocked, just as the table of
conflicts says. Then they end in each order. A program with one pair more or less in its table fails. And so does a table of
conflicts that has one pair more or less than the operations want."""
from itertools import product

from harness import Program, each, expect, holds, same, test
from model import CONFLICTS, Base, Cell, Event, Op, locks
from random_work import show, watched_schedule

MOST = 10**18
ACCOUNT = [("open",), ("close",), ("balance",), *(("deposit", n) for n in (0, 1, 5, MOST, 2**64 - 1))]
ACCOUNT += [("withdraw", n) for n in (0, 1, 5, MOST)]
# By name the operations that bring an account, a set or a counter into each state, and the operations of the pairs,
# without its number.
KINDS: dict[str, tuple[list[list[Op]], list[Op]]] = {
    "all-pairs-on-an-account": ([[], [("open",)], *([("open",), ("deposit", n)] for n in (1, 5, MOST - 1, MOST))], ACCOUNT),
    "all-pairs-on-a-set": (
        [[], [("add", 1)], [("add", 2)], [("add", 1), ("add", 2)]],
        [*((name, element) for element in (1, 2) for name in ("add", "remove", "has")), ("size",)],
    ),
    "all-pairs-on-a-counter": (
        [[], [("up", 0)], [("up", 5)]],
        [("up", 0), ("up", 1), ("down", 2**64 - 1), ("down", 6), ("read",)],
    ),
}
# How the two end, by the places of their numbers.
ENDS = [
    [("commit", 1), ("abort", 0), ("undo", 0)],
    [("commit", 1), ("commit", 0)],
    [("abort", 1), ("undo", 1), ("commit", 0)],
    [("abort", 0), ("undo", 0), ("commit", 1)],
]


def pair(first: int, place: int, state: list[Op], held: Op, requested: Op, end: list[tuple[str, int]]) -> list[Event]:
    """The events of a pair on an account, a set or a counter of this number. `first` is the transaction that brings it
    into its state."""

    def on(form: Op) -> Op:
        return (form[0], place, *form[1:])

    made = [("begin",), *(("whole", first, on(form)) for form in state), ("commit", first)]
    both = [("begin",), ("begin",), ("whole", first + 1, on(held)), ("whole", first + 2, on(requested))]
    return [*made, *both, *((name, first + 1 + which) for name, which in end)]


@each(KINDS, seconds=1)
def all_pairs(mltx: Program, case: tuple[list[list[Op]], list[Op]]) -> None:
    """Each reply is the one that the tables give, and who is blocked is blocked by the right one."""
    states, forms = case
    cases = [(state, held, requested, end) for state in states for held in forms for requested in forms for end in ENDS]
    events = [event for place, parts in enumerate(cases) for event in pair(3 * place + 1, place, *parts)]
    ran = mltx.run("steps", "--trace", "trace", "-", given="".join(show(event) + "\n" for event in events))
    expect(ran, out=ran.out)
    watch = watched_schedule(mltx, events, ran.out.decode().splitlines(), low=False)
    holds(watch.sure and not watch.open, "a whole operation waited, or a transaction is open at the end")


def told_in_turn(state: list[Op], operations: list[Op]) -> tuple[list[str], dict[Cell, int]]:
    """What these are told one after another, and all that is held then."""
    base = Base()
    for operation in state:
        base.ask(operation)
    return [base.ask(operation) for operation in operations], base.cells


@test
def conflicts_are_what_operations_want(_mltx: Program) -> None:
    """The model marks a pair of classes exactly where in some small state the two, told the other way round, are told something
    else or leave something else. So of a new operation that has its class and no mark yet, this prints the marks it wants."""
    wanted = {held: "" for held in CONFLICTS}
    for states, forms in KINDS.values():
        on_one = [[(form[0], 1, *form[1:]) for form in group] for group in (*states, forms)]
        for state, held, requested in product(on_one[:-1], on_one[-1], on_one[-1]):
            (reply, later), left = told_in_turn(state, [held, requested])
            if told_in_turn(state, [requested, held]) == ([later, reply], left):
                continue
            first, second = locks(held, reply), locks(requested, later)
            shared = min(first.keys() & second.keys(), default=())
            holds(shared, f"{held} and {requested} have no cell in common, but an order")
            wanted[first[shared]] = wanted.get(first[shared], "") + second[shared]
    for held, marks in wanted.items():
        same("".join(sorted(CONFLICTS.get(held, ""))), "".join(sorted(set(marks))), f"the marks beside a held {held}")
