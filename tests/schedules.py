"""Schedules: the worked rows of `steps`, what each leaves as its trace, and what the two hash functions make of keys.

A schedule is written as in the rows: `event > line, line`. `step T` with more lines than one stands for so many steps.
Lines without `>` are what is written at the end: the base, and the depth of the directory, where it is not 0."""
import dataclasses
from collections import Counter
from collections.abc import Callable, Iterator

from harness import Program, each, expect, lines, same, test

# The greatest balance of an account.
MOST = 10**18
# The options for each hash function. Without one it is `mult`.
MULT = ((), ("--hash", "mult"))
LOW = (("--hash", "low"),)
EITHER = MULT + LOW


@dataclasses.dataclass(frozen=True)
class Schedule:
    """A schedule with all that is written, and the options for hash functions under which it is."""

    text: str
    options: tuple[tuple[str, ...], ...] = EITHER

    def lines(self) -> list[str]:
        """Its lines, with that of the depth, which is 0 where the text does not say it."""
        found = self.text.strip().splitlines()
        return found if any(line.startswith("depth ") for line in found) else [*found, "depth 0"]

    def told(self) -> list[tuple[str, list[str]]]:
        """Each event with the lines that it is told."""
        parted = [line.split(" > ") for line in self.lines() if ">" in line]
        return [(event, answers.split(", ")) for event, answers in parted]

    def end(self) -> str:
        """The lines of the base, and the one of the depth."""
        return "".join(line + "\n" for line in self.lines() if ">" not in line)

    def events(self, together: bool = True) -> str:
        """The text to be run: `step T N` where steps are together, else a line for each of them."""
        return "".join(_event(event, len(answers), together) for event, answers in self.told())

    def output(self) -> str:
        return "".join(line + "\n" for _, answers in self.told() for line in answers) + self.end()

    def trace(self) -> str:
        history = History()
        for event, answers in self.told():
            for answer in answers:
                history.tell(event, answer)
        return "".join(item + "\n" for item in history.items)

    def checked(self) -> str:
        """What `check` says of the trace: the commits in their order, and the base."""
        commits = [item.split()[1] for item in self.trace().splitlines() if item.startswith("commit")]
        base = [line for line in self.end().splitlines() if not line.startswith("depth")]
        return "".join(line + "\n" for line in [*(f"serial {number}" for number in commits), *base])


def _event(event: str, count: int, together: bool) -> str:
    if count == 1:
        return event + "\n"
    return f"{event} {count}\n" if together else f"{event}\n" * count


class History:
    """The items of a trace, by the table of traces."""

    def __init__(self) -> None:
        self.items, self.pending, self.standing = list[str](), dict[str, str](), Counter[str]()

    def tell(self, event: str, answer: str) -> None:
        """Notes what an event was told."""
        name, number, operation = [*event.split(" ", 2), "", ""][:3]
        word, rest = [*answer.split(" ", 1), ""][:2]
        if name in ("call", "whole") and word != "refused":
            self.pending[number] = operation
        if word == "begun":
            self.items.append(f"begin {rest}")
        elif word == "done":
            self.items.append(f"op {number} {self.pending[number]} {rest}")
            self.standing[number] += 1
        elif word == "committed":
            self.items.append(f"commit {number} {rest}")
        elif word == "undone":
            self._take_back(number, 1)
        elif word == "aborted":
            self._take_back(number, self.standing[number])
            self.items.append(f"abort {number}")

    def _take_back(self, number: str, count: int) -> None:
        self.items += [f"back {number}"] * count
        self.standing[number] -= count


def going(count: int) -> str:
    return ", ".join(["going"] * count)


def begun(*numbers: int) -> str:
    """Transactions of these numbers begin."""
    return "\n".join(f"begin > begun {number}" for number in numbers)


def called(number: int, operation: str, count: int, *end: str) -> str:
    """A transaction calls an operation and makes so many steps, and one more that is told this end, if there is one."""
    return f"call {number} {operation} > called\nstep {number} > {', '.join([*['going'] * count, *end])}"


def undone(number: int) -> str:
    """A transaction is taken back at once."""
    return f"abort {number} > aborting\nundo {number} > aborted"


def made(*accounts: int, holding: int = 0) -> str:
    """Transaction 1 opens the accounts, deposits into them if they are to hold something, and commits."""
    events = ["begin > begun 1"]
    for account in accounts:
        events.append(f"whole 1 open {account} > done opened")
        if holding:
            events.append(f"whole 1 deposit {account} {holding} > done done")
    return "\n".join([*events, "commit 1 > committed 1"])


def empty(*accounts: int) -> str:
    """The lines of a base in which these accounts hold nothing."""
    return "\n".join(f"account {account} 0" for account in accounts)


# Eight accounts in one bucket: their low pseudokeys lead to one half of the directory, or are one and the same.
EIGHT = range(8)
ALIKE = range(0, 8 * 65536, 65536)
# Eight more that are alike, in the other half.
HIGH = range(32768, 8 * 65536, 65536)
# Nine that make one of depth 1: five in its lower half, and four in the other.
PARTED = (*range(5), *range(32768, 32772))
# Seventeen that make a directory of depth 13 by low pseudokeys.
DEEP = (*range(9), *range(1024, 1032))

# Seven elements, and what is told where an eighth splits their bucket.
SEVEN = "\n".join(f"element 32768 {number}" for number in range(7))
SEVEN_ADDED = "\n".join(f"whole 1 add 32768 {number} > done added" for number in range(7))
SIZE_SPLIT = f"""begin > begun 1
{SEVEN_ADDED}
commit 1 > committed 1
begin > begun 2
{called(2, "add 32768 7", 13, "done added")}
whole 2 size 32768 > done is 8"""

# Two deposits on one account, the first of which is taken back after the second.
UNDER_LATER_DEPOSIT = f"""
{made(1)}
{begun(2, 3)}
{called(2, "deposit 1 5", 2)}
{called(3, "deposit 1 7", 2)}
step 2 > going
step 3 > waiting by 2
step 2 > done done
step 3 > going
step 3 > done done
abort 2 > aborting
step 2 > going, going, going, aborted"""

ROWS = {
    "abort-under-later-deposit": Schedule(f"""{UNDER_LATER_DEPOSIT}
commit 3 > committed 2
account 1 7"""),
    "base-of-direct-calls": Schedule(f"""{UNDER_LATER_DEPOSIT}
account 1 0"""),
    # What another one reserved on the same account lasts when a transaction releases its own.
    "reservation-released": Schedule(f"""
{made(1)}
{begun(2, 3)}
call 2 deposit 1 5 > called
call 3 deposit 1 7 > called
cancel 2 > cancelled
abort 2 > aborted
step 3 > going, going, going, done done
commit 3 > committed 2
account 1 7"""),
    "blocked-by-reply": Schedule(f"""
{made(1, holding=5)}
begin > begun 2
whole 2 withdraw 1 3 > done done
begin > begun 3
{called(3, "withdraw 1 4", 3)}
step 3 > blocked by 2
commit 3 > refused 5 Running
{undone(2)}
step 3 > going, going, going, done done
commit 3 > committed 2
begin > begun 4
whole 4 balance 1 > done is 1
account 1 1"""),
    "over-after-undo": Schedule(f"""
{made(1, holding=MOST)}
begin > begun 2
whole 2 withdraw 1 1 > done done
begin > begun 3
whole 3 deposit 1 1 > blocked by 2
{undone(2)}
whole 3 deposit 1 1 > done over
begin > begun 4
whole 4 balance 1 > done is {MOST}
account 1 {MOST}"""),
    "remove-add-remove-undone": Schedule(f"""
begin > begun 1
whole 1 add 4 9 > done added
commit 1 > committed 1
begin > begun 2
whole 2 remove 4 9 > done removed
whole 2 add 4 9 > done added
whole 2 remove 4 9 > done removed
{undone(2)}
begin > begun 3
whole 3 has 4 9 > done yes
element 4 9"""),
    "other-adds-after-undo": Schedule("""
begin > begun 1
whole 1 up 1 1 > done done
whole 1 add 4 9 > done added
abort 1 > aborting
step 1 > going, going, going, undone
begin > begun 2
whole 2 add 4 9 > done added
commit 2 > committed 1
step 1 > going, going, going, aborted
begin > begun 3
whole 3 has 4 9 > done yes
whole 3 read 1 > done is 0
element 4 9"""),
    "split-waits-for-reader": Schedule(f"""
{made(*EIGHT)}
begin > begun 2
{called(2, "balance 3", 1)}
begin > begun 3
{called(3, "open 32768", 3, "waiting by 2")}
step 2 > going, going, done is 0
step 3 > {going(8)}, done opened
{empty(*EIGHT)}
depth 1""", LOW),
    "split-stays-after-abort": Schedule(f"""
{made(*EIGHT)}
begin > begun 2
whole 2 open 32768 > done opened
{undone(2)}
begin > begun 3
whole 3 balance 0 > done is 0
whole 3 balance 7 > done is 0
whole 3 balance 32768 > done missing
{empty(*EIGHT)}
depth 1""", LOW),
    "no-room-at-depth": Schedule(f"""
{made(*ALIKE)}
begin > begun 2
whole 2 open 524288 > refused 2 NoRoom
commit 2 > committed 2
{empty(*ALIKE)}""", LOW),
    "ghost-keeps-room": Schedule(f"""
{made(*ALIKE)}
begin > begun 2
whole 2 open 524288 > refused 2 NoRoom
commit 2 > committed 2
begin > begun 3
whole 3 close 0 > done closed
begin > begun 4
whole 4 open 524288 > refused 2 NoRoom
{undone(3)}
whole 4 balance 0 > done is 0
{empty(*ALIKE)}""", LOW),
    "ghost-of-a-commit-gives-room": Schedule(f"""
{made(*ALIKE)}
begin > begun 2
whole 2 open 524288 > refused 2 NoRoom
commit 2 > committed 2
begin > begun 3
whole 3 close 0 > done closed
begin > begun 4
whole 4 open 524288 > refused 2 NoRoom
commit 3 > committed 3
whole 4 open 524288 > done opened
{empty(*ALIKE[1:])}""", LOW),
    "counter-wraps": Schedule(f"""
begin > begun 1
whole 1 up 2 5 > done done
begin > begun 2
whole 2 up 2 5 > done done
{undone(1)}
commit 2 > committed 1
begin > begun 3
whole 3 read 2 > done is 5
whole 3 down 2 6 > done done
commit 3 > committed 2
begin > begun 4
whole 4 read 2 > done is 18446744073709551615
counter 2 18446744073709551615"""),
    "thirteen-splits": Schedule(f"""
{made(*EIGHT)}
begin > begun 2
whole 2 open 8 > done opened
{empty(*EIGHT)}
depth 13""", LOW),
    "no-room-by-steps": Schedule(f"""
{made(*ALIKE)}
begin > begun 2
{called(2, "open 524288", 5, "refused 2 NoRoom")}
step 2 > refused 6 NotRunning
commit 2 > committed 2
{empty(*ALIKE)}""", LOW),
    "thirteen-splits-by-steps": Schedule(f"""
{made(*EIGHT)}
begin > begun 2
{called(2, "open 8", 116, "done opened")}
{empty(*EIGHT)}
depth 13""", LOW),
    "narrow-split-beside-reader": Schedule(f"""
{made(*DEEP)}
begin > begun 2
{called(2, "balance 40000", 2)}
begin > begun 3
{called(3, "open 1536", 10, "done opened")}
step 2 > going, done missing
{empty(*DEEP)}
depth 13""", LOW),
    "narrow-split-waits-for-its-page": Schedule(f"""
{made(*DEEP)}
begin > begun 2
{called(2, "balance 0", 2)}
begin > begun 3
{called(3, "open 1536", 4, "waiting by 2")}
{empty(*DEEP)}
depth 13""", LOW),
    "over-passes-deposit": Schedule(f"""
{made(1, holding=MOST - 10)}
begin > begun 2
whole 2 deposit 1 11 > done over
begin > begun 3
whole 3 deposit 1 10 > done done
commit 3 > committed 2
commit 2 > committed 3
begin > begun 4
whole 4 balance 1 > done is {MOST}
account 1 {MOST}"""),
    "over-blocks-withdrawal": Schedule(f"""
{made(1, holding=MOST - 10)}
begin > begun 2
whole 2 deposit 1 11 > done over
begin > begun 3
whole 3 withdraw 1 1 > blocked by 2
account 1 {MOST - 10}"""),
    "withdrawals-around-short": Schedule(f"""
{made(1, holding=5)}
begin > begun 2
whole 2 deposit 1 1 > done done
begin > begun 3
whole 3 withdraw 1 7 > done short
whole 3 withdraw 1 6 > blocked by 2
account 1 5"""),
    "short-after-not-empty": Schedule(f"""
{made(1, holding=5)}
begin > begun 2
whole 2 close 1 > done notempty
begin > begun 3
whole 3 deposit 1 3 > done done
begin > begun 4
whole 4 withdraw 1 8 > blocked by 2
account 1 5"""),
    # Each refusal of an event that the limits of the program allow to be seen, with its place in the order of causes.
    "refusals-of-events": Schedule(f"""
{begun(1, 2)}
commit 9 > refused 3 NoSuchTx
step 0 > refused 3 NoSuchTx
whole 18446744073709551615 up 7 1 > refused 3 NoSuchTx
step 1 > refused 6 NotRunning
cancel 1 > refused 6 NotRunning
call 1 up 7 1 > called
call 1 read 7 > refused 5 Running
whole 1 read 7 > refused 5 Running
commit 1 > refused 5 Running
abort 1 > refused 5 Running
undo 1 > refused 6 NotRunning
cancel 1 > cancelled
cancel 1 > refused 6 NotRunning
whole 1 up 7 1 > done done
undo 1 > refused 6 NotRunning
abort 1 > aborting
commit 1 > refused 4 Undoing
call 1 read 7 > refused 4 Undoing
whole 1 read 7 > refused 4 Undoing
abort 1 > refused 4 Undoing
cancel 1 > refused 4 Undoing
undo 1 > aborted
step 1 > refused 3 NoSuchTx
undo 1 > refused 3 NoSuchTx
cancel 1 > refused 3 NoSuchTx
abort 1 > refused 3 NoSuchTx
call 1 read 7 > refused 3 NoSuchTx
abort 2 > aborted
begin > begun 3
commit 3 > committed 1"""),
    # What is refused beside a pending operation leaves it as it was.
    "refused-while-pending": Schedule("""
begin > begun 1
call 1 up 7 1 > called
undo 1 > refused 6 NotRunning
abort 1 > refused 5 Running
whole 1 up 7 1 > refused 5 Running
step 1 > going, going, going, done done
undo 9 > refused 3 NoSuchTx"""),
    # Each step is an event: those after the answer are told that there is nothing to step.
    "steps-after-the-answer": Schedule(f"""
begin > begun 1
{called(1, "up 7 1", 3, "done done", "refused 6 NotRunning", "refused 6 NotRunning")}
abort 1 > aborting
step 1 > going, going, going, aborted, refused 3 NoSuchTx, refused 3 NoSuchTx"""),
    # What changes nothing is taken back in one step, and the last one tells of the abort.
    "inverses-last-to-first": Schedule("""
begin > begun 1
whole 1 read 7 > done is 0
whole 1 up 7 2 > done done
whole 1 has 4 9 > done no
abort 1 > aborting
step 1 > undone
step 1 > going, going, going, undone
step 1 > aborted"""),
    # Eight keys are one, and the ninth is apart from them at the last bit that counts.
    "sixteen-splits": Schedule(f"""
{made(*ALIKE)}
begin > begun 2
whole 2 open 1 > done opened
whole 2 open 524288 > refused 2 NoRoom
commit 2 > committed 2
{empty(0, 1, *ALIKE[1:])}
depth 16""", LOW),
    # Without room at any depth the next pass is narrow where the bucket is at most 8 less deep than the directory: a
    # reader of the header does not stand against it. It is wide where the bucket is less deep: there the reader does.
    "addition-without-room-passes-narrow": Schedule(f"""
{made(*ALIKE)}
begin > begun 2
{called(2, "balance 0", 1)}
begin > begun 3
{called(3, "open 524288", 5, "refused 2 NoRoom")}
step 2 > going, going, done is 0
{empty(*ALIKE)}""", LOW),
    "addition-without-room-passes-wide": Schedule(f"""
{made(*ALIKE, 1, *HIGH)}
begin > begun 2
{called(2, "balance 0", 1)}
begin > begun 3
{called(3, "open 557056", 3, "waiting by 2")}
step 2 > going, going, done is 0
step 3 > going, going, refused 2 NoRoom
{empty(*sorted([*ALIKE, 1, *HIGH]))}
depth 16""", LOW),
    # An addition that would split, and has to wait to do so, is told it and dropped.
    "whole-split-is-told-that-it-waits": Schedule(f"""
{made(*EIGHT)}
begin > begun 2
{called(2, "balance 3", 1)}
begin > begun 3
whole 3 open 32768 > waiting by 2
step 3 > refused 6 NotRunning
step 2 > going, going, done is 0
whole 3 open 32768 > done opened
{empty(*EIGHT)}
depth 1""", LOW),
    # The depth is that of the clean pages: a pass that has written the header and not ended does not count.
    "depth-is-that-of-clean-pages": Schedule(f"""
{made(*EIGHT)}
begin > begun 2
{called(2, "open 32768", 11)}
{empty(*EIGHT)}
depth 0""", LOW),
    # The base leaves out all that is open: several operations of one, an abort that has taken back one of two, and a split.
    "base-without-what-is-open": Schedule(f"""
{made(*EIGHT)}
begin > begun 2
whole 2 deposit 0 9 > done done
whole 2 withdraw 0 4 > done done
whole 2 close 7 > done closed
begin > begun 3
whole 3 deposit 1 5 > done done
whole 3 deposit 1 6 > done done
abort 3 > aborting
step 3 > going, going, going, undone
begin > begun 4
{called(4, "open 32768", 11)}
{empty(*EIGHT)}""", LOW),
    # A wide pass that is dropped gives its pages back, and the next one splits.
    "cancelled-split-leaves-no-depth": Schedule(f"""
{made(*EIGHT)}
begin > begun 2
{called(2, "open 32768", 11)}
cancel 2 > cancelled
whole 2 open 32769 > done opened
commit 2 > committed 2
{empty(*EIGHT, 32769)}
depth 1""", LOW),
    "commits-are-numbered-as-they-come": Schedule(f"""
{begun(1, 2, 3)}
whole 3 up 7 3 > done done
whole 2 add 4 9 > done added
commit 3 > committed 1
{undone(2)}
commit 1 > committed 2
counter 7 3"""),
    # What is committed in one kind of cell is told by rising number, and a counter at 0 is not told. Ten keys, two of sizes
    # among them, have low pseudokeys below 16, which are alike up to the 13th bit.
    "base-in-order": Schedule("""
begin > begun 1
whole 1 up 9 1 > done done
whole 1 up 3 5 > done done
whole 1 up 5 4 > done done
whole 1 down 5 4 > done done
whole 1 add 4 10 > done added
whole 1 add 4 9 > done added
whole 1 add 3 4294967295 > done added
whole 1 add 65535 0 > done added
whole 1 open 4294967295 > done opened
whole 1 open 10 > done opened
whole 1 open 9 > done opened
whole 1 deposit 10 6 > done done
commit 1 > committed 1
account 9 0
account 10 6
account 4294967295 0
element 3 4294967295
element 4 9
element 4 10
element 65535 0
counter 3 5
counter 9 1
depth 13""", LOW),
    # A set's size waits for additions of others, each to its commit.
    "size-waits-for-adds": Schedule(f"""
{begun(1, 2, 3)}
whole 1 add 4 1 > done added
whole 2 add 4 2 > done added
whole 3 size 4 > blocked by 1
commit 1 > committed 1
whole 3 size 4 > blocked by 2
commit 2 > committed 2
whole 3 size 4 > done is 2
commit 3 > committed 3
element 4 1
element 4 2"""),
    # A removal waits for a size that was told, as an addition does; what changes nothing, and what reads, waits for none.
    "size-holds-back-what-changes-it": Schedule(f"""
begin > begun 1
whole 1 add 4 1 > done added
commit 1 > committed 1
begin > begun 2
whole 2 size 4 > done is 1
begin > begun 3
whole 3 size 4 > done is 1
whole 3 add 4 1 > done present
whole 3 remove 4 2 > done absent
whole 3 has 4 1 > done yes
whole 3 size 5 > done is 0
whole 3 add 5 1 > done added
whole 3 add 4 2 > blocked by 2
whole 3 remove 4 1 > blocked by 2
{undone(2)}
whole 3 remove 4 1 > done removed
whole 3 size 4 > done is 0
commit 3 > committed 2
element 5 1"""),
    # The lowest that holds back is told: here an element's, there a size's.
    "lowest-of-element-and-size": Schedule(f"""
{begun(1, 2, 3, 4)}
whole 2 has 4 1 > done no
whole 3 size 4 > done is 0
whole 4 add 4 1 > blocked by 2
whole 4 add 4 2 > blocked by 3
whole 1 size 4 > done is 0
whole 4 add 4 1 > blocked by 1
commit 1 > committed 1
commit 3 > committed 2
whole 4 add 4 1 > blocked by 2
whole 4 add 4 2 > done added
whole 2 size 4 > blocked by 4
commit 4 > committed 3
whole 2 size 4 > done is 1
element 4 2"""),
    # A set of which all is taken back has a size record still, which has 0.
    "sizes-are-taken-back": Schedule("""
begin > begun 1
whole 1 size 4 > done is 0
whole 1 add 4 1 > done added
whole 1 size 4 > done is 1
whole 1 add 4 2 > done added
whole 1 size 4 > done is 2
whole 1 remove 4 1 > done removed
whole 1 size 4 > done is 1
abort 1 > aborting
step 1 > undone
step 1 > going, going, going, undone
step 1 > undone
step 1 > going, going, going, undone
step 1 > undone
step 1 > going, going, going, undone
step 1 > aborted
begin > begun 2
whole 2 size 4 > done is 0
whole 2 add 4 5 > done added
whole 2 size 4 > done is 1
commit 2 > committed 1
element 4 5"""),
    "size-record-stays-at-zero": Schedule(f"""
begin > begun 1
whole 1 add 4 1 > done added
whole 1 remove 4 1 > done removed
commit 1 > committed 1
begin > begun 2
{called(2, "size 4", 3, "done is 0")}
whole 2 size 65535 > done is 0
whole 2 add 4 1 > done added
commit 2 > committed 2
element 4 1"""),
    # Another transaction adds while one takes its own addition back: both count.
    "other-adds-while-one-is-taken-back": Schedule(f"""
{begun(1, 2)}
whole 1 add 4 1 > done added
whole 2 add 4 2 > done added
abort 1 > aborting
step 1 > going, going, going
whole 2 add 4 3 > waiting by 1
step 1 > aborted
whole 2 add 4 3 > done added
commit 2 > committed 1
begin > begun 3
whole 3 size 4 > done is 2
element 4 2
element 4 3"""),
    # By `low` seven accounts, the element and the size of set 0 have one pseudokey: there is room for eight.
    "no-room-for-a-size": Schedule(f"""
{made(*ALIKE[:7])}
begin > begun 2
whole 2 add 0 0 > refused 2 NoRoom
whole 2 has 0 0 > done no
whole 2 size 0 > done is 0
{empty(*ALIKE[:7])}""", LOW),
    "room-for-a-size": Schedule(f"""
{made(*ALIKE[:6])}
begin > begun 2
whole 2 add 0 0 > done added
whole 2 size 0 > done is 1
commit 2 > committed 2
{empty(*ALIKE[:6])}
element 0 0""", LOW),
    # The size record exists, so that the element alone needs room, and has none.
    "no-room-for-an-element-beside-its-size": Schedule(f"""
{made(*ALIKE[:6])}
begin > begun 2
whole 2 add 0 0 > done added
{called(2, "add 0 65536", 5, "refused 2 NoRoom")}
whole 2 size 0 > done is 1
commit 2 > committed 2
{empty(*ALIKE[:6])}
element 0 0""", LOW),
    # The set's own number is the size's low pseudokey, so the split parts it from the elements.
    "size-in-a-split": Schedule(f"""
{SIZE_SPLIT}
{SEVEN}
depth 1""", LOW),
    "size-after-a-split": Schedule(f"""
{SIZE_SPLIT}
{undone(2)}
begin > begun 3
whole 3 size 32768 > done is 7
{SEVEN}
depth 1""", LOW),
    # In two buckets the later one is written in its step, and the earlier one in a step of its own, where it changes. In
    # one bucket both are written in one step.
    "element-and-size-in-two-buckets": Schedule(f"""
{made(*PARTED)}
begin > begun 2
{called(2, "remove 32769 7", 4, "done absent")}
{called(2, "add 40000 60000", 3, "done added")}
{called(2, "add 40000 9", 5, "done added")}
{called(2, "add 40000 9", 4, "done present")}
abort 2 > aborting
step 2 > undone
step 2 > {going(5)}, undone
step 2 > {going(3)}, undone
step 2 > aborted
{empty(*PARTED)}
depth 1""", LOW),
}


@each(ROWS)
def schedule(mltx: Program, row: Schedule) -> None:
    """All that is written is as the row says, from a file and from standard input, and so are the trace and its
    check."""
    file, trace = mltx.file("schedule.txt", row.events()), mltx.folder / "steps.trace"
    for options in row.options:
        what = f"steps {' '.join(options)}"
        expect(mltx.run("steps", *options, "--trace", trace, file), out=row.output(), what=f"{what} FILE")
        same(trace.read_text(), row.trace(), f"the trace of {what}")
        expect(mltx.run("steps", *options, "-", given=row.events(together=False)), out=row.output(), what=f"{what} -")
    expect(mltx.check(trace), out=row.checked(), what="check")


@test
def trace_of_the_abort(mltx: Program) -> None:
    trace = mltx.folder / "abort.trace"
    mltx.run("steps", "-", "--trace", trace, given=ROWS["abort-under-later-deposit"].events())
    wanted = lines(
        "begin 1|op 1 open 1 opened|commit 1 1|begin 2|begin 3|op 2 deposit 1 5 done|op 3 deposit 1 7 done|back 2"
        "|abort 2|commit 3 2"
    )
    same(trace.read_text(), wanted, "the trace")
    expect(mltx.check(trace), out=lines("serial 1|serial 3|account 1 7"), what="check")


def keys_of(count: int) -> list[int]:
    """The numbers of the keys of as many accounts, counters and elements of set 5, and of the size of that set."""
    named = ((1, 0), (2, 0), (3, 5 * 2**32))
    return [*(kind * 2**48 + rest + number for kind, rest in named for number in range(count)), 4 * 2**48 + 5]


def mult(key: int) -> int:
    return key * 0x9E3779B97F4A7C15 % 2**64


def low(key: int) -> int:
    return key % 2**16 * 2**48


def depth_of(keys: list[int], pseudokey: Callable[[int], int]) -> int:
    """The depth of a directory into which these keys came and none left: the least at which no nine keys agree in so
    many first bits, since a bucket has room for eight."""
    return next(depth for depth in range(17) if most_alike(keys, pseudokey, depth) <= 8)


def most_alike(keys: list[int], pseudokey: Callable[[int], int], depth: int) -> int:
    return max(Counter(pseudokey(key) >> (64 - depth) for key in keys).values())


def additions(count: int) -> Iterator[str]:
    """Schedules that add as many accounts, counters and elements, a kind in each transaction."""
    kinds = ("open {} > done opened", "up {} 1 > done done", "add 5 {} > done added")
    for number, kind in enumerate(kinds, 1):
        yield f"begin > begun {number}"
        yield from (f"whole {number} {kind.format(place)}" for place in range(count))
        yield f"commit {number} > committed {number}"


def base_of(count: int) -> Iterator[str]:
    for line in ("account {} 0", "element 5 {}", "counter {} 1"):
        yield from (line.format(place) for place in range(count))


@each({f"depth-of-{3 * count}-keys": count for count in (2, 3, 10, 40, 150, 600)})
def depth_of_many_keys(mltx: Program, count: int) -> None:
    """Each hash function gives the depth that its definition says."""
    keys = keys_of(count)
    for pseudokey, options in ((mult, MULT), (low, LOW)):
        text = "\n".join([*additions(count), *base_of(count), f"depth {depth_of(keys, pseudokey)}"])
        row = Schedule(text)
        for option in options:
            expect(mltx.run("steps", *option, "-", given=row.events()), out=row.output(), what=f"{count} {option}")


@test
def hash_functions_differ_in_solo_and_run(mltx: Program) -> None:
    """Nine accounts with one low pseudokey have no room by `low`, and have it by `mult`."""
    numbers = [number * 65536 for number in range(9)]
    text = "".join(f"{line}\n" for line in ("begin", *(f"open {number}" for number in numbers), "commit"))
    fits = ["opened"] * 9 + ["committed 1"], [f"account {number} 0" for number in numbers]
    fails = ["opened"] * 8 + ["refused 2 NoRoom", "aborted"], list[str]()
    for options, (told, base) in [*((options, fits) for options in MULT), *((options, fails) for options in LOW)]:
        expect(mltx.run("solo", *options, "-", given=text), out=lines("|".join(told)), what=f"solo {options}")
        wanted = lines("|".join(["client 0 script 1", *told, *base]))
        expect(mltx.run("run", *options, "-", given=text), out=wanted, what=f"run {options}")


@test
def hash_functions_differ(mltx: Program) -> None:
    """Nine accounts whose low pseudokeys are one have no room by `low`, and have it by `mult`."""
    opened = [f"whole 1 open {account} > done opened" for account in ALIKE]
    refused = ["begin > begun 1", *opened, "whole 1 open 524288 > refused 2 NoRoom", "commit 1 > committed 1"]
    depth = depth_of([2**48 + account for account in (*ALIKE, 524288)], mult)
    for options, row in (
        (LOW, Schedule("\n".join([*refused, empty(*ALIKE)]))),
        (MULT, Schedule("\n".join([made(*ALIKE, 524288), empty(*ALIKE, 524288), f"depth {depth}"]))),
    ):
        for option in options:
            expect(mltx.run("steps", *option, "-", given=row.events()), out=row.output(), what=f"{option}")


@test
def low_pseudokeys_of_each_kind_are_one(mltx: Program) -> None:
    """Cells of three kinds with the same 16 low bits of their numbers share a bucket, and the ninth finds no room. The
    sizes of the sets are apart from them by the numbers of the sets."""
    asked = ["open 5", "up 5 1", "add 0 5", "add 1 5", "add 65535 5", "open 65541", "up 4294901765 1", "add 7 65541"]
    replies = ["opened", "done", "added", "added", "added", "opened", "done", "added"]
    text = "".join(f"whole 1 {operation}\n" for operation in [*asked, "add 2 5"])
    told = "".join(f"done {reply}\n" for reply in replies)
    ran = mltx.run("steps", "--hash", "low", "-", given=f"begin\n{text}")
    depth = depth_of([5] * 8 + [4 * 2**48 + number for number in (0, 1, 65535, 7)], low)
    expect(ran, out=f"begun 1\n{told}refused 2 NoRoom\ndepth {depth}\n")
