"""Anomalies that are planted are named, in each format; and small random histories are judged as by trying all orders."""
import random
from collections import Counter

import small
from mltx_histories import formats, text
from mltx_histories.levels import LEVELS, judge
from small import Made, Op, Reply

SECONDS = 60
COMMITTED, SNAPSHOT, SERIALIZABLE, STRICT = LEVELS


def made(*transactions: tuple[str, list[tuple[Op, Reply]]]) -> list[Made]:
    """Transactions beside each other, which are committed but for those that begin with `!`."""
    found = []
    for number, (ending, done) in enumerate(transactions, 1):
        ops, replies = [op for op, _ in done], [reply for _, reply in done]
        found.append(Made(number, 10, 99, "abort" if ending == "!" else "commit", ops, replies))
    return found


def wrote(name: str, value: int) -> tuple[Op, Reply]:
    return ("write", name, value), "done"


def got(name: str, value: int | None) -> tuple[Op, Reply]:
    return ("get", name), value


def appended(name: str, value: int) -> tuple[Op, Reply]:
    return ("append", name, value), "done"


def listed(name: str, *values: int) -> tuple[Op, Reply]:
    return ("all", name), values


# By its name each anomaly, with the weakest level that it breaks.
STALE = made(("", [wrote("x", 1)]), ("", [got("x", None)]))
STALE[0].start, STALE[0].end, STALE[1].start = 0, 9, 20
PLANTED = {
    "G0 (dirty write)": (COMMITTED, made(
        ("", [appended("x", 1), appended("y", 1)]), ("", [appended("y", 2), appended("x", 2)]),
        ("", [listed("x", 1, 2), listed("y", 2, 1)]))),
    "G1a (aborted read)": (COMMITTED, made(("!", [wrote("x", 5)]), ("", [got("x", 5)]))),
    "G1b (intermediate read)": (COMMITTED, made(("", [appended("x", 1), appended("x", 2)]), ("", [listed("x", 1)]))),
    "G1c (circular information flow)": (COMMITTED, made(
        ("", [wrote("x", 1), got("y", 2)]), ("", [wrote("y", 2), got("x", 1)]))),
    "lost update": (SNAPSHOT, made(("", [got("x", None), wrote("x", 1)]), ("", [got("x", None), wrote("x", 2)]))),
    "write skew (G2-item)": (SERIALIZABLE, made(
        ("", [got("x", None), got("y", None), wrote("x", 1)]), ("", [got("x", None), got("y", None), wrote("y", 2)]))),
    "read skew (G-single)": (SNAPSHOT, made(("", [wrote("x", 1), wrote("y", 1)]), ("", [got("x", None), got("y", 1)]))),
    "phantom": (SERIALIZABLE, made(
        ("", [(("size", 4), 0), (("add", 4, 1), "added")]), ("", [(("size", 4), 0), (("add", 4, 2), "added")]))),
    "long fork": (SNAPSHOT, made(
        ("", [wrote("x", 1)]), ("", [wrote("y", 1)]), ("", [got("x", 1), got("y", None)]), ("", [got("x", None), got("y", 1)]))),
    "stale read": (STRICT, STALE),
    "own write not seen": (COMMITTED, made(("", [wrote("x", 1), got("x", None)]))),
    "impossible read": (COMMITTED, made(("", [wrote("x", 1)]), ("", [got("x", 9)]))),
    "incompatible orders": (COMMITTED, made(
        ("", [appended("x", 1)]), ("", [appended("x", 2)]), ("", [listed("x", 1, 2)]), ("", [listed("x", 2, 1)]))),
}
# The same of numbers, where amounts tell who was seen.
NUMBERS = {
    "G1a (aborted read)": (COMMITTED, made(("!", [(("up", 7, 5), "done")]), ("", [(("read", 7), 5)]))),
    "G1b (intermediate read)": (COMMITTED, made(
        ("", [(("up", 7, 5), "done"), (("up", 7, 6), "done")]), ("", [(("read", 7), 5)]))),
    "G1c (circular information flow)": (COMMITTED, made(
        ("", [(("up", 1, 1), "done"), (("read", 2), 1)]), ("", [(("up", 2, 1), "done"), (("read", 1), 1)]))),
    "lost update": (SNAPSHOT, made(
        ("", [(("read", 7), 0), (("up", 7, 1), "done")]), ("", [(("read", 7), 0), (("up", 7, 2), "done")]))),
    "write skew (G2-item)": (SERIALIZABLE, made(
        ("", [(("read", 1), 0), (("up", 2, 1), "done")]), ("", [(("read", 2), 0), (("up", 1, 1), "done")]))),
    "read skew (G-single)": (SNAPSHOT, made(
        ("", [(("up", 1, 1), "done"), (("up", 2, 1), "done")]), ("", [(("read", 1), 1), (("read", 2), 0)]))),
    "phantom": (SNAPSHOT, made(("", [(("size", 4), 0), (("size", 4), 1)]), ("", [(("add", 4, 9), "added")]))),
    "long fork": (SNAPSHOT, made(
        ("", [(("up", 1, 1), "done")]), ("", [(("up", 2, 1), "done")]), ("", [(("read", 1), 1), (("read", 2), 0)]),
        ("", [(("read", 1), 0), (("read", 2), 1)]))),
    "own write not seen": (COMMITTED, made(("", [(("up", 7, 4), "done"), (("read", 7), 0)]))),
    "impossible read": (COMMITTED, made(("", [(("up", 7, 4), "done")]), ("", [(("read", 7), 3)]))),
}


def check(name: str, weakest: str, history: list[Made], written: str, what: str) -> None:
    judged = judge(formats.read(written), SECONDS)
    wanted = {level: LEVELS.index(level) < LEVELS.index(weakest) for level in LEVELS}
    assert judged.verdicts == wanted, f"{name}, {what}: {judged.told()}\n{written}"
    found = {level: it.name for level, it in judged.anomalies.items()}
    assert found == {level: name for level in LEVELS if not wanted[level]}, f"{name}, {what}: {found}\n{written}"
    assert 0 < len(judged.anomalies[weakest].transactions) <= len(history), f"{name}, {what}: its transactions"


def test_planted_anomalies_are_named_in_each_format() -> None:
    for planted in (PLANTED, NUMBERS):
        for name, (weakest, history) in planted.items():
            for kind, write in small.FORMATS.items():
                check(name, weakest, history, write(history), kind)


def test_planted_anomalies_break_the_levels_that_all_orders_say() -> None:
    for planted in (PLANTED, NUMBERS):
        for name, (weakest, history) in planted.items():
            wanted = {level: LEVELS.index(level) < LEVELS.index(weakest) for level in LEVELS}
            assert small.verdicts(history) == wanted, name


def test_only_the_transactions_of_a_cycle_are_told() -> None:
    """Ten transactions that have nothing to do with it stand around a write skew."""
    _, skew = PLANTED["write skew (G2-item)"]
    others = made(*[("", [wrote(f"z{it}", 1)]) for it in range(10)])
    for at, one in enumerate(others, 3):
        one.number = at
    judged = judge(text.read(small.as_text([*others[:5], *skew, *others[5:]])), SECONDS)
    anomaly = judged.anomalies[SERIALIZABLE]
    assert sorted(one.number for one in anomaly.transactions) == [1, 2]
    assert anomaly.told == [
        "  a cycle of 2 transactions", "  1 before 2: `read y is nil` of 1 does not see `write y 2 done` of 2",
        "  2 before 1: `read x is nil` of 2 does not see `write x 1 done` of 1"]


def test_small_histories_are_judged_as_by_all_orders() -> None:
    counts, undecided = Counter[tuple[str, bool]](), list[str]()
    for number in range(1000 * small.CASES):
        source = random.Random(f"{number} of levels")
        history = small.made_up(source, number % 3 > 0)
        written = small.as_text(history)
        judged = judge(text.read(written), SECONDS)
        for level, wanted in small.verdicts(history).items():
            found = judged.verdicts[level]
            assert found in (None, wanted), f"history {number}: {level} is {wanted}, and judged {found}\n{written}{judged.told()}"
            counts[level, wanted] += 1
            undecided += [written] * (found is None)
    assert len(counts) == 8 and min(counts.values()) > 30, f"both happen at each level: {counts}"
    assert len(undecided) <= len(counts) * small.CASES / 2, f"{len(undecided)} are not decided: {undecided[0]}"


def test_small_histories_without_times() -> None:
    """They are judged as with times, but for the strict level, of which nothing is known where they have an order."""
    for number in range(200 * small.CASES):
        history = small.made_up(random.Random(f"{number} without times"), True)
        wanted = small.verdicts(history)
        judged = judge(text.read(small.as_text(history, False)), SECONDS)
        assert {it: judged.verdicts[it] for it in LEVELS[:3]} == {it: wanted[it] for it in LEVELS[:3]}, small.as_text(history)
        assert judged.verdicts[STRICT] is (None if wanted[SERIALIZABLE] else False)
        assert wanted[SERIALIZABLE] is False or "it has no times" in judged.told()
