"""Orders of histories with registers and lists, which a replay accepts, and what is told where there is none."""
import random

import small
from mltx_histories import replay, text
from mltx_histories.model import Faulty
from mltx_histories.order import find

SECONDS = 60


def test_orders_of_small_histories_explain_all_replies() -> None:
    """An order is found just where all orders have one, and the model accepts it, as the replay does."""
    found = 0
    for number in range(300 * small.CASES):
        history = small.made_up(random.Random(f"{number} of orders"), number % 2 == 0)
        for is_strict in (False, True):
            wanted = small.verdicts(history)["strict serializable" if is_strict else "serializable"]
            for tries in (0, 10):
                outcome = find(text.read(small.as_text(history)), is_strict, SECONDS, tries)
                assert outcome.is_found == wanted, small.as_text(history)
            if wanted:
                by_number = {one.number: one for one in history}
                order = [by_number[one.number] for one in outcome.order]
                assert small.is_serial(order) and (small.keeps_time(order) or not is_strict)
                replay.replay(outcome.order)
                found += 1
    assert found > 200 * small.CASES


def is_refused(history: str) -> bool:
    """Whether the replay refuses the transactions as they stand in a history."""
    try:
        replay.replay(text.read(history))
    except Faulty:
        return True
    return False


def test_a_read_that_sees_a_part_of_a_transaction_is_told() -> None:
    """Of the appends of 3 the read sees the first, and not the one behind that of 2."""
    history = (
        "begin 1\nop 1 read k is [6]\nop 1 read l is [5 2]\ncommit 1\nbegin 2\nop 2 append l 2 done\ncommit 2\n"
        "begin 3\nop 3 append l 5 done\nop 3 append k 6 done\nop 3 append l 7 done\ncommit 3\n")
    assert find(text.read(history), False, SECONDS).told.splitlines() == [
        "no order: a cycle of 2 transactions", "  1 before 3: `read l is [5 2]` of 1 does not see `append l 7 done` of 3",
        "  3 before 1: `read k is [6]` of 1 sees `append k 6 done` of 3"]


def test_the_replay_refuses_wrong_replies() -> None:
    for number in range(200):
        history = small.made_up(random.Random(f"{number} of replays"), number % 2 == 0)
        for one in history:
            one.ending = "commit"
        assert is_refused(small.as_text(history, False)) != small.is_serial(history), small.as_text(history)


def test_writes_that_nothing_orders() -> None:
    """Clients that write one register without a look, and read it later: in each round the last writer is the one that was
    read, and the lines stand in the wrong order."""
    lines = list[str]()
    for at in range(0, 120, 4):
        seen = at + 1
        lines += [f"begin {at + 3}", f"op {at + 3} read x is {seen}", f"op {at + 3} write y{at} 1 done", f"commit {at + 3}"]
        lines += [f"begin {at + it}\nop {at + it} write x {at + it} done\ncommit {at + it}" for it in (2, 1, 0)]
    outcome = find(text.read("\n".join(lines)), False, SECONDS)
    assert outcome.is_found
    replay.replay(outcome.order)


def test_what_is_not_decided_tells_what_would_help() -> None:
    """Sixty transactions add 1, and thirty read half of it, each beside all others: nothing tells whom they saw."""
    lines = [f"begin {at}\nop {at} up 7 1 done\nop {at} up 8 1 done\ncommit {at}" for at in range(60)]
    for at in range(60, 90):
        lines.append(f"begin {at}\nop {at} read 7 is {at % 7 + 20}\nop {at} read 8 is {at % 7 + 21}\ncommit {at}")
    outcome = find(text.read("\n".join(lines)), False, 0.3)
    assert outcome.is_found is None
    assert outcome.told == (
        "not decided in 0.3 seconds"
        "\n  counter 7 has amounts of which two sets have one sum, so that its replies don't tell what they saw"
        "\n  counter 8 has amounts of which two sets have one sum, so that its replies don't tell what they saw"
        "\n  it has no times; with them it can be looked for by --strict"), outcome.told
