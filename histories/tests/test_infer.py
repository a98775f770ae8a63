"""What replies tell: sums against all subsets, real time against all pairs, and how many links there are."""
import random
import time
from collections import defaultdict
from itertools import combinations

from mltx_histories import formats, text
from mltx_histories.cycles import reached, sorted_out
from mltx_histories.infer import Amounts, Web
from mltx_histories.levels import LEVELS, judge
from mltx_histories.order import find

# The processor time in seconds for 10,000 transactions with one anomaly.
MOST_SECONDS = 5


def test_sums_tell_their_transactions() -> None:
    """Of the values that amounts can come to, those of one set tell it, those of several tell nothing, and others are none."""
    for number in range(300):
        source = random.Random(f"{number} of sums")
        sizes = [3**at if number % 2 else source.randrange(1, 9) for at in range(source.randrange(7))]
        amounts = [source.choice((-1, 1)) * it for it in sizes]
        writers = list(enumerate(source.sample(amounts, len(amounts)), 10))
        without = source.choice([it for it, _ in writers] + [99])
        sets: dict[int, list[frozenset[int]]] = {}
        others = [it for it in writers if it[0] != without]
        for count in range(len(others) + 1):
            for some in combinations(others, count):
                sets.setdefault(sum(it for _, it in some), []).append(frozenset(at for at, _ in some))
        for value in range(min(sets) - 2, max(sets) + 3):
            found, wanted = Amounts(writers).sets_of(value % 2**64, without), sets.get(value, [])
            assert found == wanted or found is None and (len(wanted) > 1 or number % 2 == 0), (writers, without, value)
        if number % 2:
            assert all(Amounts(writers).sets_of(value, without) == some for value, some in sets.items()), "powers of three"


def test_real_time_is_that_of_all_pairs() -> None:
    """The chain leads from one transaction to another just where one ended before the other began."""
    for number in range(60):
        source = random.Random(f"{number} of times")
        times = [(it := source.randrange(40), it + source.randrange(12)) for _ in range(12)]
        history = "".join(f"begin {at} at {start}\ncommit {at} at {end}\n" for at, (start, end) in enumerate(times))
        web = Web(text.read(history))
        links = web.whole("time")
        behind = reached(links, [1 << at if at < 12 else 0 for at in range(web.size)])
        for one, other in ((one, other) for one in range(12) for other in range(12) if one != other):
            is_before = web.nodes[one].one.end < web.nodes[other].one.start
            assert bool(behind[one] >> other & 1) == is_before, history
        assert sum(map(len, links)) <= 3 * 12, "a few links for each transaction"


def long_history(count: int, is_timed: bool, has_skew: bool) -> str:
    """Serial transactions that read a counter and add to another one, each a power of two; in the middle two miss each other."""
    source, lines, now = random.Random(f"{count} long"), list[str](), 0
    counters = max(2, count // 40)
    values, bits = [0] * counters, [0] * counters

    def at(number: int, *done: str, is_open: bool = False) -> list[str]:
        times = [f" at {number * 10 + it}" * is_timed for it in (0, 15 if is_open else 5)]
        return [f"begin {number}{times[0]}", *(f"op {number} {it}" for it in done), f"commit {number}{times[1]}"]

    def up(counter: int) -> int:
        bits[counter] += 1
        return 1 << (bits[counter] - 1)

    while now < count:
        one, other = source.sample([it for it in range(counters) if bits[it] < 60], 2)
        now += 1
        if has_skew and now == count // 2:
            first, second = up(other), up(one)
            lines += at(now, f"read {one} is {values[one]}", f"up {other} {first} done", is_open=True)
            now += 1
            lines += at(now, f"read {other} is {values[other]}", f"up {one} {second} done")
            values[other] += first
            values[one] += second
            continue
        amount = up(other)
        lines += at(now, f"read {one} is {values[one]}", f"up {other} {amount} done")
        values[other] += amount
    return "".join(line + "\n" for line in lines)


def test_long_histories_are_judged_soon() -> None:
    for is_timed in (True, False):
        began = time.process_time()
        outcome = find(text.read(long_history(10_000, is_timed, True)), is_timed, 60)
        took = time.process_time() - began
        told = [line.partition(":")[0] for line in outcome.told.splitlines()]
        assert told == ["no order", "  5000 before 5001", "  5001 before 5000"], outcome.told
        assert took < MOST_SECONDS, f"{took:.1f} s of the processor"


def test_levels_of_long_histories() -> None:
    for is_timed in (True, False):
        for has_skew in (True, False):
            judged = judge(text.read(long_history(2_000, is_timed, has_skew)), 60)
            wanted = dict(zip(LEVELS, (True, True, not has_skew, False if has_skew else True if is_timed else None)))
            assert judged.verdicts == wanted, judged.told()
            if has_skew:
                anomaly = judged.anomalies["serializable"]
                assert (anomaly.name, [one.number for one in anomaly.transactions]) == ("write skew (G2-item)", [1000, 1001])


def registers(count: int, names: int, is_timed: bool, is_list: bool) -> str:
    """Transactions that read two of so many registers or lists and write two others without a look. Many end in another order
    than they began in; in the middle two miss each other."""
    source, values, told = random.Random(f"{count} registers"), dict[str, list[int]](), list[tuple[int, int, str]]()
    for now in range(1, count + 1):
        begun, end = now * 10, now * 10 + source.randrange(1, 60)
        some, misses, verb = source.sample(range(names), 4), "", "append" if is_list else "write"
        read, written = [f"x{it}" for it in some[:2]], [f"x{it}" for it in some[2:]]
        if now - count // 2 in (0, 1):
            read, end, misses = ["a", "b"], begun + 15, "a"
            written = ["ab"[now - count // 2]]
        seen = [[] if it == misses else values.get(it, []) for it in read]
        replies = [f"[{' '.join(map(str, it))}]" if is_list else str(it[-1]) if it else "nil" for it in seen]
        done = [f"read {name} is {reply}" for name, reply in zip(read, replies)]
        for place, name in enumerate(written):
            values.setdefault(name, []).append(now * 2 + place)
            done.append(f"{verb} {name} {now * 2 + place} done")
        times = [f" at {it}" * is_timed for it in (begun, end)]
        told.append((begun, now, f"begin {now}{times[0]}\n" + "".join(f"op {now} {it}\n" for it in done)))
        told.append((end, now, f"commit {now}{times[1]}\n"))
    return "".join(lines for *_, lines in sorted(told))


def in_edn(history: str) -> str:
    """The same, in which all have committed, as Elle writes it."""
    events, done = list[str](), defaultdict[str, list[str]](list)
    for word, number, rest in (line.split(" ", 2) for line in history.splitlines()):
        if word == "op":
            verb, name, value = rest.split(" ", 2)
            done[number].append(f"[:{verb} :{name} {value.removeprefix('is ').removesuffix(' done')}]")
        else:
            kind, asked = ("invoke", "nil") if word == "begin" else ("ok", f"[{' '.join(done[number])}]")
            events.append(f"{{:type :{kind}, :process {number}, :f :txn, :value {asked}, :time {rest.removeprefix('at ')}}}\n")
    return "".join(events)


def check_soon(history: str, what: str) -> None:
    """The two are found in twice the seconds that are wanted, as the machine may be slow or busy."""
    began = time.process_time()
    judged = judge(formats.read(history), 60)
    took = time.process_time() - began
    assert judged.verdicts == dict(zip(LEVELS, (True, True, False, False))), f"{what}: {judged.told()}"
    anomaly = judged.anomalies["serializable"]
    members = [one.client or str(one.number) for one in anomaly.transactions]
    assert (anomaly.name, members) == ("write skew (G2-item)", ["5000", "5001"]), f"{what}: {judged.told()}"
    assert took < 2 * MOST_SECONDS, f"{what}: {took:.1f} s of the processor"


def test_levels_of_long_histories_of_registers() -> None:
    check_soon(registers(10_000, 1_000, True, False), "times")
    check_soon(registers(10_000, 1_000, False, False), "no times")


def test_levels_of_long_histories_of_long_lists() -> None:
    """A read has 80 elements, as most lists get 160."""
    check_soon(registers(10_000, 125, True, True), "times")
    check_soon(registers(10_000, 125, False, True), "no times")
    check_soon(in_edn(registers(10_000, 125, True, True)), "EDN")


def test_links_are_as_many_as_replies() -> None:
    web = Web(text.read(long_history(2000, True, False)))
    count = sum(len(behind) for links in web.links.values() for behind in links.values())
    assert count < 12 * 2000
    links = web.whole("wr", "rw", "time")
    assert len(sorted_out(links)) == len(links)
