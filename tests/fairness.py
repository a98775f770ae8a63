"""Whose turn it is: a queue behind those that are blocked, the youngest of a circle that gives way, and bounds on waits."""
import random
import threading
import time
from collections.abc import Iterator
from concurrent.futures import ThreadPoolExecutor
from contextlib import contextmanager

from harness import Peer, Program, each, expect, holds, in_time, same, takes, test
from sessions import says_nothing
from waits import AT_ONCE, SOON, number_begun

GAVE_UP = "error 14 GaveUp"


@contextmanager
def sessions(mltx: Program, count: int, *options: object) -> Iterator[list[Peer]]:
    """So many sessions of one server, which all end."""
    with mltx.serve("--sessions", count, *options, limit=count) as server:
        peers = [server.connect() for _ in range(count)]
        for peer in peers:
            peer.socket.settimeout(SOON)
        yield peers
        for peer in peers:
            peer.socket.close()
        expect(server.end(), out=f"served {count}\n")


def begin(*peers: Peer) -> list[int]:
    """Each begins a transaction. It answers their numbers."""
    return [number_begun(peer.ask("begin")) for peer in peers]


def ask_in_vain(peer: Peer, line: str, why: str) -> None:
    """What is asked so is not answered for now."""
    peer.send(line + "\n")
    says_nothing(peer, why)


def soon(peer: Peer, answer: str) -> None:
    """What was asked is answered so at once."""
    with takes(0, AT_ONCE, f"{answer} was told"):
        same(peer.line(), answer)


# By what it waits for: what the first holds; what is blocked by it, and what others ask that may clash with that; what the two
# are told, and what the last is told once the one that was blocked has committed.
BEHIND = {
    "withdraw": ("open 1|deposit 1 9", "balance 1", "withdraw 1 4", "balance 1", "done", "is 5"),
    "read": ("", "up 1 1", "read 1", "up 1 2", "is 1", "done"),
    "size": ("", "add 1 7", "size 1", "add 1 8", "is 1", "added"),
}


@each({f"{what}-that-is-blocked-is-not-overtaken": row for what, row in BEHIND.items()})
def blocked_is_not_overtaken(mltx: Program, row: tuple[str, ...]) -> None:
    """Who comes after one that is blocked, and asks for what may clash with it, is answered after it."""
    before, held, blocked, newcomer, told, told_last = row
    with sessions(mltx, 3) as (holder, waiter, third):
        if before:
            begin(holder)
            for line in (*before.split("|"), "commit"):
                holder.ask(line)
        begin(holder, waiter, third)
        same(holder.ask(held).split()[0], {"balance 1": "is", "up 1 1": "done", "add 1 7": "added"}[held])
        ask_in_vain(waiter, blocked, "the first holds what it waits for")
        ask_in_vain(third, newcomer, "it comes after one that is blocked")
        same([holder.ask("commit").split()[0], waiter.line()], ["committed", told])
        says_nothing(third, "the one before it holds what it waits for")
        same([waiter.ask("commit").split()[0], third.line()], ["committed", told_last])


@test
def two_that_never_clash_do_not_wait_for_each_other(mltx: Program) -> None:
    """One that is blocked keeps only those waiting that may clash with it."""
    with sessions(mltx, 4) as (holder, waiter, third, fourth):
        begin(holder, waiter, third, fourth)
        same([holder.ask("up 1 1"), holder.ask("add 1 7")], ["done", "added"])
        ask_in_vain(waiter, "read 1", "the counter is held")
        same([third.ask(line) for line in ("up 2 1", "read 3", "has 1 8", "size 2")], ["done", "is 0", "no", "is 0"])
        ask_in_vain(fourth, "read 1", "the counter is held")
        same([holder.ask("commit").split()[0], waiter.line(), fourth.line()], ["committed", "is 1", "is 1"])


@test
def one_that_holds_something_there_does_not_wait_for_its_turn(mltx: Program) -> None:
    """The blocked one waits for it, so it goes on."""
    with sessions(mltx, 3) as (holder, other, waiter):
        begin(holder, other, waiter)
        same([holder.ask("up 1 1"), other.ask("up 1 1")], ["done", "done"])
        ask_in_vain(waiter, "read 1", "two hold the counter")
        same([holder.ask("up 1 1"), other.ask("down 1 1")], ["done", "done"])
        same([holder.ask("commit").split()[0], other.ask("commit").split()[0], waiter.line()], ["committed"] * 2 + ["is 2"])


@each({f"who-waits-behind-one-that-{end.replace(' ', '-')}-goes-on": end for end in ("gives up", "aborts", "leaves")})
def queue_is_left(mltx: Program, end: str) -> None:
    """The one that was blocked stands in the way of nobody once its operation has ended, however that is."""
    with sessions(mltx, 4) as (first, waiter, third, second):
        begin(first, waiter, third, second)
        same([first.ask("balance 1"), second.ask("balance 1")], ["missing", "missing"])
        if end == "gives up":
            same(waiter.ask("up 2 1"), "done")
        ask_in_vain(waiter, "open 1", "two hold the balance")
        ask_in_vain(third, "balance 1", "it comes after one that is blocked")
        if end == "gives up":
            ask_in_vain(first, "read 2", "the one that is blocked holds the counter")
            soon(waiter, GAVE_UP)
        elif end == "leaves":
            waiter.socket.close()
            same([first.ask("commit").split()[0], second.ask("commit").split()[0]], ["committed"] * 2)
        else:
            same([first.ask("abort"), second.ask("abort")], ["aborted"] * 2)
            same([waiter.line(), waiter.ask("abort")], ["opened", "aborted"])
        soon(third, "missing")


def close_circle(peers: list[Peer], last: int) -> None:
    """Each holds a counter and reads that of the next one; the one at this place does so last."""
    count = len(peers)
    same([peer.ask(f"up {number} 1") for number, peer in enumerate(peers)], ["done"] * count)
    for number in [number for number in range(count) if number != last] + [last]:
        if number == last:
            peers[number].send(f"read {(number + 1) % count}\n")
        else:
            ask_in_vain(peers[number], f"read {(number + 1) % count}", "the next one holds the counter")


@each({f"youngest-of-{count}-gives-way-whoever-closes-the-circle": count for count in (2, 3, 8)})
def youngest_gives_way(mltx: Program, count: int) -> None:
    """With the most tries. The oldest closes the circle, and waits on; the last that began is told so at once."""
    with sessions(mltx, count, "--tries", 1_000_000) as peers:
        begin(*peers)
        close_circle(peers, 0)
        soon(peers[-1], GAVE_UP)
        same(peers[-1].ask("abort"), "aborted")
        for number, peer in reversed(list(enumerate(peers[:-1]))):
            soon(peer, f"is {int(number != count - 2)}")
            same(peer.ask("commit").split()[0], "committed")


@test
def first_try_counts_until_a_commit(mltx: Program) -> None:
    """One that gave up begins anew with the age of its first try: it is older than one that began in between, and not once it
    has committed."""
    with sessions(mltx, 3) as (oldest, peer, other):
        begin(oldest, peer, other)
        close_circle([oldest, peer], 0)
        soon(peer, GAVE_UP)
        same([peer.ask("abort"), oldest.line(), oldest.ask("abort")], ["aborted", "is 0", "aborted"])
        begin(peer)
        close_circle([peer, other], 0)
        soon(other, GAVE_UP)
        same([other.ask("abort"), peer.line(), peer.ask("commit").split()[0]], ["aborted", "is 0", "committed"])
        begin(peer, other)
        close_circle([peer, other], 1)
        soon(peer, GAVE_UP)
        same([peer.ask("abort"), other.line()], ["aborted", "is 1"])


@test
def one_that_waits_for_its_turn_alone_gives_way_first(mltx: Program) -> None:
    """It calls its operation instead, so whoever closed the circle goes on; here that one is blocked by it, and is younger."""
    with sessions(mltx, 3) as (third, waiter, holder):
        begin(third, waiter, holder)
        same([third.ask("up 2 1"), holder.ask("up 1 1")], ["done", "done"])
        ask_in_vain(waiter, "read 1", "the counter is held")
        ask_in_vain(third, "up 1 1", "it comes after one that is blocked")
        holder.send("read 2\n")
        soon(third, "done")
        says_nothing(holder, "the other counter is held")
        says_nothing(waiter, "two hold the counter")
        same([third.ask("commit").split()[0], holder.line()], ["committed", "is 1"])
        same([holder.ask("commit").split()[0], waiter.line()], ["committed", "is 2"])


# What twelve clients hold in turn without a pause, and what waits for it.
HELD = {"withdraw 1 1": "balance 1", "read 1": "up 1 1", "size 1": "add 1 {}"}
# For how long each time, in seconds; in how many one is to be answered that waits for them, on a slow machine too.
HOLD, ANSWERED = 0.02, 2


def hold_until(ended: threading.Event, peer: Peer, line: str, number: int) -> None:
    """Holds something in one transaction after the other."""
    for turn in range(1_000_000):
        if ended.is_set():
            return
        for one in ("begin", line.format(100 * turn + number)):
            peer.ask(one)
        time.sleep(HOLD)
        peer.ask("commit")


@each({f"{line.replace(' ', '-')}-gets-through-beside-twelve-holders": (line, held) for line, held in HELD.items()}, seconds=2)
def gets_through_beside_holders(mltx: Program, row: tuple[str, str]) -> None:
    """Ten times, each within a bound; without a queue it would hear nothing in ten seconds."""
    (line, held), count = row, 12
    with sessions(mltx, count + 1) as (waiter, *holders):
        told = [waiter.ask(one) for one in ("begin", "open 1", "deposit 1 1000", "commit")]
        same(told, ["begun 1", "opened", "done", "committed 1"])
        ended = threading.Event()
        with ThreadPoolExecutor(count) as threads:
            holding = [threads.submit(hold_until, ended, peer, held, number) for number, peer in enumerate(holders)]
            try:
                took = []
                for _ in range(10):
                    began = time.monotonic()
                    told = [waiter.ask(one) for one in ("begin", line, "commit")]
                    took.append(time.monotonic() - began)
                    holds(not told[1].startswith("error"), f"it was told {told}")
            finally:
                ended.set()
            for one in holding:
                one.result()
    in_time(max(took) < ANSWERED, f"{line} was answered after {took} seconds")


# So many clients make so many reports each, on so many accounts, of which they read so many at once. None ends more than so many
# while another client waits for an account in their midst, on a slow machine too.
REPORTERS, REPORTS, ACCOUNTS, AT_ONCE_READ, MOST_REPORTS = 16, 50, 200, 20, 5


def reports(peer: Peer, ended: list[int], number: int) -> None:
    """Reads all accounts in one transaction, again and again, and counts these."""
    for _ in range(REPORTS):
        begin(peer)
        for first in range(0, ACCOUNTS, AT_ONCE_READ):
            peer.send("".join(f"balance {account}\n" for account in range(first, first + AT_ONCE_READ)))
            same({peer.line().split()[0] for _ in range(AT_ONCE_READ)}, {"is"})
        same(peer.ask("commit").split()[0], "committed")
        ended[number] += 1


@test(seconds=3)
def one_account_is_changed_beside_long_reports(mltx: Program) -> None:
    """A report that comes to the account waits behind its change, however much it has read before: so each of those that
    run ends, and none that begins. If reports overtook it, the change would wait until the last one has ended."""
    with sessions(mltx, REPORTERS + 1) as (writer, *reporters):
        begin(writer)
        for account in range(ACCOUNTS):
            same(writer.ask(f"open {account}"), "opened")
        same(writer.ask("commit"), "committed 1")
        ended, waits = [0] * REPORTERS, []
        with ThreadPoolExecutor(REPORTERS) as threads:
            reporting = [threads.submit(reports, peer, ended, number) for number, peer in enumerate(reporters)]
            while not all(one.done() for one in reporting):
                begin(writer)
                before = list(ended)
                same(writer.ask(f"deposit {ACCOUNTS // 2} 1"), "done")
                waits.append(max(now - then for now, then in zip(ended, before)))
                same(writer.ask("commit").split()[0], "committed")
            for one in reporting:
                one.result()
    holds(max(waits) <= MOST_REPORTS, f"the most reports that one client ended during each wait: {waits}")


def moves(ended: float, peer: Peer, seed: int, count: int) -> tuple[int, int]:
    """Transactions of so many moves between six accounts, and at once again after GaveUp. It answers how many committed, and how
    often one was tried at most."""
    source, committed, tries, most = random.Random(seed), 0, 0, 0
    while time.monotonic() < ended:
        if tries == 0:
            pairs = [source.sample(range(1, 7), 2) for _ in range(count)]
        tries += 1
        most = max(most, tries)
        begin(peer)
        asked = [line for one, other in pairs
                 for line in (f"balance {one}", f"balance {other}", f"withdraw {one} 1", f"deposit {other} 1")]
        if all(peer.ask(line) != GAVE_UP for line in asked):
            same(peer.ask("commit").split()[0], "committed")
            committed, tries = committed + 1, 0
        else:
            same(peer.ask("abort"), "aborted")
    return committed, most


@test(seconds=4)
def long_transactions_get_through_beside_short_ones(mltx: Program) -> None:
    """Two clients with four moves a transaction beside six with one, for three seconds. Without ages the two hardly commit."""
    work = [4, 4, 1, 1, 1, 1, 1, 1]
    with sessions(mltx, len(work) + 1) as (opener, *peers):
        begin(opener)
        for account in range(1, 7):
            same([opener.ask(f"open {account}"), opener.ask(f"deposit {account} 1000000")], ["opened", "done"])
        same(opener.ask("commit"), "committed 1")
        ended = time.monotonic() + 3
        with ThreadPoolExecutor(len(work)) as threads:
            told = list(threads.map(lambda it: moves(ended, peers[it[0]], *it), enumerate(work)))
    long = sum(4 * committed for committed, _ in told[:2])
    short = sum(committed for committed, _ in told[2:])
    holds(5 * long > short > 0 and max(most for _, most in told) <= 30, f"moves: {long} in long ones, {short} in short; {told}")
