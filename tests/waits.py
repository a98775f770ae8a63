"""What ends a wait, and what it costs: sessions that wait for one another, a deadlock, and many over few objects."""
import os
import random
import socket
import threading
import time
from concurrent.futures import ThreadPoolExecutor

from harness import BROKEN, Peer, Program, Server, cut_for, each, expect, holds, in_any_order, in_time, lines, same, takes
from harness import test
from sessions import says_nothing, send_and_hear_nothing

# Within so many seconds an answer comes that need wait for nobody, on a slow machine too.
SOON = 10
# A deadlock is seen before any try is made: many tries would take longer.
AT_ONCE = 0.5


def processor_seconds(server: Server) -> float:
    """How long the server has used processors so far."""
    with open(f"/proc/{server.process.pid}/stat", encoding="ascii") as file:
        fields = file.read().rpartition(")")[2].split()
    return (int(fields[11]) + int(fields[12])) / os.sysconf("SC_CLK_TCK")


@test
def work_of_others_costs_no_try(mltx: Program) -> None:
    """A session with five tries waits for one that is silent, while a third commits 500 times, and connections end."""
    with mltx.serve("--tries", 5, limit=23) as server:
        with server.connect() as holder, server.connect() as waiter, server.connect() as third:
            same([peer.ask("begin") for peer in (holder, waiter)], ["begun 1", "begun 2"])
            same(holder.ask("up 1 5"), "done")
            waiter.send("read 1\n")
            says_nothing(waiter, "the counter is held")
            third.send(lines("begin|up 2 1|commit") * 500)
            for number in range(500):
                same([third.line() for _ in range(3)][1:], ["done", f"committed {number + 1}"])
            for _ in range(20):
                server.talk(lines("begin|up 3 1|abort"))
            says_nothing(waiter, "the counter is still held")
            same([holder.ask("commit"), waiter.line()], ["committed 501", "is 5"])
        expect(server.end(), out="served 23\n")


@test
def session_has_its_tries_for_each_operation(mltx: Program) -> None:
    """With two tries one transaction waits in each of three operations: a wait leaves it one try, by which it would not wait."""
    with mltx.serve("--tries", 2, limit=2) as server:
        with server.connect() as holder, server.connect() as waiter:
            same(waiter.ask("begin"), "begun 1")
            for number in (1, 2, 3):
                same([holder.ask("begin"), holder.ask(f"up {number} 1")], [f"begun {number + 1}", "done"])
                waiter.send(f"read {number}\n")
                says_nothing(waiter, "the counter is held")
                same([holder.ask("commit"), waiter.line()], [f"committed {number}", "is 1"])
        expect(server.end(), out="served 2\n")


@test(seconds=1)
def session_that_waits_uses_no_processor(mltx: Program) -> None:
    with mltx.serve(limit=2) as server:
        with server.connect() as holder, server.connect() as waiter:
            same([peer.ask("begin") for peer in (holder, waiter)], ["begun 1", "begun 2"])
            same(holder.ask("up 1 5"), "done")
            waiter.send("read 1\n")
            says_nothing(waiter, "the counter is held")
            before = processor_seconds(server)
            time.sleep(0.5)
            used = processor_seconds(server) - before
            same([holder.ask("abort"), waiter.line()], ["aborted", "is 0"])
        expect(server.end(), out="served 2\n")
    in_time(used < 0.1, f"a session waited half a second and used {used} seconds of a processor")


def long(line: str) -> str:
    """The line behind so many blank ones that a session which reads them does not go on at once, but comes to its turn."""
    return (" " * 99 + "\n") * 6 + line


@test(seconds=1)
def sessions_that_wait_keep_nobody_from_work(mltx: Program) -> None:
    """Four are blocked, four have said half a line, and four take no answers; meanwhile another one commits. All send so
    much that who does so has to queue."""
    with mltx.serve("--sessions", 14, limit=14) as server, server.connect() as holder, server.connect() as worker:
        same([holder.ask("begin"), holder.ask("up 1 1")], ["begun 1", "done"])
        blocked, halted, deaf = ([server.connect() for _ in range(4)] for _ in range(3))
        same([peer.ask("begin") for peer in blocked], [f"begun {number}" for number in range(2, 6)])
        for peer in blocked:
            peer.send(long("read 1") + "\n")
        for peer in halted:
            same(peer.ask(long("foo")), "error 10 ScriptFault")
            peer.send(long("begin"))
        sending = [threading.Thread(target=send_and_hear_nothing, args=(peer, "foo\n" * 1_000_000)) for peer in deaf]
        for one in sending:
            one.start()
        worker.socket.settimeout(SOON)
        for number in range(1, 201):
            told = [worker.ask(long(line)) for line in ("begin", "up 2 1", "commit")]
            same(told[1:], ["done", f"committed {number}"])
        for peer in blocked:
            says_nothing(peer, "the counter is held")
        same(holder.ask("commit"), "committed 201")
        same([peer.line() for peer in blocked], ["is 1"] * 4)
        for peer in deaf:
            peer.socket.shutdown(socket.SHUT_RDWR)
        for one in sending:
            one.join()
        for peer in (*deaf, *halted, *blocked):
            peer.socket.close()
        holder.end()
        worker.end()
        notes = [cut_for(number, BROKEN) for number in range(11, 15)]
        expect(in_any_order(server.end()), out="served 14\n", notes=notes)


@each({f"circle-of-{count}-sessions-ends-at-once": count for count in (2, 3, 8)})
def circle_ends_at_once(mltx: Program, count: int) -> None:
    """With the most tries, beside a client that is silent: the one that closes the circle is answered at once, the others
    wait on, and each goes on as the one before it ends."""
    with mltx.serve("--tries", 1_000_000, "--sessions", 9, limit=count + 1) as server, server.connect() as silent:
        peers = [server.connect() for _ in range(count)]
        same(silent.ask("begin"), "begun 1")
        same([peer.ask("begin") for peer in peers], [f"begun {number + 2}" for number in range(count)])
        same({peer.ask(f"up {number} 1") for number, peer in enumerate(peers)}, {"done"})
        for number, peer in enumerate(peers[:-1]):
            peer.send(f"read {number + 1}\n")
            says_nothing(peer, "the next one holds the counter")
        with takes(0, AT_ONCE, "the last of the circle was answered"):
            same(peers[-1].ask("read 0"), "error 14 GaveUp")
        says_nothing(peers[0], "the one that gave up has not ended")
        same(peers[-1].ask("abort"), "aborted")
        for number, peer in reversed(list(enumerate(peers[:-1], 1))):
            same([peer.line(), peer.ask("commit")], [f"is {int(number != count - 1)}", f"committed {count - number}"])
        for peer in (silent, *peers):
            peer.socket.close()
        expect(server.end(), out=f"served {count + 1}\n")


@test
def wait_for_another_object_is_no_deadlock(mltx: Program) -> None:
    """Two that wait for one holder, and one that waits for one of them: no circle, so nobody gives up."""
    with mltx.serve("--tries", 3, limit=3) as server:
        with server.connect() as first, server.connect() as second, server.connect() as third:
            same([peer.ask("begin") for peer in (first, second, third)], ["begun 1", "begun 2", "begun 3"])
            same([first.ask("up 1 1"), second.ask("up 2 1")], ["done", "done"])
            second.send("read 1\n")
            says_nothing(second, "the first holds the counter")
            third.send("read 2\n")
            says_nothing(third, "the second holds the counter")
            same([first.ask("commit"), second.line()], ["committed 1", "is 1"])
            says_nothing(third, "the second still holds the counter")
            same([second.ask("commit"), third.line(), third.ask("commit")], ["committed 2", "is 1", "committed 3"])
        expect(server.end(), out="served 3\n")


OPERATIONS = ("up 1 1", "up 2 1", "up 3 1", "down 1 1", "read 1", "read 2", "read 3")


def hurried(server: Server, seed: int, transactions: int) -> dict[str, int]:
    """Runs transactions over three counters; each answer comes soon. It answers how many gave up, and how many committed."""
    source, ends = random.Random(seed), {"committed": 0, "aborted": 0}
    with server.connect() as peer:
        peer.socket.settimeout(SOON)
        for _ in range(transactions):
            peer.ask("begin")
            told = [peer.ask(source.choice(OPERATIONS)) for _ in range(source.randrange(1, 5))]
            answer = peer.ask("abort" if "error 14 GaveUp" in told or source.random() < 0.1 else "commit")
            ends[answer.split()[0]] += 1
            holds(all(one in ("done", "error 14 GaveUp") or one.startswith("is ") for one in told), f"answers {told}")
        same(peer.ask("quit"), "bye")
    return ends


@each({f"sixteen-clients-over-three-objects-with-{tries}-tries": tries for tries in (1, 20, 10_000)}, seconds=2)
def sixteen_clients_over_three_objects(mltx: Program, tries: int) -> None:
    """Each answer comes within a bound, all ends are told, and `check` accepts the trace."""
    clients, transactions, trace = 16, 100, mltx.folder / "trace"
    with mltx.serve("--sessions", clients, "--tries", tries, "--trace", trace, limit=clients) as server:
        with ThreadPoolExecutor(clients) as threads:
            ends = list(threads.map(lambda seed: hurried(server, seed, transactions), range(clients)))
        expect(server.end(), out=f"served {clients}\n")
    committed = sum(end["committed"] for end in ends)
    same(committed + sum(end["aborted"] for end in ends), clients * transactions, "how many ended")
    holds(all(end["committed"] for end in ends), f"a client never committed: {ends}")
    serial = mltx.accepted(trace).splitlines()
    same(sum(line.startswith("serial ") for line in serial), committed, "how many are in the serial order")


def reads_until(ended: threading.Event, peer: Peer) -> None:
    """Reads a counter in one transaction after another, many at once, until it is said that this is enough."""
    batch = lines("begin|" + "read 9|" * 50 + "commit")
    while not ended.is_set():
        peer.send(batch)
        for _ in range(52):
            peer.line()
    peer.send("quit\n")


# By `low` the last key is apart from the eight others, which are one, at the 16th bit alone.
ADDITIONS = [f"up {counter} 1" for counter in (*range(0, 8 * 65536, 65536), 1)]


@test(seconds=2)
def insert_that_doubles_gets_through(mltx: Program) -> None:
    """It needs the header page alone, which one of fourteen readers nearly always holds; a hundred tries are enough."""
    readers = 14
    for _ in range(5):
        options = ("--hash", "low", "--tries", 100, "--sessions", readers + 1)
        with mltx.serve(*options, limit=readers + 1) as server, ThreadPoolExecutor(readers) as threads:
            peers, ended = [server.connect() for _ in range(readers)], threading.Event()
            reading = [threads.submit(reads_until, ended, peer) for peer in peers]
            try:
                with server.connect() as writer:
                    told = [writer.ask(line) for line in ("begin", *ADDITIONS, "commit")]
            finally:
                ended.set()
            for one in reading:
                one.result()
            for peer in peers:
                peer.socket.close()
            same([one for one in told if one.startswith("error")], [], "what the insert was refused with")
            expect(server.end(), out=f"served {readers + 1}\n")


# After GaveUp a session begins again after at least so many seconds for each session that pauses.
RESTART = 0.0064


def moved(peer: Peer, one: int, other: int) -> bool:
    """Whether a move between two accounts, which are looked at before, committed. Else it gave up, and was aborted."""
    same(peer.ask("begin").split()[0], "begun")
    for line in (f"balance {one}", f"balance {other}", f"withdraw {one} 1", f"deposit {other} 1"):
        if peer.ask(line) == "error 14 GaveUp":
            same(peer.ask("abort"), "aborted")
            return False
    same(peer.ask("commit").split()[0], "committed")
    return True


def moves_until(ended: float, server: Server, seed: int) -> tuple[int, int, int]:
    """Moves between four accounts, and begins again at once after GaveUp. It answers how many committed and how many gave up,
    and how often one was tried at most."""
    source, committed, gave_up, tries, most = random.Random(seed), 0, 0, 0, 0
    with server.connect() as peer:
        peer.socket.settimeout(SOON)
        pair = source.sample(range(1, 5), 2)
        while time.monotonic() < ended:
            tries += 1
            most = max(most, tries)
            if moved(peer, *pair):
                pair, committed, tries = source.sample(range(1, 5), 2), committed + 1, 0
            else:
                gave_up += 1
    return committed, gave_up, most


@test(seconds=4)
def clients_that_begin_again_at_once_get_through(mltx: Program) -> None:
    """Eight of them for three seconds: where all begin at once, each takes from the others what they need, again and again. Then
    hundreds give up for a commit, or some where other programs work beside; and one is tried more than a hundred times."""
    clients = 8
    opened = "|".join(f"open {account}|deposit {account} 1000000" for account in range(1, 5))
    with mltx.serve("--sessions", clients, limit=clients + 1) as server:
        server.talk(lines(f"begin|{opened}|commit"))
        ended = time.monotonic() + 3
        with ThreadPoolExecutor(clients) as threads:
            ends = list(threads.map(lambda seed: moves_until(ended, server, seed), range(clients)))
        expect(server.end(), out=f"served {clients + 1}\n")
    committed, gave_up, most = (list(of_all) for of_all in zip(*ends))
    what = f"each committed {committed} and gave up {gave_up}, and tried one at most {most} times"
    in_time(sum(committed) >= 100, what)
    holds(sum(gave_up) <= 2 * sum(committed) and max(most) <= 50, what)


def gives_up(peer: Peer) -> None:
    """A transaction gives up, by the one try that each operation has."""
    same(peer.ask("begin").split()[0], "begun")
    same([peer.ask("read 1"), peer.ask("abort")], ["error 14 GaveUp", "aborted"])


def number_begun(line: str) -> int:
    """The number of the transaction that has begun."""
    same(line.split()[0], "begun")
    return int(line.split()[1])


@test(seconds=1)
def a_session_that_gave_up_pauses_before_it_begins_again(mltx: Program) -> None:
    """Forty that gave up pause side by side, beside a restarted transaction that stays open. Three do not
    pause: one never gave up, one has committed since, and one has aborted what did not give up."""
    count = 40
    with mltx.serve("--tries", 1, "--sessions", count + 5, limit=count + 5) as server:
        holder, new, committed, aborted, silent, *restarted = peers = [server.connect() for _ in range(count + 5)]
        for peer in peers:
            peer.socket.settimeout(SOON)
        same([holder.ask("begin"), holder.ask("up 1 1")], ["begun 1", "done"])
        for peer in (committed, aborted, silent):
            gives_up(peer)
        for peer, end in ((committed, "commit"), (aborted, "abort")):
            number_begun(peer.ask("begin"))
            peer.ask(end)
        number_begun(silent.ask("begin"))
        for peer in restarted:
            gives_up(peer)
        with takes(count / 4 * RESTART, count * count / 4 * RESTART, f"{count} began again"):
            for peer in restarted:
                peer.send("begin\n")
            for peer in restarted:
                number_begun(peer.line())
        with takes(0, 300 * RESTART, "three hundred first tries ended"):
            for _ in range(100):
                for peer in (new, committed, aborted):
                    number_begun(peer.ask("begin"))
                    same(peer.ask("commit").split()[0], "committed")
        for peer in peers:
            peer.socket.close()
        expect(server.end(), out=f"served {count + 5}\n")
