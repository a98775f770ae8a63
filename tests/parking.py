"""Many clients of a server without end, and few session threads: who has a thread, who waits, and what a client keeps."""
import selectors
import socket
import struct
import subprocess
import time
from collections.abc import Iterator
from concurrent.futures import ProcessPoolExecutor, ThreadPoolExecutor
from contextlib import ExitStack, contextmanager
from typing import cast

from harness import BROKEN, BY_OPERATOR, IDLE, IS_HTTP, LONG_LINE, OPEN_LONG, Peer, Program, Server, cut_for, each, expect
from harness import PATIENCE, Address, free_address, holds, lines, may_break_off, same, takes, test
from operating import asked, comes, counts, posted
from sessions import says_nothing
from serving import SLACK, STOPPING, TOO_MANY, says

MOST_CONNECTIONS = 2**63 - 1
GAVE_UP = "error 14 GaveUp"
ONE_WAITS = "clients wait for a session, since all are busy: 1"


@contextmanager
def parking(mltx: Program, *options: object, sessions: int = 2) -> Iterator[Server]:
    """A server without end, with an operator and few session threads, which ends with its standard input."""
    words = ("--endless", "--until-eof", "--sessions", sessions, *options)
    with mltx.serve(*words, limit=None, admin=free_address(), stdin=subprocess.PIPE) as server:
        server.limit = MOST_CONNECTIONS
        server.first_line(), server.first_line()
        yield server


def ends(server: Server, connections: int, *notes: str) -> None:
    """It ends as its input does, and tells how many it has served. What was noted stands in any order."""
    server.end_input()
    ended = server.end(said="")
    expect(ended, out=f"served {connections}\n", notes=ended.notes)
    same(sorted(ended.notes), sorted([*notes, STOPPING]), "the notes")


def connected(stack: ExitStack, server: Server, count: int) -> list[Peer]:
    return [stack.enter_context(server.connect()) for _ in range(count)]


def are(server: Server, **wanted: int) -> None:
    """The server comes to have these numbers."""
    comes(server, "/status", lambda told: {name: told[name] for name in wanted} == wanted, f"these are so: {wanted}")


def commits(peer: Peer) -> int:
    """A transaction line by line. It returns the number of its commit."""
    same(peer.ask("begin").partition(" ")[0], "begun", "begin")
    says(peer, "up 1 1", "done")
    said, _, number = peer.ask("commit").partition(" ")
    same(said, "committed", "commit")
    return int(number)


# Who has a thread.


@test(seconds=1)
def clients_take_turns(mltx: Program) -> None:
    """Twenty clients with two threads: each commits, again and again, and all stay connected."""
    with parking(mltx) as server, ExitStack() as stack:
        peers = connected(stack, server, 20)
        same([commits(peer) for _ in range(3) for peer in peers], list(range(1, 61)), "the commits")
        are(server, sessions=20, parked=20, queued=0, open=0)
        rows = asked(server, "/sessions")["sessions"]
        same(sorted(row["client"] for row in rows), list(range(1, 21)), "the clients that are listed")
        ends(server, 20)


@test(seconds=2)
def clients_come_at_once(mltx: Program) -> None:
    """Fifty clients that send all that they have at once, longer than a session reads in one go: each is answered all, in
    order. So sessions end within lines."""
    batch = lines("begin|up 1 1|commit") * 800

    def heard_by(peer: Peer) -> list[str]:
        return peer.say_all(batch).decode().split("\n")

    with parking(mltx) as server, ExitStack() as stack:
        with ThreadPoolExecutor(50) as threads:
            heard = list(threads.map(heard_by, connected(stack, server, 50)))
        for told in heard:
            same([line.partition(" ")[0] for line in told], ["begun", "done", "committed"] * 800 + [""], "what a client hears")
        numbers = [int(line.split()[1]) for told in heard for line in told if line.startswith("committed ")]
        same(sorted(numbers), list(range(1, 40_001)), "the commits")
        with server.connect() as peer:
            says(peer, "begin", "begun 40001", "read 1", "is 40000")
        ends(server, 51)


@test(seconds=3)
def clients_wait_while_all_sessions_are_open(mltx: Program) -> None:
    """A transaction keeps its thread. Who wants one more waits, which is noted after a second, until one commits."""
    with parking(mltx, "--open", 0) as server, ExitStack() as stack:
        one, other, third = connected(stack, server, 3)
        says(one, "begin", "begun 1")
        says(other, "begin", "begun 2")
        third.send("begin\n")
        are(server, sessions=3, queued=1, parked=0, open=2)
        same(server.next_note(), ONE_WAITS, "what is noted")
        says_nothing(third, "while both sessions are open")
        says(one, "commit", "committed 1")
        same(third.line(), "begun 3", "what the third client hears")
        ends(server, 3, ONE_WAITS)


@test(seconds=4)
def open_transactions_end(mltx: Program) -> None:
    """By the time that a transaction may be open, one that waits is answered without any client's doing."""
    with parking(mltx, "--open", 1) as server, ExitStack() as stack:
        one, other, third = connected(stack, server, 3)
        says(one, "begin", "begun 1")
        says(other, "begin", "begun 2")
        with takes(0, 1 + SLACK, "the answer"):
            says(third, "begin", "begun 3", "commit", "committed 1")
        same([one.rest(), other.rest()], [b"", b""], "what the others hear")
        server.end_input()
        ended = server.end(said="")
        holds({cut_for(1, OPEN_LONG), cut_for(2, OPEN_LONG), STOPPING} <= set(ended.notes), f"{ended.notes}")


@test(seconds=1)
def half_a_line_takes_no_thread(mltx: Program) -> None:
    """Ten clients with half a line each, and one that is served at once."""
    with parking(mltx) as server, ExitStack() as stack:
        for peer in connected(stack, server, 10):
            peer.send("beg")
        are(server, sessions=10, parked=10, queued=0)
        with takes(0, SLACK, "a transaction beside them"), server.connect() as peer:
            same(commits(peer), 1, "the commit")
        ends(server, 11)


# What a client keeps.


@each({"half-a-line-at-first": 1, "half-a-line-after-a-commit": 2}, seconds=1)
def half_a_line(mltx: Program, number: int) -> None:
    """What came of a line is there once the rest comes, however long that takes, and in however many pieces."""
    with parking(mltx) as server, server.connect() as peer:
        same([commits(peer) for _ in range(1, number)], list(range(1, number)), "the commits before")
        for piece in ("beg", "i"):
            peer.send(piece)
            # Meanwhile a thread takes the piece, and leaves.
            time.sleep(0.1)
            are(server, parked=1, queued=0)
        peer.send("n\nup 7 2\ncommit\nread")
        same([peer.line() for _ in range(3)], [f"begun {number}", "done", f"committed {number}"], "the answers")
        are(server, parked=1)
        peer.send(" 7\n")
        same(peer.line(), "error 3 NoSuchTx", "the answer to the last line")
        ends(server, 1)


@test(seconds=1)
def faults_in_two_pieces(mltx: Program) -> None:
    """A request of HTTP, and a line that is too long, of which a part came before a pause."""
    with parking(mltx) as server, ExitStack() as stack:
        browser, writer = connected(stack, server, 2)
        browser.send("GET / HT")
        writer.send("x" * 150)
        are(server, parked=2)
        browser.send("TP/1.1\r\n\r\n")
        writer.send("x" * 60)
        browser.hear()
        writer.hear()
        same([browser.heard, writer.heard], [b"", b"error 12 LineTooLong\n"], "what they hear")
        are(server, sessions=0)
        ends(server, 2, cut_for(1, IS_HTTP), cut_for(2, LONG_LINE))


@test(seconds=3)
def idle_time_goes_on_while_parked(mltx: Program) -> None:
    """A client that says nothing, and one that has said something, are cut after the idle time, although they are parked."""
    with parking(mltx, "--idle", 1) as server, ExitStack() as stack:
        silent, other = connected(stack, server, 2)
        same(commits(other), 1, "the commit")
        with takes(0.5, 1 + SLACK, "the end of both"):
            same([silent.rest(), other.rest()], [b"", b""], "what they hear")
        ends(server, 2, cut_for(1, IDLE), cut_for(2, IDLE))


@test(seconds=1)
def age_goes_on_while_parked(mltx: Program) -> None:
    """A transaction that gave up is the oldest in the end, also where its client was parked: the next time the other one gives
    up, although its number is lower."""
    with parking(mltx) as server, ExitStack() as stack:
        one, other = connected(stack, server, 2)

        def deadlock(first: int, second: int) -> None:
            says(one, "begin", f"begun {first}", "up 1 1", "done")
            says(other, "begin", f"begun {second}", "up 2 1", "done")
            one.send("read 2\n")
            says_nothing(one, "while it waits")
            other.send("read 1\n")

        deadlock(1, 2)
        same(other.line(), GAVE_UP, "the younger one")
        says(other, "abort", "aborted")
        same(one.line(), "is 0", "the older one")
        says(one, "commit", "committed 1")
        are(server, parked=2)
        deadlock(3, 4)
        same(one.line(), GAVE_UP, "the one that has committed")
        says(one, "abort", "aborted")
        same(other.line(), "is 1", "the one that gave up before")
        says(other, "commit", "committed 2")
        ends(server, 2)


# Ends of parked clients.


@test(seconds=1)
def operator_ends_a_parked_client(mltx: Program) -> None:
    """It is closed, noted and listed no more, and a second time there is none."""
    with parking(mltx) as server, ExitStack() as stack:
        peers = connected(stack, server, 5)
        are(server, parked=5)
        same(posted(server, "/sessions/4/end"), (200, {"ended": 4}), "the command")
        same(peers[3].rest(), b"", "what it hears")
        same(posted(server, "/sessions/4/end")[0], 404, "the second command")
        are(server, sessions=4, parked=4)
        same(commits(peers[4]), 1, "the commit of another")
        ends(server, 5, cut_for(4, BY_OPERATOR))


@test(seconds=1)
def parked_clients_break_off(mltx: Program) -> None:
    """Those that close their connections, and those that reset them, are counted off while all threads are taken."""
    with parking(mltx) as server, ExitStack() as stack:
        for number, peer in enumerate(connected(stack, server, 2), 1):
            says(peer, "begin", f"begun {number}")
        peers = connected(stack, server, 10)
        are(server, sessions=12, parked=10)
        for peer in peers[::2]:
            peer.socket.setsockopt(socket.SOL_SOCKET, socket.SO_LINGER, struct.pack("ii", 1, 0))
        for peer in peers:
            peer.socket.close()
        are(server, sessions=2, parked=0, open=2)
        ends(server, 12, *(cut_for(client, BROKEN) for client in range(3, 13, 2)))


@test(seconds=3)
def stop_of_thousands(mltx: Program) -> None:
    """A thousand clients that stay: all hear the end of their connections at once, and the server has ended within seconds."""
    with parking(mltx) as server, ExitStack() as stack:
        peers = connected(stack, server, 1_000)
        same(commits(peers[500]), 1, "the commit")
        are(server, sessions=1_000, parked=1_000)
        listed = asked(server, "/sessions")["sessions"]
        same(len(listed), 1_000, "the clients that are listed")
        with takes(0, SLACK, "the end of the server"):
            same(posted(server, "/stop")[0], 200, "the command")
            same({peer.rest() for peer in peers}, {b""}, "what they hear")
            ended = server.end(said="")
        expect(ended, out="served 1000\n", notes=[STOPPING])


@test(seconds=1)
def stop_answers_what_has_come(mltx: Program) -> None:
    """A parked client that has spoken before, and whose next lines came before the stop, is answered."""
    with parking(mltx) as server, ExitStack() as stack:
        peers = connected(stack, server, 10)
        same([commits(peer) for peer in peers], list(range(1, 11)), "the commits")
        for peer in peers:
            peer.send("begin\nup 2 1\ncommit\n")
        server.end_input()
        for peer in peers:
            same([line.split()[0] for line in peer.rest().decode().splitlines()], ["begun", "done", "committed"], "the answers")
        expect(server.end(said=""), out="served 10\n", notes=[STOPPING])


# How many there may be.


@test(seconds=1)
def clients_over_the_most_wait(mltx: Program) -> None:
    """The fourth of three clients is answered once another has gone."""
    with parking(mltx, "--clients", 3) as server, ExitStack() as stack:
        peers = connected(stack, server, 3)
        are(server, sessions=3)
        late = stack.enter_context(server.connect())
        late.send("begin\n")
        says_nothing(late, "while three are connected")
        same(counts(server, "sessions", "connections"), {"sessions": 3, "connections": 3}, "who is let in")
        peers[0].socket.close()
        same(late.line(), "begun 1", "what the fourth hears")
        ends(server, 4)


@test(seconds=1)
def clients_over_the_most_are_refused(mltx: Program) -> None:
    """With `--full refuse` it is told so at once, and the first is noted."""
    with parking(mltx, "--clients", 3, "--full", "refuse") as server, ExitStack() as stack:
        connected(stack, server, 3)
        are(server, sessions=3)
        for _ in range(2):
            with server.connect() as late:
                late.hear()
                same(late.heard, TOO_MANY, "what the fourth hears")
        are(server, refused=2, sessions=3)
        ends(server, 3, "the first client was refused, 3 clients are connected (TooManyOpen)")


@test(seconds=1)
def descriptors_run_out(mltx: Program) -> None:
    """A server that may have few descriptors tells for how many clients they do. Those are let in and others wait, and the
    operator is answered all the same."""
    limited = mltx.folder / "limited"
    limited.write_text(f'#!/bin/sh\nulimit -n 40\nexec {mltx.path} "$@"\n')
    limited.chmod(0o755)
    options = ("--endless", "--until-eof", "--sessions", 2)
    few = Program(limited, mltx.folder)
    with few.serve(*options, limit=None, admin=free_address(), stdin=subprocess.PIPE) as server, ExitStack() as stack:
        server.limit = MOST_CONNECTIONS
        server.first_line(), server.first_line()
        told = server.first_line()
        head, tail = "mltx: the limit of descriptors leaves room for ", " clients\n"
        holds(told.startswith(head) and told.endswith(tail), told)
        room = int(told.removeprefix(head).removesuffix(tail))
        holds(15 <= room <= 25, f"{told}, of 40 descriptors")
        peers = connected(stack, server, room + 5)
        are(server, sessions=room, connections=room)
        same([commits(peer) for peer in peers[:room]], list(range(1, room + 1)), "the commits of those that are in")
        says_nothing(peers[room], "for want of descriptors")
        for peer in peers[:5]:
            peer.socket.close()
        same([commits(peer) for peer in peers[room:]], list(range(room + 1, room + 6)), "the commits of the others")
        ends(server, room + 5)


def go_on(address: Address, count: int) -> int:
    """So many clients, each of which begins again once it is answered, until their connections end: how often they commit."""
    commits, transaction = 0, b"begin\nup 1 1\ncommit\n"
    with selectors.DefaultSelector() as selector:
        for _ in range(count):
            client = socket.create_connection(address, PATIENCE)
            client.setsockopt(socket.IPPROTO_TCP, socket.TCP_NODELAY, 1)
            selector.register(client, selectors.EVENT_READ)
            client.sendall(transaction)
        while selector.get_map():
            for key, _ in selector.select(PATIENCE):
                client = cast(socket.socket, key.fileobj)
                heard = b""
                with may_break_off():
                    heard = client.recv(65_536)
                    commits += heard.count(b"committed")
                    if heard.count(b"committed"):
                        client.sendall(transaction)
                if not heard:
                    selector.unregister(client)
                    client.close()
    return commits


@test(seconds=3)
def stop_of_clients_that_go_on(mltx: Program) -> None:
    """Forty clients of four processes with two threads, each of which begins again once it is answered: all hear the end of their
    connections, and the server ends at once."""
    with parking(mltx) as server, ProcessPoolExecutor(4) as processes:
        going = [processes.submit(go_on, server.address, 10) for _ in range(4)]
        comes(server, "/status", lambda told: told["commits"] > 20_000, "they commit")
        with takes(0, 2, "the end of the server"):
            same(posted(server, "/stop")[0], 200, "the command")
            ended = server.end(said="")
        holds(min(it.result(PATIENCE) for it in going) > 0, "some have never committed")
        holds(ended.out == b"served 40\n" and STOPPING in ended.notes, f"{ended}")


@test(seconds=2)
def clients_need_an_end(mltx: Program) -> None:
    """`--clients` goes with `--endless` alone."""
    ran = mltx.run("serve", "127.0.0.1:0", "--clients", 5)
    same((ran.status, ran.out), (2, b""), "the run")
    holds(b"the argument '--clients <N>' cannot be used without '--endless'" in ran.err, f"{ran.err!r}")
