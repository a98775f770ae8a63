"""A server that stays up: what it notes, when it takes no more connections, how it ends, and what becomes of its trace."""
import errno
import fcntl
import os
import pty
import resource
import signal
import socket
import subprocess
import sys
import termios
import threading
import time
from collections.abc import Callable, Iterable, Iterator
from contextlib import contextmanager
from functools import partial
from pathlib import Path
from subprocess import PIPE

from harness import BROKEN, IDLE, LONG_LINE, MANY_BYTES, OPEN_LONG, PATIENCE, ROOT, STOPS, Address, Failed, Peer, Piped, Program
from harness import Server, comes_to_be, cut_for, each, expect, free_address, holds, in_any_order, in_time, lines, listening
from harness import match, may_break_off, notes_apart, of_system, readable, same, takes, test
from sessions import SILENCE, break_off, says_nothing, send_and_hear_nothing
from waits import processor_seconds

IO = "mltx: 13 Io\n"
# How much longer than it has to something may take on a slow machine, in seconds.
SLACK = 5
# How long a transaction may be open, in seconds, where it is cut then.
OPEN = 3
TOO_MANY, GAVE_UP = b"error 7 TooManyOpen\n", b"error 14 GaveUp\n"
NO_SESSION = "the first client was refused, all sessions are taken (TooManyOpen)"


def says(peer: Peer, *asked: str) -> None:
    """Each line is answered so: they come in pairs."""
    for line, answer in zip(asked[::2], asked[1::2], strict=True):
        same(peer.ask(line), answer, line)


def refuses(address: Address) -> bool:
    """Whether nobody listens at an address."""
    try:
        socket.create_connection(address, PATIENCE).close()
    except ConnectionRefusedError:
        return True
    return False


# Accepting.


TRIED_AGAIN = (
    *(errno.EPERM, errno.ENONET, errno.EPROTO, errno.ENOPROTOOPT, errno.EOPNOTSUPP, errno.ENETDOWN, errno.ENETUNREACH),
    *(errno.ECONNABORTED, errno.EHOSTDOWN, errno.EHOSTUNREACH),
)


@each({f"accept-is-tried-again-after-{errno.errorcode[fault]}": fault for fault in TRIED_AGAIN})
def accept_is_tried_again(mltx: Program, fault: int) -> None:
    """Of some in a row the first is noted, and clients are served."""
    note = f"could not accept a connection, trying again: {of_system(fault)}"
    with mltx.serve(limit=2, env=mltx.shim(ACCEPTS=f"{fault} {fault} {fault} 0 {fault} {fault} 0")) as server:
        same(server.talk("begin\nquit\n"), b"begun 1\nbye\n", "the first client")
        same(server.talk("begin\nquit\n"), b"begun 2\nbye\n", "the second client")
        expect(server.end(), out="served 2\n", notes=[note] * 2)


WAIT_FOR_ROOM = (errno.ENOMEM, errno.ENFILE, errno.EMFILE, errno.ENOBUFS)


@each({f"connections-wait-after-{errno.errorcode[fault]}": fault for fault in WAIT_FOR_ROOM})
def connections_wait(mltx: Program, fault: int) -> None:
    """It is noted once, ten tries a second are made, and then all go on."""
    with mltx.serve(limit=2, env=mltx.shim(ACCEPTS=f"0 {' '.join([str(fault)] * 5)} 0")) as server:
        same(server.talk("begin\nquit\n"), b"begun 1\nbye\n", "the first client")
        with takes(0.3, SLACK, "five tries and one that succeeded were made"):
            same(server.talk("begin\nquit\n"), b"begun 2\nbye\n", "the second client")
        notes = [f"could not accept connections, new clients wait: {of_system(fault)}", "accepting connections again"]
        expect(server.end(), out="served 2\n", notes=notes)


@test
def accepts_that_fail_in_two_ways(mltx: Program) -> None:
    """Each way is noted."""
    with mltx.serve(env=mltx.shim(ACCEPTS=f"{errno.EPROTO} {errno.EPROTO} {errno.EMFILE} {errno.EMFILE} 0")) as server:
        same(server.talk("begin\nquit\n"), b"begun 1\nbye\n", "the client")
        notes = [f"could not accept a connection, trying again: {of_system(errno.EPROTO)}"]
        notes += [f"could not accept connections, new clients wait: {of_system(errno.EMFILE)}", "accepting connections again"]
        expect(server.end(), out="served 1\n", notes=notes)


@test(seconds=2)
def no_file_number_is_free(mltx: Program) -> None:
    """The client beyond them waits, and is served once another has left. Who is served goes on, and hardly a processor is
    used. One more may be taken than are free as the limit is set: an accept that goes on has its descriptor."""
    with mltx.serve(limit=5) as server, server.connect() as first:
        says(first, "begin", "begun 1")
        descriptors = len(os.listdir(f"/proc/{server.process.pid}/fd"))
        resource.prlimit(server.process.pid, resource.RLIMIT_NOFILE, (descriptors, descriptors))
        others = [server.connect() for _ in range(2)]
        for other in others:
            other.send("begin\n")
        holds(len(answering(others)) < 2, "both clients beyond the descriptors are served")
        before = processor_seconds(server)
        for _ in range(10):
            time.sleep(0.1)
            says(first, "up 1 1", "done")
        used = processor_seconds(server) - before
        says(first, "commit", "committed 1", "quit", "bye")
        for other in others:
            same(other.line().split()[0], "begun", "a client that waited")
            says(other, "read 1", "is 10", "quit", "bye")
        for number in (4, 5):
            same(server.talk("begin\nquit\n"), f"begun {number}\nbye\n".encode(), "a later client")
        waits = f"could not accept connections, new clients wait: {of_system(errno.EMFILE)}"
        ended, told = server.end(), (waits, "accepting connections again")
        same((ended.status, ended.out, ended.err), (0, b"served 5\n", b""), "the server")
        same(ended.notes, told * (len(ended.notes) // 2), "the notes")
        holds(ended.notes, "nothing was noted")
    in_time(used < 0.5, f"a server without descriptors used {used} seconds of a processor in a second")


@each({f"accepting-ends-after-{errno.errorcode[fault]}": fault for fault in (errno.EINVAL, errno.ENOTSOCK, errno.EBADF)})
def accepting_ends(mltx: Program, fault: int) -> None:
    """Who is served goes on to its end, nobody else connects, and then it is a fault."""
    with mltx.serve(limit=3, env=mltx.shim(ACCEPTS=f"0 {fault}")) as server, server.connect() as peer:
        says(peer, "begin", "begun 1")
        same(server.first_line(), listening(server.address))
        note = f"accepting no more connections: could not accept a connection: {of_system(fault)}"
        same(server.next_note(), note)
        holds(refuses(server.address), "the port takes connections after accepting has ended")
        says(peer, "up 7 1", "done", "commit", "committed 1", "quit", "bye")
        expect(server.end(said=""), status=1, err=IO, notes=[note])


@test
def port_refuses_at_the_limit(mltx: Program) -> None:
    """Once as many connections were accepted as may be, and the clients that are served go on."""
    with mltx.serve(limit=2) as server, server.connect() as first:
        says(first, "begin", "begun 1", "up 1 1", "done")
        same(server.first_line(), listening(server.address))
        with server.connect() as second:
            says(second, "begin", "begun 2")
            same(server.next_note(), "accepting no more connections: the limit of 2 is reached")
            for _ in range(3):
                holds(refuses(server.address), "the port takes connections once the limit is reached")
            says(second, "up 1 2", "done", "commit", "committed 1", "quit", "bye")
            holds(refuses(server.address), "the port takes connections once a client has left")
        says(first, "commit", "committed 2", "begin", "begun 3", "read 1", "is 3", "quit", "bye")
        expect(server.end(said=""), out="served 2\n")


@each({f"note-on-a-limit-of-{limit}": limit for limit in (9, 10, 20)})
def nearly_at_the_limit(mltx: Program, limit: int) -> None:
    """From nine in ten on, of ten or more, it is noted once, as soon as they are taken."""
    noted = limit - limit // 10 if limit >= 10 else limit
    with mltx.serve(limit=limit) as server:
        for _ in range(noted - 1):
            server.talk("quit\n")
        same(server.first_line(), listening(server.address))
        time.sleep(0.2)
        holds(not is_noted(server), "something was noted before")
        server.talk("quit\n")
        wanted = [f"{noted} of {limit} connections are used"] if limit >= 10 else []
        wanted += ["accepting no more connections: the limit of {limit} is reached"] if limit == noted else []
        same([server.next_note() for _ in wanted], [it.format(limit=limit) for it in wanted])
        for _ in range(limit - noted):
            server.talk("quit\n")
        expect(server.end(said=""), out=f"served {limit}\n")


# Who is cut, and by what.


def is_cut(mltx: Program, note: str, options: Iterable[object], talk: Callable[[Peer], object], limit: int = 2) -> None:
    """The first client is cut with this note while it talks, and what its transaction did is taken back: the second one sees
    nothing of it, within a bound."""
    with mltx.serve(*options, limit=limit) as server, server.connect() as peer:
        says(peer, "begin", "begun 1", "up 7 1", "done")
        with server.connect() as other:
            other.socket.settimeout(2 * SLACK)
            # Its own transaction is not to be open for too long, where the first one is.
            time.sleep(OPEN / 2 if note == OPEN_LONG else 0)
            says(other, "begin", "begun 2")
            other.send("read 7\n")
            talk(peer)
            same(other.line(), "is 0", f"another client, once a client is cut since {note}")
            says(other, "commit", "committed 1", "quit", "bye")
        expect(server.end(), out=f"served {limit}\n", notes=[cut_for(1, note)])


def sends_too_many_bytes(peer: Peer) -> None:
    with may_break_off():
        for _ in range(17):
            peer.send((" " * 199 + "\n") * 5_000)


CUTS = {
    "idle": (IDLE, ("--idle", 1), lambda peer: None),
    "long-line": (LONG_LINE, (), lambda peer: peer.send("x" * 201)),
    "reset": (BROKEN, (), break_off),
    "many-bytes": (MANY_BYTES, (), sends_too_many_bytes),
    "open-and-silent": (OPEN_LONG, ("--open", OPEN), lambda peer: None),
}


@each({f"note-on-a-client-that-is-cut-{name}": case for name, case in CUTS.items()}, seconds=1)
def note_on_a_cut(mltx: Program, case: tuple[str, tuple[object, ...], Callable[[Peer], object]]) -> None:
    note, options, talk = case
    is_cut(mltx, note, options, talk)


def asks_until_it_is_cut(peer: Peer) -> None:
    """Reads a counter again and again."""
    with may_break_off():
        while True:
            peer.send("read 8\n")
            if peer.socket.recv(65_536) == b"":
                return


@test(seconds=3)
def busy_client_of_a_transaction_that_is_open_long_is_cut(mltx: Program) -> None:
    """Nothing that it asks for gives it more time."""
    with takes(OPEN, PATIENCE, "a transaction was open too long"):
        is_cut(mltx, OPEN_LONG, ("--open", OPEN), asks_until_it_is_cut)


@test(seconds=6)
def time_of_an_open_transaction_begins_anew(mltx: Program) -> None:
    """A client may be there as long as it likes, without a transaction, and with one after another."""
    with mltx.serve("--open", OPEN) as server, server.connect() as peer:
        time.sleep(OPEN + 0.5)
        for number in range(1, 4):
            says(peer, "begin", f"begun {number}")
            time.sleep(OPEN / 2 - 0.3)
            says(peer, "up 7 1", "done", "commit", f"committed {number}")
        says(peer, "quit", "bye")
        expect(server.end(), out="served 1\n")


@test(seconds=3)
def client_that_waits_in_a_transaction_that_is_open_long_is_cut(mltx: Program) -> None:
    """Where its operation waits for the other one, which began later. Nothing of it is left."""
    with mltx.serve("--open", OPEN, "--sessions", 3, limit=3) as server:
        with server.connect() as holder, server.connect() as waiter, server.connect() as other:
            says(waiter, "begin", "begun 1", "up 2 1", "done")
            time.sleep(OPEN / 2)
            says(holder, "begin", "begun 2", "up 1 1", "done")
            waiter.send("read 1\n")
            says(other, "begin", "begun 3")
            with takes(0.2, PATIENCE, "the waiting client was cut"):
                says(other, "read 2", "is 0")
            says(holder, "commit", "committed 1", "quit", "bye")
            holds(waiter.rest() in (b"", GAVE_UP), "what the client that is cut hears")
            says(other, "commit", "committed 2", "quit", "bye")
        expect(server.end(), out="served 3\n", notes=[cut_for(2, OPEN_LONG)])


@test(seconds=1)
def connections_are_numbered(mltx: Program) -> None:
    """From 1 on, each by how many came before it: also the last of many is named so that is cut."""
    many = 1_200
    with mltx.serve("--sessions", 1, limit=many) as server:
        for number in range(1, many):
            same(server.talk("quit\n"), b"bye\n", f"client {number}")
        with server.connect() as last:
            same(last.say_all("x" * 300 + "\n"), b"error 12 LineTooLong\n", "the last client")
        expect(server.end(), out=f"served {many}\n", notes=[cut_for(many, LONG_LINE)])


@test(seconds=2)
def client_whose_connection_is_reset_while_it_waits_is_found(mltx: Program) -> None:
    """Within a second or so what it did is taken back, and its session serves another, though nobody ends what it waits for."""
    with mltx.serve("--sessions", 2, limit=3) as server, server.connect() as holder:
        says(holder, "begin", "begun 1", "up 1 1", "done")
        with server.connect() as waiter:
            says(waiter, "begin", "begun 2", "up 2 1", "done")
            waiter.send("read 1\n")
            says_nothing(waiter, "the counter is held")
            break_off(waiter)
            with takes(0, 1 + SLACK, "a client that left while it waited was found"), server.connect() as other:
                other.socket.settimeout(PATIENCE)
                says(other, "begin", "begun 3", "read 2", "is 0", "quit", "bye")
        says(holder, "up 1 1", "done", "commit", "committed 1", "quit", "bye")
        expect(server.end(), out="served 3\n", notes=[cut_for(2, BROKEN)])


@test(seconds=2)
def client_that_closes_behind_its_commit_while_it_waits_is_served(mltx: Program) -> None:
    """Its commit, which nobody has read as it closes, is done once its operation is."""
    with mltx.serve("--sessions", 2, limit=3) as server, server.connect() as holder:
        says(holder, "begin", "begun 1", "up 1 1", "done")
        with server.connect() as waiter:
            says(waiter, "begin", "begun 2", "up 2 1", "done")
            waiter.send("read 1\n")
            says_nothing(waiter, "the counter is held")
            waiter.send("commit\n")
        time.sleep(1)
        says(holder, "commit", "committed 1", "quit", "bye")
        same(server.talk("begin\nread 2\n"), b"begun 3\nis 1\n", "another client")
        ended = server.end()
        expect(ended, out="served 3\n", notes=ended.notes)


# What a client sends that then ends its input while an operation of it waits, and all that it is told.
ENDS_OF_INPUT = {
    "behind-more-lines": ("read 1|commit", "is 1|committed 2"),
    "behind-the-operation": ("read 1", "is 1"),
    "behind-the-operation-and-blank-lines": ("read 1||", "is 1"),
}


@each({f"client-that-ends-its-input-{name}-while-it-waits-is-answered": case for name, case in ENDS_OF_INPUT.items()}, seconds=2)
def client_that_ends_its_input_while_it_waits_is_answered(mltx: Program, case: tuple[str, str]) -> None:
    """It is not gone: its operation waits, and it hears the answer, however long that takes."""
    asked, told = case
    with mltx.serve(limit=2) as server, server.connect() as holder, server.connect() as waiter:
        says(holder, "begin", "begun 1", "up 1 1", "done")
        says(waiter, "begin", "begun 2")
        waiter.send(lines(asked))
        waiter.end()
        time.sleep(2)
        says_nothing(waiter, "the counter is held")
        says(holder, "commit", "committed 1", "quit", "bye")
        same(waiter.rest(), lines(told).encode(), "the client that ended its input")
        expect(server.end(), out="served 2\n")


@test(seconds=2)
def client_that_closes_while_it_waits_is_found_once_it_is_answered(mltx: Program) -> None:
    """Until then its operation waits, and it holds what it did."""
    with mltx.serve("--sessions", 3, limit=3) as server, server.connect() as holder, server.connect() as other:
        says(holder, "begin", "begun 1", "up 1 1", "done")
        with server.connect() as waiter:
            says(waiter, "begin", "begun 2", "up 2 1", "done")
            waiter.send("read 1\n")
            says_nothing(waiter, "the counter is held")
        says(other, "begin", "begun 3")
        other.send("read 2\n")
        time.sleep(1)
        says_nothing(other, "the client that closed holds the other counter")
        says(holder, "commit", "committed 1", "quit", "bye")
        same(other.line(), "is 0", "once the client that closed was answered")
        says(other, "quit", "bye")
        ended = server.end()
        expect(ended, out="served 3\n", notes=ended.notes)


# Waits that end.


@test(seconds=2)
def operation_waits_no_longer_than_it_may(mltx: Program) -> None:
    """With `--wait 1` it is told GaveUp after a second, each anew; its transaction goes on, and can commit."""
    with mltx.serve("--wait", 1, limit=2) as server, server.connect() as holder, server.connect() as waiter:
        says(holder, "begin", "begun 1", "up 1 1", "done")
        says(waiter, "begin", "begun 2", "up 2 1", "done")
        for _ in range(2):
            with takes(0.99, 1.25 + SLACK, "an operation that may wait for a second was answered"):
                says(waiter, "read 1", "error 14 GaveUp")
        says(waiter, "up 2 1", "done", "commit", "committed 1")
        says(holder, "commit", "committed 2", "quit", "bye")
        says(waiter, "begin", "begun 3", "read 1", "is 1", "read 2", "is 2", "quit", "bye")
        expect(server.end(), out="served 2\n")


@test(seconds=2)
def one_that_is_behind_another_waits_no_longer_than_it_may(mltx: Program) -> None:
    """With `--wait 1` also one whose turn it is not. Who holds what they wait for goes on."""
    with mltx.serve("--wait", 1, limit=3) as server:
        with server.connect() as holder, server.connect() as waiter, server.connect() as third:
            says(holder, "begin", "begun 1", "up 1 1", "done")
            says(waiter, "begin", "begun 2")
            says(third, "begin", "begun 3")
            with takes(0.99, 1.25 + SLACK, "both were answered"):
                waiter.send("read 1\n")
                says_nothing(waiter, "the counter is held")
                third.send("up 1 2\n")
                same([waiter.line(), third.line()], ["error 14 GaveUp", "done"], "the two that waited")
            says(holder, "up 1 3", "done", "commit", "committed 1", "quit", "bye")
            says(third, "commit", "committed 2", "quit", "bye")
            says(waiter, "read 1", "is 6", "quit", "bye")
        expect(server.end(), out="served 3\n")


@each({"operation-waits-for-ever": (), "operation-waits-for-ever-with-0": ("--wait", 0, "--open", 0)}, seconds=2)
def operation_waits_for_ever(mltx: Program, options: tuple[object, ...]) -> None:
    with mltx.serve(*options, limit=2) as server, server.connect() as holder, server.connect() as waiter:
        says(holder, "begin", "begun 1", "up 1 1", "done")
        says(waiter, "begin", "begun 2")
        waiter.send("read 1\n")
        time.sleep(2)
        says_nothing(waiter, "the counter is held")
        says(holder, "commit", "committed 1", "quit", "bye")
        same(waiter.line(), "is 1", "once the holder has committed")
        says(waiter, "quit", "bye")
        expect(server.end(), out="served 2\n")


# All sessions are taken.


@test(seconds=2)
def client_that_leaves_before_it_is_served(mltx: Program) -> None:
    """What it sent is not done if it broke its connection off, and done if it closed it."""
    with mltx.serve("--sessions", 1, limit=4) as server, server.connect() as holder:
        says(holder, "begin", "begun 1")
        closed, reset = server.connect(), server.connect()
        for number, peer in enumerate((closed, reset), 7):
            peer.send(f"begin\nup {number} 1\ncommit\n")
        time.sleep(1.2)
        closed.socket.close()
        break_off(reset)
        with server.connect() as late:
            says(holder, "quit", "bye")
            holder.socket.close()
            same(late.say_all(lines("begin|read 7|read 8")), lines("begun 3|is 1|is 0").encode(), "a client after those")
        ended = server.end()
        expect(ended, out="served 4\n", notes=ended.notes)
        holds(cut_for(3, BROKEN) in ended.notes, f"the notes are {ended.notes}")


@test(seconds=4)
def client_that_ended_its_input_is_served_however_long_it_queues(mltx: Program) -> None:
    """It has sent all its lines, and the only session thread serves another client for 3 seconds."""
    with mltx.serve("--sessions", 1, limit=2) as server, server.connect() as holder, server.connect() as queued:
        says(holder, "begin", "begun 1")
        queued.send(lines("begin|up 7 1|commit"))
        queued.end()
        for _ in range(6):
            time.sleep(0.5)
            says(holder, "up 8 1", "done")
        says_nothing(queued, "the only session thread serves another client")
        says(holder, "quit", "bye")
        holder.socket.close()
        same(queued.rest(), lines("begun 2|done|committed 1").encode(), "the client that ended its input")
        expect(server.end(), out="served 2\n")


@test(seconds=1)
def clients_that_wait_for_a_session_as_the_server_stops(mltx: Program) -> None:
    """Nothing that they sent is done, and they hear the end of the connection."""
    trace = mltx.folder / "trace"
    with until_eof(mltx, "--sessions", 1, "--trace", trace) as server, server.connect() as holder:
        says(holder, "begin", "begun 1")
        queued = [server.connect() for _ in range(2)]
        for peer in queued:
            peer.send("begin\nup 7 1\ncommit\n")
        time.sleep(0.3)
        server.end_input()
        ended = server.end()
        for peer in (holder, *queued):
            peer.hear()
            same(peer.heard, b"", "a client of a server that stopped")
    notes = sorted((STOPPING, cut_for(2, STOPS), cut_for(3, STOPS)))
    expect(in_any_order(ended), out="served 3\n", notes=notes)
    same(trace.read_text(), lines("begin 1|abort 1"), "the trace")


@test(seconds=1)
def client_is_refused_while_all_sessions_are_taken(mltx: Program) -> None:
    """With `--full refuse` it hears why, and the end, at once, whatever it sent. It counts for nothing, and has no number."""
    with mltx.serve("--full", "refuse", "--sessions", 2, limit=4) as server:
        first, second = server.connect(), server.connect()
        says(first, "begin", "begun 1", "up 1 1", "done")
        says(second, "begin", "begun 2", "up 2 1", "done")
        for sent in ("", "begin\n", "begin\nup 7 1\ncommit\nquit\n", "x" * 1_000) * 10:
            with server.connect() as refused:
                refused.socket.settimeout(2 * SLACK)
                refused.send(sent)
                same(refused.rest(), TOO_MANY, f"a client beyond the sessions, which sent {sent[:20]!r}")
        says(first, "commit", "committed 1", "quit", "bye")
        first.socket.close()
        third = next(one for one in served_after(server) if one)
        says(third, "read 1", "is 1")
        break_off(third)
        fourth = next(one for one in served_after(server) if one)
        says(fourth, "read 1", "is 1", "quit", "bye")
        says(second, "commit", "committed 2", "quit", "bye")
        fourth.socket.close()
        second.socket.close()
        expect(server.end(), out="served 4\n", notes=[NO_SESSION, cut_for(3, BROKEN)])


def served_after(server: Server) -> Iterator[Peer | None]:
    """Clients until one is served: it is not at once that a session is free."""
    deadline = time.monotonic() + PATIENCE
    while time.monotonic() < deadline:
        peer = server.connect()
        peer.send("begin\n")
        answer = peer.line()
        holds(answer.startswith("begun ") or answer + "\n" == TOO_MANY.decode(), f"a client was told {answer}")
        yield peer if answer.startswith("begun ") else None
        time.sleep(0.01)


@test(seconds=1)
def sessions_that_get_no_thread(mltx: Program) -> None:
    """Whichever thread is refused: a server runs with fewer sessions and says with how many, so many clients are served at
    once, and the next one as soon as one of them has left; or it gives up."""
    ran: list[int] = []
    for number in range(1, 12):
        with mltx.serve("--sessions", 6, limit=9, env=mltx.shim(REFUSE_THREADS=str(number))) as server:
            same(server.first_line(), listening(server.address))
            if not serves_a_client(server):
                expect(server.end(said=""), status=1, err="mltx: 1 OutOfMemory\n")
                continue
            peers = [server.connect() for _ in range(6)]
            for peer in peers:
                peer.send("begin\n")
            what = f"all sessions answer, or a note, without thread {number}"
            comes_to_be(lambda: len(readable(peers)) == 6 or is_noted(server), what)
            if is_noted(server):
                ran.append(int(match("^only ([1-5]) of 6 session threads are running$", server.next_note())[1]))
                comes_to_be(lambda: len(readable(peers)) == ran[-1], f"so many sessions answer as {server.noted[-1]}")
                time.sleep(SILENCE)
                same(len(readable(peers)), ran[-1], f"how many sessions answer, where {server.noted[-1]}")
            for peer in peers:
                peer.send("quit\n")
                peer.hear()
                peer.socket.close()
            for _ in range(2):
                holds(server.talk("begin\nquit\n").endswith(b"\nbye\n"), "a later client")
            expect(server.end(said=""), out="served 9\n", notes=server.noted, what=f"without thread {number}")
    same(sorted(set(ran)), [1, 2, 3, 4, 5], "how many sessions ran")


def serves_a_client(server: Server) -> bool:
    """Whether the server serves a client; else it has given up."""
    try:
        return server.talk("quit\n") == b"bye\n"
    except Failed:
        return False


def is_noted(server: Server, seconds: float = 0) -> bool:
    """Whether something is there to be read on standard error, within so many seconds."""
    return bool(readable([server.process.stderr], seconds))


def unsent(peer: Peer) -> int:
    """How many bytes that a peer has sent the server's host has not taken."""
    return int.from_bytes(fcntl.ioctl(peer.socket, termios.TIOCOUTQ, bytes(4)), sys.byteorder)


def takes_no_more(peer: Peer) -> None:
    """Waits until the server takes nothing more of what a peer sends, for a second: its session writes what nobody reads."""
    seen: list[int] = []

    def stands_still() -> bool:
        seen.append(unsent(peer))
        return len(seen) > 50 and seen[-1] > 0 and len(set(seen[-50:])) == 1

    comes_to_be(stands_still, "the server takes no more")


def answering(peers: list[Peer]) -> list[Peer]:
    """Those of the peers that have an answer, once no more come."""
    found, before = readable(peers, 0.3), None
    while found != before:
        time.sleep(0.3)
        found, before = readable(peers), found
    return found


# Notes hold nobody up.


@test(seconds=4)
def notes_that_nobody_reads_hold_nobody_up(mltx: Program) -> None:
    """Two thousand clients are cut one after another, beside a pipe that is full. Who reads at last hears of all: each is noted,
    or counted as lost."""
    count, long = 2_000, "x" * 201
    with mltx.serve("--sessions", 4, "--until-eof", limit=1_000_000, stdin=subprocess.PIPE) as server:
        same(server.first_line(), listening(server.address))
        fill_standard_error(server)
        with takes(0, 60, "two thousand clients were cut"):
            for _ in range(count):
                with server.connect() as peer:
                    peer.send(long)
                    same(peer.rest(), b"error 12 LineTooLong\n", "a client")
        same(server.talk("begin\nquit\n"), b"begun 1\nbye\n", "a client behind them")
        server.end_input()
        time.sleep(1)
        out, err = server.process.communicate(timeout=PATIENCE)
    same((server.process.returncode, out), (0, b"served %d\n" % (count + 1)), "the end")
    rest, notes = notes_apart(err.lstrip(b"x"), server.began)
    lost = [int(note.split()[0]) for note in notes if note.endswith(" lost")]
    cut = [int(note.split()[1]) for note in notes if note.startswith("client ")]
    same(cut, sorted(set(cut)), "the clients that are noted, in order")
    known = {STOPPING, *(f"{number} messages were lost" for number in lost), *(cut_for(number, LONG_LINE) for number in cut)}
    same((rest, set(notes) - known), (b"", set()), "what is none of these notes")
    holds(len(cut) >= 50 and sum(lost) > 0, f"{len(cut)} clients were noted, and {lost} messages were lost")
    same(len(notes) - len(lost) + sum(lost), count + 1, "how many were noted or lost, with the one that it stops")


@test(seconds=4)
def notes_come_at_a_rate(mltx: Program) -> None:
    """A thousand clients are cut, one after another: at most 50 of these messages have the time of one second, and once a second
    a line tells how many are missing. A message that comes once is not left out."""
    count = 1_000
    with until_eof(mltx, "--sessions", 4) as server:
        same(server.first_line(), listening(server.address))
        for _ in range(count):
            same(server.talk("x" * 201), b"error 12 LineTooLong\n", "a client")
        server.end_input()
        ended = server.process.communicate(timeout=PATIENCE)[1].decode().splitlines()
    dates = [line.split(": ")[1] for line in ended if line.endswith(LONG_LINE)]
    most = max(map(dates.count, dates))
    holds(most <= 50, f"{most} messages came in one second")
    lost = [int(match("note ([0-9]+) messages were lost", line)[1]) for line in ended if line.endswith("lost")]
    same(len(dates) + sum(lost), count, "the clients that are noted or lost")
    holds(len(lost) <= len(set(dates)) + 1, f"{len(lost)} lines tell how many were lost in {len(set(dates))} seconds")
    holds(ended[-1].endswith(f": {STOPPING}") or ended[-2].endswith(f": {STOPPING}"), f"the last lines are {ended[-2:]}")


# How long the end of a server waits until its notes are written, in seconds.
LAST_NOTES = 5


def fill_standard_error(server: Server) -> None:
    """Writes what nobody reads into the pipe that the server writes its notes to, until it takes no more."""
    with open(f"/proc/{server.process.pid}/fd/2", "wb", buffering=0, opener=opened_without_waits) as pipe:
        while pipe.write(b"x" * 4096):
            pass


def opened_without_waits(path: str, flags: int) -> int:
    return os.open(path, flags | os.O_NONBLOCK)


@each({f"end-waits-for-no-reader-of-{count}-notes": count for count in (1, 200)}, seconds=7)
def end_waits_for_no_reader(mltx: Program, count: int) -> None:
    """Who has stopped reading standard error, and keeps it open, holds the end up for some seconds only. Notes that are not
    written by then never are; all else is done as ever."""
    trace = mltx.folder / "trace"
    with until_eof(mltx, "--trace", trace) as server:
        same(server.first_line(), listening(server.address))
        fill_standard_error(server)
        for _ in range(count):
            same(server.talk("x" * 201), b"error 12 LineTooLong\n", "a client that is cut")
        told = server.talk("begin\nup 7 1\ncommit\nquit\n")
        same(told, b"begun 1\ndone\ncommitted 1\nbye\n", "a client behind them")
        with takes(0, LAST_NOTES + SLACK, "the server ended"):
            server.end_input()
            out = server.process.stdout.read()
            status = server.process.wait(PATIENCE)
        left = server.process.stderr.read()
    same((status, out), (0, b"served %d\n" % (count + 1)), "the end")
    same(left.strip(b"x"), b"", "what was written of notes")
    expect(mltx.check(trace), out="serial 1\ncounter 7 1\n", what="the check of the trace")


@test(seconds=1)
def server_whose_standard_error_is_full_serves(mltx: Program) -> None:
    """Clients are served, though nobody reads where it listens. Who reads at last gets that first."""
    pipe = mltx.folder / "errors"
    os.mkfifo(pipe)
    with open(pipe, "r+b", buffering=0, opener=opened_without_waits) as reader:
        filled = sum(iter(lambda: reader.write(b"x" * 4096) or 0, 0))
        with mltx.serve(limit=2, redirect=f"2>{pipe}", timeout=SLACK) as server:
            same(server.talk("begin\nquit\n"), b"begun 1\nbye\n", "the first client")
            same(reader.read(filled), b"x" * filled, "what stood in the pipe")
            holds(readable([reader], SLACK), "nothing is written once there is room")
            same(reader.read(4096), listening(server.address).encode(), "what is written first")
            same(server.talk("begin\nquit\n"), b"begun 2\nbye\n", "the second client")
            expect(server.end(), out="served 2\n")


# Signals.


ASK_TO_END = (signal.SIGTERM, signal.SIGINT, signal.SIGHUP)


def held(mltx: Program, before: str = "") -> Program:
    """The program, started as where it is installed, so that signals stop it, by a shell that does this before."""
    start = f'MLTX_PROGRAM="{mltx.path}" exec "{ROOT}/contrib/mltx" "$@"'
    script = Path(mltx.file("held", f"#!/bin/sh\n{before}\n{start}\n"))
    script.chmod(0o755)
    return Program(script, mltx.folder)


@each({f"{it.name.lower()}-stops-a-server": it for it in ASK_TO_END}, seconds=1)
def signal_stops_a_server(mltx: Program, number: signal.Signals) -> None:
    """In order: what is open is taken back, the trace has all, and it tells how many it served. More of them change nothing."""
    trace = mltx.folder / "trace"
    with held(mltx).serve("--trace", trace, limit=9, timeout=3 + 2 * SLACK) as server, server.connect() as peer:
        says(peer, "begin", "begun 1", "up 1 1", "done", "commit", "committed 1", "begin", "begun 2", "up 2 1", "done")
        server.process.send_signal(number)
        server.process.send_signal(number)
        expect(server.end(), out="served 1\n", notes=[STOPPING])
        same(peer.rest(), b"", "what the client hears")
    done, taken_back = "begin 1|op 1 up 1 1 done|commit 1 1|", "begin 2|op 2 up 2 1 done|back 2|abort 2"
    same(trace.read_text(), lines(done + taken_back), "the trace")


@test(seconds=1)
def signals_that_do_not_stop_a_server(mltx: Program) -> None:
    """The program alone ends at once. Where it was started with SIGINT ignored, as in the background of a script, it goes on."""
    for number in ASK_TO_END:
        with mltx.serve() as server, server.connect() as peer:
            says(peer, "begin", "begun 1")
            server.process.send_signal(number)
            same(server.process.wait(SLACK), -number, "the status")
    with held(mltx, "trap '' INT").serve() as server, server.connect() as peer:
        says(peer, "begin", "begun 1")
        server.process.send_signal(signal.SIGINT)
        time.sleep(0.6)
        says(peer, "commit", "committed 1", "quit", "bye")
        expect(server.end(), out="served 1\n")


@contextmanager
def at_terminal(mltx: Program, *options: object) -> Iterator[tuple[Piped, int]]:
    """A server that is started from a terminal of its own, and the other end of that."""
    ours, theirs = pty.openpty()
    words = [mltx.path, "serve", "%s:%d" % free_address(), *map(str, options)]
    get_terminal = partial(fcntl.ioctl, theirs, termios.TIOCSCTTY, 0)
    with Piped(words, 0, None, theirs, PIPE, PIPE, preexec_fn=get_terminal, start_new_session=True) as process:
        os.close(theirs)
        try:
            holds(process.stderr.readline().startswith(b"mltx: listening on "), "it does not listen")
            yield process, ours
        finally:
            process.kill()
            os.close(ours)


@test(seconds=3)
def interrupts_at_a_terminal(mltx: Program) -> None:
    """One is a stop in order, which a trace that nobody reads holds up for 5 seconds. A second one ends the server at once."""
    pipe = mltx.folder / "pipe"
    os.mkfifo(pipe)
    with at_terminal(held(mltx)) as (process, terminal):
        os.write(terminal, b"\x03")
        same((process.wait(2 + SLACK), process.stdout.read()), (0, b"served 0\n"), "the end after one")
    with open(os.open(pipe, os.O_RDONLY | os.O_NONBLOCK), "rb"), at_terminal(held(mltx), "--trace", pipe) as (process, terminal):
        address = match(r"127\S+", str(process.args).replace("'", " "))[0].split(":")
        with Peer(socket.create_connection((address[0], int(address[1])), PATIENCE)) as peer:
            peer.say_all(lines("begin|up 7 1|commit") * 2_000)
        os.write(terminal, b"\x03")
        time.sleep(1)
        same(process.poll(), None, "the status after one")
        os.write(terminal, b"\x03")
        same(process.wait(2), -signal.SIGKILL, "the status after two")


@test(seconds=1)
def terminal_that_closes_stops_a_server(mltx: Program) -> None:
    with at_terminal(held(mltx)) as (process, terminal):
        os.dup2(os.open(os.devnull, os.O_RDWR), terminal)
        same((process.wait(2 + SLACK), process.stdout.read()), (0, b"served 0\n"), "the end")


@test(seconds=1)
def signal_stops_the_first_process_of_a_container(mltx: Program) -> None:
    """Where one can be had. No signal ends such a process that it does not handle, so each of them has to be noticed."""
    words = ["unshare", "--pid", "--fork", "--mount-proc", "--kill-child"]
    if subprocess.run([*words, "true"], capture_output=True).returncode != 0:
        print("    no process of a container can be had here: how signals stop one is not looked at", flush=True)
        return
    script = held(mltx).path
    for number in ASK_TO_END:
        with Piped([*words, script, "serve", "%s:%d" % free_address()], 0, None, subprocess.DEVNULL, PIPE, PIPE) as process:
            holds(process.stderr.readline().startswith(b"mltx: listening on "), "it does not listen")
            first = Path(f"/proc/{process.pid}/task/{process.pid}/children").read_text()
            os.kill(int(first), number)
            same((process.wait(2 + SLACK), process.stdout.read()), (0, b"served 0\n"), f"the end by {number.name}")


@test(seconds=1)
def trace_beyond_the_limit_of_a_file(mltx: Program) -> None:
    """It ends with whole lines, as on a full disk, and clients are served. The signal for that is ignored."""
    trace, count, most = mltx.folder / "trace", 300, 5_000
    with held(mltx).serve("--trace", trace, limit=2) as server, server.connect() as peer:
        says(peer, "begin", "begun 1", "abort", "aborted")
        resource.prlimit(server.process.pid, resource.RLIMIT_FSIZE, (most, most))
        peer.send(lines("begin|up 7 1|commit") * count)
        same([peer.line() for _ in range(3 * count)][-1], f"committed {count}", "the last answer")
        same(server.first_line(), listening(server.address))
        note = f"could not write the trace, which ends here: {of_system(errno.EFBIG)}"
        same(server.next_note(), note)
        says(peer, "begin", f"begun {count + 2}", "quit", "bye")
        server.talk("quit\n")
        expect(server.end(said=""), status=1, out="served 2\n", err=IO, notes=[note])
    text = trace.read_text()
    holds(4_000 < len(text) <= most and text.endswith("\n"), f"{len(text)} bytes, which end in {text[-40:]!r}")
    mltx.accepted(trace)


# The end of standard input.


@contextmanager
def until_eof(mltx: Program, *options: object) -> Iterator[Server]:
    """A server that ends at the end of its standard input, which is open."""
    with mltx.serve("--until-eof", *options, limit=1_000_000, stdin=subprocess.PIPE) as server:
        yield server


STOPPING = "accepting no more connections: the server is shutting down"


@test
def server_ends_with_its_input(mltx: Program) -> None:
    """With no client, with some that have left, and where the input is over at the start. What stands in it counts for
    nothing."""
    with mltx.serve("--until-eof") as server:
        ended = server.end()
        same((ended.status, ended.out, ended.err), (0, b"served 0\n", b""), "a server without input")
    with until_eof(mltx) as server:
        server.process.stdin.write(b"quit\nstop\n\n\x04\x00")
        for number in range(1, 4):
            same(server.talk("begin\nquit\n"), f"begun {number}\nbye\n".encode(), "a client")
        time.sleep(0.3)
        same(server.talk("begin\nquit\n"), b"begun 4\nbye\n", "a client after a while")
        server.end_input()
        expect(server.end(), out="served 4\n", notes=[STOPPING])


@test(seconds=2)
def read_of_standard_input_that_waits_holds_up_nothing(mltx: Program) -> None:
    """As where another process shares the input and was faster: a wait still ends, and so does the server."""
    shim = mltx.shim(FAIL="read 1 -1 4096")
    with mltx.serve("--until-eof", "--wait", 1, limit=2, stdin=subprocess.PIPE, env=shim) as server:
        server.process.stdin.write(b"for another\n")
        server.process.stdin.flush()
        with server.connect() as holder, server.connect() as waiter:
            says(holder, "begin", "begun 1", "up 1 1", "done")
            says(waiter, "begin", "begun 2")
            with takes(0.99, 1.25 + SLACK, "an operation that may wait for a second was answered"):
                says(waiter, "read 1", "error 14 GaveUp")
            says(waiter, "commit", "committed 1", "quit", "bye")
            says(holder, "commit", "committed 2", "quit", "bye")
        expect(server.end(), out="served 2\n")


@test
def server_without_the_option_goes_on_without_input(mltx: Program) -> None:
    with mltx.serve(stdin=subprocess.PIPE) as server, server.connect() as peer:
        says(peer, "begin", "begun 1")
        server.end_input()
        time.sleep(0.5)
        says(peer, "commit", "committed 1", "quit", "bye")
        expect(server.end(), out="served 1\n")


@test(seconds=4)
def input_ends_beside_clients(mltx: Program) -> None:
    """One is silent in a transaction, one waits for it, one is busy, and one has no transaction. All lines that a client hears
    the answers of have been done, nothing else is left, and the trace has all ends."""
    trace = mltx.folder / "trace"
    with until_eof(mltx, "--trace", trace) as server:
        silent, waiter, idle, busy = (server.connect() for _ in range(4))
        says(silent, "begin", "begun 1", "up 1 5", "done")
        says(waiter, "begin", "begun 2", "up 2 5", "done")
        says(idle, "begin", "begun 3", "up 3 7", "done", "commit", "committed 1")
        waiter.send("read 1\n")
        says_nothing(waiter, "the counter is held")
        told: list[str] = []
        working = threading.Thread(target=works_until_its_end, args=(busy, told))
        working.start()
        time.sleep(0.2)
        same(server.first_line(), listening(server.address))
        with takes(0, 3 + 5 + SLACK, "the server ended"):
            server.end_input()
            same(server.next_note(), STOPPING)
            holds(refuses(server.address), "the port takes connections once the input has ended")
            ended = server.end(said="")
        working.join()
        same([peer.rest() for peer in (silent, idle)], [b"", b""], "what silent clients hear")
        holds(waiter.rest() in (b"", b"is 0\n"), "what the waiting client hears")
    same((ended.status, ended.out, ended.err), (0, b"served 4\n", b""), "the server")
    holds(set(ended.notes) <= {STOPPING, *(cut_for(number, STOPS) for number in range(1, 5))}, f"{ended.notes}")
    checked = mltx.check(trace)
    same((checked.status, checked.err), (0, b""), "the check of the trace")
    commits = [line for line in told if line.startswith("committed ")]
    wanted = [b"counter 3 7", *([b"counter 9 %d" % (len(commits))] if commits else [])]
    found = [line for line in checked.out.splitlines() if line.startswith(b"counter")]
    holds(found in (wanted, [b"counter 3 7", b"counter 9 %d" % (len(commits) + 1)]), f"{found}, and {wanted} were told")
    text = trace.read_text()
    same(text.count("begin "), text.count("abort ") + text.count("commit "), "the transactions that have ended in the trace")


def works_until_its_end(peer: Peer, told: list[str]) -> None:
    """Counts up in one transaction after another, until the server ends the connection."""
    with may_break_off():
        while True:
            peer.send("begin\nup 9 1\ncommit\n")
            for _ in range(3):
                try:
                    told.append(peer.line())
                except Failed:
                    return


@test(seconds=12)
def input_ends_beside_a_client_that_never_reads(mltx: Program) -> None:
    """The server waits for nobody's reading: after some eight seconds all is over."""
    with until_eof(mltx) as server, server.connect() as deaf:
        says(deaf, "begin", "begun 1", "up 1 1", "done")
        sending = threading.Thread(target=send_and_hear_nothing, args=(deaf, "foo\n" * 2_000_000))
        sending.start()
        takes_no_more(deaf)
        with takes(0, 3 + 5 + SLACK, "the server ended"):
            server.end_input()
            ended = server.end()
        sending.join()
    same((ended.status, ended.out, ended.err), (0, b"served 1\n", b""), "the server")
    same(ended.notes, (STOPPING, cut_for(1, STOPS)), "the notes")


@test(seconds=4)
def client_that_is_busy_is_cut_as_the_server_stops(mltx: Program) -> None:
    """Of many lines that came at once those are answered that can be in three seconds, in whole lines."""
    with until_eof(mltx) as server, server.connect() as peer:
        says(peer, "read 1", "error 3 NoSuchTx")
        sending = threading.Thread(target=send_for_some_time, args=(peer,))
        sending.start()
        hearing = threading.Thread(target=peer.hear)
        hearing.start()
        time.sleep(0.3)
        with takes(0, 3 + SLACK, "the server ended"):
            server.end_input()
            ended = server.end()
        sending.join()
        hearing.join()
    same((ended.status, ended.out, ended.err), (0, b"served 1\n", b""), "the server")
    holds(set(ended.notes) <= {STOPPING, cut_for(1, STOPS)}, f"{ended.notes}")
    same((set(peer.heard.splitlines()), peer.heard[-1:]), ({b"error 3 NoSuchTx"}, b"\n"), "what it hears")


def send_for_some_time(peer: Peer) -> None:
    """Sends lines nearly without a pause for ten seconds, or until the server breaks the connection off."""
    deadline = time.monotonic() + 10
    with may_break_off():
        while time.monotonic() < deadline:
            peer.send("read 1\n" * 100)
            time.sleep(0.001)


# What can't be had at the start.


@test
def faults_of_a_server_in_their_order(mltx: Program) -> None:
    """Of ADDR, the operator's address and FILE the first that can't be had is told, and nothing else is written or made."""
    trace, away = mltx.folder / "trace", "missing/trace"
    with socket.socket() as used:
        used.bind(("127.0.0.1", 0))
        used.listen()
        in_use, free, other = "%s:%d" % used.getsockname(), "%s:%d" % free_address(), "%s:%d" % free_address()
        in_use_words, away_words = of_system(errno.EADDRINUSE), of_system(errno.ENOENT)
        for words, second in (
            ((in_use, "--admin", in_use, "--trace", away), f"{in_use}: {in_use_words}"),
            ((free, "--admin", in_use, "--trace", away), f"{in_use}: {in_use_words}"),
            ((free, "--admin", other, "--trace", away), f"{away}: {away_words}"),
            ((in_use, "--trace", trace), f"{in_use}: {in_use_words}"),
            ((free, "--admin", in_use, "--trace", trace), f"{in_use}: {in_use_words}"),
        ):
            expect(mltx.run("serve", *words), status=1, err=IO, what=f"serve {words}")
            expect(mltx.run("serve", "-v", *words), status=1, err=f"{IO}mltx: {second}\n", what=f"serve -v {words}")
            holds(not trace.exists(), f"serve {words} made a trace")
