"""What an operator sees of a server and does to it, by HTTP: counts, waits, sessions, the page; the end of a session, or all."""
import errno
import http.client
import itertools
import json
import os
import re
import resource
import signal
import socket
import subprocess
import threading
import time
from collections.abc import Callable, Iterator
from concurrent.futures import ThreadPoolExecutor
from contextlib import ExitStack, contextmanager, suppress
from pathlib import Path
from typing import Any

from harness import BY_OPERATOR, PATIENCE, ROOT, STOPS, Failed, Peer, Program, Server, cut_for, each, expect, free_address, holds
from harness import in_time, match, may_break_off, of_system, same, takes, test
from live_traces import under_load
from pages import browsers
from sessions import says_nothing, send_and_hear_nothing
from serving import NO_SESSION, SLACK, STOPPING, TOO_MANY, held, is_noted, refuses, says, takes_no_more

JSON, TEXT = "application/json", "text/plain; charset=utf-8"
MARK = {"X-Mltx": "1"}
Row = dict[str, Any]
NUMBERS = [
    *("server", "seconds", "sessions", "session_threads", "queued", "parked", "connections", "refused", "limit", "open", "begun"),
    *("most_begun", "operations", "commits", "aborts", "gave_up", "deadlocks", "no_room", "events", "items", "bytes", "pages"),
    *("most_pages", "depth", "room", "trace", "trace_failed", "saves", "loading", "stopping"),
]
TIMES = ("transaction_times", "wait_times", "queue_times")
# The greatest time of each bucket but the last, in microseconds.
BOUNDS = [step * 10**power for power in range(1, 8) for step in (1, 2, 5) if 50 <= step * 10**power <= 10**7]
# The header, 256 pages of a directory of depth 16, and a bucket for each of its 65,536 entries. A bucket has room for eight.
MOST_PAGES, ROOM = 1 + 256 + 65_536, 8 * 65_536
NO_MEMORY = "the first operation was refused for lack of memory (OutOfMemory)"
NO_ROOM, DEEPEST = "the first operation was refused for lack of room (NoRoom)", "the directory has reached its greatest depth, 16"


@contextmanager
def operated(mltx: Program, *options: object, limit: int | None = 1_000) -> Iterator[Server]:
    """A server with an operator, which is killed at the end of the block where it has not ended."""
    with mltx.serve(*options, limit=limit, admin=free_address()) as server:
        server.first_line()
        same(server.first_line(), "mltx: admin on %s:%d\n" % server.admin)
        yield server


def answer(server: Server, path: str, method: str = "GET", headers: dict[str, str] | None = None) -> tuple[int, str, bytes]:
    """The status of an answer, its kind and its bytes. It ends the connection, and is the newest that there is."""
    connection = http.client.HTTPConnection(*server.admin, timeout=PATIENCE)
    try:
        connection.request(method, path, headers=headers or {})
        got = connection.getresponse()
        body = got.read()
    finally:
        connection.close()
    same(got.getheader("connection"), "close", f"{method} {path}")
    same((got.version, got.getheader("content-length")), (11, str(len(body))), f"{method} {path}")
    return got.status, got.getheader("content-type", ""), body


def asked(server: Server, path: str) -> Any:
    """What a path tells, which is JSON in one line."""
    status, kind, body = answer(server, path)
    same((status, kind, body.count(b"\n"), body[-1:]), (200, JSON, 1, b"\n"), path)
    return json.loads(body)


def version(mltx: Program) -> str:
    """The version of the program."""
    return mltx.run("--version").out.decode().removeprefix("mltx ").rstrip("\n")


def counts(server: Server, *names: str) -> dict[str, int]:
    """These of the server's numbers."""
    told = asked(server, "/status")
    return {name: told[name] for name in names}


def posted(server: Server, path: str, headers: dict[str, str] = MARK) -> tuple[int, object]:
    """What a command is told."""
    status, kind, body = answer(server, path, "POST", headers)
    return (status, json.loads(body)) if kind == JSON else (status, None)


def comes(server: Server, path: str, is_so: Callable[[Any], object], what: str) -> None:
    """Asks until an answer is so."""
    deadline = time.monotonic() + PATIENCE
    while not is_so(told := asked(server, path)):
        holds(time.monotonic() < deadline, f"it never came that {what}: {told}")
        time.sleep(0.02)


def at_rest(rows: list[Row]) -> list[Row]:
    """The rows without their times, each of which is a whole number of no more milliseconds than a test takes."""
    left = []
    for row in rows:
        at = row["milliseconds"]
        holds(isinstance(at, int) and 0 <= at < 1_000 * PATIENCE, f"milliseconds of {row}")
        left.append({name: value for name, value in row.items() if name != "milliseconds"})
    return left


# What is told.


@test
def status_of_a_server_without_clients(mltx: Program) -> None:
    """All numbers in their order, and what they are at the start."""
    with operated(mltx, "--sessions", 5, limit=77) as server:
        comes(server, "/status", lambda told: told["session_threads"] == 5, "all session threads run")
        told = asked(server, "/status")
        same(list(told), [NUMBERS[0], "version", "address", *NUMBERS[1:], "memory", *TIMES], "the names")
        holds(all(type(told[name]) is int for name in NUMBERS), f"{told}")
        same((told["version"], told["address"]), (version(mltx), "%s:%d" % server.address), "the program, and where it listens")
        no_times = {"bounds": BOUNDS, "counts": 18 * [0], "microseconds": 0}
        same([told[name] for name in TIMES], 3 * [no_times], "the times at the start")
        most = {"limit": 77, "most_begun": 2**32, "most_pages": MOST_PAGES, "room": ROOM}
        others = ("server", "seconds", "session_threads", "bytes", "pages", *most)
        nothing = {name: 0 for name in NUMBERS if name not in others}
        same({name: told[name] for name in nothing}, nothing, "what is 0 at the start")
        same({name: told[name] for name in most}, most, "the limits")
        holds(0 <= told["pages"] < told["most_pages"] and told["seconds"] <= SLACK, f"{told}")


@test
def number_of_a_server(mltx: Program) -> None:
    """It is the same as long as the server runs, another one's is not, and doubles have it exactly."""
    endless = {"limit": 2**63 - 1, "most_begun": 2**63 - 1}
    with operated(mltx) as server, mltx.serve("--endless", limit=None, admin=free_address()) as other:
        same(other.first_line().split()[:3], ["mltx:", "listening", "on"], "the other server")
        same(counts(other, *endless), endless, "the limits without an end")
        one, again, another = [counts(it, "server")["server"] for it in (server, server, other)]
    holds(one == again != another and max(one, another) < 2**53, f"{one}, then {again}; another server: {another}")
    with mltx.serve("-v", admin=free_address()) as server:
        server.first_line()
        number = counts(server, "server")["server"]
        server.talk("quit\n")
        expect(server.end(said="mltx: admin on %s:%d\n" % server.admin), out="served 1\n", err=f"mltx: server {number}\n")


@test
def note_on_an_operator_from_other_machines(mltx: Program) -> None:
    """Where the address is not loopback, it is noted at the start."""
    for host in ("0.0.0.0", "127.0.0.1"):
        with mltx.serve(admin=(host, free_address()[1])) as server:
            server.talk("quit\n")
            note = "the admin address %s:%d is not loopback" % server.admin
            expect(server.end(), out="served 1\n", notes=[note] if host == "0.0.0.0" else [])


@test(seconds=1)
def trace_that_fails_is_told(mltx: Program) -> None:
    """Once something is written of it: the file is a disk that is full."""
    with operated(mltx, "--trace", "/dev/full") as server, server.connect() as peer:
        same(counts(server, "trace", "trace_failed"), {"trace": 1, "trace_failed": 0}, "before anything is written")
        says(peer, "begin", "begun 1", "up 1 1", "done", "commit", "committed 1")
        comes(server, "/status", lambda told: told["trace_failed"] == 1, "the trace has failed")
        holds(b"\nmltx_trace_failed 1\n" in answer(server, "/metrics")[2], "it has failed, as metrics tell it")


WORK = ("begin", "open 1", "deposit 1 5", "commit", "begin", "up 7 1", "abort", "begin", "read 7")
COUNTED = {"begun": 3, "operations": 4, "commits": 1, "aborts": 1, "gave_up": 0, "deadlocks": 0, "open": 1}
# Of the first transaction 4, of the second 4 with one that takes back, of the third 2: as a trace has lines.
ITEMS = 10


@test(seconds=2)
def counts_are_what_clients_did(mltx: Program) -> None:
    """Of transactions, operations and items of the history; of connections and sessions; and of time."""
    with operated(mltx, "--sessions", 2, limit=9) as server:
        same(server.talk("quit\n"), b"bye\n", "a client that does nothing")
        comes(server, "/status", lambda told: told["sessions"] == 0, "the client has left")
        same(counts(server, "connections", "begun"), {"connections": 1, "begun": 0}, "after a client that does nothing")
        with server.connect() as peer, server.connect() as other:
            told = [peer.ask(line) for line in WORK]
            same(told[-1], "is 0", f"what a client was told: {told}")
            same(other.ask("foo"), "error 10 ScriptFault", "another client")
            same(counts(server, *COUNTED), COUNTED, "what clients did")
            now = {"items": ITEMS, "sessions": 2, "connections": 3, "queued": 0}
            same(counts(server, *now), now, "what there is")
            before = counts(server, "events", "bytes")
            with server.connect() as third:
                third.send("begin\n")
                comes(server, "/status", lambda told: (told["sessions"], told["queued"]) == (2, 1), "a client is queued")
                holds(b"\nmltx_queued_connections 1\n" in answer(server, "/metrics")[2], "a client is queued, as metrics tell it")
                time.sleep(1.1)
                holds(1 <= counts(server, "seconds")["seconds"] <= 1 + 2 * SLACK, "the seconds after more than one")
                says(other, "quit", "bye")
                same(third.line(), "begun 4", "the client that was queued")
                says(third, "up 8 1", "done", "commit", "committed 2", "quit", "bye")
            after = counts(server, "events", "bytes", "items")
            holds(after["events"] > before["events"] and after["bytes"] > before["bytes"] > 0, f"{before}, and then {after}")
            same(after["items"], ITEMS + 3, "the items")


@test
def operations_that_are_given_up_are_counted(mltx: Program) -> None:
    """One of a circle, which is counted as a deadlock too, and one that has spent its tries, which is none."""
    with operated(mltx) as server, server.connect() as first, server.connect() as second:
        says(first, "begin", "begun 1", "up 1 1", "done")
        says(second, "begin", "begun 2", "up 2 1", "done")
        first.send("read 2\n")
        says_nothing(first, "the counter is held")
        same(second.ask("read 1"), "error 14 GaveUp", "the youngest of a circle")
        told = {"gave_up": 1, "deadlocks": 1, "operations": 2, "aborts": 0}
        same(counts(server, *told), told, "once one has given up")
        says(second, "abort", "aborted")
        same(first.line(), "is 0", "the other of the circle")
        told |= {"operations": 3, "aborts": 1}
        same(counts(server, *told), told, "once it has aborted")
    with operated(mltx, "--tries", 1) as server, server.connect() as first, server.connect() as second:
        says(first, "begin", "begun 1", "up 1 1", "done")
        says(second, "begin", "begun 2", "read 1", "error 14 GaveUp", "read 1", "error 14 GaveUp")
        same(counts(server, "gave_up", "deadlocks", "operations"), {"gave_up": 2, "deadlocks": 0, "operations": 1})


@test
def pages_and_depth_are_those_of_the_directory(mltx: Program) -> None:
    """Eight accounts with a low pseudokey of 0 fill a bucket, and one that differs in its first bit has the directory double."""
    with operated(mltx, "--hash", "low") as server, server.connect() as peer:
        says(peer, "begin", "begun 1", *(word for number in range(8) for word in (f"open {number}", "opened")))
        before = counts(server, "depth", "pages")
        same(before["depth"], 0, "the depth with eight accounts")
        says(peer, "open 32768", "opened", "commit", "committed 1")
        after = counts(server, "depth", "pages")
        same((after["depth"], after["pages"] > before["pages"]), (1, True), f"{before}, and then {after}")


def nine_for_each(pair: int) -> list[int]:
    """Nine counters with low pseudokeys that are one but for the last bit: a bucket has room for eight, so two come to be."""
    return [2 * pair + 65_536 * number for number in range(5)] + [2 * pair + 1 + 65_536 * number for number in range(4)]


@test(seconds=2)
def notes_on_no_room_and_on_the_deepest_directory(mltx: Program) -> None:
    """Once each. Eight counters with a low pseudokey of 0 fill a bucket, which no split makes room in for a ninth; one that
    differs in the last bit alone has the directory double sixteen times."""
    with operated(mltx, "--hash", "low", limit=2) as server, server.connect() as peer:
        says(peer, "begin", "begun 1", *(word for number in range(8) for word in (f"up {65_536 * number} 1", "done")))
        same(counts(server, "depth", "no_room"), {"depth": 0, "no_room": 0}, "with eight counters")
        holds(not is_noted(server, 0.6), "something was noted before")
        says(peer, f"up {65_536 * 8} 1", "error 2 NoRoom")
        same(server.next_note(), NO_ROOM)
        says(peer, f"up {65_536 * 9} 1", "error 2 NoRoom")
        same(counts(server, "depth", "no_room"), {"depth": 0, "no_room": 2}, "with two that have no room")
        says(peer, "up 1 1", "done")
        same(server.next_note(), DEEPEST)
        same(counts(server, "depth", "no_room"), {"depth": 16, "no_room": 2}, "with one of another pseudokey")
        says(peer, f"up {65_536 * 8} 1", "error 2 NoRoom", "commit", "committed 1")
        holds(not is_noted(server, 0.6), "something was noted again")
        says(peer, "quit", "bye")
        server.talk("quit\n")
        expect(server.end(said=""), out="served 2\n", notes=[NO_ROOM, DEEPEST])


@test
def refused_clients_are_counted(mltx: Program) -> None:
    """With `--full refuse`, apart from connections. The first one is noted."""
    names = ("sessions", "queued", "connections", "refused")
    with operated(mltx, "--full", "refuse", "--sessions", 1, limit=2) as server:
        with server.connect() as holder:
            says(holder, "begin", "begun 1")
            same(counts(server, *names), dict(zip(names, (1, 0, 1, 0))), "with one client")
            for number in (1, 2, 3):
                same(server.talk("begin\n"), TOO_MANY, "a client beyond the sessions")
                same(counts(server, *names), dict(zip(names, (1, 0, 1, number))), f"with {number} refused")
            same(server.next_note(), NO_SESSION)
            holds(b"\nmltx_refused_connections_total 3\n" in answer(server, "/metrics")[2], "/metrics tells another number")
            says(holder, "quit", "bye")
        comes(server, "/status", lambda told: told["sessions"] == 0, "the client has left")
        server.talk("quit\n")
        expect(server.end(said=""), out="served 2\n", notes=[NO_SESSION])


@test(seconds=6)
def note_on_pages_that_get_few(mltx: Program) -> None:
    """From nine in ten of the pages on it is noted once; not before, and clients go on. The directory is deep at once, which is
    noted with the first operation that finds no room."""
    with operated(mltx, "--hash", "low", limit=2) as server, server.connect() as peer:
        most, before, pairs, begun = MOST_PAGES, 0, iter(range(32_768)), 0
        while 10 * (now := counts(server, "pages")["pages"]) < 9 * most:
            holds(not is_noted(server), f"a note with {before} of {most} pages")
            before, begun = now, begun + 1
            counters = [counter for pair in itertools.islice(pairs, 110) for counter in nine_for_each(pair)]
            peer.send("".join(line + "\n" for line in ("begin", *(f"up {counter} 1" for counter in counters), "commit")))
            told = {peer.line() for _ in range(len(counters) + 2)}
            same(told, {f"begun {begun}", "done", f"committed {begun}"}, f"a client with {before} of {most} pages")
            same(counts(server, "depth", "no_room"), {"depth": 16, "no_room": 0}, "a deep directory")
        holds(is_noted(server, SLACK), f"nothing is noted with {now} of {most} pages")
        note = server.next_note()
        found = match(rf"^(\d+) of {most} pages are used$", note)
        holds(9 * most <= 10 * int(found[1]) <= 10 * now, f"{note}, with {before} and then {now} of {most} pages")
        says(peer, "begin", f"begun {begun + 1}", "read 0", "is 1", "up 0 1", "done")
        holds(not is_noted(server, 0.6), "something was noted before an operation found no room")
        full = [f"up {65_536 * number} 1" for number in range(20_000, 20_009)]
        peer.send("".join(line + "\n" for line in full))
        same({peer.line() for _ in full} - {"done"}, {"error 2 NoRoom"}, "nine more counters of one pseudokey")
        same([server.next_note(), server.next_note()], [DEEPEST, NO_ROOM])
        says(peer, "quit", "bye")
        server.talk("quit\n")
        expect(server.end(said=""), out="served 2\n", notes=[note, DEEPEST, NO_ROOM])


# What a server tells once `busy` has made these numbers, each another one but for zeros. Words in capitals are not known.
STATUS_TEXT = (
    '{"server":SERVER,"version":"VERSION","address":"ADDRESS","seconds":SECONDS,'
    '"sessions":6,"session_threads":7,"queued":0,"parked":0,"connections":8,"refused":0,"limit":77,"open":5,'
    '"begun":24,"most_begun":4294967296,"operations":14,"commits":10,"aborts":9,"gave_up":3,"deadlocks":2,"no_room":0,'
    '"events":EVENTS,"items":59,"bytes":3744,"pages":4,"most_pages":65793,"depth":1,"room":524288,"trace":0,'
    '"trace_failed":0,"saves":0,"loading":0,"stopping":0,"memory":MEMORY,'
    '"transaction_times":TIMES,"wait_times":TIMES,"queue_times":TIMES}\n'
)
TIMES_TEXT = f'{{"bounds":[{",".join(map(str, BOUNDS))}],"counts":[COUNTS],"microseconds":SUM}}'

METRICS_TEXT = """\
# HELP mltx_build_info The version of the program, its commit where that is known, and whether it is proved.
# TYPE mltx_build_info gauge
BUILD
# HELP mltx_server A number that the server drew at random when it started.
# TYPE mltx_server gauge
mltx_server SERVER
# HELP mltx_uptime_seconds Seconds since the server began to listen.
# TYPE mltx_uptime_seconds gauge
mltx_uptime_seconds SECONDS
# HELP mltx_sessions Clients that are connected to a server without an end, or else served.
# TYPE mltx_sessions gauge
mltx_sessions 6
# HELP mltx_session_threads Threads that serve sessions.
# TYPE mltx_session_threads gauge
mltx_session_threads 7
# HELP mltx_queued_connections Connections that wait for a session thread.
# TYPE mltx_queued_connections gauge
mltx_queued_connections 0
# HELP mltx_parked_connections Connections that are idle with no transaction open, and have no session thread.
# TYPE mltx_parked_connections gauge
mltx_parked_connections 0
# HELP mltx_connections_total Connections that were accepted.
# TYPE mltx_connections_total counter
mltx_connections_total 8
# HELP mltx_refused_connections_total Clients that were refused since all sessions were taken.
# TYPE mltx_refused_connections_total counter
mltx_refused_connections_total 0
# HELP mltx_connection_limit Connections that the server accepts at most.
# TYPE mltx_connection_limit gauge
mltx_connection_limit 77
# HELP mltx_open_transactions Transactions that are open.
# TYPE mltx_open_transactions gauge
mltx_open_transactions 5
# HELP mltx_transactions_begun_total Transactions that were begun.
# TYPE mltx_transactions_begun_total counter
mltx_transactions_begun_total 24
# HELP mltx_transaction_limit Transactions that can begin at most.
# TYPE mltx_transaction_limit gauge
mltx_transaction_limit 4294967296
# HELP mltx_operations_total Operations that were done.
# TYPE mltx_operations_total counter
mltx_operations_total 14
# HELP mltx_commits_total Transactions that committed.
# TYPE mltx_commits_total counter
mltx_commits_total 10
# HELP mltx_aborts_total Transactions that aborted.
# TYPE mltx_aborts_total counter
mltx_aborts_total 9
# HELP mltx_gave_up_total Operations that were answered GaveUp.
# TYPE mltx_gave_up_total counter
mltx_gave_up_total 3
# HELP mltx_deadlocks_total Operations that were answered GaveUp to end a deadlock.
# TYPE mltx_deadlocks_total counter
mltx_deadlocks_total 2
# HELP mltx_no_room_total Operations that were answered NoRoom.
# TYPE mltx_no_room_total counter
mltx_no_room_total 0
# HELP mltx_events_total Events of the transaction manager.
# TYPE mltx_events_total counter
mltx_events_total EVENTS
# HELP mltx_history_items Items of the history that are in memory.
# TYPE mltx_history_items gauge
mltx_history_items 59
# HELP mltx_history_bytes Bytes of the history and the outcomes in memory.
# TYPE mltx_history_bytes gauge
mltx_history_bytes 3744
# HELP mltx_pages Pages that are in use.
# TYPE mltx_pages gauge
mltx_pages 4
# HELP mltx_most_pages Pages that there can be at most.
# TYPE mltx_most_pages gauge
mltx_most_pages 65793
# HELP mltx_directory_depth Depth of the hash directory.
# TYPE mltx_directory_depth gauge
mltx_directory_depth 1
# HELP mltx_room Objects that there can be at most, if their pseudokeys spread evenly.
# TYPE mltx_room gauge
mltx_room 524288
# HELP mltx_trace 1 if there is a trace, else 0.
# TYPE mltx_trace gauge
mltx_trace 0
# HELP mltx_trace_failed 1 if the trace could not be written, else 0.
# TYPE mltx_trace_failed gauge
mltx_trace_failed 0
# HELP mltx_saves 1 if the server can save its base, else 0.
# TYPE mltx_saves gauge
mltx_saves 0
# HELP mltx_loading 1 if the server is loading its data, else 0.
# TYPE mltx_loading gauge
mltx_loading 0
# HELP mltx_stopping 1 if the server is shutting down, else 0.
# TYPE mltx_stopping gauge
mltx_stopping 0
# HELP mltx_transaction_seconds Seconds from the answer to begin to the end of the transaction.
# TYPE mltx_transaction_seconds histogram
TRANSACTION_TIMES
# HELP mltx_wait_seconds Seconds for which an operation waited for other transactions.
# TYPE mltx_wait_seconds histogram
WAIT_TIMES
# HELP mltx_queue_seconds Seconds for which a connection waited for a session thread.
# TYPE mltx_queue_seconds histogram
QUEUE_TIMES
"""


def histogram_text(name: str, times: Row) -> str:
    """The lines of a histogram, as Prometheus reads them."""
    sums = list(itertools.accumulate(times["counts"]))
    rows = [f'_bucket{{le="{bound / 10**6:.6f}"}} {count}' for bound, count in zip(BOUNDS, sums)]
    rows += [f'_bucket{{le="+Inf"}} {sums[-1]}', f"_sum {times['microseconds'] / 10**6:.6f}", f"_count {sums[-1]}"]
    return "\n".join(f"mltx_{name}_seconds{row}" for row in rows)


@contextmanager
def busy(server: Server) -> Iterator[None]:
    """What STATUS_TEXT tells, as long as the block lasts, of a server with `--sessions 7 --hash low --wait 2 --limit 77`."""
    # Nine accounts, of which the last one has the directory double: a header, a page of the directory and two buckets.
    opens = [f"open {account}" for account in (*range(8), 32_768)]
    lines = ["begin", *opens, "commit", *9 * ["begin", "commit"], *7 * ["begin", "abort"], "quit"]
    server.talk("".join(line + "\n" for line in lines))
    server.talk("quit\n")
    comes(server, "/status", lambda told: (told["sessions"], told["session_threads"]) == (0, 7), "the first two have left")
    with ExitStack() as open_ones:
        one, other, *more = [open_ones.enter_context(server.connect()) for _ in range(6)]
        says(one, "begin", "begun 18", "deposit 1 5", "done")
        for begun, account in ((19, 2), (20, 3)):
            # A circle, which the youngest gives up.
            says(other, "begin", f"begun {begun}", f"deposit {account} 5", "done")
            one.send(f"balance {account}\n")
            says_nothing(one, "the account is held")
            says(other, "balance 1", "error 14 GaveUp", "abort", "aborted")
            same(one.line(), "is 0", "the one that goes on")
        # One that waits for too long.
        says(other, "begin", "begun 21", "balance 1", "error 14 GaveUp")
        for begun, peer in enumerate(more[1:], 22):
            says(peer, "begin", f"begun {begun}")
        same(more[0].ask("foo"), "error 10 ScriptFault", "one without a transaction")
        # The history has 11 items of the first transaction, 2 of each of the next 16, 4 of each that gave up, and 8 of those that
        # are open. An item takes 32 bytes, the end of one of 19 transactions 80, and one of 14 operations 24.
        yield


@test(seconds=4)
def numbers_as_texts(mltx: Program) -> None:
    """Byte by byte, as JSON and as Prometheus reads them; seconds and events are numbers that may be."""
    with operated(mltx, "--sessions", 7, "--hash", "low", "--wait", 2, limit=77) as server, busy(server):
        told = asked(server, "/status")
        (*status, json_text), (*metrics, metrics_text) = [answer(server, path) for path in ("/status", "/metrics")]
        most_seconds = asked(server, "/status")["seconds"]
    same((status, metrics), ([200, JSON], [200, "text/plain; version=0.0.4; charset=utf-8"]), "the answers")
    holds(2 <= told["seconds"] <= 4 * SLACK, f"{told['seconds']} seconds")
    # Each transaction has a begin, 19 an end, and each operation at least a call and a step.
    holds(told["events"] > 24 + 19 + 2 * 14, f"{told['events']} events")
    # 19 transactions have ended, and four operations have waited: two that ended a circle, one of each of these, or none that was
    # given up at once, and one for two seconds.
    transactions, waits, queues = (told[name] for name in TIMES)
    same(sum(transactions["counts"]), 19, "the transactions that have ended")
    holds(3 <= sum(waits["counts"]) <= 5 and sum(waits["counts"][14:]) == 1, f"{waits}")
    same(sum(queues["counts"]), told["connections"], "the connections that were taken")
    holds(2 * 10**6 <= waits["microseconds"] <= 10**6 * SLACK * 4, f"{waits}")
    status_text = STATUS_TEXT.replace("TIMES", re.sub("COUNTS|SUM", "N", TIMES_TEXT))
    json_text = re.sub(rb'("counts":\[)[0-9,]+(\],"microseconds":)[0-9]+', rb"\1N\2N", json_text)
    status_text = status_text.replace("VERSION", version(mltx)).replace("ADDRESS", "%s:%d" % server.address)
    status_text = status_text.replace("MEMORY", str(told["memory"]))
    metrics_wanted = METRICS_TEXT.replace("TRANSACTION_TIMES", histogram_text("transaction", transactions))
    metrics_wanted = metrics_wanted.replace("WAIT_TIMES", histogram_text("wait", waits))
    metrics_wanted = metrics_wanted.replace("QUEUE_TIMES", histogram_text("queue", queues)).replace("BUILD", build_info(mltx))
    metrics_text = metrics_text.partition(b"# HELP process_")[0]
    json_text = re.sub(rb'("memory":)[0-9]+', rb"\g<1>%d" % told["memory"], json_text)
    for name, body, text in (("/status", json_text, status_text), ("/metrics", metrics_text, metrics_wanted)):
        found = match('("seconds":|\nmltx_uptime_seconds )([0-9]+)', body.decode())
        holds(told["seconds"] <= int(found[2]) <= most_seconds, f"{name} tells {found} as seconds")
        wanted = text.replace("SECONDS", found[2])
        for word, number in (("EVENTS", "events"), ("SERVER", "server")):
            wanted = wanted.replace(word, str(told[number]))
        same((body.decode().splitlines(), body[-1:]), (wanted.splitlines(), b"\n"), name)


def build_info(mltx: Program) -> str:
    """What the metrics tell of a program of this version."""
    number, commit = match(r"^([0-9.]+)(?: \((?:([0-9a-f]{12}\+?)(?:, )?)?(?:not proved)?\))?$", version(mltx)).groups(default="")
    proved = "no" if "not proved" in version(mltx) else "yes"
    return f'mltx_build_info{{version="{number}",commit="{commit}",proved="{proved}"}} 1'


@test(seconds=1)
def process_as_prometheus_names_it(mltx: Program) -> None:
    """What the metrics tell of the process is what the system does."""
    kinds = {
        "process_cpu_seconds_total": "counter",
        **dict.fromkeys(("process_virtual_memory_bytes", "process_resident_memory_bytes", "process_open_fds"), "gauge"),
        **dict.fromkeys(("process_max_fds", "process_start_time_seconds"), "gauge"),
    }
    began = time.time()
    with operated(mltx, "--sessions", 8) as server:
        resource.prlimit(server.process.pid, resource.RLIMIT_NOFILE, (345, 345))
        comes(server, "/status", lambda told: told["session_threads"] == 8, "all session threads run")
        folder = Path(f"/proc/{server.process.pid}")
        before = process_of(folder)
        text = answer(server, "/metrics")[2].decode()
        after = process_of(folder)
        memory = asked(server, "/status")["memory"]
    told = {name: float(match(rf"(?m)^{name} ([0-9.]+)$", text)[1]) for name in kinds}
    for name, kind in kinds.items():
        match(rf"(?m)^# HELP {name} \w.*\n# TYPE {name} {kind}\n{name} ", text)
    for name in ("process_cpu_seconds_total", "process_virtual_memory_bytes", "process_resident_memory_bytes"):
        least, most = sorted((before[name], after[name]))
        holds(0.9 * least <= told[name] <= 1.1 * most, f"{name} is {told[name]}, and the system says {least} and then {most}")
    resident = told["process_resident_memory_bytes"]
    holds(0.5 * resident < memory < 2 * resident, f"the memory is {memory}, and then {resident}")
    # A connection, with what was opened for it, is the operator's.
    open_before = before["process_open_fds"]
    holds(open_before <= told["process_open_fds"] <= open_before + 3, f"{told}, and before {open_before} descriptors")
    same(told["process_max_fds"], 345, "the descriptors that there can be")
    holds(began - 1 <= told["process_start_time_seconds"] <= began + SLACK, f"it began at {told}, and not at {began}")


def process_of(folder: Path) -> dict[str, float]:
    """What the system says of a process, under the names of metrics."""
    fields = (folder / "stat").read_text().rpartition(")")[2].split()
    return {
        "process_cpu_seconds_total": (int(fields[11]) + int(fields[12])) / os.sysconf("SC_CLK_TCK"),
        "process_virtual_memory_bytes": int(fields[20]),
        "process_resident_memory_bytes": int(fields[21]) * resource.getpagesize(),
        "process_open_fds": len(os.listdir(folder / "fd")),
    }


def wait(waiter: int, client: int, holder: int, why: str, operation: str) -> Row:
    return {"waiter": waiter, "client": client, "holder": holder, "for": why, "operation": operation}


@test(seconds=1)
def waits_tell_who_waits_for_whom(mltx: Program) -> None:
    """One for an object, and one for its turn behind it; how long, and none once they have ended. Clients have numbers of their
    own, which are not those of transactions."""
    with operated(mltx) as server, ExitStack() as open_ones:
        same(asked(server, "/waits"), {"waits": []}, "without clients")
        silent, third, waiter, holder = [open_ones.enter_context(served(server)) for _ in range(4)]
        says(holder, "begin", "begun 1", "up 1 5", "done")
        same(asked(server, "/waits"), {"waits": []}, "while nobody waits")
        says(waiter, "begin", "begun 2")
        waiter.send("read 01\n")
        comes(server, "/waits", lambda told: told["waits"], "one waits")
        first = asked(server, "/waits")["waits"]
        same(at_rest(first), [wait(2, 3, 1, "object", "read 1")], "one that waits")
        says(third, "begin", "begun 3")
        third.send("up 1 7\n")
        comes(server, "/waits", lambda told: len(told["waits"]) == 2, "two wait")
        time.sleep(0.5)
        both = sorted(asked(server, "/waits")["waits"], key=lambda row: int(row["waiter"]))
        same(at_rest(both), [wait(2, 3, 1, "object", "read 1"), wait(3, 2, 2, "turn", "up 1 7")], "two that wait")
        longer = both[0]["milliseconds"] - first[0]["milliseconds"]
        holds(500 <= longer < 1_000 * 2 * SLACK, f"it waits {longer} milliseconds longer")
        says(holder, "commit", "committed 1")
        same(waiter.line(), "is 5", "the one that waited")
        comes(server, "/waits", lambda told: len(told["waits"]) == 1, "one has gone on")
        same(at_rest(asked(server, "/waits")["waits"]), [wait(3, 2, 2, "object", "up 1 7")], "the one whose turn it is")
        says(waiter, "commit", "committed 2")
        same(third.line(), "done", "the last one")
        same(asked(server, "/waits"), {"waits": []}, "once nobody waits")
        says(silent, "quit", "bye")


@contextmanager
def served(server: Server) -> Iterator[Peer]:
    """A client that is served: so clients have their numbers in order."""
    with server.connect() as peer:
        same(peer.ask("foo"), "error 10 ScriptFault", "a client")
        yield peer


@test(seconds=2)
def waits_in_a_load(mltx: Program) -> None:
    """Beside eight clients that work on other counters the one that waits is told each time, and clients go on."""
    with operated(mltx, "--sessions", 10) as server, served(server) as holder, served(server) as waiter:
        says(holder, "begin", "begun 1", "up 77 5", "done")
        says(waiter, "begin", "begun 2")
        waiter.send("read 77\n")
        with under_load(server) as told:
            comes(server, "/waits", lambda told: told["waits"], "one waits")
            for _ in range(30):
                rows = [row for row in asked(server, "/waits")["waits"] if row["client"] == 2]
                same(at_rest(rows), [wait(2, 2, 1, "object", "read 77")], "the one that waits")
                others = [row for row in asked(server, "/waits")["waits"] if row["client"] != 2]
                # One whose session goes on meanwhile has none.
                calls = [row["operation"] for row in others if row["operation"] is not None]
                holds(all(re.fullmatch("(up|down) [0-3] 1", call) for call in calls), f"{others}")
                same({row["client"] for row in asked(server, "/sessions")["sessions"]} >= {1, 2}, True, "the sessions")
                time.sleep(0.02)
        holds(len(told) > 30, f"{len(told)} commits beside an operator that asks")
        says(holder, "abort", "aborted")
        same(waiter.line(), "is 0", "the one that waited")


def transaction(number: int, operations: int, did: list[str], calls: str | None = None) -> Row:
    return {"number": number, "operations": operations, "did": did, "calls": calls}


def session_rows(server: Server) -> dict[int, Row | None]:
    """By client what its session is told to be, without times."""
    told = asked(server, "/sessions")
    same(list(told), ["sessions"], "the answer")
    rows = {}
    for row in told["sessions"]:
        holds(row["client"] not in rows, f"client {row['client']} comes twice")
        within = row["transaction"]
        holds(within is None or within["milliseconds"] <= row["milliseconds"], f"{row}")
        same(list(at_rest([row])[0]), ["client", "address", "transaction"], "the names")
        match(r"^127\.0\.0\.1:[0-9]+$", row["address"])
        rows[row["client"]] = within and at_rest([within])[0]
    return rows


@test(seconds=1)
def sessions_tell_what_transactions_did(mltx: Program) -> None:
    """Each operation with its reply, of many the last sixteen; what is asked for now; none after the end of one."""
    with operated(mltx) as server:
        same(session_rows(server), {}, "without clients")
        with served(server) as idle, served(server) as worker, served(server) as waiter:
            says(worker, "begin", "begun 1", "open 1", "opened", "deposit 1 5", "done", "balance 1", "is 5", "add 4 9", "added")
            says(waiter, "begin", "begun 2", "has 4 8", "no", "withdraw 2 3", "missing")
            waiter.send("size 4\n")
            comes(server, "/waits", lambda told: told["waits"], "one waits")
            did = ["open 1 opened", "deposit 1 5 done", "balance 1 is 5", "add 4 9 added"]
            waits = transaction(2, 2, ["has 4 8 no", "withdraw 2 3 missing"], "size 4")
            same(session_rows(server), {1: None, 2: transaction(1, 4, did), 3: waits}, "three sessions")
            for number in range(30):
                says(worker, f"up {number} 1", "done")
            last = [f"up {number} 1 done" for number in range(14, 30)]
            same(session_rows(server)[2], transaction(1, 34, last), "one that did much")
            says(worker, "abort", "aborted")
            same(waiter.line(), "is 0", "the one that waited")
            ended = transaction(2, 3, ["has 4 8 no", "withdraw 2 3 missing", "size 4 is 0"])
            same(session_rows(server), {1: None, 2: None, 3: ended}, "once one has aborted")
            says(waiter, "commit", "committed 1")
            says(idle, "begin", "begun 3")
            same(session_rows(server), {1: transaction(3, 0, []), 2: None, 3: None}, "once one has committed")
            says(worker, "quit", "bye")
            comes(server, "/sessions", lambda told: len(told["sessions"]) == 2, "one has left")
            same(session_rows(server), {1: transaction(3, 0, []), 3: None}, "once one has left")


# The rows of `/waits` and of `/sessions`, at a moment of four clients, without their milliseconds.
WAIT_TEXTS = [
    '{"waiter":2,"client":3,"holder":1,"for":"object","operation":"read 7171","milliseconds":N}',
    '{"waiter":3,"client":2,"holder":2,"for":"turn","operation":"up 7171 9","milliseconds":N}',
]
SESSION_TEXTS = [
    '{"client":1,"address":"A","milliseconds":N,"transaction":null}',
    '{"client":2,"address":"A","milliseconds":N,'
    '"transaction":{"number":3,"milliseconds":N,"operations":0,"did":[],"calls":"up 7171 9"}}',
    '{"client":3,"address":"A","milliseconds":N,'
    '"transaction":{"number":2,"milliseconds":N,"operations":1,"did":["add 33 4444 added"],'
    '"calls":"read 7171"}}',
    '{"client":4,"address":"A","milliseconds":N,'
    '"transaction":{"number":1,"milliseconds":N,"operations":3,"did":["deposit 4242 5 missing",'
    '"up 7171 3 done","size 34 is 0"],"calls":null}}',
]


def rows_as_text(server: Server, path: str, before: str, rows: list[str]) -> None:
    """Compares what a path tells with rows, which come in any order."""
    status, kind, body = answer(server, path)
    same((status, kind), (200, JSON), path)
    text = re.sub('"milliseconds":[0-9]+', '"milliseconds":N', body.decode())
    text = re.sub('"address":"127[0-9.:]+"', '"address":"A"', text)
    holds(text in [f'{{"{before}":[{",".join(some)}]}}\n' for some in itertools.permutations(rows)], f"{path} tells {text}")


@test
def waits_and_sessions_as_texts(mltx: Program) -> None:
    """Byte by byte: none of either, and then an operation of each kind of thing, with a number and without one."""
    with operated(mltx) as server, ExitStack() as open_ones:
        rows_as_text(server, "/waits", "waits", [])
        rows_as_text(server, "/sessions", "sessions", [])
        _silent, third, waiter, holder = [open_ones.enter_context(served(server)) for _ in range(4)]
        says(holder, "begin", "begun 1", "deposit 4242 5", "missing", "up 7171 3", "done", "size 34", "is 0")
        says(waiter, "begin", "begun 2", "add 33 4444", "added")
        waiter.send("read 7171\n")
        comes(server, "/waits", lambda told: told["waits"], "one waits")
        says(third, "begin", "begun 3")
        third.send("up 7171 9\n")
        comes(server, "/waits", lambda told: len(told["waits"]) == 2, "two wait")
        rows_as_text(server, "/waits", "waits", WAIT_TEXTS)
        rows_as_text(server, "/sessions", "sessions", SESSION_TEXTS)


PAGE_WAIT_TEXT = (
    r'\{"waiter":[0-9]+,"client":[0-8],"holder":[0-9]+,"for":"page","operation":(null|"(add|remove) [1-8] [0-9]"),'
    r'"milliseconds":[0-9]+\}'
)


def add_and_remove(server: Server, number: int, ended: threading.Event) -> None:
    """A client that puts elements into a set of its own and takes them out, until it is told to end."""
    with server.connect() as peer:
        for element in itertools.cycle(range(10)):
            if ended.is_set():
                return
            peer.send(f"begin\nadd {number} {element}\nremove {number} {element}\ncommit\n")
            same([peer.line() for _ in range(4)][1:3], ["added", "removed"], "a client")


@test(seconds=1)
def wait_for_a_page_as_text(mltx: Program) -> None:
    """Eight clients that work on the same pages wait for each other's operations. Whose wait has just begun may not be
    known to be of a client, nor what it has called."""
    ended = threading.Event()
    with operated(mltx, "--sessions", 8) as server, ThreadPoolExecutor(8) as threads:
        working = [threads.submit(add_and_remove, server, number, ended) for number in range(1, 9)]
        try:
            deadline, text = time.monotonic() + PATIENCE, ""
            while '"page"' not in text:
                holds(time.monotonic() < deadline, f"nobody waited for a page: {text}")
                text = answer(server, "/waits")[2].decode()
        finally:
            ended.set()
        for one in working:
            one.result()
    holds(re.fullmatch(rf'\{{"waits":\[{PAGE_WAIT_TEXT}(,{PAGE_WAIT_TEXT})*\]\}}\n', text), text)


# What is answered to anything else.


PATHS = {
    **dict.fromkeys(("/live", "/ready", "/status", "/metrics", "/waits", "/sessions", "/"), "GET"),
    **dict.fromkeys(("/save", "/stop", "/sessions/1/end"), "POST"),
}


NO_PATHS = [
    *("/nosuch", "/status/", "/statu", "/Status", "//", "/sessions/", "/sessions/1", "/sessions/1/end/", "/sessions/x/end"),
    *("/sessions/-1/end", "/sessions//end", "/sessions/1/stop", "/stop/", "/index.html"),
]


@test
def other_requests_are_refused(mltx: Program) -> None:
    """Another path, another method, and a command without the header; nothing is done, and the client goes on."""
    with operated(mltx) as server, served(server) as peer:
        for path in NO_PATHS:
            for method in ("GET", "POST"):
                same(answer(server, path, method, MARK)[0], 404, f"{method} {path}")
        for path, method in PATHS.items():
            for other in ("GET", "POST", "PUT", "DELETE"):
                if other != method:
                    same(answer(server, path, other, MARK)[0], 405, f"{other} {path}")
        marks: list[dict[str, str]] = [{}, {"X-Mltx": "0"}, {"X-Mltx": ""}, {"X-Mltx": "11"}, {"X-Other": "1"}]
        for headers in [*marks, {"Cookie": "X-Mltx: 1"}]:
            for path in ("/save", "/stop", "/sessions/1/end", "/sessions/99/end"):
                same(answer(server, path, "POST", headers)[0], 403, f"POST {path} with {headers}")
        says(peer, "begin", "begun 1", "up 1 1", "done")
        same(counts(server, "stopping", "sessions"), {"stopping": 0, "sessions": 1}, "the server")


# The header by which a browser does no more with an answer than the page needs.
POLICY = (
    "default-src 'none'; script-src 'unsafe-inline'; style-src 'unsafe-inline'; img-src data:; connect-src 'self'; "
    "frame-ancestors 'none'"
)


def head_of(status: str, kind: str, allow: str, length: int) -> str:
    """The lines of an answer before its body."""
    head = f"HTTP/1.1 {status}\r\nconnection: close\r\ncontent-type: {kind}\r\ncache-control: no-store\r\n"
    guard = f"content-security-policy: {POLICY}\r\nx-frame-options: DENY\r\n"
    return f"{head}{guard}{allow}content-length: {length}\r\n\r\n"


def answer_to(server: Server, request: str) -> bytes:
    """All that is answered to these bytes."""
    with Peer(socket.create_connection(server.admin, PATIENCE)) as operator:
        operator.send(request)
        return operator.rest()


# What each other answer is: its status, a header of its own, its type and its body.
NOTHING, ANOTHER, UNMARKED = "Not found.\n", "Method not allowed.\n", "The header X-Mltx: 1 is required.\n"
ANSWERS = {
    ("GET", "/nosuch"): ("404 Not Found", "", TEXT, NOTHING),
    ("DELETE", "/status"): ("405 Method Not Allowed", "allow: GET, HEAD\r\n", TEXT, ANOTHER),
    ("GET", "/waits"): ("200 OK", "", JSON, '{"waits":[]}\n'),
    ("HEAD", "/waits"): ("200 OK", "", JSON, '{"waits":[]}\n'),
    ("HEAD", "/nosuch"): ("404 Not Found", "", TEXT, NOTHING),
    ("HEAD", "/stop"): ("405 Method Not Allowed", "allow: POST\r\n", TEXT, ANOTHER),
    ("GET", "/sessions/1/end"): ("405 Method Not Allowed", "allow: POST\r\n", TEXT, ANOTHER),
    ("POST", "/stop"): ("403 Forbidden", "", TEXT, UNMARKED),
    ("POST", "/save"): ("403 Forbidden", "", TEXT, UNMARKED),
    ("POST X-Mltx: 1", "/save"): (
        "404 Not Found", "", TEXT, "The server has no file for its base: it was started without --data or --save.\n",
    ),
    ("POST X-Mltx: 1", "/sessions/9/end"): ("404 Not Found", "", TEXT, "There is no session of this client.\n"),
    ("POST X-Mltx: 1", "/sessions/1/end"): ("200 OK", "", JSON, '{"ended":1}\n'),
    ("POST X-Mltx: 1", "/stop"): ("200 OK", "", JSON, '{"stopping":true}\n'),
}


@test
def other_answers_byte_by_byte(mltx: Program) -> None:
    """Their status, each of their headers and their body, which HEAD leaves out: those that refuse, and those to what is done."""
    with operated(mltx) as server, served(server):
        for (words, path), (status, allow, kind, body) in ANSWERS.items():
            method, _, mark = words.partition(" ")
            request = f"{method} {path} HTTP/1.1\r\nHost: localhost\r\n" + (f"{mark}\r\n\r\n" if mark else "\r\n")
            wanted = head_of(status, kind, allow, len(body)) + (body if method != "HEAD" else "")
            same(answer_to(server, request), wanted.encode(), f"{words} {path}")


# Which hosts a request may name as that of the server: those that are not looked up in DNS. PORT is the server's.
DIRECT = [
    *("127.0.0.1", "127.0.0.1:PORT", "localhost", "localhost:PORT", "LocalHost:1", "LOCALHOST", "[::1]", "[::1]:PORT"),
    *("10.1.2.3", "255.255.255.255:80", "0.0.0.0:PORT", "[fe80::1:2]:7001", "[::ffff:1.2.3.4]", "[1:2:3:4:5:6:7:8]:65536"),
    "127.0.0.1:",
]
FOREIGN = [
    *("evil.example", "evil.example:PORT", "x", "localhost.evil.example", "127.0.0.1.evil.example", "evil.example.localhost"),
    *("localhost.", "localhosts", "local", "127.0.0.1.", "127.1", "1.2.3.4.5", "256.0.0.1", "127.0.0.01", "2130706433"),
    "0x7f.0.0.1",
]
# Which pages a request may come from. No page of such a host says `null`.
OWN = ["http://127.0.0.1:PORT", "http://localhost:PORT", "http://LOCALHOST", "https://localhost", "http://[::1]:PORT"]
OTHERS = [
    *("null", "", "http://evil.example", "http://evil.example:PORT", "https://localhost.evil.example"),
    *("http://127.0.0.1.evil.example", "localhost", "127.0.0.1", "file://localhost", "http:localhost", "http://"),
    *("http://localhost/", "http://localhost@evil.example", "http://evil.example http://localhost", "HTTP://evil.example"),
    *("http://::1", "http://[::1", "http://[127.0.0.1]"),
]
STRANGER = "The host in Host and Origin must be an IP address or localhost.\n"


@test
def foreign_hosts_are_refused(mltx: Program) -> None:
    """So that no page of another server reaches the operator's port by a name of its own that has this server's address."""
    refused = (head_of("403 Forbidden", TEXT, "", len(STRANGER)) + STRANGER).encode()
    with operated(mltx) as server, served(server) as peer:

        def answers(headers: dict[str, str]) -> list[bytes]:
            lines = "".join(f"{name}: {value}\r\n" for name, value in headers.items()).replace("PORT", str(server.admin[1]))
            requests = [f"GET /waits HTTP/1.1\r\n{lines}\r\n", f"POST /sessions/9/end HTTP/1.1\r\n{lines}X-Mltx: 1\r\n\r\n"]
            return [answer_to(server, request) for request in requests]

        for headers in [*({"Host": host} for host in DIRECT), *({"Host": "localhost", "Origin": origin} for origin in OWN)]:
            same([one.split(b" ")[1] for one in answers(headers)], [b"200", b"404"], f"a request with {headers}")
        for headers in [*({"Host": host} for host in FOREIGN), *({"Host": "localhost", "Origin": origin} for origin in OTHERS)]:
            same(answers(headers), [refused, refused], f"a request with {headers}")
        for headers in ({"Host": "evil.example:PORT", "Origin": "http://evil.example:PORT"}, {"Host": ""}):
            same(answers(headers), [refused, refused], f"a request with {headers}")
        marked = "Host: evil.example\r\nX-Mltx: 1\r\n\r\n"
        for path in ("/sessions/1/end", "/save", "/stop"):
            same(answer_to(server, f"POST {path} HTTP/1.1\r\n{marked}"), refused, f"POST {path}")
        for path in ("/", "/nosuch", "/stop"):
            same(answer_to(server, f"GET {path} HTTP/1.1\r\n{marked}"), refused, f"GET {path}")
        old = answer_to(server, "GET /waits HTTP/1.0\r\n\r\n")
        same(old.partition(b" ")[2], refused.partition(b" ")[2], "a request of an older version without a host")
        for host in ("", "Host: [127.0.0.1]\r\n", "Host: ::1\r\n", "Host: localhost\r\nHost: localhost\r\n"):
            same(answer_to(server, f"GET /waits HTTP/1.1\r\n{host}\r\n").split(b" ")[1], b"400", f"a request with {host!r}")
        says(peer, "begin", "begun 1", "up 1 1", "done")
        same(counts(server, "stopping", "sessions"), {"stopping": 0, "sessions": 1}, "the server")


@test
def page_is_served_by_head(mltx: Program) -> None:
    """As by GET, without the page."""
    with operated(mltx) as server:
        got, head = (answer_to(server, f"{method} / HTTP/1.1\r\nHost: localhost\r\n\r\n") for method in ("GET", "HEAD"))
        holds(got.startswith(head) and head.endswith(b"\r\n\r\n") and got.endswith(b"</html>\n"), f"{head!r}")
        for path in ("/status", "/metrics", "/sessions"):
            got = answer_to(server, f"HEAD {path} HTTP/1.1\r\nHost: localhost\r\n\r\n")
            holds(got.startswith(b"HTTP/1.1 200 ") and got.endswith(b"\r\n\r\n") and got.count(b"\r\n\r\n") == 1, f"{got!r}")


@test
def request_may_come_in_pieces(mltx: Program) -> None:
    """Byte by byte, with the name of the header in any letters, and of an older version."""
    with operated(mltx) as server, served(server) as peer:
        request = b"POST /sessions/1/end HTTP/1.1\r\nHost: localhost\r\nx-mLTX:1\r\nContent-Length: 0\r\n\r\n"
        with Peer(socket.create_connection(server.admin, PATIENCE)) as operator:
            for byte in request:
                operator.send(bytes([byte]))
            got = operator.rest()
        holds(got.startswith(b"HTTP/1.1 200 ") and got.endswith(b'\r\n\r\n{"ended":1}\n'), f"{got!r}")
        same(peer.rest(), b"", "the client that was ended")
        got = answer_to(server, "GET /waits HTTP/1.0\r\nHost: localhost\r\n\r\n")
        holds(re.match(rb"HTTP/1\.[01] 200 ", got) and got.endswith(b'\r\n\r\n{"waits":[]}\n'), f"{got!r}")


@test
def request_across_a_stop_of_the_program(mltx: Program) -> None:
    """A stop of the program between two halves of a request ends no connection, if it is shorter than a request may take."""
    with operated(mltx) as server:
        for _ in range(5):
            with Peer(socket.create_connection(server.admin, PATIENCE)) as operator:
                began = time.monotonic()
                operator.send("GET /waits HTTP/1.1\r\n")
                server.stop()
                server.process.send_signal(signal.SIGCONT)
                operator.send("Host: localhost\r\n\r\n")
                if time.monotonic() - began < 0.5:
                    holds(operator.rest().endswith(b'\r\n\r\n{"waits":[]}\n'), "the request was not answered")


STRANGE = {
    "nothing": b"", "half-a-line": b"GET /stat", "half-a-request": b"GET /status HTTP/1.1\r\nHost: localhost\r\n",
    "noise": bytes(range(256)) * 40,
    "a-long-line": b"GET /" + b"x" * 300_000, "many-headers": b"GET /status HTTP/1.1\r\n" + b"X-A: b\r\n" * 50_000,
    "a-body-that-never-comes": b"POST /stop HTTP/1.1\r\nContent-Length: 1000000000\r\n\r\n",
    "a-session": b"begin\nup 1 1\ncommit\n",
}


@each({f"operator-that-sends-{name}": sent for name, sent in STRANGE.items()}, seconds=2)
def strange_operators_hold_nobody_up(mltx: Program, sent: bytes) -> None:
    """Twenty that send this and then nothing: others are answered, clients too, and the connections are closed in time."""
    with operated(mltx) as server, served(server) as peer, ExitStack() as open_ones:
        strange = [open_ones.enter_context(socket.create_connection(server.admin, PATIENCE)) for _ in range(20)]
        with takes(0, 30, "the connections of twenty operators were closed"):
            with takes(0, SLACK, "a client beside twenty operators was answered"):
                for one in strange:
                    with may_break_off():
                        one.sendall(sent)
                says(peer, "begin", "begun 1", "up 1 1", "done", "commit", "committed 1")
            same(counts(server, "commits", "sessions"), {"commits": 1, "sessions": 1}, "another operator")
            for one in strange:
                with may_break_off():
                    while one.recv(65_536):
                        pass
        says(peer, "begin", "begun 2", "read 1", "is 1")


@test(seconds=1)
def silent_operator_is_left_after_a_second(mltx: Program) -> None:
    """Meanwhile another one is answered."""
    with operated(mltx) as server, socket.create_connection(server.admin, PATIENCE) as silent:
        with takes(0.5, 1 + SLACK, "a silent connection was closed"):
            same(counts(server, "sessions"), {"sessions": 0}, "another operator")
            same(silent.recv(1), b"", "what a silent operator hears")


@each({f"{count}-slow-operators": count for count in (10, 100)}, seconds=4)
def slow_operators_hold_nobody_up(mltx: Program, count: int) -> None:
    """Each sends a byte of its request now and then, is cut after a second, and connects again. Others are answered meanwhile."""
    ended = threading.Event()
    with operated(mltx) as server, served(server), ThreadPoolExecutor(count) as threads:

        def send_slowly() -> None:
            while not ended.is_set():
                with may_break_off(), socket.create_connection(server.admin, PATIENCE) as slow:
                    began = time.monotonic()
                    slow.sendall(b"GET /status HTTP/1.1\r\nHost: localhost\r\nX-A: ")
                    while not ended.wait(0.3):
                        in_time(time.monotonic() - began < 1 + SLACK, "a slow connection is left open")
                        slow.sendall(b"b")

        slow_ones = [threads.submit(send_slowly) for _ in range(count)]
        try:
            time.sleep(1)
            for _ in range(10):
                with takes(0, 2, f"an operator beside {count} slow ones was answered"):
                    same(counts(server, "sessions"), {"sessions": 1}, "the server")
                time.sleep(0.2)
            with takes(0, 2, f"a command beside {count} slow ones was done"):
                same(posted(server, "/sessions/1/end"), (200, {"ended": 1}), "the command")
        finally:
            ended.set()
        for one in slow_ones:
            one.result()


# What is done.


@test(seconds=1)
def operator_ends_a_session(mltx: Program) -> None:
    """One that is silent in a transaction, which is taken back, so that who waits for it goes on; and one that waits."""
    with operated(mltx, limit=4) as server, served(server) as holder, served(server) as waiter, served(server) as third:
        says(holder, "begin", "begun 1", "up 1 1", "done")
        says(waiter, "begin", "begun 2", "up 2 1", "done")
        waiter.send("read 1\n")
        says(third, "begin", "begun 3")
        third.send("read 2\n")
        says_nothing(waiter, "the counter is held")
        says_nothing(third, "the other counter is held")
        for number in (0, 4, 99, 2**64, 10**30):
            same(posted(server, f"/sessions/{number}/end"), (404, None), f"client {number}, which is not served")
        same(posted(server, "/sessions/2/end"), (200, {"ended": 2}), "the client that waits")
        same(third.line(), "is 0", "who waited for it")
        holds(waiter.rest() in (b"", b"error 14 GaveUp\n"), "what a client hears that is ended while it waits")
        says(holder, "up 1 1", "done")
        third.send("read 1\n")
        says_nothing(third, "the counter is held still")
        same(posted(server, "/sessions/1/end"), (200, {"ended": 1}), "the client that is silent")
        same(third.line(), "is 0", "who waited for it")
        same(holder.rest(), b"", "what a silent client hears")
        comes(server, "/status", lambda told: told["sessions"] == 1, "two have ended")
        same(posted(server, "/sessions/1/end"), (404, None), "a client that has ended")
        says(third, "commit", "committed 1", "quit", "bye")
        server.talk("quit\n")
        expect(server.end(said=""), out="served 4\n", notes=[cut_for(2, BY_OPERATOR), cut_for(1, BY_OPERATOR)])


@test(seconds=1)
def operator_stops_the_server(mltx: Program) -> None:
    """Accepting ends, what is open is taken back, and the trace is whole. It is told how many were served."""
    trace = mltx.folder / "trace"
    with operated(mltx, "--trace", trace) as server, served(server) as silent, served(server) as other:
        says(silent, "begin", "begun 1", "up 1 1", "done")
        says(other, "begin", "begun 2", "up 2 1", "done", "commit", "committed 1")
        same(posted(server, "/stop"), (200, {"stopping": True}), "the command")
        same(server.next_note(), STOPPING)
        holds(refuses(server.address), "the port takes connections once the server is to stop")
        ended = server.end(said="")
        same((ended.status, ended.out, ended.err), (0, b"served 2\n", b""), "the server")
        holds(set(ended.notes) <= {STOPPING, cut_for(1, STOPS), cut_for(2, STOPS)}, f"{ended.notes}")
        same([silent.rest(), other.rest()], [b"", b""], "what clients hear")
    items = [[line for line in trace.read_text().splitlines() if line.split()[1] == number] for number in "12"]
    same(items[0], ["begin 1", "op 1 up 1 1 done", "back 1", "abort 1"], "what the trace has of the first")
    same(items[1], ["begin 2", "op 2 up 2 1 done", "commit 2 1"], "what the trace has of the second")


@test(seconds=1)
def server_is_stopped_as_systemd_does(mltx: Program) -> None:
    """With the options of the unit, by SIGTERM, in the folder that it has: what it keeps the next one begins with."""
    unit = (ROOT / "contrib/mltx.service").read_text()
    options = match("(?m)^ExecStart=/usr/local/bin/mltx serve 127.0.0.1:7000 (.*) --admin 127.0.0.1:7001 -v$", unit)[1].split()
    options = [option.replace("%S", str(mltx.folder)) for option in options]
    for number in (1, 2):
        with held(mltx).serve(*options, "-v", limit=None, admin=free_address()) as server, served(server) as peer:
            server.limit = 2**63 - 1
            said = [server.first_line() for _ in range(3)]
            match("^mltx: server [0-9]+$", said[2])
            says(peer, "begin", f"begun {number}", "up 1 1", "done", "commit", f"committed {number}")
            says(peer, "begin", f"begun {number + 1}")
            server.process.send_signal(signal.SIGTERM)
            expect(server.end(said=""), out="served 1\n", notes=[STOPPING])
        same((mltx.folder / "mltx/base").read_text(), f"counter 1 {number}\n# commits 1\n", "what is saved")


@test(seconds=1)
def server_with_few_descriptors(mltx: Program) -> None:
    """It serves a client and answers its operator at the same time, or does not start."""
    limited, starts = mltx.folder / "limited", list[int]()
    for most in range(6, 18):
        limited.write_text(f'#!/bin/sh\nulimit -n {most}\nexec {mltx.path} "$@"\n')
        limited.chmod(0o755)
        options = ("-v", "--endless", "--trace", "trace", "--save", "saved")
        with held(Program(limited, mltx.folder)).serve(*options, limit=None, admin=free_address()) as server:
            if server.first_line() == "mltx: 13 Io\n":
                match(f"^mltx: [^ ]+: {re.escape(of_system(errno.EMFILE))}$", server.first_line())
                same(server.process.wait(SLACK), 1, "the status")
                continue
            starts.append(most)
            with takes(0, SLACK, f"both answers of a server with {most} descriptors"), server.connect() as peer:
                says(peer, "begin", "begun 1")
                same(counts(server, "sessions"), {"sessions": 1}, f"what an operator is told of a server with {most} descriptors")
    holds(starts and set(starts) == set(range(starts[0], 18)) and starts[0] > 8, f"it starts with {starts} descriptors")


def uses_memory_up(peer: Peer) -> None:
    """Makes counters until one is refused memory, or the session is."""
    with may_break_off(), suppress(Failed):
        says(peer, "begin", "begun 1")
        for number in itertools.count():
            if peer.ask(f"up {number} 1") == "error 1 OutOfMemory":
                return


@test(seconds=8)
def operator_stops_a_server_that_has_no_memory_left(mltx: Program) -> None:
    """However much it may hold, the command comes to its end. That an operation was refused memory is noted, once."""
    noted = list[str]()
    for most in range(350_000, 600_000, 50_000):
        # Sessions have 3 seconds to end by themselves.
        limited = mltx.shim(MOST=str(most))
        with mltx.serve("--sessions", 2, limit=9, admin=free_address(), env=limited, timeout=3 + SLACK) as server:
            with server.connect() as peer:
                # Meanwhile the threads begin that answer an operator, and keep some memory.
                time.sleep(0.5)
                uses_memory_up(peer)
                time.sleep(0.5)
                # A server that refused memory to a session has ended by then.
                with may_break_off(), suppress(http.client.HTTPException, ConnectionRefusedError):
                    posted(server, "/stop")
                ended = server.end(is_all_noted=False)
        holds(ended.status in (0, 1) and ended.notes.count(NO_MEMORY) <= 1, f"with {most} bytes: {ended}")
        noted += ended.notes
    holds(NO_MEMORY in noted, f"what was noted: {noted}")


@test(seconds=12)
def operator_sees_that_the_server_stops(mltx: Program) -> None:
    """As long as a client that never reads keeps it from its end."""
    with operated(mltx) as server, server.connect() as deaf:
        same(counts(server, "stopping"), {"stopping": 0}, "before")
        same(answer(server, "/ready"), (200, TEXT, b"ready\n"), "whether it is ready before")
        sending = threading.Thread(target=send_and_hear_nothing, args=(deaf, "foo\n" * 2_000_000))
        sending.start()
        takes_no_more(deaf)
        with takes(0, 3 + 5 + SLACK, "the server ended"):
            same(posted(server, "/stop"), (200, {"stopping": True}), "the command")
            same(counts(server, "stopping", "sessions"), {"stopping": 1, "sessions": 1}, "while it stops")
            holds(b"\nmltx_stopping 1\n" in answer(server, "/metrics")[2], "it stops, as metrics tell it")
            same(answer(server, "/ready"), (503, TEXT, b"The server is shutting down.\n"), "whether it is ready while it stops")
            same(posted(server, "/stop"), (200, {"stopping": True}), "the command again")
            ended = server.end(said="")
        sending.join()
    same((ended.status, ended.out, ended.err, ended.notes), (0, b"served 1\n", b"", (STOPPING, cut_for(1, STOPS))), "the server")


@test
def server_with_an_operator_ends_at_its_limit(mltx: Program) -> None:
    """An operator counts for no connection, and keeps it from no end, though one is connected."""
    with operated(mltx, limit=2) as server, socket.create_connection(server.admin, PATIENCE):
        for number in (1, 2):
            same(counts(server, "connections", "limit"), {"connections": number - 1, "limit": 2}, "before a client")
            same(server.talk("begin\nquit\n"), f"begun {number}\nbye\n".encode(), "a client")
        expect(server.end(said=""), out="served 2\n")
        holds(refuses(server.admin), "the operator's port takes connections after the end")


@test(seconds=1)
def operators_at_once(mltx: Program) -> None:
    """Sixteen that ask again and again are all answered."""
    with operated(mltx) as server, served(server):
        with ThreadPoolExecutor(16) as threads:
            told = list(threads.map(lambda _: [counts(server, "sessions")["sessions"] for _ in range(10)], range(16)))
    same(told, [[1] * 10] * 16, "what they are told")


# The page.


def words_of(page: str) -> str:
    """What a page shows, in one line."""
    return " ".join(re.sub(r"(?s)<(script|style).*?</\1>|<[^>]*>", " ", page).split())


@test
def page_asks_nobody_else(mltx: Program) -> None:
    """It is one text, which names no other address; of its words these stand there before its script has run."""
    with operated(mltx) as server:
        status, kind, body = answer(server, "/")
    # The name of a kind of node is no address.
    page = body.decode().replace('"http://www.w3.org/2000/svg"', "")
    same((status, kind), (200, "text/html; charset=utf-8"), "the page")
    named = re.findall(r"""(?:src|href|action)\s*=\s*["']?([^"'\s>]*)|url\(([^)]*)\)|(@import|https?:|//[a-z]+\.)""", page)
    holds(all("".join(found).startswith(("data:", "#", "/metrics", "/base?")) for found in named), f"the page names {named}")
    same([path for path in ("/status", "/sessions", "/waits") if path not in page], [], "what the page does not ask for")
    words = "mltx mltx … Save the base Stop the server Waiting transactions Sessions No client is connected. Numbers"
    same(words_of(page), words + " Metrics · Accounts · Counters", "the words")


@test(seconds=8)
def page_in_a_browser(mltx: Program) -> None:
    """Where a browser is installed, it shows who waits for whom, on what, and what the transactions did."""
    browser = next(browsers(), None)
    if browser is None:
        print("    no chromium is installed: what a browser makes of the operator's page is not looked at", flush=True)
        return
    with operated(mltx) as server, served(server), served(server) as holder, served(server) as waiter:
        says(holder, "begin", "begun 1", "deposit 4242 5", "missing", "up 7171 3", "done")
        says(waiter, "begin", "begun 2", "add 33 4444", "added")
        waiter.send("read 7171\n")
        comes(server, "/waits", lambda told: told["waits"], "one waits")
        words = ["--headless", "--no-sandbox", "--disable-gpu", f"--user-data-dir={mltx.folder}/profile"]
        # For people to look at.
        picture = ROOT / "out/pictures/operator.png"
        picture.parent.mkdir(parents=True, exist_ok=True)
        words += [f"--screenshot={picture}", "--window-size=1100,1400", "--virtual-time-budget=3000", "--dump-dom"]
        words.append("http://%s:%d/" % server.admin)
        ran = subprocess.run([browser, *words], capture_output=True, timeout=PATIENCE)
        says(holder, "commit", "committed 1")
        same(waiter.line(), "is 3", "the one that waited")
    shown = words_of(ran.stdout.decode(errors="replace"))
    name = f"mltx {version(mltx)} at %s:%d" % server.address
    figures = ("Commits per second 0", "Transaction p50 / p99 – / –", "Waiting operations 1", "GaveUp per second 0")
    folded = "1 more client without an open transaction"
    operations = ("read 7171", "deposit 4242 5 missing", "up 7171 3 done", "add 33 4444 added")
    for text in (name, *figures, folded, *operations, "T1 of client 2", "T2 of client 3", "Trace none"):
        holds(text in shown, f"the page does not show {text!r}: {shown[-1500:]}")
