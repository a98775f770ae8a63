"""Sessions over TCP: the worked rows, the table of lines and their answers, and sessions side by side."""
import dataclasses
import socket
import struct
import subprocess
import sys
import threading
import time
from collections.abc import Iterable

from harness import BROKEN, IDLE, IS_HTTP, LONG_LINE, MANY_BYTES, MOST_BYTES, PATIENCE, ROOT, Peer, Program, Text, as_bytes
from harness import command, cut_for, each, expect, holds, in_any_order, lines, listening, match, may_break_off, readable, same
from harness import takes, test

# How long to listen for an answer that must not come, in seconds.
SILENCE = 0.2

# Counters whose low pseudokeys are one, and one that is apart from them at the 16th bit alone.
APART = (*range(0, 8 * 65536, 65536), 1)


@dataclasses.dataclass(frozen=True)
class Talk:
    """What one client sends, up to the end of its input, all that it is answered, the trace, and what `check` says."""

    sent: str
    answers: str
    trace: str
    checked: str = ""


ROWS = {
    "session-lines": Talk(
        lines("begin|open 1|foo|deposit 1 5|commit|begin|balance 1"),
        lines("begun 1|opened|error 10 ScriptFault|done|committed 1|begun 2|is 5"),
        lines("begin 1|op 1 open 1 opened|op 1 deposit 1 5 done|commit 1 1|begin 2|op 2 balance 1 is 5|back 2|abort 2"),
        lines("serial 1|account 1 5"),
    ),
    "session-cut-line": Talk("begin\nup 7 1\ncomm", lines("begun 1|done"), lines("begin 1|op 1 up 7 1 done|back 1|abort 1")),
    "session-line-of-200-spaces": Talk(" " * 200 + "\nbegin\nquit\n", lines("begun 1|bye"), lines("begin 1|abort 1")),
    "session-without-a-transaction": Talk(
        lines("open 1|begin|begin|quit"),
        lines("error 3 NoSuchTx|begun 1|error 5 Running|bye"),
        lines("begin 1|abort 1"),
    ),
    # By `low` the last key is apart from the others, which are one, at the 16th bit alone.
    "sixteen-splits-in-a-session": Talk(
        lines("begin|" + "|".join(f"up {counter} 1" for counter in APART) + "|commit"),
        lines("begun 1|" + "done|" * 9 + "committed 1"),
        lines("begin 1|" + "|".join(f"op 1 up {counter} 1 done" for counter in APART) + "|commit 1 1"),
        lines("serial 1|" + "|".join(f"counter {counter} 1" for counter in sorted(APART))),
    ),
    "session-of-no-bytes": Talk("", "", ""),
    "session-of-a-cut-line-alone": Talk("begin", "", ""),
    # Blank lines have no answer; words may be parted anyhow, and a CR before the LF is dropped.
    "session-of-words-parted-anyhow": Talk(
        "\n \t \r\n\t begin \r\n\n up\t 07  001\r\n\r\ncommit\t\r\n  quit \n",
        lines("begun 1|done|committed 1|bye"),
        lines("begin 1|op 1 up 7 1 done|commit 1 1"),
        lines("serial 1|counter 7 1"),
    ),
    # After an error the transaction is open as before.
    "session-goes-on-after-errors": Talk(
        lines("begin|up 7 1|begin|up 7|# one more|commit now|up 7 2|commit|commit|abort"),
        lines(
            "begun 1|done|error 5 Running|error 10 ScriptFault|error 10 ScriptFault|error 10 ScriptFault|done"
            "|committed 1|error 3 NoSuchTx|error 3 NoSuchTx"
        ),
        lines("begin 1|op 1 up 7 1 done|op 1 up 7 2 done|commit 1 1"),
        lines("serial 1|counter 7 3"),
    ),
    "session-that-aborts": Talk(
        lines("begin|open 1|deposit 1 5|abort|begin|balance 1|commit"),
        lines("begun 1|opened|done|aborted|begun 2|missing|committed 1"),
        lines(
            "begin 1|op 1 open 1 opened|op 1 deposit 1 5 done|back 1|back 1|abort 1|begin 2|op 2 balance 1 missing"
            "|commit 2 1"
        ),
        lines("serial 2"),
    ),
    "session-that-quits-in-a-transaction": Talk(
        lines("begin|add 4 9|quit"), lines("begun 1|added|bye"), lines("begin 1|op 1 add 4 9 added|back 1|abort 1")
    ),
    # Each operation with each of its replies.
    "session-of-each-reply": Talk(
        lines(
            "begin|close 1|deposit 1 1|withdraw 1 1|balance 1|open 1|open 1|withdraw 1 1|deposit 1 5"
            "|deposit 1 1000000000000000000|close 1|balance 1|withdraw 1 5|close 1|remove 2 3|has 2 3|add 2 3|add 2 3"
            "|has 2 3|remove 2 3|down 4 1|up 4 3|read 4|commit"
        ),
        lines(
            "begun 1|missing|missing|missing|missing|opened|exists|short|done|over|notempty|is 5|done|closed|absent|no"
            "|added|present|yes|removed|done|done|is 2|committed 1"
        ),
        lines(
            "begin 1|op 1 close 1 missing|op 1 deposit 1 1 missing|op 1 withdraw 1 1 missing|op 1 balance 1 missing"
            "|op 1 open 1 opened|op 1 open 1 exists|op 1 withdraw 1 1 short|op 1 deposit 1 5 done"
            "|op 1 deposit 1 1000000000000000000 over|op 1 close 1 notempty|op 1 balance 1 is 5|op 1 withdraw 1 5 done"
            "|op 1 close 1 closed|op 1 remove 2 3 absent|op 1 has 2 3 no|op 1 add 2 3 added|op 1 add 2 3 present"
            "|op 1 has 2 3 yes|op 1 remove 2 3 removed|op 1 down 4 1 done|op 1 up 4 3 done|op 1 read 4 is 2|commit 1 1"
        ),
        lines("serial 1|counter 4 2"),
    ),
}


def served_alone(mltx: Program, row: Talk, *options: object, pieces: Iterable[Text] | None = None) -> None:
    """The row's answers, however its bytes were cut into pieces, what the server comes to, and its trace."""
    trace = mltx.folder / "serve.trace"
    with mltx.serve("--trace", trace, *options) as server, server.connect() as peer:
        for piece in pieces or [row.sent]:
            peer.send(piece)
        peer.end()
        same(peer.rest(), as_bytes(row.answers), f"the answers to {row.sent!r}")
        expect(server.end(), out="served 1\n")
    same(trace.read_text(), row.trace, "the trace")
    expect(mltx.check(trace), out=row.checked, what="check")


@each(ROWS)
def session(mltx: Program, row: Talk) -> None:
    for options in ((), ("--hash", "mult"), ("--hash", "low")):
        served_alone(mltx, row, *options)
    served_alone(mltx, row, pieces=list(row.sent))
    served_alone(mltx, row, pieces=row.sent.splitlines(keepends=True))


# Lines that are none of the forms, whether or not a transaction is open.
FAULTY = [
    *("foo", "begin 1", "begin now", "Begin", "commit 1", "abort 1", "quit 1", "QUIT", "exit", "end", "else"),
    *("# a comment", "#", "need open 1 is opened", "let v = balance 1", "if open 1 is opened", "call 1 open 1"),
    *("step 1", "op 1 open 1 opened", "open", "open 1 2", "open 4294967296", "open -1", "open +1", "open a"),
    *("open 000000000000000000001", "add 65536 0", "size 65536", "deposit 1 v", "deposit 1", "deposit 1 18446744073709551616"),
    *("up 7 1 # one", "up 4294967296 1", "begins", "commit commit", "quit quit", "up 7 1 1", "up 7 1x", "reads 7"),
    *("up 7 1 \x7f", "up 7 \x01 1", "\x00", "up 7 1\r ", "up 7 1\r\r", "up 7 1 \xb5", "\x0c"),
]


@test
def faulty_lines_of_a_session(mltx: Program) -> None:
    """Each is answered `error 10 ScriptFault`, and changes nothing."""
    faulty = "".join(f"{line}\n" for line in FAULTY)
    sent = f"{faulty}begin\nup 7 1\n{faulty}up 7 1\ncommit\n{faulty}"
    errors = "error 10 ScriptFault\n" * len(FAULTY)
    answers = f"{errors}begun 1\ndone\n{errors}done\ncommitted 1\n{errors}"
    trace = lines("begin 1|op 1 up 7 1 done|op 1 up 7 1 done|commit 1 1")
    served_alone(mltx, Talk(sent, answers, trace, lines("serial 1|counter 7 2")), pieces=[sent.encode("latin-1")])


# A line with its answers: where no transaction is open, and where one is.
TABLE = {
    "begin": ("begun 1", "error 5 Running"),
    "open 1": ("error 3 NoSuchTx", "opened"),
    "balance 1": ("error 3 NoSuchTx", "missing"),
    "has 4 9": ("error 3 NoSuchTx", "no"),
    "size 4": ("error 3 NoSuchTx", "is 0"),
    "read 7": ("error 3 NoSuchTx", "is 0"),
    "commit": ("error 3 NoSuchTx", "committed 1"),
    "abort": ("error 3 NoSuchTx", "aborted"),
    "quit": ("bye", "bye"),
}


@test
def table_of_session_lines(mltx: Program) -> None:
    """Each line is answered without the end of the input, and `quit` alone ends the session."""
    for line, (without, within) in TABLE.items():
        for begin, wanted in (((), without), (("begin",), within)):
            with mltx.serve() as server, server.connect() as peer:
                for earlier in begin:
                    same(peer.ask(earlier), "begun 1", earlier)
                same(peer.ask(line), wanted, f"{line} after {begin}")
                if line != "quit":
                    same(peer.ask("foo"), "error 10 ScriptFault", f"a line after {line}")
                    peer.end()
                same(peer.rest(), b"", f"what follows {line}")
                expect(server.end(), out="served 1\n", what=line)


@test
def session_line_too_long(mltx: Program) -> None:
    """As soon as a line has 201 bytes the session ends, and what its transaction did is taken back."""
    for long in (" " * 201, "x" * 201, "#" + "y" * 200, "up 7 1" + " " * 195, " " * 200 + "\r"):
        trace = mltx.folder / "serve.trace"
        with mltx.serve("--trace", trace, limit=3) as server:
            with server.connect() as peer:
                peer.send(long)
                same(peer.rest(), b"error 12 LineTooLong\n", f"a line {long[:9]!r}..")
            with server.connect() as peer:
                peer.send("begin\nup 7 1\n" + long)
                same(peer.rest(), lines("begun 1|done|error 12 LineTooLong").encode(), f"a line {long[:9]!r}..")
            same(server.talk(lines("begin|read 7|commit")), lines("begun 2|is 0|committed 1").encode(), "read 7")
            expect(server.end(), out="served 3\n", notes=[cut_for(1, LONG_LINE), cut_for(2, LONG_LINE)])
        same(trace.read_text(), lines("begin 1|op 1 up 7 1 done|back 1|abort 1|begin 2|op 2 read 7 is 0|commit 2 1"))


@test
def session_line_too_long_with_a_cr(mltx: Program) -> None:
    """A CR before the LF counts: 200 bytes, CR and LF are too long, and 199 are not."""
    with mltx.serve(limit=2) as server:
        same(server.talk("begin" + " " * 194 + "\r\n"), b"begun 1\n", "199 bytes, CR and LF")
        with server.connect() as peer:
            peer.send("begin" + " " * 195 + "\r\n")
            same(peer.line(), "error 12 LineTooLong", "200 bytes, CR and LF")
        expect(server.end(), out="served 2\n", notes=[cut_for(2, LONG_LINE)])


@test
def cut_transaction_is_taken_back(mltx: Program) -> None:
    """The end of the input, also in a line, and a connection that breaks: the next client sees nothing of it."""
    with mltx.serve(limit=4) as server:
        same(server.talk("begin\nup 7 1\n"), b"begun 1\ndone\n", "a session that ends")
        same(server.talk("begin\nup 7 1\ncommit"), b"begun 2\ndone\n", "a session that ends in a line")
        with server.connect() as peer:
            same([peer.ask("begin"), peer.ask("up 7 1")], ["begun 3", "done"])
            break_off(peer)
        same(server.talk(lines("begin|read 7|commit")), lines("begun 4|is 0|committed 1").encode(), "the next client")
        expect(server.end(), out="served 4\n", notes=[cut_for(3, BROKEN)])


@test
def server_says_where_it_listens(mltx: Program) -> None:
    """It is the first line on standard error, it comes before a client does, and nothing follows it."""
    with mltx.serve() as server:
        same(server.first_line(), listening(server.address))
        same(server.talk("begin\nquit\n"), b"begun 1\nbye\n")
        expect(server.end(), out="served 1\n")


@test
def server_says_which_port_it_got(mltx: Program) -> None:
    """With port 0 the line has the port at which clients are served."""
    with mltx.serve(address=("127.0.0.1", 0)) as server:
        said = server.first_line()
        port = match(r"\Amltx: listening on 127\.0\.0\.1:([1-9][0-9]*)\n\Z", said)
        server.address = ("127.0.0.1", int(port[1]))
        same(server.talk("begin\nquit\n"), b"begun 1\nbye\n", f"a client at {server.address}")
        expect(server.end(), out="served 1\n")


@each({"server-without-standard-error": "2>&-", "server-with-a-full-standard-error": "2>/dev/full"})
def server_that_cannot_say_where_it_listens(mltx: Program, redirect: str) -> None:
    """It serves all the same, and its status is 0."""
    with mltx.serve(redirect=redirect, limit=2) as server:
        for number in (1, 2):
            same(server.talk("begin\nquit\n"), f"begun {number}\nbye\n".encode(), redirect)
        expect(server.end(), out="served 2\n", what=redirect)


def break_off(peer: Peer) -> None:
    """Resets the connection."""
    peer.socket.setsockopt(socket.SOL_SOCKET, socket.SO_LINGER, struct.pack("ii", 1, 0))
    peer.socket.close()


@test
def numbers_are_those_of_the_server(mltx: Program) -> None:
    """Transactions and commits are counted over all sessions, and what one commits the next one sees."""
    trace = mltx.folder / "serve.trace"
    with mltx.serve("--trace", trace, limit=3) as server:
        same(server.talk(lines("begin|open 1|commit")), lines("begun 1|opened|committed 1").encode())
        same(server.talk(lines("begin|open 1|abort")), lines("begun 2|exists|aborted").encode())
        same(server.talk(lines("begin|deposit 1 5|commit|quit")), lines("begun 3|done|committed 2|bye").encode())
        expect(server.end(), out="served 3\n")
    same(
        trace.read_text(),
        lines(
            "begin 1|op 1 open 1 opened|commit 1 1|begin 2|op 2 open 1 exists|back 2|abort 2|begin 3"
            "|op 3 deposit 1 5 done|commit 3 2"
        ),
    )
    expect(mltx.check(trace), out=lines("serial 1|serial 3|account 1 5"))


def says_nothing(peer: Peer, why: str) -> None:
    """Fails where an answer comes that must not come yet."""
    patience = peer.socket.gettimeout()
    peer.socket.settimeout(SILENCE)
    try:
        heard = peer.socket.recv(65_536)
    except TimeoutError:
        peer.socket.settimeout(patience)
        return
    holds(False, f"{heard!r} came, though {why}")


@test
def two_sessions_at_once(mltx: Program) -> None:
    """The first has a transaction open while the second begins, works on the same counter and commits."""
    trace = mltx.folder / "serve.trace"
    with mltx.serve("--trace", trace, limit=2) as server:
        with server.connect() as first, server.connect() as second:
            same(first.ask("begin"), "begun 1")
            told = [second.ask(line) for line in ("begin", "up 7 1", "commit", "quit")]
            same(told, ["begun 2", "done", "committed 1", "bye"], "the second session")
            same([first.ask(line) for line in ("up 7 2", "commit", "quit")], ["done", "committed 2", "bye"])
        expect(server.end(), out="served 2\n")
    same(trace.read_text(), lines("begin 1|begin 2|op 2 up 7 1 done|commit 2 1|op 1 up 7 2 done|commit 1 2"))
    expect(mltx.check(trace), out=lines("serial 2|serial 1|counter 7 3"))


@test
def deposits_of_two_sessions_do_not_wait(mltx: Program) -> None:
    """Both are done while both transactions are open, and the one that is taken back takes nothing from the other."""
    trace = mltx.folder / "serve.trace"
    with mltx.serve("--trace", trace, limit=3) as server:
        server.talk(lines("begin|open 1|commit"))
        with server.connect() as first, server.connect() as second:
            same([first.ask("begin"), second.ask("begin")], ["begun 2", "begun 3"])
            same([first.ask("deposit 1 5"), second.ask("deposit 1 7")], ["done", "done"])
            same([first.ask("abort"), second.ask("commit")], ["aborted", "committed 2"])
        expect(server.end(), out="served 3\n")
    expect(mltx.check(trace), out=lines("serial 1|serial 3|account 1 7"))


@test
def session_waits_for_a_transaction(mltx: Program) -> None:
    """A balance is not told while another session may take its deposit back: it comes once that transaction ended."""
    endings = (("commit", "committed 2", "is 5"), ("abort", "aborted", "is 0"), ("quit", "bye", "is 0"))
    for ending, answer, balance in endings:
        with mltx.serve(limit=3) as server:
            server.talk(lines("begin|open 1|commit"))
            with server.connect() as first, server.connect() as second:
                same([first.ask("begin"), second.ask("begin")], ["begun 2", "begun 3"])
                same(first.ask("deposit 1 5"), "done")
                second.send("balance 1\n")
                says_nothing(second, "the deposit is not committed")
                same(first.ask(ending), answer)
                same(second.line(), balance, f"the balance after {ending}")
            expect(server.end(), out="served 3\n", what=ending)


@test
def tries_spent_in_a_session(mltx: Program) -> None:
    """With one try an operation that is told to wait is answered `error 14 GaveUp`, and its transaction can commit."""
    trace = mltx.folder / "serve.trace"
    with mltx.serve("--tries", 1, "--trace", trace, limit=3) as server:
        server.talk(lines("begin|open 1|deposit 1 5|commit"))
        with server.connect() as first, server.connect() as second:
            same([first.ask("begin"), first.ask("withdraw 1 1")], ["begun 2", "done"])
            same([second.ask("begin"), second.ask("up 7 1")], ["begun 3", "done"])
            same([second.ask("balance 1"), second.ask("balance 1")], ["error 14 GaveUp"] * 2)
            same([second.ask("commit"), first.ask("commit")], ["committed 2", "committed 3"])
        expect(server.end(), out="served 3\n")
    expect(mltx.check(trace), out=lines("serial 1|serial 3|serial 2|account 1 4|counter 7 1"))


@test
def sessions_never_wait_in_a_circle(mltx: Program) -> None:
    """Of two sessions that wait for each other one gives up, and the other goes on once that one has ended."""
    with mltx.serve(limit=2) as server, server.connect() as first, server.connect() as second:
        same([first.ask("begin"), second.ask("begin")], ["begun 1", "begun 2"])
        same([first.ask("up 1 1"), second.ask("up 2 1")], ["done", "done"])
        first.send("read 2\n")
        second.send("read 1\n")
        gave_up, waits = (first, second) if answers_first(first, second) is first else (second, first)
        same(gave_up.line(), "error 14 GaveUp", "the first answer")
        says_nothing(waits, "the other session has not ended")
        same(gave_up.ask("abort"), "aborted")
        same([waits.line(), waits.ask("commit")], ["is 0", "committed 1"])
        gave_up.end()
        waits.end()
        expect(server.end(), out="served 2\n")


def answers_first(*peers: Peer) -> Peer:
    """The peer that has an answer first."""
    first = readable(peers, PATIENCE)
    holds(first, "no session has an answer")
    return first[0]


@test
def no_room_in_a_session(mltx: Program) -> None:
    """Nine accounts with one low pseudokey have no room by `low`; the transaction goes on. By `mult` they have it."""
    opens = [f"open {number * 65536}" for number in range(9)]
    for options, ninth in ((("--hash", "low"), "error 2 NoRoom"), ((), "opened"), (("--hash", "mult"), "opened")):
        with mltx.serve(*options) as server:
            answers = server.talk(lines("|".join(["begin", *opens, "balance 0", "commit"])))
            wanted = lines("|".join(["begun 1", *["opened"] * 8, ninth, "is 0", "committed 1"]))
            same(answers, wanted.encode(), f"serve {options}")
            expect(server.end(), out="served 1\n")


@test
def so_many_sessions_at_once(mltx: Program) -> None:
    """Eight sessions are held where no number is given; the ninth client is served once one of them has ended."""
    for options, most in (((), 8), (("--sessions", 1), 1), (("--sessions", 3), 3)):
        with mltx.serve(*options, limit=most + 1) as server:
            peers = [server.connect() for _ in range(most)]
            same([peer.ask("begin") for peer in peers], [f"begun {number}" for number in range(1, most + 1)])
            with server.connect() as late:
                late.send("begin\n")
                says_nothing(late, f"{most} sessions are held")
                same(peers[0].ask("quit"), "bye")
                same(late.line(), f"begun {most + 1}", "the client that waited")
            for peer in peers:
                peer.socket.close()
            expect(server.end(), out=f"served {most + 1}\n", what=f"{options}")


@test
def sixty_four_sessions_at_once(mltx: Program) -> None:
    with mltx.serve("--sessions", 64, limit=64) as server:
        peers = [server.connect() for _ in range(64)]
        same([peer.ask("begin") for peer in peers], [f"begun {number}" for number in range(1, 65)])
        same({peer.ask("up 7 1") for peer in peers}, {"done"}, "what each is told, while all are open")
        same([peer.ask("commit") for peer in peers], [f"committed {number}" for number in range(1, 65)])
        for peer in peers:
            same(peer.ask("quit"), "bye")
        expect(server.end(), out="served 64\n")


# More than a session reads at once: 16,384 bytes.
MORE = {
    "lines-behind-quit": ("quit\n" + "begin\n" * 5_000, b"bye\n", None),
    "bytes-behind-a-line-too-long": ("x" * 50_000, b"error 12 LineTooLong\n", LONG_LINE),
    "a-megabyte-behind-quit": ("quit\n" + "y" * 1_000_000, b"bye\n", None),
}


@each(MORE)
def last_answers_are_heard(mltx: Program, case: tuple[str, bytes, str | None]) -> None:
    """A client that sends more than its session reads hears the last answers and then the end, each of twenty times."""
    sent, told, why = case
    with mltx.serve(limit=20) as server:
        for time_of in range(20):
            with server.connect() as peer:
                peer.send(sent)
                same(peer.rest(), told, f"time {time_of}: the answers to {sent[:9]!r}..")
        expect(server.end(), out="served 20\n", notes=[cut_for(number, why) for number in range(1, 21) if why])


@test(seconds=1)
def end_is_heard_behind_too_many_bytes(mltx: Program) -> None:
    """The byte behind 16,777,216 ends a session. A million more are read away, and the client hears the end."""
    blank = " " * 199 + "\n"
    with mltx.serve() as server, server.connect() as peer:
        same(peer.ask("begin"), "begun 1", "begin")
        peer.send(blank * (MOST_BYTES // 200 + 5_000))
        same(peer.rest(), b"", "what follows too many bytes")
        expect(server.end(), out="served 1\n", notes=[cut_for(1, MANY_BYTES)])


@test(seconds=3)
def client_that_hears_late_hears_all(mltx: Program) -> None:
    """A client that sends many lines at once and reads nothing for half a second hears every answer: the server waits for it."""
    count = 600_000
    with mltx.serve() as server, server.connect() as peer:
        sending = threading.Thread(target=send_and_hear_nothing, args=(peer, "foo\n" * count + "quit\n"))
        sending.start()
        time.sleep(0.5)
        same(peer.rest() == b"error 10 ScriptFault\n" * count + b"bye\n", True, f"whether it hears {count} answers and the end")
        sending.join()
        expect(server.end(), out="served 1\n")


def send_for_ever(peer: Peer, text: str, pause: float) -> None:
    """Sends a text again and again, until the server breaks the connection off."""
    with may_break_off():
        while True:
            peer.send(text)
            time.sleep(pause)


FOR_EVER = {
    "many-bytes-for-ever-behind-quit": ("x" * 100_000, 0),
    "a-byte-now-and-then-for-ever-behind-quit": ("x", 0.05),
}


@each(FOR_EVER, seconds=1)
def client_that_sends_for_ever_is_left(mltx: Program, case: tuple[str, float]) -> None:
    """After a second at the latest, or 16,777,216 bytes more, the thread of a session serves the next client."""
    with mltx.serve("--sessions", 1, limit=2) as server, server.connect() as peer:
        same(peer.ask("quit"), "bye", "quit")
        sending = threading.Thread(target=send_for_ever, args=(peer, *case))
        sending.start()
        with server.connect() as other:
            same([other.ask("begin"), other.ask("quit")], ["begun 1", "bye"], "the next client")
        expect(server.end(), out="served 2\n")
        sending.join()


# Lines that begin no session, with others behind them, and lines like them that do.
CALLS = "begin\nup 7 666\ncommit\nquit\n"
OF_HTTP = {
    "request-of-a-web-page": "POST / HTTP/1.1\r\nHost: 127.0.0.1:7000\r\nContent-Length: 27\r\n\r\n" + CALLS,
    "first-line-that-ends-in-http-1-0": "up 7 1 HTTP/1.0\n" + CALLS,
    "first-line-that-is-http-1-1-alone": " HTTP/1.1\r\n" + CALLS,
}
LIKE_HTTP = "POST /HTTP/1.1", "GET / HTTP/1.2", "GET / HTTP/2", "GET / http/1.1", "GET / HTTP/1.1 ", "GET / HTTP/1.1\r\r"


@each(OF_HTTP, seconds=1)
def first_line_of_http(mltx: Program, sent: str) -> None:
    """It is not answered, nor are lines behind it, and nothing of them is done: also where it comes in three pieces."""
    with mltx.serve(limit=3) as server:
        same(server.talk(sent), b"", f"the answers to {sent!r}")
        with server.connect() as peer:
            for piece in (sent[:3], sent[3:8], sent[8:]):
                peer.send(piece)
                time.sleep(0.1)
            peer.hear()
            same(peer.heard, b"", f"the answers to {sent!r} in pieces")
        same(server.talk("begin\nread 7\n"), b"begun 1\nis 0\n", "the next client")
        expect(server.end(), out="served 3\n", notes=[cut_for(1, IS_HTTP), cut_for(2, IS_HTTP)])


@test
def first_line_like_that_of_http(mltx: Program) -> None:
    """It is a faulty line, as a line of HTTP is that is not the first one."""
    texts = [*(line + "\n" for line in LIKE_HTTP), "foo\nPOST / HTTP/1.1\r\n"]
    with mltx.serve(limit=len(texts)) as server:
        for number, text in enumerate(texts, 1):
            told = "error 10 ScriptFault\n" * text.count("\n") + f"begun {number}\nbye\n"
            same(server.talk(text + "begin\nquit\n"), told.encode(), f"the answers to {text!r}")
        expect(server.end(), out=f"served {len(texts)}\n")


@test(seconds=1)
def silent_client_is_cut(mltx: Program) -> None:
    """With `--idle 1` a client that says nothing for a second is cut, also one that never said a word. Its transaction is
    taken back, and who waits for it goes on."""
    trace = mltx.folder / "serve.trace"
    with mltx.serve("--idle", 1, "--trace", trace, limit=3) as server:
        with server.connect() as mute, server.connect() as silent, server.connect() as other:
            same([silent.ask("begin"), silent.ask("up 7 1")], ["begun 1", "done"])
            with takes(0.9, PATIENCE / 4, "the silent client was cut"):
                same([other.ask("begin"), other.ask("read 7")], ["begun 2", "is 0"], "once the silent client is cut")
            same([silent.rest(), mute.rest()], [b"", b""], "what the silent clients hear")
            same([other.ask("commit"), other.ask("quit")], ["committed 1", "bye"], "the other client")
        expect(in_any_order(server.end()), out="served 3\n", notes=[cut_for(1, IDLE), cut_for(2, IDLE)])
    same(trace.read_text(), lines("begin 1|op 1 up 7 1 done|begin 2|back 1|abort 1|op 2 read 7 is 0|commit 2 1"))


@test(seconds=3)
def client_that_takes_nothing_is_cut(mltx: Program) -> None:
    """With `--idle 1` a client that sends many lines and never reads is cut as well, and its transaction taken back."""
    with mltx.serve("--idle", 1, limit=2) as server, server.connect() as deaf:
        same([deaf.ask("begin"), deaf.ask("up 7 1")], ["begun 1", "done"])
        sending = threading.Thread(target=send_and_hear_nothing, args=(deaf, "foo\n" * 2_000_000))
        sending.start()
        with server.connect() as other:
            same([other.ask("begin"), other.ask("read 7")], ["begun 2", "is 0"], "once the deaf client is cut")
            same([other.ask("commit"), other.ask("quit")], ["committed 1", "bye"], "the other client")
        sending.join()
        deaf.socket.close()
        expect(server.end(), out="served 2\n", notes=[cut_for(1, IDLE)])


def send_and_hear_nothing(peer: Peer, text: str) -> None:
    """Sends a text, as much of it as the server takes."""
    with may_break_off():
        peer.send(text)


@test(seconds=3)
def session_that_waits_is_not_idle(mltx: Program) -> None:
    """With `--idle 1` an operation waits for two seconds and more, and its session goes on."""
    with mltx.serve("--idle", 1, limit=2) as server, server.connect() as first, server.connect() as second:
        same([first.ask("begin"), second.ask("begin"), first.ask("up 7 1")], ["begun 1", "begun 2", "done"])
        second.send("read 7\n")
        for _ in range(6):
            time.sleep(0.4)
            same(first.ask("read 8"), "is 0", "the first client")
        same(first.ask("commit"), "committed 1")
        same([second.line(), second.ask("commit")], ["is 1", "committed 2"], "the second client")
        first.end()
        second.end()
        expect(server.end(), out="served 2\n")


@test(seconds=2)
def slow_client_is_not_cut(mltx: Program) -> None:
    """With `--idle 2` a client that sends a byte every fifth of a second is heard."""
    with mltx.serve("--idle", 2) as server, server.connect() as slow:
        for byte in "begin\n":
            time.sleep(0.2)
            slow.send(byte)
        same([slow.line(), slow.ask("commit"), slow.ask("quit")], ["begun 1", "committed 1", "bye"])
        expect(server.end(), out="served 1\n")


@each({"blank-lines-are-idle": "\n", "bytes-that-are-no-line-are-idle": "x"}, seconds=3)
def client_that_sends_no_line_is_cut(mltx: Program, sent: str) -> None:
    """With `--idle 1` one that sends something every quarter of a second is cut after a second, be a transaction open or not."""
    with mltx.serve("--idle", 1, limit=3) as server:
        with server.connect() as closed, server.connect() as opened, server.connect() as other:
            same([opened.ask("begin"), opened.ask("up 7 1"), other.ask("begin")], ["begun 1", "done", "begun 2"])
            sending = [threading.Thread(target=send_for_ever, args=(peer, sent, 0.25)) for peer in (closed, opened)]
            for one in sending:
                one.start()
            with takes(0.9, PATIENCE / 4, "the client was cut"):
                same(other.ask("read 7"), "is 0", "once the client is cut")
            same([other.ask("commit"), other.ask("quit")], ["committed 1", "bye"], "the other client")
            for one in sending:
                one.join()
        expect(in_any_order(server.end()), out="served 3\n", notes=[cut_for(1, IDLE), cut_for(2, IDLE)])


@each({"silence-without-an-idle-time": (), "silence-with-an-idle-time-of-0": ("--idle", 0)}, seconds=2)
def silence_without_an_idle_time(mltx: Program, options: tuple[object, ...]) -> None:
    """Where no idle time is set a client may say nothing for as long as it likes."""
    with mltx.serve(*options) as server, server.connect() as peer:
        same(peer.ask("begin"), "begun 1", "begin")
        time.sleep(1.5)
        same([peer.ask("commit"), peer.ask("quit")], ["committed 1", "bye"], "after a silence")
        expect(server.end(), out="served 1\n")


@test
def example_move_money(mltx: Program) -> None:
    """The client that is an example moves what there is, and nothing more."""
    with mltx.serve(limit=2) as server:
        server.talk("")  # The server is there.
        words = command([sys.executable, "-B", ROOT / "examples" / "move_money.py", *server.address])
        ran = subprocess.run(words, capture_output=True, timeout=PATIENCE)
        same(ran.stdout, b"moved 30: True\nmoved 500: False\nbalances: 70 30\n", f"{ran.stderr!r}")
        expect(server.end(), out="served 2\n")
