"""Sessions beside strangers: clients that send anything, break off anywhere, send slowly, send much, or say nothing."""
import random
import re
import socket
import struct
from collections.abc import Callable
from concurrent.futures import ThreadPoolExecutor

import harness
from harness import BROKEN, LONG_LINE, MOST_BYTES, Peer, Program, Server, cut_for, each, expect, holds, lines, may_break_off, same
from harness import test

STRANGERS = 64
ANSWER = re.compile(
    rb"begun \d+|committed \d+|aborted|bye|opened|exists|closed|notempty|done|over|short|missing|added|present|removed"
    rb"|absent|yes|no|is \d+|error \d+ [A-Za-z]+"
)


def noise(source: random.Random) -> bytes:
    return source.randbytes(source.randrange(1, 8192))


def long_line(source: random.Random) -> bytes:
    return b"begin\nup 7 1\n" + b"a" * source.randrange(201, 5000)


def half_line(source: random.Random) -> bytes:
    whole = b"begin\nup 7 1\nadd 3 4\nopen 1\ndeposit 1 5\ncommit\nbegin\nup 7 2\nquit\n"
    return whole[: source.randrange(1, whole.rindex(b"\n"))]


def words(source: random.Random) -> bytes:
    """Lines of the right words in a wrong order, on objects of its own or on a few that strangers share."""
    names = [source.randrange(1 << 32)] if source.randrange(2) else range(4)
    verbs = ["up {} 1", "read {}", "open {}", "deposit {} 3", "withdraw {} 9", "balance {}", "", "# x"]
    said = [verb.format(name) for name in names for verb in verbs]
    said = source.choices(["begin", "commit", "abort", *said], k=source.randrange(1, 400))
    return "".join(line + "\n" for line in said).encode()


def nothing(_source: random.Random) -> bytes:
    return b""


KINDS = [noise, long_line, half_line, words, nothing]


def disturb(server: Server, seed: str) -> bool:
    """One stranger: it sends something in pieces, and then reads, closes at once, or breaks off. It hears nothing but
    lines of the server's. It answers whether it was told that a line is too long."""
    source = random.Random(seed)
    sent = source.choice(KINDS)(source)
    with server.connect() as peer:
        with may_break_off():
            while sent:
                piece = source.randrange(1, 4096)
                peer.send(sent[:piece])
                sent = sent[piece:]
        heard = peer.say_all("") if source.randrange(4) else b""
    for line in heard.splitlines():
        holds(ANSWER.fullmatch(line), f"stranger {seed} was told {line!r}")
    return b"error 12 LineTooLong\n" in heard


def take_care(server: Server, counter: int) -> None:
    """An honest client that sends each byte of a transaction alone, on a counter of its own."""
    with server.connect() as peer:
        for byte in lines(f"begin|up {counter} 5|read {counter}|commit|quit").encode():
            peer.send(bytes([byte]))
        heard = peer.rest()
    wanted = rb"begun \d+\ndone\nis 5\ncommitted \d+\nbye\n"
    holds(re.fullmatch(wanted, heard), f"the honest client of counter {counter} was told {heard!r}")


@each({f"strangers-{number}": number for number in range(3 * harness.CASES)}, seconds=3)
def strangers(mltx: Program, number: int) -> None:
    """Honest clients are answered as if nobody else were there, the server ends by itself, and its trace is right."""
    trace = mltx.folder / "trace"
    connections = STRANGERS + 5
    with mltx.serve("--tries", 100, "--trace", trace, limit=connections) as server:
        # The first connection stays silent until all others have ended.
        with server.connect(), ThreadPoolExecutor(connections) as pool:
            others = [pool.submit(disturb, server, f"{harness.SEED} {number} {at}") for at in range(STRANGERS)]
            honest = pool.map(lambda at: take_care(server, 4_000_000_000 + at), range(3))
            told = sum(it.result() for it in others)
            list(honest)
            take_care(server, 4_000_000_003)
        ended = server.end()
        expect(ended, out=f"served {connections}\n", notes=ended.notes, what="the server")
    # The first and the last client are honest, and no client is cut twice.
    cuts = {cut_for(client, why): (client, why) for client in range(2, connections) for why in (LONG_LINE, BROKEN)}
    clients = [cuts[note][0] for note in ended.notes if note in cuts]
    same((len(clients), len(set(clients))), (len(ended.notes), len(clients)), f"notes on strangers among {ended.notes}")
    noted = sum(cuts[note][1] == LONG_LINE for note in ended.notes)
    holds(noted >= told, f"{told} were told of a line, and of notes came {ended.notes}")
    checked = mltx.accepted(trace)
    for at in range(4):
        holds(f"counter {4_000_000_000 + at} 5\n" in checked, f"an honest client's counter is lost: {checked}")


def close(peer: Peer) -> None:
    peer.socket.close()


def reset(peer: Peer) -> None:
    """Breaks the connection off, with nothing more said to the server than that."""
    peer.socket.setsockopt(socket.SOL_SOCKET, socket.SO_LINGER, struct.pack("ii", 1, 0))
    peer.socket.close()


def end_input(peer: Peer) -> None:
    peer.end()


WAYS = {
    f"objects-are-free-after-{name}{where}": (way, tail)
    for name, way in [("close", close), ("reset", reset), ("end-of-input", end_input)]
    for where, tail in [("", ""), ("-inside-a-line", "up 7 "), ("-inside-the-commit", "commit")]
}


@each(WAYS)
def broken(mltx: Program, case: tuple[Callable[[Peer], None], str]) -> None:
    """What a client's open transaction did is taken back where it breaks off, and who waits for it goes on."""
    way, tail = case
    trace = mltx.folder / "trace"
    with mltx.serve("--trace", trace, limit=2) as server:
        with server.connect() as gone, server.connect() as stays:
            for line, told in [("begin", "begun 1"), ("up 7 1", "done"), ("open 3", "opened"), ("add 4 9", "added")]:
                same(gone.ask(line), told, line)
            same(stays.ask("begin"), "begun 2", "begin")
            stays.send("read 7\n")
            gone.send(tail)
            way(gone)
            same(stays.line(), "is 0", "read 7, while and after another client had counted up")
            for line, told in [("open 3", "opened"), ("add 4 9", "added"), ("commit", "committed 1"), ("quit", "bye")]:
                same(stays.ask(line), told, line)
        expect(server.end(), out="served 2\n", notes=[cut_for(1, BROKEN)] if way is reset else [])
    expect(mltx.check(trace), out=lines("serial 2|account 3 0|element 4 9"), what="the check of the trace")


@test(seconds=1)
def sixteen_megabytes_of_blank_lines(mltx: Program) -> None:
    """An input of 16,777,216 bytes, nearly all of it blank lines, is read to its last line. Another client is answered
    meanwhile."""
    first, last, blank = b"begin\nup 7 1\n", b"commit\n", b" " * 199 + b"\n"
    room = MOST_BYTES - len(first) - len(last)
    blanks = blank * (room // 200) + blank[-(room % 200) :]
    same(len(first + blanks + last), MOST_BYTES, "bytes that are sent")
    with mltx.serve("--sessions", 2, limit=2) as server, server.connect() as peer:
        peer.send(first + blanks[: room // 2])
        same(server.talk(lines("begin|up 8 1|commit|quit")), b"begun 2\ndone\ncommitted 1\nbye\n", "the other client")
        same(peer.say_all(blanks[room // 2 :] + last), b"begun 1\ndone\ncommitted 2\n", "the client that sends much")
        expect(server.end(), out="served 2\n")


@test
def comments_are_no_lines_of_a_session(mltx: Program) -> None:
    """Each comment is answered by a fault, thousands of them too, and the transaction stays open."""
    with mltx.serve() as server, server.connect() as peer:
        same((peer.ask("begin"), peer.ask("up 7 1")), ("begun 1", "done"))
        for _ in range(50):
            peer.send("# nothing\n" * 100)
            for _ in range(100):
                same(peer.line(), "error 10 ScriptFault", "# nothing")
        same((peer.ask("read 7"), peer.ask("commit"), peer.ask("quit")), ("is 1", "committed 1", "bye"))
        expect(server.end(), out="served 1\n")
