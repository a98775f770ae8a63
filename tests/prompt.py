"""The prompt in Python: what it writes of each line, the first line that fails, files of lines, servers that go away,
and its use at a terminal."""
import contextlib
import io
import os
import pty
import re
import signal
import subprocess
import sys
import time
from collections.abc import Iterator
from contextlib import contextmanager
from pathlib import Path
from typing import IO, cast

from client import FOLDER, SILENCE, Relay, connected, shown_in
from harness import BROKEN, PATIENCE, Address, Failed, Program, Ran, Server, cut_for, each, expect, free_address, holds, lines
from harness import match, readable, same, test

from mltx import Client
from mltx.shell import Shell

# A process that uses no time for so long waits, in seconds.
QUIET = 0.1
SHELL = [sys.executable, "-B", str(FOLDER / "mltx_shell.py")]


def typed(address: Address, given: str, *options: str, cwd: Path | None = None) -> Ran:
    """What the prompt comes to where its lines are given by a pipe."""
    words = [*SHELL, "%s:%d" % address, *options]
    ran = subprocess.run(words, input=given.encode("utf-8", "surrogateescape"), capture_output=True, cwd=cwd, timeout=PATIENCE)
    return Ran(ran.returncode, ran.stdout, ran.stderr)


# Lines that are piped in, what is written of them, and what standard error says, in which case the status is 1.
PIPED = {
    "prompt-of-each-reply": (
        "begin|close 1|deposit 1 1|open 1|open 1|withdraw 1 1|deposit 1 5|deposit 1 1000000000000000000|close 1"
        "|balance 1|withdraw 1 5|close 1|balance 1|remove 2 3|has 2 3|add 2 3|add 2 3|has 2 3|remove 2 3|down 4 1"
        "|up 4 3|read 4|commit|status",
        "begun 1|missing: there is no such account|missing: there is no such account|opened"
        "|exists: the account was there before|short: the balance is too low|done"
        "|over: the balance would be above 10^18|notempty: the balance is not 0|is 5|done|closed"
        "|missing: there is no such account|absent: the element is not in the set|no: the element is not in the set"
        "|added|present: the element was in the set before|yes: the element is in the set|removed|done|done|is 2"
        "|committed 1|connected; no transaction is open, the last one: committed 1",
        "",
    ),
    "prompt-skips-blank-lines-and-comments": (
        "|# one|  #two|begin|  up   07\t1 ||commit|status",
        "begun 1|done|committed 1|connected; no transaction is open, the last one: committed 1",
        "",
    ),
    "prompt-of-no-lines": ("", "", ""),
    "prompt-of-a-quit-in-a-transaction": (
        "begin|status|quit|up 7 1",
        "begun 1|connected; transaction 1 is open|transaction 1 is rolled back",
        "",
    ),
    "prompt-of-an-exit": ("begin|exit|up 7 1", "begun 1|transaction 1 is rolled back", ""),
    "prompt-of-operations-alone": ("up 7 1|begin|up 7 2|abort|read 7", "done|begun 2|done|aborted|is 1", ""),
    "prompt-of-an-operation-alone-that-cannot-be-done": ("withdraw 1 5|open 1", "missing: there is no such account|opened", ""),
    "prompt-of-a-backslash-q": ("begin|\\q|up 7 1", "begun 1|transaction 1 is rolled back", ""),
    "prompt-of-an-input-that-ends-in-a-transaction": (
        "begin|up 7 1",
        "begun 1|done",
        "transaction 1 was open at the end, and is rolled back",
    ),
    "prompt-ends-at-an-unknown-line": (
        "begin|up 7 1|upp 7 1|commit",
        "begun 1|done",
        "upp: there is no such line; did you mean `up`? `help` lists all|standard input, line 3: upp 7 1"
        "|transaction 1 was open at the end, and is rolled back",
    ),
    "prompt-ends-at-an-error": (
        "begin|begin|commit",
        "begun 1",
        "error 5 Running: a transaction is open already on this connection: end it first, since transactions don't nest"
        "|standard input, line 2: begin"
        "|transaction 1 was open at the end, and is rolled back",
    ),
}

# A line that fails where it stands alone, and what is said of it.
FAILS = {
    "prompt-of-a-commit-alone": ("commit", "no transaction is open: `begin` begins one"),
    "prompt-of-an-abort-alone": ("abort", "no transaction is open: `begin` begins one"),
    "prompt-of-words-behind-a-line": ("begin 1", "nothing stands behind `begin`; nothing was sent"),
    "prompt-of-a-number-out-of-range": (
        "deposit 1 18446744073709551616",
        "amount has to be 0 to 18446744073709551615, and is 18446744073709551616; it is `deposit ACCOUNT AMOUNT`;"
        " nothing was sent",
    ),
    "prompt-of-too-few-numbers": (
        "add 4",
        "add takes set, element, and was given 1 number; it is `add SET ELEMENT`; nothing was sent",
    ),
    "prompt-of-a-byte-that-is-no-character": ("\udcff up", r"\xff: there is no such line; `help` lists all"),
    "prompt-of-numbers-without-an-operator": (
        ":status", "the operator's address is not known: give it as `--admin HOST:PORT` behind the server's",
    ),
    "prompt-of-waits-without-an-operator": (
        ":waits", "the operator's address is not known: give it as `--admin HOST:PORT` behind the server's",
    ),
    "prompt-of-words-behind-waits": (":waits 1", "nothing stands behind `:waits`; nothing was sent"),
    "prompt-of-another-colon": (":wait", ":wait: there is no such line; did you mean `:waits`? `help` lists all"),
    "prompt-of-a-nearly-right-word": ("balence 1", "balence: there is no such line; did you mean `balance`? `help` lists all"),
    "prompt-of-the-word-of-others": ("rollback", "rollback: there is no such line; did you mean `abort`? `help` lists all"),
    "prompt-of-no-number": ("up 7 x", "it is `up COUNTER AMOUNT`, with numbers; nothing was sent"),
    "prompt-of-a-file-that-is-not-there": (
        "source none.txt",
        "source none.txt: the file can't be read ([Errno 2] No such file or directory: 'none.txt')",
    ),
}
PIPED |= {
    name: (line, "", f"{said}|standard input, line 1: {line}".replace("\udcff", r"\xff")) for name, (line, said) in FAILS.items()
}


@each(PIPED)
def piped(mltx: Program, case: tuple[str, str, str]) -> None:
    given, out, err = case
    with mltx.serve(limit=2) as server:
        connected(server).close()
        ran = typed(server.address, lines(given), cwd=mltx.folder)
        expect(ran, status=1 if err else 0, out=lines(out), err=lines(err), what=given)


@test
def help_of_the_prompt(mltx: Program) -> None:
    """Each operation is listed, and its help has its numbers and its replies."""
    with mltx.serve(limit=2) as server:
        connected(server).close()
        ran = typed(server.address, "help\nhelp deposit\n? read\nhelp source\nhelp nothing\n")
    out = ran.out.decode()
    calls = "open ACCOUNT", "add SET ELEMENT", "size SET", "up COUNTER AMOUNT"
    for usage in (*calls, "begin", "source FILE", ":status", ":waits", ":watch", "\\timing", "quit"):
        holds(re.search(rf"(?m)^{re.escape(usage)} ", out), f"{usage} is listed in {out}")
    deposit = (
        "deposit ACCOUNT AMOUNT|    puts AMOUNT into the account"
        "|    ACCOUNT is 0 to 4294967295, AMOUNT is 0 to 18446744073709551615"
        "|    -> done|    -> over: the balance would be above 10^18|    -> missing: there is no such account"
    )
    holds(lines(deposit) in out, f"the help of deposit in {out}")
    holds(lines("read COUNTER|    tells the value of the counter") in out, f"the help of read in {out}")
    same(ran.status, 1, "the status")
    same(ran.err, b"help: there is no line nothing\nstandard input, line 5: help nothing\n", "what is said")


@test
def files_of_lines(mltx: Program) -> None:
    """A file runs up to the first line that fails, which is told; it may run others; what it began stays open."""
    mltx.file("inner.txt", "# counts\nup 7 1\nup 7 2\n")
    mltx.file("outer.txt", "begin\nsource inner.txt\n\nread 7\n")
    mltx.file("wrong.txt", "up 7 4\nfoo\nup 7 8\n")
    mltx.file("circle.txt", "source circle.txt\n")
    mltx.file("quits.txt", "quit\n")
    cases = [
        ("source outer.txt|commit", "begun 1|done|done|is 3|committed 1", ""),
        (
            "source outer.txt|source wrong.txt|commit",
            "begun 2|done|done|is 6|done",
            "foo: there is no such line; `help` lists all|wrong.txt, line 2: foo"
            "|standard input, line 2: source wrong.txt|transaction 2 was open at the end, and is rolled back",
        ),
        ("source quits.txt|begin", "", ""),
    ]
    with mltx.serve(limit=5) as server:
        connected(server).close()
        for given, out, err in cases:
            ran = typed(server.address, lines(given), cwd=mltx.folder)
            expect(ran, status=1 if err else 0, out=lines(out), err=lines(err), what=given)
        ran = typed(server.address, "source circle.txt\n", cwd=mltx.folder)
        same((ran.status, ran.err.count(b"\n")), (1, 18), f"a file that runs itself: {ran}")
        holds(ran.err.startswith(b"source circle.txt: 16 files run one another already\n"), f"{ran}")


@test
def servers_that_go_away_from_a_prompt(mltx: Program) -> None:
    """It says whether the transaction is rolled back, or whether that is not known."""
    ran = typed(free_address(), "begin\n")
    same((ran.status, ran.out), (1, b""), "a server that is not there")
    said = rb"no server answers at 127[.\d]+:\d+ \(.*refused\)\nstandard input, line 1: begin\n"
    holds(re.fullmatch(said, ran.err), f"what is said: {ran}")
    cases = [
        (
            ("before", "up 7 1"),
            "begun 1",
            "the server ended the connection: it was stopped, or the connection was idle or its transaction open for too long, or"
            " an operator ended it; transaction 1 is rolled back"
            "|standard input, line 2: up 7 1",
        ),
        (
            ("after", "commit"),
            "begun 2|done",
            "the connection ended, and it is not known whether transaction 2 was committed"
            "|standard input, line 3: commit",
        ),
    ]
    with mltx.serve(limit=2) as server:
        for cut, out, err in cases:
            relay = Relay(server, [cut])
            ran = typed(relay.address, "begin\nup 7 1\ncommit\n")
            expect(ran, status=1, out=lines(out), err=lines(err), what=f"{cut}")
        expect(server.end(), out="served 2\n")


@test(seconds=1)
def prompt_beyond_the_sessions(mltx: Program) -> None:
    """`status` and `begin` say that all sessions are taken, and go on once one is free."""
    with mltx.serve("--sessions", 1, limit=4) as server, connected(server) as holder:
        holder.run(lambda tx: tx.up(7, 1))
        shell = Shell(Client(*server.address, session_timeout=SILENCE))
        for line in ("status", "begin"):
            with contextlib.redirect_stderr(io.StringIO()) as said:
                shell.onecmd(line)
            holds(said.getvalue().startswith("all sessions of the server are taken"), f"{line}: {said.getvalue()!r}")
            same(shell.failed, True, f"{line} fails")
        holder.close()
        shell.client.session_timeout = None
        with contextlib.redirect_stdout(io.StringIO()) as said:
            for line in ("status", "begin", "read 7", "status", "quit"):
                shell.onecmd(line)
        told = "connected; no transaction is open|begun 3|is 1|connected; transaction 3 is open|transaction 3 is rolled back"
        same(said.getvalue(), lines(told), "what it says once a session is free")
        expect(server.end(), out="served 4\n")


@test(seconds=1)
def prompt_that_asks_the_operator(mltx: Program) -> None:
    """It says which transaction waits for which, and the numbers, line by line; and where no operator is, that."""
    with mltx.serve(limit=4, admin=free_address()) as server, connected(server) as holder:
        admin = ("--admin", "%s:%d" % server.admin)
        with holder.begin() as held, server.connect() as waiter:
            held.up(7, 5)
            ran = typed(server.address, ":waits\n", *admin)
            expect(ran, out="no transaction waits\n", what=":waits")
            same(waiter.ask("begin"), "begun 2")
            waiter.send("read 7\n")
            waits = rb"transaction 2 of client 2 waits for transaction 1, since \d+\.\d seconds: read 7\n"
            until = time.monotonic() + PATIENCE
            while (ran := typed(server.address, ":waits\n", *admin)).out == b"no transaction waits\n":
                holds(time.monotonic() < until, "no transaction waits")
            same((ran.status, ran.err), (0, b""), ":waits")
            holds(re.fullmatch(waits, ran.out), f":waits says {ran.out!r}")
            ran = typed(server.address, ":status\n", *admin)
            same((ran.status, ran.err), (0, b""), ":status")
            told = dict(line.split() for line in ran.out.decode().splitlines())
            same({name: told.get(name) for name in ("sessions", "open", "commits", "limit")},
                 {"sessions": "2", "open": "2", "commits": "0", "limit": "4"}, f"{ran}")
        ran = typed(server.address, ":status\n", "--admin", "%s:%d" % free_address())
        same((ran.status, ran.out), (1, b""), "an operator that is not there")
        said = rb"no server answers an operator at 127[.\d]+:\d+ \(.*refused\)\nstandard input, line 1: :status\n"
        holds(re.fullmatch(said, ran.err), f"what is said: {ran}")


@test(seconds=3)
def prompt_that_watches(mltx: Program) -> None:
    """Behind the numbers it says each second what has changed, until it is interrupted; then it goes on."""
    with mltx.serve(limit=3, admin=free_address()) as server, connected(server) as client:
        words = [*SHELL, "%s:%d" % server.address, "--admin", "%s:%d" % server.admin]
        with subprocess.Popen(words, stdin=subprocess.PIPE, stdout=subprocess.PIPE, preexec_fn=heed_interrupts) as process:
            asked, told = cast(IO[bytes], process.stdin), cast(IO[bytes], process.stdout)
            asked.write(b":watch\n:waits\n")
            asked.flush()
            while not told.readline().startswith(b"memory "):
                pass
            client.run(lambda tx: tx.up(7, 1))
            while (line := told.readline()) == b"no change\n":
                pass
            holds(b"commits 1 (+1)" in line.rstrip().split(b", "), f"what has changed: {line!r}")
            process.send_signal(signal.SIGINT)
            rest, _ = process.communicate(timeout=PATIENCE)
            holds(rest.endswith(b"\nno transaction waits\n"), f"what follows: {rest!r}")
            same(process.returncode, 0, "the status")


# Operations of `-c`, after each other at one server: what is written, what standard error says, in which case the status is 1.
ONCE = [
    ("deposit 101 5", "missing: there is no such account", "rolled back, since `deposit 101 5` could not be done"),
    ("open 101; open 102;deposit 101 50", "opened|opened|done", ""),
    ("open 101 ; deposit 101 5", "exists: the account was there before|done", ""),
    ("withdraw 101 30; deposit 102 30", "done|done", ""),
    ("deposit 102 30; withdraw 101 30; up 7 1", "done|short: the balance is too low",
     "rolled back, since `withdraw 101 30` could not be done"),
    ("balance 101; balance 102; read 7", "is 25|is 30|is 0", ""),
    ("close 101", "notempty: the balance is not 0", "rolled back, since `close 101` could not be done"),
    ("up 7 1; upp 7 1", "", "upp: there is no such line; did you mean `up`? `help` lists all"),
    ("begin", "", "begin: `-c` takes operations alone, and is a transaction"),
    ("up 7", "", "up takes counter, amount, and was given 1 number; it is `up COUNTER AMOUNT`; nothing was sent"),
    ("", "", ""),
]


@test(seconds=2)
def prompt_of_one_transaction(mltx: Program) -> None:
    """It is committed as a whole or not at all, and run again after it gave up. The address may stand in the environment."""
    trace, env = mltx.folder / "trace", os.environ.copy()
    with mltx.serve("--trace", trace, limit=1 + len(ONCE) - 3) as server:
        connected(server).close()
        for number, (given, out, err) in enumerate(ONCE):
            env["MLTX_ADDR"] = "127.0.0.1:9" if number % 2 else "%s:%d" % server.address
            address = ["%s:%d" % server.address] * (number % 2)
            ran = subprocess.run([*SHELL, *address, "-c", given], capture_output=True, env=env, timeout=PATIENCE)
            found = Ran(ran.returncode, ran.stdout, ran.stderr)
            expect(found, status=1 if err else 0, out=lines(out), err=lines(err), what=given)
        expect(server.end(), out=f"served {1 + len(ONCE) - 3}\n")
    checked = "serial 2|serial 3|serial 4|serial 6|serial 8|account 101 25|account 102 30"
    expect(mltx.check(trace), out=lines(checked), what="the check of the trace")
    with mltx.serve("--tries", 1, limit=2) as server, connected(server) as holder, holder.begin() as held:
        held.up(7, 1)
        with subprocess.Popen([*SHELL, "%s:%d" % server.address, "-c", "read 7"], stdout=subprocess.PIPE) as process:
            time.sleep(1)
            held.commit()
            same((process.communicate(timeout=PATIENCE)[0], process.returncode), (b"is 1\n", 0), "what is read at last")
    ran = subprocess.run([*SHELL, "%s:%d" % free_address(), "-c", "read 7"], capture_output=True, timeout=PATIENCE)
    same((ran.returncode, ran.stdout), (1, b""), "a server that is not there")


@test
def prompt_that_nobody_reads(mltx: Program) -> None:
    """Its output is a pipe whose other end is closed, as behind `| head`: it ends without a word, and commits nothing more."""
    trace = mltx.folder / "trace"
    # Without a buffer nothing would be left to be written at its end.
    env = {name: value for name, value in os.environ.items() if name != "PYTHONUNBUFFERED"}
    with mltx.serve("--trace", trace, limit=2) as server:
        connected(server).close()
        read, write = os.pipe()
        os.close(read)
        words, given = [*SHELL, "%s:%d" % server.address], b"begin\nup 7 1\ncommit\n"
        ran = subprocess.run(words, input=given, stdout=write, stderr=subprocess.PIPE, env=env, timeout=PATIENCE)
        os.close(write)
        same((ran.returncode, ran.stderr), (1, b""), "the status, and what is said")
        expect(server.end(), out="served 2\n")
    same(trace.read_text(), lines("begin 1|abort 1"), "the trace")


@test
def words_of_the_prompt(_mltx: Program) -> None:
    """A wrong command line has status 2."""
    good, admin = "127.0.0.1:7000", "--admin"
    wrong: list[list[str]] = [[], ["nowhere"], ["127.0.0.1:0"], [good, "more"], ["--what", good], [good, "-c"]]
    env = {name: value for name, value in os.environ.items() if name != "MLTX_ADDR"}
    for words in (*wrong, [good, admin], [good, admin, "nowhere"], [good, admin, "127.0.0.1:0"]):
        ran = subprocess.run([*SHELL, *words], stdin=subprocess.DEVNULL, capture_output=True, env=env, timeout=PATIENCE)
        same((ran.returncode, ran.stdout), (2, b""), f"{words}")
        holds(ran.stderr.startswith(b"usage: "), f"{words}: {ran.stderr!r}")


def used_by(process: int) -> tuple[str, ...]:
    """The state of a process, `S` where it sleeps, and the time of the processors that it has used."""
    with open(f"/proc/{process}/stat") as file:
        words = file.read().rpartition(")")[2].split()
    return words[0], *words[11:13]


def heed_interrupts() -> None:
    """A shell has what it runs in the background ignore interrupts, and the prompt would inherit that."""
    signal.signal(signal.SIGINT, signal.SIG_DFL)


class Terminal:
    """The prompt at a terminal."""

    def __init__(self, address: Address, folder: Path) -> None:
        self.end, other = pty.openpty()
        env = {**os.environ, "TERM": "dumb", "INPUTRC": "/dev/null", "MLTX_HISTORY": str(folder / "history")}
        how = (-1, None, other, other, other, heed_interrupts)
        self.process = subprocess.Popen([*SHELL, "%s:%d" % address], *how, cwd=folder, env=env, start_new_session=True)
        os.close(other)
        self.shown = ""

    def until(self, wanted: str) -> str:
        """What is shown up to these words, with them."""
        until = time.monotonic() + PATIENCE
        while wanted not in self.shown:
            if not readable([self.end], max(0, until - time.monotonic())):
                raise Failed(f"{wanted!r} is not shown, but {self.shown!r}")
            try:
                self.shown += os.read(self.end, 65_536).decode().replace("\r\n", "\n")
            except OSError:
                raise Failed(f"the prompt ended, with {self.shown!r} and without {wanted!r}") from None
        before, _, self.shown = self.shown.partition(wanted)
        return before + wanted

    def type(self, text: str) -> None:
        os.write(self.end, text.encode())

    def ask(self, line: str, wanted: str) -> str:
        """Types a line and waits for what follows it."""
        self.type(line + "\n")
        return self.until(wanted)

    def interrupt(self) -> None:
        """Interrupts it as Ctrl-C does, once it waits for something."""
        seen = None
        while seen != (seen := used_by(self.process.pid)) or seen[0] != "S":
            time.sleep(QUIET)
        self.process.send_signal(signal.SIGINT)


@contextmanager
def terminal(server: Server, folder: Path) -> Iterator[Terminal]:
    """The prompt at a terminal, as long as the block lasts."""
    it = Terminal(server.address, folder)
    try:
        yield it
    finally:
        it.process.kill()
        it.process.wait()
        os.close(it.end)


@test(seconds=1)
def prompt_at_a_terminal(mltx: Program) -> None:
    """It shows the transaction that is open, and how the last one ended; words are completed; lines are kept."""
    trace = mltx.folder / "trace"
    with mltx.serve("--trace", trace, limit=2) as server:
        connected(server).close()
        with terminal(server, mltx.folder) as it:
            it.until("connected; no transaction is open\nmltx> ")
            it.ask("begin", "begun 1\nmltx [1]> ")
            it.ask("with\t1 5", "missing: there is no such account\nmltx [1]> ")
            it.ask("foo", "`help` lists all\nmltx [1]> ")
            it.ask("up 7 1", "done\nmltx [1]> ")
            it.ask("commit", "committed 1\nmltx (committed 1)> ")
            it.type("deposit \t")
            it.until("deposit \ndeposit ACCOUNT AMOUNT\nmltx (committed 1)> deposit ")
            it.ask("7", "it is `deposit ACCOUNT AMOUNT`; nothing was sent\nmltx (committed 1)> ")
            it.ask("\\ti\t", "timing is on\nmltx (committed 1)> ")
            shown = it.ask("read 7", " ms\nmltx (committed 2)> ")
            holds(re.fullmatch(r"read 7\nis 1\n\d+\.\d ms\n.*> ", shown), f"the time: {shown!r}")
            it.ask("close 1", "missing: there is no such account\n")
            it.until("mltx (aborted)> ")
            it.ask("\\timing", "timing is off\nmltx (aborted)> ")
            it.ask("begin", "begun 4\nmltx [4]> ")
            it.type("half a line")
            it.until("half a line")
            it.interrupt()
            it.until("mltx [4]> ")
            it.ask("abort", "aborted\nmltx (aborted)> ")
            it.ask("help dep\t", "deposit ACCOUNT AMOUNT\n")
            it.ask(":wai\t", "the operator's address is not known")
            it.until("mltx (aborted)> ")
            it.type("\x10\x10\x10\x10\n")
            it.until("begun 5\nmltx [5]> ")
            it.type("\x04")
            it.until("transaction 5 is rolled back")
            same(it.process.wait(PATIENCE), 0, "the status")
        expect(server.end(), out="served 2\n")
    expect(mltx.check(trace), out=lines("serial 1|serial 2|counter 7 1"), what="the check of the trace")
    kept = (mltx.folder / "history").read_text().splitlines()
    same(kept[:3], ["begin", "withdraw 1 5", "foo"], "the history")


@test(seconds=1)
def interrupted_while_an_operation_waits(mltx: Program) -> None:
    """The connection is closed and the transaction taken back; the prompt goes on, and connects again."""
    trace = mltx.folder / "trace"
    with mltx.serve("--trace", trace, limit=3) as server, connected(server) as holder:
        held = holder.begin()
        held.up(7, 1)
        with terminal(server, mltx.folder) as it:
            it.ask("begin", "mltx [2]> ")
            it.ask("up 8 1", "done\nmltx [2]> ")
            it.ask("read 7", "read 7\n")
            it.interrupt()
            it.until("the server rolls transaction 2 back")
            it.until("mltx (rolled back)> ")
            held.commit()
            holder.close()
            it.ask("begin", "begun 3\nmltx [3]> ")
            it.ask("read 7", "is 1\nmltx [3]> ")
            it.ask("read 8", "is 0\nmltx [3]> ")
            it.ask("commit", "committed 2\nmltx (committed 2)> ")
            it.ask("quit", "\n")
            same(it.process.wait(PATIENCE), 0, "the status")
        ended = server.end()
        expect(ended, out="served 3\n", notes=ended.notes)
        holds(set(ended.notes) <= {cut_for(2, BROKEN)}, f"{ended.notes}")
    expect(mltx.check(trace), out=lines("serial 1|serial 3|counter 7 1"), what="the check of the trace")


@test(seconds=1)
def server_goes_away_at_a_terminal(mltx: Program) -> None:
    """The prompt stays, and says so."""
    with mltx.serve(limit=2) as server:
        connected(server).close()
        with terminal(server, mltx.folder) as it:
            it.until("mltx> ")
            it.ask("begin", "mltx [1]> ")
            server.kill()
            it.ask("up 7 1", "transaction 1 is rolled back\nmltx (rolled back)> ")
            it.ask("begin", "no server answers at ")
            it.until("mltx (rolled back)> ")
            it.ask("quit", "\n")
            same(it.process.wait(PATIENCE), 0, "the status")


@test
def readme_of_the_prompt_runs(mltx: Program) -> None:
    """What the client's page gives to `-c` is answered as the page shows."""
    page = (FOLDER / "README.md").read_text()
    with mltx.serve(limit=2) as server:
        connected(server).close()
        script = match(r'\$ mltx shell 127.0.0.1:7000 -c "(.*)"\n', shown_in(page, "## A prompt"))[1]
        ran = typed(server.address, "", "-c", script)
        expect(Ran(ran.status, ran.out, b""), status=1, out=shown_in(page.partition("## A prompt")[2], "writes"))
