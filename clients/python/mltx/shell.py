"""A prompt for a server that `mltx serve` runs.

    mltx shell [HOST:PORT] [--admin HOST:PORT] [-c OPERATIONS]

Each line is one of a session, such as `begin`, `deposit 101 50` or `commit`, or a command of the prompt; `help` lists both.
An operation outside of a transaction is one of its own.
Those that begin with a colon ask the server's operator, whose address is that of `--admin`, as the server has it.
Blank lines and lines that begin with `#` are skipped. The prompt says whether a transaction is open, with its number,
and else how the last one ended. Without a terminal it reads lines from standard input up to the first that fails, and
then the status is 1; a transaction that is open at the end is rolled back. With `-c` it runs one transaction of operations
with `;` between them.
"""

from __future__ import annotations

import argparse
import atexit
import cmd
import difflib
import glob
import io
import os
import sys
import time
from collections.abc import Callable, Iterable
from pathlib import Path
from typing import Any, Optional

from . import FORMS, Client, CommitUnknown, ConnectionLost, Form, MltxError, Operation, Operator, Reply, Transaction, Wait

try:
    import readline
except ImportError:
    # Lines are read without history and completion. The name is that of a module, which mypy does not let be None.
    readline = None  # type: ignore[assignment]

# How many files may run one another by `source`.
MOST_FILES = 16
# How many lines of history are kept from one use to the next.
MOST_HISTORY = 1_000
# What changes without anybody doing anything, so that `:watch` leaves it out.
UNWATCHED = ("seconds", "memory")
# How long `:watch` pauses, in seconds.
WATCH_PAUSE = 1.0
# Other words for the end, and words of other systems for lines.
ENDS = ("exit", "\\q")
SYNONYMS = {"rollback": "abort", "start": "begin"}
# The replies of operations that could not be done.
NOT_DONE = [str(reply) for reply in (Reply.MISSING, Reply.SHORT, Reply.OVER, Reply.NOT_EMPTY)]


class LineFailed(Exception):
    """A line that is wrong, so that nothing was sent."""


class Shell(cmd.Cmd):
    """The prompt: what each line does, and what it shows."""

    def __init__(self, client: Client, operator: Optional[Operator] = None) -> None:
        super().__init__()
        self.client = client
        self.operator = operator
        self.tx: Optional[Transaction] = None
        # How the last transaction ended, as the prompt shows it.
        self.last = ""
        # Whether the last line failed.
        self.failed = False
        # How many files run one another now.
        self.files = 0
        # Whether each line is followed by how long it took.
        self.is_timed = False
        self.prompt = "mltx> "

    # How lines come in.

    def interact(self) -> None:
        """Reads lines at a terminal until `quit` or the end of the input."""
        self.say(f"mltx at {self.client.host}:{self.client.port}. `help` lists what can be asked.")
        self.onecmd("status")
        while True:
            try:
                self.cmdloop()
                return
            except KeyboardInterrupt:
                self.say("^C  (`quit` ends)")

    def run_lines(self, name: str, lines: Iterable[str]) -> bool:
        """Runs lines up to the first that fails, of which it tells the number. Answers whether one of them was
        `quit`."""
        for number, line in enumerate(lines, 1):
            if self.onecmd(line.rstrip("\r\n")):
                return True
            if self.failed:
                self.fail(f"{name}, line {number}: {line.strip()}")
                break
        return False

    def onecmd(self, line: str) -> bool:
        """Runs one line, and answers whether it ends the session."""
        self.failed = False
        is_timed, began = self.is_timed and line.strip(), time.monotonic()
        try:
            return bool(super().onecmd("quit" if line.strip() in ENDS else line))
        except LineFailed as failure:
            self.fail(str(failure))
        except CommitUnknown as unknown:
            self.end("not known")
            self.fail(str(unknown))
        except ConnectionLost as lost:
            self.fail(f"{lost}{self.lost_transaction()}")
        except MltxError as error:
            self.fail(str(error))
        except KeyboardInterrupt:
            self.fail(self.interrupted(line))
        finally:
            self.prompt = f"mltx{self.standing()}> "
            if is_timed and self.is_timed:
                self.say(f"{1_000 * (time.monotonic() - began):.1f} ms")
        return False

    def emptyline(self) -> bool:
        return False

    def default(self, line: str) -> None:
        word, *values = line.split()
        if word.startswith("#"):
            return
        if word in OTHER_COMMANDS:
            nothing_behind(word, " ".join(values))
            OTHER_COMMANDS[word](self)
            return
        self.ask(operation_of(line))

    # What lines do.

    def ask(self, operation: Operation[Any]) -> None:
        """Asks for an operation, which is a transaction of its own if none is open, and says its reply in words."""
        if self.tx:
            answer = self.tx.session.ask(operation.line)[0]
            with self.tx.session.understood():
                operation.result(answer)
        else:
            (answer,), tx = self.client.run(lambda tx: (replies_of(tx, [operation]), tx))
            self.end(f"committed {tx.commit_number}" if tx.commit_number else "aborted")
        self.say(in_words(answer))

    def do_begin(self, rest: str) -> None:
        """begin
        begins a transaction, and connects first where there is no connection"""
        nothing_behind("begin", rest)
        tx = self.client.begin()
        self.tx = tx
        self.say(f"begun {tx.number}")

    def do_commit(self, rest: str) -> None:
        """commit
        commits the open transaction: `committed N`, with the number of the commit"""
        nothing_behind("commit", rest)
        number = self.open_transaction().commit()
        self.end(f"committed {number}")
        self.say(f"committed {number}")

    def do_abort(self, rest: str) -> None:
        """abort
        rolls the open transaction back: `aborted`"""
        nothing_behind("abort", rest)
        self.open_transaction().abort()
        self.end("aborted")
        self.say("aborted")

    def do_status(self, rest: str) -> None:
        """status
        says whether the server is there, and how the transaction stands"""
        nothing_behind("status", rest)
        session = self.tx.session if self.tx else self.client.session()
        if session.has_ended():
            session.close()
            raise ConnectionLost("the connection has ended")
        session.wait_until_held()
        if self.tx:
            self.say(f"connected; transaction {self.tx.number} is open")
        else:
            self.say("connected; no transaction is open" + (f", the last one: {self.last}" if self.last else ""))

    def switch_timing(self) -> None:
        """\\timing
        shows how long each line took, or stops that"""
        self.is_timed = not self.is_timed
        self.say(f"timing is {'on' if self.is_timed else 'off'}")

    def show_status(self) -> dict[str, int]:
        """:status
        says the server's numbers, as an operator sees them"""
        told = self.asked_operator().status()
        self.say("\n".join(f"{name:16}{number}" for name, number in told.items()))
        return told

    def watch_status(self) -> None:
        """:watch
        says the server's numbers, and then each second those that have changed, until Ctrl-C"""
        before = self.show_status()
        try:
            while True:
                time.sleep(WATCH_PAUSE)
                told = self.asked_operator().status()
                changes = {name: number - before.get(name, 0) for name, number in told.items() if name not in UNWATCHED}
                self.say(", ".join(f"{name} {told[name]} ({by:+})" for name, by in changes.items() if by) or "no change")
                before = told
        except KeyboardInterrupt:
            self.say("")

    def show_waits(self) -> None:
        """:waits
        says which transactions wait for others, and on which operation"""
        self.say("\n".join(map(wait_in_words, self.asked_operator().waits())) or "no transaction waits")

    def asked_operator(self) -> Operator:
        """The operator, if its address was given."""
        if self.operator is None:
            raise LineFailed("the operator's address is not known: give it as `--admin HOST:PORT` behind the server's")
        return self.operator

    def do_source(self, rest: str) -> bool:
        """source FILE
        runs the lines of a file, up to the first that fails; a transaction that is open then stays open"""
        if not rest:
            raise LineFailed("it is `source FILE`")
        if self.files == MOST_FILES:
            raise LineFailed(f"source {rest}: {MOST_FILES} files run one another already")
        try:
            lines = Path(rest).expanduser().read_text().splitlines()
        except (OSError, UnicodeDecodeError) as fault:
            raise LineFailed(f"source {rest}: the file can't be read ({fault})") from None
        self.files += 1
        try:
            return self.run_lines(rest, lines)
        finally:
            self.files -= 1

    def do_quit(self, rest: str) -> bool:
        """quit
        ends; a transaction that is open is rolled back"""
        nothing_behind("quit", rest)
        self.client.close()
        if self.tx:
            self.say(f"transaction {self.tx.number} is rolled back")
            self.tx = None
        return True

    def do_EOF(self, _rest: str) -> bool:
        self.say("")
        return self.do_quit("")

    # How the transaction stands.

    def open_transaction(self) -> Transaction:
        """The transaction that is open."""
        if self.tx is None:
            raise LineFailed("no transaction is open: `begin` begins one")
        return self.tx

    def end(self, how: str) -> None:
        """Notes that the transaction has ended."""
        self.tx, self.last = None, how

    def standing(self) -> str:
        """What the prompt says of the transaction."""
        if self.tx:
            return f" [{self.tx.number}]"
        return f" ({self.last})" if self.last else ""

    def lost_transaction(self) -> str:
        """What to say of a transaction whose connection has ended, if one was open."""
        if self.tx is None:
            return ""
        number = self.tx.number
        self.end("rolled back")
        return f"; transaction {number} is rolled back"

    def interrupted(self, line: str) -> str:
        """What to say of a line that was interrupted. Where an answer was still to come the connection is closed."""
        if self.tx is None or self.tx.is_open:
            return "interrupted"
        number = self.tx.number
        if line.split() == ["commit"]:
            self.end("not known")
            return f"interrupted: {CommitUnknown(number)}"
        self.end("rolled back")
        return (
            f"interrupted: the connection was closed, and the server rolls transaction {number} back as soon as"
            " nothing of it waits. `begin` connects again"
        )

    # What is shown.

    def say(self, text: str) -> None:
        print(text, flush=True)

    def fail(self, text: str) -> None:
        self.failed = True
        sys.stdout.flush()
        print(readable(text), file=sys.stderr, flush=True)

    def do_help(self, arg: str) -> None:
        """help
        lists what can be asked; `help WORD` says more"""
        if not arg:
            self.say("\n".join(f"{usage(form):30}{form.does}" for form in FORMS.values()) + "\n")
            self.say("\n".join("{:30}{}".format(*command_help(word)) for word in COMMANDS))
        elif arg in FORMS:
            self.say("\n".join(form_help(FORMS[arg])))
        elif arg in COMMANDS:
            self.say("\n    ".join(command_help(arg)))
        else:
            raise LineFailed(f"help: there is no line {arg}")

    # Completion.

    def completenames(self, text: str, *_ignored: Any) -> list[str]:
        return [f"{word} " for word in LINES if word.startswith(text)]

    def completedefault(self, *args: Any) -> list[str]:
        """The rest of a word whose first character is no part of the text. Behind an operation its form is shown."""
        text, line = args[:2]
        word, *rest = line.lstrip().split(" ")
        if rest and word in FORMS:
            print(f"\n{usage(FORMS[word])}\n{self.prompt}{line}", end="", flush=True)
        if not word:
            return self.completenames(text)
        return [f"{it[1:]} " for it in OTHER_COMMANDS if not rest and it[0] == word[0] and it[1:].startswith(text)]

    def complete_help(self, *args: Any) -> list[str]:
        return self.completenames(*args)

    def complete_source(self, text: str, line: str, begin: int, end: int) -> list[str]:
        before = line[len("source ") : end].lstrip()
        cut = len(before) - len(text)
        found = glob.glob(glob.escape(os.path.expanduser(before)) + "*")
        return [(path + "/" if os.path.isdir(path) else path)[cut:] for path in sorted(found)]


# The commands that begin with another character than a letter.
OTHER_COMMANDS: dict[str, Callable[[Shell], object]] = {
    ":status": Shell.show_status,
    ":waits": Shell.show_waits,
    ":watch": Shell.watch_status,
    "\\timing": Shell.switch_timing,
}
COMMANDS = ("begin", "commit", "abort", "status", *OTHER_COMMANDS, "source", "help", "quit")
LINES = (*FORMS, *COMMANDS)


def operation_of(line: str) -> Operation[Any]:
    """The operation that a line is."""
    word, *values = line.split()
    form = FORMS.get(word)
    if form is None:
        near = [SYNONYMS[word]] if word in SYNONYMS else difflib.get_close_matches(word, LINES, 1)
        raise LineFailed(f"{word}: there is no such line; {f'did you mean `{near[0]}`? ' if near else ''}`help` lists all")
    if not all(value.isascii() and value.isdecimal() for value in values):
        raise LineFailed(f"it is `{usage(form)}`, with numbers; nothing was sent")
    try:
        return form.of(*map(int, values))
    except (TypeError, ValueError) as fault:
        raise LineFailed(f"{fault}; it is `{usage(form)}`; nothing was sent") from None


def nothing_behind(word: str, rest: str) -> None:
    if rest:
        raise LineFailed(f"nothing stands behind `{word}`; nothing was sent")


def usage(form: Form[Any]) -> str:
    """An operation with the names of its numbers, as `deposit ACCOUNT AMOUNT`."""
    return " ".join([form.word, *(argument.name.upper() for argument in form.arguments)])


def form_help(form: Form[Any]) -> list[str]:
    """What an operation does, what its numbers may be, and its replies."""
    ranges = ", ".join(f"{argument.name.upper()} is 0 to {argument.most}" for argument in form.arguments)
    replies = ["is N, which is the number"] if form.tells_number else []
    replies += [in_words(reply.value) for reply in form.results]
    return [usage(form), f"    {form.does}", f"    {ranges}", *(f"    -> {reply}" for reply in replies)]


def command_help(word: str) -> tuple[str, str]:
    """How a command is written, and what it does."""
    method = OTHER_COMMANDS.get(word) or getattr(Shell, f"do_{word}")
    first, _, rest = (method.__doc__ or "").partition("\n")
    return first, " ".join(rest.split())


def wait_in_words(wait: Wait) -> str:
    """Which transaction waits for which, how long and why."""
    reason = {"object": "", "page": ", at a page", "turn": ", which came before it"}.get(wait.reason, f", {wait.reason}")
    return (
        f"transaction {wait.waiter} of client {wait.client} waits for transaction {wait.holder}{reason}, since"
        f" {wait.seconds:.1f} seconds: {wait.operation}"
    )


def in_words(answer: str) -> str:
    """An answer, and what it means where it does not say that itself."""
    try:
        meaning = Reply(answer).meaning
    except ValueError:
        return answer
    return f"{answer}: {meaning}" if meaning else answer


def readable(text: str) -> str:
    """A text in which bytes that are no UTF-8 stand as `\\xff`, and not as the halves of characters that Python reads them as."""
    return text.encode("utf-8", "surrogateescape").decode("utf-8", "backslashreplace")


def keep_history() -> None:
    """Reads the history of earlier uses, and writes it at the end, if it can be."""
    path = os.path.expanduser(os.environ.get("MLTX_HISTORY", "~/.mltx_history"))
    try:
        readline.read_history_file(path)
    except OSError:
        pass
    readline.set_history_length(MOST_HISTORY)
    atexit.register(write_history, path)


def write_history(path: str) -> None:
    try:
        readline.write_history_file(path)
    except OSError:
        pass


def run_input(shell: Shell) -> int:
    """Runs the lines of standard input. Answers the status."""
    if not shell.run_lines("standard input", sys.stdin) and shell.tx:
        shell.fail(f"transaction {shell.tx.number} was open at the end, and is rolled back")
    return 1 if shell.failed else 0


def run_shell(shell: Shell) -> int:
    """Reads lines at a terminal, or else from standard input. Answers the status."""
    if isinstance(sys.stdin, io.TextIOWrapper):
        # A byte that is no UTF-8 makes its line fail, and not the prompt.
        sys.stdin.reconfigure(errors="surrogateescape")
    if not sys.stdin.isatty():
        return run_input(shell)
    if readline:
        keep_history()
    shell.interact()
    return 0


def replies_of(tx: Transaction, operations: list[Operation[Any]]) -> list[str]:
    """The replies of operations, up to the first that could not be done, in which case the transaction is aborted."""
    answers: list[str] = []
    for operation in operations:
        answers += tx.session.ask(operation.line)
        with tx.session.understood():
            operation.result(answers[-1])
        if answers[-1] in NOT_DONE:
            tx.abort()
            break
    return answers


def run_once(client: Client, text: str) -> int:
    """Runs the operations of `-c` as one transaction. Answers the status."""
    lines = [line.strip() for line in text.replace(";", "\n").splitlines() if line.strip()]
    try:
        for word in (line.split()[0] for line in lines):
            if word in COMMANDS:
                raise LineFailed(f"{word}: `-c` takes operations alone, and is a transaction")
        operations = [operation_of(line) for line in lines]
        answers = client.run(lambda tx: replies_of(tx, operations))
    except (LineFailed, MltxError) as failure:
        print(readable(str(failure)), file=sys.stderr)
        return 1
    print("".join(in_words(answer) + "\n" for answer in answers), end="", flush=True)
    if answers and answers[-1] in NOT_DONE:
        print(f"rolled back, since `{lines[len(answers) - 1]}` could not be done", file=sys.stderr)
        return 1
    return 0


def leave_output() -> None:
    """Has what is still to be written go nowhere, once it has no reader: else Python complains as it ends."""
    nowhere = os.open(os.devnull, os.O_WRONLY)
    for stream in (sys.stdout, sys.stderr):
        os.dup2(nowhere, stream.fileno())


def main(name: str = "mltx-shell") -> int:
    """Runs the prompt under this name of its command. Answers the status."""
    parser = argparse.ArgumentParser(prog=name, description="A prompt for a server that `mltx serve` runs.")
    address = "where the server listens, as 127.0.0.1:7000; the environment variable MLTX_ADDR, if this is not given"
    parser.add_argument("address", metavar="HOST:PORT", nargs="?", help=address)
    parser.add_argument("--admin", metavar="HOST:PORT", help="where its operator connects, as the server's own `--admin` says")
    parser.add_argument("-c", metavar="OPERATIONS", help="run these as one transaction, as `withdraw 101 5; deposit 102 5`")
    given = parser.parse_args()
    try:
        client = Client(given.address)
        operator = Operator(given.admin) if given.admin is not None else None
    except ValueError as fault:
        parser.error(str(fault))
    try:
        with client:
            return run_shell(Shell(client, operator)) if given.c is None else run_once(client, given.c)
    except BrokenPipeError:
        leave_output()
        return 1


if __name__ == "__main__":
    sys.exit(main("python3 -m mltx.shell"))
