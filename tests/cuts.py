"""Inputs that end after any of their bytes, and inputs in which one byte is another one.

Each is a lawful text and has the right answer, or it has a fault, the one that the model finds: of a fault nothing but
its line is written. The model reads texts on its own, by docs/LANGUAGE.md and docs/SCHEDULES.md. A program that is ended by a
signal, that writes a part before it finds the fault, that names another line or cause, or that drops a cut line, fails here."""
import itertools
import random
from collections.abc import Callable, Iterable

import harness
import model
from harness import Program, each, expect, holds, same, test
from random_work import told_in, watched_schedule

# Each form of each text stands in one of these.
SCRIPTS = b"""\
# All forms.
begin 7
open 1
deposit 1 18
let v = balance 1
if withdraw 1 v is done
\tclose 1
else
 balance 1
end
add 4 19\r
need has 4 19 is yes
let u = size 4
up 3 v
commit

begin 07
let w = read 3
down 3 0020
if remove 4 18 is absent
if read 3 is w
end
end
need close 1 is missing
abort
begin 7
need remove 4 19 is removed
read 3
commit"""

SCHEDULE = b"""\
# All forms.
begin
whole 1 open 1
call 1 deposit 1 25
step 1
step 1 3
begin\r
commit 1
\tcall 2 withdraw 1 12
step 2 02
cancel 2

whole 2 up 7 10
whole 2 withdraw 1 5
begin
whole 3 balance 1
abort 2
step 2 4
undo 2
whole 3 add 4 19
commit 3
begin
whole 4 has 4 19
whole 4 size 4
abort 4
step 4 4"""

TRACE = b"""\
begin 1
begin 2
op 1 open 1 opened
op 1 deposit 1 25 done
op 2 up 7 10 done
op 2\tadd 4 19 added
commit 1 1\r
back 2
begin 13
op 13 balance 1 is 25
op 13 add 4 19 added
back 2
abort 2
op 13 withdraw 1 0012 done
commit 13 2
begin 20
op 20 read 7 is 0
op 20 size 4 is 1
commit 20 3
begin 21
abort 21
"""


def cuts_of(text: bytes) -> list[bytes]:
    """The text up to each of its bytes."""
    return [text[:end] for end in range(len(text) + 1)]


def changed(text: bytes) -> list[bytes]:
    """The text with another byte in one place, or one byte more or less, some hundreds of times."""
    dice, texts = random.Random(f"{harness.SEED} {text!r}"), list[bytes]()
    for _ in range(300 * harness.CASES):
        place, byte = dice.randrange(len(text)), dice.choice(b"0123456789 abis#\t\r\n\0\x7f\xff" + text)
        new: list[int] = dice.choice([[byte], [byte], [], [byte, text[place]]])
        texts.append(text[:place] + bytes(new) + text[place + 1 :])
    return texts


def solo(mltx: Program, given: bytes) -> None:
    scripts = model.parse(given)
    expect(mltx.run("solo", "-", given=given), out=model.solo(scripts, model.Base()))


def run(mltx: Program, given: bytes) -> None:
    """One worker runs the scripts one after another; of several clients any may be the first."""
    scripts = model.parse(given)
    ran = mltx.run("run", "--workers", 1, "-", given=given)
    expect(ran, out=ran.out)
    clients = sorted({script.client for script in scripts})
    lawful = [run_of(scripts, clients, order) for order in itertools.permutations(clients)]
    holds(ran.out.decode() in lawful, f"{ran}\nwanted one of {lawful}")


def run_of(scripts: list[model.Script], clients: list[int], order: Iterable[int]) -> str:
    """What `run` writes where the clients run one after another in this order."""
    base, written, commits = model.Base(), {client: "" for client in clients}, 0
    for client in order:
        for number, script in enumerate((it for it in scripts if it.client == client), 1):
            replies, kept = model.run_script(script, base)
            commits += kept
            head, end = f"client {client} script {number}", f"committed {commits}" if kept else "aborted"
            written[client] += "".join(line + "\n" for line in (head, *replies, end))
    return "".join(written.values()) + base.text()


def steps(mltx: Program, given: bytes) -> None:
    """The answers are those that the tables and the locks allow, and the base is that of what committed."""
    events = model.read_events(given)
    ran = mltx.run("steps", "--trace", "trace", "-", given=given)
    expect(ran, out=ran.out)
    watched_schedule(mltx, events, ran.out.decode().splitlines(), low=False)


def check(mltx: Program, given: bytes) -> None:
    said = model.check(given)
    expect(mltx.check(given), out=said)


Answered = Callable[[Program, bytes], None]
COMMANDS: dict[str, tuple[Answered, bytes]] = {"solo": (solo, SCRIPTS), "run": (run, SCRIPTS)}
COMMANDS |= {"steps": (steps, SCHEDULE), "check": (check, TRACE)}


def right_or_faulty(mltx: Program, name: str, answered: Answered, texts: list[bytes]) -> None:
    """Each text has the answer that the model gives, or the fault that it finds."""
    for number, given in enumerate(texts):
        with told_in(name, number, given):
            try:
                answered(mltx, given)
            except model.Fault as fault:
                kind = "11 TraceFault" if name == "check" else "10 ScriptFault"
                expect(mltx.run(name, "-", given=given), status=1, err=f"mltx: {kind} {fault}\n")


@each({f"{name}-of-a-text-cut-after-each-byte": (name, *case) for name, case in COMMANDS.items()}, seconds=3)
def cut_after_each_byte(mltx: Program, case: tuple[str, Answered, bytes]) -> None:
    name, answered, whole = case
    right_or_faulty(mltx, name, answered, cuts_of(whole))


@each({f"{name}-of-a-text-with-one-byte-changed": (name, *case) for name, case in COMMANDS.items()}, seconds=3)
def one_byte_changed(mltx: Program, case: tuple[str, Answered, bytes]) -> None:
    name, answered, whole = case
    right_or_faulty(mltx, name, answered, changed(whole))


class Service:
    """A small model of what sessions one after another are answered."""

    def __init__(self) -> None:
        self.base, self.begun, self.commits, self.open = model.Base(), 0, 0, False

    def session(self, given: bytes) -> str:
        """The answers to a session that ends after these bytes."""
        answers = []
        for line in given.split(b"\n")[:-1]:
            words = line.decode().split()
            if words:
                answers.append(self._answer(words))
            if words == ["quit"]:
                break
        self._end(self.base.undo)
        return "".join(answer + "\n" for answer in answers)

    def _end(self, how: Callable[[], None]) -> None:
        how()
        self.open = False

    def _answer(self, words: list[str]) -> str:
        op = model.read_op(words)
        if words == ["quit"]:
            return "bye"
        if not op and words not in (["begin"], ["commit"], ["abort"]):
            return "error 10 ScriptFault"
        if (words == ["begin"]) == self.open:
            return "error 5 Running" if self.open else "error 3 NoSuchTx"
        if op:
            return self.base.ask(op)
        if words == ["begin"]:
            self.begun, self.open = self.begun + 1, True
            return f"begun {self.begun}"
        self.commits += words == ["commit"]
        self._end(self.base.keep if words == ["commit"] else self.base.undo)
        return f"committed {self.commits}" if words == ["commit"] else "aborted"


SESSION = b"""\
commit
begin
open 1
deposit 1 25
begin

foo
up 7 12
commit
begin
balance 1
abort
begin
read 7
withdraw 1 12\r
quit
open 2
"""


@test(seconds=1)
def sessions_cut_after_each_byte(mltx: Program) -> None:
    """Each is answered line by line; a line that is cut is none, and what is open then is taken back."""
    service, texts = Service(), cuts_of(SESSION)
    with mltx.serve("--sessions", 1, "--trace", "trace", limit=len(texts)) as server:
        for given in texts:
            same(server.talk(given).decode(), service.session(given), f"the answers to {given!r}")
        expect(server.end(), out=f"served {len(texts)}\n")
    ran = mltx.run("check", "trace")
    serial = [line for line in ran.out.decode().splitlines(keepends=True) if line.startswith("serial ")]
    same(len(serial), service.commits, "the serial lines in the check of the trace")
    expect(ran, out="".join(serial) + service.base.text(), what="the check of the trace")
