"""What the program does where memory is refused: each request in turn, all from one on, large ones, or threads.

A run is given up as a whole, or the event, script or line is refused in its place, and all else is as if it did not
stand. What that gives comes from a run with ample memory over the text without it. The C compiler `cc` is needed."""
import dataclasses
import errno
import re
import subprocess
from collections.abc import Callable, Iterable, Iterator, Sequence
from contextlib import suppress
from typing import TypeVar

from harness import NO_MEMORY, Failed, Program, Ran, Server, cut_for, each, holds, lines, match, may_break_off, same, test

WANT = b"mltx: 1 OutOfMemory\n"
IO = b"mltx: 13 Io\n"
REFUSED = "refused 1 OutOfMemory"
ERROR = "error 1 OutOfMemory"
# What a server may note of it.
REFUSED_FIRST = "the first operation was refused for lack of memory (OutOfMemory)"
NOTES = {cut_for(1, NO_MEMORY), "accepting no more connections: out of memory", "1 messages were lost", "2 messages were lost"}
# A number above that of each request.
LAST = 1 << 40

Outcome = TypeVar("Outcome")
HASHES = ("mult", "low")
EIGHT = [f"whole 1 open {n}" for n in range(8)]
# Each kind of event. A split has to wait for a reader's page, a withdrawal is blocked, and aborts are made by steps and
# at once. With low pseudokeys transaction 4 splits a bucket of eight records again and again.
ALL_KINDS = (
    ["begin", *EIGHT, *(f"whole 1 open {n}" for n in range(1024, 1032)), "commit 1"]
    + ["begin", "call 2 balance 40000", "step 2", "step 2", "begin", "call 3 open 1536"] + ["step 3"] * 6
    + ["step 2"] * 2 + ["step 3"] * 12 + ["commit 2", "commit 3"]
    + ["begin", "call 4 open 8"] + ["step 4"] * 300 + ["abort 4"] + ["step 4"] * 4
    + ["begin", "begin", "whole 5 deposit 1 9", "call 6 withdraw 1 3"] + ["step 6"] * 4
    + ["call 6 up 7 2", "step 6", "cancel 6", "whole 6 up 7 5", "whole 6 add 3 4", "abort 6", "undo 6", "commit 5"]
    + ["begin", "whole 7 remove 3 4", "whole 7 read 7", "whole 7 close 2", "commit 7"]
)
SPLIT_STAYS = ["begin", *EIGHT, "commit 1", "begin", "whole 2 open 32768", "abort 2", "undo 2"]
# With low pseudokeys sixteen accounts fill two buckets, and the second addition splits both: one for its element, and the
# other for the size of its set.
SIXTEEN = [f"whole 1 open {n}" for n in range(0, 65536, 4096)]
SPLITS_FOR_BOTH = ["begin", *SIXTEEN, "commit 1", "begin", "call 2 add 40000 20000", *["step 2"] * 40, "commit 2"]
SIZES_TAKEN_BACK = (
    ["begin", "whole 1 add 4 1", "whole 1 size 4", "whole 1 add 4 2", "whole 1 remove 4 1", "abort 1", "undo 1"]
    + ["begin", "whole 2 size 4", "whole 2 add 4 5", "commit 2"]
)
COUNTER_WRAPS = (
    ["begin", "begin", "whole 1 up 2 5", "whole 2 up 2 5", "abort 1", "undo 1", "commit 2"]
    + ["begin", "whole 3 read 2", "whole 3 down 2 6", "commit 3"]
)
ACCOUNTS = "|".join(f"account {n} 0" for n in range(8))
OPENED = "begun 1|" + "done opened|" * 8 + "committed 1|begun 2|"
# What the two rows come to with ample memory.
SPLIT_STAYS_TELLS = lines(f"{OPENED}done opened|aborting|aborted|{ACCOUNTS}|depth 1")
COUNTER_WRAPS_TELLS = lines(
    "begun 1|begun 2|done done|done done|aborting|aborted|committed 1|begun 3|done is 5|done done|committed 2"
    "|counter 2 18446744073709551615|depth 0"
)

SIZES_TAKEN_BACK_TELLS = lines(
    "begun 1|done added|done is 1|done added|done removed|aborting|aborted|begun 2|done is 0|done added|committed 1"
    "|element 4 5|depth 0"
)

FIRST_RUN = lines("begin|open 1|deposit 1 50|balance 1|commit")
LATER_SCRIPT = lines("begin|up 7 1|commit|begin|need read 7 is 1|commit")
SCRIPTS = lines(
    "begin 1|open 1|deposit 1 100|up 7 1|commit|begin 1|need withdraw 1 30 is done|up 7 1|commit"
    "|begin 2|up 7 2|add 3 4|commit|begin 2|open 1|up 7 5|read 7|abort|begin 2|balance 1|open 2|commit"
)

TWO_SERIALS = "begin 1|begin 2|op 2 open 1 opened|op 2 deposit 1 7 {}|commit 2 1|op 1 balance 1 is 7|commit 1 2"

# A session's lines: two transactions that commit, with one between them that is taken back.
SESSION = (
    "begin|open 1|deposit 1 100|up 7 1|commit|begin|withdraw 1 30|add 3 4|abort"
    "|begin|read 7|balance 1|remove 3 4|commit|quit"
)
SESSION_TELLS = ("begun 1|opened|done|done|committed 1|begun 2|done|added|aborted|begun 3|is 1|is 100|absent|committed 2|bye")
SESSION_LINES = "begin|open 1|foo|deposit 1 5|commit|begin|balance 1"
SESSION_LINES_TELLS = "begun 1|opened|error 10 ScriptFault|done|committed 1|begun 2|is 5"


@dataclasses.dataclass(frozen=True)
class Came:
    """What a run came to, and the bytes of its trace, if the file was made."""

    status: int
    out: str
    err: str
    trace: str | None = None
    notes: tuple[str, ...] = ()


class Runs:
    """Runs of one subcommand, with requests for memory refused."""

    def __init__(self, mltx: Program, job: str, *options: str, traced: bool = True) -> None:
        self.mltx, self.job, self.options, self.traced = mltx, job, options, traced
        self.trace, self.kept = mltx.folder / "trace", dict[str, Came]()

    def refusing(self, first: int = 0, last: int | None = None, least: int = 0, threads: int = 0) -> dict[str, str]:
        """The environment in which these requests are refused, and all threads: without arguments nothing is."""
        self.trace.unlink(missing_ok=True)
        refuse = f"{first} {first if last is None else last} {least}"
        return self.mltx.shim(REFUSE=refuse, **({"REFUSE_THREADS": "1"} if threads else {}))

    def asked(self) -> int:
        """How many requests for memory the last run made."""
        return self.mltx.counted()[0]

    def run(self, text: str, **refused: int) -> Came:
        env = self.refusing(**refused)
        options = [*self.options, *(["--trace", self.trace] if self.traced else [])]
        ran = self.mltx.run(self.job, *options, self.mltx.file("text", text), env=env)
        return Came(ran.status, ran.out.decode(), ran.err.decode(), self.traced_text())

    def traced_text(self) -> str | None:
        return self.trace.read_text() if self.trace.exists() else None

    def ample(self, text: str) -> Came:
        """What comes where no memory is refused."""
        if text not in self.kept:
            self.kept[text] = came = self.run(text)
            holds((came.status, came.err) == (0, ""), f"{self.job} of {text!r} with ample memory: {came}")
        return self.kept[text]

    def one_refused(self, run: Callable[[int], Outcome], step: int = 1) -> Iterator[tuple[str, Outcome]]:
        """What comes with request 1, 2, 3, .. refused, or each so many, until a run makes no such request."""
        number = 1
        while True:
            came = run(number)
            if self.asked() < number:
                return
            yield f"{self.job} {' '.join(self.options)} with request {number} refused", came
            number += step

    def serial(self, trace: str | None) -> tuple[int, str]:
        """How many commits `check` finds in a trace, and its base."""
        assert trace is not None, "no trace was made"
        told = self.mltx.accepted(self.mltx.folder / self.mltx.file("checked", trace))
        return told.count("serial "), re.sub("(?m)^serial .*\n", "", told)


def is_given_up(came: Came) -> bool:
    """All of the run is refused, and that is told. Nothing is written then, and no trace made."""
    return came == Came(1, "", WANT.decode())


def parts(text: str, start: str) -> list[str]:
    """The parts of a text, each of which begins with a line of this start."""
    return re.split(f"(?m)^(?={start})", text)[1:]


def as_text(events: Iterable[str]) -> str:
    return "".join(event + "\n" for event in events)


def with_refusal(runs: Runs, events: list[str], place: int, what: str) -> Came:
    """What comes where this event is refused: all others are told what they are told where it does not stand. A refused
    step takes its operation with it, as a cancel does."""
    kind, *words = events[place].split()
    never = kind not in ("begin", "call", "step", "whole") or kind == "step" and f"abort {words[0]}" in events[:place]
    holds(not never, f"{what}: `{events[place]}` takes no memory and is refused it")
    instead = [f"cancel {words[0]}"] if kind == "step" else []
    wanted = runs.ample(as_text(events[:place] + instead + events[place + 1 :]))
    told = wanted.out.splitlines()
    told[place : place + len(instead)] = [REFUSED]
    return dataclasses.replace(wanted, out=as_text(told))


STEPS = {
    "refused-growths-of-steps-mult": ("mult", ALL_KINDS, None),
    "refused-growths-of-steps-low": ("low", ALL_KINDS, None),
    "refused-growths-of-split-stays-after-abort": ("low", SPLIT_STAYS, SPLIT_STAYS_TELLS),
    "refused-growths-of-counter-wraps-mult": ("mult", COUNTER_WRAPS, COUNTER_WRAPS_TELLS),
    "refused-growths-of-counter-wraps-low": ("low", COUNTER_WRAPS, COUNTER_WRAPS_TELLS),
    "refused-growths-of-splits-for-two-keys": ("low", SPLITS_FOR_BOTH, None),
    "refused-growths-of-sizes-taken-back-mult": ("mult", SIZES_TAKEN_BACK, SIZES_TAKEN_BACK_TELLS),
    "refused-growths-of-sizes-taken-back-low": ("low", SIZES_TAKEN_BACK, SIZES_TAKEN_BACK_TELLS),
}


@each(STEPS, seconds=3)
def steps(mltx: Program, case: tuple[str, list[str], str | None]) -> None:
    """One event is refused and no other is told anything else; or the run is given up."""
    hashing, events, tells = case
    runs = Runs(mltx, "steps", "--hash", hashing)
    ample = runs.ample(as_text(events))
    same(ample.out, tells or ample.out, "steps with ample memory")
    ways = set()
    for what, came in runs.one_refused(lambda number: runs.run(as_text(events), first=number)):
        if is_given_up(came):
            ways.add("given up")
            continue
        told = came.out.splitlines()
        is_told = REFUSED in told
        same(came, with_refusal(runs, events, told.index(REFUSED), what) if is_told else ample, what)
        ways.add("told" if is_told else "not seen")
    holds(ways >= {"given up", "told"}, f"only this came: {ways}")


SPLIT = ["begin", *EIGHT, "commit 1", "begin", "whole 2 open 32768"]
SPREAD = "|".join(f"account {n} 0" for n in range(0, 65536, 4096))
SPREAD_TELLS = "begun 1|" + "done opened|" * 16 + "committed 1|begun 2|"
IN_BOTH = ["begin", *SIXTEEN, "commit 1", "begin", "whole 2 add 40000 20000"]
IN_SPLIT = {
    "growth-refused-in-split": (SPLIT, f"{OPENED}{REFUSED}|{ACCOUNTS}|depth 0"),
    "growth-refused-in-split-and-the-call-repeated": (
        [*SPLIT, "whole 2 open 32768", "commit 2"],
        f"{OPENED}{REFUSED}|done opened|committed 2|{ACCOUNTS}|account 32768 0|depth 1",
    ),
    "growth-refused-in-splits-for-two-keys": (IN_BOTH, f"{SPREAD_TELLS}{REFUSED}|{SPREAD}|depth 1"),
    "growth-refused-in-splits-for-two-keys-and-the-call-repeated": (
        [*IN_BOTH, "whole 2 add 40000 20000", "whole 2 size 40000", "commit 2"],
        f"{SPREAD_TELLS}{REFUSED}|done added|done is 1|committed 2|{SPREAD}|element 40000 20000|depth 2",
    ),
}


@each(IN_SPLIT, seconds=2)
def in_split(mltx: Program, case: tuple[list[str], str]) -> None:
    """Each growth of the split is refused: the pages and the base are as before, and the call repeated splits."""
    events, tells = case
    runs = Runs(mltx, "steps", "--hash", "low")
    met = 0
    for what, came in runs.one_refused(lambda number: runs.run(as_text(events), first=number)):
        if came.out.startswith(lines(tells[: tells.index(REFUSED) + len(REFUSED)])):
            met += 1
            same((came.status, came.out, came.err), (0, lines(tells), ""), what)
    holds(met > 0, "no request for memory of the split was refused")


SOLOS = {
    f"refused-growths-of-{name}-{hashing}": (hashing, text, tells)
    for hashing in HASHES
    for name, text, tells in [("solo", SCRIPTS, None), ("first-run", FIRST_RUN, lines("opened|done|is 50|committed 1"))]
}


@each(SOLOS, seconds=2)
def solo(mltx: Program, case: tuple[str, str, str | None]) -> None:
    """One script is refused and leaves nothing, and all others are as if it did not stand; or the run is given up."""
    hashing, text, tells = case
    runs = Runs(mltx, "solo", "--hash", hashing)
    ample = runs.ample(text)
    same(ample.out, tells or ample.out, "solo with ample memory")
    ways = set()
    for what, came in runs.one_refused(lambda number: runs.run(text, first=number)):
        if is_given_up(came):
            ways.add("given up")
            continue
        before, mark, after = came.out.partition(f"{REFUSED}\naborted\n")
        if not mark:
            ways.add("not seen")
            same(came, ample, what)
            continue
        ways.add("told")
        holds(ample.out.startswith(before), f"{what}: before the refusal came {before!r}, not a front of {ample.out!r}")
        ends = [it.end() for it in re.finditer(r"(?m)^(?:committed \d+|aborted)\n", before)]
        scripts = parts(text, "begin")
        del scripts[len(ends)]
        wanted = runs.ample("".join(scripts))
        same((came.status, before[: ends[-1] if ends else 0] + after, came.err), (0, wanted.out, ""), what)
        same(runs.serial(came.trace), runs.serial(wanted.trace), f"{what}: the trace")
    holds(ways >= {"given up", "told"}, f"only this came: {ways}")


def committed(written: str) -> tuple[list[tuple[int, str, str]], str]:
    """Of what `run` wrote of SCRIPTS: the committed scripts in their order, with what they were told, and the base."""
    outcomes = parts(written, "client ")
    ended = match(r"(?s)\A(.*?\n(?:committed \d+|aborted)\n)(.*)\Z", outcomes.pop() if outcomes else "")
    found = []
    for script, outcome in zip(parts(SCRIPTS, "begin "), [*outcomes, ended[1]], strict=True):
        number = re.search(r"(?m)^committed (\d+)$", outcome)
        if number:
            found.append((int(number[1]), re.sub("begin .", "begin 1", script), outcome.split("\n", 1)[1]))
    return sorted(found), ended[2]


def is_serial(runs: Runs, came: Came, what: str) -> None:
    """The committed scripts, run by one client in the order of commits, are told the same and leave this base. So says
    the trace."""
    found, base = committed(came.out)
    told = "".join(f"client 1 script {number}\n{told}" for number, _script, told in found)
    same(told + base, runs.ample("".join(script for _number, script, _told in found)).out, what)
    same(runs.serial(came.trace), (len(found), base), f"{what}: the trace")


RUNS = {
    f"refused-growths-of-run-{hashing}-{workers}": (hashing, workers) for hashing in HASHES for workers in ("1", "2")
}


@each(RUNS, seconds=4)
def run(mltx: Program, case: tuple[str, str]) -> None:
    """What committed is a serial run with this base, and at most one script is refused; or the run is given up."""
    hashing, workers = case
    runs = Runs(mltx, "run", "--hash", hashing, "--workers", workers)
    alone = Runs(mltx, "run", "--hash", hashing, "--workers", "1", traced=False)
    ways = set()
    for what, came in runs.one_refused(lambda number: runs.run(SCRIPTS, first=number)):
        if is_given_up(came):
            ways.add("given up")
            continue
        same((came.status, came.err), (0, ""), what)
        is_serial(alone, came, what)
        refusals = came.out.splitlines().count(REFUSED)
        holds(refusals <= 1 and came.out.count(" Out") == refusals, f"{what}: {came}")
        ways |= {"told"} if refusals else set()
    holds(ways >= {"given up", "told"}, f"only this came: {ways}")


ECHOED = {
    "refused-growths-of-solo-with-echo": ("solo", FIRST_RUN),
    "refused-growths-of-run-with-echo": ("run", LATER_SCRIPT),
    "refused-growths-of-steps-with-echo": ("steps", as_text(SPLIT_STAYS)),
}


@each(ECHOED, seconds=2)
def echoed(mltx: Program, case: tuple[str, str]) -> None:
    """All lines of the input stand beside what is answered, or the run is given up, as where either can't be kept."""
    job, text = case
    runs, given_up = Runs(mltx, job, "--echo"), 0
    runs.ample(text)
    for what, came in runs.one_refused(lambda number: runs.run(text, first=number)):
        if is_given_up(came):
            given_up += 1
            continue
        same((came.status, came.err), (0, ""), what)
        same([row.split("  ")[0] for row in came.out.splitlines() if row[0] != " "], text.splitlines(), what)
    holds(given_up > 0, "no run was given up")


@each({f"refused-growths-of-later-script-{workers}": workers for workers in ("1", "2")}, seconds=2)
def later_script(mltx: Program, workers: str) -> None:
    """The later script sees the commit of the one before, where there is one."""
    runs = Runs(mltx, "run", "--workers", workers)
    first, second = "client 0 script 1|", "client 0 script 2|"
    without = f"{second}is 0|aborted"
    refused = f"{REFUSED}|aborted|"
    seen = f"{first}done|committed 1|{second}"
    wanted = [f"{seen}is 1|committed 2|counter 7 1", f"{first}{refused}{without}", f"{first}done|{refused}{without}"]
    wanted += [f"{seen}{refused}counter 7 1", f"{seen}is 1|{refused}counter 7 1"]
    ample = runs.ample(LATER_SCRIPT)
    same(ample.out, lines(wanted[0]), "run with ample memory")
    for what, came in runs.one_refused(lambda number: runs.run(LATER_SCRIPT, first=number)):
        if not is_given_up(came):
            same((came.status, came.err), (0, ""), what)
            holds(came.out in map(lines, wanted), f"{what}: {came.out!r}, which is none of {wanted}")


@test(seconds=2)
def refused_growths_of_tables(mltx: Program) -> None:
    """The run is given up, and nothing is written."""
    runs, ample, met = Runs(mltx, "tables", traced=False), mltx.run("tables").out.decode(), 0

    def run(number: int) -> Came:
        ran = mltx.run("tables", env=runs.refusing(first=number))
        return Came(ran.status, ran.out.decode(), ran.err.decode())

    for what, came in runs.one_refused(run):
        if came != Came(0, ample, ""):
            holds(is_given_up(came), f"{what}: {came}")
            met += 1
    holds(met > 0, "no request for memory was refused")


CHECKS = {
    "refused-growths-of-check": (TWO_SERIALS.format("done"), (0, "serial 2|serial 1|account 1 7", "")),
    "refused-growths-of-check-of-a-fault": (TWO_SERIALS.format("over"), (1, "", "mltx: 11 TraceFault line 4 Reply")),
    "refused-growths-of-check-of-words": ("begin 1|commit", (1, "", "mltx: 11 TraceFault line 2 Words")),
}


@each(CHECKS, seconds=1)
def check(mltx: Program, case: tuple[str, tuple[int, str, str]]) -> None:
    """The trace is told of as with ample memory, or 1 is told and nothing else."""
    text, (status, out, err) = case
    runs = Runs(mltx, "check", traced=False)
    wanted = Came(status, lines(out), lines(err))
    same(runs.run(lines(text)), wanted, "check with ample memory")
    given_up = 0
    for what, came in runs.one_refused(lambda number: runs.run(lines(text), first=number)):
        if came == Came(1, "", WANT.decode()):
            given_up += 1
        else:
            same(came, wanted, what)
    holds(given_up > 0, "no run was given up")


def talk(runs: Runs, said: list[str], **refused: int) -> tuple[Came, list[str]]:
    """What a server of one connection answers to these lines, and what it comes to."""
    env = runs.refusing(**refused)
    with runs.mltx.serve(*runs.options, "--trace", runs.trace, env=env) as server:
        try:
            with server.connect() as peer:
                heard = peer.say_all(as_text(said))
        except Failed:
            # The server did not come up.
            heard = b""
        ended = server.end(is_all_noted=not refused)
    known = {*NOTES, REFUSED_FIRST} if refused else set()
    holds(set(ended.notes) <= known, f"notes of a server that is refused {refused}: {ended.notes}")
    notes = tuple(note for note in ended.notes if not note.endswith(" lost") and note != REFUSED_FIRST)
    return Came(ended.status, ended.out.decode(), ended.err.decode(), runs.traced_text(), notes), heard.decode().splitlines()


FOR_GOOD: dict[str, tuple[str, list[str], str]] = {
    "out-of-memory-for-good-in-steps": ("steps", ["--hash", "low"], as_text(SPLIT_STAYS)),
    "out-of-memory-for-good-in-solo": ("solo", [], SCRIPTS),
    "out-of-memory-for-good-in-run": ("run", ["--workers", "1"], SCRIPTS),
    "out-of-memory-for-good-in-check": ("check", [], lines(TWO_SERIALS.format("done"))),
}


@each(FOR_GOOD, seconds=2)
def for_good(mltx: Program, case: tuple[str, list[str], str]) -> None:
    """Where all requests from one on are refused, the run is given up."""
    job, options, text = case
    runs = Runs(mltx, job, *options, traced=job != "check")
    runs.ample(text)
    for what, came in runs.one_refused(lambda number: runs.run(text, first=number, last=LAST), step=3):
        holds(is_given_up(came), f"{what}, and all after it: {came}")


LARGE = {
    f"large-requests-refused-in-{job}-{least}": (job, options, text, least)
    for job, options, text in [("steps", ["--hash", "low"], as_text(ALL_KINDS)), ("solo", list[str](), SCRIPTS)]
    for least in (100, 1_000, 10_000, 1_000_000)
}


@each(LARGE)
def large(mltx: Program, case: tuple[str, list[str], str, int]) -> None:
    """Where requests from a size on are refused, the run is given up, or what comes is right up to the first that is
    told refused. The trace says which base is left."""
    job, options, text, least = case
    runs = Runs(mltx, job, *options)
    ample, came = runs.ample(text), runs.run(text, first=1, last=LAST, least=least)
    if is_given_up(came):
        return
    what = f"{job} with requests of {least} bytes and more refused: {came}"
    same((came.status, came.err), (0, ""), what)
    before = came.out.partition(REFUSED)[0]
    holds(ample.out.startswith(before), f"{what}, where {before!r} is no front of {ample.out!r}")
    commits, base = runs.serial(came.trace)
    same(commits, came.out.count("committed "), what)
    if job == "steps":
        holds(re.search(f"(?m)^{base}depth", came.out), f"{what}, and the base of the trace is {base!r}")


@test(seconds=2)
def cells_of_cancelled_calls_take_no_room(mltx: Program) -> None:
    """Calls that are cancelled leave nothing that grows: on ever other cells they ask for memory in pieces of 1,024 bytes or
    more as often as on one cell. Up to the first step a call has made nothing but its reservation."""
    runs = Runs(mltx, "steps", traced=False)

    def asked(cells: Sequence[int]) -> int:
        came = runs.run(as_text(["begin", *(line for cell in cells for line in (f"call 1 up {cell} 1", "cancel 1"))]), least=1024)
        holds((came.status, came.err) == (0, ""), f"steps of {len(cells)} cancelled calls: {came.err}")
        same(came.out.count("cancelled\n"), len(cells), "calls that were cancelled")
        return runs.asked()

    for count in (2_000, 8_000):
        same(asked(range(10_000, 10_000 + count)), asked([10_000] * count), f"requests of {count} calls on cells of their own")


@each({f"threads-refused-in-run-{workers}": workers for workers in ("1", "2", "8")})
def threads(mltx: Program, workers: str) -> None:
    """A run that gets no thread does all by itself, or is given up."""
    runs = Runs(mltx, "run", "--workers", workers)
    came = runs.run(SCRIPTS, threads=True)
    if not is_given_up(came):
        what = f"no thread for {workers} workers: {came}"
        same((came.status, came.err, came.out.count("committed ")), (0, "", 4), what)
        is_serial(Runs(mltx, "run", "--workers", "1", traced=False), came, what)


@test
def threads_refused_in_serve(mltx: Program) -> None:
    """A server that gets no thread ends, and says why."""
    runs = Runs(mltx, "serve")
    with mltx.serve(env=runs.refusing(threads=True)) as server:
        same(server.end(), Ran(1, b"", WANT), "serve without threads")


SERVES = {
    "refused-growths-of-serve-mult": ("mult", SESSION, SESSION_TELLS),
    "refused-growths-of-serve-low": ("low", SESSION, SESSION_TELLS),
    "refused-growths-of-session-lines": ("mult", SESSION_LINES, SESSION_LINES_TELLS),
}


@each(SERVES, seconds=6)
def serve(mltx: Program, case: tuple[str, str, str]) -> None:
    """One line is answered by the refusal and all others as if it did not stand; or the session is cut, which is noted; or it and
    the server end."""
    hashing, said, tells = case[0], case[1].split("|"), case[2].split("|")
    runs = Runs(mltx, "serve", "--hash", hashing)
    kept = {-1: talk(runs, said)}
    same(kept[-1][1], tells, "serve with ample memory")
    ways = set()
    for what, (ended, heard) in runs.one_refused(lambda number: talk(runs, said, first=number)):
        if (ended.status, ended.err) == (1, WANT.decode()):
            ways.add("given up")
            holds(heard == tells[: len(heard)], f"{what}: {heard}, which is no front of {tells}")
            continue
        if cut_for(1, NO_MEMORY) in ended.notes:
            holds(heard == tells[: len(heard)], f"{what}: {heard}, which is no front of {tells}")
            same((ended.status, ended.out, ended.err), (0, "served 1\n", ""), f"{what}: a session is cut")
            continue
        place = heard.index(ERROR) if ERROR in heard else -1
        ways.add("told" if place >= 0 else "not seen")
        if place not in kept:
            kept[place] = talk(runs, said[:place] + said[place + 1 :])
        wanted = list(kept[place][1])
        if place >= 0:
            wanted.insert(place, ERROR)
            holds(said[place] not in ("commit", "abort", "quit"), f"{what}: `{said[place]}` is refused memory")
        same(heard, wanted, what)
        same(ended, kept[place][0], f"{what}: the end of the server")
    holds(ways >= {"given up", "told"}, f"only this came: {ways}")


@test(seconds=12)
def parked_clients_are_refused_memory(mltx: Program) -> None:
    """Two clients that take turns at one session. Where one request for memory is refused, that is told by an answer, by a note
    on the client that is cut, or by the end of the server; and else both are answered all."""
    runs, wanted, ways = Runs(mltx, "serve", "--endless"), ["begun", "done", "committed"] * 3, set[str]()

    def turns(number: int) -> tuple[Ran, list[list[str]]]:
        heard = [list[str](), list[str]()]
        words = ("--endless", "--until-eof", "--sessions", 1)
        with mltx.serve(*words, limit=None, stdin=subprocess.PIPE, env=runs.refusing(first=number)) as server:
            with suppress(Failed), server.connect() as one, server.connect() as other:
                for _ in range(3):
                    for peer, answers in ((one, heard[0]), (other, heard[1])):
                        with suppress(Failed), may_break_off():
                            answers += [peer.ask(line) for line in ("begin", "up 7 1", "commit")]
            server.end_input()
            return server.end(is_all_noted=False), heard

    for what, (ended, heard) in runs.one_refused(turns, step=7):
        if ended.status != 0:
            same((ended.status, ended.err), (1, WANT), what)
            ways.add("ended")
            continue
        same(ended.err, b"", what)
        for client, answers in enumerate(heard, 1):
            if cut_for(client, NO_MEMORY) in ended.notes:
                ways.add("cut")
            elif ERROR in answers:
                ways.add("told")
            else:
                same([answer.partition(" ")[0] for answer in answers], wanted, f"{what}: what client {client} hears")
    holds(ways >= {"ended", "told"}, f"only this came: {ways}")


@test(seconds=5)
def out_of_memory_for_good_in_serve(mltx: Program) -> None:
    """Where all requests from one on are refused, the server ends. What the client was told before that is right."""
    said, tells = SESSION_LINES.split("|"), SESSION_LINES_TELLS.split("|")
    runs = Runs(mltx, "serve")
    for what, (ended, heard) in runs.one_refused(lambda number: talk(runs, said, first=number, last=LAST), step=3):
        same((ended.status, ended.err), (1, WANT.decode()), f"{what}, and all after it: {ended}")
        same(ended.out, "", f"{what}, and all after it: what the server writes")
        runs.serial(ended.trace or "")
        before = heard[: heard.index(ERROR)] if ERROR in heard else heard
        holds(before == tells[: len(before)], f"{what}, and all after it: {heard}, which is no front of {tells}")


@test(seconds=8)
def want_of_memory_ends_the_accepting(mltx: Program) -> None:
    """Where a session is refused memory, or a connection on its way to one, the server ends before its limit is reached. If an
    accept fails meanwhile, and not since the server has closed its port, that is its fault."""
    runs, cut = Runs(mltx, "serve"), 0

    def heard(server: Server) -> bytes:
        try:
            return server.talk("begin\nquit\n")
        except (Failed, ConnectionError):
            # The server did not come up, or ends just now.
            return b""

    def run(number: int, **env: str) -> tuple[bytes, Ran]:
        with mltx.serve(limit=2, env=runs.refusing(first=number) | env, timeout=20) as server:
            told = heard(server)
            if told.endswith(b"bye\n"):
                heard(server)
            return told, server.end(is_all_noted=False)

    for what, (told, ended) in runs.one_refused(run):
        if not told.endswith(b"bye\n"):
            same((ended.status, ended.out, ended.err), (1, b"", WANT), f"{what}: {told!r}")
            cut += cut_for(1, NO_MEMORY) in ended.notes
    holds(cut > 0, "no session was refused memory")
    both = 0
    for what, (_, ended) in runs.one_refused(lambda number: run(number, ACCEPTS=f"0 {-errno.EBADF}")):
        if cut_for(1, NO_MEMORY) in ended.notes:
            same((ended.status, ended.out, ended.err), (1, b"", IO), f"{what}, and an accept fails")
            both += 1
    holds(both > 0, "no session was refused memory while an accept failed")
