"""`--echo`: each line of the input beside its answer. And what is told at a terminal: colours, the second line of a fault with a
caret, and what the program waits for."""
import os
import pty
import re
import select
import subprocess
import time
from collections.abc import Mapping

from harness import PATIENCE, ROOT, Failed, Program, each, expect, fault_of, holds, lines, same, test

SOLO = """# Coins.
begin
open 101
if deposit 101 5 is over
  balance 102
end
\tlet v = balance 101

need withdraw 101 v is short
balance 101
commit
begin
abort
# The end.
"""
SOLO_BESIDE = """# Coins.
begin
open 101                        opened
if deposit 101 5 is over        done
  balance 102
end
\tlet v = balance 101            is 5

need withdraw 101 v is short    done
balance 101
commit                          aborted
begin
abort                           aborted
# The end.
"""

# Client 2 comes first in the file, and last in what `run` prints. An `if` has an `else`.
CLIENTS = lines(
    "begin 2|if has 201 21 is yes|remove 201 21|else|add 201 21|end|commit|# Of client 1.|begin 1|up 301 2|commit|"
    "begin 2|size 201|abort"
)
CLIENTS_BESIDE = """# Of client 1.
begin 1                 client 1 script 1
up 301 2                done
commit                  committed N
begin 2                 client 2 script 1
if has 201 21 is yes    no
remove 201 21
else
add 201 21              added
end
commit                  committed N
begin 2                 client 2 script 2
size 201                is 1
abort                   aborted
                        element 201 21
                        counter 301 2
"""

SCHEDULE = lines("begin|whole 1 open 101|# Four steps.|call 1 balance 101|step 1 4|step 9 2|commit 1")
SCHEDULE_BESIDE = """begin                 begun 1
whole 1 open 101      done opened
# Four steps.
call 1 balance 101    called
step 1 4              going
                      going
                      going
                      done is 0
step 9 2              refused 3 NoSuchTx
                      refused 3 NoSuchTx
commit 1              committed 1
                      account 101 0
                      depth 0
"""
LONG = "need withdraw 4294967295 18446744073709551615 is  \t         short"


@test
def echo_of_scripts(mltx: Program) -> None:
    expect(mltx.run("solo", "--echo", mltx.file("solo", SOLO)), out=SOLO_BESIDE)
    expect(mltx.run("solo", "--echo", "-", given=SOLO.replace("\n", "\r\n")), out=SOLO_BESIDE)


@test
def echo_of_clients(mltx: Program) -> None:
    ran = mltx.run("run", mltx.file("run", CLIENTS), "--echo", "--workers", "1")
    same(re.sub(r"committed \d", "committed N", ran.out.decode()), CLIENTS_BESIDE, "run --echo")


@test
def echo_of_a_schedule(mltx: Program) -> None:
    expect(mltx.run("steps", "--echo", mltx.file("steps", SCHEDULE)), out=SCHEDULE_BESIDE)


@test
def echo_of_reasons(mltx: Program) -> None:
    """The reasons of an answer stand below it."""
    schedule = mltx.file("steps", lines("begin|begin|whole 1 up 301 1|whole 2 read 301"))
    out = mltx.run("steps", "--echo", "--explain", schedule).out.decode().splitlines()
    same(out[3], "whole 2 read 301    blocked by 1", "the answer")
    holds(out[4].startswith(" " * 20 + "# T2 wants `read 301`"), f"the reason below: {out[4]}")


@test
def echo_of_a_refused_event(mltx: Program) -> None:
    steps = lines("begin|" + "|".join(f"whole 1 up {number} 1" for number in range(1025)) + "|commit 1")
    out = mltx.run("steps", "--echo", mltx.file("steps", steps)).out.decode().splitlines()
    same(out[1025], "whole 1 up 1024 1    refused 8 LogFull", "the event of number 1,025")


@test
def echo_of_lines_of_any_length(mltx: Program) -> None:
    """The first column has at most 60 bytes. The answer to a longer line stands behind a space."""
    script = mltx.file("long", f"begin\n{LONG}\nopen 101\ncommit\n")
    out = mltx.run("solo", "--echo", script).out.decode().splitlines()
    same(out, ["begin", f"{LONG} missing", "open 101", f"{'commit':64}aborted"], "a line of 62 bytes")
    expect(mltx.run("solo", "--echo", mltx.file("none", "")), out="")
    expect(mltx.run("solo", "--echo", mltx.file("remark", "# none\n")), out="# none\n")


@test
def echo_of_a_fault(mltx: Program) -> None:
    """Nothing is printed before it. A disk that is full is told as without an echo."""
    faulty, good = mltx.file("faulty", "begin\nopn 1\n"), mltx.file("good", SOLO)
    expect(mltx.run("solo", "--echo", faulty), status=1, err=fault_of("solo", 2, "Words"))
    expect(mltx.run("solo", "--echo", good, redirect=">/dev/full"), status=1, err="mltx: 13 Io\n")


@test
def echo_of_all_examples(mltx: Program) -> None:
    """The second column is what is printed without an echo, and the first one is the input."""
    for file in sorted((ROOT / "examples").glob("*.txt")):
        command = "steps" if re.search("(?m)^(whole|step) ", file.read_text()) else "solo"
        plain, both = mltx.run(command, file), mltx.run(command, "--echo", file)
        same((plain.status, both.status), (0, 0), file.name)
        given = file.read_text().splitlines()
        width = min(60, max(len(line) for line in given if not line.startswith("#"))) + 4
        rows = both.out.decode().splitlines()
        same([row[:width].rstrip() for row in rows if row[:width].strip() and not row.startswith("#")],
             [line.rstrip() for line in given if line and not line.startswith("#")], f"the lines of {file.name}")
        told = [row[width:] for row in rows if not row.startswith("#") and row[width:]]
        same(told, plain.out.decode().splitlines(), f"the answers of {file.name}")


def at_terminal(mltx: Program, *words: object, given: bytes = b"", env: Mapping[str, str] | None = None) -> str:
    """What a terminal shows that is all three standard streams of the program, with `given` typed in."""
    ours, theirs = pty.openpty()
    process = subprocess.Popen(
        [mltx.path, *map(str, words)], stdin=theirs, stdout=theirs, stderr=theirs, cwd=mltx.folder,
        env={**{name: value for name, value in os.environ.items() if name != "NO_COLOR"}, **(env or {})},
    )
    os.close(theirs)
    shown, until = b"", time.monotonic() + PATIENCE
    try:
        if given:
            os.write(ours, given)
        while time.monotonic() < until:
            if select.select([ours], [], [], 0.1)[0]:
                shown += os.read(ours, 65536)
        raise Failed(f"{words} had not ended after {PATIENCE} seconds")
    except OSError:
        # A terminal that nobody has open any more.
        process.wait()
    finally:
        process.kill()
        os.close(ours)
    return shown.decode().replace("\r\n", "\n")


RED, YELLOW, GREEN, NONE = "\x1b[31m", "\x1b[33m", "\x1b[32m", "\x1b[0m"


@test
def colours_at_a_terminal(mltx: Program) -> None:
    schedule = mltx.file("steps", lines("begin|begin|whole 1 up 301 1|whole 2 read 301|step 9|commit 1"))
    shown = at_terminal(mltx, "steps", schedule)
    told = f"begun 1\nbegun 2\ndone done\n{RED}blocked by 1{NONE}\n{YELLOW}refused 3 NoSuchTx{NONE}\n{GREEN}committed 1{NONE}\n"
    same(shown, told + "counter 301 1\ndepth 0\n", "in colours")
    plain = mltx.run("steps", schedule).out.decode()
    same(at_terminal(mltx, "steps", schedule, env={"NO_COLOR": "1"}), plain, "with NO_COLOR")
    same(at_terminal(mltx, "steps", schedule, env={"NO_COLOR": ""}), shown, "with an empty NO_COLOR")
    holds(f"commit 1            {GREEN}committed 1{NONE}\n" in at_terminal(mltx, "steps", "--echo", schedule), "with an echo")
    script = mltx.file("solo", lines("begin|open 101|commit"))
    same(at_terminal(mltx, "solo", script), f"opened\n{GREEN}committed 1{NONE}\n", "solo")
    holds(f"{GREEN}committed 1{NONE}\n" in at_terminal(mltx, "run", script), "run")


CARETS = {
    "caret-at-a-word": (
        "solo", "begin\n\tdeposit 1 10.50\ncommit\n", 2, "Words", "\\tdeposit 1 10.50", "10.50", "`10.50` is no whole number; "
    ),
    "caret-at-the-first-word": ("solo", "begin\nbalence 42\n", 2, "Words", "balence 42", "balence", "did you mean `balance`? "),
    "caret-at-a-word-that-is-not-shown": (
        "solo", "begin\nadd 1 2" + " " * 60 + "x4\n", 2, "Words", "add 1 2" + " " * 53 + "..", "", ""
    ),
    "no-caret-at-a-line": ("solo", "begin\ndeposit 1\n", 2, "Words", "deposit 1", "", ""),
    "no-caret-at-a-place": ("solo", "open 1\n", 1, "Place", "open 1", "", "expected: a `begin` before it\n"),
}


@each(CARETS)
def second_line_at_a_terminal(mltx: Program, case: tuple[str, str, int, str, str, str, str]) -> None:
    """Without `-v` too, and behind it the line with a caret below the word, where there is one."""
    command, text, number, cause, line, word, said = case
    file = mltx.file("text", text)
    shown = at_terminal(mltx, command, file)
    start = f"{fault_of(command, number, cause)}mltx: {file}, line {number}: `{line}`: {said}"
    holds(shown.startswith(start), f"{shown!r} begins so: {start!r}")
    behind = f"  {line}\n  {' ' * line.index(word)}^\n" if word else ""
    same("".join(shown.splitlines(keepends=True)[2:]), behind, "what stands behind the second line")
    same(at_terminal(mltx, command, "-v", file), shown, "with -v")


@test
def hint_at_a_terminal(mltx: Program) -> None:
    """Without words the program says what it waits for, but not into a pipe."""
    shown = at_terminal(mltx, given=b"begin\nabort\n\x04")
    holds("mltx: reading scripts from the terminal until Ctrl-D; `mltx --help` lists the commands\n" in shown, shown)
    holds(shown.endswith("aborted\n"), shown)
    expect(mltx.run(given="begin\nabort\n"), out="aborted\n")


@test
def file_in_place_of_a_command(mltx: Program) -> None:
    """The command that runs a file is named; of what is no file it isn't."""
    file = mltx.file("transfer.txt", SOLO)
    ran = mltx.run(file)
    same((ran.status, ran.out), (2, b""), "the status")
    holds(b"unrecognized subcommand" in ran.err, f"{ran}")
    holds(ran.err.decode().endswith(f"\n  tip: to run the scripts of a file: mltx solo {file}\n"), f"{ran}")
    for words in (["nosuch.txt"], ["."], ["solo", "--nosuch", file]):
        holds(b"to run the scripts" not in mltx.run(*words).err, f"{words}")
    holds(mltx.run("version").err.endswith(b"\n  tip: to print the version: mltx --version\n"), "where the version is asked for")
