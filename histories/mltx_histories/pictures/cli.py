"""Draws a schedule with its answers, or a trace, as an SVG, or as a page to step through. Standard library alone.

    mltx-picture [--page] [--hash H] [--program PROGRAM] [--title TEXT] [-o FILE] SCHEDULE [ANSWERS]
    mltx-picture --trace [--from N] [--to N] [--tx N[,N..]] [--title TEXT] [-o FILE] TRACE
    mltx-picture --trace --page [--program PROGRAM] [--title TEXT] [-o FILE] TRACE
    mltx-picture --gallery FOLDER [--program PROGRAM]

ANSWERS is what `mltx steps` writes of SCHEDULE; where it is not given, PROGRAM is run for it. `-` is standard input.
The comments of a schedule stand below the picture, each under the number of the part that follows it.

A picture has at most 2,000 items of a trace. --from and --to choose the first and the last one, and --tx transactions. What
these transactions did before the first item is drawn too.

With --page it is one file of HTML that needs no other and no network. It shows event by event the lanes up to there,
what committed transactions leave, what the pages have, what the open ones hold, and who waits for whom; and why an event
is blocked or waits, as `steps --explain` says it, or as comments that follow its answer in ANSWERS. For this PROGRAM is
run on the first events of SCHEDULE, one more each time, or on the first lines of TRACE. `FILE.html#step=5` shows what
holds after five events.

--gallery makes such a page of each example and exercise, and index.html, which lists them. These pages show a next event
first, and its answer when it is asked for. Of scripts they show the trace that `solo` leaves.

The status is 1 where a text or a file is faulty, and 2 where the command line is."""
import argparse
import sys
from pathlib import Path

from ..finding import found_program
from . import events, gallery, progress
from .draw import picture
from .page import page
from .part import part
from .program import Failed, Program
from .scene import Scene

ABOUT_SCHEDULE = "Each transaction has a lane; time runs to the right. Over a bar is what is asked, under it the reply."
ABOUT_TRACE = "A trace: what was done, in this order. Each transaction has a lane; time runs to the right."


class Arguments(argparse.Namespace):
    """What the command line asks for."""

    trace: bool
    page: bool
    hash: str | None
    program: str | Path
    title: str | None
    output: str | None
    first: int | None
    last: int | None
    tx: list[int]
    gallery: Path | None
    file: str | None
    answers: str | None


def counted(word: str) -> int:
    """A number from 1 on."""
    number = int(word)
    if number < 1:
        raise ValueError
    return number


def numbers(words: str) -> list[int]:
    return [counted(word) for word in words.split(",")]


def arguments() -> Arguments:
    about = "Draws a schedule with its answers, or a trace, as an SVG or as a page."
    parser = argparse.ArgumentParser("mltx-picture", description=about)
    parser.add_argument("--trace", action="store_true", help="the file is a trace")
    parser.add_argument("--page", action="store_true", help="makes a page of HTML to step through, instead of an SVG")
    parser.add_argument("--hash", choices=("mult", "low"), help="the hash function with which the program is run")
    told = "the program; else that of the clone, or `mltx` on the PATH"
    parser.add_argument("--mltx", "--program", dest="program", default=found_program(), help=told)
    parser.add_argument("--title", help="the title; else it is the name of the file")
    parser.add_argument("-o", dest="output", metavar="FILE", help="where it is written; else to standard output")
    parser.add_argument("--from", dest="first", type=counted, metavar="N", help="the first item of a trace that is drawn")
    parser.add_argument("--to", dest="last", type=counted, metavar="N", help="the last one")
    parser.add_argument("--tx", type=numbers, default=[], metavar="N[,N..]", help="draws these transactions of a trace alone")
    parser.add_argument("--gallery", type=Path, metavar="FOLDER", help="makes pages of all examples and exercises in it")
    parser.add_argument("file", metavar="SCHEDULE", nargs="?", help="a schedule of events, or a trace; `-` is standard input")
    parser.add_argument("answers", metavar="ANSWERS", nargs="?", help="what `mltx steps` writes of it; else it is run")
    given = parser.parse_args(namespace=Arguments())
    if not given.file and not given.gallery:
        parser.error("there is no schedule and no trace")
    if (given.first or given.last or given.tx) and (given.page or not given.trace):
        parser.error("--from, --to and --tx are for pictures of traces, without --page")
    if given.gallery and (given.file or given.trace or given.page or given.hash or given.title or given.output):
        parser.error("--gallery takes no other option but --program, and no file")
    if given.trace and (given.answers or given.hash):
        parser.error("a trace has no answers and no hash function")
    if given.answers and given.hash and not given.page:
        parser.error("with ANSWERS no program is run, and --hash does nothing")
    return given


def read(path: str) -> bytes:
    """All bytes of a file, or of standard input."""
    return sys.stdin.buffer.read() if path == "-" else Path(path).read_bytes()


def title_of(path: str) -> str:
    """A title made of a file's name: `wait-for-a-page.txt` is `Wait for a page`."""
    words = "standard input" if path == "-" else Path(path).stem.replace("-", " ").replace("_", " ")
    return words[:1].upper() + words[1:]


def drawn(given: Arguments, file: str) -> str:
    """The SVG or the page that is asked for."""
    data, program = read(file), Program(given.program, given.hash)
    if given.trace:
        story, about = events.trace(file, data), ABOUT_TRACE
        story = story if given.page else part(file, story, given.first, given.last, given.tx)
    else:
        name = given.answers or "the program's answers"
        events.check_schedule(file, data)
        told = program.explained_steps if given.page else program.steps
        story = events.schedule(file, data, name, read(given.answers) if given.answers else told(data))
        about = ABOUT_SCHEDULE
    title = events.printable(given.title or title_of(file)).strip()
    return page(story, title, about, given.trace, program) if given.page else picture(Scene(story), title, about)


def main() -> None:
    given = arguments()
    try:
        if given.file is None:
            gallery.make(given.gallery or Path(), given.program)
            return
        made = drawn(given, given.file)
        if given.output:
            Path(given.output).write_bytes(made.encode())
        else:
            sys.stdout.buffer.write(made.encode())
            sys.stdout.buffer.flush()
    except (events.Faulty, Failed, OSError) as fault:
        progress.clear()
        sys.exit(f"mltx-picture: {fault}")

