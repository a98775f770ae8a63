"""Makes the gallery: a page to step through of each example and exercise, and a page that lists them."""
import re
from collections.abc import Iterator
from html import escape
from pathlib import Path
from typing import NamedTuple

from . import events
from .page import page, style
from .program import Failed, Program
from .progress import shown

ROOT = Path(__file__).resolve().parents[3]
HOME, TITLE = "index.html", "Which answer is next?"
# Those that need another hash function than that of the program.
HASHES = {"split-beside-a-reader": "low", "exercise-9": "low"}
ABOUT = "Pages to step through by the arrow keys. Each shows the next event first, and its answer when you ask for it."


class Piece(NamedTuple):
    """What a page is made of: a schedule, a trace or scripts, and its name, which is that of its file."""

    name: str
    title: str
    about: str
    text: bytes


def make(folder: Path, program: str | Path) -> None:
    """Writes all pages into this folder."""
    if not (ROOT / "examples").is_dir():
        raise Failed("the gallery is made of the examples of a clone of mltx, and this package stands in none")
    folder.mkdir(parents=True, exist_ok=True)
    listed = ""
    for heading, pieces in (("Examples", examples()), ("Exercises", exercises())):
        listed += f"<h2>{heading}</h2>\n<ul>\n"
        for piece in shown(heading.lower(), list(pieces)):
            try:
                made = _page(piece, program)
            except events.Faulty:
                # A trace that breaks the form of one can't be drawn.
                continue
            (folder / f"{piece.name}.html").write_text(made)
            listed += f'<li><a href="{piece.name}.html">{escape(piece.title)}</a></li>\n'
        listed += "</ul>\n"
    head = f'<meta charset="utf-8"><meta name="viewport" content="width=device-width, initial-scale=1"><title>{TITLE}</title>'
    body = f"<h1>{TITLE}</h1>\n<p>{ABOUT}</p>\n{listed}"
    html = f'<!DOCTYPE html>\n<html lang="en"><head>{head}<style>\n{style()}</style></head>\n<body>\n{body}</body></html>\n'
    (folder / HOME).write_text(html)


def examples() -> Iterator[Piece]:
    """The schedules, scripts and traces of examples/, with what its README says of each."""
    about = dict(re.findall(r"(?m)^\| `([\w.-]+)`.* \| (.*) \|$", (ROOT / "examples/README.md").read_text()))
    for file in sorted([*(ROOT / "examples").glob("*.txt"), *(ROOT / "examples").glob("*.trace")]):
        title = file.stem.replace("-", " ").capitalize()
        yield Piece(file.stem, title, f"examples/{file.name}: {about[file.name]}.".replace("`", ""), file.read_bytes())


def exercises() -> Iterator[Piece]:
    """The blocks of each exercise, or, where it asks for a schedule, the one of its answer."""
    answers = _sections("docs/ANSWERS.md", r"Answer (\d+)()")
    for number, (heading, body) in _sections("docs/EXERCISES.md", r"(\d+)\. (.*)").items():
        blocks = _blocks(body) or _blocks(answers[number][1])[:1]
        about = re.sub(r"(?m)^    .*\n|[`*]|\[([^\]]*)\]\([^)]*\)", r"\1", body)
        for letter, block in zip("abcdefgh" if len(blocks) > 1 else [""], blocks):
            title = f"{number}{letter}. {heading}"
            yield Piece(f"exercise-{number}{letter}", title, " ".join(about.split()), block.encode())


def _sections(page: str, heading: str) -> dict[str, tuple[str, str]]:
    """The headings and texts of a document by their numbers."""
    parts = re.split(rf"(?m)^## {heading}\n", (ROOT / page).read_text())
    return {number: (title, body) for number, title, body in zip(parts[1::3], parts[2::3], parts[3::3])}


def _blocks(text: str) -> list[str]:
    return [re.sub(r"(?m)^    ", "", block) for block in re.findall(r"(?m)(?:^    .*\n)+", text)]


def _page(piece: Piece, path: str | Path) -> str:
    program = Program(path, HASHES.get(piece.name))
    try:
        events.check_schedule(piece.name, piece.text)
        story, is_trace = events.schedule(piece.name, piece.text, "the answers", program.explained_steps(piece.text)), False
    except events.Faulty:
        story, is_trace = events.trace(piece.name, _trace(piece, program)), True
    return page(story, piece.title, piece.about, is_trace, program, HOME)


def _trace(piece: Piece, program: Program) -> bytes:
    """The piece, if it is a trace, or that which its scripts leave."""
    is_trace = re.match(rb"begin \d+\n(op|begin) \d", piece.text)
    return piece.text if is_trace else program.trace_of_scripts(piece.text)
