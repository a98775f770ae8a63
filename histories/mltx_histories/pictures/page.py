"""Makes a page of one file to step through: the lanes up to an event, and beside them what holds then."""
import re
from collections.abc import Iterator
from dataclasses import dataclass
from pathlib import Path
from xml.sax.saxutils import escape

from . import draw, legend
from .events import Faulty, Story
from .layout import MARGIN, rows, so_far
from .program import Program
from .scene import Bar, Done, Lane, Scene
from .states import Base, State, Wait, states, trace_line

# The most events of a page, and the pixels of its picture's width.
MOST_MOMENTS, WIDTH = 500, 760
# How many layers a row has, and how many shapes of one thing lie one on another.
LAYERS, DEPTH = 6, 3
# The kinds of objects in the order of a base, with what stands for one that a base does not name.
NOTHING = {"account": "\u2013", "set": "{}", "counter": "0"}
HERE = Path(__file__).resolve().parent
# No other file and no network, whatever the texts have.
POLICY = "default-src 'none'; style-src 'unsafe-inline'; script-src 'unsafe-inline'"
BUTTONS = (
    ("Home", "to the start", "|&lt;"), ("ArrowLeft", "back", "&lt;"), ("ArrowRight", "forward", "&gt;"),
    ("End", "to the end", "&gt;|"),
)
HELP = (
    "Arrow keys step forward and back, Home and End go to the start and to the end.",
    "<i>Committed</i> is what the committed transactions leave, run alone in the order of their commits. <i>Pages</i> is"
    " what the pages have: also what open transactions did, but not what an operation that runs has changed so far."
    " An account that is not there has a dash. What an event has changed is marked.",
)


@dataclass
class _Shape:
    """A shape that is to be seen from one step to another, in its layer."""

    layer: int
    drawn: str
    first: int
    last: int


class _Lanes:
    """The lanes of a story, and of each step what of them is to be seen."""

    def __init__(self, scene: Scene) -> None:
        self.scene = scene
        self.rows, self.left = rows(scene, WIDTH)
        self.wide = max([WIDTH, *(row.right for row in self.rows)])
        self.whole, self.between = draw.stacked(scene, self.rows, self.left, self.wide, MARGIN // 2)
        self.shapes: list[_Shape] = []
        self.seen: dict[tuple[int, str], _Shape] = {}
        self.steps = 0

    def place(self, scene: Scene) -> tuple[float, int, int]:
        """Where the last point of an earlier state is: its place, and the top and the bottom of its row."""
        now = len(scene.note_at) - 1
        for row, drawing in zip(self.rows, self.whole):
            if row.first <= now <= row.last:
                return row.x(now), drawing.top, drawing.bottom
        return 0.0, 0, 0

    def add(self, scene: Scene) -> None:
        """The next step, after which the scene is this one."""
        now, bottom = len(scene.note_at) - 1, 0
        for row, later, drawing in zip(self.rows, self.between, self.whole):
            if row.first <= max(now, 0):
                self._show(bottom, [*later, *drawing.notes()])
                if row.first <= now <= row.last:
                    x = row.x(now)
                    self._show(bottom + 1, [draw.line("now", x, drawing.top, x, drawing.bottom)])
                part = draw.RowDrawing(scene, so_far(scene, row), self.left, drawing.right, drawing.top)
                for layer, things in enumerate(part.layers(), 1):
                    for thing in things:
                        self._show(bottom + layer * DEPTH, thing, DEPTH)
            bottom += LAYERS * DEPTH
        self.steps += 1

    def _show(self, layer: int, shapes: list[str], depth: int = 1) -> None:
        """Shapes of a layer. Where it is so deep, what is above another shape of the same thing stays there, also where
        that one grows."""
        for up, drawn in enumerate(shapes):
            key = layer + min(up, depth - 1), drawn
            shape = self.seen.get(key)
            if shape is None or shape.last < self.steps - 1:
                shape = self.seen[key] = _Shape(key[0], drawn, self.steps, self.steps)
                self.shapes.append(shape)
            shape.last = self.steps

    def svg(self, title: str) -> str:
        """The lanes of all steps. Those of the last one are seen where nobody steps."""
        self.shapes.sort(key=lambda shape: shape.layer)
        high = self.whole[-1].bottom + MARGIN // 2 if self.whole else MARGIN
        moving = []
        for shape in self.shapes:
            role = ' class="whole on"' if shape.last == self.steps - 1 else ""
            moving.append(f'<g data-from="{shape.first}" data-to="{shape.last}"{role}>{shape.drawn}</g>')
        return _svg(self.wide, high, title, [f"<defs>{draw.HATCH}</defs>", *moving])


def _svg(wide: float, high: float, title: str, shapes: list[str]) -> str:
    named = escape(title, {'"': "&quot;"})
    return "\n".join([f'<svg viewBox="0 0 {wide:.0f} {high:.0f}" role="img" aria-label="{named}">', *shapes, "</svg>"])


def page(story: Story, title: str, about: str, is_trace: bool, program: Program, home: str = "") -> str:
    """The whole page. One of a gallery, which has that page as its home, asks for each answer before it shows it."""
    if len(story.moments) > MOST_MOMENTS:
        raise Faulty(*story.moments[MOST_MOMENTS].place, f"a page has at most {MOST_MOMENTS} events")
    scene = Scene(story)
    lanes = _Lanes(scene)
    sections, before = [], None
    for number, state in enumerate(states(story, is_trace, program)):
        lanes.add(state.scene)
        section = _Section(story, number, state, before, is_trace, bool(home))
        sections.append("\n".join(section.drawn(lanes.place(state.scene))))
        before = state
    keys, high = legend.drawn(scene, 12, WIDTH)
    told = [_told(story, number, is_trace, not home) for number in range(1, len(sections))]
    back = f' <a href="{home}">All pictures</a>' if home else ""
    return "\n".join([
        "<!DOCTYPE html>", '<html lang="en">', "<head>", '<meta charset="utf-8">',
        f'<meta http-equiv="Content-Security-Policy" content="{POLICY}">',
        '<meta name="viewport" content="width=device-width, initial-scale=1">',
        f"<title>{escape(title)}</title>", f"<style>\n{style()}</style>", "</head>", "<body>",
        f"<h1>{escape(title)}</h1>", f'<p class="about">{escape(about)}{back}</p>', _bar(),
        '<main class="view">', f'<div class="lanes" tabindex="0">{lanes.svg(title)}</div>',
        '<div class="list" aria-live="polite">', *sections, "</div>", "</main>",
        '<details class="key" open><summary>What it means</summary>', *(f"<p>{words}</p>" for words in HELP),
        _svg(WIDTH, high, "The signs", keys), "</details>",
        '<ol class="events">', *(f'<li><a href="#step={at}">{it}</a></li>' for at, it in enumerate(told, 1)), "</ol>",
        f"<script>\n{(HERE / 'page.js').read_text()}</script>", "</body>", "</html>\n",
    ])


def style() -> str:
    """The style of the picture, for what stands inside of one, and that of the page."""
    inside = re.sub(r"(?m)^([^{}\n]+) \{", lambda found: f"svg {found[1].replace(', ', ', svg ')} {{", draw.STYLE)
    return inside + (HERE / "page.css").read_text()


def _bar() -> str:
    first, back, forward, end = (
        f'<button data-move="{key}" aria-label="{words}" title="{words} ({key})">{sign}</button>'
        for key, words, sign in BUTTONS
    )
    return f'<nav class="bar">{first}{back}<span id="at"></span>{forward}{end}</nav>'


def _code(words: str) -> str:
    return f"<code>{escape(words)}</code>"


def _words(comment: str) -> str:
    """A comment. What stands in backticks is set apart."""
    return re.sub(r"`([^`]+)`", r"<code>\1</code>", escape(comment))


def _told(story: Story, number: int, is_trace: bool, has_answer: bool = True) -> str:
    """An event with what it was told, or a line of a trace; or what is asked alone."""
    moment = story.moments[number - 1]
    if not has_answer:
        return _code(f"op {moment.number} {moment.operation}" if is_trace and moment.operation else moment.event())
    if is_trace:
        return _code(trace_line(moment))
    return f'{_code(moment.event())} <span class="told">{escape(moment.answer)}</span>'


class _Section:
    """What holds after so many events."""

    def __init__(
        self, story: Story, number: int, state: State, before: State | None, is_trace: bool, asks: bool
    ) -> None:
        self.story, self.number, self.state, self.before = story, number, state, before
        self.is_trace, self.asks = is_trace, asks

    def drawn(self, place: tuple[float, int, int]) -> Iterator[str]:
        x, top, bottom = place
        yield f'<section class="state" data-step="{self.number}" data-x="{x:.0f}" data-top="{top}" data-bottom="{bottom}">'
        yield from self._heading()
        if self.asks and self.number < len(self.story.moments):
            yield from self._question()
        yield from self._objects()
        yield from _listed("Open transactions", "open", [_transaction(lane) for lane in self.state.open()])
        circle = self.state.circle()
        waits = [_wait(wait) for wait in self.state.waits]
        yield from _listed("Who waits for whom", "waits", waits + ([_circle(circle)] if circle else []))
        yield "</section>"

    def _heading(self) -> Iterator[str]:
        if not self.number:
            yield "<h2>Before the first event</h2>"
            return
        moment = self.story.moments[self.number - 1]
        yield f"<h2>{self.number}. {_told(self.story, self.number, self.is_trace)}</h2>"
        if moment.operation:
            yield f'<p class="asked">{escape(legend.asked(moment.operation))}</p>'
        if moment.reason:
            yield f'<p class="reason">{"<br>".join(map(_words, moment.reason.splitlines()))}</p>'
        if moment.note:
            yield f'<p class="note">{_words(self.story.notes[moment.note - 1])}</p>'

    def _question(self) -> Iterator[str]:
        """The next event, whose answer is hidden until it is asked for."""
        event = _told(self.story, self.number + 1, self.is_trace, has_answer=False)
        yield f'<details class="next"><summary>{event}: Which answer is next?</summary>'
        answer = self.story.moments[self.number].answer
        is_reply = self.is_trace and answer.startswith("done ")
        yield f"<p>{escape(answer.partition(' ')[2] if is_reply else answer)}</p></details>"

    def _objects(self) -> Iterator[str]:
        state, before = self.state, self.before or self.state
        yield "<h3>Objects</h3>"
        if state.fault:
            yield f'<p class="fault">{_words(state.fault)}</p>'
        columns = [(state.committed, before.committed), (state.pages, before.pages)]
        names = sorted({name for pair in columns for it in pair if it for name in it}, key=_order)
        if names:
            yield '<table class="objects"><thead><tr><th></th><th>committed</th><th>pages</th></tr></thead><tbody>'
            for name in names:
                cells = "".join(_cell(name, now, then) for now, then in columns)
                yield f'<tr><th scope="row">{escape(name)}</th>{cells}</tr>'
            yield "</tbody></table>"
        elif not state.fault:
            yield '<p class="none">none</p>'
        if state.depth:
            marked = ' class="new"' if state.depth != before.depth else ""
            yield f'<p class="depth">Depth of the directory: <span{marked}>{state.depth}</span></p>'


def _order(name: str) -> tuple[int, int]:
    kind, number = name.split()
    return list(NOTHING).index(kind), int(number)


def _cell(name: str, now: Base | None, then: Base | None) -> str:
    if now is None:
        return "<td>?</td>"
    marked = ' class="new"' if then is not None and now.get(name) != then.get(name) else ""
    return f"<td{marked}>{now.get(name, NOTHING[name.split()[0]])}</td>"


def _listed(heading: str, role: str, items: list[str]) -> Iterator[str]:
    yield f'<div class="part{"" if items else " empty"}"><h3>{heading}</h3>'
    if items:
        yield f'<ul class="{role}">'
        yield from (f"<li>{item}</li>" for item in items)
        yield "</ul></div>"
    else:
        yield f'<p class="none {role}">none</p></div>'


def _transaction(lane: Lane) -> str:
    """What an open transaction holds, and what it does."""
    held = []
    for done in lane.held:
        words = _done(done)
        held.append(words if done in lane.standing else f"<s>{words}</s> (undone)")
    parts = [f"holds {', '.join(held)}" if held else "holds nothing", *([_running(lane.bar)] if lane.bar else [])]
    return f"<b>{lane.name()}</b> {'; '.join(parts)}"


def _done(done: Done) -> str:
    return f"{_code(done.operation)} {escape(done.reply)}".strip()


def _running(bar: Bar) -> str:
    what = f"{'undoes' if bar.kind == 'undo' else 'runs'} {_code(bar.text)}"
    count = len(bar.ticks)
    return f"{what}, {count} step{'s' if count > 1 else ''} so far" if count else what


def _wait(wait: Wait) -> str:
    """Who waits for whom, and what of that one is in the way."""
    what = _code(wait.bar.title())
    here = ", ".join(map(_done, wait.here))
    if wait.is_over:
        said = f"was blocked by <b>{wait.target}</b>, which" if wait.kind == "blocked" else (
            f"waited for <b>{wait.target}</b>, whose operation"
        )
        said += f" has ended: a next step may go on ({what})"
    elif wait.kind == "blocked":
        said = f"is blocked by <b>{wait.target}</b>: it wants {what}, and on the same object {wait.target} holds {here}"
    else:
        said = f"waits for <b>{wait.target}</b>: {what} needs a page that {wait.target} has locked for {here}"
    return f"<b>{wait.number}</b> {said}{'. The operation is dropped' if wait.is_dropped else ''}"


def _circle(numbers: list[int]) -> str:
    path = " \u2192 ".join(map(str, [*numbers, numbers[0]]))
    return f'<span class="circle">Deadlock: {path}. Each waits for the end of the next one</span>'
