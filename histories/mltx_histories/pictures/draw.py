"""Writes a scene as an SVG."""
import re
from collections.abc import Iterator
from itertools import chain
from xml.sax.saxutils import escape

from . import legend
from .fonts import FAMILY, wrapped
from .layout import BEFORE_NOTE, EDGE, MARGIN, MOST_WIDTH, NAME_SIZE, Row, rows
from .progress import shown
from .scene import LABEL_SIZE, PILL_SIZE, Arrow, Bar, Label, Lane, Mark, Scene

LEAST_WIDTH = 720
TITLE_SIZE, NOTE_SIZE, NOTE_LINE = 20, 13, 19
# A lane from top to bottom: the title of its bar, the bar, and the reply.
LANE, LANE_GAP, TITLE_AT, BAR_AT, BAR, REPLY_AT = 68, 12, 16, 23, 22, 62
HEADER, ROW_GAP = 30, 18
# How far what is open at the end goes on behind the last point.
OPEN = 10
HELD, ROUND = 12, 11

STYLE = f"""
text {{ font-family: {FAMILY}; font-size: {LABEL_SIZE}px; fill: #1a1a1a }}
.picture {{ font-size: {TITLE_SIZE}px; font-weight: bold }}
.lane {{ font-size: {NAME_SIZE}px; font-weight: bold }}
.note, .key {{ font-size: {NOTE_SIZE}px }}
.event, .about, .open {{ fill: #4d4d4d }}
.title {{ font-weight: normal }}
.code {{ font-style: italic }}
.committed, .aborted {{ font-size: {PILL_SIZE}px; font-weight: bold }}
text.committed {{ fill: #ffffff }}
rect.committed {{ fill: #00543d; stroke: #00543d }}
rect.aborted {{ fill: #ffffff; stroke: #7a3200; stroke-width: 2 }}
.band {{ fill: #f2f4f7 }}
.life {{ stroke: #6b6b6b; stroke-width: 1.5 }}
.held {{ fill: #bcd6ea }}
.begin {{ fill: #ffffff; stroke: #333333; stroke-width: 2 }}
.operation {{ fill: #56b4e9; stroke: #003f66; stroke-width: 1.5 }}
.undo {{ fill: url(#hatch); stroke: #7a3200; stroke-width: 1.5 }}
.still {{ fill: #ffffff; stroke: #003f66; stroke-width: 1.5; stroke-dasharray: 4 3 }}
.tick {{ stroke: #003f66; stroke-width: 2 }}
.halo {{ stroke: #ffffff; stroke-width: 5; fill: none }}
.waiting {{ stroke: #5b2a86; stroke-width: 2.2; stroke-dasharray: 6 3; fill: none }}
.blocked {{ stroke: #a32a00; stroke-width: 2.6; fill: none }}
.head-waiting {{ fill: #5b2a86 }}
.head-blocked {{ fill: #a32a00 }}
.sign {{ fill: #ffffff; stroke-width: 2 }}
.sign-waiting {{ stroke: #5b2a86 }}
.sign-blocked {{ fill: #a32a00; stroke: #a32a00 }}
.sign-refused {{ stroke: #a32a00 }}
.pause {{ stroke: #5b2a86; stroke-width: 2.2 }}
.stop {{ stroke: #ffffff; stroke-width: 3 }}
.cross {{ stroke: #1a1a1a; stroke-width: 2.4; fill: none }}
.number {{ font-size: 12px; font-weight: bold; fill: #ffffff }}
.badge {{ fill: #333333 }}
"""
HATCH = (
    '<pattern id="hatch" width="7" height="7" patternUnits="userSpaceOnUse" patternTransform="rotate(45)">'
    '<rect width="7" height="7" fill="#fff1e0"/><rect width="2.5" height="7" fill="#d55e00"/></pattern>'
)


def shape(name: str, **attributes: float | str) -> str:
    """An element without content. `_` in a name stands for `-`, and a trailing one is dropped."""
    written = (f'{key.rstrip("_").replace("_", "-")}="{_short(value)}"' for key, value in attributes.items())
    return f"<{name} {' '.join(written)}/>"


def _short(value: float | str) -> str:
    return f"{round(value, 1):g}" if isinstance(value, float) else escape(str(value), {'"': "&quot;"})


def text(x: float, y: float, words: str, role: str, anchor: str = "start") -> str:
    """A line of text. Words in backticks are set apart."""
    inner = re.sub(r"`([^`]+)`", r'<tspan class="code">\1</tspan>', escape(words))
    anchored = "" if anchor == "start" else f' text-anchor="{anchor}"'
    return f'<text class="{role}" x="{_short(float(x))}" y="{_short(float(y))}"{anchored}>{inner}</text>'


def line(role: str, x1: float, y1: float, x2: float, y2: float) -> str:
    return shape("line", class_=role, x1=float(x1), y1=float(y1), x2=float(x2), y2=float(y2))


def box(role: str, x: float, y: float, wide: float, high: float, round_: int = 0) -> str:
    more = {"rx": round_} if round_ else {}
    return shape("rect", class_=role, x=float(x), y=float(y), width=float(wide), height=float(high), **more)


def sign(kind: str, x: float, y: float) -> str:
    """The sign of what happens at a point: two strokes for one that waits, a bar for one that is blocked."""
    if kind == "begin":
        return shape("circle", class_="begin", cx=float(x), cy=float(y), r=5)
    size = 4 if kind == "refused" else 6
    wide = 2 * size
    path = f"M{_short(float(x - size))} {_short(float(y - size))}l{wide} {wide}m0 {-wide}l{-wide} {wide}"
    inner = {
        "waiting": "".join(line("pause", x + side, y - 4.5, x + side, y + 4.5) for side in (-2.5, 2.5)),
        "blocked": line("stop", x - 5, y, x + 5, y),
    }.get(kind, shape("path", class_="cross", d=path))
    around = shape("circle", class_=f"sign sign-{kind}", cx=float(x), cy=float(y), r=8)
    return inner if kind == "cancelled" else around + inner


def head(kind: str, x: float, y: float, up: bool) -> str:
    """The head of an arrow, with its point at x, y."""
    back = 9 if up else -9
    path = f"M{_short(float(x))} {_short(float(y))}l-5 {back}h10z"
    return shape("path", class_=f"head-{kind}", d=path)


class RowDrawing:
    """One row of time: its lanes from `top` down."""

    def __init__(self, scene: Scene, row: Row, left: float, right: float, top: int) -> None:
        self.scene, self.row, self.left, self.right, self.top = scene, row, left, right, top
        now = len(scene.note_at) - 1
        # Where what goes on behind the row, or up to now, ends.
        self.edge = row.x(now) + OPEN if row.first <= now <= row.last else right
        first = top + (HEADER if scene.story.notes else 0)
        self.tops = {number: first + at * (LANE + LANE_GAP) for at, number in enumerate(row.numbers)}
        self.bottom = first + len(row.numbers) * (LANE + LANE_GAP) - LANE_GAP + 4

    def middle(self, lane: Lane) -> float:
        return self.tops[lane.number] + BAR_AT + BAR / 2

    def drawn(self) -> Iterator[str]:
        """All shapes, those below before those above."""
        return chain(self.notes(), *chain.from_iterable(self.layers()))

    def layers(self) -> list[list[list[str]]]:
        """All shapes of the lanes in layers, those of each thing together, and those below before those above."""
        row = self.row
        drawn = [map(self._lane, row.lanes), map(self._bar, row.bars), map(self._arrow, row.arrows)]
        drawn += [map(self._mark, row.marks), map(self._label, row.labels)]
        return [[list(shapes) for shapes in layer] for layer in drawn]

    def notes(self) -> Iterator[str]:
        """A band for each note's span of time, with its number. Every second one is darker."""
        notes = self.scene.note_at[self.row.first:self.row.last + 1]
        starts = [at for at, note in enumerate(notes) if at == 0 or note != notes[at - 1]]
        edges = [self.left - EDGE, *(self.row.x(self.row.first + at) - BEFORE_NOTE for at in starts[1:])]
        for start, begin, end in zip(starts, edges, [*edges[1:], self.right]):
            note = notes[start]
            if note % 2 == 1:
                yield box("band", begin, self.top, end - begin, self.bottom - self.top)
            if note:
                yield shape("circle", class_="badge", cx=float(begin + 18), cy=float(self.top + 15), r=ROUND)
                yield text(begin + 18, self.top + 19, str(note), "number", "middle")

    def _lane(self, lane: Lane) -> Iterator[str]:
        yield text(MARGIN, self.middle(lane) + 5, lane.name(), "lane")
        if not lane.is_open and lane.closed is None:
            return
        if lane.closed is None or lane.closed >= self.row.first:
            begin, end = self._span(lane.first, lane.closed)
            yield line("life", begin, self.middle(lane), end, self.middle(lane))
            if lane.held_from is not None and lane.held_from <= self.row.last:
                begin, end = self._span(lane.held_from, lane.closed)
                yield box("held", begin, self.middle(lane) - HELD / 2, end - begin, HELD)

    def _span(self, first: int, last: int | None) -> tuple[float, float]:
        """Where what lasts from one point to another begins and ends in this row."""
        return self.row.x(first), self.edge if last is None or last > self.row.last else self.row.x(last)

    def _bar(self, bar: Bar) -> Iterator[str]:
        top = self.tops[bar.lane.number] + BAR_AT
        begin, end = self._span(bar.first, bar.last)
        yield box(bar.kind, begin, top, end - begin, BAR, 3)
        for pause in bar.still:
            until = bar.last if pause.until is None else pause.until
            if pause.since <= self.row.last and (until is None or until > max(pause.since, self.row.first)):
                begin, end = self._span(pause.since, until)
                yield box("still", begin, top, end - begin, BAR)
        for point in bar.ticks:
            if self.row.first <= point <= self.row.last:
                yield line("tick", self.row.x(point), top + 5, self.row.x(point), top + BAR - 5)

    def _arrow(self, arrow: Arrow) -> Iterator[str]:
        x, up = self.row.x(arrow.point), arrow.goes_up()
        edge = (BAR if arrow.kind == "waiting" else HELD) / 2 + 2
        begin = self.middle(arrow.lane) + (-BAR / 2 if up else BAR / 2)
        end = self.middle(arrow.target) + (edge if up else -edge)
        yield line("halo", x, begin, x, end)
        yield line(arrow.kind, x, begin, x, end + (8 if up else -8))
        yield head(arrow.kind, x, end, up)

    def _mark(self, mark: Mark) -> Iterator[str]:
        yield sign(mark.kind, self.row.x(mark.point), self.middle(mark.lane))

    def _label(self, label: Label) -> Iterator[str]:
        x, top = self.row.x(label.point), self.tops[label.lane.number]
        middle = x + (label.right - label.left) / 2
        at = {"start": x - label.left, "middle": middle, "end": x + label.right}[label.anchor]
        if label.role in ("committed", "aborted"):
            yield box(label.role, x, top + BAR_AT, label.right, BAR, ROUND)
            yield text(at, top + BAR_AT + 15, label.text, label.role, label.anchor)
        elif label.text:
            down = {"top": TITLE_AT, "bar": BAR_AT + 16, "low": REPLY_AT}[label.row]
            yield text(at, top + down, label.text, label.role, label.anchor)


def _left_by_commits(lines: list[str]) -> str:
    """The base and the depth at the end, in words."""
    said = {"account": "account {} has {}", "element": "set {} has {}", "counter": "counter {} is {}"}
    *base, depth = [line.split() for line in lines]
    cells = ", ".join(said[kind].format(*numbers).replace(" ", "\u00a0") for kind, *numbers in base)
    return f"What the commits leave: {cells or 'nothing'}. The depth of the directory is {depth[1]}."


def _paragraphs(scene: Scene, top: int, wide: float) -> tuple[list[str], int]:
    """The notes and the base at the end, from `top` down, and where they end."""
    drawn: list[str] = []
    for number, note in enumerate(scene.story.notes, 1):
        drawn.append(shape("circle", class_="badge", cx=float(MARGIN + ROUND), cy=float(top - 4), r=ROUND))
        drawn.append(text(MARGIN + ROUND, top, str(number), "number", "middle"))
        for part in wrapped(note, NOTE_SIZE, wide - 2 * MARGIN - 32):
            drawn.append(text(MARGIN + 32, top, part, "note"))
            top += NOTE_LINE
        top += 8
    if scene.story.end:
        for part in wrapped(_left_by_commits(scene.story.end), NOTE_SIZE, wide - 2 * MARGIN):
            drawn.append(text(MARGIN, top, part, "note"))
            top += NOTE_LINE
        top += 8
    return drawn, top


def stacked(
    scene: Scene, placed: list[Row], left: float, wide: float, top: int
) -> tuple[list[RowDrawing], list[list[str]]]:
    """The rows one below another from `top` down, and what parts each from the one before."""
    drawings: list[RowDrawing] = []
    between: list[list[str]] = []
    for row in placed:
        between.append([])
        if drawings:
            top = drawings[-1].bottom + ROW_GAP
            between[-1] = [text(MARGIN, top + 4, "later", "about"), line("life", MARGIN + 44, top, wide - MARGIN, top)]
            top += ROW_GAP
        right = wide if row is not placed[-1] else row.right
        drawings.append(RowDrawing(scene, row, left, right - MARGIN, top))
    return drawings, between


def picture(scene: Scene, title: str, about: str) -> str:
    """The whole SVG, with a title and lines about it."""
    placed, left = rows(scene)
    wide = max([LEAST_WIDTH, legend.least_width(scene), *(row.right for row in placed)])
    wide = max(wide, MOST_WIDTH) if len(placed) > 1 else wide
    heading: list[str] = []
    drawn: list[str] = []
    top = 34
    for part in wrapped(title, TITLE_SIZE * 1.13, wide - 2 * MARGIN):
        heading.append(text(MARGIN, top, part, "picture"))
        top += 26
    for part in chain.from_iterable(wrapped(it, LABEL_SIZE, wide - 2 * MARGIN) for it in about.splitlines()):
        heading.append(text(MARGIN, top - 4, part, "about"))
        top += NOTE_LINE
    drawings, between = stacked(scene, placed, left, wide, top)
    for drawing, later in shown("drawing", list(zip(drawings, between))):
        drawn += [*later, *drawing.drawn()]
    top = drawings[-1].bottom + ROW_GAP if drawings else top
    notes, top = _paragraphs(scene, top + 12, wide)
    keys, top = legend.drawn(scene, top + 2, wide)
    size = f'width="{wide:.0f}" height="{top:.0f}" viewBox="0 0 {wide:.0f} {top:.0f}"'
    return "\n".join([
        f'<svg xmlns="http://www.w3.org/2000/svg" {size} role="img" aria-label="{escape(title, {chr(34): "&quot;"})}">',
        f"<title>{escape(title)}</title>",
        f"<style>{STYLE}</style>",
        f"<defs>{HATCH}</defs>",
        f'<rect width="{wide:.0f}" height="{top:.0f}" fill="#ffffff"/>',
        *heading, *_group("time", drawn), *_group("notes", notes), *_group("legend", keys),
        "</svg>\n",
    ])


def _group(name: str, shapes: list[str]) -> list[str]:
    return [f'<g class="{name}">', *shapes, "</g>"]
