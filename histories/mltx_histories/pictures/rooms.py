"""Draws the rooms of the crates, from what is lowest up: what each is, its crates, and the rooms that it stands on."""
from collections.abc import Iterator
from dataclasses import dataclass
from xml.sax.saxutils import escape

from .draw import box, line, shape, text
from .fonts import FAMILY, width, wrapped
from .layout import MARGIN, MOST_WIDTH

TITLE = "The rooms of the crates"
ABOUT = (
    "The first word behind mlt_ in the name of a crate is its room. An arrow leads to a room that the upper one stands on; "
    "none is drawn where others lead there too. Nothing stands on crates of tests; they stand on what they test, and on test."
)
TITLE_SIZE, NAME_SIZE, SIZE, LINE = 20, 14, 13, 18
# Between boxes side by side and one above the other, within a box, and between lanes of arrows that pass by rooms.
BESIDE, ABOVE, INSIDE, LANE = 16, 30, 12, 20
STYLE = f"""
text {{ font-family: {FAMILY}; font-size: {SIZE}px; fill: #1a1a1a }}
.picture {{ font-size: {TITLE_SIZE}px; font-weight: bold }}
.lane {{ font-size: {NAME_SIZE}px; font-weight: bold }}
.about, .crates {{ fill: #4d4d4d }}
.room {{ fill: #f2f4f7; stroke: #003f66; stroke-width: 1.5 }}
.apart {{ fill: #ffffff; stroke: #003f66; stroke-width: 1.5; stroke-dasharray: 4 3 }}
.stands {{ stroke: #003f66; stroke-width: 1.8 }}
.head-stands {{ fill: #003f66 }}
"""


@dataclass(frozen=True)
class Room:
    """A room, what it is, the names of its crates, and the rooms that it stands on, but those on which another one of
    these stands."""

    name: str
    about: str
    crates: list[str]
    below: list[str]


class _Box:
    """Where a room is drawn, with its lines of text."""

    def __init__(self, room: Room, left: float, right: float) -> None:
        self.room, self.left, self.right = room, left, right
        inner = right - left - 2 * INSIDE
        self.shift = width(room.name, NAME_SIZE, bold=True) + 10
        name_room = self.shift - width(f"{room.name} ", SIZE)
        self.about = wrapped(f"{room.name} {room.about}", SIZE, inner - name_room)
        self.crates = wrapped(", ".join(_short(room)), SIZE, inner)
        self.high = LINE * (len(self.about) + len(self.crates)) + 12
        self.top = self.bottom = 0.0

    def put(self, top: float, high: float) -> None:
        self.top, self.bottom = top, top + high

    def drawn(self, is_apart: bool) -> Iterator[str]:
        yield box("apart" if is_apart else "room", self.left, self.top, self.right - self.left, self.bottom - self.top, 4)
        x, y = self.left + INSIDE, self.top + LINE
        yield text(x, y, self.room.name, "lane")
        yield text(x + self.shift, y, self.about[0].removeprefix(self.room.name).strip(), "is")
        for role, lines in (("is", self.about[1:]), ("crates", self.crates)):
            for words in lines:
                y += LINE
                yield text(x, y, words, role)


def _short(room: Room) -> list[str]:
    """The names of the crates of a room, each but the first one without what it shares with all."""
    whole = room.crates[0] if len(room.crates) == 1 else f"mlt_{room.name}"
    first = whole if whole in room.crates else room.crates[0]
    return [first, *(crate.removeprefix(whole) for crate in room.crates if crate != first)]


def _levels(rooms: list[Room]) -> tuple[list[list[str]], dict[str, list[str]]]:
    """The names of the rooms level by level, the lowest first: each lies as near as may be below what stands on it."""
    below = {room.name: room.below for room in rooms}
    heights: dict[str, int] = {}

    def height(name: str) -> int:
        if name not in heights:
            heights[name] = 1 + max(map(height, below[name]), default=-1)
        return heights[name]

    above = {name: [other for other in below if name in below[other]] for name in below}
    levels: dict[str, int] = {}
    for name in sorted(below, key=height, reverse=True):
        levels[name] = min((levels[other] - 1 for other in above[name]), default=height(name))
    return [[name for name in below if levels[name] == level] for level in range(max(levels.values()) + 1)], above


def _placed(
    rooms: list[Room], levels: list[list[str]], above: dict[str, list[str]], right: float
) -> dict[str, _Box]:
    """A box for each room, side by side on its level, below what stands on it; those that nothing stands on come first."""
    known = {room.name: room for room in rooms}
    placed: dict[str, _Box] = {}

    def middle(name: str) -> float:
        over = [placed[other] for other in above[name]]
        return sum((it.left + it.right) / 2 for it in over) / max(len(over), 1)

    for names in reversed(levels):
        wide = (right - MARGIN + BESIDE) / len(names)
        for at, name in enumerate(sorted(names, key=middle)):
            placed[name] = _Box(known[name], MARGIN + at * wide, MARGIN + (at + 1) * wide - BESIDE)
    return placed


def _put(levels: list[list[str]], placed: dict[str, _Box], top: float) -> float:
    """Gives the boxes their heights, the highest level first, and answers where they end."""
    for names in reversed(levels):
        high = max(placed[name].high for name in names)
        for name in names:
            placed[name].put(top, high)
        top += high + ABOVE
    return top - ABOVE


def _lanes(rooms: list[Room], level_of: dict[str, int]) -> tuple[dict[tuple[str, str], int], int]:
    """For each arrow that passes by a level its lane at the right edge: the first one that is free all along it."""
    taken: list[set[int]] = []
    lanes: dict[tuple[str, str], int] = {}
    for room in reversed(rooms):
        for name in room.below:
            span = set(range(level_of[name], level_of[room.name] + 1))
            if len(span) > 2:
                free = [at for at, spans in enumerate(taken) if not spans & span]
                lane = free[0] if free else len(taken)
                taken += [] if free else [set()]
                taken[lane] |= span
                lanes[room.name, name] = lane
    return lanes, len(taken)


def _head(x: float, y: float, to_left: bool) -> str:
    """The head of an arrow that ends at x, y."""
    tail = "l9 -5v10z" if to_left else "l-5 -9h10z"
    return shape("path", class_="head-stands", d=f"M{x:g} {y:g}{tail}")


def _down(upper: _Box, lower: _Box) -> Iterator[str]:
    """An arrow to the next level, straight where one box lies above the other."""
    low, high = max(upper.left, lower.left), min(upper.right, lower.right)
    ends = [(low + high) / 2] * 2 if low < high else [(it.left + it.right) / 2 for it in (upper, lower)]
    begin, end = (round(x, 1) for x in ends)
    between = upper.bottom + ABOVE / 3
    yield line("stands", begin, upper.bottom, begin, between)
    if begin != end:
        yield line("stands", begin, between, end, between)
    yield line("stands", end, between, end, lower.top - 8)
    yield _head(end, lower.top, False)


def _beside(upper: _Box, lower: _Box, x: float) -> Iterator[str]:
    """An arrow that passes by what lies between, from one right side to another."""
    begin, end = ((it.top + it.bottom) / 2 + shift for it, shift in ((upper, 6), (lower, -6)))
    yield line("stands", upper.right, begin, x, begin)
    yield line("stands", x, begin, x, end)
    yield line("stands", lower.right + 8, end, x, end)
    yield _head(lower.right, end, True)


def picture(rooms: list[Room], apart: str) -> str:
    """The whole SVG. The room `apart` is one that tests alone stand on."""
    levels, above = _levels(rooms)
    level_of = {name: level for level, names in enumerate(levels) for name in names}
    lanes, count = _lanes(rooms, level_of)
    right = MOST_WIDTH - MARGIN - count * LANE
    placed = _placed(rooms, levels, above, right)
    heading, top = [text(MARGIN, 34, TITLE, "picture")], 56
    for part in wrapped(ABOUT, SIZE, MOST_WIDTH - 2 * MARGIN):
        heading.append(text(MARGIN, top, part, "about"))
        top += LINE
    bottom = _put(levels, placed, top) + MARGIN
    drawn = [it for room in rooms for it in placed[room.name].drawn(room.name == apart)]
    for upper, lower in ((placed[room.name], placed[name]) for room in rooms for name in room.below):
        names = upper.room.name, lower.room.name
        if names not in lanes:
            drawn += _down(upper, lower)
        elif upper.right < right - 1 or lower.right < right - 1:
            raise ValueError(f"no place for an arrow from {names[0]} to {names[1]}: one of them is not at the right edge")
        else:
            drawn += _beside(upper, lower, right + LANE * (lanes[names] + 1))
    size = f'width="{MOST_WIDTH}" height="{bottom:.0f}" viewBox="0 0 {MOST_WIDTH} {bottom:.0f}"'
    return "\n".join([
        f'<svg xmlns="http://www.w3.org/2000/svg" {size} role="img" aria-label="{escape(TITLE)}">',
        f"<title>{escape(TITLE)}</title>",
        f"<style>{STYLE}</style>",
        f'<rect width="{MOST_WIDTH}" height="{bottom:.0f}" fill="#ffffff"/>',
        *heading, '<g class="rooms">', *drawn, "</g>",
        "</svg>\n",
    ])
