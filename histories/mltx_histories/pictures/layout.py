"""Gives points their places. Time that does not fit into one width goes on in the next row, as in a score."""
from collections.abc import Iterator
from dataclasses import dataclass, replace
from itertools import accumulate
from math import inf

from .fonts import width
from .progress import shown
from .scene import LABEL_SIZE, Arrow, Bar, Label, Lane, Mark, Scene

# The most pixels of a picture's width, and what is left free at its edges.
MOST_WIDTH, MARGIN = 1000, 16
NAME_SIZE = 14
# The least between two points, between labels, and between a label and an arrow.
LEAST, BETWEEN_LABELS, BESIDE_ARROW = 20, 12, 6
# How far before its first point the part of a note begins.
BEFORE_NOTE = 20
# How far left of the first place a later row begins.
EDGE = 14
# How much of the width is left free: more where a row, laid out by itself, is wider than was thought.
SPARES = (0, 60, 120)
# What it costs to begin a row, to cut a bar or an open transaction by that, and to begin one inside a note.
ROW_COST, BAR_COST, LANE_COST, NOTE_COST = 10, 8, 1, 3

# Two points, and how many pixels have to lie between them.
Demand = tuple[int, int, float]


@dataclass(frozen=True)
class Row:
    """The points from `first` to `last` with their places, what is drawn of them, and the lanes, from top to bottom.
    The first place is that of the point `base`: `first`, or in a later row the one before, at which what goes on
    begins. `numbers` are those of all lanes that the row has room for."""

    base: int
    first: int
    last: int
    places: list[float]
    numbers: list[int | None]
    lanes: list[Lane]
    bars: list[Bar]
    labels: list[Label]
    arrows: list[Arrow]
    marks: list[Mark]
    right: float

    def x(self, point: int) -> float:
        """The place of a point, or of the end of the row that it lies beyond."""
        return self.places[min(max(point, self.base), self.last) - self.base]


def rows(scene: Scene, most: int = MOST_WIDTH) -> tuple[list[Row], float]:
    """The rows of a scene, at most so many pixels wide, and how many the names of lanes take."""
    left = MARGIN + max((width(lane.name(), NAME_SIZE, bold=True) for lane in scene.lanes.values()), default=0) + 24
    if not scene.note_at:
        return [], left
    placed: list[Row] = []
    for spare in SPARES:
        parts = [_Part(scene, first, last) for first, last in _breaks(scene, most - left - MARGIN - EDGE - spare)]
        placed = [part.row(left) for part in parts]
        if all(row.right <= most for row in placed):
            break
    return placed, left


def so_far(scene: Scene, row: Row) -> Row:
    """What an earlier state of the scene has of a row, in the places of the row."""
    part = _Part(scene, row.first, row.last)
    labels = [label for label in part.labels if label.role != "open"]
    return replace(row, lanes=part.lanes, bars=part.bars, labels=labels, arrows=part.arrows, marks=part.marks)


def _breaks(scene: Scene, room: float) -> list[tuple[int, int]]:
    """The first and the last point of each row, at the least cost."""
    count, prices = len(scene.note_at), _prices(scene)
    reaches = _Part(scene, 0, count - 1).reaches()
    costs, froms = [0] + [inf] * count, [0] * (count + 1)
    for end in shown("placing", range(1, count + 1)):
        low, high = reaches[end - 1]
        for begin in range(end - 1, -1, -1):
            low, high = min(low, reaches[begin][0]), max(high, reaches[begin][1])
            if begin < end - 1 and high - low > room:
                break
            cost = costs[begin] + prices[begin]
            if cost < costs[end]:
                costs[end], froms[end] = cost, begin
    found, end = [], count
    while end:
        found.append((froms[end], end - 1))
        end = froms[end]
    return found[::-1]


def _prices(scene: Scene) -> list[int]:
    """What it costs to begin a row at each point."""
    count, notes = len(scene.note_at), scene.note_at
    prices = [ROW_COST + NOTE_COST * (point > 0 and notes[point] == notes[point - 1]) for point in range(count)]
    spans = [(bar.first, bar.last, BAR_COST) for bar in scene.bars]
    spans += [(lane.first, lane.closed, LANE_COST) for lane in scene.lanes.values() if lane.closed or lane.is_open]
    for first, last, price in spans:
        for point in range(first + 1, count if last is None else last + 1):
            prices[point] += price
    return prices


class _Part:
    """What of a scene lies between two points."""

    def __init__(self, scene: Scene, first: int, last: int) -> None:
        self.scene, self.first, self.last = scene, first, last
        self.base = first - 1 if first else first
        self.lanes = [lane for lane in scene.ordered() if lane.first <= last and first <= lane.seen]
        self.bars = [bar for bar in scene.bars if bar.first <= last and (bar.last is None or first <= bar.last)]
        self.arrows = [arrow for arrow in scene.arrows if first <= arrow.point <= last]
        self.marks = [mark for mark in scene.marks if first <= mark.point <= last]
        self.labels = [label for label in scene.labels if first <= label.point <= last]
        self.labels += [self._title(bar) for bar in self.bars]
        self.labels.sort(key=lambda label: label.point)

    def _title(self, bar: Bar) -> Label:
        """What stands over a bar, with dots where it began in an earlier row."""
        text = bar.title() if bar.first >= self.first else f".. {bar.title()}"
        return Label(bar.lane, "top", max(bar.first, self.base), text, "title", 0, width(text, LABEL_SIZE), "start")

    def _demands(self) -> Iterator[Demand]:
        """What has to lie how far apart."""
        by_row: dict[tuple[int, str], list[Label]] = {}
        for label in self.labels:
            by_row.setdefault((id(label.lane), label.row), []).append(label)
        for labels in by_row.values():
            if labels[0].point > self.base:
                yield self.base, labels[0].point, labels[0].left
            for one, next_one in zip(labels, labels[1:]):
                yield one.point, next_one.point, one.right + next_one.left + BETWEEN_LABELS
        for bar in self.bars:
            room = max(width(text, LABEL_SIZE) for text in (bar.title(), bar.reply))
            yield max(bar.first, self.base), self.last if bar.last is None else min(bar.last, self.last), room
        for arrow in self.arrows:
            for lane, row in self._crossed(arrow):
                yield from _around(arrow.point, by_row.get((id(lane), row), []))
        yield from self._between_notes()

    def _between_notes(self) -> Iterator[Demand]:
        """A note's part begins behind the signs of the one before."""
        signs = {label.point: label.right for label in self.labels if label.row == "bar"}
        for point in range(self.first, self.last):
            if self.scene.note_at[point] != self.scene.note_at[point + 1]:
                for before in range(max(self.first, point - 4), point + 1):
                    yield before, point + 1, signs.get(before, 0) + BEFORE_NOTE + 6

    def _crossed(self, arrow: Arrow) -> list[tuple[Lane, str]]:
        """The rows of labels that an arrow crosses."""
        near, far = ("top", "low") if arrow.goes_up() else ("low", "top")
        low, high = sorted((arrow.lane.order(), arrow.target.order()))
        between = [lane for lane in self.lanes if low < lane.order() < high]
        whole = [(lane, row) for lane in between for row in ("top", "bar", "low")]
        return [(arrow.lane, near), (arrow.target, far), *whole]

    def places(self) -> list[float]:
        """The places of the points, the first of which is at 0. What is too close is drawn apart evenly."""
        gaps: list[float] = [LEAST] * (self.last - self.base)
        short = [(high - low, low, high, room) for low, high, room in self._demands() if room > LEAST * (high - low)]
        for count, low, high, room in sorted(short):
            low, high = low - self.base, high - self.base
            lacking = room - sum(gaps[low:high])
            for gap in range(low, high if lacking > 0 else low):
                gaps[gap] += lacking / count
        return list(accumulate(gaps, initial=0))

    def reaches(self) -> list[tuple[float, float]]:
        """How far to the left and to the right each point with its labels reaches."""
        reaches = [(place, place + LEAST / 2) for place in self.places()]
        places = [place for place, _ in reaches]
        for label in self.labels:
            at = label.point - self.base
            low, high = reaches[at]
            reaches[at] = min(low, places[at] - label.left), max(high, places[at] + label.right)
        return reaches

    def row(self, left: float) -> Row:
        reaches, edge = self.reaches(), left - EDGE * (self.base < self.first)
        shift = max(edge, edge - min(low for low, _ in reaches))
        places = [shift + place for place in self.places()]
        right = shift + max(high for _, high in reaches) + MARGIN
        numbers = [lane.number for lane in self.lanes]
        kept = (numbers, self.lanes, self.bars, self.labels, self.arrows, self.marks)
        return Row(self.base, self.first, self.last, places, *kept, right)


def _around(point: int, labels: list[Label]) -> Iterator[Demand]:
    """What the nearest labels before and behind an arrow demand of it."""
    before = [label for label in labels if label.point < point]
    behind = [label for label in labels if label.point > point]
    if before:
        yield before[-1].point, point, before[-1].right + BESIDE_ARROW
    if behind:
        yield point, behind[0].point, behind[0].left + BESIDE_ARROW
