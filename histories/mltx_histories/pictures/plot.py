"""Draws a plot: one line a system over a number, and beside its end its name and what it came to."""
import math
from collections.abc import Iterator, Sequence
from typing import NamedTuple
from xml.sax.saxutils import escape

from .draw import line, shape, text
from .fonts import FAMILY, wrapped
from .layout import MARGIN

WIDE, HIGH, TITLE_SIZE, SIZE, LINE = 860, 340, 20, 13, 18
# Left and right of the plot itself, and between its right edge and the names.
BEFORE, BEHIND, TO_NAMES = 70, 210, 26
# How many classes of curves there are, each with a colour of its own, on a light ground and on a dark one.
LIGHT = ["#00568f", "#a32a00", "#b56a00", "#5b2a86", "#00543d"]
DARK = ["#7cc4f4", "#ff9a76", "#f0c04a", "#c9a2ee", "#6fd3ad"]
MOST_TICKS = 6


def _strokes(colours: Sequence[str]) -> str:
    return "\n".join(
        f".curve-{at} {{ stroke: {colour} }}\n.point-{at}, .name-{at} {{ fill: {colour} }}" for at, colour in enumerate(colours)
    )


STYLE = f"""
text {{ font-family: {FAMILY}; font-size: {SIZE}px; fill: #1a1a1a }}
.picture {{ font-size: {TITLE_SIZE}px; font-weight: bold }}
.about, .axis {{ fill: #4d4d4d }}
.grid {{ stroke: #d9dde3; stroke-width: 1 }}
.edge {{ stroke: #6b6b6b; stroke-width: 1.5 }}
.curve {{ fill: none; stroke-width: 2.4 }}
.limit {{ fill: none; stroke: #6b6b6b; stroke-width: 1.8; stroke-dasharray: 6 4 }}
.lead {{ stroke: #6b6b6b; stroke-width: 1 }}
{_strokes(LIGHT)}
@media (prefers-color-scheme: dark) {{
.ground {{ fill: #14181d }}
text {{ fill: #ececec }}
.about, .axis {{ fill: #b8bec6 }}
.grid {{ stroke: #313840 }}
.edge, .limit, .lead {{ stroke: #98a0aa }}
{_strokes(DARK)}
}}
"""


class Curve(NamedTuple):
    """A name, and the values from left to right. One that is a limit is dashed, and has no points."""

    name: str
    values: list[tuple[float, float]]
    is_limit: bool = False


def _step(most: float) -> float:
    """The distance of the marks of an axis: 1, 2 or 5, or some tens, hundreds .. of these."""
    least = max(most, 1) / MOST_TICKS
    power: float = 10 ** math.floor(math.log10(least))
    return next(power * factor for factor in (1, 2, 5, 10) if power * factor >= least)


class _Frame:
    """Where values lie in the picture. Both axes begin at 0."""

    def __init__(self, curves: Sequence[Curve], top: float) -> None:
        self.left, self.right, self.top, self.bottom = BEFORE, WIDE - BEHIND, top, top + HIGH
        self.across = sorted({x for curve in curves for x, _ in curve.values})
        most = max(y for curve in curves for _, y in curve.values)
        self.step = _step(most)
        self.most = self.step * max(1, math.ceil(most / self.step))

    def x(self, value: float) -> float:
        return self.left + (self.right - self.left) * value / self.across[-1]

    def y(self, value: float) -> float:
        return self.bottom - (self.bottom - self.top) * value / self.most

    def axes(self, across: str, up: str) -> Iterator[str]:
        """The marks of both axes, and what each counts."""
        for count in range(round(self.most / self.step) + 1):
            y = self.y(count * self.step)
            yield line("grid" if count else "edge", self.left, y, self.right, y)
            yield text(self.left - 8, y + 4, f"{count * self.step:,.0f}", "axis", "end")
        for value in self.across:
            yield line("edge", self.x(value), self.bottom, self.x(value), self.bottom + 5)
            yield text(self.x(value), self.bottom + 20, f"{value:g}", "axis", "middle")
        yield text((self.left + self.right) / 2, self.bottom + 40, across, "axis", "middle")
        yield text(MARGIN, self.top - 14, up, "axis")


def _curve(frame: _Frame, curve: Curve, at: int) -> Iterator[str]:
    places = [(frame.x(x), frame.y(y)) for x, y in curve.values]
    path = "M" + "L".join(f"{x:.1f} {y:.1f}" for x, y in places)
    yield shape("path", class_="limit" if curve.is_limit else f"curve curve-{at % len(LIGHT)}", d=path)
    if not curve.is_limit:
        yield from (shape("circle", class_=f"point point-{at % len(LIGHT)}", cx=x, cy=y, r=4) for x, y in places)


def _names(frame: _Frame, curves: Sequence[Curve]) -> Iterator[str]:
    """The names, from the lowest up, each as near to the end of its curve as those below it let it be."""
    free = frame.bottom
    for curve in sorted(curves, key=lambda it: it.values[-1][1]):
        x, y = (place(value) for place, value in zip((frame.x, frame.y), curve.values[-1]))
        free = min(y, free)
        yield line("lead", x + 7, y, frame.right + TO_NAMES - 4, free)
        role = "axis" if curve.is_limit else f"name-{curves.index(curve) % len(LIGHT)}"
        yield text(frame.right + TO_NAMES, free + 4, f"{curve.name}: {curve.values[-1][1]:,.0f}", role)
        free -= LINE


def _paragraph(words: str, size: float, role: str, top: float, bold: bool = False) -> Iterator[str]:
    for at, part in enumerate(wrapped(words, size * (1.13 if bold else 1), WIDE - 2 * MARGIN)):
        yield text(MARGIN, top + at * (size + 6), part, role)


def picture(title: str, about: str, across: str, up: str, curves: Sequence[Curve]) -> str:
    """The whole SVG: a title, lines about it, what both axes count, and the curves, of which each has a value."""
    heading = list(_paragraph(title, TITLE_SIZE, "picture", 34, bold=True))
    top = 34 + len(heading) * (TITLE_SIZE + 6)
    told = list(_paragraph(about, SIZE, "about", top))
    frame = _Frame(curves, top + len(told) * (SIZE + 6) + 30)
    drawn = [*frame.axes(across, up), *(it for at, curve in enumerate(curves) for it in _curve(frame, curve, at))]
    high = frame.bottom + 56
    return "\n".join([
        f'<svg xmlns="http://www.w3.org/2000/svg" width="{WIDE}" height="{high:.0f}" viewBox="0 0 {WIDE} {high:.0f}" '
        f'role="img" aria-label="{escape(title)}">',
        f"<title>{escape(title)}</title>",
        f"<style>{STYLE}</style>",
        f'<rect class="ground" width="{WIDE}" height="{high:.0f}" fill="#ffffff"/>',
        *heading, *told, '<g class="plot">', *drawn, *_names(frame, curves), "</g>",
        "</svg>\n",
    ])
