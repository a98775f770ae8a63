"""What holds after each moment of a story: the objects as the committed transactions leave them and as the pages have
them, both told by the program, and which of the open transactions waits for which."""
from __future__ import annotations

from collections.abc import Iterator
from dataclasses import dataclass, replace

from .events import Moment, Story
from .program import Program, Refused
from .scene import Arrow, Bar, Done, Lane, Scene, in_the_way

# Each object, in the order of the text of a base, with what it has: `account 1` has `50`, `set 4` has `{9, 12}`.
Base = dict[str, str]


@dataclass(frozen=True)
class Wait:
    """A transaction was told that it waits for another one, or is blocked by it. `here` is what that one has there, as
    far as the answer tells. `is_over` says that it is gone, so that a next step may go on; `is_dropped` that
    the operation that waited is, as `whole` drops it."""

    kind: str
    number: int
    target: int
    bar: Bar
    here: list[Done]
    is_over: bool
    is_dropped: bool


@dataclass(frozen=True)
class State:
    """What holds after some of the moments. A base that the program refuses to tell is None, and `fault` says why.
    `depth` is that of the directory, where it is told."""

    scene: Scene
    committed: Base | None
    pages: Base | None
    depth: str
    fault: str
    waits: list[Wait]

    def open(self) -> list[Lane]:
        """The open transactions, by their numbers."""
        return [lane for lane in self.scene.ordered() if lane.is_open]

    def circle(self) -> list[int]:
        """The transactions of which each waits for the next one, and the last for the first; or none."""
        after = {wait.number: wait.target for wait in self.waits if not wait.is_over and not wait.is_dropped}
        for first in after:
            path = [first]
            while path[-1] in after and after[path[-1]] not in path:
                path.append(after[path[-1]])
            if after.get(path[-1]) == first:
                return path
        return []


def base(lines: list[str]) -> Base:
    """The objects of the text of a base."""
    found: Base = {}
    members: dict[str, list[str]] = {}
    for kind, number, value in map(str.split, lines):
        if kind == "element":
            members.setdefault(f"set {number}", []).append(value)
            found[f"set {number}"] = f"{{{', '.join(members[f'set {number}'])}}}"
        else:
            found[f"{kind} {number}"] = value
    return found


def states(story: Story, is_trace: bool, program: Program) -> Iterator[State]:
    """What holds before the first moment, and after each."""
    for count in range(len(story.moments) + 1):
        part = replace(story, moments=story.moments[:count])
        yield _state(part, is_trace, program)


def _state(story: Story, is_trace: bool, program: Program) -> State:
    scene = Scene(story)
    committed, pages, depth, fault = None, None, "", ""
    try:
        committed, depth = _of_trace(story, program) if is_trace else _of_schedule(story, program)
    except Refused as refused:
        fault = str(refused)
    try:
        pages = _checked(program, _standing(scene)) if committed is not None else None
    except Refused:
        fault = "`mltx check` does not accept the replies of what stands, as one transaction that does all of it in this order"
    return State(scene, committed, pages, depth, fault, list(_waits(scene)))


def _of_schedule(story: Story, program: Program) -> tuple[Base, str]:
    """What the committed transactions of a schedule leave, and the depth of the directory."""
    schedule = "".join(f"{moment.event()}\n" for moment in story.moments)
    *told, depth = program.steps(schedule.encode()).decode().splitlines()
    return base(told[len(story.moments):]), depth.split()[1]


def _of_trace(story: Story, program: Program) -> tuple[Base, str]:
    """What the committed transactions of a trace leave. Of its directory nothing is told."""
    return _checked(program, "".join(f"{trace_line(moment)}\n" for moment in story.moments)), ""


def _checked(program: Program, trace: str) -> Base:
    """The base that the committed transactions of a trace lead to."""
    lines = program.check(trace.encode()).decode().splitlines()
    return base([line for line in lines if not line.startswith("serial ")])


def trace_line(moment: Moment) -> str:
    """The line of a trace that a moment is."""
    told = moment.answer.partition(" ")[2]
    if moment.kind == "whole":
        return f"op {moment.number} {moment.operation} {told}"
    if moment.kind == "begin":
        return f"begin {told}"
    return f"commit {moment.number} {told}" if moment.kind == "commit" else f"{moment.kind} {moment.number}"


def _standing(scene: Scene) -> str:
    """A trace in which one transaction does all that stands, of transactions that committed or are open, in the order
    in which it was done. What `check` says of it is what the pages have, but for operations that run."""
    lanes = [lane for lane in scene.lanes.values() if lane.is_open or lane.commit]
    done = sorted((it for lane in lanes for it in lane.standing), key=lambda it: it.point)
    return "".join(["begin 1\n", *(f"op 1 {it.operation} {it.reply}\n" for it in done), "commit 1 1\n"])


def _waits(scene: Scene) -> Iterator[Wait]:
    """Who was told to wait and has not been told else, and who was told so at last and lost its operation."""
    for arrow in scene.arrows:
        bar = [it for it in scene.bars if it.lane is arrow.lane and it.first <= arrow.point][-1]
        stands = any(pause.since == arrow.point and pause.until is None for pause in bar.still)
        is_last = arrow.point == len(scene.note_at) - 1
        if bar.lane.bar is bar and stands or bar.lane.bar is None and is_last:
            yield _wait(arrow, bar)


def _wait(arrow: Arrow, bar: Bar) -> Wait:
    lane, target = arrow.lane, arrow.target
    runs = target.bar if target.bar and target.bar.first <= arrow.point else None
    if arrow.kind == "blocked":
        here, is_over = in_the_way(target, bar.text), target.closed is not None
    else:
        here, is_over = ([Done(runs.title(), "", runs.first)] if runs else []), runs is None
    assert lane.number is not None and target.number is not None
    return Wait(arrow.kind, lane.number, target.number, bar, here, is_over, lane.bar is None)
