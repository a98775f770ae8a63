"""What is to be seen of a story: lanes, bars, marks, arrows and labels, each at its points of time. Points are counted
from 0; how far apart they are is left to the layout."""
from __future__ import annotations

from dataclasses import dataclass, field
from typing import NamedTuple, NoReturn

from .events import Faulty, Moment, Story, meet
from .fonts import width

LABEL_SIZE, PILL_SIZE, PILL_PAD = 13, 12, 7
# How many operations a label names before it counts the rest.
MOST_NAMED = 3
# The numbers of refusals that end an operation that is running; by any other the event did nothing.
ENDING = ("1", "2")


@dataclass
class Pause:
    """What stood still from one point to another, which is not known yet while it does."""

    since: int
    until: int | None = None


class Done(NamedTuple):
    """An operation with its reply, and the point at which it was told."""

    operation: str
    reply: str
    point: int


@dataclass
class Bar:
    """An operation (`operation`), or the undo of one (`undo`), from its first point to its last. It stood still
    in each of `still`."""

    lane: Lane
    kind: str
    first: int
    text: str
    last: int | None = None
    reply: str = ""
    ticks: list[int] = field(default_factory=list)
    still: list[Pause] = field(default_factory=list)

    def title(self) -> str:
        return f"undo {self.text}" if self.kind == "undo" else self.text


@dataclass
class Lane:
    """A transaction. `closed` is the point of its end, `commit` the number under which it committed, `seen` the last
    point at which something is drawn in it. `standing` is what it did and has not undone, `held` all that it did."""

    number: int | None
    first: int
    is_open: bool
    closed: int | None = None
    commit: int | None = None
    seen: int = 0
    bar: Bar | None = None
    undoing: bool = False
    standing: list[Done] = field(default_factory=list)
    held: list[Done] = field(default_factory=list)
    held_from: int | None = None

    def name(self) -> str:
        return "no transaction" if self.number is None else f"transaction {self.number}"

    def order(self) -> int:
        return -1 if self.number is None else self.number


@dataclass(frozen=True)
class Label:
    """A text in a row of a lane, `top`, `bar` or `low`. It takes so many pixels left and right of its point."""

    lane: Lane
    row: str
    point: int
    text: str
    role: str
    left: float
    right: float
    anchor: str


@dataclass(frozen=True)
class Arrow:
    """From a lane to that of the transaction that it waits for (`waiting`) or is blocked by (`blocked`)."""

    kind: str
    lane: Lane
    target: Lane
    point: int

    def goes_up(self) -> bool:
        return self.target.order() < self.lane.order()


@dataclass(frozen=True)
class Mark:
    """A sign at a point: `begin`, `waiting`, `blocked`, `cancelled` or `refused`."""

    kind: str
    lane: Lane
    point: int


class Scene:
    """All that is to be seen. `note_at` has the number of the note of each point."""

    def __init__(self, story: Story) -> None:
        self.story = story
        # By their transactions; that without one has None.
        self.lanes: dict[int | None, Lane] = {}
        self.note_at: list[int] = []
        self.bars: list[Bar] = []
        self.labels: list[Label] = []
        self.arrows: list[Arrow] = []
        self.marks: list[Mark] = []
        self.commits, self.latest = 0, 0
        for moment in story.moments:
            self._tell(moment)
        for lane in self.lanes.values():
            if lane.is_open:
                lane.seen = len(self.note_at) - 1
                self._label(lane, "bar", lane.seen, "still open", "open", "behind")

    def ordered(self) -> list[Lane]:
        """The lanes from top to bottom."""
        return sorted(self.lanes.values(), key=Lane.order)

    def kinds(self) -> set[str]:
        """The kinds of all that occurs, for the legend."""
        found = {mark.kind for mark in self.marks} | {bar.kind for bar in self.bars} | {label.role for label in self.labels}
        found |= {"tick" for bar in self.bars if bar.ticks}
        found |= {"still" for bar in self.bars if any(it.until is None or it.since < it.until for it in bar.still)}
        return found | {"held" for lane in self.lanes.values() if lane.held}

    def _tell(self, moment: Moment) -> None:
        word, _, rest = moment.answer.partition(" ")
        if moment.kind == "begin" and word == "begun":
            self._begin(moment, int(rest))
            return
        lane = self.lanes.get(moment.number)
        if word == "refused":
            self._refuse(lane, moment, rest)
            return
        if lane is None or lane.closed is not None:
            self._fault(moment, f"transaction {moment.number} is not open")
        getattr(self, f"_{moment.kind}")(lane, moment)

    def _fault(self, moment: Moment, why: str) -> NoReturn:
        raise Faulty(*moment.place, f"`{moment.answer}`: {why}")

    def _point(self, moment: Moment, *lanes: Lane) -> int:
        self.note_at.append(moment.note)
        point = len(self.note_at) - 1
        for lane in lanes:
            lane.seen = max(lane.seen, point)
        return point

    def _begin(self, moment: Moment, number: int) -> None:
        if number <= self.latest and self.story.reads is None:
            self._fault(moment, f"the number is not above {self.latest}, which has begun")
        self.latest = number
        lane = self.lanes[number] = Lane(number, len(self.note_at), is_open=True)
        self.marks.append(Mark("begin", lane, self._point(moment, lane)))

    def _refuse(self, lane: Lane | None, moment: Moment, why: str) -> None:
        if lane is None:
            lane = self.lanes[moment.number] = Lane(moment.number, len(self.note_at), is_open=False)
        ends = moment.kind in ("step", "whole") and why.split()[0] in ENDING
        if ends and moment.kind == "whole" and lane.bar is None:
            self._start(lane, "operation", moment.operation, self._point(moment, lane))
        point = self._point(moment, lane)
        self.marks.append(Mark("refused", lane, point))
        self.labels.append(Label(lane, "bar", point, "", "sign", 8, 8, "middle"))
        if lane.bar and ends:
            self._stop(lane.bar, point, moment.answer)
        else:
            self._label(lane, "top", point, f"{moment.kind} {moment.operation}".strip(), "event", "middle")
            self._label(lane, "low", point, moment.answer, "reply", "middle")

    def _call(self, lane: Lane, moment: Moment) -> None:
        if lane.bar or lane.undoing:
            self._fault(moment, f"transaction {lane.number} has an operation that runs, or is undone")
        self._start(lane, "operation", moment.operation, self._point(moment, lane))

    def _whole(self, lane: Lane, moment: Moment) -> None:
        self._call(lane, moment)
        self._step(lane, moment)
        if lane.bar:
            self._stop(lane.bar, lane.seen)

    def _back(self, lane: Lane, moment: Moment) -> None:
        """A line of a trace: an operation is undone."""
        if not lane.standing:
            self._fault(moment, f"transaction {lane.number} has no operation left")
        lane.undoing = True
        bar = self._start(lane, "undo", lane.standing.pop().operation, self._point(moment, lane))
        self._stop(bar, self._point(moment, lane))

    def _step(self, lane: Lane, moment: Moment) -> None:
        bar, word = lane.bar, moment.answer.split()[0]
        may_be_told = ("undone", "aborted") if lane.undoing else ("done", "blocked")
        if bar is None or word not in (*may_be_told, "going", "waiting"):
            self._fault(moment, f"transaction {lane.number} has nothing that runs and can be told so")
        point = self._point(moment, lane)
        self._resume(bar, point)
        if word == "going":
            bar.ticks.append(point)
        elif word == "done":
            done = Done(bar.text, moment.answer.partition(" ")[2], point)
            lane.standing.append(done)
            lane.held.append(done)
            lane.held_from = point if lane.held_from is None else lane.held_from
            self._stop(bar, point, done.reply)
        elif word == "undone":
            lane.standing.pop()
            self._stop(bar, point, word)
            self._take_back(lane, moment, point)
        elif word == "aborted":
            bar.text = _named([it.operation for it in lane.standing[::-1]], " then ")
            self._stop(bar, point)
            self._close(lane, point, word, "aborted")
        else:
            self._stand_still(bar, moment, point)

    _undo = _step

    def _stand_still(self, bar: Bar, moment: Moment, point: int) -> None:
        lane = bar.lane
        kind, _, number = moment.answer.split()
        target = self.lanes.get(int(number))
        if target is None or target is lane or target.closed is not None:
            self._fault(moment, f"transaction {number} is not another one that is open")
        arrow = Arrow(kind, lane, target, point)
        self.arrows.append(arrow)
        self.marks.append(Mark(kind, lane, point))
        bar.still.append(Pause(point))
        anchor = "middle" if moment.kind != "whole" else "end"
        self._label(lane, "low", point, moment.answer, "reply", anchor if arrow.goes_up() else "beside")
        held = "the page"
        if kind == "blocked":
            here = in_the_way(target, bar.text)
            if not here:
                self._fault(moment, f"transaction {number} has done nothing to what `{bar.text}` is on")
            held = _named([it.operation for it in here])
        self._label(target, "low" if arrow.goes_up() else "top", point, f"holds {held}", "event", "beside")
        target.seen = max(target.seen, point)

    def _cancel(self, lane: Lane, moment: Moment) -> None:
        if lane.bar is None or lane.undoing:
            self._fault(moment, f"transaction {lane.number} has no operation that runs")
        point = self._point(moment, lane)
        self._resume(lane.bar, point)
        self.marks.append(Mark("cancelled", lane, point))
        self._stop(lane.bar, point, moment.answer)

    def _commit(self, lane: Lane, moment: Moment) -> None:
        number = int(moment.answer.split()[1])
        is_next = number == self.commits + 1 or self.story.is_part and number > self.commits
        if lane.bar or lane.undoing or not is_next:
            self._fault(moment, f"transaction {lane.number} can't commit, or not under this number")
        self.commits = lane.commit = number
        self._close(lane, self._point(moment, lane), moment.answer, "committed")

    def _abort(self, lane: Lane, moment: Moment) -> None:
        closes = moment.answer == "aborted"
        if lane.bar or closes == bool(lane.standing):
            left = "an" if lane.standing else "no"
            self._fault(moment, f"transaction {lane.number} has {left} operation left, or one that runs")
        point = self._point(moment, lane)
        if closes:
            self._close(lane, point, moment.answer, "aborted")
        else:
            lane.undoing = True
            self._take_back(lane, moment, point)

    def _take_back(self, lane: Lane, moment: Moment, point: int) -> None:
        if not lane.standing:
            self._fault(moment, f"transaction {lane.number} has no operation left")
        self._start(lane, "undo", lane.standing[-1].operation, point)

    def _start(self, lane: Lane, kind: str, text: str, point: int) -> Bar:
        lane.bar = Bar(lane, kind, point, text)
        self.bars.append(lane.bar)
        return lane.bar

    def _resume(self, bar: Bar, point: int) -> None:
        if bar.still and bar.still[-1].until is None:
            bar.still[-1].until = point

    def _stop(self, bar: Bar, point: int, reply: str = "") -> None:
        bar.lane.bar = None
        self._resume(bar, point)
        bar.last, bar.reply = point, reply
        if reply:
            self._label(bar.lane, "low", point, reply, "reply", "end")

    def _close(self, lane: Lane, point: int, text: str, role: str) -> None:
        lane.closed, lane.is_open = point, False
        room = width(text, PILL_SIZE, bold=True) + 2 * PILL_PAD
        self.labels.append(Label(lane, "bar", point, text, role, 0, room, "middle"))

    def _label(self, lane: Lane, row: str, point: int, text: str, role: str, anchor: str) -> None:
        room = width(text, LABEL_SIZE)
        left, right, anchor = {
            "middle": (room / 2, room / 2, anchor),
            "end": (room, 0, anchor),
            "beside": (-8, room + 16, "start"),
            "behind": (-16, room + 16, "start"),
        }[anchor]
        self.labels.append(Label(lane, row, point, text, role, left, right, anchor))


def in_the_way(target: Lane, operation: str) -> list[Done]:
    """What a transaction did to what the operation is on. The answer `blocked by T` tells no more of it."""
    return [it for it in target.held if meet(it.operation, operation)]


def _named(operations: list[str], between: str = ", ") -> str:
    """The operations in words: the first ones by name."""
    rest = len(operations) - MOST_NAMED
    named = between.join(operations[:MOST_NAMED])
    return f"{named} and {rest} more" if rest > 0 else named
