"""The legend: what each operation and each sign means, of those alone that occur."""
from collections.abc import Iterator

from . import draw
from .fonts import width
from .layout import MARGIN
from .scene import Scene

SAMPLE, BETWEEN, LINE = 40, 24, 26
# What an operation asks for.
ASKED = {
    "open": "opens account {}",
    "close": "closes account {}",
    "deposit": "puts {1} into account {0}",
    "withdraw": "takes {1} out of account {0}",
    "balance": "asks for the balance of account {}",
    "add": "puts {1} into set {0}",
    "remove": "takes {1} out of set {0}",
    "has": "asks whether {1} is in set {0}",
    "size": "asks how many are in set {}",
    "up": "adds {1} to counter {0}",
    "down": "takes {1} from counter {0}",
    "read": "asks for {kind} {}",
    "write": "puts {1} into register {0}",
    "append": "puts {1} behind list {0}",
}
# The signs in their order, with what they mean.
SIGNS = {
    "begin": "a transaction begins",
    "operation": "an operation, from its call to its reply",
    "tick": "a step",
    "held": "holds what it did, up to its end",
    "waiting": "waits: its step needs a page that a running operation of the other holds",
    "blocked": "is blocked: with the reply that it would get, it conflicts with what the other holds",
    "still": "stands still",
    "cancelled": "the operation is dropped",
    "refused": "refused: nothing is done",
    "undo": "an operation is undone",
    "committed": "commits: its changes stay",
    "aborted": "ends, and none of its changes stays",
}


def _sample(kind: str, x: float, y: int) -> list[str]:
    """A sample of a sign, `SAMPLE` pixels wide, around y."""
    if kind in ("operation", "undo", "still"):
        return [draw.box(kind, x, y - 8, SAMPLE, 16, 0 if kind == "still" else 3)]
    if kind == "tick":
        return [draw.box("operation", x, y - 8, SAMPLE, 16, 3), draw.line("tick", x + 20, y - 5, x + 20, y + 5)]
    if kind == "held":
        return [draw.box("held", x, y - 6, SAMPLE, 12), draw.line("life", x, y, x + SAMPLE, y)]
    if kind in ("waiting", "blocked"):
        arrow = [draw.line(kind, x + 32, y + 11, x + 32, y - 3), draw.head(kind, x + 32, y - 11, True)]
        return [draw.sign(kind, x + 10, y), *arrow]
    if kind in ("committed", "aborted"):
        return [draw.box(kind, x, y - 8, SAMPLE, 16, 8)]
    return [draw.sign(kind, x + SAMPLE / 2, y)]


def asked(operation: str, reads: dict[str, str] | None = None) -> str:
    """What an operation asks for, in words."""
    name, *words = operation.split()
    return ASKED[name].format(*words, kind=(reads or {}).get(words[0], "counter"))


def _operations(scene: Scene) -> Iterator[str]:
    """The first operation of each name, with what it asks for; of reads the first one of each kind."""
    first, reads = dict[str, str](), scene.story.reads or {}
    for bar in scene.bars:
        if bar.kind == "operation":
            verb, name = bar.text.split()[:2]
            first.setdefault(f"{verb} {reads.get(name)}" if verb == "read" else verb, bar.text)
    for operation in first.values():
        yield f"`{operation}` {asked(operation, reads)}"


def least_width(scene: Scene) -> float:
    """How wide a picture is at least, so that each operation of the legend has room."""
    return max((width(words, draw.NOTE_SIZE) + 2 * MARGIN for words in _operations(scene)), default=0)


def drawn(scene: Scene, top: int, wide: float) -> tuple[list[str], int]:
    """The legend from `top` down, and where the picture ends."""
    kinds = scene.kinds()
    signs = SIGNS if "tick" in kinds else {**SIGNS, "operation": "an operation with its reply"}
    items = [("", words) for words in _operations(scene)] + [it for it in signs.items() if it[0] in kinds]
    if not items:
        return [], top
    shapes = [draw.line("life", MARGIN, top - 6, wide - MARGIN, top - 6)]
    x: float = MARGIN
    top += 16
    for at, (kind, words) in enumerate(items):
        room = width(words, draw.NOTE_SIZE) + (SAMPLE + 8 if kind else 0)
        begins_signs = kind and at and not items[at - 1][0]
        if x > MARGIN and (begins_signs or x + room > wide - MARGIN):
            x, top = MARGIN, top + LINE
        shapes += _sample(kind, x, top) if kind else []
        shapes.append(draw.text(x + (SAMPLE + 8 if kind else 0), top + 5, words, "key"))
        x += room + BETWEEN
    return shapes, top + 24
