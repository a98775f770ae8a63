"""Draws a history as its lines stand, though no order may explain them."""
import re
from collections.abc import Sequence

from ..model import Done, Transaction
from ..text import steps
from .cli import ABOUT_TRACE
from .draw import picture
from .events import Moment, Story, printable
from .fonts import width
from .part import MOST_ITEMS
from .program import Failed
from .scene import LABEL_SIZE, Scene

# The most pixels of a word of an operation, so that all numbers of 20 digits are whole, and of the values of a list.
MOST_WORD, MOST_LIST = 168, 300


def _word(word: str) -> str:
    """A word that a picture can have; of a longer one its two ends."""
    word = printable(word).replace(" ", "\N{REPLACEMENT CHARACTER}")
    cut, kept = word, min(len(word) // 2, MOST_WORD)
    while kept and width(cut, LABEL_SIZE) > MOST_WORD:
        kept -= 1
        cut = f"{word[:kept]}..{word[-kept:]}"
    return cut


def _values(words: Sequence[str]) -> str:
    """The values of a list; of a longer one those at its two ends."""
    first, last = ([_word(it) for it in some] for some in (words[:MOST_LIST], words[-MOST_LIST:]))
    cut, kept = " ".join(first), min(len(words) // 2, MOST_LIST)
    while kept and width(cut, LABEL_SIZE) > MOST_LIST:
        kept -= 1
        cut = " ".join([*first[:kept], "..", *last[len(last) - kept:]])
    return f"[{cut}]"


def shortened(words: str) -> str:
    """An operation or a reply, or both, as a picture has room for it."""
    return re.sub(r"\[([^\[\]]*)\]|\S+", lambda it: _word(it[0]) if it[1] is None else _values(it[1].split()), words)


def _line(told: str) -> str:
    """A line of what is told of an anomaly. An operation in it is not broken into two lines."""
    return re.sub(r"`([^`]+)`", lambda it: f"`{shortened(it[1])}`".replace(" ", "\u00a0"), printable(told).strip())


def story(transactions: Sequence[Transaction]) -> Story:
    """The story of a history. Commits are counted by their lines; an aborted transaction undoes what it did at its end."""
    moments: list[Moment] = []
    commits = 0
    for one, it in steps(transactions):
        if isinstance(it, Done):
            told = [("whole", shortened(it.asked), f"done {shortened(it.reply)}")]
        elif it == "abort":
            told = [*[("back", "", "undone")] * len(one.done), ("abort", "", "aborted")]
        else:
            commits += it == "commit"
            told = [(it, "", f"begun {one.number}" if it == "begin" else f"committed {commits}")]
        moments += [Moment(kind, one.number, asked, answer, 0, ("the history", len(moments))) for kind, asked, answer in told]
    seen = [it.effect.seen[0] for one in transactions for it in one.done if it.effect.seen]
    return Story(moments, [], [], reads={_word(str(name)): str(kind) for kind, name in seen})


def picture_of_history(transactions: Sequence[Transaction], title: str, told: Sequence[str] = ()) -> str:
    """The SVG of a history, with what is told of it under the title."""
    found = story(transactions)
    if len(found.moments) > MOST_ITEMS:
        raise Failed(f"the picture would have {len(found.moments):,} items, and it has room for {MOST_ITEMS:,}")
    if len({one.number for one in transactions}) < len(transactions):
        raise Failed("there is no picture, as two transactions have one number")
    return picture(Scene(found), printable(title), "\n".join([ABOUT_TRACE, *map(_line, told)]))
