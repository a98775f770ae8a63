"""Takes a part of a trace that can be drawn by itself."""
from dataclasses import replace

from .events import Story
from .program import Failed

# The most items of a picture of a trace.
MOST_ITEMS = 2_000


def part(name: str, story: Story, first: int | None, last: int | None, numbers: list[int]) -> Story:
    """The items from one line to another, of these transactions or, if none is named, of all. What these transactions did before
    is drawn too, so that it is known what they hold."""
    until = [it for it in story.moments[:last] if not numbers or it.number in numbers]
    drawn = {it.number for it in until if it.place[1] >= (first or 1)}
    moments = [it for it in until if it.number in drawn]
    if story.moments and not moments:
        raise Failed(f"{name}: it has {len(story.moments):,} items, and none of them is asked for")
    if len(moments) > MOST_ITEMS:
        why = f"{len(moments):,} items would be drawn, and a picture has at most {MOST_ITEMS:,}"
        raise Failed(f"{name}: {why}: choose some by --from N, --to N or --tx N[,N..]")
    return replace(story, moments=moments, is_part=len(moments) < len(story.moments))
