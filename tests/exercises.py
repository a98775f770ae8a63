"""Exercises: what docs/ANSWERS.md shows is what the program writes of what docs/EXERCISES.md asks."""
import re

from harness import ROOT, Program, expect, holds, match, same, test

EXERCISES, ANSWERS = ROOT / "docs/EXERCISES.md", ROOT / "docs/ANSWERS.md"
# How many exercises there are.
COUNT = 12
# How a page or an exercise says by which command a block is run.
SAID = r"by\s+`mltx\s+([^`]*)FILE`"


def parts_of(text: str, heading: str) -> dict[int, str]:
    """The parts of a document under the headings of this pattern, by the number in it."""
    pieces = re.split(rf"(?m)^#+ {heading}.*\n", text)
    return {int(number): re.split(r"(?m)^#", body)[0] for number, body in zip(pieces[1::2], pieces[2::2])}


def blocks_of(text: str) -> list[str]:
    """The indented blocks of a text, without their indents."""
    found = re.findall(r"(?m)(?:^    .*\n)+", text)
    return [re.sub(r"(?m)^    ", "", block) for block in found]


def asked_and_answered(exercise: str, answer: str) -> list[tuple[str, str]]:
    """What is to be run, and what is written of it: the blocks of an exercise and those of its answer, in the same order. Where
    the exercise asks for a schedule, both stand in the answer, in turns."""
    asked, answered = blocks_of(exercise), blocks_of(answer)
    if not asked:
        asked, answered = answered[::2], answered[1::2]
    same(len(answered), len(asked), "the blocks that are answered")
    return list(zip(asked, answered))


def run_as_said(mltx: Program, exercise: str, given: str, wanted: str) -> None:
    """The program writes just this, where it is called as the exercise says, or else the page. A fault goes to standard error."""
    said = re.search(SAID, exercise) or match(SAID, EXERCISES.read_text())
    is_fault = wanted.startswith("mltx: ")
    ran = mltx.run(*said[1].split(), mltx.file("given", given))
    expect(ran, status=int(is_fault), out="" if is_fault else wanted, err=wanted if is_fault else "", what=given)


@test(seconds=1)
def each_exercise_is_answered(mltx: Program) -> None:
    """Each schedule, script and trace of both pages is run, and all that is written of it is compared."""
    asked, answered = EXERCISES.read_text(), ANSWERS.read_text()
    exercises, answers = parts_of(asked, r"(\d+)\. "), parts_of(answered, r"Answer (\d+)")
    same((list(exercises), list(answers)), (list(range(1, COUNT + 1)),) * 2, "the exercises, and the answers")
    pairs = {number: asked_and_answered(exercises[number], answers[number]) for number in exercises}
    holds(all(pairs.values()), "each exercise has something to run")
    shown = len(blocks_of(asked) + blocks_of(answered))
    same(sum(2 * len(found) for found in pairs.values()), shown, "the blocks that are run or compared")
    for number, found in pairs.items():
        for given, wanted in found:
            run_as_said(mltx, exercises[number], given, wanted)
