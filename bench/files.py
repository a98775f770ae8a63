"""What is measured over files: scripts that are run, and traces that are checked."""
from collections.abc import Callable, Iterator
from functools import partial
from pathlib import Path

import texts
from machine import Failed, Words, run, seconds_of
from tools import instructions_of
from works import Bench, Group, Sample, Side, Work

# The words by which a program runs a script.
WordsOf = Callable[[Bench, Path], Words]


def transfers(bench: Bench, count: int, accounts: int) -> tuple[Path, int]:
    """A file of transfers, and how many operations it asks."""
    return bench.file(f"transfers-{count}", lambda dice: texts.transfers(dice, count, accounts))


def same_replies(bench: Bench, out: Path) -> None:
    """Fails where the replies written are not those that were written first for this work."""
    first = bench.folder / "replies-first"
    if not first.exists():
        out.rename(first)
    elif out.read_bytes() != first.read_bytes():
        raise Failed("the two sides of solo do not write the same")


def solo(words_of: WordsOf, bench: Bench, program: Path) -> Sample:
    """How long it takes to read many transfers, run them, and write the replies."""
    file, _ = transfers(bench, *bench.pick((235_000, 80_000), (3_000, 1_000)))
    out = bench.folder / "replies"
    seconds = seconds_of([*words_of(bench, program), file], out)
    same_replies(bench, out)
    return Sample(seconds)


def by_mltx(_bench: Bench, program: Path) -> Words:
    return [program, "solo"]


def by_one_worker(_bench: Bench, program: Path) -> Words:
    return [program, "run", "--workers", 1]


def by_sqlite(bench: Bench, _program: Path) -> Words:
    return [bench.tools.paths["accounts"]]


def solo_works() -> Iterator[Work]:
    sides = (Side("mltx", partial(solo, by_mltx)), Side("SQLite", partial(solo, by_sqlite), ("accounts",)))
    yield Work("solo", "235,000 transfers over 80,000 accounts", "s", sides)


def run_counted(workers: int, counters: int, bench: Bench, program: Path) -> Sample:
    count = bench.pick(96_000, 2_000)
    file, _ = bench.file(f"counted-{counters}", lambda dice: texts.counted(dice, count, counters))
    return Sample(seconds_of([program, "run", "--workers", workers, file]))


def workers_works() -> Iterator[Work]:
    for counters in (3, 50_000):
        one = Side("one worker", partial(run_counted, 1, counters))
        for workers in (2, 4, 8):
            sides = (Side("mltx", partial(run_counted, workers, counters)), one)
            yield Work("workers", f"96,000 scripts on {counters:,} counters, {workers} workers", "s", sides)


def instructions(words_of: WordsOf, bench: Bench, program: Path) -> Sample:
    """How many instructions an operation takes, with all that is read and written for it."""
    file, operations = transfers(bench, *bench.pick((60_000, 20_000), (300, 100)))
    return Sample(instructions_of(bench.tools, [*words_of(bench, program), file]) / operations)


def instructions_works() -> Iterator[Work]:
    sqlite = Side("SQLite", partial(instructions, by_sqlite), ("accounts", "instructions"))
    ways: dict[str, WordsOf] = {"solo": by_mltx, "run --workers 1": by_one_worker}
    for words, words_of in ways.items():
        sides = (Side("mltx", partial(instructions, words_of), ("instructions",)), sqlite)
        yield Work("instructions", f"{words}, 60,000 transfers", "instructions/operation", sides, most_runs=1)


def speed(words: Words, file: Path) -> Sample:
    """How many megabytes of a file are read in a second."""
    return Sample(file.stat().st_size / 1e6 / seconds_of([*words, file]))


def speed_of_check(bench: Bench, program: Path) -> Sample:
    file, _ = transfers(bench, *bench.pick((60_000, 20_000), (300, 100)))
    trace = bench.folder / "trace"
    run([program, "solo", "--trace", trace, file])
    return speed([program, "check"], trace)


def speed_of_parser(bench: Bench, program: Path) -> Sample:
    file, _ = bench.file("unmet", lambda _dice: texts.unmet(bench.pick(15_000_000, 100_000)))
    return speed([program, "solo"], file)


def texts_works() -> Iterator[Work]:
    yield Work("texts", "check of a trace of 60,000 transfers", "MB/s", (Side("mltx", speed_of_check),))
    yield Work("texts", "solo of operations that are not met", "MB/s", (Side("mltx", speed_of_parser),))


def beside_records(accounts: int, bench: Bench, program: Path) -> Sample:
    """How long an operation of a transfer takes with so many accounts open: the time of a run without the transfers is
    taken off."""
    accounts, count = bench.pick((accounts, 100_000), (min(accounts, 300), 300))
    moved, operations = bench.file(f"moved-{accounts}", lambda dice: texts.transfers(dice, count, accounts))
    opened, before = bench.file(f"opened-{accounts}", lambda _dice: texts.opened(accounts))
    seconds = seconds_of([program, "solo", moved]) - seconds_of([program, "solo", opened])
    return Sample(seconds * 1e6 / (operations - before))


def records_works() -> Iterator[Work]:
    for accounts in (100, 1_000, 10_000, 100_000):
        side = Side("mltx", partial(beside_records, accounts))
        yield Work("records", f"an operation of a transfer, {accounts:,} accounts", "microseconds", (side,))


# By its name what a group measures, and its works.
GROUPS = {
    "solo": Group("transfers by scripts, with reading and printing, against SQLite in memory", solo_works),
    "records": Group("how long an operation takes with 100 to 100,000 accounts", records_works),
    "workers": Group("scripts side by side by 2, 4 and 8 workers, against one", workers_works),
    "instructions": Group("instructions an operation, against SQLite", instructions_works),
    "texts": Group("how fast traces are checked and scripts are parsed", texts_works),
}
