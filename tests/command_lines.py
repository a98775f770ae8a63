"""Command lines: what is asked by the words, help and the version, and words that are wrong."""
from collections.abc import Iterable, Sequence

from harness import VERSION, Program, each, expect, holds, lines, same, test

FIRST_RUN = lines("begin|open 1|deposit 1 50|balance 1|commit")
TOLD = lines("opened|done|is 50|committed 1")
EVENTS = lines("begin|whole 1 open 1|commit 1")
EVENTS_TOLD = lines("begun 1|done opened|committed 1|account 1 0|depth 0")
RUN_TOLD = lines("client 0 script 1|opened|done|is 50|committed 1|account 1 50")
TRACE = lines("begin 1|op 1 open 1 opened|commit 1 1")
CHECKED = lines("serial 1|account 1 0")
# Files with names that could be taken for something else.
FILES = {
    **{name: FIRST_RUN for name in ("a.txt", "a b", "-x", "help", "--hash", "--help", "run", "./-")},
    "events": EVENTS,
    **{name: TRACE for name in ("a.trace", "solo", "--trace")},
}
# Words with what is written: the file that is named is read, and standard input, which is faulty, is not.
OF_FILES = [
    (("solo", "a.txt"), TOLD),
    (("solo", "a b"), TOLD),
    (("solo", "help"), TOLD),
    (("solo", "run"), TOLD),
    (("solo", "./-"), TOLD),
    (("solo", "--", "-x"), TOLD),
    (("solo", "--", "--help"), TOLD),
    (("solo", "--hash", "low", "a.txt"), TOLD),
    (("solo", "--hash=mult", "a.txt"), TOLD),
    (("solo", "a.txt", "--hash", "low"), TOLD),
    (("solo", "a.txt", "--trace", "b.txt"), TOLD),
    (("solo", "--trace=b.txt", "--hash=low", "--", "--hash"), TOLD),
    (("steps", "events"), EVENTS_TOLD),
    (("steps", "--hash=mult", "events"), EVENTS_TOLD),
    (("steps", "--trace=b.txt", "events", "--hash=low"), EVENTS_TOLD),
    (("steps", "--explain", "events"), EVENTS_TOLD),
    (("steps", "--hash", "low", "events", "--trace=b.txt", "--explain"), EVENTS_TOLD),
    (("check", "a.trace"), CHECKED),
    (("check", "solo"), CHECKED),
    (("check", "--", "--trace"), CHECKED),
    (("run", "a.txt"), RUN_TOLD),
    (("run", "--workers", "1", "--tries", "1", "a.txt"), RUN_TOLD),
    (("run", "a.txt", "--tries=1000000", "--workers=8", "--hash", "low"), RUN_TOLD),
    (("run", "a.txt", "--trace", "b.txt", "--workers", "02", "--tries", "0010"), RUN_TOLD),
]
# Words by which standard input is read.
OF_STANDARD_INPUT = [
    ((), FIRST_RUN, TOLD),
    (("solo", "-"), FIRST_RUN, TOLD),
    (("solo", "--hash", "low", "-"), FIRST_RUN, TOLD),
    (("solo", "-", "--trace", "b.txt"), FIRST_RUN, TOLD),
    (("steps", "-"), EVENTS, EVENTS_TOLD),
    (("steps", "--trace=b.txt", "--hash=low", "-"), EVENTS, EVENTS_TOLD),
    (("steps", "-", "--explain"), EVENTS, EVENTS_TOLD),
    (("run", "-"), FIRST_RUN, RUN_TOLD),
    (("run", "-", "--tries=1000000", "--workers=8", "--hash", "low"), FIRST_RUN, RUN_TOLD),
    (("check", "-"), TRACE, CHECKED),
]


@test
def file_that_is_named_is_read(mltx: Program) -> None:
    for name, text in FILES.items():
        mltx.file(name, text)
    for words, wanted in OF_FILES:
        (mltx.folder / "b.txt").unlink(missing_ok=True)
        expect(mltx.run(*words, given="no text of any kind\n"), out=wanted, what=" ".join(words))
        asked = any(word.startswith("--trace") for word in words) and words[-1] != "--trace"
        same((mltx.folder / "b.txt").exists(), asked, f"whether there is a trace of {' '.join(words)}")


@test
def standard_input_is_read(mltx: Program) -> None:
    """No words at all are `solo -`, and a file whose name is `-` is not what `-` names."""
    mltx.file("-", "no text of any kind\n")
    for words, given, wanted in OF_STANDARD_INPUT:
        expect(mltx.run(*words, given=given), out=wanted, what=" ".join(words) or "no words")


# What help says of each argument and option.
OF_ARGUMENTS = {
    "<FILE>": "File to read; `-` is standard input",
    "<ADDR>": "IP address and port to listen on, such as `127.0.0.1:7000`",
    "[TABLE]": "Table to print; all of them if it is not given [possible values: account, set, counter]",
}
OF_OPTIONS = {
    "-v, --verbose": "After an error, print a second line with the file or address, the reason and what was expected",
    "--hash <HASH>": "Hash function of the pages [default: mult] [possible values: mult, low]",
    "--trace <FILE>": "Write a trace of the transactions to FILE",
    "--echo": "Print each line of FILE, and its answer beside it",
    "--load <FILE>": "Begin with the accounts, elements and counters of FILE, as `run` prints them, or of a trace",
    "--save <FILE>": "When the server stops, save its accounts, elements and counters in FILE, for --load",
    "--data <FOLDER>": "Keep them and the trace in FOLDER, and begin with what is there, also after a crash",
    "--explain": "After each event that is blocked or waits, print the reason in lines that begin with `#`",
    "--workers <N>": "Run the scripts in N threads that take turns, 1 to 8; more are not faster [default: 4]",
    "--tries <N>": "Answer GaveUp after N waits for other transactions, 1 to 1000000 [default: 10000]",
    "--long": "Check a trace of any length: read it piece by piece, and print while reading",
    "--endless": "Accept connections without limit, and keep no history in memory; not with --limit",
    "--clients <N>": "Let up to N clients be connected with --endless, 1 to 100000 [default: 10000]",
    "--limit <N>": "Exit after N connections, 1 to 1000000 [default: 1]",
    "--sessions <N>": "Serve up to N connections at a time, 1 to 64 [default: 8], or with --endless transactions [default: 64]",
    "--full <FULL>": "Let new clients wait, or refuse them, while all sessions, or --clients, are taken [default: wait] "
    "[possible values: wait, refuse]",
    "--wait <SECONDS>": "Answer GaveUp to operations that wait for SECONDS, up to 86400; 0 = never [default: 0]",
    "--open <SECONDS>": "Close connections whose transaction is open for SECONDS, up to 86400; 0 = never "
    "[default: 0, or 60 with --endless]",
    "--idle <SECONDS>": "Close connections idle for SECONDS, up to 86400; 0 = never [default: 0]",
    "--admin <ADDR>": "Serve the operator's page, JSON and metrics by HTTP at this IP address and port",
    "--until-eof": "Shut down when standard input ends; not with `&`, `nohup` or `< /dev/null`",
    "-h, --help": "Print help",
    "-V, --version": "Print version",
}
OF_A_RUN = ("-v, --verbose", "--hash <HASH>", "--trace <FILE>")
# Of each subcommand: what it does, its argument, its options in their order, and words of the example below them.
HELP = {
    "solo": (
        "Run the scripts of FILE one after another, and print the replies",
        *("<FILE>", (*OF_A_RUN, "--echo", "--load <FILE>"), "solo scripts.txt"),
    ),
    "steps": (
        "Replay a schedule of interleaved transactions step by step; print each answer and the committed state",
        *("<FILE>", (*OF_A_RUN, "--echo", "--explain"), "steps schedule.txt"),
    ),
    "run": (
        "Run the scripts of FILE side by side in threads; print the replies and the committed state",
        *("<FILE>", (*OF_A_RUN, "--echo", "--load <FILE>", "--workers <N>", "--tries <N>")),
        "run scripts.txt --workers 2 --trace trace.txt",
    ),
    "check": (
        "Check a trace: run its committed transactions again, in commit order, and compare every reply",
        *("<FILE>", ("-v, --verbose", "--long"), "check trace.txt"),
    ),
    "serve": (
        "Listen on ADDR and serve clients, which send lines and get an answer to each",
        *("<ADDR>", (*OF_A_RUN, "--load <FILE>", "--save <FILE>", "--data <FOLDER>"), "serve 127.0.0.1:7000 --limit 2"),
    ),
    "tables": (
        "Print which operations conflict, with an example of each conflict",
        *("[TABLE]", ("-v, --verbose",), "tables counter"),
    ),
}
# The groups of options that follow the others.
GROUPS = {
    "serve": {
        "Connections": ("--endless", "--clients <N>", "--limit <N>", "--sessions <N>", "--full <FULL>"),
        "Waits and timeouts": ("--tries <N>", "--wait <SECONDS>", "--open <SECONDS>", "--idle <SECONDS>"),
        "Operation": ("--admin <ADDR>", "--until-eof"),
    },
}
# What the help has to say below that.
BELOW = {
    "serve": (
        "mltx serve 127.0.0.1:7000 --endless --idle 600 --data data --admin 127.0.0.1:7001",
        "mltx: listening on 127.0.0.1:7000",
    ),
}


def in_columns(rows: Iterable[tuple[str, str]]) -> str:
    """Rows of two columns, below each other. A long option without a short one stands below the others."""
    begun = [(f"    {name}" if name.startswith("--") else name, text) for name, text in rows]
    width = max(len(name) for name, _ in begun)
    return "".join(f"  {name:{width}}  {text}\n" for name, text in begun)


def options_text(names: Iterable[str], heading: str = "Options") -> str:
    return f"{heading}:\n" + in_columns((name, OF_OPTIONS[name]) for name in names)


def is_help(mltx: Program, ways: Sequence[tuple[str, ...]], begin: str) -> str:
    """The same text by each way to ask for it, on standard output, and it begins with this one."""
    told = [mltx.run(*words) for words in ways]
    for words, ran in zip(ways, told):
        same((ran.status, ran.err, ran.out), (0, b"", told[0].out), " ".join(words))
    same(told[0].out.decode()[: len(begin)], begin)
    return told[0].out.decode()


@each({f"help-{name}": name for name in HELP})
def help_text(mltx: Program, name: str) -> None:
    about, argument, options, example = HELP[name]
    begin = f"{about}\n\nUsage: mltx {name} [OPTIONS] {argument}\n\n"
    begin += f"Arguments:\n  {argument}  {OF_ARGUMENTS[argument]}\n\n"
    groups = [options_text((*options, "-h, --help")), *(options_text(row, group) for group, row in GROUPS.get(name, {}).items())]
    begin += "\n".join(groups) + f"\nExample: mltx {example}\n"
    told = is_help(mltx, [(name, "--help"), (name, "-h"), ("help", name)], begin)
    missing = [text for text in BELOW.get(name, ()) if text not in told]
    holds(not missing, f"the help of {name} does not name {missing}:\n{told}")


@test
def help_of_all(mltx: Program) -> None:
    help_itself = ("help", "Print this message or the help of the given subcommand(s)")
    commands = in_columns([*((name, about) for name, (about, *_) in HELP.items()), help_itself])
    begin = "Run transactions on accounts, sets and counters, and check traces of them\n\n"
    begin += f"Usage: mltx [OPTIONS] <COMMAND>\n\nCommands:\n{commands}\n"
    begin += options_text(("-v, --verbose", "-h, --help", "-V, --version"))
    begin += "\nWithout arguments, `mltx` reads scripts from standard input, like `mltx solo -`.\n\n"
    begin += "A prompt for a server comes with the Python client: `mltx-shell 127.0.0.1:7000`, or `./mltx shell\n"
    begin += "127.0.0.1:7000` in the source tree.\n\n"
    begin += "Example: mltx solo scripts.txt\n"
    same(is_help(mltx, [("--help",), ("-h",), ("help",)], begin), begin)


@test
def help_is_told_where_words_are_missing(mltx: Program) -> None:
    """Help counts also where FILE or ADDR is missing, or where an option stands before it."""
    for words in (("solo", "--hash", "low", "--help"), ("run", "--workers", "2", "-h"), ("serve", "--help")):
        ran = mltx.run(*words)
        same((ran.status, ran.err), (0, b""), " ".join(words))
        holds(b"Usage: mltx " + words[0].encode() in ran.out, f"{words}: {ran}")


@test
def version(mltx: Program) -> None:
    for word in ("--version", "-V"):
        expect(mltx.run(word, given=FIRST_RUN), out=f"mltx {VERSION}\n", what=word)


@test
def examples_of_the_help_are_true(mltx: Program) -> None:
    """The text on the left of the help's example gives what stands on its right."""
    for subcommand in ("solo", "steps", "run", "check"):
        told = mltx.run(subcommand, "--help").out.decode()
        left, right = columns(told[told.index("Example:") :])
        holds(left and right, f"no example in the help of {subcommand}:\n{told}")
        file = mltx.file("example", left)
        options = ("--workers", "1") if subcommand == "run" else ()
        expect(mltx.run(subcommand, *options, file), out=right, what=f"{subcommand} of the help's {left!r}")


def columns(example: str) -> list[str]:
    """The two columns of an example, below the line that names the second one."""
    head, _, rows = example.partition("standard output\n")
    place = len(head.splitlines()[-1]) if not head.endswith("\n") else 0
    sides = ["", ""]
    for row in rows.split("\n\n")[0].splitlines():
        for side, text in enumerate((row[:place].strip(), row[place:].strip())):
            sides[side] += text + "\n" if text else ""
    return sides


# Words that are wrong, with what standard error has to say of them.
WRONG = {
    "unknown-subcommand": (("play", "a.txt"), "'play'"),
    "a-file-without-a-subcommand": (("a.txt",), "'a.txt'"),
    "options-without-a-subcommand": (("--hash", "low"), "'--hash'"),
    "trace-without-a-subcommand": (("--trace", "b.txt", "solo", "a.txt"), "'--trace'"),
    "unknown-option": (("solo", "--fast", "a.txt"), "'--fast'"),
    "unknown-short-option": (("solo", "-x"), "'-x'"),
    "dash-alone": (("-",), "'-'"),
    "two-dashes-alone": (("--",), "subcommand"),
    "a-word-without-letters": (("",), "''"),
    "solo-without-a-file": (("solo",), "<FILE>"),
    "steps-without-a-file": (("steps", "--hash", "low"), "<FILE>"),
    "run-without-a-file": (("run",), "<FILE>"),
    "check-without-a-file": (("check",), "<FILE>"),
    "serve-without-an-address": (("serve",), "<ADDR>"),
    "solo-of-two-files": (("solo", "a.txt", "b.txt"), "'b.txt'"),
    "steps-of-two-files": (("steps", "-", "-"), "'-'"),
    "run-of-two-files": (("run", "a.txt", "--hash", "low", "b.txt"), "'b.txt'"),
    "check-of-two-files": (("check", "a.txt", "b.txt"), "'b.txt'"),
    "serve-of-two-addresses": (("serve", "127.0.0.1:1", "127.0.0.1:2"), "'127.0.0.1:2'"),
    "unknown-hash-function": (("solo", "--hash", "other", "a.txt"), "'other'"),
    "hash-function-in-capitals": (("steps", "--hash", "Low", "a.txt"), "mult, low"),
    "hash-without-a-value": (("steps", "a.txt", "--hash"), "'--hash <HASH>'"),
    "trace-without-a-file": (("solo", "a.txt", "--trace"), "'--trace <FILE>'"),
    "hash-twice": (("solo", "--hash", "low", "--hash", "low", "a.txt"), "'--hash <HASH>'"),
    "check-has-no-hash": (("check", "--hash", "low", "a.txt"), "'--hash'"),
    "check-has-no-trace": (("check", "--trace", "b.txt", "a.txt"), "'--trace'"),
    "solo-has-no-workers": (("solo", "--workers", "2", "a.txt"), "'--workers'"),
    "steps-has-no-tries": (("steps", "--tries", "2", "a.txt"), "'--tries'"),
    "explain-twice": (("steps", "--explain", "a.txt", "--explain"), "'--explain'"),
    "explain-has-no-value": (("steps", "--explain=yes", "a.txt"), "'--explain'"),
    "solo-does-not-explain": (("solo", "--explain", "a.txt"), "'--explain'"),
    "run-does-not-explain": (("run", "--explain", "a.txt"), "'--explain'"),
    "check-does-not-explain": (("check", "--explain", "a.txt"), "'--explain'"),
    "serve-does-not-explain": (("serve", "--explain", "127.0.0.1:0"), "'--explain'"),
    "run-has-no-sessions": (("run", "--sessions", "2", "a.txt"), "'--sessions'"),
    "run-has-no-limit": (("run", "--limit", "2", "a.txt"), "'--limit'"),
    "run-has-no-idle-time": (("run", "--idle", "2", "a.txt"), "'--idle'"),
    "idle-without-seconds": (("serve", "127.0.0.1:0", "--idle"), "'--idle <SECONDS>'"),
    "idle-twice": (("serve", "--idle", "1", "--idle", "1", "127.0.0.1:0"), "'--idle <SECONDS>'"),
    "run-has-no-waiting-time": (("run", "--wait", "2", "a.txt"), "'--wait'"),
    "run-has-no-open-time": (("run", "--open", "2", "a.txt"), "'--open'"),
    "run-has-no-full": (("run", "--full", "wait", "a.txt"), "'--full'"),
    "solo-has-no-admin": (("solo", "--admin", "127.0.0.1:0", "a.txt"), "'--admin'"),
    "steps-has-no-end-by-standard-input": (("steps", "--until-eof", "a.txt"), "'--until-eof'"),
    "end-by-standard-input-before-the-subcommand": (("--until-eof", "serve", "127.0.0.1:0"), "'--until-eof'"),
    "wait-without-seconds": (("serve", "127.0.0.1:0", "--wait"), "'--wait <SECONDS>'"),
    "open-without-seconds": (("serve", "127.0.0.1:0", "--open"), "'--open <SECONDS>'"),
    "full-without-a-value": (("serve", "127.0.0.1:0", "--full"), "'--full <FULL>'"),
    "admin-without-an-address": (("serve", "127.0.0.1:0", "--admin"), "'--admin <ADDR>'"),
    "wait-twice": (("serve", "--wait", "1", "--wait", "2", "127.0.0.1:0"), "'--wait <SECONDS>'"),
    "open-twice": (("serve", "--open=0", "127.0.0.1:0", "--open=0"), "'--open <SECONDS>'"),
    "full-twice": (("serve", "--full", "wait", "--full", "refuse", "127.0.0.1:0"), "'--full <FULL>'"),
    "admin-twice": (("serve", "--admin", "127.0.0.1:0", "--admin=127.0.0.1:0", "127.0.0.1:0"), "'--admin <ADDR>'"),
    "endless-twice": (("serve", "--endless", "127.0.0.1:0", "--endless"), "'--endless'"),
    "endless-with-a-value": (("serve", "--endless=yes", "127.0.0.1:0"), "'--endless'"),
    "endless-with-a-limit": (
        ("serve", "--endless", "--limit", "5", "127.0.0.1:0"), "'--endless' cannot be used with '--limit <N>'"
    ),
    "endless-behind-a-limit": (
        ("serve", "127.0.0.1:0", "--limit=1", "--endless"), "'--endless' cannot be used with '--limit <N>'"
    ),
    "run-is-not-endless": (("run", "--endless", "a.txt"), "'--endless'"),
    "until-eof-twice": (("serve", "--until-eof", "127.0.0.1:0", "--until-eof"), "'--until-eof'"),
    "until-eof-with-a-value": (("serve", "--until-eof=true", "127.0.0.1:0"), "'--until-eof'"),
    "until-eof-has-no-short-name": (("serve", "-u", "127.0.0.1:0"), "'-u'"),
    "full-of-another-name": (("serve", "--full", "drop", "127.0.0.1:0"), "'drop'"),
    "full-of-an-empty-name": (("serve", "--full=", "127.0.0.1:0"), "'--full <FULL>'"),
    "full-in-capitals": (("serve", "--full=Refuse", "127.0.0.1:0"), "wait, refuse"),
    "serve-has-no-workers": (("serve", "--workers", "2", "127.0.0.1:0"), "'--workers'"),
    "no-help-of-what-is-not-there": (("help", "play"), "'play'"),
}
# Words that are wrong, with the whole of what is said behind `error: ` and before the last line.
ALL_USAGE, SOLO_USAGE = "\n\nUsage: mltx [OPTIONS] <COMMAND>", "\n\nUsage: mltx solo [OPTIONS] <FILE>"
WHOLLY = {
    "no-subcommand": (("play",), f"unrecognized subcommand 'play'{ALL_USAGE}"),
    "no-words-but-two-dashes": (
        ("--",),
        "'mltx' requires a subcommand but one was not provided\n"
        f"  [subcommands: solo, steps, run, check, serve, tables, help]{ALL_USAGE}",
    ),
    "no-file": (("solo",), "the following required arguments were not provided:\n  <FILE>\n\nUsage: mltx solo <FILE>"),
    "no-option": (
        ("solo", "--fast", "a.txt"),
        f"unexpected argument '--fast' found\n\n  tip: to pass '--fast' as a value, use '-- --fast'{SOLO_USAGE}",
    ),
    "no-second-file": (("solo", "a.txt", "b.txt"), f"unexpected argument 'b.txt' found{SOLO_USAGE}"),
    "no-value": (
        ("solo", "a.txt", "--hash"),
        "a value is required for '--hash <HASH>' but none was supplied\n  [possible values: mult, low]",
    ),
    "no-option-twice": (
        ("solo", "--hash", "low", "--hash", "low", "a.txt"),
        f"the argument '--hash <HASH>' cannot be used multiple times{SOLO_USAGE}",
    ),
    "no-such-name": (("tables", "other"), "invalid value 'other' for '[TABLE]'\n  [possible values: account, set, counter]"),
    "no-number": (("run", "--workers", "two", "a.txt"), "invalid value 'two' for '--workers <N>': invalid digit found in string"),
    "no-number-above": (
        ("serve", "--idle=86401", "-"),
        "invalid value '86401' for '--idle <SECONDS>': 86401 is not in 0..=86400",
    ),
    "no-value-of-a-flag": (
        ("steps", "--explain=yes", "a.txt"),
        "unexpected value 'yes' for '--explain' found; no more were expected\n\nUsage: mltx steps --explain <FILE>",
    ),
    "no-end-and-a-limit": (
        ("serve", "--limit", "1", "--endless", "-"),
        f"the argument '--endless' cannot be used with '--limit <N>'{ALL_USAGE}",
    ),
}
# For each option with a number: its subcommand, the least and the greatest number, and what else stands there.
NUMBERS = {
    "workers": ("run", 1, 8, "a.txt"),
    "tries": ("run", 1, 1_000_000, "a.txt"),
    "tries-of-a-server": ("serve", 1, 1_000_000, "127.0.0.1:0"),
    "sessions": ("serve", 1, 64, "127.0.0.1:0"),
    "limit": ("serve", 1, 1_000_000, "127.0.0.1:0"),
    "clients": ("serve", 1, 100_000, "127.0.0.1:0"),
    "idle": ("serve", 0, 86_400, "127.0.0.1:0"),
    "wait": ("serve", 0, 86_400, "127.0.0.1:0"),
    "open": ("serve", 0, 86_400, "127.0.0.1:0"),
}


def is_wrong(mltx: Program, words: Sequence[str], said: str) -> None:
    """Status 2, nothing on standard output, and on standard error what is wrong."""
    mltx.file("a.txt", FIRST_RUN)
    ran = mltx.run(*words, given=FIRST_RUN)
    same((ran.status, ran.out), (2, b""), " ".join(words))
    holds(said.encode() in ran.err and ran.err.endswith(b"\n"), f"{words}: {said} does not stand in {ran.err!r}")


@each({f"wrong-{name}": case for name, case in WRONG.items()})
def wrong_words(mltx: Program, case: tuple[tuple[str, ...], str]) -> None:
    is_wrong(mltx, *case)


@each({f"told-wholly-{name}": case for name, case in WHOLLY.items()})
def wrong_words_wholly(mltx: Program, case: tuple[tuple[str, ...], str]) -> None:
    words, said = case
    mltx.file("a.txt", FIRST_RUN)
    expect(mltx.run(*words), status=2, err=f"error: {said}\n\nFor more information, try '--help'.\n", what=" ".join(words))


@each({f"numbers-of-{name}": (name.split("-")[0], *case) for name, case in NUMBERS.items()})
def numbers_out_of_range(mltx: Program, case: tuple[str, str, int, int, str]) -> None:
    """One less than the least number, one more than the greatest, and what is no number, are refused."""
    option, subcommand, least, most, rest = case
    for number in (least - 1, most + 1, f"{least - 1:02}", "-1", "two", "1.0", "", 2**64 + 1, "1 "):
        is_wrong(mltx, (subcommand, f"--{option}={number}", rest), f"--{option}")


@each({f"negative-{name}": (name.split("-")[0], *case) for name, case in NUMBERS.items()})
def negative_number_behind_an_option(mltx: Program, case: tuple[str, str, int, int, str]) -> None:
    """It is the number that is wrong, and nothing is suggested."""
    option, subcommand, least, most, rest = case
    for words in ((f"--{option}", "-1", rest), (rest, f"--{option}", "-007")):
        is_wrong(mltx, (subcommand, *words), f"invalid value '{words[words.index(f'--{option}') + 1]}' for '--{option} <")
        same(b"tip" in mltx.run(subcommand, *words, given=FIRST_RUN).err, False, f"{words}")


@test
def greatest_numbers_of_workers_and_tries(mltx: Program) -> None:
    file = mltx.file("a.txt", FIRST_RUN)
    for workers in range(1, 9):
        for tries in (1, 1_000_000):
            words = ("run", "--workers", workers, "--tries", tries, file)
            expect(mltx.run(*words), out=RUN_TOLD, what=f"{words}")


@test
def numbers_of_a_server(mltx: Program) -> None:
    """The least and the greatest number of sessions, of tries and of each time, and a limit of a million."""
    most = ("--sessions", 64, "--tries", 1_000_000, "--idle", 86_400, "--wait", 86_400, "--open", 86_400)
    least = ("--sessions=1", "--tries", "007", "--hash", "low", "--idle=0", "--wait=0", "--open=0")
    for options in (most, least, ("--idle", "00001"), ("--wait", "60", "--open", "0060")):
        with mltx.serve(*options, limit=2) as server:
            for number in (1, 2):
                same(server.talk("begin\nquit\n"), f"begun {number}\nbye\n".encode(), f"serve {options}")
            expect(server.end(), out="served 2\n", what=f"serve {options}")
    with mltx.serve(limit=1_000_000) as server:
        same(server.talk("begin\nquit\n"), b"begun 1\nbye\n", "serve --limit 1000000")


# Options that change nothing for a session that finds its place.
OF_A_SERVER = {
    "full-is-wait": ("--full", "wait"),
    "full-is-refuse": ("--full=refuse",),
    "admin-at-a-free-port": ("--admin", "127.0.0.1:0"),
}


@each(OF_A_SERVER)
def options_of_a_server(mltx: Program, options: tuple[str, ...]) -> None:
    """They are right behind ADDR and before it: there ADDR is found wrong, and they are not."""
    with mltx.serve(*options) as server:
        same(server.talk("begin\nquit\n"), b"begun 1\nbye\n", f"serve {options}")
        ended = server.end()
        same((ended.status, ended.out), (0, b"served 1\n"), f"serve {options}")
    ran = mltx.run("serve", *options, "no address")
    same((ran.status, ran.out), (1, b""), f"serve {options} 'no address'")
    holds(ran.err.endswith(b"mltx: 13 Io\n"), f"serve {options} 'no address': {ran}")


@test
def server_ends_with_its_standard_input(mltx: Program) -> None:
    """With `--until-eof`, before ADDR or behind it, and nothing on standard input, no connection is waited for."""
    for words in (("127.0.0.1:0", "--until-eof"), ("--until-eof", "127.0.0.1:0", "--full=refuse", "--wait", 1)):
        ran = mltx.run("serve", "--limit", 1_000_000, *words)
        same((ran.status, ran.out), (0, b"served 0\n"), f"serve {words}")


@test
def one_connection_is_served_without_a_limit(mltx: Program) -> None:
    with mltx.serve(limit=None) as server:
        same(server.talk("begin\nquit\n"), b"begun 1\nbye\n")
        expect(server.end(), out="served 1\n")


@test
def wrong_words_come_before_all_else(mltx: Program) -> None:
    """A file that is not there, a faulty text or an address in use is not looked at where words are wrong."""
    faulty = mltx.file("faulty", "opn\n")
    for words in (
        ("solo", "--hash", "other", "missing"),
        ("steps", "--hash", "other", faulty),
        ("run", faulty, "--trace", "missing/folder", "--workers", "9"),
        ("serve", "no address", "--limit", "0"),
    ):
        is_wrong(mltx, words, "--")


@test
def status_is_told_where_nothing_can_be_written(mltx: Program) -> None:
    """Where standard error is closed or full the status is the same."""
    faulty = mltx.file("faulty", "opn\n")
    for words, status in ((("play",), 2), (("solo", faulty), 1), (("solo", "missing"), 1), (("check", faulty), 1)):
        for redirect in ("2>&-", "2>/dev/full"):
            expect(mltx.run(*words, redirect=redirect), status=status, what=f"{words} {redirect}")
