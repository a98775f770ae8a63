"""Faulty texts of scripts, events and traces: each is refused with its line and cause, and nothing else is written.

A case is a text between bars, as the worked rows have it, with its faulty line and cause. In the tables `RAW_..` it is
a text as it stands."""
from harness import Case, Program, Text, each, expect, fault_of, lines, test

Faulty = tuple[Text, int, str]
# Lines that are faulty wherever they stand, in each of the three forms: too long, or with a byte that is not allowed.
BAD_LINES = {
    "201-spaces": b" " * 201,
    "201-bytes-of-comment": b"#" + b"x" * 200,
    "200-bytes-and-a-cr": b" " * 200 + b"\r",
    "cr-in-the-middle": b"\r ",
    "two-crs": b"\r\r",
    "byte-0": b"\0",
    "byte-8": b"\x08",
    "form-feed": b"\x0c",
    "vertical-tab": b"\x0b",
    "byte-0x1f": b"\x1f",
    "byte-0x7f": b"\x7f",
    "byte-0x80": b"\x80",
    "byte-0xff": b"up 7 1 \xff",
    "a-letter-beyond-ascii": "up 7 1 \u00b5".encode(),
    "byte-0xff-before-a-comment-sign": b"\xff #",
}
# Words that are no operation, of one form or the other. In scripts an amount may also be a variable.
NO_OPERATIONS = [
    *("open", "close 1 2", "balance", "deposit 1", "withdraw 1 2 3", "add 4", "remove 4 9 1", "has 4", "up 7", "down"),
    *("size", "size 4 9", "read", "read 7 1"),
    *("play 1", "Open 1", "OPEN 1", "open1", "opened 1", "transfer 1 2 3"),
    *("open 4294967296", "close 99999999999", "balance 18446744073709551616", "deposit 4294967296 1"),
    *("withdraw 4294967296 1", "withdraw 1 18446744073709551616"),
    *("add 65536 0", "remove 65536 0", "has 65536 0", "add 0 4294967296", "size 65536"),
    *("up 4294967296 1", "down 4294967296 1"),
    *("read 4294967296", "deposit 1 18446744073709551616", "up 7 99999999999999999999", "down 7 18446744073709551616"),
    *("open 000000000000000000001", "deposit 1 000000000000000000005"),
    *("open -1", "open +1", "open 0x1", "open 1.0", "open 1_0"),
    *("open a", "up 7 -1", "up 7 1e3", "add 4 v", "open 1 # made", "deposit v 1", "size v", "up 000000000000000000001 1"),
    *("deposits 1 2", "deposi 1 2", "deposit1 2", "downs 1 2", "removed 1 2", "reads 1", "sizes 1", "up 1 2x", "up 1 2,", "up  "),
]


def each_of(text: str, line: int, cause: str, table: dict[str, str]) -> dict[str, tuple[str, int, str]]:
    """Faults of a text that is the same but for some words."""
    return {name: (text.format(words), line, cause) for name, words in table.items()}


SCRIPT = {
    # Words.
    **each_of("begin|{}|commit", 2, "Words", {
        "words-of-no-statement": "opn 1", "words-missing-amount": "deposit 1", "need-without-a-reply": "need read 7",
        "need-with-is-alone": "need read 7 is", "need-with-two-replies": "need open 1 is opened exists",
        "need-of-is-a-value": "need read 7 is is 1", "need-of-no-reply": "need open 1 is open",
        "need-of-a-value-out-of-range": "need read 7 is 18446744073709551616", "need-alone": "need",
        "need-without-is": "need open 1 opened", "need-of-a-need": "need need open 1 is done",
        "let-of-a-capital": "let V = read 7", "let-of-two-letters": "let vv = read 7",
        "let-of-an-operation-without-a-value": "let v = open 1", "let-without-its-sign": "let v read 7",
        "let-of-a-number": "let v = 7", "let-with-a-word-more": "let v = read 7 1", "let-without-spaces": "let v=read 7",
        "let-with-one-space": "let v= read 7", "let-of-a-set-out-of-range": "let v = size 65536",
        "let-of-a-digit": "let 1 = read 7", "variable-in-capitals": "deposit 1 V", "variable-of-two-letters": "deposit 1 ab",
        "a-comment-after-words": "up 7 1 # one more",
    }),
    **each_of("{}|commit", 1, "Words", {
        "client-1000": "begin 1000", "client-that-is-a-variable": "begin v", "client-of-21-digits": "begin 000000000000000000001",
        "begin-of-two-clients": "begin 1 2", "begin-in-capitals": "Begin", "begin-with-a-letter-more": "begins",
        "client-with-a-letter": "begin 7x", "client-with-a-comment": "begin 7 # x",
    }),
    "commit-with-a-letter-more": ("begin|commits", 2, "Words"),
    "commit-with-a-word": ("begin|commit 1", 2, "Words"),
    "abort-with-a-word": ("begin|abort now", 2, "Words"),
    "variable-as-an-account": ("begin|let v = read 7|balance v|commit", 3, "Words"),
    "if-without-a-reply": ("begin|if has 4 9|end|commit", 2, "Words"),
    "if-with-then": ("begin|if has 4 9 is yes then|end|commit", 2, "Words"),
    "else-with-a-word": ("begin|if has 4 9 is yes|else if|end|commit", 3, "Words"),
    "end-with-a-word": ("begin|if has 4 9 is yes|end if|commit", 3, "Words"),
    # Place.
    "operation-outside-a-script": ("open 1", 1, "Place"),
    "need-outside-a-script": ("need open 1 is opened|begin|commit", 1, "Place"),
    **each_of("begin|commit|{}", 3, "Place", {
        "let-outside-a-script": "let v = read 7", "if-outside-a-script": "if has 4 9 is yes", "else-outside-a-script": "else",
        "commit-outside-a-script": "commit",
    }),
    "end-outside-a-script": ("end", 1, "Place"),
    "abort-outside-a-script": ("abort", 1, "Place"),
    "operation-after-an-abort": ("begin|abort|up 7 1", 3, "Place"),
    "begin-inside-a-script": ("begin|open 1|begin 2|commit", 3, "Place"),
    "begin-inside-an-if": ("begin|if open 1 is opened|begin|end|commit", 3, "Place"),
    "commit-inside-an-if": ("begin|if open 1 is opened|commit|end|commit", 3, "Place"),
    "abort-inside-an-else": ("begin|if open 1 is opened|else|abort|end|commit", 4, "Place"),
    "else-without-an-if": ("begin|else|commit", 2, "Place"),
    "end-without-an-if": ("begin|open 1|end|commit", 3, "Place"),
    "end-after-the-end": ("begin|if open 1 is opened|end|end|commit", 4, "Place"),
    "else-after-the-end": ("begin|if open 1 is opened|end|else|commit", 4, "Place"),
    "second-else": ("begin|if open 1 is opened|else|else|end|commit", 4, "Place"),
    "second-else-of-an-outer-if": ("begin|if open 1 is opened|else|if open 2 is opened|else|end|else|end|commit", 7, "Place"),
    # Unfinished: blank lines and comments count, and an LF at the end opens no further line.
    "unfinished-begin": ("begin", 1, "Unfinished"),
    "unfinished-if": ("begin|if has 4 9 is yes", 2, "Unfinished"),
    "unfinished-after-an-end": ("begin|if has 4 9 is yes|end", 3, "Unfinished"),
    "unfinished-with-blank-lines": ("begin||  |", 4, "Unfinished"),
    "unfinished-with-a-comment": ("begin|up 7 1||# the end", 4, "Unfinished"),
    "unfinished-second-script": ("begin|commit|begin|up 7 1", 4, "Unfinished"),
    # On one line the first cause of the list decides, and of the lines the first faulty one.
    "words-before-place": ("opn 1", 1, "Words"),
    "number-out-of-range-before-place": ("begin|commit|open 4294967296", 3, "Words"),
    "ending-with-a-word-before-place": ("commit 1", 1, "Words"),
    "client-1000-before-place": ("begin|begin 1000|commit", 2, "Words"),
    "words-before-unfinished": ("begin|opn 1", 2, "Words"),
    "place-before-unfinished": ("begin|begin", 2, "Place"),
    "first-line-before-a-worse-one": ("begin|commit|commit|opn 1", 3, "Place"),
    "first-line-before-a-long-one": ("begin|opn 1|" + " " * 201 + "|commit", 2, "Words"),
    "blank-lines-and-comments-are-counted": ("|# one||begin||# two|opn|commit", 7, "Words"),
    "scripts-before-the-fault-do-not-run": ("begin|up 7 1|commit|begin|up 7 1|commit|begin|commit now", 8, "Words"),
}
SIXTEEN = "begin|" + "if has 4 9 is yes|" * 16
MOST_OPERATIONS = "begin" + "|up 7 1" * 256
DEEP_AND_LONG = {
    "an-if-inside-16-others": (f"{SIXTEEN}if has 4 9 is yes|" + "end|" * 17 + "commit", 18, "Deep"),
    "an-if-inside-16-elses": ("begin|" + "if has 4 9 is yes|else|" * 16 + "if has 4 9 is no|commit", 34, "Deep"),
    "words-before-deep": (f"{SIXTEEN}if has 4 is yes", 18, "Words"),
    "deep-before-unfinished": (f"{SIXTEEN}if has 4 9 is yes", 18, "Deep"),
    "257-operations": (f"{MOST_OPERATIONS}|up 7 1|commit", 258, "Long"),
    "257th-is-a-need": (f"{MOST_OPERATIONS}|need read 7 is 1|commit", 258, "Long"),
    "257th-is-a-let": (f"{MOST_OPERATIONS}|let v = read 7|commit", 258, "Long"),
    "257th-is-an-if": (f"{MOST_OPERATIONS}|if has 4 9 is yes|end|commit", 258, "Long"),
    "257-by-the-longer-first-part": (
        "begin" + "|up 7 1" * 250 + "|if has 4 9 is yes|up 7 1|up 7 1|else|up 7 1|end" + "|read 7" * 4 + "|commit",
        261,
        "Long",
    ),
    "257-by-the-longer-second-part": (
        "begin" + "|up 7 1" * 250 + "|if has 4 9 is yes|else|up 7 1|up 7 1|end" + "|read 7" * 4 + "|commit",
        260,
        "Long",
    ),
    "257th-inside-a-second-part": (
        "begin" + "|up 7 1" * 254 + "|if has 4 9 is yes|up 7 1|else|up 7 1|up 7 1|end|commit", 260, "Long",
    ),
    "257th-in-a-chain-of-ifs": ("begin" + "|if has 4 9 is yes|end" * 257 + "|commit", 514, "Long"),
    "257th-inside-a-first-part": ("begin|if has 4 9 is yes" + "|up 7 1" * 256 + "|end|commit", 258, "Long"),
    "words-before-long": (f"{MOST_OPERATIONS}|up 7", 258, "Words"),
    "begin-after-256-operations": (f"{MOST_OPERATIONS}|begin", 258, "Place"),
    "long-before-unfinished": (f"{MOST_OPERATIONS}|up 7 1", 258, "Long"),
    "deep-before-long": ("begin|" + "up 7 1|" * 240 + "if has 4 9 is yes|" * 17 + "end|" * 17 + "commit", 258, "Deep"),
    "first-line-before-a-deep-one": (f"{SIXTEEN}end|end 1|" + "if has 4 9 is yes|" * 3, 19, "Words"),
}
# Texts as they stand.
RAW_SCRIPTS: dict[str, Faulty] = {
    "195-spaces-in-the-last-line": (b"begin" + b" " * 195 + b"\n", 1, "Unfinished"),
    "196-spaces-in-the-last-line": (b"begin" + b" " * 196 + b"\n", 1, "Line"),
    "unfinished-without-a-last-lf": (b"begin\n\nup 7 1", 3, "Unfinished"),
    "unfinished-with-a-last-line-of-spaces": (b"begin\n  ", 2, "Unfinished"),
    "last-line-that-ends-in-a-cr": (b"begin\ncommit\r", 2, "Line"),
    "last-line-that-is-a-cr": (b"begin\ncommit\n\r", 3, "Line"),
    "byte-0xff-after-open": (b"begin\nopen \xff\ncommit\n", 2, "Line"),
    "byte-0xff-after-a-comment": (b"#\xff\nbegin\nopen \xff\n", 3, "Line"),
    "line-before-words": (b"begin\nopn \x7f\n", 2, "Line"),
    "line-before-place": (b"open 1\x80\n", 1, "Line"),
    "line-before-unfinished": (b"begin\n\x01", 2, "Line"),
    "words-in-an-earlier-line": (b"opn\n\xff\n", 1, "Words"),
}


def refused_input(mltx: Program, subcommand: str, text: Text, line: int, cause: str) -> None:
    """From standard input: the fault's line is written and nothing else."""
    ran = mltx.run(subcommand, "-", given=text)
    expect(ran, status=1, err=fault_of(subcommand, line, cause), what=f"{subcommand} - of {text[-300:]!r}")


def refused(mltx: Program, subcommands: tuple[str, ...], text: Text, line: int, cause: str) -> None:
    """The same from a file and from standard input, by each subcommand."""
    file = mltx.file("faulty", text)
    for subcommand in subcommands:
        refused_input(mltx, subcommand, text, line, cause)
        ran = mltx.run(subcommand, file)
        expect(ran, status=1, err=fault_of(subcommand, line, cause), what=f"{subcommand} FILE of {text[-300:]!r}")


def cases(prefix: str, table: dict[str, Case]) -> dict[str, Case]:
    return {f"{prefix}-{name}": case for name, case in table.items()}


# Texts in whose second line an operation is to stand.
OPERATIONS_STAND_IN = {
    "statements": ("solo", "begin|{}|commit", "begin|need {} is done|commit", "begin|if {} is 7|end|commit"),
    "variables": ("run", "begin|let v = {}|commit"),
    "events": ("steps", "begin|call 1 {}", "begin|whole 1 {}"),
    "traces": ("check", "begin 1|op 1 {} done"),
}


@each({f"words-of-no-operation-in-{name}": case for name, case in OPERATIONS_STAND_IN.items()}, seconds=1)
def words_of_no_operation(mltx: Program, case: tuple[str, ...]) -> None:
    subcommand, *texts = case
    for words in NO_OPERATIONS:
        for text in texts:
            refused_input(mltx, subcommand, lines(text.format(words)), 2, "Words")


@each(cases("line", BAD_LINES))
def bad_line(mltx: Program, bad: bytes) -> None:
    """The line is refused between others and as the last one, with its LF and without, before any other cause."""
    for subcommands, begin in ((("solo", "run", "steps"), b"begin\n"), (("check",), b"begin 1\n")):
        for end in (b"", b"\n", b"\ncommit\n"):
            refused(mltx, subcommands, begin + bad + end, 2, "Line")


@each({f"each-byte-of-a-line-of-{name}": name for name in ("solo", "run", "steps", "check")}, seconds=1)
def each_byte(mltx: Program, subcommand: str) -> None:
    """A byte before an `x`: one that is not allowed is a fault of the line, and else of the words, but in
    a comment."""
    begin = b"begin 1\n" if subcommand == "check" else b"begin\n"
    for byte in range(256):
        if byte == ord("\n") or (byte == ord("#") and subcommand != "check"):
            continue
        cause = "Words" if byte == ord("\t") or 0x20 <= byte <= 0x7E else "Line"
        refused_input(mltx, subcommand, begin + bytes([byte]) + b"x\n", 2, cause)


EVENTS = {
    **each_of("{}", 1, "Words", {
        "begin-in-capitals": "BEGIN", "begin-with-a-letter-more": "begins", "number-alone": "1", "begin-of-a-number": "begin 1",
    }),
    **each_of("begin|{}", 2, "Words", {
        "step-of-66537": "step 1 66537", "undo-with-an-operation": "undo 1 open 1",
        "whole-with-a-comment": "whole 1 open 1 # made", "step-of-0": "step 1 0", "step-of-1001": "step 1 1001",
        "step-without-a-number": "step", "step-of-a-word": "step 1 all", "step-of-three-numbers": "step 1 2 3",
        "step-below-0": "step 1 -1", "step-past-64-bits": "step 18446744073709551616",
        "step-of-21-digits": "step 1 000000000000000000001", "call-without-an-operation": "call 1",
        "call-without-a-number": "call up 7 1", "call-past-64-bits": "call 18446744073709551616 up 7 1",
        "call-of-a-variable": "call 1 up 7 v", "whole-of-a-variable": "whole 1 deposit 1 v",
        "whole-without-an-operation": "whole 1", "whole-with-a-reply": "whole 1 open 1 is opened",
        "need-is-no-event": "need open 1 is opened", "operation-is-no-event": "open 1", "cancel-without-a-number": "cancel",
        "cancel-of-two": "cancel 1 2", "commit-without-a-number": "commit", "commit-with-its-number-of-a-trace": "commit 1 1",
        "abort-without-a-number": "abort", "abort-of-two": "abort 1 2", "undo-without-a-number": "undo",
        "undo-of-a-word": "undo one", "end-is-no-event": "end",
    }),
    "first-line-before-a-long-one": ("begin|stop 1|" + " " * 201, 2, "Words"),
    "blank-lines-and-comments-are-counted": ("|# one| # two|begin||step 1 0", 6, "Words"),
}
RAW_EVENTS: dict[str, Faulty] = {
    "line-before-words": (b"begin\nstop \x7f\n", 2, "Line"),
    "last-line-that-ends-in-a-cr": (b"begin\nstep 1\r", 2, "Line"),
    "byte-0xff-after-step": (b"begin\n#\xff\nstep \xff\n", 3, "Line"),
    "196-spaces": (b"begin" + b" " * 196 + b"\n", 1, "Line"),
}


# A transaction that opened account 1, and one that put 5 into it.
OPENED = "begin 1|op 1 open 1 opened"
TAKEN_BACK = f"{OPENED}|op 1 deposit 1 5 done|back 1"
TRACES = {
    # Words.
    "blank-line": ("begin 1||commit 1 1", 2, "Words"),
    "line-of-spaces": ("begin 1|  |commit 1 1", 2, "Words"),
    "comment": ("# a trace|begin 1", 1, "Words"),
    **each_of("{}", 1, "Words", {
        "begin-alone": "begin", "begin-of-0": "begin 0", "begin-of-two": "begin 1 2",
        "begin-past-64-bits": "begin 18446744073709551616", "begin-of-21-digits": "begin 000000000000000000001",
        "begin-in-capitals": "Begin 1", "begin-without-a-space": "begin1", "begin-with-a-comment": "begin 1 # one",
    }),
    **each_of("begin 1|{}", 2, "Words", {
        "op-of-0": "op 0 open 1 opened", "op-without-a-number": "op open 1 opened", "op-without-an-operation": "op 1",
        "op-of-an-operation-without-its-cell": "op 1 open opened", "op-of-a-reply-in-capitals": "op 1 open 1 Opened",
        "op-of-two-values": "op 1 read 1 is 0 0", "op-without-a-reply": "op 1 open 1",
        "op-with-two-replies": "op 1 open 1 opened opened", "op-of-no-reply": "op 1 open 1 open",
        "op-with-is-alone": "op 1 balance 1 is", "op-with-a-value-without-is": "op 1 balance 1 7",
        "op-with-is-and-a-word": "op 1 balance 1 is seven",
        "op-with-a-value-past-64-bits": "op 1 balance 1 is 18446744073709551616", "op-of-a-variable": "op 1 deposit 1 v done",
        "op-in-capitals": "OP 1 open 1 opened", "back-alone": "back", "back-of-0": "back 0",
        "commit-without-its-number": "commit 1", "commit-of-number-0": "commit 1 0", "commit-of-0": "commit 0 1",
        "commit-of-three-numbers": "commit 1 1 1", "abort-alone": "abort", "abort-of-0": "abort 0", "abort-of-two": "abort 1 1",
        "line-of-steps": "step 1",
    }),
    "back-with-a-word": (f"{OPENED}|back 1 1", 3, "Words"),
    # Place.
    **each_of("begin 1|{}", 2, "Place", {
        "begin-again": "begin 1", "op-before-its-begin": "op 2 open 1 opened", "commit-of-number-2-at-first": "commit 1 2",
        "back-before-its-begin": "back 2", "back-of-nothing": "back 1",
    }),
    **each_of("begin 1|commit 1 1|{}", 3, "Place", {
        "begin-again-after-a-commit": "begin 1", "op-after-a-commit": "op 1 open 1 opened", "commit-again": "commit 1 2",
        "abort-after-a-commit": "abort 1",
    }),
    "begin-below-another": ("begin 5|begin 4", 2, "Place"),
    "begin-below-one-that-is-closed": ("begin 5|abort 5|begin 4", 3, "Place"),
    "begin-below-the-greatest": ("begin 5|begin 18446744073709551615|begin 6", 3, "Place"),
    "op-of-a-number-that-was-passed-over": ("begin 2|op 1 open 1 opened", 2, "Place"),
    "op-after-an-abort": ("begin 1|abort 1|op 1 open 1 opened", 3, "Place"),
    "op-after-a-back": (f"{TAKEN_BACK}|op 1 balance 1 is 0", 5, "Place"),
    "commit-before-its-begin": ("commit 1 1", 1, "Place"),
    "commit-after-an-abort": ("begin 1|abort 1|commit 1 1", 3, "Place"),
    "commit-after-a-back": (f"{TAKEN_BACK}|commit 1 1", 5, "Place"),
    "commit-after-all-was-taken-back": (f"{OPENED}|back 1|commit 1 1", 4, "Place"),
    "commit-of-a-number-again": ("begin 1|begin 2|commit 2 1|commit 1 1", 4, "Place"),
    "commit-that-leaves-a-number-out": ("begin 1|begin 2|commit 2 1|commit 1 3", 4, "Place"),
    "commit-that-counts-an-abort": ("begin 1|abort 1|begin 2|commit 2 2", 4, "Place"),
    "commit-after-one-of-two-was-taken-back": (f"{OPENED}|op 1 open 2 opened|back 1|commit 1 1", 5, "Place"),
    "back-once-more-than-there-were": (f"{OPENED}|back 1|back 1", 4, "Place"),
    "back-after-a-commit": (f"{OPENED}|commit 1 1|back 1", 4, "Place"),
    "back-after-an-abort": (f"{OPENED}|back 1|abort 1|back 1", 5, "Place"),
    "back-of-another": (f"{OPENED}|begin 2|back 2", 4, "Place"),
    "abort-before-its-begin": ("abort 1", 1, "Place"),
    "abort-with-an-operation-left": (f"{OPENED}|abort 1", 3, "Place"),
    "abort-with-one-of-two-left": (f"{TAKEN_BACK}|abort 1", 5, "Place"),
    "abort-again": ("begin 1|abort 1|abort 1", 3, "Place"),
    # Reply: told at the commit, of the first line that is not legal.
    "reply-over": (
        "begin 1|begin 2|op 2 open 1 opened|op 2 deposit 1 7 over|commit 2 1|op 1 balance 1 is 7|commit 1 2",
        4,
        "Reply",
    ),
    "reply-of-a-later-commit": (f"{OPENED}|commit 1 1|begin 2|op 2 open 1 opened|commit 2 2", 5, "Reply"),
    "reply-before-the-commit-it-needs": (
        "begin 1|begin 2|op 1 open 1 opened|op 2 balance 1 is 0|commit 2 1|commit 1 2", 4, "Reply",
    ),
    "reply-of-the-first-of-two": ("begin 1|op 1 read 7 is 1|op 1 has 4 9 yes|commit 1 1", 2, "Reply"),
    "reply-that-the-operation-cannot-give": (f"{OPENED}|op 1 deposit 1 5 closed|commit 1 1", 3, "Reply"),
    "reply-past-the-greatest-balance": (
        f"{OPENED}|op 1 deposit 1 1000000000000000000 done|op 1 deposit 1 1 done|commit 1 1", 4, "Reply",
    ),
    "reply-of-another-value": (f"{OPENED}|op 1 deposit 1 5 done|op 1 balance 1 is 6|commit 1 1", 4, "Reply"),
    "reply-that-another-commit-made-false": (
        "begin 1|begin 2|op 2 read 7 is 0|op 1 up 7 1 done|commit 1 1|commit 2 2", 3, "Reply",
    ),
    "reply-behind-lines-of-another": (
        "begin 1|begin 2|op 1 up 1 1 done|op 2 up 2 1 done|op 1 read 1 is 0|commit 2 1|commit 1 2", 5, "Reply",
    ),
    "reply-of-a-size-that-another-commit-made-false": (
        "begin 1|begin 2|op 2 size 3 is 0|op 1 add 3 8 added|commit 1 1|commit 2 2", 3, "Reply",
    ),
    "reply-over-behind-a-withdrawal-that-committed-first": (
        f"{OPENED}|op 1 deposit 1 1000000000000000000 done|commit 1 1|begin 2|begin 3|op 2 deposit 1 1 over"
        "|op 3 withdraw 1 1 done|commit 3 2|commit 2 3",
        7,
        "Reply",
    ),
    "reply-from-what-did-not-commit": (f"{OPENED}|begin 2|op 2 balance 1 is 0|commit 2 1", 4, "Reply"),
    "reply-from-what-was-taken-back": (f"{TAKEN_BACK}|back 1|abort 1|begin 2|op 2 deposit 1 5 done|commit 2 1", 8, "Reply"),
    # Of the lines the first faulty one decides; a false reply is found at its commit.
    "place-in-a-line-before-the-commit": ("begin 1|op 1 open 1 exists|back 2|commit 1 1", 3, "Place"),
    "words-in-a-line-before-the-commit": ("begin 1|op 1 open 1 exists|back|commit 1 1", 3, "Words"),
    "place-before-reply": ("begin 1|op 1 open 1 exists|commit 1 2", 3, "Place"),
    "reply-in-a-line-before-another-fault": ("begin 1|op 1 open 1 exists|commit 1 1|back|", 2, "Reply"),
    "words-before-place": ("back 0", 1, "Words"),
}
# Lines that are just off the form in which a trace is written.
NO_LINES = [
    *("begin 2x", "begins 2", "begin x", "back 1x", "commit 1 1x", "commit 1  x", "abort 1x", "aborts 1", "frob 1", "1"),
    *("op 1 opens 1 opened", "op 1 open 1 openedx", "op 1 open 1 opene", "ops 1 open 1 opened"),
    *("op 1 read 1 is 0x", "op 1 read 1 isn 0"),
]
RAW_TRACES: dict[str, Faulty] = {
    "cut-in-a-reply": (
        lines("begin 1|begin 2|op 2 open 1 opened|op 2 deposit 1 7 done|commit 2 1") + "op 1 balance 1 is", 6, "Cut",
    ),
    "cut-after-a-whole-line": ("begin 1\ncommit 1 1", 2, "Cut"),
    "cut-in-spaces": ("begin 1\n ", 2, "Cut"),
    "cut-before-words": ("begin 1\nno trace at all", 2, "Cut"),
    "cut-before-place": ("back 1", 1, "Cut"),
    "cut-before-reply": ("begin 1\nop 1 read 1 is 5\ncommit 1 1", 3, "Cut"),
    "cut-after-200-bytes": ("begin 1" + " " * 193, 1, "Cut"),
    "200-spaces": (" " * 200 + "\n", 1, "Words"),
    "201-bytes": ("begin 1" + " " * 194 + "\n", 1, "Line"),
    "200-bytes-and-a-cr": ("begin 1" + " " * 193 + "\r\n", 1, "Line"),
    "line-before-cut": ("begin 1\nabort 1\x7f", 2, "Line"),
    "cr-at-the-end-before-cut": ("begin 1\nabort 1\r", 2, "Line"),
    "line-before-words": ("begin 1\nback\x01\n", 2, "Line"),
    "line-before-place": ("back 1\x01\n", 1, "Line"),
    "byte-0xff-after-a-comment-sign": (b"begin 1\n#\xff\n", 2, "Line"),
    "words-in-a-line-before-the-cut": ("back\nbegin", 1, "Words"),
    "reply-in-a-line-before-the-cut": (lines("begin 1|op 1 read 7 is 1|commit 1 1") + "begin", 2, "Reply"),
}


@test
def words_of_no_line_of_a_trace(mltx: Program) -> None:
    for words in NO_LINES:
        refused_input(mltx, "check", lines(f"begin 1|{words}"), 2, "Words")


def by_lines(table: dict[str, tuple[str, int, str]]) -> dict[str, Faulty]:
    """The table, with its texts as they stand."""
    return {name: (lines(text), line, cause) for name, (text, line, cause) in table.items()}


# By the begin of their names, the subcommands that refuse faulty texts, and these.
FAULTY = {
    "script": (("solo", "run"), by_lines(SCRIPT | DEEP_AND_LONG) | RAW_SCRIPTS),
    "events": (("steps",), by_lines(EVENTS) | RAW_EVENTS),
    "trace": (("check",), by_lines(TRACES) | RAW_TRACES),
}


@each({f"{begin}-{name}": (by, *case) for begin, (by, table) in FAULTY.items() for name, case in table.items()})
def faulty(mltx: Program, case: tuple[tuple[str, ...], Text, int, str]) -> None:
    refused(mltx, *case)


# Texts that just meet the rules, with what is written of them.
LAWFUL = {
    "an-if-inside-15-others": ("solo", f"{SIXTEEN}" + "end|" * 16 + "commit", "no|committed 1"),
    "256-operations-on-a-path": (
        "solo",
        "begin" + "|read 7" * 250 + "|if has 4 9 is yes|up 7 1|up 7 1|else|up 7 1|end" + "|read 7" * 3 + "|commit",
        "|".join(["is 0"] * 250) + "|no|done" + "|is 1" * 3 + "|committed 1",
    ),
    "256-operations-in-each-part": (
        "solo",
        "begin|if has 4 9 is yes" + "|up 7 1" * 255 + "|else" + "|read 7" * 255 + "|end|commit",
        "no" + "|is 0" * 255 + "|committed 1",
    ),
    "a-line-of-200-bytes": ("solo", "begin" + " " * 195 + "|#" + "x" * 199 + "|" + " " * 200 + "|commit", "committed 1"),
    "a-line-of-199-bytes-and-a-cr": ("solo", "begin" + " " * 194 + "\r|commit" + " " * 193 + "\r", "committed 1"),
    "else-without-statements": ("solo", "begin|if has 4 9 is yes|else|end|if read 7 is 0|end|commit", "no|is 0|committed 1"),
    "ifs-in-ifs-with-both-parts": ("solo", f"{SIXTEEN}up 7 1|" + "else|read 7|end|" * 16 + "commit", "no|is 0|committed 1"),
    "256-ifs-one-after-another": ("solo", "begin" + "|if has 4 9 is yes|else|end" * 256 + "|commit", "no|" * 256 + "committed 1"),
    "greatest-numbers-of-statements": (
        "solo",
        "begin|let z = read 4294967295|need read 7 is z|need balance 4294967295 is 18446744073709551615|commit",
        "is 0|is 0|missing|aborted",
    ),
    "if-whose-parts-have-an-else-each": (
        "solo",
        "begin|if read 1 is 0|if read 2 is 1|up 7 1|else|up 7 2|end|else|up 7 4|end|read 7|commit",
        "is 0|is 0|done|is 2|committed 1",
    ),
    "a-line-of-a-trace-of-200-bytes": ("check", "begin 1" + " " * 193 + "|begin 2" + " " * 192 + "\r", ""),
    "events-of-blank-lines-and-comments": ("steps", "| \t|\r||# begin| \t#\u00b5\r\0|#", "depth 0"),
    "events-of-several-lines": (
        "steps",
        "begin\r|\r|# note\r|step 1 2|  # two||begin|commit 2|undo 1",
        "begun 1|refused 6 NotRunning|refused 6 NotRunning|begun 2|committed 1|refused 6 NotRunning|depth 0",
    ),
    "step-of-1000": ("steps", "begin|step 1 1000", "begun 1" + "|refused 6 NotRunning" * 1000 + "|depth 0"),
    "step-of-1-with-leading-zeros": ("steps", "begin|step 01 0001", "begun 1|refused 6 NotRunning|depth 0"),
    "events-parted-anyhow": (
        "steps",
        "#\u00b5| begin\t\r||whole\t1  up 007 01 |commit 1",
        "begun 1|done done|committed 1|counter 7 1|depth 0",
    ),
    "numbers-of-transactions-from-0": ("steps", "step 0|undo 18446744073709551615", "refused 3 NoSuchTx|" * 2 + "depth 0"),
}


@each(cases("lawful", LAWFUL))
def lawful(mltx: Program, case: tuple[str, str, str]) -> None:
    subcommand, text, wanted = case
    expect(mltx.run(subcommand, "-", given=lines(text)), out=lines(wanted), what=f"{subcommand} of {text[-300:]!r}")
