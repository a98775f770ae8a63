"""The second line of a fault, with `-v`: the file or address, the system's own words, and what was expected of a faulty text."""
import errno
import socket
from collections.abc import Mapping, Sequence
from pathlib import Path

from harness import MOST_BYTES, Program, each, expect, fault_of, lines, match, of_system, same, test

IO = "mltx: 13 Io\n"
SCRIPTS = lines("begin|open 1|commit")
EVENTS = lines("begin|whole 1 open 1|commit 1")
TRACE = lines("begin 1|op 1 open 1 opened|commit 1 1")
TEXTS = {"solo": SCRIPTS, "run": SCRIPTS, "steps": EVENTS, "check": TRACE}
# Where ADDR is none, what stands behind the words of the system.
ADDRESS = "; expected: an IP address or host name, a colon, and a port from 0 to 65535, such as 127.0.0.1:7000"


def is_said(mltx: Program, words: Sequence[object], fault: str, second: str, out: str = "", given: str = "") -> None:
    """The fault line, and with the flag, wherever it stands, the second line behind it. All else is the same."""
    expect(mltx.run(*words, given=given), status=1, out=out, err=fault, what=f"{words}")
    for flag in ("-v", "--verbose"):
        for put in ([flag, *words], [words[0], flag, *words[1:]], [*words, flag]):
            expect(mltx.run(*put, given=given), status=1, out=out, err=fault + second, what=f"{put}")


@each({f"second-line-of-{name}": (name, text) for name, text in TEXTS.items()})
def second_line_of_a_file(mltx: Program, case: tuple[str, str]) -> None:
    command, text = case
    plain = mltx.file("plain", text)
    for file, number in (("nosuch.txt", errno.ENOENT), (".", errno.EISDIR), (f"{plain}/x", errno.ENOTDIR), ("", errno.ENOENT)):
        is_said(mltx, (command, file), IO, f"mltx: {file}: {of_system(number)}\n")
    expect(mltx.run("-v", command, "-", redirect="<."), status=1, err=f"{IO}mltx: standard input: {of_system(errno.EISDIR)}\n")


@test(seconds=2)
def second_line_of_a_long_file(mltx: Program) -> None:
    long = mltx.file("long.txt", b"\n" * (MOST_BYTES + 1))
    for command in TEXTS:
        ran = mltx.run(command, "-v", long)
        expect(ran, status=1, err=f"{IO}mltx: {long}: more than {MOST_BYTES} bytes\n", what=command)


@test
def second_line_of_a_trace(mltx: Program) -> None:
    """All goes to standard output before, with the flag too."""
    script, schedule = mltx.file("script", SCRIPTS), mltx.file("schedule", EVENTS)
    told = {
        "solo": lines("opened|committed 1"),
        "run": lines("client 0 script 1|opened|committed 1|account 1 0"),
        "steps": lines("begun 1|done opened|committed 1|account 1 0|depth 0"),
    }
    for command, out in told.items():
        file = schedule if command == "steps" else script
        for trace, number in (("/nosuch/x", errno.ENOENT), (".", errno.EISDIR), ("/dev/full", errno.ENOSPC)):
            is_said(mltx, (command, "--trace", trace, file), IO, f"mltx: {trace}: {of_system(number)}\n", out)


@test
def second_line_of_standard_output(mltx: Program) -> None:
    for command, text in TEXTS.items():
        ran = mltx.run(command, "-v", mltx.file("text", text), redirect=">/dev/full")
        expect(ran, status=1, err=f"{IO}mltx: standard output: {of_system(errno.ENOSPC)}\n", what=command)


NO_ADDRESSES = {
    "127.0.0.1": "invalid socket address" + ADDRESS,
    "no address": "invalid socket address" + ADDRESS,
    "-": "invalid socket address" + ADDRESS,
    "127.0.0.1:99999": "invalid port value" + ADDRESS,
    "127.0.0.1:": "invalid port value" + ADDRESS,
    "127.0.0.1:http": "invalid port value" + ADDRESS,
    "192.0.2.1:7000": of_system(errno.EADDRNOTAVAIL),
}


@test
def second_line_of_an_address(mltx: Program) -> None:
    for address, why in NO_ADDRESSES.items():
        is_said(mltx, ("serve", address), IO, f"mltx: {address}: {why}\n")
    with socket.socket() as used:
        used.bind(("127.0.0.1", 0))
        used.listen()
        in_use = "%s:%d" % used.getsockname()
        is_said(mltx, ("serve", in_use), IO, f"mltx: {in_use}: {of_system(errno.EADDRINUSE)}\n")


@test
def flag_changes_nothing_where_there_is_no_fault(mltx: Program) -> None:
    for command, text in TEXTS.items():
        file = mltx.file("text", text)
        quiet = mltx.run(command, file)
        same(quiet.status, 0, command)
        for words in (("-v", command, file), (command, "--verbose", file), (command, file, "-v")):
            expect(mltx.run(*words), out=quiet.out, what=f"{words}")
    with mltx.serve("--verbose") as server:
        same(server.talk("begin\nquit\n"), b"begun 1\nbye\n", "serve --verbose")
        ended = server.end()
        number = match("^mltx: server ([0-9]+)\n$", ended.err.decode())[0]
        expect(ended, out="served 1\n", err=number, what="serve --verbose, but for its number")


BEGINNINGS = {
    "solo": "a line that begins with begin, commit, abort, open, close, deposit, withdraw, balance, add, remove, has, size, "
    "up, down, read, need, let, if, else or end",
    "steps": "a line that begins with begin, call, step, cancel, commit, abort, whole or undo",
    "check": "a line that begins with begin, op, back, commit or abort",
}
WITHDRAW = "`withdraw A n`, A below 2^32, n below 2^64 or a variable"
DEPOSIT = "`deposit A n`, A below 2^32, n below 2^64 or a variable"
OF_SCRIPTS = "this is a line of a script for `solo` and `run`; "
OF_A_SCHEDULE = "this is a line of a schedule for `steps`; "
OF_A_TRACE = "this is a line of a trace for `check`; "
WITH_A_NUMBER = "this begins a script for `run` or a trace for `check`; "
PRINTED = "expected: only tabs and bytes from 0x20 to 0x7e"
IN_COMMENTS = ", except in comment lines"
ALL_ENDED = "expected: a `begin` before it, and an `end` for each `if`"
OPEN_IF = "an `end` ends an `if`, and `commit` or `abort` a transaction; expected: an open `if` before it"
OPEN_SINCE_2 = "the `if` in line 2 has no `end`; expected: an `end` for each `if`"
TOO_LARGE = "is too large: numbers have at most 20 digits, and are below 2^64"
SIGNED = "has a sign: numbers have none"
WHOLE = "`whole T OP`, such as `whole 3 deposit 101 30`"
LET = "`let v = balance A`, `let v = read C` or `let v = size S`"
IN_COMMIT_ORDER = "which the operation gets if the transactions run one after another, in commit order"
UNFINISHED = "the text ends inside a script; expected: a `commit` or an `abort`"
OPEN_TX = "expected: an open transaction "
# A subcommand, its text, the line and the cause of the fault, the line as it is shown, and what is said of it.
FAULTY: Mapping[str, tuple[str, str | bytes, int, str, str, str]] = {
    "schedule-given-to-solo": ("solo", EVENTS, 2, "Words", "whole 1 open 1", f"{OF_A_SCHEDULE}expected: {BEGINNINGS['solo']}"),
    "trace-given-to-solo": ("solo", TRACE, 2, "Words", "op 1 open 1 opened", f"{OF_A_TRACE}expected: {BEGINNINGS['solo']}"),
    "script-given-to-steps": ("steps", SCRIPTS, 2, "Words", "open 1", f"{OF_SCRIPTS}expected: {BEGINNINGS['steps']}"),
    "scripts-of-clients-given-to-steps": (
        "steps", "begin 1\nup 1 1\ncommit\n", 1, "Words", "begin 1",
        f"{WITH_A_NUMBER}expected: `begin`",
    ),
    "script-given-to-check": (
        "check", SCRIPTS, 1, "Words", "begin",
        "this begins a script for `solo` and `run`, or a schedule for `steps`; expected: `begin T`, T at least 1",
    ),
    "scripts-of-clients-given-to-check": (
        "check", "begin 1\nup 1 1\ncommit\n", 2, "Words", "up 1 1", f"{OF_SCRIPTS}expected: {BEGINNINGS['check']}"
    ),
    "byte-order-mark": (
        "solo", b"\xef\xbb\xbf" + SCRIPTS.encode(), 1, "Line", "\\xef\\xbb\\xbfbegin",
        "the text begins with a byte order mark; expected: a text without one",
    ),
    "number-too-large": (
        "solo", "begin\nopen 1\ndeposit 1 12345678901234567890123\ncommit\n", 3, "Words", "deposit 1 12345678901234567890123",
        f"`12345678901234567890123` {TOO_LARGE}; expected: {DEPOSIT}",
    ),
    "number-of-2-to-64": (
        "steps", "begin\nwhole 1 deposit 1 18446744073709551616\n", 2, "Words", "whole 1 deposit 1 18446744073709551616",
        f"`18446744073709551616` {TOO_LARGE}; expected: {WHOLE}",
    ),
    "negative-number": (
        "solo", "begin\nwithdraw 1 -5\ncommit\n", 2, "Words", "withdraw 1 -5", f"`-5` {SIGNED}; expected: {WITHDRAW}"
    ),
    "number-with-a-plus": (
        "check", "begin +1\n", 1, "Words", "begin +1", f"`+1` {SIGNED}; expected: `begin T`, T at least 1"
    ),
    "comment-behind-a-statement": (
        "solo", "begin\nopen 1 # c\ncommit\n", 2, "Words", "open 1 # c",
        "`#` begins a comment: comments have lines of their own, and traces have none; expected: `open A`, A below 2^32",
    ),
    "comment-in-a-trace": ("check", "# c\n", 1, "Words", "# c", f"traces have no comments; expected: {BEGINNINGS['check']}"),
    "unknown-keyword": (
        "solo", "begin\nopn 1\ncommit\n", 2, "Words", "opn 1", f"did you mean `open`? expected: {BEGINNINGS['solo']}"
    ),
    "swapped-letters": (
        "solo", "begin\nblaance 1\n", 2, "Words", "blaance 1", f"did you mean `balance`? expected: {BEGINNINGS['solo']}"
    ),
    "keyword-in-capitals": ("steps", "Begin\n", 1, "Words", "Begin", f"words are in lower case; expected: {BEGINNINGS['steps']}"),
    "unknown-keyword-of-a-trace": (
        "check", "start 1\n", 1, "Words", "start 1", f"`start` is written as `begin`; expected: {BEGINNINGS['check']}"
    ),
    "word-of-another-system": (
        "solo", "begin\nrollback\n", 2, "Words", "rollback", f"`rollback` is written as `abort`; expected: {BEGINNINGS['solo']}"
    ),
    "word-that-is-near-none": (
        "solo", "begin\nhello 1\n", 2, "Words", "hello 1", f"`hello` begins no line here; expected: {BEGINNINGS['solo']}"
    ),
    "two-operations-in-one": (
        "solo", "begin\ntransfer 1 2 50\n", 2, "Words", "transfer 1 2 50",
        f"`transfer` is written as `withdraw` and `deposit`; expected: {BEGINNINGS['solo']}",
    ),
    "value-that-is-set": (
        "solo", "begin\nset 1 50\n", 2, "Words", "set 1 50",
        f"`set` gives no value here: `deposit`, `withdraw`, `up` and `down` change one; expected: {BEGINNINGS['solo']}",
    ),
    "variable-in-a-schedule": (
        "steps", "begin\nwhole 1 deposit 1 v\n", 2, "Words", "whole 1 deposit 1 v",
        f"`v` is a variable, which scripts alone have; expected: {WHOLE}",
    ),
    "variable-in-a-trace": (
        "check", "begin 1\nop 1 up v 1 done\n", 2, "Words", "op 1 up v 1 done",
        "`v` is a variable, which scripts alone have; expected: `op T OP REPLY`, such as `op 3 balance 101 is 70`",
    ),
    "amount-with-a-point": (
        "solo", "begin\ndeposit 1 10.50\n", 2, "Words", "deposit 1 10.50", f"`10.50` is no whole number; expected: {DEPOSIT}"
    ),
    "name-of-an-account": (
        "solo", "begin\nopen alice\n", 2, "Words", "open alice", "`alice` is no number; expected: `open A`, A below 2^32"
    ),
    "comparison-by-greater": (
        "solo", "begin\nif balance 1 > 5\n", 2, "Words", "if balance 1 > 5",
        "`>` is not used: compare replies by `is`; expected: `if OP is REPLY`, such as `if withdraw 101 30 is done`",
    ),
    "comparison-by-equals": (
        "solo", "begin\nneed deposit 1 5 = done\n", 2, "Words", "need deposit 1 5 = done",
        "`=` is not used: compare replies by `is`; expected: `need OP is REPLY`, such as `need withdraw 101 30 is done`",
    ),
    "word-that-is-no-reply": (
        "solo", "begin\nif open 1 is opend\n", 2, "Words", "if open 1 is opend",
        "`opend` is no reply: `open` gets opened or exists; expected: `if OP is REPLY`, such as `if withdraw 101 30 is done`",
    ),
    "word-that-is-no-reply-of-a-trace": (
        "check", "begin 1\nop 1 open 1 opend\n", 2, "Words", "op 1 open 1 opend",
        "`opend` is no reply: `open` gets opened or exists; expected: `op T OP REPLY`, such as `op 3 balance 101 is 70`",
    ),
    "variable-of-five-letters": (
        "solo", "begin\nlet total = balance 1\n", 2, "Words", "let total = balance 1",
        f"`total` is no variable: variables are single letters; expected: {LET}",
    ),
    "arithmetic": (
        "solo", "begin\nlet w = v + 5\n", 2, "Words", "let w = v + 5", f"there is no arithmetic; expected: {LET}"
    ),
    "number-of-a-transaction-with-a-letter": (
        "steps", "begin\nwhole T1 open 1\n", 2, "Words", "whole T1 open 1", f"`T1` is no number; expected: {WHOLE}"
    ),
    "unknown-operation": (
        "steps", "begin\nwhole 1 opn 1\n", 2, "Words", "whole 1 opn 1", f"did you mean `open`? expected: {WHOLE}"
    ),
    "operation-that-is-near-none": (
        "steps", "begin\nwhole 1 begin 1\n", 2, "Words", "whole 1 begin 1", f"`begin` is no operation; expected: {WHOLE}"
    ),
    "missing-argument": ("solo", "begin\r\ndeposit 1\r\ncommit\r\n", 2, "Words", "deposit 1", f"expected: {DEPOSIT}"),
    "missing-operation": (
        "steps", "begin\ncall 1\n", 2, "Words", "call 1", "expected: `call T OP`, such as `call 3 deposit 101 30`"
    ),
    "missing-reply": (
        "check", "begin 1\nop 1 balance 1\n", 2, "Words", "op 1 balance 1",
        "expected: `op T OP REPLY`, such as `op 3 balance 101 is 70`",
    ),
    "client-out-of-range": (
        "run", "begin 1000\n", 1, "Words", "begin 1000", "expected: `begin`, or `begin K` with K from 0 to 999"
    ),
    "line-of-201-bytes": ("solo", "begin\n" + "x" * 201 + "\n", 2, "Line", "x" * 60 + "..", "expected: at most 200 bytes"),
    "line-of-200-bytes": (
        "solo", "begin\n" + "x" * 200 + "\n", 2, "Words", "x" * 60 + "..",
        f"`{'x' * 60}..` begins no line here; expected: {BEGINNINGS['solo']}",
    ),
    "line-of-60-bytes": (
        "solo", "begin\n" + "x" * 60, 2, "Words", "x" * 60,
        f"`{'x' * 60}` begins no line here; expected: {BEGINNINGS['solo']}",
    ),
    "bytes-that-are-not-printed": (
        "solo", b"begin\nopen\t1\x1b[2J\xe9\r\n", 2, "Line", "open\\t1\\x1b[2J\\xe9\\x0d", PRINTED + IN_COMMENTS
    ),
    "carriage-return-at-the-end": ("solo", "begin\ncommit\r", 2, "Line", "commit\\x0d", PRINTED + IN_COMMENTS),
    "byte-of-a-schedule": ("steps", b"begin\n\x7f\n", 2, "Line", "\\x7f", PRINTED + IN_COMMENTS),
    "byte-order-mark-of-a-trace": (
        "check", b"\xef\xbb\xbf" + TRACE.encode(), 1, "Line", "\\xef\\xbb\\xbfbegin 1",
        "the text begins with a byte order mark; expected: a text without one",
    ),
    "byte-of-a-trace": ("check", b"begin 1\n# \xc3\xa4\n", 2, "Line", "# \\xc3\\xa4", PRINTED),
    "statement-outside-a-script": ("solo", "open 1\n", 1, "Place", "open 1", "expected: a `begin` before it"),
    "begin-inside-a-script": ("solo", "begin\nbegin\n", 2, "Place", "begin", "expected: a `commit` or an `abort` before it"),
    "commit-inside-an-if": ("solo", "begin\nif has 1 1 is yes\ncommit\n", 3, "Place", "commit", OPEN_SINCE_2),
    "abort-inside-an-if": ("run", "begin\nif has 1 1 is yes\nabort\n", 3, "Place", "abort", OPEN_SINCE_2),
    "commit-inside-the-second-if": (
        "solo", "begin\nif has 1 1 is yes\nend\nif has 1 2 is yes\nelse\nif has 1 3 is no\nend\ncommit\n", 8, "Place", "commit",
        "the `if` in line 4 has no `end`; expected: an `end` for each `if`",
    ),
    "commit-outside-a-script": ("solo", "commit\n", 1, "Place", "commit", ALL_ENDED),
    "commit-behind-an-if-that-ended-in-crlf": (
        "solo", "begin\r\nif has 1 1 is yes\r\nend\r\ncommit\r\ncommit\r\n", 5, "Place", "commit", ALL_ENDED
    ),
    "else-without-an-if": (
        "solo", "begin\nelse\n", 2, "Place", "else", "expected: an open `if` before it that has no `else` yet"
    ),
    "end-without-an-if": ("solo", "begin\nend\n", 2, "Place", "end", OPEN_IF),
    "ifs-in-one-another": (
        "solo", "begin\n" + "if has 1 1 is yes\n" * 17, 18, "Deep", "if has 1 1 is yes",
        "expected: at most 16 nested `if`",
    ),
    "path-of-257-operations": (
        "solo", "begin\n" + "up 1 1\n" * 257 + "commit\n", 258, "Long", "up 1 1",
        "expected: at most 256 operations on each path from `begin` to here",
    ),
    "script-that-does-not-end": ("run", "begin\nopen 1\n", 2, "Unfinished", "open 1", UNFINISHED),
    "script-that-ends-in-a-blank-line": ("run", "begin\n\n", 2, "Unfinished", "", UNFINISHED),
    "trace-that-is-cut": (
        "check", "begin 1\ncommit 1 1", 2, "Cut", "commit 1 1", "the text ends inside this line; expected: a line feed at its end"
    ),
    "begin-of-a-lower-number": (
        "check", "begin 2\nbegin 1\n", 2, "Place", "begin 1", "expected: a transaction number above all earlier ones"
    ),
    "operation-of-no-transaction": (
        "check", "op 1 open 1 opened\n", 1, "Place", "op 1 open 1 opened", f"{OPEN_TX}without a `back`"
    ),
    "nothing-to-take-back": ("check", "begin 1\nback 1\n", 2, "Place", "back 1", f"{OPEN_TX}that has an operation left"),
    "commit-under-a-wrong-number": (
        "check", "begin 1\ncommit 1 2\n", 2, "Place", "commit 1 2",
        f"{OPEN_TX}without a `back`, and as N the number of earlier commits plus 1",
    ),
    "abort-with-an-operation-left": (
        "check", "begin 1\nop 1 open 1 opened\nabort 1\n", 3, "Place", "abort 1",
        "expected: an open transaction, and before its `abort` a `back` for each of its operations",
    ),
    "reply-that-is-not-right": (
        "check", "begin 1\nop 1 open 1 exists\ncommit 1 1\n", 2, "Reply", "op 1 open 1 exists",
        f"its transaction begins in line 1; expected: `opened`, {IN_COMMIT_ORDER}",
    ),
    "reply-that-is-not-right-in-crlf": (
        "check", "begin 1\r\nop 1 open 1 exists\r\ncommit 1 1\r\n", 2, "Reply", "op 1 open 1 exists",
        f"its transaction begins in line 1; expected: `opened`, {IN_COMMIT_ORDER}",
    ),
    # Account 7 has 9 coins by the commit of transaction 3, before which transaction 2 began; what it took back does not count.
    "reply-that-is-not-right-behind-another-commit": (
        "check",
        "begin 1\nop 1 up 7 1 done\ncommit 1 1\nbegin 2\nop 2 deposit 7 5 missing\nback 2\nabort 2\n"
        "begin 3\nbegin 4\nop 3 open 7 opened\nop 3 deposit 7 9 done\nop 3 deposit 7 1 done\ncommit 3 2\n"
        "op 4 balance 7 is 10\nop 4 withdraw 7 4 done\nop 4 balance 7 is 5\ncommit 4 3\n",
        16, "Reply", "op 4 balance 7 is 5",
        f"its transaction begins in line 9; expected: `is 6`, {IN_COMMIT_ORDER}",
    ),
}


ACCOUNT, SET, ELEMENT, COUNTER = "A below 2^32", "S below 2^16", "S below 2^16, e below 2^32", "C below 2^32"
AMOUNT = "n below 2^64 or a variable"
# Of each kind of text a line for each word that begins one, which has too few words or too many, and the form that is told.
FORMS: Mapping[str, Sequence[tuple[str, str]]] = {
    "solo": (
        ("begin 1 2", "`begin`, or `begin K` with K from 0 to 999"),
        ("commit 1", "`commit`"),
        ("abort 1", "`abort`"),
        ("open", f"`open A`, {ACCOUNT}"),
        ("close 4294967296", f"`close A`, {ACCOUNT}"),
        ("deposit 1", f"`deposit A n`, {ACCOUNT}, {AMOUNT}"),
        ("withdraw 1", f"`withdraw A n`, {ACCOUNT}, {AMOUNT}"),
        ("balance 1 1", f"`balance A`, {ACCOUNT}"),
        ("add 65536 1", f"`add S e`, {ELEMENT}"),
        ("remove 1", f"`remove S e`, {ELEMENT}"),
        ("has 1", f"`has S e`, {ELEMENT}"),
        ("size", f"`size S`, {SET}"),
        ("up 1", f"`up C n`, {COUNTER}, {AMOUNT}"),
        ("down 1", f"`down C n`, {COUNTER}, {AMOUNT}"),
        ("read a", f"`read C`, {COUNTER}"),
        ("need withdraw 1 5", "`need OP is REPLY`, such as `need withdraw 101 30 is done`"),
        ("let v = has 1 1", "`let v = balance A`, `let v = read C` or `let v = size S`"),
        ("if withdraw 1 5", "`if OP is REPLY`, such as `if withdraw 101 30 is done`"),
        ("else 1", "`else`"),
        ("end if", "`end`"),
    ),
    "steps": (
        ("begin x", "`begin`"),
        ("call 1", "`call T OP`, such as `call 3 deposit 101 30`"),
        ("step 1 0", "`step T`, or `step T N` with N from 1 to 1000"),
        ("cancel", "`cancel T`"),
        ("commit", "`commit T`"),
        ("abort 1 1", "`abort T`"),
        ("whole 1", "`whole T OP`, such as `whole 3 deposit 101 30`"),
        ("undo", "`undo T`"),
    ),
    "check": (
        ("begin 1 2", "`begin T`, T at least 1"),
        ("op 1 balance 1", "`op T OP REPLY`, such as `op 3 balance 101 is 70`"),
        ("back 0", "`back T`, T at least 1"),
        ("commit 1", "`commit T N`, T and N at least 1"),
        ("abort", "`abort T`, T at least 1"),
    ),
}


@each({f"form-of-{row[0].split()[0]}-for-{command}": (command, *row) for command, rows in FORMS.items() for row in rows})
def form_of_a_line(mltx: Program, case: tuple[str, str, str]) -> None:
    command, line, form = case
    noticed = WITH_A_NUMBER if (command, line) == ("steps", "begin x") else ""
    file = mltx.file("text", f"{line}\n")
    second = f"mltx: {file}, line 1: `{line}`: {noticed}expected: {form}\n"
    expect(mltx.run(command, "-v", file), status=1, err=fault_of(command, 1, "Words") + second)


@test
def each_word_that_begins_a_line_has_its_form(mltx: Program) -> None:
    """The words whose forms are told are those that a line may begin with, as the line of an unknown word names them."""
    for command, rows in FORMS.items():
        words = [line.split()[0] for line, _ in rows]
        same("a line that begins with " + ", ".join(words[:-1]) + f" or {words[-1]}", BEGINNINGS[command], command)


@each({f"faulty-{name}": case for name, case in FAULTY.items()})
def faulty_text(mltx: Program, case: tuple[str, str | bytes, int, str, str, str]) -> None:
    """Of a file, and of standard input."""
    command, text, line, cause, shown, said = case
    fault, file = fault_of(command, line, cause), mltx.file("text", text)
    is_said(mltx, (command, file), fault, f"mltx: {file}, line {line}: `{shown}`: {said}\n")
    ran = mltx.run(command, "-", "-v", redirect=f"<{file}")
    expect(ran, status=1, err=f"{fault}mltx: standard input, line {line}: `{shown}`: {said}\n", what=f"{command} -")


@test(seconds=0.5)
def writes_of_the_second_line_fail(mltx: Program) -> None:
    """From whichever write on they fail, what went out before is a front of both lines, and the status tells of the fault."""
    file = mltx.file("text", "opn\n")
    second = f"mltx: {file}, line 1: `opn`: did you mean `open`? expected: {BEGINNINGS['solo']}\n"
    said = "mltx: 10 ScriptFault line 1 Words\n" + second
    for number in range(1, len(said) + 1):
        ran = mltx.run("solo", "-v", file, env=mltx.shim(FAIL=f"write-error {number} {errno.EIO} 1 1000000"))
        expect(ran, status=1, err=said[: number - 1], what=f"write {number} fails")


@test
def name_is_shown_in_one_line(mltx: Program) -> None:
    """A file whose name has a line feed, a tab and bytes beyond ASCII."""
    name = "a\nb\tc\u00e4"
    expect(mltx.run("solo", "-v", name), status=1, err=f"{IO}mltx: a\\x0ab\\tc\\xc3\\xa4: {of_system(errno.ENOENT)}\n")
    (Path(mltx.folder) / name).write_text("opn\n")
    fault = "mltx: 10 ScriptFault line 1 Words\n"
    second = f"mltx: a\\x0ab\\tc\\xc3\\xa4, line 1: `opn`: did you mean `open`? expected: {BEGINNINGS['solo']}\n"
    expect(mltx.run("solo", "-v", name), status=1, err=fault + second)


@test
def flag_is_given_once(mltx: Program) -> None:
    file = mltx.file("text", SCRIPTS)
    for words in (("solo", "-v", "-v", file), ("solo", "-vv", file), ("-v", "--verbose", "solo", file)):
        ran = mltx.run(*words)
        same((ran.status, ran.out), (2, b""), f"{words}")
        same(b"'--verbose'" in ran.err, True, f"{ran}")


@test
def flag_alone_is_wrong(mltx: Program) -> None:
    """Without a subcommand nothing is run, and no other option is suggested."""
    for flag in ("-v", "--verbose"):
        ran = mltx.run(flag, given="opn\n")
        same((ran.status, ran.out, b"subcommand" in ran.err, b"--version" in ran.err), (2, b"", True, False), f"{ran}")
