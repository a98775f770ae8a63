"""The conflict tables that `mltx tables` prints: cell by cell those of docs/LANGUAGE.md, and an example of each conflict,
which is played by the model in both orders. The matrices, and all that stands in the table of sets, are also written here
by hand, byte for byte."""
import errno
import re
from itertools import product

from harness import ROOT, Program, each, expect, holds, match, same, test
from model import Done, Op, apply, cell_of, clash

TABLES = {"tables-of-accounts": "account", "tables-of-sets": "set", "tables-of-counters": "counter"}
# The classes of an example, what is there before, and its two orders, each with what it leaves.
Example = tuple[tuple[str, str], str, list[tuple[Done, Done, str]]]
# The kind of each table, as LANGUAGE has it, and the classes of the sizes of sets, under their own names there.
KINDS = {"account": "account", "set": "element", "counter": "counter"}


def rows_of_language(head: str) -> list[list[str]]:
    """The cells of each row of the table in LANGUAGE that has this head."""
    text = (ROOT / "docs/LANGUAGE.md").read_text().partition(head + "\n")[2].partition("\n\n")[0]
    return [[cell.strip() for cell in row.strip("|").split("|")] for row in text.splitlines()[1:]]


def classes_of(kind: str) -> list[str]:
    """The classes of a kind in LANGUAGE, in their order, each with its operations and replies."""
    found, at = dict[str, str](), ""
    for name, classes, operations in rows_of_language("| Kind | Class | Operation / reply |"):
        at = name or at
        if at == kind:
            found |= dict.fromkeys(classes.split(", "), operations)
    return list(found)


def pairs_of_language() -> set[tuple[str, ...]]:
    """The pairs of classes that LANGUAGE lists as conflicts."""
    rows = rows_of_language("| Held | Requested later |")
    return {pair for held, asked in rows for pair in product(held.split(", "), asked.split(", "))}


def parts_of(mltx: Program, name: str) -> list[list[str]]:
    """The matrices and the lists of examples of a table, as it is printed."""
    ran = mltx.run("tables", name)
    expect(ran, out=ran.out)
    return [part.splitlines() for part in ran.out.decode().split("\n\n")]


def cells_of(matrix: list[str]) -> tuple[str, dict[tuple[str, str], str]]:
    """The title of a matrix, and the mark of each of its pairs. A mark stands below the last letter of its column's word."""
    title, words = matrix[0].split()[0], [(word.group(), word.end()) for word in re.finditer(r"\S+", matrix[0])][1:]
    marks: dict[tuple[str, str], str] = {}
    for row in matrix[1:]:
        same(len(row.split()), len(words) + 1, row)
        marks |= {(row.split()[0], word): row[end - 1] for word, end in words}
    return title, marks


@each(TABLES)
def table_is_that_of_language(mltx: Program, name: str) -> None:
    """Each cell is marked where LANGUAGE lists its pair, and no other is; rows and columns are the classes in their order."""
    classes, pairs = classes_of(KINDS[name]), pairs_of_language()
    title, marks = cells_of(parts_of(mltx, name)[0])
    same(title, name)
    same(list(marks), list(product(classes, classes)))
    same(marks, {pair: "x" if pair in pairs else "." for pair in product(classes, classes)})


@test
def sizes_are_those_of_language(mltx: Program) -> None:
    """What LANGUAGE has under Counted, on the size of a set, is marked in the row of the size."""
    counted = next(row[2] for row in rows_of_language("| Kind | Class | Operation / reply |") if row[0] == "size of a set")
    replies = re.findall(r"/ (\w+)", counted)
    title, marks = cells_of(parts_of(mltx, "set")[2])
    same(title, "size")
    same(marks, {("size", word): "x" if word.lower() in replies else "." for word in classes_of("element")})


MATRIX_OF_ACCOUNTS = """\
account    Opened Exists Closed NotEmpty Deposited Over Withdrawn Short Balance Missing
Opened          .      x      x        .         x    x         x     x       x       .
Exists          .      .      x        .         .    .         .     .       .       .
Closed          x      .      .        .         .    .         .     .       .       x
NotEmpty        .      .      .        .         .    .         x     .       .       .
Deposited       .      .      x        x         .    x         x     .       x       .
Over            .      .      x        .         .    .         x     .       .       .
Withdrawn       .      .      x        .         x    .         .     x       x       .
Short           .      .      x        .         x    .         .     .       .       .
Balance         .      .      x        .         x    .         x     .       .       .
Missing         x      .      .        .         .    .         .     .       .       .
"""
TABLE_OF_SETS = """\
set        Added Present Removed Absent Yes No
Added          .       x       x      .   x  .
Present        .       .       x      .   .  .
Removed        x       .       .      x   .  x
Absent         x       .       .      .   .  .
Yes            .       .       x      .   .  .
No             x       .       .      .   .  .

Added, then Present, from no element 201 21:
  held add 201 21 added, asked add 201 21 present: element 201 21
  asked add 201 21 added, held add 201 21 present: element 201 21
Added, then Removed, from no element 201 21:
  held add 201 21 added, asked remove 201 21 removed: no element 201 21
  asked remove 201 21 absent, held add 201 21 added: element 201 21
Added, then Yes, from no element 201 21:
  held add 201 21 added, asked has 201 21 yes: element 201 21
  asked has 201 21 no, held add 201 21 added: element 201 21
Present, then Removed, from element 201 21:
  held add 201 21 present, asked remove 201 21 removed: no element 201 21
  asked remove 201 21 removed, held add 201 21 added: element 201 21
Removed, then Added, from element 201 21:
  held remove 201 21 removed, asked add 201 21 added: element 201 21
  asked add 201 21 present, held remove 201 21 removed: no element 201 21
Removed, then Absent, from element 201 21:
  held remove 201 21 removed, asked remove 201 21 absent: no element 201 21
  asked remove 201 21 removed, held remove 201 21 absent: no element 201 21
Removed, then No, from element 201 21:
  held remove 201 21 removed, asked has 201 21 no: no element 201 21
  asked has 201 21 yes, held remove 201 21 removed: no element 201 21
Absent, then Added, from no element 201 21:
  held remove 201 21 absent, asked add 201 21 added: element 201 21
  asked add 201 21 added, held remove 201 21 removed: no element 201 21
Yes, then Removed, from element 201 21:
  held has 201 21 yes, asked remove 201 21 removed: no element 201 21
  asked remove 201 21 removed, held has 201 21 no: no element 201 21
No, then Added, from no element 201 21:
  held has 201 21 no, asked add 201 21 added: element 201 21
  asked add 201 21 added, held has 201 21 yes: element 201 21

size       Added Present Removed Absent Yes No
size           x       .       x      .   .  .

Added, then size, from no element 201 21:
  held add 201 21 added, asked size 201 is 1: element 201 21
  asked size 201 is 0, held add 201 21 added: element 201 21
size, then Added, from no element 201 21:
  held size 201 is 0, asked add 201 21 added: element 201 21
  asked add 201 21 added, held size 201 is 1: element 201 21
Removed, then size, from element 201 21:
  held remove 201 21 removed, asked size 201 is 0: no element 201 21
  asked size 201 is 1, held remove 201 21 removed: no element 201 21
size, then Removed, from element 201 21:
  held size 201 is 1, asked remove 201 21 removed: no element 201 21
  asked remove 201 21 removed, held size 201 is 0: no element 201 21
"""


@test
def table_of_sets_is_written_so(mltx: Program) -> None:
    expect(mltx.run("tables", "set"), out=TABLE_OF_SETS)


@test
def table_of_accounts_is_written_so(mltx: Program) -> None:
    """The matrix byte for byte, one blank line, and the examples, line by line in the form that `example_of` reads."""
    ran = mltx.run("tables", "account")
    matrix, examples = ran.out.decode().split("\n\n")
    same(matrix + "\n", MATRIX_OF_ACCOUNTS)
    rows, marked = examples.split("\n"), list(cells_of(matrix.splitlines())[1].values()).count("x")
    same((len(rows), rows[-1]), (3 * marked + 1, ""))
    for at in range(0, 3 * marked, 3):
        example_of(rows[at : at + 3])


def held_at(value: str) -> int | None:
    """What a cell holds, of its text: None where it is absent."""
    words = value.split()
    if words[0] == "no":
        return None
    return 0 if words[0] == "element" else int(words[2])


def done_of(text: str) -> Done:
    """An operation and its reply, of their text."""
    words = text.split()
    at = len(words) - (2 if words[-2] == "is" else 1)
    return (words[0], *map(int, words[1:at])), " ".join(words[at:])


def play(before: str, operations: list[Op]) -> tuple[list[str], str]:
    """What each operation is told on the cell of the text, one after another, and the text of what they leave. The set
    of the example has no other element."""
    cell, held = before.removeprefix("no ").split()[0], held_at(before)
    told = []
    for op in operations:
        if op[0] == "size":
            told.append(f"is {0 if held is None else 1}")
        else:
            reply, held = apply(held, op)
            told.append(reply)
    shown = {"account": f"account 101 {held}", "element": "element 201 21", "counter": f"counter 301 {held or 0}"}[cell]
    return told, f"no {' '.join(shown.split()[: 3 if cell == 'element' else 2])}" if held is None and cell != "counter" else shown


ORDER = re.compile(r"^  (held|asked) ([a-z0-9 ]+), (held|asked) ([a-z0-9 ]+): ([a-z0-9 ]+)$")


def example_of(lines: list[str]) -> Example:
    """The classes of an example, what is there before, and its two orders."""
    held, asked, before = match(r"^(\w+), then (\w+), from ([a-z0-9 ]+):$", lines[0]).groups()
    orders = []
    for line, roles in zip(lines[1:], (("held", "asked"), ("asked", "held")), strict=True):
        first_role, first, second_role, second, after = match(ORDER, line).groups()
        same((first_role, second_role), roles, line)
        orders.append((done_of(first), done_of(second), after))
    return (held, asked), before, orders


@each({f"examples-in-{name}": table for name, table in TABLES.items()})
def each_mark_has_its_example(mltx: Program, name: str) -> None:
    """There is one for each mark, row by row. Both orders are as the model plays them, and differ; its operations clash,
    with the replies of the first order, and are of the classes that the words say."""
    parts = parts_of(mltx, name)
    for matrix, examples in zip(parts[::2], parts[1::2], strict=True):
        title, marks = cells_of(matrix)
        marked = [pair for pair, mark in marks.items() if mark == "x"]
        if title == "size":
            marked = [pair for size, word in marked for pair in ((word, size), (size, word))]
        shown = [example_of(examples[at : at + 3]) for at in range(0, len(examples), 3)]
        same([pair for pair, _, _ in shown], marked)
        for pair, before, (held_first, asked_first) in shown:
            for first, second, after in (held_first, asked_first):
                same(([first[1], second[1]], after), play(before, [first[0], second[0]]), f"{pair} from {before}")
            (held, asked, after), (asked_then, held_then, after_then) = held_first, asked_first
            same((held[0], asked[0]), (held_then[0], asked_then[0]), f"the operations of {pair}")
            holds((held, asked, after) != (held_then, asked_then, after_then), f"both orders of {pair} are the same")
            holds(clash(held, asked), f"{held} and {asked} do not clash in the model")
            same([word_of(held), word_of(asked)], list(pair))


def word_of(done: Done) -> str:
    """The word of the class of an operation with its reply, by the list of classes in LANGUAGE."""
    op, reply = done
    if op[0] == "size":
        return "size"
    kind = cell_of(op)[0]
    at, words = None, None
    for name, classes, operations in rows_of_language("| Kind | Class | Operation / reply |"):
        at = name or at
        if at == kind and any(is_of(op, reply, part) for part in re.split(r", | or ", operations)):
            words = classes.split(", ")
            if len(words) > 1:
                return words[[is_of(op, reply, part) for part in operations.split(", ")].index(True)]
            return words[0]
    raise AssertionError(f"{done} has no class")


def is_of(op: Op, reply: str, part: str) -> bool:
    """Whether an operation with its reply is what LANGUAGE writes so, as `deposit n / done`, or `close` in a list of those
    that share a reply."""
    names, _, told = part.partition(" / ")
    return names.split()[0] == op[0] and (not told or told.split()[0] == reply.split()[0]) and (bool(told) or reply == "missing")


@test
def tables_are_all_three(mltx: Program) -> None:
    """With no name all tables are printed in their order, with a blank line between; standard input is not read."""
    each_table = [mltx.run("tables", name).out for name in ("account", "set", "counter")]
    expect(mltx.run("tables", given="no text of any kind\n"), out=b"\n".join(each_table))


@test
def examples_of_the_help_of_tables_are_true(mltx: Program) -> None:
    """It shows the table of counters, and its examples, behind an indent."""
    wanted = mltx.run("tables", "counter").out.decode()
    shown = match(r"(?m)^  counter    Counted Read\n(?:(?:  .*)?\n)+", mltx.run("tables", "--help").out.decode())
    same(re.sub("(?m)^  ", "", shown[0]).rstrip("\n") + "\n", wanted)


@each({"each-write-of-a-table-fails": errno.EIO, "each-write-of-a-table-is-interrupted": errno.EINTR}, seconds=0.5)
def writes_of_a_table_fail(mltx: Program, fault: int) -> None:
    """Whichever write fails, that is 13, and what went out before is a front of the text."""
    for number in range(1, len(TABLE_OF_SETS) // 20 + 2):
        ran = mltx.run("tables", "set", env=mltx.shim(FAIL=f"write-out {number} {fault} 20"))
        expect(ran, status=1, out=TABLE_OF_SETS[: 20 * (number - 1)], err="mltx: 13 Io\n", what=f"write {number} fails")


@test
def table_of_no_such_name(mltx: Program) -> None:
    for words in (("element",), ("Account",), ("",), ("account", "set"), ("--trace", "a", "set")):
        ran = mltx.run("tables", *words)
        same((ran.status, ran.out), (2, b""), " ".join(words))
        holds(ran.err.startswith(b"error: "), f"{words}: {ran}")
