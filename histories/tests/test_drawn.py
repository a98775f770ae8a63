"""What `levels --picture` draws of a history of each kind in each format, and what it says where it can't."""
import io
import random
import re
import tempfile
from contextlib import redirect_stderr, redirect_stdout
from pathlib import Path
from xml.etree import ElementTree

import small
from mltx_histories import text
from mltx_histories.cli import main
from mltx_histories.pictures.history import picture_of_history
from small import Made, Op
from test_levels import appended, got, listed, made, wrote

SVG = "{http://www.w3.org/2000/svg}"
LONG, MANY = "v" * 200, range(100, 400)


def held(name: int, coins: int) -> tuple[Op, int]:
    return ("balance", name), coins


# By its kind a history with its anomaly, and of each link the operation that misses something, and the one that it misses.
KINDS: dict[str, tuple[str, list[Made], list[tuple[str, str]]]] = {
    "accounts": ("write skew (G2-item)", made(
        ("", [(("open", 1), "opened"), (("open", 2), "opened"), (("deposit", 1, 50), "done"), (("deposit", 2, 50), "done")]),
        ("", [held(1, 50), held(2, 50), (("withdraw", 1, 40), "done")]),
        ("", [held(1, 50), held(2, 50), (("withdraw", 2, 40), "done")])),
        [("balance 2 is 50", "withdraw 2 40 done"), ("balance 1 is 50", "withdraw 1 40 done")]),
    "sets": ("phantom", made(
        ("", [(("size", 4), 0), (("add", 4, 1), "added")]), ("", [(("size", 4), 0), (("add", 4, 2), "added")])),
        [("size 4 is 0", "add 4 2 added"), ("size 4 is 0", "add 4 1 added")]),
    "counters": ("lost update", made(
        ("", [(("read", 7), 0), (("up", 7, 1), "done")]), ("", [(("read", 7), 0), (("up", 7, 2), "done")])),
        [("read 7 is 0", "up 7 2 done"), ("read 7 is 0", "up 7 1 done")]),
    "registers": ("lost update", made(("", [got("x", None), wrote("x", 5)]), ("", [got("x", None), wrote("x", 6)])),
        [("read x is nil", "write x 6 done"), ("read x is nil", "write x 5 done")]),
    "lists": ("write skew (G2-item)", made(("", [appended("x", 1), listed("y")]), ("", [appended("y", 2), listed("x")])),
        [("read y is []", "append y 2 done"), ("read x is []", "append x 1 done")]),
}


def ran(*words: object) -> tuple[int, str, str]:
    """The status of the command, and what it printed."""
    out, err = io.StringIO(), io.StringIO()
    with redirect_stdout(out), redirect_stderr(err):
        status = main(["levels", *map(str, words)])
    return status, out.getvalue(), err.getvalue()


def labels(svg: str) -> dict[str, list[str]]:
    """The texts of a picture by their roles, in their order."""
    found: dict[str, list[str]] = {}
    for it in ElementTree.fromstring(svg).iter(f"{SVG}text"):
        found.setdefault(it.get("class", ""), []).append("".join(it.itertext()).replace("\u00a0", " "))
    return found


def test_an_anomaly_of_each_kind_is_drawn_in_each_format() -> None:
    """The transactions of the cycle have lanes, with each operation over its reply, and the lines tell of each link."""
    with tempfile.TemporaryDirectory() as folder:
        history, svg = Path(folder, "history"), Path(folder, "picture.svg")
        for kind, (anomaly, wanted, links) in KINDS.items():
            for name, write in small.FORMATS.items():
                history.write_text(write(wanted))
                status, out, err = ran("--picture", svg, history)
                assert (status, err) == (1, ""), f"{kind}, {name}: {err}"
                numbers = re.findall(r"(?m)^begin (\d+)", out)
                found = labels(svg.read_text())
                assert (found["picture"], len(found["lane"])) == ([anomaly], 2), f"{kind}, {name}: {found}"
                assert found["lane"] == [f"transaction {it}" for it in sorted(numbers, key=int)], f"{kind}, {name}: {found}"
                for read, write_ in links:
                    told = [it for it in found["about"] if f": {read} of " in it and f" does not see {write_} of " in it]
                    assert len(told) == 1, f"{kind}, {name}, {read}: {found}"
                    for asked, reply in re.findall(r"(?m)^(.+?) (is .+|[a-z]+)$", f"{read}\n{write_}"):
                        assert asked in found["title"] and reply in found["reply"], f"{kind}, {name}, {asked}: {found}"


def test_the_legend_tells_what_is_read() -> None:
    wanted = {"counters": "counter 7", "registers": "register x", "lists": "list y"}
    for kind, thing in wanted.items():
        keys = labels(picture_of_history(text.read(small.as_text(KINDS[kind][1])), kind))["key"]
        name = thing.split()[1]
        assert f"read {name} asks for {thing}" in keys, f"{kind}: {keys}"


def test_long_values_are_cut_in_their_middle() -> None:
    """A word and a list keep their ends, and characters that a picture can't have are replaced."""
    history = [
        "begin 9", f"op 9 write {LONG} a{LONG}z done", "op 9 write q \x01\U0001f600 done", "commit 9",
        "begin 2", f"op 2 read l is [{' '.join(map(str, MANY))}]", "abort 2"]
    svg = picture_of_history(text.read("\n".join(history)), "long", [f"  1 before 2: `read l is [{' '.join(map(str, MANY))}]`"])
    found = labels(svg)
    assert {*found["lane"]} == {"transaction 2", "transaction 9"}, found
    assert re.fullmatch(r"write (v{5,}\.\.v{5,}) av{5,}\.\.v{5,}z", found["title"][0]), found
    assert found["title"][1] == "write q \ufffd\ufffd", found
    (seen,) = (it for it in found["reply"] if it.startswith("is ["))
    assert re.fullmatch(r"is \[100 101 \d+( \d+)* \.\. (\d+ )+398 399\]", seen), seen
    assert f"1 before 2: read l {seen}" in found["about"], found
    assert float(ElementTree.fromstring(svg).get("width", "")) <= 1000


def test_any_history_is_drawn() -> None:
    """Whatever the numbers of its transactions, and however they end."""
    for number in range(40 * small.CASES):
        history = small.made_up(random.Random(f"{number} of pictures"), number % 2 == 0)
        for at, one in enumerate(history):
            one.number = 90 - at
        found = labels(picture_of_history(text.read(small.as_text(history)), "any"))
        for role, ending in (("committed", "commit"), ("aborted", "abort"), ("open", "")):
            assert len(found.get(role, [])) == sum(one.ending == ending for one in history), (role, found)
        asked = sum(len(one.ops) * (2 if one.ending == "abort" else 1) for one in history)
        assert len([it for it in found["title"] if not it.startswith("..")]) == asked, found


def test_what_cannot_be_drawn_is_told_in_one_line() -> None:
    lost, fine = small.as_text(KINDS["registers"][1]), "begin 1\nop 1 write x 1 done\ncommit 1\n"
    same = small.as_json(KINDS["counters"][1]).replace('"transaction": 2', '"transaction": 1')
    # The history, where its picture goes, and the line; F is the history, and D a directory.
    faults: list[tuple[str | bytes, str, str]] = [
        (lost, "D", "D: Is a directory"),
        (lost, "D/away/x.svg", "D/away/x.svg: No such file or directory"),
        (lost.replace("begin 1", "start 1"), "D/x.svg", "line 1: `start 1 at 10` is no line of a history"),
        (b"\xff\x00", "D/x.svg", "F is no history, as it is no text in UTF-8"),
        ("[" * 100_000, "D/x.svg", "F has lists in lists without end"),
        (f"begin {'9' * 5000}\n", "D/x.svg", "F has a number with too many digits"),
        ('{"transaction": 1e999}', "D/x.svg", "F has a number with too many digits"),
        (same, "D/x.svg", "there is no picture, as two transactions have one number"),
        (lost.replace("commit 1", "op 1 read z is nil\n" * 2000 + "commit 1"), "D/x.svg",
         "the picture would have 2,008 items, and it has room for 2,000"),
    ]
    with tempfile.TemporaryDirectory() as folder:
        history = Path(folder, "history")
        for given, picture, line in faults:
            history.write_bytes(given if isinstance(given, bytes) else given.encode())
            status, _, err = ran("--picture", picture.replace("D", folder), history)
            wanted = re.sub(r"\bF\b", str(history), line.replace("D", folder))
            assert (status, err) == (2, f"mltx-histories: {wanted}\n"), (line, status, err)
        for file in (folder, f"{folder}/away"):
            status, out, err = ran("--picture", f"{folder}/x.svg", file)
            assert (status, out) == (2, "") and re.fullmatch(r"mltx-histories: \S+: [A-Z][a-z ]+\n", err), err
        history.write_text(fine)
        status, _, err = ran("--picture", f"{folder}/x.svg", history)
        assert (status, err) == (0, "mltx-histories: no anomaly is found, so that no picture is written\n"), err
        assert not Path(folder, "x.svg").exists()
