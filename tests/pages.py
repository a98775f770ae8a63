"""Pages: what `tools/picture --page` makes of a schedule or a trace is one file that needs no other, and shows after each
event what the schedule says, worked out by hand. Where a browser is installed, it steps through the page."""
from __future__ import annotations

import re
import shutil
import subprocess
from collections.abc import Iterator
from html.parser import HTMLParser
from pathlib import Path
from xml.etree import ElementTree

from harness import PATIENCE, ROOT, Program, Ran, expect, holds, lines, match, same, test
from model import Cell, Op, apply, cell_of

TOOL = ROOT / "tools/picture"
BROWSERS = ("chromium", "chromium-browser", "google-chrome")
VOID = ("meta", "br")
# Objects by their names, with what committed transactions leave and what the pages have.
Objects = dict[str, tuple[str, str]]

# examples/block-by-reply.txt. Account 101 is opened, has 50 coins, and transaction 1 commits. Transaction 2 withdraws 30 and
# aborts; transaction 3 withdraws 10 and, after that, 40.
ACCOUNT = "account 101"
BLOCK_OBJECTS: list[Objects] = [
    {}, {}, {ACCOUNT: ("–", "0")}, {ACCOUNT: ("–", "50")}, *[{ACCOUNT: ("50", "50")}] * 2, *[{ACCOUNT: ("50", "20")}] * 8,
    *[{ACCOUNT: ("50", "10")}] * 2, *[{ACCOUNT: ("50", "40")}] * 5, {ACCOUNT: ("50", "0")}, {ACCOUNT: ("0", "0")},
]
BLOCKED = "3 is blocked by 2: it wants withdraw 101 40, and on the same object 2 holds withdraw 101 30 done"
# examples/wait-for-a-page.txt. Transactions 2 and 3 deposit 50 and 70 coins into account 101, which has 0. 3 commits first.
PAGE_OBJECTS: list[Objects] = [
    {}, {}, {ACCOUNT: ("–", "0")}, *[{ACCOUNT: ("0", "0")}] * 11, {ACCOUNT: ("0", "50")}, {ACCOUNT: ("0", "50")},
    {ACCOUNT: ("0", "120")}, {ACCOUNT: ("70", "120")}, {ACCOUNT: ("120", "120")},
]
WAITS = "3 waits for 2: deposit 101 70 needs a page that 2 has locked for deposit 101 50"
# Two transactions that wait for each other. The third one, of which the operation is dropped, waits for one of them.
DEADLOCK = lines(
    "begin|begin|whole 1 up 1 2|whole 2 up 2 3|call 1 read 2|step 1 4|call 2 read 1|step 2 4|begin|whole 3 read 1|abort 2"
)
DEADLOCK_TOLD = lines(
    "begun 1|begun 2|done done|done done|called|going|going|going|blocked by 2|called|going|going|going|blocked by 1"
    "|begun 3|blocked by 1|refused 5 Running|depth 0"
)


def draw(*words: object) -> Ran:
    """What a run of the tool came to."""
    ran = subprocess.run([TOOL, *map(str, words)], capture_output=True)
    return Ran(ran.returncode, ran.stdout, ran.stderr)


def make(*words: object) -> Ran:
    """What a run of it that is to make a page came to."""
    return draw("--page", *words)


class _Reader(HTMLParser):
    """Reads HTML into a tree."""

    def __init__(self) -> None:
        super().__init__()
        self.builder = ElementTree.TreeBuilder()

    def handle_starttag(self, tag: str, attrs: list[tuple[str, str | None]]) -> None:
        self.builder.start(tag, {name: value or "" for name, value in attrs})
        if tag in VOID:
            self.builder.end(tag)

    def handle_startendtag(self, tag: str, attrs: list[tuple[str, str | None]]) -> None:
        self.builder.start(tag, {name: value or "" for name, value in attrs})
        self.builder.end(tag)

    def handle_endtag(self, tag: str) -> None:
        self.builder.end(tag)

    def handle_data(self, data: str) -> None:
        self.builder.data(data)


class Section:
    """What holds after so many events, as a page shows it."""

    def __init__(self, element: ElementTree.Element) -> None:
        self.element, self.step = element, int(element.get("data-step", ""))
        self.is_shown = "on" in element.get("class", "").split()
        self.heading = self.said("h2")[0]

    def said(self, path: str) -> list[str]:
        return [" ".join("".join(found.itertext()).split()) for found in self.element.findall(path)]

    def objects(self) -> Objects:
        rows = ([*row.itertext()] for row in self.element.findall(".//tbody/tr"))
        return {name: (committed, pages) for name, committed, pages in rows}

    def of(self, role: str) -> list[str]:
        """What stands under a role, as the reason."""
        return self.said(f".//p[@class='{role}']")

    def items(self, role: str) -> list[str]:
        """The items of a list."""
        return self.said(f".//ul[@class='{role}']/li")


class Page:
    """A page, read from its text or from what a browser made of it."""

    def __init__(self, text: str) -> None:
        reader = _Reader()
        reader.feed(text)
        self.text, self.root = text, reader.builder.close()
        self.sections = [Section(it) for it in self.root.iter("section")]
        self.shapes = [it for it in self.root.iter("g") if it.get("data-from")]

    def of_step(self, step: int) -> list[str]:
        """What the lanes have to show of a step: the text of each label, and the class of each other shape."""
        return [self._named(it) for it in self.shapes if int(it.get("data-from", "")) <= step <= int(it.get("data-to", ""))]

    def shown(self) -> list[str]:
        """What the lanes show."""
        return [self._named(it) for it in self.shapes if "on" in it.get("class", "").split()]

    def _named(self, shape: ElementTree.Element) -> str:
        return "".join(shape.itertext()) or shape[0].get("class", "")

    def check_needs_nothing(self) -> None:
        """It names no other file and no address, and allows none."""
        same(re.findall(r"https?:|@import|\ssrc=", self.text.partition("<body>")[0]), [], "the head")
        for element in self.root.iter():
            holds(element.tag not in ("link", "img", "iframe", "object", "image", "use"), f"<{element.tag}> is there")
            for name, value in element.attrib.items():
                holds(name not in ("src", "srcset", "xlink:href"), f"{name}={value}")
                holds(name != "href" or value.startswith("#"), f"{name}={value}")
        same(set(re.findall(r"url\(([^)]*)\)", self.text)), {"#hatch"}, "what styles refer to")
        policy = [it.get("content", "") for it in self.root.iter("meta") if it.get("http-equiv") == "Content-Security-Policy"]
        holds(len(policy) == 1 and policy[0].startswith("default-src 'none';"), f"the policy {policy}")


def page(*words: object) -> Page:
    """The page that the tool makes."""
    ran = make(*words)
    expect(Ran(ran.status, b"", ran.err), what=f"tools/picture --page {' '.join(map(str, words))}")
    made = Page(ran.out.decode())
    made.check_needs_nothing()
    same([it.step for it in made.sections], list(range(len(made.sections))), "the steps")
    return made


def example(mltx: Program, name: str) -> Page:
    return page("--program", mltx.path, ROOT / "examples" / name)


def by_step(made: Page, role: str) -> dict[int, list[str]]:
    """The lists of a role that have something, by their steps."""
    return {it.step: it.items(role) for it in made.sections if it.items(role)}


@test
def page_of_a_block(mltx: Program) -> None:
    """Each step of examples/block-by-reply.txt."""
    made = example(mltx, "block-by-reply.txt")
    same([it.objects() for it in made.sections], BLOCK_OBJECTS, "the objects")
    same(by_step(made, "waits"), {12: [BLOCKED]}, "who waits for whom")
    section = made.sections[12]
    same(section.heading, "12. step 3 blocked by 2", "the heading")
    holds(section.of("note")[0].startswith("Transaction 3 wants 40 and would get short."), f"{section.of('note')}")
    running = "transaction 3 holds nothing; runs withdraw 101 40, 3 steps so far"
    same(section.items("open"), ["transaction 2 holds withdraw 101 30 done", running], "what is open")
    undoes = "transaction 2 holds withdraw 101 30 done; undoes withdraw 101 30"
    same(made.sections[15].items("open"), [undoes, "transaction 3 holds withdraw 101 10 done"], "in the abort")
    same(made.sections[22].items("open"), [], "what is open at the end")
    same({it.of("depth")[0] for it in made.sections}, {"Depth of the directory: 0"}, "the depth")


@test
def page_of_a_wait(mltx: Program) -> None:
    """Each step of examples/wait-for-a-page.txt. As the deposit of 2 is done, 3 may go on."""
    made = example(mltx, "wait-for-a-page.txt")
    same([it.objects() for it in made.sections], PAGE_OBJECTS, "the objects")
    gone = "3 waited for 2, whose operation has ended: a next step may go on (deposit 101 70)"
    same(by_step(made, "waits"), {13: [WAITS], 14: [gone]}, "who waits for whom")


@test
def page_of_lanes(mltx: Program) -> None:
    """The lanes are shown up to the step, and at the last one as the picture of the whole has them."""
    made = example(mltx, "block-by-reply.txt")
    words = [word for word in made.of_step(6) if word in ("transaction 1", "transaction 2", "transaction 3", "committed 1")]
    same(sorted(words), ["committed 1", "transaction 1", "transaction 2"], "the lanes of step 6")
    shown = made.of_step(12)
    holds(shown.index("tick") > max(at for at, it in enumerate(shown) if it == "operation"), "ticks lie on their bars")
    holds("blocked" not in made.of_step(11) and "blocked" in made.of_step(12), "the arrow comes with its answer")
    same(made.shown(), made.of_step(22), "what is shown where nobody steps")
    holds("committed 2" in made.shown() and "committed 2" not in made.of_step(21), "the last commit")


@test
def page_of_a_deadlock(mltx: Program) -> None:
    """Two that wait for each other, one whose operation is dropped, and the comments that follow an answer."""
    told = DEADLOCK_TOLD.replace("blocked by 2\n", f"blocked by 2\n# `read 2` is asked {'by 1 ' * 50}\n#after < up 2 3\n")
    answers, schedule = mltx.file("deadlock.out", told), mltx.file("deadlock.txt", DEADLOCK)
    made = page("--program", mltx.path, schedule, answers)
    blocked = [
        "1 is blocked by 2: it wants read 2, and on the same object 2 holds up 2 3 done",
        "2 is blocked by 1: it wants read 1, and on the same object 1 holds up 1 2 done",
    ]
    deadlock = "Deadlock: 1 → 2 → 1. Each waits for the end of the next one"
    dropped = "3 is blocked by 1: it wants read 1, and on the same object 1 holds up 1 2 done. The operation is dropped"
    waits = {**dict.fromkeys(range(9, 14), blocked[:1]), **dict.fromkeys((14, 15, 17), [*blocked, deadlock])}
    same(by_step(made, "waits"), {**waits, 16: [*blocked, dropped, deadlock]}, "who waits for whom")
    reasons = {it.step: it.of("reason") for it in made.sections if it.of("reason")}
    same(reasons, {9: [f"read 2 is asked {'by 1 ' * 49}by 1after < up 2 3"]}, "the reasons")
    bare = mltx.file("bare.out", DEADLOCK_TOLD)
    same(draw(schedule, answers), draw(schedule, bare), "the picture, in which they are not")
    same(made.sections[17].objects(), {"counter 1": ("0", "2"), "counter 2": ("0", "3")}, "the objects")


@test
def page_with_reasons(mltx: Program) -> None:
    """What the program says of each block, wait and deadlock stands at its step, and at no other."""
    made = page("--program", mltx.path, mltx.file("deadlock.txt", DEADLOCK))
    reasons = {it.step: it.of("reason")[0] for it in made.sections if it.of("reason")}
    starts = {
        9: "T1 wants read 2; now it would get is 3. T2 holds up 2 3 (done), uncommitted.",
        14: "T2 wants read 1; now it would get is 2. T1 holds up 1 2 (done), uncommitted.",
        16: "T3 wants read 1; now it would get is 2. T1 holds up 1 2 (done), uncommitted.",
    }
    same({step: said[: len(starts.get(step, ""))] for step, said in reasons.items()}, starts, "what stands in the way")
    deadlocks = {step: said.partition("Deadlock: ")[2] for step, said in reasons.items()}
    same(deadlocks, {9: "", 14: "T2 waits for T1, T1 waits for T2.", 16: ""}, "the deadlocks")
    waits = example(mltx, "wait-for-a-page.txt")
    locked = "T3 needs page 0, which T2 has locked for deposit 101 50."
    same({it.step: it.of("reason") for it in waits.sections if it.of("reason")}, {13: [locked]}, "the wait")


def nothing(name: str) -> str:
    """What stands for an object of which nothing is told."""
    return {"account": "–", "set": "{}", "counter": "0"}[name.split()[0]]


class Standing:
    """What stands after each event of a schedule, by the model of the tables."""

    def __init__(self) -> None:
        self.done: list[tuple[int, Op]] = []
        self.asked: dict[int, Op] = {}
        self.commits: list[int] = []

    def tell(self, event: str, answer: str) -> None:
        kind, number, operation = [*event.split(" ", 2), "0", ""][:3]
        transaction, word = int(number), answer.split()[0]
        if kind in ("call", "whole"):
            name, *numbers = operation.split()
            self.asked[transaction] = (name, *map(int, numbers))
        if word == "done":
            self.done.append((transaction, self.asked[transaction]))
        elif word == "committed":
            self.commits.append(transaction)
        elif word == "undone":
            del self.done[max(at for at, it in enumerate(self.done) if it[0] == transaction)]
        elif word == "aborted":
            self.done = [it for it in self.done if it[0] != transaction]

    def objects(self) -> Objects:
        """What the commits leave, in their order, and what all that stands leaves."""
        committed = self._left([op for number in self.commits for it, op in self.done if it == number])
        pages = self._left([op for _, op in self.done])
        names = {**committed, **pages}
        return {it: (committed.get(it, nothing(it)), pages.get(it, nothing(it))) for it in names}

    def _left(self, ops: list[Op]) -> dict[str, str]:
        cells: dict[Cell, int | None] = {}
        for op in ops:
            if op[0] != "size":
                cells[cell_of(op)] = apply(cells.get(cell_of(op)), op)[1]
        left: dict[str, str] = {}
        for (kind, number, *element), value in sorted(cells.items()):
            if kind == "element" and value is not None:
                before = left.get(f"set {number}", "").strip("{}")
                left[f"set {number}"] = "{" + ", ".join([*filter(None, [before]), str(element[0])]) + "}"
            elif kind != "element" and value is not None and (kind, value) != ("counter", 0):
                left[f"{kind} {number}"] = str(value)
        return left


@test
def page_of_a_block_that_ends(mltx: Program) -> None:
    """Once the transaction that is in the way has ended, a next step may go on, and then nobody waits."""
    schedule = lines("begin|whole 1 up 1 2|begin|call 2 read 1|step 2 4|commit 1|step 2")
    made = page("--program", mltx.path, mltx.file("ends.txt", schedule))
    blocked = "2 is blocked by 1: it wants read 1, and on the same object 1 holds up 1 2 done"
    gone = "2 was blocked by 1, which has ended: a next step may go on (read 1)"
    same(by_step(made, "waits"), {8: [blocked], 9: [gone]}, "who waits for whom")
    same(made.sections[10].heading, "10. step 2 going", "the last step")


@test
def page_of_sets(mltx: Program) -> None:
    """The elements of a set stand together, and what is taken out goes."""
    schedule = lines("begin|whole 1 add 4 9|whole 1 add 4 12|whole 1 add 10 7|commit 1|begin|whole 2 remove 4 9")
    made = page("--program", mltx.path, mltx.file("sets.txt", schedule))
    same(made.sections[3].objects(), {"set 4": ("{}", "{9, 12}")}, "before the third is added")
    wanted = {"set 4": ("{9, 12}", "{12}"), "set 10": ("{7}", "{7}")}
    same(made.sections[7].objects(), wanted, "as one is taken out")


@test
def page_of_a_trace(mltx: Program) -> None:
    """Each step of examples/abort-under-deposit.trace: 50 and 70 coins are deposited, and the 50 undone."""
    made = page("--trace", "--program", mltx.path, ROOT / "examples/abort-under-deposit.trace")
    objects = [it.objects() for it in made.sections]
    pages = [{}, {}, {ACCOUNT: ("–", "0")}, *[{ACCOUNT: ("0", it)} for it in ("0", "0", "0", "50", "120", "70", "70")]]
    same(objects, [*pages, {ACCOUNT: ("70", "70")}], "the objects")
    same(made.sections[6].heading, "6. op 4 deposit 101 50 done", "a heading")
    same(made.sections[8].items("open")[0], "transaction 4 holds deposit 101 50 done (undone)", "what is undone")


@test
def page_of_a_false_trace(mltx: Program) -> None:
    """examples/false-reply.trace: `check` refuses it from the first commit on, and before that what stands."""
    made = page("--trace", "--program", mltx.path, ROOT / "examples/false-reply.trace")
    faults = {it.step: it.of("fault") for it in made.sections if it.of("fault")}
    refused = ["mltx check failed: mltx: 11 TraceFault line 4 Reply"]
    same({step: faults.get(step) for step in (3, 5, 6, 7)}, {3: None, 5: refused, 6: refused, 7: refused}, "the faults")
    holds("does not accept the replies of what stands" in faults[4][0], f"{faults[4]}")
    same(made.sections[3].objects(), {ACCOUNT: ("–", "0")}, "before that")


@test
def page_of_nothing(mltx: Program) -> None:
    """A schedule without events, and one with any bytes in its comments."""
    made = page("--program", mltx.path, mltx.file("none.txt", ""))
    same([it.heading for it in made.sections], ["Before the first event"], "the steps")
    comment = b"# </style><script>alert(1)</script> & \xff\nbegin\n"
    made = page("--title", "</title><b>", "--program", mltx.path, mltx.file("any.txt", comment))
    same(made.sections[1].of("note"), ["</style><script>alert(1)</script> & \ufffd"], "the note")
    same(["".join(it.itertext()) for it in made.root.iter("title")], ["</title><b>"], "the title")


@test
def page_that_is_refused(mltx: Program) -> None:
    """Too many events, a program that is not there, and a comment before all answers."""
    many = mltx.file("many.txt", "begin\ncall 1 up 1 1\n" + "step 1\n" * 499)
    ran = make("--program", mltx.path, many)
    fault = "mltx-picture: the program's answers line 501: a page has at most 500 events\n"
    expect(ran, status=1, err=fault, what="501 events")
    away, schedule = mltx.folder / "away", mltx.file("schedule.txt", "begin\n")
    ran = make("--program", away, schedule, mltx.file("answers.txt", "begun 1\ndepth 0\n"))
    holds(ran.status == 1 and str(away).encode() in ran.err, f"a program that is not there: {ran}")
    answers = mltx.file("comment.out", "# why\nbegun 1\ndepth 0\n")
    fault = f"mltx-picture: {answers} line 1: `# why` is no answer to `begin` of line 1 of {schedule}\n"
    expect(make("--program", mltx.path, schedule, answers), status=1, err=fault, what="a comment before all answers")


# What docs/ANSWERS.md shows of exercise 2, but for the base.
ANSWERS_OF_2 = lines(
    "begun 1|done opened|done done|committed 1|begun 2|done done|begun 3|done done|blocked by 2|blocked by 2|committed 2"
    "|done short|done done|committed 3"
).splitlines()


def gallery(mltx: Program) -> Path:
    """The folder of a gallery."""
    folder = mltx.folder / "gallery"
    expect(draw("--gallery", folder, "--program", mltx.path), what="the gallery")
    return folder


def asked(section: Section) -> list[tuple[str, str, bool]]:
    """What is asked after a step, the answer, and whether that is open to see."""
    found = [it for it in section.element.findall("details") if it.get("class") == "next"]
    texts = [[" ".join("".join(part.itertext()).split()) for part in it] for it in found]
    return [(question, answer, "open" in it.attrib) for it, (question, answer) in zip(found, texts)]


@test(seconds=6)
def gallery_has_all_examples_and_exercises(mltx: Program) -> None:
    """A page of each stands in the list, but for exercise 10e, whose lines are no trace; and each page asks."""
    folder = gallery(mltx)
    names = [it.stem for pattern in ("*.txt", "*.trace") for it in (ROOT / "examples").glob(pattern)]
    numbers = [number for number in map(str, range(1, 13)) if number != "10"] + ["10a", "10b", "10c", "10d", "10f"]
    wanted = sorted(f"{name}.html" for name in [*names, *(f"exercise-{number}" for number in numbers)])
    links = re.findall(r'<li><a href="([^"]*)">', (folder / "index.html").read_text())
    same(sorted(links), wanted, "the list")
    same(sorted(it.name for it in folder.iterdir()), sorted([*wanted, "index.html"]), "the pages")
    for name in wanted:
        made = Page((folder / name).read_text())
        same({it.get("href") for it in made.root.iter("a") if not it.get("href", "").startswith("#")}, {"index.html"}, name)
        same([len(asked(it)) for it in made.sections], [1] * (len(made.sections) - 1) + [0], f"{name}: the questions")
        holds(len(made.sections) > 1, f"{name} has no step")
        holds(not any(is_open for it in made.sections for _, _, is_open in asked(it)), f"{name}: an answer is not hidden")


@test(seconds=6)
def gallery_asks_before_it_answers(mltx: Program) -> None:
    """Each question names the next event; the list of events has no answers. Of a trace, the reply is asked."""
    folder = gallery(mltx)
    made = Page((folder / "exercise-2.html").read_text())
    events = match(r"(?ms)^## 2\. .*?\n((?:    [^\n]*\n)+)", (ROOT / "docs/EXERCISES.md").read_text())[1].split("\n")
    wanted = [(f"{event.strip()}: Which answer is next?", answer, False) for event, answer in zip(events, ANSWERS_OF_2)]
    same([it for section in made.sections for it in asked(section)], wanted, "what is asked")
    listed = ["".join(it.itertext()) for it in made.root.findall(".//ol[@class='events']/li")]
    same(listed, [event.strip() for event in events if event], "the list of events")
    traced = [it for section in Page((folder / "first-run.html").read_text()).sections for it in asked(section)]
    ops = ["begin 1", "op 1 open 101", "op 1 deposit 101 500", "op 1 balance 101", "commit 1"]
    replies = ["begun 1", "opened", "done", "is 500", "committed 1"]
    same(traced, [(f"{op}: Which answer is next?", reply, False) for op, reply in zip(ops, replies)], "of a trace")


@test
def gallery_with_other_options(mltx: Program) -> None:
    for words in (["--page"], ["--trace"], ["-o", "x"], [mltx.file("any.txt", "begin\n")]):
        ran = draw("--gallery", mltx.folder / "none", *words)
        holds(ran.status == 2 and b"--gallery takes no other option" in ran.err, f"{words}: {ran}")
    same((mltx.folder / "none").exists(), False, "whether there is a gallery")


def browsed(browser: str, mltx: Program, address: str) -> Page:
    """What a browser makes of a page."""
    words = ["--headless", "--no-sandbox", "--disable-gpu", f"--user-data-dir={mltx.folder}/profile"]
    ran = subprocess.run([browser, *words, "--dump-dom", address], capture_output=True, timeout=PATIENCE)
    holds(ran.returncode == 0, f"{browser} {address}: {ran.stderr.decode(errors='replace')[-300:]}")
    return Page(ran.stdout.decode())


def browsers() -> Iterator[str]:
    """The browsers that are installed and run."""
    for found in (shutil.which(name) for name in BROWSERS):
        if found and subprocess.run([found, "--version"], capture_output=True).returncode == 0:
            yield found


@test(seconds=20)
def pages_in_a_browser(mltx: Program) -> None:
    """Where a browser is installed, it shows of each step that is named its state and its lanes alone, and keys and
    buttons step."""
    browser = next(browsers(), None)
    if browser is None:
        print("    no chromium is installed: what a browser makes of pages is not looked at", flush=True)
        return
    file = mltx.folder / "block.html"
    expect(make("--program", mltx.path, "-o", file, ROOT / "examples/block-by-reply.txt"))
    for fragment, step in (("", 0), ("#step=6", 6), ("#step=12", 12), ("#step=99", 22)):
        _check_shown(browsed(browser, mltx, f"file://{file}{fragment}"), step)
    keys = ("End", "ArrowLeft", "ArrowLeft", "Home", "ArrowRight", "ArrowLeft", "ArrowLeft", "ArrowRight", "ArrowRight")
    for count, step in ((1, 22), (3, 20), (4, 0), (7, 0), (9, 2)):
        pressed = [f"document.dispatchEvent(new KeyboardEvent('keydown', {{key: '{key}'}}))" for key in keys[:count]]
        clicked = [f"document.querySelector('[data-move={key}]').click()" for key in keys[:count]]
        for does in (pressed, clicked):
            text = file.read_text().replace("</body>", f"<script>{'; '.join(does)}</script></body>")
            moved = mltx.file("moved.html", text)
            _check_shown(browsed(browser, mltx, f"file://{moved}"), step)


@test(seconds=20)
def answer_of_a_gallery_in_a_browser(mltx: Program) -> None:
    """It is not to be seen before its question is clicked."""
    browser = next(browsers(), None)
    if browser is None:
        print("    no chromium is installed: what a browser makes of a gallery is not looked at", flush=True)
        return
    text = (gallery(mltx) / "block-by-reply.html").read_text()
    sees = "const sees = () => document.querySelector('.state.on .next p').checkVisibility()"
    clicks = "document.querySelector('.state.on .next summary').click()"
    script = f"<script>{sees}; const before = sees(); {clicks}; document.title = `${{before}} ${{sees()}}`</script>"
    seen = browsed(browser, mltx, f"file://{mltx.file('asked.html', text.replace('</body>', script + '</body>'))}#step=11")
    same(["".join(it.itertext()) for it in seen.root.iter("title")], ["false true"], "whether it is seen, before and after")
    shown = [asked(it) for it in seen.sections if it.is_shown]
    same(shown, [[("step 3: Which answer is next?", "blocked by 2", True)]], "what is shown")


def _check_shown(seen: Page, step: int) -> None:
    shown = [it for it in seen.sections if it.is_shown]
    same([it.step for it in shown], [step], "the step that is shown")
    same(shown[0].objects(), BLOCK_OBJECTS[step], f"the objects of step {step}")
    same(shown[0].items("waits"), [BLOCKED] if step == 12 else [], f"who waits at step {step}")
    same(seen.shown(), seen.of_step(step), f"the lanes of step {step}")
    same(["".join(it.itertext()) for it in seen.root.iter("span") if it.get("id") == "at"], [f"{step} of 22"], "the count")
