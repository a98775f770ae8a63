"""Pictures: what tools/picture draws of a schedule or a trace shows each transaction, operation, reply, commit and
arrow in its place, no label lies on another, and a faulty text is refused. What has to be seen is read from the
schedule and from the outputs that the documents show. And what tools/crate-map draws of the rooms."""
import os
import re
import shlex
import subprocess
from collections import defaultdict
from collections.abc import Iterator
from itertools import combinations
from xml.etree import ElementTree
from xml.etree.ElementTree import Element

from harness import ROOT, Program, Ran, Text, each, expect, holds, lines, match, same, test
from pages import Standing, nothing, page
from rows import EXAMPLES, OUTPUTS
from schedules import ROWS

TOOL = ROOT / "tools/picture"
# The titles of the stored pictures, by the name of the example.
STORED = {
    "block-by-reply": "A withdrawal is blocked as long as its reply is not certain",
    "wait-for-a-page": "Of two deposits one waits for a page, and not for a transaction",
    "abort-under-later-deposit": "A deposit is undone under a later one, which stays",
    "size-of-a-set": "A size conflicts with an addition, and not with another read",
    "split-beside-a-reader": "A bucket is split while another transaction reads",
}
# Those that show what was measured, which are not there before it was.
MEASURED = ["hotspots", "growth", "ablation"]
SCHEDULES = {name: words[1:] for name, words in EXAMPLES.items() if words[0] == "steps"}
# What stands at the points of their arrows.
HELD = {"block-by-reply.txt": ["holds withdraw 101 30"], "wait-for-a-page.txt": ["holds the page"]}
HELD["size-of-a-set.txt"] = ["holds size 201", "holds add 201 22"]
# The most pixels of a picture's width, the least size of a font, and the part of it that a character takes at least.
MOST_WIDTH, LEAST_SIZE, NARROW = 1000, 12, 0.5
# The most lines of the output of a row of which a page is made.
MOST_LINES = 40
# An event, and what it is told.
Told = tuple[str, str]
ENDS_A_WHOLE = ("refused 1 OutOfMemory", "refused 2 NoRoom")


def run(*words: object, given: bytes = b"") -> Ran:
    """What a run of the tool came to."""
    ran = subprocess.run([TOOL, *map(str, words)], input=given, capture_output=True)
    return Ran(ran.returncode, ran.stdout, ran.stderr)


class Label:
    """A text of a picture, and the box that it takes at least."""

    def __init__(self, element: Element, sizes: dict[str, int]) -> None:
        self.role, self.text = element.get("class", ""), "".join(element.itertext())
        self.x, self.y, size = float(element.get("x", "")), float(element.get("y", "")), sizes.get(self.role, sizes[""])
        wide = len(self.text) * size * NARROW
        before = {"start": 0, "middle": wide / 2, "end": wide}[element.get("text-anchor", "start")]
        self.left, self.right = self.x - before, self.x - before + wide
        self.top, self.bottom = self.y - 0.8 * size, self.y + 0.2 * size

    def meets(self, left: float, top: float, right: float, bottom: float) -> bool:
        return self.left < right and left < self.right and self.top < bottom and top < self.bottom


class Picture:
    """A drawn picture, read as XML."""

    def __init__(self, svg: Text) -> None:
        root = ElementTree.fromstring(svg)
        for element in root.iter():
            element.tag = element.tag.rpartition("}")[2]
        style = root.findtext("style", "")
        self.sizes = {"": int(match(r"\btext \{[^}]*font-size: (\d+)px", style)[1])}
        for roles, size in re.findall(r"(\.[^{}]*) \{[^}]*font-size: (\d+)px", style):
            self.sizes.update(dict.fromkeys(re.findall(r"\w+", roles), int(size)))
        self.wide, self.high = float(root.get("width", "")), float(root.get("height", ""))
        self.back = root.findall("rect")[0].attrib
        self.labels = [Label(element, self.sizes) for element in root.iter("text")]
        self.time = root.findall("g")[0]
        self.names = [label for label in self.labels if label.role == "lane"]
        self.arrows = [line for line in self.time.iter("line") if line.get("class") in ("waiting", "blocked", "stands")]

    def lane(self, y: float) -> str:
        """The name of the lane at this height."""
        return min(self.names, key=lambda name: abs(name.y - y)).text

    def in_lanes(self, role: str) -> dict[str, list[str]]:
        """The labels of a role in each lane, from left to right and row by row."""
        found = defaultdict(list)
        for label in sorted(self.labels, key=lambda label: (label.y, label.x)):
            if label.role == role and not label.text.startswith(".. "):
                found[self.lane(label.y)].append(label.text)
        return dict(found)

    def said(self, role: str) -> list[str]:
        return [label.text for label in self.labels if label.role == role]

    def count(self, name: str, role: str) -> int:
        """How many shapes of a kind there are beside those of the legend."""
        return sum(shape.get("class") == role for shape in self.time.iter(name))

    def check_places(self) -> None:
        """Nothing lies outside, and no label on another or on an arrow."""
        holds(self.wide <= MOST_WIDTH, f"{self.wide} pixels wide")
        holds(min(self.sizes.values()) >= LEAST_SIZE, "a font is too small")
        back = self.back["fill"], float(self.back["width"]), float(self.back["height"])
        same(back, ("#ffffff", self.wide, self.high), "the ground")
        for label in self.labels:
            inside = 0 <= label.left and label.right <= self.wide and 0 <= label.top and label.bottom <= self.high
            holds(inside, f"`{label.text}` lies outside")
        for one, other in combinations(self.labels, 2):
            lie_apart = not one.meets(other.left, other.top, other.right, other.bottom)
            holds(lie_apart, f"`{one.text}` and `{other.text}` lie on one another")
        for arrow in self.arrows:
            x, *ends = (float(arrow.get(end, "")) for end in ("x1", "y1", "y2"))
            for label in self.labels:
                holds(not label.meets(x - 1, min(ends), x + 1, max(ends)), f"an arrow goes through `{label.text}`")


def picture(*words: object) -> Picture:
    """The picture that the tool draws."""
    ran = run(*words)
    expect(Ran(ran.status, b"", ran.err), what=f"tools/picture {' '.join(map(str, words))}")
    return Picture(ran.out)


class Wanted:
    """What has to be seen of events and what they were told."""

    def __init__(self) -> None:
        self.titles, self.replies, self.commits, self.standing = (defaultdict[str, list[str]](list) for _ in range(4))
        self.lanes, self.aborted, self.arrows, self.steps = set[str](), list[str](), list[tuple[str, str, str]](), 0
        self.asked: dict[str, str] = {}

    def tell(self, event: str, answer: str) -> None:
        kind, number, operation = [*event.split(" ", 2), "", ""][:3]
        word, _, rest = answer.partition(" ")
        lane = f"transaction {rest if word == 'begun' else int(number)}"
        self.lanes.add(lane)
        if kind in ("call", "whole") and (word != "refused" or answer in ENDS_A_WHOLE):
            self.asked[lane] = operation
            self.titles[lane].append(operation)
        if word == "done":
            self.standing[lane].append(self.asked[lane])
        if word in ("waiting", "blocked"):
            self.arrows.append((word, lane, f"transaction {rest.split()[1]}"))
        if word == "committed":
            self.commits[lane].append(answer)
        elif word == "aborted":
            self.aborted.append(lane)
            self.standing[lane].clear()
        elif word == "aborting" or kind == "back":
            self.titles[lane].append(f"undo {self.standing[lane][-1]}")
        elif word == "undone":
            self.standing[lane].pop()
            self.titles[lane].append(f"undo {self.standing[lane][-1]}")
        self.steps += word == "going"
        if kind == "back":
            self.standing[lane].pop()
        elif word not in ("begun", "called", "going", "committed", "aborting", "aborted"):
            self.replies[lane].append(rest if word == "done" else answer)


def told_of(text: str, output: str) -> tuple[list[Told], list[str]]:
    """Each event of a schedule with what it is told, and the lines behind."""
    answers = iter(output.splitlines())
    told = []
    for words in (line.split() for line in text.splitlines()):
        if words and not words[0].startswith("#"):
            counts = words[0] == "step" and len(words) == 3
            event = " ".join(words[:2] if counts else words)
            told += [(event, next(answers)) for _ in range(int(words[2]) if counts else 1)]
    return told, list(answers)


def check(seen: Picture, told: list[Told]) -> None:
    """A picture shows what these events were told."""
    wanted = Wanted()
    for event, answer in told:
        wanted.tell(event, answer)
    same({name.text for name in seen.names}, wanted.lanes, "the lanes")
    # An undoing that is told in one answer names more than one operation, last to first.
    first = {lane: [title.partition(" then ")[0] for title in over] for lane, over in seen.in_lanes("title").items()}
    same(first, dict(wanted.titles), "what stands over the bars of each lane")
    same(seen.in_lanes("reply"), dict(wanted.replies), "the replies in each lane")
    same(seen.in_lanes("committed"), dict(wanted.commits), "the commits in each lane")
    same(sorted(seen.in_lanes("aborted")), sorted(wanted.aborted), "the aborted transactions")
    ends = [[seen.lane(float(arrow.get(end, ""))) for end in ("y1", "y2")] for arrow in seen.arrows]
    arrows = [(arrow.get("class"), *pair) for arrow, pair in zip(seen.arrows, ends)]
    same(arrows, wanted.arrows, "the arrows, from lane to lane")
    same(seen.count("line", "tick"), wanted.steps, "the steps")
    same(seen.count("circle", "begin"), sum(answer.startswith("begun") for _, answer in told), "the beginnings")
    seen.check_places()


def left_by(end: list[str]) -> str:
    """The line of what is left at the end."""
    words = {"account": "account {} has {}", "element": "set {} has {}", "counter": "counter {} is {}"}
    cells = [words[kind].format(*numbers) for kind, *numbers in map(str.split, end[:-1])]
    depth = end[-1].split()[1]
    return f"What the commits leave: {', '.join(cells) or 'nothing'}. The depth of the directory is {depth}."


@each({f"picture-of-{name.split('.')[0]}": name for name in SCHEDULES})
def picture_of_an_example(mltx: Program, name: str) -> None:
    """The program's answers are drawn as the page of examples shows them, and the comments stand below."""
    file = ROOT / "examples" / name
    told, end = told_of(file.read_text(), lines(OUTPUTS[name]))
    seen = picture("--program", mltx.path, *SCHEDULES[name], file)
    check(seen, told)
    comments = " ".join(re.findall(r"(?m)^#(.*)", file.read_text())).replace("`", "")
    same(" ".join(seen.said("note")).split(), [*comments.split(), *left_by(end).split()], "the notes")
    same(seen.said("event"), HELD.get(name, []), "what is held by the one waited for")
    same(seen.count("rect", "undo"), sum(answer == "aborting" for _, answer in told), "what is undone")


@test(seconds=6)
def pictures_of_all_schedules(mltx: Program) -> None:
    """Each worked row, by the answers that it gives."""
    for name, row in ROWS.items():
        schedule, answers = mltx.file(f"{name}.txt", row.events()), mltx.file(f"{name}.out", row.output())
        seen = picture(schedule, answers)
        check(seen, [(event, answer) for event, answers in row.told() for answer in answers])
        same(" ".join(seen.said("note")).split(), left_by(row.end().splitlines()).split(), f"{name}: what is left")
        same(seen.said("picture"), [name.replace("-", " ").capitalize()], "the title")


@test(seconds=10)
def pages_of_schedules(mltx: Program) -> None:
    """Each step of a page of each worked row, but for the longest ones, has the objects that the model has."""
    for name, row in ((name, row) for name, row in ROWS.items() if row.output().count("\n") <= MOST_LINES):
        made = page(*row.options[0], "--program", mltx.path, mltx.file(f"{name}.txt", row.events()))
        model, sections = Standing(), iter(made.sections)
        same(next(sections).objects(), {}, f"{name}: before the first event")
        for event, answer in ((event, answer) for event, answers in row.told() for answer in answers):
            model.tell(event, answer)
            section = next(sections)
            holds(section.heading.endswith(f" {answer}"), f"{name}: `{section.heading}` for `{event}`, {answer}")
            # What the event took away has a row that tells of nothing.
            seen = {it: values for it, values in section.objects().items() if values != (nothing(it),) * 2}
            same(seen, model.objects(), f"{name}: {section.heading}")
            same(section.of("fault"), [], f"{name}: {section.heading}")
        same(list(sections), [], f"{name}: more steps")


def items(trace: str) -> Iterator[Told]:
    """The lines of a trace as events that are told something."""
    for line in trace.splitlines():
        kind, number, *rest = line.split()
        if kind == "op":
            count = 2 if rest[-2] == "is" else 1
            yield f"whole {number} {' '.join(rest[:-count])}", f"done {' '.join(rest[-count:])}"
        else:
            words = {"begin": "begun", "commit": "committed", "back": "undone", "abort": "aborted"}
            yield f"{kind} {number}", " ".join([words[kind], *(rest or [number])])


@test(seconds=6)
def pictures_of_traces(mltx: Program) -> None:
    """The traces of the examples, and those that the worked rows leave."""
    traces = {file.stem: file.read_text() for file in (ROOT / "examples").glob("*.trace")}
    traces.update((name, row.trace()) for name, row in ROWS.items())
    for name, trace in traces.items():
        seen = picture("--trace", mltx.file(f"{name}.trace", trace))
        check(seen, list(items(trace)))
        same(seen.said("note"), [], "the notes")


@test(seconds=1)
def stored_pictures_are_drawn_anew(mltx: Program) -> None:
    """docs/pictures has what the tool draws of the examples."""
    stored = {file.stem for file in (ROOT / "docs/pictures").iterdir()}
    same(sorted(stored.difference(MEASURED)), sorted([*STORED, "rooms"]), "the stored pictures")
    for name in stored.intersection(MEASURED):
        Picture((ROOT / f"docs/pictures/{name}.svg").read_text()).check_places()
    for name, title in STORED.items():
        words = ["--title", title, *SCHEDULES[f"{name}.txt"], ROOT / f"examples/{name}.txt"]
        ran, file = run("--program", mltx.path, *words), ROOT / f"docs/pictures/{name}.svg"
        expect(Ran(ran.status, b"", ran.err), what=name)
        made = shlex.join(["tools/picture", "-o", f"docs/pictures/{name}.svg", *map(str, words)])
        holds(ran.out == file.read_bytes(), f"{file.name} is not what is drawn; this draws it anew: {made}")


@test
def picture_of_the_rooms(_mltx: Program) -> None:
    """docs/pictures has what the tool draws of crates.txt: each room with its crates, and an arrow to each below it."""
    made = subprocess.run([ROOT / "tools/crate-map", "--picture"], capture_output=True, check=True).stdout
    holds(made == (ROOT / "docs/pictures/rooms.svg").read_bytes(), "rooms.svg is not what is drawn: tools/crate-map --write")
    seen, listed = Picture(made), (ROOT / "crates.txt").read_text()
    same(seen.said("lane"), re.findall(r"(?m)^# (\w+): ", listed), "the rooms")
    named = len(re.findall(r"(?<!\w)_\w+|mlt\w+", " ".join(seen.said("crates"))))
    same(named, len(re.findall(r"(?m)^\w+:", listed)), "how many crates are named")
    seen.check_places()


@test
def any_comment_is_drawn(mltx: Program) -> None:
    """Bytes and signs that XML does not take as they are, comments without words, and a title of any length."""
    schedule = b"#\n# a < b & \x00\xff\"c\"\x1f\n  #\td\nbegin\n#e\n\n"
    title = "<all> & " + "the words of a long title " * 9
    seen = picture("--title", title, mltx.file("any.txt", schedule), mltx.file("any.out", "begun 1\ndepth 0\n"))
    same(" ".join(seen.said("note")).split()[:6], ["a", "<", "b", "&", "\ufffd\"c\"", "d"], "the first note")
    same(" ".join(seen.said("picture")), title.strip(), "the title")
    same(seen.said("open"), ["still open"], "the end of the lane")
    seen.check_places()


@test
def picture_of_little(mltx: Program) -> None:
    """A schedule without events, an empty trace, and a schedule whose first event is refused."""
    file, none = mltx.file("little.txt", "begin\n"), mltx.file("none.out", "depth 0\n")
    seen = picture(file, mltx.file("little.out", "refused 7 TooManyOpen\ndepth 0\n"))
    labels = [seen.said(role) for role in ("lane", "event", "reply")]
    same(labels, [["no transaction"], ["begin"], ["refused 7 TooManyOpen"]], "the labels")
    seen.check_places()
    for words in (["--trace", "-"], ["-", none]):
        seen = picture("--title", "Empty\t\x7f", *words)
        same([seen.said("picture"), seen.said("lane")], [["Empty"], []], f"{words}")
        seen.check_places()


# Transactions 1 to 4, of which 2 is open from line 4 to line 12, and 4 at the end.
LONG = lines(
    "begin 1|op 1 up 301 10 done|commit 1 1|begin 2|op 2 up 302 20 done|begin 3|op 3 up 303 30 done|op 3 up 301 40 done"
    "|op 3 up 304 60 done|commit 3 2|op 2 up 301 50 done|commit 2 3|begin 4|op 4 read 305 is 0"
)
# Which part of it is asked for, the titles in the lanes that are drawn, and the commits.
PARTS: dict[str, tuple[list[str], dict[str, list[str]], dict[str, list[str]]]] = {
    "to": (["--to", "5"], {"1": ["up 301 10"], "2": ["up 302 20"]}, {"1": ["committed 1"]}),
    "from": (["--from", "11"], {"2": ["up 302 20", "up 301 50"], "4": ["read 305"]}, {"2": ["committed 3"]}),
    "from-to": (["--from", "9", "--to", "9"], {"3": ["up 303 30", "up 301 40", "up 304 60"]}, {}),
    "transaction": (["--tx", "2"], {"2": ["up 302 20", "up 301 50"]}, {"2": ["committed 3"]}),
    "transactions": (
        ["--tx", "1,3", "--to", "10"], {"1": ["up 301 10"], "3": ["up 303 30", "up 301 40", "up 304 60"]},
        {"1": ["committed 1"], "3": ["committed 2"]},
    ),
}


@each({f"picture-of-a-part-of-a-trace-by-{name}": case for name, case in PARTS.items()})
def picture_of_a_part_of_a_trace(mltx: Program, case: tuple[list[str], dict[str, list[str]], dict[str, list[str]]]) -> None:
    """The items asked for are drawn, and what their transactions did before."""
    words, titles, commits = case
    seen = picture("--trace", *words, mltx.file("long.trace", LONG))
    same({name.text for name in seen.names}, {f"transaction {number}" for number in titles}, "the lanes")
    same(seen.in_lanes("title"), {f"transaction {number}": over for number, over in titles.items()}, "the operations")
    same(seen.in_lanes("committed"), {f"transaction {number}": over for number, over in commits.items()}, "the commits")
    seen.check_places()


@test(seconds=20)
def picture_of_a_long_trace(mltx: Program) -> None:
    """One of more than 2,000 items is refused, with the options that choose some; a part of it is drawn."""
    item = "begin {0}\nop {0} up 301 1 done\ncommit {0} {0}\n"
    file = mltx.file("long.trace", "".join(item.format(number) for number in range(1, 669)))
    why = "2,004 items would be drawn, and a picture has at most 2,000: choose some by --from N, --to N or --tx N[,N..]"
    expect(run("--trace", file), status=1, err=f"mltx-picture: {file}: {why}\n")
    same(picture("--trace", "--to", "2000", file).count("circle", "begin"), 667, "the transactions of 2,000 items")
    same(picture("--trace", "--from", "2002", file).said("committed")[:1], ["committed 668"], "the last one")


@test
def part_of_a_trace_that_is_not_there(mltx: Program) -> None:
    """Nothing is asked for, or what is no number; and a page and a schedule have no parts."""
    file, schedule = mltx.file("long.trace", LONG), mltx.file("schedule.txt", "begin\n")
    fault = f"mltx-picture: {file}: it has 14 items, and none of them is asked for\n"
    for words in (["--from", "15"], ["--tx", "5"], ["--tx", "1", "--from", "4"], ["--from", "5", "--to", "4"]):
        expect(run("--trace", *words, file), status=1, err=fault, what=f"{words}")
    for words in (["--from", "0"], ["--to", "-1"], ["--tx", "1,"], ["--tx", "x"], ["--page", "--to", "2"]):
        ran = run("--trace", *words, file)
        holds(ran.status == 2 and not ran.out and b"usage: mltx-picture" in ran.err, f"{words}: {ran}")
    same(run("--from", "1", schedule).status, 2, "a part of a schedule")


@test
def terminal_shows_how_far_a_picture_is(mltx: Program) -> None:
    """Standard error has a line that is taken away at the end; where it is no terminal, it has none."""
    file, (terminal, end) = mltx.file("long.trace", LONG), os.openpty()
    ran = subprocess.run([TOOL, "--trace", file], stdout=subprocess.PIPE, stderr=end)
    os.close(end)
    told = os.read(terminal, 100_000).decode()
    os.close(terminal)
    for doing in ("reading", "placing", "drawing"):
        holds(f"\rmltx-picture: {doing}, 0 %" in told, f"nothing tells of {doing}: {told!r}")
    holds(told.endswith("\r\x1b[K"), f"the line stays: {told[-40:]!r}")
    same(Ran(ran.returncode, ran.stdout, b""), run("--trace", file), "the picture")


FAULTS: dict[str, tuple[Text, str | None, str]] = {
    "picture-of-no-event": ("begin\ndepositt 1 5\n", None, "S line 2: `depositt 1 5` is no event"),
    "picture-of-a-number-out-of-range": ("# all\n\nstep 1 1001\n", None, "S line 3: `step 1 1001` is no event"),
    "picture-of-an-operation-short-of-a-number": ("call 1 add 4\n", None, "S line 1: `call 1 add 4` is no event"),
    "picture-of-a-byte": (b"begin\xff\n", None, "S line 1: a byte that is not allowed"),
    "picture-of-a-long-line": (f"#{'x' * 200}\n", None, "S line 1: more than 200 bytes"),
    "picture-without-an-answer": ("begin\nstep 1 2\n", "begun 1\ngoing\n", "A line 3: no answer to `step` of line 2 of S"),
    "picture-of-another-answer": ("begin\n", "called\ndepth 0\n", "A line 1: `called` is no answer to `begin` of line 1 of S"),
    "picture-of-a-block-by-nothing": (
        "begin\nwhole 1 up 7 1\nbegin\nwhole 2 read 6\n", "begun 1\ndone done\nbegun 2\nblocked by 1\ndepth 0\n",
        "A line 4: `blocked by 1`: transaction 1 has done nothing to what `read 6` is on",
    ),
    "picture-of-a-size-blocked-by-another-set": (
        "begin\nwhole 1 add 5 4\nbegin\nwhole 2 size 4\n",
        "begun 1\ndone added\nbegun 2\nblocked by 1\ndepth 0\n",
        "A line 4: `blocked by 1`: transaction 1 has done nothing to what `size 4` is on",
    ),
    "picture-of-answers-without-an-end": ("begin\n", "begun 1\n", "A line 2: the base and the depth are missing"),
    "picture-of-answers-with-too-much": (
        "begin\n", "begun 1\ngoing\ndepth 0\n",
        "A line 2: `going` is no line of the base or of the depth, or is not in its place",
    ),
    "picture-of-a-reply-to-nobody": (
        "begin\nstep 1\n", "begun 1\ndone done\ndepth 0\n",
        "A line 2: `done done`: transaction 1 has nothing that runs and can be told so",
    ),
    "picture-of-a-wait-for-nobody": (
        "begin\nwhole 1 up 7 1\n", "begun 1\nwaiting by 2\ndepth 0\n",
        "A line 2: `waiting by 2`: transaction 2 is not another one that is open",
    ),
    "picture-of-a-commit-of-nobody": (
        "commit 1\n", "committed 1\ndepth 0\n", "A line 1: `committed 1`: transaction 1 is not open"
    ),
}
TRACE_FAULTS = {
    "picture-of-no-trace": ("begin 1\nop 1 up 7 1\n", "T line 2: `op 1 up 7 1` is no line of a trace"),
    "picture-of-a-blank-line": ("begin 1\n\n", "T line 2: `` is no line of a trace"),
    "picture-of-a-cut-trace": ("begin 1", "T line 1: the input ends inside the line"),
    "picture-of-a-line-too-many": ("begin 1\nback 1\n", "T line 2: `undone`: transaction 1 has no operation left"),
    "picture-of-a-second-number": ("begin 2\nbegin 1\n", "T line 2: `begun 1`: the number is not above 2, which has begun"),
    "picture-of-a-commit-out-of-turn": (
        "begin 1\ncommit 1 2\n", "T line 2: `committed 2`: transaction 1 can't commit, or not under this number"
    ),
}


def in_words(fault: str, **files: str) -> str:
    """The line of a fault, with the paths of the files for their letters."""
    return "mltx-picture: " + "".join(files.get(word, word) for word in re.split(r"\b([SAT])\b", fault)) + "\n"


@each(FAULTS)
def faulty_schedule_or_answers(mltx: Program, case: tuple[Text, str | None, str]) -> None:
    schedule, answers, fault = case
    files = {"S": mltx.file("schedule.txt", schedule), "A": mltx.file("answers.txt", answers or "depth 0\n")}
    expect(run(files["S"], files["A"]), status=1, err=in_words(fault, **files))
    if answers is None:
        expect(run("--program", mltx.path, files["S"]), status=1, err=in_words(fault, **files), what="by the program")


@each(TRACE_FAULTS)
def faulty_trace(mltx: Program, case: tuple[str, str]) -> None:
    trace, fault = case
    file = mltx.file("any.trace", trace)
    expect(run("--trace", file), status=1, err=in_words(fault, T=file))


@test
def picture_without_its_files(mltx: Program) -> None:
    """A program or a file that is not there, and command lines that are none."""
    schedule, away = mltx.file("schedule.txt", "begin\n"), f"{mltx.folder}/away"
    fault = f"mltx-picture: there is no program {away}: ./mltx builds it, or give ANSWERS\n"
    expect(run("--program", away, schedule), status=1, err=fault)
    answers = mltx.file("answers.txt", "begun 1\ndepth 0\n")
    for words in ([away], [schedule, away], ["--trace", away], ["-o", f"{away}/x.svg", schedule, answers]):
        ran = run(*words)
        holds(ran.status == 1 and not ran.out and away.encode() in ran.err, f"{words}: {ran}")
    wrong: list[list[str]] = [[], ["--trace", schedule, schedule], ["--hash", "none", schedule]]
    for words in [*wrong, ["--hash", "low", schedule, schedule]]:
        ran = run(*words)
        holds(ran.status == 2 and not ran.out and b"usage: mltx-picture" in ran.err, f"{words}: {ran}")


@test
def picture_to_a_file_and_from_standard_input(mltx: Program) -> None:
    """Wherever the texts come from and the picture goes, it is the same."""
    schedule, answers = mltx.file("two-steps.txt", "begin\n"), mltx.file("answers.txt", "begun 1\ndepth 0\n")
    shown = run(schedule, answers)
    expect(run("-o", mltx.folder / "x.svg", schedule, answers))
    same((mltx.folder / "x.svg").read_bytes(), shown.out, "-o FILE")
    for words, given in ((["-", answers], "begin\n"), ([schedule, "-"], "begun 1\ndepth 0\n")):
        same(run("--title", "Two steps", *words, given=given.encode()), shown, f"{words}")
