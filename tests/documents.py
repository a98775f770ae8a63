"""Documents: each link leads somewhere, counts are what they say, and what pages show is what the program writes."""
import ast
import csv
import json
import re
import shutil
import subprocess
from html import unescape
from itertools import zip_longest
from pathlib import Path
from typing import NamedTuple
from urllib.parse import unquote
from urllib.request import urlopen

from harness import ROOT, VERSION, Program, each, free_address, holds, match, same, test

LINK = re.compile(r"\]\(([^)\s]+)\)")
# A link to a line of code: the name that is defined there, the file and the line.
LINE_LINK = re.compile(r"\[`(?:\w+::)?(\w+)`\]\(([^)\s#]+)#L(\d+)\)")
# A link to a name of a crate: the name, the crate, and the file in it.
NAME_LINK = re.compile(r"\[`(\w+)`\]\(\.\./crates/(\w+)/([^)\s#]+)\)")


def pages() -> dict[Path, str]:
    """The documents of the repository, with their texts."""
    found = [*ROOT.glob("*.md"), *(ROOT / "docs").glob("*.md"), *(ROOT / "examples").glob("*.md")]
    return {page: page.read_text() for page in [*found, ROOT / "histories/README.md", *(ROOT / "clients").glob("*/README.md")]}


def anchors(text: str) -> set[str]:
    """The names by which links lead to the headings of a document."""
    headings = re.findall(r"(?m)^#+ (.+)$", re.sub(r"(?ms)^```.*?^```", "", text))
    plain = [re.sub(r"\[([^\]]*)\]\([^)]*\)", r"\1", heading).lower() for heading in headings]
    return {re.sub(r"[^\w\- ]", "", heading).strip().replace(" ", "-") for heading in plain}


def output_of(tool: str, *words: str | Path) -> str:
    """What a tool of the repository prints."""
    return subprocess.run([ROOT / "tools" / tool, *words], capture_output=True, text=True, check=True, cwd=ROOT).stdout


def in_text(words: str) -> str:
    """A pattern of these words in a text, wherever its lines are broken."""
    return r"\s+".join(map(re.escape, words.split()))


def blocks_of(text: str) -> list[tuple[str, str]]:
    """The indented blocks of a document, without their indents, each with the paragraph before it."""
    found, paragraph, block, is_new = list[tuple[str, str]](), "", list[str](), True
    for line in [*text.splitlines(), "the end"]:
        if line.startswith("    ") or block and not line:
            block.append(line[4:])
            continue
        if block:
            found.append((paragraph, "\n".join(block).rstrip("\n") + "\n"))
            paragraph, block = "", []
        paragraph = f"{paragraph} {line}".strip() if line and not is_new else line or paragraph
        is_new = not line
    return found


def commands_of(block: str) -> list[tuple[list[str], str]]:
    """What a block shows of commands, each behind a dollar: its words, and the text that it writes."""
    return [(line.split(), wanted) for line, wanted in re.findall(r"(?m)^\$ (.*)\n((?:(?!\$ ).*\n)*)", block)]


@test
def each_linked_library_has_its_licence(_mltx: Program) -> None:
    """A crate of the kit that crates.txt names anew fails."""
    rows = [line.split(":") for line in (ROOT / "crates.txt").read_text().splitlines() if not line.startswith("#")]
    own, named = {row[0] for row in rows}, {name for row in rows for name in row[1].split()}
    same(sorted(named - own - set(re.findall(r"\w+", (ROOT / "NOTICE").read_text()))), [], "crates without a licence")


@test
def each_link_leads_to_a_file_and_a_heading(_mltx: Program) -> None:
    """A file that moved or a heading that was renamed fails."""
    lost, texts = [], pages()
    headings = {page: anchors(text) for page, text in texts.items()}
    for page, text in texts.items():
        lines = {f"{path}#L{number}" for _, path, number in LINE_LINK.findall(text)}
        for link in LINK.findall(text):
            path, _, heading = link.partition("#")
            target = (page.parent / path).resolve() if path else page
            if ":" in path:
                continue
            if not target.exists() or heading and link not in lines and heading not in headings.get(target, ()):
                lost.append(f"{page.relative_to(ROOT)}: {link}")
    holds(not lost, "these links lead nowhere:\n" + "\n".join(lost))


@test
def each_link_to_a_line_leads_to_what_it_names(_mltx: Program) -> None:
    """A function that moved to another line fails. README links the line of `play`, whose contract is the main theorem."""
    for page, text in pages().items():
        for name, path, number in LINE_LINK.findall(text):
            line = ([""] + (page.parent / path).read_text().splitlines())[int(number)]
            holds(re.search(rf"\bfn {name}\b", line), f"{page.relative_to(ROOT)}: line {number} of {path} is {line!r}")
    linked = [(name, path) for name, path, _ in LINE_LINK.findall((ROOT / "README.md").read_text())]
    same(linked, [("act", "crates/mlt_manager/src/manager.rt")], "the lines that README links")


def defines(text: str, name: str) -> bool:
    """Whether a file of code or of definitions defines the name."""
    return bool(re.search(rf"(?m)^\s*(?:(?:pub|unfoldable|abbrev|fn|trait|struct|enum|record|data)\s+)+{name}\b", text))


@test
def each_name_of_the_concepts_is_defined(_mltx: Program) -> None:
    """A name in code is defined in the file that it links. What else is set as code stands so in
    the pages on formats, as a word of a script, a reply, a refusal or a command."""
    text = (ROOT / "docs/CONCEPTS.md").read_text()
    names = ("LANGUAGE", "SCHEDULES", "PROTOCOL", "OPERATING", "CLI")
    formats = "".join((ROOT / f"docs/{page}.md").read_text() for page in names)
    rows = [row for row in text.splitlines() if NAME_LINK.search(row)]
    holds(len(rows) > 15, "the page has its rows")
    for row in rows:
        linked = [(name, (ROOT / "crates" / crate / path).read_text()) for name, crate, path in NAME_LINK.findall(row)]
        lost = [name for name, code in linked if not defines(code, name)]
        same(lost, [], f"names that their files do not define, in {row}")
    words = [word for quoted in re.findall(r"`([^`]+)`", NAME_LINK.sub("", text)) for word in quoted.split()]
    strange = [word for word in words if not re.match(r"mlt_|\d+$", word) and not re.search(rf"\b{word}\b", formats)]
    same(strange, [], "words that no page on formats has")


@test
def the_main_theorem_stands_in_three_documents(_mltx: Program) -> None:
    """Word for word it stands in README, where it is explained, and above its whole text. Elsewhere it is linked."""
    texts = {page.relative_to(ROOT): " ".join(text.replace("\n> ", "\n").split()).lower() for page, text in pages().items()}
    theorem = match(r"\*\*(after any list of [^*]*)\.\*\*", texts[(ROOT / "README.md").relative_to(ROOT)])[1]
    found = sorted(str(page) for page, text in texts.items() if theorem in text)
    same(found, ["README.md", "docs/HEADLINE.md", "docs/THEOREM.md"], "where it stands")


@test
def each_group_of_tests_is_told_of(_mltx: Program) -> None:
    """The first comment of a file of tests says what it tests."""
    for file in (ROOT / "tests").glob("*.py"):
        holds(ast.get_docstring(ast.parse(file.read_text())), f"{file.name} has a comment")


@test
def the_map_of_the_crates_is_that_of_their_list(_mltx: Program) -> None:
    """The table of crates in ARCHITECTURE is what tools/crate-map makes of crates.txt and the comments of the crates."""
    text, made = (ROOT / "docs/ARCHITECTURE.md").read_text(), output_of("crate-map")
    table = match(r"(?ms)^\| Crate \| What it does .*?\n(?=\n)", text)[0]
    same(table.splitlines(), made.splitlines(), "the table")
    crates = re.findall(r"(?m)^(\w+):", (ROOT / "crates.txt").read_text())
    same(re.findall(r"(?m)^\| \[`(\w+)`\]\(\S+\) \| \S", table), crates, "the crates with a comment")
    same(sorted(crates), sorted(folder.name for folder in (ROOT / "crates").iterdir()), "the folders of crates")


def linked_libraries(kit: Path | None, crate: str = "mltx") -> set[str]:
    """The libraries that a crate is linked from, without the standard library and what that alone uses. Without a kit, just
    those that rows of crates.txt name."""
    rows: dict[str, str] = dict(re.findall(r"(?m)^(\w+):(.*)$", (ROOT / "crates.txt").read_text()))

    def below(name: str) -> list[str]:
        if name in rows:
            return rows[name].split()
        return re.findall(r"(?m)^dep (\w+)$", (kit / f"rlibs/{name}.rlib/format").read_text()) if kit else []

    def reached(names: list[str]) -> set[str]:
        found = list(names)
        for name in found:
            found += [it for it in below(name) if it not in found]
        return set(found)

    named = {it for row in rows.values() for it in row.split()}
    return reached([crate]) - (reached(["std"]) - named) - set(rows)


@test
def edits_that_must_fail_are_counted(_mltx: Program) -> None:
    """How many edits there are, as DEVELOPING says."""
    developing = (ROOT / "docs/DEVELOPING.md").read_text()
    count = len([*ROOT.glob("crates/*/must-fail/*.edit")])
    same(re.findall(in_text("There are") + r"\s+(\d+)\s+edits", developing), [str(count)], "the edits in the sentence")


@test
def each_library_that_is_trusted_is_named(_mltx: Program) -> None:
    """THEOREM names just the libraries of the kit that the program is linked from, and says on how many theorems rest: where a
    row of crates.txt, or such a library, takes up another one, it fails. On a machine without the kit only the rows are read."""
    section = (ROOT / "docs/THEOREM.md").read_text().partition("## What one has to trust")[2].partition("\n## ")[0]
    named, rt = set(re.findall(r"`(\w+)`", section)) - {"run", "serve"}, shutil.which("rt")
    kit = Path(rt).resolve().parent.parent if rt else None
    linked = linked_libraries(kit)
    holds(linked <= named, f"THEOREM does not name {sorted(linked - named)}")
    if rt:
        same(sorted(named), sorted(linked), "the libraries that THEOREM names")
        said = re.search(in_text("proves:") + r" (\d+) for the headline, (\d+) for `run`, (\d+) for `serve`", section)
        rests = [linked_libraries(kit, crate) - {"libc"} for crate in ("mlt_manager", "mlt_work", "mlt_serve")]
        same(said and said.groups(), tuple(str(len(those)) for those in rests), "how many each theorem rests on")


@test
def the_rooms_are_those_of_the_list(_mltx: Program) -> None:
    """Each room of crates.txt has its promise in ARCHITECTURE, in the same order, and each crate stands in its own room."""
    known, room = dict[str, list[str]](), ""
    for line in (ROOT / "crates.txt").read_text().splitlines():
        room = found[1] if (found := re.match(r"# (\w+): ", line)) else room
        if crate := re.match(r"\w+(?=:)", line):
            known.setdefault(room, []).append(crate[0])
    text = (ROOT / "docs/ARCHITECTURE.md").read_text().partition("## The rooms\n")[2].partition("\n## ")[0]
    same(re.findall(r"(?m)^\| `(\w+)` \| \S", text), list(known), "the rooms with a promise")
    for room, crates in known.items():
        strange = [crate for crate in crates if not f"{crate}_".startswith((f"mlt_{room}_", "mltx_"))]
        same(strange, [], f"crates of other rooms that stand in {room}")


@test
def lines_of_the_headline_are_counted(_mltx: Program) -> None:
    """README and THEOREM have the counts of tools/headline-lines, those of part one and of part two."""
    counts = re.findall(r"(?m)^ +(\d+) lines$", output_of("headline-lines"))
    same(len(counts), 2, "the parts")
    readme, theorem = ((ROOT / page).read_text() for page in ("README.md", "docs/THEOREM.md"))
    said = re.findall(r"\[(\d+)\s+(?:lines\s+of\s+definitions|more)\]\(docs/HEADLINE", readme)
    same(said, counts, "the lines in README")
    same(re.findall(r"(\d+)\s+lines", theorem), counts, "the lines in THEOREM")


@test
def the_theorem_is_short(_mltx: Program) -> None:
    """The parts of HEADLINE have at most 220 and 130 lines, and it at most 5,000 words, so that it is read in an hour; THEOREM
    has at most 2,000."""
    counts = [int(count) for count in re.findall(r"(?m)^ +(\d+) lines$", output_of("headline-lines"))]
    words = [len((ROOT / "docs" / page).read_text().split()) for page in ("HEADLINE.md", "THEOREM.md")]
    longer = [(many, most) for many, most in zip(counts + words, (220, 130, 5_000, 2_000), strict=True) if many > most]
    same(longer, [], "lines or words, and how many may be")


def is_written_by(page: Path, tool: str, *words: str) -> None:
    """The document is what the tool prints."""
    written, ran = page.read_text(), subprocess.run([ROOT / "tools" / tool, *words], capture_output=True, text=True)
    holds(not ran.returncode, ran.stderr)
    lines = zip_longest(written.splitlines(), ran.stdout.splitlines())
    first = next((f"{was}\nwanted {now}" for was, now in lines if was != now), "its end")
    holds(written == ran.stdout, f"tools/{tool} --write was not run: {first}")


@test
def figures_are_those_that_were_measured(_mltx: Program) -> None:
    """PERFORMANCE has thirteen rows of bench/results. README, CONCEPTS and the picture have figures of these files."""
    is_written_by(ROOT / "docs/PERFORMANCE.md", "results")
    same(len(re.findall(r"(?m)^\| \w+: .*\|$", (ROOT / "docs/PERFORMANCE.md").read_text())), 13, "the rows")
    known = {group: list(csv.DictReader((ROOT / f"bench/results/{group}.csv").read_text().splitlines()))
             for group in ("hotspots", "serve", "connections", "hot")}

    def commits(clients: int) -> dict[str, float]:
        workload = f"{clients} clients, a hot counter, 2 ms to think, 10 % aborted"
        rows = [row for row in known["hotspots"] if row["workload"] == workload]
        return {"mltx": float(rows[0]["value"]), **{row["compared with"]: float(row["other value"]) for row in rows}}

    readme, concepts = ((ROOT / page).read_text() for page in ("README.md", "docs/CONCEPTS.md"))
    rates, gap = commits(32), r"\D+"
    wanted = tuple(f"{rates[name]:,.0f}" for name in ("mltx", "PostgreSQL", "Redis WATCH"))
    same(match(rf"`mltx` commits ([\d,]+){gap}PostgreSQL (\d+){gap}(\d+)\.", readme).groups(), wanted, "README")
    same(match(rf"`mltx` commits ([\d,]+){gap}PostgreSQL (\d+)", concepts).groups(), wanted[:2], "CONCEPTS")
    others = [row for group in ("serve", "connections", "hot") for row in known[group]]
    ratios = [float(row["ratio"]) for row in others if row["compared with"] == "Redis"]
    said = match(r"`serve` reached ([\d.]+) to ([\d.]+) times the rate of Redis", " ".join(readme.split()))
    same(said.groups(), (f"{min(ratios):.2f}", f"{max(ratios):.1f}"), "the range in README")
    drawn = dict(re.findall(r">([\w ]+): ([\d,]+)<", (ROOT / "docs/pictures/hotspots.svg").read_text()))
    same(drawn.pop("no lock"), "14,400", "the limit in the picture")
    same(drawn, {name: f"{figure:,.0f}" for name, figure in commits(64).items()}, "the figures in the picture")


class Change(NamedTuple):
    """A change of a file under crates/: each text of it that is replaced, by what, and what HEADLINE then has or has not."""

    path: str
    texts: dict[str, str]
    shown: str = ""
    hidden: str = ""


COURSES, RUNS = "mlt_manager/specs/Courses.antt", "mlt_work/specs/Runs.antt"
ACT = "    pub fn act(&mut self, event: Event) -> Told\n"
COUNTED = "  -- the events that the workers counted are those of the manager\n"
BUSY, IS_BUSY = "-- an operation is pending, or the abort has begun\n", "(life ≢ NotOpen) × (life ≢ Idle)"
HELPER = f"at_work : Life → Type 0\nat_work life = {IS_BUSY}\n\n"
USES_HELPER = {f"IsBusy life = {IS_BUSY}": "IsBusy life = at_work life"}


@each({
    "a-premise-is-shown": Change("mlt_manager/src/manager.rt", {ACT: f"{ACT}        requires never {{ 7 ≡ 8 }}\n"},
                                 "event: Event) -> Told // in part\n    requires never { 7 ≡ 8 }\n"),
    "a-comment-is-shown-over-its-field": Change(RUNS, {COUNTED: "", "  pub base :": f"{COUNTED}  pub base :"},
                                                f"{COUNTED}  base :"),
    "a-comment-goes-with-its-field": Change(
        RUNS, {COUNTED: "", "  pub outcomes :": f"{COUNTED}  pub outcomes :"}, "HasRunAll", COUNTED),
    "the-comment-of-a-field-that-is-left-out-is-not-shown": Change(
        RUNS, {"-- the manager has these limits": "-- LEFT OUT"}, "HasRunAll", "LEFT OUT"),
    "a-helper-is-named": Change(COURSES, {BUSY: f"-- is at something\n{HELPER}{BUSY}", **USES_HELPER},
                                "| `at_work` | is at something |"),
})
def the_headline_shows_a_change(mltx: Program, change: Change) -> None:
    """HEADLINE changes where a premise is added to a contract, a comment is moved to another field, or a helper is used."""
    text = text_of_headline(mltx, change)
    same(text.returncode, 0, text.stderr)
    holds(change.shown in text.stdout, f"HEADLINE does not show {change.shown}")
    holds(not change.hidden or change.hidden not in text.stdout, f"HEADLINE shows {change.hidden}")


@test
def the_headline_hides_no_helper(mltx: Program) -> None:
    """tools/headline-lines stops at a private helper that has no comment."""
    text = text_of_headline(mltx, Change(COURSES, {BUSY: HELPER + BUSY, **USES_HELPER}))
    holds(text.returncode != 0 and "at_work is private" in text.stderr, f"{text.returncode}: {text.stderr}")


def text_of_headline(mltx: Program, change: Change) -> subprocess.CompletedProcess[str]:
    """What tools/headline-lines prints after the change, in a copy."""
    for folder in ("tools", "crates"):
        shutil.copytree(ROOT / folder, mltx.folder / folder, ignore=shutil.ignore_patterns("out", "proofs", "must-fail", "data"))
    file = mltx.folder / "crates" / change.path
    text = file.read_text()
    for old, new in change.texts.items():
        same(text.count(old), 1, f"how often {change.path} has {old}")
        text = text.replace(old, new)
    file.write_text(text)
    return subprocess.run([mltx.folder / "tools/headline-lines", "--text"], capture_output=True, text=True)


@test
def figures_of_the_ablation_are_those_that_were_measured(_mltx: Program) -> None:
    """The picture has the rates of 64 clients that think, and PERFORMANCE those of 32 that withdraw from one account."""
    rows = list(csv.DictReader((ROOT / "bench/results/ablation.csv").read_text().splitlines()))

    def rates(clients: int, work: str) -> dict[str, str]:
        found = [row for row in rows if row["workload"].startswith(f"{clients} clients, {work}") and ", 2 ms" in row["workload"]]
        own = {"replies": f"{float(found[0]['value']):,.0f}"}
        return own | {row["compared with"]: f"{float(row['other value']):,.0f}" for row in found}

    works = {"account": "a hot account", "SmallBank": "SmallBank"}
    wanted = {f"{name}, {rule}": rate for name, work in works.items() for rule, rate in rates(64, work).items()}
    drawn = dict(re.findall(r">(\w+, [\w/]+): ([\d,]+)<", (ROOT / "docs/pictures/ablation.svg").read_text()))
    same(drawn, wanted, "the figures in the picture")
    said = match(r"account and think commit ([\d,]+) .*? replies, and ([\d,]+) without", " ".join(
        (ROOT / "docs/PERFORMANCE.md").read_text().split()))
    account = rates(32, "a hot account")
    same(said.groups(), (account["replies"], account["operations"]), "PERFORMANCE")


@test
def the_text_of_the_headline_is_that_of_its_files(_mltx: Program) -> None:
    """HEADLINE is what tools/headline-lines makes of the definitions. One that was changed in its file alone fails."""
    is_written_by(ROOT / "docs/HEADLINE.md", "headline-lines", "--text")


@test
def each_definition_that_counts_is_shown_once(_mltx: Program) -> None:
    """In each part of HEADLINE stand just the names that tools/headline-lines counts in it, each once in a block of its file, and
    as many lines, without comments: one that is left out, cut off or shown twice fails."""
    text, counted = (ROOT / "docs/HEADLINE.md").read_text(), output_of("headline-lines")
    starts = {"rt": r"(?m)^(?:enum|struct|fn) ([\w:]+)", "antt": r"(?m)^(?:(?:record|data) (?=\w)|(?=\w+ : ))(\w+)"}
    for title, rows, lines in re.findall(r"(?ms)^(Part [^\n]*):\n(.*?)^ +(\d+) lines$", counted):
        part = text.partition(f"\n## {title}\n")[2].partition("\n## ")[0]
        wanted = [(path, name) for path, names in re.findall(r"(?m)^ +\d+ (\S+): (.*)$", rows) for name in names.split()]
        blocks = re.findall(r"(?ms)^\[(\S+)\]\(\.\./crates/\1\)\n\n```\w+\n(.*?)^```$", part)
        named = [(path, name) for path, code in blocks for name in re.findall(starts[path.rpartition(".")[2]], code)]
        same(named, wanted, f"the definitions of {title}")
        code = [line for _, shown in blocks for line in shown.splitlines() if line and not re.match(r"\s*(--|//)", line)]
        same(len(code), int(lines), f"the lines of {title}")


@test
def definitions_are_printed_and_linked(mltx: Program) -> None:
    """tools/definitions prints one with its place, its comment and the names that it uses. On its pages each link leads to a
    definition, and each definition of specs/ has its place."""
    path = ROOT / "crates/mlt_manager/specs/Events.antt"
    code = match(r"(?m)(?:^--.*\n)+pub record Plays(?:.+\n)+", path.read_text())[0]
    printed, line = output_of("definitions", "Plays"), path.read_text().partition("pub record Plays ")[0].count("\n") + 1
    shown, _, used = printed.partition("\n\nuses\n")
    same(shown.replace("\n    ", "\n"), f"{path.relative_to(ROOT)}:{line}\n\n{code.rstrip()}", "what is printed")
    holds({"IsRun", "Event"} <= set(used.split()), f"the names that it uses: {used}")
    output_of("definitions", "--site", mltx.folder / "site")
    pages = {file.name: file.read_text() for file in (mltx.folder / "site").iterdir()}
    places = {f"{name}#{place}" for name, text in pages.items() for place in re.findall(r'<pre id="([^"]*)"', text)}
    linked = {unquote(link) for text in pages.values() for link in re.findall(r'<a href="([^"]*#[^"]*)"', text)}
    same({unescape(place) for place in places}, linked, "the definitions that are linked")
    starts = r"(?m)^ *(?:(?:abbrev|unfoldable) pub|pub (?:record|data)) "
    found = [start for file in ROOT.glob("crates/*/specs/*.antt") for start in re.findall(starts, file.read_text())]
    same(len(places), len(found), "the definitions")


# The pages that show commands with what they write.
PAGES_WITH_COMMANDS = ("README.md", "docs/TUTORIAL.md", "docs/CLI.md")


@each({f"commands-of-{page.rpartition('/')[2].partition('.')[0].lower()}": page for page in PAGES_WITH_COMMANDS})
def page_shows_what_is_written(mltx: Program, page: str) -> None:
    """Each command of `mltx` writes what the page shows, on both outputs, in a folder with the files that the page shows before:
    a block is a file where the paragraph before it ends with its name and a colon. Scripts side by side are run by one worker."""
    for paragraph, block in blocks_of((ROOT / page).read_text()):
        if name := re.search(r"`([\w-]+\.\w+)`:$", paragraph):
            mltx.file(name[1], block)
        for words, wanted in commands_of(block):
            if words[0] == "cat":
                same((mltx.folder / words[1]).read_text(), wanted, " ".join(words))
            elif words[0].endswith("mltx") and words[1] not in ("serve", "shell"):
                words += ["--workers", "1"] if words[1] == "run" else []
                ran = mltx.run(*(ROOT / word if word.startswith("examples/") else word for word in words[1:]))
                same((ran.out + ran.err).decode(), wanted, " ".join(words))


def columns_of(page: str) -> list[list[str]]:
    """The two columns of the first block of a page: the lines that go in, and those that come out."""
    rows = [re.split(" {2,}", line) for line in blocks_of((ROOT / page).read_text())[0][1].splitlines()]
    return [[row[at] for row in rows if row[at:] and row[at]] for at in (0, 1)]


@test
def schedules_begin_with_a_schedule(mltx: Program) -> None:
    """SCHEDULES shows a schedule and the answers, and says below what follows them."""
    left, right = columns_of("docs/SCHEDULES.md")
    ran = mltx.run("steps", "-", given="".join(f"{line}\n" for line in left))
    same(ran.out.decode().splitlines(), [*right, "account 101 70", "depth 0"], "the answers")


@test
def protocol_begins_with_a_session(mltx: Program) -> None:
    """Lines and answers, over a connection of a server whose only option is its address."""
    left, right = columns_of("docs/PROTOCOL.md")
    with mltx.serve(limit=None) as server, server.connect() as peer:
        same([peer.ask(line) for line in left], right, "the answers")


@test
def numbers_of_an_operator_are_told_of(mltx: Program) -> None:
    """OPERATING names each number of /status and of /metrics, and alerts and a dashboard read no other."""
    page, admin = (ROOT / "docs/OPERATING.md").read_text(), free_address()
    with mltx.serve("--endless", limit=None, admin=admin) as server:
        server.connect().ask("quit")
        told = {path: urlopen("http://%s:%d/%s" % (*admin, path)).read().decode() for path in ("status", "metrics")}
    rows = re.findall(r"(?m)^\| ([^|]*) \| ([^|]*(?:mltx|process)_[^|]*|) ?\|[^|]*\|$", page)
    same([name for cell, _ in rows for name in re.findall(r"`(\w+)`", cell)], list(json.loads(told["status"])), "the numbers")
    named = [name for _, cell in rows for name in re.findall(r"`(\w+)`", cell)]
    same(sorted(named), sorted(re.findall(r"(?m)^# TYPE (\w+) ", told["metrics"])), "the metrics")
    readers = "".join((ROOT / "contrib" / name).read_text() for name in ("alerts.yml", "dashboard.json"))
    read = {name.removesuffix("_bucket") for name in re.findall(r"\bmltx_\w+", page + readers)}
    same(read - set(named), set(), "names that no metric has")


@test
def version_of_the_pages_is_that_of_the_program(_mltx: Program) -> None:
    """Each version that a page shows is that of the client, which other tests compare with the program."""
    for page in ("docs/OPERATING.md", "docs/DEVELOPING.md", "docs/mltx.1"):
        same(set(re.findall(r"\bmltx (\d+\.\d+\.\d+)", (ROOT / page).read_text())), {VERSION}, f"the versions in {page}")


@test
def options_of_the_pages_exist(_mltx: Program) -> None:
    """Each option that a page for users names is one of the program, as its help shows, or of a tool that the page calls."""
    known = set(re.findall(r"(?m)^ +(?:-\w, )?(--[\w-]+)", (ROOT / "docs/CLI.md").read_text()))
    known |= {"--page", "--pid", "--write"}
    names = ("TUTORIAL", "CONCEPTS", "LANGUAGE", "SCHEDULES", "PROTOCOL", "OPERATING", "CLI")
    for page in ("README.md", *(f"docs/{name}.md" for name in names)):
        named = set(re.findall(r"(?<![\w-])--[a-z][\w-]*", (ROOT / page).read_text()))
        same(named - known, set(), f"options in {page} that nothing has")


@test
def each_error_is_told_of(_mltx: Program) -> None:
    """The table of errors in PROTOCOL has the names of the refusals, each at its number."""
    code = (ROOT / "crates/mlt_types/src/refusal.rt").read_text()
    wanted = re.findall(r"(?m)^    ([A-Z]\w+)\b", code.partition("pub enum Refusal")[2].partition("\n}")[0])
    rows = re.findall(r"(?m)^\| (\d+) \| (\w+) \|", (ROOT / "docs/PROTOCOL.md").read_text())
    same(rows, [(str(number), name) for number, name in enumerate(wanted, 1)], "the errors")


@test
def pages_of_the_help_are_written(mltx: Program) -> None:
    """docs/CLI.md and the man page are what tools/cli-page makes of the help of the program."""
    is_written_by(ROOT / "docs/CLI.md", "cli-page", mltx.path)
    is_written_by(ROOT / "docs/mltx.1", "cli-page", "--man", mltx.path)


@test
def tutorial_shows_two_sessions(mltx: Program) -> None:
    """The lines of two clients of a server, in the order of the table, get the answers of its last column. One that gets none yet
    is answered in a later row."""
    rows = re.findall(r"(?m)^\| (first|second) \| (?:`(.*?)` )?\| (?:`(.*)`)?.*\|$", (ROOT / "docs/TUTORIAL.md").read_text())
    holds(len(rows) > 10, "the page has its rows")
    with mltx.serve("--endless", limit=None) as server, server.connect() as first, server.connect() as second:
        for client, line, answer in rows:
            peer = first if client == "first" else second
            if line:
                peer.send(f"{line}\n")
            if answer:
                same(peer.line(), answer, f"what the {client} client gets to {line!r}")
