"""The script `mltx` at the top: which program it runs, what it builds before, and what it tells of that. It stands in a small
copy of this repository, beside a kit that makes scripts in place of programs; so nothing is compiled, and nothing proved."""
from __future__ import annotations

import os
import re
import shutil
import signal
import subprocess
import time
from collections.abc import Mapping
from functools import partial
from pathlib import Path

from harness import PATIENCE, ROOT, VERSION, Program, Ran, each, expect, holds, match, same, test

# What of this repository stands in the copy.
COPIED = (
    *("mltx", "contrib/mltx", "docs/mltx.1", "tools/quick-build", "tools/proved-build", "crates.txt"),
    *("crates/mltx/src", "crates/mlt_cli/src"),
)
# The kit's rt. Each call is noted in $NOTES, and files there say how it is to work: `try` without proof, `run` with it.
RT = r"""#!/bin/sh
kit=$(dirname "$(dirname "$(readlink -f "$0")")")
echo "$*" >>"$NOTES/asked"
cat >/dev/null
program() {
    version=$(sed -n 's/^pub const VERSION: &str = "\(.*\)";/\1/p' ../mlt_cli/src/commands.rt)
    printf '#!/bin/sh\n[ "$1" = --version ] && { echo "mltx %s"; exit; }\n' "$version"
    printf 'echo %s "$@"\ncat\necho told >&2\nexit 3\n' "$1"
}
if [ -e "$NOTES/stay-in-$1" ]; then
    sleep 60 &
    trap 'kill $!; exit 130' INT
    touch "$NOTES/stays"
    wait
fi
case $1 in
try)
    [ -e "$NOTES/tries-fail" ] && { echo 'rt: there is no try' >&2; exit 2; }
    [ -e "$NOTES/edit" ] && touch "$(cat "$NOTES/edit")"
    if [ -e "$NOTES/two" ]; then
        touch "$NOTES/here.$$"
        until [ "$(ls "$NOTES" | grep -c here)" = 2 ]; do sleep 0.01; done
    fi
    "$kit/bin/rattle" check
    room=$(mktemp -d)
    program unproved >"$room/input"
    cd "$room" || exit
    "$kit/toolchain/bin/clang" -c 'a  b.bc' -O0 -fsanitize=address -o input.o
    "$kit/toolchain/bin/ld.lld" -o program input --whole-archive watcher --no-whole-archive library
    status=$?
    rm -r "$room"
    exit $status
    ;;
run)
    [ -e "$NOTES/proofs-fail" ] && { echo 'error: a clause is not proved'; exit 1; }
    printf 'rt: chose --jobs 2 for mlt_types\nlater\n'
    mkdir -p out
    program proved >out/mltx
    chmod +x out/mltx
    ;;
esac
"""
# Its compiler notes its words, and what it compiles: the text of a module, which it makes first. Its linker makes a program that
# tells what it was linked from.
CLANG = r"""#!/bin/sh
printf '%s\n' "$@" >"$NOTES/clang"
if [ "$4" = -S ]; then
    printf 'define internal void @"%s"() {\n  ret void\n}\n' core::hint::spin_loop core::other >"$7"
else
    cp "$2" "$NOTES/module"
fi
"""
LINKER = r"""#!/bin/sh
before=
for word in "$@"; do
    [ "$before" = -o ] && made=$word
    [ "$word" = watcher ] && watched=' watched'
    before=$word
done
sed "s/unproved/unproved$watched/" input >"$made"
chmod +x "$made"
"""
# No check is to be made.
RATTLE = '#!/bin/sh\necho "rattle $*" >>"$NOTES/asked"\n'

BUILDS = "mltx: building the program without proof, in two to three minutes\nmltx: T: compiling\n"
COMPILED = "mltx: T: optimising\nmltx: T: linking\n"
BUILT = COMPILED + "mltx: built in T. It is not proved: ./test proves it, and puts the proved one in its place\n"
NO_TRY = "rt: there is no try\ntools/quick-build: rt try failed\n"
FAILS = "mltx: that failed, for the reason above, so it has to be proved\n"
PROVES = "mltx: proving and building the program: from nothing some 40 minutes on four cores, later only what changed\n"
PROVED = "mltx: T: proving mlt_types\nmltx: proved and built in T\n"
NO_RT = "there is no rt on PATH, the command of the Rattle kit that compiles and proves (docs/DEVELOPING.md#the-two-kits); "
NO_RT += "a release needs none\n"
OLDER = "mltx: the sources are newer than this program; any other command builds it anew\n"
TRY, RUN = "try -- --version\n", "run -- --version\n"


class Tree:
    """A copy of this repository in which nothing is built, with a kit of its own, and the files by which the kit is told."""

    def __init__(self, mltx: Program) -> None:
        self.top, self.kit, self.notes = (mltx.folder / name for name in ("tree", "the kit", "notes"))
        for name in COPIED:
            source, copy = ROOT / name, self.top / name
            copy.parent.mkdir(parents=True, exist_ok=True)
            shutil.copytree(source, copy) if source.is_dir() else shutil.copy(source, copy)
        parts = {"bin/rt": RT, "bin/rtlib.py": "", "bin/rattle": RATTLE}
        parts |= {"toolchain/bin/clang": CLANG, "toolchain/bin/ld.lld": LINKER}
        for name, text in {**parts, "toolchain/lib": "", "logic": ""}.items():
            (self.kit / name).parent.mkdir(parents=True, exist_ok=True)
            (self.kit / name).write_text(text)
            (self.kit / name).chmod(0o755)
        # What another branch may have left behind.
        (self.top / "crates/gone/out").mkdir(parents=True)
        (mltx.folder / "bin").mkdir()
        (mltx.folder / "bin/rt").symlink_to(self.kit / "bin/rt")
        (mltx.folder / "tmp").mkdir()
        self.notes.mkdir()
        paths = {"PATH": f"{mltx.folder}/bin:/usr/bin:/bin", "TMPDIR": f"{mltx.folder}/tmp", "NOTES": str(self.notes)}
        self.env: Mapping[str, str] = {**os.environ, **paths}
        self.unproved, self.proved = self.top / "out/unproved/mltx", self.top / "crates/mltx/out/mltx"

    def start(self, *words: str, command: Path | None = None) -> subprocess.Popen[bytes]:
        """The script, or another one, started with these words, in a group of processes of its own."""
        pipe = subprocess.PIPE
        command = command or self.top / "mltx"
        # An interrupt ends it, also where the tests were started with interrupts ignored, as a shell starts what it has in the
        # background.
        heed = partial(signal.signal, signal.SIGINT, signal.SIG_DFL)
        return subprocess.Popen(
            [command, *words], env=self.env, start_new_session=True, stdin=pipe, stdout=pipe, stderr=pipe, preexec_fn=heed
        )

    def run(self, *words: str) -> Ran:
        return ended(self.start(*words))

    def asked(self) -> str:
        """What rt was asked since this was called last."""
        asked = self.notes / "asked"
        text = asked.read_text() if asked.exists() else ""
        asked.unlink(missing_ok=True)
        return text

    def tell(self, name: str, text: str = "") -> None:
        """Tells the kit how it is to work."""
        (self.notes / name).write_text(text)

    def prove(self) -> None:
        """Proves and builds the program, as the gate does."""
        subprocess.run([self.top / "tools/proved-build"], env=self.env, check=True, stderr=subprocess.DEVNULL)
        self.asked()

    def left(self) -> list[str]:
        """What stands beside the unproved program, and among the temporary files."""
        found = [*self.unproved.parent.glob("*"), *Path(self.env["TMPDIR"]).glob("*")]
        return sorted(path.name for path in found if path != self.unproved)


def ended(process: subprocess.Popen[bytes]) -> Ran:
    """What a script came to. Times are left out."""
    out, err = process.communicate(b"given\n", PATIENCE)
    return Ran(process.returncode, out, without_times(err))


def without_times(told: bytes) -> bytes:
    return re.sub(rb"(\d+ min )?\b\d+ s\b", b"T", told)


def shows(ran: Ran, kind: str, told: str = "", words: str = "solo a  b") -> None:
    """The script became this program: words, both streams and the status are the program's, behind what the script told."""
    expect(ran, status=3, out=f"{kind} {words}\ngiven\n", err=f"{told}told\n", what=kind)


def make_old(path: Path, seconds: float) -> None:
    """Has a file so old."""
    changed = time.time() - seconds
    os.utime(path, (changed, changed))


@test
def first_run_builds_without_proof(mltx: Program) -> None:
    """It says so, and later runs take what it built. What it tells of its version says that it is not proved."""
    tree = Tree(mltx)
    shows(tree.run("solo", "a  b"), "unproved", BUILDS + BUILT)
    same(tree.asked(), TRY, "what rt is asked")
    same(tree.left(), [], "what is left behind")
    shows(tree.run("solo", "a  b"), "unproved")
    expect(tree.run("--version"), out=f"mltx {VERSION} (not proved)\n")
    same(tree.asked(), "", "what rt is asked by later runs")
    same(tree.proved.exists(), False, "whether something lies where the proved program is to be")


@test
def first_run_by_way_of_a_link(mltx: Program) -> None:
    """The script may be called from any folder, and by a link."""
    tree = Tree(mltx)
    link = mltx.folder / "linked"
    link.symlink_to(tree.top / "mltx")
    ran = subprocess.run([str(link), "solo", "-"], input=b"given\n", capture_output=True, cwd="/", env=tree.env)
    shows(Ran(ran.returncode, ran.stdout, without_times(ran.stderr)), "unproved", BUILDS + BUILT, "solo -")


@test
def first_run_of_the_prompt(mltx: Program) -> None:
    """It is a program in Python that gets the other words, and nothing is built for it."""
    tree = Tree(mltx)
    shutil.copytree(ROOT / "clients/python", tree.top / "clients/python", ignore=shutil.ignore_patterns("__pycache__"))
    ran = tree.run("shell", "no where")
    same((ran.status, ran.out), (2, b""), "the status, and what is written")
    holds(ran.err.endswith(b"mltx shell: error: an address is HOST:PORT, as 127.0.0.1:7000, and not 'no where'\n"), f"{ran}")
    same((tree.asked(), tree.unproved.exists()), ("", False), "what rt is asked, and whether something is built")


@test
def unproved_program_is_optimised_and_not_watched(mltx: Program) -> None:
    """The compiler is asked to optimise, and else for the same; nothing of what watches accesses is linked."""
    tree = Tree(mltx)
    tree.run("solo")
    words = ["-c", "a  b.bc.ll", "-o", "input.o", "-O1"]
    same(sorted((tree.notes / "clang").read_text().splitlines()), sorted(words), "the words of the compiler")
    holds("watched" not in tree.unproved.read_text(), "the program is not watched")
    waits, other = (tree.notes / "module").read_text().split("}\n")[:2]
    holds('asm sideeffect "pause"' in waits and "pause" not in other, f"a loop that waits has a pause: {waits}")


@test
def proved_program_is_run_where_there_is_one(mltx: Program) -> None:
    """Both are built: the proved one is run, and the version that it tells is that of the sources."""
    tree = Tree(mltx)
    tree.run("solo")
    tree.prove()
    shows(tree.run("solo", "a  b"), "proved")
    expect(tree.run("--version"), out=f"mltx {VERSION}\n")
    same(tree.asked(), "", "what rt is asked")


@test
def proved_program_of_a_commit(mltx: Program) -> None:
    """Its version has the commit of its sources, and so has what is installed, but not where they differ from it."""
    tree = Tree(mltx)
    tree.env |= {f"GIT_{role}_{part}": "a" for role in ("AUTHOR", "COMMITTER") for part in ("NAME", "EMAIL")}

    def git(*words: str) -> str:
        return subprocess.run(["git", *words], cwd=tree.top, env=tree.env, check=True, capture_output=True, text=True).stdout

    (tree.top / ".gitignore").write_text("out\n")
    for words in (["init", "-q"], ["add", "."], ["commit", "-qm", "all"]):
        git(*words)
    commit = git("rev-parse", "HEAD")[:12]
    tree.run("solo")
    expect(tree.run("--version"), out=f"mltx {VERSION} ({commit}, not proved)\n")
    tree.prove()
    expect(tree.run("--version"), out=f"mltx {VERSION} ({commit})\n")
    made = str(mltx.folder / "prefix")
    same(tree.run("install", made).status, 0, "the installation")
    told = subprocess.run([f"{made}/bin/mltx", "--version"], capture_output=True, env=tree.env).stdout
    same(told, f"mltx {VERSION} ({commit})\n".encode(), "the version of what is installed")
    source = tree.top / "crates/mlt_cli/src/commands.rt"
    source.write_text(source.read_text() + "// More.\n")
    make_old(source, 100)
    expect(tree.run("--version"), out=f"mltx {VERSION}\n")


# Of each changed file: whether the proved program is old then, and whether the unproved one is.
CHANGED = {
    "code": ("crates/mlt_cli/src/commands.rt", True),
    "a-folder-of-code": ("crates/mlt_cli/src", True),
    "the-list-of-crates": ("crates.txt", True),
    "a-definition": ("crates/mlt_cli/specs/Words.antt", False),
    "a-proof": ("crates/mlt_cli/proofs/Words.antt", False),
}


@each({f"first-run-after-a-change-of-{name}": case for name, case in CHANGED.items()})
def first_run_after_a_change(mltx: Program, case: tuple[str, bool]) -> None:
    """A proved program that is older than a source is not run. An unproved one is built anew where it is old itself."""
    name, is_of_code = case
    tree = Tree(mltx)
    changed = tree.top / name
    if not changed.exists():
        changed.parent.mkdir()
        changed.write_text("")
    tree.run("solo")
    tree.prove()
    tree.asked()
    ages = {tree.unproved: 100, tree.proved: 100, changed: 50}
    for path in tree.top.rglob("*"):
        make_old(path, ages.get(path, 200))
    shows(tree.run("solo", "a  b"), "unproved", BUILDS + BUILT if is_of_code else "")
    same(tree.asked(), TRY if is_of_code else "", "what rt is asked")
    tree.prove()
    shows(tree.run("solo", "a  b"), "proved")


@test
def first_run_while_a_source_changes(mltx: Program) -> None:
    """What was built may lack the change, so the next run builds again."""
    tree = Tree(mltx)
    tree.tell("edit", str(tree.top / "crates/mlt_cli/src/commands.rt"))
    shows(tree.run("solo", "a  b"), "unproved", BUILDS + BUILT)
    (tree.notes / "edit").unlink()
    shows(tree.run("solo", "a  b"), "unproved", BUILDS + BUILT)
    shows(tree.run("solo", "a  b"), "unproved")


@test
def first_run_proves_where_it_must(mltx: Program) -> None:
    """Where nothing can be built without proof, the reason is told, and then the program is proved."""
    tree = Tree(mltx)
    tree.tell("tries-fail")
    shows(tree.run("solo", "a  b"), "proved", BUILDS + NO_TRY + FAILS + PROVES + PROVED)
    same(tree.asked(), TRY + RUN, "what rt is asked")
    same((tree.unproved.exists(), tree.left()), (False, []), "what is left behind")
    shows(tree.run("solo", "a  b"), "proved")
    same(tree.asked(), "", "what rt is asked by the next run")


# Kits over which no program comes about, or one that does not work alone: what is changed, and what is told.
OTHER_KITS = {
    "links-nothing": ("toolchain/bin/ld.lld", "#!/bin/sh\n"),
    "links-what-does-not-run": ("toolchain/bin/ld.lld", LINKER + 'echo exit 1 >"$made"\n'),
    "has-no-version-of-ours": ("toolchain/bin/ld.lld", LINKER + "sed -i 's/ (not proved)//' \"$made\"\n"),
}


@each({f"first-run-with-a-kit-that-{name}": case for name, case in OTHER_KITS.items()})
def first_run_with_another_kit(mltx: Program, case: tuple[str, str]) -> None:
    """What does not work is not put in place, and the program is proved."""
    tree, (name, text) = Tree(mltx), case
    (tree.kit / name).write_text(text)
    ran = tree.run("solo", "a  b")
    reason = "tools/quick-build: what rt try linked does not run alone\n"
    same((ran.status, ran.out), (3, b"proved solo a  b\ngiven\n"), "the proved program")
    holds((reason + FAILS + PROVES + PROVED + "told\n").encode() in ran.err, f"standard error lacks the reason: {ran}")
    same((tree.unproved.exists(), tree.left()), (False, []), "what is left behind")


@test
def first_run_with_nothing_to_build_by(mltx: Program) -> None:
    """Neither way leads to a program: the status is 1, and nothing is run."""
    tree = Tree(mltx)
    for name in ("tries-fail", "proofs-fail"):
        tree.tell(name)
    told = BUILDS + NO_TRY + FAILS + PROVES
    told += "error: a clause is not proved\nmltx: it was not built, for the reason above\n"
    expect(tree.run("solo"), status=1, err=told)
    same(tree.left(), [], "what is left behind")


@test
def first_run_without_a_kit(mltx: Program) -> None:
    """One line says what to install, also where the program is to be proved."""
    tree = Tree(mltx)
    (mltx.folder / "bin/rt").unlink()
    for words in (["solo"], ["--help"]):
        expect(tree.run(*words), status=127, err="tools/quick-build: " + NO_RT, what=f"{words}")
    ran = subprocess.run([tree.top / "tools/proved-build"], env=tree.env, capture_output=True)
    expect(Ran(ran.returncode, ran.stdout, ran.stderr), status=127, err="tools/proved-build: " + NO_RT, what="proved-build")
    same(tree.left(), [], "what is left behind")


# What is asked that an older program answers as well.
ASKED = [["--help"], ["-h"], ["--version"], ["-V"], ["tables"], ["tables", "set"], ["help", "solo"], ["solo", "--help"]]


@test
def older_program_answers_what_changes_seldom(mltx: Program) -> None:
    """Help, version and tables build where nothing is built, and never again, whatever changes."""
    tree = Tree(mltx)
    expect(tree.run("--version"), out=f"mltx {VERSION} (not proved)\n", err=BUILDS + BUILT)
    same(tree.asked(), TRY, "what rt is asked at first")
    make_old(tree.unproved, 100)
    for words in ASKED:
        ran = tree.run(*words)
        holds(ran.err.startswith(OLDER.encode()), f"{words}: it is not told that the program is older: {ran}")
        same(tree.asked(), "", f"what rt is asked by {words}")
    for words in (["solo", "tables"], ["steps", "--hash", "low", "-"]):
        make_old(tree.unproved, 100)
        shows(tree.run(*words), "unproved", BUILDS + BUILT, " ".join(words))
    tree.prove()
    make_old(tree.unproved, 100)
    make_old(tree.proved, 50)
    shows(tree.run("tables", "set"), "proved", OLDER, "tables set")


@test
def install(mltx: Program) -> None:
    """The command of docs/OPERATING.md installs the program that would be run, what starts it, and its man page."""
    tree, home = Tree(mltx), mltx.folder / "home"
    command = match(r"(?m)^    (\./mltx install)$", (ROOT / "docs/OPERATING.md").read_text())[1]
    installed = home / ".local/bin/mltx"
    env = {**tree.env, "HOME": str(home)}
    for kind, told in (("unproved", BUILDS + BUILT), ("proved", "")):
        ran = subprocess.run(command.split(), cwd=tree.top, env=env, capture_output=True)
        said = f"{told}mltx: installed as {installed}\n"
        expect(Ran(ran.returncode, ran.stdout, without_times(ran.stderr)), err=said, what=kind)
        ran = subprocess.run([installed, "solo", "a  b"], input=b"given\n", capture_output=True)
        shows(Ran(ran.returncode, ran.stdout, ran.stderr), kind)
        tree.prove()
    found = sorted(str(path.relative_to(home / ".local")) for path in home.rglob("*") if path.is_file())
    same(found, ["bin/mltx", "libexec/mltx/mltx", "share/man/man1/mltx.1"], "what is installed")
    home.rename(mltx.folder / "a = b")
    link = mltx.folder / "linked"
    link.symlink_to(mltx.folder / "a = b/.local/bin/mltx")
    for words in (["solo", "a  b"], ["serve", "a  b"]):
        ran = subprocess.run([link, *words], input=b"given\n", capture_output=True)
        shows(Ran(ran.returncode, ran.stdout, ran.stderr), "proved", words=" ".join(words))


@test
def two_first_runs_at_once(mltx: Program) -> None:
    """Both build, each for itself, and both run what was built; it is whole at any time."""
    tree = Tree(mltx)
    tree.tell("two")
    both = [tree.start("solo", "a  b") for _ in range(2)]
    for process in both:
        shows(ended(process), "unproved", BUILDS + BUILT)
    same((tree.asked(), tree.left()), (TRY * 2, []), "what rt is asked, and what is left behind")
    shows(tree.run("solo", "a  b"), "unproved")


# What is interrupted: how the kit is told to stay there, what the script has told, and what it has asked.
INTERRUPTED = {
    "a-first-run-that-builds": (["stay-in-try"], BUILDS, TRY),
    "a-first-run-that-proves": (["tries-fail", "stay-in-run"], BUILDS + NO_TRY + FAILS + PROVES, TRY + RUN),
}


@each({f"an-interrupt-of-{name}": case for name, case in INTERRUPTED.items()})
def interrupt_of_a_first_run(mltx: Program, case: tuple[list[str], str, str]) -> None:
    """Ctrl-C ends the script: nothing else is built, and nothing is left behind."""
    tree, (told, said, asked) = Tree(mltx), case
    for name in told:
        tree.tell(name)
    process, until = tree.start("solo"), time.monotonic() + PATIENCE
    while not (tree.notes / "stays").exists():
        holds(time.monotonic() < until, "nothing is built")
        time.sleep(0.01)
    os.killpg(process.pid, signal.SIGINT)
    expect(ended(process), status=130, err=said)
    same((tree.asked(), tree.unproved.exists(), tree.left()), (asked, False, []), "what rt is asked, and what is left behind")


@test(seconds=1)
def signal_stops_a_server_of_the_script(mltx: Program) -> None:
    """SIGTERM is a stop to the server that it becomes, in order, as where it is installed. It ends another command at once, and a
    server too where no env blocks signals."""
    tree = Tree(mltx)
    tree.run("solo")
    shutil.copy(mltx.path, tree.unproved)
    tree.run("install", str(mltx.folder / "prefix"))

    def signalled(*words: str, command: Path = tree.top / "mltx") -> tuple[int, bytes]:
        process = tree.start(*words, command=command)
        assert process.stderr is not None
        if "solo" not in words:
            same(process.stderr.readline()[:18], b"mltx: listening on", "the server")
        else:
            time.sleep(0.5)
        process.send_signal(signal.SIGTERM)
        ran = ended(process)
        return ran.status, ran.out

    for words in (["serve", "127.0.0.1:0"], ["-v", "serve", "127.0.0.1:0"], ["serve", "127.0.0.1:0", "-v"]):
        for command in (tree.top / "mltx", mltx.folder / "prefix/bin/mltx"):
            same(signalled(*words, command=command), (0, b"served 0\n"), f"{command} {words}, once it got a signal")
    same(signalled("solo", "-"), (-signal.SIGTERM, b""), "another command")
    env = mltx.folder / "bin/env"
    env.write_text("#!/bin/sh\nexit 125\n")
    env.chmod(0o755)
    same(signalled("serve", "127.0.0.1:0"), (-signal.SIGTERM, b""), "a server without such an env")


@test
def benchmarks_say_where_a_program_is_not_proved(mltx: Program) -> None:
    """Above the figures; and nothing of the proved one, which is measured beside it."""
    tree = Tree(mltx)
    tree.run("solo")
    tree.prove()
    words = ["--quick", "--program", str(tree.unproved), "--other", str(tree.proved), "solo"]
    ran = subprocess.run([str(ROOT / "bench/run"), *words], capture_output=True, text=True, env=tree.env)
    said = re.findall("(?m)^Not proved.*$", ran.stdout)
    same(said, [f"Not proved: {tree.unproved}. No figure of it is one of mltx."], f"what stands above: {ran.stdout}")
