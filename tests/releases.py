"""Releases: the archive of `tools/release`, when there is none, and an image of it as the first process of a container, in a
namespace in place of a daemon."""
from __future__ import annotations

import json
import os
import re
import shlex
import shutil
import signal
import subprocess
import sys
import tarfile
import time
from collections.abc import Callable
from pathlib import Path
from subprocess import PIPE
from urllib.request import urlopen

from harness import PATIENCE, ROOT, VERSION, Program, each, free_address, holds, match, same, test

# What a small copy of this repository has.
COPIED = (
    *("tools/release", "clients/python", "contrib", "docs/mltx.1", "crates.txt", "CHANGELOG.md", "SECURITY.md", "NOTICE"),
    *("LICENSE-MIT", "LICENSE-APACHE", "crates/mlt_cli/src", ".gitignore"),
)
ARCHIVE = f"mltx-{VERSION}-linux-x86_64"


class Clone:
    """A small clone of this repository with a program that says that it is proved, and the record of its gate."""

    def __init__(self, mltx: Program) -> None:
        self.top, self.log = mltx.folder / "clone", mltx.folder / "log"
        for name in COPIED:
            source, copy = ROOT / name, self.top / name
            copy.parent.mkdir(parents=True, exist_ok=True)
            ignored = shutil.ignore_patterns("__pycache__")
            shutil.copytree(source, copy, ignore=ignored) if source.is_dir() else shutil.copy(source, copy)
        (mltx.folder / "bin").mkdir()
        self.write(mltx.folder / "bin/rt", "#!/bin/sh\necho the-kit 7\n")
        names = {f"GIT_{role}_{part}": "a" for role in ("AUTHOR", "COMMITTER") for part in ("NAME", "EMAIL")}
        self.env = {**os.environ, **names, "PATH": f"{mltx.folder}/bin:{os.environ['PATH']}", "PYTHONDONTWRITEBYTECODE": "1"}
        self.git("init", "-q")
        self.git("add", ".")
        self.git("commit", "-qm", "all")
        self.commit = self.git("rev-parse", "HEAD").strip()
        self.program = self.top / "crates/mltx/out/mltx"
        self.program.parent.mkdir(parents=True)
        self.prove(f"mltx {VERSION}", Path(mltx.path))
        self.log.write_text(f"crate a: passed\nseed {int(self.commit[:8], 16)}\n812 passed, 0 failed\n")

    def write(self, path: Path, text: str) -> None:
        path.write_text(text)
        path.chmod(0o755)

    def prove(self, version: str, program: Path) -> None:
        """Has a program there that tells this version, and else is another program."""
        self.write(self.program, f'#!/bin/sh\n[ "$1" = --version ] && echo "{version}" && exit\nexec {program} "$@"\n')

    def git(self, *words: str) -> str:
        return subprocess.run(["git", *words], cwd=self.top, env=self.env, check=True, capture_output=True, text=True).stdout

    def release(self, folder: Path) -> subprocess.CompletedProcess[str]:
        words: list[str | Path] = [sys.executable, self.top / "tools/release", self.log, folder]
        return subprocess.run(words, env=self.env, capture_output=True, text=True, timeout=PATIENCE)

    def unpacked(self, folder: Path) -> Path:
        """A release that is made and unpacked in a folder."""
        made = self.release(folder)
        same(made.returncode, 0, f"the release: {made.stderr}")
        shutil.unpack_archive(folder / f"{ARCHIVE}.tar.gz", folder)
        return folder / ARCHIVE


@test(seconds=1)
def release_is_one_archive(mltx: Program) -> None:
    """It has the same bytes each time, the program with what starts it, and the record of the gate."""
    clone = Clone(mltx)
    made = [clone.release(mltx.folder / name) for name in ("a", "b")]
    same([it.returncode for it in made], [0, 0], f"the releases: {made[0].stderr}")
    archives = [mltx.folder / name / f"{ARCHIVE}.tar.gz" for name in ("a", "b")]
    same(archives[0].read_bytes(), archives[1].read_bytes(), "both archives")
    said = subprocess.run(["sha256sum", archives[0]], capture_output=True, text=True, check=True).stdout
    same(made[0].stdout, said, "the digest that is said")
    with tarfile.open(archives[0]) as archive:
        modes = {it.name.removeprefix(f"{ARCHIVE}/"): it.mode for it in archive.getmembers()}
    wheel = f"mltx_client-{VERSION}-py3-none-any.whl"
    wanted = {"bin/mltx", "libexec/mltx/mltx", "share/man/man1/mltx.1", "lib/systemd/system/mltx.service"}
    wanted |= {"GATE", "INSTALL", wheel}
    same({*modes} & wanted, wanted, "the files")
    same({name for name, mode in modes.items() if mode & 0o111}, {"bin/mltx", "libexec/mltx/mltx"}, "the commands")
    found = clone.unpacked(mltx.folder / "c")
    same((found / "libexec/mltx/mltx").read_bytes(), clone.program.read_bytes(), "the program")
    digest = subprocess.run(["sha256sum", clone.program], capture_output=True, text=True, check=True).stdout.split()[0]
    rows = [f"commit: {clone.commit}", "kit: the-kit 7", f"sha256 of libexec/mltx/mltx: {digest}", "gate: 812 passed, 0 failed"]
    same((found / "GATE").read_text(), "\n".join([*rows, "", clone.log.read_text()]), "the record of the gate")
    ran = subprocess.run([found / "bin/mltx", "tables"], capture_output=True)
    same((ran.stdout, ran.returncode), (mltx.run("tables").out, 0), f"what the program does: {ran.stderr!r}")
    told = subprocess.run([found / "bin/mltx", "--version"], capture_output=True, text=True).stdout
    same(told, f"mltx {VERSION} ({clone.commit[:12]})\n", "the version")


@test(seconds=1)
def server_of_a_release_tells_its_commit(mltx: Program) -> None:
    """As its metrics and its page have it."""
    clone = Clone(mltx)
    found, admin = clone.unpacked(mltx.folder / "made"), "%s:%d" % free_address()
    words: list[str | Path] = [found / "bin/mltx", "serve", "%s:%d" % free_address(), "--admin", admin]
    with subprocess.Popen(words, stderr=PIPE, text=True) as process:
        try:
            assert process.stderr
            holds("listening" in process.stderr.readline() and "admin" in process.stderr.readline(), "the server begins")
            paths = ("status", "metrics")
            status, metrics = [urlopen(f"http://{admin}/{path}", timeout=PATIENCE).read().decode() for path in paths]
        finally:
            process.kill()
    holds(f' ({clone.commit[:12]})"' in status, f"the version in {status}")
    match(rf'(?m)^mltx_build_info{{version="{VERSION}",commit="{clone.commit[:12]}",proved="(yes|no)"}} 1$', metrics)


def is_changed(clone: Clone) -> None:
    (clone.top / "NOTICE").write_text("other\n")


def is_older(clone: Clone) -> None:
    os.utime(clone.program, (1, 1))


NONE = Path("/nowhere")
# Why no release is made: what is done to a clone, and what is said.
REFUSED: dict[str, tuple[Callable[[Clone], object], str]] = {
    "of-changed-files": (is_changed, r"files differ from the commit:\n M NOTICE"),
    "of-a-file-too-many": (lambda clone: (clone.top / "more").write_text(""), r"files differ from the commit:\n\?\? more"),
    "of-an-unproved-program": (lambda clone: clone.prove(f"mltx {VERSION} (not proved)", NONE), "the program is not proved: .*"),
    "of-no-program": (lambda clone: clone.program.unlink(), "there is no program crates/mltx/out/mltx: .*"),
    "of-an-older-program": (is_older, "a source is newer than the program: .*"),
    "of-another-version": (lambda clone: clone.prove("mltx 9.9.9", NONE), f"the program has the version 9.9.9, .*{VERSION}.*"),
    "of-a-gate-that-failed": (
        lambda clone: clone.log.write_text("812 passed, 1 failed\n"), ".* '812 passed, 1 failed'",
    ),
    "of-a-gate-that-broke-off": (lambda clone: clone.log.write_text("crate a: passed\n"), ".* 'crate a: passed'"),
    "of-the-gate-of-another-commit": (
        lambda clone: clone.log.write_text("seed 7\n812 passed, 0 failed\n"), ".* is of another commit than [0-9a-f]{40}",
    ),
}


@each({f"release-{name}": case for name, case in REFUSED.items()})
def no_release(mltx: Program, case: tuple[Callable[[Clone], object], str]) -> None:
    change, wanted = case
    clone = Clone(mltx)
    change(clone)
    ran = clone.release(mltx.folder / "made")
    same((ran.returncode, ran.stdout), (1, ""), f"the release: {ran.stderr}")
    holds(re.fullmatch(f"tools/release: {wanted}\n", ran.stderr), f"what is said: {ran.stderr!r}")
    same((mltx.folder / "made").exists(), False, "whether anything is made")


# The folders of this system that a container sees, and how one begins: with a root of its own, as an image has, and as its first
# process the program. Its arguments are the root, the user, what RUN says, and the words of the program.
SEEN = ("bin", "dev", "etc", "lib", "lib64", "proc", "usr/bin", "usr/lib", "usr/sbin")
BEGINS = """set -e
root=$1 run=$2
shift 2
for name in SEEN; do
    [ -d "/$name" ] || continue
    mkdir -p "$root/$name"
    mount --rbind "/$name" "$root/$name"
done
mkdir -p "$root/PROGRAM" "$root/usr/local/bin"
mount --bind "/PROGRAM" "$root/PROGRAM"
chroot "$root" sh -ec "$run"
exec chroot --userspec=nobody:nogroup "$root" /usr/bin/env PATH=/usr/local/bin:/usr/bin:/bin "$@"
"""


@test(seconds=2)
def release_in_a_container(mltx: Program) -> None:
    """The image that the Containerfile makes of a release, in namespaces: its program is process 1, without rights, and stops in
    order with its data saved."""
    isolated = ["unshare", "--mount", "--pid", "--fork", "--mount-proc", "--kill-child"]
    if os.getuid() != 0 or subprocess.run([*isolated, "true"], capture_output=True).returncode != 0:
        print("    no container can be had here: an image is not looked at", flush=True)
        return
    steps = dict(re.findall(r"(?m)^(ADD|RUN|USER|ENTRYPOINT|CMD) (.*)$", (ROOT / "contrib/Containerfile").read_text()))
    same((steps["ADD"], steps["USER"]), ("mltx-*-linux-x86_64.tar.gz /opt/", "nobody"), "the steps of the image")
    root = mltx.folder / "root"
    mltx.folder.chmod(0o755)
    root.mkdir(mode=0o755)
    Clone(mltx).unpacked(root / "opt")
    program = str(Path(mltx.path).parent).lstrip("/")
    begins = mltx.file("begins", BEGINS.replace("SEEN", " ".join(SEEN)).replace("PROGRAM", program))
    for number in (1, 2):
        address = free_address()
        words = [*json.loads(steps["ENTRYPOINT"]), *json.loads(steps["CMD"])]
        words[words.index("0.0.0.0:7000")] = "%s:%d" % address
        run = steps["RUN"] if number == 1 else "true"
        with subprocess.Popen([*isolated, "sh", begins, root, run, *words], stdout=PIPE, stderr=PIPE, text=True) as process:
            assert process.stdout and process.stderr
            try:
                same(process.stderr.readline(), "mltx: listening on %s:%d\n" % address, shlex.join(words))
                first = Path(f"/proc/{process.pid}/task/{process.pid}/children").read_text().strip()
                holds(match(r"(?m)^Uid:\s+(\d+)", Path(f"/proc/{first}/status").read_text())[1] != "0", "it has no rights")
                asked: list[str | Path] = [ROOT / "mltx", "shell", "%s:%d" % address, "-c", "up 7 1; read 7"]
                ran = subprocess.run(asked, capture_output=True, text=True, timeout=PATIENCE)
                same((ran.stdout, ran.stderr), (f"done\nis {number}\n", ""), "what a client reads")
                os.kill(int(first), signal.SIGTERM)
                same((process.wait(PATIENCE), process.stdout.read()), (0, "served 1\n"), f"the end: {process.stderr.read()}")
            finally:
                process.kill()
        same((root / "data/base").read_text(), f"counter 7 {number}\n# commits 1\n", "what is kept")
        time.sleep(0.1)
