"""The ways to run tests and checks: pytest, where it is installed, and `tools/check` with and without the tools that it calls."""
from __future__ import annotations

import os
import re
import shutil
import subprocess
import sys
from importlib.machinery import ModuleSpec, SourceFileLoader
from importlib.util import module_from_spec, spec_from_loader
from pathlib import Path

from harness import PATIENCE, ROOT, TESTS, Program, holds, match, same, test


def by_pytest(command: str, *words: str | Path) -> tuple[int, str]:
    """What pytest comes to in the repository: its status, and what it prints."""
    ran = subprocess.run(
        [command, "-q", "-p", "no:cacheprovider", *words], cwd=ROOT, capture_output=True, text=True, timeout=PATIENCE
    )
    return ran.returncode, ran.stdout


@test(seconds=5)
def pytest_runs_each_test(mltx: Program) -> None:
    """It lists what `tests/run` lists, selects by -k and by a name of its own, and tells why a test failed."""
    command = shutil.which("pytest")
    if not command:
        print("    no pytest is installed: what it makes of these tests is not looked at", flush=True)
        return
    status, listed = by_pytest(command, "--collect-only", "tests")
    names = re.findall(r"(?m)^tests/(\w+)\.py::(.*)$", listed)
    same(sorted(names), sorted((it.group.replace("-", "_"), it.name) for it in TESTS.values()), "the tests")
    status, told = by_pytest(command, "tests", "-k", "addresses and parsed", f"--program={mltx.path}")
    match(r"(?m)^1 passed, \d+ deselected", told)
    same(status, 0, "the status")
    status, told = by_pytest(command, "tests/command_lines.py::version", "--program=/bin/false")
    holds("wanted status 0, standard output b'mltx " in told, f"the reason in {told}")
    match(r"(?m)^1 failed", told)
    same(status, 1, "the status of a failure")


@test(seconds=2)
def tools_have_help(_mltx: Program) -> None:
    """Each tool says by --help how it is called, and does nothing else."""
    tools = [it for it in sorted((ROOT / "tools").iterdir()) if it.is_file()]
    holds(len(tools) > 10, "there are tools")
    for tool in tools:
        ran = subprocess.run([tool, "--help"], capture_output=True, text=True, timeout=PATIENCE, stdin=subprocess.DEVNULL)
        same((ran.returncode, ran.stderr), (0, ""), f"the help of {tool.name}")
        match(rf"tools/{tool.name}\b|usage: mltx-{tool.name}", ran.stdout)


@test
def words_of_documents_are_counted(_mltx: Program) -> None:
    """Those that somebody wrote as prose, in tables too; no marks, blocks and targets of links, and nothing that a tool wrote."""
    loader = SourceFileLoader("check", str(ROOT / "tools/check"))
    check = module_from_spec(spec_from_loader("check", loader) or ModuleSpec("check", loader))
    loader.exec_module(check)
    page = "# A title\n\nOne [two three](four/five.md#six), `seven`\neight:\n\n    a block here\n\n"
    page += "| Nine | ten 11 |\n|---|---|\n| - | .. |\n```\nanother block\n```\n- and it's twelve\n"
    same(check.words_of(Path("docs/X.md"), page), 2 + 3 + 1 + 1 + 3 + 3, "the words of a page")
    by_tool = "By hand.\n\n`tools/cli-page --write` puts the help here.\n\nHelp\n"
    same(check.words_of(Path("docs/CLI.md"), by_tool), 2, "those of CLI")
    same(check.words_of(Path("docs/HEADLINE.md"), page), 0, "those of HEADLINE")


@test(seconds=5)
def check_counts_what_is_skipped(mltx: Program) -> None:
    """Without its tools it checks the rest, and counts the files that these would have read. Each fault that they find counts."""
    folders = [ROOT / name for name in ("clients/python", "histories", "tools", "bench", "tests")]
    files = [it for folder in folders for it in folder.rglob("*") if it.is_file() and "__pycache__" not in it.parts]
    first = b"#!/usr/bin/env python3\n"
    python = [it for it in files if it.suffix == ".py" or not it.suffix and it.read_bytes().startswith(first)]
    histories = len(list(ROOT.glob("histories/tests/test_*.py")))
    tools = mltx.folder / "tools"
    tools.mkdir()

    def checked() -> tuple[int, str]:
        env = {**os.environ, "PATH": str(tools)}
        words: list[str | Path] = [sys.executable, "-B", ROOT / "tools/check"]
        ran = subprocess.run(words, capture_output=True, text=True, env=env, timeout=PATIENCE)
        return ran.returncode, ran.stdout

    # Whether there are faults that need no tool is for tools/check itself to tell.
    status, told = checked()
    before = int(match(rf"\n\d+ passed, (\d+) failed, {2 * len(python) + histories} skipped\n$", told)[1])
    same(status, 1 if before else 0, "the status")
    found = {"mypy": "tests/client.py:7: error: a  [b]", "pyflakes": f"{ROOT}/tests/rows.py:8:3: c"}
    found["pytest"] = "FAILED tests/test_order.py::d - e"
    for name, line in found.items():
        (tools / name).write_text(f"#!/bin/sh\necho '{line}'\nexit 1\n")
        (tools / name).chmod(0o755)
    status, told = checked()
    wanted = ["histories/tests/test_order.py:1: a test fails", "tests/client.py:7: a  [b]", "tests/rows.py:8: c"]
    holds(set(wanted) <= set(told.splitlines()), f"the faults {told}")
    holds(before < int(match(r"\n\d+ passed, (\d+) failed\n$", told)[1]) <= before + 3, f"the faults are counted in {told}")
    same(status, 1, "the status of a fault")
