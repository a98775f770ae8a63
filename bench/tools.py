"""What the benchmarks find on this machine: what they build, what they compare with, and what counts instructions."""
import os
import platform
import re
import shutil
import subprocess
from collections.abc import Iterable
from dataclasses import dataclass, field
from pathlib import Path

import postgres
from machine import HERE, Failed, Words, run

# The C programs of this folder, by their names, and the libraries that each wants.
BUILT: dict[str, list[str]] = {
    "load": [], "clients": ["-pthread"], "echo": ["-pthread"], "accounts": ["-lsqlite3"], "writers": ["-lsqlite3", "-pthread"],
    "smallbank": ["-pthread"],
}
# What is wanted for each of them, and for what else the benchmarks look for.
WANTED_FOR = {
    "load": "the C compiler cc",
    "clients": "the C compiler cc",
    "echo": "the C compiler cc",
    "smallbank": "the C compiler cc",
    "rt": "the Rattle kit, and git",
    "accounts": "the C compiler cc and the library sqlite3 with its header",
    "writers": "the C compiler cc and the library sqlite3 with its header",
    "redis-server": "redis-server",
    "postgres": "PostgreSQL with pgbench; for root also the user postgres, and a TMPDIR that this user can reach",
    "instructions": "valgrind, or perf where it counts instructions",
}


@dataclass
class Tools:
    """What was found, by name: the paths of the C programs that were built, and of other tools."""

    paths: dict[str, Path] = field(default_factory=dict)

    def missing(self, names: Iterable[str]) -> str | None:
        """What is wanted for the first of these that was not found; None where all were."""
        return next((WANTED_FOR[name] for name in names if name not in self.paths), None)


def look_for_tools(folder: Path) -> Tools:
    """Builds the C programs into a folder, where there is a compiler, and looks for the rest."""
    tools = Tools()
    for name, libraries in BUILT.items():
        if _builds(HERE / f"{name}.c", folder / name, libraries):
            tools.paths[name] = folder / name
    elsewhere = {"redis-server": _which("redis-server"), "postgres": postgres.find(folder), "instructions": counter()}
    elsewhere["rt"] = _which("rt")
    tools.paths |= {name: path for name, path in elsewhere.items() if path}
    return tools


def counter() -> Path | None:
    """What counts the instructions of a command."""
    return Path(PERF[0]) if _perf_counts() else _which("valgrind")


def _which(name: str) -> Path | None:
    found = shutil.which(name)
    return Path(found) if found else None


def _builds(source: Path, program: Path, libraries: list[str]) -> bool:
    if not shutil.which("cc"):
        return False
    try:
        run(["cc", "-O2", "-o", program, source, *libraries])
    except Failed:
        if not libraries:
            raise
    return program.exists()


PERF = ["perf", "stat", "-x,", "-e", "instructions:u"]


def _perf_counts() -> bool:
    if not shutil.which("perf"):
        return False
    return re.search(rb"(?m)^\d+,", run([*PERF, "true"])[1]) is not None


def instructions_of(tools: Tools, words: Words) -> int:
    """How many instructions a command takes, all its threads together."""
    if tools.paths["instructions"] == Path(PERF[0]):
        _, told = run([*PERF, *words], stdout=subprocess.DEVNULL)
        found = re.search(rb"(?m)^(\d+),.*instructions", told)
    else:
        callgrind = [tools.paths["instructions"], "--tool=callgrind", f"--callgrind-out-file={os.devnull}"]
        _, told = run([*callgrind, *words], stdout=subprocess.DEVNULL)
        found = re.search(rb"Collected : (\d+)", told)
    if not found:
        raise Failed(f"{tools.paths['instructions']} counts nothing: {' '.join(told.decode(errors='replace').split())[-200:]}")
    return int(found[1])


def versions(tools: Tools) -> list[str]:
    """What was found to compare with and to count by, each with its version."""
    paths = tools.paths
    programs = {"Redis": paths.get("redis-server"), "SQLite": paths.get("accounts")}
    if "postgres" in paths:
        programs["PostgreSQL"] = paths["postgres"] / "postgres"
    if "instructions" in paths:
        programs[paths["instructions"].name] = paths["instructions"]
    return [f"{name} {_version_of(program)}" for name, program in programs.items() if program]


def _version_of(program: Path) -> str:
    found = re.search(rb"\d+(\.\d+)+", run([program, "--version"])[0])
    return found[0].decode() if found else "of no known version"


def machine() -> str:
    """The machine and its system, in some words."""
    cpus = re.findall(r"(?m)^model name\s*: (.*)$", Path("/proc/cpuinfo").read_text())
    return f"{os.cpu_count()} cores, {cpus[0] if cpus else platform.machine()}, {platform.system()} {platform.release()}"


def description() -> str:
    """The machine, and how busy it is."""
    return f"{machine()}, load {os.getloadavg()[0]:.1f}"
