"""Has pytest run the tests of this folder: pytest tests [-k NAME] [--program FILE] [--seed N]. Each is one of pytest's, in the
file of its group. With pytest-xdist `-n 4` runs them side by side, as `tests/run` does, which needs no package."""
from __future__ import annotations

import sys
from collections.abc import Iterator
from pathlib import Path

import pytest

sys.path.insert(0, str(Path(__file__).resolve().parent))
import harness  # noqa: E402
from runner import GROUPS, HERE, built_program, prepare, run_alone  # noqa: E402


def pytest_addoption(parser: pytest.Parser) -> None:
    group = parser.getgroup("mltx")
    group.addoption("--program", type=Path, help="the built program, as of tests/run")
    group.addoption("--seed", type=int, help="the seed of random tests; that of the commit where it is not given")
    group.addoption("--cases", type=int, default=1, help="so many times as many random cases as in a usual run")


def pytest_configure(config: pytest.Config) -> None:
    prepare(config.getoption("--seed"), config.getoption("--cases"))


def pytest_report_header(config: pytest.Config) -> str:
    return f"seed {harness.SEED}, program {program_of(config)}"


def pytest_collect_file(file_path: Path, parent: pytest.Collector) -> pytest.Collector | None:
    is_group = file_path.parent == HERE and file_path.suffix == ".py" and file_path.stem in GROUPS
    return Group.from_parent(parent, path=file_path) if is_group else None


def program_of(config: pytest.Config) -> Path:
    given: Path = config.getoption("--program") or built_program()
    return given.resolve()


class Group(pytest.File):
    """A file of tests."""

    def collect(self) -> Iterator[pytest.Item]:
        for name, test in harness.TESTS.items():
            if test.group == self.path.stem.replace("_", "-"):
                yield Test.from_parent(self, name=name)


class Test(pytest.Item):
    def runtest(self) -> None:
        program = program_of(self.config)
        ended = run_alone(self.name, program)
        if ended.is_slow:
            ended = run_alone(self.name, program)
        if ended.why:
            raise harness.Failed(ended.why)

    def repr_failure(self, excinfo: pytest.ExceptionInfo[BaseException], style: object = None) -> str:
        return str(excinfo.value)

    def reportinfo(self) -> tuple[Path, None, str]:
        return self.path, None, self.name
