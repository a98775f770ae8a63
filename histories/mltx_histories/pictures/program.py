"""Runs the built program."""
import subprocess
import tempfile
from pathlib import Path


class Failed(Exception):
    """The program is not there, or ended with a fault."""


class Refused(Failed):
    """The program ended with a fault."""


class Program:
    """The program, with the hash function that `steps` takes. What was asked once is not asked again."""

    def __init__(self, path: str | Path, hash_function: str | None = None) -> None:
        self.path, self.options = path, ["--hash", hash_function] if hash_function else []
        self.said: dict[tuple[tuple[str, ...], bytes], bytes] = {}

    def steps(self, schedule: bytes) -> bytes:
        """What `steps` writes of a schedule."""
        return self._run(["steps", *self.options, "-"], schedule)

    def explained_steps(self, schedule: bytes) -> bytes:
        """The same, with the reasons of what is blocked or waits."""
        return self._run(["steps", "--explain", *self.options, "-"], schedule)

    def check(self, trace: bytes) -> bytes:
        """What `check` writes of a trace."""
        return self._run(["check", "-"], trace)

    def trace_of_scripts(self, scripts: bytes) -> bytes:
        """The trace that `solo` leaves of them."""
        with tempfile.NamedTemporaryFile() as trace:
            self._run(["solo", "--trace", trace.name, "-"], scripts)
            return trace.read()

    def _run(self, words: list[str], given: bytes) -> bytes:
        asked = tuple(words), given
        if asked not in self.said:
            try:
                ran = subprocess.run([self.path, *words], input=given, capture_output=True)
            except FileNotFoundError:
                raise Failed(f"there is no program {self.path}: ./mltx builds it, or give ANSWERS") from None
            if ran.returncode:
                raise Refused(f"`mltx {words[0]}` failed: {ran.stderr.decode(errors='replace').strip()}")
            self.said[asked] = ran.stdout
        return self.said[asked]
