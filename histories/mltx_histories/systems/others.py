"""Sessions of `mltx serve`, and of programs that answer lines."""
import os
import shlex
import signal
import subprocess

from .base import Address, Failed, Lost, RolledBack, Session
from .stream import Stream


class Mltx(Session):
    """A session of this program's server, which has no registers and no lists."""

    def __init__(self, address: Address) -> None:
        self.stream = Stream(address)

    def _say(self, line: str) -> str:
        self.stream.send(f"{line}\n".encode())
        told = self.stream.line().decode()
        if told.startswith("error 14 "):
            self._say("abort")
            raise RolledBack(told)
        if told.startswith("error "):
            raise Failed(f"the server answers {told} to `{line}`")
        return told

    def begin(self) -> None:
        self._say("begin")

    def ask(self, asked: str) -> str:
        return self._say(asked)

    def commit(self) -> int:
        return int(self._say("commit").split()[1])

    def abort(self) -> None:
        self._say("abort")

    def close(self) -> None:
        self.stream.close()


class Lines(Session):
    """A program that reads a line of a transaction and answers it by a line, for one client."""

    def __init__(self, command: str) -> None:
        self.name = command
        pipe = subprocess.PIPE
        try:
            self.process = subprocess.Popen(shlex.split(command), stdin=pipe, stdout=pipe, start_new_session=True)
        except OSError as fault:
            raise Failed(f"{command} can't be run: {fault}") from fault

    def _say(self, line: str, *wanted: str) -> str:
        """The answer, which is one of these words, or any."""
        if self.process.stdin is None or self.process.stdout is None:
            raise AssertionError("the streams are pipes")
        try:
            self.process.stdin.write(f"{line}\n".encode())
            self.process.stdin.flush()
            told = self.process.stdout.readline().decode().strip()
        except OSError as fault:
            raise Lost(str(fault)) from fault
        if told in ("", "lost"):
            raise Lost(f"{self.name} does not answer `{line}`")
        if told == "aborted" and line not in ("abort", "clear"):
            raise RolledBack(told)
        if wanted and told.split()[0] not in wanted:
            raise Failed(f"{self.name} answers {told!r} to `{line}`, and {' or '.join(wanted)} is wanted")
        return told

    def clear(self) -> None:
        self._say("clear", "ok")

    def begin(self) -> None:
        self._say("begin", "ok")

    def ask(self, asked: str) -> str:
        return self._say(asked)

    def commit(self) -> int | None:
        number = self._say("commit", "committed").removeprefix("committed").strip()
        return int(number) if number else None

    def abort(self) -> None:
        self._say("abort", "aborted")

    def close(self) -> None:
        """The program ends with its input; if not, it is killed."""
        for stream in (self.process.stdin, self.process.stdout):
            if stream:
                try:
                    stream.close()
                except OSError:
                    pass
        try:
            self.process.wait(1)
        except subprocess.TimeoutExpired:
            os.killpg(self.process.pid, signal.SIGKILL)
            self.process.wait()
