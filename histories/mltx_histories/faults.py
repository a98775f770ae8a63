"""Kills a system while clients run, and starts it again."""
import os
import shlex
import signal
import subprocess
import threading
import time
from pathlib import Path
from typing import Protocol

from .systems.base import Failed

# How long is waited between two looks at what clients have done, in seconds.
LOOK = 0.005


class Killable(Protocol):
    """A process that can be killed and started again."""

    def again(self) -> None: ...


class Given:
    """A process that somebody else has started: its number, or a file that has it, and the command by which it starts again. That
    command either becomes the server, or starts it and ends; then the number is in the file."""

    def __init__(self, process: str, command: str) -> None:
        self.command, self.file = command, None if process.isdigit() else Path(process)
        self.number = int(process) if process.isdigit() else 0
        self.child: subprocess.Popen[bytes] | None = None

    def again(self) -> None:
        number = int(self.file.read_text().split()[0]) if self.file else self.number
        try:
            os.kill(number, signal.SIGKILL)
        except OSError as fault:
            raise Failed(f"process {number} can't be killed: {fault}") from fault
        if self.child and self.child.pid == number:
            self.child.wait()
        while _runs(number):
            time.sleep(LOOK)
        nothing = subprocess.DEVNULL
        words = shlex.split(self.command)
        self.child = subprocess.Popen(words, stdin=nothing, stdout=nothing, stderr=nothing, start_new_session=True)
        self.number = self.child.pid


def _runs(number: int) -> bool:
    """Whether a process has not ended. One that nobody has waited for yet has."""
    try:
        return " Z " not in Path(f"/proc/{number}/stat").read_text()
    except OSError:
        return False


class Faults:
    """So many kills, each after the same part of all transactions, as long as the block lasts. A fault of a restart is raised at
    its end."""

    def __init__(self, kills: int, total: int, killed: Killable | None) -> None:
        self.marks = [total * at // (kills + 1) for at in range(1, kills + 1)]
        self.killed, self.progress, self.is_over = killed, 0, threading.Event()
        self.fault: Exception | None = None
        self.thread = threading.Thread(target=self._work, daemon=True)
        if kills and not killed:
            raise Failed("what is not started here is killed by --kill and --restart")

    def __enter__(self) -> "Faults":
        self.thread.start()
        return self

    def _work(self) -> None:
        for mark in self.marks:
            while self.progress < mark:
                if self.is_over.wait(LOOK):
                    return
            try:
                if self.killed:
                    self.killed.again()
            except Exception as fault:
                self.fault = fault
                return

    def __exit__(self, *_: object) -> None:
        self.is_over.set()
        self.thread.join()
        if self.fault:
            raise self.fault
