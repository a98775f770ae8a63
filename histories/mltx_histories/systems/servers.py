"""Servers that are started here: each as long as a block lasts, in a folder of its own, at a port of this machine alone. They
keep what they are told in files, but wait for no disk: a kill of the process loses nothing that they keep well."""
import os
import pwd
import re
import shutil
import signal
import socket
import subprocess
import time
from collections.abc import Callable, Iterator, Sequence
from contextlib import contextmanager, suppress
from pathlib import Path

from .base import START, Address, Failed

LOCAL = "127.0.0.1"
# How long is waited between two looks, in seconds.
LOOK = 0.02
POSTGRES, MARIADB = ("initdb", "postgres"), ("mariadb-install-db", "mariadbd")
# The users that PostgreSQL and MariaDB run as, where the superuser of the machine starts them.
USERS = {"postgres": "postgres", "mariadb": "mysql"}

Process = subprocess.Popen[bytes]
Words = Sequence[object]


def free_port() -> int:
    """A port that nobody listens at just now."""
    with socket.socket() as free:
        free.bind((LOCAL, 0))
        port: int = free.getsockname()[1]
    return port


def owner(kind: str) -> dict[str, object]:
    """By whom a server and its files are owned, as options of `Popen`."""
    return {"user": USERS[kind], "group": USERS[kind], "extra_groups": []} if os.geteuid() == 0 and kind in USERS else {}


def has_owner(kind: str, folder: Path) -> bool:
    """Whether the user is there by whom a server runs, and can enter the folder."""
    if os.geteuid() != 0 or kind not in USERS:
        return True
    return any(it.pw_name == USERS[kind] for it in pwd.getpwall()) and all(it.stat().st_mode & 1 for it in folder.parents)


def programs(names: Sequence[str]) -> list[Path]:
    """The paths of these programs; none where one of them is not installed."""
    folders = [Path("/usr/sbin"), *sorted(Path("/usr/lib/postgresql").glob("*/bin"), reverse=True)]
    places = [*(Path(path).resolve().parent for name in names if (path := shutil.which(name))), *folders]
    found = [next((it / name for it in places if (it / name).exists()), None) for name in names]
    return [it for it in found if it]


def lacks(kind: str, folder: Path) -> str:
    """What a server wants and is not there, or nothing."""
    wanted = {"redis": ("redis-server",), "postgres": POSTGRES, "mariadb": MARIADB}.get(kind, ())
    names = {"redis": "redis-server", "postgres": "PostgreSQL", "mariadb": "MariaDB"}
    if len(programs(wanted)) < len(wanted):
        return f"{names[kind]} is not installed"
    return "" if has_owner(kind, folder) else f"{names[kind]} can't be run in a folder like this one"


class Server:
    """A server that can be killed and started again."""

    def __init__(self, words: Words, kind: str, folder: Path, address: Address) -> None:
        self.words, self.kind, self.folder, self.address = [*map(str, words)], kind, folder, address
        self.log = folder / f"{kind}.log"
        self.start()

    def start(self) -> None:
        """Starts it, and waits until it listens."""
        with open(self.log, "ab") as log:
            self.process: Process = subprocess.Popen(
                self.words, stdin=subprocess.DEVNULL, stdout=log, stderr=log, cwd=self.folder, start_new_session=True,
                **owner(self.kind),  # type: ignore[call-overload]
            )
        until = time.monotonic() + START
        while time.monotonic() < until and self.process.poll() is None:
            try:
                socket.create_connection((self.address.host, self.address.port), START).close()
                return
            except OSError:
                time.sleep(LOOK)
        raise Failed(f"{self.kind} does not listen: {self.log.read_text(errors='replace')[-500:].strip()}")

    def kill(self) -> None:
        """Kills it with what it started."""
        with suppress(ProcessLookupError):
            os.killpg(self.process.pid, signal.SIGKILL)
        self.process.wait()

    def stop(self) -> None:
        """Ends it. PostgreSQL gives back its shared memory only if it is asked to end, here at once."""
        if self.kind == "postgres" and self.process.poll() is None:
            self.process.send_signal(signal.SIGQUIT)
            with suppress(subprocess.TimeoutExpired):
                self.process.wait(START)
        self.kill()

    def again(self) -> None:
        """Kills it and starts it; what another process still holds is waited for."""
        self.kill()
        until = time.monotonic() + START
        while True:
            try:
                return self.start()
            except Failed:
                if time.monotonic() > until:
                    raise
                time.sleep(0.2)


def _made(kind: str, folder: Path, words: Words) -> None:
    """Makes the files of a server once."""
    ran = subprocess.run([*map(str, words)], cwd=folder, capture_output=True, **owner(kind))  # type: ignore[call-overload]
    if ran.returncode:
        raise Failed(f"{kind} can't be made: {ran.stderr.decode(errors='replace')[-500:].strip()}")


def postgres(folder: Path) -> Server:
    initdb, server = programs(POSTGRES)
    data, port = folder / "data", free_port()
    _made("postgres", folder, [initdb, "--pgdata", data, "--username", "postgres", "--auth", "trust", "--no-sync", "--no-locale"])
    settings = {"fsync": "off", "full_page_writes": "off", "unix_socket_directories": folder, "max_connections": 200,
                "deadlock_timeout": "20ms"}
    options = [word for name, value in settings.items() for word in ("-c", f"{name}={value}")]
    words = [server, "-D", data, "-h", LOCAL, "-p", port, *options]
    return Server(words, "postgres", folder, Address(LOCAL, port, user="postgres"))


def mariadb(folder: Path) -> Server:
    install, server = programs(MARIADB)
    data, port = folder / "data", free_port()
    words: Words = ["--no-defaults", f"--datadir={data}", "--auth-root-authentication-method=normal", "--skip-test-db"]
    _made("mariadb", folder, [install, *words])
    # The database is made at the start, as there is none that has a plain name.
    (folder / "first.sql").write_text("CREATE DATABASE IF NOT EXISTS mltx;\n")
    options = {"datadir": data, "bind-address": LOCAL, "port": port, "socket": folder / "socket", "pid-file": folder / "pid",
               "innodb-flush-log-at-trx-commit": 2, "innodb-flush-method": "nosync", "skip-name-resolve": 1,
               "init-file": folder / "first.sql", "max-connections": 200, "innodb-buffer-pool-size": "64M"}
    words = [server, "--no-defaults", *(f"--{name}={value}" for name, value in options.items())]
    return Server(words, "mariadb", folder, Address(LOCAL, port, user="root", database="mltx"))


def redis(folder: Path) -> Server:
    port = free_port()
    words: Words = ["--bind", LOCAL, "--port", port, "--dir", folder, "--save", "", "--appendonly", "yes", "--appendfsync", "no"]
    return Server([*programs(("redis-server",)), *words], "redis", folder, Address(LOCAL, port))


def mltx(program: Path, folder: Path) -> Server:
    """A server of this program, at a port that it chooses first. It keeps its data in a folder."""
    port = free_port()
    words: Words = ["serve", f"{LOCAL}:{port}", "--endless", "--sessions", 64, "--data", folder / "data"]
    return Server([program, *words], "mltx", folder, Address(LOCAL, port))


@contextmanager
def running(kind: str, program: Path, folder: Path) -> Iterator[Server]:
    """A server of this kind, as long as the block lasts."""
    folder = folder / kind
    folder.mkdir(exist_ok=True)
    if owner(kind):
        folder.parent.chmod(0o711)
        shutil.chown(folder, USERS[kind], USERS[kind])
    starters: dict[str, Callable[[Path], Server]] = {"postgres": postgres, "mariadb": mariadb, "redis": redis}
    server = starters[kind](folder) if kind in starters else mltx(program, folder)
    try:
        yield server
    finally:
        server.stop()


def version(kind: str, program: Path) -> str:
    """What a system's own program says that it is."""
    if kind == "sqlite":
        import sqlite3
        return f"SQLite {sqlite3.sqlite_version}"
    names = {"postgres": POSTGRES[1:], "mariadb": MARIADB[1:], "redis": ("redis-server",)}.get(kind)
    found = programs(names) if names else [program]
    told = subprocess.run([*found, "--version"], capture_output=True, text=True).stdout.strip() if found else ""
    number = re.search(r"\d+(?:\.\d+)+", told)
    return told if kind == "mltx" else f"{kind} {number[0] if number else ''}"
