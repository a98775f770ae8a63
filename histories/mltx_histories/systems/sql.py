"""Statements that PostgreSQL, MariaDB, MySQL and SQLite know, and the sessions of SQLite."""
import sqlite3
from pathlib import Path
from typing import Protocol

from ..model import Cell
from .base import PATIENCE, Failed, RolledBack, Values

# The tables, whose names no application has.
TABLES = {
    "mltx_account": "id BIGINT PRIMARY KEY, balance BIGINT NOT NULL",
    "mltx_element": "owner BIGINT, id BIGINT, PRIMARY KEY (owner, id)",
    "mltx_counter": "id BIGINT PRIMARY KEY, value BIGINT NOT NULL",
    "mltx_register": "id BIGINT PRIMARY KEY, value BIGINT NOT NULL",
    "mltx_list": "id BIGINT PRIMARY KEY, elements TEXT NOT NULL",
}
LOAD = {
    "account": "SELECT count(*) FROM mltx_account WHERE id = {0}",
    "balance": "SELECT balance FROM mltx_account WHERE id = {0}",
    "element": "SELECT count(*) FROM mltx_element WHERE owner = {0} AND id = {1}",
    "size": "SELECT count(*) FROM mltx_element WHERE owner = {0}",
    "counter": "SELECT value FROM mltx_counter WHERE id = {0}",
    "register": "SELECT value FROM mltx_register WHERE id = {0}",
    "list": "SELECT elements FROM mltx_list WHERE id = {0}",
}
# How a value is stored; where there are two ways, 0 by the first.
STORE = {
    "account": ("DELETE FROM mltx_account WHERE id = {0}", "INSERT INTO mltx_account VALUES ({0}, 0)"),
    "balance": ("UPDATE mltx_account SET balance = {value} WHERE id = {0}",),
    "element": ("DELETE FROM mltx_element WHERE owner = {0} AND id = {1}", "INSERT INTO mltx_element VALUES ({0}, {1})"),
    "counter": ("INSERT INTO mltx_counter VALUES ({0}, {value}) ON CONFLICT (id) DO UPDATE SET value = {value}",),
    "register": ("INSERT INTO mltx_register VALUES ({0}, {value}) ON CONFLICT (id) DO UPDATE SET value = {value}",),
}
APPEND = "INSERT INTO mltx_list VALUES ({0}, '{1}') ON CONFLICT (id) DO UPDATE SET elements = mltx_list.elements || ' {1}'"


class Sql(Values, Protocol):
    """Sessions that execute statements. `query` returns the first value of the last row that a statement gives."""

    # The first words of a transaction.
    beginning: str = "BEGIN"

    def query(self, statement: str) -> str | None: ...

    def worded(self, statement: str) -> str:
        """A statement as the system writes it."""
        return statement

    def load(self, cell: Cell) -> int:
        return int(self._loaded(cell) or 0)

    def _loaded(self, cell: Cell) -> str | None:
        return self.query(LOAD[str(cell[0])].format(*cell[1:]))

    def store(self, cell: Cell, value: int) -> None:
        ways = STORE[str(cell[0])]
        self.query(self.worded(ways[min(value, len(ways) - 1)].format(*cell[1:], value=value)))

    def register(self, number: int) -> int | None:
        found = self._loaded(("register", number))
        return None if found is None else int(found)

    def elements(self, number: int) -> list[int]:
        return [int(word) for word in (self._loaded(("list", number)) or "").split()]

    def append(self, number: int, element: int) -> None:
        self.query(self.worded(APPEND.format(number, element)))

    def clear(self) -> None:
        for name, columns in TABLES.items():
            self.query(f"DROP TABLE IF EXISTS {name}")
            self.query(f"CREATE TABLE {name} ({columns})")

    def begin(self) -> None:
        self.seen = {}
        self.query(self.beginning)

    def commit(self) -> None:
        self.query("COMMIT")

    def abort(self) -> None:
        self.query("ROLLBACK")


class Sqlite(Sql):
    """A connection to a file. A transaction of the level `deferred` begins to write once it has read, one of `immediate` at its
    beginning."""

    def __init__(self, file: Path, level: str) -> None:
        self.beginning = f"BEGIN {level.upper()}"
        self.database = sqlite3.connect(file, PATIENCE, isolation_level=None, check_same_thread=False)
        self.database.execute("PRAGMA journal_mode = WAL")
        self.database.execute("PRAGMA synchronous = OFF")

    def query(self, statement: str) -> str | None:
        try:
            row = self.database.execute(statement).fetchone()
        except sqlite3.OperationalError as fault:
            if "locked" not in str(fault):
                raise Failed(f"SQLite: {fault}") from fault
            self.database.rollback()
            raise RolledBack from fault
        return None if row is None else str(row[0])

    def close(self) -> None:
        self.database.close()
