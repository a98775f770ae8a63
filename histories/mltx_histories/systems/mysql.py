"""Sessions of MariaDB and MySQL: the handshake with a password, and statements with results in text."""
import hashlib
import struct

from .base import Address, Failed, Lost, RolledBack, Unknown
from .sql import Sql
from .stream import Stream

LEVELS = ("read-uncommitted", "read-committed", "repeatable-read", "snapshot", "serializable")
# What takes a transaction back: a deadlock, a lock that is waited for too long, a row that changed since the snapshot, a key that
# another one has put in.
TAKEN_BACK = (1213, 1205, 1020, 1062)
# How a server tells that it ends.
ENDING = (1053, 1079, 1927)
# It has no setting of this name.
UNKNOWN = 1193
# What the client knows of the protocol: long passwords, a database, 4.1, transactions, 4.1 passwords, plugins of passwords.
CAPABILITIES = 0x1 | 0x8 | 0x200 | 0x2000 | 0x8000 | 0x80000
NATIVE = "mysql_native_password"
OK, SWITCH, NULL, ERROR = 0x00, 0xFE, 0xFB, 0xFF


class MySql(Sql):
    """A connection whose transactions have this isolation level; `snapshot` is `repeatable-read` of MariaDB with
    innodb_snapshot_isolation."""

    beginning = "START TRANSACTION"

    def __init__(self, address: Address, level: str) -> None:
        self.stream, self.address, self.number = Stream(address), address, 0
        self._shake_hands()
        if level == "snapshot":
            self.query("SET SESSION innodb_snapshot_isolation = ON")
        named = "REPEATABLE READ" if level == "snapshot" else level.upper().replace("-", " ")
        self.query(f"SET SESSION TRANSACTION ISOLATION LEVEL {named}")
        # What waits longer than a second gives way.
        self.query("SET SESSION innodb_lock_wait_timeout = 1")

    def worded(self, statement: str) -> str:
        """It has other words for what is put in or changed."""
        head, found, change = statement.partition(" ON CONFLICT (id) DO UPDATE SET ")
        if not found:
            return statement
        if " || " in change:
            name, _, element = change.partition(" = ")
            change = f"{name} = CONCAT({element.replace(' || ', ', ').replace('mltx_list.', '')})"
        return f"{head} ON DUPLICATE KEY UPDATE {change}"

    def _packet(self) -> bytes:
        head = self.stream.read(4)
        self.number = head[3] + 1
        return self.stream.read(int.from_bytes(head[:3], "little"))

    def _send(self, body: bytes) -> None:
        self.stream.send(len(body).to_bytes(3, "little") + bytes([self.number % 256]) + body)

    def _shake_hands(self) -> None:
        """Tells who is there, and with which password."""
        hello = self._packet()
        if hello[0] == ERROR:
            raise self._fault(hello)
        rest = hello[hello.index(b"\0", 1) + 1:]
        # The seed is in two parts: 8 bytes behind the thread's number, and 12 behind 19 others.
        seed = rest[4:12] + rest[31:43]
        user = (self.address.user or "root").encode()
        database = self.address.database.encode() + b"\0" if self.address.database else b""
        flags = CAPABILITIES if database else CAPABILITIES & ~0x8
        proof = self._proof(seed)
        head = struct.pack("<IIB", flags, 1 << 24, 45) + bytes(23)
        self._send(head + user + b"\0" + bytes([len(proof)]) + proof + database + NATIVE.encode() + b"\0")
        told = self._packet()
        while told[0] not in (OK, ERROR):
            name, _, data = told[1:].partition(b"\0")
            if told[0] != SWITCH or name.startswith((b"caching_sha2", b"sha256")):
                raise Failed(f"the server wants a password by {name.decode(errors='replace')}; only {NATIVE} is known here")
            self._send(self._proof(data[:20]) if name.decode() == NATIVE else b"")
            told = self._packet()
        if told[0] == ERROR:
            raise self._fault(told)

    def _proof(self, seed: bytes) -> bytes:
        if not self.address.password:
            return b""
        first = hashlib.sha1(self.address.password.encode()).digest()
        other = hashlib.sha1(seed + hashlib.sha1(first).digest()).digest()
        return bytes(one ^ another for one, another in zip(first, other))

    def _fault(self, told: bytes) -> Exception:
        """The error that the server answers. What takes only the statement back is followed by a rollback."""
        number, words = int.from_bytes(told[1:3], "little"), told[3:].decode(errors="replace")
        words = words[6:] if words.startswith("#") else words
        if number in ENDING:
            return Lost(words)
        if number in TAKEN_BACK:
            self.query("ROLLBACK")
            return RolledBack(words)
        return (Unknown if number == UNKNOWN else Failed)(f"the server answers the error {number}: {words}")

    def query(self, statement: str) -> str | None:
        self.number = 0
        self._send(b"\3" + statement.encode())
        told = self._packet()
        if told[0] == ERROR:
            raise self._fault(told)
        if told[0] == OK:
            return None
        # Rows follow the columns, each part of which ends with a short packet.
        value, parts = None, 0
        while parts < 2:
            told = self._packet()
            if told[0] == ERROR:
                raise self._fault(told)
            if told[0] == SWITCH and len(told) < 9:
                parts += 1
            elif parts:
                value = None if told[0] == NULL else _first(told)
        return value

    def close(self) -> None:
        self.stream.close()


def _first(row: bytes) -> str:
    """The first value of a row, which has its length before it."""
    wide = {0xFC: 2, 0xFD: 3, 0xFE: 8}.get(row[0], 0)
    length = int.from_bytes(row[1:1 + wide], "little") if wide else row[0]
    return row[1 + wide:1 + wide + length].decode()
