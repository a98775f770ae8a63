"""Sessions of PostgreSQL, by its simple query protocol."""
import base64
import hashlib
import hmac
import os
import struct

from .base import Address, Failed, Lost, RolledBack
from .sql import Sql
from .stream import Stream

LEVELS = ("read-committed", "repeatable-read", "serializable")
# What takes a transaction back: no serial order, a deadlock, a key that another one has put in.
TAKEN_BACK = ("40001", "40P01", "23505")
# How a server tells that it ends, or is not up yet.
ENDING = ("57P01", "57P02", "57P03")
# The kinds of messages by which a server asks for a password, and what it wants.
OK, CLEAR, MD5, SASL, SASL_NEXT, SASL_LAST = 0, 3, 5, 10, 11, 12


class Postgres(Sql):
    """A connection whose transactions have this isolation level."""

    def __init__(self, address: Address, level: str) -> None:
        self.stream, self.address = Stream(address), address
        user = address.user or "postgres"
        words = f"user\0{user}\0database\0{address.database or user}\0\0".encode()
        self.stream.send(struct.pack("!ii", len(words) + 8, 196_608) + words)
        self._answer()
        self.query(f"SET default_transaction_isolation = '{level.replace('-', ' ')}'")
        self.query("SET client_min_messages = 'error'")

    def query(self, statement: str) -> str | None:
        self._send(b"Q", statement.encode() + b"\0")
        return self._answer()

    def _send(self, kind: bytes, body: bytes) -> None:
        self.stream.send(kind + struct.pack("!i", len(body) + 4) + body)

    def _answer(self) -> str | None:
        """The first value of the last row. What takes the transaction back ends it."""
        value, failure, told, kind = None, "", "", b""
        while kind != b"Z":
            kind, size = struct.unpack("!ci", self.stream.read(5))
            body = self.stream.read(size - 4)
            if kind == b"D":
                length = struct.unpack("!i", body[2:6])[0]
                value = body[6:6 + length].decode() if length >= 0 else None
            elif kind == b"R":
                self._identify(struct.unpack("!i", body[:4])[0], body[4:])
            elif kind == b"E":
                parts = {it[:1]: it[1:].decode(errors="replace") for it in body.split(b"\0")}
                failure, told = parts.get(b"C", ""), parts.get(b"M", "")
                if failure in ENDING:
                    raise Lost(told)
                if parts.get(b"S") == "FATAL":
                    raise Failed(f"PostgreSQL answers: {told}")
        if failure in TAKEN_BACK:
            self.query("ROLLBACK")
            raise RolledBack(failure)
        if failure:
            raise Failed(f"PostgreSQL answers the error {failure}: {told}")
        return value

    def _identify(self, wanted: int, body: bytes) -> None:
        """Sends what tells that the password is known."""
        user, password = self.address.user.encode(), self.address.password.encode()
        if wanted == CLEAR:
            self._send(b"p", password + b"\0")
        elif wanted == MD5:
            inner = hashlib.md5(password + user).hexdigest().encode()
            self._send(b"p", b"md5" + hashlib.md5(inner + body[:4]).hexdigest().encode() + b"\0")
        elif wanted == SASL:
            if b"SCRAM-SHA-256\0" not in body:
                raise Failed("PostgreSQL asks for a password in a way that is not known here")
            self.nonce = base64.b64encode(os.urandom(18))
            first = b"n,,n=,r=" + self.nonce
            self._send(b"p", b"SCRAM-SHA-256\0" + struct.pack("!i", len(first)) + first)
        elif wanted == SASL_NEXT:
            self._send(b"p", self._proof(password, body))
        elif wanted not in (OK, SASL_LAST):
            raise Failed("PostgreSQL asks for a password in a way that is not known here")

    def _proof(self, password: bytes, challenge: bytes) -> bytes:
        """The last message of a client in SCRAM-SHA-256."""
        parts = {it[:1]: it[2:] for it in challenge.split(b",")}
        if not parts[b"r"].startswith(self.nonce):
            raise Failed("PostgreSQL answers another client's question")
        salted = hashlib.pbkdf2_hmac("sha256", password, base64.b64decode(parts[b"s"]), int(parts[b"i"]))
        key, bare = hmac.digest(salted, b"Client Key", "sha256"), b"c=biws,r=" + parts[b"r"]
        signed = b"n=,r=" + self.nonce + b"," + challenge + b"," + bare
        signature = hmac.digest(hashlib.sha256(key).digest(), signed, "sha256")
        proof = bytes(one ^ other for one, other in zip(key, signature))
        return b"%s,p=%s" % (bare, base64.b64encode(proof))

    def close(self) -> None:
        self.stream.close()
