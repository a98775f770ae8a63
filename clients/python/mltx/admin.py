"""The port of the operator: its numbers, waits and sessions, and how to end them."""

from __future__ import annotations

import http.client
import json
import socket
from collections.abc import Iterator
from contextlib import contextmanager
from dataclasses import dataclass
from typing import Any, Optional

from .core import find_address
from .errors import ConnectionLost, MltxError, NoSuchClient, ServerAway, TimedOut, UnexpectedAnswer

# A server's answer to an operator is shorter.
MOST_TOLD_BYTES = 16_777_216


@dataclass(frozen=True)
class Wait:
    """A transaction that waits for another one: `waiter`, whose session serves this client, for `holder`.

    `reason` is `object` where the holder's operations are in the way, `page` where it is at a page, and `turn` where it came
    before and waits itself."""

    waiter: int
    client: int
    holder: int
    reason: str
    operation: str
    seconds: float


@dataclass(frozen=True)
class OpenTransaction:
    """A transaction that is open, for so many seconds: how many operations it has done, the last of these with their replies,
    and the one that it asks for now, if there is one."""

    number: int
    seconds: float
    operations: int
    did: tuple[str, ...]
    calls: Optional[str]


@dataclass(frozen=True)
class ServedSession:
    """A client that is served, for so many seconds, and its transaction, if one is open."""

    client: int
    seconds: float
    transaction: Optional[OpenTransaction]


class Operator:
    """What an operator sees of a server and does to it, at the address that the server's `--admin` has.

    Each call is a connection of its own. It raises `ServerAway` where none can be made, `TimedOut` where the answer does not
    come within `timeout` seconds, `ConnectionLost` where it ends early, and `UnexpectedAnswer` where what answers is no such
    server."""

    def __init__(self, address: str, port: Optional[int] = None, *, timeout: Optional[float] = 5.0) -> None:
        """The address is a `HOST:PORT`, or a host before its port."""
        self.host, self.port = find_address(address, port)
        self.timeout = timeout

    def status(self) -> dict[str, int]:
        """The server's numbers by their names, as `commits`, which the table of formats lists."""
        told = self._told("GET", "/status")
        numbers = {name: it for name, it in told.items() if type(it) is int} if isinstance(told, dict) else {}
        if "server" not in numbers:
            raise UnexpectedAnswer(f"the answer to /status is {told!r}")
        return numbers

    def objects(self, kind: str, of: Optional[int] = None) -> Iterator[tuple[int, Optional[int]]]:
        """By the `kind` "account" or "counter" the numbers of all of these, each with what it holds, and by the kind "set" the
        elements of the set `of`, each with None; in no order. Changes of open transactions count."""
        place: Optional[int] = 0
        while place is not None:
            path = f"/base?kind={kind}&from={place}" + ("" if of is None else f"&of={of}")
            with self._understood(path):
                told = self._told("GET", path)
                listed, place = [(it["number"], it.get("value")) for it in told["objects"]], told["next"]
            yield from listed

    def save(self) -> int:
        """Has the server save what has committed, and returns how many transactions these are. A server that was started without
        `--save`, or whose system refuses it, raises `UnexpectedAnswer`."""
        with self._understood("/save"):
            return int(self._told("POST", "/save")["commits"])

    def waits(self) -> list[Wait]:
        """Which transaction waits for which."""
        with self._understood("/waits"):
            return [
                Wait(it["waiter"], it["client"], it["holder"], it["for"], it["operation"], it["milliseconds"] / 1_000)
                for it in self._told("GET", "/waits")["waits"]
            ]

    def sessions(self) -> list[ServedSession]:
        """The clients that are served, with what their open transactions did."""
        with self._understood("/sessions"):
            return [
                ServedSession(it["client"], it["milliseconds"] / 1_000, _open_transaction(it["transaction"]))
                for it in self._told("GET", "/sessions")["sessions"]
            ]

    def end_session(self, client: int) -> None:
        """Ends the session of a client, whose transaction is rolled back. Raises `NoSuchClient`."""
        self._told("POST", f"/sessions/{client}/end", NoSuchClient(f"the server serves no client {client}"))

    def stop(self) -> None:
        """Has the server end in order: it takes no more connections, answers what has come, and rolls back open transactions."""
        self._told("POST", "/stop")

    def _told(self, method: str, path: str, not_found: Optional[MltxError] = None) -> Any:
        """The answer to a request, which is JSON. Raises this error where nothing is at the path."""
        status, body = self._answer(method, path)
        if status == 404 and not_found:
            raise not_found
        try:
            if status == 200:
                return json.loads(body)
        except ValueError:
            pass
        raise UnexpectedAnswer(f"the answer to {method} {path} has the status {status} and begins with {body[:60]!r}")

    def _answer(self, method: str, path: str) -> tuple[int, bytes]:
        connection = http.client.HTTPConnection(self.host, self.port, timeout=self.timeout)
        try:
            connection.connect()
        except OSError as fault:
            raise ServerAway(f"no server answers an operator at {self.host}:{self.port} ({fault})") from fault
        try:
            # The server refuses any other name, so that no page of the web reaches it by a name of its own.
            connection.request(method, path, headers={"X-Mltx": "1", "Host": "localhost"})
            answer = connection.getresponse()
            return answer.status, answer.read(MOST_TOLD_BYTES)
        except socket.timeout as fault:
            raise TimedOut(f"no answer to {method} {path} came within {self.timeout} seconds") from fault
        except http.client.RemoteDisconnected as fault:
            said = f"the connection ended without an answer to {method} {path}: is it the server's --admin?"
            raise ConnectionLost(said) from fault
        except http.client.HTTPException as fault:
            raise UnexpectedAnswer(f"the answer to {method} {path} is none of HTTP ({fault!r})") from fault
        except OSError as fault:
            raise ConnectionLost(f"the connection ended before the answer to {method} {path} ({fault})") from fault
        finally:
            connection.close()

    @contextmanager
    def _understood(self, path: str) -> Iterator[None]:
        """If the answer has other parts than it should, it is none of such a server."""
        try:
            yield
        except (KeyError, TypeError) as fault:
            raise UnexpectedAnswer(f"the answer to {path} has other parts ({fault!r})") from fault


def _open_transaction(told: Any) -> Optional[OpenTransaction]:
    """The open transaction that a server tells of, if it does."""
    if told is None:
        return None
    return OpenTransaction(told["number"], told["milliseconds"] / 1_000, told["operations"], tuple(told["did"]), told["calls"])
