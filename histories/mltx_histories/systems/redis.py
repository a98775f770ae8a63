"""Sessions of Redis, whose keys all begin with `mltx:`."""
from collections import Counter
from collections.abc import Sequence
from typing import Any

from ..model import Cell
from .base import Address, Failed, Lost, RolledBack, Values
from .stream import Stream

LEVELS = ("multi", "watch", "script")
LOAD = {
    "account": "EXISTS mltx:account:{0}", "balance": "GET mltx:account:{0}", "element": "SISMEMBER mltx:set:{0} {1}",
    "size": "SCARD mltx:set:{0}", "counter": "GET mltx:counter:{0}", "register": "GET mltx:register:{0}",
    "list": "LRANGE mltx:list:{0} 0 -1",
}
STORE = {
    "account": ("DEL mltx:account:{0}", "SET mltx:account:{0} 0"), "balance": ("SET mltx:account:{0} {value}",),
    "element": ("SREM mltx:set:{0} {1}", "SADD mltx:set:{0} {1}"), "counter": ("SET mltx:counter:{0} {value}",),
    "register": ("SET mltx:register:{0} {value}",),
}
# A whole transaction: its operations, and their replies.
SCRIPT = """
local told = {}
for at = 2, #ARGV do
  local verb, a, b = ARGV[at]:match('^(%a+) (%d+) ?(%d*)$')
  local account, set, counter, n = 'mltx:account:' .. a, 'mltx:set:' .. a, 'mltx:counter:' .. a, tonumber(b)
  local register, list = 'mltx:register:' .. a, 'mltx:list:' .. a
  local held, reply = tonumber(redis.call('GET', account) or nil), 'missing'
  if verb == 'up' or verb == 'down' then redis.call(verb == 'up' and 'INCRBY' or 'DECRBY', counter, b) reply = 'done'
  elseif verb == 'read' and ARGV[1] == 'lists' then reply = 'is [' .. table.concat(redis.call('LRANGE', list, 0, -1), ' ') .. ']'
  elseif verb == 'read' and ARGV[1] == 'registers' then reply = 'is ' .. (redis.call('GET', register) or 'nil')
  elseif verb == 'read' then reply = 'is ' .. (redis.call('GET', counter) or 0)
  elseif verb == 'add' then reply = redis.call('SADD', set, b) == 1 and 'added' or 'present'
  elseif verb == 'remove' then reply = redis.call('SREM', set, b) == 1 and 'removed' or 'absent'
  elseif verb == 'has' then reply = redis.call('SISMEMBER', set, b) == 1 and 'yes' or 'no'
  elseif verb == 'size' then reply = 'is ' .. redis.call('SCARD', set)
  elseif verb == 'open' then reply = redis.call('SETNX', account, 0) == 1 and 'opened' or 'exists'
  elseif verb == 'write' then redis.call('SET', register, b) reply = 'done'
  elseif verb == 'append' then redis.call('RPUSH', list, b) reply = 'done'
  elseif held and verb == 'balance' then reply = 'is ' .. redis.call('GET', account)
  elseif held and verb == 'close' then reply = held > 0 and 'notempty' or 'closed'
    if held == 0 then redis.call('DEL', account) end
  elseif held and verb == 'withdraw' then reply = held < n and 'short' or 'done'
    if held >= n then redis.call('DECRBY', account, b) end
  elseif held then reply = held + n > 1e18 and 'over' or 'done'
    if reply == 'done' then redis.call('INCRBY', account, b) end
  end
  told[at - 1] = reply
end
return told
"""


class Redis(Values):
    """A connection that queues what it writes up to the commit. At the level `watch` it watches each key before it reads it."""

    def __init__(self, address: Address, level: str) -> None:
        self.stream, self.level = Stream(address), level
        self.queue: list[list[str]] = []
        # What the transaction has written, the elements that it appends to lists, and by how much it changes sizes.
        self.written: dict[Cell, int] = {}
        self.appended: dict[int, list[int]] = {}
        self.grown: Counter[Cell] = Counter()
        if address.password:
            self.call("AUTH", *([address.user] if address.user else []), address.password)
        if address.database:
            self.call("SELECT", address.database)

    def call(self, *words: str) -> Any:
        parts = "".join(f"${len(word.encode())}\r\n{word}\r\n" for word in words)
        self.stream.send(f"*{len(words)}\r\n{parts}".encode())
        return self._answer()

    def _answer(self) -> Any:
        line = self.stream.line().decode()
        kind, told = line[:1], line[1:]
        if kind == "-":
            raise (Lost if told.startswith("LOADING") else Failed)(f"Redis answers {told!r}")
        if kind in "$*" and told == "-1":
            return None
        if kind == "$":
            return self.stream.read(int(told) + 2)[:-2].decode()
        return [self._answer() for _ in range(int(told))] if kind == "*" else told

    def clear(self) -> None:
        """Deletes the keys that begin with `mltx:`, and no other."""
        cursor = "0"
        while True:
            cursor, keys = self.call("SCAN", cursor, "MATCH", "mltx:*", "COUNT", "1000")
            if keys:
                self.call("DEL", *keys)
            if cursor == "0":
                return

    def begin(self) -> None:
        self.queue, self.written, self.seen, self.appended, self.grown = [], {}, {}, {}, Counter()

    def _read(self, cell: Cell) -> Any:
        words = LOAD[str(cell[0])].format(*cell[1:]).split()
        if self.level == "watch":
            self.call("WATCH", words[1])
        return self.call(*words)

    def load(self, cell: Cell) -> int:
        if cell in self.written:
            return self.written[cell]
        return int(self._read(cell) or 0) + self.grown[cell]

    def store(self, cell: Cell, value: int) -> None:
        self.written[cell] = value
        self.grown["size", cell[1]] += (value or -1) * (cell[0] == "element")
        ways = STORE[str(cell[0])]
        self.queue.append(ways[min(value, len(ways) - 1)].format(*cell[1:], value=value).split())

    def register(self, number: int) -> int | None:
        cell: Cell = ("register", number)
        found = self.written[cell] if cell in self.written else self._read(cell)
        return None if found is None else int(found)

    def elements(self, number: int) -> list[int]:
        return [*map(int, self._read(("list", number))), *self.appended.get(number, [])]

    def append(self, number: int, element: int) -> None:
        self.appended.setdefault(number, []).append(element)
        self.queue.append(["RPUSH", f"mltx:list:{number}", str(element)])

    def commit(self) -> None:
        for words in (["MULTI"], *self.queue):
            self.call(*words)
        if self.call("EXEC") is None:
            raise RolledBack

    def abort(self) -> None:
        self.call("UNWATCH")

    def close(self) -> None:
        self.stream.close()


class RedisScript(Redis):
    """A connection that sends a whole transaction as a script, at its commit."""

    def begin(self) -> None:
        self.sent: list[str] = []
        self.late: Sequence[tuple[str, str]] = []

    def ask(self, asked: str) -> str:
        self.sent.append(asked)
        return ""

    def commit(self) -> None:
        self.late = list(zip(self.sent, self.call("EVAL", SCRIPT, "0", self.data, *self.sent)))
