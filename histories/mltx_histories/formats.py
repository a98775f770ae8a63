"""Reads histories in other formats: EDN and JSON lines as Jepsen and Elle write them, and JSON of our own.

Of Jepsen each operation is a map with `:type`, `:process`, `:f`, `:value` and perhaps `:time` and `:index`. An `:invoke` and the
`:ok`, `:fail` or `:info` of its process that follows make a transaction, whose end is not known after `:info` or none.
`:value` has micro-operations: `[:r k v]`, `[:w k v]`, `[:append k v]`, and operations of our own, as `[:up 7 1]`.
JSON of our own has an object for each transaction."""
import json
import re
from collections.abc import Iterable, Iterator, Sequence
from functools import cache
from math import inf

from . import text
from .model import WITH_TWO, Done, Faulty, Transaction, done, settled
from .unswept import unswept

# A value of EDN or JSON. Keywords of EDN are texts; their colon is left out, and so is the tag of a value.
Value = None | bool | int | float | str | list["Value"] | dict[str, "Value"]
Tokens = Iterator[re.Match[str]]
# What stands before a token of EDN, and the token: numbers in brackets, a mark, a text, a character, a word, or none of these.
TOKEN = re.compile(
    r'(?:[\s,]++|;[^\n]*+)*+'
    r'(?:(\[(?:[\s,]*+-?\d++(?=[\s,\]]))*+[\s,]*+\])|(#_|#\{|[\[\](){}])|("(?:[^"\\]|\\.)*+")|(\\\S\w*)'
    r'|(#?[^\s,;\[\](){}"]+)|(.)|\Z)')
NUMBERS, MARK, TEXT, CHARACTER, WORD = range(1, 6)
CLOSING = {"[": "]", "(": ")", "{": "}", "#{": "}"}
SHORT = {"r": "read", "w": "write", "inc": "up"}
# What our own operations are answered where nothing else is said.
USUAL = {"up": "done", "down": "done", "write": "done", "append": "done", "deposit": "done", "withdraw": "done", "open": "opened",
         "close": "closed", "add": "added", "remove": "removed"}
ENDINGS = {"commit": "commit", "ok": "commit", "abort": "abort", "fail": "abort", "unknown": "", "info": "", None: ""}


class _Keyword(str):
    """A keyword of EDN, which is a text of its own."""


class _Drop:
    """What `#_` makes of a value."""


@unswept()
def read(data: str) -> list[Transaction]:
    """The transactions of a history in any of the formats."""
    begins = re.sub(r"^(\s|;[^\n]*\n|#\s[^\n]*\n)*", "", data)
    if begins[:1] not in ("{", "[", "#") or begins.startswith("# "):
        return text.read(data)
    is_json = re.match(r'[\[{\s]*("|\}|\])', begins)
    found = list(_json(data) if is_json else edn(data))
    items = found[0] if len(found) == 1 and isinstance(found[0], list) else found
    events = [it for it in items if isinstance(it, dict)]
    if len(events) < len(items):
        raise Faulty("an operation of a history is a map")
    if not is_json or any("type" in it for it in events):
        return settled(_jepsen(events), "register")
    return settled([_own(it, at) for at, it in enumerate(events, 1)])


def _json(data: str) -> Iterator[Value]:
    """The values of a text of JSON, or of one of JSON lines."""
    decoder, at = json.JSONDecoder(), 0
    while rest := re.compile(r"[\s,]*(?=\S)").match(data, at):
        try:
            value, at = decoder.raw_decode(data, rest.end())
        except ValueError as fault:
            raise Faulty(f"line {data.count(chr(10), 0, rest.end()) + 1}: no JSON: {fault}") from None
        yield value


def edn(data: str) -> Iterator[Value]:
    """The values of a text of EDN."""
    tokens = (it for it in TOKEN.finditer(data) if it.lastindex)
    for found in tokens:
        value = _value(found, tokens)
        if not isinstance(value, _Drop):
            yield value


def _fault(found: re.Match[str], why: str) -> Faulty:
    return Faulty(f"line {found.string.count(chr(10), 0, found.end()) + 1}: no EDN: {why}")


def _value(found: re.Match[str], tokens: Tokens) -> "Value | _Drop":
    kind = found.lastindex or 0
    token = found[kind]
    if kind == WORD:
        return _next(found, tokens) if token[0] == "#" and token[1:2] != "#" else _of_word(token)
    if kind == NUMBERS:
        return [*map(int, token[1:-1].replace(",", " ").split())]
    if kind == TEXT:
        try:
            return str(json.loads(token, strict=False))
        except ValueError:
            return token[1:-1]
    if kind == CHARACTER:
        return token
    if token == "#_":
        _next(found, tokens)
        return _Drop()
    if token in CLOSING:
        return _collection(found, tokens)
    raise _fault(found, f"`{token}` closes nothing" if kind == MARK else f"`{token}` is not closed")


@cache
def _of_word(token: str) -> Value:
    if token.startswith(":"):
        return _Keyword(token[1:])
    if re.fullmatch(r"[+-]?\d+N?", token):
        return int(token.rstrip("N"))
    if re.fullmatch(r"[+-]?\d+(\.\d*)?([eE][+-]?\d+)?M?", token):
        return float(token.rstrip("M"))
    return {"nil": None, "true": True, "false": False}.get(token, _Keyword(token))


def _next(before: re.Match[str], tokens: Tokens) -> Value:
    for found in tokens:
        value = _value(found, tokens)
        if not isinstance(value, _Drop):
            return value
    raise _fault(before, "something is missing at the end")


def _collection(opening: re.Match[str], tokens: Tokens) -> Value:
    items, mark = list[Value](), opening[MARK]
    for found in tokens:
        if found[MARK] == CLOSING[mark]:
            if mark != "{":
                return items
            if len(items) % 2:
                raise _fault(opening, "a map has a key without a value")
            return {_word(key): value for key, value in zip(items[::2], items[1::2])}
        value = _value(found, tokens)
        if not isinstance(value, _Drop):
            items.append(value)
    raise _fault(opening, f"`{mark}` is not closed")


def _word(value: Value) -> str:
    """A value as one word of a history. Numbers, keywords and most texts of one word stand as they are."""
    if isinstance(value, _Keyword) or isinstance(value, str) and re.fullmatch(r"(?!nil$|is$)[A-Za-z_][\w.:+/-]*", value):
        return str(value)
    if isinstance(value, int) and not isinstance(value, bool):
        return str(value)
    return re.sub(r"[\s\[\]]", lambda it: f"\\u{ord(it[0]):04x}", json.dumps(value, separators=(",", ":"), sort_keys=True))


def _words(values: Sequence[Value]) -> str:
    if {*map(type, values)} <= {int}:
        return " ".join(map(str, values))
    return " ".join(map(_word, values))


def _done(micro: Value, is_known: bool) -> Done | None:
    """A micro-operation; nothing where it is a read of which the reply is not known."""
    if not isinstance(micro, list) or len(micro) < 2 or not isinstance(micro[0], str):
        raise Faulty(f"{micro!r} is no operation, as [:r 1 2] or [:append 1 2] is")
    verb = SHORT.get(micro[0], micro[0])
    count = 2 + (verb in WITH_TWO)
    asked, more = " ".join([verb, *map(_word, micro[1:count])]), list(micro[count:])
    if len(more) > 1 or len(micro) < count:
        raise Faulty(f"{micro!r} has too {'many' if more else 'few'} parts")
    if verb in USUAL:
        return done(asked, _word(more[0]) if more else USUAL[verb])
    if not is_known:
        return None
    if verb == "read" and (not more or more[0] is None):
        return done(asked, "is nil")
    if verb == "read" and isinstance(more[0], list):
        return done(asked, f"is [{_words(more[0])}]")
    reply = _word(more[0]) if more else ""
    return done(asked, reply if re.fullmatch("[a-z]+", reply) and verb != "read" else f"is {reply}")


def _operations(value: Value, is_known: bool, where: str) -> list[Done]:
    if not isinstance(value, list):
        raise Faulty(f"{where}: a transaction has a list of operations")
    try:
        return [it for it in (_done(micro, is_known) for micro in value) if it]
    except Faulty as fault:
        raise Faulty(f"{where}: {fault}") from None


def _number(value: Value, other: float) -> float:
    return float(value) if isinstance(value, (int, float)) and not isinstance(value, bool) else other


def _jepsen(events: Sequence[dict[str, Value]]) -> list[Transaction]:
    """The transactions of clients, numbered by the indices of their ends, or by their lines."""
    # Times count where all have them; where they begin in the history its order is that of time.
    mine = [it for it in events if isinstance(it.get("process"), int) or "process" not in it]
    has_times = all("time" in it for it in mine)
    begins = any(it.get("type") == "invoke" for it in mine)
    open_ones: dict[str, tuple[Transaction, Value]] = {}
    found: list[Transaction] = []
    for at, it in enumerate(mine, 1):
        kind, where = it.get("type"), f"operation {at}"
        now = _number(it.get("time"), 0) if has_times else _number(it.get("index"), at)
        process, number = _word(it.get("process")), int(_number(it.get("index"), at))
        if it.get("f") not in (None, "txn"):
            raise Faulty(f"{where}: only :txn is known, and not {it.get('f')}")
        if kind == "invoke":
            if process in open_ones:
                raise Faulty(f"{where}: process {process} has begun another before")
            open_ones[process] = Transaction(number, now, client=process, begun=at), it.get("value")
            found.append(open_ones[process][0])
            continue
        if kind not in ("ok", "fail", "info"):
            raise Faulty(f"{where}: its type is {kind}, and not invoke, ok, fail or info")
        one, asked = open_ones.pop(process, (Transaction(number, client=process, begun=at), None))
        if one.start == -inf:
            found.append(one)
        value = it.get("value")
        one.number, one.ending, one.line = number, ENDINGS[str(kind)], at
        one.end = now if kind == "ok" and begins else inf
        one.done = _operations(value if value is not None else asked, kind == "ok", where)
    for one, asked in open_ones.values():
        one.done = _operations(asked, False, f"operation {one.begun}")
    return found


def _own(it: dict[str, Value], at: int) -> Transaction:
    """A transaction in JSON of our own."""
    where, ending = f"transaction {at}", it.get("ending", "commit")
    if ending is not None and ending not in ENDINGS:
        raise Faulty(f"{where}: its ending is {ending}, and not commit, abort or unknown")
    kept, start = ENDINGS[ending if isinstance(ending, str) else None], _number(it.get("begin"), -inf)
    end = _number(it.get("end"), inf)
    return Transaction(
        int(_number(it.get("transaction"), at)), start, end if kept else inf, kept, _number(it.get("order"), inf),
        end if end < inf or start > -inf else at, _operations(it.get("operations"), True, where),
        re.sub(r"\s", "_", str(it.get("client", ""))), start if start > -inf else at)


def as_json(transactions: Iterable[Transaction]) -> str:
    """A history as JSON of our own, a line for each transaction."""
    lines = []
    for one in transactions:
        told: dict[str, object] = {"transaction": one.number, "ending": one.ending or "unknown"}
        told |= {"client": one.client} if one.client else {}
        told |= {name: int(it) for name, it in (("begin", one.start), ("end", one.end), ("order", one.order)) if abs(it) < inf}
        told["operations"] = [_micro(it) for it in one.done]
        lines.append(json.dumps(told) + "\n")
    return "".join(lines)


def _micro(it: Done) -> list[object]:
    verb, *names = it.asked.split()
    word, _, value = it.reply.partition(" ")
    seen: object = word if word != "is" else None if value == "nil" else _plain(value)
    if value.startswith("["):
        seen = [_plain(one) for one in value.strip("[]").split()]
    return [verb, *map(_plain, names), seen]


def _plain(word: str) -> object:
    return int(word) if re.fullmatch(r"-?\d+", word) else json.loads(word) if word.startswith('"') else word
