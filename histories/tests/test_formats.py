"""EDN and JSON are read as Jepsen and Elle write them; each value that is expected is written by hand."""
import random

import small
from cases import cases
from mltx_histories import formats, text
from mltx_histories.levels import judge
from mltx_histories.model import Faulty

# A history of Elle with comments, records, a nemesis, a transaction that failed, one with an unknown end, and one without an end.
EDN = """
; three processes and a nemesis
#jepsen.history.Op{:index 0, :time 10, :type :invoke, :process 0, :f :txn, :value [[:append 5 1] [:r 5 nil] [:r :k nil]]}
{:index 1 :time 11 :type :invoke :process 1 :f :txn :value [[:r 5 nil] [:append "a b" 2] #_[:r 6 nil]]}
{:index 2, :time 12, :type :info, :process :nemesis, :f :kill, :value {:n1 "killed"}}
{:index 3, :time 20, :type :ok, :process 0, :f :txn, :value [[:append 5 1] [:r 5 [1]] [:r :k nil]]}
{:index 4, :time 21, :type :info, :process 1, :f :txn, :value [[:r 5 nil] [:append "a b" 2]], :error :timeout}
{:index 5, :time 30, :type :invoke, :process 0, :f :txn, :value [[:w :k -3] [:r "a b" nil]]}
{:index 6, :time 31, :type :invoke, :process 2, :f :txn, :value [[:append 5 9]]}
{:index 7, :time 32, :type :fail, :process 2, :f :txn, :value [[:append 5 9]]}
{:index 8, :time 40, :type :ok, :process 0, :f :txn, :value [[:w :k -3] [:r "a b" [2]]]}
{:index 9, :time 50, :type :invoke, :process 3, :f :txn, :value [[:r :k nil] [:w :k 8]]}
"""
READ = (
    "begin 3 by 0 at 10|begin 4 by 1 at 11|op 3 append 5 1 done|op 3 read 5 is [1]|op 3 read k is nil|commit 3 at 20"
    r'|op 4 append "a\u0020b" 2 done|begin 8 by 0 at 30|begin 7 by 2 at 31|op 7 append 5 9 done|abort 7'
    r'|op 8 write k -3 done|op 8 read "a\u0020b" is [2]|commit 8 at 40|begin 9 by 3 at 50|op 9 write k 8 done|'
).replace("|", "\n")
JSON_LINES = """{"type": "invoke", "process": 0, "f": "txn", "value": [["w", "x", 1], ["r", "y", null]]}
{"type": "ok", "process": 0, "f": "txn", "value": [["w", "x", 1], ["r", "y", null]]}
{"type": "invoke", "process": 0, "f": "txn", "value": [["r", "x", null]]}
{"type": "ok", "process": 0, "f": "txn", "value": [["r", "x", null]]}
"""
FAULTY = {
    "{:type :ok, :f :read, :value 5}": "operation 1: only :txn is known, and not read",
    "{:type :odd, :f :txn, :value []}": "operation 1: its type is odd, and not invoke, ok, fail or info",
    "{:type :ok, :f :txn, :value [[:append 1]]}": "operation 1: ['append', 1] has too few parts",
    "{:type :ok, :f :txn, :value [[:cas 1 2]]}": "operation 1: `cas 1 is 2` has no such reply",
    "{:type :ok, :f :txn, :value 5}": "operation 1: a transaction has a list of operations",
    "{:type :ok\n:f :txn": "line 1: no EDN: `{` is not closed",
    "{:a 1}]": "line 1: no EDN: `]` closes nothing",
    "[1 2]": "an operation of a history is a map",
    "{:type :ok, :f :txn, :value [[:w 1 2]]}\n{:type :ok, :f :txn, :value [[:append 1 2]]}": "1 is both a ",
    '{"type": "ok", "value"}': "line 1: no JSON: ",
    '{"ending": "maybe", "operations": []}': "transaction 1: its ending is maybe, and not commit, abort or unknown",
}


def test_a_history_of_elle() -> None:
    found = formats.read(EDN)
    assert text.written(found) == READ, text.written(found)
    assert [one.ending for one in found] == ["commit", "", "commit", "abort", ""]


def test_events_without_times_have_the_order_of_their_lines() -> None:
    """The second transaction begins behind the end of the first, and misses its write."""
    told = judge(formats.read(JSON_LINES), 9).told()
    assert told.splitlines()[-4:] == [
        "strict serializable: broken by stale read", "  a cycle of 2 transactions", "  2 before 4: 2 ended before 4 began",
        "  4 before 2: `read x is nil` of 4 does not see `write x 1 done` of 2"], told


def test_a_vector_of_completions_alone() -> None:
    """Without invocations no times are known, so that an old value is no fault."""
    told = judge(formats.read("[{:type :ok :value [[:w 1 1]]} {:type :ok :value [[:r 1 nil]]}]"), 9).told()
    assert "serializable: holds\nstrict serializable: not decided" in told, told


def test_faults_are_told() -> None:
    for given, wanted in FAULTY.items():
        try:
            formats.read(given)
        except Faulty as fault:
            assert str(fault).startswith(wanted) or wanted in str(fault), (given, str(fault))
        else:
            raise AssertionError(f"no fault is found in {given}")


@cases(150)
def test_each_format_has_the_same_operations(seed: int) -> None:
    """Of a random history each format has the same transactions with the same operations, but for reads that did not end."""
    history = small.made_up(random.Random(f"{seed} of formats"), seed % 2 == 0)
    for one in history:
        one.ending = one.ending or "abort"
        one.end = min(one.end, 99)
    told = []
    for kind, write in small.FORMATS.items():
        by_client = kind in ("EDN", "JSON lines")
        found = sorted(formats.read(write(history)), key=lambda it: int(it.client) if by_client else it.number)
        told.append([(one.ending, [str(it) for it in one.done]) for one in found if one.ending == "commit"])
    assert told == told[:1] * 4, small.as_text(history)


@cases(150)
def test_own_json_is_read_back(seed: int) -> None:
    history = text.read(small.as_text(small.made_up(random.Random(f"{seed} of JSON"), True)))
    again = formats.read(formats.as_json(history))
    told = [[(one.number, one.start, one.end, one.ending, one.done) for one in some] for some in (history, again)]
    assert told[0] == told[1]
