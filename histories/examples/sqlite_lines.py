"""Answers a client of `mltx-histories record --run` from registers in a file of SQLite, whose path is its argument."""
import sqlite3
import sys

TABLE = "DROP TABLE IF EXISTS register; CREATE TABLE register (id INTEGER PRIMARY KEY, value INTEGER)"
database = sqlite3.connect(sys.argv[1], isolation_level=None)
database.execute("PRAGMA synchronous = OFF")


def answer(verb: str, *numbers: str) -> str:
    if verb == "clear":
        database.executescript(TABLE)
        return "ok"
    if verb == "begin":
        database.execute("BEGIN IMMEDIATE")
        return "ok"
    if verb == "read":
        row = database.execute("SELECT value FROM register WHERE id = ?", numbers).fetchone()
        return f"is {row[0] if row else 'nil'}"
    if verb == "write":
        database.execute("REPLACE INTO register VALUES (?, ?)", numbers)
        return "done"
    database.execute("COMMIT" if verb == "commit" else "ROLLBACK")
    return "committed" if verb == "commit" else "aborted"


for line in sys.stdin:
    try:
        print(answer(*line.split()), flush=True)
    except sqlite3.OperationalError:
        database.rollback()
        print("aborted", flush=True)
