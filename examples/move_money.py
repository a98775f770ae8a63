"""Moves money between two accounts of a server that `mltx serve` runs.

    mltx serve 127.0.0.1:7000 --limit 1
    python3 move_money.py 127.0.0.1 7000

It uses the client of clients/python, which runs a transaction again if the server answers GaveUp.
"""

from __future__ import annotations

import sys
from pathlib import Path

sys.path.insert(0, str(Path(__file__).resolve().parent.parent / "clients/python"))
from mltx import Client, MltxError, Operation, Reply, Transaction  # noqa: E402


def open_with(tx: Transaction, account: int, amount: int) -> None:
    """Opens an account with an amount in it, if there is none."""
    if tx.open(account) is Reply.OPENED:
        tx.deposit(account, amount)


def move(tx: Transaction, source: int, target: int, amount: int) -> bool:
    """Moves an amount, or nothing if the source is short of it. Returns whether it was moved."""
    replies = tx.ask_all([Operation.withdraw(source, amount), Operation.deposit(target, amount)])
    if replies == [Reply.DONE, Reply.DONE]:
        return True
    tx.abort()
    return False


def balances(tx: Transaction, *accounts: int) -> list[int | None]:
    """The balances of accounts, at one moment."""
    return tx.ask_all([Operation.balance(account) for account in accounts])


def main() -> None:
    if len(sys.argv) != 3 or not sys.argv[2].isdecimal():
        sys.exit("move_money.py: it needs a host and a port, as 127.0.0.1 7000")
    with Client(sys.argv[1], int(sys.argv[2])) as client:
        client.run(lambda tx: open_with(tx, 101, 100))
        client.run(lambda tx: open_with(tx, 102, 0))
        print("moved 30:", client.run(lambda tx: move(tx, 101, 102, 30)))
        print("moved 500:", client.run(lambda tx: move(tx, 101, 102, 500)))
        print("balances:", *client.run(lambda tx: balances(tx, 101, 102)))


if __name__ == "__main__":
    try:
        main()
    except (MltxError, ValueError) as error:
        sys.exit(f"move_money.py: {error}")
