"""What is measured of SmallBank, with its six transactions over the savings and checking accounts of customers."""
from collections.abc import Iterator
from dataclasses import dataclass
from functools import partial
from pathlib import Path

from hotspots import THINK, commits
from machine import Server, run
from sessions import mltx_server, open_accounts
from works import Bench, Group, Sample, Side, Work

# How many customers there are, each with two accounts, and how many accounts one transaction opens: it has 1,024 operations.
CUSTOMERS, TOGETHER = 1_000, 500
# How many transactions there are where it is to be quick.
FEW = 40


@dataclass(frozen=True)
class Bank:
    """So many clients that think for so many microseconds after each operation. Nine of ten customers are drawn from so many hot
    ones."""

    clients: int
    hot: int
    think: int

    def what(self) -> str:
        clients = f"{self.clients} client{'s' * (self.clients > 1)}"
        think = f"{self.think // 1_000} ms to think" if self.think else "no time to think"
        return f"{clients}, SmallBank, {self.hot} hot customers, {think}"


def open_customers(server: Server, customers: int) -> None:
    for first in range(0, 2 * customers, TOGETHER):
        open_accounts(server, range(first, min(first + TOGETHER, 2 * customers)))


def on_mltx(bank: Bank, bench: Bench, program: Path) -> Sample:
    """How many commit in a second: not those that are aborted for what an account holds."""
    limit, customers = bench.limit(FEW), bench.pick(CUSTOMERS, bank.hot)
    words: list[object] = ["--clients", bank.clients, "--customers", customers, "--hot", bank.hot, "--think", bank.think]
    words += ["--seed", bench.seed, "--seconds", limit.seconds]
    words += ["--transactions", limit.transactions] if limit.transactions else []
    with mltx_server(program) as server:
        open_customers(server, customers)
        told = run([bench.tools.paths["smallbank"], "--port", server.port, *words])[0].decode().split()
    figures = dict(zip(told[::2], map(float, told[1::2])))
    return commits(figures, **{"aborted/ended": figures["aborted"] / max(figures["transactions"], 1)})


def works() -> Iterator[Work]:
    for hot in (10, 100):
        for think in (THINK, 0):
            for clients in (1, 8, 32, 64):
                bank = Bank(clients, hot, think)
                yield Work("smallbank", bank.what(), "commits/s", (Side("mltx", partial(on_mltx, bank), ("smallbank",)),))


GROUPS = {"smallbank": Group("1 to 64 sessions that run the six transactions of SmallBank", works)}
