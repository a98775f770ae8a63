"""`run` by many workers: how many clients run side by side, whether transactions are interleaved, and tries that are spent."""
import random

from harness import Program, each, holds, lines, same, test

# How often a run is tried until something is seen that a schedule need not show.
ATTEMPTS = 20
CLIENTS, SCRIPTS = 12, 12_000


def outcomes(out: bytes) -> list[tuple[str, list[str]]]:
    """For each script its client, and the lines that it was told."""
    told: list[tuple[str, list[str]]] = []
    for line in out.decode().splitlines():
        if line.startswith("client "):
            told.append((line.split()[1], []))
        elif not line.startswith(("account", "element", "counter")):
            told[-1][1].append(line)
    return told


def most_side_by_side(out: bytes) -> int:
    """The greatest number of clients that had a commit and had another one to come, at any commit."""
    commits: dict[str, list[int]] = {}
    for client, told in outcomes(out):
        commits.setdefault(client, []).append(int(told[-1].removeprefix("committed ")))
    begins = [(numbers[0], 1) for numbers in commits.values()]
    ends = [(numbers[-1] + 0.5, -1) for numbers in commits.values()]
    running = most = 0
    for _, change in sorted(begins + ends):
        running += change
        most = max(most, running)
    return most


WORKERS = {f"clients-side-by-side-by-{workers or 'the-usual'}-workers": workers for workers in (1, 2, 3, 8, None)}


@each(WORKERS, seconds=2)
def clients_side_by_side(mltx: Program, workers: int | None) -> None:
    """So many clients run side by side as there are workers, which are 4 where no number is given, and never more."""
    text = "".join(lines(f"begin {client}|up 7 1|commit") * SCRIPTS for client in range(CLIENTS))
    file, seen, most = mltx.file("scripts.txt", text), list[int](), workers or 4
    while len(seen) < ATTEMPTS and max(seen, default=0) < most:
        ran = mltx.run("run", *(["--workers", workers] if workers else []), file)
        same((ran.status, ran.err), (0, b""), f"{workers} workers")
        same(ran.out.splitlines()[-1], b"counter 7 %d" % (CLIENTS * SCRIPTS), "the base")
        seen.append(most_side_by_side(ran.out))
    same(max(seen), most, f"so many clients were side by side in {len(seen)} runs: {seen}")


def interleaved(trace: str) -> float:
    """Which part of the transactions of a trace began while another one was open."""
    is_open, begun, beside = set[str](), 0, 0
    for line in trace.splitlines():
        word, number = line.split()[:2]
        if word == "begin":
            begun += 1
            beside += bool(is_open)
            is_open.add(number)
        elif word in ("commit", "abort"):
            is_open.remove(number)
    return beside / begun


@each({f"transactions-are-interleaved-by-{workers}-workers": workers for workers in (2, 4, 8)}, seconds=1)
def transactions_are_interleaved(mltx: Program, workers: int) -> None:
    """Of 3,000 scripts of eight clients, of three to six operations each, a third at least begin while another transaction is
    open. Where threads begin late one worker may do most of a run, so it is tried again."""
    dice, trace, seen = random.Random(workers), mltx.folder / "trace", list[float]()
    scripts = [lines(f"begin {1 + place % 8}" + "|up 7 1" * dice.randint(3, 6) + "|commit") for place in range(3_000)]
    file = mltx.file("scripts.txt", "".join(scripts))
    while len(seen) < ATTEMPTS and max(seen, default=0) < 1 / 3:
        ran = mltx.run("run", "--workers", workers, "--trace", trace, file)
        same((ran.status, ran.err), (0, b""), f"{workers} workers")
        seen.append(interleaved(trace.read_text()))
    holds(max(seen) >= 1 / 3, f"so many parts began beside another in {len(seen)} runs: {seen}")


def gave_up(mltx: Program, *options: object) -> int:
    """How many scripts of a reader and a writer gave up; the base is what the others leave. A worker that gave up does not pause
    here, so that it often does so again."""
    ups = lines("begin 1|up 7 1" + "|up 8 1" * 20 + "|commit") * 2_000
    reads = lines("begin 2|read 7|commit") * 400
    ran = mltx.run("run", *options, "-", given=ups + reads, env=mltx.shim(NO_NAPS="1"))
    same((ran.status, ran.err), (0, b""), f"run {options}")
    committed, count = {"1": 0, "2": 0}, 0
    for client, told in outcomes(ran.out):
        if told[-1] == "aborted":
            same(told[-2], "refused 14 GaveUp", f"why a script of client {client} was aborted")
            count += 1
        else:
            committed[client] += 1
    base = [f"counter 7 {committed['1']}", f"counter 8 {20 * committed['1']}"] if committed["1"] else []
    same(ran.out.decode().splitlines()[-len(base) :] if base else [], base, "the base")
    return count


@test(seconds=1)
def scripts_give_up_with_their_tries_spent(mltx: Program) -> None:
    """With one try some do, once they are told to wait; with the usual tries, and with the most, none does. No circle
    of waits comes about here, since the reader holds nothing while it waits."""
    counts: list[int] = []
    while len(counts) < ATTEMPTS and not any(counts):
        counts.append(gave_up(mltx, "--tries", 1))
    holds(any(counts), f"no script gave up in {ATTEMPTS} runs with one try")
    for options in ((), ("--tries", 10_000), ("--tries", 1_000_000)):
        same(gave_up(mltx, *options), 0, f"how many scripts gave up with {options}")


@test(seconds=1)
def transfers_over_four_accounts_seldom_give_up(mltx: Program) -> None:
    """Eight clients by eight workers, each with transfers that look at both accounts first: at most one gives up for a hundred
    that commit, since a worker pauses before it tries again, and no money is lost."""
    source, clients, scripts = random.Random(1), range(1, 9), 500
    opened = "|".join(f"open {account}|deposit {account} 1000000" for account in range(1, 5))
    transfers = [
        lines(f"begin {client}|balance {one}|balance {other}|withdraw {one} 1|deposit {other} 1|commit")
        for client in clients
        for one, other in (source.sample(range(1, 5), 2) for _ in range(scripts))
    ]
    given = lines(f"begin 0|{opened}|commit") + "".join(transfers)
    ran = mltx.run("run", "--workers", 8, "-", given=given)
    same((ran.status, ran.err), (0, b""), "run")
    ends = [told[-1].split()[0] for client, told in outcomes(ran.out) if client != "0"]
    same(len(ends), len(clients) * scripts, "how many scripts ended")
    gave_up, committed = ends.count("aborted"), ends.count("committed")
    holds(100 * gave_up <= committed, f"{gave_up} gave up, {committed} committed")
    money = [int(line.split()[2]) for line in ran.out.decode().splitlines() if line.startswith("account ")]
    # The script that opens the accounts is one of those that may give up, and then there is none.
    opening = next(told[-1].split()[0] for client, told in outcomes(ran.out) if client == "0")
    same(sum(money), 4_000_000 if opening == "committed" else 0, "what the accounts have")
