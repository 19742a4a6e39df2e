#!/usr/bin/python3
"""A graph of payments between accounts that changes while rules score it. payments.c and payments.rs do the same, and write the same.

    payments.py [ACCOUNTS [BATCHES]]

Each batch has 1,000 payments, and takes 100 earlier ones back. Then three rules are run: how well known the accounts are that an account pays,
for all accounts; how many accounts both ends of each payment of one account pay, too; and the same for accounts that it does not pay, but
those that it pays do. Times go to standard error.
"""
import argparse
import pathlib
import sys
import time

import numpy as np

TOP = pathlib.Path(__file__).resolve().parents[2]
sys.path.append(str(TOP / "bindings" / "python"))

import edgebpf  # noqa: E402

PAYMENTS, REFUNDS, BEST = 1_000, 100, 5
# So often the accounts that are chosen among may be halved.
HALVES = 12
# Batches between two rebases.
REBASE = 200
# The target's degree.
KNOWN = ["ldxw r1, [r1+4]", "call 1", "exit"]


class Numbers:
    """Numbers that are the same in each language."""

    def __init__(self):
        self.state = 1

    def below(self, bound):
        self.state = (self.state * 6364136223846793005 + 1442695040888963407) % 2**64
        return ((self.state >> 33) * bound) >> 31

    def account(self, accounts):
        """An account, of which the first pay and are paid most often."""
        return self.below(accounts >> self.below(HALVES))


def common_neighbours():
    """The rule that COOKBOOK.md compiles of C: how many neighbours both ends of an edge have."""
    script = (TOP / "examples" / "cookbook" / "common.script").read_text()
    (line,) = [line for line in script.splitlines() if line.startswith("code common 16 ")]
    return edgebpf.Program(bytes.fromhex(line.split()[3]), 16)


def best(scored, scores):
    """The accounts with the greatest scores, of which the first comes first among equals."""
    order = np.lexsort((scored, -scores.astype(np.int64)))[:BEST]
    return " ".join(f"{scored[place]}:{scores[place]}" for place in order)


def take_payments(graph, accounts, batches):
    numbers, paid = Numbers(), []
    for _ in range(batches):
        new = [(numbers.account(accounts), numbers.account(accounts)) for _ in range(PAYMENTS)]
        paid += new
        back = [paid[numbers.below(len(paid))] for _ in range(REFUNDS)]
        graph.apply(edges=new + back, removes=[False] * PAYMENTS + [True] * REFUNDS)


def all_scores(version):
    result = version.run(edgebpf.assemble(KNOWN), "sum")
    print(f"scores of {result.edges} edges: {result.total}; best {best(np.arange(version.vertices), result.values)}")


def of_one_account(version, common, account):
    """How many accounts it and each of those that it pays have in common."""
    numbers = version.numbers(common, frontier=[account])
    print(f"account {account} pays {len(numbers)}; in common {numbers.sum()}; best {best(version.neighbours(account), numbers)}")


def whom_to_pay(version, common, account):
    """Accounts that the account does not pay, and those do that it pays."""
    own = version.neighbours(account)
    _, theirs = version.lists(own)
    others = np.setdiff1d(theirs, np.append(own, np.uint32(account)))
    numbers = version.pairs(common, np.full(len(others), account), others)
    print(f"account {account} may pay {len(others)}; in common {numbers.sum()}; best {best(others, numbers)}")


def main():
    parser = argparse.ArgumentParser(description=__doc__, formatter_class=argparse.RawDescriptionHelpFormatter)
    parser.add_argument("accounts", nargs="?", type=int, default=100_000)
    parser.add_argument("batches", nargs="?", type=int, default=500)
    options = parser.parse_args()
    account, common, begun = options.accounts // 100, common_neighbours(), time.monotonic()

    def timed(what):
        nonlocal begun
        print(f"{what}: {1000 * (time.monotonic() - begun):.1f} ms", file=sys.stderr)
        begun = time.monotonic()

    with edgebpf.Live(options.accounts, batches=REBASE) as graph:
        take_payments(graph, options.accounts, options.batches)
        count, version = graph.numbered()
        print(f"{version.edges} edges after {count} batches, epoch {version.epoch}, number {version.number}")
        timed("payments")
        all_scores(version)
        timed("scores of all")
        of_one_account(version, common, account)
        timed("numbers of one account's edges")
        whom_to_pay(version, common, account)
        timed("numbers of pairs")


if __name__ == "__main__":
    main()
