"""What payments.py writes, and payments.c and payments.rs where they are built, against sets: PAYMENTS_C and PAYMENTS_RUST name the two."""
import os
import pathlib
import subprocess
import sys
import unittest

FOLDER = pathlib.Path(__file__).resolve().parent
COMMON = FOLDER.parent / "cookbook" / "common.script"
ACCOUNTS, BATCHES, REBASE = 1_000, 205, 200


class Model:
    """The same payments, kept in sets."""

    def __init__(self, accounts, batches):
        self.state, self.accounts, self.batches = 1, accounts, batches
        self.lists = {account: set() for account in range(accounts)}
        paid = []
        for _ in range(batches):
            new = [(self.account(), self.account()) for _ in range(1_000)]
            paid.extend(new)
            back = [paid[self.below(len(paid))] for _ in range(100)]
            for source, target in new:
                self.lists[source].add(target)
            for source, target in back:
                self.lists[source].discard(target)

    def below(self, bound):
        self.state = (6364136223846793005 * self.state + 1442695040888963407) & (1 << 64) - 1
        return self.state // 2**33 * bound // 2**31

    def account(self):
        return self.below(self.accounts // 2 ** self.below(12))

    def line(self, head, scores):
        best = sorted(scores, key=lambda account: (-scores[account], account))[:5]
        return f"{head} {sum(scores.values())}; best {' '.join(f'{account}:{scores[account]}' for account in best)}"

    def written(self):
        account, edges = self.accounts // 100, sum(map(len, self.lists.values()))
        own = self.lists[account]
        others = set().union(*(self.lists[other] for other in own)) - own - {account}
        in_common = lambda targets: {target: len(own & self.lists[target]) for target in targets}
        degrees = {source: sum(len(self.lists[target]) for target in targets) for source, targets in self.lists.items()}
        epoch = (self.batches - 1) // REBASE
        return [
            f"{edges} edges after {self.batches} batches, epoch {epoch}, number {self.batches - epoch * REBASE}",
            self.line(f"scores of {edges} edges:", degrees),
            self.line(f"account {account} pays {len(own)}; in common", in_common(own)),
            self.line(f"account {account} may pay {len(others)}; in common", in_common(others)),
        ]


class Payments(unittest.TestCase):
    def compare(self, *words):
        run = subprocess.run([*words, str(ACCOUNTS), str(BATCHES)], capture_output=True, text=True)
        self.assertEqual(run.returncode, 0, run.stderr)
        self.assertEqual(run.stdout.splitlines(), Model(ACCOUNTS, BATCHES).written())
        # Each step says how long it took.
        self.assertEqual([line.split(":")[0] for line in run.stderr.splitlines()], ["payments", "scores of all", "numbers of one account's edges", "numbers of pairs"])

    def test_python(self):
        try:
            import cffi  # noqa: F401
            import numpy  # noqa: F401
        except ImportError as error:
            self.skipTest(f"not there: {error.name}")
        self.compare(sys.executable, "-W", "error", FOLDER / "payments.py")

    def test_c(self):
        if "PAYMENTS_C" not in os.environ:
            self.skipTest("PAYMENTS_C names no program")
        self.compare(os.environ["PAYMENTS_C"], COMMON)

    def test_rust(self):
        if "PAYMENTS_RUST" not in os.environ:
            self.skipTest("PAYMENTS_RUST names no program")
        self.compare(os.environ["PAYMENTS_RUST"])


if __name__ == "__main__":
    unittest.main()
