"""The clients of this folder, over a service, against the same in Python."""
import os
import pathlib
import random
import signal
import subprocess
import sys
import tempfile
import unittest

HERE = pathlib.Path(__file__).resolve().parent
TOP = HERE.parent.parent
sys.path[:0] = [str(TOP / "tests" / "serve"), str(TOP / "tools")]

from edgebpf_client import Client  # noqa: E402
from harness import missing  # noqa: E402

ACCOUNTS, MOST, ABOVE = 50, 100, 500
MISSING = missing()


@unittest.skipIf(MISSING, f"not there: {MISSING}")
class Examples(unittest.TestCase):
    def setUp(self):
        room = tempfile.TemporaryDirectory()
        self.addCleanup(room.cleanup)
        self.room = pathlib.Path(room.name)
        self.url = f"unix:{self.room}/socket"
        words = [TOP / "tools/edgebpf-serve", "--data", self.room / "graph", "--vertices", str(ACCOUNTS), "--listen", self.url, "--reserve-bytes", "0"]
        self.server = subprocess.Popen(words, stderr=subprocess.DEVNULL, preexec_fn=lambda: signal.signal(signal.SIGTERM, signal.SIG_DFL))
        self.addCleanup(self.end)
        self.client = Client(self.url, tries=30)
        self.client.status()

    def end(self):
        self.client.close()
        self.server.terminate()
        self.assertEqual(self.server.wait(30), 0)

    def test_a_stream_is_scored(self):
        chance = random.Random(4)
        risk = [chance.randrange(120) for _ in range(ACCOUNTS)]
        (self.room / "risk").write_text("".join(f"{number}\n" for number in risk))
        payments = [(chance.randrange(ACCOUNTS), chance.randrange(ACCOUNTS)) for _ in range(600)]
        words = [HERE / "score_stream.py", "--url", self.url, "--risk", self.room / "risk", "--most", str(MOST), "--together", "50"]
        text = "".join(f"{payer} {payee}\n" for payer, payee in payments)
        self.client.column("risk", risk)
        watching = subprocess.Popen([HERE / "watch_accounts.py", "--url", self.url, "--above", str(ABOVE)], stdout=subprocess.PIPE, text=True)
        self.addCleanup(watching.stdout.close)
        run = subprocess.run(words, input=text, capture_output=True, text=True)
        self.assertEqual((run.stderr, run.returncode), ("", 0))
        lines, edges = self.scored(payments, risk)
        self.assertEqual(run.stdout.splitlines(), lines)
        totals = [sum(risk[payee] for payer, payee in edges if payer == account) for account in range(ACCOUNTS)]
        above = {account for account, total in enumerate(totals) if total > ABOVE}
        self.assertTrue(0 < len(above) < ACCOUNTS)
        seen = set()
        while seen != above:
            _, account, total, which = watching.stdout.readline().split()
            (seen.add if which == "above" else seen.discard)(int(account))
            self.assertEqual(int(total) > ABOVE, which == "above")
        watching.send_signal(signal.SIGKILL)
        watching.wait()

    def scored(self, payments, risk):
        """What score_stream prints, and the edges that it makes, by a set."""
        edges, lines = set(), []
        for number, place in enumerate(range(0, len(payments), 50), 1):
            part = payments[place:place + 50]
            scores = [risk[payee] << ((payee, payer) in edges) for payer, payee in part]
            lines += [f"{payer} {payee} {score} {'taken' if score <= MOST else 'refused'}" for (payer, payee), score in zip(part, scores)]
            taken = [payment for payment, score in zip(part, scores) if score <= MOST]
            edges |= set(taken)
            lines.append(f"version {number}: {len(taken)} of {len(part)} taken")
        return lines, edges

    def run_client(self, *words, text=""):
        """What the client of the shell prints."""
        room = {**os.environ, "EDGEBPF_URL": self.url}
        done = subprocess.run([TOP / "tools/edgebpf-client", *words], input=text, capture_output=True, text=True, env=room, errors="surrogateescape")
        return done.stdout or done.stderr

    def test_the_client_of_the_shell(self):
        run = self.run_client
        (self.room / "target").write_text("ldxw r0, [r1+4]\nexit\n")
        self.assertEqual(run("batch", text="0 1\n0 2\n1 2\n- 0 1\n# no edge\n"), "version 1 added 2 removed 0\n")
        self.assertEqual(run("program", "target", str(self.room / "target")), "program target bound 2 frames 1 asks own\n")
        self.assertEqual(run("run", "target", "0", "1"), "0 2\n1 2\nversion 1 edges 2 total 4\n")
        self.assertEqual(run("numbers", "target", "0"), "0 2 2\n")
        self.assertEqual(run("pairs", "target", text="7 8\n"), "7 8 8\n")
        self.assertEqual(run("neighbours", "1"), "2\n")
        self.assertEqual(run("expand", "1", "1"), "1 2\n")
        self.assertEqual(run("batch", text="0\n"), "edgebpf-client: line 1: 2 whole numbers are wanted\n")
        self.assertEqual(run("run", "none"), "edgebpf-client: 404 Missing: no program has the name none\n")
        (self.room / "bad").write_text("ldxw r0, [r1+13]\nexit\n")
        self.assertIn("422 Refused", run("program", "bad", str(self.room / "bad")))

    def test_wrong_words_of_the_shell(self):
        (self.room / "noise").write_bytes(b"\xff\n")
        self.assertEqual(self.run_client("batch", text="5 1\n"), "version 1 added 1 removed 0\n")
        for words, text, said in (
            (["batch"], f"{2**31 + 5} 1\n", f"edits: the vertex {2**31 + 5} is not below 2^31"), (["batch"], f"{2**40} 1\n", "2^32"),
            (["batch"], f"{'1' * 5000} 1\n", "line 1: 2 whole numbers are wanted"), (["column", "c"], f"{2**64}\n", "2^64"),
            (["run", "target", "x"], "", "VERTEX is a whole number, not 'x'"), (["expand", "x", "1"], "", "STEPS is a whole number"),
            (["run", "target", "--argument", "zz"], "", "--argument is hexadecimal digits"), (["program", "p", str(self.room / "noise")], "", "is no text"),
            (["status", "more"], "", "status takes 0 more words"), (["neighbours"], "", "neighbours takes 1 more words"),
            (["--url", "http://", "status"], "", "url is http://HOST:PORT"), (["--url", "http://[", "status"], "", "IPv6"),
        ):
            with self.subTest(words=words):
                answer = self.run_client(*words, text=text)
                self.assertIn(said, answer)
                self.assertNotIn("Traceback", answer)
        # The edge whose source has the highest bit less is still there.
        self.assertEqual(self.run_client("neighbours", "5"), "1\n")

    def test_wrong_arguments_of_the_client(self):
        import numpy as np
        client, numbers = self.client, np.array([[0, 5], [7, 8]])
        self.assertEqual([tuple(outcome) for outcome in client.batch(numbers)], [(1, 2, 0, True)])
        client.program("target", "ldxw r0, [r1+4]\nexit")
        self.assertEqual(client.pairs("target", numbers)["numbers"], [5, 8])
        client.column("whole", np.arange(ACCOUNTS, dtype=np.int16))
        for error, word, call in (
            (ValueError, "2^31", lambda: client.batch([(2**31, 5)])), (ValueError, "edits", lambda: client.batch([(0, 5, 2)])),
            (ValueError, "edits", lambda: client.batch([(0, 5, 0, 0)])), (ValueError, "edits", lambda: client.batch([(-1, 5)])),
            (TypeError, "edits", lambda: client.batch([(0.0, 5)])), (TypeError, "numbers", lambda: client.column("c", [0.5] * ACCOUNTS)),
            (TypeError, "numbers", lambda: client.column("c", np.full(ACCOUNTS, 0.5))),
            (ValueError, "numbers", lambda: client.column("c", np.full(ACCOUNTS, -1))),
            (ValueError, "numbers", lambda: client.column("c", [-1] * ACCOUNTS)), (TypeError, "frontier", lambda: client.run("target", frontier=[0.9])),
            (TypeError, "argument", lambda: client.run("target", argument="00")), (TypeError, "argument", lambda: client.run("target", argument=8)),
            (TypeError, "vertex", lambda: client.neighbours(0.5)), (ValueError, "url", lambda: Client("http://")),
            (TypeError, "pairs", lambda: client.pairs("target", [(0.5, 1)])),
        ):
            with self.assertRaisesRegex(error, word.replace("^", r"\^")):
                call()
        self.assertEqual((client.status()["version"], client.neighbours(0)), (1, [5]))
        self.assertEqual([told["name"] for told in client.json("GET", "/columns")["columns"]], ["whole"])


if __name__ == "__main__":
    unittest.main()
