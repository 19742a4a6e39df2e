"""The reader of a script that makes a graph: at random beside the second implementation, which serves the same script."""
import importlib.util
import io
import random
import sys
import tempfile
import unittest
import unittest.mock

from tools_here import TOOLS

sys.path.insert(0, str(TOOLS.parent / "tests/second_implementation"))

if importlib.util.find_spec("numpy") is None:
    raise unittest.SkipTest("not there: python3-numpy")

from script import serve  # noqa: E402

from edgebpf_tools import graph_script  # noqa: E402
from edgebpf_tools.limits import MOST_LINE_BYTES, SERVED_EPOCHS  # noqa: E402
from edgebpf_tools.refusal import Refusal  # noqa: E402

ONES = "code one 16 b7000000010000009500000000000000\npin last\nlist one last -\n"
WRONG = ["+ 0 9", "- 9 0", "+ 1", "+ 1 2 3", "+ x 1", "+ 1 1\r", "end end", "batch E", "batch", "graph 3", "rebase 1", "# \x01", "", "#", "+ 1 -1", "+1 2", "+ 1 2\x0b",
         "+ 1 " + 40 * "9"]
RIGHT = ["+ {} {}", "- {} {}", "+  {} {}", "\t+ {}\t{} ", "+ 000000000{} {}", "- {} {} "]


def read(script):
    """The reader of a script, and its batches."""
    with tempfile.NamedTemporaryFile() as out:
        reader = graph_script.Reader(out)
        reader.read(io.BytesIO(script.encode()))
        out.flush()
        return reader, [[part.tolist() for part in batch] for batch in graph_script.batches(out.name, reader.lengths)] if reader.wrong is None else None


def edges_of(batches):
    found = set()
    for edits in batches:
        for source, target, is_removed in zip(*edits):
            (found.discard if is_removed else found.add)((source, target))
    return sorted(found)


class GraphScript(unittest.TestCase):
    def random_script(self, chance):
        lines = [chance.choice(["graph 9", "graph 0009", " graph\t9 "])]
        for _ in range(chance.randrange(6)):
            lines += chance.choice([[], ["rebase"], ["# some"], [""], ["  "]])
            edits = [chance.choice(RIGHT).format(chance.randrange(9), chance.randrange(9)) for _ in range(chance.randrange(6))]
            lines += [f"batch {chance.choice('ABCD')}", *edits, "end"]
        if chance.random() < 0.5:
            lines.insert(chance.randrange(len(lines) + 1), chance.choice(WRONG))
        if chance.random() < 0.1:
            lines.pop()
        return "\n".join(lines) + chance.choice(["\n", ""])

    def test_random_scripts(self):
        """It takes what the second implementation takes, with the same edges, and finds no right script wrong."""
        chance, right = random.Random(8), 0
        for _ in range(1000):
            script = self.random_script(chance)
            said, status = serve(script.encode())[:2]
            with self.subTest(script=script):
                try:
                    reader, batches = read(script)
                except Refusal as refusal:
                    self.assertRegex(str(refusal), "makes no graph|no line makes a graph")
                    self.assertNotEqual(status, 0) if "graph 9" in script else None
                    continue
                self.assertEqual(reader.wrong is None, status == 0, said)
                if status == 0:
                    right += 1
                    listed = serve(f"{script}\n{ONES}".encode())[0].splitlines()
                    self.assertEqual([f"edge {source} {target} 1" for source, target in edges_of(batches)], [line for line in listed if line.startswith("edge")])
                else:
                    self.assertLessEqual(reader.wrong, script.count("\n") + 1)
        self.assertGreater(right, 200)

    def test_limits(self):
        """Counts and lengths at their limits, and one past them."""
        comment = "#" * MOST_LINE_BYTES
        for script, is_right in (("rebase\n" * SERVED_EPOCHS, True), ("rebase\n" * (SERVED_EPOCHS + 1), False), ("batch A\nend\n" * 4096, True), ("batch A\nend\n" * 4097, False),
                                 (f"{comment}\n", True), (f"{comment}#\n", False), (f"{comment}#", False), ("batch A\n" + "+ 0 1\n" * 65536 + "end\n", True), ("batch A\n+ 0 1\n", False)):
            self.assertEqual(read(f"graph 2\n{script}")[0].wrong is None, is_right, script[:20])
        for count, is_right in ((1_048_576, True), (1_048_577, False), (0, False)):
            self.assertEqual(read(f"graph {count}\n")[0].wrong is None, is_right)
        for script, words in (("graph 2\nbatch A\n" + "+ 0 1\n" * 65537 + "end\n", "^line 65540: a batch has at most 65536 edits$"), ("graph 2\npin a\n", "^line 2: `pin` makes no graph"),
                              ("", "^no line makes a graph$"), ("x" * 100_000, "makes no graph")):
            with self.assertRaisesRegex(Refusal, words):
                read(script)

    def test_blocks(self):
        """A script of several blocks, which end within lines."""
        edits = "".join(f"{'+-'[at % 3 == 2]} {at % 1000} {at % 999}\n" for at in range(3_000))
        script = f"graph 1000\nbatch A\n{edits}end\n# more\nbatch B\n{edits[: len(edits) // 2].rpartition(chr(10))[0]}\nend"
        whole = read(script)[1]
        for size in (1, 7, 1000, 1 << 16):
            with unittest.mock.patch.object(graph_script, "BLOCK", size * (1 if size > 1 else 1000) + 3):
                self.assertEqual(read(script)[1], whole)
        self.assertEqual(list(map(len, whole[0])), [3_000] * 3)


if __name__ == "__main__":
    unittest.main()
