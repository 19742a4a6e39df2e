"""Which programs ask the graph about their own edge's source alone: as text, and at random against the machine that runs them."""
import importlib.util
import pathlib
import random
import struct
import sys
import tempfile
import unittest

from tools_here import MISSING, TOOLS

sys.path[:0] = [str(TOOLS.parent / "tests/second_implementation"), str(TOOLS.parent / "bindings/python")]

if importlib.util.find_spec("numpy") is None:
    raise unittest.SkipTest("not there: python3-numpy")

from assembler import assemble  # noqa: E402
from bpf import Graph, Trap, run  # noqa: E402
from verifier import judged  # noqa: E402

from edgebpf.own_source import asks_of  # noqa: E402
from edgebpf_tools.compile_c import arguments, linked  # noqa: E402

ASK = "ldxw r1, [r1+0]\ncall 1\nexit"
OWN = {
    "nothing": "mov r0, 7\nexit",
    "count": "call 4\nexit",
    "source": ASK,
    "kept": "mov r6, r1\nmov r7, 3\nldxw r1, [r6+0]\nmov32 r2, r1\nmov r8, r2\nmov r1, r8\nmov r2, 0\ncall 3\nexit",
    "moved": "add r1, 4\nldxw r2, [r1+0]\nsub r1, 4\nldxw r1, [r1]\ncall 2\nexit",
    "written": "mov r6, r1\nstw [r1+4], 9\nstdw [r10-8], 9\nldxw r1, [r6+0]\ncall 1\nexit",
    "both": "ldxw r2, [r1+4]\nldxw r6, [r1+0]\njeq r2, 1, out\nmov r2, 7\nout:\nmov r1, r6\ncall 1\nexit",
    "gathered": "mov r6, r1\nldxw r1, [r6+0]\nmov r2, 0\nmov r3, r10\nadd r3, -16\nmov r4, 16\ncall 5\nldxw r1, [r6+0]\ncall 1\nexit",
    "passed": "calllocal f\nexit\nf:\n" + ASK,
}
OTHER = {
    "target": ASK.replace("+0", "+4"),
    "constant": "mov r1, 0\ncall 1\nexit",
    "edges of the target": "ldxw r2, [r1+0]\nldxw r1, [r1+4]\ncall 2\nexit",
    "neighbour": "ldxw r1, [r1+4]\nmov r2, 0\ncall 3\nexit",
    "gather": "ldxw r1, [r1+4]\nmov r2, 0\nmov r3, r10\nadd r3, -16\nmov r4, 16\ncall 5\nexit",
    "a part of the source": "ldxb r1, [r1+0]\ncall 1\nexit",
    "more than the source": "ldxdw r1, [r1+0]\ncall 1\nexit",
    "the source plus 1": "ldxw r1, [r1+0]\nadd r1, 1\ncall 1\nexit",
    "either": "ldxw r2, [r1+8]\nldxw r6, [r1+0]\njeq r2, 1, out\nldxw r6, [r1+4]\nout:\nmov r1, r6\ncall 1\nexit",
    "a record that was written": "stw [r1+0], 9\n" + ASK,
    "half a record that was written": "stb [r1+3], 9\n" + ASK,
    "written by a gather": "mov r6, r1\nldxw r1, [r6]\nmov r2, 0\nmov r3, r6\nmov r4, 16\ncall 5\nldxw r1, [r6]\ncall 1\nexit",
    "written at an index": "ldxw r3, [r1+8]\nand r3, 7\nmov r6, r1\nadd r6, r3\nstb [r6+4], 1\n" + ASK,
    "what a helper answered": "ldxw r1, [r1]\nmov r2, 0\ncall 3\nmov r1, r0\ncall 1\nexit",
    "passed by one of two": "mov r6, r1\nldxw r1, [r6]\ncalllocal f\nldxw r1, [r6+4]\ncalllocal f\nexit\nf:\ncall 1\nexit",
    "written by a function": "mov r6, r1\ncalllocal f\nldxw r1, [r6]\ncall 1\nexit\nf:\nstw [r1], 9\nmov r0, 0\nexit",
}
# What may be any vertex, also for who looks at the edges of both ends.
ANY = {
    "constant": OTHER["constant"],
    "a part of the target": "ldxb r1, [r1+4]\ncall 1\nexit",
    "both ends at once": "ldxdw r1, [r1+0]\ncall 1\nexit",
    "the target plus 1": "ldxw r1, [r1+4]\nadd r1, 1\ncall 1\nexit",
    "a target that was written": "stw [r1+4], 9\n" + ASK.replace("+0", "+4"),
    "half a target that was written": "stb [r1+7], 9\n" + ASK.replace("+0", "+4"),
    "the target of the target": "ldxw r1, [r1+4]\nmov r2, 0\ncall 3\nmov r1, r0\ncall 1\nexit",
}
BOTH = ("target", "edges of the target", "neighbour", "gather")
IN_C = """
#include <edgebpf.h>
u64 lead_back(struct edge *edge, u64 length) { return has_edge(edge->target, edge->source); }
u64 next(struct edge *edge, u64 length) { return has_edge(edge->source, edge->target + 1) + degree(edge->source); }
FUNCTION u64 second(u64 x) { return neighbour(x, 1) + degree(x); }
u64 nested(struct edge *edge, u64 length) { return second(edge->source) + second(edge->source); }
u64 both(struct edge *edge, u64 length) { return second(edge->source) + second(edge->target); }
"""


def random_programs():
    """The programs of the comparison, whose module has the name of one here."""
    found = importlib.util.spec_from_file_location("random_programs", TOOLS.parent / "tests/second_implementation" / "programs.py")
    module = importlib.util.module_from_spec(found)
    found.loader.exec_module(module)
    return module.Programs(random.Random(51))


class Watched(Graph):
    """A graph that notes which vertices a program asks about."""

    def __init__(self):
        super().__init__(4, {0: {1, 2}, 1: {2}}, 3)
        self.asked = set()

    def neighbours(self, vertex):
        self.asked.add(vertex)
        return super().neighbours(vertex)


class OwnSource(unittest.TestCase):
    def test_programs(self):
        for programs, is_own in ((OWN, True), (OTHER, False)):
            for name, text in programs.items():
                code = assemble(text)
                self.assertIsInstance(judged(code, 16), tuple, f"{name} is refused")
                self.assertEqual(asks_of(code) == "own", is_own, name)

    def test_what_is_asked_of(self):
        for programs, asks in ((OWN, "own"), ({name: OTHER[name] for name in BOTH}, "target"), (ANY, "all")):
            for name, text in programs.items():
                code = assemble(text)
                self.assertIsInstance(judged(code, 16), tuple, f"{name} is refused")
                self.assertEqual(asks_of(code), asks, name)

    def test_no_programs(self):
        for digits in ("", "95", "85000000060000009500000000000000", "0500ffff00000000", "6311000000000000"):
            self.assertEqual(asks_of(bytes.fromhex(digits)), "all")

    def test_random_programs(self):
        """An accepted program that is said to ask about its source alone, or about both its ends, does so whenever it is run."""
        programs, accepted, asking, of_target = random_programs(), 0, 0, 0
        for _ in range(4000):
            code, graph = programs.code(16), Watched()
            asks = asks_of(code) if isinstance(judged(code, 16), tuple) else "all"
            if asks == "all":
                continue
            accepted += 1
            of_target += asks == "target"
            for source in (0, 1):
                graph.asked.clear()
                with self.subTest(code=code.hex(), source=source):
                    try:
                        run(code, struct.pack("<IIII", source, 2, 0, 1), graph, 2000)
                    except Trap as trap:
                        self.assertIn("fuel", str(trap))
                    self.assertLessEqual(graph.asked, {source} if asks == "own" else {source, 2})
                asking += bool(graph.asked)
        self.assertGreater(accepted, 500)
        self.assertGreater(asking, 50)
        self.assertGreater(of_target, 10)

    @unittest.skipIf(MISSING, f"not there: {MISSING}")
    def test_functions_in_c(self):
        with tempfile.TemporaryDirectory() as folder:
            source = pathlib.Path(folder) / "p.c"
            source.write_text(IN_C)
            for name, is_own in (("lead_back", False), ("next", True), ("nested", True), ("both", False)):
                program = linked(arguments([str(source), name, "16"]), folder)[2]
                self.assertEqual(asks_of(program.code) == "own", is_own, name)
