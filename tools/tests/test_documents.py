"""The scripts and programs of README.md, docs/TOUR.md, docs/SCRIPT.md and docs/BPF.md, as they stand there: what the document says of each comes of
it. The second implementation serves them here, and the program itself where EDGEBPF names it; `.ci/examples` serves them from source."""
import os
import pathlib
import re
import subprocess
import sys
import tempfile
import unittest

import documents
from sample_programs import GRAPH
from tools_here import MISSING, TOOLS, run_tool

sys.path.insert(0, str(TOOLS.parent / "tests/second_implementation"))

from assembler import KINDS, assemble  # noqa: E402
from bpf import Graph, Machine, NoInstruction, Trap, decode  # noqa: E402
from script import serve  # noqa: E402
from worked_rows import ROWS, found  # noqa: E402

SECOND_STORE = str(TOOLS / "tests" / "second_store.py")
BUILT = os.environ.get("EDGEBPF")
BLOCKS = re.findall(r"^```c\n(.*?)^```", documents.BPF, re.M | re.S)
FUNCTIONS = re.findall(r"^// (refused: cause [0-9]+|no code: .*|accepted)\nu64 (\w+)\(", "\n".join(BLOCKS), re.M)
# What edgebpf-c writes of a function of which it makes no code.
NO_CODE = {
    "no code: data": r"programs\.c:[0-9]+: .* A program has no data of its own",
    "no code: a loop": r"programs\.c:[0-9]+: this loop in \w+ is left as a loop",
}
# How many cases each part of the documents has: a row or a block that is not found is missed here.
COUNTS = {"faults": 11, "assembler_faults": 6, "answers_of_code": 2, "zeros": 1, "home_moves": 12, "readme_lines": 5}
COUNTS |= {"helper_programs": 3, "gathering": 3, "causes": 18, "bounds": 1, "narrowing": 4, "assembler_lines": 5}


def stop_of(code, table):
    """Why the machine stops that runs a code with a table on a record of 16 bytes, and where."""
    machine = Machine(bytes(16), Graph(4, {}, 0), table)
    while True:
        pc = machine.pc
        try:
            instruction, units = decode(code, pc)
            result = machine.leave() if instruction == ("exit",) else machine.step(instruction, units)
        except NoInstruction:
            return "bad instruction" if 0 <= 8 * pc < len(code) else "outside code", pc
        except Trap as trap:
            return str(trap), pc
        if result is not None:
            return "exit", pc


class TheDocuments(unittest.TestCase):
    def test_each_script_and_program(self):
        parts = documents.all_cases()
        self.assertEqual({part: len(cases) for part, cases in parts.items()}, COUNTS)
        for cases in parts.values():
            for name, case in cases.items():
                with self.subTest(name):
                    text, status, _ = serve(case.script.encode())
                    self.assertTrue(documents.is_said(case, text), f"{name}: wanted {case.said} and last {case.last}, found {text[-500:]}")
                    if BUILT:
                        run = subprocess.run([BUILT], input=case.script, capture_output=True, text=True)
                        self.assertEqual((run.stdout, run.returncode), (text, status))

    def test_each_cause_fault_and_error_is_shown(self):
        parts = documents.all_cases()
        self.assertEqual({int(name.split("_")[1]) for name in parts["causes"]}, {*range(1, 16), 18})
        self.assertEqual(list(parts["faults"]), [f"fault_{fault}" for fault in range(1, 12)])
        self.assertEqual(list(parts["assembler_faults"]), [f"assembler_{error}" for error in range(1, 7)])

    def test_what_is_shown_of_examples_stands_there(self):
        shown = list(documents.shown_of_examples())
        self.assertEqual(len(shown), 3)
        for name, text in shown:
            self.assertIn(text, (documents.ROOT / "examples" / f"{name}.output").read_text())

    @unittest.skipUnless(os.environ.get("EDGEBPF_EXPLAIN"), "EDGEBPF_EXPLAIN names no program")
    def test_explanation_of_the_readme(self):
        words, said = documents.explained()
        run = run_tool("edgebpf-explain", *words)
        self.assertEqual((run.stdout, run.stderr), (said, ""))

    def test_examples_of_crates(self):
        """The lines of an example in a crate's README stand in the test or the program that it names, in this order."""
        shown = 0
        for path in sorted((documents.ROOT / "crates").glob("*/README.md")):
            for source, crate, block in re.findall(r"in\s+`(src/[^`]*)`\s+of\s+`(\w+)`:\n\n(?:<!-- made: .* -->\n)?```rust\n(.*?)```", path.read_text(), re.S):
                left = iter(line.strip() for line in (documents.ROOT / "crates" / crate / source).read_text().splitlines())
                for line in filter(lambda line: line and not line.startswith("//"), map(str.strip, block.splitlines())):
                    self.assertIn(line, left, f"{path.parent.name}: {line}")
                shown += 1
        self.assertGreaterEqual(shown, 10)

    def test_links(self):
        """Each link of a document leads to a file that is there, and to a heading of it."""
        def anchors(path):
            titles = re.findall(r"^#+ (.*)$", path.read_text(), re.M)
            return {re.sub(r"[^\w\- ]", "", title.lower()).replace(" ", "-") for title in titles}

        run = subprocess.run(["git", "ls-files", "*.md"], cwd=documents.ROOT, capture_output=True, text=True)
        pages = [documents.ROOT / name for name in run.stdout.split()] or list(documents.ROOT.rglob("*.md"))
        self.assertGreater(len(pages), 60)
        for page in pages:
            for target in re.findall(r"\]\(([^)\s]+)\)", re.sub(r"^```.*?^```", "", page.read_text(), flags=re.M | re.S)):
                if not target.startswith("http"):
                    path, _, anchor = target.partition("#")
                    other = (page.parent / path).resolve() if path else page
                    self.assertTrue(other.exists(), f"{page}: {target}")
                    self.assertTrue(not anchor or anchor in anchors(other), f"{page}: {target}")

    def test_each_trap(self):
        traps = list(documents.traps())
        self.assertEqual([kind for kind, *_ in traps], list(range(1, 12)))
        for _, name, code, table, pc in traps:
            self.assertEqual(stop_of(code, table), (re.sub("(?<=[a-z])(?=[A-Z])", " ", name).lower(), pc), name)

    def test_texts(self):
        code, text = documents.disassembly()
        self.assertEqual(assemble(text), code)
        # Four statements of one unit.
        self.assertEqual(len(assemble(documents.long_text())), 32)
        self.assertEqual(documents.words(), set(KINDS))


class SecondImplementation(unittest.TestCase):
    def test_worked_rows(self):
        """It judges programs as was worked out by hand; some are refused as a whole, by cause 6 and by cause 18."""
        for name, (text, wanted) in ROWS.items():
            self.assertEqual(found(text), wanted, name)
        self.assertLessEqual({(6, 0), (18, 0)}, {wanted for _, wanted in ROWS.values()})


@unittest.skipIf(MISSING, f"not there: {MISSING}")
class ProgramsOfTheDocuments(unittest.TestCase):
    def setUp(self):
        os.environ["EDGEBPF"] = BUILT or SECOND_STORE
        made = tempfile.TemporaryDirectory()
        self.addCleanup(made.cleanup)
        self.source, self.graph = pathlib.Path(made.name) / "programs.c", pathlib.Path(made.name) / "graph.script"
        self.graph.write_text(GRAPH)

    def tearDown(self):
        if not BUILT:
            del os.environ["EDGEBPF"]

    def test_what_comes_of_each(self):
        self.assertEqual(len(FUNCTIONS), len(re.findall(r"^// ", "\n".join(BLOCKS), re.M)))
        self.assertGreaterEqual(len(FUNCTIONS), 8)
        self.source.write_text("#include <edgebpf.h>\n" + "\n".join(BLOCKS))
        for said, name in FUNCTIONS:
            run = run_tool("edgebpf-c", str(self.source), name, "24", "--on", str(self.graph))
            if said in NO_CODE:
                self.assertEqual((run.stdout, run.returncode), ("", 1), name)
                self.assertRegex(run.stderr, NO_CODE[said], name)
            elif said == "accepted":
                self.assertIn(f"program {name} bound", run.stdout, name)
                self.assertIn(f"run {name} last edges 3", run.stdout, name)
            else:
                self.assertRegex(run.stdout, f"^refused {name} {said.removeprefix('refused: ')} pc [0-9]+\n$")
                self.assertRegex(run.stderr, rf"^edgebpf-c: {name} is refused: .*programs\.c:[0-9]+: ")

    def test_the_first_program_in_c(self):
        source, (tool, _, *words) = documents.c_program()
        self.source.write_text(source)
        run = run_tool(tool.removeprefix("tools/"), str(self.source), *words, "--on", str(self.graph))
        # Twice the source, exclusive or twice the degree of the target: 0 ^ 2, 0 ^ 0 and 2 ^ 0.
        self.assertIn("run t last edges 3 total 4\nrow 0 2\nrow 1 2\n", run.stdout)

    def test_the_program_with_columns(self):
        self.source.write_text("#include <edgebpf.h>\n" + "\n".join(BLOCKS))
        words = ["--argument", (4).to_bytes(8, "little").hex()]
        for name, numbers in (("risk", "3 9 4 7"), ("land", "1 1 2 2")):
            path = self.source.with_name(name)
            path.write_text(numbers.replace(" ", "\n") + "\n")
            words += ["--column", f"{name}={path}"]
        run = run_tool("edgebpf-c", str(self.source), "scored_risk", "56", *words, "--on", str(self.graph))
        # 9 and twice 4 of vertex 0, and twice 4 of vertex 1.
        self.assertIn(" total 25\nrow 0 17\nrow 1 8\n", run.stdout, run.stderr)
        run = run_tool("edgebpf-c", str(self.source), "scored_risk", "40", *words, "--on", str(self.graph))
        self.assertEqual((run.stdout, run.returncode), ("", 1))
