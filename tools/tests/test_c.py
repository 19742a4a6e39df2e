"""edgebpf-c: what it takes out of C, and what it refuses in words."""
import os
import pathlib
import random
import struct
import subprocess
import tempfile
import threading
import unittest
import unittest.mock

from sample_programs import GRAPH, RUNS, SOURCE
from tools_here import MISSING, TOOLS, run_tool

from edgebpf_tools import columns
from edgebpf_tools.clang import newest
from edgebpf_tools.link import ObjectFile, link
from edgebpf_tools.refusal import Refusal

TARGET = "code target 16 61100400000000009500000000000000\n"
# Functions with a branch, a call, a loop, a helper and a table.
SMALL = """
#include <edgebpf.h>
TABLE static const u32 weights[4] = {3, 1, 4, 1};
FUNCTION u64 twice(u64 x, u64 y) { return x * 2 + y / 3; }
u64 score(struct edge *edge, u64 length, const u32 table[4]) {
    u64 sum = 0;
    for (int i = 0; i < 4; i++) if (edge->target > (u32)i) sum += table[i] * has_edge(edge->target, i);
    return sum > 0x100000000ULL ? twice(sum, edge->place) : twice(edge->source, sum); }
"""


def array_file(numbers, form):
    """The bytes of numpy's file with an array of one dimension, as its format says."""
    head = f"{{'descr': '{form}', 'fortran_order': False, 'shape': ({len(numbers)},), }}"
    head += " " * (-(len(head) + 11) % 64) + "\n"
    letter = {"<u8": "Q", "<i8": "q", "<f8": "d", "|i1": "b"}[form]
    return b"\x93NUMPY\x01\x00" + struct.pack("<H", len(head)) + head.encode() + struct.pack(f"<{len(numbers)}{letter}", *numbers)


def damaged(whole, chance):
    """The bytes of a file that ends early, or in which a few bytes are others."""
    if chance.randrange(3) == 0:
        return whole[:chance.randrange(len(whole))]
    changed = bytearray(whole)
    for _ in range(chance.choice((1, 1, 2, 8))):
        changed[chance.randrange(len(whole))] = chance.randrange(256)
    return bytes(changed)


@unittest.skipIf(MISSING, f"not there: {MISSING}")
class EdgebpfC(unittest.TestCase):
    @classmethod
    def setUpClass(cls):
        cls.folder = tempfile.TemporaryDirectory()
        cls.file = f"{cls.folder.name}/programs.c"
        pathlib.Path(cls.file).write_text(SOURCE)
        cls.graph = f"{cls.folder.name}/graph.script"
        pathlib.Path(cls.graph).write_text(GRAPH)

    @classmethod
    def tearDownClass(cls):
        cls.folder.cleanup()

    def compiled(self, *words):
        return run_tool("edgebpf-c", self.file, *words)

    def refused(self, function, *parts):
        run = self.compiled(function, "16")
        self.assertEqual((run.returncode, run.stdout), (1, ""))
        for part in parts:
            self.assertIn(part, run.stderr)

    def test_code_line_of_the_first_example(self):
        # The target is the four bytes at 4 of the record: ldxw r0, [r1+4]; exit.
        self.assertEqual(self.compiled("target", "16").stdout, TARGET)
        self.assertIn("code t 20 6110", self.compiled("target", "20", "--name", "t").stdout)

    @unittest.skipUnless(os.environ.get("EDGEBPF"), "runs are tried by .ci/examples, or here where EDGEBPF names a built program")
    def test_runs_on_a_graph(self):
        for words, said in RUNS.values():
            run = self.compiled(*words, "--on", self.graph)
            self.assertEqual((run.stdout, run.returncode), (said, 0))

    @unittest.skipUnless(os.environ.get("EDGEBPF"), "needs a built program, which EDGEBPF names: the second implementation takes minutes")
    def test_loops_within_loops(self):
        """One over all neighbours within another has too great a bound, and the words name those that fit."""
        path = pathlib.Path(self.folder.name, "loops.c")
        for outer, inner, is_accepted in (("for_each_neighbour(outer", "for_each_neighbour(inner", False), ("for_1024_neighbours_or(outer, 0", "for_64_neighbours_or(inner, 0", True)):
            text = f"#include <edgebpf.h>\n{inner}, word, total, other) {{ return total + (word == other); }}\n"
            text += f"{outer}, word, total, other) {{ return total + inner(word, 0, other); }}\n"
            path.write_text(text + "u64 two(struct edge *edge, u64 length) { return outer(edge->source, 0, edge->target); }\n")
            run = run_tool("edgebpf-c", path, "two", "16", "--on", self.graph)
            self.assertEqual(run.returncode, 0 if is_accepted else 1, run.stderr)
            self.assertEqual("for_64_neighbours_or fits into for_1024_neighbours_or" in run.stderr, not is_accepted, run.stderr)

    def test_script_of_a_run(self):
        run = self.compiled("target", "16", "--on", self.graph, "--script")
        self.assertEqual(run.stdout, f"{GRAPH}{TARGET}pin last\nrun target last sum -\n")

    def test_results_that_are_no_u64(self):
        self.assertIn("narrow answers int, of 4 bytes", self.compiled("narrow", "16").stderr)
        self.assertIn("-1 counts as 18446744073709551615", self.compiled("negative", "16").stderr)
        self.assertEqual(self.compiled("target", "16").stderr, "")
        self.refused("nothing", "has no result")

    def test_refusals_in_words(self):
        self.refused("looked", "programs.c:13: uses constant data", ".rodata")
        self.refused("counted", "programs.c:15: uses data", "counter")
        self.refused("outside", "programs.c:17: calls elsewhere, of which the file has no code")
        self.refused("parity", "even calls odd calls even")
        self.refused("added", "an atomic operation")
        self.refused("by_pointer", "a call through a pointer")
        self.refused("large", "a program has at most 4096")
        self.refused("absent", "there is no function absent")
        self.refused("bare", "its section nothing_here is empty")
        self.refused("halved", "programs.c:30: this loop in halved is left as a loop", "for_each_neighbour")

    def test_what_helps_where_clang_makes_no_code(self):
        """For each of these a line says what to do here, once; what clang advises for the kernel is left out."""
        stack = "u64 a[100]; for (int i = 0; i < 100; i++) a[i] = edge->target * i + hash(i ^ length); u64 sum = 0; for (int i = 0; i < 100; i++) sum += a[i] ^ opaque(a[99 - i]); return sum;"
        for number, (body, before, part) in enumerate((
            ("double part = edge->target; return part * 2.5;", "", "no floating point"), ("return (float)edge->target / 3.0f > 1.0f;", "", "no floating point"),
            ("return (unsigned __int128)edge->target * hash(length) >> 64;", "", "no numbers of 128 bits"),
            ("return ((unsigned __int128)hash(length) << 7) / hash(edge->target);", "", "no numbers of 128 bits"), (stack, "", "512 bytes for its variables"),
            ("return 1;", "#include <stdio.h>\n", "programs have no library"), ("return 1;", "#include <linux/bpf.h>\n#include <nothing.h>\n", "programs have no library"),
        )):
            path = pathlib.Path(self.folder.name, f"helped{number}.c")
            path.write_text(f"{before}#include <edgebpf.h>\nu64 f(struct edge *edge, u64 length) {{ {body} }}\n")
            run = run_tool("edgebpf-c", path, "f", "16")
            self.assertEqual((run.returncode, run.stdout), (1, ""))
            helps = [line for line in run.stderr.splitlines() if line.startswith("what helps: ")]
            self.assertEqual(len(helps), 1, run.stderr)
            self.assertIn(part, helps[0])
            self.assertNotIn("per-cpu", run.stderr)
            errors = [line for line in run.stderr.splitlines() if line.startswith("error: ")]
            self.assertEqual(len(set(errors)), len(errors))

    def test_several_functions_without_a_name(self):
        run = self.compiled("16")
        self.assertIn("several functions: target, nested", run.stderr)

    def test_lengths_names_and_files(self):
        self.assertIn("16 to 256 bytes, not 15", self.compiled("target", "15").stderr)
        self.assertIn("is no name of a script", self.compiled("target", "16", "--name", "a b").stderr)
        self.assertIn("No such file", run_tool("edgebpf-c", "/nowhere.c", "f", "16").stderr)
        broken = f"{self.folder.name}/broken.c"
        pathlib.Path(broken).write_text("u64 f(\n")
        self.assertIn("clang refused", run_tool("edgebpf-c", broken, "f", "16").stderr)

    def test_names_of_files(self):
        """One that begins as an option does, one without an ending, and one that is no text."""
        for name in ("-s.c", "source", "s\udcff.c"):
            (pathlib.Path(self.folder.name) / name).write_text(SOURCE)
            run = run_tool("edgebpf-c", "--", name, "target", "16", cwd=self.folder.name)
            self.assertEqual((run.stdout, run.stderr, run.returncode), (TARGET, "", 0))

    def test_results_of_object_files(self):
        made = f"{self.folder.name}/results.o"
        flags = ["-O2", "-target", "bpf", "-mcpu=v3", "-g", f"-I{TOOLS}", "-c"]
        subprocess.run([newest("clang"), *flags, self.file, "-o", made], check=True, capture_output=True)
        self.assertIn("narrow answers int, of 4 bytes", run_tool("edgebpf-c", made, "narrow", "16").stderr)
        self.assertIn("has no result", run_tool("edgebpf-c", made, "nothing", "16").stderr)

    def test_object_files(self):
        made = f"{self.folder.name}/programs.o"
        flags = ["-O2", "-target", "bpf", "-mcpu=v3", f"-I{TOOLS}", "-c"]
        subprocess.run([newest("clang"), *flags, self.file, "-o", made], check=True, capture_output=True)
        self.assertIn("code target 16 6110", run_tool("edgebpf-c", made, "target", "16").stdout)
        other = f"{self.folder.name}/other.o"
        subprocess.run([newest("clang"), "-c", "-x", "c", "/dev/null", "-o", other], check=True)
        self.assertIn("of another machine", run_tool("edgebpf-c", other, "target", "16").stderr)

    def test_damaged_object_files(self):
        """Each is linked or refused in words."""
        source, path, chance = f"{self.folder.name}/small.c", f"{self.folder.name}/damaged.o", random.Random(7)
        pathlib.Path(source).write_text(SMALL)
        subprocess.run([newest("clang"), "-O2", "-target", "bpf", f"-I{TOOLS}", "-c", source, "-o", path], check=True, capture_output=True)
        whole, refused = pathlib.Path(path).read_bytes(), 0
        for _ in range(300):
            pathlib.Path(path).write_bytes(damaged(whole, chance))
            try:
                objects = ObjectFile(path)
                link(objects, objects.function_named("score"), 16)
                objects.table()
            except Refusal:
                refused += 1
        self.assertGreater(refused, 100)
        pathlib.Path(path).write_bytes(whole[:100])
        run = run_tool("edgebpf-c", path, "score", "16")
        self.assertEqual((run.returncode, run.stderr), (1, f"edgebpf-c: {path} is a damaged object file\n"))

    def test_faults_in_words(self):
        for words, said in (
            (["--argument", "00"], "--argument has 1 bytes; records of 16 bytes have an argument of 0"),
            (["--argument", "xy"], "pairs of hexadecimal digits"),
            (["--vertices", "2", "1"], "--vertices ascend"),
            (["--vertices", "x"], "--vertices are numbers"),
        ):
            run = self.compiled("target", "16", "--on", self.graph, *words)
            self.assertEqual((run.returncode, run.stdout), (1, ""))
            self.assertIn(said, run.stderr)


class StoreStandIn:
    """Serves by the second implementation, and counts how often it was started, with which words."""

    TEXT = """#!/bin/sh
echo "$*" >> {folder}/started
exec /usr/bin/python3 {store}
"""

    def __init__(self, folder):
        self.folder, self.path = folder, f"{folder}/store"
        pathlib.Path(self.path).write_text(self.TEXT.format(folder=folder, store=TOOLS / "tests" / "second_store.py"))
        os.chmod(self.path, 0o755)

    def starts(self):
        started = pathlib.Path(self.folder) / "started"
        return started.read_text().splitlines() if started.exists() else []


@unittest.skipIf(MISSING, f"not there: {MISSING}")
class WordsAtTheLine(unittest.TestCase):
    """Runs with the second implementation as the store, and refusals by the second implementation of edgebpf_explain."""

    def setUp(self):
        folder = tempfile.TemporaryDirectory()
        self.addCleanup(folder.cleanup)
        self.folder = folder.name
        self.store = StoreStandIn(self.folder)
        environment = {"EDGEBPF": self.store.path, "EDGEBPF_EXPLAIN": str(TOOLS / "tests" / "second_explain.py")}
        patch = unittest.mock.patch.dict(os.environ, environment)
        patch.start()
        self.addCleanup(patch.stop)
        self.file = f"{self.folder}/programs.c"
        pathlib.Path(self.file).write_text(SOURCE)

    def run_on(self, graph, *words):
        path = pathlib.Path(self.folder) / "graph.script"
        path.write_text(graph)
        return run_tool("edgebpf-c", self.file, *words, "--on", str(path))

    def test_the_graph_is_loaded_once(self):
        run = self.run_on(GRAPH, "target", "16", "--workers", "2")
        self.assertEqual((run.stdout, run.stderr, run.returncode), (RUNS["target"][1], "", 0))
        self.assertEqual(self.store.starts(), ["--workers 2"])

    def of_columns(self, *words):
        """Runs a program that answers the target's number of its first column, over the edges 0-1 and 1-2."""
        path = pathlib.Path(self.folder, "risk.c")
        path.write_text("#include <edgebpf.h>\nstruct scored { struct edge_start edge; struct edge_ends risk; };\n"
                        "u64 risk(struct scored *it, u64 length) { return it->risk.target; }\n")
        graph = pathlib.Path(self.folder, "graph.script")
        graph.write_text("graph 3\nbatch A\n+ 0 1\n+ 1 2\nend\n")
        return run_tool("edgebpf-c", path, "risk", "32", "--on", graph, *words)

    def column(self, text, name="risk"):
        path = pathlib.Path(self.folder, f"{name}.txt")
        path.write_bytes(text if isinstance(text, bytes) else text.encode())
        return ["--column", f"{name}={path}"]

    def test_columns(self):
        for text in ("5\n6\n7\n", " 05\r\n6\r\n7", array_file([5, 6, 7], "<u8"), array_file([5, 6, 7], "|i1")):
            run = self.of_columns(*self.column(text))
            self.assertEqual((run.stderr, run.returncode), ("", 0))
            self.assertTrue(run.stdout.startswith("program risk bound "), run.stdout)
            self.assertTrue(run.stdout.endswith("\npull risk last edges 2 total 13\nrow 0 6\nrow 1 7\n"), run.stdout)
            self.assertNotIn("column", run.stdout)
        pipe = pathlib.Path(self.folder, "pipe")
        os.mkfifo(pipe)
        threading.Thread(target=pipe.write_bytes, args=(array_file([5, 6, 7], "<u8"),), daemon=True).start()
        self.assertIn(" total 13\n", self.of_columns("--column", f"risk={pipe}").stdout)
        lines = self.of_columns(*self.column("5\n6\n7\n"), "--vertices", "1", "--reduce", "max", "--script").stdout.splitlines()
        self.assertEqual(lines[-3:], ["pin last", "column risk 0 5 6 7", "pull risk last max - risk - 1"])

    def test_vertices_of_a_script(self):
        """As edgebpf reads it: a column is not taken for a whole one if blanks stand around the words."""
        for text, wanted in (("graph 3\n", 3), ("\t graph \t007 \nbatch A\nend\n", 7), ("# graph 3\n graph 4", 4), ("graph\n", None), ("graph 3 4\n", None)):
            self.assertEqual(columns.vertices_of(text), wanted, text)

    def test_columns_that_are_wrong(self):
        right, other = "5\n6\n7\n", self.column("1\n2\n3\n", "other")
        for text, words, said in (
            (right, ["--vertices", "3"], "one of --vertices is no vertex of it"), (right, ["--column", "risk=x"], "--column risk is given twice"),
            ("5\n6\n", [], "--column risk has 2 numbers, and "), ("5\n-6\n7\n", [], "risk.txt:2: '-6' is no number from 0 to 2^64 - 1"),
            ("5\n\n7\n", [], "risk.txt:2: '' is no number"), (f"5\n6\n{1 << 64}", [], "risk.txt:3: "), ("5\n" * 2 + "9" * 5_000, [], "risk.txt:3: "),
            (b"\xff", [], "it is no text, and no file of numpy"), (array_file([5, 6, -7], "<i8"), [], "has -7"),
            (array_file([5, 6, 7], "<f8"), [], "is an array of float64 in 1 dimensions"), (b"\x93NUMPY", [], "no file that numpy reads"),
            (array_file([5], "<u8").replace(b"(1,)", b"(1,("), [], "no file that numpy reads"),
            (array_file([5], "<u8").replace(b"(1,), }" + 18 * b" ", b"(%d,), }" % 10**18), [], "no file that numpy reads"),
            (right, ["--column", "second"], "--column is NAME=FILE"), (right, ["--column", f"second={self.folder}"], "Is a directory"),
            (right, other, "records of 32 bytes have no room for 2 columns of 16 bytes"),
            (right, [word for name in "abcdefgh" for word in self.column(right, name)], "a run is lent at most 8 columns, not 9"),
            (right, ["--argument", "00"], "--argument has 1 bytes; records of 32 bytes and 1 columns have an argument of 0"),
        ):
            run = self.of_columns(*self.column(text), *words)
            self.assertEqual((run.stdout, run.returncode), ("", 1), run)
            self.assertIn(said, run.stderr)
            self.assertEqual(len(run.stderr.splitlines()), 1)

    def test_faults_of_the_graph_and_of_the_lines_that_are_added(self):
        for graph, words, said in (
            ("graph 4\nbatch A\n+ 0 9\nend\n", [], "graph.script:3: a number of vertices, a record length or a vertex that is out of range"),
            (GRAPH + "pin last\n", [], "it has a pin named last already"),
            (GRAPH + "code target 16 9500000000000000\ncode target 16 b7000000000000009500000000000000\n", [], "a program named target already"),
            (GRAPH, ["--vertices", "7"], "one of --vertices is no vertex of it"),
            ("", [], "it makes no graph"),
        ):
            run = self.run_on(graph, "target", "16", *words)
            self.assertEqual(run.returncode, 1)
            self.assertIn(said, run.stderr)
            self.assertEqual(len(run.stderr.splitlines()), 1)

    def refusal(self, function):
        run = self.run_on(GRAPH, function, "24")
        self.assertEqual(run.returncode, 1)
        self.assertRegex(run.stdout, f"^refused {function} cause [0-9]+ pc [0-9]+\n$")
        return run.stderr

    def test_refusals_at_their_lines(self):
        index = self.refusal("any_byte")
        self.assertRegex(index, r"any_byte is refused: .*programs\.c:36: bytes may lie outside")
        self.assertIn("\n    return edge->argument[place]; }\n", index)
        self.assertIn("place (r2): 0 to 255", index)
        self.assertIn("The record has 24 bytes, and its argument 8", index)
        array = self.refusal("local_array")
        self.assertRegex(array, r"programs\.c:39: a pointer stands")
        self.assertIn("what helps: a local array cannot be indexed by a variable", array)
        unset = self.refusal("unset_word")
        self.assertRegex(unset, r"programs\.c:43: bytes of the frame are read that may be unset")
        self.assertRegex(unset, r"\n    called at .*programs\.c:45\n    words \(r1\): stack\[0\]-16\n    frame 0:  bytes\[0\] -16 to -9  slot")
        self.assertIn("\n    frame 1: no byte is set\n", unset)

    def test_a_form_feed_ends_no_line(self):
        """Neither one of C nor one of a script."""
        pathlib.Path(self.file).write_text("\f" + SOURCE)
        index = self.refusal("any_byte")
        self.assertRegex(index, r"programs\.c:36: bytes may lie outside")
        self.assertIn("\n    return edge->argument[place]; }\n", index)
        for byte in "\f\r":
            run = self.run_on(f"graph 4\n# a{byte}page\n", "target", "16")
            self.assertIn("graph.script:2: a byte that no line may have", run.stderr)

    def test_without_the_program_that_explains(self):
        os.environ["EDGEBPF_EXPLAIN"] = f"{self.folder}/nothing"
        # A path that is named has to be there.
        self.assertIn("No such file", self.refusal("any_byte"))

    def test_programs_that_were_refused_before(self):
        """An addition from the left, a signed index that is compared with both ends, an index that clang tests by a flag, and the address
        of a local variable that is handed to a function."""
        for function in ("from_the_left", "signed_place", "flagged_place", "lending"):
            run = self.run_on(GRAPH, function, "24")
            self.assertEqual((run.stderr, run.returncode), ("", 0))

    def test_the_source_with_the_state(self):
        listing = run_tool("edgebpf-c", self.file, "any_byte", "24", "--explain")
        self.assertEqual(listing.returncode, 1)
        self.assertIn("   35 | u64 any_byte(struct edge *edge, u64 length) { u32 place = edge->argument[0];\n", listing.stdout)
        self.assertRegex(listing.stdout, r"\n   36 \|     return edge->argument\[place\]; }\n      \|     \[.*\] .*place \(r2\) 0 to 255")
        page = f"{self.folder}/page.html"
        run = run_tool("edgebpf-c", self.file, "target", "16", "--html", page)
        self.assertEqual((run.stdout, run.stderr, run.returncode), ("", "", 0))
        self.assertIn("u64 target(struct edge *edge, u64 length)", pathlib.Path(page).read_text())
