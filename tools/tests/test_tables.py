"""edgebpf-c: programs with a table, of an object marked TABLE or of a file, and what is refused in words."""
import pathlib
import sys
import tempfile
import unittest
import unittest.mock

from tools_here import MISSING, TOOLS, run_tool

from edgebpf_tools import tables
from edgebpf_tools.refusal import Refusal

sys.path.insert(0, str(TOOLS.parent / "tests" / "second_implementation"))
from bpf import Graph, run  # noqa: E402
from verifier import judged  # noqa: E402

READS = "u64 read(struct edge *edge, u64 length, const u16 *table) { return table[edge->target & 3]; }\n"
MARKED = "TABLE static const u16 numbers[4] = {3, 1, 400, 1};\n"


@unittest.skipIf(MISSING, f"not there: {MISSING}")
class Tables(unittest.TestCase):
    def compiled(self, source, *words, **files):
        """What edgebpf-c says of a source, in a folder with these files."""
        with tempfile.TemporaryDirectory() as folder:
            for name, text in {"source": source, **files}.items():
                pathlib.Path(folder, name).write_bytes(text if isinstance(text, bytes) else text.encode())
            made = pathlib.Path(folder, "program.c")
            made.write_text(f"#include <edgebpf.h>\n{source}")
            return run_tool("edgebpf-c", made, "16", *[word.replace("FOLDER", folder) for word in words])

    def refused(self, part, source, *words, **files):
        run_of_it = self.compiled(source, *words, **files)
        self.assertEqual((run_of_it.returncode, run_of_it.stdout), (1, ""))
        self.assertIn(part, run_of_it.stderr)

    def image(self, line):
        """The code and the table of the line of an image."""
        command, name, digits = line.split()
        data = bytes.fromhex(digits)
        self.assertEqual((command, name, data[:4]), ("image", "read", b"BPE2"))
        length, units, of_table = (int.from_bytes(data[at : at + 2], "little") for at in (4, 6, 8))
        self.assertEqual((length, len(data)), (16, 10 + 8 * units + of_table))
        return data[10 : 10 + 8 * units], data[10 + 8 * units :]

    def test_an_object_marked_table(self):
        code, table = self.image(self.compiled(MARKED + READS).stdout)
        self.assertEqual(table, bytes([3, 0, 1, 0, 144, 1, 1, 0]))
        bound = judged(code, 16, table)[0]
        record = bytes([0, 0, 0, 0, 2]).ljust(16, b"\0")
        self.assertEqual(run(code, record, Graph(4, {}, 0), bound, table), 400)

    def test_a_file(self):
        _, table = self.image(self.compiled(READS, "--table", "FOLDER/raw", raw=bytes(range(8))).stdout)
        self.assertEqual(table, bytes(range(8)))
        words = ("--table", "FOLDER/column", "--table-type")
        _, table = self.image(self.compiled(READS, *words, "u16", column="3\n1\n400\n\n65535\n").stdout)
        self.assertEqual(table, bytes([3, 0, 1, 0, 144, 1, 255, 255]))
        for kind, size in (("u8", 1), ("u16", 2), ("u32", 4), ("u64", 8)):
            _, table = self.image(self.compiled(READS, *words, kind, column="1\n2\n").stdout)
            self.assertEqual(table, b"".join(number.to_bytes(size, "little") for number in (1, 2)))
        self.refused("column:2: 256 is no number from 0 to 255", READS, *words, "u8", column="3\n256\n")
        self.refused("column:1: -1 is no number", READS, *words, "u64", column="-1\n")
        self.refused("column has no byte", READS, *words, "u8", column="\n")
        self.refused("No such file", READS, "--table", "FOLDER/raw")

    def test_lengths(self):
        _, table = self.image(self.compiled(READS, "--table", "FOLDER/raw", raw=bytes(4096)).stdout)
        self.assertEqual(len(table), 4096)
        self.refused("raw has more than 4096 bytes, the most of a table", READS, "--table", "FOLDER/raw", raw=bytes(4097))
        self.refused("the table has 4104 bytes; it may have 1 to 4096", READS, "--table", "FOLDER/column", "--table-type", "u64", column="1 " * 513)

    def test_files_without_an_end(self):
        stream = unittest.mock.MagicMock()
        stream.__enter__.return_value.read = lambda count: bytes(count)
        with unittest.mock.patch("builtins.open", return_value=stream):
            for kind, said in ((None, "f has more than 4096 bytes"), ("u8", "f has more than 1000000 bytes")):
                with self.assertRaisesRegex(Refusal, said):
                    tables.of_file("f", kind)

    def test_refusals_in_words(self):
        by_name = "u64 read(struct edge *edge, u64 length) { return numbers[edge->target & 3]; }\n"
        self.refused("program.c:3: uses the table by its name", MARKED + by_name)
        self.refused("numbers is marked TABLE, and no const", MARKED.replace("static const ", "") + READS)
        self.refused("several objects marked TABLE: numbers, others", MARKED + MARKED.replace("numbers", "others") + READS)
        address = "TABLE static const void *const numbers[1] = {&numbers};\n"
        self.refused("numbers is marked TABLE, and has an address in it", address + READS)
        self.refused("a program has one table", MARKED + READS, "--table", "FOLDER/raw", raw=b"\1")
        self.refused("--table-type says what the lines of --table FILE are", READS, "--table-type", "u8")
        self.refused("mark one const object TABLE", MARKED.replace("TABLE ", "") + by_name)

    def test_no_table_was_given(self):
        """It is said where a function reads its third parameter, and of no other program that reads what is unset."""
        inlined = "INLINE u64 at(const u16 *numbers, u64 place) { return numbers[place & 3]; }\n" + READS.replace("table[edge->target & 3]", "at(table, hash(edge->target))")
        with unittest.mock.patch.dict("os.environ", {"EDGEBPF_EXPLAIN": str(TOOLS / "tests" / "second_explain.py")}):
            for source in (READS, inlined):
                self.refused("edgebpf-c: read reads its table, table, and no table was given: --table FILE, or mark one const object TABLE\n", source)
                self.assertEqual(self.compiled(source, "--table", "FOLDER/raw", raw=bytes(8)).stderr, "")
            unset = "u64 read(struct edge *edge, u64 length) { u64 some; return edge->argument[0] ? 1 : some; }\n"
            called = "FUNCTION u64 inner(u64 a, u64 b, u64 c) { return a + b + c; }\nu64 read(struct edge *edge, u64 length) { u64 some; return inner(1, 2, some); }\n"
            for source in (unset, called):
                self.assertNotIn("no table", self.compiled(source, "--explain").stderr)

    def test_what_is_known_of_a_table(self):
        with unittest.mock.patch.dict("os.environ", {"EDGEBPF_EXPLAIN": str(TOOLS / "tests" / "second_explain.py")}):
            self.assertIn("table (r3) table+0\n", self.compiled(MARKED + READS, "--explain").stdout)
            written = READS.replace("const u16", "u16").replace("return table[edge->target & 3]", "table[0] = 1; return 0")
            run_of_it = self.compiled(MARKED + written, "--explain")
        self.assertEqual(run_of_it.returncode, 1)
        self.assertIn("goes to the table, which is only read", run_of_it.stderr)


if __name__ == "__main__":
    unittest.main()
