"""edgebpf-import: the formats that it reads, the scripts that it writes, and its errors."""
import gzip
import importlib.util
import io
import os
import pathlib
import stat
import subprocess
import tempfile
import unittest
import unittest.mock

from tools_here import PYTHON, TOOLS, run_tool

FIRST = "graph 3\nbatch A\n+ 0 1\n+ 0 2\n+ 1 2\nend\n"
TABLE = "# vertex, id in the file\n0 2\n1 4\n2 6\n"


@unittest.skipIf(importlib.util.find_spec("numpy") is None, "not there: python3-numpy")
class EdgebpfImport(unittest.TestCase):
    def made(self, text, *words):
        return run_tool("edgebpf-import", "-", *words, text=text)

    def refused(self, text, part, *words):
        run = self.made(text, *words)
        self.assertEqual((run.returncode, run.stdout), (1, ""))
        self.assertIn(part, run.stderr)

    def test_lists_of_two_columns(self):
        for text in ("1 2\n0 2\n0 1\n", "# a\n# b\n0\t1\r\n0\t2\r\n1\t2\r\n", "0 1 9.5\n0 2 x\n\n1 2", "0 1\n0 1\n0 2\n1 2\n"):
            self.assertEqual(self.made(text).stdout, FIRST)
        self.assertEqual(self.made("1 2\n1 3\n2 3\n", "--base", "1").stdout, FIRST)

    def test_what_only_a_library_reads(self):
        """A block is refused for the same lines, whether a library reads its columns or they are read one by one."""
        for wrong in ("3 -0\n", "1\xa02\n", "1\x852\n"):
            for others in ("1 2\n", "1 2\n# c\n"):
                run = run_tool("edgebpf-import", "--quiet", "-", text=others + wrong, encoding="latin-1")
                self.assertEqual((run.stdout, run.returncode), ("", 1), run.stderr)
                self.assertRegex(run.stderr, "line [23]: ")

    def test_carriage_returns(self):
        """Before a line feed they are part of the line's end. Alone they would make one line of many."""
        self.assertEqual(self.made("0 1\r\n0 2\r\r\n1 2\r").stdout, FIRST)
        for text in ("0 1\r0 2\r1 2\r", "0 1\n# c\r0 2\n"):
            run = run_tool("edgebpf-import", "--quiet", "-", text=text)
            self.assertEqual((run.stdout, run.returncode), ("", 1))
            self.assertRegex(run.stderr, "line [12]: a carriage return stands within the line")

    def test_rebases(self):
        """One at the end if it is asked for, and one before a log is full."""
        self.assertEqual(self.made("1 2\n0 2\n0 1\n", "--rebase").stdout, FIRST + "rebase\n")
        import numpy
        from edgebpf_tools import import_edges

        out = io.BytesIO()
        with unittest.mock.patch.multiple(import_edges, REBASE_BATCHES=2):
            self.assertEqual(import_edges.write_script(4, numpy.array([[1], [2], [3]]), out, False), (3, 3))
        batches = [f"batch A\n+ 0 {target}\nend\n" for target in (1, 2, 3)]
        self.assertEqual(out.getvalue().decode(), "graph 4\n" + batches[0] + batches[1] + "rebase\n" + batches[2])

    def test_matrix_market(self):
        head = "%%MatrixMarket matrix coordinate real "
        self.assertEqual(self.made(head + "general\n% c\n3 3 3\n1 2 5\n1 3 1\n2 3 1\n").stdout, FIRST)
        back = self.made(head + "symmetric\n4 4 2\n2 1 1\n3 3 1\n").stdout
        self.assertEqual(back, "graph 4\nbatch A\n+ 0 1\n+ 1 0\n+ 2 2\nend\n")
        self.refused(head + "general\n3 3 4\n1 2 5\n", "the file says 4 entries, and has 1")
        self.refused("%%MatrixMarket matrix array real general\n3 3\n", "line 1")
        self.refused(head + "general\n3 3 1\n0 1 1\n", "id 0 is below 1")

    def test_what_is_not_read_is_said(self):
        """Once each, also with --quiet."""
        said = "columns after the second are not read; edges have no weights or labels\n"
        for text, line in (("0 1 9.5\n0 2 -3\n1 2 x\n", 1), ("# c\n0 1\n0 2 7\n1 2 7\n", 3), ("0 1\t\n0 2\n1 2 # c\n", 3)):
            run = self.made(text, "--quiet")
            self.assertEqual((run.stdout, run.stderr), (FIRST, f"edgebpf-import: warning: standard input, line {line}: {said}"))
        matrix = self.made("%%MatrixMarket matrix coordinate real general\n3 3 3\n1 2 5\n1 3 1\n2 3 1\n", "--quiet")
        self.assertEqual((matrix.stdout, matrix.stderr), (FIRST, f"edgebpf-import: warning: standard input, line 3: {said}"))
        pattern = self.made("%%MatrixMarket matrix coordinate pattern general\n3 3 3\n1 2\n1 3\n2 3\n", "--quiet")
        self.assertEqual((pattern.stdout, pattern.stderr), (FIRST, ""))

    def test_commas(self):
        for text in ("0,1\n0,2\n1,2\n", "0, 1\r\n0 ,2\n# c\n1,2"):
            run = self.made(text, "--quiet")
            self.assertEqual((run.stdout, run.stderr), (FIRST, "edgebpf-import: warning: standard input: columns are separated by commas\n"))
        self.assertIn("line 1: columns after the second", self.made("0,1,5\n0,2,\n1,2,x\n").stderr)
        self.refused("0,1\n0 2\n", "line 2: an edge is two ids, and here is one word")
        self.refused("0 1\n0,2\n", "line 2: an edge is two ids, and here is one word")
        self.refused("0 1\n0, 2\n", "line 2: `0,` is no id")
        self.refused("0,5 1,5\n", "line 1: `5 1` is no id")

    def test_fields_in_quotation_marks(self):
        """A comma or a line's end within one is no end of a column. So the line is refused, and no other name is read."""
        begins, ends = "line {}: an id begins with a quotation mark. Fields of CSV", "line {}: a field in quotation marks does not end on its line"
        with tempfile.TemporaryDirectory() as folder:
            table = pathlib.Path(folder, "table")
            for text, part, line in (
                ('"Smith, John",acme\n', begins, 1), ('ann,bob\nacme,"Smith, John"\n', begins, 2), ('ann bob\n"ann" eve\n', begins, 2),
                ('ann, "bob"\n', begins, 1), ('ann,bob,"x\ny,eve,z"\n', ends, 1), ('"ann"\n', begins, 1),
            ):
                self.refused(text, part.format(line), "--names", "--table", str(table))
                self.refused(text, part.format(line), "--names", "--store")
            self.assertFalse(table.exists())
            inch = self.of_bytes(b'disk 5",acme,"x, y"\nann,acme\n', "--names", "--table", str(table))
            self.assertEqual((inch[0], table.read_text()), (0, '# vertex, name in the file\n0 acme\n1 ann\n2 disk 5"\n'))
        for text, part, line in (('"0","1"\n', begins, 1), ('0,1\n0,"2"\n', begins, 2), ('0,1,"x\n0,2,y"\n', ends, 1)):
            self.refused(text, part.format(line))
        for text in ('0,1,"x, y"\n0,2,5"\n1,2\n', '0 1 "x\n0 2\n1 2\n'):
            self.assertEqual(self.made(text).stdout, FIRST)

    def test_rectangular_matrix(self):
        text = "%%MatrixMarket matrix coordinate pattern general\n2 3 2\n1 3\n2 1\n"
        self.refused(text, "line 2: the matrix has 2 rows and 3 columns. Say what columns are: --rectangular same")
        self.assertEqual(self.made(text, "--rectangular", "same").stdout, "graph 3\nbatch A\n+ 0 2\n+ 1 0\nend\n")
        self.assertEqual(self.made(text, "--rectangular", "apart").stdout, "graph 5\nbatch A\n+ 0 4\n+ 1 2\nend\n")
        self.refused(text.replace("1 3", "1 4"), "an entry lies outside the 2 rows and 3 columns", "--rectangular", "same")
        self.refused(text.replace("2 1", "3 1"), "an entry lies outside the 2 rows and 3 columns", "--rectangular", "apart")
        self.refused(text.replace("general", "symmetric"), "2 rows and 3 columns is not symmetric", "--rectangular", "same")
        many = text.replace("2 3 2", f"{2**63 - 1} 3 2")
        self.refused(many, "line 2: the matrix has more than 2^63 - 1 rows and columns in all", "--rectangular", "apart")

    def test_blocks(self):
        """Columns that a library reads and lines that are read one by one, in blocks of a file, give the same edges."""
        edges = [(vertex * 7919 % 1_000_003, vertex) for vertex in range(400_000)]
        plain = "".join(f"{source} {target}\n" for source, target in edges)
        made = self.made(plain, "--quiet").stdout
        wanted = [f"+ {source} {target}" for source, target in sorted(edges)]
        self.assertTrue([line for line in made.splitlines() if line.startswith("+")] == wanted)
        middle = plain.index("\n", len(plain) // 2) + 1
        others = [plain.replace("\n", "\r\n"), plain.replace(" ", "\t\t"), plain.replace("\n", " 1\n")]
        for other in (*others, plain[:middle] + "# c\n" + plain[middle:]):
            self.assertTrue(self.made(other, "--quiet").stdout == made)
        self.refused(plain[:-1] + " \n7\n", "line 400001: an edge is two ids")
        self.refused(plain + "8 9 10\n7\n", "line 400002: an edge is two ids")

    def test_ids_are_numbered_anew(self):
        with tempfile.TemporaryDirectory() as folder:
            table = f"{folder}/ids"
            run = self.made("7 99999999999\n7 8\n8 99999999999\n", "--table", table)
            self.assertEqual(run.stdout, FIRST)
            self.assertEqual(pathlib.Path(table).read_text(), "# vertex, id in the file\n0 7\n1 8\n2 99999999999\n")
            os.chmod(table, 0o600)
            self.assertEqual(self.made("2 4\n2 6\n4 6\n", "--renumber", "--table", table).stdout, FIRST)
            self.assertEqual((stat.S_IMODE(os.stat(table).st_mode), pathlib.Path(table).read_text()), (0o600, TABLE))

    def of_bytes(self, data, *words):
        run = subprocess.run([PYTHON, TOOLS / "edgebpf-import", "--quiet", "-", *words], input=data, capture_output=True)
        return run.returncode, run.stdout.decode(), run.stderr.decode(errors="replace")

    def test_marks_and_headers(self):
        """A mark of the byte order is no part of the first id, and the first lines may be left out."""
        mark, plain = b"\xef\xbb\xbf", b"0 1\n0 2\n1 2\n"
        self.assertEqual(self.of_bytes(mark + plain), (0, FIRST, ""))
        self.assertEqual(self.of_bytes(mark + b"%%MatrixMarket matrix coordinate pattern general\n3 3 3\n1 2\n1 3\n2 3\n"), (0, FIRST, ""))
        for skip, before in (("1", b"source target\n"), ("2", b"from,to\r\n\r\n"), ("1", mark + b"id\n"), ("0", b"")):
            self.assertEqual(self.of_bytes(before + plain, "--skip", skip), (0, FIRST, ""))
        self.refused("source target\n0 1\n", "line 1: `source` is no id: ids are decimal numbers from 0 to 2^63 - 1; --skip 1 leaves out a header")
        self.refused("x\n0 1\n2 y\n", "line 3: `y` is no id", "--skip", "1")
        self.refused("0 1\n", "has no edge", "--skip", "1")
        self.refused("0 1\n", "--skip is a number of lines", "--skip", "-1")

    def test_compressed(self):
        """What gzip made is read as what is in it, also in several parts, and a cut or damaged file is refused in words."""
        plain = b"0 1\n0 2\n1 2\n"
        self.assertEqual(self.of_bytes(gzip.compress(plain)), (0, FIRST, ""))
        self.assertEqual(self.of_bytes(gzip.compress(plain[:6]) + gzip.compress(plain[6:])), (0, FIRST, ""))
        self.assertEqual(self.of_bytes(gzip.compress(b"\xef\xbb\xbfsource,target\n" + plain.replace(b" ", b",")), "--skip", "1")[:2], (0, FIRST))
        whole = gzip.compress(plain * 1_000)
        for wrong in (whole[:-9], whole[:20], whole[:12] + b"\0\0\0\0" + whole[16:], whole[:-8] + bytes(8)):
            status, made, said = self.of_bytes(wrong)
            self.assertEqual((status, made), (1, ""))
            self.assertRegex(said, "^edgebpf-import: standard input: what is compressed there is damaged or cut: .*\n$")
        with tempfile.TemporaryDirectory() as folder:
            path = pathlib.Path(folder, "edges.gz")
            path.write_bytes(gzip.compress(b"7 99999999999\n7 8\n8 99999999999\n"))
            self.assertEqual(run_tool("edgebpf-import", "--quiet", path).stdout, FIRST)
            self.assertEqual(pathlib.Path(folder, "edges.gz.ids").read_text(), "# vertex, id in the file\n0 7\n1 8\n2 99999999999\n")

    def test_names(self):
        """Words are numbered in the order of their bytes, and the table has them."""
        with tempfile.TemporaryDirectory() as folder:
            table = pathlib.Path(folder, "table")
            apart = "graph 3\nbatch A\n+ 0 1\n+ 0 2\n+ 2 1\nend\n"
            for data, wanted, names in (
                (b"ann bob\nann eve\n# c\nbob\teve\r\nann bob\n", FIRST, "0 ann\n1 bob\n2 eve\n"),
                (b"new york,Paris\nPARIS , new york\nPARIS,Paris", apart, "0 PARIS\n1 Paris\n2 new york\n"),
                ("\u00e9 \u4e2d\n0 \u4e2d\n0 \u00e9".encode(), FIRST, "0 0\n1 \u00e9\n2 \u4e2d\n"),
                (b"\xef\xbb\xbf10 9\n1 9\n1 10", FIRST, "0 1\n1 10\n2 9\n"),
            ):
                self.assertEqual(self.of_bytes(data, "--names", "--table", str(table)), (0, wanted, ""))
                self.assertEqual(table.read_text(), "# vertex, name in the file\n" + names)
            self.assertEqual(self.of_bytes(b"a\xff b", "--names", "--table", str(table))[0], 0)
            self.assertEqual(table.read_bytes(), b"# vertex, name in the file\n0 a\xff\n1 b\n")
            back = self.of_bytes(b"ann bob", "--names", "--undirected", "--table", str(table))
            self.assertEqual(back, (0, "graph 2\nbatch A\n+ 0 1\n+ 1 0\nend\n", ""))
            many = "".join(f"a b{number}\n" for number in range(1_048_576))
            for text, part in (
                ("ann\n", "line 1: an edge is two names, and here is one word"), ("a,\n", "line 1: an edge is two names"), ("a b\nc\rd e\n", "line 2: a carriage return stands within the line"),
                ("a\x00 b\n", "line 1: a name has a byte that is no letter"), (f"a {'b' * 1_001}\n", "line 1: a name has more than 1000 bytes"), ("# a b\n", "has no edge"),
                (many, "standard input has more than 1048576 names by line 1048576"),
            ):
                self.refused(text, part, "--names", "--table", str(table))
            self.refused("a b\n", "--names numbers the vertices itself", "--names", "--renumber")
            self.assertIn("line 1: columns after the second", self.made("a b c\n", "--names", "--table", str(table)).stderr)
        self.refused("ann bob\n", "`ann` is no id: ids are decimal numbers from 0 to 2^63 - 1; --skip 1 leaves out a header, and --names takes words as ids")

    def test_a_table_for_a_pipe(self):
        run = self.made("2 4\n2 6\n4 6\n", "--quiet", "--renumber", "--table", "/dev/stdout")
        self.assertEqual((run.stdout, run.stderr, run.returncode), (FIRST + TABLE, "", 0))

    def test_a_table_in_place_of_the_script(self):
        """Where standard output is a file, it is not replaced by the table."""
        with tempfile.TemporaryDirectory() as folder:
            edges, script = pathlib.Path(folder, "edges"), pathlib.Path(folder, "script")
            edges.write_text("2 4\n2 6\n4 6\n")
            with open(script, "w") as stream:
                words = [PYTHON, TOOLS / "edgebpf-import", "--renumber", "--table", script, edges]
                run = subprocess.run(words, stdout=stream, stderr=subprocess.PIPE, text=True)
            said = f"edgebpf-import: {script}: standard output or error is written there\n"
            self.assertEqual((run.stderr.splitlines(True)[-1], run.returncode), (said, 1))

    def test_store(self):
        """What a store in process would have, with more vertices than a script's graph may have; no script and no table is written."""
        for text, words, wanted in (
            ("0 1\n0 2\n1 2\n0 1\n", (), "3 vertices, 3 edges"), ("0 1\n1 1\n", ("--undirected",), "2 vertices, 3 edges"),
            ("268435455 0\n", (), "268435456 vertices, 1 edges"), ("268435456 0\n", (), "2 vertices, 1 edges, and ids are renumbered"),
            ("a b\nb a\n", ("--names",), "2 vertices, 2 edges, and ids are renumbered"), ("1048577 9\n", ("--rebase",), "1048578 vertices, 1 edges"),
        ):
            with tempfile.TemporaryDirectory() as folder:
                run = run_tool("edgebpf-import", "--store", "-", *words, text=text, cwd=folder)
                self.assertEqual((run.stdout, run.stderr, run.returncode, os.listdir(folder)), (wanted + "\n", "", 0, []))
        self.refused("0 1\n2 x\n", "line 2: `x` is no id", "--store")
        many = "".join(f"{vertex} {vertex + 1}\n" for vertex in range(0, 1_048_578, 2))
        self.assertEqual(self.made(many, "--store").stdout, "1048578 vertices, 524289 edges\n")

    def test_runs(self):
        """Edges that are sorted in many runs, which lie in a file, are those that are sorted at once; no file is left."""
        import numpy
        from edgebpf_tools import edge_files, edge_runs, import_edges

        chance = numpy.random.default_rng(7)
        for most, count in ((30, 2_000), (1 << 27, 500), (1 << 62, 700)):
            edges = chance.integers(0, most, (count, 2))
            edges = numpy.concatenate((edges, edges[: count // 2]))
            ids = numpy.unique(edges)
            ends = numpy.searchsorted(ids, edges) if most > 1 << 20 else edges
            wanted = sorted(set(map(tuple, ends.tolist())))
            for run_edges, memory in ((7, 0), (100, 1_000), (1 << 22, 1 << 30)):
                sizes = unittest.mock.patch.multiple(edge_runs, RUN_EDGES=run_edges, MERGED_EDGES=40, LEAST_MERGED=2)
                with tempfile.TemporaryDirectory() as folder, sizes, unittest.mock.patch.object(edge_files, "BLOCK", 100):
                    with edge_runs.EdgeRuns(memory, folder) as runs:
                        options = import_edges.arguments(["-", "--quiet"])
                        text = "".join(f"{source} {target}\n" for source, target in edges.tolist()).encode()
                        made = import_edges.SortedEdges(edge_files.Text("text", io.BytesIO(text)), options, 1 << 20, self.fail, runs)
                        self.assertEqual(runs.file is None, memory == 1 << 30)
                        # Runs that were replaced take no room of the memory any more.
                        self.assertEqual(runs.kept, sum(run.nbytes for run in runs.runs if not isinstance(run, numpy.memmap)))
                        batches = [edge_runs.columns_of(batch) for batch in made.batches(64)]
                        self.assertEqual(os.listdir(folder), [])
                self.assertEqual([len(sources) for sources, _ in batches], [min(64, len(wanted) - place) for place in range(0, len(wanted), 64)])
                self.assertEqual([pair for columns in batches for pair in zip(*map(numpy.ndarray.tolist, columns))], wanted)
                self.assertEqual(made.ids is not None, most > 1 << 20)

    def test_as_many_ids_as_there_may_be(self):
        """Ids that are counted run by run may be as many as a graph has vertices, and not one more."""
        import numpy
        from edgebpf_tools import edge_runs, refusal

        with unittest.mock.patch.object(edge_runs, "RUN_EDGES", 2), edge_runs.EdgeRuns() as runs:
            for first in (0, 20):
                runs.add(numpy.array([first, first]), numpy.array([first + 5, first + 7]))
            runs.finish()
            self.assertEqual(runs.ids("text", 6).tolist(), [0, 5, 7, 20, 25, 27])
            with self.assertRaisesRegex(refusal.Refusal, "^text has 6 vertices at least, and a graph has at most 5$"):
                runs.ids("text", 5)

    def test_a_folder_that_is_not_there(self):
        from edgebpf_tools import edge_files, edge_runs, import_edges, refusal

        with unittest.mock.patch.dict(os.environ, TMPDIR="/nowhere"), edge_runs.EdgeRuns(0) as runs, self.assertRaises(refusal.Refusal) as raised:
            import_edges.SortedEdges(edge_files.Text("text", io.BytesIO(b"0 1\n")), import_edges.arguments(["-"]), 9, self.fail, runs)
        self.assertEqual(str(raised.exception), "/nowhere: No such file or directory, where edges are sorted that memory does not hold")

    def test_undirected(self):
        self.assertEqual(self.made("0 1\n1 1\n", "--undirected").stdout, "graph 2\nbatch A\n+ 0 1\n+ 1 0\n+ 1 1\nend\n")

    def test_batches(self):
        made = self.made("".join(f"{vertex} 1\n" for vertex in range(65_537)), "--quiet")
        self.assertEqual(made.stderr, "")
        lines = made.stdout.splitlines()
        self.assertEqual(lines[:3], ["graph 65537", "batch A", "+ 0 1"])
        self.assertEqual(lines[65_538:], ["end", "batch A", "+ 65536 1", "end"])

    def test_errors(self):
        self.refused("0 1\n2 x\n", "line 2: `x` is no id")
        self.refused("0 1\n2 -3\n", "line 2: `-3` is no id")
        self.refused("0 1\n2\n3 4 5\n", "line 2: an edge is two ids")
        self.refused("0 1\n2 9223372036854775808\n", "line 2")
        self.refused(f"0 1\n2 {'9' * 5000}\n", f"line 2: `{'9' * 40}..` is no id")
        self.assertEqual(self.made(f"1 2\n0 2\n0 {'0' * 5000}1\n").stdout, FIRST)
        self.refused("# nothing\n", "has no edge")
        self.refused("", "has no edge")
        many = "".join(f"{vertex} {vertex + 1}\n" for vertex in range(0, 1_048_578, 2)) + "1048577 0\n"
        self.refused(many, "1048578 vertices, and a graph has at most 1048576")
        self.assertIn("No such file", run_tool("edgebpf-import", "/nowhere").stderr)
