"""Programs in C that the Python package compiles, what becomes of compilers that go on, and the package that pip installs."""
import contextlib
import os
import pathlib
import shutil
import signal
import subprocess
import sys
import tempfile
import time
import unittest
import unittest.mock

sys.path.insert(0, str(pathlib.Path(__file__).resolve().parent))
from test_package import FOLDER, TOP, edgebpf, np


@unittest.skipIf(np is None, "not there: numpy")
class Compiled(unittest.TestCase):
    def store(self, vertices):
        store = edgebpf.connect(vertices)
        self.addCleanup(store.close)
        return store

    def test_from_c(self):
        try:
            import elftools  # noqa: F401
        except ImportError:
            self.skipTest("not there: elftools")
        with tempfile.TemporaryDirectory() as folder:
            source = pathlib.Path(folder) / "score.c"
            source.write_text("#include <edgebpf.h>\nu64 score(struct edge *edge, u64 length) { return has_edge(edge->target, edge->source); }\n")
            mutual = edgebpf.compile_c(source, "score")
            with self.assertRaises(edgebpf.Error):
                edgebpf.compile_c(source, "missing")
            # The name of a function in C may be longer than that of a program in a script.
            source.write_text(source.read_text().replace("score", "s" * 40))
            self.assertEqual(edgebpf.compile_c(source, "s" * 40).code, mutual.code)
            source.write_text("#include <edgebpf.h>\nTABLE static const u32 weights[2] = {3, 1};\n"
                              "u64 score(struct edge *edge, u64 length, const u32 table[2]) { return table[edge->target & 1]; }\n")
            weighed = edgebpf.compile_c(source, "score")
            self.assertEqual(edgebpf.compile_c(text=source.read_text(), function="score").code, weighed.code)
            with self.assertRaisesRegex(edgebpf.Error, "clang refused program.c:\nprogram.c:1:1: "):
                edgebpf.compile_c(text="u64 f(", function="f")
            with self.assertRaises(edgebpf.Refused):
                edgebpf.compile_c(text="#include <edgebpf.h>\nu64 f(struct edge *edge, u64 length) { return edge->argument[9]; }\n", function="f")
        self.assertEqual(weighed.table, bytes([3, 0, 0, 0, 1, 0, 0, 0]))
        store = self.store(3)
        store.batch("A", ([0, 1, 2], [1, 0, 0]))
        self.assertEqual(store.pin().run(mutual).values.tolist(), [1, 1, 0])
        self.assertEqual(store.pin().numbers(weighed).tolist(), [1, 3, 3])

    def test_a_source_reads_files(self):
        """What the pages say of strangers' sources is so; and no word names a folder that the caller does not know."""
        if shutil.which("clang-19") is None:
            self.skipTest("not there: clang-19, which knows #embed")
        begin, end = "#include <edgebpf.h>\nTABLE static const u8 of[4] = {", "};\nu64 f(struct edge *edge, u64 length, const u8 table[4]) { return table[edge->target & 3]; }\n"
        with tempfile.NamedTemporaryFile("w") as file:
            file.write("word")
            file.flush()
            source = f'{begin}\n#embed "{file.name}"\n{end}'
            self.assertEqual(edgebpf.compile_c(text=source, function="f").table, b"word")
            with self.assertRaisesRegex(edgebpf.Error, "word"):
                edgebpf.compile_c(text=f'#include "{file.name}"\n', function="f")
        for page in (edgebpf.compile_c.__doc__, (FOLDER / "README.md").read_text()):
            self.assertIn("any file", page)
        with self.assertRaises(edgebpf.Error) as told:
            edgebpf.compile_c(text=f"{begin}1, 2, 3, 4{end.replace('table[edge', 'of[edge')}", function="f")
        self.assertRegex(str(told.exception), "^edgebpf-c: program.c:")

    def processes_of(self, folder):
        """The processes whose temporary files are in a folder."""
        found = []
        for process in pathlib.Path("/proc").glob("[0-9]*"):
            with contextlib.suppress(OSError):
                if f"TMPDIR={folder}/edgebpf-".encode() in (process / "environ").read_bytes():
                    found.append((process / "comm").read_text())
        return found

    def test_compilers_that_go_on(self):
        """One that takes too long or too much, or is interrupted, is gone with all that it started, and no file is left."""
        if shutil.which("clang") is None and shutil.which("clang-19") is None:
            self.skipTest("not there: clang")
        long = "#include <edgebpf.h>\n#define A(x) x x x x x x x x\nu64 f(struct edge *edge, u64 length) { u64 sum = 0; A(A(A(A(A(A(A(A(sum += 1;)))))))) return sum; }\n"
        crash = "#include <edgebpf.h>\n#pragma clang __debug crash\n"

        def interrupt(*_):
            raise KeyboardInterrupt

        with tempfile.TemporaryDirectory() as folder, unittest.mock.patch.dict(os.environ, TMPDIR=folder), unittest.mock.patch("tempfile.tempdir", folder):
            begun = time.monotonic()
            with self.assertRaisesRegex(edgebpf.Error, r"^the compiler took more than 0\.7 seconds$"):
                edgebpf.compile_c(text=long, function="f", timeout=0.7)
            self.assertLess(time.monotonic() - begun, 10)
            with unittest.mock.patch("edgebpf.from_c.MEMORY", 300 << 20), self.assertRaisesRegex(edgebpf.Error, "^the compiler needs more than 300 MB of memory$"):
                edgebpf.compile_c(text=long, function="f", timeout=100)
            with self.assertRaises(edgebpf.Error) as told:
                edgebpf.compile_c(text=crash, function="f")
            self.assertLess(len(str(told.exception)), 20_000)
            before = signal.signal(signal.SIGALRM, interrupt)
            try:
                signal.setitimer(signal.ITIMER_REAL, 0.7)
                with self.assertRaises(KeyboardInterrupt):
                    edgebpf.compile_c(text=long, function="f", timeout=100)
            finally:
                signal.signal(signal.SIGALRM, before)
            self.assertEqual((self.processes_of(folder), os.listdir(folder)), ([], []))

    def test_interrupted_as_the_compiler_starts_and_ends(self):
        """A Ctrl-C that comes while the compiler's process is started, or its folder is made or removed, is heard, and leaves neither."""
        if shutil.which("clang") is None and shutil.which("clang-19") is None:
            self.skipTest("not there: clang")
        text = "#include <edgebpf.h>\nu64 f(struct edge *edge, u64 length) { return 7; }\n"
        with tempfile.TemporaryDirectory() as folder, unittest.mock.patch.dict(os.environ, TMPDIR=folder), unittest.mock.patch("tempfile.tempdir", folder):
            before = signal.signal(signal.SIGINT, signal.default_int_handler)
            self.addCleanup(signal.signal, signal.SIGINT, before)
            for name, call in (("subprocess.Popen", subprocess.Popen), ("os.mkdir", os.mkdir), ("os.rmdir", os.rmdir)):

                def interrupted(*words, **options):
                    if name == "os.rmdir":
                        signal.raise_signal(signal.SIGINT)
                    made = call(*words, **options)
                    signal.raise_signal(signal.SIGINT)
                    return made

                with unittest.mock.patch(name, interrupted), self.assertRaises(KeyboardInterrupt):
                    edgebpf.compile_c(text=text, function="f")
                self.assertEqual((name, self.processes_of(folder), os.listdir(folder)), (name, [], []))
            self.assertEqual(edgebpf.compile_c(text=text, function="f").bound, 2)

    def test_wrong_words_of_compile_c(self):
        text = "#include <edgebpf.h>\nu64 f(struct edge *edge, u64 length) { return 7; }\n"
        for words, error, given in (
            ("compile_c takes either path or text", TypeError, {"function": "f"}), ("compile_c takes either path or text", TypeError, {"path": "x.c", "text": text, "function": "f"}),
            ("path is the name of a file, not int", TypeError, {"path": 7, "function": "f"}), ("function is the name", TypeError, {"text": text}), ("function is the name", TypeError, {"text": text, "function": 7}), ("text is a str", TypeError, {"text": b"", "function": "f"}),
            ("timeout is a number", ValueError, {"text": text, "function": "f", "timeout": 0}), ("timeout is a number", ValueError, {"text": text, "function": "f", "timeout": float("nan")}),
            ("timeout is a number", ValueError, {"text": text, "function": "f", "timeout": "1"}), ("a record has 16 to 256", ValueError, {"text": text, "function": "f", "record": 15}),
            ("record is a whole", TypeError, {"text": text, "function": "f", "record": "16"}), ("edgebpf-c: .*No such file", edgebpf.Error, {"path": "/nowhere/x.c", "function": "f"}),
        ):
            with self.subTest(given=given), self.assertRaisesRegex(error, words):
                edgebpf.compile_c(**given)

    def test_installed(self):
        """`pip install` needs no network. In an environment of its own the package is the same, with the library, the programs and the compiler
        driver if there is a C compiler, and runs the block of README.md, a process, and a program in C."""
        with tempfile.TemporaryDirectory() as folder:
            python = pathlib.Path(folder, "own", "bin", "python")
            made = subprocess.run([sys.executable, "-m", "venv", "--system-site-packages", "--without-pip", f"{folder}/own"], capture_output=True, text=True)
            if made.returncode:
                self.skipTest("not there: venv")
            words = [python, "-m", "pip", "install", "-q", "--root-user-action=ignore", "--disable-pip-version-check", "--no-index", str(FOLDER)]
            run = subprocess.run(words, capture_output=True, text=True, cwd=folder)
            if "No module named pip" in run.stderr:
                self.skipTest("not there: pip")
            self.assertEqual((run.returncode, run.stderr), (0, ""))
            (package,) = pathlib.Path(folder, "own").glob("lib/python3*/site-packages/edgebpf")
            names = {path.name for path in package.iterdir()} - {"__pycache__"}
            wanted = {path.name for path in (FOLDER / "edgebpf").iterdir()} - {"__pycache__"}
            built = {"libedgebpf.so", "libedgebpf_algorithms.so", "installed"}
            self.assertEqual(names - built, wanted)
            if not shutil.which("cc") or not shutil.which("make"):
                return
            self.assertLess(built, names)

            def says(*lines):
                """What lines in Python write there, where nothing else of edgebpf is to be found."""
                run = subprocess.run([python, "-W", "error", "-c", "\n".join(lines)], capture_output=True, text=True, cwd=folder, env={"PATH": "/usr/bin:/bin"})
                self.assertEqual(run.stderr, "")
                return run.stdout.splitlines()

            readme = (TOP / "README.md").read_text()
            block = readme[readme.index("```python\n") + 10:].partition("```")[0]
            if edgebpf.library.cffi is not None:
                self.assertEqual(says(block, "print(edgebpf.library.path())"), [f"{package}/libedgebpf.so"])
                self.assertEqual(says("import edgebpf, io", "print(edgebpf.read_edges(io.BytesIO(b'0 1')).vertices)"), ["2"])
                parts = "with edgebpf.Store(2) as store: print(edgebpf.algorithms.components(store.pin()).tolist())"
                self.assertEqual(says("import edgebpf", parts, "print(edgebpf.companion.path())"), ["[0, 1]", f"{package}/libedgebpf_algorithms.so"])
            connected = block.replace("edgebpf.Store(", "edgebpf.connect(")
            refused = "try: edgebpf.assemble('ldxw r0, [r1+13]\\nexit')", "except edgebpf.Refused as refused: print('ldxw r0' in refused.explain())"
            self.assertEqual(says(connected, *refused), ["True"])
            text = "#include <edgebpf.h>\nu64 twice(struct edge *edge, u64 length) { return 2 * edge->target; }\n"
            if shutil.which("clang") or shutil.which("clang-19"):
                self.assertEqual(says("import edgebpf", f"print(edgebpf.compile_c(text={text!r}, function='twice').frames)"), ["1"])


if __name__ == "__main__":
    unittest.main()
