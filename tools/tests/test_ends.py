"""How the companions end if they cannot write, read or go on, or if a signal asks them to: with one line and a status, and nothing
stays behind."""
import contextlib
import importlib.util
import os
import pathlib
import signal
import subprocess
import tempfile
import time
import unittest

from tools_here import MISSING, PYTHON, TOOLS, newest, run_tool

HAS_SERVICE = all(importlib.util.find_spec(name) for name in ("aiohttp", "cffi", "numpy", "prometheus_client"))
HAS_NUMPY = importlib.util.find_spec("numpy") is not None
STORE = str(TOOLS / "tests" / "second_store.py")
EDGES = "".join(f"{vertex} {vertex + 1}\n" for vertex in range(200_000))
TARGET = "#include <edgebpf.h>\nu64 target(struct edge *edge, u64 length) { return edge->target; }\n"
# edgebpf-c, to which a signal comes with the first call of a name.
SENT_TO_ITSELF = """
import os, signal, subprocess, sys
sys.path.insert(0, {tools!r})
from edgebpf_tools import ends
ends.begin("edgebpf-c")
from edgebpf_tools.compile_c import main
call = {name}

def interrupted(*words, **options):
    if {comes_first}:
        signal.raise_signal({number})
    made = call(*words, **options)
    signal.raise_signal({number})
    return made

{name} = interrupted
main()
"""
HELPS = ("edgebpf-c", "edgebpf-client", "edgebpf-explain", "edgebpf-import", "edgebpf-shell", "edgebpf-spread", *["edgebpf-serve"] * HAS_SERVICE)


class Ends(unittest.TestCase):
    def setUp(self):
        folder = tempfile.TemporaryDirectory()
        self.addCleanup(folder.cleanup)
        self.folder = pathlib.Path(folder.name)
        self.environment = {**os.environ, "EDGEBPF": STORE, "TMPDIR": str(self.folder / "temporary")}
        (self.folder / "temporary").mkdir()
        (self.folder / "edges").write_text(EDGES)

    def run_with(self, name, *words, redirected="", unbuffered=True, before=""):
        """Runs a companion with its files redirected by a shell, which does something before."""
        environment = {**self.environment, **({"PYTHONUNBUFFERED": "1"} if unbuffered else {})}
        command = f'{before} exec {PYTHON} {TOOLS / name} "$@" {redirected}'
        return subprocess.run(["sh", "-c", command, "sh", *words], capture_output=True, text=True, env=environment)

    def ended(self, run, program, part, status=1):
        """The run said one line, with these words, and left nothing."""
        self.assertEqual(run.returncode, status, run.stderr)
        self.assertEqual(len(run.stderr.splitlines()), 1, run.stderr)
        self.assertTrue(run.stderr.startswith(program + ": "), run.stderr)
        self.assertIn(part, run.stderr)
        self.assertEqual(list((self.folder / "temporary").iterdir()), [])

    @unittest.skipUnless(HAS_NUMPY, "not there: python3-numpy")
    def test_output_that_cannot_be_written(self):
        edges = str(self.folder / "edges")
        for unbuffered in (True, False):
            full = self.run_with("edgebpf-import", "--quiet", edges, redirected="> /dev/full", unbuffered=unbuffered)
            self.ended(full, "edgebpf-import", "standard output: No space left on device")
            closed = self.run_with("edgebpf-import", "--quiet", edges, redirected=">&-", unbuffered=unbuffered)
            self.ended(closed, "edgebpf-import", "standard output is closed")
            text = self.run_with("edgebpf-import", "--quiet", edges, redirected="| head -c 10", unbuffered=unbuffered)
            self.assertEqual((text.stdout, text.stderr), ("graph 2000", "edgebpf-import: standard output: Broken pipe\n"))

    @unittest.skipUnless(HAS_NUMPY and os.geteuid() == 0, "needs root and python3-numpy")
    def test_disk_that_is_full(self):
        """The system takes a part of the output and no more: nothing but the status and the line say so."""
        disk = self.folder / "disk"
        disk.mkdir()
        mount = subprocess.run(["mount", "-t", "tmpfs", "-o", "size=1m", "none", disk], capture_output=True)
        if mount.returncode:
            self.skipTest("nothing can be mounted here")
        self.addCleanup(subprocess.run, ["umount", disk])
        run = self.run_with("edgebpf-import", "--quiet", str(self.folder / "edges"), redirected=f"> {disk}/script")
        self.ended(run, "edgebpf-import", "standard output: No space left on device")
        if not MISSING:
            (self.folder / "p.c").write_text(TARGET)
            (self.folder / "graph").write_text("graph 300000\nbatch A\n" + "".join(f"+ {vertex} 0\n" for vertex in range(200_000)) + "end\n")
            words = [str(self.folder / "p.c"), "16", "--on", str(self.folder / "graph"), "--script"]
            run = self.run_with("edgebpf-c", *words, redirected=f"> {disk}/script")
            self.ended(run, "edgebpf-c", "standard output: No space left on device")
        far = self.folder / "far"
        far.write_text("".join(f"{7 * vertex} {10**15}\n" for vertex in range(200_000)))
        run = self.run_with("edgebpf-import", "--quiet", "--table", f"{disk}/table", str(far))
        self.ended(run, "edgebpf-import", f"{disk}/table: No space left on device")
        self.assertEqual(sorted(path.name for path in disk.iterdir()), ["script"])

    def test_help_that_cannot_be_written(self):
        for name in HELPS:
            for redirected in ("> /dev/full", ">&-"):
                self.ended(self.run_with(name, "--help", redirected=redirected), name, "standard output", 2 if "explain" in name else 1)

    def test_standard_error_that_is_closed(self):
        """What would go there does not go to standard output."""
        run = self.run_with("edgebpf-import", str(self.folder / "none"), redirected="2>&-")
        self.assertEqual((run.stdout, run.stderr, run.returncode), ("", "", 1))

    @unittest.skipUnless(HAS_NUMPY, "not there: python3-numpy")
    def test_files_that_cannot_be_used(self):
        self.ended(self.run_with("edgebpf-import", str(self.folder)), "edgebpf-import", "Is a directory")
        self.ended(self.run_with("edgebpf-import", "-", redirected="<&-"), "edgebpf-import", "standard input is closed")
        (self.folder / "far").write_text("1 999999999\n")
        run = self.run_with("edgebpf-import", "--quiet", "--table", f"{self.folder}/none/table", str(self.folder / "far"))
        self.ended(run, "edgebpf-import", "none/table: No such file or directory")
        self.ended(self.run_with("edgebpf-explain", "16", redirected="<&-"), "edgebpf-explain", "standard input is closed", 2)
        self.ended(self.run_with("edgebpf-client", "batch", redirected="<&-"), "edgebpf-client", "standard input is closed")
        self.environment["EDGEBPF"] = "/nowhere/edgebpf"
        self.ended(self.run_with("edgebpf-shell", redirected="< /dev/null"), "edgebpf-shell", "/nowhere/edgebpf: No such file")

    def test_pages_that_cannot_be_written(self):
        """The page that was there stays as it is, and a device that is full is told by its name."""
        self.environment["EDGEBPF_EXPLAIN"] = str(TOOLS / "tests" / "second_explain.py")
        made, page = self.folder / "made.o", self.folder / "page"
        page.write_text("before\n")
        asked = [("edgebpf-explain", ["16", "b7000000000000009500000000000000"], 2)]
        if not MISSING:
            words = [newest("clang"), "-g", "-target", "bpf", f"-I{TOOLS}", "-c", "-x", "c", "-", "-o", made]
            subprocess.run(words, input=TARGET, text=True, check=True)
            asked.append(("edgebpf-c", [made, "16"], 1))
        for name, words, status in asked:
            full = self.run_with(name, *words, "--html", page, before="ulimit -f 1; export PYTHONDONTWRITEBYTECODE=1;")
            self.ended(full, name, f"{page}: File too large", status)
            self.assertEqual((page.read_text(), [path.name for path in self.folder.glob("page*")]), ("before\n", ["page"]))
            self.ended(self.run_with(name, *words, "--html", "/dev/full"), name, "/dev/full: No space left on device", status)

    def test_missing_package(self):
        (self.folder / "numpy.py").write_text("raise ImportError('not here')")
        self.environment["PYTHONPATH"] = str(self.folder)
        run = self.run_with("edgebpf-import", str(self.folder / "edges"))
        self.ended(run, "edgebpf-import", "apt-get install python3-numpy")

    def test_interrupted_while_it_starts(self):
        """A Ctrl-C before any line of ours runs ends a tool by the signal or with its line, and never with a traceback."""
        graph = self.folder / "graph"
        graph.write_text("graph 4\n")
        asked = {
            "edgebpf-import": ["--quiet", self.folder / "edges"], "edgebpf-c": ["--help"], "edgebpf-explain": ["16"], "edgebpf-shell": [],
            "edgebpf-spread": ["--help"], "edgebpf-client": ["--help"], "edgebpf-serve": ["--help"],
        }
        # These two import more than the others before they can clean up.
        steps, told = {"edgebpf-client": 0.015, "edgebpf-serve": 0.05}, set()
        for name, words in asked.items():
            if name == "edgebpf-serve" and not HAS_SERVICE:
                continue
            for place in range(16):
                run = subprocess.Popen(
                    [TOOLS / name, *words], stdin=subprocess.PIPE, stdout=subprocess.DEVNULL, stderr=subprocess.PIPE, text=True,
                    env=self.environment,
                )
                time.sleep(steps.get(name, 0.004) * place)
                run.send_signal(signal.SIGINT)
                said = run.communicate()[1]
                self.assertIn((run.returncode, said), [(-2, ""), (130, f"{name}: interrupted\n"), (0, "")])
                told.add((name, run.returncode))
        self.assertGreaterEqual(len([name for name, status in told if status == 130]), 4)

    @unittest.skipUnless(HAS_SERVICE, "not there: what edgebpf-serve needs")
    def test_a_service_that_is_interrupted_before_its_command_begins(self):
        code = (
            f"import runpy, signal, sys; sys.path.insert(0, {str(TOOLS)!r}); from edgebpf_tools import ends;"
            "ends._open_standard_files = lambda: signal.raise_signal(signal.SIGINT);"
            f"sys.argv[0] = {str(TOOLS / 'edgebpf-serve')!r}; runpy.run_path(sys.argv[0], run_name='__main__')"
        )
        run = subprocess.run([PYTHON, "-c", code, "check", self.folder / "none"], capture_output=True, text=True)
        self.assertEqual((run.returncode, run.stdout, run.stderr), (130, "", "edgebpf-serve: interrupted\n"))

    def test_a_client_that_is_interrupted_while_it_reads_its_words(self):
        """argparse has an error of its own then, which would be a traceback."""
        code = (
            f"import argparse, signal, sys; sys.path.insert(0, {str(TOOLS)!r}); import edgebpf_client; from edgebpf_tools import ends;"
            "argparse.ArgumentParser.format_usage = lambda self: signal.raise_signal(signal.SIGTERM);"
            "ends.run('edgebpf-client', lambda words: edgebpf_client.perform())"
        )
        run = subprocess.run([PYTHON, "-c", code, "run", "target"], capture_output=True, text=True)
        self.assertEqual((run.returncode, run.stdout, run.stderr), (143, "", "edgebpf-client: terminated\n"))

    @unittest.skipIf(MISSING, f"not there: {MISSING}")
    def test_signals_as_a_compiler_and_a_folder_begin_and_end(self):
        """One that comes while clang is started, or the temporary folder is made or removed, leaves neither."""
        (self.folder / "short.c").write_text(TARGET)
        (self.folder / "long.c").write_text(TARGET.replace("{", "{ u64 sum = 0; A(A(A(A(A(A(A(sum += 1;)))))))").replace("\n", "\n#define A(x) x x x x x x x x\n", 1))
        for name, source, comes_first in (("subprocess.Popen", "long.c", False), ("os.mkdir", "short.c", False), ("os.rmdir", "short.c", True)):
            for number, word in ((signal.SIGINT, "interrupted"), (signal.SIGTERM, "terminated")):
                code = SENT_TO_ITSELF.format(name=name, number=int(number), comes_first=comes_first, tools=str(TOOLS))
                run = subprocess.run([PYTHON, "-c", code, self.folder / source, "16"], capture_output=True, text=True, env=self.environment)
                self.assertEqual((run.returncode, run.stderr), (128 + number, f"edgebpf-c: {word}\n"), (name, run.stderr))
                self.assertEqual((list((self.folder / "temporary").iterdir()), self.processes()), ([], []), name)

    def processes(self):
        """The words of the processes whose temporary files would be in this test's folder."""
        found = []
        for process in pathlib.Path("/proc").glob("[0-9]*"):
            with contextlib.suppress(OSError):
                if f"TMPDIR={self.folder}/temporary".encode() in (process / "environ").read_bytes():
                    found.append((process / "cmdline").read_bytes())
        return found

    @unittest.skipUnless(HAS_NUMPY, "not there: python3-numpy")
    def test_signals_at_any_moment(self):
        """From the first line of the companion's own code on: Python's start is not ours."""
        for place in range(40):
            started = self.folder / f"started{place}"
            code = (
                f"import sys; open({str(started)!r}, 'w').close(); sys.argv = ['edgebpf-import', '--renumber', {str(self.folder / 'edges')!r}];"
                f"sys.path.insert(0, {str(TOOLS)!r}); from edgebpf_tools import ends; ends.begin('edgebpf-import'); print(end='');"
                f"open({str(started)!r} + 'r', 'w').close(); from edgebpf_tools.import_edges import main; main()"
            )
            run = subprocess.Popen(
                [PYTHON, "-c", code], stdout=subprocess.DEVNULL, stderr=subprocess.PIPE, text=True, env=self.environment
            )
            while not pathlib.Path(f"{started}r").exists() and run.poll() is None:
                time.sleep(0.001)
            time.sleep(0.02 * place)
            number = (signal.SIGINT, signal.SIGTERM)[place % 2]
            run.send_signal(number)
            _, said = run.communicate()
            if run.returncode == 0 or "the table is" in said:
                # All was written before the signal came.
                self.assertTrue((self.folder / "edges.ids").exists())
                break
            self.assertEqual(run.returncode, 128 + number, said)
            self.assertEqual([line for line in said.splitlines() if "edges read" not in line], [f"edgebpf-import: {'interrupted' if number == signal.SIGINT else 'terminated'}"])
            self.assertEqual([path for path in self.folder.iterdir() if ".part" in path.name or path.name == "edges.ids"], [])
        self.assertGreater(place, 3)


class WordsOfEnds(unittest.TestCase):
    def test_words_of_the_command_line(self):
        for name in HELPS:
            run = run_tool(name, "--nothing-of-this-name")
            self.assertEqual((run.returncode, run.stdout), (2, ""))
            self.assertNotIn("Traceback", run.stderr)
