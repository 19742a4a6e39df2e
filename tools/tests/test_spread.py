"""edgebpf-spread: a run over a graph in parts on worker processes, and its errors."""
import contextlib
import importlib.util
import os
import pathlib
import signal
import socket
import subprocess
import sys
import tempfile
import time
import unittest

from tools_here import PYTHON, TOOLS, run_tool

# Workers of the test's own process are asked for the package, and others get its place with the path.
sys.path[:0] = [str(TOOLS.parent / "bindings/python"), str(TOOLS.parent / "tests/second_implementation")]


def lacking():
    """What is not there that a run in parts needs."""
    found = [name for name in ("numpy", "cffi", "distributed") if importlib.util.find_spec(name) is None]
    if not found:
        from edgebpf import library

        found = [] if library.path() else ["libedgebpf.so, which make -C dist makes"]
    return ", ".join(found)


LACKING = lacking()

# Of each edge its target, and the degree of its target by a call of the first helper.
TARGET = "code t 16 61100400000000009500000000000000\n"
DEGREE = "code d 16 611104000000000085000000010000009500000000000000\n"
# The same of its source.
OWN_DEGREE = "code o 16 611100000000000085000000010000009500000000000000\n"
# The word of a table of four words at the place that the low two bits of its target name.
WEIGHED = ("image w 42504532100006001000" "6112040000000000570200000300000067020000020000000f2300000000000061300000000000009500000000000000"
           "280000000a000000140000001e010000\n")
# The edges 0-1, 70-2, 299-3 and 299-4, and 256-0 that goes again.
EDITS = ["batch A", "+ 0 1", "+ 299 4", "+ 256 0", "end", "batch B", "# more", "- 256 0", "+ 70 2", "+ 299 3", "end"]
GRAPH = "\n".join(["graph 300", *EDITS[:6], *EDITS[7:], ""])
SUM = "run t last edges 4 total 10\nrow 0 1\nrow 70 2\nrow 299 7\n"
# Of the first column the target's number, and the source's.
OF_TARGET, OF_SOURCE = "code r 32 79101800000000009500000000000000\n", "code s 32 79101000000000009500000000000000\n"


@unittest.skipIf(LACKING, f"not there: {LACKING}")
class EdgebpfSpread(unittest.TestCase):
    @classmethod
    def setUpClass(cls):
        from distributed import LocalCluster

        try:
            cls.cluster = LocalCluster(n_workers=2, processes=False, protocol="tcp", dashboard_address=None)
        except (OSError, RuntimeError) as error:
            raise unittest.SkipTest(f"no scheduler can be started here: {error}") from None
        cls.addClassCleanup(cls.cluster.close)

    def setUp(self):
        folder = tempfile.TemporaryDirectory()
        self.addCleanup(folder.cleanup)
        self.folder = pathlib.Path(folder.name)
        os.environ["EDGEBPF"] = str(TOOLS / "tests" / "second_store.py")

    def spread(self, *words, graph=GRAPH, program=TARGET):
        """Runs by the workers of this test."""
        return self.spread_by_its_own("--scheduler", self.cluster.scheduler_address, *words, graph=graph, program=program)

    def spread_by_its_own(self, *words, graph=GRAPH, program=TARGET):
        self.write(graph, program)
        return run_tool("edgebpf-spread", str(self.folder / "graph"), str(self.folder / "program"), *words)

    def write(self, graph=GRAPH, program=TARGET):
        (self.folder / "graph").write_text(graph)
        (self.folder / "program").write_text(program)

    def test_one_run_in_parts(self):
        for words in (["--processes", "1"], ["--processes", "3", "--whole"]):
            run = self.spread(*words)
            self.assertEqual((run.stdout, run.returncode), (SUM, 0), run.stderr)
        own = self.spread_by_its_own("--processes", "2")
        self.assertEqual(own.stdout, SUM)
        # Of Dask nothing is said.
        self.assertRegex(own.stderr, r"^edgebpf-spread: on one machine `edgebpf --workers 2` is faster: .*\n$")

    def test_where_the_graph_is(self):
        """It is read here, once, so it may be a pipe; workers in other folders see no file. A fault in it is found all the same."""
        self.write()
        words = ["program", "--scheduler", self.cluster.scheduler_address]
        for name, more in (("graph", []), ("graph", ["--whole"]), ("/dev/stdin", []), ("/dev/stdin", ["--whole"])):
            run = run_tool("edgebpf-spread", name, *words, *more, text=GRAPH, cwd=self.folder)
            self.assertEqual((run.stdout, run.stderr, run.returncode), (SUM, "", 0))
        wrong = run_tool("edgebpf-spread", "/dev/stdin", *words, text=GRAPH + "batch\n", cwd=self.folder)
        said = f"edgebpf-spread: a part was not served; edgebpf ended with status 1: fault 2 line {len(GRAPH.splitlines()) + 1}\n"
        self.assertEqual((wrong.stdout, wrong.stderr, wrong.returncode), ("", said, 1))
        none = run_tool("edgebpf-spread", "none", *words, cwd=self.folder)
        self.assertEqual((none.stdout, none.stderr, none.returncode), ("", "edgebpf-spread: none: No such file or directory\n", 1))

    def test_a_rebase(self):
        """It changes no edge, and the log is that of one edgebpf: 4,096 batches after it, and not one more."""
        empty = "batch A\nend\n"
        for batches, said in ((4096, ""), (4097, "ended with status 1: fault 9 line")):
            run = self.spread(graph=f"{GRAPH}rebase\n{empty * batches}")
            self.assertEqual(run.stdout, "" if said else SUM, run.stderr)
            self.assertIn(said, run.stderr)

    def test_tables(self):
        """A program with a table, which asks about no vertex, runs on parts."""
        run = self.spread("--processes", "3", program=WEIGHED)
        self.assertEqual((run.stdout, run.returncode), ("run w last edges 4 total 356\nrow 0 10\nrow 70 20\nrow 299 326\n", 0), run.stderr)
        self.assertNotIn("whole graph", run.stderr)
        for program, words in ((WEIGHED[:-3] + "\n", "another length|more or fewer bytes"), (WEIGHED[:-2] + "\n", "pairs of hexadecimal digits"),
                               (WEIGHED.replace("4532100006", "4532000006"), "a record has 16 to 256 bytes"), ("image w -\n", "16 to 256")):
            run = self.spread(program=program)
            self.assertEqual((run.stdout, run.returncode), ("", 1))
            self.assertRegex(run.stderr, words)

    def column(self, name, numbers):
        """The file of a column, as an option names it."""
        (self.folder / name).write_text("".join(f"{number}\n" for number in numbers))
        return f"{name}={self.folder / name}"

    def test_columns(self):
        risk = ["--column", self.column("risk", [10 * vertex for vertex in range(300)])]
        for words in ([], ["--whole"], ["--processes", "3"]):
            run = self.spread(*risk, *words, program=OF_TARGET)
            self.assertEqual((run.stdout, run.stderr), ("pull r last edges 4 total 100\nrow 0 10\nrow 70 20\nrow 299 70\n", ""))
        wide = OF_TARGET.replace("32", "48")
        other = ["--column", self.column("other", [7] * 300)]
        self.assertEqual(self.spread(*other, *risk, "--reduce", "max", program=wide).stdout, "pull r last edges 4 total 7\nrow 0 7\nrow 70 7\nrow 299 7\n")

    def test_pushes(self):
        """Vertices 3 and 4 get the number of 299, 2 that of 70, and 1 the 0 of vertex 0."""
        risk = ["--column", self.column("risk", [10 * vertex for vertex in range(300)])]
        wanted = "push s last edges 4 total 6680 changed 3\nvalue 2 700\nvalue 3 2990\nvalue 4 2990\n"
        for words in ([], ["--whole"], ["--processes", "3"]):
            run = self.spread(*risk, "--push", "sums", *words, program=OF_SOURCE)
            self.assertEqual((run.stdout, run.stderr), (wanted, ""))
        for words in ([], ["--whole"]):
            least = self.spread(*risk, "--reduce", "min", "--push", self.column("least", [5] * 300), *words, program=OF_SOURCE).stdout
            self.assertEqual(least, "".join(["push s last edges 4 total 0 changed 1\n", *(f"value {vertex} 5\n" for vertex in range(300) if vertex != 1)]))
        # Of two parts each has an edge to vertex 1, and a sum goes past 2^64.
        graph = "graph 600\nbatch A\n+ 0 1\n+ 256 1\nend\n"
        begins = self.column("begins", [2**64 - 1] * 600)
        many = self.spread("--column", self.column("one", [3] * 600), "--push", begins, graph=graph, program=OF_SOURCE).stdout.splitlines()
        self.assertEqual((many[0], many[2], len(many)), ("push s last edges 2 total 6 changed 1", "value 1 5", 601))

    def test_wrong_columns(self):
        short = ["--column", self.column("short", [1] * 299)]
        for words, told in (
                (short, "--column short has 299 numbers, and "), (["--column", "x"], "--column is NAME=FILE"), (["--column", "a b=x"], "--column is NAME=FILE"),
                (["--column", f"x={self.folder}/none"], "No such file"), (["--column", self.column("text", ["a"])], "is no number from 0 to 2^64 - 1"),
                (["--column", self.column("large", [2**64])], "is no number"), (2 * short, "--column short is given twice"),
                (["--push", "-"], "--push is NAME or NAME=FILE"), ([*short, "--push", "short"], "is a column that the run reads"),
                (["--push", self.column("begins", [1] * 7)], "--push begins has 7 numbers"),
                ([*short, "--column", self.column("more", [1] * 300)], "no room for 2 columns"), (["--argument", "00", *short], "cannot run r: fault 6")):
            run = self.spread(*words, program=OF_TARGET)
            self.assertEqual((run.stdout, run.returncode), ("", 1), run)
            self.assertIn(told, run.stderr)
            self.assertEqual(len(run.stderr.splitlines()), 1)

    def test_columns_of_no_graph(self):
        """How many vertices there are is read of the script: too many of them, or none, are edgebpf's to refuse."""
        for line in ("graph 1048577", "graph 100000000000", "graph 0", "graph"):
            for words, program in ((["--column", self.column("one", [1])], OF_TARGET), (["--push", "sums"], OF_TARGET.replace("32", "16").replace("79101800", "b7000000"))):
                run = self.spread(*words, graph=f"{line}\n", program=program)
                self.assertEqual((run.stdout, run.returncode, len(run.stderr.splitlines())), ("", 1, 1), run.stderr)
                self.assertRegex(run.stderr, "fault [24] line 1")

    def test_reductions(self):
        least = "run t last edges 4 total 1\nrow 0 1\nrow 70 2\nrow 299 3\n"
        self.assertEqual(self.spread("--reduce", "min").stdout, least)
        most = "run t last edges 4 total 4\nrow 0 1\nrow 70 2\nrow 299 4\n"
        self.assertEqual(self.spread("--reduce", "max").stdout, most)
        # Parts take turns with ranges of 256 vertices; a source that stands in a line with two blanks alone; and a sum past 2^64.
        graph, ones = "graph 600\nbatch A\n+ 0 1\n+  256 2\n+ 512 3\nend\n", "code m 16 b7000000ffffffff9500000000000000\n"
        rows = "".join(f"row {vertex} {2**64 - 1}\n" for vertex in (0, 256, 512))
        for words in ([], ["--whole"]):
            self.assertEqual(self.spread(*words, graph=graph, program=ones).stdout, f"run m last edges 3 total {2**64 - 3}\n{rows}")
        empty = self.spread("--reduce", "min", "--whole", graph="graph 3\n")
        self.assertEqual(empty.stdout, "run t last edges 0 total 18446744073709551615\n")

    def test_other_vertices(self):
        """Vertex 299 leads to vertex 0, which has two neighbours, in another part."""
        graph = "graph 300\nbatch A\n+ 0 1\n+ 0 2\n+ 299 0\nend\n"
        for words, told in ([["--whole"], ""], [[], "d may ask about other vertices than its edge's source"]):
            whole = self.spread(*words, graph=graph, program=DEGREE)
            self.assertEqual(whole.stdout, "run d last edges 3 total 2\nrow 0 0\nrow 299 2\n")
            self.assertEqual(told in whole.stderr, True, whole.stderr)
            self.assertEqual(len(whole.stderr.splitlines()), 1 if told else 0)
        # The user's word is taken, and here it is wrong.
        parts = self.spread("--own-source-only", graph=graph, program=DEGREE)
        self.assertEqual((parts.stdout, parts.stderr), ("run d last edges 3 total 0\nrow 0 0\nrow 299 0\n", ""))
        own = self.spread(graph=graph, program=OWN_DEGREE)
        self.assertEqual((own.stdout, own.stderr), ("run o last edges 3 total 5\nrow 0 4\nrow 299 1\n", ""))

    def test_many_sources_with_long_numbers(self):
        """12,000 vertices of seven digits: they are more than a line of a run may have."""
        sources = range(1_000_000, 1_012_000)
        graph = "graph 1048576\nbatch A\n" + "".join(f"+ {source} {source % 7}\n" for source in sources) + "end\n"
        whole = self.spread("--whole", "--processes", "1", graph=graph).stdout.splitlines()
        self.assertEqual(whole[0], f"run t last edges 12000 total {sum(source % 7 for source in sources)}")
        self.assertEqual(whole[1:], [f"row {source} {source % 7}" for source in sources])

    def test_errors(self):
        self.assertIn("line 2: `pin` makes no graph", self.spread(graph="graph 3\npin a\n").stderr)
        self.assertIn("no line makes a graph", self.spread(graph="# nothing\n").stderr)
        self.assertIn("has to be one line", self.spread(program="program t 16\n").stderr)
        self.assertIn("t is refused at unit 0: a register", self.spread(program="code t 16 9500000000000000\n").stderr)
        self.assertIn("cannot run t: fault 6 line 4", self.spread("--argument", "00").stderr)
        for edits in ("+ 0 7", "+ 7 0", "+ 0  7", "- 0 7", "+ 0 99999999999999999999999"):
            self.assertIn("ended with status 1: fault 4 line 3", self.spread(graph=f"graph 3\nbatch A\n{edits}\nend\n").stderr)
        self.assertIn("--processes is 1 to 64", self.spread("--processes", "0").stderr)
        half = "batch A\n" + "+ 0 1\n" * 40_000 + "+ 256 1\n" * 25_537 + "end\n"
        self.assertIn("line 65540: a batch has at most 65536 edits", self.spread("--own-source-only", graph="graph 600\n" + half).stderr)
        for argument in ("- 0", "", "0", "0x"):
            self.assertIn("--argument is pairs of hexadecimal digits", self.spread("--argument", argument).stderr)


# Seconds within which a process of a spread starts or ends, on a machine that is busy.
LONGEST = 240
# A worker that has used so many seconds of a processor is in the midst of a run.
RUNS = 6
# A program of 810,000 instructions, each of whose functions calls the next one ten times, and a graph on which it takes minutes.
LONG = "\n".join([*("calllocal f1\n" * 10, "exit"), *(f"f{at}:\n" + f"calllocal f{at + 1}\n" * 10 + "exit" for at in (1, 2, 3)), "f4:", "mov r0, 1\n" + "add r0, 1\n" * 70 + "exit"])
MANY = "graph 1024\n" + "".join(f"batch A\n{''.join(f'+ {source} {target}{chr(10)}' for source in range(begin, begin + 64) for target in range(1000))}end\n" for begin in range(0, 1024, 64))
STORE = """#!/bin/sh
if [ "$(head -n 1)" = "graph 1" ]; then echo "graph 1"; echo "program t bound 2 frames 1"; exit; fi
%s
"""


@unittest.skipIf(LACKING, f"not there: {LACKING}")
class SpreadEnds(unittest.TestCase):
    """What goes wrong ends with one line and a status, and with no process or file that is left."""

    def setUp(self):
        folder = tempfile.TemporaryDirectory()
        self.addCleanup(folder.cleanup)
        self.folder = pathlib.Path(folder.name)
        self.temporary = self.folder / "temporary"
        self.temporary.mkdir()
        self.environment = {**os.environ, "TMPDIR": str(self.temporary)}
        (self.folder / "graph").write_text(GRAPH)
        (self.folder / "program").write_text(TARGET)
        self.store("exit 1")

    def store(self, does):
        """A store that takes any program, and does something else with a graph."""
        path = self.folder / "store"
        path.write_text(STORE % does)
        path.chmod(0o755)
        self.environment["EDGEBPF"] = str(path)

    def long(self):
        """A run of minutes."""
        from assembler import assemble

        (self.folder / "graph").write_text(MANY)
        (self.folder / "program").write_text(f"code t 16 {assemble(LONG).hex()}\n")

    def started(self, *words, **options):
        command = [PYTHON, TOOLS / "edgebpf-spread", str(self.folder / "graph"), str(self.folder / "program"), *words]
        options |= {"env": self.environment, "cwd": self.folder}
        return subprocess.Popen(command, stdout=subprocess.PIPE, stderr=subprocess.PIPE, text=True, **options)

    def ended(self, run, line, status=1):
        out, said = run.communicate(timeout=LONGEST)
        self.assertEqual((out, run.returncode), ("", status), said)
        self.assertEqual(len(said.splitlines()), 1, said)
        self.assertTrue(said.startswith("edgebpf-spread: " + line), said)
        self.assertTrue(self.is_soon(lambda: not self.processes()), self.processes())
        self.assertEqual(list(self.temporary.iterdir()), [])
        self.assertEqual({path.name for path in self.folder.iterdir()}, {"graph", "program", "temporary", "store"})

    def processes(self):
        """The processes that were started with this test's folder for temporary files, each with the seconds of a processor that it has used."""
        found = {}
        for path in pathlib.Path("/proc").glob("[0-9]*"):
            with contextlib.suppress(OSError):
                if f"TMPDIR={self.temporary}\0".encode() in (path / "environ").read_bytes():
                    used = (path / "stat").read_text().rpartition(")")[2].split()[11]
                    found[int(path.name)] = int(used) / os.sysconf("SC_CLK_TCK")
        return found

    def running(self, run):
        """The workers that are in the midst of a run."""
        return [process for process, seconds in self.processes().items() if process != run.pid and seconds > RUNS]

    def is_soon(self, holds, run=None):
        """Waits until something holds, for as long as the run goes on, and at most some minutes."""
        deadline = time.monotonic() + LONGEST
        while not holds() and (run is None or run.poll() is None) and time.monotonic() < deadline:
            time.sleep(0.01)
        return holds()

    def test_scheduler_that_does_not_answer(self):
        self.ended(self.started("--scheduler", "tcp://127.0.0.1:9"), "the scheduler tcp://127.0.0.1:9 does not answer")
        self.ended(self.started("--scheduler", "nowhere at all"), "the scheduler nowhere at all does not answer")
        with socket.create_server(("127.0.0.1", 0)) as server:
            address = f"tcp://127.0.0.1:{server.getsockname()[1]}"
            self.ended(self.started("--scheduler", address), f"the scheduler {address} does not answer")

    def test_scheduler_without_workers(self):
        from distributed import LocalCluster

        with LocalCluster(n_workers=0, protocol="tcp", dashboard_address=None) as cluster:
            run = self.started("--scheduler", cluster.scheduler_address)
            self.ended(run, f"the scheduler {cluster.scheduler_address} has no worker")

    def test_workers_without_the_package(self):
        """Their own words follow those that say what to install."""
        from distributed import Client, LocalCluster

        needed = "a worker needs the Python package edgebpf of release 0.1.0, with numpy and cffi: apt-get install python3-edgebpf; tcp://127.0.0.1:"
        with LocalCluster(n_workers=1, protocol="tcp", dashboard_address=None, silence_logs=50) as cluster, Client(cluster) as client:
            for spoil, words in ((lambda: setattr(__import__("edgebpf"), "__version__", "0.0.9"), r"\d+ has 0\.0\.9"),
                                 (lambda: __import__("sys").modules.update(cffi=None), r"\d+ says: .*cffi"),
                                 (lambda: __import__("sys").modules.update({"edgebpf": None, "cffi": __import__("sys")}), r"\d+ says: .*edgebpf")):
                client.run(spoil)
                run = self.started("--scheduler", cluster.scheduler_address)
                out, said = run.communicate(timeout=LONGEST)
                self.assertEqual((out, run.returncode, len(said.splitlines())), ("", 1, 1), said)
                self.assertRegex(said, f"^edgebpf-spread: {needed}{words}")

    def test_store_that_fails(self):
        """What the store says of a graph that is none are its own words."""
        (self.folder / "graph").write_text("graph 0\n")
        self.store("echo 'graph 300'; echo 'run t last edges 4 total 9'; echo 'edgebpf: memory' >&2; exit 1")
        self.ended(self.started(), "a part was not served; edgebpf ended with status 1: edgebpf: memory")
        self.store("echo 'graph 300'; exit 0")
        self.ended(self.started(), "line 1: edgebpf takes it, and edgebpf-spread cannot read it")

    def test_signals(self):
        """While the store reads, while workers start, and while they run. What is left would be seen in the folder and among the processes."""
        self.long()
        for place in range(6):
            run = self.started()
            self.is_soon(lambda: list(self.temporary.iterdir()), run)
            if place < 4:
                time.sleep(1.5 * place)
            else:
                self.assertTrue(self.is_soon(lambda: self.running(run), run))
            number = (signal.SIGINT, signal.SIGTERM)[place % 2]
            run.send_signal(number)
            self.ended(run, ("interrupted", "terminated")[place % 2], 128 + number)

    def test_terminal(self):
        """A Ctrl-C at a terminal reaches the whole group of processes."""
        self.long()
        run = self.started(process_group=0)
        self.assertTrue(self.is_soon(lambda: self.running(run), run))
        os.killpg(run.pid, signal.SIGINT)
        self.ended(run, "interrupted", 130)

    def test_worker_that_is_lost(self):
        self.long()
        run = self.started()
        self.assertTrue(self.is_soon(lambda: self.running(run), run))
        os.kill(self.running(run)[0], signal.SIGKILL)
        self.ended(run, "a part was not served: part ")

    def test_workers_of_another_scheduler_stop(self):
        from distributed import LocalCluster

        self.long()
        with LocalCluster(n_workers=2, processes=False, protocol="tcp", dashboard_address=None) as cluster:
            begun = time.process_time()
            run = self.started("--scheduler", cluster.scheduler_address)
            self.assertTrue(self.is_soon(lambda: time.process_time() - begun > RUNS, run))
            run.send_signal(signal.SIGINT)
            self.ended(run, "interrupted", 130)
            self.assertTrue(self.is_soon(lambda: used_in(1) < 0.5))

    def test_closed_pipe(self):
        run = self.started()
        run.stdout.close()
        run.stdout = None
        _, said = run.communicate(timeout=LONGEST)
        self.assertEqual((run.returncode, said), (1, "edgebpf-spread: standard output: Broken pipe\n"))

    def test_missing_package(self):
        packages = self.folder / "temporary" / "packages"
        packages.mkdir()
        (packages / "distributed.py").write_text("raise ImportError('not here')")
        self.environment["PYTHONPATH"] = str(packages)
        run = self.started()
        _, said = run.communicate()
        self.assertEqual((run.returncode, len(said.splitlines())), (1, 1))
        self.assertIn("apt-get install python3-distributed", said)


def used_in(seconds):
    """How many seconds of a processor this process uses meanwhile."""
    begun = time.process_time()
    time.sleep(seconds)
    return time.process_time() - begun
