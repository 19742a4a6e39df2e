"""One run over a graph in parts, a use of `edgebpf.Cluster` on the workers of Dask's distributed scheduler."""
import argparse
import collections
import functools
import os
import pathlib
import shutil
import sys
import time
from dataclasses import dataclass
from typing import Any, NamedTuple

from edgebpf_tools import columns, decimals, ends, graph_script, owned, packages, store, tables, workers
from edgebpf_tools.language import HEX
from edgebpf_tools.limits import COLUMN_BYTES, EDGE_BYTES, LEAST_RECORD_LENGTH, MOST_RECORD_LENGTH, MOST_WORKERS
from edgebpf_tools.refusal import Refusal
from edgebpf_tools.run_in_parts import IDENTITY
from edgebpf_tools.words import in_words

MOST_PROCESSES = 64
# So many lines are made at once.
LINES = 1 << 16


def arguments(words):
    parser = argparse.ArgumentParser(
        prog="edgebpf-spread",
        description="Reads a script that makes a graph, keeps the graph in parts on worker processes, each of which has the edges of some sources, "
        "runs one program on all of them, and prints the lines of one run.",
        epilog="A part has only the edges of its own sources. A program that asks the graph about another vertex than its "
        "edge's source therefore needs --whole, which is taken unless the code shows that it asks about no other, or "
        "--own-source-only says so. It needs the Python package edgebpf of the same release, and Dask's scheduler: "
        "apt-get install python3-edgebpf python3-distributed. So do the workers of another scheduler.",
    )
    parser.add_argument("graph", metavar="GRAPH", help="a script that makes a graph, as edgebpf-import writes it")
    parser.add_argument("program", metavar="PROGRAM", help="a file whose line is `code NAME LENGTH HEX` or `image NAME HEX`, as of "
                        "edgebpf-c")
    parser.add_argument("--processes", type=int, default=2, metavar="K", help="how many parts, 1 to 64; else 2")
    parser.add_argument("--reduce", default="sum", choices=sorted(IDENTITY), help="else sum")
    parser.add_argument("--argument", default=None, metavar="HEX", help="the record's end; else zeros")
    parser.add_argument("--column", action="append", default=[], metavar="NAME=FILE", help="a number for each vertex, of numpy's file or one on "
                        "each line, of which the record has those of the source and the target; may be said again")
    parser.add_argument("--push", metavar="NAME[=FILE]", help="reduce the number of each edge into that of its target in this column, and print "
                        "it; it begins with the numbers of the file, else with what no number reduces to")
    asked = parser.add_mutually_exclusive_group()
    asked.add_argument("--whole", action="store_true", help="each process has the whole graph, and runs over its part's vertices")
    asked.add_argument("--own-source-only", action="store_true", help="the program asks about no vertex but its edge's source: "
                       "your word, which nothing checks")
    parser.add_argument("--scheduler", metavar="ADDRESS", help="a scheduler that runs already, whose workers have the Python package edgebpf of "
                        "this release, with numpy and cffi")
    parser.add_argument("--timer", action="store_true", help="say on standard error how long what took")
    return parser.parse_args(words)


class Loaded(NamedTuple):
    """A program: its name, its line in a script, and what that line has."""

    name: str
    line: str
    length: int
    code: bytes
    table: bytes


def program_of(path):
    """The program of a file."""
    lines = [line for line in pathlib.Path(path).read_text().splitlines() if line.strip()]
    words = lines[0].split() if len(lines) == 1 else []
    if (words[:1], len(words)) not in ((["image"], 3), (["code"], 4)) or (len(words) == 4 and not decimals.is_number(words[2])):
        raise Refusal(f"{path} has to be one line: code NAME LENGTH HEX, or image NAME HEX")
    try:
        given = bytes.fromhex(words[-1].replace("-", ""))
    except ValueError:
        raise Refusal(f"{path}: the code is not pairs of hexadecimal digits") from None
    length, code, table = tables.parts_of(given) if len(words) == 3 else (decimals.value(words[2]), given, b"")
    if not LEAST_RECORD_LENGTH <= length <= MOST_RECORD_LENGTH:
        raise Refusal(f"{path}: a record has {LEAST_RECORD_LENGTH} to {MOST_RECORD_LENGTH} bytes")
    return Loaded(words[1], lines[0], length, code, table)


def takes_whole(options, program):
    """Whether each part has to have the whole graph. If the code decides it, standard error says so."""
    if options.whole or options.own_source_only or packages.own_source().asks_of(program.code) == "own":
        return options.whole
    print(f"edgebpf-spread: {program.name} may ask about other vertices than its edge's source: each process has the whole graph "
          "(--whole). --own-source-only cuts it all the same", file=sys.stderr)
    return True


@dataclass
class Asked:
    """What is asked of the graph: a program, its run, the columns that it is lent, and the one that it pushes into."""

    program: Loaded
    reduction: str
    argument: str
    lent: dict
    into: str | None
    begins: list | None

    @classmethod
    def of(cls, options, program):
        lent = columns.named(options.column)
        into, _, file = (options.push or "").partition("=")
        if options.push is not None and not columns.is_name(into):
            raise Refusal(f"--push is NAME or NAME=FILE, where a name has 1 to 32 of A-Z a-z 0-9 _ -, not {options.push!r}")
        begins = columns.named([options.push], "--push")[into] if file else None
        if into in lent:
            raise Refusal(f"--push {into} is a column that the run reads; give this one another name")
        room = program.length - EDGE_BYTES - COLUMN_BYTES * len(lent)
        if room < 0:
            raise Refusal(f"records of {program.length} bytes have no room for {len(lent)} columns of {COLUMN_BYTES} bytes")
        return cls(program, options.reduce, options.argument or "00" * room or "-", lent, into or None, begins)

    @property
    def command(self):
        return "push" if self.into else "pull" if self.lent else "run"

    @property
    def trial(self):
        """A script that runs the program over a graph of one vertex, by which the program and the words are tested."""
        numbers = dict.fromkeys([*self.lent, *([self.into] if self.into else [])], [0])
        more = f" {','.join(self.lent) or '-'} {self.into or '-'}" if self.command != "run" else ""
        run = f"{self.command} {self.program.name} last {self.reduction} {self.argument}{more}"
        return "".join(f"{line}\n" for line in ["graph 1", self.program.line, "pin last", *columns.lines_of(numbers), run])

    def test(self, graph_file, vertices):
        """Refuses columns that have not a number for each vertex. Without a vertex edgebpf has a fault, which is told."""
        if not vertices:
            return
        columns.refuse_other_lengths(self.lent, graph_file, vertices)
        if self.begins is not None:
            columns.refuse_other_lengths({self.into: self.begins}, graph_file, vertices, "--push")

    def answer(self, version, program):
        """What the run over all parts gives."""
        numpy = packages.numpy()
        given = {"argument": bytes.fromhex(self.argument.replace("-", "")), "columns": [numpy.array(lent, numpy.uint64) for lent in self.lent.values()]}
        if self.into is None:
            run = version.run(program, self.reduction, **given)
            return Answer(run.edges, run.total, "", "row", numpy.flatnonzero(version.degrees()), run.values)
        values = numpy.full(version.vertices, IDENTITY[self.reduction], numpy.uint64) if self.begins is None else numpy.array(self.begins, numpy.uint64)
        push = version.push(program, self.reduction, into=values, changed=True, **given)
        return Answer(push.edges, push.total, f" changed {len(push.changed)}", "value", numpy.flatnonzero(values), values)


class Answer(NamedTuple):
    """What a run gave, what else its first line says, and the vertices that have a line, with the word and the number of each."""

    edges: int
    total: int
    more: str
    word: str
    vertices: Any
    values: Any

    def tell(self, asked):
        """Prints it, as one process does."""
        print(f"{asked.command} {asked.program.name} last edges {self.edges} total {self.total}{self.more}")
        for begin in range(0, len(self.vertices), LINES):
            some = self.vertices[begin : begin + LINES]
            lines = [f"{self.word} {vertex} {number}\n" for vertex, number in zip(some.tolist(), self.values[some].tolist())]
            sys.stdout.write("".join(lines))
        sys.stdout.flush()


def test_program(asked):
    """Refuses a program that cannot be run, before anything is read. A program that is not built yet is built here."""
    said, status = store.serve(asked.trial)
    answers = said.splitlines()[1:]
    meaning = in_words(answers[0]) if answers else None
    if meaning:
        raise Refusal(f"{asked.program.name} is {meaning}")
    if status:
        raise Refusal(f"edgebpf cannot run {asked.program.name}: {answers[-1] if answers else f'status {status}'}")


@dataclass
class Times:
    """How many seconds the steps of a run in parts took."""

    cut: float
    start: float
    serve: float

    def tell(self, options):
        """Says the times if they are asked for, and what is faster if all of it was on this machine."""
        say = functools.partial(print, "edgebpf-spread:", file=sys.stderr)
        if options.timer:
            say(f"cut in {self.cut:.2f} s, workers started in {self.start:.2f} s, served in {self.serve:.2f} s")
        if not options.scheduler and options.processes <= MOST_WORKERS:
            say(
                f"on one machine `edgebpf --workers {options.processes}` is faster: it has no graph to cut, which took "
                f"{self.cut:.1f} s, and no worker processes to start, which took {self.start:.1f} s"
            )


def read_script(asked, path, folder):
    """How many vertices a script's graph has, and the file of its edits with how many each batch has."""
    script, edits = path, f"{folder}/edits"
    if not os.path.isfile(path):
        # It may be read once, and edgebpf may have to read it too.
        script = f"{folder}/script"
        with open(path, "rb") as stream, open(script, "wb") as out:
            shutil.copyfileobj(stream, out, graph_script.BLOCK)
    with open(script, "rb") as stream, open(edits, "wb") as out:
        reader = graph_script.Reader(out)
        reader.read(stream)
    asked.test(path, reader.vertices)
    if reader.wrong is not None:
        graph_script.refuse(script, reader.wrong)
    return reader.vertices, edits, reader.lengths


def apply(cluster, batches):
    """Applies batches, of which many may be under way."""
    waiting = collections.deque()
    for batch in batches:
        waiting.append(cluster.begin(*batch))
        while waiting and waiting[0].done():
            waiting.popleft().result()
    for counts in waiting:
        counts.result()


def served(options, folder):
    """What is asked, what it gave, and the times."""
    package, program = packages.edgebpf(), program_of(options.program)
    asked = Asked.of(options, program)
    test_program(asked)
    kinds = {"whole": takes_whole(options, program), "own_source_only": options.own_source_only}
    begun = time.monotonic()
    vertices, edits, lengths = read_script(asked, options.graph, folder)
    cut_in, begun = time.monotonic() - begun, time.monotonic()
    with workers.told_of_dask("the program cannot be loaded"):
        loaded = package.Program(program.code, program.length, program.table)
    with workers.silenced(f"{folder}/log"), workers.client_of(options, folder) as client, workers.told_of_dask("a part was not served"):
        with package.Cluster(client, vertices, options.processes, **kinds) as cluster:
            started_in, begun = time.monotonic() - begun, time.monotonic()
            apply(cluster, graph_script.batches(edits, lengths))
            with cluster.pin() as version:
                answer = asked.answer(version, loaded)
            return asked, answer, Times(cut_in, started_in, time.monotonic() - begun)


def perform(words):
    options = arguments(words)
    if not 1 <= options.processes <= MOST_PROCESSES:
        raise Refusal(f"--processes is 1 to {MOST_PROCESSES}, not {options.processes}")
    if options.argument is not None and not HEX.fullmatch(options.argument):
        raise Refusal("--argument is pairs of hexadecimal digits, or - for none")
    with owned.folder() as folder:
        asked, answer, times = served(options, folder)
    answer.tell(asked)
    times.tell(options)
    return 0


def main():
    ends.run("edgebpf-spread", perform)
