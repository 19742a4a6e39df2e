"""Runs a program that was made of C over a graph, and says what goes wrong in words."""
import re
import subprocess
import sys
from dataclasses import dataclass, field

from edgebpf_tools import columns, decimals, owned, store
from edgebpf_tools.limits import COLUMN_BYTES, EDGE_BYTES, MOST_LINE_BYTES
from edgebpf_tools.refusal import Refusal
from edgebpf_tools.words import in_words

PIN = "last"
FAULTS = {
    1: f"a line of more than {MOST_LINE_BYTES:,} bytes",
    2: "a byte that no line may have, an unknown command, or wrong words",
    3: "a command before `graph`, or a second `graph`",
    4: "a number of vertices, a record length or a vertex that is out of range",
    5: "a name that is used already, or unknown",
    6: "an argument of the wrong length",
    7: "vertices that do not ascend",
    8: "more edits, programs, pins or columns than there may be",
    9: "more batches than there may be",
    10: "a block that never ends",
    11: "more rebases than there may be",
}
# What a fault of one of our own lines means, by the line's first word and the number.
OWN_FAULTS = {
    ("code", 3): "it makes no graph",
    ("code", 5): "it has a program named {name} already; give this one another name by --name",
    ("code", 8): "it has as many programs as there may be",
    ("code", 10): "it ends inside a block",
    ("pin", 5): "it has a pin named " + PIN + " already, which edgebpf-c would make",
    ("pin", 8): "it has as many pins as there may be",
    ("run", 4): "one of --vertices is no vertex of it",
    ("pull", 4): "one of --vertices is no vertex of it",
    ("column", 8): "it has as many columns as there may be",
}


@dataclass
class Run:
    """What is run: the name, the code line, how numbers are reduced, the argument, the vertices, and the columns."""

    name: str
    line: str
    reduction: str
    argument: str
    vertices: list = field(default_factory=list)
    columns: dict = field(default_factory=dict)

    @property
    def lines(self):
        first, more = ("pull", f" {','.join(self.columns)} -") if self.columns else ("run", "")
        run = " ".join([f"{first} {self.name} {PIN} {self.reduction} {self.argument}{more}", *map(str, self.vertices)])
        return [self.line, f"pin {PIN}", *columns.lines_of(self.columns), run]


def asked(options, name, line):
    """The run that options ask for; refuses what would be a fault."""
    lent = columns.named(options.column)
    room = options.length - EDGE_BYTES - COLUMN_BYTES * len(lent)
    if room < 0:
        raise Refusal(f"records of {options.length} bytes have no room for {len(lent)} columns of {COLUMN_BYTES} bytes")
    argument = options.argument
    if argument is None:
        argument = "00" * room or "-"
    if argument != "-" and not re.fullmatch(r"([0-9a-fA-F]{2})+", argument):
        raise Refusal("--argument is pairs of hexadecimal digits, or - for none")
    given = 0 if argument == "-" else len(argument) // 2
    if given != room:
        beside = f" and {len(lent)} columns" if lent else ""
        raise Refusal(f"--argument has {given} bytes; records of {options.length} bytes{beside} have an argument of {room}")
    if not all(map(decimals.is_number, options.vertices)):
        raise Refusal("--vertices are numbers in decimal digits")
    numbers = [decimals.value(vertex) for vertex in options.vertices]
    if any(one >= other for one, other in zip(numbers, numbers[1:])):
        raise Refusal("--vertices ascend, and none stands twice")
    return Run(name, line, options.reduce, argument, numbers, lent)


def _fault(graph_file, graph, run, said):
    """The refusal of a script that ended in a fault."""
    number, line = map(int, re.fullmatch(r"fault (\d+) line (\d+)", said).groups())
    behind = line - len(graph.split("\n")) - 1
    if not 0 <= behind < len(run.lines):
        return Refusal(f"{graph_file}:{line}: {FAULTS.get(number, f'fault {number}')}")
    word = run.lines[behind].split()[0].replace("image", "code")
    known = OWN_FAULTS.get((word, number), FAULTS.get(number, f"fault {number}"))
    return Refusal(f"{graph_file}: {known.format(name=run.name)}")


def _split(text, name):
    """What a script wrote of its graph, and what it wrote from the verdict of our program on."""
    lines = text.splitlines(keepends=True)
    for place in range(len(lines) - 1, -1, -1):
        if re.match(rf"(program {name} bound|refused {name} cause|image {name} error) ", lines[place]):
            return "".join(lines[:place]), "".join(lines[place:])
    return text, ""


def serve(graph, run, workers):
    """Serves the graph and the run by one process. Returns what it writes, and its status."""
    words = store.command() + ([] if workers is None else ["--workers", str(workers)])
    try:
        served = owned.finished(words, "\n".join([graph, *run.lines, ""]), stdout=subprocess.PIPE)
    except OSError as error:
        raise Refusal(f"{error.filename}: {error.strerror}") from None
    return served.stdout, served.returncode


def run_on(graph_file, graph, run, workers, explain):
    """Prints what loading and running the program writes, without the graph's own lines. `explain` says in words why the verifier
    refuses the program, given the pc and the words that the verdict alone has."""
    text, status = serve(graph, run, workers)
    _, said = _split(text, run.name)
    verdict = said.partition("\n")[0]
    meaning = in_words(verdict) if verdict else None
    if meaning is not None:
        # What follows is a fault alone: a program that is not kept cannot be run.
        print(verdict, flush=True)
        raise Refusal(explain(verdict, meaning))
    # What the lines of columns wrote is nothing to read.
    said = re.sub(r"^column .*\n", "", said, flags=re.MULTILINE)
    last = text.rstrip("\n").rpartition("\n")[2]
    if last.startswith("fault "):
        raise _fault(graph_file, graph, run, last)
    if not said:
        raise Refusal(f"edgebpf ended with status {status} before the program was loaded")
    sys.stdout.write(said)
    return status
