"""Scripts: what is written for a script's bytes, as docs/SCRIPT.md says."""
import re
import struct
import sys
from collections import Counter

from assembler import Fault as TextFault
from assembler import MOST_NAME_BYTES, MOST_UNITS, assemble
from bpf import BITS_64, Graph, run
from verifier import Refused, judged

# A number has as many digits as fit into a line.
sys.set_int_max_str_digits(0)

LONG_LINE, WORDS, ORDER, RANGE, NAME, ARGUMENT, FRONTIER, TOO_MANY, LOG_FULL, OPEN_BLOCK, EPOCHS_FULL = range(1, 12)
FEEDS = ("A", "B", "C", "D")
# By the names that the crates have for them, so that tools/tests/test_limits.py compares the numbers.
SERVED_VERTICES, MOST_EDITS, MOST_BATCHES, SERVED_EPOCHS = 1048576, 65536, 4096, 1024
MOST_LINE_BYTES, MOST_PROGRAM_LINES = 80000, 65536
MOST_KEPT, MOST_KEPT_COLUMNS, MOST_COLUMNS = 256, 64, 8
LEAST_RECORD_LENGTH, MOST_RECORD_LENGTH, MOST_TABLE_LENGTH = 16, 256, 4096
EDGE_BYTES, COLUMN_BYTES = 16, 16
BLOCK_MOST, BLOCK_RETURN, ARRAY_MOST, ARRAY_RETURN = 12, 8, 1024, 768
REDUCTIONS = {
    "min": lambda numbers: min(numbers, default=BITS_64),
    "max": lambda numbers: max(numbers, default=0),
    "sum": lambda numbers: sum(numbers) & BITS_64,
}


class NoImage(Exception):
    """What is wrong with the bytes of an image."""


def image_of(data):
    """The record length, the code and the table that an image's bytes spell."""

    def stop(is_wrong, error):
        if is_wrong:
            raise NoImage(error)

    stop(data[:4] not in (b"BPE1", b"BPE2"), 1)
    has_table = data[:4] == b"BPE2"
    front = 10 if has_table else 8
    stop(len(data) < front, 2)
    length, units, table = (int.from_bytes(data[place : place + 2], "little") for place in (4, 6, 8))
    stop(not LEAST_RECORD_LENGTH <= length <= MOST_RECORD_LENGTH, 3)
    stop(not 1 <= units <= MOST_UNITS, 4)
    stop(has_table and not 1 <= table <= MOST_TABLE_LENGTH, 6)
    code, rest = data[front : front + 8 * units], data[front + 8 * units :]
    stop(len(code) != 8 * units or len(rest) != (table if has_table else 0), 2)
    return length, code, rest


class Fault(Exception):
    """What is wrong with a line."""


def test(is_wrong, fault):
    if is_wrong:
        raise Fault(fault)


def hexadecimal(word):
    """The bytes that a word spells, or None."""
    if word == "-":
        return b""
    return bytes.fromhex(word) if re.fullmatch(r"([0-9a-fA-F]{2})+", word) else None


def are_numbers(words):
    return all(re.fullmatch(r"[0-9]+", word) for word in words)


def are_names(words):
    return all(re.fullmatch(rf"[A-Za-z0-9_-]{{1,{MOST_NAME_BYTES}}}", word) for word in words)


def are_columns(words):
    return are_names(words) and "-" not in words


def lent_names(word):
    """The names of columns that a word has."""
    return [] if word == "-" else word.split(",")


def lends(command, words):
    """Whether these words fit a pull, a push or an each."""
    if len(words) < 6 or not are_names(words[:2]) or words[2] not in REDUCTIONS or hexadecimal(words[3]) is None:
        return False
    into = command == "pull" and words[5] == "-" or are_columns(words[5:6])
    return are_columns(lent_names(words[4])) and into and are_numbers(words[6:])


def is_command(command, words):
    """Whether these words fit the command."""
    if command == "column":
        return len(words) >= 2 and are_columns(words[:1]) and are_numbers(words[1:])
    if command == "values":
        return len(words) >= 1 and are_columns(words[:1]) and are_numbers(words[1:])
    if command in ("pull", "push", "each"):
        return lends(command, words)
    if command == "graph":
        return len(words) == 1 and are_numbers(words)
    if command == "batch":
        return len(words) == 1 and words[0] in FEEDS
    if command == "pin":
        return len(words) == 1 and are_names(words)
    if command == "home":
        return len(words) == 1 and are_numbers(words)
    if command == "rebase":
        return not words
    if command == "list":
        return len(words) == 3 and are_names(words[:2]) and hexadecimal(words[2]) is not None
    if command == "program":
        return len(words) == 2 and are_names(words[:1]) and are_numbers(words[1:])
    if command == "image":
        return len(words) == 2 and are_names(words[:1]) and hexadecimal(words[1]) is not None
    if command == "code":
        return len(words) == 3 and are_names(words[:1]) and are_numbers(words[1:2]) and hexadecimal(words[2]) is not None
    if command != "run" or len(words) < 4:
        return False
    return are_names(words[:2]) and words[2] in REDUCTIONS and hexadecimal(words[3]) is not None and are_numbers(words[4:])


def home_after(home, degree):
    """The home of a list with so many targets, by its home before."""
    block = BLOCK_MOST if home == "block" else BLOCK_RETURN
    array = ARRAY_RETURN if home == "tree" else ARRAY_MOST
    return "block" if degree <= block else "gapped" if degree <= array else "tree"


class Session:
    def __init__(self):
        self.vertices = None
        self.homes = {}
        self.batches = self.epoch = 0
        self.targets, self.edge_count = {}, 0
        self.programs, self.pins, self.columns = {}, {}, {}
        self.block = None
        self.said = []
        # What was seen, for who counts.
        self.seen = Counter()

    def batch_line(self, words):
        if words == ["end"]:
            test(self.batches >= MOST_BATCHES, LOG_FULL)
            # The last edit that names an edge decides.
            last = {}
            for (source, target), stays in self.block["edits"]:
                last.setdefault(source, {})[target] = stays
            added = removed = 0
            # A pin has the mapping of before, and its sets, which are never changed.
            self.targets = dict(self.targets)
            for source, edits in last.items():
                before = self.targets.get(source, frozenset())
                kept = {target for target, stays in edits.items() if stays}
                after = (before | kept) - (set(edits) - kept)
                added, removed = added + len(after - before), removed + len(before - after)
                self.targets[source] = after
                self.move(source, len(after))
            self.batches, self.edge_count = self.batches + 1, self.edge_count + added - removed
            self.said.append(f"batch {self.block['feed']} version {self.batches} added {added} removed {removed}")
            self.seen[f"batches of feed {self.block['feed']}"] += 1
            self.seen["batches that remove an edge"] += bool(removed)
            self.block = None
            return
        test(len(words) != 3 or words[0] not in ("+", "-") or not are_numbers(words[1:]), WORDS)
        edge = (int(words[1]), int(words[2]))
        test(max(edge) >= self.vertices, RANGE)
        test(len(self.block["edits"]) >= MOST_EDITS, TOO_MANY)
        self.block["edits"].append((edge, words[0] == "+"))

    def move(self, vertex, degree):
        """The home of a list behind a batch that edits it, by its number of targets."""
        before = self.homes.get(vertex, "block")
        self.homes[vertex] = after = home_after(before, degree)
        if before != after:
            self.seen[f"lists that move from {before} to {after}"] += 1

    def offer(self, name, length, code, table=b""):
        """Has code judged as a program."""
        if not code or len(code) % 8 or len(code) > 32768:
            self.said.append(f"image {name} error 4")
            return
        verdict = judged(code, length, table)
        if isinstance(verdict, Refused):
            self.said.append(f"refused {name} cause {verdict.cause} pc {verdict.pc}")
            return
        bound, frames, notes = verdict
        self.seen["programs accepted"] += 1
        self.seen.update(f"programs accepted that {note}" for note in notes)
        self.programs[name] = (length, code, bound, table)
        self.said.append(f"program {name} bound {bound} frames {frames}")

    def program_line(self, line, words):
        if words != ["end"]:
            test(len(self.block["lines"]) >= MOST_PROGRAM_LINES, TOO_MANY)
            self.block["lines"].append(line)
            return
        block, self.block = self.block, None
        try:
            code = assemble("\n".join(block["lines"]))
        except TextFault as fault:
            self.said.append(f"assembler {block['name']} error {fault.cause} line {fault.line}")
            return
        self.offer(block["name"], block["length"], code)

    def new_program(self, name, length):
        test(not LEAST_RECORD_LENGTH <= length <= MOST_RECORD_LENGTH, RANGE)
        test(name in self.programs, NAME)
        test(len(self.programs) >= MOST_KEPT, TOO_MANY)

    def numbers(self, program, pin, argument, source, columns=()):
        """The targets of a vertex, each with the number of its edge, whose record has its ends' numbers of columns."""
        _, code, bound, table = self.programs[program]
        graph, rest = self.pins[pin], hexadecimal(argument)
        targets = graph.neighbours(source)
        self.seen["runs of a program on an edge that exited"] += len(targets)
        for place, target in enumerate(targets):
            ends = b"".join(struct.pack("<QQ", column[source], column[target]) for column in columns)
            record = struct.pack("<IIII", source, target, place, len(targets)) + rest + ends
            yield target, run(code, record, graph, bound, table)

    def list_edges(self, program, pin, argument):
        test(program not in self.programs or pin not in self.pins, NAME)
        test(len(hexadecimal(argument)) != self.programs[program][0] - EDGE_BYTES, ARGUMENT)
        self.said.append(f"list {program} {pin} edges {self.pins[pin].count}")
        for source in self.pins[pin].sources():
            self.said += [f"edge {source} {target} {number}" for target, number in self.numbers(program, pin, argument, source)]

    def run(self, program, pin, reducer, argument, *frontier):
        frontier = [int(vertex) for vertex in frontier]
        test(any(vertex >= self.vertices for vertex in frontier), RANGE)
        test(program not in self.programs or pin not in self.pins, NAME)
        test(len(hexadecimal(argument)) != self.programs[program][0] - EDGE_BYTES, ARGUMENT)
        test(any(low >= high for low, high in zip(frontier, frontier[1:])), FRONTIER)
        numbers, rows = [], []
        for source in frontier or self.pins[pin].sources():
            own = [number for _, number in self.numbers(program, pin, argument, source)]
            if own:
                rows.append(f"row {source} {REDUCTIONS[reducer](own)}")
            numbers += own
        self.said.append(f"run {program} {pin} edges {len(numbers)} total {REDUCTIONS[reducer](numbers)}")
        self.said += rows

    def set_column(self, name, first, *numbers):
        first, numbers = int(first), [min(int(number), BITS_64) for number in numbers]
        test(first >= self.vertices or first + len(numbers) > self.vertices, RANGE)
        test(name not in self.columns and len(self.columns) >= MOST_KEPT_COLUMNS, TOO_MANY)
        self.columns.setdefault(name, [0] * self.vertices)[first : first + len(numbers)] = numbers
        self.said.append(f"column {name} set {len(numbers)}")

    def show_values(self, name, *frontier):
        frontier = [int(vertex) for vertex in frontier]
        test(any(vertex >= self.vertices for vertex in frontier), RANGE)
        test(name not in self.columns, NAME)
        test(any(low >= high for low, high in zip(frontier, frontier[1:])), FRONTIER)
        column = self.columns[name]
        shown = frontier or [vertex for vertex, number in enumerate(column) if number]
        self.said += [f"value {vertex} {column[vertex]}" for vertex in shown]

    def lent(self, program, pin, argument, names, into, frontier):
        """The numbers of the columns that a command reads."""
        test(any(vertex >= self.vertices for vertex in frontier), RANGE)
        test(program not in self.programs or pin not in self.pins, NAME)
        test(any(name not in self.columns for name in names) or into != "-" and into not in self.columns, NAME)
        test(len(hexadecimal(argument)) + COLUMN_BYTES * len(names) != self.programs[program][0] - EDGE_BYTES, ARGUMENT)
        test(any(low >= high for low, high in zip(frontier, frontier[1:])), FRONTIER)
        test(len(names) > MOST_COLUMNS, TOO_MANY)
        return [self.columns[name] for name in names]

    def write(self, command, said, into, after):
        """Stores a column, and says at how many vertices it has another number than before."""
        changed = sum(old != new for old, new in zip(self.columns[into], after))
        self.columns[into] = after
        self.said.append(f"{said} changed {changed}")
        self.seen[f"numbers that a {command} changed"] += changed

    def lend(self, command, program, pin, reducer, argument, names, into, *frontier):
        """A pull or a push."""
        frontier, names = [int(vertex) for vertex in frontier], lent_names(names)
        columns, reduced = self.lent(program, pin, argument, names, into, frontier), REDUCTIONS[reducer]
        edges = [
            (source, target, number)
            for source in frontier or self.pins[pin].sources()
            for target, number in self.numbers(program, pin, argument, source, columns)
        ]
        said = f"{command} {program} {pin} edges {len(edges)} total {reduced([number for _, _, number in edges])}"
        gathered = {} if command == "push" else {source: [] for source in frontier or range(self.vertices)}
        for source, target, number in edges:
            gathered.setdefault(target if command == "push" else source, []).append(number)
        if into == "-":
            rows = [f"row {vertex} {reduced(own)}" for vertex, own in gathered.items() if own]
            self.said += [said, *rows]
            return
        after = list(self.columns[into])
        for vertex, own in gathered.items():
            after[vertex] = reduced([after[vertex], *own] if command == "push" else own)
        self.seen[f"{command} into a column that it reads"] += into in names
        self.write(command, said, into, after)

    def own_number(self, program, pin, argument, vertex, columns):
        """The number of a vertex's pair with itself, whose place is the degree where it is no edge."""
        _, code, bound, table = self.programs[program]
        graph = self.pins[pin]
        targets = graph.neighbours(vertex)
        place = targets.index(vertex) if vertex in targets else len(targets)
        self.seen["loops that an each runs for"] += vertex in targets
        ends = b"".join(struct.pack("<QQ", column[vertex], column[vertex]) for column in columns)
        record = struct.pack("<IIII", vertex, vertex, place, len(targets)) + hexadecimal(argument) + ends
        return run(code, record, graph, bound, table)

    def each(self, program, pin, reducer, argument, names, into, *frontier):
        """A program run for each vertex, whose number its column gets."""
        frontier, names = [int(vertex) for vertex in frontier], lent_names(names)
        columns = self.lent(program, pin, argument, names, into, frontier)
        own = {vertex: self.own_number(program, pin, argument, vertex, columns) for vertex in frontier or range(self.vertices)}
        after = [own.get(vertex, number) for vertex, number in enumerate(self.columns[into])]
        self.write("each", f"each {program} {pin} vertices {len(own)} total {REDUCTIONS[reducer](list(own.values()))}", into, after)

    def command(self, command, words, line_number):
        test(not is_command(command, words), WORDS)
        test((command == "graph") != (self.vertices is None), ORDER)
        if command == "graph":
            test(not 1 <= int(words[0]) <= SERVED_VERTICES, RANGE)
            self.vertices = int(words[0])
            self.said.append(f"graph {self.vertices}")
        elif command == "batch":
            self.block = {"line": line_number, "feed": words[0], "edits": []}
        elif command == "code":
            self.new_program(words[0], int(words[1]))
            self.offer(words[0], int(words[1]), hexadecimal(words[2]))
        elif command == "image":
            self.new_program(words[0], 16)
            try:
                length, code, table = image_of(hexadecimal(words[1]))
            except NoImage as error:
                self.said.append(f"image {words[0]} error {error}")
            else:
                self.offer(words[0], length, code, table)
        elif command == "program":
            self.new_program(words[0], int(words[1]))
            self.block = {"line": line_number, "name": words[0], "length": int(words[1]), "lines": []}
        elif command == "pin":
            test(words[0] in self.pins, NAME)
            test(len(self.pins) >= MOST_KEPT, TOO_MANY)
            self.pins[words[0]] = Graph(self.vertices, self.targets, self.edge_count)
            self.said.append(f"pin {words[0]} version {self.batches} edges {self.edge_count}")
        elif command == "home":
            vertex = int(words[0])
            test(vertex >= self.vertices, RANGE)
            self.said.append(f"home {vertex} {self.homes.get(vertex, 'block')} degree {len(self.targets.get(vertex, ()))}")
        elif command == "rebase":
            test(self.epoch >= SERVED_EPOCHS, EPOCHS_FULL)
            self.batches, self.epoch = 0, self.epoch + 1
            self.said.append(f"rebase epoch {self.epoch} edges {self.edge_count}")
        elif command in ("pull", "push"):
            self.lend(command, *words)
        elif command == "each":
            self.each(*words)
        else:
            {"run": self.run, "list": self.list_edges, "column": self.set_column, "values": self.show_values}[command](*words)

    def line(self, line, line_number):
        test(len(line) > MOST_LINE_BYTES, LONG_LINE)
        test(any(not 32 <= byte <= 126 and byte != 9 for byte in line), WORDS)
        line = line.decode()
        words = line.replace("\t", " ").split()
        if self.block and "edits" in self.block:
            self.batch_line(words)
        elif self.block:
            self.program_line(line, words)
        elif words and not words[0].startswith("#"):
            self.command(words[0], words[1:], line_number)


def serve(script):
    """The text that is written, the exit status, and what was seen."""
    session, lines = Session(), script.split(b"\n")
    if lines[-1] == b"":
        lines.pop()
    line_number = 0
    try:
        for line_number, line in enumerate(lines, 1):
            session.line(line, line_number)
        if session.block:
            line_number = session.block["line"]
            raise Fault(OPEN_BLOCK)
    except Fault as fault:
        session.said.append(f"fault {fault.args[0]} line {line_number}")
    status = int(bool(session.said) and session.said[-1].startswith("fault "))
    return "".join(line + "\n" for line in session.said), status, session.seen
