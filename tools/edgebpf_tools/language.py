"""The lines of a script, looked at before they are sent: what would be a fault is told in words, and ends nothing."""
import re
from dataclasses import dataclass, field

from edgebpf_tools import decimals
from edgebpf_tools.limits import (
    COLUMN_BYTES, EDGE_BYTES, LEAST_RECORD_LENGTH, MOST_BATCHES, MOST_COLUMNS, MOST_EDITS, MOST_KEPT, MOST_KEPT_COLUMNS, MOST_LINE_BYTES, MOST_NAME_BYTES,
    MOST_PROGRAM_LINES, MOST_RECORD_LENGTH, SERVED_EPOCHS, SERVED_VERTICES,
)

FEEDS = ("A", "B", "C", "D")
NAME = re.compile(rf"[A-Za-z0-9_-]{{1,{MOST_NAME_BYTES}}}")
HEX = re.compile(r"-|([0-9a-fA-F]{2})+")
FORMS = {
    "graph": f"graph N: makes the graph of N vertices, 1 to {SERVED_VERTICES:,}",
    "batch": "batch A, or B, C or D: begins a batch of that feed; + U V and - U V are its edits, end publishes it",
    "code": f"code NAME LENGTH HEX: verifies a program with records of LENGTH bytes, {LEAST_RECORD_LENGTH} to {MOST_RECORD_LENGTH}, and keeps it",
    "image": "image NAME HEX: verifies the program of an image's bytes, which may have a table, and keeps it",
    "program": "program NAME LENGTH: begins a program in assembler text; end verifies it",
    "pin": "pin NAME: names the last version",
    "run": "run PROGRAM PIN min|max|sum HEX [U ..]: runs a program over the edges of all vertices, or of some, ascending",
    "home": "home V: where the last version keeps the targets of a vertex",
    "list": "list PROGRAM PIN HEX: all edges of a pin, each with the number that a program exits with",
    "column": "column NAME V [N ..]: sets the numbers of a column from a vertex on, and makes it if there is none",
    "values": "values NAME [U ..]: the numbers of a column at some vertices, or all that are not 0",
    "pull": "pull PROGRAM PIN min|max|sum HEX NAMES INTO [U ..]: a run with columns, as a,b or - for none; INTO is - for rows or a column",
    "push": "push PROGRAM PIN min|max|sum HEX NAMES INTO [U ..]: the same, but each edge's number goes to its target's in the column INTO",
    "each": "each PROGRAM PIN min|max|sum HEX NAMES INTO [U ..]: runs it for each vertex, as the pair of it with itself, and the column INTO gets the numbers",
    "rebase": "rebase: makes the last version's graph the base of a new epoch, and forgets the log",
}


class Complaint(Exception):
    """What is wrong with a line, and at which of its words, if it is one."""

    def __init__(self, text, place=None):
        super().__init__(text)
        self.place = place

    def shown(self, line):
        """The line with the word marked, and what is wrong with it."""
        spans = [match.span() for match in re.finditer(r"[^ \t]+", line)]
        if self.place is None or self.place >= len(spans):
            return str(self)
        first, end = spans[self.place]
        return f"{line}\n{' ' * first}{'^' * (end - first)} {self}"


def edits_below(vertices):
    """What lines of edits match, each with its end, whose vertices are below a number. It matches only what `check` lets pass."""
    digits = str(vertices)
    others = len(digits) - 1
    smaller = [
        f"{digits[:place]}[0-{int(digit) - 1}][0-9]{{{others - place}}}" for place, digit in enumerate(digits) if digit != "0"
    ]
    if not others:
        return _edits_of(smaller[0])
    # Numbers with fewer digits are tried first: the pattern takes half the time so where they are many.
    shorter = f"[0-9]{{1,{others}}}"
    return _edits_of(shorter, "|".join([*smaller, shorter]))


def _edits_of(*vertices):
    """What lines of edits match whose vertices both match one of the patterns."""
    return re.compile(f"(?:{'|'.join(f'[+-] (?:{vertex}) (?:{vertex}){chr(92)}n' for vertex in vertices)})*")


def number(words, place, what, least, most):
    """The number that a word is, within its limits."""
    if not decimals.is_number(words[place]):
        raise Complaint(f"{what} is a number in decimal digits", place)
    found = decimals.value(words[place])
    if not least <= found <= most:
        raise Complaint(f"{what} is {least} to {most}", place)
    return found


def name(words, place):
    if not NAME.fullmatch(words[place]):
        raise Complaint("a name is 1 to 32 of A-Z a-z 0-9 _ -", place)
    return words[place]


def digits(words, place):
    if not HEX.fullmatch(words[place]):
        raise Complaint("bytes are pairs of hexadecimal digits, or - for none", place)
    return 0 if words[place] == "-" else len(words[place]) // 2


def column(words, place):
    if words[place] == "-":
        raise Complaint("- names no column", place)
    return name(words, place)


def lent(words, place):
    """The names of columns in a word."""
    names = [] if words[place] == "-" else words[place].split(",")
    if not all(NAME.fullmatch(each) and each != "-" for each in names):
        raise Complaint("columns are names with a comma between two, or - for none", place)
    return names


@dataclass
class Language:
    """What was sent so far, as far as it decides what may be sent next."""

    vertices: int = None
    batches: int = 0
    epochs: int = 0
    programs: dict = field(default_factory=dict)
    pins: set = field(default_factory=set)
    columns: set = field(default_factory=set)
    block: list = None
    # How many lines the block has after its first one, and what edits match that may be taken many at a time.
    block_lines: int = 0
    edits: re.Pattern = None

    def check(self, line):
        """Complains of a line that would be a fault."""
        if len(line) > MOST_LINE_BYTES:
            raise Complaint(f"a line has at most {MOST_LINE_BYTES} bytes")
        if any(not (" " <= letter <= "~" or letter == "\t") for letter in line):
            raise Complaint("a line has only printable ASCII and tabs")
        words = line.split()
        if self.block is not None:
            self._check_in_block(words)
        elif words and not words[0].startswith("#"):
            self._check_command(words)

    def _check_in_block(self, words):
        is_batch, is_end = self.block[0].split()[0] == "batch", words == ["end"]
        if is_end:
            if is_batch and self.batches >= MOST_BATCHES:
                raise Complaint(f"the log is full: {MOST_BATCHES} batches are published")
        elif self.block_lines >= (MOST_EDITS if is_batch else MOST_PROGRAM_LINES):
            raise Complaint("the block is full; end it")
        elif is_batch:
            if len(words) != 3 or words[0] not in ("+", "-"):
                raise Complaint("a line of a batch is + U V, - U V or end", 0)
            for place in (1, 2):
                number(words, place, "a vertex", 0, self.vertices - 1)

    def _check_command(self, words):
        command = words[0]
        if command not in FORMS:
            raise Complaint("no command has this name; .help lists them", 0)
        counts = {"graph": 2, "batch": 2, "code": 4, "image": 3, "program": 3, "pin": 2, "home": 2, "list": 4, "rebase": 1}
        least = {"run": 5, "column": 3, "values": 2, "pull": 7, "push": 7, "each": 7}
        if len(words) != counts.get(command, len(words)) or len(words) < least.get(command, 0):
            raise Complaint(FORMS[command], 0)
        if (command == "graph") != (self.vertices is None):
            raise Complaint("there is a graph already" if command == "graph" else "make a graph first: graph N", 0)
        getattr(self, f"_check_{command}")(words)

    def _check_graph(self, words):
        number(words, 1, "the number of vertices", 1, SERVED_VERTICES)

    def _check_batch(self, words):
        if words[1] not in FEEDS:
            raise Complaint("a feed is A, B, C or D", 1)

    def _check_new_program(self, words):
        if words[1] in self.programs:
            raise Complaint("a program has this name", 1)
        if len(self.programs) >= MOST_KEPT:
            raise Complaint(f"{MOST_KEPT} programs are kept", 1)

    def _check_program(self, words):
        name(words, 1)
        if len(words) == 4:
            digits(words, 3)
        number(words, 2, "the length of a record", LEAST_RECORD_LENGTH, MOST_RECORD_LENGTH)
        self._check_new_program(words)

    _check_code = _check_program

    def _check_image(self, words):
        name(words, 1)
        digits(words, 2)
        self._check_new_program(words)

    def _check_pin(self, words):
        name(words, 1)
        if words[1] in self.pins:
            raise Complaint("a pin has this name", 1)
        if len(self.pins) >= MOST_KEPT:
            raise Complaint(f"there are {MOST_KEPT} pins", 1)

    def _check_rebase(self, words):
        if self.epochs >= SERVED_EPOCHS:
            raise Complaint(f"{SERVED_EPOCHS} epochs ended", 0)

    def _check_home(self, words):
        number(words, 1, "a vertex", 0, self.vertices - 1)

    def _check_argument(self, words, place, columns=0):
        """The names of a program and of a pin, and the argument at this place, beside so many columns."""
        length, rest = digits(words, place), EDGE_BYTES + COLUMN_BYTES * columns
        if words[1] not in self.programs:
            raise Complaint("no program has this name", 1)
        if words[2] not in self.pins:
            raise Complaint("no pin has this name", 2)
        if length + rest != self.programs[words[1]]:
            beside = f" with {columns} columns" if columns else ""
            raise Complaint(f"this program's argument has {self.programs[words[1]] - rest} bytes{beside}", place)

    def _check_list(self, words):
        self._check_argument(words, 3)

    def _check_frontier(self, words, first):
        frontier = [number(words, place, "a vertex", 0, self.vertices - 1) for place in range(first, len(words))]
        for place, (one, next_one) in enumerate(zip(frontier, frontier[1:])):
            if one >= next_one:
                raise Complaint("vertices ascend", place + first + 1)

    def _check_reducer(self, words):
        if words[3] not in ("min", "max", "sum"):
            raise Complaint("numbers are reduced by min, max or sum", 3)

    def _check_run(self, words):
        self._check_reducer(words)
        self._check_argument(words, 4)
        self._check_frontier(words, 5)

    def _check_known(self, names, place):
        for each in names:
            if each not in self.columns:
                raise Complaint(f"no column has the name {each}", place)

    def _check_column(self, words):
        column(words, 1)
        first = number(words, 2, "a vertex", 0, self.vertices - 1)
        for place in range(3, len(words)):
            if not decimals.is_number(words[place]):
                raise Complaint("a number is in decimal digits", place)
        if first + len(words) - 3 > self.vertices:
            raise Complaint(f"there are {self.vertices - first} vertices from there on", 2)
        if words[1] not in self.columns and len(self.columns) >= MOST_KEPT_COLUMNS:
            raise Complaint(f"there are {MOST_KEPT_COLUMNS} columns", 1)

    def _check_values(self, words):
        column(words, 1)
        self._check_known(words[1:2], 1)
        self._check_frontier(words, 2)

    def _check_lending(self, words):
        self._check_reducer(words)
        names = lent(words, 5)
        if words[0] != "pull" or words[6] != "-":
            self._check_known([column(words, 6)], 6)
        self._check_known(names, 5)
        if len(names) > MOST_COLUMNS:
            raise Complaint(f"a record has at most {MOST_COLUMNS} columns", 5)
        self._check_argument(words, 4, len(names))
        self._check_frontier(words, 7)

    _check_pull = _check_push = _check_each = _check_lending

    def take(self, line):
        """Takes note of a line that was looked at. Answers the lines that are to be sent now, once a block has ended."""
        words = line.split()
        if self.block is not None:
            self.block.append(line)
            self.block_lines += 1
            if words != ["end"]:
                return []
            lines, self.block = self.block, None
            return lines
        if words[:1] in (["batch"], ["program"]):
            self.block, self.block_lines = [line], 0
            return []
        return [line] if words and not words[0].startswith("#") else []

    def is_in_program(self):
        return self.block is not None and self.block[0].split()[0] == "program"

    def take_edits(self, text, start):
        """Takes as many lines as can be taken at once from a place of a text on, if a batch is open. Answers where they end, and how
        many they are."""
        room = MOST_EDITS - self.block_lines
        if self.block is None or self.is_in_program() or room <= 0:
            return start, 0
        end = self.edits.match(text, start).end()
        count = text.count("\n", start, end)
        if count == 0:
            return start, 0
        if count > room:
            end, count = end - len(text[start:end].split("\n", room)[room]), room
        self.block.append(text[start : end - 1])
        self.block_lines += count
        return end, count

    def heard(self, lines, reply):
        """Takes note of what was answered to lines that were sent."""
        words, said = lines[0].split(), reply.split()
        if words[0] == "graph":
            self.vertices = decimals.value(words[1])
            self.edits = edits_below(self.vertices)
        elif words[0] == "batch":
            self.batches += 1
        elif words[0] == "rebase":
            self.batches, self.epochs = 0, self.epochs + 1
        elif words[0] == "column":
            self.columns.add(words[1])
        elif words[0] == "pin":
            self.pins.add(words[1])
        elif words[0] in ("code", "program") and said[0] == "program":
            self.programs[words[1]] = decimals.value(words[2])
        elif words[0] == "image" and said[0] == "program":
            # The length of a record stands in the image, in two bytes from the fourth on.
            self.programs[words[1]] = int.from_bytes(bytes.fromhex(words[2][8:12]), "little")
