"""Random scripts. The same number always gives the same script."""
import random
import struct

from assembler import Fault, assemble
from limits import at_a_limit
from programs import Programs
from script import home_after
from verifier import Refused, judged

ODD_COMMANDS = ["rebase 1", "list t a -", "list t a", "list t a - 0", "list n1 n2 zz", "home", "home x", "home 99", "home 0 1", "batch E", "end", "graph 4", "foo"]
ODD_COMMANDS += ["batch", "pin", "pin a b", "code a 16", "run a", "pin a.b", "home 18446744073709551616", "  # a comment", "\t", "#end", "batch  B x"]
ODD_COMMANDS += ["\x7f", "a\r", "pin " + "x" * 33, "program p 15", "program p 257", "code p 16 0", "code p 16 -", "code p 16 95", "run n1 n2 avg -", "image p", "image p 4250453", "image p -", "image p 42504531100000"]
ODD_EDITS = ["- 0", "-0 0", "", "# c", "+ 0", "+ 0 0 0", "end x", "+ 0 99999999999999999999", "+ 00 000", "+ -1 0"]
MUTATIONS = b" \n\t#+-09afxzAZ[];:,.\r\x00\xff"


# How many targets a list is to have, so that it moves from home to home, and its edges are run in blocks of up to 64.
FEW = [0, 1, 7, 8, 9, 12, 13, 14, 40, 63, 64, 65, 128, 130, 200]
MANY = [0, 8, 9, 12, 13, 700, 767, 768, 769, 800, 1024, 1025, 1026, 1030]
# The numbers from here on are of scripts about hubs: all are of long lists, and most of their batches have one edit of one of these.
HUBS = 1_000_000_000
# Those from here on are of scripts whose programs all have functions, each program run over these edges.
CALLS = 2_000_000_000
# And those from here on are of scripts about columns.
COLUMNS = 3_000_000_000
ODD_LENDING = ["column - 0 1", "column c0", "column c0 x", "column c0 99999 1", "column c0 0 18446744073709551616 18446744073709551615", "column c0 18446744073709551616", "column a.b 0"]
ODD_LENDING += ["values", "values -", "values nothing", "values c0 1 0", "values c0 0 0", "values c0 99999", "push t a min - - -", "push t a min - - - 0", "pull t a min - c0,,c1 -", "pull t a min - ,c0 -"]
ODD_LENDING += ["pull t a min - c0,- -", "pull t a avg - - -", "pull t a min - -", "pull t a min 0 - -", "push t a sum - c0 nothing", "each t a sum - c0 -", "each t a - c0 c0", "column " + "x" * 32 + " 0 7", "column " + "x" * 33 + " 0 7"]
CALLS_EDGES = [(0, 1), (0, 2), (0, 15), (1, 0), (1, 3), (2, 2), (5, 7), *((6, target) for target in range(9))]
# A run of a program executes no more instructions than this, and all runs of a command no more than that.
LONG_RUN, LONG_COMMAND = 2_000, 100_000


class Writer:
    def __init__(self, number):
        self.number, self.random = number, random.Random(number)
        self.has_hubs, self.has_calls, self.has_columns = HUBS <= number < CALLS, CALLS <= number < COLUMNS, number >= COLUMNS
        self.columns = []
        self.writing = Programs(self.random)
        self.programs, self.pins, self.count = {}, {}, 0
        self.targets, self.homes = {}, {}

    def often(self, share):
        return self.random.random() < share

    def choice(self, values):
        return self.random.choice(values)

    def learn(self, name, length, code, table=b""):
        """Programs that are kept, by their record lengths and bounds."""
        if code and len(code) % 8 == 0 and len(code) <= 32768:
            verdict = judged(code, length, table)
            if not isinstance(verdict, Refused) and name not in self.programs and verdict[0] <= LONG_RUN:
                self.programs[name] = (length, verdict[0])

    def name(self):
        self.count += 1
        return f"n{self.count}" if self.often(0.995) else "n1"

    def vertex(self):
        return self.choice(self.pool)

    def image(self, name, length):
        """The bytes of an image, one in ten with a wrong byte in its front."""
        table = self.random.randbytes(self.choice([0, 1, 4, 16, 256, 300]))
        code = self.writing.code(length, table)
        counts = [length, len(code) // 8, *([len(table)] if table else [])]
        data = bytearray((b"BPE2" if table else b"BPE1") + struct.pack(f"<{len(counts)}H", *counts) + code + table)
        if self.often(0.1):
            data[self.random.randrange(10)] = self.random.randrange(256)
        else:
            self.learn(name, length, code, table)
        return bytes(data)

    def command(self):
        kind = self.choice(self.kinds)
        if self.often(0.005):
            return [self.choice(ODD_COMMANDS)]
        name, length = self.name(), self.choice([16, 16, 17, 20, 32, 256])
        if kind == "t":
            return self.text(name, length)
        if kind == "c":
            if self.often(0.3):
                return [f"image {name} {self.image(name, length).hex()}"]
            code = self.writing.code(length)
            self.learn(name, length, code)
            return [f"code {name} {length} {code.hex()}"]
        if kind == "p":
            self.pins[name] = {source: len(targets) for source, targets in self.targets.items()}
            return [f"pin {name}"]
        if kind in "rl" and self.programs and self.pins:
            return self.run() if kind == "r" else self.list_edges()
        if kind == "h":
            return [f"home {self.vertex()}"]
        if kind == "e":
            return ["rebase"]
        if self.has_hubs and self.often(0.7):
            return self.single_edits()
        if self.vertices > 12 and self.often(0.8 if self.is_big else 0.4):
            return self.burst()
        return self.batch([self.edit() for _ in range(self.random.randrange(9))])

    def text(self, name, length):
        lines = self.writing.text(length)
        try:
            self.learn(name, length, assemble("\n".join(lines)))
        except Fault:
            pass
        return [f"program {name} {length}", *lines, "end"]

    def edit(self):
        """An edge that comes or goes, which often is there."""
        source = self.vertex()
        there = self.targets.get(source)
        if there and self.often(0.4):
            return self.choice("---+"), source, self.choice(sorted(there))
        return self.choice("++++-"), source, self.vertex()

    def batch(self, edits):
        """The lines of a batch, which the graph is after."""
        for sign, source, target in edits:
            there = self.targets.setdefault(source, set())
            (there.add if sign == "+" else there.discard)(target)
        for source in {source for _, source, _ in edits}:
            self.homes[source] = home_after(self.homes.get(source, "block"), len(self.targets[source]))
        lines = [f"{sign} {source} {target}" for sign, source, target in edits]
        if self.often(0.01):
            lines.insert(self.random.randrange(len(lines) + 1), self.choice(ODD_EDITS))
        return [f"batch {self.choice('ABCD')}", *lines, "end"]

    def burst(self):
        """A batch by which some list has so many targets; some of its edges may come and go within it."""
        source = self.choice(self.hubs)
        there = self.targets.setdefault(source, set())
        wanted = self.choice([degree for degree in (MANY if self.is_big else FEW) if degree <= self.vertices])
        if wanted < len(there):
            edits = [("-", source, target) for target in self.random.sample(sorted(there), len(there) - wanted)]
        else:
            missing = self.random.sample(sorted(set(range(min(self.vertices, 5000))) - there), wanted - len(there))
            edits = [("+", source, target) for target in (sorted(missing) if self.often(0.5) else missing)]
        if edits and self.often(0.2):
            undone = [("-" if sign == "+" else "+", *edge) for sign, *edge in edits if self.often(0.3)]
            edits = undone + edits if self.often(0.5) else edits + undone
        if self.often(0.3):
            edits += [self.edit() for _ in range(3)]
        return [*self.batch(edits), f"home {source}"]

    def single_edits(self):
        """A few batches, each with one edit or a few of one vertex, which often say what is so."""
        source = self.choice(self.hubs)
        sign, lines = self.choice("+-"), []
        for _ in range(self.random.randrange(1, 7)):
            there = sorted(self.targets.get(source, ()))
            edits = []
            for _ in range(self.choice([1, 1, 1, 2, 5])):
                target = self.choice(there) if there and self.often(0.8 if sign == "-" else 0.1) else self.random.randrange(self.vertices)
                edits.append((sign if self.often(0.9) else self.choice("+-"), source, target))
            lines += self.batch(edits)
        return [*lines, f"home {source}"]

    def few_enough(self, program, degrees):
        """The vertices that a command may run over."""
        left, kept = LONG_COMMAND // self.programs[program][1], []
        for source, degree in sorted(degrees.items()):
            left -= degree
            if left >= 0:
                kept.append(source)
        return kept

    def argument(self, program):
        if self.often(0.01):
            return self.choice(["-", "00", "0g", "000", "- 0"])
        return self.random.randbytes(self.programs[program][0] - 16).hex() or "-"

    def run(self):
        program, pin = self.choice(sorted(self.programs)), self.choice(sorted(self.pins))
        degrees = {vertex: 0 for vertex in self.pool} | self.pins[pin]
        kept = self.few_enough(program, degrees)
        frontier = sorted(self.random.sample(kept, self.random.randrange(len(kept) + 1)))
        if self.often(0.01):
            frontier = [self.random.randrange(self.vertices + 1) for _ in range(3)]
        if not frontier or len(kept) == len(degrees) and self.often(0.3):
            frontier = [] if len(kept) == len(degrees) else kept[:1]
        words = ["run", program, pin, self.choice(["min", "max", "sum"]), self.argument(program), *map(str, frontier)]
        return [self.choice([" ", " ", " ", "  ", "\t"]).join(words)]

    def list_edges(self):
        program, pin = self.choice(sorted(self.programs)), self.choice(sorted(self.pins))
        if len(self.few_enough(program, self.pins[pin])) < len(self.pins[pin]):
            return []
        return [f"list {program} {pin} {self.argument(program)}"]

    def choose_graph(self):
        """How many vertices there are, and on which of them most happens."""
        self.is_big, self.kinds = self.often(0.02) or self.has_hubs, "tttccccppprrrrrllbbbbhe"
        if self.is_big:
            self.vertices, self.kinds = self.choice([1030, 1100, 1500]), "tccpprrlbbbbbbbbbhe"
        elif self.often(0.25):
            self.vertices = self.choice([13, 14, 256, 257, 300, 513, 1000, 5000] if self.often(0.98) else [65537, 1048576])
        else:
            self.vertices = self.choice([1, 2, 4, 5, 9, 20])
        self.pool = list(range(self.vertices))
        if self.vertices > 20:
            ends = [vertex for vertex in (0, 1, 255, 256, 511, 512, self.vertices - 1) if vertex < self.vertices]
            self.pool = sorted({*ends, *self.random.sample(self.pool, 12)})
        self.hubs = self.random.sample(self.pool, min(2 if self.is_big else 3, len(self.pool)))

    def spelled(self, line):
        """The same line, perhaps with other blanks, leading zeros or digits of the other case."""
        if self.often(0.97):
            return line
        words = line.split(" ")
        kind = self.random.randrange(3)
        if kind == 0:
            words = [f"000{word}" if word.isdigit() and place and words[0] != "code" else word for place, word in enumerate(words)]
        elif kind == 1 and words[0] in ("code", "list"):
            words[-1] = words[-1].upper()
        return self.choice(["", " ", "\t"]) + self.choice([" ", "  ", "\t "]).join(words) + self.choice(["", " ", "\t"])

    def script_of_calls(self):
        lines = ["graph 16", "batch A", *(f"+ {source} {target}" for source, target in CALLS_EDGES), "end", "pin a"]
        for place in range(150):
            name, length = f"p{place}", self.choice([16, 17, 20, 32, 256])
            code = b"".join(self.writing.chain() if self.often(0.03) else self.writing.with_functions(length))
            lines.append(f"code {name} {length} {code.hex()}")
            self.learn(name, length, code)
            if name in self.programs:
                argument = self.random.randbytes(length - 16).hex() or "-"
                lines.append(f"run {name} a {self.choice(['min', 'max', 'sum'])} {argument}")
        return "\n".join(lines).encode()

    def lending_program(self):
        """A program for records with columns: often it loads a number or two of these."""
        name, argument, columns = self.name(), self.choice([0, 0, 1, 4, 8]), self.choice([0, 1, 1, 2, 2, 3, 8, 9])
        length = 16 + argument + 16 * columns
        if self.often(0.3) or not columns:
            code = self.writing.code(length)
        else:
            places = [16 + argument + 8 * self.random.randrange(2 * columns) for _ in range(2)]
            lines = [f"ldxdw r0, [r1+{places[0]}]", f"ldxdw r2, [r1+{places[1]}]"]
            lines += self.choice([[], ["add r0, r2"], ["jgt r0, r2, x", "mov r0, r2", "x:"], ["ldxw r2, [r1+4]", "xor r0, r2"], [f"ldxh r0, [r1+{places[0] + 3}]"]])
            code = assemble("\n".join([*lines, "exit"]))
        self.learn(name, length, code)
        if name in self.programs:
            self.lending.setdefault(name, columns)
        return [f"code {name} {length} {code.hex()}"]

    def set_column(self):
        name = self.choice(self.columns) if len(self.columns) > 2 and self.often(0.9) else f"c{len(self.columns)}"
        if name not in self.columns:
            self.columns.append(name)
        first = self.random.randrange(self.vertices)
        if self.often(0.3):
            first = 0
        count = self.vertices - first if self.often(0.5) else self.random.randrange(self.vertices - first + 1)
        numbers = [self.choice([0, 1, 7, self.random.randrange(100), self.random.randrange(2**64), 2**64 - 1]) for _ in range(count)]
        return [" ".join(map(str, ["column", name, first, *numbers]))]

    def some_vertices(self):
        if self.often(0.4):
            return []
        return sorted(self.random.sample(range(self.vertices), self.random.randrange(min(self.vertices, self.choice([40, 40, 700])) + 1)))

    def lend(self):
        program, pin = self.choice(sorted(self.lending)), self.choice(sorted(self.pins))
        length, bound = self.programs[program]
        frontier, degrees = self.some_vertices(), self.pins[pin]
        if bound * max(len(frontier or range(self.vertices)), sum(degrees.get(source, 0) for source in frontier or degrees)) > LONG_COMMAND:
            return []
        count = self.lending[program] if self.often(0.97) else self.random.randrange(10)
        names = ",".join(self.choice(self.columns) for _ in range(count)) or "-"
        rest = length - 16 - 16 * self.lending[program]
        command, into = self.choice(["pull", "push", "each"]), self.choice(self.columns)
        if command == "pull" and self.often(0.4):
            into = "-"
        argument = self.random.randbytes(rest).hex() or "-"
        return [" ".join([command, program, pin, self.choice(["min", "max", "sum"]), argument, names, into, *map(str, frontier)])]

    def script_of_columns(self):
        """A graph, and mostly columns, pulls, pushes and maps of vertices."""
        self.vertices, self.lending = self.choice([1, 2, 4, 8, 20, 70, 130, 300, 700]), {}
        self.pool = list(range(self.vertices)) if self.vertices <= 20 else self.random.sample(range(self.vertices), 12)
        self.hubs, self.is_big = self.random.sample(self.pool, min(3, len(self.pool))), False
        lines = [f"graph {self.vertices}", *self.burst(), *self.lending_program(), f"pin n{self.count + 1}"]
        self.pins[self.name()] = {source: len(targets) for source, targets in self.targets.items()}
        for _ in range(self.random.randrange(40)):
            kind = self.choice("bbpcccccvvllllllllllw")
            if self.often(0.01):
                lines.append(self.choice(ODD_LENDING))
            elif kind == "b":
                lines += self.burst() if self.often(0.5) else self.batch([self.edit() for _ in range(self.random.randrange(9))])
            elif kind == "p":
                name = self.name()
                self.pins.setdefault(name, {source: len(targets) for source, targets in self.targets.items()})
                lines.append(f"pin {name}")
            elif kind == "w":
                lines += self.lending_program()
            elif kind == "c" or not self.columns:
                lines += self.set_column()
            elif kind == "v":
                lines.append(" ".join(map(str, ["values", self.choice(self.columns), *self.some_vertices()])))
            elif self.lending:
                lines += self.lend()
        lines += [f"values {name}" for name in self.columns]
        return "\n".join(map(self.spelled, lines)).encode()

    def script(self):
        if self.has_columns:
            return self.script_of_columns()
        if self.has_calls:
            return self.script_of_calls()
        self.choose_graph()
        if self.often(0.002):
            return at_a_limit(self.random)
        lines = [f"graph {self.vertices}"] if self.often(0.99) else [self.choice(["graph 0", "graph 1048577", "pin a"])]
        for _ in range(self.random.randrange(25 if self.is_big else 40)):
            command = self.command()
            lines += command if command[:1] and command[0].startswith("program") else map(self.spelled, command)
        script = bytearray("\n".join(lines + [""] * self.often(0.6)).encode())
        if self.often(0.2):
            place, byte = self.random.randrange(len(script)), self.choice(MUTATIONS)
            script[place : place + self.choice([0, 1])] = self.choice([b"", bytes([byte]), bytes([byte])])
        return bytes(script)
