#!/usr/bin/env python3
"""Compares random functions in C, compiled by clang at each level and run by the built program, with the same functions as native code.
See README.md, and --help."""
import argparse
import ctypes
import os
import pathlib
import random
import sys
import tempfile
from collections import Counter
from concurrent.futures import ProcessPoolExecutor
from functools import partial

ROOT = pathlib.Path(__file__).resolve().parent.parent.parent
sys.path[:0] = [str(ROOT / "tools/tests"), str(ROOT / "tests/second_implementation"), str(ROOT / "bindings/python")]

import random_c  # noqa: E402
from test_from_c import LEVELS, MOST, OneGraph, VERTICES, link, native_library, objects_of  # noqa: E402
from serving import served  # noqa: E402
from verifier import Refused, judged  # noqa: E402

PROGRAM = ROOT / "crates/edgebpf/out/edgebpf"
# How many functions one file of C has. A script keeps no more than 256 programs.
PIECE = 20
TABLE = 64
ARGUMENTS = 2
SECONDS = 600


class WithTable(random_c.RandomFunction):
    """A random function that also reads a table, which is its third parameter."""

    def leaf(self):
        if self.random.random() < 0.8:
            return super().leaf()
        index = f"(edge->{self.choice(['source', 'target', 'place'])} + {self.random.randrange(9)})"
        forms = [f"table[{index} & {TABLE - 1}]", f"((const u16 *)table)[{index} % 23]", f"((const u32 *)table)[{index} & {TABLE // 4 - 1}]"]
        return f"(u64){self.choice(forms)}"

    def text(self):
        return super().text().replace(f"u64 {self.name}(struct edge *edge, u64 length)", f"u64 {self.name}(struct edge *edge, u64 length, const u8 *table)")


def has_table(number):
    return number % 3 == 0


def source_of(numbers):
    return "#include <edgebpf.h>\n" + "".join((WithTable if has_table(number) else random_c.RandomFunction)(number).text() for number in numbers)


def drawn_column(choice):
    """A number for each vertex: small ones, and any."""
    return [choice.choice([choice.randrange(9), choice.getrandbits(64)]) for _ in range(VERTICES)]


class Piece:
    """Some functions, and what each gives over the graph."""

    def __init__(self, numbers, folder):
        self.numbers, self.folder, self.graph = numbers, folder, OneGraph()
        self.path = pathlib.Path(folder) / "functions.c"
        self.path.write_text(source_of(numbers))
        choice = random.Random(f"functions {numbers[0]}")
        self.tables = {number: choice.randbytes(TABLE) if has_table(number) else b"" for number in numbers}
        self.arguments = {}
        for number in numbers:
            small = bytes(choice.choice([0, 1, 2, 5, 8]) for _ in range(random_c.ARGUMENT))
            self.arguments[number] = [small, *(choice.randbytes(random_c.ARGUMENT) for _ in range(ARGUMENTS - 1))]
        # Another level than those that are compared.
        self.library = native_library(folder, "-O0", [self.path])
        self.graph.hand_to(self.library)
        self.columns = {number: drawn_column(choice) for number in numbers}
        self.answers = {}

    def answer(self, number, argument):
        """The numbers of native code over all edges."""
        if (number, argument) not in self.answers:
            self.answers[number, argument] = self.over_edges(number, lambda source, target: argument)
        return self.answers[number, argument]

    def answer_of_column(self, number):
        """The same with the column's two numbers for an edge in place of the argument, which is as long."""
        if number not in self.answers:
            column = self.columns[number]
            self.answers[number] = self.over_edges(number, lambda *ends: b"".join(column[end].to_bytes(8, "little") for end in ends))
        return self.answers[number]

    def over_edges(self, number, rest):
        """The numbers of native code over all edges, whose records end with what `rest` gives for an edge's ends."""
        function = getattr(self.library, f"random_{number}")
        function.restype, function.argtypes = ctypes.c_uint64, [ctypes.c_void_p, ctypes.c_uint64, ctypes.c_char_p]
        found = []
        for source, target, place in self.graph.edges:
            words = b"".join(word.to_bytes(4, "little") for word in (source, target, place, len(self.graph.lists[source])))
            record = words + rest(source, target)
            room = ctypes.create_string_buffer(record, len(record))
            found.append(function(ctypes.addressof(room), len(record), self.tables[number]))
        return found

    def programs(self, level, counts):
        """The code of each function: as it is, or with opaque indices if it is refused so."""
        refused = set(self.numbers)
        for has_opaque_indices in (False, True):
            if not refused:
                return
            objects = objects_of(self.path, self.folder, level, has_opaque_indices)
            by_name = {function.name: function for function in objects.functions}
            for number in sorted(refused):
                code = link(objects, by_name[f"random_{number}"], random_c.LENGTH).code
                verdict = judged(code, random_c.LENGTH, self.tables[number])
                if isinstance(verdict, Refused):
                    counts[f"{level}: refused {'with opaque indices' if has_opaque_indices else 'as it is'}"] += 1
                else:
                    refused.remove(number)
                    counts[f"{level}: accepted"] += 1
                    counts.update(f"accepted that {note}" for note in verdict[2])
                yield f"p{number}{'o' if has_opaque_indices else ''}", number, code, verdict


def hex_line(name, code, table):
    if not table:
        return f"code {name} {random_c.LENGTH} {code.hex()}"
    counts = b"".join(count.to_bytes(2, "little") for count in (random_c.LENGTH, len(code) // 8, len(table)))
    return f"image {name} {(b'BPE2' + counts + code + table).hex()}"


def script_of(piece, level, counts):
    """The lines of a script that runs the functions, and those that it has to write."""
    edges = piece.graph.edges
    lines = [f"graph {VERTICES}", "batch A", *(f"+ {source} {target}" for source, target, _ in edges), "end", "pin a"]
    wanted = [f"graph {VERTICES}", f"batch A version 1 added {len(edges)} removed 0", f"pin a version 1 edges {len(edges)}"]
    for name, number, code, verdict in piece.programs(level, counts):
        lines.append(hex_line(name, code, piece.tables[number]))
        if isinstance(verdict, Refused):
            wanted.append(f"refused {name} cause {verdict.cause} pc {verdict.pc}")
            continue
        wanted.append(f"program {name} bound {verdict[0]} frames {verdict[1]}")
        for argument in piece.arguments[number]:
            answer = piece.answer(number, argument)
            lines += [f"list {name} a {argument.hex()}", f"run {name} a sum {argument.hex()}"]
            wanted.append(f"list {name} a edges {len(edges)}")
            wanted += [f"edge {source} {target} {value}" for (source, target, _), value in zip(edges, answer)]
            wanted.append(f"run {name} a edges {len(edges)} total {sum(answer) & MOST}")
            rows = {}
            for (source, _, _), value in zip(edges, answer):
                rows[source] = rows.get(source, 0) + value & MOST
            wanted += [f"row {source} {value}" for source, value in rows.items()]
            counts["numbers compared"] += len(answer)
    return lines, wanted


def compare_columns(piece, level, counts):
    """Runs the functions with a column by the Python package: numbers, a run and a push, beside native code."""
    import edgebpf
    import numpy
    store = edgebpf.Store(VERTICES)
    store.batch("A", edges=[(source, target) for source, target, _ in piece.graph.edges])
    version = store.pin()
    for name, number, code, verdict in piece.programs(level, counts):
        if isinstance(verdict, Refused):
            continue
        program = edgebpf.Program(code, random_c.LENGTH, piece.tables[number])
        lent, wanted = {"columns": [numpy.array(piece.columns[number], numpy.uint64)]}, piece.answer_of_column(number)
        rows, gone = [0] * VERTICES, [0] * VERTICES
        for (source, target, _), value in zip(piece.graph.edges, wanted):
            rows[source] = rows[source] + value & MOST
            gone[target] = gone[target] + value & MOST
        run = version.run(program, "sum", **lent)
        into = numpy.zeros(VERTICES, numpy.uint64)
        version.push(program, "sum", into=into, **lent)
        found = version.numbers(program, **lent).tolist(), run.values.tolist(), into.tolist()
        counts["numbers compared"] += len(wanted)
        if found != (wanted, rows, gone):
            counts["different"] += 1
            print(f"functions from {piece.numbers[0]}, {level}, {name} with a column: other numbers", flush=True)


def compared(program, has_columns, numbers):
    """What was counted of some functions; it tells where a script is served otherwise, or numbers with a column are others."""
    counts = Counter()
    with tempfile.TemporaryDirectory() as folder:
        piece = Piece(numbers, folder)
        for level in LEVELS:
            if has_columns:
                compare_columns(piece, level, counts)
                continue
            lines, wanted = script_of(piece, level, counts)
            ended = served(program, 2, "".join(f"{line}\n" for line in lines).encode(), SECONDS)
            text = "".join(f"{line}\n" for line in wanted)
            if ended != (text.encode(), 0, b""):
                counts["different"] += 1
                found = ended[0].decode(errors="replace").splitlines() if ended else []
                place = next((place for place, pair in enumerate(zip(wanted, found)) if pair[0] != pair[1]), min(len(wanted), len(found)))
                of = [line for line in wanted[: place + 1] if not line.startswith(("edge", "row"))][-1]
                print(f"functions from {numbers[0]}, {level}, {of}: wanted {wanted[place : place + 1]}, found {found[place : place + 1]}", flush=True)
    counts["functions"] += len(numbers)
    return counts


def arguments():
    words = argparse.ArgumentParser(description="Compares random functions in C by the built program with native code, at each level of optimization.")
    words.add_argument("--count", type=int, default=200, help="how many functions (200)")
    words.add_argument("--from", type=int, default=0, dest="first", help="the number of the first one (0)")
    words.add_argument("--processes", type=int, default=os.cpu_count(), help="how many processes work side by side (as many as cores)")
    words.add_argument("--program", type=pathlib.Path, default=PROGRAM, help="the program that runs them")
    words.add_argument("--columns", action="store_true", help="by the Python package, with a column in place of the argument")
    return words.parse_args()


def main():
    said = arguments()
    if not said.columns and not said.program.exists():
        sys.exit(f"random_functions.py: {said.program} is not there: build it by tools/prove edgebpf, or name another by --program")
    last = said.first + said.count
    pieces = [range(start, min(start + PIECE, last)) for start in range(said.first, last, PIECE)]
    counts = Counter()
    with ProcessPoolExecutor(said.processes) as pool:
        for done, found in enumerate(pool.map(partial(compared, said.program, said.columns), pieces), 1):
            counts += found
            print(f"{done} of {len(pieces)} pieces, {counts['different']} scripts with another output", flush=True)
    for kind, times in sorted(counts.items()):
        print(f"{kind}: {times}")
    sys.exit(1 if counts["different"] else 0)


if __name__ == "__main__":
    main()
