"""The functions of tests/from_c: which are accepted at each level of optimization, and that they give the numbers of native code."""
import ctypes
import os
import pathlib
import random
import re
import struct
import subprocess
import tempfile
import unittest
from array import array

import random_c
from tools_here import MISSING, TOOLS

import sys

sys.path.insert(0, str(TOOLS.parent / "tests/second_implementation"))

from bpf import Graph, run  # noqa: E402
from verifier import OUT_OF_RANGE, Refused, judged  # noqa: E402

from edgebpf_tools import clang  # noqa: E402
from edgebpf_tools.compile_c import HEADERS  # noqa: E402
from edgebpf_tools.link import ObjectFile, link  # noqa: E402
from edgebpf_tools.refusal import Refusal  # noqa: E402

FOLDER = TOOLS.parent / "tests" / "from_c"
FILES = sorted(path for path in FOLDER.glob("*.c") if path.name != "native.c")
LEVELS = ["-O1", "-O2", "-O3", "-Os"]
NATIVE_FLAGS = ["-fwrapv", "-fno-strict-aliasing", "-ffreestanding", "-fPIC", "-shared", "-w"]
RECORDS = int(os.environ.get("FROM_C_RECORDS", "2"))
RANDOM_FUNCTIONS = int(os.environ.get("RANDOM_FUNCTIONS", "150"))
VERTICES = 90
MOST = 2**64 - 1
# A vertex with more neighbours than 16 times 1,024, and what the header's loops over them give.
HUB = 17_000
MOST_NEIGHBOURS = 65_536
LOOPS = """#include <edgebpf.h>
for_each_neighbour(of_each, word, total, unused) { return total + word; }
for_1024_neighbours(of_1024, word, total, unused) { return total + word; }
for_64_neighbours(of_64, word, total, unused) { return total + word; }
for_1024_neighbours_or(or_1024, 7000 + given, word, total, given) { return total + word; }
for_64_neighbours_or(or_64, 7000 + given, word, total, given) { return total + word; }
for_each_neighbour_until(of_65, limit, word, total, limit) { return total + 1; }
u64 each(struct edge *edge, u64 length) { return of_each(edge->source, 0, 0); }
u64 thousand(struct edge *edge, u64 length) { return of_1024(edge->source, 0, 0); }
u64 few(struct edge *edge, u64 length) { return of_64(edge->source, 0, 0); }
u64 thousand_or(struct edge *edge, u64 length) { return or_1024(edge->source, 0, 9); }
u64 few_or(struct edge *edge, u64 length) { return or_64(edge->source, 0, 9); }
u64 until_64(struct edge *edge, u64 length) { return of_65(edge->source, 0, 64); }
u64 until_65(struct edge *edge, u64 length) { return of_65(edge->source, 0, 65); }
u64 common(struct edge *edge, u64 length) { return common_neighbours(edge->source, edge->target); }
"""
LOOP_NUMBERS = {"each": HUB * (HUB - 1) // 2, "thousand": 1024 * 1023 // 2, "few": 64 * 63 // 2, "thousand_or": 7009, "few_or": 7009, "until_64": 64, "until_65": 128}


def hashed(number):
    for _ in range(2):
        number = (number ^ number >> 32) * 0xD6E8FEB86659FD93 & MOST
    return number ^ number >> 32


# What functions give that are little more than one of the header's, which both sides compile: of source, target, numbers of 64 bits, and argument.
BY_HAND = {
    "saturated_sum": lambda source, target, words, argument: min(words[0] + words[1], MOST),
    "saturated_difference": lambda source, target, words, argument: max(target - source, 0),
    "saturated_product": lambda source, target, words, argument: min(words[0] * target, MOST),
    "trailing_zeros": lambda source, target, words, argument: (target & -target).bit_length() - 1 if target else 32,
    "index_at_most": lambda source, target, words, argument: argument[min(target, 15)],
    "hash_of_target": lambda source, target, words, argument: hashed(target),
    "hash_of_edge": lambda source, target, words, argument: hashed(hashed(source + 0x9E3779B97F4A7C15 & MOST) ^ target),
}


class OneGraph:
    """A graph for both: a hub, a vertex with more than 64 neighbours, some with a few, some with none."""

    def __init__(self):
        chance = random.Random(5)
        self.lists = {}
        for vertex in range(VERTICES):
            count = 80 if vertex == 0 else 70 if vertex == 7 else 0 if vertex % 9 == 4 else chance.choice([1, 2, 3, 5, 8, 12, 20])
            self.lists[vertex] = sorted(chance.sample(range(VERTICES), count))
        self.edges = [(source, target, place) for source, all_of in self.lists.items() for place, target in enumerate(all_of)]
        self.graph = Graph(VERTICES, self.lists, len(self.edges))
        self.targets = array("I", [target for all_of in self.lists.values() for target in all_of])
        self.starts = array("I", [0])
        for all_of in self.lists.values():
            self.starts.append(self.starts[-1] + len(all_of))

    def hand_to(self, library):
        """Makes the helpers of the native code ask this graph."""
        pointers = [ctypes.cast(words.buffer_info()[0], ctypes.c_void_p) for words in (self.starts, self.targets)]
        library.set_graph(ctypes.c_uint64(VERTICES), *pointers)

    def records(self, length, seed):
        """Records of some edges with a random argument, and some with an argument of small numbers."""
        chance = random.Random(seed)
        for place in range(RECORDS):
            source, target, index = chance.choice(self.edges)
            words = array("I", [source, target, index, len(self.lists[source])]).tobytes()
            argument = chance.randbytes(length - 16) if place % 2 else bytes(chance.choice([0, 1, 2, 5, 8]) for _ in range(length - 16))
            yield words + argument


def native_library(folder, level, files=FILES):
    """All functions of some files as one native library."""
    path = f"{folder}/{files[0].stem}{level}.so"
    command = [clang.newest("clang"), level, *NATIVE_FLAGS, f"-I{HEADERS}", *map(str, files), str(FOLDER / "native.c"), "-o", path]
    subprocess.run(command, check=True)
    return ctypes.CDLL(path)


def native_number(library, name, record):
    function = getattr(library, name)
    function.restype, function.argtypes = ctypes.c_uint64, [ctypes.c_void_p, ctypes.c_uint64]
    # The record stands alone, so that a write past its end is not one into another.
    room = ctypes.create_string_buffer(record, len(record))
    return function(ctypes.addressof(room), len(record))


def objects_of(path, folder, level=clang.OPTIMIZATION, has_opaque_indices=False):
    made = f"{folder}/{path.stem}{level}.o"
    clang.compile_to_bpf(str(path), made, [HEADERS], level, has_opaque_indices)
    return ObjectFile(made)


def expected_refusals(text):
    """The words of each refusal, by the function."""
    return {name: words for words, name in re.findall(r"^// refused: (.*)\nu64 (\w+)\(", text, re.M)}


@unittest.skipIf(MISSING, f"not there: {MISSING}")
class FromC(unittest.TestCase):
    @classmethod
    def setUpClass(cls):
        cls.folder = tempfile.TemporaryDirectory()
        cls.graph = OneGraph()

    @classmethod
    def tearDownClass(cls):
        cls.folder.cleanup()

    def test_numbers_of_native_code(self):
        for level in LEVELS:
            library = native_library(self.folder.name, level)
            self.graph.hand_to(library)
            accepted = refused = 0
            for path in FILES:
                text = path.read_text()
                length, refusals = int(re.match(r"// Records of ([0-9]+) bytes\.", text)[1]), expected_refusals(text)
                objects = objects_of(path, self.folder.name, level)
                for function in objects.functions:
                    if function.is_static:
                        continue
                    with self.subTest(level=level, function=function.name):
                        if function.name in refusals:
                            refused += 1
                            self.refused(objects, function, length, path, refusals[function.name])
                        else:
                            accepted += 1
                            self.equal(link(objects, function, length), length, library, function.name)
            self.assertGreaterEqual(accepted, 200)
            # 190 of 200 are to be accepted.
            self.assertLessEqual(20 * refused, accepted + refused)

    def test_loops_over_a_hub(self):
        path = pathlib.Path(self.folder.name) / "loops.c"
        path.write_text(LOOPS)
        objects, hub = objects_of(path, self.folder.name), Graph(HUB, {0: list(range(HUB))}, HUB)
        record = struct.pack("<4I", 0, 1, 1, HUB)
        programs = {function.name: link(objects, function, 16) for function in objects.functions if function.name in LOOP_NUMBERS}
        numbers = {name: run(program.code, record, hub, judged(program.code, 16)[0]) for name, program in programs.items()}
        self.assertEqual(numbers, LOOP_NUMBERS)

    def test_loops_that_drop_no_neighbour(self):
        """Up to the last vertex with so many neighbours their sum is answered, and from the first that has more another number."""
        path = pathlib.Path(self.folder.name) / "others.c"
        path.write_text(LOOPS)
        objects = objects_of(path, self.folder.name)
        for name, most in (("thousand_or", 1024), ("few_or", 64)):
            program = link(objects, next(function for function in objects.functions if function.name == name), 16)
            bound = judged(program.code, 16)[0]
            for many, wanted in ((0, 0), (1, 0), (most - 1, (most - 1) * (most - 2) // 2), (most, most * (most - 1) // 2), (most + 1, 7009)):
                graph = Graph(most + 2, {0: list(range(many))}, many)
                self.assertEqual(run(program.code, struct.pack("<4I", 0, 1, 0, many), graph, bound), wanted, (name, many))

    def test_common_neighbours_of_a_vertex_with_too_many(self):
        """Only the first MOST_NEIGHBOURS of a vertex are asked for, so the one with fewer is. The only word they share is the other's last."""
        path = pathlib.Path(self.folder.name) / "common.c"
        path.write_text(LOOPS)
        last = MOST_NEIGHBOURS + 2
        graph = Graph(last + 1, {0: list(range(1, last + 1)), 1: [last]}, last + 1)
        objects = objects_of(path, self.folder.name)
        program = link(objects, next(function for function in objects.functions if function.name == "common"), 16)
        for source, target in ((0, 1), (1, 0)):
            record = struct.pack("<4I", source, target, 1, 2)
            self.assertEqual(run(program.code, record, graph, judged(program.code, 16)[0]), 1, source)

    def test_beside_other_headers(self):
        """A function can be tested natively in one file with the library's header and that of the C library."""
        path = pathlib.Path(self.folder.name) / "native.c"
        path.write_text(
            f'#include <string.h>\n#include "{HEADERS}/edgebpf.h"\n#include "{HEADERS.parent}/bindings/c/edgebpf.h"\n'
            "u64 degree(u64 vertex) { return vertex; }\nu64 gather(u64 vertex, u64 place, void *words, u64 bytes)\n"
            "{ (void)vertex; (void)place; (void)words; (void)bytes; return 0; }\n"
            "int main(void) { edgebpf_version version = {{0}}; (void)version; return (int)jaccard(0, 0, 100); }\n",
        )
        made = pathlib.Path(self.folder.name) / "native"
        subprocess.run([clang.newest("clang"), "-O2", "-o", made, path], check=True)
        self.assertEqual(subprocess.run([made]).returncode, 0)

    def test_random_functions(self):
        """Each is accepted as it is or with opaque indices, as `edgebpf-c` compiles what is refused; what is refused first is so at a line and
        for an index of which too little is known. Both ways give the numbers of native code."""
        path = pathlib.Path(self.folder.name) / "random.c"
        path.write_text(random_c.source(0, RANDOM_FUNCTIONS))
        library = native_library(self.folder.name, "-O1", [path])
        self.graph.hand_to(library)
        accepted = set()
        for has_opaque_indices in (False, True):
            objects = objects_of(path, self.folder.name, has_opaque_indices=has_opaque_indices)
            for function in objects.functions:
                if function.is_static:
                    continue
                with self.subTest(function=function.name, has_opaque_indices=has_opaque_indices):
                    program = link(objects, function, random_c.LENGTH)
                    verdict = judged(program.code, random_c.LENGTH)
                    if isinstance(verdict, Refused):
                        self.assertEqual(verdict.cause, OUT_OF_RANGE)
                        self.assertIsNotNone(objects.line(*program.places[verdict.pc]))
                    else:
                        accepted.add(function.name)
                        self.equal(program, random_c.LENGTH, library, function.name)
        self.assertEqual(accepted, {f"random_{number}" for number in range(RANDOM_FUNCTIONS)})

    def refused(self, objects, function, length, path, words):
        if words.startswith("cause "):
            program = link(objects, function, length)
            verdict = judged(program.code, length)
            self.assertEqual(f"cause {verdict.cause}", words)
            self.assertRegex(objects.place(*program.places[verdict.pc]), rf"^{re.escape(str(path))}:[0-9]+: ")
            return
        with self.assertRaises(Refusal) as told:
            link(objects, function, length)
        self.assertRegex(str(told.exception), rf"^{re.escape(str(path))}:[0-9]+: .*{words}")

    def equal(self, program, length, library, name):
        verdict = judged(program.code, length)
        self.assertNotIsInstance(verdict, Refused, f"{name}: {verdict}")
        for record in self.graph.records(length, name):
            number = run(program.code, record, self.graph.graph, verdict[0])
            for one in (record, record[:16].ljust(length, b"\0")) if name in BY_HAND else ():
                source, target = struct.unpack_from("<2I", one)
                wanted = BY_HAND[name](source, target, struct.unpack_from("<2Q", one[16:].ljust(16)), one[16:])
                self.assertEqual(run(program.code, one, self.graph.graph, verdict[0]), wanted, f"{name} of {one.hex()}")
            self.assertEqual(number, native_number(library, name, record), f"{name} of {record.hex()}")


if __name__ == "__main__":
    unittest.main()
