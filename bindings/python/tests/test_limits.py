"""The limits of docs/LIMITS.md in Python: at each the call is done, and one past it raises what the page says. The numbers are those of the crates."""
import importlib.util
import os
import pathlib
import sys
import unittest

import numpy as np

HERE = pathlib.Path(__file__).resolve()
TOP = HERE.parent.parent.parent.parent
sys.path[:0] = [str(HERE.parent.parent), str(TOP / "tools/dev"), str(TOP / "tools/tests")]

import edgebpf  # noqa: E402
import edgebpf.limits  # noqa: E402
import write_limits  # noqa: E402
from limit_scripts import NEXT, lines_of  # noqa: E402

MOVE, EXIT = bytes.fromhex("b700000000000000"), bytes.fromhex("9500000000000000")
HAS_LIBRARY = importlib.util.find_spec("cffi") is not None
HAS_PROGRAM = os.access(os.environ.get("EDGEBPF", ""), os.X_OK)


def code(units):
    return MOVE * (units - 1) + EXIT


def run_with(columns=0, argument=0):
    """A run with some columns, or with an argument of so many bytes, if the longest record has no room for more."""
    with edgebpf.Store(vertices=2) as store:
        store.batch("A", ([0], [1]))
        record = min(16 + argument + 16 * columns, 256)
        program = edgebpf.Program(MOVE + EXIT, record)
        store.pin().run(program, argument=bytes(argument), columns=[np.ones(2, np.uint64)] * columns)


def batches(count):
    with edgebpf.Store(vertices=1) as store:
        for _ in range(count):
            store.batch("A")


def one_batch(edits=0, feed="A"):
    with edgebpf.Store(vertices=1) as store:
        store.batch(feed, ([0] * edits, [0] * edits))


def served(vertices=1, workers=1, rebases=0, pins=0, programs=0):
    """A store in a process of its own of which as much is asked."""
    with edgebpf.connect(vertices, workers=workers) as store:
        for _ in range(rebases):
            store.rebase()
        kept = [(store.batch("A", ([0], [0])), store.pin()) for _ in range(pins)]
        version = store.pin()
        for number in range(programs):
            version.run(edgebpf.assemble([f"mov r0, {number}", "exit"]))
        return kept


# For each limit that Python meets, by its constant: calls with a number of what is limited, one for each way to meet it.
CALLS = {
    "past_model::MOST_VERTICES": [lambda most: edgebpf.Store(vertices=most).close()],
    "past_model::MOST_EDITS": [lambda most: one_batch(edits=most)],
    "past_model::MOST_BATCHES": [batches],
    "past_model::FEEDS": [lambda most: one_batch(feed="ABCDE"[most - 1])],
    "bpf_isa::MOST_UNITS": [lambda most: edgebpf.Program(code(most)), lambda most: edgebpf.assemble(lines_of("bpf_isa::MOST_UNITS", most))],
    "bpf_image::LEAST_RECORD_LENGTH": [lambda least: edgebpf.Program(code(2), least)],
    "bpf_image::MOST_RECORD_LENGTH": [lambda most: edgebpf.Program(code(2), most)],
    "bpf_blocks::MOST_ARGUMENT": [lambda most: run_with(argument=most)],
    "bpf_image::MOST_TABLE_LENGTH": [lambda most: edgebpf.Program(code(2), table=bytes(most))],
    "map_model::MOST_COLUMNS": [lambda most: run_with(columns=most)],
    "bpf_asm::MOST_NAME_BYTES": [lambda most: edgebpf.assemble(lines_of("bpf_asm::MOST_NAME_BYTES", most))],
}
CALLS |= {key: [lambda most, key=key: edgebpf.assemble(lines_of(key, most))] for key, met in write_limits.MET.items() if met.python == "`Refused`"}
SERVED = {
    "past_model::SERVED_VERTICES": [lambda most: served(most)],
    "past_model::SERVED_EPOCHS": [lambda most: served(rebases=most)],
    "session_model::MOST_KEPT": [lambda most: served(pins=most), lambda most: served(programs=most)],
    "workers::MOST_WORKERS": [lambda most: served(workers=most)],
}
# A store of the most vertices takes 1.9 GB, and nobody makes as many rebases in process.
NOT_MADE, NOT_MET = {"past_model::MOST_VERTICES"}, {"past_model::MOST_EPOCHS"}


class Limits(unittest.TestCase):
    def test_each_is_tried(self):
        self.assertEqual({*CALLS, *SERVED, *NOT_MET}, {key for key, met in write_limits.MET.items() if met.python})

    def is_so(self, calls):
        for key, ways in calls.items():
            most, wanted = write_limits.of_key(key).value, write_limits.MET[key].python.split("; ")
            past = NEXT.get(key, lambda number: number + 1)(most)
            for place, call in enumerate(ways):
                name = wanted[min(place, len(wanted) - 1)].split("`")[1]
                with self.subTest(key, place=place):
                    if key not in NOT_MADE:
                        call(most)
                    with self.assertRaises(getattr(edgebpf, name, ValueError)) as caught:
                        call(past)
                    self.assertEqual(type(caught.exception).__name__, name)

    @unittest.skipUnless(HAS_LIBRARY, "there is no cffi")
    def test_in_process(self):
        self.is_so(CALLS)

    @unittest.skipUnless(HAS_PROGRAM and HAS_LIBRARY, "EDGEBPF names no program, or there is no cffi")
    def test_of_connect(self):
        self.is_so(SERVED)

    def test_constants(self):
        """The module of the package, which a wheel has, has the numbers of the crates."""
        known = write_limits.by_name((*write_limits.MET, *write_limits.ALSO))
        self.assertEqual({name: number for name, number in vars(edgebpf.limits).items() if name.isupper()}, known)


if __name__ == "__main__":
    unittest.main()
