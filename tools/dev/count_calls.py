#!/usr/bin/env python3
"""Counts by callgrind what calls of the homes of lists cost, and a pin, in a program that is proved: count_calls.py [PROGRAM] [--write]

The program is made of calls.rattle where it is not there yet, by `rt ci` in a copy of the crates that it uses: minutes. A count is
the difference of two runs for each call or word, so it includes the loop that calls. With --write the counts of the homes go into docs/figures/homes.txt.
"""
import argparse
import pathlib
import shutil
import subprocess
import sys
import tempfile

TOP = pathlib.Path(__file__).resolve().parent.parent.parent
sys.path.insert(0, str(TOP / "tests"))

import figures  # noqa: E402
from building import copy_crates  # noqa: E402
from count_hubs import instructions  # noqa: E402

USED = ["gapped_array", "neighbour_btree", "store", "word_sets"]
# A row of the table: what is counted, how the cell says it, and for each figure the words of the run without it and of the run with it, and how many calls
# or words that is.
ROWS = [
    ("`GappedArray`: an edit at 200 words a vertex, 256 vertices, words put in and taken out in turn", "{}", ("turns 51200 0", "turns 51200 102400", 204_800)),
    ("`insert` up to there, and `remove` back", "{} and {}", ("array 0 0", "array 51200 0", 51_200), ("array 51200 0", "array 51200 51200", 51_200)),
    ("50,000 `insert`, then 50,000 `remove`, over 256 vertices", "{} an edit", ("array 0 0", "array 50000 50000", 100_000)),
    ("`NeighbourTree::with` and `without`, up to 5,000 words and back", "{mean} an edit: {} and {}",
     ("replaced 0 0", "replaced 5000 0", 5_000), ("replaced 5000 0", "replaced 5000 5000", 5_000)),
    ("`insert` and `remove` in a tree of one owner, up to 5,000 words and back", "{} and {}",
     ("owned 0 0", "owned 5000 0", 5_000), ("owned 5000 0", "owned 5000 5000", 5_000)),
    ("the same, up to 200,000", "{} and {}", ("owned 0 0", "owned 200000 0", 200_000), ("owned 200000 0", "owned 200000 200000", 200_000)),
    ("`insert`, up to 200,000 words, with a `share` kept every 1,000", "{}", ("shared 0 0", "shared 200000 0", 200_000)),
    ("`of`, a word of 5,000, and of 200,000", "{} and {}", ("of 5000 1", "of 5000 11", 50_000), ("of 200000 1", "of 200000 3", 400_000)),
    ("all slices of a tree made at once, summed, a word of 5,000, and of 200,000", "{} and {}",
     ("made 5000 1", "made 5000 11", 50_000), ("made 200000 1", "made 200000 3", 400_000)),
    ("all slices of a tree that grew to 200,000 words, summed", "{}", ("grown 200000 1", "grown 200000 3", 400_000)),
]
# It is no row, and printed alone.
PIN = ("a pin, and its drop", "{}", ("pins 0", "pins 10000", 10_000))


def build(program):
    """Proves and builds the program in a copy of its crates, without their wrong bodies."""
    with tempfile.TemporaryDirectory() as name:
        copy = pathlib.Path(name) / "copy"
        copy_crates(copy, TOP / "tools/dev/calls.rattle", USED)
        for edits in copy.glob("crates/*/must-fail"):
            shutil.rmtree(edits)
        # What it allows is part of what a proof is kept by.
        shutil.copy(TOP / "HANDLES", copy)
        subprocess.run(["rt", "ci"], cwd=copy, check=True)
        shutil.copy(copy / "crates/driver/out/driver", program)


def shown(number):
    return f"{number:.1f}" if number < 10 else f"{number:,.0f}"


def count_calls(program):
    """The rows with their cells, which are printed as they come, and after them what a pin costs."""
    counts, rows = {}, {}
    for what, form, *runs in (*ROWS, PIN):
        for words in (words for *both, _ in runs for words in both):
            counts[words] = counts.get(words) or instructions([program, *words.split()], [])
        found = [(counts[with_it] - counts[without]) / calls for without, with_it, calls in runs]
        rows[what] = {"Instructions": form.format(*map(shown, found), mean=shown(sum(found) / len(found)))}
        print(f"{what}: {rows[what]['Instructions']}", flush=True)
    return {what: cells for what, cells in rows.items() if what != PIN[0]}


def main():
    parser = argparse.ArgumentParser(description=__doc__, formatter_class=argparse.RawDescriptionHelpFormatter)
    parser.add_argument("program", nargs="?", type=pathlib.Path)
    parser.add_argument("--write", action="store_true")
    options = parser.parse_args()
    with tempfile.TemporaryDirectory() as folder:
        program = options.program or pathlib.Path(folder) / "calls"
        if not program.exists():
            build(program)
        rows = count_calls(program)
    if options.write:
        figures.update("homes", rows, figures.now(has_load=False))


if __name__ == "__main__":
    main()
