#!/usr/bin/env python3
"""Counts by callgrind the instructions of batches that change little of much, and fails above limits: count_edits.py [PROGRAM]

No contract says what a batch shares with the version before, so one that copies a list, a page, the log or the table answers the same. A count is
the instructions of a script less those of the same script without the measured batches, by the batches or the edits. A limit is a tenth above what
was counted on 2026-12-01.
"""
import sys
from dataclasses import dataclass

from count_hubs import PROGRAM, batch, instructions

GRAPH = "graph 1048576"
# Neighbours of a tree and of an array; the vertices of a page.
TREE, ARRAY, PAGE = 100_000, 500, 64
# Batches that are measured, edits of one, and batches before those that are empty.
BATCHES, EDITS, EARLIER = 64, 256, 3_900
# Edits of an array that are put into a copy of its page.
ARRAY_EDITS = 64
MOST_EDITS = 65_536


@dataclass
class Row:
    """What is counted: a script, the batches after it, what their instructions are divided by, and the most that each may take."""

    name: str
    before: list[str]
    measured: list[str]
    count: int
    most: int


def lists(degrees):
    """Lists of even words, in as few batches as it takes."""
    edits = [f"+ {source} {2 * word}" for source, degree in degrees for word in range(degree)]
    return [line for start in range(0, len(edits), MOST_EDITS) for line in batch(edits[start:start + MOST_EDITS])]


def odd_words(source, degree, count):
    """Edits that put odd words into the middle of a list, and take each out again."""
    return [f"{'+-'[number % 2]} {source} {degree + 1 + number // 2 * 2}" for number in range(count)]


def rows():
    arrays = [(source, ARRAY) for source in range(1, PAGE)]
    trees, pages = [GRAPH, *lists([(0, TREE)])], [GRAPH, *lists([(0, TREE), *arrays])]
    short = [GRAPH, *lists([(0, ARRAY), *arrays])]
    in_turn = [line for edit in odd_words(0, TREE, BATCHES) for line in batch([edit])]
    of_array = [line for edit in odd_words(0, ARRAY, BATCHES) for line in batch([edit])]
    return [
        Row("a batch of one edit of a tree", trees, in_turn, BATCHES, 18_800),
        Row("the same where the other lists of the page are arrays", pages, in_turn, BATCHES, 37_300),
        Row("a batch of one edit of an array among arrays", short, of_array, BATCHES, 38_400),
        Row(f"an edit of a tree, of {EDITS} in a batch", trees, batch(odd_words(0, TREE, EDITS)), EDITS, 1_360),
        Row(f"an empty batch after {EARLIER:,}", [GRAPH, *EARLIER * batch([])], BATCHES * batch([]), BATCHES, 8_900),
        Row("an empty batch", [GRAPH], BATCHES * batch([]), BATCHES, 8_300),
        Row("a rebase of 4,096 ranges", [GRAPH], BATCHES * ["rebase"], BATCHES, 9_200),
        Row(f"an edit of an array, of {ARRAY_EDITS} in a batch", short, batch(odd_words(0, ARRAY, ARRAY_EDITS)), ARRAY_EDITS, 5_400),
    ]


def main(program):
    wrong = False
    for row in rows():
        each = (instructions([program], row.before + row.measured) - instructions([program], row.before)) // row.count
        print(f"count_edits: {row.name}: {each:,} instructions, at most {row.most:,}", flush=True)
        wrong |= each > row.most
    if wrong:
        sys.exit("count_edits: more than that: is something copied that was shared?")


if __name__ == "__main__":
    main(sys.argv[1] if len(sys.argv) > 1 else PROGRAM)
