#!/usr/bin/env python3
"""Serves scripts whose pages, trees, frames and columns have sizes that rows leave out, and compares: sizes.py PROGRAM.

A contract lets a call answer that memory ran out, whatever the cause. So a call that gives up above some size is proved, too, and only a script of that
size shows it. Every answer has to be that of the second implementation.
"""
import sys

from script import MOST_LINE_BYTES, serve
from serving import served

SECONDS = 60
# Vertices of a page, and numbers of neighbours: an array has at most 1,024.
PAGE, LONG_ARRAY, SHORTER_ARRAY, TREE = 64, 1_020, 820, 3_000
WORDS_BEFORE, PINNED_AFTER = 150, (50, 51, 100)
# Instructions before the first function, and of the last one; how often each function in between calls the next one.
UNITS_BEFORE, LAST_UNITS, CALLS_EACH = 3_050, 100, 4
TARGET = ["program t 16", "ldxw r0, [r1+4]", "exit", "end"]


def batch(edits):
    """A batch of edits."""
    return ["batch C", *edits, "end"]


def page_of_long_arrays():
    """All lists of a page are arrays of nearly as many words as one may have. While a pin shares the page, each gets a word before all others and one
    in its middle, and loses one."""
    lines = ["graph 4096", *TARGET, *batch(f"+ {source} {2 * word + 2}" for source in range(PAGE) for word in range(LONG_ARRAY)), "pin a"]
    for source in range(PAGE):
        lines += [*batch([f"+ {source} 0"]), *batch([f"+ {source} {LONG_ARRAY + 1}"]), *batch([f"- {source} {2 * LONG_ARRAY}"])]
    return [*lines, "home 0", f"home {PAGE - 1}", "pin b", "run t a sum -", "run t b sum -", "run t b min -"]


def words_before_others():
    """A tree and an array get many words, each of which goes before all others, with and without a pin that shares them."""
    first = 4_000
    edits = [f"+ 0 {first + word}" for word in range(TREE)] + [f"+ 1 {first + word}" for word in range(SHORTER_ARRAY)]
    lines = ["graph 8192", *TARGET, *batch(edits)]
    for number in range(1, WORDS_BEFORE + 1):
        lines += batch([f"+ 0 {first - number}", f"+ 1 {first - number}"])
        if number in PINNED_AFTER:
            lines.append(f"pin p{number}")
    return [*lines, "home 0", "home 1", "pin a", "run t p50 min -", "run t a sum -", "run t a min -"]


def many_frames(functions):
    """Each function sets the lowest bytes of its frame and calls the next one some times, and the code of all but the first stands past 3,000 units."""
    body = ["stdw [r10-512], 1", *["mov r0, 0"] * UNITS_BEFORE]
    for function in range(1, functions):
        calls = 1 if function == 1 else CALLS_EACH
        body += [*[f"calllocal f{function}"] * calls, "exit", f"f{function}:", "stdw [r10-512], 1"]
    program = ["program deep 16", *body, *["mov r0, 7"] * LAST_UNITS, "exit", "end"]
    return ["graph 2", *batch(["+ 0 1"]), "pin a", *program, "run deep a sum -"]


def longest_column():
    """A new column by a line of as many numbers as one may have, and that line again for the column that is there."""
    begins = "column x 0"
    line = begins + (MOST_LINE_BYTES - len(begins)) // len(" 7") * " 7"
    return [f"graph {MOST_LINE_BYTES}", line, "values x 0 3", line.replace("7", "8"), f"values x {len(line.split()) - 5} 4"]


SCRIPTS = {
    "page of long arrays": page_of_long_arrays(),
    "words before others": words_before_others(),
    "six frames": many_frames(6),
    "seven frames": many_frames(7),
    "eight frames": many_frames(8),
    "longest column": longest_column(),
}


def main():
    for name, lines in SCRIPTS.items():
        script = ("\n".join(lines) + "\n").encode()
        text, status, _ = serve(script)
        answer = served(sys.argv[1], 1, script, SECONDS)
        if answer is None or (answer[0], answer[1]) != (text.encode(), status):
            sys.exit(f"sizes: {name}: not what the second implementation answers: {answer and (answer[1], answer[2], answer[0][-300:])}")
    print(f"sizes: {len(SCRIPTS)} scripts, as the second implementation answers them")


if __name__ == "__main__":
    main()
