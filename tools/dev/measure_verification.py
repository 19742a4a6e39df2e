#!/usr/bin/env python3
"""Measures what programs made to cost most take to be verified: measure_verification.py [PROGRAM] [--write]

A figure is CPU time and peak memory of the process that reads and verifies a script with one `program` block, the median and the most of some
tries. Pairs are instructions, each counted once for each call of its function that is verified. With --write the figures go into
docs/figures/verification.txt.
"""
import argparse
import os
import pathlib
import re
import statistics
import subprocess

import figures
from count_hubs import PROGRAM

TRIES, CALLS, SLOTS, FUNCTIONS = 3, 300, 64, 8
ADDRESS, NUMBER, BYTE = "stxdw [r10-{0}], r10", "stdw [r10-{0}], 1", "stb [r10-{0}], 1"


def fill(stores):
    """Sets each slot of a frame, by these stores in turn."""
    return [stores[slot % len(stores)].format(8 * (slot + 1)) for slot in range(SLOTS)]


def deep(stores, calls, body):
    """Eight functions, each of which fills its frame and calls the next, the last but one so many times; the last has the body."""
    lines = []
    for function in range(FUNCTIONS - 1):
        many = calls if function == FUNCTIONS - 2 else 1
        lines += [f"f{function}:", *fill(stores), "mov r6, r1"]
        lines += [line for _ in range(many) for line in ("mov r1, r6", f"calllocal f{function + 1}")]
        lines += ["exit"]
    return [*lines, f"f{FUNCTIONS - 1}:", *fill(stores), "mov r0, 0", "ldxw r3, [r1+0]", "ldxw r4, [r1+4]", *body, "out:", "exit"]


def apart(count):
    """Branches whose sides part and meet again."""
    return [line for at in range(count) for line in (f"jeq r3, {at}, m{at}", f"mov r4, {at}", f"m{at}:")]


def waiting(count):
    """Branches to a place of its own each, so that as many states wait at once."""
    return [f"jeq r3, {at}, w{at}" for at in range(count)] + [line for at in range(count) for line in (f"w{at}:", f"mov r4, {at}")]


def fan():
    """Seven functions, each of which calls the next six times, and one that is called."""
    calls = [line for at in range(7) for line in (f"f{at}:", *[f"calllocal f{at + 1}"] * 6, "exit")]
    return [*calls, "f7:", "mov r0, 0", "exit"]


# What a row says, and its programs, which are of one size.
ROWS = [
    ("{pairs:,} pairs: seven functions of six calls each, empty frames", fan()),
    ("{pairs:,} pairs: 1,050 branches that part and meet again, 300 times, eight frames deep, full of addresses", deep([ADDRESS], CALLS, apart(1_050))),
    ("{pairs:,} pairs: 2,950 branches on two registers to one place, 300 times, eight frames deep, full of addresses",
     deep([ADDRESS], CALLS, ["jne r3, r4, out"] * 2_950)),
    ("{units:,} units, of which 1,770 wait with eight full frames each", deep([ADDRESS], 1, waiting(1_770))),
    ("the third with addresses and numbers in turn in each frame; with addresses, numbers and lone bytes",
     deep([ADDRESS, NUMBER], CALLS, ["jne r3, r4, out"] * 2_950), deep([ADDRESS, NUMBER, BYTE], CALLS, ["jne r3, r4, out"] * 2_950)),
]


def pairs(lines):
    """How many pairs a program has, by its text: each function's instructions, once for each call of it."""
    functions, called = {}, {"f0": 1}
    for line in lines:
        if line.endswith(":"):
            if line[0] == "f":
                name = line[:-1]
                functions[name] = []
        else:
            functions[name].append(line)
    for name, instructions in functions.items():
        for line in instructions:
            if line.startswith("calllocal"):
                callee = line.split()[1]
                called[callee] = called.get(callee, 0) + called[name]
    return sum(called[name] * len(instructions) for name, instructions in functions.items())


def measure(program, lines):
    """The CPU seconds and the peak memory in bytes of one process that verifies a program, and what it wrote."""
    script = "\n".join(["graph 1", "program p 16", *lines, "end", ""])
    process = subprocess.Popen([program], stdin=subprocess.PIPE, stdout=subprocess.PIPE, text=True)
    process.stdin.write(script)
    process.stdin.flush()
    process.stdout.readline()
    said = process.stdout.readline().strip()
    # While it waits for more lines: its peak since it was started, which what wait4 gives is not.
    status = pathlib.Path(f"/proc/{process.pid}/status").read_text()
    process.stdin.close()
    _, _, used = os.wait4(process.pid, 0)
    return used.ru_utime + used.ru_stime, int(re.search(r"VmHWM:\s+(\d+) kB", status)[1]) * 1024, said


def megabytes(memory):
    return f"{memory / 1e6:.0f} MB" if memory >= 1e7 else f"{memory / 1e6:.1f} MB"


def row(program, title, *texts):
    """The cells of a row, which are printed with what the program said."""
    times, most = [], 0
    for lines in texts:
        seconds, memory, said = zip(*(measure(program, lines) for _ in range(TRIES)))
        times.append(f"{statistics.median(seconds):.2f} s")
        most = max(most, *memory)
        print(f"{said[0]}: {pairs(lines):,} pairs, {times[-1]}", flush=True)
    units = sum(not line.endswith(":") for line in texts[0])
    cells = title.format(pairs=pairs(texts[0]), units=units), f"{' and '.join(times)}, {megabytes(most)}"
    print(figures.line_of(cells), flush=True)
    return cells


def main():
    parser = argparse.ArgumentParser(description=__doc__, formatter_class=argparse.RawDescriptionHelpFormatter)
    parser.add_argument("program", nargs="?", type=pathlib.Path, default=PROGRAM)
    parser.add_argument("--write", action="store_true")
    options = parser.parse_args()
    rows = [row(options.program, *each) for each in ROWS]
    if options.write:
        figures.write("verification", ("Program", "CPU time, peak memory"), rows)


if __name__ == "__main__":
    main()
