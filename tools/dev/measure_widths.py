#!/usr/bin/python3
"""Measures stores without an edge of 2^16 to 2^28 vertices by measure_widths.c, and counts the instructions of a batch by callgrind.

    tools/dev/measure_widths.py [--powers 16 20 ..] [--library FILE] [--write]

The instructions are those of the program with its batches, less those without them. --library is libedgebpf.a, by default that of dist/build. With
--write the rows go into docs/figures/widths.txt, where the limits stay.
"""
import argparse
import pathlib
import re
import tempfile

import figures
from count_runs import TOP, instructions, output

POWERS = (16, 20, 22, 24, 26, 28)
# Of the program: how many rounds of batches it measures, and how many batches a round has.
ROUNDS, CALLS = 64, 16
# What was wanted of the time and of the memory.
WANTED = {28: (" (10 ms wanted)", " (20 MB wanted)")}
SAID = re.compile(r"made in ([\d.]+) ms, ([\d.]+) MB, a batch of one edge ([\d.]+) us")


def digits(number, unit, larger):
    """A number with its unit, or with the one a thousand times as large."""
    if number >= 1_000:
        number, unit = number / 1_000, larger
    return f"{number:.1f} {unit}" if number < 10 else f"{number:.0f} {unit}"


def cells(program, power):
    """The cells of a row by the heads of their columns."""
    made, memory, batch = map(float, SAID.search(output(program, power)[0]).groups())
    of_batches = instructions(program, power, ROUNDS) - instructions(program, power, 0)
    of_time, of_memory = WANTED.get(power, ("", ""))
    return {
        "Made in": digits(made, "ms", "s") + of_time, "Memory": digits(memory, "MB", "GB") + of_memory,
        "A batch of one edge at a random vertex": digits(batch, "µs", "ms"), "Instructions of it": f"{of_batches / (ROUNDS * CALLS):,.0f}",
    }


def main():
    parser = argparse.ArgumentParser(description=__doc__, formatter_class=argparse.RawDescriptionHelpFormatter)
    parser.add_argument("--powers", type=int, nargs="+", default=POWERS)
    parser.add_argument("--library", type=pathlib.Path, default=TOP / "dist" / "build" / "libedgebpf.a")
    parser.add_argument("--write", action="store_true")
    options = parser.parse_args()
    rows = {}
    with tempfile.TemporaryDirectory() as folder:
        program = pathlib.Path(folder) / "measure_widths"
        output("cc", "-O2", f"-I{TOP / 'bindings' / 'c'}", "-o", program, TOP / "tools" / "dev" / "measure_widths.c", options.library)
        for power in options.powers:
            name = f"{1 << power:,}"
            rows[name] = cells(program, power)
            print(name, *(f"{head}: {cell}" for head, cell in rows[name].items()), sep="; ", flush=True)
    if options.write:
        figures.update("widths", rows)


if __name__ == "__main__":
    main()
