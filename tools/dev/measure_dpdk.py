#!/usr/bin/python3
"""Measures runs over edges by the library for x86-64-v2 and for x86-64-v3 beside native code and DPDK's interpreter and JIT.

    tools/dev/measure_dpdk.py [--write] [--rounds 6]

One program has all of these, and EDGEBPF_CPU names the variant: tools/dev/measure_runs.c. It runs by both variants in turn, and of each time the
least counts. Instructions are counted by callgrind, over fewer edges, as a difference: of a program that does the work twice, less one that does
it once. A second table says where these of x86-64-v3 are. With --write the rows go into docs/figures/dpdk.txt and dpdk_places.txt. It needs a processor
with AVX2, valgrind, and libdpdk-dev.
"""
import argparse
import collections
import os
import pathlib
import re
import subprocess
import sys
import tempfile

import figures

TOP = pathlib.Path(__file__).resolve().parent.parent.parent
VARIANTS = "x86-64-v2", "x86-64-v3"
# How many times the JIT's time the blocks of x86-64-v3 may take.
PROGRAMS = {"two": ("two instructions", 1.5), "filter": ("a filter of 15 instructions", 1.5), "row": ("252 instructions in a row: sums and exclusive ors in turn", 0.9)}
# The columns: a way of measure_runs.c, and the variant if it is one of the library's ways.
COLUMNS = [
    ("edge-by-edge", "x86-64-v2"), ("blocks", "x86-64-v2"), ("blocks", "x86-64-v3"), ("sources", "x86-64-v2"), ("sources", "x86-64-v3"), ("native", None),
    ("interpreter", None), ("jit", None)]
HEADS = (
    "Program", "Edge by edge, v2", "Blocks, v2", "Blocks, v3", "Sources alone, v2", "Sources alone, v3", "Native code", "DPDK's interpreter", "DPDK's JIT",
    "Blocks, v3 : JIT", "Sources alone", "Wanted",
)
HEADS_OF_PLACES = ("Instructions an edge, v3, sources alone", "In all", "Over the lanes of blocks", "Over vertices and edges", "With vectors of 32 bytes")
COUNTED_EDGES = 1 << 17
# The second table: the function that goes over the lanes of a block, the one that goes over vertices and edges, and the vectors of 32 bytes.
SWEEP, WALK, WIDE = "bpf_blocks::sweeping::sweep", "edgebpf_c::columns::edgebpf_pull", "%ymm"
CODE = re.compile(r"\s*([0-9a-f]+):\t(.*)")


def output(*command, **environment):
    run = subprocess.run([str(word) for word in command], capture_output=True, text=True, env={**os.environ, **environment})
    if run.returncode:
        sys.exit(f"measure_dpdk.py: {command[0]} failed: {run.stderr.strip()[-300:]}")
    return run.stdout, run.stderr


def build(folder, name, *words):
    """The program, with the library of dist/ and DPDK."""
    library, program = folder / "libedgebpf.a", folder / name
    if not library.exists():
        output(TOP / "dist" / "link", "libedgebpf", library)
    flags, libraries = (output("pkg-config", word, "libdpdk")[0].split() for word in ("--cflags", "--libs"))
    output("cc", "-O2", f"-I{TOP / 'bindings' / 'c'}", "-DWITH_DPDK", *flags, *words, "-o", program, TOP / "tools" / "dev" / "measure_runs.c", library, *libraries)
    return program


def times(program, rounds):
    """The least nanoseconds of an edge, by the program, the way and the variant; what is none of the library's has no variant."""
    least = {}
    for _ in range(rounds):
        for variant in VARIANTS:
            for line in output(program, EDGEBPF_CPU=variant)[0].splitlines():
                name, way, time = line.split()
                key = name, way, variant if (way, variant) in COLUMNS else None
                least[key] = min(float(time), least.get(key, float("inf")))
            print(f"{variant}: {os.getloadavg()[0]:.1f} is the load", file=sys.stderr, flush=True)
    return least


def instructions(program, name, way, variant):
    """The instructions of an edge."""
    counts, sums = [], []
    for rounds in (1, 2):
        command = "valgrind", "--tool=callgrind", "--callgrind-out-file=/dev/null", program, name, way, rounds
        said, told = output(*command, EDGEBPF_CPU=variant or VARIANTS[0])
        counts.append(int(re.search(r"Collected : (\d+)", told)[1]))
        sums.append(int(said.split()[1]))
    if sums[1] != 2 * sums[0] % (1 << 64):
        sys.exit(f"measure_dpdk.py: {name} by {way}: {sums[1]} is not twice {sums[0]}")
    print(f"{name} {way} {variant or ''}: {(counts[1] - counts[0]) / COUNTED_EDGES:.1f} instructions", file=sys.stderr, flush=True)
    return (counts[1] - counts[0]) / COUNTED_EDGES


def executed(program, name, rounds):
    """How often each place was executed, by the function and the address, in a run by x86-64-v3 over the vertices that have edges."""
    profile = program.with_name(f"profile.{name}.{rounds}")
    words = "--dump-instr=yes", "--compress-strings=no", "--compress-pos=no", f"--callgrind-out-file={profile}"
    output("valgrind", "--tool=callgrind", *words, program, name, "sources", rounds, EDGEBPF_CPU=VARIANTS[1])
    counts, function, is_call = collections.Counter(), "", False
    for line in profile.read_text().splitlines():
        if line.startswith("fn="):
            function = line.removeprefix("fn=")
        elif line.startswith("calls="):
            is_call = True
        elif line.startswith("0x"):
            place, _, count = line.split()
            counts[function, int(place, 16)] += 0 if is_call else int(count)
            is_call = False
    return counts


def places(program):
    """The rows on where the instructions of an edge are: in all, in the loops over lanes, over vertices and edges, and how many have vectors of 32 bytes."""
    listing = output("objdump", "-d", "--no-show-raw-insn", program)[0]
    wide = {int(found[1], 16) for line in listing.splitlines() if WIDE in line and (found := CODE.match(line))}
    for name, (title, _) in PROGRAMS.items():
        counts = executed(program, name, 2)
        counts.subtract(executed(program, name, 1))
        parts = sum(counts.values()), *(sum(count for (function, _), count in counts.items() if function.startswith(of)) for of in (SWEEP, WALK))
        cells = [f"{count / COUNTED_EDGES:.1f}" for count in (*parts, sum(count for (_, place), count in counts.items() if place in wide))]
        yield [title, *cells]


def measured(folder, rounds, counting):
    """The rows on times, and on instructions of a program for fewer edges."""
    found = times(build(folder, "measure"), rounds)
    for name, (title, wanted) in PROGRAMS.items():
        cells = [f"{found[(name, *column)]:.2f}, {instructions(counting, name, *column):.0f}" for column in COLUMNS]
        ratios = [found[name, way, "x86-64-v3"] / found[name, "jit", None] for way in ("blocks", "sources")]
        yield [title, *cells, *(f"{ratio:.2f}" for ratio in ratios), str(wanted)]


def main():
    parser = argparse.ArgumentParser(description=__doc__, formatter_class=argparse.RawDescriptionHelpFormatter)
    parser.add_argument("--write", action="store_true")
    parser.add_argument("--rounds", type=int, default=6)
    options = parser.parse_args()
    before, when = os.getloadavg()[0], figures.now(has_load=False)
    with tempfile.TemporaryDirectory() as name:
        folder = pathlib.Path(name)
        counting = build(folder, "count", f"-DEDGES={COUNTED_EDGES}")
        tables = ("dpdk", HEADS, list(measured(folder, options.rounds, counting))), ("dpdk_places", HEADS_OF_PLACES, list(places(counting)))
    dpdk, load = output("pkg-config", "--modversion", "libdpdk")[0].strip(), f"{before:.0f} before and {os.getloadavg()[0]:.0f} after"
    of_times = f"{when}, DPDK {dpdk}, the least of {options.rounds} runs by each variant, load {load}"
    for (name, heads, rows), said in zip(tables, (of_times, when)):
        print(said, *map(figures.line_of, (heads, *rows)), sep="\n")
        if options.write:
            figures.write(name, heads, rows, said)


if __name__ == "__main__":
    main()
