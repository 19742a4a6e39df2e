#!/usr/bin/python3
"""Measures what a file of random edges costs that tools/dev/write_rmat.c makes: as a script by edgebpf-import, and as a store in process.

    tools/dev/measure_files.py [--vertices N] [--edges N] [--memory BYTES ..] [--write]

The file goes to the folder of TMPDIR, else to /var/tmp. A row has seconds by the clock, CPU seconds, and the peak of memory. With --write the rows
go into docs/figures/large_file.txt, which is of 4,847,571 vertices and 69,000,000 lines.
"""
import argparse
import json
import os
import pathlib
import subprocess
import sys
import tempfile
import time

import figures

TOP = pathlib.Path(__file__).resolve().parent.parent.parent
HEADS = ("Work", "Seconds", "CPU seconds", "Peak memory")
# A number of each edge is sorted.
SORTED_BYTES = 8
STORE = """
import json, sys, time, edgebpf
store = edgebpf.read_edges(sys.argv[1], memory=int(sys.argv[2]))
version, target = store.pin(), edgebpf.assemble("ldxw r0, [r1+4]\\nexit")
resident = int(next(line for line in open("/proc/self/status") if line.startswith("VmRSS")).split()[1]) / 1024
begun = time.thread_time()
result = version.run(target)
print(json.dumps([version.vertices, version.edges, resident, time.thread_time() - begun]))
"""


def row(name, words):
    """Runs a command, and returns what it took, by the heads of the columns, and what it printed."""
    begun, path = time.perf_counter(), {**os.environ, "PYTHONPATH": str(TOP / "bindings" / "python")}
    process = subprocess.Popen([str(word) for word in words], stdout=subprocess.PIPE, stderr=subprocess.DEVNULL, env=path, text=True)
    said = process.stdout.read().strip()
    _, status, used = os.wait4(process.pid, 0)
    if status:
        sys.exit(f"measure_files.py: {name} ended with status {status}")
    return [name, f"{time.perf_counter() - begun:.1f}", f"{used.ru_utime + used.ru_stime:.1f}", f"{used.ru_maxrss / 1024:,.0f} MB"], said


def read_row(edges, count, memory, is_first):
    """A row of a store that is made in Python, with so much memory for sorting."""
    name = "`edgebpf.read_edges`" if is_first else f"the same with {memory / 1e6:,.0f} MB for sorting"
    is_by_file = SORTED_BYTES * count > memory
    cells, said = row(name + (", so by a file" if is_by_file else ""), [sys.executable, "-c", STORE, edges, memory])
    vertices, stored, resident, seconds = json.loads(said)
    cells[-1] += ", with the pages of that file" if is_by_file else f", and {resident:,.0f} MB then"
    return cells, f"{vertices:,} vertices, {stored:,} edges; a run over all of them {seconds:.2f} s"


def measured(options, folder):
    """The rows of the table, which are printed as they come."""
    program, edges = f"{folder}/write_rmat", f"{folder}/edges"
    subprocess.run(["cc", "-O2", "-o", program, TOP / "tools" / "dev" / "write_rmat.c"], check=True)
    with open(edges, "w") as out:
        subprocess.run([program, str(options.vertices), str(options.edges)], stdout=out, check=True)
    print(f"{options.edges:,} lines, {os.stat(edges).st_size / 1e6:,.0f} MB")
    found = [lambda: row("`edgebpf-import --store`", [TOP / "tools" / "edgebpf-import", "--store", edges])]
    if options.vertices <= 1_048_576:
        found.append(lambda: (row("`edgebpf-import`", [TOP / "tools" / "edgebpf-import", "--quiet", edges])[0], ""))
    found += [lambda memory=memory: read_row(edges, options.edges, memory, memory == options.memory[0]) for memory in options.memory]
    for each in found:
        cells, said = each()
        print(figures.line_of([*cells, said]), flush=True)
        yield cells


def main():
    parser = argparse.ArgumentParser(description=__doc__, formatter_class=argparse.RawDescriptionHelpFormatter)
    parser.add_argument("--vertices", type=int, default=1_000_000)
    parser.add_argument("--edges", type=int, default=5_000_000)
    parser.add_argument("--memory", type=int, nargs="*", default=[1 << 30, 100_000_000])
    parser.add_argument("--write", action="store_true")
    options = parser.parse_args()
    with tempfile.TemporaryDirectory(dir=os.environ.get("TMPDIR") or "/var/tmp") as folder:
        rows = list(measured(options, folder))
    if options.write:
        figures.write("large_file", HEADS, rows)


if __name__ == "__main__":
    main()
