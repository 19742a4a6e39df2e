#!/usr/bin/python3
"""Measures runs and pushes with columns beside a product of scipy, on recursive matrices of 1,048,576 vertices, and prints a table.

    tools/dev/measure_columns.py [--edges 4000000,16000000] [--tries 9] [--write]

Each graph is measured by a process of its own without large pages, and by one with them, where the C library and numpy are asked for them.
Times are CPU time of one thread, the least of some tries in which each form has its turn; answers are compared with scipy's. A cell has the
nanoseconds of an edge, and how many times scipy's they are. With --write the rows go into docs/figures/columns.txt. Debian's packages: python3-numpy
python3-cffi python3-scipy.
"""
import argparse
import json
import os
import pathlib
import subprocess
import sys
import time

TOP = pathlib.Path(__file__).resolve().parent.parent.parent
sys.dont_write_bytecode = True
sys.path[:0] = [str(TOP / "bindings" / "python"), str(TOP / "tools" / "dev")]

import figures  # noqa: E402

SCALE, NUMBER = 20, 1 << 30
OF_TARGET, OF_SOURCE = "ldxdw r0, [r1+24]\nexit", "ldxdw r0, [r1+16]\nexit"
BOTH = "ldxdw r0, [r1+24]\nldxdw r1, [r1+40]\nadd r0, r1\nexit"
PAGES = {
    "without": {"NUMPY_MADVISE_HUGEPAGE": "0", "GLIBC_TUNABLES": "glibc.malloc.hugetlb=0"},
    "with": {"NUMPY_MADVISE_HUGEPAGE": "1", "GLIBC_TUNABLES": "glibc.malloc.hugetlb=1"},
}
SCIPY, TARGETS = "scipy: a product `A @ x`", "a run of two instructions, without a column"


def forms(version, numpy, sparse):
    """The forms by their titles, and what each has to give; None where that is not compared."""
    import edgebpf

    starts, targets = version.csr()
    count, chance = version.vertices, numpy.random.default_rng(7)
    risk, other = chance.integers(0, NUMBER, (2, count), numpy.uint64)
    matrix = sparse.csr_array((numpy.ones(len(targets), numpy.uint64), targets.astype(numpy.int32), starts.astype(numpy.int32)), shape=(count, count))
    target, of_target = edgebpf.assemble("ldxw r0, [r1+4]\nexit"), edgebpf.assemble(OF_TARGET, record=32)
    of_source, both, into = edgebpf.assemble(OF_SOURCE, record=32), edgebpf.assemble(BOTH, record=48), numpy.zeros(count, numpy.uint64)

    def push():
        into.fill(0)
        version.push(of_source, into=into, columns=[risk])
        return into

    sums = matrix @ risk
    return {
        SCIPY: (lambda: matrix @ risk, None),
        TARGETS: (lambda: version.run(target).values, None),
        "a pull of the target's number": (lambda: version.run(of_target, columns=[risk]).values, sums),
        "a pull of the targets' numbers of two columns": (lambda: version.run(both, columns=[risk, other]).values, sums + matrix @ other),
        "a push of the source's number": (push, matrix.T @ risk),
    }


def measured(edges, tries):
    """Nanoseconds an edge of each form, and how many edges there are."""
    import edgebpf
    import numpy
    import scipy.sparse
    from algorithm_forms import graph_of

    sources, targets = graph_of(SCALE, edges / (1 << SCALE))
    order = numpy.argsort(sources << SCALE | targets, kind="stable")
    starts = numpy.concatenate([[0], numpy.cumsum(numpy.bincount(sources, minlength=1 << SCALE))])
    version, least = edgebpf.Store.from_csr(starts, targets[order].astype(numpy.uint32)).pin(), {}
    all_forms = forms(version, numpy, scipy.sparse)
    for turn in range(tries):
        for title, (call, wanted) in all_forms.items():
            begun = time.process_time()
            found = call()
            least[title] = min(time.process_time() - begun, least.get(title, 1e9))
            if turn == 0 and wanted is not None and (found != wanted).any():
                sys.exit(f"measure_columns: {title}: other answers")
    return {title: 1e9 * spent / version.edges for title, spent in least.items()}, version.edges


def table(all_edges, tries):
    """The heads and the rows of all graphs: nanoseconds an edge, and how many times scipy's."""
    heads, cells = ["Large pages"], {}
    for edges in all_edges:
        for pages, variables in PAGES.items():
            words = [sys.executable, __file__, "--one", str(edges), "--tries", str(tries)]
            least, count = json.loads(subprocess.run(words, env={**os.environ, **variables}, check=True, stdout=subprocess.PIPE).stdout)
            heads.append(pages if f"{count:,} edges" in " ".join(heads) else f"{count:,} edges, {pages}")
            for title, spent in least.items():
                cells.setdefault(title, []).append(f"{spent:.1f}, {spent / least[SCIPY]:.1f}" if title != SCIPY else f"{spent:.1f}")
    return heads, [[title, *row] for title, row in cells.items()]


def main():
    parser = argparse.ArgumentParser(description=__doc__, formatter_class=argparse.RawDescriptionHelpFormatter)
    parser.add_argument("--edges", default="4000000,16000000")
    parser.add_argument("--tries", type=int, default=9)
    parser.add_argument("--write", action="store_true")
    parser.add_argument("--one", type=int, help=argparse.SUPPRESS)
    options = parser.parse_args()
    if options.one:
        print(json.dumps(measured(options.one, options.tries)))
        return
    heads, rows = table(map(int, options.edges.split(",")), options.tries)
    print(*map(figures.line_of, (heads, *rows)), sep="\n")
    if options.write:
        figures.write("columns", heads, rows)


if __name__ == "__main__":
    main()
