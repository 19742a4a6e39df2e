"""From a file of edges to a script that makes their graph."""
import argparse
import contextlib
import sys

from edgebpf_tools import decimals, ends, owned
from edgebpf_tools.edge_files import Text
from edgebpf_tools.edge_runs import EdgeRuns, columns_of
from edgebpf_tools.limits import MOST_EDITS, MOST_VERTICES, SERVED_VERTICES
from edgebpf_tools.sorted_edges import SortedEdges

# So many batches at most go by without a rebase, fewer than a log has room for.
REBASE_BATCHES = 4_000


def arguments(words):
    parser = argparse.ArgumentParser(
        prog="edgebpf-import",
        description="Turns a list of edges (SNAP, or columns separated by blanks, tabs or commas) or a Matrix Market file into a "
        f"script: the graph, and its edges in batches of {MOST_EDITS:,}, sorted by source. The script goes to standard output.",
        epilog="Lines that begin with # or % are comments. Ids in quotation marks, as CSV has them, are refused. A file that is compressed by gzip is read as what is in it. Columns after the "
        f"second are not read, and a warning on standard error says so. Ids stay if all are below {SERVED_VERTICES:,}; else they are renumbered in "
        "ascending order, and FILE.ids maps them back. What a gigabyte of memory does not hold is sorted in a file, in the folder that TMPDIR "
        "names, else in /var/tmp. Needs numpy: apt-get install python3-numpy",
    )
    parser.add_argument("file", metavar="FILE", help="the edges; - for standard input")
    parser.add_argument("--base", type=int, choices=[0, 1], default=None, help="the least id; else 0, in Matrix Market 1")
    parser.add_argument("--skip", type=int, default=0, metavar="N", help="leave out the first N lines, such as a header's")
    parser.add_argument("--names", action="store_true", help="ids are words; vertices are numbered in the order of the words' bytes, and FILE.ids "
                        "has the word of each")
    parser.add_argument("--renumber", action="store_true", help="renumber the ids also if they are small")
    parser.add_argument("--table", metavar="TABLE", help="where the table of new and old ids goes; else FILE.ids")
    parser.add_argument("--undirected", action="store_true", help="each edge also leads back")
    parser.add_argument("--rectangular", choices=["same", "apart"], help="of a matrix with another number of columns than rows: row K "
                        "and column K are one vertex, or columns are vertices after those of the rows")
    parser.add_argument("--rebase", action="store_true", help="end with a rebase, so that no memory is kept for the batches: 12 bytes an "
                        f"edge. After {REBASE_BATCHES:,} batches there is one without this too")
    parser.add_argument("--store", action="store_true", help="write no script, but print how many vertices and edges the file has for a store in "
                        "process, which edgebpf.read_edges makes of it in Python, with up to 268,435,456 vertices")
    parser.add_argument("--quiet", action="store_true", help="no progress on standard error, only warnings")
    return parser.parse_args(words)


def warn(text):
    print(f"edgebpf-import: warning: {text}", file=sys.stderr)


def write_script(count, batches, out, ends_with_rebase):
    """Writes the graph and its batches as bytes; answers how many batches and edges there are."""
    out.write(b"graph %d\n" % count)
    number = edges = 0
    for batch in batches:
        if number and number % REBASE_BATCHES == 0:
            out.write(b"rebase\n")
        out.write(b"batch A\n" + decimals.edits(*columns_of(batch)) + b"end\n")
        number, edges = number + 1, edges + len(batch)
    if ends_with_rebase:
        out.write(b"rebase\n")
    return number, edges


def read_file(options, runs):
    name = "standard input" if options.file == "-" else options.file
    most = MOST_VERTICES if options.store else SERVED_VERTICES
    if options.file == "-":
        return SortedEdges(Text(name, ends.standard_input().buffer), options, most, warn, runs)
    with open(options.file, "rb") as stream:
        return SortedEdges(Text(name, stream), options, most, warn, runs)


def count_edges(edges):
    """Prints what a store in process would have."""
    count = sum(map(len, edges.runs.merged()))
    print(f"{edges.count} vertices, {count} edges" + (", and ids are renumbered" if edges.ids is not None else ""))


def make_script(edges, options):
    """Writes the script, and the table of ids if there is one."""
    table = options.table or ("edges.ids" if options.file == "-" else options.file + ".ids")
    with contextlib.ExitStack() as stack:
        if edges.ids is not None:
            edges.write_table(stack.enter_context(owned.whole_file(table)))
        batches, count = write_script(edges.count, edges.batches(MOST_EDITS), sys.stdout.buffer, options.rebase)
        sys.stdout.flush()
    if not options.quiet:
        if edges.ids is not None:
            print(f"edgebpf-import: ids are {'numbered' if options.names else 'renumbered'}; the table is {table}", file=sys.stderr)
        print(f"edgebpf-import: {edges.count} vertices, {count} edges, {batches} batches", file=sys.stderr)


def perform(words):
    options = arguments(words)
    with EdgeRuns() as runs:
        edges = read_file(options, runs)
        if options.store:
            count_edges(edges)
        else:
            make_script(edges, options)
    return 0


def main():
    ends.run("edgebpf-import", perform)
