#!/usr/bin/env python3
"""Serves scripts that are long in one way each: many.py PROGRAM.

One has 20,000,000 lines, one comes in 1,000,000 reads, one has 307,200 batches of all feeds in 1,024 epochs, and one rebases 2,162,688 edges. Each has
to be served to its end.
"""
import socket
import subprocess
import sys

LINES, READS = 20_000_000, 1_000_000
# No store has more rebases. Each epoch has this many batches, of which every second one takes the edge out again.
EPOCHS, BATCHES = 1_024, 300
FEEDS = "ABCD"
# As many edges as these batches have edits, of which each has as many as it may.
LARGE_BATCHES, MOST_EDITS, DEGREE = 33, 65_536, 128


def whole(program, script, wanted, status):
    run = subprocess.run([program], input=script, capture_output=True)
    assert (run.stdout, run.stderr, run.returncode) == (wanted, b"", status), f"status {run.returncode}, {run.stderr}: {run.stdout[-200:]}"


def serve_lines(program):
    """Lines without a word are skipped and counted: the last one is a fault, with its number."""
    whole(program, b"graph 4\n" + LINES * b"\n" + b"x\n", b"graph 4\nfault 2 line %d\n" % (LINES + 2), 1)


def serve_reads(program):
    """A read of such a socket gives one packet, whose two bytes are a line."""
    ours, its = socket.socketpair(socket.AF_UNIX, socket.SOCK_SEQPACKET)
    with subprocess.Popen([program], stdin=its, stdout=subprocess.PIPE) as child, ours:
        its.close()
        for line in (b"graph 4\n", *READS * [b"#\n"], b"x\n"):
            ours.send(line)
        ours.close()
        output = child.stdout.read()
    assert (output, child.returncode) == (b"graph 4\nfault 2 line %d\n" % (READS + 2), 1), f"status {child.returncode}: {output}"


def serve_batches(program):
    """The first batch of each epoch puts the edge in, and so does every second one after it."""
    lines, wanted = ["graph 4"], ["graph 4"]
    for epoch in range(1, EPOCHS + 1):
        for number in range(1, BATCHES + 1):
            is_put_in = number % 2 == 1
            feed = FEEDS[number % len(FEEDS)]
            lines += [f"batch {feed}", "+ 0 1" if is_put_in else "- 0 1", "end"]
            wanted.append(f"batch {feed} version {number} added {int(is_put_in)} removed {int(not is_put_in)}")
        lines.append("rebase")
        wanted.append(f"rebase epoch {epoch} edges 0")
    whole(program, ("\n".join(lines) + "\n").encode(), ("\n".join(wanted) + "\n").encode(), 0)


def serve_edges(program):
    """Each batch has the lists of some vertices whole. Then the graph is rebased, and pinned."""
    edges, sources = LARGE_BATCHES * MOST_EDITS, MOST_EDITS // DEGREE
    lines, wanted = ["graph 1048576"], ["graph 1048576"]
    for number in range(LARGE_BATCHES):
        lines.append("batch C")
        lines += [f"+ {source} {source * 61 + place}" for source in range(number * sources, (number + 1) * sources) for place in range(DEGREE)]
        lines.append("end")
        wanted.append(f"batch C version {number + 1} added {MOST_EDITS} removed 0")
    lines += ["rebase", "pin a"]
    wanted += [f"rebase epoch 1 edges {edges}", f"pin a version 0 edges {edges}"]
    whole(program, ("\n".join(lines) + "\n").encode(), ("\n".join(wanted) + "\n").encode(), 0)


def main():
    for serve in (serve_lines, serve_reads, serve_batches, serve_edges):
        serve(sys.argv[1])
    print(f"many: {LINES:,} lines, {READS:,} reads, {EPOCHS * BATCHES:,} batches in {EPOCHS:,} epochs, and {LARGE_BATCHES * MOST_EDITS:,} edges: "
          "served to the end")


if __name__ == "__main__":
    main()
