#!/usr/bin/env python3
"""Measures what workers gain, in milliseconds of wall time: measure_threads.py [PROGRAM] [--write]. All other work of the machine has to rest.

A run is timed from its line to its first line of text, and a publication from `end` to its receipt. Each figure is a median. The CPU time of batches
is that of the process, with the reading of their lines, and the least of some sittings. With --write the figures go into docs/figures/threads.txt and
threads_cpu.txt, and the ratios of the first and the last row are a row more of threads_by_sitting.txt. With --cpu only CPU time is measured.
"""
import random
import statistics
import subprocess
import sys
import time

import figures
from count_hubs import MOST_EDITS, PROGRAM, VERTICES, batch

WORKERS = (1, 2, 4)
RUNS, BATCHES = 20, 16
# For CPU time: how many edits a batch has, and how many batches are measured at once, so often.
CPU_BATCHES, SITTINGS = ((2, 2_000), (8, 2_000), (64, 1_000), (1_024, 60), (MOST_EDITS, 6)), 3
SOURCES, TARGETS, RANGE = 4_096, 1_000, 256
# How long the program may take to read the edits that it was sent, in seconds.
READING = 0.3
# A filter of 21 units, and what it is asked.
FILTER = ("code filter 32 6113000000000000611404000000000061150c0000000000611610000000000061171400000000007918180000000000b70000000000"
          "0000ad650b0000000000bf30000000000000af400000000000005f700000000000001500040000000000270000001f0000000f800000000000007700"
          "0000030000000500020000000000bf5000000000000067000000040000000f400000000000009500000000000000")
RUN = "run filter a sum 100000000f000000e803000000000000"
# The number that a column has for an edge's target, and commands that lend the column, each with the program.
NUMBER = "code number 32 79101800000000009500000000000000"
LENDING = ("pull", "push", "each")


class Served:
    """A program that is sent lines, and whose answers are waited for."""

    def __init__(self, program, workers=1, **room):
        words = [program, "--workers", str(workers)]
        self.process = subprocess.Popen(words, stdin=subprocess.PIPE, stdout=subprocess.PIPE, bufsize=0, **room)
        self.answers = open(self.process.stdout.fileno(), "rb", closefd=False)

    def __enter__(self):
        return self

    def __exit__(self, *_):
        self.process.stdin.close()
        self.answers.read()
        self.process.wait()

    def send(self, *lines):
        text = memoryview("".join(f"{line}\n" for line in lines).encode())
        while text:
            text = text[self.process.stdin.write(text):]

    def until(self, word):
        """Reads up to a line that begins with this word."""
        while not (line := self.answers.readline()).startswith(word):
            if not line:
                sys.exit(f"the program ended before it said {word.decode()}")
        return line

    def rest(self):
        """Waits until all lines are answered, and reads the answers."""
        self.send("home 0")
        self.until(b"home ")

    def seconds(self, line, word):
        """How long an answer to this line takes."""
        begin = time.perf_counter()
        self.send(line)
        self.until(word)
        return time.perf_counter() - begin

    def cpu_seconds(self):
        """The CPU time of the process so far, of threads that ended, too. A process's clock has the number ~pid * 8 + 2."""
        return time.clock_gettime(~self.process.pid << 3 | 2)

    def publish(self, edits):
        self.send(*batch(edits))
        self.until(b"batch ")


def loaded(program, workers, vertices):
    """A graph of which some vertices have a thousand random edges each."""
    choice, served = random.Random(1), Served(program, workers)
    served.send(f"graph {vertices}")
    edits = [f"+ {source} {target}" for source in range(SOURCES) for target in choice.sample(range(vertices), TARGETS)]
    for start in range(0, len(edits), MOST_EDITS):
        served.publish(edits[start:start + MOST_EDITS])
    served.send(FILTER, "pin a")
    served.until(b"pin ")
    return served


def run_seconds(program, workers, vertices):
    times = []
    with loaded(program, workers, vertices) as served:
        for _ in range(RUNS):
            served.rest()
            times.append(served.seconds(RUN, b"run "))
    return statistics.median(times)


def lending_seconds(program, workers, command):
    """A command that reads a column and writes another."""
    times = []
    with loaded(program, workers, VERTICES) as served:
        served.send(NUMBER, f"column x 0 {' '.join(map(str, range(SOURCES)))}", "column y 0 0")
        for _ in range(RUNS):
            served.rest()
            times.append(served.seconds(f"{command} number a sum - x y", command.encode()))
    return statistics.median(times)


def publication_seconds(program, workers):
    """Each batch has as many edits in each range."""
    choice, edits = random.Random(2), MOST_EDITS * RANGE // VERTICES
    with Served(program, workers) as served:
        served.send(f"graph {VERTICES}")
        times = []
        for _ in range(BATCHES):
            served.send("batch A", *(f"+ {first + choice.randrange(RANGE)} {choice.randrange(VERTICES)}"
                                     for first in range(0, VERTICES, RANGE) for _ in range(edits)))
            time.sleep(READING)
            times.append(served.seconds("end", b"batch "))
        return statistics.median(times)


def batch_microseconds(program, workers, edits, batches):
    """CPU time of a batch of random edits of a loaded graph."""
    choice, times = random.Random(3), []
    with loaded(program, workers, VERTICES) as served:
        for _ in range(SITTINGS):
            served.rest()
            lines = [batch(f"{choice.choice('+-')} {choice.randrange(SOURCES)} {choice.randrange(VERTICES)}" for _ in range(edits)) for _ in range(batches)]
            before = served.cpu_seconds()
            for each in lines:
                served.send(*each)
                served.until(b"batch ")
            times.append((served.cpu_seconds() - before) / batches)
            served.send("rebase")
            served.until(b"rebase ")
    return 1e6 * min(times)


def measure_cpu(program):
    """For each size of a batch its words, the microseconds of CPU time by each number of workers, and the ratio of the last to the first."""
    for edits, batches in CPU_BATCHES:
        found = [batch_microseconds(program, workers, edits, batches) for workers in WORKERS]
        row = [f"{edits:,} random edits", *(f"{it:,.0f}" for it in found), f"{found[-1] / found[0]:.2f}"]
        print(figures.line_of(row), flush=True)
        yield row


def measure(program):
    """For each kind of work its words, the milliseconds by each number of workers, and the ratio of the last to the first."""
    for what, seconds in (
        (f"a run of a filter of 21 instructions over {SOURCES * TARGETS:,} edges of {SOURCES:,} vertices", lambda workers: run_seconds(program, workers, SOURCES)),
        (f"the same over all of {VERTICES:,} vertices, of which these have edges", lambda workers: run_seconds(program, workers, VERTICES)),
        *((f"`{command}` of a column of these", lambda workers, command=command: lending_seconds(program, workers, command)) for command in LENDING),
        (f"the publication of a batch of {MOST_EDITS:,} edits in all {VERTICES // RANGE:,} ranges", lambda workers: publication_seconds(program, workers)),
    ):
        found = [seconds(workers) for workers in WORKERS]
        row = [what, *(f"{1000 * it:.1f}" for it in found), f"{found[-1] / found[0]:.2f}"]
        print(figures.line_of(row), flush=True)
        yield row


def main():
    words = [word for word in sys.argv[1:] if not word.startswith("--")]
    program, heads = words[0] if words else PROGRAM, ("1 worker", *map(str, WORKERS[1:]), f"{WORKERS[-1]} by 1")
    when = figures.now()
    if "--cpu" not in sys.argv:
        rows = list(measure(program))
        if "--write" in sys.argv:
            figures.write("threads", ("Milliseconds of wall time", *heads), rows, when)
            figures.add("threads_by_sitting", [when, rows[0][-1], rows[-1][-1], rows[-1][1]])
    rows = list(measure_cpu(program))
    if "--write" in sys.argv:
        figures.write("threads_cpu", ("Microseconds of CPU time of a batch, with its lines", *heads), rows, when)


if __name__ == "__main__":
    main()
