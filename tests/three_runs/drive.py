#!/usr/bin/env python3
"""Runs programs over edges in three ways, and compares: by the machine that tests all, by the verified run, and in blocks of edges. See
README.md, and --help."""
import argparse
import os
import pathlib
import random
import struct
import subprocess
import sys
import tempfile
from collections import Counter
from concurrent.futures import ProcessPoolExecutor
from functools import partial

from sources import of_repository, random_program

HERE = pathlib.Path(__file__).resolve().parent
sys.path.insert(0, str(HERE.parent))
from building import build  # noqa: E402

USED = ["anyhow", "bpf_blocks", "bpf_image", "bpf_machine", "bpf_runs", "graph_model", "hex", "verifier"]

# Programs of one run of the driver.
PIECE = 250
# With how many random arguments and graphs each program of the repository is run.
TIMES = 3
EDGES = 70
ODD_NUMBERS = [0, 1, 2, 7, 8, 255, 256, 2**31 - 1, 2**31, 2**32 - 1]


def image_of(length, code, table):
    counts = [length, len(code) // 8, *([len(table)] if table else [])]
    return (b"BPE2" if table else b"BPE1") + struct.pack(f"<{len(counts)}H", *counts) + code + table


class World:
    """A random graph, and edges to run over: those of the graph, of which one vertex has many, and some that are not there."""

    def __init__(self, choice):
        self.choice, self.vertices = choice, choice.choice([1, 4, 16, 70, 70])
        self.lists = {}
        for vertex in range(self.vertices):
            count = min(self.vertices, 66 if vertex == 3 else choice.choice([0, 0, 1, 2, 3, 9]))
            self.lists[vertex] = sorted(choice.sample(range(self.vertices), count))

    def number(self):
        return self.choice.choice([self.choice.randrange(self.vertices), self.choice.choice(ODD_NUMBERS), self.choice.randrange(2**32)])

    def lines(self):
        pairs = [(source, target) for source, targets in self.lists.items() for target in targets]
        there = [(source, target, place, len(targets)) for source, targets in self.lists.items() for place, target in enumerate(targets)]
        edges = [self.choice.choice(there) if there and self.choice.random() < 0.6 else tuple(self.number() for _ in range(4)) for _ in range(EDGES)]
        words = lambda rows: " ".join(str(number) for row in rows for number in row)
        return [f"graph {self.vertices} {words(pairs)}".rstrip(), f"edges {words(edges)}"]


def argument(choice, length):
    """The rest of a record: random bytes, small numbers or zeros."""
    kind = choice.randrange(4)
    if kind == 0:
        return bytes(choice.choice([0, 1, 2, 5, 8]) for _ in range(length - 16))
    return choice.randbytes(length - 16) if kind < 3 else bytes(length - 16)


def line_of(choice, name, parts):
    return f"program {name} {image_of(*parts).hex()} {argument(choice, parts[0]).hex() or '-'}"


def lines_of_repository(programs, number):
    """The programs of the repository, in turn over some graphs."""
    choice = random.Random(f"repository {number}")
    lines = []
    for place, (name, parts) in enumerate(programs):
        if place % 50 == 0:
            lines += World(choice).lines()
        lines.append(line_of(choice, name, parts))
    return lines


def lines_of_random(number):
    """Random programs, in turn over five graphs."""
    choice = random.Random(number)
    lines = []
    for place in range(PIECE):
        if place % 50 == 0:
            lines += World(choice).lines()
        lines.append(line_of(choice, f"random{number}.{place}", random_program(choice)))
    return lines


def compared(driver, programs, job):
    """What the driver counted of a piece, after telling of each difference."""
    kind, number = job
    lines = lines_of_repository(programs, number) if kind == "repository" else lines_of_random(number)
    done = subprocess.run([driver], input="".join(f"{line}\n" for line in lines), text=True, capture_output=True)
    counts, written = Counter(), done.stdout.splitlines()
    for line in written:
        words = line.split()
        if words[0] == "different":
            print(f"{kind} {number}: {line}", flush=True)
        elif words[0] == "count":
            counts[" ".join(words[1:-1])] += int(words[-1])
    judged = sum(counts[kind] for kind in ("no image", "refused", "accepted"))
    if done.returncode or done.stderr or judged != sum(line.startswith("program ") for line in lines):
        print(f"{kind} {number}: status {done.returncode}, {judged} programs judged, said {done.stderr[:500]!r}", flush=True)
        counts["runs of the driver that did not end well"] += 1
    return counts


def arguments():
    words = argparse.ArgumentParser(description="Runs programs by the checked machine, by the verified run and in blocks of edges, and compares.")
    words.add_argument("--count", type=int, default=400, help=f"how many pieces of {PIECE} random programs (400)")
    words.add_argument("--from", type=int, default=0, dest="first", help="the number of the first piece (0)")
    words.add_argument("--processes", type=int, default=os.cpu_count(), help="how many processes work side by side (as many as cores)")
    words.add_argument("--driver", type=pathlib.Path, help="the driver as --build has left it; else it is built")
    words.add_argument("--build", type=pathlib.Path, metavar="FILE", help="build the driver as this file, and run nothing")
    words.add_argument("--without-repository", action="store_true", help="run the random programs alone")
    return words.parse_args()


def run(said, driver):
    programs = [] if said.without_repository else of_repository(said.processes)
    parts = [programs[start : start + PIECE] for start in range(0, len(programs), PIECE)]
    jobs = [(part, ("repository", number)) for number, part in enumerate(TIMES * parts)]
    jobs += [([], ("random", number)) for number in range(said.first, said.first + said.count)]
    counts = Counter()
    with ProcessPoolExecutor(said.processes) as pool:
        for done, found in enumerate(pool.map(partial(compared, driver), *zip(*jobs)), 1):
            counts += found
            if done % 50 == 0:
                print(f"{done} of {len(jobs)} pieces: {dict(counts)}", flush=True)
    for kind, times in sorted(counts.items()):
        print(f"{kind}: {times}")
    wrong = counts["different"] + counts["runs of the driver that did not end well"]
    print(f"{len(jobs)} pieces, {wrong} different")
    sys.exit(1 if wrong else 0)


def main():
    said = arguments()
    if said.build:
        build(said.build, HERE / "driver.rattle", USED)
    elif said.driver:
        run(said, said.driver.resolve())
    else:
        with tempfile.TemporaryDirectory() as folder:
            driver = pathlib.Path(folder) / "driver"
            build(driver, HERE / "driver.rattle", USED)
            run(said, driver)


if __name__ == "__main__":
    main()
