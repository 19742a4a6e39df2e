#!/usr/bin/env python3
"""Measures a run that looks up edges of vertices at random, in blocks of edges and edge by edge: measure_lookups.py [PROGRAM]

A figure is CPU time: that of a script with some runs, less that of the same script without them. The least of some tries counts.
"""
import random
import resource
import subprocess
import sys

from count_hubs import MOST_EDITS, PROGRAM, VERTICES, batch

EDGES, RUNS, TRIES = 1 << 22, 4, 3
# How many edges lead back, and the degrees of the targets.
LOOKUPS = """ldxw r6, [r1+0]
ldxw r7, [r1+4]
mov r1, r7
mov r2, r6
call 2
mov r8, r0
mov r1, r7
call 1
add r0, r8
exit
"""
# A program with more than three times as many units as its shortest path is run edge by edge.
UNREACHED = "exit\n" * 24


def seconds(program, lines):
    before = resource.getrusage(resource.RUSAGE_CHILDREN)
    subprocess.run([program], input=("\n".join(lines) + "\n").encode(), stdout=subprocess.DEVNULL, check=True)
    after = resource.getrusage(resource.RUSAGE_CHILDREN)
    return after.ru_utime + after.ru_stime - before.ru_utime - before.ru_stime


def graph():
    choice = random.Random(1)
    edits = [f"+ {choice.randrange(VERTICES)} {choice.randrange(VERTICES)}" for _ in range(EDGES)]
    return [f"graph {VERTICES}", *(line for start in range(0, EDGES, MOST_EDITS) for line in batch(edits[start:start + MOST_EDITS])), "pin a"]


def main():
    program, lines = sys.argv[1] if len(sys.argv) > 1 else PROGRAM, graph()
    least = {}
    for _ in range(TRIES):
        for way, text, runs in (("none", LOOKUPS, 0), ("in blocks", LOOKUPS, RUNS), ("edge by edge", LOOKUPS + UNREACHED, RUNS)):
            script = [*lines, "program p 16", text + "end", *["run p a sum -"] * runs]
            least[way] = min(least.get(way, 1e9), seconds(program, script))
    each = {way: (time - least["none"]) / RUNS / EDGES * 1e9 for way, time in least.items() if way != "none"}
    print(", ".join(f"{way} {time:.0f} ns an edge" for way, time in each.items()), f"{each['in blocks'] / each['edge by edge']:.2f}", sep="; ")


if __name__ == "__main__":
    main()
