#!/usr/bin/python3
"""Compares which rows a standing query asks again with those that change, for random programs and batches: none may be missing.

    tests/serve/standing_rows.py --seconds 10 --seed 1

What changes is seen by whole runs of both versions. Programs ask the graph about their source, their target, vertices near to these, and what
they were answered before; what is told of them, own, target or all, comes from their code.
"""
import argparse
import collections
import os
import pathlib
import random
import sys
import time

TOP = pathlib.Path(__file__).resolve().parent.parent.parent
sys.path[:0] = [str(TOP / "tools"), str(TOP / "bindings" / "python")]

import edgebpf  # noqa: E402
import numpy as np  # noqa: E402
from edgebpf_serve.graph import Graph  # noqa: E402
from edgebpf_serve.limits import REMOVE, Options  # noqa: E402
from edgebpf_serve.named import Source, verified  # noqa: E402
from edgebpf_serve.standing import Point, Query, Standing  # noqa: E402

VERTICES, BATCHES = 40, 5
VERTEX = {
    "source": ["ldxw r1, [r9+0]"], "target": ["ldxw r1, [r9+4]"], "kept source": ["mov r1, r7"], "kept target": ["mov r1, r8"],
    "beside": ["ldxw r1, [r9+4]", "add r1, {small}"], "answer": ["mov r1, r6", "mod r1, 40"], "fixed": ["mov r1, {vertex}"],
    "low half": ["mov32 r1, r8"],
}
# "beside", "answer" and "fixed" are rare, since one of them has all rows asked.
NEAR, FAR = ("source", "target", "kept source", "kept target", "low half"), ("beside", "answer", "fixed")
OTHER = {"source": "mov r2, r7", "target": "mov r2, r8", "fixed": "mov r2, {vertex}", "place": "mov r2, {small}"}
# Number and whether it has a second argument.
HELPERS = {1: False, 2: True, 3: True}
JOIN = ("add r6, r0", "xor r6, r0", "mul r6, 3\nadd r6, r0")


def random_program(chance):
    """A text that the verifier accepts: it asks a few things, and returns what it was answered, mixed."""
    kinds = chance.choice([("source", "kept source"), NEAR, NEAR, NEAR + FAR])
    lines = ["mov r9, r1", "ldxw r7, [r9+0]", "ldxw r8, [r9+4]", "ldxw r6, [r9+8]"]
    for number in range(chance.randrange(1, 5)):
        is_skipped = chance.random() < 0.3
        if is_skipped:
            lines.append(f"jgt r6, {chance.randrange(6)}, skip{number}")
        helper = chance.choice(list(HELPERS))
        lines += VERTEX[chance.choice(kinds)]
        lines += [OTHER[chance.choice(list(OTHER))]] if HELPERS[helper] else []
        lines += [f"call {helper}", chance.choice(JOIN)]
        if is_skipped:
            lines.append(f"skip{number}:")
    return "\n".join([*lines, "mov r0, r6", "exit"]).format(small=chance.randrange(4), vertex=chance.randrange(VERTICES))


def random_batch(chance):
    edits = np.array([[chance.randrange(VERTICES), chance.randrange(VERTICES)] for _ in range(chance.randrange(1, 8))], np.uint32)
    marks = np.array([chance.random() < 0.5 for _ in edits], np.uint32)
    edits[:, 0] |= marks << np.uint32(31)
    return edits


class History:
    """A graph over batches, and the sources that changed."""

    def __init__(self, chance):
        self.graph, self.chance, self.seq = Graph(VERTICES, Options(mirror=True, rebase_batches=9)), chance, 0
        self.graph.apply(np.array([[chance.randrange(VERTICES), chance.randrange(VERTICES)] for _ in range(120)], np.uint32))

    def moment(self):
        return self.graph.moment(self.seq)

    def go_on(self):
        """Some batches, and the sources of all."""
        sources = []
        for _ in range(self.chance.randrange(1, BATCHES)):
            edits = random_batch(self.chance)
            self.graph.apply(edits)
            sources.append(edits[:, 0] & ~np.uint32(REMOVE))
            self.seq += 1
        return np.unique(np.concatenate(sources))


def one_program(chance, history, counts):
    kept = verified("p", Source(16, "text", random_program(chance).encode(), b""))
    reduction = chance.choice(["sum", "min", "max"])
    standing = Standing(None, Query("p", reduction, b"", ()), kept)
    for _ in range(3):
        before = Point(history.moment(), (), "")
        changed = history.go_on()
        after = Point(history.moment(), (), "")
        asked = standing._to_ask(before, after, changed)
        old, new = (point.moment.version.run(kept.program, reduction).values for point in (before, after))
        differ = np.flatnonzero(old != new)
        missed = [] if asked is None else np.setdiff1d(differ, asked)
        if len(missed):
            sys.exit(f"standing_rows: {kept.asks}: rows {missed.tolist()} changed and are not asked for: {kept.source.body.decode()!r}")
        counts[kept.asks] += 1
        counts["rows that changed"] += len(differ)
        counts["rows asked"] += VERTICES if asked is None else len(asked)


def main():
    parser = argparse.ArgumentParser(description=__doc__, formatter_class=argparse.RawDescriptionHelpFormatter)
    parser.add_argument("--seconds", type=float, default=30)
    parser.add_argument("--seed", type=int, default=int.from_bytes(os.urandom(4), "little"))
    options = parser.parse_args()
    chance, counts, begun = random.Random(options.seed), collections.Counter(), time.monotonic()
    history, programs = History(chance), 0
    while time.monotonic() < begun + options.seconds:
        try:
            one_program(chance, history, counts)
        except edgebpf.Refused as refused:
            sys.exit(f"standing_rows: seed {options.seed}: a program is refused: {refused}")
        programs += 1
    told = ", ".join(f"{count} {what}" for what, count in sorted(counts.items()))
    print(f"standing_rows: seed {options.seed}: {programs} programs: {told}")


if __name__ == "__main__":
    main()
