#!/usr/bin/python3
"""How long a step takes for its budget, over programs and graphs that are made to be slow. By hand, on a machine that does nothing else:

    hostile_budgets.py [--seconds N] [--seed S] [--budgets N ..] [--shown K]

docs/EMBEDDING.md says that most units take 1 to 5 ns, and one that calls a helper some hundreds, and that a step finishes the edge, or the block of up to
64 edges, that it began. So a budget stands for a time, and no step that stands for a millisecond at least should take twice as long. Programs are drawn of
divisions, byte swaps, stores of bytes, loads all over a table, branches that differ from edge to edge, local calls and helpers; graphs are dense, have a
hub, few edges, one for each vertex, scattered ones, or lists of all homes; frontiers ascend or are at random. Times are CPU time of the thread, and the
clock stands beside them. A draw with a step over twice its time is measured three times more, and the least of its worst steps counts. It ends with
status 1 if one is left over twice.
"""
import argparse
import dataclasses
import functools
import pathlib
import random
import sys
import time

import numpy as np

TOP = pathlib.Path(__file__).resolve().parents[3]
sys.path.insert(0, str(TOP / "bindings" / "python"))
sys.dont_write_bytecode = True

import edgebpf

# What a unit stands for, and one that calls a helper; a step that stands for less than the last is too short to measure.
UNIT, HELPER, LEAST = 5e-9, 300e-9, 1e-3
MOST_RATIO, BLOCK, AGAIN, MOST_STEPS = 2.0, 64, 3, 12
BUDGETS = (200_000, 1_000_000, 4_000_000, 20_000_000)
EDGE, COLUMN = 16, 16
ORDINARY = "ldxw r0, [r1+4]\nexit"
LENGTHS = (2, 10, 60, 400, 3_000)
KINDS = ("lines", "products", "divisions", "signed", "remainders", "swaps", "bytes", "table", "branches", "calls", "lent", "helpers", "gathers", "columns")
BEGIN = "mov r9, r1\nldxw r6, [r1+0]\nldxw r7, [r1+4]\nmov r8, r7\nmov r0, 0\nmov r2, 1"
# Each leaves what the others rely on: r6 and r7 are the source and the target, r8 any number, r9 the record.
PIECES = {
    "lines": "add r0, r7\nxor r0, r6",
    "products": "mul r0, r7\nadd r0, 12345",
    # Of great numbers by one, which take processors longest.
    "divisions": "mov r2, 1\nmov r0, -1" + 20 * "\ndiv r0, r2",
    "signed": "mov r2, 1\nmov r0, -1\nlsh r0, 62" + 20 * "\nsdiv r0, r2",
    "remainders": "mov r2, r7\nor r2, 1\nmov r0, -1\nmod r0, r2\nlsh r0, 40\nsmod r0, 7",
    "swaps": "swap64 r0\nbe32 r8\nswap16 r0\nadd r0, r7",
    "bytes": "stxb [r10-{byte}], r7\nstb [r10-{other}], 7\nldxb r2, [r10-{byte}]\nadd r0, r2",
    "table": "mul r8, 61\nadd r8, {byte}\nmov r2, r8\nand r2, 4095\nmov r4, r3\nadd r4, r2\nldxb r2, [r4+0]\nadd r0, r2",
    "branches": "jset r7, {bit}, one{n}\nadd r0, 3\nja two{n}\none{n}:\nxor r0, r7\ntwo{n}:",
    "calls": "mov r1, r7\ncalllocal plain\nmov r0, r0",
    "lent": "mov r1, r10\nadd r1, -512\nmov r2, r7\ncalllocal fills\nmov r0, r0",
    "helpers": "mul r8, 48271\nadd r8, r7\nmod r8, {vertices}\nmov r1, r8\nmov r2, r6\ncall 2\nmov r1, r8\nmov r2, 0\ncall 3\nmov r8, r0",
    "gathers": "mul r8, 48271\nadd r8, r7\nmod r8, {vertices}\nmov r1, r8\nmov r2, 0\nmov r3, r10\nadd r3, -256\nmov r4, 256\ncall 5",
    "columns": "ldxdw r2, [r9+{column}]\nadd r0, r2",
}
HELPERS = {"helpers": 2, "gathers": 1}
# A call of the last of these lends a frame through all that there may be.
FUNCTIONS = {
    "calls": "plain:\nmov r0, r1\nexit",
    "lent": "\n".join(
        f"{name}:\nstxdw [r1+{8 * depth}], r2\nstdw [r10-512], 1\n" + (f"calllocal deeper{depth + 1}\nexit" if depth < 6 else "mov r0, r2\nexit")
        for depth, name in enumerate(["fills", *(f"deeper{depth}" for depth in range(1, 7))])),
}


@dataclasses.dataclass
class Drawn:
    """A program with its kinds, how many columns it is lent, and what one of its units stands for."""

    kinds: tuple
    program: edgebpf.Program
    columns: int
    unit: float

    @property
    def edge(self):
        """The most units of an edge, or of a block of them."""
        return max(BLOCK * (min(len(self.program.assembled()) // 8, self.program.bound) + 4), self.program.bound + 4)


def drawn(chance, vertices, of_kinds=KINDS):
    """A program of one to three kinds, as long as drawn."""
    kinds = tuple(sorted(set(chance.choices(of_kinds, k=chance.choice([1, 1, 2, 3])))))
    # A helper, or a call, unsets the address of the table.
    if "table" in kinds and {"calls", "lent", "helpers", "gathers"} & {*kinds}:
        kinds = tuple(kind for kind in kinds if kind != "table")
    columns = chance.choice([1, 2, 8]) if "columns" in kinds else chance.choice([0, 0, 0, 1, 8])
    length, lines, helpers = chance.choice(LENGTHS), [BEGIN], 0
    if kinds == ("columns",) and length == LENGTHS[0]:
        lines = [f"ldxdw r0, [r1+{EDGE + COLUMN * columns - 8}]"]
    elif length == LENGTHS[0]:
        kinds, lines = ("least",), ["ldxw r0, [r1+4]"]
    while length > LENGTHS[0] and sum(line.count("\n") + 1 for line in lines) < length:
        kind, number = chance.choice(kinds), len(lines)
        lines.append(PIECES[kind].format(
            byte=chance.randrange(1, 513), other=chance.randrange(1, 513), bit=1 << chance.randrange(20), n=number, vertices=vertices,
            column=EDGE + 8 * chance.randrange(2 * columns) if columns else 0))
        helpers += HELPERS.get(kind, 0)
    text = "\n".join([*lines, "exit", *(FUNCTIONS[kind] for kind in kinds if kind in FUNCTIONS)])
    table = chance.randbytes(4_096) if "table" in kinds else b""
    program = edgebpf.assemble(text, record=EDGE + COLUMN * columns, table=table)
    return Drawn(kinds, program, columns, (UNIT * (program.bound + 4 - helpers) + HELPER * helpers) / (program.bound + 4))


@functools.cache
def version_of(name):
    """A version of a graph that is hostile in one way; `dense` is the ordinary one."""
    chance = np.random.default_rng(3)
    at_random = lambda vertices, count: chance.integers(0, vertices, (2, count), dtype=np.uint32)
    vertices, edges = {
        "dense": lambda: (4_096, np.stack([np.repeat(np.arange(4_096), 256), np.tile(np.arange(256), 4_096)])),
        "hub": lambda: (1 << 20, np.stack([np.zeros(1 << 20, np.uint32), np.arange(1 << 20)])),
        "few edges": lambda: (1 << 22, at_random(1 << 22, 4_000)),
        "one each": lambda: (1 << 20, np.stack([np.arange(1 << 20), at_random(1 << 20, 1 << 20)[0]])),
        "scattered": lambda: (1 << 20, at_random(1 << 20, 1 << 22)),
        "wide": lambda: (1 << 24, at_random(1 << 24, 1 << 22)),
        "homes": lambda: (20_000, np.stack([np.repeat(np.arange(2_000), 700) * 10 % 20_000, at_random(20_000, 1_400_000)[0]])),
    }[name]()
    store = edgebpf.Store(vertices)
    order = chance.permutation(edges.shape[1])
    for number, begin in enumerate(range(0, len(order), 65_536)):
        if number % 1_000 == 999:
            store.rebase()
        store.batch("A", tuple(edges[:, order[begin:begin + 65_536]].astype(np.uint32)))
    # Small batches put lists of blocks, arrays and trees into other homes.
    for _ in range(200 if name == "homes" else 0):
        store.batch("A", tuple(at_random(vertices, 300)), tuple(at_random(vertices, 300)))
    return store.pin()


@functools.cache
def column_of(vertices, number):
    return np.random.default_rng(number).integers(0, 1 << 62, vertices, dtype=np.uint64)


GRAPHS = ("dense", "hub", "few edges", "one each", "scattered", "wide", "homes")
WORKS = ("run", "numbers", "pairs", "push")
FRONTIERS = ("range", "array", "at random")
PAIRS_OF_A_DRAW = 1 << 20


@dataclasses.dataclass
class Asked:
    """What is measured: a program over a graph, by one of the works, with a frontier."""

    drawn: Drawn
    graph: str
    work: str
    frontier: str

    def begun(self):
        version, given = version_of(self.graph), self.drawn
        columns = [column_of(version.vertices, number) for number in range(given.columns)]
        chosen = {
            "range": lambda: None, "array": lambda: np.arange(version.vertices, dtype=np.uint32),
            "at random": lambda: np.random.default_rng(5).permutation(version.vertices).astype(np.uint32),
        }[self.frontier]()
        if self.work == "run":
            return version.begin(given.program, frontier=chosen, columns=columns)
        if self.work == "numbers":
            return version.begin_numbers(given.program, chosen, columns=columns)
        if self.work == "push":
            return version.begin_push(given.program, frontier=chosen, columns=columns, into=np.zeros(version.vertices, np.uint64))
        ends = np.random.default_rng(6).integers(0, version.vertices, (2, PAIRS_OF_A_DRAW), dtype=np.uint32)
        return version.begin_pairs(given.program, *ends, columns=columns)

    def __str__(self):
        columns = f", {self.drawn.columns} columns" if self.drawn.columns else ""
        return f"{self.work}, {'+'.join(self.drawn.kinds)}, bound {self.drawn.program.bound}{columns}, {self.graph}, {self.frontier}"


def worst_step(asked, budget):
    """The seconds of CPU time of the longest of some steps, with those of the clock, and how many edges and vertices it did."""
    run, worst = asked.begun(), (0.0, 0.0, 0, 0)
    for _ in range(MOST_STEPS):
        if run.done:
            break
        before, clock, thread = run.at, time.perf_counter(), time.thread_time()
        edges = run.edges
        run.step(budget)
        taken = time.thread_time() - thread, time.perf_counter() - clock, run.edges - edges, run.at[0] - before[0]
        worst = max(worst, taken)
    return worst


def time_of(asked, budget):
    """What a budget stands for, with the edge or block that was begun. A pair's search for its place is as a helper."""
    pairs = budget / (asked.drawn.program.bound + 4) if asked.work == "pairs" else 0
    return (budget + asked.drawn.edge) * asked.drawn.unit + pairs * HELPER


@functools.cache
def ordinary(budget):
    """The median seconds of a step of an ordinary program over dense lists."""
    program = edgebpf.assemble(ORDINARY)
    asked, taken = Asked(Drawn(("ordinary",), program, 0, UNIT), "dense", "run", "array"), []
    for _ in range(9):
        run = asked.begun()
        while not run.done:
            before, used = time.thread_time(), run.used
            run.step(budget)
            # The last step is shorter, so its rate counts.
            taken.append((time.thread_time() - before) * budget / (run.used - used))
    return float(np.median(taken))


def measured(asked, budget):
    """The worst step, and how many times its budget's time it took."""
    worst = worst_step(asked, budget)
    for _ in range(AGAIN if worst[0] > MOST_RATIO * time_of(asked, budget) else 0):
        worst = min(worst, worst_step(asked, budget))
    return worst, worst[0] / time_of(asked, budget)


def drawn_and_measured(given):
    """All that is measured in some seconds: the ratio, the budget, what was asked, and the worst step."""
    chance, until, found, number = random.Random(given.seed), time.monotonic() + given.seconds, [], 0
    while time.monotonic() < until:
        graph = chance.choice(given.graphs)
        asked = Asked(drawn(chance, version_of(graph).vertices, given.kinds), graph, chance.choice(given.works), chance.choice(FRONTIERS))
        for budget in given.budgets:
            if time_of(asked, budget) >= LEAST:
                worst, ratio = measured(asked, budget)
                found.append((ratio, budget, number, asked, worst))
        number += 1
    return found, number


def show(found, count):
    print(f"| Ratio | Budget stands for, ms | Took, ms of CPU | by the clock | of the ordinary step | ns a unit | Budget | What |\n{'|---' * 8}|")
    for ratio, budget, _, asked, worst in sorted(found, key=lambda one: -one[0])[:count]:
        numbers = [f"{ratio:.2f}", f"{1e3 * time_of(asked, budget):.1f}", f"{1e3 * worst[0]:.1f}", f"{1e3 * worst[1]:.1f}"]
        print("|", " | ".join([*numbers, f"{worst[0] / ordinary(budget):.1f}", f"{1e9 * worst[0] / budget:.1f}", f"{budget:,}", f"{asked}: {worst[2]:,} edges, {worst[3]:,} vertices"]), "|")


def main():
    words = argparse.ArgumentParser(description=__doc__, formatter_class=argparse.RawDescriptionHelpFormatter)
    words.add_argument("--seconds", type=float, default=600, help="how long programs are drawn (600)")
    words.add_argument("--seed", type=int, default=1)
    words.add_argument("--budgets", type=int, nargs="+", default=BUDGETS, help=f"units ({' '.join(map(str, BUDGETS))})")
    words.add_argument("--graphs", nargs="+", default=GRAPHS, choices=GRAPHS, help="which (all)")
    words.add_argument("--works", nargs="+", default=WORKS, choices=WORKS, help="which (all)")
    words.add_argument("--kinds", nargs="+", default=KINDS, choices=KINDS, help="of pieces of programs (all)")
    words.add_argument("--shown", type=int, default=30, help="how many of the worst are shown (30)")
    given = words.parse_args()
    found, number = drawn_and_measured(given)
    show(found, given.shown)
    over = sum(ratio > MOST_RATIO for ratio, *_ in found)
    print(f"hostile_budgets: {number} draws from seed {given.seed} on, {len(found)} with a budget that stands for 1 ms at least, {over} over twice its time")
    sys.exit(1 if over else 0)


if __name__ == "__main__":
    main()
