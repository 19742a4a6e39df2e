#!/usr/bin/python3
"""Measures what docs/COOKBOOK.md does on a random graph of 1,000,000 vertices and 5,000,000 edges, in C, in Python and as scripts, and by its peers.

    tools/dev/measure_cookbook.py FORM [--edges N]     FORM: c, python, script, scipy, sqlite, networkx

It prints CPU seconds (user and system) of one worker for each thing done, without the loading of the graph, and its answer, which all forms share.
Debian's packages: clang-19 llvm-19 python3-pyelftools python3-numpy python3-cffi python3-scipy python3-networkx python3-distributed.
"""
import argparse
import pathlib
import resource
import sqlite3
import subprocess
import sys
import tempfile
import time

import numpy as np

from cookbook_peers import Networkx, Scipy, Sqlite

TOP = pathlib.Path(__file__).resolve().parent.parent.parent
FOLDER = TOP / "examples" / "cookbook"
sys.path[:0] = [str(FOLDER), str(TOP / "bindings" / "python"), str(TOP / "tools" / "dev")]
VERTICES, BATCHES, BATCH, LIMIT = 1_000_000, 64, 1_000, 600
TABLE = bytes(37 * place % 256 for place in range(240))
LISTED = np.arange(7, VERTICES, VERTICES // 100)[:100]


def graph_of(count):
    """Sources and targets, sorted: half of the ends of edges by a power law, and for every third edge the opposite one."""
    chance = np.random.default_rng(11)
    names = chance.permutation(VERTICES)

    def ends(many):
        hubs = np.minimum(chance.pareto(0.7, many) * 500, VERTICES - 1).astype(np.int64)
        return names[np.where(chance.integers(0, 2, many) == 0, hubs, chance.integers(0, VERTICES, many))]

    sources, targets = ends(count), ends(count)
    back = chance.integers(0, 3, count) == 0
    keys = np.unique(np.concatenate([sources * VERTICES + targets, (targets * VERTICES + sources)[back]]))
    keys = np.sort(chance.permutation(keys)[:count])
    return keys // VERTICES, keys % VERTICES


def later_batches():
    """Edges of batches that come later, each with distinct sources."""
    chance = np.random.default_rng(12)
    for _ in range(BATCHES):
        yield np.sort(chance.choice(VERTICES, BATCH, replace=False)), chance.integers(0, VERTICES, BATCH)


def spent(of=resource.RUSAGE_SELF):
    used = resource.getrusage(of)
    return used.ru_utime + used.ru_stime


def tell(name, seconds, answer):
    print(f"{name:10} {seconds:8.2f}  {answer}", flush=True)


def measured(name, call):
    begun = spent()
    answer = call()
    tell(name, spent() - begun, answer)


def child(words, **options):
    """The CPU seconds of a process, and what it prints."""
    begun = spent(resource.RUSAGE_CHILDREN)
    run = subprocess.run(words, check=True, capture_output=True, text=True, **options)
    return spent(resource.RUSAGE_CHILDREN) - begun, run.stdout, run.stderr


def lines(sources, targets, sign="+"):
    return "".join(f"{sign} {source} {target}\n" for source, target in zip(sources.tolist(), targets.tolist()))


def script_of(sources, targets):
    parts = [f"graph {VERTICES}\n"]
    for at in range(0, len(sources), 65_536):
        parts.append("batch A\n" + lines(sources[at:at + 65_536], targets[at:at + 65_536]) + "end\n")
    return "".join(parts)


def of_script(sources, targets):
    """Each script of the folder with this graph in place of its own, less a script that only loads it."""
    program, whole = str(TOP / "dist" / "build" / "edgebpf"), script_of(sources, targets)
    alone = min(child([program], input=whole + "pin now\n")[0] for _ in range(2))
    tell("load", alone, len(sources))
    for name in ("mutual", "common", "triangles", "bfs", "weight", "bloom"):
        shown = (FOLDER / f"{name}.script").read_text().split("pin now\n")[1]
        wanted = "".join(line for line in shown.splitlines(True) if not line.startswith("list") and "min 03000000" not in line)
        seconds, said, _ = child([program], input=whole + "pin now\n" + wanted)
        tell(name, seconds - alone, [line for line in said.splitlines() if line.startswith("run")])
    mutual = (FOLDER / "mutual.script").read_text().split("pin now\n")[1].rsplit("run", 1)[0]
    asked = [f"batch A\n{lines(some, other)}end\npin v{at}\nrun mutual v{at} sum - {' '.join(map(str, some))}\n" for at, (some, other) in enumerate(later_batches())]
    seconds, said, _ = child([program], input=whole + mutual + "".join(asked))
    tell("live", seconds - alone, sum(int(line.split()[6]) for line in said.splitlines() if line.startswith("run")))
    some, other = map(np.concatenate, zip(*later_batches()))
    after = "pin before\nbatch A\n" + lines(some, other) + "end\npin after\nrun mutual before sum -\nrun mutual after sum -\n"
    seconds, said, _ = child([program], input=whole + mutual + after)
    # A vertex that got its first edge has a row of 0 now.
    before, later = [{row for row in part.splitlines()[1:] if not row.endswith(" 0")} for part in said.split("run mutual ")[1:]]
    tell("snapshots", seconds - alone, len({line.split()[1] for line in before ^ later}))
    with tempfile.TemporaryDirectory() as folder:
        path = pathlib.Path(folder) / "graph.script"
        path.write_text(whole + "pin now\n" + mutual + "run mutual now sum -\n")
        seconds, said, _ = child(["sh", "-c", f"{program} < {path} | grep ^row | sort -k3nr -k2n | head -10"])
        tell("top", seconds - alone, said.split()[1:3])
        path.write_text(whole)
        (pathlib.Path(folder) / "code").write_text((FOLDER / "parts.script").read_text().split("pin now\n")[1].splitlines(True)[0])
        begun = time.monotonic()
        seconds, said, _ = child([TOP / "tools" / "edgebpf-spread", "--processes", "4", path, f"{folder}/code"])
        tell("parts", seconds, f"{said.splitlines()[0]}, {time.monotonic() - begun:.1f} seconds by the clock, with cutting and loading")


def of_c(sources, targets):
    with tempfile.TemporaryDirectory() as folder:
        edges, later = pathlib.Path(folder) / "edges", pathlib.Path(folder) / "later"
        edges.write_text(lines(sources, targets, "").replace("\n ", "\n"))
        later.write_text("".join(lines(*each, "") for each in later_batches()))
        count = str(VERTICES)
        for name, words, read in (("bfs", [], edges), ("live", [str(BATCH), edges], later), ("snapshots", [edges], later), ("top", ["10"], edges)):
            program = f"{folder}/{name}"
            subprocess.run(["cc", "-O2", f"-I{TOP}/bindings/c", "-o", program, FOLDER / f"{name}.c", TOP / "dist/build/libedgebpf.a"], check=True)
            _, said, seconds = child([program, count, *words], stdin=read.open())
            answers = said.splitlines()
            tell(name, float(seconds), {"live": sum(map(int, answers)) if name == "live" else 0, "snapshots": len(answers)}.get(name, answers[0]))


def of_python(sources, targets):
    import edgebpf
    import bfs, bloom, common, live, mutual, parts, snapshots, top, triangles, weight

    store = edgebpf.Store(VERTICES)
    for at in range(0, len(sources), 65_536):
        store.batch("A", inserts=(sources[at:at + 65_536], targets[at:at + 65_536]))
    version = store.pin()
    measured("mutual", lambda: mutual.mutual(version))
    measured("common", lambda: int(common.common(version).sum()))
    measured("triangles", lambda: triangles.triangles(version))
    measured("bfs", lambda: (lambda found: (int((found >= 0).sum()), int(found.max())))(bfs.distances(version, 0)))
    measured("weight", lambda: weight.weight(version, TABLE))
    measured("bloom", lambda: bloom.listed(version, LISTED))
    measured("live", lambda: sum(live.follow(store, later_batches())))
    after = store.pin()
    measured("snapshots", lambda: len(snapshots.changed(version, after)))
    measured("top", lambda: top.top(version, 10)[0])
    begun, clock = spent() + spent(resource.RUSAGE_CHILDREN), time.monotonic()
    total = parts.total(VERTICES, sources, targets, edgebpf.compile_c(FOLDER / "upward.c", "upward"), 4)
    tell("parts", spent() + spent(resource.RUSAGE_CHILDREN) - begun, f"{total}, {time.monotonic() - clock:.1f} seconds by the clock, with loading")


def of_peer(peer, sources, targets):
    """Each thing as a peer does it; a question to a table is given up after LIMIT seconds."""
    begun = spent()
    made = peer(VERTICES, sources, targets, np.frombuffer(TABLE, np.uint8).astype(np.int64), LISTED, later_batches)
    tell("load", spent() - begun, len(sources))
    for name in ("mutual", "top", "weight", "bloom", "bfs", "triangles", "common"):
        begun = spent()
        if peer is Sqlite:
            made.give_up(lambda begun=begun: spent() - begun > LIMIT)
        try:
            measured(name, getattr(made, name))
        except sqlite3.OperationalError:
            tell(name, spent() - begun, "given up")
    if peer is Sqlite:
        made.give_up(None)
    begun = spent()
    made.before()
    asking = spent() - begun
    measured("live", made.live)
    begun = spent()
    changed = made.snapshots()
    tell("snapshots", asking + spent() - begun, changed)


FORMS = {"c": of_c, "python": of_python, "script": of_script}
PEERS = {"scipy": Scipy, "sqlite": Sqlite, "networkx": Networkx}


def main():
    parser = argparse.ArgumentParser(description=__doc__, formatter_class=argparse.RawDescriptionHelpFormatter)
    parser.add_argument("form", choices=[*FORMS, *PEERS])
    parser.add_argument("--edges", type=int, default=5_000_000)
    options = parser.parse_args()
    sources, targets = graph_of(options.edges)
    print(f"{len(sources)} edges, at most {np.bincount(sources).max()} of a vertex", flush=True)
    if options.form in FORMS:
        FORMS[options.form](sources, targets)
    else:
        of_peer(PEERS[options.form], sources, targets)


if __name__ == "__main__":
    sys.dont_write_bytecode = True
    main()
