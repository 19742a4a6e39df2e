#!/usr/bin/env python3
"""Serves random scripts by the built program and by the second implementation. See README.md, and --help."""
import argparse
import os
import pathlib
import pickle
import sys
from collections import Counter
from concurrent.futures import ProcessPoolExecutor
from functools import partial

from bpf import NoInstruction, Trap
from script import serve
from scripts import CALLS, COLUMNS, HUBS, Writer
from serving import served

PROGRAM = pathlib.Path(__file__).parent.parent.parent / "crates/edgebpf/out/edgebpf"
PIECE = 100


def kind_of(line):
    """What a line that was written tells of: a command, or a cause."""
    words = line.split()
    if words[0] in ("refused", "assembler", "image"):
        return " ".join([words[0], *words[2:4]])
    if words[0] == "home":
        return " ".join([words[0], words[2]])
    return " ".join(words[: 2 if words[0] == "fault" else 1])


def case_of(number):
    """A script with what the second implementation writes for it, its status, and what is counted of both."""
    script = Writer(number).script()
    try:
        text, status, seen = serve(script)
    except (NoInstruction, Trap) as stopped:
        return script, f"a program was accepted that does not exit: {stopped!r}", 0, Counter()
    lines = Counter("line " + kind_of(line) for line in text.splitlines())
    return script, text, status, seen + lines


def is_same(program, seconds, number, workers, case):
    """Whether the program writes what the second implementation writes; it tells where not."""
    script, text, status, _ = case
    ended = served(program, workers, script, seconds)
    if ended == (text.encode(), status, b""):
        return True
    if ended is None:
        print(f"script {number}, {workers} workers: it did not end in {seconds} seconds", flush=True)
        return False
    wanted, found = text.splitlines(), ended[0].decode(errors="replace").splitlines()
    differing = next((pair for pair in zip(wanted + [None], found + [None]) if pair[0] != pair[1]), None)
    print(f"script {number}, {workers} workers: wanted and found {differing}, status {ended[1]}, said {ended[2]!r}", flush=True)
    return False


def cases_of(numbers, folder):
    """The cases of these numbers, from the folder where they were kept."""
    kept = folder and folder / f"{numbers[0]}-{numbers[-1]}.pickle"
    if kept and kept.exists():
        return pickle.loads(kept.read_bytes())
    cases = [case_of(number) for number in numbers]
    if kept:
        # Written beside and then named, so that a piece is there whole or not at all.
        beside = kept.with_suffix(".part")
        beside.write_bytes(pickle.dumps(cases))
        beside.rename(kept)
    return cases


def compared(program, seconds, workers, folder, numbers):
    """What was counted of some scripts, and how many were served otherwise."""
    counts = Counter()
    for number, case in zip(numbers, cases_of(numbers, folder)):
        counts += case[3]
        counts["another output"] += not all([is_same(program, seconds, number, count, case) for count in workers])
    return counts


def kept(folder, numbers):
    """The cases are made and kept, and nothing is served."""
    return sum((case[3] for case in cases_of(numbers, folder)), Counter())


def write_cases(folder, numbers):
    """The scripts, each with what is wanted, as `rt try --cases` reads them."""
    for number, case in zip(numbers, cases_of(numbers, None)):
        (folder / f"{number}").write_bytes(case[0])
        (folder / f"{number}.stdout").write_text(case[1])
    return Counter()


def arguments():
    words = argparse.ArgumentParser(description="Serves random scripts by the built program and by a second implementation of the language.")
    words.add_argument("--count", type=int, default=10_000, help="how many scripts (10,000)")
    words.add_argument("--from", type=int, default=0, dest="first", help="the number of the first one (0)")
    words.add_argument("--hubs", action="store_true", help="scripts of long lists that are edited one edit a batch, near the borders of homes")
    words.add_argument("--calls", action="store_true", help="scripts of 150 programs each, which all have functions, most of them lent frames")
    words.add_argument("--columns", action="store_true", help="scripts about columns: mostly they set, show, pull, push and map them")
    words.add_argument("--workers", type=int, nargs="+", default=[1], help="with how many workers each script is served, in turn (1)")
    words.add_argument("--processes", type=int, default=os.cpu_count(), help="how many processes work side by side (as many as cores)")
    words.add_argument("--seconds", type=int, default=120, help="how long a serving may take by the clock; more on a busy machine (120)")
    words.add_argument("--program", type=pathlib.Path, default=PROGRAM, help="the program that serves")
    words.add_argument("--keep", type=pathlib.Path, metavar="FOLDER", help="keep what the second implementation writes there, and take it from there next time")
    words.add_argument("--only-keep", action="store_true", help="fill the folder of --keep, and serve nothing")
    words.add_argument("--write", type=pathlib.Path, metavar="FOLDER", help="write the scripts as cases of `rt try --cases FOLDER`, and serve nothing")
    return words.parse_args()


def job_of(said):
    for folder in filter(None, (said.keep, said.write)):
        folder.mkdir(parents=True, exist_ok=True)
    if said.write:
        return partial(write_cases, said.write)
    if said.only_keep:
        return partial(kept, said.keep)
    if not said.program.exists():
        sys.exit(f"compare.py: {said.program} is not there: build it by tools/prove edgebpf, or name another by --program")
    return partial(compared, said.program, said.seconds, said.workers, said.keep)


def main():
    said = arguments()
    first = said.first + (COLUMNS if said.columns else CALLS if said.calls else HUBS if said.hubs else 0)
    last = first + said.count
    pieces = [range(start, min(start + PIECE, last)) for start in range(first, last, PIECE)]
    with ProcessPoolExecutor(said.processes) as pool:
        counts = sum(pool.map(job_of(said), pieces), Counter())
    for kind, times in sorted(counts.items()):
        print(f"{kind}: {times}")
    if said.write or said.only_keep:
        print(f"{said.count} scripts written, none served")
        return
    workers = " and ".join(map(str, said.workers))
    print(f"{said.count} scripts from {said.first} on served with {workers} workers, {counts['another output']} with another output")
    sys.exit(1 if counts["another output"] else 0)


if __name__ == "__main__":
    main()
