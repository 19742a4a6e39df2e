#!/usr/bin/env python3
"""Serves scripts that differ from the valid ones of examples/ in one byte. See README.md, and --help."""
import argparse
import os
import pathlib
import random
import sys
from collections import Counter
from concurrent.futures import ProcessPoolExecutor
from functools import partial

ROOT = pathlib.Path(__file__).resolve().parent.parent.parent
sys.path.insert(0, str(ROOT / "tests/second_implementation"))

from serving import served  # noqa: E402

PROGRAM = ROOT / "crates/edgebpf/out/edgebpf"
SCRIPTS = [path.read_bytes() for path in sorted((ROOT / "examples").glob("*.script"))]
BYTES = b" \n\t#+-09afxzAZ[];:,.\r\x00\xff"
PIECE = 500


def mutated(number):
    """A script with one byte changed, left out, put in or written twice; the same for the same number."""
    choice = random.Random(number)
    script = bytearray(choice.choice(SCRIPTS))
    place = choice.randrange(len(script))
    kind = choice.randrange(4)
    if kind == 0:
        script[place] = choice.randrange(256)
    elif kind == 1:
        del script[place]
    elif kind == 2:
        script.insert(place, choice.choice(BYTES))
    else:
        script.insert(place, script[place])
    return bytes(script)


def end_of(program, seconds, workers, number):
    """How the serving of a script ended: with status 0 and no fault, with status 1 and its fault, or otherwise, which is told."""
    ended = served(program, workers, mutated(number), seconds)
    if ended is None:
        print(f"script {number}, {workers} workers: it did not end in {seconds} seconds", flush=True)
        return "not well ended"
    text, status, said = ended
    last = text.splitlines()[-1:] or [b""]
    fault = last[0].decode(errors="replace").split()[:2] if last[0].startswith(b"fault ") else None
    if said or status != (1 if fault else 0):
        print(f"script {number}, {workers} workers: status {status}, last line {last[0]!r}, said {said!r}", flush=True)
        return "not well ended"
    return " ".join(fault) if fault else "ended without a fault"


def ends_of(program, seconds, workers, numbers):
    """The ends of some scripts, each of which is served by one of these numbers of workers in turn."""
    ends = Counter()
    for number in numbers:
        count = workers[number % len(workers)]
        ends[f"{count} workers"] += 1
        ends[end_of(program, seconds, count, number)] += 1
    return ends


def arguments():
    words = argparse.ArgumentParser(description="Serves scripts that differ from those of examples/ in one byte: each has to end by itself.")
    words.add_argument("--count", type=int, default=10_000, help="how many scripts (10,000)")
    words.add_argument("--from", type=int, default=0, dest="first", help="the number of the first one (0)")
    words.add_argument("--workers", type=int, nargs="+", default=[1], help="with how many workers the scripts are served, in turn (1)")
    words.add_argument("--processes", type=int, default=os.cpu_count(), help="how many processes work side by side (as many as cores)")
    words.add_argument("--seconds", type=int, default=120, help="how long a serving may take by the clock; more on a busy machine (120)")
    words.add_argument("--program", type=pathlib.Path, default=PROGRAM, help="the program that serves")
    return words.parse_args()


def main():
    said = arguments()
    if not said.program.exists():
        sys.exit(f"serve.py: {said.program} is not there: build it by tools/prove edgebpf, or name another by --program")
    last = said.first + said.count
    pieces = [range(start, min(start + PIECE, last)) for start in range(said.first, last, PIECE)]
    with ProcessPoolExecutor(said.processes) as pool:
        ends = sum(pool.map(partial(ends_of, said.program, said.seconds, said.workers), pieces), Counter())
    for kind, times in sorted(ends.items()):
        print(f"{kind}: {times}")
    print(f"{said.count} scripts from {said.first} on served, {ends['not well ended']} did not end well")
    sys.exit(1 if ends["not well ended"] else 0)


if __name__ == "__main__":
    main()
