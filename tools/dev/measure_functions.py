#!/usr/bin/python3
"""Tells which functions of a crate take long to prove: run it after a first `rt check` in the crate's folder.

    tools/dev/measure_functions.py CRATE..   for each crate, the functions that took the most seconds by the clock

The prover writes a module into `out/` as soon as it has checked it, one after another, so a module took the time since the one before it.
The first function that names a library also reads it. `rt check` begins with what checks of other copies kept, if any: those modules are older.
"""
import collections
import pathlib
import sys

CRATES = pathlib.Path(__file__).resolve().parents[2] / "crates"
SHOWN = 12
# A longer time between two modules is one between two checks.
PAUSE = 300
# What a function's modules are named beside the function.
PARTS = set("Answers Code Given Goals Key Kinds Layout Lts Met Mir Proof Reads Statement Symbol Tie View decls".split())


def function_of(module):
    words = module.partition(".")[2].split(".")
    while len(words) > 1 and words[-1] in PARTS:
        words.pop()
    return ".".join(words)


def seconds_of(folder):
    """The seconds of each function, of the modules that stand in a folder."""
    written = sorted((file.stat().st_mtime, file.name.removesuffix(".oantt")) for file in folder.rglob("*.oantt"))
    seconds = collections.Counter()
    for (before, _), (after, module) in zip(written, written[1:]):
        if after - before < PAUSE:
            seconds[function_of(module)] += after - before
    return seconds


def main():
    for name in sys.argv[1:]:
        seconds = seconds_of(CRATES / name / "out" / "incremental")
        print(f"{name}: {sum(seconds.values()):.0f} s")
        for function, own in seconds.most_common(SHOWN):
            print(f"{own:8.1f}  {function}")


if __name__ == "__main__":
    main()
