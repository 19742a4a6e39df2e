#!/usr/bin/env python3
"""Measures what the C library's settings of ./edgebpf save in large batches: measure_heaps.py [PROGRAM] [--write]

Each row is of a number of workers and of none, some or all of the settings. System calls are counted by strace, and peak memory is read, in runs of
their own. Page faults are the median of some runs, and CPU time the least, in which the settings take turns, so that other work of the machine meets
them alike. With --write the figures go into docs/figures/heaps.txt.
"""
import os
import pathlib
import random
import re
import statistics
import subprocess
import sys
import tempfile

import figures
from count_hubs import MOST_EDITS, PROGRAM, VERTICES, batch
from measure_memory import peak
from measure_threads import Served

BATCHES, RUNS, WORKERS = 8, 7, (1, 4)
COUNTED = ("mprotect", "brk")
STARTS = ("clone", "clone3")


def settings():
    """What `./edgebpf` sets for the C library, a setting each."""
    return re.search(r"GLIBC_TUNABLES:-([\w.=:]+)", (figures.TOP / "tools/proved_program").read_text())[1].split(":")


def ways():
    """No settings, the first one, the first two, and so on, each with its words."""
    names = [one.removeprefix("glibc.malloc.") for one in settings()]
    return [(" and ".join(f"`{name}`" for name in names[:count]) or "no setting", ":".join(settings()[:count])) for count in range(len(names) + 1)]


def texts():
    """The text of each batch."""
    choice = random.Random(1)
    return ["\n".join(batch(f"+ {choice.randrange(VERTICES)} {choice.randrange(VERTICES)}" for _ in range(MOST_EDITS))) for _ in range(BATCHES)]


def room(tunables):
    rest = {key: value for key, value in os.environ.items() if key != "GLIBC_TUNABLES"}
    return rest | ({"GLIBC_TUNABLES": tunables} if tunables else {})


def calls(words, tunables, script, folder):
    """How often each system call was made."""
    table = folder / "calls"
    with open(script) as lines:
        subprocess.run(["strace", "-f", "-c", "-o", table, *words], stdin=lines, stdout=subprocess.DEVNULL, env=room(tunables), check=True)
    rows = [line.split() for line in table.read_text().splitlines()]
    return {row[-1]: int(row[3]) for row in rows if len(row) >= 5 and row[3].isdigit()}


def used(words, tunables, script):
    """Page faults and CPU seconds of one run."""
    with open(script) as lines:
        process = subprocess.Popen(words, stdin=lines, stdout=subprocess.DEVNULL, env=room(tunables))
        _, status, usage = os.wait4(process.pid, 0)
        process.returncode = os.waitstatus_to_exitcode(status)
    if status:
        sys.exit(f"measure_heaps: {' '.join(words)} ended with status {process.returncode}")
    return usage.ru_minflt, usage.ru_utime + usage.ru_stime


def most_held(program, workers, tunables, batches):
    """The peak of its memory, in megabytes."""
    with Served(program, workers, env=room(tunables)) as served:
        served.send(f"graph {VERTICES}")
        for text in batches:
            served.send(text)
            served.until(b"batch ")
        return peak(served.process)


def measured(program, folder):
    """The rows of the table."""
    batches, script = texts(), folder / "script"
    script.write_text("\n".join([f"graph {VERTICES}", *batches, ""]))
    cases = [(workers, *way) for workers in WORKERS for way in ways()]
    words_of = {case: [program, "--workers", str(case[0])] for case in cases}
    runs = {case: [] for case in cases}
    for _ in range(RUNS):
        for case in cases:
            runs[case].append(used(words_of[case], case[2], script))
    for case in cases:
        workers, words, tunables = case
        counts = calls(words_of[case], tunables, script, folder)
        faults, seconds = zip(*runs[case])
        yield (
            f"{workers} worker{'s' * (workers > 1)}, {words}", *(f"{counts.get(name, 0):,}" for name in COUNTED),
            f"{sum(counts.get(name, 0) for name in STARTS)}", f"{statistics.median(faults):,}",
            f"{most_held(program, workers, tunables, batches):.0f} MB", f"{min(seconds) * 1_000 / BATCHES:.0f} ms",
        )


def main():
    words = [word for word in sys.argv[1:] if word != "--write"]
    with tempfile.TemporaryDirectory() as folder:
        rows = list(measured(str(words[0] if words else PROGRAM), pathlib.Path(folder)))
    for row in rows:
        print(figures.line_of(row))
    if "--write" in sys.argv:
        heads = (f"{BATCHES} batches of {MOST_EDITS:,} insertions", *(f"`{name}`" for name in COUNTED), "threads begun", "page faults", "peak memory",
                 "CPU time a batch, with its lines")
        figures.write("heaps", heads, rows)


if __name__ == "__main__":
    main()
