#!/usr/bin/env python3
"""Measures what a process holds before and after a rebase: freed.py PROGRAM [--write].

A rebase frees the earlier batches at once if no pin has them. No contract speaks of memory, so a store that keeps a version too long is proved, too.
With --write it also measures what stays with the process where its heaps grow as `./edgebpf` lets them, and writes docs/figures/freed.txt.
"""
import os
import pathlib
import re
import subprocess
import sys

TOP = pathlib.Path(__file__).resolve().parent.parent.parent
BATCHES, EDITS, VERTICES = 60, 65_536, 4_096
# So many batches take more than a heap grows by.
MANY_BATCHES = 160
# Of what the batches take this much may be left, which is far more than what else goes on.
MOST_LEFT = 0.2


class Served:
    """A process that answers a script as it comes."""

    def __init__(self, program, tunables):
        room = {key: value for key, value in os.environ.items() if key != "GLIBC_TUNABLES"} | ({"GLIBC_TUNABLES": tunables} if tunables else {})
        self.process = subprocess.Popen([program], stdin=subprocess.PIPE, stdout=subprocess.PIPE, text=True, env=room)

    def ask(self, text):
        """Sends a command, and waits for its answer, which begins with the same word."""
        self.process.stdin.write(text)
        self.process.stdin.flush()
        answer = self.process.stdout.readline()
        if answer.split()[:1] != text.split()[:1]:
            sys.exit(f"freed: {text[:20]!r} is answered {answer!r}")

    def held(self):
        """The bytes of memory that the process has."""
        status = pathlib.Path(f"/proc/{self.process.pid}/status").read_text()
        return int(re.search(r"VmRSS:\s+(\d+) kB", status)[1]) << 10

    def end(self):
        self.process.stdin.close()
        return self.process.wait()


def batches(count):
    """Batches that put the same edges in, and take them out again."""
    edits = ["".join(f"{sign} {place % VERTICES} {place // VERTICES}\n" for place in range(EDITS)) for sign in "+-"]
    return [f"batch A\n{edits[number % 2]}end\n" for number in range(count)]


def left(program, is_pinned, count=BATCHES, tunables=None):
    """How much of what the batches took a rebase leaves, and how much they took."""
    served = Served(program, tunables)
    served.ask(f"graph {VERTICES}\n")
    begun = served.held()
    for batch in batches(count):
        served.ask(batch)
    if is_pinned:
        served.ask("pin a\n")
    taken = served.held() - begun
    served.ask("rebase\n")
    after = served.held() - begun
    assert served.end() == 0 and taken > count * EDITS * 8, f"the batches took {taken} bytes"
    return after / taken, taken


def settings():
    """What `./edgebpf` sets for the C library."""
    return re.search(r"GLIBC_TUNABLES:-([\w.=:]+)", (TOP / "tools/proved_program").read_text())[1]


def write(program):
    sys.path.insert(0, str(TOP / "tools/dev"))
    import figures

    rows = []
    for count, tunables, words in ((BATCHES, None, "without"), (BATCHES, settings(), "with"), (MANY_BATCHES, settings(), "with")):
        share, taken = left(program, False, count, tunables)
        rows.append((f"{count} batches of {EDITS:,} edits, {words}", f"{taken / 1e6:.0f} MB", f"{share:.0%}"))
    figures.write("freed", ("Log that a rebase frees, without or with the settings of `./edgebpf`", "Takes", "Stays with the process"), rows)


def main():
    (free, _), (pinned, _) = (left(sys.argv[1], is_pinned) for is_pinned in (False, True))
    if free > MOST_LEFT or pinned < 1 - MOST_LEFT:
        sys.exit(f"freed: a rebase left {free:.0%} of the memory of batches, and {pinned:.0%} where a pin has them")
    print(f"freed: a rebase leaves {free:.0%} of the memory of {BATCHES} batches, and {pinned:.0%} where a pin has them")
    if "--write" in sys.argv[2:]:
        write(sys.argv[1])


if __name__ == "__main__":
    main()
