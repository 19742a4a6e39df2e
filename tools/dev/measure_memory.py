#!/usr/bin/env python3
"""Measures the memory that a store holds, by the calls of malloc and free, and its log's peak: measure_memory.py [PROGRAM]

A library that is loaded before the C library's counts the bytes that are held, and writes them to standard error at a signal. The log's
rows take 4 GB of memory and minutes. The figures go into docs/figures/memory.txt, and by write_pages.py into docs/SPEED.md.
"""
import pathlib
import random
import signal
import subprocess
import sys
import tempfile

import figures
from count_hubs import MOST_EDITS, PROGRAM, VERTICES, batch
from measure_threads import Served

BATCHES, MOST_BATCHES = 64, 4_096
ROUNDS = 100
HUB_TARGETS, VERSIONS = 1_000_000, 64
SHIM = r"""
#include <errno.h>
#include <malloc.h>
#include <signal.h>
#include <stdio.h>
#include <string.h>
#include <unistd.h>

extern void *__libc_malloc(size_t), *__libc_calloc(size_t, size_t), *__libc_realloc(void *, size_t), *__libc_memalign(size_t, size_t);
extern void __libc_free(void *);
static long held;

static void *counted(void *place)
{
    if (place)
        __atomic_add_fetch(&held, malloc_usable_size(place), __ATOMIC_SEQ_CST);
    return place;
}

static void dropped(void *place)
{
    if (place)
        __atomic_sub_fetch(&held, malloc_usable_size(place), __ATOMIC_SEQ_CST);
}

void *malloc(size_t n) { return counted(__libc_malloc(n)); }
void *calloc(size_t a, size_t b) { return counted(__libc_calloc(a, b)); }
void *aligned_alloc(size_t a, size_t n) { return counted(__libc_memalign(a, n)); }
void free(void *place) { dropped(place); __libc_free(place); }

void *realloc(void *place, size_t n)
{
    dropped(place);
    void *moved = __libc_realloc(place, n);
    counted(moved || n == 0 ? moved : place);
    return moved;
}

int posix_memalign(void **out, size_t a, size_t n)
{
    *out = counted(__libc_memalign(a, n));
    return *out ? 0 : ENOMEM;
}

static void tell(int signal)
{
    char text[32];
    (void)signal;
    if (write(2, text, (size_t)snprintf(text, sizeof text, "%ld\n", __atomic_load_n(&held, __ATOMIC_SEQ_CST))) < 0)
        _exit(1);
}

__attribute__((constructor)) static void begin(void) { signal(SIGUSR1, tell); }
"""


class Counted(Served):
    """A program of which the held bytes are counted."""

    def __init__(self, program, shim):
        super().__init__(program, stderr=subprocess.PIPE, env={"LD_PRELOAD": shim})

    def held(self):
        self.rest()
        self.process.send_signal(signal.SIGUSR1)
        return int(self.process.stderr.readline())


def random_edges(choice, vertices):
    return [f"+ {choice.randrange(vertices)} {choice.randrange(vertices)}" for _ in range(MOST_EDITS)]


def rebase(served):
    served.send("rebase")
    served.until(b"rebase ")


def measure_rebases(program, shim):
    """The batches of the second store are those of the first, with a rebase after each."""
    for rebases in (1, BATCHES):
        choice = random.Random(1)
        with Counted(program, shim) as served:
            served.send(f"graph {VERTICES}")
            for number in range(BATCHES):
                served.publish(random_edges(choice, VERTICES))
                before = served.held()
                if (number + 1) % (BATCHES // rebases) == 0:
                    rebase(served)
            if rebases == 1:
                yield f"{VERTICES:,} vertices, after {BATCHES} batches of {MOST_EDITS:,} insertions", f"{before / 1e6:.1f}"
            yield "the same, after a rebase" if rebases == 1 else "the same edges, with a rebase after each batch", f"{served.held() / 1e6:.1f}"


def in_and_out(choice, vertices):
    """Edges that are put in, and taken out again, as the text of two batches."""
    edits = random_edges(choice, vertices)
    return ["\n".join(batch(sign + edit[1:] for edit in edits)) for sign in "+-"]


def measure_turns(program, shim):
    with Counted(program, shim) as served:
        vertices = 65_536
        served.send(f"graph {vertices}")
        texts = in_and_out(random.Random(2), vertices)
        for times in range(1, ROUNDS + 1):
            for number in range(BATCHES):
                served.send(texts[number % 2])
                served.until(b"batch ")
            rebase(served)
            if times == 1:
                yield f"{vertices:,} vertices, {BATCHES} batches that put edges in and take them out again, and a rebase", f"{served.held() / 1e6:.2f}"
        yield f"the same after {ROUNDS} such rounds", f"{served.held() / 1e6:.2f}"


def measure_hub_versions(program, shim):
    with Counted(program, shim) as served:
        served.send(f"graph {VERTICES}")
        for start in range(0, HUB_TARGETS, MOST_EDITS):
            served.publish(f"+ 7 {target}" for target in range(start, min(start + MOST_EDITS, HUB_TARGETS)))
        before = served.held()
        choice = random.Random(3)
        for number, target in enumerate(choice.sample(range(HUB_TARGETS), VERSIONS)):
            served.send(f"pin p{number}")
            served.publish([f"- 7 {target}"])
        yield f"{VERSIONS} pinned versions of a vertex of {HUB_TARGETS:,} targets, each with one target fewer", f"{(served.held() - before) / 1e6:.3f}"


def peak(process):
    status = pathlib.Path(f"/proc/{process.pid}/status").read_text()
    return int(status.partition("VmHWM:")[2].split()[0]) / 1024


def measure_log(program):
    for count in (BATCHES, MOST_BATCHES):
        with Served(program) as served:
            vertices = 65_536
            served.send(f"graph {vertices}")
            texts = in_and_out(random.Random(4), vertices)
            for number in range(count):
                served.send(texts[number % 2])
                served.until(b"batch ")
            first = f"peak of {count} batches of {MOST_EDITS:,} edits, on {vertices:,} vertices"
            yield first if count == BATCHES else f"peak of {count:,} of them", f"{peak(served.process):,.0f}"


def main():
    program, rows = sys.argv[1] if len(sys.argv) > 1 else PROGRAM, []
    with tempfile.TemporaryDirectory() as folder:
        shim = f"{folder}/counting.so"
        subprocess.run(["cc", "-O1", "-shared", "-fPIC", "-o", shim, "-x", "c", "-"], input=SHIM.encode(), check=True)
        for found in (measure_rebases(program, shim), measure_turns(program, shim), measure_hub_versions(program, shim), measure_log(program)):
            for row in found:
                print(": ".join(row), flush=True)
                rows.append(row)
    figures.write("memory", ("What a store holds", "Megabytes"), rows)


if __name__ == "__main__":
    main()
