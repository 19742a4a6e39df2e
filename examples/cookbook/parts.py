"""One graph over several processes: each has the edges of its own sources, so the program may ask about its edge's source alone."""
from concurrent.futures import ThreadPoolExecutor

import edgebpf

BATCH = 65_536


def total(vertices, sources, targets, program, processes):
    def part(number):
        own = sources % processes == number
        from_here, to_there = sources[own], targets[own]
        with edgebpf.connect(vertices) as store:
            for at in range(0, len(from_here), BATCH):
                store.batch("A", inserts=(from_here[at:at + BATCH], to_there[at:at + BATCH]))
            return store.pin().run(program).total

    with ThreadPoolExecutor(processes) as pool:
        return sum(pool.map(part, range(processes)))
