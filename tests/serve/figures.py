#!/usr/bin/python3
"""Measures a service, and prints the rows of the table in docs/SPEED.md.

    tests/serve/figures.py --seconds 5 [--write]

With --write the rows go into docs/figures/service.txt.
"""
import argparse
import importlib.util
import json
import os
import pathlib
import random
import struct
import sys
import threading
import time

from harness import Client, Error, Forks, folder, served
from load import Connection, drive, request, share
from model import KINDS

TOP = pathlib.Path(__file__).resolve().parent.parent.parent
VERTICES, EDGES, EDITS = 100_000, 500_000, 64
BIG_VERTICES, BIG_EDGES, SMALL_BATCHES, FULL_BATCHES = 262_144, 4_000_000, 20_000, 16
LONG = "mov r0, 0\n" + "add r0, 1\n" * 4000 + "exit"


# The rows of the table in their order, by how they begin.
ORDER = ("synced", "the same", "99 of 100", "a run over", "from a client", "the longest", "a start", "CPU time")


def tables():
    """tools/dev/figures.py, whose name is that of this file."""
    found = importlib.util.spec_from_file_location("figures_of_documents", TOP / "tools" / "dev" / "figures.py")
    module = importlib.util.module_from_spec(found)
    found.loader.exec_module(module)
    return module


def digits(number):
    """A number with a digit after its point where it is below ten."""
    return f"{number:.1f}" if number < 10 else f"{number:,.0f}"


def cpu(pid):
    """The CPU seconds of a process."""
    words = pathlib.Path(f"/proc/{pid}/stat").read_text().rpartition(")")[2].split()
    return (int(words[11]) + int(words[12])) / os.sysconf("SC_CLK_TCK")


def pid_of(forks):
    """The service of a process that forks them."""
    return int(pathlib.Path(f"/proc/{forks.process.pid}/task/{forks.process.pid}/children").read_text().split()[0])


def packed(edges):
    return struct.pack(f"<{2 * len(edges)}I", *(number for edge in edges for number in edge))


def power_law(chance, vertices, count):
    """Edges of which half go out from few vertices."""
    return [(int(vertices * chance.random() ** 3) if chance.random() < 0.5 else chance.randrange(vertices), chance.randrange(vertices)) for _ in range(count)]


def fill(client, chance, vertices, count):
    for place in range(0, count, 65_536):
        client.batch(packed(power_law(chance, vertices, min(65_536, count - place))))


def batches(chance, name, vertices=VERTICES):
    """Batches of 64 edits under ids, without end."""
    number = 0
    while True:
        number += 1
        edits = [(u | (chance.random() < 0.3) << 31, v) for u, v in power_law(chance, vertices, EDITS)]
        yield request("POST", "/batches", packed(edits), heads=f"Idempotency-Key: {name}-{number}\r\n")


def runs(chance, count, vertices=VERTICES, path="/runs"):
    while True:
        body = struct.pack(f"<{count}I", *(chance.randrange(vertices // 2, vertices) for _ in range(count)))
        yield request("POST", f"{path}?program=mutual", body)


def prepared(make, count):
    """Requests that are made before the time is taken."""
    return [next(make) for _ in range(count)]


class Figures:
    def __init__(self, options):
        self.options, self.rows = options, []

    def row(self, what, wanted, measured):
        self.rows.append((what, wanted, measured))
        print(f"| {what} | {wanted} | {measured} |", flush=True)

    def table(self):
        """The rows in the order of the table, in which the one client comes after many."""
        return sorted(self.rows, key=lambda row: next(place for place, begin in enumerate(ORDER) if row[0].startswith(begin)))

    def http(self):
        with folder() as place, Forks() as forks, served(forks, data=str(place / "graph"), vertices=VERTICES) as client:
            chance, pid, port = random.Random(1), pid_of(forks), int(client.url.rpartition(":")[2])
            fill(client, chance, VERTICES, EDGES)
            client.program("mutual", KINDS["mutual"].text)
            client.program("long", LONG)
            self.writers(pid, port, 1)
            self.writers(pid, port, 64)
            self.mixed(port)
            self.single(pid, port, client)
            self.beside_long(port, client)

    def writers(self, pid, port, count):
        made = [prepared(batches(random.Random(n), f"w{count}-{n}"), 4_000 // count + 200) for n in range(count)]
        before, begun = cpu(pid), time.perf_counter()
        took = drive([Connection(port, requests) for requests in made], self.options.seconds)
        seconds = time.perf_counter() - begun
        rate, spent = len(took) / seconds, 1e3 * (cpu(pid) - before) / max(1, len(took))
        self.row(f"synced batches of {EDITS} edits a second, {count} clients" if count > 1 else "the same, one client", "3,000" if count > 1 else "",
                 f"{rate:,.0f}; {digits(spent)} ms of CPU time each; half within {digits(share(took, 0.5))} ms, 99 of 100 within {share(took, 0.99):.0f}")

    def mixed(self, port):
        ending = threading.Event()
        made = [prepared(batches(random.Random(100 + n), f"m{n}"), 1_000) for n in range(8)]
        writers = threading.Thread(target=lambda: drive([Connection(port, self.until(requests, ending)) for requests in made], 60))
        writers.start()
        took = drive([Connection(port, prepared(runs(random.Random(n), 16), 3_000)) for n in range(8)], self.options.seconds)
        ending.set()
        writers.join()
        self.row("99 of 100 runs over 16 vertices, 8 clients beside 8 writers, within", "20 ms", f"{share(took, 0.99):.0f} ms; half {digits(share(took, 0.5))}; {len(took) / self.options.seconds:,.0f} a second")

    def until(self, requests, ending):
        for one in requests:
            if ending.is_set():
                return
            yield one

    def single(self, pid, port, client):
        body = struct.pack("<200I", *range(200))
        kinds = {
            "health": [request("GET", "/healthz")] * 2000, "a run over 16 vertices": prepared(runs(random.Random(5), 16), 2000),
            "over 200": prepared(runs(random.Random(8), 200), 1000), "neighbours": [request("GET", f"/neighbours/{u}") for u in range(VERTICES // 2, VERTICES // 2 + 2000)],
            "a number for each edge of 16 vertices": prepared(runs(random.Random(6), 16, path="/numbers"), 1000),
            "100 pairs": [request("POST", "/pairs?program=mutual", body)] * 1000,
        }
        told = []
        for name, requests in kinds.items():
            before = cpu(pid)
            took = drive([Connection(port, requests)], 30)
            told.append(f"{name} {1e3 * (cpu(pid) - before) / len(took):.2f}")
        self.row("CPU time of one request, ms", "", "; ".join(told).replace("; over 200", ", over 200"))

    def beside_long(self, port, client):
        """Small runs beside a long one, and how soon that ends when its client leaves."""
        body = json.dumps({"program": "long"}).encode()
        long = Connection(port, [request("POST", "/runs", body, "application/json")])
        long.send()
        time.sleep(0.3)
        took = drive([Connection(port, prepared(runs(random.Random(6), 16), 10_000))], 1)
        long.socket.close()
        left = time.perf_counter()
        while 'ended_total{by="client"} 1.0' not in client.ask("GET", "/metrics")[1].decode() and time.perf_counter() < left + 20:
            time.sleep(0.002)
        self.row("a run over 16 vertices beside one of 2 * 10^9 units, the worst", "100 ms", f"{share(took, 1):.0f} ms; half {share(took, 0.5):.1f}")
        self.row("from a client's leaving to the end of its run", "100 ms", f"{1e3 * (time.perf_counter() - left):.0f} ms")

    def recovery(self):
        sys.path[:0] = [str(pathlib.Path(__file__).resolve().parent.parent.parent / "bindings/python")]
        with folder() as place, Forks() as forks:
            options = {"data": str(place / "graph"), "vertices": BIG_VERTICES}
            chance = random.Random(2)
            with served(forks, **options) as client:
                # Its connection may be idle so long that the service closes it.
                port, client = int(client.url.rpartition(":")[2]), Client(client.url)
                fill(client, chance, BIG_VERTICES, BIG_EDGES)
                self.pause(port, client)
                snapshot = client.snapshot()
                drive([Connection(port, prepared(batches(random.Random(n), f"r{n}", BIG_VERTICES), SMALL_BATCHES // 64)) for n in range(64)], 120)
                for _ in range(FULL_BATCHES):
                    client.batch(packed(power_law(chance, BIG_VERTICES, 65_536)))
                since = client.status()["version"] - snapshot
            with served(forks, **options) as client:
                pid = pid_of(forks)
                spent, text = cpu(pid), client.ask("GET", "/metrics")[1].decode()
                wall = [float(line.split()[1]) for line in text.splitlines() if line.startswith("edgebpf_recovery_seconds")][0]
                small = round(since - FULL_BATCHES, -2)
                self.row(f"a start with {BIG_EDGES:,} edges, {small:,} small and {FULL_BATCHES} full batches after the snapshot", "2 s of CPU time",
                         f"{spent:.1f} s, without Python's modules")
                print(f"that start took {wall:.1f} s by the clock")

    def pause(self, port, client):
        """The longest batch while snapshots are taken and rebases come, beside the longest without a snapshot."""
        def longest(with_snapshot):
            taking = threading.Thread(target=lambda: [Client(client.url).snapshot() for _ in range(2)] if with_snapshot else None)
            taking.start()
            took = drive([Connection(port, prepared(batches(random.Random(7), f"p{with_snapshot}", BIG_VERTICES), 1_500))], self.options.seconds)
            taking.join()
            return took
        without, beside = longest(False), longest(True)
        self.row("the longest batch while two snapshots of 4,000,000 edges are taken, one client", "50 ms",
                 f"{share(beside, 1):.0f} ms, and {share(without, 1):.0f} without one")
        print(f"99 of 100 of them within {share(beside, 0.99):.0f} ms, and {share(without, 0.99):.0f} without one")


def main():
    parser = argparse.ArgumentParser(description=__doc__, formatter_class=argparse.RawDescriptionHelpFormatter)
    parser.add_argument("--seconds", type=float, default=5)
    parser.add_argument("--only", choices=("http", "recovery"))
    parser.add_argument("--write", action="store_true")
    options = parser.parse_args()
    if options.write and options.only:
        parser.error("--write is for the whole table")
    before = os.getloadavg()[0]
    print(f"load {before:.1f} on {os.cpu_count()} processors at the beginning")
    print("| What | Wanted | Measured |\n|---|---|---|")
    figures = Figures(options)
    for name in ("http", "recovery"):
        if options.only in (None, name):
            getattr(figures, name)()
    print(f"load {os.getloadavg()[0]:.1f} at the end")
    if options.write:
        documents = tables()
        when = f"{documents.now(has_load=False)}, load {before:.0f} before and {os.getloadavg()[0]:.0f} after"
        documents.write("service", ("What", "Wanted", "Measured"), figures.table(), when)


if __name__ == "__main__":
    try:
        main()
    except (Error, ConnectionError) as error:
        sys.exit(f"figures: {error}")
