#!/usr/bin/env python3
"""Serves honest clients beside as many hostile ones, and compares each answer with sets of edges.

    tests/serve/hostile_clients.py --seconds 10 --seed 1

Nothing that hostile_requests.py sends may change the graph, stop the server, or be answered by another status than those named there.
"""
import argparse
import collections
import http.client
import json
import os
import pathlib
import random
import signal
import socket
import struct
import subprocess
import sys
import tempfile
import threading
import time

from harness import TOOLS
from hostile_requests import ATTACKS, CLOSED

VERTICES, FIRST_EDGES, MOST_INSERTS, MOST_REMOVES, MOST_HELD = 300, 3_000, 60, 60, 50
# Of the batches some come after each of several rebases. PROGRAMS is how many each honest client has.
BATCHES, REBASE, PROGRAMS = 600, 100, 6
WORD, MOST_GROWTH = 2**64, 64
WAIT = 60
# So long may a run take: those of honest clients take some milliseconds, and turns with hostile ones.
RUN_SECONDS = 1.0
# The text of a program by numbers that are drawn, and what it returns for an edge.
KINDS = {
    "affine": ("ldxw r0, [r1+4]\nmul r0, {0}\nadd r0, {1}\nexit", lambda own, edge: edge.target * own[0] + own[1]),
    "degree": ("ldxw r0, [r1+12]\nmul r0, {0}\nexit", lambda own, edge: edge.degree * own[0]),
    "mixed": ("ldxw r0, [r1+4]\nldxw r2, [r1+0]\nxor r0, r2\nexit", lambda own, edge: edge.target ^ edge.source),
    "branch": (
        "ldxw r2, [r1+4]\nldxw r0, [r1+8]\njgt r2, {0}, far\nexit\nfar:\nldxw r0, [r1+12]\nexit",
        lambda own, edge: edge.degree if edge.target > own[0] else edge.place),
    "argument": ("ldxdw r0, [r1+16]\nldxw r2, [r1+4]\nadd r0, r2\nexit", lambda own, edge: edge.argument + edge.target),
}
Edge = collections.namedtuple("Edge", "source target place degree argument")
REDUCTIONS = {"sum": (0, lambda a, b: (a + b) % WORD), "min": (WORD - 1, min), "max": (0, max)}


class Wrong(Exception):
    """The server did what it must not do."""


class Test:
    """What the clients of one test share."""

    def __init__(self, port, options):
        self.port, self.until, self.options = port, time.monotonic() + options.seconds, options
        self.batches, self.reads, self.programs = [], [], {}
        self.counts, self.wrong, self.lock = collections.Counter(), [], threading.Lock()

    def goes_on(self):
        return time.monotonic() < self.until and not self.wrong

    def count(self, *what):
        with self.lock:
            self.counts[what] += 1


class Honest:
    def __init__(self, test, number):
        self.test, self.number, self.chance = test, number, random.Random(f"honest {test.options.seed} {number}")
        self.seen, self.batches = 0, BATCHES // test.options.clients
        self.pause = test.options.seconds / (self.batches + 1)
        self.next_batch = time.monotonic()

    def ask(self, kind, method, path, asked=None):
        connection = http.client.HTTPConnection("127.0.0.1", self.test.port, timeout=WAIT)
        try:
            connection.request(method, path, None if asked is None else json.dumps(asked), {"Content-Type": "application/json"})
            answer = connection.getresponse()
            body = answer.read()
        finally:
            connection.close()
        self.test.count("honest", kind, answer.status)
        if answer.status not in (200, 201):
            raise Wrong(f"honest {kind} {path}: {answer.status} {body[:200]!r}")
        return answer.headers, body

    def told(self, kind, method, path, asked=None):
        return json.loads(self.ask(kind, method, path, asked)[1])

    def saw(self, version):
        if version < self.seen:
            raise Wrong(f"version {version} after version {self.seen}")
        self.seen = version

    def batch(self, count):
        draw = self.chance.randrange
        inserts = [[draw(VERTICES), draw(VERTICES)] for _ in range(count)]
        removes = [[draw(VERTICES), draw(VERTICES)] for _ in range(draw(MOST_REMOVES))] + inserts[:draw(5)]
        edits = [*inserts, *([u, v, 1] for u, v in removes)]
        told = self.told("batch", "POST", "/batches", {"edits": edits})
        self.saw(told["version"])
        self.test.batches.append((told, inserts, removes))

    def register(self, place=None):
        """A program under a name of its own, or again one that is there."""
        name = f"honest{self.number}-{self.chance.randrange(PROGRAMS) if place is None else place}"
        if name not in self.test.programs:
            kind = self.chance.choice(list(KINDS))
            self.test.programs[name] = kind, (self.chance.randrange(VERTICES), self.chance.randrange(2**31))
        kind, own = self.test.programs[name]
        text = KINDS[kind][0].format(*own)
        self.told("program", "POST", "/programs", {"name": name, "text": text, "record": 24 if kind == "argument" else 16})

    def run(self):
        name, reduction = self.chance.choice(self.own), self.chance.choice(list(REDUCTIONS))
        frontier = self.chance.sample(range(VERTICES), self.chance.randrange(40)) if self.chance.random() < 0.8 else None
        argument = self.chance.randrange(WORD) if self.test.programs[name][0] == "argument" else None
        digits = "" if argument is None else argument.to_bytes(8, "little").hex()
        asked = {"program": name, "reduction": reduction, "frontier": frontier, "argument": digits}
        if self.chance.random() < 0.5:
            told = self.told("run", "POST", "/runs", asked)
        else:
            heads, body = self.ask("run of bytes", "POST", "/runs?format=bytes", asked)
            told = {key: int(heads[f"X-{key.title()}"]) for key in ("version", "edges", "total")}
            told["values"] = list(struct.unpack(f"<{len(body) // 8}Q", body))
        self.saw(told["version"])
        self.test.reads.append((told["version"], "run", (name, reduction, frontier, argument), told))

    def neighbours(self):
        vertex = self.chance.randrange(VERTICES)
        told = self.told("neighbours", "GET", f"/neighbours/{vertex}")
        self.saw(told["version"])
        self.test.reads.append((told["version"], "neighbours", vertex, told))

    def begin(self):
        for place in range(PROGRAMS):
            self.register(place)
        self.own = [name for name in self.test.programs if name.startswith(f"honest{self.number}-")]

    def go(self):
        while self.test.goes_on():
            if self.batches and time.monotonic() >= self.next_batch:
                self.batches -= 1
                self.next_batch += self.pause
                self.batch(self.chance.randrange(MOST_INSERTS))
            self.chance.choice([self.run, self.run, self.neighbours, self.register, lambda: self.ask("metrics", "GET", "/metrics")])()
            time.sleep(self.test.options.rest)


class Hostile:
    def __init__(self, test, number):
        self.test, self.chance = test, random.Random(f"hostile {test.options.seed} {number}")
        self.held = collections.deque()

    def send(self, attack):
        """The status of the answer, or what became of the connection."""
        connection = socket.create_connection(("127.0.0.1", self.test.port), timeout=WAIT)
        try:
            if attack.ending == "slow":
                for place in range(0, min(len(attack.data), 40)):
                    connection.sendall(attack.data[place:place + 1])
                    time.sleep(0.01)
            else:
                connection.sendall(attack.data)
            if attack.ending == "answer":
                return status_of(connection)
        except ConnectionError:
            return CLOSED
        except TimeoutError:
            raise Wrong("no answer") from None
        finally:
            if attack.ending == "hold":
                self.held.append(connection)
            else:
                connection.close()
        return attack.ending

    def go(self):
        names = sorted(self.test.programs)
        while self.test.goes_on():
            make = self.chance.choice(ATTACKS)
            attack = make(self.chance, names)
            try:
                status = self.send(attack)
            except Wrong as wrong:
                raise Wrong(f"hostile {make.__name__} {attack.data[:300]!r}: {wrong}") from None
            self.test.count("hostile", make.__name__, status)
            if attack.ending == "answer" and status not in attack.statuses:
                raise Wrong(f"hostile {make.__name__} {attack.data[:300]!r}: {status}, not {attack.statuses}")
            if len(self.held) > MOST_HELD:
                self.held.popleft().close()
            time.sleep(self.test.options.rest)


def status_of(connection):
    head = b""
    while b"\r\n" not in head:
        part = connection.recv(65_536)
        if not part:
            return CLOSED
        head += part
    return int(head.split()[1])


def wanted_run(test, lists, asked):
    """The values, edges and total of a run on some lists of neighbours."""
    name, reduction, frontier, argument = asked
    kind, own = test.programs[name]
    start, combine = REDUCTIONS[reduction]
    values, edges, total = [], 0, start
    for source in range(VERTICES) if frontier is None else frontier:
        value, targets = start, lists[source]
        for place, target in enumerate(targets):
            value = combine(value, KINDS[kind][1](own, Edge(source, target, place, len(targets), argument)) % WORD)
        values.append(value)
        edges, total = edges + len(targets), combine(total, value)
    return {"values": values, "edges": edges, "total": total}


def check(test):
    """Replays the batches in the order that the server answered, and compares what was read of each version."""
    reads, edges = collections.defaultdict(list), set()
    for read in test.reads:
        reads[read[0]].append(read)
    test.batches.sort(key=lambda batch: batch[0]["version"])
    for version in range(len(test.batches) + 1):
        if version:
            told, inserts, removes = test.batches[version - 1]
            later = (edges | set(map(tuple, inserts))) - set(map(tuple, removes))
            if told != {"version": version, "added": len(later - edges), "removed": len(edges - later), "new": True}:
                raise Wrong(f"batch {version}: {told}")
            edges = later
        lists = [[] for _ in range(VERTICES)]
        for source, target in sorted(edges):
            lists[source].append(target)
        for _, kind, asked, told in reads.pop(version, []):
            wanted = {"neighbours": lists[asked], "degree": len(lists[asked])} if kind == "neighbours" else wanted_run(test, lists, asked)
            if told != {"version": version, **wanted}:
                raise Wrong(f"{kind} {asked} of version {version}: {told}, not {wanted}")
    if reads:
        raise Wrong(f"versions that no batch made were read: {sorted(reads)}")
    return len(edges)


def memory(server):
    """The megabytes of the server, and of the store in it."""
    lines = pathlib.Path(f"/proc/{server.pid}/status").read_text().splitlines()
    return next(int(line.split()[1]) // 1024 for line in lines if line.startswith("VmRSS"))


def started(log, folder):
    """The server's process and its port."""
    with socket.socket() as free:
        free.bind(("127.0.0.1", 0))
        port = free.getsockname()[1]
    words = [TOOLS / "edgebpf-serve", "--data", folder, "--vertices", str(VERTICES), "--listen", f"127.0.0.1:{port}", "--rebase-batches", str(REBASE)]
    words += ["--seconds", str(RUN_SECONDS), "--reserve-bytes", "0", "--snapshot-batches", "150", "--programs", "100", "--kept-bytes", str(1 << 20)]
    # Whoever runs this may ignore the signal that ends the server.
    server = subprocess.Popen(words, stderr=log, preexec_fn=lambda: signal.signal(signal.SIGINT, signal.SIG_DFL))
    for _ in range(200):
        try:
            socket.create_connection(("127.0.0.1", port)).close()
            return server, port
        except OSError:
            time.sleep(0.05)
    raise Wrong("the server did not start")


def attempt(test, client):
    try:
        client.go()
    except (Wrong, OSError, http.client.HTTPException, ValueError, KeyError) as error:
        test.wrong.append(error)


def tried(test, server):
    """Lets the clients run, asks for all that is there, and returns the memory at a third of the time and at the end."""
    honest = [Honest(test, number) for number in range(test.options.clients)]
    honest[0].batch(FIRST_EDGES)
    for client in honest:
        client.begin()
    hostile = [Hostile(test, number) for number in range(test.options.clients)]
    threads = [threading.Thread(target=attempt, args=(test, client)) for client in (*honest, *hostile)]
    for thread in threads:
        thread.start()
    time.sleep(test.options.seconds / 3)
    early = memory(server)
    for thread in threads:
        thread.join()
    late = memory(server)
    for error in test.wrong:
        raise error
    for vertex in range(VERTICES):
        told = honest[0].told("last neighbours", "GET", f"/neighbours/{vertex}")
        test.reads.append((told["version"], "neighbours", vertex, told))
    if told["version"] != len(test.batches):
        raise Wrong(f"version {told['version']} after {len(test.batches)} batches")
    return early, late


def main():
    parser = argparse.ArgumentParser(description=__doc__, formatter_class=argparse.RawDescriptionHelpFormatter)
    parser.add_argument("--seconds", type=float, default=10)
    parser.add_argument("--seed", type=int, default=int.from_bytes(os.urandom(4), "little"))
    parser.add_argument("--clients", type=int, default=4, help="honest ones, and as many hostile ones")
    parser.add_argument("--rest", type=float, default=0.002, help="seconds between two requests of a client")
    parser.add_argument("--log", default=os.devnull, help="what the server writes to standard error")
    options = parser.parse_args()
    print(f"seed {options.seed}", flush=True)
    with open(options.log, "w") as log, tempfile.TemporaryDirectory() as folder:
        server, port = started(log, folder)
        test = Test(port, options)
        try:
            early, late = tried(test, server)
            edges = check(test)
            if late > early + MOST_GROWTH:
                raise Wrong(f"the server grew from {early} to {late} MB")
        except Wrong as wrong:
            sys.exit(f"hostile_clients: {wrong}")
        finally:
            for what, count in sorted(test.counts.items(), key=str):
                print(*what, count)
            server.send_signal(signal.SIGINT)
            ended = server.wait(30)
    print(f"hostile_clients: {len(test.batches)} batches, {len(test.reads)} reads compared, {edges} edges, {sum(test.counts.values())} requests,"
          f" {early} MB after a third and {late} at the end")
    sys.exit(f"hostile_clients: the server ended with {ended}" if ended else 0)


if __name__ == "__main__":
    main()
