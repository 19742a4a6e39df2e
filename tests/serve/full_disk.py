#!/usr/bin/python3
"""Fills the disk of a service again and again: it refuses batches by 507, keeps what it acknowledged, starts on the full disk, and goes on
when there is room.

    tests/serve/full_disk.py --seconds 30 --seed 1

It needs a file system of its own, which a namespace of mounts gives: as root, or where users may have one.
"""
import argparse
import collections
import errno
import os
import pathlib
import random
import signal
import subprocess
import sys
import time

from harness import Client, Error, Fault, Forks, NoAnswer, folder, require
from model import Graph, random_edits

VERTICES, DISK, LEFT, LARGEST_BATCH, MOST_TRIES = 60, 24 << 20, 200_000, 4_000, 100
OPTIONS = {"vertices": VERTICES, "rebase_batches": 7, "snapshot_batches": 60, "kept_bytes": 1 << 20, "reserve_bytes": 1 << 19}
INSIDE = "SERVE_FULL_DISK_INSIDE"


class Disk:
    """A small file system, with a file that takes nearly all of its room."""

    def __init__(self, place):
        self.place = place
        subprocess.run(["mount", "-t", "tmpfs", "-o", f"size={DISK}", "none", place], check=True)

    def fill(self, left):
        with open(self.place / "filler", "wb") as file:
            while (size := self.room() - left) > 0:
                try:
                    return os.posix_fallocate(file.fileno(), 0, size)
                except OSError as error:
                    # The service wrote a snapshot in between, and there is less room now.
                    if error.errno != errno.ENOSPC:
                        raise

    def room(self):
        room = os.statvfs(self.place)
        return room.f_bavail * room.f_frsize

    def empty(self):
        (self.place / "filler").unlink(missing_ok=True)


class Writer:
    """One client, and what it was answered."""

    def __init__(self, seed):
        self.chance, self.graph, self.seq, self.number = random.Random(f"{seed} writer"), Graph(VERTICES), 0, 0
        self.counts, self.last = collections.Counter(), None

    def write(self, client):
        """Sends a batch, and returns whether it was taken."""
        self.number += 1
        key, edits = f"b{self.number}", random_edits(self.chance, VERTICES, LARGEST_BATCH)
        try:
            outcome, = client.batch(edits, key=key)
        except Error as error:
            require(error.status == 507, "a batch:", error)
            self.counts["refused"] += 1
            require(client.status()["version"] == self.seq, "a refused batch made a version")
            return False
        self.took(outcome, edits)
        self.last = key, edits, outcome
        return True

    def took(self, outcome, edits):
        self.seq += 1
        require(outcome == (self.seq, *self.graph.apply(edits), True), f"batch {self.seq}:", outcome)

    def check(self, client):
        version, starts, targets = client.edges()
        require(version == self.seq, f"version {version} after {self.seq} batches that were acknowledged")
        found = [(u, v) for u in range(VERTICES) for v in targets[starts[u]:starts[u + 1]]]
        require(found == self.graph.edges(), f"the edges of version {version}")
        if self.last:
            key, edits, outcome = self.last
            try:
                again, = client.batch(edits, key=key)
                require(again == outcome._replace(new=False), "the last batch again:", again)
            except Error as error:
                # Another process may not even begin a transaction on a full disk.
                require(error.status == 507, "the last batch again:", error)


class Service:
    def __init__(self, forks, data):
        self.forks, self.data, self.pid = forks, data, None

    def start(self):
        self.pid = self.forks.begin(data=str(self.data), **OPTIONS)
        port, status = self.forks.port()
        require(port is not None, f"the service ended with {status} before it listened")
        return Client(f"http://127.0.0.1:{port}", timeout=30, tries=1)

    def start_or_refuse(self, writer):
        """After a whole end SQLite's shared index is not there. Without room for it, and without a reserve, a start is refused by status 1."""
        self.pid = self.forks.begin(data=str(self.data), **OPTIONS)
        port, status = self.forks.port()
        require(port is not None or status == 1, f"on a full disk the service ended with {status}")
        writer.counts["starts after a whole end" if port else "of these refused"] += 1
        return self.forks.client(port) if port else None

    def end(self, number):
        os.kill(self.pid, number)
        return self.forks.wait(self.pid)


def one_round(service, disk, writer, chance):
    """A disk that is filled, a start on it, and room again."""
    client = service.start()
    writer.check(client)
    for _ in range(chance.randrange(20)):
        writer.write(client)
    disk.fill(chance.randrange(LEFT))
    # Snapshots may make room again and again, once the reserve is given up.
    refused, until = 0, writer.number + MOST_TRIES
    while refused < 3 and writer.number < until:
        refused = 0 if writer.write(client) else refused + 1
        # Reads go on.
        require(client.neighbours(0) == sorted(writer.graph.out[0]), "a list while the disk is full")
    how = chance.random()
    if how < 0.5:
        service.end(signal.SIGKILL)
        client = service.start()
        writer.counts["starts on a full disk"] += 1
        writer.check(client)
    elif how < 0.8:
        require(service.end(signal.SIGTERM) == 0, "the service did not end whole on a full disk")
        disk.fill(0)
        client = service.start_or_refuse(writer)
    disk.empty()
    client = client or service.start()
    for _ in range(10):
        require(writer.write(client), "a batch was refused with room on the disk")
    writer.check(client)
    if chance.random() < 0.5:
        require(service.end(signal.SIGTERM) == 0, "the service did not end whole")
    else:
        service.end(signal.SIGKILL)


def inside(options):
    with folder() as place:
        disk, writer, chance = Disk(place), Writer(options.seed), random.Random(f"{options.seed} disk")
        begun, rounds = time.monotonic(), 0
        try:
            with Forks(options.log) as forks:
                service = Service(forks, place / "graph")
                while time.monotonic() < begun + options.seconds:
                    one_round(service, disk, writer, chance)
                    rounds += 1
        except (Fault, NoAnswer) as fault:
            sys.exit(f"full_disk: seed {options.seed}: {fault}")
        finally:
            subprocess.run(["umount", "-l", place])
    counts = ", ".join(f"{count} {what}" for what, count in sorted(writer.counts.items()))
    print(f"full_disk: seed {options.seed}: {rounds} full disks, {writer.seq} versions, {counts}")


def main():
    parser = argparse.ArgumentParser(description=__doc__, formatter_class=argparse.RawDescriptionHelpFormatter)
    parser.add_argument("--seconds", type=float, default=30)
    parser.add_argument("--seed", type=int, default=int.from_bytes(os.urandom(4), "little"))
    parser.add_argument("--log", type=pathlib.Path, default=pathlib.Path(os.devnull), help="what services write to standard error")
    options = parser.parse_args()
    if os.environ.get(INSIDE):
        inside(options)
        return
    own = ["unshare", "--mount"] if os.getuid() == 0 else ["unshare", "--mount", "--map-root-user"]
    if subprocess.run([*own, "mount", "-t", "tmpfs", "none", "/mnt"], capture_output=True).returncode:
        print("full_disk: skipped: no file system of its own can be mounted here")
        return
    sys.exit(subprocess.run([*own, sys.executable, __file__, *sys.argv[1:]], env={**os.environ, INSIDE: "1"}).returncode)


if __name__ == "__main__":
    main()
