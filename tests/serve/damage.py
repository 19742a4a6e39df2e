#!/usr/bin/python3
"""Flips one bit of a folder again and again: a service that starts on it has the same graph, ids, programs, columns and tokens, or refuses it
in words.

    tests/serve/damage.py --seconds 30 --seed 1
"""
import argparse
import collections
import json
import os
import pathlib
import random
import shutil
import signal
import sys
import time

from harness import ALL_ROLES, Error, Fault, Forks, folder, require, served, status_of, token_command
from model import KINDS, Graph, random_edits

from edgebpf_serve import tokens
from edgebpf_serve.limits import TOKEN_LIMITS

VERTICES, BATCHES, FLIPS = 60, 150, 4
# With two snapshots, and batches after each of them.
OPTIONS = {"vertices": VERTICES, "snapshot_batches": 10**6}
SNAPSHOTS = (50, 100)
# The length of a token, and the limits of one that has its own.
SECRET, LIMITS = 43, {"runs": 7, "seconds": 2.5}


class Made:
    """A folder, and what a service of it has to say."""

    def __init__(self, seed):
        self.chance, self.graph, self.batches = random.Random(f"{seed} made"), Graph(VERTICES), []
        self.column = [self.chance.randrange(2**64) for _ in range(VERTICES)]
        # By their names; all roles and one, with limits of its own.
        self.tokens = {}

    def introduce(self, place):
        self.tokens = {
            "all": token_command(place, "--name", "all", "--roles", ALL_ROLES),
            "reader": token_command(place, "--name", "reader", "--roles", "read", *(f"--{name}={most}" for name, most in LIMITS.items())),
        }

    def check_tokens(self, port, forks, place):
        """A token may what it might, and nobody else may anything."""
        kept = {token.name: (sorted(token.roles), token.limits) for token in tokens.change(place, tokens.read).values()}
        wanted = {"all": (sorted(ALL_ROLES.split(",")), TOKEN_LIMITS), "reader": (["read"], {**TOKEN_LIMITS, **LIMITS})}
        require(kept == wanted, "other tokens:", kept)
        for token, role, status in ((None, "read", 401), ("x" * SECRET, "read", 401), (self.tokens["reader"], "read", 200), (self.tokens["reader"], "write", 403)):
            client = forks.client(port, token)
            found = status_of(lambda: client.json("GET", "/programs") if role == "read" else client.batch([]))
            require(found == status, f"a token that may {role} is answered {found}, and not {status}")

    def fill(self, client):
        for kind in ("target", "mutual"):
            client.program(kind, KINDS[kind].text)
        client.column("risk", self.column)
        for number in range(BATCHES):
            edits = random_edits(self.chance, VERTICES, 40)
            outcome, = client.batch(edits, key=f"b{number}")
            require(outcome[1:3] == self.graph.apply(edits), "the counts of a batch")
            self.batches.append((f"b{number}", edits, outcome))
            if number in SNAPSHOTS:
                client.snapshot()

    def check(self, client):
        """All that the folder has but its tokens."""
        version, starts, targets = client.edges()
        require(version == BATCHES, f"version {version} of {BATCHES}, and no word of it")
        found = [(u, v) for u in range(VERTICES) for v in targets[starts[u]:starts[u + 1]]]
        require(found == self.graph.edges(), "another graph")
        require({told["name"] for told in client.json("GET", "/programs")["programs"]} == {"target", "mutual"}, "other programs")
        for kind in ("target", "mutual"):
            require(client.json("GET", f"/programs/{kind}")["text"] == KINDS[kind].text, "another program")
        data = client.ask("GET", "/columns/risk")[1]
        require([int.from_bytes(data[8 * u:8 * u + 8], "little") for u in range(VERTICES)] == self.column, "another column")
        for key, edits, outcome in self.batches:
            again, = client.batch(edits, key=key)
            require(again == outcome._replace(new=False), f"batch {key} again:", again)


def flipped(path, chance):
    """Flips bits of a file, in one byte each."""
    data = bytearray(path.read_bytes())
    for _ in range(chance.choice([1, 1, 1, FLIPS])):
        data[chance.randrange(len(data))] ^= 1 << chance.randrange(8)
    path.write_bytes(data)


def one_flip(forks, made, whole, chance):
    """What became of a flipped bit: "same" or "refused", by the file."""
    copy = whole.with_name("copy")
    shutil.rmtree(copy, ignore_errors=True)
    shutil.copytree(whole, copy)
    files = [path for path in copy.iterdir() if path.is_file() and path.stat().st_size and path.name != "lock"]
    path = chance.choice(files)
    flipped(path, chance)
    kind = path.name.split("-0")[0]
    pid = forks.begin(data=str(copy), **OPTIONS)
    port, status = forks.port()
    if port is None:
        require(status == 2, f"{path.name}: the service ended with {status}")
        return kind, "refused"
    try:
        made.check_tokens(port, forks, copy)
        made.check(forks.client(port, made.tokens["all"]))
    except Error as error:
        raise Fault(f"{path.name}: {error}") from None
    except Fault as fault:
        raise Fault(f"{path.name}: {fault}") from None
    finally:
        os.kill(pid, signal.SIGKILL)
        forks.wait(pid)
    return kind, "same"


def killed(forks, made, place):
    """A folder whose service was killed, so that its last batches are in the log of SQLite alone."""
    pid = forks.begin(data=str(place), **OPTIONS)
    made.fill(forks.client(forks.port()[0]))
    made.introduce(place)
    os.kill(pid, signal.SIGKILL)
    forks.wait(pid)


def ended(forks, made, place):
    with served(forks, data=str(place), **OPTIONS) as client:
        made.fill(client)
        made.introduce(place)


def main():
    parser = argparse.ArgumentParser(description=__doc__, formatter_class=argparse.RawDescriptionHelpFormatter)
    parser.add_argument("--seconds", type=float, default=30)
    parser.add_argument("--seed", type=int, default=int.from_bytes(os.urandom(4), "little"))
    parser.add_argument("--log", type=pathlib.Path, default=pathlib.Path(os.devnull), help="what services write to standard error")
    options = parser.parse_args()
    counts, begun, chance = collections.Counter(), time.monotonic(), random.Random(options.seed)
    with folder() as place, Forks(options.log) as forks:
        try:
            folders = []
            for how in (killed, ended):
                made = Made(f"{options.seed} {how.__name__}")
                how(forks, made, place / how.__name__ / "graph")
                folders.append((made, place / how.__name__ / "graph"))
            while time.monotonic() < begun + options.seconds:
                counts[one_flip(forks, *chance.choice(folders), chance)] += 1
        except Fault as fault:
            sys.exit(f"damage: seed {options.seed}: {fault}")
    told = {kind: {what: counts[kind, what] for what in ("same", "refused") if counts[kind, what]} for kind in sorted({kind for kind, _ in counts})}
    print(f"damage: seed {options.seed}: {sum(counts.values())} flips: {json.dumps(told)}")


if __name__ == "__main__":
    main()
