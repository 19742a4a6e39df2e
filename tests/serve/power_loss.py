#!/usr/bin/python3
"""Takes the power from a service again and again: what was not synced is lost, in part or whole. What it acknowledged has to be there.

    tests/serve/power_loss.py --seconds 30 --seed 1
    tests/serve/power_loss.py --losses 500
"""
import argparse
import os
import pathlib
import random
import shutil
import signal
import subprocess
import sys
import time

from harness import HERE, Fault, Forks, folder
from lives import IDS, OPTIONS, Life, World, whole_life
from power import Folder

LIFE_SECONDS, RECOVERY_SECONDS, IN_RECOVERY = 0.5, 0.08, 0.15


def library(place):
    """Builds the library that records."""
    path = place / "record_writes.so"
    words = ["cc", "-shared", "-fPIC", "-O1", "-Wall", "-Wextra", "-Werror", "-o", path, HERE / "record_writes.c", "-lpthread"]
    subprocess.run(words, check=True)
    return path


def environment(place):
    return {"LD_PRELOAD": str(library(place)), "RECORD_FOLDER": str(place / "data"), "RECORD_LOG": str(place / "log")}


class Machine:
    """A folder over losses of power."""

    def __init__(self, place, recorded):
        """recorded: the variables by which a process records what it writes."""
        self.place, self.number, self.environment = place, 0, recorded

    @property
    def data(self):
        return self.place / "data" / str(self.number)

    def begin(self):
        (self.place / "data").mkdir(exist_ok=True)
        (self.place / "log").unlink(missing_ok=True)
        self.folder = Folder(self.data)

    def lose_power(self, chance):
        self.folder.follow(self.place / "log")
        old = self.data
        self.number += 1
        self.folder.lose_power(chance, self.data)
        shutil.rmtree(old, ignore_errors=True)


def one_life(world, forks, machine):
    chance = random.Random(f"{world.seed} {world.life} power")
    machine.begin()
    pid = forks.begin(data=str(machine.data), **OPTIONS)
    is_early = world.life and chance.random() < IN_RECOVERY
    if is_early:
        time.sleep(chance.random() * RECOVERY_SECONDS)
        os.kill(pid, signal.SIGKILL)
    port, status = forks.port()
    if is_early:
        if port is not None:
            forks.wait(pid)
        world.life += 1
        world.counts["in recovery"] += 1
    elif port is None:
        raise Fault(f"the service ended with {status} before it listened")
    else:
        whole_life(world, forks, Life(world, port, machine.data, **machine.environment), (pid, chance.random() * LIFE_SECONDS))
    machine.lose_power(chance)


def loop(options, forks, machine):
    world, begun = World(options.seed), time.monotonic()
    while world.life < options.losses if options.losses else time.monotonic() < begun + options.seconds:
        one_life(world, forks, machine)
        if options.verbose and world.life % 20 == 0:
            print(f"power_loss: {world.life} losses, {world.seq} versions", flush=True)
    return world


def main():
    parser = argparse.ArgumentParser(description=__doc__, formatter_class=argparse.RawDescriptionHelpFormatter)
    parser.add_argument("--seconds", type=float, default=30)
    parser.add_argument("--losses", type=int, help="so many losses, however long they take")
    parser.add_argument("--seed", type=int, default=int.from_bytes(os.urandom(4), "little"))
    parser.add_argument("--log", default=os.devnull, help="what services write to standard error")
    parser.add_argument("--mistake", default="", help="a mistake of mistakes.py, which has to be found")
    parser.add_argument("--verbose", action="store_true")
    options = parser.parse_args()
    with folder() as place:
        place = pathlib.Path(os.path.realpath(place))
        recorded = environment(place)
        with Forks(options.log, SERVE_IDS=str(IDS), SERVE_MISTAKE=options.mistake, **recorded) as forks:
            try:
                world = loop(options, forks, Machine(place, recorded))
            except Fault as fault:
                sys.exit(f"power_loss: seed {options.seed}: {fault}")
    counts = ", ".join(f"{count} {what}" for what, count in sorted(world.counts.items()))
    print(f"power_loss: seed {options.seed}: {world.life} losses of power, {world.seq} versions, {counts}")


if __name__ == "__main__":
    main()
