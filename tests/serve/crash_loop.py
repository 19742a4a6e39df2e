#!/usr/bin/python3
"""Kills a service again and again, and compares what is there after each start with all that it acknowledged before.

    tests/serve/crash_loop.py --seconds 30 --seed 1
    tests/serve/crash_loop.py --crashes 1000
"""
import argparse
import os
import random
import signal
import sys
import time

from harness import Fault, Forks, folder
from lives import IDS, OPTIONS, Life, World, whole_life

# Of the kills so many come while the service recovers, and the others so many seconds after its start.
IN_RECOVERY, RECOVERY_SECONDS, LIFE_SECONDS = 0.25, 0.04, 0.5


def one_life(world, forks, data):
    """A life, and whether it came so far as to listen."""
    chance = random.Random(f"{world.seed} {world.life} kill")
    pid = forks.begin(data=str(data), **OPTIONS)
    if world.life and chance.random() < IN_RECOVERY:
        time.sleep(chance.random() * RECOVERY_SECONDS)
        os.kill(pid, signal.SIGKILL)
        port, _ = forks.port()
        if port is not None:
            forks.wait(pid)
        world.life += 1
        world.counts["in recovery"] += 1
        return
    port, status = forks.port()
    if port is None:
        raise Fault(f"the service ended with {status} before it listened")
    whole_life(world, forks, Life(world, port, data), (pid, chance.random() * LIFE_SECONDS))


def loop(options, forks, data):
    world, begun = World(options.seed), time.monotonic()
    while world.life < options.crashes if options.crashes else time.monotonic() < begun + options.seconds:
        one_life(world, forks, data)
        if options.verbose and world.life % 20 == 0:
            print(f"crash_loop: {world.life} crashes, {world.seq} versions", flush=True)
    return world


def main():
    parser = argparse.ArgumentParser(description=__doc__, formatter_class=argparse.RawDescriptionHelpFormatter)
    parser.add_argument("--seconds", type=float, default=30)
    parser.add_argument("--crashes", type=int, help="so many kills, however long they take")
    parser.add_argument("--seed", type=int, default=int.from_bytes(os.urandom(4), "little"))
    parser.add_argument("--log", default=os.devnull, help="what services write to standard error")
    parser.add_argument("--mistake", default="", help="a mistake of mistakes.py, which has to be found")
    parser.add_argument("--verbose", action="store_true")
    options = parser.parse_args()
    with folder() as data, Forks(options.log, SERVE_IDS=str(IDS), SERVE_MISTAKE=options.mistake) as forks:
        try:
            world = loop(options, forks, data / "graph")
        except Fault as fault:
            sys.exit(f"crash_loop: seed {options.seed}: {fault}")
    counts = ", ".join(f"{count} {what}" for what, count in sorted(world.counts.items()))
    print(f"crash_loop: seed {options.seed}: {world.life} crashes, {world.seq} versions, {counts}")


if __name__ == "__main__":
    main()
