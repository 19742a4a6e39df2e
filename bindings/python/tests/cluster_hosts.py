#!/usr/bin/python3
"""Network namespaces as the hosts of a cluster, and random streams over them. By hand, as root:

    cluster_hosts.py [--hosts N] [--streams N] [--seed S]

Dask's scheduler and the router are in the namespace of this process. Each host is a namespace with an address of its own and one worker, and reaches the
others over a bridge. In each stream one host ends, with its network, and a new one begins. All answers are those of one `edgebpf.Store`.
"""
import argparse
import contextlib
import os
import pathlib
import random
import signal
import socket
import subprocess
import sys
import tempfile
import time
import warnings

import random_clusters

LIBRARY = pathlib.Path(__file__).resolve().parents[1]
HERE, PORT, ADDRESS = "10.97.0.1", 8786, "tcp://10.97.0.1:8786"
START_SECONDS, STEPS = 60, 60


def ip(*words):
    subprocess.run(["ip", *words], check=True)


class Hosts:
    """So many hosts, and a scheduler beside them. A context manager."""

    def __init__(self, count):
        self.bridge, self.made, self.running = f"eb{os.getpid()}", 0, {}
        self.environment = {**os.environ, "PYTHONPATH": str(LIBRARY), "PYTHONWARNINGS": "ignore"}
        self.stack, self.count = contextlib.ExitStack(), count

    def __enter__(self):
        # A termination leaves nothing either.
        signal.signal(signal.SIGTERM, lambda *_: sys.exit(1))
        with contextlib.ExitStack() as stack:
            self.folder = stack.enter_context(tempfile.TemporaryDirectory())
            ip("link", "add", self.bridge, "type", "bridge")
            stack.callback(ip, "link", "delete", self.bridge)
            ip("address", "add", f"{HERE}/24", "dev", self.bridge)
            ip("link", "set", self.bridge, "up")
            stack.callback(lambda: [self.end(name) for name in list(self.running)])
            scheduler = self.started("dask-scheduler", "--host", HERE, "--port", str(PORT), "--no-dashboard")
            stack.callback(ended, scheduler)
            wait_for(scheduler)
            for _ in range(self.count):
                self.begin()
            self.stack = stack.pop_all()
        return self

    def __exit__(self, *_):
        self.stack.close()

    def started(self, *words):
        return subprocess.Popen(words, env=self.environment, cwd=self.folder, stdout=subprocess.DEVNULL, stderr=subprocess.DEVNULL)

    def begin(self):
        """Begins one more host."""
        self.made += 1
        name, link = f"{self.bridge}-{self.made}", f"{self.bridge}l{self.made}"
        ip("netns", "add", name)
        ip("link", "add", link, "type", "veth", "peer", "name", "eth0", "netns", name)
        ip("link", "set", link, "master", self.bridge, "up")
        ip("-n", name, "address", "add", f"10.97.0.{self.made + 1}/24", "dev", "eth0")
        ip("-n", name, "link", "set", "eth0", "up")
        ip("-n", name, "link", "set", "lo", "up")
        words = "--nthreads", "1", "--no-nanny", "--no-dashboard", "--memory-limit", "0", "--host", f"10.97.0.{self.made + 1}"
        self.running[name] = self.started("ip", "netns", "exec", name, "dask-worker", ADDRESS, *words)

    def end(self, name=None):
        """Ends a host, the first one if none is named: its worker, and its network."""
        name = name or next(iter(self.running))
        ended(self.running.pop(name))
        ip("netns", "delete", name)

    def client(self):
        """A client of all workers."""
        import distributed

        client = distributed.Client(ADDRESS, direct_to_workers=True)
        client.wait_for_workers(len(self.running), timeout=START_SECONDS)
        return client


def ended(process):
    process.kill()
    process.wait()


def wait_for(scheduler):
    end = time.monotonic() + START_SECONDS
    while time.monotonic() < end and scheduler.poll() is None:
        with contextlib.suppress(OSError), socket.create_connection((HERE, PORT), 1):
            return
        time.sleep(0.05)
    raise SystemExit("the scheduler does not start")


def stream(chance, hosts, client, folder, asks):
    """A random stream in which a host ends, and how many batches it had."""
    from edgebpf.cluster_engine import Engine

    trial = random_clusters.Trial(chance, Engine(client), (3_000, len(hosts.running)), folder, asks)
    for step in range(STEPS):
        trial.step()
        if step == STEPS // 2:
            hosts.end()
            hosts.begin()
    trial.finish()
    trial.ask()
    trial.run()
    trial.close()
    return trial.number


def main():
    parser = argparse.ArgumentParser(description=__doc__.split("\n")[0])
    parser.add_argument("--hosts", type=int, default=3)
    parser.add_argument("--streams", type=int, default=9)
    parser.add_argument("--seed", type=int, default=random.randrange(10**9))
    options = parser.parse_args()
    warnings.simplefilter("ignore")
    batches = 0
    with Hosts(options.hosts) as hosts, hosts.client() as client, tempfile.TemporaryDirectory() as folder:
        for number in range(options.streams):
            chance = random.Random(f"{options.seed}/{number}")
            batches += stream(chance, hosts, client, f"{folder}/{number}", list(random_clusters.MAY)[number % 3])
            client.wait_for_workers(options.hosts, timeout=START_SECONDS)
    print(f"{options.hosts} hosts, {options.streams} streams, {batches} batches, {options.streams} lost hosts: all as one store, seed {options.seed}")


if __name__ == "__main__":
    sys.exit(main())
