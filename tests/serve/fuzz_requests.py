#!/usr/bin/python3
"""Sends valid requests with changed bytes to a service, and looks at each answer, at the process, and at the graph beside.

    tests/serve/fuzz_requests.py --seconds 30 --seed 1
    tests/serve/fuzz_requests.py --send FILE

An answer is HTTP with a status that its route declares, and an error says what it is. The graph is that of the batches that were taken, each whole. The
first half of the time the service has no tokens. FILE has what a fault was printed with: the pieces that were sent by one connection.
"""
import argparse
import ast
import collections
import concurrent.futures
import contextlib
import os
import pathlib
import re
import shutil
import signal
import sys
import threading
import time

from beside import Honest, Known
from changed_requests import Changed, changed
from exchanges import CLOSED, COMMON, REFUSED, allowed, answers_in, bad_lines, exchange, look_at
from harness import ALL_ROLES, Client, Error, Fault, Forks, NoAnswer, folder, require, token_command
from model import random_edits, seeded
from valid_requests import ALL, EVENT, READER, SEEDS, VERSION, VERTICES

# Limits so small that requests without an end are cut off soon.
LIMITS = "connections.HEAD_SECONDS=0.5,connections.SWEEP_SECONDS=0.1,service.BODY_SECONDS=0.3,app.IDLE_SECONDS=0.5,app.LINGER_SECONDS=0.1"
MOST_BODY = 1 << 16
OPTIONS = {
    "vertices": VERTICES, "mirror": True, "seconds": 0.3, "body": MOST_BODY, "rebase_batches": 50, "snapshot_batches": 300, "kept_bytes": 1 << 20,
    "scan_seconds": 0.01, "programs": 100, "connections": 200,
}
IDS, CLIENTS, BLOCK, WARM_BLOCKS, FIRST_BATCHES, TRIES, REST = 400, 8, 400, 3, 25, 3, 3
# The process may grow by so many megabytes after the first blocks, and SQLite may keep so many files open for readers that it had at once. After so
# many faults it is enough.
MOST_GROWTH, MORE_FILES, MOST_FAULTS = 64, 4, 10


class Test:
    """What is known of a service over both of its lives."""

    def __init__(self, options):
        self.options, self.known, self.begun, self.number = options, Known(self.fault), time.monotonic(), 0
        # The words that stand for others, the statuses of each route, and by route and status how many answers came.
        self.words, self.statuses, self.table = {}, {}, collections.Counter()
        self.counts, self.faults, self.port, self.honest, self.log = collections.Counter(), {}, None, None, Log(options.log)

    def fault(self, words, outcome=None):
        """Keeps a fault with what was sent, once for each kind."""
        self.faults.setdefault(words.partition(":")[0], (words, outcome and outcome.asked.pieces))

    def goes_on(self, part):
        """Whether a part of the time, or of the requests, is left."""
        if len(self.faults) >= (1 if self.options.mistake else MOST_FAULTS):
            return False
        return self.number < self.options.requests * part if self.options.requests else time.monotonic() < self.begun + self.options.seconds * part

    def statuses_of(self, asked):
        """The statuses that may answer a request. None: nobody knows for sure what was asked."""
        return allowed(self.statuses, asked) if asked else {*COMMON, *(status for some in self.statuses.values() for status in some)}

    def look(self, outcome):
        """Looks at all answers of a connection, and counts them."""
        self.counts["requests"] += outcome.asked.count
        try:
            require(outcome.ending not in ("endless", REFUSED), f"the connection is {outcome.ending}")
            outcome.answers = answers_in(outcome.data, b"HEAD " in outcome.sent)
            if outcome.answers and outcome.answers[-1].body.startswith(b'{"status":"alive"'):
                outcome.answers.pop()
            clear = outcome.requests if outcome.requests and len(outcome.requests) == len(outcome.answers) else [None] * len(outcome.answers)
            for asked, answer in zip(clear, outcome.answers):
                self.counts["answers"] += 1
                route = (asked.route_in(self.statuses) if asked else None) or "no route for sure"
                self.table[route, answer.status] += 1
                require(answer.status in self.statuses_of(asked), f"{route} is answered {answer.status}:", answer.body[:200])
                look_at(answer)
                if answer.ending == "stream" and (found := re.search(rb"^id: (\S+)$", answer.body, re.M)):
                    self.words[EVENT] = found[1].decode()
        except Fault as fault:
            self.fault(str(fault), outcome)
        if not outcome.answers:
            self.table["no answer", outcome.ending] += 1

    def is_silent(self, outcome):
        """Whether requests that are clear have no answer."""
        return outcome.requests and not outcome.answers and outcome.ending == CLOSED and len(outcome.sent) < MOST_BODY

    def ask_again(self, outcome):
        """Where a machine has much to do, requests may come too late to be answered."""
        for _ in range(TRIES):
            again = exchange(self.port, outcome.asked, self.words)
            self.look_at_all([again])
            if not self.is_silent(again):
                return
        self.fault(f"{outcome.asked.route} has no answer", outcome)

    def block(self, pool):
        """Sends a block of changed requests at once, and looks at what came of it when all have ended."""
        asked = [changed(seeded("fuzz", self.options.seed, number)) for number in range(self.number, self.number + BLOCK)]
        self.number += BLOCK
        ending = threading.Event()
        beside = pool.submit(self.honest.go, ending)
        outcomes = list(pool.map(lambda one: exchange(self.port, one, self.words), asked))
        ending.set()
        # If the service has ended, one of those did it that have no answer, and came before the first that was refused or beside it.
        first = next((place for place, outcome in enumerate(outcomes) if outcome.ending == REFUSED), -CLIENTS)
        silent = [outcome for outcome in outcomes[:first + CLIENTS] if outcome.ending == CLOSED and not outcome.data]
        for place, outcome in enumerate(silent[-CLIENTS:]):
            self.fault(f"the service has ended, by this request or one beside it, {place}", outcome)
        beside.result()
        self.look_at_all(outcomes)
        for outcome in filter(self.is_silent, outcomes):
            self.ask_again(outcome)
        self.honest.restore()
        return outcomes

    def look_at_all(self, outcomes):
        for outcome in outcomes:
            self.look(outcome)
        self.known.go_on(self.honest, outcomes)

    def begin(self, port, client):
        """The first batch, if this is the first life, and else what this life has to have kept."""
        if not self.known.version:
            edits = [edit for number in range(FIRST_BATCHES) for edit in random_edits(seeded(self.options.seed, number), VERTICES, 8)]
            self.known.apply(client.batch(edits)[0].version, edits)
        paths = client.json("GET", "/openapi.json")["paths"]
        self.statuses = {f"{method.upper()} {path}": set(map(int, told["responses"])) for path, methods in paths.items() for method, told in methods.items()}
        require(set(self.statuses) == set(SEEDS), "valid_requests.py has other routes than the service:", set(self.statuses) ^ set(SEEDS))
        self.port, self.honest = port, Honest(client, self.known.version, self.words)
        self.known.go_on(self.honest, [])
        self.honest.restore()


class Log:
    """What the service writes to standard error."""

    def __init__(self, path):
        self.path, self.place = pathlib.Path(path), 0

    def bad(self):
        """What is bad of what was written since the last call."""
        text = self.path.read_text(errors="replace")
        place, self.place = self.place, len(text)
        return bad_lines(text[place:])

    def find_culprit(self, test, outcomes):
        """Sends what led to a bad log once more, one by one, until it says so again, and returns that."""
        sent, found = [], None
        for outcome in outcomes:
            sent.append(exchange(test.port, outcome.asked, test.words))
            test.honest.read()
            if self.bad():
                found = outcome
                break
        test.look_at_all(sent)
        return found


class Process:
    """What a service takes of its machine."""

    def __init__(self, pid):
        self.of = pathlib.Path(f"/proc/{pid}")
        time.sleep(REST)
        self.held, self.megabytes = self.holds(), self.memory()

    def memory(self):
        return int(re.search(r"VmRSS:\s+(\d+)", (self.of / "status").read_text())[1]) // 1024

    def holds(self):
        """How many files and threads it has."""
        return [len(list((self.of / name).iterdir())) for name in ("fd", "task")]

    def has_grown(self):
        """By how many megabytes. Raises a fault if that is too much, or if there are more files or threads once connections have ended."""
        is_settled = soon(lambda: all(now <= before + more for now, before, more in zip(self.holds(), self.held, (MORE_FILES, 0))))
        grown = self.memory() - self.megabytes
        require(is_settled, f"files and threads were {self.held}, and are {self.holds()}")
        require(grown <= MOST_GROWTH, f"the service grew by {grown} MB")
        return grown


def soon(is_so):
    """Whether something is so within some seconds."""
    for _ in range(200):
        if is_so():
            return True
        time.sleep(0.05)
    return False


def nothing_waits(client):
    text = client.ask("GET", "/metrics")[1].decode()
    return all(f"edgebpf_{name} 0.0\n" in text for name in ("watches", "waiting_calls", "queued_batches"))


@contextlib.contextmanager
def life(test, forks, data, tokens):
    """A service, with its pid and an honest client."""
    pid = forks.begin(data=str(data), **OPTIONS)
    port, status = forks.port()
    require(port is not None, f"the service ended with {status} before it listened")
    try:
        # A connection that nobody uses for a while is closed, and opened again.
        with Client(f"http://127.0.0.1:{port}", token=tokens.get(ALL), timeout=30, tries=3) as client:
            test.words = {VERSION: "1", EVENT: "1-00000000", **tokens}
            test.begin(port, client)
            yield pid, client
    except BaseException:
        os.kill(pid, signal.SIGKILL)
        forks.wait(pid)
        raise
    os.kill(pid, signal.SIGTERM)
    ended = forks.wait(pid)
    require(ended == 0, f"the service ended with {ended}")


def whole_life(test, forks, data, tokens, part):
    """Blocks until a part of the time is over."""
    log, blocks, process = test.log, 0, None
    with life(test, forks, data, tokens) as (pid, client), concurrent.futures.ThreadPoolExecutor(CLIENTS + 1) as pool:
        while test.goes_on(part):
            outcomes = test.block(pool)
            if bad := log.bad():
                test.fault(f"the log says: {bad[0]}", log.find_culprit(test, outcomes))
            shutil.rmtree(data / "backups", ignore_errors=True)
            blocks += 1
            process = Process(pid) if blocks == WARM_BLOCKS else process
        if process is not None:
            test.counts["MB grown"] = max(test.counts["MB grown"], process.has_grown())
        require(soon(lambda: nothing_waits(client)), "something is still under way")
    if bad := log.bad():
        test.fault(f"the log says at the end: {bad[0]}")


def made_tokens(data):
    """The words that stand for tokens, with tokens that were made for them."""
    roles = {ALL: ("all", ALL_ROLES), READER: ("reader", "read")}
    return {token: token_command(data, "--name", name, "--roles", some) for token, (name, some) in roles.items()}


def both_lives(test, forks, data):
    try:
        whole_life(test, forks, data, {}, 0.5)
        whole_life(test, forks, data, made_tokens(data), 1.0)
    except (Fault, Error, NoAnswer, OSError) as fault:
        test.fault(f"{type(fault).__name__}: {fault}")


def send(test, forks, data):
    """Sends once more what a fault was printed with, without tokens and with them, and prints what comes."""
    pieces = ast.literal_eval(pathlib.Path(test.options.send).read_text())
    for tokens_of in (lambda _: {}, made_tokens):
        with life(test, forks, data, tokens_of(data)):
            outcome = exchange(test.port, Changed(pieces, 1, "", False), test.words)
            print(outcome.data, outcome.ending, sep="\n")
    sys.stdout.write(pathlib.Path(test.options.log).read_text())


def options_of(place):
    parser = argparse.ArgumentParser(description=__doc__, formatter_class=argparse.RawDescriptionHelpFormatter)
    parser.add_argument("--seconds", type=float, default=30)
    parser.add_argument("--requests", type=int, help="so many connections, however long they take")
    parser.add_argument("--seed", type=int, default=int.from_bytes(os.urandom(4), "little"))
    parser.add_argument("--log", default=place / "log", help="what the service writes to standard error")
    parser.add_argument("--send", metavar="FILE", help="send the pieces of a fault once more")
    parser.add_argument("--mistake", default="", help="a mistake of mistakes.py, which has to be found")
    return parser.parse_args()


def main():
    with folder() as place:
        options = options_of(place)
        test = Test(options)
        with Forks(options.log, SERVE_LIMITS=LIMITS, SERVE_IDS=str(IDS), SERVE_MISTAKE=options.mistake) as forks:
            if options.send:
                return send(test, forks, place / "graph")
            both_lives(test, forks, place / "graph")
    for route in sorted({route for route, _ in test.table}):
        print(route, *(f"{status}: {count}" for (one, status), count in sorted(test.table.items(), key=str) if one == route), sep="  ")
    for words, pieces in test.faults.values():
        print(f"fault: {words}\n{pieces!r}")
    told = f"fuzz_requests: seed {options.seed}: " + ", ".join(f"{count} {what}" for what, count in (test.counts + test.known.counts).items())
    if test.faults:
        sys.exit(f"{told}, {len(test.faults)} faults: {next(iter(test.faults.values()))[0].splitlines()[0][:300]}")
    print(f"{told}, no fault")


if __name__ == "__main__":
    main()
