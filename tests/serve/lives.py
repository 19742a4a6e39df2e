"""One folder over many lives of a service, each of which ends suddenly: what clients were answered, against a model of all batches."""
import collections
import contextlib
import http.client
import os
import signal
import threading
import time

from harness import ALL_ROLES, Client, Error, NoAnswer, require, status_of, token_command
from model import KINDS, Graph, random_edits, seeded, table_of

VERTICES, IDS = 60, 400
WRITERS, READERS, OLD_BATCHES, LARGEST_BATCH = 4, 2, 8, 40
# Limits so small that each life sees rebases and snapshots.
OPTIONS = {"vertices": VERTICES, "mirror": True, "rebase_batches": 7, "snapshot_batches": 30, "kept_bytes": 1 << 20, "group_batches": 8, "scan_seconds": 0.01}
WATCHED = ("target", "mutual", "next")
# In one of so many lives a token is made and another one is taken back.
LIVES_OF_TOKEN = 10
LOST = (NoAnswer, OSError, http.client.HTTPException)


class World:
    """What all lives so far were answered."""

    def __init__(self, seed):
        self.seed, self.life = seed, 0
        # By version: id, edits, and what was answered. By id: the edits of a batch that may be there or not.
        self.known, self.doubt = {}, {}
        self.graph, self.seq = Graph(VERTICES), 0
        self.reads, self.tables = [], []
        self.watch = {kind: (None, {}, None) for kind in WATCHED}
        # By name: what may be on the disk. A put that was answered leaves one.
        self.column, self.programs = [None], {}
        # The token of all clients, and by each other one its name and whether it was taken back.
        self.token, self.tokens = None, {}
        self.counts = collections.Counter()


class Life:
    """The clients of one life."""

    def __init__(self, world, port, data, **environment):
        """data, environment: the folder, and the variables of a command that changes its tokens."""
        self.world, self.port, self.ending, self.data, self.environment = world, port, threading.Event(), data, environment
        self.batches, self.doubt, self.reads, self.tables = [], {}, [], []
        self.faults, self.threads = [], []

    def client(self):
        return self.client_of(self.world.token)

    def client_of(self, token):
        return Client(f"http://127.0.0.1:{self.port}", token=token, timeout=20, tries=1)

    def token_command(self, *words):
        return token_command(self.data, *words, **self.environment)

    def begin(self):
        jobs = [*(lambda n=n: self.write(n) for n in range(WRITERS)), *(lambda n=n: self.read(n) for n in range(READERS)), self.administer]
        jobs += [lambda k=k: self.subscribe(k) for k in WATCHED]
        jobs += [self.change_tokens] if self.world.life % LIVES_OF_TOKEN == 1 else []
        self.threads = [threading.Thread(target=self._attempt, args=(job,)) for job in jobs]
        for thread in self.threads:
            thread.start()

    def _attempt(self, job):
        try:
            job()
        except LOST:
            pass
        except Exception as error:
            self.faults.append(error)

    def end(self):
        self.ending.set()
        for thread in self.threads:
            thread.join()
        for fault in self.faults:
            raise fault

    def chance(self, *words):
        return seeded(self.world.seed, self.world.life, *words)

    def write(self, number):
        chance, client = self.chance("write", number), self.client()
        for place in range(10**6):
            if self.ending.is_set():
                return
            key, edits = f"{self.world.life}-{number}-{place}", random_edits(chance, VERTICES, LARGEST_BATCH)
            self.doubt[key] = edits
            try:
                outcome, = client.batch(edits, key=key)
            except Error as error:
                require(error.status in (503, 507), "a batch:", error)
                del self.doubt[key]
                self.world.counts[f"refused {error.status}"] += 1
                time.sleep(0.02)
                continue
            del self.doubt[key]
            self.batches.append((key, edits, outcome))
            # Disks of machines are of many speeds.
            time.sleep(chance.random() * 0.01)

    def read(self, number):
        chance, client = self.chance("read", number), self.client()
        while not self.ending.is_set():
            kind, reduction = chance.choice(list(self.world.programs)), chance.choice(["sum", "min", "max"])
            frontier = chance.sample(range(VERTICES), 3)
            argument = (5).to_bytes(8, "little") if kind == "argument" else b""
            told = client.run(kind, reduction, frontier, argument)
            self.reads.append((told["version"], kind, reduction, frontier, told["values"]))
            time.sleep(0.001)

    def change_tokens(self):
        """One token more, and the one before is taken back, whether the service ends meanwhile or not."""
        tokens, name = self.world.tokens, f"t{self.world.life}"
        tokens[self.token_command("--name", name)] = name, True
        for secret, (older, is_there) in list(tokens.items()):
            if is_there and older != name:
                self.token_command("--drop", older)
                tokens[secret] = older, False
        self.world.counts["tokens"] += 1

    def administer(self):
        """Columns, snapshots, and programs that come and go."""
        chance, client, world = self.chance("administer"), self.client(), self.world
        while not self.ending.is_set():
            numbers = [chance.randrange(2**64) for _ in range(VERTICES)]
            world.column.append(numbers)
            with self.may_fail():
                client.column("risk", numbers)
                world.column[:] = [numbers]
            if chance.random() < 0.3:
                with self.may_fail():
                    client.snapshot()
            time.sleep(0.03)

    @contextlib.contextmanager
    def may_fail(self):
        try:
            yield
        except Error as error:
            require(error.status in (503, 507), "an administrator:", error)

    def subscribe(self, kind):
        """A table by the events of a standing query, also over lives."""
        after, table, version = self.world.watch[kind]
        for event in self.client()._events(f"/watch?program={kind}&reduction=sum", after):
            if event.kind == "rows":
                table = {}
            else:
                require(event.before == version, "an event from", event.before, "and not", version)
            table, version = {**table, **dict(event.rows)}, event.version
            self.world.watch[kind] = event.id, table, version
            self.tables.append((event.version, kind, table))


def introduce(world, life, client):
    """The programs and the token of all clients, at the first life that comes so far."""
    for kind, how in KINDS.items():
        if how.record <= 24:
            told = client.program(kind, how.text, record=how.record)
            require(told["asks"] == how.asks, kind, "asks", told["asks"])
            world.programs[kind] = how.text
    # From now on a client without it is refused.
    world.token = life.token_command("--name", "all", "--roles", ALL_ROLES)


def recovered(world, client):
    """Compares what a service says after its start with all that was answered before."""
    version, starts, targets = client.edges()
    require(client.status()["version"] == version, "two versions, and no batch between them")
    for number in world.known:
        require(number <= version, f"batch {number} was acknowledged, and the last is {version}")
    chance = seeded(world.seed, world.life, "again")
    old = [number for number in world.known if number > version - IDS + 50]
    for number in chance.sample(old, min(len(old), OLD_BATCHES)):
        key, edits, outcome = world.known[number]
        again, = client.batch(edits, key=key)
        require(again == outcome._replace(new=False), f"batch {number} again:", again, "and not", outcome)
    for key, edits in list(world.doubt.items()):
        outcome, = client.batch(edits, key=key)
        world.counts["in doubt"] += 1
        world.counts["in doubt and kept"] += not outcome.new
        require(outcome.new == (outcome.version > version), "a batch in doubt:", outcome)
        require(outcome.version not in world.known, "two batches are version", outcome.version)
        world.known[outcome.version] = key, edits, outcome
        del world.doubt[key]
    replay(world, version)
    found = [(u, v) for u in range(VERTICES) for v in targets[starts[u]:starts[u + 1]]]
    require(found == world.graph.edges(), f"the edges of version {version}")
    replay(world, max(world.known, default=0))
    keeps(world, client)


def keeps_tokens(world, life):
    """The tokens are those that were made and not taken back."""
    asked = {None: 401, world.token: 200, **{secret: 200 if is_there else 401 for secret, (_, is_there) in world.tokens.items()}}
    for secret, status in asked.items():
        found = status_of(lambda: life.client_of(secret).json("GET", "/programs"))
        require(found == status, f"a token is answered {found}, and not {status}")


def keeps(world, client):
    """Programs and columns are those that were acknowledged."""
    kept = {told["name"] for told in client.json("GET", "/programs")["programs"]}
    require(set(world.programs) <= kept, "programs are missing:", set(world.programs) - kept)
    try:
        data = client.ask("GET", "/columns/risk")[1]
        found = [int.from_bytes(data[8 * u:8 * u + 8], "little") for u in range(VERTICES)]
    except Error as error:
        require(error.status == 404, error)
        found = None
    require(found in world.column, "the column is another one")
    world.column[:] = [found]


def replay(world, version):
    """Goes on with the model up to a version, and compares what was read on the way."""
    reads, tables = (collections.defaultdict(list) for _ in range(2))
    for read in world.reads:
        reads[read[0]].append(read[1:])
    for table in world.tables:
        tables[table[0]].append(table[1:])
    for number in range(world.seq, version + 1):
        if number > world.seq:
            require(number in world.known, f"batch {number} is of nobody")
            _, edits, outcome = world.known[number]
            require(world.graph.apply(edits) == outcome[1:3], f"the counts of batch {number}:", outcome)
            world.seq = number
        for kind, reduction, frontier, values in reads.pop(number, []):
            wanted = [world.graph.row(kind, u, reduction, (5, ())) for u in frontier]
            require(values == wanted, f"{kind} {reduction} of {frontier} in version {number}: {values}, and not {wanted}")
        for kind, table in tables.pop(number, []):
            wanted = table_of(world.graph, kind, "sum")
            require([table.get(u, 0) for u in range(VERTICES)] == wanted, f"the table of {kind} in version {number}")
    world.counts["reads"] += len(world.reads)
    world.counts["events"] += len(world.tables)
    require(not reads and not tables, "versions were read that are lost, or were read again:", *sorted({*reads, *tables})[:5])
    world.reads, world.tables = [], []


def learned(world, life):
    """Adds what a life was answered to what all were."""
    world.doubt |= life.doubt
    for key, edits, outcome in life.batches:
        require(outcome.version not in world.known, "two batches are version", outcome.version)
        require(outcome.new, "a first batch is not new:", outcome)
        world.known[outcome.version] = key, edits, outcome
    world.reads += life.reads
    world.tables += life.tables
    world.life += 1


def whole_life(world, forks, life, ending):
    """The life of a service that listens, from what it recovered to its sudden end. ending: its pid, and after how many seconds."""
    pid, seconds = ending
    try:
        client = life.client()
        recovered(world, client)
        if world.token:
            keeps_tokens(world, life)
        else:
            introduce(world, life, client)
        life.begin()
        time.sleep(seconds)
    finally:
        os.kill(pid, signal.SIGKILL)
        forks.wait(pid)
    life.end()
    learned(world, life)
