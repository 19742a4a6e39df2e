#!/usr/bin/env python3
"""Holds rounds of a store over threads, and compares all that is published and read with a model of its own.

The model shares nothing with the crates: a version is a dictionary of sets. Which feed comes when is the threads' doing, so
the model replays the order in which batches were published. The same seed always makes the same batches."""

import argparse
import collections
import os
import pathlib
import subprocess
import sys
import tempfile
import threading
import time

HERE = pathlib.Path(__file__).resolve().parent
sys.path.insert(0, str(HERE.parent))
from building import build  # noqa: E402

USED = ["past_model", "store"]
FEEDS = 4
PLACES = 16
MOST_BATCHES = 4096
SERVED_EPOCHS = 1024
OUTSIDE = 16
MASK = 2**64 - 1
FACTOR = 0x9E3779B97F4A7C15
# How long a round may take, on a machine that does much else.
PATIENCE = 1800
# Lines of the driver, by the names of the methods that compare them, and words in them that are no numbers.
NAMES = {"place": "at", "last": "final"}
KINDS = "batch published rebase log_full epochs_full pin at again another reader final left end".split()
WORDS = {"true": 1, "false": 0}


class Different(Exception):
    """The store said something else than the model."""


def mixed(word):
    word = ((word ^ (word >> 30)) * 0xBF58476D1CE4E5B9) & MASK
    word = ((word ^ (word >> 27)) * 0x94D049BB133111EB) & MASK
    return word ^ (word >> 31)


def folded(word, next_word):
    return (word * FACTOR + next_word) & MASK


class Numbers:
    """Numbers that look random, as the driver makes them."""

    def __init__(self, seed, feed, batch):
        self.state = mixed(folded(folded(seed, feed), batch))

    def next(self):
        self.state = (self.state + FACTOR) & MASK
        return mixed(self.state)

    def below(self, limit):
        return self.next() % max(limit, 1)

    def choice(self, choices):
        return choices[self.below(len(choices))]


class Round(collections.namedtuple("Round", "seed vertices batches most epoch readers left")):
    """What the driver is told of a round."""

    @staticmethod
    def of(seed):
        numbers = Numbers(seed, 300, 0)
        left = numbers.choice([0, 1, 17, 64])
        if seed % 32 == 7:
            # So many batches that an epoch's log gets full.
            return Round(seed, 300, 1200, 6, MOST_BATCHES + 1, 16, left)
        if seed % 32 == 23:
            # So many rebases that no epoch is left.
            return Round(seed, 300, 300, 6, 1, 15, left)
        vertices = numbers.choice([1, 20, 300, 2000, 3000, 3000, 5000, 5000, 70_000])
        most = numbers.choice([5, 300, 3000, 3000, 6000])
        epoch = numbers.choice([1, 3, 5, 20, 100, 1000])
        return Round(seed, vertices, 40 + numbers.below(120), most, epoch, numbers.choice([16, 16, 15, 12]), left)

    def line(self):
        return " ".join(str(number) for number in self)


def edits_of(plan, feed, batch):
    """The edits of a feed's batch, each as whether it inserts, source and target."""
    numbers = Numbers(plan.seed, feed, batch)
    vertices = plan.vertices
    code = numbers.below(16)
    hub = numbers.below(4) * 97 % vertices
    first = numbers.below(vertices)
    removals = numbers.below(8)
    if code == 0:
        count = 0
    elif code <= 6:
        count = 1 + numbers.below(min(12, plan.most))
    elif code <= 9:
        count = numbers.below(min(200, plan.most))
    else:
        count = numbers.below(plan.most + 1)
    edits = []
    for place in range(count):
        word = numbers.next()
        source, target = (word >> 16 & 0xFFFFFF) % vertices, (word >> 40) % vertices
        is_insertion = word & 7 >= removals
        if code in (1, 2, 3, 7, 10, 11):
            source = hub
        elif code in (12, 13):
            source, target, is_insertion = hub, (first + place) % vertices, removals < 4
        elif code == 14:
            source = (first + source % 64) % vertices
        else:
            source = source % 16 if word & 16 else source
            target = target % 64 if word & 32 else target
        edits.append((is_insertion, source, target))
    return edits


def edits_word(edits):
    """One word of all edits and their order."""
    word = 0
    for is_insertion, source, target in edits:
        for part in (1 if is_insertion else 2, source, target):
            word = folded(word, part)
    return word


def home_after(home, degree):
    """Where a list is kept after a batch: 0 in a block, 1 in an array, 2 in a tree."""
    if degree <= (12 if home == 0 else 8):
        return 0
    return 1 if degree <= (768 if home == 2 else 1024) else 2


class Graph:
    """What the rules say of a graph, and one word of all that it answers."""

    def __init__(self, vertices):
        self.vertices = vertices
        self.targets = collections.defaultdict(set)
        self.homes = collections.defaultdict(int)
        self.edges = 0
        self.moves = 0
        self.words = collections.defaultdict(int)
        self.word = 0
        self.changed = set()

    def apply(self, edits):
        """How many edges come and go: of each pair the last edit decides."""
        last = {(source, target): is_insertion for is_insertion, source, target in edits}
        added = removed = 0
        for (source, target), is_insertion in last.items():
            targets = self.targets[source]
            if is_insertion and target not in targets:
                targets.add(target)
                added += 1
            elif not is_insertion and target in targets:
                targets.remove(target)
                removed += 1
        for source in {source for source, _ in last}:
            home = home_after(self.homes[source], len(self.targets[source]))
            self.moves += home != self.homes[source]
            self.homes[source] = home
            self.changed.add(source)
        self.edges += added - removed
        return added, removed

    def seen(self):
        """The number of edges, and the word of all answers. Only vertices that changed are asked again."""
        for vertex in self.changed:
            word = self.vertex_word(vertex)
            self.word = (self.word - self.words[vertex] + word) & MASK
            self.words[vertex] = word
        self.changed.clear()
        return self.edges, self.word

    def vertex_word(self, vertex):
        targets = sorted(self.targets[vertex])
        if not targets:
            return 0
        word = 0
        for target in targets:
            word = (word * FACTOR + target + 1) & MASK
        word = folded(folded(word, len(targets)), self.homes[vertex])
        place = mixed(word) % len(targets)
        # A neighbour by its place, which is an edge, and another edge that may be there.
        word = folded(folded(word, targets[place]), 1)
        word = folded(word, mixed(word) % self.vertices in self.targets[vertex])
        # Two neighbours as bytes, and none past the end.
        found = targets[place : place + 2]
        low, high = (found + [0xFFFFFFFF])[:2]
        word = folded(folded(folded(word, len(found)), low | high << 32), 1)
        return mixed(folded(word, vertex))


class Replay:
    """One round: what it said, line by line, against the model."""

    def __init__(self, plan, lines):
        self.plan = plan
        self.lines = lines
        self.graph = Graph(plan.vertices)
        self.place = (0, 0)
        self.next = [0] * FEEDS
        self.feed_edits = None
        self.last = collections.defaultdict(lambda: (0, 0))
        self.versions = {}
        self.wanted = {tuple(line[2:4]) for line in lines if line[0] in ("pin", "again", "final")}
        self.counts = collections.Counter(rounds=1)
        self.begin_version()

    def expect(self, what, said, wanted):
        if said != wanted:
            raise Different(f"{what}: {said} and not {wanted}")

    def begin_version(self):
        """Keeps what is to be read of this version, where somebody says that he read it."""
        self.versions[self.place] = self.graph.seen() if self.place in self.wanted else None

    def batch(self, feed, count, word):
        """It is the next one of its feed, whole."""
        number = self.next[feed]
        if number == self.plan.batches:
            raise Different(f"feed {feed} submitted no batch {number}")
        self.feed_edits = edits_of(self.plan, feed, number)
        self.expect(f"batch {number} of feed {feed}", (count, word), (len(self.feed_edits), edits_word(self.feed_edits)))
        self.next[feed] += 1
        self.counts["batches"] += 1
        self.counts["edits"] += count

    def published(self, epoch, number, added, removed):
        self.place = (self.place[0], self.place[1] + 1)
        self.expect("a publication's epoch and number", (epoch, number), self.place)
        if number > MOST_BATCHES:
            raise Different(f"batch {number} of an epoch")
        self.expect(f"edges added and removed by {self.place}", (added, removed), self.graph.apply(self.feed_edits))
        self.counts["published"] += 1
        self.begin_version()

    def rebase(self, epoch, number):
        self.place = (self.place[0] + 1, 0)
        self.expect("a rebase's epoch and number", (epoch, number), self.place)
        if epoch > SERVED_EPOCHS:
            raise Different(f"epoch {epoch}")
        self.counts["rebases"] += 1
        self.begin_version()

    def log_full(self):
        self.expect("batches of a full log", self.place[1], MOST_BATCHES)
        self.counts["full logs"] += 1

    def epochs_full(self):
        self.expect("the last epoch", self.place[0], SERVED_EPOCHS)
        self.counts["last epochs"] += 1

    def pin(self, reader, epoch, number, edges, word):
        self.at(reader, epoch, number)
        self.again(reader, epoch, number, edges, word)

    def again(self, reader, epoch, number, edges, word):
        """A version is read, and maybe not for the first time."""
        self.expect(f"reader {reader}, version {epoch} {number}", (edges, word), self.versions.get((epoch, number)))
        self.counts["versions read whole"] += 1

    def at(self, reader, epoch, number):
        """Readers never go back, and see what was published."""
        if (epoch, number) < self.last[reader]:
            raise Different(f"reader {reader} came from {self.last[reader]} back to {(epoch, number)}")
        if (epoch, number) not in self.versions:
            raise Different(f"reader {reader} saw {(epoch, number)}, which was not published")
        self.last[reader] = (epoch, number)

    def another(self, reader):
        self.expect("whether a place for another reader was free", True, self.plan.readers < PLACES)
        self.last[PLACES + reader] = self.last[reader]
        self.counts["readers of readers"] += 1

    def reader(self, reader, pins, refused, _no_place, is_closed):
        self.expect(f"refused pins of reader {reader}", refused, 0)
        self.expect(f"reader {reader} of an ended store is told so", is_closed, 1)
        self.counts["readers"] += 1
        self.counts["pins"] += pins

    def left(self, feed, count, word):
        self.batch(feed, count, word)
        self.counts["left"] += 1

    def end(self, full, outside, lost):
        # Each batch that was submitted came once: each feed's numbers were counted up by one.
        self.expect("batches of each feed", self.next, [self.plan.batches] * FEEDS)
        self.expect("batches left", self.counts["left"], self.plan.left)
        self.expect("readers", self.counts["readers"], self.plan.readers)
        self.expect("batches refused for a vertex", outside, FEEDS * (-(-self.plan.batches // OUTSIDE)))
        self.expect("batches lost", lost, 0)
        self.counts["times full"] += full
        self.counts["lists moved"] += self.graph.moves

    def final(self, reader, epoch, number, edges, word):
        self.expect("the last version", (epoch, number), self.place)
        self.again(reader, epoch, number, edges, word)

    def compare(self):
        for name, *numbers in self.lines:
            getattr(self, name)(*numbers)
            if name in ("pin", "at") and self.plan.readers < PLACES and numbers[0] == PLACES - 1:
                # The publisher's own reader, which learned of what was just published.
                self.expect("what is published and pinned", self.last[PLACES - 1], self.place)
        return self.counts


class Driver:
    """The built driver, which holds a round for each line that it is given."""

    def __init__(self, program):
        self.program = program
        self.process = subprocess.Popen([program], stdin=subprocess.PIPE, stdout=subprocess.PIPE, text=True)

    def lines_of(self, plan):
        """What it writes of a round, each line as a name and numbers."""
        bell = threading.Timer(PATIENCE, self.process.kill)
        bell.start()
        try:
            self.process.stdin.write(plan.line() + "\n")
            self.process.stdin.flush()
            return list(self.lines_to_end())
        finally:
            bell.cancel()

    def lines_to_end(self):
        for text in self.process.stdout:
            name, *words = text.split()
            name = NAMES.get(name, name)
            if name not in KINDS:
                raise Different(f"the driver says {text.strip()}")
            yield (name, *(WORDS[word] if word in WORDS else int(word) for word in words))
            if name == "end":
                return
        raise Different(f"the driver ended with {self.process.wait()}, or a round took more than {PATIENCE} seconds")


def kept(lines):
    """A file of these lines: the same seed does not make the same order again."""
    with tempfile.NamedTemporaryFile("w", prefix="store_threads-", delete=False) as out:
        out.writelines(" ".join(map(str, line)) + "\n" for line in lines)
    return out.name


def hold_rounds(program, seed, seconds):
    driver, counts, end = Driver(program), collections.Counter(), time.monotonic() + seconds
    while time.monotonic() < end:
        plan, lines = Round.of(seed), []
        try:
            lines = driver.lines_of(plan)
            counts.update(Replay(plan, lines).compare())
        except Different as difference:
            driver.process.kill()
            sys.exit(f"{dict(counts)}\n{plan}: {difference}\nThe round's lines are in {kept(lines)}")
        seed += 1
    driver.process.stdin.close()
    if driver.process.wait() != 0:
        sys.exit(f"{dict(counts)}\nthe driver ended with {driver.process.returncode}")
    return counts


def main():
    parser = argparse.ArgumentParser(description=__doc__.split("\n")[0])
    parser.add_argument("--seconds", type=float, default=60, help="rounds begin for so long")
    parser.add_argument("--seed", type=int, default=1, help="the first round's; each next round has the next one")
    parser.add_argument("--sanitize", action="store_true", help="build the driver for ThreadSanitizer, with clang-19")
    parser.add_argument("--program", help="where the driver is; where it is not there yet, it is built, which takes minutes")
    arguments = parser.parse_args()
    with tempfile.TemporaryDirectory() as folder:
        program = arguments.program or f"{folder}/program"
        if not os.path.exists(program):
            build(program, HERE / "driver.rattle", USED, arguments.sanitize)
        counts = hold_rounds(os.path.abspath(program), arguments.seed, arguments.seconds)
    for kind, count in sorted(counts.items()):
        print(f"{count:10} {kind}")
    print(f"none different, from seed {arguments.seed} on")


if __name__ == "__main__":
    main()
