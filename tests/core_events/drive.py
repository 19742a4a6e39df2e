#!/usr/bin/env python3
"""Drives the core through 100,000 random events, and compares each reply with a small model of its own.

The model shares nothing with the crates: a version is a dictionary of sets, and a run is a list of words that is
cut as the core cuts it. The same number always makes the same events."""

import collections
import pathlib
import random
import subprocess
import sys
import tempfile

HERE = pathlib.Path(__file__).resolve().parent
sys.path.insert(0, str(HERE.parent))
from building import build  # noqa: E402

USED = ["cursors", "past_model", "shard_table", "stream_core"]
EVENTS = 100_000
FEEDS = 4


class Model:
    """What the rules say, in Python."""

    def __init__(self, vertex_count):
        self.vertex_count = vertex_count
        self.graph = collections.defaultdict(set)
        self.queue = collections.deque()
        self.held = None
        self.todo = set()
        self.runs = {}

    def submit(self, feed, edits):
        inside = all(s < self.vertex_count and t < self.vertex_count for _, s, t in edits)
        if feed >= FEEDS or len(self.queue) == 64 or not inside:
            return "refused"
        self.queue.append(edits)
        return "done"

    def take(self):
        if self.held is not None or not self.queue:
            return "refused"
        self.held = self.queue.popleft()
        self.todo = {s // 256 for _, s, _ in self.held}
        return "done"

    def part(self, part_range):
        if self.held is None or part_range not in self.todo:
            return "refused"
        self.todo.remove(part_range)
        return "done"

    def publish(self):
        if self.held is None or self.todo:
            return "refused"
        for sign, source, target in self.held:
            if sign == "+":
                self.graph[source].add(target)
            else:
                self.graph[source].discard(target)
        self.held = None
        return "done"

    def rebase(self):
        # The graph stays, and so does each run.
        return "done"

    def pin(self, reader, vertex):
        if reader > 15 or vertex >= self.vertex_count:
            return "refused"
        self.runs[reader] = sorted(self.graph[vertex])
        return "done"

    def lend(self, reader, said):
        """What it may answer depends on how the core cuts its lists: any first words of what is left."""
        if reader not in self.runs:
            return "refused"
        left = self.runs[reader]
        if not left:
            return "end"
        count = max(1, len(said.split()) - 1)
        self.runs[reader] = left[count:]
        return " ".join(["slice"] + [str(word) for word in left[:count]])

    def whole(self):
        words = ["graph"]
        for vertex in range(self.vertex_count):
            words += [f"{vertex}>{word}" for word in sorted(self.graph[vertex])]
        return " ".join(words)


def random_edits(numbers, vertex_count):
    # Few vertices are edited, so that edits meet, and now and then one is outside.
    vertices = numbers.sample(range(vertex_count), min(vertex_count, 6))
    if numbers.random() < 0.03:
        vertices.append(vertex_count + numbers.randrange(3))
    count = numbers.choice([0, 1, 1, 2, 3, 5, 20])
    return [(numbers.choice("++-"), numbers.choice(vertices), numbers.choice(vertices)) for _ in range(count)]


def random_event(numbers, model):
    """An event as words, most of which can happen."""
    kind = numbers.choices(["submit", "take", "part", "publish", "rebase", "pin", "lend", "graph"], [20, 18, 30, 18, 3, 15, 40, 0.05])[0]
    if kind == "submit":
        return [kind, numbers.choice([0, 0, 1, 1, 2, 2, 3, 3, FEEDS]), random_edits(numbers, model.vertex_count)]
    if kind == "part":
        if model.todo and numbers.random() < 0.8:
            return [kind, numbers.choice(sorted(model.todo))]
        return [kind, numbers.randrange(model.vertex_count // 256 + 2)]
    if kind == "pin":
        outside = numbers.random() < 0.05
        vertex = model.vertex_count + numbers.randrange(2) if outside else numbers.randrange(model.vertex_count)
        edited = [vertex for vertex, targets in sorted(model.graph.items()) if targets]
        if edited and numbers.random() < 0.7:
            vertex = numbers.choice(edited)
        return [kind, numbers.randrange(17), vertex]
    if kind == "lend":
        return [kind, numbers.randrange(17)]
    return [kind]


def line_of(event):
    if event[0] == "submit":
        return " ".join(["submit", str(event[1])] + [f"{sign} {s} {t}" for sign, s, t in event[2]])
    return " ".join(str(word) for word in event)


def script(numbers, count):
    """Worlds of several sizes, each with a few thousand events."""
    lines, worlds = [], 0
    while len(lines) < count + worlds:
        model = Model(numbers.choice([1, 4, 9, 256, 257, 700, 2000]))
        lines.append((None, f"world {model.vertex_count}", model.vertex_count))
        worlds += 1
        # In every fourth world nothing is taken for long, so that the queue gets full.
        slow = numbers.random() < 0.25
        for _ in range(min(5000, count + worlds - len(lines))):
            event = random_event(numbers, model)
            if slow and event[0] == "take" and numbers.random() < 0.9:
                event = ["submit", numbers.randrange(FEEDS), random_edits(numbers, model.vertex_count)]
            lines.append((event, line_of(event), None))
            if event[0] in ("submit", "take", "part", "publish"):
                getattr(model, event[0])(*event[1:])
    return lines


def replies_of(lines):
    """Builds the driver over the crates as they stand, and gives what it writes."""
    text = "".join(f"{line}\n" for _, line, _ in lines)
    with tempfile.TemporaryDirectory() as folder:
        driver = pathlib.Path(folder) / "driver"
        build(driver, HERE / "driver.rattle", USED)
        done = subprocess.run([driver], input=text, text=True, capture_output=True)
    if done.returncode != 0:
        sys.exit(done.stderr)
    return done.stdout.splitlines()


def main():
    seed = int(sys.argv[1]) if len(sys.argv) > 1 else 20
    lines = script(random.Random(seed), EVENTS)
    replies = iter(replies_of(lines))
    model, counts = None, collections.Counter()
    for place, (event, line, vertex_count) in enumerate(lines):
        if event is None:
            model = Model(vertex_count)
            continue
        said = next(replies, "nothing")
        if event[0] == "graph":
            wanted = model.whole()
        elif event[0] == "lend":
            wanted = model.lend(event[1], said)
        else:
            wanted = getattr(model, event[0])(*event[1:])
        if said != wanted:
            sys.exit(f"line {place + 1}, {line}: {said} and not {wanted}")
        counts[f"{event[0]} {said.split()[0]}"] += 1
    for kind, count in sorted(counts.items()):
        print(f"{count:7} {kind}")
    print(f"{sum(counts.values())} events of seed {seed} are answered as the model answers them")


if __name__ == "__main__":
    main()
