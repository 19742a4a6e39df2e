"""Mistakes that may be planted in a service, each of which a loop has to find: SERVE_MISTAKE names it, for forks.py."""
import contextlib
import time

import numpy as np
from edgebpf_serve import asked, disk, engine, graph, standing
from edgebpf_serve.limits import REMOVE


def branched(made):
    """A graph of its own with the edges of another."""
    other = graph.Graph.__new__(graph.Graph)
    other.__dict__.update(made.__dict__)
    other.stores = [store.pin().branch() for store in made.stores]
    return other


def before_rows(act):
    """Does something with new batches just before their rows are written."""
    write = engine.Engine._write_rows

    def changed(self, news, tasks):
        if news:
            act(self, news, branched(self.graph))
            # As long as a disk may take for a sync.
            time.sleep(0.01)
        write(self, news, tasks)

    engine.Engine._write_rows = changed


def seen_early():
    """Readers see batches before these are synced."""
    def show(self, news, ahead):
        for _, batch in news:
            ahead.apply(batch.edits)
        sources = np.unique(np.concatenate([batch.edits[:, 0] & ~np.uint32(REMOVE) for _, batch in news]))
        self.shown.show(ahead.moment(news[-1][0]), sources)
    before_rows(show)


def answered_early():
    """Batches are answered before they are synced."""
    def answer(self, news, ahead):
        for seq, batch in news:
            batch.done(engine.Outcome(seq, *ahead.apply(batch.edits), True))
    before_rows(answer)


def ids_forgotten():
    """A recovery forgets the ids of batches that a snapshot covers."""
    recover = engine.recover

    def changed(*words):
        state = recover(*words)
        state.ids = {key: told for key, told in state.ids.items() if told[0] > state.snapshot}
        return state

    engine.recover = changed


def newest_taken():
    """A subscriber moves on to the newest version, and not to that of its event."""
    after = standing.Standing.event_after

    async def changed(self, point, patience):
        event = await after(self, point, patience)
        return event and event._replace(point=self.now())

    standing.Standing.event_after = changed


def rebase_loses():
    """A rebase loses the last batch."""
    apply, rebase = graph.Graph.apply, graph.Graph.rebase

    def applied(self, *words):
        self.before = [store.pin() for store in self.stores]
        return apply(self, *words)

    def rebased(self):
        if getattr(self, "lost", None):
            self.stores = [version.branch() for version in self.lost]
        rebase(self)

    def kept(self, *words):
        self.lost = getattr(self, "before", None)
        return applied(self, *words)

    graph.Graph.apply, graph.Graph.rebase = kept, rebased


def snapshot_not_synced():
    """The files of snapshots and columns are not synced."""
    @contextlib.contextmanager
    def replaced(path):
        with open(path, "wb") as file:
            yield file
    disk.replaced = replaced


def sync_normal():
    """SQLite is told to sync only now and then."""
    disk.PRAGMAS = tuple(line.replace("synchronous=full", "synchronous=normal") for line in disk.PRAGMAS)


def field_missing():
    """A field that a request does not have is looked up as if it had it."""
    asked.text_of = lambda fields, name, otherwise=None: fields[name]


# What a machine may do, and is no mistake: a service has to go on, or to end so that nothing is lost.

def memory_short():
    """Each third batch is refused memory at first."""
    apply, count = graph.edgebpf.Store.apply, [0]

    def changed(self, *words):
        count[0] += 1
        if count[0] % 3 == 0:
            raise graph.edgebpf.NoMemory("there is no memory")
        return apply(self, *words)

    graph.edgebpf.Store.apply = changed


def memory_gone():
    """All batches but the first five are refused memory."""
    apply, count = graph.edgebpf.Store.apply, [0]

    def changed(self, *words):
        count[0] += 1
        if count[0] > 5:
            raise graph.edgebpf.NoMemory("there is no memory")
        return apply(self, *words)

    graph.edgebpf.Store.apply = changed


# The loop that has to find each mistake.
MISTAKES = {
    "seen_early": "crash_loop", "answered_early": "crash_loop", "ids_forgotten": "crash_loop", "newest_taken": "crash_loop", "rebase_loses": "crash_loop",
    "snapshot_not_synced": "power_loss", "sync_normal": "power_loss", "field_missing": "fuzz_requests",
}


def plant(name):
    globals()[name]()
