"""An honest client beside others, and the graph of the batches that were taken of these, for fuzz_requests.py."""
import collections

from exchanges import batch_in, holds
from harness import Error, require
from model import KINDS, Graph
from valid_requests import VERSION, VERTICES


class Known:
    """The graph of all batches so far. `counted` has by version what a batch did, and `faults` is called with what is not as it has to be."""

    def __init__(self, fault):
        self.graph, self.version, self.counted, self.fault = Graph(VERTICES), 0, {}, fault
        self.counts = collections.Counter()

    def apply(self, version, edits):
        self.version, self.counted[version] = version, self.graph.apply(edits)
        return self.counted[version]

    def go_on(self, honest, outcomes):
        """Goes on over the batches that were taken of some connections, and compares the graph with what was read meanwhile."""
        honest.read()
        reads, last = collections.defaultdict(list), max(version for version, _ in honest.reads)
        for version, edges in honest.reads:
            reads[version].append(edges)
        answered, again = self._answered(outcomes)
        while self.version <= last:
            require(all(edges == self.graph.edges() for edges in reads.pop(self.version, [])), f"the edges of version {self.version} are not its batches'")
            if self.version == last:
                break
            if not self._one_more(honest.changes.pop(self.version + 1, None), answered.pop(self.version + 1, None), outcomes):
                return self._read_back(honest, last)
        require(not reads and not answered, "versions were read or answered that are not there:", *reads, *answered)
        for told, outcome in again:
            if self.counted.get(told["version"]) not in (None, (told["added"], told["removed"])):
                self.fault(f"a batch that came again is answered otherwise: {told}", outcome)
        honest.reads.clear()

    def _answered(self, outcomes):
        """By version what was answered to new batches, and the answers to those that were there."""
        answered, again = {}, []
        for outcome in outcomes:
            for told, edits in batch_in(outcome):
                if not told["new"]:
                    again.append((told, outcome))
                elif told["version"] in answered:
                    self.fault(f"two batches are one version: {told}", outcome)
                else:
                    answered[told["version"]] = told, edits, outcome
        return answered, again

    def _one_more(self, read, answered, outcomes):
        """Applies the next batch, which is one that was sent, and whole. Returns whether its edits are known."""
        told, edits, outcome = answered or (None, None, None)
        if read is not None and edits not in (None, read):
            self.fault(f"a batch has other edits than were sent: {read} of {edits}", outcome)
        edits = edits if read is None else read
        if edits is None:
            return False
        if not any(holds(one.sent, edits) for one in ([outcome] if outcome else outcomes)):
            self.fault(f"a batch has edits that nobody sent: {edits}", outcome)
        counts = self.apply(self.version + 1, edits)
        self.counts["batches taken"] += 1
        self.counts["of these without an answer"] += told is None
        if told is not None and (told["added"], told["removed"]) != counts:
            self.fault(f"a batch is answered otherwise: {told}, and not {counts}", outcome)
        return True

    def _read_back(self, honest, last):
        """The journal was cut before a batch was read that nobody knows for sure: the model goes on with the edges as they are."""
        self.graph, self.version = Graph(VERTICES), last
        self.graph.apply(honest.reads[-1][1])
        self.counts["times read back"] += 1
        honest.reads.clear()
        honest.changes.clear()


class Honest:
    """A client that reads the graph and its changes again and again. `words` has the version that it saw last."""

    def __init__(self, client, version, words):
        self.client, self.reads, self.changes, self.seen, self.words = client, [], {}, version, words

    def read(self):
        version, starts, targets = self.client.edges()
        self.reads.append((version, [(u, v) for u in range(VERTICES) for v in targets[starts[u]:starts[u + 1]]]))
        self.words[VERSION] = str(version)
        try:
            for self.seen, edits in self.client.changes(self.seen):
                self.changes[self.seen] = [(u, v, *(mark or [0])) for u, v, *mark in edits]
        except Error as error:
            # A snapshot that somebody asked for has cut the journal.
            require(error.status == 410, "changes:", error)
            self.seen = version

    def go(self, ending):
        while not ending.wait(0.01):
            self.read()

    def restore(self):
        """Keeps the programs and the column that others ask for, and none that they kept."""
        for what in ("programs", "columns"):
            for told in self.client.json("GET", f"/{what}")[what]:
                self.client.json("DELETE", f"/{what}/{told['name']}")
        for kind, how in KINDS.items():
            self.client.program(kind, how.text, record=how.record)
        self.client.column("risk", range(VERTICES))
