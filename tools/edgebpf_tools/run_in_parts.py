"""A run that a person waits for, in parts of its vertices: it ends between two of them, and shows how far it is."""
import time

from edgebpf_tools.limits import MOST_LINE_BYTES

BITS_64 = (1 << 64) - 1
IDENTITY = {"min": BITS_64, "max": 0, "sum": 0}
JOIN = {"min": min, "max": max, "sum": lambda one, other: (one + other) & BITS_64}
# The vertices of the first part. Later parts have more or fewer, so that one takes about a tenth of a second.
FIRST = 1 << 10
SHORT, LONG, FACTOR = 0.05, 0.2, 4
# After these seconds the run says how far it is, and again after each of them.
PAUSE = 1.0


class RunInParts:
    """The parts of one run."""

    def __init__(self, store, words, frontier, out):
        self.store, self.words, self.frontier, self.out = store, words[:5], frontier, out
        self.rows, self.edges, self.total = [], 0, IDENTITY[words[3]]
        # A part's line holds so many vertices, however long their digits are.
        longest = max(len(str(frontier[-1])), 1) + 1
        self.most = (MOST_LINE_BYTES - len(" ".join(self.words))) // longest
        self.said_at, self.shown = time.monotonic(), 0

    @classmethod
    def of(cls, store, lines, vertices, out):
        """The parts of a run; None of what is no run, or has vertices enough for one part alone."""
        words = lines[0].split()
        if words[0] != "run":
            return None
        frontier = list(map(int, words[5:])) or range(vertices)
        return cls(store, words, frontier, out) if len(frontier) > FIRST else None

    def answer(self):
        """The lines that edgebpf writes for the whole run."""
        place, size, head = 0, FIRST, ""
        try:
            while place < len(self.frontier):
                size = max(1, min(size, self.most))
                begun = time.monotonic()
                head = self._take(self.frontier[place : place + size])
                place += size
                seconds = time.monotonic() - begun
                size = size * FACTOR if seconds < SHORT else size // FACTOR if seconds > LONG else size
                self._show(place)
        finally:
            self._clear()
        return [f"{head} edges {self.edges} total {self.total}", *self.rows]

    def _take(self, vertices):
        """Runs over some vertices, and adds what they give. Answers how the answer begins."""
        said = self.store.ask([" ".join([*self.words, *map(str, vertices)])])
        head = said[0].split()
        self.edges, self.total = self.edges + int(head[4]), JOIN[self.words[3]](self.total, int(head[6]))
        self.rows += said[1:]
        return " ".join(head[:3])

    def _show(self, place):
        """Says how far it is, over what it said before."""
        if time.monotonic() - self.said_at < PAUSE or place >= len(self.frontier):
            return
        self.said_at = time.monotonic()
        text = f"({100 * place // len(self.frontier)} % of {len(self.frontier)} vertices; Ctrl-C ends the run)"
        print(f"\r{text}", end="", file=self.out, flush=True)
        self.shown = len(text)

    def _clear(self):
        if self.shown:
            print(f"\r{' ' * self.shown}\r", end="", file=self.out, flush=True)
