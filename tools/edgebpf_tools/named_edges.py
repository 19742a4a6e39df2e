"""Files of edges whose ids are words."""
import array

from edgebpf_tools.edge_files import EdgeFile
from edgebpf_tools.refusal import Refusal

# A table has a line for each name, so no name is longer than a line should be.
MOST_NAME_BYTES = 1_000
LEAST_LETTER, DELETE = 32, 127


class NamedEdgeFile(EdgeFile):
    """The edges of a file of two columns of words, as columns of numbers: that of a word is its place among all words by where they come first."""

    def __init__(self, *given):
        super().__init__(*given)
        # The number of each word, and these numbers of the edges of a block.
        self.known, self.ends = {}, (array.array("I"), array.array("I"))

    def names(self):
        """The words, each as text, in the order of their bytes."""
        return [name.decode("utf-8", "surrogateescape") for name in sorted(self.known)]

    def places(self):
        """For each number the place of its word in the order of their bytes."""
        places = self.numpy.empty(len(self.known), dtype=self.numpy.int64)
        places[[self.known[name] for name in sorted(self.known)]] = self.numpy.arange(len(self.known))
        return places

    def _take_lines(self, block):
        for line in block.removesuffix(b"\n").split(b"\n"):
            self.line += 1
            if line.strip() and line.strip()[:1] not in (b"#", b"%"):
                # With a comma in it a line has its columns between commas, and its names may have blanks.
                words = [word.strip() for word in line.split(b"," if b"," in line else None)]
                if b'"' in line:
                    self._look_at_marks(words, b'"', b"," in line)
                self._take_edge(words)
        self._keep(*(self.numpy.array(ends, dtype=self.numpy.int64) for ends in self.ends))
        for ends in self.ends:
            del ends[:]

    def _take_edge(self, words):
        if len(words) < 2 or not (words[0] and words[1]):
            raise self.fault(self.line, "an edge is two names, and here is one word")
        if len(words) > 2:
            self._take_more(self.line)
        for word, ends in zip(words, self.ends):
            if len(word) > MOST_NAME_BYTES:
                raise self.fault(self.line, f"a name has more than {MOST_NAME_BYTES} bytes")
            if any(byte < LEAST_LETTER or byte == DELETE for byte in word):
                raise self.fault(self.line, "a name has a byte that is no letter")
            ends.append(self.known.setdefault(word, len(self.known)))
        if len(self.known) > self.most:
            raise Refusal(f"{self.name} has more than {self.most} names by line {self.line}, and a graph has at most so many vertices")
