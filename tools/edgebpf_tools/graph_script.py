"""A script that makes a graph, read into the edits of its batches. Whatever else it has, edgebpf says what is wrong with it."""
import re
import subprocess

from edgebpf_tools import decimals, owned, packages, store
from edgebpf_tools.limits import MOST_BATCHES, MOST_EDITS, MOST_LINE_BYTES, SERVED_EPOCHS, SERVED_VERTICES
from edgebpf_tools.refusal import Refusal

BLOCK = 1 << 24
# So many bytes may be looked at after the first of a line.
MARGIN = bytes(3 * decimals.WIDTH)
NEWLINE, BLANK, PLUS, MINUS = b"\n +-"
TEXT = re.compile(rb"[\t -~]*")
FEEDS = ("A", "B", "C", "D")
# An edit is two words: its source, with this bit if the edge goes, and its target.
REMOVE, EDIT_BYTES = 1 << 31, 8


class Reader:
    """Writes the edits of a script's batches one after another. `lengths` has how many each batch has, `vertices` how many the graph has, and `wrong`
    the first line that is none of a script which makes a graph, or None."""

    def __init__(self, out):
        self._numpy, self._out = packages.numpy(), out
        self.vertices, self.wrong, self.lengths = None, None, []
        # Lines before the block, edits of the open batch, batches since the last rebase, and rebases.
        self._line = self._edits = self._log = self._epochs = 0
        self._is_open = False
        self._kinds = {"graph": self._graph, "batch": self._batch, "end": self._end, "rebase": self._rebase, "+": self._edit, "-": self._edit}

    def read(self, stream):
        """Reads a stream of bytes. Refuses what needs no look at numbers: a line of another kind, no graph, and too many edits."""
        rest = b""
        while len(rest) <= MOST_LINE_BYTES and (block := stream.read(BLOCK)):
            whole, end, rest = (rest + block).rpartition(b"\n")
            self._read(whole + end)
        if rest:
            self._read(rest + b"\n")
        if self.vertices is None:
            raise Refusal("no line makes a graph")
        self._note(not self._is_open, self._line)

    def _read(self, block):
        numpy = self._numpy
        letters = numpy.frombuffer(block + MARGIN, dtype=numpy.uint8)
        ends = numpy.flatnonzero(letters == NEWLINE) + 1
        starts = numpy.concatenate(([0], ends[:-1])) if len(ends) else ends
        edits, is_plain = self._plain_edits(letters, starts)
        others, at = numpy.flatnonzero(~is_plain), 0
        for other, start, end in zip(others.tolist(), starts[others].tolist(), ends[others].tolist()):
            if at < other:
                self._note(self._put(edits[at:other]), self._line + other)
            self._read_other(block[start : end - 1], self._line + other + 1)
            at = other + 1
        self._line += len(ends)
        if at < len(ends):
            self._note(self._put(edits[at:]), self._line)

    def _plain_edits(self, letters, starts):
        """The edit of each line, and whether the line is `+ U V` or `- U V` with single blanks."""
        signs = letters[starts]
        sources, gaps = decimals.numbers_at(letters, starts + 2)
        targets, ends = decimals.numbers_at(letters, gaps + 1)
        is_edit = ((signs == PLUS) | (signs == MINUS)) & (letters[starts + 1] == BLANK) & (letters[gaps] == BLANK) & (letters[ends] == NEWLINE)
        is_edit &= (gaps > starts + 2) & (ends > gaps + 1)
        sources |= (signs == MINUS).astype(sources.dtype) * sources.dtype.type(REMOVE)
        return self._numpy.stack([sources, targets], axis=1), is_edit

    def _put(self, edits):
        """Takes edits, and returns whether they are right where they stand."""
        is_right = self._is_open and int((edits & ~self._numpy.uint32(REMOVE)).max()) < (self.vertices or 0)
        self._edits += len(edits)
        if self.wrong is None and is_right:
            self._out.write(edits.tobytes())
        return is_right

    def _note(self, is_right, line):
        if not is_right and self.wrong is None:
            self.wrong = line

    def _read_other(self, text, line):
        words = text.decode("utf-8", "replace").split()
        word = words[0] if words else "#"
        if word not in self._kinds and not word.startswith("#"):
            raise Refusal(f"line {line}: `{word[:40]}` makes no graph; here are only graph, batches, rebases and comments")
        if word == "end" and self._edits > MOST_EDITS:
            raise Refusal(f"line {line}: a batch has at most {MOST_EDITS} edits")
        is_right = self._kinds[word](words) if word in self._kinds else not self._is_open
        self._note(is_right and len(text) <= MOST_LINE_BYTES and TEXT.fullmatch(text), line)

    def _graph(self, words):
        count = decimals.value(words[1]) if len(words) == 2 and decimals.is_number(words[1]) else 0
        is_right = self.vertices is None and not self._is_open and 1 <= count <= SERVED_VERTICES
        if self.vertices is None:
            self.vertices = count if is_right else 0
        return is_right

    def _batch(self, words):
        is_right = bool(self.vertices) and not self._is_open and len(words) == 2 and words[1] in FEEDS
        self._is_open, self._edits = True, 0
        return is_right

    def _end(self, words):
        is_right = self._is_open and len(words) == 1
        self.lengths.append(self._edits)
        self._is_open, self._edits, self._log = False, 0, self._log + 1
        return is_right and self._log <= MOST_BATCHES

    def _rebase(self, words):
        """It changes no edge, and a part keeps its log short by itself."""
        self._log, self._epochs = 0, self._epochs + 1
        return bool(self.vertices) and not self._is_open and len(words) == 1 and self._epochs <= SERVED_EPOCHS

    def _edit(self, words):
        if len(words) != 3 or not all(map(decimals.is_number, words[1:])):
            return False
        source, target = map(decimals.value, words[1:])
        if max(source, target) >= SERVED_VERTICES:
            self._edits += 1
            return False
        return self._put(self._numpy.array([[source | REMOVE * (words[0] == "-"), target]], dtype=self._numpy.uint32))


def refuse(script, line):
    """Refuses a script that makes no graph, in the words of the proved program."""
    with open(script, "rb") as stream, owned.child(store.command(), stdin=stream, stdout=subprocess.PIPE, stderr=subprocess.PIPE) as process:
        (text, said), status = process.communicate(), process.wait()
    if status == 0:
        raise Refusal(f"line {line}: edgebpf takes it, and edgebpf-spread cannot read it")
    last = (said.strip() or text.strip() or b"nothing was written").decode("utf-8", "replace").splitlines()[-1]
    raise Refusal(f"a part was not served; edgebpf ended with status {status}: {last}")


def batches(file, lengths):
    """The sources, the targets and the removal marks of the edits of each batch."""
    numpy = packages.numpy()
    with open(file, "rb") as stream:
        for length in lengths:
            edits = numpy.frombuffer(stream.read(length * EDIT_BYTES), dtype=numpy.uint32).reshape(-1, 2)
            yield edits[:, 0] & ~numpy.uint32(REMOVE), edits[:, 1], edits[:, 0] >= REMOVE
