"""Reads files of edges: SNAP and other lists of two columns, and Matrix Market."""
import gzip
import io
import re
import sys
import warnings
import zlib

from edgebpf_tools import decimals, packages
from edgebpf_tools.refusal import Refusal

# How many bytes are read at a time, and of how many edges each the progress is told.
BLOCK = 1 << 22
BYTE_ORDER_MARK, GZIP = b"\xef\xbb\xbf", b"\x1f\x8b"
PROGRESS = 1_000_000
MOST_ID = 2**63 - 1


class Text:
    """What stands in a stream of bytes: without a mark of the byte order, and of a compressed one what is in it."""

    def __init__(self, name, stream):
        self.name, self.begun = name, False
        self.stream = io.BufferedReader(stream) if not hasattr(stream, "peek") else stream
        if self.stream.peek(2)[:2] == GZIP:
            self.stream = gzip.GzipFile(fileobj=self.stream)

    def read(self, count):
        try:
            block = self.stream.read(count)
        except (EOFError, zlib.error, gzip.BadGzipFile) as error:
            raise Refusal(f"{self.name}: what is compressed there is damaged or cut: {error}") from None
        is_first, self.begun = not self.begun, True
        return block.removeprefix(BYTE_ORDER_MARK) if is_first else block


class EdgeFile:
    """The edges of a file as columns of ids, which are handed to `take` block by block, and what its header said."""

    def __init__(self, name, options, warn, take, most):
        self.numpy, self.take, self.most = packages.numpy(), take, most
        self.name, self.base, self.quiet = name, options.base, options.quiet
        self.rectangle = options.rectangular
        self.is_symmetric = options.undirected
        self.warn = warn
        # Of a Matrix Market file, its rows, columns and entries.
        self.is_matrix, self.size = False, None
        self.has_begun, self.has_more, self.separator = False, False, None
        self.line, self.count, self.told = 0, 0, 0
        self.skip = options.skip

    def fault(self, line, text):
        return Refusal(f"{self.name}, line {line}: {text}")

    def read(self, stream):
        """Reads all of a stream of bytes."""
        rest = b""
        while block := stream.read(BLOCK):
            whole, end, rest = (rest + block).rpartition(b"\n")
            if end:
                self._take_block(whole + end)
            elif len(rest) >= BLOCK:
                raise self.fault(self.line + 1, f"the line has more than {BLOCK} bytes")
        if rest:
            self._take_block(rest)
        if self.size is not None and self.size[2] != self.count:
            raise self.fault(self.line, f"the file says {self.size[2]} entries, and has {self.count}")

    def vertices(self):
        """How many vertices the header says, at least."""
        if self.size is None:
            return 0
        rows, columns, _ = self.size
        return rows + columns if self._is_apart() else max(rows, columns)

    def _take_block(self, block):
        while self.skip and block:
            block, self.skip, self.line = block.partition(b"\n")[2], self.skip - 1, self.line + 1
        if stray := re.search(rb"\r(?!\r*(\n|\Z))", block):
            line = self.line + block.count(b"\n", 0, stray.start()) + 1
            raise self.fault(line, "a carriage return stands within the line; lines end with a line feed, or with both")
        if block:
            self._take_lines(block)
        if not self.quiet and self.count // PROGRESS > self.told:
            self.told = self.count // PROGRESS
            print(f"edgebpf-import: {self.count} edges read", file=sys.stderr)

    def _take_lines(self, block):
        if not self.has_begun:
            block = self._after_head(block)
        if block:
            columns = self._plain_columns(block)
            if columns is None:
                columns = self._columns_by_line(block)
            else:
                self.line += block.count(b"\n") + (not block.endswith(b"\n"))
            self._keep(*columns)

    def _keep(self, sources, targets):
        """Hands columns on. The columns of a matrix may be vertices after those of its rows, in which its entries have to lie."""
        if self.size and len(sources):
            rows, columns, _ = self.size
            if sources.max() >= rows + self.base or targets.max() >= columns + self.base:
                raise Refusal(f"{self.name}: an entry lies outside the {rows} rows and {columns} columns of the matrix")
            if self._is_apart():
                targets = targets + rows
        self.count += len(sources)
        self.take(sources, targets)

    def _is_apart(self):
        """Whether the columns of a matrix are vertices of their own."""
        return self.rectangle == "apart" and self.size[0] != self.size[1]

    def _after_head(self, block):
        """What stands behind the comments and the header, from the first edge on."""
        place = 0
        while place < len(block):
            end = block.find(b"\n", place) + 1 or len(block)
            line = block[place:end].decode("utf-8", "replace").strip()
            words = line.split()
            if words and line[0] not in "#%" and not (self.is_matrix and self.size is None):
                self._begin_edges(line)
                break
            place, self.line = end, self.line + 1
            if self.line == 1 and line.lower().startswith("%%matrixmarket"):
                self._begin_matrix(line)
            elif words and line[0] not in "#%":
                self._take_size(words)
        return block[place:]

    def _begin_edges(self, line):
        """The first edge shows by what columns are separated."""
        self.has_begun = True
        if re.match(r"[0-9]+[ \t]*,", line):
            self.separator = ","
            self.warn(f"{self.name}: columns are separated by commas")

    def _plain_columns(self, block):
        """The columns of a block if a library reads them; None if its lines have to be looked at one by one."""
        ids = decimals.pairs(block) if self.separator is None and block.endswith(b"\n") else None
        if ids is None:
            ids = self._table(block)
        return None if ids is None or ids.shape[1] != 2 or ids.min() < 0 else (ids[:, 0], ids[:, 1])

    def _table(self, block):
        """The first two columns of a block whose lines have two each, or have more as its first line has; else None."""
        # The library also takes -0 for a number, and these two bytes for blanks.
        if any(sign in block for sign in b"#%+\x85\xa0") or re.search(rb"-0+(?![0-9.eE])", block):
            return None
        if self.separator and b'"' in block:
            return None
        has_more = len(block.strip().split(b"\n", 1)[0].split(self.separator and b",")) > 2
        with warnings.catch_warnings():
            warnings.simplefilter("error")
            try:
                ids = self.numpy.loadtxt(
                    io.BytesIO(block), dtype=self.numpy.int64, comments=None, delimiter=self.separator, ndmin=2,
                    usecols=(0, 1) if has_more else None,
                )
            except (ValueError, Warning):
                return None
        if has_more:
            self._take_more(self.line + 1)
        return ids

    def _columns_by_line(self, block):
        ids = []
        for line in block.decode("utf-8", "replace").split("\n"):
            self.line += 1
            words = [word.strip() for word in line.split(self.separator)]
            if line.strip() and line.strip()[0] not in "#%":
                ids.append(self._ids_of(words))
        self.line -= block.endswith(b"\n")
        both = self.numpy.array(ids, dtype=self.numpy.int64).reshape(-1, 2)
        return both[:, 0], both[:, 1]

    def _take_more(self, line):
        """Says once that there are more columns than two."""
        if not self.has_more:
            self.has_more = True
            self.warn(f"{self.name}, line {line}: columns after the second are not read; edges have no weights or labels")

    def _begin_matrix(self, header):
        words = header.lower().split()
        if len(words) < 5 or words[1] != "matrix" or words[2] != "coordinate":
            raise self.fault(self.line, "of Matrix Market files only `matrix coordinate` ones list edges")
        self.is_matrix = True
        self.base = 1 if self.base is None else self.base
        self.is_symmetric = self.is_symmetric or words[4] != "general"

    def _take_size(self, words):
        if len(words) != 3 or not all(map(decimals.is_number, words)):
            raise self.fault(self.line, "a Matrix Market file has a line of rows, columns and entries before its edges")
        rows, columns, entries = map(decimals.value, words)
        if rows != columns and self.rectangle is None:
            raise self.fault(
                self.line,
                f"the matrix has {rows} rows and {columns} columns. Say what columns are: --rectangular same, if row K and "
                "column K are one vertex, or --rectangular apart, if columns are vertices after those of the rows",
            )
        if rows != columns and self.rectangle == "apart" and rows + columns > MOST_ID:
            raise self.fault(self.line, "the matrix has more than 2^63 - 1 rows and columns in all")
        if rows != columns and self.is_symmetric and self.rectangle != "apart":
            raise Refusal(f"{self.name}: a matrix of {rows} rows and {columns} columns is not symmetric")
        self.size = rows, columns, entries

    def _help(self):
        """What may be meant where no edge was read yet."""
        return "; --skip 1 leaves out a header, and --names takes words as ids" if not self.count else "; --names takes words as ids"

    def _look_at_marks(self, words, mark, has_commas):
        """Refuses what CSV would read in another way: an id in quotation marks, in which a comma may stand, and a later column in them that
        does not end on its line."""
        if any(word.startswith(mark) for word in words[:2]):
            raise self.fault(self.line, "an id begins with a quotation mark. Fields of CSV in quotation marks are not read: "
                             "write ids without the marks, and names without commas")
        more = words[2:]
        if has_commas and any(word.startswith(mark) for word in more) and sum(word.count(mark) for word in more) % 2:
            raise self.fault(self.line, "a field in quotation marks does not end on its line")

    def _ids_of(self, words):
        self._look_at_marks(words, '"', self.separator is not None)
        if len(words) < 2:
            raise self.fault(self.line, "an edge is two ids, and here is one word")
        if len(words) > 2:
            self._take_more(self.line)
        for word in words[:2]:
            if not (decimals.is_number(word) and decimals.value(word) <= MOST_ID):
                shown = word if len(word) <= 40 else word[:40] + ".."
                raise self.fault(self.line, f"`{shown}` is no id: ids are decimal numbers from 0 to 2^63 - 1{self._help()}")
        return decimals.value(words[0]), decimals.value(words[1])
