"""The edges of a file in order, each once, between vertices."""
from edgebpf_tools.edge_files import EdgeFile
from edgebpf_tools.named_edges import NamedEdgeFile
from edgebpf_tools.refusal import Refusal


def test_options(options):
    """Refuses options that do not go together."""
    if options.skip < 0:
        raise Refusal("--skip is a number of lines")
    if options.names and (options.renumber or options.base is not None or options.rectangular):
        raise Refusal("--names numbers the vertices itself: drop --renumber, --base and --rectangular")


class SortedEdges:
    """The edges of a graph of `count` vertices. Where ids are renumbered, `ids` has that of each vertex, an array, or of words a list; else it is
    None."""

    def __init__(self, text, options, most, warn, runs):
        """text: as edge_files.py has it. options: what EdgeFile needs, `names` and `renumber`. most: how many vertices the graph may have. runs: where edges are sorted."""
        test_options(options)
        self.runs = runs
        self.file = (NamedEdgeFile if options.names else EdgeFile)(text.name, options, warn, self._take, most)
        self.file.read(text)
        if not self.file.count:
            raise Refusal(f"{text.name} has no edge")
        self.runs.finish()
        self.ids = None
        if options.names:
            self._number_names()
        else:
            self._number_ids(options.renumber, most)

    def _take(self, sources, targets):
        self.runs.add(sources, targets)
        if self.file.is_symmetric:
            self.runs.add(targets, sources)

    def _number_names(self):
        """A vertex is the place of its name among all names."""
        self.ids, places = self.file.names(), self.file.places()
        self.count = len(self.ids)
        self.runs.number(lambda column: places[column], False)

    def _number_ids(self, renumbers, most):
        """A vertex is its id less the least one that there may be, or the place of its id among all."""
        numpy, name, base = self.runs.numpy, self.file.name, self.file.base or 0
        if self.runs.least < base:
            raise Refusal(f"{name}: id {self.runs.least} is below {base}, the least id of --base or of the format")
        self.count = max(self.runs.most - base + 1, self.file.vertices())
        if renumbers or self.count > most:
            self.ids = self.runs.ids(name, most)
            self.count = len(self.ids)
        if self.count > most:
            raise Refusal(f"{name} has {self.count} vertices, and a graph has at most {most}")
        if self.ids is not None:
            self.runs.number(lambda column: numpy.searchsorted(self.ids, column), True)
        elif base:
            self.runs.number(lambda column: column - base, True)

    def batches(self, size):
        """The edges in arrays of `size`, of which the last one may have fewer: each edge is a number, as edge_runs.py has them."""
        return self.runs.batches(size)

    def write_table(self, stream):
        """Writes which id each vertex has."""
        if isinstance(self.ids, list):
            stream.write("# vertex, name in the file\n")
            stream.writelines(f"{new} {name}\n" for new, name in enumerate(self.ids))
        else:
            stream.write("# vertex, id in the file\n")
            stream.writelines(f"{new} {old}\n" for new, old in enumerate(self.ids.tolist()))
