"""What a service has to answer, by sets of edges and Python's numbers alone."""
import collections
import random

WORD = 1 << 64
START = {"sum": 0, "min": WORD - 1, "max": 0}
JOIN = {"sum": lambda a, b: (a + b) % WORD, "min": min, "max": max}
Edge = collections.namedtuple("Edge", "source target place degree argument columns")


class Graph:
    """Edges as a set for each source."""

    def __init__(self, vertices):
        self.vertices, self.out = vertices, [set() for _ in range(vertices)]

    def apply(self, edits):
        """Applies edits in their order, and returns how many edges came and went between its beginning and its end."""
        touched = {edit[0] for edit in edits}
        before = {u: set(self.out[u]) for u in touched}
        for u, v, *mark in edits:
            self.out[u].discard(v) if mark and mark[0] else self.out[u].add(v)
        return sum(len(self.out[u] - before[u]) for u in touched), sum(len(before[u] - self.out[u]) for u in touched)

    def degree(self, u):
        return len(self.out[u]) if 0 <= u < self.vertices else 0

    def has_edge(self, u, v):
        return int(0 <= u < self.vertices and v in self.out[u])

    def edges(self):
        return [(u, v) for u in range(self.vertices) for v in sorted(self.out[u])]

    def row(self, kind, u, reduction, given=(0, ())):
        """The value of a run for one vertex. given: the argument as a number, and the columns."""
        value, targets = START[reduction], sorted(self.out[u])
        for place, v in enumerate(targets):
            edge = Edge(u, v, place, len(targets), given[0], [(column[u], column[v]) for column in given[1]])
            value = JOIN[reduction](value, KINDS[kind].number(self, edge) % WORD)
        return value

    def reached(self, vertices, steps):
        seen = front = set(vertices)
        for _ in range(steps):
            front = {v for u in front for v in self.out[u]} - seen
            seen = seen | front
        return sorted(seen)

    def nearest(self, vertex, steps, limit):
        """The first vertices that a search meets, at most so many, and whether there is no other within so many steps."""
        order, level = [vertex], {vertex: 0}
        for u in order:
            for v in sorted(self.out[u]) if level[u] < steps else ():
                if v not in level:
                    level[v] = level[u] + 1
                    order.append(v)
        return order[:limit], len(order) <= limit


# text: the program; record: the length of its record; asks: which vertices it asks about; number: what it returns for an edge.
Kind = collections.namedtuple("Kind", "text record asks number")
FIXED = 7
KINDS = {
    "target": Kind("ldxw r0, [r1+4]\nexit", 16, "own", lambda graph, edge: edge.target),
    "place": Kind("ldxw r0, [r1+8]\nmul r0, 3\nadd r0, 1\nexit", 16, "own", lambda graph, edge: 3 * edge.place + 1),
    "degree": Kind("ldxw r1, [r1+0]\ncall 1\nexit", 16, "own", lambda graph, edge: graph.degree(edge.source)),
    "argument": Kind("ldxdw r0, [r1+16]\nldxw r2, [r1+4]\nadd r0, r2\nexit", 24, "own", lambda graph, edge: edge.argument + edge.target),
    "mutual": Kind("ldxw r2, [r1+0]\nldxw r1, [r1+4]\ncall 2\nexit", 16, "target", lambda graph, edge: graph.has_edge(edge.target, edge.source)),
    "popular": Kind("ldxw r1, [r1+4]\ncall 1\nexit", 16, "target", lambda graph, edge: graph.degree(edge.target)),
    "next": Kind("ldxw r1, [r1+4]\nadd r1, 1\ncall 1\nexit", 16, "all", lambda graph, edge: graph.degree(edge.target + 1)),
    "fixed": Kind(f"mov r1, {FIXED}\ncall 1\nexit", 16, "all", lambda graph, edge: graph.degree(FIXED)),
    "column": Kind("ldxdw r0, [r1+24]\nldxdw r2, [r1+16]\nadd r0, r2\nexit", 32, "own", lambda graph, edge: sum(edge.columns[0])),
}


def random_edits(chance, vertices, most):
    """Edits of which some remove, some name a vertex that many name, and some name an edge twice."""
    edits = []
    for _ in range(chance.randrange(most)):
        edge = [chance.randrange(vertices) if chance.random() < 0.7 else chance.randrange(5), chance.randrange(vertices)]
        edits.append([*edge, 1] if chance.random() < 0.4 else edge)
        if chance.random() < 0.1:
            edits.append([*edge, chance.randrange(2)])
    return edits


def table_of(graph, kind, reduction, given=(0, ())):
    """All rows of a run."""
    return [graph.row(kind, u, reduction, given) for u in range(graph.vertices)]


def seeded(*words):
    return random.Random(" ".join(map(str, words)))
