"""What docs/COOKBOOK.md does, done by scipy, sqlite and networkx, for measure_cookbook.py to measure.

Each class has a method for each thing, which returns its answer. `before` asks what `snapshots` compares with: a table or a graph that is changed
in place does not keep it.
"""
import heapq
import sqlite3

import numpy as np

BACK = "from edge a join edge b on b.source = a.target and b.target = a.source"
BLOCK = 20_000


class Scipy:
    def __init__(self, vertices, sources, targets, table, listed, later):
        self.vertices, self.table, self.listed, self.later = vertices, table, listed, later
        self.graph = self.matrix(sources, targets)
        self.sources = np.repeat(np.arange(vertices), np.diff(self.graph.indptr))

    def matrix(self, sources, targets):
        import scipy.sparse

        return scipy.sparse.csr_array((np.ones(len(sources), np.int32), (sources, targets)), shape=(self.vertices, self.vertices))

    def in_blocks(self, left, right, mask):
        """The sum of the product at the places of a mask, some rows at a time: the whole product does not fit into memory."""
        parts = range(0, self.vertices, BLOCK)
        return sum(int((left[at:at + BLOCK] @ right).multiply(mask[at:at + BLOCK]).sum()) for at in parts)

    def rows(self, graph):
        return graph.multiply(graph.T.tocsr()).sum(axis=1)

    def mutual(self):
        return int(self.rows(self.graph).sum())

    def common(self):
        return self.in_blocks(self.graph, self.graph.T.tocsr(), self.graph)

    def triangles(self):
        import scipy.sparse

        upper = scipy.sparse.triu(self.graph, 1).tocsr()
        return self.in_blocks(upper, upper, upper)

    def bfs(self):
        from scipy.sparse.csgraph import breadth_first_order

        order, came_from = breadth_first_order(self.graph, 0)
        distance = np.zeros(self.vertices, int)
        for vertex in order[1:]:
            distance[vertex] = distance[came_from[vertex]] + 1
        return len(order), int(distance[order].max())

    def weight(self):
        return int(np.bincount(self.sources, self.table[self.graph.indices % 240], self.vertices).sum())

    def bloom(self):
        return int(np.bincount(self.sources, np.isin(self.graph.indices, self.listed), self.vertices).sum())

    def top(self):
        sums = self.rows(self.graph)
        return int(np.argsort(-sums, kind="stable")[0]), int(sums.max())

    def before(self):
        self.old = self.graph

    def live(self):
        total = 0
        for sources, targets in self.later():
            self.graph = self.graph + self.matrix(sources, targets)
            self.graph.data[:] = 1
            total += int(self.graph[sources].multiply(self.graph.T.tocsr()[sources]).sum())
        return total

    def snapshots(self):
        return int((self.rows(self.old) != self.rows(self.graph)).sum())


class Sqlite:
    ASKED = {
        "mutual": f"select count(*) {BACK}",
        "top": f"select a.source, count(*) {BACK} group by a.source order by 2 desc, 1 limit 10",
        "weight": "select sum(value) from edge join weight on place = target % 240",
        "bloom": "select count(*) from edge where target in (select vertex from listed)",
        "triangles": "select count(*) from edge a join edge b on b.source = a.target join edge c on c.source = a.source and c.target = b.target"
                     " where a.source < a.target and b.source < b.target",
        "common": "select count(*) from edge a join edge b on b.source = a.source join edge c on c.source = a.target and c.target = b.target",
    }

    def __init__(self, _, sources, targets, table, listed, later):
        self.later, self.base = later, sqlite3.connect(":memory:")
        self.base.execute("create table edge (source integer, target integer, primary key (source, target)) without rowid")
        self.base.executemany("insert into edge values (?, ?)", zip(sources.tolist(), targets.tolist()))
        self.base.execute("create table weight (place integer primary key, value integer)")
        self.base.executemany("insert into weight values (?, ?)", enumerate(table.tolist()))
        self.base.execute("create table listed (vertex integer primary key)")
        self.base.executemany("insert into listed values (?)", [(vertex,) for vertex in listed.tolist()])

    def __getattr__(self, name):
        return lambda: self.base.execute(self.ASKED[name]).fetchone()

    def give_up(self, condition):
        """Ends a question at which a condition comes to hold."""
        self.base.set_progress_handler(condition, 1_000_000)

    def bfs(self):
        self.base.execute("create table reached (vertex integer primary key, steps integer)")
        self.base.execute("insert into reached values (0, 0)")
        steps, step = 0, "insert or ignore into reached select target, ? from reached join edge on source = vertex where steps = ?"
        while self.base.execute(step, (steps + 1, steps)).rowcount:
            steps += 1
        return self.base.execute("select count(*), max(steps) from reached").fetchone()

    def before(self):
        self.base.execute(f"create table before as select a.source as source, count(*) as many {BACK} group by a.source")

    def live(self):
        total = 0
        for sources, targets in self.later():
            with self.base:
                self.base.executemany("insert or ignore into edge values (?, ?)", zip(sources.tolist(), targets.tolist()))
            self.base.execute("create temp table asked (vertex integer primary key)")
            self.base.executemany("insert into asked values (?)", [(vertex,) for vertex in sources.tolist()])
            total += self.base.execute(f"select count(*) {BACK} where a.source in (select vertex from asked)").fetchone()[0]
            self.base.execute("drop table asked")
        return total

    def snapshots(self):
        self.base.execute(f"create table later as select a.source as source, count(*) as many {BACK} group by a.source")
        return self.base.execute("select count(distinct source) from (select * from later except select * from before)").fetchone()


class Networkx:
    def __init__(self, vertices, sources, targets, table, listed, later):
        import networkx

        self.networkx, self.graph, self.later = networkx, networkx.DiGraph(), later
        self.table, self.listed = table.tolist(), set(listed.tolist())
        self.graph.add_nodes_from(range(vertices))
        self.graph.add_edges_from(zip(sources.tolist(), targets.tolist()))
        self.out = self.graph._succ

    def rows(self):
        return {source: sum(source in self.out[target] for target in there) for source, there in self.graph.adjacency()}

    def mutual(self):
        return sum(self.graph.has_edge(target, source) for source, target in self.graph.edges())

    def common(self):
        return sum(len(self.out[source].keys() & self.out[target].keys()) for source, target in self.graph.edges())

    def triangles(self):
        out, edges = self.out, self.graph.edges()
        return sum(sum(word > other for word in out[one].keys() & out[other].keys()) for one, other in edges if one < other)

    def bfs(self):
        found = self.networkx.single_source_shortest_path_length(self.graph, 0)
        return len(found), max(found.values())

    def weight(self):
        return sum(self.table[target % 240] for _, target in self.graph.edges())

    def bloom(self):
        return sum(target in self.listed for _, target in self.graph.edges())

    def top(self):
        return heapq.nsmallest(10, self.rows().items(), key=lambda row: (-row[1], row[0]))[0]

    def before(self):
        self.old = self.rows()

    def live(self):
        total = 0
        for sources, targets in self.later():
            self.graph.add_edges_from(zip(sources.tolist(), targets.tolist()))
            total += sum(self.graph.has_edge(target, source) for source in sources.tolist() for target in self.out[source])
        return total

    def snapshots(self):
        new = self.rows()
        return sum(new[vertex] != self.old[vertex] for vertex in self.old)
