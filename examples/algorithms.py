import edgebpf
from edgebpf import algorithms                              # PYTHONPATH=bindings/python

with edgebpf.Store(vertices=8) as store:
    sources, targets = [0, 0, 1, 2, 3, 5], [1, 2, 2, 3, 4, 6]
    store.batch("A", inserts=(sources + targets, targets + sources))        # each edge in both directions
    version = store.pin()

    search = algorithms.bfs(version, 0)
    assert search.levels.tolist() == [0, 1, 1, 2, 3, -1, -1, -1]
    assert search.parents.tolist() == [0, 0, 0, 2, 3, -1, -1, -1]
    assert algorithms.components(version).tolist() == [0, 0, 0, 0, 0, 5, 5, 7]
    assert algorithms.cores(version).tolist() == [2, 2, 2, 1, 1, 1, 1, 0]
    assert algorithms.triangles(version).tolist() == [1, 1, 1, 0, 0, 0, 0, 0]
    ranks = algorithms.pagerank(version).ranks              # an array of floats, 1 in all
    assert ranks.argmax() == 2
    assert algorithms.pair_scores(version, [0, 0], [1, 3], "common").tolist() == [1, 1]
    found, scores = algorithms.Candidates(version, "common").of(0)          # friends of friends
    assert found.tolist() == [3]

    live = algorithms.LiveComponents(version)               # kept while batches come
    inserts = [4, 5], [5, 4]
    store.batch("A", inserts=inserts)
    live.update(store.pin(), inserts)
    assert live.labels.tolist() == [0, 0, 0, 0, 0, 0, 0, 7]
