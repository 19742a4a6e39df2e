import numpy as np

from edgebpf import algorithms


def leaders(version, count):
    """The vertices of the largest component that have the highest ranks."""
    labels, ranks = algorithms.components(version), algorithms.pagerank(version).ranks
    ranks[labels != np.bincount(labels).argmax()] = 0
    return np.argsort(-ranks, kind="stable")[:count].tolist()


def suggestions(version, vertices, count):
    """For each of some vertices the friends of friends that have the most in common with it."""
    friends = algorithms.Candidates(version, "adamic_adar")
    return {vertex: friends.of(vertex, count)[0].tolist() for vertex in vertices}


def joined(store, batches, one, other):
    """After each batch of edges, in both directions, whether two vertices are connected."""
    live = algorithms.LiveComponents(store.pin())
    for inserts in batches:
        store.batch("A", inserts)
        live.update(store.pin(), inserts)
        yield bool(live.are_joined([one], [other])[0])


def communities(version):
    """Communities by modularity, by igraph: what is not on the list is one line away."""
    return version.to_igraph(directed=False).community_multilevel().membership
