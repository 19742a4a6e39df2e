"""Breadth first search over lent neighbour lists: the distance of each vertex from a root, -1 if no path leads there."""
import numpy


def distances(version, root):
    distance = numpy.full(version.vertices, -1)
    distance[root] = steps = 0
    frontier = [root]
    while len(frontier):
        steps += 1
        found = numpy.concatenate([version.neighbours(vertex) for vertex in frontier])
        frontier = numpy.unique(found[distance[found] < 0])
        distance[frontier] = steps
    return distance
