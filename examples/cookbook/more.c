#include <edgebpf.h>

/* Edges that lead to a vertex with many neighbours. A filter returns 1 or 0, so that `sum` counts. */
u64 hubs(struct edge *edge, u64 length) { return degree(edge->target) >= 3; }

/* The number of ways of two steps from each vertex. */
u64 two_steps(struct edge *edge, u64 length) { return degree(edge->target); }

/* The share of common neighbours, in thousandths. */
u64 similarity(struct edge *edge, u64 length) { return jaccard(edge->source, edge->target, 1000); }

/* Common neighbours that have few neighbours themselves count more: resource allocation, in thousandths. */
for_each_neighbour(shared, word, total, other) {
    u64 many = degree(word);
    return many && has_edge(other, word) ? total + 1000 / many : total;
}
u64 allocation(struct edge *edge, u64 length) { return shared(edge->source, 0, edge->target); }

/* A step of breadth first search: is the target a neighbour of the vertex that the argument names? */
u64 within_two(struct edge *edge, u64 length) { return has_edge(*(u32 *)edge->argument, edge->target); }

/* A step of PageRank that pulls: from each neighbour one million, divided by how many neighbours that one has. */
u64 pulled(struct edge *edge, u64 length) {
    u64 many = degree(edge->target);
    return many ? 1000000 / many : 0;
}

/* A step towards the k-core, with k in the argument: edges of which both ends have at least k neighbours that have at least k
   neighbours. The form `_until` stops once the total is reached. */
for_each_neighbour_until(strong, least, word, total, least) { return total + (degree(word) >= least); }
u64 in_core(struct edge *edge, u64 length) {
    u64 least = edge->argument[0];
    return strong(edge->source, 0, least) >= least && strong(edge->target, 0, least) >= least;
}
