#include <edgebpf.h>
for_each_neighbour(above, word, total, other) { return total + (word > other && has_edge(other, word)); }
u64 triangles(struct edge *edge, u64 length) { return edge->source < edge->target ? above(edge->source, 0, edge->target) : 0; }
