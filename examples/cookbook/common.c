#include <edgebpf.h>
u64 common(struct edge *edge, u64 length) { return common_neighbours(edge->source, edge->target); }
