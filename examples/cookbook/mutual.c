#include <edgebpf.h>
u64 mutual(struct edge *edge, u64 length) { return has_edge(edge->target, edge->source); }
