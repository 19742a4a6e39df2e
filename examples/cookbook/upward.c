#include <edgebpf.h>
u64 upward(struct edge *edge, u64 length) { return edge->target > edge->source; }
