#include <edgebpf.h>
u64 weight(struct edge *edge, u64 length, const u8 *table) { return table[edge->target % 240]; }
