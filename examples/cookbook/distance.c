#include <edgebpf.h>
for_each_neighbour_until(ways, 1, word, total, root) { return total + has_edge(word, root); }
u64 distance(struct edge *edge, u64 length) {
    u64 root = *(u32 *)edge->argument;
    if (edge->target == root) return 1;
    if (has_edge(edge->target, root)) return 2;
    return ways(edge->target, 0, root) ? 3 : ~0ULL;
}
