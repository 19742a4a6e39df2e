// Records of 48 bytes. Steps of algorithms that a driver repeats: breadth first search, labels, pushes, colours.
#include <edgebpf.h>

u64 bfs_step(struct edge *edge, u64 length) { return edge->target; }
u64 bfs_step_not_back(struct edge *edge, u64 length) {
    u64 from = *(u64 *)edge->argument;
    return edge->target == from ? NO_NEIGHBOUR : edge->target;
}
u64 visited(struct edge *edge, u64 length) {
    u64 *bits = (u64 *)edge->argument;
    u32 slot = edge->target & 255;
    return bits[slot / 64] >> slot % 64 & 1;
}
u64 frontier(struct edge *edge, u64 length) {
    u64 *bits = (u64 *)edge->argument;
    u32 slot = edge->target & 255, word = slot >> 6;
    u64 bit = 1ULL << (slot & 63);
    if (bits[word] & bit) return 0;
    bits[word] |= bit;
    return bits[word];
}
u64 depth_by_bytes(struct edge *edge, u64 length) {
    u8 *depths = edge->argument;
    u32 source = edge->source & 31, target = edge->target & 31;
    u8 next = depths[source] + 1;
    if (next < depths[target]) depths[target] = next;
    return depths[target];
}
u64 relax(struct edge *edge, u64 length) {
    u16 *best = (u16 *)edge->argument;
    u32 through = best[edge->source % 16] + edge->degree;
    u32 known = best[edge->target % 16];
    return through < known ? through : known;
}
u64 push_even(struct edge *edge, u64 length) { return 1000000 / edge->degree; }
for_each_neighbour(degree_total, word, total, unused) { return total + degree(word); }
u64 push_by_degree(struct edge *edge, u64 length) {
    u64 all = degree_total(edge->source, 0, 0);
    return all ? 1000000 * degree(edge->target) / all : 0;
}
u64 smallest_label(struct edge *edge, u64 length) { return smaller(edge->source, edge->target); }
u64 label_of_two(struct edge *edge, u64 length) {
    u8 one = edge->argument[edge->source % 32], other = edge->argument[edge->target % 32];
    return one < other ? one : other;
}
u64 same_label(struct edge *edge, u64 length) { return edge->argument[edge->source % 32] == edge->argument[edge->target % 32]; }
u64 cut_size(struct edge *edge, u64 length) {
    u64 side = *(u64 *)(edge->argument + 8);
    return (side >> edge->source % 64 & 1) != (side >> edge->target % 64 & 1);
}
u64 free_colour(struct edge *edge, u64 length) {
    u64 taken = 0;
    for (u32 i = 0; i < 16; i++) {
        u64 word = neighbour(edge->source, i);
        if (word == NO_NEIGHBOUR) break;
        taken |= 1ULL << (edge->argument[word % 32] & 63);
    }
    u64 colour = 0;
    while (colour < 64 && (taken >> colour & 1)) colour++;
    return colour;
}
u64 majority_label(struct edge *edge, u64 length) {
    u64 counts = 0;
    for (u32 i = 0; i < 15; i++) {
        u64 word = neighbour(edge->source, i);
        if (word == NO_NEIGHBOUR) break;
        counts += 1ULL << 4 * (edge->argument[word & 31] & 15);
    }
    u64 best = 0;
    for (u64 label = 1; label < 16; label++)
        if ((counts >> 4 * label & 15) > (counts >> 4 * best & 15)) best = label;
    return best;
}
u64 hits_of_target(struct edge *edge, u64 length) {
    u64 sum = 0;
    for (int i = 0; i < 12; i++) {
        u64 word = neighbour(edge->target, i);
        if (word != NO_NEIGHBOUR) sum += edge->argument[word % 32];
    }
    return sum;
}
u64 independent(struct edge *edge, u64 length) {
    u64 mine = hash(edge->source), lowest = 1;
    for (u32 i = 0; i < 24; i++) {
        u64 word = neighbour(edge->source, i);
        if (word == NO_NEIGHBOUR) break;
        if (hash(word) < mine) lowest = 0;
    }
    return lowest;
}
u64 matching(struct edge *edge, u64 length) {
    u64 best = 0, choice = 0;
    for (u32 i = 0; i < 24; i++) {
        u64 word = neighbour(edge->source, i);
        if (word == NO_NEIGHBOUR) break;
        u64 weight = hash(smaller(word, edge->source) << 32 | larger(word, edge->source));
        if (weight > best) best = weight, choice = word;
    }
    return choice == edge->target;
}
u64 personal_rank(struct edge *edge, u64 length) {
    u64 rank = edge->source == *(u32 *)edge->argument ? 150000 : 0;
    return rank + 850000 / edge->degree;
}
u64 heat(struct edge *edge, u64 length) {
    u32 *heats = (u32 *)edge->argument;
    s64 gap = (s64)heats[edge->source & 7] - (s64)heats[edge->target & 7];
    return (u64)(gap / 4);
}
u64 component_parity(struct edge *edge, u64 length) {
    u64 parity = 0;
    for (u32 i = 0; i < 8; i++) parity ^= neighbour(edge->source, i) & 1;
    return parity;
}
