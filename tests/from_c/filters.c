// Records of 32 bytes. Filters: 1 for the edges that pass, else 0, or the target of those that pass.
#include <edgebpf.h>

u64 is_loop(struct edge *edge, u64 length) { return edge->source == edge->target; }
u64 is_upward(struct edge *edge, u64 length) { return edge->source < edge->target; }
u64 is_mutual(struct edge *edge, u64 length) { return has_edge(edge->target, edge->source); }
u64 is_one_way(struct edge *edge, u64 length) { return !has_edge(edge->target, edge->source); }
u64 is_first_edge(struct edge *edge, u64 length) { return edge->place == 0; }
u64 is_last_edge(struct edge *edge, u64 length) { return edge->place + 1 == edge->degree; }
u64 leads_to_leaf(struct edge *edge, u64 length) { return degree(edge->target) == 0; }
u64 leads_to_hub(struct edge *edge, u64 length) { return degree(edge->target) > 10; }
u64 leads_up_in_degree(struct edge *edge, u64 length) { return degree(edge->target) > edge->degree; }
u64 same_parity(struct edge *edge, u64 length) { return ((edge->source ^ edge->target) & 1) == 0; }
u64 same_block(struct edge *edge, u64 length) { return edge->source / 64 == edge->target / 64; }
u64 is_near(struct edge *edge, u64 length) {
    s64 distance = (s64)edge->source - (s64)edge->target;
    return distance < 0 ? -distance <= 16 : distance <= 16;
}
u64 in_range(struct edge *edge, u64 length) {
    u32 low = *(u32 *)edge->argument, high = *(u32 *)(edge->argument + 4);
    return edge->target >= low && edge->target < high;
}
u64 not_in_range(struct edge *edge, u64 length) {
    u32 low = *(u32 *)edge->argument, high = *(u32 *)(edge->argument + 4);
    if (edge->target >= low && edge->target < high)
        return 0;
    return edge->target;
}
u64 in_list(struct edge *edge, u64 length) {
    u32 *list = (u32 *)edge->argument;
    for (int i = 0; i < 4; i++)
        if (list[i] == edge->target)
            return 1;
    return 0;
}
u64 place_in_list(struct edge *edge, u64 length) {
    u32 *list = (u32 *)edge->argument;
    u64 found = 99;
    for (u64 i = 0; i < 4; i++)
        if ((list[i] & 63) == (edge->target & 63)) {
            found = i;
            break;
        }
    return found;
}
u64 has_label(struct edge *edge, u64 length) { return edge->argument[edge->target & 15] > 127; }
u64 passes_mask(struct edge *edge, u64 length) {
    u64 mask = *(u64 *)edge->argument;
    return mask >> (edge->target & 63) & 1;
}
u64 passes_two_masks(struct edge *edge, u64 length) {
    u64 *masks = (u64 *)edge->argument;
    u32 bit = edge->target & 127;
    return masks[bit >> 6] >> (bit & 63) & 1;
}
u64 every_tenth(struct edge *edge, u64 length) { return hash_pair(edge->source, edge->target) % 10 == 0; }
u64 sampled(struct edge *edge, u64 length) { return hash(edge->target ^ edge->argument[0]) < ~0ULL / 4; }
u64 both_hubs(struct edge *edge, u64 length) { return edge->degree >= 8 && degree(edge->target) >= 8; }
u64 one_hub(struct edge *edge, u64 length) { return (edge->degree >= 8) != (degree(edge->target) >= 8); }
u64 has_common(struct edge *edge, u64 length) {
    for (u32 i = 0; i < 8; i++) {
        u64 word = neighbour(edge->source, i);
        if (word == NO_NEIGHBOUR)
            break;
        if (has_edge(edge->target, word))
            return 1;
    }
    return 0;
}
u64 is_bridge_like(struct edge *edge, u64 length) { return common_neighbours(edge->source, edge->target) == 0; }
u64 in_either_set(struct edge *edge, u64 length) {
    u8 first = edge->argument[0], second = edge->argument[1];
    switch (first % 3) {
    case 0: return edge->target % 3 == 0 || edge->target == second;
    case 1: return edge->target % 5 == 0 && edge->target != second;
    default: return edge->target < second;
    }
}
u64 target_if_upward(struct edge *edge, u64 length) { return edge->source < edge->target ? edge->target : 0; }
u64 is_popular_first(struct edge *edge, u64 length) {
    u64 first = neighbour(edge->source, 0);
    return first != NO_NEIGHBOUR && degree(first) > degree(edge->target);
}
