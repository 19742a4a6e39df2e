// Records of 24 bytes. Scores of an edge.
#include <edgebpf.h>

u64 degree_sum(struct edge *edge, u64 length) { return edge->degree + degree(edge->target); }
u64 degree_product(struct edge *edge, u64 length) { return edge->degree * degree(edge->target); }
u64 degree_gap(struct edge *edge, u64 length) {
    u64 other = degree(edge->target);
    return edge->degree > other ? edge->degree - other : other - edge->degree;
}
u64 degree_square(struct edge *edge, u64 length) { return (u64)edge->degree * edge->degree; }
u64 share(struct edge *edge, u64 length) { return 1000000 / edge->degree; }
u64 share_of_both(struct edge *edge, u64 length) { return 1000000 / (edge->degree + degree(edge->target)); }
u64 common(struct edge *edge, u64 length) { return common_neighbours(edge->source, edge->target); }
u64 jaccard_1000(struct edge *edge, u64 length) { return jaccard(edge->source, edge->target, 1000); }
u64 sorensen(struct edge *edge, u64 length) {
    return 2000 * common_neighbours(edge->source, edge->target) / (edge->degree + degree(edge->target));
}
u64 overlap(struct edge *edge, u64 length) {
    u64 least = smaller(edge->degree, degree(edge->target));
    return least ? 1000 * common_neighbours(edge->source, edge->target) / least : 0;
}
u64 cosine_squared(struct edge *edge, u64 length) {
    u64 both = common_neighbours(edge->source, edge->target), product = edge->degree * degree(edge->target);
    return product ? 1000 * both * both / product : 0;
}
for_each_neighbour(adamic_of, word, total, other) {
    if (!has_edge(other, word)) return total;
    u64 many = degree(word), log = 1;
    for (int i = 0; i < 20; i++) if (many >> i > 1) log++;
    return total + 100000 / log;
}
// refused: adamic_adar has [0-9]+ units with what it calls, [0-9]+ of them here
u64 adamic_adar(struct edge *edge, u64 length) { return adamic_of(edge->source, 0, edge->target); }
FUNCTION u64 log_of(u64 many) {
    u64 log = 1;
    for (; many > 1; many >>= 1) log++;
    return log;
}
for_1024_neighbours(adamic_called, word, total, other) { return has_edge(other, word) ? total + 100000 / log_of(degree(word)) : total; }
u64 adamic_adar_called(struct edge *edge, u64 length) { return adamic_called(edge->source, 0, edge->target); }
for_each_neighbour(resource_of, word, total, other) { return has_edge(other, word) ? total + 1000000 / (degree(word) + 1) : total; }
u64 resource_allocation(struct edge *edge, u64 length) { return resource_of(edge->source, 0, edge->target); }
u64 preferential(struct edge *edge, u64 length) { return mul_saturated(edge->degree, degree(edge->target)); }
u64 weighted(struct edge *edge, u64 length) {
    return edge->argument[0] * edge->source + edge->argument[1] * edge->target + edge->argument[2] * (u64)edge->degree;
}
u64 weight_of_place(struct edge *edge, u64 length) { return edge->argument[edge->place % 8] * (u64)edge->target; }
u64 weight_of_small_place(struct edge *edge, u64 length) {
    if (edge->place < 8)
        return edge->argument[edge->place];
    return 0;
}
u64 weight_capped(struct edge *edge, u64 length) {
    u32 place = edge->place;
    if (place > 7) place = 7;
    return edge->argument[place];
}
u64 weight_signed(struct edge *edge, u64 length) {
    int place = edge->place;
    if (place < 0 || place >= 8) return 1;
    return edge->argument[place];
}
u64 weight_by_degree(struct edge *edge, u64 length) {
    u64 many = degree(edge->target);
    if (many >= 8) return 100;
    return edge->argument[many] + many;
}
u64 rank_push(struct edge *edge, u64 length) {
    u64 rank = *(u64 *)edge->argument >> 20;
    return rank * 85 / 100 / edge->degree;
}
u64 distance(struct edge *edge, u64 length) { return edge->source > edge->target ? edge->source - edge->target : edge->target - edge->source; }
u64 log_distance(struct edge *edge, u64 length) {
    u32 far = edge->source > edge->target ? edge->source - edge->target : edge->target - edge->source;
    u64 log = 0;
    while (far > 1) {
        far >>= 1;
        log++;
    }
    return log;
}
u64 mean_neighbour_degree(struct edge *edge, u64 length) {
    u64 sum = 0, many = 0;
    for (u32 i = 0; i < 10; i++) {
        u64 word = neighbour(edge->target, i);
        if (word == NO_NEIGHBOUR) break;
        sum += degree(word);
        many++;
    }
    return many ? sum / many : 0;
}
u64 score_in_steps(struct edge *edge, u64 length) {
    u64 many = degree(edge->target);
    if (many < 2) return 1;
    if (many < 4) return 3;
    if (many < 8) return 7;
    if (many < 16) return 20;
    return 50;
}
