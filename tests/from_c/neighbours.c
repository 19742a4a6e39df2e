// Records of 24 bytes. Questions about neighbours, and neighbours of neighbours.
#include <edgebpf.h>

u64 triangles_of_16(struct edge *edge, u64 length) {
    u32 words[16];
    u64 many = gather(edge->target, 0, words, sizeof words), triangles = 0;
    for (u64 i = 0; i < 16; i++)
        if (i < many) triangles += has_edge(words[i], edge->source);
    return triangles;
}
u64 triangles_of_60(struct edge *edge, u64 length) {
    u32 words[60];
    u64 triangles = 0;
    gather(edge->source, 0, words, sizeof words);
    for (int i = 0; i < 60 && words[i] != NO_WORD; i++) triangles += has_edge(edge->target, words[i]);
    return triangles;
}
for_each_neighbour(triangles_at, word, total, other) { return total + (word > other && has_edge(other, word)); }
u64 triangles(struct edge *edge, u64 length) { return triangles_at(edge->source, 0, edge->target); }
for_1024_neighbours(triangles_1024, word, total, other) { return total + has_edge(word, other); }
u64 triangles_back(struct edge *edge, u64 length) { return triangles_1024(edge->source, 0, edge->target); }
for_64_neighbours(triangles_64, word, total, other) { return total + has_edge(word, other); }
u64 triangles_few(struct edge *edge, u64 length) { return triangles_64(edge->source, 0, edge->target); }
for_each_neighbour_until(strong_of, 5, word, total, least) { return total + (degree(word) >= least); }
u64 in_five_core(struct edge *edge, u64 length) {
    return strong_of(edge->source, 0, 5) >= 5 && strong_of(edge->target, 0, 5) >= 5;
}
for_1024_neighbours_until(strong_1024, limit, word, total, limit) { return total + (degree(word) >= limit); }
u64 in_k_core(struct edge *edge, u64 length) {
    u64 least = edge->argument[0] & 7;
    return strong_1024(edge->source, 0, least) >= least && strong_1024(edge->target, 0, least) >= least;
}
for_each_neighbour(degree_total, word, total, unused) { return total + degree(word); }
u64 two_hops(struct edge *edge, u64 length) { return degree_total(edge->target, 0, 0); }
for_each_neighbour(least_degree, word, total, unused) { return smaller(total, degree(word)); }
u64 least_at_target(struct edge *edge, u64 length) { return least_degree(edge->target, ~0ULL, 0); }
for_each_neighbour(most_degree, word, total, unused) { return larger(total, degree(word) << 32 | word); }
u64 busiest_at_target(struct edge *edge, u64 length) { return (u32)most_degree(edge->target, 0, 0); }
for_each_neighbour(leaves_of, word, total, unused) { return total + (degree(word) == 0); }
u64 leaves(struct edge *edge, u64 length) { return leaves_of(edge->source, 0, 0); }
for_each_neighbour(mutual_of, word, total, vertex) { return total + has_edge(word, vertex); }
u64 mutual_friends(struct edge *edge, u64 length) { return mutual_of(edge->source, 0, edge->source); }
u64 reciprocity(struct edge *edge, u64 length) { return 1000 * mutual_of(edge->source, 0, edge->source) / edge->degree; }
u64 second_neighbour(struct edge *edge, u64 length) { return neighbour(neighbour(edge->target, 0), 0); }
u64 third_neighbour(struct edge *edge, u64 length) {
    u64 vertex = edge->target;
    for (int i = 0; i < 3; i++) vertex = neighbour(vertex, i);
    return vertex;
}
u64 random_step(struct edge *edge, u64 length) {
    u64 many = degree(edge->target);
    if (many == 0) return edge->target;
    return neighbour(edge->target, hash(edge->place) % many);
}
u64 random_walk(struct edge *edge, u64 length) {
    u64 vertex = edge->target, state = edge->source + edge->argument[0];
    for (int step = 0; step < 10; step++) {
        u64 many = degree(vertex);
        if (many == 0) break;
        state = hash(state);
        vertex = neighbour(vertex, state % many);
    }
    return vertex;
}
u64 walk_returns(struct edge *edge, u64 length) {
    u64 vertex = edge->target, state = edge->argument[1];
    for (u64 step = 1; step <= 8; step++) {
        u64 many = degree(vertex);
        if (!many) return 0;
        vertex = neighbour(vertex, (state + step) % many);
        if (vertex == edge->source) return step;
    }
    return 9;
}
u64 square_count(struct edge *edge, u64 length) {
    u64 squares = 0;
    for (u32 i = 0; i < 6; i++)
        for (u32 j = 0; j < 6; j++) {
            u64 one = neighbour(edge->source, i), other = neighbour(edge->target, j);
            if (one == NO_NEIGHBOUR || other == NO_NEIGHBOUR) continue;
            squares += one != other && has_edge(one, other);
        }
    return squares;
}
u64 clustering(struct edge *edge, u64 length) {
    u32 words[12];
    u64 many = gather(edge->source, 0, words, sizeof words), links = 0;
    for (u32 i = 0; i < 12; i++)
        for (u32 j = 0; j < 12; j++)
            if (i < many && j < many && i != j) links += has_edge(words[i], words[j]);
    return many < 2 ? 0 : 1000 * links / (many * (many - 1));
}
u64 gathered_sum(struct edge *edge, u64 length) {
    u32 words[64];
    u64 many = gather(edge->source, 0, words, sizeof words), sum = 0;
    for (u32 i = 0; i < 64; i++) {
        if (i >= many) break;
        sum += words[i];
    }
    return sum;
}
u64 gathered_hash(struct edge *edge, u64 length) {
    u32 words[8];
    gather(edge->target, edge->argument[0] & 3, words, sizeof words);
    u64 state = 7;
    for (u32 i = 0; i < 8; i++) state = hash_pair(state, words[i]);
    return state;
}
u64 gathered_in_record(struct edge *edge, u64 length) {
    gather(edge->target, 0, edge->argument, 8);
    return *(u64 *)edge->argument;
}
u64 next_target(struct edge *edge, u64 length) { return neighbour(edge->source, edge->place + 1); }
u64 gap_to_next(struct edge *edge, u64 length) {
    u64 after = neighbour(edge->source, edge->place + 1);
    return after == NO_NEIGHBOUR ? 0 : after - edge->target;
}
u64 widest_gap(struct edge *edge, u64 length) {
    u64 widest = 0, before = neighbour(edge->source, 0);
    for (u32 i = 1; i < 20; i++) {
        u64 word = neighbour(edge->source, i);
        if (word == NO_NEIGHBOUR) break;
        if (word - before > widest) widest = word - before;
        before = word;
    }
    return widest;
}
u64 place_of_source(struct edge *edge, u64 length) {
    for (u32 i = 0; i < 32; i++)
        if (neighbour(edge->target, i) == edge->source) return i;
    return 1000;
}
u64 found_by_halves(struct edge *edge, u64 length) {
    u64 low = 0, high = degree(edge->target);
    for (int i = 0; i < 20 && low < high; i++) {
        u64 middle = (low + high) / 2;
        if (neighbour(edge->target, middle) < edge->source) low = middle + 1;
        else high = middle;
    }
    return low * 2 + (neighbour(edge->target, low) == edge->source);
}
FUNCTION u64 reach(u64 vertex, u64 other) {
    u64 reached = 0;
    for (u32 i = 0; i < 16; i++) {
        u64 word = neighbour(vertex, i);
        if (word != NO_NEIGHBOUR) reached += has_edge(word, other);
    }
    return reached;
}
u64 paths_of_three(struct edge *edge, u64 length) {
    u64 paths = 0;
    for (u32 i = 0; i < 16; i++) {
        u64 word = neighbour(edge->source, i);
        if (word == NO_NEIGHBOUR) break;
        paths += reach(word, edge->target);
    }
    return paths;
}
u64 merged_common(struct edge *edge, u64 length) {
    u64 i = 0, j = 0, both = 0;
    for (u32 step = 0; step < 40; step++) {
        u64 one = neighbour(edge->source, i), other = neighbour(edge->target, j);
        if (one == NO_NEIGHBOUR || other == NO_NEIGHBOUR) break;
        if (one == other) both++, i++, j++;
        else if (one < other) i++;
        else j++;
    }
    return both;
}
