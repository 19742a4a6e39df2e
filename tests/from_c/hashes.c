// Records of 64 bytes. Hashes, bloom filters and sketches; the argument is a filter or a sketch.
#include <edgebpf.h>

u64 hash_of_target(struct edge *edge, u64 length) { return hash(edge->target); }
u64 hash_of_edge(struct edge *edge, u64 length) { return hash_pair(edge->source, edge->target); }
u64 hash_both_ways(struct edge *edge, u64 length) { return hash(edge->source) ^ hash(edge->target); }
u64 fnv_of_record(struct edge *edge, u64 length) {
    u64 state = 0xcbf29ce484222325ULL;
    u8 *bytes = (u8 *)edge;
    for (int i = 0; i < 16; i++) {
        state ^= bytes[i];
        state *= 0x100000001b3ULL;
    }
    return state;
}
u64 fnv_of_argument(struct edge *edge, u64 length) {
    u32 state = 0x811c9dc5u;
    for (int i = 0; i < 48; i++) state = (state ^ edge->argument[i]) * 0x01000193u;
    return state;
}
u64 jenkins(struct edge *edge, u64 length) {
    u32 state = 0;
    for (u32 i = 0; i < 8; i++) {
        state += ((u8 *)edge)[i];
        state += state << 10;
        state ^= state >> 6;
    }
    state += state << 3;
    state ^= state >> 11;
    return state + (state << 15);
}
u64 adler(struct edge *edge, u64 length) {
    u32 low = 1, high = 0;
    for (u32 i = 0; i < 32; i++) {
        low = (low + edge->argument[i]) % 65521;
        high = (high + low) % 65521;
    }
    return high << 16 | low;
}
u64 crc_by_bits(struct edge *edge, u64 length) {
    u32 crc = ~0u;
    for (int i = 0; i < 4; i++) {
        crc ^= edge->argument[i];
        for (int bit = 0; bit < 8; bit++) crc = crc & 1 ? crc >> 1 ^ 0xedb88320u : crc >> 1;
    }
    return ~crc;
}
u64 rotated(struct edge *edge, u64 length) {
    u32 x = edge->source * 0x9e3779b1u;
    x = x << 13 | x >> 19;
    return x ^ edge->target;
}
u64 xorshift(struct edge *edge, u64 length) {
    u64 x = (u64)edge->source << 32 | edge->target | 1;
    for (int i = 0; i < 5; i++) {
        x ^= x << 13;
        x ^= x >> 7;
        x ^= x << 17;
    }
    return x;
}
u64 in_bloom(struct edge *edge, u64 length) {
    u64 value = hash(edge->target);
    for (int i = 0; i < 3; i++) {
        u32 bit = value % 384;
        if (!(edge->argument[bit / 8] >> bit % 8 & 1)) return 0;
        value >>= 16;
    }
    return 1;
}
u64 into_bloom(struct edge *edge, u64 length) {
    u64 value = hash(edge->target), set = 0;
    for (int i = 0; i < 4; i++) {
        u32 bit = value & 255;
        edge->argument[bit >> 3] |= 1 << (bit & 7);
        value >>= 8;
    }
    for (int i = 0; i < 32; i++) set += __builtin_popcount(edge->argument[i]);
    return set;
}
u64 bloom_of_words(struct edge *edge, u64 length) {
    u64 *words = (u64 *)edge->argument, value = hash(edge->source);
    u64 bit = 1ULL << (value & 63), slot = value >> 32 & 3;
    u64 was = words[slot] & bit;
    words[slot] |= bit;
    return was != 0;
}
u64 blocked_bloom(struct edge *edge, u64 length) {
    u64 value = hash_pair(edge->source, edge->target), word = ((u64 *)edge->argument)[value % 6];
    u64 mask = 1ULL << (value >> 8 & 63) | 1ULL << (value >> 16 & 63) | 1ULL << (value >> 24 & 63);
    return (word & mask) == mask;
}
u64 count_min(struct edge *edge, u64 length) {
    u64 value = hash(edge->target), least = 255;
    for (u32 row = 0; row < 3; row++) {
        u8 count = edge->argument[16 * row + (value >> 8 * row & 15)];
        if (count < least) least = count;
    }
    return least;
}
u64 count_min_add(struct edge *edge, u64 length) {
    u64 value = hash(edge->target), sum = 0;
    for (u32 row = 0; row < 3; row++) {
        u8 *count = &edge->argument[16 * row + (value >> 8 * row & 15)];
        if (*count < 255) ++*count;
        sum += *count;
    }
    return sum;
}
u64 hyperloglog(struct edge *edge, u64 length) {
    u64 value = hash(edge->target);
    u32 slot = value & 31;
    u64 rest = value >> 5 | 1ULL << 59;
    u8 zeros = 1;
    for (int i = 0; i < 20 && !(rest & 1); i++) rest >>= 1, zeros++;
    if (zeros > edge->argument[slot]) edge->argument[slot] = zeros;
    return edge->argument[slot];
}
u64 least_hash(struct edge *edge, u64 length) {
    u64 least = ~0ULL;
    for (u32 i = 0; i < 16; i++) {
        u64 word = neighbour(edge->target, i);
        if (word == NO_NEIGHBOUR) break;
        least = smaller(least, hash(word));
    }
    return least;
}
u64 min_hash_equal(struct edge *edge, u64 length) {
    u64 equal = 0;
    for (u32 seed = 0; seed < 3; seed++) {
        u64 one = ~0ULL, other = ~0ULL;
        for (u32 i = 0; i < 6; i++) {
            one = smaller(one, hash_pair(seed, neighbour(edge->source, i)));
            other = smaller(other, hash_pair(seed, neighbour(edge->target, i)));
        }
        equal += one == other;
    }
    return equal;
}
u64 sim_hash(struct edge *edge, u64 length) {
    u64 bits = 0;
    for (u32 bit = 0; bit < 8; bit++) {
        s32 votes = 0;
        for (u32 i = 0; i < 5; i++) votes += hash(neighbour(edge->source, i)) >> bit & 1 ? 1 : -1;
        bits |= (u64)(votes > 0) << bit;
    }
    return bits;
}
u64 shard_of_target(struct edge *edge, u64 length) { return hash(edge->target) % 7; }
u64 jump_hash(struct edge *edge, u64 length) {
    u64 key = edge->target, bucket = 0, next = 0;
    for (int i = 0; i < 12; i++) {
        if (next >= 10) break;
        bucket = next;
        key = key * 2862933555777941757ULL + 1;
        next = (bucket + 1) * 2147483648ULL / ((key >> 33) + 1);
    }
    return bucket;
}
u64 rendezvous(struct edge *edge, u64 length) {
    u64 best = 0, choice = 0;
    for (u64 i = 0; i < 8; i++) {
        u64 weight = hash_pair(i, edge->target);
        if (weight > best) best = weight, choice = i;
    }
    return choice;
}
u64 slot_by_probing(struct edge *edge, u64 length) {
    u32 *slots = (u32 *)edge->argument;
    u64 value = hash(edge->target);
    for (u32 i = 0; i < 12; i++) {
        u32 slot = (value + i) % 12;
        if ((slots[slot] & 15) == (edge->target & 15)) return slot;
    }
    return 99;
}
