// Records of 80 bytes. Histograms and counters in the record, and packed into one number.
#include <edgebpf.h>

u64 bucket_of_degree(struct edge *edge, u64 length) { return 1ULL << 8 * (edge->degree > 7 ? 7 : edge->degree); }
u64 bucket_of_log(struct edge *edge, u64 length) {
    u64 many = degree(edge->target), log = 0;
    while (many) {
        many >>= 1;
        log++;
    }
    return log;
}
u64 bucket_by_bounds(struct edge *edge, u64 length) {
    u32 *bounds = (u32 *)edge->argument;
    u64 bucket = 0;
    for (int i = 0; i < 16; i++) bucket += (bounds[i] & 127) < edge->target;
    return bucket;
}
u64 neighbours_in_buckets(struct edge *edge, u64 length) {
    u64 packed = 0;
    for (u32 i = 0; i < 32; i++) {
        u64 word = neighbour(edge->source, i);
        if (word == NO_NEIGHBOUR) break;
        packed += 1ULL << 8 * (word & 7);
    }
    return packed;
}
u64 histogram_in_record(struct edge *edge, u64 length) {
    u16 *counts = (u16 *)edge->argument;
    for (u32 i = 0; i < 32; i++) counts[i] = 0;
    for (u32 i = 0; i < 24; i++) {
        u64 word = neighbour(edge->target, i);
        if (word == NO_NEIGHBOUR) break;
        counts[word & 31]++;
    }
    u64 state = 0;
    for (u32 i = 0; i < 32; i++) state = state * 31 + counts[i];
    return state;
}
u64 most_frequent(struct edge *edge, u64 length) {
    u8 *counts = SCRATCH(edge, u8);
    __builtin_memset(counts, 0, 32);
    for (u32 i = 0; i < 24; i++) {
        u64 word = neighbour(edge->source, i);
        if (word == NO_NEIGHBOUR) break;
        counts[degree(word) & 31]++;
    }
    u64 best = 0;
    for (u32 i = 1; i < 32; i++) if (counts[i] > counts[best]) best = i;
    return best;
}
u64 counter_at_target(struct edge *edge, u64 length) {
    u32 *counters = (u32 *)edge->argument;
    return ++counters[edge->target % 16];
}
u64 counters_of_two(struct edge *edge, u64 length) {
    u32 *counters = (u32 *)edge->argument;
    counters[edge->source % 16] += 3;
    counters[edge->target % 16] += 5;
    return counters[3] + counters[7] * 7;
}
u64 running_sums(struct edge *edge, u64 length) {
    u32 *values = (u32 *)edge->argument;
    for (int i = 1; i < 16; i++) values[i] += values[i - 1];
    return values[15] + values[edge->place & 15];
}
u64 quantile(struct edge *edge, u64 length) {
    u64 wanted = 0, seen = 0;
    for (int i = 0; i < 64; i++) wanted += edge->argument[i];
    wanted /= 2;
    for (u64 i = 0; i < 64; i++) {
        seen += edge->argument[i];
        if (seen > wanted) return i;
    }
    return 64;
}
u64 nibbles(struct edge *edge, u64 length) {
    u64 sum = 0;
    for (u64 value = (u64)edge->source << 32 | edge->target; value; value >>= 4) sum += value & 15;
    return sum;
}
u64 packed_add(struct edge *edge, u64 length) {
    u64 counts = *(u64 *)edge->argument;
    u32 shift = (edge->target & 7) * 8;
    if ((counts >> shift & 255) < 255) counts += 1ULL << shift;
    return counts;
}
u64 distinct_bytes(struct edge *edge, u64 length) {
    u64 seen[4] = {0, 0, 0, 0}, many = 0;
    for (int i = 0; i < 16; i++) {
        u8 byte = edge->argument[i];
        u64 bit = 1ULL << (byte & 63);
        switch (byte >> 6) {
        case 0: many += !(seen[0] & bit), seen[0] |= bit; break;
        case 1: many += !(seen[1] & bit), seen[1] |= bit; break;
        case 2: many += !(seen[2] & bit), seen[2] |= bit; break;
        default: many += !(seen[3] & bit), seen[3] |= bit;
        }
    }
    return many;
}
u64 longest_run(struct edge *edge, u64 length) {
    u64 longest = 0, run = 0;
    for (int i = 1; i < 64; i++) {
        run = (edge->argument[i] & 3) == (edge->argument[i - 1] & 3) ? run + 1 : 0;
        if (run > longest) longest = run;
    }
    return longest;
}
u64 entropy_like(struct edge *edge, u64 length) {
    u64 counts = 0, score = 0;
    for (int i = 0; i < 64; i++) counts += 1ULL << 8 * (edge->argument[i] & 7);
    for (int i = 0; i < 8; i++) {
        u64 count = counts >> 8 * i & 255;
        score += count * count;
    }
    return score;
}
u64 peak(struct edge *edge, u64 length) {
    u64 best = 0;
    for (u32 i = 1; i < 63; i++)
        if (edge->argument[i] > edge->argument[i - 1] && edge->argument[i] > edge->argument[i + 1]) best = i;
    return best;
}
u64 moved_window(struct edge *edge, u64 length) {
    u32 sum = 0, most = 0;
    for (u32 i = 0; i < 64; i++) {
        sum += edge->argument[i];
        if (i >= 8) sum -= edge->argument[i - 8];
        if (sum > most) most = sum;
    }
    return most;
}
