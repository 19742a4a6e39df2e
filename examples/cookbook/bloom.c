#include <edgebpf.h>
INLINE u64 is_set(const u8 *bytes, u64 bit) { return bytes[bit >> 3] >> (bit & 7) & 1; }
/* The filter is the program's table, of 32,768 bits. */
u64 bloom(struct edge *edge, u64 length, const u8 *table) {
    u64 bits = hash(edge->target);
    return is_set(table, bits & 0x7fff) & is_set(table, bits >> 32 & 0x7fff);
}
/* The filter is the run's argument, of 1,920 bits. */
u64 short_bloom(struct edge *edge, u64 length) {
    u64 bits = hash(edge->target);
    return is_set(edge->argument, (u32)bits % 1920) & is_set(edge->argument, (bits >> 32) % 1920);
}
