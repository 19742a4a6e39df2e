// Records of 32 bytes. Bits, numbers, and conversions of widths and signs.
#include <edgebpf.h>

u64 bits_set(struct edge *edge, u64 length) { return __builtin_popcount(edge->source ^ edge->target); }
u64 bits_by_loop(struct edge *edge, u64 length) {
    u32 value = edge->target;
    u64 many = 0;
    for (int i = 0; i < 32; i++) many += value >> i & 1;
    return many;
}
u64 leading_zeros(struct edge *edge, u64 length) { return edge->target ? __builtin_clz(edge->target) : 32; }
u64 trailing_zeros(struct edge *edge, u64 length) { return edge->target ? __builtin_ctz(edge->target) : 32; }
u64 bits_reversed(struct edge *edge, u64 length) {
    u32 value = edge->target, result = 0;
    for (int i = 0; i < 32; i++) result = result << 1 | (value >> i & 1);
    return result;
}
u64 bytes_reversed(struct edge *edge, u64 length) { return __builtin_bswap32(edge->target) ^ __builtin_bswap64(edge->source); }
u64 parity_of_bits(struct edge *edge, u64 length) { return __builtin_parity(edge->target); }
u64 interleaved_bits(struct edge *edge, u64 length) {
    u64 result = 0;
    for (int i = 0; i < 16; i++) result |= (u64)(edge->source >> i & 1) << 2 * i | (u64)(edge->target >> i & 1) << (2 * i + 1);
    return result;
}
u64 gray_code(struct edge *edge, u64 length) { return edge->target ^ edge->target >> 1; }
u64 from_gray_code(struct edge *edge, u64 length) {
    u32 value = edge->target;
    for (u32 shift = 1; shift < 32; shift <<= 1) value ^= value >> shift;
    return value;
}
u64 greatest_divisor(struct edge *edge, u64 length) {
    u32 a = edge->source, b = edge->target;
    for (int i = 0; i < 48 && b; i++) {
        u32 rest = a % b;
        a = b;
        b = rest;
    }
    return a;
}
u64 least_factor(struct edge *edge, u64 length) {
    u32 value = edge->target;
    if (value < 4) return value;
    for (u32 factor = 2; factor < 40; factor++)
        if (value % factor == 0) return factor;
    return value;
}
u64 digits_sum(struct edge *edge, u64 length) {
    u32 value = edge->target;
    u64 sum = 0;
    for (int i = 0; i < 10; i++) {
        sum += value % 10;
        value /= 10;
    }
    return sum;
}
u64 fibonacci(struct edge *edge, u64 length) {
    u64 one = 0, other = 1;
    for (u32 i = 0; i < (edge->target & 63); i++) {
        u64 next = one + other;
        one = other;
        other = next;
    }
    return one;
}
u64 signed_shift(struct edge *edge, u64 length) { return (u64)(((s64)edge->source - (s64)edge->target) >> 2); }
u64 signed_division(struct edge *edge, u64 length) { return (u64)(((s32)edge->source - (s32)edge->target) / 7); }
u64 signed_remainder(struct edge *edge, u64 length) { return (u64)(((s32)edge->source - (s32)edge->target) % 7); }
u64 sign_of(struct edge *edge, u64 length) {
    s32 gap = (s32)edge->source - (s32)edge->target;
    return gap < 0 ? 1 : gap > 0 ? 2 : 0;
}
u64 narrow_sums(struct edge *edge, u64 length) {
    u8 byte = edge->source + edge->target;
    u16 half = edge->source * edge->target;
    s8 small = byte;
    return byte + half + (u64)(s64)small;
}
u64 from_s8(struct edge *edge, u64 length) { return (u64)(s64)(s8)edge->argument[0]; }
u64 from_s16(struct edge *edge, u64 length) { return (u64)(s64) * (s16 *)edge->argument; }
u64 from_s32(struct edge *edge, u64 length) { return (u64)(s64) * (s32 *)edge->argument; }
u64 index_from_int(struct edge *edge, u64 length) {
    int index = (int)edge->place - 1;
    return index >= 0 && index < 16 ? edge->argument[index] : 0;
}
u64 index_from_difference(struct edge *edge, u64 length) {
    s64 index = (s64)edge->degree - (s64)edge->place;
    if (index < 0 || index > 15) return 77;
    return edge->argument[index];
}
u64 index_from_product(struct edge *edge, u64 length) {
    u32 index = edge->place * 3 + 1;
    if (index >= 16) return 5;
    return edge->argument[index] + index;
}
u64 index_from_u16(struct edge *edge, u64 length) {
    u16 index = edge->target;
    return index < 16 ? edge->argument[index] : 1;
}
u64 index_by_modulo(struct edge *edge, u64 length) { return edge->argument[(edge->target * 7 + 3) % 16]; }
u64 index_of_half(struct edge *edge, u64 length) { return ((u16 *)edge->argument)[edge->target % 8]; }
u64 index_of_word(struct edge *edge, u64 length) { return ((u32 *)edge->argument)[edge->target % 4]; }
u64 index_of_double(struct edge *edge, u64 length) { return ((u64 *)edge->argument)[edge->target & 1]; }
u64 index_at_most(struct edge *edge, u64 length) { return edge->argument[at_most(edge->target, 15)]; }
u64 index_checked_late(struct edge *edge, u64 length) {
    u64 index = edge->place + edge->argument[0] % 4;
    u64 twice = index * 2;
    if (index >= 16) return twice;
    return edge->argument[index] + twice;
}
u64 byte_before(struct edge *edge, u64 length) {
    u32 index = edge->place & 15;
    return index ? edge->argument[index - 1] : 0;
}
u64 from_the_end(struct edge *edge, u64 length) {
    u32 index = edge->place & 15;
    return edge->argument[15 - index];
}
u64 by_length(struct edge *edge, u64 length) { return edge->argument[length - 17]; }
u64 last_bytes(struct edge *edge, u64 length) {
    u8 *end = (u8 *)edge + length;
    return end[-1] * 256 + end[-2];
}
u64 pointer_walk(struct edge *edge, u64 length) {
    u64 sum = 0;
    for (u8 *byte = edge->argument; byte < edge->argument + 16; byte++) sum = sum * 3 + *byte;
    return sum;
}
u64 until_zero(struct edge *edge, u64 length) {
    u64 many = 0;
    while (many < 16 && edge->argument[many]) many++;
    return many;
}
u64 chosen_pointer(struct edge *edge, u64 length) {
    u32 *field = edge->source & 1 ? &edge->target : &edge->degree;
    return *field * 3ULL;
}
u64 wide_product(struct edge *edge, u64 length) {
    u64 one = hash(edge->source), other = hash(edge->target);
    u64 low = (one & 0xffffffff) * (other & 0xffffffff), middle = (one >> 32) * (other & 0xffffffff) + (low >> 32);
    u64 cross = (one & 0xffffffff) * (other >> 32) + (middle & 0xffffffff);
    return (one >> 32) * (other >> 32) + (middle >> 32) + (cross >> 32);
}
