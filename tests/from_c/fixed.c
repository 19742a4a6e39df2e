// Records of 32 bytes. Fixed point numbers: decay, logarithms, roots, means.
#include <edgebpf.h>

u64 decay_half(struct edge *edge, u64 length) {
    u32 age = edge->argument[0];
    return age < 64 ? 1000000ULL >> age : 0;
}
u64 decay_by_tenths(struct edge *edge, u64 length) {
    u64 value = 1000000;
    for (u32 i = 0; i < (edge->argument[0] & 15); i++) value = value * 9 / 10;
    return value;
}
u64 decay_by_squares(struct edge *edge, u64 length) {
    u64 value = 1 << 16, factor = 64000;
    u32 age = edge->argument[0];
    while (age) {
        if (age & 1) value = value * factor >> 16;
        factor = factor * factor >> 16;
        age >>= 1;
    }
    return value;
}
u64 power(struct edge *edge, u64 length) {
    u64 result = 1, base = edge->target;
    for (u32 left = edge->argument[0] & 31; left; left >>= 1) {
        if (left & 1) result *= base;
        base *= base;
    }
    return result;
}
u64 power_modulo(struct edge *edge, u64 length) {
    u64 result = 1, base = edge->target % 1000003;
    u32 exponent = edge->source & 0xffff;
    for (int i = 0; i < 16; i++) {
        if (exponent >> i & 1) result = result * base % 1000003;
        base = base * base % 1000003;
    }
    return result;
}
u64 log_floor(struct edge *edge, u64 length) {
    u64 value = edge->target + 1, log = 0;
    for (int shift = 32; shift; shift >>= 1)
        if (value >> shift) value >>= shift, log += shift;
    return log;
}
u64 log_fixed(struct edge *edge, u64 length) {
    u64 value = (u64)edge->degree << 16, log = 0;
    while (value >= 2 << 16) {
        value >>= 1;
        log += 1 << 8;
    }
    for (u64 bit = 1 << 7; bit; bit >>= 1) {
        value = value * value >> 16;
        if (value >= 2 << 16) value >>= 1, log += bit;
    }
    return log;
}
u64 root(struct edge *edge, u64 length) {
    u64 value = (u64)edge->source * edge->target, result = 0;
    for (u64 bit = 1ULL << 31; bit; bit >>= 1)
        if ((result | bit) * (result | bit) <= value) result |= bit;
    return result;
}
u64 root_by_newton(struct edge *edge, u64 length) {
    u64 value = edge->target + 1ULL, guess = value;
    for (int i = 0; i < 24; i++) {
        u64 next = (guess + value / guess) / 2;
        if (next >= guess) break;
        guess = next;
    }
    return guess;
}
u64 cube_root(struct edge *edge, u64 length) {
    u64 result = 0;
    for (u64 bit = 1 << 10; bit; bit >>= 1) {
        u64 next = result | bit;
        if (next * next * next <= edge->target) result = next;
    }
    return result;
}
u64 reciprocal(struct edge *edge, u64 length) { return (1ULL << 32) / (edge->degree + 1); }
u64 scaled(struct edge *edge, u64 length) { return (u64)edge->target * *(u32 *)edge->argument >> 16; }
u64 mixed(struct edge *edge, u64 length) {
    u32 share = edge->argument[0];
    return (share * (u64)edge->source + (255 - share) * (u64)edge->target) / 255;
}
u64 signed_mean(struct edge *edge, u64 length) {
    s8 *values = (s8 *)edge->argument;
    s32 sum = 0;
    for (int i = 0; i < 16; i++) sum += values[i];
    return (u64)(s64)(sum / 16);
}
u64 variance(struct edge *edge, u64 length) {
    u64 sum = 0, squares = 0;
    for (int i = 0; i < 16; i++) {
        u64 value = edge->argument[i];
        sum += value;
        squares += value * value;
    }
    return squares / 16 - sum / 16 * (sum / 16);
}
u64 sigmoid(struct edge *edge, u64 length) {
    s64 x = (s64)edge->argument[0] - 128;
    s64 bottom = 16 + (x < 0 ? -x : x);
    return (u64)(500 + 500 * x / bottom);
}
u64 clamped(struct edge *edge, u64 length) {
    s32 value = (s32)edge->argument[0] - (s32)edge->argument[1];
    if (value < -20) value = -20;
    if (value > 20) value = 20;
    return (u64)(value + 20);
}
u64 rounded(struct edge *edge, u64 length) { return (edge->target + 5) / 10 * 10; }
u64 polynomial(struct edge *edge, u64 length) {
    u64 x = edge->target, sum = 0;
    for (int i = 15; i >= 0; i--) sum = sum * x + edge->argument[i];
    return sum;
}
u64 dot_product(struct edge *edge, u64 length) {
    u64 sum = 0;
    for (int i = 0; i < 8; i++) sum += (u64)edge->argument[i] * edge->argument[i + 8];
    return sum;
}
u64 signed_dot(struct edge *edge, u64 length) {
    s16 *values = (s16 *)edge->argument;
    s64 sum = 0;
    for (int i = 0; i < 4; i++) sum += (s64)values[i] * values[i + 4];
    return (u64)sum;
}
u64 percent(struct edge *edge, u64 length) { return edge->degree ? 100 * (edge->place + 1) / edge->degree : 0; }
u64 harmonic(struct edge *edge, u64 length) {
    u64 sum = 0;
    for (u64 i = 1; i <= 20; i++) {
        if (i > edge->degree) break;
        sum += 1000000 / i;
    }
    return sum;
}
u64 table_between(struct edge *edge, u64 length) {
    u32 place = edge->target & 7, share = edge->source & 255;
    u32 low = edge->argument[place], high = edge->argument[place + 1];
    return low * (256 - share) + high * share;
}
u64 saturated_sum(struct edge *edge, u64 length) { return add_saturated(*(u64 *)edge->argument, *(u64 *)(edge->argument + 8)); }
u64 saturated_difference(struct edge *edge, u64 length) { return sub_saturated(edge->target, edge->source); }
u64 saturated_product(struct edge *edge, u64 length) { return mul_saturated(*(u64 *)edge->argument, edge->target); }
u64 geometric(struct edge *edge, u64 length) {
    u64 sum = 0, term = 1 << 20;
    for (int i = 0; i < 30; i++) {
        sum += term;
        term = term * edge->argument[0] >> 8;
        if (term == 0) break;
    }
    return sum;
}
