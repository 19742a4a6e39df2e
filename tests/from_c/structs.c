// Records of 64 bytes. Small structs by value and by address, arrays, and copies.
#include <edgebpf.h>

struct pair { u32 one, other; };
struct point { s32 x, y, z; };
struct statistics { u64 count, sum, least, most; };
struct argument { u32 low, high; u16 weights[4]; u8 flags, kind; s16 shift; u64 mask; struct pair pairs[2]; };

static struct pair ordered(u32 one, u32 other) { return one < other ? (struct pair){one, other} : (struct pair){other, one}; }
u64 ordered_pair(struct edge *edge, u64 length) {
    struct pair pair = ordered(edge->source, edge->target);
    return (u64)pair.one << 32 | pair.other;
}
u64 pair_by_value(struct edge *edge, u64 length) {
    struct pair pairs[2] = {{edge->source, edge->target}, {edge->place, edge->degree}};
    struct pair chosen = edge->source & 1 ? pairs[0] : pairs[1];
    return chosen.one * 3ULL + chosen.other;
}
INLINE void add(struct statistics *all, u64 value) {
    all->count++;
    all->sum += value;
    if (value < all->least) all->least = value;
    if (value > all->most) all->most = value;
}
u64 statistics_of_degrees(struct edge *edge, u64 length) {
    struct statistics all = {0, 0, ~0ULL, 0};
    for (u32 i = 0; i < 12; i++) {
        u64 word = neighbour(edge->source, i);
        if (word == NO_NEIGHBOUR) break;
        add(&all, degree(word));
    }
    return all.count ? all.sum * 1000 / all.count + all.most - all.least : 0;
}
u64 statistics_of_bytes(struct edge *edge, u64 length) {
    struct statistics all = {.least = ~0ULL};
    for (int i = 0; i < 32; i++) add(&all, edge->argument[i]);
    return all.count << 48 | all.most << 40 | all.least << 32 | all.sum;
}
u64 argument_as_struct(struct edge *edge, u64 length) {
    struct argument *given = (struct argument *)edge->argument;
    if (edge->target < (given->low & 63)) return given->weights[edge->target & 3];
    return given->high + given->flags * 3 + given->kind + (u64)(s64)given->shift;
}
u64 struct_in_argument(struct edge *edge, u64 length) {
    struct argument *given = (struct argument *)edge->argument;
    return given->pairs[edge->target & 1].one ^ given->pairs[edge->source & 1].other ^ given->mask;
}
u64 copied_struct(struct edge *edge, u64 length) {
    struct argument copy = *(struct argument *)edge->argument;
    copy.low += edge->source;
    copy.weights[2] ^= edge->target;
    return copy.low * 31ULL + copy.weights[2] + copy.mask;
}
u64 copied_by_memcpy(struct edge *edge, u64 length) {
    u64 words[4];
    __builtin_memcpy(words, edge->argument, sizeof words);
    return words[0] ^ words[1] * 3 ^ words[2] * 5 ^ words[3] * 7;
}
u64 copied_unaligned(struct edge *edge, u64 length) {
    u64 word;
    __builtin_memcpy(&word, edge->argument + 3, sizeof word);
    return word + edge->target;
}
u64 cleared_by_memset(struct edge *edge, u64 length) {
    u8 bytes[40];
    __builtin_memset(bytes, 0, sizeof bytes);
    bytes[3] = edge->source;
    bytes[17] = edge->target;
    u64 state = 0;
    for (int i = 0; i < 40; i++) state = state * 33 + bytes[i];
    return state;
}
u64 filled_by_memset(struct edge *edge, u64 length) {
    __builtin_memset(edge->argument, 0xab, 24);
    edge->argument[edge->target & 15] = 1;
    return *(u64 *)edge->argument ^ *(u64 *)(edge->argument + 8);
}
u64 moved_by_memmove(struct edge *edge, u64 length) {
    __builtin_memmove(edge->argument + 4, edge->argument, 16);
    return *(u64 *)edge->argument ^ *(u64 *)(edge->argument + 12);
}
u64 equal_by_memcmp(struct edge *edge, u64 length) {
    edge->argument[0] = edge->argument[8];
    return memcmp(edge->argument, edge->argument + 8, 1) == 0 && memcmp(edge->argument, edge->argument + 4, 4) > 0;
}
static struct point sum_of(struct point one, struct point other) { return (struct point){one.x + other.x, one.y + other.y, one.z + other.z}; }
u64 points(struct edge *edge, u64 length) {
    struct point one = {edge->source, -(s32)edge->target, 3}, other = {edge->place, edge->degree, -9};
    struct point sum = sum_of(one, other);
    return (u64)((s64)sum.x * sum.y + sum.z);
}
u64 array_of_constants(struct edge *edge, u64 length) {
    u32 weights[4] = {3, 1, 4, 1};
    u64 sum = 0;
    for (int i = 0; i < 4; i++) sum += weights[i] * (u64)edge->argument[i];
    return sum;
}
u64 long_array_of_constants(struct edge *edge, u64 length) {
    static const u8 weights[16] = {3, 1, 4, 1, 5, 9, 2, 6, 5, 3, 5, 8, 9, 7, 9, 3};
    u64 sum = 0;
    for (int i = 0; i < 16; i++) sum += weights[i] * (u64)edge->argument[i];
    return sum;
}
// refused: uses constant data
u64 table_by_index(struct edge *edge, u64 length) {
    static const u8 table[8] = {3, 1, 4, 1, 5, 9, 2, 6};
    return table[edge->target & 7];
}
// refused: cause 10
u64 local_array_by_index(struct edge *edge, u64 length) {
    u8 table[8];
    for (int i = 0; i < 8; i++) table[i] = edge->argument[i] ^ i;
    return table[edge->target & 7];
}
u64 array_in_record(struct edge *edge, u64 length) {
    u8 *table = SCRATCH(edge, u8);
    for (int i = 0; i < 8; i++) table[i] ^= i;
    return table[edge->target & 7];
}
u64 matrix(struct edge *edge, u64 length) {
    u8(*cells)[4] = (u8(*)[4])edge->argument;
    u64 trace = 0;
    for (int i = 0; i < 4; i++) trace += cells[i][i];
    return trace * 256 + cells[edge->source & 3][edge->target & 3];
}
u64 matrix_product(struct edge *edge, u64 length) {
    u32 product[2][2];
    u8(*one)[2] = (u8(*)[2])edge->argument, (*other)[2] = (u8(*)[2])(edge->argument + 4);
    for (int i = 0; i < 2; i++)
        for (int j = 0; j < 2; j++) {
            product[i][j] = 0;
            for (int k = 0; k < 2; k++) product[i][j] += one[i][k] * other[k][j];
        }
    return product[0][0] * 7ULL + product[0][1] * 5 + product[1][0] * 3 + product[1][1];
}
u64 ring_buffer(struct edge *edge, u64 length) {
    u32 *ring = SCRATCH(edge, u32);
    u32 head = 0;
    for (u32 i = 0; i < 20; i++) {
        u64 word = neighbour(edge->source, i);
        if (word == NO_NEIGHBOUR) break;
        ring[head++ & 7] = word;
    }
    return ring[head & 7] ^ ring[(head + 3) & 7];
}
u64 stack_of_vertices(struct edge *edge, u64 length) {
    u32 *stack = SCRATCH(edge, u32);
    u32 top = 0;
    u64 visited = 0;
    stack[top++] = edge->target;
    for (int step = 0; step < 6; step++) {
        if (top == 0) break;
        u32 vertex = stack[--top & 7];
        visited = visited * 31 + vertex;
        for (u32 i = 0; i < 2; i++) {
            u64 word = neighbour(vertex, i);
            if (word != NO_NEIGHBOUR && top < 8) stack[top++ & 7] = word;
        }
    }
    return visited;
}
union word { u64 whole; u32 halves[2]; u8 bytes[8]; };
u64 union_of_bytes(struct edge *edge, u64 length) {
    union word word = {.halves = {edge->source, edge->target}};
    return word.bytes[0] + word.bytes[4] * 256ULL + (word.whole >> 60);
}
u64 bit_fields(struct edge *edge, u64 length) {
    struct { u32 low : 5, middle : 11, high : 16; } fields = {edge->source, edge->target, edge->degree};
    return fields.low * 3 + fields.middle * 5 + fields.high * 7;
}
u64 best_of_struct(struct edge *edge, u64 length) {
    struct { u64 vertex, weight; } best = {NO_NEIGHBOUR, 0};
    for (u32 i = 0; i < 10; i++) {
        u64 word = neighbour(edge->target, i);
        if (word == NO_NEIGHBOUR) break;
        u64 weight = degree(word) * 100 + i;
        if (weight > best.weight) best.vertex = word, best.weight = weight;
    }
    return best.vertex + best.weight;
}
