// Small programs over the record of an edge, compiled to BPF by clang, and natively for the numbers that
// they give. Each takes the record's address and its length.

typedef unsigned char u8;
typedef unsigned short u16;
typedef unsigned int u32;
typedef unsigned long long u64;
typedef signed char s8;
typedef short s16;
typedef int s32;
typedef long long s64;

struct edge {
    u32 source, target, place, degree;
    u8 argument[];
};

// The helpers, by their numbers: what a program asks of the graph that it runs on. `native.c` has its own.
#ifdef __bpf__
static u64 (*const degree)(u64 vertex) = (void *)1;
static u64 (*const has_edge)(u64 source, u64 target) = (void *)2;
static u64 (*const neighbour)(u64 vertex, u64 place) = (void *)3;
static u64 (*const vertex_count)(void) = (void *)4;
static u64 (*const gather)(u64 vertex, u64 first, void *words, u64 room) = (void *)5;
static u64 (*const no_helper)(u64 vertex) = (void *)6;
#else
static u64 degree(u64 vertex);
static u64 has_edge(u64 source, u64 target);
static u64 neighbour(u64 vertex, u64 place);
static u64 vertex_count(void);
static u64 gather(u64 vertex, u64 first, void *words, u64 room);
static u64 no_helper(u64 vertex);
#endif

// What neighbour answers where there is none, and what gather writes there.
#define NO_NEIGHBOUR 0xffffffffffffffffULL
#define NO_WORD 0xffffffffu

// A hash of the two vertices: multiplications, shifts, exclusive ors and wide constants.
u64 pair_hash(struct edge *e, u64 length)
{
    u64 x = ((u64)e->source << 32 | e->target) + 0x9e3779b97f4a7c15ULL;
    x = (x ^ (x >> 30)) * 0xbf58476d1ce4e5b9ULL;
    x = (x ^ (x >> 27)) * 0x94d049bb133111ebULL;
    return x ^ (x >> 31);
}

// A hash of 32 bits, with rotations.
u64 short_hash(struct edge *e, u64 length)
{
    u32 h = 0x2a;
    u32 k = e->source * 0xcc9e2d51u;
    h ^= (k << 15 | k >> 17) * 0x1b873593u;
    h = (h << 13 | h >> 19) * 5 + 0xe6546b64u;
    k = e->target * 0xcc9e2d51u;
    h ^= (k << 15 | k >> 17) * 0x1b873593u;
    h = (h ^ h >> 16) * 0x85ebca6bu;
    return h ^ h >> 13;
}

// The weight of an edge: the first argument byte chooses one of the next eight by the target's remainder.
u64 weight(struct edge *e, u64 length)
{
    u32 kinds = e->argument[0];
    if (kinds > 8)
        kinds = 8;
    u32 kind = e->target % 7;
    if (kind >= kinds)
        return 1;
    return (u64)e->argument[1 + kind] * e->degree;
}

// The target, where the source's degree is even; else 0.
u64 even_degree(struct edge *e, u64 length)
{
    return (e->degree & 1) == 0 && e->source != e->target ? e->target : 0;
}

// The distance of the two vertices, between two bounds of two bytes.
u64 clamp(struct edge *e, u64 length)
{
    u32 low = e->argument[0] | e->argument[1] << 8;
    u32 high = e->argument[2] | e->argument[3] << 8;
    u32 distance = e->source > e->target ? e->source - e->target : e->target - e->source;
    if (distance < low)
        return low;
    return distance > high ? high : distance;
}

// Division and remainder with a sign, in 32 and in 64 bits.
u64 signed_parts(struct edge *e, u64 length)
{
    s32 difference = (s32)e->source - (s32)e->target;
    s64 wide = (s64)difference * 1000003;
    return (u64)(difference / 7) * 5 + (u64)(difference % 5) + (u64)(wide / -11) + (u64)(wide % 13);
}

// Division and remainder without a sign, by constants and by a byte.
u64 unsigned_parts(struct edge *e, u64 length)
{
    u64 both = (u64)e->target << 20 | e->source;
    u32 divisor = e->argument[0];
    if (divisor == 0)
        return both / 1000 + both % 77;
    return both / divisor * 3 + e->target % divisor;
}

// How many bits are set in the two vertices.
u64 bits_set(struct edge *e, u64 length)
{
    u64 x = (u64)e->source << 32 | e->target;
    x = x - (x >> 1 & 0x5555555555555555ULL);
    x = (x & 0x3333333333333333ULL) + (x >> 2 & 0x3333333333333333ULL);
    x = (x + (x >> 4)) & 0x0f0f0f0f0f0f0f0fULL;
    return x * 0x0101010101010101ULL >> 56;
}

// Bytes in reverse order, of 16, 32 and 64 bits.
u64 swapped(struct edge *e, u64 length)
{
    u64 x = (u64)e->source << 17 ^ e->target;
    return __builtin_bswap64(x) ^ __builtin_bswap32(e->target) ^ __builtin_bswap16(e->source);
}

// What the first argument byte chooses.
u64 chosen(struct edge *e, u64 length)
{
    switch (e->argument[0]) {
    case 0: return e->source + (u64)e->target;
    case 1: return e->source ^ e->target;
    case 2: return e->source | e->target;
    case 3: return (u64)e->source * e->target;
    case 7: return ~(u64)e->place;
    case 200: return -(u64)e->degree;
    default: return e->argument[0];
    }
}

// Numbers with a sign: of a byte, of two and of four of the argument.
u64 signed_argument(struct edge *e, u64 length)
{
    s8 byte = (s8)e->argument[0];
    s16 half = (s16)(e->argument[2] | e->argument[3] << 8);
    s32 word = *(s32 *)&e->argument[4];
    s64 score = (s64)byte * e->target + half;
    if (score < word)
        score = word;
    return (u64)(score >> 3);
}

// Sign extensions of numbers that were computed.
u64 signed_sums(struct edge *e, u64 length)
{
    s8 byte = (s8)(e->source + e->target);
    s16 half = (s16)(e->source * e->target);
    s64 word = (s32)(e->source * 0x9e3779b1u);
    return (u64)(byte * (s64)half + (word >> 5));
}

// Sums that go over the stack.
u64 over_stack(struct edge *e, u64 length)
{
    volatile u64 parts[4];
    volatile u32 low = e->place;
    volatile u8 byte = (u8)e->degree;
    parts[0] = e->source;
    parts[1] = parts[0] * 3 + e->target;
    parts[2] = parts[1] ^ parts[0];
    parts[3] = parts[2] - low;
    return parts[3] * 31 + parts[2] + byte;
}

// The middle one of five argument bytes, each with something of the edge: more values than registers.
u64 middle(struct edge *e, u64 length)
{
    u32 a = e->argument[0] ^ e->source, b = e->argument[1] ^ e->target, c = e->argument[2] + e->place;
    u32 d = e->argument[3] * e->degree, f = e->argument[4], t;
#define ORDER(x, y) if (x > y) { t = x; x = y; y = t; }
    ORDER(a, b) ORDER(c, d) ORDER(a, c) ORDER(b, d) ORDER(b, f) ORDER(c, f) ORDER(b, c)
#undef ORDER
    return c;
}

// The sum of ten products of eleven values that are all alive at once.
u64 many_values(struct edge *e, u64 length)
{
    u64 a = e->argument[0], b = e->argument[1], c = e->argument[2], d = e->argument[3], f = e->argument[4];
    u64 g = e->argument[5], h = e->argument[6], i = e->argument[7];
    u64 s = e->source, t = e->target, p = e->place, n = e->degree;
    u64 x = a * t + b, y = c * s + d, z = f * p + g, w = h * n + i;
    __asm__ volatile("" : "+r"(a), "+r"(b), "+r"(c), "+r"(d), "+r"(f), "+r"(g));
    return x * a + y * b + z * c + w * d + (x ^ y) * f + (z ^ w) * g + (x & w) * h + (y | z) * i + s * t + p * n;
}

// A part of the record is written, and read again.
u64 written_record(struct edge *e, u64 length)
{
    volatile struct edge *v = e;
    v->place = e->source * 7;
    v->argument[1] = (u8)(v->place >> 3);
    *(volatile u16 *)&v->argument[2] = (u16)(e->target + 1);
    return (u64)v->place << 24 | (u64)*(volatile u32 *)&v->argument[0];
}

// ---- programs of several functions

// The functions of a program stand in its own section, so the compiler itself says how far each call goes. A call
// goes to a function above it: the program comes first, and its functions behind those that call them.
#define PROGRAM(name) __attribute__((section(".text." #name)))
#define FUNCTION(name) static __attribute__((noinline, section(".text." #name)))

// Three functions, one inside another: each is called twice, and the callers' values live on in r6 to r9.
FUNCTION(nested) u64 nested_outer(u64 x, u64 y);
FUNCTION(nested) u64 nested_inner(u64 x);

PROGRAM(nested) u64 nested(struct edge *e, u64 length)
{
    u64 first = nested_outer(e->source, e->target);
    u64 second = nested_outer(e->target, first);
    return first ^ second * e->degree;
}

FUNCTION(nested) u64 nested_outer(u64 x, u64 y)
{
    return nested_inner(x) + 3 * nested_inner(y ^ 0x55);
}

FUNCTION(nested) u64 nested_inner(u64 x)
{
    x *= 0x9e3779b97f4a7c15ULL;
    return x ^ x >> 29;
}

// The record is passed to a function, and the function changes it.
FUNCTION(lent) u64 lent_weight(struct edge *e, u64 factor, u64 a, u64 b, u64 c);

PROGRAM(lent) u64 lent(struct edge *e, u64 length)
{
    e->place += 5;
    u64 sum = lent_weight(e, 3, e->source, e->target, length);
    return sum * 10 + e->place;
}

FUNCTION(lent) u64 lent_weight(struct edge *e, u64 factor, u64 a, u64 b, u64 c)
{
    e->place = e->place * factor + e->argument[3];
    return a * factor + b * c + (u64)e->argument[0] * e->degree;
}

// A caller and its function both have values on their stacks, and the function is entered again: each time in the
// same frame. One of the calls is made on one way alone.
FUNCTION(framed) u64 framed_sum(u64 x, u64 y);

PROGRAM(framed) u64 framed(struct edge *e, u64 length)
{
    volatile u64 parts[3];
    parts[0] = framed_sum(e->source, e->place);
    parts[1] = framed_sum(e->target, e->degree);
    parts[2] = parts[0] ^ parts[1];
    if (e->target > 300)
        parts[2] += framed_sum(parts[0], parts[1]);
    return parts[2] * 7 + parts[1] - parts[0];
}

FUNCTION(framed) u64 framed_sum(u64 x, u64 y)
{
    volatile u64 kept[2];
    kept[0] = x * 5;
    kept[1] = y ^ kept[0];
    return kept[0] + (kept[1] >> 2);
}

// ---- programs that ask the graph

// Whether the target has an edge back to the source.
u64 mutual(struct edge *e, u64 length)
{
    return has_edge(e->target, e->source);
}

// The degrees of the target's first four neighbours, each times a byte of the argument: gathered into the stack.
u64 neighbour_score(struct edge *e, u64 length)
{
    u32 words[4];
    gather(e->target, 0, words, sizeof words);
    u64 score = 0;
#pragma clang loop unroll(full)
    for (u32 k = 0; k < 4; k++)
        score += e->argument[k] * degree(words[k]);
    return score;
}

// Where three steps from the target lead, each to the neighbour at the place that the argument says. From no vertex
// no step leads to one.
u64 walk(struct edge *e, u64 length)
{
    u64 first = neighbour(e->target, e->argument[0]);
    u64 second = neighbour(first, e->argument[1]);
    return neighbour(second, e->argument[2]);
}

// The same, where each place counts round the neighbours, and the walk ends early at a vertex without one.
u64 three_steps(struct edge *e, u64 length)
{
    u64 vertex = e->target;
#pragma clang loop unroll(full)
    for (u32 step = 0; step < 3; step++) {
        u64 choices = degree(vertex);
        if (choices == 0)
            break;
        vertex = neighbour(vertex, e->argument[step] % choices);
    }
    return vertex;
}

// How many of the source's first six neighbours are neighbours of the target, too.
u64 triangles(struct edge *e, u64 length)
{
    u32 words[6];
    gather(e->source, 0, words, sizeof words);
    u64 count = 0;
#pragma clang loop unroll(full)
    for (u32 k = 0; k < 6; k++)
        if (words[k] != NO_WORD)
            count += has_edge(e->target, words[k]);
    return count;
}

// The target's neighbours behind the first are gathered into the record, behind four bytes of the argument.
u64 gathered_record(struct edge *e, u64 length)
{
    u64 count = gather(e->target, 1, e->argument + 4, 12);
    u64 sum = e->argument[0];
    for (u32 k = 0; k < 3; k++)
        sum = sum * 31 + *(u32 *)&e->argument[4 + 4 * k];
    return sum * 4 + count;
}

// Vertices and places past 2^32 are not cut: none of them is in the graph. How far it is round all vertices.
u64 far_numbers(struct edge *e, u64 length)
{
    u64 wide = 0x100000000ULL;
    u64 far = degree(wide | e->source) + has_edge(e->source, wide | e->target);
    if (neighbour(e->source, wide | e->place) == NO_NEIGHBOUR)
        far += 1000;
    u64 count = vertex_count();
    return far * count + (e->target + count - e->source) % count;
}

// Each of its functions asks: what is known of the caller's values is as before the call.
FUNCTION(asking) u64 asking_weight(u64 vertex, u64 target);

PROGRAM(asking) u64 asking(struct edge *e, u64 length)
{
    u64 there = asking_weight(e->source, e->target);
    u64 back = asking_weight(e->target, e->source);
    return there * 100 + back * e->degree;
}

FUNCTION(asking) u64 asking_weight(u64 vertex, u64 target)
{
    u64 edge = has_edge(vertex, target);
    return edge * degree(target) + degree(vertex);
}

// ---- refused

// The room is one of two: none that is known.
u64 chosen_room(struct edge *e, u64 length)
{
    u32 words[2];
    words[1] = 7;
    gather(e->target, 0, words, e->place > 3 ? 8 : 4);
    return words[1];
}

// A pointer is no vertex.
u64 pointer_vertex(struct edge *e, u64 length)
{
    return degree((u64)e);
}

// The room is larger than what is left of the record.
u64 wide_gather(struct edge *e, u64 length)
{
    return gather(e->target, 0, e->argument, 16);
}

// There is no helper of that number.
u64 sixth_helper(struct edge *e, u64 length)
{
    return no_helper(e->source);
}

// A caller lends a place of its stack.
FUNCTION(lent_stack) u64 lent_stack_read(volatile u64 *place);

PROGRAM(lent_stack) u64 lent_stack(struct edge *e, u64 length)
{
    volatile u64 kept = e->source;
    return lent_stack_read(&kept);
}

FUNCTION(lent_stack) u64 lent_stack_read(volatile u64 *place)
{
    return *place + 1;
}

// An array of a caller is handed down two levels, and changed there.
FUNCTION(lent_array) u64 lent_array_sort(u32 *words);
FUNCTION(lent_array) u64 lent_array_order(u32 *words);

PROGRAM(lent_array) u64 lent_array(struct edge *e, u64 length)
{
    u32 words[3] = { e->source, e->target, e->degree };
    u64 moved = lent_array_sort(words);
    return (words[0] * 3ULL + words[1]) * 5 + words[2] * 7ULL + moved;
}

FUNCTION(lent_array) u64 lent_array_sort(u32 *words)
{
    return lent_array_order(words) + lent_array_order(words + 1) * 2 + lent_array_order(words) * 4;
}

FUNCTION(lent_array) u64 lent_array_order(u32 *words)
{
    u32 first = words[0], second = words[1];
    words[0] = first < second ? first : second;
    words[1] = first < second ? second : first;
    return first > second;
}

// A function fills a struct of its caller, with an address of the record in it, and changes it by a function of its own.
struct kept { struct edge *edge; u64 sum; u32 low, high; };
FUNCTION(lent_struct) u64 lent_struct_fill(struct kept *kept, struct edge *e);
FUNCTION(lent_struct) u64 lent_struct_add(u64 *sum, u64 number);

PROGRAM(lent_struct) u64 lent_struct(struct edge *e, u64 length)
{
    struct kept kept;
    u64 added = lent_struct_fill(&kept, e);
    return kept.edge->place * 1000ULL + kept.sum * 10 + kept.high - kept.low + added + kept.edge->argument[1];
}

FUNCTION(lent_struct) u64 lent_struct_fill(struct kept *kept, struct edge *e)
{
    u64 own = e->degree;
    kept->edge = e;
    kept->sum = e->source;
    kept->low = e->source < e->target ? e->source : e->target;
    kept->high = e->source < e->target ? e->target : e->source;
    return lent_struct_add(&kept->sum, e->target) + lent_struct_add(&own, kept->low) + own;
}

FUNCTION(lent_struct) u64 lent_struct_add(u64 *sum, u64 number)
{
    *sum += number * 3;
    return *sum >> 2;
}

// The neighbours that a function gathers into its caller's stack.
FUNCTION(lent_words) u64 lent_words_gather(u32 *words, u64 vertex);

PROGRAM(lent_words) u64 lent_words(struct edge *e, u64 length)
{
    u32 words[3];
    u64 count = lent_words_gather(words, e->target);
    return count + words[0] * 3ULL + words[1] * 5ULL + words[2] * 7ULL;
}

FUNCTION(lent_words) u64 lent_words_gather(u32 *words, u64 vertex)
{
    return gather(vertex, 0, words, 12);
}

// The argument byte at the target: it may lie behind the record.
u64 any_byte(struct edge *e, u64 length)
{
    return e->argument[e->target];
}

// A byte of the stack at a place that is not known.
u64 stack_table(struct edge *e, u64 length)
{
    volatile u8 table[8];
    table[0] = 3; table[1] = 1; table[2] = 4; table[3] = 1;
    table[4] = 5; table[5] = 9; table[6] = 2; table[7] = 6;
    return table[e->target & 7];
}

// A loop that the compiler leaves as one.
u64 loop(struct edge *e, u64 length)
{
    u64 sum = 0;
#pragma clang loop unroll(disable) vectorize(disable)
    for (u32 i = 0; i < 4; i++)
        sum = sum * 31 + e->argument[i];
    return sum;
}

// A caller lends bytes of its stack, of which the function reads one that was never set.
FUNCTION(lent_unset) u64 lent_unset_read(volatile u8 *bytes);

PROGRAM(lent_unset) u64 lent_unset(struct edge *e, u64 length)
{
    volatile u8 bytes[2];
    bytes[0] = e->source;
    return lent_unset_read(bytes);
}

FUNCTION(lent_unset) u64 lent_unset_read(volatile u8 *bytes)
{
    return bytes[0] + bytes[1];
}
