/* What a program for edgebpf uses: the record of its edge, the helpers by which it asks the graph, and some functions.
   A program is a function of the record and its length that returns a u64:

       #include <edgebpf.h>
       u64 score(struct edge *edge, u64 length) { return edge->degree + degree(edge->target); }

   It may write its record, and each function has 512 bytes of stack. It has no globals and no loops that run at run time:
   loops are unrolled. It calls static functions and the helpers below. Compiled for another machine, the helpers are
   functions that the file is linked with, so a program can be tested natively. */
#ifndef EDGEBPF_PROGRAM_H
#define EDGEBPF_PROGRAM_H

typedef unsigned char u8;
typedef unsigned short u16;
typedef unsigned int u32;
typedef unsigned long long u64;
typedef signed char s8;
typedef short s16;
typedef int s32;
typedef long long s64;

/* The record of a run. `place` is the target's index among the source's neighbours, from 0, and `degree` is the number of
   neighbours of the source. The argument is the rest of the record: its length less 16 bytes. */
struct edge {
    u32 source, target, place, degree;
    u8 argument[];
};

/* A program whose runs are lent columns has a record of its own: the edge's four numbers, then the argument, if there is one, and then of
   each column the number of the edge's source and that of its target:

       struct scored { struct edge_start edge; u64 least; struct edge_ends risk, land; };
       u64 score(struct scored *it, u64 length) { return it->risk.target < it->least ? 0 : it->risk.target; } */
struct edge_start {
    u32 source, target, place, degree;
};

struct edge_ends {
    u64 source, target;
};

/* A const object marked TABLE, of 1 to 4,096 bytes, is the table of a program: all its runs read it, and none writes it. The
   function gets its address as its third parameter, and reads it by that alone:

       TABLE static const u32 weights[256] = {3, 1, 4, 1, 5};
       u64 weight(struct edge *edge, u64 length, const u32 *table) { return table[edge->target & 255]; } */
#ifdef __bpf__
#define TABLE __attribute__((used, section(".edgebpf_table")))
#else
#define TABLE __attribute__((unused))
#endif

/* A graph does not change during a run, so equal questions have equal answers: clang asks once and may ask early. */
#define EDGEBPF_CONST __attribute__((const))
#ifdef __bpf__
#define EDGEBPF_HELPER(number, name, parameters, ...) \
    static u64 (*const name) parameters __VA_ARGS__ __attribute__((unused)) = (void *)(number)
#else
#define EDGEBPF_HELPER(number, name, parameters, ...) u64 name parameters __VA_ARGS__
#endif

/* The number of neighbours of a vertex: 0 if the number is no vertex. */
EDGEBPF_HELPER(1, degree, (u64 vertex), EDGEBPF_CONST);
/* 1 if there is an edge from the source to the target, else 0. */
EDGEBPF_HELPER(2, has_edge, (u64 source, u64 target), EDGEBPF_CONST);
/* The neighbour at a place, from 0, in ascending order; NO_NEIGHBOUR if there is none. */
EDGEBPF_HELPER(3, neighbour, (u64 vertex, u64 place), EDGEBPF_CONST);
/* The number of vertices of the graph. */
EDGEBPF_HELPER(4, vertex_count, (void), EDGEBPF_CONST);
/* Fills `words`, of a constant number of bytes that is a multiple of 4 from 4 to 256, with the neighbours from a place on, as
   u32, and with NO_WORD after the last one. Returns how many of the words are neighbours. */
EDGEBPF_HELPER(5, gather, (u64 vertex, u64 first, void *words, u64 bytes));

#define NO_NEIGHBOUR 0xffffffffffffffffULL
#define NO_WORD 0xffffffffu

/* A function that is called in a frame of its own, and is not copied to where it is called. It may take addresses of the caller's
   variables. */
#define FUNCTION static __attribute__((noinline, unused))
/* A function that is always copied to where it is called. */
#define INLINE static inline __attribute__((always_inline, unused))

/* Before a loop: unroll it. Its number of rounds has to be at most a constant, `rounds`. */
#define EDGEBPF_PRAGMA(words) _Pragma(#words)
#define EDGEBPF_UNROLL(rounds) EDGEBPF_PRAGMA(clang loop unroll(enable))

/* A number of which the compiler knows nothing more than that it is this one. */
INLINE u64 opaque(u64 number) {
    __asm__ volatile("" : "+r"(number));
    return number;
}

/* An index that the verifier follows: `number` where it is at most the constant `most`, else `most`. */
INLINE u64 at_most(u64 number, u64 most) {
    number = opaque(number);
    if (number > most) number = most;
    return opaque(number);
}

/* The argument as memory for intermediate values, of a type: the record may be indexed by a variable, and local arrays may
   not. Each edge starts with the run's argument again. */
#define SCRATCH(edge, type) ((type *)(edge)->argument)

/* Sums, differences and products that stop at the ends of u64. */
INLINE u64 add_saturated(u64 left, u64 right) { return left + right < left ? ~0ULL : left + right; }
INLINE u64 sub_saturated(u64 left, u64 right) { return left < right ? 0 : left - right; }
INLINE u64 mul_saturated(u64 left, u64 right) {
    /* Without `opaque` clang would multiply in 128 bits, which BPF does not have. */
    return left && right > opaque(~0ULL / left) ? ~0ULL : left * right;
}
INLINE u64 smaller(u64 left, u64 right) { return left < right ? left : right; }
INLINE u64 larger(u64 left, u64 right) { return left < right ? right : left; }

/* clang would look these up in a table. */
INLINE u64 lowest_bit(u64 number) { return __builtin_popcountll(opaque(number & -number) - 1); }
#define __builtin_ctz(number) ((int)lowest_bit((u32)(number)))
#define __builtin_ctzl(number) ((int)lowest_bit(number))
#define __builtin_ctzll(number) ((int)lowest_bit(number))

/* Copies and comparisons of a constant number of bytes. A file that includes <string.h> for a native test does so before this one. */
#define memcpy __builtin_memcpy
#define memmove __builtin_memmove
#define memset __builtin_memset
INLINE int compare_bytes(const void *left, const void *right, __SIZE_TYPE__ bytes) {
    for (u64 at = 0; at < bytes; at++) {
        int gap = ((const u8 *)left)[at] - ((const u8 *)right)[at];
        if (gap) return gap;
    }
    return 0;
}
#define memcmp compare_bytes
#define __builtin_memcmp compare_bytes

/* Hashes: of a number, and of two in their order. */
INLINE u64 hash(u64 number) {
    number = (number ^ number >> 32) * 0xd6e8feb86659fd93ULL;
    number = (number ^ number >> 32) * 0xd6e8feb86659fd93ULL;
    return number ^ number >> 32;
}
INLINE u64 hash_pair(u64 first, u64 second) { return hash(hash(first + 0x9e3779b97f4a7c15ULL) ^ second); }

/* Goes over the neighbours of a vertex, in ascending order. It is written like the head of a function, and its body returns
   the new total:

       for_each_neighbour(strong, word, total, least) { return total + (degree(word) >= least); }

   This makes the function u64 strong(u64 vertex, u64 total, u64 least), which returns the last total. for_each_neighbour goes
   over the first MOST_NEIGHBOURS, as a tree of functions, which ends early; for_1024_neighbours and for_64_neighbours go over
   the first so many, with a smaller bound and less code. All three DROP the other neighbours, and the total does not say so.
   for_1024_neighbours_or and for_64_neighbours_or return a number `otherwise` for a vertex that has more, and go over none:

       for_64_neighbours_or(strong, ~0ULL, word, total, least) { return total + (degree(word) >= least); }

   for_each_neighbour and for_1024_neighbours have a form that stops after the 64 neighbours with which the total has reached a
   limit. The limit and `otherwise` may name what is given. */
#define MOST_NEIGHBOURS 65536
#define for_each_neighbour(name, word, total, given) for_each_neighbour_until(name, NEVER, word, total, given)
#define for_1024_neighbours(name, word, total, given) for_1024_neighbours_until(name, NEVER, word, total, given)

#define for_each_neighbour_until(name, limit, word, total, given) \
    EDGEBPF_64(name, name##_of_64, word, total, given) \
    EDGEBPF_1024(name, limit, total, given) \
    FUNCTION u64 name(u64 edgebpf_vertex, u64 total, u64 given) { \
        u64 edgebpf_count = degree(edgebpf_vertex); \
        EDGEBPF_UNROLL(64) for (u32 edgebpf_at = 0; edgebpf_at < 64; edgebpf_at++) { \
            if (1024 * edgebpf_at >= edgebpf_count || EDGEBPF_REACHED(limit, total)) break; \
            total = name##_of_1024(edgebpf_vertex, 1024 * edgebpf_at, edgebpf_count, total, given); \
        } \
        return total; \
    } \
    EDGEBPF_STEP(name, word, total, given)
#define for_1024_neighbours_until(name, limit, word, total, given) \
    EDGEBPF_64(name, name##_of_64, word, total, given) \
    EDGEBPF_1024(name, limit, total, given) \
    INLINE u64 name(u64 edgebpf_vertex, u64 total, u64 given) { \
        return name##_of_1024(edgebpf_vertex, 0, degree(edgebpf_vertex), total, given); \
    } \
    EDGEBPF_STEP(name, word, total, given)
#define for_1024_neighbours_or(name, otherwise, word, total, given) \
    EDGEBPF_64(name, name##_of_64, word, total, given) \
    EDGEBPF_1024(name, NEVER, total, given) \
    INLINE u64 name(u64 edgebpf_vertex, u64 total, u64 given) { \
        u64 edgebpf_count = degree(edgebpf_vertex); \
        return edgebpf_count > 1024 ? (otherwise) : name##_of_1024(edgebpf_vertex, 0, edgebpf_count, total, given); \
    } \
    EDGEBPF_STEP(name, word, total, given)
#define for_64_neighbours(name, word, total, given) \
    EDGEBPF_64(name, name##_of_64, word, total, given) \
    INLINE u64 name(u64 edgebpf_vertex, u64 total, u64 given) { return name##_of_64(edgebpf_vertex, 0, total, given); } \
    EDGEBPF_STEP(name, word, total, given)
#define for_64_neighbours_or(name, otherwise, word, total, given) \
    EDGEBPF_64(name, name##_of_64, word, total, given) \
    INLINE u64 name(u64 edgebpf_vertex, u64 total, u64 given) { \
        return degree(edgebpf_vertex) > 64 ? (otherwise) : name##_of_64(edgebpf_vertex, 0, total, given); \
    } \
    EDGEBPF_STEP(name, word, total, given)

#define NEVER 0
#define EDGEBPF_REACHED(limit, total) ((limit) != NEVER && (total) >= (limit))
#define EDGEBPF_STEP(name, word, total, given) INLINE u64 name##_step(u64 word, u64 total, u64 given)
/* The parts of the tree: over 64 neighbours from a place on, and over 1,024 as 16 times 64. */
#define EDGEBPF_64(name, made, word, total, given) \
    EDGEBPF_STEP(name, word, total, given); \
    FUNCTION u64 made(u64 edgebpf_vertex, u64 edgebpf_first, u64 total, u64 given) { \
        u32 edgebpf_words[64]; \
        gather(edgebpf_vertex, edgebpf_first, edgebpf_words, sizeof edgebpf_words); \
        EDGEBPF_UNROLL(64) for (u32 edgebpf_at = 0; edgebpf_at < 64; edgebpf_at++) { \
            if (edgebpf_words[edgebpf_at] == NO_WORD) break; \
            total = name##_step(edgebpf_words[edgebpf_at], total, given); \
        } \
        return total; \
    }
#define EDGEBPF_1024(name, limit, total, given) \
    FUNCTION u64 name##_of_1024(u64 edgebpf_vertex, u64 edgebpf_first, u64 edgebpf_count, u64 total, u64 given) { \
        EDGEBPF_UNROLL(16) for (u32 edgebpf_at = 0; edgebpf_at < 16; edgebpf_at++) { \
            if (edgebpf_first + 64 * edgebpf_at >= edgebpf_count || EDGEBPF_REACHED(limit, total)) break; \
            total = name##_of_64(edgebpf_vertex, edgebpf_first + 64 * edgebpf_at, total, given); \
        } \
        return total; \
    }

/* How many neighbours two vertices have in common: of the one with fewer neighbours the first MOST_NEIGHBOURS are asked for. */
for_each_neighbour(common_of, word, total, other) { return total + has_edge(other, word); }
INLINE u64 common_neighbours(u64 one, u64 other) {
    u64 first = degree(one) <= degree(other) ? one : other;
    return common_of(first, 0, one ^ other ^ first);
}

/* `scale` times the share of common neighbours among all neighbours of two vertices, rounded down; 0 if there are none. */
INLINE u64 jaccard(u64 one, u64 other, u64 scale) {
    u64 common = common_neighbours(one, other), all = degree(one) + degree(other) - common;
    return all ? scale * common / all : 0;
}

#endif
