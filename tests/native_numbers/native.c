// Runs the functions of programs.c over a small graph, and writes for each the lines that a script has to
// write: what a run sums up, or its least or greatest number, of all edges and of each vertex.

#include <inttypes.h>
#include <stdio.h>
#include <string.h>
#include "programs.c"

typedef u64 program(struct edge *, u64);

enum { SOURCES = 4 };

// Each vertex with an edge, how many, and their targets. They ascend.
static const struct { u32 source, degree, targets[4]; } graph[SOURCES] = {
    { 0, 4, { 1, 255, 65535, 69999 } },
    { 255, 3, { 0, 4660, 65535 } },
    { 4660, 1, { 255 } },
    { 69999, 2, { 1, 69999 } },
};

// How many vertices the graph has.
enum { VERTICES = 70000 };

static u64 degree(u64 vertex)
{
    for (int s = 0; s < SOURCES; s++)
        if (graph[s].source == vertex)
            return graph[s].degree;
    return 0;
}

static u64 neighbour(u64 vertex, u64 place)
{
    for (int s = 0; s < SOURCES; s++)
        if (graph[s].source == vertex && place < graph[s].degree)
            return graph[s].targets[place];
    return NO_NEIGHBOUR;
}

static u64 has_edge(u64 source, u64 target)
{
    for (u64 place = 0; place < degree(source); place++)
        if (neighbour(source, place) == target)
            return 1;
    return 0;
}

static u64 vertex_count(void)
{
    return VERTICES;
}

static u64 gather(u64 vertex, u64 first, void *words, u64 room)
{
    u64 count = 0;
    for (u64 k = 0; k < room / 4; k++) {
        u64 found = neighbour(vertex, first + k);
        u32 word = found == NO_NEIGHBOUR ? NO_WORD : (u32)found;
        memcpy((u8 *)words + 4 * k, &word, 4);
        count += found != NO_NEIGHBOUR;
    }
    return count;
}

// It is called by a program that is refused.
static u64 no_helper(u64 vertex)
{
    return 0;
}

static u64 reduced(const char *reducer, u64 sofar, u64 next)
{
    if (strcmp(reducer, "sum") == 0)
        return sofar + next;
    if (strcmp(reducer, "min") == 0)
        return next < sofar ? next : sofar;
    return next > sofar ? next : sofar;
}

static void run(const char *name, program *f, const char *reducer, const char *argument)
{
    u64 none = strcmp(reducer, "min") == 0 ? ~0ULL : 0, total = none, rows[SOURCES], edges = 0;
    for (int s = 0; s < SOURCES; s++) {
        rows[s] = none;
        for (u32 place = 0; place < graph[s].degree; place++) {
            union { struct edge edge; u8 bytes[256]; } record = { .edge = {
                graph[s].source, graph[s].targets[place], place, graph[s].degree } };
            u64 length = 16;
            unsigned byte;
            for (const char *hex = argument; sscanf(hex, "%2x", &byte) == 1; hex += 2)
                record.bytes[length++] = byte;
            u64 number = f(&record.edge, length);
            rows[s] = reduced(reducer, rows[s], number);
            total = reduced(reducer, total, number);
            edges++;
        }
    }
    printf("%s|run %s a %s %s|run %s a edges %" PRIu64 " total %" PRIu64 "/", name, name, reducer, argument, name,
           (uint64_t)edges, (uint64_t)total);
    for (int s = 0; s < SOURCES; s++)
        printf("row %u %" PRIu64 "/", graph[s].source, (uint64_t)rows[s]);
    printf("\n");
}

int main(void)
{
#define RUN(f, reducer, argument) run(#f, f, reducer, argument);
#define PLAIN(f) RUN(f, "sum", "-") RUN(f, "min", "-") RUN(f, "max", "-")
    PLAIN(pair_hash)
    PLAIN(short_hash)
    RUN(weight, "sum", "0503070b0d111317")
    RUN(weight, "max", "ff03070b0d1113ff")
    RUN(weight, "min", "0003070b0d111317")
    PLAIN(even_degree)
    RUN(clamp, "sum", "00010020")
    RUN(clamp, "min", "e8030000")
    RUN(clamp, "max", "0000ffff")
    PLAIN(signed_parts)
    RUN(unsigned_parts, "sum", "00")
    RUN(unsigned_parts, "max", "07")
    RUN(unsigned_parts, "min", "ff")
    PLAIN(bits_set)
    PLAIN(swapped)
    RUN(chosen, "sum", "00")
    RUN(chosen, "max", "01")
    RUN(chosen, "min", "02")
    RUN(chosen, "sum", "03")
    RUN(chosen, "sum", "07")
    RUN(chosen, "min", "c8")
    RUN(chosen, "sum", "04")
    RUN(signed_argument, "sum", "ff00ffff00000080")
    RUN(signed_argument, "min", "7f000080ffffff7f")
    RUN(signed_argument, "max", "8000ff7f00000080")
    PLAIN(signed_sums)
    PLAIN(over_stack)
    RUN(middle, "sum", "0011223344")
    RUN(middle, "max", "ff8040fe01")
    RUN(middle, "min", "01ffffff80")
    RUN(many_values, "sum", "0102030405060708")
    RUN(many_values, "min", "fffefdfcfbfaf9f8")
    RUN(many_values, "max", "00ff00ff00ff00ff")
    RUN(written_record, "sum", "00000000")
    RUN(written_record, "max", "ff112233")
    PLAIN(nested)
    RUN(lent, "sum", "07000009")
    RUN(lent, "max", "ff0000ff")
    RUN(lent, "min", "00000000")
    PLAIN(framed)
    PLAIN(mutual)
    RUN(neighbour_score, "sum", "04030201")
    RUN(neighbour_score, "max", "01ff00fe")
    RUN(walk, "min", "000000")
    RUN(walk, "sum", "010001")
    RUN(walk, "max", "020100")
    RUN(three_steps, "sum", "000000")
    RUN(three_steps, "max", "010203")
    RUN(three_steps, "min", "020001")
    PLAIN(triangles)
    RUN(gathered_record, "sum", "05000000000000000000000000000000")
    RUN(gathered_record, "max", "ff0102030405060708090a0b0c0d0e0f")
    PLAIN(far_numbers)
    PLAIN(asking)
    PLAIN(lent_stack)
    PLAIN(lent_array)
    RUN(lent_struct, "sum", "0709")
    RUN(lent_struct, "max", "ff80")
    PLAIN(lent_words)
}
