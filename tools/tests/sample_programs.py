"""Programs in C for the tests, and runs of some of them with what they have to write."""

GRAPH = "graph 4\nbatch A\n+ 0 1\n+ 0 2\n+ 1 2\nend\n"
SOURCE = """
#include <edgebpf.h>
u64 target(struct edge *edge, u64 length) { return edge->target; }
FUNCTION u64 twice(u64 x) { return 2 * x + degree(x); }
FUNCTION u64 both(u64 x) { return twice(x) + twice(x ^ 1); }
u64 nested(struct edge *edge, u64 length) { return both(edge->target) + twice(edge->source); }
u64 given(struct edge *edge, u64 length) { return edge->argument[0]; }
int narrow(struct edge *edge, u64 length) { return edge->place - 1; }
s64 negative(struct edge *edge, u64 length) { return -(s64)edge->place; }
void nothing(struct edge *edge, u64 length) { edge->place = 1; }
static const u64 table[8] = {1, 5, 7, 2, 9, 1, 44, 7};
u64 looked(struct edge *edge, u64 length) {
    return table[edge->place & 7]; }
u64 counter;
u64 counted(struct edge *edge, u64 length) { return counter + edge->place; }
extern u64 elsewhere(u64 x);
u64 outside(struct edge *edge, u64 length) { return 1 + elsewhere(edge->place); }
FUNCTION u64 even(u64 x);
FUNCTION u64 odd(u64 x) { return x == 0 ? 0 : 1 + even(x - 1); }
FUNCTION u64 even(u64 x) { return x == 0 ? 1 : 2 + odd(x - 1); }
u64 parity(struct edge *edge, u64 length) { return even(edge->place); }
u64 added(struct edge *edge, u64 length) { return __sync_fetch_and_add((u64 *)edge, 1); }
u64 by_pointer(struct edge *edge, u64 length) { return ((u64 (*)(u64))(u64)edge->place)(1); }
#define TWICE(x) x; x;
u64 large(struct edge *edge, u64 length) {
    volatile u32 *place = &edge->place;
    TWICE(TWICE(TWICE(TWICE(TWICE(TWICE(TWICE(TWICE(TWICE(TWICE(TWICE(TWICE(*place += 7))))))))))))
    return 0; }
u64 halved(struct edge *edge, u64 length) { u64 rounds = 0;
    for (u64 left = edge->source, right = edge->target; left < right; rounds++) if ((left + right) / 2 < 7) left = (left + right) / 2 + 1; else right = (left + right) / 2;
    return rounds; }
FUNCTION u64 raised(u64 *place) { return ++*place; }
u64 lending(struct edge *edge, u64 length) { u64 kept = edge->source;
    return raised(&kept); }
u64 any_byte(struct edge *edge, u64 length) { u32 place = edge->argument[0];
    return edge->argument[place]; }
u64 local_array(struct edge *edge, u64 length) { u8 bytes[8];
    for (int i = 0; i < 8; i++) bytes[i] = 3 * i + edge->source;
    return bytes[edge->place & 7]; }
u64 from_the_left(struct edge *edge, u64 length) { return edge->argument[length - 17]; }
u64 signed_place(struct edge *edge, u64 length) { int place = edge->place; return place < 0 || place >= 8 ? 1 : edge->argument[place]; }
u64 flagged_place(struct edge *edge, u64 length) { u8 place = sub_saturated(7, edge->degree); return place < 8 ? edge->argument[place] : 0; }
FUNCTION u64 summed(u64 *words) { words[0] += words[1]; return words[0]; }
u64 unset_word(struct edge *edge, u64 length) { u64 words[2]; words[0] = edge->source;
    return summed(words); }
__attribute__((naked, section("nothing_here"))) u64 bare(struct edge *edge, u64 length) {}
"""

# The words of edgebpf-c, and what it prints with `--on` the graph.
RUNS = {
    # The record's second word, over the edges 0-1, 0-2 and 1-2.
    "target": (
        ["target", "16"],
        "program target bound 2 frames 1\npin last version 1 edges 3\nrun target last edges 3 total 5\nrow 0 3\nrow 1 2\n",
    ),
    # twice(0) to twice(3) are 2, 3, 4 and 6: vertex 0 has two neighbours, vertex 1 has one. Edge 0-1 gives
    # both(1) + twice(0) = 5 + 2, edge 0-2 gives 10 + 2, edge 1-2 gives 10 + 3. clang 19 makes 8 instructions of nested, 8 of
    # both and 5 of twice: 8 + (8 + 5 + 5) + 5.
    "nested": (
        ["nested", "16"],
        "program nested bound 31 frames 3\npin last version 1 edges 3\nrun nested last edges 3 total 32\nrow 0 19\nrow 1 13\n",
    ),
    "given": (
        ["given", "17", "--argument", "0a", "--reduce", "max", "--vertices", "1"],
        "program given bound 2 frames 1\npin last version 1 edges 3\nrun given last edges 1 total 10\nrow 1 10\n",
    ),
}
