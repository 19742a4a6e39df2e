/* The helpers of edgebpf.h over a graph that the test hands in, and all functions of this folder as native code. The neighbours of
   vertex v are targets[starts[v]] up to targets[starts[v + 1]], ascending. */
#include <edgebpf.h>

static const u32 *starts, *targets;
static u64 vertices;

void set_graph(u64 count, const u32 *first, const u32 *all) { vertices = count, starts = first, targets = all; }

u64 degree(u64 vertex) { return vertex < vertices ? starts[vertex + 1] - starts[vertex] : 0; }
u64 neighbour(u64 vertex, u64 place) { return place < degree(vertex) ? targets[starts[vertex] + place] : NO_NEIGHBOUR; }
u64 has_edge(u64 source, u64 target) {
    for (u64 place = 0; place < degree(source); place++)
        if (neighbour(source, place) == target) return 1;
    return 0;
}
u64 vertex_count(void) { return vertices; }
u64 gather(u64 vertex, u64 first, void *words, u64 bytes) {
    u64 found = 0;
    for (u64 i = 0; i < bytes / 4; i++) {
        u64 word = neighbour(vertex, first + i);
        ((u32 *)words)[i] = (u32)word;
        found += word != NO_NEIGHBOUR;
    }
    return found;
}
