/* Two versions compared: snapshots VERTICES BEFORE < EDGES prints the vertices whose count of edges that lead back differs. */
#include "load.h"

static void count_mutual(edgebpf_version *version, edgebpf_program *mutual, const uint32_t *all, uint32_t vertices, uint64_t *values) {
    edgebpf_totals totals;
    check(edgebpf_run(version, mutual, EDGEBPF_NO_BYTES, 0, all, vertices, EDGEBPF_SUM, values, vertices, &totals));
}

int main(int count, char **words) {
    uint32_t vertices = count > 2 ? atoi(words[1]) : 0;
    edgebpf_program mutual = assembled("ldxw r2, [r1+0]\nldxw r1, [r1+4]\ncall 2\nexit");
    edgebpf_store store = {{0}};
    edgebpf_version old = {{0}}, new = {{0}};
    check(edgebpf_store_new(vertices, &store));
    uint64_t *before = room(vertices, sizeof *before), *after = room(vertices, sizeof *after);
    uint32_t *all = room(vertices, sizeof *all);
    for (uint32_t vertex = 0; vertex < vertices; vertex++) all[vertex] = vertex;
    load(fopen(words[2], "r"), &store);
    check(edgebpf_store_pin(&store, &old));                 /* stays as it is */
    load(stdin, &store);
    check(edgebpf_store_pin(&store, &new));
    double begun = seconds();
    count_mutual(&old, &mutual, all, vertices, before);
    count_mutual(&new, &mutual, all, vertices, after);
    for (uint32_t vertex = 0; vertex < vertices; vertex++)
        if (before[vertex] != after[vertex]) printf("%u\n", vertex);
    fprintf(stderr, "%.3f\n", seconds() - begun);
    return 0;
}
