/* The vertices with the most edges that lead back: top VERTICES COUNT < EDGES */
#include "load.h"

static uint64_t *values;

static int by_value(const void *left, const void *right) {
    uint32_t one = *(const uint32_t *)left, other = *(const uint32_t *)right;
    if (values[one] != values[other]) return values[one] < values[other] ? 1 : -1;
    return one < other ? -1 : 1;
}

int main(int count, char **words) {
    uint32_t vertices = count > 2 ? atoi(words[1]) : 0;
    int most = count > 2 ? atoi(words[2]) : 0;
    edgebpf_program mutual = assembled("ldxw r2, [r1+0]\nldxw r1, [r1+4]\ncall 2\nexit");
    edgebpf_store store = {{0}};
    edgebpf_version version = {{0}};
    edgebpf_totals totals;
    check(edgebpf_store_new(vertices, &store));
    values = room(vertices, sizeof *values);
    uint32_t *all = room(vertices, sizeof *all);
    if (most > (int)vertices) most = vertices;
    load(stdin, &store);
    check(edgebpf_store_pin(&store, &version));
    double begun = seconds();
    for (uint32_t vertex = 0; vertex < vertices; vertex++) all[vertex] = vertex;
    check(edgebpf_run(&version, &mutual, EDGEBPF_NO_BYTES, 0, all, vertices, EDGEBPF_SUM, values, vertices, &totals));
    qsort(all, vertices, sizeof *all, by_value);
    for (int place = 0; place < most; place++) printf("%u %llu\n", all[place], (unsigned long long)values[all[place]]);
    fprintf(stderr, "%.3f\n", seconds() - begun);
    return 0;
}
