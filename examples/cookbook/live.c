/* A query after each batch: live VERTICES BATCH [BEFORE] < EDGES applies the edges in batches of BATCH, after those of the file BEFORE, and
   after each batch counts the edges of its sources that have an edge back. The sources of a batch have to be distinct. */
#include "load.h"

int main(int count, char **words) {
    static uint32_t sources[EDGEBPF_MOST_EDITS], targets[EDGEBPF_MOST_EDITS];
    static uint64_t values[EDGEBPF_MOST_EDITS];
    edgebpf_program mutual = assembled("ldxw r2, [r1+0]\nldxw r1, [r1+4]\ncall 2\nexit");
    edgebpf_store store = {{0}};
    edgebpf_version version = {{0}};
    edgebpf_totals totals;
    size_t some, most = count > 2 ? atoi(words[2]) : 0;
    double spent = 0;
    if (most > EDGEBPF_MOST_EDITS) check(EDGEBPF_TOO_MANY_EDITS);
    check(edgebpf_store_new(count > 1 ? atoi(words[1]) : 0, &store));
    if (count > 3) load(fopen(words[3], "r"), &store);      /* what is there before */
    while ((some = read_edges(stdin, sources, targets, most))) {
        double begun = seconds();
        add(&store, sources, targets, some);
        check(edgebpf_store_pin(&store, &version));
        check(edgebpf_run(&version, &mutual, EDGEBPF_NO_BYTES, 0, sources, some, EDGEBPF_SUM, values, some, &totals));
        spent += seconds() - begun;
        printf("%llu\n", (unsigned long long)totals.total);
    }
    fprintf(stderr, "%.3f\n", spent);
    return 0;
}
