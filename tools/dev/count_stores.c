/* A store of some batches of random edges, and then so many times, what is counted: of (a branch of its last version is made and closed),
 * from (a store of its sorted edges is), or apply (a store of them by batches). Prints how many edges it has.
 *     count_stores KIND VERTICES BATCHES TIMES */
#include <edgebpf.h>
#include <stdio.h>
#include <stdlib.h>
#include <string.h>

enum { EDITS = 65536 };

static uint32_t sources[EDITS], targets[EDITS], *all, *from;
static uint8_t removes[EDITS];
static uint64_t state = 7;

static uint32_t chance(uint32_t bound) {
    state = state * 6364136223846793005u + 1442695040888963407u;
    return (uint32_t)(state >> 33) % bound;
}

static void done(uint32_t status) {
    if (!status) return;
    fprintf(stderr, "%s\n", edgebpf_words(status));
    exit(1);
}

int main(int count, char **words) {
    if (count != 5) return 2;
    const uint32_t vertices = (uint32_t)atol(words[2]);
    edgebpf_store store = {{0}}, made = {{0}};
    edgebpf_version version = {{0}};
    edgebpf_change change;
    edgebpf_info info;
    done(edgebpf_store_new(vertices, &store));
    for (int batch = 0; batch < atoi(words[3]); batch++) {
        for (int at = 0; at < EDITS; at++) sources[at] = chance(vertices), targets[at] = chance(vertices);
        done(edgebpf_store_apply(&store, 0, sources, EDITS, targets, EDITS, removes, EDITS, &change));
    }
    done(edgebpf_store_pin(&store, &version));
    done(edgebpf_version_info(&version, &info));
    uint64_t *starts = malloc((vertices + 1) * sizeof *starts);
    all = malloc(info.edges * sizeof *all), from = malloc(info.edges * sizeof *from);
    if (!starts || !all || !from) return 1;
    done(edgebpf_version_copy(&version, starts, vertices + 1, all, info.edges));
    for (uint32_t vertex = 0; vertex < vertices; vertex++)
        for (uint64_t at = starts[vertex]; at < starts[vertex + 1]; at++) from[at] = vertex;
    for (int time = 0; time < atoi(words[4]); time++) {
        if (!strcmp(words[1], "of")) done(edgebpf_store_of(&version, &made));
        if (!strcmp(words[1], "from")) done(edgebpf_store_from(vertices, starts, vertices + 1, all, info.edges, &made));
        if (!strcmp(words[1], "apply")) {
            done(edgebpf_store_new(vertices, &made));
            for (uint64_t at = 0; at < info.edges; at += EDITS) {
                size_t size = info.edges - at < EDITS ? info.edges - at : EDITS;
                done(edgebpf_store_apply(&made, 0, from + at, size, all + at, size, removes, size, &change));
            }
        }
        edgebpf_close_store(&made);
    }
    printf("%llu\n", (unsigned long long)info.edges);
    return 0;
}
