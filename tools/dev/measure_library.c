/* Measures calls of libedgebpf in C, on a random graph of 262,144 vertices and 2,097,152 edges, and prints the best of some tries.
 *     cc -O2 -Ibindings/c -o /tmp/measure tools/dev/measure_library.c dist/build/libedgebpf.a && /tmp/measure */
#include <edgebpf.h>
#include <stdio.h>
#include <stdlib.h>
#include <time.h>

enum { VERTICES = 262144, EDITS = 65536, BATCHES = 32, TRIES = 7, CALLS = 200000, ROOM = 64, BUDGET = 100000 };

static uint32_t sources[EDITS], targets[EDITS], frontier[VERTICES];
static uint8_t removes[EDITS];
static uint64_t values[VERTICES];
static uint64_t state = 7;

static uint32_t chance(void) {
    state = state * 6364136223846793005u + 1442695040888963407u;
    return (uint32_t)(state >> 33) % VERTICES;
}

static double now(void) {
    struct timespec time;
    clock_gettime(CLOCK_PROCESS_CPUTIME_ID, &time);
    return (double)time.tv_sec + 1e-9 * (double)time.tv_nsec;
}

static void done(uint32_t status) {
    if (!status) return;
    fprintf(stderr, "%s\n", edgebpf_words(status));
    exit(1);
}

/* The least time of one of so many calls in a row, in seconds. */
#define BEST(count, call) __extension__({                                 \
    double least = 1e9;                                                   \
    for (int try = 0; try < TRIES; try++) {                               \
        double begun = now();                                             \
        for (size_t at = 0; at < (size_t)(count); at++) { call; }         \
        double spent = (now() - begun) / (double)(count);                 \
        if (spent < least) least = spent;                                 \
    }                                                                     \
    least;                                                                \
})

/* Calls that pause, over a frontier of all vertices and over one. */
static void measure_steps(edgebpf_version *version, edgebpf_program *program, double edges) {
    const edgebpf_progress begin = {.budget = BUDGET}, without = {.budget = 0};
    edgebpf_progress place;
    size_t written;
    printf("a run over all edges in steps: %.2f ns an edge\n", 1e9 / edges * BEST(1,
           for (place = begin; place.vertex < VERTICES; place.budget = BUDGET)
               done(edgebpf_run_some(version, program, EDGEBPF_NO_BYTES, 0, frontier, VERTICES, EDGEBPF_SUM, &place, values, VERTICES))));
    printf("a step over one edge: %.2f us\n", 1e6 * BEST(CALLS, frontier[0] = chance(); place = without;
           done(edgebpf_run_some(version, program, EDGEBPF_NO_BYTES, 0, frontier, 1, EDGEBPF_SUM, &place, values, 1))));
    printf("the numbers of one vertex's edges: %.2f us\n", 1e6 * BEST(CALLS, frontier[0] = chance(); place = begin;
           done(edgebpf_numbers_some(version, program, EDGEBPF_NO_BYTES, 0, frontier, 1, &place, values, VERTICES, &written))));
    printf("the numbers of pairs: %.1f ns a pair\n", 1e9 / EDITS * BEST(1,
           for (place = begin; place.vertex < EDITS; place.budget = BUDGET)
               done(edgebpf_pairs(version, program, EDGEBPF_NO_BYTES, 0, sources, EDITS, targets, EDITS, &place, values, EDITS))));
}

int main(void) {
    const uint8_t code[] = {0x61, 0x10, 4, 0, 0, 0, 0, 0, 0x95, 0, 0, 0, 0, 0, 0, 0};
    edgebpf_store store = {{0}};
    edgebpf_version version = {{0}}, other = {{0}};
    edgebpf_program program = {{0}};
    edgebpf_change change;
    edgebpf_info info;
    edgebpf_verdict verdict;
    edgebpf_totals totals;
    edgebpf_slice slices[ROOM];
    size_t lent;
    done(edgebpf_store_new(VERTICES, &store));
    double batch = 1e9;
    for (int round = 0; round < BATCHES; round++) {
        for (int at = 0; at < EDITS; at++) sources[at] = chance(), targets[at] = chance();
        double begun = now();
        done(edgebpf_store_apply(&store, 0, sources, EDITS, targets, EDITS, removes, EDITS, &change));
        if (now() - begun < batch) batch = now() - begun;
    }
    printf("a batch of 65,536 edits: %.1f ms\n", 1e3 * batch);
    printf("a batch of one edit: %.2f us\n", 1e6 * BEST(60, sources[0] = chance(); targets[0] = chance();
           done(edgebpf_store_apply(&store, 1, sources, 1, targets, 1, removes, 1, &change))));
    uint64_t epoch;
    printf("a rebase, without the log's memory: %.2f us\n", 1e6 * BEST(60, done(edgebpf_store_rebase(&store, &epoch))));
    done(edgebpf_store_pin(&store, &version));
    done(edgebpf_version_info(&version, &info));
    printf("share and close a version: %.1f ns\n", 1e9 * BEST(CALLS, done(edgebpf_version_share(&version, &other)); edgebpf_close_version(&other)));
    printf("lend the slices of a vertex at random: %.1f ns\n", 1e9 * BEST(CALLS, done(edgebpf_version_lend(&version, chance(), slices, ROOM, &lent))));
    done(edgebpf_program_new(16, code, sizeof code, EDGEBPF_NO_BYTES, 0, &verdict, &program));
    for (uint32_t at = 0; at < VERTICES; at++) frontier[at] = at;
    double edges = (double)info.edges;
    printf("a run over all edges: %.2f ns an edge\n",
           1e9 / edges * BEST(1, done(edgebpf_run(&version, &program, EDGEBPF_NO_BYTES, 0, frontier, VERTICES, EDGEBPF_SUM, values, VERTICES, &totals))));
    printf("a run over one vertex: %.2f us\n",
           1e6 * BEST(CALLS, frontier[0] = chance(); done(edgebpf_run(&version, &program, EDGEBPF_NO_BYTES, 0, frontier, 1, EDGEBPF_SUM, values, 1, &totals))));
    measure_steps(&version, &program, edges);
    uint64_t *numbers = malloc(info.edges * sizeof *numbers), *starts = malloc((VERTICES + 1) * sizeof *starts);
    uint32_t *all = malloc(info.edges * sizeof *all);
    if (!numbers || !starts || !all) return 1;
    printf("the number of each edge: %.2f ns an edge\n",
           1e9 / edges * BEST(1, done(edgebpf_numbers(&version, &program, EDGEBPF_NO_BYTES, 0, numbers, info.edges))));
    enum { CHOSEN = 3000 };
    for (uint32_t at = 0; at < CHOSEN; at++) frontier[at] = chance();
    printf("the lists of 3,000 vertices at random: %.3f ms\n",
           1e3 * BEST(1, done(edgebpf_version_lists(&version, frontier, CHOSEN, starts, CHOSEN + 1, all, info.edges, &lent))));
    printf("their degrees: %.1f ns a vertex\n", 1e9 / CHOSEN * BEST(1, done(edgebpf_version_degrees(&version, frontier, CHOSEN, targets, CHOSEN))));
    printf("all edges as two arrays: %.1f ms\n", 1e3 * BEST(1, done(edgebpf_version_copy(&version, starts, VERTICES + 1, all, info.edges))));
    return 0;
}
