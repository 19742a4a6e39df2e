/* Runs a program of two instructions over a graph of vertices with 200 neighbours each, or as many as its word says, as a run and as numbers.
   The gate counts the instructions of both calls: each edge's number is right also where no block of edges is used. Before that the same handle
   runs over two vertices of three neighbours, which fill no block. */
#include "check.h"

enum { VERTICES = 4096, EDGES = 60000, DEGREE = 200, MOST_SOURCES = VERTICES - 2 };

static uint32_t sources[EDGES], targets[EDGES], frontier[MOST_SOURCES];
static uint8_t removes[EDGES];
static uint64_t numbers[EDGES + 6], values[MOST_SOURCES];

int main(int count, char **words) {
    const uint32_t degree = count > 1 ? (uint32_t)strtoul(words[1], NULL, 10) : DEGREE, all = degree ? EDGES / degree : 0;
    CHECK(all > 0 && all <= MOST_SOURCES && all * degree == EDGES);
    edgebpf_store store = {{0}};
    edgebpf_version version = {{0}};
    edgebpf_program program = {{0}};
    edgebpf_change change;
    edgebpf_verdict verdict;
    edgebpf_totals totals;
    uint64_t sum = 0;
    for (uint32_t at = 0; at < EDGES; at++) {
        sources[at] = at / degree;
        targets[at] = (at / degree * 7 + at % degree * 13) % VERTICES;
        frontier[at / degree] = at / degree;
    }
    CHECK(edgebpf_store_new(VERTICES, &store) == EDGEBPF_DONE);
    CHECK(edgebpf_store_apply(&store, 0, sources, EDGES, targets, EDGES, removes, EDGES, &change) == EDGEBPF_DONE);
    CHECK(change.added == EDGES);
    const uint32_t few_sources[] = {VERTICES - 2, VERTICES - 2, VERTICES - 2, VERTICES - 1, VERTICES - 1, VERTICES - 1}, few_targets[] = {0, 1, 2, 0, 1, 2};
    CHECK(edgebpf_store_apply(&store, 0, few_sources, 6, few_targets, 6, removes, 6, &change) == EDGEBPF_DONE);
    CHECK(edgebpf_store_pin(&store, &version) == EDGEBPF_DONE);
    CHECK(edgebpf_program_new(16, target_code, sizeof target_code, EDGEBPF_NO_BYTES, 0, &verdict, &program) == EDGEBPF_DONE);
    const uint32_t first[] = {VERTICES - 2, VERTICES - 1};
    CHECK(edgebpf_run(&version, &program, EDGEBPF_NO_BYTES, 0, first, 2, EDGEBPF_SUM, values, 2, &totals) == EDGEBPF_DONE);
    CHECK(totals.edges == 6 && totals.total == 6 && values[0] == 3 && values[1] == 3);
    CHECK(edgebpf_run(&version, &program, EDGEBPF_NO_BYTES, 0, frontier, all, EDGEBPF_SUM, values, all, &totals) == EDGEBPF_DONE);
    CHECK(edgebpf_numbers(&version, &program, EDGEBPF_NO_BYTES, 0, numbers, EDGES + 6) == EDGEBPF_DONE);
    for (uint32_t at = 0; at < EDGES; at++) sum += numbers[at];
    CHECK(totals.edges == EDGES && totals.total == sum);
    edgebpf_close_program(&program);
    edgebpf_close_version(&version);
    edgebpf_close_store(&store);
    puts("all numbers are the run's");
    return 0;
}
