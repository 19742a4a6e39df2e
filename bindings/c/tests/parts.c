/* Runs a program in parts and over ranges, and numbers a frontier's edges and pairs, on a graph of eight vertices whose answers were found
   by hand, and meets each progress that is refused. */
#include "check.h"

enum { VERTICES = 8 };

static edgebpf_store store;
static edgebpf_version graph;
static edgebpf_program targets_of;

static const uint32_t all[VERTICES] = {0, 1, 2, 3, 4, 5, 6, 7};
static const uint64_t nothing[1];
static const edgebpf_column no_column = {nothing, 0};
static const uint64_t sums[VERTICES] = {3, 2, 4, 6, 3, 6, 5, 0};

/* 0-1, 0-2, 1-2, 2-3, 3-4 and 5-6, both ways. */
static void builds_the_graph(void) {
    const uint32_t sources[] = {0, 0, 1, 2, 3, 5, 1, 2, 2, 3, 4, 6}, targets[] = {1, 2, 2, 3, 4, 6, 0, 0, 1, 2, 3, 5};
    const uint8_t removes[12] = {0};
    edgebpf_change change;
    edgebpf_verdict verdict;
    CHECK(edgebpf_store_new(VERTICES, &store) == EDGEBPF_DONE);
    CHECK(edgebpf_store_apply(&store, 0, sources, 12, targets, 12, removes, 12, &change) == EDGEBPF_DONE && change.added == 12);
    CHECK(edgebpf_store_pin(&store, &graph) == EDGEBPF_DONE);
    CHECK(edgebpf_program_new(16, target_code, 16, EDGEBPF_NO_BYTES, 0, &verdict, &targets_of) == EDGEBPF_DONE && verdict.bound == 2);
}

static uint32_t goes_on(const uint32_t *frontier, size_t count, uint32_t reduction, uint64_t budget, edgebpf_progress *at,
                        uint64_t *values) {
    at->budget = budget;
    return edgebpf_run_some(&graph, &targets_of, EDGEBPF_NO_BYTES, 0, frontier, count, reduction, at, values, count);
}

static uint32_t numbers_on(const uint32_t *frontier, size_t count, edgebpf_progress *at, uint64_t *numbers, size_t room, size_t *written) {
    return edgebpf_numbers_some(&graph, &targets_of, EDGEBPF_NO_BYTES, 0, frontier, count, at, numbers, room, written);
}

static int stands(const edgebpf_progress *at, uint32_t vertex, uint32_t place, uint64_t edges, uint64_t total) {
    return at->vertex == vertex && at->place == place && at->edges == edges && at->total == total;
}

/* Nothing left to spend: one edge each time, or one vertex without any. */
static void runs_edge_by_edge(void) {
    static const struct { uint32_t vertex, place; uint64_t edges, total, value; } rows[] = {
        {0, 1, 1, 1, 1}, {1, 0, 2, 3, 3}, {1, 1, 3, 3, 0}, {2, 0, 4, 5, 2}, {2, 1, 5, 5, 0}, {2, 2, 6, 6, 1}, {3, 0, 7, 9, 4},
        {3, 1, 8, 11, 2}, {4, 0, 9, 15, 6}, {5, 0, 10, 18, 3}, {6, 0, 11, 24, 6}, {7, 0, 12, 29, 5}, {8, 0, 12, 29, 0}, {8, 0, 12, 29, 0},
    };
    edgebpf_progress at = {0, 77, 77, 0, 0}; /* a beginning, whatever its totals */
    uint64_t values[VERTICES];
    memset(values, 9, sizeof values);
    for (size_t row = 0; row < COUNT(rows); row++) {
        uint32_t vertex = at.vertex;
        CHECK(goes_on(all, VERTICES, EDGEBPF_SUM, 0, &at, values) == EDGEBPF_DONE && at.budget == 0);
        CHECK(stands(&at, rows[row].vertex, rows[row].place, rows[row].edges, rows[row].total));
        if (vertex < VERTICES) CHECK(values[vertex] == rows[row].value);
        for (uint32_t later = at.vertex + 1; later < VERTICES; later++) CHECK(values[later] == UINT64_MAX / 255 * 9);
    }
    CHECK(!memcmp(values, sums, sizeof sums));
}

/* 6 for an edge of two instructions, and 16 for a vertex. */
static void runs_by_the_budget(void) {
    static const struct { uint32_t vertex, place; uint64_t edges, total; } rows[] = {
        {2, 0, 4, 5}, {3, 1, 8, 11}, {5, 0, 10, 18}, {7, 0, 12, 29}, {8, 0, 12, 29},
    };
    uint64_t values[VERTICES];
    edgebpf_progress at = {0};
    for (size_t row = 0; row < COUNT(rows); row++) {
        CHECK(goes_on(all, VERTICES, EDGEBPF_SUM, 40, &at, values) == EDGEBPF_DONE);
        CHECK(stands(&at, rows[row].vertex, rows[row].place, rows[row].edges, rows[row].total));
    }
    CHECK(!memcmp(values, sums, sizeof sums));
    memset(values, 9, sizeof values);
    at = (edgebpf_progress){0};
    CHECK(goes_on(all, VERTICES, EDGEBPF_SUM, UINT64_MAX, &at, values) == EDGEBPF_DONE && stands(&at, 8, 0, 12, 29));
    CHECK(at.budget < UINT64_MAX && !memcmp(values, sums, sizeof sums));
}

/* As a run does it at once, with each reduction, budget, and a frontier with a vertex twice, one outside and ones without neighbours. */
static void runs_as_a_whole(void) {
    static const uint32_t frontier[] = {2, 9, 0, 7, 2, 3, 7, 6};
    enum { COUNT_OF = COUNT(frontier) };
    for (uint32_t reduction = EDGEBPF_SUM; reduction <= EDGEBPF_MAX; reduction++)
        for (uint64_t budget = 0; budget < 200; budget++) {
            uint64_t whole[COUNT_OF], values[COUNT_OF];
            edgebpf_totals totals;
            edgebpf_progress at = {0};
            int calls = 0;
            CHECK(edgebpf_run(&graph, &targets_of, EDGEBPF_NO_BYTES, 0, frontier, COUNT_OF, reduction, whole, COUNT_OF, &totals) == 0);
            do {
                CHECK(goes_on(frontier, COUNT_OF, reduction, budget, &at, values) == EDGEBPF_DONE && ++calls < 100);
                CHECK(at.vertex == COUNT_OF || at.budget == 0);
            } while (at.vertex < COUNT_OF);
            CHECK(at.place == 0 && at.edges == totals.edges && at.total == totals.total && !memcmp(values, whole, sizeof whole));
        }
}

static void runs_the_least_of_few(void) {
    const uint32_t frontier[] = {2, 2, 7}, outside[] = {7, 9};
    static const struct { int calls; uint32_t vertex, place; uint64_t edges; } rows[] = {
        {2, 0, 2, 2}, {1, 1, 0, 3}, {1, 1, 1, 4}, {3, 3, 0, 6},
    };
    uint64_t values[3];
    edgebpf_progress at = {0};
    for (size_t row = 0; row < COUNT(rows); row++) {
        for (int call = 0; call < rows[row].calls; call++) CHECK(goes_on(frontier, 3, EDGEBPF_MIN, 0, &at, values) == EDGEBPF_DONE);
        CHECK(stands(&at, rows[row].vertex, rows[row].place, rows[row].edges, 0));
    }
    CHECK(values[0] == 0 && values[1] == 0 && values[2] == UINT64_MAX);
    at = (edgebpf_progress){0};
    CHECK(goes_on(outside, 2, EDGEBPF_SUM, 0, &at, values) == EDGEBPF_DONE && stands(&at, 1, 0, 0, 0));
    CHECK(goes_on(outside, 2, EDGEBPF_SUM, 0, &at, values) == EDGEBPF_DONE && stands(&at, 2, 0, 0, 0));
    CHECK(values[0] == 0 && values[1] == 0);
    at = (edgebpf_progress){0, 0, 5, 0, 0};
    CHECK(goes_on(outside, 0, EDGEBPF_MAX, 0, &at, values) == EDGEBPF_DONE && stands(&at, 0, 0, 0, 0));
}

/* A vertex without an edge costs 16: a budget of so much passes one, and one of 17 two. */
static void passes_vertices_by_the_budget(void) {
    enum { ALONE = 100 };
    static const struct { uint64_t budget; uint32_t vertex; } rows[] = {{0, 1}, {1, 2}, {16, 3}, {17, 5}, {32, 7}, {33, 10}};
    uint32_t frontier[ALONE];
    uint64_t values[ALONE];
    edgebpf_store empty = {{0}};
    edgebpf_version none = {{0}};
    edgebpf_progress at = {0};
    for (uint32_t vertex = 0; vertex < ALONE; vertex++) frontier[vertex] = vertex;
    CHECK(edgebpf_store_new(ALONE, &empty) == EDGEBPF_DONE && edgebpf_store_pin(&empty, &none) == EDGEBPF_DONE);
    for (size_t row = 0; row < COUNT(rows); row++) {
        at.budget = rows[row].budget;
        CHECK(edgebpf_run_some(&none, &targets_of, EDGEBPF_NO_BYTES, 0, frontier, ALONE, EDGEBPF_SUM, &at, values, ALONE) == EDGEBPF_DONE);
        CHECK(at.budget == 0 && at.vertex == rows[row].vertex && at.place == 0 && at.edges == 0);
    }
    edgebpf_close_version(&none), edgebpf_close_store(&empty);
}

static uint32_t goes_over(uint32_t first, size_t count, uint32_t reduction, uint64_t budget, edgebpf_progress *at, uint64_t *values) {
    at->budget = budget;
    return edgebpf_pull_range(&graph, &targets_of, EDGEBPF_NO_BYTES, 0, &no_column, 0, first, reduction, at, values, count);
}

/* A range gives what a frontier gives that has its vertices, with each budget; also where it is longer than a window, and past the graph. */
static void runs_over_a_range(void) {
    static const struct { uint32_t first; size_t count; } ranges[] = {
        {0, 8}, {2, 3}, {5, 1}, {7, 4}, {3, 0}, {0, EDGEBPF_WINDOW}, {0, EDGEBPF_WINDOW + 1}, {4, 3 * EDGEBPF_WINDOW + 5}, {UINT32_MAX - 1, 2},
    };
    static uint32_t frontier[4 * EDGEBPF_WINDOW];
    static uint64_t whole[4 * EDGEBPF_WINDOW], values[4 * EDGEBPF_WINDOW];
    static const uint64_t budgets[] = {0, 1, 6, 7, 16, 40, 41, 1000, 16 * EDGEBPF_WINDOW, 16 * EDGEBPF_WINDOW + 72, 40000, UINT64_MAX};
    for (size_t row = 0; row < COUNT(ranges); row++) {
        const uint32_t first = ranges[row].first;
        const size_t count = ranges[row].count;
        for (size_t place = 0; place < count; place++) frontier[place] = first + (uint32_t)place;
        for (uint32_t reduction = EDGEBPF_SUM; reduction <= EDGEBPF_MAX; reduction++)
            for (size_t budget = 0; budget < COUNT(budgets); budget++) {
                edgebpf_totals totals;
                edgebpf_progress at = {0, 77, 77, 0, 0}; /* a beginning, whatever its totals */
                memset(values, 9, sizeof values);
                CHECK(edgebpf_run(&graph, &targets_of, EDGEBPF_NO_BYTES, 0, frontier, count, reduction, whole, count, &totals) == 0);
                size_t calls = 0;
                do {
                    const uint32_t vertex = at.vertex, place = at.place;
                    CHECK(goes_over(first, count, reduction, budgets[budget], &at, values) == EDGEBPF_DONE && ++calls <= count + 13);
                    CHECK(at.vertex == count || (at.budget == 0 && (at.vertex > vertex || at.place > place)));
                    CHECK(at.vertex + 1u >= COUNT(values) || values[at.vertex + 1] == UINT64_MAX / 255 * 9);
                } while (at.vertex < count);
                CHECK(at.place == 0 && at.edges == totals.edges && at.total == totals.total && !memcmp(values, whole, count * sizeof *values));
                CHECK(budgets[budget] != UINT64_MAX || calls == 1);
            }
    }
    /* A program of many edges a vertex stops within one, and the next call knows what it had. */
    edgebpf_progress at = {0};
    CHECK(goes_over(2, 2, EDGEBPF_SUM, 0, &at, values) == EDGEBPF_DONE && stands(&at, 0, 1, 1, 0) && values[0] == 0);
    CHECK(goes_over(2, 2, EDGEBPF_SUM, 0, &at, values) == EDGEBPF_DONE && stands(&at, 0, 2, 2, 1) && values[0] == 1);
    CHECK(goes_over(2, 2, EDGEBPF_SUM, 0, &at, values) == EDGEBPF_DONE && stands(&at, 1, 0, 3, 4) && values[0] == 4);
    CHECK(goes_over(2, 2, EDGEBPF_SUM, 0, &at, values) == EDGEBPF_DONE && stands(&at, 1, 1, 4, 6) && values[1] == 2);
    CHECK(goes_over(2, 2, EDGEBPF_SUM, 0, &at, values) == EDGEBPF_DONE && stands(&at, 2, 0, 5, 10) && values[1] == 6);
}

/* Each fault of a range, in the order of edgebpf_pull_some: nothing is written. */
static void refuses_ranges(void) {
    static const struct { uint32_t first, vertex, place, reduction; size_t argument, columns, count; uint32_t status; } rows[] = {
        {0, 9, 0, 3, 1, 9, EDGEBPF_MOST_VERTICES + 1u, EDGEBPF_REDUCTION}, {0, 9, 0, 0, 1, 9, EDGEBPF_MOST_VERTICES + 1u, EDGEBPF_LENGTHS},
        {UINT32_MAX, 9, 0, 0, 1, 9, 2, EDGEBPF_LENGTHS}, {0, 9, 0, 0, 1, 9, 8, EDGEBPF_COLUMNS}, {0, 9, 0, 0, 1, 0, 8, EDGEBPF_ARGUMENT_LENGTH},
        {0, 9, 0, 0, 0, 0, 8, EDGEBPF_PROGRESS}, {0, 8, 1, 0, 0, 0, 8, EDGEBPF_PROGRESS}, {0, 0, 3, 0, 0, 0, 8, EDGEBPF_PROGRESS},
        {7, 0, 1, 0, 0, 0, 8, EDGEBPF_PROGRESS}, {0, UINT32_MAX, 0, 2, 0, 0, 0, EDGEBPF_PROGRESS},
    };
    const edgebpf_column columns[9] = {{nothing, 0}, {nothing, 0}, {nothing, 0}, {nothing, 0}, {nothing, 0}, {nothing, 0}, {nothing, 0}, {nothing, 0}, {nothing, 0}};
    for (size_t row = 0; row < COUNT(rows); row++) {
        uint64_t values[8];
        edgebpf_progress at = {40, 5, 6, rows[row].vertex, rows[row].place};
        memset(values, 9, sizeof values);
        CHECK(edgebpf_pull_range(&graph, &targets_of, (const uint8_t *)"", rows[row].argument, columns, rows[row].columns, rows[row].first,
                                 rows[row].reduction, &at, values, rows[row].count) == rows[row].status);
        CHECK(at.budget == 40 && stands(&at, rows[row].vertex, rows[row].place, 5, 6) && values[0] == UINT64_MAX / 255 * 9 && values[7] == values[0]);
    }
    edgebpf_version none = {{0}};
    edgebpf_progress at = {0};
    CHECK(edgebpf_pull_range(&none, &targets_of, EDGEBPF_NO_BYTES, 0, &no_column, 0, 0, EDGEBPF_SUM, &at, &(uint64_t){0}, 1) == EDGEBPF_EMPTY);
}

static void numbers_a_frontier(void) {
    const uint32_t frontier[] = {2, 0, 7, 5};
    const uint64_t wanted[] = {0, 1, 3, 1, 2, 6};
    edgebpf_progress at = {UINT64_MAX, 0, 7, 0, 0};
    uint64_t numbers[6];
    size_t written = 9;
    CHECK(numbers_on(frontier, 4, &at, numbers, 6, &written) == EDGEBPF_DONE);
    CHECK(written == 6 && stands(&at, 4, 0, 6, 7) && !memcmp(numbers, wanted, sizeof wanted));
    at = (edgebpf_progress){UINT64_MAX, 0, 7, 0, 0};
    memset(numbers, 9, sizeof numbers);
    CHECK(numbers_on(frontier, 4, &at, numbers, 4, &written) == EDGEBPF_DONE);
    CHECK(written == 4 && stands(&at, 1, 1, 4, 7) && !memcmp(numbers, wanted, 4 * sizeof *wanted) && numbers[4] == UINT64_MAX / 255 * 9);
    CHECK(numbers_on(frontier, 4, &at, numbers, 4, &written) == EDGEBPF_DONE);
    CHECK(written == 2 && stands(&at, 4, 0, 6, 7) && !memcmp(numbers, wanted + 4, 2 * sizeof *wanted) && numbers[2] == 3);
    size_t all_written = 0;
    at = (edgebpf_progress){0};
    while (at.vertex < 4) { /* an edge a call; 7 has none */
        at.budget = 0;
        CHECK(numbers_on(frontier, 4, &at, numbers + all_written, 6 - all_written, &written) == EDGEBPF_DONE);
        CHECK(written <= 1 && (all_written += written) <= 6);
    }
    CHECK(all_written == 6 && !memcmp(numbers, wanted, sizeof wanted));
    /* 6 for an edge, and 16 for a vertex: what is used up by vertex 2 begins no edge of vertex 0. */
    at = (edgebpf_progress){18, 0, 0, 0, 0};
    CHECK(numbers_on(frontier, 4, &at, numbers, 6, &written) == EDGEBPF_DONE && written == 3 && stands(&at, 1, 0, 3, 0) && at.budget == 0);
    at = (edgebpf_progress){19, 0, 0, 0, 0};
    CHECK(numbers_on(frontier, 4, &at, numbers, 6, &written) == EDGEBPF_DONE && written == 3 && stands(&at, 1, 0, 3, 0) && at.budget == 0);
    const uint32_t none_first[] = {7, 0};
    at = (edgebpf_progress){UINT64_MAX, 0, 0, 0, 0};
    CHECK(numbers_on(none_first, 2, &at, numbers, 0, &written) == EDGEBPF_DONE);
    CHECK(written == 0 && stands(&at, 1, 0, 0, 0)); /* without room a vertex without an edge is passed */
}

/* The record's words 2 and 3 are the place and the degree: ldxdw r0, [r1+8]; exit. */
static void numbers_pairs(void) {
    static const uint8_t place_and_degree[] = {0x79, 0x10, 8, 0, 0, 0, 0, 0, 0x95, 0, 0, 0, 0, 0, 0, 0};
    static const uint32_t sources[] = {0, 0, 2, 0, 0, 7, 9, 1}, targets[] = {1, 2, 3, 3, 0, 0, 1, 9};
    static const uint64_t places[] = {0, 1, 2, 2, 2, 0, 0, 2}, degrees[] = {2, 2, 3, 2, 2, 0, 0, 2};
    enum { PAIRS = COUNT(sources) };
    edgebpf_program ends = {{0}}; /* ldxdw r0, [r1+0]; exit: source and target */
    edgebpf_program shape = {{0}};
    uint8_t first[16];
    uint64_t numbers[PAIRS];
    edgebpf_verdict verdict;
    memcpy(first, place_and_degree, sizeof first);
    first[2] = 0;
    CHECK(edgebpf_program_new(16, place_and_degree, 16, EDGEBPF_NO_BYTES, 0, &verdict, &shape) == EDGEBPF_DONE);
    CHECK(edgebpf_program_new(16, first, 16, EDGEBPF_NO_BYTES, 0, &verdict, &ends) == EDGEBPF_DONE);
    edgebpf_progress at = {UINT64_MAX, 0, 7, 0, 0};
    CHECK(edgebpf_pairs(&graph, &shape, EDGEBPF_NO_BYTES, 0, sources, PAIRS, targets, PAIRS, &at, numbers, PAIRS) == EDGEBPF_DONE);
    CHECK(stands(&at, PAIRS, 0, PAIRS, 7));
    for (size_t i = 0; i < PAIRS; i++) CHECK(numbers[i] == (places[i] | degrees[i] << 32));
    memset(numbers, 9, sizeof numbers);
    at = (edgebpf_progress){0};
    for (uint32_t done = 1; done <= PAIRS; done++) { /* one pair a call */
        at.budget = 0;
        CHECK(edgebpf_pairs(&graph, &ends, EDGEBPF_NO_BYTES, 0, sources, PAIRS, targets, PAIRS, &at, numbers, PAIRS) == 0);
        CHECK(stands(&at, done, 0, done, 0) && numbers[done - 1] == (sources[done - 1] | (uint64_t)targets[done - 1] << 32));
        for (uint32_t later = done; later < PAIRS; later++) CHECK(numbers[later] == UINT64_MAX / 255 * 9);
    }
    CHECK(edgebpf_pairs(&graph, &ends, EDGEBPF_NO_BYTES, 0, sources, PAIRS, targets, PAIRS, &at, numbers, PAIRS) == EDGEBPF_DONE);
    CHECK(stands(&at, PAIRS, 0, PAIRS, 0)); /* the end stays the end */
    at = (edgebpf_progress){0};
    for (uint32_t done = 1; done <= PAIRS; done++) { /* a pair costs 6: a budget of so much does one */
        at.budget = 6;
        CHECK(edgebpf_pairs(&graph, &ends, EDGEBPF_NO_BYTES, 0, sources, PAIRS, targets, PAIRS, &at, numbers, PAIRS) == 0);
        CHECK(at.budget == 0 && stands(&at, done, 0, done, 0));
    }
    edgebpf_close_program(&ends);
    edgebpf_close_program(&shape);
}

/* What a refused call leaves: all as it was. */
static void refuses_places(void) {
    static const struct { uint32_t vertex, place, status; } rows[] = {
        {9, 0, EDGEBPF_PROGRESS}, {8, 1, EDGEBPF_PROGRESS}, {2, 4, EDGEBPF_PROGRESS}, {7, 1, EDGEBPF_PROGRESS},
        {UINT32_MAX, UINT32_MAX, EDGEBPF_PROGRESS}, {2, 3, EDGEBPF_DONE}, {8, 0, EDGEBPF_DONE},
    };
    for (size_t row = 0; row < COUNT(rows); row++) {
        uint64_t values[VERTICES], kept[VERTICES];
        size_t written = 9;
        memset(values, 9, sizeof values);
        memset(kept, 9, sizeof kept);
        edgebpf_progress at = {0, 5, 6, rows[row].vertex, rows[row].place}, before = at, other = at;
        CHECK(goes_on(all, VERTICES, EDGEBPF_SUM, 0, &at, values) == rows[row].status);
        CHECK(numbers_on(all, VERTICES, &other, values, VERTICES, &written) == rows[row].status);
        if (!rows[row].status) continue;
        CHECK(!memcmp(&at, &before, sizeof at) && !memcmp(&other, &before, sizeof at) && !memcmp(values, kept, sizeof kept) && written == 9);
    }
    uint64_t values[VERTICES] = {0, 0, 50};
    edgebpf_progress at = {0, 5, 6, 2, 3}; /* the end of a vertex's edges: its value is what stands there */
    CHECK(goes_on(all, VERTICES, EDGEBPF_SUM, 0, &at, values) == EDGEBPF_DONE && stands(&at, 3, 0, 5, 6) && values[2] == 50);
    at = (edgebpf_progress){0, UINT64_MAX, UINT64_MAX, 2, 1}; /* made up: added to, and combined with */
    CHECK(goes_on(all, VERTICES, EDGEBPF_SUM, 0, &at, values) == EDGEBPF_DONE && stands(&at, 2, 2, 0, 0) && values[2] == 51);
}

static void refuses_the_rest(void) {
    const uint8_t byte = 0;
    uint64_t values[VERTICES] = {1, 2, 3};
    edgebpf_progress at = {3, 5, 6, 9, 0}, before = at;
    edgebpf_version *g = &graph;
    edgebpf_program *p = &targets_of;
    size_t written = 9;
    /* The reduction, then the lengths, then the argument, then the progress. */
    CHECK(edgebpf_run_some(g, p, &byte, 1, all, 8, 3, &at, values, 7) == EDGEBPF_REDUCTION);
    CHECK(edgebpf_run_some(g, p, &byte, 1, all, 8, EDGEBPF_SUM, &at, values, 7) == EDGEBPF_LENGTHS);
    CHECK(edgebpf_run_some(g, p, &byte, 1, all, 8, EDGEBPF_SUM, &at, values, 8) == EDGEBPF_ARGUMENT_LENGTH);
    CHECK(edgebpf_run_some(g, p, EDGEBPF_NO_BYTES, 0, all, 8, EDGEBPF_SUM, &at, values, 8) == EDGEBPF_PROGRESS);
    CHECK(edgebpf_numbers_some(g, p, &byte, 1, all, 8, &at, values, 7, &written) == EDGEBPF_ARGUMENT_LENGTH);
    CHECK(edgebpf_pairs(g, p, &byte, 1, all, 8, all, 7, &at, values, 8) == EDGEBPF_LENGTHS);
    CHECK(edgebpf_pairs(g, p, &byte, 1, all, 8, all, 8, &at, values, 7) == EDGEBPF_LENGTHS);
    CHECK(edgebpf_pairs(g, p, &byte, 1, all, 8, all, 8, &at, values, 8) == EDGEBPF_ARGUMENT_LENGTH);
    CHECK(edgebpf_pairs(g, p, EDGEBPF_NO_BYTES, 0, all, 8, all, 8, &at, values, 8) == EDGEBPF_PROGRESS);
    CHECK(!memcmp(&at, &before, sizeof at) && values[0] == 1 && values[1] == 2 && values[2] == 3 && values[3] == 0 && written == 9);
    before = at = (edgebpf_progress){3, 5, 6, 1, 1}; /* pairs have no place */
    CHECK(edgebpf_pairs(g, p, EDGEBPF_NO_BYTES, 0, all, 8, all, 8, &at, values, 8) == EDGEBPF_PROGRESS && !memcmp(&at, &before, sizeof at));
}

/* A frontier of more vertices than a graph may have. It is never read, so the system gives it no memory. */
static void refuses_a_long_frontier(void) {
    const size_t count = (size_t)EDGEBPF_MOST_VERTICES + 1;
    uint32_t *frontier = calloc(count, sizeof *frontier);
    uint64_t *many = calloc(count, sizeof *many);
    uint8_t byte = 0;
    size_t written = 9;
    edgebpf_progress at = {0};
    edgebpf_totals totals = {9, 9};
    edgebpf_version *g = &graph;
    edgebpf_program *p = &targets_of;
    CHECK(frontier && many);
    CHECK(edgebpf_run(g, p, &byte, 1, frontier, count, EDGEBPF_SUM, many, count, &totals) == EDGEBPF_LENGTHS);
    CHECK(edgebpf_run_some(g, p, &byte, 0, frontier, count, EDGEBPF_SUM, &at, many, count) == EDGEBPF_LENGTHS);
    CHECK(edgebpf_numbers_some(g, p, &byte, 1, frontier, count, &at, many, 1, &written) == EDGEBPF_LENGTHS);
    CHECK(stands(&at, 0, 0, 0, 0) && written == 9 && totals.edges == 9 && totals.total == 9);
    free(frontier);
    free(many);
}

/* A program with a bound of 946,010 instructions by local calls, all of which each run takes: functions of 21 calls, three deep, and one of 101
   instructions. Its number is 7. */
static void takes_the_hostile_program(edgebpf_program *program) {
    enum { LEVELS = 3, CALLS = 21, LAST = 100 };
    char text[8192];
    uint8_t code[8 * 256];
    size_t length = 0;
    edgebpf_assembled assembled;
    edgebpf_verdict verdict;
    for (int level = 0; level < LEVELS; level++) {
        length += (size_t)sprintf(text + length, "f%d:\n", level);
        for (int call = 0; call < CALLS; call++) length += (size_t)sprintf(text + length, "calllocal f%d\n", level + 1);
        length += (size_t)sprintf(text + length, "mov r0, 7\nexit\n");
    }
    length += (size_t)sprintf(text + length, "f%d:\n", LEVELS);
    for (int place = 0; place < LAST; place++) length += (size_t)sprintf(text + length, "mov r0, 1\n");
    length += (size_t)sprintf(text + length, "exit\n");
    CHECK(length < sizeof text);
    CHECK(edgebpf_assemble((const uint8_t *)text, length, code, sizeof code, &assembled) == EDGEBPF_DONE);
    CHECK(edgebpf_program_new(16, code, assembled.length, EDGEBPF_NO_BYTES, 0, &verdict, program) == EDGEBPF_DONE);
    CHECK(verdict.bound == 946010 && verdict.frames == 4);
}

/* A run that takes a million instructions an edge is paused after each edge, billed for it, left where it is, and ended where another one goes on. */
static void pauses_a_hostile_program(void) {
    const uint64_t an_edge = 946010 + 4, wanted[VERTICES] = {14, 14, 21, 14, 7, 7, 7, 0};
    edgebpf_program hostile = {{0}};
    edgebpf_progress at = {0}, kept;
    uint64_t values[VERTICES];
    takes_the_hostile_program(&hostile);
    for (uint64_t edges = 1; edges <= 4; edges++) {
        at.budget = 1;
        CHECK(edgebpf_run_some(&graph, &hostile, EDGEBPF_NO_BYTES, 0, all, VERTICES, EDGEBPF_SUM, &at, values, VERTICES) == EDGEBPF_DONE);
        CHECK(at.budget == 0 && at.edges == edges && at.total == 7 * edges);
    }
    at.budget = 3 * an_edge;
    CHECK(edgebpf_run_some(&graph, &hostile, EDGEBPF_NO_BYTES, 0, all, VERTICES, EDGEBPF_SUM, &at, values, VERTICES) == EDGEBPF_DONE);
    /* Three edges of vertex 2 cost just that, so none of vertex 3 is begun. */
    CHECK(at.budget == 0 && stands(&at, 3, 0, 7, 49));
    /* Whoever calls no more has cancelled it. It may also be kept, and go on later: all that is left costs no more than its edges and vertices. */
    kept = at;
    kept.budget = 12 * an_edge;
    CHECK(edgebpf_run_some(&graph, &hostile, EDGEBPF_NO_BYTES, 0, all, VERTICES, EDGEBPF_SUM, &kept, values, VERTICES) == EDGEBPF_DONE);
    CHECK(stands(&kept, VERTICES, 0, 12, 84) && !memcmp(values, wanted, sizeof wanted));
    CHECK(12 * an_edge - kept.budget <= (12 - at.edges) * an_edge + 16 * (VERTICES - at.vertex));
    edgebpf_close_program(&hostile);
}

int main(void) {
    builds_the_graph();
    runs_edge_by_edge();
    runs_by_the_budget();
    passes_vertices_by_the_budget();
    runs_as_a_whole();
    runs_the_least_of_few();
    runs_over_a_range();
    refuses_ranges();
    numbers_a_frontier();
    numbers_pairs();
    refuses_places();
    refuses_the_rest();
    refuses_a_long_frontier();
    pauses_a_hostile_program();
    edgebpf_close_version(&graph);
    edgebpf_close_store(&store);
    edgebpf_close_program(&targets_of);
    puts("runs and numbers in parts, and pairs");
    return 0;
}
