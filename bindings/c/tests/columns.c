/* Runs, numbers and pairs whose records have the numbers of columns, on a graph of eight vertices whose answers were found by hand, and
   meets each call that is refused. */
#include "check.h"

enum { VERTICES = 8 };

static edgebpf_store store;
static edgebpf_version graph;
static edgebpf_program number_of_target, number_of_source, risk_of_target;

static const uint32_t all[VERTICES] = {0, 1, 2, 3, 4, 5, 6, 7};
static const uint64_t x[VERTICES] = {10, 20, 30, 40, 50, 60, 70, 80};
static const edgebpf_column x_alone[] = {{x, VERTICES}};

/* ldxdw r0, [r1+24]; exit, and the same of [r1+16]: a record without an argument begins its ends at 16. */
static const uint8_t target_end[] = {0x79, 0x10, 24, 0, 0, 0, 0, 0, 0x95, 0, 0, 0, 0, 0, 0, 0};
static const uint8_t source_end[] = {0x79, 0x10, 16, 0, 0, 0, 0, 0, 0x95, 0, 0, 0, 0, 0, 0, 0};

/* Of a record with an argument of a number and two columns, risk and land: the target's risk, 0 below the argument, twice as much where
   the lands of the ends differ. */
static const char risk_text[] =
    "ldxdw r0, [r1+32]\nldxdw r2, [r1+16]\njge r0, r2, known\nmov r0, 0\nknown:\nldxdw r2, [r1+40]\nldxdw r3, [r1+48]\n"
    "jeq r2, r3, same\nlsh r0, 1\nsame:\nexit\n";

static void loads(const uint8_t *code, size_t length, uint16_t record, edgebpf_program *out) {
    edgebpf_verdict verdict;
    CHECK(edgebpf_program_new(record, code, length, EDGEBPF_NO_BYTES, 0, &verdict, out) == EDGEBPF_DONE);
}

/* 0-1, 0-2, 1-2, 2-3, 3-4 and 5-6, both ways. */
static void builds_the_graph(void) {
    const uint32_t sources[] = {0, 0, 1, 2, 3, 5, 1, 2, 2, 3, 4, 6}, targets[] = {1, 2, 2, 3, 4, 6, 0, 0, 1, 2, 3, 5};
    const uint8_t removes[12] = {0};
    uint8_t code[256];
    edgebpf_change change;
    edgebpf_assembled assembled;
    CHECK(edgebpf_store_new(VERTICES, &store) == EDGEBPF_DONE);
    CHECK(edgebpf_store_apply(&store, 0, sources, 12, targets, 12, removes, 12, &change) == EDGEBPF_DONE && change.added == 12);
    CHECK(edgebpf_store_pin(&store, &graph) == EDGEBPF_DONE);
    loads(target_end, sizeof target_end, 32, &number_of_target);
    loads(source_end, sizeof source_end, 32, &number_of_source);
    CHECK(edgebpf_assemble((const uint8_t *)risk_text, sizeof risk_text - 1, code, sizeof code, &assembled) == EDGEBPF_DONE);
    loads(code, assembled.length, 56, &risk_of_target);
}

static uint32_t pulls(edgebpf_program *program, const uint32_t *frontier, size_t count, uint32_t reduction, uint64_t *values,
                      edgebpf_totals *totals) {
    return edgebpf_pull(&graph, program, EDGEBPF_NO_BYTES, 0, x_alone, 1, frontier, count, reduction, values, count, totals);
}

static void pulls_the_rows(void) {
    static const struct { uint32_t reduction; uint64_t values[VERTICES]; } rows[] = {
        {EDGEBPF_SUM, {50, 40, 70, 80, 40, 70, 60, 0}},
        {EDGEBPF_MIN, {20, 10, 10, 30, 40, 70, 60, UINT64_MAX}},
        {EDGEBPF_MAX, {30, 30, 40, 50, 40, 70, 60, 0}},
    };
    static const uint32_t twice[] = {2, 2, 7}, degrees[VERTICES] = {2, 2, 3, 2, 1, 1, 1, 0};
    uint64_t values[VERTICES];
    edgebpf_totals totals;
    for (size_t row = 0; row < COUNT(rows); row++) {
        CHECK(pulls(&number_of_target, all, VERTICES, rows[row].reduction, values, &totals) == EDGEBPF_DONE && totals.edges == 12);
        CHECK(!memcmp(values, rows[row].values, sizeof values));
    }
    CHECK(pulls(&number_of_target, twice, 3, EDGEBPF_SUM, values, &totals) == EDGEBPF_DONE && totals.edges == 6 && totals.total == 140);
    CHECK(values[0] == 70 && values[1] == 70 && values[2] == 0);
    /* Each edge has its source's number: as often as it has neighbours. */
    CHECK(pulls(&number_of_source, all, VERTICES, EDGEBPF_SUM, values, &totals) == EDGEBPF_DONE);
    for (int vertex = 0; vertex < VERTICES; vertex++) CHECK(values[vertex] == degrees[vertex] * x[vertex]);
}

/* A program that writes where its record has the numbers: each edge finds its own, and `x`, which is constant, is not written. */
static void stores_into_the_ends(void) {
    /* ldxdw r0, [r1+24]; stdw [r1+16], 7; stdw [r1+24], 9; exit */
    static const uint8_t code[] = {0x79, 0x10, 24, 0, 0, 0, 0, 0, 0x7a, 1, 16, 0, 7, 0, 0, 0, 0x7a, 1, 24, 0, 9, 0, 0, 0, 0x95, 0, 0, 0, 0, 0, 0, 0};
    static const uint64_t sums[VERTICES] = {50, 40, 70, 80, 40, 70, 60, 0};
    uint64_t values[VERTICES];
    edgebpf_program writes = {{0}};
    edgebpf_totals totals;
    loads(code, sizeof code, 32, &writes);
    CHECK(pulls(&writes, all, VERTICES, EDGEBPF_SUM, values, &totals) == EDGEBPF_DONE && !memcmp(values, sums, sizeof sums));
    for (uint64_t vertex = 0; vertex < VERTICES; vertex++) CHECK(x[vertex] == 10 * (vertex + 1));
    edgebpf_close_program(&writes);
}

static void scores_by_two_columns(void) {
    static const uint64_t risk[VERTICES] = {3, 9, 4, 7, 1, 8, 2, 6}, land[VERTICES] = {1, 1, 2, 2, 1, 1, 3, 3};
    static const uint64_t greatest[VERTICES] = {9, 8, 18, 4, 14, 0, 16, 0}, sums[VERTICES] = {17, 8, 25, 4, 14, 0, 16, 0};
    const edgebpf_column columns[] = {{risk, VERTICES}, {land, VERTICES}};
    const uint8_t four[8] = {4};
    uint64_t values[VERTICES];
    edgebpf_totals totals;
    CHECK(edgebpf_pull(&graph, &risk_of_target, four, 8, columns, 2, all, VERTICES, EDGEBPF_MAX, values, VERTICES, &totals) == 0);
    CHECK(!memcmp(values, greatest, sizeof values));
    CHECK(edgebpf_pull(&graph, &risk_of_target, four, 8, columns, 2, all, VERTICES, EDGEBPF_SUM, values, VERTICES, &totals) == 0);
    CHECK(!memcmp(values, sums, sizeof values) && totals.total == 84);
}

/* In whole numbers, one is 10^9: a rank is 15 parts of 100 shared by all, and 85 of those that lead to it. */
static void ranks_by_rounds(void) {
    static const struct { int rounds; uint64_t ranks[VERTICES]; } rows[] = {
        {1, {107291666, 107291666, 178125000, 160416666, 71875000, 125000000, 125000000, 18750000}},
        {3, {118016274, 118016274, 171727862, 143106769, 74132812, 125000000, 125000000, 18750000}},
        {20, {119882822, 119882822, 177149872, 132846313, 75238138, 125000000, 125000000, 18750000}},
    };
    const uint64_t one = 1000000000;
    uint64_t ranks[VERTICES], gives[VERTICES], taken[VERTICES];
    const edgebpf_column columns[] = {{gives, VERTICES}};
    edgebpf_totals totals;
    int round = 0;
    for (int vertex = 0; vertex < VERTICES; vertex++) ranks[vertex] = one / VERTICES;
    for (size_t row = 0; row < COUNT(rows); row++) {
        for (; round < rows[row].rounds; round++) {
            for (uint32_t vertex = 0; vertex < VERTICES; vertex++) {
                uint32_t degree;
                CHECK(edgebpf_version_degree(&graph, vertex, &degree) == EDGEBPF_DONE);
                gives[vertex] = degree ? ranks[vertex] * 85 / (100 * degree) : 0;
            }
            CHECK(edgebpf_pull(&graph, &number_of_target, EDGEBPF_NO_BYTES, 0, columns, 1, all, VERTICES, EDGEBPF_SUM, taken, VERTICES, &totals) == 0);
            for (int vertex = 0; vertex < VERTICES; vertex++) ranks[vertex] = 15 * one / (100 * VERTICES) + taken[vertex];
        }
        CHECK(!memcmp(ranks, rows[row].ranks, sizeof ranks));
    }
}

/* The least label of a component reaches all of it. */
static void labels_components(void) {
    uint64_t labels[VERTICES], taken[VERTICES];
    const edgebpf_column columns[] = {{labels, VERTICES}};
    edgebpf_totals totals;
    int changed = 1, rounds = 0;
    for (int vertex = 0; vertex < VERTICES; vertex++) labels[vertex] = vertex;
    for (; changed; rounds++) {
        changed = 0;
        CHECK(edgebpf_pull(&graph, &number_of_target, EDGEBPF_NO_BYTES, 0, columns, 1, all, VERTICES, EDGEBPF_MIN, taken, VERTICES, &totals) == 0);
        for (int vertex = 0; vertex < VERTICES; vertex++)
            if (taken[vertex] < labels[vertex]) labels[vertex] = taken[vertex], changed = 1;
    }
    CHECK(rounds == 4 && !memcmp(labels, ((uint64_t[]){0, 0, 0, 0, 0, 5, 5, 7}), sizeof labels));
}

static void goes_on_with_pauses(void) {
    for (uint64_t budget = 0; budget < 100; budget++) {
        edgebpf_progress at = {0};
        uint64_t values[VERTICES];
        do {
            at.budget = budget;
            CHECK(edgebpf_pull_some(&graph, &number_of_target, EDGEBPF_NO_BYTES, 0, x_alone, 1, all, VERTICES, EDGEBPF_SUM, &at, values, VERTICES) == 0);
        } while (at.vertex < VERTICES);
        CHECK(at.edges == 12 && at.total == 410 && !memcmp(values, ((uint64_t[]){50, 40, 70, 80, 40, 70, 60, 0}), sizeof values));
    }
}

/* The numbers of a frontier's edges, and of pairs, of which some are no edges and some outside the graph. */
static void numbers_edges_and_pairs(void) {
    static const uint32_t frontier[] = {2, 0, 7, 5}, sources[] = {0, 0, 7, 9, 1}, targets[] = {1, 3, 0, 1, 9};
    uint64_t numbers[6];
    size_t written;
    edgebpf_progress at = {UINT64_MAX, 0, 0, 0, 0};
    CHECK(edgebpf_numbers_of(&graph, &number_of_target, EDGEBPF_NO_BYTES, 0, x_alone, 1, frontier, 4, &at, numbers, 6, &written) == 0);
    CHECK(written == 6 && at.vertex == 4 && !memcmp(numbers, ((uint64_t[]){10, 20, 40, 20, 30, 70}), sizeof numbers));
    at = (edgebpf_progress){UINT64_MAX, 0, 0, 0, 0};
    CHECK(edgebpf_pairs_of(&graph, &number_of_target, EDGEBPF_NO_BYTES, 0, x_alone, 1, sources, 5, targets, 5, &at, numbers, 5) == 0);
    CHECK(at.vertex == 5 && !memcmp(numbers, ((uint64_t[]){20, 40, 10, 20, 0}), 5 * sizeof *numbers));
    at = (edgebpf_progress){UINT64_MAX, 0, 0, 0, 0};
    CHECK(edgebpf_pairs_of(&graph, &number_of_source, EDGEBPF_NO_BYTES, 0, x_alone, 1, sources, 5, targets, 5, &at, numbers, 5) == 0);
    CHECK(!memcmp(numbers, ((uint64_t[]){10, 10, 80, 0, 20}), 5 * sizeof *numbers));
}

static void refuses(const edgebpf_column *columns, size_t count, size_t argument, uint32_t reduction, uint32_t status) {
    static const uint8_t bytes[240];
    uint64_t values[VERTICES], numbers[16];
    size_t written = 99;
    edgebpf_totals totals = {7, 7};
    edgebpf_progress at = {5, 6, 7, 0, 0};
    memset(values, 9, sizeof values);
    memset(numbers, 9, sizeof numbers);
    CHECK(edgebpf_pull(&graph, &number_of_target, bytes, argument, columns, count, all, VERTICES, reduction, values, VERTICES, &totals) == status);
    CHECK(edgebpf_pull_some(&graph, &number_of_target, bytes, argument, columns, count, all, VERTICES, reduction, &at, values, VERTICES) == status);
    CHECK(totals.edges == 7 && totals.total == 7 && at.budget == 5 && at.edges == 6 && at.total == 7);
    for (int vertex = 0; vertex < VERTICES; vertex++) CHECK(values[vertex] == UINT64_MAX / 255 * 9);
    if (reduction > EDGEBPF_MAX) return;
    CHECK(edgebpf_numbers_of(&graph, &number_of_target, bytes, argument, columns, count, all, VERTICES, &at, numbers, 16, &written) == status);
    CHECK(edgebpf_pairs_of(&graph, &number_of_target, bytes, argument, columns, count, all, VERTICES, all, VERTICES, &at, numbers, VERTICES) == status);
    CHECK(written == 99 && at.budget == 5 && at.edges == 6);
    for (int place = 0; place < 16; place++) CHECK(numbers[place] == UINT64_MAX / 255 * 9);
}

static void refuses_columns(void) {
    static const uint64_t longer[VERTICES + 1];
    const edgebpf_column shorter = {x, VERTICES - 1}, empty = {x, 0}, beyond = {longer, VERTICES + 1};
    edgebpf_column nine[9];
    for (int place = 0; place < 9; place++) nine[place] = x_alone[0];
    refuses(&shorter, 1, 0, EDGEBPF_SUM, EDGEBPF_COLUMNS);
    refuses(&beyond, 1, 0, EDGEBPF_SUM, EDGEBPF_COLUMNS);
    refuses(&empty, 1, 0, EDGEBPF_SUM, EDGEBPF_COLUMNS);
    refuses(nine, 9, 0, EDGEBPF_SUM, EDGEBPF_COLUMNS);
    /* A column too many is told before an argument that does not fit, and a reduction before both. */
    refuses(&shorter, 1, 8, EDGEBPF_SUM, EDGEBPF_COLUMNS);
    refuses(x_alone, 1, 8, EDGEBPF_SUM, EDGEBPF_ARGUMENT_LENGTH);
    refuses(nine, 2, 0, EDGEBPF_SUM, EDGEBPF_ARGUMENT_LENGTH);
    refuses(nine, 8, 0, EDGEBPF_SUM, EDGEBPF_ARGUMENT_LENGTH);
    refuses(&shorter, 1, 8, 3, EDGEBPF_REDUCTION);
}

/* A program sees bytes: with no column they are the argument's, as ever. */
static void takes_an_argument_in_place(void) {
    const uint8_t argument[16] = {0, 0, 0, 0, 0, 0, 0, 0, 5};
    uint64_t values[VERTICES];
    edgebpf_totals totals;
    CHECK(edgebpf_run(&graph, &number_of_target, argument, 16, all, VERTICES, EDGEBPF_SUM, values, VERTICES, &totals) == 0);
    CHECK(totals.edges == 12 && totals.total == 60);
    CHECK(edgebpf_pull(&graph, &number_of_target, argument, 16, x_alone, 0, all, VERTICES, EDGEBPF_SUM, values, VERTICES, &totals) == 0);
    CHECK(totals.edges == 12 && totals.total == 60);
}

/* A hub runs by blocks, and its first and last edges as the others: eight columns, of which a program adds all sixteen numbers. */
static void pulls_a_hub(void) {
    enum { MANY = 1000 };
    static uint64_t columns_of[8][MANY], values[1];
    static uint32_t sources[MANY], targets[MANY];
    static uint8_t removes[MANY];
    const uint32_t hub = 3;
    uint8_t code[34 * 8] = {0xb7, 0};
    edgebpf_column columns[8];
    edgebpf_store wide = {0};
    edgebpf_version version = {0};
    edgebpf_program sums = {0};
    edgebpf_change change;
    edgebpf_totals totals;
    uint64_t expected = 0;
    /* mov r0, 0; and for each end ldxdw r2, [r1+16+8 j]; add r0, r2; at last exit */
    for (int end = 0; end < 16; end++) {
        uint8_t *unit = code + 8 + 16 * end;
        unit[0] = 0x79, unit[1] = 0x12, unit[2] = 16 + 8 * end, unit[8] = 0x0f, unit[9] = 0x20;
    }
    code[8 + 16 * 16] = 0x95;
    for (int column = 0; column < 8; column++) {
        for (int vertex = 0; vertex < MANY; vertex++) columns_of[column][vertex] = (uint64_t)random_below(1u << 30) << 34 | random_below(1u << 30);
        columns[column] = (edgebpf_column){columns_of[column], MANY};
    }
    for (uint32_t vertex = 0; vertex < MANY; vertex++) sources[vertex] = hub, targets[vertex] = vertex;
    CHECK(edgebpf_store_new(MANY, &wide) == 0 && edgebpf_store_apply(&wide, 0, sources, MANY, targets, MANY, removes, MANY, &change) == 0);
    CHECK(edgebpf_store_pin(&wide, &version) == 0);
    loads(code, sizeof code, 144, &sums);
    for (int end = 0; end < 16; end++)
        for (int vertex = 0; vertex < MANY; vertex++) expected += columns_of[end / 2][end % 2 ? vertex : (int)hub];
    CHECK(edgebpf_pull(&version, &sums, EDGEBPF_NO_BYTES, 0, columns, 8, &hub, 1, EDGEBPF_SUM, values, 1, &totals) == 0);
    CHECK(totals.edges == MANY && values[0] == expected && totals.total == expected);
    edgebpf_close_program(&sums);
    edgebpf_close_version(&version);
    edgebpf_close_store(&wide);
}

int main(void) {
    builds_the_graph();
    pulls_the_rows();
    stores_into_the_ends();
    scores_by_two_columns();
    ranks_by_rounds();
    labels_components();
    goes_on_with_pauses();
    numbers_edges_and_pairs();
    refuses_columns();
    takes_an_argument_in_place();
    pulls_a_hub();
    edgebpf_close_program(&risk_of_target);
    edgebpf_close_program(&number_of_source);
    edgebpf_close_program(&number_of_target);
    edgebpf_close_version(&graph);
    edgebpf_close_store(&store);
    puts("records with the numbers of columns");
    return 0;
}
