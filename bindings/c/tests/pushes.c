/* Pushes the numbers of edges into the values of their targets, on graphs whose answers were found by hand: rows, search, components, blocks
   and pauses; and meets each call that is refused. */
#include "check.h"

enum { SMALL = 4, VERTICES = 8, BLOCKS = 1000 };

static edgebpf_store small_store, store;
static edgebpf_version small, graph;
static edgebpf_program of_source, of_argument, one;

/* ldxdw r0, [r1+16]; exit: the first number after the edge, an argument's or the source's of a column. */
static const uint8_t first_number[] = {0x79, 0x10, 16, 0, 0, 0, 0, 0, 0x95, 0, 0, 0, 0, 0, 0, 0};
/* mov r0, 1; exit */
static const uint8_t says_one[] = {0xb7, 0, 0, 0, 1, 0, 0, 0, 0x95, 0, 0, 0, 0, 0, 0, 0};
static const uint32_t all[VERTICES] = {0, 1, 2, 3, 4, 5, 6, 7};
static const uint64_t y[SMALL] = {1, 10, 100, 1000};
static const edgebpf_column y_alone[] = {{y, SMALL}};

static void loads(const uint8_t *code, size_t length, uint16_t record, edgebpf_program *out) {
    edgebpf_verdict verdict;
    CHECK(edgebpf_program_new(record, code, length, EDGEBPF_NO_BYTES, 0, &verdict, out) == EDGEBPF_DONE);
}

/* 0-1, 0-2, 1-2 and 3-2 of four vertices; 0-1, 0-2, 1-2, 2-3, 3-4 and 5-6, both ways, of eight. */
static void builds_the_graphs(void) {
    const uint32_t few_sources[] = {0, 0, 1, 3}, few_targets[] = {1, 2, 2, 2};
    const uint32_t sources[] = {0, 0, 1, 2, 3, 5, 1, 2, 2, 3, 4, 6}, targets[] = {1, 2, 2, 3, 4, 6, 0, 0, 1, 2, 3, 5};
    const uint8_t removes[12] = {0};
    edgebpf_change change;
    CHECK(edgebpf_store_new(SMALL, &small_store) == EDGEBPF_DONE);
    CHECK(edgebpf_store_apply(&small_store, 0, few_sources, 4, few_targets, 4, removes, 4, &change) == EDGEBPF_DONE);
    CHECK(edgebpf_store_pin(&small_store, &small) == EDGEBPF_DONE);
    CHECK(edgebpf_store_new(VERTICES, &store) == EDGEBPF_DONE);
    CHECK(edgebpf_store_apply(&store, 0, sources, 12, targets, 12, removes, 12, &change) == EDGEBPF_DONE && change.added == 12);
    CHECK(edgebpf_store_pin(&store, &graph) == EDGEBPF_DONE);
    loads(first_number, sizeof first_number, 32, &of_source);
    loads(first_number, sizeof first_number, 24, &of_argument);
    loads(says_one, sizeof says_one, 16, &one);
}

static void pushes_the_rows(void) {
    static const uint32_t ends[] = {0, 3}, twice[] = {0, 0};
    static const struct {
        const uint32_t *frontier;
        size_t count;
        uint32_t reduction;
        uint64_t begins, values[SMALL], edges, total;
    } rows[] = {
        {all, SMALL, EDGEBPF_SUM, 0, {0, 1, 1011, 0}, 4, 1012},
        {all, SMALL, EDGEBPF_SUM, UINT64_MAX, {UINT64_MAX, 0, 1010, UINT64_MAX}, 4, 1012},
        {all, SMALL, EDGEBPF_MIN, UINT64_MAX, {UINT64_MAX, 1, 1, UINT64_MAX}, 4, 1},
        {ends, 2, EDGEBPF_MAX, 5, {5, 5, 1000, 5}, 3, 1000},
        {twice, 2, EDGEBPF_SUM, 0, {0, 2, 2, 0}, 4, 4},
        {all, 0, EDGEBPF_SUM, 7, {7, 7, 7, 7}, 0, 0},
    };
    for (size_t row = 0; row < COUNT(rows); row++) {
        for (uint64_t budget = 0; budget < 50; budget++) {
            uint64_t whole[SMALL], parts[SMALL];
            edgebpf_totals totals = {77, 77};
            edgebpf_progress at = {.budget = 0};
            for (size_t vertex = 0; vertex < SMALL; vertex++) whole[vertex] = parts[vertex] = rows[row].begins;
            CHECK(edgebpf_push(&small, &of_source, EDGEBPF_NO_BYTES, 0, y_alone, 1, rows[row].frontier, rows[row].count, rows[row].reduction,
                               whole, SMALL, &totals) == EDGEBPF_DONE);
            CHECK(totals.edges == rows[row].edges && totals.total == rows[row].total);
            do {
                at.budget = budget;
                CHECK(edgebpf_push_some(&small, &of_source, EDGEBPF_NO_BYTES, 0, y_alone, 1, rows[row].frontier, rows[row].count,
                                        rows[row].reduction, &at, parts, SMALL) == EDGEBPF_DONE);
            } while (at.vertex < rows[row].count);
            CHECK(at.edges == rows[row].edges && at.total == rows[row].total);
            for (size_t vertex = 0; vertex < SMALL; vertex++)
                CHECK(whole[vertex] == rows[row].values[vertex] && parts[vertex] == rows[row].values[vertex]);
        }
    }
}

/* The vertices whose value is another than before, in turn. */
static size_t which_changed(const uint64_t *before, const uint64_t *after, uint32_t *out) {
    size_t count = 0;
    for (uint32_t vertex = 0; vertex < VERTICES; vertex++)
        if (before[vertex] != after[vertex]) out[count++] = vertex;
    return count;
}

/* Hops from vertex 0, by pushes of the level from what the one before reached. */
static void searches_by_levels(void) {
    static const uint32_t fronts[][2] = {{1, 2}, {3, 0}, {4, 0}, {0, 0}};
    static const size_t sizes[] = {2, 1, 1, 0};
    uint64_t hops[VERTICES] = {0}, before[VERTICES];
    uint32_t front[VERTICES] = {0};
    size_t count = 1;
    edgebpf_totals totals;
    for (size_t vertex = 1; vertex < VERTICES; vertex++) hops[vertex] = UINT64_MAX;
    for (uint8_t level = 1; level <= 4; level++) {
        const uint8_t argument[8] = {level};
        memcpy(before, hops, sizeof hops);
        CHECK(edgebpf_push(&graph, &of_argument, argument, 8, y_alone, 0, front, count, EDGEBPF_MIN, hops, VERTICES, &totals) == 0);
        count = which_changed(before, hops, front);
        CHECK(count == sizes[level - 1] && !memcmp(front, fronts[level - 1], count * sizeof *front));
    }
    static const uint64_t levels[VERTICES] = {0, 1, 1, 2, 3, UINT64_MAX, UINT64_MAX, UINT64_MAX};
    CHECK(!memcmp(hops, levels, sizeof hops));
}

/* Components, by pushes of labels from those that changed. The column is a copy of the labels: nothing reads what it writes. */
static void labels_components(void) {
    static const uint64_t rounds[][VERTICES] = {{0, 0, 0, 2, 3, 5, 5, 7}, {0, 0, 0, 0, 2, 5, 5, 7}, {0, 0, 0, 0, 0, 5, 5, 7}};
    uint64_t labels[VERTICES], copy[VERTICES];
    uint32_t front[VERTICES];
    size_t count = VERTICES;
    edgebpf_totals totals;
    for (uint32_t vertex = 0; vertex < VERTICES; vertex++) labels[vertex] = front[vertex] = vertex;
    for (size_t round = 0; round < 3; round++) {
        memcpy(copy, labels, sizeof labels);
        const edgebpf_column columns[] = {{copy, VERTICES}};
        CHECK(edgebpf_push(&graph, &of_source, EDGEBPF_NO_BYTES, 0, columns, 1, front, count, EDGEBPF_MIN, labels, VERTICES, &totals) == 0);
        CHECK(!memcmp(labels, rounds[round], sizeof labels));
        count = which_changed(copy, labels, front);
    }
    CHECK(count == 1 && front[0] == 4);
}

/* What a push of ones counts is how many edges lead to a vertex: in blocks, in slices, and edge by edge. */
static void counts_edges_to_each(void) {
    static uint32_t sources[3 * BLOCKS], targets[3 * BLOCKS], every[BLOCKS];
    static uint8_t removes[3 * BLOCKS];
    static uint64_t counts[BLOCKS], parts[BLOCKS], wanted[BLOCKS];
    edgebpf_store many;
    edgebpf_version version;
    edgebpf_change change;
    edgebpf_totals totals;
    size_t edits = 0;
    many = (edgebpf_store){{0}}, version = (edgebpf_version){{0}};
    for (uint32_t vertex = 0; vertex < BLOCKS; vertex++) {
        every[vertex] = vertex;
        /* A hub that leads to all, and from each vertex an edge to half of its number, and one to the hub. */
        const uint32_t lead[][2] = {{3, vertex}, {vertex, vertex / 2}, {vertex, 3}};
        for (size_t at = 0; at < 3; at++) {
            sources[edits] = lead[at][0], targets[edits] = lead[at][1];
            edits++;
        }
    }
    CHECK(edgebpf_store_new(BLOCKS, &many) == 0 && edgebpf_store_apply(&many, 0, sources, edits, targets, edits, removes, edits, &change) == 0);
    CHECK(edgebpf_store_pin(&many, &version) == 0);
    for (uint32_t source = 0; source < BLOCKS; source++)
        for (uint32_t target = 0; target < BLOCKS; target++)
            wanted[target] += source == 3 || target == 3 || target == source / 2;
    CHECK(edgebpf_push(&version, &one, EDGEBPF_NO_BYTES, 0, y_alone, 0, every, BLOCKS, EDGEBPF_SUM, counts, BLOCKS, &totals) == 0);
    CHECK(totals.edges == totals.total && !memcmp(counts, wanted, sizeof counts));
    edgebpf_progress at = {.budget = 0};
    for (uint64_t step = 0; at.vertex < BLOCKS; step++) {
        at.budget = step % 700;
        CHECK(edgebpf_push_some(&version, &one, EDGEBPF_NO_BYTES, 0, y_alone, 0, every, BLOCKS, EDGEBPF_SUM, &at, parts, BLOCKS) == 0);
    }
    CHECK(at.edges == totals.edges && at.total == totals.total && !memcmp(parts, wanted, sizeof parts));
    edgebpf_close_version(&version);
    edgebpf_close_store(&many);
}

static void refused(uint32_t status, size_t argument, const edgebpf_column *columns, size_t count, uint32_t reduction, size_t values) {
    const uint8_t bytes[32] = {0};
    uint64_t kept[VERTICES] = {1, 2, 3, 4, 5, 6, 7, 8}, same[VERTICES] = {1, 2, 3, 4, 5, 6, 7, 8};
    edgebpf_totals totals = {5, 6};
    edgebpf_progress at = {9, 8, 7, 0, 0};
    CHECK(edgebpf_push(&small, &of_source, bytes, argument, columns, count, all, SMALL, reduction, kept, values, &totals) == status);
    CHECK(edgebpf_push_some(&small, &of_source, bytes, argument, columns, count, all, SMALL, reduction, &at, kept, values) == status);
    CHECK(!memcmp(kept, same, sizeof kept) && totals.edges == 5 && totals.total == 6);
    CHECK(at.budget == 9 && at.edges == 8 && at.total == 7 && at.vertex == 0 && at.place == 0);
}

static void refuses_what_does_not_fit(void) {
    const edgebpf_column shorter[] = {{y, SMALL - 1}}, nine[9] = {{y, SMALL}};
    refused(EDGEBPF_REDUCTION, 1, shorter, 1, 3, 1);
    refused(EDGEBPF_LENGTHS, 1, shorter, 1, EDGEBPF_SUM, SMALL - 1);
    refused(EDGEBPF_LENGTHS, 0, y_alone, 1, EDGEBPF_SUM, SMALL + 1);
    refused(EDGEBPF_COLUMNS, 1, shorter, 1, EDGEBPF_SUM, SMALL);
    refused(EDGEBPF_COLUMNS, 0, nine, 9, EDGEBPF_SUM, SMALL);
    refused(EDGEBPF_ARGUMENT_LENGTH, 1, y_alone, 1, EDGEBPF_SUM, SMALL);
    uint64_t kept[SMALL] = {1, 2, 3, 4};
    const edgebpf_progress wrong[] = {{9, 8, 7, SMALL + 1, 0}, {9, 8, 7, SMALL, 1}, {9, 8, 7, 0, 3}, {9, 8, 7, UINT32_MAX, UINT32_MAX}};
    for (size_t row = 0; row < COUNT(wrong); row++) {
        edgebpf_progress at = wrong[row];
        CHECK(edgebpf_push_some(&small, &of_source, EDGEBPF_NO_BYTES, 0, y_alone, 1, all, SMALL, EDGEBPF_SUM, &at, kept, SMALL) == EDGEBPF_PROGRESS);
        CHECK(!memcmp(&at, &wrong[row], sizeof at) && kept[0] == 1 && kept[3] == 4);
    }
    edgebpf_version empty = {{0}};
    edgebpf_program none = {{0}};
    edgebpf_totals totals = {5, 6};
    CHECK(edgebpf_push(&empty, &of_source, EDGEBPF_NO_BYTES, 0, y_alone, 1, all, SMALL, EDGEBPF_SUM, kept, SMALL, &totals) == EDGEBPF_EMPTY);
    CHECK(edgebpf_push(&small, &none, EDGEBPF_NO_BYTES, 0, y_alone, 1, all, SMALL, EDGEBPF_SUM, kept, SMALL, &totals) == EDGEBPF_EMPTY);
    CHECK(totals.edges == 5 && kept[1] == 2);
}

int main(void) {
    builds_the_graphs();
    pushes_the_rows();
    searches_by_levels();
    labels_components();
    counts_edges_to_each();
    refuses_what_does_not_fit();
    edgebpf_close_program(&one);
    edgebpf_close_program(&of_argument);
    edgebpf_close_program(&of_source);
    edgebpf_close_version(&graph);
    edgebpf_close_version(&small);
    edgebpf_close_store(&store);
    edgebpf_close_store(&small_store);
    puts("pushes into the values of targets");
    return 0;
}
