/* Asks whether answers of a search, of components, of cores and of an independent set are right, on a graph of eight vertices: those that were
   found by hand, and each of them with one entry changed. */
#include "check.h"

enum { VERTICES = 8 };

static edgebpf_store store;
static edgebpf_version graph, turned;
static const uint32_t far = UINT32_MAX;

/* 0-1, 0-2, 1-2, 2-3, 3-4 and 5-6, both ways; and once more without the edges that lead to a lesser vertex. */
static void builds_the_graphs(void) {
    const uint32_t sources[] = {0, 0, 1, 2, 3, 5, 1, 2, 2, 3, 4, 6}, targets[] = {1, 2, 2, 3, 4, 6, 0, 0, 1, 2, 3, 5};
    const uint8_t removes[12] = {0};
    edgebpf_change change;
    CHECK(edgebpf_store_new(VERTICES, &store) == EDGEBPF_DONE);
    CHECK(edgebpf_store_apply(&store, 0, sources, 6, targets, 6, removes, 6, &change) == EDGEBPF_DONE);
    CHECK(edgebpf_store_pin(&store, &turned) == EDGEBPF_DONE);
    CHECK(edgebpf_store_apply(&store, 0, sources, 12, targets, 12, removes, 12, &change) == EDGEBPF_DONE && change.added == 6);
    CHECK(edgebpf_store_pin(&store, &graph) == EDGEBPF_DONE);
}

static uint32_t is_search(edgebpf_version *version, uint32_t root, const uint32_t *levels, const uint32_t *parents) {
    uint32_t answer = 77;
    CHECK(edgebpf_is_search(version, root, levels, VERTICES, parents, VERTICES, &answer) == EDGEBPF_DONE);
    return answer;
}

static void tests_searches(void) {
    const uint32_t levels[VERTICES] = {0, 1, 1, 2, 3, far, far, far}, parents[VERTICES] = {9, 0, 0, 2, 3, 9, 9, 9};
    CHECK(is_search(&graph, 0, levels, parents) == 1 && is_search(&turned, 0, levels, parents) == 1);
    /* From 4 all of its part is reached only where edges lead both ways. */
    const uint32_t from_4[VERTICES] = {3, 3, 2, 1, 0, far, far, far}, back[VERTICES] = {2, 2, 3, 4, 4, 0, 0, 0};
    CHECK(is_search(&graph, 4, from_4, back) == 1 && is_search(&turned, 4, from_4, back) == 0);
    const uint32_t alone[VERTICES] = {far, far, far, far, 0, far, far, far};
    CHECK(is_search(&graph, 4, alone, back) == 0 && is_search(&turned, 4, alone, back) == 1);
    CHECK(is_search(&graph, 1, levels, parents) == 0 && is_search(&graph, VERTICES, levels, parents) == 0);
    /* Any other level is wrong, and of the parents any but that of a vertex with two that are one level nearer. */
    for (size_t vertex = 0; vertex < VERTICES; vertex++) {
        for (uint32_t other = 0; other <= VERTICES; other++) {
            uint32_t changed[VERTICES];
            memcpy(changed, levels, sizeof levels);
            changed[vertex] = other == VERTICES ? far : other;
            if (changed[vertex] != levels[vertex]) CHECK(is_search(&graph, 0, changed, parents) == 0);
            memcpy(changed, parents, sizeof parents);
            changed[vertex] = other;
            const int matters = vertex && levels[vertex] != far && other != parents[vertex];
            CHECK(is_search(&graph, 0, levels, changed) == !matters);
        }
    }
}

static uint32_t are_components(edgebpf_version *version, const uint32_t *labels, const uint32_t *parents, const uint32_t *steps) {
    uint32_t answer = 77;
    CHECK(edgebpf_are_components(version, labels, VERTICES, parents, VERTICES, steps, VERTICES, &answer) == EDGEBPF_DONE);
    return answer;
}

static void tests_components(void) {
    const uint32_t labels[VERTICES] = {0, 0, 0, 0, 0, 5, 5, 7}, parents[VERTICES] = {0, 0, 0, 2, 3, 0, 5, 0};
    const uint32_t steps[VERTICES] = {0, 1, 1, 2, 3, 0, 1, 0};
    CHECK(are_components(&graph, labels, parents, steps) == 1 && are_components(&turned, labels, parents, steps) == 1);
    for (size_t vertex = 0; vertex < VERTICES; vertex++)
        for (uint32_t other = 0; other <= VERTICES; other++) {
            uint32_t changed[VERTICES];
            memcpy(changed, labels, sizeof labels);
            changed[vertex] = other;
            CHECK(are_components(&graph, changed, parents, steps) == (other == labels[vertex]));
        }
    /* Two parts with one label: what joins them is no edge. One part with two labels: an edge has an end in each. */
    const uint32_t one_label[VERTICES] = {0, 0, 0, 0, 0, 0, 0, 7}, to_four[VERTICES] = {0, 0, 0, 2, 3, 4, 5, 0};
    const uint32_t further[VERTICES] = {0, 1, 1, 2, 3, 4, 5, 0}, two_labels[VERTICES] = {0, 0, 0, 3, 3, 5, 5, 7};
    CHECK(are_components(&graph, one_label, to_four, further) == 0 && are_components(&graph, two_labels, parents, steps) == 0);
    const uint32_t no_steps[VERTICES] = {0};
    CHECK(are_components(&graph, labels, parents, no_steps) == 0);
}

static uint32_t are_cores(edgebpf_version *version, const uint32_t *numbers, const uint32_t *places) {
    uint32_t answer = 77;
    CHECK(edgebpf_are_cores(version, numbers, VERTICES, places, VERTICES, &answer) == EDGEBPF_DONE);
    return answer;
}

static void tests_cores(void) {
    const uint32_t numbers[VERTICES] = {2, 2, 2, 1, 1, 1, 1, 0}, places[VERTICES] = {5, 6, 7, 2, 1, 3, 4, 0};
    const uint32_t from_the_middle[VERTICES] = {5, 6, 7, 1, 2, 3, 4, 0}, none[VERTICES] = {0};
    CHECK(are_cores(&graph, numbers, places) == 1 && are_cores(&turned, numbers, places) == 0);
    /* If 3 is taken out before 4, it still has two edges: to 4, and to 2, whose core is higher. */
    CHECK(are_cores(&graph, numbers, from_the_middle) == 0);
    /* If all edges lead to greater vertices, each set has one without an edge to another of it, its greatest, which is taken out first. */
    const uint32_t greatest_first[VERTICES] = {7, 6, 5, 4, 3, 2, 1, 0};
    CHECK(are_cores(&turned, none, greatest_first) == 1 && are_cores(&turned, none, none) == 0);
    for (size_t vertex = 0; vertex < VERTICES; vertex++)
        for (uint32_t other = 0; other < VERTICES; other++) {
            uint32_t changed[VERTICES];
            memcpy(changed, numbers, sizeof changed), changed[vertex] = other;
            CHECK(are_cores(&graph, changed, places) == (other == numbers[vertex]));
        }
}

static uint32_t is_independent(edgebpf_version *version, const uint8_t *marks) {
    uint32_t answer = 77;
    CHECK(edgebpf_is_independent_set(version, marks, VERTICES, &answer) == EDGEBPF_DONE);
    return answer;
}

static void tests_independent_sets(void) {
    const uint8_t marks[VERTICES] = {1, 0, 0, 1, 0, 255, 0, 1}, greatest[VERTICES] = {0, 0, 1, 0, 1, 0, 1, 1};
    CHECK(is_independent(&graph, marks) == 1 && is_independent(&graph, greatest) == 1);
    /* Where all edges lead to greater vertices, none leads from 1 to 0 or 3. */
    CHECK(is_independent(&turned, marks) == 0 && is_independent(&turned, greatest) == 1);
    for (size_t vertex = 0; vertex < VERTICES; vertex++) {
        uint8_t changed[VERTICES];
        memcpy(changed, marks, sizeof changed), changed[vertex] = !changed[vertex];
        CHECK(is_independent(&graph, changed) == 0);
    }
}

static void refuses_handles_and_lengths(void) {
    const uint8_t marks[VERTICES + 1] = {0};
    const uint32_t entries[VERTICES + 1] = {0};
    uint32_t answer = 77;
    edgebpf_version empty = {{0}}, *other = (edgebpf_version *)&store;
    CHECK(edgebpf_is_search(&empty, 0, entries, VERTICES, entries, VERTICES, &answer) == EDGEBPF_EMPTY && answer == 77);
    CHECK(edgebpf_are_components(&empty, entries, VERTICES, entries, VERTICES, entries, VERTICES, &answer) == EDGEBPF_EMPTY && answer == 77);
    CHECK(edgebpf_is_search(other, 0, entries, VERTICES, entries, VERTICES, &answer) == EDGEBPF_OTHER_KIND && answer == 77);
    CHECK(edgebpf_are_components(other, entries, VERTICES, entries, VERTICES, entries, VERTICES, &answer) == EDGEBPF_OTHER_KIND && answer == 77);
    CHECK(edgebpf_are_cores(&empty, entries, VERTICES, entries, VERTICES, &answer) == EDGEBPF_EMPTY && answer == 77);
    CHECK(edgebpf_are_cores(other, entries, VERTICES, entries, VERTICES, &answer) == EDGEBPF_OTHER_KIND && answer == 77);
    CHECK(edgebpf_is_independent_set(&empty, marks, VERTICES, &answer) == EDGEBPF_EMPTY && answer == 77);
    CHECK(edgebpf_is_independent_set(other, marks, VERTICES, &answer) == EDGEBPF_OTHER_KIND && answer == 77);
    CHECK(edgebpf_is_independent_set(&graph, marks, VERTICES + 1, &answer) == EDGEBPF_DONE && answer == 0);
    for (size_t wrong = 0; wrong < 3; wrong++) {
        size_t counts[3] = {VERTICES, VERTICES, VERTICES};
        counts[wrong] += wrong == 1 ? 1 : -1;
        answer = 77;
        CHECK(edgebpf_are_components(&graph, entries, counts[0], entries, counts[1], entries, counts[2], &answer) == EDGEBPF_DONE && answer == 0);
        answer = 77;
        if (wrong < 2) CHECK(edgebpf_is_search(&graph, 0, entries, counts[0], entries, counts[1], &answer) == EDGEBPF_DONE && answer == 0);
        answer = 77;
        if (wrong < 2) CHECK(edgebpf_are_cores(&graph, entries, counts[0], entries, counts[1], &answer) == EDGEBPF_DONE && answer == 0);
    }
}

int main(void) {
    builds_the_graphs();
    tests_searches();
    tests_components();
    tests_cores();
    tests_independent_sets();
    refuses_handles_and_lengths();
    edgebpf_close_version(&graph);
    edgebpf_close_version(&turned);
    edgebpf_close_store(&store);
    puts("tests of answers");
    return 0;
}
