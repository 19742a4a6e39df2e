/* Calls each function on a graph of four vertices, whose answers were found by hand, and meets each status. */
#include "check.h"
#include <stdbool.h>

/* So many rebases are made, one after another. */
#define REBASES 10000u

static edgebpf_store store;
static edgebpf_version first, last;
static edgebpf_program targets_of;

static int is_at(const edgebpf_progress *at, uint64_t budget, uint32_t vertex, uint32_t place, uint64_t edges, uint64_t total) {
    return at->budget == budget && at->vertex == vertex && at->place == place && at->edges == edges && at->total == total;
}

/* 0 to 1, 2 and 3; 2 to 0; 3 to itself: after a batch of five edges, and one that takes out two of which one is there. */
static void applies_batches(void) {
    const uint32_t sources[] = {0, 0, 1, 2, 3}, targets[] = {1, 2, 2, 0, 3};
    const uint8_t none[5] = {0};
    const uint32_t next_sources[] = {1, 0, 3}, next_targets[] = {2, 3, 1};
    const uint8_t next_removes[] = {1, 0, 7};
    edgebpf_change change = {9, 9, 9};
    CHECK(edgebpf_store_new(4, &store) == EDGEBPF_DONE);
    CHECK(edgebpf_store_apply(&store, 0, sources, 5, targets, 5, none, 5, &change) == EDGEBPF_DONE);
    CHECK(change.added == 5 && change.removed == 0 && change.number == 1);
    CHECK(edgebpf_store_pin(&store, &first) == EDGEBPF_DONE);
    CHECK(edgebpf_store_apply(&store, 1, next_sources, 3, next_targets, 3, next_removes, 3, &change) == EDGEBPF_DONE);
    CHECK(change.added == 1 && change.removed == 1 && change.number == 2);
    CHECK(edgebpf_store_pin(&store, &last) == EDGEBPF_DONE);
}

static void answers_questions(void) {
    edgebpf_info info;
    edgebpf_version shared = {{0}};
    uint32_t answer = 9;
    CHECK(edgebpf_version_info(&last, &info) == EDGEBPF_DONE);
    CHECK(info.number == 2 && info.edges == 5 && info.vertices == 4);
    CHECK(edgebpf_version_info(&first, &info) == EDGEBPF_DONE);
    CHECK(info.number == 1 && info.edges == 5 && info.vertices == 4);
    CHECK(edgebpf_version_degree(&last, 0, &answer) == EDGEBPF_DONE && answer == 3);
    CHECK(edgebpf_version_degree(&last, 1, &answer) == EDGEBPF_DONE && answer == 0);
    CHECK(edgebpf_version_degree(&last, UINT32_MAX, &answer) == EDGEBPF_DONE && answer == 0);
    CHECK(edgebpf_version_has_edge(&last, 1, 2, &answer) == EDGEBPF_DONE && answer == 0);
    CHECK(edgebpf_version_has_edge(&first, 1, 2, &answer) == EDGEBPF_DONE && answer == 1);
    CHECK(edgebpf_version_neighbour(&last, 0, 1, &answer) == EDGEBPF_DONE && answer == 2);
    CHECK(edgebpf_version_neighbour(&last, 0, 3, &answer) == EDGEBPF_NO_NEIGHBOUR && answer == 2);
    CHECK(edgebpf_version_share(&last, &shared) == EDGEBPF_DONE);
    CHECK(edgebpf_version_info(&shared, &info) == EDGEBPF_DONE && info.number == 2);
    edgebpf_close_version(&shared);
}

static void lends_and_copies(void) {
    edgebpf_slice slices[8];
    size_t lent = 9, seen = 0;
    uint64_t starts[5];
    uint32_t targets[5];
    const uint64_t wanted_starts[] = {0, 3, 3, 4, 5};
    const uint32_t wanted[] = {1, 2, 3, 0, 3};
    CHECK(edgebpf_version_lend(&last, 0, slices, 8, &lent) == EDGEBPF_DONE && lent <= 3);
    for (size_t i = 0; i < lent; i++)
        for (size_t j = 0; j < slices[i].count; j++) CHECK(slices[i].at[j] == ++seen);
    CHECK(seen == 3);
    CHECK(edgebpf_version_lend(&last, 1, slices, 8, &lent) == EDGEBPF_DONE && lent == 0);
    CHECK(edgebpf_version_lend(&last, 77, slices, 8, &lent) == EDGEBPF_DONE && lent == 0);
    for (uint32_t place = 0; place < 5; place++) { /* 3 is the end of the neighbours */
        seen = place < 3 ? place : 3;
        CHECK(edgebpf_version_lend_from(&last, 0, place, slices, 8, &lent) == EDGEBPF_DONE && lent <= 3 - seen);
        for (size_t i = 0; i < lent; i++)
            for (size_t j = 0; j < slices[i].count; j++) CHECK(slices[i].at[j] == ++seen);
        CHECK(seen == 3);
    }
    CHECK(edgebpf_version_lend_from(&last, 77, 0, slices, 8, &lent) == EDGEBPF_DONE && lent == 0);
    CHECK(edgebpf_version_lend_from(&last, 0, UINT32_MAX, slices, 8, &lent) == EDGEBPF_DONE && lent == 0);
    lent = 9;
    CHECK(edgebpf_version_lend_from(&last, 0, 1, slices, 0, &lent) == EDGEBPF_DONE && lent == 0);
    CHECK(edgebpf_version_copy(&last, starts, 5, targets, 5) == EDGEBPF_DONE);
    CHECK(!memcmp(starts, wanted_starts, sizeof starts) && !memcmp(targets, wanted, sizeof targets));
    CHECK(edgebpf_version_copy(&last, starts, 4, targets, 5) == EDGEBPF_LENGTHS);
    CHECK(edgebpf_version_copy(&last, starts, 5, targets, 4) == EDGEBPF_LENGTHS);
}

static void verifies_programs(void) {
    const uint8_t unset[] = {0xbf, 0x50, 0, 0, 0, 0, 0, 0, 0x95, 0, 0, 0, 0, 0, 0, 0}; /* mov r0, r5; exit */
    edgebpf_verdict verdict;
    edgebpf_program other = {{0}};
    CHECK(edgebpf_program_new(16, target_code, 16, EDGEBPF_NO_BYTES, 0, &verdict, &targets_of) == EDGEBPF_DONE);
    CHECK(verdict.bound == 2 && verdict.frames == 1);
    CHECK(edgebpf_program_new(16, unset, 16, EDGEBPF_NO_BYTES, 0, &verdict, &other) == EDGEBPF_REFUSED && !other.handle.at);
    CHECK(verdict.cause == 8 && verdict.pc == 0); /* UnsetRegister */
    CHECK(edgebpf_program_new(15, target_code, 16, EDGEBPF_NO_BYTES, 0, &verdict, &other) == EDGEBPF_RECORD_LENGTH);
    CHECK(edgebpf_program_new(257, target_code, 16, EDGEBPF_NO_BYTES, 0, &verdict, &other) == EDGEBPF_RECORD_LENGTH);
    CHECK(edgebpf_program_new(16, target_code, 12, EDGEBPF_NO_BYTES, 0, &verdict, &other) == EDGEBPF_CODE_LENGTH);
    CHECK(edgebpf_program_new(16, target_code, 0, EDGEBPF_NO_BYTES, 0, &verdict, &other) == EDGEBPF_CODE_LENGTH);
    CHECK(edgebpf_program_share(&targets_of, &other) == EDGEBPF_DONE && other.handle.at);
    edgebpf_close_program(&other);
    CHECK(!other.handle.at);
}

static void reads_and_writes_texts(void) {
    const char *text = "ldxw r0, [r1+4]\nexit\n", *wrong = "mov r0, 1\n\nfoo r0\n";
    uint8_t code[64], *told;
    edgebpf_assembled made;
    size_t count = 0, again = 0;
    CHECK(edgebpf_assemble((const uint8_t *)text, strlen(text), code, sizeof code, &made) == EDGEBPF_DONE);
    CHECK(made.length == 16 && !memcmp(code, target_code, 16));
    CHECK(edgebpf_assemble((const uint8_t *)text, strlen(text), code, 15, &made) == EDGEBPF_LENGTHS && made.length == 16);
    CHECK(edgebpf_assemble((const uint8_t *)wrong, strlen(wrong), code, sizeof code, &made) == EDGEBPF_WRONG_TEXT);
    CHECK(made.line == 3 && made.cause == 2); /* UnknownName */
    CHECK(edgebpf_assemble((const uint8_t *)"\xff", 1, code, sizeof code, &made) == EDGEBPF_WRONG_TEXT);
    CHECK(made.line == 0 && made.cause == 0);
    CHECK(edgebpf_explain(16, target_code, 16, EDGEBPF_NO_BYTES, 0, code, 0, &count) == EDGEBPF_LENGTHS && count > 0);
    told = malloc(count);
    CHECK(told && edgebpf_explain(16, target_code, 16, EDGEBPF_NO_BYTES, 0, told, count, &again) == EDGEBPF_DONE && again == count);
    free(told);
    CHECK(edgebpf_explain(16, target_code, 9, EDGEBPF_NO_BYTES, 0, code, sizeof code, &count) == EDGEBPF_CODE_LENGTH);
}

static void runs_programs(void) {
    const uint32_t frontier[] = {3, 0, 1};
    uint64_t values[3], numbers[5];
    const uint64_t wanted[] = {1, 2, 3, 0, 3};
    edgebpf_totals totals = {7, 7};
    CHECK(edgebpf_run(&last, &targets_of, EDGEBPF_NO_BYTES, 0, frontier, 3, EDGEBPF_SUM, values, 3, &totals) == EDGEBPF_DONE);
    CHECK(values[0] == 3 && values[1] == 6 && values[2] == 0 && totals.edges == 4 && totals.total == 9);
    CHECK(edgebpf_run(&last, &targets_of, EDGEBPF_NO_BYTES, 0, frontier, 3, EDGEBPF_MIN, values, 3, &totals) == EDGEBPF_DONE);
    CHECK(values[0] == 3 && values[1] == 1 && values[2] == UINT64_MAX && totals.total == 1);
    CHECK(edgebpf_run(&last, &targets_of, EDGEBPF_NO_BYTES, 0, frontier, 3, EDGEBPF_MAX, values, 3, &totals) == EDGEBPF_DONE);
    CHECK(values[1] == 3 && values[2] == 0 && totals.total == 3);
    const uint32_t twice[] = {3, 1, 3};
    CHECK(edgebpf_run(&last, &targets_of, EDGEBPF_NO_BYTES, 0, twice, 3, EDGEBPF_SUM, values, 3, &totals) == EDGEBPF_DONE);
    CHECK(values[0] == 3 && values[1] == 0 && values[2] == 3 && totals.edges == 2 && totals.total == 6);
    totals.total = 7;
    CHECK(edgebpf_run(&last, &targets_of, EDGEBPF_NO_BYTES, 0, frontier, 3, 3, values, 3, &totals) == EDGEBPF_REDUCTION);
    CHECK(edgebpf_run(&last, &targets_of, EDGEBPF_NO_BYTES, 0, frontier, 3, EDGEBPF_SUM, values, 2, &totals) == EDGEBPF_LENGTHS);
    CHECK(edgebpf_run(&last, &targets_of, target_code, 1, frontier, 3, EDGEBPF_SUM, values, 3, &totals) == EDGEBPF_ARGUMENT_LENGTH);
    CHECK(totals.total == 7);
    CHECK(edgebpf_numbers(&last, &targets_of, EDGEBPF_NO_BYTES, 0, numbers, 5) == EDGEBPF_DONE);
    CHECK(!memcmp(numbers, wanted, sizeof wanted));
    CHECK(edgebpf_numbers(&last, &targets_of, EDGEBPF_NO_BYTES, 0, numbers, 4) == EDGEBPF_LENGTHS);
    CHECK(edgebpf_numbers(&last, &targets_of, target_code, 2, numbers, 5) == EDGEBPF_ARGUMENT_LENGTH);
}

static void refuses_batches(void) {
    static uint32_t many[EDGEBPF_MOST_EDITS + 1];
    static uint8_t marks[EDGEBPF_MOST_EDITS + 1];
    const uint32_t outside = 4, inside = 3;
    const uint8_t mark = 0;
    edgebpf_change change = {9, 9, 9};
    edgebpf_info info;
    edgebpf_version now = {{0}};
    CHECK(edgebpf_store_apply(&store, 0, many, 2, many, 1, marks, 2, &change) == EDGEBPF_LENGTHS);
    CHECK(edgebpf_store_apply(&store, 0, many, 2, many, 2, marks, 3, &change) == EDGEBPF_LENGTHS);
    CHECK(edgebpf_store_apply(&store, 0, many, COUNT(many), many, COUNT(many), marks, COUNT(many), &change) == EDGEBPF_TOO_MANY_EDITS);
    CHECK(edgebpf_store_apply(&store, 0, &inside, 1, &outside, 1, &mark, 1, &change) == EDGEBPF_VERTEX_RANGE);
    CHECK(edgebpf_store_apply(&store, 0, &outside, 1, &inside, 1, &mark, 1, &change) == EDGEBPF_VERTEX_RANGE);
    CHECK(edgebpf_store_apply(&store, 4, &inside, 1, &inside, 1, &mark, 1, &change) == EDGEBPF_FEED);
    CHECK(change.added == 9 && change.removed == 9 && change.number == 9);
    CHECK(edgebpf_store_pin(&store, &now) == EDGEBPF_DONE && edgebpf_version_info(&now, &info) == EDGEBPF_DONE);
    CHECK(info.number == 2 && info.edges == 5);
    edgebpf_close_version(&now);
    for (uint32_t number = 3; number <= EDGEBPF_MOST_BATCHES; number++) {
        edgebpf_version shared = {{0}};
        CHECK(edgebpf_store_apply(&store, 0, many, 0, many, 0, marks, 0, &change) == EDGEBPF_DONE && change.number == number);
        CHECK(edgebpf_store_pin(&store, &now) == EDGEBPF_DONE && edgebpf_version_share(&now, &shared) == EDGEBPF_DONE);
        edgebpf_close_version(&now);
        CHECK(edgebpf_version_info(&shared, &info) == EDGEBPF_DONE && info.number == number && info.edges == 5);
        edgebpf_close_version(&shared);
    }
    CHECK(edgebpf_store_apply(&store, 0, many, 0, many, 0, marks, 0, &change) == EDGEBPF_LOG_FULL);
    CHECK(edgebpf_store_pin(&store, &now) == EDGEBPF_DONE && edgebpf_version_info(&now, &info) == EDGEBPF_DONE);
    CHECK(info.number == EDGEBPF_MOST_BATCHES && info.edges == 5);
    edgebpf_store branch = {{0}}; /* of a full log, too */
    CHECK(edgebpf_store_of(&now, &branch) == EDGEBPF_DONE);
    edgebpf_close_store(&branch);
    edgebpf_close_version(&now);
}

/* After the last batch that a log has room for: the graph is version 0 of the next epoch, and there is room again. */
static void rebases(void) {
    const uint32_t one = 1, two = 2;
    const uint8_t insert = 0;
    uint64_t epoch = 9;
    edgebpf_change change;
    edgebpf_info info;
    edgebpf_version based = {{0}};
    CHECK(edgebpf_store_rebase(&store, &epoch) == EDGEBPF_DONE && epoch == 1);
    CHECK(edgebpf_store_pin(&store, &based) == EDGEBPF_DONE && edgebpf_version_info(&based, &info) == EDGEBPF_DONE);
    CHECK(info.epoch == 1 && info.number == 0 && info.edges == 5 && info.vertices == 4);
    CHECK(edgebpf_version_info(&last, &info) == EDGEBPF_DONE && info.epoch == 0 && info.number == 2);
    CHECK(edgebpf_store_apply(&store, 3, &one, 1, &two, 1, &insert, 1, &change) == EDGEBPF_DONE);
    CHECK(change.added == 1 && change.removed == 0 && change.number == 1);
    for (uint64_t number = 2; number <= REBASES; number++)
        CHECK(edgebpf_store_rebase(&store, &epoch) == EDGEBPF_DONE && epoch == number);
    CHECK(edgebpf_store_apply(&store, 3, &one, 1, &two, 1, &insert, 1, &change) == EDGEBPF_DONE);
    CHECK(change.added == 0 && change.removed == 0 && change.number == 1);
    CHECK(edgebpf_store_pin(&store, &based) == EDGEBPF_DONE && edgebpf_version_info(&based, &info) == EDGEBPF_DONE);
    CHECK(info.epoch == REBASES && info.number == 1 && info.edges == 6);
    edgebpf_close_version(&based);
}

/* Whether a version has just the edges of such rows, of which each bit is a target. */
static bool has_rows(edgebpf_version *version, const uint32_t *rows, uint32_t vertices) {
    uint32_t answer = 2;
    for (uint32_t source = 0; source < vertices; source++)
        for (uint32_t target = 0; target < vertices; target++)
            if (edgebpf_version_has_edge(version, source, target, &answer) || answer != (rows[source] >> target & 1)) return false;
    return true;
}

/* An edit of a store, and of its rows. */
static void edit(edgebpf_store *edited, uint32_t *rows, uint32_t source, uint32_t target, uint8_t is_out, uint64_t number) {
    edgebpf_change change;
    CHECK(edgebpf_store_apply(edited, 1, &source, 1, &target, 1, &is_out, 1, &change) == EDGEBPF_DONE && change.number == number);
    rows[source] = is_out ? rows[source] & ~(1u << target) : rows[source] | 1u << target;
}

/* Sorted arrays: those of a copy, and each test of them in its order. */
static void sorted_arrays(void) {
    const uint64_t starts[] = {0, 2, 2, 5}, low[] = {1, 2, 2, 5}, high[] = {0, 2, 2, 4}, back[] = {0, 3, 2, 5}, past[] = {0, 2, 9, 5};
    const uint32_t targets[] = {1, 2, 0, 1, 2}, twice[] = {1, 1, 0, 1, 2}, fall[] = {1, 2, 0, 2, 1}, outside[] = {1, 3, 0, 1, 2};
    const uint32_t both[] = {3, 1, 0, 1, 2};
    const uint32_t rows[] = {6, 0, 7};
    uint64_t copied[4] = {9, 9, 9, 9};
    uint32_t found[5] = {9, 9, 9, 9, 9}, after[] = {6, 0, 7};
    edgebpf_store made = {{0}};
    edgebpf_version now = {{0}};
    edgebpf_info info;
    struct { uint32_t vertices; const uint64_t *starts; size_t start_count; const uint32_t *targets; size_t count; uint32_t status; } each[] = {
        {0, starts, 1, targets, 0, EDGEBPF_VERTEX_COUNT}, {EDGEBPF_MOST_VERTICES + 1, starts, 4, targets, 5, EDGEBPF_VERTEX_COUNT},
        {3, starts, 3, targets, 2, EDGEBPF_LENGTHS}, {2, low, 4, twice, 5, EDGEBPF_LENGTHS}, {1, starts, 0, targets, 0, EDGEBPF_LENGTHS},
        {3, low, 4, targets, 5, EDGEBPF_NOT_SORTED}, {3, high, 4, targets, 5, EDGEBPF_NOT_SORTED}, {3, starts, 4, targets, 4, EDGEBPF_NOT_SORTED},
        {3, back, 4, targets, 5, EDGEBPF_NOT_SORTED}, {3, past, 4, targets, 5, EDGEBPF_NOT_SORTED}, {3, starts, 4, twice, 5, EDGEBPF_NOT_SORTED},
        {3, starts, 4, fall, 5, EDGEBPF_NOT_SORTED}, {3, starts, 4, both, 5, EDGEBPF_NOT_SORTED}, {3, starts, 4, outside, 5, EDGEBPF_VERTEX_RANGE},
    };
    for (size_t at = 0; at < COUNT(each); at++)
        CHECK(edgebpf_store_from(each[at].vertices, each[at].starts, each[at].start_count, each[at].targets, each[at].count, &made)
              == each[at].status && !made.handle.at);
    CHECK(edgebpf_store_from(3, starts, 4, targets, 5, &made) == EDGEBPF_DONE && edgebpf_store_pin(&made, &now) == EDGEBPF_DONE);
    CHECK(edgebpf_version_info(&now, &info) == EDGEBPF_DONE && info.epoch == 0 && info.number == 0 && info.edges == 5 && info.vertices == 3);
    CHECK(has_rows(&now, rows, 3) && edgebpf_version_copy(&now, copied, 4, found, 5) == EDGEBPF_DONE);
    CHECK(!memcmp(copied, starts, sizeof starts) && !memcmp(found, targets, sizeof targets));
    edit(&made, after, 1, 1, 0, 1), edit(&made, after, 2, 0, 1, 2);
    CHECK(has_rows(&now, rows, 3));
    edgebpf_close_version(&now);
    CHECK(edgebpf_store_pin(&made, &now) == EDGEBPF_DONE && has_rows(&now, after, 3));
    /* A store is left where it is if another cannot be made in its place. */
    CHECK(edgebpf_store_from(3, back, 4, targets, 5, &made) == EDGEBPF_NOT_SORTED);
    edgebpf_close_version(&now);
    CHECK(edgebpf_store_pin(&made, &now) == EDGEBPF_DONE && has_rows(&now, after, 3));
    CHECK(edgebpf_store_from(1, low + 1, 0, targets, 0, &made) == EDGEBPF_LENGTHS && edgebpf_store_from(1, starts + 1, 2, targets, 0, &made) == EDGEBPF_NOT_SORTED);
    edgebpf_close_version(&now), edgebpf_close_store(&made);
}

/* A branch, and a branch of it, each edited by itself; what they were made of stays, also when they go first. */
static void branches(void) {
    edgebpf_store first = {{0}}, second = {{0}}, third = {{0}}, none = {{0}};
    edgebpf_version pinned = {{0}}, of_second = {{0}}, now = {{0}}, empty = {{0}};
    uint32_t rows[6] = {0}, second_rows[6], third_rows[6];
    uint64_t epoch = 0;
    edgebpf_info info;
    CHECK(edgebpf_store_new(6, &first) == EDGEBPF_DONE);
    edit(&first, rows, 0, 1, 0, 1), edit(&first, rows, 0, 5, 0, 2), edit(&first, rows, 4, 2, 0, 3);
    CHECK(edgebpf_store_rebase(&first, &epoch) == EDGEBPF_DONE);
    edit(&first, rows, 0, 5, 1, 1);
    CHECK(edgebpf_store_pin(&first, &pinned) == EDGEBPF_DONE && edgebpf_store_of(&pinned, &second) == EDGEBPF_DONE);
    memcpy(second_rows, rows, sizeof rows);
    CHECK(edgebpf_store_pin(&second, &of_second) == EDGEBPF_DONE && edgebpf_version_info(&of_second, &info) == EDGEBPF_DONE);
    CHECK(info.epoch == 0 && info.number == 0 && info.edges == 2 && info.vertices == 6 && has_rows(&of_second, rows, 6));
    edit(&second, second_rows, 5, 5, 0, 1), edit(&second, second_rows, 0, 1, 1, 2);
    edgebpf_close_version(&of_second);
    CHECK(edgebpf_store_pin(&second, &of_second) == EDGEBPF_DONE && edgebpf_store_of(&of_second, &third) == EDGEBPF_DONE);
    memcpy(third_rows, second_rows, sizeof rows);
    edit(&third, third_rows, 5, 5, 1, 1), edit(&third, third_rows, 3, 3, 0, 2), edit(&second, second_rows, 4, 2, 1, 3);
    CHECK(edgebpf_store_rebase(&third, &epoch) == EDGEBPF_DONE && epoch == 1);
    CHECK(has_rows(&pinned, rows, 6));
    edit(&first, rows, 2, 0, 0, 2);
    CHECK(edgebpf_store_pin(&first, &now) == EDGEBPF_DONE && has_rows(&now, rows, 6));
    edgebpf_close_version(&now), edgebpf_close_store(&first), edgebpf_close_version(&pinned);
    CHECK(edgebpf_store_pin(&second, &now) == EDGEBPF_DONE && has_rows(&now, second_rows, 6));
    edgebpf_close_version(&now), edgebpf_close_store(&second);
    CHECK(edgebpf_store_pin(&third, &now) == EDGEBPF_DONE && has_rows(&now, third_rows, 6));
    CHECK(edgebpf_version_info(&now, &info) == EDGEBPF_DONE && info.epoch == 1 && info.number == 0);
    /* What is no version, and an empty handle: nothing is handed out, and the handle stays. */
    edgebpf_version no_version = {third.handle};
    CHECK(edgebpf_store_of(&no_version, &none) == EDGEBPF_OTHER_KIND && !none.handle.at && no_version.handle.at == third.handle.at);
    CHECK(edgebpf_store_of(&empty, &third) == EDGEBPF_EMPTY && edgebpf_store_rebase(&third, &epoch) == EDGEBPF_DONE && epoch == 2);
    /* A handle that holds something is written over, and what it held is dropped. */
    CHECK(edgebpf_store_of(&of_second, &third) == EDGEBPF_DONE && edgebpf_store_rebase(&third, &epoch) == EDGEBPF_DONE && epoch == 1);
    edgebpf_close_version(&of_second), edgebpf_close_version(&now), edgebpf_close_store(&third);
}

/* A table of four words, of which each edge has the one that its target names. */
static void reads_tables(void) {
    const char *text = "ldxw r2, [r1+4]\nand r2, 3\nlsh r2, 2\nadd r3, r2\nldxw r0, [r3+0]\nexit\n";
    const uint8_t weights[] = {40, 0, 0, 0, 10, 0, 0, 0, 20, 0, 0, 0, 30, 1, 0, 0};
    const uint64_t wanted[] = {10, 20, 286, 40, 286};
    uint8_t code[64];
    uint64_t numbers[5];
    edgebpf_program weighed = {{0}}, shared = {{0}};
    edgebpf_assembled made;
    edgebpf_verdict verdict;
    CHECK(edgebpf_assemble((const uint8_t *)text, strlen(text), code, sizeof code, &made) == EDGEBPF_DONE);
    CHECK(edgebpf_program_new(16, code, made.length, weights, sizeof weights, &verdict, &weighed) == EDGEBPF_DONE);
    CHECK(verdict.bound == 6 && verdict.frames == 1);
    CHECK(edgebpf_numbers(&last, &weighed, EDGEBPF_NO_BYTES, 0, numbers, 5) == EDGEBPF_DONE);
    CHECK(!memcmp(numbers, wanted, sizeof wanted));
    CHECK(edgebpf_program_share(&weighed, &shared) == EDGEBPF_DONE);
    edgebpf_close_program(&weighed);
    memset(numbers, 0, sizeof numbers);
    CHECK(edgebpf_numbers(&last, &shared, EDGEBPF_NO_BYTES, 0, numbers, 5) == EDGEBPF_DONE);
    CHECK(!memcmp(numbers, wanted, sizeof wanted));
    edgebpf_close_program(&shared);
    CHECK(edgebpf_program_new(16, code, made.length, weights, 15, &verdict, &shared) == EDGEBPF_REFUSED);
    CHECK(verdict.cause == 11 && verdict.pc == 4); /* OutOfRange */
}

/* Where a table ends, that nobody writes to it, and the order in which lengths are tested. */
static void keeps_tables(void) {
    const uint8_t load[] = {0x61, 0x30, 0, 0, 0, 0, 0, 0, 0x95, 0, 0, 0, 0, 0, 0, 0}; /* ldxw r0, [r3+0]; exit */
    const uint8_t load_last[] = {0x61, 0x30, 0xfc, 0x0f, 0, 0, 0, 0, 0x95, 0, 0, 0, 0, 0, 0, 0}; /* ldxw r0, [r3+4092]; exit */
    const uint8_t store_first[] = {0x62, 3, 0, 0, 0, 0, 0, 0, 0x95, 0, 0, 0, 0, 0, 0, 0}; /* stw [r3+0], 0; exit */
    static uint8_t table[4097], text[1024];
    uint64_t numbers[5];
    edgebpf_program other = {{0}};
    edgebpf_verdict verdict;
    size_t count = 0;
    table[4092] = 7;
    CHECK(edgebpf_program_new(16, load_last, 16, table, 4095, &verdict, &other) == EDGEBPF_REFUSED && verdict.cause == 11);
    CHECK(edgebpf_program_new(16, store_first, 16, table, 4, &verdict, &other) == EDGEBPF_REFUSED);
    CHECK(verdict.cause == 17 && verdict.pc == 0); /* ReadOnly */
    CHECK(edgebpf_program_new(16, load, 16, EDGEBPF_NO_BYTES, 0, &verdict, &other) == EDGEBPF_REFUSED);
    CHECK(verdict.cause == 8 && verdict.pc == 0 && !other.handle.at); /* UnsetRegister */
    CHECK(edgebpf_program_new(16, load_last, 16, table, 4096, &verdict, &other) == EDGEBPF_DONE);
    CHECK(edgebpf_numbers(&last, &other, EDGEBPF_NO_BYTES, 0, numbers, 5) == EDGEBPF_DONE && numbers[0] == 7 && numbers[4] == 7);
    CHECK(edgebpf_program_new(16, load, 16, table, 4097, &verdict, &other) == EDGEBPF_TABLE_LENGTH && other.handle.at);
    CHECK(edgebpf_program_new(16, load, 15, table, 4097, &verdict, &other) == EDGEBPF_CODE_LENGTH);
    CHECK(edgebpf_program_new(15, load, 15, table, 4097, &verdict, &other) == EDGEBPF_RECORD_LENGTH);
    edgebpf_close_program(&other);
    CHECK(edgebpf_explain(16, load, 16, table, 4097, text, sizeof text, &count) == EDGEBPF_TABLE_LENGTH);
    CHECK(edgebpf_explain(16, load, 16, table, 4, text, sizeof text - 1, &count) == EDGEBPF_DONE && count < sizeof text);
    text[count] = 0;
    CHECK(strstr((const char *)text, "accepted, bound 2, frames 1\n"));
}

/* 4,096 units, the most that code may have: all but the last give 7, which is then the number of each edge. */
static void takes_the_longest_program(void) {
    enum { UNITS = 4096 };
    static const char line[] = "mov r0, 7\n", start[] = "program of 4096 units, records of 16 bytes\n", end[] = "accepted, bound 4096, frames 1\n";
    static const uint8_t seven[8] = {0xb7, 0, 0, 0, 7}, leave[8] = {0x95};
    static uint8_t text[UNITS * (sizeof line - 1) + 5], code[8 * (UNITS + 1)];
    const uint32_t frontier[] = {3, 0, 1};
    uint64_t values[3];
    edgebpf_program longest = {{0}};
    edgebpf_assembled made;
    edgebpf_verdict verdict;
    edgebpf_totals totals;
    size_t length = 0, count = 0, again = 0;
    for (; length < (UNITS - 1) * (sizeof line - 1); length += sizeof line - 1) memcpy(text + length, line, sizeof line - 1);
    memcpy(text + length, "exit\n", 5);
    CHECK(edgebpf_assemble(text, length + 5, code, sizeof code, &made) == EDGEBPF_DONE && made.length == 8 * UNITS);
    for (size_t unit = 0; unit < UNITS; unit++) CHECK(!memcmp(code + 8 * unit, unit < UNITS - 1 ? seven : leave, 8));
    CHECK(edgebpf_program_new(16, code, 8 * UNITS, EDGEBPF_NO_BYTES, 0, &verdict, &longest) == EDGEBPF_DONE);
    CHECK(verdict.bound == UNITS && verdict.frames == 1);
    CHECK(edgebpf_run(&last, &longest, EDGEBPF_NO_BYTES, 0, frontier, 3, EDGEBPF_SUM, values, 3, &totals) == EDGEBPF_DONE);
    CHECK(values[0] == 7 && values[1] == 21 && values[2] == 0 && totals.edges == 4 && totals.total == 28);
    edgebpf_program shared = {{0}};
    CHECK(edgebpf_program_share(&longest, &shared) == EDGEBPF_DONE);
    edgebpf_close_program(&longest);
    CHECK(edgebpf_run(&last, &shared, EDGEBPF_NO_BYTES, 0, frontier, 3, EDGEBPF_MAX, values, 3, &totals) == EDGEBPF_DONE);
    CHECK(values[0] == 7 && values[1] == 7 && values[2] == 0 && totals.edges == 4 && totals.total == 7);
    edgebpf_close_program(&shared);
    CHECK(edgebpf_explain(256, code, 8 * UNITS, EDGEBPF_NO_BYTES, 0, text, 0, &again) == EDGEBPF_LENGTHS && again > sizeof start + sizeof end);
    CHECK(edgebpf_explain(16, code, 8 * UNITS, EDGEBPF_NO_BYTES, 0, text, 0, &count) == EDGEBPF_LENGTHS && count > sizeof start + sizeof end);
    char *told = malloc(count);
    CHECK(told && edgebpf_explain(16, code, 8 * UNITS, EDGEBPF_NO_BYTES, 0, (uint8_t *)told, count, &again) == EDGEBPF_DONE && again == count);
    CHECK(!memcmp(told, start, sizeof start - 1) && !memcmp(told + count - (sizeof end - 1), end, sizeof end - 1));
    free(told);
    CHECK(edgebpf_program_new(16, code, 8 * (UNITS + 1), EDGEBPF_NO_BYTES, 0, &verdict, &longest) == EDGEBPF_CODE_LENGTH && !longest.handle.at);
    memcpy(text + length, line, sizeof line - 1);
    memcpy(text + length + sizeof line - 1, "exit\n", 5);
    CHECK(edgebpf_assemble(text, sizeof text, code, sizeof code, &made) == EDGEBPF_WRONG_TEXT);
    CHECK(made.line == UNITS + 1 && made.cause == 6); /* TooLong */
}

/* Two million bytes of comments before two instructions. */
static void takes_a_long_text(void) {
    enum { COMMENTS = 500000 };
    static const char rest[] = "mov r0, 7\nexit\nmov r0\n";
    static uint8_t text[4 * COMMENTS + sizeof rest - 1], code[16];
    edgebpf_assembled made;
    for (size_t line = 0; line < COMMENTS; line++) memcpy(text + 4 * line, "; a\n", 4);
    memcpy(text + 4 * COMMENTS, rest, sizeof rest - 1);
    CHECK(edgebpf_assemble(text, sizeof text - 7, code, sizeof code, &made) == EDGEBPF_DONE && made.length == 16);
    CHECK(edgebpf_assemble(text, sizeof text, code, sizeof code, &made) == EDGEBPF_WRONG_TEXT && made.line == COMMENTS + 3);
}

/* Of each vertex of a version the slices have the neighbours that are copied, at their places. */
static void lends_what_it_copies(edgebpf_version *version) {
    enum { MOST = 1 << 20, ROOM = 4096 };
    static edgebpf_slice slices[ROOM];
    static uint64_t starts[MOST + 1];
    edgebpf_info info;
    CHECK(edgebpf_version_info(version, &info) == EDGEBPF_DONE && info.vertices <= MOST);
    uint32_t *targets = malloc(info.edges * sizeof *targets);
    CHECK(targets && edgebpf_version_copy(version, starts, info.vertices + 1, targets, info.edges) == EDGEBPF_DONE);
    for (uint32_t vertex = 0; vertex < info.vertices; vertex++) {
        const uint32_t *next = targets + starts[vertex];
        size_t lent;
        CHECK(edgebpf_version_lend(version, vertex, slices, ROOM, &lent) == EDGEBPF_DONE && lent < ROOM);
        for (size_t i = 0; i < lent; next += slices[i++].count)
            CHECK(!memcmp(slices[i].at, next, slices[i].count * sizeof *next));
        CHECK(next == targets + starts[vertex + 1]);
    }
    free(targets);
}

/* A large graph, in which each 16th vertex has an edge to the fifth one after it, and all vertices as the frontier, from the last one. */
static void runs_over_a_long_frontier(void) {
    enum { APART = 16, MOST = 1 << 20 };
    static uint32_t sources[MOST / APART], targets[MOST / APART], frontier[MOST];
    static uint8_t marks[MOST / APART];
    static uint64_t values[MOST];
    edgebpf_store greatest = {{0}};
    edgebpf_version pin = {{0}};
    edgebpf_change change;
    edgebpf_totals totals;
    uint64_t total = 0;
    for (uint32_t i = 0; i < COUNT(sources); i++) sources[i] = APART * i, targets[i] = APART * i + 5, total += targets[i];
    CHECK(edgebpf_store_new(MOST, &greatest) == EDGEBPF_DONE);
    CHECK(edgebpf_store_apply(&greatest, 2, sources, COUNT(sources), targets, COUNT(targets), marks, COUNT(marks), &change) == EDGEBPF_DONE);
    CHECK(change.added == COUNT(sources) && edgebpf_store_pin(&greatest, &pin) == EDGEBPF_DONE);
    for (uint32_t i = 0; i < MOST; i++) frontier[i] = MOST - 1 - i;
    CHECK(edgebpf_run(&pin, &targets_of, EDGEBPF_NO_BYTES, 0, frontier, MOST, EDGEBPF_SUM, values, MOST, &totals) == EDGEBPF_DONE);
    for (uint32_t i = 0; i < MOST; i++) CHECK(values[i] == (frontier[i] % APART ? 0 : frontier[i] + 5));
    CHECK(totals.edges == COUNT(sources) && totals.total == total);
    lends_what_it_copies(&pin);
    edgebpf_close_version(&pin);
    /* Each vertex gets an edge more, and then two of them lose one: a million edges, over a rebase. Then the last vertex gets many. */
    uint64_t epoch = 9;
    edgebpf_info info;
    for (uint32_t part = 1; part <= APART; part++) {
        for (uint32_t i = 0; i < COUNT(sources); i++) sources[i] = APART * i + part % APART, targets[i] = sources[i] ^ 1;
        CHECK(edgebpf_store_apply(&greatest, 1, sources, COUNT(sources), targets, COUNT(targets), marks, COUNT(marks), &change) == EDGEBPF_DONE);
        CHECK(change.added == COUNT(sources) && change.number == part + 1);
    }
    CHECK(edgebpf_store_rebase(&greatest, &epoch) == EDGEBPF_DONE && epoch == 1);
    marks[0] = marks[1] = 1;
    CHECK(edgebpf_store_apply(&greatest, 0, sources, 2, targets, 2, marks, 2, &change) == EDGEBPF_DONE);
    CHECK(change.added == 0 && change.removed == 2 && change.number == 1);
    CHECK(edgebpf_store_pin(&greatest, &pin) == EDGEBPF_DONE && edgebpf_version_info(&pin, &info) == EDGEBPF_DONE);
    CHECK(info.epoch == 1 && info.edges == MOST + COUNT(sources) - 2);
    edgebpf_close_version(&pin);
    marks[0] = marks[1] = 0;
    for (uint32_t i = 0; i < COUNT(sources); i++) sources[i] = MOST - 1, targets[i] = APART * i;
    CHECK(edgebpf_store_apply(&greatest, 3, sources, COUNT(sources), targets, COUNT(targets), marks, COUNT(marks), &change) == EDGEBPF_DONE);
    CHECK(edgebpf_store_pin(&greatest, &pin) == EDGEBPF_DONE);
    lends_what_it_copies(&pin);
    edgebpf_close_version(&pin);
    edgebpf_close_store(&greatest);
}

/* A graph of more vertices than a script may have: an edge from its greatest vertex to itself. */
static void has_an_edge_of_the_greatest_vertex(void) {
    const uint32_t greatest = 1u << 20;
    uint8_t mark = 0;
    uint32_t answer = 9, degree = 9;
    uint64_t value = 9, number = 9;
    size_t lent = 9;
    edgebpf_slice slice;
    edgebpf_store wide = {{0}};
    edgebpf_version pin = {{0}};
    edgebpf_change change;
    edgebpf_totals totals;
    CHECK(edgebpf_store_new(greatest + 1, &wide) == EDGEBPF_DONE);
    CHECK(edgebpf_store_apply(&wide, 0, &greatest, 1, &greatest, 1, &mark, 1, &change) == EDGEBPF_DONE && change.added == 1);
    CHECK(edgebpf_store_pin(&wide, &pin) == EDGEBPF_DONE);
    CHECK(edgebpf_version_has_edge(&pin, greatest, greatest, &answer) == EDGEBPF_DONE && answer == 1);
    CHECK(edgebpf_version_has_edge(&pin, greatest - 1, greatest, &answer) == EDGEBPF_DONE && answer == 0);
    CHECK(edgebpf_version_degree(&pin, greatest, &degree) == EDGEBPF_DONE && degree == 1);
    CHECK(edgebpf_version_lend(&pin, greatest, &slice, 1, &lent) == EDGEBPF_DONE && lent == 1 && slice.count == 1 && *slice.at == greatest);
    CHECK(edgebpf_run(&pin, &targets_of, EDGEBPF_NO_BYTES, 0, &greatest, 1, EDGEBPF_SUM, &value, 1, &totals) == EDGEBPF_DONE && value == greatest);
    CHECK(edgebpf_numbers(&pin, &targets_of, EDGEBPF_NO_BYTES, 0, &number, 1) == EDGEBPF_DONE && number == greatest);
    edgebpf_close_version(&pin);
    edgebpf_close_store(&wide);
}

/* A record of 256 bytes, of which the program reads the last one of the argument. */
static void runs_with_the_longest_argument(void) {
    static const uint8_t last_byte[] = {0x71, 0x10, 255, 0, 0, 0, 0, 0, 0x95, 0, 0, 0, 0, 0, 0, 0};
    const uint32_t frontier[] = {3, 0, 1};
    uint8_t argument[240] = {0};
    uint64_t values[3], numbers[5];
    edgebpf_program longest = {{0}};
    edgebpf_verdict verdict;
    edgebpf_totals totals;
    argument[239] = 7;
    CHECK(edgebpf_program_new(256, last_byte, 16, EDGEBPF_NO_BYTES, 0, &verdict, &longest) == EDGEBPF_DONE && verdict.bound == 2);
    CHECK(edgebpf_run(&last, &longest, argument, 240, frontier, 3, EDGEBPF_SUM, values, 3, &totals) == EDGEBPF_DONE);
    CHECK(values[0] == 7 && values[1] == 21 && values[2] == 0 && totals.edges == 4 && totals.total == 28);
    CHECK(edgebpf_numbers(&last, &longest, argument, 240, numbers, 5) == EDGEBPF_DONE);
    for (int i = 0; i < 5; i++) CHECK(numbers[i] == 7);
    edgebpf_close_program(&longest);
}

static void tells_what_handles_hold(void) {
    edgebpf_store none = {{0}};
    edgebpf_version out = {{0}};
    edgebpf_info info;
    edgebpf_change change;
    uint32_t one = 0, answer;
    uint64_t value, epoch = 9;
    uint8_t mark = 0;
    size_t lent;
    edgebpf_slice slice;
    edgebpf_totals totals;
    CHECK(edgebpf_store_apply(&none, 0, &one, 1, &one, 1, &mark, 1, &change) == EDGEBPF_EMPTY);
    CHECK(edgebpf_store_pin(&none, &out) == EDGEBPF_EMPTY);
    CHECK(edgebpf_store_rebase(&none, &epoch) == EDGEBPF_EMPTY && epoch == 9);
    CHECK(edgebpf_store_rebase((edgebpf_store *)&last, &epoch) == EDGEBPF_OTHER_KIND && epoch == 9);
    CHECK(edgebpf_version_info(&out, &info) == EDGEBPF_EMPTY);
    CHECK(edgebpf_version_lend(&out, 0, &slice, 1, &lent) == EDGEBPF_EMPTY);
    CHECK(edgebpf_run(&out, &targets_of, EDGEBPF_NO_BYTES, 0, &one, 1, 0, &value, 1, &totals) == EDGEBPF_EMPTY);
    CHECK(edgebpf_version_lend_from(&out, 0, 0, &slice, 1, &lent) == EDGEBPF_EMPTY);
    edgebpf_progress at = {5, 6, 7, 0, 0};
    lent = 9, value = 8;
    CHECK(edgebpf_run_some(&out, &targets_of, EDGEBPF_NO_BYTES, 0, &one, 1, 0, &at, &value, 1) == EDGEBPF_EMPTY);
    CHECK(edgebpf_numbers_some(&last, (edgebpf_program *)&none, EDGEBPF_NO_BYTES, 0, &one, 1, &at, &value, 1, &lent) == EDGEBPF_EMPTY);
    CHECK(edgebpf_pairs(&out, &targets_of, EDGEBPF_NO_BYTES, 0, &one, 1, &one, 1, &at, &value, 1) == EDGEBPF_EMPTY);
    CHECK(edgebpf_run_some((edgebpf_version *)&store, &targets_of, EDGEBPF_NO_BYTES, 0, &one, 1, 0, &at, &value, 1) == EDGEBPF_OTHER_KIND);
    CHECK(edgebpf_numbers_some(&last, (edgebpf_program *)&store, EDGEBPF_NO_BYTES, 0, &one, 1, &at, &value, 1, &lent) == EDGEBPF_OTHER_KIND);
    CHECK(edgebpf_pairs(&last, (edgebpf_program *)&store, EDGEBPF_NO_BYTES, 0, &one, 1, &one, 1, &at, &value, 1) == EDGEBPF_OTHER_KIND);
    CHECK(is_at(&at, 5, 0, 0, 6, 7) && lent == 9 && value == 8);
    CHECK(edgebpf_store_pin((edgebpf_store *)&last, &out) == EDGEBPF_OTHER_KIND && !out.handle.at);
    CHECK(edgebpf_version_share((edgebpf_version *)&store, &out) == EDGEBPF_OTHER_KIND);
    CHECK(edgebpf_version_degree((edgebpf_version *)&targets_of, 0, &answer) == EDGEBPF_OTHER_KIND);
    CHECK(edgebpf_run(&last, (edgebpf_program *)&store, EDGEBPF_NO_BYTES, 0, &one, 1, 0, &value, 1, &totals) == EDGEBPF_OTHER_KIND);
    /* What handles hold is asked before all else, and of two handles first whether each holds something. */
    CHECK(edgebpf_store_apply(&none, 9, &one, 0, &one, 1, &mark, 1, &change) == EDGEBPF_EMPTY);
    CHECK(edgebpf_store_apply((edgebpf_store *)&last, 9, &one, 0, &one, 1, &mark, 1, &change) == EDGEBPF_OTHER_KIND);
    CHECK(edgebpf_run((edgebpf_version *)&store, (edgebpf_program *)&none, EDGEBPF_NO_BYTES, 0, &one, 1, 7, &value, 0, &totals) == EDGEBPF_EMPTY);
    CHECK(edgebpf_run((edgebpf_version *)&store, &targets_of, EDGEBPF_NO_BYTES, 0, &one, 1, 7, &value, 0, &totals) == EDGEBPF_OTHER_KIND);
    CHECK(edgebpf_run(&last, (edgebpf_program *)&store, EDGEBPF_NO_BYTES, 0, &one, 1, 7, &value, 0, &totals) == EDGEBPF_OTHER_KIND);
    CHECK(edgebpf_version_info(&last, &info) == EDGEBPF_DONE && info.number == 2);
    CHECK(edgebpf_store_new(0, &none) == EDGEBPF_VERTEX_COUNT && !none.handle.at);
    CHECK(edgebpf_store_new(EDGEBPF_MOST_VERTICES + 1, &none) == EDGEBPF_VERTEX_COUNT && !none.handle.at);
    edgebpf_close_store(&none);
    static const char *const words[] = {
        "done", "memory", "empty", "another kind", "number of vertices", "an edit names", "65536 edits", "4096 batches",
        "feed", "lengths", "refuses", "record length", "code is not", "argument", "reduction", "means no code", "neighbour", "64 bits count",
        "the table has more than 4096", "more than 8 columns", "the progress names no place", "are not sorted",
    };
    for (uint32_t status = 0; status < COUNT(words); status++) CHECK(strstr(edgebpf_words(status), words[status]));
    CHECK(!strcmp(edgebpf_words(EDGEBPF_NOT_SORTED + 1), "there is no such status"));
}

int main(void) {
    applies_batches();
    answers_questions();
    lends_and_copies();
    verifies_programs();
    reads_and_writes_texts();
    runs_programs();
    reads_tables();
    keeps_tables();
    takes_the_longest_program();
    takes_a_long_text();
    runs_over_a_long_frontier();
    has_an_edge_of_the_greatest_vertex();
    runs_with_the_longest_argument();
    refuses_batches();
    rebases();
    branches();
    sorted_arrays();
    tells_what_handles_hold();
    edgebpf_close_store(&store);
    lends_and_copies(); /* a version outlives its store */
    edgebpf_close_version(&last);
    edgebpf_close_version(&last);
    edgebpf_close_version(&first);
    edgebpf_close_program(&targets_of);
    puts("every function, and every status but the lack of memory");
    return 0;
}
