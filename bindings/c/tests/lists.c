/* Asks for the degrees and the lists of frontiers on a graph of eight vertices whose answers were found by hand, meets each refusal, and
   compares the lists of a larger graph with what is lent. */
#include "check.h"

static edgebpf_store store;
static edgebpf_version pin;
static edgebpf_program program;

/* 0 to 1, 2 and 3; 2 to 0; 3 to itself; 7 to 0 and 6. */
static void makes_the_graph(void) {
    const uint32_t sources[] = {0, 0, 0, 2, 3, 7, 7}, targets[] = {1, 2, 3, 0, 3, 6, 0};
    const uint8_t none[COUNT(sources)] = {0};
    edgebpf_change change;
    edgebpf_verdict verdict;
    CHECK(edgebpf_store_new(8, &store) == EDGEBPF_DONE);
    CHECK(edgebpf_store_apply(&store, 0, sources, 7, targets, 7, none, 7, &change) == EDGEBPF_DONE && change.added == 7);
    CHECK(edgebpf_store_pin(&store, &pin) == EDGEBPF_DONE);
    CHECK(edgebpf_program_new(16, target_code, 16, EDGEBPF_NO_BYTES, 0, &verdict, &program) == EDGEBPF_DONE);
}

/* In any order, a vertex twice, and two that the graph does not have. */
static const uint32_t frontier[] = {7, 0, 1, 7, 8, 2, UINT32_MAX};
enum { VERTICES = COUNT(frontier), TARGETS = 8 };

static void counts_and_copies(void) {
    const uint32_t wanted_counts[] = {2, 3, 0, 2, 0, 1, 0}, wanted[] = {0, 6, 1, 2, 3, 0, 6, 0};
    const uint64_t wanted_starts[] = {0, 2, 5, 5, 7, 7, 8, 8};
    uint32_t counts[VERTICES], targets[TARGETS + 2];
    uint64_t starts[VERTICES + 1];
    size_t count = 77;
    memset(targets, 0x55, sizeof targets);
    CHECK(edgebpf_version_degrees(&pin, frontier, VERTICES, counts, VERTICES) == EDGEBPF_DONE);
    CHECK(!memcmp(counts, wanted_counts, sizeof counts));
    CHECK(edgebpf_version_lists(&pin, frontier, VERTICES, starts, VERTICES + 1, targets, TARGETS, &count) == EDGEBPF_DONE && count == TARGETS);
    CHECK(!memcmp(starts, wanted_starts, sizeof starts) && !memcmp(targets, wanted, sizeof wanted));
    /* With more room what follows stays. */
    memset(targets, 0x55, sizeof targets);
    CHECK(edgebpf_version_lists(&pin, frontier, VERTICES, starts, VERTICES + 1, targets, TARGETS + 2, &count) == EDGEBPF_DONE && count == TARGETS);
    CHECK(!memcmp(targets, wanted, sizeof wanted) && targets[TARGETS] == 0x55555555 && targets[TARGETS + 1] == 0x55555555);
    /* Of no vertex there is the end of all lists. */
    starts[0] = 9;
    CHECK(edgebpf_version_lists(&pin, frontier, 0, starts, 1, targets, 0, &count) == EDGEBPF_DONE && count == 0 && starts[0] == 0);
    CHECK(edgebpf_version_degrees(&pin, frontier, 0, counts, 0) == EDGEBPF_DONE);
}

/* Nothing is written to the arrays; the count is, but for an empty or another handle. */
static void refuses(void) {
    uint32_t counts[VERTICES], targets[TARGETS], old_targets[TARGETS];
    uint64_t starts[VERTICES + 2], old_starts[VERTICES + 2];
    size_t count = 77;
    edgebpf_version none = {{0}};
    memset(counts, 0x55, sizeof counts), memset(targets, 0x55, sizeof targets), memset(starts, 0x55, sizeof starts);
    memcpy(old_targets, targets, sizeof targets), memcpy(old_starts, starts, sizeof starts);
    CHECK(edgebpf_version_lists(&pin, frontier, VERTICES, starts, VERTICES + 1, targets, 0, &count) == EDGEBPF_LENGTHS && count == TARGETS);
    count = 77;
    CHECK(edgebpf_version_lists(&pin, frontier, VERTICES, starts, VERTICES + 1, targets, TARGETS - 1, &count) == EDGEBPF_LENGTHS && count == TARGETS);
    CHECK(edgebpf_version_lists(&pin, frontier, VERTICES, starts, VERTICES, targets, TARGETS, &count) == EDGEBPF_LENGTHS);
    CHECK(edgebpf_version_lists(&pin, frontier, VERTICES, starts, VERTICES + 2, targets, TARGETS, &count) == EDGEBPF_LENGTHS);
    CHECK(edgebpf_version_lists(&pin, frontier, VERTICES, starts, 0, targets, TARGETS, &count) == EDGEBPF_LENGTHS);
    count = 77;
    CHECK(edgebpf_version_lists(&none, frontier, VERTICES, starts, VERTICES + 1, targets, TARGETS, &count) == EDGEBPF_EMPTY);
    CHECK(edgebpf_version_lists((edgebpf_version *)&store, frontier, VERTICES, starts, VERTICES + 1, targets, TARGETS, &count) == EDGEBPF_OTHER_KIND);
    CHECK(edgebpf_version_lists((edgebpf_version *)&program, frontier, VERTICES, starts, VERTICES + 1, targets, TARGETS, &count) == EDGEBPF_OTHER_KIND);
    CHECK(count == 77 && !memcmp(targets, old_targets, sizeof targets) && !memcmp(starts, old_starts, sizeof starts));
    CHECK(edgebpf_version_degrees(&pin, frontier, VERTICES, counts, VERTICES - 1) == EDGEBPF_LENGTHS);
    CHECK(edgebpf_version_degrees(&pin, frontier, VERTICES - 1, counts, VERTICES) == EDGEBPF_LENGTHS);
    CHECK(edgebpf_version_degrees(&none, frontier, VERTICES, counts, VERTICES) == EDGEBPF_EMPTY);
    CHECK(edgebpf_version_degrees((edgebpf_version *)&store, frontier, VERTICES, counts, VERTICES) == EDGEBPF_OTHER_KIND);
    CHECK(edgebpf_version_degrees((edgebpf_version *)&program, frontier, VERTICES, counts, VERTICES) == EDGEBPF_OTHER_KIND);
    CHECK(!memcmp(counts, old_targets, sizeof counts));
    edgebpf_info info; /* the handles hold what they held */
    CHECK(edgebpf_version_info(&pin, &info) == EDGEBPF_DONE && info.edges == 7);
}

/* A frontier of more vertices than a graph may have. It is never read, so the system gives it no memory. */
static void refuses_a_long_frontier(void) {
    const size_t length = (size_t)EDGEBPF_MOST_VERTICES + 1;
    uint32_t *many = calloc(length, sizeof *many), target = 5;
    uint64_t *starts = calloc(length + 1, sizeof *starts);
    size_t count = 77;
    CHECK(many && starts);
    CHECK(edgebpf_version_lists(&pin, many, length, starts, length + 1, &target, 1, &count) == EDGEBPF_LENGTHS);
    CHECK(count == 77 && target == 5);
    free(many);
    free(starts);
}

/* Lists in each home, also after removals and a rebase, against the slices that are lent. */
static void copies_what_is_lent(void) {
    enum { MOST = 3000, EDITS = 60000, ROOM = 4096 };
    static uint32_t sources[EDITS], targets[EDITS], chosen[MOST], counts[MOST];
    static uint8_t removes[EDITS];
    static uint64_t starts[MOST + 1];
    static edgebpf_slice slices[ROOM];
    edgebpf_store large = {{0}};
    edgebpf_version last = {{0}};
    edgebpf_change change;
    uint64_t epoch;
    size_t count = 0, lent = 0;
    CHECK(edgebpf_store_new(MOST, &large) == EDGEBPF_DONE);
    for (int batch = 0; batch < 3; batch++) {
        for (uint32_t i = 0; i < EDITS; i++) {
            uint32_t width = random_below(MOST);
            sources[i] = random_below(width + 1), targets[i] = random_below(MOST), removes[i] = batch == 1 && random_below(2);
        }
        CHECK(edgebpf_store_apply(&large, 0, sources, EDITS, targets, EDITS, removes, EDITS, &change) == EDGEBPF_DONE);
        if (batch == 1) CHECK(edgebpf_store_rebase(&large, &epoch) == EDGEBPF_DONE);
        CHECK(edgebpf_store_pin(&large, &last) == EDGEBPF_DONE);
        for (uint32_t i = 0; i < MOST; i++) chosen[i] = random_below(MOST + 10);
        CHECK(edgebpf_version_lists(&last, chosen, MOST, starts, MOST + 1, targets, 0, &count) == EDGEBPF_LENGTHS);
        uint32_t *lists = malloc((count + 1) * sizeof *lists);
        size_t again = 0;
        CHECK(lists && edgebpf_version_lists(&last, chosen, MOST, starts, MOST + 1, lists, count, &again) == EDGEBPF_DONE && again == count);
        CHECK(edgebpf_version_degrees(&last, chosen, MOST, counts, MOST) == EDGEBPF_DONE);
        CHECK(starts[0] == 0 && starts[MOST] == count);
        for (uint32_t i = 0; i < MOST; i++) {
            const uint32_t *next = lists + starts[i];
            CHECK(starts[i + 1] - starts[i] == counts[i]);
            CHECK(edgebpf_version_lend(&last, chosen[i], slices, ROOM, &lent) == EDGEBPF_DONE && lent < ROOM);
            for (size_t slice = 0; slice < lent; next += slices[slice++].count) CHECK(!memcmp(next, slices[slice].at, slices[slice].count * sizeof *next));
            CHECK(next == lists + starts[i + 1]);
        }
        free(lists);
    }
    edgebpf_close_store(&large);
    edgebpf_close_version(&last);
}

int main(void) {
    makes_the_graph();
    counts_and_copies();
    refuses();
    refuses_a_long_frontier();
    copies_what_is_lent();
    edgebpf_close_store(&store);
    counts_and_copies(); /* a version outlives its store */
    edgebpf_close_program(&program);
    edgebpf_close_version(&pin);
    puts("the degrees and the lists of frontiers");
    return 0;
}
