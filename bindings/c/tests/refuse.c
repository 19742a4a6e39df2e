/* A heap that refuses the Nth request, for each N: the call answers that there is no memory, all is as it was, the same call
   then succeeds, and at the end no block is left. It stands in place of heap.c. It also counts what a rebase frees. */
#include "check.h"
#include <stdbool.h>

typedef struct { bool is_there; void *at; } block;

static long refused_at, asked, blocks;

static block answer(void *at) { return (block){at != NULL, at}; }

static bool is_refused(void) { return ++asked == refused_at; }

block rattle_alloc(size_t size, size_t align) {
    void *at = is_refused() ? NULL : malloc(size ? size : align);
    blocks += at != NULL;
    return answer(at);
}

block rattle_realloc(void *at, size_t kept, size_t size, size_t align) {
    (void)kept;
    return answer(is_refused() ? NULL : realloc(at, size ? size : align));
}

void rattle_dealloc(void *at) {
    blocks--;
    free(at);
}

enum { VERTICES = 3000, EDITS = 600, BATCHES = 3 };

static uint32_t sources[EDITS], targets[EDITS], frontier[VERTICES];
static uint8_t removes[EDITS];
static uint64_t values[VERTICES];
static int refusals;

/* Whether a call has to be made again: it was refused memory, and that once at most. */
static bool again(uint32_t status) {
    if (status == EDGEBPF_DONE) return false;
    CHECK(status == EDGEBPF_NO_MEMORY);
    CHECK(++refusals == 1);
    return true;
}

/* The first and the last batch are spread over the graph, the second one is of one vertex, whose list outgrows its home. */
static void write_batch(int batch) {
    for (int i = 0; i < EDITS; i++) {
        sources[i] = batch == 1 ? 7 : random_below(VERTICES);
        targets[i] = random_below(VERTICES);
        removes[i] = batch == 2 && random_below(2);
    }
}

static void check_last(edgebpf_store *store, uint64_t epoch, uint64_t number, uint64_t edges) {
    edgebpf_version pin = {{0}};
    edgebpf_info info;
    while (again(edgebpf_store_pin(store, &pin))) continue;
    CHECK(edgebpf_version_info(&pin, &info) == EDGEBPF_DONE);
    CHECK(info.epoch == epoch && info.number == number && info.edges == edges);
    edgebpf_close_version(&pin);
}

/* All batches, with a rebase before the last one. */
static void apply_all(edgebpf_store *store) {
    uint64_t epoch = 0, number = 0, edges = 0;
    edgebpf_change change;
    random_state = 5;
    for (int batch = 0; batch < BATCHES; batch++) {
        if (batch == BATCHES - 1) {
            while (again(edgebpf_store_rebase(store, &epoch))) check_last(store, 0, number, edges);
            CHECK(epoch == 1);
            number = 0;
            check_last(store, epoch, number, edges);
        }
        write_batch(batch);
        while (again(edgebpf_store_apply(store, 0, sources, EDITS, targets, EDITS, removes, EDITS, &change)))
            check_last(store, epoch, number, edges);
        edges += change.added - change.removed;
        check_last(store, epoch, ++number, edges);
    }
}

/* A branch of the last version, and a store of its edges; both have them, and are edited. */
static void store_again(edgebpf_store *store) {
    static uint64_t starts[VERTICES + 1];
    const uint8_t out = 1;
    edgebpf_version pin = {{0}};
    edgebpf_store branch = {{0}}, sorted = {{0}};
    edgebpf_info info;
    edgebpf_change change;
    while (again(edgebpf_store_pin(store, &pin))) continue;
    CHECK(edgebpf_version_info(&pin, &info) == EDGEBPF_DONE);
    uint32_t *all = calloc(info.edges + 1, sizeof *all), source = 0;
    CHECK(all && edgebpf_version_copy(&pin, starts, VERTICES + 1, all, info.edges) == EDGEBPF_DONE && info.edges);
    while (again(edgebpf_store_of(&pin, &branch))) CHECK(!branch.handle.at);
    while (again(edgebpf_store_from(VERTICES, starts, VERTICES + 1, all, info.edges, &sorted))) CHECK(!sorted.handle.at);
    while (!starts[source + 1]) source++;
    edgebpf_close_version(&pin);
    check_last(&branch, 0, 0, info.edges), check_last(&sorted, 0, 0, info.edges);
    while (again(edgebpf_store_apply(&branch, 0, &source, 1, all, 1, &out, 1, &change))) check_last(&branch, 0, 0, info.edges);
    while (again(edgebpf_store_apply(&sorted, 0, &source, 1, all, 1, &out, 1, &change))) check_last(&sorted, 0, 0, info.edges);
    check_last(&branch, 0, 1, info.edges - 1), check_last(&sorted, 0, 1, info.edges - 1);
    edgebpf_close_store(&branch), edgebpf_close_store(&sorted);
    free(all);
}

static void run_all(edgebpf_store *store) {
    const char *text = "ldxw r0, [r1+4]\nldxb r2, [r3+3]\nadd r0, r2\nexit\n";
    const uint8_t table[4] = {1, 2, 3, 4};
    edgebpf_version pin = {{0}}, shared = {{0}};
    edgebpf_program program = {{0}}, other = {{0}};
    edgebpf_verdict verdict;
    edgebpf_assembled made;
    edgebpf_totals totals;
    static uint8_t code[64], told[4096];
    size_t count;
    for (int i = 0; i < VERTICES; i++) frontier[i] = i;
    while (again(edgebpf_store_pin(store, &pin))) continue;
    while (again(edgebpf_version_share(&pin, &shared))) continue;
    while (again(edgebpf_assemble((const uint8_t *)text, strlen(text), code, sizeof code, &made))) continue;
    while (again(edgebpf_program_new(16, code, made.length, table, sizeof table, &verdict, &program))) CHECK(!program.handle.at);
    while (again(edgebpf_program_share(&program, &other))) continue;
    while (again(edgebpf_explain(16, code, made.length, table, sizeof table, told, sizeof told, &count))) continue;
    /* Runs, numbers and lists take no memory. */
    const long before = asked;
    edgebpf_progress at = {0}, numbered = {0}, paired = {0};
    CHECK(edgebpf_run(&pin, &program, EDGEBPF_NO_BYTES, 0, frontier, VERTICES, EDGEBPF_SUM, values, VERTICES, &totals) == EDGEBPF_DONE);
    CHECK(edgebpf_run_some(&pin, &program, EDGEBPF_NO_BYTES, 0, frontier, VERTICES, EDGEBPF_SUM, &at, values, VERTICES) == EDGEBPF_DONE);
    CHECK(edgebpf_numbers_some(&pin, &program, EDGEBPF_NO_BYTES, 0, frontier, VERTICES, &numbered, values, VERTICES, &count) == EDGEBPF_DONE);
    CHECK(edgebpf_pairs(&pin, &program, EDGEBPF_NO_BYTES, 0, frontier, VERTICES, frontier, VERTICES, &paired, values, VERTICES) == EDGEBPF_DONE);
    static uint64_t starts[VERTICES + 1];
    static uint32_t lists[VERTICES];
    CHECK(edgebpf_version_degrees(&pin, frontier, VERTICES, lists, VERTICES) == EDGEBPF_DONE);
    CHECK(edgebpf_version_lists(&pin, frontier, VERTICES, starts, VERTICES + 1, lists, VERTICES, &count) == EDGEBPF_DONE);
    CHECK(asked == before);
    edgebpf_close_version(&pin);
    edgebpf_close_version(&shared);
    edgebpf_close_program(&program);
    edgebpf_close_program(&other);
}

/* Lengths that no program has are found before memory is asked for. */
static void check_lengths(void) {
    static uint8_t code[8 * 4097], told[16];
    edgebpf_program program = {{0}};
    edgebpf_verdict verdict;
    size_t count;
    CHECK(edgebpf_program_new(16, code, sizeof code, EDGEBPF_NO_BYTES, 0, &verdict, &program) == EDGEBPF_CODE_LENGTH);
    CHECK(edgebpf_program_new(15, code, sizeof code, EDGEBPF_NO_BYTES, 0, &verdict, &program) == EDGEBPF_RECORD_LENGTH);
    CHECK(edgebpf_explain(16, code, 9, EDGEBPF_NO_BYTES, 0, told, sizeof told, &count) == EDGEBPF_CODE_LENGTH);
    CHECK(edgebpf_explain(257, code, 9, EDGEBPF_NO_BYTES, 0, told, sizeof told, &count) == EDGEBPF_RECORD_LENGTH);
    CHECK(edgebpf_program_new(16, code, 8, code, 4097, &verdict, &program) == EDGEBPF_TABLE_LENGTH);
    CHECK(edgebpf_explain(16, code, 8, code, 4097, told, sizeof told, &count) == EDGEBPF_TABLE_LENGTH);
    CHECK(asked == 0);
}

/* What batches took is free after a rebase, once no older version is open. A rebase itself keeps a block or two. */
static void forgets_at_a_rebase(void) {
    edgebpf_store store = {{0}};
    edgebpf_version older = {{0}};
    edgebpf_change change;
    uint64_t epoch;
    long kept = 0;
    for (int i = 0; i < EDITS; i++) sources[i] = i * 5, targets[i] = i;
    CHECK(edgebpf_store_new(VERTICES, &store) == EDGEBPF_DONE);
    for (int round = 0; round < 2; round++) {
        for (int batch = 0; batch < 40; batch++) {
            memset(removes, batch % 2, sizeof removes);
            CHECK(edgebpf_store_apply(&store, 0, sources, EDITS, targets, EDITS, removes, EDITS, &change) == EDGEBPF_DONE);
            CHECK(change.added + change.removed == EDITS);
            if (batch == 20) CHECK(edgebpf_store_pin(&store, &older) == EDGEBPF_DONE);
        }
        CHECK(edgebpf_store_rebase(&store, &epoch) == EDGEBPF_DONE);
        const long held = blocks;
        edgebpf_close_version(&older);
        CHECK(held >= blocks + 40);
        if (round == 0) kept = blocks;
    }
    CHECK(blocks <= kept + 2);
    edgebpf_close_store(&store);
    CHECK(blocks == 0);
}

int main(void) {
    long tries = 0;
    check_lengths();
    forgets_at_a_rebase();
    do {
        edgebpf_store store = {{0}};
        refused_at = ++tries;
        asked = 0;
        refusals = 0;
        while (again(edgebpf_store_new(VERTICES, &store))) continue;
        apply_all(&store);
        store_again(&store);
        run_all(&store);
        edgebpf_close_store(&store);
        CHECK(blocks == 0);
    } while (refusals);
    printf("refused each of %ld requests in turn, and no block was left\n", tries - 1);
    return 0;
}
