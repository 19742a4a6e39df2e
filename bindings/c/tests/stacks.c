/* What each call takes of a thread's stack, which is painted before: at most 220 KB to make or to share a program, 20 KB for any other, and 4 KB
   more for a range. A program keeps at most 100 KB of memory. The graph has a list of each home, and programs call eight functions and run by blocks. */
#define _GNU_SOURCE
#include "check.h"
#include <malloc.h>
#include <pthread.h>

enum { STACK = 1 << 20, PAINT = 0xa5, TO_MAKE = 220 << 10, ELSE = 20 << 10, TO_RANGE = ELSE + sizeof(uint32_t[EDGEBPF_WINDOW]) };
enum { VERTICES = 70000, EDITS = 60000, ROOM = 4096, COLUMNS = 2, RECORD = 16 + 16 * COLUMNS };

/* Eight functions, of which each calls the next, and the last reads its caller's frame. */
static const char nested[] =
    "ldxw r2, [r1+4]\nstdw [r10-8], 1\nmov r1, r10\ncalllocal f1\nexit\nf1:\nstdw [r10-8], 1\ncalllocal f2\nexit\nf2:\nstdw [r10-8], 1\ncalllocal f3\nexit\n"
    "f3:\nstdw [r10-8], 1\ncalllocal f4\nexit\nf4:\nstdw [r10-8], 1\ncalllocal f5\nexit\nf5:\nstdw [r10-8], 1\ncalllocal f6\nexit\nf6:\nstdw [r10-8], 1\n"
    "calllocal f7\nexit\nf7:\nldxdw r0, [r1-8]\nadd r0, r2\nexit\n";
static const char joined[] = "ldxdw r0, [r1+16]\nldxdw r2, [r1+40]\nmul r0, r2\nexit\n";

static uint8_t code[8 * 4096], long_text[44000], removes[EDITS], told[1 << 20], marks[VERTICES];
static uint32_t sources[EDITS], targets[EDITS], all[VERTICES], counts[VERTICES], ends[1 << 20];
static uint64_t values[1 << 20], ranks[VERTICES], starts[VERTICES + 1];
static size_t code_length, text_length, edges;
static const uint8_t table[16];
static const edgebpf_column columns[COLUMNS] = {{ranks, VERTICES}, {ranks, VERTICES}};
static edgebpf_store store, made;
static edgebpf_version version, other;
static edgebpf_program program, of_columns, again;
static edgebpf_change change;
static edgebpf_info info;
static edgebpf_verdict verdict;
static edgebpf_assembled assembled;
static edgebpf_totals totals;
static edgebpf_progress at;
static edgebpf_slice slices[ROOM];
static uint32_t answer, neighbour;
static size_t lent;
static uint64_t epoch;

#define DONE(call) CHECK((call) == EDGEBPF_DONE)
#define WITH &version, &of_columns, EDGEBPF_NO_BYTES, 0, columns, COLUMNS

static void nothing(void) {}
static void make_store(void) { DONE(edgebpf_store_new(VERTICES, &made)); }
static void apply(void) { DONE(edgebpf_store_apply(&store, 1, sources, EDITS, targets, EDITS, removes, EDITS, &change)); }
static void rebase(void) { DONE(edgebpf_store_rebase(&store, &epoch)); }
static void pin(void) { DONE(edgebpf_store_pin(&store, &other)); }
static void share(void) { DONE(edgebpf_version_share(&version, &other)); }
static void branch(void) { DONE(edgebpf_store_of(&version, &made)); }
static void sorted(void) { DONE(edgebpf_store_from(VERTICES, starts, VERTICES + 1, ends, edges, &made)); }
static void copy(void) { DONE(edgebpf_version_copy(&version, starts, VERTICES + 1, ends, edges)); }
static void info_of(void) { DONE(edgebpf_version_info(&version, &info)); }
static void degree(void) { DONE(edgebpf_version_degree(&version, 7, &answer)); }
static void has_edge(void) { DONE(edgebpf_version_has_edge(&version, 7, 9, &answer)); }
static void one_neighbour(void) { DONE(edgebpf_version_neighbour(&version, 7, 30000, &neighbour)); }
static void lend(void) { DONE(edgebpf_version_lend(&version, 7, slices, ROOM, &lent)); }
static void lend_from(void) { DONE(edgebpf_version_lend_from(&version, 7, 30000, slices, ROOM, &lent)); }
static void degrees(void) { DONE(edgebpf_version_degrees(&version, all, VERTICES, counts, VERTICES)); }
static void lists(void) { DONE(edgebpf_version_lists(&version, all, VERTICES, starts, VERTICES + 1, ends, edges, &lent)); }
static void make(void) { DONE(edgebpf_program_new(RECORD, code, code_length, table, sizeof table, &verdict, &again)); }
static void make_long(void) { DONE(edgebpf_program_new(16, code, sizeof code, EDGEBPF_NO_BYTES, 0, &verdict, &again)); }
static void share_program(void) { DONE(edgebpf_program_share(&program, &again)); }
static void assemble(void) { DONE(edgebpf_assemble(long_text, text_length, code, sizeof code, &assembled)); }
static void explain(void) { DONE(edgebpf_explain(RECORD, code, code_length, table, sizeof table, told, sizeof told, &lent)); }
static void run(void) { DONE(edgebpf_run(&version, &program, EDGEBPF_NO_BYTES, 0, all, VERTICES, 0, values, VERTICES, &totals)); }
static void run_some(void) { DONE(edgebpf_run_some(&version, &program, EDGEBPF_NO_BYTES, 0, all, VERTICES, 1, &at, values, VERTICES)); }
static void numbers(void) { DONE(edgebpf_numbers(&version, &program, EDGEBPF_NO_BYTES, 0, values, edges)); }
static void numbers_some(void) { DONE(edgebpf_numbers_some(&version, &program, EDGEBPF_NO_BYTES, 0, all, VERTICES, &at, values, edges, &lent)); }
static void pairs(void) { DONE(edgebpf_pairs(&version, &program, EDGEBPF_NO_BYTES, 0, sources, EDITS, targets, EDITS, &at, values, EDITS)); }
static void pull(void) { DONE(edgebpf_pull(WITH, all, VERTICES, 2, values, VERTICES, &totals)); }
static void pull_some(void) { DONE(edgebpf_pull_some(WITH, all, VERTICES, 2, &at, values, VERTICES)); }
static void pull_range(void) { DONE(edgebpf_pull_range(WITH, 0, 0, &at, values, VERTICES)); }
static void numbers_of(void) { DONE(edgebpf_numbers_of(WITH, all, VERTICES, &at, values, edges, &lent)); }
static void pairs_of(void) { DONE(edgebpf_pairs_of(WITH, sources, EDITS, targets, EDITS, &at, values, EDITS)); }
static void push(void) { DONE(edgebpf_push(WITH, all, VERTICES, 0, values, VERTICES, &totals)); }
static void push_some(void) { DONE(edgebpf_push_some(WITH, all, VERTICES, 0, &at, values, VERTICES)); }
static void is_search(void) { DONE(edgebpf_is_search(&version, 7, counts, VERTICES, all, VERTICES, &answer)); }
static void are_components(void) { DONE(edgebpf_are_components(&version, all, VERTICES, all, VERTICES, counts, VERTICES, &answer)); }
static void are_cores(void) { DONE(edgebpf_are_cores(&version, counts, VERTICES, all, VERTICES, &answer)); }
static void is_independent(void) { DONE(edgebpf_is_independent_set(&version, marks, VERTICES, &answer)); }
static void close_store(void) { edgebpf_close_store(&made); }
static void close_version(void) { edgebpf_close_version(&other); }
static void close_last(void) { edgebpf_close_store(&store), edgebpf_close_version(&version); }
static void close_program(void) { edgebpf_close_program(&again); }

typedef void call(void);

static void *begin(void *one) {
    (*(call **)one)();
    return NULL;
}

/* From the top of the stack down to the last byte that is not as it was painted. */
static size_t taken(call *one) {
    static uint8_t stack[STACK] __attribute__((aligned(4096)));
    pthread_attr_t attributes;
    pthread_t thread;
    size_t untouched = 0;
    at = (edgebpf_progress){UINT64_MAX, 0, 0, 0, 0};
    memset(stack, PAINT, STACK);
    CHECK(!pthread_attr_init(&attributes) && !pthread_attr_setstack(&attributes, stack, STACK));
    CHECK(!pthread_create(&thread, &attributes, begin, &one) && !pthread_join(thread, NULL));
    CHECK(!pthread_attr_destroy(&attributes));
    while (untouched < STACK && stack[untouched] == PAINT) untouched++;
    return STACK - untouched;
}

static edgebpf_program verified(uint16_t record, const char *text, const uint8_t *read, size_t read_length) {
    edgebpf_program result = {{0}};
    DONE(edgebpf_assemble((const uint8_t *)text, strlen(text), code, sizeof code, &assembled));
    code_length = assembled.length;
    DONE(edgebpf_program_new(record, code, code_length, read, read_length, &verdict, &result));
    return result;
}

/* Vertex 7 has a tree, 8 an array and the others some edges or none. */
static void begin_all(void) {
    for (uint32_t vertex = 0; vertex < VERTICES; vertex++) all[vertex] = vertex, ranks[vertex] = vertex;
    DONE(edgebpf_store_new(VERTICES, &store));
    for (uint32_t edit = 0; edit < EDITS; edit++) sources[edit] = 7, targets[edit] = edit;
    apply();
    for (uint32_t edit = 0; edit < EDITS; edit++)
        sources[edit] = edit < 500 ? 8 : random_below(VERTICES), targets[edit] = random_below(VERTICES), removes[edit] = edit % 8 == 0;
    apply();
    DONE(edgebpf_store_pin(&store, &version));
    info_of();
    edges = info.edges;
    for (size_t line = 0; line < 4095; line++) text_length += (size_t)sprintf((char *)long_text + text_length, "mov r0, 7\n");
    text_length += (size_t)sprintf((char *)long_text + text_length, "exit\n");
    of_columns = verified(RECORD, joined, EDGEBPF_NO_BYTES, 0);
    program = verified(16, nested, table, sizeof table);
    CHECK(verdict.frames == 8);
}

typedef struct { const char *name; call *call, *after; size_t most; } row;

/* A program keeps its code, and what its runs work on. */
static void keeps_little(void) {
    const size_t before = mallinfo2().uordblks;
    share_program();
    CHECK(mallinfo2().uordblks - before <= 100 << 10);
    edgebpf_close_program(&again);
}

int main(void) {
    const row rows[] = {
        {"store_new", make_store, close_store, ELSE}, {"store_of", branch, close_store, ELSE}, {"copy", copy, nothing, ELSE},
        {"store_from", sorted, close_store, ELSE}, {"apply", apply, nothing, ELSE}, {"rebase", rebase, nothing, ELSE},
        {"pin", pin, close_version, ELSE}, {"version_share", share, close_version, ELSE}, {"info", info_of, nothing, ELSE},
        {"degree", degree, nothing, ELSE}, {"has_edge", has_edge, nothing, ELSE}, {"neighbour", one_neighbour, nothing, ELSE},
        {"lend", lend, nothing, ELSE}, {"lend_from", lend_from, nothing, ELSE}, {"degrees", degrees, nothing, ELSE},
        {"lists", lists, nothing, ELSE}, {"explain", explain, nothing, ELSE}, {"run", run, nothing, ELSE}, {"run_some", run_some, nothing, ELSE},
        {"numbers", numbers, nothing, ELSE}, {"numbers_some", numbers_some, nothing, ELSE}, {"pairs", pairs, nothing, ELSE},
        {"pull", pull, nothing, ELSE}, {"pull_some", pull_some, nothing, ELSE}, {"pull_range", pull_range, nothing, TO_RANGE},
        {"numbers_of", numbers_of, nothing, ELSE}, {"pairs_of", pairs_of, nothing, ELSE}, {"push", push, nothing, ELSE},
        {"push_some", push_some, nothing, ELSE}, {"is_search", is_search, nothing, ELSE}, {"are_components", are_components, nothing, ELSE},
        {"are_cores", are_cores, nothing, ELSE}, {"is_independent_set", is_independent, nothing, ELSE}, {"program_new", make, close_program, TO_MAKE},
        {"program_share", share_program, close_program, TO_MAKE}, {"assemble", assemble, nothing, ELSE},
        {"program_new, of the longest", make_long, close_program, TO_MAKE}, {"close", close_last, nothing, ELSE},
    };
    size_t most = 0, made_of = 0;
    begin_all();
    keeps_little();
    /* The first thread finds the system's functions. */
    taken(nothing);
    const size_t none = taken(nothing);
    for (size_t one = 0; one < COUNT(rows); one++) {
        const size_t here = taken(rows[one].call) - none, closing = taken(rows[one].after) - none;
        if (here > rows[one].most || closing > ELSE) fprintf(stderr, "%s takes %zu bytes, and to close %zu\n", rows[one].name, here, closing);
        CHECK(here <= rows[one].most && closing <= ELSE);
        if (rows[one].most == TO_MAKE) made_of = here > made_of ? here : made_of;
        if (rows[one].most == ELSE) most = here > most ? here : most;
    }
    edgebpf_close_program(&program), edgebpf_close_program(&of_columns);
    printf("a program takes %zu bytes of the stack to make, and any other call at most %zu\n", made_of, most);
    return 0;
}
