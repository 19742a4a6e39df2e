/* Calls the library as a fuzzer says, on small graphs, and compares each answer with a model: a set of edges as a word for each vertex.
 * It is not a test of the gate. With libFuzzer and AddressSanitizer:
 *     make BUILD=/tmp/build /tmp/build/fuzz && /tmp/build/fuzz -max_len=512 -runs=100000
 * It prints how many calls it made. */
#include <edgebpf.h>
#include <stdio.h>
#include <stdlib.h>
#include <string.h>

enum { MOST = 64, HANDLES = 4, EDITS = 40, ROOM = 16, TEXT = 4096, CODE = 256, TABLE = 4096 };

typedef struct { const uint8_t *at, *end; } input;
typedef struct { uint32_t vertices; uint64_t epoch, number, rows[MOST]; } graph;
typedef struct { edgebpf_store handle; graph graph; } store;
typedef struct { edgebpf_version handle; graph graph; } version;
typedef struct { edgebpf_program handle; uint16_t length; int is_target; } program;

static store stores[HANDLES];
static version versions[HANDLES];
static program programs[HANDLES];
static unsigned long long calls;

static void must(int holds, const char *said) {
    if (holds) return;
    fprintf(stderr, "fuzz: %s\n", said);
    abort();
}

#define CALL(call) (calls++, (call))
#define MUST(condition) must((condition), #condition)

static uint32_t byte(input *in) { return in->at < in->end ? *in->at++ : 0; }
static uint32_t word(input *in) { return byte(in) | byte(in) << 8 | byte(in) << 16 | byte(in) << 24; }
/* A vertex, mostly one of the graph. */
static uint32_t vertex(input *in, uint32_t vertices) { uint32_t chosen = byte(in); return chosen < 250 && vertices ? chosen % vertices : word(in); }

static uint64_t row(const graph *of, uint32_t at) { return at < of->vertices ? of->rows[at] : 0; }
static uint64_t edges_of(const graph *of) {
    uint64_t sum = 0;
    for (uint32_t at = 0; at < of->vertices; at++) sum += (uint64_t)__builtin_popcountll(of->rows[at]);
    return sum;
}

static void new_store(input *in) {
    store *one = &stores[byte(in) % HANDLES];
    uint32_t chosen = byte(in), vertices = chosen < 240 ? 1 + chosen % MOST : chosen < 248 ? 0 : word(in);
    if (vertices > MOST && vertices <= EDGEBPF_MOST_VERTICES) vertices = MOST;
    edgebpf_close_store(&one->handle);
    uint32_t status = CALL(edgebpf_store_new(vertices, &one->handle));
    MUST(status == (vertices >= 1 && vertices <= EDGEBPF_MOST_VERTICES ? EDGEBPF_DONE : EDGEBPF_VERTEX_COUNT));
    memset(&one->graph, 0, sizeof one->graph);
    if (!status) one->graph.vertices = vertices;
}

static void apply(input *in) {
    store *one = &stores[byte(in) % HANDLES];
    uint32_t sources[EDITS], targets[EDITS];
    uint8_t removes[EDITS];
    size_t count = byte(in) % (EDITS + 1), other = byte(in) < 250 ? count : byte(in) % (EDITS + 1);
    uint8_t feed = (uint8_t)(byte(in) % 5);
    graph after = one->graph;
    int inside = 1;
    for (size_t at = 0; at < count; at++) {
        sources[at] = vertex(in, after.vertices), targets[at] = vertex(in, after.vertices), removes[at] = byte(in) & 1;
        inside = inside && sources[at] < after.vertices && targets[at] < after.vertices;
        if (!inside) continue;
        uint64_t bit = 1ull << targets[at];
        after.rows[sources[at]] = removes[at] ? after.rows[sources[at]] & ~bit : after.rows[sources[at]] | bit;
    }
    edgebpf_change change;
    uint32_t status = CALL(edgebpf_store_apply(&one->handle, feed, sources, count, targets, other, removes, count, &change));
    uint32_t wanted = !one->graph.vertices ? EDGEBPF_EMPTY : other != count ? EDGEBPF_LENGTHS : !inside ? EDGEBPF_VERTEX_RANGE
                    : one->graph.number == EDGEBPF_MOST_BATCHES ? EDGEBPF_LOG_FULL : feed > 3 ? EDGEBPF_FEED : EDGEBPF_DONE;
    MUST(status == wanted);
    if (status) return;
    uint64_t added = 0, removed = 0;
    for (uint32_t at = 0; at < after.vertices; at++) {
        added += (uint64_t)__builtin_popcountll(after.rows[at] & ~one->graph.rows[at]);
        removed += (uint64_t)__builtin_popcountll(one->graph.rows[at] & ~after.rows[at]);
    }
    after.number++;
    one->graph = after;
    MUST(change.added == added && change.removed == removed && change.number == after.number);
}

static void rebase(input *in) {
    store *one = &stores[byte(in) % HANDLES];
    uint64_t epoch;
    uint32_t status = CALL(edgebpf_store_rebase(&one->handle, &epoch));
    MUST(status == (one->graph.vertices ? EDGEBPF_DONE : EDGEBPF_EMPTY));
    if (status) return;
    one->graph.epoch++, one->graph.number = 0;
    MUST(epoch == one->graph.epoch);
}

static void pin(input *in) {
    store *from = &stores[byte(in) % HANDLES];
    version *one = &versions[byte(in) % HANDLES];
    edgebpf_close_version(&one->handle);
    one->graph.vertices = 0;
    uint32_t status = CALL(edgebpf_store_pin(&from->handle, &one->handle));
    MUST(status == (from->graph.vertices ? EDGEBPF_DONE : EDGEBPF_EMPTY));
    if (!status) one->graph = from->graph;
}

static void branch(input *in) {
    version *from = &versions[byte(in) % HANDLES];
    store *one = &stores[byte(in) % HANDLES];
    edgebpf_close_store(&one->handle);
    one->graph.vertices = 0;
    uint32_t status = CALL(edgebpf_store_of(&from->handle, &one->handle));
    MUST(status == (from->graph.vertices ? EDGEBPF_DONE : EDGEBPF_EMPTY));
    if (!status) one->graph = from->graph, one->graph.epoch = one->graph.number = 0;
}

static void share(input *in) {
    version *from = &versions[byte(in) % HANDLES], *one = &versions[byte(in) % HANDLES];
    if (from == one) return;
    edgebpf_close_version(&one->handle);
    one->graph.vertices = 0;
    uint32_t status = CALL(edgebpf_version_share(&from->handle, &one->handle));
    MUST(status == (from->graph.vertices ? EDGEBPF_DONE : EDGEBPF_EMPTY));
    if (!status) one->graph = from->graph;
}

/* The neighbours that a version lends, as a word; they ascend. */
static uint64_t lent_row(version *one, uint32_t at, uint32_t skipped, size_t room) {
    edgebpf_slice slices[ROOM];
    size_t lent = 0;
    uint32_t status = skipped ? CALL(edgebpf_version_lend_from(&one->handle, at, skipped, slices, room, &lent))
                              : CALL(edgebpf_version_lend(&one->handle, at, slices, room, &lent));
    uint64_t wanted = row(&one->graph, at);
    for (; skipped && wanted; skipped--) wanted &= wanted - 1;
    MUST(status == EDGEBPF_DONE && lent <= room);
    uint64_t found = 0;
    int64_t last = -1;
    for (size_t slice = 0; slice < lent; slice++) {
        MUST(slices[slice].count > 0);
        for (size_t place = 0; place < slices[slice].count; place++) {
            MUST((int64_t)slices[slice].at[place] > last && slices[slice].at[place] < MOST);
            last = slices[slice].at[place], found |= 1ull << last;
        }
    }
    MUST(lent == room || found == wanted);
    return found;
}

static void ask(input *in) {
    version *one = &versions[byte(in) % HANDLES];
    const graph *known = &one->graph;
    uint32_t source = vertex(in, known->vertices), target = vertex(in, known->vertices), place = byte(in) % 70, answer = 0;
    edgebpf_info info;
    uint32_t status = CALL(edgebpf_version_info(&one->handle, &info));
    MUST(status == (known->vertices ? EDGEBPF_DONE : EDGEBPF_EMPTY));
    if (status) return;
    MUST(info.vertices == known->vertices && info.epoch == known->epoch && info.number == known->number && info.edges == edges_of(known));
    uint64_t wanted = row(known, source);
    MUST(!CALL(edgebpf_version_degree(&one->handle, source, &answer)) && answer == (uint32_t)__builtin_popcountll(wanted));
    MUST(!CALL(edgebpf_version_has_edge(&one->handle, source, target, &answer)) && answer == (target < MOST ? wanted >> target & 1 : 0));
    for (uint32_t skip = 0; skip < place && wanted; skip++) wanted &= wanted - 1;
    status = CALL(edgebpf_version_neighbour(&one->handle, source, place, &answer));
    MUST(status == (wanted ? EDGEBPF_DONE : EDGEBPF_NO_NEIGHBOUR) && (!wanted || answer == (uint32_t)__builtin_ctzll(wanted)));
    lent_row(one, source, byte(in) < 128 ? 0 : place, byte(in) % (ROOM + 1));
}

static void copy(input *in) {
    version *one = &versions[byte(in) % HANDLES];
    static uint64_t starts[MOST + 1];
    static uint32_t targets[MOST * MOST];
    size_t edges = edges_of(&one->graph), given = byte(in) < 250 ? edges : byte(in);
    uint32_t status = CALL(edgebpf_version_copy(&one->handle, starts, one->graph.vertices + 1, targets, given));
    MUST(status == (!one->graph.vertices ? EDGEBPF_EMPTY : given != edges ? EDGEBPF_LENGTHS : EDGEBPF_DONE));
    if (status) return;
    for (uint32_t at = 0; at < one->graph.vertices; at++) {
        uint64_t found = 0;
        for (uint64_t place = starts[at]; place < starts[at + 1]; place++) found |= 1ull << targets[place];
        MUST(found == one->graph.rows[at]);
    }
}

/* The degrees and the lists of a frontier, with too little room, enough or more. */
static void list(input *in) {
    version *one = &versions[byte(in) % HANDLES];
    static uint32_t frontier[EDITS], counts[EDITS], targets[EDITS * MOST];
    static uint64_t starts[EDITS + 2];
    size_t chosen = byte(in) % (EDITS + 1), places = chosen + (byte(in) < 245 ? 1 : byte(in) % 3), wanted = 0, count = 77;
    for (size_t at = 0; at < chosen; at++) {
        frontier[at] = vertex(in, one->graph.vertices);
        wanted += (size_t)__builtin_popcountll(row(&one->graph, frontier[at]));
    }
    size_t room = byte(in) < 200 ? wanted : byte(in) < 128 ? byte(in) % (wanted + 1) : wanted + byte(in) % (EDITS * MOST + 1 - wanted);
    uint32_t status = CALL(edgebpf_version_lists(&one->handle, frontier, chosen, starts, places, targets, room, &count));
    MUST(status == (!one->graph.vertices ? EDGEBPF_EMPTY : places != chosen + 1 || room < wanted ? EDGEBPF_LENGTHS : EDGEBPF_DONE));
    MUST(count == (one->graph.vertices ? wanted : 77));
    if (status) return;
    MUST(!CALL(edgebpf_version_degrees(&one->handle, frontier, chosen, counts, chosen)));
    MUST(edgebpf_version_degrees(&one->handle, frontier, chosen, counts, chosen + 1) == EDGEBPF_LENGTHS);
    size_t place = 0;
    for (size_t at = 0; at < chosen; at++) {
        MUST(starts[at] == place && counts[at] == starts[at + 1] - starts[at]);
        for (uint64_t left = row(&one->graph, frontier[at]); left; left &= left - 1) MUST(targets[place++] == (uint32_t)__builtin_ctzll(left));
    }
    MUST(place == wanted && starts[chosen] == wanted);
}

static void new_program(input *in) {
    static const uint8_t target[] = {0x61, 0x10, 4, 0, 0, 0, 0, 0, 0x95, 0, 0, 0, 0, 0, 0, 0};
    program *one = &programs[byte(in) % HANDLES];
    uint8_t code[CODE] __attribute__((aligned(8)));
    size_t length = 8 * (byte(in) % 32) + (byte(in) > 250);
    uint16_t record = byte(in) < 250 ? (uint16_t)(16 + byte(in) % 240) : (uint16_t)word(in);
    one->is_target = byte(in) & 1;
    for (size_t at = 0; at < length; at++) code[at] = (uint8_t)byte(in);
    if (one->is_target) memcpy(code, target, length = sizeof target);
    static uint8_t table[TABLE + 2];
    uint32_t chosen = byte(in);
    size_t table_length = chosen < 100 ? 0 : chosen < 240 ? byte(in) % 32 : chosen < 250 ? TABLE - 1 + chosen % 2 : TABLE + 1 + chosen % 2;
    for (size_t at = 0; at < 32; at++) table[at] = (uint8_t)byte(in);
    edgebpf_verdict verdict = {0, 0, 0, 0};
    edgebpf_close_program(&one->handle);
    one->length = 0;
    uint32_t status = CALL(edgebpf_program_new(record, code, length, table, table_length, &verdict, &one->handle));
    int fits = record >= 16 && record <= 256;
    MUST(fits ? status != EDGEBPF_RECORD_LENGTH : status == EDGEBPF_RECORD_LENGTH);
    MUST(!fits || (status == EDGEBPF_CODE_LENGTH) == (length % 8 || !length));
    fits = fits && status != EDGEBPF_CODE_LENGTH;
    MUST(!fits || (status == EDGEBPF_TABLE_LENGTH) == (table_length > TABLE));
    MUST(status != EDGEBPF_REFUSED || (verdict.cause >= 1 && verdict.cause <= 18 && !one->is_target));
    if (!status) one->length = record;
    static uint8_t text[TEXT];
    size_t count = 0;
    status = CALL(edgebpf_explain(record, code, length, table, table_length, text, byte(in) < 128 ? 0 : TEXT, &count));
    MUST(fits && table_length <= TABLE ? status == EDGEBPF_DONE || status == EDGEBPF_LENGTHS
                                       : status == EDGEBPF_RECORD_LENGTH || status == EDGEBPF_CODE_LENGTH || status == EDGEBPF_TABLE_LENGTH);
}

static void assemble(input *in) {
    static const char *const words[] = {"mov r0, 7", "exit", "ldxw r0, [r1+4]", "add r0, r1", "\n", ";", "x:", "ja x", " ", "\xff", "stb [r10-1], 5", "call 1"};
    char text[TEXT] = "";
    uint8_t code[CODE];
    for (uint32_t count = byte(in) % 32; count; count--) strcat(strcat(text, words[byte(in) % 12]), byte(in) & 1 ? "\n" : "");
    edgebpf_assembled told;
    uint32_t status = CALL(edgebpf_assemble((const uint8_t *)text, strlen(text), code, byte(in), &told));
    MUST(status == EDGEBPF_DONE ? told.length % 8 == 0 : status == EDGEBPF_WRONG_TEXT || status == EDGEBPF_LENGTHS);
}

static void run(input *in) {
    version *one = &versions[byte(in) % HANDLES];
    program *with = &programs[byte(in) % HANDLES];
    uint32_t frontier[EDITS], reduction = byte(in) % 4;
    uint64_t values[EDITS];
    uint8_t argument[256] = {0};
    size_t count = byte(in) % (EDITS + 1), length = byte(in) < 250 && with->length ? with->length - 16u : byte(in);
    for (size_t at = 0; at < count; at++) frontier[at] = vertex(in, one->graph.vertices);
    edgebpf_totals totals;
    uint32_t status = CALL(edgebpf_run(&one->handle, &with->handle, argument, length, frontier, count, reduction, values, count, &totals));
    if (!one->graph.vertices || !with->length) { MUST(status == EDGEBPF_EMPTY); return; }
    MUST(status == (reduction > 2 ? EDGEBPF_REDUCTION : length + 16 != with->length ? EDGEBPF_ARGUMENT_LENGTH : EDGEBPF_DONE));
    if (status) return;
    uint64_t edges = 0;
    for (size_t at = 0; at < count; at++) {
        uint64_t left = row(&one->graph, frontier[at]), wanted = reduction == EDGEBPF_MIN ? UINT64_MAX : 0;
        edges += (uint64_t)__builtin_popcountll(left);
        for (; left; left &= left - 1) {
            uint64_t number = (uint64_t)__builtin_ctzll(left);
            wanted = reduction == EDGEBPF_SUM ? wanted + number : reduction == EDGEBPF_MIN ? (number < wanted ? number : wanted) : (number > wanted ? number : wanted);
        }
        MUST(!with->is_target || values[at] == wanted);
    }
    MUST(totals.edges == edges);
}

static void numbers(input *in) {
    version *one = &versions[byte(in) % HANDLES];
    program *with = &programs[byte(in) % HANDLES];
    static uint64_t found[MOST * MOST];
    uint8_t argument[256] = {0};
    size_t edges = edges_of(&one->graph), length = with->length ? with->length - 16u : 0;
    uint32_t status = CALL(edgebpf_numbers(&one->handle, &with->handle, argument, length, found, edges));
    MUST(status == (one->graph.vertices && with->length ? EDGEBPF_DONE : EDGEBPF_EMPTY));
    if (status || !with->is_target) return;
    size_t place = 0;
    for (uint32_t at = 0; at < one->graph.vertices; at++)
        for (uint64_t left = one->graph.rows[at]; left; left &= left - 1) MUST(found[place++] == (uint64_t)__builtin_ctzll(left));
}

/* A place of a frontier, which the library is to take, or one that a host made up. */
static edgebpf_progress chosen_progress(input *in, const graph *of, const uint32_t *frontier, size_t count, uint32_t *wanted) {
    edgebpf_progress at = {0, 0, 0, 0, 0};
    if (byte(in) < 200) return *wanted = EDGEBPF_DONE, at;
    at.vertex = byte(in) % (EDITS + 2), at.place = byte(in) % 4;
    int is_place = at.vertex < count ? at.place <= (uint32_t)__builtin_popcountll(row(of, frontier[at.vertex])) : at.vertex == count && !at.place;
    *wanted = is_place ? EDGEBPF_DONE : EDGEBPF_PROGRESS;
    return at;
}

/* A run in parts and the numbers in parts, of a program whose numbers are the targets, against the run as a whole and the model. */
static void run_parts(input *in) {
    static const uint64_t budgets[] = {0, 1, 10, 100, 1000, UINT64_MAX};
    version *one = &versions[byte(in) % HANDLES];
    program *with = &programs[byte(in) % HANDLES];
    uint32_t frontier[EDITS], reduction = byte(in) % 3, wanted;
    static uint64_t values[EDITS], whole[EDITS], found[EDITS * MOST];
    uint8_t argument[256] = {0};
    size_t count = byte(in) % (EDITS + 1), length = with->length ? with->length - 16u : 0, written = 0, all = 0, room = 1 + byte(in) % 100;
    uint64_t budget = budgets[byte(in) % 6];
    for (size_t at = 0; at < count; at++) frontier[at] = vertex(in, one->graph.vertices);
    edgebpf_progress run = chosen_progress(in, &one->graph, frontier, count, &wanted), numbered = run, before = run;
    edgebpf_totals totals;
    if (!one->graph.vertices || !with->length) wanted = EDGEBPF_EMPTY;
    int is_begun = run.vertex || run.place;
    for (int calls_left = 3 * EDITS * MOST;; calls_left--) {
        run.budget = budget;
        before = run;
        uint32_t status = CALL(edgebpf_run_some(&one->handle, &with->handle, argument, length, frontier, count, reduction, &run, values, count));
        MUST(status == wanted && calls_left && (!status || !memcmp(&run, &before, sizeof run)));
        if (status) break;
        MUST(run.vertex == count || (!run.budget && (run.vertex > before.vertex || run.place > before.place)));
        if (run.vertex == count) break;
    }
    while (numbered.vertex < count) {
        numbered.budget = budget;
        if (room > EDITS * MOST - all) room = EDITS * MOST - all;
        uint32_t status = CALL(edgebpf_numbers_some(&one->handle, &with->handle, argument, length, frontier, count, &numbered, found + all, room, &written));
        MUST(status == wanted);
        if (status) return;
        MUST(written <= room), all += written;
    }
    if (wanted || is_begun || CALL(edgebpf_run(&one->handle, &with->handle, argument, length, frontier, count, reduction, whole, count, &totals))) return;
    MUST(run.edges == totals.edges && run.total == totals.total && !memcmp(values, whole, count * sizeof *whole) && all == totals.edges);
    size_t place = 0;
    for (size_t at = 0; at < count && with->is_target; at++)
        for (uint64_t left = row(&one->graph, frontier[at]); left; left &= left - 1) MUST(found[place++] == (uint64_t)__builtin_ctzll(left));
}

/* Pairs that are edges have the numbers of the edges; of a program whose numbers are the targets, all pairs have their target. */
static void number_pairs(input *in) {
    version *one = &versions[byte(in) % HANDLES];
    program *with = &programs[byte(in) % HANDLES];
    uint32_t sources[EDITS], targets[EDITS];
    uint64_t found[EDITS];
    uint8_t argument[256] = {0};
    size_t count = byte(in) % (EDITS + 1), length = with->length ? with->length - 16u : 0;
    uint64_t budget = byte(in);
    for (size_t at = 0; at < count; at++) sources[at] = vertex(in, one->graph.vertices), targets[at] = vertex(in, one->graph.vertices);
    edgebpf_progress at = {0, 0, 0, 0, 0};
    do {
        at.budget = budget;
        uint32_t done = at.vertex, status = CALL(edgebpf_pairs(&one->handle, &with->handle, argument, length, sources, count, targets, count, &at, found, count));
        MUST(status == (one->graph.vertices && with->length ? EDGEBPF_DONE : EDGEBPF_EMPTY));
        if (status) return;
        MUST(at.vertex == count || (!at.budget && at.vertex > done && at.vertex < count));
    } while (at.vertex < count);
    MUST(at.edges == count && !at.place && !at.total);
    for (size_t pair = 0; pair < count && with->is_target; pair++) MUST(found[pair] == targets[pair]);
}

static void close_some(input *in) {
    uint32_t at = byte(in) % HANDLES;
    edgebpf_close_store(&stores[at].handle), stores[at].graph.vertices = 0;
    at = byte(in) % HANDLES;
    edgebpf_close_version(&versions[at].handle), versions[at].graph.vertices = 0;
    at = byte(in) % HANDLES;
    edgebpf_close_program(&programs[at].handle), programs[at].length = 0;
}

static void print_calls(void) { fprintf(stderr, "fuzz: %llu calls\n", calls); }

int LLVMFuzzerTestOneInput(const uint8_t *bytes, size_t count) {
    static void (*const actions[])(input *) = {new_store, apply, apply, apply, apply, rebase, pin, pin, branch, share, ask, ask, copy, list, new_program, assemble, run, run, numbers, run_parts, run_parts, number_pairs, close_some};
    static int begun;
    if (!begun++) atexit(print_calls);
    input in = {bytes, bytes + count};
    while (in.at < in.end) actions[byte(&in) % (sizeof actions / sizeof *actions)](&in);
    for (size_t at = 0; at < HANDLES; at++) {
        edgebpf_close_store(&stores[at].handle), edgebpf_close_version(&versions[at].handle), edgebpf_close_program(&programs[at].handle);
        stores[at].graph.vertices = versions[at].graph.vertices = 0, programs[at].length = 0;
    }
    return 0;
}
