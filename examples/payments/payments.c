/* A graph of payments between accounts that changes while rules score it, as payments.py says, with what it writes:
 *     payments SCRIPT [ACCOUNTS [BATCHES]]
 * SCRIPT is examples/cookbook/common.script, which has one of the rules. */
#define main live_main /* live.c is taken over whole, but for its main */
#include "../live.c"
#undef main
#include <inttypes.h>
#include <stdlib.h>
#include <string.h>
#include <time.h>

enum { PAYMENTS = 1000, REFUNDS = 100, EDITS = PAYMENTS + REFUNDS, BEST = 5, HALVES = 12, REBASE = 200, CODE = 1 << 15 };

static void check(uint32_t status, const char *what) {
    if (status) fprintf(stderr, "payments: %s: %s\n", what, edgebpf_words(status)), exit(1);
}

static void *room_for(size_t count, size_t size) {
    void *room = calloc(count + 1, size);
    check(room ? EDGEBPF_DONE : EDGEBPF_NO_MEMORY, "payments");
    return room;
}

static double begun;

static void timed(const char *what) {
    struct timespec now;
    clock_gettime(CLOCK_MONOTONIC, &now);
    double ended = 1e3 * (double)now.tv_sec + 1e-6 * (double)now.tv_nsec;
    if (what) fprintf(stderr, "%s: %.1f ms\n", what, ended - begun);
    begun = ended;
}

static uint64_t state = 1;

static uint32_t below(uint64_t bound) {
    state = state * 6364136223846793005u + 1442695040888963407u;
    return (uint32_t)(((state >> 33) * bound) >> 31);
}

/* An account, of which the first pay and are paid most often. */
static uint32_t account_of(uint32_t accounts) {
    uint32_t halved = below(HALVES);
    return below(accounts >> halved);
}

static void take_payments(struct live *graph, uint32_t accounts, size_t batches) {
    static uint8_t removes[EDITS];
    uint32_t *sources = room_for(batches * PAYMENTS + EDITS, 4), *targets = room_for(batches * PAYMENTS + EDITS, 4);
    edgebpf_change change;
    memset(removes + PAYMENTS, 1, REFUNDS);
    for (size_t batch = 0; batch < batches; batch++) {
        /* The edits of a batch lie after all payments before it; the refunds after its payments give way to the next ones. */
        size_t first = batch * PAYMENTS, paid = first + PAYMENTS;
        for (size_t each = first; each < paid; each++) sources[each] = account_of(accounts), targets[each] = account_of(accounts);
        for (size_t each = paid; each < first + EDITS; each++) {
            uint32_t back = below(paid);
            sources[each] = sources[back], targets[each] = targets[back];
        }
        const struct edits edits = {sources + first, targets + first, removes, EDITS};
        check(live_apply(graph, 0, &edits, &change), "a batch");
    }
    free(sources), free(targets);
}

static edgebpf_program verified(const uint8_t *code, size_t length) {
    edgebpf_program program = {{0}};
    edgebpf_verdict verdict;
    check(edgebpf_program_new(16, code, length, EDGEBPF_NO_BYTES, 0, &verdict, &program), "a program");
    return program;
}

/* The target's degree. */
static edgebpf_program known(void) {
    static const char text[] = "ldxw r1, [r1+4]\ncall 1\nexit\n";
    uint8_t code[24];
    edgebpf_assembled made;
    check(edgebpf_assemble((const uint8_t *)text, sizeof text - 1, code, sizeof code, &made), "a text");
    return verified(code, made.length);
}

/* The rule that COOKBOOK.md compiles of C, from its script. */
static edgebpf_program common_neighbours(const char *path) {
    static char line[2 * CODE + 100];
    static uint8_t code[CODE];
    size_t length = 0;
    unsigned byte;
    FILE *script = fopen(path, "r");
    if (!script) perror(path), exit(1);
    while (fgets(line, sizeof line, script) && strncmp(line, "code common 16 ", 15)) continue;
    for (const char *at = line + 15; length < CODE && sscanf(at, "%2x", &byte) == 1; at += 2) code[length++] = (uint8_t)byte;
    fclose(script);
    return verified(code, length);
}

struct scored { uint32_t account; uint64_t score; };

static int by_score(const void *one, const void *other) {
    const struct scored *a = one, *b = other;
    if (a->score != b->score) return a->score > b->score ? -1 : 1;
    return (a->account > b->account) - (a->account < b->account);
}

static int by_number(const void *one, const void *other) {
    const uint32_t *a = one, *b = other;
    return (*a > *b) - (*a < *b);
}

/* The accounts with the greatest scores; NULL for accounts are all from 0 on. */
static void print_best(const uint32_t *accounts, const uint64_t *scores, size_t count) {
    struct scored *all = room_for(count, sizeof *all);
    for (size_t place = 0; place < count; place++) all[place] = (struct scored){accounts ? accounts[place] : (uint32_t)place, scores[place]};
    qsort(all, count, sizeof *all, by_score);
    printf("; best");
    for (size_t place = 0; place < count && place < BEST; place++) printf(" %" PRIu32 ":%" PRIu64, all[place].account, all[place].score);
    printf("\n");
    free(all);
}

static uint64_t sum_of(const uint64_t *numbers, size_t count) {
    uint64_t sum = 0;
    for (size_t place = 0; place < count; place++) sum += numbers[place];
    return sum;
}

static void all_scores(edgebpf_version *version, uint32_t accounts) {
    edgebpf_program program = known();
    uint32_t *frontier = room_for(accounts, sizeof *frontier);
    uint64_t *values = room_for(accounts, sizeof *values);
    edgebpf_totals totals;
    for (uint32_t account = 0; account < accounts; account++) frontier[account] = account;
    check(edgebpf_run(version, &program, EDGEBPF_NO_BYTES, 0, frontier, accounts, EDGEBPF_SUM, values, accounts, &totals), "a run");
    printf("scores of %" PRIu64 " edges: %" PRIu64, totals.edges, totals.total);
    print_best(NULL, values, accounts);
    free(frontier), free(values);
    edgebpf_close_program(&program);
}

/* The lists of some accounts, one after another, and how many targets these are. */
static uint32_t *lists_of(edgebpf_version *version, const uint32_t *accounts, size_t count, size_t *found) {
    uint64_t *starts = room_for(count + 1, sizeof *starts);
    uint32_t none, status = edgebpf_version_lists(version, accounts, count, starts, count + 1, &none, 0, found);
    uint32_t *targets = room_for(*found, sizeof *targets);
    if (status == EDGEBPF_LENGTHS) status = edgebpf_version_lists(version, accounts, count, starts, count + 1, targets, *found, found);
    check(status, "lists");
    free(starts);
    return targets;
}

static void of_one_account(edgebpf_version *version, edgebpf_program *common, uint32_t account) {
    size_t count, written;
    uint32_t *own = lists_of(version, &account, 1, &count);
    uint64_t *numbers = room_for(count, sizeof *numbers);
    edgebpf_progress at = {.budget = UINT64_MAX};
    check(edgebpf_numbers_some(version, common, EDGEBPF_NO_BYTES, 0, &account, 1, &at, numbers, count, &written), "numbers");
    printf("account %" PRIu32 " pays %zu; in common %" PRIu64, account, written, sum_of(numbers, written));
    print_best(own, numbers, written);
    free(own), free(numbers);
}

/* Takes out of ascending accounts what comes twice, what the account pays, and itself. */
static size_t without(uint32_t *others, size_t count, const uint32_t *own, size_t own_count, uint32_t account) {
    size_t kept = 0;
    for (size_t place = 0; place < count; place++) {
        uint32_t other = others[place];
        if (other == account || (kept && others[kept - 1] == other) || bsearch(&other, own, own_count, sizeof other, by_number)) continue;
        others[kept++] = other;
    }
    return kept;
}

static void whom_to_pay(edgebpf_version *version, edgebpf_program *common, uint32_t account) {
    size_t own_count, count;
    uint32_t *own = lists_of(version, &account, 1, &own_count), *others = lists_of(version, own, own_count, &count);
    qsort(others, count, sizeof *others, by_number);
    count = without(others, count, own, own_count, account);
    uint32_t *sources = room_for(count, sizeof *sources);
    uint64_t *numbers = room_for(count, sizeof *numbers);
    for (size_t pair = 0; pair < count; pair++) sources[pair] = account;
    edgebpf_progress at = {0};
    do { /* a host that serves others looks here whether it is to go on */
        at.budget = 1000000;
        check(edgebpf_pairs(version, common, EDGEBPF_NO_BYTES, 0, sources, count, others, count, &at, numbers, count), "pairs");
    } while (at.vertex < count);
    printf("account %" PRIu32 " may pay %zu; in common %" PRIu64, account, count, sum_of(numbers, count));
    print_best(others, numbers, count);
    free(own), free(others), free(sources), free(numbers);
}

int main(int count, char **words) {
    const uint32_t accounts = count > 2 ? (uint32_t)strtoul(words[2], NULL, 10) : 100000;
    const size_t batches = count > 3 ? strtoul(words[3], NULL, 10) : 500;
    if (count < 2) return fprintf(stderr, "payments: give examples/cookbook/common.script\n"), 2;
    struct live graph;
    edgebpf_version version = {{0}};
    edgebpf_program common = common_neighbours(words[1]);
    edgebpf_info info;
    timed(NULL);
    check(live_new(&graph, accounts, REBASE, SIZE_MAX), "a graph");
    take_payments(&graph, accounts, batches);
    check(live_latest(&graph, &version), "the last version");
    check(edgebpf_version_info(&version, &info), "the last version");
    printf("%" PRIu64 " edges after %zu batches, epoch %" PRIu64 ", number %" PRIu64 "\n", info.edges, batches, info.epoch, info.number);
    timed("payments");
    all_scores(&version, accounts);
    timed("scores of all");
    of_one_account(&version, &common, accounts / 100);
    timed("numbers of one account's edges");
    whom_to_pay(&version, &common, accounts / 100);
    timed("numbers of pairs");
    edgebpf_close_version(&version);
    edgebpf_close_program(&common);
    live_close(&graph);
    return 0;
}
