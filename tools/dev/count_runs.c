/* Runs a program over each edge of a random graph of 16,384 vertices, by the library for C, so that count_runs.py can count instructions.
 *     count_runs PROGRAM KIND BATCHES ROUNDS
 * PROGRAM is two, filter, calls, or column and columns, whose records have the numbers of one or two columns; KIND is run, range (a
 * run over a range), push, numbers, steps (a run in steps) or some (numbers in steps). It prints how many edges there are. */
#include <edgebpf.h>
#include <stdio.h>
#include <stdlib.h>
#include <string.h>

enum { VERTICES = 16384, EDITS = 65536, MOST_CODE = 1024, BUDGET = 100000 };

struct named {
    const char *name, *text;
    size_t columns;
};

static const struct named programs[] = {
    {"two", "ldxw r0, [r1+4]\nexit\n", 0},
    {"column", "ldxdw r0, [r1+24]\nexit\n", 1},
    {"columns", "ldxdw r0, [r1+24]\nldxdw r2, [r1+40]\nadd r0, r2\nexit\n", 2},
    {"filter", "ldxw r2, [r1+4]\nldxw r3, [r1+12]\nmov r0, 0\nand r2, 1023\nmov r4, 77\nmov r5, r2\nmul r5, r4\nrsh r5, 7\nxor r5, r2\n"
               "and r5, 255\njlt r5, 40, few\nadd r0, r5\nadd r0, r3\nja out\nfew:\nmov r0, r2\nlsh r0, 1\nadd r0, 3\nout:\nadd r0, 1\nexit\n", 0},
    {"calls", "mov r6, r1\nldxw r1, [r6+4]\ncalllocal f\nmov r7, r0\nldxw r1, [r6+12]\ncalllocal f\nadd r0, r7\nmov r1, r0\ncalllocal f\n"
              "exit\nf:\nmov r0, r1\nmul r0, 3\nxor r0, 5\nexit\n", 0},
};
static uint32_t sources[EDITS], targets[EDITS], frontier[VERTICES];
static uint8_t removes[EDITS];
static uint64_t values[VERTICES], first[VERTICES], second[VERTICES];
static const edgebpf_column columns[] = {{first, VERTICES}, {second, VERTICES}};
static size_t column_count;
static uint64_t state = 7;

static uint32_t chance(void) {
    state = state * 6364136223846793005u + 1442695040888963407u;
    return (uint32_t)(state >> 33) % VERTICES;
}

static void done(uint32_t status) {
    if (!status) return;
    fprintf(stderr, "%s\n", edgebpf_words(status));
    exit(1);
}

static void load(const char *name, edgebpf_program *program) {
    static uint8_t code[MOST_CODE];
    edgebpf_assembled assembled;
    edgebpf_verdict verdict;
    for (size_t at = 0; at < sizeof programs / sizeof *programs; at++) {
        if (strcmp(programs[at].name, name)) continue;
        const char *text = programs[at].text;
        done(edgebpf_assemble((const uint8_t *)text, strlen(text), code, sizeof code, &assembled));
        column_count = programs[at].columns;
        done(edgebpf_program_new((uint16_t)(16 + 16 * column_count), code, assembled.length, EDGEBPF_NO_BYTES, 0, &verdict, program));
        return;
    }
    fprintf(stderr, "no program has the name %s\n", name);
    exit(2);
}

/* The calls without columns are those with none, so this is what they take. */
static void run(const char *kind, edgebpf_version *version, edgebpf_program *program, uint64_t *numbers, size_t count) {
    const uint8_t *none = EDGEBPF_NO_BYTES;
    edgebpf_totals totals;
    edgebpf_progress at = {.budget = BUDGET};
    if (!strcmp(kind, "run"))
        done(edgebpf_pull(version, program, none, 0, columns, column_count, frontier, VERTICES, EDGEBPF_SUM, values, VERTICES, &totals));
    else if (!strcmp(kind, "push"))
        done(edgebpf_push(version, program, none, 0, columns, column_count, frontier, VERTICES, EDGEBPF_SUM, values, VERTICES, &totals));
    else if (!strcmp(kind, "numbers") && !column_count)
        done(edgebpf_numbers(version, program, none, 0, numbers, count));
    else if (!strcmp(kind, "range")) {
        at.budget = UINT64_MAX;
        done(edgebpf_pull_range(version, program, none, 0, columns, column_count, 0, EDGEBPF_SUM, &at, values, VERTICES));
    } else if (!strcmp(kind, "steps"))
        for (; at.vertex < VERTICES; at.budget = BUDGET)
            done(edgebpf_pull_some(version, program, none, 0, columns, column_count, frontier, VERTICES, EDGEBPF_SUM, &at, values, VERTICES));
    else
        for (size_t written, all = 0; at.vertex < VERTICES; at.budget = strcmp(kind, "numbers") ? BUDGET : UINT64_MAX, all += written)
            done(edgebpf_numbers_of(version, program, none, 0, columns, column_count, frontier, VERTICES, &at, numbers + all, count - all, &written));
}

int main(int count, char **words) {
    edgebpf_store store = {{0}};
    edgebpf_version version = {{0}};
    edgebpf_program program = {{0}};
    edgebpf_change change;
    edgebpf_info info;
    if (count != 5) return 2;
    done(edgebpf_store_new(VERTICES, &store));
    for (int round = atoi(words[3]); round > 0; round--) {
        for (int at = 0; at < EDITS; at++) sources[at] = chance(), targets[at] = chance();
        done(edgebpf_store_apply(&store, 0, sources, EDITS, targets, EDITS, removes, EDITS, &change));
    }
    done(edgebpf_store_pin(&store, &version));
    done(edgebpf_version_info(&version, &info));
    for (uint32_t at = 0; at < VERTICES; at++) frontier[at] = at, first[at] = chance(), second[at] = chance();
    load(words[1], &program);
    uint64_t *numbers = malloc(info.edges * sizeof *numbers);
    if (!numbers) return 1;
    for (int round = atoi(words[4]); round > 0; round--) run(words[2], &version, &program, numbers, info.edges);
    printf("%llu\n", (unsigned long long)info.edges);
    return 0;
}
