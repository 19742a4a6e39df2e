/* Runs a program over a random graph by the library for C, so that count_processors.py can count instructions: 2,048 vertices have some 64 edges each.
 *     count_processors WORK ROUNDS
 * WORK is a program's name, which runs so many times (two, filter, lookups, weights, row, hash), or numbers, which asks for the number of each
 * edge, or ingest, which makes the graph once more each time. It prints the number of edges, and a sum over what the runs gave. */
#include <edgebpf.h>
#include <stdio.h>
#include <stdlib.h>
#include <string.h>

enum { VERTICES = 16384, SOURCES = 2048, EDGES = 131072, BATCH = 65536, ROOM = 8192, IN_A_ROW = 250, ARGUMENT = 8 };

struct named {
    const char *name, *text;
};

static char row[16384];
static const struct named programs[] = {
    {"two", "ldxw r0, [r1+4]\nexit\n"},
    {"filter", "ldxw r2, [r1+4]\nldxw r3, [r1+12]\nmov r0, 0\nand r2, 1023\nldxdw r4, [r1+16]\nmov r5, r2\nmul r5, r4\nrsh r5, 7\nxor r5, r2\n"
               "and r5, 255\njlt r5, 40, few\nadd r0, r5\nadd r0, r3\nja out\nfew:\nmov r0, r2\nlsh r0, 1\nadd r0, 3\nout:\nexit\n"},
    {"lookups", "ldxw r6, [r1+0]\nldxw r7, [r1+4]\nmov r1, r7\nmov r2, r6\ncall 2\nmov r8, r0\nmov r1, r7\ncall 1\nadd r0, r8\nexit\n"},
    {"weights", "ldxw r3, [r1+4]\nmod r3, 4\nmov r4, r1\nadd r4, r3\nldxb r0, [r4+16]\nldxw r5, [r1+8]\njne r5, 0, done\nlsh r0, 1\ndone:\nexit\n"},
    {"row", row},
    {"hash", "ldxw r0, [r1+4]\nmul r0, 40503\nmov r2, r0\nrsh r2, 15\nxor r0, r2\nmul r0, 9973\nmov r2, r0\nrsh r2, 13\nxor r0, r2\nexit\n"},
};
static uint32_t sources[EDGES], targets[EDGES], frontier[SOURCES];
static uint8_t removes[EDGES];
static uint64_t values[SOURCES], numbers[EDGES];
static const uint8_t argument[ARGUMENT] = {1, 2, 10, 100, 5, 6, 7, 8};
static uint64_t state = 7;

static uint32_t chance(uint32_t below) {
    state = state * 6364136223846793005u + 1442695040888963407u;
    return (uint32_t)(state >> 33) % below;
}

static void done(uint32_t status) {
    if (!status) return;
    fprintf(stderr, "%s\n", edgebpf_words(status));
    exit(1);
}

static void fill(edgebpf_store *store) {
    edgebpf_change change;
    done(edgebpf_store_new(VERTICES, store));
    for (size_t at = 0; at < EDGES; at += BATCH)
        done(edgebpf_store_apply(store, 0, sources + at, BATCH, targets + at, BATCH, removes + at, BATCH, &change));
}

static void load(const char *text, edgebpf_program *program) {
    static uint8_t code[ROOM];
    edgebpf_assembled assembled;
    edgebpf_verdict verdict;
    done(edgebpf_assemble((const uint8_t *)text, strlen(text), code, sizeof code, &assembled));
    done(edgebpf_program_new(16 + ARGUMENT, code, assembled.length, EDGEBPF_NO_BYTES, 0, &verdict, program));
}

static uint64_t run(edgebpf_version *version, edgebpf_program *program) {
    edgebpf_totals totals;
    done(edgebpf_run(version, program, argument, ARGUMENT, frontier, SOURCES, EDGEBPF_SUM, values, SOURCES, &totals));
    return totals.total;
}

static uint64_t sum_of_numbers(edgebpf_version *version, edgebpf_program *program, size_t edges) {
    uint64_t sum = 0;
    done(edgebpf_numbers(version, program, argument, ARGUMENT, numbers, edges));
    for (size_t at = 0; at < edges; at += 97) sum += numbers[at];
    return sum;
}

static void write_row(void) {
    char *at = row + sprintf(row, "ldxw r0, [r1+4]\n");
    for (int pair = 0; pair < IN_A_ROW / 2; pair++) at += sprintf(at, "add r0, 7\nxor r0, 0x55\n");
    sprintf(at, "exit\n");
}

static const char *text_of(const char *work) {
    for (size_t at = 0; at < sizeof programs / sizeof *programs; at++)
        if (!strcmp(programs[at].name, work)) return programs[at].text;
    return programs[0].text;
}

int main(int count, char **words) {
    edgebpf_store store = {{0}};
    edgebpf_version version = {{0}};
    edgebpf_program program = {{0}};
    edgebpf_info info;
    uint64_t sum = 0;
    if (count != 3) return 2;
    write_row();
    for (size_t at = 0; at < EDGES; at++) sources[at] = chance(SOURCES), targets[at] = chance(VERTICES);
    for (uint32_t at = 0; at < SOURCES; at++) frontier[at] = at;
    fill(&store);
    done(edgebpf_store_pin(&store, &version));
    done(edgebpf_version_info(&version, &info));
    load(text_of(words[1]), &program);
    for (int round = atoi(words[2]); round > 0; round--) {
        edgebpf_store more = {{0}};
        if (!strcmp(words[1], "ingest")) fill(&more);
        else if (!strcmp(words[1], "numbers")) sum += sum_of_numbers(&version, &program, info.edges);
        else sum += run(&version, &program);
        edgebpf_close_store(&more);
    }
    printf("%llu %llu\n", (unsigned long long)(strcmp(words[1], "ingest") ? info.edges : EDGES), (unsigned long long)sum);
    return 0;
}
