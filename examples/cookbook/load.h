/* What the programs in C of this folder share: they read edges, two numbers on a line, and give up at the first error. */
#include <edgebpf.h>
#include <stdio.h>
#include <stdlib.h>
#include <string.h>
#include <time.h>

static const uint8_t none[EDGEBPF_MOST_EDITS];

static inline void check(uint32_t status) {
    if (!status) return;
    fprintf(stderr, "%s\n", edgebpf_words(status));
    exit(1);
}

/* An array of so many zeros, until the program ends. */
static inline void *room(size_t count, size_t size) {
    void *made = calloc(count, size);
    if (!made) check(EDGEBPF_NO_MEMORY);
    return made;
}

/* Adds edges in one batch. */
static inline void add(edgebpf_store *store, const uint32_t *sources, const uint32_t *targets, size_t count) {
    edgebpf_change change;
    check(edgebpf_store_apply(store, 0, sources, count, targets, count, none, count, &change));
}

/* Reads up to `most` edges, and returns how many there were. */
static inline size_t read_edges(FILE *file, uint32_t *sources, uint32_t *targets, size_t most) {
    size_t count = 0;
    char line[64], more;
    while (count < most && fgets(line, sizeof line, file)) {
        line[strcspn(line, "\n")] = 0;
        if (!*line) continue;
        if (sscanf(line, "%u %u %c", &sources[count], &targets[count], &more) != 2) {
            fprintf(stderr, "no edge: %s\n", line);
            exit(1);
        }
        count++;
    }
    return count;
}

static inline void load(FILE *file, edgebpf_store *store) {
    static uint32_t sources[EDGEBPF_MOST_EDITS], targets[EDGEBPF_MOST_EDITS];
    size_t count;
    if (!file) {
        perror("edges");
        exit(1);
    }
    while ((count = read_edges(file, sources, targets, EDGEBPF_MOST_EDITS))) add(store, sources, targets, count);
}

/* The program of an assembler text, with records of 16 bytes. */
static inline edgebpf_program assembled(const char *text) {
    uint8_t code[4096];
    edgebpf_assembled told;
    edgebpf_verdict verdict;
    edgebpf_program program = {{0}};
    check(edgebpf_assemble((const uint8_t *)text, strlen(text), code, sizeof code, &told));
    check(edgebpf_program_new(16, code, told.length, EDGEBPF_NO_BYTES, 0, &verdict, &program));
    return program;
}

static inline double seconds(void) { return (double)clock() / CLOCKS_PER_SEC; }
