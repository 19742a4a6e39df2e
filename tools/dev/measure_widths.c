/* Measures stores without an edge of 2^16 to 2^28 vertices, by the library for C: how long one takes to make, what it takes of memory, what
 * a batch of one edge at a random vertex takes (the least of 64 means of 16), and what a run over one of these vertices takes.
 * With ROUNDS so many times 16 batches are applied and nothing is printed, for measure_widths.py to count.
 *     measure_widths POWER [ROUNDS] */
#include <edgebpf.h>
#include <stdio.h>
#include <stdlib.h>
#include <time.h>

enum { ROUNDS = 64, CALLS = 16 };

static uint64_t state = 7;

static double now(void) {
    struct timespec time;
    clock_gettime(CLOCK_PROCESS_CPUTIME_ID, &time);
    return (double)time.tv_sec + 1e-9 * (double)time.tv_nsec;
}

static void done(uint32_t status) {
    if (!status) return;
    fprintf(stderr, "%s\n", edgebpf_words(status));
    exit(1);
}

/* The peak of memory in KB, of this program alone: what getrusage gives has that of the process that started it. */
static double peak(void) {
    char line[256];
    double kilobytes = 0;
    FILE *status = fopen("/proc/self/status", "r");
    while (status && fgets(line, sizeof line, status)) sscanf(line, "VmHWM: %lf", &kilobytes);
    if (status) fclose(status);
    return kilobytes;
}

int main(int count, char **words) {
    const uint8_t code[] = {0x61, 0x10, 4, 0, 0, 0, 0, 0, 0x95, 0, 0, 0, 0, 0, 0, 0}, mark = 0;
    if (count != 2 && count != 3) return 2;
    const uint32_t vertices = 1u << atoi(words[1]);
    const int rounds = count == 3 ? atoi(words[2]) : ROUNDS;
    uint32_t source = 0, target;
    uint64_t value;
    edgebpf_store store = {{0}};
    edgebpf_version version = {{0}};
    edgebpf_program program = {{0}};
    edgebpf_change change;
    edgebpf_verdict verdict;
    edgebpf_totals totals;
    double begun = now(), least = 1e9;
    done(edgebpf_store_new(vertices, &store));
    double making = now() - begun;
    const double most = peak();
    for (int round = 0; round < rounds; round++) {
        begun = now();
        for (int at = 0; at < CALLS; at++) {
            state = state * 6364136223846793005u + 1442695040888963407u;
            source = (uint32_t)(state >> 33) % vertices;
            target = (uint32_t)(state >> 3) % vertices;
            done(edgebpf_store_apply(&store, 0, &source, 1, &target, 1, &mark, 1, &change));
        }
        if (now() - begun < least) least = now() - begun;
    }
    if (count == 3) return 0;
    done(edgebpf_store_pin(&store, &version));
    done(edgebpf_program_new(16, code, sizeof code, EDGEBPF_NO_BYTES, 0, &verdict, &program));
    begun = now();
    for (int at = 0; at < ROUNDS * CALLS; at++)
        done(edgebpf_run(&version, &program, EDGEBPF_NO_BYTES, 0, &source, 1, EDGEBPF_SUM, &value, 1, &totals));
    printf("2^%s vertices: made in %.1f ms, %.1f MB, a batch of one edge %.2f us, a run over one vertex %.3f us\n", words[1], 1e3 * making,
           most / 1e3, 1e6 * least / CALLS, 1e6 * (now() - begun) / (ROUNDS * CALLS));
    return 0;
}
