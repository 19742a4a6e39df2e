/* Measures runs over edges in nanoseconds of CPU time an edge: edge by edge, in blocks of edges, native code, and the interpreter
 * and the JIT of DPDK where it is there. All are taken in turn, the best of some tries, and their sums have to be equal.
 *     make -C dist BUILD=/tmp/build /tmp/build/libedgebpf.a
 *     cc -O2 -Ibindings/c -o /tmp/measure tools/dev/measure_runs.c /tmp/build/libedgebpf.a && /tmp/measure
 * With DPDK (Debian: libdpdk-dev) also -DWITH_DPDK $(pkg-config --cflags --libs libdpdk). It prints a line for each program and way.
 * `measure PROGRAM WAY ROUNDS` runs a program so many times by one way, so that measure_dpdk.py can count instructions. */
#include <edgebpf.h>
#include <stdio.h>
#include <stdlib.h>
#include <string.h>
#include <time.h>
#ifdef WITH_DPDK
#include <rte_bpf.h>
#endif

/* A program with more than three times as many units as its shortest path is run edge by edge, so exits that no path reaches are added to the
 * same program. */
#ifndef EDGES
#define EDGES (1 << 20)
#endif
enum { DEGREE = 64, BATCH = 65536, TRIES = 9, RECORD = 24, ROOM = 8192, STRAIGHT = 250, TARGETS = EDGES / 4 };
/* Of the vertices, one of 16 has edges. SOURCES is by blocks, as BLOCKS is, but over these alone. */
enum { EDGE_BY_EDGE, BLOCKS, SOURCES, NATIVE, INTERPRETER, JIT, WAYS };
static const char *const ways[WAYS] = {"edge-by-edge", "blocks", "sources", "native", "interpreter", "jit"};

typedef struct { uint32_t source, target, place, degree; uint64_t weight; } record;
typedef uint64_t (*function)(const record *);
typedef struct { const char *name; char text[16384]; function native; } program;
/* A program, ready for each way. */
typedef struct {
    edgebpf_version *version;
    edgebpf_program runs[BLOCKS + 1];
    function native;
    struct rte_bpf *interpreted;
    uint64_t (*compiled)(void *);
} ready;

static record edges[EDGES];
static const uint64_t weight = 0x0807060504030201u;

static uint64_t two(const record *edge) { return edge->target; }

static uint64_t filter(const record *edge) {
    uint64_t low = edge->target & 1023, mixed = (((low * edge->weight) >> 7) ^ low) & 255;
    return mixed < 40 ? 2 * low + 3 : mixed + edge->degree;
}

static uint64_t straight(const record *edge) {
    uint64_t sum = edge->target;
    for (int at = 0; at < STRAIGHT / 2; at++) { sum += 7; sum ^= 0x55; }
    return sum;
}

static program programs[] = {
    {"two", "ldxw r0, [r1+4]\nexit\n", two},
    {"filter",
     "ldxw r2, [r1+4]\nldxw r3, [r1+12]\nmov r0, 0\nand r2, 1023\nldxdw r4, [r1+16]\nmov r5, r2\nmul r5, r4\nrsh r5, 7\nxor r5, r2\nand r5, 255\n"
     "jlt r5, 40, few\nadd r0, r5\nadd r0, r3\nja out\nfew:\nmov r0, r2\nlsh r0, 1\nadd r0, 3\nout:\nexit\n", filter},
    {"row", "", straight},
};

static double now(void) {
    struct timespec time;
    clock_gettime(CLOCK_PROCESS_CPUTIME_ID, &time);
    return (double)time.tv_sec + 1e-9 * (double)time.tv_nsec;
}

static void done(uint32_t status) {
    if (!status) return;
    fprintf(stderr, "%s\n", edgebpf_words(status));
    exit(1);
}

static void equal(uint64_t total, uint64_t wanted) {
    if (total == wanted) return;
    fprintf(stderr, "another sum: %llu and not %llu\n", (unsigned long long)total, (unsigned long long)wanted);
    exit(1);
}

/* Edges of vertices with DEGREE neighbours each, ascending, as a store has them. */
static void make_edges(void) {
    uint32_t step = TARGETS / DEGREE - 1;
    for (uint32_t at = 0; at < EDGES; at++) {
        uint32_t source = at / DEGREE, place = at % DEGREE;
        edges[at] = (record){source, (source % 97 + place * step) % TARGETS, place, DEGREE, weight};
    }
}

static edgebpf_version version_of_edges(edgebpf_store *store) {
    static uint32_t sources[BATCH], targets[BATCH];
    static uint8_t removes[BATCH];
    edgebpf_version version = {{0}};
    edgebpf_change change;
    done(edgebpf_store_new(TARGETS, store));
    for (uint32_t at = 0; at < EDGES; at += BATCH) {
        for (uint32_t edit = 0; edit < BATCH; edit++) sources[edit] = edges[at + edit].source, targets[edit] = edges[at + edit].target;
        done(edgebpf_store_apply(store, 0, sources, BATCH, targets, BATCH, removes, BATCH, &change));
    }
    done(edgebpf_store_pin(store, &version));
    return version;
}

static uint64_t native_sum(function of) {
    uint64_t sum = 0;
    for (uint32_t at = 0; at < EDGES; at++) sum += of(&edges[at]);
    return sum;
}

/* The sum over the edges of the first vertices. */
static uint64_t sum_of_run(edgebpf_version *version, edgebpf_program *program, size_t count) {
    static uint32_t frontier[TARGETS];
    static uint64_t values[TARGETS];
    edgebpf_totals totals;
    for (uint32_t at = 0; at < count; at++) frontier[at] = at;
    done(edgebpf_run(version, program, (const uint8_t *)&weight, sizeof weight, frontier, count, EDGEBPF_SUM, values, count, &totals));
    return totals.total;
}

#ifdef WITH_DPDK
/* An edge's record is written anew for each run, as a program may change it. */
static uint64_t dpdk_sum(const ready *of, int way) {
    uint64_t sum = 0;
    record own;
    for (uint32_t at = 0; at < EDGES; at++) {
        memcpy(&own, &edges[at], sizeof own);
        sum += way == JIT ? of->compiled(&own) : rte_bpf_exec(of->interpreted, &own);
    }
    return sum;
}

static void load_dpdk(ready *of, const uint8_t *code, size_t length) {
    struct rte_bpf_prm given = {.ins = (const struct ebpf_insn *)code, .nb_ins = (uint32_t)(length / 8), .prog_arg = {.type = RTE_BPF_ARG_PTR, .size = RECORD}};
    struct rte_bpf_jit jit = {0};
    of->interpreted = rte_bpf_load(&given);
    if (!of->interpreted || rte_bpf_get_jit(of->interpreted, &jit)) {
        fprintf(stderr, "DPDK refuses a program\n");
        exit(1);
    }
    of->compiled = jit.func;
}

static int has_way(int way) { (void)way; return 1; }
#else
static uint64_t dpdk_sum(const ready *of, int way) { (void)of, (void)way; return 0; }
static void load_dpdk(ready *of, const uint8_t *code, size_t length) { (void)of, (void)code, (void)length; }
static int has_way(int way) { return way <= NATIVE; }
#endif

static uint64_t sum_by(ready *of, int way) {
    if (way == NATIVE) return native_sum(of->native);
    if (way == SOURCES) return sum_of_run(of->version, &of->runs[BLOCKS], EDGES / DEGREE);
    return way <= BLOCKS ? sum_of_run(of->version, &of->runs[way], TARGETS) : dpdk_sum(of, way);
}

static edgebpf_program accepted(const uint8_t *code, size_t length) {
    edgebpf_verdict verdict;
    edgebpf_program program = {{0}};
    done(edgebpf_program_new(RECORD, code, length, EDGEBPF_NO_BYTES, 0, &verdict, &program));
    return program;
}

static ready make_ready(const program *of, edgebpf_version *version) {
    static uint8_t code[ROOM] __attribute__((aligned(8)));
    static const uint8_t leave[8] = {0x95};
    edgebpf_assembled told;
    done(edgebpf_assemble((const uint8_t *)of->text, strlen(of->text), code, sizeof code, &told));
    size_t longer = 3 * told.length + sizeof leave;
    if (longer > sizeof code) { fprintf(stderr, "%s is too long\n", of->name); exit(1); }
    for (size_t at = told.length; at < longer; at += sizeof leave) memcpy(code + at, leave, sizeof leave);
    ready made = {.version = version, .runs = {accepted(code, longer), accepted(code, told.length)}, .native = of->native};
    load_dpdk(&made, code, told.length);
    return made;
}

/* The least nanoseconds of one edge, by each way in turn. */
static void measure(const program *program, ready *of) {
    double least[WAYS];
    uint64_t wanted = native_sum(of->native);
    for (int way = 0; way < WAYS; way++) least[way] = 1e9;
    for (int try = 0; try < TRIES; try++) {
        for (int way = 0; way < WAYS; way++) {
            if (!has_way(way)) continue;
            double begun = now();
            equal(sum_by(of, way), wanted);
            double spent = now() - begun;
            if (spent < least[way]) least[way] = spent;
        }
    }
    for (int way = 0; way < WAYS; way++)
        if (has_way(way)) printf("%s %s %.2f\n", program->name, ways[way], 1e9 * least[way] / EDGES);
}

/* Runs a program so many times, and prints the edges of a run and the sum of all. */
static void repeat(ready *of, const char *name, long rounds) {
    uint64_t sum = 0;
    int way = 0;
    while (way < WAYS && strcmp(name, ways[way])) way++;
    if (way == WAYS || !has_way(way)) { fprintf(stderr, "there is no way %s\n", name); exit(1); }
    for (long round = 0; round < rounds; round++) sum += sum_by(of, way);
    printf("%d %llu\n", EDGES, (unsigned long long)sum);
}

int main(int count, char **words) {
    edgebpf_store store = {{0}};
    char *at = programs[2].text;
    at += sprintf(at, "ldxw r0, [r1+4]\n");
    for (int turn = 0; turn < STRAIGHT / 2; turn++) at += sprintf(at, "add r0, 7\nxor r0, 0x55\n");
    sprintf(at, "exit\n");
    make_edges();
    edgebpf_version version = version_of_edges(&store);
    for (size_t number = 0; number < sizeof programs / sizeof *programs; number++) {
        if (count == 4 && strcmp(words[1], programs[number].name)) continue;
        ready of = make_ready(&programs[number], &version);
        if (count == 4) repeat(&of, words[2], atol(words[3]));
        else measure(&programs[number], &of);
    }
    return 0;
}
