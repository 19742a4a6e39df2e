/* Loads a graph of random edges into a store, applies small batches to it, and prints what an edit of them costs: bytes that were copied, requests
 * of memory, nanoseconds of CPU time; and bytes that a pinned version keeps alone, and those of the graph. Half of the edits of a batch, or of two
 * batches of one, take out an edge that is there. The heap stands in place of bindings/c/heap.c.
 *     measure_batches VERTICES EDGES uniform|skewed EDITS BATCHES PINS */
#include <edgebpf.h>
#include <malloc.h>
#include <stdbool.h>
#include <stdio.h>
#include <stdlib.h>
#include <string.h>
#include <time.h>

enum { MOST = EDGEBPF_MOST_EDITS };

typedef struct { bool is_there; void *at; } block;

/* What is counted while a batch is applied, and how many bytes are held at any time. */
static uint64_t copied, requests, nanoseconds;
static int64_t held;
static bool is_counting;

static block given(void *at, size_t before) {
    held += at ? (int64_t)malloc_usable_size(at) - (int64_t)before : 0;
    requests += is_counting;
    return (block){at != NULL, at};
}

block rattle_alloc(size_t size, size_t align) { return given(malloc(size ? size : align), 0); }

block rattle_realloc(void *at, size_t kept, size_t size, size_t align) {
    const size_t before = malloc_usable_size(at);
    void *const moved = realloc(at, size ? size : align);
    if (is_counting && moved != at) copied += kept;
    return given(moved, before);
}

void rattle_dealloc(void *at) {
    held -= (int64_t)malloc_usable_size(at);
    free(at);
}

void *__real_memcpy(void *to, const void *from, size_t size);
void *__real_memmove(void *to, const void *from, size_t size);

void *__wrap_memcpy(void *to, const void *from, size_t size) {
    copied += is_counting ? size : 0;
    return __real_memcpy(to, from, size);
}

void *__wrap_memmove(void *to, const void *from, size_t size) {
    copied += is_counting ? size : 0;
    return __real_memmove(to, from, size);
}

static uint64_t state = 7;

static uint32_t chance(uint32_t bound) {
    state = state * 6364136223846793005u + 1442695040888963407u;
    return (uint32_t)(((state >> 32) * bound) >> 32);
}

static void done(uint32_t status) {
    if (!status) return;
    fprintf(stderr, "measure_batches: %s\n", edgebpf_words(status));
    exit(1);
}

static uint32_t sources[MOST], targets[MOST], vertices;
static uint8_t removes[MOST];
static bool is_skewed;

/* A random edge: of a uniform graph, or of a recursive matrix (57, 19, 19 and 5 %) whose numbers are mixed. */
static void draw(uint32_t *source, uint32_t *target) {
    *source = *target = 0;
    if (!is_skewed) {
        *source = chance(vertices), *target = chance(vertices);
        return;
    }
    for (uint32_t bit = 1; bit < vertices; bit <<= 1) {
        const uint32_t place = chance(100);
        *source |= place >= 76 ? bit : 0;
        *target |= (place >= 57 && place < 76) || place >= 95 ? bit : 0;
    }
    *source = *source * 2654435761u % vertices, *target = *target * 2654435761u % vertices;
}

static edgebpf_info info_of(edgebpf_store *store) {
    edgebpf_version version = {{0}};
    edgebpf_info info;
    done(edgebpf_store_pin(store, &version)), done(edgebpf_version_info(&version, &info));
    edgebpf_close_version(&version);
    return info;
}

static void load(edgebpf_store *store, uint64_t edges) {
    edgebpf_change change;
    uint64_t epoch;
    done(edgebpf_store_new(vertices, store));
    for (uint64_t there = 0; there < edges; there = info_of(store).edges) {
        const size_t size = edges - there < MOST ? edges - there : MOST;
        for (size_t at = 0; at < size; at++) draw(sources + at, targets + at);
        done(edgebpf_store_apply(store, 0, sources, size, targets, size, removes, size, &change));
        done(edgebpf_store_rebase(store, &epoch));
    }
}

/* The edges of a graph, of which the first `count` were not taken out yet. */
typedef struct { uint32_t *sources, *targets; size_t count; } edge_list;

static edge_list edges_of(edgebpf_store *store) {
    const edgebpf_info info = info_of(store);
    edge_list all = {calloc(info.edges, sizeof *all.sources), calloc(info.edges, sizeof *all.targets), info.edges};
    uint64_t *starts = calloc(vertices + 1u, sizeof *starts);
    edgebpf_version version = {{0}};
    if (!all.sources || !all.targets || !starts) exit(1);
    done(edgebpf_store_pin(store, &version));
    done(edgebpf_version_copy(&version, starts, vertices + 1u, all.targets, info.edges));
    for (uint32_t vertex = 0; vertex < vertices; vertex++)
        for (uint64_t at = starts[vertex]; at < starts[vertex + 1]; at++) all.sources[at] = vertex;
    edgebpf_close_version(&version), free(starts);
    return all;
}

static void write_edit(edge_list *all, size_t at, bool is_out) {
    removes[at] = is_out;
    if (!is_out || !all->count) {
        draw(sources + at, targets + at);
        return;
    }
    const size_t chosen = chance((uint32_t)all->count), last = --all->count;
    sources[at] = all->sources[chosen], targets[at] = all->targets[chosen];
    all->sources[chosen] = all->sources[last], all->targets[chosen] = all->targets[last];
}

static uint64_t now(void) {
    struct timespec time;
    clock_gettime(CLOCK_PROCESS_CPUTIME_ID, &time);
    return 1000000000ull * (uint64_t)time.tv_sec + (uint64_t)time.tv_nsec;
}

static void apply(edgebpf_store *store, edge_list *all, size_t size, bool is_odd) {
    edgebpf_change change;
    for (size_t at = 0; at < size; at++) write_edit(all, at, size == 1 ? is_odd : at & 1);
    is_counting = true;
    const uint64_t begun = now();
    done(edgebpf_store_apply(store, 0, sources, size, targets, size, removes, size, &change));
    nanoseconds += now() - begun;
    is_counting = false;
}

int main(int count, char **words) {
    if (count != 7) return 2;
    vertices = (uint32_t)atol(words[1]), is_skewed = !strcmp(words[3], "skewed");
    const uint64_t edges = (uint64_t)atoll(words[2]);
    const size_t size = (size_t)atol(words[4]), batches = (size_t)atol(words[5]), pins = (size_t)atol(words[6]);
    edgebpf_store store = {{0}};
    edgebpf_version *pinned = calloc(pins + 1, sizeof *pinned);
    load(&store, edges);
    edge_list all = edges_of(&store);
    const int64_t graph = held;
    apply(&store, &all, size, false);
    copied = requests = nanoseconds = 0;
    for (size_t batch = 0; batch < batches; batch++) apply(&store, &all, size, batch & 1);
    const double edits = (double)size * (double)(batches ? batches : 1);
    const int64_t before = held;
    const uint64_t counted[] = {copied, requests, nanoseconds};
    for (size_t pin = 0; pin < pins; pin++) {
        done(edgebpf_store_pin(&store, pinned + pin));
        apply(&store, &all, size, pin & 1);
    }
    printf("%.0f %.2f %.0f %.0f %.2f\n", (double)counted[0] / edits, (double)counted[1] / edits, (double)counted[2] / edits,
           pins ? (double)(held - before) / (double)pins : 0.0, (double)graph / (double)info_of(&store).edges);
    return 0;
}
