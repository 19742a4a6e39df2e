/* One thread applies batches and rebases, and two read: each pins the last version again and again, and reads all its edges from lent slices,
   which have to be as many as the version says, and ascending. */
#include "check.h"
#include <pthread.h>
#include <stdatomic.h>

#ifndef BATCHES
#define BATCHES 300
#endif

enum { VERTICES = 1024, EDITS = 512, READERS = 2, ROOM = 512 };

static pthread_mutex_t lock = PTHREAD_MUTEX_INITIALIZER;
static edgebpf_version latest;
static atomic_int is_done;
static atomic_long pins;

/* Reads the neighbours of a vertex, and answers how many they are. */
static uint64_t read_vertex(edgebpf_version *version, uint32_t vertex) {
    edgebpf_slice slices[ROOM];
    size_t lent;
    uint64_t seen = 0;
    int64_t before = -1;
    CHECK(edgebpf_version_lend(version, vertex, slices, ROOM, &lent) == EDGEBPF_DONE && lent < ROOM);
    for (size_t i = 0; i < lent; i++)
        for (size_t j = 0; j < slices[i].count; j++, seen++) {
            CHECK(slices[i].at[j] > before);
            before = slices[i].at[j];
        }
    return seen;
}

static void *reads(void *unused) {
    (void)unused;
    for (int is_last = 0; !is_last;) {
        edgebpf_version version = {{0}};
        edgebpf_info info;
        uint64_t seen = 0;
        is_last = atomic_load(&is_done);
        pthread_mutex_lock(&lock);
        CHECK(edgebpf_version_share(&latest, &version) == EDGEBPF_DONE);
        pthread_mutex_unlock(&lock);
        CHECK(edgebpf_version_info(&version, &info) == EDGEBPF_DONE);
        for (uint32_t vertex = 0; vertex < info.vertices; vertex++) seen += read_vertex(&version, vertex);
        CHECK(seen == info.edges);
        edgebpf_close_version(&version);
        atomic_fetch_add(&pins, 1);
    }
    return NULL;
}

/* A batch, a third of whose edits are of eight vertices, so that lists of all homes are read. */
static void apply_batch(edgebpf_store *store) {
    static uint32_t sources[EDITS], targets[EDITS];
    static uint8_t removes[EDITS];
    edgebpf_change change;
    for (int i = 0; i < EDITS; i++) {
        sources[i] = random_below(random_below(3) ? VERTICES : 8);
        targets[i] = random_below(VERTICES);
        removes[i] = random_below(4) == 0;
    }
    CHECK(edgebpf_store_apply(store, 0, sources, EDITS, targets, EDITS, removes, EDITS, &change) == EDGEBPF_DONE);
}

int main(void) {
    edgebpf_store store = {{0}};
    pthread_t readers[READERS];
    CHECK(edgebpf_store_new(VERTICES, &store) == EDGEBPF_DONE && edgebpf_store_pin(&store, &latest) == EDGEBPF_DONE);
    for (int i = 0; i < READERS; i++) CHECK(!pthread_create(&readers[i], NULL, reads, NULL));
    for (int i = 0; i < BATCHES; i++) {
        edgebpf_version next = {{0}}, before;
        uint64_t epoch;
        apply_batch(&store);
        if (i % 7 == 6) CHECK(edgebpf_store_rebase(&store, &epoch) == EDGEBPF_DONE);
        CHECK(edgebpf_store_pin(&store, &next) == EDGEBPF_DONE);
        pthread_mutex_lock(&lock);
        before = latest;
        latest = next;
        pthread_mutex_unlock(&lock);
        edgebpf_close_version(&before);
    }
    atomic_store(&is_done, 1);
    for (int i = 0; i < READERS; i++) pthread_join(readers[i], NULL);
    edgebpf_close_version(&latest);
    edgebpf_close_store(&store);
    fprintf(stderr, "%ld pins\n", atomic_load(&pins));
    puts("each pin had as many edges as it said, and in order");
    return 0;
}
