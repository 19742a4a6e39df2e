/* A graph of which threads read the last version while one at a time edits it, with rebases by itself. It edits a graph beside two readers,
   and prints what is there at the end. */
#include <edgebpf.h>
#include <pthread.h>
#include <stdio.h>

/* The edits of a batch in their order. */
struct edits { const uint32_t *sources, *targets; const uint8_t *removes; size_t count; };

struct live {
    pthread_mutex_t writing;            /* held for a batch */
    pthread_mutex_t showing;            /* held while the last version is shared or replaced, which is short */
    edgebpf_store store;
    edgebpf_version latest;
    size_t batches, edits;              /* since the last rebase */
    size_t most_batches, most_edits;    /* before the next one */
};

static uint32_t live_new(struct live *live, uint32_t vertices, size_t most_batches, size_t most_edits) {
    *live = (struct live){.most_batches = most_batches, .most_edits = most_edits};
    pthread_mutex_init(&live->writing, NULL);
    pthread_mutex_init(&live->showing, NULL);
    uint32_t status = edgebpf_store_new(vertices, &live->store);
    return status ? status : edgebpf_store_pin(&live->store, &live->latest);
}

/* The last version, in a handle that the caller closes. It waits for no batch. */
static uint32_t live_latest(struct live *live, edgebpf_version *out) {
    pthread_mutex_lock(&live->showing);
    uint32_t status = edgebpf_version_share(&live->latest, out);
    pthread_mutex_unlock(&live->showing);
    return status;
}

/* Makes the store's version the last one. The one before is dropped outside of the lock. */
static uint32_t live_show(struct live *live) {
    edgebpf_version before = {{0}};
    uint32_t status = live_latest(live, &before);
    pthread_mutex_lock(&live->showing);
    if (!status) status = edgebpf_store_pin(&live->store, &live->latest);
    pthread_mutex_unlock(&live->showing);
    edgebpf_close_version(&before);
    return status;
}

/* Applies a batch. A rebase for which there is no memory is tried again at the next one: there is room for 4,096 batches. EDGEBPF_NO_MEMORY may
   also come where the batch was applied, and its version is shown with the next one: `change->added` is then no longer UINT64_MAX. */
static uint32_t live_apply(struct live *live, uint8_t feed, const struct edits *edits, edgebpf_change *change) {
    uint64_t epoch;
    size_t count = edits->count;
    change->added = UINT64_MAX;
    pthread_mutex_lock(&live->writing);
    if ((live->batches >= live->most_batches || live->edits >= live->most_edits) && !edgebpf_store_rebase(&live->store, &epoch))
        live->batches = live->edits = 0;
    uint32_t status = edgebpf_store_apply(&live->store, feed, edits->sources, count, edits->targets, count, edits->removes, count, change);
    if (!status) {
        live->batches++;
        live->edits += count;
        status = live_show(live);
    }
    pthread_mutex_unlock(&live->writing);
    return status;
}

static void live_close(struct live *live) {
    edgebpf_close_version(&live->latest);
    edgebpf_close_store(&live->store);
    pthread_mutex_destroy(&live->writing);
    pthread_mutex_destroy(&live->showing);
}

enum { VERTICES = 64 };

/* Reads until the last batch was seen: a batch adds one edge, so no version has fewer edges than the one before. */
static void *reads(void *given) {
    uint64_t seen = 0;
    while (seen < VERTICES) {
        edgebpf_version version = {{0}};
        edgebpf_info info;
        uint32_t status = live_latest(given, &version);
        if (!status) status = edgebpf_version_info(&version, &info);
        edgebpf_close_version(&version);
        if (status || info.edges < seen) return "a reader saw an older version, or none";
        seen = info.edges;
    }
    return NULL;
}

int main(void) {
    struct live live;
    pthread_t readers[2];
    edgebpf_change change;
    edgebpf_info info;
    const char *wrong = NULL;
    uint32_t status = live_new(&live, VERTICES, 10, 1 << 22);
    if (status) return fprintf(stderr, "%s\n", edgebpf_words(status)), 1;
    for (int each = 0; each < 2; each++) pthread_create(&readers[each], NULL, reads, &live);
    for (uint32_t vertex = 0; vertex < VERTICES && !status; vertex++) {
        const uint8_t removes = 0;
        const struct edits one = {&vertex, &vertex, &removes, 1};
        status = live_apply(&live, 0, &one, &change);
    }
    if (status) return fprintf(stderr, "%s\n", edgebpf_words(status)), 1;
    for (int each = 0; each < 2; each++) {
        void *said;
        pthread_join(readers[each], &said);
        if (said) wrong = said;
    }
    edgebpf_version_info(&live.latest, &info);
    if (wrong) fprintf(stderr, "%s\n", wrong);
    else printf("%llu edges, version %llu of epoch %llu\n", (unsigned long long)info.edges, (unsigned long long)info.number, (unsigned long long)info.epoch);
    live_close(&live);
    return wrong != NULL;
}
