/* The greatest graph, and a vertex with so many targets that its tree grows by a fifth level; by `wide most` by a sixth, which takes minutes. The
   heap refuses a request where it is asked to. It stands in place of heap.c. */
#include "check.h"
#include <stdbool.h>

typedef struct { bool is_there; void *at; } block;

static long refused_at, asked;

static block answer(void *at) { return (block){at != NULL, at}; }

static bool is_refused(void) { return ++asked == refused_at; }

block rattle_alloc(size_t size, size_t align) { return answer(is_refused() ? NULL : malloc(size ? size : align)); }

block rattle_realloc(void *at, size_t kept, size_t size, size_t align) {
    (void)kept;
    return answer(is_refused() ? NULL : realloc(at, size ? size : align));
}

void rattle_dealloc(void *at) { free(at); }

/* How many words or nodes of a row make it two, if they come ascending: a node of 65 is split, and the first half, of 32, stays as it is. */
#define FOR_NODES(count) (65 + 32 * ((count) - 2))

/* One word more, and the tree has a level more. */
enum { TWO_LEVELS = FOR_NODES(65) - 1, THREE_LEVELS = FOR_NODES(TWO_LEVELS + 1) - 1, FOUR_LEVELS = FOR_NODES(THREE_LEVELS + 1) - 1 };
enum { FIVE_LEVELS = FOR_NODES(FOUR_LEVELS + 1) - 1, HUB = 5, ROOM = 4096 };

static const uint8_t all_in[EDGEBPF_MOST_EDITS];
static uint8_t all_out[EDGEBPF_MOST_EDITS];
static uint32_t sources[EDGEBPF_MOST_EDITS], targets[EDGEBPF_MOST_EDITS];

static edgebpf_info info_of(edgebpf_version *version) {
    edgebpf_info info;
    CHECK(edgebpf_version_info(version, &info) == EDGEBPF_DONE);
    return info;
}

static edgebpf_version pinned(edgebpf_store *store) {
    edgebpf_version version = {{0}};
    CHECK(edgebpf_store_pin(store, &version) == EDGEBPF_DONE);
    return version;
}

/* Each target is one of the first `count` vertices, and these are all there, ascending, in the slices that are lent. */
static void has_all_below(edgebpf_version *version, uint32_t count) {
    static edgebpf_slice slices[ROOM];
    uint32_t degree = 9, next = 0, place = 0;
    CHECK(edgebpf_version_degree(version, HUB, &degree) == EDGEBPF_DONE && degree == count && info_of(version).edges == count);
    for (size_t lent = ROOM; lent == ROOM; place = next) {
        CHECK(edgebpf_version_lend_from(version, HUB, place, slices, ROOM, &lent) == EDGEBPF_DONE);
        for (size_t at = 0; at < lent; at++)
            for (size_t word = 0; word < slices[at].count; word++) CHECK(slices[at].at[word] == next++);
    }
    CHECK(next == count);
}

/* One edge, from the greatest vertex to itself, in the greatest graph. */
static void greatest_graph(void) {
    const uint32_t greatest = EDGEBPF_MOST_VERTICES - 1, one = 1;
    uint32_t answer = 9, degree = 9, neighbour = 9, copied[1] = {9};
    uint64_t value = 9, starts[2] = {9, 9};
    size_t lent = 9, count = 9;
    edgebpf_slice slice;
    edgebpf_store store = {{0}};
    edgebpf_program program = {{0}};
    edgebpf_change change;
    edgebpf_totals totals;
    edgebpf_verdict verdict;
    CHECK(edgebpf_store_new(EDGEBPF_MOST_VERTICES, &store) == EDGEBPF_DONE);
    CHECK(edgebpf_store_apply(&store, 0, &greatest, 1, &greatest, 1, all_in, 1, &change) == EDGEBPF_DONE && change.added == 1);
    const uint32_t outside = EDGEBPF_MOST_VERTICES;
    CHECK(edgebpf_store_apply(&store, 0, &outside, 1, &one, 1, all_in, 1, &change) == EDGEBPF_VERTEX_RANGE);
    CHECK(edgebpf_store_apply(&store, 0, &one, 1, &outside, 1, all_in, 1, &change) == EDGEBPF_VERTEX_RANGE);
    edgebpf_version pin = pinned(&store);
    CHECK(info_of(&pin).vertices == EDGEBPF_MOST_VERTICES && info_of(&pin).edges == 1 && info_of(&pin).number == 1);
    CHECK(edgebpf_version_has_edge(&pin, greatest, greatest, &answer) == EDGEBPF_DONE && answer == 1);
    CHECK(edgebpf_version_has_edge(&pin, greatest, greatest - 1, &answer) == EDGEBPF_DONE && answer == 0);
    CHECK(edgebpf_version_has_edge(&pin, outside, outside, &answer) == EDGEBPF_DONE && answer == 0);
    CHECK(edgebpf_version_degree(&pin, greatest, &degree) == EDGEBPF_DONE && degree == 1);
    CHECK(edgebpf_version_neighbour(&pin, greatest, 0, &neighbour) == EDGEBPF_DONE && neighbour == greatest);
    CHECK(edgebpf_version_neighbour(&pin, greatest, 1, &neighbour) == EDGEBPF_NO_NEIGHBOUR);
    CHECK(edgebpf_version_lend(&pin, greatest, &slice, 1, &lent) == EDGEBPF_DONE && lent == 1 && slice.count == 1 && *slice.at == greatest);
    CHECK(edgebpf_version_lists(&pin, &greatest, 1, starts, 2, copied, 1, &count) == EDGEBPF_DONE);
    CHECK(starts[0] == 0 && starts[1] == 1 && copied[0] == greatest && count == 1);
    CHECK(edgebpf_program_new(16, target_code, sizeof target_code, EDGEBPF_NO_BYTES, 0, &verdict, &program) == EDGEBPF_DONE);
    CHECK(edgebpf_run(&pin, &program, EDGEBPF_NO_BYTES, 0, &greatest, 1, EDGEBPF_SUM, &value, 1, &totals) == EDGEBPF_DONE);
    CHECK(value == greatest && totals.edges == 1 && totals.total == greatest);
    edgebpf_store branch = {{0}};
    CHECK(edgebpf_store_of(&pin, &branch) == EDGEBPF_DONE);
    edgebpf_close_store(&branch);
    edgebpf_close_program(&program);
    edgebpf_close_version(&pin), edgebpf_close_store(&store);
}

/* The vertices below `count` from a place on, each a step after the one before it; step and count have no divisor. */
static void write_part(uint32_t from, size_t size, uint32_t step, uint32_t count) {
    for (size_t at = 0; at < size; at++) {
        sources[at] = HUB;
        targets[at] = (uint32_t)(((uint64_t)(from + at) * step) % count);
    }
}

/* Puts in all targets below `count`, or takes them out, batch by batch. */
static void edit_all(edgebpf_store *store, uint32_t count, uint32_t step, const uint8_t *marks) {
    for (uint32_t from = 0; from < count; from += EDGEBPF_MOST_EDITS) {
        const size_t size = count - from < EDGEBPF_MOST_EDITS ? count - from : EDGEBPF_MOST_EDITS;
        edgebpf_change change;
        write_part(from, size, step, count);
        CHECK(edgebpf_store_apply(store, 0, sources, size, targets, size, marks, size, &change) == EDGEBPF_DONE);
        CHECK(change.added == (marks == all_in ? size : 0) && change.removed == (marks == all_in ? 0 : size));
    }
}

/* A vertex gets so many targets, batch by batch, and loses all of them in an order that jumps. */
static void grows_and_shrinks(uint32_t count, uint32_t vertices) {
    uint64_t epoch = 9;
    edgebpf_store store = {{0}};
    CHECK(edgebpf_store_new(vertices, &store) == EDGEBPF_DONE);
    edit_all(&store, count, 1, all_in);
    edgebpf_version full = pinned(&store);
    has_all_below(&full, count);
    CHECK(edgebpf_store_rebase(&store, &epoch) == EDGEBPF_DONE && epoch == 1);
    edit_all(&store, count, 641, all_out);
    edgebpf_version none = pinned(&store);
    has_all_below(&none, 0);
    has_all_below(&full, count);
    edgebpf_close_version(&none), edgebpf_close_version(&full), edgebpf_close_store(&store);
}

/* The vertex gets all of its targets at once, and one edit of them. */
static void begins_with_all(uint32_t count, uint32_t vertices) {
    const uint32_t hub = HUB, last = count - 1;
    edgebpf_store store = {{0}};
    edgebpf_change change;
    uint64_t *starts = calloc(vertices + 1, sizeof *starts);
    uint32_t *all = calloc(count, sizeof *all);
    CHECK(starts && all);
    for (uint32_t vertex = HUB + 1; vertex <= vertices; vertex++) starts[vertex] = count;
    for (uint32_t at = 0; at < count; at++) all[at] = at;
    CHECK(edgebpf_store_from(vertices, starts, vertices + 1, all, count, &store) == EDGEBPF_DONE);
    free(starts), free(all);
    edgebpf_version first = pinned(&store);
    has_all_below(&first, count);
    CHECK(edgebpf_store_apply(&store, 0, &hub, 1, &last, 1, all_out, 1, &change) == EDGEBPF_DONE && change.removed == 1);
    edgebpf_version later = pinned(&store);
    has_all_below(&later, count - 1), has_all_below(&first, count);
    edgebpf_close_version(&first), edgebpf_close_version(&later), edgebpf_close_store(&store);
}

/* One edit of the vertex, for which each request of memory is refused in turn: nothing is changed then, and again it is done. */
static long edit_refused(edgebpf_store *store, uint32_t target, const uint8_t *mark, uint32_t before, uint32_t after) {
    const uint32_t hub = HUB;
    for (long try = 1;; try++) {
        edgebpf_change change;
        asked = 0, refused_at = try;
        const uint32_t status = edgebpf_store_apply(store, 0, &hub, 1, &target, 1, mark, 1, &change);
        refused_at = 0;
        edgebpf_version now = pinned(store);
        has_all_below(&now, status == EDGEBPF_DONE ? after : before);
        edgebpf_close_version(&now);
        if (status == EDGEBPF_DONE) return try - 1;
        CHECK(status == EDGEBPF_NO_MEMORY);
    }
}

/* The next target makes the tree grow by a level. */
static void refuses_memory(void) {
    edgebpf_store store = {{0}};
    CHECK(edgebpf_store_new(1 << 22, &store) == EDGEBPF_DONE);
    edit_all(&store, FOUR_LEVELS, 1, all_in);
    const long more = edit_refused(&store, FOUR_LEVELS, all_in, FOUR_LEVELS, FOUR_LEVELS + 1);
    const long fewer = edit_refused(&store, FOUR_LEVELS, all_out, FOUR_LEVELS + 1, FOUR_LEVELS);
    const long again = edit_refused(&store, FOUR_LEVELS, all_in, FOUR_LEVELS, FOUR_LEVELS + 1);
    /* The halves of what was split stay, so there is no new level this time. */
    CHECK(more > again && fewer > 4);
    edgebpf_close_store(&store);
}

int main(int count, char **words) {
    memset(all_out, 1, sizeof all_out);
    if (count > 1 && !strcmp(words[1], "most")) {
        grows_and_shrinks(FIVE_LEVELS + 1, EDGEBPF_MOST_VERTICES);
        printf("a vertex with %d targets\n", FIVE_LEVELS + 1);
        return 0;
    }
    greatest_graph();
    grows_and_shrinks(FOUR_LEVELS + 1, 1 << 22);
    begins_with_all(FOUR_LEVELS + 1, 1 << 22);
    refuses_memory();
    printf("the greatest graph, and a vertex with %d targets\n", FOUR_LEVELS + 1);
    return 0;
}
