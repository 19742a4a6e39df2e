/* edgebpf in process: a store of a graph that changes, versions of it that stay, and verified programs over their edges.
   docs/EMBEDDING.md says who owns what, and which threads may do what. */
#ifndef EDGEBPF_H
#define EDGEBPF_H

#include <stddef.h>
#include <stdint.h>

#ifdef __cplusplus
extern "C" {
#endif

/* What a call returns: 0 if it is done, else why it is not. After an error each handle holds what it held before, and each output is as it was,
   but for three: `verdict` has the cause after REFUSED, `assembled` the line and the fault after WRONG_TEXT, and `assembled` and `count` what is
   needed after LENGTHS. After any other error nothing is said of these three. NO_MEMORY may come in place of some: of TOO_MANY_EDITS,
   VERTEX_RANGE, LOG_FULL and FEED of a batch, of REFUSED and WRONG_TEXT, and of LENGTHS if code or an explanation is written. */
enum {
    EDGEBPF_DONE = 0,
    EDGEBPF_NO_MEMORY = 1,
    EDGEBPF_EMPTY = 2,
    EDGEBPF_OTHER_KIND = 3,
    EDGEBPF_VERTEX_COUNT = 4,
    EDGEBPF_VERTEX_RANGE = 5,
    EDGEBPF_TOO_MANY_EDITS = 6,
    EDGEBPF_LOG_FULL = 7,
    EDGEBPF_FEED = 8,
    EDGEBPF_LENGTHS = 9,
    EDGEBPF_REFUSED = 10,
    EDGEBPF_RECORD_LENGTH = 11,
    EDGEBPF_CODE_LENGTH = 12,
    EDGEBPF_ARGUMENT_LENGTH = 13,
    EDGEBPF_REDUCTION = 14,
    EDGEBPF_WRONG_TEXT = 15,
    EDGEBPF_NO_NEIGHBOUR = 16,
    EDGEBPF_EPOCHS_FULL = 17,
    EDGEBPF_TABLE_LENGTH = 18,
    EDGEBPF_COLUMNS = 19,
    EDGEBPF_PROGRESS = 20,
    EDGEBPF_NOT_SORTED = 21
};

/* The same in words. */
static inline const char *edgebpf_words(uint32_t status) {
    static const char *const words[] = {
        "done",
        "out of memory",
        "the handle is empty",
        "the handle holds something of another kind",
        "the number of vertices is not from 1 to 268435456",
        "an edit names a vertex that the graph does not have",
        "there are more than 65536 edits",
        "4096 batches were applied, and there is room for no more before a rebase",
        "there is no such feed",
        "the lengths of the arrays do not fit together",
        "the verifier refuses the program",
        "the record length is not from 16 to 256",
        "the code is not 1 to 4096 units of 8 bytes",
        "the argument is not as long as the record less 16 bytes, and less 16 for each column",
        "there is no such reduction",
        "the text means no code",
        "the vertex has no neighbour at this place",
        "as many rebases were made as 64 bits count",
        "the table has more than 4096 bytes",
        "there are more than 8 columns, or one has not a number for each vertex",
        "the progress names no place of this frontier",
        "the arrays are not sorted",
    };
    return status < sizeof words / sizeof *words ? words[status] : "there is no such status";
}

/* Pointers. None is NULL, neither a handle's, nor an output's, nor that of an array without a place: such a call is undefined. Each is aligned
   as its type, and what a call writes to lies apart from all else that it is given. No array has more than PTRDIFF_MAX bytes. A call asks
   first whether each handle holds something (EMPTY), then whether that is of its kind (OTHER_KIND), and then what its own line says.
   An array is a pointer and a count. This is one without a byte. */
#define EDGEBPF_NO_BYTES ((const uint8_t *)"")

/* Memory. The library takes it by three functions. heap.c, a member of libedgebpf.a, defines them over malloc; a host with a heap of its own
   defines them in its place, with `typedef struct { bool is_there; void *at; } block;`:
   `block rattle_alloc(size_t size, size_t align)`,
   `block rattle_realloc(void *at, size_t kept, size_t size, size_t align)` and
   `void rattle_dealloc(void *at)`.
   `is_there` is false if a request is refused, and then what rattle_realloc was given stays as it is. No alignment above 16 is asked for,
   and a size may be 0. Threads that are in calls at once call them at once. They throw nothing, and call nothing of the library. */

/* Limits. */
#define EDGEBPF_MOST_VERTICES 268435456u
#define EDGEBPF_MOST_EDITS 65536u
#define EDGEBPF_MOST_BATCHES 4096u /* between two rebases */
#define EDGEBPF_MOST_EPOCHS UINT64_MAX
#define EDGEBPF_MOST_COLUMNS 8u

/* Handles. {0} is the empty one. A handle is closed once and never copied; whoever has it owns it. */
typedef struct edgebpf_handle { void *at; } edgebpf_handle;
typedef struct edgebpf_store { edgebpf_handle handle; } edgebpf_store;
typedef struct edgebpf_version { edgebpf_handle handle; } edgebpf_version;
typedef struct edgebpf_program { edgebpf_handle handle; } edgebpf_program;

/* What a batch did: how many edges are new, how many are gone, and the number of the version that it made: how many batches
   there were since the last rebase. */
typedef struct edgebpf_change { uint64_t added, removed, number; } edgebpf_change;

/* What a version is: how many batches there were since the last rebase, how many edges it has, how many rebases there were
   before it, and how many vertices it has. */
typedef struct edgebpf_info { uint64_t number, edges, epoch; uint32_t vertices; } edgebpf_info;

/* Neighbours that lie one after another, ascending. */
typedef struct edgebpf_slice { const uint32_t *at; size_t count; } edgebpf_slice;

/* What the verifier says: the most instructions and stack frames of a run, or the broken rule and the unit that breaks it. */
typedef struct edgebpf_verdict { uint32_t bound, frames, cause, pc; } edgebpf_verdict;

/* What came of a text: the bytes of its code, or the line (from 1) and the fault; line 0 if it is no UTF-8. */
typedef struct edgebpf_assembled { size_t length, line; uint32_t cause; } edgebpf_assembled;

/* What all edges of a run have together. */
typedef struct edgebpf_totals { uint64_t edges, total; } edgebpf_totals;

/* A column: a number for each vertex. */
typedef struct edgebpf_column { const uint64_t *at; size_t count; } edgebpf_column;

/* Work under way, which goes on from call to call: {0} is its beginning. `budget` is how much the next call may do, and falls by what is done. Of
   a frontier `vertex` vertices are done, and `place` edges of the next one; of pairs `vertex` are done, and `place` is 0. `edges` edges, or
   pairs, in all have a number, and those of a run reduce to `total`. There is no pointer in it, so it may be kept, sent, or written to a file. */
typedef struct edgebpf_progress { uint64_t budget, edges, total; uint32_t vertex, place; } edgebpf_progress;

enum { EDGEBPF_SUM = 0, EDGEBPF_MIN = 1, EDGEBPF_MAX = 2 };

/* A store of a graph of 1 to 268,435,456 vertices, without an edge. VERTEX_COUNT. */
uint32_t edgebpf_store_new(uint32_t vertices, edgebpf_store *out);

/* A store of a graph whose edges are sorted, as edgebpf_version_copy writes them: `starts` has the place in `targets` at which each vertex's
   list begins, and after the last one their number, and each list ascends. The arrays are read once, and no log is kept of them: they are
   version 0 of epoch 0. VERTEX_COUNT; LENGTHS if there is not one start for each vertex and one more; NOT_SORTED if the first start is not
   0, the last one not `target_count`, a start less than the one before it, or a target not greater than the one before it in its list;
   VERTEX_RANGE if a target is no vertex; tested in this order. */
uint32_t edgebpf_store_from(uint32_t vertices, const uint64_t *starts, size_t start_count, const uint32_t *targets, size_t target_count,
                            edgebpf_store *out);

/* A branch: a store of its own whose graph is that of a version. No list is copied: it takes some microseconds, and tens of them with the most
   vertices. It begins anew, with version 0 of epoch 0 and room for 4,096 batches, and nothing that is done to it changes the version, or the
   store that the version is of; either may be closed. */
uint32_t edgebpf_store_of(edgebpf_version *version, edgebpf_store *out);

/* Applies a batch of edits in their order, of feed 0 to 3: an edge from each source to the target at its place, which is taken
   out if `removes` is not 0. LENGTHS, TOO_MANY_EDITS, VERTEX_RANGE, LOG_FULL, FEED, tested in this order. If the result is
   not 0, the store is as it was; after NO_MEMORY the same call may be made again. */
uint32_t edgebpf_store_apply(edgebpf_store *store, uint8_t feed, const uint32_t *sources, size_t source_count,
                             const uint32_t *targets, size_t target_count, const uint8_t *removes, size_t remove_count,
                             edgebpf_change *change);

/* Forgets the batches that made the last version, whose memory is free once no older version is open: the graph stays as it
   is, and is version 0 of the next epoch, which has room for 4,096 batches. `epoch` is how many rebases there were with this
   one; each takes 32 bytes. EPOCHS_FULL after 2^64 - 1 of them, which is never. If the result is not 0, the store is as it was; after
   NO_MEMORY the same call may be made again. */
uint32_t edgebpf_store_rebase(edgebpf_store *store, uint64_t *epoch);

/* The last version, which stays as it is. */
uint32_t edgebpf_store_pin(edgebpf_store *store, edgebpf_version *out);

/* Another handle of the same version, for another thread. */
uint32_t edgebpf_version_share(edgebpf_version *version, edgebpf_version *out);

uint32_t edgebpf_version_info(edgebpf_version *version, edgebpf_info *info);

/* How many neighbours a vertex has; whether there is an edge (1 or 0); the neighbour at a place, from 0 (NO_NEIGHBOUR). A
   vertex outside the graph has no neighbour. */
uint32_t edgebpf_version_degree(edgebpf_version *version, uint32_t vertex, uint32_t *count);
uint32_t edgebpf_version_has_edge(edgebpf_version *version, uint32_t source, uint32_t target, uint32_t *answer);
uint32_t edgebpf_version_neighbour(edgebpf_version *version, uint32_t vertex, uint32_t place, uint32_t *neighbour);

/* The slices in which a vertex's neighbours lie, as many as there is room for: if `lent` is less than `room`, these are
   all. Nobody may write to them, and they end with the last handle of the version. That a slice lies in the version and stays so long is
   tested; the contracts say that its address is one of a word equal to its first. */
uint32_t edgebpf_version_lend(edgebpf_version *version, uint32_t vertex, edgebpf_slice *slices, size_t room, size_t *lent);

/* The same from the neighbour at a place on, from 0: where there was too little room, go on at the place after the last neighbour
   that was lent. There are none past the neighbours' end. */
uint32_t edgebpf_version_lend_from(edgebpf_version *version, uint32_t vertex, uint32_t place, edgebpf_slice *slices, size_t room,
                                   size_t *lent);

/* All edges: `starts` has one place for each vertex and one more, `targets` one for each edge. LENGTHS. */
uint32_t edgebpf_version_copy(edgebpf_version *version, uint64_t *starts, size_t start_count, uint32_t *targets,
                              size_t target_count);

/* How many neighbours each vertex of a frontier has, which may name vertices in any order and more than once; one outside the graph
   has none. `counts` has one place for each. LENGTHS. */
uint32_t edgebpf_version_degrees(edgebpf_version *version, const uint32_t *frontier, size_t frontier_count, uint32_t *counts,
                                 size_t count_count);

/* The neighbours of the vertices of such a frontier, which has at most 268,435,456, one vertex after another: those of the vertex at
   place i are targets[starts[i]] to targets[starts[i + 1] - 1]. `starts` has one place for each vertex and one more, and `targets`
   has room for `count`; its places after these stay as they are. LENGTHS, and then no list is written. `count` is written also then,
   but not for a frontier that is too long: ask with a room of 0, and then with one of `count`. */
uint32_t edgebpf_version_lists(edgebpf_version *version, const uint32_t *frontier, size_t frontier_count, uint64_t *starts,
                               size_t start_count, uint32_t *targets, size_t room, size_t *count);

/* Verifies a program for records of 16 to 256 bytes. Its runs read the table of 1 to 4,096 bytes from the address that R3 holds when
   they begin; with EDGEBPF_NO_BYTES and 0 there is none. RECORD_LENGTH, CODE_LENGTH, TABLE_LENGTH, REFUSED (then `verdict` says
   why), tested in this order. This call and the next one take 220 KB of the thread's stack. */
uint32_t edgebpf_program_new(uint16_t record_length, const uint8_t *code, size_t code_length, const uint8_t *table,
                             size_t table_length, edgebpf_verdict *verdict, edgebpf_program *out);

/* Another handle of the same program, for another thread. */
uint32_t edgebpf_program_share(edgebpf_program *program, edgebpf_program *out);

/* The code that a text means. WRONG_TEXT; LENGTHS if there is less room than `assembled->length`. */
uint32_t edgebpf_assemble(const uint8_t *text, size_t text_length, uint8_t *code, size_t room, edgebpf_assembled *assembled);

/* What the verifier knows of a program, as text. RECORD_LENGTH, CODE_LENGTH, TABLE_LENGTH; LENGTHS if there is less room than
   `count`. */
uint32_t edgebpf_explain(uint16_t record_length, const uint8_t *code, size_t code_length, const uint8_t *table,
                         size_t table_length, uint8_t *text, size_t room, size_t *count);

/* Runs a program on each edge of the vertices of a frontier, which may name vertices in any order and more than once, at most 268,435,456 of
   them. `values` has one place for each: the reduction over its edges. A vertex without neighbours, or outside the graph, has 0, and
   2^64 - 1 for MIN. REDUCTION, LENGTHS, ARGUMENT_LENGTH, tested in this order. */
uint32_t edgebpf_run(edgebpf_version *version, edgebpf_program *program, const uint8_t *argument, size_t argument_length,
                     const uint32_t *frontier, size_t frontier_count, uint32_t reduction, uint64_t *values,
                     size_t value_count, edgebpf_totals *totals);

/* Goes on with a run over a frontier, as far as `at->budget` goes; it is done where `at->vertex` is `frontier_count`, and has then written what
   edgebpf_run writes. Each call does one edge or one vertex at least, also with a budget of 0. An edge takes at most the verdict's bound and 4
   from the budget, a vertex 16. A call finishes the edge, or the block of up to 64 edges, that it began, also past its budget: no contract says
   by how much. `values` has one place for each vertex, and keeps its content from call to call: those of vertices that are done are final. Hand
   in the same version (or another handle of it), program, argument, frontier and reduction each time. REDUCTION, LENGTHS, ARGUMENT_LENGTH,
   PROGRESS, tested in this order; it takes no memory. For a status other than 0 nothing is written, also not `at`. */
uint32_t edgebpf_run_some(edgebpf_version *version, edgebpf_program *program, const uint8_t *argument, size_t argument_length,
                          const uint32_t *frontier, size_t frontier_count, uint32_t reduction, edgebpf_progress *at,
                          uint64_t *values, size_t value_count);

/* The number of each edge, in the order of edgebpf_version_copy. LENGTHS, ARGUMENT_LENGTH. */
uint32_t edgebpf_numbers(edgebpf_version *version, edgebpf_program *program, const uint8_t *argument,
                         size_t argument_length, uint64_t *numbers, size_t number_count);

/* Writes the numbers of the next edges of a frontier's vertices, one vertex after another, targets ascending, as far as there is
   room and the budget goes; `written` is how many. It is done where `at->vertex` is `frontier_count`. `at->total` stays. LENGTHS (a
   frontier of more than 268,435,456 vertices), ARGUMENT_LENGTH, PROGRESS, tested in this order. */
uint32_t edgebpf_numbers_some(edgebpf_version *version, edgebpf_program *program, const uint8_t *argument, size_t argument_length,
                              const uint32_t *frontier, size_t frontier_count, edgebpf_progress *at, uint64_t *numbers,
                              size_t number_count, size_t *written);

/* Writes a number for each pair of a source and a target, from the pair `at->vertex` on, as far as the budget goes, and for one at
   least; it is done where `at->vertex` is `source_count`. A pair need not be an edge: its record has the target's place among the
   source's neighbours, or the source's degree where it is none of them. So a pair that is an edge has the number of that edge.
   `numbers` has one place for each pair. LENGTHS (also of 2^32 pairs and more), ARGUMENT_LENGTH, PROGRESS, tested in this order. */
uint32_t edgebpf_pairs(edgebpf_version *version, edgebpf_program *program, const uint8_t *argument, size_t argument_length,
                       const uint32_t *sources, size_t source_count, const uint32_t *targets, size_t target_count,
                       edgebpf_progress *at, uint64_t *numbers, size_t number_count);

/* The calls before with columns, of which each has a number for each vertex. A record has, after the argument, of each column in turn
   the number of the edge's source and that of its target, eight bytes each, little-endian; of a pair's vertex outside the graph 0. So
   an argument has the record's length less 16 bytes, and less 16 for each column. COLUMNS is tested before ARGUMENT_LENGTH, and the
   other statuses are those of the call without columns. The columns are read during the call alone: nobody writes to them
   meanwhile, and `values` or `numbers` is none of them. */
uint32_t edgebpf_pull(edgebpf_version *version, edgebpf_program *program, const uint8_t *argument, size_t argument_length,
                      const edgebpf_column *columns, size_t column_count, const uint32_t *frontier, size_t frontier_count,
                      uint32_t reduction, uint64_t *values, size_t value_count, edgebpf_totals *totals);
uint32_t edgebpf_pull_some(edgebpf_version *version, edgebpf_program *program, const uint8_t *argument, size_t argument_length,
                           const edgebpf_column *columns, size_t column_count, const uint32_t *frontier, size_t frontier_count,
                           uint32_t reduction, edgebpf_progress *at, uint64_t *values, size_t value_count);
uint32_t edgebpf_numbers_of(edgebpf_version *version, edgebpf_program *program, const uint8_t *argument, size_t argument_length,
                            const edgebpf_column *columns, size_t column_count, const uint32_t *frontier, size_t frontier_count,
                            edgebpf_progress *at, uint64_t *numbers, size_t number_count, size_t *written);
uint32_t edgebpf_pairs_of(edgebpf_version *version, edgebpf_program *program, const uint8_t *argument, size_t argument_length,
                          const edgebpf_column *columns, size_t column_count, const uint32_t *sources, size_t source_count,
                          const uint32_t *targets, size_t target_count, edgebpf_progress *at, uint64_t *numbers, size_t number_count);

/* A push: a run whose numbers go to the values of the edges' targets. `values` has one for each vertex of the graph. The number of each edge of
   the frontier's vertices is reduced into the value of its target; a vertex that no such edge leads to keeps its value. A vertex that stands
   twice in the frontier counts twice. REDUCTION, LENGTHS (also of a frontier of more than 268,435,456 vertices), COLUMNS, ARGUMENT_LENGTH, and of
   `edgebpf_push_some` PROGRESS, tested in this order; for a status other than 0 nothing is written. `edgebpf_push_some` goes on as
   `edgebpf_run_some` does: it is done where `at->vertex` is `frontier_count`, and `values` keeps its content from call to call. */
uint32_t edgebpf_push(edgebpf_version *version, edgebpf_program *program, const uint8_t *argument, size_t argument_length,
                      const edgebpf_column *columns, size_t column_count, const uint32_t *frontier, size_t frontier_count,
                      uint32_t reduction, uint64_t *values, size_t value_count, edgebpf_totals *totals);
uint32_t edgebpf_push_some(edgebpf_version *version, edgebpf_program *program, const uint8_t *argument, size_t argument_length,
                           const edgebpf_column *columns, size_t column_count, const uint32_t *frontier, size_t frontier_count,
                           uint32_t reduction, edgebpf_progress *at, uint64_t *values, size_t value_count);

/* So many vertices of a range are written down at a time. */
enum { EDGEBPF_WINDOW = 1024 };

/* What two parts of a run reduce to together. */
static inline uint64_t edgebpf_join(uint32_t reduction, uint64_t one, uint64_t other) {
    if (reduction == EDGEBPF_SUM) return one + other;
    return (one < other) == (reduction == EDGEBPF_MIN) ? one : other;
}

/* Goes on with a run over the vertices from `first` on, as many as there are values, as edgebpf_pull_some does with a frontier that has them in
   this order: no array of them is needed, but for EDGEBPF_WINDOW numbers on the stack. At the beginning `at` is 0 but for its budget, and
   UINT64_MAX is enough for all. Statuses are those of edgebpf_pull_some; LENGTHS also for a range past 2^32, and here it is tested
   before EMPTY and OTHER_KIND. This function is C, and only tested; the calls that it makes are proved. */
static inline uint32_t edgebpf_pull_range(edgebpf_version *version, edgebpf_program *program, const uint8_t *argument,
                                          size_t argument_length, const edgebpf_column *columns, size_t column_count, uint32_t first,
                                          uint32_t reduction, edgebpf_progress *at, uint64_t *values, size_t value_count) {
    uint32_t window[EDGEBPF_WINDOW], status;
    if (reduction <= EDGEBPF_MAX && (value_count > EDGEBPF_MOST_VERTICES || first > ((uint64_t)1 << 32) - value_count)) return EDGEBPF_LENGTHS;
    do {
        const int is_past = at->vertex > value_count, has_begun = at->vertex || at->place;
        size_t count = is_past ? 0 : value_count - at->vertex;
        uint64_t *next = is_past ? values : values + at->vertex;
        if (count > EDGEBPF_WINDOW) count = EDGEBPF_WINDOW;
        for (size_t place = 0; place < count; place++) window[place] = first + at->vertex + (uint32_t)place;
        /* Of the edges so far those of the window's first vertex belong to its part, which has their value. */
        const uint64_t begun = at->place && count ? *next : 0, none = reduction == EDGEBPF_MIN ? UINT64_MAX : 0;
        edgebpf_progress part = {at->budget, at->place, begun, 0, is_past ? 1 : at->place};
        status = edgebpf_pull_some(version, program, argument, argument_length, columns, column_count, window, count, reduction, &part,
                                   next, count);
        if (status != EDGEBPF_DONE) return status;
        const uint64_t before = !has_begun ? none : reduction == EDGEBPF_SUM ? at->total - begun : at->total;
        at->edges = (has_begun ? at->edges - at->place : 0) + part.edges;
        at->total = edgebpf_join(reduction, before, part.total);
        at->budget = part.budget, at->vertex += part.vertex, at->place = part.place;
    } while (at->budget && at->vertex < value_count);
    return EDGEBPF_DONE;
}

/* Whether what somebody computed of a version, by whatever means, is right: `answer` is 1, or else 0. All four are proved to be exact, take no
   memory, and go once over the edges.
   Of a search from `root`: for each vertex a level, UINT32_MAX where it was not found, and a parent, from which an edge leads to it one level
   further. A 1 says that each level is the length of a shortest way from the root, and that there is none to the others. What the root and
   vertices that were not found have as parents does not matter.
   Of components, whatever the direction of edges: for each vertex a label, and for one that is not its own label a parent, to which an edge
   joins it in any direction, and one step more than the parent has. A 1 says that each label is the least vertex of a component.
   Of cores: for each vertex its core number, and its place in an order. Where vertices are taken out one after another, those of lower numbers
   first and those of one number by their places, each then has no more edges to others than its number. A 1 says that each vertex belongs to a
   set of vertices, of which each has at least so many edges to others of it as the number says, and to no such set for more. In a graph with
   an edge back for each edge these are its cores.
   Of an independent set: a mark for each vertex, 0 for those outside. A 1 says that no edge joins two of the set, and that an edge leads from
   each vertex outside to one of it, so that none can be added. Edges from a vertex to itself do not matter, to cores neither.
   Arrays of another length than the graph has vertices are no answer: 0. */
uint32_t edgebpf_is_search(edgebpf_version *version, uint32_t root, const uint32_t *levels, size_t level_count, const uint32_t *parents,
                           size_t parent_count, uint32_t *answer);
uint32_t edgebpf_are_components(edgebpf_version *version, const uint32_t *labels, size_t label_count, const uint32_t *parents,
                                size_t parent_count, const uint32_t *steps, size_t step_count, uint32_t *answer);
uint32_t edgebpf_are_cores(edgebpf_version *version, const uint32_t *numbers, size_t number_count, const uint32_t *places, size_t place_count,
                           uint32_t *answer);
uint32_t edgebpf_is_independent_set(edgebpf_version *version, const uint8_t *marks, size_t mark_count, uint32_t *answer);

/* Drops what a handle holds, and leaves it empty. An empty one may be closed. */
void edgebpf_close(edgebpf_handle *handle);

static inline void edgebpf_close_store(edgebpf_store *store) { edgebpf_close(&store->handle); }
static inline void edgebpf_close_version(edgebpf_version *version) { edgebpf_close(&version->handle); }
static inline void edgebpf_close_program(edgebpf_program *program) { edgebpf_close(&program->handle); }

#ifdef __cplusplus
}
#endif

#endif
