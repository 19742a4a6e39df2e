/* Graph algorithms for edgebpf: over a copy of a version's edges, and over the slices that a version lends. They are tested, and not
   proved. docs/ALGORITHMS.md says what each answers; the packages for Python and Rust have the loops around these functions. */
#ifndef EDGEBPF_ALGORITHMS_H
#define EDGEBPF_ALGORITHMS_H

#include "edgebpf.h"

#ifdef __cplusplus
extern "C" {
#endif

/* No function here takes memory, keeps anything, or writes to a graph. Each does a piece of work on arrays of its caller and returns,
   so a host may show between two pieces how far it is, or make no further call. Where `from` and `to` are parameters, the pieces go from
   0 to the number of vertices, ascending. Nothing is checked: each vertex that is handed in is below the number of vertices, and
   arrays are as long as said, or have a place for each vertex. */

/* The level, parent or owner of a vertex that has none. */
#define EDGEBPF_NO_VERTEX 0xffffffffu

/* All edges of a version, as edgebpf_version_copy writes them. */
typedef struct edgebpf_graph { const uint64_t *starts; const uint32_t *targets; uint32_t vertices; } edgebpf_graph;

/* A version, and the calls by which its lists are read. `status` is 0 until one of these calls fails, which happens only if the handle is
   empty or of another kind: then it is that call's status, and the answer is of no use. */
typedef struct edgebpf_lender {
    uint32_t (*lend_from)(edgebpf_version *version, uint32_t vertex,
                          uint32_t place, edgebpf_slice *slices,
                          size_t room, size_t *lent);
    uint32_t (*degree)(edgebpf_version *version, uint32_t vertex,
                       uint32_t *count);
    uint32_t (*has_edge)(edgebpf_version *version, uint32_t source,
                         uint32_t target, uint32_t *answer);
    edgebpf_version *version;
    uint32_t status;
} edgebpf_lender;

static inline edgebpf_lender edgebpf_lender_of(edgebpf_version *version) {
    edgebpf_lender lender = {edgebpf_version_lend_from, edgebpf_version_degree, edgebpf_version_has_edge, version, EDGEBPF_DONE};
    return lender;
}

/* ---- breadth first search ---- */

/* The vertices that a search has found: those from `at` to below `end` have not been followed yet. There is room for all vertices. */
typedef struct edgebpf_queue { uint32_t *vertices; size_t at, end; } edgebpf_queue;

/* Follows the edges of at most `count` vertices of the queue. The search is done once `at` is `end`. What is found gets the next level, and as
   parent the least vertex of the level before that leads to it; vertices of level `most` are not followed. At first the queue has the
   roots, each once, with level 0 and themselves as parents, and all others have EDGEBPF_NO_VERTEX for both. */
void edgebpf_search_from(const edgebpf_graph *graph, edgebpf_queue *queue, size_t count, uint32_t most, uint32_t *levels, uint32_t *parents);
void edgebpf_search_lent(edgebpf_lender *version, edgebpf_queue *queue, size_t count, uint32_t most, uint32_t *levels, uint32_t *parents);

/* ---- components ---- */

/* Joins the parts of both ends of each edge of some vertices. At first up[v] is v. It is never greater, and a part's least vertex is the
   one whose `up` is itself. */
void edgebpf_join_edges(const edgebpf_graph *graph, uint32_t from, uint32_t to, uint32_t *up);

/* The same for pairs. */
void edgebpf_join_pairs(const uint32_t *sources, const uint32_t *targets, size_t count, uint32_t *up);

/* Makes up[v] the least vertex of the part of v, for all vertices. */
void edgebpf_name_parts(uint32_t vertices, uint32_t *up);

/* The part of each of some vertices, by its least vertex. */
void edgebpf_find_parts(uint32_t *up, const uint32_t *vertices, size_t count, uint32_t *parts);

/* ---- PageRank ---- */

/* What each vertex gives to each of its targets: its rank, divided by their number. Returns the ranks of those without targets, summed. */
double edgebpf_rank_gives(const edgebpf_graph *graph, uint32_t from, uint32_t to, const double *ranks, double *gives);

/* Adds to the sum of each target what its sources give. */
void edgebpf_rank_spread(const edgebpf_graph *graph, uint32_t from, uint32_t to, const double *gives, double *sums);

/* Makes ranks of the sums: damping * sum + base * start, where `start` is NULL for 1 each. Returns how far they are from the old ranks in
   all. */
double edgebpf_rank_finish(uint32_t from, uint32_t to, double damping, double base, const double *start, const double *old, double *sums);

/* The same in whole numbers, in which one is 2^40: ranks * damping / (100 * degree), rounded down. `damping` is in hundredths. */
uint64_t edgebpf_fixed_gives(const edgebpf_graph *graph, uint32_t from, uint32_t to, uint32_t damping, const uint64_t *ranks, uint64_t *gives);
void edgebpf_fixed_spread(const edgebpf_graph *graph, uint32_t from, uint32_t to, const uint64_t *gives, uint64_t *sums);

/* ---- graphs that have an edge back for each edge ---- */

/* Whether each edge of some vertices has one back; 1 of all pieces says that all have. `met` begins as a copy of `starts`. */
int edgebpf_is_mirrored(const edgebpf_graph *graph, uint32_t from, uint32_t to, uint64_t *met);

/* Degrees without loops. Returns the greatest. */
uint32_t edgebpf_degrees(const edgebpf_graph *graph, uint32_t from, uint32_t to, uint32_t *degrees);

/* Orders the vertices by degree: `order` has them ascending, place[v] is where v stands, and those of degree d begin at bins[d]. `bins` has
   `most` + 2 places, where no degree is greater than `most`. */
void edgebpf_order_by_degree(uint32_t vertices, const uint32_t *degrees, uint32_t most, uint32_t *order, uint32_t *place, uint32_t *bins);

/* Cores of the vertices at some places of that order. `cores` begins as the degrees, and has the cores of all places before `to`. */
void edgebpf_cores(const edgebpf_graph *graph, uint32_t from, uint32_t to, uint32_t *cores, uint32_t *order, uint32_t *place, uint32_t *bins);

/* The graph of those edges that lead up, by degree and then by number. The first function writes `starts` from starts[from] on, of which
   starts[0] is 0; the second one targets[starts[from]] and so on. */
void edgebpf_count_up(const edgebpf_graph *graph, uint32_t from, uint32_t to, const uint32_t *degrees, uint64_t *starts);
void edgebpf_write_up(const edgebpf_graph *graph, uint32_t from, uint32_t to, const uint32_t *degrees, const uint64_t *starts,
                      uint32_t *targets);

/* Adds to `each` in how many triangles each vertex is, of those triangles whose lowest vertex is one of some vertices of that graph.
   `marks` is all EDGEBPF_NO_VERTEX at first. Pieces may be done in any order, and by several threads with arrays of their own. */
void edgebpf_triangles(const edgebpf_graph *up, uint32_t from, uint32_t to, uint32_t *marks, uint64_t *each);

/* Takes each of some vertices of which no neighbour was taken before. A state is 0 at first, 1 of what is in, 2 of what is out. */
void edgebpf_take_independent(const edgebpf_graph *graph, const uint32_t *order, size_t count, uint8_t *states);

/* ---- labels ---- */

/* Some vertices of a round of label propagation. `votes` is all 0 before and after. Returns how many labels changed. */
size_t edgebpf_label_round(const edgebpf_graph *graph, uint32_t from, uint32_t to, uint32_t *labels, uint32_t *votes);

/* ---- pairs, over a version ---- */

enum { EDGEBPF_COMMON = 0, EDGEBPF_JACCARD = 1, EDGEBPF_ADAMIC_ADAR = 2, EDGEBPF_ALLOCATION = 3 };

/* A score for each pair. `degrees` are those of all vertices, or NULL: then the version is asked for them. `spare` has two places for each
   vertex. */
void edgebpf_pair_scores(edgebpf_lender *version, uint32_t kind, const uint32_t *sources, const uint32_t *targets, size_t count,
                         const uint32_t *degrees, uint32_t vertices, uint32_t *spare, double *scores);

/* The vertices two edges from `vertex`, without it and its targets, and the score of each, in no order; returns how many. `kind` is not
   JACCARD. `score` is all 0 before and after, `found` and `numbers` have room for all vertices, and `spare` two places for each. */
size_t edgebpf_two_steps(edgebpf_lender *version, uint32_t kind, uint32_t vertex, uint32_t vertices, uint32_t *spare, double *score,
                         uint32_t *found, double *numbers);

/* ---- after a batch ---- */

/* Whether each pair is an edge. */
void edgebpf_have_edges(edgebpf_lender *version, const uint32_t *sources, const uint32_t *targets, size_t count, uint8_t *answers);

/* The parts of a part from which edges were taken: searches from all ends of these edges take turns, and join if they meet, until one is
   left. A search that comes to its end before is a part. Each vertex that was found stands in a list of its search, by `next`. */
typedef struct edgebpf_search { uint32_t todo, todo_last, done, done_last, up, place; } edgebpf_search;
typedef struct edgebpf_split { edgebpf_search *searches; uint32_t *ring, *owner, *next; uint32_t count, live, turn; } edgebpf_split;

/* Begins with `count` seeds, each once, all of one part. `searches` and `ring` have a place for each seed, `owner` and `next` for each
   vertex; `owner` is all EDGEBPF_NO_VERTEX before and after. */
void edgebpf_split_begin(edgebpf_split *split, const uint32_t *seeds, uint32_t count);

/* Reads the lists of at most `count` vertices. Returns how many; it is at its end once `split->live` is at most 1. */
size_t edgebpf_split_go_on(edgebpf_split *split, edgebpf_lender *version, size_t count);

/* Ends it at any moment: gives the vertices of each part that was cut off a new number in `parts`, from `fresh` on, and returns how many
   there are. What is left keeps its number. */
uint32_t edgebpf_split_end(edgebpf_split *split, uint32_t fresh, uint32_t *parts);

/* Labels of numbered parts: for each vertex the least of its part. Numbers are below `numbers`, and those whose `up` leads to the same one
   are of one part. `least` has a place for each number. */
void edgebpf_label_parts(uint32_t vertices, uint32_t numbers, const uint32_t *parts, uint32_t *up, uint32_t *least, uint32_t *labels);

/* Adds `sign` to `each` for each vertex of each triangle with an edge of a list, and returns how many triangles there are. The list has each
   edge once, as source < target, and ascends; a triangle with several of its edges is counted by the last of them. Some edges of the list
   at a time. `spare` has two places for each vertex. */
uint64_t edgebpf_triangles_of(edgebpf_lender *version, const uint32_t *sources, const uint32_t *targets, size_t count, size_t from,
                              size_t to, int64_t sign, uint32_t vertices, uint32_t *spare, int64_t *each);

/* Ranks and what they lack. A residual of v is how much its rank is too small by the ranks of the vertices that lead to it. A vertex
   keeps a residual of at most unit * (degree + 1). `queue` is a ring of all vertices, `queued` says who is in it; `touched` lists those
   whose residual changed, `is_touched` says who is in it. */
typedef struct edgebpf_residuals {
    double damping, unit;
    const uint32_t *degrees;
    double *ranks, *residuals;
    uint32_t *queue, *touched;
    uint8_t *queued, *is_touched;
    uint32_t vertices, at, count, touched_count;
    uint64_t edges;
} edgebpf_residuals;

/* Moves the residuals of the targets of some vertices: what these gave by their rows goes (`sign` -1), or comes (1). */
void edgebpf_move_residuals(edgebpf_residuals *state, edgebpf_lender *version, const uint32_t *changed, size_t count, double sign);

/* Puts each touched vertex into the queue whose residual is greater than `times` its limit. */
void edgebpf_queue_residuals(edgebpf_residuals *state, double times);

/* Pushes residuals greater than `times` their limits on, until the queue is empty or those of `count` vertices were pushed. Returns how
   many were; `edges` grows by their edges. */
size_t edgebpf_push_residuals(edgebpf_residuals *state, edgebpf_lender *version, double times, size_t count);

#ifdef __cplusplus
}
#endif
#endif
