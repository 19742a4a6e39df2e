/* The algorithms of edgebpf_algorithms.h on a graph of eight vertices whose answers were found by hand, over its copy and over its slices; and
   on random graphs with a hub, beside searches, counts and parts that are made in the plainest way. */
#include "check.h"
#include "../edgebpf_algorithms.h"

enum { VERTICES = 8, EDGES = 12 };
static edgebpf_store store;
static edgebpf_version pin;
static edgebpf_lender lender;
static uint64_t starts[VERTICES + 1];
static uint32_t targets[EDGES];
static const edgebpf_graph graph = {starts, targets, VERTICES};

static void apply(edgebpf_store *to, const uint32_t *from, const uint32_t *there, size_t count, int is_out) {
    edgebpf_change change;
    uint8_t *removes = malloc(count + 1);
    CHECK(removes);
    memset(removes, is_out, count);
    CHECK(edgebpf_store_apply(to, 0, from, count, there, count, removes, count, &change) == EDGEBPF_DONE);
    free(removes);
}

/* 0-1, 0-2, 1-2, 2-3, 3-4 and 5-6, in both directions. */
static void makes_the_graph(void) {
    const uint32_t one[] = {0, 0, 1, 2, 3, 5, 1, 2, 2, 3, 4, 6}, other[] = {1, 2, 2, 3, 4, 6, 0, 0, 1, 2, 3, 5};
    CHECK(edgebpf_store_new(VERTICES, &store) == EDGEBPF_DONE);
    apply(&store, one, other, EDGES, 0);
    CHECK(edgebpf_store_pin(&store, &pin) == EDGEBPF_DONE);
    CHECK(edgebpf_version_copy(&pin, starts, VERTICES + 1, targets, EDGES) == EDGEBPF_DONE);
    lender = edgebpf_lender_of(&pin);
}

#define SAME(found, ...)                                                          \
    do {                                                                          \
        const __typeof__(*(found)) wanted_[] = {__VA_ARGS__};                     \
        for (size_t i_ = 0; i_ < COUNT(wanted_); i_++) CHECK((found)[i_] == wanted_[i_]); \
    } while (0)
#define NONE EDGEBPF_NO_VERTEX

/* Over a version or, without one, over its copy. */
static void search(edgebpf_lender *version, const edgebpf_graph *copy, edgebpf_queue *queue, size_t count, uint32_t most, uint32_t *levels,
                   uint32_t *parents) {
    if (version) edgebpf_search_lent(version, queue, count, most, levels, parents);
    else edgebpf_search_from(copy, queue, count, most, levels, parents);
}

static void searches(void) {
    for (int is_lent = 0; is_lent < 2; is_lent++) {
        for (size_t count = 1; count < 4; count++) {
            uint32_t levels[VERTICES], parents[VERTICES], found[VERTICES] = {4, 5};
            edgebpf_queue queue = {found, 0, 2};
            memset(levels, 0xff, sizeof levels), memset(parents, 0xff, sizeof parents);
            levels[4] = levels[5] = 0, parents[4] = 4, parents[5] = 5;
            while (queue.at < queue.end)
                search(is_lent ? &lender : NULL, &graph, &queue, count, 2, levels, parents);
            SAME(levels, NONE, NONE, 2, 1, 0, 0, 1, NONE);
            queue.at = 0;
            search(is_lent ? &lender : NULL, &graph, &queue, VERTICES, VERTICES, levels, parents);
            SAME(levels, 3, 3, 2, 1, 0, 0, 1, NONE);
            SAME(parents, 2, 2, 3, 4, 4, 5, 5, NONE);
            CHECK(queue.at == 7 && queue.end == 7);
        }
    }
}

static void joins(void) {
    uint32_t up[VERTICES];
    for (uint32_t vertex = 0; vertex < VERTICES; vertex++) up[vertex] = vertex;
    edgebpf_join_edges(&graph, 0, 3, up);
    edgebpf_join_edges(&graph, 3, VERTICES, up);
    edgebpf_name_parts(VERTICES, up);
    SAME(up, 0, 0, 0, 0, 0, 5, 5, 7);
    const uint32_t one[] = {7}, other[] = {6}, asked[] = {7, 1};
    uint32_t parts[2];
    edgebpf_join_pairs(one, other, 1, up);
    edgebpf_find_parts(up, asked, 2, parts);
    SAME(parts, 5, 0);
}

static void ranks_vertices(void) {
    const uint64_t whole = (uint64_t)1 << 40;
    uint64_t ranks[VERTICES], gives[VERTICES];
    for (int vertex = 0; vertex < VERTICES; vertex++) ranks[vertex] = whole / VERTICES;
    for (int round = 0; round < 3; round++) {
        uint64_t kept = edgebpf_fixed_gives(&graph, 0, VERTICES, 85, ranks, gives);
        for (int vertex = 0; vertex < VERTICES; vertex++) ranks[vertex] = (whole * 15 + 85 * kept) / (100 * VERTICES);
        edgebpf_fixed_spread(&graph, 0, VERTICES, gives, ranks);
        if (round == 0)
            SAME(ranks, 132571323869, 132571323869, 210453397502, 190982879095, 93630287052, 152041842278, 152041842278, 35218731827);
    }
    SAME(ranks, 144670235555, 144670235555, 212001722025, 174727087781, 92721979761, 153758252137, 153758252137, 23203862806);
    double floats[2][VERTICES], shares[VERTICES], change = 1;
    int round = 0;
    for (int vertex = 0; vertex < VERTICES; vertex++) floats[0][vertex] = 1.0 / VERTICES;
    for (; change > 1e-14; round++) {
        double *old = floats[round % 2], *new = floats[(round + 1) % 2];
        double kept = edgebpf_rank_gives(&graph, 0, VERTICES, old, shares);
        memset(new, 0, sizeof floats[0]);
        edgebpf_rank_spread(&graph, 0, VERTICES, shares, new);
        change = edgebpf_rank_finish(0, VERTICES, 0.85, (0.15 + 0.85 * kept) / VERTICES, NULL, old, new);
    }
    const double wanted[] = {0.134141110, 0.134141110, 0.198183943, 0.148670538, 0.084163999, 0.139860140, 0.139860140, 0.020979021};
    for (int vertex = 0; vertex < VERTICES; vertex++) {
        double apart = floats[round % 2][vertex] - wanted[vertex];
        CHECK(-1e-9 < apart && apart < 1e-9);
    }
}

/* Of a mirrored graph. */
static void counts_neighbours(void) {
    uint64_t met[VERTICES], up_starts[VERTICES + 1] = {0}, each[VERTICES] = {0};
    uint32_t degrees[VERTICES], cores[VERTICES], order[VERTICES], place[VERTICES], bins[VERTICES + 2], up_targets[EDGES], marks[VERTICES];
    memcpy(met, starts, sizeof met);
    CHECK(edgebpf_is_mirrored(&graph, 0, VERTICES, met));
    const uint64_t one_way[] = {0, 1, 1};
    const uint32_t there[] = {1};
    const edgebpf_graph directed = {one_way, there, 2};
    memcpy(met, one_way, 2 * sizeof *met);
    CHECK(!edgebpf_is_mirrored(&directed, 0, 2, met));
    /* Round a cycle as many edges lead to each vertex as from it. */
    const uint64_t round_starts[] = {0, 1, 2, 3};
    const uint32_t round_targets[] = {1, 2, 0};
    const edgebpf_graph cycle = {round_starts, round_targets, 3};
    memcpy(met, round_starts, 3 * sizeof *met);
    CHECK(!edgebpf_is_mirrored(&cycle, 0, 3, met));
    CHECK(edgebpf_degrees(&graph, 0, VERTICES, degrees) == 3);
    SAME(degrees, 2, 2, 3, 2, 1, 1, 1, 0);
    memcpy(cores, degrees, sizeof cores);
    edgebpf_order_by_degree(VERTICES, cores, 3, order, place, bins);
    SAME(order, 7, 4, 5, 6, 0, 1, 3, 2);
    SAME(bins, 0, 1, 4, 7, 8);
    edgebpf_cores(&graph, 0, VERTICES, cores, order, place, bins);
    SAME(cores, 2, 2, 2, 1, 1, 1, 1, 0);
    edgebpf_count_up(&graph, 0, VERTICES, degrees, up_starts);
    edgebpf_write_up(&graph, 0, 5, degrees, up_starts, up_targets);
    edgebpf_write_up(&graph, 5, VERTICES, degrees, up_starts, up_targets);
    CHECK(up_starts[VERTICES] == EDGES / 2);
    const edgebpf_graph up = {up_starts, up_targets, VERTICES};
    memset(marks, 0xff, sizeof marks);
    edgebpf_triangles(&up, 0, VERTICES, marks, each);
    SAME(each, 1, 1, 1, 0, 0, 0, 0, 0);
    const uint32_t taken[] = {3, 0, 1, 2, 4, 5, 6, 7};
    uint8_t states[VERTICES] = {0};
    edgebpf_take_independent(&graph, taken, 3, states);
    edgebpf_take_independent(&graph, taken + 3, VERTICES - 3, states);
    SAME(states, 1, 2, 2, 1, 2, 1, 2, 1);
    uint32_t labels[VERTICES], votes[VERTICES] = {0};
    for (uint32_t vertex = 0; vertex < VERTICES; vertex++) labels[vertex] = vertex;
    CHECK(edgebpf_label_round(&graph, 0, VERTICES, labels, votes) == 5);
    CHECK(edgebpf_label_round(&graph, 0, VERTICES, labels, votes) == 0);
    SAME(labels, 1, 1, 1, 1, 1, 6, 6, 7);
}

static void scores_pairs(void) {
    const uint32_t one[] = {0, 0, 1, 7, 5}, other[] = {1, 3, 3, 7, 5};
    uint32_t spare[2 * VERTICES], found[VERTICES];
    double scores[5], score[VERTICES] = {0};
    edgebpf_pair_scores(&lender, EDGEBPF_COMMON, one, other, 5, NULL, VERTICES, spare, scores);
    SAME(scores, 1, 1, 1, 0, 1);
    edgebpf_pair_scores(&lender, EDGEBPF_JACCARD, one, other, 5, NULL, VERTICES, spare, scores);
    SAME(scores, 1.0 / 3, 1.0 / 3, 1.0 / 3, 0, 1);
    edgebpf_pair_scores(&lender, EDGEBPF_ALLOCATION, one, other, 5, NULL, VERTICES, spare, scores);
    SAME(scores, 1.0 / 3, 1.0 / 3, 1.0 / 3, 0, 1);
    edgebpf_pair_scores(&lender, EDGEBPF_ADAMIC_ADAR, one, other, 5, NULL, VERTICES, spare, scores);
    CHECK(scores[0] > 0.91 && scores[0] < 0.92 && scores[3] == 0 && scores[4] == 0);
    for (int twice = 0; twice < 2; twice++) {
        CHECK(edgebpf_two_steps(&lender, EDGEBPF_COMMON, 0, VERTICES, spare, score, found, scores) == 1);
        CHECK(found[0] == 3 && scores[0] == 1);
    }
    uint8_t answers[5];
    edgebpf_have_edges(&lender, one, other, 5, answers);
    SAME(answers, 1, 0, 0, 0, 0);
}

/* An empty handle is told, and what was asked for is not there. */
static void tells_an_empty_handle(void) {
    edgebpf_version none = {{0}};
    edgebpf_lender broken = edgebpf_lender_of(&none);
    const uint32_t one[] = {0}, other[] = {1};
    uint8_t answer = 7;
    edgebpf_have_edges(&broken, one, other, 1, &answer);
    CHECK(broken.status == EDGEBPF_EMPTY && answer == 0);
    broken.status = EDGEBPF_DONE;
    uint32_t levels[] = {0, NONE}, parents[] = {0, NONE}, found[2] = {0};
    edgebpf_queue queue = {found, 0, 1};
    edgebpf_search_lent(&broken, &queue, 2, 2, levels, parents);
    CHECK(queue.at == 1 && queue.end == 1 && broken.status == EDGEBPF_EMPTY);
}

/* The part of 0 without 0-2, 1-2 and 2-3 falls into 0-1, 2, and 3-4. */
static void splits(void) {
    const uint32_t one[] = {0, 1, 2, 2, 2, 3}, other[] = {2, 2, 3, 0, 1, 2}, seeds[] = {0, 1, 2, 3};
    edgebpf_store branch = {{0}};
    edgebpf_version later = {{0}};
    CHECK(edgebpf_store_of(&pin, &branch) == EDGEBPF_DONE);
    apply(&branch, one, other, 6, 1);
    CHECK(edgebpf_store_pin(&branch, &later) == EDGEBPF_DONE);
    edgebpf_lender from = edgebpf_lender_of(&later);
    for (size_t most = 1; most < 3; most++) {
        edgebpf_search searches[4];
        uint32_t ring[4], owner[VERTICES], next[VERTICES], parts[VERTICES] = {0, 0, 0, 0, 0, 5, 5, 7}, up[2 * VERTICES], least[2 * VERTICES], labels[VERTICES];
        memset(owner, 0xff, sizeof owner);
        for (uint32_t number = 0; number < 2 * VERTICES; number++) up[number] = number;
        edgebpf_split split = {searches, ring, owner, next, 0, 0, 0};
        edgebpf_split_begin(&split, seeds, 4);
        while (split.live > 1) edgebpf_split_go_on(&split, &from, most);
        CHECK(edgebpf_split_end(&split, VERTICES, parts) == 2);
        edgebpf_label_parts(VERTICES, VERTICES + 2, parts, up, least, labels);
        SAME(labels, 0, 0, 2, 3, 3, 5, 5, 7);
        SAME(owner, NONE, NONE, NONE, NONE, NONE, NONE, NONE, NONE);
    }
    const uint32_t low[] = {0, 0}, high[] = {1, 2};
    int64_t each[VERTICES] = {1, 1, 1};
    uint32_t spare[2 * VERTICES];
    CHECK(edgebpf_triangles_of(&lender, low, high, 2, 0, 2, -1, VERTICES, spare, each) == 1);
    SAME(each, 0, 0, 0, 0, 0, 0, 0, 0);
    edgebpf_close_version(&later);
    edgebpf_close_store(&branch);
}

/* Ranks that lack as much as is pushed on: they become those that were found by rounds. */
static void pushes(void) {
    double ranks[VERTICES] = {0}, residuals[VERTICES], sum = 0;
    uint32_t degrees[VERTICES] = {2, 2, 3, 2, 1, 1, 1, 0}, queue[VERTICES], touched[VERTICES];
    uint8_t queued[VERTICES] = {0}, is_touched[VERTICES];
    edgebpf_residuals state = {0.85, 1e-13, degrees, ranks, residuals, queue, touched, queued, is_touched, VERTICES, 0, 0, VERTICES, 0};
    for (uint32_t vertex = 0; vertex < VERTICES; vertex++) residuals[vertex] = 0.15 / VERTICES, touched[vertex] = vertex, is_touched[vertex] = 1;
    edgebpf_queue_residuals(&state, 1);
    size_t pushed = 0;
    while (state.count > 0) pushed += edgebpf_push_residuals(&state, &lender, 1, 3);
    CHECK(pushed > 100 && state.edges > pushed / 2 && lender.status == EDGEBPF_DONE);
    for (int vertex = 0; vertex < VERTICES; vertex++) sum += ranks[vertex];
    CHECK(ranks[2] / sum > 0.198183942 && ranks[2] / sum < 0.198183944);
    /* What 4 gives goes to its only target. */
    const uint32_t changed[] = {4};
    double before = residuals[3];
    edgebpf_move_residuals(&state, &lender, changed, 1, -1);
    CHECK(residuals[3] < before - 0.8 * ranks[4]);
}

/* Lists that are lent by more than one call: 0 leads to all others, and 1 to each third. */
static void reads_long_lists(void) {
    enum { LONG = 9000 };
    static uint32_t sources[LONG], ends[LONG], levels[LONG], parents[LONG], found[LONG], spare[2 * LONG];
    static int64_t each[LONG];
    static double score[LONG], numbers[LONG];
    edgebpf_store large = {{0}};
    edgebpf_version version = {{0}};
    CHECK(edgebpf_store_new(LONG, &large) == EDGEBPF_DONE);
    for (uint32_t vertex = 1; vertex < LONG; vertex++) ends[vertex - 1] = vertex;
    apply(&large, sources, ends, LONG - 1, 0);
    for (uint32_t place = 0; place < LONG / 3; place++) sources[place] = 1, ends[place] = 3 * place;
    apply(&large, sources, ends, LONG / 3, 0);
    CHECK(edgebpf_store_pin(&large, &version) == EDGEBPF_DONE);
    edgebpf_slice slices[100];
    size_t lent;
    CHECK(edgebpf_version_lend(&version, 0, slices, 100, &lent) == EDGEBPF_DONE && lent > 64);
    edgebpf_lender from = edgebpf_lender_of(&version);
    memset(levels, 0xff, sizeof levels), memset(parents, 0xff, sizeof parents);
    levels[0] = parents[0] = found[0] = 0;
    const uint32_t zero[] = {0}, one[] = {1};
    edgebpf_queue queue = {found, 0, 1};
    edgebpf_search_lent(&from, &queue, 1, LONG, levels, parents);
    CHECK(queue.end == LONG && levels[LONG - 1] == 1);
    edgebpf_pair_scores(&from, EDGEBPF_COMMON, zero, one, 1, NULL, LONG, spare, numbers);
    CHECK(numbers[0] == LONG / 3 - 1);
    CHECK(edgebpf_two_steps(&from, EDGEBPF_COMMON, 1, LONG, spare, score, found, numbers) == LONG - LONG / 3 - 1);
    CHECK(edgebpf_triangles_of(&from, zero, one, 1, 0, 1, 1, LONG, spare, each) == LONG / 3 - 1 && each[LONG - 3] == 1);
    edgebpf_close_version(&version);
    edgebpf_close_store(&large);
}

/* ---- random graphs ---- */

enum { MOST = 1200, MOST_EDGES = 9000 };
static uint8_t has[MOST][MOST];

static void mirror(edgebpf_store *to, uint32_t one, uint32_t other, int is_out) {
    const uint32_t sources[] = {one, other}, ends[] = {other, one};
    apply(to, sources, ends, 2, is_out);
    has[one][other] = has[other][one] = !is_out;
}

/* Levels and least parents of a search, and parts, by looking at all pairs again and again. */
static void looks_at_pairs(uint32_t count, const uint32_t *levels, const uint32_t *parents, const uint32_t *parts) {
    static uint32_t wanted[MOST], labels[MOST];
    for (uint32_t vertex = 0; vertex < count; vertex++) wanted[vertex] = vertex ? NONE : 0, labels[vertex] = vertex;
    for (int is_changed = 1; is_changed;) {
        is_changed = 0;
        for (uint32_t one = 0; one < count; one++)
            for (uint32_t other = 0; other < count; other++) {
                if (!has[one][other]) continue;
                if (wanted[one] != NONE && wanted[one] + 1 < wanted[other]) wanted[other] = wanted[one] + 1, is_changed = 1;
                if (labels[one] < labels[other]) labels[other] = labels[one], is_changed = 1;
            }
    }
    for (uint32_t vertex = 0; vertex < count; vertex++) {
        uint32_t parent = vertex ? NONE : 0;
        for (uint32_t one = 0; vertex && wanted[vertex] != NONE && parent == NONE; one++)
            if (has[one][vertex] && wanted[one] + 1 == wanted[vertex]) parent = one;
        CHECK(levels[vertex] == wanted[vertex] && parents[vertex] == parent && parts[vertex] == labels[vertex]);
    }
}

static void compares_on_random_graphs(void) {
    static uint32_t levels[MOST], parents[MOST], found[MOST], up[MOST], chosen[MOST_EDGES * 2], spare[2 * MOST];
    static uint64_t begins[MOST + 1];
    static int64_t each[MOST];
    for (int number = 0; number < 12; number++) {
        edgebpf_store random = {{0}};
        edgebpf_version version = {{0}};
        edgebpf_info info;
        uint32_t count = number % 4 == 3 ? MOST : 1 + random_below(30);
        memset(has, 0, sizeof has);
        CHECK(edgebpf_store_new(count, &random) == EDGEBPF_DONE);
        for (uint32_t edge = 0; edge < count; edge++) mirror(&random, random_below(count), random_below(1 + random_below(count)), 0);
        /* A list of so many lies in a tree. */
        for (uint32_t other = 0; count == MOST && other < MOST - 40; other++) mirror(&random, 7, other, 0);
        for (uint32_t edge = 0; edge < count / 4; edge++) mirror(&random, random_below(count), random_below(count), 1);
        CHECK(edgebpf_store_pin(&random, &version) == EDGEBPF_DONE && edgebpf_version_info(&version, &info) == EDGEBPF_DONE && info.edges <= COUNT(chosen));
        CHECK(edgebpf_version_copy(&version, begins, count + 1, chosen, info.edges) == EDGEBPF_DONE);
        const edgebpf_graph all = {begins, chosen, count};
        edgebpf_lender from = edgebpf_lender_of(&version);
        for (int is_lent = 0; is_lent < 2; is_lent++) {
            for (uint32_t vertex = 0; vertex < count; vertex++) levels[vertex] = parents[vertex] = NONE, up[vertex] = vertex;
            levels[0] = parents[0] = found[0] = 0;
            edgebpf_queue queue = {found, 0, 1};
            while (queue.at < queue.end) search(is_lent ? &from : NULL, &all, &queue, 7, count, levels, parents);
            edgebpf_join_edges(&all, 0, count, up);
            edgebpf_name_parts(count, up);
            looks_at_pairs(count, levels, parents, up);
        }
        /* Triangles with 0 or 7: those of the edges of it. */
        uint32_t ends[2][MOST], many = 0, corner = count == MOST ? 7 : 0;
        uint64_t wanted = 0;
        memset(each, 0, sizeof each);
        for (uint32_t other = 0; other < count; other++) {
            if (other == corner || !has[corner][other]) continue;
            ends[0][many] = corner < other ? corner : other, ends[1][many++] = corner < other ? other : corner;
            for (uint32_t third = other + 1; third < count; third++) wanted += third != corner && has[corner][third] && has[other][third];
        }
        /* Those below the corner come first, and so the list ascends. */
        CHECK(edgebpf_triangles_of(&from, ends[0], ends[1], many, 0, many, 1, count, spare, each) == wanted && each[corner] == (int64_t)wanted);
        CHECK(from.status == EDGEBPF_DONE);
        edgebpf_close_version(&version);
        edgebpf_close_store(&random);
    }
}

int main(void) {
    makes_the_graph();
    searches();
    joins();
    ranks_vertices();
    counts_neighbours();
    scores_pairs();
    tells_an_empty_handle();
    splits();
    pushes();
    reads_long_lists();
    compares_on_random_graphs();
    edgebpf_close_version(&pin);
    edgebpf_close_store(&store);
    puts("algorithms, by hand and on 12 random graphs");
    return 0;
}
