/* Graph algorithms for edgebpf. edgebpf_algorithms.h describes each function. They are tested, and not proved. */
#include "edgebpf_algorithms.h"
#include <math.h>
#include <string.h>

enum {
    /* So many slices of a list are lent at once. */
    SLICES = 64,
    /* A list that is so many times longer than another is searched by steps that double. */
    MUCH_LONGER = 8,
    HUNDREDTHS = 100,
    /* What belongs to a target is fetched so many edges before it is used, since the caches seldom have it. */
    AHEAD = 32,
};
static const uint32_t none = EDGEBPF_NO_VERTEX;

/* The edges that end by here have others so far ahead of them. */
static uint64_t last_with_others(const edgebpf_graph *graph) {
    uint64_t edges = graph->starts[graph->vertices];
    return edges > AHEAD ? edges - AHEAD : 0;
}

/* ---- lists of a version ---- */

/* Where a list is read. */
typedef struct reader {
    edgebpf_slice slices[SLICES];
    uint32_t place;
    int is_at_end;
} reader;

/* The next slices of a list, of which `place` neighbours were lent before. Returns how many. */
static size_t next_slices(edgebpf_lender *version, uint32_t vertex, reader *list) {
    size_t lent = 0;
    if (list->is_at_end) return 0;
    uint32_t status = version->lend_from(version->version, vertex, list->place, list->slices, SLICES, &lent);
    if (status) {
        if (!version->status) version->status = status;
        lent = 0;
    }
    for (size_t slice = 0; slice < lent; slice++) list->place += (uint32_t)list->slices[slice].count;
    list->is_at_end = lent < SLICES;
    return lent;
}

/* Does something for each slice of a list. `list` is a reader, and `slice` a pointer to a slice. */
#define EACH_SLICE(version, vertex, list, slice)                                                  \
    list.place = 0, list.is_at_end = 0;                                                           \
    for (size_t lent_; (lent_ = next_slices(version, vertex, &list)) != 0;)                       \
        for (const edgebpf_slice *slice = list.slices; slice < list.slices + lent_; slice++)

/* A list in one piece: lent where it lies in one slice, else copied to `spare`. */
static const uint32_t *whole_list(edgebpf_lender *version, uint32_t vertex, uint32_t *spare, size_t *count) {
    reader list;
    const uint32_t *first = spare;
    size_t slices = 0;
    *count = 0;
    EACH_SLICE(version, vertex, list, slice) {
        if (slices++ == 0) {
            first = slice->at, *count = slice->count;
            continue;
        }
        if (first != spare) memcpy(spare, first, *count * sizeof *spare), first = spare;
        memcpy(spare + *count, slice->at, slice->count * sizeof *spare);
        *count += slice->count;
    }
    return first;
}

/* The first place from `from` on whose number is not less than `least`, in an ascending array. */
static size_t first_from(const uint32_t *numbers, size_t from, size_t count, uint32_t least) {
    size_t low = from, high = from, step = 1;
    while (high < count && numbers[high] < least) low = high + 1, high += step, step *= 2;
    if (high > count) high = count;
    while (low < high) {
        size_t middle = low + (high - low) / 2;
        if (numbers[middle] < least) low = middle + 1;
        else high = middle;
    }
    return low;
}

/* What two ascending lists have in common, one after another. */
typedef struct common { const uint32_t *few, *many; size_t few_count, many_count, few_at, many_at; } common;

static common common_of(const uint32_t *one, size_t one_count, const uint32_t *other, size_t other_count) {
    common both = {one, other, one_count, other_count, 0, 0};
    if (one_count > other_count) both.few = other, both.many = one, both.few_count = other_count, both.many_count = one_count;
    return both;
}

static int next_common(common *both, uint32_t *vertex) {
    int is_long = both->many_count / MUCH_LONGER > both->few_count;
    while (both->few_at < both->few_count) {
        uint32_t wanted = both->few[both->few_at++];
        if (is_long) both->many_at = first_from(both->many, both->many_at, both->many_count, wanted);
        else while (both->many_at < both->many_count && both->many[both->many_at] < wanted) both->many_at++;
        if (both->many_at == both->many_count) return 0;
        if (both->many[both->many_at] == wanted) {
            *vertex = wanted;
            return 1;
        }
    }
    return 0;
}

/* ---- breadth first search ---- */

/* Goes along some edges of a vertex to the next level. */
static inline void follow(const uint32_t *target, size_t count, uint32_t source, uint32_t level, uint32_t *levels, uint32_t *parents,
                          edgebpf_queue *queue) {
    uint32_t *vertices = queue->vertices;
    size_t found = queue->end;
    for (const uint32_t *end = target + count; target < end; target++) {
        uint32_t known = levels[*target];
        if (known == none) levels[*target] = level, parents[*target] = source, vertices[found++] = *target;
        else if (known == level && parents[*target] > source) parents[*target] = source;
    }
    queue->end = found;
}

void edgebpf_search_from(const edgebpf_graph *graph, edgebpf_queue *queue, size_t count, uint32_t most, uint32_t *levels, uint32_t *parents) {
    for (size_t done = 0; done < count && queue->at < queue->end; done++) {
        uint32_t vertex = queue->vertices[queue->at++], level = levels[vertex];
        uint64_t start = graph->starts[vertex];
        if (level < most) follow(graph->targets + start, graph->starts[vertex + 1] - start, vertex, level + 1, levels, parents, queue);
    }
}

void edgebpf_search_lent(edgebpf_lender *version, edgebpf_queue *queue, size_t count, uint32_t most, uint32_t *levels, uint32_t *parents) {
    reader list;
    for (size_t done = 0; done < count && queue->at < queue->end; done++) {
        uint32_t vertex = queue->vertices[queue->at++], level = levels[vertex];
        if (level >= most) continue;
        EACH_SLICE(version, vertex, list, slice) follow(slice->at, slice->count, vertex, level + 1, levels, parents, queue);
    }
}

/* ---- components ---- */

/* Joins two parts, as Rem has it: of the two ways up, the one at the greater vertex goes on, and leaves behind it a shorter way. */
static inline void join(uint32_t *up, uint32_t one, uint32_t other) {
    while (up[one] != up[other]) {
        if (up[one] < up[other]) {
            uint32_t before = one;
            one = other, other = before;
        }
        uint32_t next = up[one];
        up[one] = up[other];
        if (next == one) return;
        one = next;
    }
}

static inline uint32_t root_of(uint32_t *up, uint32_t one) {
    while (up[one] != one) one = up[one] = up[up[one]];
    return one;
}

void edgebpf_join_edges(const edgebpf_graph *graph, uint32_t from, uint32_t to, uint32_t *up) {
    uint64_t last = last_with_others(graph);
    for (uint32_t vertex = from; vertex < to; vertex++) {
        uint64_t end = graph->starts[vertex + 1];
        for (uint64_t edge = graph->starts[vertex]; edge < end; edge++) {
            if (end <= last) __builtin_prefetch(&up[graph->targets[edge + AHEAD]], 1);
            join(up, vertex, graph->targets[edge]);
        }
    }
}

void edgebpf_join_pairs(const uint32_t *sources, const uint32_t *targets, size_t count, uint32_t *up) {
    for (size_t i = 0; i < count; i++) join(up, sources[i], targets[i]);
}

void edgebpf_name_parts(uint32_t vertices, uint32_t *up) {
    /* No `up` is greater than its vertex, so it was named before. */
    for (uint32_t vertex = 0; vertex < vertices; vertex++) up[vertex] = up[up[vertex]];
}

void edgebpf_find_parts(uint32_t *up, const uint32_t *vertices, size_t count, uint32_t *parts) {
    for (size_t i = 0; i < count; i++) parts[i] = root_of(up, vertices[i]);
}

/* ---- PageRank ---- */

double edgebpf_rank_gives(const edgebpf_graph *graph, uint32_t from, uint32_t to, const double *ranks, double *gives) {
    double kept = 0;
    for (uint32_t vertex = from; vertex < to; vertex++) {
        uint64_t degree = graph->starts[vertex + 1] - graph->starts[vertex];
        if (degree == 0) kept += ranks[vertex];
        gives[vertex] = degree == 0 ? 0 : ranks[vertex] / (double)degree;
    }
    return kept;
}

void edgebpf_rank_spread(const edgebpf_graph *graph, uint32_t from, uint32_t to, const double *gives, double *sums) {
    uint64_t last = last_with_others(graph);
    for (uint32_t vertex = from; vertex < to; vertex++) {
        double give = gives[vertex];
        uint64_t end = graph->starts[vertex + 1];
        for (uint64_t edge = graph->starts[vertex]; edge < end; edge++) {
            if (end <= last) __builtin_prefetch(&sums[graph->targets[edge + AHEAD]], 1);
            sums[graph->targets[edge]] += give;
        }
    }
}

double edgebpf_rank_finish(uint32_t from, uint32_t to, double damping, double base, const double *start, const double *old, double *sums) {
    double change = 0;
    for (uint32_t vertex = from; vertex < to; vertex++) {
        sums[vertex] = damping * sums[vertex] + (start ? base * start[vertex] : base);
        change += fabs(sums[vertex] - old[vertex]);
    }
    return change;
}

uint64_t edgebpf_fixed_gives(const edgebpf_graph *graph, uint32_t from, uint32_t to, uint32_t damping, const uint64_t *ranks, uint64_t *gives) {
    uint64_t kept = 0;
    for (uint32_t vertex = from; vertex < to; vertex++) {
        uint64_t degree = graph->starts[vertex + 1] - graph->starts[vertex];
        if (degree == 0) kept += ranks[vertex];
        gives[vertex] = degree == 0 ? 0 : ranks[vertex] * damping / (HUNDREDTHS * degree);
    }
    return kept;
}

void edgebpf_fixed_spread(const edgebpf_graph *graph, uint32_t from, uint32_t to, const uint64_t *gives, uint64_t *sums) {
    uint64_t last = last_with_others(graph);
    for (uint32_t vertex = from; vertex < to; vertex++) {
        uint64_t give = gives[vertex], end = graph->starts[vertex + 1];
        for (uint64_t edge = graph->starts[vertex]; edge < end; edge++) {
            if (end <= last) __builtin_prefetch(&sums[graph->targets[edge + AHEAD]], 1);
            sums[graph->targets[edge]] += give;
        }
    }
}

/* ---- graphs that have an edge back for each edge ---- */

int edgebpf_is_mirrored(const edgebpf_graph *graph, uint32_t from, uint32_t to, uint64_t *met) {
    /* Sources come ascending, and so do the targets of each list: the edges that lead to a vertex are met in the order of its own list. */
    for (uint32_t vertex = from; vertex < to; vertex++) {
        for (uint64_t edge = graph->starts[vertex]; edge < graph->starts[vertex + 1]; edge++) {
            uint32_t target = graph->targets[edge];
            uint64_t back = met[target]++;
            if (back >= graph->starts[target + 1] || graph->targets[back] != vertex) return 0;
        }
    }
    return 1;
}

uint32_t edgebpf_degrees(const edgebpf_graph *graph, uint32_t from, uint32_t to, uint32_t *degrees) {
    uint32_t greatest = 0;
    for (uint32_t vertex = from; vertex < to; vertex++) {
        uint32_t count = 0;
        for (uint64_t edge = graph->starts[vertex]; edge < graph->starts[vertex + 1]; edge++) count += graph->targets[edge] != vertex;
        degrees[vertex] = count;
        if (count > greatest) greatest = count;
    }
    return greatest;
}

void edgebpf_order_by_degree(uint32_t vertices, const uint32_t *degrees, uint32_t most, uint32_t *order, uint32_t *place, uint32_t *bins) {
    memset(bins, 0, ((size_t)most + 2) * sizeof *bins);
    for (uint32_t vertex = 0; vertex < vertices; vertex++) bins[degrees[vertex] + 1]++;
    for (uint32_t degree = 0; degree <= most; degree++) bins[degree + 1] += bins[degree];
    for (uint32_t vertex = 0; vertex < vertices; vertex++) place[vertex] = bins[degrees[vertex]]++, order[place[vertex]] = vertex;
    /* Each bin has moved to where the next one begins. */
    memmove(bins + 1, bins, ((size_t)most + 1) * sizeof *bins);
    bins[0] = 0;
}

/* Batagelj and Zaversnik: the vertex with the fewest neighbours is taken out, and each neighbour that has more moves to the beginning of
   its bin, which is then made shorter by it. */
void edgebpf_cores(const edgebpf_graph *graph, uint32_t from, uint32_t to, uint32_t *cores, uint32_t *order, uint32_t *place, uint32_t *bins) {
    for (uint32_t at = from; at < to; at++) {
        uint32_t vertex = order[at];
        for (uint64_t edge = graph->starts[vertex]; edge < graph->starts[vertex + 1]; edge++) {
            uint32_t target = graph->targets[edge], degree = cores[target];
            if (degree <= cores[vertex]) continue;
            uint32_t first = bins[degree]++, moved = order[first], from_place = place[target];
            order[first] = target, place[target] = first;
            order[from_place] = moved, place[moved] = from_place;
            cores[target] = degree - 1;
        }
    }
}

static inline int leads_up(uint32_t source, uint32_t target, const uint32_t *degrees) {
    return degrees[target] > degrees[source] || (degrees[target] == degrees[source] && target > source);
}

void edgebpf_count_up(const edgebpf_graph *graph, uint32_t from, uint32_t to, const uint32_t *degrees, uint64_t *starts) {
    for (uint32_t vertex = from; vertex < to; vertex++) {
        uint64_t all = starts[vertex];
        for (uint64_t edge = graph->starts[vertex]; edge < graph->starts[vertex + 1]; edge++) all += leads_up(vertex, graph->targets[edge], degrees);
        starts[vertex + 1] = all;
    }
}

void edgebpf_write_up(const edgebpf_graph *graph, uint32_t from, uint32_t to, const uint32_t *degrees, const uint64_t *starts,
                      uint32_t *targets) {
    uint64_t at = starts[from];
    for (uint32_t vertex = from; vertex < to; vertex++)
        for (uint64_t edge = graph->starts[vertex]; edge < graph->starts[vertex + 1]; edge++)
            if (leads_up(vertex, graph->targets[edge], degrees)) targets[at++] = graph->targets[edge];
}

void edgebpf_triangles(const edgebpf_graph *up, uint32_t from, uint32_t to, uint32_t *marks, uint64_t *each) {
    for (uint32_t vertex = from; vertex < to; vertex++) {
        uint64_t begin = up->starts[vertex], end = up->starts[vertex + 1], all = 0;
        if (end - begin < 2) continue;
        for (uint64_t edge = begin; edge < end; edge++) marks[up->targets[edge]] = vertex;
        for (uint64_t edge = begin; edge < end; edge++) {
            uint32_t second = up->targets[edge];
            uint64_t closed = 0;
            for (uint64_t other = up->starts[second]; other < up->starts[second + 1]; other++) {
                uint32_t third = up->targets[other];
                if (marks[third] == vertex) closed++, each[third]++;
            }
            each[second] += closed, all += closed;
        }
        each[vertex] += all;
    }
}

void edgebpf_take_independent(const edgebpf_graph *graph, const uint32_t *order, size_t count, uint8_t *states) {
    for (size_t i = 0; i < count; i++) {
        uint32_t vertex = order[i];
        if (states[vertex]) continue;
        for (uint64_t edge = graph->starts[vertex]; edge < graph->starts[vertex + 1]; edge++) states[graph->targets[edge]] = 2;
        /* After its targets, of which a loop is one. */
        states[vertex] = 1;
    }
}

/* ---- labels ---- */

size_t edgebpf_label_round(const edgebpf_graph *graph, uint32_t from, uint32_t to, uint32_t *labels, uint32_t *votes) {
    size_t changed = 0;
    for (uint32_t vertex = from; vertex < to; vertex++) {
        uint64_t begin = graph->starts[vertex], end = graph->starts[vertex + 1];
        uint32_t most = 0, best = none, own = labels[vertex];
        for (uint64_t edge = begin; edge < end; edge++) {
            uint32_t target = graph->targets[edge], label = labels[target];
            if (target == vertex) continue;
            uint32_t count = ++votes[label];
            if (count > most || (count == most && label < best)) most = count, best = label;
        }
        if (most > 0 && votes[own] < most) labels[vertex] = best, changed++;
        for (uint64_t edge = begin; edge < end; edge++) votes[labels[graph->targets[edge]]] = 0;
    }
    return changed;
}

/* ---- pairs ---- */

static uint32_t degree_of(edgebpf_lender *version, const uint32_t *degrees, uint32_t vertex) {
    uint32_t count = 0;
    if (degrees) return degrees[vertex];
    uint32_t status = version->degree(version->version, vertex, &count);
    if (status && !version->status) version->status = status;
    return count;
}

/* What a common neighbour with so many neighbours counts. */
static double share_of(uint32_t kind, size_t degree) {
    if (kind == EDGEBPF_ALLOCATION) return degree > 0 ? 1 / (double)degree : 0;
    if (kind == EDGEBPF_ADAMIC_ADAR) return degree > 1 ? 1 / log((double)degree) : 0;
    return 1;
}

void edgebpf_pair_scores(edgebpf_lender *version, uint32_t kind, const uint32_t *sources, const uint32_t *targets, size_t count,
                         const uint32_t *degrees, uint32_t vertices, uint32_t *spare, double *scores) {
    const uint32_t *one = spare;
    size_t one_count = 0, other_count = 0;
    for (size_t i = 0; i < count; i++) {
        if (i == 0 || sources[i] != sources[i - 1]) one = whole_list(version, sources[i], spare, &one_count);
        const uint32_t *other = whole_list(version, targets[i], spare + vertices, &other_count);
        common both = common_of(one, one_count, other, other_count);
        double score = 0;
        uint32_t shared;
        while (next_common(&both, &shared))
            score += kind < EDGEBPF_ADAMIC_ADAR ? 1 : share_of(kind, degree_of(version, degrees, shared));
        size_t either = one_count + other_count - (size_t)score;
        scores[i] = kind != EDGEBPF_JACCARD ? score : either ? score / (double)either : 0;
    }
}

size_t edgebpf_two_steps(edgebpf_lender *version, uint32_t kind, uint32_t vertex, uint32_t vertices, uint32_t *spare, double *score,
                         uint32_t *found, double *numbers) {
    size_t near_count, count, met = 0, kept = 0;
    const uint32_t *near = whole_list(version, vertex, spare, &near_count);
    for (size_t i = 0; i < near_count; i++) {
        const uint32_t *list = whole_list(version, near[i], spare + vertices, &count);
        double share = share_of(kind, count);
        if (share == 0) continue;
        for (size_t place = 0; place < count; place++) {
            uint32_t there = list[place];
            if (score[there] == 0) found[met++] = there;
            score[there] += share;
        }
    }
    for (size_t i = 0; i < met; i++) {
        uint32_t there = found[i];
        size_t place = first_from(near, 0, near_count, there);
        int is_near = place < near_count && near[place] == there;
        if (there != vertex && !is_near) found[kept] = there, numbers[kept++] = score[there];
        score[there] = 0;
    }
    return kept;
}

/* ---- after a batch ---- */

void edgebpf_have_edges(edgebpf_lender *version, const uint32_t *sources, const uint32_t *targets, size_t count, uint8_t *answers) {
    for (size_t i = 0; i < count; i++) {
        uint32_t answer = 0;
        uint32_t status = version->has_edge(version->version, sources[i], targets[i], &answer);
        if (status && !version->status) version->status = status;
        answers[i] = answer != 0;
    }
}

/* Two lists of vertices become one, the second after the first. */
static void append(uint32_t *next, uint32_t *first, uint32_t *last, uint32_t more, uint32_t more_last) {
    if (more == none) return;
    if (*last == none) *first = more;
    else next[*last] = more;
    *last = more_last;
}

void edgebpf_split_begin(edgebpf_split *split, const uint32_t *seeds, uint32_t count) {
    split->count = split->live = count, split->turn = 0;
    for (uint32_t i = 0; i < count; i++) {
        edgebpf_search begun = {seeds[i], seeds[i], none, none, i, i};
        split->searches[i] = begun;
        split->ring[i] = split->owner[seeds[i]] = i;
        split->next[seeds[i]] = none;
    }
}

/* A search takes no more turns. */
static void take_from_ring(edgebpf_split *split, uint32_t search) {
    uint32_t place = split->searches[search].place, last = split->ring[--split->live];
    split->ring[place] = last, split->searches[last].place = place;
    split->searches[search].place = none;
}

static uint32_t search_of(edgebpf_split *split, uint32_t vertex) {
    edgebpf_search *searches = split->searches;
    uint32_t one = split->owner[vertex];
    while (searches[one].up != one) one = searches[one].up = searches[searches[one].up].up;
    return one;
}

/* One search has met another, and has from now on what that one has. */
static void join_searches(edgebpf_split *split, uint32_t one, uint32_t other) {
    edgebpf_search *mine = split->searches + one, *its = split->searches + other;
    append(split->next, &mine->todo, &mine->todo_last, its->todo, its->todo_last);
    append(split->next, &mine->done, &mine->done_last, its->done, its->done_last);
    its->up = one;
    if (its->place != none) take_from_ring(split, other);
}

/* Reads the list of the next vertex of a search. */
static void read_next(edgebpf_split *split, edgebpf_lender *version, uint32_t search) {
    edgebpf_search *mine = split->searches + search;
    uint32_t vertex = mine->todo;
    mine->todo = split->next[vertex];
    if (mine->todo == none) mine->todo_last = none;
    split->next[vertex] = none;
    append(split->next, &mine->done, &mine->done_last, vertex, vertex);
    reader list;
    EACH_SLICE(version, vertex, list, slice) {
        for (const uint32_t *target = slice->at; target < slice->at + slice->count; target++) {
            if (split->owner[*target] == none) {
                split->owner[*target] = search, split->next[*target] = none;
                append(split->next, &mine->todo, &mine->todo_last, *target, *target);
            } else {
                uint32_t other = search_of(split, *target);
                if (other != search) join_searches(split, search, other);
                if (split->live <= 1) return;
            }
        }
    }
}

size_t edgebpf_split_go_on(edgebpf_split *split, edgebpf_lender *version, size_t count) {
    size_t read = 0;
    while (split->live > 1 && read < count) {
        if (split->turn >= split->live) split->turn = 0;
        uint32_t search = split->ring[split->turn];
        if (split->searches[search].todo == none) {
            take_from_ring(split, search);
            continue;
        }
        read_next(split, version, search), read++;
        split->turn = split->searches[search].place + 1;
    }
    return read;
}

uint32_t edgebpf_split_end(edgebpf_split *split, uint32_t fresh, uint32_t *parts) {
    uint32_t cut = 0;
    for (uint32_t i = 0; i < split->count; i++) {
        const edgebpf_search *search = split->searches + i;
        if (search->up != i) continue;
        int is_cut = search->place == none;
        for (uint32_t vertex = search->done; vertex != none; vertex = split->next[vertex]) {
            split->owner[vertex] = none;
            if (is_cut) parts[vertex] = fresh + cut;
        }
        for (uint32_t vertex = search->todo; vertex != none; vertex = split->next[vertex]) split->owner[vertex] = none;
        cut += (uint32_t)is_cut;
    }
    return cut;
}

void edgebpf_label_parts(uint32_t vertices, uint32_t numbers, const uint32_t *parts, uint32_t *up, uint32_t *least, uint32_t *labels) {
    for (uint32_t number = 0; number < numbers; number++) least[number] = none;
    for (uint32_t vertex = 0; vertex < vertices; vertex++) {
        uint32_t root = root_of(up, parts[vertex]);
        if (least[root] == none) least[root] = vertex;
        labels[vertex] = least[root];
    }
}

/* Whether an edge stands in an ascending list of edges after a place. */
static int is_listed_after(const uint32_t *sources, const uint32_t *targets, size_t count, size_t place, uint32_t one, uint32_t other) {
    uint64_t wanted = one < other ? (uint64_t)one << 32 | other : (uint64_t)other << 32 | one;
    size_t low = place + 1, high = count;
    while (low < high) {
        size_t middle = low + (high - low) / 2;
        if (((uint64_t)sources[middle] << 32 | targets[middle]) < wanted) low = middle + 1;
        else high = middle;
    }
    return low < count && ((uint64_t)sources[low] << 32 | targets[low]) == wanted;
}

uint64_t edgebpf_triangles_of(edgebpf_lender *version, const uint32_t *sources, const uint32_t *targets, size_t count, size_t from,
                              size_t to, int64_t sign, uint32_t vertices, uint32_t *spare, int64_t *each) {
    uint64_t all = 0;
    for (size_t i = from; i < to; i++) {
        uint32_t one = sources[i], other = targets[i], third;
        size_t one_count, other_count;
        const uint32_t *near = whole_list(version, one, spare, &one_count), *far = whole_list(version, other, spare + vertices, &other_count);
        common both = common_of(near, one_count, far, other_count);
        while (next_common(&both, &third)) {
            if (third == one || third == other) continue;
            if (is_listed_after(sources, targets, count, i, one, third) || is_listed_after(sources, targets, count, i, other, third)) continue;
            each[one] += sign, each[other] += sign, each[third] += sign;
            all++;
        }
    }
    return all;
}

static inline int is_more(const edgebpf_residuals *state, uint32_t vertex, double times) {
    return fabs(state->residuals[vertex]) > times * state->unit * (state->degrees[vertex] + 1.0);
}

static inline void enqueue(edgebpf_residuals *state, uint32_t vertex) {
    uint64_t end = (uint64_t)state->at + state->count++;
    state->queue[end < state->vertices ? end : end - state->vertices] = vertex;
    state->queued[vertex] = 1;
}

static inline void add_residual(edgebpf_residuals *state, uint32_t vertex, double change) {
    state->residuals[vertex] += change;
    if (!state->is_touched[vertex]) state->is_touched[vertex] = 1, state->touched[state->touched_count++] = vertex;
}

void edgebpf_move_residuals(edgebpf_residuals *state, edgebpf_lender *version, const uint32_t *changed, size_t count, double sign) {
    reader list;
    for (size_t i = 0; i < count; i++) {
        uint32_t degree = degree_of(version, NULL, changed[i]);
        if (degree == 0) continue;
        double change = sign * state->damping * state->ranks[changed[i]] / degree;
        EACH_SLICE(version, changed[i], list, slice) {
            for (size_t place = 0; place < slice->count; place++) add_residual(state, slice->at[place], change);
        }
    }
}

void edgebpf_queue_residuals(edgebpf_residuals *state, double times) {
    for (uint32_t i = 0; i < state->touched_count; i++) {
        uint32_t vertex = state->touched[i];
        if (!state->queued[vertex] && is_more(state, vertex, times)) enqueue(state, vertex);
    }
}

size_t edgebpf_push_residuals(edgebpf_residuals *state, edgebpf_lender *version, double times, size_t count) {
    size_t pushed = 0;
    reader list;
    while (state->count > 0 && pushed < count) {
        uint32_t vertex = state->queue[state->at];
        state->at = state->at + 1 == state->vertices ? 0 : state->at + 1, state->count--;
        state->queued[vertex] = 0;
        if (!is_more(state, vertex, times)) continue;
        double moved = state->residuals[vertex], change = state->damping * moved / (state->degrees[vertex] + (state->degrees[vertex] == 0));
        state->residuals[vertex] = 0, state->ranks[vertex] += moved;
        state->edges += state->degrees[vertex], pushed++;
        EACH_SLICE(version, vertex, list, slice) {
            for (size_t place = 0; place < slice->count; place++) {
                uint32_t target = slice->at[place];
                add_residual(state, target, change);
                if (!state->queued[target] && is_more(state, target, times)) enqueue(state, target);
            }
        }
    }
    return pushed;
}
