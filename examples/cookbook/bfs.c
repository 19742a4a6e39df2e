/* Breadth first search from vertex 0 over lent neighbour lists: bfs VERTICES < EDGES */
#include "load.h"

enum { SLICES = 1 << 16, FAR = -1 };

static uint32_t search(edgebpf_version *version, uint32_t vertices, uint32_t *queue, int *distance) {
    static edgebpf_slice slices[SLICES];
    uint32_t done = 0, found = 1;
    memset(distance, FAR, vertices * sizeof *distance);
    for (distance[0] = 0; done < found; done++) {
        size_t lent;
        check(edgebpf_version_lend(version, queue[done], slices, SLICES, &lent));
        for (edgebpf_slice *slice = slices; slice < slices + lent; slice++)
            for (const uint32_t *target = slice->at; target < slice->at + slice->count; target++)
                if (distance[*target] == FAR) distance[*target] = distance[queue[done]] + 1, queue[found++] = *target;
    }
    return found;
}

int main(int count, char **words) {
    uint32_t vertices = count > 1 ? atoi(words[1]) : 0;
    edgebpf_store store = {{0}};
    edgebpf_version version = {{0}};
    check(edgebpf_store_new(vertices, &store));
    load(stdin, &store);
    check(edgebpf_store_pin(&store, &version));
    uint32_t *queue = room(vertices, sizeof *queue);
    int *distance = room(vertices, sizeof *distance);
    double begun = seconds();
    uint32_t found = search(&version, vertices, queue, distance);
    printf("%u vertices, the last at distance %d\n", found, distance[queue[found - 1]]);
    fprintf(stderr, "%.3f\n", seconds() - begun);
    return 0;
}
