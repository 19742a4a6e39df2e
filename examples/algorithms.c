#include <edgebpf_algorithms.h>
#include <stdio.h>

enum { VERTICES = 4, EDGES = 2 };

int main(void) {
    const uint32_t sources[] = {0, 2}, targets[] = {1, 3};
    const uint8_t removes[] = {0, 0};
    uint64_t starts[VERTICES + 1];
    uint32_t copied[EDGES], parts[] = {0, 1, 2, 3};
    edgebpf_store store = {{0}};
    edgebpf_version version = {{0}};
    edgebpf_change change;
    uint32_t status = edgebpf_store_new(VERTICES, &store);
    if (!status) status = edgebpf_store_apply(&store, 0, sources, EDGES, targets, EDGES, removes, EDGES, &change);
    if (!status) status = edgebpf_store_pin(&store, &version);
    if (!status) status = edgebpf_version_copy(&version, starts, VERTICES + 1, copied, EDGES);
    if (!status) {
        const edgebpf_graph graph = {starts, copied, VERTICES};
        edgebpf_join_edges(&graph, 0, 2, parts);            /* in as many pieces as the host wants */
        edgebpf_join_edges(&graph, 2, VERTICES, parts);
        edgebpf_name_parts(VERTICES, parts);
        printf("%u %u %u %u\n", parts[0], parts[1], parts[2], parts[3]);
    }
    edgebpf_close_version(&version);
    edgebpf_close_store(&store);
    return status != 0;
}
