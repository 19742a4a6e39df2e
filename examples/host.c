#include <edgebpf.h>
#include <stdio.h>

int main(void) {
    const uint32_t sources[] = {0, 0, 1}, targets[] = {1, 2, 2};
    const uint8_t removes[] = {0, 0, 0};                /* 1 takes an edge out */
    const uint8_t code[] = {0x61, 0x10, 4, 0, 0, 0, 0, 0, 0x95, 0, 0, 0, 0, 0, 0, 0}; /* ldxw r0, [r1+4] and exit */
    const uint32_t frontier[] = {0, 1};
    uint64_t values[2];
    edgebpf_store store = {{0}};
    edgebpf_version version = {{0}};
    edgebpf_program program = {{0}};
    edgebpf_change change;
    edgebpf_verdict verdict;
    edgebpf_totals totals;
    edgebpf_slice slice;
    size_t lent;
    uint32_t status = edgebpf_store_new(4, &store);
    if (!status) status = edgebpf_store_apply(&store, 0, sources, 3, targets, 3, removes, 3, &change);
    if (!status) status = edgebpf_store_pin(&store, &version);
    if (!status) status = edgebpf_version_lend(&version, 0, &slice, 1, &lent);
    if (!status) printf("0 has %zu neighbours: %u and %u\n", slice.count, slice.at[0], slice.at[1]);
    if (!status) status = edgebpf_program_new(16, code, sizeof code, EDGEBPF_NO_BYTES, 0, &verdict, &program);
    if (!status) status = edgebpf_run(&version, &program, EDGEBPF_NO_BYTES, 0, frontier, 2, EDGEBPF_SUM, values, 2, &totals);
    if (!status) printf("total %llu\n", (unsigned long long)totals.total);
    if (status) fprintf(stderr, "%s\n", edgebpf_words(status));
    edgebpf_close_program(&program);
    edgebpf_close_version(&version);                    /* the slice ends here */
    edgebpf_close_store(&store);
    return status != 0;
}
