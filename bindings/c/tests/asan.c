/* A slice stays where it is while any handle of its version is open, and is read here after the store was closed. With an argument
   it is read after the version was closed, too: AddressSanitizer has to report that. */
#include "check.h"

int main(int count, char **words) {
    static uint32_t sources[100], targets[100];
    static uint8_t removes[100];
    edgebpf_store store = {{0}};
    edgebpf_version pin = {{0}}, shared = {{0}};
    edgebpf_change change;
    edgebpf_slice slices[100];
    size_t lent;
    uint64_t sum = 0;
    (void)words;
    for (uint32_t i = 0; i < 100; i++) targets[i] = i;
    CHECK(edgebpf_store_new(10000, &store) == EDGEBPF_DONE);
    CHECK(edgebpf_store_apply(&store, 0, sources, 100, targets, 100, removes, 100, &change) == EDGEBPF_DONE);
    CHECK(edgebpf_store_pin(&store, &pin) == EDGEBPF_DONE && edgebpf_version_share(&pin, &shared) == EDGEBPF_DONE);
    CHECK(edgebpf_version_lend(&pin, 0, slices, 100, &lent) == EDGEBPF_DONE && lent > 0);
    edgebpf_close_store(&store);
    edgebpf_close_version(&pin);
    for (size_t i = 0; i < lent; i++)
        for (size_t j = 0; j < slices[i].count; j++) sum += slices[i].at[j];
    CHECK(sum == 4950);
    edgebpf_close_version(&shared);
    if (count > 1) printf("%u\n", slices[0].at[0]);
    puts("a slice stays while its version is held");
    return 0;
}
