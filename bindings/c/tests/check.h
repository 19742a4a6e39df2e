/* What the tests share. */
#include "../edgebpf.h"
#include <stdio.h>
#include <stdlib.h>
#include <string.h>

#define CHECK(condition)                                                                      \
    do {                                                                                      \
        if (!(condition)) {                                                                   \
            fprintf(stderr, "%s:%d: this does not hold: %s\n", __FILE__, __LINE__, #condition); \
            exit(1);                                                                          \
        }                                                                                     \
    } while (0)

#define COUNT(array) (sizeof(array) / sizeof *(array))

/* ldxw r0, [r1+4]; exit: the number of an edge is its target. */
static const uint8_t target_code[] = {0x61, 0x10, 4, 0, 0, 0, 0, 0, 0x95, 0, 0, 0, 0, 0, 0, 0};

/* Numbers that are the same each time. */
static uint32_t random_state = 1;

static inline uint32_t random_below(uint32_t bound) {
    random_state = random_state * 1664525u + 1013904223u;
    return (uint32_t)(((uint64_t)random_state * bound) >> 32);
}
