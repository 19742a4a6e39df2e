/* The library's memory: the three functions that it asks of its host, over malloc. A host with a heap of its own gives its own
   three in place of this file. Sizes are in bytes; no alignment above 16 is asked for, and a size may be 0. Threads that are in calls at once
   call them at once. They throw no exception, and make no call of the library. `is_there` is false where a request is refused: then what
   `rattle_realloc` was given stays as it is. */
#include <stdbool.h>
#include <stdlib.h>

typedef struct { bool is_there; void *at; } block;

static block block_at(void *at) { return (block){at != NULL, at}; }

block rattle_alloc(size_t size, size_t align) { return block_at(malloc(size ? size : align)); }

block rattle_realloc(void *at, size_t kept, size_t size, size_t align) {
    (void)kept;
    return block_at(realloc(at, size ? size : align));
}

void rattle_dealloc(void *at) { free(at); }
