/*
 * The kit's heap over malloc, realloc and free, for Linux on arm64, by the contracts of the kit's crate `libc`, which has it compiled for x86-64 alone. No
 * alignment above 16 is asked for, and malloc has that. Nothing here is proved; tests run it.
 */
#include <stddef.h>
#include <stdint.h>
#include <stdlib.h>

struct rattle_block {
    uint8_t has;
    void *at;
};

/* Where there is no memory, a block has an address all the same. */
static uint8_t nothing;

static struct rattle_block block(void *at) {
    struct rattle_block it = {at != NULL, at ? at : &nothing};
    return it;
}

/* A block of 0 bytes takes as many as its alignment, so that it has a place. */
struct rattle_block rattle_alloc(size_t size, size_t align) { return block(malloc(size ? size : align)); }
struct rattle_block rattle_realloc(void *at, size_t kept, size_t size, size_t align) {
    (void)kept;
    return block(realloc(at, size ? size : align));
}
void rattle_dealloc(void *at) { free(at); }
