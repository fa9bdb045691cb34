/* The heap of the library for a page (crates/lent_heap) over runs of blocks that are taken and given back, with its counts after each, exactly. */
#include <stdio.h>
#include <stdlib.h>

struct memory {
    void *at;
    size_t size;
};

/* A block of `size` bytes is taken; or, for 0, the one at the place `at` among those held is given back. */
struct step {
    size_t size;
    size_t at;
};

struct counts {
    size_t size;
    size_t used;
    size_t free;
};

size_t lent_heap_run(struct memory memory, const struct step *steps, size_t count, struct counts *counts, size_t room);

enum { MOST = 24 };

/* A run: the bytes that are lent, of which the heap keeps 16 for itself; its steps, and the bytes given out after each that can be done. */
static const struct run {
    size_t lent, steps, done;
    struct step step[MOST];
    size_t used[MOST];
} runs[] = {
    /* Too little for a heap. */
    {16, 1, 0, {{1, 0}}, {0}},
    /* The least, of one block. */
    {32, 3, 3, {{1, 0}, {0, 0}, {16, 0}}, {16, 0, 16}},
    {32, 2, 1, {{16, 0}, {1, 0}}, {16}},
    {32, 1, 0, {{17, 0}}, {0}},
    /* Sizes are rounded up to 16; the last byte is given out, and none after it. */
    {1040, 4, 3, {{100, 0}, {1, 0}, {896, 0}, {1, 0}}, {112, 128, 1024}},
    /* A block that is given back is taken again; what is joined is one block, in whatever order it comes back. */
    {1040, 6, 6, {{64, 0}, {64, 0}, {896, 0}, {0, 1}, {64, 0}, {0, 2}}, {64, 128, 1024, 960, 1024, 960}},
    {1040, 8, 8, {{256, 0}, {256, 0}, {512, 0}, {0, 0}, {0, 1}, {0, 0}, {1024, 0}, {0, 0}}, {256, 512, 1024, 768, 256, 0, 1024, 0}},
    {1040, 7, 7, {{256, 0}, {256, 0}, {512, 0}, {0, 2}, {0, 0}, {0, 0}, {1009, 0}}, {256, 512, 1024, 512, 256, 0, 1024}},
    {1040, 7, 7, {{256, 0}, {256, 0}, {512, 0}, {0, 1}, {0, 0}, {512, 0}, {0, 0}}, {256, 512, 1024, 768, 512, 1024, 512}},
    /* Two parts that don't touch are no block of both. */
    {1040, 7, 6, {{256, 0}, {256, 0}, {256, 0}, {256, 0}, {0, 0}, {0, 1}, {512, 0}}, {256, 512, 768, 1024, 768, 512}},
    /* The first part that is large enough is taken. */
    {1040, 8, 7, {{128, 0}, {16, 0}, {256, 0}, {0, 0}, {0, 1}, {256, 0}, {128, 0}, {752, 0}}, {128, 144, 400, 272, 16, 272, 400}},
};

static int run_is(const struct run *it) {
    struct counts counts[MOST];
    void *at = malloc(it->lent);
    struct memory memory = {at, it->lent};
    int holds = at != NULL && lent_heap_run(memory, it->step, it->steps, counts, MOST) == it->done;
    for (size_t i = 0; holds && i < it->done; i++) {
        holds = counts[i].size == it->lent - 16 && counts[i].used == it->used[i] && counts[i].free == it->lent - 16 - it->used[i];
        if (!holds) printf("step %zu: %zu of %zu used, %zu free\n", i, counts[i].used, counts[i].size, counts[i].free);
    }
    free(at);
    return holds;
}

int main(void) {
    for (size_t i = 0; i < sizeof runs / sizeof runs[0]; i++) {
        if (!run_is(&runs[i])) {
            printf("run %zu\n", i);
            return EXIT_FAILURE;
        }
    }
    return EXIT_SUCCESS;
}
