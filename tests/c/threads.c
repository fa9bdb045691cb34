/*
 * Boards on several threads: each thread plays a game of its own, whose end the first thread finds again by itself, and all share boards that are passed from
 * thread to thread under a lock. Ends with status 0 where each call answered as it has to. A number of rounds may be given.
 */
#include <pthread.h>
#include <stdio.h>
#include <stdlib.h>
#include <string.h>

#include "jatshegi.h"

enum { THREADS = 4, SHARED = 3 };

static struct jatshegi_keys keys;
static struct {
    pthread_mutex_t lock;
    struct jatshegi_board board;
    unsigned plies;
} shared[SHARED];
static unsigned rounds = 200;

/* The next number of a thread's own. */
static unsigned next(unsigned *state) {
    *state = *state * 1664525u + 1013904223u;
    return *state >> 8;
}

static void must(int holds, const char *what) {
    if (holds) return;
    printf("not %s\n", what);
    exit(EXIT_FAILURE);
}
#define MUST(holds) must((holds), #holds)

/* Makes some legal move, or says that there is none. */
static int play_some(struct jatshegi_board *board, unsigned *state) {
    struct jatshegi_move moves[JATSHEGI_MOST_MOVES];
    uint32_t outcome = 0;
    size_t count = 0;
    bool added = false;
    MUST(jatshegi_board_outcome(board, &outcome) == JATSHEGI_OK && jatshegi_board_moves(board, moves, JATSHEGI_MOST_MOVES, &count) == JATSHEGI_OK);
    if (outcome != JATSHEGI_PLAY || count == 0) return 0;
    MUST(jatshegi_board_play(board, moves[next(state) % count], &added) == JATSHEGI_OK);
    return 1;
}

/* The position that a game of up to `rounds` random moves ends in. */
static size_t game(unsigned seed, char *fen) {
    struct jatshegi_board board = JATSHEGI_NO_BOARD;
    size_t length = 0;
    MUST(jatshegi_board_new(&keys, &board) == JATSHEGI_OK);
    for (unsigned ply = 0; ply < rounds && play_some(&board, &seed); ply++) {
    }
    MUST(jatshegi_board_fen(&board, fen, JATSHEGI_MOST_FEN, &length) == JATSHEGI_OK);
    jatshegi_board_free(&board);
    return length;
}

struct played {
    unsigned seed;
    char fen[JATSHEGI_MOST_FEN];
    size_t length;
};

static void *thread(void *given) {
    struct played *mine = given;
    unsigned state = mine->seed * 77;
    mine->length = game(mine->seed, mine->fen);
    for (unsigned round = 0; round < rounds; round++) {
        unsigned at = next(&state) % SHARED;
        uint32_t depth = 0;
        pthread_mutex_lock(&shared[at].lock);
        if (play_some(&shared[at].board, &state)) shared[at].plies++;
        MUST(jatshegi_board_depth(&shared[at].board, &depth) == JATSHEGI_OK && depth == shared[at].plies);
        if (depth > 60 || next(&state) % 16 == 0) {
            struct jatshegi_board copy = JATSHEGI_NO_BOARD;
            /* The copy goes on where the board was, and the board is freed by this thread, whoever made it. */
            MUST(jatshegi_board_copy(&shared[at].board, &copy) == JATSHEGI_OK && jatshegi_board_start(&copy) == JATSHEGI_OK);
            jatshegi_board_free(&shared[at].board);
            shared[at].board = copy;
            shared[at].plies = 0;
        }
        pthread_mutex_unlock(&shared[at].lock);
    }
    return NULL;
}

int main(int count, char **words) {
    pthread_t threads[THREADS];
    struct played played[THREADS];
    if (count > 1) rounds = (unsigned)atoi(words[1]);
    jatshegi_keys_fill(&keys);
    for (unsigned i = 0; i < SHARED; i++) {
        MUST(pthread_mutex_init(&shared[i].lock, NULL) == 0 && jatshegi_board_new(&keys, &shared[i].board) == JATSHEGI_OK);
    }
    for (unsigned i = 0; i < THREADS; i++) {
        played[i].seed = i + 1;
        MUST(pthread_create(&threads[i], NULL, thread, &played[i]) == 0);
    }
    for (unsigned i = 0; i < THREADS; i++) MUST(pthread_join(threads[i], NULL) == 0);
    for (unsigned i = 0; i < THREADS; i++) {
        char fen[JATSHEGI_MOST_FEN];
        size_t length = game(i + 1, fen);
        MUST(length == played[i].length && memcmp(fen, played[i].fen, length) == 0);
    }
    for (unsigned i = 0; i < SHARED; i++) jatshegi_board_free(&shared[i].board);
    printf("%u rounds of %d threads\n", rounds, THREADS);
    return EXIT_SUCCESS;
}
