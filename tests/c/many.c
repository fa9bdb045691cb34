/*
 * Many boards at once: how much memory each takes, by the count of the C library's malloc (glibc), also with comments, how many games of 80 plies a second are
 * played and judged by four threads, and how many boards one thread makes or copies, and frees.
 *
 *     cc -O2 -pthread tests/c/many.c -Iinclude out/libjatshegi.a && ./a.out 100000
 */
#include <malloc.h>
#include <pthread.h>
#include <stdio.h>
#include <stdlib.h>
#include <time.h>

#include "jatshegi.h"

enum { THREADS = 4, PLIES = 80 };

static struct jatshegi_keys keys;
static struct jatshegi_board *boards;
static size_t many;

/* A thread's boards, and how many of its positions were judged to be over. */
struct share {
    pthread_t thread;
    size_t from, to;
    long over;
};

static double held(void) {
    struct mallinfo2 info = mallinfo2();
    return (double)(info.uordblks + info.hblkhd);
}

static double now(void) {
    struct timespec time;
    clock_gettime(CLOCK_MONOTONIC, &time);
    return (double)time.tv_sec + (double)time.tv_nsec / 1e9;
}

static void check(uint32_t status) {
    if (status == JATSHEGI_OK) return;
    fprintf(stderr, "%s\n", jatshegi_status_text(status));
    exit(EXIT_FAILURE);
}

/* Plays legal moves that are drawn, and judges each position; where the game ends, the last move is taken back, as often as there are plies: each move may end it. */
static void play(struct jatshegi_board *board, uint64_t seed, long *over) {
    struct jatshegi_move moves[JATSHEGI_MOST_MOVES];
    for (int ply = 0, back = 0; ply < PLIES && back < PLIES;) {
        size_t count;
        uint32_t outcome, claims;
        bool added;
        check(jatshegi_board_moves(board, moves, JATSHEGI_MOST_MOVES, &count));
        seed = seed * 6364136223846793005u + 1442695040888963407u;
        check(jatshegi_board_play(board, moves[(seed >> 33) % count], &added));
        check(jatshegi_board_outcome(board, &outcome));
        check(jatshegi_board_claims(board, &claims));
        if (outcome == JATSHEGI_PLAY) {
            ply++;
        } else {
            ++*over;
            back++;
            check(jatshegi_board_undo(board, added));
        }
    }
}

static void *make_share(void *at) {
    struct share *share = at;
    for (size_t i = share->from; i < share->to; i++) check(jatshegi_board_new(&keys, &boards[i]));
    return NULL;
}

static void *play_share(void *at) {
    struct share *share = at;
    for (size_t i = share->from; i < share->to; i++) play(&boards[i], i, &share->over);
    return NULL;
}

/* A comment on the last move of each game; then a clock's time on each move. */
static void *comment_share(void *at) {
    struct share *share = at;
    for (size_t i = share->from; i < share->to; i++) check(jatshegi_board_comment(&boards[i], "a", 1));
    return NULL;
}

static void *clock_share(void *at) {
    struct share *share = at;
    for (size_t i = share->from; i < share->to; i++) {
        uint32_t depth;
        for (;;) {
            check(jatshegi_board_depth(&boards[i], &depth));
            if (!depth) break;
            check(jatshegi_board_comment(&boards[i], "[%clk 0:05:00]", 14));
            check(jatshegi_board_back(&boards[i]));
        }
    }
    return NULL;
}

static void *free_share(void *at) {
    struct share *share = at;
    for (size_t i = share->from; i < share->to; i++) jatshegi_board_free(&boards[i]);
    return NULL;
}

/* Has all threads do it, and says how many boards a second they do and what each board holds then. */
static void run(const char *name, void *(*work)(void *), struct share *shares, double before) {
    double begun = now();
    for (int i = 0; i < THREADS; i++) {
        if (pthread_create(&shares[i].thread, NULL, work, &shares[i])) exit(EXIT_FAILURE);
    }
    for (int i = 0; i < THREADS; i++) pthread_join(shares[i].thread, NULL);
    printf("%-28s %10.0f boards a second, %8.0f bytes a board\n", name, (double)many / (now() - begun), (held() - before) / (double)many);
}

/* Says how many boards a second one thread makes, or copies, and frees, one after another. */
static void run_alone(const char *name, const struct jatshegi_board *from) {
    double begun = now();
    for (size_t i = 0; i < many; i++) {
        struct jatshegi_board board = JATSHEGI_NO_BOARD;
        check(from ? jatshegi_board_copy(from, &board) : jatshegi_board_new(&keys, &board));
        jatshegi_board_free(&board);
    }
    printf("%-28s %10.0f boards a second\n", name, (double)many / (now() - begun));
}

int main(int count, char **words) {
    static struct share shares[THREADS];
    long over = 0;
    many = count > 1 ? strtoul(words[1], NULL, 10) : 1000000;
    boards = calloc(many, sizeof *boards);
    if (!boards) return EXIT_FAILURE;
    jatshegi_keys_fill(&keys);
    for (size_t i = 0; i < THREADS; i++) {
        shares[i].from = many * i / THREADS;
        shares[i].to = many * (i + 1) / THREADS;
    }
    double before = held();
    run("made", make_share, shares, before);
    run_alone("made and freed, one thread", NULL);
    run_alone("copied and freed", &boards[0]);
    run("played 80 plies and judged", play_share, shares, before);
    run_alone("copied with 80 plies", &boards[0]);
    run("with a comment on the last", comment_share, shares, before);
    run("with a clock on each move", clock_share, shares, before);
    run("freed", free_share, shares, before);
    for (int i = 0; i < THREADS; i++) over += shares[i].over;
    printf("%zu boards, %ld positions in which the game is over\n", many, over);
    free(boards);
    return EXIT_SUCCESS;
}
