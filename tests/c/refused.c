/*
 * Each allocation refused in turn, by itself: a run of calls that ask for memory ends as it does with memory, or with JATSHEGI_NO_MEMORY. A call that is
 * refused changes nothing, neither the board nor what it is given to write to, and all memory is given back with the board. Linked with
 * -Wl,--wrap=malloc,--wrap=realloc,--wrap=free.
 */
#include <stdio.h>
#include <stdlib.h>
#include <string.h>

#include "jatshegi.h"

void *__real_malloc(size_t size);
void *__real_realloc(void *at, size_t size);
void __real_free(void *at);
void *__wrap_malloc(size_t size);
void *__wrap_realloc(void *at, size_t size);
void __wrap_free(void *at);

/* How many more allocations go well before the one that is refused; below 0 none is. And how many blocks are held. */
static long left = -1;
static long refused, held;

static int is_refused(void) {
    if (left != 0) {
        if (left > 0) left--;
        return 0;
    }
    left = -1;
    refused++;
    return 1;
}

void *__wrap_malloc(size_t size) {
    if (is_refused()) return NULL;
    void *at = __real_malloc(size);
    held += at != NULL;
    return at;
}

void *__wrap_realloc(void *at, size_t size) {
    if (is_refused()) return NULL;
    void *moved = __real_realloc(at, size);
    held += at == NULL && moved != NULL;
    return moved;
}

void __wrap_free(void *at) {
    held -= at != NULL;
    __real_free(at);
}

/* What the calls write to; before each it is as `untouched`. */
struct outputs {
    char text[4096];
    size_t count, used;
    size_t passed;
    struct jatshegi_report report;
    bool added;
};
static struct outputs out, untouched;

static char before[1 << 16], after[1 << 16];

/* The whole game with its tags, and the way to the cursor, as the board writes them. */
static size_t game(struct jatshegi_board *board, char *text) {
    size_t count = 0, more = 0;
    if (jatshegi_board_pgn(board, text, 60000, &count) != JATSHEGI_OK) exit(3);
    if (jatshegi_board_answer(board, "path", 4, text + count, 5000, &more) != JATSHEGI_OK) exit(3);
    return count + more;
}

static const struct jatshegi_keys *keys;

#define GOOD "1. e4 e5 2. Nf3 Nc6 {the first moves of many games} *"
#define BAD "1. e4 e4 {no game} *\n\n[White \"?\"]\n\n*"

/* Texts, with the bytes that are passed over to what follows their first game. */
static const struct {
    const char *text;
    size_t passed;
} passes[] = {
    {GOOD, sizeof GOOD - 1},
    {GOOD "\n\n[A \"b\"]\n\n*\n", sizeof GOOD - 1},
    {BAD, 22},
    {" \n\n% hidden\n", 12},
    {"[A \"x\"]\n}\n", 10},
    {"e4 e4\n\n[A \"b\"]\n\n*\n", 7},
    {"} {not a comment\n  [A \"b\"]\n\n*\n", 19},
    {"1. e4 {[A \"b\"]\n[A \"b\"]\n} e4\n[A \"b\"] *", 28},
};
enum { PASSES = sizeof passes / sizeof passes[0], FIRST_TAG = 19, COPIED = 24, FIRST_PASS = 25, FIRST_NEXT = FIRST_PASS + PASSES, LOADED = FIRST_NEXT + PASSES, STEPS };

/* A copy of the board, freed at once; the other board is as it was where it is refused. */
static uint32_t copied(struct jatshegi_board *board) {
    struct jatshegi_board other = JATSHEGI_NO_BOARD;
    uint32_t status = jatshegi_board_copy(board, &other);
    if ((status == JATSHEGI_OK) != (jatshegi_board_start(&other) == JATSHEGI_OK)) exit(3);
    jatshegi_board_free(&other);
    return status;
}

/* The steps of the run; each answers with a status. */
static uint32_t step(struct jatshegi_board *board, int number) {
    static const char *const played[] = {"e4", "e5", "Nf3", "Nc6", "Bb5", "a6"};
    static const char fen[] = "4k3/8/8/8/8/8/4P3/4K3 w - - 0 1", comment[] = "a long comment that finds no room where the others are, however short they were";
    struct jatshegi_position position = {{0}, JATSHEGI_BLACK, 0, JATSHEGI_NO_SQUARE, 3, 9};
    const char *text = number < 16 ? GOOD : BAD;
    size_t length = strlen(text);
    out = untouched;
    if (number == 0) return jatshegi_board_new(keys, board);
    if (number <= 6) return jatshegi_board_play_text(board, played[number - 1], strlen(played[number - 1]), &out.added);
    if (number == 7) return jatshegi_board_comment(board, comment, strlen(comment));
    if (number == 8) return jatshegi_board_annotate(board, 1);
    if (number == 9) return jatshegi_board_answer(board, "pgn", 3, out.text, sizeof out.text, &out.count);
    if (number == 10) return jatshegi_search_start(board, 2);
    if (number == 11 || number == 16) return jatshegi_game_read(text, length, out.text, sizeof out.text, &out.count, &out.used);
    if (number == 12 || number == 17) return jatshegi_game_report(text, length, &out.report, out.text, sizeof out.text, &out.count, &out.used);
    if (number == 13 || number == 18) return jatshegi_board_load(board, text, length, &out.used);
    if (number == 14) {
        position.men[4] = 'K', position.men[60] = 'k', position.men[12] = 'P';
        return jatshegi_board_set_position(board, &position);
    }
    if (number == 15) return jatshegi_board_set(board, fen, strlen(fen));
    if (number == FIRST_TAG) return jatshegi_board_new(keys, board);
    if (number == FIRST_TAG + 1) return jatshegi_board_set_tag(board, "White", 5, comment, strlen(comment));
    if (number == FIRST_TAG + 2) return jatshegi_board_set_tag(board, "Annotator", 9, comment, strlen(comment));
    if (number == FIRST_TAG + 3) return jatshegi_board_clear_tag(board, "White", 5);
    if (number == FIRST_TAG + 4) return jatshegi_board_pgn(board, out.text, sizeof out.text, &out.count);
    if (number == COPIED) return copied(board);
    if (number == LOADED) return jatshegi_board_load_next(board, GOOD, sizeof GOOD - 1, false, &out.passed);
    text = passes[(number - FIRST_PASS) % PASSES].text;
    if (number >= FIRST_NEXT) return jatshegi_game_next(text, strlen(text), true, &out.passed);
    return jatshegi_game_pass(text, strlen(text), &out.passed);
}

/* What a step has written where it was not refused: of a bad game the place of its fault alone, else each output of its own. */
static int is_right(int number, uint32_t status) {
    struct outputs wanted = untouched;
    if (number >= 16 && number < FIRST_TAG) {
        wanted.used = 6;
        return status == JATSHEGI_PGN_MOVE && memcmp(&out, &wanted, sizeof out) == 0;
    }
    if (number >= FIRST_NEXT && number < LOADED) {
        /* (a good game, a bad one, and whitespace) */
        if (status != JATSHEGI_OK && status != JATSHEGI_NO_GAME && status < JATSHEGI_PGN_TOKEN) return 0;
        wanted.passed = passes[number - FIRST_NEXT].passed;
        return memcmp(&out, &wanted, sizeof out) == 0;
    }
    if (status != JATSHEGI_OK) return 0;
    if (number == LOADED) return out.passed == sizeof GOOD - 1;
    if (out.added != (number >= 1 && number <= 6)) return 0;
    if (number >= 11 && number <= 13 && out.used != sizeof GOOD - 1) return 0;
    if ((number == 9 || number == 11 || number == 12 || number == FIRST_TAG + 4) && (out.count > sizeof out.text || memcmp(out.text, untouched.text, out.count) == 0)) return 0;
    if (number == 12 && (out.report.plies != 4 || out.report.status != JATSHEGI_PLAY)) return 0;
    return number < FIRST_PASS || out.passed == passes[number - FIRST_PASS].passed;
}

/* Whether the board is as it was before a step that was refused, and so are the outputs. */
static int is_as_before(struct jatshegi_board *board, int number, size_t length) {
    if (memcmp(&out, &untouched, sizeof out) != 0) return 0;
    if (number == 0) return jatshegi_board_back(board) == JATSHEGI_EMPTY;
    return game(board, after) == length && memcmp(before, after, length) == 0;
}

/* The step with that allocation of it refused: -1 where something is wrong, 0 where it has no such allocation, else 1. */
static int try_at(int wanted, long at) {
    struct jatshegi_board board = JATSHEGI_NO_BOARD;
    long already = refused, was_held = held;
    size_t length = 0;
    for (int number = 0; number < wanted; number++) {
        if (!is_right(number, step(&board, number))) return -1;
    }
    if (wanted) length = game(&board, before);
    left = at;
    uint32_t status = step(&board, wanted);
    left = -1;
    if (status == JATSHEGI_NO_MEMORY && already != refused) {
        if (!is_as_before(&board, wanted, length)) return -1;
        status = step(&board, wanted);
    }
    if (!is_right(wanted, status)) return -1;
    jatshegi_board_free(&board);
    return held != was_held ? -1 : already != refused;
}

/* A thousand boards, each used and freed, or made anew in its place: each time all memory is given back. */
static int all_is_given_back(void) {
    long was_held = held;
    for (int round = 0; round < 1000; round++) {
        struct jatshegi_board board = JATSHEGI_NO_BOARD;
        for (int number = 0; number < STEPS; number++) {
            if (!is_right(number, step(&board, number))) return 0;
        }
        if (jatshegi_engine_line(&board, "go infinite", 11, out.text, sizeof out.text, &out.count) != JATSHEGI_OK) return 0;
        if (step(&board, 0) != JATSHEGI_OK || step(&board, 10) != JATSHEGI_OK) return 0;
        if (held == was_held) return 0;
        jatshegi_board_free(&board);
        if (held != was_held) return 0;
    }
    return 1;
}

int main(void) {
    static struct jatshegi_keys filled;
    memset(&untouched, 0x5a, sizeof untouched);
    untouched.added = false;
    jatshegi_keys_fill(&filled);
    keys = &filled;
    for (int number = 0; number < STEPS; number++) {
        int found = 1;
        for (long at = 0; found; at++) {
            found = try_at(number, at);
            if (found < 0) {
                printf("step %d, allocation %ld: it isn't as it was\n", number, at);
                return EXIT_FAILURE;
            }
        }
    }
    if (!all_is_given_back()) {
        printf("memory of a board isn't given back\n");
        return EXIT_FAILURE;
    }
    printf("%ld allocations refused\n", refused);
    return refused > 10 ? EXIT_SUCCESS : EXIT_FAILURE;
}
