/* How many calls a second the library answers, by the processor's time: cc -O2 tests/c/speed.c -Iinclude out/libjatshegi.a */
#include <stdio.h>
#include <string.h>
#include <time.h>

#include "jatshegi.h"

static struct jatshegi_keys keys;
static struct jatshegi_board board = JATSHEGI_NO_BOARD;
static char text[JATSHEGI_MOST_ANSWER];
static struct jatshegi_move moves[JATSHEGI_MOST_MOVES];
static uint8_t white[64], black[64];
static size_t count;

static void ask(const char *line) { jatshegi_board_answer(&board, line, strlen(line), text, sizeof text, &count); }

static void eval_line(void) { ask("eval"); }

static void moves_line(void) { ask("moves"); }

static void play_and_back_lines(void) {
    ask("play e4");
    ask("back");
}

static void play_and_back(void) {
    struct jatshegi_move m = {12, 28, JATSHEGI_NO_PROMOTION};
    bool added;
    jatshegi_board_play(&board, m, &added);
    jatshegi_board_back(&board);
}

static void play_and_undo(void) {
    struct jatshegi_move m = {11, 27, JATSHEGI_NO_PROMOTION};
    bool added;
    jatshegi_board_play(&board, m, &added);
    jatshegi_board_undo(&board, added);
}

static void play_text_and_back(void) {
    bool added;
    jatshegi_board_play_text(&board, "Nf3", 3, &added);
    jatshegi_board_back(&board);
}

static void typed_moves(void) { jatshegi_board_moves(&board, moves, JATSHEGI_MOST_MOVES, &count); }

static void evaluation(void) {
    int32_t value;
    jatshegi_board_evaluation(&board, &value);
}

static void counts(void) { jatshegi_board_counts(&board, white, black); }

static void fen(void) { jatshegi_board_fen(&board, text, sizeof text, &count); }

static void write_move(void) {
    struct jatshegi_move m = {6, 21, JATSHEGI_NO_PROMOTION};
    jatshegi_board_write(&board, m, text, sizeof text, &count);
}

static void new_and_free(void) {
    struct jatshegi_board other = JATSHEGI_NO_BOARD;
    jatshegi_board_new(&keys, &other);
    jatshegi_board_free(&other);
}

static void measure(const char *name, void (*call)(void), long times) {
    double best = 0;
    for (int round = 0; round < 5; round++) {
        clock_t begun = clock();
        for (long i = 0; i < times; i++) call();
        double rate = (double)times * CLOCKS_PER_SEC / (double)(clock() - begun);
        if (rate > best) best = rate;
    }
    printf("%-28s %12.0f a second\n", name, best);
}

int main(void) {
    jatshegi_keys_fill(&keys);
    if (jatshegi_board_new(&keys, &board) != JATSHEGI_OK) return 1;
    measure("eval, a line", eval_line, 1000000);
    measure("moves, a line", moves_line, 200000);
    measure("play e4 and back, lines", play_and_back_lines, 200000);
    measure("play and back", play_and_back, 1000000);
    measure("play and undo", play_and_undo, 1000000);
    measure("play_text Nf3 and back", play_text_and_back, 300000);
    measure("moves, 20 of them", typed_moves, 500000);
    measure("evaluation", evaluation, 3000000);
    measure("counts of both colours", counts, 1000000);
    measure("fen", fen, 1000000);
    measure("write Nf3", write_move, 200000);
    measure("new and free", new_and_free, 20000);
    jatshegi_board_free(&board);
    return 0;
}
