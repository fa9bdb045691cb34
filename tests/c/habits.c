/*
 * What people who write C are used to: a null pointer is freed, (NULL, 0) is an empty text and an empty room, what only asks takes a const board, and a board may be
 * moved; how much memory a board takes; and what may surprise them: a game too long to be read, a game that goes on after its end.
 */
#include <malloc.h>
#include <stdio.h>
#include <string.h>

#include "jatshegi.h"

static int failed, passed;

#define CHECK(test) check(test, #test, __LINE__)

static void check(int good, const char *test, int line) {
    if (good) {
        passed++;
        return;
    }
    failed++;
    printf("line %d: %s\n", line, test);
}

static size_t held(void) {
    struct mallinfo2 info = mallinfo2();
    return info.uordblks + info.hblkhd;
}

static size_t answer_length(const char *line, struct jatshegi_board *board) {
    char text[JATSHEGI_MOST_ANSWER];
    size_t length = 0;
    CHECK(jatshegi_board_answer(board, line, strlen(line), text, sizeof text, &length) == JATSHEGI_OK);
    return length;
}

static void nothing_is_freed(void) {
    struct jatshegi_board board = JATSHEGI_NO_BOARD;
    struct jatshegi_stop stop = JATSHEGI_NO_STOP;
    jatshegi_board_free(NULL);
    jatshegi_stop_free(NULL);
    jatshegi_board_free(&board);
    jatshegi_stop_free(&stop);
    CHECK(jatshegi_board_trim(&board) == JATSHEGI_EMPTY);
}

static void empty_texts(struct jatshegi_board *board) {
    struct jatshegi_move move;
    size_t used = 7;
    bool added;
    uint16_t weight;
    uint32_t learn;
    size_t first = 7;
    CHECK(jatshegi_board_set(board, NULL, 0) == JATSHEGI_FEN_FIELDS);
    CHECK(jatshegi_board_load(board, NULL, 0, &used) == JATSHEGI_NO_GAME && used == 7);
    CHECK(jatshegi_board_play_text(board, NULL, 0, &added) == JATSHEGI_FORM);
    CHECK(jatshegi_board_read(board, NULL, 0, &move) == JATSHEGI_FORM);
    CHECK(jatshegi_move_read(NULL, 0, &move) == JATSHEGI_FORM);
    CHECK(jatshegi_board_comment(board, NULL, 0) == JATSHEGI_OK);
    CHECK(jatshegi_board_set_tag(board, NULL, 0, "a", 1) == JATSHEGI_TAG_NAME);
    CHECK(jatshegi_board_set_tag(board, "Annotator", 9, NULL, 0) == JATSHEGI_OK);
    CHECK(jatshegi_board_clear_tag(board, NULL, 0) == JATSHEGI_OK);
    CHECK(jatshegi_board_book_move(board, NULL, 0, 0, &move, &weight, &learn) == JATSHEGI_ARGUMENT);
    jatshegi_book_find(NULL, 0, 7, &first, &used);
    CHECK(first == 0 && used == 0);
    CHECK(jatshegi_game_pass(NULL, 0, &used) == JATSHEGI_OK && used == 0);
    used = 7;
    CHECK(jatshegi_game_next(NULL, 0, false, &used) == JATSHEGI_MORE && used == 7);
    CHECK(jatshegi_game_next(NULL, 0, true, &used) == JATSHEGI_NO_GAME && used == 0);
    used = 7;
    CHECK(jatshegi_board_load_next(board, NULL, 0, false, &used) == JATSHEGI_MORE && used == 7);
    CHECK(jatshegi_board_load_next(board, NULL, 0, true, &used) == JATSHEGI_NO_GAME && used == 0);
}

/* Rooms of which the length alone is asked for, first of all of a board that is const. */
static void empty_rooms(const struct jatshegi_board *board, struct jatshegi_board *same) {
    static const char game[] = "1. e4 *";
    struct jatshegi_move move = {12, 28, JATSHEGI_NO_PROMOTION};
    struct jatshegi_report report;
    struct jatshegi_stop none = JATSHEGI_NO_STOP;
    size_t count = 0, used = 0;
    uint64_t visited = 7;
    bool searched = false;
    CHECK(jatshegi_board_fen(board, NULL, 0, &count) == JATSHEGI_NO_ROOM && count == 56);
    CHECK(jatshegi_board_epd(board, NULL, 0, &count) == JATSHEGI_NO_ROOM && count == 52);
    CHECK(jatshegi_board_moves(board, NULL, 0, &count) == JATSHEGI_NO_ROOM && count == 20);
    CHECK(jatshegi_board_line(board, NULL, 0, &count) == JATSHEGI_OK && count == 0);
    CHECK(jatshegi_board_write(board, move, NULL, 0, &count) == JATSHEGI_NO_ROOM && count == 2);
    CHECK(jatshegi_move_write(move, NULL, 0, &count) == JATSHEGI_NO_ROOM && count == 4);
    CHECK(jatshegi_board_pgn(board, NULL, 0, &count) == JATSHEGI_NO_ROOM && count > 80);
    CHECK(jatshegi_board_tag(board, "White", 5, NULL, 0, &count) == JATSHEGI_NO_ROOM && count == 1);
    CHECK(jatshegi_board_tag(board, NULL, 0, NULL, 0, &count) == JATSHEGI_NO_SUCH);
    CHECK(jatshegi_board_tags(board, 0, NULL, 0, &count) == JATSHEGI_NO_ROOM && count == 5);
    CHECK(jatshegi_board_comment_of(board, NULL, 0, &count) == JATSHEGI_OK && count == 0);
    CHECK(jatshegi_board_annotations_of(board, NULL, 0, &count) == JATSHEGI_OK && count == 0);
    CHECK(jatshegi_board_answer(same, NULL, 0, NULL, 0, &count) == JATSHEGI_OK && count == 0);
    CHECK(jatshegi_board_answer(same, "eval", 4, NULL, 0, &count) == JATSHEGI_NO_ROOM && count == 2);
    CHECK(jatshegi_engine_line(same, NULL, 0, NULL, 0, &count) == JATSHEGI_OK && count == 0);
    CHECK(jatshegi_engine_line(same, "isready", 7, NULL, 0, &count) == JATSHEGI_NO_ROOM && count == 8);
    CHECK(jatshegi_engine_slice(same, NULL, 0, &count) == JATSHEGI_OK && count == 0);
    CHECK(jatshegi_engine_moment(same, 1, NULL, 0, &count) == JATSHEGI_OK && count == 0);
    CHECK(jatshegi_engine_slice_within(same, UINT64_MAX, &none, &searched, &visited, NULL, 0, &count) == JATSHEGI_OK && searched && visited == 0 && count == 0);
    CHECK(jatshegi_game_read(game, sizeof game - 1, NULL, 0, &count, &used) == JATSHEGI_NO_ROOM && used == 7);
    CHECK(jatshegi_game_report(game, sizeof game - 1, &report, NULL, 0, &count, &used) == JATSHEGI_NO_ROOM && report.plies == 1);
    CHECK(jatshegi_game_read(NULL, 0, NULL, 0, &count, &used) == JATSHEGI_NO_GAME);
    CHECK(jatshegi_game_report(NULL, 0, &report, NULL, 0, &count, &used) == JATSHEGI_NO_GAME);
}

/* The bytes of a board may be moved, as realloc does. */
static void moved(const struct jatshegi_keys *keys) {
    static const struct jatshegi_board none = JATSHEGI_NO_BOARD;
    struct jatshegi_board places[2] = {none, none};
    size_t count = 0;
    bool added = false;
    CHECK(jatshegi_board_new(keys, &places[0]) == JATSHEGI_OK);
    memcpy(&places[1], &places[0], sizeof places[1]);
    memset(&places[0], 0x55, sizeof places[0]);
    CHECK(jatshegi_board_play_text(&places[1], "e4", 2, &added) == JATSHEGI_OK && added);
    CHECK(jatshegi_board_fen(&places[1], NULL, 0, &count) == JATSHEGI_NO_ROOM && count == 59);
    jatshegi_board_free(&places[1]);
}

/* A comment may make a text that is written and can't be read; the board stays. */
static void too_long(struct jatshegi_board *board) {
    static char comment[1048577], text[sizeof comment + 200];
    size_t count = 0, used = 7;
    memset(comment, 'a', sizeof comment);
    CHECK(jatshegi_board_comment(board, comment, sizeof comment) == JATSHEGI_OK);
    CHECK(jatshegi_board_pgn(board, text, sizeof text, &count) == JATSHEGI_OK && count > sizeof comment);
    CHECK(jatshegi_board_load(board, text, count, &used) == JATSHEGI_PGN_TOO_LARGE && used <= count);
    CHECK(jatshegi_board_comment_of(board, NULL, 0, &count) == JATSHEGI_NO_ROOM && count == sizeof comment);
    CHECK(jatshegi_board_comment(board, NULL, 0) == JATSHEGI_OK);
}

/* A game that is over goes on where a move is legal. */
static void goes_on(struct jatshegi_board *board) {
    static const char fen[] = "4k3/8/8/8/8/8/8/4K2N w - - 0 1";
    uint32_t outcome = JATSHEGI_PLAY;
    bool added = false;
    CHECK(jatshegi_board_set(board, fen, sizeof fen - 1) == JATSHEGI_OK);
    CHECK(jatshegi_board_outcome(board, &outcome) == JATSHEGI_OK && outcome == JATSHEGI_DEAD);
    CHECK(jatshegi_board_play_text(board, "Ke2", 3, &added) == JATSHEGI_OK && added);
}

/* A user's takeback is `delete`: `undo` leaves a move with a comment as a variation. */
static void taken_back(struct jatshegi_board *board) {
    uint32_t children = 0;
    bool added = false;
    CHECK(jatshegi_board_start(board) == JATSHEGI_OK);
    CHECK(jatshegi_board_play_text(board, "Kd2", 3, &added) == JATSHEGI_OK && added);
    CHECK(jatshegi_board_comment(board, "[%clk 0:05:00]", 14) == JATSHEGI_OK);
    CHECK(jatshegi_board_undo(board, added) == JATSHEGI_OK);
    CHECK(jatshegi_board_children(board, &children) == JATSHEGI_OK && children == 2);
    CHECK(jatshegi_board_step(board, 1) == JATSHEGI_OK && jatshegi_board_delete(board) == JATSHEGI_OK);
    CHECK(jatshegi_board_children(board, &children) == JATSHEGI_OK && children == 1);
}

/* A board takes little memory before a line is answered, or an event comes; and what answers take is given back. */
static void little_memory(const struct jatshegi_keys *keys) {
    struct jatshegi_board board = JATSHEGI_NO_BOARD;
    size_t before = held();
    bool added;
    CHECK(jatshegi_board_new(keys, &board) == JATSHEGI_OK);
    size_t fresh = held() - before;
    printf("a board takes %zu bytes\n", fresh);
    CHECK(fresh <= 3072);
    CHECK(jatshegi_board_play_text(&board, "e4", 2, &added) == JATSHEGI_OK && added);
    size_t played = held();
    CHECK(answer_length("path", &board) == 2);
    CHECK(held() >= played + 65536 && held() <= played + 66000);
    CHECK(jatshegi_board_trim(&board) == JATSHEGI_OK && held() == played);
    CHECK(jatshegi_board_trim(&board) == JATSHEGI_OK && held() == played);
    CHECK(answer_length("path", &board) == 2);
    jatshegi_board_free(&board);
    CHECK(held() == before);
}

/* With a word the memory isn't looked at: that of the library in C for any compiler is another. */
int main(int count, char **words) {
    static struct jatshegi_keys keys;
    struct jatshegi_board board = JATSHEGI_NO_BOARD;
    (void)words;
    jatshegi_keys_fill(&keys);
    printf("habits\n");
    if (count == 1) little_memory(&keys);
    nothing_is_freed();
    CHECK(jatshegi_board_new(&keys, &board) == JATSHEGI_OK);
    empty_texts(&board);
    empty_rooms(&board, &board);
    too_long(&board);
    goes_on(&board);
    taken_back(&board);
    moved(&keys);
    jatshegi_board_free(&board);
    printf("%d passed, %d failed\n", passed, failed);
    return failed != 0;
}
