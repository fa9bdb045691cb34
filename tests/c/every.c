/* Goes through every function of jatshegi.h, on a board and on none; ends with status 0 where each answered what the Laws say. C11, and C++. */
#include <inttypes.h>
#include <stdio.h>
#include <stdlib.h>
#include <string.h>

#include "jatshegi.h"

static struct jatshegi_keys keys;
static int checks, failures;

static void check(int holds, const char *what, int line) {
    checks++;
    if (!holds) {
        failures++;
        printf("line %d: not %s\n", line, what);
    }
}
#define CHECK(holds) check((holds), #holds, __LINE__)

static struct jatshegi_move move_of(unsigned from, unsigned to, unsigned promotion) {
    struct jatshegi_move m;
    m.from = (uint8_t)from;
    m.to = (uint8_t)to;
    m.promotion = (uint8_t)promotion;
    return m;
}

static uint32_t set(struct jatshegi_board *board, const char *fen) { return jatshegi_board_set(board, fen, strlen(fen)); }

/* What the last move that was played said. */
static bool added;

static uint32_t play(struct jatshegi_board *board, const char *text) { return jatshegi_board_play_text(board, text, strlen(text), &added); }

static uint32_t make(struct jatshegi_board *board, struct jatshegi_move m) { return jatshegi_board_play(board, m, &added); }

static int fen_is(struct jatshegi_board *board, const char *wanted) {
    char text[JATSHEGI_MOST_FEN];
    size_t length = 0;
    return jatshegi_board_fen(board, text, sizeof text, &length) == JATSHEGI_OK && length == strlen(wanted) && memcmp(text, wanted, length) == 0;
}

static int answers(struct jatshegi_board *board, const char *line, const char *wanted) {
    char text[JATSHEGI_MOST_ANSWER];
    size_t length = 0;
    return jatshegi_board_answer(board, line, strlen(line), text, sizeof text, &length) == JATSHEGI_OK && length == strlen(wanted) &&
           memcmp(text, wanted, length) == 0;
}

static int writes(struct jatshegi_board *board, struct jatshegi_move m, const char *wanted) {
    char text[JATSHEGI_MOST_SAN];
    size_t length = 0;
    return jatshegi_board_write(board, m, text, sizeof text, &length) == JATSHEGI_OK && length == strlen(wanted) && memcmp(text, wanted, length) == 0;
}

#define SEVEN_TAGS_OF(result, others) \
    "[Event \"?\"]\n[Site \"?\"]\n[Date \"????.??.??\"]\n[Round \"?\"]\n[White \"?\"]\n[Black \"?\"]\n[Result \"" result "\"]\n" others "\n"
#define SEVEN_TAGS SEVEN_TAGS_OF("*", "")
static const char START[] = "rnbqkbnr/pppppppp/8/8/8/8/PPPPPPPP/RNBQKBNR w KQkq - 0 1";

/* An opening book: an entry of a smaller key; of the start e2e4 with the weight 258, e2e5 and g1f3; and one of a greater key. */
static const char BOOK[] = "\x01\x00\x00\x00\x00\x00\x00\x00\x00\x00\x00\x01\x00\x00\x00\x00"
                           "\x46\x3b\x96\x18\x16\x91\xfc\x9c\x03\x1c\x01\x02\x01\x02\x03\x04"
                           "\x46\x3b\x96\x18\x16\x91\xfc\x9c\x03\x24\x00\x01\x00\x00\x00\x00"
                           "\x46\x3b\x96\x18\x16\x91\xfc\x9c\x01\x95\x00\x01\x00\x00\x00\x00"
                           "\x80\x00\x00\x00\x00\x00\x00\x00\x03\x1c\x00\x01\x00\x00\x00\x00";

static void without_a_board(void) {
    struct jatshegi_board none = JATSHEGI_NO_BOARD, other = JATSHEGI_NO_BOARD;
    struct jatshegi_stop stop = JATSHEGI_NO_STOP, stop_too = JATSHEGI_NO_STOP;
    uint64_t visited = 7;
    struct jatshegi_move moves[JATSHEGI_MOST_MOVES], m = move_of(12, 28, 0);
    uint8_t white[64], black[64];
    uint32_t number = 7;
    int32_t value = 7;
    size_t count = 7;
    uint64_t bits = 7;
    bool searching = false;
    char text[8];
    struct jatshegi_position position;
    memset(&position, 7, sizeof position);
    CHECK(set(&none, START) == JATSHEGI_EMPTY);
    CHECK(jatshegi_board_set_position(&none, &position) == JATSHEGI_EMPTY);
    CHECK(jatshegi_board_position(&none, &position) == JATSHEGI_EMPTY && position.men[0] == 7 && position.side == 7 && position.number == 0x07070707);
    CHECK(jatshegi_board_fen(&none, text, sizeof text, &count) == JATSHEGI_EMPTY && jatshegi_board_epd(&none, text, sizeof text, &count) == JATSHEGI_EMPTY);
    CHECK(jatshegi_board_moves(&none, moves, JATSHEGI_MOST_MOVES, &count) == JATSHEGI_EMPTY);
    CHECK(jatshegi_board_line(&none, moves, JATSHEGI_MOST_MOVES, &count) == JATSHEGI_EMPTY);
    added = true;
    CHECK(make(&none, m) == JATSHEGI_EMPTY && added);
    CHECK(play(&none, "e4") == JATSHEGI_EMPTY && added);
    CHECK(jatshegi_board_back(&none) == JATSHEGI_EMPTY);
    CHECK(jatshegi_board_undo(&none, true) == JATSHEGI_EMPTY && jatshegi_board_undo(&none, false) == JATSHEGI_EMPTY);
    CHECK(jatshegi_board_read(&none, "e4", 2, &m) == JATSHEGI_EMPTY);
    CHECK(jatshegi_board_write(&none, m, text, sizeof text, &count) == JATSHEGI_EMPTY);
    CHECK(jatshegi_board_outcome(&none, &number) == JATSHEGI_EMPTY);
    CHECK(jatshegi_board_claims(&none, &number) == JATSHEGI_EMPTY);
    CHECK(jatshegi_board_claims_with(&none, m, &number) == JATSHEGI_EMPTY);
    CHECK(jatshegi_board_repetitions(&none, &number) == JATSHEGI_EMPTY);
    CHECK(jatshegi_board_checks(&none, white) == JATSHEGI_EMPTY);
    CHECK(jatshegi_board_counts(&none, white, black) == JATSHEGI_EMPTY);
    CHECK(jatshegi_board_attackers(&none, JATSHEGI_WHITE, 0, &bits) == JATSHEGI_EMPTY && bits == 7);
    {
        uint8_t colour = 7;
        char piece = 7;
        bool is_so = true;
        CHECK(jatshegi_board_turn(&none, &colour) == JATSHEGI_EMPTY && colour == 7);
        CHECK(jatshegi_board_piece_at(&none, 0, &piece) == JATSHEGI_EMPTY && piece == 7);
        CHECK(jatshegi_board_in_check(&none, &is_so) == JATSHEGI_EMPTY && is_so);
        CHECK(jatshegi_board_is_legal(&none, m, &is_so) == JATSHEGI_EMPTY && is_so);
    }
    CHECK(jatshegi_board_key(&none, &bits) == JATSHEGI_EMPTY && bits == 7);
    number = 7;
    CHECK(jatshegi_board_kinds(&none, m, &number) == JATSHEGI_EMPTY && number == 7);
    added = true;
    CHECK(jatshegi_board_cannot_mate(&none, JATSHEGI_WHITE, &added) == JATSHEGI_EMPTY && added);
    {
        uint16_t weight = 7;
        CHECK(jatshegi_board_book_move(&none, BOOK, sizeof BOOK - 1, 0, &m, &weight, &number) == JATSHEGI_EMPTY && weight == 7 && number == 7);
    }
    CHECK(jatshegi_board_evaluation(&none, &value) == JATSHEGI_EMPTY);
    CHECK(jatshegi_board_best(&none, 1, &m, &value) == JATSHEGI_EMPTY);
    CHECK(jatshegi_search_start(&none, 1) == JATSHEGI_EMPTY && jatshegi_search_slice(&none, &count) == JATSHEGI_EMPTY);
    CHECK(jatshegi_search_best(&none, &m, &value) == JATSHEGI_EMPTY && jatshegi_search_end(&none) == JATSHEGI_EMPTY);
    CHECK(jatshegi_engine_line(&none, "uci", 3, text, sizeof text, &count) == JATSHEGI_EMPTY);
    CHECK(jatshegi_engine_slice(&none, text, sizeof text, &count) == JATSHEGI_EMPTY && jatshegi_engine_moment(&none, 1, text, sizeof text, &count) == JATSHEGI_EMPTY);
    CHECK(jatshegi_engine_searching(&none, &searching) == JATSHEGI_EMPTY && !searching && count == 7);
    CHECK(jatshegi_engine_infinite(&none, &searching) == JATSHEGI_EMPTY && jatshegi_engine_waiting(&none, &searching) == JATSHEGI_EMPTY);
    CHECK(jatshegi_engine_ended(&none, &searching) == JATSHEGI_EMPTY && !searching && jatshegi_engine_time_left(&none, &bits) == JATSHEGI_EMPTY && bits == 7);
    CHECK(jatshegi_engine_slice_within(&none, 9, &stop, &searching, &visited, text, sizeof text, &count) == JATSHEGI_EMPTY && !searching);
    CHECK(jatshegi_search_slice_within(&none, 9, &stop, &count, &visited) == JATSHEGI_EMPTY);
    CHECK(jatshegi_board_best_within(&none, 1, 9, &stop, &m, &value, &visited) == JATSHEGI_EMPTY && visited == 7 && count == 7);
    CHECK(jatshegi_board_replies(&none, m, 1, 0, 9, &stop, &m, 1, &count, &visited) == JATSHEGI_EMPTY && visited == 7 && count == 7);
    CHECK(jatshegi_stop_set(&stop, true) == JATSHEGI_EMPTY && jatshegi_stop_share(&stop, &stop_too) == JATSHEGI_EMPTY);
    jatshegi_stop_free(&stop);
    CHECK(jatshegi_board_load(&none, "*", 1, &count) == JATSHEGI_EMPTY && count == 7);
    CHECK(jatshegi_board_load_next(&none, "*", 1, true, &count) == JATSHEGI_EMPTY && count == 7);
    CHECK(jatshegi_board_pgn(&none, text, sizeof text, &count) == JATSHEGI_EMPTY && jatshegi_board_tags(&none, 0, text, sizeof text, &count) == JATSHEGI_EMPTY);
    CHECK(jatshegi_board_tag(&none, "Event", 5, text, sizeof text, &count) == JATSHEGI_EMPTY && jatshegi_board_set_tag(&none, "A", 1, "b", 1) == JATSHEGI_EMPTY);
    CHECK(jatshegi_board_clear_tag(&none, "A", 1) == JATSHEGI_EMPTY && jatshegi_board_result(&none, &number) == JATSHEGI_EMPTY);
    CHECK(jatshegi_board_set_result(&none, JATSHEGI_DRAW) == JATSHEGI_EMPTY && jatshegi_board_copy(&none, &other) == JATSHEGI_EMPTY);
    CHECK(jatshegi_board_back(&other) == JATSHEGI_EMPTY);
    CHECK(jatshegi_board_step(&none, 0) == JATSHEGI_EMPTY);
    CHECK(jatshegi_board_depth(&none, &number) == JATSHEGI_EMPTY && jatshegi_board_children(&none, &number) == JATSHEGI_EMPTY && jatshegi_board_move(&none, &m) == JATSHEGI_EMPTY);
    CHECK(jatshegi_board_comment_of(&none, text, sizeof text, &count) == JATSHEGI_EMPTY && jatshegi_board_annotations_of(&none, white, sizeof white, &count) == JATSHEGI_EMPTY);
    CHECK(jatshegi_board_start(&none) == JATSHEGI_EMPTY);
    CHECK(jatshegi_board_end(&none) == JATSHEGI_EMPTY);
    CHECK(jatshegi_board_promote(&none) == JATSHEGI_EMPTY);
    CHECK(jatshegi_board_delete(&none) == JATSHEGI_EMPTY);
    CHECK(jatshegi_board_comment(&none, "", 0) == JATSHEGI_EMPTY);
    CHECK(jatshegi_board_annotate(&none, 1) == JATSHEGI_EMPTY && jatshegi_board_clear_annotations(&none) == JATSHEGI_EMPTY);
    CHECK(jatshegi_board_answer(&none, "fen", 3, text, sizeof text, &count) == JATSHEGI_EMPTY);
    CHECK(number == 7 && value == 7 && count == 7 && m.from == 12 && m.to == 28 && m.promotion == 0);
    jatshegi_board_free(&none);
    jatshegi_board_free(&none);
}

static void fens(struct jatshegi_board *b) {
    static const struct {
        const char *fen;
        uint32_t status;
    } rows[] = {
        {"8/8/8/8/8/8/8/8 w -", JATSHEGI_FEN_FIELDS},
        {"9/8/8/8/8/8/8/8 w - -", JATSHEGI_FEN_PLACEMENT},
        {"8/8/8/8/8/8/8/8 w - -", JATSHEGI_FEN_KINGS},
        {"k6P/8/8/8/8/8/8/K7 w - -", JATSHEGI_FEN_PAWN_RANK},
        {"k7/8/8/8/8/1Q6/QQQQQQQQ/KQQQQQQQ w - -", JATSHEGI_FEN_TOO_MANY_MEN},
        {"k7/8/8/8/8/8/8/K7 white - -", JATSHEGI_FEN_SIDE},
        {"k7/8/8/8/8/8/8/K7 w KK -", JATSHEGI_FEN_CASTLING},
        {"k7/8/8/8/8/8/8/K7 w - e9", JATSHEGI_FEN_TARGET},
        {"k7/8/8/8/8/8/8/K7 w - - 100000 1", JATSHEGI_FEN_COUNTER},
    };
    CHECK(set(b, START) == JATSHEGI_OK);
    for (size_t i = 0; i < sizeof rows / sizeof rows[0]; i++) {
        CHECK(set(b, rows[i].fen) == rows[i].status);
        CHECK(fen_is(b, START));
    }
    CHECK(set(b, "k7/8/8/8/8/8/8/KQ6 w - -") == JATSHEGI_OK);
    CHECK(set(b, "kQ6/8/8/8/8/8/8/K7 w - -") == JATSHEGI_FEN_IN_CHECK);
    CHECK(fen_is(b, "k7/8/8/8/8/8/8/KQ6 w - - 0 1"));
}

/* The position of a FEN, by its fields. */
static struct jatshegi_position position_of(struct jatshegi_board *b, const char *fen) {
    struct jatshegi_position p;
    memset(&p, 7, sizeof p);
    CHECK(set(b, fen) == JATSHEGI_OK && jatshegi_board_position(b, &p) == JATSHEGI_OK);
    return p;
}

/* The position that is left of the start by these changes isn't taken. */
static void refuses(struct jatshegi_board *b, const struct jatshegi_position *p, uint32_t wanted, int line) {
    uint32_t status = jatshegi_board_set_position(b, p);
    check(status == wanted, "refused so", line);
    check(fen_is(b, START), "as it was", line);
}
#define REFUSES(change, wanted) \
    do {                        \
        p = start;              \
        change;                 \
        refuses(b, &p, wanted, __LINE__); \
    } while (0)

static void positions(struct jatshegi_board *b) {
    static const char *const fens_of[] = {START, "4k2r/8/8/8/4P3/8/8/4K3 b k e3 7 9", "r3k3/8/8/2pP4/8/8/8/R3K2R w KQq c6 0 99999", "k7/8/8/8/8/8/8/K7 b - - 99999 2"};
    struct jatshegi_position p = position_of(b, fens_of[1]), start;
    CHECK(p.men[4] == 'K' && p.men[28] == 'P' && p.men[60] == 'k' && p.men[63] == 'r' && p.men[0] == 0 && p.men[62] == 0);
    CHECK(p.side == JATSHEGI_BLACK && p.castling == JATSHEGI_BLACK_KING_SIDE && p.target == 20 && p.clock == 7 && p.number == 9);
    for (size_t i = 0; i < sizeof fens_of / sizeof fens_of[0]; i++) {
        p = position_of(b, fens_of[i]);
        CHECK(set(b, START) == JATSHEGI_OK && play(b, "e4") == JATSHEGI_OK);
        CHECK(jatshegi_board_set_position(b, &p) == JATSHEGI_OK && fen_is(b, fens_of[i]) && answers(b, "path", "-\n"));
    }
    memset(&p, 0, sizeof p);
    p.men[4] = 'K', p.men[7] = 'R', p.men[60] = 'k', p.men[56] = 'r';
    p.castling = JATSHEGI_WHITE_KING_SIDE + JATSHEGI_BLACK_QUEEN_SIDE, p.target = JATSHEGI_NO_SQUARE, p.number = 1;
    CHECK(jatshegi_board_set_position(b, &p) == JATSHEGI_OK && fen_is(b, "r3k3/8/8/8/8/8/8/4K2R w Kq - 0 1") && play(b, "O-O") == JATSHEGI_OK);
    start = position_of(b, START);
    CHECK(start.castling == 15 && start.side == JATSHEGI_WHITE && start.target == JATSHEGI_NO_SQUARE && start.clock == 0 && start.number == 1);
    REFUSES(p.men[0] = 'x', JATSHEGI_FEN_PLACEMENT);
    REFUSES(p.men[63] = '1', JATSHEGI_FEN_PLACEMENT);
    REFUSES(p.side = 2, JATSHEGI_FEN_SIDE);
    REFUSES(p.castling = 16, JATSHEGI_FEN_CASTLING);
    REFUSES(p.target = 65, JATSHEGI_FEN_TARGET);
    REFUSES(p.clock = 100000, JATSHEGI_FEN_COUNTER);
    REFUSES(p.number = 100000, JATSHEGI_FEN_COUNTER);
    REFUSES(p.men[4] = 0, JATSHEGI_FEN_KINGS);
    REFUSES(p.men[0] = 'P', JATSHEGI_FEN_PAWN_RANK);
    REFUSES(p.men[16] = 'Q', JATSHEGI_FEN_TOO_MANY_MEN);
    REFUSES(p.men[7] = 0, JATSHEGI_FEN_CASTLING);
    REFUSES(p.target = 44, JATSHEGI_FEN_TARGET);
    REFUSES(p.number = 0, JATSHEGI_FEN_COUNTER);
    REFUSES((p.men[52] = 0, p.men[12] = 'Q', p.men[3] = 0), JATSHEGI_FEN_IN_CHECK);
    REFUSES((p.men[4] = 0, p.side = 2), JATSHEGI_FEN_SIDE);
}

static int is_long(struct jatshegi_move m, const char *wanted) {
    struct jatshegi_move back = move_of(9, 9, 9);
    char text[JATSHEGI_MOST_UCI];
    size_t length = 0;
    if (jatshegi_move_write(m, text, sizeof text, &length) != JATSHEGI_OK || length != strlen(wanted) || memcmp(text, wanted, length) != 0) return 0;
    return jatshegi_move_read(text, length, &back) == JATSHEGI_OK && back.from == m.from && back.to == m.to && back.promotion == m.promotion;
}

static void long_texts(void) {
    static const char *const others[] = {"", "e2", "e2e9", "e2e4k", "e2e4qq", "E2E4", "e2-e4"};
    struct jatshegi_move m = move_of(9, 9, 9);
    char text[] = "xxxxx";
    size_t length = 7;
    CHECK(is_long(move_of(12, 28, 0), "e2e4") && is_long(move_of(4, 6, 0), "e1g1") && is_long(move_of(63, 0, 0), "h8a1"));
    CHECK(is_long(move_of(52, 60, JATSHEGI_QUEEN), "e7e8q") && is_long(move_of(52, 61, JATSHEGI_ROOK), "e7f8r"));
    CHECK(is_long(move_of(12, 4, JATSHEGI_BISHOP), "e2e1b") && is_long(move_of(12, 3, JATSHEGI_KNIGHT), "e2d1n"));
    CHECK(jatshegi_move_write(move_of(64, 0, 0), text, 5, &length) == JATSHEGI_ARGUMENT && jatshegi_move_write(move_of(0, 64, 0), text, 5, &length) == JATSHEGI_ARGUMENT);
    CHECK(jatshegi_move_write(move_of(0, 1, 5), text, 5, &length) == JATSHEGI_ARGUMENT && length == 7);
    CHECK(jatshegi_move_write(move_of(52, 60, 4), text, 4, &length) == JATSHEGI_NO_ROOM && length == 5 && text[0] == 'x');
    CHECK(jatshegi_move_write(move_of(12, 28, 0), text, 4, &length) == JATSHEGI_OK && length == 4 && memcmp(text, "e2e4x", 5) == 0);
    for (size_t i = 0; i < sizeof others / sizeof others[0]; i++) CHECK(jatshegi_move_read(others[i], strlen(others[i]), &m) == JATSHEGI_FORM && m.from == 9);
}

static void moves(struct jatshegi_board *b) {
    struct jatshegi_move found[JATSHEGI_MOST_MOVES], m;
    size_t count = 0;
    memset(found, 99, sizeof found);
    CHECK(set(b, START) == JATSHEGI_OK);
    CHECK(jatshegi_board_moves(b, found, 19, &count) == JATSHEGI_NO_ROOM && count == 20 && found[0].from == 99);
    CHECK(jatshegi_board_moves(b, found, 20, &count) == JATSHEGI_OK && count == 20);
    CHECK(found[0].from == 1 && found[0].to == 16 && found[0].promotion == 0 && found[20].from == 99);
    for (size_t i = 0; i < count; i++) {
        CHECK(make(b, found[i]) == JATSHEGI_OK && added);
        CHECK(jatshegi_board_back(b) == JATSHEGI_OK);
        CHECK(make(b, found[i]) == JATSHEGI_OK && !added);
        CHECK(jatshegi_board_back(b) == JATSHEGI_OK);
    }
    CHECK(fen_is(b, START));
    CHECK(jatshegi_board_back(b) == JATSHEGI_AT_ROOT);
    CHECK(make(b, move_of(12, 36, 0)) == JATSHEGI_ILLEGAL && !added);
    added = true;
    CHECK(make(b, move_of(64, 28, 0)) == JATSHEGI_ILLEGAL && added);
    CHECK(make(b, move_of(12, 255, 0)) == JATSHEGI_ILLEGAL);
    CHECK(make(b, move_of(12, 28, 5)) == JATSHEGI_ILLEGAL);
    CHECK(play(b, "e5") == JATSHEGI_ILLEGAL && added);
    CHECK(play(b, "castle") == JATSHEGI_FORM && added);
    CHECK(fen_is(b, START));
    CHECK(jatshegi_board_read(b, "Nf3", 3, &m) == JATSHEGI_OK && m.from == 6 && m.to == 21 && m.promotion == 0);
    CHECK(jatshegi_board_read(b, "Nf4", 3, &m) == JATSHEGI_ILLEGAL && m.from == 6);
    CHECK(jatshegi_board_read(b, "", 0, &m) == JATSHEGI_FORM);
    CHECK(set(b, "k7/7P/8/8/8/8/8/K1N3N1 w - -") == JATSHEGI_OK);
    CHECK(play(b, "Ne2") == JATSHEGI_AMBIGUOUS);
    CHECK(jatshegi_board_read(b, "Ne2", 3, &m) == JATSHEGI_AMBIGUOUS);
    CHECK(writes(b, move_of(2, 12, 0), "Nce2"));
    CHECK(writes(b, move_of(55, 63, 4), "h8=Q+"));
    CHECK(writes(b, move_of(55, 63, 3), "h8=R+"));
    CHECK(writes(b, move_of(55, 63, 2), "h8=B"));
    CHECK(writes(b, move_of(55, 63, 1), "h8=N"));
    CHECK(jatshegi_board_write(b, move_of(55, 63, 0), (char *)found, 8, &count) == JATSHEGI_ILLEGAL);
    CHECK(jatshegi_board_write(b, move_of(55, 63, 9), (char *)found, 8, &count) == JATSHEGI_ILLEGAL);
    CHECK(jatshegi_board_write(b, move_of(55, 63, 4), (char *)found, 4, &count) == JATSHEGI_NO_ROOM && count == 5);
    CHECK(make(b, move_of(55, 63, 4)) == JATSHEGI_OK && added);
    CHECK(fen_is(b, "k6Q/8/8/8/8/8/8/K1N3N1 b - - 0 1"));
    CHECK(jatshegi_board_fen(b, (char *)found, 3, &count) == JATSHEGI_NO_ROOM && count == 32);
}

static void outcomes(struct jatshegi_board *b) {
    uint32_t number = 9;
    static const char *const there[] = {"Nf3", "Nf6", "Ng1", "Ng8"};
    CHECK(set(b, START) == JATSHEGI_OK);
    CHECK(jatshegi_board_outcome(b, &number) == JATSHEGI_OK && number == JATSHEGI_PLAY);
    for (uint32_t round = 1; round < 5; round++) {
        CHECK(jatshegi_board_repetitions(b, &number) == JATSHEGI_OK && number == round);
        CHECK(jatshegi_board_claims(b, &number) == JATSHEGI_OK && number == (round > 2 ? 1u : 0u));
        for (int i = 0; i < 4; i++) {
            CHECK(jatshegi_board_claims_with(b, move_of(12, 28, 0), &number) == (i % 2 ? JATSHEGI_ILLEGAL : JATSHEGI_OK));
            CHECK(play(b, there[i]) == JATSHEGI_OK);
        }
    }
    CHECK(jatshegi_board_outcome(b, &number) == JATSHEGI_OK && number == JATSHEGI_FIVEFOLD);
    CHECK(set(b, "7k/8/6K1/8/8/8/8/R7 w - - 149 90") == JATSHEGI_OK);
    CHECK(jatshegi_board_claims(b, &number) == JATSHEGI_OK && number == JATSHEGI_FIFTY);
    CHECK(jatshegi_board_claims_with(b, move_of(0, 8, 0), &number) == JATSHEGI_OK && number == JATSHEGI_FIFTY);
    CHECK(jatshegi_board_claims_with(b, move_of(0, 9, 0), &number) == JATSHEGI_ILLEGAL);
    CHECK(jatshegi_board_claims_with(b, move_of(0, 99, 0), &number) == JATSHEGI_ILLEGAL);
    CHECK(play(b, "Ra8#") == JATSHEGI_OK);
    CHECK(jatshegi_board_outcome(b, &number) == JATSHEGI_OK && number == JATSHEGI_MATE);
    CHECK(jatshegi_board_back(b) == JATSHEGI_OK);
    CHECK(play(b, "a1a2") == JATSHEGI_OK);
    CHECK(jatshegi_board_outcome(b, &number) == JATSHEGI_OK && number == JATSHEGI_SEVENTYFIVE);
    CHECK(set(b, "7k/8/6Q1/8/8/8/8/K7 b - -") == JATSHEGI_OK);
    CHECK(jatshegi_board_outcome(b, &number) == JATSHEGI_OK && number == JATSHEGI_STALEMATE);
    CHECK(set(b, "7k/8/8/8/8/8/8/K7 b - -") == JATSHEGI_OK);
    CHECK(jatshegi_board_outcome(b, &number) == JATSHEGI_OK && number == JATSHEGI_DEAD);
}

static void numbers(struct jatshegi_board *b) {
    uint8_t white[64], black[64];
    uint64_t bits = 0;
    int32_t value = 5;
    struct jatshegi_move m = move_of(0, 0, 0);
    int sum = 0;
    CHECK(set(b, START) == JATSHEGI_OK);
    CHECK(jatshegi_board_counts(b, white, black) == JATSHEGI_OK);
    CHECK(white[0] == 0 && white[16] == 2 && white[18] == 3 && black[18] == 0 && black[42] == 3 && white[12] == 4);
    {
        uint8_t colour = 7;
        char piece = 7;
        bool is_so = true;
        CHECK(jatshegi_board_turn(b, &colour) == JATSHEGI_OK && colour == JATSHEGI_WHITE);
        CHECK(jatshegi_board_piece_at(b, 4, &piece) == JATSHEGI_OK && piece == 'K');
        CHECK(jatshegi_board_piece_at(b, 59, &piece) == JATSHEGI_OK && piece == 'q');
        CHECK(jatshegi_board_piece_at(b, 64, &piece) == JATSHEGI_ARGUMENT && piece == 'q');
        CHECK(jatshegi_board_piece_at(b, 28, &piece) == JATSHEGI_OK && piece == 0);
        CHECK(jatshegi_board_in_check(b, &is_so) == JATSHEGI_OK && !is_so);
        CHECK(jatshegi_board_is_legal(b, move_of(12, 28, 0), &is_so) == JATSHEGI_OK && is_so);
        CHECK(jatshegi_board_is_legal(b, move_of(12, 28, 1), &is_so) == JATSHEGI_OK && !is_so);
        CHECK(jatshegi_board_is_legal(b, move_of(52, 36, 0), &is_so) == JATSHEGI_OK && !is_so);
        CHECK(jatshegi_board_is_legal(b, move_of(12, 99, 0), &is_so) == JATSHEGI_OK && !is_so);
        CHECK(play(b, "f3") == JATSHEGI_OK && play(b, "e5") == JATSHEGI_OK && play(b, "g4") == JATSHEGI_OK);
        CHECK(jatshegi_board_turn(b, &colour) == JATSHEGI_OK && colour == JATSHEGI_BLACK);
        CHECK(play(b, "Qh4#") == JATSHEGI_OK && jatshegi_board_in_check(b, &is_so) == JATSHEGI_OK && is_so);
        CHECK(set(b, START) == JATSHEGI_OK);
    }
    CHECK(jatshegi_board_attackers(b, JATSHEGI_WHITE, 18, &bits) == JATSHEGI_OK && bits == (1u << 1 | 1u << 9 | 1u << 11));
    CHECK(jatshegi_board_attackers(b, JATSHEGI_BLACK, 18, &bits) == JATSHEGI_OK && bits == 0);
    CHECK(jatshegi_board_attackers(b, JATSHEGI_BLACK, 53, &bits) == JATSHEGI_OK && bits == UINT64_C(1) << 60);
    bits = 7;
    CHECK(jatshegi_board_attackers(b, 2, 18, &bits) == JATSHEGI_ARGUMENT && jatshegi_board_attackers(b, JATSHEGI_WHITE, 64, &bits) == JATSHEGI_ARGUMENT && bits == 7);
    CHECK(jatshegi_board_evaluation(b, &value) == JATSHEGI_OK && value == 0);
    CHECK(jatshegi_board_checks(b, white) == JATSHEGI_OK);
    for (int i = 0; i < 64; i++) sum += white[i];
    CHECK(sum == 0);
    CHECK(set(b, "4k3/8/3N4/8/4R3/8/8/K7 b - -") == JATSHEGI_OK);
    CHECK(jatshegi_board_checks(b, white) == JATSHEGI_OK);
    for (int i = 0; i < 64; i++) sum += white[i];
    CHECK(sum == 2 && white[28] == 1 && white[43] == 1);
    CHECK(set(b, "7k/8/6K1/8/8/8/8/R7 w - - 0 1") == JATSHEGI_OK);
    CHECK(jatshegi_board_best(b, 3, &m, &value) == JATSHEGI_OK && m.from == 0 && m.to == 56 && value == 29999);
    CHECK(jatshegi_board_best(b, 0, &m, &value) == JATSHEGI_ARGUMENT);
    CHECK(jatshegi_board_best(b, 17, &m, &value) == JATSHEGI_ARGUMENT);
    CHECK(play(b, "Ra8") == JATSHEGI_OK);
    CHECK(jatshegi_board_best(b, 1, &m, &value) == JATSHEGI_NONE && m.to == 56);
}

static void trees(struct jatshegi_board *b) {
    CHECK(set(b, START) == JATSHEGI_OK);
    CHECK(play(b, "e4") == JATSHEGI_OK && play(b, "e5") == JATSHEGI_OK && jatshegi_board_back(b) == JATSHEGI_OK);
    CHECK(play(b, "c5") == JATSHEGI_OK);
    CHECK(jatshegi_board_comment(b, "the  Sicilian", 13) == JATSHEGI_OK);
    CHECK(jatshegi_board_comment(b, "}", 1) == JATSHEGI_BAD_COMMENT);
    CHECK(jatshegi_board_annotate(b, 1) == JATSHEGI_OK);
    CHECK(answers(b, "path", "0.1\n"));
    CHECK(answers(b, "pgn", SEVEN_TAGS "1. e4 e5 (1... c5 $1 {the Sicilian}) *\n\n"));
    CHECK(jatshegi_board_promote(b) == JATSHEGI_OK && answers(b, "path", "0.0\n"));
    CHECK(jatshegi_board_start(b) == JATSHEGI_OK && answers(b, "path", "-\n"));
    CHECK(jatshegi_board_annotate(b, 1) == JATSHEGI_AT_ROOT && jatshegi_board_promote(b) == JATSHEGI_AT_ROOT && jatshegi_board_delete(b) == JATSHEGI_AT_ROOT);
    CHECK(jatshegi_board_step(b, 1) == JATSHEGI_NO_SUCH && jatshegi_board_step(b, 0) == JATSHEGI_OK);
    CHECK(jatshegi_board_end(b) == JATSHEGI_OK && answers(b, "path", "0.0\n"));
    CHECK(jatshegi_board_delete(b) == JATSHEGI_OK && answers(b, "path", "0\n"));
    CHECK(jatshegi_board_end(b) == JATSHEGI_OK && answers(b, "path", "0.0\n"));
    CHECK(fen_is(b, "rnbqkbnr/pppp1ppp/8/4p3/4P3/8/PPPP1PPP/RNBQKBNR w KQkq e6 0 2"));
}

/* How many leaves the tree of legal moves has `depth` plies below the position, by moves that are played and taken back. */
static uint64_t perft(struct jatshegi_board *b, int depth) {
    struct jatshegi_move found[JATSHEGI_MOST_MOVES];
    uint64_t leaves = 0;
    size_t count = 0;
    if (jatshegi_board_moves(b, found, JATSHEGI_MOST_MOVES, &count) != JATSHEGI_OK || depth == 1) return count;
    for (size_t i = 0; i < count; i++) {
        bool is_new = false;
        if (jatshegi_board_play(b, found[i], &is_new) != JATSHEGI_OK) return 0;
        leaves += perft(b, depth - 1);
        if (jatshegi_board_undo(b, is_new) != JATSHEGI_OK) return 0;
    }
    return leaves;
}

static void undone(struct jatshegi_board *b) {
    static const char game[] = "{start} 1. d4 $1 (1. c4 {a} c5) 1... d5 *", wanted[] = SEVEN_TAGS "{start} 1. d4 $1 (1. c4 {a} 1... c5) 1... d5 *\n\n";
    struct jatshegi_move found[JATSHEGI_MOST_MOVES];
    size_t used = 0, count = 0;
    CHECK(set(b, START) == JATSHEGI_OK && jatshegi_board_undo(b, true) == JATSHEGI_AT_ROOT && jatshegi_board_undo(b, false) == JATSHEGI_AT_ROOT);
    CHECK(perft(b, 4) == 197281 && answers(b, "pgn", SEVEN_TAGS "*\n\n") && answers(b, "path", "-\n"));
    CHECK(set(b, "r3k2r/p1ppqpb1/bn2pnp1/3PN3/1p2P3/2N2Q1p/PPPBBPPP/R3K2R w KQkq - 0 1") == JATSHEGI_OK && perft(b, 3) == 97862 && answers(b, "step 0", "refused 1 NoSuch\n"));
    /* A game that was there stays as it is, whatever is tried in each of its positions. */
    CHECK(jatshegi_board_load(b, game, strlen(game), &used) == JATSHEGI_OK && perft(b, 3) == 8902 && answers(b, "pgn", wanted));
    for (int step = 0; step < 2; step++) {
        CHECK(jatshegi_board_step(b, 0) == JATSHEGI_OK && jatshegi_board_moves(b, found, JATSHEGI_MOST_MOVES, &count) == JATSHEGI_OK);
        for (size_t i = 0; i < count; i++) CHECK(make(b, found[i]) == JATSHEGI_OK && jatshegi_board_undo(b, added) == JATSHEGI_OK);
    }
    CHECK(answers(b, "path", "0.0\n") && answers(b, "pgn", wanted));
    /* What play found stays; so does a node that something hangs on: a child, a comment, an annotation number. */
    CHECK(jatshegi_board_start(b) == JATSHEGI_OK && play(b, "d4") == JATSHEGI_OK && !added && play(b, "d5") == JATSHEGI_OK && !added);
    CHECK(jatshegi_board_undo(b, added) == JATSHEGI_OK && answers(b, "path", "0\n") && jatshegi_board_undo(b, false) == JATSHEGI_OK && answers(b, "pgn", wanted));
    CHECK(set(b, START) == JATSHEGI_OK && play(b, "e4") == JATSHEGI_OK && added && play(b, "e5") == JATSHEGI_OK && added);
    CHECK(jatshegi_board_back(b) == JATSHEGI_OK && jatshegi_board_undo(b, true) == JATSHEGI_OK && play(b, "d4") == JATSHEGI_OK && added);
    CHECK(jatshegi_board_comment(b, "x", 1) == JATSHEGI_OK && jatshegi_board_undo(b, true) == JATSHEGI_OK && play(b, "c4") == JATSHEGI_OK && added);
    CHECK(jatshegi_board_annotate(b, 6) == JATSHEGI_OK && jatshegi_board_undo(b, true) == JATSHEGI_OK && answers(b, "path", "-\n"));
    CHECK(answers(b, "pgn", SEVEN_TAGS "1. e4 (1. d4 {x}) (1. c4 $6) 1... e5 *\n\n"));
    /* Before its siblings it is taken out all the same. */
    CHECK(play(b, "b4") == JATSHEGI_OK && added && jatshegi_board_promote(b) == JATSHEGI_OK && jatshegi_board_undo(b, true) == JATSHEGI_OK);
    CHECK(answers(b, "pgn", SEVEN_TAGS "1. e4 (1. d4 {x}) (1. c4 $6) 1... e5 *\n\n") && fen_is(b, START));
}

/* The node at the cursor as `depth children move comment numbers`. */
static int node_is(struct jatshegi_board *b, uint32_t depth, uint32_t children, struct jatshegi_move m, const char *comment, const char *numbers) {
    struct jatshegi_move led = move_of(9, 9, 9);
    uint32_t is_below = 7, has = 7, status;
    uint8_t found[8];
    char text[64];
    size_t length = 0, count = 0;
    if (jatshegi_board_depth(b, &is_below) != JATSHEGI_OK || jatshegi_board_children(b, &has) != JATSHEGI_OK || is_below != depth || has != children) return 0;
    status = jatshegi_board_move(b, &led);
    if (status != (depth ? JATSHEGI_OK : JATSHEGI_AT_ROOT) || led.from != m.from || led.to != m.to || led.promotion != m.promotion) return 0;
    if (jatshegi_board_comment_of(b, text, sizeof text, &length) != JATSHEGI_OK || length != strlen(comment) || memcmp(text, comment, length) != 0) return 0;
    return jatshegi_board_annotations_of(b, found, sizeof found, &count) == JATSHEGI_OK && count == strlen(numbers) && memcmp(found, numbers, count) == 0;
}

static void nodes(struct jatshegi_board *b) {
    char text[4] = "xxx";
    size_t length = 0;
    CHECK(set(b, START) == JATSHEGI_OK && node_is(b, 0, 0, move_of(9, 9, 9), "", ""));
    CHECK(jatshegi_board_comment(b, "the start", 9) == JATSHEGI_OK && play(b, "e4") == JATSHEGI_OK && jatshegi_board_back(b) == JATSHEGI_OK && play(b, "d4") == JATSHEGI_OK);
    CHECK(jatshegi_board_annotate(b, 1) == JATSHEGI_OK && jatshegi_board_annotate(b, 14) == JATSHEGI_OK && jatshegi_board_comment(b, "good", 4) == JATSHEGI_OK);
    CHECK(node_is(b, 1, 0, move_of(11, 27, 0), "good", "\001\016"));
    CHECK(jatshegi_board_comment_of(b, text, 3, &length) == JATSHEGI_NO_ROOM && length == 4 && text[0] == 'x');
    CHECK(jatshegi_board_annotations_of(b, (uint8_t *)text, 1, &length) == JATSHEGI_NO_ROOM && length == 2 && text[0] == 'x');
    CHECK(jatshegi_board_clear_annotations(b) == JATSHEGI_OK && node_is(b, 1, 0, move_of(11, 27, 0), "good", ""));
    CHECK(jatshegi_board_clear_annotations(b) == JATSHEGI_OK && jatshegi_board_comment(b, " ", 1) == JATSHEGI_OK && node_is(b, 1, 0, move_of(11, 27, 0), "", ""));
    CHECK(jatshegi_board_back(b) == JATSHEGI_OK && node_is(b, 0, 2, move_of(9, 9, 9), "the start", ""));
    CHECK(jatshegi_board_clear_annotations(b) == JATSHEGI_AT_ROOT && node_is(b, 0, 2, move_of(9, 9, 9), "the start", ""));
    CHECK(jatshegi_board_step(b, 0) == JATSHEGI_OK && node_is(b, 1, 0, move_of(12, 28, 0), "", ""));
}

static void lines(struct jatshegi_board *b) {
    char text[4096];
    size_t count = 0;
    CHECK(answers(b, "new", "ok\n") && answers(b, "eval", "0\n") && answers(b, "", "") && answers(b, "eval\r", "0\n"));
    CHECK(answers(b, "play e5", "refused 2 Illegal\n") && answers(b, "dance", "refused 6 Command\n"));
    CHECK(answers(b, "play e4", "ok\n"));
    text[0] = 'x';
    CHECK(jatshegi_board_answer(b, "status", 6, text, 4, &count) == JATSHEGI_NO_ROOM && count == 5 && text[0] == 'x');
    CHECK(jatshegi_board_answer(b, "pgn", 3, text, 20, &count) == JATSHEGI_NO_ROOM && count > 80 && text[0] == 'x');
    size_t wanted = count;
    CHECK(jatshegi_board_answer(b, "pgn", 3, text, wanted, &count) == JATSHEGI_OK && count == wanted && memcmp(text + count - 9, "1. e4 *\n", 8) == 0);
    CHECK(jatshegi_board_answer(b, "back", 4, text, 0, &count) == JATSHEGI_NO_ROOM && count == 3 && fen_is(b, START));
    CHECK(answers(b, "back", "refused 2 AtRoot\n"));
}

static void games(void) {
    static const char text[] = "[White \"a\"]\n\n1.e4 e5(1...c5)2.Nf3 *\n\n[White \"b\"]\n\n1.e5 *\n\n[White \"c\"]\n\n*";
    static const char wanted[] = "[Event \"?\"]\n[Site \"?\"]\n[Date \"????.??.??\"]\n[Round \"?\"]\n[White \"a\"]\n[Black \"?\"]\n[Result \"*\"]\n\n1. e4 e5 (1... c5) 2. Nf3 *\n\n";
    size_t count = 7, used = 7, at;
    size_t passed = 7;
    char game[512];
    CHECK(jatshegi_game_read(text, strlen(text), game, sizeof game, &count, &used) == JATSHEGI_OK);
    CHECK(count == strlen(wanted) && memcmp(game, wanted, count) == 0 && used == strlen("[White \"a\"]\n\n1.e4 e5(1...c5)2.Nf3 *"));
    memset(game, 'x', sizeof game);
    count = used = 7;
    CHECK(jatshegi_game_read(text, strlen(text), game, 5, &count, &used) == JATSHEGI_NO_ROOM && count == strlen(wanted) && game[0] == 'x');
    at = used;
    count = used = 7;
    CHECK(jatshegi_game_read(text + at, strlen(text) - at, game, sizeof game, &count, &used) == JATSHEGI_PGN_MOVE && count == 7);
    CHECK(used == (size_t)(strstr(text, "e5 *\n\n[White \"c") - text) - at);
    CHECK(jatshegi_game_pass(text + at, strlen(text) - at, &passed) == JATSHEGI_OK && passed == (size_t)(strstr(text, "[White \"c") - text) - at);
    at += (size_t)passed;
    CHECK(jatshegi_game_read(text + at, strlen(text) - at, game, sizeof game, &count, &used) == JATSHEGI_OK && used == strlen(text) - at);
    count = used = 7;
    CHECK(jatshegi_game_read(" \n", 2, game, sizeof game, &count, &used) == JATSHEGI_NO_GAME && count == 7 && used == 7);
    CHECK(jatshegi_game_read("", 0, game, sizeof game, &count, &used) == JATSHEGI_NO_GAME);
    CHECK(jatshegi_game_read("{", 1, game, sizeof game, &count, &used) == JATSHEGI_PGN_TRUNCATED);
    CHECK(jatshegi_game_read("$1000", 5, game, sizeof game, &count, &used) == JATSHEGI_PGN_TOKEN);
    CHECK(jatshegi_game_read("[A b]", 5, game, sizeof game, &count, &used) == JATSHEGI_PGN_TAG);
    CHECK(jatshegi_game_read("(", 1, game, sizeof game, &count, &used) == JATSHEGI_PGN_VARIATION);
    CHECK(jatshegi_game_read("[FEN \"8\"] *", 11, game, sizeof game, &count, &used) == JATSHEGI_PGN_FEN);
}

/* A game that strict reading refuses is saved, with what was repaired; one that needs no repair is as ever, and one that can't be saved is passed over. */
static void saves(void) {
    static const char bad[] = "1. e2-e4 e5 2. OO Nc6 * 1. d4 *", lost[] = "[FEN \"8/8\"]\n\n1. e4 *\n\n[White \"b\"]", good[] = "1. e4 * 1. d4 *";
    static const char moves[] = "1. e4 e5 {cut: O-O Nc6} *\n\n";
    struct jatshegi_repair repairs[3];
    size_t count = 7, used = 7, repaired = 7;
    char game[512];
    CHECK(jatshegi_game_salvage(bad, strlen(bad), game, sizeof game, &count, repairs, 3, &repaired, &used) == JATSHEGI_OK && used == strlen("1. e2-e4 e5 2. OO Nc6 *"));
    CHECK(count > strlen(moves) && memcmp(game + count - strlen(moves), moves, strlen(moves)) == 0 && repaired == 3);
    CHECK(repairs[0].place == 3 && repairs[0].length == 5 && repairs[0].written == 6 && repairs[0].kind == JATSHEGI_REPAIR_HYPHEN);
    CHECK(repairs[1].place == 15 && repairs[1].length == 2 && repairs[1].kind == JATSHEGI_REPAIR_CASTLING);
    CHECK(repairs[2].place == 15 && repairs[2].kind == JATSHEGI_REPAIR_ILLEGAL);
    memset(repairs, 9, sizeof repairs);
    CHECK(jatshegi_game_salvage(bad, strlen(bad), NULL, 0, &count, repairs, 1, &repaired, &used) == JATSHEGI_NO_ROOM && repaired == 3 && count > strlen(moves));
    CHECK(repairs[0].place == 3 && repairs[1].kind == 0x09090909);
    CHECK(jatshegi_game_salvage(good, strlen(good), game, sizeof game, &count, NULL, 0, &repaired, &used) == JATSHEGI_OK && used == 7 && repaired == 0);
    count = repaired = 7;
    CHECK(jatshegi_game_salvage(lost, strlen(lost), game, sizeof game, &count, repairs, 3, &repaired, &used) == JATSHEGI_PGN_FEN && count == 7 && repaired == 7);
    CHECK(used == strlen(lost) - strlen("[White \"b\"]"));
    used = 7;
    CHECK(jatshegi_game_salvage(" \n", 2, game, sizeof game, &count, repairs, 3, &repaired, &used) == JATSHEGI_NO_GAME && count == 7 && repaired == 7 && used == 7);
    CHECK(jatshegi_game_salvage("\r\n\0\032", 4, game, sizeof game, &count, repairs, 3, &repaired, &used) == JATSHEGI_NO_GAME && count == 7 && repaired == 7 && used == 7);
    CHECK(jatshegi_game_salvage("\0 1. e4 *", 9, game, sizeof game, &count, repairs, 3, &repaired, &used) == JATSHEGI_OK && repaired == 1 && used == 9);
    CHECK(strcmp(jatshegi_repair_text(JATSHEGI_REPAIR_TAG_QUOTES), "TagQuotes") == 0 && strcmp(jatshegi_repair_text(JATSHEGI_REPAIR_VARIATION), "Variation") == 0);
    CHECK(jatshegi_repair_text(JATSHEGI_REPAIR_VARIATION + 1) == NULL);
}

/* A game of a text loaded into a board; what is no game changes nothing. */
static void loads(struct jatshegi_board *b) {
    static const char text[] = "[FEN \"4k3/8/8/8/8/8/4P3/4K3 w - - 0 1\"]\n\n{a study} 1.e4 $1 Kd7(1...Ke7{slower})2.e5 1/2-1/2 1.d4 *";
    size_t used = 7;
    uint32_t depth = 7;
    CHECK(jatshegi_board_load(b, text, strlen(text), &used) == JATSHEGI_OK && used == strlen(text) - strlen(" 1.d4 *"));
    CHECK(fen_is(b, "4k3/8/8/8/8/8/4P3/4K3 w - - 0 1") && jatshegi_board_depth(b, &depth) == JATSHEGI_OK && depth == 0);
    CHECK(node_is(b, 0, 1, move_of(9, 9, 9), "a study", ""));
    CHECK(jatshegi_board_step(b, 0) == JATSHEGI_OK && node_is(b, 1, 2, move_of(12, 28, 0), "", "\1"));
    CHECK(jatshegi_board_step(b, 1) == JATSHEGI_OK && node_is(b, 2, 0, move_of(60, 52, 0), "slower", ""));
    used = 7;
    CHECK(jatshegi_board_load(b, "1. e5 *", 7, &used) == JATSHEGI_PGN_MOVE && used == 3 && node_is(b, 2, 0, move_of(60, 52, 0), "slower", ""));
    used = 7;
    CHECK(jatshegi_board_load(b, " \n", 2, &used) == JATSHEGI_NO_GAME && used == 7 && node_is(b, 2, 0, move_of(60, 52, 0), "slower", ""));
    CHECK(play(b, "e5") == JATSHEGI_OK && node_is(b, 3, 0, move_of(28, 36, 0), "", ""));
    CHECK(jatshegi_board_load(b, "1. e4 *", 7, &used) == JATSHEGI_OK && used == 7 && fen_is(b, START));
    CHECK(jatshegi_board_end(b) == JATSHEGI_OK && jatshegi_board_depth(b, &depth) == JATSHEGI_OK && depth == 1);
}

/* The report of a text's first game; the FEN of its last position is in `fen`. */
static struct jatshegi_report reported(const char *text, char *fen) {
    struct jatshegi_report report;
    size_t count = 0, used = 0;
    memset(&report, 0, sizeof report);
    CHECK(jatshegi_game_report(text, strlen(text), &report, fen, JATSHEGI_MOST_FEN, &count, &used) == JATSHEGI_OK && used == strlen(text) && count < JATSHEGI_MOST_FEN);
    fen[count] = 0;
    return report;
}

/* Of bytes that come bit by bit, what is at their start whatever follows. */
static void comes(struct jatshegi_board *b) {
    static const char text[] = "1. e4 e5 {x} * 1. d4 d4 *\n[A \"b\"]\n1. c4";
    static const char kings[] = "4k3/8/8/8/8/8/8/4K3 w - - 0 1";
    uint32_t depth = 7;
    size_t used = 7, first = strlen("1. e4 e5 {x} *"), bad = strlen(" 1. d4 d4 *\n"), last = strlen(text) - first - bad;
    CHECK(set(b, kings) == JATSHEGI_OK);
    for (size_t come = 0; come < first; come++) {
        CHECK(jatshegi_game_next(text, come, false, &used) == JATSHEGI_MORE && used == 7);
        CHECK(jatshegi_board_load_next(b, text, come, false, &used) == JATSHEGI_MORE && used == 7 && fen_is(b, kings));
    }
    CHECK(jatshegi_game_next(text, first, false, &used) == JATSHEGI_OK && used == first);
    CHECK(jatshegi_game_next(text, strlen(text), true, &used) == JATSHEGI_OK && used == first);
    CHECK(jatshegi_game_next(text + first, bad + 1, false, &used) == JATSHEGI_MORE && used == first);
    CHECK(jatshegi_board_load_next(b, text + first, bad + 2, false, &used) == JATSHEGI_PGN_MOVE && used == bad && fen_is(b, kings));
    CHECK(jatshegi_game_next(text + first + bad, last, false, &used) == JATSHEGI_MORE);
    CHECK(jatshegi_board_load_next(b, text + first + bad, last, true, &used) == JATSHEGI_OK && used == last && fen_is(b, START));
    CHECK(jatshegi_board_end(b) == JATSHEGI_OK && jatshegi_board_depth(b, &depth) == JATSHEGI_OK && depth == 1);
    used = 7;
    CHECK(jatshegi_game_next(" \n", 2, false, &used) == JATSHEGI_MORE && used == 7);
    CHECK(jatshegi_board_load_next(b, " \n", 2, true, &used) == JATSHEGI_NO_GAME && used == 2);
    CHECK(jatshegi_game_next("{", 1, true, &used) == JATSHEGI_PGN_TRUNCATED && used == 1);
    CHECK(jatshegi_game_next("", 0, true, &used) == JATSHEGI_NO_GAME && used == 0);
}

static void reports(void) {
    char fen[JATSHEGI_MOST_FEN + 1];
    struct jatshegi_report r = reported("1. f3 e5 2. g4 Qh4# 1-0", fen);
    CHECK(r.plies == 4 && r.marker == JATSHEGI_WHITE_WINS && r.status == JATSHEGI_MATE && r.winner == 2 && r.over == 4 && r.why == JATSHEGI_MATE && !r.agrees);
    CHECK(r.threefold == JATSHEGI_NEVER && r.fifty == JATSHEGI_NEVER && r.repetitions == 1 && r.quiet == 1);
    CHECK(strcmp(fen, "rnb1kbnr/pppp1ppp/8/4p3/6Pq/5P2/PPPPP2P/RNBQKBNR w KQkq - 1 3") == 0);
    r = reported("1. Nf3 Nf6 2. Ng1 Ng8 3. Nf3 Nf6 4. Ng1 Ng8 5. Nf3 *", fen);
    CHECK(r.plies == 9 && r.marker == JATSHEGI_UNFINISHED && r.status == JATSHEGI_PLAY && r.winner == 0 && r.over == JATSHEGI_NEVER && r.why == JATSHEGI_PLAY && r.agrees);
    CHECK(r.threefold == 8 && r.repetitions == 3 && r.quiet == 9);
    r = reported("[FEN \"4k3/8/8/8/8/8/4r3/4K3 w - - 149 90\"]\n\n1. Kxe2 Kd7 2. Kd3 0-1", fen);
    CHECK(r.plies == 3 && r.status == JATSHEGI_DEAD && r.over == 1 && r.why == JATSHEGI_DEAD && !r.agrees && r.fifty == 0 && r.quiet == 149);
    r = reported("[FEN \"4k3/8/8/8/8/8/4P3/4K3 w - - 148 90\"]\n\n1. Kd2 Kd7 2. Ke3 1/2-1/2", fen);
    CHECK(r.over == 2 && r.why == JATSHEGI_SEVENTYFIVE && r.marker == JATSHEGI_DRAW && r.status == JATSHEGI_SEVENTYFIVE && r.agrees && r.quiet == 151);
    size_t count = 7, used = 7;
    r.plies = 77;
    CHECK(jatshegi_game_report("1. e5 *", 7, &r, fen, sizeof fen, &count, &used) == JATSHEGI_PGN_MOVE && used == 3 && count == 7 && r.plies == 77);
    count = used = 7;
    CHECK(jatshegi_game_report(" ", 1, &r, fen, sizeof fen, &count, &used) == JATSHEGI_NO_GAME && used == 7 && count == 7 && r.plies == 77);
    fen[0] = 'x';
    CHECK(jatshegi_game_report("1. e4 * ", 8, &r, fen, 20, &count, &used) == JATSHEGI_NO_ROOM && count == 59 && used == 7 && r.plies == 1 && fen[0] == 'x');
}

static void searches(struct jatshegi_board *b) {
    struct jatshegi_move m = move_of(0, 0, 0), whole = m;
    int32_t value = 7, worth = 7;
    size_t left = 7;
    CHECK(set(b, START) == JATSHEGI_OK && play(b, "e4") == JATSHEGI_OK && play(b, "e5") == JATSHEGI_OK);
    CHECK(jatshegi_search_slice(b, &left) == JATSHEGI_NONE && left == 7);
    CHECK(jatshegi_search_best(b, &m, &value) == JATSHEGI_NONE && value == 7 && jatshegi_search_end(b) == JATSHEGI_OK);
    CHECK(jatshegi_search_start(b, 0) == JATSHEGI_ARGUMENT && jatshegi_search_start(b, 17) == JATSHEGI_ARGUMENT);
    CHECK(jatshegi_search_start(b, 3) == JATSHEGI_OK && jatshegi_search_best(b, &m, &value) == JATSHEGI_NONE);
    CHECK(jatshegi_board_best(b, 3, &whole, &worth) == JATSHEGI_OK);
    CHECK(set(b, START) == JATSHEGI_OK);
    CHECK(jatshegi_search_slice(b, &left) == JATSHEGI_OK && left == 28 && jatshegi_search_best(b, &m, &value) == JATSHEGI_OK);
    while (left > 0) CHECK(jatshegi_search_slice(b, &left) == JATSHEGI_OK);
    CHECK(jatshegi_search_slice(b, &left) == JATSHEGI_OK && left == 0);
    CHECK(jatshegi_search_best(b, &m, &value) == JATSHEGI_OK && value == worth && m.from == whole.from && m.to == whole.to && m.promotion == whole.promotion);
    CHECK(jatshegi_search_end(b) == JATSHEGI_OK && jatshegi_search_slice(b, &left) == JATSHEGI_NONE);
    CHECK(set(b, "7k/8/6Q1/8/8/8/8/K7 b - - 0 1") == JATSHEGI_OK && jatshegi_search_start(b, 1) == JATSHEGI_NONE);
}

/* A flag, by two handles: a search is abandoned where it is set, and goes on where it isn't. */
static void stops(struct jatshegi_board *b) {
    struct jatshegi_stop stop = JATSHEGI_NO_STOP, other = JATSHEGI_NO_STOP, none = JATSHEGI_NO_STOP;
    struct jatshegi_move m = move_of(0, 0, 0), whole = m;
    char text[JATSHEGI_MOST_REPLIES];
    size_t left = 7, count = 7;
    uint64_t visited = 7, once = 7;
    int32_t value = 7, worth = 7;
    bool searched = false;
    CHECK(jatshegi_stop_new(&stop) == JATSHEGI_OK && jatshegi_stop_share(&stop, &other) == JATSHEGI_OK && jatshegi_stop_new(&none) == JATSHEGI_OK);
    jatshegi_stop_free(&none);
    CHECK(set(b, START) == JATSHEGI_OK && play(b, "e4") == JATSHEGI_OK && jatshegi_board_best(b, 3, &whole, &worth) == JATSHEGI_OK);

    /* The best move: whole, over the number of positions, and stopped. */
    CHECK(jatshegi_board_best_within(b, 0, UINT64_MAX, &none, &m, &value, &visited) == JATSHEGI_ARGUMENT);
    CHECK(jatshegi_board_best_within(b, 17, UINT64_MAX, &none, &m, &value, &visited) == JATSHEGI_ARGUMENT);
    CHECK(jatshegi_board_best_within(b, 3, 9, &none, &m, &value, &visited) == JATSHEGI_ABANDONED && visited == 10 && value == 7 && m.to == 0);
    CHECK(jatshegi_board_best_within(b, 3, 0, &none, &m, &value, &visited) == JATSHEGI_ABANDONED && visited == 2 && value == 7 && m.to == 0);
    CHECK(jatshegi_board_best_within(b, 3, UINT64_MAX, &other, &m, &value, &once) == JATSHEGI_OK && value == worth && once > 21);
    CHECK(m.from == whole.from && m.to == whole.to && m.promotion == whole.promotion);
    CHECK(jatshegi_board_best_within(b, 3, once, &none, &m, &value, &visited) == JATSHEGI_OK && visited == once);
    CHECK(jatshegi_board_best_within(b, 3, once - 1, &none, &m, &value, &visited) == JATSHEGI_ABANDONED && visited == once);
    CHECK(jatshegi_stop_set(&other, true) == JATSHEGI_OK);
    CHECK(jatshegi_board_best_within(b, 5, UINT64_MAX, &stop, &m, &value, &visited) == JATSHEGI_ABANDONED && visited == 1025);

    /* The replies along which its value is held: each the best by a search of its own, and at the end the value stands. */
    CHECK(jatshegi_stop_set(&other, false) == JATSHEGI_OK);
    {
        struct jatshegi_move line[16], reply;
        bool added;
        for (int i = 0; i < 16; i++) line[i] = move_of(0, 0, 0);
        CHECK(jatshegi_board_replies(b, whole, 0, worth, UINT64_MAX, &none, line, 16, &count, &visited) == JATSHEGI_ARGUMENT);
        CHECK(jatshegi_board_replies(b, whole, 17, worth, UINT64_MAX, &none, line, 16, &count, &visited) == JATSHEGI_ARGUMENT);
        CHECK(jatshegi_board_replies(b, whole, 3, 30001, UINT64_MAX, &none, line, 16, &count, &visited) == JATSHEGI_ARGUMENT);
        CHECK(jatshegi_board_replies(b, whole, 3, -30001, UINT64_MAX, &none, line, 16, &count, &visited) == JATSHEGI_ARGUMENT);
        CHECK(jatshegi_board_replies(b, move_of(0, 0, 0), 3, worth, UINT64_MAX, &none, line, 16, &count, &visited) == JATSHEGI_ILLEGAL);
        CHECK(jatshegi_board_replies(b, whole, 3, worth, 1, &none, line, 16, &count, &visited) == JATSHEGI_ABANDONED && visited == 2 && line[0].to == 0);
        count = 7;
        CHECK(jatshegi_board_replies(b, whole, 3, worth, UINT64_MAX, &none, line, 1, &count, &visited) == JATSHEGI_NO_ROOM && count == 2 && line[0].to == 0);
        CHECK(jatshegi_board_replies(b, whole, 3, worth, UINT64_MAX, &other, line, 16, &count, &visited) == JATSHEGI_OK && count == 2 && visited < once);
        CHECK(jatshegi_board_play(b, whole, &added) == JATSHEGI_OK && added);
        for (size_t i = 0; i < count; i++) {
            CHECK(jatshegi_board_best(b, (uint8_t)(2 - i), &reply, &value) == JATSHEGI_OK && value == (i % 2 ? worth : -worth));
            CHECK(reply.from == line[i].from && reply.to == line[i].to && reply.promotion == line[i].promotion);
            CHECK(jatshegi_board_play(b, reply, &added) == JATSHEGI_OK && added);
        }
        CHECK(jatshegi_board_evaluation(b, &value) == JATSHEGI_OK && value == -worth);
        for (size_t i = 0; i <= count; i++) CHECK(jatshegi_board_undo(b, true) == JATSHEGI_OK);
    }
    CHECK(jatshegi_stop_set(&other, true) == JATSHEGI_OK);

    /* Slices of a search. */
    CHECK(jatshegi_search_slice_within(b, UINT64_MAX, &none, &left, &visited) == JATSHEGI_NONE && left == 7);
    CHECK(jatshegi_search_start(b, 3) == JATSHEGI_OK);
    CHECK(jatshegi_search_slice_within(b, UINT64_MAX, &stop, &left, &visited) == JATSHEGI_ABANDONED && visited == 1 && left == 7);
    CHECK(jatshegi_search_slice_within(b, 4, &none, &left, &visited) == JATSHEGI_ABANDONED && visited == 5 && left == 7);
    CHECK(jatshegi_search_best(b, &m, &value) == JATSHEGI_NONE && jatshegi_stop_set(&stop, false) == JATSHEGI_OK);
    CHECK(jatshegi_search_slice_within(b, UINT64_MAX, &other, &left, &visited) == JATSHEGI_OK && left == 19 && visited > 20);
    while (left > 0) CHECK(jatshegi_search_slice_within(b, UINT64_MAX, &none, &left, &visited) == JATSHEGI_OK);
    CHECK(jatshegi_search_slice_within(b, 0, &none, &left, &visited) == JATSHEGI_OK && left == 0 && visited == 0);
    CHECK(jatshegi_search_best(b, &m, &value) == JATSHEGI_OK && value == worth && m.from == whole.from && jatshegi_search_end(b) == JATSHEGI_OK);

    /* Slices of the engine. */
    CHECK(jatshegi_engine_slice_within(b, 9, &none, &searched, &visited, text, sizeof text, &count) == JATSHEGI_OK && searched && visited == 0 && count == 0);
    CHECK(jatshegi_engine_line(b, "go depth 2 searchmoves e2e4", 27, text, sizeof text, &count) == JATSHEGI_OK);
    CHECK(jatshegi_engine_slice_within(b, 0, &none, &searched, &visited, text, sizeof text, &count) == JATSHEGI_OK && !searched && visited == 1 && count == 0);
    CHECK(jatshegi_engine_slice_within(b, 1, &stop, &searched, &visited, text, sizeof text, &count) == JATSHEGI_OK && searched && visited == 1 && count > 0);
    CHECK(jatshegi_stop_set(&stop, true) == JATSHEGI_OK && jatshegi_engine_searching(b, &searched) == JATSHEGI_OK && searched);
    CHECK(jatshegi_engine_slice_within(b, UINT64_MAX, &other, &searched, &visited, text, sizeof text, &count) == JATSHEGI_OK && !searched && visited == 1);
    CHECK(jatshegi_engine_slice_within(b, UINT64_MAX, &none, &searched, &visited, text, 3, &count) == JATSHEGI_NO_ROOM && searched && count > 14);
    CHECK(jatshegi_engine_searching(b, &searched) == JATSHEGI_OK && !searched);

    CHECK(set(b, "7k/8/6Q1/8/8/8/8/K7 b - - 0 1") == JATSHEGI_OK);
    CHECK(jatshegi_board_best_within(b, 1, 9, &none, &m, &value, &visited) == JATSHEGI_NONE);
    jatshegi_stop_free(&stop);
    CHECK(jatshegi_stop_set(&stop, true) == JATSHEGI_EMPTY && jatshegi_stop_set(&other, true) == JATSHEGI_OK);
    jatshegi_stop_free(&other);
    jatshegi_stop_free(&other);
}

/* Whether the engine replies so to a line. */
static int replies(struct jatshegi_board *b, const char *line, const char *wanted) {
    char text[JATSHEGI_MOST_REPLIES];
    size_t count = 0;
    return jatshegi_engine_line(b, line, strlen(line), text, sizeof text, &count) == JATSHEGI_OK && count == strlen(wanted) && memcmp(text, wanted, count) == 0;
}

/* What a front end asks of the session: whether it searches, without end, waits for `stop`, has ended; and the time that is left, 99 where there is none. */
static int shows(struct jatshegi_board *b, bool searching, bool infinite, bool waiting, bool ended, uint64_t left) {
    bool found[4];
    uint64_t time = 99;
    CHECK(jatshegi_engine_searching(b, &found[0]) == JATSHEGI_OK && jatshegi_engine_infinite(b, &found[1]) == JATSHEGI_OK);
    CHECK(jatshegi_engine_waiting(b, &found[2]) == JATSHEGI_OK && jatshegi_engine_ended(b, &found[3]) == JATSHEGI_OK);
    CHECK(jatshegi_engine_time_left(b, &time) == (left == 99 ? JATSHEGI_NONE : JATSHEGI_OK));
    return found[0] == searching && found[1] == infinite && found[2] == waiting && found[3] == ended && time == left;
}

static void engines(struct jatshegi_board *b) {
    char text[JATSHEGI_MOST_REPLIES], last[JATSHEGI_MOST_REPLIES] = "";
    size_t count = 0, length = 0;
    bool searching = true;
    CHECK(set(b, START) == JATSHEGI_OK && replies(b, "isready", "readyok\n"));
    CHECK(jatshegi_engine_searching(b, &searching) == JATSHEGI_OK && !searching);
    CHECK(replies(b, "position startpos moves f2f3 e7e5 g2g4", "") && replies(b, "go depth 1", ""));
    CHECK(jatshegi_engine_searching(b, &searching) == JATSHEGI_OK && searching);
    for (int slices = 0; searching && slices < 100; slices++) {
        CHECK(jatshegi_engine_slice(b, text, sizeof text, &count) == JATSHEGI_OK);
        if (count) memcpy(last, text, length = count);
        CHECK(jatshegi_engine_searching(b, &searching) == JATSHEGI_OK);
    }
    CHECK(length >= 14 && memcmp(last + length - 14, "bestmove d8h4\n", 14) == 0);
    CHECK(shows(b, false, false, false, false, 99) && replies(b, "go movetime 5", "") && shows(b, true, false, false, false, 5));
    CHECK(jatshegi_engine_moment(b, 4, text, sizeof text, &count) == JATSHEGI_OK && count == 0 && shows(b, true, false, false, false, 1));
    CHECK(jatshegi_engine_moment(b, 6, text, 3, &count) == JATSHEGI_NO_ROOM && count == 14 && shows(b, false, false, false, false, 99));
    CHECK(replies(b, "position startpos moves f2f3 e7e5 g2g4 d8h4", "") && replies(b, "go infinite", "") && shows(b, true, true, true, false, 99));
    CHECK(replies(b, "stop", "bestmove 0000\n") && replies(b, "position startpos", "") && replies(b, "go infinite", "") && shows(b, true, true, false, false, 99));
    CHECK(replies(b, "quit", "") && shows(b, false, false, false, true, 99) && replies(b, "isready", "") && fen_is(b, START));
}

/* Whether the tag of that name has the value. */
static int tag_is(struct jatshegi_board *b, const char *name, const char *wanted) {
    char text[64];
    size_t count = 0;
    return jatshegi_board_tag(b, name, strlen(name), text, sizeof text, &count) == JATSHEGI_OK && count == strlen(wanted) && memcmp(text, wanted, count) == 0;
}

/* Whether the game has no tag of that name. */
static int is_untagged(struct jatshegi_board *b, const char *name) {
    char text[64];
    size_t count = 7;
    return jatshegi_board_tag(b, name, strlen(name), text, sizeof text, &count) == JATSHEGI_NO_SUCH && count == 7;
}

/* Whether the names of the tags are these, each with a space after it. */
static int names_are(struct jatshegi_board *b, const char *wanted) {
    char text[512];
    size_t length = 0, count = 0;
    for (size_t place = 0; jatshegi_board_tags(b, place, text + length, sizeof text - 1 - length, &count) == JATSHEGI_OK; place++) {
        length += count;
        text[length++] = ' ';
    }
    return length == strlen(wanted) && memcmp(text, wanted, length) == 0;
}

static uint32_t set_tag(struct jatshegi_board *b, const char *name, const char *value) {
    return jatshegi_board_set_tag(b, name, strlen(name), value, strlen(value));
}

/* Whether the whole game is that text. */
static int game_is(struct jatshegi_board *b, const char *wanted) {
    char text[1024];
    size_t count = 0;
    return jatshegi_board_pgn(b, text, sizeof text, &count) == JATSHEGI_OK && count == strlen(wanted) && memcmp(text, wanted, count) == 0;
}

static void tags(struct jatshegi_board *b) {
    static const char game[] =
        "[Event \"A \\\"match\\\"\"]\n[Site \"?\"]\n[Date \"1851.06.21\"]\n[Round \"?\"]\n[White \"Anderssen\"]\n[Black \"Kieseritzky\"]\n[Result \"1-0\"]\n"
        "[ECO \"C33\"]\n[FEN \"4k3/8/8/8/8/8/4P3/4K3 w - - 0 1\"]\n[SetUp \"1\"]\n[WhiteElo \"2600\"]\n\n1. e4 (1. e3) 1... Kd7 {so} 1-0\n\n";
    static const char six[] = "Event Site Date Round White Black ";
    static const char fen[] = "4k3/8/8/8/8/8/4P3/4K3 w - - 0 1";
    char text[512];
    size_t count = 7, used = 0;
    uint32_t marker = 7;
    CHECK(jatshegi_board_new(&keys, b) == JATSHEGI_OK && game_is(b, SEVEN_TAGS "*\n\n"));
    CHECK(names_are(b, six) && tag_is(b, "Date", "????.??.??") && tag_is(b, "White", "?") && is_untagged(b, "ECO") && is_untagged(b, "Result") && is_untagged(b, ""));
    CHECK(jatshegi_board_result(b, &marker) == JATSHEGI_OK && marker == JATSHEGI_UNFINISHED);
    CHECK(jatshegi_board_tags(b, 6, text, sizeof text, &count) == JATSHEGI_NO_SUCH && jatshegi_board_tags(b, SIZE_MAX, text, sizeof text, &count) == JATSHEGI_NO_SUCH && count == 7);

    CHECK(jatshegi_board_load(b, game, sizeof game - 1, &used) == JATSHEGI_OK && used <= sizeof game - 1);
    CHECK(game_is(b, game) && fen_is(b, fen));
    CHECK(names_are(b, "Event Site Date Round White Black ECO WhiteElo ") && tag_is(b, "Event", "A \"match\"") && tag_is(b, "ECO", "C33") && is_untagged(b, "FEN"));
    CHECK(jatshegi_board_result(b, &marker) == JATSHEGI_OK && marker == JATSHEGI_WHITE_WINS);
    CHECK(jatshegi_board_tag(b, "ECO", 3, text, 2, &count) == JATSHEGI_NO_ROOM && count == 3);
    CHECK(jatshegi_board_tags(b, 7, text, 7, &count) == JATSHEGI_NO_ROOM && count == 8 && jatshegi_board_pgn(b, text, 9, &count) == JATSHEGI_NO_ROOM && count == sizeof game - 1);
    /* The program knows no tags. */
    CHECK(answers(b, "pgn", SEVEN_TAGS_OF("*", "[FEN \"4k3/8/8/8/8/8/4P3/4K3 w - - 0 1\"]\n[SetUp \"1\"]\n") "1. e4 (1. e3) 1... Kd7 {so} *\n\n"));

    CHECK(set_tag(b, "White", "Adolf") == JATSHEGI_OK && set_tag(b, "Annotator", "a\\b") == JATSHEGI_OK && set_tag(b, "ECO", "") == JATSHEGI_OK);
    CHECK(names_are(b, "Event Site Date Round White Black Annotator ECO WhiteElo ") && tag_is(b, "White", "Adolf") && tag_is(b, "Annotator", "a\\b") && tag_is(b, "ECO", ""));
    CHECK(set_tag(b, "", "x") == JATSHEGI_TAG_NAME && set_tag(b, "a b", "\n") == JATSHEGI_TAG_NAME && set_tag(b, "Result", "\n") == JATSHEGI_TAG_OWN);
    CHECK(set_tag(b, "FEN", fen) == JATSHEGI_TAG_OWN && set_tag(b, "SetUp", "1") == JATSHEGI_TAG_OWN && set_tag(b, "White", "a\nb") == JATSHEGI_TAG_VALUE);
    CHECK(tag_is(b, "White", "Adolf") && tag_is(b, "Black", "Kieseritzky"));
    CHECK(jatshegi_board_clear_tag(b, "White", 5) == JATSHEGI_OK && jatshegi_board_clear_tag(b, "ECO", 3) == JATSHEGI_OK && jatshegi_board_clear_tag(b, "None", 4) == JATSHEGI_OK);
    CHECK(names_are(b, "Event Site Date Round White Black Annotator WhiteElo ") && tag_is(b, "White", "?") && is_untagged(b, "ECO"));
    CHECK(jatshegi_board_set_result(b, 4) == JATSHEGI_ARGUMENT && jatshegi_board_result(b, &marker) == JATSHEGI_OK && marker == JATSHEGI_WHITE_WINS);
    for (uint32_t it = 0; it < 4; it++) CHECK(jatshegi_board_set_result(b, it) == JATSHEGI_OK && jatshegi_board_result(b, &marker) == JATSHEGI_OK && marker == it);

    /* What isn't taken changes nothing, moves and positions change the tree alone, and a new board knows nothing. */
    CHECK(jatshegi_board_load(b, "[White \"x\"]\n\ne4 e4", 18, &used) == JATSHEGI_PGN_MOVE && tag_is(b, "Date", "1851.06.21") && tag_is(b, "White", "?"));
    CHECK(play(b, "Kd2") == JATSHEGI_OK && set(b, START) == JATSHEGI_OK && tag_is(b, "Date", "1851.06.21") && tag_is(b, "Annotator", "a\\b"));
    CHECK(jatshegi_board_result(b, &marker) == JATSHEGI_OK && marker == JATSHEGI_DRAW && answers(b, "new", "ok\n") && tag_is(b, "Date", "1851.06.21"));
    CHECK(jatshegi_board_load(b, "e4 *", 4, &used) == JATSHEGI_OK && used == 4 && names_are(b, six) && game_is(b, SEVEN_TAGS "1. e4 *\n\n"));
    CHECK(set_tag(b, "Zoo", "1") == JATSHEGI_OK && set_tag(b, "Zoo", "2") == JATSHEGI_OK && names_are(b, "Event Site Date Round White Black Zoo ") && tag_is(b, "Zoo", "2"));
    CHECK(jatshegi_board_new(&keys, b) == JATSHEGI_OK && names_are(b, six));
    CHECK(jatshegi_board_clear_tag(b, "Event", 5) == JATSHEGI_OK && jatshegi_board_set_result(b, JATSHEGI_DRAW) == JATSHEGI_OK && names_are(b, six));
    CHECK(jatshegi_board_new(&keys, b) == JATSHEGI_OK && game_is(b, SEVEN_TAGS "*\n\n"));
}

/* The text that shows which positions are the same: a target counts where it can be captured on. */
static void identities(struct jatshegi_board *b) {
    static const struct {
        const char *fen, *epd;
    } rows[] = {
        {START, "rnbqkbnr/pppppppp/8/8/8/8/PPPPPPPP/RNBQKBNR w KQkq -"},
        {"rnbqkbnr/pppppppp/8/8/4P3/8/PPPP1PPP/RNBQKBNR b KQkq e3 0 1", "rnbqkbnr/pppppppp/8/8/4P3/8/PPPP1PPP/RNBQKBNR b KQkq -"},
        {"8/8/8/K1pP3r/8/8/8/4k3 w - c6 0 2", "8/8/8/K1pP3r/8/8/8/4k3 w - -"},
        {"8/8/8/2pP3r/8/8/8/K3k3 w - c6 77 99", "8/8/8/2pP3r/8/8/8/K3k3 w - c6"},
    };
    char text[JATSHEGI_MOST_FEN];
    size_t length = 0;
    for (size_t i = 0; i < sizeof rows / sizeof rows[0]; i++) {
        CHECK(set(b, rows[i].fen) == JATSHEGI_OK && jatshegi_board_epd(b, text, sizeof text, &length) == JATSHEGI_OK);
        CHECK(length == strlen(rows[i].epd) && memcmp(text, rows[i].epd, length) == 0);
        CHECK(jatshegi_board_epd(b, text, length - 1, &length) == JATSHEGI_NO_ROOM && length == strlen(rows[i].epd));
    }
}

/* Keys as Polyglot's authors published them, and what a book says: entries of a key before that of the start, three of the start, and one after. */
static void books(struct jatshegi_board *b) {
    static const struct {
        const char *fen;
        uint64_t key;
    } rows[] = {
        {START, 0x463b96181691fc9c},
        {"rnbqkbnr/ppp1p1pp/8/3pPp2/8/8/PPPP1PPP/RNBQKBNR w KQkq f6 0 3", 0x22a48b5a8e47ff78},
        {"rnbqkbnr/p1pppppp/8/8/PpP4P/8/1P1PPPP1/RNBQKBNR b KQkq c3 0 3", 0x3c8123ea7b067637},
        {"rnbqkbnr/p1pppppp/8/8/P6P/R1p5/1P1PPPP1/1NBQKBNR b Kkq - 1 4", 0x5c3f9b829b279560},
    };
    struct jatshegi_move m = move_of(7, 7, 3);
    uint64_t key = 0;
    size_t first = 7, count = 7;
    uint16_t weight = 7;
    uint32_t learn = 7;
    for (size_t i = 0; i < sizeof rows / sizeof rows[0]; i++) CHECK(set(b, rows[i].fen) == JATSHEGI_OK && jatshegi_board_key(b, &key) == JATSHEGI_OK && key == rows[i].key);
    CHECK(set(b, START) == JATSHEGI_OK && jatshegi_board_key(b, &key) == JATSHEGI_OK);
    jatshegi_book_find(BOOK, sizeof BOOK - 1, key, &first, &count);
    CHECK(first == 1 && count == 3);
    CHECK(jatshegi_board_book_move(b, BOOK, sizeof BOOK - 1, 0, &m, &weight, &learn) == JATSHEGI_ILLEGAL && m.from == 7 && weight == 7 && learn == 7);
    CHECK(jatshegi_board_book_move(b, BOOK, sizeof BOOK - 1, 5, &m, &weight, &learn) == JATSHEGI_ARGUMENT && m.from == 7 && weight == 7 && learn == 7);
    CHECK(jatshegi_board_book_move(b, BOOK, sizeof BOOK - 1, 2, &m, &weight, &learn) == JATSHEGI_ILLEGAL && m.from == 7);
    CHECK(jatshegi_board_book_move(b, BOOK, sizeof BOOK - 1, 1, &m, &weight, &learn) == JATSHEGI_OK && m.from == 12 && m.to == 28 && m.promotion == 0);
    CHECK(weight == 258 && learn == 16909060);
    CHECK(jatshegi_board_book_move(b, BOOK, sizeof BOOK - 1, 3, &m, &weight, &learn) == JATSHEGI_OK && m.from == 6 && m.to == 21 && weight == 1 && learn == 0);
    jatshegi_book_find(BOOK, sizeof BOOK - 1, 0, &first, &count);
    CHECK(count == 0);
    jatshegi_book_find(BOOK, 15, key, &first, &count);
    CHECK(first == 0 && count == 0);
}

/* What sort of move one is, and who can't mate any more. */
static void judged(struct jatshegi_board *b) {
    static const struct {
        const char *fen;
        unsigned from, to, promotion, kinds;
    } rows[] = {
        {START, 12, 28, 0, JATSHEGI_PAWN_MOVE},
        {START, 6, 21, 0, 0},
        {"r3k2r/8/8/8/8/8/8/R3K2R w KQkq - 0 1", 4, 6, 0, JATSHEGI_CASTLES_KING_SIDE},
        {"r3k2r/8/8/8/8/8/8/R3K2R w KQkq - 0 1", 4, 2, 0, JATSHEGI_CASTLES_QUEEN_SIDE},
        {"r3k2r/8/8/8/8/8/8/R3K2R w KQkq - 0 1", 7, 63, 0, JATSHEGI_CAPTURE},
        {"8/8/8/2pP3r/8/8/8/K3k3 w - c6 0 2", 35, 42, 0, JATSHEGI_CAPTURE | JATSHEGI_EN_PASSANT | JATSHEGI_PAWN_MOVE},
        {"1n6/P6k/8/8/8/8/8/K7 w - - 0 1", 48, 57, JATSHEGI_QUEEN, JATSHEGI_CAPTURE | JATSHEGI_PAWN_MOVE},
    };
    static const struct {
        const char *fen;
        bool white, black;
    } sides[] = {
        {START, false, false},
        {"4k3/8/8/8/8/8/4P3/4K3 b - - 0 1", false, true},
        {"4k3/8/8/8/8/8/4p3/4K3 w - - 0 1", true, false},
        {"4k3/8/8/8/8/8/4N3/4K3 w - - 0 1", true, true},
        {"4k3/4r3/8/8/8/8/4N3/4K3 w - - 0 1", false, false},
    };
    uint32_t kinds = 7;
    bool cannot = true;
    for (size_t i = 0; i < sizeof rows / sizeof rows[0]; i++) {
        CHECK(set(b, rows[i].fen) == JATSHEGI_OK && jatshegi_board_kinds(b, move_of(rows[i].from, rows[i].to, rows[i].promotion), &kinds) == JATSHEGI_OK);
        CHECK(kinds == rows[i].kinds);
    }
    kinds = 7;
    CHECK(set(b, START) == JATSHEGI_OK && jatshegi_board_kinds(b, move_of(12, 36, 0), &kinds) == JATSHEGI_ILLEGAL && kinds == 7);
    CHECK(jatshegi_board_kinds(b, move_of(12, 28, 9), &kinds) == JATSHEGI_ILLEGAL && jatshegi_board_kinds(b, move_of(64, 28, 0), &kinds) == JATSHEGI_ILLEGAL && kinds == 7);
    for (size_t i = 0; i < sizeof sides / sizeof sides[0]; i++) {
        CHECK(set(b, sides[i].fen) == JATSHEGI_OK && jatshegi_board_cannot_mate(b, JATSHEGI_WHITE, &cannot) == JATSHEGI_OK && cannot == sides[i].white);
        CHECK(jatshegi_board_cannot_mate(b, JATSHEGI_BLACK, &cannot) == JATSHEGI_OK && cannot == sides[i].black);
    }
    CHECK(jatshegi_board_cannot_mate(b, 2, &cannot) == JATSHEGI_ARGUMENT && !cannot);
}

/* The moves that led to the cursor. */
static void ways(struct jatshegi_board *b) {
    static const char *const played[] = {"e4", "d5", "exd5", "c5", "dxc6"};
    struct jatshegi_move moves[6];
    size_t count = 7;
    moves[5] = move_of(7, 7, 3);
    CHECK(set(b, START) == JATSHEGI_OK && jatshegi_board_line(b, moves, 0, &count) == JATSHEGI_OK && count == 0);
    for (size_t i = 0; i < 5; i++) CHECK(play(b, played[i]) == JATSHEGI_OK);
    CHECK(jatshegi_board_line(b, moves, 4, &count) == JATSHEGI_NO_ROOM && count == 5 && jatshegi_board_line(b, moves, 6, &count) == JATSHEGI_OK && count == 5);
    CHECK(moves[0].from == 12 && moves[0].to == 28 && moves[1].from == 51 && moves[4].from == 35 && moves[4].to == 42 && moves[4].promotion == 0 && moves[5].from == 7);
    CHECK(jatshegi_board_back(b) == JATSHEGI_OK && jatshegi_board_line(b, moves, 6, &count) == JATSHEGI_OK && count == 4 && moves[3].to == 34);
}

/* A copy has the whole game at the same node, and is another board. */
static void copies(struct jatshegi_board *b) {
    static const char game[] = "[White \"a\"]\n[ECO \"C20\"]\n\n1. e4 {one} e5 (1... c5 $1 2. Nf3) 2. Nc3 1-0";
    static const char twins[] = "1. e4 (1. e4 c5) 1... e5 *";
    struct jatshegi_board copy = JATSHEGI_NO_BOARD;
    char text[512], other[512], reply[JATSHEGI_MOST_REPLIES];
    size_t length = 0, count = 0, used = 0;
    bool searching = false;
    struct jatshegi_move m;
    int32_t value;
    /* (also where siblings have one move) */
    CHECK(jatshegi_board_load(b, twins, sizeof twins - 1, &used) == JATSHEGI_OK && answers(b, "goto 1.0", "ok\n"));
    CHECK(jatshegi_board_copy(b, &copy) == JATSHEGI_OK && answers(&copy, "path", "1.0\n"));
    CHECK(jatshegi_board_pgn(b, text, sizeof text, &length) == JATSHEGI_OK && jatshegi_board_pgn(&copy, other, sizeof other, &count) == JATSHEGI_OK);
    CHECK(length == count && memcmp(text, other, count) == 0);
    CHECK(jatshegi_board_load(b, game, sizeof game - 1, &used) == JATSHEGI_OK && answers(b, "goto 0.1", "ok\n"));
    CHECK(jatshegi_engine_line(b, "go infinite", 11, reply, sizeof reply, &count) == JATSHEGI_OK && jatshegi_search_start(b, 1) == JATSHEGI_OK);
    CHECK(jatshegi_board_copy(b, &copy) == JATSHEGI_OK && answers(&copy, "path", "0.1\n") && tag_is(&copy, "ECO", "C20") && tag_is(&copy, "White", "a"));
    CHECK(jatshegi_board_pgn(b, text, sizeof text, &length) == JATSHEGI_OK && jatshegi_board_pgn(&copy, other, sizeof other, &count) == JATSHEGI_OK);
    CHECK(length == count && memcmp(text, other, count) == 0);
    CHECK(jatshegi_engine_searching(&copy, &searching) == JATSHEGI_OK && !searching && jatshegi_search_best(&copy, &m, &value) == JATSHEGI_NONE);
    CHECK(play(&copy, "d4") == JATSHEGI_OK && set_tag(&copy, "White", "b") == JATSHEGI_OK && jatshegi_board_set_result(&copy, JATSHEGI_DRAW) == JATSHEGI_OK);
    CHECK(game_is(b, "[Event \"?\"]\n[Site \"?\"]\n[Date \"????.??.??\"]\n[Round \"?\"]\n[White \"a\"]\n[Black \"?\"]\n[Result \"1-0\"]\n[ECO \"C20\"]\n\n"
                     "1. e4 {one} 1... e5 (1... c5 $1 2. Nf3) 2. Nc3 1-0\n\n"));
    CHECK(jatshegi_engine_searching(b, &searching) == JATSHEGI_OK && searching && jatshegi_board_copy(&copy, b) == JATSHEGI_OK && tag_is(b, "White", "b"));
    CHECK(jatshegi_engine_searching(b, &searching) == JATSHEGI_OK && !searching && answers(b, "path", "0.1.1\n"));
    jatshegi_board_free(&copy);
    CHECK(play(b, "d5") == JATSHEGI_OK);
}

/* Each status has a text of its own. */
static void texts(void) {
    static const char none[] = "no status of this version";
    const char *known[64];
    size_t many = 0;
    for (uint32_t status = 0; status < 64; status++) {
        const char *text = jatshegi_status_text(status);
        if (strcmp(text, none) == 0) continue;
        for (size_t i = 0; i < many; i++) CHECK(strcmp(known[i], text) != 0);
        known[many++] = text;
    }
    CHECK(many == 38 && strcmp(jatshegi_status_text(UINT32_MAX), none) == 0 && strcmp(jatshegi_status_text(15), none) == 0);
    CHECK(jatshegi_version() == JATSHEGI_VERSION_NUMBER);
}

int main(void) {
    struct jatshegi_board board = JATSHEGI_NO_BOARD, other = JATSHEGI_NO_BOARD;
    jatshegi_keys_fill(&keys);
    texts();
    without_a_board();
    CHECK(jatshegi_board_new(&keys, &board) == JATSHEGI_OK && jatshegi_board_new(&keys, &other) == JATSHEGI_OK);
    CHECK(fen_is(&board, START) && play(&other, "d4") == JATSHEGI_OK && fen_is(&board, START));
    fens(&board);
    positions(&board);
    long_texts();
    moves(&board);
    outcomes(&board);
    numbers(&board);
    trees(&board);
    undone(&board);
    nodes(&board);
    lines(&board);
    games();
    saves();
    loads(&board);
    comes(&board);
    tags(&board);
    copies(&board);
    ways(&board);
    identities(&board);
    books(&board);
    judged(&board);
    reports();
    searches(&board);
    stops(&board);
    engines(&board);
    CHECK(jatshegi_board_new(&keys, &board) == JATSHEGI_OK && fen_is(&board, START));
    CHECK(fen_is(&other, "rnbqkbnr/pppppppp/8/8/3P4/8/PPP1PPPP/RNBQKBNR b KQkq d3 0 1"));
    jatshegi_board_free(&board);
    jatshegi_board_free(&other);
    CHECK(jatshegi_board_back(&other) == JATSHEGI_EMPTY);
    printf("%d checks, %d failed\n", checks, failures);
    return failures ? EXIT_FAILURE : EXIT_SUCCESS;
}
