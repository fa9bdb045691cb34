/* The board of this repository for suite/run.c, a model for others. In a clone, on one line:
 *     cc -Isuite/boards -Iinclude suite/run.c suite/boards/ours.c release/x86_64-linux/lib/libjatshegi.a -o run */
#include <stdarg.h>
#include <stdio.h>
#include <stdlib.h>
#include <string.h>
#include "board.h"
#include "jatshegi.h"

static const char *const STATUSES[] = {"mate", "stalemate", "dead", "fivefold", "seventyfive", "play"};
static const char *const CLAIMS[] = {"", "threefold", "fifty", "threefold fifty"};
static const char *const MARKERS[] = {"*", "1-0", "0-1", "1/2-1/2"};
static const char *const FENS[] = {"fields", "placement", "kings", "pawn_rank", "too_many_men", "side", "castling", "target", "counter", "in_check"};
static const char *const GAMES[] = {"bad_token", "bad_tag", "bad_move", "bad_variation", "too_deep", "ends_early", "bad_fen", "no_memory", "too_large"};
static struct jatshegi_keys keys;
static struct jatshegi_board board = JATSHEGI_NO_BOARD;
static char answer[1 << 20], value[1 << 20];
static size_t used;

/* A call that isn't to be refused: what it writes fits, and there is memory. */
static void done(uint32_t status) {
    if (status == JATSHEGI_OK) return;
    fprintf(stderr, "%s\n", jatshegi_status_text(status));
    exit(3);
}

static void begin(void) {
    used = 0;
    answer[0] = 0;
    if (board.full) return;
    jatshegi_keys_fill(&keys);
    done(jatshegi_board_new(&keys, &board));
}

/* Adds to the answer, as printf writes it; or a text as a string of JSON. */
static void put(const char *format, ...) {
    va_list rest;
    va_start(rest, format);
    used += (size_t)vsnprintf(answer + used, sizeof answer - used, format, rest);
    va_end(rest);
    if (used >= sizeof answer) done(JATSHEGI_NO_ROOM);
}
static void put_string(const char *text, size_t length) {
    static const char MEANT[] = "\"\\\n\t\r\b\f", SHORT[] = "\"\\ntrbf";
    put("\"");
    for (size_t i = 0; i < length; i++) {
        const char *found = text[i] ? strchr(MEANT, text[i]) : NULL;
        if (found) put("\\%c", SHORT[found - MEANT]);
        else if ((unsigned char)text[i] < 32) put("\\u%04x", text[i]);
        else put("%c", text[i]);
    }
    put("\"");
}

bool board_set(const char *fen, const char **fault) {
    begin();
    uint32_t status = jatshegi_board_set(&board, fen, strlen(fen));
    if (status >= JATSHEGI_FEN_FIELDS && status <= JATSHEGI_FEN_IN_CHECK) *fault = FENS[status - JATSHEGI_FEN_FIELDS];
    else done(status);
    return status == JATSHEGI_OK;
}

bool board_push(const char *move) {
    bool added;
    return jatshegi_board_play_text(&board, move, strlen(move), &added) == JATSHEGI_OK;
}

static void put_legal(void) {
    struct jatshegi_move moves[JATSHEGI_MOST_MOVES];
    size_t count, length;
    done(jatshegi_board_moves(&board, moves, JATSHEGI_MOST_MOVES, &count));
    for (size_t i = 0; i < count; i++) {
        done(jatshegi_move_write(moves[i], value, sizeof value, &length));
        put("%s%.*s", i ? " " : "", (int)length, value);
    }
}

static void put_checkers(void) {
    uint8_t checks[64];
    done(jatshegi_board_checks(&board, checks));
    for (int i = 0; i < 64; i++)
        if (checks[i]) put("%s%c%c", used ? " " : "", 'a' + i % 8, '1' + i / 8);
}

static void put_attacks(void) {
    uint8_t counts[2][64];
    done(jatshegi_board_counts(&board, counts[0], counts[1]));
    for (int i = 0; i < 128; i++) put("%s%s%d", i == 0 ? "{\"white\":" : i == 64 ? "],\"black\":" : "", i % 64 ? "," : "[", counts[i / 64][i % 64]);
    put("]}");
}

const char *board_answer(const char *question, const char *move) {
    struct jatshegi_move read;
    size_t length;
    uint32_t number;
    begin();
    if (strcmp(question, "legal") == 0) put_legal();
    else if (strcmp(question, "checkers") == 0) put_checkers();
    else if (strcmp(question, "check") == 0) put_checkers(), strcpy(answer, used ? "true" : "false");
    else if (strcmp(question, "attacks") == 0) put_attacks();
    else if (strcmp(question, "status") == 0) done(jatshegi_board_outcome(&board, &number)), put("%s", STATUSES[number]);
    else if (strcmp(question, "claims") == 0) done(jatshegi_board_claims(&board, &number)), put("%s", CLAIMS[number]);
    else if (strcmp(question, "repetitions") == 0) done(jatshegi_board_repetitions(&board, &number)), put("%u", (unsigned)number);
    else if (strcmp(question, "fen") == 0) done(jatshegi_board_fen(&board, value, sizeof value, &length)), put("%.*s", (int)length, value);
    else if (strcmp(question, "san") == 0) {
        done(jatshegi_move_read(move, strlen(move), &read));
        done(jatshegi_board_write(&board, read, value, sizeof value, &length));
        put("%.*s", (int)length, value);
    } else return NULL;
    return answer;
}

/* The move to a child of the node at the cursor, with what is said of it: an object that isn't closed yet. */
static void put_child(uint32_t child) {
    struct jatshegi_move move;
    uint8_t numbers[256];
    size_t length;
    done(jatshegi_board_step(&board, child));
    done(jatshegi_board_move(&board, &move));
    done(jatshegi_board_back(&board));
    done(jatshegi_board_write(&board, move, value, sizeof value, &length));
    put("{\"san\":\"%.*s\"", (int)length, value);
    done(jatshegi_board_step(&board, child));
    done(jatshegi_board_annotations_of(&board, numbers, sizeof numbers, &length));
    for (size_t i = 0; i < length; i++) put("%s%d%s", i ? "," : ",\"nags\":[", numbers[i], i + 1 < length ? "" : "]");
    done(jatshegi_board_comment_of(&board, value, sizeof value, &length));
    if (length) put(",\"comment\":"), put_string(value, length);
    done(jatshegi_board_back(&board));
}

/* The moves of the line after the node at the cursor, each with those that may be played in its place. The cursor comes back. */
static void put_line(void) {
    uint32_t children, depth;
    for (depth = 0; done(jatshegi_board_children(&board, &children)), children > 0; depth++) {
        if (answer[used - 1] == '}') put(",");
        put_child(0);
        for (uint32_t other = 1; other < children; other++) {
            put(other == 1 ? ",\"variations\":[[" : ",[");
            put_child(other);
            put("}");
            done(jatshegi_board_step(&board, other));
            put_line();
            done(jatshegi_board_back(&board));
            put("]");
        }
        put(children > 1 ? "]}" : "}");
        done(jatshegi_board_step(&board, 0));
    }
    while (depth-- > 0) done(jatshegi_board_back(&board));
}

/* The tags that say something. */
static void put_tags(void) {
    char name[256];
    size_t length, count;
    put("{\"tags\":{");
    for (size_t place = 0; jatshegi_board_tags(&board, place, name, sizeof name, &length) == JATSHEGI_OK; place++) {
        done(jatshegi_board_tag(&board, name, length, value, sizeof value, &count));
        if ((count == 1 && value[0] == '?') || (count == 10 && memcmp(value, "????.??.??", 10) == 0)) continue;
        put("%s\"%.*s\":", answer[used - 1] == '{' ? "" : ",", (int)length, name);
        put_string(value, count);
    }
    put("}");
}

const bool has_games = true;

const char *board_game(const char *text, size_t length, const char **fault, long *at) {
    static const char START[] = "rnbqkbnr/pppppppp/8/8/8/8/PPPPPPPP/RNBQKBNR w KQkq - 0 1";
    size_t taken;
    uint32_t marker;
    begin();
    uint32_t status = jatshegi_board_load(&board, text, length, &taken);
    if (status >= JATSHEGI_PGN_TOKEN && status <= JATSHEGI_PGN_TOO_LARGE) {
        *fault = GAMES[status - JATSHEGI_PGN_TOKEN];
        *at = (long)taken;
        return NULL;
    }
    done(status);
    put_tags();
    done(jatshegi_board_fen(&board, value, sizeof value, &length));
    if (length != strlen(START) || memcmp(value, START, length) != 0) put(",\"start\":\"%.*s\"", (int)length, value);
    done(jatshegi_board_comment_of(&board, value, sizeof value, &length));
    if (length) put(",\"comment\":"), put_string(value, length);
    put(",\"moves\":[");
    put_line();
    done(jatshegi_board_result(&board, &marker));
    put("],\"result\":\"%s\"}", MARKERS[marker]);
    return answer;
}
