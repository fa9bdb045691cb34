/*
 * A text cut into pieces of 1, 2, 7 and 4,096 bytes, or as wide as a file: its games, its faults and the bytes that are passed over are those of the whole text.
 * The texts below, and the files that are named.
 */
#include <stdio.h>
#include <stdlib.h>
#include <string.h>

#include "jatshegi.h"

static struct jatshegi_keys keys;

/* What comes of a text: a status and how many bytes to pass over, and of a game its text. */
struct found {
    uint32_t status;
    size_t used;
    char *game;
    size_t length;
};

enum { MOST = 4096, ROOM = 1 << 21 };

struct list {
    struct found found[MOST];
    size_t count;
};

static struct list whole, pieces;

static void die(const char *why) {
    printf("%s\n", why);
    exit(2);
}

static void add(struct list *list, uint32_t status, size_t used, const char *game, size_t length) {
    if (list->count == MOST) die("too many games");
    struct found *found = &list->found[list->count++];
    found->status = status;
    found->used = used;
    found->length = length;
    found->game = (char *)malloc(length + 1);
    if (!found->game) die("no memory");
    memcpy(found->game, game, length);
}

static void empty(struct list *list) {
    for (size_t i = 0; i < list->count; i++) free(list->found[i].game);
    list->count = 0;
}

/* All at once, by the calls for a whole text. */
static void read_whole(const char *text, size_t length) {
    static char game[ROOM];
    size_t at = 0, count = 0, used = 0;
    empty(&whole);
    for (;;) {
        uint32_t status = jatshegi_game_read(text + at, length - at, game, sizeof game, &count, &used);
        if (status == JATSHEGI_NO_GAME) break;
        if (status != JATSHEGI_OK && status < JATSHEGI_PGN_TOKEN) die("a whole game is refused");
        if (jatshegi_game_pass(text + at, length - at, &used) != JATSHEGI_OK) die("nothing is passed");
        add(&whole, status, used, game, status == JATSHEGI_OK ? count : 0);
        at += used;
    }
    add(&whole, JATSHEGI_NO_GAME, length - at, game, 0);
}

/* Whether both calls answer the same of the bytes that have come; the board then has what is there, or what it had. */
static uint32_t asked(struct jatshegi_board *board, const char *text, size_t length, bool is_last, size_t *used) {
    size_t other = 7;
    uint32_t status = jatshegi_game_next(text, length, is_last, used);
    if (jatshegi_board_load_next(board, text, length, is_last, &other) != status) die("the calls differ");
    if (status == JATSHEGI_MORE ? other != 7 : other != *used) die("the calls pass over other bytes");
    return status;
}

/* The same in pieces of a size. A piece more comes where it is wanted; a copy has no byte after those that have come. */
static void read_in_pieces(struct jatshegi_board *board, const char *text, size_t length, size_t size) {
    static char game[ROOM];
    size_t at = 0, come = 0, count = 0, used = 0;
    bool is_last = false;
    empty(&pieces);
    for (;;) {
        char *bytes = (char *)malloc(come - at + 1);
        if (!bytes) die("no memory");
        memcpy(bytes, text + at, come - at);
        uint32_t status = asked(board, bytes, come - at, is_last, &used);
        free(bytes);
        if (status == JATSHEGI_MORE) {
            if (is_last) die("more than all is wanted");
            is_last = come == length;
            come = length - come < size ? length : come + size;
            continue;
        }
        if (status == JATSHEGI_OK && jatshegi_board_pgn(board, game, sizeof game, &count) != JATSHEGI_OK) die("the game isn't written");
        add(&pieces, status, used, game, status == JATSHEGI_OK ? count : 0);
        at += used;
        if (status == JATSHEGI_NO_GAME) break;
    }
    if (at != length) die("not all is passed over");
}

static int is_same(void) {
    if (whole.count != pieces.count) return 0;
    for (size_t i = 0; i < whole.count; i++) {
        const struct found *a = &whole.found[i], *b = &pieces.found[i];
        if (a->status != b->status || a->used != b->used || a->length != b->length || memcmp(a->game, b->game, a->length) != 0) return 0;
    }
    return 1;
}

static size_t tried, games, faults;

static void try_text(const char *name, const char *text, size_t length, const size_t *sizes, size_t many) {
    struct jatshegi_board board = JATSHEGI_NO_BOARD;
    if (jatshegi_board_new(&keys, &board) != JATSHEGI_OK) die("no board");
    read_whole(text, length);
    for (size_t i = 0; i < whole.count; i++) {
        games += whole.found[i].status == JATSHEGI_OK;
        faults += whole.found[i].status >= JATSHEGI_PGN_TOKEN;
    }
    for (size_t i = 0; i < many; i++) {
        read_in_pieces(&board, text, length, sizes[i]);
        tried++;
        if (!is_same()) {
            printf("%s: pieces of %zu bytes: another answer\n", name, sizes[i]);
            exit(1);
        }
    }
    jatshegi_board_free(&board);
}

static const char *const texts[] = {
    "",
    " \n\n% hidden\n \t\n",
    "% hidden without an end",
    "1. e4 e5 2. Nf3 Nc6 {the first moves of many games} *",
    "1. e4 *\n1. d4 d5 1-0 1. c4 1/2-1/2",
    "1.e4 e5 2.Nf3",
    "[Event \"a\"]\n[White \"b\\\"c\"]\n\n1. e4 $1 {well} (1. d4 d5 (1... Nf6)) 1... c5 ; to the end\n2. Nf3 1-0\n\n[Event \"b\"]\n\n*\n",
    "\xef\xbb\xbf[Event \"a\"]\n\n1. e4\n\n\xef\xbb\xbf[Event \"b\"]\n\n1. d4 *\n",
    "[Event \"a\"]\n\n1. e4 e4 {no game} *\n\n[Event \"b\"]\n\n1. d4 *\n",
    "1. e4 {[A \"b\"]\n[A \"b\"]\n} e4\n[A \"b\"] *",
    "} {not a comment\n  [A \"b\"]\n\n*\n",
    "[A \"x\"]\n}\nmore of it\n x [B \"c\"]\n\xef\xbb\xbf [B \"c\"]\n\n1. d4 0-1",
    "1. e4 {a comment without an end\n\n[Event \"b\"]\n\n1. d4 *\n",
    "1. e4 (1. d4",
    "[Event \"a\"]\n\n1. e4\n\n[Event \"b\"]\n\n1. d4",
    "[FEN \"8/8/8/8/8/8/8/K6k b - - 0 1\"]\n\n1... Kg1 1/2-1/2\n\n[FEN \"8/8\"]\n\n*\n\n% hidden [\n[\n[A\n",
    "1. e4 e5 2. Ke2 Ke7 3. Ke1 Ke8 1/2-1/21-0 e4 1-0",
    "$1000 1. e4 * 1. e4 *",
};

/* A game of more than 1,048,576 bytes and one after it; whitespace without an end; and a bad game whose end is far. */
static void try_large(void) {
    static const size_t sizes[] = {65536, 262143, 1 << 22};
    const size_t room = 3 << 20;
    char *text = (char *)malloc(room);
    if (!text) die("no memory");
    memset(text, ' ', room);
    memcpy(text, "1. e4 {", 7);
    memcpy(text + 1100000, "} *\n\n[A \"b\"]\n\n1. d4 *", 21);
    try_text("a game that is too large", text, 1200000, sizes, 3);
    memset(text, '\n', room);
    memcpy(text + room - 7, "1. e4 *", 7);
    try_text("white space", text, room, sizes, 3);
    memset(text, 'x', room);
    memcpy(text, "e4 e4 }", 7);
    memcpy(text + room - 20, "\n[A \"b\"]\n\n1. e4 *\n\n", 19);
    try_text("a bad game whose end is far", text, room, sizes, 3);
    free(text);
}

static void try_file(const char *path) {
    static const size_t sizes[] = {61, 4096, 65536};
    FILE *file = fopen(path, "rb");
    char *text = (char *)malloc(ROOM);
    if (!file || !text) die("no file");
    size_t length = fread(text, 1, ROOM, file);
    fclose(file);
    try_text(path, text, length, sizes, 3);
    free(text);
}

int main(int argc, char **argv) {
    static const size_t sizes[] = {1, 2, 7, 4096};
    jatshegi_keys_fill(&keys);
    for (size_t i = 0; i < sizeof texts / sizeof texts[0]; i++) try_text(texts[i], texts[i], strlen(texts[i]), sizes, 4);
    try_large();
    for (int i = 1; i < argc; i++) try_file(argv[i]);
    empty(&whole);
    empty(&pieces);
    printf("%zu games, %zu faults, %zu ways\n", games, faults, tried);
    return 0;
}
