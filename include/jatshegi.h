/*
 * Jatshegi for C (C11) and C++.
 *
 * Chess rules, PGN and a UCI engine: a prover has checked that the core's answers follow from written definitions of the FIDE Laws and the PGN standard.
 *
 *     struct jatshegi_keys keys;
 *     struct jatshegi_board board = JATSHEGI_NO_BOARD;
 *     jatshegi_keys_fill(&keys);
 *     if (jatshegi_board_new(&keys, &board) == JATSHEGI_OK) {
 *         bool added;
 *         jatshegi_board_play_text(&board, "e4", 2, &added);
 *         jatshegi_board_free(&board);
 *     }
 *
 * A board is a game tree with a cursor, as in the command `chess board`. Playing a move steps to the child with that move; if there is no such child, the call
 * adds one. `back` steps to the parent and keeps the node; `undo` can also remove it again. Every query is about the position at the cursor or the moves from
 * the root to it.
 *
 * Rules for the caller:
 *   - Begin each board with JATSHEGI_NO_BOARD, which is all zeros. After that, only these functions write to it. Never copy a board that is in use. You may move
 *     its bytes, as `realloc` and a C++ move do; then neither use nor free the old place. These rules also apply to a `struct jatshegi_stop`.
 *   - A call with a parameter `const struct jatshegi_board *` or `const struct jatshegi_stop *` writes to the object and restores it before it returns. Keep the
 *     object in writable memory, and never declare it `const`, even if it is empty. The rule of one call at a time also covers such a call.
 *   - Fill the keys once. Keep them unchanged and at the same place as long as a board uses them. Any number of boards share them.
 *   - Use a board in one call at a time. You may pass it to another thread if a lock, or the start or the end of a thread, orders the calls. Boards on different
 *     threads are independent, because there is no other state.
 *   - Pass pointers that are aligned as C aligns their types, and not null. (NULL, 0) may stand for an empty text or for an empty room, for example to ask for a
 *     length. An output must not overlap any other argument. Leave a text unchanged while a call reads it. Lengths are at most PTRDIFF_MAX bytes.
 *   - C and C++ code that includes this header may free a null pointer, because two macros at its end test for it. The library's own functions take no null
 *     pointer. If you call them by a function pointer, by dlsym or from another language, test for null first.
 *   - `malloc`, `realloc` and `free` belong to one allocator. Make no call from a signal handler.
 *
 * If you follow these rules, the library answers every input and never aborts. Each function is proved to answer as the definitions of the Laws of Chess say.
 * If the status isn't JATSHEGI_OK, the call leaves the board unchanged, except at jatshegi_board_answer and at the events of the engine (see there). The status
 * also decides which outputs the call writes:
 *   - JATSHEGI_OK: all outputs.
 *   - JATSHEGI_NO_ROOM: the length or the count; the room stays unchanged. jatshegi_game_read, jatshegi_game_salvage and jatshegi_game_report also write `used`,
 *     jatshegi_game_salvage the repairs, and jatshegi_game_report the report. jatshegi_engine_slice_within writes `searched` and `visited`.
 *   - JATSHEGI_PGN_...: only `used`. It is the place of the fault in the text, in bytes, and at most the text's length. For jatshegi_game_salvage,
 *     jatshegi_game_next and jatshegi_board_load_next it is the number of bytes to skip.
 *   - JATSHEGI_NO_GAME: jatshegi_game_next and jatshegi_board_load_next write `used`, which counts all bytes. Other calls leave all outputs unchanged.
 *   - JATSHEGI_ABANDONED: only `visited`.
 *   - Any other status leaves all outputs unchanged.
 * The prover has checked all this, except that the place belongs to the text's first fault; tests check that.
 *
 * Texts are bytes with a length, without a zero byte at the end. Squares are numbers: 0 for a1, 1 for b1, 63 for h8. A man is a piece or a pawn.
 */
#ifndef JATSHEGI_H
#define JATSHEGI_H

#include <stdbool.h>
#include <stddef.h>
#include <stdint.h>

/* The version of this header, as a text and as a number. The number is 65,536 times the first part, plus 256 times the second, plus the third. */
#define JATSHEGI_VERSION "0.2.0"
#define JATSHEGI_VERSION_NUMBER 0x000200

#ifdef __cplusplus
extern "C" {
#endif

/* The status that a call returns. */
enum jatshegi_status {
    JATSHEGI_OK = 0,
    JATSHEGI_EMPTY = 1,       /* there is no board */
    JATSHEGI_NO_MEMORY = 2,   /* the memory ran out */
    JATSHEGI_ILLEGAL = 3,     /* the move isn't legal, or the text names no legal move */
    JATSHEGI_AMBIGUOUS = 4,   /* the text names more than one legal move */
    JATSHEGI_FORM = 5,        /* the text doesn't have the form of a move */
    JATSHEGI_TOO_LONG = 6,    /* the cursor is 20,000 plies deep */
    JATSHEGI_FULL = 7,        /* the tree holds 1,000,000 moves */
    JATSHEGI_AT_ROOT = 8,     /* the cursor is at the root */
    JATSHEGI_ARGUMENT = 9,    /* a number is out of its range */
    JATSHEGI_NO_ROOM = 10,    /* the answer is longer than its room; the call writes the length */
    JATSHEGI_NONE = 11,       /* there is no legal move, no search, no searched move, or no clock */
    JATSHEGI_NO_SUCH = 12,    /* there is no such child, or no such tag */
    JATSHEGI_BAD_COMMENT = 13, /* the comment contains a right brace */
    JATSHEGI_MORE = 14,       /* the bytes so far don't decide: pass more of them */
    JATSHEGI_NO_GAME = 16,    /* only whitespace follows; for jatshegi_game_salvage also the end of a file */
    JATSHEGI_ABANDONED = 17,  /* the search was abandoned: it came to its limit of positions, or found its flag set */
    JATSHEGI_TAG_NAME = 18,   /* the name of a tag is empty, or contains a byte other than a letter, digit or underscore */
    JATSHEGI_TAG_OWN = 19,    /* Result, FEN and SetUp aren't tags here: the game itself holds its result and its start */
    JATSHEGI_TAG_VALUE = 20,  /* the value of a tag contains a line feed */
    /* A text isn't a FEN, or fields aren't a position: the first fault that applies. */
    JATSHEGI_FEN_FIELDS = 21,       /* neither four nor six fields */
    JATSHEGI_FEN_PLACEMENT = 22,    /* the placement isn't eight ranks of eight squares */
    JATSHEGI_FEN_KINGS = 23,        /* a side doesn't have exactly one king */
    JATSHEGI_FEN_PAWN_RANK = 24,    /* a pawn is on the first or the last rank */
    JATSHEGI_FEN_TOO_MANY_MEN = 25, /* a side has more than 16 men */
    JATSHEGI_FEN_SIDE = 26,         /* the side to move is neither w nor b */
    JATSHEGI_FEN_CASTLING = 27,     /* neither - nor different letters of KQkq; for fields also a right without its king or rook at home */
    JATSHEGI_FEN_TARGET = 28,       /* the en passant field is neither - nor a square; for fields also a square that no pawn has just passed over */
    JATSHEGI_FEN_COUNTER = 29,      /* a counter isn't a number up to 99,999 */
    JATSHEGI_FEN_IN_CHECK = 30,     /* the side not to move is in check */
    /* No game (PGN) is at the start of a text: the first fault. */
    JATSHEGI_PGN_TOKEN = 41,     /* bytes that aren't a token of PGN */
    JATSHEGI_PGN_TAG = 42,       /* a malformed tag */
    JATSHEGI_PGN_MOVE = 43,      /* a word that names no legal move, or more than one */
    JATSHEGI_PGN_VARIATION = 44, /* a variation that doesn't fit */
    JATSHEGI_PGN_DEEP = 45,      /* more than 128 nested variations */
    JATSHEGI_PGN_TRUNCATED = 46, /* the text ends within the game */
    JATSHEGI_PGN_FEN = 47,       /* the tag FEN doesn't spell a position */
    JATSHEGI_PGN_TOO_LARGE = 49  /* more than 1,048,576 bytes, or more than 20,000 plies in a line */
};

/* Returns a sentence for people that names the fault of a status, or says that there is no fault. The text is constant; don't free it. */
static inline const char *jatshegi_status_text(uint32_t status) {
    switch (status) {
    case JATSHEGI_OK: return "it is done";
    case JATSHEGI_EMPTY: return "there is no board";
    case JATSHEGI_NO_MEMORY: return "there is no memory";
    case JATSHEGI_ILLEGAL: return "the move isn't legal";
    case JATSHEGI_AMBIGUOUS: return "the text names more than one legal move";
    case JATSHEGI_FORM: return "the text has no form of a move";
    case JATSHEGI_TOO_LONG: return "the cursor is 20,000 plies deep";
    case JATSHEGI_FULL: return "the tree holds 1,000,000 moves";
    case JATSHEGI_AT_ROOT: return "the cursor is at the root";
    case JATSHEGI_ARGUMENT: return "a number is out of its range";
    case JATSHEGI_NO_ROOM: return "the answer is longer than the room for it";
    case JATSHEGI_NONE: return "there is no legal move, or no search";
    case JATSHEGI_NO_SUCH: return "there is no such child, or no such tag";
    case JATSHEGI_BAD_COMMENT: return "the comment has a right brace";
    case JATSHEGI_MORE: return "more bytes decide what is there";
    case JATSHEGI_NO_GAME: return "only whitespace follows";
    case JATSHEGI_ABANDONED: return "the search was abandoned";
    case JATSHEGI_TAG_NAME: return "the name of the tag is empty, or has a byte that is no letter, digit or underscore";
    case JATSHEGI_TAG_OWN: return "Result, FEN and SetUp are no tags: the game itself has what they say";
    case JATSHEGI_TAG_VALUE: return "the value of the tag has a line feed";
    case JATSHEGI_FEN_FIELDS: return "the FEN has neither four nor six fields";
    case JATSHEGI_FEN_PLACEMENT: return "the men are not eight ranks of eight squares";
    case JATSHEGI_FEN_KINGS: return "a side has no king, or more than one";
    case JATSHEGI_FEN_PAWN_RANK: return "a pawn is on the first or the last rank";
    case JATSHEGI_FEN_TOO_MANY_MEN: return "a side has more than 16 men";
    case JATSHEGI_FEN_SIDE: return "the side to move is neither w nor b";
    case JATSHEGI_FEN_CASTLING: return "the castling rights are neither - nor different letters of KQkq, or one lacks its king or rook at home";
    case JATSHEGI_FEN_TARGET: return "the en passant target is neither - nor a square, or no pawn has just passed over it";
    case JATSHEGI_FEN_COUNTER: return "a counter is no number up to 99,999";
    case JATSHEGI_FEN_IN_CHECK: return "the side not to move is in check";
    case JATSHEGI_PGN_TOKEN: return "bytes that are no token of PGN";
    case JATSHEGI_PGN_TAG: return "a tag that is none";
    case JATSHEGI_PGN_MOVE: return "a word that names no legal move, or more than one";
    case JATSHEGI_PGN_VARIATION: return "a variation that doesn't fit";
    case JATSHEGI_PGN_DEEP: return "more than 128 variations within one another";
    case JATSHEGI_PGN_TRUNCATED: return "the text ends within the game";
    case JATSHEGI_PGN_FEN: return "the tag FEN spells no position";
    case JATSHEGI_PGN_TOO_LARGE: return "more than 1,048,576 bytes, or 20,000 plies in a line";
    default: return "no status of this version";
    }
}

/* The outcome of a game by the Laws (FIDE Laws 5.1.1, 5.2.1, 5.2.2, 9.6). */
enum jatshegi_outcome {
    JATSHEGI_MATE = 0,
    JATSHEGI_STALEMATE = 1,
    JATSHEGI_DEAD = 2,        /* too few men are left to mate */
    JATSHEGI_FIVEFOLD = 3,    /* the same position for the fifth time */
    JATSHEGI_SEVENTYFIVE = 4, /* 75 moves by each side without a capture or a pawn move */
    JATSHEGI_PLAY = 5         /* the game goes on */
};

/* The draws that a player may claim, added up (FIDE Laws 9.2, 9.3). */
enum jatshegi_claims {
    JATSHEGI_THREEFOLD = 1,
    JATSHEGI_FIFTY = 2
};

/* The kinds of a move, added up (FIDE Laws 3.1, 3.7, 3.7.3.1, 3.8.2). */
enum jatshegi_kinds {
    JATSHEGI_CAPTURE = 1,           /* it captures a man, also en passant */
    JATSHEGI_EN_PASSANT = 2,
    JATSHEGI_CASTLES_KING_SIDE = 4, /* with the rook of the h-file */
    JATSHEGI_CASTLES_QUEEN_SIDE = 8, /* with the rook of the a-file */
    JATSHEGI_PAWN_MOVE = 16
};

/* A colour. */
enum jatshegi_colour {
    JATSHEGI_WHITE = 0,
    JATSHEGI_BLACK = 1
};

/* The end of a game by its text (PGN 8.2.6). */
enum jatshegi_marker {
    JATSHEGI_UNFINISHED = 0, /* *: the game goes on, was abandoned, or has an unknown end */
    JATSHEGI_WHITE_WINS = 1, /* 1-0 */
    JATSHEGI_BLACK_WINS = 2, /* 0-1 */
    JATSHEGI_DRAW = 3        /* 1/2-1/2 */
};

/* The piece that a pawn becomes. */
enum jatshegi_promotion {
    JATSHEGI_NO_PROMOTION = 0,
    JATSHEGI_KNIGHT = 1,
    JATSHEGI_BISHOP = 2,
    JATSHEGI_ROOK = 3,
    JATSHEGI_QUEEN = 4
};

/*
 * A move: the square that it leaves, the square that it enters, and the piece that a pawn becomes on the last rank. Castling is the king's move of two squares.
 */
struct jatshegi_move {
    uint8_t from;
    uint8_t to;
    uint8_t promotion;
};

/* The castling rights, added up; each belongs to a side and a rook (FIDE Laws 3.8.2). */
enum jatshegi_castling {
    JATSHEGI_WHITE_KING_SIDE = 1,  /* h1 */
    JATSHEGI_WHITE_QUEEN_SIDE = 2, /* a1 */
    JATSHEGI_BLACK_KING_SIDE = 4,  /* h8 */
    JATSHEGI_BLACK_QUEEN_SIDE = 8  /* a8 */
};

/* No square. */
#define JATSHEGI_NO_SQUARE 64

/* A position by its six fields. A man is a letter, as in a FEN: 'K' for White's king, 'p' for a black pawn (PGN 16.1.3.1). */
struct jatshegi_position {
    char men[64];     /* the man on each square, a1 first, or 0 for an empty square */
    uint8_t side;     /* the side to move: an enum jatshegi_colour */
    uint8_t castling; /* the castling rights: enum jatshegi_castling, added up */
    uint8_t target;   /* the en passant target: the square that a pawn has just passed over, or JATSHEGI_NO_SQUARE */
    uint32_t clock;   /* the halfmove clock: plies since the last pawn move or capture */
    uint32_t number;  /* the fullmove number, from 1 on */
};

/* The ply of an event that never happens. */
#define JATSHEGI_NEVER UINT32_MAX

/* The kinds of repair, by the names that `chess_games --salvage` reports. The page FORMATS lists the text that each kind writes. */
enum jatshegi_repair_kind {
    JATSHEGI_REPAIR_TAG_QUOTES = 0,
    JATSHEGI_REPAIR_TAG_BRACKET = 1,
    JATSHEGI_REPAIR_TAG_NAME = 2,
    JATSHEGI_REPAIR_CASTLING = 3,
    JATSHEGI_REPAIR_HYPHEN = 4,
    JATSHEGI_REPAIR_COLON = 5,
    JATSHEGI_REPAIR_PAWN = 6,
    JATSHEGI_REPAIR_SMALL = 7,
    JATSHEGI_REPAIR_LARGE = 8,
    JATSHEGI_REPAIR_PROMOTION = 9,
    JATSHEGI_REPAIR_SIGN = 10,
    JATSHEGI_REPAIR_SAID = 11,
    JATSHEGI_REPAIR_VALUE = 12,
    JATSHEGI_REPAIR_RESULT = 13,
    JATSHEGI_REPAIR_GLYPHS = 14,
    JATSHEGI_REPAIR_NUMBER = 15,
    JATSHEGI_REPAIR_DOTS = 16,
    JATSHEGI_REPAIR_SPACE = 17,
    JATSHEGI_REPAIR_CONTROL = 18,
    JATSHEGI_REPAIR_STRAY = 19,
    JATSHEGI_REPAIR_OFFER = 20,
    JATSHEGI_REPAIR_ANGLES = 21,
    JATSHEGI_REPAIR_BRACKET = 22,
    JATSHEGI_REPAIR_MARKER = 23,
    JATSHEGI_REPAIR_SYMBOL = 24,
    JATSHEGI_REPAIR_NESTED = 25,
    JATSHEGI_REPAIR_COMMENT = 26,
    JATSHEGI_REPAIR_UNCLOSED = 27,
    JATSHEGI_REPAIR_PROSE = 28,
    JATSHEGI_REPAIR_FEN = 29,
    JATSHEGI_REPAIR_SQUARES = 30,
    JATSHEGI_REPAIR_NULL = 31,
    JATSHEGI_REPAIR_ILLEGAL = 32,
    JATSHEGI_REPAIR_UNREADABLE = 33,
    JATSHEGI_REPAIR_VARIATION = 34
};

/* One repair. If reading stopped at a repair, and the repair rewrote or cut off the line there, its place is approximate. */
struct jatshegi_repair {
    size_t place;   /* of its first byte, in bytes of the text */
    size_t length;  /* the number of bytes that it replaces */
    size_t written; /* the number of bytes that it writes instead */
    uint32_t kind;  /* an enum jatshegi_repair_kind */
};

/* Returns the name of a kind of repair, or null if there is no such kind. The text is constant; don't free it. */
static inline const char *jatshegi_repair_text(uint32_t kind) {
    static const char *const names[] = {
        "TagQuotes", "TagBracket", "TagName", "Castling", "Hyphen", "Colon", "Pawn", "Small", "Large", "Promotion", "Sign", "Said", "Value", "Result",
        "Glyphs", "Number", "Dots", "Space", "Control", "Stray", "Offer", "Angles", "Bracket", "Marker", "Symbol", "Nested", "Comment", "Unclosed", "Prose",
        "Fen", "Squares", "Null", "Illegal", "Unreadable", "Variation"
    };
    return kind < sizeof names / sizeof names[0] ? names[kind] : NULL;
}

/* A report on a game's main line by the Laws (FIDE Laws 5 and 9). A ply counts the moves made, from 0 to `plies`, or is JATSHEGI_NEVER. */
struct jatshegi_report {
    uint32_t plies;       /* the number of moves in the main line, at most 20,000 */
    uint32_t marker;      /* the end of the game by its text: an enum jatshegi_marker */
    uint32_t status;      /* the outcome at the last position: an enum jatshegi_outcome */
    uint32_t winner;      /* the side that has mated the other there: 0 without a mate, 1 for White, 2 for Black */
    uint32_t over;        /* the first ply at which the game is over; if it isn't the last ply, moves follow it */
    uint32_t why;         /* the reason that it is over there, an enum jatshegi_outcome; JATSHEGI_PLAY if it never is */
    uint32_t threefold;   /* the first ply at which a player may claim a draw by repetition (9.2.2) */
    uint32_t fifty;       /* the first ply at which a player may claim a draw by fifty moves (9.3.2) */
    uint32_t repetitions; /* the most times that a position has come up, at least 1 */
    uint32_t quiet;       /* the most plies in a row without a pawn move or a capture */
    bool agrees;          /* whether the marker agrees with the board: after mate the winner's, after each other end a draw, otherwise any marker */
};

/* A table that boards share. No answer depends on its words. */
struct jatshegi_keys {
    uint64_t words[768];
};

/* A board with a search and a session of the engine, or nothing: zeros are nothing. Only the functions below use its fields. */
struct jatshegi_board {
    bool full;
    void *at;
};
#define JATSHEGI_NO_BOARD {false, NULL}

/*
 * A handle of a flag, or nothing: zeros are nothing. One thread sets the flag to end the searches of another thread. Only the functions below use its fields.
 * Never copy a handle that is in use, and use it in one call at a time. You may pass it to another thread. Never declare it `const`, even if it is empty.
 */
struct jatshegi_stop {
    bool full;
    void *at;
};
#define JATSHEGI_NO_STOP {false, NULL}

/*
 * Upper bounds: the number of legal moves in a position, and the lengths of a FEN, a move in each notation, an answer to a line (except `path` and `pgn`), and
 * the replies to an event.
 */
enum {
    JATSHEGI_MOST_MOVES = 432,
    JATSHEGI_MOST_FEN = 128,
    JATSHEGI_MOST_SAN = 8,
    JATSHEGI_MOST_UCI = 5,
    JATSHEGI_MOST_ANSWER = 2600,
    JATSHEGI_MOST_REPLIES = 260
};

/* Returns the version of the running library, as a number like JATSHEGI_VERSION_NUMBER. */
uint32_t jatshegi_version(void);

/* Fills the table. Always OK. */
uint32_t jatshegi_keys_fill(struct jatshegi_keys *keys);

/* Sets up a board for a new game, and frees the board that was there before. OK, NO_MEMORY. */
uint32_t jatshegi_board_new(const struct jatshegi_keys *keys, struct jatshegi_board *board);

/*
 * Copies a board into another: the same game with its tags and its result, the cursor at the same node, no search, and a session of the engine at its start.
 * The call frees the former content of the other board. The two boards must be different. If the status isn't OK, the other board stays unchanged. OK, EMPTY,
 * NO_MEMORY.
 */
uint32_t jatshegi_board_copy(const struct jatshegi_board *board, struct jatshegi_board *other);

/* Frees the board, if there is one, and leaves the object empty. If you call it by this name in C or C++, it ignores a null pointer. */
void jatshegi_board_free(struct jatshegi_board *board);

/*
 * Frees the memory that the board doesn't need between calls: the 65,536 bytes for the answers to lines. The next line takes them again. The board, its search
 * and its session of the engine stay unchanged. OK, EMPTY.
 */
uint32_t jatshegi_board_trim(struct jatshegi_board *board);

/* Begins a tree from the position of a FEN, and frees the former tree. OK, EMPTY, NO_MEMORY, FEN_... */
uint32_t jatshegi_board_set(struct jatshegi_board *board, const char *fen, size_t length);

/*
 * Begins a tree from a position by its fields, and frees the former tree. OK, EMPTY, NO_MEMORY, FEN_...
 *
 * Faults of single fields come first: FEN_PLACEMENT if a byte isn't a man, FEN_SIDE, FEN_CASTLING, FEN_TARGET, and FEN_COUNTER if a counter is over 99,999.
 * Then come the faults of the position. jatshegi_board_set drops a right without its king and its rook at home, and a target that no pawn has just passed over.
 * This call refuses them with FEN_CASTLING and FEN_TARGET, and the number 0 with FEN_COUNTER.
 */
uint32_t jatshegi_board_set_position(struct jatshegi_board *board, const struct jatshegi_position *position);

/*
 * Loads the game at the start of a text (PGN): its tags and its result, its first position, and its moves with variations, comments and annotations. `used` is
 * the number of bytes that the game takes. The cursor is then at the root. If the status isn't OK, the board stays unchanged; at PGN_... `used` is the place of
 * the fault. OK, EMPTY, NO_MEMORY, NO_GAME, PGN_...
 */
uint32_t jatshegi_board_load(struct jatshegi_board *board, const char *text, size_t length, size_t *used);

/*
 * Does the same for a text that comes bit by bit: loads the game that jatshegi_game_next finds at the start of the bytes so far, and writes the same `used`. If
 * the status isn't OK, the board stays unchanged. OK, EMPTY, NO_MEMORY, NO_GAME, MORE, PGN_...
 */
uint32_t jatshegi_board_load_next(struct jatshegi_board *board, const char *text, size_t length, bool is_last, size_t *used);

/* Writes the FEN of the position (PGN 16.1) and its length, at most JATSHEGI_MOST_FEN. OK, EMPTY, NO_ROOM. */
uint32_t jatshegi_board_fen(const struct jatshegi_board *board, char *text, size_t room, size_t *length);

/*
 * Writes the text that identifies a position by the Laws, and its length, at most JATSHEGI_MOST_FEN. It has the first four fields of the FEN, with the en
 * passant target only if a legal move captures on it. Two positions are the same (FIDE Laws 9.2.3) if and only if their texts are equal. The text is therefore
 * a key for an opening tree or a table of positions. It is an EPD without operations (PGN 16.2). OK, EMPTY, NO_ROOM.
 */
uint32_t jatshegi_board_epd(const struct jatshegi_board *board, char *text, size_t room, size_t *length);

/*
 * Writes the position's key in Polyglot's opening books, by which many programs name positions (http://hgm.nubati.net/book_format.html). The key is the
 * exclusive or of published numbers: for each man on its square, for each castling right, for White's turn, and for the file of an en passant target. The
 * target counts if a pawn of the side to move stands next to the pawn that has passed over it, also if it may not capture. Positions with different keys
 * differ. Different positions may have the same key. OK, EMPTY.
 */
uint32_t jatshegi_board_key(const struct jatshegi_board *board, uint64_t *key);

/* Writes the fields of the position. OK, EMPTY. */
uint32_t jatshegi_board_position(const struct jatshegi_board *board, struct jatshegi_position *position);

/* Writes the side to move: 0 for White, 1 for Black. OK, EMPTY. */
uint32_t jatshegi_board_turn(const struct jatshegi_board *board, uint8_t *colour);

/*
 * Writes what is on a square, from 0 for a1 and 1 for b1 to 63 for h8: a man's letter (PGN 16.1.3.1), such as 'K' for White's king, or 0 for nothing. OK,
 * EMPTY, ARGUMENT.
 */
uint32_t jatshegi_board_piece_at(const struct jatshegi_board *board, uint8_t square, char *piece);

/* Writes the legal moves in order, and their number, at most JATSHEGI_MOST_MOVES (FIDE Laws 3.1 to 3.10). OK, EMPTY, NO_ROOM. */
uint32_t jatshegi_board_moves(const struct jatshegi_board *board, struct jatshegi_move *moves, size_t room, size_t *count);

/* Says whether a move is legal (FIDE Laws 3.9.2, 3.10.1). Three numbers that form no move are not legal. OK, EMPTY. */
uint32_t jatshegi_board_is_legal(const struct jatshegi_board *board, struct jatshegi_move move, bool *legal);

/*
 * Writes the moves from the root to the cursor in the order in which they were made, and their number: 0 at the root, and at most 20,000. OK, EMPTY, NO_ROOM.
 */
uint32_t jatshegi_board_line(const struct jatshegi_board *board, struct jatshegi_move *moves, size_t room, size_t *count);

/*
 * Makes a move, and says whether it added a node: `added` is `false` if a child of the node at the cursor has the move. OK, EMPTY, NO_MEMORY, ILLEGAL,
 * TOO_LONG, FULL.
 *
 * A program that takes moves back keeps the bit `added` of each move, and passes it to jatshegi_board_undo. The call also makes a legal move after the game is
 * over, for example by a fifth repetition. jatshegi_board_outcome says whether the game is over.
 */
uint32_t jatshegi_board_play(struct jatshegi_board *board, struct jatshegi_move move, bool *added);

/* Makes the move that a text names: Nf3, exd8=Q+, O-O, or e2e4 (PGN 8.2.3). OK, EMPTY, NO_MEMORY, ILLEGAL, AMBIGUOUS, FORM, TOO_LONG, FULL. */
uint32_t jatshegi_board_play_text(struct jatshegi_board *board, const char *text, size_t length, bool *added);

/* Steps to the parent. The node that it leaves stays in the tree. OK, EMPTY, AT_ROOT. */
uint32_t jatshegi_board_back(struct jatshegi_board *board);

/*
 * Takes back the move that led to the cursor: steps to the parent, and removes the node that it leaves from the tree. If `added` is `false`, or if the node has
 * a child, a comment or an annotation number, the tree keeps the node, as with jatshegi_board_back. OK, EMPTY, AT_ROOT.
 *
 * If you pass the `added` of the call that made the move, the tree and the cursor are then the same as before that call. The call takes no memory. A program
 * that went elsewhere meanwhile passes `false`. With `true` the call would also remove an older node if it has no child, comment or annotation number.
 */
uint32_t jatshegi_board_undo(struct jatshegi_board *board, bool added);

/* Writes the legal move that a text names. OK, EMPTY, ILLEGAL, AMBIGUOUS, FORM. */
uint32_t jatshegi_board_read(const struct jatshegi_board *board, const char *text, size_t length, struct jatshegi_move *move);

/* Writes a move in standard algebraic notation, and the length of the text, at most JATSHEGI_MOST_SAN (PGN 8.2.3). OK, EMPTY, ILLEGAL, NO_ROOM. */
uint32_t jatshegi_board_write(const struct jatshegi_board *board, struct jatshegi_move move, char *text, size_t room, size_t *length);

/*
 * jatshegi_move_write writes a move in the long algebraic notation of UCI, as e2e4 or e7e8q, and the length of the text, at most JATSHEGI_MOST_UCI.
 * jatshegi_move_read writes the move of such a text. The move needn't be legal in any position. OK; NO_ROOM and ARGUMENT (it isn't a move on a board) of the
 * first; FORM (it isn't such a text) of the second.
 */
uint32_t jatshegi_move_write(struct jatshegi_move move, char *text, size_t room, size_t *length);
uint32_t jatshegi_move_read(const char *text, size_t length, struct jatshegi_move *move);

/* Writes the outcome of the game: an enum jatshegi_outcome. OK, EMPTY. */
uint32_t jatshegi_board_outcome(const struct jatshegi_board *board, uint32_t *outcome);

/*
 * Write the draws that a player may claim: enum jatshegi_claims, added up. The second call answers for the position after a move. OK, EMPTY; ILLEGAL of the
 * second.
 */
uint32_t jatshegi_board_claims(const struct jatshegi_board *board, uint32_t *claims);
uint32_t jatshegi_board_claims_with(const struct jatshegi_board *board, struct jatshegi_move move, uint32_t *claims);

/* Writes how often the position has come up on the way to it, this time included (FIDE Laws 9.2.2). OK, EMPTY. */
uint32_t jatshegi_board_repetitions(const struct jatshegi_board *board, uint32_t *times);

/* Writes the kinds of a legal move: enum jatshegi_kinds, added up, or 0 for a quiet move of a piece. OK, EMPTY, ILLEGAL. */
uint32_t jatshegi_board_kinds(const struct jatshegi_board *board, struct jatshegi_move move, uint32_t *kinds);

/*
 * Says whether a side, an enum jatshegi_colour, can't mate any more by any series of legal moves: it has only its king, or the position is dead. If its
 * opponent oversteps the time, the game is then a draw (FIDE Laws 5.2.2, 6.9). `false` doesn't mean that the side can mate. OK, EMPTY, ARGUMENT.
 */
uint32_t jatshegi_board_cannot_mate(const struct jatshegi_board *board, uint8_t side, bool *cannot);

/* Says whether the king of the side to move is in check (FIDE Laws 3.9.1). OK, EMPTY. */
uint32_t jatshegi_board_in_check(const struct jatshegi_board *board, bool *check);

/* Writes for each square 1 if a man on it checks the side to move, otherwise 0 (FIDE Laws 3.9.1). OK, EMPTY. */
uint32_t jatshegi_board_checks(const struct jatshegi_board *board, uint8_t checks[64]);

/* Writes for each square how many men of White and of Black attack it (FIDE Laws 3.1.2). OK, EMPTY. */
uint32_t jatshegi_board_counts(const struct jatshegi_board *board, uint8_t white[64], uint8_t black[64]);

/*
 * Writes the men of a colour that attack a square, which may be empty or occupied: the bit of each man's square is 1, and the lowest bit is for a1. A king and
 * pinned men attack too. A man doesn't attack through another man (FIDE Laws 3.1 to 3.8). OK, EMPTY, ARGUMENT.
 */
uint32_t jatshegi_board_attackers(const struct jatshegi_board *board, uint8_t colour, uint8_t square, uint64_t *attackers);

/*
 * Finds the entries of a key in an opening book of Polyglot's, which has 16 bytes for each entry, in ascending order of keys. `first` is the first entry of the
 * key, counted from 0. `count` is the number of its entries, which follow one another, or 0. The search reads few of the bytes, so a book may be a mapped file.
 * If the keys of a text don't ascend, the search may miss entries.
 */
void jatshegi_book_find(const char *book, size_t length, uint64_t key, size_t *first, size_t *count);

/*
 * Writes the legal move of an entry of a book, the entry's weight, and a number for a program's own use. The weight says how often to play the move, relative
 * to the other entries of the key. OK, EMPTY, ILLEGAL (the entry's key isn't the position's, or its move isn't legal), ARGUMENT (the book has no such entry).
 */
uint32_t jatshegi_board_book_move(const struct jatshegi_board *board, const char *book, size_t length, size_t entry, struct jatshegi_move *move, uint16_t *weight,
                                  uint32_t *learn);

/* Writes the evaluation, in centipawns for White. OK, EMPTY. */
uint32_t jatshegi_board_evaluation(const struct jatshegi_board *board, int32_t *value);

/*
 * Writes the first legal move of greatest minimax value, 1 to 16 plies deep, with its value for the side to move: centipawns, or 30,000 less the plies to a
 * mate. OK, EMPTY, ARGUMENT, NONE.
 */
uint32_t jatshegi_board_best(const struct jatshegi_board *board, uint8_t depth, struct jatshegi_move *move, int32_t *value);

/*
 * Begins the same search in slices, which the caller drives by its own clock, and may leave at any time. The search begins at the position at the cursor, 1 to
 * 16 plies deep. The call ends any former search of the board, and leaves all moves of the new search to the slices. The search has its own line of moves, so
 * you may use the board meanwhile. OK, EMPTY, NO_MEMORY, ARGUMENT, NONE.
 */
uint32_t jatshegi_search_start(struct jatshegi_board *board, uint8_t depth);

/* Searches one more legal move, and writes how many are left. At 0 the search is done, and a further call has no effect. OK, EMPTY; NONE without a search. */
uint32_t jatshegi_search_slice(struct jatshegi_board *board, size_t *left);

/*
 * Writes the best of the searched moves, with its value in the form of jatshegi_board_best. Once the search is done, the answer is the same as from that
 * function. OK, EMPTY; NONE if no move was searched.
 */
uint32_t jatshegi_search_best(const struct jatshegi_board *board, struct jatshegi_move *move, int32_t *value);

/* Ends the search, if there is one, and frees its memory. OK, EMPTY. */
uint32_t jatshegi_search_end(struct jatshegi_board *board);

/*
 * jatshegi_stop_new makes a flag, not set, and a handle of it. jatshegi_stop_share makes another handle of the same flag, for another thread. jatshegi_stop_set
 * sets or clears the flag. The first two calls free the former content of the handle that they write. OK; EMPTY of the last two; NO_MEMORY of the first two.
 */
uint32_t jatshegi_stop_new(struct jatshegi_stop *stop);
uint32_t jatshegi_stop_share(const struct jatshegi_stop *stop, struct jatshegi_stop *other);
uint32_t jatshegi_stop_set(struct jatshegi_stop *stop, bool set);

/*
 * Frees the handle, if there is one, and leaves the object empty. The last handle of a flag also frees the flag. If you call it by this name in C or C++, it
 * ignores a null pointer.
 */
void jatshegi_stop_free(struct jatshegi_stop *stop);

/*
 * Both calls search like jatshegi_board_best and jatshegi_search_slice, but may abandon the search inside a root move: at the first position beyond `nodes`
 * (UINT64_MAX for no limit), or if the call finds the flag of `stop` set. It looks at the flag at the positions with the numbers 1, 1,025, 2,049 and so on.
 * `stop` may be an empty handle. `visited` is the number of positions that the call has asked for. At ABANDONED the call writes only `visited`, and leaves the
 * board and its search unchanged. The next call repeats the abandoned work, so a caller who sets limits doubles them.
 *
 * jatshegi_board_best_within also counts the position at the cursor, but doesn't look at the flag there. A limit of 0 therefore means 1 in this call. It takes
 * memory for a line of moves. Its statuses are OK, EMPTY, NO_MEMORY, ARGUMENT, NONE, ABANDONED; the other call has OK, EMPTY, NONE, ABANDONED.
 */
uint32_t jatshegi_board_best_within(const struct jatshegi_board *board, uint8_t depth, uint64_t nodes, const struct jatshegi_stop *stop,
                                    struct jatshegi_move *move, int32_t *value, uint64_t *visited);
uint32_t jatshegi_search_slice_within(struct jatshegi_board *board, uint64_t nodes, const struct jatshegi_stop *stop, size_t *left, uint64_t *visited);

/*
 * Writes the replies after a legal move that a search of 1 to 16 plies found worth `value`: the line that leads to the score. Each reply is the first legal
 * move that is worth as much to its side as the value says. The line ends at the depth, or if the game is over. It has at most 15 moves.
 *
 * Pass the move and the value of jatshegi_board_best or jatshegi_board_best_within, at the same depth. The value is -30,000 to 30,000. With another value the
 * line ends where no move is worth it. The limits and `visited` are those of jatshegi_board_best_within. The search is short, since the value is known. OK,
 * EMPTY, NO_MEMORY, NO_ROOM, ILLEGAL, ARGUMENT, ABANDONED.
 */
uint32_t jatshegi_board_replies(const struct jatshegi_board *board, struct jatshegi_move move, uint8_t depth, int32_t value, uint64_t nodes,
                                const struct jatshegi_stop *stop, struct jatshegi_move *moves, size_t room, size_t *count, uint64_t *visited);

/*
 * Drive a session of the universal chess interface (UCI) by events. Each board has one session, which is independent of the board's game. jatshegi_engine_line
 * passes a line, without its line feed. jatshegi_engine_slice gives time to search one more root move. jatshegi_engine_moment passes the time of a clock in
 * milliseconds, counted from any fixed moment.
 *
 * Each call writes the replies, one on each line, and their length, at most JATSHEGI_MOST_REPLIES. At NO_ROOM the event has happened, and the replies are lost.
 * The first event of a board takes memory for the session. If memory is refused, the event doesn't happen. OK, EMPTY, NO_ROOM, NO_MEMORY of the first event.
 */
uint32_t jatshegi_engine_line(struct jatshegi_board *board, const char *line, size_t length, char *replies, size_t room, size_t *count);
uint32_t jatshegi_engine_slice(struct jatshegi_board *board, char *replies, size_t room, size_t *count);
uint32_t jatshegi_engine_moment(struct jatshegi_board *board, uint64_t moment, char *replies, size_t room, size_t *count);

/*
 * Gives the session a slice that it may abandon, with the limits of jatshegi_search_slice_within. `visited` is the number of positions that the slice has asked
 * for. If `searched` is true, the call had the effect of jatshegi_engine_slice. If it is false, the slice was abandoned: the call writes no reply, and leaves
 * the session unchanged. OK, EMPTY, NO_ROOM, NO_MEMORY.
 */
uint32_t jatshegi_engine_slice_within(struct jatshegi_board *board, uint64_t nodes, const struct jatshegi_stop *stop, bool *searched, uint64_t *visited,
                                      char *replies, size_t room, size_t *count);

/*
 * jatshegi_engine_searching says whether the session searches, and therefore wants slices. jatshegi_engine_infinite says whether only `stop` ends that search.
 * jatshegi_engine_waiting says whether the search has done all its work and waits for `stop`; a slice then has no effect. jatshegi_engine_ended says whether
 * `quit` came; the session then replies no more. OK, EMPTY.
 */
uint32_t jatshegi_engine_searching(const struct jatshegi_board *board, bool *searching);
uint32_t jatshegi_engine_infinite(const struct jatshegi_board *board, bool *infinite);
uint32_t jatshegi_engine_waiting(const struct jatshegi_board *board, bool *waiting);
uint32_t jatshegi_engine_ended(const struct jatshegi_board *board, bool *ended);

/*
 * Writes the milliseconds from the last moment until the clock ends the search, or 0 if it should end now. OK, EMPTY; NONE if no search runs or no clock ends
 * it.
 */
uint32_t jatshegi_engine_time_left(const struct jatshegi_board *board, uint64_t *milliseconds);

/*
 * Writes the whole game in export form (PGN 3.2), with its tags and its result, and the length of the text. The call takes memory for the text. OK, EMPTY,
 * NO_MEMORY, NO_ROOM.
 *
 * A game has tags and a result besides its moves. jatshegi_board_new begins with unknown tags (`?`) and the result `*`. jatshegi_board_load and
 * jatshegi_board_load_next take the text's tags and result. Apart from these, only the calls below change them, so a game keeps its players if you set another
 * position. The line `pgn` of jatshegi_board_answer ignores both, like the program.
 *
 * The call also writes a text of more than 1,048,576 bytes, or with more than 128 nested variations, but every call that reads a game then returns
 * PGN_TOO_LARGE or PGN_DEEP. Long comments and tags are enough for such a text, so a program that stores games checks the length.
 */
uint32_t jatshegi_board_pgn(const struct jatshegi_board *board, char *text, size_t room, size_t *length);

/*
 * Writes the value of the tag with that name, and its length (PGN 8.1). The value comes as people read it, without the quotation marks and backslashes of a
 * file. Every game has Event, Site, Date, Round, White and Black. Result, FEN and SetUp aren't tags here: the game itself holds its result and its start. OK,
 * EMPTY, NO_SUCH, NO_ROOM.
 */
uint32_t jatshegi_board_tag(const struct jatshegi_board *board, const char *name, size_t length, char *value, size_t room, size_t *count);

/*
 * Writes the name of the tag at that place, counted from 0, and its length. The six tags of every game come first, then the other tags in ASCII order. NO_SUCH
 * means that there are no more tags. OK, EMPTY, NO_SUCH, NO_ROOM.
 */
uint32_t jatshegi_board_tags(const struct jatshegi_board *board, size_t place, char *name, size_t room, size_t *count);

/*
 * jatshegi_board_set_tag gives a tag a value, and adds the tag if the game doesn't have it yet. The name consists of letters, digits and underscores; the value
 * is any text on one line. jatshegi_board_clear_tag removes a tag, if there is one; each of the six then has its unknown value, `?` or `????.??.??`. OK, EMPTY,
 * NO_MEMORY; TAG_NAME, TAG_OWN, TAG_VALUE of the first.
 *
 * A value may have any length, but no call reads a game whose text is longer than 1,048,576 bytes (jatshegi_board_pgn).
 */
uint32_t jatshegi_board_set_tag(struct jatshegi_board *board, const char *name, size_t length, const char *value, size_t count);
uint32_t jatshegi_board_clear_tag(struct jatshegi_board *board, const char *name, size_t length);

/*
 * jatshegi_board_result writes the end of the game by its text: an enum jatshegi_marker. jatshegi_board_set_result sets it. OK, EMPTY; ARGUMENT of the second.
 */
uint32_t jatshegi_board_result(const struct jatshegi_board *board, uint32_t *marker);
uint32_t jatshegi_board_set_result(struct jatshegi_board *board, uint32_t marker);

/* Steps to a child, by its place among its siblings, counted from 0. OK, EMPTY, NO_SUCH. */
uint32_t jatshegi_board_step(struct jatshegi_board *board, uint32_t place);

/*
 * Describe the node at the cursor; with `step` and `back` you can walk a tree. jatshegi_board_depth writes the number of plies from the root, at most 20,000.
 * jatshegi_board_children writes the number of children, and jatshegi_board_move the move that leads to the node. The last two write the node's comment, empty
 * if it has no comment (PGN 5), and its annotation numbers (PGN 8.2.4). OK, EMPTY; AT_ROOT of the move; NO_ROOM of the last two.
 */
uint32_t jatshegi_board_depth(const struct jatshegi_board *board, uint32_t *depth);
uint32_t jatshegi_board_children(const struct jatshegi_board *board, uint32_t *children);
uint32_t jatshegi_board_move(const struct jatshegi_board *board, struct jatshegi_move *move);
uint32_t jatshegi_board_comment_of(const struct jatshegi_board *board, char *text, size_t room, size_t *length);
uint32_t jatshegi_board_annotations_of(const struct jatshegi_board *board, uint8_t *numbers, size_t room, size_t *count);

/* Go to the root, or from the cursor along the first children to the end. OK, EMPTY. */
uint32_t jatshegi_board_start(struct jatshegi_board *board);
uint32_t jatshegi_board_end(struct jatshegi_board *board);

/*
 * jatshegi_board_promote puts the move at the cursor before its siblings. jatshegi_board_delete removes the move with everything after it, and steps to its
 * parent. OK, EMPTY, AT_ROOT.
 */
uint32_t jatshegi_board_promote(struct jatshegi_board *board);
uint32_t jatshegi_board_delete(struct jatshegi_board *board);

/*
 * Sets the comment of the node at the cursor, and drops the former comment. A text without words removes it (PGN 5). OK, EMPTY, NO_MEMORY, BAD_COMMENT.
 *
 * A comment may have any length, but no call reads a game whose text is longer than 1,048,576 bytes (jatshegi_board_pgn).
 */
uint32_t jatshegi_board_comment(struct jatshegi_board *board, const char *text, size_t length);

/* Adds an annotation number to the move at the cursor (PGN 8.2.4). OK, EMPTY, NO_MEMORY, AT_ROOT. */
uint32_t jatshegi_board_annotate(struct jatshegi_board *board, uint8_t number);

/* Removes all annotation numbers of the move at the cursor. OK, EMPTY, AT_ROOT. */
uint32_t jatshegi_board_clear_annotations(struct jatshegi_board *board);

/*
 * Carries out a line of the program's `board`, without its line feed, and writes the answer and its length. OK, EMPTY, NO_ROOM, NO_MEMORY.
 *
 * At NO_ROOM the call has carried out the line, and the answer is lost. With room for JATSHEGI_MOST_ANSWER bytes this happens only to `path` and `pgn`. Both
 * leave the board unchanged, so you may ask again with more room. At NO_MEMORY the call hasn't carried out the line, and everything stays unchanged. If there
 * is memory for the answer but not for the line's work, the answer is `refused 5 Memory`. The first line takes 65,536 bytes, which the board keeps until
 * jatshegi_board_trim.
 */
uint32_t jatshegi_board_answer(struct jatshegi_board *board, const char *line, size_t length, char *answer, size_t room, size_t *count);

/*
 * Reads the game at the start of a text (PGN), and writes it in export form (PGN 3.2) with its length. `used` is the number of bytes of the text that the game
 * takes. OK, NO_MEMORY, NO_ROOM, NO_GAME, PGN_...
 *
 * At NO_ROOM the call writes the length and `used`, and you may ask again with more room. At PGN_... `used` is the place of the fault.
 */
uint32_t jatshegi_game_read(const char *text, size_t length, char *game, size_t room, size_t *count, size_t *used);

/*
 * Reads a game like jatshegi_game_read; if that call refuses the text, this call reads the game that the text has after repair. It writes the game in export
 * form, the repairs, as many as there are places for, and their number, 0 if the text needs no repair. `used` is the number of bytes to skip next. OK,
 * NO_MEMORY, NO_ROOM, NO_GAME, PGN_...
 *
 * A repair replaces some bytes of the text, according to its kind. All bytes between the repairs stay unchanged, and strict reading of the resulting text gives
 * the game. The list begins with the repairs that need no reading of moves, in the order of their places. Then come the repairs at the places where reading
 * stopped, in the order in which they were made. At NO_ROOM only the game's room was too small: the call writes the length, the repairs and `used`. At PGN_...
 * it could save no game, and `used` is the same as from jatshegi_game_pass. NO_GAME also means the end of a file: a text of at most 1,048,576 bytes that are
 * all whitespace (9 to 13 and 32), NUL (0) or ^Z (26). Pass the whole rest of the text, because the answer for a part of it may differ.
 */
uint32_t jatshegi_game_salvage(const char *text, size_t length, char *game, size_t room, size_t *count, struct jatshegi_repair *repairs, size_t places,
                               size_t *repaired, size_t *used);

/*
 * Reports on the main line of the game at the start of a text by the Laws. The call also writes the FEN of the last position with its length, at most
 * JATSHEGI_MOST_FEN, and the number of bytes of the text that the game takes. OK, NO_MEMORY, NO_ROOM, NO_GAME, PGN_..., as jatshegi_game_read; at NO_ROOM the
 * call also writes the report.
 */
uint32_t jatshegi_game_report(const char *text, size_t length, struct jatshegi_report *report, char *fen, size_t room, size_t *count, size_t *used);

/*
 * Writes how many bytes to skip from the start of a text to the text after its game. For a good game these are its bytes. If only whitespace follows, they are
 * all bytes. If the game can't be read, they are the bytes that are given up with it. The text decides this number, and the kind of fault has no influence.
 * First come the tokens of the bad game, up to the bracket of a tag after movetext, to bytes that aren't a token, or to 1,048,576 bytes. Then come all bytes up
 * to the first `[` that opens a tag and is first on its line, or to the end. The number is at least 1 if the text has any byte. OK, NO_MEMORY.
 */
uint32_t jatshegi_game_pass(const char *text, size_t length, size_t *used);

/*
 * Finds the game at the start of a text that comes bit by bit, from a pipe, a socket or a large file. Pass the bytes that have come and that you haven't
 * skipped yet. `is_last` says that no more bytes follow them. `used` is the number of bytes to skip next. OK, NO_MEMORY, NO_GAME, MORE, PGN_...
 *
 * At OK there is one game, for every continuation of the text, and `used` is its length. jatshegi_game_read and jatshegi_game_report read the same game from
 * these bytes. At PGN_... there is no game, for every continuation, and `used` is the number that jatshegi_game_pass writes for the whole text. At NO_GAME all
 * bytes are whitespace and end the text. At MORE, call again with more bytes after these; at MORE and at NO_MEMORY `used` stays unchanged. Games and faults are
 * therefore the same as in the whole text, for every way to cut it.
 *
 * Each call reads the bytes from the first one on, so pass large pieces. If there are more than 1,048,576 bytes, MORE means that they are whitespace, or belong
 * to a game that can't be read and is given up as far as the next section of tags. A caller may stop there.
 */
uint32_t jatshegi_game_next(const char *text, size_t length, bool is_last, size_t *used);

#ifdef __cplusplus
}
#endif

/* These two functions ignore a null pointer; the library's own functions don't take it. */
static inline void jatshegi_board_free_any(struct jatshegi_board *board) {
    if (board != NULL) jatshegi_board_free(board);
}
static inline void jatshegi_stop_free_any(struct jatshegi_stop *stop) {
    if (stop != NULL) jatshegi_stop_free(stop);
}
#define jatshegi_board_free(board) jatshegi_board_free_any(board)
#define jatshegi_stop_free(stop) jatshegi_stop_free_any(stop)

#endif
