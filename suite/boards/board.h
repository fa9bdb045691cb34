/*
 * What suite/run.c asks of a board. Write these four functions over yours, as suite/boards/ours.c does over include/jatshegi.h. NULL is for what it can't say.
 * A text that is answered is used before the next call. `fault` is for the kind of fault of what is refused, or NULL, which it is before.
 */
#ifndef BOARD_H
#define BOARD_H

#include <stdbool.h>
#include <stddef.h>

/* Begins with the position of a FEN; false where it is refused. */
bool board_set(const char *fen, const char **fault);

/* Makes a move, as e2e4 or a7a8q; false where it is refused. */
bool board_push(const char *move);

/*
 * The answer to a question about the position, as text:
 *   fen; status; check (true or false); repetitions (a number)
 *   legal, checkers, claims: words separated by a space, in any order, as e2e4, e4, threefold
 *   san: the text in standard algebraic notation of that legal move (of the others `move` is NULL)
 *   attacks: {"white":[64 numbers],"black":[64 numbers]}, without spaces
 */
const char *board_answer(const char *question, const char *move);

/*
 * The first game of a text in PGN, in the form of suite/README.md, without spaces, its members in the order that they have there, and its tags in that of the
 * export format (PGN 8.1.1); NULL where it is refused, with the place in bytes, or -1, which it is before. has_games says whether the board has games at all.
 */
extern const bool has_games;
const char *board_game(const char *text, size_t length, const char **fault, long *at);

#endif
