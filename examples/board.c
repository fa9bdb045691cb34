/* Plays the moves that are named, and prints the position and the game's status:
 * cc examples/board.c -Iinclude release/x86_64-linux/lib/libjatshegi.a -o board && ./board e4 e5 Bc4 Nc6 Qh5 Nf6 Qxf7 */
#include <stdbool.h>
#include <stdio.h>
#include <string.h>
#include "jatshegi.h"

static const char *const STATUS[] = {"mate", "stalemate", "dead", "fivefold", "seventyfive", "play"};

int main(int argc, char **argv) {
    static struct jatshegi_keys keys;
    struct jatshegi_board board = JATSHEGI_NO_BOARD;
    jatshegi_keys_fill(&keys);
    if (jatshegi_board_new(&keys, &board) != JATSHEGI_OK) return 1;
    for (int i = 1; i < argc; i++) {
        bool added;
        uint32_t status = jatshegi_board_play_text(&board, argv[i], strlen(argv[i]), &added);
        /* Where it is refused, nothing has changed. */
        if (status != JATSHEGI_OK) printf("%s: %s\n", argv[i], jatshegi_status_text(status));
    }
    char fen[JATSHEGI_MOST_FEN];
    size_t length, count;
    struct jatshegi_move moves[JATSHEGI_MOST_MOVES];
    uint32_t outcome;
    if (jatshegi_board_fen(&board, fen, sizeof fen, &length) != JATSHEGI_OK) return 1;
    if (jatshegi_board_moves(&board, moves, JATSHEGI_MOST_MOVES, &count) != JATSHEGI_OK) return 1;
    if (jatshegi_board_outcome(&board, &outcome) != JATSHEGI_OK) return 1;
    printf("%.*s\n%zu legal moves\n%s\n", (int)length, fen, count, STATUS[outcome]);
    jatshegi_board_free(&board);
    return 0;
}
