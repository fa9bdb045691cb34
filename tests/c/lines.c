/* Answers lines of the board, as `chess board` does, by jatshegi_board_answer. */
#ifdef _WIN32
#include <fcntl.h>
#include <io.h>
#endif
#include <stdio.h>
#include <string.h>

#include "jatshegi.h"

static char line[1 << 20], answer[1 << 22];

int main(void) {
    static struct jatshegi_keys keys;
    struct jatshegi_board board = JATSHEGI_NO_BOARD;
#ifdef _WIN32
    _setmode(0, _O_BINARY), _setmode(1, _O_BINARY);
#endif
    jatshegi_keys_fill(&keys);
    if (jatshegi_board_new(&keys, &board) != JATSHEGI_OK) return 1;
    while (fgets(line, sizeof line, stdin)) {
        size_t length = strlen(line), count = 0;
        if (length && line[length - 1] == '\n') length--;
        if (jatshegi_board_answer(&board, line, length, answer, sizeof answer, &count) != JATSHEGI_OK) return 1;
        fwrite(answer, 1, count, stdout);
    }
    jatshegi_board_free(&board);
    return 0;
}
