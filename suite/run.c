/* Asks a board in C all that the suite has, as run_class.py does. Write the functions of boards/board.h over your board; boards/ours.c has them over ours:
 *     cc -Isuite/boards suite/run.c MY_BOARD.c -o run && ./run always suite/laws.jsonl suite/texts.jsonl suite/fens.jsonl
 * The first word says when the board writes an en passant target: always, attacked or legal. A row's members are found by their names. */
#include <stdio.h>
#include <stdlib.h>
#include <string.h>
#include "board.h"

static const char *const TARGETS[] = {"legal", "attacked", "always"};
static const char *const QUESTIONS[] = {"fen", "legal", "check", "checkers", "status", "claims", "repetitions", "attacks", "san", "game", "fault", "place"};
enum { FEN, LEGAL, SAN = 8, GAME, FAULT, PLACE, COUNT, ROOM = 1 << 20 };
static long rows, differences, asked[COUNT], answered[COUNT];
static char row[ROOM], name[ROOM], text[ROOM], word[ROOM];
static size_t size;       /* of what was decoded last */
static const char *fault; /* of what was refused last, if the board says it */
static int when_of(const char *said) { int i = 0; while (i < 3 && strncmp(said, TARGETS[i], strlen(TARGETS[i])) != 0) i++; return i; }

/* The value of a member of the row, or NULL. */
static char *member(const char *key) {
    char quoted[32], *at = (sprintf(quoted, "\"%s\":", key), strstr(row, quoted));
    return at ? at + strlen(quoted) : NULL;
}
/* How long an item of a list or an object is: brackets and strings are passed over. And the item after it, or the bracket at the end. */
static int length_of(const char *item) {
    int i = 0, depth = 0;
    for (bool is_text = false; item[i] && (is_text || depth > 0 || !strchr(",]}", item[i])); i++) {
        if (item[i] == '"') is_text = !is_text;
        else if (is_text) i += item[i] == '\\';
        else depth += (item[i] == '[' || item[i] == '{') - (item[i] == ']' || item[i] == '}');
    }
    return i;
}
static const char *after(const char *item) { item += length_of(item); return item + (*item == ','); }
/* The bytes of a string of JSON, with a byte 0 at the end. */
static const char *decode(const char *at, char *to) {
    static const char SHORT[] = "ntrbf", MEANT[] = "\n\t\r\b\f";
    char *out = to, *found;
    for (at++; *at != '"'; at++) {
        if (*at != '\\') *out++ = *at;
        else if (*++at == 'u') *out++ = (char)strtol((char[]){at[3], at[4], 0}, NULL, 16), at += 4;
        else *out++ = (found = strchr(SHORT, *at)) ? MEANT[found - SHORT] : *at;
    }
    *out = 0, size = (size_t)(out - to);
    return to;
}
/* Whether an answer is the value: that text, or those characters; of a list, and of the keys of `legal`, the same words in any order; one of the faults. */
static bool is_same(int question, const char *answer, const char *value) {
    size_t length = strlen(answer), all = 0;
    if (*value == '"') return strcmp(answer, decode(value, word)) == 0;
    if (*value != '[' && question != LEGAL) return length == (size_t)length_of(value) && memcmp(answer, value, length) == 0;
    for (const char *at = value + 1; *at == '"'; at = after(at), all += size + 1) {
        const char *found = strstr(answer, decode(at, word));
        while (found && ((found > answer && found[-1] != ' ') || (found[size] && found[size] != ' '))) found = strstr(found + 1, word);
        if (question == FAULT ? found != NULL : !found) return question == FAULT;
    }
    return question != FAULT && all == length + (length > 0);
}
static void compare(int question, const char *answer, const char *value) {
    asked[question]++, answered[question] += answer != NULL;
    if (!answer || is_same(question, answer, value)) return;
    differences++, printf("%s: %s: %s for %.*s\n", name, QUESTIONS[question], answer, length_of(value), value);
}
static void ask_position(int when) {
    bool is_done = board_set(text, &fault);
    for (const char *at = member("moves") + 1; is_done && *at == '"'; at = after(at)) is_done = board_push(decode(at, text));
    if (!is_done) { differences++, printf("%s: refused: %s\n", name, text); return; }
    char *target = member("target"), *at = strchr(strchr(strchr(member("at"), ' ') + 1, ' ') + 1, ' ') + 1;
    if (target && when_of(target + 1) > when) *at = '-', memmove(at + 1, at + 2, strlen(at + 1));
    for (int i = FEN; i < SAN; i++) compare(i, board_answer(QUESTIONS[i], NULL), member(i == FEN ? "at" : QUESTIONS[i]));
    for (const char *it = member("legal") + 1; *it == '"'; it = after(it)) compare(SAN, board_answer("san", decode(it, text)), strchr(it, ':') + 1);
}
static void ask_text(void) {
    const char *wanted = member("game"), *game = NULL;
    long at = -1;
    if (!member("text")) game = board_set(text, &fault) ? text : NULL;
    else if (has_games) game = board_game(text, size, &fault, &at);
    if (member("text") && !has_games) asked[GAME]++;
    else if (!game != !wanted) differences++, printf("%s: %s: %s\n", name, game ? "accepted" : "refused", game ? game : text);
    else if (game) compare(GAME, game, wanted);
    else {
        compare(FAULT, fault, member("faults"));
        if (member("text")) compare(PLACE, at < 0 ? NULL : (sprintf(text, "%ld", at), text), member("at"));
    }
}

int main(int count, char **words) {
    int when = count > 2 ? when_of(words[1]) : 3;
    if (when == 3) return fprintf(stderr, "run always|attacked|legal ROWS ..\n"), 2;
    for (int i = 2; i < count; i++) {
        FILE *file = fopen(words[i], "r");
        for (; file && fgets(row, ROOM, file); rows++) {
            fault = NULL, decode(member("name"), name), decode(member(member("text") ? "text" : "fen"), text);
            member("legal") ? ask_position(when) : ask_text();
        }
        if (!file || fclose(file)) return perror(words[i]), 2;
    }
    for (int i = 0; i < COUNT; i++) if (answered[i] < asked[i]) printf("not asked: %s, %ld times\n", QUESTIONS[i], asked[i] - answered[i]);
    printf("%ld rows, %ld differences\n", rows, differences);
    return differences != 0;
}
