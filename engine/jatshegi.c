/*
 * jatshegi, the engine for front ends (UCI): lines, slices of a search and moments of the clock go to a session of the proved library as they come, and what
 * it replies goes out. There is no chess in it: what an event does, and when a search is over, the session decides.
 *
 * While a root is searched, a second thread reads the input and looks at the clock. It answers each line that leaves the search running, and the search goes on
 * meanwhile. A line that ends the search stays for the first thread. For such a line, and at the end of the search's time, the second thread sets a flag, and
 * the library abandons the root. The session is then as before that root, and the line or the moment is its next event.
 */
#define _XOPEN_SOURCE 700
#include <errno.h>
#include <inttypes.h>
#include <poll.h>
#include <pthread.h>
#include <stdatomic.h>
#include <stdio.h>
#include <stdlib.h>
#include <string.h>
#include <time.h>
#include <unistd.h>

#include "jatshegi.h"

#ifndef VERSION
#define VERSION "0"
#endif

enum {
    MOST_LINE = 1048576,  /* bytes of a line, without its line feed, as `chess uci` has it */
    TICK = 4,             /* milliseconds at most between two looks at the input and the clock in a search */
    RESERVE = 50,         /* milliseconds of its share that a search by the clock leaves for latency; at most half of the share */
    SETTLED_DEPTH = 4,    /* the depth at which a timed search ends if there is one root alone; a `go` without words searches as deep */
    REPORT = 1000,        /* milliseconds between two lines `info time` in a search, and before the first root is named */
    MOST_DEPTH = 16,      /* plies of the deepest search */
    MOST_NUMBER = 1000000000,  /* a greater number is read as this one, as the session does */
    REPLY_NODES = 20000,       /* how many positions the replies of a report may ask for together, at least */
    SHARE = 4,                 /* they may also ask for this part of the positions that the search has visited: a quarter, */
    TIMED_SHARE = 32           /* and with a clock a 32nd */
};

/* What was read: lines from `begin` on, up to `end`. A line that is too long is passed over up to its line feed. */
static struct {
    char bytes[MOST_LINE + 1];
    size_t begin, end;
    bool is_too_long, has_ended;
} input;

/* A line of the input, and how many bytes it takes there with its line feed. */
struct line {
    const char *text;
    size_t length, taken;
    bool is_too_long;
};

/*
 * The search that runs: when it began, the positions visited, and when they were last reported; the last whole depth, and the roots searched since. A search
 * that isn't infinite ends when it is due, when it has visited the most positions that it may, or once it is settled, if it is timed or looks for a mate.
 */
static struct {
    bool runs, is_infinite, is_timed, wants_mate, is_settled;
    uint64_t begin, visited, reported, depth, root, due, most;
} search;

/* The line of best moves that is reported with a depth: the replies to its first move. */
static struct {
    struct jatshegi_move moves[MOST_DEPTH];
    size_t count;
} replies_after;

static struct jatshegi_keys keys;
static struct jatshegi_board board;
static FILE *record;

/* A session that always searches. It says which lines end a search, and what a session replies to the lines that don't: they change nothing in it. */
static struct jatshegi_board twin;

/* The flag that has a root abandoned, by two handles: the search's and the second thread's. */
static struct jatshegi_stop stop, stopper;

/* The position that the session searches, where it is known here, and whether all legal moves are the roots. */
static struct jatshegi_board position;
static bool is_known, are_all_roots;

/* A line for the session after a position that it has refused: it has no legal move then, so it answers with none, and not with a move of an older position. */
static const char no_moves[] = "position fen 7k/5Q2/6K1/8/8/8/8/8 b - - 0 1";
static bool was_refused;

/*
 * What the second thread does: it watches a search, rests, or is to end. The lock goes with the input, the output, the record and the search: the first thread
 * holds it, except while a root is searched. It ends the watch before it asks for the lock, so that a flood of lines can't keep it waiting.
 */
static struct {
    pthread_mutex_t lock;
    pthread_cond_t changed;
    atomic_bool runs;
    bool is_over;
} watch = {PTHREAD_MUTEX_INITIALIZER, PTHREAD_COND_INITIALIZER, false, false};

static uint64_t now(void) {
    struct timespec time;
    clock_gettime(CLOCK_MONOTONIC, &time);
    return (uint64_t)time.tv_sec * 1000 + (uint64_t)time.tv_nsec / 1000000;
}

/* Ends the program: something failed, with the system's number of the error. */
static void fail(const char *what, int error) {
    fprintf(stderr, "jatshegi: %s: %s\n", what, strerror(error));
    exit(3);
}

static void check(uint32_t status) {
    if (status != JATSHEGI_OK) {
        fprintf(stderr, "jatshegi: the library reports status %" PRIu32 "\n", status);
        exit(3);
    }
}

/* Writes an event into the record, where one is kept. */
static void note(const char *event, const char *text, size_t length) {
    if (!record) return;
    fputs(event, record);
    fwrite(text, 1, length, record);
    if (putc('\n', record) == EOF) fail("the record can't be written", errno);
}

/* Has what was written go out. */
static void flush(void) {
    if (fflush(stdout) == EOF) fail("the replies can't be written", errno);
}

/* Of a search: the milliseconds, the positions and the positions a second. */
static void write_effort(void) {
    uint64_t time = now() - search.begin;
    printf(" time %" PRIu64 " nodes %" PRIu64 " nps %" PRIu64, time, search.visited, search.visited * 1000 / (time ? time : 1));
}

static void write_move(struct jatshegi_move move) {
    char text[JATSHEGI_MOST_UCI];
    size_t length;
    check(jatshegi_move_write(move, text, sizeof text, &length));
    printf(" %.*s", (int)length, text);
}

/* The first place of the words in a text, and its end if they aren't in it. */
static const char *find(const char *text, const char *end, const char *words) {
    size_t length = strlen(words);
    while ((size_t)(end - text) >= length && memcmp(text, words, length)) text++;
    return (size_t)(end - text) >= length ? text : end;
}

static bool begins_with(const char *text, const char *end, const char *words) {
    return (size_t)(end - text) >= strlen(words) && !memcmp(text, words, strlen(words));
}

static const char report[] = "info depth ", line_of_best[] = " pv ";

/* How many positions the replies of a report may ask for together. */
static uint64_t reply_nodes(void) {
    uint64_t share = search.visited / (search.is_timed ? TIMED_SHARE : SHARE);
    return share > REPLY_NODES ? share : REPLY_NODES;
}

/* The value that a report's score writes: centipawns, or 30,000 less the plies to a mate. */
static int32_t value_of(const char *reply, const char *end) {
    static const char mated[] = " score mate ", valued[] = " score cp ";
    const char *mate = find(reply, end, mated), *plain = find(reply, end, valued);
    long moves = mate < end ? strtol(mate + strlen(mated), NULL, 10) : 0;
    if (mate < end) return (int32_t)(moves > 0 ? 30001 - 2 * moves : -30000 - 2 * moves);
    return plain < end ? (int32_t)strtol(plain + strlen(valued), NULL, 10) : 0;
}

/* Looks for the best replies after the move of a report: the line of its score, as far as the flag, memory and positions go. */
static void search_replies(const char *reply, const char *end) {
    const char *text = find(reply, end, line_of_best);
    uint8_t depth = (uint8_t)strtoul(reply + strlen(report), NULL, 10);
    struct jatshegi_move move;
    uint64_t visited;
    replies_after.count = 0;
    if (!is_known || !begins_with(reply, end, report) || text == end) return;
    text += strlen(line_of_best);
    if (jatshegi_move_read(text, (size_t)(end - text), &move) != JATSHEGI_OK) return;
    if (jatshegi_board_replies(&position, move, depth, value_of(reply, text), reply_nodes(), &stop, replies_after.moves, MOST_DEPTH, &replies_after.count, &visited) !=
        JATSHEGI_OK)
        replies_after.count = 0;
}

/* Writes the report of a depth, with what it took and the best replies. A mate is the value at each greater depth, too, and one root is the move at each. */
static void write_report(const char *reply, const char *end) {
    const char *last = find(reply, end, line_of_best);
    fwrite(reply, 1, (size_t)(last - reply), stdout);
    write_effort();
    fwrite(last, 1, (size_t)(end - last), stdout);
    for (size_t at = 0; at < replies_after.count; at++) write_move(replies_after.moves[at]);
    putchar('\n');
    search.depth = strtoul(reply + strlen(report), NULL, 10);
    search.is_settled = find(reply, last, " score mate ") < last || (search.root == 1 && search.depth >= SETTLED_DEPTH && !search.wants_mate);
    search.root = 0;
}

/* Writes the replies. The engine has its own name and author here. */
static void write_replies(const char *replies, size_t count) {
    const char *end = replies + count;
    for (const char *next; replies < end; replies = next + 1) {
        next = find(replies, end, "\n");
        if (begins_with(replies, next, "id name ")) {
            printf("id name Jatshegi " VERSION "\n");
        } else if (begins_with(replies, next, "id author ")) {
            printf("id author the Jatshegi authors\n");
        } else if (begins_with(replies, next, report)) {
            write_report(replies, next);
        } else {
            if (was_refused && begins_with(replies, next, "bestmove ")) printf("info string the last position was refused\n");
            fwrite(replies, 1, (size_t)(next - replies), stdout);
            putchar('\n');
        }
    }
    flush();
}

/* Sees whether a search has begun or ended with an event, and writes the replies to it. */
static void reply(const char *replies, size_t count) {
    bool runs;
    check(jatshegi_engine_searching(&board, &runs));
    if (runs && !search.runs) {
        search.begin = search.reported = now();
        search.visited = search.root = search.depth = 0;
        search.is_settled = false;
    }
    search.runs = runs;
    write_replies(replies, count);
}

/* Has the session look at the clock, but not before depth 1 is complete: no time ends a search that has no move yet. */
static void take_moment(void) {
    char replies[JATSHEGI_MOST_REPLIES];
    size_t count;
    char digits[24];
    uint64_t moment = now();
    if (search.runs && !search.depth) return;
    note("moment ", digits, (size_t)snprintf(digits, sizeof digits, "%" PRIu64, moment));
    check(jatshegi_engine_moment(&board, moment, replies, sizeof replies, &count));
    reply(replies, count);
}

/* The next word of a line up to its end, and its length; 0 where there is none. */
static size_t take_word(const char **line, const char *end, const char **word) {
    while (*line < end && memchr(" \t\n\v\f\r", **line, 6)) ++*line;
    for (*word = *line; *line < end && !memchr(" \t\n\v\f\r", **line, 6);) ++*line;
    return (size_t)(*line - *word);
}

static bool is_word(const char *word, size_t length, const char *wanted) { return length == strlen(wanted) && !memcmp(word, wanted, length); }

/* Whether one of the line's words is this one. */
static bool names(const char *line, const char *end, const char *wanted) {
    const char *word;
    for (size_t length; (length = take_word(&line, end, &word));) if (is_word(word, length, wanted)) return true;
    return false;
}

/* Follows a line that the session has taken; false where it isn't in the usual form, so that the position isn't known here. */
static bool follow(const char *line, const char *end) {
    const char *word, *fen;
    size_t length = take_word(&line, end, &word), given = 0;
    struct jatshegi_move move;
    bool begins, added;
    if (!is_word(word, length, "position")) return is_word(word, length, "ucinewgame") && jatshegi_board_new(&keys, &position) == JATSHEGI_OK;
    length = take_word(&line, end, &word);
    begins = is_word(word, length, "startpos");
    if (!begins && !is_word(word, length, "fen")) return false;
    length = take_word(&line, end, &fen);
    for (word = fen; length && !is_word(word, length, "moves"); length = take_word(&line, end, &word)) given = (size_t)(word + length - fen);
    if ((begins && given) || (begins ? jatshegi_board_new(&keys, &position) : jatshegi_board_set(&position, fen, given)) != JATSHEGI_OK) return false;
    while ((length = take_word(&line, end, &word)))
        if (jatshegi_move_read(word, length, &move) != JATSHEGI_OK || jatshegi_board_play(&position, move, &added) != JATSHEGI_OK) return false;
    return true;
}

/* The number that a word writes, as the session reads it: digits; or a hyphen and digits, which is 0. UINT64_MAX if it is no number. */
static uint64_t number_of(const char *word, size_t length) {
    bool is_below = length && *word == '-';
    uint64_t number = 0;
    if (length == is_below) return UINT64_MAX;
    for (size_t at = is_below; at < length; at++) {
        if (word[at] < '0' || word[at] > '9') return UINT64_MAX;
        if (number < MOST_NUMBER) number = number * 10 + (uint64_t)(word[at] - '0');
    }
    return is_below ? 0 : number < MOST_NUMBER ? number : MOST_NUMBER;
}

/* The last number after such a word of a line; UINT64_MAX if there is none. */
static uint64_t number_after(const char *line, const char *end, const char *name) {
    uint64_t found = UINT64_MAX, number;
    const char *word;
    for (size_t length = take_word(&line, end, &word); length;) {
        bool is_named = is_word(word, length, name);
        length = take_word(&line, end, &word);
        number = number_of(word, length);
        if (is_named && number != UINT64_MAX) found = number;
    }
    return found;
}

/* The line with a depth, if it has `nodes` or `mate` and none: it would be searched four plies deep. A mate with the n-th move comes with ply 2n - 1. */
static char *with_depth(const char *line, size_t *length) {
    uint64_t moves = number_after(line, line + *length, "mate");
    unsigned plies = moves > MOST_DEPTH / 2 ? MOST_DEPTH : moves ? (unsigned)(2 * moves - 1) : 1;
    char *copy;
    if ((moves == UINT64_MAX && number_after(line, line + *length, "nodes") == UINT64_MAX) || names(line, line + *length, "depth")) return NULL;
    copy = malloc(*length + sizeof " depth 16");
    if (!copy) fail("there is no memory for a line", ENOMEM);
    memcpy(copy, line, *length);
    *length += (size_t)sprintf(copy + *length, " depth %u", plies);
    return copy;
}

/* Sees how a search is to end that has begun: by `movetime`, which it uses up, by its share of a game's clock, by `nodes` or by `mate`. */
static void begin_limits(const char *line, const char *end) {
    uint64_t left = 0, reserve = 0;
    uint32_t timed = jatshegi_engine_time_left(&board, &left);
    if (timed != JATSHEGI_NONE) check(timed);
    check(jatshegi_engine_infinite(&board, &search.is_infinite));
    search.is_timed = timed == JATSHEGI_OK;
    search.wants_mate = number_after(line, end, "mate") != UINT64_MAX;
    search.most = search.is_infinite ? UINT64_MAX : number_after(line, end, "nodes");
    if (!names(line, end, "movetime")) reserve = left / 2 < RESERVE ? left / 2 : RESERVE;
    search.due = search.is_timed ? search.begin + left - reserve : UINT64_MAX;
}

/* Gives the session a line, and writes its replies. Says whether it has refused a position. */
static bool give_line(const char *line, size_t length) {
    char replies[JATSHEGI_MOST_REPLIES];
    size_t count;
    take_moment();
    note("line ", line, length);
    check(jatshegi_engine_line(&board, line, length, replies, sizeof replies, &count));
    if (!count && (names(line, line + length, "position") || names(line, line + length, "ucinewgame"))) {
        is_known = follow(line, line + length);
        was_refused = false;
    }
    reply(replies, count);
    return begins_with(replies, replies + count, "info string position refused") || begins_with(replies, replies + count, "info string out of memory");
}

static void take_line(const char *line, size_t length) {
    bool searched = search.runs;
    char *copy = searched ? NULL : with_depth(line, &length);
    if (copy) line = copy;
    if (!searched) are_all_roots = !names(line, line + length, "searchmoves");
    if (give_line(line, length)) {
        if (give_line(no_moves, strlen(no_moves))) fail("there is no memory for a position", ENOMEM);
        was_refused = true;
    }
    if (search.runs && !searched) begin_limits(line, line + length);
    free(copy);
}

static void refuse_long_line(void) {
    printf("info string line too long\n");
    flush();
}

/* Reads what there is; waits for it if there is nothing. At the end of the input nothing comes any more. */
static void read_more(void) {
    ssize_t count;
    if (input.begin) {
        memmove(input.bytes, input.bytes + input.begin, input.end - input.begin);
        input.end -= input.begin;
        input.begin = 0;
    }
    count = read(STDIN_FILENO, input.bytes + input.end, sizeof input.bytes - input.end);
    if (count < 0 && errno != EINTR && errno != EAGAIN) fail("the input can't be read", errno);
    if (count == 0) input.has_ended = true;
    if (count > 0) input.end += (size_t)count;
}

/* Reads what there is, without waiting. */
static void read_at_hand(void) {
    struct pollfd ready = {STDIN_FILENO, POLLIN, 0};
    if (!input.has_ended && poll(&ready, 1, 0) > 0) read_more();
}

/* The next line, if a whole one was read; the last one may have no line feed. */
static bool next_line(struct line *line) {
    const char *text = input.bytes + input.begin, *end = memchr(text, '\n', input.end - input.begin);
    size_t length = end ? (size_t)(end - text) : input.end - input.begin;
    bool is_last = !end && input.has_ended && (length || input.is_too_long);
    if (!end && !is_last) {
        if (length == sizeof input.bytes) {
            input.is_too_long = true;
            input.begin = input.end;
        }
        return false;
    }
    *line = (struct line){text, length, length + (end ? 1 : 0), input.is_too_long};
    return true;
}

/* The line is taken from the input. */
static void drop(const struct line *line) {
    input.begin += line->taken;
    input.is_too_long = false;
}

/* Takes the next line, if a whole one was read. */
static bool take_next_line(void) {
    struct line line;
    if (!next_line(&line)) return false;
    drop(&line);
    if (line.is_too_long) {
        refuse_long_line();
    } else {
        take_line(line.text, line.length);
    }
    return true;
}

/* Has the twin search, so that it knows which lines end a search. */
static void begin_twin(void) {
    char replies[JATSHEGI_MOST_REPLIES];
    size_t count;
    check(jatshegi_engine_line(&twin, "go infinite", strlen("go infinite"), replies, sizeof replies, &count));
}

/* Answers a line for the session that searches, if the line doesn't end the search. */
static bool answer_line(const struct line *line) {
    char replies[JATSHEGI_MOST_REPLIES];
    size_t count;
    bool goes_on;
    check(jatshegi_engine_line(&twin, line->text, line->length, replies, sizeof replies, &count));
    check(jatshegi_engine_searching(&twin, &goes_on));
    if (!goes_on) {
        begin_twin();
        return false;
    }
    note("line ", line->text, line->length);
    write_replies(replies, count);
    return true;
}

/* Answers the lines that come while a root is searched. Says whether the input ends the search: by a line, or by its end if the search is infinite. */
static bool answer_lines(void) {
    struct line line;
    read_at_hand();
    while (next_line(&line)) {
        if (!atomic_load(&watch.runs)) return false;
        if (line.is_too_long) {
            refuse_long_line();
        } else if (!answer_line(&line)) {
            return true;
        }
        drop(&line);
    }
    return input.has_ended && search.is_infinite;
}

/* Waits until a root is searched, with the lock; false if the thread is to end. */
static bool wait_for_search(void) {
    while (!atomic_load(&watch.runs) && !watch.is_over) pthread_cond_wait(&watch.changed, &watch.lock);
    return !watch.is_over;
}

/* When a search ends by time. */
static uint64_t end_by_time(void) { return search.depth ? search.due : UINT64_MAX; }

/* The second thread. After the end of the input it watches the clock alone. */
static void *watch_search(void *none) {
    pthread_mutex_lock(&watch.lock);
    while (wait_for_search()) {
        struct pollfd ready = {input.has_ended ? -1 : STDIN_FILENO, POLLIN, 0};
        uint64_t due = end_by_time(), moment = now(), left = due > moment ? due - moment : 0;
        bool comes;
        pthread_mutex_unlock(&watch.lock);
        comes = poll(&ready, 1, left < TICK ? (int)left : TICK) > 0;
        pthread_mutex_lock(&watch.lock);
        if (!atomic_load(&watch.runs) || ((!comes || !answer_lines()) && now() < end_by_time())) continue;
        check(jatshegi_stop_set(&stopper, true));
        atomic_store(&watch.runs, false);
    }
    pthread_mutex_unlock(&watch.lock);
    return none;
}

/* Has the second thread watch while a root is searched: what goes with the lock is then its own. */
static void begin_watch(void) {
    check(jatshegi_stop_set(&stop, false));
    atomic_store(&watch.runs, true);
    pthread_cond_signal(&watch.changed);
    pthread_mutex_unlock(&watch.lock);
}

static void end_watch(void) {
    atomic_store(&watch.runs, false);
    pthread_mutex_lock(&watch.lock);
}

/* Names the root that is searched next, in a long search: all legal moves are searched in their order. */
static void name_root(void) {
    struct jatshegi_move moves[JATSHEGI_MOST_MOVES];
    size_t count;
    if (!is_known || !are_all_roots || now() - search.begin < REPORT) return;
    check(jatshegi_board_moves(&position, moves, JATSHEGI_MOST_MOVES, &count));
    if (search.root >= count) return;
    printf("info depth %" PRIu64 " currmove", search.depth + 1);
    write_move(moves[search.root]);
    printf(" currmovenumber %" PRIu64 "\n", search.root + 1);
    flush();
}

/* Whether a search has come to an end that the session doesn't see: it is due, has visited all positions that it may, or has nothing left to find. */
static bool is_at_end(void) {
    if (search.is_infinite || !search.depth) return false;
    if (search.is_settled && (search.is_timed || search.wants_mate)) return true;
    return search.visited >= search.most || now() >= search.due;
}

/* How many positions the next root may ask for. */
static uint64_t nodes_left(void) { return search.depth && search.most != UINT64_MAX ? search.most - search.visited - 1 : UINT64_MAX; }

/* Searches one root more, as far as the flag and the clock let it; then the clock is read. */
static void take_slice(void) {
    char replies[JATSHEGI_MOST_REPLIES];
    size_t count;
    uint64_t visited;
    bool searched;
    name_root();
    begin_watch();
    check(jatshegi_engine_slice_within(&board, nodes_left(), &stop, &searched, &visited, replies, sizeof replies, &count));
    search_replies(replies, find(replies, replies + count, "\n"));
    end_watch();
    search.visited += visited;
    if (searched) note("slice", "", 0);
    search.root += searched;
    reply(replies, count);
    if (search.runs) take_moment();
    if (search.runs && is_at_end()) take_line("stop", strlen("stop"));
    if (search.runs && now() - search.reported >= REPORT) {
        printf("info");
        write_effort();
        putchar('\n');
        flush();
        search.reported = now();
    }
}

/* One of the questions of the session: jatshegi_engine_ended, .. */
static bool is(uint32_t (*question)(const struct jatshegi_board *, bool *)) {
    bool answer;
    check(question(&board, &answer));
    return answer;
}

/* No line follows: a search that ends by itself does so; an infinite one is ended as by `stop`. */
static void take_end(void) {
    if (is(jatshegi_engine_infinite)) take_line("stop", 4);
    if (search.runs) {
        take_slice();
    } else {
        take_line("quit", 4);
    }
}

static void run(void) {
    struct pollfd ready = {STDIN_FILENO, POLLIN, 0};
    while (!is(jatshegi_engine_ended)) {
        bool searches = search.runs && !is(jatshegi_engine_waiting);
        if (take_next_line()) continue;
        if (input.has_ended) {
            take_end();
        } else if (poll(&ready, 1, searches ? 0 : -1) > 0) {
            read_more();
        } else if (searches) {
            take_slice();
        }
    }
}

/* Ends the second thread. */
static void end_second(pthread_t second) {
    int error;
    watch.is_over = true;
    pthread_cond_signal(&watch.changed);
    pthread_mutex_unlock(&watch.lock);
    error = pthread_join(second, NULL);
    if (error) fail("the second thread doesn't end", error);
}

static const char help[] =
    "Jatshegi " VERSION ": an engine for programs that play and analyse chess by UCI; what it replies to each event is proved.\n\n"
    "Usage: jatshegi [--record <FILE>]\n\n"
    "Options:\n"
    "      --record <FILE>  Write each event of the session to a file: `line TEXT`, `moment MILLISECONDS` or `slice`\n"
    "  -h, --help           Print help\n"
    "  -V, --version        Print version\n\n"
    "It reads lines of UCI from the standard input and writes its replies to the standard output. The exit status is 0, 1 for\n"
    "other words, 3 where a stream, memory or a thread failed.\n";

/* Writes the text, and returns the status with which the program ends. */
static int end_with(FILE *to, const char *text, int status) {
    return fputs(text, to) == EOF || fflush(to) == EOF ? 3 : status;
}

int main(int count, char **words) {
    pthread_t second;
    int error;
    if (count == 2 && (!strcmp(words[1], "-h") || !strcmp(words[1], "--help"))) return end_with(stdout, help, 0);
    if (count == 2 && (!strcmp(words[1], "-V") || !strcmp(words[1], "--version"))) return end_with(stdout, "jatshegi " VERSION "\n", 0);
    if (count != 1 && !(count == 3 && !strcmp(words[1], "--record"))) return end_with(stderr, help, 1);
    if (count == 3 && !(record = fopen(words[2], "w"))) fail("the record can't be written", errno);
    jatshegi_keys_fill(&keys);
    check(jatshegi_board_new(&keys, &board));
    is_known = jatshegi_board_new(&keys, &position) == JATSHEGI_OK;
    check(jatshegi_stop_new(&stop));
    check(jatshegi_stop_share(&stop, &stopper));
    check(jatshegi_board_new(&keys, &twin));
    begin_twin();
    pthread_mutex_lock(&watch.lock);
    error = pthread_create(&second, NULL, watch_search, NULL);
    if (error) fail("there is no second thread", error);
    run();
    end_second(second);
    jatshegi_stop_free(&stopper);
    jatshegi_stop_free(&stop);
    jatshegi_board_free(&twin);
    jatshegi_board_free(&position);
    jatshegi_board_free(&board);
    if (record && fclose(record)) fail("the record can't be written", errno);
    return 0;
}
