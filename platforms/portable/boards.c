/*
 * The functions of jatshegi.h over those of the module, each of which is here as `m_` and its name. Nothing here is proved; tests run it.
 *
 * A board has a memory of the module of its own, one block of `malloc`: the module's stack, its data, and its heap, of which the module answers
 * JATSHEGI_NO_MEMORY where it is full. What a caller passes by a pointer is read and written where it is. So boards of different threads share nothing, but
 * a flag by which a search is abandoned, which is here: while a search looks at it, the flag in its board's memory is set with it.
 */

/* How many bytes a board's heap has. Where the system gives memory as it is touched, a board takes what it uses. */
#ifndef JATSHEGI_MEMORY
#define JATSHEGI_MEMORY (SIZE_MAX > 0xffffffffu ? 64 << 20 : 16 << 20)
#endif

enum { UNIT = 16, HOME = 4096, SIDE = 4096 };

/* What the module calls a board, or a handle of a flag: zeros are nothing. */
struct slot {
    u8 full, unused[7];
    u64 at;
};

/* What lies in the memory after the module's data, and before its heap. */
struct kept {
    struct slot lender; /* the first part of the keys */
    u64 words[768];
    struct slot board, looked_at, set, nothing; /* two handles of a flag */
    u64 lent[4];
    u8 side[SIDE]; /* a stack for the thread that sets the flag */
    u8 home[HOME];
};

enum { KEPT_AT = (HEAP_AT + UNIT - 1) / UNIT * UNIT, LENT_AT = KEPT_AT + (sizeof(struct kept) + UNIT - 1) / UNIT * UNIT };

/* Where a part of that is. */
#define PLACE(part) ((u64)(KEPT_AT + offsetof(struct kept, part)))

/* A flag, its handles, and the searches that look at it. */
struct watcher;
struct flag {
    LOCK lock;
    size_t handles;
    bool is_set;
    struct watcher *first;
};
struct watcher {
    uintptr_t base;
    struct watcher *next;
};

/* The types are laid out as the module has them. */
typedef char is_one_byte[sizeof(bool) == 1 ? 1 : -1];
typedef char is_a_move[sizeof(struct jatshegi_move) == 3 ? 1 : -1];
typedef char is_a_position[sizeof(struct jatshegi_position) == 76 && offsetof(struct jatshegi_position, clock) == 68 ? 1 : -1];
typedef char is_a_report[sizeof(struct jatshegi_report) == 44 && offsetof(struct jatshegi_report, agrees) == 40 ? 1 : -1];
struct repair {
    u64 place, length, written;
    u32 kind, unused;
};

/* The address of an object of C's; of none that of the data, which is there. */
static u64 address(uintptr_t base, const void *at) { return at ? (u64)(uintptr_t)at - (u64)base : DATA_AT; }

static struct run begin(uintptr_t base) {
    struct run run = {0};
    run.base = base;
    run.STACK = BEGINNING;
    return run;
}

/* A memory with a heap; 0 where there is none. */
static uintptr_t open_memory(void) {
    const size_t size = (size_t)JATSHEGI_MEMORY / UNIT * UNIT;
    char *made = malloc((size_t)LENT_AT + size);
    uintptr_t base = (uintptr_t)made;
    struct kept *kept = (struct kept *)(base + KEPT_AT);
    struct run run = begin(base);
    if (!made) return 0;
    memcpy(made + DATA_AT, data, sizeof data);
    memset(kept, 0, sizeof *kept);
    kept->lent[0] = PLACE(home);
    kept->lent[1] = HOME;
    kept->lent[2] = LENT_AT;
    kept->lent[3] = size;
    if (m_keys_fill(&run, PLACE(lent), PLACE(lender)) == JATSHEGI_OK) return base;
    free(made);
    return 0;
}

static void close_memory(uintptr_t base) { free((void *)base); }

/* A memory with a board as a game begins, and a flag in it; 0 where there is none. */
static uintptr_t open_board(void) {
    uintptr_t base = open_memory();
    struct run run = begin(base);
    if (!base) return 0;
    if (m_stop_new(&run, PLACE(lender), PLACE(looked_at)) == JATSHEGI_OK && m_stop_share(&run, PLACE(lender), PLACE(looked_at), PLACE(set)) == JATSHEGI_OK &&
        m_board_new(&run, PLACE(lender), PLACE(lender), PLACE(board)) == JATSHEGI_OK)
        return base;
    close_memory(base);
    return 0;
}

#undef jatshegi_board_free
#undef jatshegi_stop_free

uint32_t jatshegi_keys_fill(struct jatshegi_keys *keys) {
    /* (each board has keys of its own) */
    memset(keys, 0, sizeof *keys);
    return JATSHEGI_OK;
}

void jatshegi_board_free(struct jatshegi_board *board) {
    if (board->full) close_memory((uintptr_t)board->at);
    board->full = false;
    board->at = NULL;
}

static uint32_t put_board(struct jatshegi_board *board, uintptr_t base) {
    if (!base) return JATSHEGI_NO_MEMORY;
    jatshegi_board_free(board);
    board->full = true;
    board->at = (void *)base;
    return JATSHEGI_OK;
}

uint32_t jatshegi_board_new(const struct jatshegi_keys *keys, struct jatshegi_board *board) {
    (void)keys;
    return put_board(board, open_board());
}

/* Goes where the other board's cursor is, in the same game: by the places on its path, since siblings may have one move. */
static uint32_t go_along(const struct jatshegi_board *board, struct jatshegi_board *made) {
    static const char go[] = "goto ";
    enum { GO = sizeof go - 1 };
    char *line, said[JATSHEGI_MOST_ANSWER] = "";
    size_t count = 0;
    /* (the line `path` changes nothing) */
    struct jatshegi_board *asked = (struct jatshegi_board *)(uintptr_t)board;
    uint32_t status = jatshegi_board_answer(asked, "path", 4, NULL, 0, &count);
    if (status != JATSHEGI_NO_ROOM) return status;
    line = malloc(GO + count);
    if (!line) return JATSHEGI_NO_MEMORY;
    memcpy(line, go, GO);
    status = jatshegi_board_answer(asked, "path", 4, line + GO, count, &count);
    /* (of the root it is answered `-`, and there a board is that was loaded; an answer ends with a line feed) */
    if (status == JATSHEGI_OK && line[GO] != '-') {
        status = jatshegi_board_answer(made, line, GO + count - 1, said, sizeof said, &count);
        if (status == JATSHEGI_OK && said[0] != 'o') status = JATSHEGI_NO_MEMORY;
    }
    free(line);
    return status;
}

/* The game of one board for another, which is at its start: as its text, from which it is read as it was. */
static uint32_t hand_over(const struct jatshegi_board *board, struct jatshegi_board *made) {
    size_t room = 0, used;
    char *text = NULL;
    uint32_t status = jatshegi_board_pgn(board, NULL, 0, &room);
    if (status == JATSHEGI_NO_ROOM) status = (text = malloc(room)) ? jatshegi_board_pgn(board, text, room, &room) : JATSHEGI_NO_MEMORY;
    if (status == JATSHEGI_OK) status = jatshegi_board_load(made, text, room, &used);
    free(text);
    if (status == JATSHEGI_OK) status = go_along(board, made);
    return status;
}

/*
 * Boards share no memory, so a game goes over as its text and the path to its cursor. One that no text can have is refused with the fault's status: more than
 * 1,048,576 bytes, or more than 128 variations within one another.
 */
uint32_t jatshegi_board_copy(const struct jatshegi_board *board, struct jatshegi_board *other) {
    struct jatshegi_board made = JATSHEGI_NO_BOARD;
    uint32_t status;
    if (!board->full) return JATSHEGI_EMPTY;
    if (put_board(&made, open_board()) != JATSHEGI_OK) return JATSHEGI_NO_MEMORY;
    status = hand_over(board, &made);
    if (status != JATSHEGI_OK) {
        jatshegi_board_free(&made);
        return status;
    }
    jatshegi_board_free(other);
    *other = made;
    return JATSHEGI_OK;
}

void jatshegi_stop_free(struct jatshegi_stop *stop) {
    struct flag *flag = stop->at;
    bool is_last;
    if (stop->full) {
        take_lock(&flag->lock);
        is_last = --flag->handles == 0;
        give_lock(&flag->lock);
        if (is_last) free(flag);
    }
    stop->full = false;
    stop->at = NULL;
}

uint32_t jatshegi_stop_new(struct jatshegi_stop *stop) {
    static const struct flag none;
    struct flag *flag = malloc(sizeof *flag);
    if (!flag) return JATSHEGI_NO_MEMORY;
    *flag = none;
    flag->handles = 1;
    jatshegi_stop_free(stop);
    stop->full = true;
    stop->at = flag;
    return JATSHEGI_OK;
}

uint32_t jatshegi_stop_share(const struct jatshegi_stop *stop, struct jatshegi_stop *other) {
    struct flag *flag = stop->at;
    if (!stop->full) return JATSHEGI_EMPTY;
    take_lock(&flag->lock);
    flag->handles++;
    give_lock(&flag->lock);
    jatshegi_stop_free(other);
    *other = *stop;
    return JATSHEGI_OK;
}

/* Sets the flag in a board's memory, beside a search there. */
static void set_in(uintptr_t base, bool is_set) {
    struct run run = begin(base);
    run.STACK = PLACE(side) + SIDE;
    m_stop_set(&run, PLACE(set), is_set);
}

uint32_t jatshegi_stop_set(struct jatshegi_stop *stop, bool set) {
    struct flag *flag = stop->at;
    if (!stop->full) return JATSHEGI_EMPTY;
    take_lock(&flag->lock);
    flag->is_set = set;
    for (struct watcher *it = flag->first; it; it = it->next) set_in(it->base, set);
    give_lock(&flag->lock);
    return JATSHEGI_OK;
}

/* From here on the flag in the board's memory is that of the handle, if there is one. The address of the module's handle. */
static u64 watch(struct watcher *watcher, const struct jatshegi_stop *stop, uintptr_t base) {
    struct flag *flag = stop->at;
    watcher->base = base;
    if (!stop->full) return PLACE(nothing);
    take_lock(&flag->lock);
    set_in(base, flag->is_set);
    watcher->next = flag->first;
    flag->first = watcher;
    give_lock(&flag->lock);
    return PLACE(looked_at);
}

static void unwatch(struct watcher *watcher, const struct jatshegi_stop *stop) {
    struct flag *flag = stop->at;
    struct watcher **place;
    if (!stop->full) return;
    take_lock(&flag->lock);
    for (place = &flag->first; *place != watcher; place = &(*place)->next) {}
    *place = watcher->next;
    set_in(watcher->base, false);
    give_lock(&flag->lock);
}
