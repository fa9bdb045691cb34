/*
 * The calls of a board that are made most often, without ctypes: `Core`, as jatshegi/_core.py has it. It carries numbers and texts between Python and the library,
 * whose functions it gets by address (`begin`), and decides nothing. By the limited interface of Python 3.9, so that one file is for all versions since:
 *
 *     cc -O2 -fPIC -shared -I include $(python3-config --includes) python/jatshegi/_fast.c -o python/jatshegi/_fast.abi3.so
 *
 * A call of the library is made with the interpreter's lock held, so that no other thread is in a call of a board meanwhile, unless that thread has the board's
 * own lock, `Guard`: then it is waited for.
 */
#define PY_SSIZE_T_CLEAN
#define Py_LIMITED_API 0x03090000
#include <Python.h>
#include <stddef.h>
#include <string.h>
#include <structmember.h>

#include "jatshegi.h"

/* ---- the library */

/* Each function that is called: its name without `jatshegi_board_`. */
#define FUNCTIONS(each) \
    each(play) each(undo) each(move) each(moves) each(line) each(read) each(write) each(checks) each(attackers) each(outcome) each(position) each(fen) each(kinds) \
    each(turn) each(in_check) each(is_legal)

#define POINTER(name) static __typeof__(&jatshegi_board_##name) lib_##name;
FUNCTIONS(POINTER)
static void (*lib_free)(struct jatshegi_board *);

/* The package's class of errors, that of a move, that of the legal moves, and each move by its three numbers, made when it is first seen. */
static PyObject *error_class, *move_class, *legal_class;
static PyObject *moves[64 * 64 * 5];

/* The address that a table of Python's has by a name; NULL with an exception where it has none. */
static void *address_of(PyObject *table, const char *name) {
    PyObject *number = PyMapping_GetItemString(table, name);
    void *address = number == NULL ? NULL : PyLong_AsVoidPtr(number);
    Py_XDECREF(number);
    return address;
}

static PyObject *begin(PyObject *module, PyObject *words) {
    PyObject *table, *class, *error, *legal;
    (void)module;
    if (!PyArg_ParseTuple(words, "OOOO", &table, &class, &error, &legal)) return NULL;
#define TAKE(name) \
    if ((lib_##name = (__typeof__(&jatshegi_board_##name))address_of(table, #name)) == NULL) return NULL;
    FUNCTIONS(TAKE)
    if ((lib_free = (void (*)(struct jatshegi_board *))address_of(table, "free")) == NULL) return NULL;
    Py_INCREF(class);
    Py_XDECREF(move_class);
    move_class = class;
    Py_INCREF(error);
    Py_XDECREF(error_class);
    error_class = error;
    Py_INCREF(legal);
    Py_XDECREF(legal_class);
    legal_class = legal;
    Py_RETURN_NONE;
}

/* ---- moves */

/* The move of three numbers of the library's; a new reference. */
static PyObject *shown(struct jatshegi_move move) {
    PyObject **place = &moves[(move.from * 64 + move.to) * 5 + move.promotion];
    if (*place == NULL) {
        *place = move.promotion ? PyObject_CallFunction(move_class, "iii", move.from, move.to, move.promotion + 1) : PyObject_CallFunction(move_class, "ii", move.from, move.to);
        if (*place == NULL) return NULL;
    }
    Py_INCREF(*place);
    return *place;
}

/* One of the two squares of a move; 64 for a number of none. */
static unsigned square_at(PyObject *move, Py_ssize_t place) {
    long square = PyLong_AsLong(PyTuple_GetItem(move, place));
    PyErr_Clear();
    return square >= 0 && square < 64 ? (unsigned)square : 64;
}

/* The three numbers of a move. -1 with the exception that the package has for what is no move of a board. */
static int numbers(PyObject *self, PyObject *move, struct jatshegi_move *out) {
    if (PyObject_TypeCheck(move, (PyTypeObject *)move_class)) {
        PyObject *promotion = PyTuple_GetItem(move, 2);
        unsigned from = square_at(move, 0), to = square_at(move, 1);
        long kind = promotion == Py_None ? 1 : PyLong_AsLong(promotion);
        PyErr_Clear();
        if (from < 64 && to < 64 && (promotion == Py_None || (kind >= 2 && kind <= 5))) {
            out->from = (uint8_t)from;
            out->to = (uint8_t)to;
            out->promotion = (uint8_t)(kind - 1);
            return 0;
        }
    }
    Py_XDECREF(PyObject_CallMethod(self, "_is_no_move", "(O)", move));
    if (!PyErr_Occurred()) PyErr_SetString(PyExc_SystemError, "a move of no board was taken");
    return -1;
}

/* ---- the lock of a board */

typedef struct {
    PyObject_HEAD
    PyObject *acquire, *release;  /* of a lock of Python's, which a thread may take more than once */
    unsigned long owner;          /* the thread that has it, where `depth` isn't 0 */
    unsigned depth;
    bool is_lent;                 /* whether another thread is on the board in the owner's name, who is refused meanwhile */
} Guard;

static PyObject *guard_class;

static bool is_mine(Guard *self) { return self->depth != 0 && self->owner == PyThread_get_thread_ident(); }

static PyObject *guard_acquire(Guard *self, PyObject *words, PyObject *named) {
    PyObject *taken;
    int is_taken;
    if (self->is_lent && is_mine(self)) {
        PyErr_SetString(error_class, "a search is on in this thread, as where a signal's handler comes to the board");
        return NULL;
    }
    taken = PyObject_Call(self->acquire, words, named);
    is_taken = taken == NULL ? -1 : PyObject_IsTrue(taken);
    if (is_taken == 1) {
        self->owner = PyThread_get_thread_ident();
        self->depth++;
    }
    return taken;
}

static PyObject *guard_release(Guard *self, PyObject *unused) {
    (void)unused;
    if (!is_mine(self)) {
        PyErr_SetString(PyExc_RuntimeError, "this thread doesn't have the board's lock");
        return NULL;
    }
    self->depth--;
    return PyObject_CallObject(self->release, NULL);
}

static PyObject *guard_enter(Guard *self, PyObject *unused) {
    PyObject *none = PyTuple_New(0), *taken = none == NULL ? NULL : guard_acquire(self, none, NULL);
    (void)unused;
    Py_XDECREF(none);
    return taken;
}

static PyObject *guard_exit(Guard *self, PyObject *words) {
    (void)words;
    return guard_release(self, NULL);
}

static PyObject *guard_new(PyTypeObject *type, PyObject *words, PyObject *named) {
    PyObject *threading = PyImport_ImportModule("threading"), *lock = threading == NULL ? NULL : PyObject_CallMethod(threading, "RLock", NULL);
    allocfunc alloc = (allocfunc)PyType_GetSlot(type, Py_tp_alloc);
    Guard *self = lock == NULL ? NULL : (Guard *)alloc(type, 0);
    (void)words;
    (void)named;
    Py_XDECREF(threading);
    if (self != NULL) {
        self->acquire = PyObject_GetAttrString(lock, "acquire");
        self->release = PyObject_GetAttrString(lock, "release");
        if (self->acquire == NULL || self->release == NULL) Py_CLEAR(self);
    }
    Py_XDECREF(lock);
    return (PyObject *)self;
}

/* Frees what an object of a class that `begin` made was; its class has one object fewer. */
static void give_back(PyObject *self) {
    PyTypeObject *type = Py_TYPE(self);
    freefunc release = (freefunc)PyType_GetSlot(type, Py_tp_free);
    release(self);
    Py_DECREF(type);
}

static void guard_dealloc(Guard *self) {
    Py_XDECREF(self->acquire);
    Py_XDECREF(self->release);
    give_back((PyObject *)self);
}

static PyMethodDef guard_methods[] = {
    {"acquire", (PyCFunction)(void (*)(void))guard_acquire, METH_VARARGS | METH_KEYWORDS, "As that of threading.RLock."},
    {"release", (PyCFunction)guard_release, METH_NOARGS, "As that of threading.RLock."},
    {"__enter__", (PyCFunction)guard_enter, METH_NOARGS, NULL},
    {"__exit__", (PyCFunction)guard_exit, METH_VARARGS, NULL},
    {NULL, NULL, 0, NULL},
};

static PyType_Slot guard_slots[] = {
    {Py_tp_new, guard_new},
    {Py_tp_dealloc, guard_dealloc},
    {Py_tp_methods, guard_methods},
    {Py_tp_doc, "The lock of a board: threading.RLock, of which is known who has it."},
    {0, NULL},
};

static PyType_Spec guard_spec = {"jatshegi._fast.Guard", sizeof(Guard), 0, Py_TPFLAGS_DEFAULT, guard_slots};

/* ---- a board */

typedef struct {
    PyObject_HEAD
    struct jatshegi_board board;
    Guard *lock;
    PyObject *made;  /* a list: of the last steps to the cursor, whether `push` added a node */
} Core;

/* Whether another thread has the board, whose lock is taken then: `leave` gives it back. -1 with an exception. */
static int enter(Core *self) {
    Guard *lock = self->lock;
    PyObject *taken;
    if (lock->depth == 0 || (!lock->is_lent && is_mine(lock))) return 0;
    taken = guard_enter(lock, NULL);
    Py_XDECREF(taken);
    return taken == NULL ? -1 : 1;
}

static void leave(Core *self, int is_taken) {
    if (is_taken) Py_XDECREF(guard_release(self->lock, NULL));
}

/* Raises what a status other than OK says of something; NULL. */
static PyObject *failed(Core *self, uint32_t status, PyObject *what) {
    PyObject *none = PyObject_CallMethod((PyObject *)self, "_raise", "kO", (unsigned long)status, what);
    Py_XDECREF(none);
    if (none != NULL) PyErr_SetString(PyExc_SystemError, "a status of the library was no error");
    return NULL;
}

static PyObject *failed_at(Core *self, uint32_t status, const char *what) {
    PyObject *text = PyUnicode_FromString(what);
    if (text != NULL) failed(self, status, text);
    Py_XDECREF(text);
    return NULL;
}

/* A call of the library: the board's lock is waited for, and the status kept. */
#define CALL(call) \
    int is_taken = enter(self); \
    uint32_t status; \
    if (is_taken < 0) return NULL; \
    status = call; \
    leave(self, is_taken)

static PyObject *core_new(PyTypeObject *type, PyObject *words, PyObject *named) {
    allocfunc alloc = (allocfunc)PyType_GetSlot(type, Py_tp_alloc);
    Core *self = (Core *)alloc(type, 0);
    (void)words;
    (void)named;
    if (self == NULL) return NULL;
    self->lock = (Guard *)PyObject_CallObject(guard_class, NULL);
    self->made = PyList_New(0);
    if (self->lock == NULL || self->made == NULL) Py_CLEAR(self);
    return (PyObject *)self;
}

static void core_dealloc(Core *self) {
    lib_free(&self->board);
    Py_XDECREF(self->lock);
    Py_XDECREF(self->made);
    give_back((PyObject *)self);
}

static PyObject *core_push(Core *self, PyObject *word) {
    struct jatshegi_move move;
    bool added = false;
    if (numbers((PyObject *)self, word, &move)) return NULL;
    CALL(lib_play(&self->board, move, &added));
    if (status) return failed(self, status, word);
    if (PyList_Append(self->made, added ? Py_True : Py_False)) {
        /* (for want of memory nothing has changed) */
        lib_undo(&self->board, added);
        return NULL;
    }
    Py_RETURN_NONE;
}

/* Steps to the parent, and says which move led from there. */
static uint32_t undone(struct jatshegi_board *board, bool added, struct jatshegi_move *move) {
    uint32_t status = lib_move(board, move);
    return status ? status : lib_undo(board, added);
}

/* Whether `push` added the node at the cursor, as far as that is known. */
static bool was_added(Core *self) {
    Py_ssize_t count = PyList_Size(self->made);
    return count > 0 && PyList_GetItem(self->made, count - 1) == Py_True;
}

/* Steps to the parent, whose node is taken out where `undoes` and `push` added it. */
static PyObject *step_back(Core *self, bool undoes) {
    struct jatshegi_move move;
    Py_ssize_t count;
    CALL(undone(&self->board, undoes && was_added(self), &move));
    if (status) return failed_at(self, status, "pop");
    count = PyList_Size(self->made);
    if (count > 0 && PyList_SetSlice(self->made, count - 1, count, NULL)) return NULL;
    return shown(move);
}

static PyObject *core_pop(Core *self, PyObject *unused) {
    (void)unused;
    return step_back(self, true);
}

static PyObject *core_back(Core *self, PyObject *unused) {
    (void)unused;
    return step_back(self, false);
}

static PyObject *core_peek(Core *self, PyObject *unused) {
    struct jatshegi_move move;
    (void)unused;
    CALL(lib_move(&self->board, &move));
    return status ? failed_at(self, status, "peek") : shown(move);
}

/* A list of moves of the library's. */
static PyObject *list_of(const struct jatshegi_move *found, size_t count) {
    PyObject *list = PyList_New((Py_ssize_t)count);
    for (size_t i = 0; list != NULL && i < count; i++) {
        PyObject *move = shown(found[i]);
        if (move == NULL) Py_CLEAR(list);
        else PyList_SetItem(list, (Py_ssize_t)i, move);
    }
    return list;
}

static PyObject *core_legal_moves(Core *self, void *unused) {
    struct jatshegi_move found[JATSHEGI_MOST_MOVES];
    size_t count;
    (void)unused;
    CALL(lib_moves(&self->board, found, JATSHEGI_MOST_MOVES, &count));
    if (status) return failed_at(self, status, "legal_moves");
    PyObject *list = list_of(found, count), *legal = list == NULL ? NULL : PyObject_CallFunctionObjArgs(legal_class, list, NULL);
    Py_XDECREF(list);
    return legal;
}

static PyObject *core_move_stack(Core *self, void *unused) {
    /* (as long as a line may be) */
    struct jatshegi_move *found = PyMem_Malloc(20000 * sizeof *found);
    PyObject *list;
    size_t count = 0;
    int is_taken = found == NULL ? -1 : enter(self);
    uint32_t status = is_taken < 0 ? 0 : lib_line(&self->board, found, 20000, &count);
    (void)unused;
    if (found == NULL) return PyErr_NoMemory();
    if (is_taken >= 0) leave(self, is_taken);
    list = is_taken < 0 ? NULL : status ? failed_at(self, status, "move_stack") : list_of(found, count);
    PyMem_Free(found);
    return list;
}

static PyObject *core_parse_san(Core *self, PyObject *word) {
    struct jatshegi_move move;
    char *text;
    Py_ssize_t length;
    PyObject *bytes = PyUnicode_Check(word) ? PyUnicode_AsEncodedString(word, "utf-8", "surrogatepass") : NULL;
    if (bytes == NULL) return PyErr_Occurred() ? NULL : PyErr_Format(PyExc_TypeError, "a move's text is a text, as 'Nf3': %R", word);
    PyBytes_AsStringAndSize(bytes, &text, &length);
    int is_taken = enter(self);
    uint32_t status = is_taken < 0 ? 0 : lib_read(&self->board, text, (size_t)length, &move);
    Py_DECREF(bytes);
    if (is_taken < 0) return NULL;
    leave(self, is_taken);
    return status ? failed(self, status, word) : shown(move);
}

static PyObject *core_san(Core *self, PyObject *word) {
    struct jatshegi_move move;
    char text[JATSHEGI_MOST_SAN];
    size_t length;
    if (numbers((PyObject *)self, word, &move)) return NULL;
    CALL(lib_write(&self->board, move, text, sizeof text, &length));
    return status ? failed(self, status, word) : PyUnicode_FromStringAndSize(text, (Py_ssize_t)length);
}

static PyObject *core_kinds(Core *self, PyObject *word) {
    struct jatshegi_move move;
    uint32_t kinds;
    if (numbers((PyObject *)self, word, &move)) return NULL;
    CALL(lib_kinds(&self->board, move, &kinds));
    return status ? failed(self, status, word) : PyLong_FromUnsignedLong(kinds);
}

static PyObject *core_is_legal(Core *self, PyObject *word) {
    struct jatshegi_move move;
    bool legal;
    if (numbers((PyObject *)self, word, &move)) return NULL;
    CALL(lib_is_legal(&self->board, move, &legal));
    return status ? failed(self, status, word) : PyBool_FromLong(legal);
}

static PyObject *core_fen(Core *self, PyObject *unused) {
    char text[JATSHEGI_MOST_FEN];
    size_t length;
    (void)unused;
    CALL(lib_fen(&self->board, text, sizeof text, &length));
    return status ? failed_at(self, status, "fen") : PyUnicode_FromStringAndSize(text, (Py_ssize_t)length);
}

static PyObject *core_is_check(Core *self, PyObject *unused) {
    bool check;
    (void)unused;
    CALL(lib_in_check(&self->board, &check));
    return status ? failed_at(self, status, "is_check") : PyBool_FromLong(check);
}

/* The word of 64 bits of the men that give check. */
static PyObject *core_checks(Core *self, PyObject *unused) {
    uint8_t checks[64];
    unsigned long long mask = 0;
    (void)unused;
    CALL(lib_checks(&self->board, checks));
    if (status) return failed_at(self, status, "checkers");
    for (int square = 0; square < 64; square++) mask |= (unsigned long long)(checks[square] != 0) << square;
    return PyLong_FromUnsignedLongLong(mask);
}

/* The word of the men that attack a square: 0 to 63 for those of White, 64 more for those of Black. */
static PyObject *core_attacks(Core *self, PyObject *word) {
    uint64_t mask;
    unsigned long which = PyLong_AsUnsignedLong(word);
    if (PyErr_Occurred()) return NULL;
    CALL(lib_attackers(&self->board, (uint8_t)(which / 64 & 255), (uint8_t)(which & 63), &mask));
    return status ? failed_at(self, status, "attackers") : PyLong_FromUnsignedLongLong(mask);
}

static PyObject *core_outcome(Core *self, PyObject *unused) {
    uint32_t outcome;
    (void)unused;
    CALL(lib_outcome(&self->board, &outcome));
    return status ? failed_at(self, status, "status") : PyLong_FromUnsignedLong(outcome);
}

/* What is on each square, 64 bytes. */
static PyObject *core_men(Core *self, PyObject *unused) {
    struct jatshegi_position position;
    (void)unused;
    CALL(lib_position(&self->board, &position));
    return status ? failed_at(self, status, "position") : PyBytes_FromStringAndSize(position.men, 64);
}

static PyObject *core_turn(Core *self, void *unused) {
    uint8_t side;
    (void)unused;
    CALL(lib_turn(&self->board, &side));
    return status ? failed_at(self, status, "turn") : PyBool_FromLong(side == JATSHEGI_WHITE);
}

static PyObject *core_address(Core *self, void *unused) {
    (void)unused;
    return PyLong_FromVoidPtr(&self->board);
}

static PyObject *core_lend(Core *self, PyObject *word) {
    int is_lent = PyObject_IsTrue(word);
    if (is_lent < 0) return NULL;
    self->lock->is_lent = is_lent != 0;
    Py_RETURN_NONE;
}

/* Gives the board back; a call says then that there is none. */
static PyObject *core_free(Core *self, PyObject *unused) {
    int is_taken = enter(self);
    (void)unused;
    if (is_taken < 0) return NULL;
    lib_free(&self->board);
    leave(self, is_taken);
    Py_RETURN_NONE;
}

static PyMethodDef core_methods[] = {
    {"push", (PyCFunction)core_push, METH_O,
     "push($self, move, /)\n--\n\nMakes the move: steps to its node, which is added where there is none. Raises `IllegalMoveError`, or `LimitError` after 20,000 plies."},
    {"pop", (PyCFunction)core_pop, METH_NOARGS,
     "pop($self, /)\n--\n\nTakes back the last move, and returns it: steps to the parent. The node is taken out of the game where `push` added it, nothing hangs on it,\n"
     "no move, comment or annotation, and no `line` was answered with 'ok' since; else it stays, as with `back`. Raises `IndexError` where no move has been\nmade."},
    {"back", (PyCFunction)core_back, METH_NOARGS,
     "back($self, /)\n--\n\nSteps to the parent, and returns the move that led from there; the node stays in the game. Raises `IndexError` where no move has been made."},
    {"peek", (PyCFunction)core_peek, METH_NOARGS, "peek($self, /)\n--\n\nThe move that led to the position. Raises `IndexError` where no move has been made."},
    {"parse_san", (PyCFunction)core_parse_san, METH_O,
     "parse_san($self, san, /)\n--\n\nThe legal move that the text names in standard algebraic notation (PGN 8.2.3). Raises as `push_san`."},
    {"san", (PyCFunction)core_san, METH_O, "san($self, move, /)\n--\n\nThe move's text in standard algebraic notation (PGN 8.2.3). Raises `IllegalMoveError`."},
    {"fen", (PyCFunction)core_fen, METH_NOARGS,
     "fen($self, /)\n--\n\nThe position's FEN, with all six fields (PGN 16.1). The en passant target is written wherever a pawn has just passed over it."},
    {"is_check", (PyCFunction)core_is_check, METH_NOARGS, "is_check($self, /)\n--\n\nWhether the side to move is in check (FIDE Laws 3.9.1)."},
    {"_lend", (PyCFunction)core_lend, METH_O, NULL},
    {"_free", (PyCFunction)core_free, METH_NOARGS, NULL},
    {"_kinds", (PyCFunction)core_kinds, METH_O, NULL},
    {"_is_legal", (PyCFunction)core_is_legal, METH_O, NULL},
    {"_checks", (PyCFunction)core_checks, METH_NOARGS, NULL},
    {"_attacks", (PyCFunction)core_attacks, METH_O, NULL},
    {"_outcome", (PyCFunction)core_outcome, METH_NOARGS, NULL},
    {"_men", (PyCFunction)core_men, METH_NOARGS, NULL},
    {NULL, NULL, 0, NULL},
};

static PyGetSetDef core_getters[] = {
    {"legal_moves", (getter)core_legal_moves, NULL, "The legal moves (FIDE Laws 3.1 to 3.10), by the square that they begin on, then by the one that they end on.", NULL},
    {"move_stack", (getter)core_move_stack, NULL, "The moves that led to the position, from the game's start, in the order in which they were made.", NULL},
    {"turn", (getter)core_turn, NULL, "The colour of the side to move: WHITE or BLACK.", NULL},
    {"_address", (getter)core_address, NULL, "Where the library's board is.", NULL},
    {NULL, NULL, NULL, NULL, NULL},
};

static PyMemberDef core_members[] = {
    {"_lock", T_OBJECT_EX, offsetof(Core, lock), READONLY, NULL},
    {"_made", T_OBJECT_EX, offsetof(Core, made), READONLY, NULL},
    {NULL, 0, 0, 0, NULL},
};

static PyType_Slot core_slots[] = {
    {Py_tp_new, core_new},
    {Py_tp_dealloc, core_dealloc},
    {Py_tp_methods, core_methods},
    {Py_tp_getset, core_getters},
    {Py_tp_members, core_members},
    {Py_tp_doc, "A board's calls that are made most often."},
    {0, NULL},
};

static PyType_Spec core_spec = {"jatshegi._fast.Core", sizeof(Core), 0, Py_TPFLAGS_DEFAULT | Py_TPFLAGS_BASETYPE, core_slots};

/* ---- games in export form */

static bool is_white(char it) { return it == ' ' || it == '\n'; }

/* One word more for a list, which takes the object; 0, or -1 with an exception. */
static int put(PyObject *list, PyObject *word) {
    int failed = word == NULL ? -1 : PyList_Append(list, word);
    Py_XDECREF(word);
    return failed;
}

/* Short words that were seen, by their bytes and their length: a text is made for each of them once, as long as no other one takes its place. */
static struct { uint64_t key; PyObject *text; } seen[8192];

/* The text of a word; a new reference. */
static PyObject *word_of(const char *word, Py_ssize_t length) {
    uint64_t key = 0;
    size_t place;
    if (length > 7) return PyUnicode_FromStringAndSize(word, length);
    memcpy(&key, word, (size_t)length);
    /* (on a machine with the low bytes first, seven of them are the word's) */
    key |= (uint64_t)length << 56;
    place = key * 0x9E3779B97F4A7C15u >> 51;
    if (seen[place].text == NULL || seen[place].key != key) {
        PyObject *text = PyUnicode_FromStringAndSize(word, length);
        if (text == NULL) return NULL;
        Py_XDECREF(seen[place].text);
        seen[place].text = text;
        seen[place].key = key;
    }
    Py_INCREF(seen[place].text);
    return seen[place].text;
}

/* Where the word of movetext that begins at a place ends, past the brace of a comment. */
static Py_ssize_t end_of(const char *text, Py_ssize_t at, Py_ssize_t length) {
    if (text[at] == '{') {
        const char *brace = memchr(text + at, '}', (size_t)(length - at));
        return brace == NULL ? length : brace - text + 1;
    }
    if (text[at] == '(' || text[at] == ')') return at + 1;
    while (at < length && !is_white(text[at]) && text[at] != '(' && text[at] != ')') at++;
    return at;
}

static PyObject *words(PyObject *module, PyObject *given) {
    const char *text;
    Py_ssize_t length, at, end;
    int is_main, depth = 0, failed = 0;
    PyObject *list;
    (void)module;
    if (!PyArg_ParseTuple(given, "y#np", &text, &length, &at, &is_main) || (list = PyList_New(0)) == NULL) return NULL;
    for (at = at < 0 ? length : at; at < length && !failed; at = end) {
        char first = text[at];
        bool is_shown = !is_main || depth == 0;
        end = at + 1;
        if (is_white(first)) continue;
        end = end_of(text, at, length);
        depth += first == '(' ? 1 : first == ')' ? -1 : 0;
        if (first == '{') {
            if (!is_main) failed = put(list, PyBytes_FromStringAndSize(text + at + 1, end - at >= 2 ? end - at - 2 : 0));
        } else if (text[end - 1] != '.' && is_shown && !(is_main && (first == '$' || first == '(' || first == ')'))) {
            failed = put(list, word_of(text + at, end - at));
        }
    }
    if (failed) Py_CLEAR(list);
    return list;
}

/* The value of a tag from the byte after its quotation mark on, without backslashes, into a room as long as the text; where it ends. */
static Py_ssize_t read_value(const char *text, Py_ssize_t at, Py_ssize_t length, char *room, Py_ssize_t *count) {
    *count = 0;
    while (at < length && text[at] != '"') {
        if (text[at] == '\\' && at + 1 < length) at++;
        room[(*count)++] = text[at++];
    }
    return at;
}

static PyObject *tags(PyObject *module, PyObject *given) {
    const char *text, *encoding;
    Py_ssize_t length, at = 0, count;
    PyObject *found;
    char *room;
    int failed = 0;
    (void)module;
    if (!PyArg_ParseTuple(given, "y#s", &text, &length, &encoding)) return NULL;
    room = PyMem_Malloc((size_t)length + 1);
    found = room == NULL ? PyErr_NoMemory() : PyDict_New();
    while (found != NULL && !failed && at < length && text[at] == '[') {
        const char *space = memchr(text + at, ' ', (size_t)(length - at));
        Py_ssize_t end = space == NULL ? length : space - text;
        PyObject *name = PyUnicode_FromStringAndSize(text + at + 1, end - at - 1), *value;
        at = read_value(text, end + 2, length, room, &count);
        value = PyUnicode_Decode(room, count, encoding, "surrogateescape");
        failed = name == NULL || value == NULL || PyDict_SetItem(found, name, value);
        Py_XDECREF(name);
        Py_XDECREF(value);
        /* (the quotation mark, the bracket and the line feed) */
        at += 3;
    }
    if (failed) Py_CLEAR(found);
    PyMem_Free(room);
    return found;
}

/* ---- the module */

static PyMethodDef functions[] = {
    {"begin", begin, METH_VARARGS, "Takes the addresses of the library's functions by their names, and the classes of a move, of an error and of the legal moves. Comes before all else."},
    {"words", words, METH_VARARGS, "As `words` of jatshegi/_texts.py."},
    {"tags", tags, METH_VARARGS, "As `tags` of jatshegi/_texts.py."},
    {NULL, NULL, 0, NULL},
};

static struct PyModuleDef module_def = {PyModuleDef_HEAD_INIT, "jatshegi._fast", "The calls of a board that are made most often.", -1, functions, NULL, NULL, NULL, NULL};

PyMODINIT_FUNC PyInit__fast(void) {
    PyObject *module = PyModule_Create(&module_def), *core;
    if (module == NULL) return NULL;
    guard_class = PyType_FromSpec(&guard_spec);
    core = PyType_FromSpec(&core_spec);
    if (guard_class == NULL || core == NULL || PyModule_AddObject(module, "Core", core)) Py_CLEAR(module);
    return module;
}
