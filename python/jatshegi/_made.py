"""The numbers, structs and functions of include/jatshegi.h. tools/calls writes this file from tools/tables."""
from __future__ import annotations

from ctypes import POINTER, Structure, c_bool, c_char, c_int32, c_size_t, c_uint8, c_uint16, c_uint32, c_uint64, c_void_p
from typing import Any, Dict, List, Tuple

# The statuses.
OK = 0
EMPTY = 1
NO_MEMORY = 2
ILLEGAL = 3
AMBIGUOUS = 4
FORM = 5
TOO_LONG = 6
FULL = 7
AT_ROOT = 8
ARGUMENT = 9
NO_ROOM = 10
NONE = 11
NO_SUCH = 12
BAD_COMMENT = 13
MORE = 14
NO_GAME = 16
ABANDONED = 17
TAG_NAME = 18
TAG_OWN = 19
TAG_VALUE = 20
FEN_FIELDS = 21
FEN_PLACEMENT = 22
FEN_KINGS = 23
FEN_PAWN_RANK = 24
FEN_TOO_MANY_MEN = 25
FEN_SIDE = 26
FEN_CASTLING = 27
FEN_TARGET = 28
FEN_COUNTER = 29
FEN_IN_CHECK = 30
PGN_TOKEN = 41
PGN_TAG = 42
PGN_MOVE = 43
PGN_VARIATION = 44
PGN_DEEP = 45
PGN_TRUNCATED = 46
PGN_FEN = 47
PGN_TOO_LARGE = 49

# The outcomes.
MATE = 0
STALEMATE = 1
DEAD = 2
FIVEFOLD = 3
SEVENTYFIVE = 4
PLAY = 5

# The draws that a player may claim, and the kinds of a move, by their bits.
THREEFOLD = 1
FIFTY = 2
CAPTURE = 1
EN_PASSANT = 2
CASTLES_KING_SIDE = 4
CASTLES_QUEEN_SIDE = 8
PAWN_MOVE = 16

# The end of a game by its text.
UNFINISHED = 0
WHITE_WINS = 1
BLACK_WINS = 2
DRAW = 3

# Upper bounds.
MOST_MOVES = 432
MOST_FEN = 128
MOST_SAN = 8
MOST_UCI = 5
MOST_ANSWER = 2600
MOST_REPLIES = 260

# No square, and the ply of an event that never happens.
NO_SQUARE = 64
NEVER = 0xFFFFFFFF

# The fault of each status, as jatshegi_status_text names it.
SENTENCES = {
    OK: "it is done",
    EMPTY: "there is no board",
    NO_MEMORY: "there is no memory",
    ILLEGAL: "the move isn't legal",
    AMBIGUOUS: "the text names more than one legal move",
    FORM: "the text has no form of a move",
    TOO_LONG: "the cursor is 20,000 plies deep",
    FULL: "the tree holds 1,000,000 moves",
    AT_ROOT: "the cursor is at the root",
    ARGUMENT: "a number is out of its range",
    NO_ROOM: "the answer is longer than the room for it",
    NONE: "there is no legal move, or no search",
    NO_SUCH: "there is no such child, or no such tag",
    BAD_COMMENT: "the comment has a right brace",
    MORE: "more bytes decide what is there",
    NO_GAME: "only whitespace follows",
    ABANDONED: "the search was abandoned",
    TAG_NAME: "the name of the tag is empty, or has a byte that is no letter, digit or underscore",
    TAG_OWN: "Result, FEN and SetUp are no tags: the game itself has what they say",
    TAG_VALUE: "the value of the tag has a line feed",
    FEN_FIELDS: "the FEN has neither four nor six fields",
    FEN_PLACEMENT: "the men are not eight ranks of eight squares",
    FEN_KINGS: "a side has no king, or more than one",
    FEN_PAWN_RANK: "a pawn is on the first or the last rank",
    FEN_TOO_MANY_MEN: "a side has more than 16 men",
    FEN_SIDE: "the side to move is neither w nor b",
    FEN_CASTLING: "the castling rights are neither - nor different letters of KQkq, or one lacks its king or rook at home",
    FEN_TARGET: "the en passant target is neither - nor a square, or no pawn has just passed over it",
    FEN_COUNTER: "a counter is no number up to 99,999",
    FEN_IN_CHECK: "the side not to move is in check",
    PGN_TOKEN: "bytes that are no token of PGN",
    PGN_TAG: "a tag that is none",
    PGN_MOVE: "a word that names no legal move, or more than one",
    PGN_VARIATION: "a variation that doesn't fit",
    PGN_DEEP: "more than 128 variations within one another",
    PGN_TRUNCATED: "the text ends within the game",
    PGN_FEN: "the tag FEN spells no position",
    PGN_TOO_LARGE: "more than 1,048,576 bytes, or 20,000 plies in a line",
}

# The results, by their numbers.
MARKERS = ("*", "1-0", "0-1", "1/2-1/2")

# The kinds of repair, by their numbers.
REPAIRS = (
    "TagQuotes",
    "TagBracket",
    "TagName",
    "Castling",
    "Hyphen",
    "Colon",
    "Pawn",
    "Small",
    "Large",
    "Promotion",
    "Sign",
    "Said",
    "Value",
    "Result",
    "Glyphs",
    "Number",
    "Dots",
    "Space",
    "Control",
    "Stray",
    "Offer",
    "Angles",
    "Bracket",
    "Marker",
    "Symbol",
    "Nested",
    "Comment",
    "Unclosed",
    "Prose",
    "Fen",
    "Squares",
    "Null",
    "Illegal",
    "Unreadable",
    "Variation",
)


class CMove(Structure):
    """A `struct jatshegi_move`."""

    _fields_ = [
        ("from_square", c_uint8),
        ("to_square", c_uint8),
        ("promotion", c_uint8),
    ]


class CPosition(Structure):
    """A `struct jatshegi_position`."""

    _fields_ = [
        ("men", c_uint8 * 64),
        ("side", c_uint8),
        ("castling", c_uint8),
        ("target", c_uint8),
        ("clock", c_uint32),
        ("number", c_uint32),
    ]


class CRepair(Structure):
    """A `struct jatshegi_repair`."""

    _fields_ = [
        ("place", c_size_t),
        ("length", c_size_t),
        ("written", c_size_t),
        ("kind", c_uint32),
    ]


class CReport(Structure):
    """A `struct jatshegi_report`."""

    _fields_ = [
        ("plies", c_uint32),
        ("marker", c_uint32),
        ("status", c_uint32),
        ("winner", c_uint32),
        ("over", c_uint32),
        ("why", c_uint32),
        ("threefold", c_uint32),
        ("fifty", c_uint32),
        ("repetitions", c_uint32),
        ("quiet", c_uint32),
        ("agrees", c_bool),
    ]


class Keys(Structure):
    """A `struct jatshegi_keys`."""

    _fields_ = [
        ("words", c_uint64 * 768),
    ]


class Slot(Structure):
    """A `struct jatshegi_board`."""

    _fields_ = [
        ("full", c_bool),
        ("at", c_void_p),
    ]


class Stop(Structure):
    """A `struct jatshegi_stop`."""

    _fields_ = [
        ("full", c_bool),
        ("at", c_void_p),
    ]


# The functions: the type of each result, and the types of its parameters.
FUNCTIONS: Dict[str, Tuple[Any, List[Any]]] = {
    "version": (c_uint32, []),
    "keys_fill": (c_uint32, [POINTER(Keys)]),
    "board_new": (c_uint32, [POINTER(Keys), POINTER(Slot)]),
    "board_copy": (c_uint32, [POINTER(Slot), POINTER(Slot)]),
    "board_free": (None, [POINTER(Slot)]),
    "board_trim": (c_uint32, [POINTER(Slot)]),
    "board_set": (c_uint32, [POINTER(Slot), c_void_p, c_size_t]),
    "board_set_position": (c_uint32, [POINTER(Slot), POINTER(CPosition)]),
    "board_load": (c_uint32, [POINTER(Slot), c_void_p, c_size_t, POINTER(c_size_t)]),
    "board_load_next": (c_uint32, [POINTER(Slot), c_void_p, c_size_t, c_bool, POINTER(c_size_t)]),
    "board_fen": (c_uint32, [POINTER(Slot), POINTER(c_char), c_size_t, POINTER(c_size_t)]),
    "board_epd": (c_uint32, [POINTER(Slot), POINTER(c_char), c_size_t, POINTER(c_size_t)]),
    "board_key": (c_uint32, [POINTER(Slot), POINTER(c_uint64)]),
    "board_position": (c_uint32, [POINTER(Slot), POINTER(CPosition)]),
    "board_turn": (c_uint32, [POINTER(Slot), POINTER(c_uint8)]),
    "board_piece_at": (c_uint32, [POINTER(Slot), c_uint8, POINTER(c_char)]),
    "board_moves": (c_uint32, [POINTER(Slot), POINTER(CMove), c_size_t, POINTER(c_size_t)]),
    "board_is_legal": (c_uint32, [POINTER(Slot), CMove, POINTER(c_bool)]),
    "board_line": (c_uint32, [POINTER(Slot), POINTER(CMove), c_size_t, POINTER(c_size_t)]),
    "board_play": (c_uint32, [POINTER(Slot), CMove, POINTER(c_bool)]),
    "board_play_text": (c_uint32, [POINTER(Slot), c_void_p, c_size_t, POINTER(c_bool)]),
    "board_back": (c_uint32, [POINTER(Slot)]),
    "board_undo": (c_uint32, [POINTER(Slot), c_bool]),
    "board_read": (c_uint32, [POINTER(Slot), c_void_p, c_size_t, POINTER(CMove)]),
    "board_write": (c_uint32, [POINTER(Slot), CMove, POINTER(c_char), c_size_t, POINTER(c_size_t)]),
    "move_write": (c_uint32, [CMove, POINTER(c_char), c_size_t, POINTER(c_size_t)]),
    "move_read": (c_uint32, [c_void_p, c_size_t, POINTER(CMove)]),
    "board_outcome": (c_uint32, [POINTER(Slot), POINTER(c_uint32)]),
    "board_claims": (c_uint32, [POINTER(Slot), POINTER(c_uint32)]),
    "board_claims_with": (c_uint32, [POINTER(Slot), CMove, POINTER(c_uint32)]),
    "board_repetitions": (c_uint32, [POINTER(Slot), POINTER(c_uint32)]),
    "board_kinds": (c_uint32, [POINTER(Slot), CMove, POINTER(c_uint32)]),
    "board_cannot_mate": (c_uint32, [POINTER(Slot), c_uint8, POINTER(c_bool)]),
    "board_in_check": (c_uint32, [POINTER(Slot), POINTER(c_bool)]),
    "board_checks": (c_uint32, [POINTER(Slot), POINTER(c_uint8)]),
    "board_counts": (c_uint32, [POINTER(Slot), POINTER(c_uint8), POINTER(c_uint8)]),
    "board_attackers": (c_uint32, [POINTER(Slot), c_uint8, c_uint8, POINTER(c_uint64)]),
    "book_find": (None, [c_void_p, c_size_t, c_uint64, POINTER(c_size_t), POINTER(c_size_t)]),
    "board_book_move": (c_uint32, [POINTER(Slot), c_void_p, c_size_t, c_size_t, POINTER(CMove), POINTER(c_uint16), POINTER(c_uint32)]),
    "board_evaluation": (c_uint32, [POINTER(Slot), POINTER(c_int32)]),
    "board_best": (c_uint32, [POINTER(Slot), c_uint8, POINTER(CMove), POINTER(c_int32)]),
    "search_start": (c_uint32, [POINTER(Slot), c_uint8]),
    "search_slice": (c_uint32, [POINTER(Slot), POINTER(c_size_t)]),
    "search_best": (c_uint32, [POINTER(Slot), POINTER(CMove), POINTER(c_int32)]),
    "search_end": (c_uint32, [POINTER(Slot)]),
    "stop_new": (c_uint32, [POINTER(Stop)]),
    "stop_share": (c_uint32, [POINTER(Stop), POINTER(Stop)]),
    "stop_set": (c_uint32, [POINTER(Stop), c_bool]),
    "stop_free": (None, [POINTER(Stop)]),
    "board_best_within": (c_uint32, [POINTER(Slot), c_uint8, c_uint64, POINTER(Stop), POINTER(CMove), POINTER(c_int32), POINTER(c_uint64)]),
    "search_slice_within": (c_uint32, [POINTER(Slot), c_uint64, POINTER(Stop), POINTER(c_size_t), POINTER(c_uint64)]),
    "board_replies": (c_uint32, [POINTER(Slot), CMove, c_uint8, c_int32, c_uint64, POINTER(Stop), POINTER(CMove), c_size_t, POINTER(c_size_t), POINTER(c_uint64)]),
    "engine_line": (c_uint32, [POINTER(Slot), c_void_p, c_size_t, POINTER(c_char), c_size_t, POINTER(c_size_t)]),
    "engine_slice": (c_uint32, [POINTER(Slot), POINTER(c_char), c_size_t, POINTER(c_size_t)]),
    "engine_moment": (c_uint32, [POINTER(Slot), c_uint64, POINTER(c_char), c_size_t, POINTER(c_size_t)]),
    "engine_slice_within": (c_uint32, [POINTER(Slot), c_uint64, POINTER(Stop), POINTER(c_bool), POINTER(c_uint64), POINTER(c_char), c_size_t, POINTER(c_size_t)]),
    "engine_searching": (c_uint32, [POINTER(Slot), POINTER(c_bool)]),
    "engine_infinite": (c_uint32, [POINTER(Slot), POINTER(c_bool)]),
    "engine_waiting": (c_uint32, [POINTER(Slot), POINTER(c_bool)]),
    "engine_ended": (c_uint32, [POINTER(Slot), POINTER(c_bool)]),
    "engine_time_left": (c_uint32, [POINTER(Slot), POINTER(c_uint64)]),
    "board_pgn": (c_uint32, [POINTER(Slot), POINTER(c_char), c_size_t, POINTER(c_size_t)]),
    "board_tag": (c_uint32, [POINTER(Slot), c_void_p, c_size_t, POINTER(c_char), c_size_t, POINTER(c_size_t)]),
    "board_tags": (c_uint32, [POINTER(Slot), c_size_t, POINTER(c_char), c_size_t, POINTER(c_size_t)]),
    "board_set_tag": (c_uint32, [POINTER(Slot), c_void_p, c_size_t, c_void_p, c_size_t]),
    "board_clear_tag": (c_uint32, [POINTER(Slot), c_void_p, c_size_t]),
    "board_result": (c_uint32, [POINTER(Slot), POINTER(c_uint32)]),
    "board_set_result": (c_uint32, [POINTER(Slot), c_uint32]),
    "board_step": (c_uint32, [POINTER(Slot), c_uint32]),
    "board_depth": (c_uint32, [POINTER(Slot), POINTER(c_uint32)]),
    "board_children": (c_uint32, [POINTER(Slot), POINTER(c_uint32)]),
    "board_move": (c_uint32, [POINTER(Slot), POINTER(CMove)]),
    "board_comment_of": (c_uint32, [POINTER(Slot), POINTER(c_char), c_size_t, POINTER(c_size_t)]),
    "board_annotations_of": (c_uint32, [POINTER(Slot), POINTER(c_char), c_size_t, POINTER(c_size_t)]),
    "board_start": (c_uint32, [POINTER(Slot)]),
    "board_end": (c_uint32, [POINTER(Slot)]),
    "board_promote": (c_uint32, [POINTER(Slot)]),
    "board_delete": (c_uint32, [POINTER(Slot)]),
    "board_comment": (c_uint32, [POINTER(Slot), c_void_p, c_size_t]),
    "board_annotate": (c_uint32, [POINTER(Slot), c_uint8]),
    "board_clear_annotations": (c_uint32, [POINTER(Slot)]),
    "board_answer": (c_uint32, [POINTER(Slot), c_void_p, c_size_t, POINTER(c_char), c_size_t, POINTER(c_size_t)]),
    "game_read": (c_uint32, [c_void_p, c_size_t, POINTER(c_char), c_size_t, POINTER(c_size_t), POINTER(c_size_t)]),
    "game_salvage": (c_uint32, [c_void_p, c_size_t, POINTER(c_char), c_size_t, POINTER(c_size_t), POINTER(CRepair), c_size_t, POINTER(c_size_t), POINTER(c_size_t)]),
    "game_report": (c_uint32, [c_void_p, c_size_t, POINTER(CReport), POINTER(c_char), c_size_t, POINTER(c_size_t), POINTER(c_size_t)]),
    "game_pass": (c_uint32, [c_void_p, c_size_t, POINTER(c_size_t)]),
    "game_next": (c_uint32, [c_void_p, c_size_t, c_bool, POINTER(c_size_t)]),
}
