"""Chess rules, PGN and a UCI engine: a prover has checked that the core's answers follow from written definitions of the FIDE Laws and the PGN standard.

    >>> import jatshegi
    >>> board = jatshegi.Board()
    >>> board.push_san("e4")
    Move.from_uci('e2e4')
    >>> board.fen()
    'rnbqkbnr/pppppppp/8/8/4P3/8/PPPP1PPP/RNBQKBNR b KQkq e3 0 1'

A `Board` answers what the Laws of Chess say of its position and of the moves that led there. The board itself is a library for C
(`include/jatshegi.h`), whose functions a prover has checked against the Laws; this package is a thin layer over it, which is tested.
"""
from . import pgn, polyglot, svg
from ._board import Best, Board
from ._engine import Engine
from ._errors import (
    AmbiguousMoveError,
    EmptyBoardError,
    Error,
    IllegalMoveError,
    InvalidFenError,
    InvalidGameError,
    InvalidMoveError,
    LimitError,
)
from ._moves import (
    BISHOP,
    BLACK,
    KING,
    KNIGHT,
    PAWN,
    QUEEN,
    ROOK,
    SQUARE_NAMES,
    SQUARES,
    STARTING_FEN,
    WHITE,
    Move,
    parse_square,
    square,
    square_file,
    square_name,
    square_rank,
)

from ._pieces import Piece
from ._sets import SquareSet
from ._squares import *
from ._squares import __all__ as _names
from ._status import Outcome, Status, Termination
from ._tags import Tags

__version__ = "0.2.0"

__all__ = [
    "BISHOP",
    "BLACK",
    "KING",
    "KNIGHT",
    "PAWN",
    "QUEEN",
    "ROOK",
    "SQUARES",
    "SQUARE_NAMES",
    "STARTING_FEN",
    "WHITE",
    "AmbiguousMoveError",
    "Best",
    "Board",
    "EmptyBoardError",
    "Engine",
    "Error",
    "IllegalMoveError",
    "InvalidFenError",
    "InvalidGameError",
    "InvalidMoveError",
    "LimitError",
    "Move",
    "Outcome",
    "Piece",
    "SquareSet",
    "Status",
    "Tags",
    "Termination",
    "parse_square",
    "pgn",
    "polyglot",
    "square",
    "square_file",
    "square_name",
    "square_rank",
    "svg",
]
__all__ += _names

# Each class shows under the name by which it is found here.
for _name in __all__:
    if isinstance(globals()[_name], type):
        globals()[_name].__module__ = __name__
