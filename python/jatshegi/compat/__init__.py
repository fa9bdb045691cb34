"""A program written for python-chess runs here if its import lines are changed:

    >>> import jatshegi.compat as chess
    >>> board = chess.Board()
    >>> board.push_san("e4")
    Move.from_uci('e2e4')
    >>> board.legal_moves.count(), board.ply(), chess.piece_name(board.piece_type_at(chess.E4))
    (20, 1, 'pawn')

The names, the words of calls and the answers are those of python-chess 1.11; docs/PYTHON.md lists what differs and what is refused. The proved library answers
each question of chess.
"""
import importlib
from typing import TYPE_CHECKING, Any

from .. import _squares
from .._errors import AmbiguousMoveError, IllegalMoveError, InvalidMoveError
from .._moves import parse_square, square, square_file, square_name, square_rank
from .._squares import *
from .._status import Outcome, Termination
from . import _aside, _names, pgn, polyglot, svg
from ._boards import Board
from ._men import BaseBoard
from ._names import *
from ._order import LegalMoveGenerator

if TYPE_CHECKING:
    from . import engine as engine


# (asyncio, which the module of engines needs, takes longer to load than all else; the others say what is refused)
def __getattr__(name: str) -> Any:
    if name in ("engine", "gaviota", "syzygy", "variant"):
        return importlib.import_module(f".{name}", __name__)
    if name in _aside.TABLES:
        found = globals()[name] = _aside.TABLES[name]()
        return found
    raise AttributeError(f"module {__name__!r} has no attribute {name!r}")

__all__ = [
    "AmbiguousMoveError",
    "BaseBoard",
    "Board",
    "IllegalMoveError",
    "InvalidMoveError",
    "LegalMoveGenerator",
    "Outcome",
    "Termination",
    "parse_square",
    "pgn",
    "polyglot",
    "square",
    "square_file",
    "square_name",
    "square_rank",
    "svg",
]
__all__ += _names.__all__
__all__ += _squares.__all__
