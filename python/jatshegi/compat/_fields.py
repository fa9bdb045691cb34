"""The fields of a FEN, also if the pieces aren't a position."""
from __future__ import annotations

from typing import Dict, NamedTuple, Optional

from .. import _board
from ._names import MEN, SQUARE_NAMES, WHITE, Color, Piece, Square
from ._placement import field_of, men_of

__all__ = ["IN_CHECK", "NO_POSITION", "ROOKS", "TWO_KINGS", "Fields", "fields_from", "fields_of", "fields_of_board"]

# The square of the rook of each castling right, and the king's.
ROOKS = {"K": (7, 4), "Q": (0, 4), "k": (63, 60), "q": (56, 60)}
# The faults of a FEN whose fields can be read: such pieces are kept, and are no position.
NO_POSITION = (3, 4, 5, 10)
IN_CHECK = 10
TWO_KINGS = "4k3/8/8/8/8/8/8/4K3"


class Fields(NamedTuple):
    """The fields of a FEN."""

    men: Dict[Square, Piece]
    turn: Color = WHITE
    castling: str = "-"
    target: Optional[Square] = None
    clock: int = 0
    number: int = 1

    def text(self) -> str:
        """The FEN."""
        target = "-" if self.target is None else SQUARE_NAMES[self.target]
        return f"{field_of(self.men)} {'w' if self.turn else 'b'} {self.castling} {target} {self.clock} {self.number}"

    def kept(self) -> str:
        """The castling rights whose king and rook stand on their squares."""
        stand = (it for it in self.castling if it != "-" and self.men.get(ROOKS[it][0]) == "RrRr"["KkQq".index(it)] and self.men.get(ROOKS[it][1]) == ("K" if it in "KQ" else "k"))
        return "".join(stand) or "-"


def fields_of(fen: str) -> Fields:
    """The fields of a FEN. All fields after the first may be missing. Raises `ValueError`."""
    parts = fen.split()
    if not 1 <= len(parts) <= 6:
        raise ValueError(f"a FEN has one to six fields: {fen!r}")
    men = men_of(parts[0])
    rest = parts[1:] + ["w", "-", "-", "0", "1"][len(parts) - 1 :]
    # (the library reads the other fields)
    _board.Board(" ".join([TWO_KINGS, *rest]))
    return fields_from(men, *rest)


def fields_from(men: Dict[Square, Piece], turn: str, castling: str, target: str, clock: str, number: str) -> Fields:
    """The fields of these pieces and of the texts of the other five."""
    return Fields(men, turn == "w", castling, None if target == "-" else SQUARE_NAMES.index(target), int(clock), max(int(number), 1))


def fields_of_board(board: _board.Board) -> Fields:
    """The fields of the position of a board."""
    return fields_from({square: MEN[letter] for square, letter in enumerate(board._men()) if letter}, *board.fen().split()[1:])
