"""Attacks on boards whose pieces aren't a position, for example of a lone knight.

An attack depends on the piece and on the occupied squares. These functions ask the library about a position in which the other pieces are knights, and in which
kings stand out of the way."""
from __future__ import annotations

from itertools import permutations
from typing import Callable, Dict, Iterator, List, Mapping, Tuple

from .. import _board
from .._errors import InvalidFenError
from ._names import BB_SQUARES, COLORS, KING, KNIGHT, SQUARES, WHITE, Bitboard, Color, Piece, Square, ray
from ._placement import field_of

__all__ = ["TABLES", "attackers_among", "attacks_among"]

# How many knights a side can have beside its king and another piece.
_MOST = 14


# The piece, knights on the other squares that are occupied, and the kings that are missing.
def _replaced(men: Mapping[Square, Piece], square: Square) -> Tuple[Dict[Square, Piece], List[Piece]]:
    man = men[square]
    found = {at: Piece(KNIGHT, man.color if place < _MOST else not man.color) for place, at in enumerate(at for at in men if at != square)}
    found[square] = man
    return found, [king for king in (Piece(KING, color) for color in COLORS) if king != man]


# Ways to place pieces and a side to move, each with the squares of the kings that were put there: the pieces as they are, and the piece among knights.
def _ways(men: Mapping[Square, Piece], square: Square) -> Iterator[Tuple[str, Tuple[Square, ...]]]:
    for side in "wb":
        yield f"{field_of(men)} {side}", ()
    if len(men) > 2 * _MOST + 2:
        return
    found, kings = _replaced(men, square)
    side = "b" if men[square].color else "w"
    for places in permutations([at for at in SQUARES if at not in men], len(kings)):
        yield f"{field_of({**found, **dict(zip(places, kings))})} {side}", places


def attacks_among(men: Mapping[Square, Piece], square: Square) -> Bitboard:
    """The squares that the piece on the square attacks. Raises `ValueError` for a pawn on the last rank, and for more than 30 pieces that aren't a position."""
    if square not in men:
        return 0
    for way, places in _ways(men, square):
        try:
            found = _board.Board(f"{way} - - 0 1").attacks(square).mask
        except InvalidFenError:
            continue
        # (a king that is in the way is attacked)
        if not any(found >> place & 1 for place in places):
            return found
    raise ValueError(f"the library has no position with this piece among these: {men[square]!r}, {field_of(men)}")


def attackers_among(men: Mapping[Square, Piece], color: Color, square: Square) -> Bitboard:
    """The squares of the pieces of that colour that attack the square. Raises `ValueError` as `attacks_among`."""
    return sum(BB_SQUARES[at] for at, man in men.items() if man.color == color and attacks_among(men, at) >> square & 1)


#: Tables of words for each square, which are made when they are asked for.
TABLES: Dict[str, Callable[[], List[object]]] = {
    "BB_KING_ATTACKS": lambda: [attacks_among({square: Piece(KING, WHITE)}, square) for square in SQUARES],
    "BB_KNIGHT_ATTACKS": lambda: [attacks_among({square: Piece(KNIGHT, WHITE)}, square) for square in SQUARES],
    "BB_RAYS": lambda: [[ray(a, b) for b in SQUARES] for a in SQUARES],
}
