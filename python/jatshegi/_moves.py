"""Squares, colours and moves. A square is a number, 0 for a1, 1 for b1, 63 for h8; a colour is `WHITE` (True) or `BLACK` (False)."""
from __future__ import annotations

from operator import index
from typing import Any, List, NamedTuple, Optional, Tuple

from ._checks import square_of, text_of, whole
from ._errors import InvalidMoveError

WHITE = True
BLACK = False

PAWN, KNIGHT, BISHOP, ROOK, QUEEN, KING = 1, 2, 3, 4, 5, 6

STARTING_FEN = "rnbqkbnr/pppppppp/8/8/8/8/PPPPPPPP/RNBQKBNR w KQkq - 0 1"

SQUARES: List[int] = list(range(64))
SQUARE_NAMES: List[str] = [file + rank for rank in "12345678" for file in "abcdefgh"]

_NUMBERS = {name: number for number, name in enumerate(SQUARE_NAMES)}
# The letter of what a pawn becomes, by its kind.
_LETTERS = {KNIGHT: "n", BISHOP: "b", ROOK: "r", QUEEN: "q"}
_KINDS = {letter: kind for kind, letter in _LETTERS.items()}


def square(file: int, rank: int) -> int:
    """The square on that file and rank, both 0 to 7."""
    what = "a file and a rank are 0 to 7"
    return 8 * whole(rank, what, 0, 7) + whole(file, what, 0, 7)


def square_file(square: int) -> int:
    """The square's file, 0 for a to 7 for h."""
    return square_of(square) & 7


def square_rank(square: int) -> int:
    """The square's rank, 0 for the first to 7 for the eighth."""
    return square_of(square) >> 3


def square_name(square: int) -> str:
    """The square's name, as 'e4'.

    >>> square_name(28)
    'e4'
    """
    return SQUARE_NAMES[square_of(square)]


def parse_square(name: str) -> int:
    """The square of that name.

    >>> parse_square("e4")
    28
    """
    number = _NUMBERS.get(text_of(name, "a square's name is a text, a1 to h8"))
    if number is None:
        raise ValueError(f"a square is a1 to h8: {name!r}")
    return number


class _Parts(NamedTuple):
    from_square: int
    to_square: int
    promotion: Optional[int] = None


class Move(_Parts):
    """A move: from a square, to a square, and what a pawn becomes on the last rank. Castling is the king's move of two squares."""

    __slots__ = ()

    def __new__(cls, from_square: int, to_square: int, promotion: Optional[int] = None) -> Move:
        """Raises `TypeError` for what is no whole number. Any whole numbers are a move, whose `uci()` is asked for where they are one of a board."""
        try:
            return super().__new__(cls, index(from_square), index(to_square), None if promotion is None else index(promotion))
        except TypeError:
            raise TypeError(f"a move is of numbers, two squares and a kind or None: {from_square!r}, {to_square!r}, {promotion!r}") from None

    @classmethod
    def from_uci(cls, text: str) -> Move:
        """The move of a text as UCI has it.

        >>> Move.from_uci("e7e8q").promotion == QUEEN
        True
        """
        text_of(text, "a move's text is one, as e2e4")
        if len(text) in (4, 5) and text[:2] in _NUMBERS and text[2:4] in _NUMBERS and (len(text) == 4 or text[4] in _KINDS):
            return cls(_NUMBERS[text[:2]], _NUMBERS[text[2:4]], _KINDS[text[4]] if text[4:] else None)
        raise InvalidMoveError(f"a move from square to square is as e2e4 or e7e8q: {text!r}")

    def uci(self) -> str:
        """The move's text as UCI has it: 'e2e4', 'e1g1', 'e7e8q'. Raises `InvalidMoveError` where it is no move of a board."""
        origin, target, became = self
        if not (0 <= origin < 64 and 0 <= target < 64 and (became is None or became in _LETTERS)):
            raise InvalidMoveError(f"no move of a board: {self!r}")
        return SQUARE_NAMES[origin] + SQUARE_NAMES[target] + ("" if became is None else _LETTERS[became])

    # By the two squares, then by the kind that a pawn becomes, none first.
    def _order(self) -> Tuple[int, int, int]:
        return self.from_square, self.to_square, self.promotion or 0

    def __lt__(self, other: object) -> bool:
        if not isinstance(other, Move):
            return NotImplemented
        return self._order() < other._order()

    def __le__(self, other: object) -> bool:
        if not isinstance(other, Move):
            return NotImplemented
        return self._order() <= other._order()

    def __gt__(self, other: object) -> bool:
        if not isinstance(other, Move):
            return NotImplemented
        return self._order() > other._order()

    def __ge__(self, other: object) -> bool:
        if not isinstance(other, Move):
            return NotImplemented
        return self._order() >= other._order()

    def __str__(self) -> str:
        return self.uci()

    def __repr__(self) -> str:
        origin, target, became = self
        try:
            return f"Move.from_uci({SQUARE_NAMES[square_of(origin)] + SQUARE_NAMES[square_of(target)] + ('' if became is None else _LETTERS[became])!r})"
        except (ValueError, KeyError):
            return f"Move({origin}, {target}, {became})"


_ALL = object()


class LegalMoves(List[Move]):
    """The legal moves of a position: a list, whose `count()` is how many there are."""

    __slots__ = ()

    def count(self, move: Any = _ALL, /) -> int:
        """The number of moves; with a move, 1 if it is among them, and 0 otherwise.

        >>> jatshegi.Board().legal_moves.count()
        20
        """
        return len(self) if move is _ALL else super().count(move)
