"""The constants and functions of python-chess, its moves, pieces and sets of squares."""
from __future__ import annotations

import enum
import functools
from typing import Callable, Dict, Iterable, Iterator, List, Literal, NoReturn, Optional, Tuple, Union

from .. import _moves, _pieces, _sets
from .._checks import square_of, whole
from .._errors import InvalidMoveError
from .._moves import BISHOP, BLACK, KING, KNIGHT, PAWN, QUEEN, ROOK, SQUARE_NAMES, STARTING_FEN, WHITE

__all__ = [
    "BB_A1",
    "BB_A2",
    "BB_A3",
    "BB_A4",
    "BB_A5",
    "BB_A6",
    "BB_A7",
    "BB_A8",
    "BB_ALL",
    "BB_B1",
    "BB_B2",
    "BB_B3",
    "BB_B4",
    "BB_B5",
    "BB_B6",
    "BB_B7",
    "BB_B8",
    "BB_BACKRANKS",
    "BB_C1",
    "BB_C2",
    "BB_C3",
    "BB_C4",
    "BB_C5",
    "BB_C6",
    "BB_C7",
    "BB_C8",
    "BB_CENTER",
    "BB_CORNERS",
    "BB_D1",
    "BB_D2",
    "BB_D3",
    "BB_D4",
    "BB_D5",
    "BB_D6",
    "BB_D7",
    "BB_D8",
    "BB_DARK_SQUARES",
    "BB_E1",
    "BB_E2",
    "BB_E3",
    "BB_E4",
    "BB_E5",
    "BB_E6",
    "BB_E7",
    "BB_E8",
    "BB_EMPTY",
    "BB_F1",
    "BB_F2",
    "BB_F3",
    "BB_F4",
    "BB_F5",
    "BB_F6",
    "BB_F7",
    "BB_F8",
    "BB_FILES",
    "BB_FILE_A",
    "BB_FILE_B",
    "BB_FILE_C",
    "BB_FILE_D",
    "BB_FILE_E",
    "BB_FILE_F",
    "BB_FILE_G",
    "BB_FILE_H",
    "BB_G1",
    "BB_G2",
    "BB_G3",
    "BB_G4",
    "BB_G5",
    "BB_G6",
    "BB_G7",
    "BB_G8",
    "BB_H1",
    "BB_H2",
    "BB_H3",
    "BB_H4",
    "BB_H5",
    "BB_H6",
    "BB_H7",
    "BB_H8",
    "BB_LIGHT_SQUARES",
    "BB_RANKS",
    "BB_RANK_1",
    "BB_RANK_2",
    "BB_RANK_3",
    "BB_RANK_4",
    "BB_RANK_5",
    "BB_RANK_6",
    "BB_RANK_7",
    "BB_RANK_8",
    "BB_SQUARES",
    "BISHOP",
    "BLACK",
    "Bitboard",
    "COLORS",
    "COLOR_NAMES",
    "Color",
    "EnPassantSpec",
    "FILE_NAMES",
    "IntoSquareSet",
    "KING",
    "KNIGHT",
    "Move",
    "PAWN",
    "PIECE_NAMES",
    "PIECE_SYMBOLS",
    "PIECE_TYPES",
    "Piece",
    "PieceType",
    "QUEEN",
    "RANK_NAMES",
    "ROOK",
    "SQUARES",
    "SQUARES_180",
    "SQUARE_NAMES",
    "STARTING_BOARD_FEN",
    "STARTING_FEN",
    "STATUS_BAD_CASTLING_RIGHTS",
    "STATUS_EMPTY",
    "STATUS_IMPOSSIBLE_CHECK",
    "STATUS_INVALID_EP_SQUARE",
    "STATUS_NO_BLACK_KING",
    "STATUS_NO_WHITE_KING",
    "STATUS_OPPOSITE_CHECK",
    "STATUS_PAWNS_ON_BACKRANK",
    "STATUS_RACE_CHECK",
    "STATUS_RACE_MATERIAL",
    "STATUS_RACE_OVER",
    "STATUS_TOO_MANY_BLACK_PAWNS",
    "STATUS_TOO_MANY_BLACK_PIECES",
    "STATUS_TOO_MANY_CHECKERS",
    "STATUS_TOO_MANY_KINGS",
    "STATUS_TOO_MANY_WHITE_PAWNS",
    "STATUS_TOO_MANY_WHITE_PIECES",
    "STATUS_VALID",
    "Square",
    "SquareSet",
    "Status",
    "UNICODE_PIECE_SYMBOLS",
    "WHITE",
    "between",
    "flip_anti_diagonal",
    "flip_diagonal",
    "flip_horizontal",
    "flip_vertical",
    "lsb",
    "msb",
    "piece_name",
    "piece_symbol",
    "popcount",
    "ray",
    "scan_forward",
    "scan_reversed",
    "shift_2_down",
    "shift_2_left",
    "shift_2_right",
    "shift_2_up",
    "shift_down",
    "shift_down_left",
    "shift_down_right",
    "shift_left",
    "shift_right",
    "shift_up",
    "shift_up_left",
    "shift_up_right",
    "square_distance",
    "square_knight_distance",
    "square_manhattan_distance",
    "square_mirror",
]

Color = bool
PieceType = int
Square = int
Bitboard = int
EnPassantSpec = Literal["legal", "fen", "xfen"]

COLORS: List[Color] = [WHITE, BLACK]
COLOR_NAMES = ["black", "white"]
PIECE_TYPES: List[PieceType] = [PAWN, KNIGHT, BISHOP, ROOK, QUEEN, KING]
PIECE_SYMBOLS: List[Optional[str]] = [None, "p", "n", "b", "r", "q", "k"]
PIECE_NAMES: List[Optional[str]] = [None, "pawn", "knight", "bishop", "rook", "queen", "king"]
UNICODE_PIECE_SYMBOLS: Dict[str, str] = dict(_pieces._GLYPHS)
FILE_NAMES = list("abcdefgh")
RANK_NAMES = list("12345678")
SQUARES: List[Square] = list(range(64))
SQUARES_180: List[Square] = [it ^ 56 for it in SQUARES]
STARTING_BOARD_FEN = STARTING_FEN.split()[0]

BB_EMPTY, BB_ALL = 0, _sets.ALL
BB_SQUARES: List[Bitboard] = [1 << it for it in SQUARES]
BB_A1, BB_B1, BB_C1, BB_D1, BB_E1, BB_F1, BB_G1, BB_H1 = BB_SQUARES[0:8]
BB_A2, BB_B2, BB_C2, BB_D2, BB_E2, BB_F2, BB_G2, BB_H2 = BB_SQUARES[8:16]
BB_A3, BB_B3, BB_C3, BB_D3, BB_E3, BB_F3, BB_G3, BB_H3 = BB_SQUARES[16:24]
BB_A4, BB_B4, BB_C4, BB_D4, BB_E4, BB_F4, BB_G4, BB_H4 = BB_SQUARES[24:32]
BB_A5, BB_B5, BB_C5, BB_D5, BB_E5, BB_F5, BB_G5, BB_H5 = BB_SQUARES[32:40]
BB_A6, BB_B6, BB_C6, BB_D6, BB_E6, BB_F6, BB_G6, BB_H6 = BB_SQUARES[40:48]
BB_A7, BB_B7, BB_C7, BB_D7, BB_E7, BB_F7, BB_G7, BB_H7 = BB_SQUARES[48:56]
BB_A8, BB_B8, BB_C8, BB_D8, BB_E8, BB_F8, BB_G8, BB_H8 = BB_SQUARES[56:64]
BB_FILES: List[Bitboard] = [0x0101_0101_0101_0101 << it for it in range(8)]
BB_RANKS: List[Bitboard] = [0xFF << 8 * it for it in range(8)]
BB_FILE_A, BB_FILE_B, BB_FILE_C, BB_FILE_D, BB_FILE_E, BB_FILE_F, BB_FILE_G, BB_FILE_H = BB_FILES
BB_RANK_1, BB_RANK_2, BB_RANK_3, BB_RANK_4, BB_RANK_5, BB_RANK_6, BB_RANK_7, BB_RANK_8 = BB_RANKS
BB_CORNERS = (BB_FILE_A | BB_FILE_H) & (BB_RANK_1 | BB_RANK_8)
BB_CENTER = (BB_FILE_D | BB_FILE_E) & (BB_RANK_4 | BB_RANK_5)
BB_LIGHT_SQUARES, BB_DARK_SQUARES = 0x55AA_55AA_55AA_55AA, 0xAA55_AA55_AA55_AA55
BB_BACKRANKS = BB_RANK_1 | BB_RANK_8


class Status(enum.IntFlag):
    """What is wrong with a position."""

    VALID = 0
    NO_WHITE_KING = 1
    NO_BLACK_KING = 2
    TOO_MANY_KINGS = 4
    TOO_MANY_WHITE_PAWNS = 8
    TOO_MANY_BLACK_PAWNS = 16
    PAWNS_ON_BACKRANK = 32
    TOO_MANY_WHITE_PIECES = 64
    TOO_MANY_BLACK_PIECES = 128
    BAD_CASTLING_RIGHTS = 256
    INVALID_EP_SQUARE = 512
    OPPOSITE_CHECK = 1024
    EMPTY = 2048
    RACE_CHECK = 4096
    RACE_OVER = 8192
    RACE_MATERIAL = 16384
    TOO_MANY_CHECKERS = 32768
    IMPOSSIBLE_CHECK = 65536


STATUS_VALID = Status.VALID
STATUS_NO_WHITE_KING = Status.NO_WHITE_KING
STATUS_NO_BLACK_KING = Status.NO_BLACK_KING
STATUS_TOO_MANY_KINGS = Status.TOO_MANY_KINGS
STATUS_TOO_MANY_WHITE_PAWNS = Status.TOO_MANY_WHITE_PAWNS
STATUS_TOO_MANY_BLACK_PAWNS = Status.TOO_MANY_BLACK_PAWNS
STATUS_PAWNS_ON_BACKRANK = Status.PAWNS_ON_BACKRANK
STATUS_TOO_MANY_WHITE_PIECES = Status.TOO_MANY_WHITE_PIECES
STATUS_TOO_MANY_BLACK_PIECES = Status.TOO_MANY_BLACK_PIECES
STATUS_BAD_CASTLING_RIGHTS = Status.BAD_CASTLING_RIGHTS
STATUS_INVALID_EP_SQUARE = Status.INVALID_EP_SQUARE
STATUS_OPPOSITE_CHECK = Status.OPPOSITE_CHECK
STATUS_EMPTY = Status.EMPTY
STATUS_RACE_CHECK = Status.RACE_CHECK
STATUS_RACE_OVER = Status.RACE_OVER
STATUS_RACE_MATERIAL = Status.RACE_MATERIAL
STATUS_TOO_MANY_CHECKERS = Status.TOO_MANY_CHECKERS
STATUS_IMPOSSIBLE_CHECK = Status.IMPOSSIBLE_CHECK


def piece_symbol(piece_type: PieceType) -> str:
    """The letter of a kind of piece, as 'n'."""
    return str(PIECE_SYMBOLS[whole(piece_type, "a kind is PAWN (1) to KING (6)", PAWN, KING)])


def piece_name(piece_type: PieceType) -> str:
    """The name of a kind of piece, as 'knight'."""
    return str(PIECE_NAMES[whole(piece_type, "a kind is PAWN (1) to KING (6)", PAWN, KING)])


def square_distance(a: Square, b: Square) -> int:
    """The number of king steps from one square to the other."""
    a, b = square_of(a), square_of(b)
    return max(abs((a & 7) - (b & 7)), abs((a >> 3) - (b >> 3)))


def square_manhattan_distance(a: Square, b: Square) -> int:
    """The number of steps of a rook that goes from square to square."""
    a, b = square_of(a), square_of(b)
    return abs((a & 7) - (b & 7)) + abs((a >> 3) - (b >> 3))


def square_knight_distance(a: Square, b: Square) -> int:
    """The number of knight moves from one square to the other."""
    target, steps, seen = square_of(b), 0, {square_of(a)}
    while target not in seen:
        seen |= {to for at in seen for to in SQUARES if {abs((at & 7) - (to & 7)), abs((at >> 3) - (to >> 3))} == {1, 2}}
        steps += 1
    return steps


def square_mirror(square: Square) -> Square:
    """The square on the other side of the board's middle line."""
    return square_of(square) ^ 56


def lsb(bb: Bitboard) -> int:
    """The number of the lowest bit; -1 of no bit."""
    return (bb & -bb).bit_length() - 1


def msb(bb: Bitboard) -> int:
    """The number of the highest bit; -1 of no bit."""
    return bb.bit_length() - 1


def scan_forward(bb: Bitboard) -> Iterator[Square]:
    """The numbers of the bits, the lowest first."""
    while bb:
        lowest = bb & -bb
        yield lowest.bit_length() - 1
        bb ^= lowest


def scan_reversed(bb: Bitboard) -> Iterator[Square]:
    """The numbers of the bits, the highest first."""
    while bb:
        highest = bb.bit_length() - 1
        yield highest
        bb ^= 1 << highest


def popcount(bb: Bitboard) -> int:
    """The number of bits."""
    return bin(bb).count("1")


def _moved(bb: Bitboard, to: Callable[[Square], Square]) -> Bitboard:
    """The bits, each at the place of another square."""
    return sum(1 << to(it) for it in scan_forward(bb))


def flip_vertical(bb: Bitboard) -> Bitboard:
    """The board with its ranks turned round."""
    return int.from_bytes(bb.to_bytes(8, "little"), "big")


def flip_horizontal(bb: Bitboard) -> Bitboard:
    """The board with its files turned round."""
    return _moved(bb, lambda it: it ^ 7)


def flip_diagonal(bb: Bitboard) -> Bitboard:
    """The board mirrored at the diagonal from a1 to h8."""
    return _moved(bb, lambda it: (it & 7) << 3 | it >> 3)


def flip_anti_diagonal(bb: Bitboard) -> Bitboard:
    """The board mirrored at the diagonal from a8 to h1."""
    return _moved(bb, lambda it: ((it & 7) << 3 | it >> 3) ^ 63)


def shift_down(b: Bitboard) -> Bitboard:
    """Each bit one rank down."""
    return b >> 8


def shift_up(b: Bitboard) -> Bitboard:
    """Each bit one rank up."""
    return b << 8 & BB_ALL


def shift_right(b: Bitboard) -> Bitboard:
    """Each bit one file to the right."""
    return b << 1 & ~BB_FILE_A & BB_ALL


def shift_left(b: Bitboard) -> Bitboard:
    """Each bit one file to the left."""
    return b >> 1 & ~BB_FILE_H


def shift_2_down(b: Bitboard) -> Bitboard:
    """Each bit two ranks down."""
    return b >> 16


def shift_2_up(b: Bitboard) -> Bitboard:
    """Each bit two ranks up."""
    return b << 16 & BB_ALL


def shift_2_right(b: Bitboard) -> Bitboard:
    """Each bit two files to the right."""
    return shift_right(shift_right(b))


def shift_2_left(b: Bitboard) -> Bitboard:
    """Each bit two files to the left."""
    return shift_left(shift_left(b))


def shift_up_left(b: Bitboard) -> Bitboard:
    """Each bit one rank up and one file to the left."""
    return shift_left(shift_up(b))


def shift_up_right(b: Bitboard) -> Bitboard:
    """Each bit one rank up and one file to the right."""
    return shift_right(shift_up(b))


def shift_down_left(b: Bitboard) -> Bitboard:
    """Each bit one rank down and one file to the left."""
    return shift_left(shift_down(b))


def shift_down_right(b: Bitboard) -> Bitboard:
    """Each bit one rank down and one file to the right."""
    return shift_right(shift_down(b))


def _step(a: Square, b: Square) -> Optional[Tuple[int, int]]:
    """The step of file and rank on the line from a square to another one; None if no rank, file or diagonal has both."""
    files, ranks = (b & 7) - (a & 7), (b >> 3) - (a >> 3)
    if a == b or files and ranks and abs(files) != abs(ranks):
        return None
    return (files > 0) - (files < 0), (ranks > 0) - (ranks < 0)


def _walk(a: Square, files: int, ranks: int) -> Iterator[Square]:
    """The squares after a square, step by step to the edge."""
    file, rank = (a & 7) + files, (a >> 3) + ranks
    while 0 <= file < 8 and 0 <= rank < 8:
        yield 8 * rank + file
        file, rank = file + files, rank + ranks


@functools.lru_cache(maxsize=4096)
def ray(a: Square, b: Square) -> Bitboard:
    """The whole rank, file or diagonal with both squares; no square if there is none."""
    step = _step(square_of(a), square_of(b))
    if step is None:
        return BB_EMPTY
    files, ranks = step
    return BB_SQUARES[a] | sum(BB_SQUARES[it] for it in (*_walk(a, files, ranks), *_walk(a, -files, -ranks)))


@functools.lru_cache(maxsize=4096)
def between(a: Square, b: Square) -> Bitboard:
    """The squares between two squares of a rank, file or diagonal, without both."""
    step = _step(square_of(a), square_of(b))
    found = BB_EMPTY
    for it in () if step is None else _walk(a, *step):
        if it == b:
            break
        found |= BB_SQUARES[it]
    return found


class Move(_moves.Move):
    """A move from a square to a square, with the kind that a pawn becomes. The null move is false."""

    __slots__ = ()

    @property
    def drop(self) -> Optional[PieceType]:
        """None: no game here drops pieces."""
        return None

    @classmethod
    def null(cls) -> Move:
        """The null move, '0000', which no board makes."""
        return cls(0, 0)

    @classmethod
    def from_uci(cls, uci: str) -> Move:
        """The move of a text as UCI has it. Raises `InvalidMoveError`."""
        if uci == "0000":
            return cls.null()
        origin, target, became = _moves.Move.from_uci(uci)
        if origin == target:
            raise InvalidMoveError(f"a move goes to another square (use 0000 for null moves): {uci!r}")
        return cls(origin, target, became)

    def uci(self) -> str:
        """The move's text as UCI has it; '0000' for the null move."""
        return super().uci() if self else "0000"

    def xboard(self) -> str:
        """The same; '@@@@' for the null move."""
        return self.uci() if self else "@@@@"

    def __bool__(self) -> bool:
        return any(self)

    def __repr__(self) -> str:
        return super().__repr__() if self else f"Move.from_uci({self.uci()!r})"


class _Moves(Dict[_moves.Move, Move]):
    """The move of this module for each one of the package; each is made once."""

    def __missing__(self, move: _moves.Move) -> Move:
        found = self[move] = Move(*move)
        return found


OURS = _Moves()


class Piece(_pieces.Piece):
    """A piece: its kind and its colour."""

    __slots__ = ()

    @classmethod
    def from_symbol(cls, symbol: str) -> Piece:
        """The piece of a letter, 'P' to 'K' for White, 'p' to 'k' for Black. Raises `ValueError`."""
        return cls(*_pieces.Piece.from_symbol(symbol).__getnewargs__())

    def __new__(cls, piece_type: PieceType, color: Color) -> Piece:
        return super().__new__(cls, piece_type, color)

    def unicode_symbol(self, *, invert_color: bool = False) -> str:
        """The piece's figure."""
        return UNICODE_PIECE_SYMBOLS[self.symbol().swapcase() if invert_color else self.symbol()]

    def _repr_svg_(self) -> str:
        from .. import svg

        return svg.piece(self, size=45)


MEN: Dict[int, Piece] = {ord(letter): Piece.from_symbol(letter) for letter in UNICODE_PIECE_SYMBOLS}

IntoSquareSet = Union[int, Iterable[Square]]


def _word(squares: IntoSquareSet) -> Bitboard:
    return SquareSet(squares).mask


class SquareSet(_sets.SquareSet):
    """A set of squares over a word of 64 bits, whose higher bits are left out."""

    __slots__ = ()

    def __init__(self, squares: IntoSquareSet = BB_EMPTY) -> None:
        super().__init__(squares & BB_ALL if isinstance(squares, int) else squares)

    @classmethod
    def ray(cls, a: Square, b: Square) -> SquareSet:
        """The whole rank, file or diagonal with both squares."""
        return cls(ray(a, b))

    @classmethod
    def between(cls, a: Square, b: Square) -> SquareSet:
        """The squares between both."""
        return cls(between(a, b))

    @classmethod
    def from_square(cls, square: Square) -> SquareSet:
        """The set of that square alone."""
        return cls(BB_SQUARES[square_of(square)])

    def copy(self) -> SquareSet:
        """Another set of the same squares."""
        return SquareSet(self.mask)

    def mirror(self) -> SquareSet:
        """The squares with the ranks turned round."""
        return SquareSet(flip_vertical(self.mask))

    def carry_rippler(self) -> Iterator[Bitboard]:
        """The words of all subsets."""
        subset = BB_EMPTY
        while True:
            yield subset
            subset = (subset - self.mask) & self.mask
            if not subset:
                return

    def union(self, *others: IntoSquareSet) -> SquareSet:
        """The squares of any of them."""
        found = self.copy()
        found.update(*others)
        return found

    def intersection(self, *others: IntoSquareSet) -> SquareSet:
        """The squares of all of them."""
        found = self.copy()
        found.intersection_update(*others)
        return found

    def difference(self, *others: IntoSquareSet) -> SquareSet:
        """The squares of this set that are in no other."""
        found = self.copy()
        found.difference_update(*others)
        return found

    def symmetric_difference(self, other: IntoSquareSet) -> SquareSet:
        """The squares that are in one of the two sets only."""
        return SquareSet(self.mask ^ _word(other))

    def update(self, *others: IntoSquareSet) -> None:
        """Adds the squares of the others."""
        super().update(*map(_word, others))

    def intersection_update(self, *others: IntoSquareSet) -> None:
        """Keeps the squares that are in all others."""
        super().intersection_update(*map(_word, others))

    def difference_update(self, *others: IntoSquareSet) -> None:
        """Takes the squares of the others out."""
        super().difference_update(*map(_word, others))

    def symmetric_difference_update(self, other: IntoSquareSet) -> None:
        """Keeps the squares that are in one of the two sets only."""
        self.mask ^= _word(other)

    def isdisjoint(self, other: IntoSquareSet) -> bool:
        """Whether no square is in both."""
        return not self.mask & _word(other)

    def issubset(self, other: IntoSquareSet) -> bool:
        """Whether each square is one of the other's."""
        return not self.mask & ~_word(other)

    def issuperset(self, other: IntoSquareSet) -> bool:
        """Whether each of the other's squares is one of these."""
        return not _word(other) & ~self.mask

    def __or__(self, other: IntoSquareSet) -> SquareSet:  # type: ignore[override]  # (a set of squares takes only squares)
        return self.union(other)

    def __and__(self, other: IntoSquareSet) -> SquareSet:
        return self.intersection(other)

    def __xor__(self, other: IntoSquareSet) -> SquareSet:  # type: ignore[override]  # (a set of squares takes only squares)
        return self.symmetric_difference(other)

    def __sub__(self, other: IntoSquareSet) -> SquareSet:
        return self.difference(other)

    def __rsub__(self, other: IntoSquareSet) -> SquareSet:
        return SquareSet(other).difference(self)

    __ror__, __rand__, __rxor__ = __or__, __and__, __xor__

    def __invert__(self) -> SquareSet:
        return SquareSet(~self.mask)

    def __lshift__(self, shift: int) -> SquareSet:
        return SquareSet(self.mask << shift)

    def __rshift__(self, shift: int) -> SquareSet:
        return SquareSet(self.mask >> shift)

    def __eq__(self, other: object) -> bool:
        try:
            return self.mask == _word(other)  # type: ignore[arg-type]  # (another type is a TypeError, caught below)
        except (TypeError, ValueError):
            return NotImplemented

    __hash__ = None  # type: ignore[assignment]  # (it can be changed)

    def __repr__(self) -> str:
        return f"SquareSet({self.mask:#021_x})"


def refuse(what: str) -> NoReturn:
    """Raises for what python-chess has and this module hasn't."""
    raise NotImplementedError(f"{what} (docs/PYTHON.md, A program for python-chess)")
