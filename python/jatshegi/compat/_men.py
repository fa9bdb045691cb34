"""Pieces on squares, which need be no position of a game."""
from __future__ import annotations

from typing import Any, Callable, Dict, Mapping, Optional, Tuple, Type, TypeVar

from .. import svg as _svg
from .._checks import colour_of, square_of, whole
from ._aside import attackers_among, attacks_among
from ._names import (
    BB_ALL,
    BB_RANKS,
    BB_SQUARES,
    BISHOP,
    BLACK,
    KING,
    KNIGHT,
    PAWN,
    QUEEN,
    ROOK,
    STARTING_BOARD_FEN,
    WHITE,
    Bitboard,
    Color,
    IntoSquareSet,
    Piece,
    PieceType,
    Square,
    SquareSet,
    between,
    ray,
    refuse,
    scan_forward,
)
from ._placement import field_of, men_of

_Base = TypeVar("_Base", bound="BaseBoard")


class BaseBoard:
    """Pieces on 64 squares, as an editor or a picture has them. It has no side to move and no game: a `Board` has."""

    def __init__(self, board_fen: Optional[str] = STARTING_BOARD_FEN) -> None:
        self._placed: Dict[Square, Piece] = {} if board_fen is None else men_of(board_fen)

    @classmethod
    def empty(cls: Type[_Base]) -> _Base:
        """A board without pieces."""
        return cls(None)

    # The pieces, and the change of all of them; a class with more beside them has its own.
    def _men_now(self) -> Dict[Square, Piece]:
        return self._placed

    def _place(self, men: Dict[Square, Piece]) -> None:
        self._placed = men

    def reset_board(self) -> None:
        """The pieces as a game begins."""
        self._place(men_of(STARTING_BOARD_FEN))

    def clear_board(self) -> None:
        """No pieces."""
        self._place({})

    # ---- words of 64 bits

    def _squares_of(self, kind: Optional[PieceType], color: Optional[Color]) -> Bitboard:
        men = self._men_now().items()
        return sum(BB_SQUARES[at] for at, man in men if kind in (None, man.piece_type) and color in (None, man.color))

    @property
    def occupied(self) -> Bitboard:
        """The squares of all pieces."""
        return self._squares_of(None, None)

    @property
    def occupied_co(self) -> Tuple[Bitboard, Bitboard]:
        """The squares of Black's pieces and of White's, by the colour."""
        return self._squares_of(None, BLACK), self._squares_of(None, WHITE)

    @property
    def pawns(self) -> Bitboard:
        """The squares of all pawns."""
        return self._squares_of(PAWN, None)

    @property
    def knights(self) -> Bitboard:
        """The squares of all knights."""
        return self._squares_of(KNIGHT, None)

    @property
    def bishops(self) -> Bitboard:
        """The squares of all bishops."""
        return self._squares_of(BISHOP, None)

    @property
    def rooks(self) -> Bitboard:
        """The squares of all rooks."""
        return self._squares_of(ROOK, None)

    @property
    def queens(self) -> Bitboard:
        """The squares of all queens."""
        return self._squares_of(QUEEN, None)

    @property
    def kings(self) -> Bitboard:
        """The squares of all kings."""
        return self._squares_of(KING, None)

    @property
    def promoted(self) -> Bitboard:
        """No square: no piece is marked as promoted."""
        return 0

    def pieces_mask(self, piece_type: PieceType, color: Color) -> Bitboard:
        """The squares of the pieces of that kind and colour."""
        return self._squares_of(whole(piece_type, "a kind is PAWN (1) to KING (6)", PAWN, KING), colour_of(color))

    def pieces(self, piece_type: PieceType, color: Color) -> SquareSet:
        """The same as a set."""
        return SquareSet(self.pieces_mask(piece_type, color))

    # ---- pieces

    def piece_at(self, square: Square) -> Optional[Piece]:
        """The piece on the square, or None."""
        return self._men_now().get(square_of(square))

    def piece_type_at(self, square: Square) -> Optional[PieceType]:
        """Its kind, or None."""
        man = self.piece_at(square)
        return None if man is None else man.piece_type

    def color_at(self, square: Square) -> Optional[Color]:
        """Its colour, or None."""
        man = self.piece_at(square)
        return None if man is None else man.color

    def king(self, color: Color) -> Optional[Square]:
        """The square of that side's king; None if there isn't one alone."""
        kings = list(scan_forward(self.pieces_mask(KING, color)))
        return kings[0] if len(kings) == 1 else None

    # ---- attacks

    def attacks_mask(self, square: Square) -> Bitboard:
        """The squares that the piece on the square attacks."""
        return attacks_among(self._men_now(), square_of(square))

    def attacks(self, square: Square) -> SquareSet:
        """The same as a set."""
        return SquareSet(self.attacks_mask(square))

    def attackers_mask(self, color: Color, square: Square, occupied: Optional[Bitboard] = None) -> Bitboard:
        """The squares of the pieces of that colour that attack the square."""
        if occupied is not None and occupied != self.occupied:
            refuse("attackers are those of the board's own pieces")
        return attackers_among(self._men_now(), colour_of(color), square_of(square))

    def attackers(self, color: Color, square: Square, occupied: Optional[IntoSquareSet] = None) -> SquareSet:
        """The same as a set."""
        return SquareSet(self.attackers_mask(color, square, None if occupied is None else SquareSet(occupied).mask))

    def is_attacked_by(self, color: Color, square: Square, occupied: Optional[IntoSquareSet] = None) -> bool:
        """Whether a piece of that colour attacks the square."""
        return bool(self.attackers(color, square, occupied))

    def pin_mask(self, color: Color, square: Square) -> Bitboard:
        """The line to the king on which the square is pinned; all squares if it isn't. The library says which rooks, bishops and queens attack the square."""
        king, square = self.king(color), square_of(square)
        if king is None or between(king, square) & self.occupied:
            return BB_ALL
        line = ray(king, square)
        sliders = sum(self.pieces_mask(kind, not color) for kind in (BISHOP, ROOK, QUEEN))
        attacking = self.attackers_mask(not color, square) & line & sliders
        return line if any(between(king, it) >> square & 1 for it in scan_forward(attacking)) else BB_ALL

    def pin(self, color: Color, square: Square) -> SquareSet:
        """The same as a set."""
        return SquareSet(self.pin_mask(color, square))

    def is_pinned(self, color: Color, square: Square) -> bool:
        """Whether the square is pinned to that side's king."""
        return self.pin_mask(color, square) != BB_ALL

    # ---- edits

    def remove_piece_at(self, square: Square) -> Optional[Piece]:
        """The piece on the square, which is taken off; None if there is none."""
        men = dict(self._men_now())
        man = men.pop(square_of(square), None)
        if man is not None:
            self._place(men)
        return man

    def set_piece_at(self, square: Square, piece: Optional[Piece], promoted: bool = False) -> None:
        """Puts a piece on the square, or none."""
        if promoted:
            refuse("pieces aren't marked as promoted")
        if piece is None:
            self.remove_piece_at(square)
        else:
            self._place({**self._men_now(), square_of(square): Piece.from_symbol(piece)})

    def piece_map(self, *, mask: Bitboard = BB_ALL) -> Dict[Square, Piece]:
        """The pieces by their squares."""
        men = self._men_now()
        return {at: men[at] for at in sorted(men, reverse=True) if mask >> at & 1}

    def set_piece_map(self, pieces: Mapping[Square, Piece]) -> None:
        """Puts these pieces alone."""
        self._place({square_of(at): Piece.from_symbol(man) for at, man in pieces.items()})

    def board_fen(self, *, promoted: Optional[bool] = False) -> str:
        """The first field of the FEN."""
        return field_of(self._men_now())

    def set_board_fen(self, fen: str) -> None:
        """Puts the pieces of the first field of a FEN. Raises `ValueError`."""
        self._place(men_of(fen))

    @classmethod
    def from_chess960_pos(cls: Type[_Base], scharnagl: int) -> _Base:
        """Raises `NotImplementedError`."""
        refuse("there is no Chess960")

    def set_chess960_pos(self, scharnagl: int) -> None:
        """Raises `NotImplementedError`."""
        refuse("there is no Chess960")

    def chess960_pos(self) -> Optional[int]:
        """Raises `NotImplementedError`."""
        refuse("there is no Chess960")

    def _turned(self, f: Callable[[Bitboard], Bitboard]) -> Dict[Square, Piece]:
        return {to: man for at, man in self._men_now().items() for to in scan_forward(f(BB_SQUARES[at]))}

    def apply_transform(self, f: Callable[[Bitboard], Bitboard]) -> None:
        """Moves each piece to the square that a function of words of 64 bits, as `flip_vertical`, has for its own."""
        self._place(self._turned(f))

    def transform(self: _Base, f: Callable[[Bitboard], Bitboard]) -> _Base:
        """Another board, after `apply_transform`."""
        board = self.copy()
        board.apply_transform(f)
        return board

    def apply_mirror(self) -> None:
        """Turns the ranks round and changes the colours."""
        self._place({at ^ 56: Piece(man.piece_type, not man.color) for at, man in self._men_now().items()})

    def mirror(self: _Base) -> _Base:
        """Another board, after `apply_mirror`."""
        board = self.copy()
        board.apply_mirror()
        return board

    def copy(self: _Base) -> _Base:
        """Another board with the same pieces."""
        board = type(self)(None)
        board._place(dict(self._men_now()))
        return board

    def __copy__(self: _Base) -> _Base:
        return self.copy()

    def __deepcopy__(self: _Base, memo: Dict[int, Any]) -> _Base:
        found = memo[id(self)] = self.copy()
        return found

    # ---- texts and pictures

    def __eq__(self, other: object) -> bool:
        if not isinstance(other, BaseBoard):
            return NotImplemented
        return self._men_now() == other._men_now()

    __hash__ = None  # type: ignore[assignment]  # (it can be changed)

    def __repr__(self) -> str:
        return f"{type(self).__name__}({self.board_fen()!r})"

    def __str__(self) -> str:
        men = self._men_now()
        return "\n".join(" ".join(men[8 * rank + file].symbol() if 8 * rank + file in men else "." for file in range(8)) for rank in range(7, -1, -1))

    def unicode(self, *, invert_color: bool = False, borders: bool = False, empty_square: str = "⭘", orientation: Color = WHITE) -> str:
        """A diagram with figures."""
        ranks, files = (range(7, -1, -1), range(8)) if orientation else (range(8), range(7, -1, -1))
        men, lines = self._men_now(), []
        for rank in ranks:
            row = [men[8 * rank + file].unicode_symbol(invert_color=invert_color) if 8 * rank + file in men else empty_square for file in files]
            lines.append(f"{rank + 1} |{'|'.join(row)}|" if borders else " ".join(row))
        if not borders:
            return "\n".join(lines)
        line = "  -----------------"
        return "\n".join([line, *(it for row in lines for it in (row, line)), "   " + " ".join("abcdefgh"[file] for file in files)])

    def _repr_svg_(self) -> str:
        return _svg.board(self._men_now(), size=390)


def pawns_on_last_ranks(men: Mapping[Square, Piece]) -> bool:
    """Whether a pawn stands on the first or the last rank."""
    return any(man.piece_type == PAWN and (BB_RANKS[0] | BB_RANKS[7]) >> at & 1 for at, man in men.items())


def counts(men: Mapping[Square, Piece], color: Color) -> Tuple[int, int, int]:
    """The number of kings, of pawns and of all pieces of a colour."""
    mine = [man.piece_type for man in men.values() if man.color == color]
    return mine.count(KING), mine.count(PAWN), len(mine)
