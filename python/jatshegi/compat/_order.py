"""The legal moves of a board, in the order of python-chess, and the moves that were made."""
from __future__ import annotations

from typing import TYPE_CHECKING, Iterator, List, NoReturn, SupportsIndex, Tuple

from .. import _moves
from ._names import KNIGHT, OURS, Move

if TYPE_CHECKING:
    from ._boards import Board

__all__ = ["LegalMoveGenerator", "MoveStack", "in_order"]

_PAWNS, _KINGS = b"Pp", b"Kk"


def in_order(moves: List[_moves.Move], men: bytes, is_check: bool) -> List[_moves.Move]:
    """Puts legal moves, which ascend by their squares, into the order of python-chess.

    The moves of a king in check come first. Then come moves of pieces, castling, captures of pawns, single steps, double steps and en passant. Within each kind
    the highest squares come first. `men` lists the letter of the piece on each square."""
    kings: List[_moves.Move] = []
    pieces: List[_moves.Move] = []
    castles: List[_moves.Move] = []
    captures: List[_moves.Move] = []
    singles: List[_moves.Move] = []
    doubles: List[_moves.Move] = []
    passant: List[_moves.Move] = []
    for move in reversed(moves):
        origin, to, became = move
        letter, step = men[origin], abs(to - origin)
        if letter in _PAWNS:
            kind = singles if step == 8 else doubles if step == 16 else captures if men[to] else passant
            # (of the four pieces that a pawn can become, the queen comes first)
            kind.insert(len(kind) - (0 if became is None else became - KNIGHT), move)
        elif letter in _KINGS and is_check:
            kings.append(move)
        else:
            (castles if letter in _KINGS and step == 2 else pieces).append(move)
    return [*kings, *pieces, *castles, *captures, *singles, *doubles, *passant]


class LegalMoveGenerator:
    """The legal moves of a board, as it has them at each moment."""

    def __init__(self, board: Board) -> None:
        self.board = board

    def __bool__(self) -> bool:
        return bool(self.board._game.legal_moves)

    def count(self) -> int:
        """How many there are."""
        return len(self.board._game.legal_moves)

    def __iter__(self) -> Iterator[Move]:
        game = self.board._game
        return map(OURS.__getitem__, in_order(game.legal_moves, game._men(), game.is_check()))

    def __contains__(self, move: Move) -> bool:
        return self.board.is_legal(move)

    def __repr__(self) -> str:
        return f"<LegalMoveGenerator at {id(self):#x} ({', '.join(self.board.san(move) for move in self)})>"


class MoveStack(List[Move]):
    """The moves of a board, which `push`, `pop` and `clear_stack` of the board change. A change of the list itself is a `TypeError`."""

    __slots__ = ()

    def _refuse(self, *words: object, **named: object) -> NoReturn:
        raise TypeError("moves are made by push(), and taken back by pop() or clear_stack()")

    append = clear = extend = insert = pop = remove = reverse = sort = _refuse  # type: ignore[assignment]  # (a list of moves that only its board changes)
    __delitem__ = __iadd__ = __imul__ = __setitem__ = _refuse  # type: ignore[assignment]  # (a list of moves that only its board changes)

    def __reduce_ex__(self, protocol: SupportsIndex) -> Tuple[object, ...]:
        return list, (list(self),)
