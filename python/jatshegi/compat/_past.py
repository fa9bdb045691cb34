"""The moves before a null move, and before a field of a position was set: the library's boards make neither, so another board goes on from there."""
from __future__ import annotations

from typing import Iterator, List, NamedTuple, Optional, Sequence, Tuple

from .. import _board
from ._fields import Fields
from ._names import OURS, Move

__all__ = ["Chapter", "Past", "last_moves", "moves_of", "positions_of", "shortened"]


class Chapter(NamedTuple):
    """A board of the library, and the fields that were set of it. The null move was made after it, or a field of its last position was set."""

    it: _board.Board
    fields: Optional[Fields]
    is_null: bool


Past = Tuple[Chapter, ...]


def moves_of(past: Past) -> List[Move]:
    """The moves of the chapters, with the null moves between them."""
    moves: List[Move] = []
    for chapter in past:
        moves += map(OURS.__getitem__, chapter.it.move_stack)
        moves += [Move.null()] * chapter.is_null
    return moves


def positions_of(past: Past) -> Iterator[str]:
    """The positions before the moves of the chapters, as texts that are equal if the positions are the same."""
    for chapter in past:
        it = chapter.it.copy()
        if chapter.is_null:
            yield it.epd()
        while it.ply:
            it.back()
            yield it.epd()


def last_moves(board: _board.Board, count: int) -> _board.Board:
    """A board with the last moves only. It is the same board if all moves are kept."""
    moves = board.move_stack
    if len(moves) <= count:
        return board
    kept, start = moves[len(moves) - count :], board.copy()
    for _ in kept:
        start.back()
    found = _board.Board(start.fen())
    for move in kept:
        found.push(move)
    return found


def shortened(past: Sequence[Chapter], count: int) -> Past:
    """The last chapters, with at most that many moves, at least 1."""
    found: List[Chapter] = []
    for it, fields, is_null in reversed(past):
        left = count - is_null
        kept = last_moves(it, left)
        found.append(Chapter(kept, fields if kept is it else None, is_null))
        count = left - kept.ply
        if not count:
            break
    return tuple(reversed(found))
