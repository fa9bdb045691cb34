"""Pictures, by the names of python-chess's module `svg`."""
from __future__ import annotations

import html
from typing import Iterable, Mapping, Optional, Tuple, Union

from .. import svg as _svg
from ..svg import Arrow as _Arrow
from ._men import BaseBoard
from ._names import SQUARE_NAMES, WHITE, Color, Move, Piece, Square, SquareSet

__all__ = ["Arrow", "SvgWrapper", "board", "piece"]

_LETTERS = {"green": "G", "red": "R", "yellow": "Y", "blue": "B"}


class SvgWrapper(str):
    """A picture, which a notebook shows."""

    __slots__ = ()

    def _repr_svg_(self) -> SvgWrapper:
        return self


class Arrow(_Arrow):
    """An arrow from square to square, or a ring if both are the same."""

    def pgn(self) -> str:
        """The arrow as commands of comments have it, as 'Ga1h8'."""
        letter = _LETTERS.get(self.color, "G")
        return f"{letter}{SQUARE_NAMES[self.tail]}" if self.tail == self.head else f"{letter}{SQUARE_NAMES[self.tail]}{SQUARE_NAMES[self.head]}"

    @classmethod
    def from_pgn(cls, pgn: str) -> Arrow:
        """The arrow of such a text. Raises `ValueError`."""
        colours = {letter: name for name, letter in _LETTERS.items()}
        if len(pgn) not in (3, 5) or pgn[0] not in colours:
            raise ValueError(f"an arrow is as Ga1h8: {pgn!r}")
        return cls(SQUARE_NAMES.index(pgn[1:3]), SQUARE_NAMES.index(pgn[-2:]), colours[pgn[0]])


def piece(piece: Piece, size: Optional[int] = None) -> SvgWrapper:
    """A picture of a piece."""
    return SvgWrapper(_svg.piece(piece, size))


def board(
    board: Optional[BaseBoard] = None,
    *,
    orientation: Color = WHITE,
    lastmove: Optional[Move] = None,
    check: Optional[Square] = None,
    arrows: Iterable[Union[_Arrow, Tuple[Square, Square]]] = (),
    fill: Mapping[Square, str] = {},
    squares: Optional[Union[int, Iterable[Square]]] = None,
    size: Optional[int] = None,
    coordinates: bool = True,
    colors: Mapping[str, str] = {},
    flipped: bool = False,
    borders: bool = False,
    style: Optional[str] = None,
) -> SvgWrapper:
    """A picture of a board, whose pieces need be no position. `style` is CSS for it; `borders` is ignored."""
    picture = _svg.board(
        None if board is None else board.piece_map(),
        orientation=orientation != flipped,
        lastmove=lastmove or None,
        check=check,
        arrows=arrows,
        fill=fill,
        squares=SquareSet(squares or 0),
        size=size,
        coordinates=coordinates,
        colors=colors,
    )
    begin, end, rest = picture.partition(">")
    return SvgWrapper(picture if style is None else f"{begin}{end}<style>{html.escape(style, quote=False)}</style>{rest}")
