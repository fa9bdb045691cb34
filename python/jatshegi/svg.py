"""Pictures of boards and men as SVG, under the names of python-chess.

    >>> import jatshegi
    >>> picture = jatshegi.svg.board(jatshegi.Board(), size=350)
    >>> picture.startswith("<svg")
    True

A notebook shows a board's picture by itself. The men are those of the page for browsers.
"""
from __future__ import annotations

import html
import math
from typing import Dict, Iterable, Iterator, List, Mapping, NamedTuple, Optional, Tuple, Union

from ._board import Board
from ._checks import colour_of, one_of, square_of, text_of, whole
from ._moves import SQUARE_NAMES, WHITE, Move
from ._pieces import Piece

__all__ = ["Arrow", "board", "piece"]

# The men's outlines in a square of 40 by 40, by their letters.
_SHAPES = {
    "p": '<path d="M14.5 33c0-6.500 2.600-8.500 3.300-13.200h4.400c.7 4.700 3.300 6.700 3.300 13.200z"/><circle cx="20" cy="14" r="5.600"/><path d="M10.500 32.500h19v4h-19z"/>',
    "r": '<path d="M12.500 32l1-14h13l1 14z"/><path d="M10.500 7.500h4.600v3.200h2.800V7.500h4.200v3.200h2.800V7.500h4.600v7l-3.200 3.500H13.700l-3.200-3.500z"/><path d="M9.500 32h21v4.500h-21z"/>',
    "n": '<path d="M12 32.500c-.4-6.800 6.300-8.900 6.600-14.400-2.500 2.200-5.500 2.600-7.300 4.700-1.300 1.500-3 1.100-3.800-.3-.7-1.300-.2-2.600.7-3.800 2.500-3.300 3-7.500 7.300-9.700l.3-4.200 3.400 2.800c7.600.9 11.700 8.600 10.800 24.900z"/><path class="mark" d="M16.300 12.600l1.700-.5"/><path d="M10.500 32.500h21v4h-21z"/>',
    "b": '<circle cx="20" cy="6.500" r="2.400"/><path d="M20 9c5.600 3.600 7.800 7.600 7.800 11.500 0 3-1.700 4.800-3.800 5.900l1.800 6.100H14.200l1.800-6.100c-2.100-1.100-3.800-2.900-3.800-5.900C12.200 16.600 14.400 12.600 20 9z"/><path class="mark" d="M20 14.500v7M16.700 18h6.600"/><path d="M9.500 32.500h21v4h-21z"/>',
    "q": '<path d="M11 32.500L6.500 14.800l6.300 6.500 1.700-11.600 4 10.200L20 8.200l1.500 11.700 4-10.200 1.700 11.600 6.300-6.500L29 32.500z"/><circle cx="6.500" cy="13" r="1.900"/><circle cx="14.200" cy="8" r="1.900"/><circle cx="20" cy="6.400" r="1.900"/><circle cx="25.800" cy="8" r="1.900"/><circle cx="33.500" cy="13" r="1.900"/><path d="M10 32.500h20v4H10z"/>',
    "k": '<path d="M18.500 3.500h3v2.300h2.500v2.900h-2.500v3.600h-3V8.700h-2.500V5.800h2.500z"/><path d="M12.300 32.500C6.400 27 4.700 17.500 11.600 15.800c3.900-1 6.900 1.200 8.400 4.900 1.500-3.700 4.500-5.900 8.400-4.900 6.900 1.700 5.200 11.200-.7 16.700z"/><path d="M20 20.700c-1.300-3.200-2.300-5.700 0-9.200 2.300 3.500 1.300 6 0 9.200z"/><path d="M10.500 32.500h19v4h-19z"/>',
}
_WHITE = 'fill="#fff" stroke="#1b1b1b" stroke-width="1.5"'
_BLACK = 'fill="#262626" stroke="#e9e9e9" stroke-width="1.1"'

# The colours, which a caller may replace by name.
_COLOURS: Dict[str, str] = {
    "square light": "#f0d9b5",
    "square dark": "#b58863",
    "square light lastmove": "#cdd16a",
    "square dark lastmove": "#aaa23b",
    "check": "#e2201c",
    "margin": "#2a2f2d",
    "coord": "#e5e5e5",
    "arrow green": "#15781b",
    "arrow red": "#882020",
    "arrow blue": "#1b5fae",
    "arrow yellow": "#e68f00",
}

# A square's side and the margin's width, in the picture's units.
_SIDE, _MARGIN = 40, 15


def _quoted(text: str) -> str:
    """The value of an attribute, in its quotation marks."""
    return f'"{html.escape(text)}"'


class Arrow(NamedTuple):
    """An arrow from square to square, or a ring where both are the same; its colour is green, red, blue or yellow, or any colour of SVG."""

    tail: int
    head: int
    color: str = "green"


def _man(man: Piece) -> str:
    symbol = man.symbol()
    shape = _SHAPES[symbol.lower()].replace('class="mark"', 'fill="none"')
    return f'<g {_WHITE if symbol.isupper() else _BLACK} stroke-linejoin="round" stroke-linecap="round">{shape}</g>'


def piece(piece: Piece, size: Optional[int] = None) -> str:
    """A picture of a man, `size` pixels wide and high.

    >>> jatshegi.svg.piece(jatshegi.Piece.from_symbol("R"), size=40).count("<path")
    3
    """
    return f'<svg xmlns="http://www.w3.org/2000/svg" viewBox="0 0 40 40"{_sized(size)}>{_man(Piece.from_symbol(piece))}</svg>'


def _sized(size: Optional[int]) -> str:
    if size is None:
        return ""
    size = whole(size, "a picture is a number of pixels wide, at least 1", 1)
    return f' width="{size}" height="{size}"'


# The colours with the caller's in their places.
def _colours(colors: Mapping[str, str]) -> Dict[str, str]:
    one_of(colors, Mapping, "colours are a mapping from their names")
    wrong = [name for name in colors if name not in _COLOURS]
    if wrong:
        raise ValueError(f"no part of a picture has the colour {wrong[0]!r}: {', '.join(_COLOURS)}")
    return {**_COLOURS, **colors}


# An arrow's or a ring's part of the picture.
def _arrow(arrow: Arrow, at: Mapping[int, Tuple[float, float]], colours: Mapping[str, str]) -> str:
    (x1, y1), (x2, y2) = at[square_of(arrow.tail)], at[square_of(arrow.head)]
    x1, y1, x2, y2 = (it + _SIDE / 2 for it in (x1, y1, x2, y2))
    colour = _quoted(colours.get(f"arrow {arrow.color}", arrow.color))
    if arrow.tail == arrow.head:
        return f'<circle cx="{x1:g}" cy="{y1:g}" r="{_SIDE * 0.45:g}" stroke-width="{_SIDE * 0.1:g}" stroke={colour} fill="none" opacity=".72"/>'
    far = math.hypot(x2 - x1, y2 - y1)
    dx, dy = (x2 - x1) / far, (y2 - y1) / far
    # (the shaft ends where the head begins, and the head within the square)
    x2, y2 = x2 - dx * 4, y2 - dy * 4
    x0, y0 = x2 - dx * _SIDE * 0.4, y2 - dy * _SIDE * 0.4
    wide = _SIDE * 0.22
    corners = ((x2, y2), (x0 - dy * wide, y0 + dx * wide), (x0 + dy * wide, y0 - dx * wide))
    return (
        f'<g opacity=".72"><line x1="{x1:.1f}" y1="{y1:.1f}" x2="{x0:.1f}" y2="{y0:.1f}" stroke={colour} stroke-width="{_SIDE * 0.2:g}" stroke-linecap="butt"/>'
        f'<polygon points="{" ".join(f"{x:.1f},{y:.1f}" for x, y in corners)}" fill={colour}/></g>'
    )


# The colours, where the words of a picture are such as it takes.
def _checked(board: object, orientation: bool, lastmove: Optional[Move], fill: Mapping[int, str], colors: Mapping[str, str]) -> Dict[str, str]:
    if board is not None:
        one_of(board, (Board, Mapping), "a picture is of a Board, of a mapping from squares to men, or of None")
    if lastmove is not None:
        one_of(lastmove, Move, "the last move is a Move, or None")
        square_of(lastmove.from_square), square_of(lastmove.to_square)
    colour_of(orientation)
    one_of(fill, Mapping, "the squares that are filled are a mapping to colours")
    for colour in (*fill.values(), *(colors.values() if isinstance(colors, Mapping) else ())):
        text_of(colour, "a colour of a picture is a text, as '#ffce9e'")
    return _colours(colors)


# Where the picture of a square begins.
def _corner(square: int, orientation: bool, margin: int) -> Tuple[int, int]:
    file, rank = square & 7, square >> 3
    x, y = (file, 7 - rank) if orientation == WHITE else (7 - file, rank)
    return x * _SIDE + margin, y * _SIDE + margin


# What lies below a king in check.
def _glow(colour: str) -> str:
    stop = _quoted(colour)
    return (
        f'<defs><radialGradient id="check"><stop offset="0" stop-color={stop}/><stop offset=".5" stop-color={stop}/>'
        f'<stop offset="1" stop-color={stop} stop-opacity="0"/></radialGradient></defs>'
    )


def board(
    board: Union[Board, Mapping[int, Piece], None] = None,
    *,
    orientation: bool = WHITE,
    lastmove: Optional[Move] = None,
    check: Optional[int] = None,
    arrows: Iterable[Union[Arrow, Tuple[int, int]]] = (),
    fill: Mapping[int, str] = {},
    squares: Iterable[int] = (),
    size: Optional[int] = None,
    coordinates: bool = True,
    colors: Mapping[str, str] = {},
) -> str:
    """A picture of the board, as the player of that colour sees it; or of men on their squares, which need be no position; without either, of the empty board.

    `lastmove` colours its two squares, `check` the square of a king, `fill` any square; `squares` get a cross, and `arrows` are drawn. `colors` replaces
    colours by their names. The picture is `size` pixels wide and high. Raises `ValueError` for what is no square, size or name.

    >>> picture = jatshegi.svg.board(Board(), arrows=[(jatshegi.E2, jatshegi.E4)], orientation=jatshegi.BLACK)
    >>> picture.count("<rect"), picture.count("<line")
    (65, 1)
    >>> jatshegi.svg.board({jatshegi.E4: jatshegi.Piece.from_symbol("N")}).count("translate")
    1
    """
    colours = _checked(board, orientation, lastmove, fill, colors)
    given = board.piece_map() if isinstance(board, Board) else board or {}
    men = {square_of(square): Piece.from_symbol(man) for square, man in given.items()}
    filled, crossed = {square_of(it): colour for it, colour in fill.items()}, {square_of(it) for it in squares}
    last = set() if lastmove is None else {lastmove.from_square, lastmove.to_square}
    checked = None if check is None else square_of(check)
    margin = _MARGIN if coordinates else 0
    full = 8 * _SIDE + 2 * margin
    at = {square: _corner(square, orientation, margin) for square in range(64)}
    parts = [f'<svg xmlns="http://www.w3.org/2000/svg" viewBox="0 0 {full} {full}"{_sized(size)}><rect width="{full}" height="{full}" fill={_quoted(colours["margin"])}/>']
    parts += [] if checked is None else [_glow(colours["check"])]
    for square, corner in at.items():
        shade = _shade(square) + (" lastmove" if square in last else "")
        parts += _square(square, corner, filled.get(square, colours[shade]), men.get(square), square == checked, square in crossed)
    parts += _names(orientation, full, colours["coord"]) if coordinates else []
    parts += [_arrow(Arrow(*arrow), at, colours) for arrow in arrows]
    return "".join([*parts, "</svg>"])


# The name of a square's colour.
def _shade(square: int) -> str:
    return "square light" if (square ^ square >> 3) & 1 else "square dark"


# A square's parts of the picture.
def _square(square: int, corner: Tuple[int, int], colour: str, man: Optional[Piece], is_checked: bool, is_crossed: bool) -> Iterator[str]:
    left, top = corner
    yield f'<rect x="{left}" y="{top}" width="{_SIDE}" height="{_SIDE}" fill={_quoted(colour)}><title>{SQUARE_NAMES[square]}</title></rect>'
    if is_checked:
        yield f'<circle cx="{left + _SIDE // 2}" cy="{top + _SIDE // 2}" r="{_SIDE // 2}" fill="url(#check)"/>'
    if man is not None:
        yield f'<g transform="translate({left} {top})">{_man(man)}</g>'
    if is_crossed:
        yield f'<path d="M{left + 8} {top + 8}l24 24m0-24l-24 24" stroke="#b3211b" stroke-width="4" opacity=".8"/>'


# The names of the files and the ranks, on all four sides.
def _names(orientation: bool, full: int, colour: str) -> List[str]:
    parts = [f'<g font-family="sans-serif" font-size="10" text-anchor="middle" fill={_quoted(colour)}>']
    for place in range(8):
        middle = _MARGIN + place * _SIDE + _SIDE // 2
        file, rank = "abcdefgh"[place if orientation == WHITE else 7 - place], "87654321"[place if orientation == WHITE else 7 - place]
        parts += [f'<text x="{middle}" y="{y}">{file}</text>' for y in (11, full - 4)]
        parts += [f'<text x="{x}" y="{middle + 4}">{rank}</text>' for x in (_MARGIN // 2, full - _MARGIN // 2)]
    return [*parts, "</g>"]
