"""The first field of a FEN, which need be no position."""
from __future__ import annotations

import re
from typing import Dict, Mapping, Optional

from .._checks import text_of
from ._names import COLORS, MEN, PIECE_TYPES, Bitboard, Color, Piece, PieceType, Square

__all__ = ["field_of", "men_of", "word_of"]

# For each kind and colour, or None for any, the digit of each letter: 1 for a piece of that sort.
_DIGITS = {
    (kind, color): bytes(48 + (letter in MEN and kind in (None, MEN[letter].piece_type) and color in (None, MEN[letter].color)) for letter in range(256))
    for kind in (None, *PIECE_TYPES)
    for color in (None, *COLORS)
}


def men_of(fen: str) -> Dict[Square, Piece]:
    """The pieces of the first field of a FEN. Raises `ValueError`."""
    men: Dict[Square, Piece] = {}
    ranks = text_of(fen, "the position part of a FEN is a text").strip().split("/")
    for rank, text in zip(range(7, -1, -1), ranks):
        squares = re.sub("[1-8]", lambda empty: "." * int(empty[0]), text)
        if len(squares) != 8 or len(ranks) != 8 or re.search("[1-8]{2}|[^1-8PNBRQKpnbrqk]", text):
            raise ValueError(f"expected 8 ranks of 8 squares in the position part of a FEN: {fen!r}")
        men.update({8 * rank + file: MEN[ord(letter)] for file, letter in enumerate(squares) if letter != "."})
    if len(ranks) != 8:
        raise ValueError(f"expected 8 ranks in the position part of a FEN: {fen!r}")
    return men


def field_of(men: Mapping[Square, Piece]) -> str:
    """The first field of a FEN with these pieces."""
    ranks = ("".join(men[8 * rank + file].symbol() if 8 * rank + file in men else "1" for file in range(8)) for rank in range(7, -1, -1))
    return re.sub("1+", lambda empty: str(len(empty[0])), "/".join(ranks))


def word_of(letters: bytes, kind: Optional[PieceType], color: Optional[Color]) -> Bitboard:
    """The squares of the pieces of a kind and a colour, or of any for None. `letters` has the letter of each square, a1 first."""
    return int(letters[::-1].translate(_DIGITS[kind, color]), 2)
