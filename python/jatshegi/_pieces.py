"""Men."""
from __future__ import annotations

from typing import Dict, Type, TypeVar

from ._checks import colour_of, text_of, whole
from ._moves import BISHOP, KING, KNIGHT, PAWN, QUEEN, ROOK

_SYMBOLS = {PAWN: "P", KNIGHT: "N", BISHOP: "B", ROOK: "R", QUEEN: "Q", KING: "K"}
_KINDS = {symbol: kind for kind, symbol in _SYMBOLS.items()}
_GLYPHS = dict(zip("KQRBNPkqrbnp", "♔♕♖♗♘♙♚♛♜♝♞♟"))

_Of = TypeVar("_Of", bound="Piece")


class Piece(str):
    """A man: his letter, as FEN writes it, 'K' for White's king and 'p' for a pawn of Black's (PGN 16.1.3.1), which is what he equals.

    >>> Piece(KNIGHT, False), Piece.from_symbol("n").piece_type == KNIGHT, Piece(KING, True) == "K"
    (Piece.from_symbol('n'), True, True)
    """

    __slots__ = ()

    def __new__(cls: Type[_Of], piece_type: int, color: bool) -> _Of:
        """The man of that kind and colour. Raises `ValueError` for a number that is no kind's."""
        symbol = _SYMBOLS[whole(piece_type, "a kind is PAWN (1) to KING (6)", PAWN, KING)]
        return super().__new__(cls, symbol if colour_of(color) else symbol.lower())

    @classmethod
    def from_symbol(cls, symbol: str) -> Piece:
        """The man of a letter. Raises `ValueError` for another text."""
        text_of(symbol, "a man's letter is a text, one of PNBRQK, small for Black")
        if symbol.upper() not in _KINDS or len(symbol) != 1:
            raise ValueError(f"a man's letter is one of PNBRQK, small for Black: {symbol!r}")
        return cls(_KINDS[symbol.upper()], symbol.isupper())

    def __getnewargs__(self) -> tuple[int, bool]:  # type: ignore[override]  # (`__new__` takes a kind and a colour, not the text)
        return self.piece_type, self.color

    @property
    def piece_type(self) -> int:
        """PAWN, KNIGHT, BISHOP, ROOK, QUEEN or KING."""
        return _KINDS[self.upper()]

    @property
    def color(self) -> bool:
        """WHITE or BLACK."""
        return self.isupper()

    def symbol(self) -> str:
        """His letter."""
        return str.__str__(self)

    def unicode_symbol(self) -> str:
        """His figure.

        >>> Piece(QUEEN, True).unicode_symbol()
        '♕'
        """
        return _GLYPHS[self.symbol()]

    def __repr__(self) -> str:
        return f"Piece.from_symbol({self.symbol()!r})"


# Each man once.
MEN: Dict[str, Piece] = {letter: Piece.from_symbol(letter) for letter in _GLYPHS}

# And by the byte of his letter.
BY_LETTER: Dict[int, Piece] = {ord(letter): man for letter, man in MEN.items()}
