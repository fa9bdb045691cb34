"""Sets of squares."""
from __future__ import annotations

from typing import Iterable, Iterator, List, MutableSet, Union

from ._checks import square_of, whole

ALL = 0xFFFFFFFFFFFFFFFF

# What a set of squares is made of: a word of 64 bits, or the squares' numbers.
Squares = Union[int, Iterable[int]]


def _mask(squares: Squares) -> int:
    """The word of squares."""
    return SquareSet(squares).mask


class SquareSet(MutableSet[int]):
    """A set of squares, in ascending order; a set of numbers of 0 to 63, and a word of 64 bits in which the bit of each of its squares is 1, the lowest for a1.
    It goes together with both: with sets of numbers, and with words.

    >>> corners = SquareSet([jatshegi.A1, jatshegi.H1, jatshegi.A8, jatshegi.H8])
    >>> corners, len(corners), jatshegi.A1 in corners, list(corners & SquareSet(0xFF))
    (SquareSet(0x8100_0000_0000_0081), 4, True, [0, 7])
    >>> corners & 0xFF, corners >> 56 == 0x81, corners == {0, 7, 56, 63}
    (SquareSet(0x81), True, True)
    """

    __slots__ = ("mask",)

    def __init__(self, squares: Squares = 0) -> None:
        """The set of these squares, or of the squares whose bits are 1. Raises `ValueError` for what is no square's, or no word's."""
        self.mask: int = 0
        if isinstance(squares, int):
            self.mask = whole(squares, "a set of squares is a word of 64 bits", 0, ALL)
        elif isinstance(squares, SquareSet):
            self.mask = squares.mask
        elif isinstance(squares, Iterable):
            for square in squares:
                self.add(square)
        else:
            raise TypeError(f"a set of squares is of their numbers, or a word of 64 bits: {squares!r}")

    @classmethod
    def from_square(cls, square: int) -> "SquareSet":
        """The set of that square alone."""
        return cls([square])

    def __contains__(self, square: object) -> bool:
        return isinstance(square, int) and 0 <= square < 64 and bool(self.mask >> square & 1)

    def __iter__(self) -> Iterator[int]:
        mask = self.mask
        while mask:
            lowest = mask & -mask
            yield lowest.bit_length() - 1
            mask ^= lowest

    def __reversed__(self) -> Iterator[int]:
        return reversed(list(self))

    def __len__(self) -> int:
        return bin(self.mask).count("1")

    def __bool__(self) -> bool:
        return bool(self.mask)

    def __int__(self) -> int:
        return self.mask

    __index__ = __int__

    def add(self, square: int) -> None:
        """Adds the square. Raises `ValueError` for a number that is no square's."""
        self.mask |= 1 << square_of(square)

    def discard(self, square: int) -> None:
        """Takes the square out, if it is there. Raises `ValueError` for a number that is no square's."""
        self.mask &= ~(1 << square_of(square))

    def clear(self) -> None:
        """Takes all squares out."""
        self.mask = 0

    def copy(self) -> "SquareSet":
        """Another set of the same squares."""
        return SquareSet(self.mask)

    def __invert__(self) -> "SquareSet":
        return SquareSet(ALL ^ self.mask)

    def mirror(self) -> "SquareSet":
        """The squares as the other player sees them: the ranks turned round."""
        return SquareSet(int.from_bytes(self.mask.to_bytes(8, "little"), "big"))

    def union(self, *others: Squares) -> "SquareSet":
        """The squares of any of them."""
        found = self.copy()
        found.update(*others)
        return found

    def intersection(self, *others: Squares) -> "SquareSet":
        """The squares of all of them."""
        found = self.copy()
        found.intersection_update(*others)
        return found

    def difference(self, *others: Squares) -> "SquareSet":
        """The squares of this one that are in no other."""
        found = self.copy()
        found.difference_update(*others)
        return found

    def symmetric_difference(self, other: Squares) -> "SquareSet":
        """The squares that are in one of the two sets only."""
        return SquareSet(self.mask ^ _mask(other))

    def update(self, *others: Squares) -> None:
        """Adds the squares of the others."""
        for other in others:
            self.mask |= _mask(other)

    def intersection_update(self, *others: Squares) -> None:
        """Keeps the squares that are in all others."""
        for other in others:
            self.mask &= _mask(other)

    def difference_update(self, *others: Squares) -> None:
        """Takes the squares of the others out."""
        for other in others:
            self.mask &= ~_mask(other)

    def symmetric_difference_update(self, other: Squares) -> None:
        """Keeps the squares that are in one of the two sets only."""
        self.mask ^= _mask(other)

    def isdisjoint(self, other: Squares) -> bool:
        """Whether no square is in both."""
        return not self.mask & _mask(other)

    def issubset(self, other: Squares) -> bool:
        """Whether each square is one of the other's."""
        return not self.mask & ~_mask(other)

    def issuperset(self, other: Squares) -> bool:
        """Whether each of the other's squares is one of these."""
        return SquareSet(other).issubset(self)

    def tolist(self) -> List[bool]:
        """For each of the 64 squares, whether it is in the set."""
        return [square in self for square in range(64)]

    def __or__(self, other: Squares) -> "SquareSet":  # type: ignore[override]  # (a set of squares takes only squares)
        return self.union(other) if isinstance(other, (int, Iterable)) else NotImplemented

    def __and__(self, other: Squares) -> "SquareSet":
        return self.intersection(other) if isinstance(other, (int, Iterable)) else NotImplemented

    def __xor__(self, other: Squares) -> "SquareSet":  # type: ignore[override]  # (a set of squares takes only squares)
        return self.symmetric_difference(other) if isinstance(other, (int, Iterable)) else NotImplemented

    def __sub__(self, other: Squares) -> "SquareSet":
        return self.difference(other) if isinstance(other, (int, Iterable)) else NotImplemented

    def __rsub__(self, other: Squares) -> "SquareSet":
        return SquareSet(other) - self if isinstance(other, (int, Iterable)) else NotImplemented

    __ror__, __rand__, __rxor__ = __or__, __and__, __xor__

    def __ior__(self, other: Squares) -> "SquareSet":  # type: ignore[override]  # (a set of squares takes only squares)
        self.update(other)
        return self

    def __iand__(self, other: Squares) -> "SquareSet":
        self.intersection_update(other)
        return self

    def __ixor__(self, other: Squares) -> "SquareSet":  # type: ignore[override]  # (a set of squares takes only squares)
        self.symmetric_difference_update(other)
        return self

    def __isub__(self, other: Squares) -> "SquareSet":
        self.difference_update(other)
        return self

    def __lshift__(self, shift: int) -> "SquareSet":
        return SquareSet(self.mask << shift & ALL)

    def __rshift__(self, shift: int) -> "SquareSet":
        return SquareSet(self.mask >> shift)

    def __eq__(self, other: object) -> bool:
        return self.mask == int(other) if isinstance(other, (int, SquareSet)) else super().__eq__(other)

    __hash__ = None  # type: ignore[assignment]  # (it can be changed)

    def __repr__(self) -> str:
        return f"SquareSet(0x{self.mask:_x})" if self.mask < 1 << 16 else f"SquareSet(0x{self.mask:016_x})"

    def __str__(self) -> str:
        """The board as White sees it, a 1 for each square of the set.

        >>> print(SquareSet([jatshegi.A8, jatshegi.B8]))
        1 1 . . . . . .
        . . . . . . . .
        . . . . . . . .
        . . . . . . . .
        . . . . . . . .
        . . . . . . . .
        . . . . . . . .
        . . . . . . . .
        """
        return "\n".join(" ".join("1" if 8 * rank + file in self else "." for file in range(8)) for rank in range(7, -1, -1))

    def _repr_svg_(self) -> str:
        """A picture, which a notebook shows."""
        from . import svg

        return svg.board(squares=self, size=390)
