"""What words a call takes: another one is a `TypeError` or a `ValueError` that names what was expected."""
from __future__ import annotations

from operator import index
from typing import Optional, SupportsIndex, Tuple, Union


def whole(number: SupportsIndex, what: str, least: int, most: Optional[int] = None) -> int:
    """The whole number, of that range."""
    try:
        found = index(number)
    except TypeError:
        raise TypeError(f"{what}: {number!r}") from None
    if found < least or most is not None and found > most:
        raise ValueError(f"{what}: {number!r}")
    return found


def square_of(square: SupportsIndex) -> int:
    """The number of a square."""
    return whole(square, "a square is a number of 0 to 63", 0, 63)


def colour_of(color: object) -> bool:
    """The colour, which 1 and 0 are, too."""
    if not isinstance(color, int):
        raise TypeError(f"a colour is WHITE (True) or BLACK (False): {color!r}")
    if color not in (True, False):
        raise ValueError(f"a colour is WHITE (True) or BLACK (False): {color!r}")
    return bool(color)


def depth_of(depth: SupportsIndex) -> int:
    """The depth of a search."""
    return whole(depth, "a depth is 1 to 16 plies", 1, 16)


def text_of(text: object, what: str) -> str:
    """The text, which is what is said."""
    if not isinstance(text, str):
        raise TypeError(f"{what}: {text!r}")
    return text


def one_of(it: object, kind: Union[type, Tuple[type, ...]], what: str) -> None:
    """Passes an object of that class."""
    if not isinstance(it, kind):
        raise TypeError(f"{what}: {it!r}")
