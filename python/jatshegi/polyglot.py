"""Opening books of Polyglot's, under the names of python-chess.

    >>> import jatshegi
    >>> with jatshegi.polyglot.open_reader("book.bin") as reader:  # doctest: +SKIP
    ...     for entry in reader.find_all(jatshegi.Board()):
    ...         print(entry.move, entry.weight)

A book is a file of 16 bytes an entry, in ascending order of the positions' keys. Which entries are a position's, and which legal move each stands for, are
answers of the library (`jatshegi_book_find`, `jatshegi_board_book_move`).
"""
from __future__ import annotations

import mmap
import os
import random as _random
from ctypes import byref, c_char, c_size_t, c_uint16, c_uint32
from types import TracebackType
from typing import Iterator, NamedTuple, Optional, Type, Union

from . import _library as c
from ._board import Board
from ._checks import one_of, whole
from ._moves import Move

__all__ = ["Entry", "Reader", "open_reader", "zobrist_hash"]


class Entry(NamedTuple):
    """What a book says of a position."""

    #: The position's key.
    key: int
    #: A legal move.
    move: Move
    #: How often to play it, beside the position's other moves.
    weight: int
    #: A number for a program's own use.
    learn: int


def zobrist_hash(board: Board) -> int:
    """The position's key, as `Board.polyglot_key`.

    >>> hex(zobrist_hash(Board()))
    '0x463b96181691fc9c'
    """
    one_of(board, Board, "a key is that of a Board")
    return board.polyglot_key()


class Reader:
    """A book, which is mapped and not read whole. Use it with `with`, or call `close`."""

    def __init__(self, filename: Union[str, "os.PathLike[str]"]) -> None:
        """Raises `OSError` where there is no such file."""
        one_of(filename, (str, os.PathLike), "a book has a path")
        with open(filename, "rb") as file:
            size = os.fstat(file.fileno()).st_size
            # (nothing can be mapped of an empty file; a private mapping may be passed to the library, which only reads it)
            self._map = mmap.mmap(file.fileno(), 0, access=mmap.ACCESS_COPY) if size else None
        self._size = size
        self._bytes = (c_char * size).from_buffer(self._map) if self._map else (c_char * 1)()

    def close(self) -> None:
        """Gives the file back. A book that was closed has no entry."""
        book, self._map, self._size, self._bytes = self._map, None, 0, (c_char * 1)()
        if book is not None:
            book.close()

    def __enter__(self) -> "Reader":
        return self

    def __exit__(self, kind: Optional[Type[BaseException]], error: Optional[BaseException], trace: Optional[TracebackType]) -> None:
        self.close()

    def __len__(self) -> int:
        """How many entries the book has."""
        return self._size // 16

    def find_all(self, board: Board, *, minimum_weight: int = 1) -> Iterator[Entry]:
        """The position's entries of at least that weight, in the order of the book; those that stand for no legal move are left out."""
        one_of(board, Board, "a book is asked for the position of a Board")
        whole(minimum_weight, "a weight is a whole number", -(1 << 63))
        key, first, count = board.polyglot_key(), c_size_t(), c_size_t()
        c.lib.jatshegi_book_find(self._bytes, self._size, key, byref(first), byref(count))
        found = [board._booked(self._bytes, self._size, place) for place in range(first.value, first.value + count.value)]
        return (Entry(key, *entry) for entry in found if entry is not None and entry[1] >= minimum_weight)

    def get(self, board: Board, default: Optional[Entry] = None, *, minimum_weight: int = 1) -> Optional[Entry]:
        """The entry of the greatest weight, the first of several; `default` where there is none."""
        return max(self.find_all(board, minimum_weight=minimum_weight), key=lambda entry: entry.weight, default=default)

    def find(self, board: Board, *, minimum_weight: int = 1) -> Entry:
        """The same. Raises `IndexError` where there is none."""
        entry = self.get(board, minimum_weight=minimum_weight)
        if entry is None:
            raise IndexError("the book has no move for this position")
        return entry

    def choice(self, board: Board, *, minimum_weight: int = 1, random: Optional[_random.Random] = None) -> Entry:
        """One of the entries, each as likely as the others. Raises `IndexError` where there is none."""
        entries = list(self.find_all(board, minimum_weight=minimum_weight))
        if not entries:
            raise IndexError("the book has no move for this position")
        return (random or _random).choice(entries)

    def weighted_choice(self, board: Board, *, random: Optional[_random.Random] = None) -> Entry:
        """One of the entries, each as likely as its weight says. Raises `IndexError` where there is none."""
        entries = list(self.find_all(board))
        if not entries:
            raise IndexError("the book has no move for this position")
        return (random or _random).choices(entries, weights=[entry.weight for entry in entries])[0]


def open_reader(path: Union[str, "os.PathLike[str]"]) -> Reader:
    """The book in a file. Raises `OSError` where there is none."""
    return Reader(path)
