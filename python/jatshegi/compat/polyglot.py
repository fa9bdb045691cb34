"""Opening books, by the names of python-chess's module `polyglot`. The library finds a position's entries and their moves."""
from __future__ import annotations

import os
import random as _random
import struct
from ctypes import byref, c_size_t
from typing import Container, Iterator, NamedTuple, Optional, Type, TypeVar, Union

from .. import _library as c
from .. import polyglot as _polyglot
from .._checks import whole
from ._boards import Board
from ._names import OURS, Move

__all__ = ["Entry", "MemoryMappedReader", "open_reader", "zobrist_hash"]

_Of = TypeVar("_Of", bound="MemoryMappedReader")


class Entry(NamedTuple):
    """An entry of a book."""

    key: int
    raw_move: int
    weight: int
    learn: int
    move: Move


def zobrist_hash(board: Board) -> int:
    """The position's key."""
    return board._game.polyglot_key()


def _plain(book: _polyglot.Reader, place: int) -> Entry:
    """An entry as the file has it, whose move is one from square to square, of no position."""
    key, raw, weight, learn = struct.unpack_from(">QHHI", book._bytes, 16 * place)
    became = raw >> 12 & 7
    return Entry(key, raw, weight, learn, Move(raw >> 6 & 63, raw & 63, became + 1 if became else None))


def _between(random: Optional[_random.Random], least: int, most: int) -> int:
    return (random or _random).randint(least, most)


class MemoryMappedReader:
    """A book, which is mapped and not read whole."""

    def __init__(self, filename: Union[str, "os.PathLike[str]"]) -> None:
        self._book = _polyglot.Reader(filename)

    def __enter__(self: _Of) -> _Of:
        return self

    def __exit__(self, kind: Optional[Type[BaseException]], error: Optional[BaseException], trace: object) -> None:
        self.close()

    def close(self) -> None:
        """Gives the file back."""
        self._book.close()

    def __len__(self) -> int:
        return len(self._book)

    def __getitem__(self, index: int) -> Entry:
        place = index + len(self) if index < 0 else index
        if not 0 <= place < len(self):
            raise IndexError(f"the book has {len(self)} entries: {index}")
        return _plain(self._book, place)

    def __iter__(self) -> Iterator[Entry]:
        return map(self.__getitem__, range(len(self)))

    def bisect_key_left(self, key: int) -> int:
        """The number of the first entry whose key is at least that key."""
        low, high = 0, len(self)
        while low < high:
            middle = (low + high) // 2
            low, high = (middle + 1, high) if self[middle].key < key else (low, middle)
        return low

    def find_all(self, board: Union[Board, int], *, minimum_weight: int = 1, exclude_moves: Container[Move] = ()) -> Iterator[Entry]:
        """The entries of a position, of at least that weight, without those of some moves.

        If you ask by a board, only entries with legal moves come. If you ask by a key, a number of 64 bits, every entry comes as the file has it, and castling is
        the king's move to its rook. Raises `ValueError` for a number out of range."""
        book, first, count = self._book, c_size_t(), c_size_t()
        key = whole(board, "a key is a number of 64 bits", 0, (1 << 64) - 1) if isinstance(board, int) else zobrist_hash(board)
        c.lib.jatshegi_book_find(book._bytes, book._size, key, byref(first), byref(count))
        entries = []
        for place in range(first.value, first.value + count.value):
            entry = _plain(book, place)
            if not isinstance(board, int):
                found = board._game._booked(book._bytes, book._size, place)
                if found is None:
                    continue
                entry = entry._replace(move=OURS[found[0]])
            if entry.weight >= minimum_weight and entry.move not in exclude_moves:
                entries.append(entry)
        yield from entries

    def get(self, board: Union[Board, int], default: Optional[Entry] = None, *, minimum_weight: int = 1, exclude_moves: Container[Move] = ()) -> Optional[Entry]:
        """The entry of the greatest weight, or the default."""
        return max(self.find_all(board, minimum_weight=minimum_weight, exclude_moves=exclude_moves), key=lambda entry: entry.weight, default=default)

    def find(self, board: Union[Board, int], *, minimum_weight: int = 1, exclude_moves: Container[Move] = ()) -> Entry:
        """The entry of the greatest weight. Raises `IndexError` if there is none."""
        entry = self.get(board, minimum_weight=minimum_weight, exclude_moves=exclude_moves)
        if entry is None:
            raise IndexError("the book has no move for this position")
        return entry

    def choice(self, board: Union[Board, int], *, minimum_weight: int = 1, exclude_moves: Container[Move] = (), random: Optional[_random.Random] = None) -> Entry:
        """One of the entries, each as likely. Raises `IndexError` if there is none."""
        chosen = None
        for place, entry in enumerate(self.find_all(board, minimum_weight=minimum_weight, exclude_moves=exclude_moves)):
            if chosen is None or _between(random, 0, place) == place:
                chosen = entry
        if chosen is None:
            raise IndexError("the book has no move for this position")
        return chosen

    def weighted_choice(self, board: Union[Board, int], *, exclude_moves: Container[Move] = (), random: Optional[_random.Random] = None) -> Entry:
        """One of the entries, each as likely as its weight says. Raises `IndexError` if there is none."""
        entries = list(self.find_all(board, exclude_moves=exclude_moves))
        if not entries:
            raise IndexError("the book has no move for this position")
        left = _between(random, 0, sum(entry.weight for entry in entries) - 1)
        for entry in entries:
            left -= entry.weight
            if left < 0:
                break
        return entry


def open_reader(path: Union[str, "os.PathLike[str]"]) -> MemoryMappedReader:
    """The book in a file. Raises `OSError` if there is none."""
    return MemoryMappedReader(path)
