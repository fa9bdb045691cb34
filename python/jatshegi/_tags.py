"""The tags of a board's game."""
from __future__ import annotations

from ctypes import c_size_t
from typing import TYPE_CHECKING, Callable, Iterator, MutableMapping

from . import _library as c

if TYPE_CHECKING:
    from ._board import Board

_REFUSALS = (c.TAG_NAME, c.TAG_OWN, c.TAG_VALUE)


class Tags(MutableMapping[str, str]):
    """The tags of a board's game by their names, as the board has them at each moment: they can be set and taken out (PGN 8.1).

    First come Event, Site, Date, Round, White and Black, which each game has: taken out, each says '?' again, or '????.??.??'. The others follow in ASCII order.
    Result, FEN and SetUp are none of them: `marker` and the board's start say them.

    >>> board = jatshegi.Board()
    >>> board.headers["White"] = "Réti"
    >>> board.headers["White"], board.headers["Date"], board.headers.get("ECO")
    ('Réti', '????.??.??', None)
    """

    __slots__ = ("_board",)

    def __init__(self, board: Board) -> None:
        self._board = board

    def _name(self, name: object) -> bytes:
        if not isinstance(name, str):
            raise KeyError(name)
        return name.encode("utf-8", "surrogatepass")

    def __getitem__(self, name: str) -> str:
        text = self._name(name)
        value = self._board._handed(c.lib.jatshegi_board_tag, name, text, len(text))
        if value is None:
            raise KeyError(name)
        return self._board._shown(value)

    def __setitem__(self, name: str, value: str) -> None:
        if not isinstance(name, str) or not isinstance(value, str):
            raise TypeError(f"a tag's name and its value are texts: {name!r}, {value!r}")
        text, data = name.encode("utf-8", "surrogatepass"), value.encode(self._board.encoding, "surrogateescape")
        self._change(name, c.lib.jatshegi_board_set_tag, text, len(text), data, len(data))

    def __delitem__(self, name: str) -> None:
        if name not in self:
            raise KeyError(name)
        text = self._name(name)
        self._change(name, c.lib.jatshegi_board_clear_tag, text, len(text))

    def clear(self) -> None:
        """Takes out all of them; the six that each game has then say that nothing is known.

        >>> board = jatshegi.Board.from_game(jatshegi.pgn.read_game('[White "a"][ECO "C20"] 1. e4 *'))
        >>> board.headers.clear()
        >>> board.headers["White"], len(board.headers)
        ('?', 6)
        """
        for name in list(self):
            del self[name]

    def _change(self, name: str, function: Callable[..., int], *words: object) -> None:
        status = self._board._status(function, *words)
        if status in _REFUSALS:
            raise ValueError(f"{c.SENTENCES[status]}: {name!r}")
        if status:
            raise self._board._fail(status, name)

    def __iter__(self) -> Iterator[str]:
        place = 0
        while True:
            name = self._board._handed(c.lib.jatshegi_board_tags, "tags", c_size_t(place))
            if name is None:
                return
            yield name.decode("ascii")
            place += 1

    def __len__(self) -> int:
        return sum(1 for _ in self)

    def __repr__(self) -> str:
        return f"Tags({dict(self)!r})"
