"""A session of the engine, driven by events."""
from __future__ import annotations

import ctypes
import threading
from ctypes import byref, c_bool, c_char, c_size_t, c_uint64
from typing import Any, Callable, List, NoReturn, Optional

from . import _library as c
from ._checks import text_of, whole
from ._errors import EmptyBoardError, Error
from ._stops import LentLock, stoppable


class Engine:
    """A session of the universal chess interface (UCI) that the caller drives: by lines, by slices of a search, and by readings of a clock.

    >>> engine = Engine()
    >>> engine.line("position startpos moves f2f3 e7e5 g2g4"), engine.line("go depth 1")
    ([], [])
    >>> replies = []
    >>> while engine.is_searching():
    ...     replies += engine.slice()
    >>> replies[-1]
    'bestmove d8h4'

    What it replies to an event is proved; nothing happens between events, so `stop` is answered at once.
    """

    _slot: c.Slot
    _at: Any
    _lock: Any

    def __new__(cls) -> Engine:
        self = super().__new__(cls)
        self._slot = c.Slot()
        self._at = byref(self._slot)
        self._lock = threading.RLock()
        return self

    def __init__(self) -> None:
        """A session at its start. Raises `MemoryError`."""
        with self._lock:
            if c.lib.jatshegi_board_new(c.KEYS, self._at):
                raise MemoryError("no memory for an engine")

    def __del__(self) -> None:
        if c is not None and hasattr(self, "_at"):
            c.lib.jatshegi_board_free(self._at)

    def __reduce__(self) -> NoReturn:
        raise TypeError("a session of the engine has no copy: begin another one, and tell it the same lines")

    # Whether another thread is on the session in the name of this one, which has the lock.
    def _lend(self, is_lent: bool) -> None:
        self._lock = LentLock(self._lock) if is_lent else self._lock.lock

    # The replies that an event has.
    def _replies(self, event: Callable[..., int], *words: object) -> List[str]:
        room, count = (c_char * c.MOST_REPLIES)(), c_size_t()
        with self._lock:
            _answered(event(self._at, *words, room, c.MOST_REPLIES, byref(count)))
        return _lines(room, count)

    def line(self, line: str) -> List[str]:
        """The replies to a line, as 'go depth 5' or 'stop'."""
        text_of(line, "a line is a text")
        if "\n" in line or "\r" in line:
            raise ValueError("a line has no end of line in it")
        text = line.encode("utf-8", "surrogateescape")
        return self._replies(c.lib.jatshegi_engine_line, text, len(text))

    def slice(self) -> List[str]:
        """The replies once there was time to search one legal move more. An exception that a signal raises, as Ctrl-C does, leaves it, and the session is as before."""
        room, count, searched, visited = (c_char * c.MOST_REPLIES)(), c_size_t(), c_bool(), c_uint64()

        # (a slice that was abandoned has the status OK, and hasn't been made)
        def search(nodes: int, stop: Any) -> int:
            status = c.lib.jatshegi_engine_slice_within(self._at, nodes, stop, byref(searched), byref(visited), room, c.MOST_REPLIES, byref(count))
            return status or (c.OK if searched.value else c.ABANDONED)

        with self._lock:
            _answered(stoppable(self, search))
        return _lines(room, count)

    def moment(self, milliseconds: int) -> List[str]:
        """The replies once the clock reads this number of milliseconds, from any moment on: a search whose time is over ends."""
        moment = whole(milliseconds, "a moment is a number of milliseconds, 0 to 2^64 - 1", 0, (1 << 64) - 1)
        return self._replies(c.lib.jatshegi_engine_moment, moment)

    # One of the questions of the session.
    def _is(self, question: Callable[..., int]) -> bool:
        answer = c_bool()
        with self._lock:
            _answered(question(self._at, byref(answer)))
        return answer.value

    def is_searching(self) -> bool:
        """Whether a search runs, which wants slices."""
        return self._is(c.lib.jatshegi_engine_searching)

    def is_infinite(self) -> bool:
        """Whether that search is infinite: one that ends by 'stop' alone."""
        return self._is(c.lib.jatshegi_engine_infinite)

    def is_waiting(self) -> bool:
        """Whether that search has done all that it has to do and waits for 'stop', so that a slice does nothing."""
        return self._is(c.lib.jatshegi_engine_waiting)

    def has_ended(self) -> bool:
        """Whether 'quit' came, after which nothing is replied."""
        return self._is(c.lib.jatshegi_engine_ended)

    def time_left(self) -> Optional[int]:
        """How many milliseconds after the last moment the clock ends the search, 0 where it is to end now; None where no clock ends it, or none runs."""
        left = c_uint64()
        with self._lock:
            status = c.lib.jatshegi_engine_time_left(self._at, byref(left))
        if status == c.NONE:
            return None
        _answered(status)
        return left.value


def _lines(room: "ctypes.Array[c_char]", count: c_size_t) -> List[str]:
    """The replies in a room."""
    return room.raw[: count.value].decode("utf-8", "surrogateescape").split("\n")[:-1]


def _answered(status: int) -> None:
    """A status other than OK is an error."""
    if status == c.NO_MEMORY:
        raise MemoryError(c.SENTENCES[c.NO_MEMORY])
    if status == c.EMPTY:
        raise EmptyBoardError("there is no session: its memory was given back, or it was never begun")
    if status:
        raise Error(f"the engine answers with status {status}")
