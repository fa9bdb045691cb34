"""Searches that an exception leaves, as Ctrl-C does: they run in a thread of their own, and a flag that the library looks at has them abandoned."""
from __future__ import annotations

import threading
from ctypes import byref
from typing import Any, Callable, List, Optional, Protocol

from . import _library as c
from ._errors import EmptyBoardError, Error

# As many positions as a search likes; and as many as take some milliseconds, for which no thread is begun.
ANY_NUMBER, _AT_ONCE = (1 << 64) - 1, 10_000
_NO_FLAG = byref(c.Stop())


class Lent(Protocol):
    """What is searched. While another thread searches in this one's name no call of this thread's is taken, as one of a signal's handler."""

    def _lend(self, is_lent: bool) -> None: ...


class Flag:
    """A flag that is set in this thread, by one handle, and looked at in another thread, by the other. The block ends once the other thread has."""

    def __enter__(self) -> Flag:
        self._mine, self._theirs = c.Stop(), c.Stop()
        self.mine, self.theirs = byref(self._mine), byref(self._theirs)
        if c.lib.jatshegi_stop_new(self.mine) or c.lib.jatshegi_stop_share(self.mine, self.theirs):
            self.__exit__()
            raise MemoryError("no memory for a flag")
        return self

    def set(self) -> None:
        if c.lib.jatshegi_stop_set(self.mine, True):
            raise EmptyBoardError("there is no flag")

    def __exit__(self, *_: object) -> None:
        c.lib.jatshegi_stop_free(self.theirs)
        c.lib.jatshegi_stop_free(self.mine)


class _Worker(threading.Thread):
    """A thread whose work is waited for whatever comes; what it raises is raised there. `join` isn't used: where Ctrl-C ends it, Python may take a thread that runs
    for one that has ended."""

    def __init__(self, work: Callable[[], None]) -> None:
        super().__init__(daemon=True)
        self._work, self.ended = work, threading.Event()
        self._begun = self._cancelled = False
        self._raised: Optional[BaseException] = None

    def run(self) -> None:
        self._begun = True
        try:
            if not self._cancelled:
                self._work()
        except BaseException as raised:
            self._raised = raised
        finally:
            self.ended.set()

    def end(self, flag: Flag) -> None:
        """Sets the flag, and waits for the end, also where an exception comes meanwhile, as by Ctrl-C: that is raised then, else what the work raised."""
        came: Optional[BaseException] = None
        is_set, self._cancelled = False, True
        while self._begun and not self.ended.is_set():
            try:
                if not is_set:
                    flag.set()
                    is_set = True
                self.ended.wait()
            except Error as it:
                # Nothing ends the work but its own end.
                came, is_set = it, True
            except BaseException as it:
                came = it
        raised = came or self._raised
        if raised is not None:
            raise raised


def run(of: Lent, work: Callable[[], None], flag: Flag, time: Optional[float] = None) -> None:
    """Does the work in another thread, in the name of this one, which has the lock. The flag is set after that time, or where an exception comes."""
    worker = _Worker(work)
    of._lend(True)
    try:
        try:
            worker.start()
            worker.ended.wait(time)
        finally:
            worker.end(flag)
    finally:
        of._lend(False)


def stoppable(of: Lent, search: Callable[[int, Any], int]) -> int:
    """The status of a search, which is given a number of positions and a flag. It is begun anew in another thread where it isn't a short one."""
    status = search(_AT_ONCE, _NO_FLAG)
    if status != c.ABANDONED:
        return status
    found: List[int] = []
    with Flag() as flag:
        run(of, lambda: found.append(search(ANY_NUMBER, flag.theirs)), flag)
    return found[0]


class LentLock:
    """The lock of a board or of a session while it is lent: other threads wait, and this one is refused."""

    def __init__(self, lock: Any) -> None:
        self.lock, self._owner = lock, threading.get_ident()

    def acquire(self, blocking: bool = True) -> bool:
        if threading.get_ident() == self._owner:
            raise Error("a search is on in this thread, as where a signal's handler comes to the board")
        return bool(self.lock.acquire(blocking))

    def release(self) -> None:
        self.lock.release()

    def __enter__(self) -> None:
        self.acquire()

    def __exit__(self, *_: object) -> None:
        self.lock.release()
