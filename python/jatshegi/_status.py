"""A game's status, and how it ended."""
from __future__ import annotations

import enum
from typing import Dict, NamedTuple, Optional

from . import _made as c


class Status(enum.IntEnum):
    """A game's status: the first of these that holds (FIDE Laws 5.1.1, 5.2.1, 5.2.2, 9.6)."""

    CHECKMATE = c.MATE
    STALEMATE = c.STALEMATE
    DEAD_POSITION = c.DEAD
    FIVEFOLD_REPETITION = c.FIVEFOLD
    SEVENTYFIVE_MOVES = c.SEVENTYFIVE
    PLAY = c.PLAY


class Termination(enum.Enum):
    """How a game ended, by the names and the numbers of python-chess; the last two are claimed draws (FIDE Laws 9.2, 9.3)."""

    CHECKMATE = 1
    STALEMATE = 2
    INSUFFICIENT_MATERIAL = 3
    SEVENTYFIVE_MOVES = 4
    FIVEFOLD_REPETITION = 5
    FIFTY_MOVES = 6
    THREEFOLD_REPETITION = 7


#: The end of each status but `Status.PLAY`.
TERMINATIONS: Dict[Status, Termination] = {it: Termination["INSUFFICIENT_MATERIAL" if it is Status.DEAD_POSITION else it.name] for it in Status if it is not Status.PLAY}


class Outcome(NamedTuple):
    """How a game ended, and who won: WHITE, BLACK, or None for a draw."""

    termination: Termination
    winner: Optional[bool]

    def result(self) -> str:
        """'1-0', '0-1' or '1/2-1/2'.

        >>> Outcome(Termination.STALEMATE, None).result()
        '1/2-1/2'
        """
        return "1/2-1/2" if self.winner is None else "1-0" if self.winner else "0-1"
