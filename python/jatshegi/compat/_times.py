"""The times that players have, as the tag TimeControl says them."""
from __future__ import annotations

import enum
from typing import List, NamedTuple

__all__ = ["TimeControl", "TimeControlPart", "TimeControlType", "parse_time_control"]


class TimeControlType(enum.Enum):
    """Kinds of games by their times."""

    UNKNOWN = 0
    UNLIMITED = 1
    STANDARD = 2
    RAPID = 3
    BLITZ = 4
    BULLET = 5


class TimeControlPart(NamedTuple):
    """A part of a game: its moves, 0 for all, its seconds, and the seconds that each move adds or waits."""

    moves: int = 0
    time: int = 0
    increment: float = 0
    delay: float = 0


class TimeControl(NamedTuple):
    """The parts of a game one after another, and its kind."""

    parts: List[TimeControlPart]
    type: TimeControlType = TimeControlType.UNKNOWN


def _part(text: str) -> TimeControlPart:
    """A part, as '40/7200', '180+2' or '300+3d'."""
    base, _, more = text.partition("+")
    moves, slash, seconds = base.partition("/")
    bonus = float(more.rstrip("dD") or 0) if more else 0
    waits = more.lower().endswith("d")
    return TimeControlPart(int(moves) if slash else 0, int(seconds if slash else moves), 0 if waits else bonus, bonus if waits else 0)


def parse_time_control(time_control: str) -> TimeControl:
    """The times of a text, as '40/7200:3600+30'. Raises `ValueError`."""
    if not time_control or time_control.startswith("?"):
        return TimeControl([])
    if time_control.startswith("-"):
        return TimeControl([], TimeControlType.UNLIMITED)
    parts = [_part(text) for text in time_control.split(":")]
    if not all(part.moves for part in parts[:-1]):
        raise ValueError(f"all parts but the last have a number of moves: {time_control!r}")
    minutes = (parts[0].time + 60 * parts[0].increment) / 60
    for most, kind in ((3, TimeControlType.BULLET), (15, TimeControlType.BLITZ), (60, TimeControlType.RAPID)):
        if minutes < most:
            return TimeControl(parts, kind)
    return TimeControl(parts, TimeControlType.STANDARD)
