"""What a call may raise. After an exception the board is as it was."""
from __future__ import annotations


class Error(Exception):
    """Each error of this package is one of these. Want of memory is Python's `MemoryError`, and a move taken back where none was made its `IndexError`."""


class EmptyBoardError(Error):
    """There is no board: its memory was given back, or it was never begun (`Board.__new__` without `__init__`)."""


class InvalidFenError(Error, ValueError):
    """The text is no FEN, or no position that may be on a board; `fault` is the number of the first fault, 1 to 10."""

    def __init__(self, text: str, fault: int, why: str) -> None:
        super().__init__(text, fault, why)
        self.fault = fault

    def __str__(self) -> str:
        text, _, why = self.args
        return f"no FEN: {why}: {text!r}"


class InvalidMoveError(Error, ValueError):
    """The text has none of the forms of a move."""


class IllegalMoveError(Error, ValueError):
    """The move isn't legal, or the text names no legal move."""


class AmbiguousMoveError(Error, ValueError):
    """The text names more than one legal move."""


class LimitError(Error, ValueError):
    """The line has 20,000 plies, the game holds 1,000,000 moves, or its text is longer than 1,048,576 bytes."""


class InvalidGameError(Error, ValueError):
    """No game is there: `place` is that of the first fault in bytes from the beginning of the input, `fault` its number, 1 to 9."""

    def __init__(self, place: int, fault: int, why: str) -> None:
        super().__init__(place, fault, why)
        self.place = place
        self.fault = fault

    def __str__(self) -> str:
        place, _, why = self.args
        return f"no game: at byte {place}, {why}"
