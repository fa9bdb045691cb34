"""Chances to win, to draw and to lose, under the names of python-chess."""
from __future__ import annotations

import math
from typing import TYPE_CHECKING, Iterator, List, NamedTuple, NoReturn, Optional

from ._moves import WHITE

if TYPE_CHECKING:
    from ._scores import Score

__all__ = ["PovWdl", "Wdl", "wdl_of", "wdl_said"]


class Wdl(NamedTuple):
    """How many games of a number a side is expected to win, to draw and to lose, mostly of 1000.

    >>> chances = jatshegi.engine.Wdl(500, 300, 200)
    >>> chances.expectation(), -chances
    (0.65, Wdl(wins=200, draws=300, losses=500))
    """

    wins: int
    draws: int
    losses: int

    def total(self) -> int:
        """The number of games."""
        return self.wins + self.draws + self.losses

    def winning_chance(self) -> float:
        """The share of games won."""
        return self.wins / self.total()

    def drawing_chance(self) -> float:
        """The share of games drawn."""
        return self.draws / self.total()

    def losing_chance(self) -> float:
        """The share of games lost."""
        return self.losses / self.total()

    def expectation(self) -> float:
        """The points of a game that are expected."""
        return (2 * self.wins + self.draws) / (2 * self.total())

    def __bool__(self) -> bool:
        return bool(self.total())

    def __neg__(self) -> Wdl:
        return Wdl(self.losses, self.draws, self.wins)


class PovWdl:
    """Chances with the side whose they are. Iteration gives the three numbers for that side."""

    __slots__ = ("relative", "turn")

    def __init__(self, relative: Wdl, turn: bool) -> None:
        self.relative, self.turn = relative, turn

    def white(self) -> Wdl:
        """The same for White."""
        return self.pov(WHITE)

    def black(self) -> Wdl:
        """The same for Black."""
        return self.pov(not WHITE)

    def pov(self, color: bool) -> Wdl:
        """The same for a side."""
        return self.relative if self.turn == color else -self.relative

    def __bool__(self) -> bool:
        return bool(self.relative)

    def __iter__(self) -> Iterator[int]:
        return iter(self.relative)

    def __getitem__(self, place: int) -> int:
        return self.relative[place]

    def __len__(self) -> int:
        return 3

    def __eq__(self, other: object) -> bool:
        if not isinstance(other, PovWdl):
            return NotImplemented
        return self.white() == other.white()

    def __hash__(self) -> int:
        return hash(self.white())

    def __repr__(self) -> str:
        return f"PovWdl({self.relative!r}, {'WHITE' if self.turn else 'BLACK'})"


def _refuse(model: str) -> NoReturn:
    raise NotImplementedError(f"chances of a score are by the model 'lichess', and an engine with the option UCI_ShowWDL says its own in info['wdl']: there is no model {model!r}")


def wdl_of(score: Score, model: str) -> Wdl:
    """The chances of a score by the model 'lichess': of centipawns up to 1000, of a mate as of 1100 to 2000."""
    if model != "lichess":
        _refuse(model)
    moves = score.mate()
    if moves is None:
        cp = max(min(score.score() or 0, 1000), -1000)
    elif moves == 0:
        # (a side has mated, or is mated)
        return Wdl(1000, 0, 0) if score > -score else Wdl(0, 0, 1000)
    else:
        cp = (21 - min(abs(moves), 10)) * (100 if moves > 0 else -100)
    wins = round(1000 / (1 + math.exp(-0.00368208 * abs(cp))))
    return Wdl(wins, 0, 1000 - wins) if cp >= 0 else Wdl(1000 - wins, 0, wins)


def wdl_said(words: List[str]) -> Optional[Wdl]:
    """The chances that the words after `wdl` in a line `info` state. Returns None if the words aren't three numbers."""
    try:
        wins, draws, losses = map(int, words)
    except ValueError:
        return None
    return Wdl(wins, draws, losses)
