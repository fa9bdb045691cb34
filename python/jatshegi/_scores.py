"""What an engine says of a position: scores, lines and limits, under the names of python-chess."""
from __future__ import annotations

from enum import IntFlag
from functools import total_ordering
from typing import Dict, List, NamedTuple, Optional, Tuple, TypedDict, Union

from ._moves import WHITE, Move
from ._wdl import PovWdl, Wdl, wdl_of, wdl_said


@total_ordering
class Score:
    """A score for one side: `Cp`, `Mate` or `MateGiven`. The greater is the better.

    >>> Mate(-0) < Mate(-1) < Cp(-50) < Cp(200) < Mate(4) < Mate(1) < MateGiven
    True
    """

    __slots__ = ("_at",)

    def __init__(self, key: Tuple[int, int]) -> None:
        # What scores are compared by: mated, by centipawns, mating, has mated; and how far within that.
        self._at = key

    def score(self, *, mate_score: Optional[int] = None) -> Optional[int]:
        """The centipawns. Of a mate None, or `mate_score` less the moves to it."""
        kind, value = self._at
        if kind == 1:
            return value
        if mate_score is None:
            return None
        return value - mate_score if kind == 0 else mate_score + value

    def mate(self) -> Optional[int]:
        """In how many moves the side mates, below 0 in how many it is mated; None of centipawns."""
        kind, value = self._at
        return None if kind == 1 else -value

    def is_mate(self) -> bool:
        """Whether it is a mate."""
        return self._at[0] != 1

    def wdl(self, *, model: str = "sf", ply: int = 30) -> Wdl:
        """The chances of the score by the model 'lichess', which has no draws. Raises `NotImplementedError` for another model.

        >>> Cp(100).wdl(model="lichess")
        Wdl(wins=591, draws=0, losses=409)
        """
        return wdl_of(self, model)

    def __neg__(self) -> Score:
        kind, value = self._at
        if kind == 1:
            return Cp(-value)
        return MateGiven if (kind, value) == (0, 0) else Mate(0) if kind == 3 else Mate(value)

    def __eq__(self, other: object) -> bool:
        return isinstance(other, Score) and self._at == other._at

    def __lt__(self, other: Score) -> bool:
        if not isinstance(other, Score):
            return NotImplemented
        return self._at < other._at

    def __hash__(self) -> int:
        return hash(self._at)

    def __repr__(self) -> str:
        kind, value = self._at
        return f"Cp({value:+})" if kind == 1 else "MateGiven" if kind == 3 else f"Mate({-value:+})"

    def __str__(self) -> str:
        kind, value = self._at
        return f"{value:+}" if kind == 1 else f"#{-value:+}" if value else "#+0" if kind == 3 else "#-0"


class Cp(Score):
    """A score in centipawns."""

    __slots__ = ()

    def __init__(self, cp: int) -> None:
        super().__init__((1, cp))

    @property
    def cp(self) -> int:
        """The centipawns."""
        return self._at[1]


class Mate(Score):
    """A mate in this number of moves; if it is 0 or less, the side is mated."""

    __slots__ = ()

    def __init__(self, moves: int) -> None:
        super().__init__((2 if moves > 0 else 0, -moves))

    @property
    def moves(self) -> int:
        """The number of moves, below 0 if the side is mated."""
        return -self._at[1]


class MateGivenType(Mate):
    """The score of a side that has mated."""

    __slots__ = ()

    def __init__(self) -> None:
        Score.__init__(self, (3, 0))


#: The side has mated.
MateGiven = MateGivenType()


class PovScore(NamedTuple):
    """A score with the side whose it is. Two are equal if they are the same for White.

    >>> PovScore(Cp(20), jatshegi.BLACK), PovScore(Cp(20), jatshegi.BLACK).white()
    (PovScore(Cp(+20), BLACK), Cp(-20))
    """

    relative: Score
    turn: bool

    def white(self) -> Score:
        """The same for White."""
        return self.pov(WHITE)

    def black(self) -> Score:
        """The same for Black."""
        return self.pov(not WHITE)

    def pov(self, color: bool) -> Score:
        """The same for a side."""
        return self.relative if self.turn == color else -self.relative

    def is_mate(self) -> bool:
        """Whether it is a mate."""
        return self.relative.is_mate()

    def wdl(self, *, model: str = "sf", ply: int = 30) -> PovWdl:
        """The chances of the score, as `Score.wdl`."""
        return PovWdl(self.relative.wdl(model=model, ply=ply), self.turn)

    def __eq__(self, other: object) -> bool:
        if not isinstance(other, PovScore):
            return NotImplemented
        return self.white() == other.white()

    def __ne__(self, other: object) -> bool:
        return not self == other

    def __hash__(self) -> int:
        return hash(self.white())

    def __repr__(self) -> str:
        return f"PovScore({self.relative!r}, {'WHITE' if self.turn else 'BLACK'})"


class Info(IntFlag):
    """Kinds of information, by the names of python-chess. A search returns every kind."""

    NONE = 0
    BASIC = 1
    SCORE = 2
    PV = 4
    REFUTATION = 8
    CURRLINE = 16
    ALL = 31


class InfoDict(TypedDict, total=False):
    """What an engine has said of a search, as far as it has; times are in seconds."""

    score: PovScore
    pv: List[Move]
    depth: int
    seldepth: int
    time: float
    nodes: int
    nps: int
    tbhits: int
    hashfull: int
    multipv: int
    string: str
    lowerbound: bool
    upperbound: bool
    wdl: PovWdl
    currmove: Move
    currmovenumber: int
    cpuload: int


class PlayResult(NamedTuple):
    """The move that an engine plays, None where there is no legal move; the answer that it awaits, if it says one; and what it has said of the search."""

    move: Optional[Move]
    ponder: Optional[Move]
    info: InfoDict


#: Options that calls set themselves, in small letters.
MANAGED_OPTIONS = ["uci_chess960", "uci_variant", "multipv", "ponder"]


class Option(NamedTuple):
    """An option of an engine: its type is check, spin, combo, button or string."""

    name: str
    type: str
    default: Union[str, int, bool, None] = None
    min: Optional[int] = None
    max: Optional[int] = None
    var: Tuple[str, ...] = ()

    def is_managed(self) -> bool:
        """Whether calls set the option themselves."""
        return self.name.lower() in MANAGED_OPTIONS

    def text_of(self, value: Union[str, int, bool, None]) -> str:
        """The value as an engine reads it. Raises `ValueError` for another one than the option takes."""
        if self.type == "check" and isinstance(value, bool):
            return "true" if value else "false"
        if self.type == "spin" and isinstance(value, int) and not isinstance(value, bool):
            if (self.min is None or self.min <= value) and (self.max is None or value <= self.max):
                return str(value)
        if self.type == "combo" and value in self.var:
            return str(value)
        if self.type == "string" and isinstance(value, str) and "\n" not in value and "\r" not in value:
            return value or "<empty>"
        raise ValueError(f"{self!r} doesn't take {value!r}")


class Limit(NamedTuple):
    """When a search ends: after a time in seconds, at a depth in plies, after a number of positions, at a mate in a number of moves, or by the players' clocks
    in seconds."""

    time: Optional[float] = None
    depth: Optional[int] = None
    nodes: Optional[int] = None
    mate: Optional[int] = None
    white_clock: Optional[float] = None
    black_clock: Optional[float] = None
    white_inc: Optional[float] = None
    black_inc: Optional[float] = None
    remaining_moves: Optional[int] = None
    #: What names a clock for engines of another protocol; it changes nothing here.
    clock_id: object = None

    def words(self) -> List[str]:
        """The words of the line `go`. Raises `ValueError` where nothing ends the search, or for a number below 0."""
        if not any(it is not None for it in (self.time, self.depth, self.nodes, self.mate, self.white_clock, self.black_clock)):
            raise ValueError("a search has a limit, as Limit(time=1)")
        words = []
        for name, seconds in (("movetime", self.time), ("wtime", self.white_clock), ("btime", self.black_clock), ("winc", self.white_inc), ("binc", self.black_inc)):
            if seconds is not None:
                if not 0 <= seconds < 1e12:
                    raise ValueError(f"a time is a number of seconds, not below 0: {seconds!r}")
                words += [name, str(max(round(1000 * seconds), 1))]
        for name, number in (("movestogo", self.remaining_moves), ("depth", self.depth), ("nodes", self.nodes), ("mate", self.mate)):
            if number is not None:
                if isinstance(number, bool) or not isinstance(number, int) or number < 0:
                    raise ValueError(f"a limit is a whole number, not below 0: {number!r}")
                words += [name, str(number)]
        return words


def _number(words: List[str]) -> Optional[int]:
    try:
        return int(words[0])
    except (IndexError, ValueError):
        return None


_COUNTS = ("depth", "seldepth", "nodes", "nps", "tbhits", "hashfull", "multipv", "currmovenumber", "cpuload")
# What begins another part of a line `info`.
_PARTS = {*_COUNTS, "time", "score", "currmove", "refutation", "currline", "string", "pv", "wdl"}


def parts_of(words: List[str]) -> Dict[str, List[str]]:
    """The parts of a line `info`, by their names; what is none is passed over."""
    parts: Dict[str, List[str]] = {}
    part: List[str] = []
    for place, word in enumerate(words):
        if word == "string":
            parts[word] = words[place + 1 :]
            break
        if word in _PARTS:
            part = parts[word] = []
        else:
            part.append(word)
    return parts


def info_of(parts: Dict[str, List[str]], turn: bool) -> InfoDict:
    """What these parts say, but for the line of moves; numbers that are none are passed over."""
    info: InfoDict = {}
    for name in _COUNTS:
        number = _number(parts.get(name, []))
        if number is not None:
            info[name] = number  # type: ignore[literal-required]  # (each name of `_COUNTS` is a key of `InfoDict`)
    milliseconds = _number(parts.get("time", []))
    if milliseconds is not None:
        info["time"] = milliseconds / 1000
    kind, *value = parts.get("score", [""])
    number = _number(value)
    if number is not None and kind in ("cp", "mate"):
        info["score"] = PovScore(Cp(number) if kind == "cp" else Mate(number), turn)
        if "lowerbound" in value:
            info["lowerbound"] = True
        if "upperbound" in value:
            info["upperbound"] = True
    chances = wdl_said(parts.get("wdl", []))
    if chances is not None:
        info["wdl"] = PovWdl(chances, turn)
    if "string" in parts:
        info["string"] = " ".join(parts["string"])
    return info


def option_of(words: List[str]) -> Optional[Option]:
    """The option of a line `option name .. type ..`; None where it says none."""
    parts: Dict[str, List[List[str]]] = {}
    part: List[str] = []
    for word in words:
        if word in ("name", "type", "default", "min", "max", "var") and (word != "name" or "name" not in parts):
            part = []
            parts.setdefault(word, []).append(part)
        else:
            part.append(word)
    texts = {name: [" ".join(it) for it in found] for name, found in parts.items()}
    if not texts.get("name", [""])[0] or "type" not in texts:
        return None
    kind, default = texts["type"][0], texts["default"][0] if "default" in texts else None
    shown: Union[str, int, bool, None] = default
    if kind == "check":
        shown = default == "true"
    elif kind == "spin" and default is not None:
        shown = _number([default])
    elif kind == "string" and default == "<empty>":
        shown = ""
    least, most = (_number(texts.get(name, [""])) for name in ("min", "max"))
    return Option(texts["name"][0], kind, shown, least, most, tuple(texts.get("var", ())))
