"""Engines that speak UCI, by the names of python-chess's module `engine`. The board says of each move that an engine answers whether it is legal."""
from __future__ import annotations

import asyncio
import logging
import os
import time
from functools import partial
from typing import Any, Dict, Iterable, Iterator, List, Mapping, NamedTuple, Optional, Sequence, Tuple, Type, Union, overload

from .. import engine as _engine
from .._scores import MANAGED_OPTIONS, MateGivenType, parts_of
from ..engine import (
    INFO_ALL,
    INFO_BASIC,
    INFO_CURRLINE,
    INFO_NONE,
    INFO_PV,
    INFO_REFUTATION,
    INFO_SCORE,
    Cp,
    EngineError,
    EngineTerminatedError,
    EngineTimeoutError,
    Info,
    InfoDict,
    Limit,
    Mate,
    MateGiven,
    Option,
    PovScore,
    PovWdl,
    Score,
    Wdl,
)
from ._boards import Board
from ._names import OURS, Color, Move

__all__ = [
    "INFO_ALL",
    "INFO_BASIC",
    "INFO_CURRLINE",
    "INFO_NONE",
    "INFO_PV",
    "INFO_REFUTATION",
    "INFO_SCORE",
    "AnalysisComplete",
    "AnalysisResult",
    "BestMove",
    "ConfigMapping",
    "Cp",
    "EngineError",
    "EngineProtocol",
    "EngineTerminatedError",
    "EventLoopPolicy",
    "Info",
    "InfoDict",
    "Limit",
    "LOGGER",
    "MANAGED_OPTIONS",
    "Mate",
    "MateGiven",
    "MateGivenType",
    "Opponent",
    "Option",
    "PlayResult",
    "PovScore",
    "PovWdl",
    "Score",
    "SimpleAnalysisResult",
    "SimpleEngine",
    "UciProtocol",
    "Wdl",
    "popen_uci",
    "popen_xboard",
]

LOGGER = logging.getLogger("chess.engine")

_Command = Union[str, List[str], Sequence[str]]
ConfigMapping = Mapping[str, Union[str, int, bool, None]]
_Options = ConfigMapping


class AnalysisComplete(Exception):
    """The analysis has ended, and has nothing more to say."""


class PlayResult:
    """The move that an engine plays, the answer that it awaits, and its information."""

    def __init__(self, move: Optional[Move], ponder: Optional[Move], info: Optional[InfoDict] = None, *, draw_offered: bool = False, resigned: bool = False) -> None:
        self.move, self.ponder = move, ponder
        self.info: InfoDict = info or {}
        self.draw_offered, self.resigned = draw_offered, resigned

    def __repr__(self) -> str:
        return f"<PlayResult at {id(self):#x} (move={self.move}, ponder={self.ponder}, info={self.info}, draw_offered={self.draw_offered}, resigned={self.resigned})>"


class Opponent(NamedTuple):
    """A player who plays against an engine."""

    name: Optional[str]
    title: Optional[str] = None
    rating: Optional[int] = None
    is_engine: Optional[bool] = None

    def text(self) -> str:
        """The value of the option UCI_Opponent."""
        kind = "none" if self.is_engine is None else "computer" if self.is_engine else "human"
        return f"{self.title or 'none'} {'none' if self.rating is None else self.rating} {kind} {self.name or ''}".rstrip()


class BestMove(NamedTuple):
    """The best move of an analysis, and the answer that is awaited."""

    move: Optional[Move]
    ponder: Optional[Move]


def _ours(info: InfoDict, wanted: Info) -> InfoDict:
    """The information of the kinds that are wanted, with moves of this module."""
    if not wanted:
        return {}
    if not wanted & INFO_SCORE:
        for name in ("score", "lowerbound", "upperbound"):
            info.pop(name, None)  # type: ignore[misc]  # (each is a key that need not be there)
    if not wanted & INFO_PV:
        info.pop("pv", None)
    if "pv" in info:
        info["pv"] = [OURS[move] for move in info["pv"]]
    if "currmove" in info:
        info["currmove"] = OURS[info["currmove"]]
    return info


class SimpleAnalysisResult:
    """What an engine says of a position while it searches. Use it with `with`, or call `stop`."""

    def __init__(self, engine: SimpleEngine, board: Board, lines: Iterator[List[str]], wanted: Info) -> None:
        self._engine, self._board, self._lines, self._wanted = engine, board, lines, wanted
        self._best: Optional[BestMove] = None
        #: What was said last, of each line.
        self.multipv: List[InfoDict] = [{}]

    @property
    def info(self) -> InfoDict:
        """What was said last of the first line."""
        return self.multipv[0]

    def next(self) -> Optional[InfoDict]:
        """What the engine says next; None if the search has ended."""
        with self._engine._lock:
            while self._engine._running is self:
                words = next(self._lines)
                if words[0] == "bestmove":
                    self._ended(words)
                elif words[0] == "info":
                    info = self._said(parts_of(words[1:]))
                    if info:
                        return info
            return None

    def _said(self, parts: Dict[str, List[str]]) -> InfoDict:
        info = _ours(self._engine._info(self._board._game, parts), self._wanted)
        place = info.get("multipv", 1) - 1
        while len(self.multipv) <= place:
            self.multipv.append({})
        self.multipv[place].update(info)
        return info

    def _ended(self, words: List[str]) -> None:
        self._engine._running, self._engine._is_owed = None, False
        board = self._board._game.copy()
        move = self._engine._move(board, words[1] if len(words) > 1 else "")
        awaited = None
        if move is not None and words[2:3] == ["ponder"] and len(words) > 3:
            board.push(move)
            awaited = self._engine._move(board, words[3])
        self._best = BestMove(None if move is None else OURS[move], None if awaited is None else OURS[awaited])

    def get(self) -> InfoDict:
        """What the engine says next. Raises `AnalysisComplete` if the search has ended."""
        info = self.next()
        if info is None:
            raise AnalysisComplete()
        return info

    def __iter__(self) -> Iterator[InfoDict]:
        return self

    def __next__(self) -> InfoDict:
        info = self.next()
        if info is None:
            raise StopIteration
        return info

    def empty(self) -> bool:
        """Whether the engine has said nothing that `next` has not returned."""
        with self._engine._lock:
            return self._engine._running is not self or not self._engine._has_line()

    def would_block(self) -> bool:
        """Whether `next` would wait for the engine."""
        return self.empty() and self._engine._running is self

    def stop(self) -> None:
        """Has the engine end the search; what it still says comes by `next`."""
        if self._engine._running is self:
            self._engine._interrupt()

    def wait(self) -> BestMove:
        """Waits until the search has ended. Raises `AnalysisComplete` if another call has ended it."""
        for _ in self:
            pass
        if self._best is None:
            raise AnalysisComplete("another call has ended the analysis")
        return self._best

    def __enter__(self) -> SimpleAnalysisResult:
        return self

    def __exit__(self, kind: Optional[Type[BaseException]], error: Optional[BaseException], trace: object) -> None:
        self.stop()


class SimpleEngine(_engine.SimpleEngine):
    """An engine that runs as a program of its own."""

    # The analysis that goes on.
    _running: Optional[SimpleAnalysisResult] = None

    def __init__(self, command: _Command, *, timeout: Optional[float] = 10.0, **popen_args: Any) -> None:
        # Of the options that a search has set for itself, the values before it.
        self._lent: Dict[str, str] = {}
        super().__init__(command, timeout=timeout, **popen_args)

    def configure(self, options: _Options) -> None:
        """Sets options by their names. Raises `EngineError` for one that the engine doesn't have or that calls set, and `ValueError` for a value that the option
        doesn't take; none is set then."""
        with self._lock:
            super().configure(options)
            names = [name.lower() for name in options]
            self._lent = {name: text for name, text in self._lent.items() if name.lower() not in names}

    # Sets options for a search, and puts those of the last search back.
    def _lend(self, options: _Options) -> None:
        self._settle()
        told = dict(self._option(name, value) for name, value in options.items())
        for name, text in self._lent.items():
            if name not in told:
                self._set(name, text)
        self._lent = {name: text for name, text in self._lent.items() if name in told}
        for name, text in told.items():
            before = self._told.get(name) or self._begun(name)
            if before is not None:
                self._lent.setdefault(name, before)
            self._set(name, text)

    # The text of an option's default; None if it has none, as a button.
    def _begun(self, name: str) -> Optional[str]:
        option = next(it for it in self.options.values() if it.name == name)
        try:
            return None if option.default is None else option.text_of(option.default)
        except ValueError:
            return None

    @classmethod
    def popen_uci(cls, command: _Command, *, timeout: Optional[float] = 10.0, debug: Optional[bool] = None, setpgrp: bool = False, **popen_args: Any) -> SimpleEngine:
        """Starts an engine that speaks UCI."""
        return cls(command, timeout=timeout, **({"start_new_session": True} if setpgrp else {}), **popen_args)

    @classmethod
    def popen_xboard(cls, command: _Command, **words: Any) -> SimpleEngine:
        """Raises `NotImplementedError`."""
        raise NotImplementedError("engines speak UCI here, not XBoard's protocol")

    def __enter__(self) -> SimpleEngine:
        return self

    @property
    def transport(self) -> Transport:
        """The engine's program."""
        return Transport(self)

    @property
    def protocol(self) -> UciProtocol:
        """The same engine for `await`."""
        return UciProtocol(self)

    def send_opponent_information(self, *, opponent: Optional[Opponent] = None, engine_rating: Optional[int] = None) -> None:
        """Tells the engine who plays against it, if it has the option UCI_Opponent."""
        if opponent is not None and "UCI_Opponent" in self.options:
            self.configure({"UCI_Opponent": opponent.text()})

    def send_game_result(self, board: Board, winner: Optional[Color] = None, game_ending: Optional[str] = None, game_complete: bool = True) -> None:
        """Does nothing: no line of UCI says a result."""

    # Whether a line of the engine is there.
    def _has_line(self) -> bool:
        while b"\n" not in self._left:
            try:
                self._wait(time.monotonic())
            except EngineTimeoutError:
                return False
        return True

    # Has a search end, also while another thread waits for its next line, and has the lock.
    def _interrupt(self) -> None:
        try:
            os.write(self._stdin, b"stop\n")
        except BlockingIOError:
            raise EngineError("the engine reads nothing") from None
        except OSError:
            raise self._gone() from None

    # Ends an analysis that goes on, so that the next call has the engine.
    def _settle(self) -> None:
        if self._running is not None:
            self._running = None
            self._send("stop")
        super()._settle()

    def play(  # type: ignore[override]  # (python-chess has other parameters)
        self,
        board: Board,
        limit: Limit,
        *,
        game: object = None,
        info: Info = INFO_NONE,
        ponder: bool = False,
        draw_offered: bool = False,
        root_moves: Optional[Iterable[Move]] = None,
        options: _Options = {},
        opponent: Optional[Opponent] = None,
    ) -> PlayResult:
        """The move that the engine plays. Raises `EngineError` for a move that isn't legal."""
        with self._lock:
            self.send_opponent_information(opponent=opponent)
            self._lend(options)
            found = super().play(board._game, limit, game=game, ponder=ponder, root_moves=root_moves)
        move, awaited = (None if it is None else OURS[it] for it in (found.move, found.ponder))
        return PlayResult(move, awaited, _ours(found.info, info))

    @overload  # type: ignore[override]  # (python-chess has other parameters)
    def analyse(
        self, board: Board, limit: Limit, *, multipv: None = None, game: object = None, info: Info = INFO_ALL, root_moves: Optional[Iterable[Move]] = None, options: _Options = {}
    ) -> InfoDict: ...
    @overload
    def analyse(
        self, board: Board, limit: Limit, *, multipv: int, game: object = None, info: Info = INFO_ALL, root_moves: Optional[Iterable[Move]] = None, options: _Options = {}
    ) -> List[InfoDict]: ...
    def analyse(
        self,
        board: Board,
        limit: Limit,
        *,
        multipv: Optional[int] = None,
        game: object = None,
        info: Info = INFO_ALL,
        root_moves: Optional[Iterable[Move]] = None,
        options: _Options = {},
    ) -> Union[InfoDict, List[InfoDict]]:
        """What the engine says of the position, with `multipv` of that number of lines."""
        with self._lock:
            self._lend(options)
            found = super().analyse(board._game, limit, multipv=1 if multipv is None else multipv, game=game, root_moves=root_moves)
        infos = [_ours(it, info) for it in found]
        return infos[0] if multipv is None else infos

    def analysis(
        self,
        board: Board,
        limit: Optional[Limit] = None,
        *,
        multipv: Optional[int] = None,
        game: object = None,
        info: Info = INFO_ALL,
        root_moves: Optional[Iterable[Move]] = None,
        options: _Options = {},
    ) -> SimpleAnalysisResult:
        """What the engine says of the position while it searches; without a limit until it is stopped. Another call of the engine ends it."""
        with self._lock:
            self._begin_game(game)
            self._lend(options)
            goes = ["go", *(["infinite"] if limit is None else limit.words()), *_engine._root(board._game, root_moves)]
            if "MultiPV" in self.options:
                self._set("MultiPV", str(multipv or 1))
            elif (multipv or 1) > 1:
                raise EngineError("the engine has no option MultiPV, so it says one line alone")
            self._send(_engine._position(board._game))
            self._is_owed = True
            self._send(" ".join(goes))
            self._running = SimpleAnalysisResult(self, board.copy(), iter(self._until("bestmove", None)), info)
            return self._running


class AnalysisResult:
    """An analysis for `async for`. Use it with `with`, or call `stop`."""

    def __init__(self, found: SimpleAnalysisResult) -> None:
        self._found = found

    @property
    def multipv(self) -> List[InfoDict]:
        """What was said last, of each line."""
        return self._found.multipv

    @property
    def info(self) -> InfoDict:
        """What was said last of the first line."""
        return self._found.info

    def empty(self) -> bool:
        """Whether the engine has said nothing that `next` has not returned."""
        return self._found.empty()

    def would_block(self) -> bool:
        """Whether `next` would wait for the engine."""
        return self._found.would_block()

    def stop(self) -> None:
        """Has the engine end the search."""
        self._found.stop()

    async def wait(self) -> BestMove:
        """Waits until the search has ended."""
        return await asyncio.to_thread(self._found.wait)

    async def next(self) -> Optional[InfoDict]:
        """What the engine says next; None if the search has ended."""
        return await asyncio.to_thread(self._found.next)

    async def get(self) -> InfoDict:
        """The same. Raises `AnalysisComplete` if the search has ended."""
        return await asyncio.to_thread(self._found.get)

    def __aiter__(self) -> AnalysisResult:
        return self

    async def __anext__(self) -> InfoDict:
        info = await self.next()
        if info is None:
            raise StopAsyncIteration
        return info

    def __enter__(self) -> AnalysisResult:
        return self

    def __exit__(self, kind: Optional[Type[BaseException]], error: Optional[BaseException], trace: object) -> None:
        self.stop()


class UciProtocol:
    """An engine for `await`. Each call runs in a thread; a call that is cancelled goes on there until the engine has answered."""

    def __init__(self, engine: SimpleEngine) -> None:
        self._engine = engine

    @property
    def id(self) -> Dict[str, str]:
        """What the engine says of itself."""
        return self._engine.id

    @property
    def options(self) -> Dict[str, Option]:
        """The engine's options."""
        return self._engine.options

    async def play(self, board: Board, limit: Limit, **words: Any) -> PlayResult:
        """The move that the engine plays, as `SimpleEngine.play`."""
        return await asyncio.to_thread(partial(self._engine.play, board, limit, **words))

    @overload
    async def analyse(self, board: Board, limit: Limit, *, multipv: None = None, **words: Any) -> InfoDict: ...
    @overload
    async def analyse(self, board: Board, limit: Limit, *, multipv: int, **words: Any) -> List[InfoDict]: ...
    async def analyse(self, board: Board, limit: Limit, *, multipv: Optional[int] = None, **words: Any) -> Union[InfoDict, List[InfoDict]]:
        """What the engine says of the position, as `SimpleEngine.analyse`."""
        infos: List[InfoDict] = await asyncio.to_thread(lambda: self._engine.analyse(board, limit, multipv=multipv or 1, **words))
        return infos[0] if multipv is None else infos

    async def analysis(self, board: Board, limit: Optional[Limit] = None, **words: Any) -> AnalysisResult:
        """What the engine says while it searches, as `SimpleEngine.analysis`."""
        return AnalysisResult(await asyncio.to_thread(partial(self._engine.analysis, board, limit, **words)))

    async def send_opponent_information(self, *, opponent: Optional[Opponent] = None, engine_rating: Optional[int] = None) -> None:
        """Tells the engine who plays against it, if it has the option UCI_Opponent."""
        await asyncio.to_thread(partial(self._engine.send_opponent_information, opponent=opponent))

    async def send_game_result(self, board: Board, winner: Optional[Color] = None, game_ending: Optional[str] = None, game_complete: bool = True) -> None:
        """Does nothing: no line of UCI says a result."""

    async def configure(self, options: _Options) -> None:
        """Sets options."""
        await asyncio.to_thread(self._engine.configure, options)

    async def ping(self) -> None:
        """Waits until the engine has done what it was asked."""
        await asyncio.to_thread(self._engine.ping)

    async def quit(self) -> None:
        """Has the engine end."""
        await asyncio.to_thread(self._engine.quit)


EngineProtocol = UciProtocol
Protocol = UciProtocol


class Transport:
    """The engine's program."""

    def __init__(self, engine: SimpleEngine) -> None:
        self._engine = engine

    def get_pid(self) -> int:
        """The number of the process."""
        return self._engine._process.pid

    def get_returncode(self) -> Optional[int]:
        """How the process has ended; None if it runs."""
        return self._engine._process.poll()

    def close(self) -> None:
        """Ends the program at once."""
        self._engine.close()


async def popen_uci(command: _Command, *, setpgrp: bool = False, **popen_args: Any) -> Tuple[Transport, UciProtocol]:
    """Starts an engine that speaks UCI, for `await`."""
    engine = await asyncio.to_thread(partial(SimpleEngine.popen_uci, command, setpgrp=setpgrp, **popen_args))
    return Transport(engine), UciProtocol(engine)


async def popen_xboard(command: _Command, **words: Any) -> Tuple[Transport, UciProtocol]:
    """Raises `NotImplementedError`."""
    raise NotImplementedError("engines speak UCI here, not XBoard's protocol")


def EventLoopPolicy() -> asyncio.AbstractEventLoopPolicy:
    """The policy that asyncio has, with which engines run here."""
    return asyncio.get_event_loop_policy()
