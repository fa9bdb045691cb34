"""Engines of other programs, which speak UCI, under the names of python-chess; and that of this package.

    >>> import jatshegi.engine
    >>> with jatshegi.engine.SimpleEngine.popen_uci("stockfish") as engine:  # doctest: +SKIP
    ...     board = jatshegi.Board()
    ...     result = engine.play(board, jatshegi.engine.Limit(time=0.1))
    ...     board.push(result.move)

Each move that an engine answers is asked of the board, which is proved: one that isn't legal is an `EngineError` that names it. `Engine` is this package's own
engine, in this process.
"""
from __future__ import annotations

import os
import select
import shlex
import subprocess
import threading
import time as _time
from types import TracebackType
from typing import Any, Dict, Iterable, List, Mapping, Optional, Sequence, Tuple, Type, Union, overload

from . import _library as c
from ._board import Board
from ._engine import Engine
from ._errors import Error, InvalidMoveError
from ._moves import STARTING_FEN, Move
from ._scores import Cp, Info, InfoDict, Limit, Mate, MateGiven, Option, PlayResult, PovScore, Score, info_of, option_of, parts_of
from ._wdl import PovWdl, Wdl

__all__ = [
    "Cp",
    "Engine",
    "EngineError",
    "EngineTerminatedError",
    "EngineTimeoutError",
    "INFO_ALL",
    "INFO_BASIC",
    "INFO_CURRLINE",
    "INFO_NONE",
    "INFO_PV",
    "INFO_REFUTATION",
    "INFO_SCORE",
    "Info",
    "InfoDict",
    "Limit",
    "Mate",
    "MateGiven",
    "Option",
    "PlayResult",
    "PovScore",
    "PovWdl",
    "Score",
    "SimpleEngine",
    "Wdl",
]


class EngineError(Error, RuntimeError):
    """An engine answers what it mustn't, or doesn't have what is asked of it."""


class EngineTerminatedError(EngineError):
    """An engine has ended."""


class EngineTimeoutError(EngineError, TimeoutError):
    """An engine doesn't answer in time."""


INFO_NONE, INFO_BASIC, INFO_SCORE, INFO_PV, INFO_REFUTATION, INFO_CURRLINE, INFO_ALL = (
    *(Info.NONE, Info.BASIC, Info.SCORE, Info.PV),
    *(Info.REFUTATION, Info.CURRLINE, Info.ALL),
)

# The values of options by their names.
Options = Mapping[str, Union[str, int, bool, None]]

class SimpleEngine:
    """An engine that runs as a program of its own. One call at a time uses it; another thread's waits. Use it with `with`, or call `quit` or `close`."""

    def __init__(self, command: Union[str, Sequence[str]], *, timeout: Optional[float] = 10.0, **popen_args: Any) -> None:
        """Starts the program, and waits until it says that it speaks UCI. `timeout` is how many seconds an answer may take, beyond the time of a search; None
        for any. Raises `OSError` where it can't be started, else `EngineError`. A text is split as a shell does."""
        self._lock, self._timeout, self._left = threading.RLock(), timeout, b""
        # Whether the answer to a search is still to come that an exception has left.
        self._is_owed = False
        # What names the game of the last search.
        self._game: object = None
        self._told: Dict[str, str] = {}
        #: What the engine says of itself, as its name and author; and its options by their names.
        self.id: Dict[str, str] = {}
        self.options: Dict[str, Option] = {}
        words = shlex.split(command) if isinstance(command, str) else [os.fspath(it) for it in command]
        streams: Dict[str, Any] = {"stderr": subprocess.DEVNULL, **popen_args, "stdin": subprocess.PIPE, "stdout": subprocess.PIPE, "bufsize": 0}
        self._process: "subprocess.Popen[bytes]" = subprocess.Popen(words, **streams)
        assert self._process.stdin is not None and self._process.stdout is not None
        self._stdin, self._stdout = self._process.stdin.fileno(), self._process.stdout.fileno()
        os.set_blocking(self._stdin, False)
        try:
            self._begin()
        except BaseException:
            self.close()
            raise

    @classmethod
    def popen_uci(cls, command: Union[str, Sequence[str]], *, timeout: Optional[float] = 10.0, **popen_args: Any) -> SimpleEngine:
        """Starts an engine that speaks UCI, as `SimpleEngine(command)`."""
        return cls(command, timeout=timeout, **popen_args)

    def _begin(self) -> None:
        self._send("uci")
        for word, *words in self._until("uciok", self._deadline()):
            if word == "id" and len(words) > 1:
                self.id[words[0]] = " ".join(words[1:])
            option = option_of(words) if word == "option" else None
            if option is not None:
                self.options[option.name] = option
        self._send("ucinewgame")
        self.ping()

    # ---- lines

    def _deadline(self, more: float = 0) -> Optional[float]:
        return None if self._timeout is None else _time.monotonic() + self._timeout + more

    # Waits until bytes can be read, or written, too; reads them. Raises `EngineTerminatedError` at the end of them.
    def _wait(self, deadline: Optional[float], writes: bool = False) -> bool:
        left = None if deadline is None else max(deadline - _time.monotonic(), 0)
        readable, writable, _ = select.select([self._stdout], [self._stdin] if writes else [], [], left)
        if not readable and not writable:
            raise EngineTimeoutError("the engine doesn't answer in time")
        if readable:
            piece = os.read(self._stdout, 1 << 16)
            if not piece:
                raise self._gone()
            self._left += piece
        return bool(writable)

    def _gone(self) -> EngineTerminatedError:
        try:
            ended = self._process.wait(1)
        except subprocess.TimeoutExpired:
            return EngineTerminatedError("the engine has closed its output")
        return EngineTerminatedError(f"the engine has ended with status {ended}")

    def _send(self, line: str) -> None:
        if "\n" in line or "\r" in line:
            raise ValueError(f"a line for an engine has no end of line in it: {line!r}")
        data, deadline = line.encode() + b"\n", self._deadline()
        while data:
            if self._process.returncode is not None:
                raise self._gone()
            if self._wait(deadline, writes=True):
                try:
                    data = data[os.write(self._stdin, data[:4096]) :]
                except OSError:
                    raise self._gone() from None

    # The words of the lines up to the one that begins with a word, which is the last.
    def _until(self, last: str, deadline: Optional[float]) -> Iterable[List[str]]:
        while True:
            line, end, rest = self._left.partition(b"\n")
            if not end:
                # (of a line without end nobody wants the beginning)
                self._left = self._left if len(self._left) < 1 << 24 else b""
                self._wait(deadline)
                continue
            self._left = rest
            words = line.decode("utf-8", "replace").split()
            if words:
                yield words
                if words[0] == last:
                    return

    # Passes over lines up to the one that begins with a word.
    def _skip(self, last: str, deadline: Optional[float]) -> None:
        for _ in self._until(last, deadline):
            pass

    def _settle(self) -> None:
        if self._process.returncode is not None:
            raise self._gone()
        if self._is_owed:
            self._skip("bestmove", self._deadline())
            self._is_owed = False

    # ---- calls

    def ping(self) -> None:
        """Waits until the engine has done what it was asked."""
        with self._lock:
            self._settle()
            self._send("isready")
            self._skip("readyok", self._deadline())

    def configure(self, options: Options) -> None:
        """Sets options by their names. Raises `EngineError` for one that the engine doesn't have or that calls set, and `ValueError` for another value than
        it takes; none is set then."""
        with self._lock:
            self._settle()
            told = [self._option(name, value) for name, value in options.items()]
            for name, text in told:
                self._set(name, text)

    def _option(self, name: str, value: Union[str, int, bool, None]) -> Tuple[str, str]:
        if not isinstance(name, str):
            raise TypeError(f"an option has a text for a name: {name!r}")
        option = next((it for it in self.options.values() if it.name.lower() == name.lower()), None)
        if option is None:
            raise EngineError(f"the engine has no option {name!r}, but {', '.join(self.options) or 'none'}")
        if option.is_managed():
            raise EngineError(f"the option {name!r} is set by the calls themselves")
        return option.name, "" if option.type == "button" else option.text_of(value)

    def _set(self, name: str, text: str) -> None:
        if text == "" or self._told.get(name) != text:
            self._send(f"setoption name {name} value {text}" if text else f"setoption name {name}")
            self._told[name] = text

    def play(
        self,
        board: Board,
        limit: Limit,
        *,
        game: object = None,
        info: Info = INFO_ALL,
        ponder: bool = False,
        root_moves: Optional[Iterable[Move]] = None,
        options: Options = {},
    ) -> PlayResult:
        """The move that the engine plays. Raises `EngineError` for one that isn't legal. If `game` is another object than in the last call, the engine is told that a
        game begins. `info` and `ponder` change nothing: all information is there, and between calls the engine doesn't search."""
        with self._lock:
            self._begin_game(game)
            self.configure(options)
            infos, words = self._searched(board, limit, 1, root_moves)
            move = self._move(board, words[1] if len(words) > 1 else "")
            awaited = None
            if move is not None and words[2:3] == ["ponder"] and len(words) > 3:
                after = board.copy()
                after.push(move)
                awaited = self._move(after, words[3])
            return PlayResult(move, awaited, infos[0])

    # Tells the engine that another game begins, where it does.
    def _begin_game(self, game: object) -> None:
        self._settle()
        if game != self._game:
            self._send("ucinewgame")
            self.ping()
            self._game = game

    @overload
    def analyse(
        self,
        board: Board,
        limit: Limit,
        *,
        multipv: None = None,
        game: object = None,
        info: Info = INFO_ALL,
        root_moves: Optional[Iterable[Move]] = None,
        options: Options = {},
    ) -> InfoDict: ...
    @overload
    def analyse(
        self,
        board: Board,
        limit: Limit,
        *,
        multipv: int,
        game: object = None,
        info: Info = INFO_ALL,
        root_moves: Optional[Iterable[Move]] = None,
        options: Options = {},
    ) -> List[InfoDict]: ...
    def analyse(
        self,
        board: Board,
        limit: Limit,
        *,
        multipv: Optional[int] = None,
        game: object = None,
        info: Info = INFO_ALL,
        root_moves: Optional[Iterable[Move]] = None,
        options: Options = {},
    ) -> Union[InfoDict, List[InfoDict]]:
        """What the engine says of the position: its score, the line of moves that it awaits, and more; with `multipv` of that number of lines, as a list.
        Raises `EngineError` for a move that isn't legal. `game`, `info` and `options` are as for `play`."""
        with self._lock:
            self._begin_game(game)
            self.configure(options)
            infos, _ = self._searched(board, limit, 1 if multipv is None else multipv, root_moves)
            return infos[0] if multipv is None else infos

    # What was said of each line last, and the words of the answer.
    def _searched(self, board: Board, limit: Limit, lines: int, root_moves: Optional[Iterable[Move]]) -> Tuple[List[InfoDict], List[str]]:
        if not isinstance(board, Board) or not isinstance(limit, Limit):
            raise TypeError(f"a search is of a Board, and ends by a Limit, as Limit(time=1): {board!r}, {limit!r}")
        if isinstance(lines, bool) or not isinstance(lines, int) or lines < 1:
            raise ValueError(f"a number of lines is 1 or more: {lines!r}")
        goes = ["go", *limit.words(), *_root(board, root_moves)]
        self._settle()
        if "MultiPV" in self.options:
            self._set("MultiPV", str(lines))
        elif lines > 1:
            raise EngineError("the engine has no option MultiPV, so it says one line alone")
        self._send(_position(board))
        self._is_owed = True
        self._send(" ".join(goes))
        try:
            said, answer = self._listened(limit)
        except BaseException:
            self._leave()
            raise
        self._is_owed = False
        return [self._info(board, parts) for parts in said] or [{}], answer

    # The parts of the infos of each line, and the words of the answer.
    def _listened(self, limit: Limit) -> Tuple[List[Dict[str, List[str]]], List[str]]:
        deadline = None if limit.time is None else self._deadline(limit.time)
        said: Dict[str, Dict[str, List[str]]] = {}
        words: List[str] = []
        for words in self._until("bestmove", deadline):
            parts = parts_of(words[1:]) if words[0] == "info" else {}
            if "pv" in parts or "score" in parts or "depth" in parts and not said:
                said.setdefault(" ".join(parts.get("multipv", ["1"])), {}).update(parts)
        return list(said.values()), words

    # Has the engine end a search that an exception leaves; its answer is waited for by the next call.
    def _leave(self) -> None:
        try:
            self._send("stop")
        except (EngineError, OSError):
            pass

    def _info(self, board: Board, parts: Dict[str, List[str]]) -> InfoDict:
        info = info_of(parts, board.turn)
        if parts.get("currmove"):
            current = self._move(board, parts["currmove"][0])
            if current is not None:
                info["currmove"] = current
        if parts.get("pv"):
            after, info["pv"] = board.copy(), []
            for text in parts["pv"]:
                move = self._move(after, text)
                if move is None:
                    break
                after.push(move)
                info["pv"].append(move)
        return info

    # The move of a text of the engine's; None where it says that there is none, and there is none.
    def _move(self, board: Board, text: str) -> Optional[Move]:
        if text in ("(none)", "0000", "NULL", "null", "") and not board.legal_moves:
            return None
        try:
            move = Move.from_uci(text)
        except InvalidMoveError:
            raise EngineError(f"the engine answers with no move: {text!r} in {board.fen()}") from None
        if not board.is_legal(move):
            raise EngineError(f"the engine's move isn't legal: {text} in {board.fen()}")
        return move

    # ---- the end

    def quit(self) -> None:
        """Has the engine end, and waits for that. Raises `EngineTimeoutError` where it doesn't; it is ended all the same."""
        with self._lock:
            try:
                if self._process.returncode is None:
                    self._send("quit")
                    self._process.wait(self._timeout)
            except EngineTerminatedError:
                pass
            except subprocess.TimeoutExpired:
                raise EngineTimeoutError("the engine doesn't end in time") from None
            finally:
                self.close()

    def close(self) -> None:
        """Ends the program at once."""
        if self._process.poll() is None:
            self._process.kill()
            self._process.wait()
        for stream in (self._process.stdin, self._process.stdout):
            if stream is not None:
                stream.close()

    def __enter__(self) -> SimpleEngine:
        return self

    def __exit__(self, kind: Optional[Type[BaseException]], error: Optional[BaseException], trace: Optional[TracebackType]) -> None:
        self.close()

    def __repr__(self) -> str:
        return f"<SimpleEngine {self.id.get('name', '?')}, process {self._process.pid}>"


def _root(board: Board, moves: Optional[Iterable[Move]]) -> List[str]:
    """The words of the moves to which a search is confined."""
    if moves is None:
        return []
    texts = []
    for move in moves:
        # (raises for what is no legal move)
        board.san(move)
        texts.append(move.uci())
    return ["searchmoves", *texts]


def _position(board: Board) -> str:
    """The line that gives an engine the position, and the moves that led there."""
    start = board.copy()
    start._call(c.lib.jatshegi_board_start, "start")
    fen, moves = start.fen(), " ".join(move.uci() for move in board.move_stack)
    words = "position startpos" if fen == STARTING_FEN else f"position fen {fen}"
    return f"{words} moves {moves}" if moves else words

# Each class shows under the name by which it is found here.
for _name in __all__:
    if isinstance(globals()[_name], type) and globals()[_name].__module__ != "jatshegi":
        globals()[_name].__module__ = __name__
