"""The calls of a board that are made most often. `Core` is that of `_fast.c` where it has been built, else the one here, by ctypes: the same, some times slower."""
from __future__ import annotations

import os
import threading
from ctypes import addressof, byref, c_bool, c_char, c_size_t, c_uint8, c_uint32, c_uint64, c_void_p, cast
from importlib.machinery import EXTENSION_SUFFIXES
from importlib.util import module_from_spec, spec_from_file_location
from typing import TYPE_CHECKING, Any, Callable, Dict, List, NoReturn, Type, TypeVar

from . import _library as c
from ._errors import AmbiguousMoveError, EmptyBoardError, Error, IllegalMoveError, InvalidMoveError, LimitError
from ._moves import BLACK, WHITE, LegalMoves, Move
from ._stops import LentLock

_Plain = TypeVar("_Plain", bound="Plain")


class _Shown(Dict[bytes, Move]):
    """The move of the three bytes that C sees; each is made once."""

    def __missing__(self, key: bytes) -> Move:
        origin, target, became = key
        move = self[key] = Move(origin, target, became + 1 if became else None)
        return move


class _Numbers(Dict[Move, c.CMove]):
    """The three numbers of a move; each is made once. Only a `Move` has them: its parts are whole numbers."""

    def __missing__(self, move: Move) -> c.CMove:
        if not isinstance(move, Move):
            raise TypeError(f"a move is a Move, as Move.from_uci('e2e4'); a text is made by push_uci or push_san: {move!r}")
        origin, target, promotion = move
        became = 0 if promotion is None else promotion - 1
        if not (0 <= origin < 64 and 0 <= target < 64 and (promotion is None or 1 <= became <= 4)):
            raise IllegalMoveError(f"no move of a board: {origin}, {target}, {promotion}")
        numbers = self[move] = c.CMove(origin, target, became)
        return numbers


SHOWN = _Shown()
_NUMBERS = _Numbers()


def numbers_of(move: Move) -> c.CMove:
    """The three numbers of a move. Raises `TypeError` for what is none, also where it equals one, and `IllegalMoveError` for one of no board."""
    return _NUMBERS[move] if isinstance(move, Move) else _NUMBERS.__missing__(move)


class Calls:
    """How a board calls on the library, and what it says where that refuses something."""

    __slots__ = ()

    if TYPE_CHECKING:
        _at: Any
        _lock: Any

        def _lend(self, is_lent: bool) -> None: ...

        def fen(self) -> str: ...

    def _fail(self, status: int, what: object) -> Exception:
        """What a status other than OK is."""
        if status == c.EMPTY:
            return EmptyBoardError("there is no board: its memory was given back, or it was never begun")
        if status == c.NO_MEMORY:
            return MemoryError(c.SENTENCES[status])
        if status == c.ILLEGAL:
            return IllegalMoveError(f"not legal here: {what} in {self.fen()}")
        if status == c.AMBIGUOUS:
            return AmbiguousMoveError(f"more than one legal move: {what} in {self.fen()}")
        if status == c.FORM:
            return InvalidMoveError(f"no form of a move: {what!r}")
        if status in (c.TOO_LONG, c.FULL):
            return LimitError(c.SENTENCES[status])
        if status == c.AT_ROOT:
            return IndexError("no move has been made")
        return Error(f"{what!r}: status {status}")

    def _raise(self, status: int, what: object) -> NoReturn:
        raise self._fail(status, what)

    # Raises what a word is that is no move of a board.
    @staticmethod
    def _is_no_move(move: Move) -> None:
        numbers_of(move)

    # Calls a function of the library on the board. A status other than OK is an error.
    def _call(self, function: Callable[..., int], what: object, *words: object) -> None:
        with self._lock:
            status = function(self._at, *words)
        if status:
            self._raise(status, what)

    # The position's six fields.
    def _position(self) -> c.CPosition:
        position = c.CPosition()
        self._call(c.lib.jatshegi_board_position, "position", byref(position))
        return position


_play, _undo, _move, _read = c.lib.jatshegi_board_play, c.lib.jatshegi_board_undo, c.lib.jatshegi_board_move, c.lib.jatshegi_board_read

# Room for texts, and for the squares of a board.
_FenRoom, _SanRoom, _Squares = c_char * c.MOST_FEN, c_char * c.MOST_SAN, c_uint8 * 64


class Plain:
    """A board of the library, its lock, and the calls that are made most often, by ctypes."""

    __slots__ = ("_at", "_lock", "_made", "_slot")

    if TYPE_CHECKING:

        def _raise(self, status: int, what: object) -> NoReturn: ...
        def _call(self, function: Callable[..., int], what: object, *words: object) -> None: ...
        def _position(self) -> c.CPosition: ...

    # The board, its lock, and of the last steps to the cursor what `push` was answered: whether it added a node. Shorter than the way to the cursor where something
    # else led there; of those steps `pop` takes no node out. While a call may move the cursor it is empty, so it is empty after an exception (as by Ctrl-C).
    _slot: c.Slot
    _at: Any
    _lock: Any
    _made: List[bool]

    def __new__(cls: Type[_Plain], *words: object, **named: object) -> _Plain:
        self = super().__new__(cls)
        self._slot, self._lock, self._made = c.Slot(), threading.RLock(), []
        self._at = byref(self._slot)
        return self

    def __del__(self) -> None:
        if c is not None and hasattr(self, "_at"):
            self._free()

    # Whether another thread is on the board in the name of this one, which has the lock.
    def _lend(self, is_lent: bool) -> None:
        self._lock = LentLock(self._lock) if is_lent else self._lock.lock

    # Gives the board back; a call says then that there is none.
    def _free(self) -> None:
        c.lib.jatshegi_board_free(self._at)

    @property
    def _address(self) -> int:
        return addressof(self._slot)

    @property
    def turn(self) -> bool:
        """The colour of the side to move: WHITE or BLACK."""
        side = c_uint8()
        self._call(c.lib.jatshegi_board_turn, "turn", byref(side))
        return WHITE if side.value == 0 else BLACK

    def _men(self) -> bytes:
        return bytes(self._position().men)

    def fen(self) -> str:
        """The position's FEN, with all six fields (PGN 16.1). The en passant target is written wherever a pawn has just passed over it."""
        text, count = _FenRoom(), c_size_t()
        self._call(c.lib.jatshegi_board_fen, "fen", text, c.MOST_FEN, byref(count))
        return text.raw[: count.value].decode()

    @property
    def legal_moves(self) -> LegalMoves:
        """The legal moves (FIDE Laws 3.1 to 3.10), by the square that they begin on, then by the one that they end on."""
        return LegalMoves(self._moves(c.lib.jatshegi_board_moves, "legal_moves"))

    @property
    def move_stack(self) -> List[Move]:
        """The moves that led to the position, from the game's start, in the order in which they were made."""
        return self._moves(c.lib.jatshegi_board_line, "move_stack")

    # The moves that a function of the library writes.
    def _moves(self, function: Callable[..., int], what: str) -> List[Move]:
        moves, count = (c.CMove * 64)(), c_size_t()
        with self._lock:
            status = function(self._at, moves, 64, byref(count))
            if status == c.NO_ROOM:
                moves = (c.CMove * count.value)()
                status = function(self._at, moves, len(moves), byref(count))
        if status:
            self._raise(status, what)
        shown = bytes(moves)
        return [SHOWN[shown[i : i + 3]] for i in range(0, 3 * count.value, 3)]

    def peek(self) -> Move:
        """The move that led to the position. Raises `IndexError` where no move has been made."""
        move = c.CMove()
        self._call(_move, "peek", byref(move))
        return SHOWN[bytes(move)]

    # What sort of move a legal one is.
    def _kinds(self, move: Move) -> int:
        number = c_uint32()
        self._call(c.lib.jatshegi_board_kinds, move, numbers_of(move), byref(number))
        return number.value

    def push(self, move: Move, /) -> None:
        """Makes the move: steps to its node, which is added where there is none. Raises `IllegalMoveError`, or `LimitError` after 20,000 plies."""
        numbers, added = numbers_of(move), c_bool()
        with self._lock:
            made, self._made = self._made, []
            status = _play(self._at, numbers, byref(added))
            if not status:
                made.append(added.value)
            self._made = made
            if status:
                self._raise(status, move)

    def pop(self) -> Move:
        """Takes back the last move, and returns it: steps to the parent. The node is taken out of the game where `push` added it, nothing hangs on it, no move,
        comment or annotation, and no `line` was answered with 'ok' since; else it stays, as with `back`. Raises `IndexError` where no move has been made.

        >>> board = jatshegi.Board.from_game(jatshegi.pgn.read_game("1. e4 e5 *"))
        >>> for move in board.legal_moves:
        ...     board.push(move)
        ...     move = board.pop()
        >>> print(board.pgn().splitlines()[-2])
        1. e4 e5 *
        """
        with self._lock:
            return self._step_back(bool(self._made) and self._made[-1])

    def back(self) -> Move:
        """Steps to the parent, and returns the move that led from there; the node stays in the game. Raises `IndexError` where no move has been made.

        >>> board = jatshegi.Board()
        >>> board.push_san("e4") == board.back()
        True
        >>> print(board.pgn().splitlines()[-2])
        1. e4 *
        """
        with self._lock:
            return self._step_back(False)

    # Steps to the parent, and returns the move that led from there; its node is undone by whether it was added.
    def _step_back(self, added: bool) -> Move:
        move, made = c.CMove(), self._made
        status = _move(self._at, byref(move))
        if not status:
            self._made = []
            status = _undo(self._at, added)
            if not status:
                del made[-1:]
            self._made = made
        if status:
            self._raise(status, "pop")
        return SHOWN[bytes(move)]

    def parse_san(self, san: str, /) -> Move:
        """The legal move that the text names in standard algebraic notation (PGN 8.2.3). Raises as `push_san`."""
        if not isinstance(san, str):
            raise TypeError(f"a move's text is a text, as 'Nf3': {san!r}")
        text, move = san.encode("utf-8", "surrogatepass"), c.CMove()
        self._call(_read, san, text, len(text), byref(move))
        return SHOWN[bytes(move)]

    def san(self, move: Move, /) -> str:
        """The move's text in standard algebraic notation (PGN 8.2.3). Raises `IllegalMoveError`.

        >>> jatshegi.Board("k7/7P/8/8/8/8/8/K7 w - -").san(Move.from_uci("h7h8q"))
        'h8=Q+'
        """
        text, count = _SanRoom(), c_size_t()
        self._call(c.lib.jatshegi_board_write, move, numbers_of(move), text, c.MOST_SAN, byref(count))
        return text.raw[: count.value].decode()

    # Whether a move of a board is legal.
    def _is_legal(self, move: Move) -> bool:
        legal = c_bool()
        self._call(c.lib.jatshegi_board_is_legal, move, numbers_of(move), byref(legal))
        return legal.value

    def is_check(self) -> bool:
        """Whether the side to move is in check (FIDE Laws 3.9.1)."""
        check = c_bool()
        self._call(c.lib.jatshegi_board_in_check, "is_check", byref(check))
        return check.value

    # The word of 64 bits of the men that give check.
    def _checks(self) -> int:
        found = _Squares()
        self._call(c.lib.jatshegi_board_checks, "checkers", found)
        return sum(checks << square for square, checks in enumerate(found) if checks)

    # The word of the men that attack a square: 0 to 63 for those of White, 64 more for those of Black.
    def _attacks(self, which: int) -> int:
        found = c_uint64()
        self._call(c.lib.jatshegi_board_attackers, "attackers", which >> 6, which & 63, byref(found))
        return found.value

    # The number of the game's status.
    def _outcome(self) -> int:
        number = c_uint32()
        self._call(c.lib.jatshegi_board_outcome, "status", byref(number))
        return number.value


def _found() -> Any:
    """The module in C, given the addresses of the library's functions; None where it hasn't been built, or where the environment has JATSHEGI_PLAIN."""
    if os.environ.get("JATSHEGI_PLAIN"):
        return None
    # Beside this file, else beside the released library of a clone.
    paths = [f"{os.path.dirname(it)}/_fast.abi3.so" for it in (os.path.realpath(__file__), c.PATH)]
    there = [path for path in paths if os.path.exists(path)]
    spec = spec_from_file_location("jatshegi._fast", there[0]) if there else None
    # (a Python without the limited interface, as a free-threaded one, can't load it)
    if spec is None or ".abi3.so" not in EXTENSION_SUFFIXES:
        return None
    try:
        _fast: Any = module_from_spec(spec)
    except ImportError:
        return None
    names = ("play", "undo", "move", "moves", "line", "read", "write", "checks", "attackers", "outcome", "position", "fen", "kinds")
    names += ("turn", "in_check", "is_legal", "free")
    _fast.begin({name: cast(getattr(c.lib, f"jatshegi_board_{name}"), c_void_p).value for name in names}, Move, Error, LegalMoves)
    return _fast


FAST = _found()
if TYPE_CHECKING:
    Core = Plain
else:
    Core = Plain if FAST is None else FAST.Core
