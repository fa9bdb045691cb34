"""The board, and how a game ends."""
from __future__ import annotations

import codecs
import copy
import ctypes
import threading
from ctypes import byref, c_bool, c_char, c_int32, c_size_t, c_uint8, c_uint16, c_uint32, c_uint64
from typing import TYPE_CHECKING, Any, Callable, Dict, Iterator, List, NamedTuple, Optional, Tuple, Type, TypeVar

from . import _library as c
from ._checks import colour_of, depth_of, square_of, text_of, whole
from ._core import SHOWN, Calls, Core, numbers_of
from ._errors import Error, IllegalMoveError, InvalidFenError, LimitError
from ._habits import Habits
from ._moves import BLACK, SQUARE_NAMES, STARTING_FEN, WHITE, Move
from ._pieces import BY_LETTER, Piece
from ._sets import SquareSet
from ._status import TERMINATIONS, Outcome, Status, Termination
from ._stops import ANY_NUMBER, Flag, run, stoppable
from ._tags import Tags

if TYPE_CHECKING:
    import inspect

    from .pgn import Game


class Best(NamedTuple):
    """What a search has found: the best move at a depth in plies, its value for the side to move, and how many positions all depths asked for."""

    move: Move
    value: int
    depth: int
    nodes: int


# Room for texts, and for the squares of a board.
_FenRoom, _AnswerRoom, _Squares = c_char * c.MOST_FEN, c_char * c.MOST_ANSWER, c_uint8 * 64


# The encodings that were looked up.
_KNOWN: Dict[str, str] = {}


def _known(encoding: str) -> str:
    """The encoding, in which ASCII is ASCII. Raises `LookupError` for a name of none, and `ValueError` for another one."""
    if text_of(encoding, "an encoding is a name, as 'utf-8'") not in _KNOWN:
        codecs.lookup(encoding)
        plain = bytes(range(128))
        if plain.decode("ascii").encode(encoding, "replace") != plain:
            raise ValueError(f"games are read in an encoding that has ASCII as it is, as utf-8 or iso-8859-1: {encoding!r}")
        _KNOWN[encoding] = encoding
    return _KNOWN[encoding]


_STATUSES = tuple(Status)

_Board = TypeVar("_Board", bound="Board")


class _Signature:
    """The signature of a class as its `__init__` has it: `__new__` of a board takes any words, so that the classes of callers do."""

    def __get__(self, board: object, of: Type[object]) -> inspect.Signature:
        import inspect

        _, *words = inspect.signature(of.__init__).parameters.values()
        return inspect.Signature(words)


class Board(Core, Calls, Habits):
    """A board: a position, and the moves that led to it from the one in which the game began.

    >>> board = Board("8/8/8/K1pP3r/8/8/8/4k3 w - c6 0 2")
    >>> [move.uci() for move in board.legal_moves]
    ['a5a4', 'a5b5', 'a5a6', 'a5b6', 'd5d6']

    A board is a tree of moves with a cursor: `push` steps to the move's node, which it adds where there is none, and `pop` takes back what `push` did. Any
    thread may use a board; where another one is in a call of it, a call waits.
    """

    # (an attribute that a board doesn't have is an error; a class of the caller's own has those that it sets)
    __slots__ = ("__weakref__", "_at", "_searches", "encoding")
    __signature__ = _Signature()

    def __new__(cls: Type[_Board], *words: object, **named: object) -> _Board:
        self = super().__new__(cls)
        self._at = byref(c.Slot.from_address(self._address))
        return self

    def __init__(self, fen: str = STARTING_FEN, *, encoding: str = "utf-8") -> None:
        """A board with that position, or as a game begins. Raises `InvalidFenError`. The encoding is that of the texts of `line` and `pgn()`, whose bytes
        the board keeps; a byte that it doesn't have is a lone surrogate, as `errors="surrogateescape"` reads and writes it."""
        if fen is None:
            raise TypeError("a board has a position, with both kings: Board() begins a game, Board(fen) has the position of a FEN; there is no empty board")
        #: The encoding of the board's texts.
        self.encoding = _known(encoding)
        with self._lock:
            if c.lib.jatshegi_board_new(c.KEYS, self._at):
                raise MemoryError("no memory for a board")
            self._searches = 0
            self._made.clear()
            if fen != STARTING_FEN:
                self.set_fen(fen)

    @classmethod
    def from_game(cls: Type[_Board], game: Game) -> _Board:
        """A board with all of a game of `jatshegi.pgn`, its tags and its marker, its variations, comments and annotations, at the position in which it begins. A
        move that is made goes along with the game where it has that move, and is a new variation where it hasn't; `pgn()` has them all. Raises
        `InvalidGameError` for a game that is none.

        >>> board = Board.from_game(jatshegi.pgn.read_game("1. e4 e5 (1... c5 {Sicilian}) 2. Nf3 *"))
        >>> for san in ("e4", "c5", "Nf3"):
        ...     move = board.push_san(san)
        >>> print(board.pgn().splitlines()[-2])
        1. e4 e5 (1... c5 {Sicilian} 2. Nf3) 2. Nf3 *
        """
        from .pgn import Game

        if not isinstance(game, Game):
            raise TypeError(f"a game is one of jatshegi.pgn, as read_game('1. e4 *'): {game!r}")
        board = cls()
        board.encoding = game.encoding
        board._load(bytes(game))
        return board

    # Begins with the tree of the game at the start of the text.
    def _load(self, text: bytes) -> None:
        from .pgn import _fault

        used = c_size_t()
        with self._lock:
            made, self._made[:] = self._made[:], []
            status = c.lib.jatshegi_board_load(self._at, text, len(text), byref(used))
            if status:
                self._made[:] = made
        if status == c.NO_GAME or status >= c.PGN_TOKEN:
            raise _fault(status, used.value)
        if status:
            raise self._fail(status, "a game")

    def copy(self: _Board) -> _Board:
        """Another board with the same game, at the same node, as `copy.copy` and `copy.deepcopy` make it. It has no search.

        >>> board = Board()
        >>> board.push_san("e4")
        Move.from_uci('e2e4')
        >>> other = board.copy()
        >>> board.pop() == other.pop()
        True
        """
        other = type(self).__new__(type(self))
        with self._lock:
            status = c.lib.jatshegi_board_copy(self._at, other._at)
            if status:
                raise self._fail(status, "copy")
            other.encoding, other._searches, other._made[:] = self.encoding, 0, self._made
            other._keep(self._state())
        return other

    # What a class of the caller's own keeps besides.
    def _state(self) -> Dict[str, Any]:
        return getattr(self, "__dict__", {})

    def _keep(self, state: Dict[str, Any]) -> None:
        if state:
            self.__dict__.update(state)

    def __copy__(self: _Board) -> _Board:
        return self.copy()

    def __deepcopy__(self: _Board, memo: Dict[int, Any]) -> _Board:
        other = memo[id(self)] = self.copy()
        other._keep(copy.deepcopy(self._state(), memo))
        return other

    # For pickle: a function that makes the board anew, its words, and what else a class of the caller's own keeps.
    def __reduce__(self) -> Tuple[Callable[..., Board], Tuple[object, ...], Optional[Dict[str, Any]]]:
        with self._lock:
            words = type(self), self.encoding, self._game(), self._bytes(b"path"), tuple(self._made)
            state = self._state() or None
        # A board that can't be made anew isn't written.
        _restored(*words)
        return _restored, words, state

    # The number that a function of the library answers.
    def _number(self, function: Callable[..., int], what: object, *words: object) -> int:
        number = c_uint32()
        with self._lock:
            status = function(self._at, *words, byref(number))
        if status:
            raise self._fail(status, what)
        return number.value

    # ---- the position

    def reset(self) -> None:
        """Begins a new game: the position in which a game begins, and no move."""
        self.set_fen(STARTING_FEN)

    def set_fen(self, fen: str) -> None:
        """Begins a new game from that position, as `Board(fen)`. Raises `InvalidFenError`, and the game is then as it was."""
        text = text_of(fen, "a FEN is a text").encode(errors="surrogatepass")
        with self._lock:
            made, self._made[:] = self._made[:], []
            status = c.lib.jatshegi_board_set(self._at, text, len(text))
            if status:
                self._made[:] = made
            if status >= c.FEN_FIELDS:
                raise InvalidFenError(fen, status - c.FEN_FIELDS + 1, c.SENTENCES[status])
            if status:
                raise self._fail(status, fen)

    def epd(self) -> str:
        """The first four fields of the FEN, with the en passant target only where a legal move captures on it: the same text exactly where the Laws call positions
        the same (FIDE Laws 9.2.3), so a key for a dictionary of positions.

        >>> board = Board()
        >>> board.push_san("e4")
        Move.from_uci('e2e4')
        >>> board.epd()
        'rnbqkbnr/pppppppp/8/8/4P3/8/PPPP1PPP/RNBQKBNR b KQkq -'
        """
        return self._short(c.lib.jatshegi_board_epd, "epd")

    def polyglot_key(self) -> int:
        """The position's key in Polyglot's opening books, by which many programs name positions. `jatshegi.polyglot.zobrist_hash(board)` is the same.

        >>> hex(Board().polyglot_key())
        '0x463b96181691fc9c'
        """
        key = c_uint64()
        self._call(c.lib.jatshegi_board_key, "polyglot_key", byref(key))
        return key.value

    # A text of a position that a function of the library writes.
    def _short(self, function: Callable[..., int], what: str) -> str:
        text, count = _FenRoom(), c_size_t()
        with self._lock:
            status = function(self._at, text, c.MOST_FEN, byref(count))
        if status:
            raise self._fail(status, what)
        return text.raw[: count.value].decode()

    # What an entry of a book says here: the move, its weight and a number; None where it stands for no legal move.
    def _booked(self, book: "ctypes.Array[c_char]", size: int, entry: int) -> Optional[Tuple[Move, int, int]]:
        move, weight, learn = c.CMove(), c_uint16(), c_uint32()
        with self._lock:
            status = c.lib.jatshegi_board_book_move(self._at, book, size, entry, byref(move), byref(weight), byref(learn))
        if status == c.ILLEGAL:
            return None
        if status:
            raise self._fail(status, "find_all")
        return SHOWN[bytes(move)], weight.value, learn.value

    @property
    def ply(self) -> int:
        """How many moves led to the position."""
        return self._number(c.lib.jatshegi_board_depth, "ply")

    def piece_map(self) -> Dict[int, Piece]:
        """The men by their squares. A man equals his letter, as FEN writes it: 'K' for White's king, 'p' for a pawn of Black's."""
        return {square: BY_LETTER[letter] for square, letter in enumerate(self._men()) if letter}

    @property
    def ep_square(self) -> Optional[int]:
        """The square that a pawn has just passed over with two steps, or None (FIDE Laws 3.7.3.1).

        >>> Board("8/8/8/K1pP3r/8/8/8/4k3 w - c6 0 2").ep_square
        42
        """
        target = self._position().target
        return None if target == c.NO_SQUARE else int(target)

    @property
    def castling_rights(self) -> int:
        """The squares of the rooks with which a side may still castle, as a word of 64 bits; `set_fen` sets them.

        >>> SquareSet(Board().castling_rights) == {jatshegi.A1, jatshegi.H1, jatshegi.A8, jatshegi.H8}
        True
        """
        rights = self._position().castling
        return sum(1 << square for bit, square in ((1, 7), (2, 0), (4, 63), (8, 56)) if rights & bit)

    @property
    def chess960(self) -> bool:
        """False: no board has a position of Chess960."""
        return False

    def has_kingside_castling_rights(self, color: bool) -> bool:
        """Whether that side may still castle with the rook of file h (FIDE Laws 3.8.2.1)."""
        return bool(self._position().castling & (1 if colour_of(color) else 4))

    def has_queenside_castling_rights(self, color: bool) -> bool:
        """The same with the rook of file a."""
        return bool(self._position().castling & (2 if colour_of(color) else 8))

    @property
    def halfmove_clock(self) -> int:
        """How many plies there were since the last pawn's move or capture (PGN 16.1.3.5)."""
        return int(self._position().clock)

    @property
    def fullmove_number(self) -> int:
        """The number of the move, one more after each move of Black (PGN 16.1.3.6)."""
        return int(self._position().number)

    # ---- moves

    def is_legal(self, move: Move) -> bool:
        """Whether the move is legal."""
        try:
            return self._is_legal(move)
        except IllegalMoveError:
            return False

    def push_san(self, san: str) -> Move:
        """Makes the move that the text names in standard algebraic notation, and returns it. Raises `InvalidMoveError`, `IllegalMoveError`
        or `AmbiguousMoveError`."""
        with self._lock:
            move = self.parse_san(san)
            self.push(move)
            return move

    def push_uci(self, uci: str) -> Move:
        """Makes the move of a text from square to square, as 'e2e4' or 'e7e8q', and returns it. Raises `InvalidMoveError` or
        `IllegalMoveError`."""
        move = Move.from_uci(uci)
        self.push(move)
        return move

    # ---- the Laws

    def checkers(self) -> SquareSet:
        """The squares of the men that check the side to move."""
        return SquareSet(self._checks())

    @property
    def status(self) -> Status:
        """The game's status (FIDE Laws 5.1.1, 5.2.1, 5.2.2, 9.6); `Status.PLAY` where it goes on."""
        return _STATUSES[self._outcome()]

    def outcome(self, *, claim_draw: bool = False) -> Optional[Outcome]:
        """How the game ended, or None where it goes on. With `claim_draw` it ends where the side to move may claim a draw, by the position for the third time or 50
        moves, on the board or after a legal move (FIDE Laws 9.2, 9.3).

        >>> Board("7k/8/6Q1/8/8/8/8/K7 b - -").outcome()
        Outcome(termination=<Termination.STALEMATE: 2>, winner=None)
        """
        if not claim_draw and self._outcome() == Status.PLAY:
            return None
        with self._lock:
            status = self.status
            if status != Status.PLAY:
                return Outcome(TERMINATIONS[status], not self.turn if status == Status.CHECKMATE else None)
            if claim_draw and self.can_claim_fifty_moves():
                return Outcome(Termination.FIFTY_MOVES, None)
            if claim_draw and self.can_claim_threefold_repetition():
                return Outcome(Termination.THREEFOLD_REPETITION, None)
            return None

    def has_insufficient_material(self, color: bool) -> bool:
        """Whether that side can't mate any more by any series of legal moves: it has only its king, or the position is dead; so where its opponent's time is over,
        the game is drawn (FIDE Laws 5.2.2, 6.9). False doesn't say that it can.

        >>> board = Board("4k3/8/8/8/8/8/4P3/4K3 b - - 0 1")
        >>> board.has_insufficient_material(jatshegi.BLACK), board.has_insufficient_material(jatshegi.WHITE)
        (True, False)
        """
        cannot = c_bool()
        self._call(c.lib.jatshegi_board_cannot_mate, "has_insufficient_material", 0 if colour_of(color) else 1, byref(cannot))
        return cannot.value

    def claims(self, move: Optional[Move] = None) -> Tuple[bool, bool]:
        """Whether a draw may be claimed by the same position for the third time, and by 50 moves; with a move, in the position after
        it (FIDE Laws 9.2, 9.3). Raises `IllegalMoveError`."""
        if move is None:
            number = self._number(c.lib.jatshegi_board_claims, "claims")
        else:
            number = self._number(c.lib.jatshegi_board_claims_with, move, numbers_of(move))
        return bool(number & 1), bool(number & 2)

    def repetitions(self) -> int:
        """How often the position has come up in the game, this time included (FIDE Laws 9.2.2)."""
        return self._number(c.lib.jatshegi_board_repetitions, "repetitions")

    def attackers(self, color: bool, square: int) -> SquareSet:
        """The squares of the men of that colour that attack the square, whatever is on it: a king and pinned men too, but no man that another
        is in the way of (FIDE Laws 3.1 to 3.8). Raises `ValueError` for a number that is no square's.

        >>> [SQUARE_NAMES[square] for square in Board().attackers(WHITE, 21)]
        ['g1', 'e2', 'g2']
        """
        return SquareSet(self._attacks(square_of(square) + (0 if colour_of(color) else 64)))

    def attack_counts(self, color: bool) -> List[int]:
        """For each square, a1 first, how many men of that colour attack it (FIDE Laws 3.1.2).

        >>> Board().attack_counts(WHITE)[16:24]
        [2, 2, 3, 2, 2, 3, 2, 2]
        """
        is_white, white, black = colour_of(color), _Squares(), _Squares()
        self._call(c.lib.jatshegi_board_counts, "attack_counts", white, black)
        return list(bytes(white if is_white else black))

    # ---- the engine

    def evaluate(self) -> int:
        """The evaluation, in centipawns for White."""
        value = c_int32()
        self._call(c.lib.jatshegi_board_evaluation, "evaluate", byref(value))
        return value.value

    def best(self, depth: int) -> Optional[Tuple[Move, int]]:
        """The first legal move of greatest minimax value, 1 to 16 plies deep, and its value for the side to move: centipawns, or 30,000
        less the plies to a mate. None where there is no legal move. An exception that a signal raises, as Ctrl-C does, leaves it within some milliseconds, with the
        board as before. Raises `ValueError` for another depth."""
        depth = depth_of(depth)
        move, value, visited = c.CMove(), c_int32(), c_uint64()

        def search(nodes: int, stop: Any) -> int:
            return int(c.lib.jatshegi_board_best_within(self._at, depth, nodes, stop, byref(move), byref(value), byref(visited)))

        with self._lock:
            status = stoppable(self, search)
        if status == c.NONE:
            return None
        if status:
            raise self._fail(status, "best")
        return SHOWN[bytes(move)], value.value

    def best_within(self, depth: int = 16, *, time: Optional[float] = None, nodes: Optional[int] = None) -> Optional[Best]:
        """The same at depths 1, 2, .. up to that one, as far as a time in seconds and a number of positions allow: what `best` answers at the deepest depth that
        was completed. Depth 1 always is. None where there is no legal move. It ends some milliseconds after its time, or after an exception that a signal
        raises, as Ctrl-C does: then the board is as before. Raises `ValueError` for a depth that isn't 1 to 16, and for a time or a number below 0.

        >>> Board("7k/8/6K1/8/8/8/8/R7 w - - 0 1").best_within(3, time=60)[:3]
        (Move.from_uci('a1a8'), 29999, 3)
        """
        depth = depth_of(depth)
        if time is not None and not isinstance(time, (int, float)):
            raise TypeError(f"a time is a number of seconds, not below 0: {time!r}")
        if time is not None and not 0 <= time <= threading.TIMEOUT_MAX:
            raise ValueError(f"a time is a number of seconds, not below 0: {time}")
        most = ANY_NUMBER if nodes is None else min(whole(nodes, "a number of positions is not below 0", 0), ANY_NUMBER)
        # The worker calls on the board in this thread's name, which has the lock until the worker has ended.
        found: List[Best] = []
        with self._lock, Flag() as flag:
            run(self, lambda: self._deepen(depth, most, flag, found), flag, time)
        return found[-1] if found else None

    # Searches deeper and deeper, until a search is abandoned; no other call is on the board meanwhile.
    def _deepen(self, last: int, most: int, flag: Flag, found: List[Best]) -> None:
        move, value, visited, all_visited = c.CMove(), c_int32(), c_uint64(), 0
        for depth in range(1, last + 1):
            left = ANY_NUMBER if depth == 1 else max(most - all_visited, 0)
            status = c.lib.jatshegi_board_best_within(self._at, depth, left, flag.theirs, byref(move), byref(value), byref(visited))
            if status in (c.NONE, c.ABANDONED):
                return
            if status:
                raise self._fail(status, "best")
            all_visited += visited.value
            found.append(Best(SHOWN[bytes(move)], value.value, depth, all_visited))

    def search(self, depth: int) -> Iterator[Tuple[int, Move, int]]:
        """The same search in slices: one legal move after another is searched, and after each come how many are left, the best so far and its value.
        So a program may stop it when it likes. Once none is left it is what `best` answers. The position is the one at the time of the call, whatever
        is made of the board meanwhile; a board has one search, and another ends it. Raises `ValueError` for a depth that isn't 1 to 16.

        >>> for left, move, value in Board("7k/8/6K1/8/8/8/8/R7 w - - 0 1").search(1):
        ...     if left == 0:
        ...         print(move.uci(), value)
        a1a8 29999
        """
        depth = depth_of(depth)
        with self._lock:
            status = c.lib.jatshegi_search_start(self._at, depth)
            if status not in (c.OK, c.NONE):
                raise self._fail(status, "search")
            self._searches += 1
            return iter(()) if status else self._slices(self._searches)

    # The slices of the search with that number, while no other is begun.
    def _slices(self, number: int) -> Iterator[Tuple[int, Move, int]]:
        left, best, value, visited = c_size_t(1), c.CMove(), c_int32(), c_uint64()

        def search(nodes: int, stop: Any) -> int:
            return int(c.lib.jatshegi_search_slice_within(self._at, nodes, stop, byref(left), byref(visited)))

        while left.value:
            with self._lock:
                if number != self._searches:
                    return
                status = stoppable(self, search)
                if status:
                    raise self._fail(status, "search")
                self._call(c.lib.jatshegi_search_best, "search", byref(best), byref(value))
                if not left.value:
                    self._call(c.lib.jatshegi_search_end, "search")
            yield left.value, SHOWN[bytes(best)], value.value

    # ---- the game

    def pgn(self) -> str:
        """The game in export form, its tags and its marker, variations, comments and annotations included (PGN 3.2)."""
        return self._shown(self._game())

    @property
    def headers(self) -> Tags:
        """The tags of the game, which can be set and taken out; a game has those of the text that it was read from, else nothing is known. Another position
        (`set_fen`, `reset`) leaves them.

        >>> board = Board.from_game(jatshegi.pgn.read_game('[White "Réti"] 1. Nf3 d5 1-0'))
        >>> board.headers["Black"] = "Rubinstein"
        >>> board.headers["White"], board.pgn().splitlines()[5]
        ('Réti', '[Black "Rubinstein"]')
        """
        return Tags(self)

    @property
    def marker(self) -> str:
        """How the game ended, as its text says: '1-0', '0-1', '1/2-1/2', or '*' (PGN 8.2.6); `outcome` is what the Laws say. Raises `ValueError` where it is set
        to another text.

        >>> board = Board()
        >>> board.marker = "1/2-1/2"
        >>> print(board.pgn().splitlines()[-2])
        1/2-1/2
        """
        return c.MARKERS[self._number(c.lib.jatshegi_board_result, "marker")]

    @marker.setter
    def marker(self, marker: str) -> None:
        if not isinstance(marker, str) or marker not in c.MARKERS:
            raise ValueError(f"a game's end is one of {', '.join(c.MARKERS)}: {marker!r}")
        self._call(c.lib.jatshegi_board_set_result, marker, c.MARKERS.index(marker))

    # The moves along the first children to the end; the cursor is there then.
    def _main_line(self) -> List[Move]:
        with self._lock:
            self._made.clear()
            self._call(c.lib.jatshegi_board_end, "end")
            return self.move_stack

    # The bytes of the game in export form.
    def _game(self) -> bytes:
        game = self._handed(c.lib.jatshegi_board_pgn, "pgn")
        assert game is not None
        return game

    def line(self, line: str) -> str:
        """What the program's `board` answers to a line, as 'comment a quiet move', without the line feed at its end. 'refused N NAME' where
        it does nothing. Raises `UnicodeEncodeError` for a text that the board's encoding doesn't have.

        >>> Board().line("play e5")
        'refused 2 Illegal'
        """
        text_of(line, "a line is a text")
        if "\n" in line or "\r" in line:
            raise ValueError("a line has no end of line in it")
        text = line.encode(self.encoding, "surrogateescape")
        with self._lock:
            made, self._made[:] = self._made[:], []
            answer = self._shown(self._bytes(text)).rstrip("\n")
            # What is done is answered with `ok`; any other answer says something of the board, or is a refusal.
            if answer != "ok":
                self._made[:] = made
        return answer

    # A text of the board's, read in its encoding.
    def _shown(self, text: bytes) -> str:
        return text.decode(self.encoding, "surrogateescape")

    # The bytes that the board answers to a line. Only 'path' and 'pgn', which change nothing, are asked twice.
    def _bytes(self, line: bytes) -> bytes:
        answer = self._handed(c.lib.jatshegi_board_answer, line, line, len(line))
        assert answer is not None
        return answer

    # The bytes that a function of the library writes; None where there are none of that name or at that place.
    def _handed(self, function: Callable[..., int], what: object, *words: object) -> Optional[bytes]:
        text, count = _AnswerRoom(), c_size_t()
        with self._lock:
            status = function(self._at, *words, text, len(text), byref(count))
            if status == c.NO_ROOM:
                text = (c_char * count.value)()
                status = function(self._at, *words, text, len(text), byref(count))
        if status == c.NO_SUCH:
            return None
        if status:
            raise self._fail(status, what)
        return text.raw[: count.value]

    # What a function of the library answers.
    def _status(self, function: Callable[..., int], *words: object) -> int:
        with self._lock:
            return function(self._at, *words)

    def __eq__(self, other: object) -> bool:
        """Whether the positions are the same (FIDE Laws 9.2.3), and the halfmove clock and the number of the move."""
        if not isinstance(other, Board):
            return NotImplemented
        return self.epd() == other.epd() and (self.halfmove_clock, self.fullmove_number) == (other.halfmove_clock, other.fullmove_number)

    __hash__ = None  # type: ignore[assignment]  # (it can be changed)

    # ---- pictures

    def __str__(self) -> str:
        """A diagram, White at the bottom.

        >>> print(Board("8/8/8/K1pP3r/8/8/8/4k3 w - c6 0 2"))
        . . . . . . . .
        . . . . . . . .
        . . . . . . . .
        K . p P . . . r
        . . . . . . . .
        . . . . . . . .
        . . . . . . . .
        . . . . k . . .
        """
        men = self.piece_map()
        return "\n".join(" ".join(men.get(8 * rank + file, ".") for file in range(8)) for rank in range(7, -1, -1))

    def __repr__(self) -> str:
        return f"Board({self.fen()!r})"

    def _repr_svg_(self) -> str:
        """A picture, which a notebook shows: the last move and a check are marked. `jatshegi.svg.board` has more to choose."""
        from . import svg

        last = self.peek() if self.ply else None
        return svg.board(self, lastmove=last, check=self.king(self.turn) if self.is_check() else None, size=390)


def _restored(of: Type[_Board], encoding: str, text: bytes, path: bytes, made: Tuple[bool, ...]) -> _Board:
    """The board of a game in export form, at the node with that path. Raises `LimitError` where the game is too large to be read, and `Error` where another
    game or another node would be there."""
    from ._errors import InvalidGameError

    board = of.__new__(of)
    Board.__init__(board, encoding=encoding)
    try:
        board._load(text)
    except InvalidGameError as fault:
        raise LimitError(f"the board can't be copied: {fault}") from None
    if path != b"-\n":
        board._bytes(b"goto " + path.rstrip(b"\n"))
    if (board._game(), board._bytes(b"path")) != (text, path):
        raise Error("the board can't be copied: its game reads as another one")
    board._made[:] = made
    return board
