"""Games in Portable Game Notation: read one after another, with variations, comments and annotations, and written.

    >>> game = jatshegi.pgn.read_game('[White "Réti"] 1. Nf3 d5 (1... c5 $5 {Sicilian}) 2. g3 1-0')
    >>> game.headers["White"], game.result
    ('Réti', '1-0')
    >>> [node.san for node in game.mainline()]
    ['Nf3', 'd5', 'g3']
    >>> [child.san for child in game.root.children[0].children]
    ['d5', 'c5']
    >>> game.board().fen()
    'rnbqkbnr/pppppppp/8/8/8/8/PPPPPPPP/RNBQKBNR w KQkq - 0 1'

A game is read by the proved reader of the library, which writes it in export form (PGN 3.2): each move legal, its text the standard one. This module
parses that text, which is tested. What is changed of a game is changed by the library, on a board that holds it; `Game()` is one without moves.

Games are bytes. They are read in UTF-8, and a game whose bytes are none in ISO 8859-1, the encoding of the standard (PGN 4.1); `encoding` names another one.
`bytes(game)` are the game's own bytes, whatever it is.
"""
from __future__ import annotations

import contextlib
import ctypes
import importlib
import io
import os
import sys
import threading
import weakref
from ctypes import byref, c_char, c_size_t, c_void_p
from typing import IO, Any, Callable, Dict, Iterator, List, MutableMapping, NamedTuple, Optional, Tuple, TypeVar, Union, cast

from . import _library as c
from . import _texts
from ._board import Board, _known
from ._checks import one_of
from ._edits import EDITING, Edits
from ._errors import InvalidGameError
from ._moves import BLACK, WHITE, Move
from ._nodes import Mainline, Nags, Node
from ._status import Status
from ._visitors import SKIP, BaseVisitor, SkipType, StringExporter, walk

__all__ = [
    "SKIP",
    "BaseVisitor",
    "Game",
    "Headers",
    "Mainline",
    "Nags",
    "Node",
    "Repair",
    "Report",
    "SkipType",
    "StringExporter",
    "games",
    "read_game",
    "read_headers",
]

_T = TypeVar("_T")
# What is called with the repairs of a game that was saved.
_Repaired = Callable[[List["Repair"]], object]

# The tags of a game's start.
_STARTS = ("FEN", "SetUp")


class Headers(MutableMapping[str, str]):
    """The tags of a game by their names, as the game has them at each moment. They can be set and taken out (PGN 8.1).

    First come Event, Site, Date, Round, White, Black and Result, which each game has: taken out, each says '?' again, '????.??.??' or '*'. The others
    follow in ASCII order. FEN and SetUp are the game's start, which `setup` sets. Raises `ValueError` for a name or a value that is none.

    >>> game = jatshegi.pgn.read_game('[White "Réti"] 1. Nf3 *')
    >>> game.headers["Black"], game.headers["Result"] = "Rubinstein", "1-0"
    >>> game.result, str(game).splitlines()[5]
    ('1-0', '[Black "Rubinstein"]')
    """

    __slots__ = ("_game",)

    def __init__(self, game: Game) -> None:
        one_of(game, Game, "headers are those of a game, as Game().headers, and are set one by one")
        self._game = game

    def __getitem__(self, name: str) -> str:
        return self._game._tags_now()[name]

    def __setitem__(self, name: str, value: str) -> None:
        if not isinstance(name, str) or not isinstance(value, str):
            raise TypeError(f"a tag's name and its value are texts: {name!r}, {value!r}")
        if name == "Result":
            self._game.result = value
        elif name in _STARTS and self.get(name) != value:
            raise ValueError(f"a game's start is set by `setup`: {name!r}")
        elif name not in _STARTS:
            self._game._edits_of().tag(name, value)

    def __delitem__(self, name: str) -> None:
        self[name]
        if name == "Result":
            self._game.result = "*"
        elif name in _STARTS:
            raise ValueError(f"a game's start is set by `setup`: {name!r}")
        else:
            self._game._edits_of().tag(name, None)

    def clear(self) -> None:
        """Takes out all but the start; the seven that each game has then say that nothing is known."""
        for name in list(self):
            if name not in _STARTS:
                del self[name]

    def __iter__(self) -> Iterator[str]:
        return iter(self._game._tags_now())

    def __len__(self) -> int:
        return len(self._game._tags_now())

    def __repr__(self) -> str:
        return f"Headers({self._game._tags_now()!r})"

    def copy(self) -> Dict[str, str]:
        """A dictionary of them, which is the caller's own."""
        return dict(self._game._tags_now())


class Report(NamedTuple):
    """What the Laws say of a game's main line (FIDE Laws 5 and 9). A ply is a number of moves made, from 0 to `plies`."""

    #: The moves of the main line.
    plies: int
    #: How the game ended, as its text says: '1-0', '0-1', '1/2-1/2' or '*'.
    marker: str
    #: The status at the last position.
    status: Status
    #: The side that has mated the other there: WHITE, BLACK or None.
    winner: Optional[bool]
    #: The first ply at which the game is over, and why; None where it never is.
    over: Optional[int]
    why: Optional[Status]
    #: The first ply at which a draw may be claimed by repetition (9.2.2), and by fifty moves (9.3.2).
    threefold: Optional[int]
    fifty: Optional[int]
    #: The most often a position has come up, at least 1.
    repetitions: int
    #: The most plies in a row without a pawn's move or a capture.
    quiet: int
    #: Whether the marker agrees with the board: after mate it is the winner's, after each other end a draw's, else any.
    agrees: bool
    #: The FEN of the last position.
    fen: str

    @property
    def is_played_on(self) -> bool:
        """Whether moves follow after the game was over."""
        return self.over is not None and self.over < self.plies

    @property
    def has_finding(self) -> bool:
        """Whether something is wrong: moves follow after the game was over, or its marker disagrees with the board."""
        return self.is_played_on or not self.agrees


class Repair(NamedTuple):
    """What was written otherwise in the text of a game so that it could be read: `name` says what (`Castling`, `Hyphen`, `Illegal`, ..; the formats of
    `chess_games --salvage` list them), `place` where, in bytes from the beginning of the input, and `length` and `written` how many bytes were replaced by
    how many. Of a line that is cut off the place is as near as it can be said."""

    place: int
    name: str
    length: int
    written: int


def _ply(number: int) -> Optional[int]:
    return None if number == c.NEVER else number


def _decoded(data: bytes, encoding: Optional[str]) -> Tuple[str, str]:
    """The text of the bytes of a game and its encoding: the one that is named, else UTF-8, or ISO 8859-1 where they are none."""
    if encoding is not None:
        return data.decode(encoding, "surrogateescape"), encoding
    try:
        return data.decode("utf-8"), "utf-8"
    except UnicodeDecodeError:
        return data.decode("iso-8859-1"), "iso-8859-1"


def _game(data: bytes, encoding: Optional[str], place: Optional[int] = None) -> Game:
    """The game of bytes in export form, and its place in the input that it was read from."""
    game = Game.__new__(Game)
    game._begin(data, encoding, place)
    return game


class Game(Node):
    """A game: its tags, its moves as a tree whose root it is, how it ended, and its text in export form. What is changed of it is changed by the library, and
    its text is what the library writes then; where that refuses something an error says what, and nothing has changed.

    >>> game = jatshegi.pgn.Game()
    >>> game.headers["White"] = "Réti"
    >>> node = game.add_line(["Nf3", "d5"])
    >>> node.parent.add_variation("Nf6").comment = "as often"
    >>> game.result = "1-0"
    >>> print(str(game).splitlines()[-2])
    1. Nf3 d5 (1... Nf6 {as often}) 1-0
    """

    __slots__ = ("_data", "_edits", "_encoding", "_marker", "_nodes", "_said", "_started", "_tags", "_text")

    def __init__(self, text: Union[str, bytes] = "*") -> None:
        """The first game of a text, as `read_game` has it; one without moves where no text is given. Raises `InvalidGameError`, also where no game is there."""
        if not isinstance(text, (str, bytes)):
            raise TypeError(f"a game is read from a text or bytes, and `headers` are set afterwards: {text!r}")
        data, place = _Texts(_bytes_of(text)).next()
        if data is None:
            raise InvalidGameError(0, 6, "there is no game")
        self._begin(data, "utf-8" if isinstance(text, str) else None, place)

    @classmethod
    def from_board(cls, board: Board) -> Game:
        """The whole game of a board as it is now: its tags and its marker, variations, comments and annotations.

        >>> board = Board()
        >>> move, board.headers["White"] = board.push_san("e4"), "Réti"
        >>> game = jatshegi.pgn.Game.from_board(board)
        >>> game.headers["White"], [node.san for node in game.mainline()]
        ('Réti', ['e4'])
        """
        one_of(board, Board, "a game is made from a Board")
        game = cls.__new__(cls)
        game._begin(board._game(), board.encoding)
        return game

    # From bytes in export form. The tags and the tree are made out when they are asked for; so are the bytes and the text of a game that is edited.
    def _begin(self, data: bytes, encoding: Optional[str], place: Optional[int] = None) -> None:
        self._san = self._parent = None
        self._started = place
        self._nags = ()
        self._edits: Optional[Edits] = None
        self._tags: Optional[Dict[str, str]] = None
        self._data: Optional[bytes] = data
        self._text: Optional[str]
        self._text, self._encoding = _decoded(data, encoding)
        # The children, the comment and the marker, once they are made out.
        self._nodes: Optional[List[Node]] = None
        self._said = self._marker = ""

    # Makes out the tree, once.
    def _grown_tree(self) -> List[Node]:
        with EDITING:
            if self._nodes is None:
                top = Node()
                self._marker = _tree(top, self, bytes(self))
                self._said, self._nodes = top._comment, top._children
            return self._nodes

    # (a root keeps these elsewhere than other nodes, so that they are made out when they are asked for)
    @property
    def _children(self) -> List[Node]:
        nodes = self._nodes
        return self._grown_tree() if nodes is None else nodes

    @_children.setter
    def _children(self, nodes: List[Node]) -> None:
        self._nodes = nodes

    @property
    def _comment(self) -> str:
        self._children
        return self._said

    @_comment.setter
    def _comment(self, comment: str) -> None:
        self._children
        self._said = comment

    @property
    def _result(self) -> str:
        return self._marker if self._nodes is not None else bytes(self).split()[-1].decode()

    @_result.setter
    def _result(self, marker: str) -> None:
        self._children
        self._marker = marker

    def mainline_moves(self) -> Mainline[Move]:
        """The moves of the main line. The library computes them without the tree, each time that you go through them.

        >>> [move.uci() for move in jatshegi.pgn.read_game("1. e4 e5 (1... c5) 2. Nf3 *").mainline_moves()]
        ['e2e4', 'e7e5', 'g1f3']
        """
        return Mainline(self, lambda: iter(Board.from_game(self)._main_line()), lambda: len(self.mainline_sans()))

    def mainline_sans(self) -> List[str]:
        """Their texts in standard algebraic notation, without the tree.

        >>> jatshegi.pgn.read_game("1. e4 {best by test} e5 (1... c5 (1... e6) 2. Nf3) 2. Nf3 *").mainline_sans()
        ['e4', 'e5', 'Nf3']
        """
        data = bytes(self)
        sans = _texts.words(data, _texts.movetext(data), True)
        sans.pop()
        return cast(List[str], sans)

    # What edits it, from the first edit on.
    def _edits_of(self) -> Edits:
        with EDITING:
            if self._edits is None:
                self._edits = Edits(self)
            return self._edits

    # An edit has made other bytes of it.
    def _is_changed(self, *, tags: bool = False) -> None:
        self._data = self._text = None
        if tags:
            self._tags = None

    # The game of its own new bytes.
    def _read_again(self, data: bytes) -> Game:
        game = _game(data, self._encoding)
        self._tags, self._result = None, game._result
        return game

    def _tags_now(self) -> Dict[str, str]:
        tags = self._tags
        if tags is None:
            with EDITING:
                tags = self._tags = _texts.tags(bytes(self), self._encoding)
        return tags

    @property
    def headers(self) -> Headers:
        """The tags by their names, which can be set and taken out."""
        return Headers(self)

    @property
    def root(self) -> Game:
        """The node of the position in which the game begins: the game itself."""
        return self

    @property
    def result(self) -> str:
        """How the game ended, as its text says: '1-0', '0-1', '1/2-1/2' or '*'. Raises `ValueError` where it is set to another text."""
        return self._result

    @result.setter
    def result(self, result: str) -> None:
        self._edits_of().mark(result)

    @property
    def encoding(self) -> str:
        """The encoding in which the game's bytes are its text: `str(game).encode(game.encoding, "surrogateescape") == bytes(game)`."""
        return self._encoding

    @property
    def place(self) -> Optional[int]:
        """Where the game begins in the bytes that it was read from; of an open file the position to which `file.seek(game.place)` leads, so that `read_game` reads
        the game again. None of a game that wasn't read, and of a file of text whose positions can't be counted, as one with line ends of several kinds.

        >>> [game.place for game in jatshegi.pgn.games(b"1. e4 * 1. d4 *")]
        [0, 7]
        """
        return self._started

    @property
    def start(self) -> Optional[str]:
        """The FEN of the position in which the game begins; None for the usual one."""
        return self._tags_now().get("FEN")

    def setup(self, board: Union[Board, str]) -> None:
        """Has the game begin in the position of a board, or of a FEN. Raises `InvalidFenError`, and `ValueError` where the game has moves.

        >>> game = jatshegi.pgn.Game()
        >>> game.setup("4k3/8/8/8/8/8/4P3/4K3 b - - 7 20")
        >>> move = game.add_variation("Kd7")
        >>> print(str(game).splitlines()[-2])
        20... Kd7 *
        """
        one_of(board, (str, Board), "a game begins in the position of a Board, or of a FEN")
        self._edits_of().begin(board if isinstance(board, str) else board.fen())

    def board(self, node: Optional[Node] = None) -> Board:
        """A board at the position of a node, or where the game begins.

        >>> game = jatshegi.pgn.read_game("1. f3 e5 2. g4 Qh4# 0-1")
        >>> *_, last = game.mainline()
        >>> game.board(last).outcome().result()
        '0-1'
        """
        one_of(node, (Node, type(None)), "a game's board is at a Node, or at None")
        return super().board() if node is None or node is self else node.board()

    def accept(self, visitor: BaseVisitor[_T]) -> _T:
        """Has the visitor see the whole game, and returns its result."""
        one_of(visitor, BaseVisitor, "a visitor is a BaseVisitor")
        visitor.visit_encoding(self._encoding)
        if visitor.begin_game() is not SKIP:
            for name, value in self.headers.items():
                visitor.visit_header(name, value)
            if visitor.end_headers() is not SKIP:
                self._show(visitor)
        visitor.end_game()
        return visitor.result()

    # Has the visitor see the moves.
    def _show(self, visitor: BaseVisitor[_T]) -> None:
        board = self.board()
        visitor.visit_board(board)
        if self._comment:
            visitor.visit_comment(self._comment)
        if self._children:
            walk(self._children[0], board, visitor, is_main=True)
        visitor.visit_result(self._result)

    def report(self) -> Report:
        """What the Laws say of the main line.

        >>> report = jatshegi.pgn.read_game("1. f3 e5 2. g4 Qh4# 1-0").report()
        >>> report.status, report.winner == jatshegi.BLACK, report.agrees, report.has_finding
        (<Status.CHECKMATE: 0>, True, False, True)
        """
        found, fen, count, used = c.CReport(), ctypes.create_string_buffer(c.MOST_FEN), c_size_t(), c_size_t()
        data = bytes(self)
        status = c.lib.jatshegi_game_report(data, len(data), byref(found), fen, c.MOST_FEN, byref(count), byref(used))
        if status:
            raise _fault(status, used.value)
        over = _ply(found.over)
        return Report(
            plies=found.plies,
            marker=c.MARKERS[found.marker],
            status=Status(found.status),
            winner=(None, WHITE, BLACK)[found.winner],
            over=over,
            why=None if over is None else Status(found.why),
            threefold=_ply(found.threefold),
            fifty=_ply(found.fifty),
            repetitions=found.repetitions,
            quiet=found.quiet,
            agrees=found.agrees,
            fen=fen.raw[: count.value].decode(),
        )

    def __str__(self) -> str:
        """The game in export form (PGN 3.2), as the program `chess pgn` writes it."""
        text = self._text
        if text is None:
            with EDITING:
                text, _ = _decoded(bytes(self), self._encoding)
                self._text = text
        return text

    def __bytes__(self) -> bytes:
        """The same as the bytes that it is, byte for byte.

        >>> game = jatshegi.pgn.read_game(b'[White "R\\xe9ti"] *')
        >>> game.headers["White"], game.encoding, b"R\\xe9ti" in bytes(game)
        ('Réti', 'iso-8859-1', True)
        """
        data = self._data
        if data is None:
            with EDITING:
                assert self._edits is not None
                data = self._data = self._edits.text()
        return data

    def __reduce__(self) -> Tuple[Callable[..., Game], Tuple[object, ...]]:
        return _game, (bytes(self), self._encoding, self._started)

    def __repr__(self) -> str:
        return f"<Game {self.headers.get('White', '?')} - {self.headers.get('Black', '?')}, {self.result}>"


def _tree(top: Node, root: Game, data: bytes) -> str:
    """Puts the tree of a game in export form below a node, which stands for the root, and the comment of that. The marker at its end."""
    node, left = top, []
    *words, marker = _texts.words(data, _texts.movetext(data), False)
    for word in words:
        if isinstance(word, bytes):
            node._comment = " ".join(word.decode(root._encoding, "surrogateescape").split("\n"))
        elif word == "(":
            left.append(node)
            node = top if node._parent is root else node._parent  # type: ignore[assignment]  # (a node below the root has a parent)
        elif word == ")":
            node = left.pop()
        elif word[0] == "$":
            node._nags += (int(word[1:]),)
        else:
            child = Node(word, root if node is top else node)
            node._children.append(child)
            node = child
    return str(marker)


def _fault(status: int, place: int) -> Exception:
    """What a status of the reader raises, other than OK and NO_ROOM."""
    if status == c.NO_MEMORY:
        return MemoryError("no memory for a game")
    if status == c.NO_GAME:
        return InvalidGameError(place, 6, "there is no game")
    return InvalidGameError(place, status - c.PGN_TOKEN + 1, c.SENTENCES[status])


# No answer about a game hangs on bytes that are further from its beginning, with three of a byte order mark, and more for a game that is repaired; and how
# many are read at a time.
_DECIDED, _PIECE = 1_179_648, 1 << 21
_PARTS_OF_A_MARK = (b"\xef", b"\xef\xbb")


class _Texts:
    """The export forms of games, one after another, and their places: of some bytes, or of what is read piece by piece. As much of that is kept as decides the
    next game."""

    def __init__(self, data: bytes, read: Optional[Callable[[int], bytes]] = None) -> None:
        self._data, self._read, self._lock = data, read, threading.Lock()
        # Where the next game is looked for, where the last one was, and how many bytes came before those that are kept.
        self._at = self._last = self.before = 0
        # Room for an export form, and for repairs.
        self._room, self._repairs = (c_char * 16384)(), (c.CRepair * 64)()

    # Reads more, at least as much as is kept, so that no byte is looked at often.
    def _more(self) -> None:
        assert self._read is not None
        left = len(self._data) - self._at
        piece = self._read(max(_PIECE, left))
        if not piece:
            self._read = None
        self._data, self.before, self._at, self._last = self._data[self._at :] + piece, self.before + self._at, 0, 0

    # The bytes that the last call has passed over.
    def passed(self) -> bytes:
        return self._data[self._last : self._at]

    # The address of the next game, and how many bytes are there.
    def _place(self) -> Tuple[int, int]:
        address = ctypes.cast(ctypes.c_char_p(self._data), c_void_p).value
        assert address is not None
        return address + self._at, len(self._data) - self._at

    def next(self, repaired: Optional[_Repaired] = None) -> Tuple[Optional[bytes], int]:
        """The next game's, and its place; None where there are no more. Raises `InvalidGameError` for a game that can't be read; the call after it goes on after
        that game. With `repaired` it is saved where it can be, and that is called with its repairs."""
        with self._lock:
            self._last = self._at
            game = self._next(repaired)
            return game, self.before + self._last

    def _next(self, repaired: Optional[_Repaired]) -> Optional[bytes]:
        while True:
            while self._read and (len(self._data) - self._at <= _DECIDED or self._data.endswith(_PARTS_OF_A_MARK)):
                self._more()
            count, used = c_size_t(), c_size_t()
            status = c.lib.jatshegi_game_read(*self._place(), self._room, len(self._room), byref(count), byref(used))
            if status == c.OK:
                self._at += used.value
                return ctypes.string_at(self._room, count.value)
            if status == c.NO_ROOM:
                self._room = (c_char * (2 * count.value))()
                continue
            if status != c.NO_GAME:
                saved = self._saved(repaired) if repaired else None
                if saved is None:
                    raise self._passing(status, used.value)
                if saved:
                    return saved
            # Only whitespace is there, or the end of a file.
            if self._read is None:
                self._at = len(self._data)
                return None
            self._more()

    # The export form of a game that strict reading refuses, where it can be saved; then its repairs are passed on. No byte, where no game is there.
    def _saved(self, repaired: _Repaired) -> Optional[bytes]:
        while True:
            count, used, number = c_size_t(), c_size_t(), c_size_t()
            places = self._room, len(self._room), byref(count), self._repairs, len(self._repairs), byref(number), byref(used)
            status = c.lib.jatshegi_game_salvage(*self._place(), *places)
            if status == c.NO_MEMORY:
                raise MemoryError("no memory for a game")
            if status == c.NO_GAME:
                return b""
            if status not in (c.OK, c.NO_ROOM):
                return None
            if status == c.OK and number.value <= len(self._repairs):
                break
            self._room = (c_char * max(len(self._room), count.value))()
            self._repairs = (c.CRepair * max(len(self._repairs), number.value))()
        begin = self.before + self._at
        self._at += used.value
        repaired([Repair(begin + it.place, c.REPAIRS[it.kind], it.length, it.written) for it in self._repairs[: number.value]])
        return ctypes.string_at(self._room, count.value)

    # What a status raises, once the bytes of a game that can't be read have been passed over.
    def _passing(self, status: int, used: int) -> Exception:
        fault = _fault(status, self.before + self._at + used)
        while isinstance(fault, InvalidGameError):
            passed, (address, left) = c_size_t(), self._place()
            if c.lib.jatshegi_game_pass(address, left, byref(passed)):
                raise MemoryError("no memory for a game")
            if self._read is None or passed.value < left:
                self._at += max(passed.value, 1)
                break
            self._more()
        return fault


def _games_of(
    read: Callable[[], Tuple[Optional[bytes], Optional[int]]], bad: Optional[Callable[[InvalidGameError], object]]
) -> Iterator[Tuple[bytes, Optional[int]]]:
    """The games that a call reads, in order: their export forms and their places."""
    while True:
        try:
            game, place = read()
        except InvalidGameError as fault:
            if bad is None:
                raise
            bad(fault)
            continue
        if game is None:
            return
        yield game, place


def _bytes_of(source: Union[str, bytes]) -> bytes:
    return source.encode("utf-8", "surrogateescape") if isinstance(source, str) else source


def _stand(file: Any, *, is_quick: bool = False) -> Optional[int]:
    """Where a file stands; None where it can't tell. Of text its buffer's position is the quick one: it, too, is another one after a `seek`."""
    try:
        return cast(int, (getattr(file, "buffer", file) if is_quick else file).tell())
    except (AttributeError, OSError, ValueError):
        return None


class _File:
    """An open file of games, which is read by pieces. After each game it is put where the next one begins, where it can be: so `tell` is a game's place, and a
    file that stands elsewhere at the next call was put there by the caller, and is read from there."""

    def __init__(self, file_of: Callable[[], Any]) -> None:
        self._file_of, self._lock = file_of, threading.Lock()
        self._begin()

    # Begins where the file stands.
    def _begin(self) -> None:
        file = self._file_of()
        self.is_text = self._is_back = False
        # Where the next game begins and where the last piece ends, as `seek` takes it; None where that isn't known.
        self._place = self._end = self._first = _stand(file)
        # (of a packed file, a step back reads all of it again)
        below = getattr(file, "buffer", file)
        self._goes_back = isinstance(getattr(below, "raw", below), (io.FileIO, io.BytesIO, io.StringIO))
        self._stood = _stand(file, is_quick=True)
        self._texts = _Texts(b"", self._piece)

    # The next piece's bytes.
    def _piece(self, count: int) -> bytes:
        file, begin = self._file_of(), self._end
        if self._is_back:
            file.seek(begin)
            self._is_back = False
        piece = file.read(count)
        if not isinstance(piece, (str, bytes)):
            raise TypeError(f"a file of games has text or bytes: {piece!r}")
        data, self.is_text, self._end = _bytes_of(piece), isinstance(piece, str), _stand(file)
        if not self.is_text:
            # (bytes are counted from the beginning of the file)
            self._texts.before += self._first or 0
        self._first = None
        # Positions are counted on only where they can be: a file's are numbers of bytes, of text it is tried.
        if begin is None or self._end is None or self.is_text and (self._far(b""), self._far(data)) != (0, self._end - begin):
            self._place = None
        return data

    # How far a file goes on over some of the bytes of its pieces; None where that can't be said.
    def _far(self, data: bytes) -> Optional[int]:
        if not self.is_text:
            return len(data)
        file = self._file_of()
        encoding, returns = getattr(file, "encoding", None), data.count(b"\n") - data.count(b"\r\n")
        try:
            text = data.decode("utf-8", "surrogateescape")
            count = len(text) if encoding is None else len(text.encode(encoding, file.errors or "strict"))
        except UnicodeError:
            return None
        return count + (returns if getattr(file, "newlines", None) == "\r\n" else 0)

    def next(self, repaired: Optional[_Repaired] = None) -> Tuple[Optional[bytes], Optional[int]]:
        """The next game's export form and its place, as `_Texts.next`."""
        with self._lock:
            if _stand(self._file_of(), is_quick=True) != self._stood:
                self._begin()
            try:
                game, place = self._texts.next(repaired)
                return game, self._place if self.is_text else place
            finally:
                self._go_on()

    # Puts the file where the next game begins.
    def _go_on(self) -> None:
        file, far = self._file_of(), self._far(self._texts.passed())
        self._place = None if self._place is None or far is None else self._place + far
        if self._place is not None and self._goes_back:
            file.seek(self._place)
            self._is_back = True
        self._stood = _stand(file, is_quick=True)


# The files that are read, as long as anybody has them.
_FILES: "weakref.WeakKeyDictionary[object, _File]" = weakref.WeakKeyDictionary()
_FINDING = threading.Lock()


def _file_of(file: object) -> _File:
    """What is known of an open file."""
    with _FINDING:
        if file not in _FILES:
            _FILES[file] = _File(weakref.ref(file))
        return _FILES[file]


def read_game(source: Union[str, bytes, IO[Any]], *, encoding: Optional[str] = None, repaired: Optional[_Repaired] = None) -> Optional[Game]:
    """The first game of a text, or the next one of an open file; None where there is only whitespace. Bytes are read in the encoding that is named, where
    one is, else in UTF-8, or in ISO 8859-1 where the game is none; a byte that it doesn't have is a lone surrogate, as `errors="surrogateescape"` reads and
    writes it. A text that is none of bytes is UTF-8. A file is read by pieces of 2 MiB, and the next call goes on after the game of the last one, also where
    that could not be read. With `repaired` a game that can't be read is saved where it can be, as `games` does.

    A file stands where the next game begins, after `seek` too: so `file.tell()` before a call is the game's place, which is `game.place`. Files that can't go back
    (packed ones, pipes, text with line ends of several kinds) stand at the end of a piece.

    >>> jatshegi.pgn.read_game(" ") is None
    True
    >>> jatshegi.pgn.read_game("1. e5 *")
    Traceback (most recent call last):
    ...
    jatshegi.InvalidGameError: no game: at byte 3, a word that names no legal move, or more than one
    >>> import io
    >>> with io.StringIO("1. e4 * 1. d4 *") as file:
    ...     while game := jatshegi.pgn.read_game(file):
    ...         print(game.next().san)
    e4
    d4
    >>> with io.StringIO("1. e4 * 1. d4 *") as file:
    ...     first, second = (jatshegi.pgn.read_game(file) for _ in range(2))
    ...     place = file.seek(second.place)
    ...     jatshegi.pgn.read_game(file).next().san
    'd4'
    """
    encoding = None if encoding is None else _known(encoding)
    place: Optional[int]
    if isinstance(source, (str, bytes)):
        is_text = isinstance(source, str)
        text, place = _Texts(_bytes_of(source)).next(repaired)
    elif hasattr(source, "read"):
        file = _file_of(source)
        text, place = file.next(repaired)
        is_text = file.is_text
    else:
        raise TypeError(f"games are read from a text, bytes or an open file: {source!r}")
    return None if text is None else _game(text, "utf-8" if is_text else encoding, place)


def read_headers(source: Union[str, bytes, IO[Any]], *, encoding: Optional[str] = None) -> Optional[Dict[str, str]]:
    """The tags of the game that `read_game` reads; None where it reads none.

    >>> jatshegi.pgn.read_headers('[White "Morphy"] 1. e4 *')["White"]
    'Morphy'
    """
    game = read_game(source, encoding=encoding)
    return None if game is None else game.headers.copy()


# How files begin that were packed, and the module that unpacks them.
_PACKED = {b"\x1f\x8b": "gzip", b"BZh": "bz2", b"\xfd7zXZ\0": "lzma"}


@contextlib.contextmanager
def _opened(path: Union[str, "os.PathLike[str]"]) -> Iterator[IO[Any]]:
    """The file of that path, unpacked where it was packed; it is closed afterwards."""
    if not isinstance(path, (str, os.PathLike)):
        raise TypeError(f"games are read from bytes, an open file or a path: {path!r}")
    with contextlib.ExitStack() as stack:
        file = sys.stdin.buffer if path == "-" else stack.enter_context(open(path, "rb"))
        # (a buffer's own call: what it shows is still to be read)
        first = file.peek(6) if hasattr(file, "peek") else b""
        for mark, module in _PACKED.items():
            if first.startswith(mark):
                file = stack.enter_context(importlib.import_module(module).open(file))
        yield file


def games(
    source: Union[str, bytes, "os.PathLike[str]", IO[Any]],
    bad: Optional[Callable[[InvalidGameError], object]] = None,
    repaired: Optional[_Repaired] = None,
    *,
    encoding: Optional[str] = None,
) -> Iterator[Game]:
    """The games of a file, open or by its path, or of bytes, one after another, each read in the encoding that is named, or as `read_game` does. A file is
    read by pieces of 2 MiB, so one of any size takes little memory, and it is open meanwhile. The path `-` is the standard input. By a path a file that was
    packed by gzip, bzip2 or xz, as its first bytes say, is unpacked as it is read.

    A game that can't be read raises `InvalidGameError`. With `bad`, that is called with it instead, and reading goes on at the next section of tags.

    >>> faults = []
    >>> text = b'1. e4 *\\n\\n[White "?"]\\n\\n1. e5 *\\n\\n[White "Morphy"]\\n\\n1. d4 *\\n'
    >>> [game.headers["White"] for game in jatshegi.pgn.games(text, faults.append)]
    ['?', 'Morphy']
    >>> [(fault.place, fault.fault) for fault in faults]
    [(25, 3)]

    With `repaired`, a game that can't be read is saved where it can be: it is read from its text after repair, as `chess_games --salvage` does, and before
    it comes `repaired` is called with the list of its repairs. A line with an illegal move ends before it, and a comment says what was cut off.

    >>> repairs = []
    >>> [str(game.mainline_sans()) for game in jatshegi.pgn.games(b"1. e2-e4 e5 2. OO Nc6 *", repaired=repairs.append)]
    ["['e4', 'e5']"]
    >>> [(repair.name, repair.place) for repair in repairs[0]]
    [('Hyphen', 3), ('Castling', 15), ('Illegal', 15)]
    """
    yield from _games_in(source, bad, repaired, None if encoding is None else _known(encoding))


# The games of a source, in a known encoding.
def _games_in(
    source: Union[str, bytes, "os.PathLike[str]", IO[Any]], bad: Optional[Callable[[InvalidGameError], object]], repaired: Optional[_Repaired], encoding: Optional[str]
) -> Iterator[Game]:
    if isinstance(source, bytes):
        texts = _Texts(source)
        for data, place in _games_of(lambda: texts.next(repaired), bad):
            yield _game(data, encoding, place)
    elif hasattr(source, "read"):
        try:
            opened = _file_of(source)
        except TypeError:
            # (an object that can't be remembered is read here alone)
            opened = _File(lambda: source)
        for data, place in _games_of(lambda: opened.next(repaired), bad):
            yield _game(data, "utf-8" if opened.is_text else encoding, place)
    else:
        with _opened(source) as file:
            yield from _games_in(file, bad, repaired, encoding)


# Each class shows under the name by which it is found here.
for _name in __all__:
    if isinstance(globals()[_name], type) and globals()[_name].__module__ != "jatshegi":
        globals()[_name].__module__ = __name__
