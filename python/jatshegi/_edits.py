"""What changes a game: each edit is one of the library's on a board that holds the whole game, and the nodes say afterwards what that board has."""
from __future__ import annotations

import threading
from ctypes import byref, c_bool
from typing import TYPE_CHECKING, Callable, Iterable, List, NamedTuple, Optional, Sequence, Tuple, TypeVar, Union

from . import _library as c
from ._board import Board
from ._core import numbers_of
from ._errors import Error
from ._moves import Move

if TYPE_CHECKING:
    from ._nodes import Node
    from .pgn import Game

# One edit at a time, whatever thread it comes from.
EDITING = threading.RLock()

_T = TypeVar("_T")


class _Step(NamedTuple):
    """A move that was played: its text, whether its node was added, and the node's place among its siblings, the last where it was."""

    san: str
    is_added: bool
    place: int


class Edits:
    """The board of a game that is edited, and the game's nodes in step with it."""

    __slots__ = ("_board", "_cursor", "_game", "_is_sure")

    def __init__(self, game: Game) -> None:
        self._game = game
        # The tree as it is before the first edit.
        game._children
        self._board = Board.from_game(game)
        # The node at the board's cursor, where it is known.
        self._cursor: Optional[Node] = game
        # Whether the nodes say what the board has. They may not where an exception came from elsewhere in an edit, as by Ctrl-C, until they are read again.
        self._is_sure = True

    def text(self) -> bytes:
        """The game's bytes in export form."""
        return self._board._game()

    # An edit: what the call does. A refusal has changed nothing. After any other exception the nodes are read again, for want of memory at the next edit.
    def _edit(self, call: Callable[[], _T]) -> _T:
        with EDITING:
            if not self._is_sure:
                self._read_again()
            self._is_sure = False
            try:
                done = call()
            except (Error, ValueError, TypeError):
                self._is_sure = True
                raise
            except MemoryError:
                raise
            except BaseException:
                self._read_again()
                raise
            self._is_sure = True
            return done

    # Puts the nodes in step with the board by the text that it writes. A node stays the same object where its move is still there.
    def _read_again(self) -> None:
        self._cursor = None
        self._game._is_changed()
        todo: List[Tuple[Node, Node]] = [(self._game, self._game._read_again(self.text()))]
        while todo:
            node, read = todo.pop()
            node._comment, node._nags = read._comment, read._nags
            left, children = list(node._children), []
            for other in read._children:
                child = next((it for it in left if it._san == other._san), None)
                if child is None:
                    child = type(other)(other._san, node)
                else:
                    left.remove(child)
                children.append(child)
                todo.append((child, other))
            node._children = children
        self._is_sure = True

    # Leads the board's cursor to the node, by the places on the way to it. Raises `ValueError` for a node that was taken out.
    def _lead(self, node: Node) -> None:
        at, cursor, places = node, self._cursor, []
        if cursor is not None and cursor._parent is node:
            self._cursor = None
            self._board._call(c.lib.jatshegi_board_back, "back")
        else:
            while at is not cursor and at._parent is not None:
                places.append(at._place())
                at = at._parent
            self._cursor = None
            if at is not cursor:
                self._board._call(c.lib.jatshegi_board_start, "start")
        for place in reversed(places):
            self._board._call(c.lib.jatshegi_board_step, "step", place)
        self._cursor = node

    # ---- comments and annotations

    def say(self, node: Node, comment: Optional[str], nags: Sequence[int] = ()) -> None:
        """Another comment for a node, where one is given, and more annotations: all of it, or none where something is refused."""

        def call() -> None:
            self._lead(node)
            # One call is made or refused. Of more than one the first are made on a copy.
            board = self._board if (comment is not None) + len(nags) == 1 else self._board.copy()
            self._speak(board, comment, nags)
            self._board = board
            self._see(node)
            self._game._is_changed()

        if comment is not None or nags:
            self._edit(call)

    def annotate(self, node: Node, nags: Sequence[int]) -> None:
        """These annotations for a node in the place of those that it has; all of them, or the same as before where something is refused."""

        def call() -> None:
            self._lead(node)
            # The library takes all out, so where some are added again it is done on a copy.
            board = self._board.copy() if nags else self._board
            board._call(c.lib.jatshegi_board_clear_annotations, "nags")
            self._speak(board, None, nags)
            self._board = board
            self._see(node)
            self._game._is_changed()

        self._edit(call)

    # Says it at the cursor of a board.
    def _speak(self, board: Board, comment: Optional[str], nags: Iterable[int]) -> None:
        if comment is not None:
            text = comment.encode(board.encoding, "surrogateescape")
            status = board._status(c.lib.jatshegi_board_comment, text, len(text))
            if status == c.BAD_COMMENT:
                raise ValueError(f"{c.SENTENCES[status]}: {comment!r}")
            if status:
                raise board._fail(status, comment)
        for nag in nags:
            status = board._status(c.lib.jatshegi_board_annotate, nag)
            if status == c.AT_ROOT:
                raise ValueError(f"an annotation is one of a move, and the game itself is none: {nag}")
            if status:
                raise board._fail(status, nag)

    # Sees what the node at the cursor has.
    def _see(self, node: Node) -> None:
        comment, nags = self._board._handed(c.lib.jatshegi_board_comment_of, "comment"), self._board._handed(c.lib.jatshegi_board_annotations_of, "nags")
        assert comment is not None and nags is not None
        node._comment, node._nags = self._board._shown(comment), tuple(nags)

    # ---- moves

    def grow(self, node: Node, moves: Iterable[Union[Move, str]], comment: Optional[str], nags: Sequence[int], is_main: bool = False) -> Node:
        """Goes along moves from a node, with a node added for each that isn't there, and says something of the last; all of it, or nothing where something is
        refused. The last node, which is put before its siblings where it is to be the main one."""
        made = list(moves)
        with EDITING:
            end, is_said = self._edit(lambda: self._go_along(node, made, comment, nags))
            if not is_said:
                # No node was added, so where this is refused nothing has changed.
                self.say(end, comment, [it for it in nags if it not in end._nags])
            if is_main:
                self.put(end, 0)
            return end

    # The last node, and whether it was added, and so all was said of it.
    def _go_along(self, node: Node, moves: List[Union[Move, str]], comment: Optional[str], nags: Sequence[int]) -> Tuple[Node, bool]:
        self._lead(node)
        steps: List[_Step] = []
        self._cursor = None
        try:
            for move in moves:
                steps.append(self._step(move))
            is_said = bool(steps) and steps[-1].is_added
            if is_said:
                self._speak(self._board, comment, nags)
        except Exception:
            # After a node that was added there are only others, so nothing else goes with them.
            for step in reversed(steps):
                self._board._call(c.lib.jatshegi_board_delete if step.is_added else c.lib.jatshegi_board_back, "delete")
            raise
        end = node
        for step in steps:
            end = end._added(step.san) if step.is_added else end._children[step.place]
        self._cursor = end
        self._see(end)
        self._game._is_changed()
        return end, is_said

    # Makes a move at the board's cursor.
    def _step(self, move: Union[Move, str]) -> _Step:
        if isinstance(move, str):
            move = self._board.parse_san(move)
        san, added = self._board.san(move), c_bool()
        self._board._call(c.lib.jatshegi_board_play, move, numbers_of(move), byref(added))
        if added.value:
            return _Step(san, True, -1)
        return _Step(san, False, int(self._board._bytes(b"path").rpartition(b".")[2]))

    def put(self, node: Node, place: int) -> None:
        """Puts a node at a place among its siblings, from 0."""
        self._edit(lambda: self._put(node, place))

    # The library puts a node before all its siblings, so the others that come before it are put there after it, the last of them first.
    def _put(self, node: Node, place: int) -> None:
        parent, at = node._parent, node._place()
        assert parent is not None
        wanted = [child for child in parent._children if child is not node]
        wanted.insert(place, node)
        if place != at:
            for child in reversed(wanted[: place + 1]):
                self._lead(child)
                self._board._call(c.lib.jatshegi_board_promote, "promote")
                parent._children = [child, *(it for it in parent._children if it is not child)]
            self._game._is_changed()

    def delete(self, node: Node) -> None:
        """Takes a node out, with all after it."""

        def call() -> None:
            parent = node._parent
            assert parent is not None
            self._lead(node)
            self._cursor = None
            self._board._call(c.lib.jatshegi_board_delete, "delete")
            parent._children = [it for it in parent._children if it is not node]
            self._cursor = parent
            self._game._is_changed()

        self._edit(call)

    # ---- tags, the end and the start

    def tag(self, name: str, value: Optional[str]) -> None:
        """Gives a tag a value, or takes it out."""

        def call() -> None:
            if value is None:
                del self._board.headers[name]
            else:
                self._board.headers[name] = value
            self._game._is_changed(tags=True)

        self._edit(call)

    def mark(self, marker: str) -> None:
        """Says how the game ended."""

        def call() -> None:
            self._board.marker = marker
            self._game._result = self._board.marker
            self._game._is_changed(tags=True)

        self._edit(call)

    def begin(self, fen: str) -> None:
        """Has the game begin in that position. Raises `InvalidFenError`, and `ValueError` where it has moves."""

        def call() -> None:
            if self._game._children:
                raise ValueError("a game that has moves begins where it does: take them out, or begin another one")
            board = self._board.copy()
            board.set_fen(fen)
            self._speak(board, self._game._comment, ())
            self._board, self._cursor = board, self._game
            self._game._is_changed(tags=True)

        self._edit(call)
