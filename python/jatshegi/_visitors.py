"""What goes through a game and makes something of it, as its text."""
from __future__ import annotations

import re
from enum import Enum
from typing import TYPE_CHECKING, Generic, List, Optional, Tuple, TypeVar

from ._board import Board
from ._moves import Move

if TYPE_CHECKING:
    from ._nodes import Node

_Result = TypeVar("_Result")


class SkipType(Enum):
    """The type of `SKIP`."""

    SKIP = None


#: What a visitor returns to have something passed over.
SKIP = SkipType.SKIP


class BaseVisitor(Generic[_Result]):
    """Sees a game from its first tag to its marker by `game.accept(visitor)`, or a move and all that follows by `node.accept(visitor)`. Each call does
    nothing here; a visitor that makes something has `result`, and of the others those that it needs. The boards are the walk's own: what is kept is a `copy()`.

    >>> class Captures(jatshegi.pgn.BaseVisitor):
    ...     def begin_game(self):
    ...         self.found = []
    ...     def visit_move(self, board, move):
    ...         self.found += [board.san(move)] if "x" in board.san(move) else []
    ...     def result(self):
    ...         return self.found
    >>> jatshegi.pgn.read_game("1. e4 d5 (1... f5 2. exf5) 2. exd5 *").accept(Captures())
    ['exf5', 'exd5']
    """

    def visit_encoding(self, encoding: str) -> None:
        """The encoding of the game's bytes, before all else."""

    def begin_game(self) -> Optional[SkipType]:
        """A game begins. All is passed over up to its end where this returns `SKIP`."""
        return None

    def visit_header(self, tagname: str, tagvalue: str) -> None:
        """A tag."""

    def end_headers(self) -> Optional[SkipType]:
        """The tags have ended. The moves are passed over where this returns `SKIP`."""
        return None

    def visit_board(self, board: Board) -> None:
        """The position in which the game begins, or after a move."""

    def visit_move(self, board: Board, move: Move) -> None:
        """A move, and the board before it."""

    def visit_nag(self, nag: int) -> None:
        """An annotation of the move before."""

    def visit_comment(self, comment: str) -> None:
        """What is said of the move before, or of the game."""

    def begin_variation(self) -> Optional[SkipType]:
        """A variation begins that replaces the move before. It is passed over where this returns `SKIP`, and ends all the same."""
        return None

    def end_variation(self) -> None:
        """The variation has ended."""

    def visit_result(self, result: str) -> None:
        """The marker."""

    def end_game(self) -> None:
        """The game has ended."""

    def result(self) -> _Result:
        """What the visitor has made."""
        raise NotImplementedError("a visitor has a result")


def walk(node: Node, board: Board, visitor: BaseVisitor[_Result], *, is_main: bool = False) -> None:
    """Has the visitor see the node, whose move is legal on the board, and all that follows; where it is the main one, also the variations beside it."""
    todo: List[Tuple[str, Node]] = [("main" if is_main else "move", node)]
    while todo:
        what, at = todo.pop()
        if what == "open":
            todo.append(("close", at))
            if visitor.begin_variation() is not SKIP:
                todo.append(("move", at))
        elif what == "close":
            visitor.end_variation()
        elif what == "back":
            board.back()
        elif what == "on" and at._children:
            board.push_san(at._san or "")
            todo += [("back", at), ("main", at._children[0])]
        elif what != "on":
            _show(at, board, visitor)
            todo.append(("on", at))
            if what == "main" and at._parent is not None:
                todo += [("open", it) for it in reversed(at._parent._children) if it is not at]


# Has the visitor see one move.
def _show(node: Node, board: Board, visitor: BaseVisitor[_Result]) -> None:
    move = board.parse_san(node._san or "")
    visitor.visit_move(board, move)
    board.push(move)
    visitor.visit_board(board)
    board.pop()
    for nag in node._nags:
        visitor.visit_nag(nag)
    if node._comment:
        visitor.visit_comment(node._comment)


class _Standard(int):
    """The width of the lines of the export form, which break at each space."""


_STANDARD = _Standard(80)
# The words of a comment, of which a command such as `[%clk 0:05:00]` is a part.
_PARTS = re.compile(r"(?:\[%[^][]*\]|[^ ])+")


class StringExporter(BaseVisitor[str]):
    """The text of a game, or of a move and all later moves, with or without its tags, its comments and annotations, and its variations.

    By default the text of a game is its export form, `str(game)`. If you pass `columns`, lines have less than that number of bytes and don't break within a command
    such as `[%clk 0:05:00]`. A longer word gets its own line. With `columns=None` all moves are on one line.

    >>> clock = jatshegi.pgn.read_game("1. e4 {[%clk 0:05:00]} e5 {[%clk 0:04:59]} *")
    >>> print(clock.accept(jatshegi.pgn.StringExporter(headers=False, columns=32)).strip())
    1. e4 {[%clk 0:05:00]} 1... e5
    {[%clk 0:04:59]} *
    >>> game = jatshegi.pgn.read_game("1. e4 {best by test} e5 (1... c5) 2. Nf3 *")
    >>> game.accept(jatshegi.pgn.StringExporter(headers=False, comments=False, columns=None)).strip()
    '1. e4 e5 (1... c5) 2. Nf3 *'
    >>> game.next().accept(jatshegi.pgn.StringExporter(variations=False))
    '1. e4 {best by test} 1... e5 2. Nf3'
    """

    def __init__(self, *, headers: bool = True, comments: bool = True, variations: bool = True, columns: Optional[int] = _STANDARD) -> None:
        self._headers, self._comments, self._variations, self._columns = headers, comments, variations, columns
        self._encoding = "utf-8"
        self.begin_game()

    def visit_encoding(self, encoding: str) -> None:
        self._encoding = encoding

    def begin_game(self) -> Optional[SkipType]:
        self._lines: List[str] = []
        # The words of the last line and their width; brackets that open before the next word; and the last word, after which brackets may close.
        self._words: List[str] = []
        self._width = 0
        self._opened = self._last = self._end = ""
        # In how many variations the next word is, and whether a move of Black's has its number.
        self._depth, self._is_due = 0, True
        return None

    def visit_header(self, tagname: str, tagvalue: str) -> None:
        if self._headers:
            value = tagvalue.replace("\\", "\\\\").replace('"', '\\"')
            self._lines.append(f'[{tagname} "{value}"]')

    def end_headers(self) -> Optional[SkipType]:
        if self._headers:
            self._lines.append("")
        return None

    def visit_move(self, board: Board, move: Move) -> None:
        if self._is_written():
            if board.turn or self._is_due:
                self._word(f"{board.fullmove_number}{'.' if board.turn else '...'}")
            self._word(board.san(move))
            self._is_due = False

    def visit_nag(self, nag: int) -> None:
        if self._comments and self._is_written():
            self._word(f"${nag}")
            self._is_due = True

    def visit_comment(self, comment: str) -> None:
        if self._comments and self._is_written():
            self._opened += "{"
            for word in comment.split(" ") if isinstance(self._columns, _Standard) else _PARTS.findall(comment) or [""]:
                self._word(word)
            self._last += "}"
            self._is_due = True

    def begin_variation(self) -> Optional[SkipType]:
        self._depth += 1
        if not self._variations:
            return SKIP
        self._opened += "("
        self._is_due = True
        return None

    def end_variation(self) -> None:
        self._depth -= 1
        if self._variations:
            self._last += ")"
            self._is_due = True

    def visit_result(self, result: str) -> None:
        self._word(result)

    def end_game(self) -> None:
        self._end = "\n\n"

    def result(self) -> str:
        self._place()
        return "\n".join([*self._lines, *([" ".join(self._words)] if self._words else [])]) + self._end

    # Whether what comes is written: a walk that passes variations over comes into none.
    def _is_written(self) -> bool:
        return self._variations or not self._depth

    # A word more. The one before has all its brackets now, so it has its place.
    def _word(self, word: str) -> None:
        self._place()
        self._last, self._opened = self._opened + word, ""

    # Puts the last word on the line, or on a new one where the line would be too long.
    def _place(self) -> None:
        if self._last:
            width = len(self._last.encode(self._encoding, "surrogateescape"))
            if self._words and self._columns is not None and self._width + 1 + width >= self._columns:
                self._lines.append(" ".join(self._words))
                self._words = []
            self._width = self._width + 1 + width if self._words else width
            self._words.append(self._last)
            self._last = ""
