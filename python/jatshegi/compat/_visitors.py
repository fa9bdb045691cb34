"""Visitors of games, by python-chess's names, and the texts that they write."""
from __future__ import annotations

from typing import TYPE_CHECKING, Generic, List, Optional, TextIO, TypeVar

from .._visitors import SKIP, SkipType
from ._boards import Board
from ._names import Move

if TYPE_CHECKING:
    from .pgn import Headers

__all__ = ["BaseVisitor", "BoardBuilder", "FileExporter", "FileExporterMixin", "SkipVisitor", "StringExporter", "StringExporterMixin"]

_T = TypeVar("_T")


class BaseVisitor(Generic[_T]):
    """Sees a game from its tags to its result."""

    def begin_game(self) -> Optional[SkipType]:
        """A game begins. It is passed over if this returns `SKIP`."""
        return None

    def begin_headers(self) -> Optional[Headers]:
        """The tags begin."""
        return None

    def visit_header(self, tagname: str, tagvalue: str) -> None:
        """A tag."""

    def end_headers(self) -> Optional[SkipType]:
        """The tags have ended. The moves are passed over if this returns `SKIP`."""
        return None

    def visit_board(self, board: Board) -> None:
        """The position in which the game begins, or after a move."""

    def visit_move(self, board: Board, move: Move) -> None:
        """A move, and the board before it."""

    def visit_comment(self, comment: str) -> None:
        """A comment."""

    def visit_nag(self, nag: int) -> None:
        """An annotation of the move before."""

    def begin_variation(self) -> Optional[SkipType]:
        """A variation begins. It is passed over if this returns `SKIP`."""
        return None

    def end_variation(self) -> None:
        """The variation has ended."""

    def visit_result(self, result: str) -> None:
        """The result."""

    def end_game(self) -> None:
        """The game has ended."""

    def result(self) -> _T:
        """The value that the visitor has made."""
        raise NotImplementedError("a visitor has a result")

    def handle_error(self, error: Exception) -> None:
        """A fault in the text of the game, from which moves are left out. This class raises it."""
        raise error


class BoardBuilder(BaseVisitor[Board]):
    """Makes the board at the end of the main line."""

    def begin_variation(self) -> Optional[SkipType]:
        return SKIP

    def visit_board(self, board: Board) -> None:
        self.board = board.copy()

    def result(self) -> Board:
        return self.board


class SkipVisitor(BaseVisitor[bool]):
    """Passes a game over."""

    def begin_game(self) -> Optional[SkipType]:
        return SKIP

    def handle_error(self, error: Exception) -> None:
        """Passes over the fault."""

    def result(self) -> bool:
        return True


class StringExporterMixin:
    """Writes what is visited as text, in lines of at most `columns` characters unless a comment is longer."""

    def __init__(self, *, columns: Optional[int] = 80, headers: bool = True, comments: bool = True, variations: bool = True) -> None:
        self.columns, self.headers, self.comments, self.variations = columns, headers, comments, variations
        self.lines: List[str] = []
        self.current_line = ""
        self.variation_depth = 0
        self.found_headers, self.force_movenumber = False, True

    def flush_current_line(self) -> None:
        """Ends the line, if it has something."""
        if self.current_line:
            self.lines.append(self.current_line.rstrip())
        self.current_line = ""

    def write_token(self, token: str) -> None:
        """A word, on the next line if this one has no room."""
        if self.columns is not None and self.columns - len(self.current_line) < len(token):
            self.flush_current_line()
        self.current_line += token

    def write_line(self, line: str = "") -> None:
        """Writes a line that stands alone."""
        self.flush_current_line()
        self.lines.append(line.rstrip())

    def visit_header(self, tagname: str, tagvalue: str) -> None:
        if self.headers:
            self.found_headers = True
            value = tagvalue.replace("\\", "\\\\").replace('"', '\\"')
            self.write_line(f'[{tagname} "{value}"]')

    def end_headers(self) -> Optional[SkipType]:
        if self.found_headers:
            self.write_line()
        return None

    def _is_written(self) -> bool:
        return self.variations or not self.variation_depth

    def visit_move(self, board: Board, move: Move) -> None:
        if self._is_written():
            if board.turn or self.force_movenumber:
                self.write_token(f"{board.fullmove_number}{'.' if board.turn else '...'} ")
            self.write_token(f"{board.san(move)} ")
            self.force_movenumber = False

    def visit_comment(self, comment: str) -> None:
        if "}" in comment:
            raise ValueError(f"a comment has no right brace, which would end it: {comment!r}")
        if self.comments and self._is_written():
            self.write_token(f"{{ {comment.strip()} }} ")
            self.force_movenumber = True

    def visit_nag(self, nag: int) -> None:
        if nag < 0:
            raise ValueError(f"an annotation is a number of 0 or more: {nag}")
        if self.comments and self._is_written():
            self.write_token(f"${nag} ")

    def begin_variation(self) -> Optional[SkipType]:
        self.variation_depth += 1
        if not self.variations:
            return SKIP
        self.write_token("( ")
        self.force_movenumber = True
        return None

    def end_variation(self) -> None:
        self.variation_depth -= 1
        if self.variations:
            self.write_token(") ")
            self.force_movenumber = True

    def visit_result(self, result: str) -> None:
        self.write_token(f"{result} ")

    def end_game(self) -> None:
        self.write_line()


class StringExporter(StringExporterMixin, BaseVisitor[str]):
    """Makes the text of a game."""

    def result(self) -> str:
        return "\n".join([*self.lines, self.current_line.rstrip()] if self.current_line else self.lines).rstrip()

    def __str__(self) -> str:
        return self.result()


class FileExporterMixin(StringExporterMixin):
    """Writes games into a file, each with an empty line after it."""

    def __init__(self, handle: TextIO, *, columns: Optional[int] = 80, headers: bool = True, comments: bool = True, variations: bool = True) -> None:
        super().__init__(columns=columns, headers=headers, comments=comments, variations=variations)
        self.handle, self.written = handle, 0

    def begin_game(self) -> Optional[SkipType]:
        self.lines, self.current_line, self.variation_depth, self.written = [], "", 0, 0
        self.found_headers, self.force_movenumber = False, True
        return None

    def end_game(self) -> None:
        super().end_game()
        self.written = self.handle.write("".join(f"{line}\n" for line in self.lines))


class FileExporter(FileExporterMixin, BaseVisitor[int]):
    """Writes games into a file, each with an empty line after it; the result is how many characters the last one had."""

    def result(self) -> int:
        return self.written
