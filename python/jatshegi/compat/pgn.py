"""Games, by the names of python-chess's module `pgn`. The library reads them; a tree is the program's own, and is written through the library's moves."""
from __future__ import annotations

import logging
import re
from typing import (
    IO,
    Any,
    Callable,
    Dict,
    Generic,
    Iterable,
    Iterator,
    List,
    Mapping,
    Match,
    MutableMapping,
    Optional,
    Set,
    TextIO,
    Tuple,
    Type,
    TypeVar,
    Union,
    overload,
)

from .. import _board, _moves
from .. import pgn as _pgn
from .._scores import Cp, Mate, PovScore
from .._visitors import SKIP, SkipType
from . import _nags
from ._boards import Board
from ._nags import *
from ._names import OURS, STARTING_FEN, Color, Move, Square, refuse
from ._times import TimeControl, TimeControlPart, TimeControlType, parse_time_control
from ._visitors import BaseVisitor, BoardBuilder, FileExporter, FileExporterMixin, SkipVisitor, StringExporter, StringExporterMixin
from .svg import Arrow

__all__ = [
    "ARROWS_REGEX",
    "BaseVisitor",
    "BoardBuilder",
    "CLOCK_REGEX",
    "ChildNode",
    "EMT_REGEX",
    "EVAL_REGEX",
    "FileExporter",
    "FileExporterMixin",
    "Game",
    "GameBuilder",
    "GameNode",
    "Headers",
    "HeadersBuilder",
    "LOGGER",
    "Mainline",
    "SKIP",
    "SkipType",
    "SkipVisitor",
    "StringExporter",
    "StringExporterMixin",
    "TAG_NAME_REGEX",
    "TAG_ROSTER",
    "TimeControl",
    "TimeControlPart",
    "TimeControlType",
    "parse_time_control",
    "read_game",
    "read_headers",
    "skip_game",
]
__all__ += _nags.__all__

_T = TypeVar("_T")
_Result = TypeVar("_Result")

# (the name that programs for python-chess give to `logging`)
LOGGER = logging.getLogger("chess.pgn")

TAG_NAME_REGEX = re.compile(r"[A-Za-z0-9][A-Za-z0-9_+#=:-]*")
TAG_ROSTER = ["Event", "Site", "Date", "Round", "White", "Black", "Result"]
_UNKNOWN = {"Date": "????.??.??", "Result": "*"}
# The wild games of other programs, which begin in other positions.
_WILD = ("wild/0", "wild/1", "wild/2", "wild/3", "wild/4", "wild/5", "wild/6", "wild/7", "wild/8", "wild/8a")
# The repairs of a game by which moves of it are left out.
_CUTS = ("Null", "Illegal", "Unreadable", "Variation", "Fen", "Squares")

_TIME = r"(?P<prefix>\s?)\[%{}\s(?P<hours>\d+):(?P<minutes>\d+):(?P<seconds>\d+(?:\.\d*)?)\](?P<suffix>\s?)"
CLOCK_REGEX, EMT_REGEX = re.compile(_TIME.format("clk")), re.compile(_TIME.format("emt"))
EVAL_REGEX = re.compile(
    r"(?P<prefix>\s?)\[%eval\s(?:\#(?P<mate>[+-]?\d+)|(?P<cp>[+-]?(?:\d{0,10}\.\d{1,2}|\d{1,10}\.?)))(?:,(?P<depth>\d+))?\](?P<suffix>\s?)"
)
_ARROW = r"[RGYB][a-h][1-8](?:[a-h][1-8])?"
ARROWS_REGEX = re.compile(rf"(?P<prefix>\s?)\[%(?:csl|cal)\s(?P<arrows>{_ARROW}(?:,{_ARROW})*)\](?P<suffix>\s?)")


def _instead(command: str) -> Callable[[Match[str]], str]:
    """Puts a command in the place of another, or leaves one of the spaces about it."""
    return lambda match: match["prefix"] + command + match["suffix"] if command else match["prefix"] and match["suffix"]


class Mainline(Generic[_T]):
    """What follows a node along the first variations. You can go through it again, and backwards; it is false if nothing follows."""

    def __init__(self, start: GameNode, f: Callable[[ChildNode], _T]) -> None:
        self.start, self.f = start, f

    def _nodes(self) -> Iterator[ChildNode]:
        node = self.start.next()
        while node is not None:
            yield node
            node = node.next()

    def __bool__(self) -> bool:
        return bool(self.start.variations)

    def __iter__(self) -> Iterator[_T]:
        return map(self.f, self._nodes())

    def __reversed__(self) -> Iterator[_T]:
        return map(self.f, reversed(list(self._nodes())))

    def accept(self, visitor: BaseVisitor[_Result]) -> _Result:
        """Shows the visitor the moves of the line, without other variations."""
        board = self.start.board()
        for node in self._nodes():
            _show(node, board, visitor)
            board.push(node.move)
        return visitor.result()

    def __str__(self) -> str:
        return self.accept(StringExporter(columns=None))

    def __repr__(self) -> str:
        return f"<Mainline at {id(self):#x} ({self})>"


class GameNode:
    """A position of a game: its comment and its variations, the main one first."""

    parent: Optional[GameNode] = None
    move: Optional[Move] = None
    starting_comment = ""

    def __init__(self, *, comment: str = "") -> None:
        self.comment = comment
        self.nags: Set[int] = set()
        self.variations: List[ChildNode] = []

    # ---- the position

    def _way(self) -> List[GameNode]:
        node, way = self, [self]
        while node.parent is not None:
            node = node.parent
            way.append(node)
        return way[::-1]

    def board(self) -> Board:
        """A board with the moves that lead to the node. Raises `IllegalMoveError` if one isn't legal."""
        game, *nodes = self._way()
        board = game.board() if game is not self else Board()
        for node in nodes:
            board.push(node.move or Move.null())
        return board

    def ply(self) -> int:
        """How many plies there were since the beginning of move 1."""
        way = self._way()
        return way[0].game().headers.board().ply() + len(way) - 1

    def turn(self) -> Color:
        """The side that moves next."""
        return self.ply() % 2 == 0

    def root(self) -> GameNode:
        """The first node."""
        return self._way()[0]

    def game(self) -> Game:
        """The game, which is the first node."""
        root = self.root()
        if not isinstance(root, Game):
            raise ValueError("the node has no game")
        return root

    # ---- the tree

    def next(self) -> Optional[ChildNode]:
        """The main variation's node, or None."""
        return self.variations[0] if self.variations else None

    def end(self) -> GameNode:
        """The last node along the first variations."""
        node = self
        while node.variations:
            node = node.variations[0]
        return node

    def is_end(self) -> bool:
        """Whether nothing follows."""
        return not self.variations

    def starts_variation(self) -> bool:
        """Whether a variation that isn't the main one begins with the node."""
        return self.parent is not None and self.parent.variations[0] is not self

    def is_main_variation(self) -> bool:
        """Whether it is the first one of its parent's."""
        return not self.starts_variation()

    def is_mainline(self) -> bool:
        """Whether it is one of the game's main line."""
        return all(node.is_main_variation() for node in self._way())

    def variation(self, move: Union[int, Move, GameNode]) -> ChildNode:
        """The node at a place, with a move, or that is a node. Raises `KeyError`, of a place `IndexError`."""
        if isinstance(move, int):
            return self.variations[move]
        for node in self.variations:
            if node is move or node.move == move:
                return node
        raise KeyError(move)

    def __getitem__(self, move: Union[int, Move, GameNode]) -> ChildNode:
        return self.variation(move)

    def has_variation(self, move: Union[int, Move, GameNode]) -> bool:
        """Whether there is such a node."""
        return any(node is move or node.move == move or at == move for at, node in enumerate(self.variations))

    def __contains__(self, move: Union[int, Move, GameNode]) -> bool:
        return self.has_variation(move)

    def _put(self, move: Union[int, Move, GameNode], place: Callable[[int], int]) -> None:
        node = self.variation(move)
        at = next(at for at, it in enumerate(self.variations) if it is node)
        self.variations.insert(max(place(at), 0), self.variations.pop(at))

    def promote_to_main(self, move: Union[int, Move, GameNode]) -> None:
        """Puts a variation before the others."""
        self._put(move, lambda at: 0)

    def promote(self, move: Union[int, Move, GameNode]) -> None:
        """Puts it one place nearer to the first."""
        self._put(move, lambda at: at - 1)

    def demote(self, move: Union[int, Move, GameNode]) -> None:
        """Puts it one place nearer to the last."""
        self._put(move, lambda at: at + 1)

    def remove_variation(self, move: Union[int, Move, GameNode]) -> None:
        """Takes it out with all that follows."""
        self.variations.remove(self.variation(move))

    def add_variation(self, move: Move, *, comment: str = "", starting_comment: str = "", nags: Iterable[int] = ()) -> ChildNode:
        """Another node with the move, the last."""
        node = ChildNode(self, OURS[move], comment=comment, starting_comment=starting_comment, nags=nags)
        self.variations.append(node)
        return node

    def add_main_variation(self, move: Move, *, comment: str = "", nags: Iterable[int] = ()) -> ChildNode:
        """The same, before the others."""
        node = self.add_variation(move, comment=comment, nags=nags)
        self.promote_to_main(node)
        return node

    def add_line(self, moves: Iterable[Move], *, comment: str = "", starting_comment: str = "", nags: Iterable[int] = ()) -> GameNode:
        """A node for each move in turn; comments and annotations are for the ends."""
        node: GameNode = self
        for move in moves:
            node = node.add_variation(move, starting_comment=starting_comment)
            starting_comment = ""
        node.comment = " ".join(it for it in (node.comment, comment) if it)
        node.nags.update(nags)
        return node

    def mainline(self) -> Mainline[ChildNode]:
        """The nodes that follow along the first variations."""
        return Mainline(self, lambda node: node)

    def mainline_moves(self) -> Mainline[Move]:
        """Their moves."""
        return Mainline(self, lambda node: node.move)

    # ---- commands of comments

    def _set_command(self, pattern: "re.Pattern[str]", command: str) -> None:
        self.comment, found = pattern.subn(_instead(command), self.comment, count=1)
        if not found and command:
            self.comment += (" " if self.comment and self.comment[-1] not in " \n" else "") + command

    def _seconds(self, pattern: "re.Pattern[str]") -> Optional[float]:
        match = pattern.search(self.comment)
        return None if match is None else int(match["hours"]) * 3600 + int(match["minutes"]) * 60 + float(match["seconds"])

    def _set_seconds(self, pattern: "re.Pattern[str]", name: str, seconds: Optional[float]) -> None:
        if seconds is None:
            self._set_command(pattern, "")
            return
        # (in thousandths, so that none is rounded up to a minute of 60 seconds)
        minutes, left = divmod(round(max(seconds, 0) * 1000), 60_000)
        text = f"{left / 1000:06.3f}".rstrip("0").rstrip(".")
        self._set_command(pattern, f"[%{name} {minutes // 60}:{minutes % 60:02}:{text}]")

    def clock(self) -> Optional[float]:
        """The seconds of `[%clk ..]`, which the player has after the move; None if there is none."""
        return self._seconds(CLOCK_REGEX)

    def set_clock(self, seconds: Optional[float]) -> None:
        """Sets it, or takes it out."""
        self._set_seconds(CLOCK_REGEX, "clk", seconds)

    def emt(self) -> Optional[float]:
        """The seconds of `[%emt ..]`, which the move took; None if there is none."""
        return self._seconds(EMT_REGEX)

    def set_emt(self, seconds: Optional[float]) -> None:
        """Sets it, or takes it out."""
        self._set_seconds(EMT_REGEX, "emt", seconds)

    def eval(self) -> Optional[PovScore]:
        """The score of `[%eval ..]`; None if there is none."""
        match, turn = EVAL_REGEX.search(self.comment), self.turn()
        if match is None:
            return None
        if match["mate"] and int(match["mate"]) == 0:
            # (the side to move after a mate is the one that is mated)
            return PovScore(Mate(0), turn)
        score = Mate(int(match["mate"])) if match["mate"] else Cp(round(float(match["cp"]) * 100))
        return PovScore(score if turn else -score, turn)

    def eval_depth(self) -> Optional[int]:
        """The depth of `[%eval ..,depth]`; None if there is none."""
        match = EVAL_REGEX.search(self.comment)
        return None if match is None or match["depth"] is None else int(match["depth"])

    def set_eval(self, score: Optional[PovScore], depth: Optional[int] = None) -> None:
        """Sets it, or takes it out."""
        value, white = "", None if score is None else score.white()
        if white is not None:
            cp = white.score()
            value = f"#{white.mate()}" if cp is None else f"{cp / 100:.2f}"
        after = "" if depth is None else f",{max(depth, 0)}"
        self._set_command(EVAL_REGEX, f"[%eval {value}{after}]" if value else "")

    def arrows(self) -> List[Arrow]:
        """The arrows and rings of `[%cal ..]` and `[%csl ..]`."""
        return [Arrow.from_pgn(text) for match in ARROWS_REGEX.finditer(self.comment) for text in match["arrows"].split(",")]

    def set_arrows(self, arrows: Iterable[Union[Arrow, Tuple[Square, Square]]]) -> None:
        """Sets them, or takes them out."""
        texts = [Arrow(*arrow).pgn() for arrow in arrows]
        kinds = (("csl", [it for it in texts if len(it) == 3]), ("cal", [it for it in texts if len(it) == 5]))
        written = "".join(f"[%{name} {','.join(found)}]" for name, found in kinds if found)
        rest = ARROWS_REGEX.sub(_instead(""), self.comment)
        self.comment = written + (" " if written and rest and rest[0] not in " \n" else "") + rest

    # ---- visitors

    def accept(self, visitor: BaseVisitor[_T]) -> _T:
        """Has the visitor see the node and all that follows. Each kind of node has its own."""
        raise NotImplementedError("a node is a Game or a ChildNode")

    def accept_subgame(self, visitor: BaseVisitor[_T]) -> _T:
        """Shows the visitor a game that begins at the node: its tags and the moves that follow."""
        if visitor.begin_game() is not SKIP:
            game, board, begin = self.game(), self.board(), Game.without_tag_roster()
            begin.setup(board)
            visitor.begin_headers()
            for name, value in {**{name: value for name, value in game.headers.items() if name not in begin.headers}, **begin.headers}.items():
                visitor.visit_header(name, value)
            if visitor.end_headers() is not SKIP:
                visitor.visit_board(board)
                if self.variations:
                    _walk(self.variations[0], board, visitor)
                visitor.visit_result(game.headers.get("Result", "*"))
        visitor.end_game()
        return visitor.result()

    def __str__(self) -> str:
        return self.accept(StringExporter(columns=None))


class ChildNode(GameNode):
    """A node to which a move leads."""

    parent: GameNode
    move: Move

    def __init__(self, parent: GameNode, move: Move, *, comment: str = "", starting_comment: str = "", nags: Iterable[int] = ()) -> None:
        super().__init__(comment=comment)
        self.parent, self.move, self.starting_comment = parent, move, starting_comment
        self.nags = set(nags)

    def san(self) -> str:
        """The move in standard algebraic notation."""
        return self.parent.board().san(self.move)

    def uci(self, *, chess960: Optional[bool] = None) -> str:
        """The move's text as UCI has it."""
        return self.parent.board().uci(self.move, chess960=chess960)

    def accept(self, visitor: BaseVisitor[_T]) -> _T:
        """Has the visitor see the move and all that follows, without the variations beside it."""
        _walk(self, self.parent.board(), visitor, is_alone=True)
        return visitor.result()

    def __repr__(self) -> str:
        return f"<ChildNode at {id(self):#x} ({self})>"


class Headers(MutableMapping[str, str]):
    """The tags of a game: the seven that each game has come first."""

    def __init__(self, data: Optional[Union[Mapping[str, str], Iterable[Tuple[str, str]]]] = None, **kwargs: str) -> None:
        self._tags: Dict[str, str] = {}
        if data is None:
            self._tags = {name: _UNKNOWN.get(name, "?") for name in TAG_ROSTER}
        self.update({} if data is None else data, **kwargs)

    @classmethod
    def builder(cls) -> HeadersBuilder:
        """A visitor that makes such tags."""
        return HeadersBuilder(Headers=cls)

    def is_chess960(self) -> bool:
        """Whether the tags name Chess960, whose games are refused."""
        return self.get("Variant", "").lower() in ("chess960", "chess 960", "fischerandom", "fischerrandom", "fischer random")

    def is_wild(self) -> bool:
        """Whether the tags name a wild game, which is refused."""
        return self.get("Variant", "").lower() in _WILD

    def variant(self) -> Type[Board]:
        """The class of the game's boards. Raises `NotImplementedError` for a variant."""
        if self.get("Variant", "Standard").lower() not in ("standard", "chess", "normal", "classical", "from position"):
            refuse(f"there are no variants, as {self['Variant']!r}")
        return Board

    def board(self) -> Board:
        """The position in which the game begins. Raises `NotImplementedError` for a variant."""
        return self.variant()(self.get("FEN", STARTING_FEN))

    def __setitem__(self, key: str, value: str) -> None:
        if not TAG_NAME_REGEX.fullmatch(key):
            raise ValueError(f"no name of a tag: {key!r}")
        if "\n" in value or "\r" in value:
            raise ValueError(f"a tag's value has no end of line: {value!r}")
        self._tags[key] = value

    def __getitem__(self, key: str) -> str:
        return self._tags[key]

    def __delitem__(self, key: str) -> None:
        del self._tags[key]

    def __iter__(self) -> Iterator[str]:
        yield from (name for name in TAG_ROSTER if name in self._tags)
        yield from (name for name in self._tags if name not in TAG_ROSTER)

    def __len__(self) -> int:
        return len(self._tags)

    def copy(self) -> Headers:
        """Other tags, the same."""
        return Headers(self)

    def __copy__(self) -> Headers:
        return self.copy()

    def __repr__(self) -> str:
        return f"Headers({', '.join(f'{name}={value!r}' for name, value in self.items())})"


class Game(GameNode):
    """A game, which is its first node."""

    def __init__(self, headers: Optional[Union[Mapping[str, str], Iterable[Tuple[str, str]]]] = None) -> None:
        super().__init__()
        self.headers = Headers(headers)
        self.errors: List[Exception] = []

    @classmethod
    def without_tag_roster(cls) -> Game:
        """A game without tags."""
        return cls({})

    @classmethod
    def builder(cls) -> GameBuilder:
        """What makes such a game of visits."""
        return GameBuilder(Game=cls)

    @classmethod
    def from_board(cls, board: Board) -> Game:
        """The game of a board's moves."""
        game = cls()
        game.setup(board.root())
        game.add_line(board.move_stack)
        game.headers["Result"] = board.result()
        return game

    def board(self) -> Board:
        """The position in which the game begins."""
        return self.headers.board()

    def time_control(self) -> TimeControl:
        """The times of the tag TimeControl. Raises `ValueError`."""
        return parse_time_control(self.headers.get("TimeControl", ""))

    def setup(self, board: Union[Board, str]) -> None:
        """Has the game begin in a position; its tags say so."""
        fen = Board(board).fen() if isinstance(board, str) else board.fen()
        if fen != STARTING_FEN:
            self.headers.update({"FEN": fen, "SetUp": "1"})
        else:
            self.headers.pop("FEN", None)
            self.headers.pop("SetUp", None)

    def accept(self, visitor: BaseVisitor[_T]) -> _T:
        """Has the visitor see the game."""
        if visitor.begin_game() is not SKIP:
            headers = visitor.begin_headers()
            for name, value in self.headers.items():
                visitor.visit_header(name, value)
            if visitor.end_headers() is not SKIP:
                board = self.board()
                visitor.visit_board(board)
                if self.comment:
                    visitor.visit_comment(self.comment)
                if self.variations:
                    _walk(self.variations[0], board, visitor)
                visitor.visit_result(self.headers.get("Result", "*"))
        visitor.end_game()
        return visitor.result()

    def __repr__(self) -> str:
        words = (self.headers.get(name, default) for name, default in (("White", "?"), ("Black", "?"), ("Date", "????.??.??")))
        return f"<{type(self).__name__} at {id(self):#x} ({' vs. '.join(list(words)[:2])}, {self.headers.get('Date', '????.??.??')})>"


def _walk(node: ChildNode, board: Board, visitor: BaseVisitor[_T], *, is_alone: bool = False) -> None:
    """Has the visitor see the node and all that follows, and unless it is alone the variations beside it."""
    todo: List[Tuple[str, ChildNode]] = [("move" if is_alone else "main", node)]
    while todo:
        what, at = todo.pop()
        if what == "open":
            todo.append(("close", at))
            if visitor.begin_variation() is not SKIP:
                todo.append(("move", at))
        elif what == "close":
            visitor.end_variation()
        elif what == "back":
            board.pop()
        elif what == "on" and at.variations:
            board.push(at.move)
            todo += [("back", at), ("main", at.variations[0])]
        elif what != "on":
            _show(at, board, visitor)
            todo.append(("on", at))
            if what == "main":
                todo += [("open", it) for it in reversed(at.parent.variations) if it is not at]


def _show(node: ChildNode, board: Board, visitor: BaseVisitor[_T]) -> None:
    """Has the visitor see one move."""
    if node.starting_comment:
        visitor.visit_comment(node.starting_comment)
    visitor.visit_move(board, node.move)
    board.push(node.move)
    visitor.visit_board(board)
    board.pop()
    for nag in sorted(node.nags):
        visitor.visit_nag(nag)
    if node.comment:
        visitor.visit_comment(node.comment)


class GameBuilder(BaseVisitor[Game]):
    """Makes a game."""

    def __init__(self, *, Game: Type[Game] = Game) -> None:
        self.Game = Game

    def begin_game(self) -> Optional[SkipType]:
        self.game = self.Game()
        self.variation_stack: List[GameNode] = [self.game]
        self.starting_comment = ""
        self.in_variation = False
        return None

    def begin_headers(self) -> Optional[Headers]:
        return self.game.headers

    def visit_header(self, tagname: str, tagvalue: str) -> None:
        self.game.headers[tagname] = tagvalue

    def visit_move(self, board: Board, move: Move) -> None:
        self.variation_stack[-1] = self.variation_stack[-1].add_variation(move, starting_comment=self.starting_comment)
        self.starting_comment, self.in_variation = "", True

    def visit_nag(self, nag: int) -> None:
        self.variation_stack[-1].nags.add(nag)

    def visit_comment(self, comment: str) -> None:
        at = self.variation_stack[-1]
        if self.in_variation or at.parent is None and at.is_end():
            at.comment = "\n".join(it for it in (at.comment, comment) if it)
        else:
            self.starting_comment = "\n".join(it for it in (self.starting_comment, comment) if it)

    def begin_variation(self) -> Optional[SkipType]:
        parent = self.variation_stack[-1].parent
        assert parent is not None
        self.variation_stack.append(parent)
        self.in_variation = False
        return None

    def end_variation(self) -> None:
        self.variation_stack.pop()

    def visit_result(self, result: str) -> None:
        if self.game.headers.get("Result", "*") == "*":
            self.game.headers["Result"] = result

    def handle_error(self, error: Exception) -> None:
        LOGGER.error("%s, in %r", error, self.game)
        self.game.errors.append(error)

    def result(self) -> Game:
        return self.game


class HeadersBuilder(BaseVisitor[Headers]):
    """Makes the tags of a game."""

    def __init__(self, *, Headers: Type[Headers] = Headers) -> None:
        self.Headers = Headers

    def begin_game(self) -> Optional[SkipType]:
        self.headers = self.Headers({})
        return None

    def visit_header(self, tagname: str, tagvalue: str) -> None:
        self.headers[tagname] = tagvalue

    def end_headers(self) -> Optional[SkipType]:
        return SKIP

    def handle_error(self, error: Exception) -> None:
        """Moves are none of the tags."""

    def result(self) -> Headers:
        return self.headers


class _Passing(_pgn.BaseVisitor[_T]):
    """Passes what is seen of a game of the package on to a visitor of this module."""

    def __init__(self, visitor: BaseVisitor[_T], errors: List[Exception]) -> None:
        self._visitor, self._errors = visitor, errors
        self._seen: Optional[_board.Board] = None
        self._shown: Optional[Board] = None

    # The board of the walk, as this module has it.
    def _ours(self, board: _board.Board) -> Board:
        if self._shown is None or self._seen is not board:
            self._seen, self._shown = board, Board._of(board)
        return self._shown

    def begin_game(self) -> Optional[SkipType]:
        found = self._visitor.begin_game()
        if found is not SKIP:
            self._visitor.begin_headers()
        return found

    def visit_header(self, tagname: str, tagvalue: str) -> None:
        self._visitor.visit_header(tagname, tagvalue)

    def end_headers(self) -> Optional[SkipType]:
        return self._visitor.end_headers()

    def visit_board(self, board: _board.Board) -> None:
        self._visitor.visit_board(self._ours(board))

    def visit_move(self, board: _board.Board, move: _moves.Move) -> None:
        self._visitor.visit_move(self._ours(board), OURS[move])

    def visit_nag(self, nag: int) -> None:
        self._visitor.visit_nag(nag)

    def visit_comment(self, comment: str) -> None:
        self._visitor.visit_comment(comment)

    def begin_variation(self) -> Optional[SkipType]:
        return self._visitor.begin_variation()

    def end_variation(self) -> None:
        self._visitor.end_variation()

    def visit_result(self, result: str) -> None:
        self._visitor.visit_result(result)

    def end_game(self) -> None:
        for error in self._errors:
            self._visitor.handle_error(error)
        self._visitor.end_game()

    def result(self) -> _T:
        return self._visitor.result()


@overload
def read_game(handle: Union[TextIO, IO[Any], str]) -> Optional[Game]: ...
@overload
def read_game(handle: Union[TextIO, IO[Any], str], *, Visitor: Callable[[], BaseVisitor[_T]]) -> Optional[_T]: ...
def read_game(handle: Union[TextIO, IO[Any], str], *, Visitor: Callable[[], BaseVisitor[Any]] = GameBuilder) -> Any:
    """The next game of a file, as a visitor of that class makes it; None at the end. The moves from one that can't be read on are left out, and the visitor's
    `handle_error` is called; a game has such errors as `errors`. Raises `InvalidGameError` if nothing of the game can be read; the next call goes on."""
    errors: List[Exception] = []

    def repaired(repairs: List[_pgn.Repair]) -> None:
        errors.extend(ValueError(f"moves are left out at byte {it.place}: {it.name}") for it in repairs if it.name in _CUTS)

    game = _pgn.read_game(handle, repaired=repaired)
    return None if game is None else game.accept(_Passing(Visitor(), errors))


def read_headers(handle: Union[TextIO, IO[Any], str]) -> Optional[Headers]:
    """The tags of the next game; None at the end. The library reads the whole game."""
    return read_game(handle, Visitor=HeadersBuilder)


def skip_game(handle: Union[TextIO, IO[Any], str]) -> bool:
    """Passes the next game over; False at the end."""
    found = read_game(handle, Visitor=SkipVisitor)
    return found is not None
