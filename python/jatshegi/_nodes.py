"""The nodes of a game: a move each, with what is said of it and what follows."""
from __future__ import annotations

from typing import TYPE_CHECKING, AbstractSet, Callable, Generic, Iterable, Iterator, List, Optional, Sequence, Tuple, TypeVar, Union, cast, overload

from ._board import Board
from ._checks import one_of
from ._errors import AmbiguousMoveError, IllegalMoveError, InvalidMoveError
from ._moves import STARTING_FEN, Move

if TYPE_CHECKING:
    from ._visitors import BaseVisitor
    from .pgn import Game

_T = TypeVar("_T")


def _number_of(nag: int) -> int:
    """An annotation's number. Raises `TypeError` and `ValueError` for what is none."""
    if isinstance(nag, bool) or not isinstance(nag, int):
        raise TypeError(f"an annotation is a number: {nag!r}")
    if not 0 <= nag <= 255:
        raise ValueError(f"an annotation is a number of 0 to 255: {nag}")
    return nag


def _text_of(comment: str) -> str:
    """A comment. Raises `TypeError` for what is none."""
    if not isinstance(comment, str):
        raise TypeError(f"a comment is a text: {comment!r}")
    return comment


class Mainline(Generic[_T]):
    """The nodes, or their moves, that follow a node along the first children, as the game has them at each moment. You can go through it more than once; it is
    false if nothing follows. Its text is the moves with their annotations and comments, without variations.

    >>> line = jatshegi.pgn.read_game("1. e4 e5 (1... c5) 2. Nf3 {so} *").mainline_moves()
    >>> len(line), [move.uci() for move in reversed(line)], str(line)
    (3, ['g1f3', 'e7e5', 'e2e4'], '1. e4 e5 2. Nf3 {so}')
    """

    __slots__ = ("_count", "_found", "_node")

    def __init__(self, node: Node, found: Callable[[], Iterator[_T]], count: Callable[[], int]) -> None:
        self._node, self._found, self._count = node, found, count

    def __iter__(self) -> Iterator[_T]:
        return self._found()

    def __reversed__(self) -> Iterator[_T]:
        return reversed(list(self))

    def __len__(self) -> int:
        return self._count()

    def __str__(self) -> str:
        from ._visitors import StringExporter

        first = self._node.next()
        return "" if first is None else first.accept(StringExporter(variations=False, columns=None))

    def __repr__(self) -> str:
        return f"<Mainline {self}>"


class Nags(Sequence[int]):
    """The annotations of a node (PGN 8.2.4), in the order of the text, as the node has them at each moment. They can be added and taken out.

    >>> node = jatshegi.pgn.read_game("1. e4 $1 *").next()
    >>> node.nags.add(14)
    >>> node.nags, 14 in node.nags, node.nags == {1, 14}
    ((1, 14), True, True)
    >>> node.nags.discard(1)
    >>> node.nags
    (14,)
    """

    __slots__ = ("_node",)

    def __init__(self, node: Node) -> None:
        self._node = node

    @overload
    def __getitem__(self, place: int) -> int: ...
    @overload
    def __getitem__(self, place: slice) -> Tuple[int, ...]: ...
    def __getitem__(self, place: Union[int, slice]) -> Union[int, Tuple[int, ...]]:
        return self._node._nags[place]

    def __len__(self) -> int:
        return len(self._node._nags)

    def __eq__(self, other: object) -> bool:
        mine = self._node._nags
        if isinstance(other, AbstractSet):
            return bool(set(mine) == other)
        if isinstance(other, (Nags, tuple, list)):
            return mine == tuple(other)
        return NotImplemented

    __hash__ = None  # type: ignore[assignment]  # (it can be changed)

    def add(self, nag: int) -> None:
        """One annotation more, unless it is there. Raises `ValueError` for a number that isn't 0 to 255, and at the root."""
        self.update((nag,))

    def update(self, nags: Iterable[int]) -> None:
        """Those that aren't there: all of them, or none where something is refused."""
        numbers = dict.fromkeys(map(_number_of, nags))
        self._node.game()._edits_of().say(self._node, None, [it for it in numbers if it not in self])

    def remove(self, nag: int) -> None:
        """Takes an annotation out. Raises `KeyError` if it isn't there."""
        if _number_of(nag) not in self:
            raise KeyError(nag)
        self.discard(nag)

    def discard(self, nag: int) -> None:
        """Takes an annotation out, if it is there."""
        if _number_of(nag) in self:
            self._leave([it for it in self if it != nag])

    def clear(self) -> None:
        """Takes all annotations out."""
        if self:
            self._leave([])

    # Has the node these alone.
    def _leave(self, nags: Sequence[int]) -> None:
        self._node.game()._edits_of().annotate(self._node, nags)

    def __repr__(self) -> str:
        return repr(self._node._nags)


class Node:
    """A move of a game, or its root: what was played, what is said of it, and what follows, the main continuation first.

    >>> game = jatshegi.pgn.Game()
    >>> node = game.add_variation("e4").add_variation("e5")
    >>> node.parent.add_variation("c5", comment="Sicilian").nags.add(1)
    >>> node.comment = "open"
    >>> print(str(game).splitlines()[-2])
    1. e4 e5 {open} (1... c5 $1 {Sicilian}) *
    """

    __slots__ = ("_children", "_comment", "_nags", "_parent", "_san")

    def __init__(self, san: Optional[str] = None, parent: Optional[Node] = None) -> None:
        self._san = san
        self._parent = parent
        self._comment = ""
        self._nags: Tuple[int, ...] = ()
        # A list is another one after an edit, so what goes through one goes on.
        self._children: List[Node] = []

    # ---- the move

    @property
    def san(self) -> Optional[str]:
        """The move in standard algebraic notation; None at the root."""
        return self._san

    @property
    def move(self) -> Optional[Move]:
        """The move that leads to the node; None at the root. It is made out anew each time: `mainline_moves` is quick for many.

        >>> jatshegi.pgn.read_game("1. e4 e5 *").end().move
        Move.from_uci('e7e5')
        """
        return None if self._parent is None or self._san is None else self._parent.board().parse_san(self._san)

    def uci(self) -> str:
        """The move's text as UCI has it. Raises `ValueError` at the root."""
        move = self.move
        if move is None:
            raise ValueError("no move leads to the root")
        return move.uci()

    def board(self) -> Board:
        """A board at the node's position, with the moves that led there.

        >>> jatshegi.pgn.read_game("1. e4 e5 *").end().board().ply
        2
        """
        board = Board(self.game().start or STARTING_FEN)
        for san in self.path():
            board.push_san(san)
        return board

    def ply(self) -> int:
        """How many moves lead from the root to the node."""
        return sum(1 for _ in self._way()) - 1

    def turn(self) -> bool:
        """The colour of the side that moves next: WHITE or BLACK.

        >>> jatshegi.pgn.read_game("1. e4 *").end().turn() == jatshegi.BLACK
        True
        """
        start = self.game().start
        return (start is None or start.split()[1] == "w") == (self.ply() % 2 == 0)

    # ---- what is said of it

    @property
    def comment(self) -> str:
        """What is said of the move, or of the game at its root; empty where nothing is. It can be set: each run of whitespace is then a space, and there
        is none at the ends. Raises `ValueError` for a text with a right brace, or one that the game's encoding doesn't have.

        >>> node = jatshegi.pgn.read_game("1. e4 {best by test} *").next()
        >>> node.comment = "so  they say"
        >>> node.comment
        'so they say'
        """
        return self._comment

    @comment.setter
    def comment(self, comment: str) -> None:
        self.game()._edits_of().say(self, _text_of(comment))

    @property
    def nags(self) -> Nags:
        """Annotation numbers (PGN 8.2.4), which can be added and taken out. When they are set, those that the node has keep their order, and others follow."""
        return Nags(self)

    @nags.setter
    def nags(self, nags: Iterable[int]) -> None:
        numbers = dict.fromkeys(map(_number_of, nags))
        if set(self._nags) <= set(numbers):
            self.nags.update(numbers)
        else:
            self.nags._leave([*(it for it in self._nags if it in numbers), *(it for it in numbers if it not in self._nags)])

    def add_nag(self, nag: int) -> None:
        """One annotation more, unless it is there, as `nags.add`."""
        self.nags.add(nag)

    # ---- the tree

    @property
    def parent(self) -> Optional[Node]:
        """The node before; None at the root."""
        return self._parent

    @property
    def children(self) -> Tuple[Node, ...]:
        """The nodes that follow, the main continuation first."""
        return tuple(self._children)

    @property
    def variations(self) -> Tuple[Node, ...]:
        """The same as `children`."""
        return self.children

    def game(self) -> Game:
        """The game of the node, which is its root."""
        *_, root = self._way()
        return cast("Game", root)

    def next(self) -> Optional[Node]:
        """The first child, or None."""
        return self._children[0] if self._children else None

    def is_end(self) -> bool:
        """Whether nothing follows."""
        return not self._children

    def end(self) -> Node:
        """The last node along the first children."""
        node = self
        while node._children:
            node = node._children[0]
        return node

    def is_main_variation(self) -> bool:
        """Whether the node is its parent's first child, or the root."""
        return self._parent is None or self._place() == 0

    def is_mainline(self) -> bool:
        """Whether it is one of the game's main line, as the root is."""
        return all(node.is_main_variation() for node in self._way())

    def starts_variation(self) -> bool:
        """Whether a variation begins with it, so that it is a child but not the first."""
        return not self.is_main_variation()

    # The node, and those before it up to the root.
    def _way(self) -> Iterator[Node]:
        node: Optional[Node] = self
        while node is not None:
            yield node
            node = node._parent

    # Which of its parent's children it is, from 0. Raises `ValueError` for a node that was taken out.
    def _place(self) -> int:
        assert self._parent is not None
        for place, child in enumerate(self._parent._children):
            if child is self:
                return place
        raise ValueError(f"the node was taken out of its game: {self!r}")

    # A child more, the last.
    def _added(self, san: str) -> Node:
        child = Node(san, self)
        self._children = [*self._children, child]
        return child

    def mainline(self) -> Mainline[Node]:
        """The nodes that follow along the first children.

        >>> game = jatshegi.pgn.read_game("1. e4 e5 (1... c5) 2. Nf3 *")
        >>> " ".join(node.san for node in game.root.mainline())
        'e4 e5 Nf3'
        """
        return Mainline(self, self._following, self._following_count)

    def _following(self) -> Iterator[Node]:
        node = self
        while node._children:
            node = node._children[0]
            yield node

    def _following_count(self) -> int:
        return sum(1 for _ in self._following())

    def mainline_moves(self) -> Mainline[Move]:
        """The moves that follow along the first children.

        >>> [move.uci() for move in jatshegi.pgn.read_game("1. e4 e5 2. Nf3 *").root.mainline_moves()]
        ['e2e4', 'e7e5', 'g1f3']
        """
        return Mainline(self, self._following_moves, self._following_count)

    def _following_moves(self) -> Iterator[Move]:
        board = self.board()
        for node in self._following():
            assert node._san is not None
            yield board.push_san(node._san)

    def path(self) -> List[str]:
        """The moves from the root to this node.

        >>> game = jatshegi.pgn.read_game("1. e4 e5 (1... c5 2. Nf3) *")
        >>> game.root.children[0].children[1].children[0].path()
        ['e4', 'c5', 'Nf3']
        """
        return [node._san for node in self._way() if node._san is not None][::-1]

    def variation(self, move: Union[int, Move, str, Node]) -> Node:
        """The child at a place, from 0, with a move, or that is a node. Raises `KeyError` where there is none, of a place `IndexError`. `node[move]` is
        the same.

        >>> game = jatshegi.pgn.read_game("1. e4 (1. d4) *")
        >>> game.variation(1) is game["d4"], jatshegi.Move.from_uci("e2e3") in game
        (True, False)
        """
        if isinstance(move, int):
            return self._children[move]
        if isinstance(move, Node):
            found = (child for child in self._children if child is move)
        else:
            san = self._san_of(move)
            found = (child for child in self._children if child._san == san)
        for child in found:
            return child
        raise KeyError(move)

    # The text of a move here, or None where it is none.
    def _san_of(self, move: Union[Move, str]) -> Optional[str]:
        board = self.board()
        try:
            return board.san(board.parse_san(move) if isinstance(move, str) else move)
        except (AmbiguousMoveError, IllegalMoveError, InvalidMoveError):
            return None

    def __getitem__(self, move: Union[int, Move, str, Node]) -> Node:
        return self.variation(move)

    def has_variation(self, move: Union[int, Move, str, Node]) -> bool:
        """Whether there is such a child. `move in node` is the same."""
        try:
            self.variation(move)
        except (KeyError, IndexError):
            return False
        return True

    def __contains__(self, move: Union[int, Move, str, Node]) -> bool:
        return self.has_variation(move)

    # ---- edits

    def add_variation(self, move: Union[Move, str], *, comment: str = "", nags: Iterable[int] = ()) -> Node:
        """The child with the move, or with the one that a text names, which is added, the last, where there is none; a comment and annotations are for it.
        Raises as `Board.push` and `Board.push_san`, and `ValueError` as `comment` does."""
        return self.add_line((move,), comment=comment, nags=nags)

    def add_main_variation(self, move: Union[Move, str], *, comment: str = "", nags: Iterable[int] = ()) -> Node:
        """The same, and it is put before its siblings."""
        return self._grown((move,), comment, nags, True)

    def add_line(self, moves: Iterable[Union[Move, str]], *, comment: str = "", nags: Iterable[int] = ()) -> Node:
        """The node at the end of the moves, each of which is added where it isn't there: all of them, or none where something is refused. A comment and
        annotations are for the last.

        >>> game = jatshegi.pgn.Game()
        >>> game.add_line(["e4", "e5", "Nf3"]).path()
        ['e4', 'e5', 'Nf3']
        """
        return self._grown(moves, comment, nags, False)

    def _grown(self, moves: Iterable[Union[Move, str]], comment: str, nags: Iterable[int], is_main: bool) -> Node:
        numbers = list(dict.fromkeys(map(_number_of, nags)))
        return self.game()._edits_of().grow(self, moves, _text_of(comment) or None, numbers, is_main)

    def promote_to_main(self, move: Union[int, Move, str, Node]) -> None:
        """Puts a child before the others. Raises `KeyError` or `IndexError` as `variation`."""
        self._put(move, lambda place: 0)

    def promote(self, move: Union[int, Move, str, Node]) -> None:
        """Puts it one place nearer to the first."""
        self._put(move, lambda place: max(place - 1, 0))

    def demote(self, move: Union[int, Move, str, Node]) -> None:
        """Puts it one place nearer to the last."""
        self._put(move, lambda place: min(place + 1, len(self._children) - 1))

    def _put(self, move: Union[int, Move, str, Node], place: Callable[[int], int]) -> None:
        child = self.variation(move)
        self.game()._edits_of().put(child, place(child._place()))

    def remove_variation(self, move: Union[int, Move, str, Node]) -> None:
        """Takes a child out, with all that follows it. Raises `KeyError` or `IndexError` as `variation`."""
        self.game()._edits_of().delete(self.variation(move))

    # ---- the rest

    def accept(self, visitor: BaseVisitor[_T]) -> _T:
        """Has the visitor see the move and all that follows, and returns its result. The variations beside the move are none of it."""
        from ._visitors import BaseVisitor, walk

        one_of(visitor, BaseVisitor, "a visitor is a BaseVisitor")
        assert self._parent is not None
        visitor.visit_encoding(self.game().encoding)
        walk(self, self._parent.board(), visitor)
        return visitor.result()

    def __str__(self) -> str:
        """The move and all that follows, on one line.

        >>> print(jatshegi.pgn.read_game("1. e4 e5 (1... c5) 2. Nf3 *").next().next())
        1... e5 2. Nf3
        """
        from ._visitors import StringExporter

        return self.accept(StringExporter(columns=None))

    # For pickle: the game, and the places on the way.
    def __reduce__(self) -> Tuple[Callable[..., Node], Tuple[object, ...]]:
        places = [node._place() for node in self._way() if node._parent is not None]
        return _node_at, (self.game(), tuple(places[::-1]))

    def __repr__(self) -> str:
        return f"<Node {self.san or 'root'}, {len(self._children)} children>"


def _node_at(game: Node, places: Tuple[int, ...]) -> Node:
    """The node of a game with those places on its way."""
    for place in places:
        game = game._children[place]
    return game
