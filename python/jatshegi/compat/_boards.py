"""The board of python-chess over the library's."""
from __future__ import annotations

from typing import Any, Callable, Dict, Iterable, Iterator, List, Optional, Tuple, Type, TypeVar, Union

from .. import _board
from .. import _library as c
from .._checks import colour_of, square_of, text_of, whole
from .._errors import InvalidFenError
from .._status import Outcome, Termination
from . import _epd
from ._aside import attackers_among
from ._fields import IN_CHECK, NO_POSITION, ROOKS, TWO_KINGS, Fields, fields_of, fields_of_board
from ._men import BaseBoard, counts, pawns_on_last_ranks
from ._names import (
    BB_ALL,
    BB_DARK_SQUARES,
    BB_LIGHT_SQUARES,
    BB_SQUARES,
    BLACK,
    COLORS,
    MEN,
    OURS,
    PAWN,
    STARTING_FEN,
    WHITE,
    Bitboard,
    Color,
    Move,
    Piece,
    PieceType,
    Square,
    SquareSet,
    Status,
    popcount,
    ray,
    refuse,
    scan_forward,
)
from ._order import LegalMoveGenerator, MoveStack
from ._past import Chapter, Past, last_moves, moves_of, positions_of, shortened
from ._placement import men_of, word_of

_Of = TypeVar("_Of", bound="Board")

# The rook's square of each square to which a king castles.
_CASTLES = {6: 7, 2: 0, 62: 63, 58: 56}
# What `parse_san` of python-chess reads as the null move.
_NULLS = ("--", "Z0", "0000", "@@@@")


class Board(BaseBoard):
    """A game's position and the moves that led there. The library answers each question of chess. Pieces that are no position, as a board without kings, are
    kept while they are edited; then a question of chess is a `ValueError`."""

    aliases = ["Standard", "Chess", "Classical", "Normal", "Illegal", "From Position"]
    uci_variant: Optional[str] = "chess"
    xboard_variant: Optional[str] = "normal"
    starting_fen = STARTING_FEN
    connected_kings, one_king, captures_compulsory = False, True, False

    def __init__(self, fen: Optional[str] = STARTING_FEN, *, chess960: bool = False) -> None:
        if chess960:
            refuse("there is no Chess960")
        if fen is None or fen == STARTING_FEN or not self._is_plain(text_of(fen, "a FEN is a text")):
            self._take(_board.Board())
            if fen != STARTING_FEN:
                self._begin(Fields({}) if fen is None else fields_of(fen))

    # A board of the library, from whose position on moves are made.
    def _take(self, board: _board.Board) -> None:
        self._it = board
        # The fields that were set last; and the library's refusal of them, if they are no position.
        self._set: Optional[Fields] = None
        self._refusal: Optional[InvalidFenError] = None
        self._past: Past = ()

    @classmethod
    def _of(cls: Type[_Of], board: _board.Board) -> _Of:
        found = cls.__new__(cls)
        found._take(board)
        return found

    @classmethod
    def from_epd(cls: Type[_Of], epd: str, *, chess960: bool = False) -> Tuple[_Of, Dict[str, _epd.Operand]]:
        """The board of an EPD and its operations."""
        board = cls.empty()
        return board, board.set_epd(epd)

    # The library's board. Raises `ValueError` if there is no position.
    @property
    def _game(self) -> _board.Board:
        if self._refusal is not None:
            _, _, why = self._refusal.args
            raise ValueError(f"the board has no position, since {why}: {self.fen()}")
        return self._it

    # Begins a game from these fields, or keeps them if they are no position.
    def _begin(self, fields: Fields) -> None:
        try:
            self._it.set_fen(fields.text())
            self._refusal = None
        except InvalidFenError as fault:
            if fault.fault not in NO_POSITION:
                raise
            self._refusal = fault
        self._set, self._past = fields, ()

    # The fields as they were set, or as moves have left them.
    def _fields(self) -> Fields:
        if self._set is not None and (self._refusal is not None or not self._it.ply):
            return self._set
        return fields_of_board(self._it)

    def _men_now(self) -> Dict[Square, Piece]:
        if self._refusal is not None and self._set is not None:
            return self._set.men
        return {square: MEN[letter] for square, letter in enumerate(self._it._men()) if letter}

    def _squares_of(self, kind: Optional[PieceType], color: Optional[Color]) -> Bitboard:
        return super()._squares_of(kind, color) if self._refusal is not None else word_of(self._it._men(), kind, color)

    def piece_at(self, square: Square) -> Optional[Piece]:
        """The piece on the square, or None."""
        if self._refusal is not None:
            return super().piece_at(square)
        return MEN.get(self._it._men()[square_of(square)])

    def king(self, color: Color) -> Optional[Square]:
        """The square of that side's king; None if there isn't one alone."""
        return super().king(color) if self._refusal is not None else self._it.king(color)

    def _place(self, men: Dict[Square, Piece]) -> None:
        self._begin(self._fields()._replace(men=men))

    # Sets a field. The moves before it stay.
    def _edit(self, **changes: Any) -> None:
        now, last = self._fields(), self._past[-1] if self._past else None
        fields = now._replace(**changes)
        if fields == now:
            return
        if self._is_played():
            self._go_on(fields, (*self._past, Chapter(self._it, self._set, False)))
        elif last is not None and not last.is_null and fields == fields_of_board(last.it):
            # (as it was before the field was set)
            self._it, self._set, self._refusal, self._past = last.it, last.fields, None, self._past[:-1]
        else:
            self._go_on(fields, self._past)

    # Goes on from these fields after other chapters.
    def _go_on(self, fields: Fields, past: Past) -> None:
        after = Board.empty()
        after._begin(fields)
        self._it, self._set, self._refusal, self._past = after._it, after._set, after._refusal, past

    @property
    def chess960(self) -> bool:
        """False. Raises `NotImplementedError` if it is set to True."""
        return False

    @chess960.setter
    def chess960(self, chess960: bool) -> None:
        if chess960:
            refuse("there is no Chess960")

    # ---- the position

    def set_fen(self, fen: str) -> None:
        """Begins a new game from a FEN. Raises `ValueError`."""
        if not self._is_plain(text_of(fen, "a FEN is a text")):
            self._begin(fields_of(fen))

    # Begins from a FEN that the library takes as it is, with its castling rights and its target. Nothing has changed if it isn't such a FEN.
    def _is_plain(self, fen: str) -> bool:
        fields = fen.split()
        if len(fields) != 6:
            return False
        try:
            board = _board.Board(fen)
        except InvalidFenError:
            return False
        is_plain = board.fen().split()[2:4] == fields[2:4]
        if is_plain:
            self._take(board)
        return is_plain

    def reset(self) -> None:
        """Begins a new game from the usual position."""
        self.set_fen(STARTING_FEN)

    def reset_board(self) -> None:
        """The pieces as a game begins."""
        self._place(men_of(STARTING_FEN.split()[0]))

    def clear(self) -> None:
        """No pieces, and White to move."""
        self._begin(Fields({}))

    # Whether a move has been made since the position, or a field of it, was set, or since the last null move.
    def _is_played(self) -> bool:
        return self._refusal is None and bool(self._it.ply)

    # Whether a move has been made.
    def _is_moved(self) -> bool:
        return bool(self._past) or self._is_played()

    def clear_stack(self) -> None:
        """Forgets the moves; the position stays."""
        if self._is_played():
            self._take(_board.Board(self._it.fen()))
        else:
            self._begin(self._fields())

    def root(self: _Of) -> _Of:
        """A board with the position in which the game began."""
        if not self._is_moved():
            return self.copy()
        start = (self._past[0].it if self._past else self._it).copy()
        start._call(c.lib.jatshegi_board_start, "root")
        return type(self)(start.fen())

    @property
    def turn(self) -> Color:
        """The side to move, which can be set."""
        return self._it.turn if self._refusal is None else self._fields().turn

    @turn.setter
    def turn(self, color: Color) -> None:
        self._edit(turn=colour_of(color))

    @property
    def castling_rights(self) -> Bitboard:
        """The rooks' squares of the castling rights, which can be set."""
        return sum(BB_SQUARES[ROOKS[it][0]] for it in self._fields().castling if it != "-")

    @castling_rights.setter
    def castling_rights(self, rights: Bitboard) -> None:
        word = whole(rights, "castling rights are a word of 64 bits", 0)
        if word & ~sum(BB_SQUARES[rook] for rook, _ in ROOKS.values()):
            refuse("there is no Chess960: castling rights are of a1, h1, a8 and h8")
        self._edit(castling="".join(it for it, (rook, _) in ROOKS.items() if word >> rook & 1) or "-")

    def set_castling_fen(self, castling_fen: str) -> None:
        """Sets the castling rights by the letters of a FEN. Raises `ValueError`."""
        if len(text_of(castling_fen, "castling rights are a text, as KQkq").split()) != 1:
            raise ValueError(f"castling rights are - or letters of KQkq: {castling_fen!r}")
        self._edit(castling=fields_of(f"{TWO_KINGS} w {castling_fen.strip()} - 0 1").castling)

    def clean_castling_rights(self) -> Bitboard:
        """The castling rights that the position has."""
        return sum(BB_SQUARES[ROOKS[it][0]] for it in self._fields().kept() if it != "-") if self._refusal is not None else self._it.castling_rights

    @property
    def ep_square(self) -> Optional[Square]:
        """The square that a pawn has just passed over, which can be set."""
        return self._fields().target

    @ep_square.setter
    def ep_square(self, square: Optional[Square]) -> None:
        self._edit(target=None if square is None else square_of(square))

    @property
    def halfmove_clock(self) -> int:
        """How many plies there were since the last pawn's move or capture."""
        return self._fields().clock if self._refusal is not None else self._it.halfmove_clock

    @halfmove_clock.setter
    def halfmove_clock(self, number: int) -> None:
        self._edit(clock=whole(number, "a clock is a number of 0 to 99999", 0, 99999))

    @property
    def fullmove_number(self) -> int:
        """The number of the move."""
        return self._fields().number if self._refusal is not None else self._it.fullmove_number

    @fullmove_number.setter
    def fullmove_number(self, number: int) -> None:
        self._edit(number=whole(number, "a move has a number of 1 to 99999", 1, 99999))

    def ply(self) -> int:
        """How many plies there were since the beginning of move 1."""
        return 2 * (self.fullmove_number - 1) + (self.turn == BLACK)

    def has_kingside_castling_rights(self, color: Color) -> bool:
        """Whether that side may still castle with the rook of file h."""
        return self._game.has_kingside_castling_rights(color)

    def has_queenside_castling_rights(self, color: Color) -> bool:
        """Whether that side may still castle with the rook of file a."""
        return self._game.has_queenside_castling_rights(color)

    def has_castling_rights(self, color: Color) -> bool:
        """Whether that side may still castle."""
        return self._game.has_castling_rights(color)

    def has_chess960_castling_rights(self) -> bool:
        """False: there is no Chess960."""
        return False

    def has_pseudo_legal_en_passant(self) -> bool:
        """Whether a pawn of the side to move attacks the en passant target."""
        target = self._game.ep_square
        return target is not None and bool(self.attackers_mask(self.turn, target) & self.pieces_mask(PAWN, self.turn))

    def has_legal_en_passant(self) -> bool:
        """Whether a legal move captures en passant."""
        return self._game.epd().split()[3] != "-"

    # ---- texts

    def fen(self, *, shredder: bool = False, en_passant: str = "legal", promoted: Optional[bool] = None) -> str:
        """The FEN, with the en passant target if it can be captured on (`legal`), if a pawn attacks it (`xfen`), or always (`fen`)."""
        return f"{self._position(shredder, en_passant)} {self.halfmove_clock} {self.fullmove_number}"

    def _position(self, shredder: bool, en_passant: str) -> str:
        if shredder:
            refuse("there is no Chess960, so no Shredder-FEN")
        if en_passant not in ("legal", "xfen", "fen"):
            raise ValueError(f"an en passant target is written as legal, xfen or fen: {en_passant!r}")
        if self._refusal is None and en_passant == "legal":
            return self._it.epd()
        fields = self._fields()
        is_shown = en_passant == "fen" or self._refusal is None and en_passant == "xfen" and self.has_pseudo_legal_en_passant()
        return " ".join(fields._replace(castling=fields.kept(), target=fields.target if is_shown else None).text().split()[:4])

    def shredder_fen(self, *, en_passant: str = "legal", promoted: Optional[bool] = None) -> str:
        """Raises `NotImplementedError`."""
        return self.fen(shredder=True)

    def castling_shredder_fen(self) -> str:
        """Raises `NotImplementedError`."""
        return self.fen(shredder=True)

    def castling_xfen(self) -> str:
        """The castling field of the FEN."""
        return self._position(False, "legal").split()[2]

    def epd(self, *, shredder: bool = False, en_passant: str = "legal", promoted: Optional[bool] = None, **operations: _epd.Given) -> str:
        """The first four fields of the FEN, and the operations."""
        return " ".join([self._position(shredder, en_passant), *_epd.written(self, operations)])

    def set_epd(self, epd: str) -> Dict[str, _epd.Operand]:
        """Begins a game from an EPD, and returns its operations; `hmvc` and `fmvn` are its counters. Raises `ValueError`."""
        parts = epd.strip().rstrip(";").split(None, 4)
        if not parts:
            raise ValueError("an EPD has a position")
        found = Board(" ".join(parts[:4]))
        operations = _epd.read(parts[4], found) if len(parts) > 4 else {}
        fields = found._fields()
        clock, number = (operations.get(name, default) for name, default in (("hmvc", 0), ("fmvn", 1)))
        if not isinstance(clock, int) or not isinstance(number, int):
            raise ValueError(f"hmvc and fmvn are whole numbers: {epd!r}")
        self._begin(fields._replace(clock=clock, number=max(number, 1)))
        return operations

    def __repr__(self) -> str:
        return f"Board({self.fen()!r})"

    def _repr_svg_(self) -> str:
        from . import svg

        is_checked = self._refusal is None and self.is_check()
        return svg.board(self, size=390, lastmove=self.peek() if self._is_moved() else None, check=self.king(self.turn) if is_checked else None)

    # ---- copies

    def copy(self: _Of, *, stack: Union[bool, int] = True) -> _Of:
        """Another board, with all moves before it, with none, or with the last ones."""
        board = type(self).__new__(type(self))
        board.__dict__.update(self.__dict__)
        board._it, board._past = self._it.copy(), tuple(chapter._replace(it=chapter.it.copy()) for chapter in self._past)
        own, count = self._it.ply if self._is_played() else 0, int(stack)
        if stack is True or not self._is_moved():
            return board
        if not count:
            board.clear_stack()
        elif count > own:
            board._past = shortened(board._past, count - own)
        else:
            board._it, board._set, board._past = last_moves(board._it, count), self._set if count == own else None, ()
        return board

    def _with(self: _Of, fields: Fields) -> _Of:
        board = self.copy(stack=False)
        board._begin(fields)
        return board

    def apply_mirror(self) -> None:
        """Turns the ranks round and changes the colours, and the side to move with them. The moves are forgotten."""
        self._begin(self._mirrored())

    def mirror(self: _Of) -> _Of:
        """Another board, after `apply_mirror`."""
        return self._with(self._mirrored())

    def _mirrored(self) -> Fields:
        men, turn, castling, target, clock, number = self._fields()
        turned = {at ^ 56: Piece(man.piece_type, not man.color) for at, man in men.items()}
        return Fields(turned, not turn, "".join(it for it in "KQkq" if it.swapcase() in castling) or "-", None if target is None else target ^ 56, clock, number)

    def apply_transform(self, f: Callable[[Bitboard], Bitboard]) -> None:
        """Moves each piece to the square that a function of words has for its own, and the castling rights with them. The moves are forgotten."""
        self._begin(self._transformed(f))

    def transform(self: _Of, f: Callable[[Bitboard], Bitboard]) -> _Of:
        """Another board, after `apply_transform`."""
        return self._with(self._transformed(f))

    def _transformed(self, f: Callable[[Bitboard], Bitboard]) -> Fields:
        fields, rights = self._fields(), f(self.clean_castling_rights())
        castling = "".join(it for it, (rook, _) in ROOKS.items() if rights >> rook & 1) or "-"
        target = None if fields.target is None else f(BB_SQUARES[fields.target]).bit_length() - 1
        return fields._replace(men=self._turned(f), castling=castling, target=target)

    # (python-chess's key of a position, which many programs use)
    def _transposition_key(self) -> str:
        return self._position(False, "legal")

    def __reduce__(self) -> Tuple[object, ...]:
        return _restored, (type(self), self._it, self._set, self._refusal, self._past)

    def __eq__(self, other: object) -> bool:
        if not isinstance(other, Board):
            return NotImplemented
        return (self._position(False, "legal"), self.halfmove_clock, self.fullmove_number) == (other._position(False, "legal"), other.halfmove_clock, other.fullmove_number)

    __hash__ = None  # type: ignore[assignment]  # (it can be changed)

    # ---- moves

    @property
    def legal_moves(self) -> LegalMoveGenerator:
        """The legal moves."""
        return LegalMoveGenerator(self)

    @property
    def pseudo_legal_moves(self) -> Any:
        """Raises `NotImplementedError`: the library answers legal moves alone."""
        refuse("there are no pseudo-legal moves")

    def generate_legal_moves(self, from_mask: Bitboard = BB_ALL, to_mask: Bitboard = BB_ALL) -> Iterator[Move]:
        """The legal moves from these squares to those."""
        return (move for move in self.legal_moves if from_mask >> move.from_square & 1 and to_mask >> move.to_square & 1)

    def generate_legal_captures(self, from_mask: Bitboard = BB_ALL, to_mask: Bitboard = BB_ALL) -> Iterator[Move]:
        """Those that capture, also en passant."""
        return (move for move in self.generate_legal_moves(from_mask, to_mask) if self.is_capture(move))

    def generate_legal_ep(self, from_mask: Bitboard = BB_ALL, to_mask: Bitboard = BB_ALL) -> Iterator[Move]:
        """Those that capture en passant."""
        return (move for move in self.generate_legal_moves(from_mask, to_mask) if self.is_en_passant(move))

    def generate_castling_moves(self, from_mask: Bitboard = BB_ALL, to_mask: Bitboard = BB_ALL) -> Iterator[Move]:
        """Those that castle."""
        return (move for move in self.generate_legal_moves(from_mask, to_mask) if self.is_castling(move))

    def is_legal(self, move: Move) -> bool:
        """Whether the move is legal."""
        return bool(move) and self._game.is_legal(move)

    def is_pseudo_legal(self, move: Move) -> bool:
        """Raises `NotImplementedError`."""
        refuse("there are no pseudo-legal moves")

    def is_into_check(self, move: Move) -> bool:
        """Raises `NotImplementedError`."""
        refuse("there are no pseudo-legal moves")

    def generate_pseudo_legal_moves(self, from_mask: Bitboard = BB_ALL, to_mask: Bitboard = BB_ALL) -> Iterator[Move]:
        """Raises `NotImplementedError`."""
        refuse("there are no pseudo-legal moves")

    generate_pseudo_legal_captures = generate_pseudo_legal_ep = generate_pseudo_legal_moves

    def push(self, move: Move) -> None:
        """Makes a legal move, or passes by the null move. Raises `IllegalMoveError`."""
        if move:
            self._game.push(move)
        else:
            self._pass()

    # Makes the null move. If it leaves a king in check, the board has no position until the move is taken back.
    def _pass(self) -> None:
        before, fields = Chapter(self._game, self._set, True), self._fields()
        passed = fields._replace(turn=not fields.turn, target=None, clock=fields.clock + 1, number=fields.number + (fields.turn == BLACK))
        self._go_on(passed, (*self._past, before))

    def pop(self) -> Move:
        """Takes the last move back, and the fields that were set after it. Raises `IndexError` if no move has been made."""
        while self._past and not self._is_played():
            *past, (self._it, self._set, is_null) = self._past
            self._refusal, self._past = None, tuple(past)
            if is_null:
                return Move.null()
        if not self._is_played():
            raise IndexError("no move has been made")
        return OURS[self._it.pop()]

    def peek(self) -> Move:
        """The last move. Raises `IndexError` if there is none."""
        if self._is_played():
            return OURS[self._it.peek()]
        if not self._past:
            raise IndexError("no move has been made")
        last = self._past[-1]
        return Move.null() if last.is_null else OURS[last.it.peek()]

    @property
    def move_stack(self) -> MoveStack:
        """The moves that were made: a list of the caller's own, which can't be changed."""
        return MoveStack([*moves_of(self._past), *(map(OURS.__getitem__, self._it.move_stack) if self._is_played() else ())])

    def find_move(self, from_square: Square, to_square: Square, promotion: Optional[PieceType] = None) -> Move:
        """The legal move from a square to a square, by default to a queen. Raises `IllegalMoveError`."""
        return OURS[self._game.find_move(from_square, to_square, promotion)]

    def is_capture(self, move: Move) -> bool:
        """Whether the legal move captures. Raises `IllegalMoveError`."""
        return self._game.is_capture(move)

    def is_en_passant(self, move: Move) -> bool:
        """Whether the legal move captures en passant. Raises `IllegalMoveError`."""
        return self._game.is_en_passant(move)

    def is_castling(self, move: Move) -> bool:
        """Whether the legal move castles. Raises `IllegalMoveError`."""
        return self._game.is_castling(move)

    def is_kingside_castling(self, move: Move) -> bool:
        """Whether the legal move castles with the rook of file h. Raises `IllegalMoveError`."""
        return self._game.is_kingside_castling(move)

    def is_queenside_castling(self, move: Move) -> bool:
        """Whether the legal move castles with the rook of file a. Raises `IllegalMoveError`."""
        return self._game.is_queenside_castling(move)

    def is_zeroing(self, move: Move) -> bool:
        """Whether the legal move is a pawn's or captures. Raises `IllegalMoveError`."""
        return self._game.is_zeroing(move)

    def gives_check(self, move: Move) -> bool:
        """Whether the legal move gives check. Raises `IllegalMoveError`."""
        return self._game.gives_check(move)

    def is_irreversible(self, move: Move) -> bool:
        """Whether the legal move is a pawn's, captures, ends castling rights or a right to capture en passant. Raises `IllegalMoveError`."""
        if self.is_zeroing(move) or self.has_legal_en_passant():
            return True
        after = self._game.copy()
        after.push(move)
        return after.castling_rights != self._game.castling_rights

    # ---- moves as texts

    def san(self, move: Move) -> str:
        """The move in standard algebraic notation; '--' for the null move. Raises `IllegalMoveError`."""
        return self._game.san(move) if move else "--"

    def lan(self, move: Move) -> str:
        """The move in long algebraic notation. Raises `IllegalMoveError`."""
        return self._game.lan(move) if move else "--"

    def san_and_push(self, move: Move) -> str:
        """The text of a move, which is made."""
        san = self.san(move)
        self.push(move)
        return san

    def variation_san(self, variation: Iterable[Move]) -> str:
        """The moves in turn with their numbers. Raises `IllegalMoveError`."""
        board = self.copy(stack=False)
        words: List[str] = []
        for move in variation:
            if board.turn or not words:
                words.append(f"{board.fullmove_number}{'.' if board.turn else '...'}")
            words.append(board.san_and_push(move))
        return " ".join(words)

    def parse_san(self, san: str) -> Move:
        """The legal move of a text in standard or long algebraic notation. Raises `InvalidMoveError`, `IllegalMoveError` or `AmbiguousMoveError`."""
        if san in _NULLS:
            return Move.null()
        plain = san.replace("0-0", "O-O").replace("-0", "-O") if san.startswith("0-0") else san
        return OURS[self._game.parse_san(plain if plain.startswith("O") else plain.replace("-", ""))]

    def push_san(self, san: str) -> Move:
        """The same, and makes it."""
        move = self.parse_san(san)
        self.push(move)
        return move

    def uci(self, move: Move, *, chess960: Optional[bool] = None) -> str:
        """The move's text as UCI has it."""
        if chess960:
            refuse("there is no Chess960")
        return move.uci()

    def parse_uci(self, uci: str) -> Move:
        """The legal move of a text as UCI has it. Raises `InvalidMoveError` or `IllegalMoveError`."""
        move = Move.from_uci(uci)
        if not move:
            return move
        # (castling is also read as the king's move to its rook)
        castles: Iterable[Move] = () if self._game.is_legal(move) else self.generate_castling_moves(BB_SQUARES[move.from_square])
        for it in castles:
            if _CASTLES[it.to_square] == move.to_square:
                return it
        return OURS[self._game.parse_uci(uci)]

    def push_uci(self, uci: str) -> Move:
        """The same, and makes it."""
        move = self.parse_uci(uci)
        self.push(move)
        return move

    def xboard(self, move: Move, chess960: Optional[bool] = None) -> str:
        """The move's text as XBoard writes it: that of UCI, and '@@@@' for the null move."""
        return self.uci(move, chess960=chess960) if move else move.xboard()

    parse_xboard, push_xboard = parse_san, push_san

    # ---- attacks

    def attacks_mask(self, square: Square) -> Bitboard:
        """The squares that the piece on the square attacks."""
        return self._it.attacks(square).mask if self._refusal is None else super().attacks_mask(square)

    def attackers_mask(self, color: Color, square: Square, occupied: Optional[Bitboard] = None) -> Bitboard:
        """The squares of the pieces of that colour that attack the square."""
        if self._refusal is not None or occupied is not None:
            return super().attackers_mask(color, square, occupied)
        return self._it.attackers(color, square).mask

    def checkers_mask(self) -> Bitboard:
        """The squares of the pieces that give check."""
        if self._refusal is None:
            return self._it._checks()
        king = self.king(self.turn)
        return 0 if king is None else self.attackers_mask(not self.turn, king)

    def checkers(self) -> SquareSet:
        """The same as a set."""
        return SquareSet(self.checkers_mask())

    def is_check(self) -> bool:
        """Whether the side to move is in check."""
        return self._it.is_check() if self._refusal is None else bool(self.checkers_mask())

    def was_into_check(self) -> bool:
        """Whether the side not to move is in check, which no position has."""
        return self._refusal is not None and self._refusal.fault == IN_CHECK

    # ---- how the game ends

    def status(self) -> Status:
        """The faults of the position, as flags."""
        men, found = self._men_now(), Status.VALID
        if not men:
            found |= Status.EMPTY
        for color, name in ((WHITE, "WHITE"), (BLACK, "BLACK")):
            kings, pawns, all_men = counts(men, color)
            found |= Status.VALID if kings else Status[f"NO_{name}_KING"]
            found |= Status[f"TOO_MANY_{name}_PAWNS"] if pawns > 8 else Status.VALID
            found |= Status[f"TOO_MANY_{name}_PIECES"] if all_men > 16 else Status.VALID
        if popcount(self.kings) > 2:
            found |= Status.TOO_MANY_KINGS
        if pawns_on_last_ranks(men):
            found |= Status.PAWNS_ON_BACKRANK
        if self.castling_rights != self.clean_castling_rights():
            found |= Status.BAD_CASTLING_RIGHTS
        if self.was_into_check():
            found |= Status.OPPOSITE_CHECK
        if self._refusal is None and self.ep_square != self._it.ep_square:
            found |= Status.INVALID_EP_SQUARE
        try:
            return found | self._faults_of_checks()
        except ValueError:
            # (the library can't say who gives check among pieces that are no position)
            return found

    # The faults of the checks. The last move can't have given more than two, or two in line with the king. After a pawn's double step the pawn gives check,
    # or one piece whose line it has opened.
    def _faults_of_checks(self) -> Status:
        checkers, king = self.checkers_mask(), self.king(self.turn)
        count, found = popcount(checkers), Status.VALID
        if not count or king is None:
            return found
        if count > 2:
            found |= Status.TOO_MANY_CHECKERS
        target = self._it.ep_square if self._refusal is None and self._it.ep_square == self.ep_square else None
        if target is None:
            is_impossible = count > 2 or count == 2 and bool(ray(*scan_forward(checkers)) >> king & 1)
        else:
            before, pushed, begun = dict(self._men_now()), target ^ 8, target ^ 24
            before[begun] = before.pop(pushed)
            is_impossible = count > 1 or checkers != BB_SQUARES[pushed] and bool(attackers_among(before, not self.turn, king) & ~BB_SQUARES[begun])
        return found | Status.IMPOSSIBLE_CHECK if is_impossible else found

    def is_valid(self) -> bool:
        """Whether nothing is wrong with the position."""
        return self.status() == Status.VALID

    def outcome(self, *, claim_draw: bool = False) -> Optional[Outcome]:
        """How the game ended, or None if it goes on. With `claim_draw` it ends if the side to move may claim a draw."""
        found = self._game.outcome()
        if found is None and self._past and self.is_repetition(5):
            found = Outcome(Termination.FIVEFOLD_REPETITION, None)
        if found is None and claim_draw:
            if self.can_claim_fifty_moves():
                return Outcome(Termination.FIFTY_MOVES, None)
            return Outcome(Termination.THREEFOLD_REPETITION, None) if self.can_claim_threefold_repetition() else None
        if found is None or found.winner is not None:
            return found
        # (python-chess asks in this order, if several hold)
        if self.is_insufficient_material():
            return Outcome(Termination.INSUFFICIENT_MATERIAL, None)
        if self.is_stalemate():
            return Outcome(Termination.STALEMATE, None)
        return Outcome(Termination.SEVENTYFIVE_MOVES, None) if self.is_seventyfive_moves() else found

    def result(self, *, claim_draw: bool = False) -> str:
        """'1-0', '0-1', '1/2-1/2', or '*'."""
        found = self.outcome(claim_draw=claim_draw)
        return "*" if found is None else found.result()

    def is_game_over(self, *, claim_draw: bool = False) -> bool:
        """Whether the game has ended."""
        return self.outcome(claim_draw=claim_draw) is not None if self._past or claim_draw else self._game.is_game_over()

    def is_checkmate(self) -> bool:
        """Whether the side to move is mated."""
        return self._game.is_checkmate()

    def is_stalemate(self) -> bool:
        """Whether the side to move is stalemated."""
        return self._game.is_stalemate()

    def has_insufficient_material(self, color: Color) -> bool:
        """Whether the side's pieces can't mate, as python-chess counts them.

        A lone king can't. A king with one knight can't if the other side has only queens beside its king. A king with bishops can't if no pawn or knight is left
        and all bishops stand on squares of one colour. Raises `ValueError` for another colour."""
        mine, theirs = self.occupied_co[colour_of(color)], self.occupied_co[not color]
        if mine & (self.pawns | self.rooks | self.queens):
            return False
        if mine & self.knights:
            return popcount(mine) <= 2 and not theirs & ~(self.kings | self.queens)
        if mine & self.bishops:
            return not self.pawns | self.knights and (not self.bishops & BB_DARK_SQUARES or not self.bishops & BB_LIGHT_SQUARES)
        return True

    def is_insufficient_material(self) -> bool:
        """Whether neither side can mate."""
        return all(self.has_insufficient_material(color) for color in COLORS)

    def is_seventyfive_moves(self) -> bool:
        """Whether there were 75 moves of each side without a capture or a pawn's move."""
        return self.halfmove_clock >= 150 and bool(self.legal_moves)

    def is_fifty_moves(self) -> bool:
        """Whether there were 50 moves of each side without a capture or a pawn's move."""
        return self.halfmove_clock >= 100 and bool(self.legal_moves)

    def is_fivefold_repetition(self) -> bool:
        """Whether the position has come up five times."""
        return self.is_repetition(5)

    def is_repetition(self, count: int = 3) -> bool:
        """Whether the position has come up that often."""
        if not self._past:
            return self._game.is_repetition(count)
        key = self._game.epd()
        return self._it.repetitions() + sum(it == key for it in positions_of(self._past)) >= count

    # Whether something holds after one of the moves.
    def _after(self, moves: Iterable[Move], holds: Callable[[], bool]) -> bool:
        for move in moves:
            self.push(move)
            try:
                if holds():
                    return True
            finally:
                self.pop()
        return False

    def can_claim_draw(self) -> bool:
        """Whether the side to move may claim a draw by 50 moves or by repetition."""
        return self.can_claim_fifty_moves() or self.can_claim_threefold_repetition()

    def can_claim_fifty_moves(self) -> bool:
        """Whether 50 moves of each side have passed without a capture or a pawn's move, or will have after a legal move."""
        if self.halfmove_clock < 99:
            return False
        return self.is_fifty_moves() or self._after([move for move in self.legal_moves if not self.is_zeroing(move)], self.is_fifty_moves)

    def can_claim_threefold_repetition(self) -> bool:
        """Whether the position has come up three times, or a legal move makes one that has then."""
        # (a position comes up for the third time after eight plies without a capture or a pawn's move)
        if not self._past and self._game.halfmove_clock < 7:
            return False
        return self.is_repetition(3) or self._after(self.legal_moves, self.is_repetition)

    def is_variant_end(self) -> bool:
        """False: there are no variants."""
        return False

    is_variant_win = is_variant_loss = is_variant_draw = is_variant_end


def _restored(of: Type[_Of], board: _board.Board, fields: Optional[Fields], refusal: Optional[InvalidFenError], past: Past = ()) -> _Of:
    """The board of a pickle."""
    found = of._of(board)
    found._set, found._refusal, found._past = fields, refusal, past
    return found
