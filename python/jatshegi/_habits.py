"""What users of python-chess ask a board by, in its names: each is an answer of the library, or is read off one."""
from __future__ import annotations

import re
from typing import TYPE_CHECKING, Dict, Iterable, Mapping, NamedTuple, Optional, Tuple

from . import _library as c
from ._checks import colour_of, one_of, square_of, whole
from ._moves import QUEEN, SQUARE_NAMES, LegalMoves, Move
from ._pieces import BY_LETTER, Piece
from ._sets import SquareSet
from ._status import Outcome, Status

if TYPE_CHECKING:
    from typing_extensions import Self


class Habits:
    """Short questions over those of the board."""

    __slots__ = ()

    if TYPE_CHECKING:
        # What a board has.
        @property
        def turn(self) -> bool: ...
        @property
        def status(self) -> Status: ...
        @property
        def legal_moves(self) -> LegalMoves: ...
        @property
        def halfmove_clock(self) -> int: ...
        @property
        def fullmove_number(self) -> int: ...
        def piece_map(self) -> Dict[int, Piece]: ...
        def _men(self) -> bytes: ...
        def _attacks(self, which: int) -> int: ...
        def has_kingside_castling_rights(self, color: bool) -> bool: ...
        def has_queenside_castling_rights(self, color: bool) -> bool: ...
        def __new__(cls, fen: str) -> Self: ...
        def san(self, move: Move, /) -> str: ...
        def _kinds(self, move: Move) -> int: ...
        def push(self, move: Move, /) -> None: ...
        def fen(self) -> str: ...
        def set_fen(self, fen: str) -> None: ...
        def copy(self) -> Self: ...
        def claims(self, move: Optional[Move] = None) -> Tuple[bool, bool]: ...
        def repetitions(self) -> int: ...
        def attackers(self, color: bool, square: int) -> SquareSet: ...
        def outcome(self, *, claim_draw: bool = False) -> Optional[Outcome]: ...

    # ---- men

    def piece_at(self, square: int) -> Optional[Piece]:
        """The man on the square, or None. Raises `ValueError` for a number that is no square's.

        >>> Board().piece_at(jatshegi.E1), Board().piece_at(jatshegi.E4)
        (Piece.from_symbol('K'), None)
        """
        letter = self._men()[square_of(square)]
        return BY_LETTER[letter] if letter else None

    def piece_type_at(self, square: int) -> Optional[int]:
        """The kind of the man on the square, PAWN to KING, or None."""
        man = self.piece_at(square)
        return None if man is None else man.piece_type

    def color_at(self, square: int) -> Optional[bool]:
        """The colour of the man on the square, or None."""
        man = self.piece_at(square)
        return None if man is None else man.color

    def pieces(self, piece_type: int, color: bool) -> SquareSet:
        """The squares of the men of that kind and colour.

        >>> [jatshegi.square_name(square) for square in Board().pieces(jatshegi.KNIGHT, jatshegi.BLACK)]
        ['b8', 'g8']
        """
        wanted = ord(Piece(piece_type, color))
        return SquareSet(square for square, letter in enumerate(self._men()) if letter == wanted)

    def king(self, color: bool) -> int:
        """The square of that side's king."""
        return self._men().index(b"K" if colour_of(color) else b"k")

    def set_piece_at(self, square: int, piece: Optional[Piece]) -> None:
        """Begins a new game from the position with that man on the square, or none. The castling rights that its kings and rooks still have stay, and the side to
        move. Raises `InvalidFenError` where that is no position, and the game is then as it was.

        >>> board = Board("4k3/8/8/8/8/8/8/4K3 w - - 0 1")
        >>> board.set_piece_at(jatshegi.A2, jatshegi.Piece.from_symbol("P"))
        >>> board.fen()
        '4k3/8/8/8/8/8/P7/4K3 w - - 0 1'
        """
        men: Dict[int, Optional[Piece]] = {**self.piece_map(), square_of(square): piece}
        self.set_piece_map({at: man for at, man in men.items() if man is not None})

    def remove_piece_at(self, square: int) -> Optional[Piece]:
        """The man on the square, which is taken off, as by `set_piece_at`; None, and no new game, where there is none."""
        man = self.piece_at(square)
        if man is not None:
            self.set_piece_at(square, None)
        return man

    def set_piece_map(self, pieces: Mapping[int, Piece]) -> None:
        """Begins a new game from the position with those men alone, as `set_piece_at`."""
        if not isinstance(pieces, Mapping):
            raise TypeError(f"men are a mapping from squares to them: {pieces!r}")
        men = {square_of(square): Piece.from_symbol(piece) for square, piece in pieces.items()}
        ranks = ("".join(men.get(8 * rank + file, "1") for file in range(8)) for rank in range(7, -1, -1))
        placement = re.sub("1+", lambda empty: str(len(empty[0])), "/".join(ranks))
        self.set_fen(" ".join([placement, *self.fen().split()[1:]]))

    def board_fen(self) -> str:
        """The men alone, the first field of the FEN.

        >>> Board().board_fen()
        'rnbqkbnr/pppppppp/8/8/8/8/PPPPPPPP/RNBQKBNR'
        """
        return self.fen().split()[0]

    def has_castling_rights(self, color: bool) -> bool:
        """Whether that side may still castle with a rook (FIDE Laws 3.8.2.1)."""
        return self.has_kingside_castling_rights(color) or self.has_queenside_castling_rights(color)

    def mirror(self) -> Self:
        """A board as the other side would see it: the ranks turned round, the colours changed, and the side to move with them. It has no moves before it.

        >>> Board("4k3/8/8/8/8/8/4P3/4K3 w - - 0 1").mirror().fen()
        '4k3/4p3/8/8/8/8/8/4K3 b - - 0 1'
        """
        men, side, rights, target, *counters = self.fen().split()
        turned = "/".join(men.swapcase().split("/")[::-1])
        other = "-" if target == "-" else target[0] + str(9 - int(target[1]))
        return type(self)(" ".join([turned, "b" if side == "w" else "w", rights.swapcase(), other, *counters]))

    def attacks(self, square: int) -> SquareSet:
        """The squares that the man on the square attacks (FIDE Laws 3.1 to 3.8); none where there is no man.

        >>> [jatshegi.square_name(square) for square in Board().attacks(jatshegi.G1)]
        ['e2', 'f3', 'h3']
        """
        color = self.color_at(square)
        return SquareSet() if color is None else SquareSet(to for to in range(64) if self._attacks(to if color else 64 + to) >> square & 1)

    def is_attacked_by(self, color: bool, square: int) -> bool:
        """Whether a man of that colour attacks the square (FIDE Laws 3.1.2)."""
        return bool(self.attackers(color, square))

    # ---- the game's status

    def is_checkmate(self) -> bool:
        """Whether the side to move is mated (FIDE Laws 5.1.1).

        >>> Board("7k/6Q1/6K1/8/8/8/8/8 b - -").is_checkmate()
        True
        """
        return bool(self.status == Status.CHECKMATE)

    def is_stalemate(self) -> bool:
        """Whether the side to move is stalemated (FIDE Laws 5.2.1)."""
        return bool(self.status == Status.STALEMATE)

    def is_insufficient_material(self) -> bool:
        """Whether the game is drawn since neither side has men to mate with (FIDE Laws 5.2.2)."""
        return bool(self.status == Status.DEAD_POSITION)

    def is_fivefold_repetition(self) -> bool:
        """Whether the game is drawn by the same position for the fifth time (FIDE Laws 9.6.1)."""
        return bool(self.status == Status.FIVEFOLD_REPETITION)

    def is_seventyfive_moves(self) -> bool:
        """Whether the game is drawn by 75 moves of each side without a capture or a pawn's move (FIDE Laws 9.6.2)."""
        return bool(self.status == Status.SEVENTYFIVE_MOVES)

    def is_repetition(self, count: int = 3) -> bool:
        """Whether the position has come up that often in the game, this time included."""
        return self.repetitions() >= whole(count, "a number of times is 1 or more", 1)

    def is_game_over(self, *, claim_draw: bool = False) -> bool:
        """Whether `outcome` says how the game ended."""
        return self.outcome(claim_draw=claim_draw) is not None

    def result(self, *, claim_draw: bool = False) -> str:
        """'1-0', '0-1' or '1/2-1/2' by `outcome`, or '*' where the game goes on; `marker` is what the game's text says.

        >>> Board("7k/6Q1/6K1/8/8/8/8/8 b - -").result()
        '1-0'
        """
        found = self.outcome(claim_draw=claim_draw)
        return "*" if found is None else found.result()

    # Whether a draw may be claimed, by the position or with a legal move (FIDE Laws 9.2, 9.3). A claim by repetition needs eight plies without a capture or a pawn's
    # move, one by 50 moves needs 100, and the move of the claim is one of them.
    def _can_claim(self, which: int) -> bool:
        if self.halfmove_clock < (7, 99)[which]:
            return False
        return self.claims()[which] or any(self.claims(move)[which] for move in self.legal_moves)

    def can_claim_threefold_repetition(self) -> bool:
        """Whether the side to move may claim a draw by the same position for the third time, on the board or after a legal move (FIDE Laws 9.2)."""
        return self._can_claim(0)

    def can_claim_fifty_moves(self) -> bool:
        """Whether it may claim one by 50 moves, on the board or after a legal move (FIDE Laws 9.3)."""
        return self._can_claim(1)

    def can_claim_draw(self) -> bool:
        """Whether it may claim one by either.

        >>> Board("7k/8/8/8/8/8/R7/K7 w - - 99 80").can_claim_draw()
        True
        """
        return self.can_claim_threefold_repetition() or self.can_claim_fifty_moves()

    # ---- what a move is

    def uci(self, move: Move) -> str:
        """The move's text as UCI has it, as `move.uci()`."""
        one_of(move, Move, "a move is a Move")
        return move.uci()

    def parse_uci(self, uci: str) -> Move:
        """The legal move of a text as UCI has it. Raises `InvalidMoveError` and `IllegalMoveError`."""
        move = Move.from_uci(uci)
        self._kinds(move)
        return move

    def find_move(self, from_square: int, to_square: int, promotion: Optional[int] = None) -> Move:
        """The legal move from a square to a square; a pawn becomes a queen on the last rank, where nothing else is named. Raises `IllegalMoveError`.

        >>> Board("k7/7P/8/8/8/8/8/K7 w - -").find_move(jatshegi.H7, jatshegi.H8)
        Move.from_uci('h7h8q')
        """
        move = Move(square_of(from_square), square_of(to_square), promotion)
        queen = Move(from_square, to_square, QUEEN)
        if promotion is None and queen in self.legal_moves:
            return queen
        self._kinds(move)
        return move

    def is_capture(self, move: Move) -> bool:
        """Whether the legal move captures, also en passant. Raises `IllegalMoveError`.

        >>> Board("8/8/8/2pP3r/8/8/8/K3k3 w - c6 0 2").is_capture(Move.from_uci("d5c6"))
        True
        """
        return bool(self._kinds(move) & c.CAPTURE)

    def is_en_passant(self, move: Move) -> bool:
        """Whether the legal move captures en passant (FIDE Laws 3.7.3.1). Raises `IllegalMoveError`."""
        return bool(self._kinds(move) & c.EN_PASSANT)

    def is_castling(self, move: Move) -> bool:
        """Whether the legal move is castling (FIDE Laws 3.8.2). Raises `IllegalMoveError`."""
        return bool(self._kinds(move) & (c.CASTLES_KING_SIDE | c.CASTLES_QUEEN_SIDE))

    def is_kingside_castling(self, move: Move) -> bool:
        """Whether it is castling with the rook of file h."""
        return bool(self._kinds(move) & c.CASTLES_KING_SIDE)

    def is_queenside_castling(self, move: Move) -> bool:
        """Whether it is castling with the rook of file a."""
        return bool(self._kinds(move) & c.CASTLES_QUEEN_SIDE)

    def gives_check(self, move: Move) -> bool:
        """Whether the legal move gives check, or mates. Raises `IllegalMoveError`."""
        return self.san(move)[-1] in "+#"

    def is_zeroing(self, move: Move) -> bool:
        """Whether the legal move is a pawn's or captures, so that the halfmove clock is 0 after it. Raises `IllegalMoveError`."""
        return bool(self._kinds(move) & (c.CAPTURE | c.PAWN_MOVE))

    def lan(self, move: Move) -> str:
        """The move's text in long algebraic notation: 'e2-e4', 'Nb1xc3+', 'e7-e8=Q', 'O-O'. Raises `IllegalMoveError`."""
        san = self.san(move)
        if san[0] == "O":
            return san
        man, promoted, mark = "" if san[0] in "abcdefgh" else san[0], "=" + san.split("=")[1][0] if "=" in san else "", san[-1] if san[-1] in "+#" else ""
        return man + SQUARE_NAMES[move.from_square] + ("x" if "x" in san else "-") + SQUARE_NAMES[move.to_square] + promoted + mark

    def variation_san(self, variation: Iterable[Move]) -> str:
        """The moves in turn from the position on, in standard algebraic notation with their numbers. Raises `IllegalMoveError`; the board stays as it is.

        >>> Board().variation_san([Move.from_uci(text) for text in ("e2e4", "e7e5", "g1f3")])
        '1. e4 e5 2. Nf3'
        """
        board, words = self.copy(), []
        for move in variation:
            if board.turn:
                words.append(f"{board.fullmove_number}.")
            elif not words:
                words.append(f"{board.fullmove_number}...")
            words.append(board.san(move))
            board.push(move)
        return " ".join(words)

    def is_valid(self) -> bool:
        """True: no board has another position, since `InvalidFenError` says of a text that it is none."""
        return bool(self.piece_map())
