"""Programs about boards as they are written for python-chess: they run over `jatshegi.compat` if their import lines are changed, and print what they print there."""
import os
import re
import struct
import subprocess
import sys
import tempfile
import textwrap
import unittest

import runs

PACKAGE = f"{runs.TOP}/python"
ENGINE = f"{runs.TOP}/release/x86_64-linux/bin/jatshegi"

GAMES = """\
[Event "Match"]
[Site "https://lichess.org/abcd0000"]
[Date "2024.01.01"]
[Round "1"]
[White "Anna"]
[Black "Ben"]
[Result "1-0"]
[ECO "C20"]
[WhiteElo "1850"]

1. e4 { [%eval 0.17] [%clk 0:03:00] } e5 { [%eval 0.25] [%clk 0:02:58] } 2. Qh5 { [%eval -0.6] [%clk 0:02:57] } 2... Nc6 { [%eval -0.5] [%clk 0:02:50] } 3. Bc4 { [%clk 0:02:55] } 3... Nf6?? { [%eval #1] [%clk 0:02:41] } ( 3... g6 4. Qf3 ) 4. Qxf7# { [%clk 0:02:54] } 1-0

[Event "Match"]
[Site "https://lichess.org/abcd0001"]
[Date "2024.01.02"]
[Round "2"]
[White "Ben"]
[Black "Anna"]
[Result "0-1"]
[ECO "A00"]
[WhiteElo "1420"]

1. f3 e5 2. g4 Qh4# 0-1

[Event "Match"]
[Site "https://lichess.org/abcd0002"]
[Date "2024.01.03"]
[Round "3"]
[White "Anna"]
[Black "Clara"]
[Result "1/2-1/2"]
[ECO "C42"]
[WhiteElo "1862"]

1. e4 e5 2. Nf3 Nf6 3. Nxe5 ( 3. Nc3 { Three knights } 3... Nc6 ( 3... Bb4 $5 ) ) 3... d6 $1 1/2-1/2
"""


def changed(program):
    """The program with its import lines changed, as docs/PYTHON.md says."""
    text = re.sub(r"(?m)^import chess(\.\w+)?$", "import jatshegi.compat as chess", textwrap.dedent(program).lstrip("\n"))
    return re.sub(r"(?m)^from chess\b", "from jatshegi.compat", text)


class Programs(unittest.TestCase):
    """The check of both modules. Each program is a name, a text and the output that it has."""

    def write_files(self, folder):
        """Writes the files that programs use: games, an opening book and a link to an engine."""
        with open(f"{folder}/games.pgn", "w", encoding="utf-8") as file:
            file.write(GAMES)
        # (e4, d4 and Nf3 of the usual position, of the weights 30, 20 and 10)
        entries = [struct.pack(">QHHI", 0x463B96181691FC9C, origin << 6 | target, weight, 0) for origin, target, weight in ((12, 28, 30), (11, 27, 20), (6, 21, 10))]
        with open(f"{folder}/book.bin", "wb") as file:
            file.write(b"".join(entries))
        os.symlink(ENGINE, f"{folder}/stockfish")

    def check(self, programs):
        """Runs each program with its import lines changed over one core, and as it is by `python -m jatshegi.compat` over the other."""
        with tempfile.TemporaryDirectory() as folder:
            self.write_files(folder)
            for name, program, wanted in programs:
                with open(f"{folder}/program.py", "w", encoding="utf-8") as file:
                    file.write(textwrap.dedent(program))
                for plain, words in (("", ["-c", changed(program)]), ("1", ["-m", "jatshegi.compat", "program.py"])):
                    environment = {**os.environ, "PYTHONPATH": PACKAGE, "JATSHEGI_PLAIN": plain}
                    with self.subTest(program=name, words=words[0]):
                        ran = subprocess.run([sys.executable, *words], env=environment, cwd=folder, capture_output=True, text=True, timeout=runs.MOST_SECONDS)
                        self.assertEqual((ran.stderr, ran.stdout.strip("\n")), ("", textwrap.dedent(wanted).strip("\n")))


PROGRAMS = [
    (
        "perft",
        """
        import chess

        def perft(board, depth):
            if depth == 1:
                return board.legal_moves.count()
            elif depth > 1:
                count = 0
                for move in board.legal_moves:
                    board.push(move)
                    count += perft(board, depth - 1)
                    board.pop()
                return count
            else:
                return 1

        print(perft(chess.Board(), 3), perft(chess.Board("8/2p5/3p4/KP5r/1R3p1k/8/4P1P1/8 w - - 0 1"), 3))
        """,
        "8902 2812",
    ),
    (
        "random playouts",
        """
        import chess
        import random

        def play(seed):
            board, chance = chess.Board(), random.Random(seed)
            while not board.is_game_over(claim_draw=True):
                board.push(chance.choice(list(board.legal_moves)))
            return board.outcome(claim_draw=True)

        outcomes = [play(seed) for seed in range(3)]
        print(all(it.termination in chess.Termination and it.result() in ("1-0", "0-1", "1/2-1/2") for it in outcomes))
        """,
        "True",
    ),
    (
        "alpha-beta",
        """
        import chess

        VALUES = {chess.PAWN: 1, chess.KNIGHT: 3, chess.BISHOP: 3, chess.ROOK: 5, chess.QUEEN: 9, chess.KING: 0}

        def evaluate(board):
            if board.is_checkmate():
                return -1000
            return sum(VALUES[kind] * (len(board.pieces(kind, board.turn)) - len(board.pieces(kind, not board.turn))) for kind in chess.PIECE_TYPES)

        def search(board, depth, alpha, beta):
            if depth == 0 or board.is_game_over():
                return evaluate(board), None
            best = None
            for move in sorted(board.legal_moves, key=lambda it: (not board.is_capture(it), it.uci())):
                board.push(move)
                value = -search(board, depth - 1, -beta, -alpha)[0]
                board.pop()
                if value > alpha:
                    alpha, best = value, move
                if alpha >= beta:
                    break
            return alpha, best

        board = chess.Board("6k1/5ppp/8/8/8/8/5PPP/3R2K1 w - - 0 1")
        value, move = search(board, 2, -9999, 9999)
        print(value, board.san(move))
        """,
        "1000 Rd8#",
    ),
    (
        "a search with null moves, a table and captures",
        """
        import chess
        import chess.polyglot

        VALUES = [0, 100, 320, 330, 500, 900, 0]
        table = {}

        def material(board):
            score = 0
            for piece_type in chess.PIECE_TYPES:
                score += VALUES[piece_type] * chess.popcount(board.pieces_mask(piece_type, chess.WHITE))
                score -= VALUES[piece_type] * chess.popcount(board.pieces_mask(piece_type, chess.BLACK))
            return score if board.turn else -score

        def quiesce(board, alpha, beta):
            stand = material(board)
            if stand >= beta:
                return beta
            alpha = max(alpha, stand)
            for move in board.generate_legal_captures():
                victim = board.piece_type_at(move.to_square)
                if victim is None:  # en passant
                    victim = chess.PAWN
                if stand + VALUES[victim] + 200 < alpha:
                    continue
                board.push(move)
                score = -quiesce(board, -beta, -alpha)
                board.pop()
                if score >= beta:
                    return beta
                alpha = max(alpha, score)
            return alpha

        def search(board, depth, alpha, beta, null=True):
            if board.is_checkmate():
                return -10000 + len(board.move_stack)
            if board.is_stalemate() or board.is_insufficient_material() or board.is_repetition(2):
                return 0
            if depth <= 0:
                return quiesce(board, alpha, beta)
            key = (chess.polyglot.zobrist_hash(board), depth)
            if key in table:
                return table[key]
            if null and depth >= 3 and not board.is_check() and board.occupied_co[board.turn] & ~board.pawns & ~board.kings:
                board.push(chess.Move.null())
                score = -search(board, depth - 3, -beta, -beta + 1, False)
                board.pop()
                if score >= beta:
                    return beta
            for move in sorted(board.legal_moves, key=board.is_capture, reverse=True):
                board.push(move)
                score = -search(board, depth - 1, -beta, -alpha)
                board.pop()
                if score >= beta:
                    return beta
                if score > alpha:
                    alpha = score
            table[key] = alpha
            return alpha

        board = chess.Board("r1bqkb1r/pppp1ppp/2n2n2/4p2Q/2B1P3/8/PPPP1PPP/RNB1K1NR w KQkq - 4 4")
        fen = board.fen()
        print(search(board, 3, -20000, 20000), board.fen() == fen, board.move_stack)
        """,
        "9999 True []",
    ),
    (
        "hanging pieces",
        """
        import chess

        board = chess.Board("r1bqkbnr/pppp1ppp/2n5/4p3/4P3/5N2/PPPP1PPP/RNBQKB1R w KQkq - 2 3")
        for square in chess.scan_reversed(board.occupied_co[chess.BLACK]):
            attackers, defenders = board.attackers(chess.WHITE, square), board.attackers(chess.BLACK, square)
            if attackers:
                print(chess.square_name(square), chess.piece_name(board.piece_type_at(square)), len(attackers), len(defenders))
        """,
        "e5 pawn 1 1",
    ),
    (
        "planes for a network",
        """
        import chess

        def planes(board):
            rows = []
            for color in chess.COLORS:
                for kind in chess.PIECE_TYPES:
                    rows.append([int(square in board.pieces(kind, color)) for square in chess.SQUARES])
            rows.append([int(bool(board.castling_rights & chess.BB_SQUARES[square])) for square in chess.SQUARES])
            return rows

        def flat(board):
            # One number a square, seen by the side to move.
            found = [0] * 64
            for square, piece in board.piece_map().items():
                at = square if board.turn == chess.WHITE else chess.square_mirror(square)
                found[at] = piece.piece_type if piece.color == board.turn else -piece.piece_type
            return found

        board = chess.Board()
        print([sum(row) for row in planes(board)])
        board.push_san("e4")
        print(flat(board)[:8], flat(board)[32:40], len(list(map(board.uci, board.legal_moves))))
        print(board.pieces(chess.PAWN, chess.WHITE).tolist()[24:32])
        """,
        """
        [8, 2, 2, 2, 1, 1, 8, 2, 2, 2, 1, 1, 4]
        [4, 2, 3, 5, 6, 3, 2, 4] [0, 0, 0, 0, -1, 0, 0, 0] 20
        [False, False, False, False, True, False, False, False]
        """,
    ),
    (
        "a suite of EPDs",
        """
        import chess

        right = 0
        for line in (
            '2rr3k/pp3pp1/1nnqbN1p/3pN3/2pP4/2P3Q1/PPB4P/R4RK1 w - - bm Qg6; id "WAC.001";',
            '8/7p/5k2/5p2/p1p2P2/Pr1pPK2/1P1R3P/8 b - - bm Rxb2; id "WAC.002";',
        ):
            board, operations = chess.Board.from_epd(line)
            right += all(move in board.legal_moves for move in operations["bm"])
            print(operations["id"], [board.san(move) for move in operations["bm"]])
        print(right)
        """,
        """
        WAC.001 ['Qg6']
        WAC.002 ['Rxb2']
        2
        """,
    ),
    (
        "EPDs with more operations",
        """
        import chess

        board = chess.Board()
        ops = board.set_epd("rnbqkbnr/pppp1ppp/8/4p3/4P3/8/PPPP1PPP/RNBQKBNR w KQkq - am f3; acd 12; ce -25; pv Nf3 Nc6 Bb5; c0 \\"a comment\\"; hmvc 0; fmvn 2;")
        print(ops["am"], ops["acd"] + 1, ops["ce"], board.variation_san(ops["pv"]), ops["c0"], board.fullmove_number)
        print(board.epd(bm=[board.parse_san("Nf3"), board.parse_san("Bc4")], id="x 1", noop=None))
        print(chess.Board("4k3/8/8/8/8/8/8/4K2R w K -").epd(hmvc=3, fmvn=9, resign=None))
        """,
        """
        [Move.from_uci('f2f3')] 13 -25 2. Nf3 Nc6 3. Bb5 a comment 2
        rnbqkbnr/pppp1ppp/8/4p3/4P3/8/PPPP1PPP/RNBQKBNR w KQkq - bm Bc4 Nf3; id "x 1"; noop;
        4k3/8/8/8/8/8/8/4K2R w K - hmvc 3; fmvn 9; resign;
        """,
    ),
    (
        "a game of UCI moves",
        """
        import chess

        board = chess.Board()
        for line in "e2e4 c7c5 g1f3 d7d6 f1b5 c8d7 e1g1 g8f6 e4e5 f6d5 0000 e2e9 e7e6".split():
            try:
                move = board.push_uci(line)
            except chess.InvalidMoveError:
                print("no move:", line)
            except chess.IllegalMoveError as error:
                print("illegal:", line)
            else:
                if not move:
                    board.pop()
                    print("a null move is taken back")
        print(board.fen(), len(board.move_stack), board.peek())
        print(" ".join(move.uci() for move in board.move_stack[-3:]), bool(chess.Move.null()))
        """,
        """
        a null move is taken back
        no move: e2e9
        illegal: e7e6
        rn1qkb1r/pp1bpppp/3p4/1BpnP3/8/5N2/PPPP1PPP/RNBQ1RK1 w kq - 1 6 10 f6d5
        g8f6 e4e5 f6d5 False
        """,
    ),
    (
        "a bot that is told wrong moves",
        """
        import chess

        def reply(board, text):
            try:
                move = board.parse_san(text)
            except chess.AmbiguousMoveError:
                return "which one?"
            except chess.IllegalMoveError:
                return "not legal"
            except chess.InvalidMoveError:
                return "not a move"
            san = board.san(move)
            board.push(move)
            if board.is_checkmate():
                return f"{san} mates"
            return f"{san}, check" if board.is_check() else san

        board = chess.Board("r1bqkb1r/pppp1ppp/2n2n2/4p2Q/2B1P3/2N5/PPPP1PPP/R1B1K1NR w KQkq - 4 4")
        for text in ("Ne2", "Qxf8", "hello", "e9", "Nge2", "0-0", "Nf6xh5", "Bxf7+", "Kxf7"):
            print(text, "->", reply(board, text))
        try:
            board.push_san("Zz")
        except ValueError as error:
            print(isinstance(error, chess.InvalidMoveError))
        """,
        """
        Ne2 -> which one?
        Qxf8 -> not legal
        hello -> not a move
        e9 -> not a move
        Nge2 -> Nge2
        0-0 -> not legal
        Nf6xh5 -> Nxh5
        Bxf7+ -> Bxf7+, check
        Kxf7 -> Kxf7
        True
        """,
    ),
    (
        "pins, checks and filters",
        """
        import chess

        board = chess.Board("rnb1k2r/ppp2ppp/5n2/3q4/1b1P4/2N5/PP3PPP/R1BQKBNR w KQkq - 3 7")
        for square in board.pieces(chess.KNIGHT, chess.WHITE):
            print(chess.square_name(square), board.is_pinned(chess.WHITE, square))
        print(board.pin(chess.WHITE, chess.C3))
        checks = [board.san(move) for move in board.legal_moves if board.gives_check(move)]
        captures = [board.san(move) for move in board.legal_moves if board.is_capture(move)]
        quiet = [move for move in board.legal_moves if not board.is_zeroing(move)]
        print(sorted(checks), sorted(captures), len(quiet))
        print([board.san(move) for move in board.generate_legal_moves(from_mask=chess.BB_RANK_1 & ~board.rooks, to_mask=chess.BB_RANK_3)])
        """,
        """
        g1 False
        c3 True
        . . . . . . . .
        . . . . . . . .
        . . . . . . . .
        1 . . . . . . .
        . 1 . . . . . .
        . . 1 . . . . .
        . . . 1 . . . .
        . . . . 1 . . .
        ['Bb5+', 'Qa4+', 'Qe2+'] [] 25
        ['Nh3', 'Nf3', 'Bd3', 'Qf3', 'Qd3', 'Qb3', 'Be3']
        """,
    ),
    (
        "keys, copies and mirrors",
        """
        import chess
        import copy

        board = chess.Board()
        seen = {board.fen(): "start", board.epd(): "start"}
        board.push_san("Nf3")
        other = board.copy()
        deep = copy.deepcopy(board)
        other.pop()
        print(board == deep, board == other, other == chess.Board(), len(other.move_stack), seen.get(other.epd()))
        print(board.mirror().fen(), board.mirror().mirror() == board)
        print(board.transform(chess.flip_horizontal).board_fen())
        print(board.copy(stack=False).move_stack, board.copy(stack=1).peek(), board.root().fen() == chess.STARTING_FEN)
        keys = {}
        for san in ("Nf6", "Ng1", "Ng8", "Nf3"):
            board.push_san(san)
            key = board._transposition_key()
            keys[key] = keys.get(key, 0) + 1
        print(sorted(keys.values()), board.is_repetition(2), board.is_repetition(3))
        """,
        """
        True False True 0 start
        rnbqkb1r/pppppppp/5n2/8/8/8/PPPPPPPP/RNBQKBNR w KQkq - 1 1 True
        rnbkqbnr/pppppppp/8/8/8/2N5/PPPPPPPP/R1BKQBNR
        [] g1f3 True
        [1, 1, 1, 1] True False
        """,
    ),
    (
        "sets of squares",
        """
        import chess

        squares = chess.SquareSet([chess.A8, chess.A1])
        print(squares)
        print(len(squares), bool(squares), chess.B2 in squares, list(squares), list(reversed(squares)))
        squares.add(chess.B2)
        squares.discard(chess.A1)
        squares |= chess.BB_H1
        print(repr(squares), int(squares), squares & chess.BB_RANK_1 == chess.SquareSet(chess.BB_H1))
        print(chess.SquareSet(chess.BB_FILE_A) & chess.BB_CORNERS, end="\\n\\n")
        ring = chess.SquareSet.ray(chess.A1, chess.B2) - chess.SquareSet.between(chess.A1, chess.H8)
        print(ring.issubset(chess.BB_CORNERS), ring.isdisjoint(chess.BB_CENTER), [chess.square_name(it) for it in ring ^ chess.BB_CORNERS])
        print(chess.SquareSet(chess.BB_CENTER).mirror() == chess.BB_CENTER, [int(it) for it in chess.SquareSet(0b11).carry_rippler()])
        print([chess.SQUARE_NAMES[it] for it in chess.SquareSet(chess.BB_E4) << 8 | chess.shift_right(chess.BB_E4)], squares.pop(), chess.lsb(int(squares)))
        """,
        """
        1 . . . . . . .
        . . . . . . . .
        . . . . . . . .
        . . . . . . . .
        . . . . . . . .
        . . . . . . . .
        . . . . . . . .
        1 . . . . . . .
        2 True False [0, 56] [56, 0]
        SquareSet(0x0100_0000_0000_0280) 72057594037928576 True
        1 . . . . . . .
        . . . . . . . .
        . . . . . . . .
        . . . . . . . .
        . . . . . . . .
        . . . . . . . .
        . . . . . . . .
        1 . . . . . . .

        True True ['h1', 'a8']
        True [0, 1, 2, 3]
        ['f4', 'e5'] 7 9
        """,
    ),
    (
        "positions that are set up",
        """
        import chess

        board = chess.Board(None)
        board.set_piece_at(chess.E1, chess.Piece(chess.KING, chess.WHITE))
        board.set_piece_at(chess.parse_square("a7"), chess.Piece.from_symbol("P"))
        print(board.is_valid(), board.board_fen())
        board.set_piece_at(chess.H8, chess.Piece.from_symbol("k"))
        print(board.is_valid(), board.fen(), [board.san(move) for move in board.legal_moves])
        board.turn = chess.BLACK
        board.fullmove_number = 40
        print(board.fen(), board.legal_moves.count())
        board.clear()
        board.set_piece_map({chess.E1: chess.Piece.from_symbol("K"), chess.E8: chess.Piece.from_symbol("k"), chess.H1: chess.Piece.from_symbol("R")})
        board.set_castling_fen("K")
        print(board.fen(), board.has_kingside_castling_rights(chess.WHITE), board.castling_rights == chess.BB_H1)
        print(board.remove_piece_at(chess.H1), board.clean_castling_rights(), board.remove_piece_at(chess.H2))
        board.reset_board()
        board.castling_rights = chess.BB_A1 | chess.BB_H8
        print(board.fen())
        """,
        """
        False 8/P7/8/8/8/8/8/4K3
        True 7k/P7/8/8/8/8/8/4K3 w - - 0 1 ['Kf2', 'Ke2', 'Kd2', 'Kf1', 'Kd1', 'a8=Q+', 'a8=R+', 'a8=B', 'a8=N']
        7k/P7/8/8/8/8/8/4K3 b - - 0 40 3
        4k3/8/8/8/8/8/8/4K2R w K - 0 1 True True
        R 0 None
        rnbqkbnr/pppppppp/8/8/8/8/PPPPPPPP/RNBQKBNR w Qk - 0 1
        """,
    ),
    (
        "the status of bad positions",
        """
        import chess

        for fen in (
            "8/8/8/8/8/8/8/8 w - - 0 1",
            "4k3/8/8/8/8/8/8/8 w - - 0 1",
            "4k2k/8/8/8/8/8/8/4K3 w - - 0 1",
            "4k2P/8/8/8/8/8/8/4K3 w - - 0 1",
            "4k3/4R3/8/8/8/8/8/4K3 w - - 0 1",
            "4k3/8/8/8/8/8/8/4K3 w KQ - 0 1",
            "4k3/pppppppp/p7/8/8/8/8/4K3 w - - 0 1",
            "4k3/8/8/8/8/8/8/4K3 w - e6 0 1",
            chess.STARTING_FEN,
        ):
            board = chess.Board(fen)
            print(board.is_valid(), [it.name for it in chess.Status if it and it in board.status()])
        for text in ("", "x", "8/8/8/8/8/8/8 w - - 0 1", "9/8/8/8/8/8/8/8 w - - 0 1", "4k3/8/8/8/8/8/8/4K3 w - - x 1"):
            try:
                chess.Board(text)
            except ValueError:
                print("no FEN:", text)
        """,
        """
        False ['NO_WHITE_KING', 'NO_BLACK_KING', 'EMPTY']
        False ['NO_WHITE_KING']
        False ['TOO_MANY_KINGS']
        False ['PAWNS_ON_BACKRANK']
        False ['OPPOSITE_CHECK']
        False ['BAD_CASTLING_RIGHTS']
        False ['TOO_MANY_BLACK_PAWNS']
        False ['INVALID_EP_SQUARE']
        True []
        no FEN: 
        no FEN: x
        no FEN: 8/8/8/8/8/8/8 w - - 0 1
        no FEN: 9/8/8/8/8/8/8/8 w - - 0 1
        no FEN: 4k3/8/8/8/8/8/8/4K3 w - - x 1
        """,
    ),
    (
        "diagrams",
        """
        import chess

        board = chess.Board("r1bqkb1r/pppp1Qpp/2n2n2/4p3/2B1P3/8/PPPP1PPP/RNB1K1NR b KQkq - 0 4")
        print(board)
        print(board.unicode(borders=True, orientation=chess.BLACK, empty_square="."))
        print(repr(board))
        print(chess.BaseBoard("8/8/8/3N4/8/8/8/8"))
        print(board._repr_svg_().startswith("<svg"), chess.BaseBoard.empty()._repr_svg_()[:4], board.attacks(chess.F7)._repr_svg_()[:4])
        """,
        """
        r . b q k b . r
        p p p p . Q p p
        . . n . . n . .
        . . . . p . . .
        . . B . P . . .
        . . . . . . . .
        P P P P . P P P
        R N B . K . N R
          -----------------
        1 |♖|♘|.|♔|.|♗|♘|♖|
          -----------------
        2 |♙|♙|♙|.|♙|♙|♙|♙|
          -----------------
        3 |.|.|.|.|.|.|.|.|
          -----------------
        4 |.|.|.|♙|.|♗|.|.|
          -----------------
        5 |.|.|.|♟|.|.|.|.|
          -----------------
        6 |.|.|♞|.|.|♞|.|.|
          -----------------
        7 |♟|♟|♕|.|♟|♟|♟|♟|
          -----------------
        8 |♜|.|♝|♚|♛|♝|.|♜|
          -----------------
           h g f e d c b a
        Board('r1bqkb1r/pppp1Qpp/2n2n2/4p3/2B1P3/8/PPPP1PPP/RNB1K1NR b KQkq - 0 4')
        . . . . . . . .
        . . . . . . . .
        . . . . . . . .
        . . . N . . . .
        . . . . . . . .
        . . . . . . . .
        . . . . . . . .
        . . . . . . . .
        True <svg <svg
        """,
    ),
    (
        "puzzles",
        """
        import chess

        PUZZLES = [
            ("00sHx", "q3k1nr/1pp1nQpp/3p4/1P2p3/4P3/B1PP1b2/B5PP/5K2 b k - 0 17", "e8d7 a2e6 d7d8 f7f8"),
            ("promo", "8/5P1k/8/8/8/8/8/K7 w - - 0 1", "f7f8q h7g6"),
            ("wrong", "4k3/8/8/8/8/8/8/4K3 w - - 0 1", "e1e2 e8e6"),
        ]
        for name, fen, line in PUZZLES:
            board = chess.Board(fen)
            try:
                sans = []
                for uci in line.split():
                    sans.append(board.san(board.parse_uci(uci)))
                    board.push_uci(uci)
            except chess.IllegalMoveError:
                print(name, "is wrong after", len(board.move_stack))
                continue
            print(name, sans, board.is_checkmate(), board.result(), board.outcome() and board.outcome().termination.name)

        def mates_in_one(board):
            for move in board.legal_moves:
                board.push(move)
                is_mate = board.is_checkmate()
                board.pop()
                if is_mate:
                    yield board.san(move)

        print(list(mates_in_one(chess.Board("7k/5Q2/6K1/8/8/8/8/R7 w - - 0 1"))))
        """,
        """
        00sHx ['Kd7', 'Be6+', 'Kd8', 'Qf8#'] True 1-0 CHECKMATE
        promo ['f8=Q', 'Kg6'] False * None
        wrong is wrong after 1
        ['Qf8#', 'Qe8#', 'Qh7#', 'Qg7#', 'Ra8#', 'Rh1#']
        """,
    ),
    (
        "a map of attacks",
        """
        import chess

        def heat(board, color):
            return [sum(1 for _ in board.attackers(color, square)) for square in chess.SQUARES]

        def show(numbers):
            for rank in reversed(range(8)):
                print(" ".join(str(numbers[chess.square(file, rank)]) for file in range(8)))

        board = chess.Board("4k3/8/8/3r4/8/2N5/1P6/R3K3 w Q - 0 1")
        show([white - black for white, black in zip(heat(board, chess.WHITE), heat(board, chess.BLACK))])
        print([chess.square_name(square) for square in board.attacks(chess.C3)], board.is_attacked_by(chess.BLACK, chess.D1))
        print(chess.SquareSet(board.attackers_mask(chess.WHITE, chess.D5)) == chess.SquareSet.from_square(chess.C3), board.checkers() == chess.SquareSet())
        """,
        """
        1 0 0 -2 0 -1 0 0
        1 0 0 -2 -1 -1 0 0
        1 0 0 -1 0 0 0 0
        0 0 -1 1 -1 -1 -1 -1
        2 0 0 -1 1 0 0 0
        2 0 1 -1 0 0 0 0
        2 0 0 0 2 1 0 0
        0 2 1 2 1 1 0 0
        ['b1', 'd1', 'a2', 'e2', 'a4', 'e4', 'b5', 'd5'] True
        True True
        """,
    ),
    (
        "draws that are claimed",
        """
        import chess

        board = chess.Board()
        for san in "Nf3 Nf6 Ng1 Ng8 Nf3 Nf6 Ng1".split():
            board.push_san(san)
        print(board.can_claim_draw(), board.can_claim_threefold_repetition(), board.is_repetition(), board.is_game_over(), board.is_game_over(claim_draw=True))
        board.push_san("Ng8")
        print(board.is_repetition(3), board.outcome(), board.outcome(claim_draw=True))
        for san in "Nf3 Nf6 Ng1 Ng8 Nf3 Nf6 Ng1 Ng8".split():
            board.push_san(san)
        print(board.outcome(), board.result(), board.is_fivefold_repetition())
        fifty = chess.Board("8/8/8/3k4/8/8/4R3/4K3 w - - 99 80")
        print(fifty.can_claim_fifty_moves(), fifty.is_fifty_moves(), fifty.result(claim_draw=True), fifty.result())
        fifty = chess.Board("8/8/8/3k4/8/8/4R3/4K3 b - - 150 105")
        print(fifty.is_seventyfive_moves(), fifty.outcome().termination)
        """,
        """
        True True False False True
        True None Outcome(termination=<Termination.THREEFOLD_REPETITION: 7>, winner=None)
        Outcome(termination=<Termination.FIVEFOLD_REPETITION: 5>, winner=None) 1/2-1/2 True
        True False 1/2-1/2 *
        True Termination.SEVENTYFIVE_MOVES
        """,
    ),
    (
        "material for a mate",
        """
        import chess

        for men in ("K k", "KB k", "KN k", "KNN k", "KR k", "KP k", "KBB k", "K kq"):
            white, black = men.split()
            board = chess.Board.empty()
            for symbols, squares in ((white, (chess.A1, chess.C2, chess.E2)), (black, (chess.H8, chess.G5))):
                for symbol, square in zip(symbols, squares):
                    board.set_piece_at(square, chess.Piece.from_symbol(symbol))
            print(men, board.is_insufficient_material(), [board.has_insufficient_material(color) for color in chess.COLORS], board.result())
        """,
        """
        K k True [True, True] 1/2-1/2
        KB k True [True, True] 1/2-1/2
        KN k True [True, True] 1/2-1/2
        KNN k False [False, True] *
        KR k False [False, True] *
        KP k False [False, True] *
        KBB k True [True, True] 1/2-1/2
        K kq False [True, False] *
        """,
    ),
]


class Boards(Programs):
    def setUp(self):
        runs.make("libraries")

    def test_programs_about_boards(self):
        self.check(PROGRAMS)


if __name__ == "__main__":
    unittest.main()
