"""`jatshegi.compat`: programs that were written for python-chess, its documentation's examples, and what is refused."""
import asyncio
import copy
import importlib
import io
import os
import pickle
import random
import re
import shutil
import struct
import subprocess
import sys
import tempfile
import time
import textwrap
import unittest

import runs

PACKAGE = f"{runs.TOP}/python"
ENGINE = f"{runs.TOP}/release/x86_64-linux/bin/jatshegi"


def setUpModule():
    runs.make("libraries")
    sys.path.insert(0, PACKAGE)
    global chess
    chess = importlib.import_module("jatshegi.compat")


def tearDownModule():
    sys.path.remove(PACKAGE)


def played(sans, fen=None):
    board = chess.Board() if fen is None else chess.Board(fen)
    for san in sans.split():
        board.push_san(san)
    return board


class Names(unittest.TestCase):
    def test_constants(self):
        self.assertEqual((chess.COLORS, chess.COLOR_NAMES[chess.WHITE]), ([True, False], "white"))
        self.assertEqual((chess.PIECE_TYPES, chess.PIECE_SYMBOLS[chess.KNIGHT], chess.PIECE_NAMES[chess.KNIGHT]), ([1, 2, 3, 4, 5, 6], "n", "knight"))
        self.assertEqual((chess.piece_name(chess.QUEEN), chess.piece_symbol(chess.ROOK), chess.UNICODE_PIECE_SYMBOLS["K"]), ("queen", "r", "♔"))
        self.assertEqual((chess.FILE_NAMES[0], chess.RANK_NAMES[7], chess.SQUARES_180[chess.A1] == chess.A8), ("a", "8", True))
        self.assertEqual((chess.BB_E4, chess.BB_FILE_A, chess.BB_RANK_8), (1 << 28, 0x0101010101010101, 0xFF << 56))
        self.assertEqual((chess.BB_CORNERS, chess.BB_BACKRANKS), (0x8100000000000081, 0xFF000000000000FF))
        self.assertEqual(chess.BB_LIGHT_SQUARES ^ chess.BB_DARK_SQUARES, chess.BB_ALL)
        self.assertTrue(chess.BB_DARK_SQUARES & chess.BB_A1)
        self.assertEqual((chess.BB_KNIGHT_ATTACKS[chess.A1], chess.BB_KING_ATTACKS[chess.H8], len(chess.BB_KNIGHT_ATTACKS)), (chess.BB_B3 | chess.BB_C2, chess.BB_G8 | chess.BB_G7 | chess.BB_H7, 64))
        self.assertEqual((chess.BB_RAYS[chess.A1][chess.A4], chess.BB_RAYS[chess.A1][chess.B3]), (chess.BB_FILE_A, 0))
        self.assertEqual([it.value for it in chess.Termination], list(range(1, 8)))
        self.assertEqual((chess.STATUS_OPPOSITE_CHECK, chess.Status.EMPTY | chess.Status.NO_WHITE_KING | chess.Status.NO_BLACK_KING), (1024, 2051))

    def test_functions_of_squares_and_words(self):
        self.assertEqual((chess.square(4, 3), chess.parse_square("e4"), chess.square_name(28)), (28, 28, "e4"))
        self.assertEqual((chess.square_distance(chess.A1, chess.H7), chess.square_manhattan_distance(chess.A1, chess.H7)), (7, 13))
        self.assertEqual((chess.square_knight_distance(chess.A1, chess.B2), chess.square_mirror(chess.E4)), (4, chess.E5))
        self.assertEqual((chess.lsb(0b1100), chess.msb(0b1100), chess.popcount(0xF0F)), (2, 3, 8))
        self.assertEqual((list(chess.scan_forward(0b1010)), list(chess.scan_reversed(0b1010))), ([1, 3], [3, 1]))
        self.assertEqual((chess.flip_vertical(chess.BB_A1), chess.flip_horizontal(chess.BB_A1), chess.flip_diagonal(chess.BB_B1)), (chess.BB_A8, chess.BB_H1, chess.BB_A2))
        self.assertEqual(chess.flip_anti_diagonal(chess.BB_A1), chess.BB_H8)
        shifts = (chess.shift_2_up, chess.shift_2_down, chess.shift_2_left, chess.shift_2_right, chess.shift_up_left, chess.shift_up_right, chess.shift_down_left, chess.shift_down_right)
        self.assertEqual([chess.square_name(chess.lsb(shift(chess.BB_C3))) for shift in shifts], ["c5", "c1", "a3", "e3", "b4", "d4", "b2", "d2"])
        self.assertEqual([shift(chess.BB_G8 | chess.BB_B1) for shift in shifts], [1 << 17, 1 << 46, chess.BB_E8, chess.BB_D1, chess.BB_A2, chess.BB_C2, chess.BB_F7, chess.BB_H7])
        self.assertEqual((chess.shift_right(chess.BB_H4), chess.shift_left(chess.BB_B4), chess.shift_up(chess.BB_A8)), (0, chess.BB_A4, 0))
        self.assertEqual(chess.between(chess.A1, chess.D4), chess.BB_B2 | chess.BB_C3)
        self.assertEqual((chess.between(chess.A1, chess.B3), chess.between(chess.A1, chess.A2), chess.between(chess.A1, chess.A1)), (0, 0, 0))
        self.assertEqual((chess.ray(chess.C3, chess.C4), chess.ray(chess.A1, chess.B3)), (chess.BB_FILE_C, 0))
        with self.assertRaises(ValueError):
            chess.parse_square("i9")

    def test_moves_and_pieces(self):
        null = chess.Move.null()
        self.assertEqual((bool(null), null.uci(), null == chess.Move.from_uci("0000"), repr(null)), (False, "0000", True, "Move.from_uci('0000')"))
        move = chess.Move.from_uci("a7a8q")
        self.assertEqual((bool(move), move.promotion, move.drop, move.uci(), {move: 1}[chess.Move(48, 56, 5)]), (True, chess.QUEEN, None, "a7a8q", 1))
        for text in ("e2", "e2e2", "e2e4k"):
            self.assertRaises(chess.InvalidMoveError, chess.Move.from_uci, text)
        piece = chess.Piece.from_symbol("n")
        self.assertEqual((piece, str(piece), piece.unicode_symbol(), piece.unicode_symbol(invert_color=True)), (chess.Piece(chess.KNIGHT, chess.BLACK), "n", "♞", "♘"))
        self.assertEqual(pickle.loads(pickle.dumps([null, piece, move])), [null, piece, move])

    def test_sets_of_squares(self):
        squares = chess.SquareSet([chess.A8, chess.A1])
        self.assertEqual((repr(squares), len(squares), list(squares), chess.A1 in squares), ("SquareSet(0x0100_0000_0000_0001)", 2, [0, 56], True))
        self.assertEqual(squares | chess.BB_H1, chess.SquareSet([0, 7, 56]))
        self.assertEqual((int(~squares & chess.BB_FILE_A), chess.SquareSet(~0) == chess.BB_ALL, squares == {0, 56}, squares == "x"), (0x0001010101010100, True, True, False))
        squares ^= ~0
        self.assertEqual((type(squares), len(squares), squares << 63, squares >> 62), (chess.SquareSet, 62, 0, 3))
        self.assertEqual(sorted(chess.SquareSet(0b101).carry_rippler()), [0, 1, 4, 5])
        self.assertEqual(chess.SquareSet.between(chess.A1, chess.C3) | chess.SquareSet.ray(chess.A1, chess.A2) & chess.BB_A2, chess.BB_B2 | chess.BB_A2)
        self.assertEqual((squares.pop(), chess.SquareSet(6).issubset(-1), 1 - chess.SquareSet(3)), (1, True, 0))
        self.assertRaises(KeyError, chess.SquareSet().pop)


class Boards(unittest.TestCase):
    def test_the_first_page_of_the_documentation(self):
        board = chess.Board()
        self.assertTrue(repr(board.legal_moves).endswith("(Nh3, Nf3, Nc3, Na3, h3, g3, f3, e3, d3, c3, b3, a3, h4, g4, f4, e4, d4, c4, b4, a4)>"))
        self.assertNotIn(chess.Move.from_uci("a8a1"), board.legal_moves)
        for san in ("e4", "e5", "Qh5", "Nc6", "Bc4", "Nf6", "Qxf7"):
            self.assertIsInstance(board.push_san(san), chess.Move)
        self.assertTrue(board.is_checkmate())
        self.assertEqual(repr(board), "Board('r1bqkb1r/pppp1Qpp/2n2n2/4p3/2B1P3/8/PPPP1PPP/RNB1K1NR b KQkq - 0 4')")
        self.assertEqual(board.outcome(), chess.Outcome(chess.Termination.CHECKMATE, chess.WHITE))
        self.assertEqual((board.result(), board.is_game_over(), bool(board.legal_moves), board.legal_moves.count()), ("1-0", True, False, 0))
        self.assertEqual(board.pop(), chess.Move.from_uci("h5f7"))
        self.assertEqual((board.ply(), board.turn, board.fullmove_number, board.peek().uci()), (6, chess.WHITE, 4, "g8f6"))

    def test_perft(self):
        def perft(board, depth):
            if not depth:
                return 1
            count = 0
            for move in board.legal_moves:
                board.push(move)
                count += perft(board, depth - 1)
                board.pop()
            return count

        self.assertEqual(perft(chess.Board(), 3), 8902)
        self.assertEqual(perft(chess.Board("r3k2r/p1ppqpb1/bn2pnp1/3PN3/1p2P3/2N2Q1p/PPPBBPPP/R3K2R w KQkq -"), 2), 2039)

    def test_texts_of_moves(self):
        board = chess.Board()
        self.assertEqual([board.parse_san(text).uci() for text in ("Nf3", "Ng1-f3", "e2-e4", "e2e4")], ["g1f3", "g1f3", "e2e4", "e2e4"])
        self.assertEqual((board.parse_san("--"), board.san(chess.Move.null())), (chess.Move.null(), "--"))
        self.assertEqual((board.lan(chess.Move.from_uci("g1f3")), board.uci(chess.Move.from_uci("g1f3"))), ("Ng1-f3", "g1f3"))
        self.assertEqual(board.variation_san([chess.Move.from_uci(m) for m in ["e2e4", "e7e5", "g1f3"]]), "1. e4 e5 2. Nf3")
        castles = chess.Board("r3k2r/8/8/8/8/8/8/R3K2R w KQkq - 0 1")
        self.assertEqual([castles.parse_san(text).uci() for text in ("O-O", "0-0", "O-O-O", "0-0-0")], ["e1g1", "e1g1", "e1c1", "e1c1"])
        self.assertTrue(castles.is_kingside_castling(castles.parse_san("0-0")))
        self.assertEqual([castles.parse_uci(uci).uci() for uci in ("e1h1", "e1a1", "e1g1")], ["e1g1", "e1c1", "e1g1"])
        self.assertRaises(chess.IllegalMoveError, board.parse_uci, "e1h1")
        for text, error in (("Ke2", chess.IllegalMoveError), ("xx", chess.InvalidMoveError), ("e2-e5", chess.IllegalMoveError)):
            self.assertRaises(error, board.push_san, text)
        self.assertRaises(chess.AmbiguousMoveError, chess.Board("4k3/8/8/8/8/8/4K3/R6R w - - 0 1").parse_san, "Rd1")
        self.assertEqual((board.push_uci("e2e4").uci(), board.find_move(chess.E7, chess.E5).uci(), len(board.move_stack)), ("e2e4", "e7e5", 1))

    def test_the_target_of_en_passant_in_a_fen(self):
        board = played("e4")
        self.assertEqual([board.fen(en_passant=word).split()[3] for word in ("legal", "xfen", "fen")], ["-", "-", "e3"])
        self.assertEqual(board.ep_square, chess.E3)
        pinned = chess.Board("8/8/8/K1pP3r/8/8/8/4k3 w - c6 0 2")
        self.assertEqual([pinned.fen(en_passant=word).split()[3] for word in ("legal", "xfen", "fen")], ["-", "c6", "c6"])
        self.assertEqual((pinned.has_legal_en_passant(), pinned.has_pseudo_legal_en_passant()), (False, True))
        self.assertRaises(ValueError, board.fen, en_passant="often")

    def test_rights_words_and_counters(self):
        board = chess.Board()
        self.assertEqual((board.castling_rights, board.clean_castling_rights()), (chess.BB_CORNERS, chess.BB_CORNERS))
        self.assertTrue(board.castling_rights & chess.BB_H1)
        self.assertEqual((board.occupied_co[chess.WHITE], board.occupied, board.pawns & board.occupied_co[chess.BLACK]), (0xFFFF, 0xFFFF00000000FFFF, chess.BB_RANK_7))
        self.assertEqual((board.kings, board.knights & 0xFF, board.pieces_mask(chess.ROOK, chess.WHITE)), (chess.BB_E1 | chess.BB_E8, chess.BB_B1 | chess.BB_G1, chess.BB_A1 | chess.BB_H1))
        board.turn = chess.BLACK
        board.castling_rights = chess.BB_A1 | chess.BB_H8
        self.assertEqual((board.fen(), board.has_kingside_castling_rights(chess.WHITE)), ("rnbqkbnr/pppppppp/8/8/8/8/PPPPPPPP/RNBQKBNR b Qk - 0 1", False))
        for name in ("halfmove_clock", "fullmove_number"):
            for board in (chess.Board(), chess.Board.empty()):
                for value, error in ((-1, ValueError), (1.5, TypeError), (1 << 20, ValueError)):
                    self.assertRaises(error, setattr, board, name, value)

    def test_fields_that_are_set_after_moves(self):
        """The moves stay. `pop` takes the change back with the last move, and a field that is set back leaves no trace."""
        board = played("Nf3 Nf6 Ng1")
        mobility = [board.legal_moves.count()]
        board.turn = not board.turn
        mobility.append(board.legal_moves.count())
        self.assertEqual((board.turn, board.peek().uci(), len(board.move_stack), board.fen().split()[1]), (chess.WHITE, "f3g1", 3, "w"))
        board.push_san("e4")
        self.assertEqual(([move.uci() for move in board.move_stack], board.root()), (["g1f3", "g8f6", "f3g1", "e2e4"], chess.Board()))
        for other in (board.copy(), pickle.loads(pickle.dumps(board)), board.copy(stack=3)):
            self.assertEqual(other, board)
            self.assertEqual(([other.pop().uci() for _ in range(2)], other, other.peek().uci()), (["e2e4", "f3g1"], played("Nf3 Nf6"), "g8f6"))
        board.pop()
        board.turn = chess.BLACK
        self.assertEqual((board, board._past, mobility), (played("Nf3 Nf6 Ng1"), (), [22, 20]))
        board.castling_rights = chess.BB_H1
        board.halfmove_clock = 40
        self.assertEqual((board.fen(), board.pop().uci(), board), ("rnbqkb1r/pppppppp/5n2/8/8/8/PPPPPPPP/RNBQKBNR b K - 40 2", "f3g1", played("Nf3 Nf6")))
        board.push(chess.Move.null())
        board.turn = chess.WHITE
        self.assertEqual((board.peek(), board.pop(), board), (chess.Move.null(), chess.Move.null(), played("Nf3 Nf6")))
        board.turn = chess.BLACK
        board.clear_stack()
        self.assertEqual((board.move_stack, board.fen().split()[1]), ([], "b"))

    def test_null_moves(self):
        board = played("e4 e5 Nf3")
        board.push(chess.Move.null())
        self.assertEqual((board.fen(), board.ply(), board.peek()), ("rnbqkbnr/pppp1ppp/8/4p3/4P3/5N2/PPPP1PPP/RNBQKB1R w KQkq - 2 3", 4, chess.Move.null()))
        board.push_san("d4")
        self.assertEqual([move.uci() for move in board.move_stack], ["e2e4", "e7e5", "g1f3", "0000", "d2d4"])
        for other in (board.copy(), copy.deepcopy(board), pickle.loads(pickle.dumps(board)), board.copy(stack=2)):
            self.assertEqual(other, board)
            self.assertEqual(([other.pop().uci(), other.pop().uci()], other), (["d2d4", "0000"], played("e4 e5 Nf3")))
        self.assertEqual((board.root(), len(board.copy(stack=False).move_stack), board.copy(stack=False) == board), (chess.Board(), 0, True))
        self.assertEqual((board.pop().uci(), board.pop().uci(), board.pop().uci(), board), ("d2d4", "0000", "g1f3", played("e4 e5")))
        start = chess.Board()
        self.assertEqual([start.push_san(san).uci() for san in ("--", "e5", "Z0")], ["0000", "e7e5", "0000"])
        self.assertEqual((start.fen(), start.variation_san([chess.Move.from_uci("b8c6"), chess.Move.null()])), ("rnbqkbnr/pppp1ppp/8/4p3/8/8/PPPPPPPP/RNBQKBNR b KQkq - 1 2", "2... Nc6 3. --"))
        start.clear_stack()
        self.assertEqual((start.move_stack, start.fen().split()[4:]), ([], ["1", "2"]))
        self.assertRaises(IndexError, start.pop)

    def test_a_null_move_out_of_check(self):
        board = played("e4 f5 Qh5+")
        board.push(chess.Move.null())
        self.assertEqual((board.status(), board.was_into_check()), (chess.Status.OPPOSITE_CHECK, True))
        self.assertEqual((board.is_check(), board.move_stack[-1], len(board.copy().move_stack)), (False, chess.Move.null(), 4))
        for call in (board.legal_moves.count, lambda: board.push(chess.Move.null())):
            self.assertRaises(ValueError, call)
        self.assertEqual((board.pop(), board.is_check(), len(board.move_stack)), (chess.Move.null(), True, 3))

    def test_repetitions_over_null_moves(self):
        board = chess.Board()
        for number in range(2):
            for san in ("Nf3", "--", "Ng1", "--"):
                self.assertFalse(board.can_claim_threefold_repetition())
                board.push_san(san)
            self.assertEqual([board.is_repetition(count) for count in (2, 3)], [True, number == 1])
        self.assertEqual((board.outcome(), board.outcome(claim_draw=True).termination, board.is_game_over(claim_draw=True)), (None, chess.Termination.THREEFOLD_REPETITION, True))
        for _ in range(2):
            for san in ("Nf3", "--", "Ng1", "--"):
                board.push_san(san)
        self.assertEqual((board.outcome().termination, board.is_fivefold_repetition()), (chess.Termination.FIVEFOLD_REPETITION, True))

    def test_lists_that_a_board_has_are_not_changed(self):
        """A change of a copy would be lost without a word."""
        board = played("e4")
        for change in (lambda: board.move_stack.pop(), lambda: board.move_stack.append(chess.Move.null()), lambda: board.occupied_co.__setitem__(chess.WHITE, 0)):
            self.assertRaises((TypeError, AttributeError), change)
        self.assertEqual((board.move_stack, board.move_stack.copy(), pickle.loads(pickle.dumps(board.move_stack))), ([chess.Move.from_uci("e2e4")],) * 3)

    def test_the_order_of_legal_moves(self):
        """Those of a king in check, of pieces, castling, captures, steps of pawns and en passant, each from the highest square down."""
        board = chess.Board("1n2k3/P7/8/3pP3/8/8/8/R3K2R w KQ d6 0 2")
        self.assertEqual(
            " ".join(move.uci() for move in board.legal_moves),
            "h1h8 h1h7 h1h6 h1h5 h1h4 h1h3 h1h2 h1g1 h1f1 e1f2 e1e2 e1d2 e1f1 e1d1 a1a6 a1a5 a1a4 a1a3 a1a2 a1d1 a1c1 a1b1 e1g1 e1c1 "
            "a7b8q a7b8r a7b8b a7b8n a7a8q a7a8r a7a8b a7a8n e5e6 e5d6",
        )
        check = chess.Board("4k3/8/8/8/7b/8/3P2P1/R3K2R w - - 0 1")
        self.assertEqual(" ".join(move.uci() for move in check.legal_moves), "e1e2 e1f1 e1d1 h1h4 g2g3")
        self.assertEqual(list(chess.Board().piece_map())[:2], [chess.H8, chess.G8])

    def test_masks_of_moves(self):
        board = chess.Board("r3k2r/8/8/3pP3/8/8/8/R3K2R w KQkq d6 0 2")
        self.assertEqual({move.uci() for move in board.generate_legal_moves(from_mask=chess.BB_E5)}, {"e5e6", "e5d6"})
        self.assertEqual({move.uci() for move in board.generate_legal_captures()}, {"e5d6", "a1a8", "h1h8"})
        self.assertEqual({move.uci() for move in board.generate_legal_captures(to_mask=chess.BB_RANK_8)}, {"a1a8", "h1h8"})
        self.assertEqual({move.uci() for move in board.generate_castling_moves()}, {"e1g1", "e1c1"})
        self.assertEqual([move.uci() for move in board.generate_legal_ep()], ["e5d6"])
        self.assertTrue(board.is_irreversible(chess.Move.from_uci("e1e2")))
        self.assertFalse(chess.Board().is_irreversible(chess.Move.from_uci("g1f3")))

    def test_attacks_and_pins(self):
        board = chess.Board("rnb1k2r/ppp2ppp/5n2/3q4/1b1P4/2N5/PP3PPP/R1BQKBNR w KQkq - 3 7")
        self.assertTrue(board.is_pinned(chess.WHITE, chess.C3))
        self.assertEqual(board.pin(chess.WHITE, chess.C3), chess.SquareSet(0x0000_0001_0204_0810))
        self.assertEqual((board.pin(chess.WHITE, chess.D4), board.is_pinned(chess.BLACK, chess.F6)), (chess.BB_ALL, False))
        start = chess.Board()
        self.assertEqual(repr(start.attackers(chess.WHITE, chess.F3)), "SquareSet(0x0000_0000_0000_5040)")
        self.assertEqual((start.attackers(color=chess.BLACK, square=chess.E4), start.is_attacked_by(chess.WHITE, chess.F3)), (0, True))
        self.assertEqual((start.attacks(chess.G1), start.attacks_mask(chess.A1)), (chess.SquareSet([chess.E2, chess.F3, chess.H3]), chess.BB_A2 | chess.BB_B1))
        check = played("e4 f5 Qh5+")
        self.assertEqual((check.checkers(), check.is_check(), check.king(chess.BLACK)), (chess.SquareSet([chess.H5]), True, chess.E8))

    def test_pins_are_those_that_legal_moves_show(self):
        """A knight that is pinned has no legal move."""
        board = chess.Board("4k3/4r3/8/q7/8/2N1N3/8/4K2b w - - 0 1")
        pinned = {at for at in chess.SquareSet(board.occupied_co[chess.WHITE]) if board.is_pinned(chess.WHITE, at)}
        self.assertEqual(pinned, {chess.C3, chess.E3})
        for at in pinned:
            self.assertEqual(list(board.generate_legal_moves(from_mask=chess.BB_SQUARES[at])), [])

    def test_a_position_that_is_none(self):
        board = chess.Board("8/8/8/8/4N3/8/8/8 w - - 0 1")
        self.assertEqual((board.piece_at(chess.E4), board.status()), (chess.Piece(chess.KNIGHT, chess.WHITE), chess.Status.NO_WHITE_KING | chess.Status.NO_BLACK_KING))
        self.assertEqual((board.is_valid(), board.fen()), (False, "8/8/8/8/4N3/8/8/8 w - - 0 1"))
        for call in (board.is_game_over, board.legal_moves.count, board.outcome, lambda: board.push_san("Nf6"), lambda: board.push(chess.Move.null())):
            with self.assertRaisesRegex(ValueError, "a side has no king, or more than one"):
                call()
        self.assertEqual(chess.Board("4k3/8/8/8/8/8/4r3/4K3 b - - 0 1").status(), chess.Status.OPPOSITE_CHECK)
        self.assertEqual(chess.Board("4k3/8/8/8/8/8/8/4K3 w KQ - 0 1").status(), chess.STATUS_BAD_CASTLING_RIGHTS)
        self.assertEqual(chess.Board("P3k3/8/8/8/8/8/8/4K3 w - - 0 1").status(), chess.STATUS_PAWNS_ON_BACKRANK)
        kept = played("e4 e5")
        for fen in ("x", "4k3/8/8/8/8/8/8/4K3 w - - a 1", "4k3/8/8/8/8/8/44/4K3 w KQ - 0 1"):
            self.assertRaises(ValueError, kept.set_fen, fen)
            self.assertEqual((kept, len(kept.move_stack)), (played("e4 e5"), 2))
        for fen in ("", "8/8", "8/8/8/8/8/8/8/7x w - - 0 1", "8/8/8/8/8/8/8/44 w - - 0 1", "8/8/8/8/8/8/8/8 x - - 0 1", "8/8/8/8/8/8/8/8 w - - a 1", "8/8/8/8/8/8/8/8/8 w - - 0 1"):
            with self.assertRaises(ValueError, msg=fen):
                chess.Board(fen)

    def test_an_editor_sets_one_piece_at_a_time(self):
        board = chess.Board.empty()
        self.assertEqual((board.status() & chess.Status.EMPTY, board == chess.Board(None)), (chess.Status.EMPTY, True))
        board.set_piece_at(chess.E1, chess.Piece(chess.KING, chess.WHITE))
        board.set_piece_at(chess.H1, chess.Piece.from_symbol("R"))
        board.castling_rights = chess.BB_H1
        board.set_piece_at(chess.E8, chess.Piece.from_symbol("k"))
        self.assertEqual((board.fen(), board.is_valid()), ("4k3/8/8/8/8/8/8/4K2R w K - 0 1", True))
        self.assertIn(chess.Move.from_uci("e1g1"), board.legal_moves)
        self.assertEqual(board.remove_piece_at(chess.H1), chess.Piece.from_symbol("R"))
        board.set_piece_at(chess.H1, chess.Piece.from_symbol("R"))
        self.assertTrue(board.has_kingside_castling_rights(chess.WHITE))
        board.clear()
        self.assertEqual((board.fen(), board.piece_map()), ("8/8/8/8/8/8/8/8 w - - 0 1", {}))
        board.set_board_fen("4k3/8/8/8/8/8/8/4K3")
        self.assertEqual(len(list(board.legal_moves)), 5)

    def test_pieces_alone(self):
        men = chess.BaseBoard.empty()
        men.set_piece_at(chess.E4, chess.Piece.from_symbol("N"))
        self.assertEqual((men.board_fen(), men.piece_map(), repr(men)), ("8/8/8/8/4N3/8/8/8", {chess.E4: "N"}, "BaseBoard('8/8/8/8/4N3/8/8/8')"))
        self.assertEqual((men.mirror().board_fen(), men.transform(chess.flip_horizontal).board_fen()), ("8/8/8/4n3/8/8/8/8", "8/8/8/8/3N4/8/8/8"))
        self.assertEqual(chess.svg.board(men).count("translate"), 1)
        self.assertEqual(chess.BaseBoard().unicode().splitlines()[0], "♜ ♞ ♝ ♛ ♚ ♝ ♞ ♜")
        self.assertEqual(chess.Board().unicode(borders=True).splitlines()[1], "8 |♜|♞|♝|♛|♚|♝|♞|♜|")

    def test_attacks_of_pieces_that_are_no_position(self):
        """The library says them of a position that has kings besides."""
        board = chess.Board("8/8/8/8/4N3/8/8/8 w - - 0 1")
        self.assertEqual(board.attacks(chess.E4), chess.SquareSet([chess.D2, chess.F2, chess.C3, chess.G3, chess.C5, chess.G5, chess.D6, chess.F6]))
        self.assertEqual((board.attackers(chess.WHITE, chess.F6), board.is_attacked_by(chess.BLACK, chess.F6), board.is_check(), board.checkers()), ({chess.E4}, False, False, 0))
        men = chess.BaseBoard("8/8/3p4/8/1Q1p3R/8/8/8")
        self.assertEqual((len(chess.BaseBoard("8/8/8/8/3Q4/8/8/8").attacks(chess.D4)), men.attacks(chess.H4), men.attacks(chess.A1)), (27, chess.BB_FILE_H ^ chess.BB_H4 | 0x78000000, 0))
        self.assertEqual((men.attackers(chess.WHITE, chess.D4), men.attackers_mask(chess.BLACK, chess.C5)), ({chess.B4, chess.H4}, chess.BB_D6))
        pinned = chess.BaseBoard("8/8/8/8/4r3/8/4N3/4K3")
        self.assertEqual((pinned.is_pinned(chess.WHITE, chess.E2), pinned.pin(chess.WHITE, chess.E2), men.is_pinned(chess.WHITE, chess.B4)), (True, chess.BB_FILE_E, False))
        for fen in ("r3k2r/p1ppqpb1/bn2pnp1/3PN3/1p2P3/2N2Q1p/PPPB1PP1/R3K2R w KQkq - 0 1", "8/2p5/3p4/KP5r/1R3p1k/8/4P1P1/8 w - - 0 1", "q3k3/8/8/3Q4/8/2B5/8/4K2R b - - 0 1"):
            full, pieces = chess.Board(fen), chess.BaseBoard(fen.split()[0])
            for square in chess.SQUARES:
                self.assertEqual((pieces.attacks(square), *(pieces.attackers(color, square) for color in chess.COLORS)), (full.attacks(square), *(full.attackers(color, square) for color in chess.COLORS)))
        self.assertEqual((len(chess.BaseBoard("8/8/8/8/8/8/8/KK5R").attacks(chess.H1)), chess.BaseBoard("P7/8/8/8/8/8/8/K6K").attacks(chess.A1)), (13, {chess.B1, chess.A2, chess.B2}))
        for call in (lambda: chess.BaseBoard("P7/8/8/8/8/8/8/R7").attacks(chess.A8), lambda: chess.BaseBoard("rrrrrrrr/rrrrrrrr/rrrrrrrr/rrrrrrrr/r7/8/8/8").attacks(chess.A4)):
            with self.assertRaisesRegex(ValueError, "no position"):
                call()
        self.assertRaises(NotImplementedError, men.attackers, chess.WHITE, chess.D4, chess.BB_ALL)

    def test_copies(self):
        board = played("e4 e5 Nf3 Nc6")
        self.assertEqual([len(board.copy(stack=stack).move_stack) for stack in (True, False, 1, 9)], [4, 0, 1, 4])
        self.assertEqual([board.copy(stack=stack) == board for stack in (True, False, 1)], [True, True, True])
        for other in (copy.copy(board), copy.deepcopy(board), pickle.loads(pickle.dumps(board))):
            self.assertEqual((other, other.move_stack), (board, board.move_stack))
            other.pop()
            self.assertNotEqual(other, board)
        self.assertEqual((board.root(), len(board.move_stack)), (chess.Board(), 4))
        self.assertEqual(played("e4").mirror().fen(), "rnbqkbnr/pppp1ppp/8/4p3/8/8/PPPPPPPP/RNBQKBNR w KQkq - 0 1")

    def test_epd(self):
        board, operations = chess.Board.from_epd('r1bqkb1r/pppp1ppp/2n2n2/4p2Q/2B1P3/8/PPPP1PPP/RNB1K1NR w KQkq - bm Qxf7#; id "a; \\"b\\""; ce 12; acd 1.5; draw_offer; hmvc 4; fmvn 4;')
        self.assertEqual(operations, {"bm": [chess.Move.from_uci("h5f7")], "id": 'a; "b"', "ce": 12, "acd": 1.5, "draw_offer": None, "hmvc": 4, "fmvn": 4})
        self.assertEqual((board.halfmove_clock, board.fullmove_number), (4, 4))
        self.assertEqual(chess.Board.from_epd(board.epd(**operations)), (board, operations))
        start = chess.Board()
        self.assertEqual(start.epd(hmvc=0, fmvn=1), "rnbqkbnr/pppppppp/8/8/8/8/PPPPPPPP/RNBQKBNR w KQkq - hmvc 0; fmvn 1;")
        self.assertEqual(start.epd(pv=[chess.Move.from_uci("e2e4"), chess.Move.from_uci("e7e5")], sm=chess.Move.from_uci("e2e4")).split("- ")[1], "pv e4 e5; sm e4;")
        for epd in ("", "8/8/8/8 w - -", "4k3/8/8/8/8/8/8/4K3 w - - bm Qh5;", "4k3/8/8/8/8/8/8/4K3 w - - 5 6;", "4k3/8/8/8/8/8/8/4K3 w - - hmvc;", "4k3/8/8/8/8/8/8/4K3 w - - fmvn 1.5;"):
            with self.assertRaises(ValueError, msg=epd):
                chess.Board.from_epd(epd)

    def test_how_games_end(self):
        shuffled = played("Nf3 Nf6 Ng1 Ng8 " * 2)
        self.assertEqual((shuffled.is_repetition(), shuffled.can_claim_threefold_repetition(), shuffled.outcome()), (True, True, None))
        self.assertEqual(shuffled.outcome(claim_draw=True).termination.name, "THREEFOLD_REPETITION")
        self.assertEqual((shuffled.result(claim_draw=True), played("Nf3 Nf6 Ng1 Ng8 " * 4).outcome().termination), ("1/2-1/2", chess.Termination.FIVEFOLD_REPETITION))
        fifty = chess.Board("7k/8/8/8/8/8/R7/K7 w - - 99 80")
        self.assertEqual((fifty.can_claim_fifty_moves(), fifty.is_fifty_moves(), fifty.can_claim_draw()), (True, False, True))
        self.assertEqual(chess.Board("7k/8/8/8/8/8/R7/K7 w - - 150 80").outcome().termination, chess.Termination.SEVENTYFIVE_MOVES)
        bare = chess.Board("4k3/8/8/8/8/8/8/4K3 w - - 0 1").outcome()
        self.assertEqual((bare.termination.name, bare.winner, bare.result(), bool(bare.termination)), ("INSUFFICIENT_MATERIAL", None, "1/2-1/2", True))
        self.assertEqual(chess.Board("7k/8/6Q1/8/8/8/8/K7 b - - 0 1").outcome().termination, chess.Termination.STALEMATE)

    def test_claims_after_the_game_is_over(self):
        """As python-chess has it: a draw can be claimed, though the Laws have ended the game."""
        five = played("Nf3 Nf6 Ng1 Ng8 " * 4)
        self.assertEqual((five.can_claim_draw(), five.can_claim_threefold_repetition(), five.can_claim_fifty_moves()), (True, True, False))
        self.assertEqual((five.outcome(claim_draw=True).termination.name, five.is_game_over(claim_draw=True)), ("FIVEFOLD_REPETITION", True))
        for fen, fifty in (
            ("7k/8/8/8/8/8/R7/K7 w - - 150 80", True),
            ("4k3/8/8/8/8/8/8/4K3 w - - 120 80", True),
            ("4k3/8/8/8/8/8/8/4K3 w - - 98 80", False),
            ("7k/5Q2/6K1/8/8/8/8/8 b - - 120 80", False),
            ("7k/6Q1/6K1/8/8/8/8/8 b - - 120 80", False),
            # The only move without a capture mates.
            ("k7/2Q5/8/1K6/8/8/8/8 b - - 99 80", False),
        ):
            board = chess.Board(fen)
            self.assertEqual((board.can_claim_fifty_moves(), board.can_claim_draw(), board.can_claim_threefold_repetition()), (fifty, fifty, False), fen)
            self.assertEqual((board.fen(), board.move_stack), (fen, []))
        # With a move: the third time comes up after eight plies.
        seven = played("Nf3 Nf6 Ng1 Ng8 Nf3 Nf6 Ng1")
        self.assertEqual((seven.is_repetition(3), seven.can_claim_threefold_repetition(), len(seven.move_stack)), (False, True, 7))
        self.assertFalse(played("Nf3 Nf6 Ng1 Ng8 Nf3 Nf6").can_claim_draw())

    def test_insufficient_material(self):
        """The rows of python-chess's documentation and more: by White, by Black."""
        for men, white, black in (
            ("rnbqkbnr/pppppppp/8/8/8/8/PPPPPPPP/RNBQKBNR w KQkq -", False, False),
            ("k1K1B1B1/8/8/8/8/8/8/8 w - -", True, True),
            ("kbK1B1B1/8/8/8/8/8/8/8 w - -", False, False),
            ("8/5k2/8/8/8/8/3K4/8 w - -", True, True),
            ("8/3k4/8/8/2N5/8/3K4/8 b - -", True, True),
            ("8/4rk2/8/8/8/8/3K4/8 w - -", True, False),
            ("8/4qk2/8/8/8/8/3K4/8 w - -", True, False),
            ("8/4bk2/8/8/8/8/3KB3/8 w - -", False, False),
            ("8/8/3Q4/2bK4/B7/8/1k6/8 w - -", False, False),
            ("8/5k2/8/8/8/4B3/3K1B2/8 w - -", True, True),
            ("5K2/8/8/1B6/8/k7/6b1/8 w - -", True, True),
            ("3b4/8/8/6b1/8/8/R7/K1k5 w - -", False, True),
            # A knight beside a queen alone can't mate, but beside any other piece it can.
            ("4k2q/8/8/8/8/8/8/N3K3 w - -", True, False),
            ("4k2r/8/8/8/8/8/8/N3K3 w - -", False, False),
            ("4k2n/8/8/8/8/8/8/N3K3 w - -", False, False),
            ("4k3/8/8/8/8/8/8/NN2K3 w - -", False, True),
            # Pieces alone are asked, also without kings and in a stalemate.
            ("8/8/8/8/8/8/8/N7 w - -", True, True),
            ("7k/5KB1/8/8/8/8/8/8 b - -", True, True),
        ):
            board = chess.Board(f"{men} 0 1")
            self.assertEqual([board.has_insufficient_material(color) for color in (chess.WHITE, chess.BLACK)], [white, black], men)
            self.assertEqual(board.is_insufficient_material(), white and black, men)
        self.assertRaises(ValueError, chess.Board().has_insufficient_material, 2)

    def test_insufficient_material_ends_the_game(self):
        """A position with few pieces is over by its material if and only if the library calls it dead."""
        draw, seen = random.Random(11), set()
        for _ in range(1500):
            squares = draw.sample(range(64), draw.choice((2, 3, 3, 4, 4, 5)))
            men = {square: letter for square, letter in zip(squares, "Kk" + "".join(draw.choice("NnBbBb") for _ in squares[2:]))}
            board = chess.Board.empty()
            board.set_piece_map({square: chess.Piece.from_symbol(letter) for square, letter in men.items()})
            if board.is_valid() and not board.is_checkmate() and not board.is_stalemate():
                outcome = board.outcome()
                self.assertEqual(board.is_insufficient_material(), outcome is not None and outcome.termination == chess.Termination.INSUFFICIENT_MATERIAL, board.fen())
                seen.add(board.is_insufficient_material())
        self.assertEqual(seen, {True, False})

    def test_impossible_checks(self):
        many, impossible, valid = chess.Status.TOO_MANY_CHECKERS, chess.Status.IMPOSSIBLE_CHECK, chess.Status.VALID
        for fen, wanted in (
            # After a double step a piece checks whose line that has not opened, or has.
            ("rnbqk1nr/bb3p1p/1q2r3/2pPp3/3P4/7P/1PP1NpPP/R1BQKBNR w KQkq c6 0 1", impossible),
            ("8/8/8/1k6/3Pp3/8/8/4KQ2 b - d3 0 1", impossible),
            ("8/8/8/8/3Pp2k/8/1B6/4K3 b - d3 0 1", valid),
            ("8/8/8/7k/3Pp3/8/8/3QK3 b - d3 0 1", impossible),
            ("8/8/8/k7/3Pp3/8/8/4QK2 b - d3 0 1", valid),
            # The pawn itself, and with another.
            ("8/8/8/2k5/3Pp3/8/8/4K3 b - d3 0 1", valid),
            ("8/8/8/2k5/3Pp3/8/8/2R1K3 b - d3 0 1", impossible),
            # Two in line, two in different directions, three, and two kings.
            ("4k3/8/8/4R3/8/8/4R3/4K3 b - - 0 1", valid),
            ("R3k2R/8/8/8/8/8/8/4K3 b - - 0 1", impossible),
            ("4k3/8/8/1B6/8/8/4R3/4K3 b - - 0 1", valid),
            ("4k3/8/2N5/1B6/8/8/4R3/4K3 b - - 0 1", valid),
            ("4k3/8/3N4/7B/8/8/4R3/4K3 b - - 0 1", many | impossible),
            ("4k3/8/8/8/8/8/8/KK6 w - - 0 1", chess.Status.TOO_MANY_KINGS),
            ("8/8/8/8/8/8/8/KK6 w - - 0 1", chess.Status.NO_BLACK_KING),
        ):
            board = chess.Board(fen)
            self.assertEqual((board.status(), board.is_valid()), (wanted, not wanted), fen)
            self.assertEqual((board.fen(en_passant="fen"), board.move_stack), (fen, []))

    def test_what_is_refused(self):
        board = chess.Board()
        for call in (
            lambda: chess.Board(chess960=True),
            lambda: board.pseudo_legal_moves,
            lambda: board.is_pseudo_legal(chess.Move.from_uci("e2e4")),
            lambda: board.fen(shredder=True),
            lambda: board.set_chess960_pos(518),
            lambda: chess.Board.from_chess960_pos(518),
            lambda: board.shredder_fen(),
            lambda: board.generate_pseudo_legal_moves(),
            lambda: board.is_into_check(chess.Move.from_uci("e2e4")),
            lambda: chess.syzygy.open_tablebase("."),
            lambda: chess.gaviota.open_tablebase("."),
            lambda: chess.variant.find_variant("atomic"),
            lambda: chess.engine.Cp(1).wdl(),
            lambda: board.attackers(chess.WHITE, chess.E4, chess.BB_ALL),
        ):
            self.assertRaises(NotImplementedError, call)
        for name, value, error in (("chess960", True, NotImplementedError), ("occupied", 1, AttributeError), ("castling_rights", chess.BB_B1, NotImplementedError)):
            self.assertRaises(error, setattr, board, name, value)
        for kind in (chess.Board, chess.BaseBoard):
            self.assertRaises(TypeError, kind, 5)
            self.assertRaises(ValueError, kind().pieces, 9, chess.WHITE)
            self.assertRaises(ValueError, kind().piece_at, 64)
        self.assertRaises(chess.IllegalMoveError, board.push, chess.Move.from_uci("e2e5"))
        self.assertRaises(IndexError, board.pop)
        self.assertEqual(board, chess.Board())


GAMES = """[Event "a"]
[White "Anna \\"A\\""]

1. e4 {[%clk 0:05:00] best} e5 (1... c5 $5 2. Nf3) 2. Nf3 $1 1-0

[Event "b"]

1. d4 d5 2. Ke3 Nf6 *

[Event "c"]
[FEN "4k3/8/8/8/8/8/4P3/4K3 b - - 0 20"]
[SetUp "1"]

20... Kd7 21. e4 1/2-1/2
"""


class Games(unittest.TestCase):
    def test_reading(self):
        file = io.StringIO(GAMES)
        with self.assertLogs("chess.pgn", "ERROR") as logs:
            games = [chess.pgn.read_game(file) for _ in range(4)]
        self.assertEqual(len(logs.output), 1)
        self.assertEqual([None if game is None else game.headers["Event"] for game in games], ["a", "b", "c", None])
        first, bad, third, _ = games
        self.assertEqual((first.headers["White"], first.headers["Result"], list(first.headers)[:7]), ('Anna "A"', "1-0", chess.pgn.TAG_ROSTER))
        self.assertEqual([move.uci() for move in first.mainline_moves()], ["e2e4", "e7e5", "g1f3"])
        self.assertEqual(str(first.mainline_moves()), "1. e4 { [%clk 0:05:00] best } 1... e5 2. Nf3 $1")
        self.assertEqual((first.end().nags, first.end().san(), first.end().uci(), first.end().ply(), first.end().turn()), ({chess.pgn.NAG_GOOD_MOVE}, "Nf3", "g1f3", 3, chess.BLACK))
        self.assertEqual((first.errors, len(bad.errors), [move.uci() for move in bad.mainline_moves()]), ([], 1, ["d2d4", "d7d5"]))
        self.assertIsInstance(bad.errors[0], ValueError)
        self.assertEqual((third.board().fen(), third.ply(), third.end().board().fen()), ("4k3/8/8/8/8/8/4P3/4K3 b - - 0 20", 39, "8/3k4/8/8/4P3/8/8/4K3 b - - 0 21"))
        for node in first.mainline():
            self.assertIs(node.parent[node.move], node)
        self.assertTrue(first.next() in first and first.end().is_end() and first.end().is_mainline())

    def test_an_index_of_a_file(self):
        file, offsets = io.StringIO(GAMES), {}
        while True:
            offset = file.tell()
            headers = chess.pgn.read_headers(file)
            if headers is None:
                break
            offsets[headers["Event"]] = offset
        file.seek(offsets["c"])
        self.assertEqual(chess.pgn.read_game(file).next().san(), "Kd7")
        file.seek(offsets["a"])
        with self.assertLogs("chess.pgn", "ERROR"):
            self.assertEqual([chess.pgn.skip_game(file), chess.pgn.read_game(file).headers["Event"], chess.pgn.skip_game(file), chess.pgn.skip_game(file)], [True, "b", True, False])

    def test_a_main_line_is_gone_through_again(self):
        moves = chess.pgn.read_game(io.StringIO(GAMES)).mainline_moves()
        self.assertEqual((len(list(moves)), len(list(moves)), [move.uci() for move in reversed(moves)][0]), (3, 3, "g1f3"))
        self.assertEqual((bool(moves), bool(chess.pgn.Game().mainline())), (True, False))
        self.assertEqual((str(moves), str(chess.pgn.Game().mainline())), (moves.accept(chess.pgn.StringExporter(columns=None)), ""))
        self.assertEqual(chess.pgn.read_game("1. e4 e5 (1... c5 {x}) 2. Nf3 *").next().mainline().accept(chess.pgn.StringExporter()), "1... e5 2. Nf3")

    def test_visitors(self):
        seen = []

        class Count(chess.pgn.BaseVisitor):
            def begin_headers(self):
                seen.append("headers")

            def visit_move(self, board, move):
                seen.append(board.san(move))

            def begin_variation(self):
                return chess.pgn.SKIP

            def visit_result(self, result):
                seen.append(result)

            def result(self):
                return len(seen)

        self.assertEqual(chess.pgn.read_game(io.StringIO(GAMES), Visitor=Count), 5)
        self.assertEqual(seen, ["headers", "e4", "e5", "Nf3", "1-0"])
        del seen[:]
        self.assertEqual(chess.pgn.read_game(io.StringIO(GAMES)).accept(Count()), 5)
        with self.assertRaisesRegex(ValueError, "left out"):
            chess.pgn.read_game("1. e5 *", Visitor=Count)
        self.assertEqual(chess.pgn.read_game("1. e4 (1. d4) e5 *", Visitor=chess.pgn.BoardBuilder).fen(), played("e4 e5").fen())
        kinds = [chess.pgn.read_game(GAMES, Visitor=kind) for kind in (chess.pgn.GameBuilder, chess.pgn.StringExporter, chess.pgn.HeadersBuilder)]
        self.assertEqual((str(kinds[0]), kinds[0].headers), (kinds[1], kinds[2]))

    def test_trees(self):
        game = chess.pgn.Game()
        game.headers["Event"] = "Example"
        node = game.add_variation(chess.Move.from_uci("e2e4"))
        node = node.add_variation(chess.Move.from_uci("e7e5"), comment="open")
        sicilian = node.parent.add_variation(chess.Move.from_uci("c7c5"), starting_comment="or", nags=[chess.pgn.NAG_SPECULATIVE_MOVE])
        french = game.next().add_main_variation(chess.Move.from_uci("e7e6"))
        self.assertEqual([it.uci() for it in game.next().variations], ["e7e6", "e7e5", "c7c5"])
        game.next().promote(sicilian)
        game.next().demote(french)
        game.next().remove_variation(french.move)
        game.next().promote_to_main(node)
        sicilian.add_line([chess.Move.from_uci("g1f3"), chess.Move.from_uci("d7d6")], comment="end")
        text = "1. e4 e5 { open } ( { or } 1... c5 $5 2. Nf3 d6 { end } ) *"
        self.assertEqual(str(game).splitlines()[-1], text)
        self.assertEqual((sicilian.starts_variation(), sicilian.is_mainline(), sicilian.end().root() is game, game.variations[0].has_variation(french.move)), (True, False, True, False))
        again = chess.pgn.read_game(str(game))
        self.assertEqual([node.move for node in again.next().variations], [node.move, sicilian.move])
        board = played("e4 e5")
        self.assertEqual(chess.pgn.Game.from_board(board).end().board(), board)
        game.add_variation(chess.Move.from_uci("e2e5"))
        self.assertRaises(chess.IllegalMoveError, str, game)
        self.assertRaises(KeyError, game.remove_variation, chess.Move.from_uci("a2a3"))

    def test_clocks_evaluations_and_arrows(self):
        node = chess.pgn.Game().add_variation(chess.Move.from_uci("e2e4"), comment="so [%clk 1:02:03.5] [%emt 0:00:05] [%eval 0.25,12] [%csl Ra1] [%cal Gb2b4,Yc1c2] it is")
        self.assertEqual((node.clock(), node.emt(), node.eval_depth()), (3723.5, 5.0, 12))
        self.assertEqual((node.eval().white().score(), node.eval().turn), (25, chess.BLACK))
        self.assertEqual([arrow.pgn() for arrow in node.arrows()], ["Ra1", "Gb2b4", "Yc1c2"])
        node.set_arrows([])
        node.set_clock(59.9999)
        node.set_emt(None)
        node.set_eval(None)
        self.assertEqual(node.comment, "so [%clk 0:01:00] it is")
        node.set_clock(None)
        node.set_eval(node.eval())
        self.assertEqual((node.comment, node.clock(), node.eval(), node.arrows()), ("so it is", None, None, []))
        node.comment = ""
        node.set_arrows([(chess.A1, chess.A1), chess.svg.Arrow(chess.A1, chess.B2, color="red")])
        node.set_clock(7200)
        self.assertEqual(node.comment, "[%csl Ga1][%cal Ra1b2] [%clk 2:00:00]")
        node.comment = "[%eval #-3]"
        self.assertEqual((node.eval().black().mate(), str(node.eval().white())), (3, "#-3"))
        node.set_eval(node.eval(), 20)
        self.assertEqual(node.comment, "[%eval #-3,20]")

    def test_exporters(self):
        game = chess.pgn.read_game(GAMES)
        without = game.accept(chess.pgn.StringExporter(headers=False, variations=False, comments=False))
        self.assertEqual(without, "1. e4 e5 2. Nf3 1-0")
        narrow = game.accept(chess.pgn.StringExporter(headers=False, columns=20)).splitlines()
        self.assertEqual(narrow, ["1. e4", "{ [%clk 0:05:00] best }", "1... e5 ( 1... c5", "$5 2. Nf3 ) 2. Nf3", "$1 1-0"])
        file = io.StringIO()
        written = [game.accept(chess.pgn.FileExporter(file)) for game in (game, chess.pgn.Game())]
        self.assertEqual(sum(written), len(file.getvalue()))
        file.seek(0)
        self.assertEqual(str(chess.pgn.read_game(file)), str(game))
        self.assertEqual(str(chess.pgn.read_game(file)), str(chess.pgn.Game()))
        game.comment = "a } b"
        with self.assertRaisesRegex(ValueError, "right brace"):
            str(game)

    def test_tags(self):
        headers = chess.pgn.Headers(White="x", ECO="B20")
        self.assertEqual((headers["White"], headers["Date"], list(headers)[-2:], len(headers)), ("x", "????.??.??", ["Result", "ECO"], 8))
        self.assertEqual(len(chess.pgn.Game.without_tag_roster().headers), 0)
        for name, value in (("a b", "x"), ("", "x"), ("a", "x\ny")):
            with self.assertRaises(ValueError):
                headers[name] = value
        headers["Variant"] = "Atomic"
        self.assertRaises(NotImplementedError, headers.board)
        self.assertEqual((headers.is_chess960(), headers.is_wild(), chess.pgn.Headers().variant()), (False, False, chess.Board))

    def test_times(self):
        kinds = chess.pgn.TimeControlType
        for text, kind, parts in (
            ("", kinds.UNKNOWN, []),
            ("?", kinds.UNKNOWN, []),
            ("-", kinds.UNLIMITED, []),
            ("60", kinds.BULLET, [(0, 60, 0, 0)]),
            ("180+2", kinds.BLITZ, [(0, 180, 2.0, 0)]),
            ("900+3d", kinds.RAPID, [(0, 900, 0, 3.0)]),
            ("40/7200:3600+30", kinds.STANDARD, [(40, 7200, 0, 0), (0, 3600, 30.0, 0)]),
        ):
            found = chess.pgn.parse_time_control(text)
            self.assertEqual((found.type, found.parts), (kind, parts), text)
        for text in ("x", "60:60", "40/", "1+x"):
            self.assertRaises(ValueError, chess.pgn.parse_time_control, text)
        game = chess.pgn.Game()
        game.headers["TimeControl"] = "300"
        self.assertEqual(game.time_control().type, kinds.BLITZ)

    def test_a_game_that_begins_after_a_node(self):
        game = chess.pgn.read_game(GAMES)
        text = game.next().accept_subgame(chess.pgn.StringExporter())
        again = chess.pgn.read_game(text)
        self.assertEqual((again.board().epd(), [node.san() for node in again.mainline()], again.headers["White"], len(again.variations)), (played("e4").epd(), ["e5", "Nf3"], 'Anna "A"', 2))


class Engines(unittest.TestCase):
    MATE = "7k/8/6K1/8/8/8/8/R7 w - - 0 1"

    def test_play_and_analyse(self):
        with chess.engine.SimpleEngine.popen_uci(ENGINE) as engine:
            board = chess.Board()
            while not board.is_game_over() and board.fullmove_number < 4:
                result = engine.play(board, chess.engine.Limit(depth=1), game=board, ponder=False, info=chess.engine.INFO_ALL)
                self.assertIsInstance(result.move, chess.Move)
                board.push(result.move)
            self.assertEqual((len(board.move_stack), result.draw_offered, result.resigned), (6, False, False))
            info = engine.analyse(chess.Board(self.MATE), chess.engine.Limit(depth=2))
            self.assertEqual((info["pv"], info["score"].white().mate(), type(info["pv"][0])), ([chess.Move.from_uci("a1a8")], 1, chess.Move))
            self.assertRaises(ValueError, engine.play, chess.Board.empty(), chess.engine.Limit(depth=1))
        made = chess.engine.PlayResult(chess.Move.from_uci("e2e4"), None, resigned=True)
        self.assertEqual((made.info, made.draw_offered, made.resigned, "move=e2e4" in repr(made)), ({}, False, True, True))
        self.assertRaises(NotImplementedError, chess.engine.SimpleEngine.popen_xboard, ENGINE)

    def test_kinds_of_information(self):
        with chess.engine.SimpleEngine.popen_uci(ENGINE) as engine:
            board, limit = chess.Board(), chess.engine.Limit(depth=2)
            self.assertEqual(engine.play(board, limit).info, {})
            found = engine.analyse(board, limit, info=chess.engine.INFO_BASIC)
            self.assertEqual((found["depth"], "score" in found, "pv" in found), (2, False, False))
            found = engine.play(board, limit, info=chess.engine.INFO_SCORE | chess.engine.INFO_BASIC).info
            self.assertEqual(("score" in found, "pv" in found), (True, False))
            found = engine.analyse(board, limit, multipv=1, info=chess.engine.INFO_PV)[0]
            self.assertEqual(("score" in found, "pv" in found), (False, True))
            with engine.analysis(board, limit, info=chess.engine.INFO_PV) as analysis:
                self.assertEqual([it for it in analysis if "score" in it], [])
                self.assertEqual(("pv" in analysis.info, analysis.wait().move), (True, found["pv"][0]))
            with engine.analysis(board, limit, info=chess.engine.INFO_NONE) as analysis:
                self.assertEqual((list(analysis), analysis.wait().move), ([], found["pv"][0]))

    def test_options_of_a_search(self):
        """The next search puts back an option that a search has set. An option that `configure` has set stays."""
        program = """
            import sys
            for line in sys.stdin:
                word = line.split()[0]
                if word == "uci":
                    print("option name Hash type spin default 16 min 1 max 64", "option name Clear type button", "option name Book type string default <empty>", "uciok", sep="\\n", flush=True)
                elif word == "isready":
                    print("readyok", flush=True)
                elif word == "setoption":
                    print(line.split(" ", 2)[2], end="", file=sys.stderr, flush=True)
                elif word == "go":
                    print("bestmove e2e4", flush=True)
                elif word == "quit":
                    break
            """
        with tempfile.TemporaryFile("w+") as told:
            with chess.engine.SimpleEngine.popen_uci([sys.executable, "-c", textwrap.dedent(program)], stderr=told) as engine:
                board, limit = chess.Board(), chess.engine.Limit(depth=1)
                for options, wanted in (
                    ({"hash": 32, "Clear": None}, ["Hash value 32", "Clear"]),
                    ({"Book": "a b"}, ["Hash value 16", "Book value a b"]),
                    ({"Book": "c"}, ["Book value c"]),
                    ({}, ["Book value <empty>"]),
                    ({}, []),
                ):
                    begun = told.seek(0, 2)
                    engine.play(board, limit, options=options)
                    engine.ping()
                    told.seek(begun)
                    self.assertEqual(told.read().splitlines(), wanted)
                engine.configure({"Hash": 8})
                engine.analyse(board, limit, options={"Hash": 9})
                self.assertRaises(ValueError, engine.play, board, limit, options={"Book": "x", "Hash": 100})
                self.assertRaises(chess.engine.EngineError, engine.play, board, limit, options={"None": 1})
                with engine.analysis(board, limit, options={"Hash": 10}) as analysis:
                    analysis.wait()
                engine.configure({"Hash": 11})
                engine.play(board, limit)
                engine.quit()
            told.seek(0)
            self.assertEqual(told.read().splitlines()[6:], ["Hash value 8", "Hash value 9", "Hash value 10", "Hash value 11"])

    def test_an_analysis_that_runs(self):
        with chess.engine.SimpleEngine.popen_uci(ENGINE) as engine:
            depths = []
            with engine.analysis(chess.Board()) as analysis:
                for info in analysis:
                    depths += [info["depth"]] if "depth" in info else []
                    if len(depths) == 2:
                        break
            self.assertEqual((depths, analysis.info["depth"], analysis.multipv[0] is analysis.info), ([1, 2], 2, True))
            # Another call ends what goes on.
            self.assertEqual(engine.play(chess.Board(self.MATE), chess.engine.Limit(depth=2)).move.uci(), "a1a8")
            self.assertRaises(chess.engine.AnalysisComplete, analysis.get)
            self.assertRaises(chess.engine.AnalysisComplete, analysis.wait)
            with engine.analysis(chess.Board(self.MATE), chess.engine.Limit(depth=2)) as analysis:
                self.assertEqual(analysis.wait().move, chess.Move.from_uci("a1a8"))
            running = engine.analysis(chess.Board())
            while running.would_block():
                time.sleep(0.01)
            self.assertEqual((running.empty(), running.would_block()), (False, False))
            running.stop()
            self.assertIn(running.wait().move, chess.Board().legal_moves)
            self.assertEqual((running.empty(), running.would_block()), (True, False))

    def test_asyncio(self):
        async def main():
            transport, engine = await chess.engine.popen_uci(ENGINE)
            board = chess.Board(self.MATE)
            result = await engine.play(board, chess.engine.Limit(depth=2))
            info = await engine.analyse(board, chess.engine.Limit(depth=2))
            found = []
            with await engine.analysis(chess.Board()) as analysis:
                async for info_now in analysis:
                    found.append(info_now)
                    if "pv" in info_now:
                        break
            await engine.ping()
            await engine.quit()
            return result.move.uci(), info["score"].white().mate(), bool(found), transport.get_returncode()

        self.assertEqual(asyncio.run(main()), ("a1a8", 1, True, 0))


class Books(unittest.TestCase):
    def test_entries(self):
        board = chess.Board()
        key = chess.polyglot.zobrist_hash(board)
        self.assertEqual(key, 0x463B96181691FC9C)
        with tempfile.NamedTemporaryFile(suffix=".bin") as file:
            for origin, target, weight in ((12, 28, 3), (12, 36, 9), (6, 21, 5)):
                file.write(struct.pack(">QHHI", key, origin << 6 | target, weight, 7))
            file.flush()
            with chess.polyglot.open_reader(file.name) as reader:
                entries = list(reader.find_all(board))
                self.assertEqual(entries, [(key, 12 << 6 | 28, 3, 7, chess.Move.from_uci("e2e4")), (key, 6 << 6 | 21, 5, 7, chess.Move.from_uci("g1f3"))])
                self.assertEqual((len(reader), reader.find(board).move.uci(), entries[0].raw_move), (3, "g1f3", 796))
                without = [chess.Move.from_uci("g1f3")]
                self.assertEqual({reader.weighted_choice(board, exclude_moves=without).move.uci(), reader.choice(board, exclude_moves=without).move.uci()}, {"e2e4"})
                self.assertIsNone(reader.get(played("e4")))
                self.assertEqual([reader.bisect_key_left(it) for it in (0, key, key + 1)], [0, 0, 3])
                self.assertEqual((reader[-1], entries[0] in reader, len(list(reader))), (entries[1], True, 3))
                self.assertRaises(IndexError, lambda: reader[3])
                self.assertRaises(IndexError, reader.find, played("e4"))
                # The entries of a key are as in the file, with the move that is illegal here.
                self.assertEqual([it.move.uci() for it in reader.find_all(key)], ["e2e4", "e2e5", "g1f3"])
                self.assertEqual((reader.find(key).move.uci(), reader.get(key + 1), reader.choice(key, minimum_weight=6).weight), ("e2e5", None, 9))
                self.assertRaises(ValueError, list, reader.find_all(-1))


class Pages(unittest.TestCase):
    def test_the_page_says_how_many_names_there_are(self):
        with open(f"{runs.TOP}/docs/PYTHON.md", encoding="utf-8") as page:
            said = re.search(r"`jatshegi.compat` has (\d+) names of python-chess", page.read())
        self.assertEqual(int(said[1]), len(set(chess.__all__)))
        self.assertEqual([name for name in chess.__all__ if not hasattr(chess, name)], [])


class Unchanged(unittest.TestCase):
    def test_a_program_is_run_as_it_is(self):
        """By `python -m jatshegi.compat`, with its words and its own folder; without a program the usage is an error."""
        with tempfile.TemporaryDirectory() as folder:
            for name, text in (("beside.py", "import chess.pgn\nGame = chess.pgn.Game"), ("program.py", "import sys, beside, chess\nfrom chess.pgn import Game\nprint(sys.argv[1:], beside.Game is Game, chess.Board().ply(), __name__)")):
                with open(f"{folder}/{name}", "w", encoding="utf-8") as file:
                    file.write(text)
            words, environment = [sys.executable, "-m", "jatshegi.compat"], {**os.environ, "PYTHONPATH": PACKAGE}
            ran = subprocess.run([*words, f"{folder}/program.py", "a", "-b"], env=environment, capture_output=True, text=True)
            self.assertEqual((ran.stdout, ran.stderr), ("['a', '-b'] True 0 __main__\n", ""))
            for more in ([], ["-h"], [f"{folder}/none.py"]):
                ran = subprocess.run([*words, *more], env=environment, capture_output=True, text=True)
                self.assertEqual((ran.returncode, ran.stdout, bool(ran.stderr)), (1, "", True))


class Types(unittest.TestCase):
    def test_types(self):
        if not shutil.which("mypy"):
            self.skipTest("mypy is not on the path")
        uses = """
            import jatshegi.compat as chess
            import jatshegi.compat.engine
            board = chess.Board()
            names: list[str] = [board.san(move) for move in board.legal_moves]
            squares: chess.SquareSet = board.attackers(chess.WHITE, chess.E4) | chess.BB_E4
            outcome = board.outcome(claim_draw=True)
            game = chess.pgn.read_game(open("x"))
            headers = chess.pgn.read_game(open("x"), Visitor=chess.pgn.HeadersBuilder)
            if game is not None and headers is not None:
                print([node.san() for node in game.mainline()], headers["White"], game.end().eval())
            with chess.engine.SimpleEngine.popen_uci("x") as engine:
                print(engine.play(board, chess.engine.Limit(time=1)).move, engine.analyse(board, chess.engine.Limit(depth=2))["score"].white())
            print(names, squares, None if outcome is None else outcome.termination.name, board.copy(stack=False).status())
            board.push("e4")
        """
        with tempfile.TemporaryDirectory() as folder:
            with open(f"{folder}/uses.py", "w", encoding="utf-8") as file:
                file.write(textwrap.dedent(uses))
            words = ["mypy", "--strict", "--cache-dir", f"{folder}/cache", f"{folder}/uses.py"]
            ran = subprocess.run(words, env={**os.environ, "MYPYPATH": PACKAGE}, capture_output=True, text=True)
        # The last line is the one that the call refuses, too.
        self.assertEqual([line.split(":")[1] for line in ran.stdout.splitlines() if ": error" in line], ["15"], ran.stdout)


if __name__ == "__main__":
    unittest.main()
