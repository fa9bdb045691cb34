"""The Python package in the names of python-chess: snippets as its users write them, and each short question beside what the board says otherwise."""
import ast
import copy
import importlib
import importlib.util
import inspect
import io
import json
import os
import pickle
import pydoc
import random
import re
import shutil
import struct
import subprocess
import sys
import tempfile
import unittest
import weakref
import xml.dom.minidom

import runs

PACKAGE = f"{runs.TOP}/python"
# (Debian puts games into a folder of their own)
PATH = f"{os.environ.get('PATH', '')}:/usr/games"
# Positions with castling, en passant, promotions and pins.
FENS = [
    "r3k2r/p1ppqpb1/bn2pnp1/3PN3/1p2P3/2N2Q1p/PPPBBPPP/R3K2R w KQkq - 0 1",
    "r3k2r/Pppp1ppp/1b3nbN/nP6/BBP1P3/q4N2/Pp1P2PP/R2Q1RK1 w kq - 0 1",
    "8/8/8/K1pP3r/8/8/8/4k3 w - c6 0 2",
    "8/2p5/3p4/KP5r/1R3p1k/8/4P1P1/8 w - - 0 1",
]


def setUpModule():
    runs.make("libraries")
    sys.path.insert(0, PACKAGE)
    global jatshegi
    jatshegi = importlib.import_module("jatshegi")


def tearDownModule():
    sys.path.remove(PACKAGE)


class Snippets(unittest.TestCase):
    """What a user of python-chess writes from memory, with the import changed."""

    def test_a_game_played_out(self):
        chess, board = jatshegi, jatshegi.Board()
        for text in ("e2e4", "e7e5", "d1h5", "b8c6", "f1c4", "g8f6", "h5f7"):
            board.push(chess.Move.from_uci(text))
        self.assertTrue(board.is_checkmate() and board.is_game_over() and not board.is_stalemate() and not board.is_insufficient_material())
        self.assertEqual((board.result(), board.outcome().winner, board.peek().uci(), len(board.move_stack)), ("1-0", chess.WHITE, "h5f7", 7))
        self.assertEqual((board.piece_at(chess.F7), board.piece_at(chess.F7).symbol(), board.piece_at(chess.E4).color, board.piece_at(chess.H5)), ("Q", "Q", chess.WHITE, None))
        self.assertEqual((board.pop().uci(), board.result(), board.king(chess.BLACK)), ("h5f7", "*", chess.E8))

    def test_a_file_game_by_game(self):
        text = '[White "a"]\n\n1. e4 e5 2. Nf3 *\n\n[White "b"]\n\n1. e5 *\n\n[White "c"]\n\n1. d4 {x} (1. c4) 1... d5 1-0\n'
        with tempfile.NamedTemporaryFile("w", suffix=".pgn") as file:
            file.write(text)
            file.flush()
            for opened in (open(file.name), open(file.name, "rb"), io.StringIO(text), io.BytesIO(text.encode())):
                with opened as pgn:
                    seen = []
                    while True:
                        try:
                            game = jatshegi.pgn.read_game(pgn)
                        except jatshegi.InvalidGameError as fault:
                            seen.append(fault.place)
                            continue
                        if game is None:
                            break
                        board = game.board()
                        for move in game.mainline_moves():
                            board.push(move)
                        seen.append((game.headers["White"], board.fen() == game.end().board().fen(), game.end().san))
                    self.assertEqual(seen, [("a", True, "Nf3"), 48, ("c", True, "d5")])
                    self.assertIsNone(jatshegi.pgn.read_game(pgn))
        self.assertEqual([it.headers["White"] for it in jatshegi.pgn.games(io.StringIO("e4 * [White \"z\"] d4 *"))], ["?", "z"])
        for none in (None, 7, ["e4 *"]):
            self.assertRaises(TypeError, jatshegi.pgn.read_game, none)

    def test_a_tree_walked(self):
        game = jatshegi.pgn.read_game('[FEN "4k3/8/8/8/8/8/4P3/4K3 w - - 0 1"] 1. e4 (1. e3 Kd7) 1... Ke7 *')
        first = game.next()
        self.assertEqual((first.move.uci(), first.board().fen()), ("e2e4", "4k3/8/8/8/4P3/8/8/4K3 b - e3 0 1"))
        self.assertEqual([node.san for node in game.variations], ["e4", "e3"])
        other = game.variations[1]
        self.assertEqual((other.next().move.uci(), other.is_end(), other.end().is_end(), other.next().next(), game.root.move), ("e8d7", False, True, None, None))
        self.assertEqual([move.uci() for move in other.mainline_moves()], ["e8d7"])

    def test_a_game_of_a_board(self):
        text = '[White "R\u00e9ti"]\n[ECO "A04"]\n\n1. Nf3 {a} d5 (1... c5 $1) 2. g3 1-0'
        game = jatshegi.pgn.read_game(text)
        board = jatshegi.Board.from_game(game)
        self.assertEqual(bytes(jatshegi.pgn.Game.from_board(board)), bytes(game))
        board.headers["White"], board.marker = "x", "*"
        board.push_san("Nf3")
        other = jatshegi.pgn.Game.from_board(board)
        self.assertEqual((other.headers["White"], other.result, game.headers["White"], len(other.next().children)), ("x", "*", "R\u00e9ti", 2))
        latin = jatshegi.Board(encoding="iso-8859-1")
        latin.line("comment \u00e9")
        self.assertEqual(jatshegi.pgn.Game.from_board(latin).root.comment, "\u00e9")
        self.assertEqual((jatshegi.pgn.read_headers(text)["ECO"], jatshegi.pgn.read_headers(" ")), ("A04", None))

    def test_claims(self):
        board = jatshegi.Board()
        for _ in range(2):
            for san in ("Nf3", "Nf6", "Ng1", "Ng8"):
                self.assertEqual((board.can_claim_draw(), board.is_repetition(), board.is_game_over(claim_draw=True)), (board.ply >= 7, board.ply >= 8, board.ply >= 7))
                board.push_san(san)
        self.assertTrue(board.is_repetition() and board.is_repetition(2) and not board.is_repetition(4) and board.can_claim_threefold_repetition())
        self.assertEqual((board.can_claim_fifty_moves(), board.result(), board.result(claim_draw=True)), (False, "*", "1/2-1/2"))
        self.assertEqual(board.outcome(claim_draw=True).termination, jatshegi.Termination.THREEFOLD_REPETITION)
        for clock, can in ((98, False), (99, True), (100, True)):
            board = jatshegi.Board(f"7k/8/8/8/8/8/R7/K7 w - - {clock} 80")
            self.assertEqual((board.can_claim_fifty_moves(), board.can_claim_draw(), board.can_claim_threefold_repetition()), (can, can, False))
        for fen, which in (("7k/8/6Q1/8/8/8/8/K7 b - -", "is_stalemate"), ("8/8/8/8/8/8/k7/2K5 w - -", "is_insufficient_material"), ("7k/8/8/8/8/8/R7/K7 w - - 150 99", "is_seventyfive_moves")):
            board = jatshegi.Board(fen)
            names = ("is_checkmate", "is_stalemate", "is_insufficient_material", "is_seventyfive_moves", "is_fivefold_repetition")
            self.assertEqual([getattr(board, name)() for name in names], [name == which for name in names])
            self.assertEqual((board.result(), board.is_valid()), ("1/2-1/2", True))


class Questions(unittest.TestCase):
    def test_moves_by_what_they_do(self):
        chance = random.Random(64)
        kinds = set()
        for number in range(60):
            board = jatshegi.Board(FENS[number % len(FENS)])
            for _ in range(40):
                moves, before = board.legal_moves, board.piece_map()
                if not moves:
                    break
                for move in moves:
                    man, target = before[move.from_square], board.ep_square
                    en_passant = man.piece_type == jatshegi.PAWN and move.to_square == target and move.from_square % 8 != move.to_square % 8
                    castles = man.piece_type == jatshegi.KING and abs(move.from_square - move.to_square) == 2
                    captures = move.to_square in before or en_passant
                    said = board.is_capture(move), board.is_en_passant(move), board.is_castling(move), board.is_zeroing(move)
                    self.assertEqual(said, (captures, en_passant, castles, captures or man.piece_type == jatshegi.PAWN), (board.fen(), move))
                    self.assertEqual(board.is_kingside_castling(move), castles and move.to_square > move.from_square)
                    self.assertEqual(board.is_queenside_castling(move), castles and move.to_square < move.from_square)
                    lan = board.lan(move)
                    if not castles:
                        man_letter = "" if man.piece_type == jatshegi.PAWN else man.symbol().upper()
                        self.assertEqual(lan[: len(man_letter) + 5], man_letter + jatshegi.square_name(move.from_square) + "-x"[captures] + jatshegi.square_name(move.to_square))
                    checks = board.gives_check(move)
                    board.push(move)
                    self.assertEqual((board.is_check(), board.is_attacked_by(not board.turn, board.king(board.turn)), board.peek()), (checks, checks, move))
                    board.pop()
                    kinds.add((*said, checks, move.promotion))
                board.push(chance.choice(moves))
            self.assertEqual(len(board.move_stack), board.ply)
            start = board.copy()
            line = board.move_stack
            start.line("start")
            self.assertEqual(start.move_stack, [])
            text = start.variation_san(line)
            self.assertEqual((start.ply, [node.san for node in jatshegi.pgn.read_game(f'[FEN "{start.fen()}"] {text} *').mainline()][: len(line)]), (0, [it for it in text.split() if it[0].isalpha()]))
            for move in line:
                start.push(move)
            self.assertEqual(start.fen(), board.fen())
        self.assertGreater(len(kinds), 15)

    def test_who_cannot_mate(self):
        chess = jatshegi
        for fen, white, black in (
            (chess.STARTING_FEN, False, False),
            ("4k3/8/8/8/8/8/4P3/4K3 b - - 0 1", False, True),
            ("4k3/8/8/8/8/8/4p3/4K3 w - - 0 1", True, False),
            ("4k3/8/8/8/8/8/8/2B1K3 w - - 0 1", True, True),
            ("4k3/4r3/8/8/8/8/4N3/4K3 w - - 0 1", False, False),
        ):
            board = chess.Board(fen)
            self.assertEqual((board.has_insufficient_material(chess.WHITE), board.has_insufficient_material(chess.BLACK)), (white, black), fen)

    def test_positions_told_apart(self):
        chance, texts = random.Random(9), {}
        for number in range(40):
            board = jatshegi.Board(FENS[number % 2])
            for _ in range(60):
                moves = board.legal_moves
                if not moves:
                    break
                takes = any(board.is_en_passant(move) for move in moves)
                men, side, rights, target = board.fen().split()[:4]
                self.assertEqual(board.epd(), " ".join((men, side, rights, target if takes else "-")))
                texts.setdefault(board.epd(), set()).add(board.fen())
                board.push(chance.choice(moves))
        self.assertTrue(any(len(fens) > 1 for fens in texts.values()))

    def test_men(self):
        board = jatshegi.Board()
        self.assertEqual((board.piece_type_at(jatshegi.B1), board.color_at(jatshegi.B8), board.piece_type_at(jatshegi.E4), board.color_at(jatshegi.E4)), (jatshegi.KNIGHT, False, None, None))
        self.assertEqual((board.pieces(jatshegi.ROOK, True), board.king(False)), ({jatshegi.A1, jatshegi.H1}, jatshegi.E8))
        self.assertEqual((jatshegi.H8, jatshegi.A1, jatshegi.E4), (63, 0, jatshegi.parse_square("e4")))
        for symbol in "KQRBNPkqrbnp":
            man = jatshegi.Piece.from_symbol(symbol)
            self.assertEqual((man, man.symbol(), man.color, jatshegi.Piece(man.piece_type, man.color), pickle.loads(pickle.dumps(man))), (symbol, symbol, symbol.isupper(), man, man))
            self.assertEqual((type(pickle.loads(pickle.dumps(man))), len(man.unicode_symbol()), repr(man)), (jatshegi.Piece, 1, f"Piece.from_symbol('{symbol}')"))
        for bad in ("", "x", "KK", "1"):
            self.assertRaises(ValueError, jatshegi.Piece.from_symbol, bad)
        for bad in (0, 7, None):
            self.assertRaises((TypeError, ValueError), jatshegi.Piece, bad, True)
        for call in (board.piece_at, board.piece_type_at, board.color_at, lambda square: board.is_attacked_by(True, square)):
            for square in (-1, 64):
                self.assertRaises(ValueError, call, square)
        illegal = jatshegi.Move.from_uci("e2e5")
        for name in ("is_capture", "is_en_passant", "is_castling", "is_kingside_castling", "is_queenside_castling", "gives_check", "is_zeroing", "lan"):
            self.assertRaises(jatshegi.IllegalMoveError, getattr(board, name), illegal)
        self.assertRaises(jatshegi.IllegalMoveError, board.variation_san, [jatshegi.Move.from_uci("e2e4"), illegal])
        self.assertRaises(IndexError, board.peek)
        self.assertEqual((board.ply, board.move_stack, board.variation_san([])), (0, [], ""))

    def test_men_put_on_and_taken_off(self):
        chess, board = jatshegi, jatshegi.Board()
        board.headers["White"] = "a"
        self.assertEqual((board.remove_piece_at(chess.A1), board.fen()), ("R", "rnbqkbnr/pppppppp/8/8/8/8/PPPPPPPP/1NBQKBNR w Kkq - 0 1"))
        board.push_san("e4")
        self.assertEqual((board.remove_piece_at(chess.A1), board.ply), (None, 1))
        board.set_piece_at(chess.E4, None)
        self.assertEqual((board.fen(), board.ply, board.headers["White"]), ("rnbqkbnr/pppppppp/8/8/8/8/PPPP1PPP/1NBQKBNR b Kkq - 0 1", 0, "a"))
        board.push_san("e5")
        before = board.fen(), board.pgn()
        for square, man in ((chess.E8, None), (chess.E4, "k"), (chess.A8, "P"), (chess.F6, "N"), (chess.E1, chess.Piece.from_symbol("Q"))):
            self.assertRaises(chess.InvalidFenError, board.set_piece_at, square, man)
            self.assertEqual((board.fen(), board.pgn()), before)
        for square, man in ((64, "P"), (-1, None), (chess.E4, "x"), (chess.E4, "")):
            self.assertRaises(ValueError, board.set_piece_at, square, man)
        self.assertRaises(ValueError, board.remove_piece_at, 64)
        self.assertEqual((board.fen(), board.pgn()), before)
        chance = random.Random(3)
        for number in range(200):
            other = chess.Board(FENS[number % len(FENS)])
            men = other.piece_map()
            for _ in range(chance.randrange(3)):
                men.pop(chance.choice([square for square, man in men.items() if man.upper() != "K"]))
            try:
                other.set_piece_map(men)
                self.assertEqual((other.piece_map(), other.fen().split()[1], len(other.legal_moves) >= 0), (men, FENS[number % len(FENS)].split()[1], True))
            except chess.InvalidFenError as fault:
                self.assertEqual((fault.fault, other.fen()), (10, FENS[number % len(FENS)]))


class Program(unittest.TestCase):
    """python -m jatshegi."""

    def ran(self, *words, given=b""):
        environment = {**os.environ, "PYTHONPATH": PACKAGE}
        return subprocess.run([sys.executable, "-m", "jatshegi", *words], input=given, stdout=subprocess.PIPE, stderr=subprocess.PIPE, env=environment, timeout=600)

    def test_a_board(self):
        lines = self.ran().stdout.decode().splitlines()
        self.assertEqual((lines[0], lines[9], lines[10][:18], len(lines)), ("r n b q k b n r", jatshegi.STARTING_FEN, "White to move: Na3", 11))
        self.assertEqual(self.ran("7k/6Q1/6K1/8/8/8/8/8 b - -").stdout.decode().splitlines()[-1], "1-0 checkmate")
        self.assertEqual(self.ran(*"7k/6Q1/6K1/8/8/8/8/8 b - - 3 4".split()).stdout.decode().splitlines()[-2], "7k/6Q1/6K1/8/8/8/8/8 b - - 3 4")
        refused = self.ran("8/8/8/8/8/8/8/8 w - - 0 1")
        self.assertEqual((refused.returncode, refused.stdout, refused.stderr.startswith(b"jatshegi: no FEN: a side has no king, or more than one")), (2, b"", True))

    def test_games(self):
        text = b'1.e4 e5 *\n\n[A "b"]\n\n1. e5 *\n\n[White "c"] 1. d4 {x} 1-0'
        for words, given in ((("pgn", "-"), text), (("pgn", "FILE"), b"")):
            with tempfile.NamedTemporaryFile() as file:
                file.write(text)
                file.flush()
                ran = self.ran(*(file.name if word == "FILE" else word for word in words), given=given)
            self.assertEqual((ran.returncode, ran.stdout.count(b"[Event "), ran.stdout.endswith(b"1. d4 {x} 1-0\n\n"), ran.stderr.count(b"no game: at byte 23")), (1, 2, True, 1))

    def test_other_words(self):
        for words in (("pgn",), ("pgn", "/nowhere"), ("a", "b"), ("pgn", "a", "b")):
            ran = self.ran(*words)
            self.assertEqual((ran.returncode, ran.stdout, bool(ran.stderr)), (2, b"", True))
        self.assertIn(b"python -m jatshegi pgn FILE", self.ran("--help").stdout)


class Sets(unittest.TestCase):
    def test_sets_beside_pythons(self):
        """Random operations on sets of squares, beside the same on Python's sets."""
        chance = random.Random(64)
        for _ in range(300):
            pairs = [(jatshegi.SquareSet(), set()) for _ in range(2)]
            for _ in range(40):
                (ours, model), (other, second) = chance.sample(pairs, 2)
                square, word = chance.randrange(64), chance.choice(("add", "discard", "|=", "&=", "^=", "-=", "copy", "invert", "pop"))
                if word in ("add", "discard"):
                    getattr(ours, word)(square)
                    getattr(model, word)(square)
                elif word == "pop":
                    if model:
                        model.discard(ours.pop())
                elif word == "copy":
                    pairs[0] = (ours.copy(), set(model))
                elif word == "invert":
                    pairs[0] = (~ours, set(range(64)) - model)
                else:
                    names = {"ours": ours, "other": other, "model": model, "second": second}
                    exec(f"ours {word} other\nmodel {word} second", {}, names)
                    pairs[0], pairs[1] = (names["ours"], names["model"]), (other, second)
                for square_set, plain in pairs:
                    self.assertEqual((list(square_set), len(square_set), int(square_set)), (sorted(plain), len(plain), sum(1 << it for it in plain)))
                    self.assertEqual(square_set, plain)
                    self.assertEqual(bool(square_set), bool(plain))
            (ours, model), (other, second) = pairs
            self.assertEqual((ours.issubset(other), ours.issuperset(other), ours.isdisjoint(other), ours <= other), (model <= second, model >= second, model.isdisjoint(second), model <= second))
            self.assertEqual((ours.union(other, [3]), ours.intersection(other), ours.difference(other)), (model | second | {3}, model & second, model - second))
            self.assertEqual(ours.mirror(), {it ^ 56 for it in model})
            self.assertEqual([at for at, is_in in enumerate(ours.tolist()) if is_in], sorted(model))

    def test_sets_beside_words(self):
        """The same operations with a word of 64 bits, a set, and a list of squares."""
        chance, Set = random.Random(65), jatshegi.SquareSet
        for _ in range(200):
            mask, word = chance.getrandbits(64), chance.getrandbits(64)
            ours = Set(mask)
            squares = [square for square in range(64) if word >> square & 1]
            for other in (word, Set(word), set(squares), frozenset(squares)):
                self.assertEqual([int(it) for it in (ours | other, ours & other, ours ^ other, ours - other)], [mask | word, mask & word, mask ^ word, mask & ~word])
                self.assertEqual([int(it) for it in (other | ours, other & ours, other ^ ours, other - ours)], [mask | word, mask & word, mask ^ word, word & ~mask])
                found = [ours.union(other), ours.intersection(other), ours.symmetric_difference(other), ours.difference(other)]
                self.assertEqual([it.mask for it in found], [mask | word, mask & word, mask ^ word, mask & ~word])
                self.assertEqual((ours == other, other == ours, Set(word) == other, other == Set(word)), (mask == word, mask == word, True, True))
                self.assertEqual((ours.isdisjoint(other), ours.issubset(other), (ours | other).issuperset(other)), (not mask & word, not mask & ~word, True))
                changed = [ours.copy() for _ in range(8)]
                kept = list(changed)
                changed[0] |= other
                changed[1] &= other
                changed[2] ^= other
                changed[3] -= other
                for it, name in zip(changed[4:], ("update", "intersection_update", "symmetric_difference_update", "difference_update")):
                    getattr(it, name)(other)
                self.assertEqual([int(it) for it in changed], [mask | word, mask & word, mask ^ word, mask & ~word] * 2)
                self.assertTrue(all(it is other for it, other in zip(changed, kept)))
            shift = chance.randrange(64)
            self.assertEqual((int(ours << shift), int(ours >> shift), ours == -1, ours != 1 << 64), (mask << shift & (1 << 64) - 1, mask >> shift, False, True))
        for other in (-1, 1 << 64, [64]):
            for call in (ours.__or__, ours.__and__, ours.__xor__, ours.__sub__, ours.update):
                self.assertRaises(ValueError, call, other)
        self.assertRaises(TypeError, lambda: ours | None)

    def test_what_is_no_square(self):
        squares = jatshegi.SquareSet([0, 63])
        for wrong in (-1, 64):
            self.assertNotIn(wrong, squares)
            self.assertRaises(ValueError, squares.add, wrong)
            self.assertRaises(ValueError, squares.discard, wrong)
            self.assertRaises(ValueError, jatshegi.SquareSet, [wrong])
        self.assertRaises(ValueError, jatshegi.SquareSet, -1)
        self.assertRaises(ValueError, jatshegi.SquareSet, 1 << 64)
        self.assertRaises(TypeError, hash, squares)
        self.assertEqual((repr(squares), int(squares), jatshegi.SquareSet(5)), ("SquareSet(0x8000_0000_0000_0001)", 1 << 63 | 1, {0, 2}))
        self.assertNotIn("e4", squares)


class Pictures(unittest.TestCase):
    def test_the_men_are_those_of_the_page(self):
        with open(f"{runs.TOP}/web/jatshegi/src/men.js", encoding="utf-8") as file:
            pictures = file.read()
        shapes = importlib.import_module("jatshegi.svg")._SHAPES
        self.assertEqual(sorted(shapes), sorted("pnbrqk"))
        for letter, shape in shapes.items():
            self.assertIn(f"  {letter}: '{shape}',\n", pictures)

    def test_what_is_drawn(self):
        svg, chess = jatshegi.svg, jatshegi
        parsed = lambda text: xml.dom.minidom.parseString(text)
        count = lambda text, name: len(parsed(text).getElementsByTagName(name))
        plain = svg.board()
        self.assertEqual((count(plain, "rect"), count(plain, "text"), count(plain, "path"), "width=" in plain.split(">")[0]), (65, 32, 0, False))
        self.assertEqual(count(svg.board(coordinates=False), "text"), 0)
        self.assertEqual(parsed(svg.board(size=77)).documentElement.getAttribute("width"), "77")
        start = svg.board(chess.Board())
        self.assertEqual(count(start, "g"), 1 + 2 * 32)
        full = svg.board(chess.Board(), lastmove=chess.Move.from_uci("e2e4"), check=chess.E8, arrows=[(0, 9), svg.Arrow(3, 3, "red"), svg.Arrow(5, 6, "#123456")], fill={20: "#fff"}, squares=[1, 2])
        self.assertEqual((count(full, "line"), count(full, "polygon"), count(full, "radialGradient"), full.count("#123456")), (2, 2, 1, 2))
        self.assertEqual((full.count("#cdd16a") + full.count("#aaa23b"), full.count("#882020"), full.count("l24 24")), (2, 1, 2))
        # From the other side a1 is where h8 was.
        at = lambda text, name: next((it.getAttribute("x"), it.getAttribute("y")) for it in parsed(text).getElementsByTagName("rect") if it.firstChild and it.firstChild.firstChild.data == name)
        self.assertEqual(at(svg.board(orientation=chess.BLACK), "a1"), at(svg.board(), "h8"))
        self.assertEqual(count(svg.piece(chess.Piece.from_symbol("q")), "circle"), 5)
        # Men without kings, as no board has them.
        knight = svg.board({chess.E4: chess.Piece.from_symbol("N"), chess.A1: "p"})
        self.assertEqual((knight.count("translate"), svg.board({}), svg.board(chess.Board().piece_map())), (2, plain, start))
        self.assertRaises(ValueError, svg.board, {64: chess.Piece.from_symbol("N")})
        self.assertRaises(ValueError, svg.board, {0: "x"})

    def test_what_cannot_be_drawn(self):
        svg = jatshegi.svg
        for words in ({"size": 0}, {"size": -4}, {"check": 64}, {"squares": [64]}, {"arrows": [(0, 64)]}, {"fill": {-1: "red"}}, {"colors": {"square": "red"}}):
            self.assertRaises(ValueError, svg.board, **words)
        # What a caller names is a value, and no part of the picture's text.
        hostile = svg.board(fill={0: '"/><script>x</script>'}, colors={"margin": "'\"<&"}, arrows=[svg.Arrow(0, 1, '"><b/>')])
        self.assertEqual(len(xml.dom.minidom.parseString(hostile).getElementsByTagName("script")), 0)


def entry(key, move, weight=1, learn=0):
    """The bytes of an entry: a move is its squares and what a pawn becomes."""
    origin, target, promotion = move
    return struct.pack(">QHHI", key, promotion << 12 | origin << 6 | target, weight, learn)


class Books(unittest.TestCase):
    """Opening books of Polyglot's."""

    def opened(self, data):
        """A reader of a book of these bytes, which is closed as the test ends."""
        with tempfile.NamedTemporaryFile(suffix=".bin") as file:
            file.write(data)
            file.flush()
            reader = jatshegi.polyglot.open_reader(file.name)
        self.addCleanup(reader.close)
        return reader

    def test_entries(self):
        chess, board = jatshegi, jatshegi.Board()
        key = board.polyglot_key()
        self.assertEqual(key, chess.polyglot.zobrist_hash(board))
        book = entry(1, (12, 28, 0)) + entry(key, (12, 28, 0), 3, 9) + entry(key, (12, 36, 0), 9) + entry(key, (6, 21, 0), 5) + entry(key, (11, 27, 0), 0) + entry(2**64 - 1, (12, 28, 0))
        reader = self.opened(book)
        self.assertEqual(len(reader), 6)
        found = list(reader.find_all(board))
        self.assertEqual([(it.key, it.move.uci(), it.weight, it.learn) for it in found], [(key, "e2e4", 3, 9), (key, "g1f3", 5, 0)])
        self.assertEqual([it.move.uci() for it in reader.find_all(board, minimum_weight=0)], ["e2e4", "g1f3", "d2d4"])
        self.assertEqual((reader.find(board).move.uci(), reader.get(board).weight), ("g1f3", 5))
        drawn = [reader.weighted_choice(board, random=random.Random(seed)).move.uci() for seed in range(200)]
        self.assertEqual(set(drawn), {"e2e4", "g1f3"})
        self.assertTrue(100 < drawn.count("g1f3") < 150)
        self.assertEqual({reader.choice(board).move.uci() for _ in range(100)}, {"e2e4", "g1f3"})
        board.push_san("a4")
        self.assertEqual((list(reader.find_all(board)), reader.get(board)), ([], None))
        for call in (reader.find, reader.choice, reader.weighted_choice):
            self.assertRaises(IndexError, call, board)
        reader.close()
        self.assertEqual((len(reader), list(reader.find_all(chess.Board()))), (0, []))
        reader.close()

    def test_castling_and_promotion(self):
        board = jatshegi.Board("r3k2r/P7/8/8/8/8/8/R3K2R w KQkq - 0 1")
        key = board.polyglot_key()
        reader = self.opened(b"".join(entry(key, move) for move in ((4, 7, 0), (4, 0, 0), (4, 6, 0), (7, 63, 0), (48, 57, 4), (48, 56, 1))))
        self.assertEqual([it.move.uci() for it in reader.find_all(board)], ["e1g1", "e1c1", "e1g1", "h1h8"])
        board = jatshegi.Board("1r2k2r/P7/8/8/8/8/8/R3K2R w KQk - 0 1")
        reader = self.opened(b"".join(entry(board.polyglot_key(), move) for move in ((48, 57, 4), (48, 56, 1), (48, 56, 0), (48, 56, 6))))
        self.assertEqual([it.move.uci() for it in reader.find_all(board)], ["a7b8q", "a7a8n"])

    def test_files_that_are_no_books(self):
        self.assertRaises(OSError, jatshegi.polyglot.open_reader, "/nowhere/book.bin")
        for data in (b"", b"x", b"x" * 15):
            with self.opened(data) as reader:
                self.assertEqual((len(reader), list(reader.find_all(jatshegi.Board()))), (0, []))
        random.seed(63)
        for _ in range(200):
            with self.opened(random.randbytes(random.randrange(400))) as reader:
                self.assertEqual(list(reader.find_all(jatshegi.Board())), [])

    @unittest.skipUnless(shutil.which("polyglot", path=PATH), "Polyglot is not installed: no book of its own is read (apt-get install polyglot)")
    def test_a_book_that_polyglot_made(self):
        """Polyglot makes a book of random games: each of their positions is in it, with the moves that were played there and no others."""
        chess, chance, played, texts = jatshegi, random.Random(781), [], []
        for _ in range(60):
            board = chess.Board()
            for _ in range(80):
                moves = board.legal_moves
                if not moves or board.outcome():
                    break
                # (pawns and castling more often, for targets and rights)
                special = [move for move in moves if board.is_castling(move) or board.piece_type_at(move.from_square) == chess.PAWN]
                move = chance.choice(special if special and chance.random() < 0.5 else moves)
                played.append((board.copy(), move))
                board.push(move)
            board.marker = "1/2-1/2"
            texts.append(board.pgn())
        with tempfile.TemporaryDirectory() as folder:
            with open(f"{folder}/games.pgn", "w", encoding="utf-8") as file:
                file.write("\n".join(texts))
            words = ["polyglot", "make-book", "-pgn", "games.pgn", "-bin", "book.bin", "-min-game", "1", "-uniform"]
            subprocess.run(words, cwd=folder, env={**os.environ, "PATH": PATH}, stdout=subprocess.DEVNULL, check=True, timeout=600)
            moves = {}
            for board, move in played:
                moves.setdefault(board.polyglot_key(), (board, set()))[1].add(move)
            with chess.polyglot.open_reader(f"{folder}/book.bin") as reader:
                self.assertEqual(len(reader), sum(len(made) for _, made in moves.values()))
                for board, made in moves.values():
                    self.assertEqual({it.move for it in reader.find_all(board)}, made, board.fen())
        self.assertGreater(len(moves), 2000)


class Differences(unittest.TestCase):
    """Each row of PYTHON.md's table of what differs from python-chess, that no other test here has."""

    def row(self, beginning):
        with open(f"{runs.TOP}/docs/PYTHON.md", encoding="utf-8") as file:
            section = file.read().split("## From python-chess")[1].split("\n## ")[0]
        self.assertIn(f"\n| {beginning}", section)

    def test_positions(self):
        chess, board = jatshegi, jatshegi.Board()
        self.row("`Board(None)`")
        with self.assertRaisesRegex(TypeError, "both kings"):
            chess.Board(None)
        self.row("`fen()`")
        board.push_san("e4")
        self.assertEqual((board.fen().split()[3], board.epd().split()[3], board.ep_square), ("e3", "-", chess.E3))
        self.row("`legal_moves`")
        moves = board.legal_moves
        self.assertEqual((isinstance(moves, list), len(moves), moves.count(), moves.count(moves[0]), moves.count(chess.Move(0, 1)), moves == list(moves)), (True, 20, 20, 1, 0, True))
        self.row("`ply`, `status`")
        self.assertEqual((board.ply, board.status, board.is_valid()), (1, chess.Status.PLAY, True))
        self.row("`set_piece_at(square, piece)`")
        self.assertRaises(ValueError, board.set_piece_at, chess.E1, None)
        board.set_piece_at(chess.A2, None)
        self.assertEqual((board.ply, board.turn), (0, chess.BLACK))

    def test_moves(self):
        chess, board = jatshegi, jatshegi.Board()
        self.row("`push(move)`")
        self.assertRaises(chess.IllegalMoveError, board.push, chess.Move(12, 36))
        for text in ("0000", "--"):
            self.assertRaises(ValueError, board.push_uci, text)
        self.row("`Move`")
        self.assertTrue(chess.Move(0, 0) and chess.Move(12, 28) == (12, 28, None) and hash(chess.Move(12, 28)) == hash((12, 28, None)))
        moves = [chess.Move(12, 28), chess.Move(48, 56), chess.Move(48, 56, 2), chess.Move(48, 56, 5), chess.Move(48, 57)]
        self.assertEqual(sorted(moves[::-1]), moves)
        self.assertTrue(moves[1] <= moves[2] < moves[3] and moves[4] >= moves[3] > moves[0])
        self.assertRaises(TypeError, lambda: moves[0] < "e2e5")
        self.row("`is_capture(move)`")
        self.assertRaises(chess.IllegalMoveError, board.is_capture, chess.Move(12, 36))
        self.row("`parse_san(text)`")
        self.assertRaises(ValueError, board.parse_san, "Ng1-f3")
        self.assertEqual(board.lan(chess.Move.from_uci("g1f3")), "Ng1-f3")

    def test_attributes(self):
        chess, board = jatshegi, jatshegi.Board()
        self.row("`castling_rights`, `chess960`")
        for name, value in (("castling_rights", 0), ("chess960", True), ("turn", chess.BLACK), ("tern", 1), ("_fields", 1), ("push", None), ("move_stack", [])):
            self.assertRaises(AttributeError, setattr, board, name, value)
        for fen, squares in (("r3k2r/8/8/8/8/8/8/R3K2R w KQkq - 0 1", {0, 7, 56, 63}), ("r3k2r/8/8/8/8/8/8/R3K2R w Qk - 0 1", {0, 63}), ("4k3/8/8/8/8/8/8/R3K2R w - - 0 1", set())):
            self.assertEqual((chess.SquareSet(chess.Board(fen).castling_rights), chess.Board(fen).chess960), (squares, False))

        class Mine(chess.Board):
            pass

        class Bare(chess.Board):
            __slots__ = ()

        mine = Mine()
        mine.tern = [1]
        for other in (mine.copy(), copy.copy(mine), copy.deepcopy(mine), Bare().copy(), pickle.loads(pickle.dumps(board)), copy.deepcopy(board)):
            self.assertEqual((getattr(other, "tern", [1]), weakref.ref(other)() is other, other.fen()), ([1], True, chess.STARTING_FEN))
            self.assertRaises(AttributeError, setattr, other, "turn", chess.BLACK)
        self.assertFalse(hasattr(board, "__dict__"))

    def test_what_help_shows(self):
        shown = pydoc.render_doc(jatshegi.Board, renderer=pydoc.plaintext)
        self.assertNotIn("_position", shown)
        self.assertIn("encoding", str(inspect.signature(jatshegi.Board)))
        self.assertEqual(list(inspect.signature(jatshegi.Board).parameters), ["fen", "encoding"])

    def test_words_have_the_names_of_python_chess(self):
        chess, board = jatshegi, jatshegi.Board()
        self.assertEqual(len(board.attackers(color=chess.WHITE, square=chess.F3)), 3)
        self.assertEqual((board.has_kingside_castling_rights(color=True), board.has_queenside_castling_rights(color=False), board.attack_counts(color=True)[18]), (True, True, 3))
        # Alike by ctypes and in C: those that are called most often take no keywords.
        for call, name in ((board.push, "move"), (board.san, "move"), (board.parse_san, "san")):
            self.assertRaises(TypeError, call, **{name: chess.Move(12, 28)})

    def test_ends(self):
        chess = jatshegi
        self.row("`outcome().termination`, `status`")
        names = ("CHECKMATE", "STALEMATE", "INSUFFICIENT_MATERIAL", "SEVENTYFIVE_MOVES", "FIVEFOLD_REPETITION", "FIFTY_MOVES", "THREEFOLD_REPETITION")
        self.assertEqual([(it.name, it.value, bool(it)) for it in chess.Termination], [(name, value, True) for value, name in enumerate(names, 1)])
        end = chess.Board("7k/8/8/8/8/8/8/K7 b - -")
        self.assertEqual((end.status, end.outcome().termination), (chess.Status.DEAD_POSITION, chess.Termination.INSUFFICIENT_MATERIAL))
        self.assertEqual(pickle.loads(pickle.dumps(end.outcome())), end.outcome())

    def test_main_lines(self):
        self.row("`mainline()`, `mainline_moves()`")
        game = jatshegi.pgn.read_game("1. e4 e5 $1 (1... c5) 2. Nf3 {so} *")
        for line in (game.mainline_moves(), game.next().mainline_moves(), game.mainline(), game.next().mainline()):
            found = list(line)
            self.assertEqual((list(line), list(reversed(line)), len(line), bool(line)), (found, found[::-1], len(found), True))
        self.assertEqual((str(game.mainline_moves()), str(game.next().mainline())), ("1. e4 e5 $1 2. Nf3 {so}", "1... e5 $1 2. Nf3 {so}"))
        ended = game.end().mainline_moves()
        self.assertEqual((bool(jatshegi.pgn.Game().mainline()), bool(ended), list(ended), str(ended)), (False, False, [], ""))
        line = game.mainline()
        game.end().add_variation("Nc6")
        self.assertEqual((len(line), [node.san for node in line]), (4, ["e4", "e5", "Nf3", "Nc6"]))

    def test_equality(self):
        board, other = jatshegi.Board(), jatshegi.Board()
        self.row("`board == board`")
        for san in ("Nf3", "Nf6", "Ng1", "Ng8"):
            other.push_san(san)
        self.assertTrue(board != other and board == jatshegi.Board() and board != jatshegi.STARTING_FEN)
        for it in (board, other):
            it.set_fen("4k3/8/8/8/4P3/8/8/4K3 b - - 0 1")
        other.set_fen("4k3/8/8/8/4P3/8/8/4K3 b - e3 0 1")
        self.assertEqual(board, other)
        self.assertRaises(TypeError, hash, board)

    def test_names_of_python_chess_in_short(self):
        chess = jatshegi
        for fen in (chess.STARTING_FEN, *FENS):
            board = chess.Board(fen)
            self.assertEqual(board.mirror().mirror(), board)
            self.assertEqual((board.mirror().turn, len(board.mirror().legal_moves), board.mirror().evaluate()), (not board.turn, len(board.legal_moves), -board.evaluate()))
            self.assertEqual((board.board_fen(), board.has_castling_rights(True)), (fen.split()[0], any(it in fen.split()[2] for it in "KQ")))
            for colour in (chess.WHITE, chess.BLACK):
                found = [0] * 64
                for square, man in board.piece_map().items():
                    for to in board.attacks(square) if man.color == colour else ():
                        found[to] += 1
                self.assertEqual(found, board.attack_counts(colour))
            for move in board.legal_moves:
                self.assertEqual((board.parse_uci(board.uci(move)), board.find_move(*move)), (move, move))
        self.assertEqual(len(chess.Board().attacks(chess.E4)), 0)
        self.assertRaises(chess.IllegalMoveError, chess.Board().parse_uci, "e2e5")
        self.assertRaises(chess.IllegalMoveError, chess.Board().find_move, chess.E2, chess.E5)


class Examples(unittest.TestCase):
    """The programs of python/examples, as a user runs them."""

    GAMES = (
        '[White "A"]\n[Black "B"]\n\n1. e4 e5 2. Nf3 Nc6 1-0\n\n[White "B"]\n[Black "A"]\n\n1. Nf3 e5 2. e4 Nc6 1/2-1/2\n\n'
        '[White "A"]\n[Black "B"]\n\n1. f3 e5 2. g4 Qh4# 1-0\n\n1. e5 *\n'
    )

    def run_example(self, name, *words, given=""):
        code, shown, said = self.ran_with(name, *words, given=given)
        self.assertEqual(code, 0, said)
        return shown, said

    def ran_with(self, name, *words, given=""):
        with tempfile.TemporaryDirectory() as folder:
            with open(f"{folder}/games.pgn", "w", encoding="utf-8") as file:
                file.write(self.GAMES)
            words = [f"{folder}/games.pgn" if word == "FILE" else word for word in words]
            ran = subprocess.run([sys.executable, f"{PACKAGE}/examples/{name}", *words], env={**os.environ, "PYTHONPATH": PACKAGE}, input=given, capture_output=True, text=True)
        return ran.returncode, ran.stdout, ran.stderr

    def test_an_opening_tree(self):
        shown, said = self.run_example("opening_tree.py", "FILE", "4")
        self.assertEqual(shown.splitlines()[0].split(), ["e4", "1", "100.0", "%"])
        # Both ways meet after 2. Nf3 and 2. e4.
        self.assertIn("      Nc6          2   75.0 %", shown)
        self.assertIn("no game: at byte", said)

    def test_a_tournament(self):
        shown, _ = self.run_example("tournament.py", "FILE")
        wanted = ["game 3: 1-0, but the board says CHECKMATE", "game 4: can't be read as it is: Illegal at byte 157"]
        self.assertEqual(shown.splitlines(), [*wanted, f"{'A':30}{2.5:6g} / 3", f"{'B':30}{0.5:6g} / 3", f"{'?':30}{0:6g} / 2"])

    def test_a_tournament_is_numbered_as_arbiter_numbers_it(self):
        knights, head = "Nf3 Nf6 Ng1 Ng8 ", '[White "A"]\n[Black "B"]\n\n'
        king = head.replace("\n\n", '\n[FEN "4k3/8/8/8/8/8/8/R3K3 w - - 0 1"]\n\n')
        texts = ["1. e4 e5 1-0", "1. e5 *", "1. f3 e5 2. g4 Qh4# 3. e4 1-0", "1. f3 e5 2. g4 Qh4# *", "(", knights * 4 + "e4 1/2-1/2", "1. e4 {", "1. d4 0-1", knights * 2 + "1-0"]
        data = "\n\n".join(head + text for text in texts) + "\n\n" + king + "1. Ra2 Kd7 0-1\n\n" + head + "rubbish\n\n" + head + "1. f3 e5 2. g4 Qh4# 1/2-1/2\n"
        ran = subprocess.run([runs.program("arbiter"), "--format", "jsonl"], input=data, capture_output=True, text=True)
        rows = [json.loads(line) for line in ran.stdout.splitlines()]
        found = {row["number"] for row in rows if row["fault"] or row["over_ply"] or not row["agrees"] or row["left_open"] or row["bare_king_wins"] or row["threefold_ply"]}
        with tempfile.NamedTemporaryFile("w", suffix=".pgn") as file:
            file.write(data)
            file.flush()
            shown, _ = self.run_example("tournament.py", file.name)
        games = [line for line in shown.splitlines() if line.startswith("game ")]
        self.assertEqual(({int(line.split()[1][:-1]) for line in games}, len(found) > 7, len(rows)), (found, True, 12))
        read = [row for row in rows if row["result"]]
        self.assertEqual(sum(int(line.split("/")[1]) for line in shown.splitlines() if line not in games), 2 * len(read))

    EVENING = [
        ("Wrong winner", '[Round "1"][WhiteElo "1800"][Event "Club evening"]', "1. f3 e5 2. g4 Qh4# 1-0"),
        ("Frank", '[Round "3"]', "1. e3 a5 2. Qh5 Ra6 3. Qxa5 h5 4. h4 Rah6 5. Qxc7 f6 6. Qxd7+ Kf7 7. Qxb7 Qd3 8. Qxb8 Qh7 9. Qxc8 Kg6 10. Qe6 1-0"),
        ("Fifth time", "", "Nf3 Nf6 Ng1 Ng8 " * 4 + "e4 1-0"),
        ("75 moves", '[FEN "4k3/8/8/8/8/8/8/R3K3 b - - 149 80"]', "Kd7 Ra3 1/2-1/2"),
        ("Missed claim", "", "Nf3 Nf6 Ng1 Ng8 " * 2 + "e4 1-0"),
        ("Good claim", "", "Nf3 Nf6 Ng1 Ng8 " * 2 + "1/2-1/2"),
        ("Tag", '[Result "0-1"]', "1. e4 e5 1-0"),
        ("Illegal move", "", "1. e4 e5 2. Ke3 d5 *"),
        ("Dead position", '[FEN "4k3/8/8/8/8/8/4p3/4K3 w - - 0 1"]', "1. Kxe2 Kd7 1-0"),
        ("After mate", "", "1. f3 e5 2. g4 Qh4# 3. e3 0-1"),
        ("Open", "", "1. f3 e5 2. g4 Qh4# *"),
        ("King alone", '[FEN "4k3/8/8/8/8/8/8/R3K3 w - - 98 80"]', "Ra2 Kd7 0-1"),
        ("Other game", '[Variant "Atomic"]', "1. e4 1-0"),
        ("Castling", '[FEN "4k3/8/8/8/8/8/8/R3K3 w KQ - 0 1"]', "Kf1 1-0"),
        ("No board", '[FEN "8/8/8/8/8/8/8/8 w - - 0 1"]', "Kf1 1-0"),
        ("No marker", "", "1. e4"),
        ("Good", "", "1. f3 e5 2. g4 Qh4# 0-1"),
        ("<script>alert(1)</script>&amp;\x1b[2J\u202e", "", "1. e4 *"),
    ]

    def evening(self, *words):
        """The report of these games."""
        games = "".join(f'[White "{white}"]\n[Black "Brown"]\n{tags}\n\n{moves}\n\n' for white, tags, moves in self.EVENING)
        rows = subprocess.run([f"{runs.TOP}/crates/arbiter/out/arbiter", "--format", "jsonl"], input=games.encode(), capture_output=True).stdout.decode()
        self.assertEqual(rows.count("\n"), len(self.EVENING))
        return games, rows, self.run_example("arbiter_report.py", *words, given=rows)[0]

    def test_a_report_for_an_arbiter(self):
        games, rows, shown = self.evening("--text")
        told = {}
        for line in shown.splitlines():
            if line.startswith(("Game ", "All games")):
                told[line] = found = []
            elif line.startswith("  * "):
                found.append(line[4:])
        unread = "of the file on: no legal move, or more than one, has this text (Move); the diagram shows the position after Black's move"
        self.assertEqual(told, {
            "Game 1, round 1, Wrong winner (1800) - Brown": ["Checkmate after Black's move 2; the result 1-0 should be 0-1 (5.1.1)."],
            "Game 2, round 3, Frank - Brown": ["Stalemate after White's move 10; the result 1-0 should be 1/2-1/2 (5.2.1)."],
            "Game 3, Fifth time - Brown": [
                "The same position for the fifth time after Black's move 8: the game was over there, but moves follow; the result 1-0 should be 1/2-1/2 (9.6.1).",
                "A draw could first be claimed after Black's move 4 by threefold repetition (9.2.2).",
            ],
            "Game 4, 75 moves - Brown": [
                "75 moves in a row without a capture or a pawn's move after Black's move 80: the game was over there, but moves follow (9.6.2).",
                "A draw could first be claimed in the starting position by fifty moves without a capture or a pawn's move (9.3.2).",
            ],
            "Game 5, Missed claim - Brown": ["A draw could first be claimed after Black's move 4 by threefold repetition (9.2.2)."],
            "Game 7, Tag - Brown": ["The moves end with 1-0, but the tag Result says 0-1 (PGN 8.1.1.7)."],
            "Game 8, Illegal move - Brown": [f"The text can't be read from byte {games.index('Ke3')} {unread} 1."],
            "Game 9, Dead position - Brown": [
                "A dead position after White's move 1: the game was over there, but moves follow; the result 1-0 should be 1/2-1/2 (5.2.2).",
                "The result 1-0 is a win for a side that has only its king; if time ran out, it should be 1/2-1/2 (6.9).",
            ],
            "Game 10, After mate - Brown": [f"The text can't be read from byte {games.index('e3 0-1')} {unread} 2.", "The moves that can be read end with checkmate after Black's move 2 (5.1.1)."],
            "Game 11, Open - Brown": ["Checkmate after Black's move 2; the game has no result, and it should be 0-1 (5.1.1)."],
            "Game 12, King alone - Brown": [
                "The result 0-1 is a win for a side that has only its king; if time ran out, it should be 1/2-1/2 (6.9).",
                "A draw could first be claimed after Black's move 80 by fifty moves without a capture or a pawn's move (9.3.2).",
            ],
            "Game 13, Other game - Brown": ["The tag Variant names another game (Atomic); this report is about the rules of chess."],
            "Game 14, Castling - Brown": ["The tag FEN has castling rights or an en passant square that its position can't have; they were left out."],
            "Game 15, No board - Brown": [f"The text can't be read from byte {games.rindex('[FEN')} of the file on: the tag FEN gives no position (Fen)."],
            "Game 16, No marker - Brown": ["No result follows the moves; the text may have been cut off (PGN 8.2.6)."],
            "All games": [],
        })
        self.assertIn("\n  Club evening\n  * Checkmate", shown)
        self.assertIn("\n      r n b . k b n r\n", shown)
        counts = {name: (int(number), bar) for name, number, bar in re.findall(r"(?m)^  (\S.*?) +(\d+)  (#*)$", shown.split("\nAll games\n")[1])}
        self.assertEqual((counts["games"], counts["the result contradicts the board"], counts["can't be read"]), ((18, "#" * 30), (3, "#####"), (3, "#####")))
        self.assertEqual([counts[f"result {it}"][0] for it in ("1-0", "0-1", "1/2-1/2", "*", "not known")], [8, 3, 2, 4, 1])

    def test_the_arbiters_page_is_one_file_that_escapes_each_value(self):
        _, rows, shown = self.evening()
        self.assertEqual((shown.count("<article>"), shown.count("<svg"), shown.count("url(#check)")), (15, 14, 3))
        bad = json.dumps({**json.loads(rows.splitlines()[-1]), "event": "</style><b>", "round": '"', "site": "Z\u202e\x07", "variant": "<i>", "other_variant": True, "result_tag": "<u>"})
        shown, _ = self.run_example("arbiter_report.py", given=f"{bad}\n")
        cut = "\N{REPLACEMENT CHARACTER}"
        for part in (f"round &quot;, &lt;script&gt;alert(1)&lt;/script&gt;&amp;amp;{cut}[2J{cut} - Brown</h2>", f">&lt;/style&gt;&lt;b&gt;, Z{cut}{cut}<", "(&lt;i&gt;)"):
            with self.subTest(part=part):
                self.assertEqual(shown.count(part), 1)
        for part in ("<script", "<b>", "<i>", "<u>", "http:", "https:", "url(h", "src=", "\x1b", "\x07", "\u202e"):
            with self.subTest(part=part):
                self.assertEqual(shown.replace('xmlns="http://www.w3.org/2000/svg"', "").count(part), 0)
        shown, _ = self.run_example("arbiter_report.py")
        self.assertEqual((shown.count("<article>"), shown.count("<td>0</td>")), (0, 1))

    def test_puzzles(self):
        given = "7k/8/5K2/8/8/8/8/6Q1 w - - 0 1\t1\n7k/8/5K2/8/8/8/8/6Q1 w - - 0 1\t2\n7k/8/8/8/8/8/8/KR6 w - - 0 1\t2\n8/8/8/8/8/5K2/7R/5k2 w - - 0 1\t2\n"
        shown, _ = self.run_example("puzzles.py", given=given)
        self.assertEqual(shown.splitlines()[:3], ["key Qg7#", "it is mate in fewer moves", "there is no such mate"])
        self.assertRegex(shown.splitlines()[3], "^(key|it is|there is)")

    def test_games_of_the_engine(self):
        shown, _ = self.run_example("self_play.py", "1")
        game = jatshegi.pgn.read_game(shown)
        self.assertEqual((game.headers["White"], game.headers["Event"], game.report().agrees), ("depth 2", "Self-play", True))
        self.assertGreater(game.end().board().ply, 6)

    def test_an_annotated_game(self):
        with tempfile.NamedTemporaryFile("w", suffix=".pgn") as file:
            file.write('[White "x"]\n\n1. f3 e5 2. g4 {so} Qh4# 0-1\n')
            file.flush()
            shown, _ = self.run_example("annotate.py", file.name, "3")
        game = jatshegi.pgn.read_game(shown)
        self.assertEqual(([node.san for node in game.mainline()], game.headers["White"], game.result), (["f3", "e5", "g4", "Qh4#"], "x", "0-1"))
        third = list(game.mainline())[2]
        self.assertEqual((third.nags, third.comment, len(third.parent.children)), ((4,), "so", 2))
        self.assertIn("better by", third.parent.children[1].comment)

    def test_a_game_made_and_annotated(self):
        given = "e4 c5 Nf3 ! the open Sicilian\ne4 e5\n\ne4\nd4 d5 c4 dxc4 Qa4+ ?! a } b\n"
        *_, said = self.ran_with("repertoire.py", "Anna", "1", given=given)
        self.assertIn("the comment has a right brace", said)
        shown, _ = self.run_example("repertoire.py", "Anna", "1", given=given.replace("}", "{"))
        game = jatshegi.pgn.read_game(shown)
        self.assertEqual((game.headers["White"], sorted(node.san for node in game.variations), str(game)), ("Anna", ["d4", "e4"], shown))
        queen, sicilian = game["d4"].end(), game["e4"]["c5"]["Nf3"]
        self.assertEqual((queen.parent.san, queen.parent.nags, queen.parent.comment, queen.comment[:8]), ("Qa4+", (6,), "a { b", "depth 1:"))
        self.assertEqual((sicilian.nags, sicilian.comment, len(sicilian.variations), len(game["e4"].variations)), ((1,), "the open Sicilian", 1, 2))

    def test_a_position_edited(self):
        given = "put Nf3\noff g1\nmove e5\nmove e4\nback\nfen\nput Kz9\nput Ke4\nfrom rubbish\nnonsense\n\nfrom 8/8/8/8/8/4k3/4p3/4K3 w - - 0 1\n"
        shown, _ = self.run_example("fen_editor.py", "rnbqkbnr/ppp1pppp/8/3p4/8/8/PPPPPPPP/RNBQKBNR w KQkq - 0 1".replace("PPPPPPPP", "PPPPPPP1"), given=given)
        parts = shown.strip().split("\n\n")
        self.assertEqual(len(parts), 11)
        self.assertEqual([part.startswith("refused: ") for part in parts], [False, False, True, False, False, False, True, True, True, True, False])
        self.assertEqual(parts[5], "rnbqkbnr/ppp1pppp/8/3p4/8/5N2/PPPPPPP1/RNBQKB1R w KQkq - 0 1")
        self.assertTrue(parts[-1].endswith("8/8/8/8/8/4k3/4p3/4K3 w - - 0 1\n0 legal moves"))

    def test_a_view_for_a_web_service(self):
        of = importlib.util.spec_from_file_location("web_view", f"{PACKAGE}/examples/web_view.py")
        web_view = importlib.util.module_from_spec(of)
        of.loader.exec_module(web_view)

        def got(query):
            heads = []
            body = b"".join(web_view.application({"QUERY_STRING": query}, lambda *head: heads.append(head)))
            return heads[0][0][:3], heads[0][1][0][1].split(";")[0], body.decode()

        status, kind, text = got("moves=f3,e5,g4")
        view = json.loads(text)
        self.assertEqual((status, kind, view["turn"], view["best"], view["legal"]["d8h4"], view["outcome"]), ("200", "application/json", "black", "Qh4#", "Qh4#", None))
        self.assertEqual(json.loads(got("moves=f3,e5,g4,Qh4")[2])["outcome"], {"result": "0-1", "by": "checkmate"})
        self.assertEqual((got("svg&moves=e4")[:2], got("moves=e5")[0], got("fen=x")[0], "error" in json.loads(got("fen=x")[2])), (("200", "image/svg+xml"), "400", "400", True))

    def test_a_notebook(self):
        """Its cells in turn; what a cell ends with is what a notebook shows."""
        with open(f"{PACKAGE}/examples/notebook.ipynb", encoding="utf-8") as file:
            cells = ["".join(cell["source"]) for cell in json.load(file)["cells"] if cell["cell_type"] == "code"]
        words, shown = {}, []
        for cell in cells:
            *before, last = ast.parse(cell).body
            exec(compile(ast.Module(before, []), "cell", "exec"), words)
            shown.append(eval(compile(ast.Expression(last.value), "cell", "eval"), words))
        board, attacked, values, kinds, report = shown
        self.assertEqual((board.result(), report, len(values), values[0]), ("1-0", ("CHECKMATE", 33, True), 33, jatshegi.Board("rnbqkbnr/pppppppp/8/8/4P3/8/PPPP1PPP/RNBQKBNR b KQkq e3 0 1").evaluate()))
        self.assertEqual((sum(count for _, count in kinds), jatshegi.D8 in board.move_stack[-1:][0][1:2]), (33, True))
        for it in (board, attacked):
            self.assertTrue(it._repr_svg_().startswith("<svg"))

    def test_each_is_short(self):
        for name in os.listdir(f"{PACKAGE}/examples"):
            if name.endswith((".py", ".ipynb")):
                with open(f"{PACKAGE}/examples/{name}", encoding="utf-8") as file:
                    self.assertLess(len(file.read().splitlines()), {".py": 60, ".ipynb": 120}[os.path.splitext(name)[1]] if name != "arbiter_report.py" else 151, name)

    def test_pictures(self):
        shown, _ = self.run_example("picture.py", "FILE")
        self.assertEqual((shown.count("<svg"), shown.count("<figure"), "2. Nf3" in shown, "1... e5" in shown), (5, 5, True, True))


if __name__ == "__main__":
    unittest.main()
