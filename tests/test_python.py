"""The Python package: every call and every refusal, games compared with the program, that nothing is lost, the page's examples, its types, its installation."""
import copy
import doctest
import gc
import importlib
import multiprocessing
import os
import pickle
import random
import re
import resource
import shutil
import signal
import subprocess
import sys
import sysconfig
import tempfile
import textwrap
import threading
import time
import unittest
import xml.dom.minidom

import runs

PACKAGE = f"{runs.TOP}/python"


def setUpModule():
    runs.make("libraries")
    if os.path.exists(f"{sysconfig.get_path('include')}/Python.h"):
        runs.make("fast")
    sys.path.insert(0, PACKAGE)
    global jatshegi
    jatshegi = importlib.import_module("jatshegi")


def tearDownModule():
    sys.path.remove(PACKAGE)


def answers_of(lines):
    """What the program's board answers to lines, each of which has one line for an answer."""
    ran = subprocess.run([runs.BUILT, "board"], input="".join(f"{line}\n" for line in lines), capture_output=True, text=True, check=True)
    return ran.stdout.splitlines()


class Moves(unittest.TestCase):
    def test_a_move_and_its_text(self):
        for text in ("e2e4", "e1g1", "a7a8q", "h2h1n", "b7b8r", "g2g1b"):
            self.assertEqual(jatshegi.Move.from_uci(text).uci(), text)
        self.assertEqual(jatshegi.Move.from_uci("a7a8q"), jatshegi.Move(48, 56, jatshegi.QUEEN))
        for text in ("", "e2", "e2e9", "e2e4k", "e2e4qq", "E2E4", "e2-e4"):
            with self.assertRaises(jatshegi.InvalidMoveError):
                jatshegi.Move.from_uci(text)

    def test_a_move_of_no_board_says_so(self):
        board = jatshegi.Board()
        for move, shown in ((jatshegi.Move(100, 200), "Move(100, 200, None)"), (jatshegi.Move(-1, -2), "Move(-1, -2, None)"), (jatshegi.Move(12, 28, 6), "Move(12, 28, 6)")):
            self.assertEqual(repr(move), shown)
            self.assertRaises(jatshegi.InvalidMoveError, move.uci)
            self.assertRaises(jatshegi.IllegalMoveError, board.push, move)
            self.assertFalse(board.is_legal(move))
        self.assertTrue(board.is_legal(jatshegi.Move(12, 28)))
        for parts in ((12.0, 28.0), ("e2", "e4"), (12, 28, 5.0)):
            self.assertRaises(TypeError, jatshegi.Move, *parts)
        for call in (board.push, board.san, board.is_legal, board.claims):
            for other in ("e2e4", (12, 28, None), 12):
                with self.assertRaisesRegex(TypeError, "push_uci or push_san"):
                    call(other)
        self.assertEqual((board.ply, pickle.loads(pickle.dumps(jatshegi.Move(12, 28)))), (0, jatshegi.Move(12, 28)))

    def test_squares(self):
        for square in jatshegi.SQUARES:
            self.assertEqual(jatshegi.parse_square(jatshegi.square_name(square)), square)
            self.assertEqual(jatshegi.square(jatshegi.square_file(square), jatshegi.square_rank(square)), square)
        for wrong in (-1, 64):
            for call in (jatshegi.square_name, jatshegi.square_file, jatshegi.square_rank):
                self.assertRaises(ValueError, call, wrong)
        self.assertRaises(ValueError, jatshegi.square, 8, 0)
        self.assertRaises(ValueError, jatshegi.parse_square, "e9")


class TheBoard(unittest.TestCase):
    def test_begins(self):
        board = jatshegi.Board()
        self.assertEqual((board.fen(), board.turn, board.ply), (jatshegi.STARTING_FEN, jatshegi.WHITE, 0))
        self.assertEqual(len(board.legal_moves), 20)
        self.assertEqual(repr(board), f"Board({jatshegi.STARTING_FEN!r})")
        board.push_san("e4")
        self.assertEqual((board.turn, board.ply), (jatshegi.BLACK, 1))
        board.reset()
        self.assertEqual((board.fen(), board.ply), (jatshegi.STARTING_FEN, 0))

    def test_fields_of_the_position(self):
        def of(board):
            rights = [has(colour) for colour in (jatshegi.WHITE, jatshegi.BLACK) for has in (board.has_kingside_castling_rights, board.has_queenside_castling_rights)]
            return board.turn, rights, board.ep_square, board.halfmove_clock, board.fullmove_number

        board = jatshegi.Board()
        self.assertEqual(of(board), (jatshegi.WHITE, [True] * 4, None, 0, 1))
        self.assertEqual(board.piece_map(), {square: letter for square, letter in enumerate("RNBQKBNRPPPPPPPP" + " " * 32 + "pppppppprnbqkbnr") if letter != " "})
        board.push_san("e4")
        self.assertEqual(of(board), (jatshegi.BLACK, [True] * 4, jatshegi.parse_square("e3"), 0, 1))
        for fen, rights in (("w Kk", [1, 0, 1, 0]), ("b Qq", [0, 1, 0, 1]), ("w q", [0, 0, 0, 1]), ("b -", [0] * 4)):
            board = jatshegi.Board(f"r3k2r/8/8/8/8/8/8/R3K2R {fen} - 12 34")
            self.assertEqual(of(board), (fen[0] == "w", rights, None, 12, 34))
            self.assertEqual(board.piece_map(), {0: "R", 4: "K", 7: "R", 56: "r", 60: "k", 63: "r"})

    def test_refuses_each_fault_of_a_fen(self):
        rows = [
            "8/8/8/8/8/8/8/8 w -",
            "9/8/8/8/8/8/8/8 w - -",
            "8/8/8/8/8/8/8/8 w - -",
            "k6P/8/8/8/8/8/8/K7 w - -",
            "k7/8/8/8/8/1Q6/QQQQQQQQ/KQQQQQQQ w - -",
            "k7/8/8/8/8/8/8/K7 white - -",
            "k7/8/8/8/8/8/8/K7 w KK -",
            "k7/8/8/8/8/8/8/K7 w - e9",
            "k7/8/8/8/8/8/8/K7 w - - 100000 1",
            "kQ6/8/8/8/8/8/8/K7 w - -",
        ]
        board = jatshegi.Board()
        board.push_san("d4")
        fen = board.fen()
        for fault, row in enumerate(rows, 1):
            with self.assertRaises(jatshegi.InvalidFenError) as raised:
                board.set_fen(row)
            self.assertEqual(raised.exception.fault, fault)
            self.assertEqual((board.fen(), board.ply), (fen, 1))
            self.assertRaises(jatshegi.InvalidFenError, jatshegi.Board, row)
        for text in ("", "\0", "ä" * 200, "\udc80"):
            self.assertRaises(jatshegi.InvalidFenError, jatshegi.Board, text)

    def test_refuses_moves_and_changes_nothing(self):
        board = jatshegi.Board("4k3/8/8/8/8/2N5/8/4K1N1 w - - 0 1")
        fen = board.fen()
        for wrong, call, argument in (
            (jatshegi.IllegalMoveError, board.push, jatshegi.Move(0, 1)),
            (jatshegi.IllegalMoveError, board.push, jatshegi.Move(99, 1)),
            (jatshegi.IllegalMoveError, board.push, jatshegi.Move(4, 5, jatshegi.KING)),
            (jatshegi.IllegalMoveError, board.push_uci, "e1e3"),
            (jatshegi.InvalidMoveError, board.push_uci, "e1"),
            (jatshegi.IllegalMoveError, board.push_san, "Qh5"),
            (jatshegi.AmbiguousMoveError, board.push_san, "Ne2"),
            (jatshegi.InvalidMoveError, board.push_san, "a knight"),
            (jatshegi.InvalidMoveError, board.parse_san, "\udc80"),
            (jatshegi.IllegalMoveError, board.san, jatshegi.Move(0, 1)),
            (jatshegi.IllegalMoveError, board.claims, jatshegi.Move(0, 1)),
            (ValueError, board.best, 0),
            (ValueError, board.best, 17),
            (ValueError, board.line, "new\nnew"),
        ):
            with self.subTest(call=call, argument=argument):
                self.assertRaises(wrong, call, argument)
                self.assertEqual((board.fen(), board.ply), (fen, 0))
        self.assertRaises(IndexError, board.pop)
        self.assertFalse(board.is_legal(jatshegi.Move(0, 1)) or board.is_legal(jatshegi.Move(64, 1)))
        self.assertTrue(board.is_legal(jatshegi.Move(6, 12)))

    def test_moves_and_back(self):
        board = jatshegi.Board("k7/7P/8/8/8/8/8/K7 w - -")
        move = jatshegi.Move.from_uci("h7h8q")
        self.assertEqual((board.san(move), board.parse_san("h8=Q"), board.push_san("h8=Q+")), ("h8=Q+", move, move))
        self.assertTrue(board.is_check())
        self.assertEqual(board.checkers(), {63})
        self.assertEqual(board.pop(), move)
        self.assertEqual(board.push_uci("h7h8n"), jatshegi.Move(55, 63, jatshegi.KNIGHT))
        self.assertFalse(board.is_check())
        board.pop()
        self.assertEqual(board.pgn().split("\n\n")[1], "*")

    def test_outcomes(self):
        claimed = jatshegi.Board()
        for _ in range(2):
            for san in ("Nf3", "Nf6", "Ng1", "Ng8"):
                claimed.push_san(san)
        self.assertEqual((claimed.repetitions(), claimed.claims(), claimed.outcome()), (3, (True, False), None))
        self.assertEqual(claimed.outcome(claim_draw=True), (jatshegi.Termination.THREEFOLD_REPETITION, None))
        for _ in range(2):
            for san in ("Nf3", "Nf6", "Ng1", "Ng8"):
                claimed.push_san(san)
        self.assertEqual(claimed.status, jatshegi.Status.FIVEFOLD_REPETITION)
        for fen, status, winner, result in (
            ("R5k1/5ppp/8/8/8/8/8/6K1 b - - 0 1", "CHECKMATE", jatshegi.WHITE, "1-0"),
            ("6k1/8/8/8/8/8/5PPP/r5K1 w - - 0 1", "CHECKMATE", jatshegi.BLACK, "0-1"),
            ("7k/8/6Q1/8/8/8/8/K7 b - -", "STALEMATE", None, "1/2-1/2"),
            ("7k/8/8/8/8/8/8/K7 b - -", "INSUFFICIENT_MATERIAL", None, "1/2-1/2"),
            ("7k/8/6K1/8/8/8/R7/8 b - - 150 90", "SEVENTYFIVE_MOVES", None, "1/2-1/2"),
        ):
            outcome = jatshegi.Board(fen).outcome()
            self.assertEqual((outcome, outcome.result()), ((jatshegi.Termination[status], winner), result))
        fifty = jatshegi.Board("7k/8/6K1/8/8/8/8/R7 w - - 99 90")
        self.assertEqual((fifty.claims(), fifty.claims(jatshegi.Move.from_uci("a1a2"))), ((False, False), (False, True)))
        fifty.push_san("Ra2")
        self.assertEqual(fifty.outcome(claim_draw=True), (jatshegi.Termination.FIFTY_MOVES, None))

    def test_numbers(self):
        board = jatshegi.Board("6k1/5ppp/8/8/8/8/8/R5K1 w - - 0 1")
        self.assertEqual(board.best(1), (jatshegi.Move.from_uci("a1a8"), 29999))
        board.push_san("Ra8#")
        self.assertIsNone(board.best(1))
        self.assertEqual(jatshegi.Board("4k3/8/8/8/8/8/4P3/4K3 w - - 0 1").evaluate(), 110)
        counts = jatshegi.Board().attack_counts
        self.assertEqual((counts(jatshegi.WHITE)[18], counts(jatshegi.BLACK)[18], counts(jatshegi.BLACK)[42]), (3, 0, 3))

    def test_attackers_are_as_many_as_the_counts_say(self):
        for fen in (jatshegi.STARTING_FEN, "r3k2r/p1ppqpb1/bn2pnp1/3PN3/1p2P3/2N2Q1p/PPPBBPPP/R3K2R w KQkq - 0 1", "8/2p5/3p4/KP5r/1R3p1k/8/4P1P1/8 w - - 0 1"):
            board = jatshegi.Board(fen)
            men = board.piece_map()
            for colour in (jatshegi.WHITE, jatshegi.BLACK):
                found = [board.attackers(colour, square) for square in jatshegi.SQUARES]
                self.assertEqual([len(squares) for squares in found], board.attack_counts(colour))
                self.assertTrue(all(men[square].isupper() == colour for squares in found for square in squares))
        self.assertEqual(jatshegi.Board("R3k3/8/8/8/8/8/8/4K2R b - - 0 1").attackers(jatshegi.WHITE, jatshegi.parse_square("e8")), {jatshegi.parse_square("a8")})
        for square in (-1, 64):
            with self.assertRaises(ValueError):
                jatshegi.Board().attackers(jatshegi.WHITE, square)

    def test_a_search_in_slices_is_the_whole_search(self):
        board = jatshegi.Board("r3k2r/p1ppqpb1/bn2pnp1/3PN3/1p2P3/2N2Q1p/PPPBBPPP/R3K2R w KQkq - 0 1")
        wanted = board.best(2)
        slices = board.search(2)
        board.push_san("O-O")
        found = list(slices)
        self.assertEqual(([left for left, *_ in found], found[-1][1:]), (list(range(47, -1, -1)), wanted))
        first, second = board.search(1), board.search(2)
        self.assertEqual((list(first), len(list(second))), ([], len(board.legal_moves)))
        self.assertEqual(list(jatshegi.Board("7k/8/6Q1/8/8/8/8/K7 b - -").search(3)), [])
        for depth in (0, 17, -1, 300):
            with self.assertRaises(ValueError):
                board.search(depth)

    def test_a_search_within_a_time_or_a_number_of_positions(self):
        board = jatshegi.Board("r3k2r/p1ppqpb1/bn2pnp1/3PN3/1p2P3/2N2Q1p/PPPBBPPP/R3K2R w KQkq - 0 1")
        whole = board.best_within(3)
        self.assertEqual((whole[:2], whole.depth), (board.best(3), 3))
        self.assertEqual((whole.move, whole.value, whole.nodes), (whole[0], whole[1], whole[3]))
        self.assertEqual(board.best_within(3, nodes=whole.nodes), whole)
        less = board.best_within(3, nodes=whole.nodes - 1)
        self.assertEqual((less[:2], less.depth), (board.best(2), 2))
        for few in (board.best_within(nodes=0), board.best_within(5, time=0), board.best_within(1)):
            self.assertGreaterEqual((few.depth, few.nodes), (1, 49))
        self.assertEqual(board.best_within(nodes=0)[:3], (*board.best(1), 1))
        # The depth that is reached is the machine's; what is answered at it is not. It ends by itself some hours later.
        timed = board.best_within(time=0.2)
        self.assertEqual(timed[:2], board.best(timed.depth))
        self.assertIsNone(jatshegi.Board("7k/8/6Q1/8/8/8/8/K7 b - -").best_within(3, time=9))
        for words in ({"depth": 0}, {"depth": 17}, {"time": -1}, {"time": float("nan")}, {"nodes": -1}):
            with self.assertRaises(ValueError):
                board.best_within(**words)

    def test_a_search_is_left_by_ctrl_c(self):
        board = jatshegi.Board()
        board.push_san("e4")
        before = board.pgn(), board.fen()
        main = threading.main_thread().ident
        self.assertEqual(threading.get_ident(), main)
        # (where a shell has the tests ignore SIGINT, as of what runs in the background, Python has set no handler)
        self.addCleanup(signal.signal, signal.SIGINT, signal.signal(signal.SIGINT, signal.default_int_handler))

        def interrupts():
            # The search has the board's lock.
            while board._lock.acquire(blocking=False):
                board._lock.release()
                time.sleep(0.001)
            time.sleep(0.1)
            signal.pthread_kill(main, signal.SIGINT)

        for _ in range(3):
            thread = threading.Thread(target=interrupts)
            thread.start()
            # It would end by itself after that time.
            self.assertRaises(KeyboardInterrupt, board.best_within, time=120)
            thread.join()
            self.assertEqual((board.pgn(), board.fen(), board.best(2)), (*before, board.best_within(2)[:2]))

    def test_an_engine_driven_by_events(self):
        engine = jatshegi.Engine()
        self.assertEqual(engine.line("uci")[-1], "uciok")
        self.assertEqual((engine.line("position startpos"), engine.line("go infinite"), engine.is_searching()), ([], [], True))
        for _ in range(25):
            engine.slice()
        self.assertEqual((engine.line("isready"), len(engine.line("stop")), engine.is_searching()), (["readyok"], 1, False))
        self.assertEqual((engine.time_left(), engine.line("go movetime 5"), engine.time_left()), (None, [], 5))
        self.assertEqual((engine.moment(4), engine.time_left(), len(engine.moment(1000)), engine.time_left()), ([], 1, 1, None))
        engine.line("position startpos moves f2f3 e7e5 g2g4 d8h4")
        self.assertEqual((engine.is_infinite(), engine.line("go infinite"), engine.is_infinite(), engine.is_waiting()), (False, [], True, True))
        self.assertEqual((engine.line("stop"), engine.is_waiting(), engine.has_ended()), (["bestmove 0000"], False, False))
        self.assertEqual((engine.line("quit"), engine.has_ended(), engine.line("isready")), ([], True, []))
        engine = jatshegi.Engine()
        with self.assertRaises(ValueError):
            engine.line("uci\nuci")

    def test_pictures(self):
        board = jatshegi.Board("R5k1/5ppp/8/8/8/8/8/6K1 b - - 0 1")
        self.assertEqual(str(board).splitlines()[0], "R . . . . . k .")
        self.assertEqual(len(board.piece_map()), 6)
        picture = xml.dom.minidom.parseString(board._repr_svg_())
        self.assertEqual(len(picture.getElementsByTagName("text")), 32)
        self.assertEqual(len(picture.getElementsByTagName("rect")), 65)
        self.assertEqual([len(picture.getElementsByTagName(name)) for name in ("radialGradient", "line")], [1, 0])

    def test_a_long_game_as_text(self):
        board = jatshegi.Board()
        board.line("comment " + "word " * 1000)
        self.assertGreater(len(board.pgn()), 5000)
        self.assertEqual(board.line("comment a } b"), "refused 4 BadComment")

    def test_a_million_calls_take_no_memory(self):
        board, move = jatshegi.Board(), jatshegi.Move.from_uci("e2e4")

        def calls(count):
            for _ in range(count):
                board.push(move)
                board.legal_moves
                board.pop()
                board.fen()
            for _ in range(count // 20):
                jatshegi.Board(jatshegi.STARTING_FEN)
            gc.collect()
            return resource.getrusage(resource.RUSAGE_SELF).ru_maxrss

        first = calls(10_000)
        self.assertLess(calls(240_000) - first, 4_000)


class RandomGames(unittest.TestCase):
    """The same game by typed calls and by the program's lines."""

    def test_games_of_random_moves(self):
        for seed in range(20):
            choose = random.Random(seed)
            board, lines, wanted = jatshegi.Board(), ["new"], ["ok"]
            for _ in range(80):
                moves = board.legal_moves
                lines += ["fen", "moves", "eval", "status", "claims", "count", "checks", "counts w", "counts b"]
                threefold, fifty = board.claims()
                wanted += [
                    board.fen(),
                    " ".join(map(str, moves)) or "none",
                    str(board.evaluate()),
                    ["mate", "stalemate", "dead", "fivefold", "seventyfive", "play"][board.status],
                    " ".join(["threefold"] * threefold + ["fifty"] * fifty) or "none",
                    str(board.repetitions()),
                    " ".join(map(jatshegi.square_name, board.checkers())) or "none",
                    *(" / ".join(" ".join(map(str, counts[8 * rank : 8 * rank + 8])) for rank in range(8)) for counts in map(board.attack_counts, (True, False))),
                ]
                if not moves:
                    break
                move = choose.choice(moves)
                lines.append(f"play {board.san(move)}")
                wanted.append("ok")
                board.push(move)
                if choose.random() < 0.1:
                    lines.append("delete")
                    wanted.append("ok")
                    self.assertEqual(board.pop(), move)
            with self.subTest(seed=seed):
                self.assertEqual(answers_of(lines), wanted)


class Games(unittest.TestCase):
    """jatshegi.pgn beside the program: the same games, the same texts, the same faults."""

    def corpus(self):
        """Random games with variations, comments and annotations, by the program that writes them."""
        with open(f"{runs.TOP}/crates/corpus/stdin", "rb") as file:
            asked = file.read()
        return subprocess.run([runs.program("corpus")], input=asked, capture_output=True, check=True).stdout

    def program(self, data):
        ran = subprocess.run([runs.BUILT, "pgn"], input=data, capture_output=True)
        return ran.returncode, ran.stdout.decode("utf-8", "surrogateescape"), ran.stderr.decode()

    def test_the_corpus_is_read_as_the_program_reads_it(self):
        data = self.corpus()
        texts = [str(game) for game in jatshegi.pgn.games(data)]
        self.assertGreater(len(texts), 4)
        self.assertEqual((0, "".join(texts), ""), self.program(data))

    def test_a_file_by_its_path(self):
        with tempfile.NamedTemporaryFile(suffix=".pgn") as file:
            file.write(b'[White "a"] 1. e4 *\n[White "b"] 1. d4 *')
            file.flush()
            self.assertEqual([game.headers["White"] for game in jatshegi.pgn.games(file.name)], ["a", "b"])

    def test_every_node_is_a_legal_move_of_the_board(self):
        for game in jatshegi.pgn.games(self.corpus()):
            todo, count = [game.root], 0
            while todo and count < 40:
                node = todo.pop()
                board = game.board(node)
                for child in node.children:
                    self.assertEqual(board.san(board.parse_san(child.san)), child.san)
                todo += node.children
                count += 1

    def test_a_tree_with_all_that_a_game_can_have(self):
        text = '{root} 1. e4 $1 {a} (1. d4 {b} d5 (1... Nf6 $6 $19)) 1... e5 2. Nf3 (2. f4 exf4) (2. Nc3) 2... Nc6 1/2-1/2'
        game = jatshegi.pgn.read_game(text)
        self.assertEqual((game.root.comment, game.result, [node.san for node in game.mainline()]), ("root", "1/2-1/2", ["e4", "e5", "Nf3", "Nc6"]))
        king, queen = game.root.children
        self.assertEqual((king.nags, king.comment, queen.san, queen.comment), ((1,), "a", "d4", "b"))
        self.assertEqual([(it.san, it.nags) for it in queen.children], [("d5", ()), ("Nf6", (6, 19))])
        self.assertEqual([it.san for it in king.children[0].children], ["Nf3", "f4", "Nc3"])
        self.assertEqual(king.children[0].children[1].children[0].path(), ["e4", "e5", "f4", "exf4"])
        self.assertEqual((0, str(game), ""), self.program(text.encode()))

    def test_reports_are_what_the_board_says_ply_by_ply(self):
        knights = "Nf3 Nf6 Ng1 Ng8 "
        texts = [
            "1. f3 e5 2. g4 Qh4# 1-0",
            knights * 5 + "e4 1-0",
            '[FEN "4k3/8/8/8/8/8/4r3/4K3 w - - 149 90"] Kxe2 Kd7 Kd3 0-1',
            '[FEN "4k3/8/8/8/8/8/4P3/4K3 w - - 148 90"] Kd2 Kd7 Ke3 1/2-1/2',
            '[FEN "7k/8/8/6Q1/8/8/8/K7 w - - 0 1"] Qg6 1-0',
            "*",
        ]
        for game in [*map(jatshegi.pgn.read_game, texts), *jatshegi.pgn.games(self.corpus())]:
            report, board, plies = game.report(), game.board(), []
            for node in (None, *game.mainline()):
                if node:
                    board.push_san(node.san)
                plies.append((board.status, board.claims(), board.repetitions(), int(board.fen().split()[4])))

            def first(test):
                return next((ply for ply, found in enumerate(plies) if test(*found)), None)

            over = first(lambda status, claims, times, clock: status != jatshegi.Status.PLAY)
            outcome = board.outcome()
            self.assertEqual((report.plies, report.marker, report.status, report.fen), (len(plies) - 1, game.result, board.status, board.fen()))
            self.assertEqual((report.winner, report.over, report.why), (outcome and outcome.winner, over, None if over is None else plies[over][0]))
            self.assertEqual(report.threefold, first(lambda status, claims, times, clock: claims[0]))
            self.assertEqual(report.fifty, first(lambda status, claims, times, clock: claims[1]))
            self.assertEqual((report.repetitions, report.quiet), (max(it[2] for it in plies), max(it[3] for it in plies)))
            self.assertEqual(report.agrees, outcome is None or game.result in ("*", outcome.result()))
            self.assertEqual((report.is_played_on, report.has_finding), (over not in (None, report.plies), not report.agrees or over not in (None, report.plies)))

    def test_tags(self):
        game = jatshegi.pgn.read_game('[White "a \\"b\\" \\\\"] [FEN "8/8/8/8/8/4k3/4p3/4K3 w - - 0 1"] [Annotator "c"] *')
        self.assertEqual((game.headers["White"], game.headers["Annotator"], game.start), ('a "b" \\', "c", "8/8/8/8/8/4k3/4p3/4K3 w - - 0 1"))
        self.assertEqual(game.board().status, jatshegi.Status.STALEMATE)

    def test_faults_have_their_places(self):
        data = b'1. e4 *\n\n[White "?"]\n\n1. e5 *\n\n[A b]\n\n*\n\n[White "c"]\n\n1. d4 ('
        faults = []
        self.assertEqual([str(game).count("\n") for game in jatshegi.pgn.games(data, faults.append)], [10])
        self.assertEqual([(fault.place, fault.fault) for fault in faults], [(25, 3), (31, 2), (61, 6)])
        with self.assertRaises(jatshegi.InvalidGameError) as caught:
            list(jatshegi.pgn.games(data))
        self.assertEqual(f"fault {caught.exception.place} {caught.exception.fault}", self.program(data)[2].rsplit(" ", 1)[0])

    def parts(self, chance):
        """Games good and bad, and what is between them, some of it longer than a game may be."""
        yield b"\xef\xbb\xbf"
        for _ in range(40):
            length = chance.choice([10, 1000, 60_000, 400_000, 1_048_500, 1_100_000, 2_300_000] if chance.random() < 0.4 else [10, 1000, 60_000])
            word, name = chance.choice([b"w" * 30, b"x[", b"\xc3\xa9", b"("]) + b" ", b'[White "%d"]\n\n' % chance.randrange(1000)
            long = word * (length // len(word))
            long = chance.choice([long, long[: length // 2] + b"\n[X " + long[length // 2 :]])
            yield chance.choice([
                name + b"1. e4 {" + long + b"} e5 1-0\n\n",
                name + b"1. e4 e5 (1... c5) {a} 2. Nf3 *\n" * chance.randrange(1, 40),
                b"1. d4 d5 ; " + word * 9 + b"\n",
                b'[A "' + long.replace(b"\n", b"") + b'"]\n' + name + b"1. e4 *\n",
                name + b"1. e5 {" + long + b"} *\n",
                name + b"1. e4 {" + long + b"\n",
                b"} rubbish " + long,
                b" " * length,
                b"\n%" + b"x" * length + b"\n",
                b"\xef\xbb\xbf" * (length // 3),
                b" \n" * (length // 2) + name + b"\n*\n",
            ])

    def read_by(self, source):
        """The games of a source and the faults between them."""
        found = []
        for game in jatshegi.pgn.games(source, lambda fault: found.append((fault.place, fault.fault))):
            found.append(bytes(game))
        return found

    def test_a_file_read_by_pieces_is_read_as_its_bytes(self):
        from jatshegi import pgn

        class Short:
            """A file that gives less than what is asked for."""

            def __init__(self, data):
                self.data, self.at, self.most = data, 0, 0

            def read(self, count):
                piece = self.data[self.at : self.at + min(count, chance.choice([70_000, 300_001, 1 << 20, 1 << 21]))]
                self.at += len(piece)
                self.most = max(self.most, count)
                return piece

        whole = 0
        for seed in range(3):
            chance = random.Random(seed)
            data = b"".join(self.parts(chance))
            found = self.read_by(data)
            whole += len(found)
            self.assertEqual(self.read_by(Short(data)), found, seed)
            with tempfile.NamedTemporaryFile(suffix=".pgn") as file:
                file.write(data)
                file.flush()
                self.assertEqual(self.read_by(file.name), found, seed)
                one_by_one = []
                with open(file.name, "rb") as opened:
                    while True:
                        try:
                            game = pgn.read_game(opened)
                        except jatshegi.InvalidGameError as fault:
                            one_by_one.append((fault.place, fault.fault))
                            continue
                        if game is None:
                            break
                        one_by_one.append(bytes(game))
                    self.assertIsNone(pgn.read_game(opened))
                self.assertEqual(one_by_one, found, seed)
        self.assertGreater(whole, 200)

    def test_marks_and_spaces_that_a_piece_ends_in(self):
        for length in (1_048_573, 1_048_576):
            for after in (b"", b"1. e4 *"):
                for cut in range(-1, 8):
                    data = b" " * length + b"\xef\xbb\xbf" * 2 + after
                    pieces = [data[: length + cut], data[length + cut :], b"", b""]
                    file = type("Cut", (), {"read": lambda self, count: pieces.pop(0)})()
                    self.assertEqual(self.read_by(file), self.read_by(data), (length, after[:9], cut))

    def test_a_piece_that_ends_in_the_longest_game(self):
        for length in (1_048_576, 1_048_577):
            data = b"1. e4 {" + b"x" * (length - 10) + b"} *" + b"\n1. d4 *"
            for cut in (1_000_000, length - 1, length, length + 1, length + 4):
                pieces = [data[:cut], data[cut:], b"", b""]
                file = type("Cut", (), {"read": lambda self, count: pieces.pop(0)})()
                self.assertEqual(self.read_by(file), self.read_by(data), (length, cut))

    def test_a_file_of_any_size_takes_little_memory(self):
        from jatshegi import pgn

        game, sizes = b'[White "a"]\n\n1. e4 {' + b"word " * 20_000 + b"} *\n\n", iter(range(20))
        texts = pgn._Texts(b"", lambda count: game * (count // len(game)) if next(sizes, None) is not None else b"")
        count = most = 0
        while texts.next()[0]:
            count, most = count + 1, max(most, len(texts._data))
        self.assertGreater(count, 200)
        self.assertLess(most, 5 << 20)

    def test_a_file_whose_reading_fails(self):
        class Failing:
            pieces = [(b"1. e4 {" + b"word " * 200 + b"} *\n") * 2000, OSError("no"), b"1. d4 *", None, 7, b""]

            def read(self, count):
                piece = self.pieces.pop(0)
                if isinstance(piece, OSError):
                    raise piece
                return piece

        file = Failing()
        self.assertRaises(OSError, lambda: [jatshegi.pgn.read_game(file) for _ in range(2000)])
        for wrong in (None, 7):
            with self.assertRaisesRegex(TypeError, "text or bytes"):
                for _ in range(2000):
                    jatshegi.pgn.read_game(file)

    def test_a_game_longer_than_the_room_for_it(self):
        text = "{" + "word " * 5000 + "} *"
        self.assertEqual((0, str(jatshegi.pgn.read_game(text)), ""), self.program(text.encode()))


class Model:
    """A game as a plain tree in Python with a cursor: what `push`, `pop`, `back` and the lines of the board do to it."""

    class Node:
        def __init__(self, san=None, parent=None):
            self.san, self.parent = san, parent
            self.comment, self.nags, self.children = "", [], []
            # Whether `push` added it, and no line has been answered with `ok` since.
            self.is_made = False

    SIX = {"Event": "?", "Site": "?", "Date": "????.??.??", "Round": "?", "White": "?", "Black": "?"}

    def __init__(self, game=None):
        self.tags = {**Model.SIX, **({name: value for name, value in game.headers.items() if name not in ("Result", "FEN", "SetUp")} if game else {})}
        self.marker = game.result if game else "*"
        self.root = self.cursor = Model.Node()
        todo = [(game.root, self.root)] if game else []
        while todo:
            given, node = todo.pop()
            node.comment, node.nags = given.comment, list(given.nags)
            node.children = [Model.Node(child.san, node) for child in given.children]
            todo += zip(given.children, node.children)

    def child(self, san):
        return next((child for child in self.cursor.children if child.san == san), None)

    def way(self):
        node, way = self.cursor, []
        while node.parent:
            way.append(node)
            node = node.parent
        return way[::-1]

    def forget(self):
        for node in self.way():
            node.is_made = False

    def path(self):
        return ".".join(str(node.parent.children.index(node)) for node in self.way()) or "-"

    def play(self, san, by_push):
        if not self.child(san):
            self.cursor.children.append(Model.Node(san, self.cursor))
            self.cursor.children[-1].is_made = by_push
        self.cursor = self.child(san)

    def up(self, takes_out):
        node = self.cursor
        node.is_made = False
        self.cursor = node.parent
        if takes_out:
            node.parent.children.remove(node)

    def pop(self):
        node = self.cursor
        self.up(node.is_made and not (node.children or node.comment or node.nags))

    def movetext(self):
        """The game as a text, which a reader may read; words without numbers."""
        def tag(name, value):
            escaped = value.replace("\\", "\\\\").replace('"', '\\"')
            return f'[{name} "{escaped}"]\n'

        def said(node):
            return [*([node.san] if node.san else []), *(f"${nag}" for nag in node.nags), *([f"{{{node.comment}}}"] if node.comment else [])]

        def after(node):
            while node.children:
                first, *others = node.children
                yield from said(first)
                for other in others:
                    yield from ("(", *said(other), *after(other), ")")
                node = first

        return "".join(tag(*it) for it in self.tags.items()) + " ".join([*said(self.root), *after(self.root), self.marker])


class NothingIsLost(unittest.TestCase):
    """No node, comment, annotation or tag goes but by `delete`, by the `pop` of the `push` that made it, or by `del board.headers[..]`."""

    def text(self, board):
        return board.pgn().split("\n\n")[1].replace("\n", " ").strip()

    def test_pop_leaves_what_push_did_not_make(self):
        board = jatshegi.Board()
        for line in ("play d4", "play d5", "back", "back", "play e4"):
            self.assertEqual(board.line(line), "ok")
        self.assertEqual((board.pop().uci(), self.text(board)), ("e2e4", "1. d4 (1. e4) 1... d5 *"))
        board = jatshegi.Board.from_game(jatshegi.pgn.read_game("1. e4 e5 (1... c5) 2. Nf3 *"))
        before = board.pgn()
        for depth in range(3):
            for move in board.legal_moves:
                board.push(move)
                self.assertEqual(board.pop(), move)
            self.assertEqual((board.pgn(), board.ply), (before, depth))
            board.line("step 0")

    def test_pop_leaves_what_something_hangs_on(self):
        for line in ("comment good", "nag 1", "promote"):
            board = jatshegi.Board()
            board.push_san("d4")
            board.back()
            board.push_san("e4")
            self.assertEqual(board.line(line), "ok")
            self.assertEqual(board.pop().uci(), "e2e4")
            self.assertIn("e4", board.pgn())
        board = jatshegi.Board()
        for san in ("e4", "e5"):
            board.push_san(san)
        self.assertEqual((board.back().uci(), board.pop().uci(), self.text(board)), ("e7e5", "e2e4", "1. e4 e5 *"))
        self.assertRaises(IndexError, board.pop)
        self.assertRaises(IndexError, board.back)

    def test_a_push_of_a_node_that_is_there_takes_nothing_out(self):
        board = jatshegi.Board()
        for line in ("play d4", "back", "play e4", "back"):
            self.assertEqual(board.line(line), "ok")
        for san in ("e4", "d4"):
            board.push_san(san)
            self.assertTrue(board.pop())
        self.assertEqual(self.text(board), "1. d4 (1. e4) *")
        # Once stepped back from, a node is the game's.
        board.push_san("c4")
        board.back()
        board.push_san("c4")
        board.pop()
        self.assertEqual(self.text(board), "1. d4 (1. e4) (1. c4) *")

    def test_a_refusal_changes_nothing_and_forgets_nothing(self):
        board = jatshegi.Board.from_game(jatshegi.pgn.read_game("1. d4 *"))
        before = board.pgn()
        board.push_san("e4")
        pushed = board.pgn()
        for refused in (lambda: board.push_san("Ke3"), lambda: board.push(jatshegi.Move(0, 0)), lambda: board.set_fen("rubbish"), lambda: board.push_uci("zz")):
            self.assertRaises(jatshegi.Error, refused)
        for line in ("play Ke3", "step 5", "comment }", "set rubbish", "rubbish", "fen", "eval", "pgn"):
            self.assertNotEqual(board.line(line), "ok")
        self.assertEqual((board.pgn(), board.ply), (pushed, 1))
        self.assertEqual((board.pop().uci(), board.pgn()), ("e2e4", before))

    def test_a_call_that_an_exception_stops_loses_nothing(self):
        from jatshegi import _core

        if _core.FAST:
            self.skipTest("in C no exception comes into a call; the same is tried by ctypes")

        class Stopped(BaseException):
            pass

        for name, is_made in (("_play", True), ("_play", False), ("_undo", True), ("_undo", False)):
            board = jatshegi.Board.from_game(jatshegi.pgn.read_game("1. d4 d5 2. c4 *"))
            board.line("end")
            game, call = board.pgn(), getattr(_core, name)
            board.push_san("e6")

            def stops(*words):
                if is_made:
                    self.assertEqual(call(*words), 0)
                raise Stopped

            setattr(_core, name, stops)
            try:
                with self.assertRaises(Stopped):
                    board.push_san("Nc3") if name == "_play" else board.pop()
            finally:
                setattr(_core, name, call)
            while board.ply:
                board.pop()
            nodes = [node.san for node in jatshegi.pgn.read_game(board.pgn()).mainline()]
            self.assertEqual(nodes[:3], ["d4", "d5", "c4"], (name, is_made))
            self.assertEqual(jatshegi.Board.from_game(jatshegi.pgn.read_game(game)).pgn(), game)

    def test_a_perft_by_push_and_pop_leaves_the_game(self):
        def perft(depth):
            moves = board.legal_moves
            if depth == 1:
                return len(moves)
            leaves = 0
            for move in moves:
                board.push(move)
                leaves += perft(depth - 1)
                board.pop()
            return leaves

        for text in ("*", "{start} 1. e4 {king} (1. d4 $1 d5) 1... e5 2. Nf3 *"):
            board = jatshegi.Board.from_game(jatshegi.pgn.read_game(text))
            before = board.pgn()
            self.assertEqual((perft(3), board.pgn(), board.ply), (8902, before, 0))

    def test_a_push_that_was_left_by_a_line_is_the_game_s(self):
        for lines, left in ((("start", "end"), "1. e4 *"), (("back", "step 0"), "1. e4 *"), (("goto 0",), "1. e4 *"), (("delete", "play e4"), "1. e4 *"), (("goto 7", "back 1"), "*")):
            board = jatshegi.Board()
            board.push_san("e4")
            for line in lines:
                board.line(line)
            board.pop()
            self.assertEqual(self.text(board), left, lines)
        board = jatshegi.Board()
        board.push_san("e4")
        board.line("start")
        self.assertRaises(IndexError, board.pop)
        self.assertEqual(self.text(board), "1. e4 *")

    def moved(self, chance, board, model):
        """A push, a pop or a step back, or one that is refused."""
        what = chance.random()
        moves = board.legal_moves
        if what < 0.55 and moves:
            known = [child.san for child in model.cursor.children]
            san = chance.choice(known) if known and chance.random() < 0.4 else board.san(chance.choice(moves))
            if chance.random() < 0.5:
                board.push(board.parse_san(san))
            else:
                board.push_san(san)
            model.play(san, True)
        elif what < 0.6:
            self.assertRaises(jatshegi.IllegalMoveError, board.push, jatshegi.Move(0, 0))
            self.assertRaises(jatshegi.InvalidFenError, board.set_fen, "rubbish")
        elif not model.way():
            self.assertRaises(IndexError, board.pop)
            self.assertRaises(IndexError, board.back)
        elif what < 0.9:
            self.assertEqual((board.san(board.pop()), model.pop()), (self.left, None))
        else:
            self.assertEqual((board.san(board.back()), model.up(False)), (self.left, None))

    def told(self, chance, board, model):
        """A line of the board's that changes the game or leads elsewhere, or one that is refused."""
        kinds = ["play", "play", "back", "start", "end", "step", "goto", "promote", "delete", "comment", "nag", "refused"]
        kind, here = chance.choice(kinds), model.cursor
        line = kind
        way = model.way()
        if kind == "refused":
            line = chance.choice(["play zz", "step 99", "goto 99", "comment }", "nag 300", "rubbish", "goto x", "set rubbish"])
        elif kind == "play":
            moves = board.legal_moves
            if not moves:
                return
            line = f"play {board.san(chance.choice(moves))}"
            model.play(line[5:], False)
        elif kind in ("back", "promote", "delete", "nag") and not here.parent:
            line = f"{kind} 5" if kind == "nag" else kind
            kind = "refused"
        elif kind == "back":
            model.up(False)
        elif kind == "start":
            model.cursor = model.root
        elif kind == "end":
            while model.cursor.children:
                model.cursor = model.cursor.children[0]
        elif kind == "step":
            place = chance.randrange(3)
            line = f"step {place}"
            if place < len(here.children):
                model.cursor = here.children[place]
            else:
                kind = "refused"
        elif kind == "goto":
            model.cursor = model.root
            while model.cursor.children and chance.random() < 0.8:
                model.cursor = chance.choice(model.cursor.children)
            line = "start" if model.cursor is model.root else f"goto {model.path()}"
        elif kind == "promote":
            siblings = here.parent.children
            siblings.insert(0, siblings.pop(siblings.index(here)))
        elif kind == "delete":
            model.up(True)
        elif kind == "comment":
            here.comment = chance.choice(["", "a", "gut gespielt", "schön", "so (it) goes; $5 [x] \"", "word " * 30 + "end"])
            line = f"comment {here.comment}"
        elif kind == "nag":
            here.nags.append(chance.randrange(1, 140))
            line = f"nag {here.nags[-1]}"
        if kind != "refused":
            for node in way:
                node.is_made = False
        self.assertEqual(board.line(line)[:7], "refused" if kind == "refused" else "ok", line)
        # What only asks forgets nothing.
        self.assertNotIn(board.line(chance.choice(["fen", "path", "status", "moves", "eval", ""])), ("ok", "refused 6 Command"))

    def tagged(self, chance, board, model):
        """A tag that is set or taken out, the end of the game set, or what is refused."""
        name = chance.choice(["White", "Date", "ECO", "Annotator", "a_1", "Z"])
        what = chance.random()
        if what < 0.5:
            board.headers[name] = model.tags[name] = chance.choice(["", "?", "Réti", 'a "b" \\', "[x]", "% {y} ;", "word " * 40])
        elif what < 0.7 and name not in model.tags:
            self.assertRaises(KeyError, board.headers.__delitem__, name)
        elif what < 0.7:
            del board.headers[name], model.tags[name]
            model.tags.update({it: value for it, value in Model.SIX.items() if it not in model.tags})
        elif what < 0.72:
            board.headers.clear()
            model.tags = dict(Model.SIX)
        elif what < 0.8:
            board.marker = model.marker = chance.choice(["*", "1-0", "0-1", "1/2-1/2"])
        else:
            for bad, value in (("", "x"), ("a b", "x"), ("é", "x"), ("Result", "1-0"), ("FEN", "x"), ("SetUp", "1"), (name, "two\nlines")):
                self.assertRaises(ValueError, board.headers.__setitem__, bad, value)
            self.assertRaises(ValueError, setattr, board, "marker", chance.choice(["", "1-1", "draw", None]))
            for bad in ((7, "x"), (name, 7), (None, None), (b"White", "x"), (name, b"x")):
                self.assertRaises(TypeError, board.headers.__setitem__, *bad)
            self.assertRaises(KeyError, board.headers.__getitem__, chance.choice(["", "Result", "FEN", "None", 7]))

    def test_random_edits_pushes_and_pops_beside_a_plain_model(self):
        chance = random.Random(2026)
        texts = ["*", '[White "a"][ECO "B20"] 1. e4 {a} (1. e4 {b} e5) 1... c5 1-0', "{root} 1. d4 $1 (1. c4 e5 (1... c5 $5 {x}) 2. g3) 1... d5 2. c4 (2. Nf3) 2... e6 *"]
        for number in range(5000):
            if number % 500 == 0:
                game = jatshegi.pgn.read_game(texts[number // 500 % 3])
                board, model = jatshegi.Board.from_game(game), Model(game)
            self.left = model.cursor.san
            chance.choices((self.moved, self.told, self.tagged), (6, 3, 1))[0](chance, board, model)
            if len(model.way()) > 60:
                board.line("start")
                model.forget()
                model.cursor = model.root
            self.assertEqual((board.line("path"), board.ply), (model.path(), len(model.way())), number)
            self.assertEqual((dict(board.headers), board.marker), (model.tags, model.marker), number)
            if number % 20 == 0:
                self.assertEqual(board.pgn(), str(jatshegi.pgn.read_game(model.movetext())), number)
            if number % 100 == 99:
                board = board.copy() if chance.random() < 0.5 else pickle.loads(pickle.dumps(board))
        self.assertEqual(board.pgn(), str(jatshegi.pgn.read_game(model.movetext())))

    def test_a_board_and_its_copies(self):
        board = jatshegi.Board.from_game(jatshegi.pgn.read_game('[FEN "4k3/8/8/8/8/8/4P3/4K3 w - - 7 20"] {a} e4 {b} (e4 $5 Kd7) (e3) Ke7 *'))
        for line in ("step 1", "step 0"):
            board.line(line)
        board.push_san("e5")
        for other in (board.copy(), copy.copy(board), copy.deepcopy(board), pickle.loads(pickle.dumps(board))):
            self.assertEqual((other.fen(), other.ply, other.pgn(), other.line("path")), (board.fen(), 3, board.pgn(), "1.0.0"))
            other.pop()
            self.assertNotEqual(other.pgn(), board.pgn())
            del other
            gc.collect()
            self.assertEqual(board.line("path"), "1.0.0")

        class Mine(jatshegi.Board):
            pass

        mine = Mine()
        mine.name = "of mine"
        self.assertEqual((type(mine.copy()), mine.copy().name, copy.deepcopy(mine).name), (Mine, "of mine", "of mine"))
        board = jatshegi.Board()
        for _ in range(2):
            board.line("comment " + "x" * 1_000_000)
            board.push_san("e4" if board.turn else "e5")
        self.assertRaises(jatshegi.LimitError, pickle.dumps, board)
        for other in (board.copy(), copy.copy(board), copy.deepcopy(board)):
            self.assertEqual((other.ply, other.pgn() == board.pgn()), (2, True))
        self.assertEqual(board.ply, 2)
        for call in (copy.copy, copy.deepcopy, pickle.dumps):
            with self.assertRaisesRegex(TypeError, "has no copy"):
                call(jatshegi.Engine())

    def test_an_emptied_board_says_so(self):
        def asked(board):
            move = jatshegi.Move.from_uci("e2e4")
            names = ("turn", "ep_square", "halfmove_clock", "fullmove_number", "ply", "legal_moves", "status")
            yield from ((lambda name=name: getattr(board, name)) for name in names)
            yield from (board.fen, board.reset, board.piece_map, board.is_check, board.checkers, board.outcome, board.claims, board.repetitions, board.evaluate)
            yield from (lambda: dict(board.headers), lambda: board.headers["White"], lambda: board.headers.update(White="a"), lambda: board.marker)
            yield from (board.pgn, board.pop, board.back, board.copy, board.__str__, board.__repr__, board._repr_svg_, lambda: pickle.dumps(board))
            yield from ((lambda call=call: call(move)) for call in (board.is_legal, board.push, board.san, board.claims))
            yield from ((lambda call=call: call(1)) for call in (board.best, board.best_within, board.search, board.has_kingside_castling_rights, board.attack_counts))
            yield from (lambda: board.push_san("e4"), lambda: board.push_uci("e2e4"), lambda: board.parse_san("e4"), lambda: board.line("fen"), lambda: board.attackers(True, 0))

        emptied, never = jatshegi.Board(), jatshegi.Board.__new__(jatshegi.Board)
        never.encoding, never._searches = "utf-8", 0
        slices = emptied.search(2)
        next(slices)
        emptied._free()
        for board in (emptied, never):
            for call in asked(board):
                self.assertRaises(jatshegi.EmptyBoardError, call)
        self.assertRaises(jatshegi.EmptyBoardError, next, slices)
        emptied.__init__()
        self.assertEqual(len(emptied.legal_moves), 20)
        engine = jatshegi.Engine()
        engine.__del__()
        asked = (engine.is_searching, engine.is_infinite, engine.is_waiting, engine.has_ended, engine.time_left)
        for call in (*asked, engine.slice, lambda: engine.line("uci"), lambda: engine.moment(1)):
            self.assertRaises(jatshegi.EmptyBoardError, call)
        self.assertRaises(ValueError, jatshegi.Engine().moment, -1)

    def test_a_board_begun_again_takes_no_memory(self):
        board, engine = jatshegi.Board(), jatshegi.Engine()

        def begun(count):
            for _ in range(count):
                board.__init__()
                engine.__init__()
            return resource.getrusage(resource.RUSAGE_SELF).ru_maxrss

        first = begun(200)
        self.assertLess(begun(2000) - first, 20_000)

    def test_threads_that_use_one_board_get_right_answers(self):
        board = jatshegi.Board("r3k2r/p1ppqpb1/bn2pnp1/3PN3/1p2P3/2N2Q1p/PPPBBPPP/R3K2R w KQkq - 0 1")
        wanted, wrong, ended = (board.fen(), board.status, len(board.legal_moves), board.piece_map(), board.is_check()), [], threading.Event()

        def reads():
            try:
                while not ended.is_set():
                    found = (board.fen(), board.status, len(board.legal_moves), board.piece_map(), board.is_check())
                    if found != wanted:
                        wrong.append(found)
            except Exception as error:
                wrong.append(error)

        readers = [threading.Thread(target=reads) for _ in range(2)]
        for reader in readers:
            reader.start()
        found = [board.best(2) for _ in range(4)]
        ended.set()
        for reader in readers:
            reader.join()
        self.assertEqual((wrong, len(set(found))), ([], 1))

    def test_errors_go_through_a_pool(self):
        errors = [(jatshegi.Board, "rubbish"), (jatshegi.pgn.read_game, "1. e5 *"), (jatshegi.Move.from_uci, "e9"), (jatshegi.Board().push_san, "Ke2")]
        with multiprocessing.get_context("fork").Pool(1) as pool:
            for call, word in errors:
                with self.assertRaises(jatshegi.Error) as found:
                    call(word)
                with self.assertRaises(type(found.exception)) as raised:
                    pool.apply_async(call, (word,)).get(timeout=600)
                self.assertEqual((str(raised.exception), raised.exception.__dict__), (str(found.exception), found.exception.__dict__))
                self.assertIsInstance(raised.exception, ValueError)
            board = pool.apply_async(jatshegi.Board, ("4k3/8/8/8/8/8/4P3/4K3 w - - 0 1",)).get(timeout=600)
        self.assertEqual(len(board.legal_moves), 6)

    def test_what_is_read_and_written_has_the_same_bytes(self):
        texts = {"utf-8": 'Réti {schön 日本} "\\"'.encode(), "iso-8859-1": b'R\xe9ti {sch\xf6n \x85\xa0}'}
        for encoding, words in texts.items():
            name, comment = words.split(b" ", 1)
            data = b'[White "' + name + b'"]\n\n1. e4 ' + comment.split(b'}')[0] + b"} *\n"
            game = jatshegi.pgn.read_game(data)
            ran = subprocess.run([runs.BUILT, "pgn"], input=data, capture_output=True, check=True)
            self.assertEqual((game.encoding, bytes(game), game.headers["White"]), (encoding, ran.stdout, "Réti"))
            self.assertEqual(str(game).encode(game.encoding), bytes(game))
            board = jatshegi.Board.from_game(game)
            board.line("step 0")
            self.assertEqual(board.line("nag 1"), "ok")
            self.assertIn(comment.split(b'}')[0], board.pgn().encode(board.encoding))
            self.assertEqual((board.copy().encoding, board.copy().pgn()), (encoding, board.pgn()))
            again = [bytes(it) for it in jatshegi.pgn.games(ran.stdout * 2)]
            self.assertEqual(again, [ran.stdout] * 2)
            self.assertEqual([bytes(it(game)) for it in (copy.copy, copy.deepcopy, lambda it: pickle.loads(pickle.dumps(it)))], [bytes(game)] * 3)
        with self.assertRaises(UnicodeEncodeError):
            board.line("comment 日本")
        self.assertNotIn("?}", board.pgn())
        latin = b'[White "R\xe9ti"] *'
        for encoding, name in ((None, "Réti"), ("latin-1", "Réti"), ("utf-8", "R\udce9ti"), ("cp1250", "Réti"), ("koi8-r", "RИti")):
            game = jatshegi.pgn.read_game(latin, encoding=encoding)
            self.assertEqual((game.headers["White"], bytes(game).count(b"R\xe9ti")), (name, 1))
            self.assertEqual([it.headers["White"] for it in jatshegi.pgn.games(latin, encoding=encoding)], [name])
            self.assertEqual(str(game).encode(game.encoding, "surrogateescape"), bytes(game))
        for encoding in ("utf-16", "utf-8-sig", "cp037"):
            self.assertRaises(ValueError, jatshegi.pgn.read_game, latin, encoding=encoding)
        self.assertRaises(LookupError, jatshegi.Board, encoding="no such")
        self.assertEqual(str(jatshegi.pgn.read_game('[White "R\udce9ti é"] *')).count("R\udce9ti é"), 1)

    def test_what_a_game_hands_out_is_its_own(self):
        game = jatshegi.pgn.read_game('[White "Réti"] 1. Nf3 {a} d5 $1 (1... c5) *')
        before, node = str(game), game.root.children[0]
        for of, name in ((node, "san"), (node, "children"), (node, "parent"), (game, "headers"), (game, "root")):
            self.assertRaises(AttributeError, setattr, of, name, "x")
        for call in (lambda: node.children.append(node), lambda: setattr(node, "other", 1)):
            self.assertRaises(AttributeError, call)
        tags = game.headers.copy()
        tags["White"] = "me"
        self.assertEqual((str(game), game.headers["White"], dict(game.headers)["White"], node.comment), (before, "Réti", "Réti", "a"))
        self.assertEqual((game.headers.copy(), "White" in game.headers, game.headers == dict(game.headers)), (dict(game.headers), True, True))

    def test_texts_that_are_no_game_say_so(self):
        for text in ("1. e5 zz *", "(", "1. e4 (", "", " "):
            self.assertRaises(jatshegi.InvalidGameError, jatshegi.pgn.Game, text)
        self.assertEqual(str(jatshegi.pgn.Game("1. e4 *")), str(jatshegi.pgn.read_game("1. e4 *")))
        for other in (None, "1. e4 *", b"1. e4 *"):
            with self.assertRaisesRegex(TypeError, "read_game"):
                jatshegi.Board.from_game(other)


class ThePackage(unittest.TestCase):
    def test_examples(self):
        tried = doctest.testfile(f"{runs.TOP}/docs/PYTHON.md", module_relative=False, verbose=False)
        self.assertEqual(tried.failed, 0)
        self.assertGreater(tried.attempted, 10)
        for name in sorted(it[:-3] for it in os.listdir(f"{PACKAGE}/jatshegi") if it.endswith(".py") and not it.startswith("__")):
            module = importlib.import_module(f"jatshegi.{name}")
            words = {"jatshegi": jatshegi, **{it: getattr(jatshegi, it) for it in ("Board", "Move", "SQUARE_NAMES")}}
            with open(module.__file__, encoding="utf-8") as file:
                classes = [getattr(module, it) for it in re.findall(r"^class (\w+)", file.read(), re.M) if hasattr(module, it)]
            shown = [it.__module__ for it in classes]
            # (a class shows under the package's name, by which its examples aren't found)
            for it in classes:
                it.__module__ = module.__name__
            tried = doctest.testmod(module, extraglobs=words, verbose=False)
            for it, of in zip(classes, shown):
                it.__module__ = of
            self.assertEqual(tried.failed, 0, name)
        self.assertEqual(doctest.testmod(jatshegi, extraglobs={"jatshegi": jatshegi}, verbose=False).failed, 0)

    def test_names(self):
        for module in (jatshegi, jatshegi.pgn, jatshegi.polyglot, jatshegi.svg, importlib.import_module("jatshegi.engine")):
            for name in module.__all__:
                it = getattr(module, name)
                if isinstance(it, type) and not hasattr(jatshegi, name):
                    self.assertEqual(it.__module__, module.__name__, name)
                elif isinstance(it, type):
                    self.assertEqual((it.__module__, pickle.loads(pickle.dumps(it))), ("jatshegi", it), name)

    def test_it_loads_little(self):
        words = [sys.executable, "-c", "import sys, jatshegi; print(*({'ssl', 'email', 'http.client', 'urllib.request', 'xml', 'inspect', 'subprocess'} & set(sys.modules)))"]
        ran = subprocess.run(words, env={**os.environ, "PYTHONPATH": PACKAGE}, capture_output=True, text=True)
        self.assertEqual((ran.stdout.split(), ran.stderr), ([], ""))

    def test_one_version(self):
        with open(f"{runs.TOP}/VERSION", encoding="utf-8") as file:
            version = file.read().strip()
        with open(f"{PACKAGE}/pyproject.toml", encoding="utf-8") as file:
            self.assertIn(f'version = "{version}"', file.read())
        self.assertEqual(jatshegi.__version__, version)

    def test_types(self):
        if not shutil.which("mypy"):
            self.skipTest("mypy is not on the path")
        uses = """
            import jatshegi
            squares = jatshegi.SquareSet(255)
            squares |= 3
            print(int(squares | 3), (squares & {1}).mask, (squares << 8 ^ squares).mask, squares.union(7, [1]).mask)
            line = jatshegi.pgn.Game().mainline_moves()
            print([move.uci() for move in reversed(line)], jatshegi.Board().legal_moves.count(), jatshegi.Termination.CHECKMATE.value)
            jatshegi.Board().push(move=jatshegi.Move(12, 28))
            jatshegi.Board(None)
        """
        with tempfile.TemporaryDirectory() as folder:
            with open(f"{folder}/uses.py", "w", encoding="utf-8") as file:
                file.write(textwrap.dedent(uses))
            words = ["mypy", "--strict", "--cache-dir", f"{folder}/cache", f"{folder}/uses.py"]
            used = subprocess.run(words, env={**os.environ, "MYPYPATH": PACKAGE}, capture_output=True, text=True)
        # The last two lines are those that a call refuses, too. (tests/test_python_types.py checks the package itself)
        self.assertEqual(re.findall(r"uses.py:(\d+): error", used.stdout), ["8", "9"], used.stdout)

    def test_installs_and_answers(self):
        with tempfile.TemporaryDirectory() as folder:
            shutil.copytree(PACKAGE, f"{folder}/python")
            # (the released library, if no other is beside the package)
            os.symlink(f"{runs.TOP}/release", f"{folder}/release")
            words = [sys.executable, "-m", "pip", "install", "--quiet", "--no-deps", "--no-index", "--target", f"{folder}/there", "."]
            ran = subprocess.run(words, cwd=f"{folder}/python", capture_output=True, text=True)
            if "No module named pip" in ran.stderr:
                self.skipTest("pip is not installed")
            self.assertEqual(ran.returncode, 0, ran.stderr)
            words = [sys.executable, "-c", "import jatshegi; print(len(jatshegi.Board().legal_moves), jatshegi.__file__)"]
            ran = subprocess.run(words, cwd="/", env={**os.environ, "PYTHONPATH": f"{folder}/there"}, capture_output=True, text=True)
            self.assertEqual(ran.stdout.split(), ["20", f"{folder}/there/jatshegi/__init__.py"], ran.stderr)


if __name__ == "__main__":
    unittest.main()
