"""The part of the Python package in C beside the same by ctypes."""
import gc
import importlib
import os
import resource
import subprocess
import sys
import sysconfig
import threading
import unittest

import runs

PACKAGE = f"{runs.TOP}/python"


def setUpModule():
    runs.make("libraries")
    if os.path.exists(f"{sysconfig.get_path('include')}/Python.h"):
        runs.make("fast")
    sys.path.insert(0, PACKAGE)
    global jatshegi
    jatshegi = importlib.import_module("jatshegi")


def tearDownModule():
    sys.path.remove(PACKAGE)


def corpus():
    """Random games with variations, comments and annotations, by the program that writes them."""
    with open(f"{runs.TOP}/crates/corpus/stdin", "rb") as file:
        asked = file.read()
    return subprocess.run([runs.program("corpus")], input=asked, capture_output=True, check=True).stdout


class ThePartInC(unittest.TestCase):
    """What `_fast.c` does is what the package does by ctypes."""

    def setUp(self):
        from jatshegi import _core

        if not _core.FAST:
            self.skipTest("the part in C isn't built, or isn't to be used")

    def test_the_same_tests_by_ctypes(self):
        words = [sys.executable, "-m", "unittest", *(f"test_python.{it}" for it in ("Moves", "TheBoard", "RandomGames", "Games", "NothingIsLost"))]
        ran = subprocess.run(words, cwd=f"{runs.TOP}/tests", env={**os.environ, "JATSHEGI_PLAIN": "1"}, capture_output=True, text=True)
        self.assertEqual(ran.returncode, 0, ran.stderr[-3000:])
        if not runs.RELEASED:
            self.assertNotIn("skipped", ran.stderr)

    def test_it_has_what_ctypes_has(self):
        from jatshegi import _core

        for name in (it for it in vars(_core.Plain) if not it.startswith("__") and it not in ("_slot", "_moves", "_step_back", "_at")):
            self.assertTrue(hasattr(_core.FAST.Core, name), name)
            wanted, found = getattr(_core.Plain, name, None).__doc__, getattr(_core.FAST.Core, name).__doc__
            if not name.startswith("_"):
                self.assertEqual(found.split(), wanted.split(">>>")[0].split(), name)

    def test_games_in_export_form_are_taken_apart_alike(self):
        from jatshegi import _texts

        data = corpus()
        texts = [bytes(game) for game in jatshegi.pgn.games(data)]
        texts += [bytes(jatshegi.pgn.read_game(it)) for it in ('[A "a \\"b\\" \\\\ ]"] *', "{a } 1. e4 { (x) $1 } (1. d4 (1. c4 $2) {y}) e5 1-0", '[White "R\udce9 日本"] {\n[x]\n\n} *')]
        for text in texts:
            at = _texts.movetext(text)
            for is_main in (False, True):
                self.assertEqual(_texts.words(text, at, is_main), _texts.plain_words(text, at, is_main))
            for encoding in ("utf-8", "iso-8859-1", "koi8-r"):
                self.assertEqual(_texts.tags(text, encoding), _texts.plain_tags(text, encoding))
        # Bytes that no game has are read to their end, and no further.
        for text in (b"", b"{", b"{a", b"(", b")))", b"$", b"[", b"[A", b'[A "', b'[A "\\', b"e4 {a} (", b'[A "b"]', b"\xff"):
            for at in (0, len(text), len(text) + 1, -1):
                for call in (lambda: _texts.words(text, at, False), lambda: _texts.words(text, at, True), lambda: _texts.tags(text, "utf-8")):
                    try:
                        call()
                    except UnicodeDecodeError:
                        pass

    def test_a_call_waits_for_the_lock_of_another_thread(self):
        board, came = jatshegi.Board(), []
        move = jatshegi.Move.from_uci("e2e4")
        calls = (board.push, board.san, board.is_legal, lambda move: board.fen(), lambda move: board.legal_moves, lambda move: board.turn, lambda move: board.parse_san("e4"))
        for call in calls:
            board.reset()
            with board._lock:
                thread = threading.Thread(target=lambda: came.append(call(move)))
                thread.start()
                thread.join(0.02)
                self.assertTrue(thread.is_alive())
                self.assertEqual(board.ply, 0)
            thread.join()
        self.assertEqual(len(came), len(calls))
        self.assertRaises(RuntimeError, board._lock.release)
        self.assertTrue(board._lock.acquire(blocking=False))
        board._lock.release()

    def test_a_class_of_ones_own_and_what_is_no_board(self):
        from jatshegi import _core

        class Mine(jatshegi.Board):
            def __init__(self, *words, **named):
                super().__init__(*words, **named)
                self.seen = []

            def push(self, move):
                super().push(move)
                self.seen.append(move)

        board = Mine()
        self.assertEqual((board.push_san("e4"), board.push_uci("e7e5"), len(board.seen)), (*board.move_stack, 2))
        for name in ("legal_moves", "turn", "move_stack", "_made", "_lock"):
            self.assertRaises(AttributeError, setattr, board, name, None)
        bare = _core.FAST.Core()
        for call in (bare.pop, bare.fen, lambda: bare.push(jatshegi.Move(12, 28)), lambda: bare.push(7), lambda: bare.legal_moves):
            self.assertRaises(AttributeError, call)

    def test_boards_come_and_go(self):
        """Nothing of them is left, and a board begun again has forgotten what `push` made before."""
        class Mine(jatshegi.Board):
            pass

        def made(count):
            for _ in range(count):
                board = Mine()
                board.itself = board
                board.push_san("e4")
            gc.collect()
            return sys.getrefcount(Mine), resource.getrusage(resource.RUSAGE_SELF).ru_maxrss

        first = made(2_000)
        then = made(10_000)
        self.assertEqual(then[0], first[0])
        self.assertLess(then[1] - first[1], 3_000)
        board = jatshegi.Board()
        board.push_san("e4")
        board.__init__()
        self.assertEqual((board._made, board.ply, board.pgn().split()[-1]), ([], 0, "*"))

    def test_a_million_calls_that_fail_take_no_memory(self):
        board = jatshegi.Board()

        def calls(count):
            for _ in range(count):
                for call, word in ((board.push, jatshegi.Move(0, 0)), (board.push, 7), (board.push, jatshegi.Move(99, 1 << 70)), (board.parse_san, "Ke4"), (board.parse_san, None)):
                    try:
                        call(word)
                    except (ValueError, TypeError):
                        pass
                for call in (board.pop, board.peek):
                    try:
                        call()
                    except IndexError:
                        pass
                board.move_stack, board.turn, board.is_check(), board.checkers(), board.attackers(True, 20), board.status
            gc.collect()
            return resource.getrusage(resource.RUSAGE_SELF).ru_maxrss

        first = calls(2_000)
        self.assertLess(calls(20_000) - first, 2_000)


if __name__ == "__main__":
    unittest.main()
