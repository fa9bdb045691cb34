"""Engines of other programs in the Python package: this one's, Stockfish where it is installed, and one that does what no engine should."""
import importlib
import os
import shutil
import signal
import sys
import tempfile
import textwrap
import threading
import time
import unittest

import runs

PACKAGE = f"{runs.TOP}/python"
OURS = f"{runs.TOP}/release/x86_64-linux/bin/jatshegi"
# (Debian puts games into a folder of their own)
STOCKFISH = shutil.which("stockfish", path=f"{os.environ.get('PATH', '')}:/usr/games")

# An engine that answers `go` by what its word says.
FAKE = textwrap.dedent("""
    import sys, time
    how = sys.argv[1]
    if how == "dies at once":
        sys.exit(3)
    for line in sys.stdin:
        word = line.split()[0] if line.split() else ""
        if word == "uci":
            if how == "says nothing":
                time.sleep(60)
            print("\\x00\\xff rubbish", "id name", "id", "option", "option name X", "option name Hash type spin default 16 min 1 max 1024", sep="\\n")
            print("option name Mode type combo default a b var a b var c", "option name Log File type string default <empty>", "option name Own type check default true", sep="\\n")
            print("option name Clear type button", "option name Odd type spin default x min y", "id name Fake 1", "uciok", sep="\\n", flush=True)
        elif word == "isready":
            print("readyok", flush=True)
        elif word == "setoption":
            print(line, file=sys.stderr, flush=True)
        elif word == "quit" and how != "never quits":
            sys.exit(0)
        elif word == "stop" and how == "stops":
            print("bestmove e2e4", flush=True)
        elif word == "go":
            print("info", "info depth x nodes", "info score cp", "info depth 3 time 1500 nodes 12 score cp -35 pv e2e4 e7e5", "info string pv e9", sep="\\n", flush=True)
            if how == "dies":
                sys.exit(7)
            if how == "a long line":
                sys.stdout.write("x" * 3_000_000 + "\\n")
            if how == "a bad line of moves":
                print("info depth 4 score mate -2 pv e2e4 e2e4")
            if how in ("never answers", "stops"):
                continue
            moves = {"illegal": "e2e5", "no move": "e9", "none": "(none)", "nothing": "", "a bad ponder": "e2e4 ponder e2e4", "good": "e2e4 ponder c7c5", "castling by its rook": "e1h1"}
            print("bestmove", moves.get(how, "e2e4"), flush=True)
""")


def setUpModule():
    runs.make("libraries")
    sys.path.insert(0, PACKAGE)
    global jatshegi, engine, folder
    jatshegi, engine = importlib.import_module("jatshegi"), importlib.import_module("jatshegi.engine")
    folder = tempfile.TemporaryDirectory()
    with open(f"{folder.name}/fake.py", "w", encoding="utf-8") as file:
        file.write(FAKE)


def tearDownModule():
    folder.cleanup()
    sys.path.remove(PACKAGE)


def fake(how, timeout=20.0, **popen_args):
    return engine.SimpleEngine.popen_uci([sys.executable, f"{folder.name}/fake.py", how], timeout=timeout, **popen_args)


class Engines(unittest.TestCase):
    def plays(self, command):
        with engine.SimpleEngine.popen_uci(command) as it:
            board = jatshegi.Board()
            for limit in (engine.Limit(depth=2), engine.Limit(time=0.05), engine.Limit(nodes=500), engine.Limit(white_clock=1, black_clock=1)) * 3:
                result = it.play(board, limit)
                self.assertTrue(board.is_legal(result.move))
                board.push(result.move)
            board.set_fen("7k/8/6K1/8/8/8/8/R7 w - - 0 1")
            info = it.analyse(board, engine.Limit(depth=3))
            self.assertEqual((info["score"], info["pv"][0].uci(), info["score"].black()), (engine.PovScore(engine.Mate(1), jatshegi.WHITE), "a1a8", engine.Mate(-1)))
            # From a position with moves before it, and where no move is left.
            board.push_san("Ra8")
            self.assertIsNone(it.play(board, engine.Limit(depth=1)).move)
            board.reset()
            for san in ("f3", "e5", "g4"):
                board.push_san(san)
            self.assertEqual(it.play(board, engine.Limit(depth=2)).move.uci(), "d8h4")
            a, b = jatshegi.Move.from_uci("a7a6"), jatshegi.Move.from_uci("h7h6")
            self.assertIn(it.play(board, engine.Limit(depth=1), root_moves=[a, b]).move, (a, b) if "stockfish" in command else board.legal_moves)
            it.ping()
            it.quit()
            self.assertRaises(engine.EngineTerminatedError, it.ping)

    def test_ours(self):
        self.plays(OURS)
        self.plays(f"{runs.TOP}/release/x86_64-linux/bin/chess uci")

    def test_stockfish(self):
        if not STOCKFISH:
            self.skipTest("Stockfish is not installed")
        self.plays(STOCKFISH)
        with engine.SimpleEngine.popen_uci(STOCKFISH) as it:
            it.configure({"Hash": 8, "threads": 1})
            self.assertEqual((it.options["Hash"].type, it.options["Hash"].min), ("spin", 1))
            lines = it.analyse(jatshegi.Board(), engine.Limit(depth=6), multipv=3)
            self.assertEqual([line["multipv"] for line in lines], [1, 2, 3])
            self.assertEqual(len({line["pv"][0] for line in lines}), 3)
            self.assertGreaterEqual(lines[0]["score"].relative, lines[2]["score"].relative)
            self.assertTrue(all(line["depth"] == 6 and line["nodes"] > 0 for line in lines))
            self.assertEqual(len(it.analyse(jatshegi.Board(), engine.Limit(depth=4), multipv=1)), 1)
            with self.assertRaisesRegex(engine.EngineError, "no option 'Nope'"):
                it.configure({"Nope": 1})

    def test_options(self):
        with tempfile.TemporaryFile() as told, fake("good", stderr=told) as it:
            self.assertEqual((it.id, sorted(it.options)), ({"name": "Fake 1"}, ["Clear", "Hash", "Log File", "Mode", "Odd", "Own"]))
            self.assertEqual(it.options["Hash"], engine.Option("Hash", "spin", 16, 1, 1024))
            self.assertEqual((it.options["Mode"].var, it.options["Log File"].default, it.options["Own"].default), (("a b", "c"), "", True))
            it.configure({"hash": 32, "Mode": "a b", "Log File": "x y", "Own": False, "Clear": None})
            for wrong in ({"Hash": 0}, {"Hash": 2000}, {"Hash": "32"}, {"Hash": True}, {"Mode": "b"}, {"Own": 1}, {"Log File": "a\nquit"}, {"Log File": 1}):
                self.assertRaises(ValueError, it.configure, {"Clear": None, **wrong})
            for wrong in ({"Ponder": True}, {"MultiPV": 2}, {"": 1}):
                self.assertRaises(engine.EngineError, it.configure, wrong)
            self.assertRaises(TypeError, it.configure, {1: 2})
            it.ping()
            told.seek(0)
            lines = [line for line in told.read().decode().splitlines() if line]
            self.assertEqual(lines, ["setoption name " + it for it in ("Hash value 32", "Mode value a b", "Log File value x y", "Own value false", "Clear")])

    def test_words_of_python_chess(self):
        """Another `game` is told to the engine, `analyse` sets `options`, and `info` and `ponder` are accepted."""
        board, limit = jatshegi.Board(), engine.Limit(depth=1)
        with tempfile.TemporaryFile("w+") as said, fake("good", stderr=said) as it:
            sent, send = [], it._send
            it._send = lambda line: (sent.append(line), send(line))
            for game in (None, "a", "a", "b"):
                self.assertEqual(it.play(board, limit, game=game, info=engine.INFO_NONE, ponder=True).move.uci(), "e2e4")
            it.analyse(board, limit, game="b", info=engine.INFO_SCORE | engine.Info.PV, options={"Hash": 32})
            self.assertEqual(it.analyse(board, limit, multipv=1, info=engine.INFO_ALL)[0]["depth"], 3)
            words = [line.split()[0] for line in sent]
            self.assertEqual([words.count(word) for word in ("go", "ucinewgame", "setoption")], [6, 3, 1])

    def test_what_it_says(self):
        with fake("good") as it:
            result = it.play(jatshegi.Board(), engine.Limit(depth=1))
            self.assertEqual((result.move.uci(), result.ponder.uci()), ("e2e4", "c7c5"))
            self.assertEqual(result.info, {"depth": 3, "time": 1.5, "nodes": 12, "score": engine.PovScore(engine.Cp(-35), True), "pv": [jatshegi.Move(12, 28), jatshegi.Move(52, 36)]})
        with fake("a long line") as it:
            self.assertEqual(it.play(jatshegi.Board(), engine.Limit(depth=1)).move.uci(), "e2e4")

    def test_scores(self):
        ordered = [engine.Mate(0), engine.Mate(-1), engine.Mate(-9), engine.Cp(-100), engine.Cp(0), engine.Cp(30), engine.Mate(9), engine.Mate(1), engine.MateGiven]
        self.assertEqual(sorted(ordered[::-1]), ordered)
        self.assertEqual([-it for it in ordered], [engine.MateGiven, engine.Mate(1), engine.Mate(9), engine.Cp(100), engine.Cp(0), engine.Cp(-30), engine.Mate(-9), engine.Mate(-1), engine.Mate(0)])
        self.assertEqual([it.mate() for it in ordered], [0, -1, -9, None, None, None, 9, 1, 0])
        self.assertEqual([it.score(mate_score=1000) for it in ordered], [-1000, -999, -991, -100, 0, 30, 991, 999, 1000])
        self.assertEqual([str(it) for it in ordered], ["#-0", "#-1", "#-9", "-100", "+0", "+30", "#+9", "#+1", "#+0"])
        self.assertEqual((engine.Cp(5) == 5, len(set(ordered)), engine.PovScore(engine.Mate(2), False).white()), (False, 9, engine.Mate(-2)))
        self.assertRaises(TypeError, lambda: engine.Cp(5) < 6)

    def test_moves_that_are_none(self):
        board = jatshegi.Board()
        for how, said in (("illegal", "isn't legal: e2e5 in rnbq"), ("no move", "no move: 'e9'"), ("none", "no move: '\\(none\\)'"), ("nothing", "no move: ''"), ("a bad ponder", "isn't legal: e2e4")):
            with fake(how) as it, self.assertRaisesRegex(engine.EngineError, said):
                it.play(board, engine.Limit(depth=1))
        with fake("a bad line of moves") as it, self.assertRaisesRegex(engine.EngineError, "isn't legal: e2e4 in rnbq"):
            it.analyse(board, engine.Limit(depth=1))
        self.assertEqual((board.fen(), board.ply), (jatshegi.STARTING_FEN, 0))

    def test_an_engine_that_ends(self):
        with self.assertRaisesRegex(engine.EngineTerminatedError, "status 3"):
            fake("dies at once")
        with fake("dies") as it:
            for _ in range(2):
                with self.assertRaisesRegex(engine.EngineTerminatedError, "status 7"):
                    it.play(jatshegi.Board(), engine.Limit(depth=1))
            it.quit()
        with fake("good") as it:
            it.close()
            it.close()
            self.assertRaises(engine.EngineTerminatedError, it.analyse, jatshegi.Board(), engine.Limit(depth=1))
        self.assertRaises(OSError, engine.SimpleEngine.popen_uci, "/no/such/engine")

    def test_an_engine_that_does_not_answer(self):
        begun = time.monotonic()
        self.assertRaises(engine.EngineTimeoutError, fake, "says nothing", timeout=0.3)
        with fake("never answers") as it:
            it._timeout = 0.2
            for _ in range(2):
                self.assertRaises(TimeoutError, it.play, jatshegi.Board(), engine.Limit(time=0.05))
        with fake("never quits") as it:
            it._timeout = 0.2
            self.assertRaises(engine.EngineTimeoutError, it.quit)
            self.assertIsNotNone(it._process.returncode)
        # It has stopped by the next call, which goes on.
        with fake("stops") as it:
            it._timeout = 0.2
            self.assertRaises(TimeoutError, it.play, jatshegi.Board(), engine.Limit(time=0.05))
            it._timeout = 20
            it.ping()
        self.assertLess(time.monotonic() - begun, 60)

    def test_ctrl_c_leaves_a_search(self):
        self.addCleanup(signal.signal, signal.SIGINT, signal.signal(signal.SIGINT, signal.default_int_handler))
        with engine.SimpleEngine.popen_uci(OURS, start_new_session=True) as it:
            timer = threading.Timer(0.3, signal.pthread_kill, (threading.main_thread().ident, signal.SIGINT))
            timer.start()
            self.assertRaises(KeyboardInterrupt, it.play, jatshegi.Board(), engine.Limit(depth=16))
            self.assertEqual(it.play(jatshegi.Board(), engine.Limit(depth=1)).info["depth"], 1)

    def test_what_no_search_is(self):
        with fake("good") as it:
            for limit in (engine.Limit(), engine.Limit(time=-1), engine.Limit(time=float("nan")), engine.Limit(depth=-1), engine.Limit(depth=1.5), engine.Limit(nodes=True)):
                self.assertRaises(ValueError, it.play, jatshegi.Board(), limit)
            for words in ((None, engine.Limit(depth=1)), (jatshegi.Board(), None), (jatshegi.STARTING_FEN, engine.Limit(depth=1)), (jatshegi.Board(), 1)):
                self.assertRaises(TypeError, it.play, *words)
            for lines in (0, -1, True, "2", 1.5):
                self.assertRaises(ValueError, it.analyse, jatshegi.Board(), engine.Limit(depth=1), multipv=lines)
            self.assertRaises(engine.EngineError, it.analyse, jatshegi.Board(), engine.Limit(depth=1), multipv=2)
            self.assertRaises(jatshegi.IllegalMoveError, it.play, jatshegi.Board(), engine.Limit(depth=1), root_moves=[jatshegi.Move(0, 0)])
            self.assertEqual(it.play(jatshegi.Board(), engine.Limit(depth=1)).move.uci(), "e2e4")


if __name__ == "__main__":
    unittest.main()
