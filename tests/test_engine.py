"""The engine for front ends: one `bestmove` for each search, legal, once it is asked for; its replies are those of the session, event by event.

`python3 tests/test_engine.py N` plays N scripts of lines at random moments, and prints how long `isready` and `stop` took at most; ./test plays 400.
"""
import fcntl
import os
import pty
import random
import re
import select
import subprocess
import sys
import tempfile
import time
import unittest

import runs

ENGINE = f"{runs.TOP}/out/jatshegi"
RELEASED = f"{runs.TOP}/release/x86_64-linux/bin/jatshegi"
# Of a search that is far from its end: a machine with much else to do may take this number of seconds to answer.
SOON = 60
SHARP = "q2k3r/1q5q/8/8/1b6/8/QP4PQ/R2K3q w - - 0 1"
KIWIPETE = "r3k2r/p1ppqpb1/bn2pnp1/3PN3/1p2P3/2N2Q1p/PPPBBPPP/R3K2R w KQkq - 0 1"
ONE_MOVE = "r1bqk2r/pppp1Qpp/2n2n2/2b1p3/4P3/8/PPPP1PPP/RNB1KBNR b KQkq - 0 4"
POSITIONS = ["startpos", f"fen {SHARP}", f"fen {ONE_MOVE}", "startpos moves f2f3 e7e5 g2g4 d8h4", "startpos moves e2e4 e7e5", "startpos moves e2e5"]
SEARCHES = [
    "depth 1", "depth 3", "depth 16", "infinite", "movetime 1", "movetime 40", "wtime 800 btime 900 winc 10 binc 10", "infinite searchmoves e2e4",
    "nodes 3000", "mate 2", "depth 3 nodes 300",
]
# The program's own line after a position that the session refuses: one without a legal move.
NO_MOVES = "position fen 7k/5Q2/6K1/8/8/8/8/8 b - - 0 1"
REFUSED = "info string the last position was refused"
OTHERS = ["isready", "stop", "stop", "uci", "ponderhit", "ucinewgame", "setoption name Claims value true", "", "nothing", "\tisready \r"]


def setUpModule():
    runs.make("libraries")
    sys.path.insert(0, f"{runs.TOP}/python")


class Program:
    """The engine, as a front end runs it: lines go in, and come out with the moment at which they were read."""

    def __init__(self, *words, program=ENGINE):
        self.process = subprocess.Popen([program, *words], stdin=subprocess.PIPE, stdout=subprocess.PIPE, stderr=subprocess.PIPE)
        self.lines, self.rest = [], b""
        fcntl.fcntl(self.process.stdout, fcntl.F_SETFL, os.O_NONBLOCK)

    def say(self, line):
        self.process.stdin.write(line.encode() + b"\n")
        self.process.stdin.flush()

    def read(self, seconds):
        """Reads what comes within this number of seconds, and returns whether anything did."""
        if not select.select([self.process.stdout], [], [], seconds)[0]:
            return False
        piece = self.process.stdout.read()
        *lines, self.rest = (self.rest + (piece or b"")).split(b"\n")
        self.lines += [it.decode() for it in lines]
        return bool(piece)

    def wait(self, form, seconds=SOON):
        """Waits for a new line of this form, and returns it; None where none comes in time."""
        seen, end = len(self.lines), time.monotonic() + seconds
        while time.monotonic() < end:
            for at in range(seen, len(self.lines)):
                if re.fullmatch(form, self.lines[at]):
                    return self.lines[at]
            seen = len(self.lines)
            self.read(end - time.monotonic())
        return None

    def end(self):
        """Closes its input, reads the rest, and returns the status."""
        self.process.stdin.close()
        while self.read(SOON):
            pass
        status = self.process.wait(SOON)
        self.errors = self.process.stderr.read()
        self.process.stdout.close()
        self.process.stderr.close()
        return status


def plain(line):
    """The session's own line: without the effort and the replies to the move, and by the session's name."""
    line = re.sub(r" time \d+ nodes \d+ nps \d+( pv \w+)?.*", lambda found: found[1] or "", line)
    line = re.sub(r"id author the Jatshegi authors", "id author chess_uci project", line)
    return re.sub(r"id name Jatshegi .*", "id name chess_uci 1", line)


def board_of(position):
    """The board of the words after `position`."""
    import jatshegi

    start, _, moves = position.partition(" moves ")
    board = jatshegi.Board(start.removeprefix("fen ") if start.startswith("fen") else jatshegi.STARTING_FEN)
    for move in moves.split():
        board.push_uci(move)
    return board


def replayed(record):
    """The replies of a session to the events of a record, of each `go` whether a search was begun or answered at once, and the position of each report of a depth."""
    import jatshegi

    session, replies, searches, position, positions = jatshegi.Engine(), [], 0, "startpos", []
    for event in record:
        word, _, rest = event.partition(" ")
        said = session.slice() if word == "slice" else session.moment(int(rest)) if word == "moment" else session.line(rest.rstrip("\r"))
        if word == "line" and rest.split()[:1] == ["go"]:
            searches += "info string busy" not in said
        if word == "line" and not said and rest.split()[:1] in (["position"], ["ucinewgame"]):
            position = rest.partition("position ")[2].rstrip("\r") or "startpos"
        positions += [position for it in said if it.startswith("info depth")]
        replies += said
    return replies, searches, session.is_searching(), positions


def record_of(path):
    with open(path, newline="\n", encoding="utf-8") as text:
        return text.read().split("\n")[:-1]


def script(seed, folder):
    """Plays a script of lines at random moments. Returns what was said, what was replied, and the record."""
    chance = random.Random(seed)
    engine = Program("--record", f"{folder}/record")
    said = []
    for _ in range(chance.randrange(2, 14)):
        line = chance.choice([f"position {chance.choice(POSITIONS)}", f"go {chance.choice(SEARCHES)}", f"go {chance.choice(SEARCHES)}", chance.choice(OTHERS)])
        said.append(line)
        engine.say(line)
        engine.read(chance.choice([0, 0, 0.001, 0.01, 0.05]))
    for line in ("stop", "isready"):
        said.append(line)
        engine.say(line)
    engine.wait("readyok")
    status = engine.end()
    return said, engine, status, record_of(f"{folder}/record")


class TheEngine(unittest.TestCase):
    def setUp(self):
        folder = tempfile.TemporaryDirectory()
        self.addCleanup(folder.cleanup)
        self.folder = folder.name

    def check_script(self, seed):
        said, engine, status, record = script(seed, self.folder)
        self.assertEqual((status, engine.errors, engine.rest), (0, b"", b""), (seed, said))
        # (with `nodes` or `mate` and no depth a search is as deep as it may be)
        lines = [re.sub(r"^(go (nodes|mate) \d+) depth (16|3)$", r"\1", it[5:]) for it in record if it.startswith("line ")]
        # (the end of the input is a `quit`, after a `stop` where the last search is infinite; a search that has nothing left to do is ended by a `stop`)
        self.assertEqual([it for it in lines if it not in ("stop", "quit", NO_MOVES)], [it for it in said if it != "stop"], seed)
        replies, searches, searching, positions = replayed(record)
        written = [plain(it) for it in engine.lines if " currmove " not in it and it != REFUSED]
        self.assertEqual([it for it in written if it != "info"], replies, (seed, said))
        for position, line in zip(positions, [it for it in engine.lines if " pv " in it], strict=True):
            self.check_line(position, line)
        self.assertEqual((sum(it.startswith("bestmove ") for it in written), searching), (searches, False), (seed, said))

    def check_line(self, position, report):
        """Each move of the line is legal, and there are no more than the depth; of `position` at each report there is a line of its own."""
        depth, moves = re.fullmatch(r"info depth (\d+) score .* pv ((?: ?\w+)+)", report).groups()
        self.assertLessEqual(len(moves.split()), int(depth), report)
        board = board_of(position)
        for move in moves.split():
            self.assertIn(move, [it.uci() for it in board.legal_moves], (position, report))
            board.push_uci(move)

    def check_score(self, position, report):
        """Each reply is the best move to the rest of the depth. The line's end is worth the score, if the line goes to the depth or to the end of the game.
        Says whether it does."""
        depth, word, number, *moves = re.fullmatch(r"info depth (\d+) score (cp|mate) (-?\d+) .* pv (.*)", report).expand(r"\1 \2 \3 \4").split()
        left, board = int(depth), board_of(position)
        side = board.turn
        for at, move in enumerate(moves):
            if at:
                self.assertEqual(board.best(left)[0].uci(), move, (position, report))
            board.push_uci(move)
            left -= 1
        over = board.outcome()
        if left and over is None:
            return False
        if word == "mate":
            wins = (side if int(number) > 0 else not side)
            self.assertEqual((over and over.winner, len(moves)), (wins, 2 * abs(int(number)) - (int(number) > 0)), (position, report))
        else:
            self.assertEqual(0 if over else board.evaluate() if side else -board.evaluate(), int(number), (position, report))
        return True

    def test_the_line_is_that_of_its_score(self):
        """In positions of random games; up to depth 6 no line is cut."""
        chance = random.Random(7)
        positions = [f"fen {KIWIPETE}", f"fen {SHARP}", "fen 7k/8/8/8/8/8/R7/1R4K1 w - - 0 1", "fen 6k1/5ppp/8/8/8/8/8/R5K1 w - - 0 1"]
        for _ in range(16):
            board, moves = board_of("startpos"), []
            while len(moves) < 40 and len(moves) < chance.randrange(2, 60) and board.outcome() is None:
                moves.append(chance.choice(board.legal_moves).uci())
                board.push_uci(moves[-1])
            positions.append(f"startpos moves {' '.join(moves)}")
        whole = {}
        for position in positions:
            engine = Program()
            engine.say(f"position {position}")
            engine.say("go depth 6")
            engine.wait("bestmove .*")
            engine.end()
            for report in [it for it in engine.lines if " pv " in it]:
                whole.setdefault(int(report.split()[2]), []).append(self.check_score(position, report))
        self.assertEqual((sorted(whole), [depth for depth, lines in whole.items() if not all(lines)]), ([1, 2, 3, 4, 5, 6], []))

    def test_random_moments(self):
        """The replies are those of the session to the recorded events; each search has one `bestmove`, of the session."""
        for seed in range(400):
            self.check_script(seed)

    def test_best_moves_are_legal(self):
        for position in POSITIONS[:5]:
            engine = Program()
            engine.say(f"position {position}")
            engine.say("go movetime 30")
            found = engine.wait("bestmove .*")
            self.assertEqual(engine.end(), 0)
            self.assertIn(found.split()[1], [move.uci() for move in board_of(position).legal_moves] or ["0000"], position)

    def test_a_long_search_answers(self):
        """`isready`, `stop` and `quit` are answered long before the search is over."""
        engine = Program()
        engine.say(f"position fen {SHARP}")
        engine.say("go depth 16")
        time.sleep(0.3)
        engine.say("isready")
        self.assertIsNotNone(engine.wait("readyok"))
        engine.say("stop")
        self.assertRegex(engine.wait("bestmove .*") or "", "bestmove [a-h][1-8][a-h][1-8]")
        engine.say("go infinite")
        time.sleep(0.1)
        engine.say("quit")
        self.assertEqual(engine.end(), 0)
        self.assertEqual(sum(it.startswith("bestmove") for it in engine.lines), 1)

    def test_a_timed_search_ends(self):
        """Also with one legal move, and where a root takes longer than the whole time."""
        for fen in (SHARP, ONE_MOVE):
            engine = Program()
            engine.say(f"position fen {fen}")
            engine.say("go movetime 300")
            self.assertIsNotNone(engine.wait("bestmove .*"), fen)
            self.assertEqual(engine.end(), 0)

    def search_among(self, lines):
        """Searches six plies while it says these lines again and again. Returns the depths with their positions, the lines said, and the answers."""
        engine, said = Program(), []
        engine.say(f"position fen {KIWIPETE}")
        engine.say("go infinite")
        end = time.monotonic() + SOON
        while not any(it.startswith("info depth 6 score") for it in engine.lines) and time.monotonic() < end:
            if lines:
                said.append(lines[len(said) % len(lines)])
                engine.say(said[-1])
                # (the beginning of the next line)
                engine.process.stdin.write(b" ")
                engine.process.stdin.flush()
            engine.read(0.004)
        engine.say("stop")
        engine.wait("bestmove .*")
        self.assertEqual(engine.end(), 0)
        depths = [re.findall(r"depth (\d) .* nodes (\d+) ", it)[0] for it in engine.lines if " score " in it]
        return depths[:6], said, [it for it in engine.lines if not re.match("info (depth|time)|bestmove|id ", it)]

    def test_lines_that_leave_a_search_running(self):
        """The engine answers each, and visits as many positions at each depth as in a search without lines."""
        busy, long = ["info string busy"], "isready" + " " * 1048570
        forms = {
            "isready": ["readyok"], "uci": ["option name .*", "uciok"], long: ["info string line too long"],
            "debug on": [], "ponderhit": [], "": [], "nothing": [], "position startpos": busy, "ucinewgame": busy,
            "go depth 1": busy, "setoption name Claims value true": busy, "go infinite searchmoves e2e4": busy,
        }
        undisturbed = self.search_among([])
        self.assertEqual([depth for depth, _ in undisturbed[0]], ["1", "2", "3", "4", "5", "6"])
        depths, said, answers = self.search_among(list(forms))
        self.assertEqual(depths, undisturbed[0])
        for form, answer in zip([it for line in said for it in forms[line]], answers, strict=True):
            self.assertRegex(answer, f"^{form}$")

    def test_nothing_left_to_find(self):
        """A timed search ends with a mate, and at depth 4 with one root; other searches go on."""
        mates, mated, clock = "6k1/5ppp/8/8/8/8/5PPP/R5K1 w - - 0 1", "k7/7p/1K6/8/8/8/8/6R1 b - - 0 1", "wtime 600000 btime 600000"
        for fen, go, depth, score, move in (
            (mates, clock, 1, "mate 1", "a1a8"),
            (mates, "movetime 20000", 1, "mate 1", "a1a8"),
            (mated, clock, 2, "mate -1", "h7h5"),
            (ONE_MOVE, clock, 4, None, "e8f7"),
            (ONE_MOVE, "movetime 20000", 4, None, "e8f7"),
            ("4k3/8/8/8/8/8/8/4K2R w K - 0 1", f"{clock} searchmoves h1h7", 4, None, "h1h7"),
            (mates, "depth 3", 3, "mate 1", "a1a8"),
            (ONE_MOVE, "depth 5", 5, None, "e8f7"),
        ):
            engine = Program()
            engine.say(f"position fen {fen}")
            engine.say(f"go {go}")
            self.assertEqual(engine.wait("bestmove .*"), f"bestmove {move}", (fen, go))
            self.assertEqual(engine.end(), 0)
            report = [it for it in engine.lines if " score " in it][-1]
            self.assertRegex(report, rf"info depth {depth} score {score or 'cp .*'} time ", (fen, go))

    def test_a_search_of_a_number_of_positions(self):
        """It goes deeper than four plies, completes depth 1, and asks for no more positions after it. An infinite search goes on."""
        for go, depth, most in (
            ("nodes 50000", 5, 50000), ("nodes 44699", 4, 44699), ("nodes 0", 1, 20), ("nodes -5", 1, 20), ("nodes 7 nodes 50000 depth 2", 2, 50000),
            ("nodes 9999999999 movetime 40", None, 1_000_000_000), ("nodes 20 searchmoves e2e4", None, 20),
        ):
            engine = Program()
            engine.say(f"go {go}")
            self.assertIsNotNone(engine.wait("bestmove [a-h].*"), go)
            self.assertEqual(engine.end(), 0)
            reports = [re.findall(r"depth (\d+) .* nodes (\d+) ", it)[0] for it in engine.lines if " score " in it]
            self.assertEqual(int(reports[-1][0]), depth or int(reports[-1][0]), go)
            self.assertLessEqual(int(reports[-1][1]), most, go)
        engine = Program()
        engine.say("go infinite nodes 30")
        self.assertIsNotNone(engine.wait("info depth 3 score .*"))
        self.assertIsNone(engine.wait("bestmove .*", 0.1))
        engine.end()

    def test_a_search_for_a_mate(self):
        """It ends with the mate, or at the depth of that number of moves."""
        for fen, go, report, move in (
            ("1k6/8/3K4/8/8/8/8/7R w - - 0 1", "mate 3", "depth 5 score mate 3 ", "d6c6"),
            ("1k6/8/3K4/8/8/8/8/7R w - - 0 1", "mate 2", "depth 3 score cp ", None),
            ("1k6/8/3K4/8/8/8/8/7R w - - 0 1", "mate 9", "depth 5 score mate 3 ", "d6c6"),
            ("1k6/8/2K5/8/8/8/8/7R b - - 0 1", "mate 4", "depth 4 score mate -2 ", "b8a7"),
            (ONE_MOVE, "mate 3", "depth 5 score cp ", "e8f7"),
        ):
            engine = Program()
            engine.say(f"position fen {fen}")
            engine.say(f"go {go}")
            self.assertRegex(engine.wait("bestmove .*"), f"^bestmove {move or '[a-h]'}")
            self.assertEqual(engine.end(), 0)
            self.assertIn(f"info {report}", [it for it in engine.lines if " score " in it][-1], (fen, go))

    def test_a_position_that_is_refused(self):
        """No move of an older position is given, until another position comes."""
        for bad in ("startpos moves e2e5", "startpos moves e2e4 e7e8Q", "fen 8/8 w - - 0 1", "nothing"):
            engine = Program()
            for line in ("position startpos moves e2e4", f"position {bad}", "go depth 2", "go wtime 1000 btime 1000", "go infinite"):
                engine.say(line)
            engine.say("stop")
            for line in ("position startpos moves f2f3 e7e5 g2g4", "go depth 1"):
                engine.say(line)
            self.assertEqual(engine.wait("bestmove d8h4"), "bestmove d8h4")
            for line in (f"position {bad}", "ucinewgame", "go depth 1"):
                engine.say(line)
            self.assertEqual(engine.wait("bestmove b1c3"), "bestmove b1c3")
            self.assertEqual(engine.end(), 0)
            none = [REFUSED, "bestmove 0000"]
            self.assertEqual([it for it in engine.lines if " score " not in it],
                             ["info string position refused", *3 * none, "bestmove d8h4", "info string position refused", "bestmove b1c3"])

    def test_an_infinite_search_with_a_mate_goes_on(self):
        engine = Program()
        engine.say("position fen k7/7p/1K6/8/8/8/8/6R1 b - - 0 1")
        engine.say("go infinite")
        self.assertIsNotNone(engine.wait("info depth 5 score mate -1 .*"))
        self.assertEqual([it for it in engine.lines if it.startswith("bestmove")], [])
        engine.say("stop")
        self.assertEqual(engine.wait("bestmove .*"), "bestmove h7h5")
        self.assertEqual(engine.end(), 0)

    def test_the_clock(self):
        """A search by a game's clock ends before its share, of 75 ms here, is over; one by `movetime` doesn't. Depth 1 is completed in any time."""
        engine, took = Program(), []
        for go, tries in (("wtime 500 btime 500 winc 100 binc 100", 40), ("movetime 75", 4)):
            for _ in range(tries):
                engine.say("isready")
                engine.wait("readyok")
                begin = time.monotonic()
                engine.say(f"go {go}")
                engine.wait("bestmove .*")
                took.append(1000 * (time.monotonic() - begin))
                if took[-1] < 74:
                    break
        self.assertLess(min(took[:-4]), 74)
        self.assertGreaterEqual(min(took[-4:]), 74)
        for go in ("movetime 0", "wtime 0 btime 0", "wtime 1 btime 1 winc 0 binc 0", "movetime 1", "movetime 0\nisready\nisready"):
            seen = len(engine.lines)
            engine.say(f"go {go}")
            self.assertIsNotNone(engine.wait("bestmove .*"), go)
            first = next(it for it in engine.lines[seen:] if it != "readyok")
            self.assertTrue(first.startswith("info depth 1 score cp 18 "), (go, first))
        self.assertEqual(engine.end(), 0)

    def test_the_report_of_a_depth(self):
        engine = Program()
        engine.say("go depth 4")
        engine.wait("bestmove .*")
        engine.end()
        reports = [re.fullmatch(r"info depth (\d) score cp -?\d+ time \d+ nodes (\d+) nps \d+ pv((?: [a-h][1-8][a-h][1-8])+)", it) for it in engine.lines[:-1]]
        self.assertEqual([it[1] for it in reports], ["1", "2", "3", "4"])
        # (a few thousand positions are enough for each reply)
        self.assertEqual([len(it[3].split()) for it in reports], [1, 2, 3, 4])
        visited = [int(it[2]) for it in reports]
        self.assertTrue(20 <= visited[0] and visited == sorted(visited), visited)

    def test_a_line_after_other_lines(self):
        """The line of best replies follows the session's position. Busy lines and other words leave it unchanged. After a line in another form `pv` has the
        session's own move alone."""
        fools, plain_words = "startpos moves f2f3 e7e5 g2g4", ("debug on", "setoption name Claims value", "register")
        for lines, position, most in (
            ([f"position {fools}", *plain_words], fools, 1),
            ([f"  position\t{fools} \r", "isready"], fools, 1),
            (["position startpos moves e2e4", "ucinewgame"], "startpos", 3),
            (["position startpos", f"position fen  {ONE_MOVE}  moves e8f7"], f"fen {ONE_MOVE} moves e8f7", 3),
            (["position startpos", "please position startpos moves e2e4"], "startpos moves e2e4", 1),
        ):
            engine = Program()
            for line in lines:
                engine.say(line)
            engine.say("go depth 3")
            engine.say(f"position {POSITIONS[1]}")
            engine.wait("bestmove .*")
            engine.end()
            reports = [it for it in engine.lines if " pv " in it]
            self.assertEqual(len(reports), 3, lines)
            for report in reports:
                self.check_line(position, report)
            self.assertEqual(len(reports[-1].split(" pv ")[1].split()), most, (lines, reports))

    def test_the_root_that_is_searched(self):
        """After a second, the roots in their order, each beside the report of its depth; none where the search has some roots alone."""
        roots = [move.uci() for move in board_of("startpos").legal_moves]
        for go, named in (("go infinite", True), ("go infinite searchmoves e2e4 d2d4 g1f3 b1c3 a2a3", False)):
            engine, depth = Program(), 0
            engine.say(go)
            self.assertEqual(engine.wait(r"info depth .* currmove .*", SOON if named else 4) is not None, named, go)
            engine.say("stop")
            engine.wait("bestmove .*")
            engine.end()
            for line in engine.lines:
                depth = int(line.split()[2]) if " score " in line else depth
                if " currmove " in line:
                    _, _, at, _, move, _, number = line.split()
                    self.assertEqual((int(at), move), (depth + 1, roots[int(number) - 1]), line)

    def test_the_end_of_the_input(self):
        """A search that ends by itself does so; one that doesn't is stopped."""
        for line, last in (("go depth 3", "bestmove .*"), ("go movetime 50", "bestmove .*"), ("go infinite", "bestmove .*"), ("isready", "readyok"), ("", None)):
            ran = subprocess.run([ENGINE], input=line + "\n", capture_output=True, text=True, timeout=runs.MOST_SECONDS)
            self.assertEqual((ran.returncode, ran.stderr), (0, ""), line)
            lines = ran.stdout.splitlines()
            self.assertRegex(lines[-1] if lines else "", last or "^$", line)
        ran = subprocess.run([ENGINE], input="isready", capture_output=True, text=True, timeout=runs.MOST_SECONDS)
        self.assertEqual((ran.returncode, ran.stdout), (0, "readyok\n"), "a last line without a line feed")

    def test_a_line_that_is_too_long(self):
        """As `chess uci` has it: 1,048,576 bytes are read, one more is refused, and the next line is read."""
        for more, wanted in ((0, "readyok\nreadyok\n"), (1, "info string line too long\nreadyok\n"), (3_000_000, "info string line too long\nreadyok\n")):
            line = "isready" + " " * (1048576 - 7 + more)
            ran = subprocess.run([ENGINE], input=f"{line}\nisready\n", capture_output=True, text=True, timeout=runs.MOST_SECONDS)
            self.assertEqual((ran.returncode, ran.stdout), (0, wanted), more)

    def test_output_that_nobody_reads(self):
        reader, writer = os.pipe()
        os.close(reader)
        ran = subprocess.run([ENGINE], input=b"uci\n", stdout=writer, stderr=subprocess.PIPE, timeout=runs.MOST_SECONDS)
        os.close(writer)
        self.assertNotEqual(ran.returncode, 0)
        with open("/dev/full", "wb") as full:
            ran = subprocess.run([ENGINE], input=b"uci\n", stdout=full, stderr=subprocess.PIPE, timeout=runs.MOST_SECONDS)
        self.assertEqual((ran.returncode, ran.stderr), (3, b"jatshegi: the replies can't be written: No space left on device\n"))

    def test_streams_that_fail(self):
        """The message says which stream failed, and why."""
        with open("/dev/null", "wb") as closed:
            ran = subprocess.run([ENGINE], stdin=closed, capture_output=True, text=True)
        self.assertEqual((ran.returncode, ran.stdout, ran.stderr), (3, "", "jatshegi: the input can't be read: Bad file descriptor\n"))
        folder = os.open(self.folder, os.O_RDONLY)
        ran = subprocess.run([ENGINE], stdin=folder, capture_output=True, text=True)
        os.close(folder)
        self.assertEqual((ran.returncode, ran.stdout, ran.stderr), (3, "", "jatshegi: the input can't be read: Is a directory\n"))
        ran = subprocess.run([ENGINE, "--record", f"{self.folder}/none/record"], input="", capture_output=True, text=True)
        self.assertEqual((ran.returncode, ran.stdout, ran.stderr), (3, "", "jatshegi: the record can't be written: No such file or directory\n"))

    def test_a_terminal(self):
        ours, its = pty.openpty()
        process = subprocess.Popen([ENGINE], stdin=its, stdout=its)
        os.close(its)
        os.write(ours, b"go infinite\nisready\nstop\nquit\n")
        said = b""
        while b"bestmove" not in said and select.select([ours], [], [], SOON)[0]:
            said += os.read(ours, 4096)
        self.assertIn(b"readyok", said)
        self.assertEqual(process.wait(SOON), 0)
        os.close(ours)

    def test_words(self):
        for words in (["--help"], ["-h"]):
            ran = subprocess.run([ENGINE, *words], capture_output=True, text=True)
            self.assertEqual((ran.returncode, ran.stdout, ran.stderr), (0, runs.help_of("jatshegi"), ""))
        ran = subprocess.run([ENGINE, "--version"], capture_output=True, text=True)
        self.assertEqual((ran.returncode, ran.stdout), (0, f"jatshegi {runs.VERSION}\n"))
        for words in (["go"], ["--record"], ["--record", "a", "b"]):
            ran = subprocess.run([ENGINE, *words], input="", capture_output=True, text=True)
            self.assertEqual((ran.returncode, ran.stdout, ran.stderr), (1, "", runs.help_of("jatshegi")), words)


def play(count):
    """Plays this number of scripts, and prints the longest times of an answer in a search."""
    setUpModule()
    case = TheEngine()
    with tempfile.TemporaryDirectory() as case.folder:
        for seed in range(count):
            case.check_script(seed)
    longest = {"isready": 0, "stop": 0, "movetime": 0}
    for seed in range(count // 20):
        chance, engine = random.Random(seed), Program()
        engine.say(f"position {chance.choice(POSITIONS[:3])}")
        engine.say("go infinite")
        engine.read(chance.random())
        for word, form in (("isready", "readyok"), ("stop", "bestmove .*")):
            begin = time.monotonic()
            engine.say(word)
            engine.wait(form)
            longest[word] = max(longest[word], time.monotonic() - begin)
        budget, begin = chance.randrange(1, 400), time.monotonic()
        engine.say(f"go movetime {budget}")
        engine.wait("bestmove .*")
        longest["movetime"] = max(longest["movetime"], time.monotonic() - begin - budget / 1000)
        engine.end()
    print(f"{count} scripts;", ", ".join(f"{word} {1000 * most:.1f} ms" for word, most in longest.items()), "at most (movetime: after its end)")


if __name__ == "__main__":
    if len(sys.argv) > 1:
        play(int(sys.argv[1]))
    else:
        unittest.main()
