"""`chess_games --format positions`: a row for each ply of a game's main line. The rows of random games and of those in suite/ are compared with a board of the
Python package that makes the same moves; docs/FORMATS.md has the columns."""
import csv
import importlib
import io
import json
import random
import subprocess
import sys
import unittest

import runs
from test_parallel import BAD, GAMES

PACKAGE = f"{runs.TOP}/python"
NAMES = ["game", "ply", "uci", "san", "fen", "epd", "key", "repetitions", "status", "result"]
NUMBERS = ("game", "ply", "repetitions")
STATUSES = ("mate", "stalemate", "dead", "fivefold", "seventyfive", "play")
RANDOM_GAMES = 40
# Few men, so that games end in each way and positions come up again.
STARTS = [
    None,
    "r3k2r/p1ppqpb1/bn2pnp1/3PN3/1p2P3/2N2Q1p/PPPBBPPP/R3K2R w KQkq - 0 1",
    "8/2p5/3p4/KP5r/1R3p1k/8/4P1P1/8 w - - 0 1",
    "4k3/8/8/8/8/8/4P3/4K2R w K - 130 99",
    "7k/5K2/8/6Q1/8/8/8/8 w - - 3 60",
    "8/8/8/8/k2p3R/8/4P3/4K3 w - - 0 1",
    "8/P6k/8/8/8/8/p6K/8 b - - 0 50",
]


def ran(text, *words):
    given = text if isinstance(text, bytes) else text.encode()
    return subprocess.run([GAMES, *words], input=given, capture_output=True, timeout=runs.MOST_SECONDS)


def rows(text, *words, status=0):
    """The rows as dictionaries; those of both formats say the same, and are written as csv and json read them."""
    table, lines = ran(text, "--format", "positions", *words), ran(text, "--format", "positions-jsonl", *words)
    assert (table.returncode, lines.returncode) == (status, status), (table, lines)
    found = [json.loads(line) for line in lines.stdout.splitlines()]
    values = list(csv.DictReader(io.StringIO(table.stdout.decode("ascii"), newline="")))
    read = [{name: (int(value) if name in NUMBERS else value or None) for name, value in row.items()} for row in values]
    assert read == found
    assert all(line.endswith(b"\r\n") for line in table.stdout.splitlines(keepends=True))
    return found


class Rows(unittest.TestCase):
    def test_no_game(self):
        self.assertEqual(ran("", "--format", "positions").stdout, (",".join(NAMES) + "\r\n").encode())
        self.assertEqual(ran("", "--format", "positions-jsonl").stdout, b"")

    def test_export_form_is_what_is_written_without_the_option(self):
        text = "1. e4 e5 *\n\n1. d4 *\n"
        self.assertEqual(ran(text, "--format", "pgn").stdout, ran(text).stdout)

    def test_columns_in_their_order(self):
        ended = ran("1. e4 e5 1-0", "--format", "positions", "--columns", "san,ply,result")
        self.assertEqual(ended.stdout, b"san,ply,result\r\n,0,1-0\r\ne4,1,1-0\r\ne5,2,1-0\r\n")
        ended = ran("1. e4 *", "--format", "positions-jsonl", "--columns", "key")
        self.assertEqual(ended.stdout, b'{"key":"463b96181691fc9c"}\n{"key":"823c9b50fd114196"}\n')
        for name in NAMES:
            with self.subTest(name=name):
                self.assertEqual(list(rows("1. e4 *", "--columns", f"ply,{name}" if name != "ply" else name)[0]), ["ply", name][name == "ply":])

    def test_an_empty_value_alone_is_an_empty_line(self):
        """As docs/FORMATS.md says: a reader of csv may pass over it."""
        self.assertEqual(ran("1. e4 *", "--format", "positions", "--columns", "uci").stdout, b"uci\r\n\r\ne2e4\r\n")
        self.assertEqual(ran("1. e4 *", "--format", "positions-jsonl", "--columns", "uci").stdout, b'{"uci":null}\n{"uci":"e2e4"}\n')

    def test_columns_that_are_none(self):
        wrong = [["--format", "positions", "--columns", text] for text in ("", "ply,", "Ply", "ply,ply", "elo", "ply key")]
        for words in (["--columns", "ply"], ["--format", "pgn", "--columns", "ply"], ["--format", "csv"], *wrong):
            with self.subTest(words=words):
                ended = ran("1. e4 *", *words)
                self.assertEqual((ended.returncode, ended.stdout), (1, b""))
                self.assertIn(b"error: ", ended.stderr)

    def test_numbers_of_games(self):
        """A bad game has a number and no row; a part has the numbers of the whole."""
        text = f'[White "a"]\n\n1. e4 *\n\n{BAD}[White "b"]\n\n1. d4 *\n\n[White "c"]\n\n*\n'
        found = rows(text, "--columns", "game,ply", status=2)
        self.assertEqual([(row["game"], row["ply"]) for row in found], [(1, 0), (1, 1), (3, 0), (3, 1), (4, 0)])
        parts = [rows(text, "--columns", "game,ply", "--part", f"{k}/2", status=2 * (k == 2)) for k in (1, 2)]
        self.assertEqual([row["game"] for row in parts[0]], [1, 1, 3, 3])
        self.assertEqual([row["game"] for row in parts[1]], [4])

    def test_salvaged_games(self):
        """What is repaired has rows, too, and the good ones those that they have without it."""
        text = '[White "a"]\n\n1. e4 O-O *\n\n[White "b"]\n\n1. d2-d4 d7-d5 *\n\n[White "c"]\n\n1. c4 *\n'
        found = rows(text, "--salvage", "--columns", "game,uci")
        self.assertEqual([(row["game"], row["uci"]) for row in found], [(1, None), (1, "e2e4"), (2, None), (2, "d2d4"), (2, "d7d5"), (3, None), (3, "c2c4")])
        good = "1. e4 e5 2. Nf3 Nc6 1-0\n\n1. d4 1/2-1/2\n"
        self.assertEqual(rows(good, "--salvage"), rows(good))

    def test_a_failed_write(self):
        with open("/dev/full", "wb") as full:
            for text in ("", "1. e4 *"):
                ended = subprocess.run([GAMES, "--format", "positions"], input=text.encode(), stdout=full, stderr=subprocess.PIPE, timeout=runs.MOST_SECONDS)
                self.assertEqual((ended.returncode, ended.stderr), (3, b"write fault\n"))


class BesideABoard(unittest.TestCase):
    @classmethod
    def setUpClass(cls):
        runs.make("libraries")
        sys.path.insert(0, PACKAGE)
        cls.jatshegi = importlib.import_module("jatshegi")

    @classmethod
    def tearDownClass(cls):
        sys.path.remove(PACKAGE)

    def check(self, board, found, number, result):
        """The rows of one game, made again on the board, which is where it begins."""
        for ply, row in enumerate(found):
            move = None
            if ply:
                move = self.jatshegi.Move.from_uci(row["uci"])
                self.assertEqual(row["san"], board.san(move))
                board.push(move)
            wanted = {"game": number, "ply": ply, "uci": move and move.uci(), "san": row["san"] if ply else None, "fen": board.fen(), "epd": board.epd()}
            wanted |= {"key": f"{board.polyglot_key():016x}", "repetitions": board.repetitions(), "status": STATUSES[board.status], "result": result}
            self.assertEqual(row, wanted)

    def random_game(self, chance, start):
        """The text of a game of random moves, which goes back and forth now and then."""
        board = self.jatshegi.Board() if start is None else self.jatshegi.Board(start)
        words, back = [], None
        for _ in range(chance.randint(0, 90)):
            moves = list(board.legal_moves)
            if not moves:
                break
            returns = [move for move in moves if back and (move.from_square, move.to_square) == back[0]]
            move = returns[0] if returns and chance.random() < 0.7 else chance.choice(moves)
            back = (back[1:] if back else []) + [(move.to_square, move.from_square)]
            back = back[-2:] if len(back) >= 2 else None if not back else [back[0], back[0]]
            words.append(board.san(move))
            board.push(move)
        head = "" if start is None else f'[FEN "{start}"]\n'
        return f'[White "w"]\n{head}\n{" ".join(words)} '

    def test_random_games(self):
        chance = random.Random(62)
        starts = [chance.choice(STARTS) for _ in range(RANDOM_GAMES)]
        results = [chance.choice(("1-0", "0-1", "1/2-1/2", "*")) for _ in starts]
        text = "\n\n".join(self.random_game(chance, start) + result for start, result in zip(starts, results))
        found = rows(text)
        seen = set()
        for number, (start, result) in enumerate(zip(starts, results), 1):
            with self.subTest(number=number):
                board = self.jatshegi.Board() if start is None else self.jatshegi.Board(start)
                mine = [row for row in found if row["game"] == number]
                self.check(board, mine, number, result)
                seen.update(row["status"] for row in mine)
                seen.add(max(row["repetitions"] for row in mine))
        # (what is compared has to come up)
        self.assertLessEqual({"play", "mate", "seventyfive", 1, 2, 3}, seen)
        self.assertEqual(set(range(1, RANDOM_GAMES + 1)), {row["game"] for row in found})

    def test_games_of_the_suite(self):
        with open(f"{runs.TOP}/suite/claims.pgn", "rb") as file:
            text = file.read()
        found = rows(text)
        games = [list(group) for group in self.by_game(found)]
        self.assertEqual(len(games), 6)
        for number, mine in enumerate(games, 1):
            board = self.jatshegi.Board(mine[0]["fen"])
            self.check(board, mine, number, mine[0]["result"])

    def by_game(self, found):
        for number in sorted({row["game"] for row in found}):
            yield [row for row in found if row["game"] == number]

    def test_equal_positions_have_equal_texts_and_keys_follow(self):
        """Two ways to one position: the same four fields, and the same key."""
        one, other = (rows(f"{moves} *")[-1] for moves in ("1. Nf3 Nf6 2. g3 g6", "1. g3 g6 2. Nf3 Nf6"))
        self.assertEqual((one["epd"], one["key"]), (other["epd"], other["key"]))
        self.assertNotEqual(one["fen"], other["fen"])


if __name__ == "__main__":
    unittest.main()
