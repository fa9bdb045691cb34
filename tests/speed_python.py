"""The Python package beside the move generator and the reader of games of pychess, which Debian has: what each does in a second of processor time.

    PYTHONPATH=python /usr/bin/python3 tests/speed_python.py

The same random games for both, and each a second at least; `JATSHEGI_PLAIN=1` measures the package by ctypes alone. Not a test: what it prints is in
docs/PYTHON.md and docs/SPEED.md.
"""
import gc
import itertools
import random
import shutil
import sys
import tempfile
import time

import jatshegi

GAMES, PLIES = 100, 120


def random_games():
    """Games of random legal moves: the moves' texts of each, and the game in export form."""
    chance = random.Random(20)
    for _ in range(GAMES):
        board, sans = jatshegi.Board(), []
        while len(sans) < PLIES and board.status == jatshegi.Status.PLAY:
            move = chance.choice(board.legal_moves)
            sans.append(board.san(move))
            board.push(move)
        yield sans, board.pgn()


def rate(work, count):
    """How often a second of processor time the work is done, which does it `count` times: the quickest of the passes that a second has."""
    gc.collect()
    begin, best = time.process_time(), float("inf")
    while time.process_time() - begin < 1:
        before = time.process_time()
        work()
        best = min(best, time.process_time() - before)
    return count / best


def positions(games):
    """The FENs on the way through the first games."""
    fens = []
    for sans, _ in games[:10]:
        board = jatshegi.Board()
        for san in sans:
            fens.append(board.fen())
            board.push_san(san)
    return fens


KIWIPETE = "r3k2r/p1ppqpb1/bn2pnp1/3PN3/1p2P3/2N2Q1p/PPPBBPPP/R3K2R w KQkq - 0 1"


def many(call, count):
    """The call `count` times."""
    for _ in range(count):
        call()


def one_position():
    """Single calls at one position, as a program makes them that looks at each move."""
    board, start, e4 = jatshegi.Board(KIWIPETE), jatshegi.Board(), jatshegi.Move.from_uci("e2e4")

    def pair():
        start.push(e4)
        start.pop()

    for what, call in (
        ("push and pop at the start, pairs", pair),
        ("legal_moves of Kiwipete", lambda: board.legal_moves),
        ("is_check", board.is_check),
        ("attackers", lambda: board.attackers(True, 36)),
        ("status", lambda: board.status),
        ("fen", board.fen),
        ("san", lambda: start.san(e4)),
        ("piece_at", lambda: board.piece_at(28)),
        ("Board()", jatshegi.Board),
    ):
        yield what, rate(lambda: many(call, 5000), 5000)


def self_play():
    """Random games, each until it is over."""
    chance, plies = random.Random(3), 0
    for _ in range(10):
        board = jatshegi.Board()
        while not board.is_game_over():
            board.push(chance.choice(board.legal_moves))
        plies += board.ply
    return plies


def ours(games, file):
    yield from one_position()
    yield "random self-play, plies", rate(self_play, self_play())
    boards = [jatshegi.Board(fen) for fen in positions(games)]
    tried = [(board, board.legal_moves) for board in boards]
    moves = sum(len(sans) for sans, _ in games)

    def look_ahead():
        for board, found in tried:
            for move in found:
                board.push(move)
                board.pop()

    def replay():
        for sans, _ in games:
            board = jatshegi.Board()
            for san in sans:
                board.push_san(san)

    yield "legal moves as a list, positions", rate(lambda: [board.legal_moves for board in boards], len(boards))
    yield "legal moves made and taken back, pairs", rate(look_ahead, sum(len(found) for _, found in tried))
    yield "games replayed from SAN, moves", rate(replay, moves)
    yield "a file of games read, moves", rate(lambda: sum(1 for game in jatshegi.pgn.games(file)), moves)
    yield "the same with a tag of each", rate(lambda: [game.headers["White"] for game in jatshegi.pgn.games(file)], moves)
    yield "the same with the main line's texts", rate(lambda: [game.mainline_sans() for game in jatshegi.pgn.games(file)], moves)
    yield "the same with the main line's moves", rate(lambda: [list(game.mainline_moves()) for game in jatshegi.pgn.games(file)], moves)
    yield "a file of games read with the tree", rate(lambda: [sum(1 for _ in game.mainline()) for game in jatshegi.pgn.games(file)], moves)
    yield "the same with a report of each game, moves", rate(lambda: [game.report() for game in jatshegi.pgn.games(file)], moves)


def theirs(games, file):
    from pychess.Savers import pgn
    from pychess.System.protoopen import protoopen
    from pychess.Utils.const import NORMALCHESS
    from pychess.Utils.lutils.lmove import parseSAN
    from pychess.Utils.lutils.LBoard import LBoard
    from pychess.Utils.lutils.lmovegen import genAllMoves

    def board_at(fen):
        board = LBoard(NORMALCHESS)
        board.applyFen(fen)
        return board

    start = jatshegi.STARTING_FEN
    boards = [board_at(fen) for fen in positions(games)]
    moves = sum(len(sans) for sans, _ in games)

    def legal(board):
        found = []
        for move in genAllMoves(board):
            board.applyMove(move)
            if not board.opIsChecked():
                found.append(move)
            board.popMove()
        return found

    tried = [(board, legal(board)) for board in boards]

    def look_ahead():
        for board, found in tried:
            for move in found:
                board.applyMove(move)
                board.popMove()

    def replay():
        for sans, _ in games:
            board = board_at(start)
            for san in sans:
                board.applyMove(parseSAN(board, san))

    passes = itertools.count()

    # Its table of tags is beside the file, so each pass has a file of its own.
    def read():
        path = shutil.copy(file, file.replace(".pgn", f"-{next(passes)}.pgn"))
        opened = pgn.load(protoopen(path))
        opened.limit = GAMES
        opened.init_tag_database()
        records, _ = opened.get_records()
        assert len(records) == GAMES
        for record in records:
            opened.loadToModel(record)
        opened.close()

    yield "legal moves as a list, positions", rate(lambda: [legal(board) for board in boards], len(boards))
    yield "legal moves made and taken back, pairs", rate(look_ahead, sum(len(found) for _, found in tried))
    yield "games replayed from SAN, moves", rate(replay, moves)
    yield "a file of games read, moves", rate(read, moves)


def main():
    games = list(random_games())
    with tempfile.TemporaryDirectory() as folder:
        file = f"{folder}/games.pgn"
        with open(file, "w", encoding="latin-1") as text:
            text.write("".join(pgn for _, pgn in games))
        print(f"Python {sys.version.split()[0]}, {len(games)} games of {sum(len(sans) for sans, _ in games)} moves")
        for name, of in (("jatshegi", ours), ("pychess", theirs)):
            for what, found in of(games, file):
                print(f"{name:10} {what:45} {found:12,.0f} a second", flush=True)


if __name__ == "__main__":
    main()
