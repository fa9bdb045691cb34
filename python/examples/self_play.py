"""Games of the engine, one side looking deeper than the other, from random openings: written as PGN.

    python3 self_play.py 4 >games.pgn
"""
import random
import sys

import jatshegi


def play(number, depths, chance, most=160):
    """One game: six random plies, then the best move at each side's depth, until the game is over, may be claimed as a draw, or is long enough."""
    board = jatshegi.Board()
    while board.ply < 6:
        board.push(chance.choice(board.legal_moves))
    while board.ply < most and not board.is_game_over(claim_draw=True):
        found = board.best(depths[board.turn])
        assert found is not None, "a game that isn't over has a move"
        board.push(found[0])
    board.headers["Event"], board.headers["Round"] = "Self-play", str(number)
    board.headers["White"], board.headers["Black"] = (f"depth {depths[colour]}" for colour in (jatshegi.WHITE, jatshegi.BLACK))
    board.marker = board.result(claim_draw=True)
    return board


if __name__ == "__main__":
    chance = random.Random(1)
    for number in range(1, int(sys.argv[1]) + 1):
        white = 1 + number % 2
        print(play(number, {jatshegi.WHITE: white, jatshegi.BLACK: 3 - white}, chance).pgn(), end="")
