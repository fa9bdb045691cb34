"""Annotates the games of a file: each move that loses a pawn or more against the best one gets `?` or `??`, and the better move as a variation.

    python3 annotate.py games.pgn 4 >annotated.pgn
"""
import sys

import jatshegi

MISTAKE, BLUNDER = 2, 4


def annotate(game, depth):
    """A board with the game, its mistakes marked."""
    board = jatshegi.Board.from_game(game)
    for node in game.mainline():
        move, found = board.parse_san(node.san), board.best(depth)
        assert found is not None, "a position in which a move was made has a best one"
        best, worth = found
        if move != best:
            board.push(move)
            # What the reply is worth is worth that to the other side; where there is none, the game is over.
            reply = board.best(depth - 1)
            loss = worth - (-reply[1] if reply else worth)
            if loss >= 100:
                board.line(f"nag {BLUNDER if loss >= 300 else MISTAKE}")
            board.back()
            if loss >= 100:
                board.push(best)
                board.line(f"comment better by {loss / 100:.1f}")
                board.back()
        board.push(move)
    board.headers["Annotator"] = f"Jatshegi {jatshegi.__version__}, depth {depth}"
    return board


if __name__ == "__main__":
    for game in jatshegi.pgn.games(sys.argv[1]):
        print(annotate(game, int(sys.argv[2])).pgn(), end="")
