"""The opening tree of a file of games: in each position the moves that were played, how often, and how White scored with them.

    python3 opening_tree.py games.pgn 6

Positions are the same where their `epd` is, so ways that lead to the same position meet.
"""
import sys
from collections import defaultdict

import jatshegi

SCORES = {"1-0": 1.0, "0-1": 0.0, "1/2-1/2": 0.5}


def tree_of(path, plies):
    """For each position the moves with their number and White's points."""
    tree: dict[str, dict[str, list[float]]] = defaultdict(lambda: defaultdict(lambda: [0, 0.0]))
    for game in jatshegi.pgn.games(path, lambda fault: print(fault, file=sys.stderr)):
        board = game.board()
        for san in game.mainline_sans():
            if board.ply == plies or game.result not in SCORES:
                break
            row = tree[board.epd()][san]
            row[0] += 1
            row[1] += SCORES[game.result]
            board.push_san(san)
    return tree


def show(tree, board, plies, indent=""):
    for san, (count, points) in sorted(tree[board.epd()].items(), key=lambda row: -row[1][0]):
        print(f"{indent}{san:8}{count:6}{100 * points / count:7.1f} %")
        if plies > 1:
            board.push_san(san)
            show(tree, board, plies - 1, indent + "  ")
            board.pop()


if __name__ == "__main__":
    path, plies = sys.argv[1], int(sys.argv[2])
    show(tree_of(path, plies), jatshegi.Board(), plies)
