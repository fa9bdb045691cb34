"""Checks puzzles: of each line, a FEN, a tab and a number of moves, whether the side to move mates in that many moves and not in fewer, and by which
first moves.

    python3 puzzles.py <puzzles.txt
"""
import sys

import jatshegi


def mates(board, moves):
    """Whether the side to move mates in this number of moves: a mate is worth 30,000 less its plies."""
    best = board.best(2 * moves - 1)
    return best is not None and best[1] >= 30000 - (2 * moves - 1)


def keys(board, moves):
    """The first moves after which each reply is answered by mate in time."""
    for move in board.legal_moves:
        board.push(move)
        replies = board.legal_moves
        lost = board.is_checkmate() if not replies else moves > 1
        for reply in replies if lost else ():
            board.push(reply)
            lost = mates(board, moves - 1)
            board.pop()
            if not lost:
                break
        board.pop()
        if lost:
            yield board.san(move)


def check(line):
    fen, moves = line.rstrip("\n").split("\t")
    board, moves = jatshegi.Board(fen), int(moves)
    if moves > 1 and mates(board, moves - 1):
        return "it is mate in fewer moves"
    found = list(keys(board, moves))
    return f"key {' or '.join(found)}" if found else "there is no such mate"


if __name__ == "__main__":
    for line in sys.stdin:
        print(check(line))
