"""Makes a game of an opening's lines, one a line of the input: moves, then `!`, `?` or another annotation, then what is said of the last move.

    printf 'e4 c5 Nf3 ! the open Sicilian\\ne4 e5\\n' | python3 repertoire.py Anna 2

Lines that begin alike share their moves. After the last move of each comes the best one by the engine at that depth, and the line that it values most for White
is the main one.
"""
import sys

import jatshegi

NAGS = {"!": 1, "?": 2, "!!": 3, "??": 4, "!?": 5, "?!": 6}


def add(game, words):
    """The node at the end of a line of words."""
    board, moves = game.board(), []
    for word in words:
        try:
            moves.append(board.push_san(word))
        except ValueError:
            break
    words = words[len(moves) :]
    nags = [NAGS[words.pop(0)]] if words and words[0] in NAGS else []
    return game.add_line(moves, comment=" ".join(words), nags=nags)


def value(node, depth):
    """What the position is worth for White by the engine, whose move is added."""
    found = node.board().best(depth)
    if not found:
        return 0
    move, worth = found
    worth = worth if node.turn() == jatshegi.WHITE else -worth
    node.add_variation(move).comment = f"depth {depth}: {worth / 100:+.2f}"
    return worth


if __name__ == "__main__":
    game = jatshegi.pgn.Game()
    game.headers["White"], game.headers["Event"] = sys.argv[1], "Repertoire"
    nodes = [add(game, line.split()) for line in sys.stdin if line.strip()]
    values = {node: value(node, int(sys.argv[2])) for node in nodes if node.is_end()}
    node = max(values, key=lambda it: values[it], default=game)
    while node.parent:
        node.parent.promote_to_main(node)
        node = node.parent
    print(game, end="")
