"""The package as a program:

    python -m jatshegi [FEN]        shows the position, the one in which a game begins without a FEN, and what the Laws say of it
    python -m jatshegi pgn FILE     writes the games of a file (- for standard input) in export form; each that can't be read is reported
"""
import sys
from typing import List

from . import Board, InvalidFenError, InvalidGameError, WHITE, pgn


def show(fen: str) -> int:
    """Writes a board, its FEN, and what the Laws say of it."""
    try:
        board = Board(fen) if fen else Board()
    except InvalidFenError as fault:
        print(f"jatshegi: {fault}", file=sys.stderr)
        return 2
    print(board, board.fen(), sep="\n\n")
    outcome = board.outcome()
    if outcome:
        print(outcome.result(), board.status.name.lower().replace("_", " "))
    else:
        print(f"{'White' if board.turn == WHITE else 'Black'} to move{', in check' if board.is_check() else ''}: {' '.join(map(board.san, board.legal_moves))}")
    return 0


def rewrite(path: str) -> int:
    """Writes the games of a file. The status is 1 where some couldn't be read, and 2 where the file couldn't."""
    bad: List[InvalidGameError] = []
    try:
        for game in pgn.games(path, bad.append):
            sys.stdout.buffer.write(bytes(game))
    except (EOFError, OSError) as fault:
        print(f"jatshegi: {fault}", file=sys.stderr)
        return 2
    for error in bad:
        print(f"jatshegi: {error}", file=sys.stderr)
    return 1 if bad else 0


def main(words: List[str]) -> int:
    """Does what the words of a command ask for."""
    if words[:1] in (["-h"], ["--help"]):
        print((__doc__ or "").strip())
        return 0
    if words[:1] == ["pgn"] and len(words) == 2:
        return rewrite(words[1])
    if words[:1] != ["pgn"] and len(words) in (0, 1, 4, 6):
        return show(" ".join(words))
    print((__doc__ or "").strip(), file=sys.stderr)
    return 2


if __name__ == "__main__":
    sys.exit(main(sys.argv[1:]))
