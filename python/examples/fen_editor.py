"""An editor of positions: each line of the input is an edit, and the position is shown after it.

    python3 fen_editor.py ["FEN"]

    put Nf3     a man, his letter as in a FEN, on a square        off f3      the square is empty
    from FEN    another position                                  move e4     a legal move, with its text
    back        without the last edit                             fen         the FEN alone
"""
import sys

import jatshegi


def put(board, words):
    man, square = words[0][0], words[0][1:]
    board.set_piece_at(jatshegi.parse_square(square), jatshegi.Piece.from_symbol(man))


def off(board, words):
    board.remove_piece_at(jatshegi.parse_square(words[0]))


EDITS = {
    "put": put,
    "off": off,
    "from": lambda board, words: board.set_fen(" ".join(words)),
    "move": lambda board, words: board.push_san(words[0]),
}


def edit(lines, board):
    """Does each edit on a copy of the board before, so that one that is refused, or taken back, leaves nothing; and shows the position after it."""
    before = []
    for word, *words in filter(None, map(str.split, lines)):
        other = board.copy()
        try:
            if word in EDITS:
                EDITS[word](other, words)
                before.append(board)
                board = other
            elif word == "back" and before:
                board = before.pop()
            elif word != "fen":
                raise ValueError(f"no edit: {word}")
        except (ValueError, IndexError) as refused:
            yield f"refused: {refused}"
            continue
        yield board.fen() if word == "fen" else f"{board}\n{board.fen()}\n{len(board.legal_moves)} legal moves{', check' if board.is_check() else ''}"


if __name__ == "__main__":
    for shown in edit(sys.stdin, jatshegi.Board(*sys.argv[1:2])):
        print(shown, end="\n\n")
