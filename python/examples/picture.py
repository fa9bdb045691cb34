"""A page with a picture of each position of a game, for a browser; in a notebook a board shows its picture by itself.

    python3 picture.py game.pgn >game.html
"""
import html
import sys

import jatshegi


def page(game):
    board = game.board()
    yield f"<!DOCTYPE html><meta charset=utf-8><title>{html.escape(game.headers['White'])} - {html.escape(game.headers['Black'])}</title>"
    yield "<style>figure { display: inline-block; margin: 8px; text-align: center } svg { width: 180px; height: 180px }</style>"
    yield f"<figure>{board._repr_svg_()}<figcaption>start</figcaption></figure>"
    for node in game.mainline():
        caption = board.variation_san([board.parse_san(node.san)])
        board.push_san(node.san)
        yield f"<figure>{board._repr_svg_()}<figcaption>{html.escape(caption)} {html.escape(node.comment)}</figcaption></figure>"


if __name__ == "__main__":
    with open(sys.argv[1], encoding="utf-8", errors="surrogateescape") as file:
        print("\n".join(page(jatshegi.pgn.read_game(file))))
