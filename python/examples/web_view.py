"""What a web service answers of a position, as an application for any server by WSGI: `/?fen=FEN&moves=e4,e5` is its data, with `&svg` its picture.

    python3 web_view.py 8000
"""
import json
import sys
from urllib.parse import parse_qs
from wsgiref.simple_server import make_server

import jatshegi


def asked(query: dict[str, list[str]]) -> jatshegi.Board:
    """The board of a query: a position, and moves from it. Raises `ValueError` for what is none."""
    board = jatshegi.Board(query.get("fen", [jatshegi.STARTING_FEN])[0])
    for san in filter(None, query.get("moves", [""])[0].split(",")):
        board.push_san(san)
    return board


def view(board):
    """What there is to say of the position."""
    outcome = board.outcome()
    best = board.best_within(time=0.05, nodes=50_000)
    return {
        "fen": board.fen(),
        "turn": "white" if board.turn == jatshegi.WHITE else "black",
        "legal": {move.uci(): board.san(move) for move in board.legal_moves},
        "check": [jatshegi.square_name(square) for square in board.checkers()],
        "outcome": None if outcome is None else {"result": outcome.result(), "by": outcome.termination.name.lower()},
        "best": best and board.san(best.move),
    }


def application(environment, start):
    query = parse_qs(environment.get("QUERY_STRING", ""), keep_blank_values=True)
    try:
        board = asked(query)
        if "svg" in query:
            last = board.peek() if board.ply else None
            status, kind, text = "200 OK", "image/svg+xml", jatshegi.svg.board(board, lastmove=last, size=400)
        else:
            status, kind, text = "200 OK", "application/json", json.dumps(view(board))
    except ValueError as fault:
        status, kind, text = "400 Bad Request", "application/json", json.dumps({"error": str(fault)})
    start(status, [("Content-Type", f"{kind}; charset=utf-8")])
    return [text.encode("utf-8", "replace")]


if __name__ == "__main__":
    with make_server("127.0.0.1", int(sys.argv[1]), application) as server:
        server.serve_forever()
