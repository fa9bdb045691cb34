#!/usr/bin/env python3
"""The board of ours.py as an engine of UCI, with each line that run_uci.py compares: a model for an engine's `d`."""
import json
import sys

import ours

SHOWN = {
    "Fen": lambda board: board.fen(),
    "Checkers": lambda board: " ".join(board.checkers()),
    "Status": lambda board: board.status(),
    "Claims": lambda board: " ".join(board.claims()),
    "Repetitions": lambda board: board.repetitions(),
    "Attacks": lambda board: json.dumps(board.attacks()),
}


def answers(board, words):
    if words == ["d"]:
        yield from (f"{name}: {ask(board)}" for name, ask in SHOWN.items())
    elif words == ["go", "perft", "1"]:
        legal = board.legal()
        yield from (f"{move}: 1" for move in legal)
        yield f"\nNodes searched: {len(legal)}"
    elif words == ["isready"]:
        yield "readyok"


board = None
for line in sys.stdin:
    words = line.split()
    if words[:2] == ["position", "fen"]:
        place = words.index("moves")
        board = ours.Board(" ".join(words[2:place]))
        for move in words[place + 1:]:
            board.push(move)
    for answer in answers(board, words):
        print(answer, flush=True)
