"""The board of this repository for run_class.py, a model for others: suite/run_class.py ours:Board"""
import os
import sys

sys.path.insert(0, f"{os.path.dirname(os.path.realpath(__file__))}/../../python")
import jatshegi

STATUSES = ("mate", "stalemate", "dead", "fivefold", "seventyfive", "play")
# The kinds of fault, by their numbers less 1 (docs/FORMATS.md).
FENS = ("fields", "placement", "kings", "pawn_rank", "too_many_men", "side", "castling", "target", "counter", "in_check")
GAMES = ("bad_token", "bad_tag", "bad_move", "bad_variation", "too_deep", "ends_early", "bad_fen", "no_memory", "too_large")


class Refused(ValueError):
    def __init__(self, fault, at=None):
        super().__init__(fault, at)
        self.fault, self.at = fault, at


class Board:
    def __init__(self, fen):
        try:
            self.board = jatshegi.Board(fen)
        except jatshegi.InvalidFenError as error:
            raise Refused(FENS[error.fault - 1]) from None

    def push(self, move):
        self.board.push_uci(move)

    def fen(self):
        return self.board.fen()

    def legal(self):
        return [move.uci() for move in self.board.legal_moves]

    def san(self, move):
        return self.board.san(jatshegi.Move.from_uci(move))

    def check(self):
        return self.board.is_check()

    def checkers(self):
        return [jatshegi.square_name(square) for square in self.board.checkers()]

    def status(self):
        return STATUSES[self.board.status]

    def claims(self):
        return [name for name, is_there in zip(("threefold", "fifty"), self.board.claims()) if is_there]

    def repetitions(self):
        return self.board.repetitions()

    def attacks(self):
        return {"white": self.board.attack_counts(jatshegi.WHITE), "black": self.board.attack_counts(jatshegi.BLACK)}

    @staticmethod
    def game(text):
        try:
            game = jatshegi.pgn.read_game(text)
        except jatshegi.InvalidGameError as error:
            raise Refused(GAMES[error.fault - 1], error.place) from None
        start = {"start": game.start} if game.start else {}
        comment = {"comment": game.comment} if game.comment else {}
        return {"tags": dict(game.headers), **start, **comment, "moves": line_after(game), "result": game.result}


def line_after(node):
    """The moves of the line after a node, each with those that may be played in its place."""
    moves = []
    while node.children:
        moves.append(shown(*node.children))
        node = node.children[0]
    return moves


def shown(node, *others):
    move = {"san": node.san, "nags": list(node.nags), "comment": node.comment, "variations": [[shown(it), *line_after(it)] for it in others]}
    return {name: value for name, value in move.items() if value}
