"""PyChess's own board and reader of games for run_class.py: /usr/bin/python3 suite/run_class.py --target attacked of_pychess:Board (Debian's package pychess)

It has no draws by fivefold repetition and 75 moves: where it counts five times or 150 plies, and the game isn't over, it isn't asked for the status.
"""
import builtins
import io

from pychess.Utils.const import NORMALCHESS, WHITE
from pychess.Utils.lutils.attack import getAttacks
from pychess.Utils.lutils.bitboard import iterBits
from pychess.Utils.lutils.ldata import FILE, RANK
from pychess.Utils.lutils.ldraw import testFifty, testMaterial
from pychess.Utils.lutils.LBoard import LBoard
from pychess.Utils.lutils.lmove import parseAN, toAN, toSAN
from pychess.Utils.lutils.lmovegen import genAllMoves

CASTLING = {"O-O": "g", "O-O-O": "c"}


class Board:
    def __init__(self, fen):
        self.board = LBoard(NORMALCHESS)
        self.board.applyFen(fen)
        self.known = None

    def push(self, text):
        self.board.applyMove(parseAN(self.board, text))
        self.known = None

    def fen(self):
        return self.board.asFen()

    def moves(self):
        """Its legal moves by their texts."""
        if self.known is None:
            self.known = {}
            for move in genAllMoves(self.board):
                if not self.board.willLeaveInCheck(move):
                    text = toAN(self.board, move)
                    rank = "1" if self.board.color == WHITE else "8"
                    self.known[f"e{rank}{CASTLING[text]}{rank}" if text in CASTLING else text.lower().replace("=", "")] = move
        return self.known

    def legal(self):
        return list(self.moves())

    def san(self, text):
        return toSAN(self.board, self.moves()[text])

    def check(self):
        return self.board.isChecked()

    def checkers(self):
        king = self.board.kings[self.board.color]
        return ["abcdefgh"[FILE(it)] + "12345678"[RANK(it)] for it in iterBits(getAttacks(self.board, king, 1 - self.board.color))]

    def repetitions(self):
        return self.board.repetitionCount(draw_threshold=1000)

    def is_over(self):
        return not self.moves() or bool(testMaterial(self.board))

    def status(self):
        if not self.moves():
            return "mate" if self.check() else "stalemate"
        if testMaterial(self.board):
            return "dead"
        return None if self.repetitions() >= 5 or self.board.fifty >= 150 else "play"

    def claims(self):
        if self.is_over():
            return []
        if self.status() is None:
            return None
        return ["threefold"] * (self.repetitions() >= 3) + ["fifty"] * testFifty(self.board)

    @staticmethod
    def game(text):
        builtins.__dict__.setdefault("_", str)
        from pychess.Savers import pgn
        file = pgn.load(io.StringIO(text))
        tags = {name: value for name, value in file.games[0].items() if isinstance(value, str)}
        start = file.loadToModel(0).boards[0].board
        comment = comment_of(start)
        return {
            "tags": tags, **({"start": tags["FEN"]} if tags.get("FEN") else {}), **({"comment": comment} if comment else {}),
            "moves": line_from(start.next), "result": tags.get("Result", "*"),
        }


def comment_of(node):
    return " ".join(" ".join(it for it in node.children if isinstance(it, str)).split())


def line_from(node, before=""):
    """The moves from a node on, each with those that may be played in its place; a comment before the first is the first's."""
    moves = []
    while node:
        variations = [line_from(first.next, comment_of(first)) for first, *_ in (it for it in node.children if isinstance(it, list))]
        move = {"san": toSAN(node.prev, node.lastMove), "nags": [int(it[1:]) for it in node.nags], "comment": f"{before} {comment_of(node)}".strip(),
                "variations": [it for it in variations if it]}
        moves.append({name: value for name, value in move.items() if value})
        node, before = node.next, ""
    return moves
