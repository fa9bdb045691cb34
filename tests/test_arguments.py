"""Each public call of the Python package with wrong words: a TypeError or a ValueError that names what was expected, and nothing has changed."""
import importlib
import re
import struct
import sys
import tempfile
import unittest

import runs

PACKAGE = f"{runs.TOP}/python"


def setUpModule():
    runs.make("libraries")
    sys.path.insert(0, PACKAGE)
    global jatshegi, engine
    jatshegi, engine = importlib.import_module("jatshegi"), importlib.import_module("jatshegi.engine")


def tearDownModule():
    sys.path.remove(PACKAGE)


# Words of each kind that are none, and how a message names what was expected.
NUMBERS = [1 << 70, -(1 << 70), -1, "1", None, 1.5, float("nan"), b"1", [], (), {}, object()]
WRONG = {
    "square": ([64, 100, 255, 256, *NUMBERS], "square"),
    "kind": ([0, 7, *NUMBERS], "kind"),
    "line": ([8, *NUMBERS], "0 to 7"),
    "color": ([2, -1, "white", None, 0.5, [], object()], "colour"),
    "move": (["e2e4", b"e2e4", (12, 28), (12, 28, None), 12, None, 1.5, [], object()], "[Mm]ove"),
    "text": ([1, None, b"e4", 1.5, [], {}, object()], "text|name"),
    "nothing": (["", "zz", "\0", "\udc80", "e9"], "."),
    "depth": ([0, 17, 300, *NUMBERS], "depth"),
    "count": ([0, *NUMBERS[1:]], "number of times"),
    "time": ([-1, float("nan"), float("inf"), "1", [], object()], "seconds"),
    "nodes": ([-1, "1", 1.5, [], object()], "positions"),
    "encoding": ([1, b"utf-8", [], object(), "utf-16"], "encoding"),
    "moment": ([1 << 64, *NUMBERS], "milliseconds"),
    "board": ([1, None, "x y", [], object()], "Board|FEN|position"),
    "nag": ([256, *NUMBERS], "annotation"),
    "size": ([0, -1, "1", 1.5, [], object()], "pixel"),
    "mapping": ([1, "x", [], object()], "mapping|position"),
    "mask": ([1 << 64, -1, 1.5, None, object()], "word of 64 bits"),
    "source": ([1, None, 1.5, [], object()], "text|bytes"),
    "path": ([1, 1.5, None, [], object()], "path"),
    "visitor": ([1, None, object()], "visitor"),
    "weight": (["1", 1.5, None, []], "weight"),
}


def calls():
    """Each public call that takes words: its name, itself, words that it takes, and the kind of each that is made wrong."""
    chess, board, game, svg = jatshegi, jatshegi.Board(), jatshegi.pgn.read_game("1. e4 $1 {a} e5 (1... c5) *"), jatshegi.svg
    move, pawn, empty = chess.Move(12, 28), chess.Piece(chess.PAWN, True), chess.pgn.Game()
    node = game.next()
    yield "square", chess.square, (0, 0), ("line", "line")
    for name in ("square_file", "square_rank", "square_name"):
        yield name, getattr(chess, name), (0,), ("square",)
    yield "parse_square", chess.parse_square, ("e4",), ("text",)
    yield "Move.from_uci", chess.Move.from_uci, ("e2e4",), ("text",)
    yield "Piece", chess.Piece, (1, True), ("kind", "color")
    yield "Piece.from_symbol", chess.Piece.from_symbol, ("P",), ("text",)
    yield "SquareSet", chess.SquareSet, (0,), ("mask",)
    yield "SquareSet of squares", lambda square: chess.SquareSet([square]), (0,), ("square",)
    for name in ("add", "discard", "from_square"):
        yield f"SquareSet.{name}", getattr(chess.SquareSet(), name), (0,), ("square",)
    yield "Board", lambda fen: chess.Board(fen), (chess.STARTING_FEN,), ("fen",)
    yield "Board of an encoding", lambda encoding: chess.Board(encoding=encoding), ("utf-8",), ("encoding",)
    for name, words, kinds in (
        ("set_fen", (chess.STARTING_FEN,), ("text",)),
        *((name, (move,), ("move",)) for name in ("push", "san", "is_legal", "lan", "gives_check", "is_capture", "is_castling", "is_en_passant", "is_zeroing")),
        *((name, (move,), ("move",)) for name in ("is_kingside_castling", "is_queenside_castling")),
        ("push_san", ("e4",), ("text",)),
        ("uci", (move,), ("move",)),
        ("parse_uci", ("e2e4",), ("text",)),
        ("find_move", (12, 28), ("square", "square")),
        ("push_uci", ("e2e4",), ("text",)),
        ("parse_san", ("e4",), ("text",)),
        ("line", ("fen",), ("text",)),
        *((name, (0,), ("square",)) for name in ("piece_at", "piece_type_at", "color_at", "remove_piece_at", "attacks")),
        ("set_piece_at", (8, pawn), ("square",)),
        ("set_piece_map", ({0: "K", 63: "k"},), ("mapping",)),
        ("pieces", (1, True), ("kind", "color")),
        *((name, (True,), ("color",)) for name in ("king", "has_castling_rights", "has_kingside_castling_rights", "has_queenside_castling_rights", "has_insufficient_material", "attack_counts")),
        ("attackers", (True, 0), ("color", "square")),
        ("is_attacked_by", (True, 0), ("color", "square")),
        ("is_repetition", (1,), ("count",)),
        ("best", (1,), ("depth",)),
        ("search", (1,), ("depth",)),
        ("best_within", (1,), ("depth",)),
    ):
        yield f"Board.{name}", lambda *given, name=name: getattr(jatshegi.Board(), name)(*given), words, kinds
    yield "Board.set_piece_at, a man", lambda man: board.set_piece_at(8, man), ("P",), ("man",)
    yield "Board.claims", board.claims, (move,), ("claimed",)
    yield "Board.best_within, time", lambda time: board.best_within(1, time=time), (1,), ("time",)
    yield "Board.best_within, nodes", lambda nodes: board.best_within(1, nodes=nodes), (1,), ("nodes",)
    yield "Board.variation_san", lambda it: board.variation_san([it]), (move,), ("move",)
    yield "Board.from_game", chess.Board.from_game, (game,), ("game",)
    yield "Engine.line", chess.Engine().line, ("uci",), ("text",)
    yield "Engine.moment", chess.Engine().moment, (1,), ("moment",)
    yield "pgn.read_game", chess.pgn.read_game, ("*",), ("source",)
    yield "pgn.read_headers", chess.pgn.read_headers, ("*",), ("source",)
    yield "pgn.games", lambda source: list(chess.pgn.games(source)), (b"*",), ("source",)
    for name in ("read_game", "read_headers"):
        yield f"pgn.{name}, encoding", lambda encoding, name=name: getattr(chess.pgn, name)("*", encoding=encoding), ("utf-8",), ("read_in",)
    yield "pgn.Game", chess.pgn.Game, ("*",), ("source",)
    yield "Game.from_board", chess.pgn.Game.from_board, (board,), ("board",)
    yield "Game.setup", empty.setup, (board,), ("board",)
    yield "Game.board", game.board, (node,), ("node",)
    yield "Game.accept", game.accept, (chess.pgn.StringExporter(),), ("visitor",)
    yield "Node.accept", node.accept, (chess.pgn.StringExporter(),), ("visitor",)
    yield "Node.add_variation", node.add_variation, ("c6",), ("played",)
    yield "Node.add_line", lambda it: node.add_line([it]), ("c6",), ("played",)
    yield "Node.add_variation, comment", lambda it: node.add_variation("c6", comment=it), ("x",), ("said",)
    yield "Node.add_nag", node.add_nag, (3,), ("nag",)
    yield "Node.comment", lambda it: setattr(node, "comment", it), ("x",), ("said",)
    yield "Headers", lambda it: game.headers.__setitem__("White", it), ("x",), ("said",)
    yield "Headers, a name", lambda it: game.headers.__setitem__(it, "x"), ("White",), ("said",)
    yield "Tags", lambda it: board.headers.__setitem__("White", it), ("x",), ("said",)
    yield "Game.result", lambda it: setattr(game, "result", it), ("*",), ("end",)
    yield "Board.marker", lambda it: setattr(board, "marker", it), ("*",), ("end",)
    yield "svg.board", lambda it: svg.board(it), (board,), ("drawn",)
    for name, good, kind in (("orientation", True, "color"), ("lastmove", move, "drawn_move"), ("check", 4, "drawn_square"), ("fill", {}, "mapping"), ("colors", {}, "mapping"), ("size", 90, "size")):
        yield f"svg.board, {name}", lambda it, name=name: svg.board(board, **{name: it}), (good,), (kind,)
    yield "svg.board, squares", lambda it: svg.board(squares=[it]), (4,), ("square",)
    yield "svg.board, arrows", lambda it: svg.board(arrows=[(0, it)]), (4,), ("square",)
    yield "svg.piece", svg.piece, (pawn,), ("text",)
    yield "polyglot.zobrist_hash", chess.polyglot.zobrist_hash, (board,), ("board",)
    yield "polyglot.open_reader", chess.polyglot.open_reader, (BOOK.name,), ("path",)
    reader = chess.polyglot.open_reader(BOOK.name)
    yield "Reader.find_all", reader.find_all, (board,), ("board",)
    yield "Reader.find_all, weight", lambda it: reader.find_all(board, minimum_weight=it), (1,), ("weight",)


def wrong_words(kind):
    """The wrong words of a kind, and how a message names what was expected."""
    # Kinds that take some of what another one refuses.
    also = {
        "fen": ("text", [None]), "man": ("text", [None]), "claimed": ("move", [None]), "game": ("text", []), "read_in": ("encoding", [None]),
        "node": ("visitor", [None]), "played": ("move", ["e2e4"]), "said": ("text", []), "end": ("text", []), "drawn": ("visitor", [None]),
        "drawn_move": ("move", [None]), "drawn_square": ("square", [None]),
    }
    names = {"game": "game", "read_in": "encoding", "node": "Node", "said": "text|name", "end": "end|1-0", "drawn": "Board", "played": "[Mm]ove|text"}
    of, takes = also.get(kind, (kind, []))
    words, name = WRONG[of]
    return [it for it in words if not any(it is other or it == other for other in takes)], names.get(kind, name)


class Arguments(unittest.TestCase):
    @classmethod
    def setUpClass(cls):
        global BOOK
        BOOK = tempfile.NamedTemporaryFile()
        BOOK.write(struct.pack(">QHHI", 0x463B96181691FC9C, 0x031C, 1, 0))
        BOOK.flush()
        cls.addClassCleanup(BOOK.close)

    def test_each_call_names_what_it_takes(self):
        tried = 0
        for name, call, words, kinds in calls():
            for place, kind in enumerate(kinds):
                wrong, expected = wrong_words(kind)
                for word in wrong:
                    with self.subTest(call=name, word=word):
                        tried += 1
                        given = [*words[:place], word, *words[place + 1 :]]
                        with self.assertRaises((TypeError, ValueError)) as raised:
                            call(*given)
                        self.assertNotIsInstance(raised.exception, UnicodeError)
                        self.assertRegex(str(raised.exception), expected)
        self.assertGreater(tried, 600)

    def test_each_call_takes_what_it_names(self):
        board = jatshegi.Board()
        for name, call, words, kinds in calls():
            with self.subTest(call=name):
                call(*words)
        self.assertEqual(board.fen(), jatshegi.STARTING_FEN)

    def test_each_public_name_is_tried(self):
        """A method that takes words has its line above, but for those that take any object, or that test_edits and test_python try."""
        tried = {re.split(r"[,. ]", name.removeprefix("pgn.").removeprefix("svg.").removeprefix("polyglot."))[-1 if "." in name and "," not in name else 0] for name, *_ in calls()}
        tried |= {name.split(",")[0].split(" ")[0].split(".")[-1] for name, *_ in calls()}
        known = {"copy", "headers", "outcome", "result", "is_game_over", "variation", "promote", "demote", "promote_to_main", "remove_variation", "has_variation", "add_main_variation"}
        for of in (jatshegi.Board, jatshegi.pgn.Node, jatshegi.pgn.Game, jatshegi.Engine):
            for name in dir(of):
                method = getattr(of, name)
                takes = getattr(method, "__code__", None)
                if name.startswith("_") or takes is None or takes.co_argcount + takes.co_kwonlyargcount < 2:
                    continue
                self.assertTrue(name in tried | known, f"{of.__name__}.{name}")

    def test_after_a_refusal_all_is_as_before(self):
        board = jatshegi.Board.from_game(jatshegi.pgn.read_game("1. e4 {a} e5 (1... c5) *"))
        board.push_san("e4")
        before = board.pgn(), board.fen(), board.ply
        for call in (board.push, board.push_san, board.push_uci, board.line, board.set_fen, board.set_piece_map, board.claims, board.best, board.search):
            for word in (object(), 1 << 70, "\udc80", b"e5"):
                self.assertRaises((TypeError, ValueError, jatshegi.Error), call, word) if call != board.line or not isinstance(word, str) else call(word)
                self.assertEqual((board.pgn(), board.fen(), board.ply), before)


if __name__ == "__main__":
    unittest.main()
