"""Games that are edited in Python: as users of python-chess write it, what is refused, what is interrupted, and random edits beside a plain tree for loss of anything."""
import copy
import importlib
import pickle
import random
import re
import sys
import threading
import unittest

import runs

PACKAGE = f"{runs.TOP}/python"
KNIGHTS = ["Nf3", "Nf6", "Ng1", "Ng8"]


def setUpModule():
    runs.make("libraries")
    sys.path.insert(0, PACKAGE)
    global jatshegi
    jatshegi = importlib.import_module("jatshegi")


def tearDownModule():
    sys.path.remove(PACKAGE)


def movetext(game):
    """The movetext of a game on one line."""
    return str(game).split("\n\n")[1].replace("\n", " ")


def seen(node):
    """A node and all after it as a plain tree."""
    top = []
    todo = [(node, top)]
    while todo:
        at, tree = todo.pop()
        tree += [at.san, at.comment, tuple(at.nags), [[] for _ in at.children]]
        todo += zip(at.children, tree[3])
    return top


class Snippets(unittest.TestCase):
    """What a user of python-chess writes from memory, with the import changed."""

    def test_a_game_is_made(self):
        chess, pgn = jatshegi, jatshegi.pgn
        game = pgn.Game()
        game.headers["Event"] = "Example"
        game.headers["White"], game.headers["Black"] = "Anna", 'B "b" \\'
        node = game.add_variation(chess.Move.from_uci("e2e4"))
        node = node.add_variation(chess.Move.from_uci("e7e5"))
        node.comment = "Comment"
        node.nags.add(1)
        other = node.parent.add_main_variation(chess.Move.from_uci("c7c5"), comment="Sicilian")
        other.add_line([chess.Move.from_uci("g1f3"), "d6"], comment="main line", nags=[3, 3, 14])
        game.comment = "said of all"
        game.headers["Result"] = "1-0"
        self.assertEqual(movetext(game), "{said of all} 1. e4 c5 {Sicilian} (1... e5 $1 {Comment}) 2. Nf3 d6 $3 $14 {main line} 1-0")
        self.assertEqual((game.result, game.headers["Black"], str(pgn.Game(str(game)))), ("1-0", 'B "b" \\', str(game)))
        self.assertEqual((game.end().board().ply, [node.san for node in game.mainline()]), (4, ["e4", "c5", "Nf3", "d6"]))
        game.result = "1/2-1/2"
        self.assertEqual((game.headers["Result"], game.report().marker, movetext(game)[-7:]), ("1/2-1/2", "1/2-1/2", "1/2-1/2"))

    def test_a_tree_is_asked(self):
        chess, game = jatshegi, jatshegi.pgn.read_game("1. e4 (1. d4 d5) (1. c4) 1... e5 2. Nf3 *")
        first, second, third = game.variations
        queen = chess.Move.from_uci("d2d4")
        self.assertTrue(game[0] is first is game["e4"] and game[queen] is second is game.variation(second) and game.variation(-1) is third)
        self.assertTrue(queen in game and game.has_variation("c4") and second in game and 2 in game)
        for other in (chess.Move.from_uci("e2e3"), "e3", "Qh5", "rubbish", "Nf9", first.next(), chess.Move(0, 0), ""):
            self.assertNotIn(other, game)
            self.assertRaises(KeyError, game.variation, other)
            for call in (game.promote, game.demote, game.promote_to_main, game.remove_variation):
                self.assertRaises(KeyError, call, other)
        self.assertRaises(IndexError, game.variation, 3)
        self.assertNotIn(3, game)
        self.assertEqual([(node.is_main_variation(), node.is_mainline(), node.starts_variation()) for node in (game, first, second, second.next())], [(True, True, False), (True, True, False), (False, False, True), (True, False, False)])
        self.assertEqual([(node.ply(), node.turn(), node.uci()) for node in (first, second.next())], [(1, chess.BLACK, "e2e4"), (2, chess.WHITE, "d7d5")])
        self.assertEqual((game.ply(), game.turn(), game.root is game, first.game() is game, game.parent, game.san, game.move), (0, True, True, True, None, None, None))
        self.assertRaises(ValueError, game.uci)
        black = chess.pgn.read_game('[FEN "4k3/8/8/8/8/8/4P3/4K3 b - - 7 20"] Kd7 *')
        self.assertEqual((black.turn(), black.next().turn(), black.ply()), (chess.BLACK, chess.WHITE, 0))

    def test_variations_are_put_in_another_order(self):
        game = jatshegi.pgn.read_game("1. a3 {a} (1. b3 {b} b6) (1. c3 $1) (1. d3) *")
        held = dict(zip("abcd", game.variations))

        def order():
            return "".join(name for child in game.children for name, node in held.items() if node is child)

        for call, which, wanted in (
            (game.promote, held["c"], "acbd"),
            (game.promote, "c3", "cabd"),
            (game.promote, held["c"], "cabd"),
            (game.demote, 0, "acbd"),
            (game.demote, "d3", "acbd"),
            (game.demote, held["c"], "abcd"),
            (game.promote_to_main, held["d"], "dabc"),
            (game.promote_to_main, 0, "dabc"),
            (game.demote, held["a"], "dbac"),
            (game.promote, -1, "dbca"),
        ):
            call(which)
            self.assertEqual((order(), seen(game)), (wanted, seen(jatshegi.pgn.Game(str(game)))))
        self.assertEqual(movetext(game), "1. d3 (1. b3 {b} 1... b6) (1. c3 $1) (1. a3 {a}) *")
        game.remove_variation("b3")
        game.remove_variation(held["d"])
        self.assertEqual((order(), movetext(game)), ("ca", "1. c3 $1 (1. a3 {a}) *"))

    def test_moves_that_are_there(self):
        game = jatshegi.pgn.read_game("1. e4 {a} (1. d4) (1. e4 {b} e5) 1... c5 *")
        first, queen, again = game.children
        self.assertTrue(game.add_variation("e4") is first and game.add_variation("d2d4") is queen and again.add_variation("e5") is again.next())
        self.assertTrue(game.add_variation("e4", comment="x", nags=(1, 1)) is first and game.add_variation("e4", nags=(1, 2)) is first)
        self.assertEqual((first.comment, first.nags, again.comment), ("x", (1, 2), "b"))
        again.comment = "of the second"
        self.assertTrue(game.add_line(["e4", "c5", "Nf3"]).parent is first.next())
        self.assertEqual((game.add_line([]) is game, first.add_line([], comment="y", nags=[1]) is first, first.comment, first.nags), (True, True, "y", (1, 2)))
        game.promote_to_main(again)
        self.assertTrue(game.add_variation("e4") is again and game.children == (again, first, queen))
        self.assertTrue(game.add_main_variation("d4") is queen and game.children == (queen, again, first))
        self.assertEqual(seen(game), seen(jatshegi.pgn.Game(str(game))))

    def test_annotations_are_taken_out(self):
        text = "1. e4 $1 $14 $3 $14 {a} (1. d4 $2 {b} d5) 1... e5 $5 *"
        for call, wanted in (
            (lambda nags: nags.discard(14), (1, 3)),
            (lambda nags: nags.remove(1), (14, 3, 14)),
            (lambda nags: nags.discard(9), (1, 14, 3, 14)),
            (lambda nags: nags.clear(), ()),
            (lambda nags: setattr(nags._node, "nags", {3}), (3,)),
            (lambda nags: setattr(nags._node, "nags", [7, 14, 7]), (14, 14, 7)),
            (lambda nags: setattr(nags._node, "nags", ()), ()),
            (lambda nags: setattr(nags._node, "nags", [3, 14, 1, 5]), (1, 14, 3, 14, 5)),
        ):
            game = jatshegi.pgn.read_game(text)
            call(game.next().nags)
            self.assertEqual((game.next().nags, seen(game)), (wanted, seen(jatshegi.pgn.Game(str(game)))))
            others = [game.next().comment, game["d4"].nags, game["d4"].comment, game.next().next().nags]
            self.assertEqual(others, ["a", (2,), "b", (5,)])
        game.nags.clear()
        game.next().next().nags.clear()
        self.assertEqual(movetext(game).count("$"), 6)

    def test_annotations_that_cannot_be_added_again_are_not_lost(self):
        from jatshegi import _edits

        game = jatshegi.pgn.read_game("1. e4 $1 $14 $3 {a} (1. d4) e5 *")
        game.next().nags.add(4)
        before, annotate, left = bytes(game), _edits.c.lib.jatshegi_board_annotate, [0, 0, _edits.c.NO_MEMORY]
        _edits.c.lib.jatshegi_board_annotate = lambda *words: left.pop(0) or annotate(*words)
        try:
            self.assertRaises(MemoryError, game.next().nags.discard, 14)
        finally:
            _edits.c.lib.jatshegi_board_annotate = annotate
        self.assertEqual((bytes(game), game.next().nags), (before, (1, 14, 3, 4)))
        game.next().nags.discard(14)
        self.assertEqual((game.next().nags, seen(game)), ((1, 3, 4), seen(jatshegi.pgn.Game(str(game)))))

    def test_tags(self):
        game = jatshegi.pgn.read_game('[White "R\u00e9ti"] [ECO "A04"] [FEN "4k3/8/8/8/8/8/4P3/4K3 w - - 0 1"] 1. e4 1-0')
        tags = game.headers
        tags.update(Annotator="me", White="you")
        tags["FEN"] = tags["FEN"]
        self.assertEqual((tags["White"], tags.pop("ECO"), "ECO" in game.headers, list(tags)[-3:]), ("you", "A04", False, ["Annotator", "FEN", "SetUp"]))
        for name, value in (("FEN", "x"), ("SetUp", "0"), ("", "x"), ("a b", "x"), ("White", "two\nlines"), ("Result", "2-0"), ("Result", "")):
            before = bytes(game), dict(tags)
            self.assertRaises(ValueError, tags.__setitem__, name, value)
            self.assertEqual((bytes(game), dict(tags)), before)
        for name, value in ((7, "x"), ("White", None), ("White", b"x"), ("Result", None), (None, "x")):
            self.assertRaises(TypeError, tags.__setitem__, name, value)
        self.assertRaises(ValueError, tags.__delitem__, "FEN")
        self.assertRaises(KeyError, tags.__delitem__, "ECO")
        self.assertRaises(UnicodeEncodeError, jatshegi.pgn.read_game(b'[White "R\xe9ti"] *').headers.__setitem__, "Black", "\u65e5")
        del tags["Result"]
        self.assertEqual((game.result, movetext(game)), ("*", "1. e4 *"))
        tags.clear()
        self.assertEqual((tags["White"], tags["Date"], tags["Result"], len(tags), game.start), ("?", "????.??.??", "*", 9, "4k3/8/8/8/8/8/4P3/4K3 w - - 0 1"))
        self.assertEqual(dict(jatshegi.pgn.Game(str(game)).headers), dict(tags))
        self.assertEqual((tags.copy(), tags == dict(tags), jatshegi.pgn.read_headers(str(game))), (dict(tags), True, dict(tags)))

    def test_a_start(self):
        game, fen = jatshegi.pgn.Game(), "4k3/8/8/8/8/8/4P3/4K3 b - - 7 20"
        game.headers["White"], game.comment, game.result = "a", "b", "0-1"
        self.assertRaises(jatshegi.InvalidFenError, game.setup, "rubbish")
        self.assertIsNone(game.start)
        game.setup(jatshegi.Board(fen))
        self.assertEqual((game.start, game.headers["FEN"], game.headers["SetUp"], game.turn()), (fen, fen, "1", jatshegi.BLACK))
        game.add_variation("Kd7")
        self.assertEqual((game.headers["White"], movetext(game)), ("a", "{b} 20... Kd7 0-1"))
        self.assertRaises(ValueError, game.setup, jatshegi.STARTING_FEN)
        game.remove_variation(0)
        game.setup(jatshegi.STARTING_FEN)
        self.assertEqual((game.start, "SetUp" in game.headers, movetext(game)), (None, False, "{b} 0-1"))
        board = jatshegi.Board(fen)
        board.push_san("Kd7")
        self.assertEqual(jatshegi.pgn.Game.from_board(board).next().add_variation("e4").path(), ["Kd7", "e4"])

    def test_a_game_of_another_encoding(self):
        game = jatshegi.pgn.read_game(b'[White "R\xe9ti"] 1. Nf3 *')
        game.next().comment = "sch\u00f6n"
        self.assertEqual((bytes(game).count(b"sch\xf6n"), game.next().comment, game.encoding), (1, "sch\u00f6n", "iso-8859-1"))
        before = bytes(game)
        self.assertRaises(UnicodeEncodeError, setattr, game.next(), "comment", "\u65e5\u672c")
        self.assertRaises(UnicodeEncodeError, game.add_variation, "d4", comment="\u65e5\u672c")
        self.assertEqual((bytes(game), len(game.children)), (before, 1))
        self.assertEqual(str(game).encode(game.encoding), before)

    def test_what_is_said_is_what_is_written(self):
        node = jatshegi.pgn.Game("1. e4 *").next()
        for said, written in (("  a \t b\r\nc  ", "a b c"), (" \n ", ""), ("a { b", "a { b"), ("; x", "; x"), ("%x", "%x"), ("\x00", "\x00"), ("\u2028 \x85", "\u2028 \x85"), ("w" * 200, "w" * 200), ("\udc80", "\udc80"), ("", "")):
            node.comment = said
            self.assertEqual((node.comment, jatshegi.pgn.Game(str(node.game())).next().comment), (written, written))


class Kept(unittest.TestCase):
    def test_an_unedited_game_has_no_board(self):
        game = jatshegi.pgn.read_game('[White "a"] 1. e4 {x} (1. d4) *')
        self.assertEqual((str(game), bytes(game), dict(game.headers), game.report(), seen(game), repr(game), game.board(), pickle.dumps(game))[0], str(game))
        self.assertIsNone(game._edits)
        self.assertEqual([len(jatshegi.pgn.Game().children), movetext(jatshegi.pgn.Game())], [0, "*"])
        for other in ({"White": "a"}, None, 7, game):
            self.assertRaises(TypeError, jatshegi.pgn.Game, other)
        for other in ({"White": "a"}, None, "White"):
            self.assertRaises(TypeError, jatshegi.pgn.Headers, other)

    def test_copies(self):
        game = jatshegi.pgn.read_game("1. e4 e5 (1... c5) *")
        node = game.next().children[1]
        node.comment = "x"
        for other in (copy.copy(game), copy.deepcopy(game), pickle.loads(pickle.dumps(game)), pickle.loads(pickle.dumps(node)).game(), copy.deepcopy(node).game()):
            before = bytes(game)
            self.assertEqual((bytes(other), seen(other), other.encoding), (before, seen(game), game.encoding))
            other.next().comment, other.headers["White"] = "y", "other"
            other.remove_variation(0)
            self.assertEqual((bytes(game), movetext(other)), (before, "*"))
        self.assertEqual(pickle.loads(pickle.dumps(node)).path(), ["e4", "c5"])
        long = jatshegi.pgn.Game()
        long.add_line(KNIGHTS * 1000)
        for other in (copy.deepcopy(long), pickle.loads(pickle.dumps(long))):
            self.assertEqual((str(other), other.end().ply()), (str(long), 4000))

    def test_a_board_of_an_edited_game(self):
        game = jatshegi.pgn.Game()
        game.add_line(["e4", "e5"], comment="x", nags=[1])
        board = jatshegi.Board.from_game(game)
        board.push_san("d4")
        self.assertEqual((board.pgn() != str(game), movetext(game), movetext(jatshegi.pgn.Game.from_board(board))), (True, "1. e4 e5 $1 {x} *", "1. e4 (1. d4) 1... e5 $1 {x} *"))

    def test_a_node_that_was_taken_out(self):
        game = jatshegi.pgn.read_game("1. e4 e5 2. Nf3 (2. f4 {x}) 2... Nc6 *")
        node, inside = game.next().next(), game.next().next().children[1]
        inside.add_nag(1)
        game.next().remove_variation(node)
        before = bytes(game)
        for call in (lambda: inside.add_variation("exf4"), lambda: setattr(inside, "comment", "y"), lambda: node.nags.add(1), lambda: node.promote(inside), lambda: node.remove_variation(inside), lambda: pickle.dumps(inside), node.is_mainline):
            self.assertRaises(ValueError, call)
        self.assertEqual((bytes(game), inside.path(), inside.comment, inside.nags, inside.board().ply, movetext(game)), (before, ["e4", "e5", "f4"], "x", (1,), 3, "1. e4 *"))
        self.assertEqual(game.next().add_variation("e5").is_end(), True)

    def test_many_edits_are_quick_enough_for_a_long_line(self):
        game = jatshegi.pgn.Game()
        node = game
        for number in range(4000):
            node = node.add_variation(KNIGHTS[number % 4])
        self.assertEqual((node.ply(), game.end() is node, jatshegi.pgn.Game(str(game)).end().ply()), (4000, True, 4000))

    def test_the_limit_of_a_line(self):
        game = jatshegi.pgn.Game()
        game.add_line(["e4", "e5"])
        before = bytes(game)
        self.assertRaises(jatshegi.LimitError, game.add_line, KNIGHTS * 5000 + ["e4"])
        self.assertEqual((bytes(game), seen(game)), (before, seen(jatshegi.pgn.Game(str(game)))))
        self.assertEqual(game.add_line(KNIGHTS * 5000).ply(), 20_000)
        self.assertRaises(jatshegi.LimitError, game.variations[1].end().add_variation, "e4")

    def test_a_game_that_is_too_large_to_be_read(self):
        game = jatshegi.pgn.Game()
        for san in ("e4", "e5"):
            game.end().add_variation(san).comment = "x" * 600_000
        self.assertEqual((len(game.end().comment), str(game).count("x")), (600_000, 1_200_000))
        other = pickle.loads(pickle.dumps(game))
        self.assertEqual((str(other), seen(other)), (str(game), seen(game)))
        for refused in (lambda: other.add_variation("d4"), lambda: jatshegi.Board.from_game(game), game.report):
            self.assertRaises(jatshegi.InvalidGameError, refused)
        game.next().comment = "short"
        self.assertEqual((seen(jatshegi.pgn.Game(str(game))), seen(other) == seen(game)), (seen(game), False))

    def test_threads_that_edit_one_game(self):
        game, wrong = jatshegi.pgn.Game(), []

        def edits(first):
            try:
                node = game.add_variation(first)
                for number in range(60):
                    node.comment = f"{first} {number}"
                    game.promote_to_main(node)
                    if node.comment != f"{first} {number}" or f"{first} {number}" not in str(game):
                        wrong.append(node)
            except BaseException as error:
                wrong.append(error)

        threads = [threading.Thread(target=edits, args=(first,)) for first in ("a3", "b3", "c3")]
        for thread in threads:
            thread.start()
        for thread in threads:
            thread.join()
        self.assertEqual((wrong, len(game.children), seen(game)), ([], 3, seen(jatshegi.pgn.Game(str(game)))))


class Refused(unittest.TestCase):
    def setUp(self):
        self.game = jatshegi.pgn.read_game('[White "a"] {r} 1. e4 $1 {a} (1. d4 {b} d5) (1. c4) 1... e5 2. Nf3 1-0')
        self.game.add_variation("a3")
        self.before = bytes(self.game), seen(self.game), dict(self.game.headers), self.game.result, self.game.children

    def unchanged(self, why):
        self.assertEqual((bytes(self.game), seen(self.game), dict(self.game.headers), self.game.result, self.game.children), self.before, why)
        self.assertEqual(seen(jatshegi.pgn.Game(str(self.game))), self.before[1], why)

    def test_each_refusal_changes_nothing(self):
        game, chess = self.game, jatshegi
        node = game.next()
        rows = (
            (chess.IllegalMoveError, lambda: node.add_variation("Ke2")),
            (chess.IllegalMoveError, lambda: node.add_variation(chess.Move(0, 0))),
            (chess.IllegalMoveError, lambda: node.add_main_variation(chess.Move(100, 200))),
            (chess.InvalidMoveError, lambda: node.add_variation("rubbish")),
            (chess.InvalidMoveError, lambda: game.add_line(["e4", "c5", "zz"])),
            (chess.IllegalMoveError, lambda: game.add_line(["b3", "b6", "Bb2", "Bb7", "Ke3"], comment="x")),
            (TypeError, lambda: game.add_line(["b3", None])),
            (TypeError, lambda: game.add_line(["e4", (12, 28, None)])),
            (TypeError, lambda: game.add_variation(None)),
            (ValueError, lambda: game.add_variation("h3", comment="a } b")),
            (ValueError, lambda: game.add_variation("e4", comment="a } b", nags=[5])),
            (ValueError, lambda: game.add_main_variation("d4", comment="}")),
            (ValueError, lambda: game.add_variation("h3", nags=[1, 256])),
            (ValueError, lambda: game.add_line(["h3", "h6"], nags=[-1])),
            (TypeError, lambda: game.add_variation("h3", nags=["!"])),
            (TypeError, lambda: game.add_variation("h3", comment=None)),
            (ValueError, lambda: setattr(node, "comment", "}")),
            (TypeError, lambda: setattr(node, "comment", None)),
            (ValueError, lambda: node.nags.add(256)),
            (ValueError, lambda: node.nags.update([3, -1])),
            (TypeError, lambda: node.nags.add(1.0)),
            (TypeError, lambda: node.nags.add(True)),
            (KeyError, lambda: node.nags.remove(2)),
            (ValueError, lambda: node.nags.discard(256)),
            (TypeError, lambda: node.nags.remove("!")),
            (ValueError, lambda: setattr(node, "nags", [2, 256])),
            (TypeError, lambda: setattr(node, "nags", [2, None])),
            (ValueError, lambda: setattr(game, "nags", [2])),
            (ValueError, lambda: game.nags.add(1)),
            (ValueError, lambda: game.add_line([], nags=[1], comment="x")),
            (ValueError, lambda: setattr(game, "result", "1-1")),
            (ValueError, lambda: setattr(game, "result", None)),
            (ValueError, lambda: game.setup(chess.STARTING_FEN)),
            (AttributeError, lambda: setattr(node, "san", "e3")),
            (AttributeError, lambda: setattr(node, "parent", None)),
            (AttributeError, lambda: setattr(node, "children", ())),
            (AttributeError, lambda: setattr(game, "headers", {})),
            (AttributeError, lambda: setattr(game, "root", node)),
            (AttributeError, lambda: setattr(node, "other", 1)),
            (AttributeError, lambda: node.children.append(node)),
            (TypeError, lambda: hash(node.nags)),
        )
        for number, (error, call) in enumerate(rows):
            with self.assertRaises(error, msg=number):
                call()
            self.unchanged(number)
        node.nags.discard(9)
        node.nags = {1}
        self.unchanged("what is there already")
        node.nags = [1, 7]
        self.assertEqual((node.nags, node.nags[0], node.nags[:], len(node.nags), node.nags == {7, 1}, node.nags == "x", repr(node.nags)), ((1, 7), 1, (1, 7), 2, True, False, "(1, 7)"))

    def edits(self):
        """Each edit, and the functions of the library that it needs."""
        game = self.game
        node = game.next()
        return (
            (lambda: game.add_variation("h3"), ("start", "step", "play", "read", "write")),
            (lambda: game.add_variation("h3", comment="x", nags=[1, 2]), ("play", "comment", "annotate")),
            (lambda: game.add_main_variation("h3"), ("play", "promote")),
            (lambda: game.add_variation("e4", comment="x", nags=[7, 2]), ("play", "comment", "annotate", "copy")),
            (lambda: game.add_line(["e4", "e5", "Bc4", "Nf6"], comment="y", nags=[3]), ("step", "play", "comment", "annotate")),
            (lambda: setattr(node, "comment", "z"), ("start", "step", "comment")),
            (lambda: node.nags.add(9), ("annotate",)),
            (lambda: node.nags.update([9, 10]), ("copy", "annotate")),
            (lambda: game.demote(node), ("promote",)),
            (lambda: game.promote_to_main(2), ("promote",)),
            (lambda: game.remove_variation(node), ("delete",)),
            (lambda: game.headers.update(White="x"), ("set_tag",)),
            (lambda: game.headers.pop("White"), ("clear_tag",)),
            (lambda: setattr(game, "result", "*"), ("set_result",)),
            (lambda: game.add_variation("h3").parent.remove_variation("h3"), ()),
        )

    def replaced(self, name, call):
        """A function of the library replaced until the test ends, and what puts it back."""
        from jatshegi import _library

        name = f"jatshegi_board_{name}"
        own = getattr(_library.lib, name)
        setattr(_library.lib, name, lambda *words: call(own, *words))
        return lambda: setattr(_library.lib, name, own)

    def test_want_of_memory_at_each_call_changes_nothing(self):
        from jatshegi import _library

        refused = 0
        for number in range(15):
            for name in self.edits()[number][1]:
                if name in ("start", "step", "read", "write", "promote", "delete", "set_result"):
                    continue
                # The first call of the function that has no memory, then the second.
                for most in range(3):
                    self.setUp()
                    calls = []
                    put_back = self.replaced(name, lambda own, *words: own(*words) if calls.append(1) or len(calls) != most + 1 else _library.NO_MEMORY)
                    try:
                        self.edits()[number][0]()
                    except MemoryError:
                        refused += 1
                        put_back()
                        self.unchanged((number, name, most))
                        self.edits()[number][0]()
                        self.assertEqual(seen(self.game), seen(jatshegi.pgn.Game(str(self.game))))
                    finally:
                        put_back()
        self.assertGreater(refused, 15)

    def test_an_exception_from_elsewhere_leaves_nodes_and_board_in_step(self):
        class Stopped(BaseException):
            pass

        def stops(own, *words):
            if is_done:
                self.assertEqual(own(*words), 0)
            raise Stopped

        stopped = 0
        for number in range(15):
            for name in self.edits()[number][1]:
                for is_done in (False, True):
                    self.setUp()
                    held = [self.game, *self.game.children, self.game.next().next()]
                    put_back = self.replaced(name, stops)
                    try:
                        self.edits()[number][0]()
                    except Stopped:
                        stopped += 1
                    finally:
                        put_back()
                    after = seen(self.game)
                    self.assertEqual(after, seen(jatshegi.pgn.Game(str(self.game))), (number, name, is_done))
                    for node in held[1:]:
                        self.assertTrue(node in node.parent or number == 10)
                    if number < 10:
                        self.assertGreaterEqual(sorted(it[0] for it in after[3]), sorted(it[0] for it in self.before[1][3]) if not is_done else [])
                    self.game.add_line(["g4", "g5"], comment="on")
                    self.assertEqual(seen(self.game), seen(jatshegi.pgn.Game(str(self.game))))
        self.assertGreater(stopped, 40)


class Tree:
    """A move of a game as plain Python, and the node that a caller holds of it."""

    def __init__(self, node, parent=None):
        self.san, self.node, self.parent = node.san, node, parent
        self.comment, self.nags = node.comment, list(node.nags)
        self.children = [Tree(child, self) for child in node.children]

    def all(self):
        return [self, *(it for child in self.children for it in child.all())]

    def said(self):
        return [*([self.san] if self.san else []), *(f"${nag}" for nag in self.nags), *([f"{{{self.comment}}}"] if self.comment else [])]

    def after(self):
        """The words of all that follows, without numbers."""
        if self.children:
            first, *others = self.children
            yield from first.said()
            for other in others:
                yield from ("(", *other.said(), *other.after(), ")")
            yield from first.after()


class NothingIsLost(unittest.TestCase):
    """Random edits beside a plain tree: what was there and what was added is there, in order, and the nodes that are held are the same."""

    COMMENTS = ["", "a", "gut gespielt", "sch\u00f6n", 'so (it) goes; $5 [x] "', "  two\t words\n", "word " * 30 + "end", "{", "%"]
    TEXTS = ["*", '[White "a"][ECO "B20"] 1. e4 {a} (1. e4 {b} e5) 1... c5 1-0', "{root} 1. d4 $1 (1. c4 e5 (1... c5 $5 {x}) 2. g3) 1... d5 2. c4 (2. Nf3) 2... e6 *", '[FEN "4k3/P7/8/8/8/8/4P3/4K3 b - - 7 20"] Kd7 *']

    def compared(self, game, tree, tags, number):
        # The nodes, one by one.
        todo = [(game, tree)]
        while todo:
            node, plain = todo.pop()
            self.assertIs(node, plain.node, number)
            self.assertEqual((node.san, node.comment, node.nags, [it.san for it in node.children]), (plain.san, plain.comment, plain.nags, [it.san for it in plain.children]), number)
            todo += zip(node.children, plain.children)
        # What is written, and reads again as the same.
        words = " ".join([*tree.said(), *tree.after(), tags["Result"]])
        head = "".join("[{} \"{}\"]\n".format(name, value.replace("\\", "\\\\").replace('"', '\\"')) for name, value in tags.items())
        self.assertEqual(str(game), str(jatshegi.pgn.Game(head + words)), number)
        again = jatshegi.pgn.Game(str(game))
        self.assertEqual((seen(again), str(again), dict(again.headers), again.result), (seen(game), str(game), dict(game.headers), game.result), number)
        self.assertEqual((dict(game.headers), game.result), (tags, tags["Result"]), number)
        if number % 10 == 0:
            self.assertEqual(game.accept(jatshegi.pgn.StringExporter()), str(game), number)

    def child(self, plain, san, is_main=False):
        """The plain child with a move, a new one where there is none."""
        found = next((it for it in plain.children if it.san == san), None)
        if not found:
            plain.children.append(Tree(jatshegi.pgn.Node(san), plain))
            found = plain.children[-1]
            found.node = None
        if is_main:
            plain.children.insert(0, plain.children.pop(plain.children.index(found)))
        return found

    def added(self, chance, plain):
        """A move, or moves, added or gone along."""
        comment, nags = chance.choice(self.COMMENTS), chance.sample(range(140), chance.randrange(3))
        board, sans, is_main = plain.node.board(), [], chance.random() < 0.2
        for _ in range(1 if is_main else chance.randrange(1, 5)):
            moves = board.legal_moves
            if moves:
                known = [it.san for it in plain.children]
                sans.append(chance.choice(known) if not sans and known and chance.random() < 0.3 else board.san(chance.choice(moves)))
                board.push_san(sans[-1])
        if not sans:
            return
        if chance.random() < 0.3:
            # All that is refused at its end.
            self.assertRaises(ValueError, plain.node.add_line, [*sans, "zz"])
            self.assertRaises(ValueError, plain.node.add_line, sans, comment="}")
            return
        given = [plain.node.add_line(sans[:place]).move if place == 1 and chance.random() < 0.3 else san for place, san in enumerate(sans, 1)]
        if is_main:
            node = plain.node.add_main_variation(given[0], comment=comment, nags=nags)
        else:
            node = plain.node.add_line(given, comment=comment, nags=nags)
        for san in sans:
            plain = self.child(plain, san, is_main)
        plain.comment = " ".join(comment.split()) if comment else plain.comment
        plain.nags += [nag for nag in nags if nag not in plain.nags]
        while plain.node is None:
            plain.node, node, plain = node, node.parent, plain.parent
        self.assertIs(plain.node, node)

    def changed(self, chance, tree, plain, tags, game):
        """Something said, put elsewhere, taken out, or a tag."""
        what = chance.choice(["comment", "nag", "order", "order", "delete", "tag", "result", "refused"])
        if what == "comment":
            plain.node.comment = comment = chance.choice(self.COMMENTS)
            plain.comment = " ".join(comment.split())
        elif what == "nag" and plain.parent:
            nag = chance.randrange(140)
            plain.node.nags.add(nag)
            plain.nags += [] if nag in plain.nags else [nag]
        elif what == "order" and plain.parent:
            name, siblings = chance.choice(["promote", "demote", "promote_to_main"]), plain.parent.children
            getattr(plain.parent.node, name)(plain.node)
            place = siblings.index(plain)
            siblings.insert({"promote": max(place - 1, 0), "demote": place + 1, "promote_to_main": 0}[name], siblings.pop(place))
        elif what == "delete" and plain.parent and (len(plain.all()) < 8 or len(tree.all()) > 60):
            plain.parent.node.remove_variation(plain.node)
            plain.parent.children.remove(plain)
            self.assertRaises(ValueError, setattr, plain.node, "comment", "x")
        elif what == "tag":
            name = chance.choice(["White", "Date", "ECO", "Annotator"])
            if name in tags and chance.random() < 0.3:
                del game.headers[name], tags[name]
                tags.update({it: "????.??.??" if it == "Date" else "?" for it in ("White", "Date") if it not in tags})
            else:
                game.headers[name] = tags[name] = chance.choice(["", "?", "R\u00e9ti", 'a "b" \\', "[x]", "% {y} ;", "word " * 40])
        elif what == "result":
            game.result = tags["Result"] = chance.choice(["*", "1-0", "0-1", "1/2-1/2"])
        else:
            for refused in (lambda: plain.node.add_variation("Ka1xa1"), lambda: setattr(plain.node, "comment", "}"), lambda: plain.node.nags.add(300), lambda: setattr(game, "result", "x"), lambda: game.headers.update({"a b": "x"})):
                self.assertRaises(ValueError, refused)

    def test_random_edits_beside_a_plain_tree(self):
        chance, most = random.Random(2027), 0
        for number in range(2000):
            if number % 250 == 0:
                game = jatshegi.pgn.read_game(self.TEXTS[number // 250 % 4])
                tree, tags = Tree(game), dict(game.headers)
            plain = chance.choice(tree.all())
            if chance.random() < (0.25 if len(tree.all()) > 60 else 0.6):
                self.added(chance, plain)
            else:
                self.changed(chance, tree, plain, tags, game)
            self.compared(game, tree, tags, number)
            most = max(most, len(tree.all()))
            if number % 50 == 49:
                game = chance.choice([copy.copy, copy.deepcopy, lambda it: pickle.loads(pickle.dumps(it))])(game)
                tree = Tree(game)
        self.assertGreater(most, 50)


class Visitors(unittest.TestCase):
    TEXT = '[White "a \\"b\\" \\\\"] [Annotator "c"] {root} 1. e4 $1 $3 {a} (1. d4 {b} d5 (1... Nf6 $6 $19 2. c4) 2. c4) (1. c4) 1... e5 2. Nf3 (2. f4 exf4) (2. Nc3) 2... Nc6 3. Bb5 1/2-1/2'

    def test_what_is_seen_in_order(self):
        seen = []

        class Sees(jatshegi.pgn.BaseVisitor):
            def __getattribute__(self, name):
                if name == "result":
                    return lambda: "made"
                if name in ("begin_variation", "end_headers", "begin_game", "end_game", "end_variation"):
                    return lambda: seen.append(name)
                return {
                    "visit_encoding": seen.append,
                    "visit_header": lambda name, value: seen.append((name, value)),
                    "visit_board": lambda board: seen.append(board.ply),
                    "visit_move": lambda board, move: seen.append(board.san(move)),
                }.get(name, lambda word: seen.append((name, word)))

        game = jatshegi.pgn.read_game('[White "a"] {r} 1. e4 $1 {x} (1. d4 d5) 1... e5 1-0')
        self.assertEqual(game.accept(Sees()), "made")
        self.assertEqual(seen[:9], ["utf-8", "begin_game", *game.headers.items()])
        moves = ["e4", 1, ("visit_nag", 1), ("visit_comment", "x"), "begin_variation", "d4", 1, "d5", 2, "end_variation", "e5", 2]
        self.assertEqual(seen[9:], ["end_headers", 0, ("visit_comment", "r"), *moves, ("visit_result", "1-0"), "end_game"])
        seen.clear()
        game.children[1].accept(Sees())
        self.assertEqual(seen, ["utf-8", "d4", 1, "d5", 2])
        seen.clear()
        game.next().accept(Sees())
        self.assertEqual(seen, ["utf-8", "e4", 1, ("visit_nag", 1), ("visit_comment", "x"), "e5", 2])

    def test_what_is_passed_over(self):
        class Skips(jatshegi.pgn.StringExporter):
            def __init__(self, name):
                super().__init__()
                setattr(self, name, lambda: jatshegi.pgn.SKIP)

        game = jatshegi.pgn.read_game("1. e4 (1. d4) *")
        self.assertEqual(game.accept(Skips("begin_game")), "\n\n")
        self.assertEqual(game.accept(Skips("end_headers")), str(game).split("\n\n")[0] + "\n\n")
        with self.assertRaises(NotImplementedError):
            game.accept(jatshegi.pgn.BaseVisitor())

    def test_texts(self):
        game = jatshegi.pgn.read_game(self.TEXT)

        def text(of=game, **words):
            return of.accept(jatshegi.pgn.StringExporter(**words))

        self.assertEqual((text(), text(headers=False), text(columns=80)), (str(game), str(game).split("\n\n")[1] + "\n\n", str(game)))
        self.assertEqual(text(headers=False, columns=None), movetext(game) + "\n\n")
        self.assertEqual(text(headers=False, comments=False, variations=False), "1. e4 e5 2. Nf3 Nc6 3. Bb5 1/2-1/2\n\n")
        self.assertEqual(text(headers=False, variations=False), "{root} 1. e4 $1 $3 {a} 1... e5 2. Nf3 Nc6 3. Bb5 1/2-1/2\n\n")
        self.assertEqual(text(headers=False, comments=False, columns=None), "1. e4 (1. d4 d5 (1... Nf6 2. c4) 2. c4) (1. c4) 1... e5 2. Nf3 (2. f4 exf4) (2. Nc3) 2... Nc6 3. Bb5 1/2-1/2\n\n")
        self.assertEqual((text(game.children[1].next()), str(game.children[1])), ("1... d5 2. c4", "1. d4 {b} 1... d5 (1... Nf6 $6 $19 2. c4) 2. c4"))
        for columns in (1, 10, 33):
            lines = text(headers=False, columns=columns).rstrip("\n").split("\n")
            self.assertEqual(" ".join(lines), movetext(game))
            for line, after in zip(lines, lines[1:]):
                self.assertTrue(len(line) < columns or " " not in line)
                self.assertGreaterEqual(len(line) + 1 + len(after.split()[0]), columns)

    def test_lines_of_another_width_keep_commands_whole(self):
        command = re.compile(r"\[%[^][]*\]")
        comments = ["[%clk 0:05:00]", "so [%eval 0.1 2] they say", "[%clk 1][%eval 2 3] x", "a[[%csl Ra1, Gb2]b", "[%open 1 2", "[% [%a b]", "[ %clk 0:01 ]", "[%a b c d e f g h i j]"]
        game = jatshegi.pgn.Game()
        node = game.add_line(["e4", "e5", "Nf3", "Nc6", "Bb5", "a6", "Ba4", "Nf6"])
        for comment, node in zip(comments, game.mainline()):
            node.comment = comment
        for columns in (1, 8, 20, 33, 80, None):
            text = game.accept(jatshegi.pgn.StringExporter(headers=False, columns=columns))
            lines = text.rstrip("\n").split("\n")
            self.assertEqual(" ".join(lines), movetext(game))
            self.assertEqual(sum(len(command.findall(line)) for line in lines), len(command.findall(movetext(game))), columns)
            for line in lines:
                self.assertTrue(columns is None or len(line) < columns or " " not in command.sub("", line), line)
            self.assertEqual([it.comment for it in jatshegi.pgn.read_game(text).mainline()], [it.comment for it in game.mainline()])
        # The export form has its own breaks.
        self.assertEqual(game.accept(jatshegi.pgn.StringExporter()), str(game))
        # A megabyte of beginnings of commands takes no longer than its length.
        exporter = jatshegi.pgn.StringExporter(columns=40)
        exporter.visit_comment("[%" * 200_000)
        exporter.visit_comment("")
        self.assertEqual(exporter.result(), "{" + "[%" * 200_000 + "}\n{}")

    def test_the_text_of_each_game_is_its_own(self):
        chance = random.Random(80)
        for number in range(200):
            game = jatshegi.pgn.Game()
            words = ["w" * chance.randrange(1, 90), "\u00e9" * chance.randrange(1, 60), "a", "{", "(x)"]
            for _ in range(12):
                node = game
                while node.children and chance.random() < 0.7:
                    node = chance.choice(node.children)
                moves = node.board().legal_moves
                node = node.add_variation(chance.choice(moves), nags=chance.sample(range(256), chance.choice((0, 0, 1, 2)))) if moves else node
                node.comment = " ".join(chance.choices(words, k=chance.choice((0, 0, 1, 3, 9))))
            data = bytes(game) if number % 2 else str(game).encode("iso-8859-1")
            read = jatshegi.pgn.read_game(data)
            self.assertEqual(read.accept(jatshegi.pgn.StringExporter()), str(read), number)


if __name__ == "__main__":
    unittest.main()
