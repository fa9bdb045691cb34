"""Random calls of `jatshegi.compat` beside plain models: nothing that a program has made is lost or changed, and a call that is refused has done nothing."""
import copy
import importlib
import io
import logging
import os
import pickle
import random
import subprocess
import sys
import unittest

import runs

PACKAGE = f"{runs.TOP}/python"
BOARDS, CALLS = 40, 80
GAMES, EDITS = 60, 40
FENS = (
    "r3k2r/p1ppqpb1/bn2pnp1/3PN3/1p2P3/2N2Q1p/PPPBBPPP/R3K2R w KQkq - 0 1",
    "8/2p5/3p4/KP5r/1R3p1k/8/4P1P1/8 w - - 98 70",
    "4k3/P6p/8/2pP4/8/8/p6P/4K3 w - c6 0 2",
    "8/8/8/8/4N3/8/8/8 b - - 3 9",
    "kk6/8/8/8/8/8/8/KQ6 w - - 0 1",
)
BAD_FENS = ("", "x", "8/8", "8/8/8/8/8/8/8/8 x - - 0 1", "8/8/8/8/8/8/8/8 w KK - 0 1", "8/8/8/8/8/8/8/8 w - e9 0 1", "8/8/8/8/8/8/8/8 w - - -1 1", "8/8/8/8/8/8/8/8 w - - 0 1 1")
LETTERS = ["a", "b", " ", "  ", "\n", "\t", "é", "♔", "{", "(", ")", ";", "%", "\n%", "[", "]", '"', "\\", "$1", "1-0", "*", "1. e4", "[%clk 0:01:02]", "--", "\x1a", "\x00", "\u2028", "\xa0"]


def setUpModule():
    runs.make("libraries")
    sys.path.insert(0, PACKAGE)
    global chess
    chess = importlib.import_module("jatshegi.compat")
    logging.getLogger("chess.pgn").setLevel(logging.CRITICAL)


def tearDownModule():
    sys.path.remove(PACKAGE)
    logging.getLogger("chess.pgn").setLevel(logging.NOTSET)


def seen(board):
    """All that a board has."""
    return board.fen(en_passant="fen"), board.castling_rights, board.ep_square, board.turn, board.halfmove_clock, board.fullmove_number, board.piece_map(), list(board.move_stack), board.root().fen(en_passant="fen")


class BoardCalls:
    """A board and its model: its contents before each move, and the contents of boards that were left behind."""

    def __init__(self, case, chance):
        self.case, self.chance = case, chance
        self.board, self.before, self.left = chess.Board(), [], []

    def moves(self):
        return [] if self.board.status() & ~chess.Status.INVALID_EP_SQUARE & ~chess.Status.BAD_CASTLING_RIGHTS else list(self.board.legal_moves)

    def refused(self, errors, call):
        was = seen(self.board)
        self.case.assertRaises(errors, call)
        self.case.assertEqual(seen(self.board), was)

    def push(self):
        moves, was = self.moves(), seen(self.board)
        if moves:
            move = chess.Move.null() if self.chance.random() < 0.25 else self.chance.choice(moves)
            self.board.push(move)
            self.before.append(was)
            self.case.assertEqual((self.board.peek(), list(self.board.move_stack), self.board.turn, self.board.fullmove_number), (move, [*was[7], move], not was[3], was[5] + (not was[3])))
            if not move:
                self.case.assertEqual((self.board.piece_map(), self.board.castling_rights, self.board.halfmove_clock, self.board.ep_square), (was[6], was[1], was[4] + 1, None))

    def push_text(self):
        moves, was = self.moves(), seen(self.board)
        if moves:
            move = self.chance.choice(moves)
            call = self.chance.choice([lambda: self.board.push_san(self.board.san(move)), lambda: self.board.push_uci(move.uci()), lambda: self.board.push_san(self.board.lan(move))])
            self.case.assertEqual(call(), move)
            self.before.append(was)

    def push_wrong(self):
        if self.moves():
            move = chess.Move(self.chance.randrange(64), self.chance.randrange(64), self.chance.choice([None, None, chess.QUEEN, chess.PAWN]))
            if move and move not in self.board.legal_moves:
                self.refused(ValueError, lambda: self.board.push(move))
            self.refused(ValueError, lambda: self.board.push_san(self.chance.choice(["", "e9", "Kh1h9", "O-O-O-O", "x" * 300, "e2e4e5"])))

    def pop(self):
        if not self.before:
            self.refused(IndexError, self.board.pop)
            return
        wanted, last = self.before.pop(), self.board.peek()
        self.case.assertEqual(self.board.pop(), last)
        self.case.assertEqual(seen(self.board), wanted)

    def copies(self):
        """Goes on with a copy or with the board, and leaves the other."""
        make = self.chance.choice([lambda it: it.copy(), copy.copy, copy.deepcopy, lambda it: pickle.loads(pickle.dumps(it))])
        other = make(self.board)
        self.case.assertEqual(seen(other), seen(self.board))
        if self.chance.random() < 0.5:
            self.board, other = other, self.board
        self.left.append((other, seen(other)))

    def short_copies(self):
        number = self.chance.choice([False, 0, 1, 2, 5, 1000])
        was = seen(self.board)
        other = self.board.copy(stack=number)
        kept = was[7][max(len(was[7]) - int(number), 0) :]
        self.case.assertEqual((list(other.move_stack), seen(other)[:7], seen(self.board)), (kept, was[:7], was))
        self.left.append((other, seen(other)))

    def edit(self):
        """Changes pieces; the moves are forgotten then."""
        men, square = self.board.piece_map(), self.chance.randrange(64)
        piece = self.chance.choice([None, *map(chess.Piece.from_symbol, "PNBRQKpnbrqk")])
        was = seen(self.board)
        changed = {at: man for at, man in {**men, square: piece}.items() if man is not None}
        call = self.chance.choice([lambda: self.board.set_piece_at(square, piece), lambda: self.board.set_piece_map(changed), lambda: self.board.set_board_fen(chess.BaseBoard.empty().board_fen())])
        self.board.set_piece_at(square, piece) if self.chance.random() < 0.8 else call()
        if changed != men and self.board.piece_map() == changed:
            self.before = []
            self.case.assertEqual((seen(self.board)[3:6], list(self.board.move_stack)), (was[3:6], []))
        elif self.board.piece_map() != men:
            self.before = []
            self.case.assertEqual((self.board.piece_map(), list(self.board.move_stack)), ({}, []))
        elif not self.board.move_stack:
            self.before = []

    def fields(self):
        """Sets a field. The other fields and the moves stay the same."""
        name, value = self.chance.choice([("turn", self.chance.random() < 0.5), ("castling_rights", chess.BB_CORNERS & self.chance.getrandbits(64)), ("ep_square", self.chance.choice([None, 44])), ("halfmove_clock", self.chance.randrange(200)), ("fullmove_number", self.chance.randrange(1, 300))])
        names, was = ("castling_rights", "ep_square", "turn", "halfmove_clock", "fullmove_number"), seen(self.board)
        setattr(self.board, name, value)
        found = seen(self.board)
        self.case.assertEqual((dict(zip(names, found[1:6])), found[6:8]), ({**dict(zip(names, was[1:6])), name: value}, was[6:8]))
        for wrong in ("x", None, 1 << 70, 0.5):
            if (name, wrong) != ("ep_square", None):
                self.refused((ValueError, TypeError, NotImplementedError), lambda: setattr(self.board, name, wrong))

    def pass_and_back(self):
        """Sets the side to move, and sets it back."""
        was = seen(self.board)
        for turn in (not was[3], was[3]):
            self.board.turn = turn
            self.case.assertEqual((self.board.turn, seen(self.board)[6:8]), (turn, was[6:8]))
        self.case.assertEqual(seen(self.board), was)

    def begin(self):
        fen = self.chance.choice(FENS)
        self.board.set_fen(fen)
        self.before = []
        self.case.assertEqual((self.board.fen(en_passant="fen"), list(self.board.move_stack)), (fen, []))

    def begin_wrong(self):
        self.refused(ValueError, lambda: self.board.set_fen(self.chance.choice(BAD_FENS)))
        self.refused(ValueError, lambda: self.board.set_epd(self.chance.choice(BAD_FENS[:4])))
        self.refused(ValueError, lambda: self.board.set_board_fen("8/8"))

    def forget(self):
        was = seen(self.board)
        self.board.clear_stack()
        self.before = []
        self.case.assertEqual((seen(self.board)[:7], list(self.board.move_stack)), (was[:7], []))

    def ask(self):
        """Questions change nothing."""
        was = seen(self.board)
        str(self.board), repr(self.board), self.board.unicode(), self.board.status(), self.board.mirror(), self.board.transform(chess.flip_vertical)
        if self.moves():
            moves = list(self.board.legal_moves)
            self.board.is_check(), self.board.is_pinned(chess.WHITE, 12), self.board.outcome(claim_draw=True), self.board.variation_san(moves[:1]), [self.board.is_irreversible(move) for move in moves], self.board.epd(bm=moves)
        self.case.assertEqual(seen(self.board), was)

    CALLS = [push] * 9 + [push_text] * 2 + [pop] * 6 + [copies] * 2 + [short_copies, push_wrong, edit, fields, pass_and_back, begin, begin_wrong, forget, ask]


class Boards(unittest.TestCase):
    def test_boards(self):
        for seed in range(BOARDS):
            chance = random.Random(seed)
            calls = BoardCalls(self, chance)
            for number in range(CALLS):
                with self.subTest(seed=seed, call=number):
                    chance.choice(BoardCalls.CALLS)(calls)
            with self.subTest(seed=seed, call="the boards that were left"):
                while calls.before:
                    calls.pop()
                for board, had in calls.left:
                    self.assertEqual(seen(board), had)

    def test_a_game_is_what_its_moves_make(self):
        """A board that made and took back moves equals a new board after the moves that are left, also with null moves."""
        for seed in range(BOARDS):
            chance, board = random.Random(seed), chess.Board()
            for _ in range(CALLS):
                if board.move_stack and chance.random() < 0.3:
                    board.pop()
                elif not board.status() and not board.is_game_over():
                    board.push(chance.choice([*board.legal_moves, chess.Move.null()]))
            again = chess.Board()
            for move in board.move_stack:
                again.push(move)
            self.assertEqual(seen(again), seen(board), seed)
            self.assertEqual([again.is_repetition(count) for count in range(1, 6)] if not board.status() else [], [board.is_repetition(count) for count in range(1, 6)] if not board.status() else [], seed)


class Node:
    """The model of a node."""

    def __init__(self, move=None, comment="", start="", nags=()):
        self.move, self.comment, self.start, self.nags, self.children = move, comment, start, set(nags), []

    def all(self):
        yield self
        for child in self.children:
            yield from child.all()


def words(*texts):
    """The words of comments, which reading keeps."""
    return " ".join(" ".join(texts).split())


class Trees(unittest.TestCase):
    def assert_same(self, node, model):
        """The tree is the model."""
        todo = [(node, model)]
        while todo:
            one, other = todo.pop()
            self.assertEqual((one.move, one.comment, one.starting_comment, one.nags, len(one.variations)), (other.move, other.comment, other.start, other.nags, len(other.children)))
            for child, wanted in zip(one.variations, other.children):
                self.assertIs(child.parent, one)
                todo.append((child, wanted))

    def assert_read(self, node, model):
        """The tree that was read has the model's moves, annotations and the words of its comments."""
        todo = [(node, model, model.start)]
        while todo:
            one, other, start = todo.pop()
            # (a comment before the main move is one of the move before it)
            comment = words(start, other.comment, *(child.start for child in other.children[:1]))
            self.assertEqual((one.move, words(one.comment), one.nags, [child.move for child in one.variations]), (other.move, comment, other.nags, [child.move for child in other.children]))
            for place, (child, wanted) in enumerate(zip(one.variations, other.children)):
                todo.append((child, wanted, wanted.start if place else ""))

    def text(self, chance):
        return "".join(chance.choice(LETTERS) for _ in range(chance.randrange(6)))

    def grow(self, chance, node, model):
        board = node.board()
        if not any(board.legal_moves):
            return
        move, comment, nags = chance.choice(list(board.legal_moves)), self.text(chance), chance.sample(range(256), chance.randrange(3))
        start = self.text(chance) if model.children else ""
        if chance.random() < 0.8:
            node.add_variation(move, comment=comment, starting_comment=start, nags=nags)
            model.children.append(Node(move, comment, start, nags))
        else:
            node.add_main_variation(move, comment=comment, nags=nags)
            model.children.insert(0, Node(move, comment, "", nags))

    def order(self, chance, node, model):
        if len(model.children) > 1:
            place = chance.randrange(len(model.children))
            what = chance.choice(["promote", "demote", "promote_to_main", "remove_variation"])
            getattr(node, what)(chance.choice([place, node.variations[place]]))
            child = model.children.pop(place)
            if what != "remove_variation":
                model.children.insert({"promote": max(place - 1, 0), "demote": place + 1, "promote_to_main": 0}[what], child)

    def say(self, chance, node, model):
        node.comment = model.comment = self.text(chance)
        if model.move is not None:
            nag = chance.randrange(256)
            node.nags ^= {nag}
            model.nags ^= {nag}

    def command(self, chance, node, model):
        """Puts a command into a comment and takes it out. The rest of the comment stays."""
        before = node.comment
        seconds = chance.randrange(10**7) / 1000
        for put, get in ((node.set_clock, node.clock), (node.set_emt, node.emt)):
            if get() is None:
                put(seconds)
                self.assertEqual(get(), seconds)
                self.assertIn(words(before), words(node.comment))
                put(None)
                self.assertIsNone(get())
                self.assertEqual(words(node.comment), words(before))
        model.comment = node.comment

    def wrong(self, chance, node, model):
        """A refused call leaves the game unchanged. A comment that can't be written stays in the game, and the text is refused."""
        self.assertRaises((KeyError, IndexError), node.remove_variation, chance.choice([chess.Move(0, 0, 5), len(model.children)]))
        self.assertRaises((KeyError, IndexError), node.promote, chess.pgn.Game())
        before, node.comment = node.comment, "a } b"
        self.assertRaises(ValueError, str, node.game())
        self.assertEqual(node.comment, "a } b")
        node.comment = before
        if node.parent is not None:
            node.nags.add(-1)
            self.assertRaises(ValueError, str, node.game())
            node.nags.remove(-1)

    EDITS = [grow] * 6 + [order] * 2 + [say] * 2 + [command, wrong]

    def made(self, chance):
        game, model = chess.pgn.Game(), Node()
        if chance.random() < 0.3:
            game.setup(chess.Board(chance.choice(FENS[:3])))
        pairs = lambda: list(zip(self.nodes(game), model.all()))
        for _ in range(chance.randrange(EDITS)):
            node, wanted = chance.choice(pairs())
            chance.choice(Trees.EDITS)(self, chance, node, wanted)
        self.assert_same(game, model)
        return game, model

    def nodes(self, node):
        yield node
        for child in node.variations:
            yield from self.nodes(child)

    def headers(self, chance, game):
        """Changes tags beside a dictionary, and returns it."""
        wanted = dict(game.headers)
        for _ in range(chance.randrange(8)):
            name, value = chance.choice(["Event", "White", "Black", "Date", "ECO", "Annotator", "X1", "a_b"]), "".join(chance.choice(["x", " ", '"', "\\", "]", "é"]) for _ in range(chance.randrange(6)))
            if chance.random() < 0.8:
                game.headers[name] = wanted[name] = value
            elif name in wanted:
                self.assertEqual(game.headers.pop(name), wanted.pop(name))
        self.assertRaises(ValueError, game.headers.__setitem__, "White", "a\nb")
        self.assertRaises(ValueError, game.headers.__setitem__, "a b", "x")
        self.assertEqual(dict(game.headers), wanted)
        return wanted

    def test_games(self):
        for seed in range(GAMES):
            chance = random.Random(seed)
            with self.subTest(seed=seed):
                game, model = self.made(chance)
                tags = self.headers(chance, game)
                for again in (copy.deepcopy(game), pickle.loads(pickle.dumps(game))):
                    self.assert_same(again, model)
                    self.assertEqual(dict(again.headers), tags)
                text = game.accept(chess.pgn.StringExporter(columns=chance.choice([None, 20, 80])))
                read = chess.pgn.read_game(io.StringIO(text))
                self.assertEqual(read.errors, [])
                self.assert_read(read, model)
                self.assertEqual({name: value for name, value in read.headers.items() if name in tags}, tags)
                self.assertEqual(str(chess.pgn.read_game(io.StringIO(str(read)))), str(read))
                self.assert_same(game, model)

    def test_files(self):
        """Games that were written into a file are read from it in order, by each call that reads; also the games after a faulty one."""
        for seed in range(GAMES // 4):
            chance, file = random.Random(seed), io.StringIO()
            games = [self.made(chance)[0] for _ in range(4)]
            for number, game in enumerate(games):
                game.headers["Round"] = str(number)
                game.accept(chess.pgn.FileExporter(file)) if chance.random() < 0.5 else print(game, file=file, end="\n\n")
                if number == 1:
                    file.write('[Round "bad"]\n\n1. e4 e4 {lost} 2. e5 *\n\n')
            wanted, places = ["0", "1", "bad", "2", "3"], []
            file.seek(0)
            while True:
                place = file.tell()
                headers = chess.pgn.read_headers(file)
                if headers is None:
                    break
                places.append((headers["Round"], place))
            self.assertEqual([name for name, _ in places], wanted, seed)
            for name, place in chance.sample(places, len(places)):
                file.seek(place)
                game = chess.pgn.read_game(file)
                self.assertEqual((game.headers["Round"], bool(game.errors)), (name, name == "bad"), seed)
                if name != "bad":
                    self.assertEqual(str(game), str(chess.pgn.read_game(io.StringIO(str(games[int(name)])))), seed)
            file.seek(0)
            self.assertEqual([chess.pgn.skip_game(file) for _ in range(6)], [True] * 5 + [False], seed)


class Sets(unittest.TestCase):
    def test_sets(self):
        """Sets of squares beside Python's."""
        chance = random.Random(1)
        for _ in range(300):
            one, other = ({chance.randrange(64) for _ in range(chance.randrange(9))} for _ in range(2))
            mine, theirs = chess.SquareSet(one), chance.choice([lambda it: it, chess.SquareSet, lambda it: int(chess.SquareSet(it))])(other)
            for name in ("__or__", "__and__", "__xor__", "__sub__", "union", "intersection", "difference", "symmetric_difference"):
                found = getattr(mine, name)(theirs)
                self.assertEqual((set(found), type(found)), (getattr(one, name)(other), chess.SquareSet))
            for name in ("isdisjoint", "issubset", "issuperset"):
                self.assertEqual(getattr(mine, name)(theirs), getattr(one, name)(other))
            self.assertEqual((set(mine), sorted(mine), list(reversed(mine)), len(mine), bool(mine)), (one, sorted(one), sorted(one, reverse=True), len(one), bool(one)))
            for name in ("update", "intersection_update", "difference_update", "symmetric_difference_update", "__ior__", "__iand__", "__isub__", "__ixor__"):
                mine, ours = chess.SquareSet(one), set(one)
                getattr(mine, name)(theirs), getattr(ours, name)(other)
                self.assertEqual(set(mine), ours, name)


class ByCtypes(unittest.TestCase):
    def test_the_same_by_ctypes(self):
        """The calls above and those of test_python_compat, over the core that calls the library by ctypes."""
        if os.environ.get("JATSHEGI_PLAIN"):
            self.skipTest("this is the run by ctypes")
        names = [*(f"test_python_compat_fuzz.{it}" for it in ("Boards", "Trees")), *(f"test_python_compat.{it}" for it in ("Boards", "Games", "Books"))]
        ran = subprocess.run([sys.executable, "-m", "unittest", *names], cwd=f"{runs.TOP}/tests", env={**os.environ, "JATSHEGI_PLAIN": "1"}, capture_output=True, text=True)
        self.assertEqual(ran.returncode, 0, ran.stderr[-3000:])


if __name__ == "__main__":
    unittest.main()
