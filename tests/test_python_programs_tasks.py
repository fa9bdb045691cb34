"""More programs as they are written for python-chess, each for a task: they run over `jatshegi.compat` if their import lines are changed."""
import os
import sys
import unittest

import runs
import test_python_programs

# An engine that says three lines of the usual position, and one of any other.
THREE_LINES = f"""\
#!{sys.executable}
import sys
lines, opponent, position = 1, "", ""
for line in sys.stdin:
    words = line.split()
    if words[:1] == ["uci"]:
        print("id name Three\\noption name MultiPV type spin default 1 min 1 max 5\\noption name UCI_Opponent type string\\noption name UCI_ShowWDL type check default false\\nuciok", flush=True)
    elif words[:1] == ["isready"]:
        print("readyok", flush=True)
    elif words[:4] == ["setoption", "name", "MultiPV", "value"]:
        lines = int(words[4])
    elif words[:1] == ["position"]:
        position = line
    elif words[:1] == ["go"]:
        moves = ["e2e4", "d2d4", "g1f3"] if "startpos" in position and "moves" not in position else ["e7e5"]
        for place, move in enumerate(moves[:lines], 1):
            print(f"info depth 9 seldepth 12 multipv {{place}} score cp {{50 - 20 * place}} wdl 300 600 100 nodes 1000 nps 5000 hashfull 3 tbhits 0 time 200 pv {{move}}")
        print(f"info depth 10 currmove {{moves[0]}} currmovenumber 1\\nbestmove {{moves[0]}}", flush=True)
    elif words[:1] == ["quit"]:
        break
"""

PROGRAMS = [
    (
        "the mobility of both sides",
        """
        import chess

        def mobility(board):
            turn = board.turn
            counts = []
            for color in (chess.WHITE, chess.BLACK):
                board.turn = color
                counts.append(board.legal_moves.count())
            board.turn = turn
            return counts[0] - counts[1]

        board, found = chess.Board(), []
        for san in "e4 e5 Nf3 d6".split():
            board.push_san(san)
            found.append(mobility(board))
        print(found, board.fen(), [board.pop().uci() for _ in range(4)], board == chess.Board())
        """,
        "[10, 0, -2, -5] rnbqkbnr/ppp2ppp/3p4/4p3/4P3/5N2/PPPP1PPP/RNBQKB1R w KQkq - 0 3 ['d7d6', 'g1f3', 'e7e5', 'e2e4'] True",
    ),
    (
        "a stream of a server's game",
        """
        import chess

        events = [
            {"type": "gameFull", "initialFen": "startpos", "state": {"moves": "e2e4 e7e5 g1f3 g8f6 f1c4 f8c5"}},
            {"type": "gameState", "moves": "e2e4 e7e5 g1f3 g8f6 f1c4 f8c5 e1h1 e8g8"},
            {"type": "chatLine", "text": "hello"},
        ]
        board = chess.Board()
        for event in events:
            state = event.get("state", event)
            if "moves" not in state:
                continue
            fen = event.get("initialFen")
            if fen is not None:
                board = chess.Board() if fen == "startpos" else chess.Board(fen)
            for uci in state["moves"].split()[len(board.move_stack):]:
                print(board.san(board.parse_uci(uci)), end=" ")
                board.push_uci(uci)
            print(board.turn == chess.WHITE, board.fullmove_number, board.has_castling_rights(chess.BLACK))
        """,
        """
        e4 e5 Nf3 Nf6 Bc4 Bc5 True 4 True
        O-O O-O True 5 False
        """,
    ),
    (
        "several lines of an engine",
        """
        import chess
        import chess.engine

        with chess.engine.SimpleEngine.popen_uci("./three") as engine:
            infos = engine.analyse(chess.Board(), chess.engine.Limit(depth=9), multipv=3)
            for info in infos:
                print(info["multipv"], info["score"].white(), info["pv"][0], info["depth"], info["seldepth"], info["nodes"], info["nps"], info["time"], info["hashfull"])
            engine.configure({"UCI_ShowWDL": True})
            print(infos[0]["wdl"], infos[0]["wdl"].white().expectation(), infos[0]["wdl"].black().wins, len(infos))
            board = chess.Board()
            board.push_san("e4")
            info = engine.analyse(board, chess.engine.Limit(depth=9), root_moves=[chess.Move.from_uci("e7e5")])
            print(info["score"], info["wdl"].pov(chess.WHITE), board.variation_san(info["pv"]))
            result = engine.play(board, chess.engine.Limit(time=1), opponent=chess.engine.Opponent("Anna", "WGM", 2300, False), info=chess.engine.INFO_ALL)
            print(result.move, result.info["currmove"] if "currmove" in result.info else "", engine.options["MultiPV"].max, engine.options["MultiPV"].is_managed())
        """,
        """
        1 +30 e2e4 9 12 1000 5000 0.2 3
        2 +10 d2d4 9 12 1000 5000 0.2 3
        3 -10 g1f3 9 12 1000 5000 0.2 3
        PovWdl(Wdl(wins=300, draws=600, losses=100), WHITE) 0.6 100 3
        PovScore(Cp(+30), BLACK) Wdl(wins=100, draws=600, losses=300) 1... e5
        e7e5  5 True
        """,
    ),
    (
        "a file that is split by players",
        """
        import chess.pgn
        import collections
        import io

        files = collections.defaultdict(io.StringIO)
        with open("games.pgn") as pgn:
            while (game := chess.pgn.read_game(pgn)) is not None:
                for color in ("White", "Black"):
                    game.accept(chess.pgn.FileExporter(files[game.headers[color]], columns=None))
        for name, file in sorted(files.items()):
            file.seek(0)
            rounds = []
            while (headers := chess.pgn.read_headers(file)) is not None:
                rounds.append(headers["Round"])
            print(name, rounds)
        """,
        """
        Anna ['1', '2', '3']
        Ben ['1', '2']
        Clara ['3']
        """,
    ),
    (
        "openings by their positions",
        """
        import chess
        import chess.pgn

        BOOK = {}
        for name, line in (("King's Pawn", "e4"), ("Open Game", "e4 e5"), ("Petrov", "e4 e5 Nf3 Nf6"), ("Barnes", "f3")):
            board = chess.Board()
            for san in line.split():
                board.push_san(san)
            BOOK[board.epd()] = name

        with open("games.pgn") as pgn:
            while True:
                game = chess.pgn.read_game(pgn)
                if game is None:
                    break
                opening, node = "?", game
                while node is not None:
                    opening = BOOK.get(node.board().epd(), opening)
                    node = node.next()
                game.headers["Opening"] = opening
                print(game.headers["Opening"], game.headers["Site"].split("/")[-1], list(game.headers)[-1])
        """,
        """
        Open Game abcd0000 Opening
        Barnes abcd0001 Opening
        Petrov abcd0002 Opening
        """,
    ),
    (
        "a board that was seen by a camera",
        """
        import chess

        ROWS = ["r...k..r", "pp...ppp", "........", "........", "..B.....", "........", "PPP..PPP", "R...K..R"]
        board = chess.BaseBoard.empty()
        for rank, row in zip(reversed(range(8)), ROWS):
            for file, symbol in enumerate(row):
                if symbol != ".":
                    board.set_piece_at(chess.square(file, rank), chess.Piece.from_symbol(symbol))
        print(board.board_fen(), board.king(chess.WHITE) == chess.E1, len(board.piece_map()))
        for turn in "wb":
            full = chess.Board(f"{board.board_fen()} {turn} KQkq - 0 1")
            print(full.is_valid(), full.status() == chess.STATUS_VALID, full.legal_moves.count(), [full.san(move) for move in full.generate_castling_moves()])
        print(board.attackers(chess.WHITE, chess.F7) == chess.SquareSet([chess.C4]), board == full, board.copy().board_fen() == full.board_fen())
        """,
        """
        r3k2r/pp3ppp/8/8/2B5/8/PPP2PPP/R3K2R True 18
        True True 31 ['O-O', 'O-O-O']
        True True 21 ['O-O', 'O-O-O']
        True True True
        """,
    ),
    (
        "the squares to which a piece can go",
        """
        import chess
        import chess.svg

        board = chess.Board("rnbqkbnr/ppp1pppp/8/3pP3/8/8/PPPP1PPP/RNBQKBNR b KQkq - 0 2")
        board.push_san("f5")
        square = chess.parse_square("e5")
        targets = chess.SquareSet(move.to_square for move in board.generate_legal_moves(from_mask=chess.BB_SQUARES[square]))
        print([chess.square_name(target) for target in targets], board.ep_square == chess.F6, board.has_legal_en_passant())
        picture = chess.svg.board(board, squares=targets, lastmove=board.peek(), check=board.king(board.turn) if board.is_check() else None, size=200)
        print(picture.count("<path d=\\"M") >= 2, 'width="200"' in picture)
        move = board.find_move(square, chess.F6)
        print(board.is_en_passant(move), board.is_capture(move), board.san_and_push(move), board.piece_at(chess.F5), board.gives_check(chess.Move.from_uci("e7f6")))
        """,
        """
        ['e6', 'f6'] True True
        True True
        True True exf6 None False
        """,
    ),
    (
        "the quality of each player's moves",
        """
        import chess
        import chess.engine
        import chess.pgn

        with open("games.pgn") as pgn:
            game = chess.pgn.read_game(pgn)
        losses = {chess.WHITE: [], chess.BLACK: []}
        before = chess.engine.PovScore(chess.engine.Cp(20), chess.WHITE)
        for node in game.mainline():
            after = node.eval()
            if after is None:
                continue
            color = not node.turn()
            losses[color].append(max(0, before.pov(color).score(mate_score=1000) - after.pov(color).score(mate_score=1000)))
            chance = after.wdl(model="lichess").pov(color).expectation()
            before = after
        print({chess.COLOR_NAMES[color]: found for color, found in losses.items()}, round(chance, 2))
        """,
        "{'white': [3, 85], 'black': [8, 10, 1049]} 0.0",
    ),
    (
        "games by their times",
        """
        import chess.pgn
        import io

        for text in ("600+5", "40/7200:3600", "60", "-", "?"):
            game = chess.pgn.read_game(io.StringIO(f'[TimeControl "{text}"]\\n\\n1. e4 {{ [%clk 0:09:58.4] }} *'))
            control = game.time_control()
            print(text, control.type.name, [(part.moves, part.time, part.increment) for part in control.parts], game.next().clock())
        """,
        """
        600+5 RAPID [(0, 600, 5.0)] 598.4
        40/7200:3600 STANDARD [(40, 7200, 0), (0, 3600, 0)] 598.4
        60 BULLET [(0, 60, 0)] 598.4
        - UNLIMITED [] 598.4
        ? UNKNOWN [] 598.4
        """,
    ),
    (
        "a trainer of variations",
        """
        import chess
        import chess.pgn
        import io
        import random

        game = chess.pgn.read_game(io.StringIO("1. e4 e5 (1... c5 2. Nf3 {knight} (2. c3 {Alapin}) d6) (1... e6 2. d4) 2. Nf3 Nc6 *"))

        def lines(node):
            if node.is_end():
                yield node
            for child in node.variations:
                yield from lines(child)

        for leaf in lines(game):
            moves, node = [], leaf
            while node.parent is not None:
                moves.append(node.move)
                node = node.parent
            print(game.board().variation_san(reversed(moves)), f"({leaf.comment or leaf.parent.comment})")
        leaf = random.Random(0).choice(list(lines(game)))
        print(leaf.board().fen() == leaf.accept_subgame(chess.pgn.BoardBuilder()).fen(), leaf.root() == game)
        """,
        """
        1. e4 e5 2. Nf3 Nc6 ()
        1. e4 c5 2. Nf3 d6 (knight)
        1. e4 c5 2. c3 (Alapin)
        1. e4 e6 2. d4 ()
        True True
        """,
    ),
    (
        "names and numbers",
        """
        import chess

        print(chess.__name__ != "", chess.STARTING_BOARD_FEN, [chess.piece_symbol(kind) for kind in chess.PIECE_TYPES], chess.COLOR_NAMES[chess.BLACK])
        print(chess.square_distance(chess.A1, chess.H8), chess.square_manhattan_distance(chess.A1, chess.H8), chess.square_knight_distance(chess.A1, chess.H8))
        print([chess.square_name(chess.square(file, rank)) for file, rank in ((0, 0), (4, 3), (7, 7))], chess.FILE_NAMES[chess.square_file(chess.E4)], chess.RANK_NAMES[chess.square_rank(chess.E4)])
        move = chess.Move(chess.E7, chess.E8, promotion=chess.QUEEN)
        print(move, repr(move), move.uci(), move.from_square, move.promotion, move == chess.Move.from_uci("e7e8q"), len({move, chess.Move.from_uci("e7e8q")}), move.drop)
        piece = chess.Piece(chess.ROOK, chess.BLACK)
        print(piece, repr(piece), piece.symbol(), piece.unicode_symbol(), piece.piece_type, piece.color, piece == chess.Piece.from_symbol("r"), len({piece, chess.Piece.from_symbol("r")}))
        print(chess.UNICODE_PIECE_SYMBOLS["q"], chess.BB_E4 == chess.BB_SQUARES[chess.E4], chess.BB_FILES[4] & chess.BB_RANKS[3] == chess.BB_E4, chess.msb(chess.BB_LIGHT_SQUARES))
        print(chess.Outcome(chess.Termination.CHECKMATE, chess.WHITE), chess.Outcome(chess.Termination.STALEMATE, None).result())
        """,
        """
        True rnbqkbnr/pppppppp/8/8/8/8/PPPPPPPP/RNBQKBNR ['p', 'n', 'b', 'r', 'q', 'k'] black
        7 14 6
        ['a1', 'e4', 'h8'] e 4
        e7e8q Move.from_uci('e7e8q') e7e8q 52 5 True 1 None
        r Piece.from_symbol('r') r ♜ 4 False True 1
        ♛ True True 62
        Outcome(termination=<Termination.CHECKMATE: 1>, winner=True) 1/2-1/2
        """,
    ),
    (
        "random endings",
        """
        import chess
        import random

        def ending(chance, symbols):
            while True:
                board = chess.Board(None)
                for symbol, square in zip(symbols, chance.sample(chess.SQUARES, len(symbols))):
                    board.set_piece_at(square, chess.Piece.from_symbol(symbol))
                board.turn = chance.random() < 0.5
                if board.is_valid() and not board.is_check() and not board.is_game_over():
                    return board

        chance = random.Random(1)
        for symbols in ("KQk", "KRkr", "KPk"):
            board = ending(chance, symbols)
            print(symbols, sorted(piece.symbol() for piece in board.piece_map().values()) == sorted(symbols), board.status() == chess.STATUS_VALID, any(board.legal_moves))
        """,
        """
        KQk True True True
        KRkr True True True
        KPk True True True
        """,
    ),
    (
        "exchanges on a square",
        """
        import chess

        VALUES = {chess.PAWN: 1, chess.KNIGHT: 3, chess.BISHOP: 3, chess.ROOK: 5, chess.QUEEN: 9, chess.KING: 99}

        def least(board, color, square):
            attackers = [(VALUES[board.piece_type_at(it)], it) for it in board.attackers(color, square)]
            return min(attackers)[1] if attackers else None

        def exchange(board, square):
            attacker = least(board, board.turn, square)
            if attacker is None:
                return 0
            gain = VALUES[board.piece_type_at(square)]
            move = board.find_move(attacker, square) if any(board.generate_legal_moves(chess.BB_SQUARES[attacker], chess.BB_SQUARES[square])) else None
            if move is None:
                return 0
            board.push(move)
            value = max(0, gain - exchange(board, square))
            board.pop()
            return value

        board = chess.Board("3r2k1/8/8/3p4/8/8/8/3RR1K1 w - - 0 1")
        print(exchange(board, chess.D5))
        board = chess.Board("6k1/8/8/3p4/8/8/8/3RR1K1 w - - 0 1")
        print(exchange(board, chess.D5), board.find_move(chess.D1, chess.D5))
        """,
        """
        0
        1 d1d5
        """,
    ),
    (
        "an editor with undo",
        """
        import chess

        class Editor:
            def __init__(self):
                self.board = chess.Board.empty()
                self.undo_stack = []

            def put(self, symbol, name):
                self.undo_stack.append(self.board.copy())
                self.board.set_piece_at(chess.parse_square(name), chess.Piece.from_symbol(symbol) if symbol else None)

            def drag(self, start, end):
                piece = self.board.piece_at(chess.parse_square(start))
                self.put("", start)
                self.put(piece.symbol(), end)

            def undo(self):
                self.board = self.undo_stack.pop()

        editor = Editor()
        for symbol, name in (("K", "e1"), ("k", "e8"), ("Q", "d1"), ("n", "b8")):
            editor.put(symbol, name)
        editor.drag("d1", "h5")
        print(editor.board.fen(), editor.board.status() == chess.STATUS_OPPOSITE_CHECK)
        editor.undo()
        editor.undo()
        print(editor.board)
        print(editor.board.unicode(invert_color=True, empty_square="."))
        """,
        """
        1n2k3/8/8/7Q/8/8/8/4K3 w - - 0 1 True
        . n . . k . . .
        . . . . . . . .
        . . . . . . . .
        . . . . . . . .
        . . . . . . . .
        . . . . . . . .
        . . . . . . . .
        . . . Q K . . .
        . ♘ . . ♔ . . .
        . . . . . . . .
        . . . . . . . .
        . . . . . . . .
        . . . . . . . .
        . . . . . . . .
        . . . . . . . .
        . . . ♛ ♚ . . .
        """,
    ),
]


class Tasks(test_python_programs.Programs):
    def setUp(self):
        runs.make("libraries")

    def write_files(self, folder):
        super().write_files(folder)
        with open(f"{folder}/three", "w", encoding="utf-8") as file:
            file.write(THREE_LINES)
        os.chmod(f"{folder}/three", 0o755)

    def test_programs_for_tasks(self):
        self.check(PROGRAMS)


if __name__ == "__main__":
    unittest.main()
