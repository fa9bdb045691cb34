"""Programs about games, engines, books and pictures as they are written for python-chess: they run over `jatshegi.compat` if their import lines are changed."""
import unittest

import runs
import test_python_programs

PROGRAMS = [
    (
        "all games of a file",
        """
        import chess.pgn
        import collections

        results, openings = collections.Counter(), collections.Counter()
        with open("games.pgn") as pgn:
            while True:
                game = chess.pgn.read_game(pgn)
                if game is None:
                    break
                results[game.headers["Result"]] += 1
                openings[game.headers.get("ECO", "?")[0]] += 1
                board = game.board()
                for move in game.mainline_moves():
                    board.push(move)
                print(game.headers["White"], "-", game.headers["Black"], board.fullmove_number, board.is_checkmate(), game.end().ply())
        print(dict(results), dict(openings), game)
        """,
        """
        Anna - Ben 4 True 7
        Ben - Anna 3 True 4
        Anna - Clara 4 False 6
        {'1-0': 1, '0-1': 1, '1/2-1/2': 1} {'C': 2, 'A': 1} None
        """,
    ),
    (
        "a tree of openings by EPD",
        """
        import chess
        import chess.pgn
        import collections
        import io

        tree = collections.Counter()
        file = io.StringIO("1. e4 e5 2. Nf3 * 1. Nf3 e5 2. e4 * 1. d4 *")
        while (game := chess.pgn.read_game(file)) is not None:
            board = game.board()
            for move in game.mainline_moves():
                board.push(move)
                tree[board.epd()] += 1
        print(sorted(tree.values()))
        """,
        "[1, 1, 1, 1, 1, 2]",
    ),
    (
        "a visitor",
        """
        import chess
        import chess.pgn

        class Positions(chess.pgn.BaseVisitor):
            def begin_game(self):
                self.epds, self.skipped = [], False

            def visit_header(self, tagname, tagvalue):
                if tagname == "WhiteElo" and int(tagvalue) < 1800:
                    self.skipped = True

            def end_headers(self):
                if self.skipped:
                    return chess.pgn.SKIP

            def begin_variation(self):
                return chess.pgn.SKIP

            def visit_move(self, board, move):
                if board.is_capture(move):
                    self.epds.append(board.san(move))

            def visit_board(self, board):
                self.last = board.board_fen()

            def result(self):
                return None if self.skipped else (self.epds, self.last)

        with open("games.pgn") as pgn:
            for _ in range(4):
                print(chess.pgn.read_game(pgn, Visitor=Positions))
        """,
        """
        (['Qxf7#'], 'r1bqkb1r/pppp1Qpp/2n2n2/4p3/2B1P3/8/PPPP1PPP/RNB1K1NR')
        None
        (['Nxe5'], 'rnbqkb1r/ppp2ppp/3p1n2/4N3/4P3/8/PPPP1PPP/RNBQKB1R')
        None
        """,
    ),
    (
        "a visitor that counts, with types",
        """
        import typing

        import chess
        import chess.pgn

        class CountingVisitor(chess.pgn.BaseVisitor[typing.Tuple[int, int]]):
            def __init__(self) -> None:
                self.moves = 0
                self.comments = 0

            def visit_move(self, board: chess.Board, move: chess.Move) -> None:
                self.moves += 1

            def visit_comment(self, comment: str) -> None:
                self.comments += 1

            def result(self) -> typing.Tuple[int, int]:
                return self.moves, self.comments

        with open("games.pgn") as pgn:
            game = chess.pgn.read_game(pgn)
        assert game is not None
        print(game.accept(CountingVisitor()), game.next().accept(CountingVisitor()))
        """,
        "(9, 7) (9, 7)",
    ),
    (
        "headers by their offsets",
        """
        import chess.pgn

        offsets = []
        pgn = open("games.pgn")
        while True:
            offset = pgn.tell()
            headers = chess.pgn.read_headers(pgn)
            if headers is None:
                break
            if "Anna" in headers.get("White", "?"):
                offsets.append(offset)
        for offset in reversed(offsets):
            pgn.seek(offset)
            game = chess.pgn.read_game(pgn)
            print(game.headers["Round"], game.next().san(), game.headers["Black"])
        pgn.seek(0)
        print(chess.pgn.skip_game(pgn), chess.pgn.read_headers(pgn)["Round"], chess.pgn.skip_game(pgn), chess.pgn.skip_game(pgn))
        pgn.close()
        """,
        """
        3 e4 Clara
        1 e4 Ben
        True 2 True False
        """,
    ),
    (
        "games merged into one tree",
        """
        import chess
        import chess.pgn

        def merge(into, node):
            for child in node.variations:
                if into.has_variation(child.move):
                    merge(into.variation(child.move), child)
                else:
                    merge(into.add_variation(child.move), child)

        master = chess.pgn.Game()
        master.headers["Event"] = "Repertoire"
        with open("games.pgn") as pgn:
            while True:
                game = chess.pgn.read_game(pgn)
                if game is None:
                    break
                merge(master, game)
        print(master.accept(chess.pgn.StringExporter(headers=False, columns=60)))
        """,
        """
        1. e4 ( 1. f3 e5 2. g4 Qh4# ) 1... e5 2. Qh5 ( 2. Nf3 Nf6
        3. Nxe5 ( 3. Nc3 Nc6 ( 3... Bb4 ) ) 3... d6 ) 2... Nc6 3.
        Bc4 Nf6 ( 3... g6 4. Qf3 ) 4. Qxf7# *
        """,
    ),
    (
        "games annotated by an engine",
        """
        import chess
        import chess.engine
        import chess.pgn

        engine = chess.engine.SimpleEngine.popen_uci("./stockfish")
        with open("games.pgn") as pgn:
            game = chess.pgn.read_game(pgn)
        for node in game.mainline():
            before = engine.analyse(node.parent.board(), chess.engine.Limit(depth=2))
            after = engine.analyse(node.board(), chess.engine.Limit(depth=1)) if not node.board().is_game_over() else None
            best = before["pv"][0]
            score = before["score"].pov(node.parent.turn()).score(mate_score=10000)
            if after is not None and score is not None:
                played = after["score"].pov(node.parent.turn()).score(mate_score=10000)
                if score - played > 300 and best != node.move:
                    node.nags = {chess.pgn.NAG_BLUNDER}
                    node.parent.add_variation(best, comment="better")
            node.set_eval(before["score"])
        engine.quit()
        blunders = [node for node in game.mainline() if chess.pgn.NAG_BLUNDER in node.nags]
        print([node.san() for node in blunders][-1], blunders[-1].parent.variations[-1].comment, game.end().eval().white().mate(), game.end().clock())
        """,
        "Nf6 better 1 174.0",
    ),
    (
        "clocks and evaluations",
        """
        import chess
        import chess.engine
        import chess.pgn
        import chess.svg

        with open("games.pgn") as pgn:
            game = chess.pgn.read_game(pgn)
        clocks = {chess.WHITE: None, chess.BLACK: None}
        for node in game.mainline():
            color = not node.turn()
            spent = None if clocks[color] is None else clocks[color] - node.clock()
            clocks[color] = node.clock()
            eval = node.eval()
            print(node.san(), node.clock(), spent, None if eval is None else eval.white(), eval is not None and eval.is_mate())
        node.set_clock(3661.5)
        node.set_emt(2)
        node.set_eval(chess.engine.PovScore(chess.engine.Cp(-120), chess.BLACK), depth=12)
        node.set_arrows([chess.svg.Arrow(chess.H5, chess.F7, color="red"), (chess.C4, chess.C4)])
        print(node.comment)
        print([arrow.pgn() for arrow in node.arrows()], node.emt(), node.eval_depth(), node.eval())
        """,
        """
        e4 180.0 None +17 False
        e5 178.0 None +25 False
        Qh5 177.0 3.0 -60 False
        Nc6 170.0 8.0 -50 False
        Bc4 175.0 2.0 None False
        Nf6 161.0 9.0 #+1 True
        Qxf7# 174.0 1.0 None False
        [%csl Gc4][%cal Rh5f7] [%clk 1:01:01.5] [%emt 0:00:02] [%eval 1.20,12]
        ['Gc4', 'Rh5f7'] 2.0 12 PovScore(Cp(-120), BLACK)
        """,
    ),
    (
        "variations that are edited",
        """
        import chess
        import chess.pgn

        game = chess.pgn.Game()
        game.headers["White"] = "Me"
        node = game.add_variation(chess.Move.from_uci("e2e4"))
        node = node.add_variation(chess.Move.from_uci("c7c5"), comment="Sicilian")
        open_line = node.add_line([chess.Move.from_uci(uci) for uci in ("g1f3", "d7d6", "d2d4")], comment="Open", starting_comment="main")
        alapin = node.add_variation(chess.Move.from_uci("c2c3"), nags=[chess.pgn.NAG_SPECULATIVE_MOVE])
        french = game[0].add_main_variation(chess.Move.from_uci("e7e6"))
        print(game[0][0] is french, [child.san() for child in game[0].variations], node.starts_variation(), node.is_main_variation(), open_line.is_mainline())
        game[0].demote(french)
        node.promote(alapin)
        print([child.uci() for child in node.variations], alapin in node, chess.Move.from_uci("b1c3") in node, node[alapin.move] is alapin)
        node.promote_to_main(chess.Move.from_uci("g1f3"))
        alapin.nags.discard(5)
        alapin.nags.add(chess.pgn.NAG_DUBIOUS_MOVE)
        game[0].remove_variation(french)
        print(game)
        print(open_line.parent.parent.parent is node, open_line.root() is game, open_line.is_end(), game.end().san(), french in game[0].variations)
        """,
        """
        True ['e6', 'c5'] True False False
        ['c2c3', 'g1f3'] True False True
        [Event "?"]
        [Site "?"]
        [Date "????.??.??"]
        [Round "?"]
        [White "Me"]
        [Black "?"]
        [Result "*"]

        1. e4 c5 { Sicilian } { main } 2. Nf3 ( 2. c3 $6 ) 2... d6 3. d4 { Open } *
        True True True d4 False
        """,
    ),
    (
        "exporters",
        """
        import chess.pgn
        import io

        with open("games.pgn") as pgn:
            first = chess.pgn.read_game(pgn)
            chess.pgn.skip_game(pgn)
            third = chess.pgn.read_game(pgn)
        exporter = chess.pgn.StringExporter(headers=True, variations=True, comments=False)
        print(third.accept(exporter), end="\\n\\n")
        print(first.mainline_moves(), "|", third.accept(chess.pgn.StringExporter(columns=None, headers=False, variations=False)))
        new_pgn = io.StringIO()
        print(third.accept(chess.pgn.FileExporter(new_pgn)) == len(new_pgn.getvalue()), new_pgn.getvalue().count("\\n"))
        print(third, file=new_pgn, end="\\n\\n")
        again = chess.pgn.read_game(io.StringIO(new_pgn.getvalue()))
        print(again == third, str(again) == str(third), again.headers == third.headers, list(again.headers)[-2:])
        """,
        """
        [Event "Match"]
        [Site "https://lichess.org/abcd0002"]
        [Date "2024.01.03"]
        [Round "3"]
        [White "Anna"]
        [Black "Clara"]
        [Result "1/2-1/2"]
        [ECO "C42"]
        [WhiteElo "1862"]

        1. e4 e5 2. Nf3 Nf6 3. Nxe5 ( 3. Nc3 Nc6 ( 3... Bb4 ) ) 3... d6 1/2-1/2

        1. e4 { [%eval 0.17] [%clk 0:03:00] } 1... e5 { [%eval 0.25] [%clk 0:02:58] } 2. Qh5 { [%eval -0.6] [%clk 0:02:57] } 2... Nc6 { [%eval -0.5] [%clk 0:02:50] } 3. Bc4 { [%clk 0:02:55] } 3... Nf6 $4 { [%eval #1] [%clk 0:02:41] } 4. Qxf7# { [%clk 0:02:54] } | 1. e4 e5 2. Nf3 Nf6 3. Nxe5 d6 $1 1/2-1/2
        True 13
        False True True ['ECO', 'WhiteElo']
        """,
    ),
    (
        "games with errors",
        """
        import chess
        import chess.pgn
        import io
        import logging

        logging.getLogger("chess.pgn").setLevel(logging.CRITICAL)
        pgn = io.StringIO('[Event "a"]\\n\\n1. e4 e5 2. Ke3 Nc6 *\\n\\n[Event "b"]\\n\\n1. d4 d5 1-0\\n')
        for _ in range(2):
            game = chess.pgn.read_game(pgn)
            print(game.headers["Event"], [move.uci() for move in game.mainline_moves()], len(game.errors), bool(game.errors) and isinstance(game.errors[0], ValueError))

        class StrictBuilder(chess.pgn.GameBuilder):
            def handle_error(self, error):
                raise error

        try:
            chess.pgn.read_game(io.StringIO("1. e4 e4 *"), Visitor=StrictBuilder)
        except ValueError:
            print("refused")
        """,
        """
        a ['e2e4', 'e7e5'] 1 True
        b ['d2d4', 'd7d5'] 0 False
        refused
        """,
    ),
    (
        "the game of a board",
        """
        import chess
        import chess.pgn
        import datetime

        board = chess.Board("rnbqkbnr/pppp1ppp/8/4p3/6P1/5P2/PPPPP2P/RNBQKBNR b KQkq g3 0 2")
        board.push_san("Qh4#")
        game = chess.pgn.Game.from_board(board)
        game.headers["Event"] = "Casual"
        game.headers["Date"] = datetime.date(2024, 5, 17).strftime("%Y.%m.%d")
        print(game)
        print(game.end().board() == board, game.board().fen(en_passant="fen"), game.headers)
        other = chess.pgn.Game()
        other.setup(chess.Board("4k3/8/8/8/8/8/4P3/4K3 w - - 0 1"))
        other.headers["Result"] = "*"
        other.add_line([chess.Move.from_uci("e2e4"), chess.Move.from_uci("e8e7")])
        del other.headers["Round"]
        print(other.headers["SetUp"], other.end().board().fen(), "Round" in other.headers, len(other.headers))
        """,
        """
        [Event "Casual"]
        [Site "?"]
        [Date "2024.05.17"]
        [Round "?"]
        [White "?"]
        [Black "?"]
        [Result "0-1"]
        [FEN "rnbqkbnr/pppp1ppp/8/4p3/6P1/5P2/PPPPP2P/RNBQKBNR b KQkq - 0 2"]
        [SetUp "1"]

        2... Qh4# 0-1
        True rnbqkbnr/pppp1ppp/8/4p3/6P1/5P2/PPPPP2P/RNBQKBNR b KQkq - 0 2 Headers(Event='Casual', Site='?', Date='2024.05.17', Round='?', White='?', Black='?', Result='0-1', FEN='rnbqkbnr/pppp1ppp/8/4p3/6P1/5P2/PPPPP2P/RNBQKBNR b KQkq - 0 2', SetUp='1')
        1 8/4k3/8/8/4P3/8/8/4K3 w - - 1 2 False 8
        """,
    ),
    (
        "a table of positions",
        """
        import chess
        import chess.pgn

        def positions(game):
            node = game
            while not node.is_end():
                next_node = node.variation(0)
                yield node.board().fen(), next_node.move.uci(), node.board().san(next_node.move), node.turn()
                node = next_node

        with open("games.pgn") as pgn:
            chess.pgn.skip_game(pgn)
            game = chess.pgn.read_game(pgn)
        for fen, uci, san, turn in positions(game):
            print(fen.split()[0][-8:], uci, san, "w" if turn else "b")
        print(" ".join(node.uci() for node in game.mainline()), "/", " ".join(str(move) for move in reversed(game.mainline_moves())))
        """,
        """
        RNBQKBNR f2f3 f3 w
        RNBQKBNR e7e5 e5 b
        RNBQKBNR g2g4 g4 w
        RNBQKBNR d8h4 Qh4# b
        f2f3 e7e5 g2g4 d8h4 / d8h4 g2g4 e7e5 f2f3
        """,
    ),
    (
        "a tree that is printed",
        """
        import chess.pgn

        def show(node, depth=0):
            for number, child in enumerate(node.variations):
                mark = "".join(f" ${nag}" for nag in sorted(child.nags)) + (f" {{{child.comment}}}" if child.comment else "")
                print("  " * depth + child.san() + mark)
                show(child, depth + number)

        with open("games.pgn") as pgn:
            chess.pgn.skip_game(pgn), chess.pgn.skip_game(pgn)
            game = chess.pgn.read_game(pgn)
        show(game)
        leaf = game.end()
        print(leaf.ply(), leaf.parent.variations[0] is leaf, [node.san() for node in leaf.parent.mainline()], leaf.board().ply(), leaf.game() is game)
        """,
        """
        e4
        e5
        Nf3
        Nf6
        Nxe5
        d6 $1
        Nc3 {Three knights}
          Nc6
          Bb4 $5
        6 True ['d6'] 6 True
        """,
    ),
    (
        "a pool of processes",
        """
        import chess
        import chess.pgn
        import multiprocessing
        import pickle

        def evaluate(board):
            return board.fen().split()[1], board.legal_moves.count()

        if __name__ == "__main__":
            boards = [chess.Board()]
            for san in ("e4", "e5", "Nf3"):
                boards.append(boards[-1].copy())
                boards[-1].push_san(san)
            with multiprocessing.get_context("fork").Pool(2) as pool:
                print(pool.map(evaluate, boards))
            with open("games.pgn") as pgn:
                game = chess.pgn.read_game(pgn)
            again = pickle.loads(pickle.dumps(game))
            print(str(again) == str(game), pickle.loads(pickle.dumps(boards[-1])).move_stack == boards[-1].move_stack)
        """,
        """
        [('w', 20), ('b', 20), ('w', 29), ('b', 29)]
        True True
        """,
    ),
    (
        "an engine that plays",
        """
        import chess
        import chess.engine

        engine = chess.engine.SimpleEngine.popen_uci("./stockfish")

        board = chess.Board("7k/8/6K1/8/8/8/8/R7 w - - 0 1")
        while not board.is_game_over():
            result = engine.play(board, chess.engine.Limit(depth=3))
            board.push(result.move)
        print(board.result(), board.peek(), result.draw_offered, result.resigned, result.ponder)

        info = engine.analyse(chess.Board("7k/8/6K1/8/8/8/8/R7 w - - 0 1"), chess.engine.Limit(depth=2))
        print("Score:", info["score"], info["score"].white().mate(), info["pv"], info["depth"] >= 1, info["score"].relative.score(mate_score=100000))
        infos = engine.analyse(chess.Board(), chess.engine.Limit(time=0.05), info=chess.engine.INFO_SCORE | chess.engine.INFO_PV)
        print(infos["score"].is_mate(), abs(infos["score"].white().score()) < 200)
        engine.quit()
        """,
        """
        1-0 a1a8 False False None
        Score: PovScore(Mate(+1), WHITE) 1 [Move.from_uci('a1a8')] True 99999
        False True
        """,
    ),
    (
        "an engine, with asyncio",
        """
        import asyncio
        import chess
        import chess.engine

        async def main() -> None:
            transport, engine = await chess.engine.popen_uci("./stockfish")

            board = chess.Board("6k1/5ppp/8/8/8/8/5PPP/3R2K1 w - - 0 1")
            while not board.is_game_over():
                result = await engine.play(board, chess.engine.Limit(depth=3))
                board.push(result.move)
            print(board.result())
            info = await engine.analyse(chess.Board(), chess.engine.Limit(depth=2))
            print(info["score"].pov(chess.WHITE).score() is not None, info["pv"][0] in chess.Board().legal_moves)
            await engine.quit()

        asyncio.run(main())
        """,
        """
        1-0
        True True
        """,
    ),
    (
        "a running analysis",
        """
        import chess
        import chess.engine

        with chess.engine.SimpleEngine.popen_uci("./stockfish") as engine:
            with engine.analysis(chess.Board()) as analysis:
                for info in analysis:
                    if info.get("score") is not None and info.get("pv"):
                        found = info["pv"][0]
                    # Arbitrary stop condition.
                    if info.get("depth", 0) >= 2:
                        break
            print(found in chess.Board().legal_moves, analysis.info["depth"])
            board = chess.Board("7k/8/6K1/8/8/8/8/R7 w - - 0 1")
            with engine.analysis(board, chess.engine.Limit(depth=2)) as analysis:
                print(board.san(analysis.wait().move), [board.san(line["pv"][0]) for line in analysis.multipv])
        """,
        """
        True 2
        Ra8# ['Ra8#']
        """,
    ),
    (
        "a running analysis, with asyncio",
        """
        import asyncio
        import chess
        import chess.engine

        async def main() -> None:
            transport, engine = await chess.engine.popen_uci("./stockfish")
            depths = []
            with await engine.analysis(chess.Board()) as analysis:
                async for info in analysis:
                    depths.append(info.get("depth"))
                    # Arbitrary stop condition.
                    if info.get("seldepth", info.get("depth", 0)) > 1:
                        break
            print(depths[-1], engine.id["name"].split()[0])
            await asyncio.wait_for(engine.ping(), 10)
            await engine.quit()

        asyncio.run(main())
        """,
        "2 Jatshegi",
    ),
    (
        "the options of an engine",
        """
        import chess
        import chess.engine

        engine = chess.engine.SimpleEngine.popen_uci(["./stockfish"], timeout=20)
        print(sorted(engine.options) != [], "name" in engine.id)
        for name, option in engine.options.items():
            if not option.is_managed() and option.type == "spin":
                engine.configure({name: option.default})
        try:
            engine.configure({"No such option": 1})
        except chess.engine.EngineError:
            print("refused")
        try:
            engine.play(chess.Board(None), chess.engine.Limit(depth=1))
        except (ValueError, chess.engine.EngineError):
            print("no position")
        engine.ping()
        engine.close()
        try:
            engine.play(chess.Board(), chess.engine.Limit(time=1))
        except chess.engine.EngineTerminatedError:
            print("gone")
        try:
            chess.engine.SimpleEngine.popen_uci("/nonexistent")
        except FileNotFoundError:
            print("not there")
        """,
        """
        True True
        refused
        no position
        gone
        not there
        """,
    ),
    (
        "a match of engines with clocks",
        """
        import chess
        import chess.engine
        import chess.pgn

        names = {chess.WHITE: "One", chess.BLACK: "Two"}
        engines = {color: chess.engine.SimpleEngine.popen_uci("./stockfish") for color in chess.COLORS}
        board = chess.Board("4k3/8/8/8/8/8/4P3/R3K3 w - - 0 1")
        game = chess.pgn.Game()
        game.setup(board)
        node = game
        for color, name in names.items():
            game.headers[chess.COLOR_NAMES[color].capitalize()] = name
        clocks = {chess.WHITE: 2.0, chess.BLACK: 2.0}
        while not board.is_game_over(claim_draw=True) and board.ply() < 4:
            limit = chess.engine.Limit(depth=1, white_clock=clocks[chess.WHITE], black_clock=clocks[chess.BLACK], white_inc=0.1, black_inc=0.1)
            result = engines[board.turn].play(board, limit, game=game, info=chess.engine.INFO_BASIC, ponder=False)
            clocks[board.turn] -= 0.25
            node = node.add_variation(result.move)
            node.set_clock(clocks[board.turn])
            board.push(result.move)
        for engine in engines.values():
            engine.quit()
        game.headers["Result"] = board.result(claim_draw=True)
        print(game.headers["White"], game.headers["Black"], game.headers["Result"], len(list(game.mainline())), game.end().clock(), game.end().board() == board)
        """,
        "One Two * 4 1.5 True",
    ),
    (
        "scores",
        """
        import chess
        from chess.engine import Cp, Mate, MateGiven, PovScore, Wdl

        assert Mate(-0) < Mate(-1) < Cp(-50) < Cp(200) < Mate(4) < Mate(1) < MateGiven
        print(Cp(10), -Mate(3), max(Cp(20), Mate(-1)), Mate(5).score(), Mate(5).score(mate_score=1000), Cp(-33).score(), Mate(-2).is_mate())
        pov = PovScore(Cp(-20), chess.BLACK)
        print(pov, pov.white(), pov.black(), pov.relative, pov.pov(chess.WHITE).score(), pov.is_mate(), pov == PovScore(Cp(20), chess.WHITE))
        print(isinstance(Mate(2), chess.engine.Mate) and isinstance(Cp(1), Cp), Mate(2).mate(), Cp(1).mate(), repr(Mate(2)), repr(MateGiven), sorted([Mate(1), Cp(5), Mate(-4)]))
        wdl = Wdl(500, 300, 200)
        print(wdl.total(), wdl.expectation(), wdl.winning_chance(), list(-wdl), Cp(0).wdl(model="lichess").expectation())
        """,
        """
        +10 #-3 +20 None 995 -33 True
        PovScore(Cp(-20), BLACK) +20 -20 -20 20 False True
        True 2 None Mate(+2) MateGiven [Mate(-4), Cp(+5), Mate(+1)]
        1000 0.65 0.5 [200, 300, 500] 0.5
        """,
    ),
    (
        "an opening book",
        """
        import chess
        import chess.polyglot
        import random

        board = chess.Board()
        with chess.polyglot.open_reader("book.bin") as reader:
            for entry in reader.find_all(board):
                print(entry.move, entry.weight, entry.learn)
            main_entry = reader.find(board)
            print(main_entry.move, len(reader), reader.get(chess.Board("4k3/8/8/8/8/8/8/4K3 w - - 0 1")), reader[1].move, reader[1].key == main_entry.key)
            print(reader.weighted_choice(board, random=random.Random(7)).move in board.legal_moves, reader.choice(board, minimum_weight=25).move)
            print([entry.move.uci() for entry in reader.find_all(board, exclude_moves=[chess.Move.from_uci("e2e4")])])
            board.push_san("a3")
            try:
                reader.find(board)
            except IndexError:
                print("out of the book")
        print(f"{chess.polyglot.zobrist_hash(chess.Board()):016x}")
        """,
        """
        e2e4 30 0
        d2d4 20 0
        g1f3 10 0
        e2e4 3 None d2d4 True
        True e2e4
        ['d2d4', 'g1f3']
        out of the book
        463b96181691fc9c
        """,
    ),
    (
        "pictures",
        """
        import chess
        import chess.svg

        board = chess.Board("8/8/8/8/4N3/8/8/8 w - - 0 1")
        picture = chess.svg.board(
            board,
            fill=dict.fromkeys(board.attacks(chess.E4), "#cc0000cc"),
            arrows=[chess.svg.Arrow(chess.E4, chess.F6, color="#0000cccc")],
            squares=chess.SquareSet(chess.BB_DARK_SQUARES & chess.BB_FILE_B),
            size=350,
        )
        print(picture.count("#cc0000cc"), picture.startswith("<svg"), picture.count("<line"), picture._repr_svg_() == picture)
        for more in ({"flipped": True}, {"orientation": chess.BLACK}, {"coordinates": False}, {"borders": True}, {"style": ".square { stroke: red }"}, {"colors": {"square light": "#ffffff"}}):
            other = chess.svg.board(chess.Board(), lastmove=chess.Move.from_uci("e2e4"), check=chess.E8, **more)
            print(sorted(more), other.startswith("<svg"), other.count("translate") >= 32)
        print(chess.svg.piece(chess.Piece.from_symbol("R"), size=45)._repr_svg_()[:4], chess.Piece.from_symbol("R")._repr_svg_()[:4], chess.Board()._repr_svg_()[:4])
        with open("board.svg", "w") as file:
            file.write(chess.svg.board(chess.Board(), size=400))
        """,
        """
        8 True 1 True
        ['flipped'] True True
        ['orientation'] True True
        ['coordinates'] True True
        ['borders'] True True
        ['style'] True True
        ['colors'] True True
        <svg <svg <svg
        """,
    ),
]


class Games(test_python_programs.Programs):
    def setUp(self):
        runs.make("libraries")

    def test_programs_about_games(self):
        self.check(PROGRAMS)


if __name__ == "__main__":
    unittest.main()
