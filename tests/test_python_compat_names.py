"""The public names of python-chess 1.11: each is in `jatshegi.compat`, or docs/PYTHON.md lists it as left out."""
import importlib
import re
import sys
import unittest

import runs

PACKAGE = f"{runs.TOP}/python"

NAMES = {
    "chess": """
        A1 AmbiguousMoveError BB_A1 BB_ALL BB_BACKRANKS BB_CENTER BB_CORNERS BB_DARK_SQUARES BB_DIAG_ATTACKS BB_DIAG_MASKS BB_EMPTY BB_FILE_A BB_FILE_ATTACKS
        BB_FILE_MASKS BB_FILES BB_KING_ATTACKS BB_KNIGHT_ATTACKS BB_LIGHT_SQUARES BB_PAWN_ATTACKS BB_RANK_1 BB_RANK_ATTACKS BB_RANK_MASKS BB_RANKS BB_RAYS
        BB_SQUARES BISHOP BLACK BaseBoard Bitboard Board COLORS COLOR_NAMES Color EnPassantSpec FEN_CASTLING_REGEX FILE_NAMES H8 IllegalMoveError IntoSquareSet
        InvalidMoveError KING KNIGHT LegalMoveGenerator Move Outcome PAWN PIECE_NAMES PIECE_SYMBOLS PIECE_TYPES Piece PieceType PseudoLegalMoveGenerator QUEEN
        RANK_NAMES ROOK SAN_REGEX SQUARES SQUARES_180 SQUARE_NAMES STARTING_BOARD_FEN STARTING_FEN STATUS_VALID Square SquareSet Status Termination
        UNICODE_PIECE_SYMBOLS WHITE between engine flip_anti_diagonal flip_diagonal flip_horizontal flip_vertical gaviota lsb msb parse_square pgn piece_name
        piece_symbol polyglot popcount ray scan_forward scan_reversed shift_2_down shift_2_left shift_2_right shift_2_up shift_down shift_down_left
        shift_down_right shift_left shift_right shift_up shift_up_left shift_up_right square square_distance square_file square_knight_distance
        square_manhattan_distance square_mirror square_name square_rank svg syzygy variant
    """,
    "Board": """
        aliases apply_mirror apply_transform attackers attackers_mask attacks attacks_mask bishops board_fen can_claim_draw can_claim_fifty_moves
        can_claim_threefold_repetition captures_compulsory castling_rights castling_shredder_fen castling_xfen checkers checkers_mask chess960 chess960_pos
        clean_castling_rights clear clear_board clear_stack color_at connected_kings copy empty ep_square epd fen find_move from_chess960_pos from_epd
        fullmove_number generate_castling_moves generate_legal_captures generate_legal_ep generate_legal_moves generate_pseudo_legal_captures
        generate_pseudo_legal_ep generate_pseudo_legal_moves gives_check halfmove_clock has_castling_rights has_chess960_castling_rights
        has_insufficient_material has_kingside_castling_rights has_legal_en_passant has_pseudo_legal_en_passant has_queenside_castling_rights is_attacked_by
        is_capture is_castling is_check is_checkmate is_en_passant is_fifty_moves is_fivefold_repetition is_game_over is_insufficient_material is_into_check
        is_irreversible is_kingside_castling is_legal is_pinned is_pseudo_legal is_queenside_castling is_repetition is_seventyfive_moves is_stalemate is_valid
        is_variant_draw is_variant_end is_variant_loss is_variant_win is_zeroing king kings knights lan legal_moves mirror move_stack occupied occupied_co
        one_king outcome parse_san parse_uci parse_xboard pawnless_tbw_suffix pawns peek piece_at piece_map piece_type_at pieces pieces_mask pin pin_mask ply pop
        promoted pseudo_legal_moves push push_san push_uci push_xboard queens remove_piece_at reset reset_board result rooks root san san_and_push
        set_board_fen set_castling_fen set_chess960_pos set_epd set_fen set_piece_at set_piece_map shredder_fen starting_fen status tbw_magic tbw_suffix
        tbz_magic tbz_suffix transform turn uci uci_variant unicode variation_san was_into_check xboard xboard_variant
    """,
    "SquareSet": """
        add between carry_rippler clear copy difference difference_update discard from_square intersection intersection_update isdisjoint issubset issuperset
        mask mirror pop ray remove symmetric_difference symmetric_difference_update tolist union update
    """,
    "Move": "drop from_square from_uci null promotion to_square uci xboard",
    "Piece": "color from_symbol piece_type symbol unicode_symbol",
    "Outcome": "result termination winner",
    "pgn": """
        ARROWS_REGEX BaseVisitor BoardBuilder CLOCK_REGEX ChildNode EMT_REGEX EVAL_REGEX FileExporter FileExporterMixin Game GameBuilder GameNode Headers
        HeadersBuilder LOGGER MOVETEXT_REGEX Mainline NAG_BLUNDER NAG_GOOD_MOVE NAG_NOVELTY NAG_NULL SKIP SKIP_MOVETEXT_REGEX SkipType SkipVisitor
        StringExporter StringExporterMixin TAG_NAME_REGEX TAG_REGEX TAG_ROSTER TimeControl TimeControlPart TimeControlType parse_time_control read_game
        read_headers skip_game
    """,
    "GameNode": """
        accept accept_subgame add_line add_main_variation add_variation arrows board clock comment demote emt end eval eval_depth game has_variation is_end
        is_main_variation is_mainline mainline mainline_moves move nags next parent ply promote promote_to_main remove_variation root san set_arrows set_clock
        set_emt set_eval starting_comment starts_variation turn uci variation variations
    """,
    "Game": "builder errors from_board headers setup time_control without_tag_roster",
    "Headers": "board builder copy is_chess960 is_wild variant",
    "BaseVisitor": """
        begin_game begin_headers begin_parse_san begin_variation end_game end_headers end_variation handle_error parse_san result visit_board visit_comment
        visit_header visit_move visit_nag visit_result
    """,
    "engine": """
        AnalysisComplete AnalysisResult BestMove ConfigMapping Cp EngineError EngineProtocol EngineTerminatedError EventLoopPolicy INFO_ALL INFO_BASIC
        INFO_CURRLINE INFO_NONE INFO_PV INFO_REFUTATION INFO_SCORE Info InfoDict LOGGER Limit MANAGED_OPTIONS Mate MateGiven MateGivenType Opponent Option
        PlayResult PovScore PovWdl Protocol Score SimpleAnalysisResult SimpleEngine UciProtocol Wdl XBoardProtocol popen_uci popen_xboard run_in_background
    """,
    "SimpleEngine": "analyse analysis close configure ping play popen_uci popen_xboard protocol quit send_game_result send_opponent_information transport",
    "UciProtocol": "analyse analysis configure id initialize options ping play quit returncode send_game_result send_opponent_information",
    "SimpleAnalysisResult": "empty get info next stop wait would_block",
    "AnalysisResult": "empty get info multipv next stop wait would_block",
    "Score": "is_mate mate score wdl",
    "PovScore": "black is_mate pov relative turn wdl white",
    "Wdl": "draws drawing_chance expectation losing_chance losses total winning_chance wins",
    "PovWdl": "black pov relative turn white",
    "Option": "default is_managed max min name parse type var",
    "Limit": "black_clock black_inc clock_id depth mate nodes remaining_moves time white_clock white_inc",
    "polyglot": "Entry MemoryMappedReader POLYGLOT_RANDOM_ARRAY ZobristHasher open_reader zobrist_hash",
    "MemoryMappedReader": "bisect_key_left choice close find find_all get weighted_choice",
    "svg": "Arrow MARGIN SQUARE_SIZE SvgWrapper board piece",
    "Arrow": "color from_pgn head pgn tail",
}


def setUpModule():
    runs.make("libraries")
    sys.path.insert(0, PACKAGE)
    global chess
    chess = importlib.import_module("jatshegi.compat")
    importlib.import_module("jatshegi.compat.engine")


def tearDownModule():
    sys.path.remove(PACKAGE)


def has(it, name):
    """Whether it has the name, or says that it is refused."""
    try:
        return hasattr(it, name)
    except NotImplementedError:
        return True


class Names(unittest.TestCase):
    def objects(self):
        """The object of each group of names."""
        game = chess.pgn.Game()
        made = {"Board": chess.Board(), "GameNode": game.add_variation(chess.Move(12, 28)), "Game": game, "chess": chess}
        made.update({name: getattr(chess, name) for name in ("pgn", "engine", "polyglot", "svg", "SquareSet", "Move", "Piece", "Outcome")})
        for module in (chess.pgn, chess.engine, chess.polyglot, chess.svg):
            made.update({name: getattr(module, name) for name in NAMES if name not in made and hasattr(module, name)})
        made["SquareSet"] = chess.SquareSet()
        return made

    def left_out(self):
        """The names that the page lists as left out, by the group."""
        with open(f"{runs.TOP}/docs/PYTHON.md", encoding="utf-8") as page:
            table = re.search(r"(?s)\| In \| Names that are left out \|\n\|---\|---\|\n(.*?)\n\n", page.read())[1]
        rows = [row.split("|")[1:3] for row in table.splitlines()]
        return {group.strip(" `"): set(names.strip(" `").split()) for group, names in rows}

    def test_each_name_is_there_or_left_out(self):
        objects = self.objects()
        self.assertEqual(sorted(objects), sorted(NAMES))
        missing = {group: {name for name in names.split() if not has(objects[group], name)} for group, names in NAMES.items()}
        self.assertEqual({group: names for group, names in missing.items() if names}, self.left_out())

    def test_the_page_says_how_many_programs_run(self):
        modules = [importlib.import_module(f"test_python_programs{part}") for part in ("", "_games", "_tasks")]
        with open(f"{runs.TOP}/docs/PYTHON.md", encoding="utf-8") as page:
            said = re.search(r"Tests run (\d+) programs", page.read())
        self.assertEqual(int(said[1]), sum(len(module.PROGRAMS) for module in modules))

    def test_the_page_says_how_many_names_are_compared(self):
        with open(f"{runs.TOP}/docs/PYTHON.md", encoding="utf-8") as page:
            said = re.search(r"compares (\d+) names", page.read())
        self.assertEqual(int(said[1]), sum(len(names.split()) for names in NAMES.values()))


if __name__ == "__main__":
    unittest.main()
