//! The numbers, structs and functions of include/jatshegi.h, as C has them, without jatshegi_keys_fill. tools/calls writes this file from tools/tables.
#![allow(missing_docs, dead_code)]

pub const OK: u32 = 0;
pub const EMPTY: u32 = 1;
pub const NO_MEMORY: u32 = 2;
pub const ILLEGAL: u32 = 3;
pub const AMBIGUOUS: u32 = 4;
pub const FORM: u32 = 5;
pub const TOO_LONG: u32 = 6;
pub const FULL: u32 = 7;
pub const AT_ROOT: u32 = 8;
pub const ARGUMENT: u32 = 9;
pub const NO_ROOM: u32 = 10;
pub const NONE: u32 = 11;
pub const NO_SUCH: u32 = 12;
pub const BAD_COMMENT: u32 = 13;
pub const MORE: u32 = 14;
pub const NO_GAME: u32 = 16;
pub const ABANDONED: u32 = 17;
pub const TAG_NAME: u32 = 18;
pub const TAG_OWN: u32 = 19;
pub const TAG_VALUE: u32 = 20;
pub const FEN_FIELDS: u32 = 21;
pub const FEN_PLACEMENT: u32 = 22;
pub const FEN_KINGS: u32 = 23;
pub const FEN_PAWN_RANK: u32 = 24;
pub const FEN_TOO_MANY_MEN: u32 = 25;
pub const FEN_SIDE: u32 = 26;
pub const FEN_CASTLING: u32 = 27;
pub const FEN_TARGET: u32 = 28;
pub const FEN_COUNTER: u32 = 29;
pub const FEN_IN_CHECK: u32 = 30;
pub const PGN_TOKEN: u32 = 41;
pub const PGN_TAG: u32 = 42;
pub const PGN_MOVE: u32 = 43;
pub const PGN_VARIATION: u32 = 44;
pub const PGN_DEEP: u32 = 45;
pub const PGN_TRUNCATED: u32 = 46;
pub const PGN_FEN: u32 = 47;
pub const PGN_TOO_LARGE: u32 = 49;

pub const MOST_MOVES: usize = 432;
pub const MOST_FEN: usize = 128;
pub const MOST_SAN: usize = 8;
pub const MOST_UCI: usize = 5;
pub const MOST_ANSWER: usize = 2600;
pub const MOST_REPLIES: usize = 260;
pub const NO_SQUARE: u8 = 64;
pub const NEVER: u32 = u32::MAX;

#[repr(C)]
#[derive(Clone, Copy, Default)]
pub struct Move {
    pub from: u8,
    pub to: u8,
    pub promotion: u8,
}

#[repr(C)]
#[derive(Clone, Copy)]
pub struct Position {
    pub men: [u8; 64],
    pub side: u8,
    pub castling: u8,
    pub target: u8,
    pub clock: u32,
    pub number: u32,
}

#[repr(C)]
#[derive(Clone, Copy, Default)]
pub struct Repair {
    pub place: usize,
    pub length: usize,
    pub written: usize,
    pub kind: u32,
}

#[repr(C)]
#[derive(Clone, Copy, Default)]
pub struct Report {
    pub plies: u32,
    pub marker: u32,
    pub status: u32,
    pub winner: u32,
    pub over: u32,
    pub why: u32,
    pub threefold: u32,
    pub fifty: u32,
    pub repetitions: u32,
    pub quiet: u32,
    pub agrees: bool,
}

#[repr(C)]
pub struct Keys {
    pub words: [u64; 768],
}

#[repr(C)]
pub struct Slot {
    pub full: bool,
    pub at: *mut core::ffi::c_void,
}

#[repr(C)]
pub struct Stop {
    pub full: bool,
    pub at: *mut core::ffi::c_void,
}

extern "C" {
    pub fn jatshegi_version() -> u32;
    pub fn jatshegi_board_new(keys: *const Keys, board: *mut Slot) -> u32;
    pub fn jatshegi_board_copy(board: *const Slot, other: *mut Slot) -> u32;
    pub fn jatshegi_board_free(board: *mut Slot);
    pub fn jatshegi_board_trim(board: *mut Slot) -> u32;
    pub fn jatshegi_board_set(board: *mut Slot, fen: *const u8, length: usize) -> u32;
    pub fn jatshegi_board_set_position(board: *mut Slot, position: *const Position) -> u32;
    pub fn jatshegi_board_load(board: *mut Slot, text: *const u8, length: usize, used: *mut usize) -> u32;
    pub fn jatshegi_board_load_next(board: *mut Slot, text: *const u8, length: usize, is_last: bool, used: *mut usize) -> u32;
    pub fn jatshegi_board_fen(board: *const Slot, text: *mut u8, room: usize, length: *mut usize) -> u32;
    pub fn jatshegi_board_epd(board: *const Slot, text: *mut u8, room: usize, length: *mut usize) -> u32;
    pub fn jatshegi_board_key(board: *const Slot, key: *mut u64) -> u32;
    pub fn jatshegi_board_position(board: *const Slot, position: *mut Position) -> u32;
    pub fn jatshegi_board_turn(board: *const Slot, colour: *mut u8) -> u32;
    pub fn jatshegi_board_piece_at(board: *const Slot, square: u8, piece: *mut u8) -> u32;
    pub fn jatshegi_board_moves(board: *const Slot, moves: *mut Move, room: usize, count: *mut usize) -> u32;
    pub fn jatshegi_board_is_legal(board: *const Slot, m: Move, legal: *mut bool) -> u32;
    pub fn jatshegi_board_line(board: *const Slot, moves: *mut Move, room: usize, count: *mut usize) -> u32;
    pub fn jatshegi_board_play(board: *mut Slot, m: Move, added: *mut bool) -> u32;
    pub fn jatshegi_board_play_text(board: *mut Slot, text: *const u8, length: usize, added: *mut bool) -> u32;
    pub fn jatshegi_board_back(board: *mut Slot) -> u32;
    pub fn jatshegi_board_undo(board: *mut Slot, added: bool) -> u32;
    pub fn jatshegi_board_read(board: *const Slot, text: *const u8, length: usize, m: *mut Move) -> u32;
    pub fn jatshegi_board_write(board: *const Slot, m: Move, text: *mut u8, room: usize, length: *mut usize) -> u32;
    pub fn jatshegi_move_write(m: Move, text: *mut u8, room: usize, length: *mut usize) -> u32;
    pub fn jatshegi_move_read(text: *const u8, length: usize, m: *mut Move) -> u32;
    pub fn jatshegi_board_outcome(board: *const Slot, outcome: *mut u32) -> u32;
    pub fn jatshegi_board_claims(board: *const Slot, claims: *mut u32) -> u32;
    pub fn jatshegi_board_claims_with(board: *const Slot, m: Move, claims: *mut u32) -> u32;
    pub fn jatshegi_board_repetitions(board: *const Slot, times: *mut u32) -> u32;
    pub fn jatshegi_board_kinds(board: *const Slot, m: Move, kinds: *mut u32) -> u32;
    pub fn jatshegi_board_cannot_mate(board: *const Slot, side: u8, cannot: *mut bool) -> u32;
    pub fn jatshegi_board_in_check(board: *const Slot, check: *mut bool) -> u32;
    pub fn jatshegi_board_checks(board: *const Slot, checks: *mut u8) -> u32;
    pub fn jatshegi_board_counts(board: *const Slot, white: *mut u8, black: *mut u8) -> u32;
    pub fn jatshegi_board_attackers(board: *const Slot, colour: u8, square: u8, attackers: *mut u64) -> u32;
    pub fn jatshegi_book_find(book: *const u8, length: usize, key: u64, first: *mut usize, count: *mut usize);
    pub fn jatshegi_board_book_move(board: *const Slot, book: *const u8, length: usize, entry: usize, m: *mut Move, weight: *mut u16, learn: *mut u32) -> u32;
    pub fn jatshegi_board_evaluation(board: *const Slot, value: *mut i32) -> u32;
    pub fn jatshegi_board_best(board: *const Slot, depth: u8, m: *mut Move, value: *mut i32) -> u32;
    pub fn jatshegi_search_start(board: *mut Slot, depth: u8) -> u32;
    pub fn jatshegi_search_slice(board: *mut Slot, left: *mut usize) -> u32;
    pub fn jatshegi_search_best(board: *const Slot, m: *mut Move, value: *mut i32) -> u32;
    pub fn jatshegi_search_end(board: *mut Slot) -> u32;
    pub fn jatshegi_stop_new(stop: *mut Stop) -> u32;
    pub fn jatshegi_stop_share(stop: *const Stop, other: *mut Stop) -> u32;
    pub fn jatshegi_stop_set(stop: *mut Stop, set: bool) -> u32;
    pub fn jatshegi_stop_free(stop: *mut Stop);
    pub fn jatshegi_board_best_within(board: *const Slot, depth: u8, nodes: u64, stop: *const Stop, m: *mut Move, value: *mut i32, visited: *mut u64) -> u32;
    pub fn jatshegi_search_slice_within(board: *mut Slot, nodes: u64, stop: *const Stop, left: *mut usize, visited: *mut u64) -> u32;
    pub fn jatshegi_board_replies(
        board: *const Slot,
        m: Move,
        depth: u8,
        value: i32,
        nodes: u64,
        stop: *const Stop,
        moves: *mut Move,
        room: usize,
        count: *mut usize,
        visited: *mut u64,
    ) -> u32;
    pub fn jatshegi_engine_line(board: *mut Slot, line: *const u8, length: usize, replies: *mut u8, room: usize, count: *mut usize) -> u32;
    pub fn jatshegi_engine_slice(board: *mut Slot, replies: *mut u8, room: usize, count: *mut usize) -> u32;
    pub fn jatshegi_engine_moment(board: *mut Slot, moment: u64, replies: *mut u8, room: usize, count: *mut usize) -> u32;
    pub fn jatshegi_engine_slice_within(
        board: *mut Slot,
        nodes: u64,
        stop: *const Stop,
        searched: *mut bool,
        visited: *mut u64,
        replies: *mut u8,
        room: usize,
        count: *mut usize,
    ) -> u32;
    pub fn jatshegi_engine_searching(board: *const Slot, searching: *mut bool) -> u32;
    pub fn jatshegi_engine_infinite(board: *const Slot, infinite: *mut bool) -> u32;
    pub fn jatshegi_engine_waiting(board: *const Slot, waiting: *mut bool) -> u32;
    pub fn jatshegi_engine_ended(board: *const Slot, ended: *mut bool) -> u32;
    pub fn jatshegi_engine_time_left(board: *const Slot, milliseconds: *mut u64) -> u32;
    pub fn jatshegi_board_pgn(board: *const Slot, text: *mut u8, room: usize, length: *mut usize) -> u32;
    pub fn jatshegi_board_tag(board: *const Slot, name: *const u8, length: usize, value: *mut u8, room: usize, count: *mut usize) -> u32;
    pub fn jatshegi_board_tags(board: *const Slot, place: usize, name: *mut u8, room: usize, count: *mut usize) -> u32;
    pub fn jatshegi_board_set_tag(board: *mut Slot, name: *const u8, length: usize, value: *const u8, count: usize) -> u32;
    pub fn jatshegi_board_clear_tag(board: *mut Slot, name: *const u8, length: usize) -> u32;
    pub fn jatshegi_board_result(board: *const Slot, marker: *mut u32) -> u32;
    pub fn jatshegi_board_set_result(board: *mut Slot, marker: u32) -> u32;
    pub fn jatshegi_board_step(board: *mut Slot, place: u32) -> u32;
    pub fn jatshegi_board_depth(board: *const Slot, depth: *mut u32) -> u32;
    pub fn jatshegi_board_children(board: *const Slot, children: *mut u32) -> u32;
    pub fn jatshegi_board_move(board: *const Slot, m: *mut Move) -> u32;
    pub fn jatshegi_board_comment_of(board: *const Slot, text: *mut u8, room: usize, length: *mut usize) -> u32;
    pub fn jatshegi_board_annotations_of(board: *const Slot, numbers: *mut u8, room: usize, count: *mut usize) -> u32;
    pub fn jatshegi_board_start(board: *mut Slot) -> u32;
    pub fn jatshegi_board_end(board: *mut Slot) -> u32;
    pub fn jatshegi_board_promote(board: *mut Slot) -> u32;
    pub fn jatshegi_board_delete(board: *mut Slot) -> u32;
    pub fn jatshegi_board_comment(board: *mut Slot, text: *const u8, length: usize) -> u32;
    pub fn jatshegi_board_annotate(board: *mut Slot, number: u8) -> u32;
    pub fn jatshegi_board_clear_annotations(board: *mut Slot) -> u32;
    pub fn jatshegi_board_answer(board: *mut Slot, line: *const u8, length: usize, answer: *mut u8, room: usize, count: *mut usize) -> u32;
    pub fn jatshegi_game_read(text: *const u8, length: usize, game: *mut u8, room: usize, count: *mut usize, used: *mut usize) -> u32;
    pub fn jatshegi_game_salvage(
        text: *const u8,
        length: usize,
        game: *mut u8,
        room: usize,
        count: *mut usize,
        repairs: *mut Repair,
        places: usize,
        repaired: *mut usize,
        used: *mut usize,
    ) -> u32;
    pub fn jatshegi_game_report(text: *const u8, length: usize, report: *mut Report, fen: *mut u8, room: usize, count: *mut usize, used: *mut usize) -> u32;
    pub fn jatshegi_game_pass(text: *const u8, length: usize, used: *mut usize) -> u32;
    pub fn jatshegi_game_next(text: *const u8, length: usize, is_last: bool, used: *mut usize) -> u32;
}
