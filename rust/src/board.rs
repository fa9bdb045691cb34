//! A board: its position, its moves, and what the Laws say of them.
use crate::error::{checked, Error};
use crate::moves::{Move, Moves};
use crate::piece::{Color, Piece};
use crate::square::{Square, Squares};
use crate::sys;
use crate::text::{short, Text};
use core::cell::UnsafeCell;
use core::fmt;
use core::str::FromStr;

/// The table that all boards share, which is only read. No answer depends on its words, so they may be zeros.
static KEYS: sys::Keys = sys::Keys { words: [0; 768] };

/// A game's status (FIDE Laws 5.1.1, 5.2.1, 5.2.2, 9.6).
#[derive(Clone, Copy, Debug, PartialEq, Eq, Hash)]
pub enum Status {
    /// The side to move is mated.
    Checkmate,
    /// It has no legal move, and isn't in check.
    Stalemate,
    /// Neither side has men to mate with.
    DeadPosition,
    /// The same position is there for the fifth time.
    FivefoldRepetition,
    /// There were 75 moves of each side without a capture or a pawn's move.
    SeventyFiveMoves,
    /// The game goes on.
    Play,
}

impl Status {
    pub(crate) fn of(number: u32) -> Status {
        match number {
            0 => Status::Checkmate,
            1 => Status::Stalemate,
            2 => Status::DeadPosition,
            3 => Status::FivefoldRepetition,
            4 => Status::SeventyFiveMoves,
            _ => Status::Play,
        }
    }

    /// Whether the game is over.
    pub const fn is_over(self) -> bool {
        !matches!(self, Status::Play)
    }
}

/// The draws that may be claimed (FIDE Laws 9.2, 9.3).
#[derive(Clone, Copy, Debug, Default, PartialEq, Eq, Hash)]
pub struct Claims {
    /// By the same position for the third time.
    pub threefold: bool,
    /// By 50 moves of each side without a capture or a pawn's move.
    pub fifty: bool,
}

/// What sort of move a legal one is (FIDE Laws 3.1, 3.7.3.1, 3.8.2).
#[derive(Clone, Copy, Debug, Default, PartialEq, Eq, Hash)]
pub struct MoveKind {
    /// It captures a man, also en passant.
    pub is_capture: bool,
    /// It captures en passant.
    pub is_en_passant: bool,
    /// It castles with the rook of file h.
    pub castles_king_side: bool,
    /// It castles with the rook of file a.
    pub castles_queen_side: bool,
    /// A pawn makes it.
    pub is_pawn_move: bool,
}

impl MoveKind {
    /// Whether the halfmove clock is 0 after it.
    pub const fn is_zeroing(self) -> bool {
        self.is_capture || self.is_pawn_move
    }
}

/// The six fields of a position, which may be any.
#[derive(Clone, Debug, PartialEq, Eq)]
pub struct Setup {
    /// What is on each square, a1 first.
    pub pieces: [Option<Piece>; 64],
    /// The side to move.
    pub turn: Color,
    /// The castling rights held, White's and Black's: with the rook of file h, and with that of file a.
    pub castling: [(bool, bool); 2],
    /// The square that a pawn has just passed over with two steps.
    pub ep_square: Option<Square>,
    /// Plies since the last pawn's move or capture, at most 99,999.
    pub halfmove_clock: u32,
    /// The number of the move, 1 to 99,999.
    pub fullmove_number: u32,
}

fn color(side: u8) -> Color {
    if side == 0 {
        Color::White
    } else {
        Color::Black
    }
}

/// The rights of White and of Black in the byte that has both.
fn castling(rights: u8) -> [(bool, bool); 2] {
    let held = |bits: u8| (rights >> bits & 1 == 1, rights >> bits & 2 == 2);
    [held(0), held(2)]
}

impl Setup {
    fn of(position: &sys::Position) -> Setup {
        Setup {
            pieces: position.men.map(|letter| Piece::from_char(letter as char)),
            turn: color(position.side),
            castling: castling(position.castling),
            ep_square: Square::new(position.target),
            halfmove_clock: position.clock,
            fullmove_number: position.number,
        }
    }

    fn raw(&self) -> sys::Position {
        let [(a, b), (c, d)] = self.castling;
        sys::Position {
            men: self.pieces.map(|piece| piece.map_or(0, |piece| piece.char() as u8)),
            side: self.turn as u8,
            castling: a as u8 | (b as u8) << 1 | (c as u8) << 2 | (d as u8) << 3,
            target: self.ep_square.map_or(sys::NO_SQUARE, Square::index),
            clock: self.halfmove_clock,
            number: self.fullmove_number,
        }
    }
}

/// A game tree with a cursor, the tags and the result of the game, and a session of the engine. Dropped, it frees all.
pub struct Board {
    slot: UnsafeCell<sys::Slot>,
}

// SAFETY: the header promises that a board may go to another thread, where its calls are ordered; a `Board` that is passed on is used by its new owner alone.
unsafe impl Send for Board {}

impl Board {
    /// A board as a game begins.
    ///
    /// # Errors
    ///
    /// [`Error::NoMemory`].
    pub fn new() -> Result<Board, Error> {
        let board = Board {
            slot: UnsafeCell::new(sys::Slot {
                full: false,
                at: core::ptr::null_mut(),
            }),
        };
        // SAFETY: the slot is zeros, and the table is there as long as the program.
        checked(unsafe { sys::jatshegi_board_new(&KEYS, board.at()) })?;
        Ok(board)
    }

    /// A board that begins with the position of a FEN (PGN 16.1). The same as `fen.parse()`.
    ///
    /// # Errors
    ///
    /// [`Error::Fen`] with its first fault, [`Error::NoMemory`].
    pub fn from_fen(fen: &str) -> Result<Board, Error> {
        let mut board = Board::new()?;
        board.set_fen(fen)?;
        Ok(board)
    }

    // The library writes to a board's slot also where it only asks; a `Board` is on one thread at a time, and no call calls back.
    pub(crate) fn at(&self) -> *mut sys::Slot {
        self.slot.get()
    }

    // What a question answers that is refused only where there is no board, and there is one.
    pub(crate) fn asked<T>(&self, mut answer: T, ask: impl FnOnce(*mut sys::Slot, &mut T) -> u32) -> T {
        let status = ask(self.at(), &mut answer);
        debug_assert_eq!(status, sys::OK);
        answer
    }

    /// Begins a new game from that position; tags and result stay.
    ///
    /// # Errors
    ///
    /// As [`Board::from_fen`]; the board is then as it was.
    pub fn set_fen(&mut self, fen: &str) -> Result<(), Error> {
        // SAFETY: the slot has a board, and the text is bytes of that length.
        checked(unsafe { sys::jatshegi_board_set(self.at(), fen.as_ptr(), fen.len()) })
    }

    /// Another board with the same game, at the same node, with a session of the engine at its start.
    ///
    /// # Errors
    ///
    /// [`Error::NoMemory`].
    pub fn try_clone(&self) -> Result<Board, Error> {
        let copy = Board {
            slot: UnsafeCell::new(sys::Slot {
                full: false,
                at: core::ptr::null_mut(),
            }),
        };
        // SAFETY: the two slots are not the same one.
        checked(unsafe { sys::jatshegi_board_copy(self.at(), copy.at()) })?;
        Ok(copy)
    }

    /// Gives back the memory that the board doesn't need between calls: that on which the answers to lines are written.
    pub fn trim(&mut self) {
        // SAFETY: the slot has a board, so it is done.
        let _ = unsafe { sys::jatshegi_board_trim(self.at()) };
    }

    /// The position's FEN, with all six fields (PGN 16.1).
    pub fn fen(&self) -> Text<{ sys::MOST_FEN }> {
        // SAFETY: the room has that size.
        short(|text, room, length| unsafe { sys::jatshegi_board_fen(self.at(), text, room, length) }).expect("no FEN is longer")
    }

    /// The first four fields, with the en passant target only where a legal move captures on it: the same text exactly where the Laws call positions the same
    /// (FIDE Laws 9.2.3).
    pub fn epd(&self) -> Text<{ sys::MOST_FEN }> {
        // SAFETY: the room has that size.
        short(|text, room, length| unsafe { sys::jatshegi_board_epd(self.at(), text, room, length) }).expect("no FEN is longer")
    }

    /// The position's key in Polyglot's opening books.
    pub fn key(&self) -> u64 {
        // SAFETY: the key is written.
        self.asked(0, |slot, key| unsafe { sys::jatshegi_board_key(slot, key) })
    }

    fn position(&self) -> sys::Position {
        let none = sys::Position {
            men: [0; 64],
            side: 0,
            castling: 0,
            target: 0,
            clock: 0,
            number: 0,
        };
        // SAFETY: the position is written.
        self.asked(none, |slot, position| unsafe { sys::jatshegi_board_position(slot, position) })
    }

    /// Begins a new game from the position of these fields; tags and result stay. Nothing is dropped, as a FEN's reader does: a right without its king and its
    /// rook at home, and a target that no pawn has just passed over, are faults.
    ///
    /// # Errors
    ///
    /// [`Error::Fen`] with the first fault, [`Error::NoMemory`]; the board is then as it was.
    pub fn set_setup(&mut self, setup: &Setup) -> Result<(), Error> {
        // SAFETY: the slot has a board, and the position is read.
        checked(unsafe { sys::jatshegi_board_set_position(self.at(), &setup.raw()) })
    }

    /// The six fields of the position.
    pub fn setup(&self) -> Setup {
        Setup::of(&self.position())
    }

    /// The side to move.
    pub fn turn(&self) -> Color {
        // SAFETY: the number is written.
        color(self.asked(0, |slot, side| unsafe { sys::jatshegi_board_turn(slot, side) }))
    }

    /// The man on a square.
    pub fn piece_at(&self, square: Square) -> Option<Piece> {
        // SAFETY: the letter is written, and the number is a square.
        let letter = self.asked(0, |slot, piece| unsafe { sys::jatshegi_board_piece_at(slot, square.0, piece) });
        Piece::from_char(letter as char)
    }

    /// The men with their squares, a1 first.
    pub fn pieces(&self) -> impl Iterator<Item = (Square, Piece)> {
        let men = self.position().men;
        Square::all().filter_map(move |square| Some((square, Piece::from_char(men[square.0 as usize] as char)?)))
    }

    /// Whether the side may still castle with the rook of file h, and with that of file a (FIDE Laws 3.8.2.1).
    pub fn castling_rights(&self, side: Color) -> (bool, bool) {
        castling(self.position().castling)[side as usize]
    }

    /// The square that a pawn has just passed over with two steps (FIDE Laws 3.7.3.1).
    pub fn ep_square(&self) -> Option<Square> {
        Square::new(self.position().target)
    }

    /// How many plies there were since the last pawn's move or capture.
    pub fn halfmove_clock(&self) -> u32 {
        self.position().clock
    }

    /// The number of the move, one more after each move of Black.
    pub fn fullmove_number(&self) -> u32 {
        self.position().number
    }

    /// The legal moves, in order, at most 432 (FIDE Laws 3.1 to 3.10).
    pub fn legal_moves(&self) -> Moves {
        // SAFETY: the room has that size.
        self.asked(Moves::none(), |slot, moves| unsafe {
            sys::jatshegi_board_moves(slot, moves.all.as_mut_ptr(), sys::MOST_MOVES, &mut moves.count)
        })
    }

    /// What sort of move it is.
    ///
    /// # Errors
    ///
    /// [`Error::Illegal`].
    pub fn kind(&self, m: Move) -> Result<MoveKind, Error> {
        let mut kinds = 0;
        // SAFETY: the number is written.
        checked(unsafe { sys::jatshegi_board_kinds(self.at(), m.raw(), &mut kinds) })?;
        Ok(MoveKind {
            is_capture: kinds & 1 != 0,
            is_en_passant: kinds & 2 != 0,
            castles_king_side: kinds & 4 != 0,
            castles_queen_side: kinds & 8 != 0,
            is_pawn_move: kinds & 16 != 0,
        })
    }

    /// Whether the move is legal.
    pub fn is_legal(&self, m: Move) -> bool {
        // SAFETY: the answer is written.
        self.asked(false, |slot, legal| unsafe { sys::jatshegi_board_is_legal(slot, m.raw(), legal) })
    }

    /// The legal move that a text names: `Nf3`, `exd8=Q+`, `O-O`, or `e2e4` (PGN 8.2.3).
    ///
    /// # Errors
    ///
    /// [`Error::Form`], [`Error::Illegal`], [`Error::Ambiguous`].
    pub fn parse_san(&self, text: &str) -> Result<Move, Error> {
        let mut m = sys::Move::default();
        // SAFETY: the text is bytes of that length, and the move is written.
        checked(unsafe { sys::jatshegi_board_read(self.at(), text.as_ptr(), text.len(), &mut m) })?;
        Ok(Move::of(m))
    }

    /// The move's text in standard algebraic notation (PGN 8.2.3).
    ///
    /// # Errors
    ///
    /// [`Error::Illegal`].
    pub fn san(&self, m: Move) -> Result<Text<{ sys::MOST_SAN }>, Error> {
        // SAFETY: the room has that size.
        short(|text, room, length| unsafe { sys::jatshegi_board_write(self.at(), m.raw(), text, room, length) })
    }

    /// Makes a move: steps to its node, which is added where there is none. Says whether it was added, for [`Board::undo`]. A legal move is made also after the
    /// game is over, for example by a fifth repetition: [`Board::status`] says whether it is over.
    ///
    /// # Errors
    ///
    /// [`Error::Illegal`], [`Error::TooLong`], [`Error::Full`], [`Error::NoMemory`]; the board is then as it was.
    pub fn play(&mut self, m: Move) -> Result<bool, Error> {
        let mut added = false;
        // SAFETY: the answer is written.
        checked(unsafe { sys::jatshegi_board_play(self.at(), m.raw(), &mut added) })?;
        Ok(added)
    }

    /// Makes the move that a text names, as [`Board::parse_san`] and [`Board::play`].
    ///
    /// # Errors
    ///
    /// Those of both.
    pub fn play_san(&mut self, text: &str) -> Result<bool, Error> {
        let mut added = false;
        // SAFETY: the text is bytes of that length, and the answer is written.
        checked(unsafe { sys::jatshegi_board_play_text(self.at(), text.as_ptr(), text.len(), &mut added) })?;
        Ok(added)
    }

    /// Takes back the move that led to the cursor. With what [`Board::play`] answered the tree is then as it was before it; with `false` the node stays, and so
    /// does a node with a child, a comment or an annotation number. A player's takeback is [`Board::delete`], which takes out such a node, too.
    ///
    /// # Errors
    ///
    /// [`Error::AtRoot`].
    pub fn undo(&mut self, added: bool) -> Result<(), Error> {
        // SAFETY: the slot has a board.
        checked(unsafe { sys::jatshegi_board_undo(self.at(), added) })
    }

    /// The game's status at the cursor.
    pub fn status(&self) -> Status {
        // SAFETY: the number is written.
        Status::of(self.asked(0, |slot, status| unsafe { sys::jatshegi_board_outcome(slot, status) }))
    }

    /// The side that has mated the other.
    pub fn winner(&self) -> Option<Color> {
        match self.status() {
            Status::Checkmate => Some(!self.turn()),
            _ => None,
        }
    }

    /// The draws that the side to move may claim by the position (FIDE Laws 9.2.2, 9.3.2).
    pub fn claims(&self) -> Claims {
        // SAFETY: the number is written.
        let claims: u32 = self.asked(0, |slot, claims| unsafe { sys::jatshegi_board_claims(slot, claims) });
        Claims {
            threefold: claims & 1 == 1,
            fifty: claims & 2 == 2,
        }
    }

    /// Those that it may claim with a move (FIDE Laws 9.2.1, 9.3.1).
    ///
    /// # Errors
    ///
    /// [`Error::Illegal`].
    pub fn claims_with(&self, m: Move) -> Result<Claims, Error> {
        let mut claims = 0;
        // SAFETY: the number is written.
        checked(unsafe { sys::jatshegi_board_claims_with(self.at(), m.raw(), &mut claims) })?;
        Ok(Claims {
            threefold: claims & 1 == 1,
            fifty: claims & 2 == 2,
        })
    }

    /// How often the position has come up on the way to it, this time included (FIDE Laws 9.2.2).
    pub fn repetitions(&self) -> u32 {
        // SAFETY: the number is written.
        self.asked(0, |slot, times| unsafe { sys::jatshegi_board_repetitions(slot, times) })
    }

    /// Whether a side can't mate any more by any series of legal moves: it has only its king, or the position is dead (FIDE Laws 5.2.2, 6.9). `false`
    /// doesn't say that it can.
    pub fn cannot_mate(&self, side: Color) -> bool {
        // SAFETY: the answer is written.
        self.asked(false, |slot, cannot| unsafe { sys::jatshegi_board_cannot_mate(slot, side as u8, cannot) })
    }

    /// The men that check the side to move (FIDE Laws 3.9.1).
    pub fn checkers(&self) -> Squares {
        // SAFETY: the room has 64 bytes.
        let checks = self.asked([0; 64], |slot, checks| unsafe { sys::jatshegi_board_checks(slot, checks.as_mut_ptr()) });
        Square::all().filter(|square| checks[square.0 as usize] == 1).collect()
    }

    /// Whether the side to move is in check.
    pub fn is_check(&self) -> bool {
        // SAFETY: the answer is written.
        self.asked(false, |slot, check| unsafe { sys::jatshegi_board_in_check(slot, check) })
    }

    /// The men of a side that attack a square, whatever is on it (FIDE Laws 3.1 to 3.8).
    pub fn attackers(&self, side: Color, square: Square) -> Squares {
        // SAFETY: the word is written, and the numbers are a colour and a square.
        Squares(self.asked(0, |slot, set| unsafe { sys::jatshegi_board_attackers(slot, side as u8, square.0, set) }))
    }

    /// For each square, a1 first, how many men of White and of Black attack it (FIDE Laws 3.1.2).
    pub fn attack_counts(&self) -> ([u8; 64], [u8; 64]) {
        // SAFETY: both rooms have 64 bytes.
        self.asked(([0; 64], [0; 64]), |slot, counts| unsafe {
            sys::jatshegi_board_counts(slot, counts.0.as_mut_ptr(), counts.1.as_mut_ptr())
        })
    }

    /// The evaluation, in centipawns for White.
    pub fn evaluation(&self) -> i32 {
        // SAFETY: the value is written.
        self.asked(0, |slot, value| unsafe { sys::jatshegi_board_evaluation(slot, value) })
    }
}

impl Drop for Board {
    fn drop(&mut self) {
        // SAFETY: the slot has this board or nothing, and nobody else has it.
        unsafe { sys::jatshegi_board_free(self.at()) }
    }
}

impl FromStr for Board {
    type Err = Error;

    fn from_str(fen: &str) -> Result<Board, Error> {
        Board::from_fen(fen)
    }
}

impl fmt::Debug for Board {
    fn fmt(&self, f: &mut fmt::Formatter<'_>) -> fmt::Result {
        write!(f, "Board({:?})", self.fen())
    }
}

/// The men in eight lines, as White sees them.
impl fmt::Display for Board {
    fn fmt(&self, f: &mut fmt::Formatter<'_>) -> fmt::Result {
        let men = self.position().men;
        for rank in (0..8).rev() {
            for file in 0..8 {
                let letter = match men[8 * rank + file] {
                    0 => '.',
                    letter => letter as char,
                };
                write!(f, "{}{letter}", if file == 0 { "" } else { " " })?;
            }
            f.write_str(if rank == 0 { "" } else { "\n" })?;
        }
        Ok(())
    }
}
