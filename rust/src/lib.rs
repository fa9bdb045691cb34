//! Chess rules, PGN and a UCI engine: a prover has checked that the core's answers follow from written definitions of the FIDE Laws and the PGN standard.
//!
//! This crate is a safe layer over `libjatshegi`, the library for C; the layer is tested.
//!
//! ```
//! use jatshegi::{Board, Status};
//!
//! let mut board = Board::new()?;
//! for san in ["e4", "e5", "Qh5", "Nc6", "Bc4", "Nf6", "Qxf7#"] {
//!     board.play_san(san)?;
//! }
//! assert_eq!(board.status(), Status::Checkmate);
//! assert_eq!(board.legal_moves().len(), 0);
//! assert_eq!(board.fen().as_str(), "r1bqkb1r/pppp1Qpp/2n2n2/4p3/2B1P3/8/PPPP1PPP/RNB1K1NR b KQkq - 0 4");
//! # Ok::<(), jatshegi::Error>(())
//! ```
//!
//! A [`Board`] is a game tree with a cursor. All that is asked is asked of the position at the cursor, or of the line of moves from the root to it, so that
//! repetitions and claims are known. `docs/PROMISES.md` of the repository says what is proved of the library. The crate takes memory by C's `malloc`, and where
//! there is none a call says so and changes nothing.
//!
//! ```
//! // A board may go to another thread; one thread at a time uses it.
//! fn sent<T: Send>(_: T) {}
//! sent(jatshegi::Board::new().unwrap());
//! ```
//! ```compile_fail,E0277
//! fn shared<T: Sync>(_: T) {}
//! shared(jatshegi::Board::new().unwrap());
//! ```
#![cfg_attr(not(feature = "std"), no_std)]
#![deny(unsafe_op_in_unsafe_fn)]
#![warn(missing_docs)]

extern crate alloc;

mod board;
mod book;
mod codes;
mod coming;
mod error;
mod game;
mod moves;
mod piece;
mod salvage;
mod search;
mod square;
mod sys;
mod tags;
mod text;
mod tree;

pub use board::{Board, Claims, MoveKind, Setup, Status};
pub use book::{find_in_book, BookMove};
pub use coming::{next_game, Next};
pub use error::{Error, FenError, GameError, GameFault};
pub use game::{read_game, report, Games, Marker, Report};
pub use moves::{Move, Moves, NotAMove};
pub use piece::{Color, Piece, Role};
pub use salvage::{salvage_game, Repair, RepairKind, Salvaged};
pub use search::{Engine, Search, Stop};
pub use square::{NotASquare, Square, Squares};
pub use text::Text;

/// The version of the library that is linked: 65,536 times its first part, 256 times its second, and its third.
pub fn version() -> u32 {
    // SAFETY: it asks for nothing.
    unsafe { sys::jatshegi_version() }
}
