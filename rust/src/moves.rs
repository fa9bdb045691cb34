//! Moves, and lists of them.
use crate::piece::Role;
use crate::square::Square;
use crate::sys;
use crate::text::short;
use core::fmt;
use core::str::FromStr;

/// A move: from a square, to a square, and what a pawn becomes on the last rank. Castling is the king's move of two squares.
///
/// ```
/// use jatshegi::{Move, Role, Square};
/// let m: Move = "e7e8q".parse().unwrap();
/// assert_eq!((m.from, m.to, m.promotion), (Square::E7, Square::E8, Some(Role::Queen)));
/// assert_eq!(m.to_string(), "e7e8q");
/// ```
#[derive(Clone, Copy, Debug, PartialEq, Eq, Hash, PartialOrd, Ord)]
#[allow(missing_docs)]
pub struct Move {
    pub from: Square,
    pub to: Square,
    pub promotion: Option<Role>,
}

/// A text is no move in the notation of UCI.
#[derive(Clone, Copy, Debug, PartialEq, Eq)]
pub struct NotAMove;

impl fmt::Display for NotAMove {
    fn fmt(&self, f: &mut fmt::Formatter<'_>) -> fmt::Result {
        f.write_str("a move in the notation of UCI is as e2e4 or e7e8q")
    }
}

#[cfg(feature = "std")]
impl std::error::Error for NotAMove {}

impl Move {
    pub(crate) fn of(m: sys::Move) -> Move {
        Move {
            from: Square(m.from & 63),
            to: Square(m.to & 63),
            promotion: match m.promotion {
                1 => Some(Role::Knight),
                2 => Some(Role::Bishop),
                3 => Some(Role::Rook),
                4 => Some(Role::Queen),
                _ => None,
            },
        }
    }

    // (a pawn becomes no pawn and no king: such a move is none, and the library says so)
    pub(crate) fn raw(self) -> sys::Move {
        sys::Move {
            from: self.from.0,
            to: self.to.0,
            promotion: match self.promotion {
                None => 0,
                Some(Role::Knight) => 1,
                Some(Role::Bishop) => 2,
                Some(Role::Rook) => 3,
                Some(Role::Queen) => 4,
                Some(Role::Pawn | Role::King) => 255,
            },
        }
    }
}

impl fmt::Display for Move {
    fn fmt(&self, f: &mut fmt::Formatter<'_>) -> fmt::Result {
        // SAFETY: the room has that size. (a pawn that becomes a pawn or a king is no move, and has no text)
        let text = short::<5>(|text, room, length| unsafe { sys::jatshegi_move_write(self.raw(), text, room, length) });
        f.pad(&text.map_err(|_| fmt::Error)?)
    }
}

impl FromStr for Move {
    type Err = NotAMove;

    fn from_str(text: &str) -> Result<Move, NotAMove> {
        let mut m = sys::Move::default();
        // SAFETY: the text is bytes of that length, and the move is written.
        match unsafe { sys::jatshegi_move_read(text.as_ptr(), text.len(), &mut m) } {
            sys::OK => Ok(Move::of(m)),
            _ => Err(NotAMove),
        }
    }
}

/// The legal moves of a position, in order; they take no memory of the heap.
#[derive(Clone)]
pub struct Moves {
    pub(crate) all: [sys::Move; sys::MOST_MOVES],
    pub(crate) at: usize,
    pub(crate) count: usize,
}

impl Moves {
    pub(crate) fn none() -> Moves {
        Moves {
            all: [sys::Move::default(); sys::MOST_MOVES],
            at: 0,
            count: 0,
        }
    }
}

impl Iterator for Moves {
    type Item = Move;

    fn next(&mut self) -> Option<Move> {
        let m = *self.all[..self.count].get(self.at)?;
        self.at += 1;
        Some(Move::of(m))
    }

    fn size_hint(&self) -> (usize, Option<usize>) {
        (self.count - self.at, Some(self.count - self.at))
    }
}

impl DoubleEndedIterator for Moves {
    fn next_back(&mut self) -> Option<Move> {
        let m = *self.all[self.at..self.count].last()?;
        self.count -= 1;
        Some(Move::of(m))
    }
}

impl ExactSizeIterator for Moves {}

impl core::iter::FusedIterator for Moves {}

impl fmt::Debug for Moves {
    fn fmt(&self, f: &mut fmt::Formatter<'_>) -> fmt::Result {
        f.debug_list().entries(self.clone()).finish()
    }
}
