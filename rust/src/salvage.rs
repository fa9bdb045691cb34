//! Games that strict reading refuses, saved where they can be.
pub use crate::codes::RepairKind;
use crate::error::{Error, GameFault};
use crate::sys;
use crate::text::long;
use alloc::vec::Vec;
use core::fmt;

impl fmt::Display for RepairKind {
    fn fmt(&self, f: &mut fmt::Formatter<'_>) -> fmt::Result {
        fmt::Debug::fmt(self, f)
    }
}

/// What was written otherwise in the text of a game so that it could be read.
#[derive(Clone, Copy, Debug, PartialEq, Eq, Hash)]
pub struct Repair {
    /// What was repaired.
    pub kind: RepairKind,
    /// The place of its first byte, in bytes of the text; where a line is cut off, as near as it can be said.
    pub place: usize,
    /// How many bytes it replaces.
    pub length: usize,
    /// How many bytes are written for them.
    pub written: usize,
}

/// What is at the start of a text that may need repair.
#[derive(Clone, Debug, PartialEq, Eq, Hash)]
pub enum Salvaged {
    /// A game in export form, how many bytes of the text it takes, and what was repaired: nothing, where nothing had to be.
    Game(Vec<u8>, usize, Vec<Repair>),
    /// A game that can't be saved: what is wrong, and how many bytes are given up with it.
    Lost(GameFault, usize),
    /// Whitespace alone, or the end of a file: at most 1,048,576 bytes of whitespace (9 to 13 and 32), NUL and `^Z` (26).
    End,
}

/// The game at the start of a text (PGN), in export form; where [`read_game`](crate::read_game) refuses it, the game that the text has after repair.
///
/// ```
/// use jatshegi::{salvage_game, RepairKind, Salvaged};
///
/// let (game, used, repairs) = match salvage_game(b"1. e2-e4 e5 2. OO Nc6 *")? {
///     Salvaged::Game(game, used, repairs) => (game, used, repairs),
///     other => panic!("{other:?}"),
/// };
/// assert!(String::from_utf8(game).unwrap().ends_with("1. e4 e5 {cut: O-O Nc6} *\n\n"));
/// assert_eq!(used, 23);
/// let kinds: Vec<_> = repairs.iter().map(|repair| repair.kind).collect();
/// assert_eq!(kinds, [RepairKind::Hyphen, RepairKind::Castling, RepairKind::Illegal]);
/// assert_eq!(salvage_game(b"\r\n\x1a")?, Salvaged::End);
/// # Ok::<(), jatshegi::Error>(())
/// ```
///
/// # Errors
///
/// [`Error::NoMemory`].
pub fn salvage_game(text: &[u8]) -> Result<Salvaged, Error> {
    let (mut used, mut found) = (0, 0);
    let mut repairs: Vec<sys::Repair> = Vec::new();
    loop {
        let (places, many) = (repairs.as_mut_ptr(), repairs.len());
        // SAFETY: the text is bytes of that length, the rooms have those sizes, and the numbers are written.
        let game = match long(|game, room, count| unsafe {
            sys::jatshegi_game_salvage(text.as_ptr(), text.len(), game, room, count, places, many, &mut found, &mut used)
        }) {
            Ok(game) => game,
            Err((sys::NO_GAME, _)) => return Ok(Salvaged::End),
            Err((status, _)) => {
                return match Error::of(status, used) {
                    Error::Game(error) => Ok(Salvaged::Lost(error.fault, used)),
                    error => Err(error),
                }
            }
        };
        if found <= many {
            return Ok(Salvaged::Game(game, used, repairs.iter().map(Repair::of).collect()));
        }
        repairs.try_reserve_exact(found - many).map_err(|_| Error::NoMemory)?;
        repairs.resize(found, sys::Repair::default());
    }
}

impl Repair {
    fn of(repair: &sys::Repair) -> Repair {
        Repair {
            kind: RepairKind::of_number(repair.kind).expect("a kind that the library has"),
            place: repair.place,
            length: repair.length,
            written: repair.written,
        }
    }
}
