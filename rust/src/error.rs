//! Why a call was refused.
pub use crate::codes::{Error, FenError, GameFault};
use crate::sys;
use core::fmt;

/// Why no game is at the start of a text, and at which byte.
#[derive(Clone, Copy, Debug, PartialEq, Eq, Hash)]
pub struct GameError {
    /// The place of the fault in the text, in bytes.
    pub at: usize,
    /// What is wrong there.
    pub fault: GameFault,
}

impl Error {
    /// The error of a status, whose place is known where it is a game's.
    pub(crate) fn of(status: u32, at: usize) -> Error {
        let of_fen = || FenError::of_status(status).map(Error::Fen);
        let of_game = || GameFault::of_status(status).map(|fault| Error::Game(GameError { at, fault }));
        // (no slot of this crate is empty, and no other status is one of the library's)
        let unknown = || unreachable!("a status that the library doesn't have: {status}");
        Error::of_status(status).or_else(of_fen).or_else(of_game).unwrap_or_else(unknown)
    }
}

/// What a status says, where it is no success.
pub(crate) fn checked(status: u32) -> Result<(), Error> {
    match status {
        sys::OK => Ok(()),
        _ => Err(Error::of(status, 0)),
    }
}

impl fmt::Display for FenError {
    fn fmt(&self, f: &mut fmt::Formatter<'_>) -> fmt::Result {
        f.write_str(self.text())
    }
}

impl fmt::Display for GameError {
    fn fmt(&self, f: &mut fmt::Formatter<'_>) -> fmt::Result {
        write!(f, "no game: {}, at byte {}", self.fault.text(), self.at)
    }
}

impl fmt::Display for Error {
    fn fmt(&self, f: &mut fmt::Formatter<'_>) -> fmt::Result {
        match self {
            Error::Fen(fault) => write!(f, "no position: {fault}"),
            Error::Game(fault) => fmt::Display::fmt(fault, f),
            _ => f.write_str(self.text()),
        }
    }
}

#[cfg(feature = "std")]
impl std::error::Error for Error {}

#[cfg(feature = "std")]
impl std::error::Error for FenError {}

#[cfg(feature = "std")]
impl std::error::Error for GameError {}
