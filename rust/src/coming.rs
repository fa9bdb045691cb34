//! Games of a text that comes bit by bit, from a pipe, a socket or a large file.
use crate::board::Board;
use crate::error::{Error, GameFault};
use crate::sys;

/// What is at the start of the bytes of a text that have come.
#[derive(Clone, Copy, Debug, PartialEq, Eq, Hash)]
pub enum Next {
    /// One game, and its length in bytes, whatever follows.
    Game(usize),
    /// No game, whatever follows: what is wrong, and how many bytes are given up with it.
    Bad(GameFault, usize),
    /// More bytes decide.
    More,
    /// Whitespace alone, and nothing follows.
    End,
}

impl Next {
    fn of(status: u32, used: usize) -> Result<Next, Error> {
        match status {
            sys::OK => Ok(Next::Game(used)),
            sys::MORE => Ok(Next::More),
            sys::NO_GAME => Ok(Next::End),
            _ => match Error::of(status, used) {
                Error::Game(error) => Ok(Next::Bad(error.fault, used)),
                error => Err(error),
            },
        }
    }
}

/// What is at the start of the bytes of a text that have come and aren't passed over yet; `is_last` says that nothing follows them. At [`Next::More`] the caller
/// asks again with more bytes after these, else it passes over as many as are named: so games and faults are those of the whole text, however it comes. The
/// bytes are read from their first one on, so they had better come in large pieces; with more than 1,048,576 of them [`Next::More`] says that they are
/// whitespace, or belong to a game that is given up as far as the next section of tags.
///
/// ```
/// use jatshegi::{next_game, Next};
///
/// assert_eq!(next_game(b"1. e4 e5", false)?, Next::More);
/// assert_eq!(next_game(b"1. e4 e5 * 1. d4", false)?, Next::Game(10));
/// assert_eq!(next_game(b"1. e4 e5", true)?, Next::Game(8));
/// # Ok::<(), jatshegi::Error>(())
/// ```
///
/// # Errors
///
/// [`Error::NoMemory`].
pub fn next_game(text: &[u8], is_last: bool) -> Result<Next, Error> {
    let mut used = 0;
    // SAFETY: the text is bytes of that length, and the number is written.
    let status = unsafe { sys::jatshegi_game_next(text.as_ptr(), text.len(), is_last, &mut used) };
    Next::of(status, used)
}

impl Board {
    /// Begins with the game that [`next_game`] finds at the start of the bytes of a text that have come, the cursor at the root, and answers the same. But for
    /// [`Next::Game`] the board is as it was.
    ///
    /// ```
    /// use jatshegi::{Board, GameFault, Next};
    ///
    /// let mut board = Board::new()?;
    /// assert_eq!(board.load_next(b"1. e4 e5 *", false)?, Next::Game(10));
    /// assert_eq!(board.load_next(b"1. e5 *", true)?, Next::Bad(GameFault::Move, 7));
    /// assert_eq!(board.load_next(b"\n", true)?, Next::End);
    /// assert_eq!(board.children(), 1);
    /// # Ok::<(), jatshegi::Error>(())
    /// ```
    ///
    /// # Errors
    ///
    /// [`Error::NoMemory`].
    pub fn load_next(&mut self, text: &[u8], is_last: bool) -> Result<Next, Error> {
        let mut used = 0;
        // SAFETY: the text is bytes of that length, and the number is written.
        let status = unsafe { sys::jatshegi_board_load_next(self.at(), text.as_ptr(), text.len(), is_last, &mut used) };
        Next::of(status, used)
    }
}
