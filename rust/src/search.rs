//! The engine: the best move, searches in slices, flags that stop them, and sessions of the universal chess interface.
use crate::board::Board;
use crate::error::{checked, Error};
use crate::moves::Move;
use crate::sys;
use crate::text::{short, Text};
use alloc::vec::Vec;
use core::cell::UnsafeCell;
use core::fmt;
use core::ptr;

/// A handle of a flag by which one thread has the searches of another abandoned. Each thread has a handle of its own ([`Stop::share`]).
///
/// ```
/// use jatshegi::{Board, Error, Stop};
///
/// let mut stop = Stop::new()?;
/// let theirs = stop.share()?;
/// let searching = std::thread::spawn(move || Board::new()?.best_within(16, u64::MAX, Some(&theirs)));
/// stop.set(true)?;
/// assert_eq!(searching.join().unwrap().unwrap_err(), Error::Abandoned);
/// # Ok::<(), Error>(())
/// ```
pub struct Stop {
    handle: UnsafeCell<sys::Stop>,
}

impl fmt::Debug for Stop {
    fn fmt(&self, f: &mut fmt::Formatter<'_>) -> fmt::Result {
        f.write_str("Stop")
    }
}

// SAFETY: the header says that a handle may go to another thread; a `Stop` that is passed on is used by its new owner alone.
unsafe impl Send for Stop {}

impl Stop {
    fn none() -> Stop {
        Stop {
            handle: UnsafeCell::new(sys::Stop {
                full: false,
                at: ptr::null_mut(),
            }),
        }
    }

    // The library writes to a handle also where it only looks at the flag; a `Stop` is on one thread at a time, and no call calls back.
    fn at(&self) -> *mut sys::Stop {
        self.handle.get()
    }

    /// A flag that isn't set.
    ///
    /// # Errors
    ///
    /// [`Error::NoMemory`].
    pub fn new() -> Result<Stop, Error> {
        let stop = Stop::none();
        // SAFETY: the handle is zeros.
        checked(unsafe { sys::jatshegi_stop_new(stop.at()) })?;
        Ok(stop)
    }

    /// Another handle of the same flag, for another thread.
    ///
    /// # Errors
    ///
    /// [`Error::NoMemory`].
    pub fn share(&self) -> Result<Stop, Error> {
        let other = Stop::none();
        // SAFETY: the two are not the same handle.
        checked(unsafe { sys::jatshegi_stop_share(self.at(), other.at()) })?;
        Ok(other)
    }

    /// Sets the flag, or clears it.
    ///
    /// # Errors
    ///
    /// None of a handle that is there, as each of this type is.
    pub fn set(&mut self, is_set: bool) -> Result<(), Error> {
        // SAFETY: the handle is one.
        checked(unsafe { sys::jatshegi_stop_set(self.at(), is_set) })
    }
}

impl Drop for Stop {
    fn drop(&mut self) {
        // SAFETY: the handle is this one's alone.
        unsafe { sys::jatshegi_stop_free(self.at()) }
    }
}

impl Board {
    /// The first legal move of greatest minimax value, 1 to 16 plies deep, with its value for the side to move: centipawns, or 30,000 less the plies to a mate.
    ///
    /// # Errors
    ///
    /// [`Error::None`] where there is no legal move, [`Error::Argument`] for another depth.
    pub fn best(&self, depth: u8) -> Result<(Move, i32), Error> {
        let (mut m, mut value) = (sys::Move::default(), 0);
        // SAFETY: move and value are written.
        checked(unsafe { sys::jatshegi_board_best(self.at(), depth, &mut m, &mut value) })?;
        Ok((Move::of(m), value))
    }

    /// The same, abandoned at the first position beyond `nodes`, and within some milliseconds of a flag that is set.
    ///
    /// # Errors
    ///
    /// [`Error::Abandoned`], [`Error::NoMemory`], and those of [`Board::best`].
    pub fn best_within(&self, depth: u8, nodes: u64, stop: Option<&Stop>) -> Result<(Move, i32), Error> {
        let none = Stop::none();
        let stop = stop.unwrap_or(&none);
        let (mut m, mut value, mut visited) = (sys::Move::default(), 0, 0);
        // SAFETY: the handle is one or none, and the outputs are written.
        checked(unsafe { sys::jatshegi_board_best_within(self.at(), depth, nodes, stop.at(), &mut m, &mut value, &mut visited) })?;
        Ok((Move::of(m), value))
    }

    /// The replies after a move that a search of that depth found worth `value`: with the move they are the line that leads to the score. Abandoned at the first
    /// position beyond `nodes`, and within some milliseconds of a flag that is set.
    ///
    /// ```
    /// # use jatshegi::Board;
    /// let board = Board::from_fen("6k1/5ppp/8/8/8/8/8/K2R4 w - - 0 1")?;
    /// let (m, value) = board.best(2)?;
    /// assert_eq!(board.replies(m, 2, value, u64::MAX, None)?.len(), 0); // mate at once
    /// # Ok::<(), jatshegi::Error>(())
    /// ```
    ///
    /// # Errors
    ///
    /// [`Error::Illegal`] if the move isn't legal, [`Error::Argument`] for a depth beyond 1 to 16 or a value beyond 30,000, [`Error::Abandoned`],
    /// [`Error::NoMemory`].
    pub fn replies(&self, m: Move, depth: u8, value: i32, nodes: u64, stop: Option<&Stop>) -> Result<Vec<Move>, Error> {
        let none = Stop::none();
        let stop = stop.unwrap_or(&none);
        let (mut moves, mut count, mut visited) = ([sys::Move::default(); 16], 0, 0);
        // SAFETY: the handle is one or none, the room has 16 moves, and the outputs are written.
        checked(unsafe {
            sys::jatshegi_board_replies(
                self.at(),
                m.raw(),
                depth,
                value,
                nodes,
                stop.at(),
                moves.as_mut_ptr(),
                moves.len(),
                &mut count,
                &mut visited,
            )
        })?;
        Ok(moves[..count].iter().map(|m| Move::of(*m)).collect())
    }

    /// Begins a search that is driven one legal move at a time. It has a line of its own.
    ///
    /// # Errors
    ///
    /// [`Error::NoMemory`], and those of [`Board::best`].
    pub fn search(&mut self, depth: u8) -> Result<Search<'_>, Error> {
        // SAFETY: the slot has a board.
        checked(unsafe { sys::jatshegi_search_start(self.at(), depth) })?;
        Ok(Search { board: self })
    }
}

/// A search in slices, which may be left at any time.
#[derive(Debug)]
pub struct Search<'a> {
    board: &'a mut Board,
}

impl Search<'_> {
    /// Searches one legal move more. Answers how many are left.
    pub fn slice(&mut self) -> usize {
        // SAFETY: the number is written.
        self.board.asked(0, |slot, left| unsafe { sys::jatshegi_search_slice(slot, left) })
    }

    /// The same, abandoned as [`Board::best_within`]; the search is then as before.
    ///
    /// # Errors
    ///
    /// [`Error::Abandoned`].
    pub fn slice_within(&mut self, nodes: u64, stop: Option<&Stop>) -> Result<usize, Error> {
        let none = Stop::none();
        let stop = stop.unwrap_or(&none);
        let (mut left, mut visited) = (0, 0);
        // SAFETY: the handle is one or none, and both numbers are written.
        checked(unsafe { sys::jatshegi_search_slice_within(self.board.at(), nodes, stop.at(), &mut left, &mut visited) })?;
        Ok(left)
    }

    /// The best of the moves that were searched, with its value; once none is left, it is the answer of [`Board::best`]. `None` before the first slice.
    pub fn best(&self) -> Option<(Move, i32)> {
        let (mut m, mut value) = (sys::Move::default(), 0);
        // SAFETY: move and value are written.
        match unsafe { sys::jatshegi_search_best(self.board.at(), &mut m, &mut value) } {
            sys::OK => Some((Move::of(m), value)),
            _ => None,
        }
    }
}

impl Drop for Search<'_> {
    fn drop(&mut self) {
        // SAFETY: the slot has a board, so it is done.
        let _ = unsafe { sys::jatshegi_search_end(self.board.at()) };
    }
}

/// A session of the universal chess interface (UCI), driven by events.
///
/// ```
/// let mut engine = jatshegi::Engine::new()?;
/// engine.line("position startpos moves e2e4")?;
/// engine.line("go depth 2")?;
/// let mut replies = String::new();
/// while engine.is_searching() {
///     replies += &engine.slice()?;
/// }
/// assert!(replies.ends_with("bestmove b8c6\n"), "{replies}");
/// # Ok::<(), jatshegi::Error>(())
/// ```
#[derive(Debug)]
pub struct Engine {
    board: Board,
}

/// Replies, each on a line of its own.
type Replies = Text<{ sys::MOST_REPLIES }>;

impl Engine {
    /// A session at its start.
    ///
    /// # Errors
    ///
    /// [`Error::NoMemory`].
    pub fn new() -> Result<Engine, Error> {
        Ok(Engine { board: Board::new()? })
    }

    /// A line is read, without its line feed.
    ///
    /// # Errors
    ///
    /// [`Error::NoMemory`], at the first event of a session alone; nothing has happened then.
    pub fn line(&mut self, line: &str) -> Result<Replies, Error> {
        let at = self.board.at();
        // SAFETY: the line is bytes of that length, and the room has that size.
        short(|text, room, count| unsafe { sys::jatshegi_engine_line(at, line.as_ptr(), line.len(), text, room, count) })
    }

    /// There is time to search one root move more.
    ///
    /// # Errors
    ///
    /// As [`Engine::line`].
    pub fn slice(&mut self) -> Result<Replies, Error> {
        let at = self.board.at();
        // SAFETY: the room has that size.
        short(|text, room, count| unsafe { sys::jatshegi_engine_slice(at, text, room, count) })
    }

    /// The clock reads this number of milliseconds, from any moment on.
    ///
    /// # Errors
    ///
    /// As [`Engine::line`].
    pub fn moment(&mut self, milliseconds: u64) -> Result<Replies, Error> {
        let at = self.board.at();
        // SAFETY: the room has that size.
        short(|text, room, count| unsafe { sys::jatshegi_engine_moment(at, milliseconds, text, room, count) })
    }

    /// A slice that may be abandoned, as [`Board::best_within`]; the session is then as before.
    ///
    /// # Errors
    ///
    /// [`Error::Abandoned`], and that of [`Engine::line`].
    pub fn slice_within(&mut self, nodes: u64, stop: Option<&Stop>) -> Result<Replies, Error> {
        let none = Stop::none();
        let stop = stop.unwrap_or(&none);
        let (at, mut searched, mut visited) = (self.board.at(), false, 0);
        // SAFETY: the handle is one or none, and the room has that size.
        let replies =
            short(|text, room, count| unsafe { sys::jatshegi_engine_slice_within(at, nodes, stop.at(), &mut searched, &mut visited, text, room, count) })?;
        if searched {
            Ok(replies)
        } else {
            Err(Error::Abandoned)
        }
    }

    /// Whether the session searches, and so wants slices.
    pub fn is_searching(&self) -> bool {
        // SAFETY: the answer is written.
        self.board
            .asked(false, |slot, searching| unsafe { sys::jatshegi_engine_searching(slot, searching) })
    }

    /// Whether that search ends by `stop` alone.
    pub fn is_infinite(&self) -> bool {
        // SAFETY: the answer is written.
        self.board
            .asked(false, |slot, infinite| unsafe { sys::jatshegi_engine_infinite(slot, infinite) })
    }

    /// Whether it has done all that it has to do and waits for `stop`.
    pub fn is_waiting(&self) -> bool {
        // SAFETY: the answer is written.
        self.board.asked(false, |slot, waiting| unsafe { sys::jatshegi_engine_waiting(slot, waiting) })
    }

    /// Whether `quit` came, after which nothing is replied.
    pub fn has_ended(&self) -> bool {
        // SAFETY: the answer is written.
        self.board.asked(false, |slot, ended| unsafe { sys::jatshegi_engine_ended(slot, ended) })
    }

    /// How many milliseconds after the last moment the clock ends the search; `None` where no clock does.
    pub fn time_left(&self) -> Option<u64> {
        let mut milliseconds = 0;
        // SAFETY: the number is written.
        match unsafe { sys::jatshegi_engine_time_left(self.board.at(), &mut milliseconds) } {
            sys::OK => Some(milliseconds),
            _ => None,
        }
    }
}
