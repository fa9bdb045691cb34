//! Games of a text, one after another.
use crate::board::Status;
use crate::error::Error;
use crate::piece::Color;
use crate::sys;
use crate::text::{long, short, Text};
use alloc::vec::Vec;
use core::fmt;

/// How a game ended, as its text says (PGN 8.2.6).
#[derive(Clone, Copy, Debug, PartialEq, Eq, Hash)]
pub enum Marker {
    /// `*`: it goes on, was abandoned, or its end isn't known.
    Unfinished = 0,
    /// `1-0`.
    WhiteWins = 1,
    /// `0-1`.
    BlackWins = 2,
    /// `1/2-1/2`.
    Draw = 3,
}

impl Marker {
    pub(crate) fn of(number: u32) -> Marker {
        match number {
            1 => Marker::WhiteWins,
            2 => Marker::BlackWins,
            3 => Marker::Draw,
            _ => Marker::Unfinished,
        }
    }
}

impl fmt::Display for Marker {
    fn fmt(&self, f: &mut fmt::Formatter<'_>) -> fmt::Result {
        f.pad(match self {
            Marker::Unfinished => "*",
            Marker::WhiteWins => "1-0",
            Marker::BlackWins => "0-1",
            Marker::Draw => "1/2-1/2",
        })
    }
}

/// The game at the start of a text (PGN), in export form (PGN 3.2), and how many bytes of the text it takes; `None` where only whitespace is there.
///
/// ```
/// let (game, used) = jatshegi::read_game(b"1.e4 e5 2.Nf3 * and more")?.unwrap();
/// assert_eq!(used, 15);
/// assert!(String::from_utf8(game).unwrap().ends_with("1. e4 e5 2. Nf3 *\n\n"));
/// # Ok::<(), jatshegi::Error>(())
/// ```
///
/// # Errors
///
/// [`Error::Game`] with the place of the fault, [`Error::NoMemory`].
pub fn read_game(text: &[u8]) -> Result<Option<(Vec<u8>, usize)>, Error> {
    let mut used = 0;
    // SAFETY: the text is bytes of that length, and the room has that size.
    match long(|game, room, count| unsafe { sys::jatshegi_game_read(text.as_ptr(), text.len(), game, room, count, &mut used) }) {
        Ok(game) => Ok(Some((game, used))),
        Err((sys::NO_GAME, _)) => Ok(None),
        Err((status, _)) => Err(Error::of(status, used)),
    }
}

/// What the Laws say of a game's main line (FIDE Laws 5 and 9). A ply is a number of moves made.
#[derive(Clone, Debug)]
pub struct Report {
    /// The moves of the main line.
    pub plies: u32,
    /// How the game ended, as its text says.
    pub marker: Marker,
    /// The status at the last position.
    pub status: Status,
    /// The side that has mated the other there.
    pub winner: Option<Color>,
    /// The first ply at which the game is over, and why.
    pub over: Option<(u32, Status)>,
    /// The first ply at which a draw may be claimed by repetition (9.2.2).
    pub threefold: Option<u32>,
    /// The same by fifty moves (9.3.2).
    pub fifty: Option<u32>,
    /// The most often a position has come up, at least 1.
    pub repetitions: u32,
    /// The most plies in a row without a pawn's move or a capture.
    pub quiet: u32,
    /// Whether the marker agrees with the board.
    pub agrees: bool,
    /// The FEN of the last position.
    pub fen: Text<{ sys::MOST_FEN }>,
}

/// What the Laws say of the main line of the game at the start of a text, and how many bytes of the text the game takes; `None` where only whitespace is
/// there.
///
/// # Errors
///
/// As [`read_game`].
pub fn report(text: &[u8]) -> Result<Option<(Report, usize)>, Error> {
    let (mut found, mut used, mut status) = (sys::Report::default(), 0, sys::OK);
    let fen = short(|fen, room, count| {
        // SAFETY: the text is bytes of that length, and the room has that size.
        status = unsafe { sys::jatshegi_game_report(text.as_ptr(), text.len(), &mut found, fen, room, count, &mut used) };
        if status == sys::OK {
            sys::OK
        } else {
            sys::NONE
        }
    });
    match (fen, status) {
        (Ok(fen), _) => Ok(Some((Report::of(found, fen), used))),
        (_, sys::NO_GAME) => Ok(None),
        _ => Err(Error::of(status, used)),
    }
}

impl Report {
    fn of(found: sys::Report, fen: Text<{ sys::MOST_FEN }>) -> Report {
        let ply = |ply| if ply == sys::NEVER { None } else { Some(ply) };
        Report {
            plies: found.plies,
            marker: Marker::of(found.marker),
            status: Status::of(found.status),
            winner: match found.winner {
                1 => Some(Color::White),
                2 => Some(Color::Black),
                _ => None,
            },
            over: ply(found.over).map(|over| (over, Status::of(found.why))),
            threefold: ply(found.threefold),
            fifty: ply(found.fifty),
            repetitions: found.repetitions,
            quiet: found.quiet,
            agrees: found.agrees,
            fen,
        }
    }
}

/// The games of a text one after another, each in export form, or the error of one that can't be read, after which reading goes on where the text alone
/// decides. Want of memory ends it.
///
/// ```
/// let text = b"[White \"a\"]\n\n1. e4 *\n\n[White \"b\"]\n\n1. e5 *\n\n[White \"c\"]\n\n1. d4 1-0\n";
/// let games: Vec<bool> = jatshegi::Games::new(text).map(|game| game.is_ok()).collect();
/// assert_eq!(games, [true, false, true]);
/// ```
#[derive(Clone, Debug)]
pub struct Games<'a> {
    text: &'a [u8],
    at: usize,
    is_over: bool,
}

impl<'a> Games<'a> {
    /// The games of the text.
    pub fn new(text: &'a [u8]) -> Games<'a> {
        Games { text, at: 0, is_over: false }
    }

    /// Where the next game is looked for, in bytes.
    pub fn place(&self) -> usize {
        self.at
    }

    // The place after what could not be read.
    fn pass(&mut self) -> Result<(), Error> {
        let (rest, mut used) = (&self.text[self.at..], 0);
        // SAFETY: the text is bytes of that length, and the number is written.
        match unsafe { sys::jatshegi_game_pass(rest.as_ptr(), rest.len(), &mut used) } {
            sys::OK => self.at += used,
            status => return Err(Error::of(status, 0)),
        }
        Ok(())
    }
}

impl Iterator for Games<'_> {
    type Item = Result<Vec<u8>, Error>;

    fn next(&mut self) -> Option<Result<Vec<u8>, Error>> {
        if self.is_over {
            return None;
        }
        match read_game(&self.text[self.at..]) {
            Ok(Some((game, used))) => {
                self.at += used;
                Some(Ok(game))
            }
            Ok(None) => {
                self.is_over = true;
                None
            }
            Err(Error::Game(mut fault)) => {
                fault.at += self.at;
                if let Err(error) = self.pass() {
                    self.is_over = true;
                    return Some(Err(error));
                }
                Some(Err(Error::Game(fault)))
            }
            Err(error) => {
                self.is_over = true;
                Some(Err(error))
            }
        }
    }
}

impl core::iter::FusedIterator for Games<'_> {}
