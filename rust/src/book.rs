//! Opening books of Polyglot's.
use crate::board::Board;
use crate::error::{checked, Error};
use crate::moves::Move;
use crate::sys;
use core::ops::Range;

/// What an entry of a book says of a position.
#[derive(Clone, Copy, Debug, PartialEq, Eq)]
pub struct BookMove {
    /// A legal move.
    pub m: Move,
    /// How often to play it, beside the position's other moves.
    pub weight: u16,
    /// A number for a program's own use.
    pub learn: u32,
}

/// The entries of a key in a book, which is 16 bytes an entry in ascending order of keys, by their numbers from 0. It looks at few of the bytes.
pub fn find_in_book(book: &[u8], key: u64) -> Range<usize> {
    let (mut first, mut count) = (0, 0);
    // SAFETY: the book is bytes of that length, and both numbers are written.
    unsafe { sys::jatshegi_book_find(book.as_ptr(), book.len(), key, &mut first, &mut count) };
    first..first + count
}

impl Board {
    /// What an entry of a book says of the position.
    ///
    /// # Errors
    ///
    /// [`Error::Illegal`] where the entry is another position's, or stands for no legal move, [`Error::Argument`] where the book doesn't have it.
    pub fn book_move(&self, book: &[u8], entry: usize) -> Result<BookMove, Error> {
        let (mut m, mut weight, mut learn) = (sys::Move::default(), 0, 0);
        // SAFETY: the book is bytes of that length, and the outputs are written.
        checked(unsafe { sys::jatshegi_board_book_move(self.at(), book.as_ptr(), book.len(), entry, &mut m, &mut weight, &mut learn) })?;
        Ok(BookMove { m: Move::of(m), weight, learn })
    }

    /// What a book says of the position, in the order of its entries; those that stand for no legal move are left out.
    ///
    /// ```
    /// let board = jatshegi::Board::new()?;
    /// let mut book = board.key().to_be_bytes().to_vec();
    /// book.extend([0x03, 0x1c, 0, 5, 0, 0, 0, 0]);
    /// let found: Vec<_> = board.book_moves(&book).collect();
    /// assert_eq!((found.len(), found[0].m.to_string().as_str(), found[0].weight), (1, "e2e4", 5));
    /// # Ok::<(), jatshegi::Error>(())
    /// ```
    pub fn book_moves<'a>(&'a self, book: &'a [u8]) -> impl Iterator<Item = BookMove> + 'a {
        find_in_book(book, self.key()).filter_map(move |entry| self.book_move(book, entry).ok())
    }
}
