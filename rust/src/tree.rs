//! The tree of a board: the node at the cursor, steps from node to node, and edits.
use crate::board::Board;
use crate::error::{checked, Error};
use crate::moves::Move;
use crate::sys;
use crate::text::long;
use alloc::vec::Vec;

impl Board {
    /// How many plies the cursor is from the root, at most 20,000.
    pub fn ply(&self) -> u32 {
        // SAFETY: the number is written.
        self.asked(0, |slot, depth| unsafe { sys::jatshegi_board_depth(slot, depth) })
    }

    /// How many children the node at the cursor has.
    pub fn children(&self) -> u32 {
        // SAFETY: the number is written.
        self.asked(0, |slot, children| unsafe { sys::jatshegi_board_children(slot, children) })
    }

    /// The move that led to the node at the cursor; `None` at the root.
    pub fn last_move(&self) -> Option<Move> {
        let mut m = sys::Move::default();
        // SAFETY: the move is written.
        match unsafe { sys::jatshegi_board_move(self.at(), &mut m) } {
            sys::OK => Some(Move::of(m)),
            _ => None,
        }
    }

    /// The moves from the root to the cursor.
    ///
    /// # Errors
    ///
    /// [`Error::NoMemory`].
    pub fn line(&self) -> Result<Vec<Move>, Error> {
        let (mut moves, mut count) = (Vec::new(), self.ply() as usize);
        moves.try_reserve_exact(count).map_err(|_| Error::NoMemory)?;
        moves.resize(count, sys::Move::default());
        // SAFETY: the room has that size.
        checked(unsafe { sys::jatshegi_board_line(self.at(), moves.as_mut_ptr(), moves.len(), &mut count) })?;
        Ok(moves.into_iter().map(Move::of).collect())
    }

    /// The comment of the node at the cursor, empty where there is none (PGN 5).
    ///
    /// # Errors
    ///
    /// [`Error::NoMemory`].
    pub fn comment(&self) -> Result<Vec<u8>, Error> {
        // SAFETY: the room has that size.
        let ask = |text, room, length| unsafe { sys::jatshegi_board_comment_of(self.at(), text, room, length) };
        long(ask).map_err(|(status, _)| Error::of(status, 0))
    }

    /// The annotation numbers of the node at the cursor (PGN 8.2.4).
    ///
    /// # Errors
    ///
    /// [`Error::NoMemory`].
    pub fn annotations(&self) -> Result<Vec<u8>, Error> {
        // SAFETY: the room has that size.
        let ask = |numbers, room, count| unsafe { sys::jatshegi_board_annotations_of(self.at(), numbers, room, count) };
        long(ask).map_err(|(status, _)| Error::of(status, 0))
    }

    /// Steps to a child, by its place among its siblings, from 0.
    ///
    /// # Errors
    ///
    /// [`Error::NoSuch`].
    pub fn step(&mut self, place: u32) -> Result<(), Error> {
        // SAFETY: the slot has a board.
        checked(unsafe { sys::jatshegi_board_step(self.at(), place) })
    }

    /// Steps to the parent; the node that it leaves stays in the tree.
    ///
    /// # Errors
    ///
    /// [`Error::AtRoot`].
    pub fn back(&mut self) -> Result<(), Error> {
        // SAFETY: the slot has a board.
        checked(unsafe { sys::jatshegi_board_back(self.at()) })
    }

    /// Goes to the root.
    pub fn start(&mut self) {
        // SAFETY: the slot has a board, so it is done.
        let _ = unsafe { sys::jatshegi_board_start(self.at()) };
    }

    /// Goes along the first children as far as they lead.
    pub fn end(&mut self) {
        // SAFETY: the slot has a board, so it is done.
        let _ = unsafe { sys::jatshegi_board_end(self.at()) };
    }

    /// Puts the move at the cursor before its siblings.
    ///
    /// # Errors
    ///
    /// [`Error::AtRoot`].
    pub fn promote(&mut self) -> Result<(), Error> {
        // SAFETY: the slot has a board.
        checked(unsafe { sys::jatshegi_board_promote(self.at()) })
    }

    /// Takes the move at the cursor out, with all that follows it, and steps to its parent.
    ///
    /// # Errors
    ///
    /// [`Error::AtRoot`].
    pub fn delete(&mut self) -> Result<(), Error> {
        // SAFETY: the slot has a board.
        checked(unsafe { sys::jatshegi_board_delete(self.at()) })
    }

    /// Gives the node at the cursor a comment in place of its own.
    ///
    /// # Errors
    ///
    /// [`Error::BadComment`], [`Error::NoMemory`].
    pub fn set_comment(&mut self, text: &[u8]) -> Result<(), Error> {
        // SAFETY: the text is bytes of that length.
        checked(unsafe { sys::jatshegi_board_comment(self.at(), text.as_ptr(), text.len()) })
    }

    /// Gives the move at the cursor an annotation number more.
    ///
    /// # Errors
    ///
    /// [`Error::AtRoot`], [`Error::NoMemory`].
    pub fn annotate(&mut self, number: u8) -> Result<(), Error> {
        // SAFETY: the slot has a board.
        checked(unsafe { sys::jatshegi_board_annotate(self.at(), number) })
    }

    /// Takes all annotation numbers of the move at the cursor out.
    ///
    /// # Errors
    ///
    /// [`Error::AtRoot`].
    pub fn clear_annotations(&mut self) -> Result<(), Error> {
        // SAFETY: the slot has a board.
        checked(unsafe { sys::jatshegi_board_clear_annotations(self.at()) })
    }

    /// Answers a line of the program's `board`, without its line feed.
    ///
    /// # Errors
    ///
    /// [`Error::NoMemory`].
    pub fn answer(&mut self, line: &[u8]) -> Result<Vec<u8>, Error> {
        // (with this room the line is answered once, but for `path` and `pgn`, which change nothing)
        let (mut answer, mut length) = (alloc::vec![0; 2600], 0);
        loop {
            // SAFETY: the line is bytes of that length, and the room has that size.
            match unsafe { sys::jatshegi_board_answer(self.at(), line.as_ptr(), line.len(), answer.as_mut_ptr(), answer.len(), &mut length) } {
                sys::NO_ROOM => {
                    answer.try_reserve_exact(length - answer.len()).map_err(|_| Error::NoMemory)?;
                    answer.resize(length, 0);
                }
                status => {
                    checked(status)?;
                    answer.truncate(length);
                    return Ok(answer);
                }
            }
        }
    }
}
