//! The tags and the result of a board's game, and its text.
use crate::board::Board;
use crate::error::{checked, Error};
use crate::game::Marker;
use crate::sys;
use crate::text::long;
use alloc::vec::Vec;

impl Board {
    /// Begins with the whole game at the start of a text (PGN): tags, result, variations, comments and annotations, the cursor at the root. Answers how many bytes
    /// of the text it takes, or `None` where only whitespace is there.
    ///
    /// # Errors
    ///
    /// [`Error::Game`] with the place of the fault, [`Error::NoMemory`]; the board is then as it was.
    pub fn load(&mut self, text: &[u8]) -> Result<Option<usize>, Error> {
        let mut used = 0;
        // SAFETY: the text is bytes of that length, and the number is written.
        match unsafe { sys::jatshegi_board_load(self.at(), text.as_ptr(), text.len(), &mut used) } {
            sys::OK => Ok(Some(used)),
            sys::NO_GAME => Ok(None),
            status => Err(Error::of(status, used)),
        }
    }

    /// The whole game in export form (PGN 3.2). A text of more than 1,048,576 bytes, or with more than 128 variations within one another, is written, but
    /// [`Board::load`] and [`Games`](crate::Games) refuse it; long comments and tags alone make such a text.
    ///
    /// # Errors
    ///
    /// [`Error::NoMemory`].
    pub fn pgn(&self) -> Result<Vec<u8>, Error> {
        // SAFETY: the room has that size.
        long(|text, room, length| unsafe { sys::jatshegi_board_pgn(self.at(), text, room, length) }).map_err(|(status, _)| Error::of(status, 0))
    }

    /// The value of a tag (PGN 8.1); `None` where the game doesn't have it.
    ///
    /// # Errors
    ///
    /// [`Error::NoMemory`].
    pub fn tag(&self, name: &str) -> Result<Option<Vec<u8>>, Error> {
        // SAFETY: the name is bytes of that length, and the room has that size.
        let ask = |value, room, count| unsafe { sys::jatshegi_board_tag(self.at(), name.as_ptr(), name.len(), value, room, count) };
        match long(ask) {
            Ok(value) => Ok(Some(value)),
            Err((sys::NO_SUCH, _)) => Ok(None),
            Err((status, _)) => Err(Error::of(status, 0)),
        }
    }

    /// The names of the tags: the six that each game has, then the others in ASCII order.
    ///
    /// # Errors
    ///
    /// [`Error::NoMemory`].
    pub fn tags(&self) -> Result<Vec<Vec<u8>>, Error> {
        let mut names = Vec::new();
        loop {
            // SAFETY: the room has that size.
            let ask = |name, room, count| unsafe { sys::jatshegi_board_tags(self.at(), names.len(), name, room, count) };
            match long(ask) {
                Ok(name) => names.push(name),
                Err((sys::NO_SUCH, _)) => return Ok(names),
                Err((status, _)) => return Err(Error::of(status, 0)),
            }
        }
    }

    /// Gives the tag of that name the value.
    ///
    /// # Errors
    ///
    /// [`Error::TagName`], [`Error::TagOwn`], [`Error::TagValue`], [`Error::NoMemory`].
    pub fn set_tag(&mut self, name: &str, value: &[u8]) -> Result<(), Error> {
        // SAFETY: both are bytes of that length.
        checked(unsafe { sys::jatshegi_board_set_tag(self.at(), name.as_ptr(), name.len(), value.as_ptr(), value.len()) })
    }

    /// Takes the tag out, if there is one; each of the six then says that nothing is known.
    ///
    /// # Errors
    ///
    /// [`Error::NoMemory`].
    pub fn clear_tag(&mut self, name: &str) -> Result<(), Error> {
        // SAFETY: the name is bytes of that length.
        checked(unsafe { sys::jatshegi_board_clear_tag(self.at(), name.as_ptr(), name.len()) })
    }

    /// How the game ended, as its text says.
    pub fn marker(&self) -> Marker {
        // SAFETY: the number is written.
        Marker::of(self.asked(0, |slot, marker| unsafe { sys::jatshegi_board_result(slot, marker) }))
    }

    /// Says how the game ended.
    pub fn set_marker(&mut self, marker: Marker) {
        // SAFETY: the slot has a board and the number is a marker's, so it is done.
        let _ = unsafe { sys::jatshegi_board_set_result(self.at(), marker as u32) };
    }
}
