//! Texts that the library writes.
use crate::error::{checked, Error};
use crate::sys;
use alloc::string::String;
use alloc::vec::Vec;
use core::fmt;
use core::ops::Deref;

/// A short text, which takes no memory of the heap.
#[derive(Clone, Copy)]
pub struct Text<const N: usize> {
    bytes: [u8; N],
    length: usize,
}

impl<const N: usize> Text<N> {
    /// The text.
    pub fn as_str(&self) -> &str {
        core::str::from_utf8(&self.bytes[..self.length]).expect("the library writes these texts in ASCII")
    }
}

impl<const N: usize> Deref for Text<N> {
    type Target = str;

    fn deref(&self) -> &str {
        self.as_str()
    }
}

impl<const N: usize> From<Text<N>> for String {
    fn from(text: Text<N>) -> String {
        String::from(text.as_str())
    }
}

impl<const N: usize> AsRef<str> for Text<N> {
    fn as_ref(&self) -> &str {
        self
    }
}

impl<const N: usize> PartialEq<str> for Text<N> {
    fn eq(&self, other: &str) -> bool {
        self.as_str() == other
    }
}

impl<const N: usize> PartialEq<&str> for Text<N> {
    fn eq(&self, other: &&str) -> bool {
        self.as_str() == *other
    }
}

impl<const N: usize> PartialEq for Text<N> {
    fn eq(&self, other: &Text<N>) -> bool {
        self.as_str() == other.as_str()
    }
}

impl<const N: usize> Eq for Text<N> {}

impl<const N: usize> fmt::Display for Text<N> {
    fn fmt(&self, f: &mut fmt::Formatter<'_>) -> fmt::Result {
        f.pad(self)
    }
}

impl<const N: usize> fmt::Debug for Text<N> {
    fn fmt(&self, f: &mut fmt::Formatter<'_>) -> fmt::Result {
        fmt::Debug::fmt(self.as_str(), f)
    }
}

/// The text of at most N bytes that a function of the library writes, given a room, its size and where the length goes.
pub(crate) fn short<const N: usize>(ask: impl FnOnce(*mut u8, usize, *mut usize) -> u32) -> Result<Text<N>, Error> {
    let mut text = Text { bytes: [0; N], length: 0 };
    checked(ask(text.bytes.as_mut_ptr(), N, &mut text.length))?;
    Ok(text)
}

/// The same of any length: asked for once more with more room where it is longer than the first.
pub(crate) fn long(mut ask: impl FnMut(*mut u8, usize, *mut usize) -> u32) -> Result<Vec<u8>, (u32, usize)> {
    let (mut bytes, mut length) = (Vec::new(), 0);
    loop {
        match ask(bytes.as_mut_ptr(), bytes.len(), &mut length) {
            sys::OK => {
                bytes.truncate(length);
                return Ok(bytes);
            }
            sys::NO_ROOM if length > bytes.len() => {
                bytes.try_reserve_exact(length - bytes.len()).map_err(|_| (sys::NO_MEMORY, 0))?;
                bytes.resize(length, 0);
            }
            status => return Err((status, length)),
        }
    }
}
