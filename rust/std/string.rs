//! Strings whose growth can be refused.

use super::alloc::{AllocError, Global};
use std::fmt;
use std::ops::Deref;

/// A string as Rust's, but for calls that take memory: these answer a `Result`, and change nothing where memory is
/// refused.
#[derive(PartialEq, Eq, Hash, PartialOrd, Ord)]
pub struct String(std::string::String);

impl String {
    /// A string without a character. It takes no memory.
    pub fn new(_alloc: Global) -> Self {
        String(std::string::String::new())
    }

    /// A copy of a text.
    pub fn from_str(alloc: Global, text: &str) -> Result<Self, AllocError> {
        let mut copy = String::new(alloc);
        copy.0.try_reserve_exact(text.len())?;
        copy.0.push_str(text);
        Ok(copy)
    }

    /// Appends a text.
    #[inline]
    pub fn push_str(&mut self, text: &str) -> Result<(), AllocError> {
        // mostly there is room, which is seen here, without a call
        if text.len() > self.0.capacity() - self.0.len() {
            self.0.try_reserve(text.len())?;
        }
        self.0.push_str(text);
        Ok(())
    }

    /// Appends a character.
    pub fn push(&mut self, letter: char) -> Result<(), AllocError> {
        self.0.try_reserve(letter.len_utf8())?;
        self.0.push(letter);
        Ok(())
    }

    /// Appends what `write!` is given. Where memory is refused, what was appended before stays.
    pub fn write_fmt(&mut self, text: fmt::Arguments<'_>) -> Result<(), AllocError> {
        fmt::Write::write_fmt(self, text).map_err(|_| AllocError)
    }

    /// Makes room for so many more bytes.
    pub fn reserve(&mut self, more: usize) -> Result<(), AllocError> {
        Ok(self.0.try_reserve(more)?)
    }

    /// Lets go all but the first bytes, where a character begins.
    pub fn truncate(&mut self, length: usize) {
        self.0.truncate(length);
    }

    /// The text.
    pub fn as_str(&self) -> &str {
        &self.0
    }

    /// The bytes of the text.
    pub fn into_bytes(self) -> super::vec::Vec<u8> {
        super::vec::Vec::from(self.0.into_bytes())
    }

    /// The allocator.
    pub fn allocator(&self) -> &Global {
        &Global
    }
}

impl Deref for String {
    type Target = str;

    fn deref(&self) -> &str {
        &self.0
    }
}

impl fmt::Debug for String {
    fn fmt(&self, f: &mut fmt::Formatter<'_>) -> fmt::Result {
        self.0.fmt(f)
    }
}

impl fmt::Display for String {
    fn fmt(&self, f: &mut fmt::Formatter<'_>) -> fmt::Result {
        self.0.fmt(f)
    }
}

impl fmt::Write for String {
    fn write_str(&mut self, text: &str) -> fmt::Result {
        self.push_str(text).map_err(|_| fmt::Error)
    }
}

impl From<std::string::String> for String {
    fn from(text: std::string::String) -> Self {
        String(text)
    }
}

impl From<String> for std::string::String {
    fn from(text: String) -> Self {
        text.0
    }
}
