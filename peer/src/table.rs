//! What a program prints of a book: a header and the lines of each capture, or the
//! refusal of the book.

use crate::book::{self, Entry, MOST_BYTES};
use std::fmt::{self, Display, Formatter};
use std::io::{self, Read, Write};

/// What is printed of one capture.
pub trait Captured: Sized {
    const HEADER: &'static str;

    /// A line, without the number of the capture that it begins with.
    type Line: Display;

    /// The entry is one that was read from that book.
    fn of(book: &[u8], entry: &Entry) -> Self;

    fn lines(&self) -> &[Self::Line];
}

/// What is printed of one book.
pub enum Table<T> {
    Captures(Vec<T>),
    /// The number of the reader's refusal.
    Refused(u8),
}

impl<T: Captured> Table<T> {
    pub fn of(book: &[u8]) -> Self {
        Self::by(book, T::of)
    }

    /// With another way to come by what is printed of a capture.
    pub fn by(book: &[u8], of: impl Fn(&[u8], &Entry) -> T) -> Self {
        match book::read(book) {
            Ok(contents) => {
                let entries = contents.entries().unwrap_or_default();
                Self::Captures(entries.iter().map(|entry| of(book, entry)).collect())
            }
            Err(refusal) => Self::Refused(refusal.number()),
        }
    }

    /// Reads one book and prints its table.
    pub fn print(input: impl Read, out: &mut impl Write) -> io::Result<()> {
        let mut book = Vec::new();
        // One byte past the bound is enough to know that the book is above it.
        input.take(MOST_BYTES as u64 + 1).read_to_end(&mut book)?;
        write!(out, "{}", Self::of(&book))
    }
}

impl<T: Captured> Display for Table<T> {
    fn fmt(&self, f: &mut Formatter) -> fmt::Result {
        let captures = match self {
            Self::Captures(captures) => captures,
            Self::Refused(number) => return writeln!(f, "refused {number}"),
        };
        writeln!(f, "{}", T::HEADER)?;
        for (number, capture) in captures.iter().enumerate() {
            for line in capture.lines() {
                writeln!(f, "{number} {line}")?;
            }
        }
        Ok(())
    }
}
