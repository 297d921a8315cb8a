//! The capture book (paper: "Capture book"; 02, g, for the spare byte), with the
//! refusals that its reader and its writer can meet (paper: "Numbered refusals", 20 to
//! 30, and 02, f, for 31 and 32).
//!
//! The offsets of a book follow from its steps, since its bodies leave no gaps.
//! So the reader has only to check them, and the writer works them out.

use crate::settings::{Settings, Unfit};

/// The bound of refusal 20. No book is as long as that: the contents come to two
/// bytes more than a multiple of four, and the bodies to a multiple of four, so
/// the longest book has two bytes less.
pub const MOST_BYTES: usize = 65_536;
pub const MOST_ENTRIES: usize = 64;

const FIRST_BYTE: u8 = 1;
/// The first byte and the count.
const HEAD_BYTES: usize = 2;
pub const ENTRY_BYTES: usize = 12;
/// The pair received and the pair sent (paper: "The judge").
pub const STEP_BYTES: usize = 4;

/// A call that is turned down, under the paper's number for it. Whatever else
/// the call would answer is then zero, so a refusal carries nothing.
#[derive(Clone, Copy, Debug, PartialEq, Eq)]
#[repr(u8)]
pub enum Refusal {
    TooLong = 20,
    TooShort = 21,
    FirstByte = 22,
    Count = 23,
    ContentsCut = 24,
    /// The spare byte of an entry says nothing that it can say.
    Spare = 25,
    Offset = 26,
    BodyPastEnd = 27,
    LeftOver = 28,
    /// The output has no room for the book.
    Room = 29,
    /// The joined bodies are not as long as the steps say.
    Bodies = 30,
    /// The n of an entry is not one of a group.
    Sections = 31,
    /// The mask of an entry has a bit at its n or above.
    Mask = 32,
}

impl Refusal {
    pub fn number(self) -> u8 {
        self as u8
    }
}

impl From<Unfit> for Refusal {
    fn from(unfit: Unfit) -> Self {
        match unfit {
            Unfit::Options => Self::Spare,
            Unfit::Sections => Self::Sections,
            Unfit::Mask => Self::Mask,
        }
    }
}

/// What the contents say of one capture. Any numbers may be handed to [`write`], but
/// in a book n, spare byte and mask are settings that the judge takes (paper: 02, f).
#[derive(Clone, Copy, Debug, PartialEq, Eq)]
pub struct Entry {
    pub n: u8,
    /// The options of the settings (paper: 02, g).
    pub spare: u8,
    pub mask: u16,
    pub w: u16,
    /// Where the body starts, counted from the start of the book. The writer
    /// does not look at it.
    pub offset: u32,
    pub steps: u16,
}

impl Entry {
    pub const ZEROS: Self = Self {
        n: 0,
        spare: 0,
        mask: 0,
        w: 0,
        offset: 0,
        steps: 0,
    };

    pub fn from_bytes(bytes: [u8; ENTRY_BYTES]) -> Self {
        let [n, spare, m1, m0, w1, w0, o3, o2, o1, o0, s1, s0] = bytes;
        Self {
            n,
            spare,
            mask: u16::from_be_bytes([m1, m0]),
            w: u16::from_be_bytes([w1, w0]),
            offset: u32::from_be_bytes([o3, o2, o1, o0]),
            steps: u16::from_be_bytes([s1, s0]),
        }
    }

    pub fn to_bytes(self) -> [u8; ENTRY_BYTES] {
        let [m1, m0] = self.mask.to_be_bytes();
        let [w1, w0] = self.w.to_be_bytes();
        let [o3, o2, o1, o0] = self.offset.to_be_bytes();
        let [s1, s0] = self.steps.to_be_bytes();
        [self.n, self.spare, m1, m0, w1, w0, o3, o2, o1, o0, s1, s0]
    }

    #[inline]
    pub fn settings(&self) -> Settings {
        Settings {
            n: self.n,
            options: self.spare,
            mask: self.mask,
            w: self.w,
        }
    }

    fn body_bytes(&self) -> usize {
        usize::from(self.steps) * STEP_BYTES
    }
}

/// The contents of a book. The count is a plain number, because a caller may
/// hand any contents to [`write`].
#[derive(Clone, Debug, PartialEq, Eq)]
pub struct Contents {
    pub count: u8,
    /// Those past the count are zeros when read, and not looked at when written.
    pub places: [Entry; MOST_ENTRIES],
}

impl Contents {
    pub const ZEROS: Self = Self {
        count: 0,
        places: [Entry::ZEROS; MOST_ENTRIES],
    };

    /// The places that count, or nothing if there are not as many (paper:
    /// refusal 23).
    pub fn entries(&self) -> Option<&[Entry]> {
        self.places.get(..usize::from(self.count))
    }
}

/// Reads the contents of a book. When it does not refuse, the whole book is
/// sound: every body lies where its entry says, nothing lies between or behind
/// them, and every capture can be judged.
pub fn read(book: &[u8]) -> Result<Contents, Refusal> {
    let (count, rows) = read_head(book)?;
    let mut contents = Contents {
        count,
        ..Contents::ZEROS
    };
    let mut end = contents_bytes(rows.len());
    for (place, &row) in contents.places.iter_mut().zip(rows) {
        *place = Entry::from_bytes(row);
        end = check_entry(place, end, book.len())?;
    }
    if end == book.len() {
        Ok(contents)
    } else {
        Err(Refusal::LeftOver)
    }
}

/// Writes a book into the front of `out` and answers its length. The bodies are
/// joined in the order of their entries. Nothing is written before the last
/// check, so a refused call leaves `out` as it was.
pub fn write(contents: &Contents, bodies: &[u8], out: &mut [u8]) -> Result<usize, Refusal> {
    let entries = contents.entries().ok_or(Refusal::Count)?;
    // The greatest sum is 64 * 65,535 * 4, far from an overflow.
    let mut expected = 0;
    for entry in entries {
        entry.settings().check()?;
        expected += entry.body_bytes();
    }
    if bodies.len() != expected {
        return Err(Refusal::Bodies);
    }
    let start = contents_bytes(entries.len());
    let length = start + bodies.len();
    if length > MOST_BYTES {
        return Err(Refusal::TooLong);
    }
    let book = out.get_mut(..length).ok_or(Refusal::Room)?;
    let (front, behind) = book.split_at_mut(start);
    write_contents(contents.count, entries, front);
    // Bodies without gaps lie in the book just as they are joined.
    behind.copy_from_slice(bodies);
    Ok(length)
}

/// The body of an entry that was read from this book.
///
/// An entry may be handed in that no reading of this book gives, with a body
/// that starts or ends outside. The paper is silent on it. What is answered
/// there, as much of the body as the book has, was settled for both readings;
/// their agreement on it is no evidence.
pub fn body<'a>(book: &'a [u8], entry: &Entry) -> &'a [u8] {
    let behind = usize::try_from(entry.offset)
        .ok()
        .and_then(|start| book.get(start..))
        .unwrap_or_default();
    behind.get(..entry.body_bytes()).unwrap_or(behind)
}

/// Where the contents of so many entries end, and the first body starts.
pub fn contents_bytes(count: usize) -> usize {
    HEAD_BYTES + ENTRY_BYTES * count
}

/// Refusals 20 to 24: the count, and the bytes of as many entries.
fn read_head(book: &[u8]) -> Result<(u8, &[[u8; ENTRY_BYTES]]), Refusal> {
    if book.len() > MOST_BYTES {
        return Err(Refusal::TooLong);
    }
    let &[first, count, ref rest @ ..] = book else {
        return Err(Refusal::TooShort);
    };
    if first != FIRST_BYTE {
        return Err(Refusal::FirstByte);
    }
    if usize::from(count) > MOST_ENTRIES {
        return Err(Refusal::Count);
    }
    let (rows, _) = rest.as_chunks();
    let rows = rows.get(..usize::from(count)).ok_or(Refusal::ContentsCut)?;
    Ok((count, rows))
}

/// Refusals 25, 31, 32, 26 and 27 of an entry whose body belongs at `start`.
/// Answers where the body ends. Each entry goes through all of them before the next
/// is looked at (paper: "Numbered refusals", the orders; 02, f and g).
fn check_entry(entry: &Entry, start: usize, book_bytes: usize) -> Result<usize, Refusal> {
    entry.settings().check()?;
    if usize::try_from(entry.offset) != Ok(start) {
        return Err(Refusal::Offset);
    }
    let end = start + entry.body_bytes();
    if end > book_bytes {
        return Err(Refusal::BodyPastEnd);
    }
    Ok(end)
}

/// Fills `front`, which has just the length of these contents.
fn write_contents(count: u8, entries: &[Entry], front: &mut [u8]) {
    let (head, rows) = front.split_at_mut(HEAD_BYTES);
    head.copy_from_slice(&[FIRST_BYTE, count]);
    let (rows, _) = rows.as_chunks_mut();
    for (row, entry) in rows.iter_mut().zip(placed(entries)) {
        *row = entry.to_bytes();
    }
}

/// The entries as they stand in a book that is not too long: with the offset where
/// the body before them ends.
fn placed(entries: &[Entry]) -> impl Iterator<Item = Entry> + '_ {
    let mut end = contents_bytes(entries.len());
    entries.iter().map(move |&entry| {
        let offset = end as u32;
        end += entry.body_bytes();
        Entry { offset, ..entry }
    })
}

#[cfg(test)]
mod tests;
