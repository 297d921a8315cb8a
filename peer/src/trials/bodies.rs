//! The body handed out for an entry, whether a reading gives that entry or not.

use super::{digest, PAPER_BOOK};
use crate::book::{self, Entry};
use std::io::{self, Write};

/// Offsets and steps. The first two are those of the paper's book.
const ENTRIES: [(u32, u16); 12] = [
    (26, 3),
    (38, 2),
    (0, 0),
    (46, 0),
    (46, 1),
    (45, 1),
    (44, 1),
    (47, 1),
    (4_294_967_295, 65_535),
    (2, 65_535),
    (0, 11),
    (0, 12),
];

pub(super) fn write(out: &mut impl Write) -> io::Result<()> {
    writeln!(out, "bodies")?;
    for (offset, steps) in ENTRIES {
        let entry = Entry {
            offset,
            steps,
            ..Entry::ZEROS
        };
        let body = book::body(&PAPER_BOOK, &entry);
        let digest = digest::of_bytes(body);
        writeln!(out, "{offset} {steps} {} {digest}", body.len())?;
    }
    Ok(())
}

#[cfg(test)]
mod tests {
    use super::*;
    use crate::block::printed;

    #[test]
    fn lengths_are_those_the_book_has_room_for() {
        let lengths = [12, 8, 0, 0, 0, 1, 2, 0, 0, 44, 44, 46];
        let text = printed(write);
        assert_eq!(text.lines().next(), Some("bodies"));
        assert_eq!(text.lines().count(), 1 + lengths.len());
        let rows = ENTRIES.into_iter().zip(lengths);
        for (line, ((offset, steps), length)) in text.lines().skip(1).zip(rows) {
            let front = format!("{offset} {steps} {length} ");
            assert!(line.starts_with(&front), "{line}");
        }
    }
}
