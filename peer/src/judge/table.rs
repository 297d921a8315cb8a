//! The table of the program `judge` (paper: end of "Sequences on both sides").

use super::{judge, scan, Verdict};
use crate::book::{self, Entry};
use crate::settings::Settings;
use crate::table::{self, Captured};
use std::fmt::{self, Display, Formatter};
use std::slice;

pub type Table = table::Table<Line>;

impl Table {
    /// By the judge of one scan, where `of` has the one by brute force.
    pub fn scanned(book: &[u8]) -> Self {
        Self::by(book, |book, entry| Line::by(scan::judge, book, entry))
    }
}

type Judge = fn(Settings, &[u8]) -> Result<Verdict, u8>;

/// What is printed of one capture, besides its number. The paper has words for one
/// that the judge refuses, but no book that is read comes by them any more: its
/// settings fit (02, f), it is whole steps, and it is shorter than its book.
pub struct Line {
    pub n: u8,
    pub steps: u16,
    pub verdict: Verdict,
}

impl Line {
    fn by(judge: Judge, book: &[u8], entry: &Entry) -> Self {
        let judged = judge(entry.settings(), book::body(book, entry));
        Self {
            n: entry.n,
            steps: entry.steps,
            verdict: judged.expect("a capture that was read is not refused"),
        }
    }
}

impl Captured for Line {
    const HEADER: &'static str = "capture sections steps verdict at";

    type Line = Self;

    fn of(book: &[u8], entry: &Entry) -> Self {
        Self::by(judge, book, entry)
    }

    fn lines(&self) -> &[Self] {
        slice::from_ref(self)
    }
}

impl Display for Line {
    fn fmt(&self, f: &mut Formatter) -> fmt::Result {
        let (word, number) = match self.verdict {
            Verdict::Explained(steps) => ("explained", steps),
            Verdict::Unexplained(step) => ("unexplained", step),
        };
        write!(f, "{} {} {word} {number}", self.n, self.steps)
    }
}

#[cfg(test)]
mod tests {
    use super::*;
    use crate::trials::PAPER_BOOK;

    /// By either judge.
    fn printed(book: &[u8]) -> String {
        let mut out = Vec::new();
        Table::print(book, &mut out).unwrap();
        let text = String::from_utf8(out).unwrap();
        assert_eq!(Table::scanned(book).to_string(), text);
        text
    }

    #[test]
    fn the_book_of_the_paper_is_printed_as_there() {
        let expected = "\
capture sections steps verdict at
0 2 3 explained 3
1 2 2 unexplained 1
";
        assert_eq!(printed(&PAPER_BOOK), expected);
    }

    /// In either entry, with what is good in the other (02, f).
    #[test]
    fn bad_settings_stop_the_book() {
        for entry in [2, 14] {
            for (n, mask, refusal) in [(0, 0, 31), (15, 4, 31), (1, 2, 32), (2, 4, 32)] {
                let mut book = PAPER_BOOK;
                book[entry] = n;
                book[entry + 3] = mask;
                assert_eq!(printed(&book), format!("refused {refusal}\n"));
            }
        }
    }

    /// In either entry: hold changes nothing that is printed, and other options stop the
    /// book (02, g).
    #[test]
    fn spare_bytes_are_hold_or_stop_the_book() {
        for entry in [3, 15] {
            let mut book = PAPER_BOOK;
            book[entry] = 1;
            assert_eq!(printed(&book), printed(&PAPER_BOOK));
            book[entry] = 2;
            assert_eq!(printed(&book), "refused 25\n");
        }
    }

    /// What the first capture has of section 2 is unknown to a group of one, and
    /// coded otherwise where that section is of high priority.
    #[test]
    fn settings_at_their_bounds_are_judged() {
        for (n, mask, verdict) in [
            (1, 1, "unexplained 0"),
            (2, 1, "explained 3"),
            (2, 3, "unexplained 0"),
            (14, 1, "explained 3"),
        ] {
            let mut book = PAPER_BOOK;
            book[2] = n;
            book[5] = mask;
            let expected = format!(
                "\
capture sections steps verdict at
0 {n} 3 {verdict}
1 2 2 unexplained 1
"
            );
            assert_eq!(printed(&book), expected);
        }
    }

    /// As long as a capture in a book can be, which is short of refusal 9.
    #[test]
    fn the_longest_capture_is_judged() {
        let mut book = vec![1, 1, 1, 0, 0, 0, 0, 3, 0, 0, 0, 14, 0x3F, 0xFC];
        book.extend([0x00, 0x08, 0x00, 0x08].repeat(16_380));
        let expected = "capture sections steps verdict at\n0 1 16380 explained 16380\n";
        assert_eq!(printed(&book), expected);
    }

    #[test]
    fn a_book_without_captures_has_the_header_alone() {
        assert_eq!(printed(&[1, 0]), "capture sections steps verdict at\n");
    }

    #[test]
    fn a_refused_book_is_one_line() {
        let sizes = [(65_536, 22), (65_537, 20), (70_000, 20), (0, 21), (1, 21)];
        for (bytes, refusal) in sizes {
            assert_eq!(printed(&vec![0; bytes]), format!("refused {refusal}\n"));
        }
        assert_eq!(printed(&PAPER_BOOK[..45]), "refused 27\n");
    }
}
