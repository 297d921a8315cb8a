//! The table of the program `switches`: a line for each change of each capture of a
//! book (paper: 02, e). What a line has was settled for both readings.

use super::{changes, sent};
use crate::book::{self, Entry};
use crate::judge::rows_of;
use crate::pair::{nibbles, Request};
use crate::table::{self, Captured};
use std::fmt::{self, Display, Formatter};

pub type Table = table::Table<Vec<Change>>;

/// What is printed of one change, behind the number of its capture.
pub struct Change {
    pub step: u16,
    pub k1: u8,
}

impl Captured for Vec<Change> {
    const HEADER: &'static str = "capture step k1 request channel";

    type Line = Change;

    fn of(book: &[u8], entry: &Entry) -> Self {
        let rows = rows_of(book::body(book, entry));
        let rows = rows.expect("a capture that was read is not refused");
        changes(rows)
            .map(|step| Change {
                step,
                k1: sent(&rows[usize::from(step)]),
            })
            .collect()
    }

    fn lines(&self) -> &[Change] {
        self
    }
}

impl Display for Change {
    fn fmt(&self, f: &mut Formatter) -> fmt::Result {
        let Self { step, k1 } = *self;
        let (code, channel) = nibbles(k1);
        write!(f, "{step} {k1:02X} {} {channel}", name(code))
    }
}

/// The channel has no part in it, nor whether any group can use the K1: it is shown what
/// was sent, and not whether it could be.
fn name(code: u8) -> &'static str {
    match Request::from_code(code) {
        Some(Request::Lockout) => "LO",
        Some(Request::ForcedSwitch) => "FS",
        Some(Request::SignalFailHigh) => "SF-H",
        Some(Request::SignalFailLow) => "SF-L",
        Some(Request::SignalDegradeHigh) => "SD-H",
        Some(Request::SignalDegradeLow) => "SD-L",
        Some(Request::ManualSwitch) => "MS",
        Some(Request::WaitToRestore) => "WTR",
        Some(Request::Reverse) => "RR",
        Some(Request::Nothing) => "NR",
        None => "?",
    }
}

#[cfg(test)]
mod tests {
    use super::*;
    use crate::trials::PAPER_BOOK;

    const HEADER: &str = "capture step k1 request channel\n";

    fn printed(book: &[u8]) -> String {
        Table::of(book).to_string()
    }

    /// A book of one capture, in which these are sent.
    fn book_of(sent: &[u8]) -> Vec<u8> {
        let [high, low] = (sent.len() as u16).to_be_bytes();
        let mut book = vec![1, 1, 1, 0, 0, 0, 0, 3, 0, 0, 0, 14, high, low];
        book.extend(sent.iter().flat_map(|&k1| [0x00, 0x08, k1, 0x08]));
        book
    }

    #[test]
    fn the_book_of_the_paper_is_printed() {
        let expected = "\
capture step k1 request channel
0 0 A2 SD-L 2
0 2 62 WTR 2
1 0 A2 SD-L 2
";
        assert_eq!(printed(&PAPER_BOOK), expected);
    }

    /// The paper's table, by the upper four bits: two of its rows have one code.
    #[test]
    fn every_k1_has_the_name_of_its_code() {
        let sent: Vec<u8> = (1..=255).collect();
        let text = printed(&book_of(&sent));
        let names = [
            "NR", "?", "RR", "?", "?", "?", "WTR", "?", "MS", "?", "SD-L", "SD-H", "SF-L", "SF-H",
            "FS", "LO",
        ];
        let lines = sent.iter().enumerate().map(|(step, &k1)| {
            let (name, channel) = (names[usize::from(k1 / 16)], k1 % 16);
            format!("0 {step} {k1:02X} {name} {channel}")
        });
        assert!(text.lines().skip(1).eq(lines));
        for known in ["207 D0 SF-H 0", "240 F1 LO 1", "20 15 ? 5", "161 A2 SD-L 2"] {
            assert!(text.contains(&format!("\n0 {known}\n")), "{known}");
        }
    }

    #[test]
    fn a_capture_without_changes_has_no_line() {
        for book in [&[1, 0][..], &book_of(&[]), &book_of(&[0; 1_000])] {
            assert_eq!(printed(book), HEADER);
        }
    }

    #[test]
    fn the_longest_capture_has_a_line_a_step() {
        let sent: Vec<u8> = (0..16_380).map(|step| (step % 2) as u8 ^ 0xA1).collect();
        let text = printed(&book_of(&sent));
        assert_eq!(text.lines().count(), 1 + 16_380);
        assert!(text.ends_with("\n0 16379 A0 SD-L 0\n"));
    }

    #[test]
    fn a_refused_book_is_one_line() {
        assert_eq!(printed(&PAPER_BOOK[..45]), "refused 27\n");
    }
}
