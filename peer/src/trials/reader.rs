//! Which refusal a book gets from the reader (paper: "Numbered refusals", 20 to
//! 28, and the orders below the table; 02, f, for 31 and 32, and g for 25).

use super::{Reading, BUFFER_BYTES, PAPER_BOOK};
use std::io::{self, Write};

/// Something to set in the paper's book.
#[derive(Clone, Copy)]
enum Fault {
    Nothing,
    Length(usize),
    Byte(usize, u8),
}

/// Those of one refusal stand together, in the order of their numbers; behind
/// them a few more; then those of settings, of which the last two are faults only
/// together (02, f); and last hold, which is no fault (02, g).
const FAULTS: [Fault; 34] = [
    Fault::Nothing,
    Fault::Length(65_537),
    Fault::Length(1),
    Fault::Length(0),
    Fault::Byte(0, 2),
    Fault::Byte(0, 0),
    Fault::Byte(1, 65),
    Fault::Byte(1, 255),
    Fault::Length(25),
    Fault::Byte(1, 4),
    Fault::Byte(3, 2),
    Fault::Byte(15, 255),
    Fault::Byte(11, 27),
    Fault::Byte(11, 25),
    Fault::Byte(8, 1),
    Fault::Byte(23, 39),
    Fault::Byte(13, 6),
    Fault::Byte(25, 3),
    Fault::Byte(24, 255),
    Fault::Length(45),
    Fault::Length(47),
    Fault::Byte(25, 1),
    Fault::Length(65_536),
    Fault::Byte(13, 4),
    Fault::Byte(1, 1),
    Fault::Length(26),
    Fault::Byte(2, 0),
    Fault::Byte(14, 15),
    Fault::Byte(2, 255),
    Fault::Byte(5, 4),
    Fault::Byte(16, 128),
    Fault::Byte(2, 1),
    Fault::Byte(5, 3),
    Fault::Byte(3, 1),
];

/// The paper's book with zeros behind it, to put faults into.
struct Tried {
    buffer: Vec<u8>,
    length: usize,
}

impl Tried {
    fn with_faults(faults: &[Fault]) -> Self {
        let mut tried = Self {
            buffer: PAPER_BOOK.to_vec(),
            length: PAPER_BOOK.len(),
        };
        tried.buffer.resize(BUFFER_BYTES, 0);
        for &fault in faults {
            tried.put(fault);
        }
        tried
    }

    fn put(&mut self, fault: Fault) {
        match fault {
            Fault::Nothing => {}
            Fault::Length(length) => self.length = length,
            Fault::Byte(place, value) => self.buffer[place] = value,
        }
    }

    fn read(&self) -> Reading {
        Reading::of(&self.buffer[..self.length])
    }
}

pub(super) fn write_alone(out: &mut impl Write) -> io::Result<()> {
    writeln!(out, "reader alone")?;
    for (number, fault) in FAULTS.into_iter().enumerate() {
        writeln!(out, "{number} {}", Tried::with_faults(&[fault]).read())?;
    }
    Ok(())
}

pub(super) fn write_pairs(out: &mut impl Write) -> io::Result<()> {
    writeln!(out, "reader pairs")?;
    for (number, first) in FAULTS.into_iter().enumerate() {
        write!(out, "{number}")?;
        for second in FAULTS {
            let reading = Tried::with_faults(&[first, second]).read();
            write!(out, " {}", reading.refusal)?;
        }
        writeln!(out)?;
    }
    Ok(())
}

/// The answers that the reader has: 0 for a book that it takes, and its refusals.
const ANSWERS: [u8; 12] = [0, 20, 21, 22, 23, 24, 25, 26, 27, 28, 31, 32];

/// How many books get each of the answers.
#[derive(Default)]
struct Counts([u32; ANSWERS.len()]);

impl Counts {
    fn over_all_values(place: usize) -> Self {
        let mut counts = Self::default();
        let mut book = PAPER_BOOK;
        for value in 0..=u8::MAX {
            book[place] = value;
            counts.add(Reading::of(&book).refusal);
        }
        counts
    }

    fn add(&mut self, refusal: u8) {
        for (count, answer) in self.0.iter_mut().zip(ANSWERS) {
            *count += u32::from(answer == refusal);
        }
    }
}

/// Every byte of the contents through all its values. Those of the bodies may be
/// anything.
pub(super) fn write_by_byte(out: &mut impl Write) -> io::Result<()> {
    writeln!(out, "reader bytes")?;
    for place in 0..26 {
        let Counts(counts) = Counts::over_all_values(place);
        write!(out, "{place}")?;
        for count in counts {
            write!(out, " {count}")?;
        }
        writeln!(out)?;
    }
    Ok(())
}

/// The paper's book cut to each length, up to its own.
pub(super) fn write_by_length(out: &mut impl Write) -> io::Result<()> {
    writeln!(out, "reader lengths")?;
    let refusals: Vec<String> = (0..=PAPER_BOOK.len())
        .map(|length| Reading::of(&PAPER_BOOK[..length]).refusal.to_string())
        .collect();
    writeln!(out, "{}", refusals.join(" "))
}

#[cfg(test)]
mod tests {
    use super::*;
    use crate::block::printed;

    /// By hand from the wording of the refusals.
    const REFUSALS: [u8; 34] = [
        0, 20, 21, 21, 22, 22, 23, 23, 24, 24, 25, 25, 26, 26, 26, 26, 27, 27, 27, 27, 28, 28, 28,
        26, 26, 27, 31, 31, 31, 32, 32, 0, 0, 0,
    ];

    #[test]
    fn each_fault_alone_has_its_refusal() {
        let text = printed(write_alone);
        assert_eq!(text.lines().next(), Some("reader alone"));
        assert_eq!(text.lines().count(), 1 + REFUSALS.len());
        let rows = text.lines().skip(1).zip(REFUSALS);
        for (number, (line, refusal)) in rows.enumerate() {
            let count = if refusal == 0 { 2 } else { 0 };
            let front = format!("{number} {refusal} {count} ");
            assert!(line.starts_with(&front), "{line}");
        }
    }

    fn refusal_of(first: usize, second: usize) -> u8 {
        let faults = [FAULTS[first], FAULTS[second]];
        Tried::with_faults(&faults).read().refusal
    }

    #[test]
    fn a_pair_with_nothing_or_itself_is_the_fault_alone() {
        for (number, refusal) in REFUSALS.into_iter().enumerate() {
            for (first, second) in [(0, number), (number, 0), (number, number)] {
                assert_eq!(refusal_of(first, second), refusal);
            }
        }
    }

    /// Entry by entry: what is wrong with the first comes before what is wrong
    /// with the second, whatever the numbers.
    #[test]
    fn of_two_faults_the_first_in_order_is_refused() {
        let pairs = [
            (1, 4, 20),
            (2, 4, 21),
            (5, 6, 22),
            (7, 8, 23),
            (8, 10, 24),
            (10, 12, 25),
            (10, 11, 25),
            (12, 16, 26),
            (11, 12, 26),
            (11, 16, 27),
            (15, 16, 27),
            (15, 17, 26),
            (17, 20, 27),
            (17, 22, 28),
            (19, 21, 28),
            (11, 20, 25),
            (10, 25, 25),
            (11, 25, 27),
            (9, 22, 26),
        ];
        assert_in_order(&pairs);
    }

    /// 31 and 32 come behind 25 and before 26 and 27 (02, f).
    #[test]
    fn settings_have_their_place_in_an_entry() {
        let pairs = [
            // Before the entries.
            (1, 26, 20),
            (2, 26, 21),
            (4, 26, 22),
            (6, 27, 23),
            (8, 27, 24),
            (9, 29, 24),
            // In it, be it the first or the second.
            (10, 26, 25),
            (10, 29, 25),
            (11, 27, 25),
            (11, 30, 25),
            (26, 29, 31),
            (28, 29, 31),
            (27, 30, 31),
            (26, 12, 31),
            (29, 12, 32),
            (27, 15, 31),
            (30, 15, 32),
            (26, 16, 31),
            (29, 16, 32),
            (27, 17, 31),
            (30, 18, 32),
            // No faults but together.
            (31, 32, 32),
            (31, 29, 32),
            (31, 27, 31),
            (32, 26, 31),
            (32, 12, 26),
        ];
        assert_in_order(&pairs);
    }

    /// Whatever is beside it (02, g).
    #[test]
    fn hold_is_no_fault() {
        let pairs = [
            (33, 11, 25),
            (33, 26, 31),
            (33, 29, 32),
            (33, 12, 26),
            (33, 16, 27),
            (33, 20, 28),
            (33, 31, 0),
        ];
        assert_in_order(&pairs);
    }

    /// All of the first comes before what is wrong with the second, and 28 last.
    #[test]
    fn settings_have_their_place_among_the_entries() {
        let pairs = [
            (27, 10, 25),
            (27, 12, 26),
            (30, 13, 26),
            (27, 16, 27),
            (30, 16, 27),
            (26, 27, 31),
            (29, 27, 32),
            (26, 30, 31),
            (29, 11, 32),
            (26, 11, 31),
            // With bytes too many or too few, one entry fewer, and a longer first body.
            (27, 20, 31),
            (30, 21, 32),
            (29, 22, 32),
            (30, 19, 32),
            (26, 24, 31),
            (27, 24, 26),
            (30, 23, 32),
        ];
        assert_in_order(&pairs);
    }

    fn assert_in_order(pairs: &[(usize, usize, u8)]) {
        for &(first, second, refusal) in pairs {
            // No two of these set the same, so which is put in first is no matter.
            assert_eq!(refusal_of(first, second), refusal, "{first} {second}");
            assert_eq!(refusal_of(second, first), refusal, "{second} {first}");
        }
    }

    #[test]
    fn where_both_set_the_same_the_second_stands() {
        assert_eq!(refusal_of(4, 5), 22);
        assert_eq!(refusal_of(1, 20), 28);
        assert_eq!(refusal_of(20, 1), 20);
        assert_eq!(refusal_of(6, 24), 26);
        assert_eq!(refusal_of(24, 6), 23);
        assert_eq!(refusal_of(26, 31), 0);
        assert_eq!(refusal_of(31, 28), 31);
        assert_eq!(refusal_of(29, 32), 0);
        assert_eq!(refusal_of(32, 29), 32);
        assert_eq!(refusal_of(10, 33), 0);
        assert_eq!(refusal_of(33, 10), 25);
    }

    #[test]
    fn values_are_counted_as_by_hand() {
        let text = printed(write_by_byte);
        let lines: Vec<&str> = text.lines().collect();
        for (place, expected) in [
            (0, "0 1 0 0 255 0 0 0 0 0 0 0 0"),
            // Counts 65 to 255, then 4 to 64, then 1 and 3, then 0.
            (1, "1 1 0 0 0 191 61 0 2 0 1 0 0"),
            // Of n, 1 to 14 are good. Of the mask, what has the lower two bits alone.
            (2, "2 14 0 0 0 0 0 0 0 0 0 242 0"),
            // Of the spare byte, 0 and 1.
            (3, "3 2 0 0 0 0 0 254 0 0 0 0 0"),
            (4, "4 1 0 0 0 0 0 0 0 0 0 0 255"),
            (5, "5 4 0 0 0 0 0 0 0 0 0 0 252"),
            (6, "6 256 0 0 0 0 0 0 0 0 0 0 0"),
            (8, "8 1 0 0 0 0 0 0 255 0 0 0 0"),
            (13, "13 1 0 0 0 0 0 0 5 250 0 0 0"),
            (14, "14 14 0 0 0 0 0 0 0 0 0 242 0"),
            (17, "17 4 0 0 0 0 0 0 0 0 0 0 252"),
            (24, "24 1 0 0 0 0 0 0 0 255 0 0 0"),
            (25, "25 1 0 0 0 0 0 0 0 253 2 0 0"),
        ] {
            assert_eq!(lines[1 + place], expected);
        }
    }

    #[test]
    fn every_answer_is_counted() {
        for place in 0..26 {
            let Counts(counts) = Counts::over_all_values(place);
            assert_eq!(counts.iter().sum::<u32>(), 256);
        }
    }

    #[test]
    fn a_cut_book_is_refused_by_what_is_cut() {
        let text = printed(write_by_length);
        let expected = [&["21"; 2][..], &["24"; 24], &["27"; 20], &["0"]].concat();
        assert_eq!(text, format!("reader lengths\n{}\n", expected.join(" ")));
    }
}
