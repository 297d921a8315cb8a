//! What the coder's rules say of a K1 value by itself, for the groups of every size at
//! once (paper: 02, j). It is worked out from the rules of codes, channels and ranks,
//! which are asked for every size; nothing of it is typed in.

use super::{nibbles, Mark, Request, MOST_SECTIONS};
use std::io::{self, Write};

/// A K1 value that some group can use.
#[derive(Clone, Copy, Debug, PartialEq, Eq)]
struct Usable {
    rank: u8,
    /// The fewest and the most sections of such a group.
    least: u8,
    greatest: u8,
}

/// In which groups a K1 value is usable, or its mark where there are none. Such a mark
/// is the same in every group: the size has no part in what is a code, and behind the
/// code nothing of a K1 but the channel can be wrong.
fn value(k1: u8) -> Result<Usable, Mark> {
    let (code, channel) = nibbles(k1);
    let request = Request::from_code(code).ok_or(Mark::Code)?;
    let sizes = (1..=MOST_SECTIONS).filter(|&n| request.channels(n).contains(&channel));
    Ok(Usable {
        rank: request.rank(channel),
        least: sizes.clone().min().ok_or(Mark::Channel)?,
        greatest: sizes.max().ok_or(Mark::Channel)?,
    })
}

/// The rank, the least and the greatest n, and the mark, with a 0 for what the value
/// does not have.
pub fn numbers(k1: u8) -> [u8; 4] {
    match value(k1) {
        Ok(Usable {
            rank,
            least,
            greatest,
        }) => [rank, least, greatest, 0],
        Err(mark) => [0, 0, 0, mark.number()],
    }
}

/// The table of `peer k1`: a line for each value, in a fixed text that can be compared
/// byte for byte with the text of another reading.
pub fn write(out: &mut impl Write) -> io::Result<()> {
    writeln!(out, "k1 rank least greatest mark")?;
    for k1 in 0..=u8::MAX {
        let [rank, least, greatest, mark] = numbers(k1);
        writeln!(out, "{k1:02X} {rank} {least} {greatest} {mark}")?;
    }
    Ok(())
}

#[cfg(test)]
mod tests {
    use super::super::{decode, rank, Received};
    use super::*;
    use crate::block::printed;

    const SIZES: std::ops::RangeInclusive<u8> = 1..=14;

    /// The table of the paper, row by row: code, rank, and whether the row has channel
    /// 0 and whether it has sections.
    const ROWS: [(u8, u8, bool, bool); 11] = [
        (0b1111, 10, true, false),
        (0b1101, 9, true, false),
        (0b1110, 8, false, true),
        (0b1101, 7, false, true),
        (0b1100, 6, false, true),
        (0b1011, 5, true, true),
        (0b1010, 4, false, true),
        (0b1000, 3, false, true),
        (0b0110, 2, false, true),
        (0b0010, 0, true, true),
        (0b0000, 0, true, false),
    ];

    /// By hand from the rows: channel 0 is there in every group, section c in those of
    /// c sections or more, and no group has a section 15.
    fn by_hand(k1: u8) -> [u8; 4] {
        let (code, channel) = (k1 >> 4, k1 & 0b1111);
        let mut rows = ROWS.into_iter().filter(|row| row.0 == code).peekable();
        if rows.peek().is_none() {
            return [0, 0, 0, 3];
        }
        let has_channel = |&(_, _, protection, sections): &(u8, u8, bool, bool)| match channel {
            0 => protection,
            15 => false,
            _ => sections,
        };
        rows.find(has_channel)
            .map_or([0, 0, 0, 4], |(_, rank, ..)| [rank, channel.max(1), 14, 0])
    }

    #[test]
    fn values_are_those_of_the_rows() {
        for k1 in 0..=255 {
            assert_eq!(numbers(k1), by_hand(k1), "{k1:02X}");
        }
    }

    /// With a K2 that has no fault of its own, a value is decoded exactly in the groups
    /// from its least to its greatest; in others the channel is what is wrong.
    #[test]
    fn usable_values_are_decoded_from_the_least_to_the_greatest_group() {
        for (k1, usable) in (0..=255).filter_map(|k1| Some((k1, value(k1).ok()?))) {
            for n in SIZES {
                let read = decode(n, k1, 0x08);
                if (usable.least..=usable.greatest).contains(&n) {
                    let record = read.ok().and_then(Received::usable).expect("a usable pair");
                    assert_eq!((record.code, record.channel), (k1 >> 4, k1 & 0b1111));
                    assert_eq!(usable.rank, rank(record.code, record.channel), "{k1:02X}");
                } else {
                    assert_eq!(read, Ok(Received::Marked(Mark::Channel)), "{n} {k1:02X}");
                }
            }
        }
    }

    #[test]
    fn marked_values_have_their_mark_in_every_group() {
        for (k1, mark) in (0..=255).filter_map(|k1| Some((k1, value(k1).err()?))) {
            assert!([Mark::Code, Mark::Channel].contains(&mark), "{k1:02X}");
            for n in SIZES {
                assert_eq!(decode(n, k1, 0x08), Ok(Received::Marked(mark)), "{k1:02X}");
            }
        }
    }

    /// A least n is what parts a usable value from others: NR and RR have rank 0 too.
    #[test]
    fn what_a_value_does_not_have_is_zero() {
        for k1 in 0..=255 {
            match numbers(k1) {
                [0, 0, 0, mark] => assert!([3, 4].contains(&mark), "{k1:02X}"),
                [rank, least, greatest, mark] => {
                    assert!(rank <= 10 && rank != 1, "{k1:02X}");
                    assert!(1 <= least && least <= greatest && greatest <= 14);
                    assert_eq!(mark, 0, "{k1:02X}");
                }
            }
        }
    }

    /// Counted by hand from the table: eight codes take 14 sections, five take channel
    /// 0; six codes of sixteen are none; and of the 160 values with a code the rest has
    /// no channel.
    #[test]
    fn as_many_values_as_the_table_has_room_for() {
        let count = |mark| (0..=255).filter(|&k1| numbers(k1)[3] == mark).count();
        assert_eq!(count(0), 8 * 14 + 5);
        assert_eq!(count(3), 6 * 16);
        assert_eq!(count(4), 160 - 117);
    }

    #[test]
    fn the_text_has_its_fixed_shape() {
        let text = printed(write);
        assert!(text.is_ascii() && text.ends_with('\n'));
        let mut lines = text.lines();
        assert_eq!(lines.next(), Some("k1 rank least greatest mark"));
        let starts = lines.map(|line| {
            let words: Vec<&str> = line.split(' ').collect();
            assert!(words.len() == 5 && words.iter().all(|word| !word.is_empty()));
            words[0]
        });
        assert!(starts.eq((0..=255).map(|k1| format!("{k1:02X}"))));
    }

    #[test]
    fn lines_that_are_known() {
        let text = printed(write);
        for known in [
            "00 0 1 14 0",
            "0F 0 0 0 4",
            "11 0 0 0 3",
            "20 0 1 14 0",
            "2E 0 14 14 0",
            "A0 0 0 0 4",
            "A2 4 2 14 0",
            "B0 5 1 14 0",
            "D0 9 1 14 0",
            "D1 7 1 14 0",
            "DF 0 0 0 4",
            "F0 10 1 14 0",
            "F1 0 0 0 4",
        ] {
            assert!(text.contains(&format!("\n{known}\n")), "{known}");
        }
    }
}
