//! The tables of the byte pair, over inputs that leave no value out.

use crate::pair::{decode, encode, rank, Mark, Received, Record, Refusal};
use std::io::{self, Write};
use std::ops::RangeInclusive;

/// The sizes a group may have (paper: "Settings and what the order covers") and
/// the nearest refused one on either side.
const GROUP_SIZES: RangeInclusive<u8> = 0..=15;

/// Two past what a nibble holds, so that bytes no pair can carry are seen too.
const FIELD_VALUES: RangeInclusive<u8> = 0..=17;

/// What stands in a cell of the grids.
const CELLS: &str = "rank, m and the mark, or al for an alarm";

pub fn write(out: &mut impl Write) -> io::Result<()> {
    for n in [2, 14] {
        write_k1_grid(out, n)?;
        writeln!(out)?;
        write_k2_grid(out, n)?;
        writeln!(out)?;
    }
    write_pair_counts(out)?;
    writeln!(out)?;
    write_record_counts(out)?;
    writeln!(out)?;
    write_rank_sum(out)
}

fn write_k1_grid(out: &mut impl Write, n: u8) -> io::Result<()> {
    writeln!(out, "n = {n}: each K1, with K2 = 08: {CELLS}")?;
    write_grid(out, |k1| cell(n, k1, 0x08))
}

fn write_k2_grid(out: &mut impl Write, n: u8) -> io::Result<()> {
    writeln!(out, "n = {n}: each K2, with K1 = 00: {CELLS}")?;
    write_grid(out, |k2| cell(n, 0x00, k2))
}

fn write_grid(out: &mut impl Write, cell: impl Fn(u8) -> String) -> io::Result<()> {
    write!(out, "  ")?;
    for low in 0..16 {
        write!(out, "{:>4}", format!("x{low:X}"))?;
    }
    writeln!(out)?;
    for high in 0..16 {
        write!(out, "{high:X}x")?;
        for low in 0..16 {
            write!(out, "{:>4}", cell((high << 4) | low))?;
        }
        writeln!(out)?;
    }
    Ok(())
}

fn cell(n: u8, k1: u8, k2: u8) -> String {
    match decode(n, k1, k2) {
        Ok(Received::Usable(record)) => rank(record.code, record.channel).to_string(),
        Ok(Received::Alarm) => "al".into(),
        Ok(Received::Marked(mark)) => format!("m{}", mark.number()),
        Err(refusal) => format!("r{}", refusal.number()),
    }
}

/// How the pairs fare in a group of one size.
#[derive(Default)]
struct PairCounts {
    refused: u32,
    marked: [u32; 5],
    alarms: u32,
    usable: u32,
    given_back: u32,
}

impl PairCounts {
    fn over_all_pairs(n: u8) -> Self {
        let mut counts = Self::default();
        for [k1, k2] in (0..=u16::MAX).map(u16::to_be_bytes) {
            match decode(n, k1, k2) {
                Ok(Received::Usable(record)) => {
                    counts.usable += 1;
                    counts.given_back += u32::from(encode(n, record) == Ok([k1, k2]));
                }
                Ok(Received::Alarm) => counts.alarms += 1,
                Ok(Received::Marked(mark)) => *counts.of_mark(mark) += 1,
                Err(_) => counts.refused += 1,
            }
        }
        counts
    }

    fn of_mark(&mut self, mark: Mark) -> &mut u32 {
        let [bit_five, line_bits, code, channel, bridged] = &mut self.marked;
        match mark {
            Mark::BitFive => bit_five,
            Mark::LineBits => line_bits,
            Mark::Code => code,
            Mark::Channel => channel,
            Mark::Bridged => bridged,
        }
    }
}

fn write_pair_counts(out: &mut impl Write) -> io::Result<()> {
    writeln!(
        out,
        "n, then of all 65536 pairs: refused, marks 1 to 5, alarms, usable, given back by encode"
    )?;
    for n in GROUP_SIZES {
        let PairCounts {
            refused,
            marked,
            alarms,
            usable,
            given_back,
        } = PairCounts::over_all_pairs(n);
        write!(out, "{n} {refused}")?;
        for count in marked {
            write!(out, " {count}")?;
        }
        writeln!(out, " {alarms} {usable} {given_back}")?;
    }
    Ok(())
}

/// How the records fare in a group of one size.
#[derive(Default)]
struct RecordCounts {
    sections_refused: u32,
    record_refused: u32,
    encoded: u32,
    sum: u64,
}

impl RecordCounts {
    fn over_small_records(n: u8) -> Self {
        let mut counts = Self::default();
        for record in small_records() {
            match encode(n, record) {
                Ok(pair) => {
                    counts.encoded += 1;
                    counts.sum += u64::from(u16::from_be_bytes(pair));
                }
                Err(Refusal::Sections) => counts.sections_refused += 1,
                Err(Refusal::Record) => counts.record_refused += 1,
            }
        }
        counts
    }
}

fn small_records() -> impl Iterator<Item = Record> {
    FIELD_VALUES
        .flat_map(|code| FIELD_VALUES.map(move |channel| (code, channel)))
        .flat_map(|k1| FIELD_VALUES.map(move |bridged| (k1, bridged)))
        .flat_map(|fields| [false, true].map(|remote_defect| (fields, remote_defect)))
        .map(|(((code, channel), bridged), remote_defect)| Record {
            code,
            channel,
            bridged,
            remote_defect,
        })
}

fn write_record_counts(out: &mut impl Write) -> io::Result<()> {
    writeln!(
        out,
        "n, then of the 11664 records with code, channel and bridged 0 to 17, \
         remote 0 and 1: refused 1, refused 10, encoded, sum of the bytes"
    )?;
    for n in GROUP_SIZES {
        let counts = RecordCounts::over_small_records(n);
        writeln!(
            out,
            "{n} {} {} {} {}",
            counts.sections_refused, counts.record_refused, counts.encoded, counts.sum
        )?;
    }
    Ok(())
}

fn write_rank_sum(out: &mut impl Write) -> io::Result<()> {
    let sum: u32 = (0..=u16::MAX)
        .map(u16::to_be_bytes)
        .map(|[code, channel]| u32::from(rank(code, channel)))
        .sum();
    writeln!(
        out,
        "sum of the ranks over all 65536 codes and channels: {sum}"
    )
}

#[cfg(test)]
mod tests {
    use super::*;
    use crate::block::{printed, Block};

    #[test]
    fn every_pair_and_record_is_counted_once() {
        for n in GROUP_SIZES {
            let pairs = PairCounts::over_all_pairs(n);
            let marked: u32 = pairs.marked.iter().sum();
            let stopped = pairs.refused + marked + pairs.alarms;
            assert_eq!(stopped + pairs.usable, 65_536);
            let records = RecordCounts::over_small_records(n);
            let refused = records.sections_refused + records.record_refused;
            assert_eq!(refused + records.encoded, 11_664);
            assert_eq!(records.encoded, pairs.usable);
        }
    }

    /// By hand from 02, c: the line bits 111 of every bridge, and no other cells.
    #[test]
    fn an_alarm_has_cells_of_its_own() {
        let cells = |grid: Block<Vec<u8>>| printed(grid).matches("  al").count();
        assert_eq!(cells(|out| write_k1_grid(out, 2)), 0);
        assert_eq!(cells(|out| write_k2_grid(out, 14)), 16);
        let text = printed(|out| write_k2_grid(out, 2));
        assert!(text.starts_with(
            "n = 2: each K2, with K1 = 00: rank, m and the mark, or al for an alarm\n"
        ));
        let marks = "  m1".repeat(8);
        assert!(text.contains(&format!("\n0x{marks}   0  m2  m2  m2  m2  m2   0  al\n")));
        assert!(text.contains(&format!("\n3x{marks}  m5  m2  m2  m2  m2  m2  m5  al\n")));
    }

    /// Counted by hand for one section: half of the pairs have bit 5 as 0, and of the
    /// other eight line bits five mean nothing and one is the alarm. Of the K1 then
    /// 96 have no code and 160 - 13 no channel; of the bridges 14 are past the group.
    #[test]
    fn alarms_are_counted_between_the_marks_and_the_usable_pairs() {
        let text = printed(write_pair_counts);
        let line = [0, 8 * 16 * 256, 5 * 16 * 256, 2 * 16 * 96, 2 * 16 * 147]
            .into_iter()
            .chain([2 * 14 * 13, 16 * 256, 2 * 2 * 13, 2 * 2 * 13])
            .fold("1".to_string(), |line, count| format!("{line} {count}"));
        assert!(text.contains(&format!("\n{line}\n")), "{line}");
    }
}
