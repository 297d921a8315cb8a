//! Which refusal a call of the controller gets (paper: "Numbered refusals", 1 to
//! 7, and the orders below the table).

use super::{fresh, numbers, Given};
use crate::controller::{self, Answer, Record};
use crate::settings::{Settings, HOLD};
use std::io::{self, Write};
use std::ops::RangeInclusive;

/// Good conditions for the greatest group; a smaller one takes the first.
const GOOD: [u8; 15] = [0; 15];

/// The group of the paper's sequences.
const OF_TWO: Settings = Settings::new(2, 0, 3);

fn good_step(n: u8) -> Given<'static> {
    Given::new(0x00, 0x08, &GOOD[..=usize::from(n)])
}

pub(super) fn write_of_fresh(out: &mut impl Write) -> io::Result<()> {
    const SETTINGS: [(u8, u16); 11] = [
        (0, 0),
        (15, 0),
        (0, 1),
        (255, 65_535),
        (1, 2),
        (2, 4),
        (14, 16_384),
        (15, 32_768),
        (1, 1),
        (2, 3),
        (14, 16_383),
    ];
    writeln!(out, "refusals of fresh: n, mask: refusal")?;
    for (n, mask) in SETTINGS {
        let refusal = controller::fresh(Settings::new(n, mask, 3))
            .err()
            .map_or(0, controller::Refusal::number);
        writeln!(out, "{n} {mask}: {refusal}")?;
    }
    Ok(())
}

/// A step to put faults into.
struct Tried {
    record: Record,
    conditions: Vec<u8>,
    command: u8,
    channel: u8,
}

/// One fault for each of the refusals 1 to 7, in their order. A fault put in
/// twice is the same as once.
const FAULTS: [fn(&mut Tried); 7] = [
    |tried| tried.record.n = 0,
    |tried| tried.record.mask = 32_768,
    |tried| tried.record.sent = 0x10,
    |tried| tried.conditions.truncate(2),
    |tried| tried.conditions[0] = 3,
    |tried| tried.command = 5,
    |tried| tried.channel = 9,
];

impl Tried {
    fn with_faults(faults: [fn(&mut Self); 2]) -> Self {
        let mut tried = Self {
            record: fresh(OF_TWO),
            conditions: vec![0; 3],
            command: 0,
            channel: 0,
        };
        for put in faults {
            put(&mut tried);
        }
        tried
    }

    fn step(&self) -> Answer {
        Given::new(0x00, 0x08, &self.conditions)
            .commanded(self.command, self.channel)
            .step(self.record)
    }

    fn is_given_back(&self, answer: &Answer) -> bool {
        let [_, rest @ ..] = numbers(answer);
        rest == [0; 6] && answer.record == self.record
    }
}

pub(super) fn write_by_two_faults(out: &mut impl Write) -> io::Result<()> {
    writeln!(
        out,
        "refusals of a step, by two faults: rows and columns are the faults 1 to 7"
    )?;
    let mut given_back = 0;
    write_square(out, 1..=7, 1..=7, |row, column| {
        let faults = [row, column].map(|fault| FAULTS[usize::from(fault) - 1]);
        let tried = Tried::with_faults(faults);
        let answer = tried.step();
        given_back += u8::from(tried.is_given_back(&answer));
        answer.refusal
    })?;
    writeln!(out, "zeros and the given record: {given_back} of 49")
}

pub(super) fn write_by_the_command(out: &mut impl Write) -> io::Result<()> {
    writeln!(
        out,
        "refusals by the command, n 2: rows are commands 0 to 5, columns channels 0 to 3"
    )?;
    let record = fresh(OF_TWO);
    write_square(out, 0..=5, 0..=3, |command, channel| {
        let given = good_step(record.n).commanded(command, channel);
        given.step(record).refusal
    })
}

fn write_square(
    out: &mut impl Write,
    rows: RangeInclusive<u8>,
    columns: RangeInclusive<u8>,
    mut refusal: impl FnMut(u8, u8) -> u8,
) -> io::Result<()> {
    write!(out, " ")?;
    for column in columns.clone() {
        write!(out, " {column}")?;
    }
    writeln!(out)?;
    for row in rows {
        write!(out, "{row}")?;
        for column in columns.clone() {
            write!(out, " {}", refusal(row, column))?;
        }
        writeln!(out)?;
    }
    Ok(())
}

/// Without hold.
const fn record(n: u8, mask: u16, w: u16, accepted: [u8; 2], sent: u8, left: u16) -> Record {
    Record {
        n,
        options: 0,
        mask,
        w,
        accepted,
        sent,
        left,
        held: 0x00,
    }
}

/// With these options and that command held, after these were sent and left.
const fn holding(options: u8, held: u8, sent: u8, left: u16) -> Record {
    Record {
        options,
        held,
        ..record(2, 0, 3, [0x00, 0x08], sent, left)
    }
}

/// The same in the greatest group.
const fn holding_of_14(held: u8) -> Record {
    Record {
        options: HOLD,
        held,
        ..record(14, 8_192, 65_535, [0xEE, 0xE8], 0xDE, 0)
    }
}

/// Records on either side of every bound that refusal 3 draws; behind the first thirty-four
/// those of the held command (02, g).
const RECORDS: [Record; 61] = [
    record(2, 0, 3, [0x00, 0x08], 0x00, 0),
    record(2, 0, 3, [0x00, 0x00], 0x00, 0),
    record(2, 0, 3, [0x00, 0x0F], 0x00, 0),
    record(2, 0, 3, [0x00, 0x2E], 0x00, 0),
    record(2, 0, 3, [0x11, 0x08], 0x00, 0),
    record(2, 0, 3, [0xA3, 0x08], 0x00, 0),
    record(2, 0, 3, [0x00, 0x38], 0x00, 0),
    record(2, 0, 3, [0x00, 0x08], 0x10, 0),
    record(2, 0, 3, [0x00, 0x08], 0xC0, 0),
    record(2, 0, 3, [0x00, 0x08], 0xC3, 0),
    record(2, 0, 3, [0x00, 0x08], 0x01, 0),
    record(2, 0, 3, [0x00, 0x08], 0x22, 0),
    record(2, 0, 3, [0x00, 0x08], 0xD0, 0),
    record(2, 3, 3, [0x00, 0x08], 0xD0, 0),
    record(2, 0, 3, [0x00, 0x08], 0xB0, 0),
    record(2, 0, 3, [0x00, 0x08], 0xD1, 0),
    record(2, 1, 3, [0x00, 0x08], 0xD1, 0),
    record(2, 1, 3, [0x00, 0x08], 0xC1, 0),
    record(2, 1, 3, [0x00, 0x08], 0xC2, 0),
    record(2, 2, 3, [0x00, 0x08], 0xA1, 0),
    record(2, 2, 3, [0x00, 0x08], 0xA2, 0),
    record(2, 2, 3, [0x00, 0x08], 0xB2, 0),
    record(2, 0, 3, [0x00, 0x08], 0xB1, 0),
    record(2, 0, 3, [0x00, 0x08], 0x61, 0),
    record(2, 0, 3, [0x00, 0x08], 0x61, 1),
    record(2, 0, 3, [0x00, 0x08], 0x61, 3),
    record(2, 0, 3, [0x00, 0x08], 0x61, 4),
    record(2, 0, 0, [0x00, 0x08], 0x61, 0),
    record(2, 0, 0, [0x00, 0x08], 0x61, 1),
    record(2, 0, 3, [0x00, 0x08], 0xC1, 1),
    record(2, 0, 3, [0x00, 0x08], 0x00, 1),
    record(2, 0, 3, [0x00, 0x08], 0xE2, 0),
    record(14, 8_192, 65_535, [0xEE, 0xE8], 0xDE, 0),
    record(14, 8_192, 65_535, [0x6E, 0xE8], 0x6E, 65_535),
    holding(1, 0x00, 0x00, 0),
    holding(1, 0xF0, 0x00, 0),
    holding(1, 0xE1, 0x00, 0),
    holding(1, 0xE2, 0x00, 0),
    holding(1, 0x81, 0x00, 0),
    holding(1, 0x82, 0x00, 0),
    holding(1, 0xE3, 0x00, 0),
    holding(1, 0xE0, 0x00, 0),
    holding(1, 0x83, 0x00, 0),
    holding(1, 0x80, 0x00, 0),
    holding(1, 0xF1, 0x00, 0),
    holding(1, 0x01, 0x00, 0),
    holding(1, 0xC1, 0x00, 0),
    holding(1, 0xD0, 0x00, 0),
    holding(1, 0x61, 0x00, 0),
    holding(1, 0x22, 0x00, 0),
    holding(0, 0xF0, 0x00, 0),
    holding(0, 0xE1, 0x00, 0),
    holding(0, 0x81, 0x00, 0),
    holding(0, 0x01, 0x00, 0),
    holding(1, 0x00, 0xF0, 0),
    holding(1, 0x00, 0xE1, 0),
    holding(1, 0x82, 0xE1, 0),
    holding(1, 0x81, 0x61, 2),
    holding_of_14(0xEE),
    holding_of_14(0x8E),
    holding_of_14(0xEF),
];

pub(super) fn write_by_the_record(out: &mut impl Write) -> io::Result<()> {
    writeln!(
        out,
        "refusals by the record: n hold mask W, accepted, sent, left, held: refusal"
    )?;
    for record in RECORDS {
        let [k1, k2] = record.accepted;
        writeln!(
            out,
            "{} {} {} {} {k1:02X} {k2:02X} {:02X} {} {:02X}: {}",
            record.n,
            record.options,
            record.mask,
            record.w,
            record.sent,
            record.left,
            record.held,
            good_step(record.n).step(record).refusal
        )?;
    }
    Ok(())
}

#[cfg(test)]
mod tests {
    use super::*;
    use crate::block::printed;

    #[test]
    fn the_number_of_sections_is_judged_before_the_mask() {
        let expected = "refusals of fresh: n, mask: refusal\n\
            0 0: 1\n15 0: 1\n0 1: 1\n255 65535: 1\n1 2: 2\n2 4: 2\n14 16384: 2\n\
            15 32768: 1\n1 1: 0\n2 3: 0\n14 16383: 0\n";
        assert_eq!(printed(write_of_fresh), expected);
    }

    #[test]
    fn of_two_faults_the_first_is_refused() {
        let text = printed(write_by_two_faults);
        let expected = [
            "  1 2 3 4 5 6 7",
            "1 1 1 1 1 1 1 1",
            "2 1 2 2 2 2 2 2",
            "3 1 2 3 3 3 3 3",
            "4 1 2 3 4 4 4 4",
            "5 1 2 3 4 5 5 5",
            "6 1 2 3 4 5 6 6",
            "7 1 2 3 4 5 6 7",
            "zeros and the given record: 49 of 49",
        ];
        let lines: Vec<&str> = text.lines().skip(1).collect();
        assert_eq!(lines, expected);
    }

    #[test]
    fn commands_are_refused_by_number_and_channel() {
        let text = printed(write_by_the_command);
        let expected = [
            "  0 1 2 3",
            "0 0 7 7 7",
            "1 0 7 7 7",
            "2 0 7 7 7",
            "3 7 0 0 7",
            "4 7 0 0 7",
            "5 6 6 6 6",
        ];
        let lines: Vec<&str> = text.lines().skip(1).collect();
        assert_eq!(lines, expected);
    }

    /// The good ones, by hand from the wording of refusal 3; the rest is refused
    /// by no other number.
    #[test]
    fn records_are_refused_by_what_no_step_could_leave() {
        let good = [
            "2 0 0 3 00 08 00 0 00: 0",
            "2 0 0 3 00 2E 00 0 00: 0",
            "2 0 0 3 00 08 22 0 00: 0",
            "2 0 0 3 00 08 D0 0 00: 0",
            "2 0 3 3 00 08 D0 0 00: 0",
            "2 0 0 3 00 08 B0 0 00: 0",
            "2 0 1 3 00 08 D1 0 00: 0",
            "2 0 1 3 00 08 C2 0 00: 0",
            "2 0 2 3 00 08 A1 0 00: 0",
            "2 0 2 3 00 08 B2 0 00: 0",
            "2 0 0 3 00 08 61 1 00: 0",
            "2 0 0 3 00 08 61 3 00: 0",
            "2 0 0 3 00 08 E2 0 00: 0",
            "14 0 8192 65535 EE E8 DE 0 00: 0",
            "14 0 8192 65535 6E E8 6E 65535 00: 0",
            "2 1 0 3 00 08 00 0 00: 0",
            "2 1 0 3 00 08 00 0 F0: 0",
            "2 1 0 3 00 08 00 0 E1: 0",
            "2 1 0 3 00 08 00 0 E2: 0",
            "2 1 0 3 00 08 00 0 81: 0",
            "2 1 0 3 00 08 00 0 82: 0",
            "2 1 0 3 00 08 F0 0 00: 0",
            "2 1 0 3 00 08 E1 0 00: 0",
            "2 1 0 3 00 08 E1 0 82: 0",
            "2 1 0 3 00 08 61 2 81: 0",
            "14 1 8192 65535 EE E8 DE 0 EE: 0",
            "14 1 8192 65535 EE E8 DE 0 8E: 0",
        ];
        let text = printed(write_by_the_record);
        let (refused, taken): (Vec<&str>, Vec<&str>) =
            text.lines().skip(1).partition(|line| line.ends_with(": 3"));
        assert_eq!(taken, good);
        assert_eq!(refused.len(), RECORDS.len() - good.len());
    }
}
