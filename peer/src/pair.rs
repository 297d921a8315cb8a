//! The coder of the K1/K2 byte pair (paper: "The byte pair"), with the two
//! refusals that concern it (paper: "Numbered refusals").

pub mod values;

use std::ops::RangeInclusive;

/// The most working sections a group can have (paper: "Settings and what the
/// order covers").
const MOST_SECTIONS: u8 = 14;

/// Bit 5 of K2. The paper counts a byte's bits from 1 at the upper end.
const ONE_TO_N: u8 = 0b0000_1000;

const LINE_BITS: u8 = 0b0000_0111;
const LINE_GOOD: u8 = 0b000;
const LINE_REMOTE_DEFECT: u8 = 0b110;
/// The multiplex section carries an alarm signal (paper: 02, c).
const LINE_ALARM: u8 = 0b111;

/// A call that is turned down, under the paper's number for it.
#[derive(Clone, Copy, Debug, PartialEq, Eq)]
#[repr(u8)]
pub enum Refusal {
    /// The number of working sections is out of range.
    Sections = 1,
    /// No usable pair decodes to the record.
    Record = 10,
}

impl Refusal {
    pub fn number(self) -> u8 {
        self as u8
    }
}

/// Why a pair is not usable, under the paper's number for it. Mark 0 has no
/// case: it goes with a [`Received::Usable`] and a [`Received::Alarm`].
#[derive(Clone, Copy, Debug, PartialEq, Eq)]
#[repr(u8)]
pub enum Mark {
    BitFive = 1,
    LineBits = 2,
    Code = 3,
    Channel = 4,
    Bridged = 5,
}

impl Mark {
    pub fn number(self) -> u8 {
        self as u8
    }
}

/// What a usable pair says. The fields are plain bytes, because a caller may
/// hand any record to [`encode`].
#[derive(Clone, Copy, Debug, PartialEq, Eq, Hash)]
pub struct Record {
    pub code: u8,
    pub channel: u8,
    pub bridged: u8,
    pub remote_defect: bool,
}

/// A pair that was looked at. An unusable one carries its mark and nothing
/// else, so no caller can act on half a record. An alarm carries nothing: what
/// else the pair would say is not looked at (paper: 02, c).
#[derive(Clone, Copy, Debug, PartialEq, Eq)]
pub enum Received {
    Usable(Record),
    Alarm,
    Marked(Mark),
}

impl Received {
    pub(crate) fn usable(self) -> Option<Record> {
        match self {
            Self::Usable(record) => Some(record),
            Self::Alarm | Self::Marked(_) => None,
        }
    }
}

/// The requests that the paper's table uses, under their codes. Code 1101 is one
/// kind here although it has two rows there: what parts the rows is the channel.
#[derive(Clone, Copy, Debug, PartialEq, Eq)]
#[repr(u8)]
pub(crate) enum Request {
    Lockout = 0b1111,
    ForcedSwitch = 0b1110,
    SignalFailHigh = 0b1101,
    SignalFailLow = 0b1100,
    SignalDegradeHigh = 0b1011,
    SignalDegradeLow = 0b1010,
    ManualSwitch = 0b1000,
    WaitToRestore = 0b0110,
    Reverse = 0b0010,
    Nothing = 0b0000,
}

impl Request {
    pub(crate) const ALL: [Self; 10] = [
        Self::Lockout,
        Self::ForcedSwitch,
        Self::SignalFailHigh,
        Self::SignalFailLow,
        Self::SignalDegradeHigh,
        Self::SignalDegradeLow,
        Self::ManualSwitch,
        Self::WaitToRestore,
        Self::Reverse,
        Self::Nothing,
    ];

    /// Takes the whole byte, so that a code of more than four bits is none.
    pub(crate) fn from_code(code: u8) -> Option<Self> {
        Self::ALL.into_iter().find(|request| request.code() == code)
    }

    pub(crate) fn code(self) -> u8 {
        self as u8
    }

    /// The channels the request may name in a group of `n` sections.
    pub(crate) fn channels(self, n: u8) -> RangeInclusive<u8> {
        match self {
            Self::Lockout | Self::Nothing => 0..=0,
            // Protection is always coded as a high priority section (paper: "One
            // step", the local request), and may be what is answered.
            Self::SignalFailHigh | Self::SignalDegradeHigh | Self::Reverse => 0..=n,
            Self::ForcedSwitch
            | Self::SignalFailLow
            | Self::SignalDegradeLow
            | Self::ManualSwitch
            | Self::WaitToRestore => 1..=n,
        }
    }

    /// Not the order of the codes: a failed protection section stands above a
    /// forced switch, whose code is the greater (paper: "Errors a good reader
    /// makes").
    fn rank(self, channel: u8) -> u8 {
        match (self, channel) {
            (Self::Lockout, _) => 10,
            (Self::SignalFailHigh, 0) => 9,
            (Self::ForcedSwitch, _) => 8,
            (Self::SignalFailHigh, _) => 7,
            (Self::SignalFailLow, _) => 6,
            (Self::SignalDegradeHigh, _) => 5,
            (Self::SignalDegradeLow, _) => 4,
            (Self::ManualSwitch, _) => 3,
            (Self::WaitToRestore, _) => 2,
            (Self::Reverse | Self::Nothing, _) => 0,
        }
    }
}

/// The rank of the table's row for a request code and channel, or 0 if they
/// stand in no row. The size of the group plays no part, so every channel but 0
/// counts as a section.
pub fn rank(code: u8, channel: u8) -> u8 {
    let class = channel.min(1);
    Request::from_code(code)
        .filter(|request| request.channels(1).contains(&class))
        .map_or(0, |request| request.rank(class))
}

/// Reads a received pair in a group of `n` sections.
pub fn decode(n: u8, k1: u8, k2: u8) -> Result<Received, Refusal> {
    check_sections(n)?;
    Ok(read(n, k1, k2))
}

/// Writes a record as the pair, K1 first, that decodes to it.
pub fn encode(n: u8, record: Record) -> Result<[u8; 2], Refusal> {
    check_sections(n)?;
    let channels = Request::from_code(record.code)
        .ok_or(Refusal::Record)?
        .channels(n);
    if !channels.contains(&record.channel) || record.bridged > n {
        return Err(Refusal::Record);
    }
    Ok(pack(record))
}

/// The bytes of a record that is known to stand in the table.
pub(crate) fn pack(record: Record) -> [u8; 2] {
    let line = if record.remote_defect {
        LINE_REMOTE_DEFECT
    } else {
        LINE_GOOD
    };
    [
        (record.code << 4) | record.channel,
        (record.bridged << 4) | ONE_TO_N | line,
    ]
}

pub(crate) fn check_sections(n: u8) -> Result<(), Refusal> {
    if (1..=MOST_SECTIONS).contains(&n) {
        Ok(())
    } else {
        Err(Refusal::Sections)
    }
}

/// Reads a pair in a group whose size is known to be one.
pub(crate) fn read(n: u8, k1: u8, k2: u8) -> Received {
    read_or_mark(n, k1, k2).unwrap_or_else(Received::Marked)
}

/// The order of the checks is the paper's: the first that fails is the mark, and
/// an alarm ends them (paper: "The byte pair"; 02, c).
fn read_or_mark(n: u8, k1: u8, k2: u8) -> Result<Received, Mark> {
    if k2 & ONE_TO_N == 0 {
        return Err(Mark::BitFive);
    }
    let remote_defect = match k2 & LINE_BITS {
        LINE_GOOD => false,
        LINE_REMOTE_DEFECT => true,
        LINE_ALARM => return Ok(Received::Alarm),
        _ => return Err(Mark::LineBits),
    };
    let (request, channel) = read_k1(n, k1)?;
    let (bridged, _) = nibbles(k2);
    if bridged > n {
        return Err(Mark::Bridged);
    }
    Ok(Received::Usable(Record {
        code: request.code(),
        channel,
        bridged,
        remote_defect,
    }))
}

/// The part of [`read`] that needs no K2: a controller remembers only the K1 of
/// the pair it sent.
pub(crate) fn read_k1(n: u8, k1: u8) -> Result<(Request, u8), Mark> {
    let (code, channel) = nibbles(k1);
    let request = Request::from_code(code).ok_or(Mark::Code)?;
    if request.channels(n).contains(&channel) {
        Ok((request, channel))
    } else {
        Err(Mark::Channel)
    }
}

pub(crate) fn nibbles(byte: u8) -> (u8, u8) {
    (byte >> 4, byte & 0b1111)
}

#[cfg(test)]
mod tests {
    use super::*;
    use std::collections::HashSet;

    fn record(code: u8, channel: u8, bridged: u8, remote_defect: bool) -> Record {
        Record {
            code,
            channel,
            bridged,
            remote_defect,
        }
    }

    fn all_pairs() -> impl Iterator<Item = [u8; 2]> {
        (0..=u16::MAX).map(u16::to_be_bytes)
    }

    fn usable(n: u8) -> impl Iterator<Item = ([u8; 2], Record)> {
        all_pairs().filter_map(move |[k1, k2]| {
            let record = decode(n, k1, k2).ok()?.usable()?;
            Some(([k1, k2], record))
        })
    }

    #[test]
    fn pairs_of_the_worked_sequences() {
        let worked = [
            ([0x00, 0x08], record(0b0000, 0, 0, false)),
            ([0x00, 0x28], record(0b0000, 0, 2, false)),
            ([0xA2, 0x08], record(0b1010, 2, 0, false)),
            ([0xA2, 0x28], record(0b1010, 2, 2, false)),
            ([0x22, 0x28], record(0b0010, 2, 2, false)),
            ([0x21, 0x18], record(0b0010, 1, 1, false)),
            ([0x62, 0x28], record(0b0110, 2, 2, false)),
            ([0xC1, 0x08], record(0b1100, 1, 0, false)),
            ([0xD0, 0x08], record(0b1101, 0, 0, false)),
            ([0xD2, 0x08], record(0b1101, 2, 0, false)),
            ([0xE1, 0x08], record(0b1110, 1, 0, false)),
            ([0x82, 0x0E], record(0b1000, 2, 0, true)),
            ([0xF0, 0x1E], record(0b1111, 0, 1, true)),
        ];
        for ([k1, k2], read) in worked {
            assert_eq!(decode(2, k1, k2), Ok(Received::Usable(read)));
            assert_eq!(encode(2, read), Ok([k1, k2]));
        }
    }

    #[test]
    fn marks_of_the_worked_sequences() {
        let read = decode(14, 0xAE, 0xE8);
        assert_eq!(
            read,
            Ok(Received::Usable(record(0b1010, 14, 14, false))),
            "channel 14 of 14 works"
        );
        assert_eq!(decode(2, 0x11, 0x08), Ok(Received::Marked(Mark::Code)));
        assert_eq!(decode(14, 0xAF, 0x08), Ok(Received::Marked(Mark::Channel)));
        assert_eq!(decode(14, 0xAE, 0xF8), Ok(Received::Marked(Mark::Bridged)));
    }

    /// Starts with every fault at once and mends one after the other. The second
    /// is the alarm, which has no mark.
    #[test]
    fn the_first_fault_gives_the_mark() {
        let mended = [
            ([0x1F, 0xF7], 1),
            ([0x1F, 0xFF], 0),
            ([0x1F, 0xF9], 2),
            ([0x1F, 0xFE], 3),
            ([0xAF, 0xFE], 4),
            ([0xA2, 0xFE], 5),
        ];
        for ([k1, k2], number) in mended {
            let mark = match decode(2, k1, k2) {
                Ok(Received::Marked(mark)) => mark.number(),
                Ok(Received::Alarm) => 0,
                other => panic!("{k1:02X} {k2:02X} is {other:?}"),
            };
            assert_eq!(mark, number, "{k1:02X} {k2:02X}");
        }
        let read = record(0b1010, 2, 2, true);
        assert_eq!(decode(2, 0xA2, 0x2E), Ok(Received::Usable(read)));
    }

    /// The paper's table in a group of that size: code, first and last channel.
    fn rows(n: u8) -> [(u8, u8, u8); 10] {
        [
            (0xF, 0, 0),
            (0xE, 1, n),
            (0xD, 0, n),
            (0xC, 1, n),
            (0xB, 0, n),
            (0xA, 1, n),
            (0x8, 1, n),
            (0x6, 1, n),
            (0x2, 0, n),
            (0x0, 0, 0),
        ]
    }

    #[test]
    fn channels_at_the_edges_of_each_row() {
        for (code, first, last) in rows(5) {
            for channel in 0..=15 {
                let read = decode(5, (code << 4) | channel, 0x08);
                let expected = if (first..=last).contains(&channel) {
                    Received::Usable(record(code, channel, 0, false))
                } else {
                    Received::Marked(Mark::Channel)
                };
                assert_eq!(read, Ok(expected), "{code:X}{channel:X}");
            }
        }
    }

    /// Every check by itself, none of them leaning on those before it: the answer
    /// is that of the first which stops the pair (01 with 02, c).
    fn checked(n: u8, [k1, k2]: [u8; 2]) -> Received {
        let (code, channel, bridged) = (k1 >> 4, k1 & 0b1111, k2 >> 4);
        let row = rows(n).into_iter().find(|&(listed, ..)| listed == code);
        let has_channel = |(_, first, last): (u8, u8, u8)| (first..=last).contains(&channel);
        let line = k2 & 0b111;
        let checks = [
            (k2 & 0b1000 == 0, Received::Marked(Mark::BitFive)),
            (line == 0b111, Received::Alarm),
            (
                ![0b000, 0b110].contains(&line),
                Received::Marked(Mark::LineBits),
            ),
            (row.is_none(), Received::Marked(Mark::Code)),
            (
                !row.is_some_and(has_channel),
                Received::Marked(Mark::Channel),
            ),
            (bridged > n, Received::Marked(Mark::Bridged)),
        ];
        let stopped = checks.into_iter().find(|&(stops, _)| stops);
        let read = record(code, channel, bridged, line == 0b110);
        stopped.map_or(Received::Usable(read), |(_, answer)| answer)
    }

    #[test]
    fn all_pairs_are_checked_in_the_order_of_the_paper() {
        for n in 1..=14 {
            for [k1, k2] in all_pairs() {
                let expected = checked(n, [k1, k2]);
                assert_eq!(decode(n, k1, k2), Ok(expected), "{n} {k1:02X} {k2:02X}");
            }
        }
    }

    /// The four last bits of K2 alone make it, and all of them have to be set.
    #[test]
    fn one_pair_of_sixteen_is_an_alarm() {
        for n in 1..=14 {
            let alarms: Vec<[u8; 2]> = all_pairs()
                .filter(|&[k1, k2]| decode(n, k1, k2) == Ok(Received::Alarm))
                .collect();
            assert_eq!(alarms.len(), 65_536 / 16);
            assert!(alarms.iter().all(|[_, k2]| k2 & 0b1111 == 0b1111));
        }
    }

    #[test]
    fn ranks_fall_down_the_table() {
        let rows = [
            (0b1111, 0, 10),
            (0b1101, 0, 9),
            (0b1110, 1, 8),
            (0b1101, 1, 7),
            (0b1100, 1, 6),
            (0b1011, 0, 5),
            (0b1011, 14, 5),
            (0b1011, 255, 5),
            (0b1010, 14, 4),
            (0b1000, 14, 3),
            (0b0110, 14, 2),
            (0b0010, 0, 0),
            (0b0000, 0, 0),
        ];
        for (code, channel, expected) in rows {
            assert_eq!(rank(code, channel), expected, "{code:04b} {channel}");
        }
    }

    #[test]
    fn outside_the_table_the_rank_is_nothing() {
        for (code, channel) in [
            (0xF, 1),
            (0xE, 0),
            (0xC, 0),
            (0xA, 0),
            (0x8, 0),
            (0x6, 0),
            (0x9, 1),
            (0x1F, 0),
            (0xFD, 0),
        ] {
            assert_eq!(rank(code, channel), 0, "{code:X} {channel}");
        }
    }

    #[test]
    fn usable_pairs_come_back_from_their_records() {
        for n in 1..=14 {
            for (pair, record) in usable(n) {
                assert_eq!(encode(n, record), Ok(pair), "n = {n}");
            }
        }
    }

    /// Counted by hand from the table: eight codes take n sections, five take
    /// channel 0, and K2 has n + 1 bridges under two line states.
    #[test]
    fn as_many_usable_pairs_as_the_table_has_room_for() {
        for n in 1..=14u8 {
            let size = usize::from(n);
            assert_eq!(usable(n).count(), (8 * size + 5) * (2 * size + 2));
        }
    }

    #[test]
    fn encode_refuses_what_no_usable_pair_decodes_to() {
        for n in [2, 14] {
            let known: HashSet<Record> = usable(n).map(|(_, record)| record).collect();
            for triple in 0..18u16.pow(3) {
                let field = |place: u32| (triple / 18u16.pow(place) % 18) as u8;
                for remote in [false, true] {
                    let tried = record(field(2), field(1), field(0), remote);
                    // Never an alarm, which is no record (02, c).
                    let decoded = encode(n, tried).map(|[k1, k2]| read(n, k1, k2));
                    let record = known.get(&tried).copied();
                    let expected = record.map(Received::Usable).ok_or(Refusal::Record);
                    assert_eq!(decoded, expected, "{tried:?}");
                }
            }
        }
    }

    #[test]
    fn every_byte_may_stand_in_a_record() {
        for byte in 16..=255 {
            for wrong in [
                record(byte, 0, 0, false),
                record(0b1011, byte, 0, false),
                record(0b1011, 0, byte, true),
            ] {
                assert_eq!(encode(14, wrong), Err(Refusal::Record));
            }
        }
    }

    #[test]
    fn the_number_of_sections_is_judged_first() {
        let wrong = record(255, 255, 255, true);
        for n in std::iter::once(0).chain(15..=255) {
            assert_eq!(decode(n, 0x00, 0x08), Err(Refusal::Sections));
            assert_eq!(decode(n, 0xFF, 0xF1), Err(Refusal::Sections));
            assert_eq!(decode(n, 0x00, 0x0F), Err(Refusal::Sections));
            assert_eq!(encode(n, wrong), Err(Refusal::Sections));
        }
        assert_eq!(Refusal::Sections.number(), 1);
        assert_eq!(Refusal::Record.number(), 10);
    }
}
