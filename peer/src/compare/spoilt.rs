//! What a step may be handed: mostly what it takes, with something spoilt in half
//! of all cases, so that every refusal of a step comes up.

use super::handed::{Handed, MOST_CONDITIONS};
use super::options;
use crate::books::pairs::alarmed;
use crate::controller::Record;
use crate::door::{record_bytes, RECORD};
use crate::draws::Bits;
use crate::pair::Request;
use crate::settings::HOLD;

pub type Drawn = ([u8; RECORD], [u8; MOST_CONDITIONS], Handed);

/// Where the options and the held command stand in a record.
pub const OPTIONS: usize = 1;
pub const HELD: usize = RECORD - 1;

const WAITS: [u16; 8] = [0, 1, 2, 3, 4, 255, 256, 65_535];

/// Once in a while nothing but bytes.
pub fn draw(bits: &mut Bits) -> Drawn {
    if bits.once_in(32) {
        let handed = Handed {
            received: bits.array(),
            count: bits.place(MOST_CONDITIONS + 1),
            command: bits.byte(),
            channel: bits.byte(),
        };
        return (bits.array(), bits.array(), handed);
    }
    let n = 1 + bits.byte_below(14);
    let mut drawn = draw_sound(bits, n);
    // As many as the zeros that the draw ends in: none in half of the cases.
    for _ in 0..bits.draw().trailing_zeros().min(6) {
        spoil(bits, &mut drawn);
    }
    drawn
}

fn spoil(bits: &mut Bits, (record, conditions, handed): &mut Drawn) {
    match bits.below(8) {
        // A byte of the record is spoilt as often as all the rest, and what hold is about
        // as often as all its other bytes.
        0..2 => record[bits.place(RECORD)] = bits.byte(),
        2 => record[OPTIONS] = options::draw_any(bits, 2),
        3 => record[HELD] = draw_held(bits, 14),
        4 => handed.count = bits.place(MOST_CONDITIONS + 1),
        5 => conditions[bits.place(MOST_CONDITIONS)] = bits.byte(),
        6 => handed.command = bits.byte_below(8),
        _ => handed.channel = bits.byte_below(18),
    }
}

/// With hold or without.
pub fn draw_sound(bits: &mut Bits, n: u8) -> Drawn {
    let mask = bits.draw() as u16 & ((1 << n) - 1);
    let record = draw_record(bits, n, mask);
    let received = draw_received(bits, n, mask);
    let command = bits.pick(&[0, 0, 1, 2, 3, 4]);
    let channel = if command > 2 {
        1 + bits.byte_below(n)
    } else {
        0
    };
    let handed = Handed {
        received,
        count: usize::from(n) + 1,
        command,
        channel,
    };
    (record_bytes(&record), draw_conditions(bits), handed)
}

/// Mostly usable, and in one of eight an alarm, which the rest of the pair does not
/// bear on (02, c).
fn draw_received(bits: &mut Bits, n: u8, mask: u16) -> [u8; 2] {
    let received = if bits.once_in(4) {
        bits.array()
    } else {
        draw_pair(bits, n, bits_of_priorities(mask))
    };
    if bits.once_in(8) {
        alarmed(received)
    } else {
        received
    }
}

/// Mostly good, so that commands and waits are not always outranked.
fn draw_conditions(bits: &mut Bits) -> [u8; MOST_CONDITIONS] {
    let often_bad = bits.once_in(4);
    [(); MOST_CONDITIONS].map(|()| {
        if often_bad || bits.once_in(16) {
            bits.byte_below(3)
        } else {
            0
        }
    })
}

/// A record that is acceptable, but for a WTR where there is no wait.
fn draw_record(bits: &mut Bits, n: u8, mask: u16) -> Record {
    let w = bits.pick(&WAITS);
    let priorities = bits_of_priorities(mask);
    let [sent, _] = draw_pair(bits, n, priorities);
    let waits = sent >> 4 == Request::WaitToRestore.code() && w > 0;
    let options = options::draw(bits);
    Record {
        n,
        options,
        mask,
        w,
        accepted: draw_pair(bits, n, priorities),
        sent,
        left: if waits {
            1 + bits.below(w.into()) as u16
        } else {
            0
        },
        held: match options {
            HOLD => draw_held(bits, n),
            _ => 0x00,
        },
    }
}

/// What a group of so many sections can hold with hold: nothing, or a command of any rank.
fn draw_held(bits: &mut Bits, n: u8) -> u8 {
    let section = 1 + bits.byte_below(n);
    bits.pick(&[0x00, 0xF0, 0xE0 | section, 0x80 | section])
}

/// Bit c for section c.
fn bits_of_priorities(mask: u16) -> u16 {
    mask << 1 | 1
}

/// A usable pair, with its fails and degrades coded by the priorities.
fn draw_pair(bits: &mut Bits, n: u8, priorities: u16) -> [u8; 2] {
    let drawn = bits.pick(&Request::ALL);
    let channels = drawn.channels(n);
    let channel = channels.start() + bits.byte_below(channels.end() - channels.start() + 1);
    let high = priorities >> channel & 1 == 1;
    let code = match (drawn, high) {
        (Request::SignalFailHigh | Request::SignalFailLow, true) => 0b1101,
        (Request::SignalFailHigh | Request::SignalFailLow, false) => 0b1100,
        (Request::SignalDegradeHigh | Request::SignalDegradeLow, true) => 0b1011,
        (Request::SignalDegradeHigh | Request::SignalDegradeLow, false) => 0b1010,
        _ => drawn.code(),
    };
    let line = bits.pick(&[0b1000, 0b1000, 0b1110]);
    [code << 4 | channel, bits.byte_below(n + 1) << 4 | line]
}
