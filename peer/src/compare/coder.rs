//! The making of a fresh record, the decoder and the encoder, over all of their
//! inputs or as many as can be.

use super::lent::Lent;
use super::options;
use super::tally::{both, Caller, Tally};
use crate::door::{Door, DECODED, ENCODED, RECORD};
use crate::draws::Bits;
use crate::settings::Settings;

/// The sizes of a group at the bounds, on both sides of them.
const SIZES: [u8; 6] = [0, 1, 2, 13, 14, 15];
/// Every size, with fewer values of the other bytes.
pub const PARTS_BY_SIZE: usize = 256;
pub const PARTS_BY_CODE: usize = SIZES.len() * 256;

/// Kinds of the decoder: its marks, and the alarm behind them (02, c).
pub const DECODED_KINDS: [&str; 7] = [
    "usable", "mark 1", "mark 2", "mark 3", "mark 4", "mark 5", "alarm",
];
const ALARM: usize = 6;

/// Every mask for the size of the part, with a drawn wait and drawn options; and every
/// options, with masks on both sides of their bound.
pub fn fresh(library: &dyn Door, part: usize) -> Tally {
    let mut caller = Caller::new(library, 1, part);
    let n = part as u8;
    for mask in 0..=u16::MAX {
        let options = options::draw_any(&mut caller.bits, 8);
        fresh_one(&mut caller, n, options, mask);
    }
    for options in 0..=u8::MAX {
        for mask in [0, 1, 1 << (n % 16), u16::MAX] {
            fresh_one(&mut caller, n, options, mask);
        }
    }
    caller.tally
}

fn fresh_one(caller: &mut Caller, n: u8, options: u8, mask: u16) {
    let settings = Settings {
        n,
        options,
        mask,
        w: caller.bits.draw() as u16,
    };
    let memory = Lent::<RECORD>::drawn(&mut caller.bits);
    caller.call(
        &memory,
        |door, memory| door.fresh(settings, &mut memory.bytes),
        || settings.to_string(),
    );
    options::count(&mut caller.tally, 0, options);
}

/// Every pair for the size of the part.
pub fn decode(library: &dyn Door, part: usize) -> Tally {
    let mut bits = Bits::from_seeds(2, part);
    let mut tally = Tally::default();
    let n = part as u8;
    for [k1, k2] in (0..=u16::MAX).map(u16::to_be_bytes) {
        let memory = Lent::<DECODED>::drawn(&mut bits);
        let both = both(library, &memory, |door, memory| {
            door.decode(n, k1, k2, &mut memory.bytes)
        });
        tally.add(&both, || format!("n {n}, pair {k1:02X} {k2:02X}"));
        if both.peer.refusal == 0 {
            let [mark, .., alarm] = both.peer.memory.bytes;
            tally.count(if alarm == 1 { ALARM } else { mark.into() });
        }
    }
    tally
}

/// Every channel and bridged byte for the size and code of the part, with and
/// without a remote defect.
pub fn encode(library: &dyn Door, part: usize) -> Tally {
    let (n, code) = (SIZES[part / 256], (part % 256) as u8);
    let mut caller = Caller::new(library, 3, part);
    for [channel, bridged] in (0..=u16::MAX).map(u16::to_be_bytes) {
        for remote in [0, 1] {
            encode_one(&mut caller, [n, code, channel, bridged, remote]);
        }
    }
    caller.tally
}

/// Every size, with the bytes that matter and a few more; remote flags above 1
/// among them.
pub fn encode_by_size(library: &dyn Door, part: usize) -> Tally {
    let mut caller = Caller::new(library, 4, part);
    let bytes: Vec<u8> = (0..=17).chain([31, 128, 240, 255]).collect();
    let grid = bytes.len().pow(3);
    for place in 0..grid {
        let byte = |weight: u32| bytes[place / bytes.len().pow(weight) % bytes.len()];
        for remote in [0, 1, 2, 255] {
            let given = [part as u8, byte(2), byte(1), byte(0), remote];
            encode_one(&mut caller, given);
        }
    }
    caller.tally
}

fn encode_one(caller: &mut Caller, given: [u8; 5]) {
    let [n, code, channel, bridged, remote] = given;
    let memory = Lent::<ENCODED>::drawn(&mut caller.bits);
    caller.call(
        &memory,
        |door, memory| door.encode(n, code, channel, bridged, remote, &mut memory.bytes),
        || format!("n {n}, code {code}, channel {channel}, bridged {bridged}, remote {remote}"),
    );
}
