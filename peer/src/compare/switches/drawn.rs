//! Drawn captures and arguments: mostly right, with a fault in one of them, or several,
//! often enough for every pair of refusals to come up at once.

use super::faults::changed;
use super::small::{resized, words};
use super::{wrong, Extension, Lookup};
use crate::book::{MOST_BYTES, STEP_BYTES};
use crate::compare::tally::{Caller, Tally};
use crate::door::Door;
use crate::draws::Bits;

pub const PARTS: usize = 100;
const SHORT: usize = 800;
/// Of each part, captures as long as can be, or longer.
const LONG: usize = 12;
/// One more than the steps of a short capture can be.
const SHORT_BELOW: usize = 41;
const LONGEST: usize = MOST_BYTES / STEP_BYTES;
/// One of so many captures has its list spoilt in all ways.
const SPOILT: u32 = 20;

pub fn extensions(library: &dyn Door, part: usize) -> Tally {
    let extend = |caller: &mut Caller, capture: &[u8]| {
        let given = draw_extension(&mut caller.bits, capture.to_vec());
        caller.extend(&given);
    };
    over_captures(Caller::new(library, 15, part), extend, extend_spoilt)
}

pub fn lookups(library: &dyn Door, part: usize) -> Tally {
    let look_up = |caller: &mut Caller, capture: &[u8]| {
        let given = draw_lookup(&mut caller.bits, capture.to_vec());
        caller.look_up(&given);
    };
    over_captures(Caller::new(library, 16, part), look_up, look_up_spoilt)
}

type Calls = fn(&mut Caller, &[u8]);

/// Each is put to a call, and some of them to calls with spoilt lists besides.
fn over_captures(mut caller: Caller, call: Calls, call_spoilt: Calls) -> Tally {
    for number in 0..SHORT + LONG {
        let capture = draw_any(&mut caller.bits, number);
        call(&mut caller, &capture);
        if number < SHORT && caller.bits.once_in(SPOILT) {
            call_spoilt(&mut caller, &capture);
        }
    }
    caller.tally
}

/// The last of a part are long.
fn draw_any(bits: &mut Bits, number: usize) -> Vec<u8> {
    if number < SHORT {
        let steps = bits.place(SHORT_BELOW);
        let mut capture = draw_capture(bits, steps);
        if bits.once_in(16) {
            capture.resize(capture.len() + 1 + bits.place(3), 0);
        }
        return capture;
    }
    let mut capture = draw_capture(bits, LONGEST);
    // The last is as if there were nothing, to 16 bits.
    let more = bits.pick(&[0, 0, 0, 0, 0, 0, 1, 2, 3, 4, 4, 40, MOST_BYTES]);
    capture.resize(capture.len() + more, 0xA1);
    capture
}

/// The K1 that is sent changes never, seldom, in half of the steps, or in each. All else
/// of a step is drawn.
pub fn draw_capture(bits: &mut Bits, steps: usize) -> Vec<u8> {
    let mut capture = bits.bytes(steps * STEP_BYTES);
    let in_sixteenths = bits.pick(&[0, 1, 8, 8, 16]);
    let mut sent = 0x00;
    for row in capture.chunks_mut(STEP_BYTES) {
        if bits.below(16) < in_sixteenths {
            // By one bit, or by any that are not none.
            let [any, one] = [1 + bits.byte_below(255), 1 << bits.below(8)];
            sent ^= bits.pick(&[any, one]);
        }
        row[2] = sent;
    }
    capture
}

fn draw_extension(bits: &mut Bits, capture: Vec<u8>) -> Extension {
    let steps = capture.len() / STEP_BYTES;
    let anywhere = bits.place(steps + 1);
    let split = bits.pick(&[0, anywhere, anywhere, steps]);
    let whole = words(&changed(&capture));
    let known = changed(&capture[..split * STEP_BYTES]).len();
    let listed = match bits.below(12) {
        0 => split.saturating_sub(1),
        1 => split + 1,
        2 => steps + 1,
        3 => bits.pick(&[usize::from(u16::MAX), LONGEST + 1]),
        _ => split,
    };
    let room = draw_room(bits, known, whole.len());
    let count = match bits.below(12) {
        0 => known.saturating_sub(1),
        1 => known + 1,
        2 => room + 1,
        3 => u16::MAX.into(),
        _ => known,
    };
    let kept = bits.pick(&[known, known, whole.len()]);
    let mut table = resized(bits, &whole[..kept], room);
    if bits.once_in(12) {
        spoil(bits, &mut table[..known.min(room)]);
    }
    Extension {
        capture,
        listed: listed as u16,
        count: count.min(u16::MAX.into()) as u16,
        table,
    }
}

/// Just enough, too little, nothing, or much more, up to what 16 bits do not hold.
fn draw_room(bits: &mut Bits, known: usize, changes: usize) -> usize {
    match bits.below(16) {
        0 => changes.saturating_sub(1),
        1 => known.saturating_sub(1),
        2 => known,
        3 => 0,
        4..7 => changes + 1 + bits.place(50),
        7 if bits.once_in(8) => 65_536 + bits.place(changes + 1),
        _ => changes,
    }
}

fn spoil(bits: &mut Bits, list: &mut [u16]) {
    if list.is_empty() {
        return;
    }
    let entry = &mut list[bits.place(list.len())];
    let any = bits.draw() as u16;
    *entry = bits.pick(&[any, entry.wrapping_add(1), entry.wrapping_sub(1)]);
}

fn draw_lookup(bits: &mut Bits, capture: Vec<u8>) -> Lookup {
    let steps = capture.len() / STEP_BYTES;
    let mut list = words(&changed(&capture));
    match bits.below(16) {
        0 => spoil(bits, &mut list),
        1 => {
            list.pop();
        }
        2 => list.push(steps as u16),
        _ => {}
    }
    let step = match bits.below(12) {
        0 => steps,
        1 => steps + 1,
        2 => u16::MAX.into(),
        3 => steps.saturating_sub(1),
        4 => 0,
        // A change, or the step before it.
        5..8 if !list.is_empty() => {
            let change = usize::from(bits.pick(&list));
            change.saturating_sub(bits.place(2))
        }
        _ => bits.place(steps.max(1)),
    };
    Lookup {
        capture,
        list,
        step: step as u16,
    }
}

/// The list of the steps up to anywhere, wrong in each way, and counted as it is.
fn extend_spoilt(caller: &mut Caller, capture: &[u8]) {
    let split = caller.bits.place(capture.len() / STEP_BYTES + 1);
    let right = words(&changed(&capture[..split * STEP_BYTES]));
    for list in wrong::lists(&mut caller.bits, &right) {
        let room = list.len() + caller.bits.place(SHORT_BELOW);
        let table = resized(&mut caller.bits, &list, room);
        caller.extend(&Extension {
            capture: capture.to_vec(),
            listed: split as u16,
            // One that is longer by 65,536 is counted as if it were not.
            count: list.len() as u16,
            table,
        });
    }
}

fn look_up_spoilt(caller: &mut Caller, capture: &[u8]) {
    let right = words(&changed(capture));
    for list in wrong::lists(&mut caller.bits, &right) {
        let steps = capture.len() / STEP_BYTES;
        let step = caller.bits.place(steps.max(1)) as u16;
        caller.look_up(&Lookup {
            capture: capture.to_vec(),
            list,
            step,
        });
    }
}

#[cfg(test)]
mod tests {
    use super::*;

    /// By the share of the steps at which they change.
    #[test]
    fn captures_change_never_seldom_often_and_always() {
        let mut bits = Bits::from_seeds(1, 1);
        let mut shares = [0; 4];
        for _ in 0..200 {
            let share = changed(&draw_capture(&mut bits, 1_000)).len();
            let sort = match share {
                0 => 0,
                20..120 => 1,
                400..600 => 2,
                1_000 => 3,
                _ => panic!("{share} changes"),
            };
            shares[sort] += 1;
        }
        assert!(shares.iter().all(|&times| times >= 20), "{shares:?}");
    }

    #[test]
    fn rooms_are_of_every_sort() {
        let mut bits = Bits::from_seeds(1, 2);
        let rooms: Vec<usize> = (0..2_000).map(|_| draw_room(&mut bits, 5, 9)).collect();
        for room in [0, 4, 5, 8, 9, 10, 59] {
            assert!(rooms.contains(&room), "{room}");
        }
        assert!(rooms.iter().any(|room| (65_536..65_546).contains(room)));
    }
}
