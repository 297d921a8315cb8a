//! Lists that grow as their capture does: of every short capture, and of drawn ones,
//! from every step on and step by step. What the library made is what it is handed
//! again, and the end of it has to be the list made afresh.

use super::drawn::draw_capture;
use super::small::{self, resized};
use super::Extension;
use crate::book::STEP_BYTES;
use crate::compare::tally::{Caller, Tally};
use crate::door::Door;

pub const PARTS: usize = small::PARTS;

const VALUES: [u8; 3] = [0x00, 0xC1, 0xE1];
const MOST_STEPS: u32 = 6;
const DRAWN: usize = 12;
/// One more than the steps of a drawn capture can be.
const DRAWN_BELOW: usize = 41;

/// A list as the library left it, of the first steps of a capture.
struct Grown {
    listed: usize,
    list: Vec<u16>,
}

pub fn in_turn(library: &dyn Door, part: usize) -> Tally {
    let mut caller = Caller::new(library, 14, part);
    let mut captures = small::dealt(&VALUES, MOST_STEPS, part);
    captures.extend((0..DRAWN).map(|_| {
        let steps = caller.bits.place(DRAWN_BELOW);
        draw_capture(&mut caller.bits, steps)
    }));
    for capture in &captures {
        grow(&mut caller, capture);
    }
    caller.tally
}

/// At once, in two goes whose border is anywhere, and by one step at a time.
fn grow(caller: &mut Caller, capture: &[u8]) {
    let steps = capture.len() / STEP_BYTES;
    let afresh = go(caller, capture, [steps]);
    for first in 0..=steps {
        let extended = go(caller, capture, [first, steps]);
        hold(caller, capture, &afresh, &extended);
    }
    let step_by_step = go(caller, capture, 0..=steps);
    hold(caller, capture, &afresh, &step_by_step);
}

fn hold(caller: &mut Caller, capture: &[u8], afresh: &[u16], extended: &[u16]) {
    if afresh != extended {
        let bytes = capture.len();
        caller.tally.differ(|| {
            format!("{bytes} bytes: the list made afresh is {afresh:?}, extended {extended:?}")
        });
    }
}

/// The list of the library after it was extended to these numbers of steps, one after
/// the other.
fn go(caller: &mut Caller, capture: &[u8], goes: impl IntoIterator<Item = usize>) -> Vec<u16> {
    let mut grown = Grown {
        listed: 0,
        list: Vec::new(),
    };
    for steps in goes {
        grown = extend(caller, &capture[..steps * STEP_BYTES], &grown);
    }
    grown.list
}

/// With room for more than there can be. What is not to be written has to stay, also by
/// what the library itself left.
fn extend(caller: &mut Caller, capture: &[u8], grown: &Grown) -> Grown {
    let steps = capture.len() / STEP_BYTES;
    let table = resized(&mut caller.bits, &grown.list, steps + 3);
    let given = Extension {
        capture: capture.to_vec(),
        listed: grown.listed as u16,
        count: grown.list.len() as u16,
        table,
    };
    let memory = caller.extend(&given).library.memory;
    let left = memory.list.entries();
    let changes = usize::from(u16::from_be_bytes(memory.out.bytes)).min(left.len());
    let count = grown.list.len();
    let stays = left[..count] == given.table[..count] && left[changes..] == given.table[changes..];
    if !stays {
        let told = || format!("{}: other entries are written too: {left:?}", given.told());
        caller.tally.differ(told);
    }
    Grown {
        listed: steps,
        list: left[..changes].to_vec(),
    }
}
