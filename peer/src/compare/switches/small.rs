//! All small cases: every short capture of a few K1 values, with every number of steps
//! listed, of entries and of room; and for the shortest every list there is.

use super::faults::changed;
use super::{wrong, Extension, Lookup};
use crate::book::STEP_BYTES;
use crate::compare::tally::{Caller, Tally};
use crate::door::Door;
use crate::draws::Bits;
use crate::rows::every_row;

/// Captures are dealt out to the parts one by one.
pub const PARTS: usize = 32;

/// The first of them is what counts as sent before the first step.
const VALUES: [u8; 3] = [0x00, 0xA1, 0xC2];
const MOST_STEPS: u32 = 6;

/// Where every list is tried: of so many values, captures of so many steps, and lists
/// of so many entries, which are steps or the one past the last.
const FEW_VALUES: usize = 2;
const FEW_STEPS: u32 = 3;
const FEW_ENTRIES: u32 = 4;

/// Numbers that no list of a small capture has to do with.
const MOST: u16 = u16::MAX;

pub fn extensions(library: &dyn Door, part: usize) -> Tally {
    let mut caller = Caller::new(library, 11, part);
    for capture in dealt(&VALUES, MOST_STEPS, part) {
        with_right_entries(&mut caller, &capture);
    }
    for capture in dealt(&VALUES[..FEW_VALUES], FEW_STEPS, part) {
        with_any_entries(&mut caller, &capture);
    }
    caller.tally
}

/// The entries are right for the steps that are said to be listed, whether or not as
/// many are counted. Behind them stands what is to be overwritten, or else, where one
/// too many is counted, what would be right if more steps were listed.
fn with_right_entries(caller: &mut Caller, capture: &[u8]) {
    let steps = capture.len() / STEP_BYTES;
    let whole = words(&changed(capture));
    for listed in (0..=steps + 1).map(|listed| listed as u16).chain([MOST]) {
        let known = capture.len().min(usize::from(listed) * STEP_BYTES);
        let right = changed(&capture[..known]).len();
        for count in (0..=whole.len() + 1)
            .map(|count| count as u16)
            .chain([MOST])
        {
            let kept = if usize::from(count) > right {
                whole.len()
            } else {
                right
            };
            for room in 0..=whole.len() + 2 {
                let table = resized(&mut caller.bits, &whole[..kept], room);
                caller.extend(&Extension {
                    capture: capture.to_vec(),
                    listed,
                    count,
                    table,
                });
            }
        }
    }
}

fn with_any_entries(caller: &mut Caller, capture: &[u8]) {
    let steps = (capture.len() / STEP_BYTES) as u16;
    for list in any_lists() {
        for listed in 0..=steps + 1 {
            for room in list.len().saturating_sub(1)..=list.len() + 2 {
                let table = resized(&mut caller.bits, &list, room);
                caller.extend(&Extension {
                    capture: capture.to_vec(),
                    listed,
                    count: list.len() as u16,
                    table,
                });
            }
        }
    }
}

pub fn lookups(library: &dyn Door, part: usize) -> Tally {
    let mut caller = Caller::new(library, 12, part);
    for capture in dealt(&VALUES, MOST_STEPS, part) {
        let right = words(&changed(&capture));
        let wrong = wrong::lists(&mut caller.bits, &right);
        let lists = [vec![right], wrong].concat();
        look_up_all(&mut caller, &capture, &lists);
    }
    for capture in dealt(&VALUES[..FEW_VALUES], FEW_STEPS, part) {
        look_up_all(&mut caller, &capture, &any_lists());
    }
    caller.tally
}

/// Every step of the capture, and some that it does not have.
fn look_up_all(caller: &mut Caller, capture: &[u8], lists: &[Vec<u16>]) {
    let steps = (capture.len() / STEP_BYTES) as u16;
    for list in lists {
        for step in (0..=steps + 1).chain([MOST]) {
            caller.look_up(&Lookup {
                capture: capture.to_vec(),
                list: list.clone(),
                step,
            });
        }
    }
}

/// The captures of a part. What is not sent is drawn.
pub fn dealt(values: &[u8], most_steps: u32, part: usize) -> Vec<Vec<u8>> {
    let mut bits = Bits::from_seeds(13, part);
    let sent = every_row(values, most_steps).into_iter();
    sent.skip(part)
        .step_by(PARTS)
        .map(|sent| capture_of(&mut bits, &sent))
        .collect()
}

pub fn capture_of(bits: &mut Bits, sent: &[u8]) -> Vec<u8> {
    let mut capture = bits.bytes(sent.len() * STEP_BYTES);
    for (row, &k1) in capture.chunks_mut(STEP_BYTES).zip(sent) {
        row[2] = k1;
    }
    capture
}

fn any_lists() -> Vec<Vec<u16>> {
    let entries: Vec<u16> = (0..=FEW_STEPS as u16).collect();
    every_row(&entries, FEW_ENTRIES)
}

pub fn words(steps: &[usize]) -> Vec<u16> {
    steps.iter().map(|&step| step as u16).collect()
}

/// Cut, or with drawn entries behind, to have so much room.
pub fn resized(bits: &mut Bits, list: &[u16], room: usize) -> Vec<u16> {
    let kept = &list[..list.len().min(room)];
    [kept, &bits.words(room - kept.len())].concat()
}

#[cfg(test)]
mod tests {
    use super::*;
    use std::collections::BTreeSet;

    #[test]
    fn every_short_capture_is_dealt_out_once() {
        let sent = |capture: Vec<u8>| -> Vec<u8> {
            let rows = capture.chunks(STEP_BYTES);
            rows.map(|row| row[2]).collect()
        };
        let all: Vec<Vec<u8>> = (0..PARTS)
            .flat_map(|part| dealt(&VALUES, MOST_STEPS, part))
            .map(sent)
            .collect();
        let distinct: BTreeSet<&Vec<u8>> = all.iter().collect();
        let expected: usize = (0..=6).map(|steps| 3usize.pow(steps)).sum();
        assert_eq!((all.len(), distinct.len()), (expected, expected));
    }

    #[test]
    fn every_short_list_is_tried() {
        let lists: BTreeSet<Vec<u16>> = any_lists().into_iter().collect();
        assert_eq!(lists.len(), 1 + 4 + 16 + 64 + 256);
        assert!(lists.contains(&vec![3, 0, 2, 2]));
    }

    #[test]
    fn tables_are_cut_or_filled() {
        let mut bits = Bits::from_seeds(1, 1);
        assert_eq!(resized(&mut bits, &[1, 2, 3], 2), [1, 2]);
        let longer = resized(&mut bits, &[1, 2, 3], 5);
        assert_eq!((longer.len(), &longer[..3]), (5, &[1, 2, 3][..]));
    }
}
