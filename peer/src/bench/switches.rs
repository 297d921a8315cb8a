//! The list of the switches and the lookup in it, over captures as long as can be: with
//! a few events, as lines mostly are; with a change a step, where there is the most to
//! write; and with a change in about half of the steps, drawn, so that nobody knows
//! beforehand where.

use super::{Row, Unit, Work};
use crate::books::pairs::IDLE;
use crate::door::{Door, Peer, CHANGE, CHANGES};
use crate::draws::Bits;
use std::hint::black_box;
use std::io;
use std::slice::from_ref;

const STEPS: usize = 16_384;
const SEED: u64 = 24;

/// A section fails, comes back, waits and is done with; then the line is locked.
const EVENTS: [(usize, u8); 4] = [(3_000, 0xC1), (7_000, 0x61), (9_000, 0x00), (14_000, 0xF0)];

/// So many drawn captures are listed in turn: of up to four a processor was seen to
/// learn every change by heart.
const DRAWN: usize = 16;

pub fn rows(library: &impl Door) -> io::Result<Vec<Row>> {
    let (few, each, drawn) = (at_events(), in_turn(), by_draw());
    Ok(vec![
        list_row(library, "four changes", from_ref(&few))?,
        list_row(library, "a change a step", from_ref(&each))?,
        list_row(library, "drawn changes", &drawn)?,
        lookup_row(library, "four changes", &few)?,
        lookup_row(library, "a change a step", &each)?,
    ])
}

fn at_events() -> Vec<u8> {
    let mut sent = vec![0x00; STEPS];
    for (step, k1) in EVENTS {
        sent[step..].fill(k1);
    }
    capture_of(sent)
}

fn in_turn() -> Vec<u8> {
    capture_of([0xC1, 0x61].into_iter().cycle().take(STEPS))
}

fn by_draw() -> Vec<Vec<u8>> {
    let mut bits = Bits::from_seeds(SEED, 0);
    let mut draw = |_| capture_of((0..STEPS).map(|_| bits.pick(&[0xC1, 0x61])));
    (0..DRAWN).map(&mut draw).collect()
}

fn capture_of(sent: impl IntoIterator<Item = u8>) -> Vec<u8> {
    let [k1, k2] = IDLE;
    let rows = sent.into_iter().flat_map(|sent| [k1, k2, sent, 0x08]);
    rows.collect()
}

/// Each side has a table of its own, which is lent again and again.
fn list_row(library: &impl Door, name: &str, captures: &[Vec<u8>]) -> io::Result<Row> {
    let [mut first, mut second] = [(); 2].map(|()| vec![0; STEPS]);
    let name = format!("switches, {STEPS} steps, {name}");
    Work(name, Unit::Step, captures.len() * STEPS).measure(
        || list_all(library, captures, &mut first),
        || list_all(&Peer, captures, &mut second),
    )
}

/// How many are not refused, and a sum of what is answered for all of them.
fn list_all(door: &impl Door, captures: &[Vec<u8>], table: &mut [u16]) -> (usize, u64) {
    let (mut taken, mut sum) = (0, 0);
    for capture in captures {
        let (refusal, changes, last) = list(door, capture, table);
        taken += usize::from(refusal == 0);
        sum += u64::from(u16::from_be_bytes(changes)) * u64::from(last);
    }
    (taken, sum)
}

/// The refusal, the number of changes, and the last of them.
fn list(door: &impl Door, capture: &[u8], table: &mut [u16]) -> (u8, [u8; CHANGES], u16) {
    let mut out = [0; CHANGES];
    let refusal = door.switches(black_box(capture), 0, 0, table, &mut out);
    let changes = usize::from(u16::from_be_bytes(out));
    let listed = black_box(table).get(..changes).unwrap_or_default();
    (refusal, out, listed.last().copied().unwrap_or_default())
}

/// Of the last step, in the list that this side made.
fn lookup_row(library: &impl Door, name: &str, capture: &[u8]) -> io::Result<Row> {
    let list = list_of(capture);
    let name = format!("last change, {STEPS} steps, {name}");
    Work(name, Unit::Step, STEPS).measure(
        || look_up(library, capture, &list),
        || look_up(&Peer, capture, &list),
    )
}

fn list_of(capture: &[u8]) -> Vec<u16> {
    let mut table = vec![0; STEPS];
    let (_, changes, _) = list(&Peer, capture, &mut table);
    table.truncate(u16::from_be_bytes(changes).into());
    table
}

fn look_up(door: &impl Door, capture: &[u8], list: &[u16]) -> (u8, [u8; CHANGE]) {
    let mut out = [0; CHANGE];
    let step = STEPS as u16 - 1;
    let refusal = door.last_change(black_box(capture), black_box(list), step, &mut out);
    (refusal, out)
}

#[cfg(test)]
pub fn check(door: &impl Door) {
    check_each(door, &[at_events()], EVENTS.len()..=EVENTS.len());
    check_each(door, &[in_turn()], STEPS..=STEPS);
    check_each(door, &by_draw(), 7_900..=8_500);
}

#[cfg(test)]
fn check_each(door: &impl Door, captures: &[Vec<u8>], changes: std::ops::RangeInclusive<usize>) {
    let mut table = vec![0; STEPS];
    let (taken, _) = list_all(door, captures, &mut table);
    assert_eq!(taken, captures.len());
    for capture in captures {
        let listed = list_of(capture);
        assert!(changes.contains(&listed.len()), "{}", listed.len());
        let count = (listed.len() as u16).to_be_bytes();
        let last = listed.last().copied().expect("a change");
        assert_eq!(list(door, capture, &mut table), (0, count, last));
        assert_eq!(table[..listed.len()], listed);
        let [high, low] = last.to_be_bytes();
        assert_eq!(look_up(door, capture, &listed), (0, [1, high, low]));
    }
}
