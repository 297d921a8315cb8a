//! Books for the reader and orders for the writer, drawn and damaged.

use super::options;
use crate::book::{contents_bytes, ENTRY_BYTES, MOST_BYTES, MOST_ENTRIES, STEP_BYTES};
#[cfg(test)]
use crate::book::{Entry, Refusal};
use crate::door::{Door, Peer, CONTENTS, SIZE};
use crate::draws::Bits;

pub type Contents = [u8; CONTENTS];

/// Where the fields, but for W, stand in an entry.
const N: usize = 0;
const SPARE: usize = 1;
const MASK: std::ops::Range<usize> = 2..4;
const OFFSET: std::ops::Range<usize> = 6..10;
const STEPS: std::ops::Range<usize> = 10..12;

/// What the writer is handed.
pub struct Order {
    pub contents: Contents,
    pub bodies: Vec<u8>,
    pub room: usize,
    pub damaged: bool,
}

/// A book, and whether something was done to it. What was done may come to
/// nothing.
pub fn draw(bits: &mut Bits) -> (Vec<u8>, bool) {
    let Order {
        contents, bodies, ..
    } = draw_sound(bits);
    let mut book = vec![0; contents_bytes(contents[0].into()) + bodies.len()];
    Peer.write(&contents, &bodies, &mut book, &mut [0; SIZE]);
    let damaged = damage_often(bits, &mut book);
    (book, damaged)
}

/// Answers whether something was done.
pub fn damage_often(bits: &mut Bits, book: &mut Vec<u8>) -> bool {
    let damaged = bits.below(8) < 5;
    if damaged {
        for _ in 0..=bits.below(3) {
            damage(bits, book);
        }
    }
    damaged
}

fn damage(bits: &mut Bits, book: &mut Vec<u8>) {
    let contents = contents_bytes(book.get(1).copied().unwrap_or_default().into());
    let length = book.len();
    match bits.below(40) {
        0..5 => set(bits, book, 0..2),
        5..13 => set(bits, book, 2..contents),
        13..19 => set_field(bits, book),
        19..22 => book.truncate(bits.place(length + 1)),
        22..25 => book.truncate(bits.place(contents.min(length) + 1)),
        25 => book.truncate(bits.place(3)),
        26..30 => book.extend((0..=bits.below(13)).map(|number| number as u8)),
        30 => book.resize(MOST_BYTES - 3 + bits.place(8), 0),
        31 => set(bits, book, 0..length),
        _ => spoil_an_entry(bits, book),
    }
}

/// Any value, or one next to the old one.
fn set(bits: &mut Bits, book: &mut [u8], among: std::ops::Range<usize>) {
    let among = among.start.min(book.len())..among.end.min(book.len());
    let [_, ..] = book[among.clone()] else {
        return;
    };
    let byte = &mut book[among.start + bits.place(among.len())];
    let any = bits.byte();
    *byte = bits.pick(&[any, byte.wrapping_add(1), byte.wrapping_sub(1)]);
}

/// The last byte of an offset or of the steps, or a spare byte.
fn set_field(bits: &mut Bits, book: &mut [u8]) {
    let entry = draw_entry(bits, book);
    let byte = entry + bits.pick(&[SPARE, OFFSET.end - 1, STEPS.end - 1]);
    set(bits, book, byte..byte + 1);
}

/// Where one of the entries starts that the book says it has.
fn draw_entry(bits: &mut Bits, book: &[u8]) -> usize {
    let count = usize::from(book.get(1).copied().unwrap_or_default());
    contents_bytes(bits.place(count.max(1)))
}

/// The settings of an entry, if the book is long enough for it.
fn spoil_an_entry(bits: &mut Bits, book: &mut [u8]) {
    let start = draw_entry(bits, book);
    if let Some(entry) = book.get_mut(start..start + ENTRY_BYTES) {
        spoil_settings(bits, entry);
    }
}

/// n, the spare byte or the mask, mostly so that it does not fit any more (02, f and g).
fn spoil_settings(bits: &mut Bits, entry: &mut [u8]) {
    let any = bits.byte();
    match bits.below(6) {
        0..2 => entry[N] = bits.pick(&[0, 15, 16, 255, any]),
        2..4 => entry[SPARE] = options::draw_any(bits, 2),
        _ => {
            // At n, or anywhere.
            let bit = bits.pick(&[entry[N] % 16, any % 16]);
            let [high, low] = (1u16 << bit).to_be_bytes();
            entry[MASK.start] |= high;
            entry[MASK.start + 1] |= low;
        }
    }
}

pub fn draw_order(bits: &mut Bits) -> Order {
    let mut order = draw_sound(bits);
    let damaged = bits.once_in(2);
    if damaged {
        for _ in 0..=bits.below(3) {
            damage_order(bits, &mut order);
        }
    }
    Order { damaged, ..order }
}

fn damage_order(bits: &mut Bits, order: &mut Order) {
    let length = order.bodies.len();
    match bits.below(26) {
        0..3 => order.contents[0] = bits.byte(),
        3 => order.contents[0] = bits.pick(&[63, 64, 65]),
        4 => order.bodies.truncate(bits.place(length + 1)),
        5 => order.bodies.extend([7; 4]),
        6 => set_steps(
            &mut order.contents,
            bits.place(MOST_ENTRIES),
            bits.draw() as u16,
        ),
        7..9 => outgrow(bits, order),
        9..12 => order.room = bits.place(order.room + 1),
        12..15 => order.room = order.room.saturating_sub(1),
        15 => order.room = 0,
        _ => spoil_a_place(bits, &mut order.contents),
    }
}

/// One that counts, or any: those past the count the writer does not look at.
fn spoil_a_place(bits: &mut Bits, contents: &mut Contents) {
    let counted = MOST_ENTRIES.min(contents[0].into()).max(1);
    let among = bits.pick(&[counted, counted, MOST_ENTRIES]);
    let place = bits.place(among);
    spoil_settings(bits, place_mut(contents, place));
}

/// Steps and bodies that agree with each other and make a book about as long as
/// the bound, or longer.
fn outgrow(bits: &mut Bits, order: &mut Order) {
    let count = 1 + bits.place(4);
    order.contents[0] = count as u8;
    let fitting = (MOST_BYTES - contents_bytes(count)) / STEP_BYTES;
    let total = fitting + bits.pick(&[0, 1, 2, 100, 9_000]);
    for place in 0..count {
        let steps = total / count + usize::from(place < total % count);
        set_steps(&mut order.contents, place, steps as u16);
        settle(bits, &mut order.contents, place);
    }
    order.bodies = bits.bytes(total * STEP_BYTES);
    order.room = bits.pick(&[0, MOST_BYTES, contents_bytes(count) + order.bodies.len()]);
}

/// Contents that agree with the bodies, and room for the book. All that the writer
/// does not look at is drawn as well; half of the time the settings past the count
/// are such that fit, so that with a greater count they are not what is refused.
fn draw_sound(bits: &mut Bits) -> Order {
    let mut contents: Contents = bits.array();
    let count = match bits.below(8) {
        0 => MOST_ENTRIES,
        1 => bits.place(MOST_ENTRIES + 1),
        _ => bits.place(6),
    };
    contents[0] = count as u8;
    let settled = bits.pick(&[count, MOST_ENTRIES]);
    for place in 0..settled {
        settle(bits, &mut contents, place);
    }
    let most = if bits.once_in(40) { 200 } else { 6 };
    let mut total = 0;
    for place in 0..count {
        let steps = bits.place(most);
        set_steps(&mut contents, place, steps as u16);
        total += steps;
    }
    let bodies = bits.bytes(total * STEP_BYTES);
    let room = contents_bytes(count) + bodies.len() + bits.pick(&[0, 0, 1, 50]);
    Order {
        contents,
        bodies,
        room,
        damaged: false,
    }
}

fn place_mut(contents: &mut Contents, place: usize) -> &mut [u8] {
    let start = 1 + ENTRY_BYTES * place;
    &mut contents[start..start + ENTRY_BYTES]
}

fn set_steps(contents: &mut Contents, place: usize, steps: u16) {
    place_mut(contents, place)[STEPS].copy_from_slice(&steps.to_be_bytes());
}

/// Gives a place settings that fit.
fn settle(bits: &mut Bits, contents: &mut Contents, place: usize) {
    let n = 1 + bits.byte_below(14);
    let mask = bits.draw() as u16 & ((1 << n) - 1);
    let entry = place_mut(contents, place);
    entry[N] = n;
    entry[SPARE] = options::draw(bits);
    entry[MASK].copy_from_slice(&mask.to_be_bytes());
}

/// Whether both have the same count and, up to it, the same settings and steps.
pub fn same_fields(first: &Contents, second: &Contents) -> bool {
    let fields = |contents: &Contents| {
        let count = usize::from(contents[0]);
        let mut seen = contents[..contents.len().min(1 + ENTRY_BYTES * count)].to_vec();
        for row in seen[1..].chunks_mut(ENTRY_BYTES) {
            row[OFFSET].fill(0);
        }
        seen
    };
    fields(first) == fields(second)
}

/// Makes all settings fit. Answers the refusal of the first that did not.
#[cfg(test)]
pub fn mend(entries: &mut [u8]) -> Option<u8> {
    let mut first = None;
    let (entries, _) = entries.as_chunks_mut();
    for entry in entries {
        if let Err(unfit) = Entry::from_bytes(*entry).settings().check() {
            first = first.or(Some(Refusal::from(unfit).number()));
            entry[N] = 1;
            entry[SPARE] = 0;
            entry[MASK].fill(0);
        }
    }
    first
}

#[cfg(test)]
mod tests {
    use super::*;
    use crate::book;
    use std::collections::BTreeSet;

    #[test]
    fn every_refusal_of_the_reader_is_drawn() {
        let mut bits = Bits::from_seeds(1, 1);
        let mut refusals = BTreeSet::new();
        let mut sound = 0;
        for _ in 0..4_000 {
            let (book, damaged) = draw(&mut bits);
            let read = book::read(&book);
            assert!(damaged || read.is_ok());
            sound += usize::from(!damaged);
            refusals.extend(read.err().map(book::Refusal::number));
        }
        assert!(refusals.into_iter().eq((20..=28).chain([31, 32])));
        assert!((1_300..1_700).contains(&sound), "{sound}");
    }

    #[test]
    fn every_refusal_of_the_writer_is_drawn() {
        let mut bits = Bits::from_seeds(1, 2);
        let mut refusals = BTreeSet::new();
        let mut sound = 0;
        for _ in 0..2_000 {
            let order = draw_order(&mut bits);
            let mut out = vec![0; order.room];
            let refusal = Peer.write(&order.contents, &order.bodies, &mut out, &mut [0; SIZE]);
            assert!(order.damaged || refusal == 0);
            sound += usize::from(!order.damaged);
            refusals.insert(refusal);
        }
        assert!(refusals.into_iter().eq([0, 20, 23, 25, 29, 30, 31, 32]));
        assert!((900..1_100).contains(&sound), "{sound}");
    }

    /// The refusals of books with unfit settings, before those are mended and after.
    #[test]
    fn books_have_unfit_settings_alone_and_with_every_other_fault() {
        let mut bits = Bits::from_seeds(1, 4);
        let mut refusals = BTreeSet::new();
        for _ in 0..40_000 {
            let (mut book, _) = draw(&mut bits);
            let before = refusal_of(&book);
            let count = book.get(1).copied().unwrap_or_default().into();
            let contents = contents_bytes(count).min(book.len());
            if contents > 2 && mend(&mut book[2..contents]).is_some() {
                refusals.insert((before, refusal_of(&book)));
            }
        }
        let others = [20, 22, 23, 24, 26, 27].map(|refusal| (refusal, refusal));
        let settings = [25, 31, 32].map(|refusal| [0, 26, 27, 28].map(|other| (refusal, other)));
        let expected = others.iter().chain(settings.as_flattened()).copied();
        let expected: BTreeSet<(u8, u8)> = expected.collect();
        assert_eq!(refusals, expected);
    }

    fn refusal_of(book: &[u8]) -> u8 {
        Peer.read(book, &mut [0; CONTENTS])
    }

    #[test]
    fn orders_have_unfit_settings_alone_and_with_every_other_fault() {
        let mut bits = Bits::from_seeds(1, 5);
        let mut refusals = BTreeSet::new();
        for _ in 0..40_000 {
            let mut order = draw_order(&mut bits);
            let before = refusal_of_order(&order);
            let counted = CONTENTS.min(1 + ENTRY_BYTES * usize::from(order.contents[0]));
            if mend(&mut order.contents[1..counted]).is_some() {
                refusals.insert((before, refusal_of_order(&order)));
            }
        }
        let second = [25, 31, 32].map(|refusal| [0, 20, 29, 30].map(|other| (refusal, other)));
        let expected = [(23, 23)].iter().chain(second.as_flattened());
        assert!(refusals.iter().eq(expected), "{refusals:?}");
    }

    fn refusal_of_order(order: &Order) -> u8 {
        let mut out = vec![0; order.room];
        Peer.write(&order.contents, &order.bodies, &mut out, &mut [0; SIZE])
    }

    /// What the writer does not look at would often be refused, and often not.
    #[test]
    fn places_past_the_count_have_settings_of_both_sorts() {
        let mut bits = Bits::from_seeds(1, 6);
        let mut unfit = 0;
        for _ in 0..1_000 {
            let mut contents = draw_sound(&mut bits).contents;
            let counted = 1 + ENTRY_BYTES * usize::from(contents[0]);
            assert_eq!(mend(&mut contents[1..counted]), None);
            unfit += usize::from(mend(&mut contents[counted..]).is_some());
        }
        assert!((350..550).contains(&unfit), "{unfit}");
    }

    #[test]
    fn fields_are_compared_up_to_the_count() {
        let mut bits = Bits::from_seeds(1, 3);
        let mut first: Contents = bits.array();
        first[0] = 2;
        for (byte, same) in [
            (0, false),
            (1, false),
            (2, false),
            (3, false),
            (6, false),
            (7, true),
            (10, true),
            (11, false),
            (12, false),
            (24, false),
            (25, true),
            (768, true),
        ] {
            let mut second = first;
            second[byte] ^= 1;
            assert_eq!(same_fields(&first, &second), same, "{byte}");
        }
    }
}
