//! Libraries that read and write books otherwise than this reading, by the names of
//! what is wrong with them.

use super::*;
use crate::book::{contents_bytes, ENTRY_BYTES};
use drawn_book::mend;

/// As it was before 02, f.
pub const NO_SETTINGS: &str = "settings are not looked at";
pub const SETTINGS_FIRST: &str = "settings come before the rest of the contents";
pub const SETTINGS_LAST: &str = "settings come behind all else";
pub const CUT_TAKEN: &str = "books that are cut in their contents are taken";
/// As it was before 02, g.
pub const NO_SPARE: &str = "a spare byte is 0";
const SPARE_LOST: &str = "the spare byte is neither read nor written";

/// Where the spare byte stands in an entry.
const SPARE: usize = 1;

/// The book with settings that fit, and the refusal of the first that did not.
pub fn mended(book: &[u8]) -> (Vec<u8>, Option<u8>) {
    let mut mended = book.to_vec();
    let unfit = mend(entries_of(&mut mended));
    (mended, unfit)
}

/// As many as the book says it has, if they are there.
fn entries_of(book: &mut [u8]) -> &mut [u8] {
    let end = match book {
        [_, count, ..] => contents_bytes(usize::from(*count)),
        _ => 0,
    };
    let end = end.min(book.len());
    &mut book[end.min(2)..end]
}

/// The book with a spare byte that is refused wherever one stands for hold.
pub fn without_hold(book: &[u8]) -> Vec<u8> {
    let mut without = book.to_vec();
    let entries = entries_of(&mut without).chunks_exact_mut(ENTRY_BYTES);
    for entry in entries.filter(|entry| entry[SPARE] == 1) {
        entry[SPARE] = 2;
    }
    without
}

fn clear_spare(entries: &mut [u8]) {
    for entry in entries.chunks_exact_mut(ENTRY_BYTES) {
        entry[SPARE] = 0;
    }
}

pub fn read(wrong: &str, book: &[u8], out: &mut [u8; CONTENTS]) -> u8 {
    let (mended, unfit) = mended(book);
    let rest = Peer.read(&mended, out);
    match (wrong, unfit) {
        (NO_SETTINGS, _) => rest,
        (SETTINGS_LAST, _) if rest > 0 => rest,
        (SETTINGS_FIRST, Some(refusal)) => {
            out.fill(0);
            refusal
        }
        (CUT_TAKEN, _) if rest == 24 => {
            out[0] = book[1];
            0
        }
        (NO_SPARE, _) => Peer.read(&without_hold(book), out),
        (SPARE_LOST, _) => {
            let refusal = Peer.read(book, out);
            clear_spare(&mut out[1..]);
            refusal
        }
        _ => Peer.read(book, out),
    }
}

pub fn write(
    wrong: &str,
    contents: &[u8; CONTENTS],
    bodies: &[u8],
    out: &mut [u8],
    size: &mut [u8; SIZE],
) -> u8 {
    let mut mended = *contents;
    let counted = CONTENTS.min(1 + ENTRY_BYTES * usize::from(contents[0]));
    let unfit = mend(&mut mended[1..counted]);
    let rest = Peer.write(&mended, bodies, &mut out.to_vec(), size);
    match (wrong, unfit) {
        (NO_SETTINGS, _) => Peer.write(&mended, bodies, out, size),
        (SETTINGS_LAST, _) if rest > 0 => rest,
        (SETTINGS_FIRST, Some(refusal)) => {
            size.fill(0);
            refusal
        }
        (NO_SPARE | SPARE_LOST, _) => {
            let refusal = Peer.write(contents, bodies, out, size);
            if refusal == 0 {
                clear_spare(entries_of(out));
            }
            refusal
        }
        _ => Peer.write(contents, bodies, out, size),
    }
}

#[test]
fn a_library_with_its_own_way_with_settings_is_noticed() {
    for wrong in [
        NO_SETTINGS,
        SETTINGS_FIRST,
        SETTINGS_LAST,
        NO_SPARE,
        SPARE_LOST,
    ] {
        for name in ["read", "write"] {
            let tally = part_of(name, &Fake { wrong });
            let differences = tally.differences;
            assert!(differences >= 20, "{wrong}, {name}: {differences}");
        }
    }
}

/// Its contents have no bodies behind them, which is no reason to stop.
#[test]
fn a_library_that_takes_a_cut_book_is_noticed() {
    let tally = part_of("read", &Fake { wrong: CUT_TAKEN });
    assert!(tells(&tally, "refusal: library 0, peer 24"));
    assert!(tally.differences >= 20, "{}", tally.differences);
}

/// 25, 31 and 32 come up as often as others do, and a good part of all calls still has
/// none.
#[test]
fn settings_are_refused_often() {
    for (name, part) in [
        ("read", part_of("read", &Peer)),
        ("write", part_of("write", &Peer)),
    ] {
        for refusal in [25, 31, 32] {
            let times = part.refusals[refusal];
            assert!(times >= 30, "{name} {refusal}: {times}");
        }
        assert!(part.refusals[0] >= 800, "{name} {:?}", part.refusals);
    }
}
