//! Books that are refused for the settings of an entry, alone and with another
//! fault, and books whose settings just fit (paper: 02, f and g).

use super::capture::{bind, Capture};
use super::runs::{self, COMMON};
use crate::book::{contents_bytes, ENTRY_BYTES, MOST_BYTES};
use crate::draws::Draws;
use crate::settings::Settings;

/// The captures of a book that is to be refused.
const CAPTURES: usize = 5;
/// The first of them, one in the middle, and the last.
const ENTRIES: [usize; 3] = [0, 2, 4];
/// An entry and the next: at the start, in the middle and at the end.
const NEIGHBOURS: [[usize; 2]; 3] = [[0, 1], [2, 3], [3, 4]];

const OPTIONS: u8 = 25;
const SECTIONS: u8 = 31;
const MASK: u8 = 32;

/// A book, and the refusal that it gets by the paper's orders.
type Refused = (u8, Vec<u8>);

/// A fault and its refusal.
type Fault<T> = (u8, fn(&mut T));

/// What an entry can have wrong, in the order in which it is asked for.
const OF_AN_ENTRY: [Fault<[u8]>; 5] = [
    OF_SETTINGS[0],
    OF_SETTINGS[1],
    OF_SETTINGS[2],
    (26, |entry| entry[9] ^= 1),
    (27, |entry| entry[10..12].fill(0xFF)),
];

/// Faults whatever else the settings are.
const OF_SETTINGS: [Fault<[u8]>; 3] = [
    (OPTIONS, |entry| entry[1] = 2),
    (SECTIONS, |entry| entry[0] = 0),
    (MASK, |entry| entry[2] |= 0x80),
];

/// What a book can have wrong that is asked for before its entries, and behind them.
/// The contents are cut in the last entry, short of its steps.
const BEFORE_ENTRIES: [Fault<Vec<u8>>; 5] = [
    (20, |book| book.resize(MOST_BYTES + 1, 0)),
    (21, |book| book.truncate(1)),
    (22, |book| book[0] = 0),
    (23, |book| book[1] = 65),
    (24, |book| book.truncate(contents_bytes(CAPTURES) - 1)),
];
const BEHIND_ENTRIES: Fault<Vec<u8>> = (28, |book| book.push(0));

pub fn books(draws: &mut Draws) -> Vec<Vec<u8>> {
    let book = drawn_book(draws);
    let mut refused = with_unfit_settings(&book);
    for neighbours in NEIGHBOURS {
        refused.extend(with_two_faults(&book, neighbours));
    }
    refused.extend(with_another_fault(&book));
    let refused = refused.into_iter().map(|(_, book)| book);
    refused.chain(of_fitting(draws)).collect()
}

fn drawn_book(draws: &mut Draws) -> Vec<u8> {
    let captures: Vec<Capture> = (0..CAPTURES)
        .map(|steps| runs::draw_of_any_settings(draws, COMMON, steps))
        .collect();
    bind(&captures).concat()
}

fn entry_mut(book: &mut [u8], entry: usize) -> &mut [u8] {
    let start = contents_bytes(entry);
    &mut book[start..start + ENTRY_BYTES]
}

/// Every sort of unfit settings, in each of the entries.
fn with_unfit_settings(book: &[u8]) -> Vec<Refused> {
    let with = |entry, (refusal, settings): (u8, Settings)| {
        let mut book = book.to_vec();
        let fields = entry_mut(&mut book, entry);
        fields[0] = settings.n;
        fields[1] = settings.options;
        fields[2..4].copy_from_slice(&settings.mask.to_be_bytes());
        (refusal, book)
    };
    ENTRIES
        .into_iter()
        .flat_map(|entry| unfit().map(move |settings| with(entry, settings)))
        .collect()
}

/// n on both sides of its bounds, whatever the mask is; and for every good n its
/// first bit too many, the last, and all of them. These with hold and without; and with
/// options that there are not, some of them and what fits.
fn unfit() -> impl Iterator<Item = (u8, Settings)> {
    let sections = [0, 15, 16, 255]
        .into_iter()
        .flat_map(|n| [0, 0xFFFF].map(|mask| (SECTIONS, n, mask)));
    let masks = (1..=14).flat_map(|n| [1 << n, 0x8000, 0xFFFF].map(|mask| (MASK, n, mask)));
    let others = sections.chain(masks).flat_map(|(refusal, n, mask)| {
        let settings = Settings::new(n, mask, 0);
        [settings, settings.with_hold()].map(|settings| (refusal, settings))
    });
    let unknown = [2, 3, 128, 255].into_iter().flat_map(|options| {
        [(2, 3), (14, 0), (0, 0), (15, 0), (1, 2)].map(|(n, mask)| {
            let settings = Settings::new(n, mask, 0);
            (
                OPTIONS,
                Settings {
                    options,
                    ..settings
                },
            )
        })
    });
    others.chain(unknown)
}

/// Two faults in one entry, or one in each of two, where one at least is of the
/// settings. Of two the first is refused, since they are in order.
fn with_two_faults(book: &[u8], entries: [usize; 2]) -> Vec<Refused> {
    let faults = entries.map(|entry| OF_AN_ENTRY.map(|fault| (entry, fault)));
    let faults = faults.as_flattened();
    let firsts = faults.iter().enumerate();
    firsts
        .flat_map(|(place, first)| {
            faults[place + 1..]
                .iter()
                .map(move |second| [first, second])
        })
        .filter(|pair| pair.iter().any(|(_, fault)| is_of_settings(*fault)))
        .map(|pair| with_faults(book, pair))
        .collect()
}

fn is_of_settings((refusal, _): Fault<[u8]>) -> bool {
    [OPTIONS, SECTIONS, MASK].contains(&refusal)
}

fn with_faults(book: &[u8], pair: [&(usize, Fault<[u8]>); 2]) -> Refused {
    let mut book = book.to_vec();
    for (entry, (_, put)) in pair {
        put(entry_mut(&mut book, *entry));
    }
    let [(_, (refusal, _)), _] = pair;
    (*refusal, book)
}

/// Unfit settings in a book that has another fault, outside of its entries.
fn with_another_fault(book: &[u8]) -> Vec<Refused> {
    let mut refused = Vec::new();
    for entry in ENTRIES {
        for (refusal, put) in OF_SETTINGS {
            let mut book = book.to_vec();
            put(entry_mut(&mut book, entry));
            refused.extend(BEFORE_ENTRIES.map(|fault| with_fault(&book, fault)));
            let (_, longer) = with_fault(&book, BEHIND_ENTRIES);
            refused.push((refusal, longer));
        }
    }
    refused
}

fn with_fault(book: &[u8], (refusal, put): Fault<Vec<u8>>) -> Refused {
    let mut book = book.to_vec();
    put(&mut book);
    (refusal, book)
}

/// Settings at their bounds, on captures that have an explanation under others.
fn of_fitting(draws: &mut Draws) -> Vec<Vec<u8>> {
    let captures: Vec<Capture> = fitting()
        .flat_map(|settings| [0, 1, 3].map(|steps| (settings, steps)))
        .map(|(settings, steps)| {
            let mut capture = runs::draw_of_any_settings(draws, COMMON, steps);
            let w = capture.settings.w;
            capture.settings = Settings { w, ..settings };
            capture
        })
        .collect();
    bind(&captures)
}

/// Every n, with no bit of the mask, its last, and all that it can have, with hold and
/// without.
fn fitting() -> impl Iterator<Item = Settings> {
    let masks = (1..=14).flat_map(|n| [0, 1 << (n - 1), (1 << n) - 1].map(|mask| (n, mask)));
    masks.flat_map(|(n, mask)| {
        let settings = Settings::new(n, mask, 0);
        [settings, settings.with_hold()]
    })
}

#[cfg(test)]
mod tests {
    use super::*;
    use crate::book;
    use crate::judge::table::Table;
    use std::collections::BTreeSet;

    fn book() -> Vec<u8> {
        drawn_book(&mut Draws::from_seed(1))
    }

    fn refusal_of(book: &[u8]) -> Option<u8> {
        book::read(book).err().map(book::Refusal::number)
    }

    /// And no two of the books are the same.
    fn assert_refused(refused: &[Refused]) {
        for (refusal, book) in refused {
            assert_eq!(refusal_of(book), Some(*refusal), "{book:02X?}");
        }
        let distinct: BTreeSet<&[u8]> = refused.iter().map(|(_, book)| &book[..]).collect();
        assert_eq!(distinct.len(), refused.len());
    }

    #[test]
    fn unfit_settings_stop_the_book_in_every_entry() {
        assert_eq!(refusal_of(&book()), None);
        let refused = with_unfit_settings(&book());
        assert_eq!(refused.len(), 3 * (2 * (4 * 2 + 14 * 3) + 4 * 5));
        assert_refused(&refused);
    }

    /// By hand: five faults in each of two entries make 45 pairs, and the two of each
    /// that are not of settings make 6 among themselves.
    #[test]
    fn of_two_faults_the_first_in_order_is_refused() {
        for neighbours in NEIGHBOURS {
            let refused = with_two_faults(&book(), neighbours);
            assert_eq!(refused.len(), 45 - 6);
            assert_refused(&refused);
        }
    }

    /// Some pairs once more, each by its own bytes.
    #[test]
    fn pairs_of_faults_by_hand() {
        for (first, second, refusal) in [
            ((0, 1, 2), (0, 0, 0), 25),
            ((0, 1, 1), (0, 0, 0), 31),
            ((0, 1, 255), (0, 9, 0), 25),
            ((0, 9, 0), (1, 1, 2), 26),
            ((0, 0, 0), (0, 2, 0x80), 31),
            ((0, 0, 0), (0, 9, 0), 31),
            ((0, 2, 0x80), (0, 9, 0), 32),
            ((0, 2, 0x80), (0, 10, 0xFF), 32),
            ((0, 10, 0xFF), (1, 0, 0), 27),
            ((0, 9, 0), (1, 0, 0), 26),
            ((0, 2, 0x80), (1, 0, 0), 32),
            ((0, 0, 0), (1, 1, 2), 31),
        ] {
            let mut book = book();
            for (entry, field, value) in [first, second] {
                book[2 + 12 * entry + field] = value;
            }
            assert_eq!(refusal_of(&book), Some(refusal), "{first:?} {second:?}");
        }
    }

    #[test]
    fn other_faults_come_before_the_entries_or_behind_them() {
        let refused = with_another_fault(&book());
        assert_eq!(refused.len(), 3 * 3 * 6);
        for (refusal, book) in &refused {
            assert_eq!(refusal_of(book), Some(*refusal));
        }
        let refusals: BTreeSet<u8> = refused.iter().map(|(refusal, _)| *refusal).collect();
        assert!(refusals.into_iter().eq([20, 21, 22, 23, 24, 25, 31, 32]));
    }

    #[test]
    fn settings_that_fit_are_judged() {
        let books = of_fitting(&mut Draws::from_seed(1));
        let mut captures = 0;
        for book in &books {
            let Table::Captures(lines) = Table::of(book) else {
                panic!("a book with settings that fit");
            };
            captures += lines.len();
        }
        assert_eq!(captures, 14 * 3 * 2 * 3);
    }

    #[test]
    fn the_books_are_some_hundreds() {
        let books = books(&mut Draws::from_seed(1)).len();
        assert!((400..700).contains(&books), "{books}");
    }
}
