//! Books that are not what a writer wrote (paper: "Numbered refusals", 20 to 28;
//! 02, f, for 31 and 32, and g for 25).

use super::capture::{bind, Capture};
use super::runs::{self, COMMON, LONGEST};
use super::unfit;
use crate::book::{self, MOST_BYTES};
use crate::draws::Draws;
use crate::settings::Settings;
use crate::settings::HOLD;
use crate::trials::PAPER_BOOK;

const SEED: u64 = 11;
/// The captures of a book that is to be damaged.
const CAPTURES: usize = 6;

pub fn books() -> Vec<Vec<u8>> {
    let mut draws = Draws::from_seed(SEED);
    let drawn = drawn_book(&mut draws);
    let mut books = vec![PAPER_BOOK.to_vec(), drawn.clone()];
    books.extend(with_every_value(&PAPER_BOOK, contents_of(&PAPER_BOOK)));
    books.extend(with_some_values(&drawn, contents_of(&drawn)));
    books.extend(cut_and_extended(&PAPER_BOOK));
    books.extend(cut_and_extended(&drawn));
    books.extend(unfit::books(&mut draws));
    books.extend(by_length(&mut draws));
    books.extend(without_captures());
    books
}

fn drawn_book(draws: &mut Draws) -> Vec<u8> {
    let mut captures: Vec<Capture> = (0..CAPTURES)
        .map(|steps| runs::draw_of_any_settings(draws, COMMON, steps))
        .collect();
    for holding in captures.iter_mut().step_by(2) {
        holding.settings.options = HOLD;
    }
    bind(&captures).concat()
}

/// How many bytes stand before the bodies of a sound book.
fn contents_of(book: &[u8]) -> usize {
    book::contents_bytes(book[1].into())
}

fn with_byte(book: &[u8], place: usize, value: u8) -> Vec<u8> {
    let mut book = book.to_vec();
    book[place] = value;
    book
}

/// Each of the first bytes with every other value it can have.
fn with_every_value(book: &[u8], bytes: usize) -> Vec<Vec<u8>> {
    (0..bytes)
        .flat_map(|place| (1..=u8::MAX).map(move |change| (place, change)))
        .map(|(place, change)| with_byte(book, place, book[place] ^ change))
        .collect()
}

/// Each of the first bytes with its neighbours, one bit flipped, and the ends of
/// its range.
fn with_some_values(book: &[u8], bytes: usize) -> Vec<Vec<u8>> {
    let values = |old: u8| {
        [
            old.wrapping_add(1),
            old.wrapping_sub(1),
            old ^ 0x80,
            0x00,
            0xFF,
        ]
    };
    (0..bytes)
        .flat_map(|place| values(book[place]).map(|value| with_byte(book, place, value)))
        .filter(|damaged| damaged != book)
        .collect()
}

/// Cut at every length, and with more behind it.
fn cut_and_extended(book: &[u8]) -> Vec<Vec<u8>> {
    let cut = (0..book.len()).map(|length| book[..length].to_vec());
    let more: [&[u8]; 4] = [&[0], &[1], &[0; 4], &[0; 12]];
    let extended = more.map(|bytes| [book, bytes].concat());
    cut.chain(extended).collect()
}

/// About the bound of a book, and far beyond what a pipe holds. The longest book
/// has two bytes less than the bound.
fn by_length(draws: &mut Draws) -> Vec<Vec<u8>> {
    let settings = Settings::new(1, 0, 3);
    let longest = bind(&[runs::draw(draws, COMMON, settings, LONGEST)]).concat();
    (MOST_BYTES - 3..=MOST_BYTES + 1)
        .chain([70_000, 1_000_000])
        .flat_map(|length| {
            let mut resized = longest.clone();
            resized.resize(length, 0);
            [resized, vec![0; length]]
        })
        .collect()
}

fn without_captures() -> Vec<Vec<u8>> {
    let books: [&[u8]; 6] = [&[1, 0], &[1, 0, 0], &[0, 0], &[1, 64], &[1, 65], &[2, 255]];
    books.map(<[u8]>::to_vec).into()
}

/// Whether every refusal of the reader comes up among them.
#[cfg(test)]
pub fn have_every_refusal(books: &[Vec<u8>]) -> bool {
    let refusals: std::collections::BTreeSet<u8> = books
        .iter()
        .filter_map(|book| book::read(book).err())
        .map(book::Refusal::number)
        .collect();
    refusals.into_iter().eq((20..=28).chain([31, 32]))
}

#[cfg(test)]
mod tests {
    use super::*;
    use std::collections::BTreeSet;

    #[test]
    fn every_refusal_of_the_reader_comes_up() {
        assert!(have_every_refusal(&books()));
    }

    #[test]
    fn every_byte_of_the_contents_is_damaged() {
        let damaged = with_every_value(&PAPER_BOOK, contents_of(&PAPER_BOOK));
        let distinct: BTreeSet<Vec<u8>> = damaged.into_iter().collect();
        assert_eq!(distinct.len(), 26 * 255);
        assert!(!distinct.contains(&PAPER_BOOK[..]));
        let drawn = drawn_book(&mut Draws::from_seed(1));
        let damaged = with_some_values(&drawn, contents_of(&drawn));
        for place in 0..2 + 12 * 6 {
            assert!(damaged.iter().any(|book| book[place] != drawn[place]));
        }
    }
}
