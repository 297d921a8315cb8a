//! One book, put to the library: the text of its table, and the page that the library
//! was lent for it.

use super::{by_bytes, Difference, Lines};
use crate::compare::lent::Lent;
use crate::door::{Door, PAGE};
use crate::draws::Bits;
use std::hint::black_box;

const SEED: u64 = 28;

/// How the library's text differs from this one, and what it changed besides. The page and
/// the guards round it are drawn before the call, so that a byte of either that is
/// written shows.
pub fn differences(library: &dyn Door, book: &[u8], text: &str) -> Vec<Difference> {
    let mut bits = Bits::from_seeds(SEED, book.len());
    let lent: Lent<PAGE> = Lent::drawn(&mut bits);
    let mut page = lent.clone();
    let length = library.table(book, &mut page.bytes);
    // The compiler must not conclude that the guards are as they were.
    black_box(&mut page);
    let mut found = match page.bytes.get(..length) {
        Some(theirs) => by_bytes(book, Lines::of(text.as_bytes(), theirs)),
        None => vec![of_page(
            format!("{} characters", text.len()),
            format!("{length} characters, on a page of {PAGE}"),
        )],
    };
    found.extend(touched(&lent, &page, text.len()).map(|byte| {
        let ours = format!("nothing written but the {} characters", text.len());
        of_page(ours, format!("byte {byte} of the page written"))
    }));
    found
}

fn of_page(ours: String, theirs: String) -> Difference {
    Difference {
        row: None,
        ours,
        theirs,
    }
}

/// The first byte that is not as it was, though it stands before the page or behind so many
/// characters of it. It is counted from the start of the page.
fn touched(lent: &Lent<PAGE>, page: &Lent<PAGE>, characters: usize) -> Option<isize> {
    let [before, ..] = lent.part();
    let first = before.len();
    let (lent, page) = (lent.part().concat(), page.part().concat());
    let text = first..first + characters;
    let mut others = (0..lent.len()).filter(|place| !text.contains(place));
    let place = others.find(|&place| lent[place] != page[place])?;
    Some(place as isize - first as isize)
}

#[cfg(test)]
mod tests {
    use super::*;
    use crate::compare::tests::{tables, Fake};
    use crate::door::Peer;
    use crate::judge::table::Table;
    use crate::trials::PAPER_BOOK;

    /// With the paper's book: the lines that differ, and what is said of the library.
    fn found(library: &dyn Door) -> Vec<(Option<usize>, String)> {
        let text = Table::of(&PAPER_BOOK).to_string();
        differences(library, &PAPER_BOOK, &text)
            .into_iter()
            .map(|difference| (difference.row, difference.theirs))
            .collect()
    }

    #[test]
    fn a_right_text_has_no_difference() {
        assert_eq!(found(&Peer), []);
        for book in [&[1, 0][..], &[], &PAPER_BOOK[..45]] {
            let text = Table::of(book).to_string();
            assert_eq!(differences(&Peer, book, &text), []);
        }
    }

    /// The text of the paper's book has 72 characters.
    #[test]
    fn a_wrong_library_is_noticed() {
        for (wrong, row, told) in [
            (tables::OTHER_CHARACTER, Some(1), "\"1 2 2 unexplained 0\""),
            (tables::ONE_LESS, Some(2), "(no line)"),
            (tables::ONE_MORE, Some(2), ""),
            (
                tables::PAST_THE_PAGE,
                None,
                "2049 characters, on a page of 2048",
            ),
            (tables::ZERO_BEHIND, None, "byte 72 of the page written"),
            (tables::CLEARED, None, "byte 72 of the page written"),
            ("table", None, "byte 2047 of the page written"),
        ] {
            let found = found(&Fake { wrong });
            let [(line, theirs)] = &found[..] else {
                panic!("{wrong}: {found:?}");
            };
            assert_eq!(*line, row, "{wrong}");
            assert!(theirs.contains(told), "{wrong}: {theirs}");
        }
    }

    #[test]
    fn guards_count_and_the_text_does_not() {
        let mut bits = Bits::from_seeds(1, 1);
        let lent = Lent::drawn(&mut bits);
        let with = |change: &dyn Fn(&mut Lent<PAGE>)| {
            let mut page = lent.clone();
            change(&mut page);
            touched(&lent, &page, 72)
        };
        assert_eq!(with(&|page| page.bytes[..72].fill(0)), None);
        assert_eq!(with(&|page| page.bytes[72] ^= 1), Some(72));
        assert_eq!(with(&|page| page.guard_mut(false)[0] ^= 1), Some(-16));
        assert_eq!(with(&|page| page.guard_mut(false)[15] ^= 1), Some(-1));
        assert_eq!(with(&|page| page.guard_mut(true)[0] ^= 1), Some(2_048));
        assert_eq!(with(&|page| page.guard_mut(true)[15] ^= 1), Some(2_063));
    }
}
