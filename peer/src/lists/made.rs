//! Captures that are made for their switches. Nothing else of a step matters (paper:
//! 02, e), so it is drawn: most of these lines have no explanation.

use crate::books::capture::{bind, Capture};
use crate::books::runs::{self, LONGEST};
use crate::draws::Draws;
use crate::judge::Row;

const SEED: u64 = 31;
const MOST_CAPTURES: usize = 64;

/// Steps whose numbers have as many digits as there are, at the first and the last of
/// each length.
const STEPS: [usize; 10] = [0, 1, 9, 10, 99, 100, 999, 1_000, 9_999, 10_000];

/// A capture in which these are sent, under settings that fit a book, with hold and
/// without.
fn sending(draws: &mut Draws, sent: &[u8]) -> Capture {
    let settings = runs::draw_settings(draws);
    let settings = draws.pick(&[settings, settings.with_hold()]);
    let rows: Vec<Row> = sent
        .iter()
        .map(|&k1| {
            let [first, second, last] = [(); 3].map(|()| draws.below(256) as u8);
            [first, second, k1, last]
        })
        .collect();
    Capture::new(settings, rows)
}

/// A change from each K1 to each other, as few captures as hold them. Each begins with
/// what was sent last in the one before, so that no change is lost between them.
pub fn pairs() -> Vec<Capture> {
    let mut draws = Draws::from_seed(SEED);
    let sent = sent_in_pairs();
    (0..sent.len() - 1)
        .step_by(LONGEST - 1)
        .map(|start| {
            let end = sent.len().min(start + LONGEST);
            sending(&mut draws, &sent[start..end])
        })
        .collect()
}

/// To and fro between each two: the last way back, from FF, is to the next K1.
fn sent_in_pairs() -> Vec<u8> {
    let there_and_back = |from: u8| (from..=u8::MAX).skip(1).flat_map(move |to| [from, to]);
    (0..=u8::MAX)
        .flat_map(there_and_back)
        .chain([0x00])
        .collect()
}

/// As long as can be, with changes in a few steps, in about half of them, and in each.
pub fn long() -> Vec<Capture> {
    let mut draws = Draws::from_seed(SEED + 1);
    [4_000, 2, 1]
        .map(|once_in| {
            let mut k1 = 0x00;
            let sent: Vec<u8> = (0..LONGEST)
                .map(|_| {
                    if draws.once_in(once_in) {
                        k1 ^= 1 + draws.byte_below(255);
                    }
                    k1
                })
                .collect();
            sending(&mut draws, &sent)
        })
        .into()
}

/// One change, at one step after another.
pub fn single() -> Vec<Capture> {
    let mut draws = Draws::from_seed(SEED + 2);
    STEPS
        .into_iter()
        .chain([LONGEST - 1])
        .map(|step| {
            let before = vec![0x00; step];
            let k1 = 1 + draws.byte_below(255);
            let behind = vec![k1; 1 + draws.place(3).min(LONGEST - 1 - step)];
            sending(&mut draws, &[before, behind].concat())
        })
        .collect()
}

/// No change at all, whatever comes in and whatever K2 goes out.
pub fn still() -> Vec<Capture> {
    let mut draws = Draws::from_seed(SEED + 3);
    [0, 1, 2, 50, 0, LONGEST]
        .map(|steps| sending(&mut draws, &vec![0x00; steps]))
        .into()
}

/// Books of every number of captures. One of three has no steps, one no change.
pub fn by_count() -> Vec<Vec<u8>> {
    let mut draws = Draws::from_seed(SEED + 4);
    let mut capture = |number: usize| {
        let k1 = 1 + draws.byte_below(255);
        let sent: [&[u8]; 3] = [&[], &[0x00], &[k1, k1, 0x00]];
        sending(&mut draws, sent[number % 3])
    };
    let books = (1..=MOST_CAPTURES).map(|count| {
        let captures: Vec<Capture> = (0..count).map(&mut capture).collect();
        bind(&captures).concat()
    });
    // No captures make no book here, but there is one.
    [vec![1, 0]].into_iter().chain(books).collect()
}

#[cfg(test)]
mod tests {
    use super::*;
    use crate::book;
    use crate::switches::changes;
    use std::collections::BTreeSet;

    #[test]
    fn every_k1_changes_into_every_other() {
        let captures = pairs();
        assert_eq!(captures.len(), 4);
        let mut seen = BTreeSet::new();
        for Capture { rows, .. } in &captures {
            for pair in rows.windows(2) {
                seen.insert((pair[0][2], pair[1][2]));
            }
        }
        assert_eq!(seen.len(), 256 * 255);
        assert!(seen.iter().all(|(before, after)| before != after));
    }

    #[test]
    fn long_captures_have_few_changes_many_and_all() {
        let counts: Vec<usize> = long()
            .iter()
            .map(|capture| changes(&capture.rows).count())
            .collect();
        let &[few, half, each] = &counts[..] else {
            panic!("three captures");
        };
        assert!((1..20).contains(&few), "{few}");
        assert!((7_500..9_000).contains(&half), "{half}");
        assert_eq!(each, LONGEST);
    }

    #[test]
    fn single_changes_are_where_they_are_meant() {
        let found: Vec<usize> = single()
            .iter()
            .flat_map(|capture| changes(&capture.rows).map(usize::from))
            .collect();
        assert_eq!(found, [&STEPS[..], &[LONGEST - 1]].concat());
    }

    #[test]
    fn there_is_a_book_of_every_number_of_captures() {
        let counts = by_count()
            .into_iter()
            .map(|book| book::read(&book).expect("a sound book").count);
        assert!(counts.eq(0..=64));
    }
}
