//! Runs with something changed in them. Many still have an explanation, often by
//! other causes than those they were made under. In a third of the runs most rows repeat
//! the row before.

use super::capture::{row, Capture};
use super::pairs;
use super::repeats;
use super::runs::{self, COMMON, LONGEST};
use crate::draws::Draws;
use crate::settings::Settings;
use std::collections::BTreeSet;

const MOST_STEPS: usize = 40;

type Change = fn(&mut Draws, &mut Capture);

pub fn flipped() -> Vec<Capture> {
    let mut captures = changed(2, 4_000, |draws, capture| {
        let bits = 1 + draws.place(3);
        flip(draws, capture, bits);
    });
    captures.push(flipped_at_the_end());
    captures
}

pub fn cut() -> Vec<Capture> {
    changed(3, 1_200, |draws, capture| {
        let bits = draws.place(2);
        flip(draws, capture, bits);
        let steps = draws.place(capture.rows.len());
        capture.rows.truncate(steps);
    })
}

pub fn swapped() -> Vec<Capture> {
    changed(4, 1_800, |draws, capture| {
        let [first, second] = [(); 2].map(|()| draws.place(capture.rows.len()));
        capture.rows.swap(first, second);
    })
}

pub fn replaced() -> Vec<Capture> {
    changed(5, 2_000, replace)
}

/// Settings of which any one, or all, may not be those of the run. They fit, since a
/// book has no others (02, f); so with fewer sections bits of the mask go as well.
pub fn resettled() -> Vec<Capture> {
    changed(6, 1_500, |draws, capture| {
        let other = runs::draw_settings(draws);
        let settings = &mut capture.settings;
        match draws.below(4) {
            0 => settings.mask = draws.below(1 << settings.n),
            1 => settings.w = other.w,
            2 => {
                settings.n = 1 + draws.byte_below(14);
                settings.mask &= (1 << settings.n) - 1;
            }
            _ => *settings = other,
        }
    })
}

/// Another pair in place of one that was sent.
pub fn replace(draws: &mut Draws, capture: &mut Capture) {
    let step = draws.place(capture.rows.len());
    let [k1, k2, ..] = capture.rows[step];
    let sent = pairs::draw_sendable(draws, capture.settings.n);
    capture.rows[step] = row([k1, k2], sent);
}

fn changed(seed: u64, count: usize, change: Change) -> Vec<Capture> {
    let mut draws = Draws::from_seed(seed);
    let draw = |number| {
        let steps = 1 + draws.place(MOST_STEPS);
        let mut capture = match number % 3 {
            0 => repeats::draw(&mut draws, steps),
            _ => runs::draw_of_any_settings(&mut draws, COMMON, steps),
        };
        change(&mut draws, &mut capture);
        capture
    };
    (0..count).map(draw).collect()
}

fn flip(draws: &mut Draws, capture: &mut Capture, count: usize) {
    let bytes = capture.rows.as_flattened_mut();
    // A set, because a bit that is flipped twice is not flipped.
    let mut bits = BTreeSet::new();
    while bits.len() < count {
        bits.insert(draws.place(8 * bytes.len()));
    }
    for bit in bits {
        bytes[bit / 8] ^= 1 << (bit % 8);
    }
}

/// The last bit of the longest capture: line bits are never sent.
fn flipped_at_the_end() -> Capture {
    let settings = Settings::new(2, 2, 3);
    let mut capture = runs::draw(&mut Draws::from_seed(7), COMMON, settings, LONGEST);
    capture.rows[LONGEST - 1][3] ^= 1;
    capture
}

#[cfg(test)]
mod tests {
    use super::*;
    use crate::book::MOST_BYTES;

    #[test]
    fn as_many_bits_are_flipped_as_asked_for() {
        let mut draws = Draws::from_seed(8);
        for count in [0, 1, 2, 3, 32] {
            let before = runs::draw_of_any_settings(&mut draws, COMMON, 1);
            let mut after = before.clone();
            flip(&mut draws, &mut after, count);
            let [before, after] = [before, after].map(|run| u32::from_be_bytes(run.rows[0]));
            assert_eq!((before ^ after).count_ones() as usize, count);
        }
    }

    #[test]
    fn what_is_replaced_is_a_pair_sent() {
        let mut draws = Draws::from_seed(9);
        let mut replaced = 0;
        for steps in 1..40 {
            let before = runs::draw_of_any_settings(&mut draws, COMMON, steps);
            let mut after = before.clone();
            replace(&mut draws, &mut after);
            let pairs = before.rows.iter().zip(&after.rows);
            assert!(pairs
                .clone()
                .all(|(before, after)| before[..2] == after[..2]));
            let others = pairs.filter(|(before, after)| before != after).count();
            assert!(others <= 1);
            replaced += others;
        }
        // Now and then it is by the same pair.
        assert!(replaced >= 30, "{replaced}");
    }

    #[test]
    fn every_change_has_its_captures() {
        let groups = [flipped(), cut(), swapped(), replaced(), resettled()];
        let counts = groups.each_ref().map(Vec::len);
        assert_eq!(counts, [4_001, 1_200, 1_800, 2_000, 1_500]);
        for capture in groups.iter().flatten() {
            assert!(capture.rows.len() <= LONGEST);
            assert!(capture.rows.as_flattened().len() <= MOST_BYTES);
        }
    }
}
