//! The judge, over explained captures of several lengths.

use super::{Row, Unit, Work, SETTINGS};
use crate::books::capture::Capture;
use crate::books::runs::{self, COMMON};
use crate::door::{Door, Peer, VERDICT};
use crate::draws::Draws;
use std::io;

/// Captures and their steps: the longest that is not refused, and as many steps in
/// several. Every capture is another one, since a processor learns the branches of
/// a short one that comes again and again.
const LENGTHS: [(usize, usize); 3] = [(1, 16_384), (4, 4_096), (16, 1_024)];
const SEED: u64 = 22;

pub const EXPLAINED: u8 = 1;

pub fn rows(library: &impl Door) -> io::Result<Vec<Row>> {
    let mut rows = Vec::new();
    for (n, captures, steps) in works() {
        let name = format!("judge, n = {n}, {steps} steps");
        let work = Work(name, Unit::Step, captures.len() * steps);
        rows.push(work.measure(|| judge(library, &captures), || judge(&Peer, &captures))?);
    }
    Ok(rows)
}

/// The sections and captures of each row, and the steps of one of them.
pub fn works() -> Vec<(u8, Vec<Capture>, usize)> {
    let mut draws = Draws::from_seed(SEED);
    let mut works = Vec::new();
    for (settings, (count, steps)) in SETTINGS
        .into_iter()
        .flat_map(|settings| LENGTHS.map(|length| (settings, length)))
    {
        let drawn = (0..count).map(|_| runs::draw(&mut draws, COMMON, settings, steps));
        works.push((settings.n, drawn.collect(), steps));
    }
    works
}

/// How many are explained.
pub fn judge(door: &impl Door, captures: &[Capture]) -> usize {
    let is_explained = |capture: &&Capture| {
        let mut out = [0; VERDICT];
        let rows = capture.rows.as_flattened();
        door.judge(capture.settings, rows, &mut out);
        out[0] == EXPLAINED
    };
    captures.iter().filter(is_explained).count()
}

#[cfg(test)]
pub fn check(door: &impl Door) {
    let works = works();
    assert_eq!(works.len(), SETTINGS.len() * LENGTHS.len());
    for (_, captures, steps) in works {
        assert_eq!(captures.len() * steps, 16_384);
        assert_eq!(judge(door, &captures), captures.len());
        assert!(captures.iter().all(|capture| capture.rows.len() == steps));
    }
}
