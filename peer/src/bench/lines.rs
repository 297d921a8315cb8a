//! The judge, over three captures that are as long as can be: a line as most are, of which
//! all but four rows repeat the row before; a busy one, in which no row does; and one that
//! waits most of the time. Beside each stands a sum of its bytes, which has to read them
//! too, and has the least to do with them.

use super::captures::judge;
use super::{Row, Unit, Work, SETTINGS};
use crate::books::capture::Capture;
use crate::books::pairs::{said, IDLE};
use crate::books::runs::{self, Given, Run, COMMON};
use crate::door::{Door, Peer};
use crate::draws::Draws;
use crate::pair::Request;
use crate::settings::Settings;
use std::hint::black_box;
use std::io;
use std::slice::from_ref;

const SEED: u64 = 25;
pub const STEPS: usize = 16_384;

/// The wait of the captures in which one is to be long.
const WAIT: u16 = 5_000;

const SECTION: usize = 1;
const GOOD: u8 = 0;
const FAILED: u8 = 2;

const CLEAR: Given = Given {
    command: 1,
    ..Given::pair(IDLE)
};

/// So many steps, the condition of the section in them, and what they are given.
type Spell = (usize, u8, Given);

pub fn rows(library: &impl Door) -> io::Result<Vec<Row>> {
    let mut rows = Vec::new();
    for (kind, capture) in SETTINGS.into_iter().flat_map(captures) {
        let captures = from_ref(&capture);
        let name = format!("judge, n = {}, {STEPS} steps, {kind}", capture.settings.n);
        let work = |more| Work(format!("{name}{more}"), Unit::Step, STEPS);
        rows.push(work("").measure(|| judge(library, captures), || judge(&Peer, captures))?);
        rows.push(
            work(", beside a sum of its bytes")
                .measure(|| judge(library, captures), || sum_all(captures))?,
        );
    }
    Ok(rows)
}

fn captures(settings: Settings) -> [(&'static str, Capture); 3] {
    let mut draws = Draws::from_seed(SEED);
    [
        ("a line", line(settings)),
        ("busy", runs::draw_busy(&mut draws, COMMON, settings, STEPS)),
        ("waiting", waiting(settings)),
    ]
}

/// The section fails, comes back and is waited for; the wait runs out; and later the far
/// end switches the last section.
pub fn line(settings: Settings) -> Capture {
    let switched = Given::pair(said(Request::ManualSwitch, settings.n, 0));
    let spells = [
        (2_000, GOOD, Given::pair(IDLE)),
        (3_000, FAILED, Given::pair(IDLE)),
        (8_000, GOOD, Given::pair(IDLE)),
        (STEPS, GOOD, switched),
    ];
    of_spells(settings, &spells)
}

/// The section fails again and again and is waited for: until the wait has run out, until
/// the section fails, and until there is a clear.
fn waiting(settings: Settings) -> Capture {
    let failed = (4, FAILED, Given::pair(IDLE));
    let wait = usize::from(WAIT);
    let waited = |steps| (steps, GOOD, Given::pair(IDLE));
    let spells = [
        failed,
        waited(wait + 4),
        failed,
        waited(wait / 2),
        failed,
        waited(wait / 4),
        (4, GOOD, CLEAR),
    ];
    of_spells(settings, &spells.repeat(2))
}

/// As many steps of them as a capture can have.
fn of_spells(settings: Settings, spells: &[Spell]) -> Capture {
    let settings = Settings {
        w: WAIT,
        ..settings
    };
    let mut draws = Draws::from_seed(SEED);
    let mut run = Run::new(&mut draws, COMMON, settings);
    let mut rows = Vec::new();
    for &(steps, condition, given) in spells {
        run.conditions[SECTION] = condition;
        rows.extend(run.last(given, steps.min(STEPS - rows.len())));
    }
    Capture::new(settings, rows)
}

/// How many are added up.
fn sum_all(captures: &[Capture]) -> usize {
    for capture in captures {
        black_box(sum(black_box(capture)));
    }
    captures.len()
}

/// The bytes that are added up at once: as many sums as the processor has registers for, so
/// that the loop round them takes no time of its own.
const BLOCK: usize = 128;

/// In one byte, whatever does not fit: a register has sixteen of them.
fn sum(capture: &Capture) -> u8 {
    let (blocks, rest) = capture.rows.as_flattened().as_chunks::<BLOCK>();
    let mut sums = [0u8; BLOCK];
    for block in blocks {
        for (sum, &byte) in sums.iter_mut().zip(block) {
            *sum = sum.wrapping_add(byte);
        }
    }
    let left = sums.iter().chain(rest);
    left.fold(0, |sum, &byte| sum.wrapping_add(byte))
}

#[cfg(test)]
pub fn check(door: &impl Door) {
    for settings in SETTINGS {
        let captures = captures(settings);
        for (kind, capture) in &captures {
            assert_eq!(capture.rows.len(), STEPS, "{kind}");
            assert_eq!(judge(door, from_ref(capture)), 1, "{kind}");
        }
        let [line, busy, _] = captures.each_ref().map(|(_, capture)| changes(capture));
        assert_eq!(line, [2_000, 5_000, 10_000, 13_000]);
        assert_eq!(busy.len(), STEPS - 1);
    }
}

/// The steps whose rows differ from the row before.
#[cfg(test)]
fn changes(capture: &Capture) -> Vec<usize> {
    let differs = |&step: &usize| capture.rows[step - 1] != capture.rows[step];
    (1..capture.rows.len()).filter(differs).collect()
}

#[cfg(test)]
mod tests {
    use super::*;
    use crate::judge::Row;

    fn waits(rows: &[Row]) -> bool {
        rows[0][2] >> 4 == Request::WaitToRestore.code()
    }

    /// Counted by hand: a wait that runs out, two that are cut short, and all of it once
    /// more, of which the last wait is not over when the capture ends.
    #[test]
    fn some_waits_run_out_and_some_are_cut_short() {
        for settings in SETTINGS {
            let capture = waiting(settings);
            let runs = capture.rows.chunk_by(|first, second| first == second);
            let lengths: Vec<usize> = runs.filter(|run| waits(run)).map(<[Row]>::len).collect();
            assert_eq!(lengths[..5], [5_000, 2_500, 1_250, 5_000, 2_500]);
            assert!(lengths.iter().sum::<usize>() - lengths.len() >= STEPS / 10 * 9);
        }
    }

    #[test]
    fn each_byte_is_added_up() {
        let capture = line(SETTINGS[0]);
        let total: usize = capture
            .rows
            .as_flattened()
            .iter()
            .map(|&byte| usize::from(byte))
            .sum();
        assert_eq!(usize::from(sum(&capture)), total % 256);
    }
}
