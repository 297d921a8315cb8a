//! The judge (paper: "The judge"), as the order's demand 3 words it.
//!
//! A capture is explained when some causes, one for each step, make the
//! controller send what was captured. So every cause is tried on every record
//! that the causes before it can have led to. Nothing is left out because it could
//! not matter, and nothing is worked out backwards from the bytes: this is there
//! to check a judge that is quicker.

pub mod scan;
pub mod table;

use crate::book::{MOST_BYTES, STEP_BYTES};
use crate::causes::Cause;
use crate::controller::{self, Record};
use crate::settings::Settings;

/// A captured step: the pair received, then the pair sent (paper: "The judge").
pub type Row = [u8; STEP_BYTES];

/// Refusals 8 and 9. Those before them are those of a fresh record.
const NOT_WHOLE_STEPS: u8 = 8;
const TOO_LONG: u8 = 9;

/// The greatest group of which every set of conditions is tried. In larger ones
/// at most one section is bad at a time; that this makes no difference is tested
/// where both can be done.
const MOST_SECTIONS_AT_ONCE: u8 = 3;

#[derive(Clone, Copy, Debug, PartialEq, Eq)]
pub enum Verdict {
    /// With the number of steps.
    Explained(usize),
    /// With the first step, from 0, such that the steps up to and with it have
    /// no explanation.
    Unexplained(usize),
}

/// The verdict on a capture, or the paper's number for its refusal.
pub fn judge(settings: Settings, capture: &[u8]) -> Result<Verdict, u8> {
    let (start, rows) = admit(settings, capture)?;
    Ok(explain(start, rows, &causes(settings.n)))
}

/// A fresh record and the steps of a capture, unless it is refused. The order of the
/// checks is the paper's: 1, 2, 8, 9; options that there are not come before them.
pub fn admit(settings: Settings, capture: &[u8]) -> Result<(Record, &[Row]), u8> {
    let start = controller::fresh(settings).map_err(controller::Refusal::number)?;
    Ok((start, rows_of(capture)?))
}

/// The steps of a capture, unless it is refused: by 8, and then by 9.
pub fn rows_of(capture: &[u8]) -> Result<&[Row], u8> {
    let (rows, []) = capture.as_chunks() else {
        return Err(NOT_WHOLE_STEPS);
    };
    if capture.len() > MOST_BYTES {
        return Err(TOO_LONG);
    }
    Ok(rows)
}

fn explain(start: Record, rows: &[Row], causes: &[Cause]) -> Verdict {
    let mut reached = vec![start];
    for (step, &row) in rows.iter().enumerate() {
        reached = reached_by(&reached, row, causes);
        if reached.is_empty() {
            return Verdict::Unexplained(step);
        }
    }
    Verdict::Explained(rows.len())
}

/// All records, each once, that a captured step can have led to. Two causes may
/// part them for good: under LO a failed section 0 does not show (paper: "Errors
/// a good reader makes"), and with hold a command that something else outranks does not
/// (paper: 02, g).
fn reached_by(before: &[Record], row: Row, causes: &[Cause]) -> Vec<Record> {
    let outcomes = before.iter().flat_map(|&record| {
        causes
            .iter()
            .filter_map(move |cause| cause.outcome(record, row).ok())
    });
    let mut reached = Vec::new();
    for record in outcomes {
        if !reached.contains(&record) {
            reached.push(record);
        }
    }
    reached
}

fn causes(n: u8) -> Vec<Cause> {
    if n <= MOST_SECTIONS_AT_ONCE {
        with_commands(n, &all_conditions(n))
    } else {
        with_commands(n, &one_bad_section(n))
    }
}

fn with_commands(n: u8, sets: &[Vec<u8>]) -> Vec<Cause> {
    let commands = commands(n);
    let with = |conditions: &Vec<u8>| {
        let conditions = conditions.clone();
        commands.iter().map(move |&(command, channel)| Cause {
            conditions: conditions.clone(),
            command,
            channel,
        })
    };
    sets.iter().flat_map(with).collect()
}

/// The commands that are not refused (paper: refusals 6 and 7), with their
/// channels: none, clear, LO, and FS and MS of each section.
fn commands(n: u8) -> Vec<(u8, u8)> {
    let switches = (1..=n).flat_map(|channel| [(3, channel), (4, channel)]);
    [(0, 0), (1, 0), (2, 0)]
        .into_iter()
        .chain(switches)
        .collect()
}

/// Every section good, degraded or failed: the numbers below 3^(n+1), digit by
/// digit.
fn all_conditions(n: u8) -> Vec<Vec<u8>> {
    let sections = u32::from(n) + 1;
    let digit = |number: u32, place| (number / 3u32.pow(place) % 3) as u8;
    (0..3u32.pow(sections))
        .map(|number| (0..sections).map(|place| digit(number, place)).collect())
        .collect()
}

fn one_bad_section(n: u8) -> Vec<Vec<u8>> {
    let good = vec![0; usize::from(n) + 1];
    let bad = (0..good.len()).flat_map(|section| [(section, 1), (section, 2)]);
    let sets = bad.map(|(section, condition)| {
        let mut conditions = good.clone();
        conditions[section] = condition;
        conditions
    });
    std::iter::once(good.clone()).chain(sets).collect()
}

#[cfg(test)]
mod tests;
