//! What the comparison comes to.

use super::tally::Tally;
use super::{Due, Subject};
use std::io::{self, Write};

/// Differences of one subject that are told in full.
const MOST_TOLD: usize = 5;

/// The differences first, then the counts, where they are seen.
pub fn write(out: &mut impl Write, subjects: &[Subject], tallies: &[Tally]) -> io::Result<()> {
    for (subject, tally) in subjects.iter().zip(tallies) {
        for told in tally.told.iter().take(MOST_TOLD) {
            writeln!(out, "{}: {told}", subject.name)?;
        }
    }
    writeln!(out, "{:<32}{:>14}{:>13}", "subject", "calls", "differences")?;
    for (subject, tally) in subjects.iter().zip(tallies) {
        write_counts(out, subject, tally)?;
    }
    let (calls, differences) = totals(tallies);
    writeln!(out, "{:<32}{calls:>14}{differences:>13}", "total")?;
    for shortcoming in shortcomings(subjects, tallies) {
        writeln!(out, "{shortcoming}")?;
    }
    writeln!(out, "{differences} differences")
}

pub fn is_clean(subjects: &[Subject], tallies: &[Tally]) -> bool {
    let (_, differences) = totals(tallies);
    differences == 0 && shortcomings(subjects, tallies).is_empty()
}

fn totals(tallies: &[Tally]) -> (u64, u64) {
    let calls = tallies.iter().map(|tally| tally.calls).sum();
    let differences = tallies.iter().map(|tally| tally.differences).sum();
    (calls, differences)
}

fn write_counts(out: &mut impl Write, subject: &Subject, tally: &Tally) -> io::Result<()> {
    let Tally {
        calls, differences, ..
    } = tally;
    writeln!(out, "{:<32}{calls:>14}{differences:>13}", subject.name)?;
    let refusals = tally.refusals.iter().enumerate();
    let refusals: Vec<String> = refusals
        .filter(|&(_, &count)| count > 0)
        .map(|(refusal, count)| format!("{refusal}: {count}"))
        .collect();
    writeln!(out, "  by refusal  {}", refusals.join(", "))?;
    let kinds: Vec<String> = kinds(subject, tally)
        .map(|((name, _), count)| format!("{name}: {count}"))
        .collect();
    if kinds.is_empty() {
        return Ok(());
    }
    writeln!(out, "  of these    {}", kinds.join(", "))
}

fn kinds(subject: &Subject, tally: &Tally) -> impl Iterator<Item = (Due, u64)> {
    let kinds = subject.kinds.iter().copied().zip(tally.kinds);
    kinds.filter(|((name, _), _)| !name.is_empty())
}

/// A comparison is worth no more than what it comes by, so that is checked
/// whenever it is made.
fn shortcomings(subjects: &[Subject], tallies: &[Tally]) -> Vec<String> {
    let mut found = Vec::new();
    for (subject, tally) in subjects.iter().zip(tallies) {
        let Subject { name, least, .. } = subject;
        if tally.calls < *least {
            found.push(format!("{name}: {} calls, {least} are due", tally.calls));
        }
        let shown: Vec<usize> = (0..tally.refusals.len())
            .filter(|&refusal| tally.refusals[refusal] > 0)
            .collect();
        if shown != subject.refusals {
            let due = subject.refusals;
            found.push(format!("{name}: the refusals are {shown:?}, not {due:?}"));
        }
        let missing = kinds(subject, tally).filter(|&((_, least), count)| count < least);
        found.extend(missing.map(|((kind, least), count)| match count {
            0 => format!("{name}: none of the kind {kind}"),
            _ => format!("{name}: {count} of the kind {kind}, {least} are due"),
        }));
    }
    found
}

#[cfg(test)]
mod tests;
