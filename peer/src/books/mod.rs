//! The books of `peer books`, the captures of which are judged, and how they are made.

mod alarms;
pub mod capture;
pub mod changes;
mod commands;
pub mod damage;
pub mod held;
pub mod lockout;
pub mod longest;
pub mod pairs;
pub mod repeats;
pub mod runs;
mod steps;
mod unfit;
pub mod waits;

use crate::judge::table::{Line, Table};
use crate::judge::Verdict;
use crate::programs::{by_bytes, group, Comparison, Group, Kind, Reading};
use capture::{bind, Capture};

pub const COMPARISON: Comparison = Comparison {
    program: "crates/judge/out/judge",
    groups: &GROUPS,
    read: |book| Reading::of(Table::of(book), kind),
    hold: by_bytes,
    in_library: true,
    lines: "captures",
    // By the order.
    least: (20_000, "are asked for"),
    columns: &[
        ("  captures", |counts| counts.lines),
        ("  explained", |counts| counts.of(Kind::Explained)),
        ("  unexplained", |counts| counts.of(Kind::Unexplained)),
        ("  books by library", |counts| counts.by_library),
    ],
    tell: |entry| format!(" {}", entry.settings()),
};

fn kind(line: &Line) -> Kind {
    match line.verdict {
        Verdict::Explained(_) => Kind::Explained,
        Verdict::Unexplained(_) => Kind::Unexplained,
    }
}

const EXPLAINED: &[Kind] = &[Kind::Explained];
const BOTH: &[Kind] = &[Kind::Explained, Kind::Unexplained];
const ALL: &[Kind] = &[Kind::Explained, Kind::Unexplained, Kind::RefusedBook];

pub const GROUPS: [Group; 14] = [
    group("runs", EXPLAINED, || bound(runs::captures())),
    group("flipped", BOTH, || bound(changes::flipped())),
    group("cut", BOTH, || bound(changes::cut())),
    group("swapped", BOTH, || bound(changes::swapped())),
    group("replaced", BOTH, || bound(changes::replaced())),
    group("settings", BOTH, || bound(changes::resettled())),
    group("lockout", BOTH, || bound(lockout::captures())),
    group("alarms", BOTH, || bound(alarms::captures())),
    group("waits", BOTH, || bound(waits::captures())),
    group("repeats", BOTH, || bound(repeats::captures())),
    group("commands", BOTH, || bound_both_ways(&commands::captures())),
    group("steps", BOTH, || bound_both_ways(&steps::captures())),
    group("held", BOTH, || bound_both_ways(&held::captures())),
    group("damaged", ALL, damage::books),
];

/// Half of the captures are bound with hold, which changes no verdict (02, g): those with an
/// odd number of ones in their binary number, so that it goes with nothing that they have
/// by turns.
fn bound(mut captures: Vec<Capture>) -> Vec<Vec<u8>> {
    for (number, capture) in captures.iter_mut().enumerate() {
        capture.settings.options = (number.count_ones() % 2) as u8;
    }
    bind(&captures)
}

fn bound_both_ways(captures: &[Capture]) -> Vec<Vec<u8>> {
    let both: Vec<Capture> = captures.iter().flat_map(Capture::both_ways).collect();
    bind(&both)
}

/// The books of all groups whose captures are judged.
pub fn sound() -> Vec<Vec<u8>> {
    let [sound @ .., _] = &GROUPS;
    sound.iter().flat_map(Group::books).collect()
}

#[cfg(test)]
mod tests {
    use super::*;
    use crate::book::{self, Contents};
    use crate::judge::{judge, scan};
    use crate::programs::Job;
    use repeats::most_repeat;

    /// Without those that stand in damaged books.
    #[test]
    fn there_are_as_many_captures_as_the_order_asks_for() {
        let damaged = GROUPS.len() - 1;
        let jobs = COMPARISON.jobs();
        let sound = jobs.iter().filter(|job| job.group != damaged);
        let captures: usize = sound
            .map(|job| book::read(&job.book).expect("a sound book"))
            .map(|contents| usize::from(contents.count))
            .sum();
        assert!(captures >= 20_000, "{captures}");
    }

    /// On those that brute force is quick with. Here are the captures that are made
    /// to be hard: LO over a failed section 0, alarms, waits, commands in turn.
    #[test]
    fn the_judges_agree_on_short_captures() {
        let mut captures = 0;
        for Job { book, .. } in COMPARISON.jobs() {
            let contents = book::read(&book).unwrap_or(Contents::ZEROS);
            let entries = contents.entries().unwrap_or_default();
            for entry in entries
                .iter()
                .filter(|entry| entry.n <= 2 && entry.steps <= 6)
            {
                let (settings, rows) = (entry.settings(), book::body(&book, entry));
                assert_eq!(scan::judge(settings, rows), judge(settings, rows));
                captures += 1;
            }
        }
        assert!(captures >= 8_000, "{captures}");
    }

    /// How many captures are explained and how many are not, without hold and with it.
    fn verdicts(books: &[Vec<u8>]) -> [[u32; 2]; 2] {
        let mut seen = [[0; 2]; 2];
        for book in books {
            let contents = book::read(book).expect("a sound book");
            for entry in contents.entries().unwrap_or_default() {
                let verdict = scan::judge(entry.settings(), book::body(book, entry));
                let unexplained = matches!(verdict, Ok(Verdict::Unexplained(_)));
                seen[usize::from(entry.spare)][usize::from(unexplained)] += 1;
            }
        }
        seen
    }

    /// With either verdict, but for the runs, which are explained (02, g).
    #[test]
    fn every_group_has_captures_with_hold_and_without() {
        let [runs, others @ .., _] = &GROUPS;
        let [without, with] = verdicts(&runs.books());
        assert!(without[0].min(with[0]) >= 1_000, "{without:?} {with:?}");
        for group in others {
            let seen = verdicts(&group.books());
            assert!(seen.as_flattened().iter().all(|&n| n >= 50), "{seen:?}");
        }
    }

    #[test]
    fn most_rows_repeat_in_a_third_of_the_drawn_captures() {
        let drawn = [
            runs::captures(),
            changes::flipped(),
            changes::cut(),
            changes::swapped(),
            changes::replaced(),
            changes::resettled(),
            lockout::drawn(),
            alarms::drawn(),
            repeats::drawn(),
        ]
        .concat();
        let repeating = drawn.iter().filter(|run| most_repeat(&run.rows)).count();
        assert!(
            3 * repeating >= drawn.len(),
            "{repeating} of {}",
            drawn.len()
        );
    }

    #[test]
    fn the_books_are_the_same_each_time() {
        let books = || COMPARISON.jobs().into_iter().map(|job| job.book);
        assert!(books().eq(books()));
    }
}
