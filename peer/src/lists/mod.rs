//! The books of `peer lists`, the switches of which are listed (paper: 02, e): those of
//! `peer books`, and some that are made for their switches.

mod events;
mod made;

use crate::books::capture::bind;
use crate::books::{self, damage};
use crate::programs::{by_bytes, group, Comparison, Group, Kind, Reading};
use crate::switches::table::{Change, Table};

pub const COMPARISON: Comparison = Comparison {
    program: "crates/switchlist/out/switchlist",
    groups: &GROUPS,
    read: |book| Reading::of(Table::of(book), |changes| kind(changes)),
    hold: by_bytes,
    in_library: false,
    lines: "changes",
    // A change from each K1 to each other alone comes to more than half of these.
    least: (100_000, "are due"),
    columns: &[
        ("   changes", |counts| counts.lines),
        ("  captures", |counts| {
            counts.of(Kind::Changed) + counts.of(Kind::Still)
        }),
        ("   still", |counts| counts.of(Kind::Still)),
    ],
    // Whatever its settings are, they have no part in it.
    tell: |_| String::new(),
};

fn kind(changes: &[Change]) -> Kind {
    if changes.is_empty() {
        Kind::Still
    } else {
        Kind::Changed
    }
}

/// Of the damaged books one of so many is taken: `peer books` has all of them, and it is
/// the same reader that they are put to.
const DAMAGED_TAKEN: usize = 5;

const CHANGED: &[Kind] = &[Kind::Changed];
const BOTH: &[Kind] = &[Kind::Changed, Kind::Still];
const ALL: &[Kind] = &[Kind::Changed, Kind::Still, Kind::RefusedBook];

const GROUPS: [Group; 8] = [
    group("judged", BOTH, books::sound),
    group("events", BOTH, || bind(&events::captures())),
    group("pairs", CHANGED, || bind(&made::pairs())),
    group("long", CHANGED, || bind(&made::long())),
    group("single", CHANGED, || bind(&made::single())),
    group("still", &[Kind::Still], || bind(&made::still())),
    group("counts", BOTH, made::by_count),
    group("damaged", ALL, damaged),
];

fn damaged() -> Vec<Vec<u8>> {
    let damaged = damage::books().into_iter();
    damaged.step_by(DAMAGED_TAKEN).collect()
}

#[cfg(test)]
mod tests {
    use super::*;

    #[test]
    fn every_refusal_of_the_reader_comes_up() {
        assert!(damage::have_every_refusal(&damaged()));
    }

    /// More than a pipe holds, by several times.
    #[test]
    fn some_books_have_long_tables() {
        let texts = COMPARISON
            .jobs()
            .into_iter()
            .map(|job| Table::of(&job.book).to_string().len());
        let long = texts.filter(|&length| length > 250_000).count();
        assert!(long >= 5, "{long}");
    }
}
