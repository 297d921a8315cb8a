//! The table of the program `causes`, with the causes that are found here.

use super::fill::fill;
use super::line::{Line, Step, HEADER};
use super::Cause;
use crate::book::{self, Entry};
use crate::judge::{judge, rows_of, Verdict};
use crate::table::{self, Captured};

pub type Table = table::Table<Vec<Line>>;

impl Captured for Vec<Line> {
    const HEADER: &'static str = HEADER;

    type Line = Line;

    /// The verdict is that of the judge by brute force, which was written from the papers
    /// alone. The causes need not be: they are run through the controller.
    fn of(book: &[u8], entry: &Entry) -> Self {
        let verdict = judge(entry.settings(), book::body(book, entry));
        match verdict.expect("a capture that was read is not refused") {
            Verdict::Explained(_) => steps(book, entry),
            Verdict::Unexplained(step) => vec![Line::Unexplained(step)],
        }
    }

    fn lines(&self) -> &[Line] {
        self
    }
}

/// The lines of an explained capture.
fn steps(book: &[u8], entry: &Entry) -> Vec<Line> {
    let capture = book::body(book, entry);
    let rows = rows_of(capture).expect("a capture that was read is not refused");
    let (mut conditions, mut commands) = (vec![0; rows.len()], vec![0; rows.len()]);
    let filled = fill(entry.settings(), capture, &mut conditions, &mut commands);
    assert_eq!(filled, Ok(Verdict::Explained(rows.len())));
    let words = conditions.into_iter().zip(commands);
    rows.iter()
        .zip(words)
        .enumerate()
        .map(|(number, (&row, (conditions, command)))| {
            let cause = Cause::of_words(entry.n, conditions, command);
            let cause = cause.expect("words that are filled here");
            Line::Step(Step { number, row, cause })
        })
        .collect()
}

#[cfg(test)]
mod tests;
