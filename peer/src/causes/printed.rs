//! The comparison of `peer causes`: the causes that a program prints of a book are put to
//! the controller of this reading.

use super::line::{Line, Step};
use super::table::Table;
use super::Fault;
use crate::book::{self, Contents};
use crate::books;
use crate::controller::{self, Record};
use crate::programs::{Comparison, Difference, Kind, Lines, Reading};

pub const COMPARISON: Comparison = Comparison {
    program: "crates/causes/out/causes",
    groups: &books::GROUPS,
    read: |book| Reading::of(Table::of(book), |lines| kind(lines)),
    hold: by_replay,
    in_library: false,
    lines: "lines",
    // The steps of the long runs alone come to a quarter of these.
    least: (250_000, "are due"),
    columns: &[
        // A capture without an explanation has a line too, which is not of a step.
        ("     steps", |counts| {
            counts.lines - counts.of(Kind::Unexplained)
        }),
        ("  explained", |counts| counts.of(Kind::Explained)),
        ("  unexplained", |counts| counts.of(Kind::Unexplained)),
    ],
    tell: books::COMPARISON.tell,
};

fn kind(lines: &[Line]) -> Kind {
    match lines {
        [Line::Unexplained(_), ..] => Kind::Unexplained,
        _ => Kind::Explained,
    }
}

/// A cause may be any that sends what was captured. All else is as it is printed here.
fn by_replay(book: &[u8], lines: Lines) -> Vec<Difference> {
    let mut replay = Replay {
        contents: book::read(book).unwrap_or(Contents::ZEROS),
        reached: None,
    };
    lines.differences(|ours, theirs| replay.hold(ours, theirs))
}

/// A controller that is run under what is printed, from capture to capture.
struct Replay {
    contents: Contents,
    /// What the steps of the capture so far have led to. After one that went wrong there
    /// is nothing to go on from, and the other steps count only for how they are printed.
    reached: Option<Record>,
}

impl Replay {
    fn hold(&mut self, ours: Option<&[u8]>, theirs: Option<&[u8]>) -> Result<(), String> {
        let [expected, printed] = [ours, theirs].map(|line| line.and_then(Line::read));
        match (expected, printed) {
            (Some((capture, Line::Step(expected))), Some((number, Line::Step(printed))))
                if (number, printed.number, printed.row)
                    == (capture, expected.number, expected.row) =>
            {
                let held = self.step(capture, &printed);
                held.map_err(|fault| format!(", which {fault}"))
            }
            _ if ours == theirs => Ok(()),
            _ => {
                self.reached = None;
                Err(String::new())
            }
        }
    }

    fn step(&mut self, capture: usize, step: &Step) -> Result<(), Fault> {
        if step.number == 0 {
            let fresh = controller::fresh(self.contents.places[capture].settings());
            self.reached = Some(fresh.expect("settings that were read"));
        }
        let Some(before) = self.reached.take() else {
            return Ok(());
        };
        self.reached = Some(step.cause.outcome(before, step.row)?);
        Ok(())
    }
}

#[cfg(test)]
mod tests;
