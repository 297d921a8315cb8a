//! The comparisons of `peer books`, `peer lists` and `peer causes`: books are made,
//! another program is run on each of them, and what it prints is held against the table
//! that this reading prints, byte for byte where there is one answer. Where the library
//! makes that table too, each book is also put to the library.

mod compare;
mod crew;
mod page;
mod process;
mod report;

use crate::book::Entry;
use crate::door::Door;
use crate::table::{Captured, Table};
pub use compare::{by_bytes, Difference, Lines};
use report::{Column, Report};
use std::io;
use std::path::Path;

/// A program, the books it is put to, and the words for what comes of them.
pub struct Comparison {
    /// The proved program itself, which `rt run` builds, on the machine that it is
    /// compiled for; elsewhere another file has to be named. The scripts at the root
    /// are not compared here: they look for changes of the source on every run, and say
    /// so, which for thousands of books would take many minutes.
    pub program: &'static str,
    /// In the order in which they are reported.
    pub groups: &'static [Group],
    pub read: fn(&[u8]) -> Reading,
    /// How the lines of a book that this reading has differ from those that are printed.
    pub hold: fn(&[u8], Lines) -> Vec<Difference>,
    /// Whether it is the table that `Door::table` makes.
    pub in_library: bool,
    /// What a line of its tables is about.
    pub lines: &'static str,
    /// How many lines have to come up, and the words for that.
    pub least: (usize, &'static str),
    /// Between those of the books and of the refused books.
    pub columns: &'static [Column],
    /// What is told of a capture that differs, behind its number.
    pub tell: fn(&Entry) -> String,
}

/// Who is compared with this reading.
#[derive(Clone, Copy)]
pub struct Others<'a> {
    pub program: &'a Path,
    /// If this package was built with it.
    pub library: Option<&'a dyn Door>,
}

/// Books of one sort.
pub struct Group {
    name: &'static str,
    /// What its books show by this reading: all of these, and nothing else.
    shows: &'static [Kind],
    books: fn() -> Vec<Vec<u8>>,
}

pub const fn group(
    name: &'static str,
    shows: &'static [Kind],
    books: fn() -> Vec<Vec<u8>>,
) -> Group {
    Group { name, shows, books }
}

impl Group {
    pub fn books(&self) -> Vec<Vec<u8>> {
        (self.books)()
    }
}

/// What books may show: the first two by the judge and by causes, the next two by the
/// list.
#[derive(Clone, Copy, Debug, PartialEq, Eq)]
pub enum Kind {
    Explained,
    Unexplained,
    /// A capture with changes.
    Changed,
    /// A capture without.
    Still,
    RefusedBook,
}

impl Kind {
    const ALL: [Self; 5] = [
        Self::Explained,
        Self::Unexplained,
        Self::Changed,
        Self::Still,
        Self::RefusedBook,
    ];
}

/// What a capture shows, and how many lines it has. A refused book counts as one that
/// has none: its captures are not known.
#[derive(Clone, Copy, Debug, PartialEq, Eq)]
pub struct Shown {
    kind: Kind,
    lines: usize,
}

/// What this reading makes of a book.
pub struct Reading {
    text: String,
    shown: Vec<Shown>,
}

impl Reading {
    pub fn of<T: Captured>(table: Table<T>, kind: fn(&T) -> Kind) -> Self {
        let text = table.to_string();
        let shown = match table {
            Table::Captures(captures) => captures
                .iter()
                .map(|capture| Shown {
                    kind: kind(capture),
                    lines: capture.lines().len(),
                })
                .collect(),
            Table::Refused(_) => vec![Shown {
                kind: Kind::RefusedBook,
                lines: 0,
            }],
        };
        Self { text, shown }
    }

    #[cfg(test)]
    pub fn kinds(&self) -> Vec<Kind> {
        self.shown.iter().map(|shown| shown.kind).collect()
    }
}

/// A book to be compared.
pub struct Job {
    /// The place of its group.
    pub group: usize,
    pub book: Vec<u8>,
}

/// What the comparison found.
pub struct Finding {
    /// Neither a difference, nor a group that does not show what it is for.
    pub clean: bool,
    pub text: Vec<u8>,
}

impl Comparison {
    /// Compares this reading with the others. The error is that of running the program.
    pub fn compare(&self, others: Others) -> io::Result<Finding> {
        // A program that cannot be run shows here, before any book is made.
        process::run(others.program, &[])?;
        let jobs = self.jobs();
        let mut report = Report::new(self, others.library.is_some(), &jobs);
        crew::compare_all(others, self, &jobs, &mut report, &mut io::stderr())?;
        let mut text = Vec::new();
        report.write(&mut text)?;
        Ok(Finding {
            clean: report.is_clean(),
            text,
        })
    }

    pub fn jobs(&self) -> Vec<Job> {
        let groups = self.groups.iter().enumerate();
        groups
            .flat_map(|(group, made)| {
                let books = made.books().into_iter();
                books.map(move |book| Job { group, book })
            })
            .collect()
    }
}

#[cfg(test)]
mod tests {
    use super::compare::Compared;
    use super::*;
    use crate::lists;

    /// As with a program that is right. The judge would take too long for this.
    #[test]
    fn the_groups_show_what_they_are_for() {
        let jobs = lists::COMPARISON.jobs();
        let mut report = Report::new(&lists::COMPARISON, true, &jobs);
        for (number, Job { book, .. }) in jobs.iter().enumerate() {
            let compared = Compared {
                shown: (lists::COMPARISON.read)(book).shown,
                program: Vec::new(),
                library: None,
            };
            report.add(number, compared);
        }
        let mut text = Vec::new();
        report.write(&mut text).expect("memory takes every write");
        assert!(report.is_clean(), "{}", String::from_utf8_lossy(&text));
    }
}
