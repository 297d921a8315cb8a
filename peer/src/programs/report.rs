//! What the comparison comes to.

use super::compare::{Compared, Difference};
use super::{Comparison, Group, Job, Kind, Shown};
use crate::book::{self, Entry, STEP_BYTES};
use std::io::{self, Write};
use std::iter::repeat_n;

const MOST_SHOWN: usize = 5;
/// A capture of more rows, or a book of more lines of them, is shown in part.
const MOST_ROWS: usize = 300;

const WITHOUT_LIBRARY: &str = "no book by the library: this package was built without it";

/// A column: its head, which is as wide as all of it, and the number in it.
pub type Column = (&'static str, fn(&Counts) -> usize);

const BOOKS: Column = ("  books", |counts| counts.books);
const REFUSED_BOOKS: Column = ("  refused books", |counts| counts.of(Kind::RefusedBook));

/// What books come to.
#[derive(Clone, Copy, Default)]
pub struct Counts {
    books: usize,
    /// Those that were put to the library too.
    pub by_library: usize,
    pub lines: usize,
    kinds: [usize; Kind::ALL.len()],
}

impl Counts {
    fn add(&mut self, shown: &[Shown], by_library: bool) {
        self.books += 1;
        self.by_library += usize::from(by_library);
        for &Shown { kind, lines } in shown {
            self.lines += lines;
            self.kinds[kind as usize] += 1;
        }
    }

    fn sum(all: &[Self]) -> Self {
        let mut sum = Self::default();
        for counts in all {
            sum.books += counts.books;
            sum.by_library += counts.by_library;
            sum.lines += counts.lines;
            for (total, number) in sum.kinds.iter_mut().zip(counts.kinds) {
                *total += number;
            }
        }
        sum
    }

    pub fn of(&self, kind: Kind) -> usize {
        self.kinds[kind as usize]
    }

    fn shows(&self) -> Vec<Kind> {
        Kind::ALL
            .into_iter()
            .filter(|&kind| self.of(kind) > 0)
            .collect()
    }
}

pub struct Report<'a> {
    comparison: &'a Comparison,
    /// The library is there to be compared.
    linked: bool,
    jobs: &'a [Job],
    /// By the groups.
    counts: Vec<Counts>,
    /// With the number of the job, and who differs.
    differences: Vec<(usize, &'static str, Difference)>,
}

impl<'a> Report<'a> {
    pub fn new(comparison: &'a Comparison, linked: bool, jobs: &'a [Job]) -> Self {
        Self {
            comparison,
            linked,
            jobs,
            counts: vec![Counts::default(); comparison.groups.len()],
            differences: Vec::new(),
        }
    }

    /// In whatever order the jobs are finished.
    pub fn add(&mut self, job: usize, compared: Compared) {
        let Compared {
            shown,
            program,
            library,
        } = compared;
        self.counts[self.jobs[job].group].add(&shown, library.is_some());
        let library = library.unwrap_or_default();
        for (who, found) in [("program", program), ("library", library)] {
            let told = found.into_iter().map(|difference| (job, who, difference));
            self.differences.extend(told);
        }
    }

    /// What there is to say while it is not finished.
    pub fn progress(&self) -> String {
        let Counts { books, lines, .. } = Counts::sum(&self.counts);
        let (jobs, differences) = (self.jobs.len(), self.differences.len());
        let what = self.comparison.lines;
        format!("{books} of {jobs} books, {lines} {what}, {differences} differences")
    }

    pub fn is_clean(&self) -> bool {
        self.differences.is_empty() && self.shortcomings().is_empty()
    }

    /// The counts come last, where they are seen.
    pub fn write(&mut self, out: &mut impl Write) -> io::Result<()> {
        // Stable, so those of one book keep their order.
        self.differences.sort_by_key(|&(job, ..)| job);
        for (job, who, difference) in self.differences.iter().take(MOST_SHOWN) {
            self.write_difference(out, *job, who, difference)?;
        }
        self.write_line(out, "group", |(head, _)| head.into())?;
        for (group, counts) in self.groups_with_counts() {
            self.write_line(out, group.name, |(_, number)| number(counts).to_string())?;
        }
        let sum = Counts::sum(&self.counts);
        self.write_line(out, "total", |(_, number)| number(&sum).to_string())?;
        if self.comparison.in_library && !self.linked {
            writeln!(out, "{WITHOUT_LIBRARY}")?;
        }
        for shortcoming in self.shortcomings() {
            writeln!(out, "{shortcoming}")?;
        }
        writeln!(out, "{} differences", self.differences.len())
    }

    /// A line of the table of the counts.
    fn write_line(
        &self,
        out: &mut impl Write,
        name: &str,
        cell: impl Fn(Column) -> String,
    ) -> io::Result<()> {
        write!(out, "{name:<10}")?;
        let columns = self.comparison.columns.iter().copied();
        for column in [BOOKS].into_iter().chain(columns).chain([REFUSED_BOOKS]) {
            let (head, _) = column;
            write!(out, "{:>width$}", cell(column), width = head.len())?;
        }
        writeln!(out)
    }

    fn groups_with_counts(&self) -> impl Iterator<Item = (&Group, &Counts)> {
        self.comparison.groups.iter().zip(&self.counts)
    }

    /// A comparison is worth no more than what it comes by, so that is checked
    /// whenever it is made.
    fn shortcomings(&self) -> Vec<String> {
        let mut found = Vec::new();
        let sum = Counts::sum(&self.counts);
        let (books, called, lines) = (sum.books, sum.by_library, sum.lines);
        if self.comparison.in_library && self.linked && called < books {
            found.push(format!("{called} books by the library, {books} are due"));
        }
        let (what, (least, due)) = (self.comparison.lines, self.comparison.least);
        if lines < least {
            found.push(format!("{lines} {what}, {least} {due}"));
        }
        for (Group { name, shows, .. }, counts) in self.groups_with_counts() {
            if counts.shows() != *shows {
                found.push(format!("{name} shows {:?}, not {shows:?}", counts.shows()));
            }
        }
        found
    }

    fn write_difference(
        &self,
        out: &mut impl Write,
        job: usize,
        who: &str,
        difference: &Difference,
    ) -> io::Result<()> {
        let Job { group, book } = &self.jobs[job];
        let Comparison {
            groups, read, tell, ..
        } = self.comparison;
        let name = groups[*group].name;
        let capture = difference
            .row
            .and_then(|row| capture_of(&read(book).shown, row));
        match captured(book, capture) {
            Some((number, entry)) => {
                let told = tell(&entry);
                writeln!(out, "{name}, book {job}, capture {number}:{told}")?;
                write_rows(out, book::body(book, &entry), STEP_BYTES)?;
            }
            None => {
                writeln!(out, "{name}, book {job} of {} bytes:", book.len())?;
                write_rows(out, book, 16)?;
            }
        }
        writeln!(out, "  peer:    {}", difference.ours)?;
        writeln!(out, "  {who}: {}", difference.theirs)
    }
}

/// The capture that a line below the header is of.
fn capture_of(shown: &[Shown], row: usize) -> Option<usize> {
    let captures = shown.iter().enumerate();
    let mut lines = captures.flat_map(|(number, shown)| repeat_n(number, shown.lines));
    lines.nth(row)
}

/// The capture that a difference is about, if the book has it.
fn captured(book: &[u8], number: Option<usize>) -> Option<(usize, Entry)> {
    let contents = book::read(book).ok()?;
    let number = number?;
    let entry = contents.entries()?.get(number)?;
    Some((number, *entry))
}

fn write_rows(out: &mut impl Write, bytes: &[u8], row_bytes: usize) -> io::Result<()> {
    let rows = bytes.chunks(row_bytes);
    let more = rows.len().saturating_sub(MOST_ROWS);
    for row in rows.take(MOST_ROWS) {
        let words: Vec<String> = row.iter().map(|byte| format!("{byte:02X}")).collect();
        writeln!(out, "  {}", words.join(" "))?;
    }
    if more > 0 {
        writeln!(out, "  and {more} rows more")?;
    }
    Ok(())
}

#[cfg(test)]
mod tests {
    use super::super::group;
    use super::*;
    use crate::causes::printed;
    use crate::trials::PAPER_BOOK;
    use crate::{books, lists};

    const JUDGED: Comparison = Comparison {
        groups: &[group(
            "paper",
            &[Kind::Explained, Kind::Unexplained],
            Vec::new,
        )],
        ..books::COMPARISON
    };
    const LISTED: Comparison = Comparison {
        groups: &[group(
            "paper",
            &[Kind::Changed, Kind::RefusedBook],
            Vec::new,
        )],
        ..lists::COMPARISON
    };
    const CAUSED: Comparison = Comparison {
        groups: JUDGED.groups,
        ..printed::COMPARISON
    };

    fn jobs() -> Vec<Job> {
        [PAPER_BOOK.to_vec(), vec![1; 3]]
            .map(|book| Job { group: 0, book })
            .into()
    }

    fn written(report: &mut Report) -> String {
        let mut out = Vec::new();
        report.write(&mut out).unwrap();
        String::from_utf8(out).unwrap()
    }

    fn in_line(row: usize) -> Vec<Difference> {
        vec![Difference {
            row: Some(row),
            ours: "this".into(),
            theirs: "that".into(),
        }]
    }

    /// Of both books, the second first, with a difference in these lines: of the program,
    /// and in the second book of the library where that takes part. With what is told of
    /// the progress at the end.
    fn reported(comparison: &Comparison, [first, second]: [usize; 2]) -> String {
        let jobs = jobs();
        let mut report = Report::new(comparison, true, &jobs);
        let [first, second] = [first, second].map(in_line);
        let (by_program, by_library) = if comparison.in_library {
            (Vec::new(), Some(second))
        } else {
            (second, None)
        };
        for (job, program, library) in [
            (1, by_program, by_library),
            (0, first, comparison.in_library.then(Vec::new)),
        ] {
            let shown = (comparison.read)(&jobs[job].book).shown;
            let compared = Compared {
                shown,
                program,
                library,
            };
            report.add(job, compared);
        }
        assert!(!report.is_clean());
        written(&mut report) + &report.progress()
    }

    const JUDGED_COUNTS: &str = "\
group       books  captures  explained  unexplained  books by library  refused books
paper           2         2          1            1                 2              1
total           2         2          1            1                 2              1
2 captures, 20000 are asked for
paper shows [Explained, Unexplained, RefusedBook], not [Explained, Unexplained]
2 differences
2 of 2 books, 2 captures, 2 differences";
    const LISTED_COUNTS: &str = "\
group       books   changes  captures   still  refused books
paper           2         3         2       0              1
total           2         3         2       0              1
3 changes, 100000 are due
2 differences
2 of 2 books, 3 changes, 2 differences";
    const CAUSED_COUNTS: &str = "\
group       books     steps  explained  unexplained  refused books
paper           2         3          1            1              1
total           2         3          1            1              1
4 lines, 250000 are due
paper shows [Explained, Unexplained, RefusedBook], not [Explained, Unexplained]
2 differences
2 of 2 books, 4 lines, 2 differences";

    /// In the line of the second capture, and in a line of a book that has none.
    #[test]
    fn differences_are_shown_in_full_and_in_order() {
        let settings = " n 2, options 0, mask 0000, W 3";
        for (comparison, row, told, second, counts) in [
            (&JUDGED, 1, settings, "library", JUDGED_COUNTS),
            (&LISTED, 2, "", "program", LISTED_COUNTS),
            (&CAUSED, 3, settings, "program", CAUSED_COUNTS),
        ] {
            let expected = format!(
                "\
paper, book 0, capture 1:{told}
  00 08 A2 08
  22 28 A2 08
  peer:    this
  program: that
paper, book 1 of 3 bytes:
  01 01 01
  peer:    this
  {second}: that
{counts}"
            );
            assert_eq!(reported(comparison, [row, 0]), expected);
        }
    }

    #[test]
    fn lines_are_of_the_captures_in_turn() {
        let shown = (LISTED.read)(&PAPER_BOOK).shown;
        let captures = [0, 1, 2, 3].map(|row| capture_of(&shown, row));
        assert_eq!(captures, [Some(0), Some(0), Some(1), None]);
        assert_eq!(capture_of(&(LISTED.read)(&[]).shown, 0), None);
    }

    /// Each kind once, with so many lines.
    fn come_by(comparison: &Comparison, kinds: &[Kind], lines: usize) -> (bool, String) {
        let shown = kinds.iter().map(|&kind| Shown { kind, lines });
        one_book(comparison, [true; 2], shown.collect())
    }

    /// Whether the library is linked, and whether the book is put to it if it has to be.
    fn one_book(
        comparison: &Comparison,
        [linked, called]: [bool; 2],
        shown: Vec<Shown>,
    ) -> (bool, String) {
        let jobs = jobs();
        let mut report = Report::new(comparison, linked, &jobs);
        let compared = Compared {
            shown,
            program: Vec::new(),
            library: (comparison.in_library && called).then(Vec::new),
        };
        report.add(0, compared);
        (report.is_clean(), written(&mut report))
    }

    #[test]
    fn a_group_has_to_show_what_it_is_for() {
        for comparison in [JUDGED, LISTED, CAUSED] {
            let (least, _) = comparison.least;
            let due = comparison.groups[0].shows;
            let more = [due, &[Kind::Still]].concat();
            for (kinds, lines, expected) in [
                (due, least / 2, true),
                (due, least / 2 - 1, false),
                (&due[..1], least, false),
                (&more, least, false),
            ] {
                let (clean, text) = come_by(&comparison, kinds, lines);
                assert_eq!(clean, expected, "{text}");
                assert!(text.ends_with("\n0 differences\n"));
            }
        }
        let (_, text) = come_by(&JUDGED, &[Kind::Explained], 10_000);
        assert!(text.contains("10000 captures, 20000 are asked for"));
    }

    const NOT_CALLED: &str = "\n0 books by the library, 1 are due\n";

    #[test]
    fn every_book_is_due_by_the_library_if_it_is_linked() {
        for (comparison, library, expected, told) in [
            (JUDGED, [true, true], true, [false, false]),
            (JUDGED, [true, false], false, [true, false]),
            (JUDGED, [false, false], true, [false, true]),
            (LISTED, [true, false], true, [false, false]),
            (LISTED, [false, false], true, [false, false]),
            (CAUSED, [true, false], true, [false, false]),
            (CAUSED, [false, false], true, [false, false]),
        ] {
            let (lines, _) = comparison.least;
            let shown = comparison.groups[0].shows.iter();
            let shown = shown.map(|&kind| Shown { kind, lines }).collect();
            let (clean, text) = one_book(&comparison, library, shown);
            assert_eq!(clean, expected, "{text}");
            let found = [NOT_CALLED, WITHOUT_LIBRARY].map(|line| text.contains(line));
            assert_eq!(found, told, "{text}");
        }
    }

    #[test]
    fn no_more_rows_are_shown_than_one_can_read() {
        let mut out = Vec::new();
        write_rows(&mut out, &[0xAB; 4 * 302], 4).unwrap();
        let text = String::from_utf8(out).unwrap();
        assert_eq!(text.lines().count(), 301);
        assert!(text.ends_with("  AB AB AB AB\n  and 2 rows more\n"));
    }
}
