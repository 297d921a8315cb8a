//! One book, put to both programs, and to the library.

use super::{page, process, Comparison, Others, Reading, Shown};
use std::io;
use std::process::Output;

/// Something in which another does not agree with this reading.
#[derive(Debug, PartialEq, Eq)]
pub struct Difference {
    /// The line below the header that is not the same, if it is one.
    pub row: Option<usize>,
    pub ours: String,
    pub theirs: String,
}

/// What became of one book.
pub struct Compared {
    /// By this reading.
    pub shown: Vec<Shown>,
    /// In what the program prints.
    pub program: Vec<Difference>,
    /// In what the library makes of the book, if it was put to it.
    pub library: Option<Vec<Difference>>,
}

pub fn compare(others: Others, comparison: &Comparison, book: &[u8]) -> io::Result<Compared> {
    let Reading { text, shown } = (comparison.read)(book);
    let output = process::run(others.program, book)?;
    let lines = Lines::of(text.as_bytes(), &output.stdout);
    let mut program = (comparison.hold)(book, lines);
    program.extend(other_differences(&output));
    let library = others.library.filter(|_| comparison.in_library);
    Ok(Compared {
        shown,
        program,
        library: library.map(|library| page::differences(library, book, &text)),
    })
}

/// The table is all that is printed. The paper is silent on the exit status: here
/// to print a table is a success, whatever the table says.
fn other_differences(theirs: &Output) -> Vec<Difference> {
    let mut found = Vec::new();
    if !theirs.status.success() {
        found.push(Difference {
            row: None,
            ours: "exit status: 0".into(),
            theirs: theirs.status.to_string(),
        });
    }
    if !theirs.stderr.is_empty() {
        found.push(Difference {
            row: None,
            ours: "nothing on standard error".into(),
            theirs: shown(lines(&theirs.stderr).first().copied()),
        });
    }
    found
}

/// What this reading has, and what was printed, line by line. Texts that differ in any
/// byte have such a line: what follows the last line feed counts as one.
pub struct Lines<'a> {
    ours: Vec<&'a [u8]>,
    theirs: Vec<&'a [u8]>,
}

impl<'a> Lines<'a> {
    pub fn of(ours: &'a [u8], theirs: &'a [u8]) -> Self {
        let [ours, theirs] = [ours, theirs].map(lines);
        Self { ours, theirs }
    }

    /// One difference for each line that does not hold, with what is to be said of the
    /// printed one. Either may be missing.
    pub fn differences(
        &self,
        mut hold: impl FnMut(Option<&[u8]>, Option<&[u8]>) -> Result<(), String>,
    ) -> Vec<Difference> {
        let lines = |number| [&self.ours, &self.theirs].map(|lines| lines.get(number).copied());
        (0..self.ours.len().max(self.theirs.len()))
            .filter_map(|number| {
                let [ours, theirs] = lines(number);
                let said = hold(ours, theirs).err()?;
                Some(Difference {
                    row: number.checked_sub(1),
                    ours: shown(ours),
                    theirs: shown(theirs) + &said,
                })
            })
            .collect()
    }
}

/// For a table that is one and the same for all who print it.
pub fn by_bytes(_: &[u8], lines: Lines) -> Vec<Difference> {
    lines.differences(|ours, theirs| {
        let same = (ours == theirs).then_some(());
        same.ok_or_else(String::new)
    })
}

fn lines(text: &[u8]) -> Vec<&[u8]> {
    text.split(|&byte| byte == b'\n').collect()
}

fn shown(line: Option<&[u8]>) -> String {
    line.map_or("(no line)".into(), |line| {
        format!("\"{}\"", line.escape_ascii())
    })
}

#[cfg(all(test, unix))]
mod tests {
    use super::super::Kind;
    use super::*;
    use crate::causes::printed;
    use crate::compare::tests::{tables, Fake};
    use crate::door::{Door, Peer};
    use crate::trials::PAPER_BOOK;
    use crate::{books, lists};
    use std::os::unix::process::ExitStatusExt;
    use std::path::Path;
    use std::process::ExitStatus;

    const TABLE: &str = "capture sections steps verdict at\n0 2 3 explained 3\n";

    fn output(status: i32, stdout: &str, stderr: &str) -> Output {
        Output {
            status: ExitStatus::from_raw(status),
            stdout: stdout.into(),
            stderr: stderr.into(),
        }
    }

    fn differences(theirs: &[u8]) -> Vec<Difference> {
        by_bytes(&[], Lines::of(TABLE.as_bytes(), theirs))
    }

    fn rows_differing(stdout: &str) -> Vec<Option<usize>> {
        let found = differences(stdout.as_bytes()).into_iter();
        found.map(|difference| difference.row).collect()
    }

    #[test]
    fn the_same_text_has_no_difference() {
        assert_eq!(differences(TABLE.as_bytes()), []);
        assert_eq!(other_differences(&output(0, TABLE, "")), []);
    }

    #[test]
    fn every_byte_of_the_text_counts() {
        for place in 0..TABLE.len() {
            let mut other = TABLE.as_bytes().to_vec();
            other[place] ^= 1;
            assert!(!differences(&other).is_empty());
            assert!(!differences(&other[..place]).is_empty());
        }
        assert!(!rows_differing(&TABLE.replace('\n', "\r\n")).is_empty());
        assert!(!rows_differing(&format!("{TABLE}\n")).is_empty());
    }

    #[test]
    fn a_difference_names_the_line_below_the_header() {
        let wrong = TABLE.replace("explained 3", "unexplained 2");
        let expected = Difference {
            row: Some(0),
            ours: "\"0 2 3 explained 3\"".into(),
            theirs: "\"0 2 3 unexplained 2\"".into(),
        };
        assert_eq!(differences(wrong.as_bytes()), [expected]);
        assert_eq!(rows_differing("refused 20\n"), [None, Some(0), Some(1)]);
    }

    #[test]
    fn the_status_and_standard_error_count_too() {
        assert_eq!(other_differences(&output(256, TABLE, "")).len(), 1);
        assert_eq!(other_differences(&output(9, TABLE, "late")).len(), 2);
    }

    fn others<'a>(program: &'a str, library: Option<&'a dyn Door>) -> Others<'a> {
        Others {
            program: Path::new(program),
            library,
        }
    }

    fn with_nothing(comparison: &Comparison, book: &[u8]) -> (Vec<(Kind, usize)>, usize) {
        let compared = compare(others("/bin/true", None), comparison, book).unwrap();
        let shown = compared.shown.iter().map(|shown| (shown.kind, shown.lines));
        assert_eq!(compared.library, None);
        (shown.collect(), compared.program.len())
    }

    /// There are the header, the lines and the end to miss.
    #[test]
    fn a_program_that_answers_nothing_differs() {
        let judged = vec![(Kind::Explained, 1), (Kind::Unexplained, 1)];
        let listed = vec![(Kind::Changed, 2), (Kind::Changed, 1)];
        let caused = vec![(Kind::Explained, 3), (Kind::Unexplained, 1)];
        for (comparison, shown, differences) in [
            (&books::COMPARISON, judged, 4),
            (&lists::COMPARISON, listed, 5),
            (&printed::COMPARISON, caused, 6),
        ] {
            let refused = vec![(Kind::RefusedBook, 0)];
            assert_eq!(with_nothing(comparison, &PAPER_BOOK), (shown, differences));
            assert_eq!(with_nothing(comparison, &[]), (refused, 2));
            assert!(compare(others("no/such/program", None), comparison, &[]).is_err());
        }
    }

    /// How many differences each of them has, from those in the paper's book.
    fn with_library(comparison: &Comparison, library: &dyn Door) -> (usize, Option<usize>) {
        let others = others("/bin/true", Some(library));
        let compared = compare(others, comparison, &PAPER_BOOK).unwrap();
        let by_library = compared.library.map(|found| found.len());
        (compared.program.len(), by_library)
    }

    #[test]
    fn program_and_library_are_told_apart() {
        let wrong = tables::NOTHING;
        for (comparison, right, nothing) in [
            (&books::COMPARISON, (4, Some(0)), (4, Some(4))),
            (&lists::COMPARISON, (5, None), (5, None)),
            (&printed::COMPARISON, (6, None), (6, None)),
        ] {
            assert_eq!(with_library(comparison, &Peer), right);
            assert_eq!(with_library(comparison, &Fake { wrong }), nothing);
        }
    }
}
