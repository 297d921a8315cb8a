//! All books, shared out among as many threads as there are processors.

use super::compare::{compare, Compared};
use super::report::Report;
use super::{Comparison, Job, Others};
use std::io::{self, Write};
use std::num::NonZero;
use std::sync::atomic::{AtomicUsize, Ordering};
use std::sync::mpsc::{self, Receiver, Sender};
use std::thread;
use std::time::{Duration, Instant};

const PROGRESS_EVERY: Duration = Duration::from_millis(250);

/// A job's number, and what came of it.
type Done = (usize, io::Result<Compared>);

/// Ends with the first error, which is one of running the program. How far it
/// has come is told to `progress`.
pub fn compare_all(
    others: Others,
    comparison: &Comparison,
    jobs: &[Job],
    report: &mut Report,
    progress: &mut impl Write,
) -> io::Result<()> {
    let next = AtomicUsize::new(0);
    let (sender, done) = mpsc::channel();
    thread::scope(|scope| {
        for _ in 0..thread::available_parallelism().map_or(1, NonZero::get) {
            let (next, sender) = (&next, sender.clone());
            scope.spawn(move || work(others, comparison, jobs, next, &sender));
        }
        // The channel ends when the last worker does.
        drop(sender);
        gather(done, report, progress)
    })
}

/// Takes jobs until there are none left, or nobody wants to know.
fn work(
    others: Others,
    comparison: &Comparison,
    jobs: &[Job],
    next: &AtomicUsize,
    sender: &Sender<Done>,
) {
    loop {
        let number = next.fetch_add(1, Ordering::Relaxed);
        let Some(job) = jobs.get(number) else {
            return;
        };
        let compared = compare(others, comparison, &job.book);
        if sender.send((number, compared)).is_err() {
            return;
        }
    }
}

fn gather(done: Receiver<Done>, report: &mut Report, progress: &mut impl Write) -> io::Result<()> {
    let mut told = Instant::now();
    for (number, compared) in done {
        report.add(number, compared?);
        if told.elapsed() >= PROGRESS_EVERY {
            told = Instant::now();
            tell(progress, report, "");
        }
    }
    tell(progress, report, "\n");
    Ok(())
}

/// Over the same line again. That it cannot be written is no reason to stop.
fn tell(progress: &mut impl Write, report: &Report, end: &str) {
    let told = write!(progress, "\r{}{end}", report.progress());
    let _ = told.and_then(|()| progress.flush());
}

#[cfg(all(test, unix))]
mod tests {
    use super::super::group;
    use super::*;
    use crate::books::COMPARISON;
    use crate::compare::tests::{tables, Fake};
    use crate::door::{Door, Peer};
    use crate::trials::PAPER_BOOK;
    use std::path::Path;

    const PAPER: Comparison = Comparison {
        groups: &[group("paper", &[], Vec::new)],
        ..COMPARISON
    };

    /// Twenty times the same book, put to those two. The answer is the last that is told of
    /// the progress.
    fn compared(program: &str, library: &dyn Door) -> io::Result<String> {
        let job = |_| Job {
            group: 0,
            book: PAPER_BOOK.to_vec(),
        };
        let jobs: Vec<Job> = (0..20).map(job).collect();
        let mut report = Report::new(&PAPER, true, &jobs);
        let mut progress = Vec::new();
        let others = Others {
            program: Path::new(program),
            library: Some(library),
        };
        compare_all(others, &PAPER, &jobs, &mut report, &mut progress)?;
        Ok(String::from_utf8_lossy(&progress).into_owned())
    }

    #[test]
    fn every_book_is_compared_once() {
        let progress = compared("/bin/true", &Peer).unwrap();
        assert!(progress.ends_with("\r20 of 20 books, 40 captures, 80 differences\n"));
    }

    #[test]
    fn every_book_is_put_to_the_library_too() {
        let wrong = tables::NOTHING;
        let progress = compared("/bin/true", &Fake { wrong }).unwrap();
        assert!(progress.ends_with("\r20 of 20 books, 40 captures, 160 differences\n"));
    }

    #[test]
    fn a_program_that_cannot_be_run_ends_it() {
        assert!(compared("no/such/program", &Peer).is_err());
    }
}
