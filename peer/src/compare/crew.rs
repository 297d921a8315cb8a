//! The parts of all subjects, shared out among as many threads as there are
//! processors.

use super::tally::Tally;
use super::Subject;
use crate::door::Door;
use std::io::Write;
use std::num::NonZero;
use std::sync::atomic::{AtomicUsize, Ordering};
use std::sync::mpsc::{self, Receiver, Sender};
use std::thread;
use std::time::{Duration, Instant};

/// How the progress is told: over one line again and again, or by a line at a
/// time where that cannot be.
#[derive(Clone, Copy)]
pub enum Manner {
    Terminal,
    Lines,
}

impl Manner {
    fn pause(self) -> Duration {
        match self {
            Self::Terminal => Duration::from_millis(500),
            Self::Lines => Duration::from_secs(5),
        }
    }
}

/// A part of a subject, both by their numbers.
type Job = (usize, usize);

/// The tallies of the subjects, each joined in the order of its parts.
pub fn compare_all(
    library: &dyn Door,
    subjects: &[Subject],
    manner: Manner,
    progress: &mut impl Write,
) -> Vec<Tally> {
    let jobs: Vec<Job> = subjects
        .iter()
        .enumerate()
        .flat_map(|(number, subject)| (0..subject.parts).map(move |part| (number, part)))
        .collect();
    let next = AtomicUsize::new(0);
    let (sender, done) = mpsc::channel();
    let tallies = thread::scope(|scope| {
        for _ in 0..thread::available_parallelism().map_or(1, NonZero::get) {
            let (jobs, next, sender) = (&jobs, &next, sender.clone());
            scope.spawn(move || work(library, subjects, jobs, next, &sender));
        }
        // The channel ends when the last worker does.
        drop(sender);
        gather(done, jobs.len(), manner, progress)
    });
    join(subjects.len(), &jobs, tallies)
}

fn work(
    library: &dyn Door,
    subjects: &[Subject],
    jobs: &[Job],
    next: &AtomicUsize,
    sender: &Sender<(usize, Tally)>,
) {
    loop {
        let number = next.fetch_add(1, Ordering::Relaxed);
        let Some(&(subject, part)) = jobs.get(number) else {
            return;
        };
        let tally = (subjects[subject].compare)(library, part);
        if sender.send((number, tally)).is_err() {
            return;
        }
    }
}

fn gather(
    done: Receiver<(usize, Tally)>,
    jobs: usize,
    manner: Manner,
    progress: &mut impl Write,
) -> Vec<(usize, Tally)> {
    let mut tallies = Vec::with_capacity(jobs);
    let (mut calls, mut differences) = (0, 0);
    let mut told = Instant::now();
    for (number, tally) in done {
        calls += tally.calls;
        differences += tally.differences;
        tallies.push((number, tally));
        let last = tallies.len() == jobs;
        if last || told.elapsed() >= manner.pause() {
            told = Instant::now();
            let parts = tallies.len();
            let line = format!("{parts} of {jobs} parts, {calls} calls, {differences} differences");
            tell(progress, manner, &line, last);
        }
    }
    tallies
}

/// That it cannot be written is no reason to stop.
fn tell(progress: &mut impl Write, manner: Manner, line: &str, last: bool) {
    let (start, end) = match (manner, last) {
        (Manner::Lines, _) => ("", "\n"),
        (Manner::Terminal, true) => ("\r", "\n"),
        (Manner::Terminal, false) => ("\r", ""),
    };
    let told = write!(progress, "{start}{line}{end}");
    let _ = told.and_then(|()| progress.flush());
}

/// In order, so that it is the same each time whichever thread was first.
fn join(subjects: usize, jobs: &[Job], mut tallies: Vec<(usize, Tally)>) -> Vec<Tally> {
    tallies.sort_by_key(|&(number, _)| number);
    let mut joined = vec![Tally::default(); subjects];
    for (number, tally) in tallies {
        let (subject, _) = jobs[number];
        joined[subject].join(tally);
    }
    joined
}
