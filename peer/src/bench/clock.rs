//! Two sides of the same work, timed in turn.

use std::time::{Duration, Instant};

/// Odd, so that the median is one of them.
pub const RUNS: usize = 41;
/// Long enough for the clock, and short enough that both sides of a run meet with
/// the same machine.
const RUN: Duration = Duration::from_millis(4);

/// Nanoseconds of one piece of work.
#[derive(Clone, Copy, Debug, PartialEq)]
pub struct Spread {
    pub lower_quarter: f64,
    pub median: f64,
    pub upper_quarter: f64,
}

impl Spread {
    fn of(mut times: [f64; RUNS]) -> Self {
        times.sort_by(f64::total_cmp);
        Self {
            lower_quarter: times[RUNS / 4],
            median: times[RUNS / 2],
            upper_quarter: times[RUNS - 1 - RUNS / 4],
        }
    }
}

#[derive(Clone, Copy, Debug)]
pub struct Measured {
    pub rattle: Spread,
    pub rust: Spread,
}

/// Does one piece of work of each side in turn, many times over. Which of them
/// comes first changes from run to run. It is the slower side that sets how much a
/// run does, so that a run ends in time however far apart they are.
pub fn measure(mut rattle: impl FnMut(), mut rust: impl FnMut()) -> Measured {
    let repeats = repeats_of(&mut rust).min(repeats_of(&mut rattle));
    let (mut first, mut second) = ([0.0; RUNS], [0.0; RUNS]);
    for run in 0..RUNS {
        if run % 2 == 0 {
            first[run] = time(&mut rattle, repeats);
            second[run] = time(&mut rust, repeats);
        } else {
            second[run] = time(&mut rust, repeats);
            first[run] = time(&mut rattle, repeats);
        }
    }
    Measured {
        rattle: Spread::of(first),
        rust: Spread::of(second),
    }
}

fn time(work: &mut impl FnMut(), repeats: u32) -> f64 {
    let start = Instant::now();
    for _ in 0..repeats {
        work();
    }
    start.elapsed().as_nanos() as f64 / f64::from(repeats)
}

/// As many as take about the time of a run. Doubling them warms up as well.
fn repeats_of(work: &mut impl FnMut()) -> u32 {
    let is_enough = |&repeats: &u32| {
        let taken = time(work, repeats) * f64::from(repeats);
        taken >= RUN.as_nanos() as f64
    };
    (0..u32::BITS)
        .map(|doublings| 1 << doublings)
        .find(is_enough)
        .unwrap_or(u32::MAX)
}

#[cfg(test)]
mod tests {
    use super::*;
    use std::cell::Cell;

    #[test]
    fn the_median_and_the_quarters_are_of_the_sorted_times() {
        let mut times = [0.0; RUNS];
        for (place, time) in times.iter_mut().enumerate() {
            // 7 has no divisor in common with the number of runs.
            *time = (place * 7 % RUNS) as f64;
        }
        let spread = Spread::of(times);
        assert_eq!(spread.median, 20.0);
        assert_eq!((spread.lower_quarter, spread.upper_quarter), (10.0, 30.0));
    }

    #[test]
    fn both_sides_take_part_in_every_run() {
        let (first, second) = (Cell::new(0u64), Cell::new(0u64));
        let wait = |count: &Cell<u64>| {
            count.set(count.get() + 1);
            std::thread::sleep(Duration::from_millis(1));
        };
        let measured = measure(|| wait(&first), || wait(&second));
        assert!(measured.rattle.median >= 1e6 && measured.rust.median >= 1e6);
        assert!(first.get() >= RUNS as u64 && second.get() >= RUNS as u64);
    }
}
