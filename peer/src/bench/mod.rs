//! The figures of `peer bench`: the library and this reading, side by side in one
//! process.

mod books;
mod captures;
mod causes;
mod clock;
mod lines;
mod steps;
mod switches;

use crate::door::Door;
use crate::settings::Settings;
use clock::{Measured, Spread, RUNS};
use std::hint::black_box;
use std::io::{self, Write};

/// The groups of which steps and captures are timed: a small one, and the greatest.
const SETTINGS: [Settings; 2] = [Settings::new(2, 1, 3), Settings::new(14, 0x2A55, 3)];

/// What a row's figures are in.
#[derive(Clone, Copy)]
enum Unit {
    /// Nanoseconds of one.
    Step,
    /// Millions of bytes a second.
    Bytes,
}

struct Row {
    name: String,
    unit: Unit,
    /// Steps or bytes of the work that was timed.
    amount: usize,
    measured: Measured,
}

/// What is to be timed. Its name, what it counts and how much of that it does.
struct Work(String, Unit, usize);

impl Work {
    /// Times both sides, if they answer the same: figures of work that is not the
    /// same would mean nothing.
    fn measure<T: PartialEq>(
        self,
        mut rattle: impl FnMut() -> T,
        mut rust: impl FnMut() -> T,
    ) -> io::Result<Row> {
        let Self(name, unit, amount) = self;
        if rattle() != rust() {
            let told = format!("{name}: the sides differ, see `peer compare`");
            return Err(io::Error::other(told));
        }
        let measured = clock::measure(|| drop(black_box(rattle())), || drop(black_box(rust())));
        Ok(Row {
            name,
            unit,
            amount,
            measured,
        })
    }
}

/// The longest name has 62 characters.
const NAME_WIDTH: usize = 63;

const PREFACE: [&str; 5] = [
    "Rattle is the proved library, Rust this package, both called through the functions of chainplater.h.",
    "Outputs are not cleared between calls. A MB is 1,000,000 bytes of the book; the reader looks at its",
    "contents alone. The ratio is the time of Rattle by that of Rust. In brackets: the lower and the upper",
    "quarter of the runs. In the rows beside Rattle's judge its figures stand in the place of Rust's, and in",
    "those beside a sum those of adding up the bytes of the capture: what has to read them takes that long.",
];

pub fn write(library: &impl Door, out: &mut impl Write) -> io::Result<()> {
    for line in PREFACE {
        writeln!(out, "{line}")?;
    }
    writeln!(out, "Medians of {RUNS} runs, the two sides in turn.\n")?;
    let (what, unit, rattle, rust) = ("", "unit", "Rattle", "Rust");
    writeln!(
        out,
        "{what:<NAME_WIDTH$}{unit:>8}{rattle:>28}{rust:>28}{:>8}",
        "ratio"
    )?;
    out.flush()?;
    write_rows(out, steps::rows(library)?)?;
    write_rows(out, captures::rows(library)?)?;
    write_rows(out, lines::rows(library)?)?;
    write_rows(out, causes::rows(library)?)?;
    write_rows(out, switches::rows(library)?)?;
    write_rows(out, books::rows(library)?)
}

fn write_rows(out: &mut impl Write, rows: Vec<Row>) -> io::Result<()> {
    for row in rows {
        row.write(out)?;
    }
    // The next rows take a while.
    out.flush()
}

impl Row {
    fn write(&self, out: &mut impl Write) -> io::Result<()> {
        let Measured { rattle, rust } = self.measured;
        let unit = match self.unit {
            Unit::Step => "ns/step",
            Unit::Bytes => "MB/s",
        };
        let ratio = rattle.median / rust.median;
        writeln!(
            out,
            "{:<NAME_WIDTH$}{unit:>8}{:>28}{:>28}{ratio:>8.2}",
            self.name,
            self.figures(rattle),
            self.figures(rust),
        )
    }

    /// A quarter of the runs took less time, and made more bytes a second, than
    /// the lower quarter.
    fn figures(&self, spread: Spread) -> String {
        let Spread {
            lower_quarter,
            median,
            upper_quarter,
        } = spread;
        let [middle, lower, upper] = match self.unit {
            Unit::Step => {
                [median, lower_quarter, upper_quarter].map(|time| time / self.amount as f64)
            }
            Unit::Bytes => [median, upper_quarter, lower_quarter]
                .map(|time| self.amount as f64 / time * 1_000.0),
        };
        let decimals = match self.unit {
            // Rows that are passed over take less than a tenth.
            Unit::Step if middle < 0.1 => 3,
            Unit::Step => 2,
            Unit::Bytes => 0,
        };
        format!("{middle:.decimals$} ({lower:.decimals$} .. {upper:.decimals$})")
    }
}

#[cfg(test)]
mod tests {
    use super::*;
    use crate::door::Peer;

    fn spread(median: f64) -> Spread {
        Spread {
            lower_quarter: median / 2.0,
            median,
            upper_quarter: median * 2.0,
        }
    }

    fn written(unit: Unit, amount: usize) -> String {
        let row = Row {
            name: "trial".into(),
            unit,
            amount,
            measured: Measured {
                rattle: spread(3_000.0),
                rust: spread(2_000.0),
            },
        };
        let mut out = Vec::new();
        row.write(&mut out).unwrap();
        String::from_utf8(out).unwrap()
    }

    #[test]
    fn rows_have_their_units_and_the_ratio_of_the_times() {
        let words = |text: String| text.split_whitespace().collect::<Vec<_>>().join(" ");
        assert_eq!(
            words(written(Unit::Step, 100)),
            "trial ns/step 30.00 (15.00 .. 60.00) 20.00 (10.00 .. 40.00) 1.50"
        );
        assert_eq!(
            words(written(Unit::Step, 25_000)),
            "trial ns/step 0.12 (0.06 .. 0.24) 0.080 (0.040 .. 0.160) 1.50"
        );
        assert_eq!(
            words(written(Unit::Bytes, 6_000)),
            "trial MB/s 2000 (1000 .. 4000) 3000 (1500 .. 6000) 1.50"
        );
    }

    #[test]
    fn sides_that_differ_are_not_timed() {
        let work = || Work("trial".into(), Unit::Step, 1);
        assert!(work().measure(|| 1, || 2).is_err());
        assert!(work().measure(|| 1, || 1).is_ok());
    }

    /// What is timed is what it is meant to be: walks that no refusal stops, captures
    /// that are explained, causes that send them, lines and lists with as many changes as
    /// their rows say, and books with as many steps.
    #[test]
    fn the_work_is_not_refused() {
        steps::check(&Peer);
        captures::check(&Peer);
        lines::check(&Peer);
        causes::check(&Peer);
        switches::check(&Peer);
        books::check(&Peer);
    }
}
