//! The causes, over captures that the judge is timed on: as long as can be, and a quarter
//! of that, since a step is to take the same time in both; and a line of few events. Beside
//! those of the library stands its own judge, of whose time they are to take three times at
//! most.

use super::captures::{self, judge, EXPLAINED};
use super::{lines, Row, Unit, Work, SETTINGS};
use crate::books::capture::Capture;
use crate::causes::replay;
use crate::door::{Door, Peer, Tables, VERDICT};
use std::hint::black_box;
use std::io;

const LONGEST: usize = lines::STEPS;
const SHORTEST: usize = LONGEST / 4;

/// Tables with room for the longest capture.
struct Lent {
    conditions: Vec<u32>,
    commands: Vec<u16>,
}

impl Lent {
    fn new() -> Self {
        Self {
            conditions: vec![0; LONGEST],
            commands: vec![0; LONGEST],
        }
    }
}

/// Each side has tables of its own, which are lent again and again.
pub fn rows(library: &impl Door) -> io::Result<Vec<Row>> {
    let mut rows = Vec::new();
    let [mut first, mut second] = [(); 2].map(|()| Lent::new());
    for (name, captures) in works() {
        let steps = captures[0].rows.len();
        if !all_replayed(library, &captures) {
            let told = format!("{name}: not what was captured, see `peer compare`");
            return Err(io::Error::other(told));
        }
        let work = |more| Work(format!("{name}{more}"), Unit::Step, captures.len() * steps);
        rows.push(work("").measure(
            || find_all(library, &captures, &mut first),
            || find_all(&Peer, &captures, &mut second),
        )?);
        if steps == LONGEST {
            rows.push(work(", beside Rattle's judge").measure(
                || find_all(library, &captures, &mut first),
                || judge(library, &captures),
            )?);
        }
    }
    Ok(rows)
}

/// The names of the rows and the captures of each.
fn works() -> Vec<(String, Vec<Capture>)> {
    let name = |n, steps| format!("causes, n = {n}, {steps} steps");
    let drawn = captures::works().into_iter();
    let drawn = drawn.filter(|&(.., steps)| steps >= SHORTEST);
    let drawn = drawn.map(|(n, captures, steps)| (name(n, steps), captures));
    let lines = SETTINGS.into_iter().map(|settings| {
        let name = name(settings.n, LONGEST) + ", a line";
        (name, vec![lines::line(settings)])
    });
    drawn.chain(lines).collect()
}

/// How many are explained.
fn find_all(door: &impl Door, captures: &[Capture], lent: &mut Lent) -> usize {
    let captures = captures.iter();
    captures.filter(|capture| find(door, capture, lent)).count()
}

/// Whether it is explained.
fn find(door: &impl Door, capture: &Capture, lent: &mut Lent) -> bool {
    let tables = Tables {
        conditions: &mut lent.conditions,
        commands: &mut lent.commands,
    };
    let mut out = [0; VERDICT];
    let rows = capture.rows.as_flattened();
    door.causes(capture.settings, rows, tables, &mut out);
    black_box(lent);
    out[0] == EXPLAINED
}

/// Whether the causes of each send it. They need not be the same on both sides.
fn all_replayed(door: &impl Door, captures: &[Capture]) -> bool {
    let mut lent = Lent::new();
    captures.iter().all(|capture| {
        let Capture { settings, rows } = capture;
        find(door, capture, &mut lent)
            && replay(settings.fresh(), rows, &lent.conditions, &lent.commands).is_ok()
    })
}

#[cfg(test)]
pub fn check(door: &impl Door) {
    let works = works();
    let names: Vec<&str> = works.iter().map(|(name, _)| &name[..]).collect();
    assert_eq!(
        names,
        [
            "causes, n = 2, 16384 steps",
            "causes, n = 2, 4096 steps",
            "causes, n = 14, 16384 steps",
            "causes, n = 14, 4096 steps",
            "causes, n = 2, 16384 steps, a line",
            "causes, n = 14, 16384 steps, a line",
        ]
    );
    for (_, captures) in works {
        assert!(all_replayed(door, &captures));
        let found = find_all(door, &captures, &mut Lent::new());
        assert_eq!(found, judge(door, &captures));
    }
}
