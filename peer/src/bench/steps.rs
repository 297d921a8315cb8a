//! The controller's step, over walks that stay in acceptable records: a drawn one, in
//! which conditions, commands and pairs come and go; a quiet one, as lines mostly are;
//! and two whose last section is degraded, of low priority, which a search from the
//! highest rank down and from section 0 up comes to last. In the first of these it is
//! what was last sent, so such a search may look at it first (02 d). In the second the
//! far end keeps a forced switch up: RR is sent in each step, nobody has a claim, and
//! there is the most to look at. None of these ends has hold; one more walk is drawn for an
//! end that has (02, g).

use super::{Row, Unit, Work, SETTINGS};
use crate::books::pairs;
use crate::books::runs::{Given, Run, COMMON};
use crate::controller;
use crate::door::{record_bytes, record_of, Door, Peer, RECORD, STEP};
use crate::draws::Draws;
use crate::settings::Settings;
use std::hint::black_box;
use std::io;

/// Steps of a walk: of a drawn one, more than a branch predictor learns by heart.
const STEPS: usize = 16_384;
const SEED: u64 = 21;

const MOST_CONDITIONS: usize = 15;

/// A start, and what befalls each step from there.
struct Walk {
    start: [u8; RECORD],
    steps: Vec<([u8; MOST_CONDITIONS], Given)>,
}

/// A step with no command and nothing from the far end.
const NOTHING: Given = Given::pair(pairs::IDLE);

/// The far end asks for a forced switch of section 1.
const SWITCHED: Given = Given::pair([0xE1, 0x08]);

const DEGRADED: u8 = 1;

impl Walk {
    fn drawn(settings: Settings) -> Self {
        let mut draws = Draws::from_seed(SEED);
        let mut run = Run::new(&mut draws, COMMON, settings);
        let start = record_bytes(&run.record);
        let steps = (0..STEPS).map(|_| draw_step(&mut run)).collect();
        Self { start, steps }
    }

    fn quiet(settings: Settings) -> Self {
        Self::of_one(settings, [0; MOST_CONDITIONS], NOTHING)
    }

    fn last_degraded(settings: Settings, given: Given) -> Self {
        let mut conditions = [0; MOST_CONDITIONS];
        conditions[usize::from(settings.n)] = DEGRADED;
        Self::of_one(
            Settings {
                mask: 0,
                ..settings
            },
            conditions,
            given,
        )
    }

    /// The same in every step.
    fn of_one(settings: Settings, conditions: [u8; MOST_CONDITIONS], given: Given) -> Self {
        Self {
            start: record_bytes(&settings.fresh()),
            steps: vec![(conditions, given); STEPS],
        }
    }

    fn all(settings: Settings) -> [Self; 5] {
        [
            Self::drawn(settings),
            Self::quiet(settings),
            Self::last_degraded(settings, NOTHING),
            Self::last_degraded(settings, SWITCHED),
            Self::drawn(settings.with_hold()),
        ]
    }

    fn sections(&self) -> usize {
        usize::from(self.start[0]) + 1
    }
}

fn draw_step(run: &mut Run) -> ([u8; MOST_CONDITIONS], Given) {
    let given = run.draw();
    let mut conditions = [0; MOST_CONDITIONS];
    conditions[..run.conditions.len()].copy_from_slice(&run.conditions);
    run.go(given);
    (conditions, given)
}

pub fn rows(library: &impl Door) -> io::Result<Vec<Row>> {
    let mut rows = Vec::new();
    for settings in SETTINGS {
        let name = format!("step, n = {}", settings.n);
        let work = |more| Work(format!("{name}{more}"), Unit::Step, STEPS);
        let [drawn, quiet, last, switched, holding] = &Walk::all(settings);
        for (more, walk) in [
            ("", drawn),
            (", quiet", quiet),
            (", last section degraded", last),
            (", last section degraded, far end switched", switched),
            (", with hold", holding),
        ] {
            rows.push(work(more).measure(|| go(library, walk), || go(&Peer, walk))?);
        }
        let own = work(", Rust with its own record");
        rows.push(own.measure(|| go(library, drawn), || go_with_own_record(drawn))?);
    }
    Ok(rows)
}

/// The record of a step is read where the step before it was answered, so that
/// feeding it back costs neither side a copy.
fn go(door: &impl Door, walk: &Walk) -> [u8; RECORD] {
    let sections = walk.sections();
    let mut answers = [[0; STEP]; 2];
    answers[0][1..=RECORD].copy_from_slice(&walk.start);
    let [mut before, mut after] = answers.each_mut();
    for (conditions, given) in &walk.steps {
        let (record, conditions) = (record_in(before), &conditions[..sections]);
        let Given {
            received,
            command,
            channel,
        } = *given;
        door.step(record, received, conditions, command, channel, after);
        std::mem::swap(&mut before, &mut after);
    }
    *record_in(before)
}

/// Without the bytes of the door: the record goes from step to step as it is.
fn go_with_own_record(walk: &Walk) -> [u8; RECORD] {
    let sections = walk.sections();
    let mut record = record_of(&walk.start);
    for (conditions, given) in &walk.steps {
        let [k1, k2] = given.received;
        let conditions = &conditions[..sections];
        let answer = controller::step(record, k1, k2, conditions, given.command, given.channel);
        record = black_box(answer).record;
    }
    record_bytes(&record)
}

fn record_in(answer: &[u8; STEP]) -> &[u8; RECORD] {
    let [_, behind @ ..] = answer;
    behind
        .first_chunk()
        .expect("a record stands behind the refusal")
}

#[cfg(test)]
pub fn check(door: &impl Door) {
    for walk in SETTINGS.into_iter().flat_map(Walk::all) {
        let mut out = [0; STEP];
        out[1..=RECORD].copy_from_slice(&walk.start);
        for (conditions, given) in &walk.steps {
            let record = *record_in(&out);
            let conditions = &conditions[..walk.sections()];
            let refusal = door.step(
                &record,
                given.received,
                conditions,
                given.command,
                given.channel,
                &mut out,
            );
            assert_eq!(refusal, 0);
        }
        assert_eq!(*record_in(&out), go(door, &walk));
        assert_eq!(*record_in(&out), go_with_own_record(&walk));
    }
}

#[cfg(test)]
mod tests {
    use super::*;

    /// Every step is the same, so what is sent last was sent in all of them.
    #[test]
    fn the_last_section_has_a_claim_unless_the_far_end_is_switched() {
        for settings in SETTINGS {
            let [_, _, last, switched, _] = &Walk::all(settings);
            let sent = |walk| record_of(&go_with_own_record(walk)).sent;
            assert_eq!(sent(last), 0xA0 | settings.n);
            assert_eq!(sent(switched), 0x21);
        }
    }

    /// In one of ten steps at least, and only with hold.
    #[test]
    fn commands_wait_in_the_walk_with_hold() {
        for settings in SETTINGS {
            let [drawn, .., holding] = &Walk::all(settings);
            assert_eq!(waiting(drawn), 0);
            assert!(waiting(holding) >= STEPS / 10, "{}", waiting(holding));
        }
    }

    fn waiting(walk: &Walk) -> usize {
        let mut record = record_of(&walk.start);
        let waits = walk.steps.iter().filter(|(conditions, given)| {
            let [k1, k2] = given.received;
            let conditions = &conditions[..walk.sections()];
            let answer = controller::step(record, k1, k2, conditions, given.command, given.channel);
            record = answer.record;
            ![0x00, record.sent].contains(&record.held)
        });
        waits.count()
    }
}
