//! Captures in which most rows repeat the row before, as on lines they do. A judge may pass
//! over such a row, unless it sends WTR: so what may lead it astray is what stands between
//! the runs, where they end, and how many rows a wait has.

use super::capture::{row, Capture, Told};
use super::pairs::{alarmed, fail, said, FAILED, IDLE, LOCKOUT, UNUSABLE};
use super::runs::{self, Given, Habit, Run, COMMON, LOCKED};
use super::waits::{self, Section};
use super::{alarms, lockout};
use crate::book::STEP_BYTES;
use crate::draws::Draws;
use crate::judge::Row;
use crate::pair::Request;
use crate::settings::Settings;
use std::iter::repeat_n;
use std::ops::RangeInclusive;

const SEED: u64 = 14;
/// As they are, and as many that are spoilt: so many that, with those of `changes`, most
/// rows repeat in a third of all captures that are drawn.
const DRAWN: usize = 2_700;
const MOST_STEPS: usize = 50;

/// Whoever compares many rows at once takes 4, 8, 16, 32 or 64 of them: runs end at each
/// place of such a block, and behind it.
const LENGTHS: [RangeInclusive<usize>; 2] = [1..=34, 62..=66];

/// The steps before a wait.
const FRONTS: RangeInclusive<usize> = 0..=17;
const WAITS: [u16; 12] = [0, 1, 2, 3, 15, 16, 17, 31, 32, 33, 64, 65];

pub fn captures() -> Vec<Capture> {
    let mut captures = Told::captures(told());
    captures.extend(drawn());
    captures
}

/// A capture of any settings that is explained, and in which most rows repeat the row
/// before, unless it has but a few.
pub fn draw(draws: &mut Draws, steps: usize) -> Capture {
    if draws.once_in(3) {
        return draw_waits(draws, steps);
    }
    let settings = runs::draw_settings(draws);
    let as_long_as_runs = 14 + draws.below(20);
    let w = draws.pick(&[settings.w, settings.w, 0, 1, 2, as_long_as_runs]);
    let habit = draws.pick(&[COMMON, LOCKED]);
    let habit = draws.pick(&[habit, habit.with_alarms()]);
    let settings = Settings { w, ..settings };
    let settings = draws.pick(&[settings, settings.with_hold()]);
    draw_spells(draws, habit, settings, steps)
}

/// Waits of up to half as many steps, one after the other.
fn draw_waits(draws: &mut Draws, steps: usize) -> Capture {
    let w = 1 + draws.place(1 + steps / 2);
    let Capture { settings, rows } = waits::draw_of(draws, w as u16, 1 + steps / (w + 2));
    let (mut rows, _) = stretched(draws, &rows);
    rows.truncate(steps);
    Capture::new(settings, rows)
}

/// Each row as often as is drawn, but for those that send WTR, and the step at which each
/// comes first. A row is explained again where it is explained.
fn stretched(draws: &mut Draws, rows: &[Row]) -> (Vec<Row>, Vec<usize>) {
    let (mut longer, mut starts) = (Vec::new(), Vec::new());
    for row in rows {
        starts.push(longer.len());
        let length = if sends_wait(row) {
            1
        } else {
            draw_length(draws, 40)
        };
        longer.extend(repeat_n(*row, length));
    }
    (longer, starts)
}

/// What a line meets with for a while.
#[derive(Clone)]
struct Spell {
    conditions: Vec<u8>,
    given: Given,
}

fn draw_spells(draws: &mut Draws, habit: Habit, settings: Settings, steps: usize) -> Capture {
    let mut run = Run::new(draws, habit, settings);
    let mut before = Spell {
        conditions: run.conditions.clone(),
        given: Given::pair(IDLE),
    };
    let mut last = before.clone();
    let mut rows = Vec::new();
    while rows.len() < steps {
        let next = draw_spell(&mut run, &before, &last);
        (before, last) = (last, next);
        run.conditions.clone_from(&last.conditions);
        let length = draw_length(run.draws, steps);
        rows.extend(run.last(last.given, length.min(steps - rows.len())));
    }
    Capture::new(settings, rows)
}

/// Back to the one before, or the last with another pair, or anything.
fn draw_spell(run: &mut Run, before: &Spell, last: &Spell) -> Spell {
    let (conditions, received) = match run.draws.below(8) {
        0..3 => (&before.conditions, before.given.received),
        3..5 => (&last.conditions, draw_like(run.draws, last.given.received)),
        _ => {
            let given = run.draw();
            let conditions = run.conditions.clone();
            return Spell { conditions, given };
        }
    };
    Spell {
        conditions: conditions.clone(),
        given: Given::pair(received),
    }
}

/// Another in one byte. Often what is sent does not show it.
fn draw_like(draws: &mut Draws, [k1, k2]: [u8; 2]) -> [u8; 2] {
    let bit = 1 << draws.below(8);
    draws.pick(&[[k1 ^ bit, k2], [k1, k2 ^ bit], [k1, k2 ^ 0b110]])
}

fn draw_length(draws: &mut Draws, most: usize) -> usize {
    let [some, any] = [20, most].map(|most| 1 + draws.place(most));
    draws.pick(&[1, 2, some, any])
}

/// One bit flipped, a row doubled, dropped or moved, or the wait a step shorter than it was.
/// With waits the row is often one of those.
pub fn spoil(draws: &mut Draws, capture: &mut Capture) {
    let Capture { settings, rows } = capture;
    let Some(step) = draw_step(draws, rows) else {
        return;
    };
    match draws.below(8) {
        0..2 => rows[step][draws.place(STEP_BYTES)] ^= 1 << draws.below(8),
        // The last is lost, so that no capture becomes too long.
        2..4 => {
            rows.insert(step, rows[step]);
            rows.pop();
        }
        4 => drop(rows.remove(step)),
        5 => {
            let row = rows.remove(step);
            rows.insert(draws.place(rows.len() + 1), row);
        }
        _ => settings.w = settings.w.saturating_sub(1),
    }
}

/// None if there are no steps.
fn draw_step(draws: &mut Draws, rows: &[Row]) -> Option<usize> {
    let all: Vec<usize> = (0..rows.len()).collect();
    let waiting = all.iter().copied().filter(|&step| sends_wait(&rows[step]));
    let waiting: Vec<usize> = waiting.collect();
    let steps = if waiting.is_empty() || draws.once_in(2) {
        all
    } else {
        waiting
    };
    (!steps.is_empty()).then(|| draws.pick(&steps))
}

pub fn drawn() -> Vec<Capture> {
    let mut draws = Draws::from_seed(SEED);
    let draw = |_| {
        let steps = 1 + draws.place(MOST_STEPS);
        let run = draw(&mut draws, steps);
        let mut other = run.clone();
        spoil(&mut draws, &mut other);
        [run, other]
    };
    (0..DRAWN).flat_map(draw).collect()
}

fn told() -> Vec<Told> {
    let mut draws = Draws::from_seed(SEED);
    let short = lockout::told().into_iter().chain(alarms::told());
    let mut told: Vec<Told> = short.map(|told| longer(&mut draws, told)).collect();
    for front in FRONTS {
        told.extend(WAITS.into_iter().flat_map(|w| waits_behind(front, w)));
    }
    for length in LENGTHS.into_iter().flatten() {
        told.extend(repeating().into_iter().flat_map(|row| runs_of(row, length)));
    }
    told
}

/// None of its rows sends WTR, so the first that is not explained is the first of its run.
fn longer(draws: &mut Draws, told: Told) -> Told {
    let Capture { settings, rows } = told.capture;
    let (rows, starts) = stretched(draws, &rows);
    Told::new(settings, rows, told.wrong.map(|step| starts[step]))
}

/// A wait that runs out, one that is a step too long, and others that are cut short, by a
/// clear and by the next fail.
fn waits_behind(front: usize, w: u16) -> Vec<Told> {
    let section = Section::last_of(1, w);
    let wait = section.wait();
    let [waiting, nothing] =
        [Request::WaitToRestore, Request::Nothing].map(|request| section.answered(request));
    let failed = section.waited(fail(section.high), wait);
    let tell = |waited: usize, ending: &[Row], wrong: Option<usize>| {
        let mut rows = vec![row(IDLE, IDLE); front];
        rows.extend_from_slice(&failed[..1]);
        rows.resize(rows.len() + waited, waiting);
        let wrong = wrong.map(|step| rows.len() + step);
        rows.extend_from_slice(ending);
        section.told(rows, wrong)
    };
    let again = [&failed[..], &[waiting]].concat();
    vec![
        tell(wait, &[nothing, nothing], None),
        tell(wait, &[waiting, waiting, nothing], Some(0)),
        tell(wait / 2, &[nothing, nothing], None),
        tell(wait / 2, &[nothing, waiting], Some(1)),
        tell(wait / 2, &failed, None),
        tell(wait / 2, &again, Some(failed.len())),
    ]
}

/// Rows that a fresh end of one section can send, and can go on to send.
fn repeating() -> [Row; 10] {
    let failed = said(Request::SignalFailLow, 1, 0);
    let far = said(Request::ManualSwitch, 1, 0);
    let reverse = said(Request::Reverse, 1, 1);
    [
        row(IDLE, IDLE),
        row(UNUSABLE, IDLE),
        row(IDLE, failed),
        row(reverse, said(Request::SignalFailLow, 1, 1)),
        row(IDLE, said(Request::ForcedSwitch, 1, 0)),
        row(far, reverse),
        row(far, LOCKOUT),
        row(UNUSABLE, LOCKOUT),
        row(alarmed(far), LOCKOUT),
        row(alarmed(IDLE), FAILED),
    ]
}

/// A run of so many rows that ends with the capture, with a row that is the same but for a
/// byte, and with another, behind which it goes on, to and fro.
fn runs_of(same: Row, length: usize) -> Vec<Told> {
    let settings = Settings::new(1, 0, 2);
    let run = vec![same; length];
    // Section 0 has failed. What was held is forgotten then, and can be sent anew.
    let other = row([0x00, 0x0E], FAILED);
    // Line bits are never sent.
    let [k1, k2, sent, sent_k2] = same;
    let wrong = [k1, k2, sent, sent_k2 | 0b110];
    let tell = |ending: &[&[Row]], wrong: Option<usize>| {
        let rows = [&run, &ending.concat()[..]].concat();
        Told::new(settings, rows, wrong.map(|step| length + step))
    };
    vec![
        tell(&[], None),
        tell(&[&[wrong], &run], Some(0)),
        tell(&[&[other], &run, &[other], &run[..1], &[other]], None),
        tell(&[&[other, same, wrong, same]], Some(2)),
        tell(&[&[other], &run, &[wrong]], Some(1 + length)),
    ]
}

/// Whether WTR was sent in that step.
fn sends_wait(row: &Row) -> bool {
    row[2] >> 4 == Request::WaitToRestore.code()
}

/// Whether more of the rows repeat the row before than do not.
pub fn most_repeat(rows: &[Row]) -> bool {
    let repeating = rows.windows(2).filter(|pair| pair[0] == pair[1]);
    2 * repeating.count() > rows.len()
}

/// Whether one row follows another, however often that is repeated, and the first comes
/// again.
pub fn go_back(rows: &[Row]) -> bool {
    let mut changed = rows.to_vec();
    changed.dedup();
    changed.windows(3).any(|three| three[0] == three[2])
}

/// Whether a row that sends WTR repeats the row before.
pub fn wait_on(rows: &[Row]) -> bool {
    rows.windows(2)
        .any(|pair| pair[0] == pair[1] && sends_wait(&pair[1]))
}

#[cfg(test)]
mod tests {
    use super::*;
    use crate::judge::{scan, Verdict};

    fn scanned(capture: &Capture) -> Verdict {
        scan::scan(capture.settings.fresh(), &capture.rows)
    }

    /// By brute force, and by the scan that passes over rows.
    #[test]
    fn the_judges_find_what_is_known_of_each_telling() {
        for told in told() {
            let Capture { settings, rows } = &told.capture;
            let verdict = told.verdict();
            assert_eq!(told.capture.judged(), verdict, "{settings:?} {rows:02X?}");
            assert_eq!(scanned(&told.capture), verdict, "{settings:?} {rows:02X?}");
        }
    }

    /// Counted by hand: 18 fronts of 12 waits, six of each, and 39 lengths of ten rows, five
    /// of each. The others are as many as they are unstretched.
    #[test]
    fn both_verdicts_are_known_of_many() {
        let wrong = |told: &[Told]| told.iter().filter(|told| told.wrong.is_some()).count();
        let short = [lockout::told(), alarms::told()];
        let [lockouts, alarms] = short.each_ref().map(|told| told.len());
        let told = told();
        let (behind, of_rows) = (18 * 12, 39 * 10);
        assert_eq!(told.len(), lockouts + alarms + 6 * behind + 5 * of_rows);
        let [lockouts, alarms] = short.each_ref().map(|told| wrong(told));
        assert_eq!(wrong(&told), lockouts + alarms + 3 * behind + 3 * of_rows);
    }

    #[test]
    fn drawn_captures_are_explained_until_they_are_spoilt() {
        let drawn = drawn();
        let mut spoilt = 0;
        for pair in drawn.chunks(2) {
            let [run, other] = [&pair[0], &pair[1]].map(Capture::judged);
            assert_eq!(run, Verdict::Explained(pair[0].rows.len()), "{:?}", pair[0]);
            spoilt += usize::from(matches!(other, Verdict::Unexplained(_)));
        }
        assert_eq!(drawn.len(), 2 * DRAWN);
        assert!((DRAWN / 8..DRAWN / 4 * 3).contains(&spoilt), "{spoilt}");
    }

    #[test]
    fn most_rows_of_drawn_captures_repeat_the_row_before() {
        let drawn = drawn();
        let count = |is: fn(&[Row]) -> bool| drawn.iter().filter(|run| is(&run.rows)).count();
        let [repeat, back, wait] = [most_repeat, go_back, wait_on].map(count);
        assert!(repeat >= DRAWN / 5 * 8, "{repeat}");
        assert!(back >= DRAWN / 2, "{back}");
        assert!(wait >= DRAWN / 3, "{wait}");
    }

    #[test]
    fn what_is_said_of_rows_by_hand() {
        let [a, b] = [row(IDLE, IDLE), row(IDLE, FAILED)];
        let wait = row(IDLE, said(Request::WaitToRestore, 1, 0));
        for (rows, expected) in [
            (&[][..], [false, false, false]),
            (&[a, a], [false, false, false]),
            (&[a, a, a], [true, false, false]),
            (&[a, b, a, b], [false, true, false]),
            (&[a, a, a, b, b, b, a], [true, true, false]),
            (&[a, a, a, b, b, b], [true, false, false]),
            (&[a, wait, a, wait], [false, true, false]),
            (&[a, wait, wait], [false, false, true]),
        ] {
            let found = [most_repeat(rows), go_back(rows), wait_on(rows)];
            assert_eq!(found, expected, "{rows:02X?}");
        }
    }
}
