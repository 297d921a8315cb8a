//! The judge: runs, of which in a third most rows repeat the row before, changed runs, rows
//! of any bytes, and captures that are refused. The library is compared with the judge of
//! one scan on all of them, and that one with the judge by brute force where this is
//! affordable. Each capture is put to the library with hold and without, which is to make
//! no difference (02, g).

use super::lent::{Lent, LentSlice, Memory, Part};
use super::options;
use super::tally::{Caller, Tally};
use super::Due;
use crate::book::{MOST_BYTES, STEP_BYTES};
use crate::books::capture::{has_alarm, Capture};
use crate::books::held::bring_back;
use crate::books::repeats::{self, go_back, most_repeat, wait_on};
use crate::books::runs::{self, Habit, COMMON, LOCKED};
use crate::books::{changes, pairs};
use crate::door::{verdict_bytes, Door, VERDICT};
use crate::draws::{Bits, Draws};
use crate::judge::{judge, Row};
use crate::settings::{Settings, HOLD};

pub const PARTS: usize = 200;
const CAPTURES: usize = 1_000;
/// Of sixteen runs those in which most rows repeat. Some have too few rows for that, and
/// some are altered and have it no more.
const REPEATING: u32 = 9;
/// One more than the steps of most captures can be.
pub const SHORT_BELOW: usize = 41;
pub const LONGEST: usize = MOST_BYTES / STEP_BYTES;

/// What is judged by brute force as well: captures of few steps in the groups of
/// which that judge tries every set of conditions, of more in the smallest of them, where
/// runs of rows are longer than what may be compared at once, and some of few steps in the
/// others.
const MOST_STEPS: usize = 12;
const MOST_SECTIONS: u8 = 3;
const MOST_STEPS_OF_ONE: usize = 80;
const ONCE_IN_LARGER: u32 = 20;

/// The first are in the order of the verdicts. Most rows repeat in a third of the captures
/// that are not refused.
pub const KINDS: [Due; 18] = [
    ("refused", 1),
    ("explained", 1),
    ("unexplained", 1),
    ("of 16,384 steps", 1),
    ("by brute force too", 30_000),
    ("explained with alarms", 1),
    ("unexplained at an alarm", 1),
    ("most rows repeat, explained", 35_000),
    ("most rows repeat, unexplained", 10_000),
    ("most rows repeat, by brute force too", 10_000),
    ("most rows repeat, with changes back", 10_000),
    ("most rows repeat, with runs of WTR", 5_000),
    ("most rows repeat, of 16,384 steps", 50),
    ("unexplained in a run of WTR", 500),
    ("hold, by brute force too", 10_000),
    ("hold, by brute force too, a command comes back", 2_000),
    ("hold, by brute force too, unexplained", 3_000),
    ("other options", 1_000),
];
const EXPLAINED: u8 = 1;
const UNEXPLAINED: u8 = 2;
const LONG: usize = 3;
const BY_BRUTE_FORCE: usize = 4;
const EXPLAINED_WITH_ALARMS: usize = 5;
const UNEXPLAINED_AT_AN_ALARM: usize = 6;
const REPEATING_EXPLAINED: usize = 7;
const REPEATING_UNEXPLAINED: usize = 8;
const REPEATING_BY_BRUTE_FORCE: usize = 9;
const REPEATING_WITH_CHANGES_BACK: usize = 10;
const REPEATING_WITH_WAITS: usize = 11;
const REPEATING_LONG: usize = 12;
const UNEXPLAINED_IN_A_WAIT: usize = 13;
const HOLD_BY_BRUTE_FORCE: usize = 14;
const HOLD_WITH_A_COMMAND_BACK: usize = 15;
const HOLD_UNEXPLAINED: usize = 16;
const OTHER_OPTIONS: usize = 17;

#[derive(Clone, PartialEq)]
struct JudgeMemory {
    capture: LentSlice,
    out: Lent<VERDICT>,
}

impl Memory for JudgeMemory {
    fn parts(&self) -> Vec<(&'static str, Part<'_>)> {
        vec![("capture", self.capture.part()), ("out", self.out.part())]
    }
}

pub fn compare(library: &dyn Door, part: usize) -> Tally {
    let mut caller = Caller::new(library, 7, part);
    let mut draws = caller.bits.draws();
    for number in 0..CAPTURES {
        let (settings, capture) = match number {
            0 => draw_long(&mut caller.bits, &mut draws),
            _ => draw(&mut caller.bits, &mut draws),
        };
        caller.judge_both_ways(settings, &capture);
    }
    caller.tally
}

/// A refusal, and what stands in the output.
type Judged = (u8, [u8; VERDICT]);

impl Caller<'_> {
    /// Counted by what is answered with the given settings.
    fn judge_both_ways(&mut self, settings: Settings, capture: &[u8]) {
        let [theirs, judged] = self.judge(settings, capture);
        if settings.options <= HOLD {
            let options = settings.options ^ HOLD;
            let [other, _] = self.judge(
                Settings {
                    options,
                    ..settings
                },
                capture,
            );
            self.hold(other, theirs, || given(settings, capture));
        }
        let tried = self.is_tried(settings.n, capture);
        count(settings, judged.1, tried, capture, &mut self.tally);
        if tried {
            let tried = verdict_bytes(judge(settings, capture));
            if tried != judged {
                let given = given(settings, capture);
                let told = || format!("{given}: brute force {tried:?}, scan {judged:?}");
                self.tally.differ(told);
            }
        }
    }

    /// What the library answers, and what this reading does.
    fn judge(&mut self, settings: Settings, capture: &[u8]) -> [Judged; 2] {
        let memory = JudgeMemory {
            capture: LentSlice::new(&mut self.bits, capture),
            out: Lent::drawn(&mut self.bits),
        };
        let both = self.call(
            &memory,
            |door, memory| {
                let JudgeMemory { capture, out } = memory;
                door.judge(settings, capture.bytes(), &mut out.bytes)
            },
            || given(settings, capture),
        );
        [both.library, both.peer].map(|side| (side.refusal, side.memory.out.bytes))
    }

    /// By brute force as well.
    fn is_tried(&mut self, n: u8, capture: &[u8]) -> bool {
        let steps = capture.len() / STEP_BYTES;
        is_affordable(n, steps) || (steps <= MOST_STEPS && self.bits.once_in(ONCE_IN_LARGER))
    }
}

fn given(settings: Settings, capture: &[u8]) -> String {
    format!("{settings}, {} bytes", capture.len())
}

/// For the judge by brute force.
fn is_affordable(n: u8, steps: usize) -> bool {
    let most = if n <= 1 {
        MOST_STEPS_OF_ONE
    } else {
        MOST_STEPS
    };
    n <= MOST_SECTIONS && steps <= most
}

/// What a verdict is on, and whether it was found by brute force too.
fn count(
    settings: Settings,
    [verdict, high, low]: [u8; VERDICT],
    tried: bool,
    capture: &[u8],
    tally: &mut Tally,
) {
    let (rows, _) = capture.as_chunks();
    let step = usize::from(u16::from_be_bytes([high, low]));
    let [explained, unexplained] = [EXPLAINED, UNEXPLAINED].map(|kind| kind == verdict);
    let wrong = if unexplained { &rows[..=step] } else { &[] };
    let repeating = (explained || unexplained) && most_repeat(rows);
    let long = capture.len() == MOST_BYTES;
    tally.count(verdict.into());
    tally.count_those([
        (LONG, long),
        (BY_BRUTE_FORCE, tried),
        (
            EXPLAINED_WITH_ALARMS,
            explained && rows.iter().any(has_alarm),
        ),
        (UNEXPLAINED_AT_AN_ALARM, wrong.last().is_some_and(has_alarm)),
        (REPEATING_EXPLAINED, repeating && explained),
        (REPEATING_UNEXPLAINED, repeating && unexplained),
        (REPEATING_BY_BRUTE_FORCE, repeating && tried),
        (REPEATING_WITH_CHANGES_BACK, repeating && go_back(rows)),
        (REPEATING_WITH_WAITS, repeating && wait_on(rows)),
        (REPEATING_LONG, repeating && long),
        (UNEXPLAINED_IN_A_WAIT, wait_on(last_two(wrong))),
    ]);
    count_hold(settings, tried, [explained, unexplained], rows, tally);
}

fn count_hold(
    settings: Settings,
    tried: bool,
    [explained, unexplained]: [bool; 2],
    rows: &[Row],
    tally: &mut Tally,
) {
    let holding = tried && settings.options == HOLD && (explained || unexplained);
    tally.count_those([
        (HOLD_BY_BRUTE_FORCE, holding),
        (
            HOLD_WITH_A_COMMAND_BACK,
            holding && explained && bring_back(rows),
        ),
        (HOLD_UNEXPLAINED, holding && unexplained),
        (OTHER_OPTIONS, settings.options > HOLD),
    ]);
}

fn last_two(rows: &[Row]) -> &[Row] {
    &rows[rows.len().saturating_sub(2)..]
}

fn draw(bits: &mut Bits, draws: &mut Draws) -> (Settings, Vec<u8>) {
    let mut run = draw_run(bits, draws);
    match bits.below(16) {
        0..6 => {}
        sort @ 6..14 => alter(bits, draws, &mut run, sort - 6),
        _ => return draw_refused(bits, run),
    }
    flat(run)
}

/// Where most rows repeat there are now and then more steps. Whichever end made it, it is
/// put down with hold or without.
pub fn draw_run(bits: &mut Bits, draws: &mut Draws) -> Capture {
    let steps = bits.place(SHORT_BELOW);
    let mut run = if bits.below(16) < REPEATING {
        let steps = bits.pick(&[steps, MOST_STEPS - steps % 10, 3 * steps]);
        repeats::draw(draws, steps)
    } else {
        let habit = bits.pick(&[COMMON, COMMON, LOCKED]).with_alarms();
        draw_of_any_end(bits, draws, habit, steps)
    };
    run.settings.options = options::draw(bits);
    run
}

/// A run of an end with hold, or of one without.
pub fn draw_of_any_end(bits: &mut Bits, draws: &mut Draws, habit: Habit, steps: usize) -> Capture {
    let settings = runs::draw_settings(draws);
    let settings = bits.pick(&[settings, settings.with_hold()]);
    runs::draw(draws, habit, settings, steps)
}

/// How many sorts of alterations there are, some of them under several numbers.
pub const ALTERATIONS: u32 = 8;

/// Many of what is altered have no explanation any more.
pub fn alter(bits: &mut Bits, draws: &mut Draws, run: &mut Capture, sort: u32) {
    match sort {
        0..4 => change(bits, draws, run),
        4..6 => run.rows.fill_with(|| draw_row(draws, run.settings.n)),
        6 => bits.fill(run.rows.as_flattened_mut()),
        _ => run.settings = draw_settings(bits, run.settings),
    }
}

pub fn flat(run: Capture) -> (Settings, Vec<u8>) {
    (run.settings, run.rows.into_flattened())
}

/// Some bits flipped, pairs that were sent replaced by others, or rows spoilt as in runs in
/// which most repeat.
fn change(bits: &mut Bits, draws: &mut Draws, run: &mut Capture) {
    for _ in 0..=bits.below(3) {
        // A row may be dropped that was the only one.
        let length = run.rows.as_flattened().len();
        match bits.below(3) {
            _ if length == 0 => {}
            0 => changes::replace(draws, run),
            1 => run.rows.as_flattened_mut()[bits.place(length)] ^= 1 << bits.below(8),
            _ => repeats::spoil(draws, run),
        }
    }
}

fn draw_row(draws: &mut Draws, n: u8) -> [u8; STEP_BYTES] {
    let [k1, k2] = if draws.once_in(8) {
        pairs::draw_alarm(draws, n)
    } else {
        pairs::draw_usable(draws, n)
    };
    let [sent, sent_k2] = pairs::draw_sendable(draws, n);
    [k1, k2, sent, sent_k2]
}

/// Others that are good as well.
fn draw_settings(bits: &mut Bits, settings: Settings) -> Settings {
    let n = 1 + bits.byte_below(14);
    Settings {
        n,
        mask: bits.draw() as u16 & ((1 << n) - 1),
        ..settings
    }
}

/// With one of the five faults a capture can have, or several.
fn draw_refused(bits: &mut Bits, run: Capture) -> (Settings, Vec<u8>) {
    let (mut settings, mut capture) = flat(run);
    for _ in 0..=bits.below(2) {
        match bits.below(24) {
            0..6 => settings.n = bits.byte(),
            6..12 => settings.mask = bits.draw() as u16,
            12..16 => settings.options = options::draw_other(bits),
            16..23 => capture.resize(capture.len() + 1 + bits.place(3), 0x08),
            _ => capture.resize(MOST_BYTES + bits.place(10), 0x08),
        }
    }
    (settings, capture)
}

/// As long as can be; half of them with something wrong, often near the end.
fn draw_long(bits: &mut Bits, draws: &mut Draws) -> (Settings, Vec<u8>) {
    let mut run = if bits.below(16) < REPEATING {
        repeats::draw(draws, LONGEST)
    } else {
        draw_of_any_end(bits, draws, COMMON.with_alarms(), LONGEST)
    };
    run.settings.options = options::draw(bits);
    // Waits are now and then too short for that.
    if run.rows.len() == LONGEST && bits.once_in(2) {
        let last = bits.pick(&[1, 10, LONGEST]);
        let step = LONGEST - 1 - bits.place(last);
        run.rows[step][bits.place(STEP_BYTES)] ^= 1 << bits.below(8);
    }
    flat(run)
}
