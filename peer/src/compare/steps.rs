//! The step: from drawn records under drawn causes, from records with every byte in the
//! place of the held command, and in walks that go on from what was answered.

use super::handed::{Handed, MOST_CONDITIONS};
use super::lent::{Lent, Memory, Part};
use super::spoilt::{self, Drawn, HELD, OPTIONS};
use super::tally::{both, hex, Both, Tally};
use super::{commands, options, Due};
use crate::books::pairs;
use crate::books::runs::{self, Given, Run, COMMON, LOCKED};
use crate::door::{record_bytes, record_of, Door, RECORD, STEP};
use crate::draws::Bits;
use crate::settings::HOLD;

pub const PARTS: usize = 128;
const DRAWN_STEPS: usize = 50_000;
const WALKS: usize = 250;
const STEPS_OF_A_WALK: usize = 200;

/// Sizes of groups on both sides of their bounds.
pub const HELD_PARTS: usize = 16;
/// How often each byte is held, with other records and causes each time, with hold and
/// without. With options that there are not it is once.
const TIMES_HELD: usize = 64;

/// Kinds of the drawn steps: what befell the command, if they were not refused; an alarm
/// that they received then (02, c), and a command that was last sent and not held; and
/// options in the record that there are not.
pub const DRAWN_KINDS: [&str; DRAWN_OPTIONS + 1] =
    commands::with_kinds(["alarm", "last sent and not held", "other options"]);
const DRAWN_ALARM: usize = commands::KINDS.len();
const DRAWN_SENT_ALONE: usize = DRAWN_ALARM + 1;
const DRAWN_OPTIONS: usize = DRAWN_SENT_ALONE + 1;

/// Kinds of the walks: what befell the command, an alarm that was received, and the codes
/// of what was sent.
pub const WALKED_KINDS: [&str; WALKED_CODES + 16] = commands::with_kinds([
    "alarm", "NR", "", "RR", "", "", "", "WTR", "", "MS", "", "SD low", "SD high", "SF low",
    "SF high", "FS", "LO",
]);
const WALKED_ALARM: usize = commands::KINDS.len();
const WALKED_CODES: usize = WALKED_ALARM + 1;

/// Kinds of the steps with every byte held, of which many are refused.
pub const HELD_KINDS: [Due; 6] = [
    ("without hold", 200_000),
    ("hold", 200_000),
    ("other options", 800_000),
    ("taken with LO held", 500),
    ("taken with FS held", 3_000),
    ("taken with MS held", 3_000),
];
const TAKEN_WITH_LOCKOUT: usize = 3;
const TAKEN_WITH_FORCED: usize = 4;
const TAKEN_WITH_MANUAL: usize = 5;

/// The conditions are the first of those bytes: the others are one guard more.
#[derive(Clone, PartialEq)]
pub struct StepMemory {
    record: Lent<RECORD>,
    conditions: Lent<MOST_CONDITIONS>,
    out: Lent<STEP>,
}

impl Memory for StepMemory {
    fn parts(&self) -> Vec<(&'static str, Part<'_>)> {
        vec![
            ("record", self.record.part()),
            ("conditions", self.conditions.part()),
            ("out", self.out.part()),
        ]
    }
}

impl StepMemory {
    fn new(bits: &mut Bits, (record, conditions, _): Drawn) -> Self {
        Self {
            record: Lent::new(bits, record),
            conditions: Lent::new(bits, conditions),
            out: Lent::drawn(bits),
        }
    }
}

pub fn drawn(library: &dyn Door, part: usize) -> Tally {
    let mut bits = Bits::from_seeds(5, part);
    let mut tally = Tally::default();
    for _ in 0..DRAWN_STEPS {
        let drawn = spoilt::draw(&mut bits);
        let (record, _, handed) = drawn;
        let memory = StepMemory::new(&mut bits, drawn);
        let both = step(library, &memory, handed, &mut tally);
        let taken = both.peer.refusal == 0;
        if taken {
            commands::count(&mut tally, &record, handed, &both.peer.memory.out.bytes);
        }
        tally.count_those([
            (DRAWN_ALARM, taken && pairs::is_alarm(handed.received)),
            (DRAWN_SENT_ALONE, taken && commands::is_sent_alone(&record)),
            (DRAWN_OPTIONS, record[OPTIONS] > HOLD),
        ]);
    }
    tally
}

/// Every byte held, with all options, in groups of the size of the part.
pub fn held(library: &dyn Door, part: usize) -> Tally {
    let mut bits = Bits::from_seeds(28, part);
    let mut tally = Tally::default();
    let n = part as u8;
    for [options, held] in (0..=u16::MAX).map(u16::to_be_bytes) {
        let times = if options > HOLD { 1 } else { TIMES_HELD };
        for _ in 0..times {
            let mut drawn = spoilt::draw_sound(&mut bits, n.clamp(1, 14));
            let (record, _, handed) = &mut drawn;
            record[0] = n;
            record[OPTIONS] = options;
            record[HELD] = held;
            let handed = *handed;
            let memory = StepMemory::new(&mut bits, drawn);
            let both = step(library, &memory, handed, &mut tally);
            count_held(&mut tally, options, held, both.peer.refusal);
        }
    }
    tally
}

fn count_held(tally: &mut Tally, options: u8, held: u8, refusal: u8) {
    options::count(tally, 0, options);
    let taken = refusal == 0;
    tally.count_those([
        (TAKEN_WITH_LOCKOUT, taken && held >> 4 == 0xF),
        (TAKEN_WITH_FORCED, taken && held >> 4 == 0xE),
        (TAKEN_WITH_MANUAL, taken && held >> 4 == 0x8),
    ]);
}

pub fn walks(library: &dyn Door, part: usize) -> Tally {
    let mut bits = Bits::from_seeds(6, part);
    let mut draws = bits.draws();
    let mut tally = Tally::default();
    for walk in 0..WALKS {
        let settings = runs::draw_settings(&mut draws);
        let settings = [settings, settings.with_hold()][walk % 2];
        let habit = if walk % 3 == 0 { LOCKED } else { COMMON };
        let run = Run::new(&mut draws, habit.with_alarms(), settings);
        go(library, &mut bits, run, &mut tally);
    }
    tally
}

/// A walk ends with the first difference: from there on the two would not take
/// the same steps.
fn go(library: &dyn Door, bits: &mut Bits, mut run: Run, tally: &mut Tally) {
    let differences = tally.differences;
    for _ in 0..STEPS_OF_A_WALK {
        let drawn = draw_step(bits, &mut run);
        let (record, _, handed) = drawn;
        let memory = StepMemory::new(bits, drawn);
        let both = step(library, &memory, handed, tally);
        let answered = &both.library.memory.out.bytes;
        if tally.differences > differences {
            return;
        }
        commands::count(tally, &record, handed, answered);
        tally.count(WALKED_CODES + usize::from(answered[RECORD + 1] >> 4));
        if pairs::is_alarm(handed.received) {
            tally.count(WALKED_ALARM);
        }
        run.record = record_of(answered[1..].first_chunk().expect("a record"));
    }
}

fn draw_step(bits: &mut Bits, run: &mut Run) -> Drawn {
    let Given {
        received,
        command,
        channel,
    } = run.draw();
    let mut conditions = bits.array();
    let count = run.conditions.len();
    conditions[..count].copy_from_slice(&run.conditions);
    let handed = Handed {
        received,
        count,
        command,
        channel,
    };
    (record_bytes(&run.record), conditions, handed)
}

fn step(
    library: &dyn Door,
    memory: &StepMemory,
    handed: Handed,
    tally: &mut Tally,
) -> Both<StepMemory> {
    let Handed {
        received,
        count,
        command,
        channel,
    } = handed;
    let both = both(library, memory, |door, memory| {
        let conditions = &memory.conditions.bytes[..count];
        let record = &memory.record.bytes;
        door.step(
            record,
            received,
            conditions,
            command,
            channel,
            &mut memory.out.bytes,
        )
    });
    tally.add(&both, || {
        let pair = hex(&received);
        format!("received {pair}, {count} conditions, command {command}, channel {channel}")
    });
    both
}
