//! Libraries that have another way with hold (02, g), by the names of what is wrong with
//! them.

use super::*;
use crate::books::pairs::is_command;
use crate::controller::Record;
use crate::door::{record_bytes, record_of};
use crate::judge::Row;
use crate::pair::rank;
use crate::settings::HOLD;

const NOT_KNOWN: &str = "hold is not known";
const FORGOTTEN: &str = "an outranked command is forgotten";
const DENIED: &str = "a command that is not sent is denied";
const EQUAL_TAKEN: &str = "a command of equal rank is taken";
const LOWER_TAKEN: &str = "any command is taken while another waits";
const NOT_CLEARED: &str = "a clear leaves what waits";
const SENT_HELD: &str = "what was last sent is held";
const ANY_HELD: &str = "any byte may be held";
const HELD_WITHOUT: &str = "a command may be held without hold";
const LOWEST_BIT: &str = "of the options the lowest bit counts";
const CLEARED_RECORD: &str = "a refused record comes back without its options";

/// Steps are not as they have to be.
const STEPPING: [&str; 11] = [
    NOT_KNOWN,
    FORGOTTEN,
    DENIED,
    EQUAL_TAKEN,
    LOWER_TAKEN,
    NOT_CLEARED,
    SENT_HELD,
    ANY_HELD,
    HELD_WITHOUT,
    LOWEST_BIT,
    CLEARED_RECORD,
];

const ALL_TAKEN: &str = "all options but 0 are hold";
const OPTIONS_LAST: &str = "25 comes behind all else";

const ANOTHER_VERDICT: &str = "no lower command follows one that may be held";
const NEVER_CLEARED: &str = "causes are as without hold";

const NONE: u8 = 0x00;

/// The settings without the options that there are not.
fn known(settings: Settings) -> Settings {
    Settings {
        options: settings.options.min(HOLD),
        ..settings
    }
}

/// What such a library takes for the settings, where the call with known ones has that
/// refusal.
fn taken(wrong: &str, settings: Settings, refusal: impl FnOnce(Settings) -> u8) -> Settings {
    match wrong {
        ALL_TAKEN => known(settings),
        OPTIONS_LAST if refusal(known(settings)) > 0 => known(settings),
        _ => settings,
    }
}

pub fn fresh(wrong: &str, settings: Settings, record: &mut [u8; RECORD]) -> u8 {
    let taken = taken(wrong, settings, |known| Peer.fresh(known, record));
    Peer.fresh(taken, record)
}

pub fn judge(wrong: &str, settings: Settings, capture: &[u8], out: &mut [u8; VERDICT]) -> u8 {
    let taken = taken(wrong, settings, |known| Peer.judge(known, capture, out));
    let refusal = Peer.judge(taken, capture, out);
    if wrong != ANOTHER_VERDICT || settings.options != HOLD || out[0] != 1 {
        return refusal;
    }
    let (rows, _) = capture.as_chunks();
    if let Some(step) = lower_command(rows) {
        let [high, low] = (step as u16).to_be_bytes();
        *out = [2, high, low];
    }
    refusal
}

/// The first step that sends another command than was sent last, of no higher rank.
fn lower_command(rows: &[Row]) -> Option<usize> {
    let mut last = NONE;
    rows.iter().position(|&[_, _, sent, _]| {
        let is_lower = is_command(sent) && sent != last && rank_of(sent) <= rank_of(last);
        if is_command(sent) {
            last = sent;
        }
        is_lower
    })
}

fn rank_of(k1: u8) -> u8 {
    rank(k1 >> 4, k1 & 0b1111)
}

pub fn causes(
    wrong: &str,
    settings: Settings,
    capture: &[u8],
    tables: Tables,
    out: &mut [u8; VERDICT],
) -> u8 {
    let steps = capture.len() / STEP_BYTES;
    let is_short = tables.conditions.len() < steps || tables.commands.len() < steps;
    let refusal = |known| match Peer.judge(known, capture, out) {
        0 if is_short => 11,
        refusal => refusal,
    };
    let settings = match (wrong, settings.options) {
        (NEVER_CLEARED, HOLD) => Settings {
            options: 0,
            ..settings
        },
        _ => taken(wrong, settings, refusal),
    };
    Peer.causes(settings, capture, tables, out)
}

pub fn step(
    wrong: &str,
    record: &[u8; RECORD],
    conditions: &[u8],
    handed: Handed,
    out: &mut [u8; STEP],
) -> u8 {
    let before = record_of(record);
    let Handed {
        received,
        command,
        channel,
        ..
    } = handed;
    let seen = record_bytes(&seen(wrong, before, handed));
    let refusal = Peer.step(&seen, received, conditions, command, channel, out);
    let [_, after @ .., _, _, _, _, _, fate] = out;
    let after: &mut [u8; RECORD] = after;
    if refusal > 0 {
        *after = *record;
        if wrong == CLEARED_RECORD && before.options > HOLD {
            after[1] = 0;
        }
        return refusal;
    }
    let mut left = record_of(after);
    left.options = before.options;
    let waits = left.held != NONE && left.held != left.sent;
    match wrong {
        NOT_KNOWN => left.held = before.held,
        FORGOTTEN if waits => left.held = NONE,
        DENIED if waits && *fate == 1 && command > 1 => *fate = 2,
        NOT_CLEARED if command == 1 && before.sent != before.held => left.held = before.held,
        _ => {}
    }
    *after = record_bytes(&left);
    refusal
}

/// The record as such a library sees it.
fn seen(wrong: &str, record: Record, handed: Handed) -> Record {
    let Record {
        options,
        sent,
        held,
        ..
    } = record;
    let holding = |options, held| Record {
        options,
        held,
        ..record
    };
    let new = k1_of(handed);
    let in_place = new != NONE && new != held && rank_of(new) <= rank_of(held);
    match (wrong, options) {
        (NOT_KNOWN, HOLD) | (HELD_WITHOUT, 0) => holding(0, NONE),
        (EQUAL_TAKEN, HOLD) if in_place && new >> 4 == held >> 4 => holding(HOLD, NONE),
        (LOWER_TAKEN, HOLD) if in_place && held != sent => holding(HOLD, NONE),
        (SENT_HELD, HOLD) if held == NONE && is_command(sent) => holding(HOLD, sent),
        (ANY_HELD, HOLD) if !is_command(held) => holding(HOLD, NONE),
        (LOWEST_BIT, _) => holding(options & 1, held),
        _ => record,
    }
}

/// The K1 that sends the command.
fn k1_of(handed: Handed) -> u8 {
    match handed.command {
        2 => 0xF0,
        3 => 0xE0 | handed.channel,
        4 => 0x80 | handed.channel,
        _ => NONE,
    }
}

#[test]
fn a_library_that_steps_otherwise_with_hold_is_noticed() {
    for wrong in STEPPING {
        let subjects = ["step, drawn", "step, every held byte"];
        let found = subjects.map(|name| part_of(name, &Fake { wrong }).differences);
        assert!(found.iter().all(|&found| found >= 10), "{wrong}: {found:?}");
    }
    // Walks have records that are acceptable.
    for wrong in &STEPPING[..6] {
        let found = part_of("step, walks", &Fake { wrong }).differences;
        assert!(found >= 20, "{wrong}: {found}");
    }
}

/// The first parts of `fresh` have groups that are refused by 1, and good ones.
#[test]
fn a_library_that_takes_other_options_is_noticed() {
    for wrong in [ALL_TAKEN, OPTIONS_LAST] {
        for name in ["fresh", "judge", "causes, refused"] {
            let found = differences_of(&[name], wrong);
            assert!(found >= 20, "{wrong}, {name}: {found}");
        }
    }
}

/// It is told that hold makes a difference, besides what differs from this reading.
#[test]
fn a_verdict_that_hangs_on_hold_is_noticed() {
    let wrong = ANOTHER_VERDICT;
    for name in ["judge", "causes, drawn"] {
        let tally = part_of(name, &Fake { wrong });
        assert!(tally.differences >= 20, "{name}: {}", tally.differences);
        assert!(tells(&tally, "not what the paper says"), "{name}");
    }
}

#[test]
fn causes_that_leave_a_command_waiting_are_noticed() {
    let wrong = NEVER_CLEARED;
    let tally = part_of("causes, drawn", &Fake { wrong });
    assert!(tally.differences >= 20, "{}", tally.differences);
    assert!(tells(&tally, "of the library"), "{:?}", tally.told);
}

#[test]
fn steps_with_hold_come_by_what_they_are_for() {
    assert_come_by_what_they_are_for(&["step, every held byte"]);
}
