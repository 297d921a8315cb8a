//! The causes of an explained capture, put into lent tables (paper: 02, a): a scan for
//! the verdict, a second that puts down what it knows of each step, and a walk back from
//! the last step for what only a later one can tell.
//!
//! What is sent tells nearly all of a cause. A fail or degrade is the condition of its
//! section. LO, FS and MS are the command, unless it was held. All else takes nothing but
//! that nobody speaks louder, so what is held, or a wait, is cleared where it would.
//!
//! With hold a command that is outranked is kept, and may speak up later (paper: 02, g).
//! So it is cleared in the first step that sends something else: then none waits unseen,
//! and all goes on as without hold. There is room for the clear in that step, which is
//! given nothing else; and behind a command there is no wait that it would end.
//!
//! One thing stays open: whether section 0 failed under LO. No step shows that but a
//! later one, which the accepted pair explains, or 00 08 in its place, but not both.

use crate::controller::Record;
use crate::judge::scan::{can_be_failed, is_alarm, scan, worth, Heard, WORTH};
use crate::judge::{admit, Row, Verdict};
use crate::pair::Request;
use crate::settings::{Settings, HOLD};
use std::hint::select_unpredictable as choose;

/// Refusal 11. Those before it are those of the judge.
const SHORT_TABLE: u8 = 11;

/// In a word of conditions, above those of every section: before the step the pair that
/// was received could be the accepted one. Between the second scan and the walk back.
const KEPT: u32 = 1 << 31;

/// The condition of section 0.
const FAILED: u32 = 2;

const NO_COMMAND: u16 = 0x0000;
const CLEAR: u16 = 0x0100;

const WAIT: u8 = Request::WaitToRestore as u8;

/// What counts as sent before the first step.
const SENT_BEFORE: u8 = 0x00;

/// What a K1 tells of the step that sends it, and of the next.
#[derive(Clone, Copy)]
struct Told {
    /// The condition of its section, in its place.
    conditions: u32,
    /// The word of its command.
    command: u16,
    worth: u8,
    /// What goes on in the next step, unless it is cleared: the worth of the command that
    /// is held, or of the wait, if some of it is left.
    lasting: u8,
}

static TOLD: [Told; 256] = all_told();

const fn all_told() -> [Told; 256] {
    let mut all = [told(SENT_BEFORE); 256];
    let mut k1 = 0;
    while k1 < all.len() {
        all[k1] = told(k1 as u8);
        k1 += 1;
    }
    all
}

const fn told(k1: u8) -> Told {
    let (code, channel) = (k1 >> 4, k1 & 0b1111);
    let (condition, command) = match code {
        0b1111 => (0, 2),
        0b1110 => (0, 3),
        0b1101 | 0b1100 => (2, 0),
        0b1011 | 0b1010 => (1, 0),
        0b1000 => (0, 4),
        _ => (0, 0),
    };
    let worth_of_k1 = worth(code, channel);
    let lasting = match (condition, command) {
        (_, 1..) => worth_of_k1,
        (1.., _) if channel > 0 => worth(WAIT, channel),
        _ if code == WAIT => worth_of_k1,
        _ => 0,
    };
    Told {
        conditions: condition << (2 * channel),
        command: if command > 0 {
            u16::from_be_bytes([command, channel])
        } else {
            NO_COMMAND
        },
        worth: worth_of_k1,
        lasting,
    }
}

/// The verdict on a capture, or the paper's number for its refusal. The order of the
/// checks is that of the judge, and then 11. Nothing is written but by a capture that is
/// explained: then the words of its steps, and none behind them.
pub fn fill(
    settings: Settings,
    capture: &[u8],
    conditions: &mut [u32],
    commands: &mut [u16],
) -> Result<Verdict, u8> {
    let (start, rows) = admit(settings, capture)?;
    let conditions = conditions.get_mut(..rows.len()).ok_or(SHORT_TABLE)?;
    let commands = commands.get_mut(..rows.len()).ok_or(SHORT_TABLE)?;
    let verdict = scan(start, rows);
    if let Verdict::Explained(_) = verdict {
        let kept = put_down(start, rows, conditions, commands);
        walk_back(rows, conditions, kept);
    }
    Ok(verdict)
}

/// All that can be told of each step as it comes, and whether, behind the last of them,
/// the received pair could be the accepted one.
///
/// As in the scan, no choice is made by a branch. That each row is explained saves asking
/// what could be sent: unless section 0 was seen to fail, all of it could.
fn put_down(start: Record, rows: &[Row], conditions: &mut [u32], commands: &mut [u16]) -> bool {
    let mut heard = Heard::new(start);
    let mut wait = 0u16;
    let holds = start.options == HOLD;
    let (mut last, mut before) = (SENT_BEFORE, TOLD[usize::from(SENT_BEFORE)]);
    for ((&row, conditions), command) in rows.iter().zip(conditions).zip(commands) {
        let [k1, k2, sent, sent_k2] = row;
        let told = TOLD[usize::from(sent)];
        *conditions = told.conditions | choose(heard.kept, KEPT, 0);
        heard.receive(k1, k2);
        let answers = sent >> 4 == Request::Reverse.code();
        let failed = (told.conditions == FAILED) | is_alarm(k2);
        heard.kept &= !failed & heard.is_sent(sent, sent_k2, answers);
        // What is answered has to be better than what goes on here. Anything else has
        // only to be no worse.
        let answered = WORTH[usize::from(heard.k1)].wrapping_sub(1);
        let held = before.command != NO_COMMAND;
        let lasts = held | (wait > 0);
        let louder = lasts & (before.lasting > choose(answers, answered, told.worth));
        let outranked = holds & held & (told.command == NO_COMMAND);
        let given = choose(sent == last, NO_COMMAND, told.command);
        *command = choose(louder | outranked, CLEAR, given);
        let waited = choose(sent >> 4 == WAIT, wait.wrapping_sub(1), 0);
        wait = choose(told.conditions != 0, start.w, waited);
        (last, before) = (sent, told);
    }
    heard.kept
}

/// Chooses for each step, from the last to the first, which pair was the accepted one
/// behind it: the received one where it could be that, but 00 08 where the step that
/// follows has to find 00 08, and section 0 does not fail in that. A step under LO that
/// leaves 00 08 where the other could have been is one in which section 0 fails.
fn walk_back(rows: &[Row], conditions: &mut [u32], mut kept: bool) {
    let mut lost = !kept;
    for (&row, conditions) in rows.iter().zip(conditions).rev() {
        let [_, _, sent, sent_k2] = row;
        let can_fail = can_be_failed(sent, sent_k2);
        let fails = can_fail & kept & lost;
        kept = *conditions & KEPT != 0;
        lost = !kept | (lost & !can_fail);
        *conditions = *conditions & !KEPT | choose(fails, FAILED, 0);
    }
}

#[cfg(test)]
mod tests;
