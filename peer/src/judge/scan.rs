//! The judge once more (paper: "The judge"), made for speed: one scan over the
//! rows, and the same few operations for each that differs from the one before, whatever
//! the size of the group.
//!
//! What a step can send hangs on the record before it. The K1 last sent and the
//! steps of wait left are seen in the capture. The accepted pair is not, but it is
//! one of two: the last usable pair received, or 00 08 if section 0 has failed
//! since (paper: "Errors a good reader makes", the second). An alarm leaves the
//! second alone (paper: 02, c). So two flags hold all that is left of the
//! explanations.
//!
//! Conditions and commands are not tried. Any of them can come up in a step, and a
//! clear drops the command held and the wait; so every request can be the local
//! one, unless rule 2 or 3 shuts it out.
//!
//! Nor is it asked whether the end has hold (paper: 02, g). With it a command may wait
//! unseen; but one that comes back could have been given in that step, and one that would
//! be in the way could have been cleared in the first step that sent something else, in
//! which there is no other command, and no wait that the clear would end. So all that one
//! end can send, the other can. The judge by brute force, which has the waiting commands in
//! its records, finds the same.
//!
//! Most rows of a line repeat the row before. Behind a row that is explained, and sends
//! anything but WTR, such a row leaves all as it was, so that it need only be found to
//! be the same:
//!
//! - What can be sent next hangs on the K1 last sent, which is the same, and on the wait.
//!   Of that nothing is left unless WTR is sent (rule 5), and what a fail or degrade starts
//!   is W each time (rule 3).
//! - No explanation is lost. What made the row goes on: a condition lasts, a command that
//!   was sent is held (rule 2), and RR and NR need nobody. And the pair that was accepted is
//!   received once more, or left, or is 00 08 once more (rule 1). So each record that the
//!   row has led to leads to itself.
//! - None is gained by the received pair. It is the accepted one now only if section 0 is
//!   good, and what is sent not shut out. So it was in the row before, unless that had no
//!   explanation but a failed section 0: then D0 is sent, which a good one never sends, or
//!   LO, which is never shut out.
//! - Nor is one gained by 00 08. It is the accepted pair now if it was before, or if section
//!   0 fails in this row, and then what is sent let it fail in the row before as well.
//!
//! A row that sends WTR differs in the wait alone, of which each repetition takes one step
//! off (rule 3), and which shuts it out when nothing is left.

use super::{admit, Row, Verdict};
use crate::controller::Record;
use crate::pair::Request;
use crate::settings::Settings;
use std::hint::select_unpredictable as choose;

/// The last four bits of a K2: bit 5, then the line bits of a good line, those of a
/// remote defect or those of an alarm. Only the first are sent (rule 6).
const GOOD_LINE: u8 = 0b1000;
const REMOTE_DEFECT: u8 = 0b1110;
const ALARM: u8 = 0b1111;

/// A bit for each of those last four bits that a usable pair can have.
const USABLE_LINES: u16 = 1 << GOOD_LINE | 1 << REMOTE_DEFECT;

const FAIL_OF_PROTECTION: u16 = 0xD008;
const LOCKOUT_OF_PROTECTION: u16 = 0xF008;

const NO_CHANNEL: u16 = 0;
const PROTECTION: u16 = 1;

/// For each K1 what it is worth against another: greater is better. The rank
/// decides, then the lower channel (rule 4). RR and NR, which never win, have 0.
pub static WORTH: [u8; 256] = worths();

const fn worths() -> [u8; 256] {
    let mut worths = [0; 256];
    let mut k1 = 0;
    while k1 < worths.len() {
        worths[k1] = worth(k1 as u8 >> 4, k1 as u8 & 0b1111);
        k1 += 1;
    }
    worths
}

pub const fn worth(code: u8, channel: u8) -> u8 {
    let rank = match (code, channel) {
        (0b1111, _) => 10,
        (0b1101, 0) => 9,
        (0b1110, _) => 8,
        (0b1101, _) => 7,
        (0b1100, _) => 6,
        (0b1011, _) => 5,
        (0b1010, _) => 4,
        (0b1000, _) => 3,
        (0b0110, _) => 2,
        _ => return 0,
    };
    rank << 4 | (0b1111 - channel)
}

/// The verdict on a capture, or the paper's number for its refusal.
pub fn judge(settings: Settings, capture: &[u8]) -> Result<Verdict, u8> {
    let (start, rows) = admit(settings, capture)?;
    Ok(scan(start, rows))
}

/// Row by row where they differ, and at once over those that repeat a row.
pub fn scan(start: Record, rows: &[Row]) -> Verdict {
    let mut line = Line::new(start);
    let mut rest = rows;
    while let Some(place) = line.goes_until(rest) {
        if !line.is_explained() {
            return Verdict::Unexplained(rows.len() - rest.len() + place);
        }
        let (row, behind) = (rest[place], &rest[place + 1..]);
        rest = &behind[line.pass_over(row, repetitions(row, behind))..];
    }
    match rest.last() {
        Some(&row) if !line.explains(row) => Verdict::Unexplained(rows.len() - 1),
        _ => Verdict::Explained(rows.len()),
    }
}

/// The rows that are compared at once. More of them would be found the same hardly sooner,
/// and leave more to be compared one by one where a run ends.
pub const BLOCK: usize = 32;

/// How many rows from the first on are that row.
///
/// Not inlined, so that the scan has its registers for rows that differ.
#[inline(never)]
fn repetitions(row: Row, rows: &[Row]) -> usize {
    let (blocks, _) = rows.as_chunks::<BLOCK>();
    let whole = blocks.iter().take_while(|block| is_all(row, block));
    let whole = whole.count() * BLOCK;
    let others = rows[whole..].iter();
    whole + others.take_while(|&&other| other == row).count()
}

/// Looks at each row of the block, whatever the one before it was, which takes few
/// instructions for many rows.
fn is_all(row: Row, block: &[Row; BLOCK]) -> bool {
    let row = u32::from_ne_bytes(row);
    let differing = |found, &other: &Row| found | (u32::from_ne_bytes(other) ^ row);
    block.iter().fold(0, differing) == 0
}

/// Some K1: for each code a set of channels, where bit c is channel c.
#[derive(Clone, Copy, PartialEq, Eq, Hash)]
struct K1Set([u16; 16]);

impl K1Set {
    fn has(&self, k1: u8) -> bool {
        self.0[usize::from(k1 >> 4)] >> (k1 & 0b1111) & 1 == 1
    }

    fn set(&mut self, request: Request, channels: u16) {
        self.0[request as usize] = channels;
    }

    /// All that the paper's table has, for a group with these sections.
    fn usable(sections: u16) -> Self {
        let mut set = Self([NO_CHANNEL; 16]);
        set.set(Request::Lockout, PROTECTION);
        set.set(Request::ForcedSwitch, sections);
        set.set(Request::SignalFailHigh, PROTECTION | sections);
        set.set(Request::SignalFailLow, sections);
        set.set(Request::SignalDegradeHigh, PROTECTION | sections);
        set.set(Request::SignalDegradeLow, sections);
        set.set(Request::ManualSwitch, sections);
        set.set(Request::WaitToRestore, sections);
        set.set(Request::Reverse, PROTECTION | sections);
        set.set(Request::Nothing, PROTECTION);
        set
    }

    /// What a fresh end can send while section 0 has not failed.
    fn open(sections: u16, high: u16) -> Self {
        let mut set = Self::usable(sections);
        set.set(Request::SignalFailHigh, high);
        set.set(Request::SignalFailLow, sections & !high);
        set.set(Request::SignalDegradeHigh, PROTECTION | high);
        set.set(Request::SignalDegradeLow, sections & !high);
        set.set(Request::WaitToRestore, NO_CHANNEL);
        set
    }
}

/// What was received, as far as an end that has heard it may still go by it.
#[derive(Clone, PartialEq, Eq, Hash)]
pub struct Heard {
    n: u8,
    usable: K1Set,
    /// The K1 of the last usable pair. Its K2 shows in nothing that is sent.
    pub k1: u8,
    /// That pair may be the accepted one.
    pub kept: bool,
}

impl Heard {
    pub fn new(start: Record) -> Self {
        let n = start.n;
        Self {
            n,
            usable: K1Set::usable(sections_of(n)),
            k1: 0x00,
            kept: true,
        }
    }

    /// Rule 1, for a section 0 that has not failed. Answers whether the pair is usable.
    #[inline(always)]
    pub fn receive(&mut self, k1: u8, k2: u8) -> bool {
        let line = k2 & 0b1111;
        let usable = (USABLE_LINES >> line & 1 == 1) & (k2 >> 4 <= self.n) & self.usable.has(k1);
        self.k1 = choose(usable, k1, self.k1);
        self.kept |= usable;
        usable
    }

    /// Rules 4 and 6, with the received pair accepted.
    #[inline(always)]
    pub fn is_sent(&self, sent: u8, sent_k2: u8, reverse: bool) -> bool {
        let channel = self.k1 & 0b1111;
        let same = channel == sent & 0b1111;
        let bridge = choose(same | (sent == 0), channel, 0);
        let better = WORTH[usize::from(self.k1)] > WORTH[usize::from(sent)];
        (better == reverse) & (!reverse | same) & (sent_k2 == bridge << 4 | GOOD_LINE)
    }
}

/// Bit c for each section c.
fn sections_of(n: u8) -> u16 {
    ((1u32 << (n + 1)) - 2) as u16
}

/// An alarm is a failure of section 0, and explains nothing else (paper: 02, c).
pub fn is_alarm(k2: u8) -> bool {
    k2 & 0b1111 == ALARM
}

/// What the rows so far leave open.
#[derive(Clone, PartialEq, Eq, Hash)]
pub struct Line {
    sections: u16,
    w: u16,
    /// What can be sent next while section 0 has not failed: RR, NR, and whatever
    /// can be a local request.
    open: K1Set,
    /// The steps of wait left.
    wait: u16,
    pub heard: Heard,
    /// 00 08 may be the accepted pair, because section 0 has failed.
    pub lost: bool,
}

impl Line {
    pub fn new(start: Record) -> Self {
        let Record { n, mask, w, .. } = start;
        let sections = sections_of(n);
        Self {
            sections,
            w,
            open: K1Set::open(sections, mask << 1),
            wait: 0,
            heard: Heard::new(start),
            lost: false,
        }
    }

    /// The first row that is not explained, or that the next one repeats. All rows up to it
    /// have been looked at; if there is none, all but the last, which no row is behind.
    ///
    /// Both are asked for at once, so that there is one branch for each row.
    #[inline(always)]
    fn goes_until(&mut self, rows: &[Row]) -> Option<usize> {
        rows.windows(2)
            .position(|pair| !self.explains(pair[0]) | (pair[0] == pair[1]))
    }

    /// Whether the rows still have an explanation with this one.
    ///
    /// No choice here is made by a branch, which would be taken in one row and not
    /// in the next: hence `&` and `|`, which look at both sides, and `choose`.
    #[inline(always)]
    pub fn explains(&mut self, [k1, k2, sent, sent_k2]: Row) -> bool {
        self.lost &= !self.heard.receive(k1, k2);
        let open = self.open.has(sent) & !is_alarm(k2);
        let reverse = sent >> 4 == Request::Reverse.code();
        let kept = self.heard.is_sent(sent, sent_k2, reverse);
        // With 00 08 accepted there is nothing to answer and nothing to bridge.
        let lost = !reverse & (sent_k2 == GOOD_LINE);
        self.heard.kept &= open & kept;
        self.lost &= open & lost;
        self.lost |= can_be_failed(sent, sent_k2);
        self.go_on(sent);
        self.is_explained()
    }

    fn is_explained(&self) -> bool {
        self.heard.kept | self.lost
    }

    /// How many repetitions, of those that are there, of the row that was just explained
    /// are explained without a look at them: see the head of this module.
    #[inline(always)]
    fn pass_over(&mut self, [_, _, sent, _]: Row, repetitions: usize) -> usize {
        if sent >> 4 != Request::WaitToRestore.code() {
            return repetitions;
        }
        // Of more than are waited for the next one is left to be looked at.
        let waited = repetitions.min(self.wait.into());
        self.wait -= waited as u16;
        if self.wait == 0 {
            self.open.set(Request::WaitToRestore, NO_CHANNEL);
        }
        waited
    }

    /// What the next step can send: rules 2, 3 and 5.
    fn go_on(&mut self, sent: u8) {
        let (code, channel) = (sent >> 4, 1 << (sent & 0b1111));
        let is = |request: Request| code == request.code();
        // The codes of fails and degrades lie together. That section 0 has no wait
        // follows from `sections`, which it is not in.
        let fault = (0b1010..=0b1101).contains(&code);
        let waited = choose(is(Request::WaitToRestore), self.wait.wrapping_sub(1), 0);
        self.wait = choose(fault, self.w, waited);
        let waits = choose(self.wait > 0, channel & self.sections, NO_CHANNEL);
        let forced = choose(is(Request::ForcedSwitch), channel, self.sections);
        let forced = choose(is(Request::Lockout), NO_CHANNEL, forced);
        let manual = choose(is(Request::ManualSwitch), channel, self.sections);
        let manual = choose(code >= Request::ForcedSwitch.code(), NO_CHANNEL, manual);
        self.open.set(Request::WaitToRestore, waits);
        self.open.set(Request::ForcedSwitch, forced);
        self.open.set(Request::ManualSwitch, manual);
    }
}

/// While section 0 has failed, nothing but LO outranks that, and nothing is
/// accepted that could (rules 1, 3 and 4). LO can be given or held in every step,
/// and be dropped by a clear.
pub fn can_be_failed(sent: u8, sent_k2: u8) -> bool {
    let pair = u16::from_be_bytes([sent, sent_k2]);
    (pair == FAIL_OF_PROTECTION) | (pair == LOCKOUT_OF_PROTECTION)
}

#[cfg(test)]
mod tests;
