//! One end of the group (paper: "One step"), with the refusals that a step and
//! the making of a fresh record can meet (paper: "Numbered refusals").
//!
//! Between two steps an end knows no more than its [`Record`]. So the section it
//! waits for, and the one that stays among its equals, are read back from the K1 last
//! sent. The command it holds is read back from there too, unless it has the setting
//! hold, with which it is kept in a place of its own (paper: 02, g).

use crate::pair::{self, Received, Request};
use crate::settings::{self, Settings, Unfit, HOLD};
use std::cmp::Reverse;

/// The greatest condition a section can have (paper: "One step").
const FAILED: u8 = 2;
const DEGRADED: u8 = 1;

/// What the pair 00 08 says. An end starts with it, and falls back on it when
/// the section that carries the pairs has failed (paper: "One step" and rule 1).
const IDLE: pair::Record = pair::Record {
    code: Request::Nothing as u8,
    channel: 0,
    bridged: 0,
    remote_defect: false,
};

/// A call that is turned down, under the paper's number for it.
#[derive(Clone, Copy, Debug, PartialEq, Eq)]
#[repr(u8)]
pub enum Refusal {
    Sections = 1,
    Mask = 2,
    Record = 3,
    ConditionCount = 4,
    Condition = 5,
    Command = 6,
    CommandChannel = 7,
    Options = 25,
}

impl Refusal {
    pub fn number(self) -> u8 {
        self as u8
    }
}

impl From<Unfit> for Refusal {
    fn from(unfit: Unfit) -> Self {
        match unfit {
            Unfit::Options => Self::Options,
            Unfit::Sections => Self::Sections,
            Unfit::Mask => Self::Mask,
        }
    }
}

/// All that an end keeps from step to step. The fields are plain numbers,
/// because a caller may hand any record to [`step`].
#[derive(Clone, Copy, Debug, PartialEq, Eq, Hash)]
pub struct Record {
    pub n: u8,
    /// As in [`Settings`].
    pub options: u8,
    /// Bit c - 1 is set when section c is of high priority.
    pub mask: u16,
    pub w: u16,
    /// K1 first.
    pub accepted: [u8; 2],
    /// The K1 last sent.
    pub sent: u8,
    /// The steps of wait left.
    pub left: u16,
    /// With hold the command that is held, as the K1 that sends it.
    pub held: u8,
}

/// Stands where no command is held, and without hold always.
const NONE_HELD: u8 = 0x00;

/// What a record says that is acceptable.
#[derive(Clone, Copy)]
struct Known {
    /// The accepted pair.
    accepted: pair::Record,
    /// What the K1 last sent asks for.
    last: K1,
    /// The command that is held.
    held: Option<K1>,
}

impl Record {
    /// Nothing is read of a record that is not acceptable (paper: refusal 3).
    fn read(&self) -> Option<Known> {
        let [k1, k2] = self.accepted;
        let accepted = pair::read(self.n, k1, k2).usable()?;
        let last = K1::read(self.n, self.sent)?;
        let held = self.read_held(last)?;
        let possible = self.agrees_with_mask(last) && self.has_wait_of(last.request);
        possible.then_some(Known {
            accepted,
            last,
            held,
        })
    }

    /// The command that is held, if there is one; and nothing at all if it is none that
    /// can be given, if it is held without hold, or if there are no such options (paper:
    /// refusal 3; 02, g). With hold what was last sent has no part in it, so that a
    /// command last sent may be one that is not held.
    fn read_held(&self, last: K1) -> Option<Option<K1>> {
        match (self.options, self.held) {
            (0, NONE_HELD) => Some(last.command()),
            (HOLD, NONE_HELD) => Some(None),
            (HOLD, held) => K1::read(self.n, held)?.command().map(Some),
            _ => None,
        }
    }

    /// No exception for protection is needed: it counts as high, and the table
    /// has no row that codes it low.
    fn agrees_with_mask(&self, last: K1) -> bool {
        match last.request {
            Request::SignalFailHigh | Request::SignalDegradeHigh => self.is_high(last.channel),
            Request::SignalFailLow | Request::SignalDegradeLow => !self.is_high(last.channel),
            _ => true,
        }
    }

    fn has_wait_of(&self, request: Request) -> bool {
        if request == Request::WaitToRestore {
            (1..=self.w).contains(&self.left)
        } else {
            self.left == 0
        }
    }

    /// Protection is high whatever the mask says, which has no bit for it
    /// (paper: "One step", rule 3; G.841, Table 7-2).
    fn is_high(&self, section: u8) -> bool {
        section
            .checked_sub(1)
            .is_none_or(|bit| (self.mask >> bit) & 1 == 1)
    }
}

/// What a step answers. A refused one has zeros everywhere but in the refusal,
/// and the record it was given.
#[derive(Clone, Copy, Debug, PartialEq, Eq)]
pub struct Answer {
    pub refusal: u8,
    pub record: Record,
    pub k1: u8,
    pub k2: u8,
    pub bridge: u8,
    pub selector: u8,
    pub mark: u8,
    pub fate: u8,
}

impl Answer {
    fn refused(refusal: Refusal, record: Record) -> Self {
        Self {
            refusal: refusal.number(),
            record,
            k1: 0,
            k2: 0,
            bridge: 0,
            selector: 0,
            mark: 0,
            fate: 0,
        }
    }
}

/// Makes the record of an end that has neither sent nor accepted anything yet.
pub fn fresh(settings: Settings) -> Result<Record, Refusal> {
    settings.check()?;
    let Settings {
        n,
        options,
        mask,
        w,
    } = settings;
    Ok(Record {
        n,
        options,
        mask,
        w,
        accepted: pair::pack(IDLE),
        sent: K1::NO_REQUEST.byte(),
        left: 0,
        held: NONE_HELD,
    })
}

/// Takes one step from a record: `k1` and `k2` are received, `conditions` are
/// those of section 0 and up, and `channel` belongs to the command.
pub fn step(record: Record, k1: u8, k2: u8, conditions: &[u8], command: u8, channel: u8) -> Answer {
    match Step::admit(record, conditions, command, channel) {
        Ok(step) => step.answer(k1, k2),
        Err(refusal) => Answer::refused(refusal, record),
    }
}

/// Refusals 4 and 5, which look at what was handed in, whatever is received with it
/// (paper: 02, c). Parts section 0 from the others.
fn check_conditions(n: u8, conditions: &[u8]) -> Result<(u8, &[u8]), Refusal> {
    let (&protection, sections) = conditions
        .split_first()
        .filter(|(_, sections)| sections.len() == usize::from(n))
        .ok_or(Refusal::ConditionCount)?;
    if conditions.iter().any(|&condition| condition > FAILED) {
        return Err(Refusal::Condition);
    }
    Ok((protection, sections))
}

/// What a K1 byte asks for.
#[derive(Clone, Copy, Debug, PartialEq, Eq)]
struct K1 {
    request: Request,
    channel: u8,
}

impl K1 {
    const NO_REQUEST: Self = Self {
        request: Request::Nothing,
        channel: 0,
    };

    fn read(n: u8, byte: u8) -> Option<Self> {
        let (request, channel) = pair::read_k1(n, byte).ok()?;
        Some(Self { request, channel })
    }

    fn byte(self) -> u8 {
        let [k1, _] = self.pair(0);
        k1
    }

    /// The line bits are never set: reporting a remote defect is not the
    /// controller's part (paper: "One step", rule 6).
    fn pair(self, bridged: u8) -> [u8; 2] {
        pair::pack(pair::Record {
            code: self.request.code(),
            channel: self.channel,
            bridged,
            remote_defect: false,
        })
    }

    fn rank(self) -> u8 {
        pair::rank(self.request.code(), self.channel)
    }

    fn standing(self) -> (u8, Reverse<u8>) {
        standing(self.request.code(), self.channel)
    }

    /// This one, if it is what a command asks for.
    fn command(self) -> Option<Self> {
        match self.request {
            Request::Lockout | Request::ForcedSwitch | Request::ManualSwitch => Some(self),
            _ => None,
        }
    }
}

/// Greater is better between the ends. Of equal ranks the lower channel wins, even
/// over one that came first, so that both ends come to the same (paper: "One step",
/// rule 4; 02 d; G.873.1, 8.10).
fn standing(code: u8, channel: u8) -> (u8, Reverse<u8>) {
    (pair::rank(code, channel), Reverse(channel))
}

/// The command a step is given.
#[derive(Clone, Copy)]
enum Command {
    Absent,
    Clear,
    New(K1),
}

impl Command {
    /// Refusals 6 and 7. The channels of a switching command are those its
    /// request may name on the line.
    fn read(n: u8, command: u8, channel: u8) -> Result<Self, Refusal> {
        let new = |request| (Self::New(K1 { request, channel }), request.channels(n));
        let (read, channels) = match command {
            0 => (Self::Absent, 0..=0),
            1 => (Self::Clear, 0..=0),
            2 => new(Request::Lockout),
            3 => new(Request::ForcedSwitch),
            4 => new(Request::ManualSwitch),
            _ => return Err(Refusal::Command),
        };
        if channels.contains(&channel) {
            Ok(read)
        } else {
            Err(Refusal::CommandChannel)
        }
    }
}

/// What became of a step's command, under the paper's number for it.
#[derive(Clone, Copy)]
#[repr(u8)]
enum Fate {
    NoneGiven = 0,
    Taken = 1,
    Denied = 2,
}

/// A step that no refusal stops, with the record and the command read.
struct Step<'a> {
    record: Record,
    known: Known,
    /// The condition of section 0, and those of the sections from 1 up.
    protection: u8,
    sections: &'a [u8],
    command: Command,
}

impl<'a> Step<'a> {
    /// The first check that fails is the refusal, so their order is that of the
    /// paper's numbers.
    fn admit(
        record: Record,
        conditions: &'a [u8],
        command: u8,
        channel: u8,
    ) -> Result<Self, Refusal> {
        settings::check(record.n, record.mask)?;
        let known = record.read().ok_or(Refusal::Record)?;
        let (protection, sections) = check_conditions(record.n, conditions)?;
        let command = Command::read(record.n, command, channel)?;
        Ok(Self {
            record,
            known,
            protection,
            sections,
            command,
        })
    }

    fn answer(mut self, k1: u8, k2: u8) -> Answer {
        let received = pair::read(self.record.n, k1, k2);
        // The line card will say the same, but some steps late (paper: 02, c).
        if received == Received::Alarm {
            self.protection = FAILED;
        }
        let (accepted, mark) = self.accept(received);
        let (command, fate) = self.weigh_command();
        let wait = self.wait();
        let local = self.local_request(command, wait);
        let sent = decide(accepted, local);
        let bridge = bridge(accepted, sent);
        let [k1, k2] = sent.pair(bridge);
        Answer {
            refusal: 0,
            record: Record {
                accepted: pair::pack(accepted),
                sent: k1,
                left: wait_left(sent, wait),
                held: self.kept(command),
                ..self.record
            },
            k1,
            k2,
            bridge,
            selector: selector(accepted, sent),
            mark,
            fate: self.fate_after(fate, sent) as u8,
        }
    }

    /// Rule 1: the pair accepted from now on, and the mark of the received one.
    fn accept(&self, received: Received) -> (pair::Record, u8) {
        match received {
            // The pairs travel on protection (G.841, 7.1.1.8), so while it has failed
            // nothing that seems to arrive is worth a look, nor a mark.
            _ if self.protection == FAILED => (IDLE, 0),
            Received::Alarm => (IDLE, 0),
            Received::Usable(record) => (record, 0),
            Received::Marked(mark) => (self.known.accepted, mark.number()),
        }
    }

    /// Rule 2: the command that goes on to the candidates, and the fate of the
    /// given one as far as the held one decides it. Repeating the held command
    /// is denied like any other of its rank.
    fn weigh_command(&self) -> (Option<K1>, Fate) {
        let held = self.known.held;
        match (self.command, held) {
            (Command::Absent, _) => (held, Fate::NoneGiven),
            (Command::Clear, _) => (None, Fate::Taken),
            (Command::New(new), Some(held)) if new.rank() <= held.rank() => {
                (Some(held), Fate::Denied)
            }
            (Command::New(new), _) => (Some(new), Fate::Taken),
        }
    }

    /// Rule 3, the wait: the steps left should it be WTR that is sent, or 0 if
    /// WTR is no candidate. Only this end's own fail or degrade of a working
    /// section starts a wait (paper: "Errors a good reader makes").
    fn wait(&self) -> u16 {
        let Known { last, .. } = self.known;
        match (self.command, last.request) {
            (Command::Clear, _) => 0,
            // Refusal 3 keeps out a WTR with no wait left.
            (_, Request::WaitToRestore) => self.record.left - 1,
            (
                _,
                Request::SignalFailHigh
                | Request::SignalFailLow
                | Request::SignalDegradeHigh
                | Request::SignalDegradeLow,
            ) if last.channel > 0 => self.record.w,
            _ => 0,
        }
    }

    /// Rule 3: the best candidate. Only conditions can be of equal rank, so every
    /// tie is one of theirs.
    fn local_request(&self, command: Option<K1>, wait: u16) -> K1 {
        let waiting = K1 {
            request: Request::WaitToRestore,
            channel: self.known.last.channel,
        };
        let of_protection = self.condition_request(0, self.protection);
        (1..)
            .zip(self.sections)
            .filter_map(|(section, &condition)| self.condition_request(section, condition))
            .chain(of_protection)
            .chain(command)
            .chain((wait > 0).then_some(waiting))
            .max_by_key(|&candidate| self.local_standing(candidate))
            .unwrap_or(K1::NO_REQUEST)
    }

    /// Greater is better at this end. Of equal ranks the one last sent stays, since
    /// a switch already made is not taken away by its equal (paper: 02 d; G.873.1,
    /// 8.10). Section 0 counts as if it had come first, and is the lower of two that
    /// did: so it wins its tie.
    fn local_standing(&self, candidate: K1) -> (u8, bool, Reverse<u8>) {
        let came_first = candidate == self.known.last || candidate.channel == 0;
        (candidate.rank(), came_first, Reverse(candidate.channel))
    }

    fn condition_request(&self, section: u8, condition: u8) -> Option<K1> {
        let request = match (condition, self.record.is_high(section)) {
            (FAILED, true) => Request::SignalFailHigh,
            (FAILED, false) => Request::SignalFailLow,
            (DEGRADED, true) => Request::SignalDegradeHigh,
            (DEGRADED, false) => Request::SignalDegradeLow,
            _ => return None,
        };
        Some(K1 {
            request,
            channel: section,
        })
    }

    /// Rule 5, the command: what the record keeps of it. With hold that is all, sent or
    /// not (paper: 02, g). Without it, to forget one that was not sent takes no doing:
    /// the next step looks for it in the K1 of this one.
    fn kept(&self, command: Option<K1>) -> u8 {
        match command {
            Some(command) if self.holds() => command.byte(),
            _ => NONE_HELD,
        }
    }

    /// Rule 5, the fate: what is forgotten was denied. With hold nothing is (paper: 02, g).
    fn fate_after(&self, fate: Fate, sent: K1) -> Fate {
        match self.command {
            Command::New(new) if new != sent && !self.holds() => Fate::Denied,
            _ => fate,
        }
    }

    fn holds(&self) -> bool {
        self.record.options == HOLD
    }
}

/// Rule 4. RR and NR have rank 0, and the one local request of that rank names
/// channel 0; so neither can be strictly better, and no check for them is due.
fn decide(accepted: pair::Record, local: K1) -> K1 {
    if standing(accepted.code, accepted.channel) > local.standing() {
        K1 {
            request: Request::Reverse,
            channel: accepted.channel,
        }
    } else {
        local
    }
}

/// Rule 5, the wait: anything sent instead of WTR ends it for good (G.841,
/// 7.1.1.3).
fn wait_left(sent: K1, wait: u16) -> u16 {
    if sent.request == Request::WaitToRestore {
        wait
    } else {
        0
    }
}

/// Rule 6. With nothing to ask for, an end keeps up the bridge the other end
/// still asks for (Corrigendum 1, Table 7-4, the row where the wait expires).
fn bridge(accepted: pair::Record, sent: K1) -> u8 {
    if accepted.channel == sent.channel || sent.request == Request::Nothing {
        accepted.channel
    } else {
        0
    }
}

/// Rule 7. Selector 0 is the released one (G.841, 7.1.1.7.3).
fn selector(accepted: pair::Record, sent: K1) -> u8 {
    if accepted.bridged == sent.channel {
        sent.channel
    } else {
        0
    }
}

#[cfg(test)]
pub(crate) mod by_01;
#[cfg(test)]
mod properties;
#[cfg(test)]
mod tests;
