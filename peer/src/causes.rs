//! The causes of a capture (paper: 02, a): for each step the conditions of the sections
//! and the command under which a controller sends what was captured.
//!
//! Many causes may explain a line, and any of them will do. So those that another
//! program finds are not compared with those that are found here: they are run through
//! the controller of this reading, which has to send the capture.

pub mod fill;
pub mod line;
pub mod printed;
pub mod table;

use crate::controller::{self, Record};
use crate::judge::Row;
use std::fmt::{self, Display, Formatter};

/// What cannot be seen of a step. It holds one command, so a clear and a new one are
/// never given together (paper: "Errors a good reader makes").
#[derive(Clone, Debug, PartialEq, Eq)]
pub struct Cause {
    /// Of section 0 and up.
    pub conditions: Vec<u8>,
    pub command: u8,
    pub channel: u8,
}

/// What is wrong with the cause of a step.
#[derive(Clone, Copy, Debug, PartialEq, Eq)]
pub enum Fault {
    /// There is none.
    Missing,
    /// Its conditions have a bit above those of the last section.
    OtherBits,
    /// The controller turns the step down, under this number.
    Refused(u8),
    /// The controller sends this instead.
    Sends([u8; 2]),
}

impl Cause {
    /// Reads the two words of a step: two bits a section, section 0 lowest; the command
    /// in the upper byte, its channel in the lower. Whether there are such conditions and
    /// such a command is the controller's to say.
    pub fn of_words(n: u8, conditions: u32, command: u16) -> Result<Self, Fault> {
        let condition = |section: u8| (conditions >> (2 * section) & 0b11) as u8;
        let [command, channel] = command.to_be_bytes();
        if conditions >> (2 * (n + 1)) != 0 {
            return Err(Fault::OtherBits);
        }
        Ok(Self {
            conditions: (0..=n).map(condition).collect(),
            command,
            channel,
        })
    }

    /// The record that is left, if the step is not refused and sends precisely what was
    /// captured.
    pub fn outcome(&self, record: Record, row: Row) -> Result<Record, Fault> {
        let [k1, k2, sent @ ..] = row;
        let answer = controller::step(record, k1, k2, &self.conditions, self.command, self.channel);
        match answer.refusal {
            0 if [answer.k1, answer.k2] == sent => Ok(answer.record),
            0 => Err(Fault::Sends([answer.k1, answer.k2])),
            refusal => Err(Fault::Refused(refusal)),
        }
    }
}

impl Display for Fault {
    fn fmt(&self, f: &mut Formatter) -> fmt::Result {
        match self {
            Self::Missing => write!(f, "has no cause"),
            Self::OtherBits => write!(f, "has bits above those of the last section"),
            Self::Refused(refusal) => write!(f, "is refused by {refusal}"),
            Self::Sends([k1, k2]) => write!(f, "sends {k1:02X}{k2:02X}"),
        }
    }
}

/// Runs a controller from that record on, with the words of each step, and answers the
/// first step that has a fault.
pub fn replay(
    start: Record,
    rows: &[Row],
    conditions: &[u32],
    commands: &[u16],
) -> Result<(), (usize, Fault)> {
    let mut record = start;
    for (step, &row) in rows.iter().enumerate() {
        let words = conditions.get(step).zip(commands.get(step));
        let cause = words
            .ok_or(Fault::Missing)
            .and_then(|(&conditions, &command)| Cause::of_words(start.n, conditions, command));
        let outcome = cause.and_then(|cause| cause.outcome(record, row));
        record = outcome.map_err(|fault| (step, fault))?;
    }
    Ok(())
}

#[cfg(test)]
mod tests;
