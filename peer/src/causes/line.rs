//! A line that the program `causes` prints. What it has was settled for both readings.

use super::Cause;
use crate::judge::Row;
use std::fmt::{self, Display, Formatter};

pub const HEADER: &str = "capture step received sent conditions command";

/// What is printed of a capture in one line, behind its number.
#[derive(Clone, Debug, PartialEq, Eq)]
pub enum Line {
    Step(Step),
    /// With the first step that has no explanation, which is all there is to say.
    Unexplained(usize),
}

/// A step of an explained capture.
#[derive(Clone, Debug, PartialEq, Eq)]
pub struct Step {
    pub number: usize,
    pub row: Row,
    pub cause: Cause,
}

impl Line {
    /// Reads a line, which begins with the number of its capture. One that would not be
    /// printed just so, byte for byte, is none.
    pub fn read(text: &[u8]) -> Option<(usize, Self)> {
        let text = str::from_utf8(text).ok()?;
        let (capture, rest) = text.split_once(' ')?;
        let capture: usize = capture.parse().ok()?;
        let line = match rest.strip_prefix("unexplained ") {
            Some(step) => Self::Unexplained(step.parse().ok()?),
            None => Self::Step(Step::read(rest)?),
        };
        (format!("{capture} {line}") == text).then_some((capture, line))
    }
}

impl Step {
    /// More than would be printed passes here: a sign or zeros before a number, say.
    fn read(text: &str) -> Option<Self> {
        let mut fields = text.splitn(5, ' ');
        let mut field = || fields.next();
        let number = field()?.parse().ok()?;
        let bytes = [field()?, field()?].map(|pair| u16::from_str_radix(pair, 16).ok());
        let [[k1, k2], [sent, sent_k2]] = [bytes[0]?, bytes[1]?].map(u16::to_be_bytes);
        let digits = field()?.chars().map(|digit| digit.to_digit(10));
        let conditions = digits.map(|digit| digit.map(|digit| digit as u8));
        let conditions: Option<Vec<u8>> = conditions.collect();
        let (command, channel) = read_command(field()?)?;
        Some(Self {
            number,
            row: [k1, k2, sent, sent_k2],
            cause: Cause {
                conditions: conditions?,
                command,
                channel,
            },
        })
    }
}

fn read_command(text: &str) -> Option<(u8, u8)> {
    let (name, channel) = text.split_once(' ').unwrap_or((text, "0"));
    let command = NAMES.iter().position(|&known| known == name)?;
    Some((command as u8, channel.parse().ok()?))
}

/// By the numbers of the commands.
const NAMES: [&str; 5] = ["none", "clear", "LO", "FS", "MS"];

/// Those before this one have no channel.
const FORCED_SWITCH: u8 = 3;

impl Display for Line {
    fn fmt(&self, f: &mut Formatter) -> fmt::Result {
        match self {
            Self::Step(step) => write!(f, "{step}"),
            Self::Unexplained(step) => write!(f, "unexplained {step}"),
        }
    }
}

impl Display for Step {
    fn fmt(&self, f: &mut Formatter) -> fmt::Result {
        let [k1, k2, sent, sent_k2] = self.row;
        let Cause {
            conditions,
            command,
            channel,
        } = &self.cause;
        let conditions: String = conditions.iter().map(u8::to_string).collect();
        let name = NAMES.get(usize::from(*command)).unwrap_or(&"?");
        write!(f, "{} {k1:02X}{k2:02X} ", self.number)?;
        write!(f, "{sent:02X}{sent_k2:02X} {conditions} {name}")?;
        match *command {
            ..FORCED_SWITCH => Ok(()),
            _ => write!(f, " {channel}"),
        }
    }
}

#[cfg(test)]
mod tests;
