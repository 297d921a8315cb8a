//! The tables of `peer sequences`: the byte pair and the controller over chosen
//! inputs, in a fixed text that can be compared byte for byte with the text of
//! another reading.

mod coder;
mod refusals;
mod steps;
mod table;
mod walks;

use crate::block::Block;
use crate::controller::{self, Answer, Record};
use crate::settings::Settings;
use std::io::{self, Write};

pub fn write<W: Write>(out: &mut W) -> io::Result<()> {
    coder::write(out)?;
    let blocks: [Block<W>; 8] = [
        steps::write,
        table::write,
        refusals::write_of_fresh,
        refusals::write_by_two_faults,
        refusals::write_by_the_record,
        refusals::write_by_the_command,
        walks::write,
        walks::write_with_hold,
    ];
    for block in blocks {
        writeln!(out)?;
        block(out)?;
    }
    Ok(())
}

/// What a step is handed besides the record.
#[derive(Clone, Copy)]
struct Given<'a> {
    received: [u8; 2],
    conditions: &'a [u8],
    command: u8,
    channel: u8,
}

impl<'a> Given<'a> {
    const fn new(k1: u8, k2: u8, conditions: &'a [u8]) -> Self {
        Self {
            received: [k1, k2],
            conditions,
            command: 0,
            channel: 0,
        }
    }

    const fn commanded(self, command: u8, channel: u8) -> Self {
        Self {
            command,
            channel,
            ..self
        }
    }

    fn step(self, record: Record) -> Answer {
        let [k1, k2] = self.received;
        controller::step(record, k1, k2, self.conditions, self.command, self.channel)
    }
}

/// The numbers of an answer, in the order the paper lists them; the record,
/// which has a place of its own in what is printed, is left out.
fn numbers(answer: &Answer) -> [u8; 7] {
    [
        answer.refusal,
        answer.k1,
        answer.k2,
        answer.bridge,
        answer.selector,
        answer.mark,
        answer.fate,
    ]
}

/// For the settings that are written down in these tables, all of them good.
fn fresh(settings: Settings) -> Record {
    controller::fresh(settings).expect("settings within the paper's bounds")
}

#[cfg(test)]
mod tests {
    use super::*;
    use crate::block::printed;

    /// What a comparison byte for byte would trip over first.
    #[test]
    fn the_text_has_its_fixed_shape() {
        let text = printed(write);
        assert!(text.is_ascii() && text.ends_with('\n') && !text.ends_with("\n\n"));
        assert!(text.lines().all(|line| line.trim_end() == line));
        let blocks: Vec<usize> = text
            .split("\n\n")
            .map(|block| block.lines().count())
            .collect();
        let pairs = [18, 18, 18, 18, 17, 17, 1];
        let controller = [131, 19, 12, 10, 62, 8, 15, 15];
        assert_eq!(blocks, [&pairs[..], &controller].concat());
    }
}
