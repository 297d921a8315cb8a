//! The step as 01 has it without 02 d, where of equal ranks the lower section always
//! wins: for the tests that set the two rules side by side.

use super::{Answer, Record};

/// For steps that are not refused.
///
/// With a section bad no wait can be sent, and after a fail or degrade no command is
/// held but one that the record has. So all that such a K1 still does is to let its section
/// stay, and with NR in its place nothing else changes.
pub fn step(record: Record, k1: u8, k2: u8, conditions: &[u8], command: u8, channel: u8) -> Answer {
    let is_fault = (0b1010..=0b1101).contains(&(record.sent >> 4));
    let is_bad = conditions.iter().any(|&condition| condition > 0);
    let sent = if is_fault && is_bad {
        0x00
    } else {
        record.sent
    };
    super::step(
        Record { sent, ..record },
        k1,
        k2,
        conditions,
        command,
        channel,
    )
}
