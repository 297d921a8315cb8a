//! The functions of `include/chainplater.h`, in numbers and bytes alone, so that
//! the library and this reading can be called in the same way.

mod peer;

use crate::settings::Settings;
pub use peer::{record_bytes, record_of, verdict_bytes, Peer};

pub const RECORD: usize = 12;
pub const K1: usize = 4;
pub const DECODED: usize = 6;
pub const ENCODED: usize = 2;
pub const STEP: usize = 19;
pub const VERDICT: usize = 3;
pub const CHANGES: usize = 2;
pub const CHANGE: usize = 3;
pub const CONTENTS: usize = 769;
pub const SIZE: usize = 4;
pub const PAGE: usize = 2048;

/// What the causes of a capture are put into: a word of conditions and a word of command
/// for each step.
pub struct Tables<'a> {
    pub conditions: &'a mut [u32],
    pub commands: &'a mut [u16],
}

/// All of them fill what they are lent as the header says, and all but two answer the
/// refusal, or 0: `k1` has nothing to refuse, and `table` answers the length of its text,
/// which tells of a refusal. Where the header has n, options, mask and wait, here are the
/// settings; where it has K1 and K2 of a received pair, here is the pair; where it has a
/// list and how long that is, here is the list; and the two tables of causes go together.
pub trait Door: Sync {
    fn fresh(&self, settings: Settings, record: &mut [u8; RECORD]) -> u8;

    fn k1(&self, k1: u8, out: &mut [u8; K1]);

    fn decode(&self, n: u8, k1: u8, k2: u8, out: &mut [u8; DECODED]) -> u8;

    fn encode(
        &self,
        n: u8,
        code: u8,
        channel: u8,
        bridged: u8,
        remote: u8,
        out: &mut [u8; ENCODED],
    ) -> u8;

    fn step(
        &self,
        record: &[u8; RECORD],
        received: [u8; 2],
        conditions: &[u8],
        command: u8,
        channel: u8,
        out: &mut [u8; STEP],
    ) -> u8;

    fn judge(&self, settings: Settings, capture: &[u8], out: &mut [u8; VERDICT]) -> u8;

    fn causes(
        &self,
        settings: Settings,
        capture: &[u8],
        tables: Tables,
        out: &mut [u8; VERDICT],
    ) -> u8;

    fn switches(
        &self,
        capture: &[u8],
        listed: u16,
        count: u16,
        table: &mut [u16],
        out: &mut [u8; CHANGES],
    ) -> u8;

    fn last_change(&self, capture: &[u8], list: &[u16], step: u16, out: &mut [u8; CHANGE]) -> u8;

    fn read(&self, book: &[u8], out: &mut [u8; CONTENTS]) -> u8;

    fn write(
        &self,
        contents: &[u8; CONTENTS],
        bodies: &[u8],
        out: &mut [u8],
        size: &mut [u8; SIZE],
    ) -> u8;

    fn table(&self, book: &[u8], out: &mut [u8; PAGE]) -> usize;
}

#[cfg(test)]
mod tests;
