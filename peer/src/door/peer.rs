//! This reading behind the door. None of its functions is inlined, so that to
//! call it costs a call, as it does to call the library.

use super::{
    Door, Tables, CHANGE, CHANGES, CONTENTS, DECODED, ENCODED, K1, PAGE, RECORD, SIZE, STEP,
    VERDICT,
};
use crate::book::{self, Contents, Entry, ENTRY_BYTES};
use crate::causes::fill::fill;
use crate::controller::{self, Answer, Record};
use crate::judge::table::Table;
use crate::judge::{scan, Verdict};
use crate::pair::{self, values, Received};
use crate::settings::Settings;
use crate::switches;
use std::io::Write;

pub struct Peer;

impl Door for Peer {
    #[inline(never)]
    fn fresh(&self, settings: Settings, record: &mut [u8; RECORD]) -> u8 {
        let (refusal, made) = match controller::fresh(settings) {
            Ok(made) => (0, record_bytes(&made)),
            Err(refusal) => (refusal.number(), [0; RECORD]),
        };
        *record = made;
        refusal
    }

    #[inline(never)]
    fn k1(&self, k1: u8, out: &mut [u8; K1]) {
        *out = values::numbers(k1);
    }

    #[inline(never)]
    fn decode(&self, n: u8, k1: u8, k2: u8, out: &mut [u8; DECODED]) -> u8 {
        let (refusal, decoded) = match pair::decode(n, k1, k2) {
            Ok(received) => (0, received_bytes(received)),
            Err(refusal) => (refusal.number(), [0; DECODED]),
        };
        *out = decoded;
        refusal
    }

    #[inline(never)]
    fn encode(
        &self,
        n: u8,
        code: u8,
        channel: u8,
        bridged: u8,
        remote: u8,
        out: &mut [u8; ENCODED],
    ) -> u8 {
        let record = pair::Record {
            code,
            channel,
            bridged,
            remote_defect: remote == 1,
        };
        let (refusal, pair) = match pair::encode(n, record) {
            Ok(pair) if remote <= 1 => (0, pair),
            // The size of the group has been looked at, and comes first.
            Ok(_) => (pair::Refusal::Record.number(), [0; ENCODED]),
            Err(refusal) => (refusal.number(), [0; ENCODED]),
        };
        *out = pair;
        refusal
    }

    #[inline(never)]
    fn step(
        &self,
        record: &[u8; RECORD],
        [k1, k2]: [u8; 2],
        conditions: &[u8],
        command: u8,
        channel: u8,
        out: &mut [u8; STEP],
    ) -> u8 {
        let record = record_of(record);
        let answer = controller::step(record, k1, k2, conditions, command, channel);
        *out = answer_bytes(&answer);
        answer.refusal
    }

    #[inline(never)]
    fn judge(&self, settings: Settings, capture: &[u8], out: &mut [u8; VERDICT]) -> u8 {
        let (refusal, verdict) = verdict_bytes(scan::judge(settings, capture));
        *out = verdict;
        refusal
    }

    #[inline(never)]
    fn causes(
        &self,
        settings: Settings,
        capture: &[u8],
        tables: Tables,
        out: &mut [u8; VERDICT],
    ) -> u8 {
        let Tables {
            conditions,
            commands,
        } = tables;
        let filled = fill(settings, capture, conditions, commands);
        let (refusal, verdict) = verdict_bytes(filled);
        *out = verdict;
        refusal
    }

    #[inline(never)]
    fn switches(
        &self,
        capture: &[u8],
        listed: u16,
        count: u16,
        table: &mut [u16],
        out: &mut [u8; CHANGES],
    ) -> u8 {
        let (refusal, changes) = match switches::extend(capture, listed, count, table) {
            Ok(changes) => (0, changes),
            Err(refusal) => (refusal, 0),
        };
        *out = changes.to_be_bytes();
        refusal
    }

    #[inline(never)]
    fn last_change(&self, capture: &[u8], list: &[u16], step: u16, out: &mut [u8; CHANGE]) -> u8 {
        let (refusal, change) = match switches::last_change(capture, list, step) {
            Ok(change) => (0, change),
            Err(refusal) => (refusal, None),
        };
        *out = change_bytes(change);
        refusal
    }

    #[inline(never)]
    fn read(&self, book: &[u8], out: &mut [u8; CONTENTS]) -> u8 {
        match book::read(book) {
            Ok(contents) => {
                put_contents(&contents, out);
                0
            }
            Err(refusal) => {
                out.fill(0);
                refusal.number()
            }
        }
    }

    #[inline(never)]
    fn write(
        &self,
        contents: &[u8; CONTENTS],
        bodies: &[u8],
        out: &mut [u8],
        size: &mut [u8; SIZE],
    ) -> u8 {
        let (refusal, length) = match book::write(&contents_of(contents), bodies, out) {
            Ok(length) => (0, length),
            Err(refusal) => (refusal.number(), 0),
        };
        *size = (length as u32).to_be_bytes();
        refusal
    }

    #[inline(never)]
    fn table(&self, book: &[u8], out: &mut [u8; PAGE]) -> usize {
        let mut behind = &mut out[..];
        let written = write!(behind, "{}", Table::scanned(book));
        written.expect("a page has room for every text");
        PAGE - behind.len()
    }
}

pub fn record_bytes(record: &Record) -> [u8; RECORD] {
    let Record {
        n,
        options,
        accepted: [k1, k2],
        sent,
        held,
        ..
    } = *record;
    let [m1, m0] = record.mask.to_be_bytes();
    let [w1, w0] = record.w.to_be_bytes();
    let [l1, l0] = record.left.to_be_bytes();
    [n, options, m1, m0, w1, w0, k1, k2, sent, l1, l0, held]
}

pub fn record_of(bytes: &[u8; RECORD]) -> Record {
    let [n, options, m1, m0, w1, w0, k1, k2, sent, l1, l0, held] = *bytes;
    Record {
        n,
        options,
        mask: u16::from_be_bytes([m1, m0]),
        w: u16::from_be_bytes([w1, w0]),
        accepted: [k1, k2],
        sent,
        left: u16::from_be_bytes([l1, l0]),
        held,
    }
}

fn received_bytes(received: Received) -> [u8; DECODED] {
    match received {
        Received::Usable(record) => [
            0,
            record.code,
            record.channel,
            record.bridged,
            u8::from(record.remote_defect),
            0,
        ],
        Received::Alarm => [0, 0, 0, 0, 0, 1],
        Received::Marked(mark) => [mark.number(), 0, 0, 0, 0, 0],
    }
}

fn answer_bytes(answer: &Answer) -> [u8; STEP] {
    let mut bytes = [0; STEP];
    bytes[0] = answer.refusal;
    bytes[1..=RECORD].copy_from_slice(&record_bytes(&answer.record));
    bytes[RECORD + 1..].copy_from_slice(&[
        answer.k1,
        answer.k2,
        answer.bridge,
        answer.selector,
        answer.mark,
        answer.fate,
    ]);
    bytes
}

/// The refusal, and what stands in the output. A capture has at most 16,384
/// steps, so the number has room.
pub fn verdict_bytes(verdict: Result<Verdict, u8>) -> (u8, [u8; VERDICT]) {
    let (refusal, kind, number) = match verdict {
        Ok(Verdict::Explained(steps)) => (0, 1, steps),
        Ok(Verdict::Unexplained(step)) => (0, 2, step),
        Err(number) => (number, 0, 0),
    };
    let [high, low] = (number as u16).to_be_bytes();
    (refusal, [kind, high, low])
}

fn change_bytes(change: Option<u16>) -> [u8; CHANGE] {
    match change.map(u16::to_be_bytes) {
        Some([high, low]) => [1, high, low],
        None => [0; CHANGE],
    }
}

fn put_contents(contents: &Contents, out: &mut [u8; CONTENTS]) {
    let [count, rows @ ..] = out;
    *count = contents.count;
    let (rows, _) = rows.as_chunks_mut::<ENTRY_BYTES>();
    for (row, place) in rows.iter_mut().zip(&contents.places) {
        *row = place.to_bytes();
    }
}

fn contents_of(bytes: &[u8; CONTENTS]) -> Contents {
    let [count, rows @ ..] = bytes;
    let mut contents = Contents {
        count: *count,
        ..Contents::ZEROS
    };
    let (rows, _) = rows.as_chunks::<ENTRY_BYTES>();
    for (place, &row) in contents.places.iter_mut().zip(rows) {
        *place = Entry::from_bytes(row);
    }
    contents
}
