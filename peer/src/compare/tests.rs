mod books;
mod causes;
mod hold;
mod repeats;
mod switches;
pub mod tables;

use super::*;
use crate::book::STEP_BYTES;
use crate::books::pairs::unheard;
use crate::door::{
    Peer, Tables, CHANGE, CHANGES, CONTENTS, DECODED, ENCODED, K1, PAGE, RECORD, SIZE, STEP,
    VERDICT,
};
use crate::settings::Settings;
use handed::Handed;
use std::io::Write;

/// This reading in the place of the library, with one function that is wrong, with no
/// notion of alarms, or with another way with hold, with repeated rows, with books, with
/// lists, with causes or with tables.
pub struct Fake {
    pub wrong: &'static str,
}

/// A library that is as it was before 02, c.
const DEAF: Fake = Fake { wrong: "alarms" };

impl Fake {
    fn hear(&self, received: [u8; 2]) -> [u8; 2] {
        if self.wrong == DEAF.wrong {
            unheard(received)
        } else {
            received
        }
    }

    fn hear_all(&self, capture: &[u8]) -> Vec<u8> {
        let mut heard = capture.to_vec();
        let (rows, _) = heard.as_chunks_mut::<STEP_BYTES>();
        for [k1, k2, ..] in rows {
            [*k1, *k2] = self.hear([*k1, *k2]);
        }
        heard
    }

    /// Changes the last byte of an output where the fault is in that function.
    fn spoil(&self, name: &str, out: &mut [u8]) {
        if let (true, Some(last)) = (self.wrong == name, out.last_mut()) {
            *last = last.wrapping_add(1);
        }
    }
}

impl Door for Fake {
    fn fresh(&self, settings: Settings, record: &mut [u8; RECORD]) -> u8 {
        let refusal = hold::fresh(self.wrong, settings, record);
        self.spoil("fresh", record);
        refusal
    }

    fn k1(&self, k1: u8, out: &mut [u8; K1]) {
        Peer.k1(k1, out);
        self.spoil("k1", out);
    }

    fn decode(&self, n: u8, k1: u8, k2: u8, out: &mut [u8; DECODED]) -> u8 {
        let [k1, k2] = self.hear([k1, k2]);
        let refusal = Peer.decode(n, k1, k2, out);
        self.spoil("decode", out);
        refusal
    }

    fn encode(
        &self,
        n: u8,
        code: u8,
        channel: u8,
        bridged: u8,
        remote: u8,
        out: &mut [u8; ENCODED],
    ) -> u8 {
        let refusal = Peer.encode(n, code, channel, bridged, remote, out);
        self.spoil("encode", out);
        refusal
    }

    fn step(
        &self,
        record: &[u8; RECORD],
        received: [u8; 2],
        conditions: &[u8],
        command: u8,
        channel: u8,
        out: &mut [u8; STEP],
    ) -> u8 {
        let handed = Handed {
            received: self.hear(received),
            count: conditions.len(),
            command,
            channel,
        };
        let refusal = hold::step(self.wrong, record, conditions, handed, out);
        self.spoil("step", out);
        refusal
    }

    fn judge(&self, settings: Settings, capture: &[u8], out: &mut [u8; VERDICT]) -> u8 {
        let judge = |capture: &[u8], out: &mut _| hold::judge(self.wrong, settings, capture, out);
        let refusal = repeats::judge(self.wrong, &self.hear_all(capture), out, &judge);
        self.spoil("judge", out);
        refusal
    }

    fn causes(
        &self,
        settings: Settings,
        capture: &[u8],
        tables: Tables,
        out: &mut [u8; VERDICT],
    ) -> u8 {
        let heard = self.hear_all(capture);
        let refusal = causes::fill(self.wrong, settings, &heard, tables, out);
        self.spoil("causes", out);
        refusal
    }

    fn switches(
        &self,
        capture: &[u8],
        listed: u16,
        count: u16,
        table: &mut [u16],
        out: &mut [u8; CHANGES],
    ) -> u8 {
        let refusal = switches::extend(self.wrong, capture, [listed, count], table, out);
        self.spoil("switches", out);
        refusal
    }

    fn last_change(&self, capture: &[u8], list: &[u16], step: u16, out: &mut [u8; CHANGE]) -> u8 {
        let refusal = switches::look_up(self.wrong, capture, list, step, out);
        self.spoil("last change", out);
        refusal
    }

    fn read(&self, book: &[u8], out: &mut [u8; CONTENTS]) -> u8 {
        let refusal = books::read(self.wrong, book, out);
        self.spoil("read", out);
        refusal
    }

    fn write(
        &self,
        contents: &[u8; CONTENTS],
        bodies: &[u8],
        out: &mut [u8],
        size: &mut [u8; SIZE],
    ) -> u8 {
        let refusal = books::write(self.wrong, contents, bodies, out, size);
        // Behind the book, where there is more room: those bytes are to stay.
        self.spoil("write", out);
        refusal
    }

    fn table(&self, book: &[u8], out: &mut [u8; PAGE]) -> usize {
        let length = tables::print(self.wrong, book, out);
        self.spoil("table", out);
        length
    }
}

/// The subject that is named so first.
fn subject(name: &str) -> &'static Subject {
    SUBJECTS
        .iter()
        .find(|candidate| candidate.name.starts_with(name))
        .expect("a subject of that name")
}

/// All of its parts.
fn all_of(subject: &Subject) -> Tally {
    let mut tally = Tally::default();
    for part in 0..subject.parts {
        tally.join((subject.compare)(&Peer, part));
    }
    tally
}

/// Those of a few parts of each subject together, since a rare fault need not be in one.
fn differences_of(subjects: &[&str], wrong: &'static str) -> u64 {
    let parts = subjects
        .iter()
        .flat_map(|name| (0..8).map(|part| (subject(name), part)));
    parts
        .map(|(subject, part)| (subject.compare)(&Fake { wrong }, part).differences)
        .sum()
}

/// All parts of all of them, so that the counts are those of `peer compare`: each comes
/// by its refusals and kinds, and by the calls that are due.
fn assert_come_by_what_they_are_for(names: &[&str]) {
    let named = |subject: &&Subject| names.contains(&subject.name);
    for subject in SUBJECTS.iter().filter(named) {
        let mut text = Vec::new();
        let (subjects, tallies) = (std::slice::from_ref(subject), [all_of(subject)]);
        report::write(&mut text, subjects, &tallies).expect("memory takes every write");
        let text = String::from_utf8_lossy(&text);
        assert!(report::is_clean(subjects, &tallies), "{text}");
    }
}

/// Whether a difference is told in which this stands.
fn tells(tally: &Tally, text: &str) -> bool {
    tally.told.iter().any(|told| told.contains(text))
}

/// One part of it, with a group that is not refused.
fn part_of(name: &str, library: &dyn Door) -> Tally {
    (subject(name).compare)(library, 2)
}

#[test]
fn a_wrong_byte_of_each_function_is_noticed() {
    for name in [
        "fresh",
        "k1",
        "decode",
        "encode",
        "judge",
        "causes",
        "switches",
        "last change",
        "read",
        "write",
        "table",
    ] {
        let tally = part_of(name, &Fake { wrong: name });
        assert!(tally.differences > 0 && !tally.told.is_empty(), "{name}");
    }
    for subject in ["step, drawn", "step, every held byte", "step, walks"] {
        let tally = part_of(subject, &Fake { wrong: "step" });
        assert!(tally.differences > 0 && !tally.told.is_empty(), "{subject}");
    }
}

#[test]
fn what_is_not_wrong_has_no_differences() {
    for name in ["fresh", "decode", "step, walks", "read", "write"] {
        let tally = part_of(name, &Fake { wrong: "" });
        assert!(tally.calls >= 1_000, "{name}: {}", tally.calls);
        assert_eq!(tally.differences, 0, "{name}");
    }
}

/// All of its parts. By hand: a group of n sections can use 8 n + 5 values, 96 have no
/// code, and 117 are usable in some group.
#[test]
fn every_k1_is_looked_at_for_every_n() {
    let subject = subject("k1");
    let tally = all_of(subject);
    assert_eq!((tally.calls, tally.differences), (subject.least, 0));
    assert_eq!(tally.refusals[0], tally.calls);
    let usable: u64 = (1..=14).map(|n| 8 * n + 5).sum();
    let of_code = 14 * 96;
    let of_channel = 14 * 256 - usable - of_code;
    let counts = [usable, 0, 0, of_code, of_channel, 14 * 117 - usable];
    assert_eq!(tally.kinds[..6], counts);
}

/// The values of a library are held against its decoder, whichever is the wrong one: of
/// all 256 the bytes differ, and then what is made of those that are no longer right.
#[test]
fn values_and_decoder_are_held_against_each_other() {
    let differences = |wrong| part_of("k1", &Fake { wrong }).differences;
    assert_eq!(differences("decode"), 256 + 256);
    // In a group of three the mark of a value that is usable is not looked at.
    assert_eq!(differences("k1"), 256 + (256 - (8 * 3 + 5)));
}

/// The subjects in which pairs are received.
const RECEIVING: [&str; 6] = [
    "decode",
    "step, drawn",
    "step, walks",
    "judge",
    "causes",
    "table",
];

#[test]
fn a_library_that_hears_no_alarms_is_noticed() {
    for name in RECEIVING {
        let tally = part_of(name, &DEAF);
        assert!(tally.differences > 0 && !tally.told.is_empty(), "{name}");
    }
}

/// The counts of the kinds that have to do with alarms.
fn alarms(name: &str, tally: &Tally) -> Vec<u64> {
    let kinds = subject(name).kinds.iter().zip(tally.kinds);
    kinds
        .filter(|((kind, _), _)| kind.contains("alarm"))
        .map(|(_, count)| count)
        .collect()
}

/// So that a comparison which comes by none does not pass.
#[test]
fn alarms_are_kinds_of_their_own() {
    for name in RECEIVING {
        let alarms = alarms(name, &part_of(name, &Peer));
        assert!(!alarms.is_empty(), "{name}");
        assert!(alarms.iter().all(|&count| count >= 20), "{name} {alarms:?}");
    }
}

/// All pairs have one of sixteen; where pairs are drawn it is one of eight, and a few
/// more where any bytes are.
#[test]
fn alarms_are_as_frequent_as_is_meant() {
    let decoded = part_of("decode", &Peer);
    assert_eq!(alarms("decode", &decoded), [decoded.calls / 16]);
    for name in ["step, drawn", "step, walks"] {
        let tally = part_of(name, &Peer);
        let (steps, alarms) = (tally.refusals[0], alarms(name, &tally));
        assert!((steps / 9..steps / 7).contains(&alarms[0]), "{name}");
    }
}

/// Two steps for each walk are not counted as two walks.
#[test]
fn a_walk_ends_with_its_first_difference() {
    let tally = part_of("step, walks", &Fake { wrong: "step" });
    assert!(tally.calls >= 100, "{}", tally.calls);
    assert_eq!(tally.calls, tally.differences);
}

const SMALL: [Subject; 2] = [
    Subject {
        name: "twos",
        least: 0,
        refusals: &[],
        kinds: &[],
        parts: 5,
        compare: |_, part| Tally {
            calls: 2,
            told: vec![part.to_string()],
            ..Tally::default()
        },
    },
    Subject {
        name: "differences",
        least: 0,
        refusals: &[],
        kinds: &[],
        parts: 3,
        compare: |_, _| Tally {
            calls: 1,
            differences: 1,
            ..Tally::default()
        },
    },
];

#[test]
fn the_crew_does_every_part_once_and_joins_them_in_order() {
    let mut progress = Vec::new();
    let tallies = crew::compare_all(&Peer, &SMALL, Manner::Lines, &mut progress);
    let [twos, differences] = &tallies[..] else {
        panic!("as many tallies as subjects");
    };
    assert_eq!((twos.calls, differences.calls), (10, 3));
    assert_eq!(twos.told, ["0", "1", "2", "3", "4"]);
    assert_eq!(differences.differences, 3);
    assert!(progress.ends_with(b"8 of 8 parts, 13 calls, 3 differences\n"));
}

#[test]
fn a_terminal_is_told_on_one_line() {
    let mut progress = Vec::new();
    crew::compare_all(&Peer, &SMALL, Manner::Terminal, &mut progress);
    assert!(progress.starts_with(b"\r") && progress.ends_with(b"differences\n"));
    progress.flush().expect("memory takes every write");
}

#[test]
fn as_many_calls_are_due_as_the_order_asks_for() {
    let due = |name: &str| -> u64 {
        let named = SUBJECTS
            .iter()
            .filter(|subject| subject.name.starts_with(name));
        named.map(|subject| subject.least).sum()
    };
    assert!(due("step") >= 10_000_000);
    assert_eq!(due("k1"), 14 * 256 * 2);
    assert_eq!(due("decode"), 256 * 256 * 256);
    assert!(due("encode") >= 6 * 256 * 256 * 256 * 2);
    assert!(due("judge") >= 200_000);
    assert_eq!(subject("causes, drawn").kinds[0], ("explained", 100_000));
    assert!(due("switches") >= 600_000 && due("last change") >= 400_000);
    assert!(due("read") >= 100_000 && due("write") >= 100_000);
    assert!(due("table") >= 80_000);
}
