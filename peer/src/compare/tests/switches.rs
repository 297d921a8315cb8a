//! Libraries that list switches, and look them up, otherwise than this reading, by the
//! names of what is wrong with them.

use super::*;

const FIRST_LISTED: &str = "step 0 is always listed";
const NEVER_FIRST: &str = "step 0 is never listed";
const OTHER_BYTE: &str = "it is the K2 that is sent which is looked at";
const ONE_BEHIND: &str = "an entry behind the last is written";
const LISTED_AGAIN: &str = "entries that are there are written again, and differ";
const REFUSED_WRITES: &str = "a refused call fills the table";
const ROOM_FIRST: &str = "12 comes before 16";
const STEPS_LAST: &str = "13 comes behind 16";
const LENGTH_FIRST: &str = "9 comes before 8";
const COUNT_NOT_HELD: &str = "an entry too many is taken";
const ENTRIES_NOT_HELD: &str = "only the number of entries is looked at";
const SORTED_FIRST: &str = "the entries are put in order first";
const ROOM_CUT: &str = "of the room 16 bits are looked at";
const ALWAYS_AFRESH: &str = "what is listed is listed once more";
const NOT_COUNTED: &str = "only the new entries are counted";

const EXTENSIONS: [&str; 15] = [
    FIRST_LISTED,
    NEVER_FIRST,
    OTHER_BYTE,
    ONE_BEHIND,
    LISTED_AGAIN,
    REFUSED_WRITES,
    ROOM_FIRST,
    STEPS_LAST,
    LENGTH_FIRST,
    COUNT_NOT_HELD,
    ENTRIES_NOT_HELD,
    SORTED_FIRST,
    ROOM_CUT,
    ALWAYS_AFRESH,
    NOT_COUNTED,
];

const FIRST_AFTER: &str = "the first change after the step is answered";
const STRICTLY_BEFORE: &str = "a change at the step is passed over";
const UP_TO_THE_STEP: &str = "the list is looked at up to the step";
const ANY_LIST: &str = "the list is not looked at";
const LIST_FIRST: &str = "16 comes before 13";
const ONE_STEP_MORE: &str = "there is one step more";
const NO_FLAG: &str = "none and step 0 are the same";
const SHORT_COUNT: &str = "of the count 16 bits are looked at";

const LOOKUPS: [&str; 8] = [
    FIRST_AFTER,
    STRICTLY_BEFORE,
    UP_TO_THE_STEP,
    ANY_LIST,
    LIST_FIRST,
    ONE_STEP_MORE,
    NO_FLAG,
    SHORT_COUNT,
];

/// The capture as such a library sees it: what is sent in the first step and stays is
/// certainly a change, or certainly none; or K2 stands where K1 does.
fn seen(wrong: &str, capture: &[u8]) -> Vec<u8> {
    let mut seen = capture.to_vec();
    let (rows, _) = seen.as_chunks_mut::<STEP_BYTES>();
    let first = rows.first().map_or(0, |row| row[2]);
    let leading = rows.iter_mut().take_while(|row| row[2] == first);
    match wrong {
        FIRST_LISTED if first == 0 => leading.for_each(|row| row[2] = 0xFF),
        NEVER_FIRST => leading.for_each(|row| row[2] = 0),
        OTHER_BYTE => rows.iter_mut().for_each(|row| row.swap(2, 3)),
        _ => {}
    }
    seen
}

pub fn extend(
    wrong: &str,
    capture: &[u8],
    numbers: [u16; 2],
    table: &mut [u16],
    out: &mut [u8; CHANGES],
) -> u8 {
    let capture = &seen(wrong, capture);
    let [listed, count] = numbers;
    let room = match wrong {
        ROOM_CUT => table.len() % 65_536,
        _ => table.len(),
    };
    let refusal = Peer.switches(capture, listed, count, &mut table[..room], out);
    match refusal {
        0 => spoil_list(wrong, count, table, out),
        _ => return refuse(wrong, refusal, capture, numbers, table, out),
    }
    0
}

/// What is wrong with a list that was not refused.
fn spoil_list(wrong: &str, count: u16, table: &mut [u16], out: &mut [u8; CHANGES]) {
    let changes = u16::from_be_bytes(*out);
    match (wrong, table.get_mut(usize::from(changes))) {
        (ONE_BEHIND, Some(entry)) => *entry = 0,
        (LISTED_AGAIN, _) => table[..usize::from(count)].fill(7),
        (NOT_COUNTED, _) => *out = (changes - count).to_be_bytes(),
        _ => {}
    }
}

/// What is refused otherwise, or not at all.
fn refuse(
    wrong: &str,
    refusal: u8,
    capture: &[u8],
    [listed, count]: [u16; 2],
    table: &mut [u16],
    out: &mut [u8; CHANGES],
) -> u8 {
    match (wrong, refusal) {
        (REFUSED_WRITES, 12 | 13 | 16) => table.fill(0),
        (ROOM_FIRST, 16) => {
            let afresh = Peer.switches(capture, 0, 0, &mut table.to_vec(), out);
            out.fill(0);
            return if afresh == 12 { 12 } else { 16 };
        }
        (STEPS_LAST, 13) if count > 0 => return 16,
        (LENGTH_FIRST, 8) if capture.len() > 65_536 => return 9,
        (COUNT_NOT_HELD, 16) if count > 0 => {
            return Peer.switches(capture, listed, count - 1, table, out)
        }
        (ENTRIES_NOT_HELD, 16) => return of_right_entries(capture, [listed, count], table, out),
        (SORTED_FIRST, 16) if usize::from(count) <= table.len() => {
            table[..usize::from(count)].sort_unstable();
            return Peer.switches(capture, listed, count, table, out);
        }
        (ALWAYS_AFRESH, 16) => return Peer.switches(capture, 0, 0, table, out),
        _ => {}
    }
    refusal
}

/// Where as many entries are counted as there are changes, they pass for right.
fn of_right_entries(
    capture: &[u8],
    [listed, count]: [u16; 2],
    table: &mut [u16],
    out: &mut [u8; CHANGES],
) -> u8 {
    let mut right = table.to_vec();
    let known = &capture[..usize::from(listed) * STEP_BYTES];
    Peer.switches(known, 0, 0, &mut right, out);
    let refusal = Peer.switches(capture, listed, count, &mut right, out);
    if refusal == 0 {
        let held = usize::from(count);
        table[held..].copy_from_slice(&right[held..]);
    }
    refusal
}

pub fn look_up(wrong: &str, capture: &[u8], list: &[u16], step: u16, out: &mut [u8; CHANGE]) -> u8 {
    let refusal = Peer.last_change(capture, list, step, out);
    let answer = |change: Option<&u16>| match change.map(|change| change.to_be_bytes()) {
        Some([high, low]) => [1, high, low],
        None => [0; CHANGE],
    };
    let known = list.iter().take_while(|&&change| change <= step).count();
    match (wrong, refusal) {
        (FIRST_AFTER, 0) => *out = answer(list.iter().find(|&&change| change > step)),
        (STRICTLY_BEFORE, 0) => *out = answer(list.iter().rev().find(|&&change| change < step)),
        (UP_TO_THE_STEP, 16) => {
            let steps = &capture[..(usize::from(step) + 1) * STEP_BYTES];
            return Peer.last_change(steps, &list[..known], step, out);
        }
        (ANY_LIST, 16) => {
            *out = answer(list[..known].last());
            return 0;
        }
        (LIST_FIRST, 13) if !list.is_empty() => return 16,
        (ONE_STEP_MORE, 13) if usize::from(step) * STEP_BYTES == capture.len() && step > 0 => {
            return Peer.last_change(capture, list, step - 1, out)
        }
        (NO_FLAG, 0) => out[0] = 1,
        (SHORT_COUNT, 16) => {
            return Peer.last_change(capture, &list[..list.len() % 65_536], step, out)
        }
        _ => {}
    }
    refusal
}

const EXTENDING: [&str; 3] = ["switches, small", "switches, in turn", "switches, drawn"];
const LOOKING_UP: [&str; 2] = ["last change, small", "last change, drawn"];

#[test]
fn a_library_that_lists_otherwise_is_noticed() {
    for wrong in EXTENSIONS {
        let differences = differences_of(&EXTENDING, wrong);
        assert!(differences >= 5, "{wrong}: {differences}");
    }
}

#[test]
fn a_library_that_looks_up_otherwise_is_noticed() {
    for wrong in LOOKUPS {
        let differences = differences_of(&LOOKING_UP, wrong);
        assert!(differences >= 5, "{wrong}: {differences}");
    }
}

#[test]
fn lists_and_lookups_come_by_what_they_are_for() {
    assert_come_by_what_they_are_for(&[&EXTENDING[..], &LOOKING_UP].concat());
}

/// Each subject that makes a list from a list that the library made.
#[test]
fn a_list_that_grows_is_held_against_the_list_made_afresh() {
    let tally = part_of(
        "switches, in turn",
        &Fake {
            wrong: FIRST_LISTED,
        },
    );
    assert!(tally.differences > 0);
    assert!(tally.told[0].contains("out, library"));
    let tally = part_of("switches, in turn", &Fake { wrong: ONE_BEHIND });
    assert!(tells(&tally, "other entries are written too"));
}
