use super::*;
use crate::door::Peer;
use std::cell::Cell;

fn given(capture: &[u8], rooms: [usize; 2]) -> Given {
    Given {
        settings: Settings::new(2, 1, 3),
        capture: capture.into(),
        rooms,
    }
}

/// Two steps that are explained, and a third that is not.
const CAPTURE: [u8; 12] = [
    0x00, 0x08, 0xA2, 0x08, 0x22, 0x28, 0x62, 0x28, 0x00, 0x08, 0x61, 0x08,
];

/// Calls both sides, where the first, which stands for the library, does something else
/// besides.
fn differences(given: &Given, touch: impl Fn(&mut CausesMemory)) -> u64 {
    let mut caller = Caller::new(&Peer, 1, 1);
    let first = Cell::new(true);
    caller.causes_by(given, |door, memory| {
        let refusal = memory.call(door, given.settings);
        if first.replace(false) {
            touch(memory);
        }
        refusal
    });
    caller.tally.differences
}

/// Explained, not explained, and refused; in tables that have more words than are written.
fn all_sorts() -> [Given; 3] {
    [
        given(&CAPTURE[..8], [4, 5]),
        given(&CAPTURE, [4, 5]),
        given(&CAPTURE, [2, 5]),
    ]
}

#[test]
fn the_same_is_no_difference() {
    for given in all_sorts() {
        assert_eq!(differences(&given, |_| ()), 0, "{}", given.told());
    }
}

/// In the guards, behind the last step, and everywhere if nothing is to be written. In the
/// words of a step it is a bit that none may have.
#[test]
fn every_touched_word_is_a_difference() {
    for given in all_sorts() {
        let mut memory = CausesMemory::new(&mut Bits::from_seeds(1, 1), &given);
        let conditions = memory.conditions.with_guards().len();
        assert!(conditions >= 4 + given.rooms[0] + 4);
        for place in 0..conditions {
            let touch =
                |memory: &mut CausesMemory| memory.conditions.with_guards()[place] ^= 1 << 31;
            assert!(differences(&given, touch) > 0, "{place}: {}", given.told());
        }
        let commands = memory.commands.with_guards().len();
        assert!(commands >= 8 + given.rooms[1] + 8);
        for place in 0..commands {
            let touch = |memory: &mut CausesMemory| memory.commands.with_guards()[place] ^= 1 << 15;
            assert!(differences(&given, touch) > 0, "{place}: {}", given.told());
        }
    }
}

#[test]
fn a_touched_capture_or_output_is_a_difference() {
    for given in all_sorts() {
        for place in 0..16 + given.capture.len() + 16 {
            let touch = |memory: &mut CausesMemory| memory.capture.with_guards()[place] ^= 1;
            assert_eq!(differences(&given, touch), 1, "{place}");
        }
        for place in 0..VERDICT {
            let touch = |memory: &mut CausesMemory| memory.out.bytes[place] ^= 0x40;
            assert!(differences(&given, touch) > 0, "{place}");
        }
        for behind in [false, true] {
            let touch = |memory: &mut CausesMemory| memory.out.guard_mut(behind)[3] ^= 1;
            assert_eq!(differences(&given, touch), 1);
        }
    }
}

/// The words of an explained capture are put to the controller, and to nothing else.
#[test]
fn words_may_be_others_if_they_send_the_capture() {
    let given = &all_sorts()[0];
    let with = |step: usize, conditions: u32, command: u16| {
        differences(given, |memory| {
            memory.conditions.entries_mut()[step] = conditions;
            memory.commands.entries_mut()[step] = command;
        })
    };
    assert_eq!(with(0, 0b01_00_00, 0), 0);
    assert_eq!(with(0, 0b01_00_00, 0x0401), 0);
    assert_eq!(with(0, 0, 0), 1);
    assert_eq!(with(1, 0, 0), 0);
    assert_eq!(with(1, 0, 0x0100), 1);
    assert_eq!(with(2, 0, 0), 1);
}

#[test]
fn every_fault_is_there_whatever_the_others_are() {
    let mut given = given(&vec![0x08; 65_541], [0, 0]);
    for (n, mask, faults) in [
        (0, 1, &[1, 2, 8, 9, 11][..]),
        (15, 0x8000, &[1, 2, 8, 9, 11]),
        (15, 0x7FFF, &[1, 8, 9, 11]),
        (255, 0xFFFF, &[1, 8, 9, 11]),
        (14, 0x4000, &[2, 8, 9, 11]),
        (14, 0x3FFF, &[8, 9, 11]),
    ] {
        (given.settings.n, given.settings.mask) = (n, mask);
        assert_eq!(given.faults(), faults, "{n} {mask:04X}");
    }
    given.capture.truncate(65_536);
    assert_eq!(given.faults(), [11]);
    for (rooms, faults) in [
        ([16_384, 16_384], &[][..]),
        ([16_383, 16_384], &[11]),
        ([16_384, 16_383], &[11]),
        ([16_385, 65_536], &[]),
    ] {
        given.rooms = rooms;
        assert_eq!(given.faults(), faults, "{rooms:?}");
    }
    given.capture.truncate(3);
    given.rooms = [0, 0];
    assert_eq!(given.faults(), [8]);
}
