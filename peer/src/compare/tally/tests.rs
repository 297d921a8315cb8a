use super::*;
use crate::compare::lent::{Lent, LentList, LentSlice};
use crate::draws::Word;
use std::cell::Cell;

#[derive(Clone, PartialEq)]
struct Pair {
    input: LentSlice,
    out: Lent<3>,
}

impl Memory for Pair {
    fn parts(&self) -> Vec<(&'static str, Part<'_>)> {
        vec![("input", self.input.part()), ("out", self.out.part())]
    }
}

/// Calls both sides, where the first, which stands for the library, does something
/// else besides.
fn compared(wrong: impl Fn(&mut Pair) -> u8) -> Tally {
    let mut bits = Bits::from_seeds(1, 1);
    let memory = Pair {
        input: LentSlice::new(&mut bits, &[1, 2]),
        out: Lent::drawn(&mut bits),
    };
    let first = Cell::new(true);
    let both = both(&Peer, &memory, |_, memory| {
        memory.out.bytes = [5, 6, 7];
        if first.replace(false) {
            wrong(memory)
        } else {
            0
        }
    });
    let mut tally = Tally::default();
    tally.add(&both, || "given".into());
    tally
}

#[test]
fn the_same_is_no_difference() {
    let tally = compared(|_| 0);
    assert_eq!((tally.calls, tally.differences), (1, 0));
    assert!(tally.told.is_empty());
    assert_eq!(tally.refusals[0], 1);
}

#[test]
fn a_wrong_refusal_is_a_difference() {
    let tally = compared(|_| 3);
    assert_eq!(tally.differences, 1);
    assert!(tally.told[0].starts_with("given\n  refusal: library 3, peer 0\n"));
    // It is this reading's answers that are counted.
    assert_eq!((tally.refusals[0], tally.refusals[3]), (1, 0));
}

#[test]
fn every_wrong_byte_of_an_output_is_a_difference() {
    for place in 0..3 {
        let tally = compared(|memory| {
            memory.out.bytes[place] ^= 0x80;
            0
        });
        assert_eq!(tally.differences, 1);
        assert!(tally.told[0].contains("  input, the same: ["));
        assert!(tally.told[0].contains("] 05 06 07 [") && tally.told[0].contains("out, library"));
    }
}

/// Guards too, which are the 16 bytes before and behind.
#[test]
fn every_touched_byte_of_an_input_is_a_difference() {
    for place in 0..16 + 2 + 16 {
        let tally = compared(|memory| {
            memory.input.with_guards()[place] ^= 1;
            0
        });
        assert_eq!(tally.differences, 1, "{place}");
        assert!(tally.told[0].contains("  input, library: ["));
    }
}

#[test]
fn every_touched_guard_of_an_output_is_a_difference() {
    for place in 0..16 {
        for behind in [false, true] {
            let tally = compared(|memory| {
                memory.out.guard_mut(behind)[place] ^= 1;
                0
            });
            assert_eq!(tally.differences, 1, "{place}");
        }
    }
}

impl<T: Word> Memory for LentList<T> {
    fn parts(&self) -> Vec<(&'static str, Part<'_>)> {
        vec![("list", self.part())]
    }
}

/// Of a list of three entries, and of the guards, which are so many entries behind it and
/// as many or more before it.
fn assert_each_touched_is_a_difference<T: Word>(entries: [T; 3], guard: usize, touch: fn(&mut T)) {
    let mut bits = Bits::from_seeds(4, 1);
    let memory = LentList::new(&mut bits, &entries);
    let entries = memory.clone().with_guards().len();
    assert!(entries >= guard + 3 + guard);
    for place in 0..entries {
        let first = Cell::new(true);
        let both = both(&Peer, &memory, |_, memory| {
            if first.replace(false) {
                touch(&mut memory.with_guards()[place]);
            }
            0
        });
        let mut tally = Tally::default();
        tally.add(&both, || "given".into());
        assert_eq!(tally.differences, 1, "{place}");
        assert!(tally.told[0].contains("  list, library: ["));
    }
}

#[test]
fn every_touched_entry_of_a_list_is_a_difference() {
    assert_each_touched_is_a_difference([3, 5, 8], 8, |word: &mut u16| *word ^= 1 << 15);
    assert_each_touched_is_a_difference([3, 5, 8], 4, |word: &mut u32| *word ^= 1 << 31);
}

/// What a call leaves out keeps the drawn bytes, which no answer has.
#[test]
fn an_output_that_is_not_filled_is_a_difference() {
    let mut bits = Bits::from_seeds(2, 1);
    let memory = Lent::<5>::drawn(&mut bits);
    let first = Cell::new(true);
    let both = both(&Peer, &memory, |_, memory| {
        let filled = if first.replace(false) { 4 } else { 5 };
        memory.bytes[..filled].fill(0);
        0
    });
    assert!(both.library != both.peer);
}

#[test]
fn tallies_are_joined_and_only_the_first_are_told() {
    let mut tally = Tally::default();
    for number in 0..5 {
        let mut other = compared(|_| 3);
        other.count(number % 2);
        tally.join(other);
    }
    assert_eq!((tally.calls, tally.differences), (5, 5));
    assert_eq!((tally.refusals[0], &tally.kinds[..2]), (5, &[3, 2][..]));
    for number in 0..5 {
        tally.differ(|| number.to_string());
    }
    assert_eq!((tally.differences, tally.told.len()), (10, 5));
    let mut alone = Tally::default();
    for number in 0..5 {
        alone.differ(|| number.to_string());
    }
    assert_eq!(alone.told, ["0", "1", "2"]);
}

#[test]
fn of_long_memory_the_place_of_the_difference_is_told() {
    let mut bits = Bits::from_seeds(3, 1);
    let second = vec![0; 1_000];
    let mut first = second.clone();
    first[900] = 0xAB;
    let first = LentSlice::new(&mut bits, &first);
    let place = 16 + 900;
    let text = shown(&first.part(), place);
    assert!(text.starts_with("1000 bytes, from 868: 00 00 "), "{text}");
    assert!(text.contains(" 00 AB 00 "));
    let mut same = first.clone();
    same.bytes_mut().copy_from_slice(&second);
    assert_eq!(first_difference(&first.part(), &same.part()), place);
}
