mod alarm;
mod first_come;
mod hold;

use super::*;
use crate::pair::{decode, Received};

const GOOD: &[u8] = &[0, 0, 0];
const DEGRADED_2: &[u8] = &[0, 0, 1];
const FAILED_0: &[u8] = &[2, 0, 0];
const FAILED_1: &[u8] = &[0, 2, 0];
const BOTH_FAILED: &[u8] = &[0, 2, 2];

const NO_COMMAND: (u8, u8) = (0, 0);
const CLEAR: (u8, u8) = (1, 0);
const LOCKOUT: (u8, u8) = (2, 0);

fn forced(channel: u8) -> (u8, u8) {
    (3, channel)
}

fn manual(channel: u8) -> (u8, u8) {
    (4, channel)
}

/// The group of the paper's sequences.
fn start() -> Record {
    Settings::new(2, 0, 3).fresh()
}

fn sent_by(sent: u8) -> Record {
    Record { sent, ..start() }
}

fn commanded(
    record: Record,
    [k1, k2]: [u8; 2],
    conditions: &[u8],
    (command, channel): (u8, u8),
) -> Answer {
    step(record, k1, k2, conditions, command, channel)
}

fn quiet(record: Record, received: [u8; 2], conditions: &[u8]) -> Answer {
    commanded(record, received, conditions, NO_COMMAND)
}

/// What the paper's sequences speak of: the pair sent, selector, mark and fate.
fn seen(answer: Answer) -> ([u8; 2], u8, u8, u8) {
    let Answer {
        k1,
        k2,
        selector,
        mark,
        fate,
        ..
    } = answer;
    ([k1, k2], selector, mark, fate)
}

fn p2() -> Answer {
    quiet(start(), [0x00, 0x08], DEGRADED_2)
}

fn p3() -> Answer {
    quiet(p2().record, [0x22, 0x28], DEGRADED_2)
}

fn p5() -> Answer {
    let p4 = quiet(start(), [0xA2, 0x08], GOOD);
    assert_eq!(seen(p4), ([0x22, 0x28], 0, 0, 0), "P4");
    quiet(p4.record, [0xA2, 0x28], GOOD)
}

#[test]
fn p1_nothing_to_ask_for() {
    let answer = quiet(start(), [0x00, 0x08], GOOD);
    assert_eq!(seen(answer), ([0x00, 0x08], 0, 0, 0));
    assert_eq!(answer.record, start());
}

#[test]
fn p2_to_p5_a_degraded_section_at_both_ends() {
    assert_eq!(seen(p2()), ([0xA2, 0x08], 0, 0, 0));
    assert_eq!(seen(p3()), ([0xA2, 0x28], 2, 0, 0));
    assert_eq!(seen(p5()), ([0x22, 0x28], 2, 0, 0));
}

#[test]
fn p6_and_p7_a_failed_section_at_both_ends() {
    let p6 = quiet(p5().record, [0xA2, 0x28], FAILED_1);
    assert_eq!(seen(p6), ([0xC1, 0x08], 0, 0, 0));
    let p7 = quiet(p3().record, [0xC1, 0x08], DEGRADED_2);
    assert_eq!(seen(p7), ([0x21, 0x18], 0, 0, 0));
}

#[test]
fn p8_and_p9_the_wait_runs_out() {
    let mut record = p3().record;
    for (pair, selector, left) in [
        ([0x62, 0x28], 2, 3),
        ([0x62, 0x28], 2, 2),
        ([0x62, 0x28], 2, 1),
        ([0x00, 0x28], 0, 0),
    ] {
        let answer = quiet(record, [0x22, 0x28], GOOD);
        assert_eq!(seen(answer), (pair, selector, 0, 0));
        assert_eq!(answer.record.left, left);
        record = answer.record;
    }
}

#[test]
fn p10_failed_protection_stands_above_a_forced_switch() {
    let answer = commanded(start(), [0x00, 0x08], FAILED_0, forced(1));
    assert_eq!(seen(answer), ([0xD0, 0x08], 0, 0, 2));
}

#[test]
fn p11_the_mask_goes_before_the_channel() {
    let low = quiet(start(), [0x00, 0x08], BOTH_FAILED);
    assert_eq!(seen(low), ([0xC1, 0x08], 0, 0, 0));
    let high = quiet(Settings::new(2, 2, 3).fresh(), [0x00, 0x08], BOTH_FAILED);
    assert_eq!(seen(high), ([0xD2, 0x08], 0, 0, 0));
}

#[test]
fn p12_an_unusable_pair_changes_nothing() {
    let answer = quiet(p2().record, [0x11, 0x08], DEGRADED_2);
    assert_eq!(seen(answer), ([0xA2, 0x08], 0, 3, 0));
    assert_eq!(answer.record, p2().record);
}

/// As 02 d has it.
#[test]
fn p13_what_was_sent_before_stays() {
    let answer = quiet(sent_by(0xC2), [0x00, 0x08], BOTH_FAILED);
    assert_eq!(seen(answer), ([0xC2, 0x08], 0, 0, 0));
}

#[test]
fn without_a_wait_p8_asks_for_nothing() {
    let record = Record {
        w: 0,
        ..p3().record
    };
    let answer = quiet(record, [0x22, 0x28], GOOD);
    assert_eq!(seen(answer), ([0x00, 0x28], 0, 0, 0));
}

#[test]
fn the_greatest_group_has_channel_14_and_no_15() {
    let mut conditions = [0; 15];
    conditions[14] = 1;
    let first = quiet(
        Settings::new(14, 1 << 13, 3).fresh(),
        [0x00, 0x08],
        &conditions,
    );
    assert_eq!(seen(first), ([0xBE, 0x08], 0, 0, 0));
    let switched = quiet(first.record, [0x2E, 0xE8], &conditions);
    assert_eq!(seen(switched), ([0xBE, 0xE8], 14, 0, 0));
    let marked = quiet(switched.record, [0xAF, 0x08], &conditions);
    assert_eq!(seen(marked), ([0xBE, 0xE8], 14, 4, 0));
}

#[test]
fn a_fresh_record_is_idle() {
    let expected = Record {
        n: 14,
        options: 0,
        mask: 0x3FFF,
        w: 65_535,
        accepted: [0x00, 0x08],
        sent: 0x00,
        left: 0,
        held: 0x00,
    };
    let settings = Settings::new(14, 0x3FFF, 65_535);
    assert_eq!(fresh(settings), Ok(expected));
    let holding = Record {
        options: 1,
        ..expected
    };
    assert_eq!(fresh(settings.with_hold()), Ok(holding));
}

/// Rule 1. What looks like a lockout is not acted on, nor is the other unusable
/// pair marked.
#[test]
fn failed_protection_shuts_out_what_is_received() {
    let record = Record {
        accepted: [0xE1, 0x18],
        ..sent_by(0x21)
    };
    for received in [[0xF0, 0x08], [0x11, 0x01]] {
        let answer = quiet(record, received, FAILED_0);
        assert_eq!(seen(answer), ([0xD0, 0x08], 0, 0, 0));
        assert_eq!(answer.record.accepted, [0x00, 0x08]);
    }
    let degraded = quiet(record, [0xF0, 0x08], &[1, 0, 0]);
    assert_eq!(seen(degraded), ([0x20, 0x08], 0, 0, 0));
}

/// Rule 1. The pair is kept as it came; only what is sent has no line bits.
#[test]
fn a_remote_defect_is_accepted_with_its_pair() {
    let answer = quiet(start(), [0xA2, 0x2E], GOOD);
    assert_eq!(seen(answer), ([0x22, 0x28], 2, 0, 0));
    assert_eq!(answer.record.accepted, [0xA2, 0x2E]);
}

/// Rule 2, by the K1 last sent and the command: the K1 sent now, and the fate.
#[test]
fn commands_are_weighed_against_the_held_one() {
    for (last, command, k1, fate) in [
        (0x00, manual(2), 0x82, 1),
        (0x82, NO_COMMAND, 0x82, 0),
        (0x82, manual(2), 0x82, 2),
        (0x82, manual(1), 0x82, 2),
        (0x82, forced(1), 0xE1, 1),
        (0x82, LOCKOUT, 0xF0, 1),
        (0xE2, NO_COMMAND, 0xE2, 0),
        (0xE2, forced(2), 0xE2, 2),
        (0xE2, forced(1), 0xE2, 2),
        (0xE2, manual(1), 0xE2, 2),
        (0xE2, LOCKOUT, 0xF0, 1),
        (0xF0, NO_COMMAND, 0xF0, 0),
        (0xF0, LOCKOUT, 0xF0, 2),
        (0xF0, forced(1), 0xF0, 2),
        (0x82, CLEAR, 0x00, 1),
        (0xE2, CLEAR, 0x00, 1),
        (0xF0, CLEAR, 0x00, 1),
        (0x00, CLEAR, 0x00, 1),
        (0xC2, manual(1), 0x81, 1),
        (0x21, manual(2), 0x82, 1),
    ] {
        let answer = commanded(sent_by(last), [0x00, 0x08], GOOD, command);
        let shown = format!("{last:02X} {command:?}");
        assert_eq!((answer.k1, answer.fate), (k1, fate), "{shown}");
    }
}

/// Rule 5. The new command pushed the held one out before it lost itself.
#[test]
fn a_command_that_is_not_sent_is_forgotten() {
    let lost = commanded(sent_by(0x81), [0x00, 0x08], FAILED_0, forced(2));
    assert_eq!(seen(lost), ([0xD0, 0x08], 0, 0, 2));
    let healed = quiet(lost.record, [0x00, 0x08], GOOD);
    assert_eq!(seen(healed), ([0x00, 0x08], 0, 0, 0));

    let overruled = commanded(start(), [0xC1, 0x08], GOOD, manual(2));
    assert_eq!(seen(overruled), ([0x21, 0x18], 0, 0, 2));
    let held = quiet(sent_by(0xE2), [0xF0, 0x08], GOOD);
    assert_eq!(seen(held), ([0x20, 0x08], 0, 0, 0));
}

#[test]
fn a_wait_lasts_as_many_steps_as_set() {
    for w in [0, 1, 2, 7, 65_535] {
        for (last, waiting) in [(0xC1, 0x61), (0xA2, 0x62)] {
            let mut record = Record { w, ..sent_by(last) };
            for left in (0..=w).rev() {
                let answer = quiet(record, [0x00, 0x08], GOOD);
                let k1 = if left > 0 { waiting } else { 0x00 };
                assert_eq!((answer.k1, answer.record.left), (k1, left));
                record = answer.record;
            }
        }
    }
}

/// Rule 3, by the K1 last sent and the mask it goes with.
#[test]
fn only_an_own_fault_of_a_section_starts_a_wait() {
    for (last, mask, k1) in [
        (0xD1, 1, 0x61),
        (0xC1, 0, 0x61),
        (0xB2, 2, 0x62),
        (0xA2, 0, 0x62),
        (0xD0, 0, 0x00),
        (0xB0, 0, 0x00),
        (0x21, 0, 0x00),
        (0x00, 0, 0x00),
    ] {
        let record = Record {
            mask,
            ..sent_by(last)
        };
        let answer = quiet(record, [0x00, 0x08], GOOD);
        assert_eq!(answer.k1, k1, "{last:02X}");
        let cleared = commanded(record, [0x00, 0x08], GOOD, CLEAR);
        assert_eq!(seen(cleared), ([0x00, 0x08], 0, 0, 1), "{last:02X}");
    }
    for (command, last) in [(forced(1), 0xE1), (manual(1), 0x81)] {
        let given = commanded(start(), [0x00, 0x08], GOOD, command);
        assert_eq!(given.k1, last);
        let cleared = commanded(given.record, [0x00, 0x08], GOOD, CLEAR);
        assert_eq!(seen(cleared), ([0x00, 0x08], 0, 0, 1), "{last:02X}");
    }
}

#[test]
fn a_wait_that_is_pushed_aside_does_not_come_back() {
    let waiting = Record {
        left: 2,
        ..sent_by(0x61)
    };
    for (received, conditions, command, pushed_by, next) in [
        ([0x82, 0x08], GOOD, NO_COMMAND, 0x22, 0x00),
        ([0x00, 0x08], &[1, 0, 0], NO_COMMAND, 0xB0, 0x00),
        ([0x00, 0x08], FAILED_1, NO_COMMAND, 0xC1, 0x61),
        ([0x00, 0x08], GOOD, manual(2), 0x82, 0x82),
        ([0x00, 0x08], GOOD, CLEAR, 0x00, 0x00),
    ] {
        let pushed = commanded(waiting, received, conditions, command);
        assert_eq!((pushed.k1, pushed.record.left), (pushed_by, 0));
        let after = quiet(pushed.record, [0x00, 0x08], GOOD);
        let left = if next == 0x61 { 3 } else { 0 };
        assert_eq!((after.k1, after.record.left), (next, left));
    }
}

/// Rule 4, by the accepted K1 and the condition of sections 1 and 2.
#[test]
fn the_better_of_the_two_ends_is_sent() {
    for (accepted, conditions, k1) in [
        (0xA1, [0, 0, 1], 0x21),
        (0xA2, [0, 1, 0], 0xA1),
        (0xA2, [0, 0, 1], 0xA2),
        (0xC2, [0, 1, 0], 0x22),
        (0xA1, [0, 0, 2], 0xC2),
        (0xB0, [0, 1, 0], 0x20),
        (0xB1, [1, 0, 0], 0xB0),
        (0xE2, [0, 2, 0], 0x22),
        (0xD0, [0, 2, 2], 0x20),
        (0x62, [0, 0, 0], 0x22),
        (0x20, [0, 0, 0], 0x00),
        (0x22, [0, 0, 0], 0x00),
        (0x00, [0, 0, 0], 0x00),
    ] {
        let answer = quiet(start(), [accepted, 0x08], &conditions);
        assert_eq!(answer.k1, k1, "{accepted:02X} {conditions:?}");
    }
}

/// Starts with every fault at once and mends one after the other.
#[test]
fn the_first_fault_is_refused() {
    let broken = Record {
        n: 15,
        mask: 4,
        accepted: [0x11, 0x08],
        ..start()
    };
    let sized = Record { n: 2, ..broken };
    let masked = Record { mask: 0, ..sized };
    let mended: [(Record, &[u8], u8, u8); 8] = [
        (broken, &[3, 0], 5, 3),
        (sized, &[3, 0], 5, 3),
        (masked, &[3, 0], 5, 3),
        (start(), &[3, 0], 5, 3),
        (start(), &[3, 0, 0], 5, 3),
        (start(), GOOD, 5, 3),
        (start(), GOOD, 4, 3),
        (start(), GOOD, 4, 2),
    ];
    for ((record, conditions, command, channel), refusal) in
        mended.into_iter().zip([1, 2, 3, 4, 5, 6, 7, 0])
    {
        // An alarm has no bearing on it (02, c).
        for k2 in [0x08, 0x0F] {
            let answer = step(record, 0x00, k2, conditions, command, channel);
            assert_eq!(answer.refusal, refusal);
        }
    }
}

#[test]
fn a_refused_step_hands_back_the_record() {
    let odd = Record {
        n: 255,
        options: 0xFF,
        mask: 0xFFFF,
        w: 0,
        accepted: [0xFF, 0xFF],
        sent: 0xFF,
        left: 0xFFFF,
        held: 0xFF,
    };
    let waiting = Record {
        accepted: [0x21, 0x1E],
        left: 2,
        ..sent_by(0x61)
    };
    for (record, conditions, command, refusal) in [
        (odd, &[][..], NO_COMMAND, 1),
        (Record { n: 14, ..odd }, GOOD, forced(1), 2),
        (waiting, &[0, 2], LOCKOUT, 4),
        (waiting, &[0, 2, 3], LOCKOUT, 5),
        (waiting, FAILED_0, (255, 0), 6),
        (waiting, FAILED_0, forced(0), 7),
    ] {
        let expected = Answer {
            refusal,
            record,
            k1: 0,
            k2: 0,
            bridge: 0,
            selector: 0,
            mark: 0,
            fate: 0,
        };
        let answer = commanded(record, [0xF0, 0x08], conditions, command);
        assert_eq!(answer, expected);
    }
}

#[test]
fn settings_are_refused_outside_their_bounds() {
    for n in 0..=255 {
        for mask in (0..16).map(|bit| 1 << bit).chain([0, 0xFFFF]) {
            let expected = match n {
                1..=14 if mask < 1 << n => 0,
                1..=14 => 2,
                _ => 1,
            };
            let made = fresh(Settings::new(n, mask, 3)).map_or_else(Refusal::number, |_| 0);
            assert_eq!(made, expected, "n {n} mask {mask}");
            let record = Record { n, mask, ..start() };
            let conditions = vec![0; usize::from(n) + 1];
            let answer = quiet(record, [0x00, 0x08], &conditions);
            assert_eq!(answer.refusal, expected, "n {n} mask {mask}");
        }
    }
}

#[test]
fn conditions_are_refused_by_number_then_by_value() {
    for n in 1..=14 {
        let record = Settings::new(n, 0, 3).fresh();
        for count in 0..=300 {
            let expected = if count == usize::from(n) + 1 { 0 } else { 4 };
            let answer = quiet(record, [0x00, 0x08], &vec![0; count]);
            assert_eq!(answer.refusal, expected);
        }
        for section in 0..=usize::from(n) {
            for condition in 0..=255 {
                let mut conditions = vec![0; usize::from(n) + 1];
                conditions[section] = condition;
                let answer = quiet(record, [0x00, 0x08], &conditions);
                assert_eq!(answer.refusal, if condition > 2 { 5 } else { 0 });
            }
        }
    }
}

#[test]
fn commands_are_refused_by_number_then_by_channel() {
    for n in [1, 2, 14] {
        let record = Settings::new(n, 0, 3).fresh();
        let conditions = vec![0; usize::from(n) + 1];
        for [command, channel] in (0..=u16::MAX).map(u16::to_be_bytes) {
            let expected = match (command, channel) {
                (0..=2, 0) => 0,
                (3 | 4, 1..) if channel <= n => 0,
                (0..=4, _) => 7,
                _ => 6,
            };
            let answer = step(record, 0x00, 0x08, &conditions, command, channel);
            assert_eq!(answer.refusal, expected, "n {n}: {command} {channel}");
        }
    }
}

/// Refusal 3, typed in by hand for the K1 last sent: with mask 1, section 1 is
/// coded high and section 2 low.
#[test]
fn the_k1_last_sent_is_one_that_can_have_been_sent() {
    let possible = [
        0x00, 0x20, 0x21, 0x22, 0x61, 0x62, 0x81, 0x82, 0xA2, 0xB0, 0xB1, 0xC2, 0xD0, 0xD1, 0xE1,
        0xE2, 0xF0,
    ];
    for sent in 0..=255 {
        for left in 0..=5 {
            let record = Record {
                mask: 1,
                left,
                ..sent_by(sent)
            };
            let wait = if sent >> 4 == 0b0110 { 1..=3 } else { 0..=0 };
            let good = possible.contains(&sent) && wait.contains(&left);
            let answer = quiet(record, [0x00, 0x08], GOOD);
            let shown = format!("{sent:02X} {left}");
            assert_eq!(answer.refusal, if good { 0 } else { 3 }, "{shown}");
        }
    }
}

#[test]
fn the_accepted_pair_is_a_usable_one() {
    for [k1, k2] in (0..=u16::MAX).map(u16::to_be_bytes) {
        let record = Record {
            accepted: [k1, k2],
            ..start()
        };
        let usable = matches!(decode(2, k1, k2), Ok(Received::Usable(_)));
        let expected = if usable { 0 } else { 3 };
        assert_eq!(quiet(record, [0x00, 0x08], GOOD).refusal, expected);
        assert_eq!(quiet(record, [0x00, 0x0F], FAILED_0).refusal, expected);
    }
}
