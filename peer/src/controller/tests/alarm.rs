//! Steps that receive an alarm (02, c), in the group of the paper's sequences.

use super::*;
use crate::books::pairs::is_alarm;

/// The pair that P3 receives, but for the line bits.
const ALARM: [u8; 2] = [0x22, 0x2F];

fn all_pairs() -> impl Iterator<Item = [u8; 2]> {
    (0..=u16::MAX).map(u16::to_be_bytes)
}

/// The record that is left of one, where D0 is sent.
fn failed(record: Record) -> Record {
    Record {
        accepted: [0x00, 0x08],
        sent: 0xD0,
        left: 0,
        ..record
    }
}

#[test]
fn an_alarm_sends_d0_and_leaves_00_08_accepted() {
    for before in [start(), p2().record, p3().record, p5().record] {
        let answer = quiet(before, ALARM, DEGRADED_2);
        assert_eq!(seen(answer), ([0xD0, 0x08], 0, 0, 0));
        assert_eq!(answer.record, failed(before));
    }
}

/// Nothing is left of the failure itself.
#[test]
fn an_alarm_counts_for_its_own_step() {
    let after = quiet(p3().record, ALARM, DEGRADED_2).record;
    let usable = quiet(after, [0x22, 0x28], DEGRADED_2);
    assert_eq!(seen(usable), ([0xA2, 0x28], 2, 0, 0));
    let unusable = quiet(after, [0x11, 0x08], DEGRADED_2);
    assert_eq!(seen(unusable), ([0xA2, 0x08], 0, 3, 0));
    let again = quiet(after, ALARM, GOOD);
    assert_eq!(
        (seen(again), again.record),
        (([0xD0, 0x08], 0, 0, 0), after)
    );
}

/// With section 0 good, degraded or failed already.
#[test]
fn whatever_is_handed_in_of_section_0_it_has_failed() {
    for condition in 0..=2 {
        let answer = quiet(p3().record, ALARM, &[condition, 2, 2]);
        assert_eq!(seen(answer), ([0xD0, 0x08], 0, 0, 0));
        assert_eq!(answer.record, failed(start()));
    }
}

/// By the K1 last sent: LO alone outranks the failure, and no wait starts from it.
#[test]
fn commands_are_weighed_as_under_a_failure() {
    for (last, command, k1, fate) in [
        (0x00, forced(1), 0xD0, 2),
        (0x00, manual(2), 0xD0, 2),
        (0x00, LOCKOUT, 0xF0, 1),
        (0x00, CLEAR, 0xD0, 1),
        (0xE1, NO_COMMAND, 0xD0, 0),
        (0xE1, LOCKOUT, 0xF0, 1),
        (0xF0, NO_COMMAND, 0xF0, 0),
        (0xF0, LOCKOUT, 0xF0, 2),
        (0xF0, forced(1), 0xF0, 2),
        (0xF0, CLEAR, 0xD0, 1),
        (0xC2, NO_COMMAND, 0xD0, 0),
    ] {
        let record = Record {
            accepted: [0x81, 0x18],
            ..sent_by(last)
        };
        let answer = commanded(record, ALARM, GOOD, command);
        let shown = format!("{last:02X} {command:?}");
        assert_eq!(seen(answer), ([k1, 0x08], 0, 0, fate), "{shown}");
        assert_eq!(answer.record.accepted, [0x00, 0x08], "{shown}");
        let healed = commanded(answer.record, [0x00, 0x08], GOOD, CLEAR);
        assert_eq!(seen(healed), ([0x00, 0x08], 0, 0, 1), "{shown}");
    }
}

/// The pair is not looked at, whatever stands beside the line bits of an alarm, just as
/// with section 0 failed. No other pair does the same.
#[test]
fn every_alarm_is_any_pair_with_section_0_failed() {
    let before = p3().record;
    let expected = quiet(before, [0x00, 0x08], FAILED_0);
    for pair in all_pairs() {
        assert_eq!(quiet(before, pair, FAILED_0), expected, "{pair:02X?}");
        let good = quiet(before, pair, GOOD);
        assert_eq!(good == expected, is_alarm(pair), "{pair:02X?}");
    }
}

/// By the last four bits of K2: bit 5 and the line bits.
#[test]
fn other_line_bits_keep_their_mark() {
    for last in 0x0..=0xF {
        let answer = quiet(p3().record, [0x22, 0x20 | last], DEGRADED_2);
        let expected = match last {
            0x0..=0x7 => ([0xA2, 0x28], 2, 1, 0),
            0x8 | 0xE => ([0xA2, 0x28], 2, 0, 0),
            0x9..=0xD => ([0xA2, 0x28], 2, 2, 0),
            _ => ([0xD0, 0x08], 0, 0, 0),
        };
        assert_eq!(seen(answer), expected, "{last:X}");
    }
}

/// Refusals 4 and 5 look at what is handed in, section 0 as well.
#[test]
fn conditions_are_refused_with_an_alarm_too() {
    let record = p3().record;
    for section in 0..3 {
        for condition in 3..=255 {
            let mut conditions = [0; 3];
            conditions[section] = condition;
            let answer = quiet(record, ALARM, &conditions);
            assert_eq!(answer, Answer::refused(Refusal::Condition, record));
        }
    }
    for conditions in [&[][..], &[2], &[2, 0], &[3, 0], &[2, 0, 0, 0]] {
        let answer = quiet(record, ALARM, conditions);
        assert_eq!(answer, Answer::refused(Refusal::ConditionCount, record));
    }
}

/// With bit 5 or without it: an alarm is never accepted.
#[test]
fn a_record_with_accepted_line_bits_111_is_refused() {
    for accepted in all_pairs().filter(|[_, k2]| k2 & 0b111 == 0b111) {
        let record = Record {
            accepted,
            ..start()
        };
        for (received, conditions) in [([0x00, 0x08], GOOD), (ALARM, GOOD), (ALARM, FAILED_0)] {
            let answer = quiet(record, received, conditions);
            assert_eq!(answer, Answer::refused(Refusal::Record, record));
        }
    }
}
