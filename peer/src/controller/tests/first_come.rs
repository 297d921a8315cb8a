//! Ties of local conditions (02 d), in groups of three sections.

use super::*;

type Given = ([u8; 2], [u8; 4], (u8, u8));

const SECOND_FAILED: Given = idle([0, 0, 2, 0]);
const FIRST_TWO_FAILED: Given = idle([0, 2, 2, 0]);

const fn idle(conditions: [u8; 4]) -> Given {
    heard([0x00, 0x08], conditions)
}

const fn heard(received: [u8; 2], conditions: [u8; 4]) -> Given {
    (received, conditions, NO_COMMAND)
}

/// The K1 sent in each step, from a fresh record on.
fn sent<const N: usize>(mask: u16, steps: [Given; N]) -> [u8; N] {
    let mut record = Settings::new(3, mask, 3).fresh();
    steps.map(|(received, conditions, command)| {
        let answer = commanded(record, received, &conditions, command);
        record = answer.record;
        answer.k1
    })
}

/// The K1 sent after that one, with nothing from the far end.
fn sent_after(last: u8, mask: u16, conditions: [u8; 4]) -> u8 {
    let record = Record {
        sent: last,
        ..Settings::new(3, mask, 3).fresh()
    };
    quiet(record, [0x00, 0x08], &conditions).k1
}

/// The third section comes and goes, and the first is there to stay.
#[test]
fn first_come_stays_over_several_steps() {
    for (mask, condition, k1) in [(0, 1, 0xA2), (0, 2, 0xC2), (7, 1, 0xB2), (7, 2, 0xD2)] {
        let alone = idle([0, 0, condition, 0]);
        let two = idle([0, condition, condition, 0]);
        let three = idle([0, condition, condition, condition]);
        let answered = heard([0x22, 0x28], [0, condition, condition, 0]);
        let steps = [alone, two, three, answered, three, two, alone, two];
        assert_eq!(sent(mask, steps), [k1; 8]);
    }
}

/// When both come at once there is no first.
#[test]
fn of_two_that_come_together_the_lower_is_sent_and_stays() {
    let steps = [FIRST_TWO_FAILED, FIRST_TWO_FAILED, idle([0, 2, 2, 2])];
    assert_eq!(sent(0, steps), [0xC1; 3]);
    let steps = [idle([0, 0, 1, 1]), idle([0, 1, 1, 1])];
    assert_eq!(sent(0, steps), [0xA2; 2]);
}

#[test]
fn no_claim_after_a_reverse_request() {
    let overruled = heard([0xE3, 0x08], [0, 2, 2, 0]);
    let steps = [SECOND_FAILED, overruled, FIRST_TWO_FAILED];
    assert_eq!(sent(0, steps), [0xC2, 0x23, 0xC1]);
}

/// RR of the section's own channel is no more its request than any other.
#[test]
fn no_claim_after_a_reverse_request_for_the_same_section() {
    let overruled = heard([0xE2, 0x28], [0, 2, 2, 0]);
    let steps = [SECOND_FAILED, overruled, FIRST_TWO_FAILED];
    assert_eq!(sent(0, steps), [0xC2, 0x22, 0xC1]);
}

#[test]
fn no_claim_after_no_request() {
    let cleared = ([0x00, 0x08], [0; 4], CLEAR);
    let steps = [SECOND_FAILED, cleared, FIRST_TWO_FAILED];
    assert_eq!(sent(0, steps), [0xC2, 0x00, 0xC1]);
}

/// Both commands are cleared in the step that the tie is in.
#[test]
fn no_claim_after_a_command() {
    let both = [0, 2, 2, 0];
    let cleared = ([0x00, 0x08], both, CLEAR);
    for (command, k1) in [(forced(2), 0xE2), (LOCKOUT, 0xF0)] {
        let given = ([0x00, 0x08], both, command);
        assert_eq!(sent(0, [SECOND_FAILED, given, cleared]), [0xC2, k1, 0xC1]);
    }
    let manual_2 = sent_after(0x82, 0, both);
    assert_eq!(manual_2, 0xC1, "any fault goes before a held MS");
}

#[test]
fn no_claim_after_a_wait() {
    let steps = [SECOND_FAILED, idle([0; 4]), FIRST_TWO_FAILED];
    assert_eq!(sent(0, steps), [0xC2, 0x62, 0xC1]);
}

#[test]
fn no_claim_after_a_fault_of_protection() {
    for (condition, k1) in [(1, 0xB0), (2, 0xD0)] {
        let bad = idle([condition, 0, 1, 0]);
        let steps = [idle([0, 0, 1, 0]), bad, idle([0, 1, 1, 0])];
        assert_eq!(sent(0, steps), [0xA2, k1, 0xA1]);
    }
}

/// A clear drops the held command and the wait. The claim is neither.
#[test]
fn a_clear_leaves_the_claim() {
    let cleared = ([0x00, 0x08], [0, 2, 2, 0], CLEAR);
    assert_eq!(sent(0, [SECOND_FAILED, cleared]), [0xC2, 0xC2]);
}

/// Its fail is another request than the degrade that was sent.
#[test]
fn a_degraded_section_that_fails_has_no_claim() {
    let degraded = idle([0, 0, 1, 0]);
    let steps = [degraded, FIRST_TWO_FAILED, FIRST_TWO_FAILED];
    assert_eq!(sent(0, steps), [0xA2, 0xC1, 0xC1]);
    // Alone it needs none, and has one from then on.
    let steps = [degraded, SECOND_FAILED, FIRST_TWO_FAILED];
    assert_eq!(sent(0, steps), [0xA2, 0xC2, 0xC2]);
}

#[test]
fn a_failed_section_that_is_only_degraded_now_has_no_claim() {
    let steps = [SECOND_FAILED, idle([0, 1, 1, 0])];
    assert_eq!(sent(0, steps), [0xC2, 0xA1]);
}

/// By the K1 last sent: neither the code alone nor the channel alone is enough.
#[test]
fn the_claim_is_of_code_and_channel() {
    for (last, conditions, k1) in [
        (0xC2, [0, 2, 2, 0], 0xC2),
        (0xC2, [0, 2, 0, 2], 0xC1),
        (0xA2, [0, 2, 2, 0], 0xC1),
        (0xC2, [0, 1, 1, 0], 0xA1),
        (0x22, [0, 2, 2, 0], 0xC1),
        (0xC3, [0, 2, 2, 2], 0xC3),
        (0xC3, [0, 0, 2, 2], 0xC3),
        (0xC3, [0, 2, 2, 0], 0xC1),
    ] {
        assert_eq!(sent_after(last, 0, conditions), k1, "{last:02X}");
    }
}

#[test]
fn a_higher_rank_takes_the_place_of_what_came_first() {
    for (last, mask, conditions, k1) in [
        (0xC2, 1, [0, 2, 2, 0], 0xD1),
        (0xC1, 2, [0, 2, 2, 0], 0xD2),
        (0xA2, 0, [0, 2, 1, 0], 0xC1),
        (0xA1, 0, [0, 1, 2, 0], 0xC2),
        (0xA1, 4, [0, 1, 0, 1], 0xB3),
    ] {
        assert_eq!(sent_after(last, mask, conditions), k1, "{last:02X}");
    }
}

/// Whether it comes later than the section, before it, or with it.
#[test]
fn section_0_wins_its_tie() {
    let protection = idle([1, 0, 0, 0]);
    let section = idle([0, 0, 1, 0]);
    let all = idle([1, 1, 1, 1]);
    assert_eq!(sent(7, [section, all, all]), [0xB2, 0xB0, 0xB0]);
    assert_eq!(sent(7, [protection, all]), [0xB0; 2]);
    assert_eq!(sent(7, [all]), [0xB0]);
    // Repaired again, it leaves nobody with a claim.
    let without = idle([0, 1, 1, 1]);
    assert_eq!(sent(7, [section, all, without]), [0xB2, 0xB0, 0xB1]);
}

/// Its fail has a rank of its own, above that of every section (G.873.1, 8.9).
#[test]
fn a_failed_section_0_is_in_no_tie() {
    let of_rank_9 = |&k1: &u8| crate::pair::rank(k1 >> 4, k1 & 0b1111) == 9;
    assert!((0..=255).filter(of_rank_9).eq([0xD0]));
    for (mask, last) in [(0, 0xC2), (7, 0xD2)] {
        assert_eq!(sent_after(last, mask, [2, 2, 2, 2]), 0xD0);
    }
}

/// By the accepted K1, after C2, with sections 1 and 2 failed or section 2 alone.
#[test]
fn between_the_ends_the_lower_channel_wins() {
    for (accepted, conditions, k1) in [
        (0xC1, [0, 0, 2, 0], 0x21),
        (0xC1, [0, 2, 2, 0], 0x21),
        (0xC2, [0, 2, 2, 0], 0xC2),
        (0xC3, [0, 2, 2, 0], 0xC2),
    ] {
        let steps = [SECOND_FAILED, heard([accepted, 0x08], conditions)];
        assert_eq!(sent(0, steps), [0xC2, k1], "{accepted:02X}");
    }
}

#[test]
fn a_section_that_was_repaired_for_one_step_has_lost_its_place() {
    let all = idle([0, 2, 2, 2]);
    let repaired = idle([0, 2, 0, 2]);
    let steps = [SECOND_FAILED, all, repaired, all];
    assert_eq!(sent(0, steps), [0xC2, 0xC2, 0xC1, 0xC1]);
}
