//! Ends that keep a command which is outranked (02, g), in the group of the paper's
//! sequences.

use super::*;

const ALARM: [u8; 2] = [0x00, 0x0F];
const IDLE_PAIR: [u8; 2] = [0x00, 0x08];

/// What outranks a command: a pair received under some conditions, and what is sent.
type Outranked<'a> = ([u8; 2], &'a [u8], [u8; 2]);

const OVER_FORCED: [Outranked; 4] = [
    (IDLE_PAIR, FAILED_0, [0xD0, 0x08]),
    (ALARM, GOOD, [0xD0, 0x08]),
    ([0xF0, 0x08], GOOD, [0x20, 0x08]),
    ([0xD0, 0x08], GOOD, [0x20, 0x08]),
];

/// Besides those that outrank a forced switch.
const OVER_MANUAL: [Outranked; 5] = [
    (IDLE_PAIR, FAILED_1, [0xC1, 0x08]),
    (IDLE_PAIR, DEGRADED_2, [0xA2, 0x08]),
    (IDLE_PAIR, &[1, 0, 0], [0xB0, 0x08]),
    ([0xE2, 0x28], GOOD, [0x22, 0x28]),
    ([0xA1, 0x08], GOOD, [0x21, 0x18]),
];

fn holding() -> Record {
    Settings::new(2, 0, 3).with_hold().fresh()
}

/// Held, and not what was last sent.
fn waiting(held: u8, sent: u8) -> Record {
    Record {
        sent,
        held,
        ..holding()
    }
}

/// All that goes on, and the command that is held after it.
fn seen_and_held(answer: Answer) -> ([u8; 2], u8, u8) {
    ([answer.k1, answer.k2], answer.fate, answer.record.held)
}

/// In the step that it is given, and for some more, it is outranked; then nothing is.
fn assert_comes_back(command: (u8, u8), held: u8, outranked: Outranked) {
    let (received, conditions, sent) = outranked;
    let mut answer = commanded(holding(), received, conditions, command);
    assert_eq!(seen_and_held(answer), (sent, 1, held), "{received:02X?}");
    for _ in 0..3 {
        answer = quiet(answer.record, received, conditions);
        assert_eq!(seen_and_held(answer), (sent, 0, held), "{received:02X?}");
    }
    for _ in 0..3 {
        answer = quiet(answer.record, IDLE_PAIR, GOOD);
        assert_eq!(seen_and_held(answer), ([held, 0x08], 0, held));
    }
}

#[test]
fn what_is_outranked_comes_back() {
    for (channel, outranked) in [1, 2].into_iter().flat_map(|channel| {
        let all = OVER_FORCED.into_iter();
        all.map(move |outranked| (channel, outranked))
    }) {
        assert_comes_back(forced(channel), 0xE0 | channel, outranked);
        assert_comes_back(manual(channel), 0x80 | channel, outranked);
    }
    for outranked in OVER_MANUAL {
        assert_comes_back(manual(1), 0x81, outranked);
        assert_comes_back(manual(2), 0x82, outranked);
    }
}

/// Not even by an LO of the far end, which is of its rank and channel.
#[test]
fn lockout_is_never_outranked() {
    for (received, conditions, _) in OVER_FORCED.into_iter().chain(OVER_MANUAL) {
        let answer = commanded(holding(), received, conditions, LOCKOUT);
        assert_eq!(
            (answer.k1, answer.fate, answer.record.held),
            (0xF0, 1, 0xF0)
        );
    }
}

/// It counts where it is sent just as it does without hold.
#[test]
fn what_is_sent_is_held_until_a_clear() {
    for (command, held) in [(LOCKOUT, 0xF0), (forced(1), 0xE1), (manual(2), 0x82)] {
        let given = commanded(holding(), IDLE_PAIR, GOOD, command);
        assert_eq!(seen_and_held(given), ([held, 0x08], 1, held));
        let later = quiet(given.record, IDLE_PAIR, GOOD);
        assert_eq!(seen_and_held(later), ([held, 0x08], 0, held));
        let cleared = commanded(later.record, IDLE_PAIR, GOOD, CLEAR);
        assert_eq!(seen_and_held(cleared), ([0x00, 0x08], 1, 0x00));
        let after = quiet(cleared.record, IDLE_PAIR, GOOD);
        assert_eq!(seen_and_held(after), ([0x00, 0x08], 0, 0x00));
    }
}

/// By what is held and the command: what is held then, and the fate. It is the same
/// whether what is held is sent or waits behind a failed section 0.
#[test]
fn commands_are_weighed_against_what_the_record_has() {
    for (held, command, after, fate) in [
        (0x00, NO_COMMAND, 0x00, 0),
        (0x00, CLEAR, 0x00, 1),
        (0x00, manual(1), 0x81, 1),
        (0x00, forced(2), 0xE2, 1),
        (0x00, LOCKOUT, 0xF0, 1),
        (0x81, NO_COMMAND, 0x81, 0),
        (0x81, CLEAR, 0x00, 1),
        (0x81, manual(1), 0x81, 2),
        (0x81, manual(2), 0x81, 2),
        (0x81, forced(1), 0xE1, 1),
        (0x81, forced(2), 0xE2, 1),
        (0x81, LOCKOUT, 0xF0, 1),
        (0xE2, NO_COMMAND, 0xE2, 0),
        (0xE2, CLEAR, 0x00, 1),
        (0xE2, manual(1), 0xE2, 2),
        (0xE2, manual(2), 0xE2, 2),
        (0xE2, forced(1), 0xE2, 2),
        (0xE2, forced(2), 0xE2, 2),
        (0xE2, LOCKOUT, 0xF0, 1),
        (0xF0, NO_COMMAND, 0xF0, 0),
        (0xF0, CLEAR, 0x00, 1),
        (0xF0, manual(1), 0xF0, 2),
        (0xF0, forced(1), 0xF0, 2),
        (0xF0, LOCKOUT, 0xF0, 2),
    ] {
        let shown = format!("{held:02X} {command:?}");
        let up = commanded(waiting(held, held), IDLE_PAIR, GOOD, command);
        assert_eq!(seen_and_held(up), ([after, 0x08], fate, after), "{shown}");
        let outranked = commanded(waiting(held, 0xD0), IDLE_PAIR, FAILED_0, command);
        let sent = if after == 0xF0 { 0xF0 } else { 0xD0 };
        let expected = ([sent, 0x08], fate, after);
        assert_eq!(seen_and_held(outranked), expected, "{shown}");
    }
}

/// What was replaced has gone, and comes back neither behind what replaced it nor after a
/// clear.
#[test]
fn nothing_waits_behind_what_is_held() {
    let first = commanded(holding(), IDLE_PAIR, GOOD, manual(1));
    let second = commanded(first.record, IDLE_PAIR, GOOD, forced(2));
    assert_eq!(seen_and_held(second), ([0xE2, 0x08], 1, 0xE2));
    let third = commanded(second.record, IDLE_PAIR, FAILED_0, LOCKOUT);
    assert_eq!(seen_and_held(third), ([0xF0, 0x08], 1, 0xF0));
    let cleared = commanded(third.record, IDLE_PAIR, FAILED_0, CLEAR);
    assert_eq!(seen_and_held(cleared), ([0xD0, 0x08], 1, 0x00));
    let healed = quiet(cleared.record, IDLE_PAIR, GOOD);
    assert_eq!(seen_and_held(healed), ([0x00, 0x08], 0, 0x00));
}

#[test]
fn a_clear_drops_what_waits() {
    for held in [0x81, 0x82, 0xE1, 0xE2] {
        let cleared = commanded(waiting(held, 0xD0), IDLE_PAIR, FAILED_0, CLEAR);
        assert_eq!(seen_and_held(cleared), ([0xD0, 0x08], 1, 0x00));
        let healed = quiet(cleared.record, IDLE_PAIR, GOOD);
        assert_eq!(seen_and_held(healed), ([0x00, 0x08], 0, 0x00));
    }
}

/// With hold a command that was last sent is none for that: it is neither a candidate nor
/// in the way of another.
#[test]
fn what_was_last_sent_is_not_held_by_that() {
    for sent in [0xF0, 0xE1, 0xE2, 0x81, 0x82] {
        let record = waiting(0x00, sent);
        let none = quiet(record, IDLE_PAIR, GOOD);
        assert_eq!(seen_and_held(none), ([0x00, 0x08], 0, 0x00), "{sent:02X}");
        let new = commanded(record, IDLE_PAIR, GOOD, manual(1));
        assert_eq!(seen_and_held(new), ([0x81, 0x08], 1, 0x81), "{sent:02X}");
    }
    let other = quiet(waiting(0x82, 0xE1), IDLE_PAIR, GOOD);
    assert_eq!(seen_and_held(other), ([0x82, 0x08], 0, 0x82));
}

/// It ends a wait that it outranks, and the wait does not come back behind it.
#[test]
fn what_comes_back_ends_a_wait() {
    let failed = commanded(holding(), IDLE_PAIR, FAILED_1, manual(2));
    assert_eq!(seen_and_held(failed), ([0xC1, 0x08], 1, 0x82));
    let back = quiet(failed.record, IDLE_PAIR, GOOD);
    assert_eq!((back.k1, back.record.left), (0x82, 0));
    let cleared = commanded(back.record, IDLE_PAIR, GOOD, CLEAR);
    assert_eq!((cleared.k1, cleared.record.left), (0x00, 0));
    let waits = Record {
        left: 2,
        ..waiting(0x81, 0x61)
    };
    let back = quiet(waits, IDLE_PAIR, GOOD);
    assert_eq!((back.k1, back.record.left, back.fate), (0x81, 0, 0));
    // A clear drops both.
    let cleared = commanded(waits, IDLE_PAIR, GOOD, CLEAR);
    assert_eq!((cleared.k1, cleared.record.left), (0x00, 0));
}

/// Behind a held command the far end is answered as behind any request of its rank.
#[test]
fn what_waits_is_weighed_against_the_far_end() {
    for (held, accepted, k1) in [
        (0xE2, 0xE1, 0x21),
        (0xE1, 0xE2, 0xE1),
        (0xE2, 0xE2, 0xE2),
        (0x82, 0x81, 0x21),
        (0x82, 0xA1, 0x21),
        (0xE2, 0xD1, 0xE2),
        (0xF0, 0xD0, 0xF0),
    ] {
        let answer = quiet(waiting(held, 0xD0), [accepted, 0x08], GOOD);
        assert_eq!((answer.k1, answer.record.held), (k1, held), "{held:02X}");
    }
}

/// It is the fault that was last sent, and no command is, where another waits.
#[test]
fn first_come_stays_while_a_command_waits() {
    let answer = quiet(waiting(0x81, 0xC2), IDLE_PAIR, BOTH_FAILED);
    assert_eq!(seen_and_held(answer), ([0xC2, 0x08], 0, 0x81));
    let answer = quiet(waiting(0x81, 0x81), IDLE_PAIR, BOTH_FAILED);
    assert_eq!(seen_and_held(answer), ([0xC1, 0x08], 0, 0x81));
}

/// Refusal 3, by the command that is held and the options.
#[test]
fn only_what_can_be_held_is() {
    let of_two: &[u8] = &[0x00, 0x81, 0x82, 0xE1, 0xE2, 0xF0];
    let of_one: &[u8] = &[0x00, 0x81, 0xE1, 0xF0];
    for (n, possible) in [(2, of_two), (1, of_one)] {
        let conditions = vec![0; usize::from(n) + 1];
        for [options, held] in (0..=u16::MAX).map(u16::to_be_bytes) {
            let record = Record {
                n,
                options,
                held,
                ..holding()
            };
            let good = match options {
                0 => held == 0x00,
                1 => possible.contains(&held),
                _ => false,
            };
            let answer = quiet(record, IDLE_PAIR, &conditions);
            let shown = format!("{n} {options} {held:02X}");
            assert_eq!(answer.refusal, if good { 0 } else { 3 }, "{shown}");
        }
    }
}

/// Up to the greatest group, by hand from the table: LO, and FS and MS of each section.
#[test]
fn as_much_can_be_held_as_can_be_commanded() {
    for n in 1..=14 {
        let conditions = vec![0; usize::from(n) + 1];
        let held = (0..=255).filter(|&held| {
            let record = Record {
                n,
                held,
                ..holding()
            };
            quiet(record, IDLE_PAIR, &conditions).refusal == 0
        });
        let forced = (1..=n).map(|channel| 0xE0 | channel);
        let expected = (1..=n).map(|channel| 0x80 | channel);
        let expected = [0x00].into_iter().chain(expected).chain(forced);
        assert!(held.eq(expected.chain([0xF0])), "{n}");
    }
}

/// Behind 1 and 2 and before 4, and the record comes back as it was given.
#[test]
fn a_record_with_other_options_is_refused_by_3() {
    for options in 2..=255 {
        let record = Record {
            options,
            ..holding()
        };
        let [size, mask] = [Record { n: 0, ..record }, Record { mask: 4, ..record }];
        for (record, conditions, refusal) in [
            (size, GOOD, Refusal::Sections),
            (mask, GOOD, Refusal::Mask),
            (record, &[3, 0], Refusal::Record),
            (record, GOOD, Refusal::Record),
        ] {
            let answer = commanded(record, IDLE_PAIR, conditions, (5, 3));
            assert_eq!(answer, Answer::refused(refusal, record));
        }
    }
}

/// Before 1 and 2.
#[test]
fn other_options_are_refused_by_25_where_a_record_is_made() {
    for options in 2..=255 {
        for (n, mask) in [(2, 3), (0, 0), (15, 0xFFFF), (2, 4)] {
            let settings = Settings {
                options,
                ..Settings::new(n, mask, 3)
            };
            assert_eq!(fresh(settings), Err(Refusal::Options), "{options}");
        }
    }
    assert_eq!(Refusal::Options.number(), 25);
}
