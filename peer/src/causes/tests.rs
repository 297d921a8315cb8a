use super::*;
use crate::settings::Settings;

/// The first capture of the paper's book, with n = 2, mask 0 and W = 3.
const ROWS: [Row; 3] = [
    [0x00, 0x08, 0xA2, 0x08],
    [0x22, 0x28, 0xA2, 0x28],
    [0x22, 0x28, 0x62, 0x28],
];

fn start() -> Record {
    Settings::new(2, 0, 3).fresh()
}

fn cause(conditions: &[u8], command: u8, channel: u8) -> Cause {
    Cause {
        conditions: conditions.into(),
        command,
        channel,
    }
}

#[test]
fn words_by_hand() {
    for (n, conditions, command, expected) in [
        (1, 0, 0x0000, cause(&[0, 0], 0, 0)),
        (2, 0b10_01_00, 0x0302, cause(&[0, 1, 2], 3, 2)),
        (2, 0b00_00_10, 0x0200, cause(&[2, 0, 0], 2, 0)),
        (3, 0b01_00_00_01, 0x0403, cause(&[1, 0, 0, 1], 4, 3)),
        (
            14,
            0x2000_0004,
            0x030E,
            cause(&[0, 1, 0, 0, 0, 0, 0, 0, 0, 0, 0, 0, 0, 0, 2], 3, 14),
        ),
    ] {
        assert_eq!(Cause::of_words(n, conditions, command), Ok(expected));
    }
}

/// Each bit by itself: those of the sections are there, and no others.
#[test]
fn conditions_have_no_bits_above_the_last_section() {
    for n in 1..=14 {
        for bit in 0..u32::BITS {
            let read = Cause::of_words(n, 1 << bit, 0);
            let section = bit as usize / 2;
            if section > usize::from(n) {
                assert_eq!(read, Err(Fault::OtherBits), "{n} {bit}");
                continue;
            }
            let mut conditions = vec![0; usize::from(n) + 1];
            conditions[section] = 1 << (bit % 2);
            assert_eq!(read, Ok(cause(&conditions, 0, 0)), "{n} {bit}");
        }
    }
}

/// What a single step with those words comes to, in which NR is sent.
fn replayed(n: u8, conditions: u32, command: u16) -> Result<(), Fault> {
    let start = Settings::new(n, 0, 3).fresh();
    let row = [0x00, 0x08, 0x00, 0x08];
    let replayed = replay(start, &[row], &[conditions], &[command]);
    replayed.map_err(|(_, fault)| fault)
}

#[test]
fn a_condition_of_three_is_wrong() {
    for n in 1..=14 {
        for section in 0..=n {
            let replayed = replayed(n, 0b11 << (2 * section), 0);
            assert_eq!(replayed, Err(Fault::Refused(5)), "{n} {section}");
        }
    }
}

#[test]
fn commands_and_channels_are_those_of_the_paper() {
    for n in 1..=14 {
        for word in 0..=u16::MAX {
            let [command, channel] = word.to_be_bytes();
            let sent = |code: u8| Err(Fault::Sends([code << 4 | channel, 0x08]));
            let expected = match command {
                0 | 1 if channel == 0 => Ok(()),
                2 if channel == 0 => sent(0xF),
                3 if (1..=n).contains(&channel) => sent(0xE),
                4 if (1..=n).contains(&channel) => sent(0x8),
                0..=4 => Err(Fault::Refused(7)),
                _ => Err(Fault::Refused(6)),
            };
            assert_eq!(replayed(n, 0, word), expected, "{n} {word:04X}");
        }
    }
}

#[test]
fn right_words_send_the_capture() {
    let conditions = [0b01_00_00, 0b01_00_00, 0];
    assert_eq!(replay(start(), &ROWS, &conditions, &[0; 3]), Ok(()));
    // A command of lower rank is not heard, and what stands behind is not looked at.
    let more = [0b01_00_00, 0b01_00_00, 0, u32::MAX];
    assert_eq!(
        replay(start(), &ROWS, &more, &[0x0401, 0, 0, 0xFFFF]),
        Ok(())
    );
    assert_eq!(replay(start(), &[], &[], &[]), Ok(()));
}

#[test]
fn the_first_step_with_a_fault_is_told() {
    let right = ([0b01_00_00, 0b01_00_00, 0], [0; 3]);
    for (step, conditions, command, fault) in [
        (0, 0, 0, Fault::Sends([0x00, 0x08])),
        (0, 0b01_01_00, 0, Fault::Sends([0xA1, 0x08])),
        (0, 0b01_00_00, 0x0301, Fault::Sends([0xE1, 0x08])),
        (1, 0, 0, Fault::Sends([0x62, 0x28])),
        (1, 0b01_00_10, 0, Fault::Sends([0xD0, 0x08])),
        (2, 0, 0x0100, Fault::Sends([0x00, 0x28])),
        (2, 0b10_00_00, 0, Fault::Sends([0xC2, 0x28])),
        (2, 0b1_00_00_00, 0, Fault::OtherBits),
        (1, 0b01_00_11, 0, Fault::Refused(5)),
        (1, 0b01_00_00, 0x0500, Fault::Refused(6)),
        (0, 0b01_00_00, 0x0001, Fault::Refused(7)),
    ] {
        let (mut words, mut commands) = right;
        (words[step], commands[step]) = (conditions, command);
        let replayed = replay(start(), &ROWS, &words, &commands);
        assert_eq!(
            replayed,
            Err((step, fault)),
            "{conditions:06b} {command:04X}"
        );
    }
}

/// Whether section 0 failed under LO shows in the next step alone.
#[test]
fn a_failure_that_is_wrong_shows_later() {
    let locked = [0x81, 0x08, 0xF0, 0x08];
    for (sent, failed, other) in [
        ([0x00, 0x08], 2, [0x21, 0x18]),
        ([0x21, 0x18], 0, [0x00, 0x08]),
    ] {
        let rows = [locked, [0x11, 0x08, sent[0], sent[1]]];
        let replay = |first: u32| replay(start(), &rows, &[first, 0], &[0x0200, 0x0100]);
        assert_eq!(replay(failed), Ok(()));
        assert_eq!(replay(2 - failed), Err((1, Fault::Sends(other))));
    }
}

#[test]
fn a_step_without_words_has_a_fault() {
    let conditions = [0b01_00_00, 0b01_00_00, 0];
    for steps in 0..3 {
        let missing = Err((steps, Fault::Missing));
        assert_eq!(
            replay(start(), &ROWS, &conditions[..steps], &[0; 3]),
            missing
        );
        assert_eq!(
            replay(start(), &ROWS, &conditions, &[0; 3][..steps]),
            missing
        );
    }
}

#[test]
fn faults_are_told_in_words() {
    let told = [
        Fault::Missing,
        Fault::OtherBits,
        Fault::Refused(5),
        Fault::Sends([0xA2, 0x08]),
    ]
    .map(|fault| fault.to_string());
    let expected = [
        "has no cause",
        "has bits above those of the last section",
        "is refused by 5",
        "sends A208",
    ];
    assert_eq!(told, expected);
}
