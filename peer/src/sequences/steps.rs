//! The sequences that the paper spells out for the controller, and a few more
//! in the same manner, step by step (paper: "Sequences on both sides").

use super::{fresh, numbers, Given};
use crate::controller::Answer;
use crate::settings::{Settings, HOLD};
use std::io::{self, Write};

/// Steps that follow one another from a fresh record.
#[derive(Clone, Copy)]
struct Sequence {
    name: &'static str,
    settings: Settings,
    steps: &'static [Given<'static>],
}

const fn of_two(
    name: &'static str,
    mask: u16,
    w: u16,
    steps: &'static [Given<'static>],
) -> Sequence {
    Sequence {
        name,
        settings: Settings::new(2, mask, w),
        steps,
    }
}

/// For the ties of 02 d.
const fn of_three(name: &'static str, mask: u16, steps: &'static [Given<'static>]) -> Sequence {
    Sequence {
        name,
        settings: Settings::new(3, mask, 3),
        steps,
    }
}

const GOOD: &[u8] = &[0, 0, 0];
const DEGRADED_2: &[u8] = &[0, 0, 1];

const fn section_14(condition: u8) -> [u8; 15] {
    let mut conditions = [0; 15];
    conditions[14] = condition;
    conditions
}

const GOOD_OF_14: &[u8] = &section_14(0);
const DEGRADED_14: &[u8] = &section_14(1);
const FAILED_14: &[u8] = &section_14(2);

const SEQUENCES: [Sequence; 20] = [
    of_two("P1", 0, 3, &[Given::new(0x00, 0x08, GOOD)]),
    of_two(
        "P2 P3 P8 P9",
        0,
        3,
        &[
            Given::new(0x00, 0x08, DEGRADED_2),
            Given::new(0x22, 0x28, DEGRADED_2),
            Given::new(0x22, 0x28, GOOD),
            Given::new(0x22, 0x28, GOOD),
            Given::new(0x22, 0x28, GOOD),
            Given::new(0x22, 0x28, GOOD),
        ],
    ),
    of_two(
        "P4 P5 P6",
        0,
        3,
        &[
            Given::new(0xA2, 0x08, GOOD),
            Given::new(0xA2, 0x28, GOOD),
            Given::new(0xA2, 0x28, &[0, 2, 0]),
        ],
    ),
    of_two(
        "P2 P3 P7",
        0,
        3,
        &[
            Given::new(0x00, 0x08, DEGRADED_2),
            Given::new(0x22, 0x28, DEGRADED_2),
            Given::new(0xC1, 0x08, DEGRADED_2),
        ],
    ),
    of_two(
        "P10",
        0,
        3,
        &[Given::new(0x00, 0x08, &[2, 0, 0]).commanded(3, 1)],
    ),
    of_two("P11", 0, 3, &[Given::new(0x00, 0x08, &[0, 2, 2])]),
    of_two("P11", 2, 3, &[Given::new(0x00, 0x08, &[0, 2, 2])]),
    of_two(
        "P2 P12",
        0,
        3,
        &[
            Given::new(0x00, 0x08, DEGRADED_2),
            Given::new(0x11, 0x08, DEGRADED_2),
        ],
    ),
    of_two(
        "P13",
        0,
        3,
        &[
            Given::new(0x00, 0x08, &[0, 0, 2]),
            Given::new(0x00, 0x08, &[0, 2, 2]),
        ],
    ),
    of_three(
        "first come stays",
        0,
        &[
            Given::new(0x00, 0x08, &[0, 0, 2, 0]),
            Given::new(0x00, 0x08, &[0, 2, 2, 0]),
            Given::new(0x22, 0x28, &[0, 2, 2, 0]),
        ],
    ),
    of_three(
        "no claim after RR",
        0,
        &[
            Given::new(0x00, 0x08, &[0, 0, 2, 0]),
            Given::new(0xE3, 0x08, &[0, 2, 2, 0]),
            Given::new(0x00, 0x08, &[0, 2, 2, 0]),
        ],
    ),
    of_three(
        "the tie of section 0",
        1,
        &[
            Given::new(0x00, 0x08, &[0, 1, 0, 0]),
            Given::new(0x21, 0x18, &[0, 1, 0, 0]),
            Given::new(0x21, 0x18, &[1, 1, 0, 0]),
        ],
    ),
    of_three(
        "a place is lost",
        0,
        &[
            Given::new(0x00, 0x08, &[0, 0, 2, 0]),
            Given::new(0x22, 0x28, &[0, 2, 2, 2]),
            Given::new(0x22, 0x28, &[0, 2, 0, 2]),
            Given::new(0x22, 0x28, &[0, 2, 2, 2]),
        ],
    ),
    of_three(
        "between the ends",
        0,
        &[
            Given::new(0x00, 0x08, &[0, 0, 2, 0]),
            Given::new(0xC1, 0x08, &[0, 2, 2, 0]),
            Given::new(0xC1, 0x18, &[0, 2, 2, 0]),
        ],
    ),
    of_two(
        "line bits 111",
        0,
        3,
        &[
            Given::new(0x00, 0x08, DEGRADED_2),
            Given::new(0x22, 0x2F, DEGRADED_2),
            Given::new(0x22, 0x28, DEGRADED_2),
            Given::new(0x22, 0x27, DEGRADED_2),
            Given::new(0x22, 0x2D, DEGRADED_2),
        ],
    ),
    of_two(
        "line bits 111 and commands",
        0,
        3,
        &[
            Given::new(0xA1, 0x1F, GOOD).commanded(3, 1),
            Given::new(0xA1, 0x1F, GOOD).commanded(2, 0),
            Given::new(0xA1, 0x1F, &[3, 0, 0]),
            Given::new(0xA1, 0x18, GOOD).commanded(1, 0),
        ],
    ),
    of_two(
        "no wait",
        0,
        0,
        &[
            Given::new(0x00, 0x08, DEGRADED_2),
            Given::new(0x22, 0x28, DEGRADED_2),
            Given::new(0x22, 0x28, GOOD),
        ],
    ),
    Sequence {
        name: "channel 14",
        settings: Settings::new(14, 1 << 13, 3),
        steps: &[
            Given::new(0x00, 0x08, FAILED_14),
            Given::new(0x2E, 0xE8, FAILED_14),
            Given::new(0x2E, 0xE8, DEGRADED_14),
            Given::new(0x2E, 0xE8, GOOD_OF_14),
            Given::new(0xAF, 0x08, GOOD_OF_14),
            Given::new(0xEE, 0xE8, GOOD_OF_14),
            Given::new(0x00, 0x08, GOOD_OF_14).commanded(4, 14),
        ],
    },
    of_two(
        "commands",
        0,
        3,
        &[
            Given::new(0x00, 0x08, GOOD).commanded(4, 2),
            Given::new(0x22, 0x28, GOOD),
            Given::new(0x22, 0x28, GOOD).commanded(4, 1),
            Given::new(0x22, 0x28, GOOD).commanded(3, 1),
            Given::new(0x21, 0x18, GOOD).commanded(3, 1),
            Given::new(0x21, 0x18, GOOD).commanded(2, 0),
            Given::new(0x20, 0x08, GOOD),
            Given::new(0x20, 0x08, GOOD).commanded(1, 0),
            Given::new(0x00, 0x08, GOOD),
        ],
    ),
    of_two(
        "clear ends the wait",
        0,
        3,
        &[
            Given::new(0x00, 0x08, &[0, 1, 0]),
            Given::new(0x21, 0x18, GOOD),
            Given::new(0x21, 0x18, GOOD).commanded(1, 0),
            Given::new(0x21, 0x18, GOOD),
        ],
    ),
];

const FAILED_0: &[u8] = &[2, 0, 0];
const FAILED_1: &[u8] = &[0, 2, 0];

/// The pair 00 08 is received, and no command given.
const fn idle(conditions: &'static [u8]) -> Given<'static> {
    Given::new(0x00, 0x08, conditions)
}

/// What becomes of a command that is outranked, or replaced. Each is gone through by an
/// end with hold, and then by one without (02, g).
const OUTRANKED: [Sequence; 4] = [
    of_two(
        "a forced switch under a failed section 0",
        0,
        3,
        &[
            idle(GOOD).commanded(3, 1),
            idle(FAILED_0),
            idle(FAILED_0),
            idle(GOOD),
        ],
    ),
    of_two(
        "a manual switch behind a failed section",
        0,
        3,
        &[
            idle(FAILED_1).commanded(4, 2),
            idle(FAILED_1),
            idle(GOOD),
            idle(GOOD),
        ],
    ),
    of_two(
        "a lockout over a forced switch",
        0,
        3,
        &[
            idle(GOOD).commanded(3, 1),
            idle(GOOD).commanded(2, 0),
            idle(GOOD).commanded(1, 0),
            idle(GOOD),
        ],
    ),
    of_two(
        "a second command while the first is overridden",
        0,
        3,
        &[
            idle(GOOD).commanded(4, 1),
            idle(FAILED_0).commanded(4, 2),
            idle(FAILED_0).commanded(3, 2),
            idle(GOOD),
            idle(GOOD).commanded(1, 0),
        ],
    ),
];

pub(super) fn write(out: &mut impl Write) -> io::Result<()> {
    writeln!(
        out,
        "the paper's sequences, a line per step: received, conditions, command, channel: \
         refusal, K1 K2, bridge, selector, mark, fate"
    )?;
    let both = OUTRANKED.iter().flat_map(|&sequence| {
        let settings = sequence.settings.with_hold();
        [
            Sequence {
                settings,
                ..sequence
            },
            sequence,
        ]
    });
    SEQUENCES
        .into_iter()
        .chain(both)
        .try_for_each(|sequence| write_sequence(out, sequence))
}

fn write_sequence(out: &mut impl Write, sequence: Sequence) -> io::Result<()> {
    let Sequence { name, settings, .. } = sequence;
    let Settings { n, mask, w, .. } = settings;
    let hold = if settings.options == HOLD {
        " hold"
    } else {
        ""
    };
    writeln!(out, "{name}: n {n} mask {mask} W {w}{hold}")?;
    let mut record = fresh(settings);
    for &given in sequence.steps {
        let answer = given.step(record);
        write_step(out, given, &answer)?;
        record = answer.record;
    }
    Ok(())
}

fn write_step(out: &mut impl Write, given: Given, answer: &Answer) -> io::Result<()> {
    let [k1, k2] = given.received;
    write!(out, "{k1:02X} {k2:02X} ")?;
    for condition in given.conditions {
        write!(out, "{condition}")?;
    }
    write!(out, " {} {}: ", given.command, given.channel)?;
    let [refusal, k1, k2, bridge, selector, mark, fate] = numbers(answer);
    writeln!(
        out,
        "{refusal} {k1:02X} {k2:02X} {bridge} {selector} {mark} {fate}"
    )
}

#[cfg(test)]
mod tests {
    use super::*;
    use crate::block::printed;

    #[test]
    fn titles_and_steps_have_their_form() {
        let text = printed(write);
        for lines in [
            "P1: n 2 mask 0 W 3\n00 08 000 0 0: 0 00 08 0 0 0 0",
            "P10: n 2 mask 0 W 3\n00 08 200 3 1: 0 D0 08 0 0 0 2",
            "channel 14: n 14 mask 8192 W 3\n00 08 000000000000002 0 0: 0 DE 08 0 0 0 0",
            "AF 08 000000000000000 0 0: 0 6E E8 14 14 4 0",
        ] {
            assert!(text.contains(&format!("\n{lines}\n")), "{lines}");
        }
    }

    /// P8 and P9: the same input four times over, told apart by the wait alone.
    #[test]
    fn each_step_starts_where_the_one_before_ended() {
        let text = printed(write);
        let waiting = "22 28 000 0 0: 0 62 28 2 2 0 0\n";
        let ended = "22 28 000 0 0: 0 00 28 2 0 0 0\n";
        assert!(text.contains(&[waiting, waiting, waiting, ended].concat()));
    }

    /// By hand from 02 d and rules 3 to 7.
    #[test]
    fn ties_are_decided_by_who_came_first() {
        let expected = "\
P13: n 2 mask 0 W 3
00 08 002 0 0: 0 C2 08 0 0 0 0
00 08 022 0 0: 0 C2 08 0 0 0 0
first come stays: n 3 mask 0 W 3
00 08 0020 0 0: 0 C2 08 0 0 0 0
00 08 0220 0 0: 0 C2 08 0 0 0 0
22 28 0220 0 0: 0 C2 28 2 2 0 0
no claim after RR: n 3 mask 0 W 3
00 08 0020 0 0: 0 C2 08 0 0 0 0
E3 08 0220 0 0: 0 23 38 3 0 0 0
00 08 0220 0 0: 0 C1 08 0 0 0 0
the tie of section 0: n 3 mask 1 W 3
00 08 0100 0 0: 0 B1 08 0 0 0 0
21 18 0100 0 0: 0 B1 18 1 1 0 0
21 18 1100 0 0: 0 B0 08 0 0 0 0
a place is lost: n 3 mask 0 W 3
00 08 0020 0 0: 0 C2 08 0 0 0 0
22 28 0222 0 0: 0 C2 28 2 2 0 0
22 28 0202 0 0: 0 C1 08 0 0 0 0
22 28 0222 0 0: 0 C1 08 0 0 0 0
between the ends: n 3 mask 0 W 3
00 08 0020 0 0: 0 C2 08 0 0 0 0
C1 08 0220 0 0: 0 21 18 1 0 0 0
C1 18 0220 0 0: 0 C1 18 1 1 0 0
";
        assert!(printed(write).contains(expected));
    }

    /// By hand from 02, c: what counts is that section 0 acts as failed, that it does
    /// so for the step of the alarm alone, and that neither bit 5 as 0 nor other line
    /// bits do the same.
    #[test]
    fn line_bits_111_stand_behind_the_ties() {
        let expected = "\
C1 18 0220 0 0: 0 C1 18 1 1 0 0
line bits 111: n 2 mask 0 W 3
00 08 001 0 0: 0 A2 08 0 0 0 0
22 2F 001 0 0: 0 D0 08 0 0 0 0
22 28 001 0 0: 0 A2 28 2 2 0 0
22 27 001 0 0: 0 A2 28 2 2 1 0
22 2D 001 0 0: 0 A2 28 2 2 2 0
line bits 111 and commands: n 2 mask 0 W 3
A1 1F 000 3 1: 0 D0 08 0 0 0 2
A1 1F 000 2 0: 0 F0 08 0 0 0 1
A1 1F 300 0 0: 5 00 00 0 0 0 0
A1 18 000 1 0: 0 21 18 1 1 0 1
no wait: n 2 mask 0 W 0
";
        assert!(printed(write).contains(expected));
    }

    /// By hand from 02, g, and rules 2 to 7. Without hold what is not sent in its step is
    /// denied, and after the fault of section 1 there is its wait.
    const OUTRANKED_BY_HAND: &str = "\
a forced switch under a failed section 0: n 2 mask 0 W 3 hold
00 08 000 3 1: 0 E1 08 0 0 0 1
00 08 200 0 0: 0 D0 08 0 0 0 0
00 08 200 0 0: 0 D0 08 0 0 0 0
00 08 000 0 0: 0 E1 08 0 0 0 0
a forced switch under a failed section 0: n 2 mask 0 W 3
00 08 000 3 1: 0 E1 08 0 0 0 1
00 08 200 0 0: 0 D0 08 0 0 0 0
00 08 200 0 0: 0 D0 08 0 0 0 0
00 08 000 0 0: 0 00 08 0 0 0 0
a manual switch behind a failed section: n 2 mask 0 W 3 hold
00 08 020 4 2: 0 C1 08 0 0 0 1
00 08 020 0 0: 0 C1 08 0 0 0 0
00 08 000 0 0: 0 82 08 0 0 0 0
00 08 000 0 0: 0 82 08 0 0 0 0
a manual switch behind a failed section: n 2 mask 0 W 3
00 08 020 4 2: 0 C1 08 0 0 0 2
00 08 020 0 0: 0 C1 08 0 0 0 0
00 08 000 0 0: 0 61 08 0 0 0 0
00 08 000 0 0: 0 61 08 0 0 0 0
a lockout over a forced switch: n 2 mask 0 W 3 hold
00 08 000 3 1: 0 E1 08 0 0 0 1
00 08 000 2 0: 0 F0 08 0 0 0 1
00 08 000 1 0: 0 00 08 0 0 0 1
00 08 000 0 0: 0 00 08 0 0 0 0
a lockout over a forced switch: n 2 mask 0 W 3
00 08 000 3 1: 0 E1 08 0 0 0 1
00 08 000 2 0: 0 F0 08 0 0 0 1
00 08 000 1 0: 0 00 08 0 0 0 1
00 08 000 0 0: 0 00 08 0 0 0 0
a second command while the first is overridden: n 2 mask 0 W 3 hold
00 08 000 4 1: 0 81 08 0 0 0 1
00 08 200 4 2: 0 D0 08 0 0 0 2
00 08 200 3 2: 0 D0 08 0 0 0 1
00 08 000 0 0: 0 E2 08 0 0 0 0
00 08 000 1 0: 0 00 08 0 0 0 1
a second command while the first is overridden: n 2 mask 0 W 3
00 08 000 4 1: 0 81 08 0 0 0 1
00 08 200 4 2: 0 D0 08 0 0 0 2
00 08 200 3 2: 0 D0 08 0 0 0 2
00 08 000 0 0: 0 00 08 0 0 0 0
00 08 000 1 0: 0 00 08 0 0 0 1
";

    /// Each with hold and without, at the end of the block.
    #[test]
    fn commands_that_are_outranked_come_last() {
        let text = printed(write);
        assert!(text.ends_with(OUTRANKED_BY_HAND), "{text}");
        let before = text.len() - OUTRANKED_BY_HAND.len();
        assert!(text[..before].ends_with("21 18 000 0 0: 0 00 18 1 0 0 0\n"));
    }
}
