//! Libraries that find causes otherwise than this reading, by the names of what is wrong
//! with them.

use super::*;
use crate::door::Tables;
use crate::judge::Row;

const NEVER_FAILS: &str = "section 0 never fails under LO";
const ALWAYS_FAILS: &str = "section 0 fails under every LO";
const NO_CLEAR: &str = "nothing is cleared";
const ALWAYS_CLEAR: &str = "a clear is given in place of no command";
const NOT_GIVEN: &str = "a command is not given";
const BIT_ABOVE: &str = "section n + 1 has a condition";
const FLAG_LEFT: &str = "the highest bit of the conditions is set";
const WORSE_THAN_FAILED: &str = "a condition is 3";
const FIFTH_COMMAND: &str = "there is a command 5";
const CHANNEL_OF_NONE: &str = "no command has a channel";
const CHANNEL_ABOVE: &str = "a command is for section n + 1";
const BYTES_SWAPPED: &str = "the channel stands in the upper byte";
const SECTIONS_TURNED: &str = "section n is lowest";
const ONE_LATE: &str = "each cause stands at the next step";
const LAST_LEFT: &str = "the last step is left out";

/// The words of an explained capture are not right.
const WORDS: [&str; 15] = [
    NEVER_FAILS,
    ALWAYS_FAILS,
    NO_CLEAR,
    ALWAYS_CLEAR,
    NOT_GIVEN,
    BIT_ABOVE,
    FLAG_LEFT,
    WORSE_THAN_FAILED,
    FIFTH_COMMAND,
    CHANNEL_OF_NONE,
    CHANNEL_ABOVE,
    BYTES_SWAPPED,
    SECTIONS_TURNED,
    ONE_LATE,
    LAST_LEFT,
];

const CONDITIONS_BEHIND: &str = "a word of conditions behind the last is written";
const COMMAND_BEHIND: &str = "a word of command behind the last is written";
const UNEXPLAINED_WRITES: &str = "words of an unexplained capture are written";
const ONE_FLAG_LEFT: &str = "one word of an unexplained capture is another";
const REFUSED_WRITES: &str = "words are written as far as they go";
const NO_WORDS: &str = "nothing is written";

/// More is written than is to be, or less.
const WRITING: [&str; 6] = [
    CONDITIONS_BEHIND,
    COMMAND_BEHIND,
    UNEXPLAINED_WRITES,
    ONE_FLAG_LEFT,
    REFUSED_WRITES,
    NO_WORDS,
];

const CONDITIONS_ALONE: &str = "11 is asked for the conditions alone";
const COMMANDS_ALONE: &str = "11 is asked for the commands alone";
const BOTH_SHORT: &str = "11 is asked for both tables together";
const VERDICT_FIRST: &str = "11 is asked for explained captures alone";
const BEFORE_LENGTH: &str = "11 comes before 8 and 9";
const BEFORE_ALL: &str = "11 comes first";
const ONE_MORE: &str = "tables are to be longer than the steps";
const ROOM_CUT: &str = "of a room 16 bits are looked at";
const ROOM_IN_BYTES: &str = "rooms are taken for bytes";
const VERDICT_KEPT: &str = "a refused call answers a verdict";

/// It is refused otherwise.
const REFUSING: [&str; 10] = [
    CONDITIONS_ALONE,
    COMMANDS_ALONE,
    BOTH_SHORT,
    VERDICT_FIRST,
    BEFORE_LENGTH,
    BEFORE_ALL,
    ONE_MORE,
    ROOM_CUT,
    ROOM_IN_BYTES,
    VERDICT_KEPT,
];

/// Nothing is wrong with this one.
const OTHER_CAUSES: &str = "other causes that are as good";

const CLEAR: u16 = 0x0100;
const LOCKOUT: u8 = 0xF0;
const FORCED: u16 = 0x0300;

pub fn fill(
    wrong: &str,
    settings: Settings,
    capture: &[u8],
    tables: Tables,
    out: &mut [u8; VERDICT],
) -> u8 {
    let (conditions, commands) = (tables.conditions, tables.commands);
    let before = (conditions.to_vec(), commands.to_vec());
    let refusal = find(wrong, settings, capture, (conditions, commands), out);
    let (rows, _) = capture.as_chunks();
    match (refusal, out[0]) {
        (0, 1) => spoil_words(wrong, settings.n, rows, (conditions, commands), &before),
        (0, _) => spoil_unexplained(wrong, rows, conditions, commands),
        _ => {
            return refuse(
                wrong,
                refusal,
                settings,
                capture,
                (conditions, commands),
                out,
            )
        }
    }
    0
}

/// The causes by this reading, with other rooms in place of those that there are.
fn find(
    wrong: &str,
    settings: Settings,
    capture: &[u8],
    (conditions, commands): Words,
    out: &mut [u8; VERDICT],
) -> u8 {
    let [first, second] = rooms(wrong, capture, [conditions.len(), commands.len()]);
    let (mut words, mut orders) = (conditions.to_vec(), commands.to_vec());
    words.resize(first, 0);
    orders.resize(second, 0);
    let lent = Tables {
        conditions: &mut words,
        commands: &mut orders,
    };
    let refusal = hold::causes(wrong, settings, capture, lent, out);
    copy(&words, conditions);
    copy(&orders, commands);
    refusal
}

/// As far as both go.
fn copy<T: Copy>(from: &[T], to: &mut [T]) {
    for (word, &new) in to.iter_mut().zip(from) {
        *word = new;
    }
}

/// What such a library takes for the rooms of the tables.
fn rooms(wrong: &str, capture: &[u8], [conditions, commands]: [usize; 2]) -> [usize; 2] {
    let steps = capture.len() / STEP_BYTES;
    match wrong {
        CONDITIONS_ALONE => [conditions, commands.max(steps)],
        COMMANDS_ALONE => [conditions.max(steps), commands],
        BOTH_SHORT => [conditions.max(commands); 2],
        ONE_MORE => [conditions.saturating_sub(1), commands.saturating_sub(1)],
        ROOM_CUT => [conditions % 65_536, commands % 65_536],
        ROOM_IN_BYTES => [conditions / 4, commands / 2],
        _ => [conditions, commands],
    }
}

type Words<'a> = (&'a mut [u32], &'a mut [u16]);

fn spoil_words(
    wrong: &str,
    n: u8,
    rows: &[Row],
    (conditions, commands): Words,
    before: &(Vec<u32>, Vec<u16>),
) {
    let steps = rows.len();
    match (wrong, conditions.get_mut(steps), commands.get_mut(steps)) {
        (CONDITIONS_BEHIND, Some(word), _) => *word ^= 2,
        (COMMAND_BEHIND, _, Some(word)) => *word ^= CLEAR,
        _ => {}
    }
    // Where a room is not looked at there may be fewer.
    let tables = conditions.get_mut(..steps).zip(commands.get_mut(..steps));
    let Some((conditions, commands)) = tables else {
        return;
    };
    match wrong {
        ONE_LATE if steps > 0 => {
            conditions.rotate_right(1);
            commands.rotate_right(1);
        }
        LAST_LEFT if steps > 0 => {
            conditions[steps - 1] = before.0[steps - 1];
            commands[steps - 1] = before.1[steps - 1];
        }
        NO_WORDS => {
            conditions.copy_from_slice(&before.0[..steps]);
            commands.copy_from_slice(&before.1[..steps]);
        }
        _ => {}
    }
    for ((row, conditions), command) in rows.iter().zip(conditions).zip(commands) {
        spoil_conditions(wrong, n, row[2], conditions);
        spoil_command(wrong, n, row[2], command);
    }
}

fn spoil_conditions(wrong: &str, n: u8, sent: u8, conditions: &mut u32) {
    let turned =
        || (0..=n).map(|section| (*conditions >> (2 * section) & 3) << (2 * (n - section)));
    let of_all = |condition: u32| {
        (1..=n)
            .map(|section| condition << (2 * section))
            .sum::<u32>()
    };
    match (wrong, sent) {
        (NEVER_FAILS, LOCKOUT) => *conditions = 0,
        (ALWAYS_FAILS, LOCKOUT) => *conditions = 2,
        (BIT_ABOVE, _) => *conditions |= 1 << (2 * (n + 1)),
        (FLAG_LEFT, _) => *conditions |= 1 << 31,
        (WORSE_THAN_FAILED, _) => *conditions |= *conditions >> 1,
        (SECTIONS_TURNED, _) => *conditions = turned().sum(),
        // No section is heard above LO, and none that is degraded above FS.
        (OTHER_CAUSES, LOCKOUT) => *conditions |= of_all(2),
        (OTHER_CAUSES, 0xE1..=0xEE) => *conditions |= of_all(1) | 1,
        _ => {}
    }
}

fn spoil_command(wrong: &str, n: u8, sent: u8, command: &mut u16) {
    match (wrong, *command) {
        (NO_CLEAR, CLEAR) | (NOT_GIVEN, 0x0200..) => *command = 0,
        (ALWAYS_CLEAR, 0) => *command = CLEAR,
        (FIFTH_COMMAND, 0) => *command = 0x0500,
        (CHANNEL_OF_NONE, 0) => *command = 0x0001,
        (CHANNEL_ABOVE, FORCED..) => *command = *command & 0xFF00 | u16::from(n + 1),
        (BYTES_SWAPPED, _) => *command = command.swap_bytes(),
        // Given once more it is denied, and the one that is held is sent.
        (OTHER_CAUSES, 0) if sent >> 4 == 0xE => *command = FORCED | u16::from(sent & 0xF),
        _ => {}
    }
}

fn spoil_unexplained(wrong: &str, rows: &[Row], conditions: &mut [u32], commands: &mut [u16]) {
    match wrong {
        UNEXPLAINED_WRITES => {
            conditions[..rows.len()].fill(0);
            commands[..rows.len()].fill(0);
        }
        ONE_FLAG_LEFT => conditions[rows.len() / 2] ^= 1 << 31,
        _ => {}
    }
}

/// What is refused otherwise, or not at all.
fn refuse(
    wrong: &str,
    refusal: u8,
    settings: Settings,
    capture: &[u8],
    (conditions, commands): Words,
    out: &mut [u8; VERDICT],
) -> u8 {
    let steps = capture.len() / STEP_BYTES;
    let is_short = conditions.len() < steps || commands.len() < steps;
    let mut judged = [0; VERDICT];
    Peer.judge(settings, capture, &mut judged);
    match (wrong, refusal) {
        (REFUSED_WRITES, 11) => {
            conditions.fill(0);
            commands.fill(0);
        }
        (VERDICT_FIRST, 11) if judged[0] == 2 => {
            *out = judged;
            return 0;
        }
        (VERDICT_KEPT, 11) => *out = judged,
        (BEFORE_LENGTH, 8 | 9) | (BEFORE_ALL, _) if is_short => return 11,
        _ => {}
    }
    refusal
}

const FINDING: [&str; 3] = ["causes, drawn", "causes, of the books", "causes, refused"];

#[test]
fn a_library_whose_words_are_wrong_is_noticed() {
    for wrong in WORDS {
        let tally = part_of(FINDING[0], &Fake { wrong });
        assert!(tally.differences >= 20, "{wrong}: {}", tally.differences);
        assert!(tells(&tally, "of the library"), "{wrong}");
        assert!(!tells(&tally, "of the peer"), "{wrong}");
    }
}

#[test]
fn a_library_that_writes_otherwise_is_noticed() {
    for wrong in WRITING {
        let differences = differences_of(&[FINDING[0], FINDING[2]], wrong);
        assert!(differences >= 20, "{wrong}: {differences}");
    }
}

#[test]
fn a_library_that_refuses_otherwise_is_noticed() {
    for wrong in REFUSING {
        let differences = differences_of(&[FINDING[2]], wrong);
        assert!(differences >= 5, "{wrong}: {differences}");
    }
}

/// The words differ, and all the same there is no difference.
#[test]
fn other_causes_are_as_good() {
    let wrong = OTHER_CAUSES;
    let capture = [0x00, 0x08, 0xE1, 0x08].repeat(2);
    let (mut words, mut orders) = ([7; 2], [7; 2]);
    let tables = Tables {
        conditions: &mut words,
        commands: &mut orders,
    };
    let mut out = [0; VERDICT];
    let settings = Settings::new(2, 0, 3);
    assert_eq!(fill(wrong, settings, &capture, tables, &mut out), 0);
    assert_eq!((words, orders), ([0b01_01_01; 2], [0x0301; 2]));
    for name in FINDING {
        let tally = part_of(name, &Fake { wrong });
        assert_eq!(tally.differences, 0, "{name}: {:?}", tally.told);
    }
}

/// The judge of a library, and not only that of this reading, says what is explained.
#[test]
fn a_verdict_that_is_not_that_of_the_judge_is_noticed() {
    let tally = part_of(FINDING[0], &Fake { wrong: "judge" });
    assert!(tells(&tally, "not what the paper says"));
    assert_eq!(tally.differences, tally.calls);
}

#[test]
fn causes_come_by_what_they_are_for() {
    assert_come_by_what_they_are_for(&FINDING);
}
