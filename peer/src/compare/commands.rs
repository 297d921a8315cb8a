//! What befalls the command of an end with hold (02, g), as it is counted of steps.

use super::handed::Handed;
use super::tally::Tally;
use crate::books::pairs::is_command;
use crate::door::{record_of, RECORD, STEP};
use crate::settings::HOLD;

/// A command waits if it is held and was not what was last sent.
pub const KINDS: [&str; 8] = [
    "hold",
    "taken and not sent",
    "goes on waiting",
    "comes back",
    "replaced while it waits",
    "denied while one waits",
    "cleared while it waits",
    "without hold, outranked",
];

/// Those, and others behind them.
pub const fn with_kinds<const OTHERS: usize, const ALL: usize>(
    others: [&'static str; OTHERS],
) -> [&'static str; ALL] {
    let mut all = [""; ALL];
    let mut place = 0;
    while place < ALL {
        all[place] = if place < KINDS.len() {
            KINDS[place]
        } else {
            others[place - KINDS.len()]
        };
        place += 1;
    }
    all
}

/// Of a step that was not refused, by the record before it and what it answered.
pub fn count(tally: &mut Tally, before: &[u8; RECORD], handed: Handed, answered: &[u8; STEP]) {
    let before = record_of(before);
    let after = record_of(answered[1..].first_chunk().expect("a record"));
    let sent = answered[RECORD + 1];
    let fate = answered[STEP - 1];
    let holds = before.options == HOLD;
    let is_new = handed.command > 1;
    let waited = before.held != 0x00 && before.held != before.sent;
    let kept = waited && after.held == before.held;
    tally.count_those([
        (0, holds),
        (1, holds && is_new && fate == 1 && after.held != sent),
        (2, kept && sent != before.held),
        (3, kept && sent == before.held),
        (4, waited && is_new && fate == 1),
        (5, waited && is_new && fate == 2),
        (6, waited && handed.command == 1),
        (7, !holds && is_command(before.sent) && !is_command(sent)),
    ]);
}

/// With hold a command was last sent, and none is held: no step leaves such a record, and
/// every step takes it.
pub fn is_sent_alone(record: &[u8; RECORD]) -> bool {
    let record = record_of(record);
    record.options == HOLD && is_command(record.sent) && record.held == 0x00
}

#[cfg(test)]
mod tests {
    use super::*;
    use crate::controller::Record;
    use crate::door::{record_bytes, Door, Peer};
    use crate::settings::Settings;

    /// The kinds of one step of a group of two, in which section 0 has failed or not.
    fn kinds(options: u8, [sent, held]: [u8; 2], failed: bool, command: (u8, u8)) -> Vec<usize> {
        let record = Record {
            options,
            sent,
            held,
            ..Settings::new(2, 0, 3).fresh()
        };
        let before = record_bytes(&record);
        let handed = Handed {
            received: [0x00, 0x08],
            count: 3,
            command: command.0,
            channel: command.1,
        };
        let conditions = [if failed { 2 } else { 0 }, 0, 0];
        let mut out = [0; STEP];
        let refusal = Peer.step(
            &before,
            handed.received,
            &conditions,
            handed.command,
            handed.channel,
            &mut out,
        );
        assert_eq!(refusal, 0);
        let mut tally = Tally::default();
        count(&mut tally, &before, handed, &out);
        (0..KINDS.len())
            .filter(|&kind| tally.kinds[kind] > 0)
            .collect()
    }

    #[test]
    fn steps_are_counted_as_by_hand() {
        for (options, before, failed, command, expected) in [
            (0, [0x00, 0x00], false, (0, 0), &[][..]),
            (0, [0x00, 0x00], true, (3, 1), &[]),
            (0, [0xE1, 0x00], true, (0, 0), &[7]),
            (1, [0x00, 0x00], false, (0, 0), &[0]),
            (1, [0x00, 0x00], false, (3, 1), &[0]),
            (1, [0x00, 0x00], true, (3, 1), &[0, 1]),
            (1, [0xE1, 0xE1], false, (0, 0), &[0]),
            (1, [0xE1, 0xE1], true, (3, 2), &[0]),
            (1, [0xD0, 0xE1], true, (0, 0), &[0, 2]),
            (1, [0xD0, 0xE1], false, (0, 0), &[0, 3]),
            (1, [0xD0, 0x81], true, (3, 2), &[0, 1, 4]),
            (1, [0xD0, 0x81], false, (3, 2), &[0, 4]),
            (1, [0xD0, 0xE1], true, (3, 2), &[0, 2, 5]),
            (1, [0xD0, 0xE1], false, (4, 2), &[0, 3, 5]),
            (1, [0xD0, 0xE1], true, (1, 0), &[0, 6]),
            (1, [0xE1, 0x00], false, (0, 0), &[0]),
        ] {
            let found = kinds(options, before, failed, command);
            assert_eq!(found, expected, "{options} {before:02X?} {command:?}");
        }
    }

    #[test]
    fn records_with_a_command_last_sent_and_none_held() {
        for (options, sent, held, expected) in [
            (0, 0xE1, 0x00, false),
            (1, 0xE1, 0x00, true),
            (1, 0xF0, 0x00, true),
            (1, 0x82, 0x00, true),
            (1, 0xE1, 0xE1, false),
            (1, 0xD0, 0x00, false),
        ] {
            let record = Record {
                options,
                sent,
                held,
                ..Settings::new(2, 0, 3).fresh()
            };
            assert_eq!(is_sent_alone(&record_bytes(&record)), expected);
        }
    }
}
