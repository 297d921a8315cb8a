//! Short captures whose last step sends every K1 there is.

use super::capture::{row, Capture};
use super::pairs::{IDLE, UNUSABLE};
use crate::judge::Row;
use crate::settings::Settings;

/// Steps before the last one, and the pair that is received in it.
type Start = (&'static [Row], [u8; 2]);

const FRESH: Start = (&[], IDLE);
const AFTER_FAIL: Start = (&[[0x00, 0x08, 0xC1, 0x08]], [0x21, 0x18]);
/// The accepted pair has two possible values here.
const AFTER_LOCKOUT: Start = (&[[0x81, 0x08, 0xF0, 0x08]], UNUSABLE);

/// An alarm, where the accepted pair would have the bridge.
const AT_ALARM: Start = (&[[0x81, 0x08, 0x21, 0x18]], [0x81, 0x0F]);
/// The accepted pair would have two possible values here, but for the alarm.
const AFTER_ALARM: Start = (
    &[[0x81, 0x08, 0xF0, 0x08], [0x81, 0x0F, 0xF0, 0x08]],
    UNUSABLE,
);

const STARTS: [(Start, &[u8]); 5] = [
    (FRESH, &[0x08, 0x18, 0x28, 0x0E]),
    (AFTER_FAIL, &[0x08, 0x18]),
    (AFTER_LOCKOUT, &[0x08, 0x18]),
    (AT_ALARM, &[0x08, 0x18]),
    (AFTER_ALARM, &[0x08, 0x18]),
];

pub fn captures() -> Vec<Capture> {
    [1, 2].into_iter().flat_map(captures_of).collect()
}

fn captures_of(n: u8) -> impl Iterator<Item = Capture> {
    let settings = Settings::new(n, 0, 1);
    STARTS
        .into_iter()
        .flat_map(|(start, k2s)| k2s.iter().map(move |&k2| (start, k2)))
        .flat_map(|(start, k2)| (0..=u8::MAX).map(move |k1| (start, [k1, k2])))
        .map(move |((before, received), sent)| {
            Capture::new(settings, [before, &[row(received, sent)]].concat())
        })
}

#[cfg(test)]
mod tests {
    use super::*;
    use crate::judge::Verdict;
    use std::collections::BTreeSet;

    /// What is sent last in the captures of two sections that begin so and are
    /// explained.
    fn explained((before, [k1, k2]): Start) -> BTreeSet<[u8; 2]> {
        captures_of(2)
            .filter(|capture| capture.rows.len() == before.len() + 1)
            .filter(|capture| capture.judged() == Verdict::Explained(capture.rows.len()))
            .filter_map(|capture| capture.rows.last().copied())
            .filter(|row| row[..2] == [k1, k2])
            .map(|[.., sent_k1, sent_k2]| [sent_k1, sent_k2])
            .collect()
    }

    // All typed in by hand from the rules.

    const SENT_FRESH: [[u8; 2]; 12] = [
        [0xA1, 0x08],
        [0xA2, 0x08],
        [0xB0, 0x08],
        [0xC1, 0x08],
        [0xC2, 0x08],
        [0xD0, 0x08],
        [0xE1, 0x08],
        [0xE2, 0x08],
        [0xF0, 0x08],
        [0x81, 0x08],
        [0x82, 0x08],
        [0x00, 0x08],
    ];

    /// RR 1 is accepted, so channel 1 has the bridge. Or section 0 has failed, and
    /// nothing but D0 and LO can be sent.
    const SENT_AFTER_FAIL: [[u8; 2]; 13] = [
        [0xA1, 0x18],
        [0xC1, 0x18],
        [0xE1, 0x18],
        [0x81, 0x18],
        [0x61, 0x18],
        [0x00, 0x18],
        [0xA2, 0x08],
        [0xB0, 0x08],
        [0xC2, 0x08],
        [0xD0, 0x08],
        [0xE2, 0x08],
        [0xF0, 0x08],
        [0x82, 0x08],
    ];

    /// LO is held, so there is no new command. A clear leaves MS 1 accepted, or
    /// 00 08.
    const SENT_AFTER_LOCKOUT: [[u8; 2]; 11] = [
        [0xF0, 0x08],
        [0xD0, 0x08],
        [0x21, 0x18],
        [0xA1, 0x18],
        [0xC1, 0x18],
        [0xA1, 0x08],
        [0xC1, 0x08],
        [0xA2, 0x08],
        [0xB0, 0x08],
        [0xC2, 0x08],
        [0x00, 0x08],
    ];

    /// Section 0 has failed, whatever else the step is (02, c).
    const SENT_AT_ALARM: [[u8; 2]; 2] = [[0xD0, 0x08], [0xF0, 0x08]];

    /// As after lockout, but for what MS 1 would have to be accepted for.
    const SENT_AFTER_ALARM: [[u8; 2]; 8] = [
        [0xF0, 0x08],
        [0xD0, 0x08],
        [0xA1, 0x08],
        [0xC1, 0x08],
        [0xA2, 0x08],
        [0xB0, 0x08],
        [0xC2, 0x08],
        [0x00, 0x08],
    ];

    #[test]
    fn what_can_be_sent_is_what_the_rules_say() {
        assert_eq!(explained(FRESH), SENT_FRESH.into());
        assert_eq!(explained(AFTER_FAIL), SENT_AFTER_FAIL.into());
        assert_eq!(explained(AFTER_LOCKOUT), SENT_AFTER_LOCKOUT.into());
        assert_eq!(explained(AT_ALARM), SENT_AT_ALARM.into());
        assert_eq!(explained(AFTER_ALARM), SENT_AFTER_ALARM.into());
    }

    #[test]
    fn every_k1_is_sent_in_each_way() {
        assert_eq!(captures().len(), 2 * (4 + 2 + 2 + 2 + 2) * 256);
    }
}
