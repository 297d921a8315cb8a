use super::*;
use crate::rows::every_row;

/// A capture in which these are sent. All else is what would show if it were looked at.
fn capture(sent: &[u8]) -> Vec<u8> {
    let row = |(step, &k1): (usize, &u8)| [step as u8, 0x5A ^ step as u8, k1, !step as u8];
    sent.iter().enumerate().flat_map(row).collect()
}

/// As the paper words it.
fn by_definition(sent: &[u8]) -> Vec<u16> {
    let before = |step: usize| if step == 0 { 0 } else { sent[step - 1] };
    (0..sent.len())
        .filter(|&step| sent[step] != before(step))
        .map(|step| step as u16)
        .collect()
}

const FILL: u16 = 0xEEEE;

fn afresh(capture: &[u8]) -> Vec<u16> {
    let mut table = vec![FILL; capture.len() / 4];
    let changes = extend(capture, 0, 0, &mut table).expect("a capture that is not refused");
    table.truncate(changes.into());
    table
}

#[test]
fn changes_by_hand() {
    for (sent, expected) in [
        (&[][..], &[][..]),
        (&[0x00], &[]),
        (&[0xA2], &[0]),
        (&[0x00, 0x00, 0x00], &[]),
        (&[0xA2, 0xA2, 0x62], &[0, 2]),
        (&[0x00, 0xA2, 0x00, 0x00, 0x01], &[1, 2, 4]),
        // The channel alone, or the code alone.
        (&[0xA1, 0xA2, 0xC2], &[0, 1, 2]),
    ] {
        assert_eq!(afresh(&capture(sent)), expected, "{sent:02X?}");
        assert_eq!(by_definition(sent), expected, "{sent:02X?}");
    }
}

/// Of every short capture, from every step that may be listed already: the list is that
/// made afresh, and no entry is written but the new ones.
#[test]
fn a_list_is_extended_to_the_list_made_afresh() {
    for sent in every_row(&[0x00, 0xA1, 0xC2], 6) {
        let capture = capture(&sent);
        let whole = by_definition(&sent);
        assert_eq!(afresh(&capture), whole);
        for listed in 0..=sent.len() {
            let known = by_definition(&sent[..listed]);
            let mut table = vec![FILL; whole.len() + 2];
            table[..known.len()].copy_from_slice(&known);
            let answer = extend(&capture, listed as u16, known.len() as u16, &mut table);
            assert_eq!(answer, Ok(whole.len() as u16));
            assert_eq!(table, [&whole[..], &[FILL; 2]].concat());
        }
    }
}

#[test]
fn refusals_of_an_extension_in_their_order() {
    let three = capture(&[0xA2, 0xA2, 0x62]);
    let long = vec![0; 65_540];
    for (capture, listed, count, table, refusal) in [
        (&three[..11], 4, 3, &[][..], 8),
        (&[0; 65_537], 65_535, 1, &[], 8),
        (&long, 65_535, 1, &[], 9),
        (&three, 4, 1, &[], 13),
        (&three, 65_535, 0, &[FILL; 9], 13),
        (&[], 1, 0, &[], 13),
        // Another list, or one that the table has no room for, before its room.
        (&three, 1, 0, &[], 16),
        (&three, 1, 1, &[], 16),
        (&three, 1, 1, &[1], 16),
        (&three, 1, 2, &[0, 2, FILL], 16),
        (&three, 0, 1, &[0, FILL], 16),
        (&three, 3, 1, &[0, FILL], 16),
        (&three, 0, 0, &[], 12),
        (&three, 0, 0, &[FILL], 12),
        (&three, 2, 1, &[0], 12),
    ] {
        let mut left = table.to_vec();
        let answer = extend(capture, listed, count, &mut left);
        assert_eq!(answer, Err(refusal), "{listed} {count} {table:04X?}");
        assert_eq!(left, table);
    }
}

#[test]
fn the_last_change_of_every_short_capture() {
    for sent in every_row(&[0x00, 0xA1, 0xC2], 6) {
        let capture = capture(&sent);
        let list = by_definition(&sent);
        for step in 0..sent.len() as u16 {
            let expected = list.iter().rev().find(|&&change| change <= step);
            assert_eq!(last_change(&capture, &list, step), Ok(expected.copied()));
        }
        for step in [sent.len() as u16, 65_535] {
            assert_eq!(last_change(&capture, &list, step), Err(13));
        }
    }
}

#[test]
fn refusals_of_a_lookup_in_their_order() {
    let three = capture(&[0xA2, 0xA2, 0x62]);
    let long = vec![0; 65_540];
    for (capture, list, step, expected) in [
        (&three[..11], &[][..], 3, Err(8)),
        (&[0; 65_537], &[], 65_535, Err(8)),
        (&long, &[1], 65_535, Err(9)),
        (&three, &[1], 3, Err(13)),
        (&[], &[], 0, Err(13)),
        (&three, &[], 0, Err(16)),
        (&three, &[0], 1, Err(16)),
        (&three, &[0, 2, 3], 1, Err(16)),
        (&three, &[2, 0], 1, Err(16)),
        (&three, &[0, 2], 1, Ok(Some(0))),
        (&three, &[0, 2], 2, Ok(Some(2))),
    ] {
        assert_eq!(last_change(capture, list, step), expected, "{list:?}");
    }
}

/// With a change a step, and with none: as many steps as a capture can have.
#[test]
fn the_longest_captures_are_listed() {
    let sent: Vec<u8> = (0..16_384).map(|step| 1 + (step % 255) as u8).collect();
    let capture = capture(&sent);
    let list = afresh(&capture);
    assert!(list.iter().copied().eq(0..16_384));
    assert_eq!(last_change(&capture, &list, 16_383), Ok(Some(16_383)));
    assert_eq!(
        extend(&capture, 16_384, 16_384, &mut list.clone()),
        Ok(16_384)
    );
    assert_eq!(extend(&capture, 0, 0, &mut [0; 16_383]), Err(12));
    let still = [0x00; 65_536];
    assert_eq!(extend(&still, 0, 0, &mut []), Ok(0));
    assert_eq!(last_change(&still, &[], 16_383), Ok(None));
}
