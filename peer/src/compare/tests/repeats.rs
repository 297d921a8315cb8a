//! Libraries whose judge passes over rows that it has to look at, by the names of what is
//! wrong with them.

use super::*;
use crate::judge::Row;

const REPEATED_WAIT: &str = "a repeated row of WTR is passed over";
const TWO_BEFORE: &str = "a row equal to the one before the last is passed over";
const SAME_RECEIVED: &str = "a row is passed over if it receives the same";
const SAME_SENT: &str = "a row is passed over if it sends the same";
const ALL_BUT_FIRST_BYTE: &str = "the first byte of a repeated row is not looked at";
const ALL_BUT_LAST_BYTE: &str = "the last byte of a repeated row is not looked at";
const END_OF_BLOCK: &str = "the last of sixteen rows is passed over with them";

const PASSING: [&str; 7] = [
    REPEATED_WAIT,
    TWO_BEFORE,
    SAME_RECEIVED,
    SAME_SENT,
    ALL_BUT_FIRST_BYTE,
    ALL_BUT_LAST_BYTE,
    END_OF_BLOCK,
];

/// Nothing is wrong with this one.
const REPEATED: &str = "a repeated row is passed over unless it is of WTR";

const WAIT: u8 = 0x6;

/// The verdict on the rows that such a library looks at, told of the steps that they have
/// among all of them. What it refuses is refused before.
pub fn judge(wrong: &str, capture: &[u8], out: &mut [u8; VERDICT], judge: Judge) -> u8 {
    let refusal = judge(capture, out);
    if refusal != 0 {
        return refusal;
    }
    let (rows, _) = capture.as_chunks();
    let looked_at = |&step: &usize| !is_passed(wrong, rows, step);
    let mut steps: Vec<usize> = (0..rows.len()).filter(looked_at).collect();
    let left: Vec<Row> = steps.iter().map(|&step| rows[step]).collect();
    // Where all that are left are explained, all are.
    steps.push(rows.len());
    judge(left.as_flattened(), out);
    let [verdict, high, low] = *out;
    let step = steps[usize::from(u16::from_be_bytes([high, low]))];
    let [high, low] = (step as u16).to_be_bytes();
    *out = [verdict, high, low];
    0
}

/// The judge of this reading, for the settings that are given.
type Judge<'a> = &'a dyn Fn(&[u8], &mut [u8; VERDICT]) -> u8;

fn is_passed(wrong: &str, rows: &[Row], step: usize) -> bool {
    let before = |steps: usize| step.checked_sub(steps).map(|before| rows[before]);
    let row @ [_, _, sent, _] = rows[step];
    let Some(last) = before(1) else {
        return false;
    };
    let waits = sent >> 4 == WAIT;
    match wrong {
        REPEATED => row == last && !waits,
        REPEATED_WAIT => row == last && waits,
        TWO_BEFORE => before(2) == Some(row) && !waits,
        SAME_RECEIVED => row[..2] == last[..2] && !waits,
        SAME_SENT => row[2..] == last[2..] && !waits,
        ALL_BUT_FIRST_BYTE => row[1..] == last[1..] && !waits,
        ALL_BUT_LAST_BYTE => row[..3] == last[..3] && !waits,
        END_OF_BLOCK => (2..16).all(|steps| before(steps) == Some(last)) && !waits,
        _ => false,
    }
}

#[test]
fn a_library_that_passes_over_too_much_is_noticed() {
    for wrong in PASSING {
        let found = differences_of(&["judge"], wrong);

        assert!(found >= 3, "{wrong}: {found}");
    }
}

#[test]
fn repeated_rows_may_be_passed_over() {
    assert_eq!(differences_of(&["judge"], REPEATED), 0);
}
