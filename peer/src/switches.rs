//! The switches of a capture (paper: 02, e): the steps at which another K1 is sent than
//! in the step before, the list of them, and the last of them at or before a step.
//!
//! Neither the settings nor any other byte of a step has a part in it, so that a line
//! without an explanation has its list as well.
//!
//! A list that is handed in is not believed: it is held against the capture first, and
//! for that the steps it is of have to be gone through once. What is looked up in it
//! afterwards takes next to nothing.

pub mod table;

use crate::judge::{rows_of, Row};

/// Refusals 12, 13 and 16. The two before them, 8 and 9, are those of a capture.
const NO_ROOM: u8 = 12;
const NOT_IN_CAPTURE: u8 = 13;
const OTHER_LIST: u8 = 16;

/// What counts as sent before the first step.
const SENT_BEFORE: u8 = 0x00;

fn sent(&[_, _, k1, _]: &Row) -> u8 {
    k1
}

/// The steps at which the sent K1 changes, in rising order.
pub fn changes(rows: &[Row]) -> impl Iterator<Item = u16> + '_ {
    changes_from(0, rows)
}

/// Those among the steps from `first` on, which is not past the end. It is 16,384 at
/// most, as the steps of a capture are.
fn changes_from(first: usize, rows: &[Row]) -> impl Iterator<Item = u16> + '_ {
    let (earlier, later) = rows.split_at(first);
    let mut before = earlier.last().map_or(SENT_BEFORE, sent);
    (first as u16..).zip(later).filter_map(move |(step, row)| {
        let is_change = sent(row) != before;
        before = sent(row);
        is_change.then_some(step)
    })
}

/// Puts the changes behind the first `listed` steps into the table, behind its first
/// `count` entries, which are to be the changes among those steps. Answers how many
/// changes the capture has, or the paper's number for the refusal. The order of the
/// checks is 8, 9, 13, 16, 12, and nothing is written before the last of them.
pub fn extend(capture: &[u8], listed: u16, count: u16, table: &mut [u16]) -> Result<u16, u8> {
    let rows = rows_of(capture)?;
    let (listed, count) = (usize::from(listed), usize::from(count));
    let known = rows.get(..listed).ok_or(NOT_IN_CAPTURE)?;
    let (list, free) = table.split_at_mut_checked(count).ok_or(OTHER_LIST)?;
    if !is_list_of(known, list) {
        return Err(OTHER_LIST);
    }
    let added = changes_from(listed, rows).count();
    let entries = free.get_mut(..added).ok_or(NO_ROOM)?;
    for (entry, step) in entries.iter_mut().zip(changes_from(listed, rows)) {
        *entry = step;
    }
    // As many as there are steps at most, which 16 bits hold.
    Ok((count + added) as u16)
}

/// The last change at or before a step, if there is one. The list is to be that of the
/// whole capture, whatever part of it the answer needs. The order of the checks is 8, 9,
/// 13, 16.
pub fn last_change(capture: &[u8], list: &[u16], step: u16) -> Result<Option<u16>, u8> {
    let rows = rows_of(capture)?;
    if usize::from(step) >= rows.len() {
        return Err(NOT_IN_CAPTURE);
    }
    if !is_list_of(rows, list) {
        return Err(OTHER_LIST);
    }
    let behind = list.partition_point(|&change| change <= step);
    Ok(list[..behind].last().copied())
}

fn is_list_of(rows: &[Row], list: &[u16]) -> bool {
    changes(rows).eq(list.iter().copied())
}

#[cfg(test)]
mod tests;
