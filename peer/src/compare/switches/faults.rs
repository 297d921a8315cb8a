//! What the paper says of an extension and of a lookup (02, e), without regard to what
//! it takes: every fault by itself, whatever others there are.

use super::{Extension, Lookup};
use crate::book::{MOST_BYTES, STEP_BYTES};
use crate::compare::faults::{present, NOT_WHOLE_STEPS, TOO_LONG};
use crate::door::{CHANGE, CHANGES};

const NO_ROOM: u8 = 12;
const NOT_IN_CAPTURE: u8 = 13;
pub const OTHER_LIST: u8 = 16;

/// The refusals in the order in which they are asked for.
pub const EXTENSION_ORDER: [u8; 5] = [
    NOT_WHOLE_STEPS,
    TOO_LONG,
    NOT_IN_CAPTURE,
    OTHER_LIST,
    NO_ROOM,
];
pub const LOOKUP_ORDER: [u8; 4] = [NOT_WHOLE_STEPS, TOO_LONG, NOT_IN_CAPTURE, OTHER_LIST];

/// The steps at which the sent K1 is another than in the step before. What is left
/// behind the last whole step is no step.
pub fn changed(capture: &[u8]) -> Vec<usize> {
    let sent = |step: usize| capture[step * STEP_BYTES + 2];
    let before = |step: usize| if step == 0 { 0 } else { sent(step - 1) };
    (0..capture.len() / STEP_BYTES)
        .filter(|&step| sent(step) != before(step))
        .collect()
}

/// Those among the first steps, or among all if there are not as many.
fn changed_among(capture: &[u8], steps: usize) -> Vec<usize> {
    let bytes = capture.len().min(steps * STEP_BYTES);
    changed(&capture[..bytes])
}

fn is_same(list: &[u16], changes: &[usize]) -> bool {
    let entries = list.iter().map(|&entry| usize::from(entry));
    entries.eq(changes.iter().copied())
}

impl Extension {
    pub fn faults(&self) -> Vec<u8> {
        let length = self.capture.len();
        let listed = usize::from(self.listed);
        let known = changed_among(&self.capture, listed);
        let list = self.table.get(..usize::from(self.count));
        let applies = [
            !length.is_multiple_of(STEP_BYTES),
            length > MOST_BYTES,
            listed > length / STEP_BYTES,
            !list.is_some_and(|list| is_same(list, &known)),
            self.table.len() < changed(&self.capture).len(),
        ];
        present(EXTENSION_ORDER, applies)
    }

    /// The refusal, the output and the table.
    pub fn by_definition(&self, faults: &[u8]) -> (u8, [u8; CHANGES], Vec<u16>) {
        let mut table = self.table.clone();
        if let &[first, ..] = faults {
            return (first, [0; CHANGES], table);
        }
        let changes = changed(&self.capture);
        for (entry, &change) in table.iter_mut().zip(&changes) {
            *entry = change as u16;
        }
        (0, (changes.len() as u16).to_be_bytes(), table)
    }
}

impl Lookup {
    pub fn faults(&self) -> Vec<u8> {
        let length = self.capture.len();
        let applies = [
            !length.is_multiple_of(STEP_BYTES),
            length > MOST_BYTES,
            usize::from(self.step) >= length / STEP_BYTES,
            !is_same(&self.list, &changed(&self.capture)),
        ];
        present(LOOKUP_ORDER, applies)
    }

    /// The refusal and the output.
    pub fn by_definition(&self, faults: &[u8]) -> (u8, [u8; CHANGE]) {
        if let &[first, ..] = faults {
            return (first, [0; CHANGE]);
        }
        let changes = changed_among(&self.capture, usize::from(self.step) + 1);
        let out = changes.last().map_or([0; CHANGE], |&change| {
            let [high, low] = (change as u16).to_be_bytes();
            [1, high, low]
        });
        (0, out)
    }

    /// Whether the list starts with all changes up to the step, so that the answer could
    /// be known from it, were it not refused.
    pub fn is_right_up_to_the_step(&self) -> bool {
        let changes = changed_among(&self.capture, usize::from(self.step) + 1);
        let start = self.list.get(..changes.len());
        start.is_some_and(|start| is_same(start, &changes))
    }
}

#[cfg(test)]
mod tests {
    use super::*;

    #[test]
    fn every_fault_is_there_whatever_the_others_are() {
        let mut given = Extension {
            capture: vec![0xA2; 65_539],
            listed: 65_535,
            count: 0,
            table: Vec::new(),
        };
        assert_eq!(given.faults(), EXTENSION_ORDER);
        given.capture.truncate(65_536);
        assert_eq!(given.faults(), [13, 16, 12]);
        given.listed = 0;
        assert_eq!(given.faults(), [12]);
        given.table.push(7);
        assert_eq!(given.faults(), []);
        assert_eq!(given.by_definition(&[]), (0, [0, 1], vec![0]));
        assert_eq!(given.by_definition(&[12]), (12, [0, 0], vec![7]));
    }

    #[test]
    fn a_list_may_be_right_up_to_the_step_and_no_further() {
        let mut given = Lookup {
            capture: [0, 0, 1, 0].repeat(3),
            list: vec![0, 2],
            step: 1,
        };
        assert_eq!(given.faults(), [16]);
        assert!(given.is_right_up_to_the_step());
        given.list = vec![1];
        assert!(!given.is_right_up_to_the_step());
        given.list = vec![0];
        assert_eq!(given.faults(), []);
        assert_eq!(given.by_definition(&[]), (0, [1, 0, 0]));
    }
}
