//! Two ends that go through Table 7-4 of G.841, as Corrigendum 1 has it.

use super::{fresh, Given};
use crate::controller::Record;
use crate::settings::Settings;
use std::io::{self, Write};

/// The conditions of an end that acts in a row.
type Acts = Option<&'static [u8]>;

const GOOD: Acts = Some(&[0, 0, 0]);
const DEGRADED_2: Acts = Some(&[0, 0, 1]);
const FAILED_1: Acts = Some(&[0, 2, 0]);

/// Row by row what C and what A does. A fault is seen where its direction ends:
/// that of section 2 runs from A to C, that of section 1 from C to A.
const ROWS: [[Acts; 2]; 18] = [
    [GOOD, GOOD],
    [DEGRADED_2, None],
    [None, GOOD],
    [DEGRADED_2, None],
    [None, GOOD],
    [None, FAILED_1],
    [DEGRADED_2, None],
    [None, FAILED_1],
    [DEGRADED_2, None],
    [None, GOOD],
    [DEGRADED_2, None],
    [None, GOOD],
    [DEGRADED_2, None],
    [None, GOOD],
    [GOOD, None],
    [GOOD, None],
    [None, GOOD],
    [GOOD, GOOD],
];

/// One step of wait: each WTR of the table is gone when the end that sent it
/// acts again.
const W: u16 = 1;

/// One end, with what its last step answered.
#[derive(Clone, Copy)]
struct End {
    record: Record,
    sent: [u8; 2],
    selector: u8,
}

impl End {
    fn fresh() -> Self {
        Self {
            record: fresh(Settings::new(2, 0, W)),
            sent: [0x00, 0x08],
            selector: 0,
        }
    }

    fn after(self, [k1, k2]: [u8; 2], acts: Acts) -> Self {
        let Some(conditions) = acts else {
            return self;
        };
        let answer = Given::new(k1, k2, conditions).step(self.record);
        Self {
            record: answer.record,
            sent: [answer.k1, answer.k2],
            selector: answer.selector,
        }
    }
}

pub(super) fn write(out: &mut impl Write) -> io::Result<()> {
    writeln!(
        out,
        "Table 7-4 as corrected in document 003, n 2 mask 0 W {W}: \
         row, who steps, C to A, A to C, selectors of C and A"
    )?;
    let [mut c, mut a] = [End::fresh(), End::fresh()];
    for (number, [c_acts, a_acts]) in (1..).zip(ROWS) {
        // Both at once, so that neither sees what the other sends in this row.
        [c, a] = [c.after(a.sent, c_acts), a.after(c.sent, a_acts)];
        let who = match (c_acts, a_acts) {
            (Some(_), Some(_)) => "CA",
            (Some(_), None) => "C",
            (None, _) => "A",
        };
        write!(out, "{number:>2} {who:<2}")?;
        for byte in [c.sent, a.sent].concat() {
            write!(out, " {:04b} {:04b}", byte >> 4, byte & 0b1111)?;
        }
        writeln!(out, " {} {}", c.selector, a.selector)?;
    }
    Ok(())
}

#[cfg(test)]
mod tests {
    use super::*;
    use crate::block::printed;

    /// The bytes C to A and A to C as document 003 prints them. Who steps and
    /// where the selectors stand is read off its columns of actions.
    const DOCUMENT: [&str; 18] = [
        " 1 CA 0000 0000 0000 1000 0000 0000 0000 1000 0 0",
        " 2 C  1010 0010 0000 1000 0000 0000 0000 1000 0 0",
        " 3 A  1010 0010 0000 1000 0010 0010 0010 1000 0 0",
        " 4 C  1010 0010 0010 1000 0010 0010 0010 1000 2 0",
        " 5 A  1010 0010 0010 1000 0010 0010 0010 1000 2 2",
        " 6 A  1010 0010 0010 1000 1100 0001 0000 1000 2 0",
        " 7 C  0010 0001 0001 1000 1100 0001 0000 1000 0 0",
        " 8 A  0010 0001 0001 1000 1100 0001 0001 1000 0 1",
        " 9 C  0010 0001 0001 1000 1100 0001 0001 1000 1 1",
        "10 A  0010 0001 0001 1000 0110 0001 0001 1000 1 1",
        "11 C  1010 0010 0000 1000 0110 0001 0001 1000 0 1",
        "12 A  1010 0010 0000 1000 0010 0010 0010 1000 0 0",
        "13 C  1010 0010 0010 1000 0010 0010 0010 1000 2 0",
        "14 A  1010 0010 0010 1000 0010 0010 0010 1000 2 2",
        "15 C  0110 0010 0010 1000 0010 0010 0010 1000 2 2",
        "16 C  0000 0000 0010 1000 0010 0010 0010 1000 0 2",
        "17 A  0000 0000 0010 1000 0000 0000 0000 1000 0 0",
        "18 CA 0000 0000 0000 1000 0000 0000 0000 1000 0 0",
    ];

    #[test]
    fn the_ends_send_what_the_document_prints() {
        let text = printed(write);
        let rows: Vec<&str> = text.lines().skip(1).collect();
        assert_eq!(rows.len(), DOCUMENT.len());
        for (row, document) in rows.iter().zip(DOCUMENT) {
            assert_eq!(*row, document);
        }
    }
}
