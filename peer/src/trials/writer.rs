//! What the writer refuses and what it leaves in the output (paper: "Numbered
//! refusals", 20, 23, 29 and 30, and the orders below the table; 02, f, for 31 and
//! 32, and g for 25).

use super::{paper_contents, rule_bytes, Writing, BUFFER_BYTES};
use crate::book::Contents;
use std::io::{self, Write};

/// A call of the writer to put faults into.
struct Tried {
    contents: Contents,
    body_bytes: usize,
    room: usize,
}

/// Two of settings are no faults, but together one of the mask. Behind them stand those
/// of the spare byte, of which the last is none (02, g).
const FAULTS: [fn(&mut Tried); 23] = [
    |_| {},
    |tried| tried.contents.count = 65,
    |tried| tried.contents.count = 255,
    |tried| tried.body_bytes = 19,
    |tried| tried.body_bytes = 24,
    |tried| tried.contents.places[0].steps = 4,
    |tried| tried.contents.count = 1,
    // As many steps as before, had they only 16 bits.
    |tried| tried.set_steps(65_535, 6),
    |tried| {
        tried.set_steps(16_376, 2);
        tried.body_bytes = 65_512;
    },
    |tried| tried.room = 45,
    |tried| tried.room = 0,
    |tried| tried.room = BUFFER_BYTES,
    |tried| {
        tried.set_steps(16_375, 2);
        tried.body_bytes = 65_508;
        tried.room = 65_534;
    },
    |tried| {
        tried.contents.count = 0;
        tried.body_bytes = 0;
    },
    |tried| tried.contents.places[0].n = 0,
    |tried| tried.contents.places[1].n = 15,
    |tried| tried.contents.places[0].mask = 4,
    |tried| tried.contents.places[1].mask = 32_768,
    |tried| tried.contents.places[1].n = 1,
    |tried| tried.contents.places[1].mask = 3,
    |tried| tried.contents.places[0].spare = 2,
    |tried| tried.contents.places[1].spare = 255,
    |tried| tried.contents.places[0].spare = 1,
];

impl Tried {
    fn with_faults(faults: [fn(&mut Self); 2]) -> Self {
        let mut tried = Self {
            contents: paper_contents(),
            body_bytes: 20,
            room: 46,
        };
        for put in faults {
            put(&mut tried);
        }
        tried
    }

    fn set_steps(&mut self, first: u16, second: u16) {
        self.contents.places[0].steps = first;
        self.contents.places[1].steps = second;
    }

    fn write(&self) -> Writing {
        Writing::of(&self.contents, &rule_bytes(self.body_bytes), self.room)
    }
}

pub(super) fn write(out: &mut impl Write) -> io::Result<()> {
    writeln!(out, "writer")?;
    for (row, first) in FAULTS.into_iter().enumerate() {
        for (column, second) in FAULTS.into_iter().enumerate() {
            let writing = Tried::with_faults([first, second]).write();
            writeln!(out, "{row} {column} {writing}")?;
        }
    }
    Ok(())
}

#[cfg(test)]
mod tests {
    use super::super::UNWRITTEN;
    use super::*;
    use crate::block::printed;

    fn answer_of(first: usize, second: usize) -> (u8, usize) {
        let writing = Tried::with_faults([FAULTS[first], FAULTS[second]]).write();
        (writing.refusal, writing.length)
    }

    /// By hand from the wording of the refusals.
    #[test]
    fn each_fault_alone_has_its_refusal() {
        let expected = [
            (0, 46),
            (23, 0),
            (23, 0),
            (30, 0),
            (30, 0),
            (30, 0),
            (30, 0),
            (30, 0),
            (20, 0),
            (29, 0),
            (29, 0),
            (0, 46),
            (0, 65_534),
            (0, 2),
            (31, 0),
            (31, 0),
            (32, 0),
            (32, 0),
            (0, 46),
            (0, 46),
            (25, 0),
            (25, 0),
            (0, 46),
        ];
        assert_eq!(expected.len(), FAULTS.len());
        for (fault, expected) in expected.into_iter().enumerate() {
            assert_eq!(answer_of(fault, 0), expected, "{fault}");
            assert_eq!(answer_of(0, fault), expected, "{fault}");
            assert_eq!(answer_of(fault, fault), expected, "{fault}");
        }
    }

    #[test]
    fn of_two_faults_the_first_in_order_is_refused() {
        let pairs = [
            (1, 3, 23),
            (2, 8, 23),
            (3, 10, 30),
            (8, 3, 30),
            (8, 10, 20),
            // The steps and the bodies agree again, but the room is that of 46.
            (4, 5, 29),
            (12, 8, 20),
            (12, 9, 29),
        ];
        for (first, second, refusal) in pairs {
            assert_eq!(answer_of(first, second), (refusal, 0), "{first} {second}");
        }
    }

    /// Settings come entry by entry, behind 23 and before 30 (02, f). Those of a
    /// place past the count do not count.
    #[test]
    fn settings_have_their_place_in_the_order() {
        let pairs = [
            (1, 14, (23, 0)),
            (2, 17, (23, 0)),
            (14, 3, (31, 0)),
            (15, 4, (31, 0)),
            (16, 5, (32, 0)),
            (17, 7, (32, 0)),
            (15, 8, (31, 0)),
            (17, 8, (32, 0)),
            (14, 10, (31, 0)),
            (16, 9, (32, 0)),
            // Both in one entry, and in two.
            (14, 16, (31, 0)),
            (15, 17, (31, 0)),
            (14, 15, (31, 0)),
            (14, 17, (31, 0)),
            (16, 15, (32, 0)),
            (16, 17, (32, 0)),
            // With a count of one, and of none.
            (14, 6, (31, 0)),
            (15, 6, (30, 0)),
            (17, 6, (30, 0)),
            (14, 13, (0, 2)),
            (17, 13, (0, 2)),
            // No faults but together.
            (18, 19, (32, 0)),
            (18, 17, (32, 0)),
            (19, 15, (31, 0)),
            (18, 12, (0, 65_534)),
            (19, 3, (30, 0)),
        ];
        for (first, second, expected) in pairs {
            // No two of these set the same, so which is put in first is no matter.
            assert_eq!(answer_of(first, second), expected, "{first} {second}");
            assert_eq!(answer_of(second, first), expected, "{second} {first}");
        }
        for (first, second, refusal) in [(17, 19, 0), (19, 17, 32), (15, 18, 0), (18, 15, 31)] {
            assert_eq!(answer_of(first, second).0, refusal, "{first} {second}");
        }
    }

    /// The spare byte is asked for entry by entry too, before 31 (02, g). That of a place
    /// past the count does not count.
    #[test]
    fn spare_bytes_have_their_place_in_the_order() {
        for (first, second, expected) in [
            (1, 20, (23, 0)),
            (2, 21, (23, 0)),
            (20, 3, (25, 0)),
            (21, 4, (25, 0)),
            (20, 8, (25, 0)),
            (21, 10, (25, 0)),
            // Both in one entry, and in two.
            (20, 14, (25, 0)),
            (20, 16, (25, 0)),
            (21, 15, (25, 0)),
            (21, 17, (25, 0)),
            (20, 15, (25, 0)),
            (20, 17, (25, 0)),
            (20, 21, (25, 0)),
            (21, 14, (31, 0)),
            (21, 16, (32, 0)),
            // With a count of one, and of none.
            (20, 6, (25, 0)),
            (21, 6, (30, 0)),
            (20, 13, (0, 2)),
            (21, 13, (0, 2)),
            // With one that is none.
            (22, 21, (25, 0)),
            (22, 14, (31, 0)),
            (22, 3, (30, 0)),
            (22, 9, (29, 0)),
            (22, 12, (0, 65_534)),
        ] {
            assert_eq!(answer_of(first, second), expected, "{first} {second}");
            assert_eq!(answer_of(second, first), expected, "{second} {first}");
        }
        assert_eq!(answer_of(20, 22), (0, 46));
        assert_eq!(answer_of(22, 20), (25, 0));
    }

    #[test]
    fn the_spare_byte_is_written_as_it_is_given() {
        let written = |fault: usize| Tried::with_faults([FAULTS[fault], FAULTS[0]]).write();
        let [without, with] = [0, 22].map(written);
        let [without, with] = [without.book(), with.book()];
        let differing = (0..46).filter(|&place| without[place] != with[place]);
        assert!(differing.eq([3]));
        assert_eq!((without[3], with[3]), (0, 1));
    }

    #[test]
    fn nothing_changes_but_the_book() {
        for first in FAULTS {
            for second in FAULTS {
                let writing = Tried::with_faults([first, second]).write();
                let behind = &writing.buffer[writing.length..];
                assert!(behind.iter().all(|&byte| byte == UNWRITTEN));
                assert!(writing.refusal == 0 || writing.length == 0);
            }
        }
    }

    #[test]
    fn a_line_for_each_pair_in_order() {
        let text = printed(write);
        let mut lines = text.lines();
        assert_eq!(lines.next(), Some("writer"));
        for row in 0..23 {
            for column in 0..23 {
                let front = format!("{row} {column} ");
                assert!(lines.next().is_some_and(|line| line.starts_with(&front)));
            }
        }
        assert_eq!(lines.next(), None);
    }
}
