//! The comparison of `peer compare`: the library and this reading are called with
//! the same arguments, and lent memory of the same content; what they answer and
//! what they leave in it is compared, byte for byte. The words of causes alone need not
//! be the same (paper: 02, a), and are run through the controller of this reading.

mod books;
mod captures;
mod causes;
mod coder;
mod commands;
mod crew;
mod drawn_book;
mod faults;
mod handed;
pub mod lent;
mod options;
mod report;
mod spoilt;
mod steps;
mod switches;
mod tables;
mod tally;
mod values;

use crate::door::Door;
use crew::Manner;
use std::io::{self, IsTerminal};
use tally::Tally;

/// What is compared in parts, each of which comes out the same wherever and
/// whenever it is done.
struct Subject {
    name: &'static str,
    /// The calls that are due.
    least: u64,
    /// The refusals, 0 for none, that come up: all of these, and no others.
    refusals: &'static [usize],
    /// What is counted besides.
    kinds: &'static [Due],
    parts: usize,
    compare: fn(&dyn Door, usize) -> Tally,
}

/// A name, and how often at least what it stands for comes up. Without a name nothing is
/// due.
type Due = (&'static str, u64);

/// Each of those names comes up.
const fn once<const N: usize>(names: [&'static str; N]) -> [Due; N] {
    let mut due = [("", 1); N];
    let mut place = 0;
    while place < N {
        due[place].0 = names[place];
        place += 1;
    }
    due
}

const SUBJECTS: [Subject; 21] = [
    Subject {
        name: "fresh",
        least: (1 << 24) + 256 * 256 * 4,
        refusals: &[0, 1, 2, 25],
        kinds: &once(options::KINDS),
        parts: coder::PARTS_BY_SIZE,
        compare: coder::fresh,
    },
    Subject {
        name: "k1, and decoded for every n",
        least: 14 * 256 * 2,
        refusals: &[0],
        kinds: &once(values::KINDS),
        parts: values::PARTS,
        compare: values::compare,
    },
    Subject {
        name: "decode",
        least: 1 << 24,
        refusals: &[0, 1],
        kinds: &once(coder::DECODED_KINDS),
        parts: coder::PARTS_BY_SIZE,
        compare: coder::decode,
    },
    Subject {
        name: "encode",
        least: 6 << 25,
        refusals: &[0, 1, 10],
        kinds: &[],
        parts: coder::PARTS_BY_CODE,
        compare: coder::encode,
    },
    Subject {
        name: "encode, every n and flag",
        least: 10_000_000,
        refusals: &[0, 1, 10],
        kinds: &[],
        parts: coder::PARTS_BY_SIZE,
        compare: coder::encode_by_size,
    },
    Subject {
        name: "step, drawn",
        least: 5_000_000,
        refusals: &[0, 1, 2, 3, 4, 5, 6, 7],
        kinds: &once(steps::DRAWN_KINDS),
        parts: steps::PARTS,
        compare: steps::drawn,
    },
    Subject {
        name: "step, every held byte",
        least: 1_500_000,
        refusals: &[0, 1, 3],
        kinds: &steps::HELD_KINDS,
        parts: steps::HELD_PARTS,
        compare: steps::held,
    },
    Subject {
        name: "step, walks",
        least: 5_000_000,
        refusals: &[0],
        kinds: &once(steps::WALKED_KINDS),
        parts: steps::PARTS,
        compare: steps::walks,
    },
    Subject {
        name: "judge",
        least: 350_000,
        refusals: &[0, 1, 2, 8, 9, 25],
        kinds: &captures::KINDS,
        parts: captures::PARTS,
        compare: captures::compare,
    },
    Subject {
        name: "causes, drawn",
        least: 150_000,
        refusals: &[0],
        kinds: &causes::DRAWN_KINDS,
        parts: causes::DRAWN_PARTS,
        compare: causes::drawn,
    },
    Subject {
        name: "causes, of the books",
        least: 25_000,
        refusals: &[0],
        kinds: &causes::BOOK_KINDS,
        parts: causes::BOOK_PARTS,
        compare: causes::of_books,
    },
    Subject {
        name: "causes, refused",
        least: 50_000,
        refusals: &[0, 1, 2, 8, 9, 11, 25],
        kinds: &causes::REFUSED_KINDS,
        parts: causes::REFUSED_PARTS,
        compare: causes::refused,
    },
    Subject {
        name: "switches, small",
        least: 500_000,
        refusals: &[0, 12, 13, 16],
        kinds: &once(switches::SMALL_EXTENSIONS),
        parts: switches::SMALL_PARTS,
        compare: switches::small_extensions,
    },
    Subject {
        name: "switches, in turn",
        least: 40_000,
        refusals: &[0],
        kinds: &once(switches::EXTENSIONS_IN_TURN),
        parts: switches::TURN_PARTS,
        compare: switches::in_turn,
    },
    Subject {
        name: "switches, drawn",
        least: 150_000,
        refusals: &[0, 8, 9, 12, 13, 16],
        kinds: &once(switches::DRAWN_EXTENSIONS),
        parts: switches::DRAWN_PARTS,
        compare: switches::drawn_extensions,
    },
    Subject {
        name: "last change, small",
        least: 200_000,
        refusals: &[0, 13, 16],
        kinds: &once(switches::SMALL_LOOKUPS),
        parts: switches::SMALL_PARTS,
        compare: switches::small_lookups,
    },
    Subject {
        name: "last change, drawn",
        least: 200_000,
        refusals: &[0, 8, 9, 13, 16],
        kinds: &once(switches::DRAWN_LOOKUPS),
        parts: switches::DRAWN_PARTS,
        compare: switches::drawn_lookups,
    },
    Subject {
        name: "read, and written again",
        least: 100_000,
        refusals: &[0, 20, 21, 22, 23, 24, 25, 26, 27, 28, 31, 32],
        kinds: &once(books::READ_KINDS),
        parts: books::PARTS,
        compare: books::readings,
    },
    Subject {
        name: "write, and read again",
        least: 100_000,
        refusals: &[0, 20, 23, 25, 29, 30, 31, 32],
        kinds: &once(books::WRITE_KINDS),
        parts: books::PARTS,
        compare: books::writings,
    },
    Subject {
        name: "table, drawn",
        least: 50_000,
        refusals: &[0, 20, 21, 22, 23, 24, 25, 26, 27, 28, 31, 32],
        kinds: &tables::DRAWN_KINDS,
        parts: tables::DRAWN_PARTS,
        compare: tables::drawn,
    },
    Subject {
        name: "table, every number of steps",
        least: 2 * 16_381,
        refusals: &[0],
        kinds: &tables::NUMBER_KINDS,
        parts: tables::NUMBER_PARTS,
        compare: tables::numbers,
    },
];

/// What the comparison found.
pub struct Finding {
    /// Neither a difference, nor a subject that does not come by what it is for.
    pub clean: bool,
    pub text: Vec<u8>,
}

pub fn compare(library: &dyn Door) -> io::Result<Finding> {
    let mut progress = io::stderr();
    let manner = if progress.is_terminal() {
        Manner::Terminal
    } else {
        Manner::Lines
    };
    let tallies = crew::compare_all(library, &SUBJECTS, manner, &mut progress);
    let mut text = Vec::new();
    report::write(&mut text, &SUBJECTS, &tallies)?;
    Ok(Finding {
        clean: report::is_clean(&SUBJECTS, &tallies),
        text,
    })
}

#[cfg(test)]
pub mod tests;
