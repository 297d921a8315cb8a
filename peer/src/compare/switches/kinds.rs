//! What is counted of extensions and lookups, and which of it each subject comes by.

use super::faults::{EXTENSION_ORDER, LOOKUP_ORDER};
use crate::compare::faults::{self, has, Pair};
use crate::compare::tally::Tally;

/// But for `RightUpToTheStep`, which is refused, what is counted of calls that are not.
#[derive(Clone, Copy)]
pub enum Kind {
    Afresh,
    FromAMiddle,
    NothingNew,
    NoChanges,
    EachChanged,
    Found,
    NoneFound,
    RightUpToTheStep,
    Long,
}

/// In the order of the kinds.
const NAMES: [&str; 9] = [
    "afresh",
    "from a middle",
    "nothing new",
    "no changes",
    "a change a step",
    "found",
    "none",
    "right up to the step, and refused",
    "of 16,384 steps",
];

/// Two refusals that apply at once: each two, in the order in which they are asked for.
/// They are counted behind the kinds.
const PAIRS: [Pair; 10] = [
    ("8 and 9", [8, 9]),
    ("8 and 13", [8, 13]),
    ("8 and 16", [8, 16]),
    ("8 and 12", [8, 12]),
    ("9 and 13", [9, 13]),
    ("9 and 16", [9, 16]),
    ("9 and 12", [9, 12]),
    ("13 and 16", [13, 16]),
    ("13 and 12", [13, 12]),
    ("16 and 12", [16, 12]),
];

/// The names of all that is counted. One is left out where a subject does not come by it.
type Names = [&'static str; NAMES.len() + PAIRS.len()];

const NO_NAMES: Names = [""; NAMES.len() + PAIRS.len()];

pub const EXTENSIONS_IN_TURN: Names = with(
    NO_NAMES,
    &[
        Kind::Afresh,
        Kind::FromAMiddle,
        Kind::NothingNew,
        Kind::NoChanges,
        Kind::EachChanged,
    ],
);
pub const SMALL_EXTENSIONS: Names = with_pairs(EXTENSIONS_IN_TURN, &[13, 16, 12]);
pub const DRAWN_EXTENSIONS: Names =
    with_pairs(with(EXTENSIONS_IN_TURN, &[Kind::Long]), &EXTENSION_ORDER);

const LOOKUPS: Names = with(
    NO_NAMES,
    &[Kind::Found, Kind::NoneFound, Kind::RightUpToTheStep],
);
pub const SMALL_LOOKUPS: Names = with_pairs(LOOKUPS, &[13, 16]);
pub const DRAWN_LOOKUPS: Names = with_pairs(with(LOOKUPS, &[Kind::Long]), &LOOKUP_ORDER);

const fn with(mut names: Names, kinds: &[Kind]) -> Names {
    let mut place = 0;
    while place < kinds.len() {
        let kind = kinds[place] as usize;
        names[kind] = NAMES[kind];
        place += 1;
    }
    names
}

/// With each two of these refusals.
const fn with_pairs(mut names: Names, refusals: &[u8]) -> Names {
    let mut place = 0;
    while place < PAIRS.len() {
        let (name, [first, second]) = PAIRS[place];
        if has(refusals, first) && has(refusals, second) {
            names[NAMES.len() + place] = name;
        }
        place += 1;
    }
    names
}

/// Those that apply.
pub fn count<const N: usize>(tally: &mut Tally, kinds: [(Kind, bool); N]) {
    let applying = kinds.into_iter().filter(|&(_, applies)| applies);
    applying.for_each(|(kind, _)| tally.count(kind as usize));
}

/// Every two of the faults.
pub fn count_pairs(tally: &mut Tally, faults: &[u8]) {
    faults::count_pairs(tally, NAMES.len(), &PAIRS, faults);
}

#[cfg(test)]
mod tests {
    use super::*;

    #[test]
    fn each_two_refusals_are_a_pair() {
        let order = EXTENSION_ORDER.iter().enumerate();
        let all = order.flat_map(|(place, first)| {
            let seconds = EXTENSION_ORDER[place + 1..].iter();
            seconds.map(move |second| (format!("{first} and {second}"), [*first, *second]))
        });
        assert!(all.eq(PAIRS.map(|(name, pair)| (name.to_string(), pair))));
    }

    fn counted(faults: &[u8]) -> Vec<usize> {
        let mut tally = Tally::default();
        count_pairs(&mut tally, faults);
        let (kinds, pairs) = tally.kinds.split_at(NAMES.len());
        assert!(kinds.iter().all(|&times| times == 0));
        let places = 0..pairs.len();
        places.filter(|&place| pairs[place] > 0).collect()
    }

    #[test]
    fn pairs_are_counted_in_the_order_of_their_names() {
        assert!(counted(&EXTENSION_ORDER).into_iter().eq(0..10));
        assert_eq!(counted(&LOOKUP_ORDER), [0, 1, 2, 4, 5, 7]);
        assert_eq!(counted(&[8, 9]), [0]);
        assert_eq!(counted(&[16, 12]), [9]);
        assert_eq!(counted(&[9, 13, 12]), [4, 6, 8]);
        assert_eq!(counted(&[16]), []);
    }

    #[test]
    fn subjects_have_the_names_of_what_they_come_by() {
        let named = |names: Names| -> Vec<&str> {
            let named = names.into_iter().filter(|name| !name.is_empty());
            named.collect()
        };
        let lookups = [&NAMES[5..8], &["13 and 16"]].concat();
        assert_eq!(named(SMALL_LOOKUPS), lookups);
        assert_eq!(named(EXTENSIONS_IN_TURN), NAMES[..5]);
        assert_eq!(named(SMALL_EXTENSIONS).len(), 5 + 3);
        assert_eq!(named(DRAWN_EXTENSIONS).len(), 6 + 10);
        assert_eq!(named(DRAWN_LOOKUPS).len(), 4 + 6);
    }
}
