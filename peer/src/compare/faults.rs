//! Refusals that apply to the same call, each by itself, whatever others there are.

use super::tally::Tally;

/// What a capture can have wrong, whatever it is handed to.
pub const NOT_WHOLE_STEPS: u8 = 8;
pub const TOO_LONG: u8 = 9;

/// The numbers of those that apply, in the order in which they are asked for.
pub fn present<const N: usize>(order: [u8; N], applies: [bool; N]) -> Vec<u8> {
    let faults = order.into_iter().zip(applies);
    faults
        .filter(|&(_, applies)| applies)
        .map(|(fault, _)| fault)
        .collect()
}

/// Two refusals that apply at once, with the name of the kind that is.
pub type Pair = (&'static str, [u8; 2]);

/// Every two of the faults. The kinds of the pairs begin at that one.
pub fn count_pairs(tally: &mut Tally, first_kind: usize, pairs: &[Pair], faults: &[u8]) {
    for (place, &(_, [first, second])) in pairs.iter().enumerate() {
        if has(faults, first) && has(faults, second) {
            tally.count(first_kind + place);
        }
    }
}

/// As `contains` does, which a constant cannot be made with.
pub const fn has(refusals: &[u8], refusal: u8) -> bool {
    match refusals {
        [first, rest @ ..] => *first == refusal || has(rest, refusal),
        [] => false,
    }
}
