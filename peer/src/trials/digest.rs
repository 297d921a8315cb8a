//! Many numbers in one short one, so that whole buffers can be compared.

use crate::book::Contents;
use std::iter;

/// A prime, so that no multiplication makes two unequal digests equal.
const BELOW: u64 = 65_521;

pub(super) fn of_bytes(bytes: &[u8]) -> u64 {
    of_numbers(bytes.iter().copied().map(u64::from))
}

/// Takes in all places, those past the count too: they have to be zeros.
pub(super) fn of_contents(contents: &Contents) -> u64 {
    let places = contents.places.iter().flat_map(|entry| {
        [
            u64::from(entry.n),
            u64::from(entry.spare),
            u64::from(entry.mask),
            u64::from(entry.w),
            u64::from(entry.offset),
            u64::from(entry.steps),
        ]
    });
    of_numbers(iter::once(u64::from(contents.count)).chain(places))
}

/// One is added to every number, so that zeros at the front tell too.
fn of_numbers(numbers: impl Iterator<Item = u64>) -> u64 {
    numbers.fold(0, |digest, number| (digest * 31 + number + 1) % BELOW)
}

#[cfg(test)]
mod tests {
    use super::*;
    use crate::book::Entry;

    /// In one piece, without a remainder in between.
    fn whole(numbers: &[u128]) -> u128 {
        numbers.iter().fold(0, |sum, number| sum * 31 + number + 1)
    }

    #[test]
    fn short_digests_by_hand() {
        assert_eq!(of_bytes(&[]), 0);
        assert_eq!(of_bytes(&[0]), 1);
        assert_eq!(of_bytes(&[0, 0]), 32);
        assert_eq!(of_bytes(&[255, 1, 0]), 256 * 961 % 65_521 + 2 * 31 + 1);
        assert_eq!(of_bytes(&[0xA2; 8]), (whole(&[0xA2; 8]) % 65_521) as u64);
    }

    #[test]
    fn contents_are_taken_in_the_order_of_the_book() {
        let mut contents = Contents::ZEROS;
        contents.count = 1;
        contents.places[0] = Entry {
            n: 2,
            spare: 3,
            mask: 4,
            w: 5,
            offset: u32::MAX,
            steps: 7,
        };
        let front = whole(&[1, 2, 3, 4, 5, u128::from(u32::MAX), 7]) % 65_521;
        let zeros = (0..63 * 6).fold(front, |digest, _| (digest * 31 + 1) % 65_521);
        assert_eq!(u128::from(of_contents(&contents)), zeros);
    }
}
