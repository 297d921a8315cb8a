//! What is said of each K1 value by itself (02, j): compared as all else is, and held
//! besides against what is decoded, since it is the same rules that both are to tell.

use super::lent::Lent;
use super::tally::{both, Both, Tally};
use crate::door::{Door, DECODED, K1};
use crate::draws::Bits;
use crate::pair::{self, Mark};

/// One for each size of a group, from 1 to 14.
pub const PARTS: usize = 14;

/// With this K2 it is K1 alone that decides, in every group, whether a pair is usable.
const K2: u8 = 0x08;

/// By the mark of K1 in the group of the part. The last are those of mark 4 that groups
/// of other sizes can use.
pub const KINDS: [&str; 6] = ["usable", "", "", "mark 3", "mark 4", "usable for other n"];
const USABLE_FOR_OTHERS: usize = 5;

/// Every K1, for the size of the part. What is said of a value knows of no size, so that
/// each is asked for in every part, and lent other bytes.
pub fn compare(library: &dyn Door, part: usize) -> Tally {
    let mut bits = Bits::from_seeds(10, part);
    let mut tally = Tally::default();
    let n = part as u8 + 1;
    for k1 in 0..=u8::MAX {
        let value = look(library, &mut bits, k1, &mut tally);
        let decoded = decode(library, &mut bits, [n, k1], &mut tally);
        hold(value.library.memory.bytes, [n, k1], &decoded, &mut tally);
        let [mark, ..] = decoded.peer.memory.bytes;
        tally.count(mark.into());
        if mark != 0 && value.peer.memory.bytes[3] == 0 {
            tally.count(USABLE_FOR_OTHERS);
        }
    }
    tally
}

fn look(library: &dyn Door, bits: &mut Bits, k1: u8, tally: &mut Tally) -> Both<Lent<K1>> {
    let memory = Lent::drawn(bits);
    let both = both(library, &memory, |door, memory| {
        door.k1(k1, &mut memory.bytes);
        // It returns nothing, having nothing to refuse.
        0
    });
    tally.add(&both, || format!("K1 {k1:02X}"));
    both
}

fn decode(
    library: &dyn Door,
    bits: &mut Bits,
    [n, k1]: [u8; 2],
    tally: &mut Tally,
) -> Both<Lent<DECODED>> {
    let memory = Lent::drawn(bits);
    let both = both(library, &memory, |door, memory| {
        door.decode(n, k1, K2, &mut memory.bytes)
    });
    tally.add(&both, || format!("n {n}, pair {k1:02X} {K2:02X}"));
    both
}

/// Holds what the library says of a value against what it decodes and what this reading
/// does, and its rank, where the value is usable, against the rank of this reading.
fn hold(value: [u8; K1], [n, k1]: [u8; 2], decoded: &Both<Lent<DECODED>>, tally: &mut Tally) {
    let said = said(value, n, k1);
    let [library, peer] = [&decoded.library, &decoded.peer].map(|side| side.memory.bytes);
    let [mark, code, channel, ..] = peer;
    let rank = pair::rank(code, channel);
    let is_of_rank = mark != 0 || value[0] == rank;
    if said != library || said != peer || !is_of_rank {
        tally.differ(|| {
            format!(
                "n {n}, K1 {k1:02X}: the library says {value:?}, which makes it {said:?}; \
                 decoded by the library {library:?}, by the peer {peer:?}, of rank {rank}"
            )
        });
    }
}

/// What is decoded in a group of `n` sections, if the numbers of the value are right. A
/// value without a mark has a code, so what it lacks in other groups is the channel.
fn said([_, least, greatest, mark]: [u8; K1], n: u8, k1: u8) -> [u8; DECODED] {
    let usable = (least..=greatest).contains(&n);
    match mark {
        _ if usable => [0, k1 >> 4, k1 & 0b1111, 0, 0, 0],
        0 => [Mark::Channel.number(), 0, 0, 0, 0, 0],
        _ => [mark, 0, 0, 0, 0, 0],
    }
}

#[cfg(test)]
mod tests {
    use super::*;
    use crate::door::Peer;

    /// The sizes in which such a value is not what is decoded.
    fn caught(value: [u8; K1], k1: u8) -> Vec<u8> {
        let is_caught = |&n: &u8| {
            let mut bits = Bits::from_seeds(1, 1);
            let mut tally = Tally::default();
            let decoded = decode(&Peer, &mut bits, [n, k1], &mut tally);
            hold(value, [n, k1], &decoded, &mut tally);
            tally.differences > 0
        };
        (1..=14).filter(is_caught).collect()
    }

    #[test]
    fn a_right_value_is_caught_nowhere() {
        for (value, k1) in [
            ([4, 2, 14, 0], 0xA2),
            ([0, 0, 0, 3], 0x11),
            ([0, 0, 0, 4], 0xF1),
            ([0, 14, 14, 0], 0x2E),
        ] {
            assert_eq!(caught(value, k1), [], "{k1:02X}");
        }
    }

    /// Each number by itself, and nothing but what is decoded to hold it against.
    #[test]
    fn a_wrong_number_is_caught_where_it_tells() {
        let in_range: Vec<u8> = (2..=14).collect();
        let all: Vec<u8> = (1..=14).collect();
        for (value, k1, sizes) in [
            ([3, 2, 14, 0], 0xA2, &in_range[..]),
            ([4, 1, 14, 0], 0xA2, &[1]),
            ([4, 3, 14, 0], 0xA2, &[2]),
            ([4, 2, 13, 0], 0xA2, &[14]),
            ([4, 2, 14, 3], 0xA2, &[1]),
            ([0, 0, 0, 4], 0xA2, &in_range),
            ([0, 0, 0, 4], 0x11, &all),
            ([0, 0, 0, 0], 0x11, &all),
            ([10, 1, 14, 0], 0xF1, &all),
        ] {
            assert_eq!(caught(value, k1), sizes, "{k1:02X} {value:?}");
        }
    }

    /// The two decoders are looked at one by one.
    #[test]
    fn either_decoder_may_be_at_odds() {
        for spoil_library in [true, false] {
            let mut bits = Bits::from_seeds(1, 1);
            let mut tally = Tally::default();
            let mut decoded = decode(&Peer, &mut bits, [2, 0xA2], &mut tally);
            let side = if spoil_library {
                &mut decoded.library
            } else {
                &mut decoded.peer
            };
            side.memory.bytes[4] ^= 1;
            hold([4, 2, 14, 0], [2, 0xA2], &decoded, &mut tally);
            assert_eq!(tally.differences, 1);
            assert!(tally.told[0].starts_with("n 2, K1 A2: the library says [4, 2, 14, 0]"));
        }
    }
}
