//! The options that are handed in: hold, none, and now and then such as there are not
//! (02, g).

use super::tally::Tally;
use crate::draws::Bits;
use crate::settings::HOLD;

/// What is counted of them, where they are counted by themselves.
pub const KINDS: [&str; 3] = ["without hold", "hold", "other options"];

pub fn draw(bits: &mut Bits) -> u8 {
    bits.pick(&[0, HOLD])
}

/// Those that there are not, once in so many times.
pub fn draw_any(bits: &mut Bits, others_once_in: u32) -> u8 {
    if bits.once_in(others_once_in) {
        draw_other(bits)
    } else {
        draw(bits)
    }
}

/// The least and the greatest of them come up more often than others.
pub fn draw_other(bits: &mut Bits) -> u8 {
    let any = HOLD + 1 + bits.byte_below(u8::MAX - HOLD);
    bits.pick(&[HOLD + 1, u8::MAX, any, any])
}

/// The kinds of the options begin at that one.
pub fn count(tally: &mut Tally, first_kind: usize, options: u8) {
    tally.count(first_kind + usize::from(options.min(HOLD + 1)));
}

#[cfg(test)]
mod tests {
    use super::*;
    use std::collections::BTreeSet;

    #[test]
    fn options_are_drawn_as_their_names_say() {
        let mut bits = Bits::from_seeds(1, 1);
        let drawn: BTreeSet<u8> = (0..100).map(|_| draw(&mut bits)).collect();
        assert!(drawn.into_iter().eq([0, 1]));
        let others: BTreeSet<u8> = (0..10_000).map(|_| draw_other(&mut bits)).collect();
        assert!(others.into_iter().eq(2..=255));
        let mut tally = Tally::default();
        for _ in 0..1_000 {
            count(&mut tally, 1, draw_any(&mut bits, 4));
        }
        let [_, without, with, other, ..] = tally.kinds;
        assert_eq!(without + with + other, 1_000);
        assert!((200..300).contains(&other), "{other}");
        assert!((300..450).contains(&with), "{with}");
    }
}
