//! Lists that are not what they are taken for, each by as little as can be.

use crate::draws::Bits;

/// The list with one thing wrong in it, in many ways: each entry one more or one less, in
/// the place of its neighbour, left out, or there twice; an entry too many behind the
/// last; and once in a while, since it is long, 65,536 of them.
pub fn lists(bits: &mut Bits, list: &[u16]) -> Vec<Vec<u16>> {
    let mut wrong: Vec<Vec<u16>> = (0..list.len()).flat_map(|place| at(list, place)).collect();
    let last = list.last().copied().unwrap_or_default();
    for more in [0, last, last.wrapping_add(1), bits.draw() as u16] {
        wrong.push([list, &[more]].concat());
    }
    if bits.once_in(64) {
        wrong.push([list, &[last; 65_536]].concat());
    }
    wrong
}

fn at(list: &[u16], place: usize) -> Vec<Vec<u16>> {
    let with = |change: fn(&mut Vec<u16>, usize)| {
        let mut list = list.to_vec();
        change(&mut list, place);
        list
    };
    let mut wrong = vec![
        with(|list, place| list[place] = list[place].wrapping_add(1)),
        with(|list, place| list[place] = list[place].wrapping_sub(1)),
        with(|list, place| {
            list.remove(place);
        }),
        with(|list, place| list.insert(place, list[place])),
    ];
    if place + 1 < list.len() {
        wrong.push(with(|list, place| list.swap(place, place + 1)));
    }
    wrong
}

#[cfg(test)]
mod tests {
    use super::*;

    #[test]
    fn each_entry_is_wrong_in_each_way() {
        let mut bits = Bits::from_seeds(1, 1);
        let wrong = lists(&mut bits, &[3, 5]);
        for expected in [
            &[4, 5][..],
            &[2, 5],
            &[5],
            &[3, 3, 5],
            &[5, 3],
            &[3, 6],
            &[3, 4],
            &[3],
            &[3, 5, 5],
            &[3, 5, 0],
            &[3, 5, 6],
        ] {
            assert!(wrong.iter().any(|list| list == expected), "{expected:?}");
        }
        assert!(wrong.iter().all(|list| list != &[3, 5]));
        let of_none = lists(&mut bits, &[]);
        assert!(of_none.iter().all(|list| !list.is_empty()));
    }
}
