//! Memory that is lent to a call, with guards on both sides of it.

use crate::draws::{Bits, Word};
use std::borrow::Cow;

const GUARD: usize = 16;

/// All that one call is lent.
pub trait Memory: Clone + PartialEq {
    /// Every byte of it, the guards too, in parts that have names.
    fn parts(&self) -> Vec<(&'static str, Part<'_>)>;
}

/// The guard before, the bytes that are lent, and the guard behind. Of a list the bytes
/// are made for this, since nobody looks at them but where something differs.
pub type Part<'a> = [Cow<'a, [u8]>; 3];

/// In the order of the fields, so that the guards touch what is lent. What a call
/// fills is drawn before it, as the guards are: a byte that is left out shows, and
/// so does one too many.
#[derive(Clone, PartialEq, Eq)]
#[repr(C)]
pub struct Lent<const N: usize> {
    before: [u8; GUARD],
    pub bytes: [u8; N],
    behind: [u8; GUARD],
}

impl<const N: usize> Lent<N> {
    pub fn new(bits: &mut Bits, bytes: [u8; N]) -> Self {
        Self {
            before: bits.array(),
            bytes,
            behind: bits.array(),
        }
    }

    pub fn drawn(bits: &mut Bits) -> Self {
        let bytes = bits.array();
        Self::new(bits, bytes)
    }

    pub fn part(&self) -> Part<'_> {
        [&self.before[..], &self.bytes, &self.behind].map(Cow::Borrowed)
    }

    #[cfg(test)]
    pub fn guard_mut(&mut self, behind: bool) -> &mut [u8; GUARD] {
        if behind {
            &mut self.behind
        } else {
            &mut self.before
        }
    }
}

/// The same for a length that is known only to the call.
#[derive(Clone, PartialEq, Eq)]
pub struct LentSlice(Vec<u8>);

impl LentSlice {
    pub fn new(bits: &mut Bits, bytes: &[u8]) -> Self {
        let [before, behind] = [(); 2].map(|()| bits.array::<GUARD>());
        Self([&before, bytes, &behind].concat())
    }

    pub fn drawn(bits: &mut Bits, length: usize) -> Self {
        Self(bits.bytes(GUARD + length + GUARD))
    }

    pub fn bytes(&self) -> &[u8] {
        &self.0[GUARD..self.0.len() - GUARD]
    }

    pub fn bytes_mut(&mut self) -> &mut [u8] {
        let end = self.0.len() - GUARD;
        &mut self.0[GUARD..end]
    }

    pub fn part(&self) -> Part<'_> {
        let (before, rest) = self.0.split_at(GUARD);
        let (bytes, behind) = rest.split_at(rest.len() - GUARD);
        [before, bytes, behind].map(Cow::Borrowed)
    }

    #[cfg(test)]
    pub fn with_guards(&mut self) -> &mut [u8] {
        &mut self.0
    }
}

/// The same for a list of numbers, with entries for guards. It need not start where
/// more than one entry would suit, so the guard before it is of a length that is drawn.
#[derive(Clone, PartialEq, Eq)]
pub struct LentList<T> {
    words: Vec<T>,
    start: usize,
}

impl<T: Word> LentList<T> {
    /// As many bytes as any guard has, in entries.
    const GUARD: usize = GUARD / size_of::<T>();

    pub fn new(bits: &mut Bits, entries: &[T]) -> Self {
        let start = Self::GUARD + bits.place(Self::GUARD);
        let [before, behind] = [start, Self::GUARD].map(|length| bits.words(length));
        Self {
            words: [&before, entries, &behind].concat(),
            start,
        }
    }

    pub fn entries(&self) -> &[T] {
        &self.words[self.start..self.words.len() - Self::GUARD]
    }

    pub fn entries_mut(&mut self) -> &mut [T] {
        let end = self.words.len() - Self::GUARD;
        &mut self.words[self.start..end]
    }

    pub fn part(&self) -> Part<'_> {
        let (before, rest) = self.words.split_at(self.start);
        let (entries, behind) = rest.split_at(rest.len() - Self::GUARD);
        [before, entries, behind]
            .map(|words| words.iter().flat_map(|word| word.bytes()).collect())
            .map(Cow::Owned)
    }

    #[cfg(test)]
    pub fn with_guards(&mut self) -> &mut [T] {
        &mut self.words
    }
}

impl<const N: usize> Memory for Lent<N> {
    fn parts(&self) -> Vec<(&'static str, Part<'_>)> {
        vec![("out", self.part())]
    }
}

#[cfg(test)]
mod tests {
    use super::*;
    use std::collections::BTreeSet;
    use std::fmt::Debug;

    #[test]
    fn the_guards_stand_right_beside_what_is_lent() {
        assert_eq!(size_of::<Lent<17>>(), 16 + 17 + 16);
        let mut bits = Bits::from_seeds(1, 1);
        let slice = LentSlice::new(&mut bits, &[1, 2, 3]);
        assert_eq!(slice.bytes(), [1, 2, 3]);
        assert_eq!(slice.0.len(), 16 + 3 + 16);
        assert_eq!(slice.part().concat(), slice.0);
        assert!(LentSlice::new(&mut bits, &[]).bytes().is_empty());
        assert_eq!(LentSlice::drawn(&mut bits, 5).bytes_mut().len(), 5);
    }

    /// The same entries, which are those bytes, again and again.
    fn assert_between_guards<T: Word + Debug>(entries: [T; 2], expected: &[u8]) {
        let mut bits = Bits::from_seeds(1, 1);
        let width = size_of::<T>();
        let mut starts = BTreeSet::new();
        for _ in 0..100 {
            let mut list = LentList::new(&mut bits, &entries);
            assert_eq!(list.entries(), entries);
            assert_eq!(list.entries_mut().len(), 2);
            let [before, entries, behind] = list.part();
            assert_eq!(&entries[..], expected);
            assert!(before.len() >= 16 && behind.len() == 16);
            starts.insert(before.len() / width % (16 / width));
        }
        assert!(starts.into_iter().eq(0..16 / width));
        assert!(LentList::<T>::new(&mut bits, &[]).entries().is_empty());
    }

    #[test]
    fn lists_start_at_any_entry_between_their_guards() {
        assert_between_guards([1u16, 0x203], &[0, 1, 2, 3]);
        assert_between_guards([1u32, 0x0405_0607], &[0, 0, 0, 1, 4, 5, 6, 7]);
    }

    /// Zeros are what a call writes most often.
    #[test]
    fn guards_and_outputs_are_not_zeros() {
        let mut bits = Bits::from_seeds(1, 1);
        let lent = Lent::<32>::drawn(&mut bits);
        for part in lent.part() {
            assert!(part.iter().filter(|&&byte| byte == 0).count() < 4);
        }
    }
}
