//! One call of both sides, and what many of them come to.

use super::lent::{Memory, Part};
use crate::door::{Door, Peer};
use crate::draws::Bits;
use std::fmt::{Debug, Write};
use std::hint::black_box;

/// One more than the greatest refusal.
const REFUSALS: usize = 33;
const MOST_KINDS: usize = 38;
/// Differences of one part that are told in full.
const MOST_TOLD: usize = 3;
/// Bytes of a part of memory that are told.
const MOST_BYTES: usize = 64;

/// What a side answered, and all it was lent as it left it.
#[derive(PartialEq)]
pub struct Answer<M> {
    pub refusal: u8,
    pub memory: M,
}

pub struct Both<M> {
    pub library: Answer<M>,
    pub peer: Answer<M>,
}

/// Lends the same to both sides. This side cannot write outside of what it is
/// lent, nor into what it may only read; so memory that is the same after the
/// calls, guards and all, was left alone by the other side as well.
pub fn both<M: Memory>(
    library: &dyn Door,
    memory: &M,
    call: impl Fn(&dyn Door, &mut M) -> u8,
) -> Both<M> {
    let answer = |door| {
        let mut memory = memory.clone();
        let refusal = call(door, &mut memory);
        // The compiler must not conclude that the guards are as they were.
        black_box(&mut memory);
        Answer { refusal, memory }
    };
    Both {
        library: answer(library),
        peer: answer(&Peer),
    }
}

/// What a number of calls came to.
#[derive(Clone)]
pub struct Tally {
    pub calls: u64,
    /// By what this reading answers.
    pub refusals: [u64; REFUSALS],
    /// What each stands for is the subject's affair.
    pub kinds: [u64; MOST_KINDS],
    pub differences: u64,
    pub told: Vec<String>,
}

/// In full, because only shorter arrays than those have a default.
impl Default for Tally {
    fn default() -> Self {
        Self {
            calls: 0,
            refusals: [0; REFUSALS],
            kinds: [0; MOST_KINDS],
            differences: 0,
            told: Vec::new(),
        }
    }
}

impl Tally {
    /// Counts a call. What it was given is told only if the sides differ.
    pub fn add<M: Memory>(&mut self, both: &Both<M>, given: impl FnOnce() -> String) {
        self.calls += 1;
        self.refusals[usize::from(both.peer.refusal)] += 1;
        if both.library != both.peer {
            self.differ(|| tell(both, &given()));
        }
    }

    pub fn count(&mut self, kind: usize) {
        self.kinds[kind] += 1;
    }

    /// Those kinds that apply.
    pub fn count_those<const N: usize>(&mut self, kinds: [(usize, bool); N]) {
        for (kind, _) in kinds.into_iter().filter(|&(_, applies)| applies) {
            self.count(kind);
        }
    }

    pub fn differ(&mut self, tell: impl FnOnce() -> String) {
        self.differences += 1;
        if self.told.len() < MOST_TOLD {
            self.told.push(tell());
        }
    }

    pub fn join(&mut self, other: Self) {
        self.calls += other.calls;
        self.differences += other.differences;
        self.told.extend(other.told);
        let kinds = self.kinds.iter_mut().zip(other.kinds);
        let refusals = self.refusals.iter_mut().zip(other.refusals);
        for (total, number) in kinds.chain(refusals) {
            *total += number;
        }
    }
}

/// Calls both sides, and counts what comes of it. What is lent besides the arguments,
/// outputs and guards, is drawn.
pub struct Caller<'a> {
    pub library: &'a dyn Door,
    pub bits: Bits,
    pub tally: Tally,
}

impl<'a> Caller<'a> {
    pub fn new(library: &'a dyn Door, seed: u64, part: usize) -> Self {
        Self {
            library,
            bits: Bits::from_seeds(seed, part),
            tally: Tally::default(),
        }
    }

    pub fn call<M: Memory>(
        &mut self,
        memory: &M,
        call: impl Fn(&dyn Door, &mut M) -> u8,
        given: impl FnOnce() -> String,
    ) -> Both<M> {
        let both = self.lend(memory, call);
        self.tally.add(&both, given);
        both
    }

    /// Calls both sides and counts nothing, where what they answer need not be the same.
    pub fn lend<M: Memory>(&self, memory: &M, call: impl Fn(&dyn Door, &mut M) -> u8) -> Both<M> {
        both(self.library, memory, call)
    }

    /// Holds what a side answered against what the paper says.
    pub fn hold<T: PartialEq + Debug>(
        &mut self,
        answered: T,
        expected: T,
        told: impl Fn() -> String,
    ) {
        if answered != expected {
            let told = || format!("{}: not what the paper says: {answered:?}", told());
            self.tally.differ(told);
        }
    }
}

fn tell<M: Memory>(both: &Both<M>, given: &str) -> String {
    let Both { library, peer } = both;
    let mut told = format!(
        "{given}\n  refusal: library {}, peer {}\n",
        library.refusal, peer.refusal
    );
    let parts = library.memory.parts().into_iter().zip(peer.memory.parts());
    for ((name, theirs), (_, ours)) in parts {
        if theirs == ours {
            let _ = writeln!(told, "  {name}, the same: {}", shown(&theirs, 0));
        } else {
            let place = first_difference(&theirs, &ours);
            let _ = writeln!(told, "  {name}, library: {}", shown(&theirs, place));
            let _ = writeln!(told, "  {name}, peer:    {}", shown(&ours, place));
        }
    }
    told
}

/// Counted with the guard before.
fn first_difference(theirs: &Part, ours: &Part) -> usize {
    let (theirs, ours) = (theirs.concat(), ours.concat());
    let mut pairs = theirs.iter().zip(&ours);
    pairs
        .position(|(theirs, ours)| theirs != ours)
        .unwrap_or_default()
}

/// The guards in brackets; of long memory what is about a place.
fn shown(part: &Part, place: usize) -> String {
    let [before, bytes, behind] = part;
    let length = part.concat().len();
    if length <= MOST_BYTES + before.len() + behind.len() {
        return format!("[{}] {} [{}]", hex(before), hex(bytes), hex(behind));
    }
    let first = place.saturating_sub(MOST_BYTES / 2);
    let window = &part.concat()[first..length.min(first + MOST_BYTES)];
    let from = first as isize - before.len() as isize;
    format!("{} bytes, from {from}: {}", bytes.len(), hex(window))
}

pub fn hex(bytes: &[u8]) -> String {
    let words: Vec<String> = bytes.iter().map(|byte| format!("{byte:02X}")).collect();
    words.join(" ")
}

#[cfg(test)]
mod tests;
