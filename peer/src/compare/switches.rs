//! The list of the switches and the lookup in it (paper: 02, e): over all small cases,
//! over lists that grow in turn, and over drawn captures and arguments. Each call is
//! also held against what the paper says, put as plainly as can be: both sides are made
//! to be quick, and might go wrong in the same way.

mod drawn;
mod faults;
mod kinds;
mod small;
mod turns;
mod wrong;

use super::lent::{Lent, LentList, LentSlice, Memory, Part};
use super::tally::{Both, Caller};
use crate::book::{MOST_BYTES, STEP_BYTES};
use crate::door::{CHANGE, CHANGES};
use crate::draws::Bits;
pub use drawn::{extensions as drawn_extensions, lookups as drawn_lookups};
use kinds::Kind;
pub use kinds::{
    DRAWN_EXTENSIONS, DRAWN_LOOKUPS, EXTENSIONS_IN_TURN, SMALL_EXTENSIONS, SMALL_LOOKUPS,
};
pub use small::{extensions as small_extensions, lookups as small_lookups};
pub use turns::in_turn;

pub const SMALL_PARTS: usize = small::PARTS;
pub const DRAWN_PARTS: usize = drawn::PARTS;
pub const TURN_PARTS: usize = turns::PARTS;

/// What an extension is handed, besides the output.
struct Extension {
    capture: Vec<u8>,
    listed: u16,
    count: u16,
    table: Vec<u16>,
}

/// What a lookup is handed, besides the output.
struct Lookup {
    capture: Vec<u8>,
    list: Vec<u16>,
    step: u16,
}

/// What both are lent.
#[derive(Clone, PartialEq)]
struct ListMemory<const N: usize> {
    capture: LentSlice,
    /// What the header calls the list.
    name: &'static str,
    list: LentList<u16>,
    out: Lent<N>,
}

impl<const N: usize> ListMemory<N> {
    fn new(bits: &mut Bits, capture: &[u8], name: &'static str, list: &[u16]) -> Self {
        Self {
            capture: LentSlice::new(bits, capture),
            name,
            list: LentList::new(bits, list),
            out: Lent::drawn(bits),
        }
    }
}

impl<const N: usize> Memory for ListMemory<N> {
    fn parts(&self) -> Vec<(&'static str, Part<'_>)> {
        vec![
            ("capture", self.capture.part()),
            (self.name, self.list.part()),
            ("out", self.out.part()),
        ]
    }
}

impl Caller<'_> {
    fn extend(&mut self, given: &Extension) -> Both<ListMemory<CHANGES>> {
        let Extension { listed, count, .. } = *given;
        let memory = ListMemory::new(&mut self.bits, &given.capture, "table", &given.table);
        let both = self.call(
            &memory,
            |door, memory: &mut ListMemory<CHANGES>| {
                let (capture, table) = (memory.capture.bytes(), memory.list.entries_mut());
                door.switches(capture, listed, count, table, &mut memory.out.bytes)
            },
            || given.told(),
        );
        let left = &both.peer.memory;
        let answered = (both.peer.refusal, left.out.bytes, left.list.entries());
        let faults = given.faults();
        let (refusal, out, table) = given.by_definition(&faults);
        self.hold(answered, (refusal, out, &table), || given.told());
        self.count_extension(given, &faults);
        both
    }

    fn count_extension(&mut self, given: &Extension, faults: &[u8]) {
        kinds::count_pairs(&mut self.tally, faults);
        if !faults.is_empty() {
            return;
        }
        let steps = given.capture.len() / STEP_BYTES;
        let listed = usize::from(given.listed);
        let changes = faults::changed(&given.capture).len();
        let kinds = [
            (Kind::Afresh, listed == 0),
            (Kind::FromAMiddle, 0 < listed && listed < steps),
            (Kind::NothingNew, 0 < listed && listed == steps),
            (Kind::NoChanges, 0 < steps && changes == 0),
            (Kind::EachChanged, 1 < steps && changes == steps),
            (Kind::Long, given.capture.len() == MOST_BYTES),
        ];
        kinds::count(&mut self.tally, kinds);
    }

    fn look_up(&mut self, given: &Lookup) -> Both<ListMemory<CHANGE>> {
        let memory = ListMemory::new(&mut self.bits, &given.capture, "list", &given.list);
        let both = self.call(
            &memory,
            |door, memory: &mut ListMemory<CHANGE>| {
                let (capture, list) = (memory.capture.bytes(), memory.list.entries());
                door.last_change(capture, list, given.step, &mut memory.out.bytes)
            },
            || given.told(),
        );
        let answered = (both.peer.refusal, both.peer.memory.out.bytes);
        let faults = given.faults();
        self.hold(answered, given.by_definition(&faults), || given.told());
        self.count_lookup(given, &faults, answered.1);
        both
    }

    fn count_lookup(&mut self, given: &Lookup, faults: &[u8], [found, ..]: [u8; CHANGE]) {
        kinds::count_pairs(&mut self.tally, faults);
        let answered = faults.is_empty();
        let other_behind = faults == [faults::OTHER_LIST] && given.is_right_up_to_the_step();
        let kinds = [
            (Kind::Found, answered && found == 1),
            (Kind::NoneFound, answered && found != 1),
            (Kind::RightUpToTheStep, other_behind),
            (Kind::Long, answered && given.capture.len() == MOST_BYTES),
        ];
        kinds::count(&mut self.tally, kinds);
    }
}

impl Extension {
    fn told(&self) -> String {
        let Self { listed, count, .. } = self;
        let (bytes, room) = (self.capture.len(), self.table.len());
        format!("{bytes} bytes, {listed} steps listed by {count} entries of {room}")
    }
}

impl Lookup {
    fn told(&self) -> String {
        let (bytes, entries) = (self.capture.len(), self.list.len());
        format!("{bytes} bytes, {entries} entries, step {}", self.step)
    }
}
