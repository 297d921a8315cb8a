//! The table of a book, whose text is compared with all of the page that it is put on: of
//! drawn books, sound and damaged, of inputs about the bounds of a book, of the book that
//! has the longest text, and of books with every number that a line can have.

use super::captures::{alter, draw_run, ALTERATIONS};
use super::drawn_book::{self, damage_often};
use super::lent::{Lent, LentSlice, Memory, Part};
use super::tally::{Both, Caller, Tally};
use super::Due;
use crate::book::{self, MOST_ENTRIES};
use crate::books::capture::{bind, has_alarm, Capture};
use crate::books::longest::{self, still, CHARACTERS};
use crate::books::runs::LONGEST;
use crate::door::{Door, PAGE};
use crate::draws::{Bits, Draws};
use crate::settings::Settings;
use std::borrow::Cow;
use std::ops::RangeInclusive;

pub const DRAWN_PARTS: usize = 100;
/// Of each part, behind those that all parts have.
const BOOKS: usize = 500;

/// No bytes, too few, as many as a book has at least, and on both sides of the most.
const LENGTHS: [usize; 6] = [0, 1, 2, 65_536, 65_537, 70_000];

const WITHOUT_CAPTURES: [u8; 2] = [1, 0];

pub const NUMBER_PARTS: usize = 60;

/// The first three are of captures, the others of books.
pub const DRAWN_KINDS: [Due; 9] = [
    ("captures explained", 100_000),
    ("captures unexplained", 50_000),
    ("captures explained with alarms", 20_000),
    ("sound", 10_000),
    ("damaged", 20_000),
    ("by length", 1_800),
    ("no captures", 500),
    ("64 captures", 2_000),
    ("of 1,708 characters", 100),
];
const EXPLAINED: usize = 0;
const UNEXPLAINED: usize = 1;
const EXPLAINED_WITH_ALARMS: usize = 2;
const SOUND: usize = 3;
const DAMAGED: usize = 4;
const BY_LENGTH: usize = 5;
const NO_CAPTURES: usize = 6;
const MOST_CAPTURES: usize = 7;
const LONGEST_TEXT: usize = 8;

/// A capture of no steps has no last one to go wrong, and is explained both times.
pub const NUMBER_KINDS: [Due; 2] = [
    ("captures explained", LONGEST as u64 + 2),
    ("captures unexplained", LONGEST as u64),
];

#[derive(Clone, PartialEq)]
struct TableMemory {
    book: LentSlice,
    page: Lent<PAGE>,
    /// What is answered in the place of a refusal.
    length: usize,
}

impl TableMemory {
    fn new(bits: &mut Bits, book: &[u8]) -> Self {
        Self {
            book: LentSlice::new(bits, book),
            page: Lent::drawn(bits),
            length: 0,
        }
    }

    /// The refusal is what the text says.
    fn call(&mut self, door: &dyn Door) -> u8 {
        self.length = door.table(self.book.bytes(), &mut self.page.bytes);
        refusal_in(self.text()).unwrap_or_default()
    }

    /// As long as the side says, if it says so of its page.
    fn text(&self) -> &[u8] {
        self.page.bytes.get(..self.length).unwrap_or_default()
    }
}

impl Memory for TableMemory {
    fn parts(&self) -> Vec<(&'static str, Part<'_>)> {
        let length = self.length.to_be_bytes().to_vec();
        let length = [Vec::new(), length, Vec::new()].map(Cow::Owned);
        vec![
            ("book", self.book.part()),
            ("page", self.page.part()),
            ("length", length),
        ]
    }
}

fn refusal_in(text: &[u8]) -> Option<u8> {
    let number = text.strip_prefix(b"refused ")?.strip_suffix(b"\n")?;
    str::from_utf8(number).ok()?.parse().ok()
}

pub fn drawn(library: &dyn Door, part: usize) -> Tally {
    let mut caller = Caller::new(library, 26, part);
    let mut draws = caller.bits.draws();
    caller.longest();
    caller.table(&WITHOUT_CAPTURES);
    for length in LENGTHS {
        for book in of_length(&mut caller.bits, length) {
            caller.tally.count(BY_LENGTH);
            caller.table(&book);
        }
    }
    for _ in 0..BOOKS {
        let (book, damaged) = draw(&mut caller.bits, &mut draws);
        caller.tally.count(if damaged { DAMAGED } else { SOUND });
        caller.table(&book);
    }
    caller.tally
}

/// Zeros, any bytes, and the longest book, cut or with zeros behind it.
fn of_length(bits: &mut Bits, length: usize) -> [Vec<u8>; 3] {
    let mut book = of_one_still(LONGEST, false);
    book.resize(length, 0);
    [vec![0; length], bits.bytes(length), book]
}

/// Bodies of any bytes are seldom explained beyond their first steps; those of runs are,
/// unless they are altered.
fn draw(bits: &mut Bits, draws: &mut Draws) -> (Vec<u8>, bool) {
    if bits.once_in(4) {
        return drawn_book::draw(bits);
    }
    let count = match bits.below(8) {
        0 => MOST_ENTRIES,
        1 => 1 + bits.place(MOST_ENTRIES),
        _ => 1 + bits.place(6),
    };
    let captures: Vec<Capture> = (0..count).map(|_| draw_capture(bits, draws)).collect();
    let mut book = bind(&captures).concat();
    let damaged = damage_often(bits, &mut book);
    (book, damaged)
}

fn draw_capture(bits: &mut Bits, draws: &mut Draws) -> Capture {
    let mut run = draw_run(bits, draws);
    if bits.once_in(3) {
        let sort = bits.below(ALTERATIONS);
        alter(bits, draws, &mut run, sort);
    }
    run
}

/// Every number of steps, of a capture that is explained and of one that is not, at its
/// last step.
pub fn numbers(library: &dyn Door, part: usize) -> Tally {
    let mut caller = Caller::new(library, 27, part);
    for steps in (part..=LONGEST).step_by(NUMBER_PARTS) {
        for wrong in [false, true] {
            caller.table(&of_one_still(steps, wrong));
        }
    }
    caller.tally
}

/// A book of one capture, in groups of all sizes by turns.
fn of_one_still(steps: usize, wrong: bool) -> Vec<u8> {
    let settings = Settings::new(1 + (steps % 14) as u8, 0, 0);
    bind(&[still(settings, steps, wrong)]).concat()
}

impl Caller<'_> {
    fn table(&mut self, book: &[u8]) {
        self.table_of(book, 0..=CHARACTERS);
    }

    fn longest(&mut self) {
        self.table_of(&longest::book(), CHARACTERS..=CHARACTERS);
    }

    /// With the characters that its text may have.
    fn table_of(&mut self, book: &[u8], characters: RangeInclusive<usize>) {
        let memory = TableMemory::new(&mut self.bits, book);
        let given = || format!("the table of {} bytes", book.len());
        let both = self.call(&memory, |door, memory| memory.call(door), given);
        for (side, length) in lengths(&both) {
            if !characters.contains(&length) {
                let told = || format!("{}: {length} characters by the {side}", given());
                self.tally.differ(told);
            }
        }
        count(&mut self.tally, book, both.peer.memory.text());
    }
}

fn lengths(both: &Both<TableMemory>) -> [(&'static str, usize); 2] {
    let sides = [("library", &both.library), ("peer", &both.peer)];
    sides.map(|(name, side)| (name, side.memory.length))
}

/// With the text of this side. A book that is refused has no captures to count.
fn count(tally: &mut Tally, book: &[u8], text: &[u8]) {
    let Ok(contents) = book::read(book) else {
        return;
    };
    let entries = contents.entries().unwrap_or_default();
    tally.count_those([
        (NO_CAPTURES, entries.is_empty()),
        (MOST_CAPTURES, entries.len() == MOST_ENTRIES),
        (LONGEST_TEXT, text.len() == CHARACTERS),
    ]);
    let text = String::from_utf8_lossy(text);
    for (entry, line) in entries.iter().zip(text.lines().skip(1)) {
        let explained = line.contains(" explained ");
        let (rows, _) = book::body(book, entry).as_chunks();
        let alarms = rows.iter().any(has_alarm);
        tally.count_those([
            (EXPLAINED, explained),
            (UNEXPLAINED, !explained),
            (EXPLAINED_WITH_ALARMS, explained && alarms),
        ]);
    }
}
