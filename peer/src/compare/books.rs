//! The reader and the writer, over sound and damaged books and contents.

use super::drawn_book::{self, Contents, Order};
use super::lent::{Lent, LentSlice, Memory, Part};
use super::tally::{both, hex, Both, Tally};
use crate::book::contents_bytes;
use crate::door::{Door, CONTENTS, SIZE};
use crate::draws::Bits;

pub const PARTS: usize = 100;
const BOOKS: usize = 1_000;

pub const READ_KINDS: [&str; 3] = ["sound", "damaged", "read and written again"];
pub const WRITE_KINDS: [&str; 3] = ["sound", "damaged", "written and read again"];
const SOUND: usize = 0;
const DAMAGED: usize = 1;
const THERE_AND_BACK: usize = 2;

#[derive(Clone, PartialEq)]
struct ReadMemory {
    book: LentSlice,
    out: Lent<CONTENTS>,
}

impl Memory for ReadMemory {
    fn parts(&self) -> Vec<(&'static str, Part<'_>)> {
        vec![("book", self.book.part()), ("out", self.out.part())]
    }
}

#[derive(Clone, PartialEq)]
struct WriteMemory {
    contents: Lent<CONTENTS>,
    bodies: LentSlice,
    out: LentSlice,
    size: Lent<SIZE>,
}

impl Memory for WriteMemory {
    fn parts(&self) -> Vec<(&'static str, Part<'_>)> {
        vec![
            ("contents", self.contents.part()),
            ("bodies", self.bodies.part()),
            ("out", self.out.part()),
            ("size", self.size.part()),
        ]
    }
}

/// Books to the reader; what it takes goes on to the writer, which gives the book
/// again.
pub fn readings(library: &dyn Door, part: usize) -> Tally {
    let mut bits = Bits::from_seeds(8, part);
    let mut tally = Tally::default();
    for _ in 0..BOOKS {
        let (book, damaged) = drawn_book::draw(&mut bits);
        tally.count(if damaged { DAMAGED } else { SOUND });
        let reading = read(library, &mut bits, &book, &mut tally);
        if reading.library.refusal == 0 {
            let contents = reading.library.memory.out.bytes;
            write_again(library, &mut bits, contents, &book, &mut tally);
        }
    }
    tally
}

fn write_again(
    library: &dyn Door,
    bits: &mut Bits,
    contents: Contents,
    book: &[u8],
    tally: &mut Tally,
) {
    // There are none in a book that is cut in its contents. That the library took it
    // has been told as a difference, and is no reason to stop.
    let bodies = book.get(contents_bytes(contents[0].into())..);
    let order = Order {
        contents,
        bodies: bodies.unwrap_or_default().to_vec(),
        room: book.len() + bits.place(20),
        damaged: false,
    };
    let writing = write(library, bits, &order, tally);
    tally.count(THERE_AND_BACK);
    if written_by_library(&writing) != book {
        tally.differ(|| format!("written again it is another book: {}", hex(book)));
    }
}

/// Contents to the writer; what it writes goes on to the reader, which gives the
/// fields again.
pub fn writings(library: &dyn Door, part: usize) -> Tally {
    let mut bits = Bits::from_seeds(9, part);
    let mut tally = Tally::default();
    for _ in 0..BOOKS {
        let order = drawn_book::draw_order(&mut bits);
        tally.count(if order.damaged { DAMAGED } else { SOUND });
        let writing = write(library, &mut bits, &order, &mut tally);
        if writing.library.refusal == 0 {
            read_again(library, &mut bits, &order, &writing, &mut tally);
        }
    }
    tally
}

fn read_again(
    library: &dyn Door,
    bits: &mut Bits,
    order: &Order,
    writing: &Both<WriteMemory>,
    tally: &mut Tally,
) {
    let book = written_by_library(writing);
    let reading = read(library, bits, book, tally);
    tally.count(THERE_AND_BACK);
    let read = &reading.library.memory.out.bytes;
    let bodies = book.get(contents_bytes(order.contents[0].into())..);
    if !drawn_book::same_fields(read, &order.contents) || bodies != Some(&order.bodies[..]) {
        tally.differ(|| format!("read again it is not what was handed in: {}", hex(book)));
    }
}

/// As long as the library says, if it says so of its output.
fn written_by_library(writing: &Both<WriteMemory>) -> &[u8] {
    let memory = &writing.library.memory;
    let size = u32::from_be_bytes(memory.size.bytes) as usize;
    memory.out.bytes().get(..size).unwrap_or_default()
}

fn read(library: &dyn Door, bits: &mut Bits, book: &[u8], tally: &mut Tally) -> Both<ReadMemory> {
    let memory = ReadMemory {
        book: LentSlice::new(bits, book),
        out: Lent::drawn(bits),
    };
    let both = both(library, &memory, |door, memory| {
        door.read(memory.book.bytes(), &mut memory.out.bytes)
    });
    tally.add(&both, || format!("read a book of {} bytes", book.len()));
    both
}

fn write(
    library: &dyn Door,
    bits: &mut Bits,
    order: &Order,
    tally: &mut Tally,
) -> Both<WriteMemory> {
    let memory = WriteMemory {
        contents: Lent::new(bits, order.contents),
        bodies: LentSlice::new(bits, &order.bodies),
        out: LentSlice::drawn(bits, order.room),
        size: Lent::drawn(bits),
    };
    let both = both(library, &memory, |door, memory| {
        let WriteMemory {
            contents,
            bodies,
            out,
            size,
        } = memory;
        door.write(
            &contents.bytes,
            bodies.bytes(),
            out.bytes_mut(),
            &mut size.bytes,
        )
    });
    tally.add(&both, || {
        let (bytes, room) = (order.bodies.len(), order.room);
        format!("write {bytes} bytes of bodies, room for {room}")
    });
    both
}
