//! The reader, the writer and the table, over a book that is as long as can be and one of
//! few steps. All of their captures are explained.

use super::{Row, Unit, Work};
use crate::book::{contents_bytes, MOST_BYTES, STEP_BYTES};
use crate::books::capture::{bind, Capture};
use crate::books::runs::{self, COMMON};
use crate::door::{Door, Peer, CONTENTS, PAGE, SIZE};
use crate::draws::Draws;
use std::hint::black_box;
use std::io;

const CAPTURES: usize = 64;
const SEED: u64 = 23;

/// Steps of each of the captures. Of the first a book has room for 64, nearly.
const STEPS: [usize; 2] = [252, 1];

pub fn rows(library: &impl Door) -> io::Result<Vec<Row>> {
    let books = STEPS.map(book_of);
    let readers = books.iter().map(|book| reader_row(library, book));
    let writers = books.iter().map(|book| writer_row(library, book));
    let tables = books.iter().map(|book| table_row(library, book));
    readers.chain(writers).chain(tables).collect()
}

fn book_of(steps: usize) -> Vec<u8> {
    let mut draws = Draws::from_seed(SEED);
    let captures: Vec<Capture> = (0..CAPTURES)
        .map(|_| runs::draw_of_any_settings(&mut draws, COMMON, steps))
        .collect();
    bind(&captures).concat()
}

/// Each side has an output of its own, which is lent again and again.
fn reader_row(library: &impl Door, book: &[u8]) -> io::Result<Row> {
    let [mut first, mut second] = [[0; CONTENTS]; 2];
    let name = format!("reader, book of {} bytes", book.len());
    Work(name, Unit::Bytes, book.len()).measure(
        || read(library, book, &mut first),
        || read(&Peer, book, &mut second),
    )
}

/// The refusal, and a byte of the output that depends on what is read.
fn read(door: &impl Door, book: &[u8], out: &mut [u8; CONTENTS]) -> (u8, u8) {
    let refusal = door.read(black_box(book), out);
    (refusal, black_box(out)[CONTENTS - 1])
}

fn writer_row(library: &impl Door, book: &[u8]) -> io::Result<Row> {
    let (contents, bodies) = parts_of(book);
    let [mut first, mut second] = [(); 2].map(|()| vec![0; MOST_BYTES]);
    let name = format!("writer, book of {} bytes", book.len());
    Work(name, Unit::Bytes, book.len()).measure(
        || write(library, &contents, bodies, &mut first),
        || write(&Peer, &contents, bodies, &mut second),
    )
}

/// What the writer makes that book of.
fn parts_of(book: &[u8]) -> ([u8; CONTENTS], &[u8]) {
    let mut contents = [0; CONTENTS];
    Peer.read(book, &mut contents);
    (contents, &book[contents_bytes(CAPTURES)..])
}

fn write(
    door: &impl Door,
    contents: &[u8; CONTENTS],
    bodies: &[u8],
    out: &mut [u8],
) -> (u8, [u8; SIZE]) {
    let mut size = [0; SIZE];
    let refusal = door.write(black_box(contents), black_box(bodies), out, &mut size);
    black_box(out);
    (refusal, size)
}

/// By the steps, which the time goes with: each is judged, where the reader looks at none.
fn table_row(library: &impl Door, book: &[u8]) -> io::Result<Row> {
    let [mut first, mut second] = [[0; PAGE]; 2];
    let steps = steps_of(book);
    let name = format!("table, book of {} bytes, {steps} steps", book.len());
    Work(name, Unit::Step, steps).measure(
        || table(library, book, &mut first),
        || table(&Peer, book, &mut second),
    )
}

/// Of all captures.
fn steps_of(book: &[u8]) -> usize {
    let (_, bodies) = parts_of(book);
    bodies.len() / STEP_BYTES
}

/// The length of the text, and all of the page, so that every character is compared. To copy
/// it is little beside what is timed.
fn table(door: &impl Door, book: &[u8], page: &mut [u8; PAGE]) -> (usize, [u8; PAGE]) {
    let length = door.table(black_box(book), page);
    (length, *black_box(page))
}

#[cfg(test)]
pub fn check(door: &impl Door) {
    for (book, steps) in STEPS.map(|steps| (book_of(steps), steps)) {
        let mut contents = [0; CONTENTS];
        assert_eq!(read(door, &book, &mut contents).0, 0);
        assert_eq!(usize::from(contents[0]), CAPTURES);
        let (contents, bodies) = parts_of(&book);
        let mut out = vec![0; MOST_BYTES];
        let size = (book.len() as u32).to_be_bytes();
        assert_eq!(write(door, &contents, bodies, &mut out), (0, size));
        assert_eq!(out[..book.len()], book);
        assert_eq!(steps_of(&book), CAPTURES * steps);
        let (length, page) = table(door, &book, &mut [0; PAGE]);
        let text = String::from_utf8_lossy(&page[..length]);
        let explained = format!(" {steps} explained {steps}\n");
        assert_eq!(text.matches(&explained).count(), CAPTURES);
    }
}
