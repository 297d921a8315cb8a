//! The tables of `peer trials`: the capture book over chosen inputs, in a fixed
//! text that can be compared byte for byte with the text of another reading.

mod bodies;
mod digest;
mod reader;
mod rounds;
mod settings;
mod writer;

use crate::block::Block;
use crate::book::{self, Contents, Entry, Refusal, MOST_ENTRIES};
use crate::settings::Settings;
use std::fmt::{self, Display, Formatter};
use std::io::{self, Write};

pub fn write<W: Write>(out: &mut W) -> io::Result<()> {
    let blocks: [Block<W>; 9] = [
        rounds::write,
        reader::write_alone,
        reader::write_pairs,
        reader::write_by_byte,
        reader::write_by_length,
        settings::write_read,
        writer::write,
        settings::write_written,
        bodies::write,
    ];
    blocks.into_iter().try_for_each(|block| block(out))
}

/// The book at the end of the paper's "Sequences on both sides".
pub(crate) const PAPER_BOOK: [u8; 46] = [
    0x01, 0x02, // 1 and the count
    0x02, 0x00, 0x00, 0x00, 0x00, 0x03, 0x00, 0x00, 0x00, 0x1A, 0x00, 0x03, // entry 0
    0x02, 0x00, 0x00, 0x00, 0x00, 0x03, 0x00, 0x00, 0x00, 0x26, 0x00, 0x02, // entry 1
    0x00, 0x08, 0xA2, 0x08, 0x22, 0x28, 0xA2, 0x28, 0x22, 0x28, 0x62, 0x28, // body 0
    0x00, 0x08, 0xA2, 0x08, 0x22, 0x28, 0xA2, 0x08, // body 1
];

/// More than a book may have, so that every length up to the bound and just past
/// it fits in, and a byte written behind the longest book would be seen.
const BUFFER_BYTES: usize = 65_600;

/// What stands in an output buffer before the writer comes.
const UNWRITTEN: u8 = 238;

/// What the reader answers for a book.
struct Reading {
    refusal: u8,
    contents: Contents,
}

impl Reading {
    fn of(book: &[u8]) -> Self {
        let answer = book::read(book);
        Self {
            refusal: refusal_number(&answer),
            contents: answer.unwrap_or(Contents::ZEROS),
        }
    }
}

/// The refusal, the count, and the digest of the contents.
impl Display for Reading {
    fn fmt(&self, f: &mut Formatter) -> fmt::Result {
        let digest = digest::of_contents(&self.contents);
        write!(f, "{} {} {digest}", self.refusal, self.contents.count)
    }
}

/// What the writer answers, and the output buffer after it.
struct Writing {
    refusal: u8,
    length: usize,
    buffer: Vec<u8>,
}

impl Writing {
    /// Lends the writer no more than the first `room` bytes of the buffer.
    fn of(contents: &Contents, bodies: &[u8], room: usize) -> Self {
        let mut buffer = vec![UNWRITTEN; BUFFER_BYTES];
        let answer = book::write(contents, bodies, &mut buffer[..room]);
        Self {
            refusal: refusal_number(&answer),
            length: answer.unwrap_or(0),
            buffer,
        }
    }

    fn book(&self) -> &[u8] {
        &self.buffer[..self.length]
    }
}

/// The refusal, the bytes written, and the digest of the whole buffer: a byte
/// changed where none should be shows in it.
impl Display for Writing {
    fn fmt(&self, f: &mut Formatter) -> fmt::Result {
        let digest = digest::of_bytes(&self.buffer);
        write!(f, "{} {} {digest}", self.refusal, self.length)
    }
}

fn refusal_number<T>(answer: &Result<T, Refusal>) -> u8 {
    answer.as_ref().err().map_or(0, |refusal| refusal.number())
}

/// Contents to be written, of entries with the given settings and steps. All that
/// the writer must not look at holds numbers it would be caught with: the settings of
/// places past the count would be refused (paper: 02, f).
pub(crate) fn contents_to_write(entries: impl IntoIterator<Item = (Settings, u16)>) -> Contents {
    const UNSEEN: Entry = Entry {
        n: 0,
        spare: 9,
        mask: 9,
        w: 9,
        offset: 12_345_678,
        steps: 9,
    };
    let mut contents = Contents {
        count: 0,
        places: [UNSEEN; MOST_ENTRIES],
    };
    for (place, (settings, steps)) in contents.places.iter_mut().zip(entries) {
        let Settings {
            n,
            options,
            mask,
            w,
        } = settings;
        *place = Entry {
            n,
            spare: options,
            mask,
            w,
            steps,
            ..UNSEEN
        };
        contents.count += 1;
    }
    contents
}

/// What the writer needs to be given for the paper's book, besides the bodies.
fn paper_contents() -> Contents {
    let settings = Settings::new(2, 0, 3);
    contents_to_write([(settings, 3), (settings, 2)])
}

/// Bodies of any length, whose bytes differ from their neighbours.
fn rule_bytes(length: usize) -> Vec<u8> {
    (0..=u8::MAX)
        .map(|number| number.wrapping_mul(7).wrapping_add(3))
        .cycle()
        .take(length)
        .collect()
}

#[cfg(test)]
mod tests {
    use super::*;
    use crate::block::printed;

    /// What a comparison byte for byte would trip over first.
    #[test]
    fn the_text_has_its_fixed_shape() {
        let text = printed(write);
        assert!(text.is_ascii() && text.ends_with('\n'));
        let is_plain = |line: &str| line.split(' ').all(|word| !word.is_empty());
        assert!(text.lines().all(is_plain));
        // Six rounds with the lines of their 0, 2, 3, 64, 64 and 1 entries.
        let rounds = 6 * 4 + 134;
        let settings = 1 + 17;
        let reader = (1 + 34) + (1 + 34) + (1 + 26) + 2 + settings;
        let writer = (1 + 23 * 23) + settings;
        assert_eq!(text.lines().count(), rounds + reader + writer + (1 + 12));
    }

    #[test]
    fn blocks_stand_in_their_order() {
        let text = printed(write);
        let is_head = |line: &&str| line.starts_with(char::is_alphabetic);
        let is_of_a_round = |line: &&str| {
            let word = line.split(' ').next();
            word.is_some_and(|word| ["round", "write", "read", "again"].contains(&word))
        };
        let heads = text.lines().filter(is_head);
        let heads: Vec<&str> = heads.filter(|line| !is_of_a_round(line)).collect();
        let expected = [
            "reader alone",
            "reader pairs",
            "reader bytes",
            "reader lengths",
            "reader settings",
            "writer",
            "writer settings",
            "bodies",
        ];
        assert_eq!(heads, expected);
    }

    /// Were they seen, it would be by several refusals.
    #[test]
    fn the_writer_is_caught_with_what_it_must_not_look_at() {
        let mut contents = paper_contents();
        let unseen = contents.places[2];
        assert_eq!((unseen.n, unseen.spare, unseen.mask), (0, 9, 9));
        assert_eq!((unseen.w, unseen.offset, unseen.steps), (9, 12_345_678, 9));
        contents.count = 3;
        let refusal = |contents: &Contents| {
            let bodies = &PAPER_BOOK[26..];
            Writing::of(contents, bodies, BUFFER_BYTES).refusal
        };
        assert_eq!(refusal(&contents), 25);
        contents.places[2].spare = 0;
        assert_eq!(refusal(&contents), 31);
    }

    #[test]
    fn rule_bytes_follow_their_rule() {
        let bytes = rule_bytes(1_000);
        assert_eq!(bytes[..4], [3, 10, 17, 24]);
        for (place, byte) in (0..1_000).zip(bytes) {
            assert_eq!(u32::from(byte), (7 * place + 3) % 256);
        }
    }

    #[test]
    fn the_writer_gets_what_makes_the_paper_book() {
        let writing = Writing::of(&paper_contents(), &PAPER_BOOK[26..], BUFFER_BYTES);
        assert_eq!(writing.book(), PAPER_BOOK);
        assert!(writing.to_string().starts_with("0 46 "));
    }
}
