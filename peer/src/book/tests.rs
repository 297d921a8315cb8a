use super::*;

/// The book at the end of the paper's "Sequences on both sides".
const PAPER: [u8; 46] = [
    0x01, 0x02, //
    0x02, 0x00, 0x00, 0x00, 0x00, 0x03, 0x00, 0x00, 0x00, 0x1A, 0x00, 0x03, //
    0x02, 0x00, 0x00, 0x00, 0x00, 0x03, 0x00, 0x00, 0x00, 0x26, 0x00, 0x02, //
    0x00, 0x08, 0xA2, 0x08, 0x22, 0x28, 0xA2, 0x28, 0x22, 0x28, 0x62, 0x28, //
    0x00, 0x08, 0xA2, 0x08, 0x22, 0x28, 0xA2, 0x08,
];

/// Every field is another number, so that none can pass for its neighbour.
const UNLIKE: [u8; 18] = [
    0x01, 0x01, //
    0x0D, 0x00, 0x13, 0x45, 0x67, 0x89, 0x00, 0x00, 0x00, 0x0E, 0x00, 0x01, //
    0xDE, 0xAD, 0xBE, 0xEF,
];

/// What an output holds before the writer comes.
const OLD: u8 = 0x5A;

const LONGEST_BOOK: usize = 65_534;

fn contents(entries: &[Entry]) -> Contents {
    let mut contents = Contents::ZEROS;
    contents.count = entries.len() as u8;
    contents.places[..entries.len()].copy_from_slice(entries);
    contents
}

/// With settings that fit.
fn entry_of_steps(steps: u16) -> Entry {
    Entry {
        n: 1,
        steps,
        ..Entry::ZEROS
    }
}

fn with_settings(entry: Entry, (n, mask): (u8, u16)) -> Entry {
    Entry { n, mask, ..entry }
}

fn paper_contents() -> Contents {
    let entry = |offset, steps| Entry {
        n: 2,
        w: 3,
        offset,
        steps,
        ..Entry::ZEROS
    };
    contents(&[entry(26, 3), entry(38, 2)])
}

/// The paper's book with other values at some places.
fn paper_with(changes: &[(usize, u8)]) -> [u8; 46] {
    let mut book = PAPER;
    for &(place, value) in changes {
        book[place] = value;
    }
    book
}

fn refusal_of(book: &[u8]) -> Option<u8> {
    read(book).err().map(Refusal::number)
}

fn joined_bodies(book: &[u8], contents: &Contents) -> Vec<u8> {
    let entries = contents.entries().unwrap();
    entries
        .iter()
        .flat_map(|entry| body(book, entry))
        .copied()
        .collect()
}

/// Writes into an output that is longer than any book with these bodies, and
/// looks behind the book.
fn written(contents: &Contents, bodies: &[u8]) -> Vec<u8> {
    let mut out = vec![OLD; contents_bytes(MOST_ENTRIES) + bodies.len() + 9];
    let length = write(contents, bodies, &mut out).unwrap();
    let behind = out.split_off(length);
    assert!(behind.iter().all(|&byte| byte == OLD));
    out
}

fn written_again(book: &[u8], contents: &Contents) -> Vec<u8> {
    written(contents, &joined_bodies(book, contents))
}

fn write_refusal(contents: &Contents, bodies: &[u8], room: usize) -> Option<u8> {
    let mut out = vec![OLD; room];
    let refusal = write(contents, bodies, &mut out).err()?;
    assert!(out.iter().all(|&byte| byte == OLD), "refused, yet written");
    Some(refusal.number())
}

#[test]
fn the_paper_book_is_read_and_written() {
    let read = read(&PAPER).unwrap();
    assert_eq!(read, paper_contents());
    assert_eq!(body(&PAPER, &read.places[0]), &PAPER[26..38]);
    assert_eq!(body(&PAPER, &read.places[1]), &PAPER[38..46]);
    assert_eq!(written(&read, &PAPER[26..]), PAPER);
}

#[test]
fn each_field_has_its_bytes() {
    let expected = Entry {
        n: 0x0D,
        spare: 0,
        mask: 0x1345,
        w: 0x6789,
        offset: 14,
        steps: 1,
    };
    let read = read(&UNLIKE).unwrap();
    assert_eq!(read, contents(&[expected]));
    assert_eq!(body(&UNLIKE, &read.places[0]), [0xDE, 0xAD, 0xBE, 0xEF]);
    assert_eq!(written_again(&UNLIKE, &read), UNLIKE);
}

#[test]
fn a_book_may_be_empty_or_have_empty_bodies() {
    assert_eq!(read(&[1, 0]), Ok(Contents::ZEROS));
    assert_eq!(written(&Contents::ZEROS, &[]), [1, 0]);
    let quiet = [0x01, 0x01, 1, 0, 0, 0, 0, 0, 0, 0, 0, 0x0E, 0, 0];
    let read = read(&quiet).unwrap();
    assert_eq!(read.places[0].offset, 14);
    assert_eq!(body(&quiet, &read.places[0]), []);
    assert_eq!(written_again(&quiet, &read), quiet);
}

/// Behind so many entries the first offset, 770, takes two of its bytes.
#[test]
fn all_places_may_be_taken() {
    let entries: Vec<Entry> = (0..64).map(|_| entry_of_steps(1)).collect();
    let bodies: Vec<u8> = (0..=255).collect();
    let book = written(&contents(&entries), &bodies);
    assert_eq!(book.len(), 770 + 256);
    assert_eq!(book[..4], [1, 64, 1, 0]);
    assert_eq!(book[8..14], [0, 0, 0x03, 0x02, 0, 1]);
    let read = read(&book).unwrap();
    assert_eq!(read.places[63].offset, 770 + 252);
    assert_eq!(body(&book, &read.places[63]), [252, 253, 254, 255]);
    assert_eq!(joined_bodies(&book, &read), bodies);
}

#[test]
fn the_reader_refuses_by_number() {
    let zeros = vec![0; MOST_BYTES + 1];
    let refused: [(&[u8], u8); 25] = [
        (&zeros, 20),
        (&[], 21),
        (&[1], 21),
        (&[0, 0], 22),
        (&[2, 0], 22),
        (&[1, 65], 23),
        (&[1, 255], 23),
        (&[1, 1], 24),
        (&PAPER[..25], 24),
        (&paper_with(&[(3, 2)]), 25),
        (&paper_with(&[(15, 0x80)]), 25),
        (&paper_with(&[(2, 0)]), 31),
        (&paper_with(&[(2, 15)]), 31),
        (&paper_with(&[(14, 0)]), 31),
        (&paper_with(&[(14, 255)]), 31),
        (&paper_with(&[(5, 4)]), 32),
        (&paper_with(&[(4, 1)]), 32),
        (&paper_with(&[(16, 0x80)]), 32),
        (&paper_with(&[(14, 1), (17, 2)]), 32),
        (&paper_with(&[(11, 0x1B)]), 26),
        (&paper_with(&[(20, 1)]), 26),
        (&PAPER[..45], 27),
        (&paper_with(&[(25, 3)]), 27),
        (&paper_with(&[(25, 1)]), 28),
        (&[1, 0, 0], 28),
    ];
    for (book, number) in refused {
        assert_eq!(refusal_of(book), Some(number));
    }
}

#[test]
fn the_length_of_a_book_has_two_bounds() {
    for (length, refusal) in [
        (0, Some(21)),
        (1, Some(21)),
        (2, None),
        (3, Some(28)),
        (65_536, Some(28)),
        (65_537, Some(20)),
    ] {
        let mut book = vec![1, 0];
        book.resize(length, 0);
        assert_eq!(refusal_of(&book), refusal, "{length}");
    }
}

/// Starts with every fault that can stand beside the others, and mends one after
/// the other.
#[test]
fn the_reader_refuses_in_order() {
    let mut book = vec![0xFF; MOST_BYTES + 1];
    assert_eq!(refusal_of(&book), Some(20));
    book.truncate(1);
    assert_eq!(refusal_of(&book), Some(21));
    book = vec![0xFF; 50];
    assert_eq!(refusal_of(&book), Some(22));
    book[0] = 1;
    assert_eq!(refusal_of(&book), Some(23));
    book[1] = 5;
    assert_eq!(refusal_of(&book), Some(24));
    book[1] = 2;
    for (changes, number) in [
        (&[][..], 25),
        (&[(3, 0)], 31),
        (&[(2, 14)], 32),
        (&[(4, 0x3F)], 26),
        (&[(8, 0), (9, 0), (10, 0), (11, 26)], 27),
        (&[(12, 0), (13, 3)], 25),
        (&[(15, 0)], 31),
        (&[(14, 1)], 32),
        (&[(16, 0), (17, 1)], 26),
        (&[(20, 0), (21, 0), (22, 0), (23, 38)], 27),
        (&[(24, 0), (25, 2)], 28),
    ] {
        for &(place, value) in changes {
            book[place] = value;
        }
        assert_eq!(refusal_of(&book), Some(number), "{changes:?}");
    }
    book.truncate(46);
    assert_eq!(refusal_of(&book), None);
}

/// What a later entry has wrong is not seen while an earlier one is refused.
#[test]
fn entries_are_refused_one_after_the_other() {
    for (changes, number) in [
        (&[(15, 2), (13, 6)][..], 27),
        (&[(15, 2), (11, 0)], 26),
        (&[(23, 0), (13, 6)], 27),
        (&[(15, 2), (3, 2)], 25),
        // Settings of the second, behind the last of the first; and of the first,
        // before the first of the second.
        (&[(14, 0), (13, 6)], 27),
        (&[(14, 0), (11, 0)], 26),
        (&[(16, 1), (13, 6)], 27),
        (&[(16, 1), (11, 0)], 26),
        (&[(5, 4), (14, 0)], 32),
        (&[(5, 4), (15, 2)], 32),
        (&[(2, 0), (15, 2)], 31),
        // The last entry is looked at before what is left over.
        (&[(14, 0), (25, 1)], 31),
        (&[(16, 1), (25, 1)], 32),
        // A sound first body that moves the second from where it belongs.
        (&[(13, 4)], 26),
        (&[(13, 2), (25, 255)], 26),
    ] {
        assert_eq!(refusal_of(&paper_with(changes)), Some(number));
    }
}

/// Every spare byte in either entry, before n and mask that do not fit and with such that
/// do: to the reader, and to the writer, which has bodies that are too long (02, g).
#[test]
fn spare_bytes_are_refused_above_1() {
    for (spare, n) in (0..=255).flat_map(|spare| [(spare, 2), (spare, 0)]) {
        let expected = match (spare, n) {
            (2.., _) => Some(25),
            (_, 0) => Some(31),
            _ => None,
        };
        for (entry, row) in [2, 14].into_iter().enumerate() {
            let book = paper_with(&[(row, n), (row + 1, spare)]);
            assert_eq!(refusal_of(&book), expected, "{spare} {n} {entry}");
            let mut contents = paper_contents();
            contents.places[entry].n = n;
            contents.places[entry].spare = spare;
            assert_eq!(write_refusal(&contents, &[0; 20], 46), expected);
            assert_eq!(write_refusal(&contents, &[0; 21], 0), expected.or(Some(30)));
        }
    }
}

#[test]
fn the_spare_byte_is_written_where_it_is_read() {
    for spares in [[0, 1], [1, 0], [1, 1]] {
        let book = paper_with(&[(3, spares[0]), (15, spares[1])]);
        let read = read(&book).unwrap();
        let of_entries = read.entries().unwrap().iter().map(|entry| entry.spare);
        assert!(of_entries.eq(spares));
        assert_eq!(written(&read, &book[26..]), book);
    }
}

/// By hand from the bounds: n within 1 to 14, no bit of the mask at n or above.
fn refusal_of_settings(n: u8, bit: Option<u8>) -> Option<u8> {
    match (n, bit) {
        (0 | 15.., _) => Some(31),
        (_, Some(bit)) if bit >= n => Some(32),
        _ => None,
    }
}

/// Every n, with no bit of the mask and with each, in either entry: to the reader,
/// and to the writer, which has bodies that are too long and no room as well, and
/// comes to 30 only behind settings that fit.
#[test]
fn settings_are_refused_outside_their_bounds() {
    let bits = || (0..16).map(Some).chain([None]);
    for (n, bit) in (0..=255).flat_map(|n| bits().map(move |bit| (n, bit))) {
        let mask: u16 = bit.map_or(0, |bit| 1 << bit);
        let [high, low] = mask.to_be_bytes();
        let expected = refusal_of_settings(n, bit);
        for (entry, row) in [2, 14].into_iter().enumerate() {
            let book = paper_with(&[(row, n), (row + 2, high), (row + 3, low)]);
            assert_eq!(refusal_of(&book), expected, "{n} {mask} {entry}");
            let mut contents = paper_contents();
            contents.places[entry] = with_settings(contents.places[entry], (n, mask));
            assert_eq!(write_refusal(&contents, &[0; 20], 46), expected);
            assert_eq!(write_refusal(&contents, &[0; 21], 0), expected.or(Some(30)));
        }
    }
}

#[test]
fn the_writer_refuses_by_number() {
    let two = paper_contents();
    for count in 65..=255 {
        let counted = Contents {
            count,
            ..two.clone()
        };
        assert_eq!(write_refusal(&counted, &[0; 20], 46), Some(23));
    }
    for wrong in (0..64).filter(|&length| length != 20) {
        assert_eq!(write_refusal(&two, &vec![0; wrong], 99), Some(30));
    }
    for room in 0..46 {
        assert_eq!(write_refusal(&two, &[0; 20], room), Some(29));
    }
    assert_eq!(write_refusal(&two, &[0; 20], 46), None);
}

/// The first sum is 5 and the second 0 in 16 bits.
#[test]
fn steps_are_not_summed_up_in_16_bits() {
    for (steps, body_bytes) in [([65_535, 6], 20), ([32_768, 32_768], 0)] {
        let contents = contents(&steps.map(entry_of_steps));
        let bodies = vec![0; body_bytes];
        assert_eq!(write_refusal(&contents, &bodies, 46), Some(30));
    }
    let most = contents(&[entry_of_steps(65_535); 64]);
    assert_eq!(write_refusal(&most, &[], MOST_BYTES), Some(30));
    let bodies = vec![0; 64 * 65_535 * 4];
    assert_eq!(write_refusal(&most, &bodies, MOST_BYTES), Some(20));
}

#[test]
fn the_longest_book_is_two_bytes_short_of_the_bound() {
    let longest = contents(&[entry_of_steps(16_380)]);
    let bodies = vec![7; 65_520];
    assert_eq!(write_refusal(&longest, &bodies, LONGEST_BOOK - 1), Some(29));
    let book = written(&longest, &bodies);
    assert_eq!(book.len(), LONGEST_BOOK);
    assert_eq!(written_again(&book, &read(&book).unwrap()), book);
    let longer = contents(&[entry_of_steps(16_381)]);
    assert_eq!(write_refusal(&longer, &vec![7; 65_524], 65_600), Some(20));
}

/// Starts with every fault and mends one after the other.
#[test]
fn the_writer_refuses_in_order() {
    let worst = Entry {
        spare: 2,
        ..entry_of_steps(16_000)
    };
    let mut long = contents(&[with_settings(worst, (15, 0xFFFF)); 2]);
    long.count = 65;
    assert_eq!(write_refusal(&long, &[0], 0), Some(23));
    long.count = 2;
    for (place, spare, settings, number) in [
        (0, 2, (15, 0xFFFF), 25),
        (0, 1, (15, 0xFFFF), 31),
        (0, 1, (14, 0xFFFF), 32),
        (0, 1, (14, 0x3FFF), 25),
        (1, 0, (15, 0xFFFF), 31),
        (1, 0, (1, 0xFFFF), 32),
        (1, 0, (1, 1), 30),
    ] {
        let entry = Entry {
            spare,
            ..long.places[place]
        };
        long.places[place] = with_settings(entry, settings);
        assert_eq!(write_refusal(&long, &[0], 0), Some(number), "{settings:?}");
    }
    assert_eq!(write_refusal(&long, &vec![0; 128_000], 0), Some(20));
    assert_eq!(write_refusal(&paper_contents(), &[0; 20], 0), Some(29));
}

#[test]
fn the_writer_looks_at_no_more_than_it_is_given() {
    let mut given = paper_contents();
    let unseen = Entry {
        spare: 9,
        ..entry_of_steps(9)
    };
    given.places[2..].fill(with_settings(unseen, (0, 0xFFFF)));
    for place in &mut given.places {
        place.offset = u32::MAX;
    }
    assert_eq!(written(&given, &PAPER[26..]), PAPER);
}

#[test]
fn a_body_ends_with_the_book_at_the_latest() {
    let of = |offset, steps| {
        let entry = Entry {
            offset,
            ..entry_of_steps(steps)
        };
        body(&PAPER, &entry)
    };
    assert_eq!(of(44, 1), &PAPER[44..]);
    assert_eq!(of(0, 65_535), PAPER);
    for offset in [46, 47, u32::MAX] {
        assert_eq!(of(offset, 65_535), []);
    }
}

/// The generator with multiplier 48271 over the prime 2^31 - 1.
struct Draws(u64);

impl Draws {
    fn below(&mut self, bound: usize) -> usize {
        self.0 = self.0 * 48_271 % 2_147_483_647;
        (self.0 % bound as u64) as usize
    }

    fn byte(&mut self) -> u8 {
        self.below(256) as u8
    }

    fn word(&mut self) -> u16 {
        self.below(65_536) as u16
    }

    fn either(&mut self, one: usize, other: usize) -> usize {
        [one, other][self.below(2)]
    }

    /// With few steps, as several bodies in small books meet more edges than one
    /// in a great book.
    fn contents(&mut self) -> Contents {
        let most = self.either(2, MOST_ENTRIES);
        let count = self.below(most + 1);
        let entries: Vec<Entry> = (0..count).map(|_| self.entry()).collect();
        contents(&entries)
    }

    fn entry(&mut self) -> Entry {
        let n = 1 + self.below(14) as u8;
        Entry {
            n,
            spare: self.below(2) as u8,
            mask: self.below(1 << n) as u16,
            w: self.word(),
            ..entry_of_steps(self.below(4) as u16)
        }
    }

    fn bodies(&mut self, contents: &Contents) -> Vec<u8> {
        let steps = contents.places.iter().map(|entry| usize::from(entry.steps));
        (0..4 * steps.sum::<usize>()).map(|_| self.byte()).collect()
    }

    fn book(&mut self) -> Vec<u8> {
        let contents = self.contents();
        let bodies = self.bodies(&contents);
        written(&contents, &bodies)
    }

    /// One byte changed, or the last one gone, or one more behind it.
    fn damage(&mut self, book: &mut Vec<u8>) {
        match self.below(8) {
            0 => drop(book.pop()),
            1 => book.push(self.byte()),
            _ => {
                // Half of the time in the first entries, where it tells most.
                let places = self.either(book.len(), book.len().min(26));
                book[self.below(places)] = self.byte();
            }
        }
    }
}

#[test]
fn what_was_written_is_read_and_what_was_read_is_written() {
    let mut draws = Draws(1);
    for _ in 0..500 {
        let given = draws.contents();
        let bodies = draws.bodies(&given);
        let book = written(&given, &bodies);
        let mut read = read(&book).unwrap();
        assert_eq!(joined_bodies(&book, &read), bodies);
        assert_eq!(written_again(&book, &read), book);
        for place in &mut read.places {
            place.offset = 0;
        }
        assert_eq!(read, given);
    }
}

/// A book that is read at all can be written again from what was read.
#[test]
fn a_damaged_book_is_refused_or_written_again() {
    let mut draws = Draws(2);
    let mut seen = std::collections::BTreeSet::new();
    let mut taken = 0;
    for _ in 0..4_000 {
        let mut book = draws.book();
        draws.damage(&mut book);
        match read(&book) {
            Ok(contents) => {
                assert_eq!(written_again(&book, &contents), book);
                taken += 1;
            }
            Err(refusal) => drop(seen.insert(refusal.number())),
        }
    }
    assert!(
        seen.into_iter().eq((21..=28).chain([31, 32])),
        "damage of every kind"
    );
    assert!((700..1_100).contains(&taken), "{taken}");
}
