use super::*;
use crate::books::longest;
use crate::settings::Settings;
use crate::trials::PAPER_BOOK;

/// A fill that no answer has in every byte.
const FILL: u8 = 0xEE;

/// The group of the paper's sequences.
const OF_TWO: Settings = Settings::new(2, 0, 3);

/// The paper's P1 to P3 and P10, by the bytes of the door.
#[test]
fn steps_of_the_paper_in_bytes() {
    let mut fresh = [FILL; RECORD];
    assert_eq!(Peer.fresh(OF_TWO, &mut fresh), 0);
    assert_eq!(fresh, [2, 0, 0, 0, 0, 3, 0x00, 0x08, 0x00, 0, 0, 0x00]);
    let mut out = [FILL; STEP];
    assert_eq!(
        Peer.step(&fresh, [0x00, 0x08], &[0, 0, 1], 0, 0, &mut out),
        0
    );
    let p2 = [
        0, 2, 0, 0, 0, 0, 3, 0x00, 0x08, 0xA2, 0, 0, 0x00, 0xA2, 0x08, 0, 0, 0, 0,
    ];
    assert_eq!(out, p2);
    let record = out[1..].first_chunk().copied().unwrap();
    Peer.step(&record, [0x22, 0x28], &[0, 0, 1], 0, 0, &mut out);
    let p3 = [
        0, 2, 0, 0, 0, 0, 3, 0x22, 0x28, 0xA2, 0, 0, 0x00, 0xA2, 0x28, 2, 2, 0, 0,
    ];
    assert_eq!(out, p3);
    Peer.step(&fresh, [0x00, 0x08], &[2, 0, 0], 3, 1, &mut out);
    assert_eq!(out[13..], [0xD0, 0x08, 0, 0, 0, 2]);
}

/// P10 with hold, and the step after it: FS 1 is taken, and comes back (02, g).
#[test]
fn steps_with_hold_in_bytes() {
    let mut fresh = [FILL; RECORD];
    assert_eq!(Peer.fresh(OF_TWO.with_hold(), &mut fresh), 0);
    assert_eq!(fresh, [2, 1, 0, 0, 0, 3, 0x00, 0x08, 0x00, 0, 0, 0x00]);
    let mut out = [FILL; STEP];
    Peer.step(&fresh, [0x00, 0x08], &[2, 0, 0], 3, 1, &mut out);
    let outranked = [
        0, 2, 1, 0, 0, 0, 3, 0x00, 0x08, 0xD0, 0, 0, 0xE1, 0xD0, 0x08, 0, 0, 0, 1,
    ];
    assert_eq!(out, outranked);
    let record = out[1..].first_chunk().copied().unwrap();
    Peer.step(&record, [0x21, 0x18], &[0, 0, 0], 0, 0, &mut out);
    let back = [
        0, 2, 1, 0, 0, 0, 3, 0x21, 0x18, 0xE1, 0, 0, 0xE1, 0xE1, 0x18, 1, 1, 0, 0,
    ];
    assert_eq!(out, back);
}

/// An alarm after P3, by the bytes of the door: the accepted pair is 00 08, and
/// D0 08 is sent (02, c).
#[test]
fn a_step_with_an_alarm_in_bytes() {
    let record = [2, 0, 0, 0, 0, 3, 0x22, 0x28, 0xA2, 0, 0, 0x00];
    let mut out = [FILL; STEP];
    assert_eq!(
        Peer.step(&record, [0x22, 0x2F], &[0, 0, 1], 0, 0, &mut out),
        0
    );
    let expected = [
        0, 2, 0, 0, 0, 0, 3, 0x00, 0x08, 0xD0, 0, 0, 0x00, 0xD0, 0x08, 0, 0, 0, 0,
    ];
    assert_eq!(out, expected);
}

#[test]
fn a_refused_step_answers_zeros_and_the_record_it_was_given() {
    let odd: [u8; RECORD] = [15, 1, 2, 3, 4, 5, 6, 7, 8, 9, 10, 11];
    let other_options = [2, 255, 0, 0, 0, 3, 0x00, 0x08, 0x00, 0, 0, 0xE1];
    let not_held = [2, 1, 0, 0, 0, 3, 0x00, 0x08, 0x00, 0, 0, 0xE3];
    let without_hold = [2, 0, 0, 0, 0, 3, 0x00, 0x08, 0x00, 0, 0, 0xE1];
    for (record, refusal) in [
        (odd, 1),
        (other_options, 3),
        (not_held, 3),
        (without_hold, 3),
    ] {
        let mut out = [FILL; STEP];
        let answer = Peer.step(&record, [0x00, 0x08], &[], 9, 9, &mut out);
        assert_eq!(answer, refusal);
        let expected = [&[refusal][..], &record, &[0; 6]].concat();
        assert_eq!(out[..], expected);
    }
}

#[test]
fn records_are_big_endian_and_come_back() {
    let bytes: [u8; RECORD] = [
        14, 7, 0x2A, 0x55, 0x12, 0x34, 0xA2, 0x28, 0x63, 0x01, 0x02, 0xE9,
    ];
    let record = record_of(&bytes);
    assert_eq!(
        (record.mask, record.w, record.left),
        (0x2A55, 0x1234, 0x0102)
    );
    assert_eq!((record.accepted, record.sent), ([0xA2, 0x28], 0x63));
    assert_eq!((record.options, record.held), (7, 0xE9));
    assert_eq!(record_bytes(&record), bytes);
}

#[test]
fn a_refused_fresh_record_is_zeros() {
    for (n, options, mask, refusal) in [
        (0, 0, 0xFFFF, 1),
        (15, 1, 0, 1),
        (2, 1, 4, 2),
        (2, 2, 0, 25),
        (0, 255, 0xFFFF, 25),
    ] {
        let mut record = [FILL; RECORD];
        let settings = Settings {
            options,
            ..Settings::new(n, mask, 3)
        };
        assert_eq!(Peer.fresh(settings, &mut record), refusal);
        assert_eq!(record, [0; RECORD]);
    }
}

#[test]
fn a_k1_is_its_rank_its_sizes_and_its_mark() {
    for (k1, expected) in [
        (0x00, [0, 1, 14, 0]),
        (0x11, [0, 0, 0, 3]),
        (0x23, [0, 3, 14, 0]),
        (0xA2, [4, 2, 14, 0]),
        (0xAF, [0, 0, 0, 4]),
        (0xD0, [9, 1, 14, 0]),
        (0xDE, [7, 14, 14, 0]),
        (0xF1, [0, 0, 0, 4]),
    ] {
        let mut out = [FILL; K1];
        Peer.k1(k1, &mut out);
        assert_eq!(out, expected, "{k1:02X}");
    }
}

#[test]
fn decoded_bytes_are_the_mark_the_record_or_the_alarm() {
    for (n, pair, refusal, expected) in [
        (2, [0xA2, 0x1E], 0, [0, 0b1010, 2, 1, 1, 0]),
        (2, [0x00, 0x28], 0, [0, 0, 0, 2, 0, 0]),
        (2, [0x11, 0x08], 0, [3, 0, 0, 0, 0, 0]),
        (2, [0xA3, 0x08], 0, [4, 0, 0, 0, 0, 0]),
        (2, [0xA2, 0x1F], 0, [0, 0, 0, 0, 0, 1]),
        (2, [0x11, 0xFF], 0, [0, 0, 0, 0, 0, 1]),
        (2, [0xA2, 0x17], 0, [1, 0, 0, 0, 0, 0]),
        (2, [0xA2, 0x1D], 0, [2, 0, 0, 0, 0, 0]),
        (0, [0x00, 0x08], 1, [0; 6]),
        (15, [0xA2, 0x1F], 1, [0; 6]),
    ] {
        let mut out = [FILL; DECODED];
        assert_eq!(Peer.decode(n, pair[0], pair[1], &mut out), refusal);
        assert_eq!(out, expected, "{pair:02X?}");
    }
}

#[test]
fn a_remote_flag_above_one_is_refused_behind_the_size() {
    for (n, remote, refusal, expected) in [
        (2, 0, 0, [0xA2, 0x18]),
        (2, 1, 0, [0xA2, 0x1E]),
        (2, 2, 10, [0; 2]),
        (2, 255, 10, [0; 2]),
        (1, 1, 10, [0; 2]),
        (15, 2, 1, [0; 2]),
    ] {
        let mut out = [FILL; ENCODED];
        let answer = Peer.encode(n, 0b1010, 2, 1, remote, &mut out);
        assert_eq!((answer, out), (refusal, expected), "{n} {remote}");
    }
}

#[test]
fn verdicts_are_a_kind_and_a_number() {
    let explained = [0x00, 0x08, 0x00, 0x08].repeat(16_384);
    let mut wrong = explained.clone();
    wrong[4 * 300 + 3] = 0x18;
    for (n, options, capture, refusal, expected) in [
        (2, 0, &explained[..], 0, [1, 0x40, 0]),
        (2, 0, &[], 0, [1, 0, 0]),
        (2, 0, &wrong, 0, [2, 1, 44]),
        (2, 1, &explained, 0, [1, 0x40, 0]),
        (2, 1, &wrong, 0, [2, 1, 44]),
        (2, 1, &explained[..3], 8, [0; 3]),
        (0, 1, &explained, 1, [0; 3]),
        (0, 2, &explained[..3], 25, [0; 3]),
    ] {
        let mut out = [FILL; VERDICT];
        let settings = Settings {
            options,
            ..Settings::new(n, 0, 3)
        };
        let answer = Peer.judge(settings, capture, &mut out);
        assert_eq!((answer, out), (refusal, expected), "{n} {options}");
    }
}

/// The first capture of the paper's book, and more of it than is explained: the words of
/// the steps are numbers of this machine, and nothing else is written.
#[test]
fn causes_are_words_and_a_verdict() {
    let capture = &PAPER_BOOK[26..38];
    let longer = [capture, &[0x22, 0x28, 0xA2, 0x08]].concat();
    const EMPTY: (u32, u16) = (0xEEEE_EEEE, 0xEEEE);
    let found = (
        [0b01_00_00, 0b01_00_00, 0, EMPTY.0, EMPTY.0],
        [0, 0, 0, EMPTY.1, EMPTY.1],
    );
    let untouched = ([EMPTY.0; 5], [EMPTY.1; 5]);
    for ((n, options, mask), capture, rooms, refusal, left, verdict) in [
        ((2, 0, 0), capture, [5, 5], 0, found, [1, 0, 3]),
        ((2, 1, 0), capture, [5, 5], 0, found, [1, 0, 3]),
        ((2, 0, 0), capture, [3, 3], 0, found, [1, 0, 3]),
        ((2, 0, 0), &longer, [4, 5], 0, untouched, [2, 0, 3]),
        ((2, 1, 0), &longer, [4, 5], 0, untouched, [2, 0, 3]),
        ((2, 0, 0), &longer, [3, 5], 11, untouched, [0; 3]),
        ((2, 1, 0), &longer, [5, 3], 11, untouched, [0; 3]),
        ((2, 0, 0), &longer[..13], [0, 0], 8, untouched, [0; 3]),
        ((2, 1, 4), &longer[..13], [0, 0], 2, untouched, [0; 3]),
        ((0, 0, 4), &longer[..13], [0, 0], 1, untouched, [0; 3]),
        ((0, 2, 4), &longer[..13], [0, 0], 25, untouched, [0; 3]),
        ((2, 255, 0), capture, [5, 5], 25, untouched, [0; 3]),
    ] {
        let (mut conditions, mut commands) = untouched;
        let tables = Tables {
            conditions: &mut conditions[..rooms[0]],
            commands: &mut commands[..rooms[1]],
        };
        let mut out = [FILL; VERDICT];
        let settings = Settings {
            options,
            ..Settings::new(n, mask, 3)
        };
        let answer = Peer.causes(settings, capture, tables, &mut out);
        let shown = format!("{settings:?} {rooms:?}");
        assert_eq!((answer, out), (refusal, verdict), "{shown}");
        assert_eq!((conditions, commands), left, "{shown}");
    }
}

/// FS 1 is held, and cleared for a fail of section 2; with hold for one of section 0 too,
/// which it would outlast.
#[test]
fn causes_of_two_steps_in_words() {
    for (settings, sent, expected) in [
        (OF_TWO, 0xC2, ([0, 0b10_00_00], [0x0301, 0x0100])),
        (
            OF_TWO.with_hold(),
            0xC2,
            ([0, 0b10_00_00], [0x0301, 0x0100]),
        ),
        (OF_TWO, 0xD0, ([0, 0b10], [0x0301, 0x0000])),
        (OF_TWO.with_hold(), 0xD0, ([0, 0b10], [0x0301, 0x0100])),
    ] {
        let capture = [0x00, 0x08, 0xE1, 0x08, 0x00, 0x08, sent, 0x08];
        let (mut conditions, mut commands) = ([0; 2], [0; 2]);
        let tables = Tables {
            conditions: &mut conditions,
            commands: &mut commands,
        };
        let answer = Peer.causes(settings, &capture, tables, &mut [0; VERDICT]);
        assert_eq!((answer, (conditions, commands)), (0, expected));
    }
}

/// The captures of the paper's book: the number of changes stands in the output with its
/// upper byte first, and a table has entries of this machine.
#[test]
fn switches_are_entries_and_their_number() {
    let capture = &PAPER_BOOK[26..38];
    const EMPTY: u16 = 0xEEEE;
    for (listed, count, table, refusal, left, changes) in [
        (0, 0, [EMPTY; 3], 0, [0, 2, EMPTY], [0, 2]),
        (2, 1, [0, EMPTY, EMPTY], 0, [0, 2, EMPTY], [0, 2]),
        (3, 2, [0, 2, EMPTY], 0, [0, 2, EMPTY], [0, 2]),
        (4, 2, [0, 2, EMPTY], 13, [0, 2, EMPTY], [0, 0]),
        (2, 2, [0, 2, EMPTY], 16, [0, 2, EMPTY], [0, 0]),
    ] {
        let (mut lent, mut out) = (table, [FILL; CHANGES]);
        let answer = Peer.switches(capture, listed, count, &mut lent, &mut out);
        assert_eq!((answer, lent, out), (refusal, left, changes), "{listed}");
    }
    let each: Vec<u8> = (0..300)
        .flat_map(|step| [0, 0, 1 + step as u8 % 2, 0])
        .collect();
    let (mut table, mut out) = ([EMPTY; 300], [FILL; CHANGES]);
    assert_eq!(Peer.switches(&each, 0, 0, &mut table, &mut out), 0);
    assert_eq!((table[299], out), (299, [1, 44]));
    assert_eq!(Peer.switches(&each, 0, 0, &mut table[..299], &mut out), 12);
    assert_eq!(out, [0; CHANGES]);
}

#[test]
fn a_last_change_is_a_flag_and_its_step() {
    let mut capture = [0x00, 0x08, 0x00, 0x08].repeat(600);
    capture[4 * 300 + 2] = 0xE1;
    for (list, step, refusal, expected) in [
        (&[300, 301][..], 299, 0, [0; CHANGE]),
        (&[300, 301], 300, 0, [1, 1, 44]),
        (&[300, 301], 599, 0, [1, 1, 45]),
        (&[300, 301], 600, 13, [0; CHANGE]),
        (&[300], 300, 16, [0; CHANGE]),
    ] {
        let mut out = [FILL; CHANGE];
        let answer = Peer.last_change(&capture, list, step, &mut out);
        assert_eq!((answer, out), (refusal, expected), "{list:?} {step}");
    }
}

#[test]
fn contents_stand_behind_their_count_as_in_the_book() {
    let mut contents = [FILL; CONTENTS];
    assert_eq!(Peer.read(&PAPER_BOOK, &mut contents), 0);
    assert_eq!(contents[..25], PAPER_BOOK[1..26]);
    assert!(contents[25..].iter().all(|&byte| byte == 0));
    assert_eq!(Peer.read(&PAPER_BOOK[..45], &mut contents), 27);
    assert_eq!(contents, [0; CONTENTS]);
}

/// In the last entry, behind a good one (02, f).
#[test]
fn a_book_with_unfit_settings_is_neither_read_nor_written() {
    for (n, mask, refusal) in [(0, 0, 31), (15, 0x80, 31), (14, 0x40, 32), (1, 1, 32)] {
        let mut book = PAPER_BOOK;
        book[14] = n;
        book[16] = mask;
        let mut read = [FILL; CONTENTS];
        assert_eq!(Peer.read(&book, &mut read), refusal);
        assert_eq!(read, [0; CONTENTS]);
        let mut contents = [FILL; CONTENTS];
        contents[..25].copy_from_slice(&book[1..26]);
        let (mut out, mut size) = ([FILL; 50], [FILL; SIZE]);
        let refused = Peer.write(&contents, &book[26..], &mut out, &mut size);
        assert_eq!((refused, out, size), (refusal, [FILL; 50], [0; SIZE]));
    }
}

/// A spare byte above 1, in the last entry, is refused before its settings; 1 is read and
/// written (02, g).
#[test]
fn spare_bytes_are_read_and_written() {
    for (spare, n, refusal) in [(1, 2, 0), (2, 2, 25), (255, 0, 25), (1, 0, 31)] {
        let mut book = PAPER_BOOK;
        (book[14], book[15]) = (n, spare);
        let mut read = [FILL; CONTENTS];
        assert_eq!(Peer.read(&book, &mut read), refusal);
        let mut contents = [FILL; CONTENTS];
        contents[..25].copy_from_slice(&book[1..26]);
        let (mut out, mut size) = ([FILL; 46], [FILL; SIZE]);
        let answer = Peer.write(&contents, &book[26..], &mut out, &mut size);
        let (left, length) = match refusal {
            0 => (book, [0, 0, 0, 46]),
            _ => ([FILL; 46], [0; SIZE]),
        };
        assert_eq!((answer, out, size), (refusal, left, length), "{spare}");
        if refusal > 0 {
            contents = [0; CONTENTS];
        } else {
            contents[25..].fill(0);
        }
        assert_eq!(read, contents);
    }
}

/// The offset bytes, and the places past the count, are as they may be.
#[test]
fn a_book_is_written_from_its_contents() {
    let mut contents = [FILL; CONTENTS];
    contents[..25].copy_from_slice(&PAPER_BOOK[1..26]);
    contents[7..11].fill(FILL);
    let mut out = [FILL; 50];
    let mut size = [FILL; SIZE];
    assert_eq!(
        Peer.write(&contents, &PAPER_BOOK[26..], &mut out, &mut size),
        0
    );
    assert_eq!(out[..46], PAPER_BOOK);
    assert_eq!((&out[46..], size), (&[FILL; 4][..], [0, 0, 0, 46]));
    let mut short = [FILL; 45];
    assert_eq!(
        Peer.write(&contents, &PAPER_BOOK[26..], &mut short, &mut size),
        29
    );
    assert_eq!((short, size), ([FILL; 45], [0; SIZE]));
}

/// The text at the start of the page, and nothing else, whatever is read.
#[test]
fn a_table_is_text_on_a_page() {
    let paper = "\
capture sections steps verdict at
0 2 3 explained 3
1 2 2 unexplained 1
";
    let mut unfit = PAPER_BOOK;
    unfit[14] = 0;
    for (book, text) in [
        (&PAPER_BOOK[..], paper),
        (&[1, 0], "capture sections steps verdict at\n"),
        (&PAPER_BOOK[..45], "refused 27\n"),
        (&unfit, "refused 31\n"),
        (&[1], "refused 21\n"),
        (&[], "refused 21\n"),
        (&[0; 65_536], "refused 22\n"),
        (&[0; 65_537], "refused 20\n"),
    ] {
        let mut page = [FILL; PAGE];
        assert_eq!(Peer.table(book, &mut page), text.len());
        let (written, behind) = page.split_at(text.len());
        assert_eq!(written, text.as_bytes());
        assert!(behind.iter().all(|&byte| byte == FILL), "{text}");
    }
}

/// As the header has it.
#[test]
fn the_longest_table_has_1708_characters() {
    let mut page = [FILL; PAGE];
    assert_eq!(Peer.table(&longest::book(), &mut page), 1_708);
    assert_eq!(page[1_704..1_708], *b"000\n");
    assert_eq!(page[1_708..], [FILL; PAGE - 1_708]);
}
