//! Libraries that print the table of a book otherwise than this reading, by the names of
//! what is wrong with them.

use super::books::{mended, without_hold, NO_SETTINGS, NO_SPARE};
use super::*;
use crate::book;
use crate::judge::table::Table;

/// The text itself is right with these.
pub const ONE_LESS: &str = "the length is one less";
pub const ONE_MORE: &str = "the length is one more";
pub const PAST_THE_PAGE: &str = "the length is one more than the page has";
pub const ZERO_BEHIND: &str = "a 0 stands behind the text";
pub const CLEARED: &str = "the page behind the text is cleared";

pub const OTHER_CHARACTER: &str = "the last character but one is another";
pub const NOTHING: &str = "there is no text";

const FROM_ONE: &str = "captures are counted from 1";
const LAST_EXPLAINED: &str = "the last step is told that is explained";
const ALWAYS_EXPLAINED: &str = "captures are not judged";
const CAPITALS: &str = "verdicts begin with a capital";
const HEADER_TOO: &str = "a refused book has the header too";
const NO_HEADER: &str = "a book without captures has no header";
const CUT: &str = "a text has 1,707 characters at most";
const FOUR_DIGITS: &str = "numbers have four digits at most";

const PRINTING: [&str; 17] = [
    ONE_LESS,
    ONE_MORE,
    PAST_THE_PAGE,
    ZERO_BEHIND,
    CLEARED,
    OTHER_CHARACTER,
    NOTHING,
    FROM_ONE,
    LAST_EXPLAINED,
    ALWAYS_EXPLAINED,
    CAPITALS,
    HEADER_TOO,
    NO_HEADER,
    CUT,
    FOUR_DIGITS,
    NO_SETTINGS,
    NO_SPARE,
];

const SUBJECTS: [&str; 2] = ["table, drawn", "table, every number of steps"];

pub fn print(wrong: &str, book: &[u8], out: &mut [u8; PAGE]) -> usize {
    let text = text(wrong, book);
    let length = text.len();
    let (page, behind) = out.split_at_mut(length);
    page.copy_from_slice(&text);
    match wrong {
        ZERO_BEHIND => behind[0] = 0,
        CLEARED => behind.fill(0),
        _ => {}
    }
    match wrong {
        ONE_LESS => length - 1,
        ONE_MORE => length + 1,
        PAST_THE_PAGE => PAGE + 1,
        _ => length,
    }
}

fn text(wrong: &str, book: &[u8]) -> Vec<u8> {
    let text = Table::scanned(&seen(wrong, book)).to_string();
    let header = "capture sections steps verdict at\n";
    let mut text = match wrong {
        NOTHING => String::new(),
        HEADER_TOO if text.starts_with("refused") => header.to_owned() + &text,
        NO_HEADER if text == header => String::new(),
        CAPITALS => text.replace(" explained", " Explained"),
        FROM_ONE | LAST_EXPLAINED | ALWAYS_EXPLAINED | FOUR_DIGITS => {
            let lines = text.lines().map(|line| line_of(wrong, line) + "\n");
            lines.collect()
        }
        _ => text,
    }
    .into_bytes();
    match (wrong, text.iter_mut().nth_back(1)) {
        (OTHER_CHARACTER, Some(character)) => *character ^= 1,
        (CUT, _) => text.truncate(1_707),
        _ => {}
    }
    text
}

/// The book as such a library sees it.
fn seen(wrong: &str, book: &[u8]) -> Vec<u8> {
    match wrong {
        NO_SETTINGS => mended(book).0,
        NO_SPARE => without_hold(book),
        _ if wrong == DEAF.wrong => unheard_in(book),
        _ => book.to_vec(),
    }
}

/// The bodies are all that stands behind the contents.
fn unheard_in(book: &[u8]) -> Vec<u8> {
    let Ok(contents) = book::read(book) else {
        return book.to_vec();
    };
    let (contents, bodies) = book.split_at(book::contents_bytes(contents.count.into()));
    [contents, &DEAF.hear_all(bodies)].concat()
}

/// The header and a refusal, which are not lines of captures, are as they have to be.
fn line_of(wrong: &str, line: &str) -> String {
    let words: Vec<&str> = line.split(' ').collect();
    let &[capture, n, steps, verdict, at] = &words[..] else {
        return line.to_owned();
    };
    let (Ok(number), Ok(step)) = (capture.parse::<usize>(), at.parse::<usize>()) else {
        return line.to_owned();
    };
    match (wrong, verdict) {
        (FROM_ONE, _) => format!("{} {n} {steps} {verdict} {at}", number + 1),
        (LAST_EXPLAINED, "unexplained") if step > 0 => {
            format!("{capture} {n} {steps} {verdict} {}", step - 1)
        }
        (ALWAYS_EXPLAINED, _) => format!("{capture} {n} {steps} explained {steps}"),
        (FOUR_DIGITS, _) => format!("{capture} {n} {steps} {verdict} {}", step % 10_000),
        _ => line.to_owned(),
    }
}

#[test]
fn a_library_that_prints_otherwise_is_noticed() {
    for wrong in PRINTING {
        let found = differences_of(&SUBJECTS, wrong);
        assert!(found >= 3, "{wrong}: {found}");
    }
}

/// In the first books already, which are all that is told of.
#[test]
fn a_length_and_the_rest_of_the_page_are_told() {
    for (wrong, told) in [
        (ONE_LESS, "  length, library: [] "),
        (ONE_MORE, "  length, library: [] "),
        (PAST_THE_PAGE, "2049 characters by the library"),
        (ZERO_BEHIND, "  page, library: 2048 bytes, from "),
        (CLEARED, "  page, library: 2048 bytes, from "),
        (HEADER_TOO, "refusal: library 0, peer "),
    ] {
        let tally = part_of("table", &Fake { wrong });
        assert!(tells(&tally, told), "{wrong}: {:?}", tally.told);
    }
}

/// One book of each part has it: it is not as here, and not as long as it has to be.
#[test]
fn the_longest_text_is_held_to_its_length() {
    let tally = part_of("table", &Fake { wrong: CUT });
    assert_eq!(tally.differences, 2);
    assert!(tells(&tally, "1707 characters by the library"));
}

/// Drawn books have captures of few steps.
#[test]
fn numbers_of_five_digits_come_up() {
    let found = SUBJECTS.map(|name| differences_of(&[name], FOUR_DIGITS));
    assert!(found[0] == 0 && found[1] >= 800, "{found:?}");
}

#[test]
fn the_tables_come_by_what_they_are_for() {
    assert_come_by_what_they_are_for(&SUBJECTS);
}
