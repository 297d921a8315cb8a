use super::*;
use crate::books::capture::{bind, Capture};
use crate::causes::line::HEADER;
use crate::settings::Settings;
use crate::trials::PAPER_BOOK;
use std::fs;
use std::path::{Path, PathBuf};

fn found(book: &[u8], printed: &[u8]) -> Vec<Difference> {
    let ours = Table::of(book).to_string();
    by_replay(book, Lines::of(ours.as_bytes(), printed))
}

/// The lines that differ, and what is said of them. Lines are told by their places below
/// the header, which has none.
fn wrong(book: &[u8], printed: &str) -> Vec<(Option<usize>, String)> {
    let said = |theirs: String| theirs.rsplit('"').next().map(str::to_owned);
    found(book, printed.as_bytes())
        .into_iter()
        .map(|difference| (difference.row, said(difference.theirs).unwrap_or_default()))
        .collect()
}

const PAPER: &str = "\
capture step received sent conditions command
0 0 0008 A208 001 none
0 1 2228 A228 001 none
0 2 2228 6228 000 none
1 unexplained 1
";

/// Degraded as well, section 1 does not take the switch away (02 d); MS is not heard above
/// that, nor a held one once more above itself.
#[test]
fn any_causes_that_send_the_capture_are_taken() {
    for (line, other) in [
        ("", ""),
        ("A228 001 none", "A228 011 none"),
        ("A208 001 none", "A208 001 MS 1"),
        ("A208 001 none", "A208 001 clear"),
        ("A228 001 none", "A228 001 clear"),
    ] {
        assert_eq!(wrong(&PAPER_BOOK, &PAPER.replace(line, other)), []);
    }
    assert_eq!(wrong(&PAPER_BOOK[..45], "refused 27\n"), []);
}

/// What stands at the end of a line, what is put in its place, the line and what is said.
type Other = (&'static str, &'static str, usize, &'static str);

const OTHER_CAUSES: [Other; 11] = [
    ("A208 001 none", "A208 000 none", 0, ", which sends 0008"),
    ("A208 001 none", "A208 011 none", 0, ", which sends A108"),
    ("A208 001 none", "A208 001 FS 2", 0, ", which sends E208"),
    ("A228 001 none", "A228 000 none", 1, ", which sends 6228"),
    ("6228 000 none", "6228 000 clear", 2, ", which sends 0028"),
    (
        "6228 000 none",
        "6228 00 none",
        2,
        ", which is refused by 4",
    ),
    (
        "6228 000 none",
        "6228 0000 none",
        2,
        ", which is refused by 4",
    ),
    ("6228 000 none", "6228  none", 2, ", which is refused by 4"),
    (
        "6228 000 none",
        "6228 300 none",
        2,
        ", which is refused by 5",
    ),
    (
        "A228 001 none",
        "A228 001 FS 3",
        1,
        ", which is refused by 7",
    ),
    (
        "A228 001 none",
        "A228 001 MS 0",
        1,
        ", which is refused by 7",
    ),
];

#[test]
fn a_cause_that_sends_something_else_is_told() {
    for (end, other, row, said) in OTHER_CAUSES {
        let expected = [(Some(row), said.to_owned())];
        assert_eq!(wrong(&PAPER_BOOK, &PAPER.replace(end, other)), expected);
    }
}

/// Whatever the cause is, all else is as it has to be. Where a line is not one the replay
/// of its capture ends, and other captures are none the worse for it.
#[test]
fn what_is_printed_otherwise_is_told() {
    for (line, other, rows) in [
        ("capture step", "Capture step", &[None][..]),
        ("0 0 0008", "0 1 0008", &[Some(0)]),
        ("0 0 0008", "1 0 0008", &[Some(0)]),
        ("0 1 2228", "0 2 2228", &[Some(1)]),
        ("2228 A228", "2220 A228", &[Some(1)]),
        ("2228 A228", "2228 A218", &[Some(1)]),
        ("2228 A228 001 none", "2228 0028 000 clear", &[Some(1)]),
        ("0 2 2228 6228 000 none", "0 unexplained 2", &[Some(2)]),
        ("A228", "a228", &[Some(1)]),
        ("1 unexplained 1", "1 unexplained 0", &[Some(3)]),
        ("1 unexplained 1", "1 0 0008 A208 001 none", &[Some(3)]),
        ("1 unexplained 1\n", "1 unexplained 1", &[Some(4)]),
        ("1 unexplained 1\n", "", &[Some(3), Some(4)]),
        ("1 unexplained 1\n", "1 unexplained 1\n\n", &[Some(5)]),
        ("1 unexplained 1\n", "1 unexplained 1\n0", &[Some(4)]),
        ("none\n1", "none\r\n1", &[Some(2)]),
    ] {
        let found = wrong(&PAPER_BOOK, &PAPER.replacen(line, other, 1));
        let places: Vec<Option<usize>> = found.iter().map(|(row, _)| *row).collect();
        assert_eq!(places, rows, "{other:?}");
        assert!(found
            .iter()
            .all(|(_, said)| said.is_empty() || said == "(no line)"));
    }
    assert_eq!(wrong(&PAPER_BOOK, "refused 27\n").len(), 6);
    assert_eq!(wrong(&PAPER_BOOK[..45], "refused 28\n").len(), 1);
    assert_eq!(wrong(&PAPER_BOOK[..45], PAPER).len(), 6);
}

/// With every other value of every byte: by hand, one alone of these texts has causes that
/// are right.
#[test]
fn every_byte_counts() {
    let is_taken = |text: &[u8]| {
        let lines = Lines::of(PAPER.as_bytes(), text);
        by_replay(&PAPER_BOOK, lines).is_empty()
    };
    let with = |place: usize, change: u8| {
        let mut text = PAPER.as_bytes().to_vec();
        text[place] ^= change;
        text
    };
    let places = 0..PAPER.len();
    let taken: Vec<Vec<u8>> = places
        .clone()
        .flat_map(|place| (1..=u8::MAX).map(move |change| with(place, change)))
        .filter(|text| is_taken(text))
        .collect();
    assert_eq!(taken, [PAPER.replace("A228 001", "A228 011").into_bytes()]);
    for length in places {
        assert!(!is_taken(&PAPER.as_bytes()[..length]));
    }
}

fn example(name: &str) -> PathBuf {
    let folder = Path::new(env!("CARGO_MANIFEST_DIR")).join("../examples");
    folder.join(name)
}

/// Under LO section 0 has failed, or not, as the step behind it shows: in that step the
/// other cause is found out, and each capture begins afresh.
#[test]
fn causes_are_replayed_from_step_to_step() {
    let book = fs::read(example("lockout.book")).expect("an example that can be read");
    let text = Table::of(&book).to_string();
    assert_eq!(wrong(&book, &text), []);
    for (line, other, row, said) in [
        (
            "0 0 8108 F008 200 LO",
            "0 0 8108 F008 000 LO",
            1,
            ", which sends 2118",
        ),
        (
            "1 0 8108 F008 000 LO",
            "1 0 8108 F008 200 LO",
            3,
            ", which sends 0008",
        ),
        (
            "0 0 8108 F008 200 LO",
            "0 0 8108 F008 200 none",
            0,
            ", which sends D008",
        ),
    ] {
        assert!(text.contains(line), "{text}");
        let expected = [(Some(row), said.to_owned())];
        assert_eq!(wrong(&book, &text.replace(line, other)), expected);
    }
}

/// FS 1 waits behind a failed section 0 with hold, and not without it: so the same causes
/// are wrong in the first capture and right in the second (02, g).
#[test]
fn the_controller_is_one_with_hold_where_the_book_says_so() {
    let sent = |k1| [0x00, 0x08, k1, 0x08];
    let rows = [sent(0xE1), sent(0xD0), sent(0x82)];
    let capture = Capture::new(Settings::new(2, 0, 3), rows);
    let book = bind(&capture.both_ways()).concat();
    let text = |second: &str| {
        let lines = |number| {
            format!(
                "{number} 0 0008 E108 000 FS 1\n\
                 {number} 1 0008 D008 200 {second}\n\
                 {number} 2 0008 8208 000 MS 2\n"
            )
        };
        format!("{HEADER}\n{}{}", lines(0), lines(1))
    };
    assert_eq!(wrong(&book, &text("clear")), []);
    let waits = [(Some(2), ", which sends E108".to_owned())];
    assert_eq!(wrong(&book, &text("none")), waits);
}

/// What the repository shows of its books, where it shows it.
#[test]
fn the_example_books() {
    let files = fs::read_dir(example("")).expect("a folder of examples");
    let files = files.map(|file| file.expect("an example").path());
    for file in files.filter(|file| file.extension().is_some_and(|kind| kind == "causes")) {
        let [book, printed] = [&file.with_extension("book"), &file]
            .map(|file| fs::read(file).expect("an example that can be read"));
        assert_eq!(found(&book, &printed), [], "{}", file.display());
    }
}

/// The captures that are judged have as many steps as are due. To count them takes the
/// judge by brute force too long for a test.
#[test]
fn the_books_are_those_of_the_judge() {
    assert_eq!(COMPARISON.groups.len(), books::COMPARISON.groups.len());
    let kinds = (COMPARISON.read)(&PAPER_BOOK).kinds();
    assert_eq!(kinds, [Kind::Explained, Kind::Unexplained]);
}
