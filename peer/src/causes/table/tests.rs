use super::*;
use crate::books::capture::{bind, Capture};
use crate::judge::Row;
use crate::settings::Settings;
use crate::trials::PAPER_BOOK;

fn printed(book: &[u8]) -> String {
    Table::of(book).to_string()
}

#[test]
fn the_book_of_the_paper_is_printed() {
    let expected = "\
capture step received sent conditions command
0 0 0008 A208 001 none
0 1 2228 A228 001 none
0 2 2228 6228 000 none
1 unexplained 1
";
    assert_eq!(printed(&PAPER_BOOK), expected);
}

fn capture(n: u8, rows: &[Row]) -> Capture {
    let settings = Settings::new(n, 1, 1);
    Capture::new(settings, rows)
}

/// One that is explained and has no steps has no line.
#[test]
fn every_command_has_its_words() {
    let captures = [
        capture(1, &[]),
        capture(
            3,
            &[
                [0x00, 0x08, 0x82, 0x08],
                [0x11, 0x08, 0xE3, 0x08],
                [0xE1, 0x18, 0xF0, 0x08],
                [0x11, 0x08, 0xD1, 0x08],
                [0x00, 0x0F, 0xD0, 0x08],
            ],
        ),
        capture(14, &[[0x00, 0x08, 0xAE, 0x08], [0x2E, 0xE8, 0x00, 0xE8]]),
        capture(1, &[]),
    ];
    let expected = "\
capture step received sent conditions command
1 0 0008 8208 0000 MS 2
1 1 1108 E308 0000 FS 3
1 2 E118 F008 2000 LO
1 3 1108 D108 0200 clear
1 4 000F D008 2000 none
2 0 0008 AE08 000000000000001 none
2 1 2EE8 00E8 000000000000000 clear
";
    assert_eq!(printed(&bind(&captures).concat()), expected);
}

/// With hold a command is cleared that would wait (02, g).
#[test]
fn causes_with_hold_and_without_are_told() {
    let rows = [[0x00, 0x08, 0xE1, 0x08], [0x00, 0x08, 0xD0, 0x08]];
    let both = capture(1, &rows).both_ways();
    let expected = "\
capture step received sent conditions command
0 0 0008 E108 00 FS 1
0 1 0008 D008 20 clear
1 0 0008 E108 00 FS 1
1 1 0008 D008 20 none
";
    assert_eq!(printed(&bind(&both).concat()), expected);
}

#[test]
fn a_book_without_lines_is_its_header_or_its_refusal() {
    assert_eq!(printed(&[1, 0]), format!("{HEADER}\n"));
    let empty = bind(&[capture(1, &[])]).concat();
    assert_eq!(printed(&empty), format!("{HEADER}\n"));
    assert_eq!(printed(&PAPER_BOOK[..45]), "refused 27\n");
}

/// So that each is put to the controller where a program prints it.
#[test]
fn every_line_of_a_capture_is_read_back() {
    let folder = concat!(env!("CARGO_MANIFEST_DIR"), "/../examples/");
    let mut lines = 0;
    for name in ["alarm", "early", "events", "good", "lockout", "paper"] {
        let book = std::fs::read(format!("{folder}{name}.book"));
        let text = printed(&book.expect("an example that can be read"));
        for line in text.lines().skip(1) {
            assert!(Line::read(line.as_bytes()).is_some(), "{name}: {line}");
            lines += 1;
        }
    }
    assert!(lines >= 2_000, "{lines}");
}
