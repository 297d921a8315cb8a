use super::*;

fn line(
    capture: usize,
    number: usize,
    conditions: &[u8],
    (command, channel): (u8, u8),
) -> (usize, Line) {
    let cause = Cause {
        conditions: conditions.into(),
        command,
        channel,
    };
    let row = [0x22, 0x28, 0xA2, 0x0E];
    (capture, Line::Step(Step { number, row, cause }))
}

#[test]
fn lines_are_printed_and_read_back() {
    for (text, expected) in [
        ("0 1 2228 A20E 001 none", line(0, 1, &[0, 0, 1], (0, 0))),
        (
            "63 16379 2228 A20E 20 clear",
            line(63, 16_379, &[2, 0], (1, 0)),
        ),
        ("7 0 2228 A20E 000 LO", line(7, 0, &[0; 3], (2, 0))),
        ("7 10 2228 A20E 000 FS 1", line(7, 10, &[0; 3], (3, 1))),
        (
            "10 9 2228 A20E 000000000000000 MS 14",
            line(10, 9, &[0; 15], (4, 14)),
        ),
        ("1 unexplained 1", (1, Line::Unexplained(1))),
        ("12 unexplained 0", (12, Line::Unexplained(0))),
    ] {
        let (capture, printed) = &expected;
        assert_eq!(format!("{capture} {printed}"), text);
        assert_eq!(Line::read(text.as_bytes()), Some(expected));
    }
}

/// The reader of a line knows no book. What no controller takes is the controller's to
/// refuse.
#[test]
fn numbers_that_no_controller_takes_are_read_too() {
    for text in [
        "99 99999 FFFF 0000 0 none",
        "0 1 2228 A20E  none",
        "0 1 2228 A20E 039 none",
        "0 1 2228 A20E 001 FS 0",
        "0 1 2228 A20E 001 MS 255",
    ] {
        assert!(Line::read(text.as_bytes()).is_some(), "{text}");
    }
}

/// Fields that are missing, or too many, and other spaces than one between two.
const OTHER_FIELDS: &[&str] = &[
    "",
    " ",
    "0",
    "0 ",
    "0 1",
    "0 1 2228",
    "0 1 2228 A20E",
    "0 1 2228 A20E 001",
    "0 1 2228 A20E 001 ",
    "0 1 2228 A20E 001 none ",
    " 0 1 2228 A20E 001 none",
    "0  1 2228 A20E 001 none",
    "0 1  2228 A20E 001 none",
    "0 1 2228  A20E 001 none",
    "0 1 2228 A20E 001  none",
    "0 1 2228 A20E 0 01 none",
    "0\t1 2228 A20E 001 none",
    "0 1 2228 A20E 001 none\r",
    "0 1 2228 A20E 001 none 0",
    "1 2228 A20E 001 none",
];

/// Numbers that are printed otherwise.
const OTHER_NUMBERS: &[&str] = &[
    "00 1 2228 A20E 001 none",
    "+0 1 2228 A20E 001 none",
    "-1 1 2228 A20E 001 none",
    "0 01 2228 A20E 001 none",
    "0 +1 2228 A20E 001 none",
    "0 1. 2228 A20E 001 none",
    "x 1 2228 A20E 001 none",
    "0 x 2228 A20E 001 none",
    "0 99999999999999999999 2228 A20E 001 none",
];

/// Bytes that are printed otherwise.
const OTHER_BYTES: &[&str] = &[
    "0 1 2228 a20e 001 none",
    "0 1 228 A20E 001 none",
    "0 1 02228 A20E 001 none",
    "0 1 +228 A20E 001 none",
    "0 1 22 28 A20E 001 none",
    "0 1 2228 0xA2 001 none",
    "0 1 2228 A2 001 none",
    "0 1 222G A20E 001 none",
];

/// Conditions and commands that there are not, or that are printed otherwise.
const OTHER_CAUSES: &[&str] = &[
    "0 1 2228 A20E 00A none",
    "0 1 2228 A20E 0-1 none",
    "0 1 2228 A20E 001 None",
    "0 1 2228 A20E 001 NONE",
    "0 1 2228 A20E 001 nothing",
    "0 1 2228 A20E 001 lo",
    "0 1 2228 A20E 001 LO 0",
    "0 1 2228 A20E 001 LO 1",
    "0 1 2228 A20E 001 clear 0",
    "0 1 2228 A20E 001 FS",
    "0 1 2228 A20E 001 FS ",
    "0 1 2228 A20E 001 FS1",
    "0 1 2228 A20E 001 FS  1",
    "0 1 2228 A20E 001 FS 01",
    "0 1 2228 A20E 001 FS +1",
    "0 1 2228 A20E 001 FS 1 ",
    "0 1 2228 A20E 001 FS 256",
    "0 1 2228 A20E 001 EX 1",
    "0 1 2228 A20E 001 ? 1",
];

/// What is said otherwise of a capture without an explanation, and lines that are of none.
const OTHER_VERDICTS: &[&str] = &[
    "0 unexplained",
    "0 unexplained ",
    "0 unexplained 01",
    "0 unexplained  1",
    "0 unexplained 1 ",
    "0 unexplained -1",
    "0 unexplained x",
    "0 Unexplained 1",
    "0 explained 1",
    "unexplained 1",
    HEADER,
    "refused 27",
];

#[test]
fn malformed_lines_are_none() {
    let malformed = [
        OTHER_FIELDS,
        OTHER_NUMBERS,
        OTHER_BYTES,
        OTHER_CAUSES,
        OTHER_VERDICTS,
    ];
    for text in malformed.concat() {
        assert_eq!(Line::read(text.as_bytes()), None, "{text:?}");
    }
    assert_eq!(Line::read(b"0 unexplained 1\xFF"), None);
    assert_eq!(Line::read("0 unexplained ١".as_bytes()), None);
    assert_eq!(Line::read("0 1 2228 A20E ٠٠١ none".as_bytes()), None);
}
