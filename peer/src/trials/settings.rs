//! Which settings the reader and the writer take (paper: 02, f): the paper's book
//! with others in its last entry, read and written.

use super::{paper_contents, rule_bytes, Reading, Writing, PAPER_BOOK};
use std::io::{self, Write};

/// Where the n and the mask of the last entry stand in the paper's book.
const N: usize = 14;
const MASK: [usize; 2] = [16, 17];

pub(super) fn write_read(out: &mut impl Write) -> io::Result<()> {
    writeln!(out, "reader settings")?;
    write_table(out, refusal_when_read)
}

pub(super) fn write_written(out: &mut impl Write) -> io::Result<()> {
    writeln!(out, "writer settings")?;
    write_table(out, refusal_when_written)
}

/// A line for each n up to two past the bound: with no bit of the mask, then with
/// each of them.
fn write_table(out: &mut impl Write, refusal: fn(u8, u16) -> u8) -> io::Result<()> {
    for n in 0..=16 {
        write!(out, "{n} {}", refusal(n, 0))?;
        for bit in 0..u16::BITS {
            write!(out, " {}", refusal(n, 1 << bit))?;
        }
        writeln!(out)?;
    }
    Ok(())
}

fn refusal_when_read(n: u8, mask: u16) -> u8 {
    let mut book = PAPER_BOOK;
    book[N] = n;
    for (place, byte) in MASK.into_iter().zip(mask.to_be_bytes()) {
        book[place] = byte;
    }
    Reading::of(&book).refusal
}

/// With as many bytes of bodies as belong to it, and room for the book alone.
fn refusal_when_written(n: u8, mask: u16) -> u8 {
    let mut contents = paper_contents();
    let last = &mut contents.places[1];
    last.n = n;
    last.mask = mask;
    Writing::of(&contents, &rule_bytes(20), PAPER_BOOK.len()).refusal
}

#[cfg(test)]
mod tests {
    use super::*;
    use crate::block::printed;

    /// By hand from the bounds: n within 1 to 14, no bit of the mask at n or above.
    #[test]
    fn lines_are_as_by_hand() {
        let blocks = [
            ("reader", printed(write_read)),
            ("writer", printed(write_written)),
        ];
        for (side, text) in blocks {
            let lines: Vec<&str> = text.lines().collect();
            assert_eq!(lines[0], format!("{side} settings"));
            assert_eq!(lines.len(), 1 + 17);
            for n in [0, 15, 16] {
                assert_eq!(lines[1 + n], format!("{n}{}", " 31".repeat(17)));
            }
            for n in 1..=14 {
                let (fit, unfit) = (" 0".repeat(1 + n), " 32".repeat(16 - n));
                assert_eq!(lines[1 + n], format!("{n}{fit}{unfit}"));
            }
        }
    }

    /// Two lines in full, to be read.
    #[test]
    fn lines_at_the_bounds() {
        let text = printed(write_read);
        for line in [
            "1 0 0 32 32 32 32 32 32 32 32 32 32 32 32 32 32 32",
            "14 0 0 0 0 0 0 0 0 0 0 0 0 0 0 0 32 32",
        ] {
            assert!(text.contains(&format!("\n{line}\n")), "{line}");
        }
    }
}
