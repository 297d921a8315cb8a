//! Books there and back: written, read, and written again from what was read
//! (paper: "Capture book", the two promises at its end).

use super::{
    contents_to_write, digest, paper_contents, rule_bytes, Reading, Writing, BUFFER_BYTES,
    PAPER_BOOK,
};
use crate::book::{self, Contents, Entry};
use crate::settings::Settings;
use std::io::{self, Write};

struct Round {
    name: &'static str,
    contents: Contents,
    bodies: Vec<u8>,
}

impl Round {
    fn with_rule_bytes(
        name: &'static str,
        entries: impl IntoIterator<Item = (Settings, u16)>,
    ) -> Self {
        let contents = contents_to_write(entries);
        let steps: usize = entries_of(&contents)
            .iter()
            .map(|entry| usize::from(entry.steps))
            .sum();
        Self {
            name,
            contents,
            bodies: rule_bytes(4 * steps),
        }
    }
}

fn rounds() -> [Round; 6] {
    // Each mask is shifted until as many bits are left as there are sections: some
    // of them set, then all. Hold comes and goes, and then is there in each (02, g).
    let many = (0..64u16).map(|i| {
        let mask = (1_000 * i + 7) >> (15 - i % 14);
        let settings = Settings {
            options: (i % 2) as u8,
            ..Settings::new((i % 14 + 1) as u8, mask, 65_535 - i)
        };
        (settings, i % 5)
    });
    let quiet = (0..64u16).map(|i| {
        let settings = Settings::new((14 - i % 14) as u8, 65_535 >> (2 + i % 14), 300);
        (settings.with_hold(), 0)
    });
    [
        Round::with_rule_bytes("empty", []),
        Round {
            name: "paper",
            contents: paper_contents(),
            bodies: PAPER_BOOK[26..].to_vec(),
        },
        Round::with_rule_bytes(
            "still",
            [
                (Settings::new(1, 0, 0), 0),
                (Settings::new(14, 16_383, 1), 1),
                (Settings::new(1, 1, 65_535), 0),
            ],
        ),
        Round::with_rule_bytes("many", many),
        Round::with_rule_bytes("quiet", quiet),
        Round::with_rule_bytes("largest", [(Settings::new(14, 10_922, 300), 16_380)]),
    ]
}

/// For contents that were written down here, or read: their count is good.
fn entries_of(contents: &Contents) -> &[Entry] {
    contents.entries().unwrap_or_default()
}

pub(super) fn write(out: &mut impl Write) -> io::Result<()> {
    rounds()
        .iter()
        .try_for_each(|round| write_round(out, round))
}

fn write_round(out: &mut impl Write, round: &Round) -> io::Result<()> {
    let writing = Writing::of(&round.contents, &round.bodies, BUFFER_BYTES);
    let reading = Reading::of(writing.book());
    writeln!(out, "round {}", round.name)?;
    writeln!(out, "write {writing}")?;
    writeln!(out, "read {reading}")?;
    let mut bodies = Vec::new();
    for entry in entries_of(&reading.contents) {
        let body = book::body(writing.book(), entry);
        write_entry(out, entry, body)?;
        bodies.extend_from_slice(body);
    }
    let again = Writing::of(&reading.contents, &bodies, BUFFER_BYTES);
    writeln!(out, "again {again}")
}

fn write_entry(out: &mut impl Write, entry: &Entry, body: &[u8]) -> io::Result<()> {
    let Entry {
        n,
        spare,
        mask,
        w,
        offset,
        steps,
    } = entry;
    let digest = digest::of_bytes(body);
    writeln!(
        out,
        "{n} {spare} {mask} {w} {offset} {steps} {} {digest}",
        body.len()
    )
}

#[cfg(test)]
mod tests {
    use super::*;
    use crate::block::printed;

    /// Counted by hand: 2 + 12k + four times the steps.
    #[test]
    fn each_round_writes_its_length_twice() {
        let text = printed(write);
        let answers = |word: &str| -> Vec<String> {
            text.lines()
                .filter_map(|line| line.strip_prefix(word))
                .map(str::to_owned)
                .collect()
        };
        let written = answers("write ");
        assert_eq!(written, answers("again "));
        let lengths = [2, 46, 42, 770 + 504, 770, 65_534];
        assert_eq!(written.len(), lengths.len());
        for (answer, length) in written.iter().zip(lengths) {
            assert!(answer.starts_with(&format!("0 {length} ")), "{answer}");
        }
    }

    #[test]
    fn entries_are_printed_as_they_were_read() {
        let text = printed(write);
        for front in [
            "2 0 0 3 26 3 12 ",
            "2 0 0 3 38 2 8 ",
            "1 0 0 0 38 0 0 0\n",
            "14 0 16383 1 38 1 4 ",
            "1 0 1 65535 42 0 0 0\n",
            // Of the many: the first; 13, with 14 sections and 13,007 >> 2; and 63,
            // with 8 sections and 63,007 >> 8. The last two have hold.
            "1 0 0 65535 770 0 0 0\n",
            "14 1 3251 65522 862 3 12 ",
            "8 1 246 65472 1262 3 12 ",
            // Of the quiet ones: 0, 13, and 63 with 7 sections.
            "14 1 16383 300 770 0 0 0\n",
            "1 1 1 300 770 0 0 0\n",
            "7 1 127 300 770 0 0 0\n",
            "14 0 10922 300 14 16380 65520 ",
        ] {
            assert!(text.contains(&format!("\n{front}")), "{front}");
        }
    }
}
