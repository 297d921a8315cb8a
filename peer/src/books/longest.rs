//! The book whose table has the longest text.

use super::capture::{bind, row, Capture};
use super::pairs::IDLE;
use crate::settings::Settings;

/// The characters of that text, as `include/chainplater.h` has them.
pub const CHARACTERS: usize = 1_708;

/// Captures, and the steps of each. A line is longest if its capture has no explanation,
/// at a last step whose number has as many digits as that of the steps; and more captures
/// of 1,001 steps would leave others too few for three digits.
const CAPTURES: [(usize, usize); 2] = [(54, 101), (10, 1_001)];

/// Two digits of sections.
const SETTINGS: Settings = Settings::new(14, 0, 0);

/// Bit 5 of what is sent is 1 whatever befalls a controller (paper: "One step", rule 6).
const NEVER_SENT: [u8; 2] = [0x00, 0x00];

pub fn book() -> Vec<u8> {
    let captures: Vec<Capture> = CAPTURES
        .into_iter()
        .flat_map(|(count, steps)| vec![still(SETTINGS, steps, true); count])
        .collect();
    bind(&captures).concat()
}

/// A capture on which nothing goes on, to its end or up to a last step that has no
/// explanation.
pub fn still(settings: Settings, steps: usize, wrong: bool) -> Capture {
    let mut rows = vec![row(IDLE, IDLE); steps];
    if let (true, Some(last)) = (wrong, rows.last_mut()) {
        *last = row(IDLE, NEVER_SENT);
    }
    Capture::new(settings, rows)
}

#[cfg(test)]
mod tests {
    use super::*;
    use crate::book::{contents_bytes, MOST_BYTES, MOST_ENTRIES, STEP_BYTES};
    use crate::judge::table::Table;

    #[test]
    fn its_text_is_as_long_as_the_header_says() {
        let text = Table::of(&book()).to_string();
        assert_eq!(text.len(), CHARACTERS);
        assert_eq!(text.len(), 34 + 64 * 16 + 118 + 128 + 404);
        assert_eq!(Table::scanned(&book()).to_string(), text);
        assert!(text.contains("\n53 14 101 unexplained 100\n54 14 1001 unexplained 1000\n"));
    }

    /// Where a number of steps, or the one below it, comes by a digit. In between more steps
    /// make no line longer.
    const STEPS: [usize; 10] = [0, 1, 10, 11, 100, 101, 1_000, 1_001, 10_000, 10_001];

    /// The most that a line can have behind its sections. Without an explanation its word is
    /// longer by two, and its last number shorter by one at most.
    fn line_end(steps: usize) -> usize {
        let end = match steps.checked_sub(1) {
            Some(last) => format!(" {steps} unexplained {last}\n"),
            None => format!(" {steps} explained {steps}\n"),
        };
        end.len()
    }

    /// Capture by capture, with the most that the lines so far can end in, by the steps that
    /// they have in all.
    #[test]
    fn no_text_is_longer() {
        let most = |count: usize| (MOST_BYTES - contents_bytes(count)) / STEP_BYTES;
        let choices = STEPS.map(|steps| (steps, line_end(steps)));
        let mut ends = vec![0; most(0) + 1];
        let mut text = "capture sections steps verdict at\n".len();
        let mut longest = text;
        for number in 0..MOST_ENTRIES {
            let with = |room: usize| {
                let fitting = choices.iter().filter(|&&(steps, _)| steps <= room);
                fitting.map(|(steps, end)| end + ends[room - steps]).max()
            };
            ends = (0..ends.len()).filter_map(with).collect();
            text += format!("{number} 14").len();
            longest = longest.max(text + ends[most(number + 1)]);
        }
        assert_eq!(longest, CHARACTERS);
    }
}
