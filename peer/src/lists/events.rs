//! The captures of `examples/events.book`: a long line with few events on it, as those
//! have who asked for the list (paper: 02, e), one without any, and one that shows the
//! names of all requests.

use crate::books::capture::{row, Capture};
use crate::books::pairs::{IDLE, UNUSABLE};
use crate::controller;
use crate::judge::Row;
use crate::settings::Settings;

const SETTINGS: Settings = Settings::new(2, 0, 300);

const STEPS: usize = 2_000;
/// From here on to there section 1 has failed.
const FAILED: std::ops::Range<usize> = 400..700;
/// Here the other end is told to switch section 2, and there to go back.
const SWITCHED: usize = 1_400;
const CLEARED: usize = 1_700;

pub fn captures() -> Vec<Capture> {
    vec![
        Capture::new(SETTINGS, with_events()),
        Capture::new(SETTINGS, without_events()),
        Capture::new(SETTINGS, with_names()),
    ]
}

/// What one of two ends receives and sends. Each is handed in every step what the other
/// sent in the step before.
fn with_events() -> Vec<Row> {
    let [mut near, mut far] = [SETTINGS.fresh(); 2];
    let [mut to_near, mut to_far] = [IDLE; 2];
    let mut rows = Vec::new();
    for step in 0..STEPS {
        let condition = if FAILED.contains(&step) { 2 } else { 0 };
        let (command, channel) = match step {
            SWITCHED => (3, 2),
            CLEARED => (1, 0),
            _ => (0, 0),
        };
        let [k1, k2] = to_near;
        let here = controller::step(near, k1, k2, &[0, condition, 0], 0, 0);
        let [k1, k2] = to_far;
        let there = controller::step(far, k1, k2, &[0, 0, 0], command, channel);
        rows.push(row(to_near, [here.k1, here.k2]));
        (near, far) = (here.record, there.record);
        (to_near, to_far) = ([there.k1, there.k2], [here.k1, here.k2]);
    }
    rows
}

/// Something comes in that is not usable, and nothing is made of it.
fn without_events() -> Vec<Row> {
    (0..50)
        .map(|step| if step % 7 == 3 { UNUSABLE } else { IDLE })
        .map(|received| row(received, IDLE))
        .collect()
}

/// Every request, LO with a channel that it cannot have as well, a signal fail of both
/// of its rows, and a code that is none.
fn with_names() -> Vec<Row> {
    [
        0x00, 0xD0, 0xD0, 0xF1, 0x15, 0xE1, 0xD2, 0xC1, 0xB0, 0xA2, 0x81, 0x62, 0x22, 0x00, 0xF0,
    ]
    .map(|k1| row(IDLE, [k1, 0x08]))
    .into()
}

#[cfg(test)]
mod tests {
    use super::*;
    use crate::books::capture::bind;
    use crate::judge::Verdict;
    use crate::switches::table::Table;

    const EXAMPLES: &str = concat!(env!("CARGO_MANIFEST_DIR"), "/../examples/");

    fn example(name: &str) -> Vec<u8> {
        std::fs::read(format!("{EXAMPLES}{name}")).expect("an example that can be read")
    }

    #[test]
    fn the_example_is_the_book_of_these_captures() {
        let book = bind(&captures()).concat();
        assert!(book == example("events.book"));
        let text = Table::of(&book).to_string();
        assert_eq!(text.as_bytes(), example("events.switches"));
    }

    /// By hand from the rules: the other end hears of a fail a step later, and is heard
    /// of another step later, which changes the K2 that is sent and not the K1.
    #[test]
    fn there_are_five_events_on_two_thousand_steps() {
        let [line, still, _] = &captures()[..] else {
            panic!("three captures");
        };
        assert_eq!(line.judged(), Verdict::Explained(2_000));
        assert_eq!(still.judged(), Verdict::Explained(50));
        let text = Table::of(&bind(&captures()).concat()).to_string();
        let expected = "\
capture step k1 request channel
0 400 C1 SF-L 1
0 700 61 WTR 1
0 1000 00 NR 0
0 1401 22 RR 2
0 1701 00 NR 0
2 1 D0 SF-H 0
2 3 F1 LO 1
2 4 15 ? 5
2 5 E1 FS 1
2 6 D2 SF-H 2
2 7 C1 SF-L 1
2 8 B0 SD-H 0
2 9 A2 SD-L 2
2 10 81 MS 1
2 11 62 WTR 2
2 12 22 RR 2
2 13 00 NR 0
2 14 F0 LO 0
";
        assert_eq!(text, expected);
    }
}
