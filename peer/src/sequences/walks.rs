//! Long walks of the controller over drawn input, a line for each size of group.
//!
//! The draws can be repeated anywhere, and the sum takes in all that the steps
//! answer: readings that differ in one step are all but sure to differ in a sum.

use super::{fresh, numbers, Given};
use crate::controller::{Answer, Record};
use crate::draws::Draws;
use crate::settings::{Settings, HOLD};
use std::io::{self, Write};

const STEPS: u32 = 20_000;

/// A prime, so that no multiplication makes two unequal sums equal.
const SUM_BELOW: u32 = 65_521;

/// A walk between two steps.
struct Walk {
    draws: Draws,
    record: Record,
}

impl Walk {
    /// What is drawn is the same with all options.
    fn start(n: u8, options: u8) -> Self {
        let mut draws = Draws::from_seed(u64::from(n));
        let mask = draws.below(1 << n);
        let w = draws.below(4);
        let settings = Settings {
            options,
            ..Settings::new(n, mask, w)
        };
        Self {
            draws,
            record: fresh(settings),
        }
    }

    /// Hands what was drawn and what the step answered to `see`.
    fn step(&mut self, see: impl FnOnce(Given, &Answer)) {
        let [k1, k2] = self.draw_pair();
        let conditions = self.draw_conditions();
        let (command, channel) = self.draw_command();
        let given = Given::new(k1, k2, &conditions).commanded(command, channel);
        let answer = given.step(self.record);
        self.record = answer.record;
        see(given, &answer);
    }

    /// Channels go one past the group, and the line bits are now and then those of a
    /// remote defect or of an alarm, so that all comes up but the marks of bit 5 and
    /// of line bits that mean nothing.
    fn draw_pair(&mut self) -> [u8; 2] {
        let past = self.record.n + 2;
        let code = self.draws.byte_below(16);
        let channel = self.draws.byte_below(past);
        let bridged = self.draws.byte_below(past);
        let line = match self.draws.byte_below(8) {
            line @ (6 | 7) => line,
            _ => 0,
        };
        [code * 16 + channel, bridged * 16 + 8 + line]
    }

    /// Rare enough that a group has one or no fault at most times.
    fn draw_conditions(&mut self) -> Vec<u8> {
        let sections = self.record.n + 1;
        let draw = |_| match self.draws.byte_below(8 * sections) {
            condition @ (1 | 2) => condition,
            _ => 0,
        };
        (0..sections).map(draw).collect()
    }

    /// The channel may be one past the group: those steps are refused.
    fn draw_command(&mut self) -> (u8, u8) {
        match self.draws.byte_below(16) {
            command @ (1 | 2) => (command, 0),
            command @ (3 | 4) => (command, self.draws.byte_below(self.record.n + 1) + 1),
            _ => (0, 0),
        }
    }
}

/// What a walk comes to.
#[derive(Default)]
struct Counts {
    refused: u32,
    taken: u32,
    denied: u32,
    marked: u32,
    sum: u32,
}

impl Counts {
    fn over_walk(n: u8, options: u8) -> (Record, Self) {
        let mut walk = Walk::start(n, options);
        let start = walk.record;
        let mut counts = Self::default();
        for _ in 0..STEPS {
            walk.step(|_, answer| counts.add(answer));
        }
        (start, counts)
    }

    fn add(&mut self, answer: &Answer) {
        self.refused += u32::from(answer.refusal != 0);
        self.taken += u32::from(answer.fate == 1);
        self.denied += u32::from(answer.fate == 2);
        self.marked += u32::from(answer.mark != 0);
        let Record {
            options,
            accepted: [k1, k2],
            sent,
            left,
            held,
            ..
        } = answer.record;
        let bytes = numbers(answer).into_iter().chain([k1, k2, sent]);
        let held = (options == HOLD).then_some(held);
        let behind = [u32::from(left)].into_iter().chain(held.map(u32::from));
        for number in bytes.map(u32::from).chain(behind) {
            self.sum = (self.sum * 31 + number) % SUM_BELOW;
        }
    }
}

pub(super) fn write(out: &mut impl Write) -> io::Result<()> {
    write_walks(out, "", 0)
}

/// The sums of these take in the held command as well (02, g).
pub(super) fn write_with_hold(out: &mut impl Write) -> io::Result<()> {
    write_walks(out, " with hold", HOLD)
}

fn write_walks(out: &mut impl Write, more: &str, options: u8) -> io::Result<()> {
    writeln!(
        out,
        "walks of {STEPS} steps{more}: n mask W: refused, taken, denied, marked, sum"
    )?;
    for n in 1..=14 {
        let (start, counts) = Counts::over_walk(n, options);
        writeln!(
            out,
            "{n} {} {}: {} {} {} {} {}",
            start.mask,
            start.w,
            counts.refused,
            counts.taken,
            counts.denied,
            counts.marked,
            counts.sum
        )?;
    }
    Ok(())
}

#[cfg(test)]
mod tests {
    use super::*;
    use crate::pair::{decode, Received};
    use std::collections::BTreeSet;

    fn over_all_walks(see: impl FnMut(Record, Given, &Answer)) {
        over_walks(&[0, HOLD], see);
    }

    fn over_walks(options: &[u8], mut see: impl FnMut(Record, Given, &Answer)) {
        let walks = options
            .iter()
            .flat_map(|&options| (1..=14).map(move |n| (n, options)));
        for (n, options) in walks {
            let mut walk = Walk::start(n, options);
            for _ in 0..STEPS {
                let before = walk.record;
                walk.step(|given, answer| see(before, given, answer));
            }
        }
    }

    /// Every record a step answers is good for the next: a step is refused only
    /// for what was drawn, and only a command's channel is ever drawn wrong.
    #[test]
    fn only_a_channel_past_the_group_is_refused() {
        let mut refused = 0;
        over_all_walks(|before, given, answer| {
            if given.channel > before.n {
                assert_eq!(numbers(answer), [7, 0, 0, 0, 0, 0, 0]);
                assert_eq!(answer.record, before);
                refused += 1;
            } else {
                assert_eq!(answer.refusal, 0);
            }
        });
        assert!((10_000..14_000).contains(&refused), "{refused}");
    }

    #[test]
    fn what_is_sent_can_be_read_at_the_other_end() {
        let mut taken = 0;
        over_all_walks(|before, _, answer| {
            if answer.refusal != 0 {
                return;
            }
            taken += 1;
            let Ok(Received::Usable(read)) = decode(before.n, answer.k1, answer.k2) else {
                panic!("{answer:?}");
            };
            assert!(!read.remote_defect);
            assert_eq!(read.bridged, answer.bridge);
            assert_eq!(answer.record.sent, answer.k1);
        });
        assert!(taken >= 540_000, "{taken}");
    }

    /// A comparison over walks is worth no more than what the walks come by.
    #[test]
    fn the_walks_come_by_every_request_mark_and_fate() {
        let [mut codes, mut marks, mut fates] = [const { BTreeSet::new() }; 3];
        let mut alarms = 0;
        over_all_walks(|before, given, answer| {
            let [k1, k2] = given.received;
            alarms += u32::from(decode(before.n, k1, k2) == Ok(Received::Alarm));
            codes.insert(answer.k1 >> 4);
            marks.insert(answer.mark);
            fates.insert(answer.fate);
        });
        assert!(codes.into_iter().eq([0, 2, 6, 8, 10, 11, 12, 13, 14, 15]));
        assert!(marks.into_iter().eq([0, 3, 4, 5]));
        assert!((60_000..80_000).contains(&alarms), "{alarms}");
        assert!(fates.into_iter().eq([0, 1, 2]));
    }

    /// Commands that wait, come back, are replaced while they wait, and are denied then.
    #[test]
    fn the_walks_with_hold_come_by_all_that_may_befall_a_command() {
        let [mut waiting, mut back, mut replaced, mut denied] = [0; 4];
        over_walks(&[HOLD], |before, given, answer| {
            let held = answer.record.held;
            let waited = ![0x00, before.sent].contains(&before.held);
            waiting += u32::from(![0x00, answer.k1].contains(&held));
            back += u32::from(waited && answer.k1 == before.held);
            replaced += u32::from(waited && ![0x00, before.held].contains(&held));
            denied += u32::from(waited && given.command > 1 && answer.fate == 2);
        });
        let counts = [waiting, back, replaced, denied];
        assert!(counts.iter().all(|&count| count >= 1_000), "{counts:?}");
    }

    /// The sum of an answer in which all numbers are others, with these options.
    fn sum_of(options: u8) -> u128 {
        let record = Record {
            options,
            accepted: [8, 9],
            sent: 10,
            left: 60_000,
            held: 11,
            ..fresh(Settings::new(1, 0, 0))
        };
        let answer = Answer {
            refusal: 1,
            record,
            k1: 2,
            k2: 3,
            bridge: 4,
            selector: 5,
            mark: 6,
            fate: 7,
        };
        let mut counts = Counts::default();
        counts.add(&answer);
        u128::from(counts.sum)
    }

    #[test]
    fn the_sum_takes_the_numbers_in_their_order() {
        let places = [1u128, 2, 3, 4, 5, 6, 7, 8, 9, 10, 60_000];
        let whole = places.iter().fold(0, |sum, number| sum * 31 + number);
        assert_eq!(sum_of(0), whole % 65_521);
        assert_eq!(sum_of(HOLD), (whole * 31 + 11) % 65_521);
    }
}
