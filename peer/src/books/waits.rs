//! Captures of waits (paper: "One step", rule 3): as long as they may be, longer,
//! broken off, started anew, and where none can be.

use super::capture::{row, Capture, Told};
use super::pairs::{alarmed, degrade, fail, said, FAILED, IDLE, LOCKOUT};
use super::runs;
use crate::draws::Draws;
use crate::judge::Row;
use crate::pair::Request;
use crate::settings::Settings;

const SIZES: [u8; 4] = [1, 2, 3, 14];
const WAITS: [u16; 5] = [0, 1, 2, 3, 6];
/// Waits of more than a byte, and one that takes most of a book.
const LONG_WAITS: [u16; 4] = [255, 256, 300, 16_000];

pub fn captures() -> Vec<Capture> {
    Told::captures(told())
}

/// A capture of any group in which a section goes bad and is waited for, so many times. A
/// wait is left when it has run out or, by a clear, before that.
pub fn draw(draws: &mut Draws, times: usize) -> Capture {
    let w = draws.pick(&[1, 2, 3, 6, 10]);
    draw_of(draws, w, times)
}

/// The same with a wait of so many steps, which are not none.
pub fn draw_of(draws: &mut Draws, w: u16, times: usize) -> Capture {
    let settings = Settings {
        w,
        ..runs::draw_settings(draws)
    };
    let channel = 1 + draws.byte_below(settings.n);
    let section = Section {
        settings,
        channel,
        high: settings.mask >> (channel - 1) & 1 == 1,
    };
    let wait = section.wait();
    let waited = (0..times).flat_map(|_| {
        let fault = draws.pick(&[fail, degrade]);
        let length = 1 + draws.place(wait);
        let mut rows = section.waited(fault(section.high), draws.pick(&[length, wait]));
        rows.push(section.answered(Request::Nothing));
        rows
    });
    Capture::new(settings, waited.collect::<Vec<Row>>())
}

fn told() -> Vec<Told> {
    let mut told: Vec<Told> = LONG_WAITS.into_iter().flat_map(long_waits).collect();
    for (n, w) in SIZES.into_iter().flat_map(|n| WAITS.map(|w| (n, w))) {
        let section = Section::last_of(n, w);
        told.extend(section.waits());
        told.extend(section.waits_after_others());
    }
    told
}

fn long_waits(w: u16) -> [Told; 2] {
    let section = Section::last_of(1, w);
    let waited = section.waited(fail(section.high), section.wait());
    let end = waited.len();
    [
        (Request::Nothing, None),
        (Request::WaitToRestore, Some(end)),
    ]
    .map(|(last, wrong)| {
        let rows = [&waited[..], &[section.answered(last)]].concat();
        section.told(rows, wrong)
    })
}

/// The section that is waited for, and which the other end answers with RR.
#[derive(Clone, Copy)]
pub struct Section {
    settings: Settings,
    channel: u8,
    pub high: bool,
}

impl Section {
    /// Of high priority in one half of the groups.
    pub fn last_of(n: u8, w: u16) -> Self {
        let high = (u16::from(n) + w) % 2 == 1;
        let mask = u16::from(high) << (n - 1);
        Self {
            settings: Settings::new(n, mask, w),
            channel: n,
            high,
        }
    }

    /// Sent while RR of the section is received, with the bridge of rule 6.
    pub fn answered(&self, request: Request) -> Row {
        let channel = self.channel;
        let sent = match request {
            Request::Nothing => said(request, 0, channel),
            _ => said(request, channel, channel),
        };
        row(said(Request::Reverse, channel, channel), sent)
    }

    pub fn told(&self, rows: Vec<Row>, wrong: Option<usize>) -> Told {
        Told::new(self.settings, rows, wrong)
    }

    pub fn wait(&self) -> usize {
        self.settings.w.into()
    }

    fn waits(&self) -> Vec<Told> {
        let mut lengths = vec![1, 2, self.wait(), self.wait() + 1];
        lengths.sort_unstable();
        lengths.dedup();
        lengths
            .into_iter()
            .flat_map(|length| self.waits_of(length))
            .collect()
    }

    pub fn waited(&self, fault: Request, length: usize) -> Vec<Row> {
        let mut rows = vec![row(IDLE, said(fault, self.channel, 0))];
        rows.resize(1 + length, self.answered(Request::WaitToRestore));
        rows
    }

    /// Waits of some steps after a fail and after a degrade, with all that may
    /// follow them.
    fn waits_of(&self, length: usize) -> Vec<Told> {
        let endings = self.endings();
        let after = |fault| {
            let front = self.waited(fault, length);
            // The step after the fault still has all of the wait.
            let too_long = (length > self.wait()).then_some(1 + self.wait());
            endings.iter().map(move |(ending, wrong)| {
                let step = too_long.or(wrong.map(|step| front.len() + step));
                self.told([&front[..], ending].concat(), step)
            })
        };
        [fail(self.high), degrade(self.high)]
            .into_iter()
            .flat_map(after)
            .collect()
    }

    /// Rows behind a wait, and the first of them that has no explanation there.
    fn endings(&self) -> Vec<(Vec<Row>, Option<usize>)> {
        let wait = self.answered(Request::WaitToRestore);
        let nothing = self.answered(Request::Nothing);
        let manual = self.answered(Request::ManualSwitch);
        let degraded = self.answered(degrade(self.high));
        let waited = vec![wait; self.wait()];
        // In a group of one section there is no other, so none can be sent.
        let other = if self.channel > 1 { 1 } else { 2 };
        let of_other = row(IDLE, said(Request::WaitToRestore, other, 0));
        let locked = row(LOCKOUT, said(Request::Reverse, 0, 0));
        let [k1, k2, waiting @ ..] = wait;
        let alarm = alarmed([k1, k2]);
        vec![
            (vec![], None),
            // Before its end a wait is left by a clear.
            (vec![nothing], None),
            (vec![nothing, wait], Some(1)),
            (vec![manual], None),
            (vec![manual, wait], Some(1)),
            (vec![locked, wait], Some(1)),
            (vec![locked, nothing], None),
            // Nor does a wait outlast an alarm (02, c).
            (vec![row(alarm, waiting)], Some(0)),
            (vec![row(alarm, FAILED), wait], Some(1)),
            (vec![row(alarm, FAILED), nothing], None),
            ([&[degraded], &waited[..], &[nothing]].concat(), None),
            (
                [&[degraded, wait], &waited[..]].concat(),
                Some(1 + self.wait()),
            ),
            (vec![of_other], Some(0)),
        ]
    }

    /// WTR after anything but a fault of its own section.
    fn waits_after_others(&self) -> Vec<Told> {
        let channel = self.channel;
        let others = [
            row(IDLE, said(Request::ForcedSwitch, channel, 0)),
            row(IDLE, said(Request::ManualSwitch, channel, 0)),
            row(IDLE, said(Request::SignalFailHigh, 0, 0)),
            row(IDLE, said(Request::SignalDegradeHigh, 0, 0)),
            row(IDLE, LOCKOUT),
            row(IDLE, IDLE),
            row(
                said(fail(self.high), channel, 0),
                said(Request::Reverse, channel, channel),
            ),
            row(
                said(Request::WaitToRestore, channel, 0),
                said(Request::Reverse, channel, channel),
            ),
        ];
        let wait = self.answered(Request::WaitToRestore);
        others
            .into_iter()
            .map(|other| self.told(vec![other, wait, wait], Some(1)))
            .collect()
    }
}

#[cfg(test)]
mod tests {
    use super::*;
    use crate::judge::Verdict;

    #[test]
    fn the_judge_finds_what_is_known_of_each_wait() {
        for told in told() {
            for capture in told.capture.both_ways() {
                let Capture { settings, rows } = &capture;
                let shown = &rows[..rows.len().min(20)];
                let verdict = capture.judged();
                assert_eq!(verdict, told.verdict(), "{settings:?} {shown:02X?}");
            }
        }
    }

    #[test]
    fn drawn_waits_are_explained() {
        let mut draws = Draws::from_seed(1);
        for times in 0..100 {
            let capture = draw(&mut draws, times % 5);
            let steps = capture.rows.len();
            assert!(steps >= times % 5 * 3);
            assert_eq!(capture.judged(), Verdict::Explained(steps), "{capture:?}");
        }
    }

    /// Counted by hand. The five waits have 16 lengths, of which 6 are too long,
    /// and 7 of the 13 endings are wrong behind the others.
    #[test]
    fn both_verdicts_are_known_of_many() {
        let (sizes, faults) = (4, 2);
        let others = sizes * 5 * 8;
        let told = told();
        assert_eq!(told.len(), sizes * faults * 16 * 13 + others + 4 * 2);
        let wrong = told.iter().filter(|told| told.wrong.is_some()).count();
        assert_eq!(wrong, sizes * faults * (6 * 13 + 10 * 7) + others + 4);
    }
}
