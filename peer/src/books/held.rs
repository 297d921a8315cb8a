//! Captures of ends with hold (paper: 02, g), in which a command is outranked, waits, and
//! comes back. That it does, shows nobody whether the end has hold: without it the command
//! can be given again, and with it have been cleared. So each is as good a capture of an
//! end without.

use super::capture::{row, Capture, Told};
use super::changes;
use super::pairs::{alarmed, fail, is_command, said, FAILED, IDLE, LOCKOUT};
use super::runs::{self, COMMON, CROWDED};
use crate::draws::Draws;
use crate::judge::Row;
use crate::pair::Request;
use crate::settings::Settings;

const SIZES: [u8; 4] = [1, 2, 5, 14];
const MOST_WAITING: usize = 3;
const SEED: u64 = 15;
const DRAWN: usize = 150;

pub fn captures() -> Vec<Capture> {
    let mut captures = Told::captures(told());
    captures.extend(drawn());
    captures
}

/// Runs of ends with hold, and the same with one pair replaced.
pub fn drawn() -> Vec<Capture> {
    let mut draws = Draws::from_seed(SEED);
    let draw = |number| {
        let habit = [COMMON, CROWDED, COMMON.with_alarms()][number % 3];
        let settings = runs::draw_settings(&mut draws).with_hold();
        let steps = 1 + draws.place(30);
        let run = runs::draw(&mut draws, habit, settings, steps);
        let mut other = run.clone();
        changes::replace(&mut draws, &mut other);
        [run, other]
    };
    (0..DRAWN).flat_map(draw).collect()
}

pub fn told() -> Vec<Told> {
    scenes().iter().flat_map(Scene::tellings).collect()
}

/// A command, and what outranks it for some steps.
struct Scene {
    settings: Settings,
    request: Request,
    outranked: Row,
    waiting: usize,
}

fn scenes() -> Vec<Scene> {
    let settings = SIZES.into_iter().map(Settings::with_last_high);
    let scenes = settings.flat_map(|settings| {
        let forced = over_forced().map(|outranked| (Request::ForcedSwitch, outranked));
        let manual = over_manual(settings.n).map(|outranked| (Request::ManualSwitch, outranked));
        let both = forced.into_iter().chain(manual);
        both.map(move |(request, outranked)| (settings, request, outranked))
    });
    let scene = |(number, (settings, request, outranked))| Scene {
        settings,
        request,
        outranked,
        waiting: 1 + number % MOST_WAITING,
    };
    scenes.enumerate().map(scene).collect()
}

/// A failed section 0, with an alarm and without, and what the far end can ask for.
fn over_forced() -> [Row; 4] {
    let reverse = said(Request::Reverse, 0, 0);
    [
        row(IDLE, FAILED),
        row(alarmed(IDLE), FAILED),
        row(LOCKOUT, reverse),
        row(FAILED, reverse),
    ]
}

/// That of section 0, and a fail of the last section, here and at the far end.
fn over_manual(n: u8) -> [Row; 3] {
    let failed = said(fail(true), n, 0);
    [
        row(IDLE, FAILED),
        row(IDLE, failed),
        row(failed, said(Request::Reverse, n, n)),
    ]
}

impl Scene {
    /// Sent while nothing is asked for at the far end.
    fn sent(&self, request: Request, channel: u8) -> Row {
        row(IDLE, said(request, channel, 0))
    }

    /// The ways that a command which waits may go on, and what is wrong with each.
    fn tellings(&self) -> Vec<Told> {
        let n = self.settings.n;
        let [up, nothing] = [self.sent(self.request, n), self.sent(Request::Nothing, 0)];
        let locked = row(IDLE, LOCKOUT);
        let [forced, manual] =
            [Request::ForcedSwitch, Request::ManualSwitch].map(|request| self.sent(request, 1));
        let outranked = self.outranked;
        // Behind a command that is up none of its rank or below it is sent, but itself.
        let below = (manual != up).then_some(1);
        let beside = (forced != up && self.request == Request::ForcedSwitch).then_some(1);
        let endings: [(&[Row], Option<usize>); 10] = [
            (&[up, up], None),
            (&[nothing, nothing], None),
            (&[nothing, up], None),
            (&[locked, nothing], None),
            (&[locked, up], Some(1)),
            (&[forced, outranked, up], None),
            (&[manual, outranked, up], None),
            (&[up, locked, up], Some(2)),
            (&[up, manual], below),
            (&[up, forced], beside),
        ];
        endings
            .map(|(ending, wrong)| self.telling(up, ending, wrong))
            .into()
    }

    /// Behind the command, and as many steps as it waits.
    fn telling(&self, up: Row, ending: &[Row], wrong: Option<usize>) -> Told {
        let mut rows = vec![up];
        rows.resize(1 + self.waiting, self.outranked);
        let wrong = wrong.map(|step| rows.len() + step);
        rows.extend_from_slice(ending);
        Told::new(self.settings, rows, wrong)
    }
}

/// Whether a command is sent again behind others that are none.
pub fn bring_back(rows: &[Row]) -> bool {
    let mut last = None;
    let mut waits = false;
    rows.iter().any(|&[_, _, sent, _]| {
        if !is_command(sent) {
            waits = true;
            return false;
        }
        let back = waits && last == Some(sent);
        (last, waits) = (Some(sent), false);
        back
    })
}

#[cfg(test)]
mod tests {
    use super::*;
    use crate::judge::{scan, Verdict};

    /// By brute force with hold and without, and by the scan.
    #[test]
    fn the_judges_find_what_is_known_of_each_telling() {
        for told in told() {
            for capture in told.capture.both_ways() {
                assert_eq!(capture.judged(), told.verdict(), "{capture:?}");
                let scanned = scan::scan(capture.settings.fresh(), &capture.rows);
                assert_eq!(scanned, told.verdict(), "{capture:?}");
            }
        }
    }

    /// Counted by hand: four groups, seven scenes of each, and ten tellings. Two of these are
    /// wrong in all scenes, and MS behind FS in four of each group. Where there is another
    /// section, so is its MS behind MS, in the other three, and its FS behind FS.
    #[test]
    fn both_verdicts_are_known_of_many() {
        let told = told();
        assert_eq!(told.len(), 4 * 7 * 10);
        let wrong = told.iter().filter(|told| told.wrong.is_some()).count();
        assert_eq!(wrong, 4 * 7 * 2 + 4 * 4 + 3 * 3 + 3 * 4);
        let back = told.iter().filter(|told| bring_back(&told.capture.rows));
        assert!(back.count() >= 4 * 7 * 5);
    }

    /// The runs as they are have an explanation, with hold and without; and so many of them
    /// have a command that comes back that it is no chance.
    #[test]
    fn drawn_runs_bring_commands_back() {
        let drawn = drawn();
        let mut counts = [0; 2];
        for (number, run) in drawn.iter().enumerate() {
            let [with, without] = run.both_ways().map(|capture| capture.judged());
            assert_eq!(with, without, "{run:?}");
            if number % 2 == 0 {
                assert_eq!(with, Verdict::Explained(run.rows.len()), "{run:?}");
                counts[0] += usize::from(bring_back(&run.rows));
            }
            counts[1] += usize::from(matches!(with, Verdict::Unexplained(_)));
        }
        assert_eq!(drawn.len(), 2 * DRAWN);
        assert!(
            counts[0] >= DRAWN / 4 && counts[1] >= DRAWN / 4,
            "{counts:?}"
        );
    }

    #[test]
    fn what_comes_back_by_hand() {
        for (sent, expected) in [
            (&[][..], false),
            (&[0xE1], false),
            (&[0xE1, 0xE1], false),
            (&[0xE1, 0xD0], false),
            (&[0xE1, 0xD0, 0xE1], true),
            (&[0xE1, 0xD0, 0x20, 0xE1], true),
            (&[0xE1, 0xD0, 0xE2], false),
            (&[0x81, 0xE1, 0x81], false),
            (&[0x81, 0xE1, 0xD0, 0x81], false),
            (&[0x00, 0x82, 0xC1, 0xC1, 0x61, 0x82], true),
        ] {
            let rows: Vec<Row> = sent.iter().map(|&k1| row(IDLE, [k1, 0x08])).collect();
            assert_eq!(bring_back(&rows), expected, "{sent:02X?}");
        }
    }
}
