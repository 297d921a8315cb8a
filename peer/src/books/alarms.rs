//! Captures with alarms in them (paper: 02, c). A step that receives one is a step of a
//! failed section 0 and can be nothing else: D0 08 is sent, or F0 08 if LO is up, and
//! from then on 00 08 is the accepted pair, until a usable one comes.

use super::capture::{row, Capture, Told};
use super::changes;
use super::pairs::{self, alarmed, said, unheard, FAILED, IDLE, LOCKOUT, UNUSABLE};
use super::runs::{self, COMMON, LOCKED};
use crate::draws::Draws;
use crate::judge::Row;
use crate::pair::Request;
use crate::settings::Settings;

const SIZES: [u8; 4] = [1, 2, 5, 14];
const SEED: u64 = 13;
const DRAWN: usize = 200;

pub fn captures() -> Vec<Capture> {
    let mut captures = Told::captures(told());
    captures.extend(drawn());
    captures
}

pub fn told() -> Vec<Told> {
    let scenes = scenes();
    let open = scenes.iter().flat_map(Scene::tellings);
    let locked = scenes.iter().flat_map(Scene::locked_tellings);
    open.chain(locked).collect()
}

/// Runs with alarms; others in which the line goes on from some step as if no alarm
/// had come; and the first with one pair replaced.
pub fn drawn() -> Vec<Capture> {
    let mut draws = Draws::from_seed(SEED);
    let draw = |number| {
        let habit = if number % 2 == 0 { COMMON } else { LOCKED }.with_alarms();
        let steps = 2 + draws.place(29);
        let run = runs::draw_of_any_settings(&mut draws, habit, steps);
        let settings = runs::draw_settings(&mut draws);
        let hearing = draws.place(steps / 2);
        let lengths = [hearing, steps - hearing];
        let deaf = runs::draw_going_deaf(&mut draws, habit, settings, lengths);
        let mut other = run.clone();
        changes::replace(&mut draws, &mut other);
        [run, deaf, other]
    };
    (0..DRAWN).flat_map(draw).collect()
}

/// What stays the same in the captures that are set side by side.
#[derive(Clone, Copy)]
struct Scene {
    settings: Settings,
    /// The pair that is accepted when the alarm comes.
    received: [u8; 2],
    alarm: [u8; 2],
}

fn scenes() -> Vec<Scene> {
    SIZES
        .into_iter()
        .map(Settings::with_last_high)
        .flat_map(scenes_of)
        .collect()
}

/// Of what stands beside the line bits of an alarm nothing counts: the rest of the
/// pair is usable, or has a code, a channel or a bridge that is not.
fn scenes_of(settings: Settings) -> impl Iterator<Item = Scene> {
    let scene = move |(number, received)| {
        let beside = [received, IDLE, UNUSABLE, [0xFF, 0xF8]];
        Scene {
            settings,
            received,
            alarm: alarmed(beside[number % beside.len()]),
        }
    };
    pairs::telling(settings.n)
        .into_iter()
        .enumerate()
        .map(scene)
}

impl Scene {
    /// The step before the alarm, and any other in which that pair is received.
    fn heard(&self) -> Row {
        let [_, _, sent @ ..] = self.kept();
        row(self.received, sent)
    }

    /// The received pair is the accepted one.
    fn kept(&self) -> Row {
        self.settings.shown(self.received, None)
    }

    /// 00 08 is the accepted pair.
    fn lost(&self) -> Row {
        self.settings.shown(IDLE, None)
    }

    fn alarmed(&self, sent: [u8; 2]) -> Row {
        row(self.alarm, sent)
    }

    /// What a step with the alarm never sends: what it would send if nothing had come,
    /// or if nothing but the accepted pair were lost; a request below that of section
    /// 0; and a bridge.
    fn wrong_answers(&self) -> [Row; 5] {
        let n = self.settings.n;
        let [_, _, as_before @ ..] = self.kept();
        let bridged = said(Request::SignalFailHigh, 0, n);
        let forced = said(Request::ForcedSwitch, n, 0);
        let locked = said(Request::Lockout, 0, n);
        [as_before, IDLE, bridged, forced, locked].map(|sent| self.alarmed(sent))
    }

    /// Without a command before the alarm.
    fn tellings(&self) -> Vec<Told> {
        let [heard, kept, lost] = [self.heard(), self.kept(), self.lost()];
        let [failed, locked] = [FAILED, LOCKOUT].map(|sent| self.alarmed(sent));
        let [_, _, as_before @ ..] = kept;
        // Line bits that mean nothing, and those of an alarm where bit 5 is 0.
        let [k1, k2] = self.alarm;
        let other = row(unheard(self.alarm), as_before);
        let not_1_to_n = row([k1, k2 & !0b1000], as_before);
        let endings: [(&[Row], Option<usize>); 10] = [
            (&[failed, failed, lost], None),
            (&[failed, kept], Some(1)),
            (&[failed, heard, kept], None),
            (&[failed, heard, lost], Some(2)),
            (&[locked, lost], None),
            (&[locked, kept], Some(1)),
            (&[locked, failed, lost], None),
            (&[other, kept], None),
            (&[not_1_to_n, kept], None),
            (&[not_1_to_n, lost], Some(1)),
        ];
        self.behind(heard, &endings)
    }

    /// LO is up when the alarm comes. What is sent does not show it, but it leaves no
    /// doubt about the accepted pair.
    fn locked_tellings(&self) -> Vec<Told> {
        let [kept, lost] = [self.kept(), self.lost()];
        let [failed, locked] = [FAILED, LOCKOUT].map(|sent| self.alarmed(sent));
        let front = row(self.received, LOCKOUT);
        let covered = row(UNUSABLE, LOCKOUT);
        let other = row(unheard(self.alarm), LOCKOUT);
        let endings: [(&[Row], Option<usize>); 10] = [
            (&[locked, lost], None),
            (&[locked, kept], Some(1)),
            (&[locked, covered, lost], None),
            (&[covered, locked, covered, kept], Some(3)),
            (&[locked, front, lost], None),
            (&[locked, front, kept], None),
            (&[failed, lost], None),
            (&[failed, kept], Some(1)),
            (&[other, lost], None),
            (&[other, kept], None),
        ];
        self.behind(front, &endings)
    }

    /// The endings, and the answers that are wrong at once, behind a first step.
    fn behind(&self, front: Row, endings: &[(&[Row], Option<usize>)]) -> Vec<Told> {
        let wrong = self.wrong_answers();
        let at_once = wrong.iter().map(|row| (std::slice::from_ref(row), Some(0)));
        let tell = |(ending, wrong): (&[Row], Option<usize>)| {
            let rows = [&[front], ending].concat();
            Told::new(self.settings, rows, wrong.map(|step| 1 + step))
        };
        endings.iter().copied().chain(at_once).map(tell).collect()
    }
}

#[cfg(test)]
mod tests {
    use super::*;
    use crate::books::capture::has_alarm;
    use crate::judge::Verdict;

    #[test]
    fn the_judge_finds_what_is_known_of_each_telling() {
        for told in told() {
            for capture in told.capture.both_ways() {
                assert_eq!(capture.judged(), told.verdict(), "{capture:?}");
            }
        }
    }

    /// Counted by hand: four groups, eight pairs, and of the fifteen tellings of each
    /// kind five that are wrong at once; of the others four and three are wrong.
    #[test]
    fn both_verdicts_are_known_of_many() {
        let told = told();
        assert_eq!(told.len(), 4 * 8 * (15 + 15));
        let wrong = told.iter().filter(|told| told.wrong.is_some()).count();
        assert_eq!(wrong, 4 * 8 * (5 + 4 + 5 + 3));
    }

    /// Or what is wrong in the tellings would not be.
    #[test]
    fn the_two_accepted_pairs_can_be_told_apart() {
        for scene in scenes() {
            let Scene { received, .. } = scene;
            assert_ne!(scene.kept(), scene.lost(), "{received:02X?}");
            assert!(pairs::is_alarm(scene.alarm), "{:02X?}", scene.alarm);
        }
    }

    /// The runs as they are have an explanation. Of those that take no notice of alarms
    /// many have none, but LO covers a lot.
    #[test]
    fn drawn_runs_come_by_alarms() {
        let drawn = drawn();
        let mut alarms = 0;
        let mut explained = [0; 3];
        for (number, capture) in drawn.iter().enumerate() {
            alarms += capture.rows.iter().filter(|row| has_alarm(row)).count();
            let verdict = capture.judged();
            explained[number % 3] += usize::from(matches!(verdict, Verdict::Explained(_)));
        }
        let [runs, deaf, _] = explained;
        assert_eq!((runs, drawn.len()), (DRAWN, 3 * DRAWN));
        assert!((DRAWN / 4..DRAWN / 4 * 3).contains(&deaf), "{deaf}");
        assert!(alarms >= 500, "{alarms}");
    }
}
