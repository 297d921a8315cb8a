//! Captures that keep LO up while section 0 may have failed unseen (paper:
//! "Errors a good reader makes", the second).
//!
//! A pair is accepted, LO covers some steps, and only unusable pairs come from
//! then on. When LO is cleared, what is sent shows the accepted pair: the one
//! that came, or 00 08 if section 0 failed in between.

use super::capture::{row, Capture, Told};
use super::changes;
use super::pairs::{self, said, IDLE, LOCKOUT, UNUSABLE};
use super::runs::{self, LOCKED};
use crate::draws::Draws;
use crate::judge::Row;
use crate::pair::Request;
use crate::settings::Settings;

const SIZES: [u8; 5] = [1, 2, 3, 5, 14];
const MOST_COVERED: usize = 3;
const SEED: u64 = 10;
const DRAWN: usize = 300;

pub fn captures() -> Vec<Capture> {
    let mut captures = Told::captures(told());
    captures.extend(drawn());
    captures
}

pub fn told() -> Vec<Told> {
    scenes().iter().flat_map(Scene::tellings).collect()
}

/// A capture of any settings in which LO covers so many steps behind the first, and a step
/// behind these shows whether section 0 failed in one of them.
pub fn draw(draws: &mut Draws, covered: usize) -> Capture {
    let settings = runs::draw_settings(draws);
    let received = draws.pick(&pairs::telling(settings.n));
    let scene = Scene {
        settings,
        received,
        covered,
        failed: None,
    };
    let shown = scene.shown(draws.pick(&[received, IDLE]));
    scene.telling(&[shown], None).capture
}

/// Runs under causes that keep LO up, and the same with one pair replaced.
pub fn drawn() -> Vec<Capture> {
    let mut draws = Draws::from_seed(SEED);
    let draw = |_| {
        let steps = 1 + draws.place(30);
        let run = runs::draw_of_any_settings(&mut draws, LOCKED, steps);
        let mut other = run.clone();
        changes::replace(&mut draws, &mut other);
        [run, other]
    };
    (0..DRAWN).flat_map(draw).collect()
}

/// What stays the same in the captures that are set side by side.
#[derive(Clone, Copy)]
struct Scene {
    settings: Settings,
    /// The pair that is received with the first LO.
    received: [u8; 2],
    /// The steps of LO after it, without a usable pair.
    covered: usize,
    /// The section that fails when LO is cleared, if one does: then the bridge is
    /// what shows the accepted pair.
    failed: Option<u8>,
}

fn scenes() -> Vec<Scene> {
    SIZES
        .into_iter()
        .map(Settings::with_last_high)
        .flat_map(scenes_of)
        .collect()
}

fn scenes_of(settings: Settings) -> impl Iterator<Item = Scene> {
    let n = settings.n;
    let scene = move |(number, received)| Scene {
        settings,
        received,
        covered: number % (MOST_COVERED + 1),
        failed: None,
    };
    let quiet = pairs::telling(n).into_iter().enumerate().map(scene);
    quiet.flat_map(move |scene| {
        let failing = Scene {
            failed: Some(n),
            covered: (scene.covered + 2) % (MOST_COVERED + 1),
            ..scene
        };
        [scene, failing]
    })
}

impl Scene {
    /// What is sent when LO is cleared, if that pair is the accepted one.
    fn shown(&self, accepted: [u8; 2]) -> Row {
        self.settings.shown(accepted, self.failed)
    }

    /// The ways this may go on, and what is wrong with each.
    fn tellings(&self) -> Vec<Told> {
        let kept = self.shown(self.received);
        let lost = self.shown(IDLE);
        // The bridge of an RR is never 0, unless that is its channel (rule 6).
        let neither = row(UNUSABLE, said(Request::Reverse, self.settings.n, 0));
        let again = row(UNUSABLE, LOCKOUT);
        let endings: [(&[Row], Option<usize>); 13] = [
            (&[kept], None),
            (&[lost], None),
            (&[neither], Some(0)),
            (&[kept, kept], None),
            (&[lost, lost], None),
            (&[kept, lost], Some(1)),
            (&[lost, kept], Some(1)),
            (&[kept, again, kept], None),
            (&[kept, again, lost], None),
            (&[lost, again, lost], None),
            (&[lost, again, kept], Some(2)),
            (&[again, kept, neither], Some(2)),
            (&[again, lost, neither], Some(2)),
        ];
        endings
            .map(|(ending, wrong)| self.telling(ending, wrong))
            .into()
    }

    /// The steps under LO with an ending that has something wrong in it, or not.
    fn telling(&self, ending: &[Row], wrong: Option<usize>) -> Told {
        let mut rows = vec![row(self.received, LOCKOUT)];
        rows.resize(1 + self.covered, row(UNUSABLE, LOCKOUT));
        let wrong = wrong.map(|step| rows.len() + step);
        rows.extend_from_slice(ending);
        Told::new(self.settings, rows, wrong)
    }
}

#[cfg(test)]
mod tests {
    use super::*;
    use crate::judge::Verdict;

    #[test]
    fn the_judge_finds_what_is_known_of_each_telling() {
        for told in told() {
            for capture in told.capture.both_ways() {
                assert_eq!(capture.judged(), told.verdict(), "{capture:?}");
            }
        }
    }

    #[test]
    fn drawn_captures_show_either_pair() {
        let mut draws = Draws::from_seed(SEED);
        let mut failed = 0;
        for covered in 0..200 {
            let capture = draw(&mut draws, covered % 5);
            let steps = covered % 5 + 2;
            assert_eq!(capture.judged(), Verdict::Explained(steps), "{capture:?}");
            let shown = capture.settings.shown(IDLE, None);
            failed += usize::from(capture.rows.last() == Some(&shown));
        }
        assert!((50..150).contains(&failed), "{failed}");
    }

    /// Or what is wrong in the tellings would not be.
    #[test]
    fn the_two_accepted_pairs_can_be_told_apart() {
        let scenes = scenes();
        assert_eq!(scenes.len(), 5 * 8 * 2);
        for scene in scenes {
            let Scene { received, .. } = scene;
            assert_ne!(scene.shown(received), scene.shown(IDLE), "{received:02X?}");
        }
    }
}
