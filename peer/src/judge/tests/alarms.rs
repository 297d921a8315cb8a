//! Lines that received an alarm (02, c). It can be explained by a failed section 0 and
//! by nothing else.

use super::*;
use crate::books::capture::has_alarm;
use crate::books::changes;
use crate::books::runs::{self, COMMON, LOCKED};

/// MS 1 of the far end is accepted, and answered.
const HEARD: Row = [0x81, 0x08, 0x21, 0x18];
const LOCKED_OUT: Row = [0x81, 0x08, 0xF0, 0x08];

/// What shows the accepted pair where none is usable: MS 1 or 00 08.
const KEPT: Row = [0x11, 0x08, 0x21, 0x18];
const FORGOTTEN: Row = [0x11, 0x08, 0x00, 0x08];

/// Pairs that are alarms: one that is usable but for that, and two that are not.
const ALARMS: [[u8; 2]; 3] = [[0x81, 0x0F], [0x11, 0x0F], [0xFF, 0xFF]];

fn alarm_rows(sent: [u8; 2]) -> impl Iterator<Item = Row> {
    let [sent, sent_k2] = sent;
    ALARMS
        .into_iter()
        .map(move |[k1, k2]| [k1, k2, sent, sent_k2])
}

#[test]
fn an_alarm_that_is_answered_by_d0_is_explained() {
    for failed in alarm_rows([0xD0, 0x08]) {
        assert_all_explained(&[failed]);
        assert_all_explained(&[HEARD, failed, failed, FORGOTTEN]);
        assert_all_explained(&[HEARD, failed, HEARD, KEPT]);
        assert_last_unexplained(&[HEARD, failed, KEPT]);
        assert_last_unexplained(&[HEARD, failed, HEARD, FORGOTTEN]);
    }
}

#[test]
fn a_line_that_goes_on_as_if_no_alarm_had_come_is_unexplained() {
    for going_on in alarm_rows([0x21, 0x18]) {
        assert_last_unexplained(&[HEARD, going_on]);
    }
    for sent in [[0x00, 0x08], [0x81, 0x08], [0xC1, 0x08], [0xE1, 0x08]] {
        for row in alarm_rows(sent) {
            assert_last_unexplained(&[row]);
            assert_last_unexplained(&[HEARD, row]);
        }
    }
    // The paper's P2 and P3: A2 goes on in the step of the alarm, and in no other.
    let [p2, p3] = [[0x00, 0x08, 0xA2, 0x08], [0x22, 0x28, 0xA2, 0x28]];
    assert_last_unexplained(&[p2, p3, [0x22, 0x2F, 0xA2, 0x28]]);
    assert_all_explained(&[p2, p3, [0x22, 0x2F, 0xD0, 0x08], p3]);
}

/// Neither bit 5 as 0 nor other line bits make an alarm.
#[test]
fn other_unusable_pairs_are_no_alarms() {
    for k2 in [0x07, 0x0D, 0x0B, 0x09] {
        assert_all_explained(&[HEARD, [0x81, k2, 0x21, 0x18], KEPT]);
        assert_last_unexplained(&[HEARD, [0x81, k2, 0x21, 0x18], FORGOTTEN]);
    }
}

/// LO hides the alarm, but the accepted pair is 00 08 for certain from then on. Where
/// no alarm came it may be the other as well.
#[test]
fn under_lockout_an_alarm_leaves_one_accepted_pair() {
    let still = [0x11, 0x08, 0xF0, 0x08];
    assert_all_explained(&[LOCKED_OUT, still, KEPT]);
    for covered in alarm_rows([0xF0, 0x08]) {
        assert_all_explained(&[LOCKED_OUT, covered]);
        assert_all_explained(&[LOCKED_OUT, covered, FORGOTTEN]);
        assert_last_unexplained(&[LOCKED_OUT, covered, KEPT]);
        assert_last_unexplained(&[LOCKED_OUT, still, covered, still, KEPT]);
        assert_all_explained(&[LOCKED_OUT, covered, LOCKED_OUT, KEPT]);
        assert_all_explained(&[LOCKED_OUT, covered, LOCKED_OUT, FORGOTTEN]);
        // LO can also be new in the step of the alarm.
        assert_all_explained(&[HEARD, covered, FORGOTTEN]);
        assert_last_unexplained(&[HEARD, covered, KEPT]);
    }
    for cleared in alarm_rows([0xD0, 0x08]) {
        assert_all_explained(&[LOCKED_OUT, cleared, FORGOTTEN]);
        assert_last_unexplained(&[LOCKED_OUT, cleared, KEPT]);
    }
}

/// 00 08 asks for no bridge (rule 6), and line bits are never sent.
#[test]
fn an_alarm_is_never_answered_with_a_bridge() {
    for sent in [
        [0xD0, 0x18],
        [0xF0, 0x18],
        [0xD0, 0x28],
        [0xD0, 0x0E],
        [0xD0, 0x0F],
    ] {
        for row in alarm_rows(sent) {
            assert_last_unexplained(&[row]);
            assert_last_unexplained(&[HEARD, row]);
            assert_last_unexplained(&[LOCKED_OUT, row]);
        }
    }
}

/// A wait is over with the alarm, and so is a command that it outranks.
#[test]
fn neither_a_wait_nor_a_command_outlasts_an_alarm() {
    let [fault, wait] = [[0x00, 0x08, 0xC1, 0x08], [0x00, 0x08, 0x61, 0x08]];
    let [forced, manual] = [[0x00, 0x08, 0xE1, 0x08], [0x00, 0x08, 0x82, 0x08]];
    for failed in alarm_rows([0xD0, 0x08]) {
        assert_all_explained(&[fault, wait, failed, fault, wait]);
        assert_last_unexplained(&[fault, wait, failed, wait]);
        assert_last_unexplained(&[forced, manual]);
        assert_all_explained(&[forced, failed, manual]);
    }
}

/// Runs with alarms, half of them of an end that soon hears no more of these; of the
/// others half with a pair replaced.
fn draw_with_alarms(draws: &mut Draws, start: Record) -> Vec<Row> {
    let habit = draws.pick(&[COMMON, LOCKED]).with_alarms();
    let steps = draws.pick(&[[2, 10], [12, 0]]);
    let mut capture = runs::draw_going_deaf(draws, habit, settings_of(start), steps);
    if steps == [12, 0] && draws.once_in(2) {
        changes::replace(draws, &mut capture);
    }
    capture.rows
}

/// What becomes of captures with alarms.
#[derive(Debug, Default)]
struct Seen {
    explained: usize,
    unexplained: usize,
    /// Of these, with an alarm in the step that is named.
    at_an_alarm: usize,
}

impl Seen {
    fn see(&mut self, rows: &[Row], verdict: Verdict) {
        let Verdict::Unexplained(step) = verdict else {
            self.explained += 1;
            return;
        };
        self.unexplained += 1;
        self.at_an_alarm += usize::from(has_alarm(&rows[step]));
    }
}

/// All sets of conditions, one bad section at most, and the scan.
#[test]
fn with_alarms_too_the_judges_agree_with_all_causes() {
    let mut draws = Draws::from_seed(34);
    let mut seen = Seen::default();
    for (n, captures) in [(1, 400), (2, 300), (3, 120), (4, 12)] {
        let several = with_commands(n, &all_conditions(n));
        let one = with_commands(n, &one_bad_section(n));
        for _ in 0..captures {
            let start = draw_start(&mut draws, n);
            let rows = draw_with_alarms(&mut draws, start);
            let verdict = explained_by_one_as_by_several(start, &rows, [&several, &one]);
            let scanned = scan::judge(settings_of(start), rows.as_flattened());
            assert_eq!(scanned, Ok(verdict), "{start:?} {rows:02X?}");
            seen.see(&rows, verdict);
        }
    }
    assert!(seen.explained >= 200 && seen.at_an_alarm >= 100, "{seen:?}");
    assert!(seen.unexplained >= seen.at_an_alarm + 100, "{seen:?}");
}
