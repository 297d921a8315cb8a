use super::*;
use crate::books::runs::{self, Habit, COMMON, LOCKED};
use crate::books::{changes, pairs};
use crate::controller::step;
use crate::draws::Draws;
use crate::judge::{causes, explain, reached_by, Cause};
use crate::pair;

/// Both judges, on a capture that neither refuses.
fn assert_agree(settings: Settings, rows: &[Row], causes: &[Cause]) -> Verdict {
    let start = settings.fresh();
    let verdict = explain(start, rows, causes);
    assert_eq!(scan(start, rows), verdict, "{settings:?} {rows:02X?}");
    verdict
}

/// Counted by hand: of the requests eight take 14 sections, and five take channel 0.
#[test]
fn the_tables_are_those_of_the_pair() {
    let mut looked_up = 0;
    for k1 in 0..=u8::MAX {
        let (code, channel) = (k1 >> 4, k1 & 0b1111);
        let expected = match pair::rank(code, channel) {
            0 => 0,
            rank => rank << 4 | (15 - channel),
        };
        // Those that stand in no row are never looked up for what they are worth.
        if pair::read_k1(14, k1).is_ok() {
            assert_eq!(WORTH[usize::from(k1)], expected, "{k1:02X}");
            looked_up += 1;
        }
        for n in 1..=14 {
            let sections = ((1u32 << (n + 1)) - 2) as u16;
            let usable = K1Set::usable(sections).has(k1);
            assert_eq!(usable, pair::read_k1(n, k1).is_ok(), "{n} {k1:02X}");
        }
    }
    assert_eq!(looked_up, 8 * 14 + 5);
}

#[test]
fn the_judge_lines_of_the_paper() {
    let judged = |rows: &[Row]| judge(Settings::new(2, 0, 3), rows.as_flattened());
    let lockout = [0x81, 0x08, 0xF0, 0x08];
    assert_eq!(judged(&[]), Ok(Verdict::Explained(0)));
    assert_eq!(
        judged(&[[0x00, 0x08, 0xE1, 0x08], [0x21, 0x18, 0x82, 0x08]]),
        Ok(Verdict::Unexplained(1))
    );
    for sent in [[0x00, 0x08], [0x21, 0x18]] {
        let shown = [0x11, 0x08, sent[0], sent[1]];
        assert_eq!(judged(&[lockout, shown]), Ok(Verdict::Explained(2)));
    }
}

#[test]
fn refusals_are_those_of_the_other_judge() {
    for (n, mask, length) in [
        (0, 0xFFFF, 65_537),
        (15, 0, 4),
        (255, 0, 0),
        (2, 4, 65_537),
        (14, 0x4000, 4),
        (2, 3, 65_537),
        (2, 3, 65_540),
        (2, 3, 65_536),
        (2, 3, 3),
        (2, 3, 0),
    ] {
        let capture = vec![0; length];
        let expected = crate::judge::judge(Settings::new(n, mask, 3), &capture);
        assert_eq!(
            judge(Settings::new(n, mask, 3), &capture),
            expected,
            "{n} {mask} {length}"
        );
    }
}

/// What is received in the steps of the captures that are tried in full.
const RECEIVED: [[u8; 2]; 10] = [
    [0x00, 0x08],
    [0x00, 0x0F],
    [0x21, 0xFF],
    [0x11, 0x08],
    [0x21, 0x18],
    [0x81, 0x0E],
    [0xB0, 0x08],
    [0xC1, 0x08],
    [0xD0, 0x18],
    [0xF0, 0x08],
];

/// Each K1 of the channels 0 to 2, with the K2 that may go with it and one that
/// never does.
fn all_sent() -> impl Iterator<Item = [u8; 2]> {
    (0..=u8::MAX)
        .filter(|k1| k1 & 0b1111 <= 2)
        .flat_map(|k1| [0x08, 0x18, 0x28, 0x0E].map(|k2| [k1, k2]))
}

/// Every row that may come next, behind rows that are explained.
fn longer(settings: Settings, front: &[Row], causes: &[Cause]) -> Vec<Vec<Row>> {
    let mut reached = vec![settings.fresh()];
    for &row in front {
        reached = reached_by(&reached, row, causes);
    }
    let mut explained = Vec::new();
    for row in all_rows() {
        let rows = [front, &[row]].concat();
        let goes_on = !reached_by(&reached, row, causes).is_empty();
        let agrees = scan(settings.fresh(), &rows) == told(&rows, goes_on);
        assert!(agrees, "{settings:?} {rows:02X?} {goes_on}");
        explained.extend(goes_on.then_some(rows));
    }
    explained
}

fn all_rows() -> impl Iterator<Item = Row> {
    all_sent().flat_map(|[sent, sent_k2]| RECEIVED.map(|[k1, k2]| [k1, k2, sent, sent_k2]))
}

fn told(rows: &[Row], explained: bool) -> Verdict {
    if explained {
        Verdict::Explained(rows.len())
    } else {
        Verdict::Unexplained(rows.len() - 1)
    }
}

/// Every capture of two steps that can be made of those rows, in a group of one
/// section, with hold and without.
#[test]
fn the_judges_agree_on_all_captures_of_two_steps() {
    let causes = causes(1);
    for (mask, w) in [(0, 1), (1, 0)] {
        let settings = Settings::new(1, mask, w);
        let explained = [settings, settings.with_hold()].map(|settings| {
            let firsts = longer(settings, &[], &causes);
            let seconds = firsts.iter().map(|front| longer(settings, front, &causes));
            (firsts.len(), seconds.map(|rows| rows.len()).sum::<usize>())
        });
        let [(firsts, seconds), holding] = explained;
        assert_eq!(holding, (firsts, seconds));
        assert!(firsts >= 40 && seconds > 1_000, "{seconds}");
    }
}

/// Behind LO, where both pairs may be accepted, behind alarms, after which one of them
/// is, and behind a wait.
#[test]
fn the_judges_agree_behind_longer_fronts() {
    let settings = Settings::new(2, 2, 2);
    let causes = causes(2);
    let fronts: [&[Row]; 6] = [
        &[[0x81, 0x08, 0xF0, 0x08], [0x11, 0x08, 0xF0, 0x08]],
        &[[0x81, 0x08, 0xF0, 0x08], [0x81, 0x0F, 0xF0, 0x08]],
        &[[0x81, 0x08, 0x21, 0x18], [0x81, 0x0F, 0xD0, 0x08]],
        &[[0xC1, 0x08, 0xF0, 0x08], [0x11, 0x08, 0xD0, 0x08]],
        &[[0x00, 0x08, 0xC1, 0x08], [0x21, 0x18, 0x61, 0x18]],
        &[[0x00, 0x08, 0x81, 0x08], [0x21, 0x18, 0xE1, 0x18]],
    ];
    for front in fronts {
        let explained = longer(settings, front, &causes);
        assert!(explained.len() > 20, "{front:02X?}");
        assert_eq!(longer(settings.with_hold(), front, &causes), explained);
    }
}

const HABITS: [Habit; 4] = [COMMON, LOCKED, COMMON.with_alarms(), LOCKED.with_alarms()];

/// Runs and damaged runs in groups of every size.
#[test]
fn the_judges_agree_on_drawn_captures() {
    let mut draws = Draws::from_seed(41);
    let mut verdicts = [0; 2];
    for n in 1..=14u8 {
        let causes = causes(n);
        for round in 0..24 {
            let mask = draws.below(1 << n);
            let settings = Settings::new(n, mask, draws.below(4));
            let settings = draws.pick(&[settings, settings.with_hold()]);
            let habit = HABITS[round % HABITS.len()];
            let mut capture = runs::draw(&mut draws, habit, settings, 12);
            if round % 3 > 0 {
                changes::replace(&mut draws, &mut capture);
            }
            let verdict = assert_agree(settings, &capture.rows, &causes);
            verdicts[usize::from(matches!(verdict, Verdict::Unexplained(_)))] += 1;
        }
    }
    assert!(verdicts.iter().all(|&count| count >= 50), "{verdicts:?}");
}

/// Rows of pairs that have little to do with each other.
#[test]
fn the_judges_agree_on_rows_of_any_pairs() {
    let mut draws = Draws::from_seed(42);
    for n in [1, 2, 3, 14] {
        let causes = causes(n);
        let settings = Settings::new(n, 1, 1);
        for _ in 0..200 {
            let rows = [(); 3].map(|()| {
                let [k1, k2] = pairs::draw_sendable(&mut draws, n);
                let [sent, sent_k2] = pairs::draw_sendable(&mut draws, n);
                [k1, k2, sent, sent_k2]
            });
            let verdict = assert_agree(settings, &rows, &causes);
            assert_eq!(assert_agree(settings.with_hold(), &rows, &causes), verdict);
        }
    }
}

/// Runs of every length about the ends of blocks, which a row ends that differs in one byte.
#[test]
fn repetitions_are_counted_to_the_first_byte_that_differs() {
    let row = [0x21, 0x18, 0xC1, 0x18];
    for length in 0..=3 * BLOCK + 1 {
        let run = vec![row; length];
        assert_eq!(repetitions(row, &run), length);
        for byte in 0..row.len() {
            let mut other = row;
            other[byte] ^= 1;
            assert_eq!(repetitions(other, &run), 0);
            let ended = [&run[..], &[other], &run[..]].concat();
            assert_eq!(repetitions(row, &ended), length);
        }
    }
}

/// All that a group of one section can be in: with each pair accepted, as far as its K2 does
/// not matter, each K1 sent, and each wait left.
fn records(settings: Settings) -> Vec<Record> {
    let accepted = (0..=u8::MAX).map(|k1| [k1, 0x08]);
    let sent = (0..=u8::MAX).flat_map(|sent| (0..=settings.w).map(move |left| (sent, left)));
    let sent: Vec<(u8, u16)> = sent.collect();
    accepted
        .flat_map(|accepted| sent.iter().map(move |&(sent, left)| (accepted, sent, left)))
        .map(|(accepted, sent, left)| Record {
            accepted,
            sent,
            left,
            ..settings.fresh()
        })
        .filter(|&record| step(record, 0x00, 0x08, &[0, 0], 0, 0).refusal == 0)
        .collect()
}

/// What the scan rests on, by brute force: from each record, a row that is explained leads to
/// the same records when it comes again; but if it sends WTR, to the same with a step less
/// of the wait, if one is left.
#[test]
fn a_repeated_row_leads_to_the_same_records() {
    let causes = causes(1);
    let settings = Settings::new(1, 0, 3);
    let rows: Vec<Row> = all_rows().filter(|row| row[2] & 0b1111 <= 1).collect();
    let mut led = [0; 2];
    for record in records(settings) {
        for &row in &rows {
            let once = reached_by(&[record], row, &causes);
            let waits = row[2] >> 4 == Request::WaitToRestore.code();
            let twice = reached_by(&once, row, &causes);
            assert!(is_repetition(&once, &twice, waits), "{record:?} {row:02X?}");
            led[usize::from(waits)] += once.len();
        }
    }
    assert!(led[0] >= 5_000 && led[1] >= 100, "{led:?}");
}

fn is_repetition(once: &[Record], twice: &[Record], waits: bool) -> bool {
    let later = |record: &Record| Record {
        left: record.left - u16::from(waits),
        ..*record
    };
    let expected: Vec<Record> = once.iter().map(later).collect();
    let expected = expected.iter().filter(|record| !waits || record.left > 0);
    let expected: Vec<&Record> = expected.collect();
    twice.len() == expected.len() && expected.iter().all(|record| twice.contains(record))
}

/// Rows of a group of one section: with nothing to say, with faults and the wait for them,
/// answered and not, with commands, under LO, which may hide that section 0 has failed, and
/// with an alarm.
const REPEATED: [Row; 12] = [
    [0x00, 0x08, 0x00, 0x08],
    [0x11, 0x08, 0x00, 0x08],
    [0x00, 0x08, 0xC1, 0x08],
    [0x00, 0x08, 0x61, 0x08],
    [0x21, 0x18, 0x61, 0x18],
    [0x00, 0x08, 0x81, 0x08],
    [0x00, 0x08, 0xE1, 0x08],
    [0x81, 0x08, 0x21, 0x18],
    [0x11, 0x08, 0x21, 0x18],
    [0x81, 0x08, 0xF0, 0x08],
    [0x11, 0x08, 0xF0, 0x08],
    [0x81, 0x0F, 0xD0, 0x08],
];

/// What is tried: runs of up to so many of each row, and so many of them one behind the
/// other.
struct Trial {
    settings: Settings,
    causes: Vec<Cause>,
    longest: usize,
}

impl Trial {
    fn new(settings: Settings, longest: usize) -> Self {
        Self {
            settings,
            causes: causes(1),
            longest,
        }
    }

    /// Behind a front that leads to these records, and as far as rows are explained: what is
    /// behind one that is not changes no verdict. Answers how many captures were tried.
    fn agree(&self, front: &[Row], reached: &[Record], runs: usize) -> usize {
        if runs == 0 {
            return 0;
        }
        let tried = REPEATED.map(|row| self.agree_on_run(row, front, reached, runs));
        tried.iter().sum()
    }

    fn agree_on_run(&self, row: Row, front: &[Row], reached: &[Record], runs: usize) -> usize {
        let (mut rows, mut reached) = (front.to_vec(), reached.to_vec());
        let mut tried = 0;
        for _ in 0..self.longest {
            rows.push(row);
            reached = reached_by(&reached, row, &self.causes);
            let verdict = told(&rows, !reached.is_empty());
            assert_eq!(scan(self.settings.fresh(), &rows), verdict, "{rows:02X?}");
            tried += 1;
            if reached.is_empty() {
                break;
            }
            tried += self.agree(&rows, &reached, runs - 1);
        }
        tried
    }
}

/// Rows that come back among them, as A B A does, with hold and without.
#[test]
fn the_judges_agree_on_all_captures_of_three_runs() {
    for w in 0..=3 {
        let settings = Settings::new(1, 0, w);
        let [tried, holding] = [settings, settings.with_hold()].map(|settings| {
            let trial = Trial::new(settings, 4);
            trial.agree(&[], &[settings.fresh()], 3)
        });
        assert_eq!(tried, holding);
        assert!(tried >= 10_000, "{tried}");
    }
}

/// Waits among them that are as long as the runs can be, and one step longer.
#[test]
fn the_judges_agree_on_all_captures_of_two_long_runs() {
    let longest = BLOCK + 3;
    let settings = Settings::new(1, 0, longest as u16 - 1);
    let trial = Trial::new(settings, longest);
    let tried = trial.agree(&[], &[settings.fresh()], 2);
    assert!(tried >= 50_000, "{tried}");
}
