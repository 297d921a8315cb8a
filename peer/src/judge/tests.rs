mod alarms;
mod hold;
mod ties;

use super::*;
use crate::controller::Answer;
use crate::draws::Draws;
use std::collections::HashSet;
use std::fs;
use std::path::Path;

/// With the settings of the paper's sequences, by both judges, without hold and with it.
fn judged(rows: &[Row]) -> Verdict {
    let settings = Settings::new(2, 0, 3);
    let capture = rows.as_flattened();
    let verdict = judge(settings, capture);
    for settings in [settings, settings.with_hold()] {
        assert_eq!(judge(settings, capture), verdict, "{rows:02X?}");
        assert_eq!(scan::judge(settings, capture), verdict, "{rows:02X?}");
    }
    verdict.expect("a capture that is not refused")
}

fn assert_all_explained(rows: &[Row]) {
    assert_eq!(judged(rows), Verdict::Explained(rows.len()), "{rows:02X?}");
}

/// The last row is the one that cannot be explained.
fn assert_last_unexplained(rows: &[Row]) {
    let last = rows.len() - 1;
    assert_eq!(judged(rows), Verdict::Unexplained(last), "{rows:02X?}");
}

#[test]
fn the_judge_lines_of_the_paper() {
    assert_all_explained(&[]);
    assert_last_unexplained(&[[0x00, 0x08, 0xE1, 0x08], [0x21, 0x18, 0x82, 0x08]]);
    let lockout = [0x81, 0x08, 0xF0, 0x08];
    assert_all_explained(&[lockout, [0x11, 0x08, 0x00, 0x08]]);
    assert_all_explained(&[lockout, [0x11, 0x08, 0x21, 0x18]]);
}

#[test]
fn the_sequences_of_the_paper_are_explained() {
    let p2_p3 = [[0x00, 0x08, 0xA2, 0x08], [0x22, 0x28, 0xA2, 0x28]];
    let wait = [0x22, 0x28, 0x62, 0x28];
    let [p2, p3] = p2_p3;
    assert_all_explained(&[p2, p3, wait, wait, wait, [0x22, 0x28, 0x00, 0x28]]);
    assert_all_explained(&[p2, p3, [0xC1, 0x08, 0x21, 0x18]]);
    assert_all_explained(&[p2, [0x11, 0x08, 0xA2, 0x08]]);
    let p4_p5 = [[0xA2, 0x08, 0x22, 0x28], [0xA2, 0x28, 0x22, 0x28]];
    assert_all_explained(&[p4_p5[0], p4_p5[1], [0xA2, 0x28, 0xC1, 0x08]]);
    assert_all_explained(&[[0x00, 0x08, 0xD0, 0x08]]);
}

/// "Ranking by code". SF0 received stands above FS and below LO; and what is
/// received does not count at all while section 0 has failed here.
#[test]
fn failed_protection_stands_above_a_forced_switch() {
    assert_last_unexplained(&[[0xD0, 0x08, 0xE1, 0x08]]);
    assert_all_explained(&[[0xD0, 0x08, 0x20, 0x08]]);
    assert_all_explained(&[[0xD0, 0x08, 0xF0, 0x08]]);
    assert_all_explained(&[[0xE1, 0x18, 0xD0, 0x08]]);
    assert_all_explained(&[[0xF0, 0x08, 0xD0, 0x08]]);
    let forced = [0x00, 0x08, 0xE1, 0x08];
    assert_all_explained(&[forced, [0x00, 0x08, 0xD0, 0x08]]);
}

/// "Keeping one guessed record". Either accepted pair may come to light, no
/// third one, and from then on it is the one.
#[test]
fn under_lockout_the_accepted_pair_has_two_values() {
    let lockout = [0x81, 0x08, 0xF0, 0x08];
    let still = [0x11, 0x08, 0xF0, 0x08];
    let forgotten = [0x11, 0x08, 0x00, 0x08];
    let kept = [0x11, 0x08, 0x21, 0x18];
    for shown in [forgotten, kept] {
        assert_all_explained(&[lockout, still, still, shown, shown]);
        assert_all_explained(&[lockout, still, shown, still, forgotten]);
    }
    assert_last_unexplained(&[lockout, [0x11, 0x08, 0x22, 0x28]]);
    assert_last_unexplained(&[lockout, still, forgotten, kept]);
    assert_last_unexplained(&[lockout, still, kept, forgotten]);
    assert_all_explained(&[lockout, kept, still, kept]);
    assert_last_unexplained(&[lockout, forgotten, still, kept]);
    // Usable again, the received pair is the accepted one, unless section 0 fails.
    let other = [0x82, 0x08, 0xF0, 0x08];
    assert_all_explained(&[lockout, other, [0x11, 0x08, 0x22, 0x28]]);
    assert_all_explained(&[lockout, other, forgotten]);
    assert_last_unexplained(&[lockout, other, kept]);
}

/// "Explaining FS 1 followed by MS 2 by a clear".
#[test]
fn a_held_command_gives_way_to_a_higher_one_only() {
    let sent = |k1| [0x00, 0x08, k1, 0x08];
    for (held, next) in [(0xE1, 0x82), (0xE1, 0xE2), (0x81, 0x82), (0xF0, 0xE1)] {
        assert_last_unexplained(&[sent(held), sent(next)]);
        assert_all_explained(&[sent(held), sent(0x00), sent(next)]);
        assert_all_explained(&[sent(held), sent(held)]);
    }
    assert_all_explained(&[sent(0x82), sent(0xE1), sent(0xF0)]);
    // A fault in between makes the command forgotten.
    assert_all_explained(&[sent(0xE1), sent(0xD0), sent(0x82)]);
}

/// "Starting a wait after FS, MS or a reverse request"; nor after anything else
/// but a fail or degrade of the section that is waited for.
#[test]
fn a_wait_follows_a_fault_of_its_own_section() {
    let wait = [0x00, 0x08, 0x61, 0x08];
    for k1 in [0xE1, 0x81, 0x00, 0xF0, 0xD0, 0xB0, 0xA2, 0xC2] {
        assert_last_unexplained(&[[0x00, 0x08, k1, 0x08], wait]);
    }
    assert_last_unexplained(&[[0xA1, 0x08, 0x21, 0x18], wait]);
    assert_last_unexplained(&[wait]);
    for k1 in [0xA1, 0xC1] {
        let fault = [0x00, 0x08, k1, 0x08];
        assert_all_explained(&[fault, wait, wait, wait]);
        assert_last_unexplained(&[fault, wait, wait, wait, wait]);
        assert_all_explained(&[fault, wait, wait, fault, wait, wait, wait]);
        assert_last_unexplained(&[fault, wait, [0xF0, 0x08, 0x20, 0x08], wait]);
        // A clear ends the wait early.
        assert_all_explained(&[fault, wait, [0x00, 0x08, 0x00, 0x08]]);
    }
}

#[test]
fn codes_against_the_mask_are_never_sent() {
    for (mask, k1, verdict) in [
        (0, 0xC1, Verdict::Explained(1)),
        (0, 0xD1, Verdict::Unexplained(0)),
        (1, 0xD1, Verdict::Explained(1)),
        (1, 0xC1, Verdict::Unexplained(0)),
        (1, 0xA2, Verdict::Explained(1)),
        (2, 0xA2, Verdict::Unexplained(0)),
    ] {
        assert_eq!(
            judge(Settings::new(2, mask, 3), &[0x00, 0x08, k1, 0x08]),
            Ok(verdict)
        );
    }
}

/// Starts with every fault at once and mends one after the other; then each
/// fault alone.
#[test]
fn the_first_fault_is_refused() {
    let [uneven, long, whole] = [65_537, 65_540, 65_536].map(|bytes| vec![0; bytes]);
    for (n, mask, capture, refusal) in [
        (0, 0xFFFF, &uneven, 1),
        (15, 0xFFFF, &uneven, 1),
        (2, 4, &uneven, 2),
        (2, 4, &long, 2),
        (2, 3, &uneven, 8),
        (2, 3, &long, 9),
        (255, 0, &whole, 1),
        (255, 0, &long, 1),
        (14, 0x4000, &whole, 2),
    ] {
        let settings = Settings::new(n, mask, 3);
        for settings in [settings, settings.with_hold()] {
            assert_eq!(judge(settings, capture), Err(refusal), "{settings}");
        }
        // Other options come before all else (02, g).
        let unknown = Settings {
            options: 2,
            ..settings
        };
        assert_eq!(judge(unknown, capture), Err(25), "{settings}");
    }
    for length in 1..4 {
        assert_eq!(judge(Settings::new(2, 0, 3), &uneven[..length]), Err(8));
    }
    assert_eq!(
        judge(Settings::new(2, 3, 3), &whole),
        Ok(Verdict::Unexplained(0))
    );
}

#[test]
fn the_longest_capture_is_judged_to_its_end() {
    let mut capture = [0x00, 0x08, 0x00, 0x08].repeat(16_384);
    assert_eq!(
        judge(Settings::new(1, 0, 0), &capture),
        Ok(Verdict::Explained(16_384))
    );
    capture[65_535] = 0x18;
    assert_eq!(
        judge(Settings::new(1, 0, 0), &capture),
        Ok(Verdict::Unexplained(16_383))
    );
}

#[test]
fn causes_are_as_many_as_the_table_has_room_for() {
    for n in 1..=14u8 {
        let size = usize::from(n);
        let sets = if n <= 3 {
            3usize.pow(u32::from(n) + 1)
        } else {
            1 + 2 * (size + 1)
        };
        let causes = causes(n);
        assert_eq!(causes.len(), sets * (3 + 2 * size));
        let distinct: HashSet<_> = causes
            .iter()
            .map(|cause| (cause.conditions.clone(), cause.command, cause.channel))
            .collect();
        assert_eq!(distinct.len(), causes.len());
        let record = Settings::new(n, 0, 3).fresh();
        for cause in &causes {
            assert_eq!(after(record, [0x00, 0x08], cause).refusal, 0);
        }
    }
}

/// A pair as likely to be sent as not.
fn draw_pair(draws: &mut Draws, n: u8) -> [u8; 2] {
    let code = draws.pick(&[
        0x0, 0x0, 0x2, 0x2, 0x6, 0x8, 0xA, 0xB, 0xC, 0xD, 0xE, 0xF, 0x1,
    ]);
    let channel = draws.byte_below(n + 1);
    let bridged = draws.pick(&[0, channel, channel]);
    [code * 16 + channel, bridged * 16 + 8]
}

fn after(record: Record, received: [u8; 2], cause: &Cause) -> Answer {
    after_by(controller::step, record, received, cause)
}

type Step = fn(Record, u8, u8, &[u8], u8, u8) -> Answer;

fn after_by(step: Step, record: Record, [k1, k2]: [u8; 2], cause: &Cause) -> Answer {
    let Cause {
        conditions,
        command,
        channel,
    } = cause;
    step(record, k1, k2, conditions, *command, *channel)
}

/// Steps under drawn causes, so that long explanations come up; now and then with
/// any pair in place of the one sent.
fn draw_rows(draws: &mut Draws, start: Record, causes: &[Cause]) -> Vec<Row> {
    let mut record = start;
    let draw_row = |_| {
        let [k1, k2] = draw_pair(draws, start.n);
        let answer = after(record, [k1, k2], &causes[draws.place(causes.len())]);
        record = answer.record;
        let sent = if draws.once_in(12) {
            draw_pair(draws, start.n)
        } else {
            [answer.k1, answer.k2]
        };
        [k1, k2, sent[0], sent[1]]
    };
    (0..12).map(draw_row).collect()
}

/// Without hold.
fn draw_settings(draws: &mut Draws, n: u8) -> Settings {
    let mask = draws.below(1 << n);
    Settings::new(n, mask, draws.below(4))
}

/// With hold or without.
fn draw_start(draws: &mut Draws, n: u8) -> Record {
    let settings = draw_settings(draws, n);
    draws.pick(&[settings, settings.with_hold()]).fresh()
}

/// Those that a record was made with.
fn settings_of(start: Record) -> Settings {
    let Record {
        n,
        options,
        mask,
        w,
        ..
    } = start;
    Settings {
        n,
        options,
        mask,
        w,
    }
}

/// What larger groups rely on: a second bad section never explains what no one
/// bad section does. Ties have captures of their own.
#[test]
fn one_bad_section_explains_as_much_as_several() {
    let mut draws = Draws::from_seed(31);
    let mut unexplained = 0;
    // Fewer of the greater groups, which have many more sets of conditions.
    for (n, captures) in [(1u8, 200), (2, 150), (3, 60), (4, 8)] {
        let several = with_commands(n, &all_conditions(n));
        let one = with_commands(n, &one_bad_section(n));
        for _ in 0..captures {
            let start = draw_start(&mut draws, n);
            let rows = draw_rows(&mut draws, start, &several);
            let verdict = explained_by_one_as_by_several(start, &rows, [&several, &one]);
            unexplained += usize::from(matches!(verdict, Verdict::Unexplained(_)));
        }
    }
    assert!((100..350).contains(&unexplained), "{unexplained}");
}

/// The records reached are compared too, step by step.
fn explained_by_one_as_by_several(
    start: Record,
    rows: &[Row],
    [several, one]: [&[Cause]; 2],
) -> Verdict {
    let verdict = explain(start, rows, several);
    assert_eq!(explain(start, rows, one), verdict);
    assert!(same_records_reached(start, rows, [several, one]));
    verdict
}

fn same_records_reached(start: Record, rows: &[Row], causes: [&[Cause]; 2]) -> bool {
    let mut reached = causes.map(|_| vec![start]);
    rows.iter().all(|&row| {
        for (records, causes) in reached.iter_mut().zip(causes) {
            *records = reached_by(records, row, causes);
        }
        let [first, second] = &reached;
        first.len() == second.len() && first.iter().all(|record| second.contains(record))
    })
}

/// The judge against what it stands for: the captures of two steps that any two
/// causes can bring about, one after the other, without sets of records.
#[test]
fn explained_are_just_the_captures_of_two_causes() {
    let start = Settings::new(1, 0, 1).fresh();
    let causes = causes(1);
    for received in [
        [[0x81, 0x08], [0x11, 0x08]],
        [[0x00, 0x08], [0x21, 0x18]],
        [[0x81, 0x08], [0x81, 0x1F]],
        [[0x81, 0x0F], [0x11, 0x08]],
    ] {
        let [first, second] = received;
        let mut known = HashSet::new();
        for cause in &causes {
            let one = after(start, first, cause);
            for cause in &causes {
                let two = after(one.record, second, cause);
                known.insert([one.k1, one.k2, two.k1, two.k2]);
            }
        }
        let mut found = 0;
        for [k1, k2, last_k1, last_k2] in sent_twice() {
            let rows = [
                [first[0], first[1], k1, k2],
                [second[0], second[1], last_k1, last_k2],
            ];
            let explained = explain(start, &rows, &causes) == Verdict::Explained(2);
            let expected = known.contains(&[k1, k2, last_k1, last_k2]);
            assert_eq!(explained, expected, "{rows:02X?}");
            found += usize::from(explained);
        }
        assert_eq!(found, known.len(), "each of them is tried");
    }
}

/// Two pairs sent, of the K1 that have channels 0 to 2 and three K2.
fn sent_twice() -> impl Iterator<Item = Row> {
    let pairs: Vec<[u8; 2]> = (0..=255u8)
        .filter(|k1| k1 & 0b1111 <= 2)
        .flat_map(|k1| [0x08, 0x18, 0x0E].map(|k2| [k1, k2]))
        .collect();
    let seconds = pairs.clone();
    pairs.into_iter().flat_map(move |[k1, k2]| {
        let row = move |[last_k1, last_k2]: [u8; 2]| [k1, k2, last_k1, last_k2];
        seconds.clone().into_iter().map(row)
    })
}

/// The first step without an explanation does not depend on what follows it.
#[test]
fn the_steps_before_the_first_unexplained_are_explained() {
    let mut draws = Draws::from_seed(7);
    let causes = causes(2);
    let mut unexplained = 0;
    for _ in 0..60 {
        let start = Settings::new(2, 1, 2).fresh();
        let rows = draw_rows(&mut draws, start, &causes);
        let Verdict::Unexplained(step) = explain(start, &rows, &causes) else {
            continue;
        };
        unexplained += 1;
        for length in 0..=rows.len() {
            let expected = if length <= step {
                Verdict::Explained(length)
            } else {
                Verdict::Unexplained(step)
            };
            assert_eq!(explain(start, &rows[..length], &causes), expected);
        }
    }
    assert!((30..50).contains(&unexplained), "{unexplained}");
}

/// The books that the repository shows, each with what is expected of it.
#[test]
fn the_example_books() {
    let folder = Path::new(env!("CARGO_MANIFEST_DIR")).join("../examples");
    let files = fs::read_dir(folder)
        .unwrap()
        .map(|file| file.unwrap().path());
    let mut books = 0;
    for book in files.filter(|file| file.extension().is_some_and(|kind| kind == "book")) {
        let printed = table::Table::of(&fs::read(&book).unwrap()).to_string();
        let expected = fs::read_to_string(book.with_extension("txt")).unwrap();
        assert_eq!(printed, expected, "{}", book.display());
        books += 1;
    }
    assert!(books >= 6, "{books}");
}
