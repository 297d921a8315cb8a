//! Two sections of one rank. How the controller decides between them has changed with
//! 02 d; what can be explained has not, because one bad section is enough for that.

use super::*;
use crate::books::runs::{Given, Run, CROWDED};
use crate::controller::by_01;
use crate::pair;

/// With 02 d and without it.
const RULES: [Step; 2] = [controller::step, by_01::step];

/// Steps by the first rule in a crowded group, and how many of them the second would
/// answer otherwise. In half of the captures one of the pairs sent is another one.
fn draw_crowded_rows(draws: &mut Draws, start: Record, rules: [Step; 2]) -> (Vec<Row>, usize) {
    let mut run = Run::new(draws, CROWDED, settings_of(start));
    let mut otherwise = 0;
    let draw_row = |_| {
        let Given {
            received: [k1, k2],
            command,
            channel,
        } = run.draw();
        let [answer, other] =
            rules.map(|step| step(run.record, k1, k2, &run.conditions, command, channel));
        otherwise += usize::from(answer != other);
        run.record = answer.record;
        [k1, k2, answer.k1, answer.k2]
    };
    let mut rows: Vec<Row> = (0..12).map(draw_row).collect();
    if draws.once_in(2) {
        let step = draws.place(rows.len());
        let [k1, k2, ..] = rows[step];
        let [sent, sent_k2] = draw_pair(draws, start.n);
        rows[step] = [k1, k2, sent, sent_k2];
    }
    (rows, otherwise)
}

#[test]
fn one_bad_section_explains_ties_too() {
    let mut draws = Draws::from_seed(32);
    let [mut unexplained, mut otherwise] = [0; 2];
    for (n, captures) in [(2u8, 300), (3, 120), (4, 12)] {
        let several = with_commands(n, &all_conditions(n));
        let one = with_commands(n, &one_bad_section(n));
        for _ in 0..captures {
            let start = draw_start(&mut draws, n);
            let (rows, ties) = draw_crowded_rows(&mut draws, start, RULES);
            let verdict = explained_by_one_as_by_several(start, &rows, [&several, &one]);
            unexplained += usize::from(matches!(verdict, Verdict::Unexplained(_)));
            otherwise += ties;
        }
    }
    assert!((50..300).contains(&unexplained), "{unexplained}");
    assert!(otherwise >= 50, "{otherwise}");
}

/// The judge by brute force, with either rule.
fn explain_by(step: Step, start: Record, rows: &[Row], causes: &[Cause]) -> Verdict {
    let mut reached = vec![start];
    for (number, &[k1, k2, sent @ ..]) in rows.iter().enumerate() {
        let answers = reached
            .iter()
            .flat_map(|&record| causes.iter().map(move |cause| (record, cause)))
            .map(|(record, cause)| after_by(step, record, [k1, k2], cause))
            .filter(|answer| [answer.k1, answer.k2] == sent);
        reached = distinct(answers.map(|answer| answer.record));
        if reached.is_empty() {
            return Verdict::Unexplained(number);
        }
    }
    Verdict::Explained(rows.len())
}

fn distinct<T: PartialEq>(items: impl Iterator<Item = T>) -> Vec<T> {
    let mut distinct = Vec::new();
    for item in items {
        if !distinct.contains(&item) {
            distinct.push(item);
        }
    }
    distinct
}

/// Captures of controllers of either rule, as they are and damaged, with every set of
/// conditions tried.
#[test]
fn no_verdict_hangs_on_how_ties_are_decided() {
    let mut draws = Draws::from_seed(33);
    let [with, without] = RULES;
    let mut verdicts = [0; 2];
    let mut otherwise = 0;
    for (n, captures) in [(1u8, 200), (2, 400), (3, 200), (4, 6)] {
        let causes = with_commands(n, &all_conditions(n));
        for _ in 0..captures {
            let start = draw_settings(&mut draws, n).fresh();
            let drawn = (draw_rows(&mut draws, start, &causes), 0);
            let crowded = [[with, without], [without, with]]
                .map(|rules| draw_crowded_rows(&mut draws, start, rules));
            for (rows, ties) in crowded.into_iter().chain([drawn]) {
                let verdict = explain(start, &rows, &causes);
                assert_eq!(explain_by(with, start, &rows, &causes), verdict);
                assert_eq!(explain_by(without, start, &rows, &causes), verdict);
                verdicts[usize::from(matches!(verdict, Verdict::Unexplained(_)))] += 1;
                otherwise += ties;
            }
        }
    }
    assert!(verdicts.iter().all(|&count| count >= 500), "{verdicts:?}");
    assert!(otherwise >= 150, "{otherwise}");
}

/// All records of a group that a step does not refuse, but for what was accepted.
fn records(n: u8, w: u16) -> impl Iterator<Item = Record> {
    let good = vec![0; usize::from(n) + 1];
    (0..1 << n)
        .flat_map(|mask| (0..=255).map(move |sent| (mask, sent)))
        .flat_map(move |key| (0..=w).map(move |left| (key, left)))
        .map(move |((mask, sent), left)| Record {
            sent,
            left,
            ..Settings::new(n, mask, w).fresh()
        })
        .filter(move |&record| controller::step(record, 0x00, 0x08, &good, 0, 0).refusal == 0)
}

/// The pairs that may come to be accepted, but for their K2, which shows in nothing
/// that is sent; and an alarm. An unusable pair is the accepted one over again.
fn received_pairs(n: u8) -> Vec<[u8; 2]> {
    (0..=255)
        .map(|k1| [k1, 0x08])
        .filter(|&[k1, k2]| pair::read(n, k1, k2).usable().is_some())
        .chain([[0x00, 0x0F]])
        .collect()
}

/// What is sent and what record is left, over all causes. If they are the same by
/// both rules, then so are they after any number of steps. Answers how many causes
/// have other outcomes by the one rule than by the other.
fn assert_same_outcomes(record: Record, received: [u8; 2], causes: &[Cause]) -> usize {
    let answers: Vec<[Answer; 2]> = causes
        .iter()
        .map(|cause| RULES.map(|step| after_by(step, record, received, cause)))
        .collect();
    let outcomes = |rule: usize| {
        let outcome = move |both: &[Answer; 2]| (both[rule].k2, both[rule].record);
        distinct(answers.iter().map(outcome))
    };
    let [with, without] = [0, 1].map(outcomes);
    assert_eq!(with.len(), without.len(), "{record:?} {received:02X?}");
    for outcome in with {
        assert!(without.contains(&outcome), "{record:?} {received:02X?}");
    }
    answers
        .iter()
        .filter(|[with, without]| with != without)
        .count()
}

/// From every record, with every set of conditions, in the groups of which that many
/// can be tried.
///
/// Counted by hand for two sections: the tie is of two low or two high ones, and what
/// was last sent is the fail or degrade of section 2. A degraded section 0 is left
/// out of it if they have failed; four of the seven commands lose; and of the 21
/// requests that may be accepted 15, 10, 17 or 12 do not go before both sections.
/// An alarm goes before them all.
#[test]
fn by_either_rule_the_same_can_be_sent_next() {
    let mut otherwise = [0; 3];
    for (n, otherwise) in (1..).zip(&mut otherwise) {
        let causes = with_commands(n, &all_conditions(n));
        let pairs = received_pairs(n);
        for record in records(n, 0).chain(records(n, 2)) {
            for &received in &pairs {
                *otherwise += assert_same_outcomes(record, received, &causes);
            }
        }
    }
    let [one, two, three] = otherwise;
    let [low, high] = [2 * 15 + 10, 2 * 17 + 12];
    assert_eq!([one, two], [0, 2 * 4 * (low + high)]);
    assert!(three >= 10_000, "{three}");
}
