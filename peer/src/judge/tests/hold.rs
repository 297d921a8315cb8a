//! Lines of ends with hold (02, g). A command may wait in their records, and come back; and
//! all the same they are explained exactly if those of ends without hold are.
//!
//! That is tried on all captures of every length, as far as what is received is one of some
//! pairs: step by step, from all that can be left of the explanations of the steps before,
//! by brute force for both ends, and by the scan. There is an end to that, since there are
//! only so many records.

use super::*;
use crate::judge::scan::Line;
use crate::pair;
use crate::settings::HOLD;
use std::collections::{BTreeMap, BTreeSet, HashMap};

/// The pair that is sent, and the number of the record that is left.
type Outcome = ([u8; 2], usize);

/// By the pair, all of the numbers.
type Outcomes = BTreeMap<[u8; 2], BTreeSet<usize>>;

/// Controllers under all causes, whose records have numbers as they come up.
struct Machine<'a> {
    causes: &'a [Cause],
    /// Of ends with hold.
    step: Step,
    records: Vec<Record>,
    numbers: HashMap<Record, usize>,
    /// What becomes of a record that receives a pair.
    known: HashMap<(usize, [u8; 2]), Vec<Outcome>>,
}

impl<'a> Machine<'a> {
    fn new(causes: &'a [Cause], step: Step) -> Self {
        Self {
            causes,
            step,
            records: Vec::new(),
            numbers: HashMap::new(),
            known: HashMap::new(),
        }
    }

    fn number(&mut self, record: Record) -> usize {
        let next = self.records.len();
        let number = *self.numbers.entry(record).or_insert(next);
        if number == next {
            self.records.push(record);
        }
        number
    }

    /// What can be sent, and the records that are left, each once.
    fn outcomes_of(&mut self, number: usize, received: [u8; 2]) -> &[Outcome] {
        let key = (number, received);
        if !self.known.contains_key(&key) {
            let outcomes = self.try_all(self.records[number], received);
            self.known.insert(key, outcomes);
        }
        &self.known[&key]
    }

    fn try_all(&mut self, record: Record, received: [u8; 2]) -> Vec<Outcome> {
        let step = match record.options {
            HOLD => self.step,
            _ => controller::step,
        };
        let answers = self.causes.iter();
        let answers = answers.map(|cause| after_by(step, record, received, cause));
        let left: HashSet<([u8; 2], Record)> = answers
            .map(|answer| ([answer.k1, answer.k2], answer.record))
            .collect();
        left.into_iter()
            .map(|(sent, record)| (sent, self.number(record)))
            .collect()
    }

    fn outcomes(&mut self, reached: &BTreeSet<usize>, received: [u8; 2]) -> Outcomes {
        let mut outcomes = Outcomes::new();
        for &number in reached {
            for &(sent, left) in self.outcomes_of(number, received) {
                outcomes.entry(sent).or_default().insert(left);
            }
        }
        outcomes
    }

    /// The records, but for the command that they hold.
    fn unheld(&self, reached: &BTreeSet<usize>) -> HashSet<Record> {
        let unheld = |&number: &usize| Record {
            options: 0,
            held: 0x00,
            ..self.records[number]
        };
        reached.iter().map(unheld).collect()
    }
}

/// What is left of the explanations of some steps: with hold, without it, and to the scan.
#[derive(Clone, PartialEq, Eq, Hash)]
struct Left {
    holding: BTreeSet<usize>,
    without: BTreeSet<usize>,
    line: Line,
}

/// What came up, whatever the steps were that led there.
#[derive(Debug, Default)]
struct Counts {
    left: usize,
    /// Steps from there.
    explained: usize,
    unexplained: usize,
    /// The most records, with hold and without.
    most: [usize; 2],
}

/// The pairs that are received and sent.
struct Pairs {
    received: Vec<[u8; 2]>,
    sent: Vec<[u8; 2]>,
}

impl Pairs {
    /// Received is every pair that is usable, with each bridge and line bits, two that are
    /// not, and two alarms. Sent is each K1 of the channels of the group and of one more,
    /// with the K2 of each bridge, and of one with line bits, which are never sent.
    fn all(n: u8) -> Self {
        let every = (0..=u16::MAX).map(u16::to_be_bytes);
        let usable = every.filter(|&[k1, k2]| pair::read(n, k1, k2).usable().is_some());
        let others = [[0x11, 0x08], [0x81, 0x17], [0x00, 0x0F], [0x81, 0x1F]];
        let bridges = (0..=n).map(|bridge| bridge << 4 | 0x08).chain([0x0E]);
        let bridges: Vec<u8> = bridges.collect();
        let sent = (0..=u8::MAX).filter(|k1| k1 & 0b1111 <= n + 1);
        Self {
            received: usable.chain(others).collect(),
            sent: sent
                .flat_map(|k1| bridges.iter().map(move |&k2| [k1, k2]))
                .collect(),
        }
    }

    /// Of the usable ones that are received one for each K1: their K2 shows in nothing that
    /// is sent.
    fn by_k1(n: u8) -> Self {
        let mut pairs = Self::all(n);
        pairs.received.dedup_by_key(|&mut [k1, _]| k1);
        pairs
    }
}

/// Goes on from all that is left, until nothing is that has not been.
struct Search<'a> {
    machine: Machine<'a>,
    pairs: &'a Pairs,
    seen: HashSet<Left>,
    open: Vec<Left>,
    counts: Counts,
}

impl<'a> Search<'a> {
    fn new(settings: Settings, mut machine: Machine<'a>, pairs: &'a Pairs) -> Self {
        let mut start = |settings: Settings| BTreeSet::from([machine.number(settings.fresh())]);
        let left = Left {
            holding: start(settings.with_hold()),
            without: start(settings),
            line: Line::new(settings.fresh()),
        };
        Self {
            machine,
            pairs,
            seen: HashSet::from([left.clone()]),
            open: vec![left],
            counts: Counts::default(),
        }
    }

    /// What is not the same is told.
    fn go(mut self) -> Result<Counts, String> {
        while let Some(left) = self.open.pop() {
            self.counts.left += 1;
            for &received in &self.pairs.received {
                self.step(&left, received)?;
            }
        }
        Ok(self.counts)
    }

    fn step(&mut self, left: &Left, received: [u8; 2]) -> Result<(), String> {
        let [mut holding, mut without] =
            [&left.holding, &left.without].map(|reached| self.machine.outcomes(reached, received));
        for &sent in &self.pairs.sent {
            let mut line = left.line.clone();
            let scanned = line.explains([received[0], received[1], sent[0], sent[1]]);
            match (holding.remove(&sent), without.remove(&sent), scanned) {
                (Some(holding), Some(without), true) => self.leave(Left {
                    holding,
                    without,
                    line,
                })?,
                (None, None, false) => self.counts.unexplained += 1,
                _ => return Err(format!("{received:02X?} {sent:02X?}")),
            }
        }
        if holding.is_empty() && without.is_empty() {
            Ok(())
        } else {
            Err(format!("{received:02X?}: {holding:02X?} {without:02X?}"))
        }
    }

    /// All but what is held is the same with hold and without.
    fn leave(&mut self, left: Left) -> Result<(), String> {
        self.counts.explained += 1;
        if !self.seen.insert(left.clone()) {
            return Ok(());
        }
        let both = [&left.holding, &left.without];
        let [held, unheld] = both.map(|reached| self.machine.unheld(reached));
        if held != unheld {
            return Err(format!("{held:02X?}, {unheld:02X?}"));
        }
        let most = both.into_iter().zip(&mut self.counts.most);
        most.for_each(|(reached, most)| *most = reached.len().max(*most));
        self.open.push(left);
        Ok(())
    }
}

/// With all sets of conditions, or those with one bad section.
fn search(settings: Settings, pairs: &Pairs, conditions: &[Vec<u8>]) -> Counts {
    let causes = with_commands(settings.n, conditions);
    let machine = Machine::new(&causes, controller::step);
    let found = Search::new(settings, machine, pairs).go();
    let counts = found.unwrap_or_else(|told| panic!("{settings}: {told}"));
    let Counts {
        left,
        explained,
        most: [holding, without],
        ..
    } = counts;
    assert!(left >= 200 && explained >= 20_000, "{settings} {counts:?}");
    assert!(holding > without && without == 2, "{settings} {counts:?}");
    counts
}

/// In groups of one section, with all that can be received.
#[test]
fn hold_changes_no_verdict_on_one_section() {
    let pairs = Pairs::all(1);
    for mask in 0..2 {
        search(Settings::new(1, mask, 1), &pairs, &all_conditions(1));
    }
    let pairs = Pairs::by_k1(1);
    for (mask, w) in [0, 1]
        .into_iter()
        .flat_map(|mask| [0, 2, 3].map(|w| (mask, w)))
    {
        search(Settings::new(1, mask, w), &pairs, &all_conditions(1));
    }
}

#[test]
fn hold_changes_no_verdict_on_two_sections() {
    let pairs = Pairs::by_k1(2);
    for (mask, w) in [(0, 3), (1, 0), (1, 1), (2, 2), (3, 1)] {
        search(Settings::new(2, mask, w), &pairs, &all_conditions(2));
    }
}

#[test]
fn hold_changes_no_verdict_on_three_sections() {
    let settings = Settings::new(3, 5, 1);
    search(settings, &Pairs::by_k1(3), &one_bad_section(3));
}

/// If a clear dropped nothing, a command would be in the way of what is sent behind it.
fn never_cleared(
    record: Record,
    k1: u8,
    k2: u8,
    conditions: &[u8],
    command: u8,
    channel: u8,
) -> Answer {
    let command = if command == 1 { 0 } else { command };
    controller::step(record, k1, k2, conditions, command, channel)
}

/// If only a command that is sent could be cleared, one that waits could not.
fn cleared_where_sent(
    record: Record,
    k1: u8,
    k2: u8,
    conditions: &[u8],
    command: u8,
    channel: u8,
) -> Answer {
    let uncleared = controller::step(record, k1, k2, conditions, 0, 0);
    let step = if [0x00, uncleared.k1].contains(&record.held) {
        controller::step
    } else {
        never_cleared
    };
    step(record, k1, k2, conditions, command, channel)
}

#[test]
fn where_hold_changes_a_verdict_it_is_found() {
    let causes = with_commands(1, &all_conditions(1));
    let pairs = Pairs::by_k1(1);
    for step in [never_cleared, cleared_where_sent] as [Step; 2] {
        let machine = Machine::new(&causes, step);
        let found = Search::new(Settings::new(1, 0, 1), machine, &pairs).go();
        assert!(found.is_err(), "{found:?}");
    }
}

/// Captures in which a command waits, comes back, is replaced or is cleared, by both
/// judges, with hold and without.
#[test]
fn commands_that_wait_by_hand() {
    let sent = |k1| [0x00, 0x08, k1, 0x08];
    let failed = sent(0xD0);
    assert_all_explained(&[sent(0xE1), failed, failed, sent(0xE1)]);
    assert_all_explained(&[sent(0xE1), failed, sent(0xE2)]);
    assert_all_explained(&[sent(0x82), sent(0xC1), sent(0x82), sent(0x00)]);
    assert_all_explained(&[sent(0xC1), sent(0x82), sent(0xE1)]);
    assert_all_explained(&[sent(0xE1), failed, sent(0xF0), failed, sent(0x82)]);
    assert_last_unexplained(&[sent(0xE1), failed, sent(0xE1), sent(0x82)]);
    assert_last_unexplained(&[sent(0xE1), failed, sent(0xE2), sent(0xE1)]);
    assert_last_unexplained(&[sent(0x82), sent(0xC1), sent(0x82), sent(0x61)]);
    assert_last_unexplained(&[sent(0xF0), sent(0xE1)]);
}
