//! What is true of every step in a group of two sections: all records that are not
//! refused, with hold and without, all conditions and commands, all usable pairs. What is
//! said of ties, of alarms and of commands is true of drawn walks as well, in groups of
//! every size.

use super::*;
use crate::books::pairs::{alarmed, is_alarm, is_command};
use crate::books::runs::{self, Given, Habit, Run, COMMON, CROWDED};
use crate::draws::Draws;
use crate::pair::{decode, rank, Received};

const N: u8 = 2;
const W: u16 = 1;
/// Two sections of one priority, low or high, and section 2 above section 1.
const MASKS: [u16; 3] = [0, 3, 2];
const CLEAR: (u8, u8) = (1, 0);
const COMMANDS: [(u8, u8); 7] = [(0, 0), (1, 0), (2, 0), (3, 1), (3, 2), (4, 1), (4, 2)];

const HABITS: [Habit; 4] = [CROWDED, COMMON, CROWDED.with_alarms(), COMMON.with_alarms()];
const WALKS: usize = 2_000;
const STEPS_OF_A_WALK: usize = 100;

/// A step and its answer.
struct Taken<'a> {
    record: Record,
    received: [u8; 2],
    conditions: &'a [u8],
    command: (u8, u8),
    answer: Answer,
}

impl<'a> Taken<'a> {
    fn new(record: Record, received: [u8; 2], conditions: &'a [u8], command: (u8, u8)) -> Self {
        let [k1, k2] = received;
        let answer = step(record, k1, k2, conditions, command.0, command.1);
        Self {
            record,
            received,
            conditions,
            command,
            answer,
        }
    }

    /// The K1 that sends the given command.
    fn command_k1(&self) -> Option<u8> {
        match self.command {
            (2, _) => Some(0xF0),
            (3, channel) => Some(0xE0 | channel),
            (4, channel) => Some(0x80 | channel),
            _ => None,
        }
    }

    /// The K1 that sends the command which is held before the step.
    fn held_k1(&self) -> Option<u8> {
        let Record {
            options,
            sent,
            held,
            ..
        } = self.record;
        match (options, sent >> 4) {
            (HOLD, _) => Some(held).filter(|&held| held != 0x00),
            (_, 0x8 | 0xE | 0xF) => Some(sent),
            _ => None,
        }
    }

    /// The K1 that sends the command which is up in the step (rule 2; 02, g).
    fn up_k1(&self) -> Option<u8> {
        let held = self.held_k1().filter(|_| self.command != CLEAR);
        let new = self.command_k1();
        if new.map(rank_of) > held.map(rank_of) {
            new
        } else {
            held
        }
    }

    fn accepted_k1(&self) -> u8 {
        let [k1, _] = self.answer.record.accepted;
        k1
    }

    /// The K1 that each bad section asks for.
    fn faults(&self) -> impl Iterator<Item = u8> + '_ {
        let priorities = self.record.mask << 1 | 1;
        let is_dark = is_alarm(self.received);
        let ask = move |(section, &condition): (u8, &u8)| {
            let condition = if is_dark && section == 0 {
                2
            } else {
                condition
            };
            let code = match (condition, priorities >> section & 1) {
                (0, _) => return None,
                (1, 0) => 0xA,
                (1, _) => 0xB,
                (_, 0) => 0xC,
                _ => 0xD,
            };
            Some(code << 4 | section)
        };
        (0..).zip(self.conditions).filter_map(ask)
    }

    /// The fault last sent, if it is one of a section and still there.
    fn lasting_fault(&self) -> Option<u8> {
        let last = self.record.sent;
        (channel_of(last) > 0 && self.faults().any(|k1| k1 == last)).then_some(last)
    }
}

fn can_be_followed(record: Record) -> bool {
    Taken::new(record, [0x00, 0x08], &[0; 3], (0, 0))
        .answer
        .refusal
        == 0
}

fn records() -> impl Iterator<Item = Record> {
    MASKS
        .into_iter()
        .flat_map(|mask| (0..=255).map(move |sent| (mask, sent)))
        .flat_map(|key| (0..=W).map(move |left| (key, left)))
        .map(|((mask, sent), left)| Record {
            sent,
            left,
            ..Settings::new(N, mask, W).fresh()
        })
        .filter(|&record| can_be_followed(record))
        .flat_map(with_all_held)
}

/// Without hold, and with it and all that can be held.
fn with_all_held(record: Record) -> impl Iterator<Item = Record> {
    let holding = (0..=255).map(move |held| Record {
        options: HOLD,
        held,
        ..record
    });
    let holding = holding.filter(|&record| can_be_followed(record));
    std::iter::once(record).chain(holding)
}

/// Line bits are left out: those of a usable pair bear on nothing but the record.
fn pairs() -> Vec<[u8; 2]> {
    (0..=255)
        .flat_map(|k1| [0x08, 0x18, 0x28].map(|k2| [k1, k2]))
        .filter(|&[k1, k2]| matches!(decode(N, k1, k2), Ok(Received::Usable(_))))
        .collect()
}

fn for_all_steps(mut see: impl FnMut(&Taken)) {
    let pairs = pairs();
    for record in records() {
        for &received in &pairs {
            for number in 0..27 {
                let conditions = [number / 9, number / 3 % 3, number % 3];
                for command in COMMANDS {
                    see(&Taken::new(record, received, &conditions, command));
                }
            }
        }
    }
}

/// In groups of any size, from fresh records on; with alarms in half of the walks, and
/// with hold in half of these and of the others.
fn for_drawn_steps(mut see: impl FnMut(&Taken)) {
    let mut draws = Draws::from_seed(51);
    for walk in 0..WALKS {
        let drawn = runs::draw_settings(&mut draws);
        let settings = [drawn, drawn.with_hold()][walk / HABITS.len() % 2];
        let mut run = Run::new(&mut draws, HABITS[walk % HABITS.len()], settings);
        for _ in 0..STEPS_OF_A_WALK {
            let Given {
                received,
                command,
                channel,
            } = run.draw();
            let taken = Taken::new(run.record, received, &run.conditions, (command, channel));
            see(&taken);
            run.record = taken.answer.record;
        }
    }
}

fn rank_of(k1: u8) -> u8 {
    rank(k1 >> 4, channel_of(k1))
}

fn channel_of(k1: u8) -> u8 {
    k1 & 0b1111
}

/// By rank, then by lower channel.
fn worth(k1: u8) -> (u8, Reverse<u8>) {
    (rank_of(k1), Reverse(channel_of(k1)))
}

/// By hand from the table: per mask, LO, SF0, SD0 and NR, and for each section
/// FS, SF, SD, MS, WTR with one step left and RR, besides RR 0. Each of these without
/// hold, and with it and nothing held, LO, or FS or MS of a section.
#[test]
fn there_are_as_many_steps_as_expected() {
    assert_eq!(records().count(), 3 * (4 + 2 * 6 + 1) * (1 + 6));
    assert_eq!(pairs().len(), 21 * 3);
}

#[test]
fn every_step_can_be_followed_by_another() {
    for_all_steps(|taken| {
        let Answer {
            refusal, record, ..
        } = taken.answer;
        assert_eq!(refusal, 0);
        assert!(can_be_followed(record), "{record:?}");
        let Record { options, mask, .. } = taken.record;
        assert_eq!((record.n, record.mask, record.w), (N, mask, W));
        assert_eq!(record.options, options);
    });
}

#[test]
fn every_pair_sent_is_usable_and_remembered() {
    for_all_steps(|taken| {
        let answer = taken.answer;
        let Ok(Received::Usable(read)) = decode(N, answer.k1, answer.k2) else {
            panic!("{answer:?}");
        };
        assert!(!read.remote_defect);
        assert_eq!(read.bridged, answer.bridge);
        assert_eq!(answer.record.sent, answer.k1);
        let accepted = answer.record.accepted;
        assert!([0, accepted[0] & 0b1111].contains(&answer.bridge));
        assert!([0, accepted[1] >> 4].contains(&answer.selector));
        assert!([0, read.channel].contains(&answer.selector));
    });
}

/// Either what is sent or, under RR, what was accepted stands at least as high
/// as the other end's request and as every fault here.
#[test]
fn nothing_outranks_what_is_sent() {
    for_all_steps(|taken| {
        let [accepted, _] = taken.answer.record.accepted;
        let sent = taken.answer.k1;
        let best = if sent >> 4 == 0b0010 {
            assert_eq!(sent & 0b1111, accepted & 0b1111);
            assert!(rank_of(accepted) > 0, "neither RR nor NR can win");
            rank_of(accepted)
        } else {
            rank_of(sent)
        };
        assert!(best >= rank_of(accepted));
        for (section, &condition) in (0..).zip(taken.conditions) {
            let high = section == 0 || (taken.record.mask >> (section - 1)) & 1 == 1;
            let fault = match (condition, section, high) {
                (0, _, _) => 0,
                (1, _, true) => 5,
                (1, _, false) => 4,
                (_, 0, _) => 9,
                (_, _, true) => 7,
                (_, _, false) => 6,
            };
            assert!(best >= fault);
        }
    });
}

/// Without hold a new command is taken when it is what is sent, unless it was sent before:
/// then it is held, and giving it again is denied. With hold it is taken when it is of
/// higher rank than what is held, whatever is sent (02, g).
fn assert_fate(taken: &Taken) {
    let is_taken = |k1: u8| match taken.record.options {
        HOLD => taken.held_k1().map(rank_of) < Some(rank_of(k1)),
        _ => k1 == taken.answer.k1 && k1 != taken.record.sent,
    };
    let expected = match (taken.command, taken.command_k1()) {
        ((0, _), _) => 0,
        (_, None) => 1,
        (_, Some(k1)) if is_taken(k1) => 1,
        _ => 2,
    };
    assert_eq!(taken.answer.fate, expected, "{:?}", taken.record);
}

#[test]
fn a_command_is_taken_when_it_is_sent_anew_or_held() {
    for_all_steps(assert_fate);
    for_drawn_steps(assert_fate);
}

/// Neither what is received, nor a condition, nor what is sent bears on what is held with
/// hold. Without it nothing is, in the record.
#[test]
fn with_hold_the_command_that_is_up_is_held() {
    let see = |taken: &Taken| {
        let expected = match taken.record.options {
            HOLD => taken.up_k1().unwrap_or(0x00),
            _ => 0x00,
        };
        assert_eq!(taken.answer.record.held, expected, "{:?}", taken.record);
    };
    for_all_steps(see);
    for_drawn_steps(see);
}

/// So no other command waits behind it.
#[test]
fn with_hold_a_command_that_is_sent_is_held() {
    let mut waiting = 0;
    let mut see = |taken: &Taken| {
        let Record {
            options,
            sent,
            held,
            ..
        } = taken.answer.record;
        assert!(options != HOLD || !is_command(sent) || held == sent);
        waiting += usize::from(!is_command(sent) && held != 0x00);
    };
    for_all_steps(&mut see);
    for_drawn_steps(&mut see);
    assert!(waiting >= 100_000, "{waiting}");
}

/// Where a command is held that was last sent, or none was and none is, an end with hold
/// does what one without it does. What it keeps, and what it says of the command, is
/// another matter.
#[test]
fn hold_does_not_show_while_no_command_waits() {
    for_all_steps(|taken| {
        if taken.record.options == HOLD {
            return;
        }
        let record = Record {
            options: HOLD,
            held: taken.held_k1().unwrap_or(0x00),
            ..taken.record
        };
        let holding = Taken::new(record, taken.received, taken.conditions, taken.command).answer;
        let expected = Answer {
            record: Record {
                options: HOLD,
                held: holding.record.held,
                ..taken.answer.record
            },
            fate: holding.fate,
            ..taken.answer
        };
        assert_eq!(holding, expected, "{:?}", taken.record);
    });
}

/// Where the pair stood before is no matter: received now and usable, or
/// accepted earlier and followed by an unusable one, it leads to the same.
#[test]
fn an_unusable_pair_is_the_accepted_one_over_again() {
    for_all_steps(|taken| {
        let earlier = Record {
            accepted: taken.received,
            ..taken.record
        };
        let again = Taken::new(earlier, [0x11, 0x08], taken.conditions, taken.command);
        let mark = if taken.conditions[0] == 2 { 0 } else { 3 };
        let expected = Answer {
            mark,
            ..taken.answer
        };
        assert_eq!(again.answer, expected);
    });
}

/// The same step with an alarm is the step with section 0 failed, whatever was handed
/// in of that section and whatever else is received (02, c).
fn assert_an_alarm_is_a_failure(taken: &Taken) {
    let [_, sections @ ..] = taken.conditions else {
        panic!("a section 0");
    };
    let failed = [&[2], sections].concat();
    let with =
        |received, conditions| Taken::new(taken.record, received, conditions, taken.command).answer;
    let alarm = with(alarmed(taken.received), taken.conditions);
    assert_eq!(alarm, with(taken.received, &failed), "{:?}", taken.record);
    assert_eq!((alarm.refusal, alarm.mark, alarm.bridge), (0, 0, 0));
    assert_eq!((alarm.record.accepted, alarm.k2), ([0x00, 0x08], 0x08));
    assert!([0xD0, 0xF0].contains(&alarm.k1), "{:02X}", alarm.k1);
    let beyond = [&[3], sections].concat();
    let refused = with(alarmed(taken.received), &beyond);
    assert_eq!(refused, Answer::refused(Refusal::Condition, taken.record));
}

#[test]
fn an_alarm_is_a_failure_of_section_0_in_every_step() {
    for_all_steps(assert_an_alarm_is_a_failure);
    for_drawn_steps(assert_an_alarm_is_a_failure);
}

/// How often what came first was still the best that this end could ask for, and in
/// how many of these steps a lower section of its rank asked as well.
#[derive(Debug, Default)]
struct Stays {
    times: usize,
    before_a_lower: usize,
}

impl Stays {
    fn see(&mut self, taken: &Taken) {
        let Some(first) = taken
            .lasting_fault()
            .filter(|&k1| nothing_goes_before(taken, k1))
        else {
            return;
        };
        assert_eq!(taken.answer.k1, first, "{:?}", taken.record);
        self.times += 1;
        self.before_a_lower += usize::from(has_lower_equal(taken, first));
    }
}

/// Neither a higher rank of this end, nor section 0 at the rank of that fault, nor
/// the request of the other end.
fn nothing_goes_before(taken: &Taken, fault: u8) -> bool {
    let rank = rank_of(fault);
    let goes_before = |k1| rank_of(k1) > rank || (rank_of(k1) == rank && channel_of(k1) == 0);
    !taken.faults().chain(taken.up_k1()).any(goes_before)
        && worth(taken.accepted_k1()) <= worth(fault)
}

fn has_lower_equal(taken: &Taken, fault: u8) -> bool {
    taken
        .faults()
        .any(|k1| rank_of(k1) == rank_of(fault) && channel_of(k1) < channel_of(fault))
}

#[test]
fn first_come_stays_in_every_step() {
    let mut stays = Stays::default();
    for_all_steps(|taken| stays.see(taken));
    let Stays {
        times,
        before_a_lower,
    } = stays;
    assert!(times >= 5_000 && before_a_lower >= 500, "{stays:?}");
}

#[test]
fn first_come_stays_in_drawn_walks() {
    let mut stays = Stays::default();
    for_drawn_steps(|taken| stays.see(taken));
    let Stays {
        times,
        before_a_lower,
    } = stays;
    assert!(times >= 10_000 && before_a_lower >= 1_000, "{stays:?}");
}

/// Rules 3 and 4 as 01 alone has them, in bytes: of equal ranks the lower channel
/// wins, whatever was last sent.
fn sent_by_01(taken: &Taken) -> u8 {
    let Record { sent, left, w, .. } = taken.record;
    let is_cleared = taken.command == CLEAR;
    let waits = match sent >> 4 {
        0x6 => left > 1,
        0xA..=0xD => w > 0 && channel_of(sent) > 0,
        _ => false,
    };
    let wait = (waits && !is_cleared).then_some(0x60 | channel_of(sent));
    let candidates = taken.faults().chain(taken.up_k1()).chain(wait);
    let local = candidates.max_by_key(|&k1| worth(k1)).unwrap_or(0x00);
    let accepted = taken.accepted_k1();
    if rank_of(accepted) > 0 && worth(accepted) > worth(local) {
        0x20 | channel_of(accepted)
    } else {
        local
    }
}

/// Whether 01 alone would have something else sent. If so, two sections tie for the
/// highest rank, which section 0 does not have, and one of them was last sent.
fn is_decided_otherwise(taken: &Taken) -> bool {
    if taken.answer.k1 == sent_by_01(taken) {
        return false;
    }
    let first = taken.lasting_fault().expect("a fault that was last sent");
    assert!(has_lower_equal(taken, first), "{:?}", taken.record);
    let mut best = taken
        .faults()
        .chain(taken.up_k1())
        .filter(|&k1| rank_of(k1) >= rank_of(first));
    assert!(best.all(|k1| rank_of(k1) == rank_of(first) && channel_of(k1) > 0));
    true
}

#[test]
fn only_a_tie_with_what_was_last_sent_is_decided_otherwise() {
    let mut otherwise = [0; 2];
    for_all_steps(|taken| otherwise[0] += u32::from(is_decided_otherwise(taken)));
    for_drawn_steps(|taken| otherwise[1] += u32::from(is_decided_otherwise(taken)));
    assert!(otherwise.iter().all(|&steps| steps >= 500), "{otherwise:?}");
}

/// What other tests take for the step of 01 alone is that.
#[test]
fn the_step_of_01_sends_what_01_says() {
    let see = |taken: &Taken| {
        let [k1, k2] = taken.received;
        let (command, channel) = taken.command;
        let alone = by_01::step(taken.record, k1, k2, taken.conditions, command, channel);
        assert_eq!(alone.k1, sent_by_01(taken), "{:?}", taken.record);
        if alone.k1 == taken.answer.k1 {
            assert_eq!(alone, taken.answer);
        }
    };
    for_all_steps(see);
    for_drawn_steps(see);
}
