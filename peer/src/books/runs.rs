//! Captures that have an explanation, because a controller was run under drawn
//! causes to make them. In groups of more than three sections several may be bad
//! at once, which the judge does not try there.

use super::capture::{row, Capture};
use super::pairs::{self, channel_of, said};
use crate::controller::{self, Record};
use crate::draws::Draws;
use crate::judge::Row;
use crate::pair::Request;
use crate::settings::Settings;
use std::convert::identity;
use std::iter::{once, repeat, repeat_n};

const SEED: u64 = 1;
const SHORT: usize = 3_500;
/// Short runs in which sections tie.
const TIED: usize = 500;
/// One more than the steps of a short run can be.
const SHORT_BELOW: u16 = 41;
/// As many steps as one capture can have in a book.
pub const LONGEST: usize = 16_380;

const WAITS: [u16; 12] = [0, 1, 1, 2, 2, 3, 3, 4, 7, 30, 300, 65_535];

/// n, mask, W and steps of the long runs.
const LONG: [(u8, u16, u16, usize); 6] = [
    (1, 1, 2, LONGEST),
    (2, 1, 3, LONGEST),
    (3, 5, 1, LONGEST),
    (14, 0x2A55, 3, LONGEST),
    (7, 0x55, 65_535, 5_000),
    (5, 3, 300, 3_000),
];

/// How often something befalls a run, in sixteenths of its steps.
#[derive(Clone, Copy)]
pub struct Habit {
    clear: u16,
    lockout: u16,
    switch: u16,
    unusable: u16,
    /// What is received is an alarm.
    alarm: u16,
    /// Section 0 fails, whatever the other conditions are.
    dark: u16,
    /// Where conditions would last or be good again, one more joins them.
    crowded: bool,
}

impl Habit {
    /// With an alarm in one received pair of eight (02, c).
    pub const fn with_alarms(self) -> Self {
        Self { alarm: 2, ..self }
    }
}

pub const COMMON: Habit = Habit {
    clear: 2,
    lockout: 1,
    switch: 3,
    unusable: 4,
    alarm: 0,
    dark: 0,
    crowded: false,
};

/// LO is up most of the time, and what is received is seldom usable.
pub const LOCKED: Habit = Habit {
    clear: 3,
    lockout: 7,
    switch: 1,
    unusable: 11,
    alarm: 0,
    dark: 5,
    crowded: false,
};

/// One section after the other goes bad, and little else comes in between, so that
/// a lower one often ties with the one that was there first (02 d).
pub const CROWDED: Habit = Habit {
    clear: 1,
    lockout: 0,
    switch: 1,
    crowded: true,
    ..COMMON
};

pub fn captures() -> Vec<Capture> {
    let mut draws = Draws::from_seed(SEED);
    let long =
        LONG.map(|(n, mask, w, steps)| draw(&mut draws, COMMON, Settings::new(n, mask, w), steps));
    let mut captures = long.to_vec();
    let habits = repeat_n(COMMON, SHORT).chain(repeat_n(CROWDED, TIED));
    captures.extend(habits.map(|habit| {
        let steps = usize::from(draws.below(SHORT_BELOW));
        draw_of_any_settings(&mut draws, habit, steps)
    }));
    captures
}

pub fn draw_of_any_settings(draws: &mut Draws, habit: Habit, steps: usize) -> Capture {
    let settings = draw_settings(draws);
    draw(draws, habit, settings, steps)
}

pub fn draw(draws: &mut Draws, habit: Habit, settings: Settings, steps: usize) -> Capture {
    draw_going_deaf(draws, habit, settings, [steps, 0])
}

/// After the first of these steps come others, in which the line goes on as if no alarm
/// had come (02, c). They need not have an explanation.
pub fn draw_going_deaf(
    draws: &mut Draws,
    habit: Habit,
    settings: Settings,
    [steps, deaf]: [usize; 2],
) -> Capture {
    let mut run = Run::new(draws, habit, settings);
    let mut rows: Vec<Row> = (0..steps).map(|_| run.step(identity)).collect();
    rows.extend((0..deaf).map(|_| run.step(pairs::unheard)));
    Capture::new(settings, rows)
}

/// No row repeats the one before it: what befalls a step is drawn until it does not.
pub fn draw_busy(draws: &mut Draws, habit: Habit, settings: Settings, steps: usize) -> Capture {
    let mut run = Run::new(draws, habit, settings);
    let mut rows: Vec<Row> = Vec::new();
    while rows.len() < steps {
        let before = run.record;
        let row = run.step(identity);
        if rows.last() == Some(&row) {
            run.record = before;
        } else {
            rows.push(row);
        }
    }
    Capture::new(settings, rows)
}

/// Small groups come up in half of the runs: there the judge tries everything.
pub fn draw_settings(draws: &mut Draws) -> Settings {
    let most = draws.pick(&[3, 14]);
    let n = 1 + draws.byte_below(most);
    let all = (1 << n) - 1;
    let some = draws.below(1 << n);
    let mask = draws.pick(&[0, all, some, some]);
    Settings::new(n, mask, draws.pick(&WAITS))
}

/// What befalls one step of a run, besides the conditions of the sections.
#[derive(Clone, Copy)]
pub struct Given {
    pub received: [u8; 2],
    pub command: u8,
    pub channel: u8,
}

impl Given {
    /// That pair, and no command.
    pub const fn pair(received: [u8; 2]) -> Self {
        Self {
            received,
            command: 0,
            channel: 0,
        }
    }
}

/// A run between two steps.
pub struct Run<'a> {
    pub draws: &'a mut Draws,
    habit: Habit,
    /// What the last step left, and the next starts from.
    pub record: Record,
    pub conditions: Vec<u8>,
}

impl<'a> Run<'a> {
    pub fn new(draws: &'a mut Draws, habit: Habit, settings: Settings) -> Self {
        Self {
            draws,
            habit,
            record: settings.fresh(),
            conditions: vec![0; usize::from(settings.n) + 1],
        }
    }

    pub fn draw(&mut self) -> Given {
        let received = self.draw_received();
        self.draw_conditions();
        let (command, channel) = self.draw_command();
        Given {
            received,
            command,
            channel,
        }
    }

    /// The controller is handed what `hears` makes of the received pair.
    fn step(&mut self, hears: impl Fn([u8; 2]) -> [u8; 2]) -> Row {
        let given = self.draw();
        let heard = Given {
            received: hears(given.received),
            ..given
        };
        let [_, _, sent @ ..] = self.go(heard);
        row(given.received, sent)
    }

    /// So many steps, in all of which the conditions and the pair are the same. A command is
    /// given in the first of them.
    pub fn last(&mut self, given: Given, steps: usize) -> Vec<Row> {
        let later = Given::pair(given.received);
        let given = once(given).chain(repeat(later)).take(steps);
        given.map(|given| self.go(given)).collect()
    }

    /// A step with what it is given, under the conditions as they are.
    pub fn go(&mut self, given: Given) -> Row {
        let Given {
            received: [k1, k2],
            command,
            channel,
        } = given;
        let answer = controller::step(self.record, k1, k2, &self.conditions, command, channel);
        self.record = answer.record;
        row(given.received, [answer.k1, answer.k2])
    }

    /// Mostly what an end at the other side could say to what was sent last.
    fn draw_received(&mut self) -> [u8; 2] {
        let Record { n, sent, .. } = self.record;
        let Habit {
            unusable, alarm, ..
        } = self.habit;
        let drawn = self.draws.below(16);
        if drawn < unusable {
            return pairs::draw_unusable(self.draws, n);
        }
        if drawn < unusable + alarm {
            return pairs::draw_alarm(self.draws, n);
        }
        let answered = channel_of(sent);
        match self.draws.below(8) {
            0 | 1 => pairs::IDLE,
            2 | 3 => said(Request::Reverse, answered, answered),
            4 => self.record.accepted,
            5 => self.draw_better(),
            _ => pairs::draw_usable(self.draws, n),
        }
    }

    /// Better than most of what is asked for here.
    fn draw_better(&mut self) -> [u8; 2] {
        let section = 1 + self.draws.byte_below(self.record.n);
        let (request, channel) = self.draws.pick(&[
            (Request::Lockout, 0),
            (Request::SignalFailHigh, 0),
            (Request::ForcedSwitch, section),
            (Request::SignalFailHigh, section),
        ]);
        said(request, channel, self.draws.pick(&[0, channel]))
    }

    /// Conditions last for a while and are often good again at once, so that
    /// waits come up.
    fn draw_conditions(&mut self) {
        let draws = &mut *self.draws;
        match draws.below(8) {
            0..6 if self.habit.crowded => {
                let section = draws.place(self.conditions.len());
                self.conditions[section] = draws.pick(&[1, 2]);
            }
            0..4 => {}
            4..6 => self.conditions.fill(0),
            6 => {
                self.conditions.fill(0);
                let section = draws.place(self.conditions.len());
                self.conditions[section] = draws.pick(&[1, 2]);
            }
            _ => self
                .conditions
                .fill_with(|| draws.pick(&[0, 0, 0, 0, 1, 2])),
        }
        if draws.below(16) < self.habit.dark {
            self.conditions[0] = 2;
        }
    }

    fn draw_command(&mut self) -> (u8, u8) {
        let Habit {
            clear,
            lockout,
            switch,
            ..
        } = self.habit;
        let section = 1 + self.draws.byte_below(self.record.n);
        let drawn = self.draws.below(16);
        if drawn < clear {
            (1, 0)
        } else if drawn < clear + lockout {
            (2, 0)
        } else if drawn < clear + lockout + switch {
            (self.draws.pick(&[3, 4]), section)
        } else {
            (0, 0)
        }
    }
}

#[cfg(test)]
mod tests {
    use super::*;
    use crate::controller::by_01;
    use crate::judge::Verdict;
    use std::collections::BTreeMap;

    /// The long runs alone have more steps, so they are left out.
    #[test]
    fn short_runs_come_by_every_request_in_every_group() {
        let mut seen = BTreeMap::new();
        let captures = captures();
        for capture in &captures[LONG.len()..] {
            for [_, _, k1, _] in &capture.rows {
                *seen.entry((capture.settings.n, k1 >> 4)).or_insert(0) += 1;
            }
        }
        for n in 1..=14 {
            for request in Request::ALL {
                let times = seen.get(&(n, request.code())).copied().unwrap_or(0);
                assert!(times >= 20, "{n} {request:?} {times}");
            }
        }
    }

    #[test]
    fn runs_are_of_every_length_that_is_meant() {
        let captures = captures();
        assert_eq!(captures.len(), LONG.len() + SHORT + TIED);
        assert_eq!(captures[0].rows.len(), LONGEST);
        let steps = captures[LONG.len()..].iter().map(|run| run.rows.len());
        assert_eq!(steps.clone().min(), Some(0));
        assert_eq!(steps.max(), Some(40));
    }

    #[test]
    fn no_row_of_a_busy_run_repeats_the_one_before() {
        let mut draws = Draws::from_seed(SEED);
        for steps in 0..60 {
            let settings = draw_settings(&mut draws);
            let run = draw_busy(&mut draws, COMMON, settings, steps);
            assert!(run.rows.windows(2).all(|pair| pair[0] != pair[1]));
            assert_eq!(run.judged(), Verdict::Explained(steps), "{run:?}");
        }
    }

    /// By hand from the rules: a command is given once and held, and a wait of two steps
    /// follows a fail.
    #[test]
    fn what_lasts_is_the_same_in_each_step() {
        let settings = Settings::new(2, 0, 2);
        let mut draws = Draws::from_seed(SEED);
        let mut run = Run::new(&mut draws, COMMON, settings);
        let sent = |rows: Vec<Row>| rows.iter().map(|row| row[2]).collect::<Vec<u8>>();
        let forced = Given {
            command: 3,
            channel: 2,
            ..Given::pair(pairs::IDLE)
        };
        assert_eq!(sent(run.last(forced, 3)), [0xE2; 3]);
        let clear = Given {
            command: 1,
            ..Given::pair(pairs::IDLE)
        };
        run.conditions[1] = 2;
        assert_eq!(sent(run.last(clear, 2)), [0xC1; 2]);
        run.conditions[1] = 0;
        let rows = run.last(Given::pair(pairs::IDLE), 4);
        assert_eq!(sent(rows), [0x61, 0x61, 0x00, 0x00]);
        assert!(run.last(clear, 0).is_empty());
    }

    /// Steps that 01 alone, without 02 d, would answer otherwise.
    #[test]
    fn crowded_runs_come_by_ties_with_what_was_last_sent() {
        let mut draws = Draws::from_seed(SEED);
        let mut otherwise = 0;
        for _ in 0..TIED {
            let settings = draw_settings(&mut draws);
            let mut run = Run::new(&mut draws, CROWDED, settings);
            for _ in 0..SHORT_BELOW / 2 {
                let Given {
                    received: [k1, k2],
                    command,
                    channel,
                } = run.draw();
                let [answer, alone] = [controller::step, by_01::step]
                    .map(|step| step(run.record, k1, k2, &run.conditions, command, channel));
                run.record = answer.record;
                otherwise += u32::from(answer != alone);
            }
        }
        assert!(otherwise >= 200, "{otherwise}");
    }
}
