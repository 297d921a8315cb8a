//! The causes (paper: 02, a). What is refused, the verdict and all that is not to be
//! written is compared as everywhere, and held against what the paper says. The words of
//! an explained capture are put to the controller of this reading, which has to send the
//! capture under them.

mod drawn;
mod kinds;
mod rooms;

use super::faults::{present, NOT_WHOLE_STEPS, TOO_LONG};
use super::lent::{Lent, LentList, LentSlice, Memory, Part};
use super::tally::{hex, Answer, Both, Caller};
use crate::book::{MOST_BYTES, STEP_BYTES};
use crate::causes::replay;
use crate::door::{Door, Tables, VERDICT};
use crate::draws::Bits;
use crate::judge::Row;
use crate::settings::{self, Settings, Unfit, HOLD};
pub use drawn::{drawn, of_books, BOOK_PARTS, DRAWN_PARTS};
pub use kinds::{BOOK_KINDS, DRAWN_KINDS};
pub use rooms::{refused, REFUSED_KINDS, REFUSED_PARTS};

const SHORT_TABLE: u8 = 11;
const OTHER_OPTIONS: u8 = 25;

/// The refusals in the order in which they are asked for.
const ORDER: [u8; 6] = [OTHER_OPTIONS, 1, 2, NOT_WHOLE_STEPS, TOO_LONG, SHORT_TABLE];

/// What the verdict begins with where a capture is explained.
const EXPLAINED: u8 = 1;

/// What a call is handed, besides the output. What stands in the tables is drawn.
struct Given {
    settings: Settings,
    capture: Vec<u8>,
    /// The words that the tables have, first that of the conditions.
    rooms: [usize; 2],
}

/// The words of all steps.
#[derive(Default)]
struct Words {
    conditions: Vec<u32>,
    commands: Vec<u16>,
}

#[derive(Clone, PartialEq)]
struct CausesMemory {
    capture: LentSlice,
    conditions: LentList<u32>,
    commands: LentList<u16>,
    out: Lent<VERDICT>,
}

impl Memory for CausesMemory {
    fn parts(&self) -> Vec<(&'static str, Part<'_>)> {
        vec![
            ("capture", self.capture.part()),
            ("conditions", self.conditions.part()),
            ("commands", self.commands.part()),
            ("out", self.out.part()),
        ]
    }
}

impl CausesMemory {
    fn new(bits: &mut Bits, given: &Given) -> Self {
        let [conditions, commands] = given.rooms;
        let (conditions, commands) = (bits.words(conditions), bits.words(commands));
        Self {
            capture: LentSlice::new(bits, &given.capture),
            conditions: LentList::new(bits, &conditions),
            commands: LentList::new(bits, &commands),
            out: Lent::drawn(bits),
        }
    }

    fn call(&mut self, door: &dyn Door, settings: Settings) -> u8 {
        let tables = Tables {
            conditions: self.conditions.entries_mut(),
            commands: self.commands.entries_mut(),
        };
        let capture = self.capture.bytes();
        door.causes(settings, capture, tables, &mut self.out.bytes)
    }

    /// Takes the words of the first steps out of the tables, where what was lent stands
    /// again: so they are the same on both sides if nothing else was written.
    fn take(&mut self, steps: usize, lent: &Self) -> Words {
        let conditions = &mut self.conditions.entries_mut()[..steps];
        let commands = &mut self.commands.entries_mut()[..steps];
        let words = Words {
            conditions: conditions.to_vec(),
            commands: commands.to_vec(),
        };
        conditions.copy_from_slice(&lent.conditions.entries()[..steps]);
        commands.copy_from_slice(&lent.commands.entries()[..steps]);
        words
    }
}

type Called = Answer<CausesMemory>;

impl Called {
    fn verdict(&self) -> (u8, [u8; VERDICT]) {
        (self.refusal, self.memory.out.bytes)
    }

    fn is_explained(&self) -> bool {
        let (refusal, [kind, ..]) = self.verdict();
        refusal == 0 && kind == EXPLAINED
    }
}

impl Caller<'_> {
    /// Answers the words of this side, if the capture is explained.
    fn causes(&mut self, given: &Given) -> Option<Words> {
        self.causes_by(given, |door, memory| memory.call(door, given.settings))
    }

    fn causes_by(
        &mut self,
        given: &Given,
        call: impl Fn(&dyn Door, &mut CausesMemory) -> u8,
    ) -> Option<Words> {
        let memory = CausesMemory::new(&mut self.bits, given);
        let mut both = self.lend(&memory, call);
        let explained = both.peer.is_explained();
        let agreed = both.library.verdict() == both.peer.verdict();
        let steps = if explained { given.steps() } else { 0 };
        let [theirs, ours] =
            [&mut both.library, &mut both.peer].map(|side| side.memory.take(steps, &memory));
        self.tally.add(&both, || given.told());
        self.hold_answers(given, &memory, &both);
        if explained && agreed {
            self.hold_words(given, "library", &theirs);
        }
        explained.then(|| {
            self.hold_words(given, "peer", &ours);
            ours
        })
    }

    /// The verdict of the library is that of its judge, but where a table is short. And
    /// what is refused here, and what is left alone, is what the paper says.
    fn hold_answers(&mut self, given: &Given, lent: &CausesMemory, both: &Both<CausesMemory>) {
        let mut out = [0; VERDICT];
        let refusal = self.library.judge(given.settings, &given.capture, &mut out);
        let judged = match refusal {
            0 if given.is_short() => (SHORT_TABLE, [0; VERDICT]),
            _ => (refusal, out),
        };
        self.hold(both.library.verdict(), judged, || given.told());
        let left = &both.peer.memory;
        let alone = left.conditions == lent.conditions && left.commands == lent.commands;
        let refusal = given.faults().first().copied().unwrap_or_default();
        self.hold((both.peer.refusal, alone), (refusal, true), || given.told());
    }

    fn hold_words(&mut self, given: &Given, side: &str, words: &Words) {
        let Words {
            conditions,
            commands,
        } = words;
        let start = given.settings.fresh();
        if let Err((step, fault)) = replay(start, given.rows(), conditions, commands) {
            self.tally.differ(|| {
                let row = hex(&given.rows()[step]);
                let words = format!("{:08X} {:04X}", conditions[step], commands[step]);
                format!(
                    "{}: the step {step} of the {side} {fault}\n  {row} by {words}",
                    given.told()
                )
            });
        }
    }
}

impl Given {
    fn steps(&self) -> usize {
        self.capture.len() / STEP_BYTES
    }

    fn rows(&self) -> &[Row] {
        let (rows, _) = self.capture.as_chunks();
        rows
    }

    fn is_short(&self) -> bool {
        self.rooms.iter().any(|&room| room < self.steps())
    }

    /// Each that applies, whatever others do. A mask has a bit at n or above also where no
    /// group has as many sections.
    fn faults(&self) -> Vec<u8> {
        let Settings {
            n, options, mask, ..
        } = self.settings;
        let length = self.capture.len();
        let applies = [
            options > HOLD,
            settings::check(n, 0) == Err(Unfit::Sections),
            u32::from(mask) >> n.min(16) != 0,
            !length.is_multiple_of(STEP_BYTES),
            length > MOST_BYTES,
            self.is_short(),
        ];
        present(ORDER, applies)
    }

    fn told(&self) -> String {
        let (bytes, [conditions, commands]) = (self.capture.len(), self.rooms);
        format!(
            "{}, {bytes} bytes, words for conditions {conditions}, for commands {commands}",
            self.settings
        )
    }
}

#[cfg(test)]
mod tests;
