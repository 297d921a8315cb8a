//! Tables of every length, for captures with every fault and without any, so that each
//! two of the refusals come up at once.

use super::{Given, SHORT_TABLE};
use crate::book::MOST_BYTES;
use crate::compare::captures::{alter, draw_run, flat, ALTERATIONS};
use crate::compare::faults::{count_pairs, Pair};
use crate::compare::options;
use crate::compare::tally::{Caller, Tally};
use crate::compare::Due;
use crate::door::Door;
use crate::draws::Bits;
use crate::judge::{scan, Verdict};
use std::cmp::Ordering;

pub const REFUSED_PARTS: usize = 100;
const CALLS: usize = 600;

/// Of captures that nothing else is wrong with: those that are explained, by how the tables
/// compare with the steps, those that are refused for a table, and the rest.
#[derive(Clone, Copy)]
enum Kind {
    AsLong,
    ConditionsLonger,
    CommandsLonger,
    BothLonger,
    ConditionsOneShort,
    CommandsOneShort,
    BothOneShort,
    NoConditions,
    NoCommands,
    Neither,
    ShortForExplained,
    ShortForUnexplained,
    Unexplained,
}

const KINDS: usize = Kind::Unexplained as usize + 1;

const PAIRS: [Pair; 15] = [
    ("25 and 1", [25, 1]),
    ("25 and 2", [25, 2]),
    ("25 and 8", [25, 8]),
    ("25 and 9", [25, 9]),
    ("25 and 11", [25, 11]),
    ("1 and 2", [1, 2]),
    ("1 and 8", [1, 8]),
    ("1 and 9", [1, 9]),
    ("1 and 11", [1, 11]),
    ("2 and 8", [2, 8]),
    ("2 and 9", [2, 9]),
    ("2 and 11", [2, 11]),
    ("8 and 9", [8, 9]),
    ("8 and 11", [8, 11]),
    ("9 and 11", [9, 11]),
];

/// In the order of the kinds, and the pairs behind them.
pub const REFUSED_KINDS: [Due; KINDS + PAIRS.len()] = with_pairs([
    ("as long as the steps", 1_000),
    ("conditions longer", 1_000),
    ("commands longer", 1_000),
    ("both longer", 1_000),
    ("conditions one short, alone", 1_000),
    ("commands one short, alone", 1_000),
    ("both one short", 200),
    ("no conditions, alone", 500),
    ("no commands, alone", 500),
    ("neither", 50),
    ("11, explained", 5_000),
    ("11, unexplained", 2_000),
    ("unexplained", 2_000),
]);

const fn with_pairs(kinds: [Due; KINDS]) -> [Due; KINDS + PAIRS.len()] {
    let mut due = [("", 100); KINDS + PAIRS.len()];
    let mut place = 0;
    while place < due.len() {
        if place < KINDS {
            due[place] = kinds[place];
        } else {
            due[place].0 = PAIRS[place - KINDS].0;
        }
        place += 1;
    }
    due
}

pub fn refused(library: &dyn Door, part: usize) -> Tally {
    let mut caller = Caller::new(library, 19, part);
    let mut draws = caller.bits.draws();
    for _ in 0..CALLS {
        let bits = &mut caller.bits;
        let mut run = draw_run(bits, &mut draws);
        if bits.once_in(3) {
            let sort = bits.below(ALTERATIONS);
            alter(bits, &mut draws, &mut run, sort);
        }
        let (settings, capture) = flat(run);
        let mut given = Given {
            settings,
            capture,
            rooms: [0; 2],
        };
        if bits.once_in(4) {
            spoil(bits, &mut given);
        }
        given.rooms = draw_rooms(bits, given.steps());
        caller.causes(&given);
        count(&mut caller.tally, &given);
    }
    caller.tally
}

/// With some of the faults that are asked for before the tables, or none of them.
fn spoil(bits: &mut Bits, given: &mut Given) {
    let Given {
        settings, capture, ..
    } = given;
    if bits.once_in(3) {
        let any = bits.byte();
        settings.n = bits.pick(&[0, 15, 16, any]);
    }
    if bits.once_in(3) {
        settings.mask = bits.draw() as u16;
    }
    if bits.once_in(3) {
        settings.options = options::draw_other(bits);
    }
    if bits.once_in(8) {
        capture.resize(MOST_BYTES + 4 * bits.place(3), 0x08);
    }
    if bits.once_in(3) {
        capture.resize(capture.len() + 1 + bits.place(3), 0x08);
    }
}

/// Now and then they are short by as much.
fn draw_rooms(bits: &mut Bits, steps: usize) -> [usize; 2] {
    let rooms = [(); 2].map(|()| draw_room(bits, steps));
    if bits.once_in(8) {
        [rooms[0]; 2]
    } else {
        rooms
    }
}

/// Just enough, one word less, any less, none, more, and so much more that 16 bits do not
/// hold it.
fn draw_room(bits: &mut Bits, steps: usize) -> usize {
    match bits.below(16) {
        0..7 => steps,
        7..10 => steps.saturating_sub(1),
        10 => bits.place(steps + 1),
        11 => 0,
        12 if bits.once_in(8) => 65_536 + bits.place(steps + 1),
        _ => steps + 1 + bits.place(50),
    }
}

fn count(tally: &mut Tally, given: &Given) {
    let faults = given.faults();
    count_pairs(tally, KINDS, &PAIRS, &faults);
    if !matches!(faults[..], [] | [SHORT_TABLE]) {
        return;
    }
    let judged = scan::judge(given.settings, &given.capture);
    let explained = matches!(judged, Ok(Verdict::Explained(_)));
    let applying = kinds(given, explained).into_iter();
    applying
        .filter(|&(_, applies)| applies)
        .for_each(|(kind, _)| tally.count(kind as usize));
}

fn kinds(given: &Given, explained: bool) -> [(Kind, bool); KINDS] {
    let steps = given.steps();
    let [conditions, commands] = given.rooms.map(|room| room.cmp(&steps));
    let by_length = |first, second| explained && (conditions, commands) == (first, second);
    let enough = given.rooms.map(|room| room >= steps);
    let [one_short, none] = [steps.saturating_sub(1), 0].map(|length| {
        let [first, second] = given.rooms.map(|room| room < steps && room == length);
        [first && enough[1], enough[0] && second, first && second]
    });
    let short = given.is_short();
    use Ordering::{Equal, Greater};
    [
        (Kind::AsLong, by_length(Equal, Equal) && steps > 0),
        (Kind::ConditionsLonger, by_length(Greater, Equal)),
        (Kind::CommandsLonger, by_length(Equal, Greater)),
        (Kind::BothLonger, by_length(Greater, Greater)),
        (Kind::ConditionsOneShort, one_short[0]),
        (Kind::CommandsOneShort, one_short[1]),
        (Kind::BothOneShort, one_short[2]),
        (Kind::NoConditions, none[0]),
        (Kind::NoCommands, none[1]),
        (Kind::Neither, none[2]),
        (Kind::ShortForExplained, short && explained),
        (Kind::ShortForUnexplained, short && !explained),
        (Kind::Unexplained, !short && !explained),
    ]
}
