//! Captures that are mostly explained, in tables that have room for them: drawn ones, and
//! those of the books whose captures are judged.

use super::{kinds, Given};
use crate::book;
use crate::books::capture::Capture;
use crate::books::runs::{COMMON, CROWDED, LOCKED};
use crate::books::{self, lockout, repeats, waits};
use crate::compare::captures::{alter, draw_of_any_end, flat, ALTERATIONS, LONGEST, SHORT_BELOW};
use crate::compare::options;
use crate::compare::tally::{Caller, Tally};
use crate::door::Door;
use crate::draws::{Bits, Draws};

pub const DRAWN_PARTS: usize = 200;
/// Of each part. The first of them is long.
const CAPTURES: usize = 900;

/// One for each group of books that are not damaged.
pub const BOOK_PARTS: usize = books::GROUPS.len() - 1;

pub fn drawn(library: &dyn Door, part: usize) -> Tally {
    let mut caller = Caller::new(library, 17, part);
    let mut draws = caller.bits.draws();
    for number in 0..CAPTURES {
        let mut run = match number {
            0 => draw_long(&mut caller.bits, &mut draws),
            _ => draw(&mut caller.bits, &mut draws),
        };
        // Whichever end made it.
        run.settings.options = options::draw(&mut caller.bits);
        call(&mut caller, run);
    }
    caller.tally
}

/// Runs as they are, in a third of which most rows repeat, and some that are altered.
/// Others are made for what LO leaves open, and for waits.
fn draw(bits: &mut Bits, draws: &mut Draws) -> Capture {
    let steps = bits.place(SHORT_BELOW);
    let mut run = match bits.below(16) {
        0 => return lockout::draw(draws, steps),
        1 => return waits::draw(draws, 1 + steps % 4),
        2..7 => repeats::draw(draws, bits.pick(&[steps, 3 * steps])),
        _ => {
            let habit = bits.pick(&[COMMON, COMMON, LOCKED, CROWDED]);
            let habit = bits.pick(&[habit, habit.with_alarms()]);
            draw_of_any_end(bits, draws, habit, steps)
        }
    };
    if bits.once_in(5) {
        let sort = bits.below(ALTERATIONS);
        alter(bits, draws, &mut run, sort);
    }
    run
}

/// As long as can be, mostly; some under LO from the first step to the last but one, some
/// in which most rows repeat.
fn draw_long(bits: &mut Bits, draws: &mut Draws) -> Capture {
    match bits.below(16) {
        0..4 => return lockout::draw(draws, LONGEST - 2),
        4..8 => return repeats::draw(draws, LONGEST),
        _ => {}
    }
    let any = bits.place(LONGEST);
    let steps = bits.pick(&[LONGEST, LONGEST, any]);
    let habit = bits.pick(&[COMMON, LOCKED, COMMON.with_alarms()]);
    draw_of_any_end(bits, draws, habit, steps)
}

/// All captures of the group of the part.
pub fn of_books(library: &dyn Door, part: usize) -> Tally {
    let mut caller = Caller::new(library, 18, part);
    for book in books::GROUPS[part].books() {
        for run in captures_of(&book) {
            call(&mut caller, run);
        }
    }
    caller.tally
}

fn captures_of(book: &[u8]) -> Vec<Capture> {
    let contents = book::read(book).expect("a sound book");
    let entries = contents.entries().unwrap_or_default();
    let capture = |entry: &book::Entry| {
        let (rows, _) = book::body(book, entry).as_chunks();
        Capture::new(entry.settings(), rows)
    };
    entries.iter().map(capture).collect()
}

fn call(caller: &mut Caller, run: Capture) {
    let bits = &mut caller.bits;
    let steps = run.rows.len();
    let rooms = [(); 2].map(|()| steps + draw_more(bits));
    let (settings, capture) = flat(run);
    let given = Given {
        settings,
        capture,
        rooms,
    };
    let words = caller.causes(&given);
    kinds::count(&mut caller.tally, settings, given.rows(), words.as_ref());
}

/// Mostly none.
fn draw_more(bits: &mut Bits) -> usize {
    let more = 1 + bits.place(50);
    bits.pick(&[0, 0, 0, more])
}
