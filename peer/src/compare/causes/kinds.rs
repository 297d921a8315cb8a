//! What is counted of captures whose causes are asked for.

use super::Words;
use crate::books::capture::has_alarm;
use crate::books::held::bring_back;
use crate::books::pairs::is_command;
use crate::books::repeats::{go_back, most_repeat, wait_on};
use crate::compare::captures::LONGEST;
use crate::compare::tally::Tally;
use crate::compare::Due;
use crate::judge::scan::{can_be_failed, Line};
use crate::judge::Row;
use crate::pair::{self, nibbles, Request};
use crate::settings::{Settings, HOLD};

/// All but the second are of captures that are explained.
#[derive(Clone, Copy)]
enum Kind {
    Explained,
    Unexplained,
    NoSteps,
    Longest,
    NoneHigh,
    SomeHigh,
    AllHigh,
    NoWait,
    Alarm,
    Hold,
    /// Most rows repeat the row before. Of those: a row comes again behind another, and rows
    /// that send WTR repeat.
    Repeating,
    ChangeBack,
    RunOfWaits,
    /// LO left it open which pair is the accepted one, and a later step shows that section
    /// 0 had failed, or had not.
    FailedUnseen,
    NotFailed,
    WaitAfterFail,
    WaitAfterDegrade,
    WaitRunOut,
    WaitCleared,
    ForcedOverManual,
    /// With hold a command is outranked, so that it would wait, and is sent again behind that.
    HeldOutranked,
    HeldAgain,
    /// A command that was held, or a wait, has to be cleared for what is sent.
    ClearedForFault,
    ClearedForAnswer,
}

/// The kinds of the sizes of groups, from 1 up, begin here.
const SIZES: usize = Kind::ClearedForAnswer as usize + 1;
const KINDS: usize = SIZES + 14;

/// As many explained captures as are asked for, and enough of each sort of them.
pub const DRAWN_KINDS: [Due; KINDS] = [
    ("explained", 100_000),
    ("unexplained", 10_000),
    ("no steps", 1_000),
    ("of 16,384 steps", 100),
    ("none high", 10_000),
    ("some high", 10_000),
    ("all high", 10_000),
    ("W = 0", 5_000),
    ("alarm", 10_000),
    ("hold", 50_000),
    ("most rows repeat", 40_000),
    ("most rows repeat, with changes back", 10_000),
    ("most rows repeat, with runs of WTR", 5_000),
    ("failed unseen, shown later", 5_000),
    ("not failed, shown later", 5_000),
    ("wait after a fail", 5_000),
    ("wait after a degrade", 5_000),
    ("wait run out", 2_000),
    ("wait cleared", 5_000),
    ("forced over manual", 2_000),
    ("hold, a command outranked", 10_000),
    ("hold, a command again behind others", 3_000),
    ("cleared for a fault", 5_000),
    ("cleared for an answer", 5_000),
    ("n = 1", 2_000),
    ("n = 2", 2_000),
    ("n = 3", 2_000),
    ("n = 4", 2_000),
    ("n = 5", 2_000),
    ("n = 6", 2_000),
    ("n = 7", 2_000),
    ("n = 8", 2_000),
    ("n = 9", 2_000),
    ("n = 10", 2_000),
    ("n = 11", 2_000),
    ("n = 12", 2_000),
    ("n = 13", 2_000),
    ("n = 14", 2_000),
];

/// No book has room for the longest captures.
pub const BOOK_KINDS: [Due; KINDS] = once_but(Kind::Longest);

const fn once_but(left_out: Kind) -> [Due; KINDS] {
    let mut due = DRAWN_KINDS;
    let mut place = 0;
    while place < due.len() {
        due[place].1 = 1;
        place += 1;
    }
    due[left_out as usize].0 = "";
    due
}

/// With the words of this side, if the capture is explained. Each kind counts once for a
/// capture, however often it comes up there.
pub fn count(tally: &mut Tally, settings: Settings, rows: &[Row], words: Option<&Words>) {
    let Some(words) = words else {
        return tally.count(Kind::Unexplained as usize);
    };
    let mut seen = [false; SIZES];
    let mut watch = Watch::new(settings);
    let of_steps = rows.iter().zip(&words.commands);
    let of_steps = of_steps.flat_map(|(&row, &command)| watch.step(row, command));
    for (kind, applies) in of_capture(settings, rows).into_iter().chain(of_steps) {
        seen[kind as usize] |= applies;
    }
    let sizes = SIZES + usize::from(settings.n) - 1;
    let kinds = (0..SIZES).filter(|&kind| seen[kind]);
    kinds.chain([sizes]).for_each(|kind| tally.count(kind));
}

fn of_capture(settings: Settings, rows: &[Row]) -> [(Kind, bool); 13] {
    let Settings {
        n,
        options,
        mask,
        w,
    } = settings;
    let all = (1 << n) - 1;
    let repeating = most_repeat(rows);
    let holds = options == HOLD;
    [
        (Kind::Explained, true),
        (Kind::NoSteps, rows.is_empty()),
        (Kind::Longest, rows.len() == LONGEST),
        (Kind::NoneHigh, mask == 0),
        (Kind::SomeHigh, mask != 0 && mask != all),
        (Kind::AllHigh, mask == all),
        (Kind::NoWait, w == 0),
        (Kind::Alarm, rows.iter().any(has_alarm)),
        (Kind::Hold, holds),
        (Kind::HeldAgain, holds && bring_back(rows)),
        (Kind::Repeating, repeating),
        (Kind::ChangeBack, repeating && go_back(rows)),
        (Kind::RunOfWaits, repeating && wait_on(rows)),
    ]
}

/// Goes through a capture that is explained.
struct Watch {
    n: u8,
    holds: bool,
    line: Line,
    last: u8,
}

impl Watch {
    fn new(settings: Settings) -> Self {
        Self {
            n: settings.n,
            holds: settings.options == HOLD,
            line: Line::new(settings.fresh()),
            last: 0x00,
        }
    }

    fn step(&mut self, row: Row, command: u16) -> [(Kind, bool); 10] {
        let [k1, k2, sent, sent_k2] = row;
        let open = self.line.heard.kept && self.line.lost;
        self.line.explains(row);
        // Neither another pair nor another failure decides it.
        let usable = pair::read(self.n, k1, k2).usable().is_some();
        let shown = open && !usable && !can_be_failed(sent, sent_k2);
        let [(before, channel), (code, _)] = [self.last, sent].map(nibbles);
        let is = |request: Request| code == request.code();
        let was = |request: Request| before == request.code();
        let failed = was(Request::SignalFailHigh) || was(Request::SignalFailLow);
        let degraded = was(Request::SignalDegradeHigh) || was(Request::SignalDegradeLow);
        let faulty = (0b1010..=0b1101).contains(&code);
        let waited = was(Request::WaitToRestore);
        let may_wait = channel > 0 && (failed || degraded || waited);
        let clear = command == 0x0100;
        let [held, up] = [self.last, sent].map(is_command);
        self.last = sent;
        [
            (Kind::FailedUnseen, shown && !self.line.heard.kept),
            (Kind::NotFailed, shown && !self.line.lost),
            (Kind::WaitAfterFail, failed && is(Request::WaitToRestore)),
            (
                Kind::WaitAfterDegrade,
                degraded && is(Request::WaitToRestore),
            ),
            (Kind::WaitRunOut, waited && is(Request::Nothing) && !clear),
            (Kind::WaitCleared, may_wait && is(Request::Nothing) && clear),
            (
                Kind::ForcedOverManual,
                was(Request::ManualSwitch) && is(Request::ForcedSwitch),
            ),
            (Kind::HeldOutranked, self.holds && held && !up),
            (Kind::ClearedForFault, faulty && clear),
            (Kind::ClearedForAnswer, is(Request::Reverse) && clear),
        ]
    }
}
