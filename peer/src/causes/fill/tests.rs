use super::*;
use crate::books::capture::{has_alarm, Capture};
use crate::books::runs::{self, COMMON, CROWDED, LOCKED};
use crate::books::{lockout, waits};
use crate::causes::replay;
use crate::draws::Draws;
use crate::judge::scan;
use crate::settings::Settings;

const FILL: (u32, u16) = (0xEEEE_EEEE, 0xEEEE);

/// The words of a capture that is explained, in tables that are one longer.
fn filled(settings: Settings, rows: &[Row]) -> (Vec<u32>, Vec<u16>) {
    let steps = rows.len();
    let (mut conditions, mut commands) = (vec![FILL.0; steps + 1], vec![FILL.1; steps + 1]);
    let capture = rows.as_flattened();
    let verdict = fill(settings, capture, &mut conditions, &mut commands);
    assert_eq!(verdict, Ok(Verdict::Explained(steps)), "{rows:02X?}");
    assert_eq!(
        (conditions.pop(), commands.pop()),
        (Some(FILL.0), Some(FILL.1))
    );
    (conditions, commands)
}

/// With those of the paper's sequences.
const SETTINGS: Settings = Settings::new(2, 0, 3);

fn assert_filled(steps: &[(Row, u32, u16)]) {
    assert_filled_for(SETTINGS, steps);
}

fn assert_filled_for(settings: Settings, steps: &[(Row, u32, u16)]) {
    let rows: Vec<Row> = steps.iter().map(|&(row, ..)| row).collect();
    let (conditions, commands) = filled(settings, &rows);
    let words = conditions.into_iter().zip(commands);
    assert!(
        words.eq(steps.iter().map(|&(_, first, second)| (first, second))),
        "{rows:02X?}"
    );
}

#[test]
fn conditions_are_those_of_what_is_sent() {
    assert_filled(&[]);
    assert_filled(&[
        ([0x00, 0x08, 0xA2, 0x08], 0b01_00_00, 0),
        ([0x22, 0x28, 0xA2, 0x28], 0b01_00_00, 0),
        ([0x22, 0x28, 0x62, 0x28], 0, 0),
    ]);
    assert_filled(&[
        ([0x00, 0x08, 0xB0, 0x08], 0b00_00_01, 0),
        ([0x00, 0x08, 0xC1, 0x08], 0b00_10_00, 0),
        ([0x00, 0x08, 0xD0, 0x08], 0b00_00_10, 0),
        // The line card reports an alarm some steps late, or as it comes.
        ([0x00, 0x0F, 0xD0, 0x08], 0b00_00_10, 0),
    ]);
}

#[test]
fn commands_are_given_once() {
    let sent = |k1| [0x00, 0x08, k1, 0x08];
    assert_filled(&[
        (sent(0x82), 0, 0x0402),
        (sent(0x82), 0, 0),
        (sent(0xE1), 0, 0x0301),
        (sent(0xE1), 0, 0),
        (sent(0xF0), 0, 0x0200),
        (sent(0xF0), 0, 0),
        (sent(0x00), 0, 0x0100),
        (sent(0x81), 0, 0x0401),
    ]);
}

/// What is held is cleared where it is of higher rank, and else it is not heard.
#[test]
fn a_clear_is_given_where_something_is_louder() {
    let sent = |k1| [0x00, 0x08, k1, 0x08];
    for (held, command, next, conditions, cleared) in [
        (0xF0, 0x0200, 0xD0, 0b10, 0x0100),
        (0xE1, 0x0301, 0xD0, 0b10, 0),
        (0xE1, 0x0301, 0xC2, 0b10_00_00, 0x0100),
        (0x81, 0x0401, 0xA2, 0b01_00_00, 0),
        (0x81, 0x0401, 0x00, 0, 0x0100),
    ] {
        assert_filled(&[(sent(held), 0, command), (sent(next), conditions, cleared)]);
    }
    // The same of an answer: what is answered has to be better.
    for (held, command, received, reverse, cleared) in [
        (0xE1, 0x0301, 0xF0, [0x20, 0x08], 0),
        (0xF0, 0x0200, 0xE1, [0x21, 0x18], 0x0100),
        (0xE1, 0x0301, 0xE1, [0x21, 0x18], 0x0100),
        (0xE2, 0x0302, 0xE1, [0x21, 0x18], 0),
        (0xE1, 0x0301, 0xE2, [0x22, 0x28], 0x0100),
    ] {
        let answered = [received, 0x08, reverse[0], reverse[1]];
        assert_filled(&[(sent(held), 0, command), (answered, 0, cleared)]);
    }
}

/// With hold a command is cleared in the first step that sends something else, whatever
/// that is, and is given again where it is sent again (02, g).
#[test]
fn with_hold_no_command_is_left_to_wait() {
    let sent = |k1| [0x00, 0x08, k1, 0x08];
    let assert_filled = |steps: &[(Row, u32, u16)]| {
        assert_filled_for(SETTINGS.with_hold(), steps);
    };
    assert_filled(&[
        (sent(0xE1), 0, 0x0301),
        (sent(0xE1), 0, 0),
        (sent(0xD0), 0b10, 0x0100),
        (sent(0xD0), 0b10, 0),
        (sent(0xE1), 0, 0x0301),
        (sent(0xF0), 0, 0x0200),
        (sent(0x00), 0, 0x0100),
        (sent(0x00), 0, 0),
    ]);
    assert_filled(&[
        (sent(0x81), 0, 0x0401),
        (sent(0xE2), 0, 0x0302),
        ([0xF0, 0x08, 0x20, 0x08], 0, 0x0100),
        (sent(0x82), 0, 0x0402),
        (sent(0xC1), 0b10_00, 0x0100),
        (sent(0x61), 0, 0),
        (sent(0x00), 0, 0x0100),
    ]);
    // Without hold nothing is cleared that is not heard.
    assert_filled_for(
        SETTINGS,
        &[
            (sent(0xE1), 0, 0x0301),
            (sent(0xD0), 0b10, 0),
            (sent(0x82), 0, 0x0402),
            ([0xF0, 0x08, 0x20, 0x08], 0, 0),
        ],
    );
}

#[test]
fn waits_run_out_or_are_cleared() {
    let failed = ([0x00, 0x08, 0xC1, 0x08], 0b10_00, 0);
    let wait = ([0x00, 0x08, 0x61, 0x08], 0, 0);
    let nothing = [0x00, 0x08, 0x00, 0x08];
    assert_filled(&[failed, wait, wait, wait, (nothing, 0, 0)]);
    assert_filled(&[failed, wait, wait, (nothing, 0, 0x0100)]);
    assert_filled(&[failed, (nothing, 0, 0x0100), (nothing, 0, 0)]);
    // An equal wait of the far end for a lower section is answered, for a higher one not.
    let of_two = ([0x00, 0x08, 0xC2, 0x08], 0b10_00_00, 0);
    assert_filled(&[of_two, ([0x61, 0x08, 0x21, 0x18], 0, 0)]);
    assert_filled(&[failed, ([0x62, 0x08, 0x22, 0x28], 0, 0x0100)]);
    assert_filled(&[failed, ([0x00, 0x08, 0x82, 0x08], 0, 0x0402)]);
}

/// In the last step under LO that may have done it, and only if a later one shows it.
#[test]
fn section_0_fails_unseen_where_a_later_step_shows_it() {
    let first = [0x81, 0x08, 0xF0, 0x08];
    let still = [0x11, 0x08, 0xF0, 0x08];
    let lost = ([0x11, 0x08, 0x00, 0x08], 0, 0x0100);
    let kept = ([0x11, 0x08, 0x21, 0x18], 0, 0x0100);
    assert_filled(&[(first, 0, 0x0200), (still, 0, 0)]);
    assert_filled(&[(first, 2, 0x0200), lost]);
    assert_filled(&[(first, 0, 0x0200), kept]);
    assert_filled(&[(first, 0, 0x0200), (still, 0, 0), (still, 2, 0), lost]);
    assert_filled(&[
        (first, 0, 0x0200),
        (still, 0, 0),
        kept,
        (still, 2, 0x0200),
        lost,
    ]);
    // Later steps may go with either, before one does not.
    let other = ([0x11, 0x08, 0xC2, 0x08], 0b10_00_00, 0x0100);
    let nothing = ([0x11, 0x08, 0x00, 0x08], 0, 0x0100);
    assert_filled(&[(first, 2, 0x0200), other, nothing]);
    // What it heard after that is accepted, unless it fails once more.
    let heard = [0x82, 0x08, 0xF0, 0x08];
    assert_filled(&[
        (first, 2, 0x0200),
        lost,
        (heard, 0, 0x0200),
        ([0x11, 0x08, 0x22, 0x28], 0, 0x0100),
    ]);
    assert_filled(&[(first, 0, 0x0200), (heard, 2, 0), lost]);
    // With an alarm it has failed, whatever its condition is.
    let alarm = [0x81, 0x0F, 0xF0, 0x08];
    assert_filled(&[(first, 0, 0x0200), (alarm, 0, 0), (still, 0, 0), lost]);
}

#[test]
fn refusals_in_their_order() {
    let right = [0x00, 0x08, 0x00, 0x08];
    let wrong = [0x00, 0x08, 0x00, 0x18];
    let [uneven, long] = [65_537, 65_540].map(|bytes| vec![0x08; bytes]);
    for (n, mask, capture, rooms, expected) in [
        (0, 0xFFFF, &uneven[..], [0, 0], Err(1)),
        (15, 0xFFFF, &uneven, [0, 0], Err(1)),
        (2, 4, &uneven, [0, 0], Err(2)),
        (2, 3, &uneven, [0, 0], Err(8)),
        (2, 3, &long, [0, 0], Err(9)),
        (2, 3, &uneven[..3], [0, 0], Err(8)),
        (2, 3, &right, [0, 0], Err(11)),
        (2, 3, &right, [0, 1], Err(11)),
        (2, 3, &right, [1, 0], Err(11)),
        (2, 3, &wrong, [0, 1], Err(11)),
        (2, 3, &wrong, [1, 0], Err(11)),
        (2, 3, &wrong, [1, 1], Ok(Verdict::Unexplained(0))),
        (2, 3, &wrong, [9, 9], Ok(Verdict::Unexplained(0))),
        (2, 3, &right, [1, 1], Ok(Verdict::Explained(1))),
        (2, 3, &[], [0, 0], Ok(Verdict::Explained(0))),
    ] {
        let settings = Settings::new(n, mask, 3);
        for settings in [settings, settings.with_hold()] {
            let (mut conditions, mut commands) = (vec![FILL.0; rooms[0]], vec![FILL.1; rooms[1]]);
            let answer = fill(settings, capture, &mut conditions, &mut commands);
            assert_eq!(answer, expected, "{settings} {} {rooms:?}", capture.len());
            if expected != Ok(Verdict::Explained(1)) {
                assert!(conditions.iter().all(|&word| word == FILL.0));
                assert!(commands.iter().all(|&word| word == FILL.1));
            }
        }
    }
}

/// Before all else, and whatever that is (02, g).
#[test]
fn other_options_are_refused() {
    let right = [0x00, 0x08, 0x00, 0x08];
    for options in 2..=u8::MAX {
        for (n, capture) in [(2, &right[..]), (0, &right), (2, &right[..3])] {
            let settings = Settings {
                options,
                ..Settings::new(n, 0, 3)
            };
            let (mut conditions, mut commands) = ([FILL.0; 1], [FILL.1; 1]);
            let answer = fill(settings, capture, &mut conditions, &mut commands);
            assert_eq!(answer, Err(25), "{settings}");
            assert_eq!((conditions, commands), ([FILL.0; 1], [FILL.1; 1]));
        }
    }
}

/// The last of many steps is wrong, so there was much that could have been written.
#[test]
fn an_unexplained_capture_leaves_the_tables_alone() {
    let mut rows = vec![[0x00, 0x08, 0xF0, 0x08]; 99];
    rows.push([0x00, 0x08, 0xF0, 0x18]);
    let (mut conditions, mut commands) = ([FILL.0; 100], [FILL.1; 100]);
    let settings = Settings::new(1, 0, 3);
    let answer = fill(
        settings,
        rows.as_flattened(),
        &mut conditions,
        &mut commands,
    );
    assert_eq!(answer, Ok(Verdict::Unexplained(99)));
    assert_eq!((conditions, commands), ([FILL.0; 100], [FILL.1; 100]));
}

/// What is received in the captures that are tried in full, and what is sent: each K1 of
/// the channels 0 and 1, with and without a bridge.
fn all_rows() -> Vec<Row> {
    let received = [
        [0x00, 0x08],
        [0x21, 0xFF],
        [0x11, 0x08],
        [0x21, 0x18],
        [0xC1, 0x08],
    ];
    let sent = (0..=u8::MAX).filter(|k1| k1 & 0b1111 <= 1);
    sent.flat_map(|k1| [0x08, 0x18].map(|k2| [k1, k2]))
        .flat_map(|[sent, sent_k2]| received.map(|[k1, k2]| [k1, k2, sent, sent_k2]))
        .collect()
}

/// Every explained capture of three steps that can be made of those rows, with hold and
/// without.
#[test]
fn all_short_captures_are_sent_by_their_causes() {
    let all = all_rows();
    for settings in [(0, 1), (1, 0)].map(|(mask, w)| Settings::new(1, mask, w)) {
        let longer = |front: &Vec<Row>| {
            let front = front.clone();
            let rows = all.iter().map(move |&row| [&front[..], &[row]].concat());
            rows.filter(|rows| scan::scan(settings.fresh(), rows) == Verdict::Explained(rows.len()))
        };
        let mut captures = vec![vec![]];
        for _ in 0..3 {
            captures = captures.iter().flat_map(longer).collect();
        }
        for rows in &captures {
            for settings in [settings, settings.with_hold()] {
                let (conditions, commands) = filled(settings, rows);
                let replayed = replay(settings.fresh(), rows, &conditions, &commands);
                assert_eq!(replayed, Ok(()), "{settings:?} {rows:02X?}");
            }
        }
        assert!(captures.len() > 10_000, "{}", captures.len());
    }
}

/// Without hold each word that is not needed would be one too many: without a clear, a
/// command or a failure under LO the capture is not sent.
fn count_needed(Capture { settings, rows }: &Capture) -> [usize; 3] {
    let (conditions, commands) = filled(*settings, rows);
    let replay =
        |conditions: &[u32], commands: &[u16]| replay(settings.fresh(), rows, conditions, commands);
    assert_eq!(replay(&conditions, &commands), Ok(()));
    let mut counts = [0; 3];
    for (step, &[.., sent, _]) in rows.iter().enumerate() {
        if commands[step] != NO_COMMAND {
            let mut fewer = commands.clone();
            fewer[step] = NO_COMMAND;
            let faulty = replay(&conditions, &fewer).map_err(|(first, _)| first);
            assert_eq!(faulty, Err(step), "{settings:?} {rows:02X?}");
            counts[usize::from(commands[step] != CLEAR)] += 1;
        }
        let told = TOLD[usize::from(sent)].conditions;
        if conditions[step] != told {
            let mut fewer = conditions.clone();
            fewer[step] = told;
            assert_eq!((sent, conditions[step], told), (0xF0, FAILED, 0));
            assert!(!has_alarm(&rows[step]));
            let faulty = replay(&fewer, &commands).map_err(|(first, _)| first);
            assert!(faulty.is_err_and(|first| first > step), "{rows:02X?}");
            counts[2] += 1;
        }
    }
    counts
}

#[test]
fn nothing_is_given_that_is_not_needed() {
    let mut draws = Draws::from_seed(51);
    let mut counts = [0; 3];
    for number in 0..3_000 {
        let steps = draws.place(30);
        let habit = [COMMON, LOCKED, CROWDED][number % 3];
        let habit = draws.pick(&[habit, habit.with_alarms()]);
        let run = match number % 5 {
            0 => lockout::draw(&mut draws, steps),
            1 => waits::draw(&mut draws, steps % 4),
            _ => runs::draw_of_any_settings(&mut draws, habit, steps),
        };
        let needed = count_needed(&run);
        for (total, number) in counts.iter_mut().zip(needed) {
            *total += number;
        }
    }
    assert!(counts.iter().all(|&count| count >= 300), "{counts:?}");
}

/// By the paper's table of requests, and its numbers for commands.
#[test]
fn every_k1_is_told_as_the_paper_has_it() {
    for (k1, conditions, command, lasting) in [
        (0x00, 0, 0, 0),
        (0x25, 0, 0, 0),
        (0x63, 0, 0, 0x63),
        (0x8E, 0, 0x040E, 0x8E),
        (0xA2, 0b01_00_00, 0, 0x62),
        (0xB0, 0b01, 0, 0x00),
        (0xBE, 1 << 28, 0, 0x6E),
        (0xC1, 0b10_00, 0, 0x61),
        (0xD0, 0b10, 0, 0x00),
        (0xDE, 2 << 28, 0, 0x6E),
        (0xE7, 0, 0x0307, 0xE7),
        (0xF0, 0, 0x0200, 0xF0),
    ] {
        let told = TOLD[usize::from(k1 as u8)];
        assert_eq!(
            (told.conditions, told.command),
            (conditions, command),
            "{k1:02X}"
        );
        assert_eq!(told.worth, WORTH[k1], "{k1:02X}");
        assert_eq!(told.lasting, WORTH[lasting], "{k1:02X}");
    }
}
