//! Pairs to be received and to be sent.

use crate::draws::Draws;
use crate::pair::{self, Received, Request};

pub const IDLE: [u8; 2] = [0x00, 0x08];

/// Marked 3 in every group.
pub const UNUSABLE: [u8; 2] = [0x11, 0x08];

/// The pair an end sends while its LO is up: with channel 0 there is no bridge,
/// whatever was accepted (paper: "One step", rule 6).
pub const LOCKOUT: [u8; 2] = [0xF0, 0x08];

/// The pair an end sends while its section 0 has failed and LO is not up.
pub const FAILED: [u8; 2] = [0xD0, 0x08];

pub fn said(request: Request, channel: u8, bridged: u8) -> [u8; 2] {
    pair::pack(pair::Record {
        code: request.code(),
        channel,
        bridged,
        remote_defect: false,
    })
}

/// Pairs that are seen to be accepted, and not 00 08, by what an end sends that asks
/// for nothing itself.
pub fn telling(n: u8) -> [[u8; 2]; 8] {
    [
        said(Request::ManualSwitch, n, 0),
        said(Request::ForcedSwitch, n, n),
        said(Request::SignalFailHigh, n, 0),
        said(Request::SignalDegradeLow, n, n),
        said(Request::WaitToRestore, n, n),
        said(Request::Reverse, n, n),
        said(Request::Lockout, 0, 0),
        said(Request::SignalFailHigh, 0, 0),
    ]
}

/// That pair with bit 5 and line bits 111, so that it is an alarm whatever else it
/// says (paper: 02, c).
pub fn alarmed([k1, k2]: [u8; 2]) -> [u8; 2] {
    [k1, k2 | 0b1111]
}

/// The size of the group plays no part in it.
pub fn is_alarm([k1, k2]: [u8; 2]) -> bool {
    pair::read(1, k1, k2) == Received::Alarm
}

/// What that pair is to an end that knows of no alarms: its line bits mean nothing.
pub fn unheard(pair: [u8; 2]) -> [u8; 2] {
    let [k1, k2] = pair;
    if is_alarm(pair) {
        [k1, k2 & !0b010]
    } else {
        pair
    }
}

pub fn fail(high: bool) -> Request {
    if high {
        Request::SignalFailHigh
    } else {
        Request::SignalFailLow
    }
}

pub fn degrade(high: bool) -> Request {
    if high {
        Request::SignalDegradeHigh
    } else {
        Request::SignalDegradeLow
    }
}

pub fn channel_of(k1: u8) -> u8 {
    k1 & 0b1111
}

/// Whether it is what a command asks for.
pub fn is_command(k1: u8) -> bool {
    matches!(k1 >> 4, 0b1111 | 0b1110 | 0b1000)
}

fn draw_request(draws: &mut Draws, n: u8) -> (Request, u8) {
    let request = draws.pick(&Request::ALL);
    let channels: Vec<u8> = request.channels(n).collect();
    (request, draws.pick(&channels))
}

pub fn draw_usable(draws: &mut Draws, n: u8) -> [u8; 2] {
    let (request, channel) = draw_request(draws, n);
    pair::pack(pair::Record {
        code: request.code(),
        channel,
        bridged: draws.byte_below(n + 1),
        remote_defect: draws.once_in(8),
    })
}

/// Those that have mark 2. One of them stands here twice, in the place that line bits
/// 111 had before 02, c: so the draws behind it are what they were, and the speed of
/// the same work can be compared.
const UNUSED_LINE_BITS: [u8; 6] = [1, 2, 3, 4, 5, 5];

/// Spoils a usable pair in one of the ways that have a mark.
pub fn draw_unusable(draws: &mut Draws, n: u8) -> [u8; 2] {
    let [k1, k2] = draw_usable(draws, n);
    let above = n + 1 + draws.byte_below(15 - n);
    match draws.below(6) {
        0 => [k1, k2 & !0b1000],
        1 => [k1, (k2 & !0b111) | draws.pick(&UNUSED_LINE_BITS)],
        2 => [
            draws.pick(&[0x1, 0x3, 0x4, 0x5, 0x7, 0x9]) << 4 | channel_of(k1),
            k2,
        ],
        3 => [k1 & 0xF0 | above, k2],
        4 => [draws.pick(&[0xE0, 0xC0, 0xA0, 0x80, 0x60, 0xF1, 0x01]), k2],
        _ => [k1, above << 4 | k2 & 0b1111],
    }
}

/// With all that may stand beside the alarm, usable or not.
pub fn draw_alarm(draws: &mut Draws, n: u8) -> [u8; 2] {
    let draw = draws.pick(&[draw_usable, draw_unusable]);
    alarmed(draw(draws, n))
}

/// A pair much like those an end sends: the bridge is mostly that of rule 6.
pub fn draw_sendable(draws: &mut Draws, n: u8) -> [u8; 2] {
    let (request, channel) = draw_request(draws, n);
    let any = draws.byte_below(n + 1);
    said(request, channel, draws.pick(&[0, channel, channel, any]))
}

#[cfg(test)]
mod tests {
    use super::*;
    use crate::pair::Mark;
    use std::collections::BTreeSet;

    #[test]
    fn pairs_are_drawn_as_their_names_say() {
        for n in 1..=14 {
            let mut draws = Draws::from_seed(u64::from(n));
            let read = |[k1, k2]: [u8; 2]| pair::read(n, k1, k2);
            let mut marks = BTreeSet::new();
            for _ in 0..500 {
                assert!(read(draw_usable(&mut draws, n)).usable().is_some());
                let sendable = read(draw_sendable(&mut draws, n)).usable();
                assert!(sendable.is_some_and(|record| !record.remote_defect));
                let unusable = draw_unusable(&mut draws, n);
                let Received::Marked(mark) = read(unusable) else {
                    panic!("{n} {unusable:02X?}");
                };
                marks.insert(mark.number());
                assert_eq!(read(draw_alarm(&mut draws, n)), Received::Alarm);
            }
            assert!(marks.into_iter().eq(1..=5));
        }
    }

    #[test]
    fn an_alarm_is_heard_or_has_mark_2() {
        for pair in (0..=u16::MAX).map(u16::to_be_bytes) {
            assert!(is_alarm(alarmed(pair)));
            let [k1, k2] = unheard(alarmed(pair));
            let mark = Received::Marked(Mark::LineBits);
            assert_eq!((k1, pair::read(14, k1, k2)), (pair[0], mark));
            assert_eq!(unheard(pair) == pair, !is_alarm(pair));
        }
    }

    #[test]
    fn the_pairs_that_have_names() {
        for n in 1..=14 {
            assert_eq!(pair::read(n, 0x11, 0x08), Received::Marked(Mark::Code));
        }
        assert_eq!(said(Request::Nothing, 0, 0), IDLE);
        assert_eq!(said(Request::Lockout, 0, 0), LOCKOUT);
        assert_eq!(said(Request::SignalFailHigh, 0, 0), FAILED);
        assert_eq!(said(Request::Reverse, 2, 1), [0x22, 0x18]);
    }

    #[test]
    fn three_requests_are_of_commands() {
        let commands = [
            Request::Lockout,
            Request::ForcedSwitch,
            Request::ManualSwitch,
        ];
        for request in Request::ALL {
            let [k1, _] = said(request, 1, 0);
            assert_eq!(is_command(k1), commands.contains(&request), "{request:?}");
        }
    }
}
