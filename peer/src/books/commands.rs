//! Captures of two commands, one sent after the other (paper: "One step", rule 2,
//! and "Errors a good reader makes", the third), in all orders.

use super::capture::{row, Capture};
use super::pairs::{channel_of, said, IDLE, UNUSABLE};
use crate::judge::Row;
use crate::pair::Request;
use crate::settings::Settings;

type Command = (Request, u8);

pub fn captures() -> Vec<Capture> {
    (1..=3).flat_map(captures_of).collect()
}

fn captures_of(n: u8) -> Vec<Capture> {
    let settings = Settings::new(n, 1, 2);
    let answered = said(Request::Reverse, n, n);
    let manual = said(Request::ManualSwitch, 1, 1);
    let failed = said(Request::SignalFailHigh, 1, 0);
    let received = in_all_ways(
        &[IDLE, answered, manual, UNUSABLE],
        &[IDLE, answered, failed, UNUSABLE],
    );
    let commands = commands(n);
    in_all_ways(&in_all_ways(&commands, &commands), &received)
        .into_iter()
        .map(|(commands, received)| Capture::new(settings, sent_in_turn(commands, received)))
        .collect()
}

fn commands(n: u8) -> Vec<Command> {
    let switches = (1..=n).flat_map(|c| [(Request::ForcedSwitch, c), (Request::ManualSwitch, c)]);
    [(Request::Lockout, 0)]
        .into_iter()
        .chain(switches)
        .collect()
}

fn in_all_ways<T: Copy, U: Copy>(firsts: &[T], seconds: &[U]) -> Vec<(T, U)> {
    firsts
        .iter()
        .flat_map(|&first| seconds.iter().map(move |&second| (first, second)))
        .collect()
}

fn sent_in_turn(commands: (Command, Command), received: ([u8; 2], [u8; 2])) -> [Row; 2] {
    let first = accepted(IDLE, received.0);
    let second = accepted(first, received.1);
    [
        row(received.0, commanded(commands.0, first)),
        row(received.1, commanded(commands.1, second)),
    ]
}

/// Rule 1, for the pairs used here and section 0 not failed.
fn accepted(before: [u8; 2], received: [u8; 2]) -> [u8; 2] {
    if received == UNUSABLE {
        before
    } else {
        received
    }
}

/// With the bridge of rule 6.
fn commanded((request, channel): Command, [accepted, _]: [u8; 2]) -> [u8; 2] {
    let bridged = if channel_of(accepted) == channel {
        channel
    } else {
        0
    };
    said(request, channel, bridged)
}

#[cfg(test)]
mod tests {
    use super::*;
    use crate::judge::{judge, Verdict};

    #[test]
    fn there_are_all_pairs_of_commands_and_of_received() {
        assert_eq!(captures().len(), (9 + 25 + 49) * 16);
    }

    /// With nothing asked for at the other end: the same command goes on, and a
    /// higher one takes its place.
    #[test]
    fn only_a_higher_command_follows_another() {
        let height = |(request, _): Command| match request {
            Request::Lockout => 3,
            Request::ForcedSwitch => 2,
            _ => 1,
        };
        let commands = commands(3);
        for (first, second) in in_all_ways(&commands, &commands) {
            let rows = sent_in_turn((first, second), (IDLE, IDLE));
            let follows = first == second || height(second) > height(first);
            let expected = if follows {
                Verdict::Explained(2)
            } else {
                Verdict::Unexplained(1)
            };
            let judged = judge(Settings::new(3, 1, 2), rows.as_flattened());
            assert_eq!(judged, Ok(expected), "{rows:02X?}");
        }
    }
}
