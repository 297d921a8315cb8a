//! Captures, and the books they are bound into.

use super::pairs::{is_alarm, UNUSABLE};
use crate::book::{self, MOST_BYTES, MOST_ENTRIES};
use crate::controller::{self, Record};
use crate::judge::Row;
#[cfg(test)]
use crate::judge::{judge, Verdict};
use crate::settings::{Settings, HOLD};
use crate::trials::contents_to_write;

impl Settings {
    /// For settings that are good.
    pub fn fresh(self) -> Record {
        controller::fresh(self).expect("settings within the paper's bounds")
    }

    /// The last section alone is of high priority.
    pub fn with_last_high(n: u8) -> Self {
        Self::new(n, 1 << (n - 1), 2)
    }

    /// A step that shows which pair is the accepted one: no other comes, no command is
    /// up, there is nothing to wait for, and at most that section has failed.
    pub fn shown(self, accepted: [u8; 2], failed: Option<u8>) -> Row {
        let record = Record {
            accepted,
            ..self.fresh()
        };
        let mut conditions = vec![0; usize::from(self.n) + 1];
        if let Some(section) = failed {
            conditions[usize::from(section)] = 2;
        }
        let [k1, k2] = UNUSABLE;
        let answer = controller::step(record, k1, k2, &conditions, 0, 0);
        row(UNUSABLE, [answer.k1, answer.k2])
    }
}

#[derive(Clone, Debug)]
pub struct Capture {
    pub settings: Settings,
    pub rows: Vec<Row>,
}

impl Capture {
    pub fn new(settings: Settings, rows: impl Into<Vec<Row>>) -> Self {
        Self {
            settings,
            rows: rows.into(),
        }
    }

    /// Of an end with hold, and of one without.
    pub fn both_ways(&self) -> [Self; 2] {
        [HOLD, 0].map(|options| {
            let settings = Settings {
                options,
                ..self.settings
            };
            Self::new(settings, &self.rows[..])
        })
    }

    #[cfg(test)]
    pub fn judged(&self) -> Verdict {
        judge(self.settings, self.rows.as_flattened()).expect("a capture that is not refused")
    }
}

/// A capture whose verdict is known from the way it was put together.
pub struct Told {
    pub capture: Capture,
    /// The first step without an explanation, if there is one.
    pub wrong: Option<usize>,
}

impl Told {
    pub fn new(settings: Settings, rows: Vec<Row>, wrong: Option<usize>) -> Self {
        Self {
            capture: Capture::new(settings, rows),
            wrong,
        }
    }

    pub fn captures(all: Vec<Self>) -> Vec<Capture> {
        all.into_iter().map(|told| told.capture).collect()
    }

    #[cfg(test)]
    pub fn verdict(&self) -> Verdict {
        match self.wrong {
            Some(step) => Verdict::Unexplained(step),
            None => Verdict::Explained(self.capture.rows.len()),
        }
    }
}

/// A step in which the first pair was received and the second sent.
pub fn row([k1, k2]: [u8; 2], [sent_k1, sent_k2]: [u8; 2]) -> Row {
    [k1, k2, sent_k1, sent_k2]
}

/// Whether an alarm was received in that step (paper: 02, c).
pub fn has_alarm(&[k1, k2, ..]: &Row) -> bool {
    is_alarm([k1, k2])
}

/// Binds captures into as few books as hold them in their order, since each book
/// costs a process.
pub fn bind(captures: &[Capture]) -> Vec<Vec<u8>> {
    let mut books = Vec::new();
    let mut rest = captures;
    while !rest.is_empty() {
        let (bound, left) = rest.split_at(fitting(rest));
        books.push(written(bound));
        rest = left;
    }
    books
}

/// How many captures from the front one book has room for.
fn fitting(captures: &[Capture]) -> usize {
    (1..=captures.len().min(MOST_ENTRIES))
        .take_while(|&count| book_bytes(&captures[..count]) <= MOST_BYTES)
        .last()
        .expect("a capture that a book has room for")
}

fn book_bytes(captures: &[Capture]) -> usize {
    let bodies: usize = captures
        .iter()
        .map(|capture| capture.rows.as_flattened().len())
        .sum();
    book::contents_bytes(captures.len()) + bodies
}

fn written(captures: &[Capture]) -> Vec<u8> {
    let contents = contents_to_write(
        captures
            .iter()
            .map(|Capture { settings, rows }| (*settings, rows.len() as u16)),
    );
    let bodies: Vec<u8> = captures
        .iter()
        .flat_map(|capture| capture.rows.as_flattened())
        .copied()
        .collect();
    let mut book = vec![0; book_bytes(captures)];
    book::write(&contents, &bodies, &mut book).expect("captures that a book takes");
    book
}

#[cfg(test)]
mod tests {
    use super::*;
    use crate::trials::PAPER_BOOK;

    const SETTINGS: Settings = Settings::new(2, 0, 3);

    fn of_steps(steps: usize) -> Capture {
        Capture::new(SETTINGS, vec![[0x00, 0x08, 0x00, 0x08]; steps])
    }

    #[test]
    fn the_book_of_the_paper_is_bound() {
        let first = [
            [0x00, 0x08, 0xA2, 0x08],
            [0x22, 0x28, 0xA2, 0x28],
            [0x22, 0x28, 0x62, 0x28],
        ];
        let second = [[0x00, 0x08, 0xA2, 0x08], [0x22, 0x28, 0xA2, 0x08]];
        let captures = [
            Capture::new(SETTINGS, first),
            Capture::new(SETTINGS, second),
        ];
        assert_eq!(bind(&captures), [PAPER_BOOK]);
    }

    /// In the spare bytes of the entries (02, g).
    #[test]
    fn hold_is_bound_where_it_is_set() {
        let book = bind(&of_steps(1).both_ways()).concat();
        assert_eq!([book[3], book[15]], [1, 0]);
        let contents = book::read(&book).unwrap();
        let settings = contents.places[0].settings();
        assert_eq!(settings, SETTINGS.with_hold());
        assert_eq!(contents.places[1].settings(), SETTINGS);
    }

    #[test]
    fn books_are_filled_and_none_is_too_long() {
        assert!(bind(&[]).is_empty());
        let lengths = |books: &[Vec<u8>]| books.iter().map(Vec::len).collect::<Vec<_>>();
        let many = bind(&vec![of_steps(1); 130]);
        assert_eq!(lengths(&many), [2 + 64 * 16, 2 + 64 * 16, 2 + 2 * 16]);
        let long = bind(&[of_steps(16_380), of_steps(0), of_steps(16_377), of_steps(1)]);
        assert_eq!(lengths(&long), [65_534, 26 + 65_508, 18]);
    }
}
