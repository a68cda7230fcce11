//! What a store's own reads say of some records: asked before a handover and after it.

use crate::handover::{NOBODY, OWNER};
use crate::judge::book::Book;
use crate::script::machine::{Line, Machine, Reply};
use crate::store::chain::Strip;
use crate::store::layout::{RecordNumber, CHANGE_BYTES, RECORDS};
use crate::store::rules::Rules;
use std::collections::BTreeSet;

/// Of more records than this some are asked about, others after other calls.
const ASKED: usize = 12;
/// The same for open numbers.
const NUMBERS: usize = 3;
/// As of so many of a record's last times.
const TIMES: usize = 2;

#[derive(Clone, Copy, PartialEq, Eq, Debug)]
pub enum Question {
    /// By a number that is open, or by the one that begin gives next.
    Current { number: u64, record: RecordNumber },
    /// By a number that begins for it.
    New { record: RecordNumber },
    /// As of a time, or the list up to one.
    Past(Line),
}

impl Question {
    pub fn record(&self) -> RecordNumber {
        match *self {
            Question::Current { record, .. } | Question::New { record } => record,
            Question::Past(Line::AsOf { record, .. } | Line::Changes { record, .. }) => record,
            Question::Past(line) => panic!("{line:?} is no read"),
        }
    }
}

#[derive(Clone, PartialEq, Eq, Debug)]
pub struct Seen {
    pub reply: Reply,
    pub listed: Vec<u8>,
}

/// None where no number could begin.
pub type Answer = Option<Seen>;

pub struct Witness {
    pub questions: Vec<Question>,
}

pub fn is_owned(reply: &Reply) -> bool {
    matches!(reply, Reply::Strip(Strip::Present(strip)) if strip[OWNER] != NOBODY)
}

/// At most so many of a list, spread over it, others from one turn to the next.
fn some<T: Copy>(all: &[T], most: usize, turn: usize) -> impl Iterator<Item = T> + '_ {
    let step = all.len().div_ceil(most).max(1);
    all.iter().copied().skip(turn % step).step_by(step)
}

impl Witness {
    /// Questions about the flight and other records, one without versions among them, by open numbers
    /// and new ones and as of times that are not refused.
    pub fn new<R: Rules>(machine: &Machine<R>, book: &Book, flight: RecordNumber) -> Self {
        let turn = book.rows().len();
        let in_use: BTreeSet<RecordNumber> = book.slots().map(|found| found.record).collect();
        let in_use: Vec<RecordNumber> = in_use.into_iter().collect();
        let mut records: BTreeSet<RecordNumber> = some(&in_use, ASKED, turn).collect();
        records.extend([flight, flight.wrapping_add(101) % RECORDS]);
        let open: Vec<u64> = book.open_numbers().collect();
        let mut numbers: Vec<u64> = some(&open, NUMBERS, turn).collect();
        numbers.extend(machine.state.as_ref().map(|state| state.next_number));
        let stored = book.stored_last_time();
        let mut questions = Vec::new();
        for record in records {
            let by = numbers.iter();
            questions.extend(by.map(|&number| Question::Current { number, record }));
            questions.push(Question::New { record });
            let times = book.slots().rev().filter(|found| found.record == record);
            let times = times.filter_map(|found| found.time.filter(|&time| time <= stored));
            for time in times.take(TIMES).chain([stored]) {
                questions.push(Question::Past(Line::AsOf { record, time }));
            }
            // The lines up to a time say what is read as of each time below it.
            questions.push(Question::Past(Line::Changes {
                record,
                from: 0,
                to: stored,
                bytes: (CHANGE_BYTES * (book.changes(record, 0, stored).len() + 1)) as u64,
            }));
        }
        Witness { questions }
    }

    pub fn ask<R: Rules>(&self, machine: &Machine<R>) -> Vec<Answer> {
        let mut copy = machine.clone();
        let mut beside = machine.clone();
        let begun = beside.call(&Line::Begin { clock: 0 });
        let answers = self.questions.iter().map(|question| match *question {
            Question::Past(line) => Some(see(&mut copy, &line)),
            Question::Current { number, record } => {
                Some(see(&mut copy, &Line::Read { number, record }))
            }
            Question::New { record } => match begun {
                Reply::Answer(number) => Some(see(&mut beside, &Line::Read { number, record })),
                _ => None,
            },
        });
        answers.collect()
    }
}

fn see<R: Rules>(machine: &mut Machine<R>, line: &Line) -> Seen {
    let reply = machine.call(line);
    let listed = match line {
        Line::Changes { .. } => machine.answer.clone(),
        _ => Vec::new(),
    };
    Seen { reply, listed }
}
