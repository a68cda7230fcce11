//! What a killed process left behind: judged by what it had printed, and by the book.

use crate::disk::room::{Change, Room, Turn};
use crate::disk::session::{difference, hands, shown};
use crate::judge::{Judge, Strictness};
use crate::random::Random;
use crate::script::machine::{Line, Machine, Reply};
use crate::script::{parse, put_line, put_reply};
use crate::store::layout::{all_zero, RecordNumber, BLOCK, RECORDS};
use crate::store::rules::Sound;
use crate::store::state::Checkpoint;
use std::collections::BTreeSet;

/// What became of the line under way.
#[derive(Clone, Copy, PartialEq, Eq, Debug)]
pub enum Fate {
    /// Every line was answered, and the process waited for the next.
    Idle,
    /// It changes no byte.
    Unchanging,
    NotDone,
    Done,
    /// A formatting cut on the way: no opening accepts the file.
    Unopenable,
}

/// What the moment of the kill leaves open.
#[derive(Clone, Copy, PartialEq, Eq, Debug)]
pub enum Allowed {
    Either,
    NotDone,
    Done,
}

/// One file's history over many processes.
pub struct Chain {
    judge: Judge<Sound>,
    pub file: Option<Vec<u8>>,
    /// Answers of earlier processes that new ones were asked for.
    pub asked_again: u64,
    /// The last kill came while a flight was handed over.
    pub in_handover: bool,
}

impl Default for Chain {
    fn default() -> Self {
        Chain {
            judge: Judge::new(Strictness::Book),
            file: None,
            asked_again: 0,
            in_handover: false,
        }
    }
}

impl Chain {
    /// Judges the file that is found after a kill and takes it over.
    pub fn killed(
        &mut self,
        lines: &[&[u8]],
        printed: &[u8],
        found: Option<Vec<u8>>,
        allowed: Allowed,
    ) -> Result<Fate, String> {
        let (mut room, done, started) = answered(self.file.take(), lines, printed)?;
        let before = room.file.clone();
        let (fate, line) = match lines.get(done) {
            None if found == before => (Fate::Idle, &b"the end"[..]),
            None => return Err(difference(before.as_deref(), found.as_deref()).unwrap_or_default()),
            Some(line) => {
                let change = room.play(line, &mut Vec::new());
                let fate = fate(&before, change, &room.file, &found, started);
                (fate.map_err(|text| at_line(done, line, &text))?, *line)
            }
        };
        self.in_handover = hands(line);
        let formats = line.starts_with(b"F ");
        let fits = match fate {
            Fate::NotDone => allowed != Allowed::Done || formats,
            Fate::Done => allowed != Allowed::NotDone || formats,
            _ => true,
        };
        if !fits {
            return Err(at_line(done, line, &format!("{fate:?}, not {allowed:?}")));
        }
        for line in &lines[..done + usize::from(fate == Fate::Done)] {
            let line = parse(line).ok_or("no line")?;
            self.judge.step(&line)?;
        }
        self.file = found;
        Ok(fate)
    }

    /// Between a checkpoint's first and its last store.
    pub fn inside_checkpoint(&self) -> bool {
        let state = self.judge.machine.state.as_ref();
        state.is_some_and(|state| state.checkpoint != Checkpoint::None)
    }

    /// The stored versions that an opening must find.
    pub fn versions(&self) -> u64 {
        self.judge.book.stored_slots().count() as u64
    }

    /// Lines for a new process that look at all that it finds and ask again what earlier ones
    /// answered, and what the book says to them.
    pub fn questions(&mut self, random: &mut Random) -> Result<(Vec<u8>, Vec<u8>), String> {
        self.judge.step(&Line::Cut)?;
        let last = self.judge.book.last_time();
        let records = self.judge.book.stored_slots().map(|found| found.record);
        let records: BTreeSet<RecordNumber> = records.collect();
        let mut lines = vec![Line::Open {
            fill: random.below(256) as u8,
        }];
        lines.extend(self.judge.answered.lines());
        self.asked_again += lines.len() as u64 - 1;
        for record in records.into_iter().chain([255, RECORDS - 1, RECORDS]) {
            let time = random.within((0, last));
            lines.push(Line::AsOf { record, time });
            lines.push(Line::AsOf { record, time: last });
            lines.push(Line::Changes {
                record,
                from: 0,
                to: last,
                bytes: 32000,
            });
        }
        let (mut text, mut answers) = (Vec::new(), Vec::new());
        for line in &lines {
            put_line(&mut text, line);
            let reply = self.judge.step(line)?;
            put_reply(&mut answers, &self.judge.machine, line, &reply);
        }
        self.judge.step(&Line::Cut)?;
        Ok((text, answers))
    }
}

/// The room after all answered lines, how many they are, and whether the next answer has begun.
fn answered(
    file: Option<Vec<u8>>,
    lines: &[&[u8]],
    printed: &[u8],
) -> Result<(Room, usize, bool), String> {
    let mut rest = printed;
    let mut before = file.clone();
    let mut room = Room::load(file);
    for (done, line) in lines.iter().enumerate() {
        let mut answer = Vec::new();
        let turn = room.play(line, &mut answer);
        match rest.strip_prefix(&answer[..]) {
            Some(behind) if matches!(turn, Turn::Played(_)) => rest = behind,
            _ if answer.starts_with(rest) => {
                // Back to where the line under way began.
                let mut again = Room::load(before.take());
                for line in &lines[..done] {
                    again.play(line, &mut Vec::new());
                }
                return Ok((again, done, !rest.is_empty()));
            }
            _ => {
                let text = format!("expected {}, got {}", shown(&answer), shown(rest));
                return Err(at_line(done, line, &text));
            }
        }
    }
    match rest.is_empty() {
        true => Ok((room, lines.len(), false)),
        false => Err(format!("prints {} behind its answers", shown(rest))),
    }
}

fn at_line(done: usize, line: &[u8], text: &str) -> String {
    format!("line {}, {}: {text}", done + 1, shown(line))
}

type File = Option<Vec<u8>>;

fn fate(
    before: &File,
    turn: Turn,
    after: &File,
    found: &File,
    begun: bool,
) -> Result<Fate, String> {
    let Turn::Played(change) = turn else {
        return Err("the run ends here".into());
    };
    if before == after && found == before && change == Change::Nothing {
        return Ok(Fate::Unchanging);
    }
    if found == after {
        return Ok(Fate::Done);
    }
    if found == before && !begun {
        return Ok(Fate::NotDone);
    }
    if matches!(change, Change::Whole { .. }) && !begun {
        return half_formatted(before, after, found);
    }
    let text = difference(after.as_deref(), found.as_deref()).unwrap_or_default();
    let old = difference(before.as_deref(), found.as_deref()).unwrap_or_default();
    Err(format!("neither done ({text}) nor undone ({old})"))
}

/// The first block is zeros, the length the old or the new one, and behind are old bytes or zeros.
fn half_formatted(before: &File, after: &File, found: &File) -> Result<Fate, String> {
    let empty = Vec::new();
    let old = before.as_ref().unwrap_or(&empty);
    let new = after.as_ref().unwrap_or(&empty);
    let found = found.as_ref().ok_or("the file is gone")?;
    let lengths = [0, BLOCK, old.len(), new.len()];
    let from_old = |(at, byte): (usize, &u8)| *byte == 0 || old.get(at) == Some(byte);
    let expected = all_zero(&found[..found.len().min(BLOCK)])
        && lengths.contains(&found.len())
        && found.iter().enumerate().all(from_old);
    let mut machine = Machine::<Sound>::loaded(found.clone());
    let opened = machine.call(&Line::Open { fill: 0 });
    match expected && !matches!(opened, Reply::Answer(_)) {
        true => Ok(Fate::Unopenable),
        false => Err(format!("half a formatting ({opened:?})")),
    }
}
