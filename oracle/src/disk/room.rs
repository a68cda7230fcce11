//! What `striproom` must do with a line: what it prints, and which bytes of the file it changes.

use crate::script::machine::{named_sizes, Line, Machine, Reply};
use crate::script::{parse, put_reply};
use crate::store::layout::*;
use crate::store::rules::{Rules, Sound};
use crate::store::state::SIZES;

/// What a line asks of the file.
#[derive(Clone, Copy, PartialEq, Eq, Debug)]
pub enum Change {
    Nothing,
    /// The bytes of one block; of a block that the file's end cuts, those that exist.
    Part {
        at: usize,
        length: usize,
    },
    /// The file is made or formatted.
    Whole {
        length: usize,
    },
}

#[derive(Clone, Copy, PartialEq, Eq, Debug)]
pub enum Turn {
    /// The run ends before this line.
    Ended,
    /// There is no file, and this line makes none.
    NoFile,
    Played(Change),
}

pub type Room = RoomOf<Sound>;

pub struct RoomOf<R: Rules> {
    pub machine: Machine<R>,
    /// The file's bytes, if there is one.
    pub file: Option<Vec<u8>>,
    /// A file without bytes is a medium all the same, and no opening accepts it.
    bare: bool,
}

impl<R: Rules> RoomOf<R> {
    pub fn load(file: Option<Vec<u8>>) -> Self {
        RoomOf {
            machine: Machine::loaded(file.clone().unwrap_or_default()),
            bare: file.as_ref().is_some_and(Vec::is_empty),
            file,
        }
    }

    /// Plays a line, given without its newline, and prints its answer.
    pub fn play(&mut self, line: &[u8], out: &mut Vec<u8>) -> Turn {
        let nothing = match self.file {
            None => Turn::NoFile,
            Some(_) => Turn::Ended,
        };
        let Some(line) = parse(line) else {
            return nothing;
        };
        let formats = matches!(line, Line::Format(_));
        if self.file.is_none() && !formats {
            return nothing;
        }
        let reply = if self.bare && !formats {
            without_bytes(&line)
        } else {
            self.machine.call(&line)
        };
        let refused = matches!(reply, Reply::Refused(_));
        if reply == Reply::Ended || (self.file.is_none() && refused) {
            return nothing;
        }
        put_reply(out, &self.machine, &line, &reply);
        self.bare &= !formats;
        Turn::Played(match formats {
            true if refused => Change::Nothing,
            true => self.make(),
            false => self.change(),
        })
    }

    /// Would a new process print and change the same from this line on? It knows the file alone: not what is open, nor sizes
    /// that are others than the file names, nor that a format was refused.
    pub fn needs_no_past(&self, line: &[u8]) -> bool {
        let Some(line) = parse(line) else {
            return false;
        };
        let machine = &self.machine;
        let known = !machine.medium.is_empty() && machine.sizes == named_sizes(&machine.medium);
        match line {
            Line::Format(_) => true,
            Line::Cut => known,
            // A refused opening leaves open what is.
            Line::Open { .. } | Line::OpenSized { .. } if machine.state.is_some() => {
                known && matches!(machine.clone().call(&line), Reply::Answer(_))
            }
            _ => known && machine.state.is_none(),
        }
    }

    fn make(&mut self) -> Change {
        let length = self.machine.medium.len();
        self.file = Some(self.machine.medium.clone());
        Change::Whole { length }
    }

    /// Takes over the block that the line changed. (A refused format leaves no medium in memory.)
    fn change(&mut self) -> Change {
        let (Some(file), medium) = (&mut self.file, &self.machine.medium) else {
            return Change::Nothing;
        };
        let mut blocks = file.chunks(BLOCK).zip(medium.chunks(BLOCK));
        let Some(block) = blocks.position(|(old, new)| old != new) else {
            return Change::Nothing;
        };
        let at = block * BLOCK;
        let length = BLOCK.min(medium.len() - at);
        file[at..at + length].copy_from_slice(&medium[at..at + length]);
        Change::Part { at, length }
    }
}

/// What a line answers on a medium of no bytes.
fn without_bytes(line: &Line) -> Reply {
    match line {
        Line::Open { .. } | Line::OpenSized { .. } => Reply::Refused(SIZES),
        Line::Cut | Line::Poke { .. } => Reply::Answer(0),
        Line::ShowBlock { .. } => Reply::ShownBlock(None),
        Line::ShowPage { .. } => Reply::ShownPage(None),
        Line::ShowUser { .. } => Reply::ShownUser(None),
        _ => Reply::Ended,
    }
}
