//! Reads as of a time and lists that were answered: asked again after a cut or an opening, each must
//! be answered as before.

use crate::judge::{demand, Verdict};
use crate::script::machine::{Line, Machine, Reply};
use crate::store::rules::Rules;
use std::collections::VecDeque;

/// So many are remembered; then the oldest gives way.
const REMEMBERED: usize = 32;

struct Answer {
    line: Line,
    reply: Reply,
    /// A list's whole buffer.
    listed: Vec<u8>,
}

#[derive(Default)]
pub struct Answered(VecDeque<Answer>);

impl Answered {
    /// Remembers what a line answered, if it is a read as of a time or a list.
    pub fn note<R: Rules>(&mut self, line: &Line, reply: &Reply, machine: &Machine<R>) {
        let listed = match (line, reply) {
            (Line::AsOf { .. }, Reply::Strip(_)) => Vec::new(),
            (Line::Changes { .. }, Reply::Listed { .. }) => machine.answer.clone(),
            _ => return,
        };
        if self.0.len() == REMEMBERED {
            self.0.pop_front();
        }
        self.0.push_back(Answer {
            line: *line,
            reply: *reply,
            listed,
        });
    }

    /// The lines, the oldest first.
    pub fn lines(&self) -> impl Iterator<Item = Line> + '_ {
        self.0.iter().map(|answer| answer.line)
    }

    /// Asks for all of them.
    pub fn ask_again<R: Rules>(&self, machine: &mut Machine<R>) -> Verdict<()> {
        self.0.iter().try_for_each(|answer| answer.ask(machine))
    }

    /// Asks for the last one alone.
    pub fn ask_last_again<R: Rules>(&self, machine: &mut Machine<R>) -> Verdict<()> {
        self.0.back().map_or(Ok(()), |answer| answer.ask(machine))
    }
}

impl Answer {
    fn ask<R: Rules>(&self, machine: &mut Machine<R>) -> Verdict<()> {
        let again = machine.call(&self.line);
        let same = again == self.reply && (self.listed.is_empty() || self.listed == machine.answer);
        demand(same, || {
            let (line, reply) = (self.line, self.reply);
            format!("asked again: {line:?} answered {reply:?}, then {again:?}")
        })
    }
}
