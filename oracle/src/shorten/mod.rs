//! Request #112: of a script of `stripbook` that ends in a refusal the fewest lines that still end in that number. Every
//! choice of lines is tried, those with fewer lines first.

pub mod same;
pub mod scripts;

use crate::script::machine::{Line, Machine, Reply};
use crate::script::stripbook;
use crate::script::words::lines;
use crate::store::rules::Sound;

pub const MOST_LINES: usize = 12;

/// The search that the request asks for, and searches that are wrong in one point, which a comparison must find out.
#[derive(Clone, Copy, PartialEq, Eq, Debug)]
pub enum Search {
    Right,
    /// The last line may be left out.
    WithoutLast,
    /// Among equals, line numbers are compared from the right.
    TiesFromRight,
    /// Among equals, the one whose line numbers come last.
    LastOfEquals,
    /// The last line alone is not tried.
    SmallestLeftOut,
    /// A choice is played on the store that the choice before it left.
    NotFresh,
    /// A choice may end in any refusal.
    AnyRefusal,
}

pub const WRONG: [Search; 6] = [
    Search::WithoutLast,
    Search::TiesFromRight,
    Search::LastOfEquals,
    Search::SmallestLeftOut,
    Search::NotFresh,
    Search::AnyRefusal,
];

/// The lines up to the first of another form, and what each asks for.
pub fn script(input: &[u8]) -> Vec<(&[u8], Line)> {
    let parsed = lines(input).map(|line| Some((line, stripbook::parse(line)?)));
    parsed.map_while(|line| line).collect()
}

/// 0, or the refusal that the last of these lines ends in.
fn end(machine: &mut Machine<Sound>, script: &[(&[u8], Line)], choice: &[usize]) -> u64 {
    let mut number = 0;
    for &at in choice {
        number = match stripbook::call(machine, &script[at].1) {
            Reply::Refused(refusal) => refusal.0.into(),
            _ => 0,
        };
    }
    number
}

/// The choices of so many numbers from `first` to below `end`, those with lower numbers from the left first.
fn choices(first: usize, end: usize, size: usize) -> Vec<Vec<usize>> {
    if size == 0 {
        return vec![Vec::new()];
    }
    let behind = |head: usize| {
        let rests = choices(head + 1, end, size - 1).into_iter();
        rests.map(move |rest| [vec![head], rest].concat())
    };
    (first..end).flat_map(behind).collect()
}

impl Search {
    /// The choices with so many of the lines up to the last, in the order in which they are tried.
    fn choices(self, last: usize, size: usize) -> Vec<Vec<usize>> {
        if self == Search::WithoutLast {
            return choices(0, last + 1, size);
        }
        let mut all = choices(0, last, size - 1);
        all.iter_mut().for_each(|choice| choice.push(last));
        match self {
            Search::TiesFromRight => {
                all.sort_by(|one, other| one.iter().rev().cmp(other.iter().rev()))
            }
            Search::LastOfEquals => all.reverse(),
            _ => {}
        }
        all
    }

    /// The line numbers, from 0 on, of the lines to be printed; none where nothing is.
    pub fn lines(self, input: &[u8]) -> Vec<usize> {
        let script = script(input);
        if script.is_empty() || script.len() > MOST_LINES {
            return Vec::new();
        }
        let all: Vec<usize> = (0..script.len()).collect();
        let mut machine = stripbook::machine();
        let number = end(&mut machine, &script, &all);
        if number == 0 {
            return Vec::new();
        }
        let mut passes = |choice: &Vec<usize>| {
            if self != Search::NotFresh {
                machine = stripbook::machine();
            }
            let found = end(&mut machine, &script, choice);
            found == number || self == Search::AnyRefusal && found != 0
        };
        let sizes = 1 + usize::from(self == Search::SmallestLeftOut)..=script.len();
        let mut tried = sizes.flat_map(|size| self.choices(script.len() - 1, size));
        tried.find(|choice| passes(choice)).unwrap_or(all)
    }
}

/// What is printed for an input.
pub fn run(input: &[u8], out: &mut Vec<u8>) {
    let script = script(input);
    for at in Search::Right.lines(input) {
        out.extend_from_slice(script[at].0);
        out.push(b'\n');
    }
}
