//! After a refusal 8, on copies of the room: the calls of the list are made, or those that asking for
//! the next one names, and then the refused call is made again.

use super::{left_of, list, most, next, ONE_MORE};
use crate::history::profiles::Profile;
use crate::history::History;
use crate::judge::{demand, Verdict};
use crate::script::machine::{Line, Machine, Reply};
use crate::store::layout::*;
use crate::store::rules::Rules;
use crate::store::state::*;
use std::fmt;

/// A way out of a full log: the whole list, and the next call of it.
pub struct WayOut<R: Rules> {
    pub list: fn(&Machine<R>) -> Vec<Line>,
    pub next: fn(&State, &[u8], &[u8]) -> Option<Line>,
}

impl<R: Rules> WayOut<R> {
    pub const SOUND: Self = WayOut {
        list: list::<R>,
        next: next::<R>,
    };
}

/// What made room after one refusal 8.
#[derive(Clone, Copy, PartialEq, Eq, Debug)]
pub struct Freed {
    /// How many calls of the checkpoint under way had been made.
    pub phase: usize,
    pub stores: usize,
    /// How many stores more the list might have had.
    pub spare: usize,
    /// Asking ends three calls earlier than the list.
    pub cut_short: bool,
}

/// Judges a way out after a call, if that was refused 8 and is promised room.
pub fn judge<R: Rules>(
    machine: &Machine<R>,
    line: &Line,
    reply: &Reply,
    way: &WayOut<R>,
) -> Verdict<Option<Freed>> {
    let Some(state) = &machine.state else {
        return Ok(None);
    };
    if *reply != Reply::Refused(LOG_FULL) || state.tail_sequence + 1 >= SEQUENCE_LIMIT {
        return Ok(None);
    }
    let listed = (way.list)(machine);
    let mut calls = listed.iter().copied();
    frees(machine, line, |_| calls.next()).map_err(|text| format!("the list: {text}"))?;
    let told = |room: &Machine<R>| (way.next)(room.state.as_ref()?, &room.medium, &room.cache);
    let asked = frees(machine, line, told).map_err(|text| format!("asking: {text}"))?;
    let cut_short = will_be_oldest(state);
    let rest = if cut_short { ONE_MORE } else { 0 };
    demand(asked == listed[..listed.len().saturating_sub(rest)], || {
        format!("asking: {asked:?} in place of {listed:?}, cut short: {cut_short}")
    })?;
    Ok(Some(Freed {
        phase: (ONE_MORE - left_of(state)) % ONE_MORE,
        stores: listed.len(),
        spare: most(machine.pages) - listed.len(),
        cut_short,
    }))
}

/// The checkpoint under way makes the tail the oldest block, so that no other is needed.
fn will_be_oldest(state: &State) -> bool {
    match state.checkpoint {
        Checkpoint::None => false,
        Checkpoint::FirstStored { oldest, .. } | Checkpoint::SecondStored { oldest, .. } => {
            oldest == state.tail_sequence
        }
    }
}

/// Makes calls until none comes. Then the refused one must be accepted, and no store be left.
fn frees<R: Rules>(
    machine: &Machine<R>,
    refused: &Line,
    mut next: impl FnMut(&Machine<R>) -> Option<Line>,
) -> Verdict<Vec<Line>> {
    let mut room = machine.clone();
    let mut made = Vec::new();
    while let Some(call) = next(&room) {
        demand(made.len() < most(machine.pages), || {
            format!("{call:?} is one too many after {made:?}")
        })?;
        let before = room.medium.clone();
        let reply = room.call(&call);
        demand(reply == Reply::Answer(0), || {
            format!("{call:?} is answered {reply:?}")
        })?;
        let changed = changed_blocks(&room.medium, &before);
        demand(changed <= 1, || {
            format!("{call:?} changes {changed} blocks")
        })?;
        made.push(call);
    }
    let again = room.clone().call(refused);
    demand(goes_on(refused, &again), || {
        format!("{refused:?} is answered {again:?} after {made:?}")
    })?;
    all_stored(&mut room)?;
    Ok(made)
}

/// The call is done. A handover is several: where its write was refused 8, its commit may find no time
/// left, and where its commit was, its version may have taken the last slot.
fn goes_on(refused: &Line, again: &Reply) -> bool {
    match (refused, again) {
        (_, Reply::Answer(_)) => true,
        (Line::Hand(_), Reply::Refused(why)) => [NO_TIME_LEFT, NO_SLOT_LEFT].contains(why),
        _ => false,
    }
}

/// "the log if it differs, each page that differs": none does any more.
fn all_stored<R: Rules>(room: &mut Machine<R>) -> Verdict<()> {
    let pages = (0..room.pages).map(|page| Line::StorePage { page });
    for store in std::iter::once(Line::StoreLog).chain(pages) {
        let reply = room.call(&store);
        demand(reply == Reply::Refused(NO_CHANGE), || {
            format!("{store:?} is left, and answered {reply:?}")
        })?;
    }
    Ok(())
}

/// What the refusals 8 of some histories came to.
#[derive(Clone, Copy, Debug)]
pub struct Tally {
    pub calls: u64,
    /// Refusals 8 without a checkpoint under way, after its first call, and after its second.
    pub full: [u64; 3],
    pub stores: u64,
    pub shortest: usize,
    pub longest: usize,
    pub spare: usize,
    pub cut_short: u64,
}

impl Default for Tally {
    fn default() -> Self {
        Tally {
            calls: 0,
            full: [0; 3],
            stores: 0,
            shortest: usize::MAX,
            longest: 0,
            spare: usize::MAX,
            cut_short: 0,
        }
    }
}

impl Tally {
    fn note(&mut self, freed: &Freed) {
        self.full[freed.phase] += 1;
        self.stores += freed.stores as u64;
        self.shortest = self.shortest.min(freed.stores);
        self.longest = self.longest.max(freed.stores);
        self.spare = self.spare.min(freed.spare);
        self.cut_short += u64::from(freed.cut_short);
    }

    pub fn add(&mut self, other: &Tally) {
        self.calls += other.calls;
        for (sum, more) in self.full.iter_mut().zip(other.full) {
            *sum += more;
        }
        self.stores += other.stores;
        self.shortest = self.shortest.min(other.shortest);
        self.longest = self.longest.max(other.longest);
        self.spare = self.spare.min(other.spare);
        self.cut_short += other.cut_short;
    }
}

impl fmt::Display for Tally {
    fn fmt(&self, out: &mut fmt::Formatter) -> fmt::Result {
        let all: u64 = self.full.iter().sum();
        let [idle, first, second] = self.full;
        writeln!(
            out,
            "{all} refusals 8 in {} calls: {idle} without a checkpoint under way, {first} after its first call, {second} \
             after its second",
            self.calls
        )?;
        if all == 0 {
            return write!(out, "no list");
        }
        write!(
            out,
            "lists of {} to {} stores, {:.1} on average, the nearest {} below 1 + D + 5; {} are told without the last three",
            self.shortest,
            self.longest,
            self.stores as f64 / all as f64,
            self.spare,
            self.cut_short
        )
    }
}

/// Runs one seed's history of so many calls and judges a way out after each refusal 8.
pub fn run_seed<R: Rules>(
    seed: u64,
    profile: &'static Profile,
    calls: u64,
    way: &WayOut<R>,
) -> Verdict<Tally> {
    let mut history = History::new(seed, profile);
    let mut machine = Machine::<R>::default();
    let mut tally = Tally::default();
    for call in 1..=calls {
        let line = history.next_line(&machine);
        let reply = machine.call(&line);
        tally.calls += 1;
        let judged = judge(&machine, &line, &reply, way);
        let name = profile.name;
        let freed = judged.map_err(|text| format!("{name}, seed {seed}, call {call}: {text}"))?;
        if let Some(freed) = freed {
            tally.note(&freed);
        }
    }
    Ok(tally)
}
