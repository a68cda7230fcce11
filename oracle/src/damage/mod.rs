//! Opens damaged media: opening returns, and a refusal zeroes the cache and nothing else.

pub mod edits;

use crate::damage::edits::{Damaged, EDITS};
use crate::history::profiles::by_seed;
use crate::history::History;
use crate::judge::{demand, Verdict};
use crate::random::Random;
use crate::script::machine::{Line, Machine};
use crate::store::layout::*;
use crate::store::open::{open, Fault};
use crate::store::rules::{Rules, Sound};
use crate::store::state::*;
use std::panic::{catch_unwind, AssertUnwindSafe};

/// How often each condition was the first to fail, and how many media were accepted.
#[derive(Clone, Copy, Default, Debug)]
pub struct Tally {
    pub accepted: u64,
    pub refused: [u64; 11],
}

impl Tally {
    pub fn add(&mut self, other: &Tally) {
        self.accepted += other.accepted;
        for (sum, more) in self.refused.iter_mut().zip(other.refused) {
            *sum += more;
        }
    }

    pub fn every_condition_failed(&self) -> bool {
        self.refused[1..].iter().all(|&count| count > 0)
    }
}

const CALLS: u64 = 240;
const SNAPSHOT_EVERY: u64 = 20;
const COPIES_OF_EACH: u64 = 12;

/// The media of one history, from the last formatting on.
fn media(seed: u64) -> (Machine<Sound>, Vec<Vec<u8>>) {
    let mut machine = Machine::default();
    if seed.is_multiple_of(5) {
        crowd(&mut machine);
        let medium = machine.medium.clone();
        return (machine, vec![medium; 4]);
    }
    let mut history = History::new(seed, by_seed(seed));
    let mut snapshots = Vec::new();
    for call in 0..CALLS {
        let line = history.next_line(&machine);
        if matches!(line, Line::Format { .. }) {
            snapshots.clear();
        }
        machine.call(&line);
        if call % SNAPSHOT_EVERY == 0 {
            snapshots.push(machine.medium.clone());
        }
    }
    snapshots.push(machine.medium.clone());
    (machine, snapshots)
}

/// 64 live commits, and aborted numbers whose versions wait as well.
pub fn crowd<R: Rules>(machine: &mut Machine<R>) {
    let places = TABLE_PLACES as u64;
    machine.call(&Line::Format {
        log_blocks: 32,
        pages: 64,
    });
    machine.call(&Line::Open { fill: 0 });
    for number in 1..=places + 4 {
        machine.call(&Line::Begin { clock: 1 });
        let (record, value) = (number as RecordNumber, [1; 16]);
        machine.call(&Line::Write {
            number,
            record,
            value,
        });
        if number <= 4 {
            machine.call(&Line::Abort { number });
        }
    }
    for number in 5..=places + 4 {
        machine.call(&Line::Commit { number, clock: 9 });
    }
    machine.call(&Line::StoreLog);
}

/// Gives a pair to up to four numbers that never committed, in table or log.
fn pairs_for_aborted(damaged: &mut Damaged) {
    let state = {
        let mut cache = vec![0; BLOCK * damaged.pages];
        let sizes = (damaged.log_blocks as u64, damaged.pages as u64);
        match open::<Sound>(&damaged.bytes, &mut cache, sizes.0, sizes.1) {
            Ok(state) => state,
            Err(_) => return,
        }
    };
    let count = damaged.random.below(4);
    if damaged.random.percent(50) {
        for number in 1..=count {
            let at = BLOCK + number as usize * PAIR_BYTES;
            put64(&mut damaged.bytes, at, number);
            put64(&mut damaged.bytes, at + 8, state.last_time);
        }
        return;
    }
    let tail = log_block(state.tail_sequence, state.log_blocks);
    let (mut used, mut time) = (state.tail_used, state.last_time);
    let block = block_mut(&mut damaged.bytes, tail);
    for number in (1..=count).take((BLOCK - used) / COMMIT_BYTES) {
        time += 1;
        put_record(block, used, &Record::Commit { number, time });
        used += COMMIT_BYTES;
    }
    put16(block, 8, used as u16);
}

/// Damages every medium of a seed's history in many ways and opens each.
pub fn run_seed(seed: u64) -> Verdict<Tally> {
    let (machine, snapshots) = media(seed);
    let mut random = Random::new(seed ^ 0xdada);
    let mut tally = Tally::default();
    let sizes = (machine.log_blocks, machine.pages);
    for medium in &snapshots {
        let round = COPIES_OF_EACH * EDITS.len() as u64;
        for copy in 0..round {
            let old = &snapshots[random.below(snapshots.len() as u64) as usize];
            let bytes = damage(medium, old, sizes, &mut random, copy as usize);
            open_damaged(&bytes, sizes, &mut tally)
                .map_err(|text| format!("seed {seed}, copy {copy}: {text}"))?;
        }
    }
    Ok(tally)
}

/// One edit of the list in turn, or blocks that are old or in the wrong place.
pub fn damage(
    medium: &[u8],
    old: &[u8],
    (log_blocks, pages): (u64, u64),
    random: &mut Random,
    turn: usize,
) -> Vec<u8> {
    let blocks = medium.len() / BLOCK;
    let (one, two) = (
        random.below(blocks as u64) as usize,
        random.below(blocks as u64) as usize,
    );
    let mut damaged = Damaged {
        bytes: medium.to_vec(),
        log_blocks: log_blocks as usize,
        pages: pages as usize,
        random,
    };
    match turn % (EDITS.len() + 3) {
        0 => block_mut(&mut damaged.bytes, one).copy_from_slice(block(old, one)),
        1 => {
            let first = block(medium, one);
            block_mut(&mut damaged.bytes, two).copy_from_slice(first);
            block_mut(&mut damaged.bytes, one).copy_from_slice(block(medium, two));
        }
        2 => pairs_for_aborted(&mut damaged),
        edit => {
            EDITS[edit - 3](&mut damaged);
            if damaged.random.percent(10) {
                let second = damaged.random.below(EDITS.len() as u64) as usize;
                EDITS[second](&mut damaged);
            }
        }
    }
    damaged.bytes
}

fn open_damaged(medium: &[u8], (log_blocks, pages): (u64, u64), tally: &mut Tally) -> Verdict<()> {
    let before = medium.to_vec();
    let mut cache = vec![0x5a; BLOCK * pages as usize];
    let mut other = vec![0; BLOCK * pages as usize];
    let opened = catch_unwind(AssertUnwindSafe(|| {
        let first = open::<Sound>(medium, &mut cache, log_blocks, pages);
        (first, open::<Sound>(medium, &mut other, log_blocks, pages))
    }));
    let (first, second) = opened.map_err(|_| "opening panics".to_string())?;
    demand(medium == before, || "the medium changed".into())?;
    demand(first == second && cache == other, || {
        "the cache that came in shows".into()
    })?;
    match first {
        Err(Fault::Broken { condition, block }) => {
            demand(all_zero(&cache), || "the cache is not zeroed".into())?;
            demand(block < medium.len() / BLOCK, || "no such block".into())?;
            tally.refused[condition as usize] += 1;
        }
        Err(fault) => return Err(format!("refused for {fault:?}")),
        Ok(state) => {
            let fit = state.check_fit(medium, &cache);
            demand(fit.is_ok(), || "the state does not fit".into())?;
            tally.accepted += 1;
            go_on(state, before, cache)?;
        }
    }
    Ok(())
}

/// Some calls on what was opened return too.
fn go_on(mut state: State, mut medium: Vec<u8>, mut cache: Vec<u8>) -> Verdict<()> {
    use crate::store::transactions::{begin, commit, write};
    let calls = catch_unwind(AssertUnwindSafe(|| {
        let (state, medium, cache) = (&mut state, &mut medium, &mut cache);
        if let Ok(number) = begin(state, medium, cache, 5) {
            for record in 0..40 {
                let _ = write::<Sound>(state, medium, cache, (number, 250 + record), &[1; 16]);
            }
            let _ = commit::<Sound>(state, medium, cache, number, 7);
        }
        let _ = crate::store::journal::store_log::<Sound>(state, medium, cache);
        let _ = crate::store::pages::store_page::<Sound>(state, medium, cache, 0);
        for _ in 0..3 {
            let _ = crate::store::checkpoint::checkpoint::<Sound>(state, medium, cache);
        }
        let _ = crate::store::chain::as_of::<Sound>(state, medium, cache, 3, state.stored_time);
    }));
    calls.map_err(|_| "a call after opening panics".to_string())
}
