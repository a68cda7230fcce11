//! A medium by itself: what an opening finds in its slots, and a script that only reads it.

pub mod going_on;
pub mod old;

use crate::random::Random;
use crate::script::machine::{Line, Machine, Reply};
use crate::script::{put_line, put_reply};
use crate::store::layout::*;
use crate::store::rules::Sound;
use crate::store::state::State;
use std::collections::BTreeSet;
use std::fmt::Write;

/// Of more records than this some are asked about.
const ASKED: usize = 12;
/// As of so many of a record's times.
const TIMES: usize = 3;

const OPEN: Line = Line::Open { fill: 0 };

/// The answer of the opening; then the next number, and a line for each used slot: slot, record, kind,
/// commit time, earlier slot and value, with `-` for no time and for no slot.
pub fn slots(medium: Vec<u8>) -> String {
    let mut machine = Machine::<Sound>::loaded(medium);
    let mut answer = Vec::new();
    let reply = machine.call(&OPEN);
    put_reply(&mut answer, &machine, &OPEN, &reply);
    let mut text = String::from_utf8_lossy(&answer).into_owned();
    let Some(state) = &machine.state else {
        return text;
    };
    let _ = writeln!(text, "next {}", state.next_number);
    for n in 0..state.next_slot {
        let _ = writeln!(text, "{}", slot_line(state, &machine.cache, n));
    }
    text
}

fn slot_line(state: &State, cache: &[u8], n: usize) -> String {
    let slot = slot(cache, n);
    let dash = |number: Option<u64>| number.map_or("-".into(), |number| number.to_string());
    let time = dash(state.time_of(slot_state(slot)));
    let earlier = get16(slot, 4);
    let earlier = dash((earlier != NO_SLOT).then_some(earlier.into()));
    let value = u128::from_be_bytes(slot_value(slot));
    format!(
        "{n} {} {} {time} {earlier} {value:032x}",
        slot_record(slot),
        slot[2]
    )
}

/// Opens the medium and reads many records, now, as of many times and as lists.
pub fn probe(medium: Vec<u8>) -> Vec<u8> {
    let mut machine = Machine::<Sound>::loaded(medium);
    let mut out = Vec::new();
    put_line(&mut out, &OPEN);
    if let Reply::Refused(_) = machine.call(&OPEN) {
        return out;
    }
    let Some(state) = &machine.state else {
        return out;
    };
    put_line(&mut out, &Line::Begin { clock: 1 });
    let mut random = Random::new(state.next_slot as u64);
    for record in records(state, &machine.cache) {
        let number = state.next_number;
        put_line(&mut out, &Line::Read { number, record });
        let mut times = times(state, &machine.cache, record);
        while times.len() > TIMES {
            times.remove(random.below(times.len() as u64) as usize);
        }
        let around = times
            .iter()
            .flat_map(|time| [time.saturating_sub(1), *time]);
        let asked: BTreeSet<u64> = around.chain([0, state.last_time]).collect();
        for time in asked {
            put_line(&mut out, &Line::AsOf { record, time });
        }
        for from in [0, times.last().copied().unwrap_or(1)] {
            put_line(
                &mut out,
                &Line::Changes {
                    record,
                    from,
                    to: state.last_time,
                    bytes: 31000,
                },
            );
        }
    }
    let time = state.last_time.saturating_add(1);
    put_line(&mut out, &Line::AsOf { record: 0, time });
    out
}

/// Some records that have versions, and two others.
fn records(state: &State, cache: &[u8]) -> BTreeSet<RecordNumber> {
    let used: BTreeSet<RecordNumber> = (0..state.next_slot)
        .map(|n| slot_record(slot(cache, n)))
        .collect();
    let unused = (0..=255).filter(|record| !used.contains(record));
    let others: Vec<RecordNumber> = unused.take(1).chain([255]).collect();
    let step = used.len().div_ceil(ASKED).max(1);
    used.into_iter().step_by(step).chain(others).collect()
}

/// The commit times of a record's versions.
fn times(state: &State, cache: &[u8], record: RecordNumber) -> Vec<u64> {
    let slots = (0..state.next_slot).map(|n| slot(cache, n));
    let own = slots.filter(|slot| slot_record(slot) == record);
    own.filter_map(|slot| state.time_of(slot_state(slot)))
        .collect()
}
