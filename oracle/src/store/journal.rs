//! The log: its tail in memory, and storing it.

use crate::store::layout::*;
use crate::store::pages;
use crate::store::rules::Rules;
use crate::store::state::*;

pub fn empty_tail(sequence: u64) -> [u8; BLOCK] {
    let mut tail = [0; BLOCK];
    put64(&mut tail, 0, sequence);
    put16(&mut tail, 8, LOG_HEADER as u16);
    tail
}

/// Question 8: does the tail or a next block take a record of this many bytes?
pub fn check_room(state: &State, medium: &[u8], bytes: usize) -> Result<(), Refusal> {
    if state.tail_used + bytes <= BLOCK {
        return Ok(());
    }
    let next = state.tail_sequence + 1;
    let oldest = get64(medium, MASTER_OLDEST);
    if next < oldest.saturating_add(state.log_blocks as u64) && next < SEQUENCE_LIMIT {
        Ok(())
    } else {
        Err(LOG_FULL)
    }
}

/// Appends a record that has room, and answers its end place.
///
/// When it begins the next block, all before it counts as stored from then on.
pub fn append<R: Rules>(state: &mut State, medium: &mut [u8], record: &Record) -> u64 {
    if state.tail_used + record.bytes() > BLOCK {
        store_tail(state, medium);
        state.tail_sequence += 1;
        state.tail_used = LOG_HEADER;
        state.tail = empty_tail(state.tail_sequence);
    }
    R::put_record(&mut state.tail, state.tail_used, record);
    state.tail_used += record.bytes();
    put16(&mut state.tail, 8, state.tail_used as u16);
    end_place(state.tail_sequence, state.tail_used)
}

fn store_tail(state: &mut State, medium: &mut [u8]) {
    let index = log_block(state.tail_sequence, state.log_blocks);
    block_mut(medium, index).copy_from_slice(&state.tail);
    state.stored_end = end_place(state.tail_sequence, state.tail_used);
    state.stored_time = state.last_time;
}

/// The questions of storing the log.
pub fn check_store(state: &State, medium: &[u8], cache: &[u8]) -> Result<(), Refusal> {
    state.check_fit(medium, cache)?;
    let index = log_block(state.tail_sequence, state.log_blocks);
    if block(medium, index) == state.tail {
        return Err(NO_CHANGE);
    }
    Ok(())
}

pub fn store_log<R: Rules>(
    state: &mut State,
    medium: &mut [u8],
    cache: &mut [u8],
) -> Result<(), Refusal> {
    check_store(state, medium, cache)?;
    store_tail(state, medium);
    if R::DROP_WHEN_CACHED {
        pages::stamp_cache_and_drop(state, cache);
    }
    Ok(())
}
