//! A record's versions, found by following earlier slots, and the reads over them.

use crate::store::layout::*;
use crate::store::rules::Rules;
use crate::store::state::*;

/// What a read finds.
#[derive(Clone, Copy, PartialEq, Eq, Debug)]
pub enum Strip {
    None,
    Erased,
    Present(Value),
}

fn strip(slot: &[u8]) -> Strip {
    if slot[2] == ERASED {
        Strip::Erased
    } else {
        Strip::Present(slot_value(slot))
    }
}

/// The highest used slot below `next_slot` that holds this record.
pub fn newest<R: Rules>(cache: &[u8], next_slot: usize, record: RecordNumber) -> Option<usize> {
    let mut below = next_slot;
    while below > 0 {
        let page = (below - 1) / PAGE_SLOTS;
        let first = page * PAGE_SLOTS;
        let slots = &cache[slot_at(first)..slot_at(first) + (below - first) * SLOT_BYTES];
        let holds = |slot: &[u8]| R::slot_record(slot) == record && slot_state(slot) != Slot::Empty;
        if let Some(i) = slots.chunks_exact(SLOT_BYTES).rposition(holds) {
            return Some(first + i);
        }
        below = first;
    }
    None
}

/// Walks from a slot to its earlier ones as long as the slot number falls; an empty slot ends the walk.
pub struct Chain<'a> {
    cache: &'a [u8],
    at: Option<usize>,
}

impl<'a> Chain<'a> {
    pub fn from(cache: &'a [u8], newest: Option<usize>) -> Self {
        Chain { cache, at: newest }
    }
}

impl<'a> Iterator for Chain<'a> {
    type Item = (usize, &'a [u8]);

    fn next(&mut self) -> Option<Self::Item> {
        let n = self.at?;
        let slot = slot(self.cache, n);
        if slot_state(slot) == Slot::Empty {
            return None;
        }
        let earlier = get16(slot, 4) as usize;
        self.at = (earlier < n).then_some(earlier);
        Some((n, slot))
    }
}

/// The newest version that is committed or the reader's own.
pub fn current_read<R: Rules>(
    state: &State,
    medium: &[u8],
    cache: &[u8],
    number: u64,
    record: RecordNumber,
) -> Result<Strip, Refusal> {
    state.check_fit(medium, cache)?;
    check_record_and_number::<R>(state, record, number)?;
    let newest = newest::<R>(cache, state.next_slot, record);
    check_not_held(state, cache, newest, number)?;
    let found = Chain::from(cache, newest).find(|(_, slot)| {
        let version = slot_state(slot);
        version == Slot::Waiting(number) || state.time_of(version).is_some()
    });
    Ok(found.map_or(Strip::None, |(_, slot)| strip(slot)))
}

/// Question 18: is there such a record?
fn check_record<R: Rules>(record: RecordNumber) -> Result<(), Refusal> {
    if record < R::RECORDS {
        Ok(())
    } else {
        Err(NO_RECORD)
    }
}

/// Questions 18 and 5; answers the number's place.
pub fn check_record_and_number<R: Rules>(
    state: &State,
    record: RecordNumber,
    number: u64,
) -> Result<usize, Refusal> {
    let place = state.active_place(number);
    if R::NUMBER_FIRST {
        place?;
    }
    check_record::<R>(record)?;
    place
}

/// Question 6: a record is held while its newest version waits under another active number.
pub fn check_not_held(
    state: &State,
    cache: &[u8],
    newest: Option<usize>,
    own: u64,
) -> Result<(), Refusal> {
    let Some(n) = newest else { return Ok(()) };
    match slot_state(slot(cache, n)) {
        Slot::Waiting(number) if number != own && state.active_place(number).is_ok() => Err(HELD),
        _ => Ok(()),
    }
}

/// Question 10: is this time stored? What is answered then survives a cut.
fn check_stored<R: Rules>(state: &State, t: u64) -> Result<(), Refusal> {
    let last = if R::READ_UNSTORED {
        state.last_time
    } else {
        state.stored_time
    };
    if t > last {
        Err(TIME_AHEAD)
    } else {
        Ok(())
    }
}

/// Questions 18 and 10.
fn check_record_and_time<R: Rules>(
    state: &State,
    record: RecordNumber,
    t: u64,
) -> Result<(), Refusal> {
    let stored = check_stored::<R>(state, t);
    if R::TIME_FIRST {
        stored?;
    }
    check_record::<R>(record)?;
    stored
}

/// The version with the greatest time not above `t`, the later slot among equals.
pub fn as_of<R: Rules>(
    state: &State,
    medium: &[u8],
    cache: &[u8],
    record: RecordNumber,
    t: u64,
) -> Result<Strip, Refusal> {
    state.check_fit(medium, cache)?;
    check_record_and_time::<R>(state, record, t)?;
    let mut best: Option<(u64, &[u8])> = None;
    for (_, slot) in Chain::from(cache, newest::<R>(cache, state.next_slot, record)) {
        let Some(time) = state.time_of(slot_state(slot)) else {
            continue;
        };
        // The walk goes from later slots to earlier ones, so an equal time comes too late.
        if time <= t && best.is_none_or(|(greatest, _)| time > greatest) {
            best = Some((time, slot));
        }
    }
    Ok(best.map_or(Strip::None, |(_, slot)| strip(slot)))
}

/// Lists a record's changes from `t1` to `t2` into `answer`, and answers their number.
pub fn changes<R: Rules>(
    state: &State,
    medium: &[u8],
    cache: &[u8],
    record: RecordNumber,
    (t1, t2): (u64, u64),
    answer: &mut [u8],
) -> Result<usize, Refusal> {
    state.check_fit(medium, cache)?;
    check_record_and_time::<R>(state, record, t2)?;
    let mut versions = [(0u64, 0u16); MAX_SLOTS];
    let mut count = 0;
    for (n, slot) in Chain::from(cache, newest::<R>(cache, state.next_slot, record)) {
        if let Some(time) = state.time_of(slot_state(slot)) {
            versions[count] = (time, n as u16);
            count += 1;
        }
    }
    let versions = &mut versions[..count];
    versions.sort_unstable();
    let lines = visit_changes(cache, versions, (t1, t2), |_, _, _| ());
    if answer.len() < CHANGE_BYTES * lines {
        return Err(ANSWER_SHORT);
    }
    visit_changes(cache, versions, (t1, t2), |line, time, slot| {
        let bytes = &mut answer[line * CHANGE_BYTES..(line + 1) * CHANGE_BYTES];
        put64(bytes, 0, time);
        bytes[8] = slot[2];
        bytes[9..16].fill(0);
        bytes[16..32].copy_from_slice(&slot[16..32]);
    });
    Ok(lines)
}

/// Shows each line to be listed, from versions sorted by time and slot.
fn visit_changes(
    cache: &[u8],
    versions: &[(u64, u16)],
    (t1, t2): (u64, u64),
    mut show: impl FnMut(usize, u64, &[u8]),
) -> usize {
    let mut lines = 0;
    let mut before: Option<&[u8]> = None;
    for (i, &(time, n)) in versions.iter().enumerate() {
        if versions.get(i + 1).is_some_and(|&(next, _)| next == time) {
            continue;
        }
        let slot = slot(cache, n as usize);
        let differs = before.is_none_or(|old| old[2] != slot[2] || old[16..32] != slot[16..32]);
        if differs && t1 <= time && time <= t2 {
            show(lines, time, slot);
            lines += 1;
        }
        before = Some(slot);
    }
    lines
}
