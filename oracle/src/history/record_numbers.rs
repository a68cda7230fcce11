//! Random record numbers: around the places where a byte turns over, and some that no record has.

use crate::handover::Handover;
use crate::random::Random;
use crate::script::machine::Line;
use crate::store::layout::{RecordNumber, RECORDS};

/// Some of them share a low byte.
const NEAR: [RecordNumber; 12] = [255, 256, 1023, 0, 511, 767, 512, 1, 257, 768, 1022, 254];
/// No record has these numbers; their low bytes are those of some that do.
const OUTSIDE: [RecordNumber; 5] = [1024, 1024, 1025, 1279, 65535];

/// Mostly one of so many records, now and then any other, or a number that no record has.
pub fn draw(random: &mut Random, records: u64) -> RecordNumber {
    match random.below(40) {
        0 => random.below(RECORDS.into()) as RecordNumber,
        1 | 2 => random.pick(&OUTSIDE).copied().unwrap_or(RECORDS),
        3 => random.below(1 << 16) as RecordNumber,
        _ => in_use(random.below(records) as usize),
    }
}

/// The same before request #104, when a record number had one byte.
pub fn draw_old(random: &mut Random, records: u64) -> RecordNumber {
    let limit = if random.percent(5) { 256 } else { records };
    random.below(limit) as RecordNumber
}

/// First those above, then four to each low byte.
fn in_use(i: usize) -> RecordNumber {
    match NEAR.get(i) {
        Some(&record) => record,
        None => (i / 4 + i % 4 * 256) as RecordNumber,
    }
}

/// Does a line write a record whose number takes two bytes?
pub fn writes_high(line: &Line) -> bool {
    match *line {
        Line::Write { record, .. } | Line::Erase { record, .. } => record > 255,
        Line::Hand(Handover { flight, .. }) => flight > 255,
        _ => false,
    }
}
