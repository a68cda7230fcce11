//! Request #104, record numbers of two bytes: the store as it was before, and wrong ones. Each is a type,
//! as the wrong stores of `rules` are.

use crate::store::layout::*;
use crate::store::rules::Rules;

/// The store before the request: one byte in slots and records, tag 3 and a high byte are damage.
#[derive(Clone, Default)]
pub struct Before;
impl Rules for Before {
    const WIDTH: Width = Width::One;
    const RECORDS: RecordNumber = 256;

    fn slot_record(slot: &[u8]) -> RecordNumber {
        slot[1].into()
    }

    fn high_byte_fits(high: u8) -> bool {
        high == 0
    }

    fn get_record(block: &[u8], at: usize, used: usize) -> Option<Record> {
        get_record(block, at, used).filter(|_| block[at] != Width::Two.tag())
    }
}

/// Leaves the high byte of a slot zero.
#[derive(Clone, Default)]
pub struct HighNotWritten;
impl Rules for HighNotWritten {
    fn put_version(cache: &mut [u8], version: &Version, end: u64) {
        put_version(cache, version, end);
        cache[slot_at(version.slot as usize) + 3] = 0;
    }
}

/// Leaves the high byte of a record zero.
#[derive(Clone, Default)]
pub struct HighNotLogged;
impl Rules for HighNotLogged {
    fn put_record(block: &mut [u8], at: usize, record: &Record) {
        let mut record = *record;
        if let Record::Version(version) = &mut record {
            version.record %= 256;
        }
        put_record(block, at, &record);
    }
}

/// Takes the low byte of a slot for the record number.
#[derive(Clone, Default)]
pub struct HighNotRead;
impl Rules for HighNotRead {
    fn slot_record(slot: &[u8]) -> RecordNumber {
        slot[1].into()
    }
}

/// Takes 1,024.
#[derive(Clone, Default)]
pub struct OneMoreTaken;
impl Rules for OneMoreTaken {
    const RECORDS: RecordNumber = RECORDS + 1;
}

/// Writes tag 3 with the length of tag 1.
#[derive(Clone, Default)]
pub struct ShortLength;
impl Rules for ShortLength {
    fn put_record(block: &mut [u8], at: usize, record: &Record) {
        put_record(block, at, record);
        if let Record::Version(_) = record {
            put16(block, at + 1, 30);
        }
    }
}

/// Goes on to write tag 1.
#[derive(Clone, Default)]
pub struct OldTag;
impl Rules for OldTag {
    const WIDTH: Width = Width::One;
}

/// Asks 18 after 5.
#[derive(Clone, Default)]
pub struct NumberFirst;
impl Rules for NumberFirst {
    const NUMBER_FIRST: bool = true;
}

/// Asks 18 after 10.
#[derive(Clone, Default)]
pub struct TimeFirst;
impl Rules for TimeFirst {
    const TIME_FIRST: bool = true;
}

/// No longer reads tag 1.
#[derive(Clone, Default)]
pub struct TagOneRefused;
impl Rules for TagOneRefused {
    fn get_record(block: &[u8], at: usize, used: usize) -> Option<Record> {
        get_record(block, at, used).filter(|_| block[at] != Width::One.tag())
    }
}

/// Reads the kind of tag 1 as a high byte too.
#[derive(Clone, Default)]
pub struct KindAsHigh;
impl Rules for KindAsHigh {
    fn get_record(block: &[u8], at: usize, used: usize) -> Option<Record> {
        let mut record = get_record(block, at, used);
        if let Some(Record::Version(version)) = &mut record {
            if version.width == Width::One {
                version.record += 256 * RecordNumber::from(version.kind);
            }
        }
        record
    }
}
