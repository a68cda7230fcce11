//! Where each row of the book lies in the log, and the pages that follow from the rows.
//!
//! A second way to the store's refusals and page bytes, from rows alone.

use crate::judge::book::{Book, Row};
use crate::store::layout::*;
use std::collections::{HashMap, HashSet};

#[derive(Clone)]
pub struct Shadow {
    log_blocks: usize,
    /// The end place of each row's record.
    ends: Vec<u64>,
    sequence: u64,
    used: usize,
}

impl Shadow {
    pub fn new(log_blocks: usize) -> Self {
        Shadow {
            log_blocks,
            ends: Vec::new(),
            sequence: 1,
            used: LOG_HEADER,
        }
    }

    pub fn fits_tail(&self, bytes: usize) -> bool {
        self.used + bytes <= BLOCK
    }

    pub fn tail_is_empty(&self) -> bool {
        self.used == LOG_HEADER
    }

    pub fn has_room(&self, medium: &[u8], bytes: usize) -> bool {
        let oldest = get64(medium, MASTER_OLDEST);
        self.fits_tail(bytes) || self.sequence + 1 < oldest + self.log_blocks as u64
    }

    /// A row was added whose record has this many bytes.
    pub fn add(&mut self, bytes: usize) {
        if !self.fits_tail(bytes) {
            self.sequence += 1;
            self.used = LOG_HEADER;
        }
        self.used += bytes;
        self.ends.push(end_place(self.sequence, self.used));
    }

    /// Unstored rows went; the tail is the last stored row's block, or empty under the oldest.
    pub fn cut(&mut self, stored: usize, medium: &[u8]) {
        self.ends.truncate(stored);
        let oldest = get64(medium, MASTER_OLDEST);
        let last = self.ends.last().copied().unwrap_or(0);
        let sequence = last.saturating_sub(1) / BLOCK as u64;
        (self.sequence, self.used) = if sequence >= oldest {
            (sequence, (last - sequence * BLOCK as u64) as usize)
        } else {
            (oldest, LOG_HEADER)
        };
    }

    /// Committed numbers with a version not stamped on the medium.
    pub fn live_commits(&self, book: &Book, medium: &[u8]) -> usize {
        let pages = &medium[page_block(0, self.log_blocks) * BLOCK..];
        let unstamped = book.slots().enumerate().filter(|(n, found)| {
            let on_medium = slot_state(slot(pages, *n));
            found.time.is_some() && !matches!(on_medium, Slot::Stamped(_))
        });
        let numbers: HashSet<u64> = unstamped.map(|(_, found)| found.number).collect();
        numbers.len()
    }

    /// The row of the last version in a page.
    pub fn last_row_of_page(&self, book: &Book, page: usize) -> Option<usize> {
        let versions = book.rows().iter().enumerate();
        let rows = versions.filter_map(|(i, row)| matches!(row, Row::Version { .. }).then_some(i));
        rows.skip(page * PAGE_SLOTS).take(PAGE_SLOTS).last()
    }

    /// The page as a store of it leaves it: stamped where the commit row is stored.
    pub fn page(&self, book: &Book, page: usize) -> [u8; BLOCK] {
        let mut bytes = [0; BLOCK];
        let mut newest = HashMap::new();
        for (n, found) in book.slots().take((page + 1) * PAGE_SLOTS).enumerate() {
            let earlier = newest.insert(found.record, n as u16).unwrap_or(NO_SLOT);
            if n / PAGE_SLOTS < page {
                continue;
            }
            bytes[8] = (n % PAGE_SLOTS + 1) as u8;
            let at = PAGE_HEADER + n % PAGE_SLOTS * SLOT_BYTES;
            let slot = &mut bytes[at..at + SLOT_BYTES];
            let commit = book.commit_of(found.number);
            let stamp = commit.filter(|&(row, _)| row < book.stored());
            slot[0] = if stamp.is_some() { 2 } else { 1 };
            [slot[1], slot[3]] = found.record.to_le_bytes();
            slot[2] = found.kind;
            put16(slot, 4, earlier);
            put64(slot, 8, stamp.map_or(found.number, |(_, time)| time));
            slot[16..].copy_from_slice(&found.value);
        }
        if let Some(row) = self.last_row_of_page(book, page) {
            put64(&mut bytes, 0, self.ends[row]);
        }
        bytes
    }
}
