//! The bench's scripts of one call, over a medium filled to a given size.

use crate::bench::filler::{Filler, Size};
use crate::script::machine::{Line, MAX_BUFFER};
use crate::script::put_line;
use crate::store::layout::*;

/// So many versions of the last page wait under a number that stays open.
const OPEN_VERSIONS: usize = 7;
/// So many full pages before the last one are not stored, so that their commits are live.
const UNSTORED_PAGES: usize = 3;
/// Transactions of one version that a log block holds.
const BLOCK_TRANSACTIONS: usize = (BLOCK - LOG_HEADER) / (VERSION_BYTES + COMMIT_BYTES);

/// Fills a medium of that size and then makes the call so many times. The letters are those of the
/// script language; `M` asks for a block that is not there, `Z` is a page store's damage alone.
pub fn growth_script(size: Size, letter: u8, calls: u64) -> Option<Vec<u8>> {
    let mut filler = Filler::new(size);
    filler.fill();
    let lines = filler.lines(letter)?;
    for _ in 0..calls {
        for line in &lines {
            put_line(&mut filler.out, line);
        }
    }
    Some(filler.out)
}

impl Filler {
    /// Transactions of one version each; the log is full at the end, but for a block or so.
    fn fill(&mut self) {
        let Size {
            log_blocks, pages, ..
        } = self.size;
        self.format();
        let transactions = self.slots() - OPEN_VERSIONS;
        for n in 0..transactions {
            if transactions - n == (log_blocks - 2) * BLOCK_TRANSACTIONS || !self.has_room() {
                self.make_room();
            }
            self.commit(n);
            let page = n / PAGE_SLOTS;
            if n % PAGE_SLOTS == PAGE_SLOTS - 1 && page + 1 + UNSTORED_PAGES < pages {
                self.store_log();
                self.store_changed_page(page);
            }
        }
        if log_blocks == 2 {
            self.make_room();
        }
        let number = self.call(Line::Begin { clock: 0 });
        for n in transactions..self.slots() {
            self.write(number, n);
        }
        self.store_log();
    }

    /// What is repeated. A page store finds a byte to change because the medium was damaged.
    fn lines(&self, letter: u8) -> Option<Vec<Line>> {
        let last = self.state().stored_time;
        let page = self.size.pages - 1;
        let end = BLOCK * (1 + page_block(page, self.size.log_blocks));
        let poke = Line::Poke {
            offset: end as u64 - 1,
            byte: 255,
        };
        Some(match letter {
            b'O' => vec![Line::Open { fill: 0 }],
            b'Q' => vec![Line::AsOf {
                record: 0,
                time: last / 2,
            }],
            b'L' => vec![Line::Changes {
                record: 0,
                from: 0,
                to: last,
                bytes: MAX_BUFFER.min((CHANGE_BYTES * (self.size.chain + PAGE_SLOTS)) as u64),
            }],
            b'P' => vec![poke, Line::StorePage { page: page as u64 }],
            b'Z' => vec![poke],
            b'M' => vec![Line::ShowBlock { block: 4096 }],
            _ => return None,
        })
    }
}
