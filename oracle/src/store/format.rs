//! Formatting: a new history on the medium.

use crate::store::layout::*;
use crate::store::state::*;

pub fn format(medium: &mut [u8], log_blocks: u64, pages: u64) -> Result<(), Refusal> {
    if !sizes_in_range(log_blocks, pages)
        || medium.len() != medium_bytes(log_blocks as usize, pages as usize)
    {
        return Err(SIZES);
    }
    medium.fill(0);
    let sizes = (log_blocks as usize, pages as usize);
    block_mut(medium, 0).copy_from_slice(&master(sizes, 1, 1, 0));
    Ok(())
}
