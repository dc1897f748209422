//! The calls of the library, each behind a safe function. All `unsafe` of this package stands here.
//!
//! The library asks nothing but pointers that point to what their types say, as many elements as
//! the length beside them, and no overlap with what it writes. References and slices are such
//! pointers. It answers for all bytes behind them, and keeps none of them after a call.
#![allow(unsafe_code)]

use crate::layout::Block;
use std::mem::MaybeUninit;

extern "C" {
    fn garvolish_open(
        block: *mut Block,
        start: *const u64,
        cells: usize,
        paper: *const u8,
        length: usize,
    ) -> u32;
    fn garvolish_turn(block: *mut Block, ticket: u8) -> u32;
    fn garvolish_take_turns(
        block: *mut Block,
        tickets: *const u8,
        count: usize,
        words: *mut u8,
        bytes: usize,
    ) -> u32;
    fn garvolish_settled(block: *const Block, table: *mut u64, cells: usize) -> u32;
    fn garvolish_run_serially(
        start: *const u64,
        start_cells: usize,
        output: *mut u64,
        output_cells: usize,
        paper: *const u8,
        length: usize,
    ) -> u32;
    fn garvolish_version() -> u32;
    /// Whoever changes the block's layout raises the number here.
    #[cfg(target_arch = "x86_64")]
    #[link_name = "garvolish_layout_1"]
    fn garvolish_layout() -> u32;
}

/// Has the symbol needed, so that nothing links with an archive of another layout. Elsewhere the
/// tests link without an archive, to say that they are ignored.
#[cfg(target_arch = "x86_64")]
#[used]
static LAYOUT_NEEDED: unsafe extern "C" fn() -> u32 = garvolish_layout;

/// A block of no jobs on an all-zero table.
// SAFETY: a block is integers alone, and zero is a value of each.
pub const NOTHING_OPEN: Block = unsafe { MaybeUninit::zeroed().assume_init() };

/// Opens a paper on a start table.
pub fn open(block: &mut Block, start: &[u64], paper: &[u8]) -> u32 {
    let (cells, length) = (start.len(), paper.len());
    // SAFETY: only the block is written, which is borrowed alone; each slice has its own length.
    unsafe { garvolish_open(block, start.as_ptr(), cells, paper.as_ptr(), length) }
}

/// Gives a ticket one turn.
pub fn turn(block: &mut Block, ticket: u8) -> u32 {
    // SAFETY: the block is borrowed alone.
    unsafe { garvolish_turn(block, ticket) }
}

/// Gives each ticket its turn, and writes a byte for each.
pub fn take_turns(block: &mut Block, tickets: &[u8], words: &mut [u8]) -> u32 {
    let (count, bytes) = (tickets.len(), words.len());
    // SAFETY: block and words are written and borrowed alone; each slice has its own length.
    unsafe { garvolish_take_turns(block, tickets.as_ptr(), count, words.as_mut_ptr(), bytes) }
}

/// Writes the settled table.
pub fn settled(block: &Block, table: &mut [u64]) -> u32 {
    // SAFETY: only the table is written, which is borrowed alone and has its own length.
    unsafe { garvolish_settled(block, table.as_mut_ptr(), table.len()) }
}

/// Runs all jobs of a paper one after another, and writes the output table.
pub fn run_serially(start: &[u64], output: &mut [u64], paper: &[u8]) -> u32 {
    let (start_cells, output_cells) = (start.len(), output.len());
    let (start, output) = (start.as_ptr(), output.as_mut_ptr());
    let (paper, length) = (paper.as_ptr(), paper.len());
    // SAFETY: only the output is written, which is borrowed alone; each slice has its own length.
    unsafe { garvolish_run_serially(start, start_cells, output, output_cells, paper, length) }
}

/// The version of the archive.
pub fn version() -> u32 {
    // SAFETY: nothing is handed over.
    unsafe { garvolish_version() }
}

/// The bytes of a block, as the archive has it.
#[cfg(all(test, target_arch = "x86_64"))]
pub fn block_size() -> u32 {
    // SAFETY: nothing is handed over.
    unsafe { garvolish_layout() }
}
