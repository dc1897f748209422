//! The proved engine of the storage box, from Rust.
//!
//! A [`Block`] is opened from a start table of 256 cells and the bytes of a paper. Its tickets get
//! their turns in any order, and its settled table is the serial run of its final jobs. Whatever is
//! handed in, the answer is a value or a [`Refusal`] with document 01's number; nothing panics.
//!
#![cfg_attr(target_arch = "x86_64", doc = "```")]
#![cfg_attr(not(target_arch = "x86_64"), doc = "```ignore")]
//! use garvolish::{Block, Refusal, Word};
//!
//! # fn main() -> Result<(), Refusal> {
//! // One job of one instruction, STOP.
//! let paper = [0x10, 9, 0, 0, 0, 0, 0, 0, 0, 0, 0, 0];
//! let mut block = Block::open(&[3; 256], &paper)?;
//! assert_eq!(block.turn(1), Ok(Word::End));
//! assert_eq!(block.turn(1), Ok(Word::Final));
//! assert_eq!(block.turn(2).map_err(|refusal| refusal.number), Err(14));
//!
//! let mut table = [0; 256];
//! let f = block.settled(&mut table)?;
//! assert_eq!((f, table), (1, [3; 256]));
//! # Ok(())
//! # }
//! ```
//!
//! Half a megabyte of stack is enough for any call. The library links on x86-64 only; elsewhere
//! this package can be checked and not linked, and its tests are ignored.

mod block;
mod layout;
mod raw;
mod refusal;
mod version;
mod word;

#[cfg(all(test, target_arch = "x86_64"))]
mod tests;

#[cfg(all(test, not(target_arch = "x86_64")))]
#[test]
#[ignore = "there is no archive for this processor"]
fn calls_of_the_library() {
    panic!("the library is x86-64 code");
}

pub use block::{run_serially, Block};
pub use layout::CELLS;
pub use refusal::Refusal;
pub use version::{version, VERSION};
pub use word::{Word, REFUSED_TURN};
