//! The tests. What must come out is 01's own text, or what the second program prints.

mod altered;
mod header;
mod layout;
mod paper;
mod refusals;
mod second;
mod serial;
mod session;
mod session_s;
mod stack;
mod version;

use crate::{Block, Refusal, CELLS};

/// A table whose cells are 0 but for these.
fn table(cells: &[(usize, u64)]) -> [u64; CELLS] {
    let mut table = [0; CELLS];
    for &(cell, value) in cells {
        table[cell] = value;
    }
    table
}

/// A block of a paper that passes, all cells 0.
fn opened(paper: &[u8]) -> Block {
    Block::open(&table(&[]), paper).expect("a paper that passes")
}

/// Gives turns of which none is refused.
fn give(block: &mut Block, tickets: &[u8]) {
    let words = block.give_turns(tickets);
    assert!(words.iter().all(Option::is_some), "{words:?}");
}

/// The settled table and f.
fn settled(block: &Block) -> ([u64; CELLS], u8) {
    let mut table = [0; CELLS];
    let f = block.settled(&mut table).expect("a block that fits");
    (table, f)
}

/// A refusal with a number, a field and a place.
fn refusal(number: u8, field: u8, place: u8) -> Refusal {
    Refusal {
        number,
        field,
        place,
    }
}
