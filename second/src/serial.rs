//! The serial run: job after job, each alone on the table that those before it left.

use crate::counts::{Cell, Table};
use crate::instruction::{Code, Instruction, Job};
use crate::machine::{cell_to_read, run, State, Write};

/// The tables after the first 0, 1, 2, .. jobs: entry f is the serial run of the first f.
/// None if some job gets stuck, which no checked job does.
pub fn serial_tables(start: &Table, jobs: &[Job]) -> Option<Vec<Table>> {
    let mut tables = vec![*start];
    let mut table = *start;
    for job in jobs {
        for write in run_alone(job, &table)? {
            table[write.cell.index()] = write.value;
        }
        tables.push(table);
    }
    Some(tables)
}

/// The writes that a job alone applies to the table: all in order for STOP, none for ABANDON.
fn run_alone(job: &[Instruction], table: &Table) -> Option<Vec<Write>> {
    let mut state = State::fresh();
    let mut writes = Vec::new();
    // Jumps lead to later places, so no run is longer than its job.
    for _ in 0..job.len() {
        let instruction = *job.get(state.place.0)?;
        if instruction.is(Code::Stop) {
            return Some(writes);
        }
        if instruction.is(Code::Abandon) {
            return Some(Vec::new());
        }
        let found = cell_to_read(instruction, &state).map_or(0, |cell| {
            last_write(&writes, cell).unwrap_or(table[cell.index()])
        });
        let (after, write) = run(instruction, &state, found)?;
        writes.extend(write);
        state = after;
    }
    None
}

/// The value of the last write of a cell.
fn last_write(writes: &[Write], cell: Cell) -> Option<u64> {
    let last = writes.iter().rev().find(|write| write.cell == cell)?;
    Some(last.value)
}
