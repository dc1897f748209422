//! A ticket, a cell number and a place in a job are three counts, never used for one another.

/// A job's number from 1 in paper order; as the source of a read, 0 is the start table.
#[derive(Clone, Copy, Debug, PartialEq, Eq, PartialOrd, Ord)]
pub struct Ticket(pub usize);

/// The number of one of the 256 cells; in an altered block it may be past them.
#[derive(Clone, Copy, Debug, PartialEq, Eq, PartialOrd, Ord)]
pub struct Cell(pub u16);

impl Cell {
    /// The 256 cells, rising.
    pub fn all() -> impl Iterator<Item = Cell> {
        (0..CELLS as u16).map(Cell)
    }

    /// The cell that a number from the stack names: the number modulo 256.
    pub fn named_by(number: u64) -> Cell {
        Cell((number % CELLS as u64) as u16)
    }

    /// Whether it is one of the 256.
    pub fn is_in_table(self) -> bool {
        self.index() < CELLS
    }

    /// Where the cell's value stands in a table.
    pub fn index(self) -> usize {
        usize::from(self.0)
    }
}

/// An instruction's number from 0 in its job.
#[derive(Clone, Copy, Debug, PartialEq, Eq, PartialOrd, Ord)]
pub struct Place(pub usize);

impl Place {
    /// The place after this one.
    pub fn next(self) -> Place {
        Place(self.0.saturating_add(1))
    }
}

/// So many cells in a table.
pub const CELLS: usize = 256;

/// A value for each of the 256 cells.
pub type Table = [u64; CELLS];
