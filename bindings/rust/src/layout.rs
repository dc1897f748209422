//! The block in work as the library lays it out, field by field as in `include/garvolish.h`.

pub const JOBS: usize = 16;
pub const CELLS: usize = 256;
const INSTRUCTIONS: usize = 64;
const STACK: usize = 16;
/// Reads and writes of one job.
pub const FEW: usize = 8;

/// The instructions of a job, place by place. The operand of a PUSH stands in `pushed`, every other in `arguments`.
#[repr(C)]
#[derive(Clone, Copy, PartialEq, Eq)]
pub struct Job {
    pub codes: [u8; INSTRUCTIONS],
    pub arguments: [u8; INSTRUCTIONS],
    pub pushed: [u64; INSTRUCTIONS],
    pub size: u8,
}

/// The top stands at the height's end.
#[repr(C)]
#[derive(Clone, Copy, PartialEq, Eq)]
pub struct Stack {
    pub entries: [u64; STACK],
    pub height: u8,
}

#[repr(C)]
#[derive(Clone, Copy, PartialEq, Eq)]
pub struct State {
    pub place: u8,
    pub stack: Stack,
}

#[repr(C)]
#[derive(Clone, Copy, PartialEq, Eq)]
pub struct Entry {
    pub cell: u16,
    pub value: u64,
}

/// The writes of a job, in order.
#[repr(C)]
#[derive(Clone, Copy, PartialEq, Eq)]
pub struct Journal {
    pub entries: [Entry; FEW],
    pub size: u8,
}

/// The public versions of a job: each is the number of its journal entry.
#[repr(C)]
#[derive(Clone, Copy, PartialEq, Eq)]
pub struct Versions {
    pub numbers: [u8; FEW],
    pub size: u8,
}

#[repr(C)]
#[derive(Clone, Copy, PartialEq, Eq)]
pub struct Read {
    pub cell: u16,
    pub source: u8,
    pub value: u64,
}

/// The listed reads of a job, and the earliest marked one, 255 for none.
#[repr(C)]
#[derive(Clone, Copy, PartialEq, Eq)]
pub struct Reads {
    pub reads: [Read; FEW],
    pub size: u8,
    pub mark: u8,
}

/// The job as it was before a listed read.
#[repr(C)]
#[derive(Clone, Copy, PartialEq, Eq)]
pub struct Checkpoint {
    pub state: State,
    pub writes: u8,
    pub listed: u8,
}

/// Job k has ticket k + 1; its checkpoints stand from 8 * k on.
#[repr(C)]
#[derive(Clone, Copy, PartialEq, Eq)]
pub struct Block {
    pub start: [u64; CELLS],
    pub count: u8,
    pub jobs: [Job; JOBS],
    pub states: [State; JOBS],
    pub status: [u8; JOBS],
    pub journals: [Journal; JOBS],
    pub versions: [Versions; JOBS],
    pub reads: [Reads; JOBS],
    pub checkpoints: [Checkpoint; JOBS * FEW],
}

/// The sizes and alignments of C. Where the library does not link, nothing depends on them.
#[cfg(target_arch = "x86_64")]
const _: () = {
    use std::mem::{align_of, size_of};
    assert!(size_of::<Job>() == 648 && align_of::<Job>() == 8);
    assert!(size_of::<Stack>() == 136 && align_of::<Stack>() == 8);
    assert!(size_of::<State>() == 144 && align_of::<State>() == 8);
    assert!(size_of::<Entry>() == 16 && align_of::<Entry>() == 8);
    assert!(size_of::<Journal>() == 136 && align_of::<Journal>() == 8);
    assert!(size_of::<Versions>() == 9 && align_of::<Versions>() == 1);
    assert!(size_of::<Read>() == 16 && align_of::<Read>() == 8);
    assert!(size_of::<Reads>() == 136 && align_of::<Reads>() == 8);
    assert!(size_of::<Checkpoint>() == 152 && align_of::<Checkpoint>() == 8);
    assert!(size_of::<Block>() == 38696 && align_of::<Block>() == 8);
};
