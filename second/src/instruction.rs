//! The fourteen instructions: their codes, names, operands, and what they do to the stack's height.

use crate::counts::Place;
use std::fmt;

/// At most so many jobs in a block.
pub const MOST_JOBS: usize = 16;
/// At most so many instructions in a job.
pub const MOST_INSTRUCTIONS: usize = 64;
/// At most so many entries on a stack.
pub const MOST_ENTRIES: usize = 16;
/// At most so many READ instructions in a job, hence as many listed reads.
pub const MOST_READS: usize = 8;
/// At most so many WRITE instructions in a job, hence as many journal entries.
pub const MOST_WRITES: usize = 8;
/// An instruction on paper: its code, then an operand of 8 bytes.
pub const INSTRUCTION_BYTES: usize = 9;

/// What an instruction does; its number on paper is its place in this list.
#[derive(Clone, Copy, Debug, PartialEq, Eq)]
pub enum Code {
    Stop,
    Abandon,
    Push,
    Pop,
    Dup,
    Swap,
    Add,
    Sub,
    Less,
    Equal,
    Read,
    Write,
    Jump,
    JumpZero,
}

/// Every code with its name, in the order of their numbers.
pub const CODES: [(Code, &str); 14] = [
    (Code::Stop, "STOP"),
    (Code::Abandon, "ABANDON"),
    (Code::Push, "PUSH"),
    (Code::Pop, "POP"),
    (Code::Dup, "DUP"),
    (Code::Swap, "SWAP"),
    (Code::Add, "ADD"),
    (Code::Sub, "SUB"),
    (Code::Less, "LESS"),
    (Code::Equal, "EQUAL"),
    (Code::Read, "READ"),
    (Code::Write, "WRITE"),
    (Code::Jump, "JUMP"),
    (Code::JumpZero, "JUMPZERO"),
];

impl Code {
    /// Whether the operand's column says something other than 0.
    pub fn takes_operand(self) -> bool {
        matches!(self, Code::Push | Code::Dup | Code::Swap) || self.is_jump()
    }

    /// Whether the operand is a place.
    pub fn is_jump(self) -> bool {
        matches!(self, Code::Jump | Code::JumpZero)
    }

    /// Whether the instruction leads to the next place.
    pub fn leads_on(self) -> bool {
        !matches!(self, Code::Stop | Code::Abandon | Code::Jump)
    }
}

/// One instruction as it stands on paper, sound or not.
#[derive(Clone, Copy, Debug, PartialEq, Eq)]
pub struct Instruction {
    pub code: u8,
    pub operand: u64,
}

/// The instructions of one job, in the order of their places.
pub type Job = Vec<Instruction>;

impl Instruction {
    /// The instruction with this code and operand.
    pub fn new(code: Code, operand: u64) -> Instruction {
        Instruction {
            code: code as u8,
            operand,
        }
    }

    /// Its code; none if the number is above 13.
    pub fn code(self) -> Option<Code> {
        CODES.get(usize::from(self.code)).map(|(code, _)| *code)
    }

    /// Whether it has this code.
    pub fn is(self, code: Code) -> bool {
        self.code() == Some(code)
    }

    /// Whether its operand keeps to its column, at this place of a job so long.
    pub fn operand_fits(self, place: Place, length: usize) -> bool {
        match self.code() {
            Some(Code::Push) => true,
            Some(Code::Dup | Code::Swap) => (1..=15).contains(&self.operand),
            Some(Code::Jump | Code::JumpZero) => {
                self.operand > place.0 as u64 && self.operand < length as u64
            }
            _ => self.operand == 0,
        }
    }

    /// The entries it must find on the stack.
    pub fn needs(self) -> u64 {
        match self.code() {
            Some(Code::Pop | Code::Read | Code::JumpZero) => 1,
            Some(Code::Add | Code::Sub | Code::Less | Code::Equal | Code::Write) => 2,
            Some(Code::Dup) => self.operand,
            Some(Code::Swap) => self.operand.saturating_add(1),
            _ => 0,
        }
    }

    /// The height it leaves, given a height with the entries it needs.
    pub fn leaves(self, height: u64) -> u64 {
        match self.code() {
            Some(Code::Push | Code::Dup) => height.saturating_add(1),
            Some(Code::Pop | Code::JumpZero) => height.saturating_sub(1),
            Some(Code::Add | Code::Sub | Code::Less | Code::Equal) => height.saturating_sub(1),
            Some(Code::Write) => height.saturating_sub(2),
            _ => height,
        }
    }

    /// The places it leads to from this place, in a job it fits into.
    pub fn leads_to(self, place: Place) -> Vec<Place> {
        let mut places = Vec::new();
        if self.code().is_some_and(Code::leads_on) {
            places.push(place.next());
        }
        if self.code().is_some_and(Code::is_jump) {
            places.push(Place(usize::try_from(self.operand).unwrap_or(usize::MAX)));
        }
        places
    }

    /// The nine bytes on paper.
    pub fn to_bytes(self) -> [u8; INSTRUCTION_BYTES] {
        let mut bytes = [self.code; INSTRUCTION_BYTES];
        bytes[1..].copy_from_slice(&self.operand.to_le_bytes());
        bytes
    }
}

/// As the text form has it, a jump's place as a number.
impl fmt::Display for Instruction {
    fn fmt(&self, out: &mut fmt::Formatter<'_>) -> fmt::Result {
        let Instruction { code, operand } = self;
        match CODES.get(usize::from(*code)) {
            None => write!(out, "CODE {code} {operand}"),
            Some((known, name)) if *operand == 0 && !known.takes_operand() => {
                write!(out, "{name}")
            }
            Some((_, name)) => write!(out, "{name} {operand}"),
        }
    }
}

/// The instructions that contents hold, nine bytes each; a rest of fewer bytes is none.
pub fn job_from(contents: &[u8]) -> Job {
    contents
        .chunks_exact(INSTRUCTION_BYTES)
        .map(|bytes| Instruction {
            code: bytes[0],
            operand: low_byte_first(&bytes[1..]),
        })
        .collect()
}

/// Whether contents are nothing but whole instructions.
pub fn is_whole_job(contents: &[u8]) -> bool {
    contents
        .chunks_exact(INSTRUCTION_BYTES)
        .remainder()
        .is_empty()
}

/// The bytes on paper of a job's instructions.
pub fn job_bytes(job: &[Instruction]) -> Vec<u8> {
    job.iter()
        .flat_map(|instruction| instruction.to_bytes())
        .collect()
}

/// The number that up to 8 bytes give, low byte first.
pub fn low_byte_first(bytes: &[u8]) -> u64 {
    bytes
        .iter()
        .rev()
        .fold(0, |number, byte| (number << 8) | u64::from(*byte))
}
