//! Papers from instructions, and random papers that pass.

/// Codes of 01's table.
pub const STOP: u8 = 0;
pub const ABANDON: u8 = 1;
pub const PUSH: u8 = 2;
pub const POP: u8 = 3;
pub const ADD: u8 = 6;
pub const READ: u8 = 10;
pub const WRITE: u8 = 11;
pub const JUMP: u8 = 12;
pub const JUMPZERO: u8 = 13;

/// An instruction's code and operand.
pub type Instruction = (u8, u64);

/// Writes 7 to cell 5.
pub const WRITER: [Instruction; 4] = [(PUSH, 7), (PUSH, 5), (WRITE, 0), (STOP, 0)];
/// Copies cell 5 to cell 6.
pub const READER: [Instruction; 5] = [(PUSH, 5), (READ, 0), (PUSH, 6), (WRITE, 0), (STOP, 0)];

/// The paper of these jobs.
pub fn paper(jobs: &[&[Instruction]]) -> Vec<u8> {
    jobs.iter().flat_map(|job| field(job)).collect()
}

/// A job's field: tag, length, instructions.
fn field(job: &[Instruction]) -> Vec<u8> {
    let contents: Vec<u8> = job.iter().flat_map(bytes).collect();
    let length = u16::try_from(contents.len()).expect("a field's length");
    [&[0x10], &length.to_le_bytes()[..], &contents].concat()
}

/// An instruction's nine bytes.
fn bytes(&(code, operand): &Instruction) -> Vec<u8> {
    [&[code], &operand.to_le_bytes()[..]].concat()
}

/// Numbers that look random and are the same at every run.
pub struct Random(pub u64);

impl Random {
    /// A number below the limit.
    pub fn below(&mut self, limit: u64) -> u64 {
        let multiplied = self.0.wrapping_mul(6_364_136_223_846_793_005);
        self.0 = multiplied.wrapping_add(1_442_695_040_888_963_407);
        // The low bits repeat soon.
        (self.0 >> 33) % limit
    }

    /// A paper of 1 to 16 jobs that passes, over few cells, so that jobs meet there.
    pub fn paper(&mut self) -> Vec<u8> {
        let jobs = 1 + self.below(16);
        (0..jobs).flat_map(|_| field(&self.job())).collect()
    }

    /// Tickets of a block with so many jobs.
    pub fn tickets(&mut self, jobs: u8, count: usize) -> Vec<u8> {
        let jobs = u64::from(jobs);
        (0..count).map(|_| 1 + self.below(jobs) as u8).collect()
    }

    /// A job that reads and writes a few cells, and ends in one of two ways by what it has read.
    fn job(&mut self) -> Vec<Instruction> {
        let mut job = vec![(PUSH, self.below(100))];
        for _ in 0..=self.below(7) {
            job.extend(self.move_on());
        }
        let end = job.len() as u64 + 2;
        job.extend([(JUMPZERO, end), (STOP, 0), (ABANDON, 0)]);
        job
    }

    /// Instructions that find an entry and leave one: they add a cell to it, or write it and read.
    fn move_on(&mut self) -> Vec<Instruction> {
        let (to, from) = (self.below(6), self.below(6));
        let read = [(PUSH, from), (READ, 0)];
        match self.below(2) {
            0 => [&read[..], &[(ADD, 0)]].concat(),
            _ => [&[(PUSH, to), (WRITE, 0)], &read[..]].concat(),
        }
    }
}
