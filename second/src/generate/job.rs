//! Random jobs that pass the checker: statements and branches whose heights meet.

use crate::checker::verdict;
use crate::field::{field_bytes, JOB_TAG};
use crate::instruction::{
    job_bytes, Code, Instruction, Job, MOST_ENTRIES, MOST_INSTRUCTIONS, MOST_READS, MOST_WRITES,
};
use crate::random::Random;

/// What the jobs of one block are like.
pub struct Taste {
    /// The cell numbers they fight over; above 255 too, for the modulo.
    pub cells: Vec<u64>,
    /// The values they push; few, so that equal values and zeros are common.
    pub values: Vec<u64>,
    /// At most so many instructions.
    pub longest: usize,
    /// How often in a hundred an ending is ABANDON.
    pub abandons: usize,
    /// Whether every job has 64 instructions, 8 READ and 8 WRITE.
    pub maximal: bool,
}

/// The longest statement that is not a branch.
const LONGEST_STATEMENT: usize = 8;
/// Statements start at most so high, for none needs more than three entries of room.
const HIGHEST_START: usize = 12;
/// Branches inside branches, at most.
const DEEPEST: usize = 3;

struct Writer<'a> {
    random: &'a mut Random,
    taste: &'a Taste,
    code: Job,
    height: usize,
    reads: usize,
    writes: usize,
}

/// A random job that passes the checker.
pub fn sound_job(random: &mut Random, taste: &Taste) -> Job {
    let mut writer = Writer {
        random,
        taste,
        code: Vec::new(),
        height: 0,
        reads: 0,
        writes: 0,
    };
    let length = writer.random.between(1, taste.longest);
    match writer.random.below(100) {
        _ if taste.maximal => writer.maximal(),
        0..=39 if taste.longest > 2 * LONGEST_STATEMENT => writer.bold(taste.longest - 1),
        _ => writer.body(length - 1, 0),
    }
    writer.ending(taste.abandons / 4);
    let job = writer.code;
    retarget(random, job)
}

/// A job of 64 instructions whose stack, list of reads and journal all get full: it reads 8
/// distinct cells, and holds some entries when its journal is full.
pub fn full_job(random: &mut Random) -> Job {
    let first = random.below(200) as u64;
    let mut job = Vec::new();
    for cell in first..first + MOST_READS as u64 {
        job.push(Instruction::new(Code::Push, cell));
        job.push(Instruction::new(Code::Read, 0));
    }
    for pushes in [MOST_ENTRIES - MOST_READS, MOST_WRITES / 2] {
        let values = (0..pushes).map(|_| random.pick(&[first, first + 1, 7, 300]));
        job.extend(values.map(|value| Instruction::new(Code::Push, value)));
        job.extend([Instruction::new(Code::Write, 0); MOST_WRITES / 2]);
    }
    job.push(Instruction::new(Code::Jump, job.len() as u64 + 1));
    while job.len() < MOST_INSTRUCTIONS - 1 {
        let code = if job.len() % 2 == 0 {
            Code::Pop
        } else {
            Code::Push
        };
        job.push(Instruction::new(code, 0));
    }
    job.push(Instruction::new(Code::Stop, 0));
    job
}

/// Aims some jumps elsewhere where the job passes all the same, so that not all are nested.
fn retarget(random: &mut Random, job: Job) -> Job {
    let mut sound = job;
    for _ in 0..3 {
        let place = random.below(sound.len());
        let mut other = sound.clone();
        if other[place].code().is_some_and(Code::is_jump) {
            other[place].operand = random.between(place + 1, sound.len() - 1) as u64;
        }
        if passes(&other) {
            sound = other;
        }
    }
    sound
}

/// Whether a job alone is a paper that passes.
fn passes(job: &[Instruction]) -> bool {
    field_bytes(JOB_TAG, &job_bytes(job)).is_some_and(|paper| verdict(&paper).is_ok())
}

impl Writer<'_> {
    /// Adds an instruction and follows height and counts.
    fn put(&mut self, code: Code, operand: u64) {
        let instruction = Instruction::new(code, operand);
        self.height = instruction.leaves(self.height as u64) as usize;
        self.reads += usize::from(code == Code::Read);
        self.writes += usize::from(code == Code::Write);
        self.code.push(instruction);
    }

    /// Makes the jump at this place lead to the next instruction.
    fn aim_here(&mut self, jump: usize) {
        self.code[jump].operand = self.code.len() as u64;
    }

    /// Statements of at most so many instructions, which leave the height as it was.
    fn body(&mut self, budget: usize, depth: usize) {
        let end = self.code.len() + budget;
        let base = self.height;
        loop {
            let used = self.code.len() + base.abs_diff(self.height) + 1;
            let enough = depth > 0 && self.random.chance(30);
            if used + LONGEST_STATEMENT > end || enough {
                break;
            }
            self.statement(end - used, depth);
        }
        while self.height > base {
            self.put(Code::Pop, 0);
        }
        while self.height < base {
            self.push_value();
        }
    }

    /// One statement of at most `room` instructions; changes the height by at most one.
    fn statement(&mut self, room: usize, depth: usize) {
        if self.height > HIGHEST_START {
            return self.put(Code::Pop, 0);
        }
        match self.random.below(100) {
            0..=17 => self.read(),
            18..=29 => self.write_value(),
            30..=41 => self.write_top(),
            42..=49 => self.count_up(),
            50..=64 => self.guarded(Writer::write_value),
            65..=72 => self.guarded(|writer| writer.ending(writer.taste.abandons)),
            73..=87 if depth < DEEPEST && room > 10 => self.branch(room, depth),
            _ => self.stack_play(),
        }
    }

    fn push_value(&mut self) {
        let value = self.random.pick(&self.taste.values);
        self.put(Code::Push, value);
    }

    fn push_cell(&mut self) {
        let cell = self.random.pick(&self.taste.cells);
        self.put(Code::Push, cell);
    }

    /// Reads a cell, at times the one that the value on top names.
    fn read(&mut self) {
        if self.reads >= MOST_READS {
            return self.push_value();
        }
        if self.height == 0 || self.random.chance(90) {
            self.push_cell();
        }
        self.put(Code::Read, 0);
    }

    fn write_value(&mut self) {
        if self.writes < MOST_WRITES {
            self.push_value();
            self.push_cell();
            self.put(Code::Write, 0);
        }
    }

    fn write_top(&mut self) {
        if self.height == 0 {
            return self.write_value();
        }
        if self.writes < MOST_WRITES {
            self.push_cell();
            self.put(Code::Write, 0);
        }
    }

    /// Adds to a cell: the usual way for jobs to depend on each other.
    fn count_up(&mut self) {
        if self.reads >= MOST_READS || self.writes >= MOST_WRITES {
            return self.stack_play();
        }
        let cell = self.random.pick(&self.taste.cells);
        self.put(Code::Push, cell);
        self.put(Code::Read, 0);
        self.push_value();
        self.put(Code::Add, 0);
        self.put(Code::Push, cell);
        self.put(Code::Write, 0);
    }

    /// One instruction that touches the stack only.
    fn stack_play(&mut self) {
        let two = [Code::Add, Code::Sub, Code::Less, Code::Equal];
        match self.random.below(6) {
            0 if self.height >= 1 => self.put(Code::Pop, 0),
            1 if self.height >= 1 => {
                let entry = self.random.between(1, self.height.min(15));
                self.put(Code::Dup, entry as u64);
            }
            2 if self.height >= 2 => {
                let below = self.random.between(1, self.height - 1);
                self.put(Code::Swap, below as u64);
            }
            3 | 4 if self.height >= 2 => {
                let code = self.random.pick(&two);
                self.put(code, 0);
            }
            _ => self.push_value(),
        }
    }

    /// STOP, or so often in a hundred ABANDON.
    fn ending(&mut self, abandons: usize) {
        let abandons = self.random.chance(abandons);
        self.put(if abandons { Code::Abandon } else { Code::Stop }, 0);
    }

    /// Something done only if a cell just read is not zero, or only if it is.
    fn guarded(&mut self, act: impl Fn(&mut Self)) {
        self.read();
        if self.random.chance(40) {
            self.put(Code::Push, 0);
            self.put(Code::Equal, 0);
        }
        let jump = self.code.len();
        self.put(Code::JumpZero, 0);
        act(self);
        self.aim_here(jump);
    }

    /// A branch on a value, most often one just read, with more inside.
    fn branch(&mut self, room: usize, depth: usize) {
        if self.height == 0 || self.random.chance(70) {
            self.read();
        }
        let jump = self.code.len();
        self.put(Code::JumpZero, 0);
        let part = room.saturating_sub(5) / 2;
        self.body(part, depth + 1);
        if self.random.chance(30) {
            self.ending(self.taste.abandons);
            return self.aim_here(jump);
        }
        let over = self.code.len();
        self.put(Code::Jump, 0);
        self.aim_here(jump);
        self.body(part, depth + 1);
        self.aim_here(over);
    }

    /// Writes first and reads afterwards whether it should have: what it made public may have to
    /// be withdrawn, or be replaced by a later entry, after going back to a read in between.
    fn bold(&mut self, longest: usize) {
        for _ in 0..self.random.between(1, 2) {
            self.write_value();
        }
        for _ in 0..self.random.between(1, 4) {
            if self.code.len() + LONGEST_STATEMENT > longest {
                return;
            }
            match self.random.below(5) {
                0 | 1 => self.guarded(|writer| writer.ending(writer.taste.abandons)),
                2 | 3 => self.guarded(Writer::write_value),
                _ => self.count_up(),
            }
        }
    }

    /// All but the last instruction of a job with 64 instructions, 8 READ and 8 WRITE.
    fn maximal(&mut self) {
        // What is left for it after 16 accesses of at most three instructions and the ending.
        self.body(MOST_INSTRUCTIONS - 1 - 3 * (MOST_READS + MOST_WRITES), 0);
        while self.reads < MOST_READS || self.writes < MOST_WRITES {
            if self.height > HIGHEST_START {
                self.put(Code::Pop, 0);
            }
            match self.random.chance(50) {
                true if self.reads < MOST_READS => self.read(),
                _ if self.writes < MOST_WRITES => self.write_top(),
                _ => self.read(),
            }
        }
        while self.code.len() < MOST_INSTRUCTIONS - 1 {
            match self.height < 16 {
                true => self.stack_play(),
                false => self.put(Code::Pop, 0),
            }
        }
    }
}
