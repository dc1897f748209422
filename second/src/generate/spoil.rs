//! Faults put into sound papers: each aims at one refusal, and several may meet.

use crate::field::{field_bytes, JOB_TAG};
use crate::instruction::{
    job_bytes, job_from, Code, Instruction, Job, CODES, INSTRUCTION_BYTES, MOST_INSTRUCTIONS,
    MOST_JOBS,
};
use crate::random::Random;

/// A field before it is written.
#[derive(Clone, Debug, PartialEq, Eq)]
pub struct Draft {
    pub tag: u8,
    pub contents: Vec<u8>,
}

/// The bytes of drafts; contents too long for a length are cut.
pub fn draft_bytes(drafts: &[Draft]) -> Vec<u8> {
    let cut = |draft: &Draft| {
        let length = draft.contents.len().min(65_535);
        field_bytes(draft.tag, &draft.contents[..length]).unwrap_or_default()
    };
    drafts.iter().flat_map(cut).collect()
}

/// The drafts of sound jobs.
pub fn job_drafts(jobs: &[Job]) -> Vec<Draft> {
    let draft = |job: &Job| Draft {
        tag: JOB_TAG,
        contents: job_bytes(job),
    };
    jobs.iter().map(draft).collect()
}

/// Puts in a fault that aims at this refusal, 2 to 11, in a random field.
pub fn spoil_field(random: &mut Random, drafts: &mut Vec<Draft>, number: usize) {
    if number == 3 {
        return too_many_jobs(random, drafts);
    }
    let index = random.below(drafts.len());
    let Some(draft) = drafts.get_mut(index) else {
        return;
    };
    match number {
        2 => draft.tag = random.pick(&[0x00, 0x01, 0x02, 0x0f, 0x11, 0x90, 0xff]),
        4 => wrong_length(random, &mut draft.contents),
        _ => {
            let mut job = job_from(&draft.contents);
            let rest = draft.contents.split_off(job.len() * INSTRUCTION_BYTES);
            spoil_job(random, &mut job, number);
            draft.contents = job_bytes(&job);
            draft.contents.extend(rest);
        }
    }
}

/// Copies of fields that are there, up to a seventeenth or beyond.
fn too_many_jobs(random: &mut Random, drafts: &mut Vec<Draft>) {
    let jobs = MOST_JOBS + random.between(1, 3);
    while !drafts.is_empty() && drafts.len() < jobs {
        let copied = random.below(drafts.len());
        drafts.push(drafts[copied].clone());
    }
}

/// Length 0, over 576, or not a multiple of 9.
fn wrong_length(random: &mut Random, contents: &mut Vec<u8>) {
    let longest = MOST_INSTRUCTIONS * INSTRUCTION_BYTES;
    match random.below(4) {
        0 => contents.clear(),
        1 => contents.resize(longest + INSTRUCTION_BYTES * random.between(1, 4), 0),
        2 => {
            let cut = random.between(1, INSTRUCTION_BYTES - 1);
            contents.truncate(contents.len().saturating_sub(cut));
        }
        _ => contents.extend(std::iter::repeat_n(
            0,
            random.between(1, INSTRUCTION_BYTES - 1),
        )),
    }
}

/// Puts in a fault that aims at refusal 5 to 11.
fn spoil_job(random: &mut Random, job: &mut Job, number: usize) {
    if job.is_empty() {
        return;
    }
    let place = random.below(job.len());
    match number {
        5 => job[place].code = random.pick(&[14, 15, 16, 128, 255]),
        6 => wrong_operand(random, job, place),
        7 => lead_on(random, job),
        8 => cut_off(random, job, place),
        9 => wrong_height(random, job, place),
        10 => two_heights(random, job, place),
        11 => many_accesses(random, job),
        _ => job[place] = any_instruction(random, place, job.len()),
    }
}

/// An operand outside its column, with some that only their high bytes betray.
fn wrong_operand(random: &mut Random, job: &mut Job, place: usize) {
    let length = job.len() as u64;
    let here = place as u64;
    // PUSH takes any operand, so another instruction comes in its place.
    if job[place].is(Code::Push) {
        job[place].code = random.pick(&[Code::Pop, Code::Dup, Code::Swap, Code::Jump]) as u8;
    }
    job[place].operand = match job[place].code() {
        Some(Code::Dup | Code::Swap) => random.pick(&[0, 16, 17, 257, 1 << 32, u64::MAX]),
        Some(Code::Jump | Code::JumpZero) => {
            random.pick(&[here, 0, length, length + 1, (1 << 32) + here + 1, u64::MAX])
        }
        _ => random.pick(&[1, 2, 255, 256, 1 << 32, 1 << 63, u64::MAX]),
    };
}

/// A last instruction that would lead on.
fn lead_on(random: &mut Random, job: &mut Job) {
    let codes = [Code::Pop, Code::Add, Code::Read, Code::Write, Code::Push];
    let last = Instruction::new(random.pick(&codes), 0);
    if random.chance(50) || job.len() >= MOST_INSTRUCTIONS {
        job.pop();
    }
    job.push(last);
}

/// A place that nothing leads to.
fn cut_off(random: &mut Random, job: &mut Job, place: usize) {
    let later = random.between(place + 2, place + 4) as u64;
    let ending = match random.below(3) {
        0 => Instruction::new(Code::Stop, 0),
        1 => Instruction::new(Code::Abandon, 0),
        _ => Instruction::new(Code::Jump, later),
    };
    match random.chance(50) {
        true => job[place] = ending,
        false => insert(job, place, ending),
    }
}

/// Too few entries, or too many.
fn wrong_height(random: &mut Random, job: &mut Job, place: usize) {
    let deep = random.between(1, 15) as u64;
    match random.below(4) {
        0 => job[place] = Instruction::new(Code::Dup, deep),
        1 => job[place] = Instruction::new(Code::Swap, deep),
        2 => {
            for _ in 0..random.between(4, 17) {
                insert(job, place, Instruction::new(Code::Push, 0));
            }
        }
        _ => {
            let codes = [Code::Pop, Code::Add, Code::Less, Code::Read, Code::Write];
            job[place] = Instruction::new(random.pick(&codes), 0);
        }
    }
}

/// A jump past a PUSH, or an old jump that leads elsewhere.
fn two_heights(random: &mut Random, job: &mut Job, place: usize) {
    let later = random.between(place + 1, job.len()) as u64;
    if job[place].code().is_some_and(Code::is_jump) {
        job[place].operand = later;
        return;
    }
    let codes = [
        (Code::Push, 0),
        (Code::JumpZero, later + 2),
        (Code::Push, 1),
    ];
    for (code, operand) in codes.into_iter().rev() {
        insert(job, place, Instruction::new(code, operand));
    }
}

/// More READ or WRITE instructions, as many as may make a ninth; at times with an operand.
fn many_accesses(random: &mut Random, job: &mut Job) {
    let reads = random.chance(50);
    for _ in 0..random.between(6, 10) {
        let place = random.below(job.len());
        let operand = u64::from(random.chance(3));
        if reads {
            insert(job, place, Instruction::new(Code::Read, operand));
            insert(job, place, Instruction::new(Code::Push, 3));
        } else {
            insert(job, place, Instruction::new(Code::Write, operand));
            insert(job, place, Instruction::new(Code::Push, 3));
            insert(job, place, Instruction::new(Code::Push, 3));
        }
    }
}

/// Puts an instruction before a place if there is room; jumps past it go one further.
fn insert(job: &mut Job, place: usize, instruction: Instruction) {
    if job.len() >= MOST_INSTRUCTIONS {
        return;
    }
    for jump in job.iter_mut() {
        let is_jump = jump.code().is_some_and(Code::is_jump);
        if is_jump && jump.operand > place as u64 {
            jump.operand = jump.operand.saturating_add(1);
        }
    }
    job.insert(place, instruction);
}

/// Any instruction at all, its operand most often in its column.
fn any_instruction(random: &mut Random, place: usize, length: usize) -> Instruction {
    let (code, _) = random.pick(&CODES);
    let operand = match code {
        Code::Push => random.next(),
        Code::Dup | Code::Swap => random.between(1, 4) as u64,
        Code::Jump | Code::JumpZero => random.between(place + 1, length) as u64,
        _ => 0,
    };
    Instruction::new(code, operand)
}
