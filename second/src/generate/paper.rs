//! Random papers: sound ones, and ones nearly right.

use super::job::{sound_job, Taste};
use super::spoil::{draft_bytes, job_drafts, spoil_field, Draft};
use crate::field::HEAD_BYTES;
use crate::instruction::{Job, MOST_INSTRUCTIONS, MOST_JOBS};
use crate::random::Random;

/// The refusals that faults aim at, those inside a job more often; 12 stands for any change.
const AIMS: [usize; 20] = [
    2, 3, 4, 5, 5, 6, 6, 7, 7, 8, 8, 9, 9, 9, 10, 10, 10, 11, 11, 12,
];

/// The paper with this number of a seed.
pub fn random_paper(seed: u64, item: u64) -> Vec<u8> {
    let mut random = Random::new(seed, item);
    let jobs = sound_jobs(&mut random);
    let mut drafts = job_drafts(&jobs);
    if random.chance(20) {
        return draft_bytes(&drafts);
    }
    for _ in 0..random.pick(&[1, 1, 1, 2, 2, 3, 4]) {
        let number = random.pick(&AIMS);
        spoil_field(&mut random, &mut drafts, number);
    }
    let mut paper = draft_bytes(&drafts);
    if random.chance(15) {
        break_framing(&mut random, &mut paper);
    }
    paper
}

/// Sound jobs of all lengths, at times as many and as large as may be.
pub fn sound_jobs(random: &mut Random) -> Vec<Job> {
    let maximal = random.chance(10);
    let taste = Taste {
        cells: vec![0, 1, 2, 255, 256, 1 << 40],
        values: vec![0, 1, 2, 7, u64::MAX],
        longest: random.pick(&[3, 8, 16, 40, MOST_INSTRUCTIONS]),
        abandons: 30,
        maximal,
    };
    let count = match random.below(10) {
        0 => MOST_JOBS,
        1 => random.between(0, MOST_JOBS),
        _ => random.between(1, 4),
    };
    (0..count).map(|_| sound_job(random, &taste)).collect()
}

/// Drafts of sound jobs with one to four faults in them, none in tags.
pub fn spoiled_drafts(random: &mut Random) -> Vec<Draft> {
    let jobs = sound_jobs(random);
    let mut drafts = job_drafts(&jobs);
    for _ in 0..random.pick(&[1, 1, 2, 3, 4]) {
        // Not 2, which in a session would be 13.
        let number = random.pick(&AIMS[1..]);
        spoil_field(random, &mut drafts, number);
    }
    drafts
}

/// Cuts the end, adds to it, or changes a byte of the first head.
fn break_framing(random: &mut Random, paper: &mut Vec<u8>) {
    match random.below(4) {
        0 => paper.truncate(random.below(paper.len() + 1)),
        1 => {
            let cut = random.between(1, HEAD_BYTES + 1);
            paper.truncate(paper.len().saturating_sub(cut));
        }
        2 => paper.extend(std::iter::repeat_n(0x10, random.between(1, 6))),
        _ => {
            let at = random.below(HEAD_BYTES);
            if let Some(byte) = paper.get_mut(at) {
                *byte = random.next() as u8;
            }
        }
    }
}
