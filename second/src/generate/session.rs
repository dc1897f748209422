//! Random sessions: contended blocks, maximal ones, refused ones, malformed ones, and sizes
//! around the limit.

use super::job::{sound_job, Taste};
use super::malformed::BREACHES;
use super::paper::{sound_jobs, spoiled_drafts};
use super::spoil::{draft_bytes, job_drafts, Draft};
use super::trouble::trouble;
use super::turns::random_turns;
use crate::counts::Table;
use crate::field::{CELL_TAG, HEAD_BYTES, JOB_TAG, TURNS_TAG};
use crate::instruction::{Job, MOST_INSTRUCTIONS, MOST_JOBS};
use crate::random::Random;
use crate::session::{MOST_BYTES, MOST_TURNS};
use std::collections::BTreeMap;

/// The start values that a session names.
pub type Starts = BTreeMap<u8, u64>;

/// The session with this number of a seed.
pub fn random_session(seed: u64, item: u64) -> Vec<u8> {
    let random = &mut Random::new(seed, item);
    match random.below(100) {
        0..=64 => contended(random),
        65..=69 => maximal(random),
        70..=82 => refused(random),
        83..=95 => malformed(random),
        _ => around_the_limit(random),
    }
}

/// A block with its start values and turns.
#[derive(Default)]
pub struct Contest {
    pub starts: Starts,
    pub jobs: Vec<Job>,
    pub turns: Vec<u8>,
}

/// A session of jobs that get in each other's way.
fn contended(random: &mut Random) -> Vec<u8> {
    most_contended(random).map_or(Vec::new(), |one| {
        session_bytes(&one.starts, job_drafts(&one.jobs), one.turns)
    })
}

/// Of a few random contests the one with the most trouble.
pub fn most_contended(random: &mut Random) -> Option<Contest> {
    let count = random.pick(&[1, 2, 2, 3, 3, 3, 4, 5, 8, MOST_JOBS]);
    let contests = (0..random.pick(&[1, 6])).map(|_| contest(random, count));
    let score = |one: &Contest| trouble(&table_of(&one.starts), &one.jobs, &one.turns);
    contests.max_by_key(score)
}

/// Few cells, few values, short jobs: each gets in the others' way.
fn contest(random: &mut Random, count: usize) -> Contest {
    let cells = (0..random.between(1, 6)).map(|_| match random.below(8) {
        0 => random.next(),
        1 => 255,
        other => other as u64,
    });
    let taste = Taste {
        cells: cells.collect(),
        values: vec![0, 0, 1, 1, 2, 7, u64::MAX],
        longest: random.pick(&[12, 16, 20, 24, 32, 48]),
        abandons: random.pick(&[0, 20, 50, 80]),
        maximal: false,
    };
    let jobs: Vec<Job> = (0..count).map(|_| sound_job(random, &taste)).collect();
    let starts = start_values(random, &taste.cells);
    let turns = random_turns(random, &table_of(&starts), &jobs);
    Contest {
        starts,
        jobs,
        turns,
    }
}

/// 16 jobs of 64 instructions with 8 READ and 8 WRITE, and many turns.
fn maximal(random: &mut Random) -> Vec<u8> {
    let taste = Taste {
        cells: vec![0, 1, 2, 3, 255],
        values: vec![0, 1, 2, 3, u64::MAX],
        longest: MOST_INSTRUCTIONS,
        abandons: 30,
        maximal: true,
    };
    let jobs: Vec<Job> = (0..MOST_JOBS).map(|_| sound_job(random, &taste)).collect();
    let cells: Vec<u64> = (0..=255).collect();
    let starts = start_values(random, &cells);
    let mut turns = random_turns(random, &table_of(&starts), &jobs);
    if random.chance(30) {
        turns.resize_with(MOST_TURNS, || random.between(1, MOST_JOBS) as u8);
    }
    session_bytes(&starts, job_drafts(&jobs), turns)
}

/// A block with faults, or the rare one whose faults made no difference.
fn refused(random: &mut Random) -> Vec<u8> {
    let drafts = spoiled_drafts(random);
    let starts = start_values(random, &[0, 1, 9]);
    let turns = (0..random.below(40)).map(|_| random.between(0, drafts.len() + 1) as u8);
    let turns = turns.collect();
    session_bytes(&starts, drafts, turns)
}

/// A breach, with a sound block or a faulty one.
fn malformed(random: &mut Random) -> Vec<u8> {
    let block = match random.chance(30) {
        true => spoiled_drafts(random),
        false => job_drafts(&sound_jobs(random)),
    };
    let starts = start_values(random, &[0, 1, 9, 200]);
    let turns = (0..random.below(9))
        .map(|_| random.below(4) as u8)
        .collect();
    let breach = random.pick(&BREACHES);
    breach(random, session_drafts(&starts, block, turns))
}

/// Inputs of about 16,384 bytes, which only a refused block can reach.
fn around_the_limit(random: &mut Random) -> Vec<u8> {
    let cells: Vec<u64> = (0..=255).collect();
    let starts = start_values(random, &cells);
    let jobs = sound_jobs(random);
    let turns = vec![1; random.below(MOST_TURNS + 1)];
    let mut drafts = session_drafts(&starts, job_drafts(&jobs), turns);
    let size = random.pick(&[MOST_BYTES - 1, MOST_BYTES, MOST_BYTES + 1, MOST_BYTES + 700]);
    let missing = size.saturating_sub(draft_bytes(&drafts).len() + HEAD_BYTES);
    let before_turns = drafts.len() - 1;
    let filler = Draft {
        tag: JOB_TAG,
        contents: vec![0; missing],
    };
    drafts.insert(before_turns, filler);
    draft_bytes(&drafts)
}

/// Start values for some of the cells, at times an explicit 0.
fn start_values(random: &mut Random, cells: &[u64]) -> Starts {
    let mut starts = Starts::new();
    let often = random.pick(&[0, 30, 60, 100]);
    for cell in cells {
        if random.chance(often) {
            let value = random.pick(&[0, 1, 1, 2, 3, 7, 1 << 63, u64::MAX]);
            starts.insert((*cell % 256) as u8, value);
        }
    }
    starts
}

/// The start table, in which unnamed cells are 0.
pub fn table_of(starts: &Starts) -> Table {
    let mut table = [0; 256];
    for (cell, value) in starts {
        table[usize::from(*cell)] = *value;
    }
    table
}

/// The fields of a session, the 0x02 field last.
fn session_drafts(starts: &Starts, block: Vec<Draft>, turns: Vec<u8>) -> Vec<Draft> {
    let mut drafts = Vec::new();
    for (cell, value) in starts {
        let mut contents = vec![*cell];
        contents.extend(value.to_le_bytes());
        let tag = CELL_TAG;
        drafts.push(Draft { tag, contents });
    }
    drafts.extend(block);
    drafts.push(Draft {
        tag: TURNS_TAG,
        contents: turns,
    });
    drafts
}

/// The bytes of a session.
fn session_bytes(starts: &Starts, block: Vec<Draft>, turns: Vec<u8>) -> Vec<u8> {
    draft_bytes(&session_drafts(starts, block, turns))
}
