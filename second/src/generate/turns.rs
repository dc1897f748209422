//! Random lists of turns that make jobs get in each other's way.

use crate::counts::{Table, Ticket};
use crate::engine::{Answer, Block};
use crate::instruction::Job;
use crate::random::Random;
use crate::session::MOST_TURNS;

/// A list of turns for these jobs, at times with bad tickets, at times to the very end.
pub fn random_turns(random: &mut Random, start: &Table, jobs: &[Job]) -> Vec<u8> {
    let total: usize = jobs.iter().map(Vec::len).sum();
    let count = random.between(0, 2 * total + 8);
    let mut turns = match random.below(10) {
        0 => uniform(random, jobs.len(), count),
        1 | 2 => bursts(random, jobs.len(), count),
        3 | 4 => highest_first(random, jobs),
        5 if random.chance(50) => Vec::new(),
        _ => chase(random, start, jobs, count),
    };
    if random.chance(80) {
        turns.extend(to_the_end(random, jobs));
    }
    if random.chance(15) {
        add_bad_tickets(random, jobs.len(), &mut turns);
    }
    turns.truncate(MOST_TURNS);
    turns
}

/// The ticket of one of so many jobs, as a byte.
fn some_ticket(random: &mut Random, jobs: usize) -> u8 {
    random.between(1, jobs) as u8
}

fn uniform(random: &mut Random, jobs: usize, count: usize) -> Vec<u8> {
    (0..count).map(|_| some_ticket(random, jobs)).collect()
}

/// Several turns in a row for one job, then for another.
fn bursts(random: &mut Random, jobs: usize, count: usize) -> Vec<u8> {
    let mut turns = Vec::new();
    while turns.len() < count {
        let ticket = some_ticket(random, jobs);
        let times = random.between(1, 12);
        turns.extend(std::iter::repeat_n(ticket, times));
    }
    turns
}

/// Each job to its end before the lower ones begin, so that every guess is too early; repeated.
fn highest_first(random: &mut Random, jobs: &[Job]) -> Vec<u8> {
    let mut turns = Vec::new();
    for _ in 0..random.between(1, 3) {
        for (index, job) in jobs.iter().enumerate().rev() {
            turns.extend(std::iter::repeat_n(index as u8 + 1, job.len() + 1));
        }
    }
    turns
}

/// Mostly turns that do something, with a liking for higher tickets: plays the block along.
fn chase(random: &mut Random, start: &Table, jobs: &[Job], count: usize) -> Vec<u8> {
    let mut block = Block::open(*start, jobs.to_vec(), None);
    let mut turns = Vec::new();
    let mut tries = 0;
    while turns.len() < count && tries < 2 * count {
        tries += 1;
        let ticket = some_ticket(random, jobs.len()).max(some_ticket(random, jobs.len()));
        let burst = random.between(1, 9);
        for _ in 0..burst {
            let answer = block.turn(Ticket(usize::from(ticket)));
            let nothing = matches!(answer, Answer::Idle | Answer::Wait | Answer::NoSuchTicket);
            if !nothing || random.chance(5) {
                turns.push(ticket);
            }
            if nothing || answer == Answer::End {
                break;
            }
        }
    }
    turns
}

/// Enough turns for every job to become final, in order; at times not one too many.
fn to_the_end(random: &mut Random, jobs: &[Job]) -> Vec<u8> {
    let spare = random.below(2);
    let mut turns = Vec::new();
    for (index, job) in jobs.iter().enumerate() {
        turns.extend(std::iter::repeat_n(index as u8 + 1, job.len() + 1 + spare));
    }
    turns
}

/// Ticket 0 and tickets above the number of jobs.
fn add_bad_tickets(random: &mut Random, jobs: usize, turns: &mut Vec<u8>) {
    for _ in 0..random.between(1, 5) {
        let after = jobs as u8 + 1;
        let bad = [0, after, random.between(jobs + 1, 255) as u8, 255];
        let at = random.below(turns.len() + 1);
        let ticket = random.pick(&bad);
        turns.insert(at, ticket);
    }
}
