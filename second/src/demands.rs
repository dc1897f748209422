//! What must hold after every turn of every accepted session, checked in the second program.

use crate::checker::verdict;
use crate::counts::{Table, Ticket};
use crate::engine::{Answer, Block};
use crate::machine::{cell_to_read, run, State, Write};
use crate::serial::serial_tables;
use crate::session::split_session;
use crate::work::{JobInWork, Phase};

/// What is counted beside the block while the turns are given.
struct Watch {
    /// The serial run of the first 0, 1, 2, .. jobs.
    serial: Vec<Table>,
    /// The `final` words so far.
    finals: usize,
    /// For each job, its turns since all lower tickets were final.
    turns_since: Vec<usize>,
}

/// The first demand that playing the session breaks, in words; none if all hold.
pub fn broken_demand(input: &[u8]) -> Option<String> {
    let session = split_session(input)?;
    let jobs = verdict(session.paper).ok()?;
    let Some(serial) = serial_tables(&session.start, &jobs) else {
        return Some("the serial run is stuck".to_string());
    };
    let mut watch = Watch {
        serial,
        finals: 0,
        turns_since: vec![0; jobs.len()],
    };
    let mut block = Block::open(session.start, jobs, None);
    for (turn, &ticket) in session.turns.iter().enumerate() {
        let ticket = Ticket(usize::from(ticket));
        watch.before_turn(&block, ticket);
        let answer = block.turn(ticket);
        if let Some(broken) = watch.after_turn(&block, ticket, answer) {
            return Some(format!(
                "turn {} for ticket {}: {broken}",
                turn + 1,
                ticket.0
            ));
        }
    }
    None
}

impl Watch {
    /// Counts the turn if all lower tickets are final.
    fn before_turn(&mut self, block: &Block, ticket: Ticket) {
        let lower_final = block.final_jobs() + 1 >= ticket.0;
        let index = ticket.0.checked_sub(1);
        if let Some(count) = index.and_then(|index| self.turns_since.get_mut(index)) {
            *count += usize::from(lower_final);
        }
    }

    /// The demand that the block breaks after a turn with this answer.
    fn after_turn(
        &mut self,
        block: &Block,
        ticket: Ticket,
        answer: Answer,
    ) -> Option<&'static str> {
        self.finals += usize::from(answer == Answer::Final);
        let f = block.final_jobs();
        let (first, others) = block.jobs.split_at(f.min(block.jobs.len()));
        let is_final = |job: &JobInWork| job.phase == Phase::Final;
        if answer == Answer::Stuck {
            return Some("a turn answers 20");
        }
        if f != self.finals {
            return Some("f is not the number of final words");
        }
        if !first.iter().all(is_final) || others.iter().any(is_final) {
            return Some("the final jobs are not a prefix");
        }
        if self.serial.get(f) != Some(&block.settled()) {
            return Some("the settled table is not the serial run of the first f jobs");
        }
        let index = ticket.0.checked_sub(1)?;
        let job = block.jobs.get(index)?;
        if self.turns_since[index] > job.code.len() && job.phase != Phase::Final {
            return Some("L + 1 turns after all lower tickets were final it is not final");
        }
        if !job.is_marked() && !is_run_on_list(job) {
            return Some("place, stack and journal are not those of a run on its list of reads");
        }
        None
    }
}

/// Whether place, stack and journal are those of a run from the start on the listed values.
fn is_run_on_list(job: &JobInWork) -> bool {
    let mut state = State::fresh();
    let mut journal: Vec<Write> = Vec::new();
    while state.place < job.state.place {
        let Some(instruction) = job.code.get(state.place.0).copied() else {
            return false;
        };
        let found = cell_to_read(instruction, &state).map_or(Some(0), |cell| {
            let written = journal.iter().rfind(|write| write.cell == cell);
            written.map(|write| write.value).or(job.listed_value(cell))
        });
        let Some((after, write)) = found.and_then(|found| run(instruction, &state, found)) else {
            return false;
        };
        journal.extend(write);
        state = after;
    }
    state == job.state && journal == job.journal
}
