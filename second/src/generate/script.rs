//! Random scripts of calls, every second of which alters the block in work. A script plays itself
//! as it is written, so that every alteration is one that the block has.

use super::alterations::{consequence, undoing, Chooser};
use super::job::full_job;
use super::paper::{sound_jobs, spoiled_drafts};
use super::session::{most_contended, table_of, Contest};
use super::spoil::{draft_bytes, job_drafts};
use crate::calls::alteration::{Alteration, Part};
use crate::calls::call::Call;
use crate::calls::lengths::Length;
use crate::calls::player::Player;
use crate::counts::{Ticket, CELLS};
use crate::random::Random;

/// A script goes on until it has at least so many calls.
const FEWEST_CALLS: usize = 40;
/// After so many calls on a block that does not fit, it is put right.
const PATIENCE: usize = 6;
/// The lengths of tables that are refused.
const WRONG_LENGTHS: [usize; 4] = [0, 255, 257, 300];

struct Script<'a> {
    random: &'a mut Random,
    player: Player,
    text: String,
    calls: usize,
    /// The block's start values, jobs and turns that are still to come.
    contest: Contest,
    /// What puts right the alterations, the last one last.
    undos: Vec<Alteration>,
    /// The calls since the block no longer fits.
    broken_for: usize,
}

/// Script number `item` of a seed; those with odd numbers alter.
pub fn random_script(seed: u64, item: u64) -> String {
    let random = &mut Random::new(seed, item);
    let calls = random.between(FEWEST_CALLS + 5, 2 * FEWEST_CALLS);
    let mut script = Script {
        random,
        player: Player::new(),
        text: format!("# script {item} of seed {seed}\n"),
        calls: 0,
        contest: Contest::default(),
        undos: Vec::new(),
        broken_for: 0,
    };
    script.open();
    while script.calls < calls {
        script.passage(item % 2 == 1);
    }
    script.finish();
    script.text
}

impl Script<'_> {
    /// Plays a call and writes it down, if it is one.
    fn call(&mut self, call: Call) -> bool {
        if self.player.play(&call).is_err() {
            return false;
        }
        self.text += &format!("{call}\n");
        self.calls += 1;
        self.broken_for = match self.player.block.fits() {
            true => 0,
            false => self.broken_for + 1,
        };
        true
    }

    /// Opens a block of jobs that get in each other's way, at times with one that fills its lists.
    fn open(&mut self) {
        if let Some(contest) = most_contended(self.random) {
            self.contest = contest;
        }
        self.undos.clear();
        let full = self.random.chance(25);
        let job = self.random.below(self.contest.jobs.len());
        if full {
            self.contest.jobs[job] = full_job(self.random);
        }
        let (start, paper) = (self.start(CELLS), self.paper());
        self.call(Call::Open { start, paper });
        if full {
            // Its list is full after 16 turns, its stack after 24, its journal after 36.
            let turns = self.random.pick(&[3, 16, 18, 20, 24, 36, 37, 38]);
            self.list(vec![job as u8 + 1; turns]);
        }
    }

    /// The start table, cut or filled up to a length.
    fn start(&self, length: usize) -> Vec<u64> {
        let mut start = table_of(&self.contest.starts).to_vec();
        start.resize(length, 9);
        start
    }

    fn paper(&self) -> Vec<u8> {
        draft_bytes(&job_drafts(&self.contest.jobs))
    }

    /// One or a few calls that belong together.
    fn passage(&mut self, alters: bool) {
        if self.broken_for > PATIENCE {
            return self.mend();
        }
        if self.player.block.final_jobs() == self.contest.jobs.len() && self.random.chance(50) {
            return self.open();
        }
        match self.random.below(100) {
            0..=39 if alters => self.alter_and_look(),
            0..=44 => self.single_turns(),
            45..=69 => self.some_list(),
            70..=74 => self.wrong_list(),
            75..=84 => self.settled(),
            85..=89 => self.serial(),
            90..=95 => self.bad_ticket(),
            _ => self.refused_opening(),
        }
    }

    /// The next turn of the contest; when they are used up, one for any job.
    fn next_turn(&mut self) -> u8 {
        match self.contest.turns.is_empty() || self.random.chance(10) {
            true => self.random.between(1, self.contest.jobs.len()) as u8,
            false => self.contest.turns.remove(0),
        }
    }

    fn single_turns(&mut self) {
        for _ in 0..self.random.between(1, 6) {
            let ticket = self.next_turn();
            self.call(Call::Turn(ticket));
        }
    }

    /// A list of turns with room for as many answers.
    fn list(&mut self, tickets: Vec<u8>) {
        let length = tickets.len();
        self.call(Call::Turns { tickets, length });
    }

    fn some_list(&mut self) {
        let most = (self.contest.turns.len() / 8).max(4);
        let count = self.random.between(0, most);
        let mut tickets: Vec<u8> = (0..count).map(|_| self.next_turn()).collect();
        if self.random.chance(20) {
            let bad = self.bad_byte();
            tickets.push(bad);
        }
        self.list(tickets);
    }

    /// A list of turns with too much room or too little.
    fn wrong_list(&mut self) {
        let jobs = self.contest.jobs.len();
        let count = self.random.between(0, 5);
        let tickets = (0..count).map(|_| self.random.between(1, jobs) as u8);
        let tickets = tickets.collect();
        let lengths = [count + 1, count.saturating_sub(1), 0, 2 * count, 300];
        let length = self.random.pick(&lengths);
        self.call(Call::Turns { tickets, length });
    }

    /// The length of a table, wrong so often in a hundred.
    fn cells(&mut self, wrong: usize) -> usize {
        match self.random.chance(wrong) {
            true => self.random.pick(&WRONG_LENGTHS),
            false => CELLS,
        }
    }

    fn settled(&mut self) {
        let cells = self.cells(30);
        self.call(Call::Settled(cells));
    }

    fn serial(&mut self) {
        let paper = match self.random.chance(20) {
            true => draft_bytes(&spoiled_drafts(self.random)),
            false => self.paper(),
        };
        let (cells, output) = (self.cells(15), self.cells(15));
        let start = self.start(cells);
        self.call(Call::Serial {
            start,
            output,
            paper,
        });
    }

    /// Ticket 0, the one after the last, or one far above.
    fn bad_byte(&mut self) -> u8 {
        let above = self.contest.jobs.len() as u8 + 1;
        self.random.pick(&[0, above, above, 17, 255])
    }

    fn bad_ticket(&mut self) {
        let ticket = self.bad_byte();
        self.call(Call::Turn(ticket));
    }

    /// A refused opening, a look at the block that it leaves, and a sound opening.
    fn refused_opening(&mut self) {
        let (paper, wrong) = match self.random.below(3) {
            0 => (draft_bytes(&job_drafts(&sound_jobs(self.random))), 100),
            1 => (draft_bytes(&spoiled_drafts(self.random)), 50),
            _ => (draft_bytes(&spoiled_drafts(self.random)), 0),
        };
        let cells = self.cells(wrong);
        let start = self.start(cells);
        self.call(Call::Open { start, paper });
        self.call(Call::Turn(1));
        self.settled();
        self.some_list();
        self.open();
    }

    /// Alters something, looks at what answers, and at times puts it right.
    fn alter_and_look(&mut self) {
        match self.random.below(100) {
            0..=9 => self.final_in_between(),
            10..=19 => self.go_further_back(),
            20..=34 => {
                let room = self.chooser().choose_room();
                self.alter_all(room.unwrap_or_default());
            }
            35..=44 => {
                let instruction = self.chooser().choose_instruction();
                self.alter_all(instruction.unwrap_or_default());
            }
            _ => {
                let one = self.chooser().choose();
                self.alter_all(one.into_iter().collect());
            }
        }
    }

    /// Makes alterations that belong together, and looks.
    fn alter_all(&mut self, alterations: Vec<Alteration>) {
        let altered = alterations.last().cloned();
        let made = alterations.into_iter().filter(|one| self.alter(one));
        let made = made.count();
        let Some(altered) = altered.filter(|_| made > 0) else {
            return;
        };
        let ticket = ticket_of(&altered);
        self.call(Call::Turn(ticket));
        self.look(ticket);
        if self.player.block.fits() && self.random.chance(60) {
            self.see_consequence(&altered);
        }
        if self.random.chance(50) {
            (0..made).for_each(|_| self.undo());
            self.look(ticket);
        }
    }

    /// Lets the altered job go back or end, where it may.
    fn see_consequence(&mut self, altered: &Alteration) {
        let next = consequence(altered);
        if next.is_some_and(|next| self.alter(&next)) {
            self.call(Call::Turn(ticket_of(altered)));
            self.look(ticket_of(altered));
        }
    }

    /// Makes a job final before the lower ones are, and looks at the settled table.
    fn final_in_between(&mut self) {
        let altered = self.chooser().choose_final();
        if altered.is_some_and(|altered| self.alter(&altered)) {
            self.call(Call::Settled(CELLS));
            self.single_turns();
            if self.random.chance(50) {
                self.undo();
            }
        }
    }

    /// Lets a job go back to a checkpoint that names fewer reads: a mark at the first of those
    /// that it has lost is then a misfit.
    fn go_further_back(&mut self) {
        let Some(altered) = self.chooser().choose_fewer_reads() else {
            return;
        };
        let lost = altered.values.last().copied().unwrap_or_default();
        let ticket = ticket_of(&altered);
        let mark = |read| Alteration::of_job(Part::Mark, Ticket(usize::from(ticket)), &[read]);
        if self.alter(&altered) && self.alter(&mark(altered.values[1])) {
            self.call(Call::Turn(ticket));
            self.alter(&mark(lost));
            self.call(Call::Turn(ticket));
            self.undo();
            self.look(ticket);
        }
    }

    fn chooser(&mut self) -> Chooser<'_> {
        Chooser {
            random: self.random,
            player: &self.player,
        }
    }

    /// Makes an alteration, if the block has it.
    fn alter(&mut self, alteration: &Alteration) -> bool {
        let possible = alteration.is_sayable() && self.player.clone().alter(alteration).is_ok();
        if possible {
            self.undos.push(undoing(&self.player, alteration));
            self.call(Call::Alter(alteration.clone()));
        }
        possible
    }

    /// Takes back the last alteration, if what it changed can be put right.
    fn undo(&mut self) {
        if let Some(undo) = self.undos.pop() {
            self.call(Call::Alter(undo));
        }
    }

    /// A few calls after an alteration of this ticket.
    fn look(&mut self, ticket: u8) {
        for _ in 0..self.random.between(1, 3) {
            match self.random.below(10) {
                0..=4 => drop(self.call(Call::Turn(ticket))),
                5 | 6 => self.single_turns(),
                7 => self.some_list(),
                _ => self.settled(),
            }
        }
    }

    /// Puts right what can be put right, or drops the jobs above, or opens anew.
    fn mend(&mut self) {
        while !self.player.block.fits() && !self.undos.is_empty() {
            self.undo();
        }
        let jobs = self.player.held(Length::Jobs);
        let sound = self.player.block.jobs.iter().take(jobs);
        let sound = sound.take_while(|job| job.fits()).count();
        if sound > 0 && self.random.chance(50) {
            self.call(Call::Alter(Alteration::of_count(sound as u64)));
        }
        if !self.player.block.fits() {
            self.open();
        }
    }

    /// The rest of the turns, and every job to its end in order; then the settled table.
    fn finish(&mut self) {
        let rest = std::mem::take(&mut self.contest.turns);
        self.list(rest);
        if self.random.chance(70) {
            let jobs = self.contest.jobs.iter().enumerate();
            let turns = jobs.flat_map(|(job, code)| vec![job as u8 + 1; code.len() + 1]);
            self.list(turns.collect());
        }
        self.call(Call::Settled(CELLS));
    }
}

/// The ticket whose job is altered; the number of jobs concerns the first.
fn ticket_of(alteration: &Alteration) -> u8 {
    match alteration.values.len() {
        1 => 1,
        _ => alteration.values[0] as u8,
    }
}
