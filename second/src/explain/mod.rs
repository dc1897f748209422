//! Says in words what happened in a session, or why it was refused.

mod ends;
pub mod input;
mod phrases;
mod refusal;
pub mod story;
mod turn;

use crate::compare::first_difference;
use crate::session::refused;
use input::Handed;
use story::Story;

pub use ends::{settled_cells, summary, Settled};
pub use turn::turn_text;

/// What comes of telling about a session.
#[derive(Debug, PartialEq, Eq)]
pub enum Telling {
    Told(String),
    /// The session is refused, and why.
    Refused(String),
    /// The proved program printed something else, and where.
    Differs(String),
}

/// Tells of a session, if the proved program printed the same lines as the second program.
pub fn tell(handed: &Handed, played: &[u8], teller: impl Fn(&Story) -> String) -> Telling {
    let story = Story::of(&handed.bytes);
    let own = match &story {
        Ok(story) => story.played(),
        Err(refusal) => refused(*refusal),
    };
    if own.as_bytes() != played {
        return Telling::Differs(first_difference(played, own.as_bytes()));
    }
    match story {
        Ok(story) => Telling::Told(teller(&story)),
        Err(refusal) => Telling::Refused(refusal::refusal_text(handed, refusal)),
    }
}

/// Each line that playing printed with its explanation, then how the session stands at the end.
pub fn explanation(story: &Story) -> String {
    let settled = settled_cells(&story.block);
    let turns = (1..=story.turns.len()).map(|number| turn_text(story, number));
    let cells = settled.iter().filter(|settled| settled.value != 0);
    let told = turns.chain(cells.map(Settled::origin));
    let played = story.played();
    let lines: String = played
        .lines()
        .zip(told)
        .map(|(line, told)| format!("{line:<11}  {told}\n"))
        .collect();
    lines + &ends::ends_text(story, &settled)
}
