//! What a turn did.

use std::fmt;

/// The byte that [`Block::take_turns`](crate::Block::take_turns) writes for a refused turn.
pub const REFUSED_TURN: u8 = 6;

/// The word of a turn, in the order of document 01's rules.
#[derive(Clone, Copy, Debug, PartialEq, Eq, Hash)]
pub enum Word {
    /// The job was final already.
    Idle,
    /// It returned to the checkpoint of its earliest marked read.
    Back,
    /// It ran one instruction.
    Step,
    /// It ended, at STOP or ABANDON.
    End,
    /// It became final.
    Final,
    /// It has ended, and some lower ticket is not final.
    Wait,
}

impl Word {
    const IN_ORDER: [Word; REFUSED_TURN as usize] = [
        Word::Idle,
        Word::Back,
        Word::Step,
        Word::End,
        Word::Final,
        Word::Wait,
    ];

    /// The word for a byte of [`Block::take_turns`](crate::Block::take_turns); none for
    /// [`REFUSED_TURN`] and above.
    #[must_use]
    pub fn of_byte(byte: u8) -> Option<Word> {
        Word::IN_ORDER.get(usize::from(byte)).copied()
    }
}

/// The word as a session's output has it.
impl fmt::Display for Word {
    fn fmt(&self, out: &mut fmt::Formatter<'_>) -> fmt::Result {
        out.pad(match self {
            Word::Idle => "idle",
            Word::Back => "back",
            Word::Step => "step",
            Word::End => "end",
            Word::Final => "final",
            Word::Wait => "wait",
        })
    }
}
