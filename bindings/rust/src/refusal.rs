//! Why nothing was done.

use std::fmt;

/// A refusal's number in document 01, the field of the paper counted from 1, and the place in its
/// job. Field and place are 0 where a refusal has none.
#[derive(Clone, Copy, Debug, PartialEq, Eq, Hash)]
pub struct Refusal {
    pub number: u8,
    pub field: u8,
    pub place: u8,
}

impl Refusal {
    /// The number, field and place in the library's answer.
    pub(crate) fn read(answer: u32) -> Refusal {
        let [number, field, place, _] = answer.to_le_bytes();
        Refusal {
            number,
            field,
            place,
        }
    }

    /// The refusal in the library's answer; number 0 is none.
    pub(crate) fn in_answer(answer: u32) -> Result<(), Refusal> {
        match Refusal::read(answer) {
            Refusal { number: 0, .. } => Ok(()),
            refusal => Err(refusal),
        }
    }

    /// What the number means, as the C header says it.
    #[must_use]
    pub fn meaning(&self) -> &'static str {
        match self.number {
            1 => "fewer than 3 bytes left for a head, or contents run past the end",
            2 => "tag is not 0x10",
            3 => "a seventeenth job",
            4 => "length 0, over 576, or not a multiple of 9",
            5 => "code above 13",
            6 => "operand outside its column",
            7 => "the last instruction would lead on",
            8 => "no earlier place leads here",
            9 => "too few entries, or more than 16 left",
            10 => "two heights meet here",
            11 => "ninth READ or ninth WRITE",
            12 => "a table that has not 256 cells",
            14 => "a ticket that is none of the block's",
            15 => "not as many bytes lent as there are tickets",
            20 => "a block whose sizes do not fit, or a turn that needs what is not there",
            _ => "no refusal of the library",
        }
    }
}

/// The number, the job and the place where it names them, and the meaning.
impl fmt::Display for Refusal {
    fn fmt(&self, out: &mut fmt::Formatter<'_>) -> fmt::Result {
        write!(out, "refused {}", self.number)?;
        if self.field != 0 {
            write!(out, ", job {}, place {}", self.field, self.place)?;
        }
        write!(out, ": {}", self.meaning())
    }
}

impl std::error::Error for Refusal {}
