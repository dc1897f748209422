//! The machine that runs one instruction. What a READ finds is given from outside.

use crate::counts::{Cell, Place};
use crate::instruction::{Code, Instruction, MOST_ENTRIES};

/// Where a run of a job stands. The top of the stack is its last entry.
#[derive(Clone, Debug, PartialEq, Eq)]
pub struct State {
    pub place: Place,
    pub stack: Vec<u64>,
}

/// A value written to a cell: an entry of a journal.
#[derive(Clone, Copy, Debug, PartialEq, Eq)]
pub struct Write {
    pub cell: Cell,
    pub value: u64,
}

impl State {
    /// Before the first instruction.
    pub fn fresh() -> State {
        State {
            place: Place(0),
            stack: Vec::new(),
        }
    }
}

/// The cell whose value the instruction is about to ask for, if it is a READ with an entry.
pub fn cell_to_read(instruction: Instruction, state: &State) -> Option<Cell> {
    let top = state.stack.last()?;
    instruction.is(Code::Read).then(|| Cell::named_by(*top))
}

/// The state after one instruction, and its write if it is a WRITE; `found` is what a READ finds.
/// None if it is a STOP, an ABANDON or no instruction, or if an entry or room is not there.
pub fn run(instruction: Instruction, state: &State, found: u64) -> Option<(State, Option<Write>)> {
    let mut stack = state.stack.clone();
    let mut place = state.place.next();
    let mut write = None;
    match instruction.code()? {
        Code::Stop | Code::Abandon => return None,
        Code::Push => stack.push(instruction.operand),
        Code::Pop => drop(stack.pop()?),
        Code::Dup => {
            let copied = from_top(&stack, instruction.operand.checked_sub(1)?)?;
            stack.push(stack[copied]);
        }
        Code::Swap => {
            let top = from_top(&stack, 0)?;
            let other = from_top(&stack, instruction.operand)?;
            stack.swap(top, other);
        }
        Code::Add | Code::Sub | Code::Less | Code::Equal => {
            let (top, next) = (stack.pop()?, stack.pop()?);
            stack.push(combine(instruction.code()?, top, next));
        }
        Code::Read => *stack.last_mut()? = found,
        Code::Write => {
            let cell = Cell::named_by(stack.pop()?);
            let value = stack.pop()?;
            write = Some(Write { cell, value });
        }
        Code::Jump => place = jump_place(instruction)?,
        Code::JumpZero => {
            if stack.pop()? == 0 {
                place = jump_place(instruction)?;
            }
        }
    }
    (stack.len() <= MOST_ENTRIES).then_some((State { place, stack }, write))
}

/// What a two-operand instruction pushes, top of the stack first.
fn combine(code: Code, top: u64, next: u64) -> u64 {
    match code {
        Code::Add => top.wrapping_add(next),
        Code::Sub => top.wrapping_sub(next),
        Code::Less => u64::from(top < next),
        _ => u64::from(top == next),
    }
}

/// Where the entry stands that is so many below the top.
fn from_top(stack: &[u64], below: u64) -> Option<usize> {
    let below = usize::try_from(below).ok()?;
    stack.len().checked_sub(1)?.checked_sub(below)
}

/// The place that a jump's operand names.
fn jump_place(instruction: Instruction) -> Option<Place> {
    usize::try_from(instruction.operand).ok().map(Place)
}
