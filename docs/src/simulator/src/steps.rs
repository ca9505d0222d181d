//! The stream of single steps: for each case one operation is executed, and a
//! line printed.
//!
//! A stream is the number of cases in 2 bytes, low byte first, then the cases in
//! the form of CASES.md, each with `what` 0 and a budget of 1.

use std::fmt;

use crate::cases::{bytes_of, next_case, state_line, Case, HEADER};
use crate::engine::accept;
use crate::file::BLOCK;
use crate::memory::Memory;
use crate::state::State;
use crate::step::{Machine, Step};
use crate::words::word_at;

/// The longest program file a stream holds: 66 blocks.
pub const MOST: usize = 66 * BLOCK;
/// The budget of every case.
pub const BUDGET: u32 = 1;
/// Where `what` stands in a case's header.
const WHAT: usize = HEADER - 1;

/// What became of the one step.
#[derive(Clone, Copy, Debug, PartialEq, Eq)]
pub enum Answer {
    /// 1 to 7, as a run is refused.
    Refused(u8),
    /// pc is the count of operations already.
    Done,
    Executed(Step),
}

impl Answer {
    /// The steps counted: traps 1 to 4 have none.
    pub fn steps(self) -> u32 {
        match self {
            Answer::Refused(_) | Answer::Done | Answer::Executed(Step::Blocked(_)) => 0,
            Answer::Executed(Step::Whole | Step::Trapped(_)) => 1,
        }
    }
}

impl fmt::Display for Answer {
    fn fmt(&self, f: &mut fmt::Formatter) -> fmt::Result {
        match self {
            Answer::Refused(number) => write!(f, "refused{number}"),
            Answer::Done => write!(f, "done"),
            Answer::Executed(Step::Whole) => write!(f, "step"),
            Answer::Executed(Step::Blocked(trap) | Step::Trapped(trap)) => {
                write!(f, "trap{}", trap.number())
            }
        }
    }
}

/// The refusals of a run in their order, else done, else the operation at pc is
/// executed once: the answer, the state and the memory afterwards.
pub fn single_step(case: &Case) -> (Answer, State, Vec<u16>) {
    let (settings, state) = (&case.settings, &case.state);
    let mut memory = case.memory.clone();
    let operations = match accept(&case.file, settings, state, memory.len()) {
        Ok(operations) => operations,
        Err(number) => return (Answer::Refused(number), *state, memory),
    };
    if usize::from(state.flow.pc) == operations.len() {
        return (Answer::Done, *state, memory);
    }
    let mut machine = Machine {
        state: *state,
        operations: &operations,
        settings,
        memory: Memory::new(&mut memory, settings.x_words),
    };
    let answer = Answer::Executed(machine.step());
    let after = machine.state;
    (answer, after, memory)
}

/// The line of a case, without its line feed.
pub fn line(case: &Case) -> String {
    let (answer, state, memory) = single_step(case);
    state_line(&answer, answer.steps(), &state, &memory)
}

/// The lines of all cases.
pub fn lines(cases: &[Case]) -> String {
    cases.iter().map(|case| line(case) + "\n").collect()
}

/// The stream of at most 65,535 cases.
pub fn stream_of(cases: &[Case]) -> Vec<u8> {
    let mut stream = (cases.len() as u16).to_le_bytes().to_vec();
    stream.extend(cases.iter().flat_map(bytes_of));
    stream
}

/// The cases of a stream; nothing where it breaks off, goes on after the last
/// one, or holds a case that is too large or no single step.
pub fn cases_of(stream: &[u8]) -> Option<Vec<Case>> {
    let (count, mut rest) = stream.split_at_checked(2)?;
    let cases: Option<Vec<Case>> = (0..word_at(count, 0))
        .map(|_| next_step(&mut rest))
        .collect();
    cases.filter(|_| rest.is_empty())
}

fn next_step(rest: &mut &[u8]) -> Option<Case> {
    if *rest.get(WHAT)? != 0 {
        return None;
    }
    let case = next_case(rest).ok()?.ok()?;
    (case.budget == BUDGET && case.file.len() <= MOST).then_some(case)
}
