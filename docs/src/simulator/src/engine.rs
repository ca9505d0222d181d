//! The engine: a run of a program file.

use crate::ending::Ending;
use crate::file::check_file;
use crate::memory::Memory;
use crate::operation::Operation;
use crate::settings::Settings;
use crate::state::State;
use crate::step::{Machine, Step};

/// What a run gives back; memory is changed in place.
#[derive(Clone, Debug, PartialEq, Eq)]
pub struct Outcome {
    pub ending: Ending,
    pub state: State,
    pub steps: u32,
}

impl Outcome {
    /// A refused call: the state as given and 0 steps.
    pub fn refused(number: u8, state: &State) -> Outcome {
        Outcome {
            ending: Ending::Refused(number),
            state: *state,
            steps: 0,
        }
    }
}

/// Refusals 1 to 7 of a run, in their order; the operations as bytes and decoded
/// otherwise.
pub fn accept_file(
    file: &[u8],
    settings: &Settings,
    state: &State,
    words: usize,
) -> Result<(Vec<u8>, Vec<Operation>), u8> {
    let (bytes, operations) = check_file(file)?;
    if !settings.are_accepted(words) {
        return Err(6);
    }
    if !state.is_accepted(&operations) {
        return Err(7);
    }
    Ok((bytes, operations))
}

/// The same, the operations alone.
pub fn accept(
    file: &[u8],
    settings: &Settings,
    state: &State,
    words: usize,
) -> Result<Vec<Operation>, u8> {
    accept_file(file, settings, state, words).map(|(_, operations)| operations)
}

/// Run a program file. A refused call changes nothing.
pub fn run(
    file: &[u8],
    settings: &Settings,
    state: &State,
    memory: &mut [u16],
    budget: u32,
) -> Outcome {
    match accept(file, settings, state, memory.len()) {
        Err(number) => Outcome::refused(number, state),
        Ok(operations) => run_operations(&operations, settings, state, memory, budget),
    }
}

/// Run accepted operations.
pub fn run_operations(
    operations: &[Operation],
    settings: &Settings,
    state: &State,
    memory: &mut [u16],
    budget: u32,
) -> Outcome {
    let step = |machine: &mut Machine| machine.step();
    run_by(step, operations, settings, state, memory, budget)
}

/// Run accepted operations by this step: done, else spent, else execute.
pub fn run_by(
    step: impl Fn(&mut Machine) -> Step,
    operations: &[Operation],
    settings: &Settings,
    state: &State,
    memory: &mut [u16],
    budget: u32,
) -> Outcome {
    let mut machine = Machine {
        state: *state,
        operations,
        settings,
        memory: Memory::new(memory, settings.x_words),
    };
    let mut steps: u32 = 0;
    let ending = loop {
        if usize::from(machine.state.flow.pc) == operations.len() {
            break Ending::Done;
        }
        if steps == budget {
            break Ending::Spent;
        }
        match step(&mut machine) {
            Step::Whole => steps += 1,
            Step::Blocked(trap) => break Ending::Trap(trap),
            Step::Trapped(trap) => {
                steps += 1;
                break Ending::Trap(trap);
            }
        }
    };
    Outcome {
        ending,
        state: machine.state,
        steps,
    }
}
