//! Runs whose loops by register are short, by which random runs are chosen and cut. A
//! count of 16 bits takes nearly every budget: by their own lengths few of the runs
//! chosen would come to their end.

use crate::cases::Case;
use crate::engine::{accept, run_by, Outcome};
use crate::operation::Operation;
use crate::step::{Machine, Step};

/// The bits of a register that a short loop is counted by.
const LOW_BITS: u16 = 0x3FFF;

/// The run of a case and its memory, the loops by register counted by the low bits.
pub fn short_run(case: &Case, budget: u32) -> (Outcome, Vec<u16>) {
    let mut memory = case.memory.clone();
    let (settings, state) = (&case.settings, &case.state);
    let outcome = match accept(&case.file, settings, state, memory.len()) {
        Err(number) => Outcome::refused(number, state),
        Ok(operations) => run_by(
            short_step,
            &operations,
            settings,
            state,
            &mut memory,
            budget,
        ),
    };
    (outcome, memory)
}

/// One step; kind 22 finds the low bits in its register, which stays as it is.
fn short_step(machine: &mut Machine) -> Step {
    let operation = machine.operations[usize::from(machine.state.flow.pc)];
    let Operation::DoRegister { register, .. } = operation else {
        return machine.step();
    };
    let place = usize::from(register);
    let word = machine.state.w[place];
    machine.state.w[place] = word & LOW_BITS;
    let step = machine.step();
    machine.state.w[place] = word;
    step
}
