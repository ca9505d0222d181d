//! A case's run step by step.

use crate::cases::Case;
use crate::ending::Ending;
use crate::engine::{accept, Outcome};
use crate::memory::Memory;
use crate::operation::Operation;
use crate::state::State;
use crate::step::{Machine, Step};

/// Each executed operation, traps without effect not among them, is visited with the
/// state before it and the state after it.
pub fn walk(case: &Case, mut visit: impl FnMut(&Operation, &State, &State)) -> Outcome {
    let (settings, state) = (&case.settings, &case.state);
    let mut memory = case.memory.clone();
    let outcome = |ending, state, steps| Outcome {
        ending,
        state,
        steps,
    };
    let operations = match accept(&case.file, settings, state, memory.len()) {
        Ok(operations) => operations,
        Err(number) => return Outcome::refused(number, state),
    };
    let mut machine = Machine {
        state: *state,
        operations: &operations,
        settings,
        memory: Memory::new(&mut memory, settings.x_words),
    };
    let mut steps = 0;
    let ending = loop {
        let pc = usize::from(machine.state.flow.pc);
        let Some(operation) = operations.get(pc) else {
            break Ending::Done;
        };
        if steps == case.budget {
            break Ending::Spent;
        }
        let before = machine.state;
        let step = machine.step();
        if let Step::Blocked(trap) = step {
            break Ending::Trap(trap);
        }
        steps += 1;
        visit(operation, &before, &machine.state);
        if let Step::Trapped(trap) = step {
            break Ending::Trap(trap);
        }
    };
    outcome(ending, machine.state, steps)
}
