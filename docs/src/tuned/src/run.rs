//! The run: done, else spent, else execute.

use crate::machine::{is_complete, Machine, Step, Trap};
use crate::mode::Mode;
use crate::multiply::{CLR, ED, EDAC, MAC, MOVSAC, MPY, MSC};
use crate::operation::Operation;

pub enum Ending {
    Done,
    Spent,
    Trap(Trap),
}

impl Machine {
    pub fn run(&mut self, operations: &[Operation], budget: u32) -> Ending {
        loop {
            let Some(operation) = operations.get(self.flow.pc) else {
                return Ending::Done;
            };
            if self.steps == budget {
                return Ending::Spent;
            }
            match self.execute(operation, budget) {
                Ok(()) => self.flow.move_on(),
                Err(trap) => return self.trapped(trap),
            }
        }
    }

    /// The ending by a trap; after a complete step pc has moved on.
    fn trapped(&mut self, trap: Trap) -> Ending {
        if !trap.is_without_effect() {
            self.flow.move_on();
        }
        Ending::Trap(trap)
    }

    /// The operation at pc, of kinds 1 to 7 with all its repeats that the budget allows;
    /// codes 33 to 39 are their plain ones.
    #[inline(always)]
    fn execute(&mut self, operation: &Operation, budget: u32) -> Step {
        match operation.code {
            1 => self.due::<CLR, false>(operation, budget),
            2 => self.due::<MPY, false>(operation, budget),
            3 => self.due::<MAC, false>(operation, budget),
            4 => self.due::<MSC, false>(operation, budget),
            5 => self.due::<ED, false>(operation, budget),
            6 => self.due::<EDAC, false>(operation, budget),
            7 => self.due::<MOVSAC, false>(operation, budget),
            19 | 20 => self.begin_repeat(operation),
            21 | 22 => self.begin_loop(operation),
            33 => self.due::<CLR, true>(operation, budget),
            34 => self.due::<MPY, true>(operation, budget),
            35 => self.due::<MAC, true>(operation, budget),
            36 => self.due::<MSC, true>(operation, budget),
            37 => self.due::<ED, true>(operation, budget),
            38 => self.due::<EDAC, true>(operation, budget),
            39 => self.due::<MOVSAC, true>(operation, budget),
            _ => self.other(operation),
        }
    }

    /// Kinds 1 to 7, once or as often as they are repeated.
    #[inline(always)]
    fn due<const KIND: u8, const PLAIN: bool>(
        &mut self,
        operation: &Operation,
        budget: u32,
    ) -> Step {
        if self.flow.repeat > 1 {
            return self.repeated::<KIND, PLAIN>(*operation, budget);
        }
        let step = self.multiply::<KIND, PLAIN>(operation);
        if is_complete(step) {
            self.steps += 1;
            self.flow.repeat = 0;
        }
        step
    }

    /// All repeats of kinds 1 to 7 that the budget allows, up to a trap.
    #[inline(never)]
    fn repeated<const KIND: u8, const PLAIN: bool>(
        &mut self,
        operation: Operation,
        budget: u32,
    ) -> Step {
        let due = self.flow.repeat.min(budget - self.steps);
        let mut left = due;
        let mut step = Ok(());
        while left > 0 {
            step = self.multiply::<KIND, PLAIN>(&operation);
            if step.is_err() {
                left -= u32::from(is_complete(step));
                break;
            }
            left -= 1;
        }
        self.steps += due - left;
        self.flow.repeat -= due - left;
        step
    }

    /// One step of kinds 8 to 18 and 23 to 25.
    fn other(&mut self, operation: &Operation) -> Step {
        let step = match operation.kind {
            8..=10 => self.combined(operation),
            11 => self.shifted_by_register(operation),
            12 | 13 => self.load_accumulator(operation),
            14 | 15 => self.store_accumulator(operation),
            17 => self.load_register(operation),
            18 => self.store_register(operation),
            _ => self.adjust(operation),
        };
        if is_complete(step) {
            self.steps += 1;
            self.flow.repeat = self.flow.repeat.saturating_sub(1);
        }
        step
    }

    /// Kinds 16 and 23 to 25: a literal, an early end, a mode word, S flags cleared.
    fn adjust(&mut self, operation: &Operation) -> Step {
        match operation.kind {
            16 => self.set_register(operation.register, operation.number),
            23 => self.flow.end_early(),
            24 => self.mode = Mode::of(operation.number),
            _ => self.saturated = [false; 2],
        }
        Ok(())
    }
}
