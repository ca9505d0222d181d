//! The order of execution: pc, loops, repeats; kinds 19 to 23.

use crate::machine::{Machine, Step, Trap};
use crate::operation::Operation;

/// An active loop; a slot not in use is zero.
#[derive(Clone, Copy, Default)]
pub struct Loop {
    pub do_number: u16,
    pub last: u16,
    pub passes: u32,
}

pub struct Flow {
    pub pc: usize,
    /// Number of active loops.
    pub active: usize,
    /// The slots, outermost first.
    pub loops: [Loop; 4],
    /// Repeat left.
    pub repeat: u32,
}

impl Flow {
    #[inline(always)]
    fn innermost(&mut self) -> Option<&mut Loop> {
        match self.active {
            0 => None,
            active => Some(&mut self.loops[(active - 1) & 3]),
        }
    }

    /// pc after a step: it stays while a repeat is left, and goes back where a pass of
    /// the innermost loop ends and another is left.
    #[inline(always)]
    pub fn move_on(&mut self) {
        if self.repeat != 0 {
            return;
        }
        let pc = self.pc;
        if let Some(innermost) = self.innermost() {
            if pc == usize::from(innermost.last) {
                if innermost.passes > 1 {
                    innermost.passes -= 1;
                    self.pc = usize::from(innermost.do_number) + 1;
                    return;
                }
                *innermost = Loop::default();
                self.active -= 1;
            }
        }
        self.pc = pc + 1;
    }

    /// Kind 23: the innermost loop ends with this pass, from its last two places with the next.
    pub fn end_early(&mut self) {
        let pc = self.pc;
        if let Some(innermost) = self.innermost() {
            let last = usize::from(innermost.last);
            let most = if pc == last || pc + 1 == last { 2 } else { 1 };
            innermost.passes = innermost.passes.min(most);
        }
    }
}

impl Machine {
    /// Kinds 19 and 20: REPEAT, which moves pc itself, as a repeat is left after it.
    #[inline(always)]
    pub fn begin_repeat(&mut self, operation: &Operation) -> Step {
        let count = match operation.kind {
            19 => operation.number,
            _ => self.register(operation.register),
        };
        self.flow.repeat = u32::from(count) + 1;
        self.flow.pc += 1;
        self.steps += 1;
        Ok(())
    }

    /// Kinds 21 and 22: DO.
    #[inline(always)]
    pub fn begin_loop(&mut self, operation: &Operation) -> Step {
        let Some(slot) = self.flow.loops.get_mut(self.flow.active) else {
            return Err(Trap::FourLoopsActive);
        };
        let count = match operation.kind {
            21 => operation.number,
            _ => self.w[usize::from(operation.register)],
        };
        *slot = Loop {
            do_number: self.flow.pc as u16,
            last: operation.last,
            passes: u32::from(count) + 1,
        };
        self.flow.active += 1;
        self.steps += 1;
        Ok(())
    }
}
