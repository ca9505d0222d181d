//! "Stepping": pc, active loops and repeat left.

use crate::ending::Trap;
use crate::operation::Operation;

/// The most passes of a loop, which a register of 16 bits can ask for. They do not fit
/// 16 bits.
pub const MOST_PASSES: u32 = 65_536;

/// An active loop: DO's number and passes left, the current one counted.
#[derive(Clone, Copy, Debug, PartialEq, Eq)]
pub struct Loop {
    pub do_number: u16,
    pub passes: u32,
}

/// A slot that is not in use.
pub const NO_LOOP: Loop = Loop {
    do_number: 0,
    passes: 0,
};

#[derive(Clone, Copy, Debug, PartialEq, Eq)]
pub struct Flow {
    pub pc: u16,
    /// Outermost first; slots from `active` on are zero.
    pub loops: [Loop; 4],
    pub active: u8,
    /// Runs still due, the current one counted; 0 outside a REPEAT.
    pub repeat: u32,
}

impl Flow {
    pub fn reset() -> Flow {
        Flow {
            pc: 0,
            loops: [NO_LOOP; 4],
            active: 0,
            repeat: 0,
        }
    }

    /// After REPEAT: the following operation runs count + 1 times.
    pub fn begin_repeat(&mut self, count: u16) {
        self.repeat = u32::from(count) + 1;
        self.pc += 1;
    }

    /// Trap 4: DO with four loops active.
    pub fn check_room(&self) -> Result<(), Trap> {
        if usize::from(self.active) == self.loops.len() {
            Err(Trap::FourLoopsActive)
        } else {
            Ok(())
        }
    }

    /// After DO: count + 1 passes.
    pub fn begin_loop(&mut self, count: u16) {
        self.loops[usize::from(self.active)] = Loop {
            do_number: self.pc,
            passes: u32::from(count) + 1,
        };
        self.active += 1;
        self.pc += 1;
    }

    /// The innermost active loop and its last operation's number.
    fn innermost(&mut self, operations: &[Operation]) -> Option<(&mut Loop, u16)> {
        let slot = usize::from(self.active).checked_sub(1)?;
        let innermost = self.loops.get_mut(slot)?;
        let begin = operations.get(usize::from(innermost.do_number))?;
        Some((innermost, begin.last_of_do()?))
    }

    /// Kind 23: passes left become the smaller of themselves and 1; of
    /// themselves and 2 in the last or last-but-one place.
    pub fn end_early(&mut self, operations: &[Operation]) {
        let pc = self.pc;
        if let Some((innermost, last)) = self.innermost(operations) {
            let most = if pc == last || pc + 1 == last { 2 } else { 1 };
            innermost.passes = innermost.passes.min(most);
        }
    }

    /// After any operation but REPEAT and DO. A further run due keeps pc; at a
    /// loop's last operation passes fall by 1; otherwise pc moves on by 1.
    pub fn advance(&mut self, operations: &[Operation]) {
        self.repeat = self.repeat.saturating_sub(1);
        if self.repeat > 0 {
            return;
        }
        let pc = self.pc;
        if let Some((innermost, last)) = self.innermost(operations) {
            if pc == last {
                innermost.passes -= 1;
                if innermost.passes > 0 {
                    self.pc = innermost.do_number + 1;
                    return;
                }
                *innermost = NO_LOOP;
                self.active -= 1;
            }
        }
        self.pc += 1;
    }
}
