//! State, reset, and refusal 7.

use crate::accumulator::WIDE;
use crate::flow::{Flow, Loop, MOST_PASSES, NO_LOOP};
use crate::mode::Mode;
use crate::operation::Operation;

#[derive(Clone, Copy, Debug, PartialEq, Eq)]
pub struct State {
    /// W0..W13.
    pub w: [u16; 14],
    /// A and B, signed 40 bits.
    pub accumulators: [i64; 2],
    /// OA and OB.
    pub overflow: [bool; 2],
    /// SA and SB.
    pub saturated: [bool; 2],
    pub mode: Mode,
    /// pc, active loops, repeat left.
    pub flow: Flow,
}

impl State {
    /// "After reset all is zero except that the mode word is 0020 hex."
    pub fn reset() -> State {
        State {
            w: [0; 14],
            accumulators: [0; 2],
            overflow: [false; 2],
            saturated: [false; 2],
            mode: Mode::RESET,
            flow: Flow::reset(),
        }
    }

    /// To start again: pc 0, no loop, repeat left 0; everything else is kept.
    pub fn restart(&self) -> State {
        State {
            flow: Flow::reset(),
            ..*self
        }
    }

    /// Whether refusal 7 is not given. Flags are not asked about.
    pub fn is_accepted(&self, operations: &[Operation]) -> bool {
        let in_40_bits = |value: &i64| (WIDE.0..=WIDE.1).contains(value);
        self.accumulators.iter().all(in_40_bits)
            && self.mode.is_good()
            && usize::from(self.flow.pc) <= operations.len()
            && loops_are_accepted(&self.flow, operations)
            && repeat_is_accepted(&self.flow, operations)
    }
}

/// The DO numbers of the loops around pc, outermost first: d < pc <= e.
pub fn loops_around(pc: u16, operations: &[Operation]) -> Vec<u16> {
    let before = operations.iter().take(usize::from(pc)).enumerate();
    before
        .filter(|(_, operation)| operation.last_of_do().is_some_and(|last| pc <= last))
        .map(|(number, _)| number as u16)
        .collect()
}

/// The active loops are exactly those around pc, each with passes 1..65,536, whatever
/// its kind and literal; a slot that is not in use is zero.
fn loops_are_accepted(flow: &Flow, operations: &[Operation]) -> bool {
    let around = loops_around(flow.pc, operations);
    let active = usize::from(flow.active);
    if active > flow.loops.len() || around.len() != active {
        return false;
    }
    let (used, unused) = flow.loops.split_at(active);
    let fits = |(slot, number): (&Loop, &u16)| {
        slot.do_number == *number && (1..=MOST_PASSES).contains(&slot.passes)
    };
    used.iter().zip(&around).all(fits) && unused.iter().all(|slot| *slot == NO_LOOP)
}

/// Repeat left is 1..65,536 when the operation before pc is REPEAT, otherwise 0.
fn repeat_is_accepted(flow: &Flow, operations: &[Operation]) -> bool {
    let before = usize::from(flow.pc).checked_sub(1);
    let operation = before.and_then(|number| operations.get(number));
    if operation.is_some_and(Operation::is_repeat) {
        (1..=65_536).contains(&flow.repeat)
    } else {
        flow.repeat == 0
    }
}
