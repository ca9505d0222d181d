//! Writes to an accumulator: limits, flags and traps; kinds 8 to 11.

use crate::machine::{Machine, Step, Trap};
use crate::operation::Operation;

/// Shift by n: positive is floor of v / 2^n, negative is v x 2^-n.
#[inline(always)]
pub fn shifted(value: i64, by: i16) -> i64 {
    if by < 0 {
        value << -by
    } else {
        value >> by
    }
}

/// What is kept of a result outside the limits: the nearer one, or the low 40 bits.
#[inline(always)]
fn kept_outside(limit: i64, saturates: bool, result: i64) -> i64 {
    if !saturates {
        (result << 24) >> 24
    } else if result < 0 {
        -limit
    } else {
        limit - 1
    }
}

impl Machine {
    /// Writes the exact result to an accumulator.
    #[inline(always)]
    pub fn settle(&mut self, target: usize, result: i64) -> Step {
        let (limit, saturates) = (self.mode.limits[target], self.mode.saturates[target]);
        let is_left = result.wrapping_add(limit) as u64 >= 2 * limit as u64;
        let mut kept = result;
        if is_left {
            self.saturated[target] = true;
            kept = kept_outside(limit, saturates, result);
        }
        let is_over = i64::from(kept as i32) != kept;
        self.accumulators[target] = kept;
        self.overflow[target] = is_over;
        if is_left && !saturates && self.settings.traps_limits_left {
            Err(Trap::LimitsLeft)
        } else if is_over && self.settings.traps_overflow[target] {
            Err([Trap::OverflowA, Trap::OverflowB][target])
        } else {
            Ok(())
        }
    }

    /// Kinds 8 to 10: A + B, target minus other, negate.
    pub fn combined(&mut self, operation: &Operation) -> Step {
        let target = operation.target();
        let (own, other) = (self.accumulators[target], self.accumulators[target ^ 1]);
        let result = match operation.kind {
            8 => own + other,
            9 => own - other,
            _ => -own,
        };
        self.settle(target, result)
    }

    /// Kind 11: shift by the signed value of a register.
    pub fn shifted_by_register(&mut self, operation: &Operation) -> Step {
        let by = self.register(operation.operand) as i16;
        if !(-16..=16).contains(&by) {
            return Err(Trap::ShiftTooFar);
        }
        let target = operation.target();
        self.settle(target, shifted(self.accumulators[target], by))
    }
}
