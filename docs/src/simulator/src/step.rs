//! The engine's effect of every kind.

use crate::accumulator::{keep, product_by_mode, rounded, shift, store_word, truncated};
use crate::ending::Trap;
use crate::flow::Flow;
use crate::memory::Memory;
use crate::operand;
use crate::operation::*;
use crate::prefetch::{self, Arrivals};
use crate::settings::Settings;
use crate::state::State;
use crate::words::signed;
use crate::write_back;

/// The engine at work.
pub struct Machine<'a> {
    pub state: State,
    pub operations: &'a [Operation],
    pub settings: &'a Settings,
    pub memory: Memory<'a>,
}

/// What became of one operation.
#[derive(Clone, Copy, Debug, PartialEq, Eq)]
pub enum Step {
    /// Executed and counted.
    Whole,
    /// Traps 1 to 4: no effect and no step.
    Blocked(Trap),
    /// Traps 5 to 7: the step is complete and counted.
    Trapped(Trap),
}

/// An accumulator write: which, and whether the limits were left.
#[derive(Clone, Copy)]
struct Written {
    target: Target,
    left: bool,
}

/// The accumulator write of an operation, if any, or a trap without effect.
type Effect = Result<Option<Written>, Trap>;

impl Machine<'_> {
    /// Execute the operation at pc, which is below the count of operations.
    pub fn step(&mut self) -> Step {
        let operation = self.operations[usize::from(self.state.flow.pc)];
        let effect = self.effect(operation);
        let written = match effect {
            Err(trap) => return Step::Blocked(trap),
            Ok(written) => written,
        };
        if !operation.is_repeat_or_do() {
            self.state.flow.advance(self.operations);
        }
        match written.and_then(|written| self.trap_after(written)) {
            Some(trap) => Step::Trapped(trap),
            None => Step::Whole,
        }
    }

    /// Trap 5: limits left, saturation off, COVTE. Then 6: OA with OVATE, 7: OB
    /// with OVBTE, only on writing that accumulator.
    fn trap_after(&self, written: Written) -> Option<Trap> {
        let Written { target, left } = written;
        let saturates = self.state.mode.saturates(target);
        if left && !saturates && self.settings.traps_limits_left() {
            return Some(Trap::LimitsLeft);
        }
        if !self.state.overflow[target.index()] {
            return None;
        }
        match target {
            Target::A if self.settings.traps_overflow_a() => Some(Trap::OverflowA),
            Target::B if self.settings.traps_overflow_b() => Some(Trap::OverflowB),
            _ => None,
        }
    }

    fn value(&self, target: Target) -> i64 {
        self.state.accumulators[target.index()]
    }

    /// Write an accumulator: kept value, O redone, S set and staying.
    fn keep(&mut self, target: Target, exact: i64) -> Option<Written> {
        let kept = keep(exact, self.state.mode, target);
        let index = target.index();
        self.state.accumulators[index] = kept.value;
        self.state.overflow[index] = kept.overflow;
        self.state.saturated[index] |= kept.left;
        Some(Written {
            target,
            left: kept.left,
        })
    }

    fn product(&self, factors: Factors) -> i64 {
        let m = self.state.w[usize::from(factors.m)];
        let n = self.state.w[usize::from(factors.n)];
        product_by_mode(m, n, self.state.mode)
    }

    fn square(&self, m: Register) -> i64 {
        self.product(Factors { m, n: m })
    }

    /// Every kind: exact results are worked out from old values.
    fn effect(&mut self, operation: Operation) -> Effect {
        use Operation::*;
        let none = WriteBack::None;
        match operation {
            Clr(t, prefetch, back) => self.prefetching(t, Some(0), prefetch, back),
            Mpy(t, f, prefetch) => self.prefetching(t, Some(self.product(f)), prefetch, none),
            Mac(t, f, prefetch, back) => {
                self.prefetching(t, Some(self.value(t) + self.product(f)), prefetch, back)
            }
            Msc(t, f, prefetch, back) => {
                self.prefetching(t, Some(self.value(t) - self.product(f)), prefetch, back)
            }
            Ed(t, m, both) => self.distance(t, self.square(m), both),
            Edac(t, m, both) => self.distance(t, self.value(t) + self.square(m), both),
            Movsac(t, prefetch, back) => self.prefetching(t, None, prefetch, back),
            AddBoth(t) => Ok(self.keep(t, self.value(Target::A) + self.value(Target::B))),
            Subtract(t) => Ok(self.keep(t, self.value(t) - self.value(t.other()))),
            Negate(t) => Ok(self.keep(t, -self.value(t))),
            ShiftBy(t, register) => self.shift_by(t, register),
            Lac(scaled) => self.take(scaled, 0),
            Add(scaled) => self.take(scaled, self.value(scaled.target)),
            Sac(scaled) => self.store(scaled, false),
            SacR(scaled) => self.store(scaled, true),
            _ => self.without_accumulator(operation),
        }
    }

    /// Reads, then the write-back of the other accumulator, then the registers.
    fn prefetching(
        &mut self,
        target: Target,
        exact: Option<i64>,
        prefetch: Prefetch,
        write_back: WriteBack,
    ) -> Effect {
        let w = &self.state.w;
        let arrivals = prefetch::fetch(prefetch, w, self.settings, &self.memory)?;
        let destination = write_back::destination(write_back, w, self.settings, &self.memory)?;
        if let Some(destination) = destination {
            let mode = self.state.mode;
            let word = store_word(rounded(self.value(target.other()), mode), mode);
            destination.store(word, &mut self.state.w, &mut self.memory);
        }
        self.land(arrivals);
        Ok(exact.and_then(|exact| self.keep(target, exact)))
    }

    fn distance(&mut self, target: Target, exact: i64, difference: Difference) -> Effect {
        let w = &self.state.w;
        let arrivals = prefetch::fetch_difference(difference, w, self.settings, &self.memory)?;
        self.land(arrivals);
        Ok(self.keep(target, exact))
    }

    fn land(&mut self, arrivals: Arrivals) {
        arrivals.land(&mut self.state.w);
    }

    /// Kind 11, with trap 3.
    fn shift_by(&mut self, target: Target, register: Register) -> Effect {
        let by = signed(self.state.w[usize::from(register)]);
        if !(-16..=16).contains(&by) {
            return Err(Trap::ShiftTooFar);
        }
        Ok(self.keep(target, shift(self.value(target), by)))
    }

    /// Kinds 12 and 13: the word, signed, x 65,536, shifted, added to `to`.
    fn take(&mut self, scaled: Scaled, to: i64) -> Effect {
        let w = &self.state.w;
        let fetched = operand::fetch(scaled.operand, w, self.settings, &self.memory)?;
        if let Some(moved) = fetched.moved {
            moved.land(&mut self.state.w);
        }
        let term = shift(signed(fetched.word) * 65_536, i64::from(scaled.shift));
        Ok(self.keep(scaled.target, to + term))
    }

    /// Kinds 14 and 15: shifted with its floor, truncated or rounded, SATDW.
    fn store(&mut self, scaled: Scaled, is_rounded: bool) -> Effect {
        let w = &self.state.w;
        let destination = operand::destination(scaled.operand, w, self.settings, &self.memory)?;
        let value = shift(self.value(scaled.target), i64::from(scaled.shift));
        let mode = self.state.mode;
        let result = if is_rounded {
            rounded(value, mode)
        } else {
            truncated(value)
        };
        let word = store_word(result, mode);
        destination.store(word, &mut self.state.w, &mut self.memory);
        Ok(None)
    }

    /// Kinds 16 to 25.
    fn without_accumulator(&mut self, operation: Operation) -> Effect {
        let state = &mut self.state;
        match operation {
            Operation::EndEarly => state.flow.end_early(self.operations),
            Operation::SetMode(mode) => state.mode = mode,
            Operation::ClearSaturation => state.saturated = [false; 2],
            _ if operation.is_repeat_or_do() => begin(operation, &state.w, &mut state.flow)?,
            _ => transfer(operation, &mut state.w, self.settings, &mut self.memory)?,
        }
        Ok(None)
    }
}

/// Kinds 16 to 18, which touch registers and memory alone. A loaded word beats
/// the pointer change; a store takes the unstepped register.
pub fn transfer(
    operation: Operation,
    w: &mut [u16; 14],
    settings: &Settings,
    memory: &mut Memory,
) -> Result<(), Trap> {
    match operation {
        Operation::Literal(register, value) => w[usize::from(register)] = value,
        Operation::Load {
            to,
            pointer,
            change,
        } => {
            let fetched = operand::fetch_at(pointer, change, w, settings, memory)?;
            if let Some(moved) = fetched.moved {
                moved.land(w);
            }
            w[usize::from(to)] = fetched.word;
        }
        Operation::Store {
            from,
            pointer,
            change,
        } => {
            let destination = operand::destination_at(pointer, change, w, settings, memory)?;
            let word = w[usize::from(from)];
            destination.store(word, w, memory);
        }
        _ => {}
    }
    Ok(())
}

/// Kinds 19 to 22: REPEAT and DO, which move pc on themselves. A register counts with
/// all its 16 bits.
pub fn begin(operation: Operation, w: &[u16; 14], flow: &mut Flow) -> Result<(), Trap> {
    match operation {
        Operation::RepeatLiteral(count) => flow.begin_repeat(count),
        Operation::RepeatRegister(register) => flow.begin_repeat(w[usize::from(register)]),
        Operation::DoLiteral { count, .. } => {
            flow.check_room()?;
            flow.begin_loop(count);
        }
        Operation::DoRegister { register, .. } => {
            flow.check_room()?;
            flow.begin_loop(w[usize::from(register)]);
        }
        _ => {}
    }
    Ok(())
}
