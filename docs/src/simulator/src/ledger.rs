//! "Ledger": its own machine, with A and B as whole numbers and no S flags.
//! It shares decoding, addresses, operand fetch and stepping with the engine;
//! what it keeps, when it stops and what it lists are its own. What becomes of a
//! result outside the limits is a parameter: document 01's ledger stops there.

use crate::ending::{Ending, Trap};
use crate::engine::accept;
use crate::exact;
use crate::flow::Flow;
use crate::memory::Memory;
use crate::mode::Mode;
use crate::operand::{self, Destination, Place};
use crate::operation::*;
use crate::prefetch;
use crate::settings::Settings;
use crate::state::State;
use crate::step::{begin, transfer};
use crate::whole::Whole;
use crate::words::Reading;
use crate::write_back;

/// The engine's state except for A, B and the S flags.
#[derive(Clone, Copy, Debug, PartialEq, Eq)]
pub struct LedgerState<N = i128> {
    pub w: [u16; 14],
    pub accumulators: [N; 2],
    pub overflow: [bool; 2],
    pub mode: Mode,
    pub flow: Flow,
}

/// A store of an accumulator (kinds 14, 15, write-back).
#[derive(Clone, Copy, Debug, PartialEq, Eq)]
pub struct ListedStore<N = i128> {
    /// The number of the step, the first being 1.
    pub step: u32,
    pub place: Place,
    /// The exact scaled value v: the accumulator after the shift rule.
    pub value: N,
    /// The word, read as signed.
    pub word: i128,
    /// The result before SATDW was outside -32,768..32,767.
    pub limiting_needed: bool,
    /// Kind 15 or write-back.
    pub rounded: bool,
}

/// How the ledger ends.
#[derive(Clone, Copy, Debug, PartialEq, Eq)]
pub enum LedgerEnding {
    /// As a run does.
    AsRun(Ending),
    /// Stopped before a step whose exact result is outside the limits.
    Left,
}

#[derive(Clone, Debug, PartialEq, Eq)]
pub struct LedgerOutcome<N = i128> {
    pub ending: LedgerEnding,
    pub state: LedgerState<N>,
    pub memory: Vec<u16>,
    pub steps: u32,
    pub stores: Vec<ListedStore<N>>,
}

/// What is kept of an exact result outside the limits; nothing where the ledger
/// stops, marked "left".
pub type Beyond<N> = fn(N) -> Option<N>;

/// Document 01's ledger stops.
const STOPS: Beyond<i128> = |_| None;

/// Why a step stops the ledger.
enum Stop {
    /// Traps 1 to 4, without effect.
    Blocked(Trap),
    /// The exact result is outside the limits; without effect.
    Left,
}

impl From<Trap> for Stop {
    fn from(trap: Trap) -> Stop {
        Stop::Blocked(trap)
    }
}

/// The accumulator an operation wrote.
type Effect = Result<Option<Target>, Stop>;

struct Ledger<'a, N> {
    state: LedgerState<N>,
    operations: &'a [Operation],
    settings: &'a Settings,
    memory: Memory<'a>,
    steps: u32,
    stores: Vec<ListedStore<N>>,
    beyond: Beyond<N>,
}

impl LedgerState {
    /// The core of an engine's state.
    pub fn of(state: &State) -> LedgerState {
        LedgerState {
            w: state.w,
            accumulators: state.accumulators.map(i128::from),
            overflow: state.overflow,
            mode: state.mode,
            flow: state.flow,
        }
    }
}

impl<N> LedgerState<N> {
    /// The same with other whole numbers.
    pub fn with_numbers<M: From<N>>(self) -> LedgerState<M> {
        LedgerState {
            w: self.w,
            accumulators: self.accumulators.map(M::from),
            overflow: self.overflow,
            mode: self.mode,
            flow: self.flow,
        }
    }
}

impl<N: Clone> LedgerState<N> {
    /// To start again, as the engine's state does.
    pub fn restart(&self) -> LedgerState<N> {
        LedgerState {
            flow: Flow::reset(),
            ..self.clone()
        }
    }
}

impl<N> ListedStore<N> {
    /// The same with other whole numbers.
    fn with_numbers<M: From<N>>(self) -> ListedStore<M> {
        ListedStore {
            step: self.step,
            place: self.place,
            value: M::from(self.value),
            word: self.word,
            limiting_needed: self.limiting_needed,
            rounded: self.rounded,
        }
    }

    /// What stands at the store's place, read as signed.
    pub fn standing(&self, w: &[u16; 14], memory: &[u16]) -> i128 {
        let word = match self.place {
            Place::Register(register) => w[usize::from(register)],
            Place::Memory(index) => memory[index.0],
        };
        exact::factor(word, Reading::Signed)
    }
}

impl<N> LedgerOutcome<N> {
    /// The same with other whole numbers.
    pub fn with_numbers<M: From<N>>(self) -> LedgerOutcome<M> {
        let stores = self.stores.into_iter().map(ListedStore::with_numbers);
        LedgerOutcome {
            ending: self.ending,
            state: self.state.with_numbers(),
            memory: self.memory,
            steps: self.steps,
            stores: stores.collect(),
        }
    }
}

/// The ledger's run: from the engine's program, settings, state and budget and
/// a copy of its memory.
pub fn ledger_run(
    file: &[u8],
    settings: &Settings,
    state: &State,
    memory: &[u16],
    budget: u32,
) -> LedgerOutcome {
    ledger_run_beyond(file, settings, state, memory, budget, STOPS)
}

/// The same with what becomes of results outside the limits.
pub fn ledger_run_beyond<N: Whole>(
    file: &[u8],
    settings: &Settings,
    state: &State,
    memory: &[u16],
    budget: u32,
    beyond: Beyond<N>,
) -> LedgerOutcome<N> {
    let core = LedgerState::of(state).with_numbers();
    match accept(file, settings, state, memory.len()) {
        Ok(operations) => operations_beyond(&operations, settings, core, memory, budget, beyond),
        Err(number) => LedgerOutcome {
            ending: LedgerEnding::AsRun(Ending::Refused(number)),
            state: core,
            memory: memory.to_vec(),
            steps: 0,
            stores: Vec::new(),
        },
    }
}

/// The ledger's run of accepted operations from a core of its own and a copy of
/// the memory.
pub fn ledger_operations(
    operations: &[Operation],
    settings: &Settings,
    core: &LedgerState,
    memory: &[u16],
    budget: u32,
) -> LedgerOutcome {
    operations_beyond(operations, settings, *core, memory, budget, STOPS)
}

fn operations_beyond<N: Whole>(
    operations: &[Operation],
    settings: &Settings,
    core: LedgerState<N>,
    memory: &[u16],
    budget: u32,
    beyond: Beyond<N>,
) -> LedgerOutcome<N> {
    let mut copy = memory.to_vec();
    let mut ledger = Ledger {
        state: core,
        operations,
        settings,
        memory: Memory::new(&mut copy, settings.x_words),
        steps: 0,
        stores: Vec::new(),
        beyond,
    };
    let ending = ledger.run(budget);
    let (state, steps, stores) = (ledger.state, ledger.steps, ledger.stores);
    LedgerOutcome {
        ending,
        state,
        memory: copy,
        steps,
        stores,
    }
}

impl<N: Whole> Ledger<'_, N> {
    /// Done, else spent, else execute; and "left".
    fn run(&mut self, budget: u32) -> LedgerEnding {
        loop {
            if usize::from(self.state.flow.pc) == self.operations.len() {
                return LedgerEnding::AsRun(Ending::Done);
            }
            if self.steps == budget {
                return LedgerEnding::AsRun(Ending::Spent);
            }
            match self.step() {
                Err(Stop::Blocked(trap)) => return LedgerEnding::AsRun(Ending::Trap(trap)),
                Err(Stop::Left) => return LedgerEnding::Left,
                Ok(Some(trap)) => return LedgerEnding::AsRun(Ending::Trap(trap)),
                Ok(None) => {}
            }
        }
    }

    /// One counted step with the trap 6 or 7 that ends it, or a stop before it.
    fn step(&mut self) -> Result<Option<Trap>, Stop> {
        let operation = self.operations[usize::from(self.state.flow.pc)];
        let written = self.effect(operation)?;
        if !operation.is_repeat_or_do() {
            self.state.flow.advance(self.operations);
        }
        self.steps += 1;
        Ok(written.and_then(|target| self.trap_after(target)))
    }

    /// Traps 6 and 7 by the ledger's own O flags. Trap 5 cannot occur.
    fn trap_after(&self, target: Target) -> Option<Trap> {
        let overflow = self.state.overflow[target.index()];
        match target {
            Target::A => (overflow && self.settings.traps_overflow_a()).then_some(Trap::OverflowA),
            Target::B => (overflow && self.settings.traps_overflow_b()).then_some(Trap::OverflowB),
        }
    }

    fn value(&self, target: Target) -> N {
        self.state.accumulators[target.index()].clone()
    }

    /// What is kept of the exact result: itself within the limits.
    fn kept(&self, target: Target, exact: N) -> Result<N, Stop> {
        if exact::within_limits(&exact, self.state.mode, target) {
            Ok(exact)
        } else {
            (self.beyond)(exact).ok_or(Stop::Left)
        }
    }

    /// Keep it and redo the O flag.
    fn keep(&mut self, target: Target, kept: N) {
        self.state.overflow[target.index()] = exact::overflows(&kept);
        self.state.accumulators[target.index()] = kept;
    }

    fn product(&self, factors: Factors) -> N {
        let m = self.state.w[usize::from(factors.m)];
        let n = self.state.w[usize::from(factors.n)];
        N::from(exact::product(m, n, self.state.mode))
    }

    fn effect(&mut self, operation: Operation) -> Effect {
        use Operation::*;
        match operation {
            Clr(..) | Mpy(..) | Mac(..) | Msc(..) | Movsac(..) => self.prefetching(operation),
            Ed(target, m, difference) => {
                let square = self.product(Factors { m, n: m });
                self.distance(target, square, difference)
            }
            Edac(target, m, difference) => {
                let square = self.product(Factors { m, n: m });
                self.distance(target, self.value(target) + square, difference)
            }
            AddBoth(target) => self.result(target, self.value(Target::A) + self.value(Target::B)),
            Subtract(target) => {
                self.result(target, self.value(target) - self.value(target.other()))
            }
            Negate(target) => self.result(target, -self.value(target)),
            ShiftBy(target, register) => self.shift_by(target, register),
            Lac(scaled) => self.take(scaled, N::from(0)),
            Add(scaled) => self.take(scaled, self.value(scaled.target)),
            Sac(scaled) => self.store(scaled, false),
            SacR(scaled) => self.store(scaled, true),
            _ => self.without_accumulator(operation),
        }
    }

    fn result(&mut self, target: Target, exact: N) -> Effect {
        let kept = self.kept(target, exact)?;
        self.keep(target, kept);
        Ok(Some(target))
    }

    fn shift_by(&mut self, target: Target, register: Register) -> Effect {
        let by = exact::factor(self.state.w[usize::from(register)], Reading::Signed);
        if by.abs() > 16 {
            return Err(Stop::Blocked(Trap::ShiftTooFar));
        }
        self.result(target, exact::scaled(&self.value(target), by as i32))
    }

    /// Kinds 1 to 4 and 7.
    fn prefetching(&mut self, operation: Operation) -> Effect {
        use Operation::*;
        let (target, exact, prefetch, back) = match operation {
            Clr(target, prefetch, back) => (target, Some(N::from(0)), prefetch, back),
            Mpy(target, factors, prefetch) => {
                let exact = self.product(factors);
                (target, Some(exact), prefetch, WriteBack::None)
            }
            Mac(target, factors, prefetch, back) => {
                let exact = self.value(target) + self.product(factors);
                (target, Some(exact), prefetch, back)
            }
            Msc(target, factors, prefetch, back) => {
                let exact = self.value(target) - self.product(factors);
                (target, Some(exact), prefetch, back)
            }
            Movsac(target, prefetch, back) => (target, None, prefetch, back),
            _ => return Ok(None),
        };
        let w = &self.state.w;
        let arrivals = prefetch::fetch(prefetch, w, self.settings, &self.memory)?;
        let destination = write_back::destination(back, w, self.settings, &self.memory)?;
        let kept = exact.map(|exact| self.kept(target, exact)).transpose()?;
        if let Some(destination) = destination {
            self.store_value(self.value(target.other()), true, destination);
        }
        arrivals.land(&mut self.state.w);
        Ok(kept.map(|kept| {
            self.keep(target, kept);
            target
        }))
    }

    /// Kinds 5 and 6.
    fn distance(&mut self, target: Target, exact: N, difference: Difference) -> Effect {
        let w = &self.state.w;
        let arrivals = prefetch::fetch_difference(difference, w, self.settings, &self.memory)?;
        let kept = self.kept(target, exact)?;
        arrivals.land(&mut self.state.w);
        self.keep(target, kept);
        Ok(Some(target))
    }

    /// Kinds 12 and 13.
    fn take(&mut self, scaled: Scaled, to: N) -> Effect {
        let w = &self.state.w;
        let fetched = operand::fetch(scaled.operand, w, self.settings, &self.memory)?;
        let word = exact::factor(fetched.word, Reading::Signed) * 65_536;
        let term = exact::scaled(&word, i32::from(scaled.shift));
        let kept = self.kept(scaled.target, to + N::from(term))?;
        if let Some(moved) = fetched.moved {
            moved.land(&mut self.state.w);
        }
        self.keep(scaled.target, kept);
        Ok(Some(scaled.target))
    }

    /// Kinds 14 and 15.
    fn store(&mut self, scaled: Scaled, is_rounded: bool) -> Effect {
        let w = &self.state.w;
        let destination = operand::destination(scaled.operand, w, self.settings, &self.memory)?;
        let value = exact::scaled(&self.value(scaled.target), i32::from(scaled.shift));
        self.store_value(value, is_rounded, destination);
        Ok(None)
    }

    /// Store an exact scaled value and list it.
    fn store_value(&mut self, value: N, is_rounded: bool, destination: Destination) {
        let result = exact::stored(&value, is_rounded, self.state.mode);
        let word = exact::word(&result, self.state.mode);
        self.stores.push(ListedStore {
            step: self.steps + 1,
            place: destination.place,
            value,
            word,
            limiting_needed: exact::needs_limiting(&result),
            rounded: is_rounded,
        });
        let stored = word.rem_euclid(65_536) as u16;
        destination.store(stored, &mut self.state.w, &mut self.memory);
    }

    /// Kinds 16 to 25; 25 changes nothing here.
    fn without_accumulator(&mut self, operation: Operation) -> Effect {
        let state = &mut self.state;
        match operation {
            Operation::EndEarly => state.flow.end_early(self.operations),
            Operation::SetMode(mode) => state.mode = mode,
            Operation::ClearSaturation => {}
            _ if operation.is_repeat_or_do() => begin(operation, &state.w, &mut state.flow)?,
            _ => transfer(operation, &mut state.w, self.settings, &mut self.memory)?,
        }
        Ok(None)
    }
}
