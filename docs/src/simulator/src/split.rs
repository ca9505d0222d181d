//! "Split": a run with budget n + m is the run with n and, if that is spent, the
//! run with m from what it left, steps added, the ledger's list carried on.

use crate::cases::Case;
use crate::ending::Ending;
use crate::engine::run;
use crate::ledger::{ledger_operations, LedgerEnding, LedgerState, ListedStore};
use crate::operation::Operation;
use crate::state::State;

/// What a run leaves, of the engine (a state, no list) or the ledger (a core).
#[derive(Clone, Debug, PartialEq, Eq)]
pub struct Part<C> {
    pub ending: LedgerEnding,
    pub core: C,
    pub memory: Vec<u16>,
    pub steps: u32,
    pub stores: Vec<ListedStore>,
}

/// A run of the engine, and one of the ledger over the case's operations: from a
/// state or core and a memory, with a budget.
pub type EngineRun = fn(&Case, &State, &[u16], u32) -> Part<State>;
pub type LedgerRun = fn(&Case, &[Operation], &LedgerState, &[u16], u32) -> Part<LedgerState>;

/// The runs that a service is made of.
#[derive(Clone, Copy)]
pub struct Runs {
    pub engine: EngineRun,
    pub ledger: LedgerRun,
}

impl Runs {
    /// The engine's and the ledger's own.
    pub const OWN: Runs = Runs {
        engine: engine_part,
        ledger: ledger_part,
    };
}

/// The engine's run: file and settings are the case's.
pub fn engine_part(case: &Case, state: &State, memory: &[u16], budget: u32) -> Part<State> {
    let mut memory = memory.to_vec();
    let outcome = run(&case.file, &case.settings, state, &mut memory, budget);
    Part {
        ending: LedgerEnding::AsRun(outcome.ending),
        core: outcome.state,
        memory,
        steps: outcome.steps,
        stores: Vec::new(),
    }
}

/// The ledger's run: the settings are the case's.
pub fn ledger_part(
    case: &Case,
    operations: &[Operation],
    core: &LedgerState,
    memory: &[u16],
    budget: u32,
) -> Part<LedgerState> {
    let outcome = ledger_operations(operations, &case.settings, core, memory, budget);
    Part {
        ending: outcome.ending,
        core: outcome.state,
        memory: outcome.memory,
        steps: outcome.steps,
        stores: outcome.stores,
    }
}

impl<C> Part<C> {
    /// This part, and the one that goes on from it.
    fn then(self, next: Part<C>) -> Part<C> {
        let mut stores = self.stores;
        stores.extend(next.stores.into_iter().map(|store| ListedStore {
            step: store.step + self.steps,
            ..store
        }));
        Part {
            steps: self.steps + next.steps,
            stores,
            ..next
        }
    }
}

/// Whether the run with `first` and then the rest of the budget is the whole run.
fn splits<C: PartialEq>(
    run: &impl Fn(&C, &[u16], u32) -> Part<C>,
    (core, memory): (&C, &[u16]),
    budget: u32,
    first: u32,
) -> bool {
    let mut parted = run(core, memory, first);
    if parted.ending == LedgerEnding::AsRun(Ending::Spent) {
        let next = run(&parted.core, &parted.memory, budget - first);
        parted = parted.then(next);
    }
    parted == run(core, memory, budget)
}

/// Where to split a run of so many steps: before it, in it, before its last step
/// and at its end.
fn places(steps: u32, budget: u32) -> Vec<u32> {
    let mut places = vec![0, steps / 3, steps.saturating_sub(1), steps];
    places.dedup();
    places.retain(|&place| place <= budget);
    places
}

/// Whether a run of so many steps splits at each of these places.
pub fn splits_everywhere<C: PartialEq>(
    run: impl Fn(&C, &[u16], u32) -> Part<C>,
    from: (&C, &[u16]),
    budget: u32,
    steps: u32,
) -> bool {
    let mut firsts = places(steps, budget).into_iter();
    firsts.all(|first| splits(&run, from, budget, first))
}
