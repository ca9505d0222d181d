//! "A service": bags served one after the other, each with what the one before
//! it left, by the engine and by the ledger.

use crate::cases::Case;
use crate::engine::{accept, run, Outcome};
use crate::ledger::{ledger_operations, LedgerEnding, LedgerOutcome, LedgerState};
use crate::operation::Operation;
use crate::state::State;

/// What the controller makes of the memory before a bag's run. Its length stays.
#[derive(Clone, Debug, PartialEq, Eq)]
pub enum Change {
    /// These words from word `first` on.
    Put { first: usize, words: Vec<u16> },
    /// So many words of it, from one place to another.
    Copy { from: usize, to: usize, size: usize },
}

impl Change {
    pub fn apply(&self, memory: &mut [u16]) {
        match self {
            Change::Put { first, words } => {
                memory[*first..first + words.len()].copy_from_slice(words);
            }
            Change::Copy { from, to, size } => memory.copy_within(*from..from + size, *to),
        }
    }
}

#[derive(Clone, Debug, PartialEq, Eq)]
pub struct Bag {
    pub change: Change,
    /// The program starts again; otherwise it goes on.
    pub restart: bool,
    pub budget: u32,
}

/// What is there before the first bag, and the bags.
#[derive(Clone, Debug, PartialEq, Eq)]
pub struct Service {
    /// File, settings, state and memory; its budget is not looked at. The state
    /// may be another program's where the first bag starts again.
    pub start: Case,
    pub bags: Vec<Bag>,
}

impl Service {
    /// The first call: the first bag's, with the restart of the first state where
    /// that bag starts again. Its refusal, or the operations.
    pub fn first_call(&self) -> Result<Vec<Operation>, u8> {
        let start = &self.start;
        let state = match self.bags.first() {
            Some(bag) => bag.begun(&start.state),
            None => start.state,
        };
        let words = start.memory.len();
        accept(&start.file, &start.settings, &state, words)
    }
}

/// A bag as the engine served it.
#[derive(Clone, Debug, PartialEq, Eq)]
pub struct EngineBag {
    /// State and memory at the start of the bag's run.
    pub state: State,
    pub given: Vec<u16>,
    pub outcome: Outcome,
    /// The memory that the run left.
    pub memory: Vec<u16>,
}

/// A bag as the ledger served it; its memory afterwards is in the outcome.
#[derive(Clone, Debug, PartialEq, Eq)]
pub struct LedgerBag {
    pub state: LedgerState,
    pub given: Vec<u16>,
    pub outcome: LedgerOutcome,
}

impl LedgerBag {
    /// The run is marked "left".
    pub fn left(&self) -> bool {
        self.outcome.ending == LedgerEnding::Left
    }
}

impl Bag {
    /// The state that the bag's run begins with.
    fn begun(&self, state: &State) -> State {
        if self.restart {
            state.restart()
        } else {
            *state
        }
    }

    /// What comes before the engine's run: the controller's change of memory, the
    /// restart where the bag starts again.
    pub fn begin(&self, state: &State, memory: &mut [u16]) -> State {
        self.change.apply(memory);
        self.begun(state)
    }

    /// The same before the ledger's run.
    pub fn begin_ledger(&self, core: &LedgerState, memory: &mut [u16]) -> LedgerState {
        self.change.apply(memory);
        if self.restart {
            core.restart()
        } else {
            *core
        }
    }
}

/// The engine's service: a run for each bag.
pub fn engine_service(service: &Service) -> Vec<EngineBag> {
    engine_service_with(service, Bag::begin)
}

/// A run for each bag, with what comes before it.
pub fn engine_service_with(
    service: &Service,
    begin: fn(&Bag, &State, &mut [u16]) -> State,
) -> Vec<EngineBag> {
    let Case { file, settings, .. } = &service.start;
    let (mut state, mut memory) = (service.start.state, service.start.memory.clone());
    let mut served = Vec::with_capacity(service.bags.len());
    for bag in &service.bags {
        let begun = begin(bag, &state, &mut memory);
        let given = memory.clone();
        let outcome = run(file, settings, &begun, &mut memory, bag.budget);
        state = outcome.state;
        served.push(EngineBag {
            state: begun,
            given,
            outcome,
            memory: memory.clone(),
        });
    }
    served
}

/// The ledger's service, on its own core and its own memory: it ends with the
/// first bag whose run is marked "left", that bag included. Nothing is served where
/// the first call is refused.
pub fn ledger_service(service: &Service) -> Vec<LedgerBag> {
    ledger_service_with(service, Bag::begin_ledger)
}

/// The ledger's runs, with what comes before each.
pub fn ledger_service_with(
    service: &Service,
    begin: fn(&Bag, &LedgerState, &mut [u16]) -> LedgerState,
) -> Vec<LedgerBag> {
    let start = &service.start;
    let Ok(operations) = service.first_call() else {
        return Vec::new();
    };
    let (mut core, mut memory) = (LedgerState::of(&start.state), start.memory.clone());
    let mut served: Vec<LedgerBag> = Vec::new();
    for bag in &service.bags {
        if served.last().is_some_and(LedgerBag::left) {
            break;
        }
        let state = begin(bag, &core, &mut memory);
        let outcome = ledger_operations(&operations, &start.settings, &state, &memory, bag.budget);
        core = outcome.state;
        let given = std::mem::replace(&mut memory, outcome.memory.clone());
        served.push(LedgerBag {
            state,
            given,
            outcome,
        });
    }
    served
}
