//! "The statement" of a service, held against one service as the engine and the
//! ledger served it. What holds for every list of bags holds for the bags up to
//! any of them, so points 3a and 3b are looked at after every bag.

use std::fmt;

use crate::engine::accept;
use crate::file::check_file;
use crate::ledger::{LedgerEnding, LedgerState, ListedStore};
use crate::operation::Operation;
use crate::service::{engine_service, ledger_service, EngineBag, LedgerBag, Service};
use crate::split::{splits_everywhere, Runs};
use crate::state::State;

/// The points of the statement.
#[derive(Clone, Copy, Debug, PartialEq, Eq, PartialOrd, Ord)]
pub enum Point {
    /// 1: no later call is refused, nor one from what the last bag left.
    Accepted,
    /// 2: a run in two parts is the run in one.
    Split,
    /// 3a: both S flags are clear exactly when no bag's ledger run left.
    Flags,
    /// 3b: then engine and ledger are alike.
    Alike,
    /// 3c: listed words are the engine's, rounded ones half a unit off at most.
    Stores,
    /// A set S flag stays set.
    Stays,
    /// The engine serves every bag, the ledger those up to the first that left.
    Served,
}

/// What is wrong, and with which bag.
#[derive(Clone, Debug, PartialEq, Eq)]
pub struct Fault {
    pub point: Point,
    pub bag: usize,
    pub what: &'static str,
}

impl fmt::Display for Fault {
    fn fmt(&self, f: &mut fmt::Formatter) -> fmt::Result {
        write!(f, "{:?}, bag {}: {}", self.point, self.bag, self.what)
    }
}

/// A service with what the engine and the ledger made of it, and the faults found.
struct Statement<'a> {
    service: &'a Service,
    operations: Vec<Operation>,
    engine: &'a [EngineBag],
    ledger: &'a [LedgerBag],
    runs: Runs,
    faults: Vec<Fault>,
}

/// What is wrong with a service: nothing for every one that the statement is about,
/// whose first call is not refused. Of another the first bag is a fault.
pub fn faults(service: &Service) -> Vec<Fault> {
    faults_of(service, &engine_service(service), &ledger_service(service))
}

/// What is wrong with a service as it was served.
pub fn faults_of(service: &Service, engine: &[EngineBag], ledger: &[LedgerBag]) -> Vec<Fault> {
    faults_with(service, engine, ledger, Runs::OWN)
}

/// The same with the runs that it was served by, for points 2 and 3c.
pub fn faults_with(
    service: &Service,
    engine: &[EngineBag],
    ledger: &[LedgerBag],
    runs: Runs,
) -> Vec<Fault> {
    let operations = check_file(&service.start.file).map_or(Vec::new(), |(_, all)| all);
    let mut statement = Statement {
        service,
        operations,
        engine,
        ledger,
        runs,
        faults: Vec::new(),
    };
    statement.served();
    statement.accepted();
    statement.split();
    statement.stays();
    if is_bound_by_3(service) {
        statement.flags();
        statement.alike();
        statement.stores();
    }
    statement.faults
}

/// Whether a program has no kind 25.
fn never_clears(operations: &[Operation]) -> bool {
    !operations.contains(&Operation::ClearSaturation)
}

/// Point 3's premise: no kind 25 in the program, both S flags clear at first.
pub fn is_bound_by_3(service: &Service) -> bool {
    let program = check_file(&service.start.file);
    program.is_ok_and(|(_, operations)| never_clears(&operations)) && is_clear(&service.start.state)
}

fn is_clear(state: &State) -> bool {
    state.saturated == [false; 2]
}

impl Statement<'_> {
    /// Note a fault where something does not hold.
    fn ask(&mut self, holds: bool, point: Point, bag: usize, what: &'static str) {
        if !holds {
            self.faults.push(Fault { point, bag, what });
        }
    }

    /// The bags served are the bags there are, the ledger's up to the first that
    /// left.
    fn served(&mut self) {
        let bags = self.service.bags.len();
        let left = self.ledger.iter().position(LedgerBag::left);
        let by_ledger = left.map_or(bags, |bag| bag + 1);
        let engine = self.engine.len() == bags;
        self.ask(engine, Point::Served, bags, "bags of the engine");
        let ledger = self.ledger.len() == by_ledger;
        self.ask(ledger, Point::Served, by_ledger, "bags of the ledger");
    }

    /// Point 1: no bag is refused, and what it left is accepted again, gone on
    /// with or restarted.
    fn accepted(&mut self) {
        let start = &self.service.start;
        let is_accepted = |state: &State, words: usize| {
            accept(&start.file, &start.settings, state, words).is_ok()
        };
        for (i, bag) in self.engine.iter().enumerate() {
            let begins = is_accepted(&bag.state, bag.given.len());
            self.ask(begins, Point::Accepted, i, "the call is refused");
            let (state, words) = (&bag.outcome.state, bag.memory.len());
            let goes_on = is_accepted(state, words);
            self.ask(goes_on, Point::Accepted, i, "what it left is refused");
            let restarts = is_accepted(&state.restart(), words);
            self.ask(restarts, Point::Accepted, i, "its restart is refused");
        }
    }

    /// Point 2 for engine and ledger, at some places of each bag.
    fn split(&mut self) {
        let (engine, ledger) = (self.engine, self.ledger);
        for (i, bag) in engine.iter().enumerate() {
            let holds = self.engine_splits(i, bag);
            self.ask(holds, Point::Split, i, "the engine's run in two parts");
        }
        for (i, bag) in ledger.iter().enumerate() {
            let holds = self.ledger_splits(i, bag);
            self.ask(holds, Point::Split, i, "the ledger's run in two parts");
        }
    }

    fn engine_splits(&self, i: usize, bag: &EngineBag) -> bool {
        let run = |state: &State, memory: &[u16], budget| {
            (self.runs.engine)(&self.service.start, state, memory, budget)
        };
        let (budget, steps) = (self.service.bags[i].budget, bag.outcome.steps);
        splits_everywhere(run, (&bag.state, &bag.given), budget, steps)
    }

    fn ledger_splits(&self, i: usize, bag: &LedgerBag) -> bool {
        let start = &self.service.start;
        let run = |core: &LedgerState, memory: &[u16], budget| {
            (self.runs.ledger)(start, &self.operations, core, memory, budget)
        };
        let (budget, steps) = (self.service.bags[i].budget, bag.outcome.steps);
        splits_everywhere(run, (&bag.state, &bag.given), budget, steps)
    }

    /// A set S flag stays set, from the first state on.
    fn stays(&mut self) {
        if !never_clears(&self.operations) {
            return;
        }
        let mut before = self.service.start.state.saturated;
        for (i, bag) in self.engine.iter().enumerate() {
            let after = bag.outcome.state.saturated;
            let stays = before.into_iter().zip(after).all(|(old, new)| !old || new);
            self.ask(stays, Point::Stays, i, "a set S flag is clear");
            before = after;
        }
    }

    /// Point 3a, after every bag.
    fn flags(&mut self) {
        let left = self.ledger.iter().position(LedgerBag::left);
        for (i, bag) in self.engine.iter().enumerate() {
            let has_left = left.is_some_and(|first| first <= i);
            let holds = is_clear(&bag.outcome.state) != has_left;
            self.ask(holds, Point::Flags, i, "S flags and \"left\" differ");
        }
    }

    /// Point 3b, after every bag up to which none left.
    fn alike(&mut self) {
        let (engine, ledger) = (self.engine, self.ledger);
        let together = engine.iter().zip(ledger).enumerate();
        for (i, (bag, exact)) in together.take_while(|(_, (_, exact))| !exact.left()) {
            let (outcome, ledger) = (&bag.outcome, &exact.outcome);
            let core = LedgerState::of(&outcome.state) == ledger.state;
            self.ask(core, Point::Alike, i, "cores differ");
            let memory = bag.memory == ledger.memory;
            self.ask(memory, Point::Alike, i, "memories differ");
            let ending = LedgerEnding::AsRun(outcome.ending) == ledger.ending;
            let steps = outcome.steps == ledger.steps;
            self.ask(ending && steps, Point::Alike, i, "endings or steps differ");
        }
    }

    /// Point 3c, for every bag that the ledger served.
    fn stores(&mut self) {
        let (engine, ledger) = (self.engine, self.ledger);
        for (i, (bag, exact)) in engine.iter().zip(ledger).enumerate() {
            let stores = &exact.outcome.stores;
            let words = self.words_stand(bag, stores) && self.words_are_found(bag, stores);
            self.ask(words, Point::Stores, i, "a listed word is not the engine's");
            let near = stores.iter().all(is_near);
            self.ask(near, Point::Stores, i, "a rounded word is far off");
        }
    }

    /// Every listed word, by a run that goes on from store to store.
    fn words_stand(&self, bag: &EngineBag, stores: &[ListedStore]) -> bool {
        let (mut state, mut memory, mut done) = (bag.state, bag.given.clone(), 0);
        stores.iter().all(|store| {
            let Some(further) = store.step.checked_sub(done) else {
                return false;
            };
            let part = (self.runs.engine)(&self.service.start, &state, &memory, further);
            (state, memory, done) = (part.core, part.memory, store.step);
            store.standing(&state.w, &memory) == store.word
        })
    }

    /// The first, the last and one between by a run from the bag's start, with the
    /// steps up to and including the store's as budget.
    fn words_are_found(&self, bag: &EngineBag, stores: &[ListedStore]) -> bool {
        let chosen = [stores.first(), stores.get(stores.len() / 2), stores.last()];
        chosen.into_iter().flatten().all(|store| {
            let start = &self.service.start;
            let part = (self.runs.engine)(start, &bag.state, &bag.given, store.step);
            part.steps == store.step && store.standing(&part.core.w, &part.memory) == store.word
        })
    }
}

/// A rounded store that needed no limiting is half a unit off at most.
fn is_near(store: &ListedStore) -> bool {
    let is_bound = store.rounded && !store.limiting_needed;
    !is_bound || (65_536 * store.word - store.value).abs() <= 32_768
}
