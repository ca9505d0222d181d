//! Wrong services, and that the statement's checker notices each of them: services
//! with a wrong part before a run, with wrong results, and runs that do not split.

use std::collections::BTreeSet;

use simulator::flow::Loop;
use simulator::generate::random::Random;
use simulator::generate::services::random::bound_service;
use simulator::ledger::{LedgerState, ListedStore};
use simulator::mode::Mode;
use simulator::service::*;
use simulator::split::{engine_part, ledger_part, EngineRun, LedgerRun, Part, Runs};
use simulator::statement::{faults_with, Point};
use simulator::{Ending, State};

type Served = (Vec<EngineBag>, Vec<LedgerBag>);

fn right(service: &Service) -> Served {
    (engine_service(service), ledger_service(service))
}

/// The points by which these services are noticed, over hundreds of random ones.
fn noticed(name: &str, serve: impl Fn(&Service) -> Served) -> BTreeSet<Point> {
    noticed_with(name, serve, Runs::OWN)
}

/// The same with the runs that they are looked at by.
fn noticed_with(name: &str, serve: impl Fn(&Service) -> Served, runs: Runs) -> BTreeSet<Point> {
    let mut random = Random::new(61);
    let (mut points, mut services) = (BTreeSet::new(), 0);
    for _ in 0..250 {
        let service = bound_service(&mut random);
        let (engine, ledger) = serve(&service);
        let faults = faults_with(&service, &engine, &ledger, runs);
        services += usize::from(!faults.is_empty());
        points.extend(faults.iter().map(|fault| fault.point));
    }
    println!("{name}: {services} services, {points:?}");
    points
}

fn is_noticed(name: &str, serve: impl Fn(&Service) -> Served, by: &[Point]) {
    let points = noticed(name, serve);
    for point in by {
        assert!(points.contains(point), "{name}: not by {point:?}");
    }
}

/// The engine with something else than a restart, the ledger as it is.
fn restarting(service: &Service, begin: fn(&Bag, &State, &mut [u16]) -> State) -> Served {
    let engine = engine_service_with(service, begin);
    (engine, ledger_service(service))
}

/// The ledger with something else before its runs, the engine as it is.
fn beginning(
    service: &Service,
    begin: fn(&Bag, &LedgerState, &mut [u16]) -> LedgerState,
) -> Served {
    let ledger = ledger_service_with(service, begin);
    (engine_service(service), ledger)
}

#[test]
fn right_services_are_not_noticed() {
    assert_eq!(noticed("right", right), BTreeSet::new());
}

// ---- wrong restarts of the engine

#[test]
fn a_restart_that_clears_sa() {
    fn begin(bag: &Bag, state: &State, memory: &mut [u16]) -> State {
        let mut begun = bag.begin(state, memory);
        begun.saturated[0] &= !bag.restart;
        begun
    }
    let serve = |service: &Service| restarting(service, begin);
    is_noticed("restart clears SA", serve, &[Point::Stays, Point::Flags]);
}

#[test]
fn a_restart_that_keeps_repeat_left() {
    fn begin(bag: &Bag, state: &State, memory: &mut [u16]) -> State {
        let mut begun = bag.begin(state, memory);
        begun.flow.repeat = state.flow.repeat;
        begun
    }
    let serve = |service: &Service| restarting(service, begin);
    is_noticed("restart keeps repeat left", serve, &[Point::Accepted]);
}

#[test]
fn a_restart_that_keeps_the_loops() {
    fn begin(bag: &Bag, state: &State, memory: &mut [u16]) -> State {
        let mut begun = bag.begin(state, memory);
        begun.flow.loops = state.flow.loops;
        begun.flow.active = state.flow.active;
        begun
    }
    let serve = |service: &Service| restarting(service, begin);
    is_noticed("restart keeps the loops", serve, &[Point::Accepted]);
    // The count alone is right: what is left in the slots is noticed.
    fn slots_alone(bag: &Bag, state: &State, memory: &mut [u16]) -> State {
        let mut begun = bag.begin(state, memory);
        begun.flow.loops = state.flow.loops;
        begun
    }
    let serve = |service: &Service| restarting(service, slots_alone);
    is_noticed("restart keeps the slots", serve, &[Point::Accepted]);
}

#[test]
fn a_restart_that_is_a_reset() {
    fn begin(bag: &Bag, state: &State, memory: &mut [u16]) -> State {
        let begun = bag.begin(state, memory);
        match bag.restart {
            true => State::reset(),
            false => begun,
        }
    }
    let points = [Point::Flags, Point::Alike, Point::Stores, Point::Stays];
    let serve = |service: &Service| restarting(service, begin);
    is_noticed("restart resets", serve, &points);
}

#[test]
fn a_restart_that_sets_the_mode_word() {
    fn begin(bag: &Bag, state: &State, memory: &mut [u16]) -> State {
        let mut begun = bag.begin(state, memory);
        if bag.restart {
            begun.mode = Mode::RESET;
        }
        begun
    }
    let serve = |service: &Service| restarting(service, begin);
    is_noticed("restart sets the mode", serve, &[Point::Alike]);
}

#[test]
fn bags_that_never_start_again() {
    fn begin(bag: &Bag, state: &State, memory: &mut [u16]) -> State {
        bag.change.apply(memory);
        *state
    }
    let serve = |service: &Service| restarting(service, begin);
    is_noticed("no restart", serve, &[Point::Alike]);
}

#[test]
fn a_first_bag_that_does_not_start_again() {
    let serve = |service: &Service| {
        let mut goes_on = service.clone();
        if let Some(bag) = goes_on.bags.first_mut() {
            bag.restart = false;
        }
        (engine_service(&goes_on), ledger_service(service))
    };
    let points = [Point::Accepted, Point::Alike];
    is_noticed("the first bag goes on", serve, &points);
}

// ---- wrong ledgers

#[test]
fn a_ledger_that_starts_each_bag_from_reset() {
    fn begin(bag: &Bag, core: &LedgerState, memory: &mut [u16]) -> LedgerState {
        bag.begin_ledger(core, memory);
        LedgerState::of(&State::reset())
    }
    let points = [Point::Flags, Point::Alike, Point::Stores];
    let serve = |service: &Service| beginning(service, begin);
    is_noticed("ledger from reset", serve, &points);
}

#[test]
fn a_ledger_that_clears_its_sums_in_each_bag() {
    fn begin(bag: &Bag, core: &LedgerState, memory: &mut [u16]) -> LedgerState {
        LedgerState {
            accumulators: [0; 2],
            ..bag.begin_ledger(core, memory)
        }
    }
    let points = [Point::Flags, Point::Alike, Point::Stores];
    let serve = |service: &Service| beginning(service, begin);
    is_noticed("ledger without old sums", serve, &points);
}

#[test]
fn a_ledger_without_the_controllers_change_of_memory() {
    fn begin(bag: &Bag, core: &LedgerState, memory: &mut [u16]) -> LedgerState {
        bag.begin_ledger(core, &mut memory.to_vec())
    }
    let points = [Point::Flags, Point::Alike, Point::Stores];
    let serve = |service: &Service| beginning(service, begin);
    is_noticed("ledger's memory unchanged", serve, &points);
}

/// The bags after the one that left, from the core and the memory it left.
fn rest_of(service: &Service, ledger: &[LedgerBag]) -> Service {
    let mut start = service.start.clone();
    if let Some(last) = ledger.last() {
        let core = &last.outcome.state;
        start.memory.clone_from(&last.outcome.memory);
        start.state = State {
            w: core.w,
            accumulators: core.accumulators.map(|value| value as i64),
            overflow: core.overflow,
            mode: core.mode,
            flow: core.flow,
            ..start.state
        };
    }
    let bags = service.bags[ledger.len()..].to_vec();
    Service { start, bags }
}

#[test]
fn a_ledger_that_goes_on_after_it_left() {
    let serve = |service: &Service| {
        let (engine, mut ledger) = right(service);
        while ledger.len() < service.bags.len() {
            ledger.extend(ledger_service(&rest_of(service, &ledger)));
        }
        (engine, ledger)
    };
    let points = [Point::Served, Point::Stores];
    is_noticed("ledger goes on", serve, &points);
}

#[test]
fn a_ledger_without_the_bag_that_left() {
    let serve = |service: &Service| {
        let (engine, mut ledger) = right(service);
        ledger.retain(|bag| !bag.left());
        (engine, ledger)
    };
    let points = [Point::Served, Point::Flags];
    is_noticed("ledger drops the bag that left", serve, &points);
}

/// The ledger's lists with every store changed.
fn listing(service: &Service, change: fn(&mut ListedStore, u32)) -> Served {
    let (engine, mut ledger) = right(service);
    let mut before = 0;
    for bag in &mut ledger {
        let stores = bag.outcome.stores.iter_mut();
        stores.for_each(|store| change(store, before));
        before += bag.outcome.steps;
    }
    (engine, ledger)
}

#[test]
fn lists_that_count_steps_from_the_first_bag() {
    let serve = |service: &Service| listing(service, |store, before| store.step += before);
    is_noticed("steps of the service", serve, &[Point::Stores]);
}

#[test]
fn lists_with_another_word_or_value() {
    let word = |service: &Service| listing(service, |store, _| store.word ^= 1);
    is_noticed("another word", word, &[Point::Stores]);
    let value = |service: &Service| listing(service, |store, _| store.value += 65_536);
    is_noticed("another value", value, &[Point::Stores]);
}

#[test]
fn lists_with_one_other_word_among_many() {
    let serve = |service: &Service| {
        let (engine, mut ledger) = right(service);
        let lists = ledger.iter_mut().map(|bag| &mut bag.outcome.stores);
        for stores in lists.filter(|stores| stores.len() >= 5) {
            stores[1].word ^= 1;
        }
        (engine, ledger)
    };
    is_noticed("one word among many", serve, &[Point::Stores]);
}

// ---- wrong results of the engine

/// The engine's bags changed one by one, as if its runs had answered so.
fn answering(service: &Service, change: fn(&mut EngineBag)) -> Served {
    let (mut engine, ledger) = right(service);
    engine.iter_mut().for_each(change);
    (engine, ledger)
}

#[test]
fn flags_looked_at_after_the_first_bag_only() {
    let serve = |service: &Service| {
        let (mut engine, ledger) = right(service);
        let first = engine.first().map(|bag| bag.outcome.state.saturated);
        for bag in &mut engine {
            bag.outcome.state.saturated = first.unwrap_or_default();
        }
        (engine, ledger)
    };
    is_noticed("flags of the first bag", serve, &[Point::Flags]);
}

#[test]
fn a_loop_slot_left_over_after_a_trap() {
    fn leave(bag: &mut EngineBag) {
        let flow = &mut bag.outcome.state.flow;
        let slot = flow.loops.get_mut(usize::from(flow.active));
        if let (Ending::Trap(_), Some(slot)) = (bag.outcome.ending, slot) {
            let (do_number, passes) = (0, 1);
            *slot = Loop { do_number, passes };
        }
    }
    let serve = |service: &Service| answering(service, leave);
    is_noticed("slot after a trap", serve, &[Point::Accepted]);
}

#[test]
fn an_s_flag_raised_needlessly() {
    fn raise(bag: &mut EngineBag) {
        let state = &mut bag.outcome.state;
        let flags = state.saturated.iter_mut().zip(state.overflow);
        flags.for_each(|(s, o)| *s |= o);
    }
    let serve = |service: &Service| answering(service, raise);
    is_noticed("S with O", serve, &[Point::Flags]);
}

#[test]
fn a_bag_that_is_not_served() {
    let serve = |service: &Service| {
        let (mut engine, ledger) = right(service);
        engine.pop();
        (engine, ledger)
    };
    is_noticed("a bag less", serve, &[Point::Served]);
}

#[test]
fn other_endings_steps_registers_and_memories() {
    fn steps(bag: &mut EngineBag) {
        bag.outcome.steps += 1;
    }
    fn ending(bag: &mut EngineBag) {
        bag.outcome.ending = Ending::Done;
    }
    fn register(bag: &mut EngineBag) {
        bag.outcome.state.w[13] ^= 1;
    }
    fn memory(bag: &mut EngineBag) {
        bag.memory[0] ^= 1;
    }
    for (name, change) in [
        ("a step more", steps as fn(&mut EngineBag)),
        ("always done", ending),
        ("another register", register),
        ("another word", memory),
    ] {
        let serve = |service: &Service| answering(service, change);
        is_noticed(name, serve, &[Point::Alike]);
    }
}

// ---- runs that do not split, in services that are right otherwise

fn does_not_split(name: &str, runs: Runs) {
    let points = noticed_with(name, right, runs);
    assert!(points.contains(&Point::Split), "{name}");
}

#[test]
fn engine_runs_that_do_not_split() {
    let forgets_repeats: EngineRun = |case, state, memory, budget| {
        let mut part = engine_part(case, state, memory, budget);
        part.core.flow.repeat = part.core.flow.repeat.min(1);
        part
    };
    let ends_loops: EngineRun = |case, state, memory, budget| {
        let mut part = engine_part(case, state, memory, budget);
        let slots = part.core.flow.loops.iter_mut();
        slots.for_each(|slot| slot.passes = slot.passes.min(1));
        part
    };
    let restarts: EngineRun = |case, state, memory, budget| {
        let part = engine_part(case, state, memory, budget);
        let core = part.core.restart();
        Part { core, ..part }
    };
    let wrong = [
        ("repeats are forgotten", forgets_repeats),
        ("loops end early", ends_loops),
        ("runs restart", restarts),
    ];
    for (name, engine) in wrong {
        does_not_split(
            name,
            Runs {
                engine,
                ..Runs::OWN
            },
        );
    }
}

#[test]
fn long_engine_runs_that_leave_no_words() {
    let engine: EngineRun = |case, state, given, budget| {
        let mut part = engine_part(case, state, given, budget);
        if part.steps > 12 {
            part.memory = given.to_vec();
        }
        part
    };
    let runs = Runs {
        engine,
        ..Runs::OWN
    };
    let points = noticed_with("long runs leave no words", right, runs);
    assert_eq!(points, BTreeSet::from([Point::Split, Point::Stores]));
}

#[test]
fn ledger_runs_that_do_not_split() {
    let lists_no_more: LedgerRun = |case, operations, core, memory, budget| {
        let mut part = ledger_part(case, operations, core, memory, budget);
        if core.flow.pc > 0 {
            part.stores.clear();
        }
        part
    };
    let counts_from_0: LedgerRun = |case, operations, core, memory, budget| {
        let mut part = ledger_part(case, operations, core, memory, budget);
        let first = part.stores.first().map_or(0, |store| store.step);
        part.stores.iter_mut().for_each(|store| store.step -= first);
        part
    };
    let clears_sums: LedgerRun = |case, operations, core, memory, budget| {
        let mut part = ledger_part(case, operations, core, memory, budget);
        part.core.accumulators = [0; 2];
        part
    };
    let wrong = [
        ("the list is not carried on", lists_no_more),
        ("the list counts from 0", counts_from_0),
        ("sums are not carried on", clears_sums),
    ];
    for (name, ledger) in wrong {
        does_not_split(
            name,
            Runs {
                ledger,
                ..Runs::OWN
            },
        );
    }
}
