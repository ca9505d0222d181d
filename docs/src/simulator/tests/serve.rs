//! The call `serve`: it is the engine's service, or it is refused and changes
//! nothing; and the statement holds of what it serves.

use simulator::bags::{Served, Serving};
use simulator::engine::accept;
use simulator::generate::random::Random;
use simulator::generate::services::parts;
use simulator::generate::services::random::random_serving;
use simulator::service::engine_service;
use simulator::statement::faults;
use simulator::State;

/// What a call that is not refused comes to, by the engine's service.
fn as_served(serving: &Serving) -> Served {
    let engine = engine_service(&serving.service());
    let last = engine.last();
    let (mut endings, mut steps) = as_lent(serving);
    for (i, bag) in engine.iter().enumerate() {
        endings[i] = bag.outcome.ending.code().expect("not refused");
        steps[i] = bag.outcome.steps;
    }
    Served {
        answer: Ok(last.map_or(serving.start.state, |bag| bag.outcome.state)),
        memory: last.map_or(serving.start.memory.clone(), |bag| bag.memory.clone()),
        endings,
        steps,
    }
}

/// Endings and steps as they come.
fn as_lent(serving: &Serving) -> (Vec<u8>, Vec<u32>) {
    let item = |i: u32| i % 251;
    let [endings, steps] = serving.room;
    let endings = (0..endings).map(|i| item(i) as u8);
    (endings.collect(), (0..steps).map(item).collect())
}

/// The state that is judged: with a bag and a restart for it that is not 0, the
/// restart of the one handed in.
fn judged(serving: &Serving) -> State {
    let state = serving.start.state;
    let starts_again = serving.restarts.first().is_some_and(|&byte| byte != 0);
    if starts_again && !serving.budgets.is_empty() {
        state.restart()
    } else {
        state
    }
}

/// The refusal of a run from this state.
fn run_refusal(serving: &Serving, state: &State) -> Option<u8> {
    let start = &serving.start;
    accept(&start.file, &start.settings, state, start.memory.len()).err()
}

/// The refusal that the papers give, worked out in wide numbers.
fn refusal(serving: &Serving) -> Option<u8> {
    if let Some(number) = run_refusal(serving, &judged(serving)) {
        return Some(number);
    }
    let words = serving.start.memory.len();
    let [first, size] = serving.window.map(u128::from);
    let bags = serving.budgets.len() as u128;
    let is_short = first + size > words as u128
        || (serving.restarts.len() as u128) < bags
        || (serving.words.len() as u128) < bags * size
        || serving.room.iter().any(|&length| u128::from(length) < bags);
    is_short.then_some(8)
}

/// Calls by their refusal, 0 for none; those served of a state that a bag cannot go
/// on from, and those refused with 7 for a state whose restart is accepted.
#[derive(Debug, Default)]
struct Calls {
    refusals: [usize; 9],
    mended: usize,
    gone_on: usize,
}

/// The call is the engine's service, or refused with nothing changed; and the
/// statement holds of it.
fn check_call(serving: &Serving, calls: &mut Calls) {
    let served = serving.serve();
    let as_it_came = run_refusal(serving, &serving.start.state);
    let number = refusal(serving);
    calls.refusals[usize::from(number.unwrap_or(0))] += 1;
    match number {
        None => {
            assert_eq!(served, as_served(serving));
            assert_eq!(serving.service().first_call().err(), None);
            assert_eq!(faults(&serving.service()), []);
            calls.mended += usize::from(as_it_came == Some(7));
        }
        Some(number) => {
            let (endings, steps) = as_lent(serving);
            let memory = serving.start.memory.clone();
            let answer = Err(number);
            let expected = Served {
                answer,
                memory,
                endings,
                steps,
            };
            assert_eq!(served, expected);
            let restarts = run_refusal(serving, &serving.start.state.restart());
            calls.gone_on += usize::from(number == 7 && restarts.is_none());
        }
    }
}

#[test]
fn the_call_is_the_engines_service_or_changes_nothing() {
    let mut random = Random::new(65);
    let mut calls = Calls::default();
    for _ in 0..3_000 {
        check_call(&random_serving(&mut random), &mut calls);
    }
    println!("{calls:?}");
    let refusals = calls.refusals;
    assert!(refusals[0] >= 1_800);
    assert!(refusals[1..].iter().all(|&services| services >= 5));
    assert!(refusals[8] >= 150);
    assert!(calls.mended >= 200 && calls.gone_on >= 60);
}

#[test]
fn the_statement_holds_of_every_stored_service() {
    let mut calls = Calls::default();
    for (_, services) in parts() {
        for serving in &services {
            check_call(serving, &mut calls);
        }
    }
    println!("{calls:?}");
    assert!(calls.refusals[0] >= 850);
    assert!(calls.refusals[1..].iter().all(|&services| services >= 8));
    assert!(calls.mended >= 60 && calls.gone_on >= 60);
}
