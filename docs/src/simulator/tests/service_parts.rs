//! Restarts, ending codes, the controller's change and the end of the ledger's
//! service.

mod common;
use common::*;

use simulator::generate::random::Random;
use simulator::generate::services::random::random_service;
use simulator::ledger::LedgerState;
use simulator::service::*;
use simulator::statement::faults;
use simulator::{Ending, State};

#[test]
fn a_restart_keeps_all_but_the_place() {
    let mut random = Random::new(64);
    for _ in 0..300 {
        let state = random_service(&mut random, true).start.state;
        let again = state.restart();
        let place = (again.flow.pc, again.flow.active, again.flow.repeat);
        assert_eq!(place, (0, 0, 0));
        let slots = again.flow.loops;
        assert!(slots
            .iter()
            .all(|slot| (slot.do_number, slot.passes) == (0, 0)));
        let flow = state.flow;
        assert_eq!(State { flow, ..again }, state);
        assert_eq!(LedgerState::of(&state).restart(), LedgerState::of(&again));
    }
}

#[test]
fn endings_have_these_codes() {
    assert_eq!(Ending::Done.code(), Some(0x00));
    assert_eq!(Ending::Spent.code(), Some(0x10));
    for number in 1..=7 {
        assert_eq!(trap(number).code(), Some(0x20 + number));
        assert_eq!(Ending::Refused(number).code(), None);
    }
}

/// Each bag adds W4 to A; A leaves 2^31 - 1 in the third.
fn leaving_in_the_third(bags: usize) -> Service {
    let bench = Bench::new().a((1 << 31) - 3 * 65_536).w(4, 1).mode(0x0080);
    let bag = Bag {
        change: Change::Put {
            first: 5,
            words: vec![7],
        },
        restart: true,
        budget: 9,
    };
    Service {
        start: bench.case(&[IDLE, add(0, 0, 4, 0), sac_r(0, 0, 5, 0)]),
        bags: vec![bag; bags],
    }
}

#[test]
fn the_ledger_serves_up_to_the_bag_that_left() {
    for (bags, served) in [(0, 0), (1, 1), (2, 2), (3, 3), (4, 3), (9, 3)] {
        let service = leaving_in_the_third(bags);
        assert_eq!(engine_service(&service).len(), bags);
        let ledger = ledger_service(&service);
        let left: Vec<bool> = ledger.iter().map(LedgerBag::left).collect();
        assert_eq!(left, [false, false, true][..served]);
        // A step and the sum; in the third the step before the sum alone.
        let steps: Vec<u32> = ledger.iter().map(|bag| bag.outcome.steps).collect();
        assert_eq!(steps, [3, 3, 1][..served]);
        let listed: Vec<usize> = ledger.iter().map(|bag| bag.outcome.stores.len()).collect();
        assert_eq!(listed, [1, 1, 0][..served]);
        assert_eq!(faults(&service), []);
    }
}

#[test]
fn each_bags_list_counts_its_own_steps() {
    let ledger = ledger_service(&leaving_in_the_third(2));
    let first = |bag: &LedgerBag| (bag.outcome.stores[0].step, bag.outcome.stores[0].word);
    // 2^31 - 2 x 65,536 is 32,766 units, then one more.
    assert_eq!(first(&ledger[0]), (3, 32_766));
    assert_eq!(first(&ledger[1]), (3, 32_767));
}

#[test]
fn the_controller_changes_both_memories_alike() {
    // Word 0 is added in each bag: 3, then word 2, copied over it: 5.
    let start = Bench::new().w(0, 0x1000).word(0x1004, 5);
    let put = Change::Put {
        first: 0,
        words: vec![3],
    };
    let (from, to, size) = (2, 0, 1);
    let copy = Change::Copy { from, to, size };
    let bags = [put, copy].map(|change| Bag {
        change,
        restart: true,
        budget: 9,
    });
    let service = Service {
        start: start.case(&[load(4, 0, 1), add(0, 0, 4, 0)]),
        bags: bags.to_vec(),
    };
    let (engine, ledger) = (engine_service(&service), ledger_service(&service));
    assert_eq!(engine[1].outcome.state.accumulators[0], 8 * 65_536);
    assert_eq!(ledger[1].outcome.state.accumulators[0], 8 * 65_536);
    assert_eq!((engine[1].given[0], ledger[1].given[0]), (5, 5));
    assert_eq!(faults(&service), []);
}
