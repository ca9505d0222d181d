//! Demand 3 on random accepted runs: both S flags are clear at the engine's end
//! exactly when the ledger was not marked "left"; then both end alike; and every
//! rounded store that needed no limiting is within half a unit of the exact
//! value.

mod common;
use common::*;

use simulator::cases::Case;
use simulator::congruence::ledger_of;
use simulator::file::check_file;
use simulator::generate::case::{accepted_run, candidate};
use simulator::generate::pairs::{accepted_pair, joined_file};
use simulator::generate::passes::random_passes;
use simulator::generate::random::Random;
use simulator::generate::runs::passes::{counting, products};
use simulator::ledger::{LedgerEnding, LedgerOutcome, ListedStore};
use simulator::operand::Place;
use simulator::{Ending, Outcome, Trap};

#[derive(Debug, Default)]
struct Seen {
    runs: usize,
    left: usize,
    not_left: usize,
    /// Left, after this many stores were listed.
    left_with_stores: usize,
    rounded_without_limiting: usize,
    rounded_with_limiting: usize,
    rerun: usize,
    rerun_to_memory: usize,
    rerun_ties: usize,
    overflow_traps: usize,
    traps_without_effect: usize,
    done: usize,
    spent: usize,
    mid_loop: usize,
    mid_repeat: usize,
    steps: u64,
}

fn check_store(case: &Case, store: &ListedStore, seen: &mut Seen) {
    let word = engine_word(case, store);
    assert_eq!(word, store.word);
    if store.rounded && !store.limiting_needed {
        let distance = (65_536 * word - store.value).abs();
        assert!(distance <= 32_768, "{store:?}");
        seen.rerun += 1;
        seen.rerun_ties += usize::from(distance == 32_768);
        seen.rerun_to_memory += usize::from(matches!(store.place, Place::Memory(_)));
    }
}

/// A sample of a run's stores, one rounded without limiting among them where
/// there is one.
fn check_stores(random: &mut Random, case: &Case, ledger: &LedgerOutcome, seen: &mut Seen) {
    let bound: Vec<&ListedStore> = ledger
        .stores
        .iter()
        .filter(|store| store.rounded && !store.limiting_needed)
        .collect();
    for store in &bound {
        assert!((65_536 * store.word - store.value).abs() <= 32_768);
    }
    seen.rounded_without_limiting += bound.len();
    let rounded = ledger.stores.iter().filter(|store| store.rounded).count();
    seen.rounded_with_limiting += rounded - bound.len();
    for _ in 0..bound.len().min(3) {
        check_store(case, random.pick(&bound), seen);
    }
    if !ledger.stores.is_empty() {
        check_store(case, &random.pick(&ledger.stores), seen);
    }
}

fn check_run(random: &mut Random, mut case: Case, seen: &mut Seen) {
    case.state.saturated = [false; 2];
    case.budget = case.budget.min(20_000);
    let (outcome, memory) = case.run(case.budget);
    let ledger = ledger_of(&case);
    assert!(!matches!(outcome.ending, Ending::Refused(_)));
    let left = ledger.ending == LedgerEnding::Left;
    assert_eq!(outcome.state.saturated == [false; 2], !left);
    if !left {
        end_alike(&outcome, &memory, &ledger);
    }
    check_stores(random, &case, &ledger, seen);
    count(&case, &outcome, &ledger, left, seen);
}

fn count(case: &Case, outcome: &Outcome, ledger: &LedgerOutcome, left: bool, seen: &mut Seen) {
    seen.runs += 1;
    seen.left += usize::from(left);
    seen.not_left += usize::from(!left);
    seen.left_with_stores += usize::from(left && !ledger.stores.is_empty());
    seen.mid_loop += usize::from(case.state.flow.active > 0);
    seen.mid_repeat += usize::from(case.state.flow.repeat > 0);
    seen.steps += u64::from(outcome.steps);
    match outcome.ending {
        Ending::Done => seen.done += 1,
        Ending::Spent => seen.spent += 1,
        Ending::Trap(Trap::OverflowA | Trap::OverflowB) => {
            seen.overflow_traps += usize::from(!left);
        }
        _ => seen.traps_without_effect += 1,
    }
}

#[test]
fn demand_3_on_random_accepted_runs() {
    let mut random = Random::new(33);
    let mut seen = Seen::default();
    for _ in 0..20_000 {
        let case = candidate(&mut random, false);
        check_run(&mut random, case, &mut seen);
    }
    for _ in 0..2_000 {
        let case = accepted_run(&mut random, false);
        check_run(&mut random, case, &mut seen);
    }
    println!("{seen:#?}");
    assert!(seen.runs >= 20_000);
    assert!(seen.left >= 3_000);
    assert!(seen.left_with_stores >= 1_000);
    assert!(seen.not_left >= 10_000);
    assert!(seen.rounded_without_limiting >= 50_000);
    assert!(seen.rounded_with_limiting >= 5_000);
    assert!(seen.rerun >= 15_000);
    assert!(seen.rerun_to_memory >= 5_000);
    assert!(seen.overflow_traps >= 200);
    assert!(seen.traps_without_effect >= 1_000);
    assert!(seen.done >= 2_000 && seen.spent >= 2_000);
    assert!(seen.mid_loop >= 2_000);
    assert!(seen.mid_repeat >= 1_000);
}

/// The run of a joined file without kind 25.
fn joined_run(random: &mut Random) -> Case {
    loop {
        let pair = accepted_pair(random);
        let file = joined_file(&pair.first.file, &pair.second);
        let (_, operations) = check_file(&file).expect("a joined file");
        if operations.iter().all(|operation| operation.kind() != 25) {
            return Case { file, ..pair.first };
        }
    }
}

/// Exact sums are promised to a joined program as to any accepted one.
#[test]
fn demand_3_on_joined_files() {
    let mut random = Random::new(34);
    let mut seen = Seen::default();
    for _ in 0..4_000 {
        let case = joined_run(&mut random);
        check_run(&mut random, case, &mut seen);
    }
    println!("{seen:#?}");
    assert!(seen.left >= 500 && seen.not_left >= 2_000);
    assert!(seen.rounded_without_limiting >= 5_000 && seen.rerun >= 1_000);
    assert!(seen.done >= 300 && seen.spent >= 500);
}

// ---- wish 1

/// Random runs with counts of 16 bits and passes left up to 65,536.
#[test]
fn demand_3_on_runs_with_many_passes() {
    let mut random = Random::new(35);
    let (mut seen, mut wide) = (Seen::default(), 0);
    while seen.runs < 6_000 {
        let case = random_passes(&mut random, false);
        let slots = case.state.flow.loops;
        if slots.iter().any(|slot| slot.passes > 65_536)
            || matches!(case.run(0).0.ending, Ending::Refused(_))
        {
            continue;
        }
        wide += usize::from(slots.iter().any(|slot| slot.passes > 32_768));
        check_run(&mut random, case, &mut seen);
    }
    println!("{wide} from more than 32,768 passes, {seen:#?}");
    assert!(wide >= 1_000);
    assert!(seen.left >= 1_000 && seen.not_left >= 3_000);
    assert!(seen.rounded_without_limiting >= 20_000 && seen.rerun >= 3_000);
    assert!(seen.done >= 500 && seen.spent >= 1_000 && seen.mid_loop >= 1_500);
}

/// The ledger makes as many passes as the engine: 1 + 2 x (W + 1) steps.
#[test]
fn the_ledger_counts_with_16_bits() {
    for word in [0, 1, 0x3FFF, 0x4000, 0x4001, 0x8000, 0xC000, 0xFFFF] {
        let case = counting(3, word).budget(u32::MAX).case;
        let (outcome, memory) = case.run(case.budget);
        let ledger = ledger_of(&case);
        let passes = i128::from(word) + 1;
        assert_eq!(i128::from(ledger.steps), 1 + 2 * passes);
        assert_eq!(ledger.state.accumulators, [65_536 * passes, 2 * passes]);
        end_alike(&outcome, &memory, &ledger);
    }
}

/// The step before which the ledger stops, p being added to A and taken from B in each
/// pass and the limits -limit..limit - 1, if it stops within so many passes.
fn leaves(p: i128, limit: i128, passes: i128) -> Option<i128> {
    let of_a = (limit - 1) / p + 1;
    let of_b = limit / p + 1;
    let steps = (1 + 2 * (of_a - 1)).min(2 + 2 * (of_b - 1));
    (of_a <= passes).then_some(steps)
}

/// Sums over a whole belt: W4 squared, doubled, in each of up to 65,536 passes.
#[test]
fn demand_3_on_whole_belts() {
    let mut left = 0;
    for (mode, limit) in [(0x0020, 1 << 39), (0x00F0, 1 << 39), (0x00E0, 1 << 31)] {
        for word in [0x3FFF, 0x4000, 0xFFFE, 0xFFFF] {
            for factor in [5, 0x00B5, 0x00B6, 0x0100, 0x0800, 0x0801, 0x1000] {
                let case = products(word, factor, mode).case;
                let (p, passes) = (2 * i128::from(factor).pow(2), i128::from(word) + 1);
                let (outcome, memory) = case.run(case.budget);
                let ledger = ledger_of(&case);
                match leaves(p, limit, passes) {
                    Some(steps) => {
                        assert_eq!(ledger.ending, LedgerEnding::Left);
                        assert_eq!(i128::from(ledger.steps), steps);
                        assert_ne!(outcome.state.saturated, [false; 2]);
                        left += 1;
                    }
                    None => {
                        assert_eq!(outcome.state.saturated, [false; 2]);
                        end_alike(&outcome, &memory, &ledger);
                        let sums = [passes * p, -passes * p];
                        assert_eq!(ledger.state.accumulators, sums);
                    }
                }
            }
        }
    }
    assert!(left >= 15, "{left}");
}

/// A rounded store in each of 65,536 passes, 50 more in A each time.
#[test]
fn every_store_of_a_whole_belt() {
    let mac = mac(0, 0x54, 0, 0, 0, 0);
    let ops = [do_w(3, 2), mac, sac_r(0, 0, 6, 0)];
    let bench = Bench::new().w(3, 0xFFFF).w(4, 5).w(5, 5);
    let case = bench.case(&ops);
    let ledger = ledger_of(&case);
    assert_eq!((ledger.steps, ledger.stores.len()), (131_073, 65_536));
    for (pass, store) in (1..).zip(&ledger.stores) {
        let value = 50 * pass;
        assert_eq!((i128::from(store.step), store.value), (1 + 2 * pass, value));
        assert!((65_536 * store.word - value).abs() <= 32_768);
        assert!(store.rounded && !store.limiting_needed);
    }
    for pass in [1, 655, 656, 16_385, 32_769, 49_153, 65_536] {
        let store = &ledger.stores[pass - 1];
        assert_eq!(engine_word(&case, store), store.word);
    }
}
