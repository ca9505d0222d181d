//! The statement of SERVICE.md on random services, and what kinds of services
//! those are.

use simulator::cases::Case;
use simulator::file::check_file;
use simulator::flow::NO_LOOP;
use simulator::generate::random::Random;
use simulator::generate::services::random::{bound_service, random_service};
use simulator::ledger::ListedStore;
use simulator::operation::{Operation, Target, WriteBack};
use simulator::service::*;
use simulator::state::loops_around;
use simulator::statement::{faults, faults_of, is_bound_by_3};
use simulator::walk::walk;
use simulator::{Ending, State};

/// The kinds of services and bags that came up.
#[derive(Debug, Default)]
struct Seen {
    services: usize,
    bags: usize,
    steps: u64,
    /// Point 3 speaks of them; kind 25 is in the program; an S flag is set at first.
    bound: usize,
    with_25: usize,
    s_set_at_first: usize,
    /// The first state is in a loop or a repeat, and the first bag goes on.
    mid_loop: usize,
    mid_repeat: usize,
    /// The first state does not fit the program, so the first bag starts again; those
    /// of which point 3 speaks, and those by what does not fit.
    misplaced: usize,
    misplaced_bound: usize,
    pc_above: usize,
    other_loops: usize,
    other_repeat: usize,
    used_slot: usize,
    restarted: usize,
    gone_on: usize,
    budget_0: usize,
    done: usize,
    spent: usize,
    /// Spent in a loop or a repeat, and the next bag goes on.
    cut_in_loop: usize,
    cut_in_repeat: usize,
    /// Traps by number; those with a bag after them that goes on, that restarts.
    traps: [usize; 8],
    traps_gone_on: [usize; 8],
    traps_restarted: [usize; 8],
    /// Services of three bags and more that leave the limits in this bag.
    left_first: usize,
    left_middle: usize,
    left_last: usize,
    /// Services of two bags and more in which nothing leaves.
    never_left: usize,
    left_with_stores: usize,
    /// Services that execute kind 15, a write-back, and list those without limiting.
    rounded_stores: usize,
    write_backs: usize,
    rounded_without_limiting: usize,
    /// Services by saturation of A and B in the first state: off, 32 bits, 40 bits.
    saturation: [usize; 3],
    mode_changes: usize,
    trap_words: [usize; 8],
    /// Bags by the controller's change.
    empty_windows: usize,
    whole_memories: usize,
    copies: usize,
}

impl Seen {
    fn add(&mut self, service: &Service, engine: &[EngineBag], ledger: &[LedgerBag]) {
        self.services += 1;
        self.bags += engine.len();
        self.add_start(service);
        self.add_misplaced(service);
        for (i, bag) in engine.iter().enumerate() {
            self.add_bag(service, i, bag);
            let next = service.bags.get(i + 1).map(|next| next.restart);
            self.add_ending(bag, next);
        }
        if is_bound_by_3(service) {
            self.bound += 1;
            self.add_ledger(service, ledger);
        }
        self.add_executed(service, engine);
    }

    fn add_start(&mut self, service: &Service) {
        let Case {
            file,
            state,
            settings,
            ..
        } = &service.start;
        let (_, operations) = check_file(file).expect("an accepted file");
        self.with_25 += usize::from(operations.contains(&Operation::ClearSaturation));
        self.s_set_at_first += usize::from(state.saturated != [false; 2]);
        let goes_on = service.bags.first().is_some_and(|bag| !bag.restart);
        self.mid_loop += usize::from(goes_on && state.flow.active > 0);
        self.mid_repeat += usize::from(goes_on && state.flow.repeat > 0);
        let on = [Target::A, Target::B].map(|target| state.mode.saturates(target));
        let limit = 1 + usize::from(state.mode.wide_saturation());
        self.saturation[if on.contains(&true) { limit } else { 0 }] += 1;
        self.trap_words[usize::from(settings.trap_word >> 8)] += 1;
    }

    fn add_misplaced(&mut self, service: &Service) {
        let state = &service.start.state;
        let (_, operations) = check_file(&service.start.file).expect("an accepted file");
        if service.bags.is_empty() || state.is_accepted(&operations) {
            return;
        }
        assert!(service.bags[0].restart);
        self.misplaced += 1;
        self.misplaced_bound += usize::from(is_bound_by_3(service));
        let pc = usize::from(state.flow.pc);
        let after_repeat = pc > 0 && operations.get(pc - 1).is_some_and(Operation::is_repeat);
        self.pc_above += usize::from(pc > operations.len());
        self.other_loops += usize::from(has_other_loops(state, &operations));
        self.other_repeat += usize::from((state.flow.repeat > 0) != after_repeat);
        let mut unused = state.flow.loops.iter().skip(state.flow.active.into());
        self.used_slot += usize::from(unused.any(|slot| *slot != NO_LOOP));
    }

    fn add_bag(&mut self, service: &Service, i: usize, bag: &EngineBag) {
        let asked = &service.bags[i];
        self.restarted += usize::from(asked.restart);
        self.gone_on += usize::from(!asked.restart);
        self.budget_0 += usize::from(asked.budget == 0);
        self.steps += u64::from(bag.outcome.steps);
        match &asked.change {
            Change::Put { words, .. } => {
                self.empty_windows += usize::from(words.is_empty());
                self.whole_memories += usize::from(words.len() == bag.given.len());
            }
            Change::Copy { .. } => self.copies += 1,
        }
    }

    /// `next`: whether there is a bag after it, and whether that starts again.
    fn add_ending(&mut self, bag: &EngineBag, next: Option<bool>) {
        let flow = &bag.outcome.state.flow;
        let gone_on = next == Some(false);
        match bag.outcome.ending {
            Ending::Done => self.done += 1,
            Ending::Spent => {
                self.spent += 1;
                self.cut_in_loop += usize::from(gone_on && flow.active > 0);
                self.cut_in_repeat += usize::from(gone_on && flow.repeat > 0);
            }
            Ending::Trap(trap) => {
                let number = usize::from(trap.number());
                self.traps[number] += 1;
                self.traps_gone_on[number] += usize::from(gone_on);
                self.traps_restarted[number] += usize::from(next == Some(true));
            }
            Ending::Refused(_) => panic!("a bag was refused"),
        }
    }

    fn add_ledger(&mut self, service: &Service, ledger: &[LedgerBag]) {
        let (bags, left) = (service.bags.len(), ledger.iter().position(LedgerBag::left));
        match left {
            None => self.never_left += usize::from(bags >= 2),
            Some(0) => self.left_first += usize::from(bags >= 3),
            Some(bag) if bag + 1 == bags => self.left_last += usize::from(bags >= 3),
            Some(_) => self.left_middle += 1,
        }
        let stores = || ledger.iter().flat_map(|bag| &bag.outcome.stores);
        self.left_with_stores += usize::from(left.is_some() && stores().count() > 0);
        let bound = |store: &&_| is_bound_store(store);
        self.rounded_without_limiting += stores().filter(bound).count();
    }

    fn add_executed(&mut self, service: &Service, engine: &[EngineBag]) {
        let (mut rounded, mut written_back, mut changed) = (false, false, false);
        for (asked, bag) in service.bags.iter().zip(engine) {
            let case = Case {
                state: bag.state,
                memory: bag.given.clone(),
                budget: asked.budget,
                ..service.start.clone()
            };
            walk(&case, |operation, _, _| {
                rounded |= operation.kind() == 15;
                written_back |= operation.write_back() != WriteBack::None;
                changed |= operation.kind() == 24;
            });
        }
        self.rounded_stores += usize::from(rounded);
        self.write_backs += usize::from(written_back);
        self.mode_changes += usize::from(changed);
    }
}

/// The active loops are not those around pc.
fn has_other_loops(state: &State, operations: &[Operation]) -> bool {
    let flow = &state.flow;
    let active = flow.loops.iter().take(flow.active.into());
    let numbers: Vec<u16> = active.map(|slot| slot.do_number).collect();
    numbers != loops_around(flow.pc, operations)
}

fn is_bound_store(store: &ListedStore) -> bool {
    store.rounded && !store.limiting_needed
}

/// A service for point 3, or now and then one that may have kind 25 in its program
/// or S flags at first.
fn next_service(random: &mut Random) -> Service {
    match random.below(4) {
        0 => random_service(random, true),
        _ => bound_service(random),
    }
}

fn at_least(seen: &Seen) {
    assert!(seen.services >= 6_000 && seen.bags >= 20_000);
    assert!(seen.bound >= 5_000 && seen.steps >= 1_000_000);
    assert!(seen.with_25 >= 150 && seen.s_set_at_first >= 100);
    assert!(seen.mid_loop >= 300 && seen.mid_repeat >= 150);
    assert!(seen.misplaced >= 500 && seen.misplaced_bound >= 400);
    assert!(seen.pc_above >= 100 && seen.other_loops >= 200);
    assert!(seen.other_repeat >= 100 && seen.used_slot >= 20);
    assert!(seen.restarted >= 8_000 && seen.gone_on >= 8_000);
    assert!(seen.budget_0 >= 1_500 && seen.done >= 5_000 && seen.spent >= 5_000);
    assert!(seen.cut_in_loop >= 1_500 && seen.cut_in_repeat >= 1_000);
    assert!(seen.traps[1..].iter().all(|&bags| bags >= 200));
    assert!(seen.traps_gone_on[1..].iter().all(|&bags| bags >= 25));
    assert!(seen.traps_restarted[1..].iter().all(|&bags| bags >= 100));
    assert!(seen.left_first >= 500 && seen.left_middle >= 300);
    assert!(seen.left_last >= 150 && seen.never_left >= 2_500);
    assert!(seen.left_with_stores >= 500);
    assert!(seen.rounded_stores >= 2_000 && seen.write_backs >= 1_500);
    assert!(seen.rounded_without_limiting >= 50_000);
    assert!(seen.saturation.iter().all(|&services| services >= 700));
    assert!(seen.mode_changes >= 500);
    assert!(seen.trap_words.iter().all(|&services| services >= 150));
    assert!(seen.empty_windows >= 1_500 && seen.whole_memories >= 900);
    assert!(seen.copies >= 2_500);
}

#[test]
fn the_statement_on_random_services() {
    let mut random = Random::new(60);
    let mut seen = Seen::default();
    for number in 0..6_000 {
        let service = next_service(&mut random);
        assert!(service.first_call().is_ok(), "service {number}");
        let (engine, ledger) = (engine_service(&service), ledger_service(&service));
        let faults = faults_of(&service, &engine, &ledger);
        assert!(faults.is_empty(), "service {number}: {}", faults[0]);
        seen.add(&service, &engine, &ledger);
    }
    println!("{seen:#?}");
    at_least(&seen);
}

/// The statement is not about a service whose first bag cannot begin; with no bags
/// the first state itself is asked for.
#[test]
fn services_that_the_statement_is_not_about() {
    let mut random = Random::new(62);
    let mut misplaced = 0;
    while misplaced < 50 {
        let mut service = random_service(&mut random, true);
        let (_, operations) = check_file(&service.start.file).expect("an accepted file");
        if service.start.state.is_accepted(&operations) {
            continue;
        }
        misplaced += 1;
        assert_eq!(faults(&service), []);
        service.bags[0].restart = false;
        assert_eq!(service.first_call(), Err(7));
        assert!(faults(&service).iter().any(|fault| fault.bag == 0));
        service.bags.clear();
        assert_eq!(service.first_call(), Err(7));
    }
}
