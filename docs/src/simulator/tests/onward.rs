//! Wish 12 on random accepted runs, and what kinds of runs those are: the engine
//! against the ledger that goes on, and that one against document 01's ledger and
//! against a count modulo a prime.

mod residue;
use residue::are_exact;

use simulator::cases::Case;
use simulator::congruence::{engine_of, faults, is_bound, ledger_of, onward_of};
use simulator::generate::case::accepted_run;
use simulator::generate::onward::bound_run;
use simulator::generate::random::Random;
use simulator::integer::Integer;
use simulator::ledger::{LedgerEnding, LedgerOutcome};
use simulator::onward::OnwardOutcome;
use simulator::walk::walk;
use simulator::whole::Whole;
use simulator::words::Reading;
use simulator::{Ending, Outcome};

/// The kinds of runs that came up.
#[derive(Debug, Default)]
struct Seen {
    runs: usize,
    steps: u64,
    /// Document 01's ledger left: an exact result past 40 bits; steps after that.
    left: usize,
    steps_beyond: u64,
    /// Numbers at the end beyond 2^40, 2^64, 2^128, 2^1000, either sign.
    beyond: [usize; 4],
    negative_beyond_64: usize,
    /// O flags of engine and ledger that differ at the end.
    o_flags_differ: usize,
    /// At the start: an S flag, an O flag, in a loop, in a repeat.
    s_set: usize,
    o_set: usize,
    mid_loop: usize,
    mid_repeat: usize,
    done: usize,
    spent: usize,
    traps: [usize; 8],
    budget_0: usize,
    largest_budget: usize,
    /// Starts by US, IF, ACCSAT, SATDW, RND set.
    modes: [usize; 5],
    circular_x: usize,
    circular_y: usize,
    reversed: usize,
    /// Executions of each kind, and steps with so many loops active.
    kinds: [u64; 26],
    depths: [u64; 5],
}

/// Whether a number is beyond 2^n on either side.
fn is_beyond(number: &Integer, n: u32) -> bool {
    let power = Integer::from(1).times_power(n);
    *number > power || *number < -power
}

impl Seen {
    fn add(&mut self, case: &Case) {
        let engine = walk(case, |operation, before, _| {
            self.kinds[usize::from(operation.kind())] += 1;
            self.depths[usize::from(before.flow.active)] += 1;
        });
        self.runs += 1;
        self.steps += u64::from(engine.steps);
        self.add_start(case);
        self.add_ending(engine.ending);
        let onward = onward_of(case, case.budget);
        assert!(are_exact(case, case.budget, &onward));
        self.add_numbers(&engine, &onward);
        self.add_leaving(&ledger_of(case), engine.steps);
    }

    fn add_start(&mut self, case: &Case) {
        let (state, settings) = (&case.state, &case.settings);
        self.s_set += usize::from(state.saturated != [false; 2]);
        self.o_set += usize::from(state.overflow != [false; 2]);
        self.mid_loop += usize::from(state.flow.active > 0);
        self.mid_repeat += usize::from(state.flow.repeat > 0);
        self.budget_0 += usize::from(case.budget == 0);
        self.largest_budget += usize::from(case.budget == u32::MAX);
        self.circular_x += usize::from(settings.x.register != 15);
        self.circular_y += usize::from(settings.y.register != 15);
        self.reversed += usize::from(settings.reversed.register != 15);
        let mode = state.mode;
        self.modes[0] += usize::from(mode.reading() == Reading::Unsigned);
        self.modes[1] += usize::from(!mode.doubles());
        self.modes[2] += usize::from(mode.wide_saturation());
        self.modes[3] += usize::from(mode.limits_stores());
        self.modes[4] += usize::from(mode.ties_up());
    }

    fn add_ending(&mut self, ending: Ending) {
        match ending {
            Ending::Done => self.done += 1,
            Ending::Spent => self.spent += 1,
            Ending::Trap(trap) => self.traps[usize::from(trap.number())] += 1,
            Ending::Refused(_) => panic!("a run was refused"),
        }
    }

    fn add_numbers(&mut self, engine: &Outcome, onward: &OnwardOutcome) {
        let numbers = &onward.state.accumulators;
        for (seen, n) in self.beyond.iter_mut().zip([40, 64, 128, 1_000]) {
            *seen += usize::from(numbers.iter().any(|number| is_beyond(number, n)));
        }
        let low = -Integer::from(1).times_power(64);
        self.negative_beyond_64 += usize::from(numbers.iter().any(|number| *number < low));
        self.o_flags_differ += usize::from(engine.state.overflow != onward.state.overflow);
    }

    fn add_leaving(&mut self, ledger: &LedgerOutcome, steps: u32) {
        if ledger.ending == LedgerEnding::Left {
            self.left += 1;
            self.steps_beyond += u64::from(steps - ledger.steps);
        }
    }
}

fn at_least(seen: &Seen) {
    assert!(seen.runs >= 20_000 && seen.steps >= 8_000_000);
    assert!(seen.left >= 5_000 && seen.steps_beyond >= 4_000_000);
    let beyond = seen.beyond.into_iter().zip([3_000, 1_000, 900, 80]);
    assert!(beyond.into_iter().all(|(runs, least)| runs >= least));
    assert!(seen.negative_beyond_64 >= 600 && seen.o_flags_differ >= 250);
    assert!(seen.s_set >= 9_000 && seen.o_set >= 9_000);
    assert!(seen.mid_loop >= 3_000 && seen.mid_repeat >= 700);
    assert!(seen.done >= 5_000 && seen.spent >= 8_000);
    assert!(seen.traps[1] >= 300 && seen.traps[2] >= 1_300 && seen.traps[4] >= 250);
    assert!(seen.budget_0 >= 1_000 && seen.largest_budget >= 500);
    assert!(seen.modes.iter().all(|&runs| runs >= 9_000));
    assert!(seen.circular_x >= 8_000 && seen.circular_y >= 8_000 && seen.reversed >= 8_000);
    assert!(seen.depths.iter().all(|&steps| steps >= 10_000));
    for (kind, &steps) in seen.kinds.iter().enumerate() {
        let is_barred = matches!(kind, 0 | 11 | 14 | 15 | 24 | 25);
        assert!(if is_barred {
            steps == 0
        } else {
            steps >= 8_000
        });
    }
}

#[test]
fn the_wish_on_random_runs() {
    let mut random = Random::new(120);
    let mut seen = Seen::default();
    for number in 0..20_000 {
        let case = bound_run(&mut random);
        assert!(is_bound(&case), "run {number}");
        assert_eq!(faults(&case), [], "run {number}");
        seen.add(&case);
    }
    println!("{seen:#?}");
    at_least(&seen);
}

/// A run of few steps that leaves the limits.
fn leaving_run(random: &mut Random) -> Case {
    loop {
        let case = bound_run(random);
        let has_left = ledger_of(&case).ending == LedgerEnding::Left;
        if has_left && engine_of(&case).steps <= 300 {
            return case;
        }
    }
}

/// Each budget up to one more than a run needs; how many those are.
fn hold_with_every_budget(case: &Case) -> u32 {
    let most = engine_of(case).steps + 1;
    for budget in 0..=most {
        let case = Case {
            budget,
            ..case.clone()
        };
        assert_eq!(faults(&case), [], "budget {budget}");
    }
    most + 1
}

/// After any number of steps.
#[test]
fn every_budget_of_random_runs() {
    let mut random = Random::new(122);
    let runs = (0..100).map(|_| leaving_run(&mut random));
    let budgets: u32 = runs.map(|case| hold_with_every_budget(&case)).sum();
    println!("{budgets} budgets");
    assert!(budgets >= 5_000);
}

/// Any accepted run, also those that the wish is not about: what document 01's
/// ledger says, the one that goes on says too.
#[test]
fn both_ledgers_on_random_runs() {
    let mut random = Random::new(121);
    let (mut left, mut whole, mut stores) = (0, 0, 0);
    for number in 0..5_000 {
        let mut case = accepted_run(&mut random, true);
        case.budget = case.budget.min(3_000);
        assert_eq!(faults(&case), [], "run {number}");
        let ledger = ledger_of(&case);
        stores += ledger.stores.len();
        match ledger.ending {
            LedgerEnding::Left => left += 1,
            LedgerEnding::AsRun(_) => whole += 1,
        }
    }
    println!("{left} left, {whole} did not, {stores} stores");
    assert!(left >= 500 && whole >= 2_000 && stores >= 100_000);
}
